//! A plain move generator on bitboards, with no contracts: the yardstick for `dw_bench`.
//!
//!     rustc -O checks/bitboards.rs -o /tmp/bitboards && /tmp/bitboards 2
//!
//! It makes the same moves on the same positions as `dw_bench 2` and prints how many, and how many a second. With the
//! word `deep` it counts the same lines as `dw_bench deep`. Square s is bit s - 1 + (s - 1) / 10, so that a step of all
//! squares is one shift.

use std::time::Instant;

pub const BOARD: u64 = 0x3ff7feffdffbff;
const LAST_ROWS: [u64; 2] = [0x1f, 0x1f << 49];

#[derive(Clone, Copy, PartialEq)]
pub struct Position {
    pub men: [u64; 2],
    pub kings: [u64; 2],
    pub turn: usize,
}

#[derive(Clone, Copy, PartialEq)]
pub struct Move {
    pub from: u64,
    pub to: u64,
    pub taken: u64,
}

struct Found<'a> {
    most: u32,
    moves: &'a mut Vec<Move>,
}

/// What stays the same while one piece captures.
struct Taker {
    is_king: bool,
    enemies: u64,
    occupied: u64,
}

/// The squares one step away; direction 3 - d leads back.
pub fn shifted(squares: u64, direction: usize) -> u64 {
    let word = match direction {
        0 => squares >> 6,
        1 => squares >> 5,
        2 => squares << 5,
        _ => squares << 6,
    };
    word & BOARD
}

fn each_bit(mut set: u64, mut f: impl FnMut(u64)) {
    while set != 0 {
        let bit = set & set.wrapping_neg();
        set ^= bit;
        f(bit);
    }
}

fn walk(taker: &Taker, begun: Move, count: u32, found: &mut Found) {
    let mut goes_on = false;
    for direction in 0..4 {
        let mut over = shifted(begun.to, direction);
        while taker.is_king && over != 0 && over & taker.occupied == 0 {
            over = shifted(over, direction);
        }
        if over & taker.enemies == 0 || over & begun.taken != 0 {
            continue;
        }
        let mut landing = shifted(over, direction);
        while landing != 0 && landing & taker.occupied == 0 {
            goes_on = true;
            let taken = begun.taken | over;
            walk(taker, Move { to: landing, taken, ..begun }, count + 1, found);
            if !taker.is_king {
                break;
            }
            landing = shifted(landing, direction);
        }
    }
    if !goes_on && count > 0 && count >= found.most {
        if count > found.most {
            found.moves.clear();
            found.most = count;
        }
        if !found.moves.contains(&begun) {
            found.moves.push(begun);
        }
    }
}

pub fn legal_into(position: &Position, moves: &mut Vec<Move>) {
    moves.clear();
    let (men, kings) = (position.men[position.turn], position.kings[position.turn]);
    let enemies = position.men[1 - position.turn] | position.kings[1 - position.turn];
    let occupied = men | kings | enemies;
    let mut takers = kings;
    for direction in 0..4 {
        let behind = shifted(shifted(men, direction) & enemies, direction) & !occupied;
        takers |= shifted(shifted(behind, 3 - direction), 3 - direction);
    }
    let mut found = Found { most: 0, moves };
    each_bit(takers, |from| {
        let taker = Taker { is_king: kings & from != 0, enemies, occupied: occupied & !from };
        walk(&taker, Move { from, to: from, taken: 0 }, 0, &mut found);
    });
    if found.most > 0 {
        return;
    }
    for direction in if position.turn == 0 { [0, 1] } else { [2, 3] } {
        each_bit(shifted(men, direction) & !occupied, |to| {
            moves.push(Move { from: shifted(to, 3 - direction), to, taken: 0 });
        });
    }
    each_bit(kings, |from| {
        for direction in 0..4 {
            let mut to = shifted(from, direction);
            while to != 0 && to & occupied == 0 {
                moves.push(Move { from, to, taken: 0 });
                to = shifted(to, direction);
            }
        }
    });
}

pub fn play(position: &Position, step: &Move) -> Position {
    let mut after = *position;
    let side = position.turn;
    after.men[1 - side] &= !step.taken;
    after.kings[1 - side] &= !step.taken;
    if after.kings[side] & step.from != 0 {
        after.kings[side] = (after.kings[side] & !step.from) | step.to;
    } else {
        after.men[side] &= !step.from;
        if step.to & LAST_ROWS[side] != 0 {
            after.kings[side] |= step.to;
        } else {
            after.men[side] |= step.to;
        }
    }
    after.turn = 1 - side;
    after
}

fn moves_made(position: &Position, lists: &mut [Vec<Move>]) -> u64 {
    let Some((moves, rest)) = lists.split_first_mut() else {
        return 0;
    };
    legal_into(position, moves);
    let mut count = moves.len() as u64;
    for step in moves.iter() {
        count += moves_made(&play(position, step), rest);
    }
    count
}

fn perft(position: &Position, lists: &mut [Vec<Move>]) -> u64 {
    let Some((moves, rest)) = lists.split_first_mut() else {
        return 1;
    };
    legal_into(position, moves);
    if rest.is_empty() {
        return moves.len() as u64;
    }
    moves.iter().map(|step| perft(&play(position, step), rest)).sum()
}

pub fn squares(numbers: impl IntoIterator<Item = u64>) -> u64 {
    numbers.into_iter().fold(0, |set, s| set | 1 << (s - 1 + (s - 1) / 10))
}

fn main() {
    let word = std::env::args().nth(1);
    let is_deep = word.as_deref() == Some("deep");
    let added: usize = word.filter(|_| !is_deep).map_or(0, |word| word.parse().unwrap());
    let opening = Position { men: [squares(31..=50), squares(1..=20)], kings: [0, 0], turn: 1 };
    let middle = Position {
        men: [
            squares([25, 27, 28, 30, 32, 33, 34, 35, 37, 38]),
            squares([12, 13, 14, 16, 18, 19, 21, 23, 24, 26]),
        ],
        kings: [0, 0],
        turn: 0,
    };
    let kings = Position {
        men: [squares([6, 9, 10, 11, 20, 21, 22, 23, 30, 33, 37, 41, 42, 43, 44, 46]), 0],
        kings: [squares([31]), squares([17, 24])],
        turn: 1,
    };
    if is_deep {
        for (position, plies) in [(opening, 9), (middle, 17), (kings, 7)] {
            let start = Instant::now();
            let count = perft(&position, &mut vec![Vec::new(); plies]);
            println!("{count} lines of {plies} plies in {} milliseconds", start.elapsed().as_millis());
        }
        return;
    }
    for (position, plies) in [(opening, 5), (middle, 7), (kings, 4)] {
        let mut lists: Vec<Vec<Move>> = vec![Vec::new(); plies + added];
        let start = Instant::now();
        let count = moves_made(&position, &mut lists);
        let micros = start.elapsed().as_micros().max(1);
        println!("{count} moves made in {micros} microseconds: {} a second", u128::from(count) * 1_000_000 / micros);
    }
}
