//! A plain solver on the generator of `bitboards.rs`, with no contracts: the yardstick for `dw_bench solve`.
//!
//!     rustc -O checks/solving.rs -o /tmp/solving && /tmp/solving < crates/dw_bench/src/problems.rt
//!
//! It reads positions in quotes, each behind the least number of moves within which the side to move is said to win,
//! and prints the position, that number, the one that it finds up to it (0 for none), the positions expanded and the
//! microseconds. It begins each problem with an empty table of what is known. With the word `bare` there is no table
//! and no order of moves.

#[path = "bitboards.rs"]
#[allow(dead_code)]
mod bitboards;

use bitboards::{BOARD, Move, Position, legal_into, play, shifted, squares};
use std::io::Read;
use std::time::Instant;

const SLOTS: usize = 1 << 20;

/// What is known of a position: the greatest number of moves within which it has no win, and the least within which it
/// has one.
type Slot = Option<(Position, u8, u8)>;

struct Solver {
    slots: Vec<Slot>,
    expanded: u64,
    /// Lists that are free, kept for their memory.
    moves: Vec<Vec<Move>>,
    ranked: Vec<Vec<Ranked>>,
}

/// A move behind its rank: a lower one is tried first.
type Ranked = (u32, Move);

/// The number of the other side's quiet moves after a move, 0 if it must capture.
fn trial(position: &Position, step: &Move) -> u32 {
    let after = play(position, step);
    let (men, kings) = (after.men[after.turn], after.kings[after.turn]);
    let enemies = after.men[1 - after.turn] | after.kings[1 - after.turn];
    let empty = BOARD & !(men | kings | enemies);
    let mut count = 0;
    for direction in 0..4 {
        let mut ahead = shifted(kings, direction);
        let mut quiet = 0;
        while ahead & empty != 0 {
            ahead &= empty;
            quiet += ahead.count_ones();
            if shifted(shifted(ahead, direction) & enemies, direction) & empty != 0 {
                return 0;
            }
            ahead = shifted(ahead, direction);
        }
        let beside = shifted(shifted(men | kings, direction) & enemies, direction);
        if beside & empty != 0 {
            return 0;
        }
        count += quiet;
        if (direction < 2) == (after.turn == 0) {
            count += (shifted(men, direction) & empty).count_ones();
        }
    }
    count
}

fn slot_of(position: &Position) -> usize {
    let words = [position.men[0], position.kings[0], position.men[1], position.kings[1]];
    let hash = words.iter().fold(position.turn as u64, |hash, word| {
        let product = (hash ^ word).wrapping_mul(0x9E37_79B9_7F4A_7C15);
        product ^ (product >> 32)
    });
    hash as usize % SLOTS
}

impl Solver {
    fn new(has_table: bool) -> Self {
        let slots = vec![None; if has_table { SLOTS } else { 0 }];
        Solver { slots, expanded: 0, moves: Vec::new(), ranked: Vec::new() }
    }

    /// The greatest number of moves within which it is known that there is no win, and the least within which there is.
    fn bounds(&self, position: &Position) -> (u8, u8) {
        match self.slots.get(slot_of(position)) {
            Some(Some((held, fails, wins))) if held == position => (*fails, *wins),
            _ => (0, u8::MAX),
        }
    }

    fn note(&mut self, position: &Position, moves: u8, won: bool) {
        let (fails, wins) = self.bounds(position);
        let bounds = if won { (fails, wins.min(moves)) } else { (fails.max(moves), wins) };
        if let Some(slot) = self.slots.get_mut(slot_of(position)) {
            *slot = Some((*position, bounds.0, bounds.1));
        }
    }

    /// The legal moves; with a table, in the order of their trials.
    fn ranked(&mut self, position: &Position) -> Vec<Ranked> {
        let mut moves = self.moves.pop().unwrap_or_default();
        let mut ranked = self.ranked.pop().unwrap_or_default();
        legal_into(position, &mut moves);
        ranked.clear();
        if self.slots.is_empty() {
            ranked.extend(moves.iter().map(|step| (0, *step)));
        } else {
            ranked.extend(moves.iter().map(|step| (trial(position, step), *step)));
            ranked.sort_unstable_by_key(|ranked| ranked.0);
        }
        self.moves.push(moves);
        ranked
    }

    fn has_move(&mut self, position: &Position) -> bool {
        let mut moves = self.moves.pop().unwrap_or_default();
        legal_into(position, &mut moves);
        let has_move = !moves.is_empty();
        self.moves.push(moves);
        has_move
    }

    fn wins(&mut self, position: &Position, moves: u8) -> bool {
        let (fails, wins) = self.bounds(position);
        if moves <= fails || wins <= moves {
            return wins <= moves;
        }
        self.expanded += 1;
        let steps = self.ranked(position);
        let won = steps.iter().any(|step| self.loses(&play(position, &step.1), moves - 1));
        self.ranked.push(steps);
        self.note(position, moves, won);
        won
    }

    fn loses(&mut self, position: &Position, moves: u8) -> bool {
        if moves == 0 {
            return !self.has_move(position);
        }
        let replies = self.ranked(position);
        let lost = replies.iter().all(|reply| self.wins(&play(position, &reply.1), moves));
        self.ranked.push(replies);
        lost
    }
}

/// The side and its men and kings, from a part such as `W28,K33`.
fn pieces(part: &str) -> (u64, u64) {
    let (mut men, mut kings) = (0, 0);
    for item in part[1..].split(',').filter(|item| !item.is_empty()) {
        match item.strip_prefix('K') {
            Some(king) => kings |= squares([king.parse().unwrap()]),
            None => men |= squares([item.parse().unwrap()]),
        }
    }
    (men, kings)
}

fn position_of(text: &str) -> Position {
    let parts: Vec<&str> = text.split(':').collect();
    let (white, black) = (pieces(parts[1]), pieces(parts[2]));
    Position { men: [white.0, black.0], kings: [white.1, black.1], turn: usize::from(parts[0] == "B") }
}

/// The last number in a text, or the given one if there is none.
fn last_number(text: &str, otherwise: u8) -> u8 {
    let words = text.split(|c: char| !c.is_ascii_digit());
    words.filter_map(|word| word.parse().ok()).last().unwrap_or(otherwise)
}

fn main() {
    let has_table = std::env::args().nth(1).is_none_or(|word| word != "bare");
    let mut input = String::new();
    std::io::stdin().read_to_string(&mut input).unwrap();
    let parts: Vec<&str> = input.split('"').collect();
    let mut most = 0;
    for pair in parts.chunks_exact(2) {
        most = last_number(pair[0], most);
        let position = position_of(pair[1]);
        let mut solver = Solver::new(has_table);
        let start = Instant::now();
        let least = (1..=most).find(|moves| solver.wins(&position, *moves)).unwrap_or(0);
        let micros = start.elapsed().as_micros();
        println!("{} {most} {least} {} {micros}", pair[1], solver.expanded);
    }
}
