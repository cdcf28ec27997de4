#!/usr/bin/env python3
"""machines.py: follows docs/MANY.md on several machines, two ssh servers of its own, one of which fails in the middle,
and compares the result with the report of one run.

    checks/machines.py

The commands come from the page, with fewer problems a job. The servers listen on loopback addresses of this machine,
with keys and settings in a temporary folder; ~/.ssh is neither read nor written. The 200 problems are those of
parallel.py. First both machines and this one solve them, and the log must name all three. Then the two do it, and one
of them is killed after some jobs: the other must do the rest. The portions of a contest go the same way, by `dw-desk`.
"""
import contextlib
import getpass
import os
import pathlib
import shlex
import shutil
import socket
import subprocess
import tempfile
import time

from launching import below, end
from parallel import COUNT, PROGRAMS, environment, one_run, problems, recipe

TOP = pathlib.Path(__file__).resolve().parent.parent
MACHINES = {"one": "127.0.0.2", "two": "127.0.0.3"}
WORDS = ["judge", "-n", "3"]
EACH = 10  # problems a job
CONTEST = ["find", "--each", "2000"]
PRIVILEGES = pathlib.Path("/run/sshd")  # an empty folder that a server of root wants
SERVER = """ListenAddress {address}:{port}
HostKey {folder}/host
AuthorizedKeysFile {folder}/known_users
PidFile none
StrictModes no
UsePAM no
PasswordAuthentication no
KbdInteractiveAuthentication no
PermitRootLogin prohibit-password
PrintLastLog no
PrintMotd no
MaxStartups 100
AllowUsers {user}
"""
MACHINE = """Host {name}
HostName {address}
Port {port}
User {user}
"""
EVERY = """Host *
IdentityFile {folder}/user
IdentitiesOnly yes
UserKnownHostsFile {folder}/known_hosts
GlobalKnownHostsFile /dev/null
StrictHostKeyChecking yes
BatchMode yes
ControlMaster no
"""


def free_port(address):
    with socket.socket() as probe:
        probe.bind((address, 0))
        return probe.getsockname()[1]


def answers(address, port):
    with contextlib.suppress(OSError), socket.create_connection((address, port), timeout=1):
        return True
    return False


class Servers:
    """An ssh server for each machine, and the settings by which they are reached."""

    def __init__(self, folder):
        self.folder, self.running, self.user = folder, {}, getpass.getuser()
        for key in ("host", "user"):
            subprocess.run(["ssh-keygen", "-q", "-t", "ed25519", "-N", "", "-f", folder / key], check=True)
        shutil.copy(folder / "user.pub", folder / "known_users")
        host, known = (folder / "host.pub").read_text().split()[:2], ""
        config = ""
        for name, address in MACHINES.items():
            port = self.start(name, address)
            config += MACHINE.format(name=name, address=address, port=port, user=self.user)
            known += f"[{address}]:{port} {' '.join(host)}\n"
        (folder / "config").write_text(config + EVERY.format(folder=folder))
        (folder / "known_hosts").write_text(known)

    def start(self, name, address):
        port = free_port(address)
        settings = self.folder / f"{name}.settings"
        settings.write_text(SERVER.format(address=address, port=port, folder=self.folder, user=self.user))
        program = shutil.which("sshd", path=f"{os.environ['PATH']}:/usr/local/sbin:/usr/sbin:/sbin")
        assert program, "the ssh server is not installed: checks/packages.txt names its package"
        with open(self.folder / f"{name}.log", "wb") as log:
            self.running[name] = subprocess.Popen([program, "-D", "-e", "-f", settings], stdin=subprocess.DEVNULL,
                                                  stdout=log, stderr=log)
        last = time.monotonic() + 30
        while not answers(address, port):
            assert self.running[name].poll() is None and time.monotonic() < last, self.said(name)
            time.sleep(0.05)
        return port

    def said(self, name):
        return (self.folder / f"{name}.log").read_text()[-2000:]

    def end(self, name):
        """Ends a server, and all that was started over it."""
        server = self.running.pop(name)
        end([server.pid, *below(server.pid)])
        server.wait(timeout=60)

    def end_all(self):
        for name in list(self.running):
            self.end(name)


@contextlib.contextmanager
def servers(folder):
    """The servers, ended at the end; and the folder that a server of root wants, if it is not there."""
    made = os.geteuid() == 0 and not PRIVILEGES.exists()
    if made:
        PRIVILEGES.mkdir(mode=0o755)
    found = None
    try:
        found = Servers(folder)
        yield found
    finally:
        if found:
            found.end_all()
        if made:
            PRIVILEGES.rmdir()


def on_machines(folder, names, log):
    """The page's command for these machines, with a log."""
    commands = recipe("-S one,two,:", WORDS).replace("/full/path/problems.fen", shlex.quote(f"{folder}/problems.fen"))
    commands = commands.replace("-n 50", f"-n {EACH}").replace("one,two,:", names)
    commands = commands.replace("do dw ", f"do {shlex.quote(str(PROGRAMS / 'dw'))} ")
    return commands.replace("parallel ", f"parallel --joblog {log} ")


def contest(folder, log):
    """The page's command for a contest, with smaller portions, for two machines, with a log."""
    page = recipe("-S one,two,: --retries 3 '", program="dw-desk")
    commands = page.replace("/full/path/problems.fen", f"{folder}/problems.fen")
    commands = commands.replace("1 100 $n", f"1 {EACH} $n").replace("+ 99", f"+ {EACH - 1}")
    commands = commands.replace("--each 100000000", CONTEST[1] + " " + CONTEST[2]).replace("one,two,:", "1/one,1/two")
    commands = commands.replace("        dw-desk ", f"        {PROGRAMS.parent.parent / 'dw_desk/out/dw_desk'} ")
    return commands.replace("parallel ", f"parallel --joblog {log} ")


def start(folder, commands):
    reached = {"PARALLEL_SSH": f"ssh -F {folder}/config"}
    return subprocess.Popen(["bash", "-c", commands], cwd=folder, env=environment(folder) | reached,
                            stdin=subprocess.DEVNULL, stdout=subprocess.DEVNULL, stderr=subprocess.PIPE)


def rows(log):
    """The lines of a log: the number of each job, its machine, and how it ended."""
    lines = [line.split("\t") for line in log.read_text().splitlines()[1:]] if log.exists() else []
    return [(int(line[0]), line[1], line[6], line[7]) for line in lines if len(line) > 8]


def check(name, folder, process, log, wanted):
    complained = process.communicate(timeout=600)[1]
    assert process.returncode == 0, (name, process.returncode, complained[-1000:])
    assert (folder / "report").read_bytes() == wanted, (name, complained[-1000:])
    ended = rows(log)
    assert {job for job, *_ in ended} == set(range(1, COUNT // EACH + 1)), ended
    used = {machine: sum(where == machine for _, where, *_ in ended) for machine in sorted({row[1] for row in ended})}
    told = ", ".join(f"{machine} {count}" for machine, count in used.items())
    print(f"{name}: {COUNT} problems, the same bytes; jobs: {told}", flush=True)
    return used


def main():
    for name in ("dw", "dw-desk"):
        subprocess.run([TOP / "build"], check=True)  # so that it is built
    with tempfile.TemporaryDirectory(prefix="dw-machines-") as name, servers(pathlib.Path(name)) as running:
        folder = pathlib.Path(name)
        (folder / "problems.fen").write_text("".join(line + "\n" for line in problems()))
        wanted = one_run(WORDS, folder)
        log = folder / "log"
        used = check("two machines and this one", folder, start(folder, on_machines(folder, "1/one,1/two,1/:", log)),
                     log, wanted)
        assert set(used) == {"one", "two", ":"}, (used, running.said("one"), running.said("two"))
        log = folder / "log-3"
        used = check("a contest on two machines", folder, start(folder, contest(folder, log)), log,
                     one_run(CONTEST, folder, TOP / "dw-desk"))
        assert set(used) == {"one", "two"}, used
        log = folder / "log-2"
        process = start(folder, on_machines(folder, "1/one,1/two", log))
        last = time.monotonic() + 60
        while not any(machine == "one" for _, machine, *_ in rows(log)):
            assert process.poll() is None and time.monotonic() < last, running.said("one")
            time.sleep(0.02)
        running.end("one")
        done = sum(machine == "one" for _, machine, *_ in rows(log))
        used = check("two machines, one of which goes away", folder, process, log, wanted)
        assert used["one"] <= done + 1 < used["two"], (done, used)


if __name__ == "__main__":
    main()
