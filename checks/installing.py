#!/usr/bin/env python3
"""installing.py: installs the programs by `./install` and as a Debian package, runs them with only the C library, and
uninstalls them.

    checks/installing.py

The installed files must be exactly the right ones, with the bytes of the repository. The programs run without an
environment, as another user, and give the answers of examples/. After `--uninstall`, and after the package is removed,
nothing is left, and other files are untouched. The package is installed into a root of its own with the C library of
this machine, so its dependencies count. This needs root, or `sudo` without a password.
"""
import gzip
import os
import pathlib
import re
import shutil
import subprocess
import sys
import tempfile

TOP = pathlib.Path(__file__).resolve().parent.parent
INSTALL = TOP / "install"
PROGRAMS = {"dw": TOP / "crates/dw/out/dw", "dw-desk": TOP / "crates/dw_desk/out/dw_desk"}
PROGRAM = PROGRAMS["dw"]
FILES = {place: source for name, program in PROGRAMS.items() for place, source in (
    (f"bin/{name}", program), (f"share/man/man1/{name}.1", TOP / "docs" / f"{name}.1"),
    (f"share/bash-completion/completions/{name}", TOP / "docs" / f"{name}.bash"))} | {
        "bin/dw-certificate": TOP / "checks/certificate.py",
        "share/man/man1/dw-certificate.1": TOP / "docs/dw-certificate.1"}
NOBODY = ["setpriv", "--reuid=65534", "--regid=65534", "--clear-groups"]
LIBRARIES = {"libc.so.6", "ld-linux-x86-64.so.2"}


def run(words, **how):
    return subprocess.run(words, stdin=subprocess.DEVNULL, capture_output=True, text=True, timeout=600, check=False,
                          **how)


def install(*words, destdir=None):
    environment = dict(os.environ) | ({"DESTDIR": str(destdir)} if destdir else {})
    return run([INSTALL, *words], env=environment)


def well(ran):
    assert (ran.returncode, ran.stderr) == (0, ""), ran
    return ran.stdout


def below(folder):
    """All files and folders below a folder."""
    return {str(path.relative_to(folder)) for path in folder.rglob("*")}


def with_folders(files):
    return {str(path) for file in files for path in [pathlib.Path(file), *pathlib.Path(file).parents][:-1]}


def as_another_user():
    return NOBODY if os.geteuid() == 0 else ["sudo", "-n", *NOBODY]


def check_run(folder):
    """The programs as another user, without an environment, give the answers of examples/."""
    for words, problems, wanted in ((["dw", "judge", "-n", "2"], "problems.fen", "problems.judged"),
                                    (["dw-desk", "find"], "large7.fen", "large7.judged")):
        ran = subprocess.run([*as_another_user(), shutil.which("env"), "-i", folder / words[0], *words[1:]], cwd="/",
                             input=(TOP / "examples" / problems).read_text(), capture_output=True, text=True,
                             timeout=600, check=False)
        assert (ran.returncode, ran.stdout, ran.stderr) == (0, (TOP / "examples" / wanted).read_text(), ""), ran


    certify = run([folder / "dw-desk", "certify", "-n", "2", TOP / "examples" / "problems.fen"])
    ran = subprocess.run([sys.executable, folder / "dw-certificate"], input=certify.stdout, capture_output=True,
                         text=True, timeout=60, check=False)
    assert (ran.returncode, ran.stdout, ran.stderr) == (0, "right\n", ""), (certify, ran)


def check_libraries():
    for name, program in PROGRAMS.items():
        needed = set(re.findall(r"NEEDED +(\S+)", well(run(["objdump", "-p", program]))))
        assert needed <= LIBRARIES, needed
        print(f"{name} needs {', '.join(sorted(needed)) or 'no library'}")


def check_files(root):
    for name, source in FILES.items():
        path = root / name
        assert path.read_bytes() == source.read_bytes(), name
        assert path.stat().st_mode & 0o777 == (0o755 if name.startswith("bin/") else 0o644), (name, path.stat())
    check_run(root / "bin")


def check_completion(folder):
    for name, function, begun, whole in (("dw", "_dw", "ju", "judge"), ("dw-desk", "_dw_desk", "fi", "find")):
        script = (f'source "{folder / name}"; COMP_WORDS=({name} {begun}) COMP_CWORD=1; {function}; '
                  'echo "${COMPREPLY[@]}"')
        assert well(run(["bash", "-c", script])) == f"{whole}\n"


def folders(room):
    """Installs into a folder that is not there, into one that has things, and behind DESTDIR."""
    new = room / "new" / "prefix"
    well(install(str(new)))
    assert below(new) == with_folders([*FILES, "share/dw/folders"]), below(new)
    check_files(new)
    check_completion(new / "share/bash-completion/completions")
    well(install(str(new)))  # once more, over what is there
    well(install("--uninstall", str(new)))
    assert not (room / "new").exists(), below(room)
    there = room / "there"
    for name in ("bin", "share/man/man1", "share/dw"):
        (there / name).mkdir(parents=True)
    (there / "bin/other").write_text("other\n")
    before = below(there)
    well(install(str(there)))
    check_files(there)
    (there / "share/bash-completion/completions/other").write_text("other\n")
    well(install("--uninstall", str(there)))
    kept = with_folders(["share/bash-completion/completions/other"])
    assert below(there) == before | kept, below(there) ^ (before | kept)
    for prefix, words in (("usr/local", []), ("opt/a b", ["/opt/a b"])):
        stage = room / "stage"
        well(install(*words, destdir=stage))
        check_files(stage / prefix)
        well(install("--uninstall", *words, destdir=stage))
        assert not stage.exists(), below(stage)
    print("a new folder, one in use, DESTDIR: installed, run and taken away")


def refusals(room):
    """Arguments that are none, and folders that can not be written or have no dw."""
    for words in (["--wrong"], ["a", "b"], ["--deb", "a", "b"], ["--uninstall", "--deb"], ["-x"], [""],
                  ["--uninstall", ""]):
        ran = install(*words, destdir=room / "none")
        assert (ran.returncode, ran.stdout) == (2, "") and ran.stderr.startswith("Usage: "), (words, ran)
    assert not (room / "none").exists()
    ran = install("--help")
    assert ran.returncode == 0 and ran.stdout.startswith("Usage: ") and ran.stderr == "", ran
    ran = install("--uninstall", str(room / "none"))
    assert ran.returncode == 1 and "is not installed" in ran.stderr, ran
    (room / "file").write_text("")
    ran = install(str(room / "file" / "below"))
    assert ran.returncode == 1 and ran.stderr, ran
    print("wrong arguments, a folder without dw, a file in the way: refused")


def own_root(room):
    """A root for dpkg in which only the C library of this machine is installed."""
    admin = room / "root/var/lib/dpkg"
    for name in ("info", "updates", "triggers"):
        (admin / name).mkdir(parents=True)
    (admin / "available").write_text("")
    version = well(run(["dpkg-query", "-W", "-f", "${Version}", "libc6"]))
    (admin / "status").write_text("Package: libc6\nStatus: install ok installed\nArchitecture: amd64\n"
                                  "Maintainer: nobody <nobody@localhost>\nDescription: the C library\n"
                                  f"Version: {version}\n\n")
    return room / "root"


def package(room):
    out = well(install("--deb", str(room / "packages")))
    file, = (room / "packages").iterdir()
    version = well(run([PROGRAM, "--version"])).removeprefix("dw ").strip()
    assert file.name == f"dw_{version}_amd64.deb" and file.name in out, (file, out)
    depends = well(run(["dpkg-deb", "-f", file, "Depends"]))
    assert re.fullmatch(r"libc6 \(>= 2\.\d+(\.\d+)?\)\n", depends), depends
    root = own_root(room)
    dpkg = ["dpkg", f"--root={root}", f"--log={room / 'log'}", "--force-not-root"]
    paths = os.environ | {"PATH": f"{os.environ['PATH']}:/usr/local/sbin:/usr/sbin:/sbin"}
    before = below(root / "usr") if (root / "usr").exists() else set()
    ran = run([*dpkg, "-i", file], env=paths)
    assert ran.returncode == 0, ran
    documents = root / "usr/share/doc/dw"
    for name in [*PROGRAMS, "dw-certificate"]:
        manual = root / f"usr/share/man/man1/{name}.1.gz"
        assert gzip.decompress(manual.read_bytes()) == (TOP / "docs" / f"{name}.1").read_bytes()
        assert (root / "usr/bin" / name).read_bytes() == FILES[f"bin/{name}"].read_bytes()
    for page in ("README.md", "CHANGELOG.md"):
        assert (documents / page).read_bytes() == (TOP / page).read_bytes(), page
    for link in re.findall(r"\]\(([^)#:]+)", (TOP / "README.md").read_text()):
        assert (documents / link).exists(), f"the package's README links to {link}, which is not in it"
    for path in (TOP / "examples").iterdir():
        assert (documents / "examples" / path.name).read_bytes() == path.read_bytes(), path
    assert "licence" in (documents / "copyright").read_text()
    check_run(root / "usr/bin")
    check_completion(root / "usr/share/bash-completion/completions")
    assert well(run([*dpkg, "--verify", "dw"], env=paths)) == ""
    ran = run([*dpkg, "-P", "dw"], env=paths)
    assert ran.returncode == 0, ran
    left = below(root / "usr") if (root / "usr").exists() else set()
    assert left == before, left
    print(f"{file.name}, which depends on {depends.strip()}: installed into a root of its own, run and removed")


def main():
    subprocess.run([TOP / "build"], check=True)
    check_libraries()
    with tempfile.TemporaryDirectory(prefix="dw-installing-") as name:
        room = pathlib.Path(name)
        room.chmod(0o755)  # so that another user may come in
        folders(room)
        refusals(room)
        package(room)


if __name__ == "__main__":
    main()
