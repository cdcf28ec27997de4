#!/usr/bin/env python3
"""c_library.py: compiles the example in C over the static library, and compares its report with the native program's.

    checks/c_library.py
"""
import pathlib
import subprocess
import tempfile

TOP = pathlib.Path(__file__).resolve().parent.parent
EXAMPLE = TOP / "examples"
PROBLEMS = ["W:W27,32,38:B18\n", "W:W27,32:B18\nW:W3:B20\n", "W:W1:B20\n", ""]


def main():
    subprocess.run([TOP / "build", "dw_web"], check=True)
    with tempfile.TemporaryDirectory(prefix="dw-c-") as name:
        program = pathlib.Path(name) / "judge"
        subprocess.run(["cc", "-std=c99", "-Wall", "-Wextra", "-Wpedantic", "-Werror", "-o", program,
                        EXAMPLE / "judge.c", TOP / "crates/dw_web/out/libdw_web.a"], check=True)
        for problem in PROBLEMS:
            made = subprocess.run([program, problem], capture_output=True, check=False)
            native = subprocess.run([TOP / "dw", "judge", "-n", "2"], input=problem.encode(), capture_output=True,
                                    check=False)
            for said in (made, native):
                said.args = ()
            assert vars(made) == vars(native), (made, native)
    print(f"the example in C: {len(PROBLEMS)} reports, with messages and statuses, as the native program's")


if __name__ == "__main__":
    main()
