#!/usr/bin/env python3
"""Runs two programs on generated run files and tells where they print different things.

    compare.py PROGRAM PROGRAM SEED N [FOLDER]

Each program gets N valid and N damaged files, by name, as its only argument. Two runs are alike if they print the same bytes
to standard output and neither dies (a signal, a panic's status 101, or 20 seconds without an end). Files that differ are kept
in FOLDER, or in `differences`. The exit status is 1 where there is a difference, else 0.
"""

import pathlib
import subprocess
import sys
import tempfile

import generate


def run(program, path):
    """What the program prints, and how it died if it did."""
    try:
        done = subprocess.run([program, path], stdin=subprocess.DEVNULL, capture_output=True, timeout=20)
    except subprocess.TimeoutExpired:
        return b"", "timeout"
    died = done.returncode < 0 or done.returncode >= 101
    return done.stdout, f"status {done.returncode}" if died else None


def first_difference(left, right):
    """The number of the first line that differs, and that line of each."""
    left, right = left.split(b"\n"), right.split(b"\n")
    for place in range(max(len(left), len(right))):
        pair = [lines[place].decode(errors="replace") if place < len(lines) else "(nothing)" for lines in (left, right)]
        if pair[0] != pair[1]:
            return f"line {place + 1}: {pair[0]!r} and {pair[1]!r}"
    return "nothing printed differs"


def main():
    if len(sys.argv) not in (5, 6):
        sys.exit(__doc__)
    programs = [str(pathlib.Path(program).resolve()) for program in sys.argv[1:3]]
    seed, count = sys.argv[3], int(sys.argv[4])
    kept = pathlib.Path(sys.argv[5] if len(sys.argv) == 6 else "differences")
    differences = faulty = 0
    with tempfile.TemporaryDirectory() as folder:
        for kind, make in (("valid", generate.valid), ("damaged", generate.damaged)):
            for index in range(count):
                file = make(seed, index)
                path = pathlib.Path(folder) / f"{kind}-{seed}-{index}.run"
                path.write_bytes(file)
                (left, left_died), (right, right_died) = (run(program, str(path)) for program in programs)
                faulty += left.startswith(b"file ")
                if left != right or left_died or right_died:
                    differences += 1
                    kept.mkdir(parents=True, exist_ok=True)
                    (kept / path.name).write_bytes(file)
                    died = "".join(f"; {which} died: {how}" for which, how in (("first", left_died), ("second", right_died)) if how)
                    print(f"{kept / path.name}: {first_difference(left, right)}{died}")
                path.unlink()
    print(f"{2 * count} files, {faulty} of them faulty by the first program, {differences} differences")
    return 1 if differences else 0


if __name__ == "__main__":
    sys.exit(main())
