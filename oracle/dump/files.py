"""The program on files that are no plain log: what standard output and standard error get.

    files.py VCD

VCD is the program (target/bin/vcd). A file that cannot be opened or read is 23, in the second pass too: there the file is a named pipe, whose name goes, or
becomes a folder's, once the first pass has opened it. The longest log is accepted; one record more is 13, and so is a file without end. Each has a minute.
"""

import os
import subprocess
import sys
import tempfile
from concurrent.futures import ThreadPoolExecutor

from model import LONGEST, answer, dump

LOG = bytes.fromhex("000000000000000205C0")
RECORDS = LONGEST // 10
MINUTE = 60


def run(program, room):
    """what standard output and standard error got"""
    done = subprocess.run([program], cwd=room, env={}, capture_output=True, timeout=MINUTE)
    return done.stdout.decode(), done.stderr.decode()


def folder(program, room, path):
    os.mkdir(path)
    return run(program, room)


def second_pass(change):
    """a log that the first pass reads, and what stands in its place when the file is opened again"""

    def case(program, room, path):
        os.mkfifo(path)
        with ThreadPoolExecutor(1) as pool:
            done = pool.submit(run, program, room)
            with open(path, "wb") as pipe:
                os.unlink(path)
                change(path)
                pipe.write(LOG)
            return done.result()

    return case


def zeros(size):
    def case(program, room, path):
        with open(path, "wb") as file:
            file.truncate(size)
        return run(program, room)

    return case


def without_end(program, room, path):
    os.symlink("/dev/zero", path)
    return run(program, room)


def longest(program, room, path):
    """pin 0 at cycle 0, time and again: the lines are compared as they come, and are answered as those of one record"""
    with open(path, "wb") as file:
        file.truncate(10 * RECORDS)
    start, line = dump(bytes(10)).encode(), b"zp0\n"
    with open(os.path.join(room, "said"), "wb+") as said:
        with subprocess.Popen([program], cwd=room, env={}, stdout=subprocess.PIPE, stderr=said) as going:
            got = going.stdout.read(len(start))
            left = len(line) * (RECORDS - 1)
            lines = line * 2**18
            while left and going.stdout.read(min(left, len(lines))) == lines[:left]:
                left -= min(left, len(lines))
            got += going.stdout.read() + b"wrong lines" * (left > 0)
        said.seek(0)
        return got.decode(), said.read().decode()


header = dump(LOG).partition("#")[0]
CASES = (
    ("no file", lambda program, room, path: run(program, room), ("", "23\n")),
    ("a folder", folder, ("", "23\n")),
    ("no file in the second pass", second_pass(lambda path: None), ("", "23\n")),
    ("a folder in the second pass", second_pass(os.mkdir), (header, "23\n")),
    ("the longest log", longest, answer(bytes(10))),
    ("one record more", zeros(10 * RECORDS + 10), ("", "13\n")),
    ("4 GiB", zeros(2**32), ("", "13\n")),
    ("a file without end", without_end, ("", "13\n")),
)


def main():
    program = os.path.abspath(sys.argv[1])
    for name, case, want in CASES:
        with tempfile.TemporaryDirectory() as room:
            got = case(program, room, os.path.join(room, "door.log"))
        if got != want:
            sys.exit(f"differs on {name}:\n{got}\nwanted:\n{want}")
    print(f"{len(CASES)} files: {', '.join(name for name, _, _ in CASES)}; no disagreement")


if __name__ == "__main__":
    main()
