"""The program beside the model, on random logs cut at every place.

    compare.py VCD LOGS SEED [WORKERS]

VCD is the program (target/bin/vcd). Each log is handed over as door.log whole, then cut in two at every place, and last in pieces of 1, 3, 7 and 11 bytes;
standard output and standard error are compared with the model's each time. The cuts are made by cut.c, which is built here.
"""

import os
import random
import subprocess
import sys
import tempfile
from concurrent.futures import ThreadPoolExecutor

from logs import some_log
from model import answer, refusal

HERE = os.path.dirname(os.path.abspath(__file__))


def runs(log):
    yield {}
    for cut in range(1, len(log)):
        yield {"CUT": str(cut), "STEP": "0"}
    for step in (1, 3, 7, 11):
        yield {"CUT": str(step), "STEP": str(step)}


def compare(program, shim, log):
    """how many runs there were; ends at the first that differs"""
    want = answer(log)
    count = 0
    with tempfile.TemporaryDirectory() as room:
        with open(os.path.join(room, "door.log"), "wb") as file:
            file.write(log)
        for cut in runs(log):
            env = dict(cut, LD_PRELOAD=shim) if cut else {}
            done = subprocess.run([program], cwd=room, env=env, capture_output=True)
            got = (done.stdout.decode(), done.stderr.decode())
            if got != want:
                sys.exit(f"differs, cut {cut}, log {log.hex()}:\n{got}\nmodel:\n{want}")
            count += 1
    return count


def main():
    program, logs, seed = os.path.abspath(sys.argv[1]), int(sys.argv[2]), int(sys.argv[3])
    workers = int(sys.argv[4]) if len(sys.argv) > 4 else 1
    r = random.Random(seed)
    every = [some_log(r) for _ in range(logs)]
    with tempfile.TemporaryDirectory() as room:
        shim = os.path.join(room, "cut.so")
        subprocess.run(["cc", "-O2", "-Wall", "-shared", "-fPIC", "-o", shim, os.path.join(HERE, "cut.c"), "-ldl"], check=True)
        with ThreadPoolExecutor(workers) as pool:
            count = sum(pool.map(lambda log: compare(program, shim, log), every))
    numbers = [refusal(log) for log in every]
    told = ", ".join(f"{numbers.count(n)} refused with {n}" for n in (13, 14, 15))
    print(f"{logs} logs from seed {seed}: {numbers.count(None)} accepted, {told}; {count} runs, no disagreement")


if __name__ == "__main__":
    main()
