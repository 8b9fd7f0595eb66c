"""Record logs: random ones for the comparison, and long ones as a bench leaves them, for the speed.

    logs.py BYTES SEED > door.log
"""

import random
import sys


def record(kind, cycle, body):
    return (kind << 78 | cycle << 16 | body).to_bytes(10, "big")


def some_body(r, kind):
    if kind == 0:
        return r.choice([r.randrange(256), 0, 5, 255]) << 8 | r.randrange(4) << 6
    if kind == 1:
        return r.randrange(2**13) << 3
    if kind == 2:
        return r.randrange(2**12) << 4
    return r.choice([1, 2])


def some_log(r):
    """mostly in order, with each fault now and then"""
    faults = r.random() < 0.5
    cycle = r.choice([0, 0, 1, r.randrange(2**20), 2**48 - 40])
    log = b""
    for _ in range(r.choice([0, 1, 2, r.randrange(30)])):
        kind = r.choice([0, 0, 0, 1, 2, 3])
        body = some_body(r, kind)
        step = r.choice([0, 0, 1, r.randrange(9), r.randrange(2**16)])
        cycle = min(cycle + step, 2**48 - 1)
        if faults and r.random() < 0.2:
            fault = r.randrange(4)
            if fault == 0:
                body ^= 1 << r.randrange(6)
            elif fault == 1:
                kind, body = 3, r.choice([0, 3, 4, 0x100, 0xFFFF])
            elif fault == 2:
                cycle = max(cycle - 1 - r.randrange(5), 0)
            else:
                cycle = r.choice([2**48, 2**48 + r.randrange(2**20), 2**62 - 1])
        log += record(kind, cycle, body)
    if faults and r.random() < 0.3:
        log += bytes(r.randrange(256) for _ in range(1 + r.randrange(9)))
    return log


def soak(size, seed, write):
    """pins, flags and triggers as a door motor on PWM leaves them, at rising cycles"""
    r = random.Random(seed)
    cycle = 0
    part = []
    for n in range(size // 10):
        kind = (0, 0, 1, 2, 0, 1)[n % 6]
        if n % 3 == 0:
            cycle += 64 + r.randrange(4000)
        part.append(record(kind, cycle, some_body(r, kind)))
        if len(part) == 10000:
            write(b"".join(part))
            part = []
    write(b"".join(part))


if __name__ == "__main__":
    soak(int(sys.argv[1]), int(sys.argv[2]), sys.stdout.buffer.write)
