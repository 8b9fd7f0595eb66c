"""The dump of a record log, from the words of the request alone: 2.3 with 2.10's length and 2.8's records of the watchdog."""

LONGEST = 2**30


def records(log):
    for at in range(0, len(log), 10):
        word = int.from_bytes(log[at : at + 10], "big")
        yield word >> 78, word >> 16 & (2**62 - 1), word & 0xFFFF


def formed(kind, body):
    if kind == 3:
        return body in (1, 2)
    return body % {0: 64, 1: 8, 2: 16}[kind] == 0


def refusal(log):
    """13, 14, 15, or None for a log that is accepted"""
    if len(log) % 10 or len(log) > LONGEST:
        return 13
    before = 0
    for kind, cycle, body in records(log):
        if not formed(kind, body):
            return 13
        if cycle < before:
            return 14
        if cycle > 2**48 - 1:
            return 15
        before = cycle
    return None


def dump(log):
    changes = [(cycle, body >> 8, "z01"[(body >> 7 & 1) + (body >> 6 & body >> 7 & 1)]) for kind, cycle, body in records(log) if kind == 0]
    lines = ["$timescale 1 ps $end"]
    lines += [f"$var wire 1 p{pin} p{pin} $end" for pin in sorted({pin for _, pin, _ in changes})]
    lines += ["$enddefinitions $end"]
    last = None
    for cycle, pin, state in changes:
        if cycle != last:
            lines.append(f"#{cycle * 62500}")
            last = cycle
        lines.append(f"{state}p{pin}")
    return "".join(line + "\n" for line in lines)


def answer(log):
    """what stands on standard output and on standard error"""
    number = refusal(log)
    return (dump(log), "") if number is None else ("", f"{number}\n")
