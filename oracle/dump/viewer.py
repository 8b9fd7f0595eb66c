"""The dump through GTKWave's own readers and back.

    viewer.py DUMP

vcd2fst and fst2vcd (of GTKWave) take the dump to its database and back; every wire's changes are compared.
"""

import os
import subprocess
import sys
import tempfile


def waves(path):
    """the value of each wire by time: the last at each time, where it changes"""
    names, wires, time = {}, {}, 0
    for line in open(path):
        word = line.split()
        if not word:
            continue
        if word[0] == "$var":
            names[word[3]] = word[4]
            wires.setdefault(word[4], {})
        elif line[0] == "#":
            time = int(word[0][1:])
        elif line[0] in "01zx" and word[0][1:] in names:
            wires[names[word[0][1:]]][time] = line[0]
    for name, changes in wires.items():
        kept, last = [], "x"
        for time in sorted(changes):
            if changes[time] != last:
                kept.append((time, changes[time]))
            last = changes[time]
        wires[name] = kept
    return wires


def main():
    with tempfile.TemporaryDirectory() as room:
        fst, back = os.path.join(room, "door.fst"), os.path.join(room, "back.vcd")
        subprocess.run(["vcd2fst", sys.argv[1], fst], check=True, capture_output=True)
        subprocess.run(["fst2vcd", fst, "-o", back], check=True, capture_output=True)
        there, again = waves(sys.argv[1]), waves(back)
    for name in sorted(set(there) | set(again)):
        if there.get(name) != again.get(name):
            sys.exit(f"{name} differs: {there.get(name)} and {again.get(name)}")
    print(f"{len(there)} wires, {sum(map(len, there.values()))} changes, the same")


if __name__ == "__main__":
    main()
