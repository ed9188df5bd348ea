#!/usr/bin/env python3
"""Writes certificates as another producer does, and has each of them checked.

    examples/certificate.py [COUNT [SEED]]

The built program is the one that `rt run` in crates/squeeze leaves there, or SQUEEZE where that is set. IN has COUNT jumps to
the next instruction (12, if nothing is said; at most 2,048), and OUT is IN without them. Squeeze takes them from the first on. Here they are taken in an order drawn
from SEED, so that the steps tell other blocks, and `check` has to prove OUT by them. Certificates with a wrong step, one step
too few or one too many have to fail at their line; and `prove` has to make the same OUT, with its own certificate.
"""
import os
import random
import struct
import subprocess
import sys
import tempfile

HERE = os.path.dirname(os.path.abspath(__file__))
BUILT = os.path.join(HERE, "../crates/squeeze/out/squeeze")
NEXT, EXIT = 0x0040006F, [0x05D00893, 0x00000073, 0x0000006F]


def add(number):
    """`addi a0,a0,NUMBER`: each another one, so that no other row has a candidate."""
    return number << 20 | 0x00050513


def plain(words):
    """The file that Squeeze writes of these words where it has no data and no notes: the sample of crates/squeeze, with
    its text replaced."""
    sample = open(os.path.join(HERE, "../crates/squeeze/data/a"), "rb").read()
    size = 4 * len(words)
    more = size - 16
    head, tail = bytearray(sample[:84]), bytearray(sample[100:])
    sections = struct.unpack_from("<I", head, 32)[0]
    struct.pack_into("<I", head, 32, sections + more)
    struct.pack_into("<II", head, 68, size, size)
    table = sections - 100
    struct.pack_into("<I", tail, table + 40 + 20, size)
    for section in range(2, 7):
        at = table + 40 * section + 16
        struct.pack_into("<I", tail, at, struct.unpack_from("<I", tail, at)[0] + more)
    return bytes(head) + struct.pack(f"<{len(words)}I", *words) + bytes(tail)


def steps_in(order):
    """The steps that take the jumps in this order. A block that no longer ends in a jump is one with the next: so the block
    of a jump is told by how many jumps stand ahead of it still."""
    left, steps = sorted(order), []
    for jump in order:
        steps.append(f"J1 {left.index(jump)}")
        left.remove(jump)
    return steps


def certificate(steps):
    return "".join(line + "\n" for line in ["squeeze certificate 1", *steps, "end"]).encode()


def main():
    count = int(sys.argv[1]) if len(sys.argv) > 1 else 12
    order = list(range(count))
    random.Random(sys.argv[2] if len(sys.argv) > 2 else "0").shuffle(order)
    squeeze = os.path.abspath(os.environ.get("SQUEEZE", BUILT))
    steps = steps_in(order)
    wrong = steps[: count // 2] + [f"J1 {count}"]
    with tempfile.TemporaryDirectory() as folder:
        os.chdir(folder)
        adds = [add(number) for number in range(count)]
        given = [word for each in adds for word in (each, NEXT)]
        files = {"in": plain(given + EXIT), "out": plain(adds + EXIT)}
        for name, held in files.items():
            open(name, "wb").write(held)

        def expect(words, status, told):
            run = subprocess.run([squeeze, *words.split()], capture_output=True, text=True)
            found = (run.returncode, (run.stdout + run.stderr).strip())
            if found != (status, told):
                sys.exit(f"squeeze {words}: wanted {status} {told!r}, found {found}")

        def checked(steps, status, told):
            open("cert", "wb").write(certificate(steps))
            expect("check in out cert", status, told)

        checked(steps, 0, f"proved {count}")
        checked(wrong, 8, f"no {len(wrong) + 1}")
        checked(steps[:-1], 8, "no 0")
        checked(steps + ["J1 0"], 8, f"no {count + 2}")
        before, after = 4 * (2 * count + 3), 4 * (count + 3)
        expect("prove in own own.cert", 0, f"text {before} -> {after}, loaded {before} -> {after}")
        expect("check in own own.cert", 0, f"proved {count}")
        if open("own", "rb").read() != files["out"]:
            sys.exit("prove makes another OUT")
        print(f"{count} steps in another order prove OUT; {', '.join(steps[:4])} .. here")


if __name__ == "__main__":
    main()
