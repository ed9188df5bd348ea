#!/usr/bin/env python3
"""Writes a linked program of a few random blocks that are repeated: a search for files that are dear to settle.

    examples/motifs.py SEED COUNT > motif.elf
    examples/motifs.py SQUEEZE FIRST END

The first form writes the motif of a seed, COUNT times. The second packs each motif from FIRST up to END, 600 and 2,400 times, and
prints the seeds whose processor time grew by more than seven, with both times and the bytes of the larger file. Where such a file
grows on as it gets larger, there is a look at the whole graph for each of many rewrites.
"""

import os
import random
import resource
import sys
import tempfile

from hostile import A0, T0, Program, addi, elf, only, store

LIMIT = 60  # seconds, of each file


class Motif:
    """The blocks that are repeated, and in which order they stand."""

    def __init__(self, seed, count):
        chosen = random.Random(seed)
        self.seed, self.count = seed, count
        self.size = chosen.randrange(1, 6)
        self.procedures = chosen.randrange(0, 3) if chosen.random() < 0.4 else 0
        self.blocks = [self.block(chosen) for _ in range(self.size)]
        self.order = list(range(count))
        if chosen.random() < 0.4:
            random.Random(seed + 1).shuffle(self.order)
        self.partner = list(range(count))
        random.Random(seed + 2).shuffle(self.partner)
        self.distance = chosen.choice([1, 2, 7, 40, 300])
        self.swaps = chosen.random() < 0.3
        self.in_groups = chosen.random() < 0.7
        self.chosen = chosen

    def block(self, chosen):
        """Its items, how it ends, which copy and which block of it that names, and whether a word names it."""
        items = [
            (chosen.randrange(7), chosen.randrange(5, 18), chosen.randrange(5, 18), chosen.randrange(4))
            for _ in range(chosen.choice([0, 1, 1, 2, 2, 3, 4, 6]))
        ]
        end = chosen.choice(["fall", "jump", "jump", "jump", "branch", "branch", "call"])
        copy = chosen.choice(["next", "before", "partner", "exit", "own", "own", "far", "common"])
        return items, end, copy, chosen.randrange(self.size), chosen.random() < 0.5

    def item(self, form, copy):
        kind, first, second, number = form
        if kind == 5:
            return addi(first if not self.swaps or copy % 2 else second, 0, number)
        return [
            addi(first, second, number),
            addi(first, 0, copy & 2047),
            addi(first, second, copy >> 3 & 2047),
            store(first, 2, 4 * number),
            addi(first, first, copy % 7 + 1),
            None,
            only(copy),
        ][kind]

    def target(self, which, copy, block):
        copies = {
            "next": (copy + 1) % self.count,
            "before": (copy - 1) % self.count,
            "partner": self.partner[copy],
            "own": copy,
            "far": (copy + self.distance) % self.count,
        }
        if which in copies:
            return (copies[which], block)
        return ("common", block) if which == "common" else "exit"

    def put(self, p, copy, number):
        items, end, which, block, is_named = self.blocks[number]
        p.mark((copy, number))
        if is_named:
            p.word((copy, number))
        p.items(*[self.item(form, copy) for form in items])
        target = self.target(which, copy, block)
        if end == "branch" and self.is_near(which):
            p.branch(target if target[0] not in (0, self.count - 1) else (copy, block))
        elif end in ("jump", "branch"):
            p.jump(target)
        elif end == "call" and self.procedures:
            callee = copy % self.count if block % 2 else block % self.procedures
            p.jump(("procedure", callee), T0)

    def is_near(self, which):
        return which == "own" or which in ("next", "before") and self.order == sorted(self.order)

    def program(self):
        p = Program()
        if self.in_groups:
            places = [(copy, number) for copy in self.order for number in range(self.size)]
        else:
            places = [(copy, number) for number in range(self.size) for copy in self.order]
        for copy, number in places:
            self.put(p, copy, number)
        p.jump("exit")
        for number in range(self.size):
            p.mark(("common", number))
            p.items(store(A0, 2, 4 * number))
            if number % 2:
                p.items(*[store(register, 2, 4 * register) for register in range(5, 12)])
            p.jump("exit")
        for number in range(self.count if self.procedures else 0):
            body = [addi(11, 11, number % 5 + 1), addi(12, 12, number >> 3 & 2047)]
            p.procedure(("procedure", number), body[: self.chosen.choice([1, 2, 2])])
        p.mark("exit")
        p.exit()
        return p


def made(seed, count):
    """The bytes of the file."""
    return elf(Motif(seed, count).program(), 1)


def seconds(squeeze, content, room):
    """The processor time that packing takes."""
    path = os.path.join(room, "motif.elf")
    with open(path, "wb") as file:
        file.write(content)
    child = os.fork()
    if child == 0:
        quiet = os.open(os.devnull, os.O_WRONLY)
        os.dup2(quiet, 1)
        os.dup2(quiet, 2)
        resource.setrlimit(resource.RLIMIT_CPU, (LIMIT, LIMIT))
        os.execv(squeeze, [squeeze, "pack", path, path + ".packed"])
    used = os.wait4(child, 0)[2]
    return used.ru_utime + used.ru_stime


def search(squeeze, seeds, made=made, count=lambda seed: 600):
    """Prints the seeds whose files, made of so many copies and of four times as many, are so different in time."""
    with tempfile.TemporaryDirectory() as room:
        for seed in seeds:
            try:
                small, large = made(seed, count(seed)), made(seed, 4 * count(seed))
            except KeyError:  # a branch or a jump that leads nowhere
                continue
            before, after = seconds(squeeze, small, room), seconds(squeeze, large, room)
            if after > 0.25 and after > 7 * before:
                print(f"{seed} {before:.2f} {after:.2f} {len(large)}", flush=True)


if __name__ == "__main__":
    if len(sys.argv) == 3:
        sys.stdout.buffer.write(made(int(sys.argv[1]), int(sys.argv[2])))
    elif len(sys.argv) == 4:
        search(sys.argv[1], range(int(sys.argv[2]), int(sys.argv[3])))
    else:
        sys.exit(__doc__)
