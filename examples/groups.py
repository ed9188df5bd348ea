#!/usr/bin/env python3
"""Writes a linked program of groups of random blocks with other words between them, repeated: a search for files that are dear to settle.

    examples/groups.py SEED COUNT > groups.elf
    examples/groups.py SQUEEZE FIRST END

As examples/motifs.py, but copies stand in groups with up to 900 words between them, so that branches to the first copy of a group
reach or don't; branches compare several registers, blocks return and call by an upper half, and procedures are called by a few
numbers, by each copy or by each group.
"""

import random
import sys

from hostile import A0, BRANCH, RA, T0, Program, addi, elf, only, store
from motifs import search

TEXT = 60000  # bytes of the smaller file of a search, about


def branch(p, name, first, second, condition):
    p.jumps.append((len(p.text), BRANCH, name))
    p.text.append(second << 20 | first << 15 | condition << 12 | 0x63)


class Groups:
    """The blocks that are repeated, how many copies a group has, and what stands between groups."""

    def __init__(self, seed, count):
        chosen = random.Random(seed)
        self.seed, self.count = seed, count
        self.size = chosen.randrange(1, 7)
        self.group = chosen.choice([1, 2, 3, 8, 30, 100, 400])
        self.between = chosen.choice([0, 0, 0, 3, 20, 200, 480, 510, 520, 900])
        self.filler = chosen.choice(["unique", "jumps", "dead", "same"])
        self.procedures = chosen.choice([0, 0, 1, 2, 5])
        self.callers = chosen.choice(["few", "each", "group"])
        self.length = chosen.choice([1, 2, 3, 5, 9])
        self.blocks = [self.block(chosen) for _ in range(self.size)]
        self.shuffled = chosen.random() < 0.35
        self.order = list(range(count))
        if self.shuffled:
            random.Random(seed + 1).shuffle(self.order)
        self.partner = list(range(count))
        random.Random(seed + 2).shuffle(self.partner)
        self.distance = chosen.choice([1, 2, 7, 40, 300])
        self.named = chosen.choice([0, 0, 2, 1])  # each so many copies' names are in words of data

    def block(self, chosen):
        """Its items, how it ends, which copy and which block of it that names, whether a word names it, and what a branch compares."""
        items = [
            (chosen.randrange(10), chosen.randrange(5, 18), chosen.randrange(5, 18), chosen.randrange(5))
            for _ in range(chosen.choice([0, 1, 1, 2, 3, 3, 4, 5, 7, 12]))
        ]
        end = chosen.choice(["fall", "jump", "jump", "branch", "branch", "call", "far", "ret"])
        copy = chosen.choice(["next", "before", "partner", "exit", "own", "own", "own", "far", "common", "group"])
        block, is_named = chosen.randrange(self.size), chosen.random() < 0.4
        return items, end, copy, block, is_named, (chosen.randrange(5, 14), chosen.randrange(5, 14), chosen.choice([0, 1, 4, 5]))

    def item(self, form, copy):
        kind, first, second, number = form
        return [
            lambda: addi(first, second, number),
            lambda: addi(first, 0, copy & 2047),
            lambda: addi(first, second, copy >> 3 & 2047),
            lambda: store(first, 2, 4 * number),
            lambda: addi(first, first, copy % 7 + 1),
            lambda: addi(5 + (first + copy) % 9, 5 + (second + copy) % 9, number),
            lambda: only(copy),
            lambda: addi(first, second, copy // self.group & 2047),
            lambda: addi(first + copy % 2, second, number),
            lambda: store(5 + copy % 7, 2, 4 * number),
        ][kind]()

    def target(self, which, copy, block):
        copies = {
            "next": (copy + 1) % self.count,
            "before": (copy - 1) % self.count,
            "partner": self.partner[copy],
            "own": copy,
            "far": (copy + self.distance) % self.count,
            "group": copy // self.group * self.group,
        }
        if which in copies:
            return (copies[which], block)
        return ("common", block) if which == "common" else "exit"

    def is_near(self, which, target):
        if which in ("own", "group"):
            return True
        return which in ("next", "before") and not self.shuffled and target[0] not in (0, self.count - 1)

    def put(self, p, copy, number):
        items, end, which, block, is_named, compared = self.blocks[number]
        p.mark((copy, number))
        if is_named and self.named and copy % self.named == 0:
            p.word((copy, number))
        p.items(*[self.item(form, copy) for form in items])
        target = self.target(which, copy, block)
        if end == "branch" and self.is_near(which, target):
            branch(p, target, *compared)
        elif end in ("jump", "branch"):
            p.jump(target)
        elif end == "ret":
            p.items(RA << 15 | 0x67)
        elif end == "far":
            p.far_call(target)
        elif end == "call" and self.procedures:
            callee = {"few": block % self.procedures, "each": copy, "group": copy // self.group}[self.callers]
            p.jump(("procedure", callee), T0)

    def fill(self, p, group):
        for i in range(self.between):
            if self.filler == "unique":
                p.items(addi(5 + (group + i) % 9, 6, group * 31 + i * 7 & 2047))
            elif self.filler == "same":
                p.items(addi(5, 6, i & 2047))
            elif self.filler == "dead":
                p.items(addi(5, 0, i & 7))
            elif i % 2 == 0:
                p.items(addi(10, 10, 1))
                p.jump(("filler", group, i))
                p.mark(("filler", group, i))

    def bodies(self):
        """The numbers and items of the procedures."""
        several = {"few": self.procedures, "each": self.count, "group": self.count // self.group + 1}[self.callers]
        for number in range(several if self.procedures else 0):
            first = 3 * number if self.callers == "few" else number
            body = [
                addi(11, 11, first % 5 + 1),
                addi(12, 12, number >> 3 & 2047),
                addi(5 + number % 3, 11, 1),
                store(11, 2, 8),
                addi(13, 12, 4),
                addi(11, 13, 1),
                store(12, 2, 4),
                addi(14, 14, number % 7),
                addi(11, 14, 1),
            ]
            yield number, body[: self.length]

    def program(self):
        p = Program()
        for start in range(0, self.count, self.group):
            copies, numbers = self.order[start : start + self.group], range(self.size)
            if self.seed % 2:
                places = [(copy, number) for copy in copies for number in numbers]
            else:
                places = [(copy, number) for number in numbers for copy in copies]
            for copy, number in places:
                self.put(p, copy, number)
            p.jump(("group", start))
            p.mark(("group", start))
            self.fill(p, start)
        p.jump("exit")
        for number in range(self.size):
            p.mark(("common", number))
            p.items(store(A0, 2, 4 * number))
            if number % 2:
                p.items(*[store(register, 2, 4 * register) for register in range(5, 12)])
            p.jump("exit")
        for number, body in self.bodies():
            p.procedure(("procedure", number), body)
        p.mark("exit")
        p.exit()
        return p


def made(seed, count):
    """The bytes of the file."""
    return elf(Groups(seed, count).program(), 1)


def count(seed):
    """How many copies make about so much text."""
    return TEXT * 600 // len(made(seed, 600)) + 20


if __name__ == "__main__":
    if len(sys.argv) == 3:
        sys.stdout.buffer.write(made(int(sys.argv[1]), int(sys.argv[2])))
    elif len(sys.argv) == 4:
        search(sys.argv[1], range(int(sys.argv[2]), int(sys.argv[3])), made, count)
    else:
        sys.exit(__doc__)
