#!/usr/bin/env python3
"""Writes a linked program that is small but dear to read or to settle, of a size that a number gives.

    examples/hostile.py KIND COUNT > hostile.elf

KIND is one of:
    chain      COUNT lone jumps, each to the next in shuffled order: row J2 gives all their names to the last one's target
    table      COUNT lone jumps to one block, each named by a word of data alone
    detours    COUNT blocks with a Branch to a lone jump of their own
    chained    the same, but each lone jump leads to another one, in shuffled order, and all but the near ones stay
    held       the same, and a word of data names each lone jump
    named      the same, but two items name each lone jump
    parted     the same, but an upper half, a lower half and a jump by a register do
    embodied   the same, but two items of a procedure do, which a note lists and which is called twice
    poured     the same as chained, in such an order that 16 * COUNT words of data, which name the first lone jump, come to name one after another
    threads    COUNT blocks of an item and a jump, each to the next in shuffled order, which words name: each moves
    backward   the same, each to the one before it: the chains that move come to be long
    vain       COUNT jumps to the first of some four times as many blocks, which follow each other and none of which may move
    stays      COUNT jumps to some chains of about as many blocks, behind which none may move, and then one to each, behind which it may
    enabled    COUNT chains, each before a branch over the next 29 of them, so that one may move once all of these have
    alternate  the same of 21, and each move lets a branch reach past a lone jump, which has to go before the next chain may move
    falls      COUNT jumps to the next slot, which nothing else names, each behind an item
    steps      COUNT calls, each before a lone jump to the next slot
    inverts    COUNT branches over a lone jump
    calls      COUNT calls by an upper half
    unreached  COUNT blocks that nothing reaches
    repeat     one item COUNT times
    windows    COUNT different windows of four items in one block, each in three places: row W makes procedures of them
    equal      COUNT equal blocks of one item and a call
    renamed    COUNT blocks of three items and a call that match one another by renaming
    unmatched  COUNT blocks of two items that are alike but for their registers, all of which are live behind them: none match
    mentions   COUNT blocks that are alike but for registers, which a procedure that they come to call mentions: none match
    near       COUNT branches that just reach, with nothing to spare
    tables     1,000 relocation sections over one table of COUNT entries
    nearby     COUNT branches to a lone jump of their own, whose target comes near only once others' words went
    nearinvert COUNT branches over a lone jump, whose target comes near only once others' words went
    nearmoved  the same, but it comes near only once chains moved, one after another
    asked      COUNT windows, and one procedure whose body may not come in place of its call, since a branch wouldn't reach
    waits      COUNT branches over a lone jump, whose targets come near one after another, each once one more window became calls
    likened    COUNT windows, each of which is by renaming the body of a block: once it became calls, row O2 makes a call of that
    once       COUNT procedures that a note lists, each called once: row O4 puts their bodies in place
    blocked    the same, but between branches that just reach: row O4 may put none in place
    allbutone  the same, but between branches that reach with room to spare, but for one: row O4 puts all but one in place
    crowded    the same, but eight each between a branch and where it leads, with room for four
    doubles    COUNT procedures that a note lists, with equal bodies, each called twice: row O3 leaves one of them
    strangers  COUNT procedures that a note lists, and COUNT blocks, alike but for registers: none stands for the items of a block
    outlived   COUNT blocks that are alike but for registers, with an eighth as many sets of registers that are live behind them: none match
    links      COUNT pairs of equal bodies, behind which the first register that might be the link of a procedure is live
    halves     COUNT pairs of bodies that match, with a 32nd as many sets of registers that are live behind them
    ladder     COUNT rungs of two ladders: a block equals another once those that they lead to are one
    rungs      the same, of blocks that are equal but for a register
    heads      COUNT procedures that a note lists, which begin with two items as twice as many places do: none stands there
    rows       COUNT groups, each with a candidate of every row of the cost rule

The text has at most 262,144 words, or Squeeze refuses it. Each kind ends with an exit, which every way through it reaches.
"""

import itertools
import math
import random
import struct
import sys

BASE, DATA = 0x10000, 0x200000
WORD, BRANCH, JAL, CALL, HIGH, LOW = 1, 16, 17, 19, 26, 27  # types of relocations
A0, A1, A2, A3, A7, RA, T0, T1, T2 = 10, 11, 12, 13, 17, 1, 5, 6, 7
NOTE, VERSION = 0x80515A31, 0x325A5153  # of a note: the type of its section, and its first word


def addi(rd, rs, number):
    return number << 20 | rs << 15 | rd << 7 | 0x13


def lui(rd, number):
    return number << 12 | rd << 7 | 0x37


def store(rs, base, number):
    return (number >> 5 & 127) << 25 | rs << 20 | base << 15 | (number & 31) << 7 | 0x2023


def jump_bits(distance):
    d = distance & 0x1FFFFF
    return (d >> 20 & 1) << 31 | (d >> 1 & 0x3FF) << 21 | (d >> 11 & 1) << 20 | (d >> 12 & 0xFF) << 12


def branch_bits(distance):
    d = distance & 0x1FFF
    return (d >> 12 & 1) << 31 | (d >> 5 & 0x3F) << 25 | (d >> 1 & 0xF) << 8 | (d >> 11 & 1) << 7


class Program:
    """Words of text and of data, and which of them name a place of the text."""

    def __init__(self):
        self.text, self.data, self.places, self.jumps, self.words = [], [], {}, [], []
        self.procedures = []  # those that a note lists: a name, a link and how many items

    def mark(self, name):
        self.places[name] = len(self.text)

    def items(self, *words):
        self.text += words

    def jump(self, name, link=0):
        self.jumps.append((len(self.text), JAL, name))
        self.text.append(link << 7 | 0x6F)

    def branch(self, name):
        """beq a0, a1, NAME"""
        self.jumps.append((len(self.text), BRANCH, name))
        self.text.append(A1 << 20 | A0 << 15 | 0x63)

    def procedure(self, name, items):
        """A procedure that a note lists, behind what doesn't go on."""
        start = len(self.text)
        self.items(*items)
        self.procedure_from(name, start)

    def procedure_from(self, name, start):
        """The same, whose items are those from this place on."""
        self.places[name] = start
        self.procedures.append((name, T0, len(self.text) - start))
        self.items(T0 << 15 | 0x67)

    def far_call(self, name):
        """auipc ra and jalr ra, ra"""
        self.jumps.append((len(self.text), CALL, name))
        self.text += [RA << 7 | 0x17, RA << 15 | RA << 7 | 0x67]

    def address(self, name):
        """lui a3, %hi(NAME) and addi a3, a3, %lo(NAME)"""
        self.jumps += [(len(self.text), HIGH, name), (len(self.text) + 1, LOW, name)]
        self.text += [lui(A3, 0), addi(A3, A3, 0)]

    def part_jump(self, name):
        """lui t0, %hi(NAME), addi a3, t0, %lo(NAME) and jalr zero, %lo(NAME)(t0)"""
        start = len(self.text)
        self.jumps += [(start, HIGH, name), (start + 1, LOW, name), (start + 2, LOW, name)]
        self.text += [lui(T0, 0), addi(A3, T0, 0), T0 << 15 | 0x67]

    def word(self, name):
        self.words.append((len(self.data), name))
        self.data.append(0)

    def exit(self):
        self.items(addi(A7, 0, 93), addi(A0, 0, 0), 0x73)
        self.mark("stop")
        self.jump("stop")

    def resolve(self):
        """Puts the distances and addresses in, and returns the relocations of text and of data."""
        text = []
        for at, kind, name in self.jumps:
            distance = 4 * (self.places[name] - at)
            address = BASE + 4 * self.places[name]
            if kind == HIGH:
                self.text[at] |= address + 0x800 & 0xFFFFF000
            elif kind == LOW:
                self.text[at] |= (address & 0xFFF) << 20
            elif kind == CALL:
                high = (distance + 0x800) & 0xFFFFF000
                self.text[at] |= high
                self.text[at + 1] |= (distance - high & 0xFFF) << 20
            else:
                self.text[at] |= jump_bits(distance) if kind == JAL else branch_bits(distance)
            text.append((BASE + 4 * at, kind, 4 * self.places[name]))
        for at, name in self.words:
            self.data[at] = BASE + 4 * self.places[name]
        return text, [(DATA + 4 * at, WORD, 4 * self.places[name]) for at, name in self.words]


def packed(words):
    return struct.pack(f"<{len(words)}I", *words)


def relocations(entries):
    """Each names the section symbol of the text, and adds the place in it."""
    return b"".join(struct.pack("<3I", at, 1 << 8 | kind, place) for at, kind, place in entries)


def note(program):
    """The section that lists procedures, if there are any: its version, how many there are, and of each its address, its link
    and how many items it has."""
    if not program.procedures:
        return b""
    entries = [(BASE + 4 * program.places[name], link, items) for name, link, items in program.procedures]
    return packed([VERSION, len(entries), *[word for entry in entries for word in entry]])


def elf(program, copies):
    """The file, in which so many sections have the relocations of the text."""
    of_text, of_data = map(relocations, program.resolve())
    text, data = packed(program.text), packed(program.data)
    symbols = bytes(16) + struct.pack("<3I2BH", 0, BASE, 0, 3, 0, 1)
    names = b"\0"
    bodies = [text, data, of_text, of_data, symbols, names, note(program)]
    starts, end = [], 52 + 2 * 32
    for body in bodies:
        starts.append(end)
        end += len(body) + -len(body) % 4
    # name, type, flags, address, offset, size, link, info, align, entry size
    head = [
        (0,) * 10,
        (0, 1, 6, BASE, starts[0], len(text), 0, 0, 4, 0),
        (0, 1, 3, DATA, starts[1], len(data), 0, 0, 4, 0),
        (0, 2, 0, 0, starts[4], len(symbols), 5 + copies, 2, 4, 16),
        (0, 4, 0, 0, starts[3], len(of_data), 3, 2, 4, 12),
        *[(0, 4, 0, 0, starts[2], len(of_text), 3, 1, 4, 12)] * copies,
        (0, 3, 0, 0, starts[5], len(names), 0, 0, 1, 0),
    ]
    if program.procedures:
        head.append((0, NOTE, 0, 0, starts[6], len(bodies[6]), 0, 0, 4, 0))
    ident = b"\x7fELF\1\1\1" + bytes(9)
    header = ident + struct.pack("<2H5I6H", 2, 243, 1, BASE, 52, end, 0, 52, 32, 2, 40, len(head), 5 + copies)
    segments = struct.pack("<8I", 1, starts[0], BASE, BASE, len(text), len(text), 5, 4)
    segments += struct.pack("<8I", 1, starts[1], DATA, DATA, len(data), len(data), 6, 4)
    padded = b"".join(body + bytes(-len(body) % 4) for body in bodies)
    return header + segments + padded + b"".join(struct.pack("<10I", *line) for line in head)


def shuffled(count):
    """The first number of a shuffled order, and for each what is behind it."""
    order = list(range(count))
    random.Random(1).shuffle(order)
    return order[0], dict(zip(order, [*order[1:], "exit"]))


def chain(p, count):
    first, behind = shuffled(count)
    p.jump(first)
    for number in range(count):
        p.mark(number)
        p.jump(behind[number])


def table(p, count):
    p.items(addi(A0, 0, 1))
    p.jump("exit")
    for number in range(count):
        p.mark(number)
        p.jump("exit")
        p.word(number)


def branches(p, targets):
    """For each target a Branch to a lone jump of its own, which leads there."""
    for number, target in enumerate(targets):
        p.branch(number)
        p.items(addi(A2, A2, 1))
        p.jump(("next", number))
        p.mark(number)
        p.jump(target)
        p.mark(("next", number))


def detours(p, count):
    branches(p, ["exit"] * count)


def chained(p, count):
    _, behind = shuffled(count)
    branches(p, [behind[number] for number in range(count)])


def held(p, count):
    chained(p, count)
    for number in range(count):
        p.word(number)


def named(p, count):
    for number in range(count):
        p.address(number)
    chained(p, count)


def parted(p, count):
    for number in range(count):
        p.branch(("behind", number))
        p.part_jump(number)
        p.mark(("behind", number))
    chained(p, count)


def embodied(p, count):
    for number in range(count):
        p.jump(("procedure", number), T0)
        p.jump(("procedure", number), T0)
    chained(p, count)
    p.jump("exit")
    for number in range(count):
        start = len(p.text)
        p.address(number)
        p.items(addi(A2, A2, 1), addi(A2, A2, 2))
        p.procedure_from(("procedure", number), start)


def poured(p, count):
    order = [number for pair in zip(range(count), range(count, 2 * count)) for number in pair]
    branches(p, [behind for _, behind in sorted(zip(order, [*order[1:], "exit"]))])
    for _ in range(16 * count):
        p.word(0)


def threads(p, count):
    _, behind = shuffled(count)
    for number in range(count):
        p.word(number)
        p.mark(number)
        p.items(only(number))
        p.jump(behind[number])


def backward(p, count):
    for number in range(count):
        p.word(number)
        p.mark(number)
        p.items(only(number))
        p.jump(number - 1 if number else "exit")


def vain(p, count):
    """Where the chain moved, its first Branch wouldn't reach."""
    for name, items in [("aim", 1), ("between", 900)]:
        p.word(name)
        p.mark(name)
        p.items(*[addi(A3, A3, number % 3) for number in range(items)])
        p.jump("exit")
    p.mark("first")
    p.branch("aim")
    for number in range(17 * count // 4):
        p.mark(("chain", number))
        p.branch(("chain", max(0, number - 7)))
    p.jump("exit")
    p.word("far")
    p.mark("far")
    p.items(*[addi(A2, A2, number) for number in range(1100)])
    p.jump("exit")
    for number in range(count):
        p.word(number)
        p.mark(number)
        p.items(lui(A2, number))
        p.jump("first")


def stays(p, count):
    """Where a chain moved, its first Branch wouldn't reach, but for behind the last jump to it."""
    chains = math.isqrt(10 * count // 23)
    for number in range(count):
        p.word(number)
        p.mark(number)
        p.items(lui(A2, number))
        p.jump(("first", number % chains))
    p.word("far")
    p.mark("far")
    p.items(*[addi(A2, A2, number) for number in range(1100)])
    p.jump("exit")
    for chain in range(chains):
        p.word(("aim", chain))
        p.mark(("aim", chain))
        p.items(lui(A3, chain))
        p.jump("exit")
        p.mark(("first", chain))
        p.branch(("aim", chain))
        for number in range(2 * chains):
            p.mark(("chain", chain, number))
            p.branch(("chain", chain, max(0, number - 7)))
        p.jump("exit")
        p.word(("last", chain))
        p.mark(("last", chain))
        p.items(lui(A1, chain))
        p.jump(("first", chain))


def enabled(p, count):
    """A chain of 33 words moves behind its branch, over 1,019 words of which one goes with each of the 29 moves there."""
    p.jump("exit")
    for number in range(count + 31):
        items = [lui(A2, 32 * number + item) for item in range(32)]
        p.mark(("chain", number))
        p.items(*items[:2])
        p.word(("aim", number))
        p.mark(("aim", number))
        p.items(*items[2:])
        p.jump("exit")
        p.word(("behind", number))
        p.mark(("behind", number))
        p.branch(("aim", number + 30) if number < count else ("chain", number))
        p.jump(("chain", number))


def alternate(p, count):
    """A chain of 45 words moves behind its branch, over 1,020 words of which two go with each of the 21 moves there: the jump to the
    chain, and the lone jump of the chain's first branch, which is a word too far from where that leads before the move."""
    p.jump("exit")
    for number in range(count + 24):
        ahead = 22 if number < count else 0
        parts = [("chain", 9), ("aim", 5), ("between", 8), ("lone aim", 21)]
        values = itertools.count(64 * number)
        for name, items in parts:
            if "aim" in name:
                p.word((name, number))
            p.mark((name, number))
            p.items(*[lui(A2, next(values)) for _ in range(items)])
            if name == "aim":
                p.branch(("lone", number))
        p.jump("exit")
        p.word(("behind", number))
        p.mark(("behind", number))
        p.branch(("aim", number + ahead) if ahead else ("chain", number))
        p.jump(("chain", number))
        p.mark(("lone", number))
        p.jump(("lone aim", number + ahead))


def falls(p, count):
    for number in range(count):
        p.items(addi(A2, A2, 1))
        p.jump(number)
        p.mark(number)


def gap(p, group, count):
    """So many words that go: jumps to the next slot, each behind an item."""
    for number in range(count):
        p.items(addi(A0, A0, 1))
        p.jump(("gap", group, number))
        p.mark(("gap", group, number))


def nearby(p, count):
    for group in range(-(-count // 200)):
        numbers = [(group, number) for number in range(min(200, count - 200 * group))]
        for number in numbers:
            p.branch(("lone", number))
        p.jump(("skip", group))
        for number in numbers:
            p.mark(("lone", number))
            p.jump(("target", number))
        p.mark(("skip", group))
        gap(p, group, 315)
        for number in numbers:
            p.mark(("target", number))
            p.items(addi(A2, A2, 1))


def nearinvert(p, count):
    for group in range(-(-count // 200)):
        numbers = [(group, number) for number in range(min(200, count - 200 * group))]
        for number in numbers:
            p.branch(("over", number))
            p.jump(("target", number))
            p.mark(("over", number))
        p.items(addi(A0, A0, 1))
        gap(p, group, 325)
        for number in numbers:
            p.mark(("target", number))
            p.items(addi(A2, A2, 1), addi(A2, A2, 1))


def nearmoved(p, count):
    items = itertools.count()
    for group in range(-(-count // 300)):
        numbers = [(group, number) for number in range(min(300, count - 300 * group))]
        for number in numbers:
            p.branch(("over", number))
            p.jump(("target", number))
            p.mark(("over", number))
            p.items(only(next(items)))
        for number in numbers:
            p.branch(("lone", number))
            p.items(addi(A2, A2, 1))
            p.jump(("next", number))
            p.mark(("lone", number))
            p.jump("exit")
            p.mark(("next", number))
        for number in numbers:
            p.mark(("target", number))
            p.items(only(next(items)))


def function(p):
    p.jump("exit")
    p.mark("function")
    p.items(addi(A2, A2, 1), RA << 15 | 0x67)


def steps(p, count):
    for number in range(count):
        p.jump("function", RA)
        p.jump(number)
        p.mark(number)
    function(p)


def inverts(p, count):
    for number in range(count):
        p.branch(("over", number))
        p.jump(("next", number))
        p.mark(("over", number))
        p.items(addi(A2, A2, 1))
        p.mark(("next", number))


def calls(p, count):
    for _ in range(count):
        p.far_call("function")
    function(p)


def unreached(p, count):
    p.jump("exit")
    for number in range(count):
        p.mark(number)
        p.items(addi(A2, A2, number % 2048))
        p.jump("exit")


def repeat(p, count):
    p.items(*[addi(A2, A2, 1)] * count)


def window(p, number, place):
    """Four items that stand in three places, with another item before them in each."""
    p.items(addi(14 + place, 15, (3 * number + place) % 2039))
    p.items(addi(A0, A0, number % 2000), addi(11, 11, number // 2000 + 1))
    p.items(addi(A2, A2, number % 1999), addi(13, 13, 5))


def windows(p, count):
    for place in range(3):
        for number in range(count):
            window(p, number, place)


def only(number):
    """An item that stands nowhere else."""
    return addi(18 + number // 2039 % 10, 18 + number // 20390 % 10, number % 2039)


def asked(p, count):
    windows(p, count)
    blocked(p, 1)


def waits(p, count):
    items = itertools.count()
    for group in range(-(-count // 60)):
        numbers = range(60 * group, min(60 * group + 60, count))
        for number in numbers:
            p.branch(("over", number))
            p.jump(("target", number))
            p.mark(("over", number))
            p.items(only(next(items)))
        for place in range(3):
            for number in numbers:
                window(p, number, place)
        for number in numbers:
            p.mark(("target", number))
            p.items(*[only(next(items)) for _ in range(12)])


def likened(p, count):
    items = itertools.count()
    for number in range(count):
        for register in [T1, T1, T2]:
            if register == T1:
                p.items(only(next(items)))
            else:
                p.branch(("body", number))
                p.mark(("body", number))
            p.items(lui(register, number), addi(register, register, 1 + number % 2039))
            p.items(addi(register, register, 1 + number % 1999), addi(A2, register, 3))
        p.branch(("behind", number))
        p.items(only(next(items)))
        p.mark(("behind", number))


def equal(p, count):
    for _ in range(count):
        p.items(addi(A2, A2, 1))
        p.jump("function", RA)
    function(p)


def renamed(p, count):
    registers = [5, 6, 7, 13, 14, 15, 16, 28, 29, 30, 31]
    pairs = [(a, b) for a in registers for b in registers if a != b]
    for number in range(count):
        first, second = pairs[number % len(pairs)]
        p.items(addi(first, 0, 1), addi(second, first, 2), addi(A0, second, 3))
        p.jump("function", RA)
    function(p)


def unmatched(p, count):
    registers = [1, *range(5, 32)]
    chosen = random.Random(2)
    last = list(itertools.permutations(registers, 3))
    chosen.shuffle(last)
    for number in range(count):
        p.word(number)
        p.mark(number)
        for rd, rs, other in [chosen.choices(registers, k=3), last[number % len(last)]]:
            p.items(other << 20 | rs << 15 | rd << 7 | 0x33)  # add
        p.jump("common")
    p.mark("common")
    p.items(*[addi(register, register, 1) for register in registers])


def mentions(p, count):
    """Each block has the same 14 stores, which become a call."""
    registers = range(5, 19)
    chosen = random.Random(3)
    blocks = set()
    while len(blocks) < count:
        blocks.add(tuple(chosen.sample(registers, 6)))
    for number, block in enumerate(sorted(blocks)):
        p.word(number)
        p.mark(number)
        p.items(*[addi(register, 0, 5) for register in block[:4]])
        p.items(*[store(register, 2, 4 * place) for place, register in enumerate(registers)])
        p.items(addi(block[4], 0, 6), addi(block[5], 0, 9))
        p.jump("common")
    p.mark("common")
    p.items(*[addi(register, 0, 1) for register in range(5, 32)])
    p.items(*[store(register, A0, 0) for register in range(5, 32)])


def near(p, count):
    """Each Branch leads 4,092 bytes ahead, as far as one can."""
    for number in range(count + 1023):
        p.mark(number)
        if number < count:
            p.branch(number + 1023)
        else:
            p.items(addi(A2, A2, 1))


def tables(p, count):
    for number in range(count):
        p.mark(number)
        p.jump(number + 1 if number + 1 < count else "exit")


def procedures(p, count, calls, body):
    """So many calls of each, and behind the exit the procedures."""
    for number in range(count):
        for _ in range(calls):
            p.jump(("procedure", number), T0)
    p.jump("exit")
    for number in range(count):
        p.procedure(("procedure", number), body(number))


def two_items(number):
    return [addi(A2, A2, number % 2047 + 1), addi(A1, A1, number // 2047 + 1)]


def once(p, count):
    procedures(p, count, 1, two_items)


def blocked(p, count):
    """Each second word is a Branch that leads 4,092 bytes ahead, the others are the calls."""
    for number in range(2 * count + 1023):
        p.mark(("word", number))
        if number >= 2 * count:
            p.items(only(number))
        elif number % 2 == 0:
            p.branch(("word", number + 1023))
        else:
            p.jump(("procedure", number // 2), T0)
    p.jump("exit")
    for number in range(count):
        p.procedure(("procedure", number), two_items(number))


def between(p, name, calls, words):
    """A Branch over these calls and so many other words."""
    p.branch((name, "end"))
    for number in calls:
        p.jump(("procedure", number), T0)
    for number in range(words):
        p.items(only(1024 * name + number))
    p.mark((name, "end"))
    p.items(only(1024 * name + words))


def allbutone(p, count):
    between(p, 0, [0], 1021)
    for number in range(1, count):
        p.jump(("procedure", number), T0)
        p.items(only(1024 + number))
    p.jump("exit")
    for number in range(count):
        p.procedure(("procedure", number), two_items(number))


def crowded(p, count):
    for number in range(0, count, 8):
        between(p, number // 8, range(number, number + 8), 1010)
    p.jump("exit")
    for number in range(0, count + -count % 8):
        p.procedure(("procedure", number), two_items(number))


def doubles(p, count):
    procedures(p, count, 2, lambda _: [addi(A2, A2, 1), addi(A1, A1, 1), addi(A2, A2, 3), addi(A1, A1, 5)])


def twice(p, count, body):
    """Two calls of each of so many procedures, and behind the exit the procedures."""
    for number in range(count):
        p.jump(("procedure", number), T0)
        p.items(only(number))
        p.jump(("procedure", number), T0)
    p.jump("exit")
    for number in range(count):
        p.procedure(("procedure", number), body(number))


def strangers(p, count):
    registers = [1, *range(7, 32)]
    chosen = random.Random(2)

    def body(_):
        return [other << 20 | rs << 15 | rd << 7 | 0x33 for rd, rs, other in [chosen.choices(registers, k=3) for _ in range(3)]]

    for number in range(count):
        p.word(number)
        p.mark(number)
        p.items(*body(number))
        p.jump("common")
    p.mark("common")
    p.items(*[store(register, A0, 0) for register in registers])
    twice(p, count, body)


def outlived(p, count):
    """The first two registers that a body writes are dead behind all of them, the others are live behind it and a few more."""
    chosen = random.Random(4)
    readers = [chosen.sample(range(9, 32), 8) for _ in range(count // 8 + 1)]
    seen = set()
    for number in range(count):
        reader = number % len(readers)
        kept = tuple(chosen.sample(readers[reader], 5))
        while kept in seen:
            kept = tuple(chosen.sample(readers[reader], 5))
        seen.add(kept)
        p.word(number)
        p.mark(number)
        p.items(*[addi(register, 0, 5) for register in [*chosen.sample(range(5, 9), 2), *kept]])
        p.jump(("reader", reader))
    for number, read in enumerate(readers):
        p.mark(("reader", number))
        p.items(*[store(register, A0, 4 * chosen.randrange(512)) for register in read])
        p.jump("exit")


def links(p, count):
    """t0 is read at the end, and each body falls into the next one."""
    for number in range(2 * count):
        p.word(number)
        p.mark(number)
        first, second = (A1, A2) if number % 2 else (A2, A1)
        low, high = number // 2 & 2047, (number // 2 >> 11) + 1
        p.items(addi(first, 0, low), addi(second, first, high), addi(first, second, 7), addi(first, first, 9))
    p.items(store(T0, A0, 0))


def halves(p, count):
    """Of each pair t1 is live behind the first, which writes it, and dead behind the second, which writes t2."""
    chosen = random.Random(4)
    readers = [chosen.sample(range(9, 32), 8) for _ in range(count // 64 + 1)]
    seen = set()
    for number in range(count):
        reader = number % len(readers)
        kept = tuple(chosen.sample(readers[reader], 5))
        while kept in seen:
            kept = tuple(chosen.sample(readers[reader], 5))
        seen.add(kept)
        for half, own in enumerate((T1, T2)):
            p.word((half, number))
            p.mark((half, number))
            p.items(*[addi(register, 0, 5) for register in [own, *kept]])
            p.jump(("reader", half, reader))
    for number, read in enumerate(readers):
        for half, more in enumerate(([T1], [])):
            p.mark(("reader", half, number))
            p.items(*[store(register, A0, 4 * chosen.randrange(512)) for register in [*read, *more]])
            p.jump("exit")


def ladder_of(p, count, items):
    """What a rung has is given by its side, and two parts of its number."""
    for number in range(count):
        for side in range(2):
            p.word((side, number))
            p.mark((side, number))
            p.items(*items(side, number & 2047, number >> 11))
            p.jump((side, number + 1) if number + 1 < count else "exit")


def ladder(p, count):
    ladder_of(p, count, lambda side, low, high: [addi(A1, A1, low), addi(A2, A1, high + 1)])


def rungs(p, count):
    own = (T1, T2)
    ladder_of(
        p,
        count,
        lambda side, low, high: [addi(own[side], 0, low), addi(own[side], own[side], high), store(own[side], 2, 0)],
    )


def heads(p, count):
    first = [addi(A2, A2, 1), addi(A1, A1, 1)]
    for number in range(2 * count):
        p.items(*first, only(count + number))
    twice(p, count, lambda number: [*first, only(3 * count + number)])


class Group:
    """Names of places and items that no other group of kind `rows` has."""

    def __init__(self, number):
        self.number, self.uppers = number, itertools.count(32 * number)
        self.tail, self.called, self.doubled, self.once = map(self.new, (1, 2, 2, 1))
        self.body, self.window, self.renamed = self.new(4), self.new(4), next(self.uppers)

    def place(self, name):
        return name, self.number

    def new(self, count=1):
        """So many items that stand nowhere else."""
        return [lui(T1, next(self.uppers)) for _ in range(count)]


def through(p, g):
    """The way through a group, from which Branches lead to its arms."""
    for name in ["called", "called", "doubled", "doubled", "double", "once"]:  # O3, O4
        p.jump(g.place(name), T0)
    p.branch(g.place("before"))
    p.items(*g.called)  # O2
    p.branch(g.place("lone"))  # J2
    p.items(*g.body)  # O1
    p.branch(g.place("body"))
    p.items(*g.new())
    p.jump(g.place("next"))  # J1
    p.mark(g.place("next"))
    p.far_call("function")  # C
    p.branch(g.place("over"))  # J3
    p.jump(g.place("end"))
    p.mark(g.place("over"))
    p.items(*g.new(), *g.window, *g.new(), *g.called, *g.new(), *g.window, *g.new())  # W, V
    for name in ["renamed", "matched", "tail"]:  # T
        p.branch(g.place(name))
    tail(p, g)


def tail(p, g):
    """One of two equal tails. Where row T takes it, row U takes the Jump behind it."""
    p.items(*g.new(), *g.tail)
    p.branch(g.place("behind"))
    p.jump(g.place("end"))


def arms(p, g):
    """What stands behind the way through, up to the end of the group."""
    p.mark(g.place("tail"))
    tail(p, g)
    p.mark(g.place("lone"))
    p.jump(g.place("end"))
    p.items(*g.new())  # nothing reaches it
    p.mark(g.place("before"))
    p.items(*g.new())
    p.jump(g.place("behind"))  # L
    for name, register in [("renamed", T1), ("matched", T2)]:
        p.mark(g.place(name))
        p.items(lui(register, g.renamed), addi(A2, register, 1))
        p.jump(g.place("end"))
    p.mark(g.place("behind"))
    p.items(*g.new())
    p.jump(g.place("end"))
    p.mark(g.place("body"))
    p.items(*g.body)
    p.mark(g.place("end"))


def rows(p, count):
    """Groups that have nothing in common but their function. Behind each part stands the row that it is for."""
    groups = [Group(number) for number in range(count)]
    for group in groups:
        through(p, group)
        arms(p, group)
    function(p)
    for g in groups:
        for name, items in [("called", g.called), ("doubled", g.doubled), ("double", g.doubled), ("once", g.once)]:
            p.procedure(g.place(name), items)


# what makes each kind, and how many words of text one of COUNT has
KINDS = {
    "chain": (chain, 1),
    "table": (table, 1),
    "detours": (detours, 4),
    "chained": (chained, 4),
    "held": (held, 4),
    "named": (named, 6),
    "parted": (parted, 8),
    "embodied": (embodied, 11),
    "poured": (poured, 8),
    "threads": (threads, 2),
    "backward": (backward, 2),
    "vain": (vain, 7),
    "stays": (stays, 3),
    "enabled": (enabled, 36),
    "alternate": (alternate, 49),
    "falls": (falls, 2),
    "steps": (steps, 2),
    "inverts": (inverts, 3),
    "calls": (calls, 2),
    "unreached": (unreached, 2),
    "repeat": (repeat, 1),
    "windows": (windows, 15),
    "asked": (asked, 15),
    "waits": (waits, 30),
    "likened": (likened, 17),
    "equal": (equal, 2),
    "renamed": (renamed, 4),
    "unmatched": (unmatched, 3),
    "mentions": (mentions, 21),
    "near": (near, 1),
    "tables": (tables, 1),
    "nearby": (nearby, 7),
    "nearinvert": (nearinvert, 8),
    "nearmoved": (nearmoved, 8),
    "once": (once, 4),
    "blocked": (blocked, 5),
    "allbutone": (allbutone, 5),
    "crowded": (crowded, 131),
    "doubles": (doubles, 7),
    "strangers": (strangers, 11),
    "heads": (heads, 13),
    "outlived": (outlived, 9),
    "links": (links, 8),
    "halves": (halves, 15),
    "ladder": (ladder, 6),
    "rungs": (rungs, 8),
    "rows": (rows, 73),
}


def made(kind, count):
    """The bytes of the file."""
    program = Program()
    KINDS[kind][0](program, count)
    program.mark("exit")
    program.exit()
    return elf(program, 1000 if kind == "tables" else 1)


if __name__ == "__main__":
    if len(sys.argv) != 3 or sys.argv[1] not in KINDS:
        sys.exit(__doc__)
    sys.stdout.buffer.write(made(sys.argv[1], int(sys.argv[2])))
