#!/usr/bin/env python3
"""Makes scripts for the comparison: whole small domains, seeded long ones (sensible, random, damaged), and seeded short
ones from a new machine.

    generate.py SEED FIELDS [--thin] > BATCH       the same bytes for the same arguments, on every machine
    generate.py SEED --short SCRIPTS > BATCH

FIELDS is the least number of fields, the whole domains among them; --thin takes a part of the largest domains only.
--short: so many short scripts, half of them damaged, and nothing else. BATCH is the oracle's form: each script behind
its length in four bytes, low byte first.
"""
import argparse
import itertools
import sys

from scripts import *  # noqa: F403: the fields' names are this file's vocabulary

MASTER, SLAVE = 0x20, 0xA0
TPR, LDR, DFR, SVR, ESR, ICR, ICR_HIGH, SELF_IPI = 0x80, 0xD0, 0xE0, 0xF0, 0x280, 0x300, 0x310, 0x3F0
PPR, IN_SERVICE, TRIGGER, EOI = 0xA0, 0x100, 0x180, 0xB0
LVTS = [0x2F0] + list(range(0x320, 0x380, 0x10))
ALL = 2**64 - 1
LEAST_SEEDED = 12
GATE_SHORT, GATE_SEEDS = 2_000, (1, 2, 3, 4)


class Dice:
    """A generator of its own (splitmix64), so that a seed gives the same scripts under every Python."""

    def __init__(self, seed):
        self.state = seed % 2**64

    def word(self):
        self.state = (self.state + 0x9E3779B97F4A7C15) & ALL
        z = self.state
        z = ((z ^ (z >> 30)) * 0xBF58476D1CE4E5B9) & ALL
        z = ((z ^ (z >> 27)) * 0x94D049BB133111EB) & ALL
        return z ^ (z >> 31)

    def below(self, n):
        return self.word() % n

    def pick(self, options):
        return options[self.word() % len(options)]

    def chance(self, in_hundred):
        return self.word() % 100 < in_hundred


def packed(episodes, longest=LONGEST - NAMES):
    """Episodes (lists of fields that belong together) joined into scripts that are as long as they may be with their names in front."""
    script = []
    size = 0
    for episode in episodes:
        length = sum(map(len, episode))
        if size + length > longest:
            yield b"".join(script)
            script, size = [], 0
        script += episode
        size += length
    if script:
        yield b"".join(script)


# ---- whole domains: I/O APIC ----------------------------------------------------------------------------------------


def io_low_word_bits():
    """Every bit of a low word changed, under each state of the entry: idle, in flight, deferred, line dropped."""
    preludes = [lambda g: [], lambda g: [line(g, 1)], lambda g: [line(g, 1)] * 2, lambda g: [line(g, 1), line(g, 0)],
                lambda g: [assert_gsi(g)], lambda g: [assert_gsi(g)] * 2]
    cases = itertools.product([0x30, 0x8030, 0x18030, 0xA5438030], range(33), preludes)
    for n, (word, bit, prelude) in enumerate(cases):
        gsi = n % 24
        yield (write_low(gsi, 0x10000) + write_low(gsi, word) + prelude(gsi) + [window(word ^ (1 << bit)), read_window()]
               + [io_eoi(0x30), read_window(), line(gsi, 1), read_window(), io_eoi(0x30), line(gsi, 0), io_eoi(0x30)]
               + [io_eoi(0x31), read_window(), select(0x11 + 2 * gsi), read_window()])


def io_kinds():
    """Every mode, trigger, mask and bit 14 by the vectors around the lowest; sent by assert and by line."""
    cases = itertools.product(range(8), [0, 0x8000], [0, 0x10000], [0, 0x4000], [0, 14, 15, 16, 17, 0x30, 254, 255])
    for n, (mode, level, mask, flight, vector) in enumerate(cases):
        gsi = n % 24
        word = mode << 8 | level | mask | flight | vector
        yield (write_low(gsi, word) + [read_window(), assert_gsi(gsi), assert_gsi(gsi), read_window(), io_eoi(vector)]
               + [line(gsi, 1), line(gsi, 1), read_window(), io_eoi(vector), line(gsi, 0), io_eoi(vector), read_window()])


def io_selectors():
    """Every selector up to 0x50 and some large ones, written and read."""
    large = [0xFF, 0x100, 0x110, 0x111, 0x1000, 2**31, 2**32 - 1, 2**32, 2**32 + 0x10, 2**63 + 0x12]
    for selector in list(range(0x51)) + large:
        yield [select(selector), io_read(IO_BASE), read_window(), window(0xDEADBEEF8030), read_window(), window(0x10000), read_window()]


# Every offset that has a register in some version, and its neighbours: version 0x20's EOI register is at 0x40, which in
# version 0x11 is one of the others. Then far ones.
NEAR = range(-2, 0x49)
FAR = [0x50, 0x80, 0x90, 0x100, 0x110, 0x200, 0x400, 0x410, 0x440, 0x800, 0xFF0, 0xFFF, 0x1000, 0x1010, 0x1040, 0x10000, 0x100010,
       2**31, 2**31 + 0x10, 2**32, 2**32 + 0x10, 2**32 + 0x40]


def io_addresses():
    """Every offset near the registers, far ones and the edges, in every width.

    What is written, 0x12, is the vector that entry 1 has in flight, and not what is selected, entry 1's high word: if a
    write selects, goes through the window or ends the vector, that shows.
    """
    elsewhere = [0, 1, 0x10, 0x40, IO_BASE % 2**31, 2**32 - 1, 2**63, 2**64 - 1, 2**64 - 0x10]
    for address, width in itertools.product([IO_BASE + offset for offset in [*NEAR, *FAR]] + elsewhere, [1, 2, 4, 8]):
        start = write_low(1, 0x8012) + [select(0x13), window(0x77), assert_gsi(1)]
        written = [io_read(address, width), io_write(address, 0x12, width), io_read(address, width)]
        yield start + written + [io_read(IO_BASE), read_window(), io_eoi(0x12)]


def io_lines():
    """Every GSI, as many as a byte has."""
    yield [f for g in range(24) for f in write_low(g, 0x8000 | 0x30 + g)]
    for gsi in range(256):
        yield [line(gsi, 1), assert_gsi(gsi), line(gsi, 2), line(gsi, 0), io_eoi(0x30 + gsi % 24), assert_gsi(gsi), io_eoi(0x30 + gsi % 24)]


# ---- whole domains: the 8259 pair -----------------------------------------------------------------------------------


def initialise(port, base, icw1=0x11, icw4=1, mask=0):
    fields = [pic_write(port, icw1), pic_write(port + 1, base)]
    fields += [] if icw1 & 2 else [pic_write(port + 1, 4)]
    fields += [pic_write(port + 1, icw4)] if icw1 & 1 else []
    return fields + [pic_write(port + 1, mask)]


# Commands and data that bring a chip into each step, by each way.
STEPS = [[], [(0, 0x10)], [(0, 0x11)], [(0, 0x12)], [(0, 0x13)], [(0, 0x10), (1, 0x40)], [(0, 0x11), (1, 0x40)],
         [(0, 0x11), (1, 0x40), (1, 4)], [(0, 0x13), (1, 0x40)]]


def pic_bytes():
    """Every command and data byte in every step of initialisation of both chips, then what the chip became."""
    for chip, steps, to_data, value in itertools.product([MASTER, SLAVE], STEPS, [0, 1], range(256)):
        first = 0 if chip == MASTER else 8
        before = initialise(MASTER, 0x20) + initialise(SLAVE, 0x28) if value % 8 == 0 else []
        busy = [claim(first + 5), claim(first + 3), claim(first + 6)]
        enter = [pic_write(chip + to, byte) for to, byte in steps]
        see = [pic_read(chip), pic_read(chip + 1), pic_write(chip + 1, 0x4A), pic_read(chip + 1), pic_write(chip + 1, 0x02)]
        see += [pic_read(chip + 1), pic_write(chip + 1, 0), pic_write(chip + 1, 0), claim(first + 1), pic_write(chip, 0x0B), pic_read(chip)]
        yield before + busy + enter + [pic_write(chip + to_data, value)] + see + [pic_write(MASTER, 0x20), pic_write(SLAVE, 0x20)]


def pic_lines():
    """Every line, as many as a byte has, claimed; every claim up to line 17 restored, with all flags, into several states."""
    for auto in (1, 3):
        yield initialise(MASTER, 0x30, icw4=auto) + initialise(SLAVE, 0x38, icw4=4 - auto)
        for pic_line in range(256):
            yield [claim(pic_line), pic_read(MASTER), pic_read(SLAVE), pic_write(MASTER, 0x20), pic_write(SLAVE, 0x20)]
    states = [[], [claim(2)], [claim(12), claim(1)], [claim(9), pic_write(MASTER, 0x62), claim(5)]]
    for state, pic_line, flags in itertools.product(states, list(range(18)) + [255], list(range(8)) + [255]):
        see = [pic_write(MASTER, 0x0B), pic_read(MASTER), pic_write(SLAVE, 0x0B), pic_read(SLAVE), claim_pending(), claim_pending()]
        yield initialise(MASTER, 0x20) + initialise(SLAVE, 0x28) + state + [restore(0x20 + pic_line, pic_line, flags)] + see


def pic_requests():
    """Every set of requests of a chip by every set in service, seen through the claim."""
    for mask in range(256):
        both = initialise(MASTER, 0x20, mask=0xFF) + initialise(SLAVE, 0x28, mask=0xFF)
        ask = [claim(k) for k in range(16)]
        yield both + ask + [pic_write(MASTER + 1, mask), claim_pending(), claim_pending(), pic_read(MASTER)]
        yield [pic_write(MASTER + 1, 0xFB), pic_write(SLAVE + 1, mask), claim_pending(), pic_write(MASTER, 0x62), claim_pending()]
        yield [pic_write(SLAVE, mask & 0x67), pic_write(MASTER, mask & 0x67), claim_pending(), pic_read(SLAVE)]


def pic_ports(thin):
    """Every port, read and written; with all widths at the four ports and their neighbours."""
    ports = range(65536)
    if thin:
        ports = [p for p in ports if p < 0x120 or p % 256 in (0x20, 0x21, 0xA0, 0xA1)]
    for port in ports:
        yield [pic_read(port), pic_write(port, 0x15A)]
    for port, width in itertools.product([0x1F, 0x20, 0x21, 0x22, 0x9F, 0xA0, 0xA1, 0xA2], [1, 2, 4, 8]):
        yield [pic_write(port, 0x0B, width), pic_read(port, width)]


# ---- whole domains: local APIC --------------------------------------------------------------------------------------


def local_vectors():
    """Every vector accepted, level and edge, with and without EOI broadcast, alone and above another."""
    for vector, level, svr in itertools.product(range(256), [0, 1], [0x1FF, 0x11FF]):
        word = 0x10 * (vector // 32)
        see = [local_read(IN_SERVICE + word), local_read(TRIGGER + word), local_read(PPR)]
        yield [local_write(SVR, svr), accept(0x41, 1 - level), accept(vector, level)] + see + [local_eoi()] + see + [local_eoi(), local_eoi()] + see


def local_priorities(thin):
    """Every TPR by every vector in service: PPR on acceptance, after a TPR write, and on EOI."""
    for vector, tpr in itertools.product(range(256), range(256)):
        if thin and (vector + tpr) % 16:
            continue
        yield [local_write(TPR, tpr), accept(vector, vector % 2), local_read(PPR), local_write(TPR, ~tpr), local_read(PPR), local_eoi(), local_read(PPR)]


def local_offsets(thin):
    """Every offset read; every register's offset written, in every width; both modes."""
    for x2 in (0, 1):
        yield [setup(x2, 5, 8, 0xFF)]
        for offset in range(0, 65536):
            near = offset < 0x1010 and offset % 4 == 0
            if thin and not near and offset % 0x1000 not in (0x80, 0x300, 0xFFF):
                continue
            yield [local_read(offset)]
        for offset, width in itertools.product(range(0, 0x1020, 0x10), [1, 2, 4, 8]):
            yield [local_write(offset, 0x5A5A5A5A_A5A5A0A5, width), local_read(offset), local_write(offset + 4, 0x77, width)]


def local_bits():
    """Every bit of every stored word; then all ones."""
    words = [TPR, LDR, DFR, SVR, ESR, ICR_HIGH, 0x20] + LVTS
    for x2, offset, bit in itertools.product([0, 1], words, range(65)):
        value = ALL if bit == 64 else 1 << bit
        start = [setup(x2, 3, 4, 15)] if bit == 0 else []
        yield start + [local_write(offset, value), local_read(offset)]


def icr(x2, destination, low):
    """An ICR write in either mode; the high word first in xAPIC."""
    if x2:
        return [local_write(ICR, destination << 32 | low, 8)]
    return [local_write(ICR_HIGH, destination << 24), local_write(ICR, low)]


LDRS = [0x00, 0x01, 0x12, 0x80, 0xA5, 0xF3, 0xFF]


def local_destinations():
    """Every destination byte: logical in both models with some LDRs, in a reserved model, physical; and x2APIC."""
    for model, ldr in itertools.product([0xF, 0x0, 0x3], LDRS):
        yield [setup(0, 2, 6, 0b110110110), local_write(DFR, model << 28), local_write(LDR, ldr << 24)]
        for d in range(256):
            yield icr(0, d, 0x4850)
    for count, active in [(6, 0b110110110), (64, ALL), (0, 7), (5, 0xE0)]:
        yield [setup(0, 2, count, active), local_write(DFR, 0x50000000)]
        for d in range(256):
            yield icr(0, d, 0x4050)
        yield [f for d in (0, 1, 255) for f in icr(0, d, 0x4850)]
        yield [setup(1, 2, count, active)]
        for d, logical in itertools.product(list(range(257)) + [2**16, 2**31, 2**32 - 2, 2**32 - 1], [0, 0x800]):
            yield icr(1, d, 0x50 | logical)


def local_commands():
    """Every delivery mode, shorthand, destination kind and other bit of the low word, by vectors and destinations."""
    destinations = {0: [0, 1, 5, 63, 64, 0xFE, 0xFF], 1: [0, 5, 63, 64, 0xFF, 2**32 - 1]}
    machines = [(2, 4, 0b1101), (0, 1, 1), (63, 64, ALL), (7, 4, 0xF0), (1, 0, ALL)]
    for x2, (own, count, active) in itertools.product([0, 1], machines):
        yield [setup(x2, own, count, active)] + ([] if x2 else [local_write(LDR, 0x21 << 24)])
        for mode, short, logical, vector in itertools.product(range(8), range(4), [0, 1], [0, 15, 16, 0xFF]):
            low = vector | mode << 8 | logical << 11 | short << 18
            for d in destinations[x2] if short == 0 else [3]:
                yield icr(x2, d, low)
            yield [local_write(ESR, 0), local_read(ESR), local_read(ICR), local_read(ICR_HIGH)]
        for bit in range(32):
            yield icr(x2, 1, 0x40 ^ 1 << bit) + [local_read(ICR)]
        for vector in range(256):
            yield [local_write(SELF_IPI, 0xABC00 | vector), local_write(ESR, 0), local_read(ESR)]


def local_setups():
    """Every id and every count, each with some commands."""
    for n in range(256):
        for fields in (setup(n % 2, n, 4, 15), setup(n % 2, 1, n, ALL), setup(n, 63, 64, 2**63 | n)):
            yield [fields, local_read(0x20)] + icr(n % 2, n % 7, 0x40 | (n % 4) << 18) + [local_read(DFR), local_read(SVR), local_read(LVTS[n % 7])]


# ---- damaged scripts ------------------------------------------------------------------------------------------------


def one_of_each():
    """A short script with every tag of document 01 once."""
    return [io_read(IO_BASE), select(0x10), line(2, 1), assert_gsi(2), io_eoi(0x30), pic_read(0x21), pic_write(0x21, 0), claim(3),
            claim_pending(), restore(0x0B, 3, 1), accept(0x31, 1), local_write(TPR, 0x2F), local_eoi(), local_read(PPR), setup(1, 2, 3, 7)]


def damages(thin):
    """Every cut of a short script, every tag, lengths around the right ones, every width code."""
    fields = one_of_each()
    whole = b"".join(fields)
    yield from (whole[:n] for n in range(len(whole) + 1))
    for tag in range(256):
        yield fields[0] + bytes([tag, 0, 0]) + fields[1]
        if not thin:
            yield fields[0] + bytes([tag, 2, 0, 0x80, 0]) + fields[1]
    for f in fields:
        length = len(f) - 3
        for wrong in sorted({max(length - 1, 0), length + 1, length + 256, 0, 255, 65535} - {length}):
            yield fields[3] + f[:1] + wrong.to_bytes(2, "little") + f[3:] + bytes(1 + wrong % 3) + fields[4]
        for left in (1, 2):
            yield f + f[:left]
    codes = [0, 1, 2, 3, 4, 5, 7, 8, 9, 16, 128, 255] if thin else range(256)
    for tag, code in itertools.product(WITH_WIDTH, codes):
        yield fields[8] + bytes([tag, LENGTH[tag], 0, code]) + bytes(LENGTH[tag] - 1) + fields[9]


def choices():
    """Document 02's choices that name what the Rust is: before all else, before their chip's fields, and too late; and bytes that name nothing."""
    fields = one_of_each()
    whole = b"".join(fields)
    names = {tag: field(tag, byte) for tag, (byte, _) in CHOICES.items()}
    for order in itertools.permutations(names.values()):
        yield b"".join(order) + whole
        yield order[0] + whole + order[0]
    for (tag, choice), n in itertools.product(names.items(), range(len(fields) + 1)):
        yield b"".join(fields[:n]) + choice + b"".join(fields[n:])
        yield b"".join(f for f in fields[:n] if f[0] >> 4 != tag >> 4) + choice + b"".join(fields[n:])
    for tag, (byte, unjudged) in CHOICES.items():
        yield from (field(tag, other) + whole for other in (0, 1, 2, 3, 0x10, 0x11, 0x12, 0x20, 0x21, 255) if other not in unjudged)
        yield from (bytes([tag, length, 0]) + bytes([byte] * length) + whole for length in (0, 2, 17))


def exactly(size):
    """Whole fields of so many bytes: long ones, then short ones of 3, 4 and 5 bytes for what is left."""
    long = select(0x10)
    fields, left = [long] * (size // len(long) - 1), size % len(long) + len(long)
    while left > 5:
        fields.append(local_eoi())
        left -= 3
    return b"".join(fields + [{3: local_eoi(), 4: claim(3), 5: local_read(TPR)}[left]])


def around_longest():
    """Whole and cut scripts of 65,530 to 65,540 bytes, and far longer ones, their names counted."""
    for size in range(LONGEST - NAMES - 6, LONGEST - NAMES + 5):
        yield exactly(size)
        yield exactly(size + 1)[:size]
    for size in (LONGEST, LONGEST + 1, 2 * LONGEST, 3 * LONGEST):
        yield bytes(size - NAMES)


def whole_domains(thin):
    families = [io_low_word_bits(), io_kinds(), io_selectors(), io_addresses(), io_lines(), pic_bytes(), pic_lines(), pic_requests(),
                pic_ports(thin), local_vectors(), local_priorities(thin), local_offsets(thin), local_bits(), local_destinations(),
                local_commands(), local_setups()]
    for family in families:
        yield from packed(family)
    yield from damages(thin)
    yield from choices()
    yield from around_longest()


# ---- seeded scripts -------------------------------------------------------------------------------------------------


def io_visit(dice):
    """A table program with few vectors, then lines held and dropped, masks, rewrites, EOIs, and vectors written where no
    register is."""
    gsis = [dice.below(24) for _ in range(1 + dice.below(4))]
    vectors = [dice.pick([0x30, 0x31, 0x41, 0x0F, 0x10, 0xFF]) for _ in range(1 + dice.below(3))]
    words = {}
    for _ in range(12 + dice.below(60)):
        gsi, vector, act = dice.pick(gsis), dice.pick(vectors), dice.below(16)
        if act < 2 or gsi not in words:
            words[gsi] = vector | dice.pick([0x8000, 0x8000, 0x8000, 0, 0x18000, 0x8100, 0x10000, 0xC000])
            yield write_low(gsi, words[gsi])
        elif act == 2:
            yield write_low(gsi, words[gsi] ^ dice.pick([0, 0x4000, 0x10000, 1 << dice.below(32)]))
        elif act == 3:
            yield [select(0x11 + 2 * gsi), window(dice.word()), read_window()]
        elif act < 8:
            yield [line(gsi, dice.pick([0, 1, 1, 255]))]
        elif act < 10:
            yield [assert_gsi(gsi)]
        elif act < 14:
            yield [io_eoi(vector)]
        elif act == 14:
            offset = dice.pick([0x40, 0x11 + dice.below(0x38)])
            yield [io_write(IO_BASE + offset, vector), io_read(IO_BASE + offset)]
        else:
            yield read_low(gsi)


def pic_visit(dice):
    """Initialisation, masks, claims, EOIs of both kinds, reads of both registers, restores of likely claims."""
    bases = {MASTER: 0x20, SLAVE: 0x28}
    for _ in range(12 + dice.below(60)):
        chip, act = dice.pick([MASTER, SLAVE]), dice.below(20)
        if act == 0:
            bases[chip] = dice.below(256) & 0xF8
            yield initialise(chip, bases[chip] | dice.below(8), dice.pick([0x10, 0x11, 0x11, 0x12, 0x13, 0x1F]), dice.below(4), dice.below(256) & dice.below(256))
        elif act == 1:
            yield [pic_write(chip + dice.below(2), dice.below(256))]
        elif act < 4:
            yield [pic_write(chip + 1, dice.pick([0, 0, 1 << dice.below(8), dice.below(256)]))]
        elif act < 10:
            yield [claim(dice.below(17))]
        elif act < 12:
            yield [claim_pending()]
        elif act < 15:
            yield [pic_write(chip, dice.pick([0x20, 0x20, 0x60 | dice.below(8), 0xA0, 0xE0 | dice.below(8)]))]
        elif act < 17:
            yield [pic_write(chip, dice.pick([0x0A, 0x0B, 0x08, 0x09, 0x6B])), pic_read(chip)]
        elif act < 19:
            k = dice.below(16)
            yield [restore(bases[SLAVE if k > 7 else MASTER] + k % 8, k, dice.below(4))]
        else:
            yield [pic_read(chip + dice.below(2))]


def local_visit(dice):
    """A setup, then acceptances, EOIs, priorities, commands of every kind, errors, LVTs and reads."""
    x2, count = dice.below(2), dice.pick([1, 2, 4, 8, 63, 64])
    yield [setup(x2, dice.below(count), count, dice.pick([ALL, dice.word(), (1 << count) - 1, 1]))]
    vectors = [dice.below(256) for _ in range(1 + dice.below(6))]
    for _ in range(12 + dice.below(60)):
        act = dice.below(20)
        if act < 4:
            yield [accept(dice.pick(vectors), dice.below(2)), local_read(PPR)]
        elif act < 7:
            yield [local_eoi() if dice.chance(80) else local_write(EOI, dice.word()), local_read(PPR)]
        elif act < 9:
            yield [local_write(TPR, dice.below(256)), local_read(PPR)]
        elif act == 9:
            yield [local_write(LDR, dice.pick(LDRS) << 24 | dice.below(256)), local_read(LDR)]
        elif act == 10:
            yield [local_write(DFR, dice.pick([0xFFFFFFFF, 0, dice.word()])), local_read(DFR)]
        elif act == 11:
            yield [local_write(SVR, dice.pick([0x1FF, 0xFF, 0x11FF, dice.word()])), local_read(SVR)]
        elif act == 12:
            yield [local_write(ESR, dice.word()), local_read(ESR)]
        elif act == 13:
            lvt = dice.pick(LVTS)
            yield [local_write(lvt, dice.word()), local_read(lvt)]
        elif act == 14:
            yield [local_read(dice.pick([IN_SERVICE, TRIGGER]) + 0x10 * (dice.pick(vectors) // 32)), local_read(0x10 * dice.below(64))]
        elif act == 15:
            yield [local_write(SELF_IPI, dice.below(256)), local_read(ICR), local_read(ICR_HIGH)]
        else:
            yield random_command(dice, x2)


def random_command(dice, x2):
    low = dice.pick([dice.below(256), 0x40, dice.below(32)]) | dice.below(8) << 8 | dice.below(4) << 18
    low |= dice.pick([0, 0x800, dice.word() & 0xFFF3F800])
    destination = dice.pick([dice.below(64), dice.below(256), 0xFF, 2**32 - 1, 1 << dice.below(8)])
    fields = icr(x2, destination % 256**4 if x2 else destination % 256, low)
    return [local_write(ICR, low, dice.pick([1, 2, 4, 8]))] if dice.chance(5) else fields


def random_field(dice):
    """A field with a right length and width code, and any numbers; often small ones or the ones that mean something."""
    tag = dice.pick([tag for tag in TAGS if tag not in CHOICES])
    values = []
    for part, size in TAGS[tag]:
        likely = {
            "width": [1, 2, 4, 8, 1, 4, 4, 8],
            "address": [IO_BASE, IO_BASE + 0x10, IO_BASE + 0x10, IO_BASE + dice.below(0x49), IO_BASE + dice.pick(FAR), IO_BASE - 1,
                        dice.word()],
            "port": [0x20, 0x21, 0xA0, 0xA1, 0x22, dice.below(65536)],
            "offset": [0x10 * dice.below(0x42), 0x10 * dice.below(0x42), dice.below(65536), ICR, ICR_HIGH, SELF_IPI],
            "gsi": [dice.below(26), dice.below(4), dice.below(256)],
            "line": [dice.below(18), dice.below(18), dice.below(256)],
            "count": [dice.below(66), 1, 64, dice.below(256)],
            "id": [dice.below(65), 0, dice.below(256)],
            "value": [dice.word(), dice.below(256), dice.below(2**18), dice.below(64), 0x8030, 1 << dice.below(64)],
        }.get(part, [dice.word()])
        values.append(dice.pick(likely) % 256**size)
    return [field(tag, *values)]


def damaged(dice, script):
    """A copy with one byte changed, dropped or doubled, or cut off; mostly near its end, so that much of it still runs."""
    at = len(script) - 1 - dice.below(min(len(script), dice.pick([4, 40, len(script)])))
    kind = dice.below(4)
    if kind == 0:
        return script[:at]
    if kind == 1:
        return script[:at] + script[at + 1 :]
    if kind == 2:
        return script[:at] + script[at : at + 1] + script[at:]
    return script[:at] + bytes([script[at] ^ 1 << dice.below(8)]) + script[at + 1 :]


def endless(dice):
    """Sessions of the three chips one after the other, between them some fields of any kind, for ever."""
    visits = [io_visit, pic_visit, local_visit]
    while True:
        yield from dice.pick(visits)(dice)
        if dice.chance(50):
            yield from (random_field(dice) for _ in range(dice.below(12)))


def endless_random(dice):
    while True:
        yield random_field(dice)


def seeded(dice):
    """Scripts for ever: long sensible ones, long random ones, and damaged copies."""
    sensible, anything = packed(endless(dice)), packed(endless_random(dice))
    while True:
        for source in (sensible, sensible, sensible, anything):
            script = next(source)
            yield damaged(dice, script) if dice.chance(10) else script


# ---- short scripts from a new machine ------------------------------------------------------------------------------

READABLE = [0x20, TPR, PPR, LDR, DFR, SVR, ESR, ICR, ICR_HIGH] + LVTS
READABLE += [bank + 0x10 * n for bank in (IN_SERVICE, TRIGGER) for n in range(8)]


def reads_of_everything():
    """What there is to read: first as it stands, then by every selector and both read choices. Only these change."""
    fields = [io_read(IO_BASE), read_window(), io_read(IO_BASE + 0x40)]
    fields += [f for selector in range(0x41) for f in (select(selector), read_window())]
    for chip in (MASTER, SLAVE):
        fields += [pic_read(chip), pic_read(chip + 1)]
        fields += [pic_write(chip, 0x0A), pic_read(chip), pic_write(chip, 0x0B), pic_read(chip)]
    return fields + [local_read(offset) for offset in READABLE]


def questions(pieces):
    """What no read shows, asked behind the fields of a script.

    Deferred entries by EOIs of the vectors written, lines that are up by an EOI of their own; a chip's step by data bytes,
    its base and auto-EOI by claims; the local APIC's noted error, own id, count and active vCPUs, and the highest in service.
    """
    vectors = sorted({piece[12] for piece in pieces if piece[0] == 0x02})
    gsis = sorted({piece[3] for piece in pieces if piece[0] == 0x03 and piece[3] < 24})
    fields = [io_eoi(vector) for vector in vectors] * 2
    for gsi in gsis:
        fields += write_low(gsi, 0x8060) + [assert_gsi(gsi), io_eoi(0x60), window(0x10000)]
    fields += [claim_pending()] * 2
    for chip in (MASTER, SLAVE):
        fields += [f for byte in (0x40, 0x02, 0) for f in (pic_write(chip + 1, byte), pic_read(chip + 1))]
    fields += [claim(0), claim(8), claim_pending(), local_write(ESR, 0), local_read(ESR)]
    fields += [local_write(ICR, 0x41 | short << 18, width) for short in (2, 3) for width in (4, 8)]
    return fields + [local_eoi(), local_read(PPR)] * 3


READS = b"".join(reads_of_everything())


def ended(script):
    """A script with reads of everything and the questions behind it, unless a bad field has ended it already."""
    pieces = list(performed(script))
    if pieces and pieces[-1][1]:
        return script
    return script + READS + b"".join(questions([piece for piece, _ in pieces]))


def mixed_visits(dice):
    """Visits of all chips at once, episode by episode."""
    visits = [io_visit(dice), pic_visit(dice), local_visit(dice)]
    while visits:
        visit = dice.pick(visits)
        try:
            yield next(visit)
        except StopIteration:
            visits.remove(visit)


def short_fields(dice):
    """1 to 40 fields: of one chip, of all, or any; at times without the first episode (a local APIC's setup), at times with
    a choice more, in place or too late."""
    source = dice.pick([io_visit, pic_visit, local_visit, mixed_visits, endless_random])(dice)
    if dice.chance(30):
        next(source)
    fields = list(itertools.islice(itertools.chain.from_iterable(source), 1 + dice.below(40)))
    if dice.chance(20):
        tag = dice.pick(list(CHOICES))
        byte = CHOICES[tag][0] if dice.chance(80) else dice.below(256)
        fields.insert(0 if dice.chance(80) else dice.below(len(fields) + 1), field(tag, byte))
    return fields


SAME_LENGTH = {tag: [other for other in TAGS if LENGTH[other] == LENGTH[tag] and other != tag] for tag in TAGS}


def damaged_anywhere(dice, fields):
    """The fields as one script, damaged at 1 to 3 places: bytes changed, mostly of bodies, so that much of it still runs; a
    tag made one with as long a body; bytes taken out, put in or doubled; cut off."""
    script = b"".join(fields)
    for _ in range(dice.pick([1, 1, 2, 3])):
        pieces = split(script) or [bytes(1)]
        n, kind = dice.below(len(pieces)), dice.below(20)
        start, piece = sum(map(len, pieces[:n])), pieces[n]
        at = start + dice.below(len(piece))
        if kind < 9 and len(piece) > 3:
            at = start + 3 + dice.below(len(piece) - 3)
        if kind < 12:
            changed = dice.pick([1 << dice.below(8), 1 + dice.below(255)])
            script = script[:at] + bytes(byte ^ changed for byte in script[at : at + 1]) + script[at + 1 :]
        elif kind < 16:
            script = script[:start] + bytes([dice.pick(SAME_LENGTH.get(piece[0]) or range(256))]) + script[start + 1 :]
        elif kind == 16:
            script = script[:at]
        elif kind == 17:
            script = script[:at] + script[at + 1 + dice.below(4) :]
        elif kind == 18:
            script = script[:at] + dice.word().to_bytes(8, "little")[: 1 + dice.below(8)] + script[at:]
        else:
            script = script[:at] + script[at : at + 1 + dice.below(20)] + script[at:]
    return script


def endless_short(dice, hurt):
    while True:
        fields = short_fields(dice)
        yield ended(damaged_anywhere(dice, fields) if hurt else b"".join(fields))


def short_scripts(seed, count):
    """So many short scripts from a new machine, every second one damaged, each ended by reads of everything where no bad
    field ends it."""
    dice = Dice(seed)
    whole, hurt = compared(endless_short(dice, False)), compared(endless_short(dice, True))
    return (next(hurt if n % 2 else whole) for n in range(count))


def gate_short_scripts():
    """The gate's short scripts: always the same, of several seeds."""
    return itertools.chain.from_iterable(short_scripts(seed, GATE_SHORT // len(GATE_SEEDS)) for seed in GATE_SEEDS)


# ---- all ------------------------------------------------------------------------------------------------------------


def compared(scripts):
    """The scripts with the names of what the Rust is in front, without those to which it has no answer.

    A damaged or random byte can make a first field `06 20`, `16 01` or `16 02`, which chooses what the Rust isn't. Ours would take
    it, the harness calls it bad, and that would be a false alarm. (While a difference is made small, `cut` in comparison.py
    sees to the same, and to it that the names stay.)
    """
    return (script for script in map(named, scripts) if not is_unjudged(script))


def scripts(seed, least_fields, thin):
    """The whole domains, then seeded scripts: some at least, and until there are as many fields as asked."""
    fields = 0
    for script in compared(whole_domains(thin)):
        fields += count_lines(script)
        yield script
    for n, script in enumerate(compared(seeded(Dice(seed)))):
        if fields >= least_fields and n >= LEAST_SEEDED:
            return
        fields += count_lines(script)
        yield script


def main():
    parser = argparse.ArgumentParser(description=__doc__, formatter_class=argparse.RawDescriptionHelpFormatter)
    parser.add_argument("seed", type=int)
    parser.add_argument("fields", type=int, nargs="?", default=0)
    parser.add_argument("--thin", action="store_true")
    parser.add_argument("--short", type=int)
    given = parser.parse_args()
    chosen = short_scripts(given.seed, given.short) if given.short else scripts(given.seed, given.fields, given.thin)
    for script in chosen:
        sys.stdout.buffer.write(pack([script]))


if __name__ == "__main__":
    main()
