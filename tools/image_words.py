"""An image of a board and a pair in words: its fields one by one, and what is wrong with one that is refused.

The format is docs/IMAGE.md's, the words' layouts are include/sillwander.h's. Whether an image is taken is the proved program's to say (`resume`); here it is only said in words what it
holds, and which rule it breaks.
"""
from collections import namedtuple

from script_words import GSIS, LEGAL, bits, byte, entry_words, lines_of, listed, selected, several, vectors_of

SIZE = 628
HEADER = 3
TAG = 0x80  # of the board's group, and so an image's first byte

# A field of the format: its tag, its name, and a number's length and words or a group's fields.
Number = namedtuple("Number", "tag name length words")
Group = namedtuple("Group", "tag name fields")
# A field of an image: how deep it stands, where, and which of the format's it is; a number has its value.
Found = namedtuple("Found", "depth at field value")


def lines(number):
    return f"GSI {listed(bits(number))}" if number else "none"


def no_words(number):
    return ""


def vectors(n):
    return lambda number: vectors_of(number, 32 * n) if number else ""


def chip_words(first):
    """A word of one 8259."""

    def words(word):
        mask, requests, in_service = (lines_of(word >> at & 255, first).removeprefix("lines ").removeprefix("line ") for at in (8, 16, 24))
        said = [f"base {byte(word % 256)}", f"masked: {none_of(mask)}", f"requested: {none_of(requests)}", f"in service: {none_of(in_service)}"]
        said += [f"step {word >> 32 & 255}"] if word >> 32 & 255 else []
        said += [name for bit, name in ((40, "ICW4 expected"), (41, "single"), (42, "automatic EOI"), (43, "reads in service")) if word >> bit & 1]
        said += [f"line {first + (word >> 44 & 7)} highest"] if word >> 44 & 7 else []
        said += [name for bit, name in ((47, "rotates in automatic EOI"), (48, "special mask mode"), (49, "a poll waits"), (50, "special fully nested mode")) if word >> bit & 1]
        return ", ".join(said)

    return words


def none_of(words):
    return "none" if words.startswith("no ") else words


LOCAL = ("id", "TPR", "PPR", "LDR", "DFR", "SVR", "ESR", "pending errors", "ICR, low word", "ICR, high word", "LVT CMCI", "LVT timer", "LVT thermal", "LVT performance", "LVT LINT0",
         "LVT LINT1", "LVT error")
RULES = {0: "line 2 is a latch", 1: "line 2 follows the slave", 2: "the full 8259A profile"}

IO_APIC = Group(0x81, "I/O APIC", (
    *(Number(k, f"entry {k}", 8, entry_words) for k in range(GSIS)),
    Number(24, "deferred", 3, lines),
    Number(25, "lines up", 3, lines),
    Number(26, "selector", 4, selected),
    Number(29, "version", 1, no_words),
    Number(30, "in flight", 3, lines),
))
LOCAL_APIC = Group(0x82, "local APIC", (
    Number(0, "mode", 1, lambda number: ("xAPIC", "x2APIC")[number] if number < 2 else ""),
    *(Number(1 + k, name, 4, no_words) for k, name in enumerate(LOCAL)),
    *(Number(first + n, f"{name}, {byte(32 * n)}-{byte(32 * n + 31)}", 4, vectors(n))
      for first, name in ((18, "in service"), (26, "level-triggered"), (34, "requests")) for n in range(8)),
))
PAIR = Group(0x83, "pair", (
    Number(2, "rule", 1, lambda number: RULES.get(number, "")),
    Group(0x84, "master", (Number(0, "registers", 8, chip_words(0)),)),
    Group(0x85, "slave", (Number(1, "registers", 8, chip_words(8)),)),
))
BOARD = Group(TAG, "board", (IO_APIC, LOCAL_APIC, PAIR))


def length_of(field):
    return field.length if isinstance(field, Number) else sum(HEADER + length_of(inner) for inner in field.fields)


# Reading.


class BadImage(Exception):
    """Where an image leaves the format, and how."""


def read(image, at=0, end=None, field=BOARD, depth=0):
    """The fields of an image, from the outside in. Raises BadImage at the first that isn't the format's."""
    end = len(image) if end is None else end
    where = f"offset {at}: {field.name} (tag {byte(field.tag)}, length {length_of(field)}) belongs there"
    if end - at < HEADER:
        raise BadImage(f"{where}, and there {'is nothing' if end == at else 'are %d bytes' % (end - at) if end - at > 1 else 'is one byte'} left")
    tag, length = image[at], int.from_bytes(image[at + 1 : at + HEADER], "little")
    if (tag, length) != (field.tag, length_of(field)):
        raise BadImage(f"{where}, and not tag {byte(tag)} with length {length}")
    body, stop = at + HEADER, at + HEADER + length
    if stop > end:
        raise BadImage(f"{where}, and only {end - body} bytes are left for it")
    if isinstance(field, Number):
        yield Found(depth, at, field, int.from_bytes(image[body:stop], "little"))
    else:
        yield Found(depth, at, field, None)
        for inner in field.fields:
            yield from read(image, body, stop, inner, depth + 1)
            body += HEADER + length_of(inner)
    if depth == 0 and stop < end:
        raise BadImage(f"offset {stop}: the image ends there, and {end - stop} bytes follow")


def words_of(found):
    """The numbers of a whole image: those of the I/O APIC, of the local APIC and of the pair, by their tags."""
    chips = {IO_APIC.name: {}, LOCAL_APIC.name: {}, PAIR.name: {}}
    chip = None
    for one in found:
        if one.value is not None:
            chips[chip][one.field.tag] = one.value
        elif one.field.name in chips:
            chip = one.field.name
    return chips.values()


# What is wrong.

# What each local register can hold, by its word.
STORED = {2: 0xFF, 4: 0xFF000000, 7: 0x60, 8: 0x60, 9: ~0x1000, 11: 0x117FF, 12: 0x710FF, 13: 0x117FF, 14: 0x117FF, 15: 0x1F7FF, 16: 0x1F7FF, 17: 0x110FF}
NAMES = {1 + k: name for k, name in enumerate(LOCAL)}


def faults(found):
    """The rules that a whole image breaks, a sentence each."""
    io, local, pair = words_of(found)
    return [*io_faults(io), *local_faults(local), *pair_faults(pair)]


def io_faults(io):
    version = io[29]
    if version not in (0x11, 0x20):
        yield f"version {version:#x}: there are 0x11 and 0x20"
    for gsi in range(GSIS):
        entry, flies, deferred = io[gsi], io[gsi] >> 14 & 1, io[24] >> gsi & 1
        name = f"entry {gsi} ({entry:#x})"
        if flies != io[30] >> gsi & 1:
            yield f"{name} is {'in flight' if flies else 'not in flight'}, and the lines in flight say otherwise"
        if deferred and not flies:
            yield f"{name} has an interrupt deferred, and isn't in flight"
        if flies and not entry >> 15 & 1:
            yield f"{name} is in flight, and edge-triggered"
        if flies and version == 0x11 and not is_fit(entry):
            yield f"{name} is in flight, and can't have been sent: masked, not of fixed delivery, or a vector below {byte(LEGAL)}"
        if version == 0x20 and entry >> 12 & 1:
            yield f"{name} has bit 12 set, which version 0x20 doesn't store"


def is_fit(entry):
    return not entry & 0x10700 and entry % 256 >= LEGAL


def local_faults(local):
    if local[0] > 1:
        yield f"mode {local[0]}: there are 0 and 1"
    stored = STORED | ({} if local[0] else {1: 0xFF, 10: 0xFF000000})
    for word, mask in stored.items():
        if local[word] & ~mask:
            yield f"{NAMES[word]} is {local[word]:#x}, and can't store {local[word] & ~mask & 0xFFFFFFFF:#x}"
    if local[5] & 0xFFFFFFF != 0xFFFFFFF:
        yield f"DFR is {local[5]:#x}, and its low 28 bits are always set"
    for first, name in ((18, "in service"), (34, "requested")):
        if local[first] % 2**LEGAL:
            yield f"{several('vector', bits(local[first] % 2**LEGAL), byte)} {name}: vectors start at {byte(LEGAL)}"
    highest = max((32 * n + bit for n in range(8) for bit in bits(local[18 + n]) if 32 * n + bit >= LEGAL), default=0)
    follows = local[2] if local[2] >> 4 >= highest >> 4 else highest & 0xF0
    if local[3] != follows:
        yield f"PPR is {local[3]:#x}; with TPR {local[2]:#x} and {byte(highest) if highest else 'nothing'} in service it is {follows:#x}"


def pair_faults(pair):
    rule, chips = pair[2], (("master", pair[0]), ("slave", pair[1]))
    if rule > 2:
        yield f"rule {rule}: there are 0, 1 and 2"
    for name, word in chips:
        if word % 8:
            yield f"the {name}'s base is {byte(word % 256)}, no multiple of 8"
        if word >> 32 & 255 > 3:
            yield f"the {name}'s step is {word >> 32 & 255}; there are 0 to 3"
        if word >> (51 if rule == 2 else 44):
            yield f"the {name}'s word is {word:#x}, and rule {rule} stores nothing from bit {51 if rule == 2 else 44} on"
    if rule in (1, 2) and bool(pair[0] >> 18 & 1) != asks(pair[1], rule == 2):
        yield f"the master's request 2 is {'set' if pair[0] >> 18 & 1 else 'clear'}, and {'a' if asks(pair[1], rule == 2) else 'no'} request of the slave counts"


def asks(word, full):
    """Whether a request of an 8259 counts: unmasked, and above every line that is in its way."""
    highest, special = (word >> 44 & 7, word >> 48 & 1) if full else (0, 0)
    for line in ((highest + n) % 8 for n in range(8)):
        masked = word >> 8 + line & 1
        if word >> 24 + line & 1 and not (special and masked):
            return False
        if word >> 16 + line & 1 and not masked:
            return True
    return False


# Text.


def is_shaped(image):
    """Whether it has an image's length and first byte."""
    return len(image) == SIZE and image[0] == TAG


def told(image):
    """The fields of an image as lines, up to the first that isn't the format's."""
    shown = []
    try:
        for one in read(image):
            shown.append(field_line(one))
    except BadImage:
        pass
    return shown


def refusal(image):
    """What is wrong with a refused image, a sentence each."""
    try:
        return faults(read(image)) or ["the program doesn't take it"]
    except BadImage as bad:
        return [str(bad)]


def field_line(one):
    start = "  " * one.depth
    if one.value is None:
        return f"{start}{one.field.name}"
    words = one.field.words(one.value)
    return f"{start}{one.field.name}: {one.value:#x}" + (f" ({words})" if words else "")
