"""A script's calls and answers in words. The names of registers and bits are the data sheets'; nothing here decides an answer.

What a number means can depend on the fields before it. `seen` has what is needed of them: the version and the selector of the
field's I/O APIC, as they were last written.
"""
from collections import namedtuple

IO_BASE = 0xFEC00000
EOI_REGISTER = 0x40
NEWER = 0x20  # the version of the I/O APIC that has an EOI register

# An answer: what it means if there are no values, and for each list of values that there can be the names and the words.
Answer = namedtuple("Answer", "nothing forms")
# A register: its name, the words for a number that is written to it and for one that is read from it, or none; and the answer of
# a write where it isn't the usual one of its field.
Register = namedtuple("Register", "name written read answer", defaults=(None, None, None))

MODES = ("fixed", "lowest priority", "SMI", "mode 3", "NMI", "INIT", "startup", "mode 7")


# Numbers.


def bits(number):
    return [bit for bit in range(number.bit_length()) if number >> bit & 1]


def listed(numbers, show=str):
    """Rising numbers, three and more in a row as one piece: `3, 5, 7-9`."""
    runs = []
    for number in numbers:
        if runs and number == runs[-1][-1] + 1:
            runs[-1].append(number)
        else:
            runs.append([number])
    pieces = [f"{show(run[0])}-{show(run[-1])}" if len(run) > 2 else ", ".join(map(show, run)) for run in runs]
    return ", ".join(pieces)


def several(name, numbers, show=str):
    return f"{name}{'s' if len(numbers) > 1 else ''} {listed(numbers, show)}" if numbers else f"no {name}"


def byte(number):
    return f"{number:#04x}"


def either(words):
    return lambda number: words[1 if number else 0]


def service(flags):
    """On which chips flags of a claim name its line; bits above the first two mean nothing."""
    return ("neither", "the master", "the slave", "both")[flags % 4]


# What a field does, where that depends on its numbers: a line that isn't there does nothing, nor does a message of an illegal vector; and
# the flags of a claim that is given back count for the chips that the line goes through, as the pair takes them.

GSIS, LINES = 24, 16
LEGAL = 16  # the lowest vector that a message may have


def gsi(does):
    return lambda numbers: "GSI {gsi}" + (does if numbers["gsi"] < GSIS else f" isn't there: the I/O APIC has 0 to {GSIS - 1}")


def asking(numbers):
    return "line {line} " + ("asks" if numbers["line"] < LINES else f"isn't there: the pair has 0 to {LINES - 1}")


def asking_for(numbers):
    return f"{asking(numbers)}, for vCPU {{vcpu}}"


def given_back(numbers):
    line, flags = numbers["line"], numbers["flags"] & (3 if numbers["line"] >= 8 else 1)
    if line >= LINES:
        return "a claim of line {line}"
    return "a claim of line {line} given back, " + (f"out of service on {service(flags)}" if flags else "in service as before")


def message(numbers):
    return "a message: vector {vector}, {level}" + (", dropped with error bit 6" if numbers["vector"] < LEGAL else "")


def kind(number):
    return MODES[number] if number < len(MODES) else f"kind {number}"


# The values of answers and the parts of calls, by name. Others are written as `script_fields` says.
WORDS = {
    "vector": byte,
    "tpr": byte,
    "level": either(("edge", "level")),
    "ended": lambda lines: f"GSI {listed(bits(lines))}" if lines else "no line",
    "again": lambda lines: f"sent again GSI {listed(bits(lines))}" if lines else "none sent again",
    "flags": service,
    "kind": kind,
    "mask": lambda mask: f"vCPU {listed(bits(mask))}" if mask else "no vCPU",
    "active": lambda mask: f"vCPU {listed(bits(mask))} active" if mask else "no vCPU active",
}


def words_of(name, number):
    return WORDS.get(name, str)(number)


# Answers.

DONE = Answer("done", ())
READ = Answer("", ((("value",), "{value}"),))
SENT = Answer("nothing sent", ((("vector", "level"), "sent: vector {vector}, {level}"),))
WRITTEN = Answer("done", SENT.forms)
ENDED_ALL = Answer("nothing ended", ((("ended", "again"), "ended {ended}; {again}"),))
ENDED = Answer("nothing ended", (
    (("gsi",), "ended GSI {gsi}"),
    (("gsi", "vector", "level"), "ended GSI {gsi}; sent again: vector {vector}, {level}"),
    *ENDED_ALL.forms,
))
CLAIMED = Answer("nothing claimed", ((("vector", "line", "flags"), "vector {vector}, line {line}, in service on {flags}"),))
BROADCAST = Answer("no broadcast", ((("vector",), "broadcast: vector {vector}"),))
ACCEPTED = Answer("nothing accepted", ((("vector",), "vector {vector} in service"),))
TAKEN_IN = Answer("waits", ())
DELIVERED = Answer("nothing waits", ((("vector",), "delivered: vector {vector}"),))
CANCELLED = Answer("none waits", ((("vector",), "cancelled: vector {vector}"),))
WAITS = Answer(CLAIMED.nothing, ((("vector", "line", "flags"), "vector {vector} waits, line {line}, in service on {flags}"),))
BOARD_ENDED = Answer("no entry ended", ENDED_ALL.forms)
IPI = Answer("nothing sent", ((("kind", "vector", "mask"), "sent: {kind}, vector {vector}, to {mask}"),))

# The registers whose writes have an answer of their own.
BY_REGISTER = (("io-write and board-write, EOI register of version 0x20", ENDED_ALL), ("local-write, ICR and self-IPI", IPI))

# What the values of an answer are called in the program's line, and what they are.
VALUES = (
    ("value", "what the register holds"),
    ("vector", "an interrupt's vector"),
    ("level", "1 for a level-triggered interrupt, 0 for an edge"),
    ("gsi", "the line that an EOI ended"),
    ("ended, again", "the lines that an EOI ended, and those whose interrupt is sent again: bit n is GSI n"),
    ("line", "a line of the pair: 0 to 7 at the master, 8 to 15 at the slave"),
    ("flags", "where the claim is in service: 1 at the master, 2 at the slave, 3 at both"),
    ("kind", "how an interrupt goes to another vCPU: 0 fixed, 4 NMI, 5 INIT, 6 startup"),
    ("mask", "the vCPUs that it goes to: bit n is vCPU n"),
)

# Values for help, in words.
SAMPLES = {"value": "0xc041", "gsi": 3, "line": 14} | {
    name: words_of(name, value)
    for name, value in {"vector": 0x41, "level": 1, "ended": 40, "again": 40, "flags": 3, "kind": 0, "mask": 5}.items()
}

# Registers of the I/O APIC (82093AA, section 3; the EOI register is that of the I/O Controller Hubs).


def io_register(address, width, seen):
    offset = address - IO_BASE
    if offset == 0:
        return Register("selector", selected, selected)
    if offset == 0x10:
        words = entry_words if is_low_word(seen["selector"]) else None
        return Register(selected(seen["selector"]), words, words)
    if offset == EOI_REGISTER and seen["version"] == NEWER:
        return Register("EOI register", lambda number: f"vector {byte(number % 256)}", answer=ENDED_ALL)
    return Register(f"offset {offset:#x}" if offset > 0 else f"address {address:#x}")


def is_low_word(selector):
    return 0x10 <= selector < 0x40 and selector % 2 == 0


def selected(selector):
    selector %= 2**32
    if 0x10 <= selector < 0x40:
        return f"entry {(selector - 0x10) // 2}, {('low', 'high')[selector % 2]} word"
    return {0: "id", 1: "version", 2: "arbitration id"}.get(selector, f"selector {selector:#x}")


def entry_words(word):
    found = [f"vector {byte(word % 256)}"]
    if word >> 8 & 7:
        found.append(MODES[word >> 8 & 7])
    found.append("level" if word >> 15 & 1 else "edge")
    if word >> 14 & 1:
        found.append("in flight")
    if word >> 16 & 1:
        found.append("masked")
    return ", ".join(found)


# Ports of the 8259 pair.


def pic_register(port, width, seen):
    if port not in (0x20, 0x21, 0xA0, 0xA1):
        return Register(f"port {port:#x}")
    name, first = ("slave", 8) if port & 0x80 else ("master", 0)
    if port & 1:
        return Register(f"{name}, data port", read=lambda mask: f"{lines_of(mask, first)} masked")
    return Register(f"{name}, command port", lambda number: command_words(number % 256, first), lambda lines: lines_of(lines, first))


def lines_of(lines, first):
    return several("line", [first + bit for bit in bits(lines)])


def command_words(command, first):
    """The command words by the 8259A's names: the chip may take one for another."""
    if command >> 4 & 1:
        return "ICW1"
    if command >> 3 & 1:
        return "OCW3"
    line = first + command % 8
    return ("rotate in automatic EOI, clear", "EOI", "no operation", f"EOI of line {line}", "rotate in automatic EOI, set",
            "EOI and rotate", f"set priority, line {line}", f"EOI of line {line} and rotate")[command >> 5]


# Registers of the local APIC (SDM volume 3, the APIC chapter).

ICR, SELF_IPI = 0x300, 0x3F0
LOCAL_NAMES = {
    0x20: "ID", 0x30: "version", 0x80: "TPR", 0x90: "APR", 0xA0: "PPR", 0xB0: "EOI", 0xC0: "RRD", 0xD0: "LDR", 0xE0: "DFR", 0xF0: "SVR",
    0x280: "ESR", 0x2F0: "LVT CMCI", ICR: "ICR", 0x310: "ICR, high word", 0x320: "LVT timer", 0x330: "LVT thermal",
    0x340: "LVT performance", 0x350: "LVT LINT0", 0x360: "LVT LINT1", 0x370: "LVT error", 0x380: "timer, initial count",
    0x390: "timer, current count", 0x3E0: "timer, divider", SELF_IPI: "self-IPI",
}
LOCAL_SETS = {0x100: "in service", 0x180: "level-triggered", 0x200: "requests"}


def local_register(offset, width, seen):
    first = offset & ~0x7F
    if offset % 0x10 == 0 and first in LOCAL_SETS:
        vector = 2 * (offset - first)  # 32 vectors a word, a word every 0x10
        return Register(f"{LOCAL_SETS[first]}, {byte(vector)}-{byte(vector + 31)}", read=lambda word: vectors_of(word, vector))
    if offset == ICR:
        return Register("ICR", lambda number: icr_words(number, width), answer=IPI)
    if offset == SELF_IPI:
        return Register("self-IPI", lambda number: f"vector {byte(number % 256)}", answer=IPI)
    return Register(LOCAL_NAMES.get(offset, f"offset {offset:#x}"))


def vectors_of(word, first):
    return several("vector", [first + bit for bit in bits(word)], byte)


def icr_words(number, width):
    target = ("", "to self", "to all", "to the others")[number >> 18 & 3]
    if not target:
        target = ("physical", "logical")[number >> 11 & 1] + " destination" + (f" {number >> 32:#x}" if width == 8 else "")
    return f"{kind(number >> 8 & 7)}, vector {byte(number % 256)}, {target}"


# The part of a call that names a register, and where that is looked up.
REGISTERS = {"address": io_register, "port": pic_register, "offset": local_register}
