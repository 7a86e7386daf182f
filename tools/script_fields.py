"""The fields of a script, as one table: `script-text` and the comparison with the Rust (oracle/) go by it. (Document 01, "Scripts"; 06,
16 and 30 to 35, document 02; 40 to 45, the program `lists`, crates/script_lists.)

A new field is a row of FIELDS, a new value of a code one of that part's `codes`, a new chip a row of CHIPS.
docs/CONTRIBUTING.md says what else a field touches.
"""
from collections import namedtuple

from script_words import (ACCEPTED, BOARD_ENDED, BROADCAST, CANCELLED, CLAIMED, DELIVERED, DONE, ENDED, READ, REGISTERS, SENT, TAKEN_IN, WAITS,
                          WRITTEN, asking, asking_for, given_back, gsi, message, words_of)

LONGEST = 65536  # bytes of a script
HEADER = 3  # bytes: the tag and the two of the length

# A number in a field's body: its size in bytes, whether it is written in hex, the words that may stand for 0 and 1, and the only
# values that it may have, each with what it means; another makes the field bad.
Part = namedtuple("Part", "name size hex words codes", defaults=(False, (), {}))

WIDTH = Part("width", 1, codes=dict.fromkeys((1, 2, 4, 8), ""))
ADDRESS = Part("address", 8, hex=True)
VALUE = Part("value", 8, hex=True)
GSI = Part("gsi", 1)
UP = Part("up", 1, words=("down", "up"))
VECTOR = Part("vector", 1, hex=True)
VERSION = Part("version", 1, hex=True, codes={
    0x11: "82093AA",
    0x20: "I/O Controller Hub",
})
RULE = Part("rule", 1, codes={
    0: "line 2 is a latch",
    1: "line 2 follows the slave",
    2: "the full 8259A profile",
})
PORT = Part("port", 2, hex=True)
LINE = Part("line", 1)
FLAGS = Part("flags", 1)
LEVEL = Part("level", 1, words=("edge", "level"))
OFFSET = Part("offset", 2, hex=True)
X2 = Part("x2", 1, words=("xapic", "x2apic"))
ID = Part("id", 1)
COUNT = Part("count", 1)
ACTIVE = Part("active", 8, hex=True)
TPR = Part("tpr", 1, hex=True)
VCPU = Part("vcpu", 1)

# A chip, by the high digit of its fields' tags: its name, whether the Rust has it, the version of its I/O APIC if no field chooses, and the
# command of script-text that runs its fields where `run` doesn't.
Chip = namedtuple("Chip", "name in_rust version command", defaults=(None, None))
CHIPS = {
    0x0: Chip("the I/O APIC", True, 0x20),
    0x1: Chip("the pair", True),
    0x2: Chip("the local APIC", True),
    0x3: Chip("the board", False, 0x20),
    0x4: Chip("the waiting lists", False, command="lists"),
}

# Why a call is refused, by its number.
NOT_IO = {
    1: "the I/O APIC takes widths 4 and 8",
    4: "the address is below the I/O APIC's base, 0xfec00000",
}
NOT_PIC = {1: "the pair takes width 1, and the ports 0x20, 0x21, 0xa0 and 0xa1"}
NO_LINE = {5: "the pair has lines 0 to 15"}
NOT_READ = {2: "no local register at this offset can be read"}
NOT_WRITTEN = {
    2: "no local register at this offset can be written, in this mode and width",
    3: "a delivery mode of 3 or 7, or a logical destination while DFR is neither flat nor cluster; ICR is stored",
    5: "a physical destination above 63; ICR is stored",
}
NO_SETUP = {5: "a vCPU count is at most 64, an id at most 63"}
NO_VCPU = {5: "the host has vCPUs 0 to 3"}
FULL = NO_VCPU | {9: "64 wait for this vCPU already"}
RESTORED = NO_VCPU | {9: "64 wait for this vCPU already; the claim is given back to the pair"}

# A field: its tag and name, the parts of its body, a line of help, what it does in a run ({register} is the one that its address, port
# or offset names; or a function of its numbers, where the words depend on them), its answer, its refusals; and whether it chooses what
# its chip is, and so is bad behind another field of the chip.
Field = namedtuple("Field", "tag name parts about says answer refusals chooses", defaults=({}, False))

FIELDS = (
    Field(0x01, "io-read", (WIDTH, ADDRESS), "the I/O APIC's registers are read", "{register}", READ, NOT_IO),
    Field(0x02, "io-write", (WIDTH, ADDRESS, VALUE), "and written", "{register} := {value}", WRITTEN, NOT_IO),
    Field(0x03, "line", (GSI, UP), "an interrupt line goes up or down", gsi(" goes {up}"), SENT),
    Field(0x04, "assert", (GSI,), "an interrupt is sent, its line left alone", gsi(", its line left alone"), SENT),
    Field(0x05, "eoi", (VECTOR,), "the I/O APIC hears of an end of interrupt", "EOI of vector {vector}", ENDED),
    Field(0x06, "io-version", (VERSION,), "the I/O APIC's version, before all its other fields", "a new I/O APIC: {version}", DONE,
          chooses=True),
    Field(0x10, "pic-read", (WIDTH, PORT), "a port of the 8259 pair is read", "{register}", READ, NOT_PIC),
    Field(0x11, "pic-write", (WIDTH, PORT, VALUE), "and written", "{register} := {value}", DONE, NOT_PIC),
    Field(0x12, "claim", (LINE,), "a PIC line is requested, the highest request claimed", asking, CLAIMED),
    Field(0x13, "claim-pending", (), "the highest request is claimed", "the highest request", CLAIMED),
    Field(0x14, "restore", (VECTOR, LINE, FLAGS), "a claim is given back", given_back, DONE, NO_LINE),
    Field(0x16, "pic-rule", (RULE,), "the pair's rule, before all its other fields", "a new pair: {rule}", DONE, chooses=True),
    Field(0x20, "accept", (VECTOR, LEVEL), "the local APIC takes an interrupt into service", "vector {vector}, {level}, in service", DONE),
    Field(0x21, "local-write", (WIDTH, OFFSET, VALUE), "a local register is written", "{register} := {value}", DONE, NOT_WRITTEN),
    Field(0x22, "local-eoi", (), "the local APIC ends its highest interrupt", "EOI of the highest", BROADCAST),
    Field(0x23, "local-read", (OFFSET,), "a local register is read", "{register}", READ, NOT_READ),
    Field(0x24, "setup", (X2, ID, COUNT, ACTIVE), "a new local APIC, its vCPU count and active mask",
          "a new local APIC: {x2}, id {id} of {count}, {active}", DONE, NO_SETUP),
    Field(0x30, "board-line", (GSI, UP), "a line of the board goes up or down", gsi(" of the board goes {up}"), SENT),
    Field(0x31, "board-accept", (), "its guest accepts the highest request, if PPR lets it", "the guest accepts", ACCEPTED),
    Field(0x32, "board-eoi", (), "its guest ends its highest interrupt, down to the entries", "the guest's EOI", BOARD_ENDED),
    Field(0x33, "board-tpr", (TPR,), "its guest writes TPR, and PPR follows", "TPR := {tpr}", DONE),
    Field(0x34, "board-write", (WIDTH, ADDRESS, VALUE), "its I/O APIC's registers are written", "{register} := {value}", WRITTEN, NOT_IO),
    Field(0x35, "board-message", (VECTOR, LEVEL), "a device without a line asks for a vector", message, DONE),
    Field(0x40, "list-take", (VCPU, VECTOR), "an interrupt waits for a stopped vCPU", "vector {vector} for vCPU {vcpu}", TAKEN_IN, FULL),
    Field(0x41, "list-deliver", (VCPU,), "its oldest is delivered", "the oldest of vCPU {vcpu}", DELIVERED, NO_VCPU),
    Field(0x42, "list-cancel", (VCPU, VECTOR), "its oldest of a vector is cancelled", "the oldest {vector} of vCPU {vcpu}", CANCELLED, NO_VCPU),
    Field(0x43, "list-claim", (VCPU, LINE), "a PIC line is requested, what is claimed waits", asking_for, WAITS, RESTORED),
    Field(0x44, "list-claim-pending", (VCPU,), "the highest request is claimed, and waits", "the highest request, for vCPU {vcpu}", WAITS,
          RESTORED),
    Field(0x45, "list-new", (VCPU,), "a new list: what waited is forgotten", "a new list for vCPU {vcpu}", DONE, NO_VCPU),
)
BY_NAME = {field.name: field for field in FIELDS}
BY_TAG = {field.tag: field for field in FIELDS}
# The parts of each field that may have certain values only, with their places in its body.
CODED = {
    field.tag: [(sum(other.size for other in field.parts[:n]), part) for n, part in enumerate(field.parts) if part.codes]
    for field in FIELDS
}


# The bytes of a field.


def choices():
    """The tags of the fields that choose what their chip is, and the bytes that each may have."""
    return {field.tag: tuple(field.parts[0].codes) for field in FIELDS if field.chooses}


def unnamed(script):
    """The choices that a script leaves out, as fields: each names the first of its codes, what a new chip was before document 02's T-14.

    In front of the script they keep its lines as they were. A script that chooses itself, before all other fields of the chip, goes without:
    its own choice would come too late. What stands behind a bad field isn't looked at.
    """
    first, used, at = {}, set(), 0
    while at < len(script):
        first.setdefault(chip_of(script[at]), script[at])
        if what_is_wrong(script, at, used):
            break
        used.add(chip_of(script[at]))
        at = end_of(script, at)
    missing = [(tag, codes[0]) for tag, codes in choices().items() if first.get(chip_of(tag)) != tag]
    return b"".join(bytes([tag, 1, 0, code]) for tag, code in missing)


def chip_of(tag):
    return tag >> 4


def body_length(field):
    return sum(part.size for part in field.parts)


def number_at(script, at, size):
    return int.from_bytes(script[at : at + size], "little")


def end_of(script, at):
    """Where the field ends that starts there, by the length that it says."""
    return at + HEADER + number_at(script, at + 1, 2)


def numbers_of(field, body):
    """The numbers of a body by the names of their parts."""
    numbers, at = {}, 0
    for part in field.parts:
        numbers[part.name] = number_at(body, at, part.size)
        at += part.size
    return numbers


def what_is_wrong(script, at, used):
    """Why the field that starts there is bad, or nothing. The chips that were used before it give one more reason."""
    tag = script[at]
    if tag not in BY_TAG:
        return f"no field has the tag {tag:02x}"
    field = BY_TAG[tag]
    if at + HEADER > len(script):
        return f"{field.name} is cut off before its length"
    length = number_at(script, at + 1, 2)
    if length != body_length(field):
        return f"{field.name} has the length {length}, not {body_length(field)}"
    if at + HEADER + length > len(script):
        return f"{field.name} is cut off"
    for start, part in CODED[tag]:
        number = number_at(script, at + HEADER + start, part.size)
        if number not in part.codes:
            return f"{field.name} has the {part.name} {text_of(part, number)}, not {codes_of(part)}"
    if field.chooses and chip_of(tag) in used:
        return f"{field.name} stands behind another field of {CHIPS[chip_of(tag)].name}"
    return ""


# A field as text.


def codes_of(part):
    *others, last = (text_of(part, code) for code in part.codes)
    return f"{', '.join(others)} or {last}"


def text_of(part, number):
    """A word for 0 and 1 where there is one. Others are written as numbers, since their bytes have to come back."""
    if number < len(part.words):
        return part.words[number]
    return f"{number:#x}" if part.hex else str(number)


def field_text(field, body):
    numbers = numbers_of(field, body)
    return " ".join([field.name, *(text_of(part, numbers[part.name]) for part in field.parts)])


# A field and its answer in words.


def new_seen(chip):
    """What is remembered of a chip's fields, before the first of them."""
    return {"version": CHIPS[chip].version, "selector": 0}


def remember(seen, field, numbers):
    """A field was performed, and not refused."""
    if field.chooses and "version" in numbers:
        seen["version"] = numbers["version"]
    if "value" in numbers and register_of(field, numbers, seen).name == "selector":
        seen["selector"] = numbers["value"] % 2**32


def register_of(field, numbers, seen):
    """The register that a field's address, port or offset names, if it has one."""
    for name, look in REGISTERS.items():
        if name in numbers:
            return look(numbers[name], numbers.get("width"), seen)
    return None


def with_words(number, words):
    """A number in hex, and what it means there if that is known."""
    said = words(number) if words else ""
    return f"{number:#x} ({said})" if said else f"{number:#x}"


def meaning(field, numbers, seen):
    register = register_of(field, numbers, seen)
    shown = {part.name: part_words(part, numbers[part.name]) for part in field.parts}
    if register:
        shown["register"] = register.name
        if "value" in numbers:
            shown["value"] = with_words(numbers["value"], register.written)
    says = field.says(numbers) if callable(field.says) else field.says
    return says.format(**shown)


def part_words(part, number):
    if part.words:
        return part.words[1 if number else 0]
    if part.codes:
        said = part.codes.get(number)
        return f"{part.name} {text_of(part, number)}" + (f", {said}" if said else "")
    return words_of(part.name, number)


def answer_of(field, numbers, seen):
    register = register_of(field, numbers, seen)
    return register.answer if register and register.answer and "value" in numbers else field.answer


def form_of(answer, values):
    """The names of an answer's values and its words, or nothing where the table has no such answer."""
    return next(((names, words) for names, words in answer.forms if len(names) == len(values)), ((), ""))


def answer_words(field, numbers, seen, values):
    """The answer of a call that was not refused."""
    answer = answer_of(field, numbers, seen)
    if not values:
        return answer.nothing or "nothing"
    names, words = form_of(answer, values)
    if not names:
        return f"answers {', '.join(map(str, values))}"
    shown = {name: words_of(name, value) for name, value in zip(names, values)}
    if "value" in shown:
        register = register_of(field, numbers, seen)
        shown["value"] = with_words(values[0], register.read if register else None)
    return words.format(**shown)


def refusal_words(field, number):
    return field.refusals.get(number, f"number {number}")
