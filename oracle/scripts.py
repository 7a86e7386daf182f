"""Scripts as bytes: fields made, taken apart and shown; batches of scripts."""
import pathlib
import sys

sys.path.insert(0, str(pathlib.Path(__file__).resolve().parents[1] / "tools"))
import script_fields as table  # noqa: E402: the one table of fields, which the text tool has too

LONGEST = table.LONGEST
IO_BASE = 0xFEC00000

LENGTH = {tag: table.body_length(row) for tag, row in table.BY_TAG.items()}
# The fields of the chips that the Rust has: a tag's parts by name, with their sizes in bytes.
TAGS = {
    tag: [(part.name, part.size) for part in row.parts]
    for tag, row in table.BY_TAG.items()
    if table.CHIPS[table.chip_of(tag)].in_rust
}
WITH_WIDTH = [tag for tag, parts in TAGS.items() if parts and parts[0][0] == "width"]
# The choices of what a chip is: the byte that names what the Rust is, and those to which it has no answer.
CHOICES = {tag: (codes[0], codes[1:]) for tag, codes in table.choices().items() if tag in TAGS}
# How many bytes `named` puts in front of a script without choices.
NAMES = len(table.unnamed(b""))


def field(tag, *values):
    """One field; each value is cut to its part's size."""
    body = b"".join(
        (value % 256**size).to_bytes(size, "little") for value, (_, size) in zip(values, TAGS[tag], strict=True)
    )
    return bytes([tag]) + len(body).to_bytes(2, "little") + body


def io_read(address, width=4):
    return field(0x01, width, address)


def io_write(address, value, width=4):
    return field(0x02, width, address, value)


def select(selector):
    return io_write(IO_BASE, selector)


def window(value):
    return io_write(IO_BASE + 0x10, value)


def read_window():
    return io_read(IO_BASE + 0x10)


def write_low(gsi, word):
    return [select(0x10 + 2 * gsi), window(word)]


def read_low(gsi):
    return [select(0x10 + 2 * gsi), read_window()]


def line(gsi, up):
    return field(0x03, gsi, up)


def assert_gsi(gsi):
    return field(0x04, gsi)


def io_eoi(vector):
    return field(0x05, vector)


def pic_read(port, width=1):
    return field(0x10, width, port)


def pic_write(port, value, width=1):
    return field(0x11, width, port, value)


def claim(pic_line):
    return field(0x12, pic_line)


def claim_pending():
    return field(0x13)


def restore(vector, pic_line, flags):
    return field(0x14, vector, pic_line, flags)


def accept(vector, level):
    return field(0x20, vector, level)


def local_write(offset, value, width=4):
    return field(0x21, width, offset, value)


def local_eoi():
    return field(0x22)


def local_read(offset):
    return field(0x23, offset)


def setup(x2, own_id, count, active):
    return field(0x24, x2, own_id, count, active)


def split(script):
    """The fields of a script, as bytes; what is left after a wrong tag or length is one last piece."""
    fields, at = [], 0
    while at < len(script):
        end = at + 3 + int.from_bytes(script[at + 1 : at + 3], "little")
        if end > len(script) or LENGTH.get(script[at]) != end - at - 3:
            end = len(script)
        fields.append(script[at:end])
        at = end
    return fields


def is_bad(piece, used=()):
    """Whether a piece of `split` is a bad field, behind fields of the used chips (the high digits of their tags)."""
    return bool(table.what_is_wrong(piece, 0, used))


def performed(script):
    """The pieces of a script that a program comes to, each with whether it is bad; the first bad one is the last."""
    used = set()
    for piece in split(script):
        bad = is_bad(piece, used)
        yield piece, bad
        if bad:
            return
        used.add(table.chip_of(piece[0]))


def count_lines(script):
    """How many lines a script prints: one a field, the first bad one included, or one alone if it is too long."""
    return 1 if len(script) > LONGEST else sum(1 for _ in performed(script))


def ends_badly(script):
    """Whether a script comes to a bad field."""
    return any(bad for _, bad in performed(script))


# What the Rust is, by name: a chip's choice.
NAMED = {table.chip_of(tag): field(tag, byte) for tag, (byte, _) in CHOICES.items()}


def named(script):
    """A script that names what the Rust is, version 0x11 and rule 0, each where it doesn't choose itself: what ours is without a choice the
    Rust isn't (document 02, T-14)."""
    return table.unnamed(script) + script


def is_unjudged(script):
    """Whether a script comes to a good field to which the Rust has no answer: `06 20`, `16 01` or `16 02` before all other fields of its chip,
    a field of a chip that isn't named as what the Rust is, one of a chip that the Rust hasn't.

    Ours takes it (the harness calls the first and the last bad): such a script compares nothing. Too late, the same choice is bad to both.
    """
    if len(script) > LONGEST:
        return False
    seen = set()
    for piece, bad in performed(script):
        if bad:
            return False
        chip = table.chip_of(piece[0])
        if piece[0] not in TAGS or (chip not in seen and piece != NAMED.get(chip, piece)):
            return True
        seen.add(chip)
    return False


def describe(piece):
    """A field as text, `io-read 4 0xfec00000`; other bytes as a bad field."""
    if is_bad(piece):
        return f"bad field of {len(piece)} bytes"
    return table.field_text(table.BY_TAG[piece[0]], piece[3:])


def pack(texts):
    """The oracle's batch form: each text behind its length in four bytes."""
    return b"".join(len(text).to_bytes(4, "little") + text for text in texts)


def unpack(batch):
    texts, at = [], 0
    while at < len(batch):
        end = at + 4 + int.from_bytes(batch[at : at + 4], "little")
        texts.append(batch[at + 4 : end])
        at = end
    return texts
