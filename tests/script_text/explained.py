"""Tests of `script-text run` and `diff`: the words for each answer, refusal and bad field, and that the program decides.

The expected words were written from document 01 ("Refusal numbers", "Scripts"), document 02 (T-01, T-02, T-07, T-08) and the data sheets'
names of registers. A program that prints given lines stands in for `script` where that is enough, or where it doesn't answer so yet.
"""
import json
import os
import pathlib
import re
import shutil
import subprocess
import sys

TOP = pathlib.Path(__file__).resolve().parents[2]
TOOL = TOP / "tools" / "script-text"

NEWER = "io-version 0x20"
SELECT = "io-write 4 0xfec00000"
NO_PORT = "refused (1): the pair takes width 1, and the ports 0x20, 0x21, 0xa0 and 0xa1"

# Fields, the program's line for the last of them, and its words: the call with names, and its answer. The lines before it are `done`.
WORDS = (
    # I/O APIC: registers.
    (["io-read 4 0xfec00000"], "01 0 18", "selector -> 0x12 (entry 1, low word)"),
    (["io-write 4 0xfec00000 0x3f"], "02 0 -", "selector := 0x3f (entry 23, high word) -> done"),
    (["io-write 4 0xfec00000 0x100000001"], "02 0 -", "selector := 0x100000001 (version) -> done"),
    ([f"{SELECT} 1", "io-read 4 0xfec00010"], "01 0 1507345", "version -> 0x170011"),
    ([f"{SELECT} 0x40", "io-read 4 0xfec00010"], "01 0 0", "selector 0x40 -> 0x0"),
    ([f"{SELECT} 0x16", "io-write 4 0xfec00010 0x18041"], "02 0 -",
     "entry 3, low word := 0x18041 (vector 0x41, level, masked) -> done"),
    ([f"{SELECT} 0x16", "io-read 8 0xfec00010"], "01 0 49217", "entry 3, low word -> 0xc041 (vector 0x41, level, in flight)"),
    ([f"{SELECT} 0x16", "io-read 8 0xfec00010"], "01 0 1072", "entry 3, low word -> 0x430 (vector 0x30, NMI, edge)"),
    ([f"{SELECT} 0x17", "io-write 4 0xfec00010 0x18041"], "02 0 -", "entry 3, high word := 0x18041 -> done"),
    (["io-read 4 0xfec00024"], "01 0 0", "offset 0x24 -> 0x0"),
    (["io-read 2 0xfec00010"], "01 1 -", "id -> refused (1): the I/O APIC takes widths 4 and 8"),
    (["io-write 4 0xfebfffff 1"], "02 4 -",
     "address 0xfebfffff := 0x1 -> refused (4): the address is below the I/O APIC's base, 0xfec00000"),
    # The EOI register, of version 0x20 alone; and a write that sends (T-08).
    ([NEWER, "io-write 4 0xfec00040 0x130"], "02 0 20,16",
     "EOI register := 0x130 (vector 0x30) -> ended GSI 2, 4; sent again GSI 4"),
    ([NEWER, "io-write 4 0xfec00040 0x30"], "02 0 -", "EOI register := 0x30 (vector 0x30) -> nothing ended"),
    (["io-write 4 0xfec00040 0x30"], "02 0 -", "EOI register := 0x30 (vector 0x30) -> nothing ended"),
    (["io-version 0x11", "io-write 4 0xfec00040 0x30"], "02 0 -", "offset 0x40 := 0x30 -> done"),
    ([NEWER, f"{SELECT} 0x16", "io-write 4 0xfec00010 0x8041"], "02 0 65,1",
     "entry 3, low word := 0x8041 (vector 0x41, level) -> sent: vector 0x41, level"),
    # Lines.
    (["line 3 up"], "03 0 65,1", "GSI 3 goes up -> sent: vector 0x41, level"),
    (["line 3 2"], "03 0 65,0", "GSI 3 goes up -> sent: vector 0x41, edge"),
    (["line 3 down"], "03 0 -", "GSI 3 goes down -> nothing sent"),
    (["assert 23"], "04 0 -", "GSI 23, its line left alone -> nothing sent"),
    (["assert 24"], "04 0 -", "GSI 24 isn't there: the I/O APIC has 0 to 23 -> nothing sent"),
    (["line 255 up"], "03 0 -", "GSI 255 isn't there: the I/O APIC has 0 to 23 -> nothing sent"),
    (["eoi 0x41"], "05 0 3", "EOI of vector 0x41 -> ended GSI 3"),
    (["eoi 0x41"], "05 0 3,65,1", "EOI of vector 0x41 -> ended GSI 3; sent again: vector 0x41, level"),
    ([NEWER, "eoi 0x41"], "05 0 40,40", "EOI of vector 0x41 -> ended GSI 3, 5; sent again GSI 3, 5"),
    ([NEWER, "eoi 0x41"], "05 0 32,0", "EOI of vector 0x41 -> ended GSI 5; none sent again"),
    ([NEWER, "eoi 0x41"], "05 0 16777215,8388615", "EOI of vector 0x41 -> ended GSI 0-23; sent again GSI 0-2, 23"),
    (["eoi 8"], "05 0 -", "EOI of vector 0x08 -> nothing ended"),
    ([NEWER], "06 0 -", "a new I/O APIC: version 0x20, I/O Controller Hub -> done"),
    # The pair.
    (["pic-read 1 0x21"], "10 0 255", "master, data port -> 0xff (lines 0-7 masked)"),
    (["pic-read 1 0xa0"], "10 0 144", "slave, command port -> 0x90 (lines 12, 15)"),
    (["pic-read 1 0x20"], "10 0 0", "master, command port -> 0x0 (no line)"),
    (["pic-read 1 0x22"], "10 1 -", f"port 0x22 -> {NO_PORT}"),
    (["pic-write 2 0xa1 0"], "11 1 -", f"slave, data port := 0x0 -> {NO_PORT}"),
    (["pic-write 1 0x20 0x120"], "11 0 -", "master, command port := 0x120 (EOI) -> done"),
    (["pic-write 1 0xa0 0x66"], "11 0 -", "slave, command port := 0x66 (EOI of line 14) -> done"),
    (["pic-write 1 0x20 0xc3"], "11 0 -", "master, command port := 0xc3 (set priority, line 3) -> done"),
    (["pic-write 1 0x20 0x11"], "11 0 -", "master, command port := 0x11 (ICW1) -> done"),
    (["pic-write 1 0x20 0x0b"], "11 0 -", "master, command port := 0xb (OCW3) -> done"),
    (["claim 14"], "12 0 118,14,3", "line 14 asks -> vector 0x76, line 14, in service on both"),
    (["claim 3"], "12 0 11,3,1", "line 3 asks -> vector 0x0b, line 3, in service on the master"),
    (["claim 3"], "12 0 11,3,0", "line 3 asks -> vector 0x0b, line 3, in service on neither"),
    (["claim-pending"], "13 0 -", "the highest request -> nothing claimed"),
    (["claim 15"], "12 0 -", "line 15 asks -> nothing claimed"),
    (["claim 16"], "12 0 -", "line 16 isn't there: the pair has 0 to 15 -> nothing claimed"),
    (["claim 200"], "12 0 -", "line 200 isn't there: the pair has 0 to 15 -> nothing claimed"),
    (["restore 0x76 14 0"], "14 0 -", "a claim of line 14 given back, in service as before -> done"),
    (["restore 0x76 14 1"], "14 0 -", "a claim of line 14 given back, out of service on the master -> done"),
    (["restore 0x76 14 2"], "14 0 -", "a claim of line 14 given back, out of service on the slave -> done"),
    (["restore 0x70 8 255"], "14 0 -", "a claim of line 8 given back, out of service on both -> done"),
    (["restore 8 1 255"], "14 0 -", "a claim of line 1 given back, out of service on the master -> done"),
    (["restore 8 7 254"], "14 0 -", "a claim of line 7 given back, in service as before -> done"),
    (["restore 0x80 16 3"], "14 5 -", "a claim of line 16 -> refused (5): the pair has lines 0 to 15"),
    (["pic-rule 1"], "16 0 -", "a new pair: rule 1, line 2 follows the slave -> done"),
    # The local APIC.
    (["accept 0x31 level"], "20 0 -", "vector 0x31, level, in service -> done"),
    (["local-write 4 0x80 0x2f"], "21 0 -", "TPR := 0x2f -> done"),
    (["local-write 4 0x300 0xc0041"], "21 0 0,65,13",
     "ICR := 0xc0041 (fixed, vector 0x41, to the others) -> sent: fixed, vector 0x41, to vCPU 0, 2, 3"),
    (["local-write 8 0x300 0x300000c41"], "21 0 4,65,8",
     "ICR := 0x300000c41 (NMI, vector 0x41, logical destination 0x3) -> sent: NMI, vector 0x41, to vCPU 3"),
    (["local-write 4 0x300 0x41"], "21 5 -",
     "ICR := 0x41 (fixed, vector 0x41, physical destination) -> refused (5): a physical destination above 63; ICR is stored"),
    (["local-write 4 0x300 0x40341"], "21 3 -",
     "ICR := 0x40341 (mode 3, vector 0x41, to self) -> refused (3): a delivery mode of 3 or 7, or a logical destination while DFR is "
     "neither flat nor cluster; ICR is stored"),
    (["local-write 4 0x3f0 0x05"], "21 0 -", "self-IPI := 0x5 (vector 0x05) -> nothing sent"),
    (["local-write 4 0xa0 1"], "21 2 -",
     "PPR := 0x1 -> refused (2): no local register at this offset can be written, in this mode and width"),
    (["local-eoi"], "22 0 49", "EOI of the highest -> broadcast: vector 0x31"),
    (["local-eoi"], "22 0 -", "EOI of the highest -> no broadcast"),
    (["local-read 0x110"], "23 0 131075", "in service, 0x20-0x3f -> 0x20003 (vectors 0x20, 0x21, 0x31)"),
    (["local-read 0x1f0"], "23 0 0", "level-triggered, 0xe0-0xff -> 0x0 (no vector)"),
    (["local-read 0x84"], "23 2 -", "offset 0x84 -> refused (2): no local register at this offset can be read"),
    (["setup x2apic 1 4 0xf"], "24 0 -", "a new local APIC: x2apic, id 1 of 4, vCPU 0-3 active -> done"),
    (["setup xapic 0 65 0"], "24 5 -",
     "a new local APIC: xapic, id 0 of 65, no vCPU active -> refused (5): a vCPU count is at most 64, an id at most 63"),
    # The board: version 0x20 without a choice, and a selector of its own.
    (["board-line 3 up"], "30 0 65,1", "GSI 3 of the board goes up -> sent: vector 0x41, level"),
    (["board-line 24 down"], "30 0 -", "GSI 24 isn't there: the I/O APIC has 0 to 23 -> nothing sent"),
    (["board-accept"], "31 0 65", "the guest accepts -> vector 0x41 in service"),
    (["board-accept"], "31 0 -", "the guest accepts -> nothing accepted"),
    (["board-eoi"], "32 0 40,8", "the guest's EOI -> ended GSI 3, 5; sent again GSI 3"),
    (["board-eoi"], "32 0 8,0", "the guest's EOI -> ended GSI 3; none sent again"),
    (["board-eoi"], "32 0 -", "the guest's EOI -> no entry ended"),
    (["board-tpr 0x4f"], "33 0 -", "TPR := 0x4f -> done"),
    (["board-write 4 0xfec00000 0x16", f"{SELECT} 1", "board-write 4 0xfec00010 0x8041"], "34 0 65,1",
     "entry 3, low word := 0x8041 (vector 0x41, level) -> sent: vector 0x41, level"),
    (["board-write 4 0xfec00040 0x41"], "34 0 8,8", "EOI register := 0x41 (vector 0x41) -> ended GSI 3; sent again GSI 3"),
    (["board-write 1 0xfec00000 1"], "34 1 -", "selector := 0x1 (version) -> refused (1): the I/O APIC takes widths 4 and 8"),
    (["board-write 8 0xfebffff0 1"], "34 4 -",
     "address 0xfebffff0 := 0x1 -> refused (4): the address is below the I/O APIC's base, 0xfec00000"),
    (["board-message 0x51 edge"], "35 0 -", "a message: vector 0x51, edge -> done"),
    (["board-message 16 2"], "35 0 -", "a message: vector 0x10, level -> done"),
    (["board-message 15 level"], "35 0 -", "a message: vector 0x0f, level, dropped with error bit 6 -> done"),
    # What no table knows yet is shown as it is.
    (["eoi 0x41"], "05 0 1,2,3,4", "EOI of vector 0x41 -> answers 1, 2, 3, 4"),
    (["claim 3"], "12 9 -", "line 3 asks -> refused (9): number 9"),
    (["bytes 99 01 00 03"], "99 0 7", "answers 0 7"),
)

# Scripts that end early: the bytes or the text, the program's lines, and the last line's words.
ENDS = (
    (b"\x13\x00\x00\x99", "13 0 -\nbad 3\n", "# A bad field at offset 3: no field has the tag 99. The run ends here."),
    (b"claim-pending\n\nbytes 12 01\n", "13 0 -\nbad 3\n",
     "# A bad field at line 3 (offset 3): claim is cut off before its length. The run ends here."),
    (b"bytes 10 03\nbytes 00 03 21 00", "bad 0\n",
     "# A bad field at line 1 (offset 0): pic-read has the width 3, not 1, 2, 4 or 8. The run ends here."),
    (b"bytes 13 00 00 12 02 00 01\n", "13 0 -\nbad 3\n",
     "# A bad field at line 1 (offset 3): claim has the length 2, not 1. The run ends here."),
    (b"claim 3\nbytes 16 01 00 01", "12 0 -\nbad 4\n",
     "# A bad field at line 2 (offset 4): pic-rule stands behind another field of the pair. The run ends here."),
    (b"claim 3\n", "bad 0\n", "# A bad field at line 1 (offset 0): the program doesn't know it. The run ends here."),
    (bytes(65537), "7\n", "# The script has 65537 bytes, and at most 65536 can be run: nothing was performed."),
)

# A program that doesn't answer the script that it is given: the text, what it prints, and words of the message.
OTHER_ANSWERS = (
    ("claim 3", "", "the program says nothing to the field at offset 0"),
    ("claim 3\nclaim 4", "12 0 -\n", "the program says nothing to the field at offset 4"),
    ("claim 3", "13 0 -\n", "the program says '13 0 -' to the field at offset 0"),
    ("claim 3", "12 0 -\n12 0 -\n", "'12 0 -'"),
    ("claim 3", "12 0 x\n", "'12 0 x'"),
    ("claim 3", "bad 4\n", "'bad 4'"),
    ("claim 3", "12 0 -\nbad 4\n", "'bad 4'"),
    ("claim 3", "12 0 -\n7\n", "'7'"),
    ("bytes 99", "bad 0\nbad 0\n", "'bad 0'"),
    ("", "12 0 -\n", "'12 0 -'"),
)


def command(*arguments, given=b"", tool=TOOL):
    return subprocess.run([tool, *arguments], input=given, stdout=subprocess.PIPE, stderr=subprocess.PIPE, cwd=TOP)


class Printer:
    """A program that prints what it is told to, whatever the script."""

    def __init__(self, folder):
        self.file = folder / "lines"

    def says(self, lines):
        self.file.write_text(lines)
        return f"cat '{self.file}'"


def check_words(checks, tool, printer):
    for fields, line, words in WORDS:
        script = tool.encode("\n".join(fields).encode())
        before = [f"{tool.encode(field.encode())[0]:02x} 0 -\n" for field in fields[:-1]]
        given = "\n".join(fields).encode()
        ran = tool.run(given, False, ["cat", str(printed(printer, "".join(before) + line + "\n"))])
        shown = tool.shown_run(ran)
        checks.same(f"the words for {fields[-1]!r} answered {line!r}", shown.splitlines()[-1].split("  # ")[1], words)
        checks.same(f"what is shown for {fields} encodes to it", tool.encode(shown.encode()), script)
        checks.same(f"{fields} as bytes", tool.shown_run(tool.run(script, True, ["cat", str(printer.file)])), shown)


def printed(printer, lines):
    printer.says(lines)
    return printer.file


def check_ends(checks, printer):
    for given, lines, words in ENDS:
        ran = command("run", "--program", printer.says(lines), given=given)
        what = f"a run that ends early, {given[:40]!r}"
        checks.same(what, (ran.returncode, ran.stdout.decode().splitlines()[-1:], ran.stderr), (1, [words], b""))
        ran = command("run", "--json", "--program", printer.says(lines), given=given)
        end = json.loads(ran.stdout)["end"]
        checks.same(f"{what}, as JSON", (ran.returncode, end["why"]), (1, "too long" if lines == "7\n" else "bad"))
    for given, lines, words in OTHER_ANSWERS:
        ran = command("run", "--program", printer.says(lines), given=given.encode())
        checks.same(f"status for another script's answers, {lines!r}", (ran.returncode, ran.stdout), (1, b""))
        said = ran.stderr.decode()
        checks.true(f"{words!r} in {said!r}", words in said and said.startswith("script-text: standard input, "))
    for program, words in (
        ("false", "the program false ended with the status 1"),
        ("/no/program", "/no/program can't be run: No such file or directory"),
    ):
        ran = command("run", "--program", program, given=b"claim 3")
        checks.same(f"the program {program}", (ran.returncode, ran.stdout, ran.stderr.decode()), (1, b"", f"script-text: {words}\n"))


def check_told_apart(checks, printer):
    """Text and bytes; what looks like text is taken for bytes only where it is said so."""
    for given, words in (
        (b"claim 3", "line 3 asks -> nothing claimed"),
        (b"\n \t\r\f\v\nclaim 3 # \xc3\xa4", "line 3 asks -> nothing claimed"),
        (b"\x12\x01\x00\x03", "line 3 asks -> nothing claimed"),
        (b"\xef\xbb\xbfclaim 3", "line 3 asks -> nothing claimed"),  # a byte order mark
        (b"\xef\xbb\xbf# none\nclaim 3", "line 3 asks -> nothing claimed"),
    ):
        ran = command("run", "--program", printer.says("12 0 -\n"), given=given)
        checks.same(f"a run of {given!r}", (ran.returncode, ran.stdout.decode(), ran.stderr), (0, f"claim 3  # {words}\n", b""))
    for given in (b"", b"# none\n"):
        ran = command("run", "--program", printer.says(""), given=given)
        checks.same(f"a run of {given!r}", (ran.returncode, ran.stdout, ran.stderr), (0, b"", b""))
    ran = command("run", "--bytes", "--program", printer.says("bad 0\n"), given=b"claim 3")
    checks.same("text that is said to be bytes", (ran.returncode, ran.stdout.decode()),
                (1, "# A bad field at offset 0: no field has the tag 63. The run ends here.\n"))
    for given, words in (
        (b"claim 3\n\xef\xbb\xbfclaim 4\n", "line 2: no field is called '\\ufeffclaim'; `script-text --help` lists them"),
        (b"\xef\xbb\xbfclaim 3\nclaims 4\n", "line 2: no field is called 'claims'; `script-text --help` lists them"),
        (b"claim 3\nclaims 4\n", "line 2: no field is called 'claims'; `script-text --help` lists them"),
        (b"claim 3\nclaim 4 # \xe4\n", "line 2: this is no text (not UTF-8); a script's bytes are read by `decode`, or by `run --bytes`"),
    ):
        ran = command("run", "--program", printer.says(""), given=given)
        said = (ran.returncode, ran.stdout, ran.stderr.decode())
        checks.same(f"a run of bad text, {given!r}", said, (1, b"", f"script-text: standard input, {words}\n"))


# Two runs.


def check_diff(checks, tool, folder):
    """Runs as `run --json` writes them, so that no program is needed."""
    text = "claim 3\nline 1 up\nlocal-eoi"
    runs = {
        "one": (text, "12 0 11,3,1\n03 0 -\n22 0 -\n"),
        "other": (text, "12 0 11,3,1\n03 0 48,1\n22 0 49\n"),
        "more": (f"io-version 0x20\n{text}", "06 0 -\n12 0 11,3,1\n03 0 48,1\n22 0 -\n"),
        "longer": (f"{text}\nclaim 4", "12 0 11,3,1\n03 0 -\n22 0 -\n12 0 -\n"),
        "ended": (f"{text}\nbytes 99", "12 0 11,3,1\n03 0 -\n22 0 -\nbad 12\n"),
        "cut": (f"{text}\nbytes 12", "12 0 11,3,1\n03 0 -\n22 0 -\nbad 12\n"),
        "refused": ("restore 8 16 0", "14 5 -\n"),
        "done": ("restore 8 16 0", "14 0 -\n"),
        "apart": ("accept 5 edge\n" * 7, "20 0 -\n" * 7),
    }
    files = {name: saved(tool, folder / name, *ran) for name, ran in runs.items()}
    first = "the first field whose answer differs: "
    for pair, status, lines in (
        ("one one", 0, []),
        ("one other", 1, [f"{first}line 1 up", "  ONE, line 2 (offset 4): nothing sent",
                          "  OTHER, line 2 (offset 4): sent: vector 0x30, level"]),
        ("one more", 1, ["only in MORE, line 1 (offset 0): io-version 0x20", f"{first}line 1 up", "  ONE, line 2 (offset 4): nothing sent",
                         "  MORE, line 3 (offset 8): sent: vector 0x30, level"]),
        ("longer one", 1, ["only in LONGER, line 4 (offset 12): claim 4"]),
        ("refused done", 1, [f"{first}restore 0x8 16 0", "  REFUSED, line 1 (offset 0): refused (5): the pair has lines 0 to 15",
                             "  DONE, line 1 (offset 0): done"]),
        ("ended cut", 1, ["the runs end differently", "  ENDED: a bad field at line 4 (offset 12): no field has the tag 99. The run ends here",
                          "  CUT: a bad field at line 4 (offset 12): claim is cut off before its length. The run ends here"]),
        ("one ended", 1, ["the runs end differently", "  ONE: all fields were performed",
                          "  ENDED: a bad field at line 4 (offset 12): no field has the tag 99. The run ends here"]),
        ("refused apart", 1, ["only in REFUSED, line 1 (offset 0): restore 0x8 16 0"]
         + [f"only in APART, line {n + 1} (offset {5 * n}): accept 0x5 edge" for n in range(5)] + ["only in APART: 2 fields more"]),
    ):
        pair = [files[name] for name in pair.split()]
        lines = [re.sub(r"\b[A-Z]{3,}\b", lambda found: files.get(found[0].lower(), found[0]), line) for line in lines]
        ran = command("diff", *pair)
        checks.same(f"diff of {pair}", (ran.returncode, ran.stdout.decode().splitlines(), ran.stderr), (status, lines, b""))
    for text in ("{", "{}", '{"fields": [1], "end": {"words": ""}}', '{"fields": [{}], "end": {}}'):
        ran = command("diff", files["one"], "-", given=text.encode())
        checks.same(f"diff with {text}", (ran.returncode, ran.stdout), (1, b""))
        checks.true(f"standard input is named: {ran.stderr}", b"standard input, which is neither a script nor" in ran.stderr)


def saved(tool, path, text, lines):
    """A run of a text that was answered so, in a file."""
    printer = Printer(path.parent)
    printer.says(lines)
    path.write_text(tool.json_run(tool.run(text.encode(), False, ["cat", str(printer.file)])))
    return str(path)


# The command.


def check_messages(checks, folder):
    """Messages have what was typed, and no name from inside."""
    folder.joinpath("text").write_text("claim 3\n")
    folder.joinpath("bytes").write_bytes(b"\x13\x00\x00")
    none = str(folder / "none")
    for arguments, status, words in (
        ((), 2, "a command is missing: run, diff, board, lists, save, resume, image, encode, decode or upgrade"),
        (("encrypt",), 2, "no command is called 'encrypt'; there are run, diff, board, lists, save, resume, image, encode, decode and upgrade"),
        (("encode", "a", "b"), 2, "encode takes one file, not 2: a b"),
        (("diff", "a"), 2, "diff takes two files, not 1: a"),
        (("diff", "-", "-"), 2, "standard input, -, can be read only once"),
        (("run", "--jsn"), 2, "run takes no option '--jsn'; it takes --json, --bytes and --program"),
        (("encode", "--json"), 2, "encode takes no option '--json'"),
        (("run", "--program"), 2, "a command is missing behind --program"),
        (("run", none), 1, f"{none}: No such file or directory"),
        (("run", str(folder)), 1, f"{folder}: Is a directory"),
        (("diff", str(folder / "text"), none), 1, f"{none}: No such file or directory"),
        (("decode", str(folder / "text")), 1,
         f"{folder}/text is text already, no script's bytes; `decode --bytes` takes it for bytes"),
        (("encode", str(folder / "bytes")), 1, f"{folder}/bytes is bytes, no text: `decode` reads them"),
    ):
        ran = command(*arguments)
        said = ran.stderr.decode()
        checks.same(f"script-text {' '.join(arguments)}", (ran.returncode, ran.stdout), (status, b""))
        checks.true(f"{words!r} in {said!r}", said.startswith(f"script-text: {words}") and said.count("\n") == 1)
    for closed, words in (("<&-", "standard input is closed"), (">&-", "standard output is closed")):
        ran = subprocess.run(["sh", "-c", f'"$0" encode {closed}', TOOL], input=b"claim 3", stdout=subprocess.PIPE, stderr=subprocess.PIPE)
        checks.same(words, (ran.returncode, ran.stdout, ran.stderr.decode()), (1, b"", f"script-text: {words}\n"))
    ran = command("decode", "--bytes", folder / "text")
    checks.same("decode --bytes of text", ran.stdout.decode(),
                "# A bad field at offset 0: no field has the tag 63. The run ends here.\nbytes 63 6C 61 69 6D 20 33 0A\n")


def check_help_words(checks):
    said = command("run", "--help").stdout.decode()
    checks.same("the same help with and without a command", said, command("--help").stdout.decode())
    for number in range(8):
        checks.true(f"refusal {number} in --help", re.search(rf"^  {number}  \S", said, re.M))
    for values in ("value", "vector,level", "gsi", "gsi,vector,level", "ended,again", "vector,line,flags", "vector", "kind,vector,mask",
                   "-"):
        checks.true(f"the answer {values} in --help", re.search(rf"^      {values} +\S", said, re.M))
    for word in ("vector", "level", "gsi", "ended, again", "line", "flags", "kind", "mask"):
        checks.true(f"what {word} is in --help", re.search(rf"^  {word}  +\S", said, re.M))
    checks.same("no paper that a reader hasn't in --help", re.findall(r"[Dd]ocument 0\d", said), [])
    checks.same("no long line in --help", [line for line in said.splitlines() if len(line) > 120], [])


# One row more.

# Rows such as requests to come may want, with numbers that none has, and where they go in the table.
NEW_ROWS = (
    ('    0: "line 2 is a latch",\n', '    9: "the ninth rule",\n'),
    ("CHIPS = {\n", '    0x7: Chip("another board", False, 0x20),\n'),
    ("FIELDS = (\n", '    Field(0x70, "other-line", (GSI, UP), "a line of another board", "GSI {gsi} goes {up}", SENT),\n'
                     '    Field(0x74, "other-write", (WIDTH, ADDRESS, VALUE), "and its I/O APIC", "{register} := {value}", WRITTEN, NOT_IO),\n'),
)
OTHER = "pic-rule 9\nother-line 3 up\nother-write 4 0xfec00040 0x41\nother-write 2 0 0"
OTHER_BYTES = "16 01 00 09 70 02 00 03 01 74 11 00 04 40 00 c0 fe 00 00 00 00 41 00 00 00 00 00 00 00 74 11 00 02" + " 00" * 16
OTHER_LINES = "16 0 -\n70 0 65,1\n74 0 8,0\n74 1 -\n"
OTHER_WORDS = """\
pic-rule 9                     # a new pair: rule 9, the ninth rule -> done
other-line 3 up                # GSI 3 goes up -> sent: vector 0x41, level
other-write 4 0xfec00040 0x41  # EOI register := 0x41 (vector 0x41) -> ended GSI 3; none sent again
other-write 2 0x0 0x0          # address 0x0 := 0x0 -> refused (1): the I/O APIC takes widths 4 and 8
"""
JUDGED = """
import sys
sys.dont_write_bytecode = True
sys.path.insert(0, sys.argv[1])
import scripts
asked = "16 01 00 09", "16 01 00 00", "70 02 00 03 01", "70 02 00 03", "13 00 00", "16 01 00 00 13 00 00 16 01 00 09"
print([scripts.is_unjudged(bytes.fromhex(one)) for one in asked])
print(0x70 in scripts.TAGS, scripts.describe(bytes.fromhex("70 02 00 03 01")), 9 in scripts.CHOICES[0x16][1])
"""


def check_new_row(checks, folder):
    """A row is all that text tool and oracle need for a new field: copies of both, with rows added."""
    for name in ("tools", "oracle"):
        (folder / name).mkdir()
        for path in (TOP / name).iterdir():
            if path.is_file():
                shutil.copy(path, folder / name)
    table = folder / "tools" / "script_fields.py"
    text = table.read_text()
    for above, row in NEW_ROWS:
        checks.same(f"the place of a new row, {above!r}", text.count(above), 1)
        text = text.replace(above, above + row)
    table.write_text(text)
    tool = folder / "tools" / "script-text"
    script = command("encode", given=OTHER.encode(), tool=tool).stdout
    checks.same("new fields as bytes", script.hex(" "), OTHER_BYTES)
    text = command("decode", given=script, tool=tool).stdout
    checks.same("new fields as text again", command("encode", given=text, tool=tool).stdout, script)
    ran = command("run", "--program", Printer(folder).says(OTHER_LINES), given=script, tool=tool)
    checks.same_lines("new fields in words", ran.stdout.decode(), OTHER_WORDS)
    checks.true("new fields in help", "other-line GSI up|down" in command("--help", tool=tool).stdout.decode())
    said = subprocess.run([sys.executable, "-c", JUDGED, folder / "oracle"], stdout=subprocess.PIPE, stderr=subprocess.STDOUT, text=True)
    checks.same("what the Rust can't judge, with the new fields", said.stdout,
                "[True, False, True, False, True, False]\nFalse other-line 3 up True\n")


# The proved program.


def check_program(checks, tool, program, name, path, printed):
    """A script of the examples, as text and as bytes: the program's own lines, whole, in words that encode to what was performed."""
    script, lines = tool.encode(path.read_bytes()), printed.splitlines()
    ended = lines[-1:] != [] and lines[-1].startswith("bad ")
    ran = command("run", "--program", program, path)
    checks.same(f"status of run {name}", (ran.returncode, ran.stderr), (1 if ended else 0, b""))
    end = int(lines[-1][4:]) if ended else len(script)
    checks.same(f"run {name} encodes to what was performed", tool.encode(ran.stdout).hex(" "), script[:end].hex(" "))
    checks.same(f"lines of run {name}", len(ran.stdout.splitlines()), len(lines))
    checks.same(f"nothing of run {name} is without words", re.findall(rb"answers .*|number \d+", ran.stdout), [])
    as_json = json.loads(command("run", "--json", "--program", program, path).stdout)
    printed_lines = [step["printed"] for step in as_json["fields"]]
    checks.same(f"run --json {name} has the program's lines", printed_lines, lines[:-1] if ended else lines)
    checks.same(f"why {name} ended", as_json["end"]["why"], "bad" if ended else "all")
    for step in as_json["fields"]:
        values = step["printed"].split(" ")[2]
        checks.same(f"values of {step['printed']}", (step["values"], list(step.get("labels", {}).values()) or []),
                    ([], []) if values == "-" else 2 * (list(map(int, values.split(","))),))
    from_bytes = command("run", "--program", program, given=script)
    where = re.compile(rb"line \d+ \((offset \d+)\)")
    checks.same(f"run {name} from bytes", where.sub(rb"\1", ran.stdout), from_bytes.stdout)


def check_pages(checks, program, verbs, count, folder=TOP):
    """Each command behind a `$` in the README and the pages that has one of the verbs prints what stands below it. In another folder than the repository's, what it writes stays there."""
    pages = "\n".join((TOP / name).read_text(encoding="utf-8") for name in ("README.md", "docs/SCRIPTS.md", "docs/IMAGE.md"))
    blocks = re.findall(r"^    \$ (.*)\n((?:    .*\n)*)", pages, re.M)
    named = re.compile(rf"tools/script-text ({verbs})")
    blocks = [(line, below) for line, below in blocks if named.search(line)]
    checks.same(f"the pages' commands that {verbs}", len(blocks), count)
    for line, below in blocks:
        whole = named.sub(lambda found: f'{found[0]} --program "$PROGRAM"', line)
        ran = subprocess.run(["sh", "-c", whole], cwd=folder, env={**os.environ, "PROGRAM": program}, stdout=subprocess.PIPE, text=True)
        checks.same_lines(f"a page's {line}", "".join(f"    {out}\n" for out in ran.stdout.splitlines()), below)
