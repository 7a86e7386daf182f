"""Tests of tools/run, tools/prove and tools/archives: what they print, and their exit statuses. A kit that proves nothing stands in
for Rattle's, in a repository of its own, so that a test takes no time."""
import itertools
import os
import pathlib
import shutil
import subprocess

TOP = pathlib.Path(__file__).resolve().parents[2]

# The stand-in for rt: it notes what it was asked and in which crate's folder, says how far it is as rt does, and makes what was asked for.
# The program that it makes prints the lines that stand in the file `lines`, and ends with the status in `status`; an archive holds its crate's
# name. As rt, it runs a program that it made, whose lines go to standard output, and its own beside them to standard error.
RT = """#!/bin/sh
crate=${PWD##*/} top=${PWD%/crates/*}
echo "$crate: $*" >>"$top/asked"
[ "$1" != run ] || exec 3>&1 1>&2
echo "fn types::reply: proved"
echo "crate types: modules loaded=40 checked=0"
echo "logic=proved functions=2 sum=1"
echo "fn utils::lowest: proved"
echo "crate utils: modules loaded=0 checked=12"
echo "logic=proved functions=18 sum=1"
[ ! -f "$top/broken" ] || { echo "fn $crate::main: not proved"; echo "crate $crate: modules loaded=0 checked=3"; echo "logic=not-proved"; exit 1; }
echo "crate $crate: modules loaded=0 checked=3"
echo "logic=proved functions=3 target=x86_64 sum=1"
mkdir -p out
case $1 in
run)
    printf '#!/bin/sh\\ncat >/dev/null; cat "%s/lines"; exit "$(cat "%s/status")"\\n' "$top" "$top" >"out/$crate"
    chmod +x "out/$crate"
    echo "rt: running out/$crate; to give it other input, run that file yourself"
    "out/$crate" >&3
    ;;
lib) echo "$crate $3" >"out/lib$crate.a" ;;
esac
"""
SLOW = "less if a part was proved before"
ARCHIVES = ("vioapic_c", "vpic_c", "vlapic_c", "board_c", "vcpus", "waiting_c", "image_c", "planner_c")


class Repository:
    def __init__(self, folder):
        self.top = folder / "a repository"
        self.kit = folder / "kit"
        for crate in ("script", "states", "lists", "plan", "pair_examples"):
            self.write(f"crates/{crate}/src/main.rt", "")
        self.write("crates/utils/src/lib.rt", "")
        for name in (*ARCHIVES, "vcpus_c"):
            self.write(f"crates/{name}/src/lib.rt", "")
        self.write("crates.txt", "utils:\ntypes: utils\nvcpus: types utils\nvcpus_c staticlib: vcpus types utils\n")
        for tool in ("run", "prove", "archives", "script-text", "script_fields.py", "script_words.py", "board_words.py", "board_page.py",
                     "list_words.py", "image_words.py"):
            (self.top / "tools").mkdir(exist_ok=True)
            shutil.copy(TOP / "tools" / tool, self.top / "tools")
        self.answer("")
        self.program(self.kit / "bin" / "rt", RT)

    def write(self, name, text):
        path = self.top / name
        path.parent.mkdir(parents=True, exist_ok=True)
        path.write_text(text)

    def program(self, path, text):
        path.parent.mkdir(parents=True, exist_ok=True)
        path.write_text(text)
        path.chmod(0o755)

    def answer(self, lines, status=0):
        self.write("lines", lines)
        self.write("status", str(status))

    def asked(self):
        """What rt was asked since the last time."""
        path = self.top / "asked"
        words = path.read_text().splitlines() if path.exists() else []
        path.unlink(missing_ok=True)
        return words

    def forget(self):
        for made in (self.top / "target", *self.top.glob("crates/*/out")):
            shutil.rmtree(made, ignore_errors=True)

    def tool(self, name, *words, given="", with_rt=True):
        path = f"{self.kit / 'bin'}:{os.environ['PATH']}" if with_rt else "/usr/bin:/bin"
        env = {"PATH": path}
        started = [self.top / "tools" / name, *words]
        ran = subprocess.run(started, input=given, stdout=subprocess.PIPE, stderr=subprocess.PIPE, env=env, text=True, cwd="/")
        return ran.returncode, ran.stdout, ran.stderr


def check_starting(checks, folder):
    there = Repository(folder)
    for word in ("--help", "-h"):
        status, out, _ = there.tool("run", word, with_rt=False)
        checks.same(f"tools/run {word}: status, programs named", (status, "pair_examples plan script states" in out), (0, True))
    for words in ((), ("--print",)):
        status, out, said = there.tool("run", *words)
        checks.same(f"tools/run {' '.join(words)}", (status, out, said.startswith("usage: ")), (2, "", True))
    for words in (("nonsense",), ("--print", "utils"), ("--jsn", "script")):
        status, out, said = there.tool("run", *words)
        checks.same(f"tools/run {' '.join(words)}", (status, out), (2, ""))
        checks.true(f"what was typed in {said!r}", f"no program is called '{words[-1] if words[0] == '--print' else words[0]}'" in said)
    checks.same("nothing was proved for all that", there.asked(), [])


def check_first_run(checks, folder):
    there = Repository(folder)
    there.answer("13 0 -\n")
    status, out, said = there.tool("run", "script")
    checks.same("the first run", (status, out), (0, "13 0 -\n"))
    first, *lines = said.splitlines()
    checks.true(f"what is done first, and how long: {first!r}", first.startswith("script is proved and linked first") and SLOW in first)
    checks.same("a line a crate", lines, ["  utils proved, 18 functions", "  script proved, 3 functions"])
    checks.same("what rt was asked", there.asked(), ["script: run"])
    checks.same("the second run", there.tool("run", "script"), (0, "13 0 -\n", ""))
    status, out, said = there.tool("run", "--print", "script")
    ran = subprocess.run(["sh", "-c", out], input="", stdout=subprocess.PIPE, text=True)
    checks.same("the command, as a shell reads it", (status, said, ran.stdout), (0, "", "13 0 -\n"))
    checks.same("rt wasn't asked again", there.asked(), [])
    os.utime(there.top / "crates" / "utils" / "src" / "lib.rt", (2**32, 2**32))
    checks.same("a file has changed: status and what rt was asked", (there.tool("run", "script")[0], there.asked()), (0, ["script: run"]))
    there.forget()
    there.write("broken", "")
    status, out, said = there.tool("run", "script")
    checks.same("a proof that fails: status and output", (status, out), (1, ""))
    checks.true(f"what rt said last, in {said!r}", "fn script::main: not proved" in said)


def check_text(checks, folder):
    """`script-text run` starts the program by tools/run."""
    there = Repository(folder)
    there.answer("13 0 -\n")
    status, out, said = there.tool("script-text", "run", given="claim-pending\n")
    checks.same("script-text run, for the first time", (status, out), (0, "claim-pending  # the highest request -> nothing claimed\n"))
    checks.true(f"a line a crate, in {said!r}", said.splitlines()[1:] == ["  utils proved, 18 functions", "  script proved, 3 functions"])
    status, out, said = there.tool("script-text", "run", given="claim-pending\n")
    checks.same("and for the second", (status, out, said, there.asked()), (0, out, "", ["script: run"]))
    there.forget()
    there.write("broken", "")
    status, out, said = there.tool("script-text", "run", given="claim-pending\n")
    checks.same("a proof that fails", (status, out, said.splitlines()[-1]), (1, "", "script-text: there is no program `script` to run"))


def check_statuses(checks, folder):
    there = Repository(folder)
    for name, (lines, status, words) in itertools.product(("script", "states", "lists"), (
        ("", 0, ""),
        ("12 0 -\n13 0 -\n", 0, ""),
        ("12 0 -\nbad 14\n", 1, "the script ended early, at the bad field at offset 14"),
        ("7\n", 1, "the script has more than 65,536 bytes, and nothing of it was performed"),
    )):
        there.answer("")
        there.tool("run", name)
        there.answer(lines)
        found, out, said = there.tool("run", name)
        checks.same(f"tools/run {name} that prints {lines!r}", (found, out), (status, lines))
        checks.true(f"{words!r} in {said!r}", said.startswith(f"tools/run: {words}") and said.count("\n") == 1 if words else said == "")
    there.answer("12 0 -\n", 3)
    checks.same("the program's own status", there.tool("run", "script"), (3, "12 0 -\n", ""))
    there.forget()
    status, out, said = there.tool("run", "script")
    checks.same("and where it is made first", (status, out, said.splitlines()[1:]), (3, "12 0 -\n", ["  utils proved, 18 functions", "  script proved, 3 functions"]))
    check_plan_statuses(checks, there)
    there.tool("run", "pair_examples")
    for lines in ("bad 14\n", "refused\n"):
        there.answer(lines)
        checks.same("another program's lines mean nothing", there.tool("run", "pair_examples"), (0, lines, ""))


def check_plan_statuses(checks, there):
    """A plan that there isn't: by the first line, and only by that."""
    there.answer("")
    there.tool("run", "plan")
    for lines, status in (
        ("", 0),
        ("entry 3, register 0x16: vector 0x42    refused\n", 0),
        ("entry 0, register 0x10: vector 0x20    a\nentry 1, register 0x12: vector 0x21    row 1\n", 0),
        ("refused, 5: more than 24 lines\n", 1),
        ("refused, 8: there is no plan.\nvectors 0x1f to 0x1f: 0 free; lines that may have no other: 1\n  a\n", 1),
        ("row 3: an input above 23\n", 1),
        ("plan: the text is longer than 65,535 bytes\n", 1),
    ):
        there.answer(lines)
        checks.same(f"tools/run plan that prints {lines!r}", there.tool("run", "plan"), (status, lines, ""))
    there.answer("entry 0, register 0x10: vector 0x20    a\n", 3)
    checks.same("plan's own status", there.tool("run", "plan")[0], 3)


def check_archives(checks, folder):
    there = Repository(folder)
    checks.same("tools/archives --help", there.tool("archives", "--help", with_rt=False)[0], 0)
    status, out, said = there.tool("archives", "all")
    checks.same("a word that it doesn't take", (status, out, "'all'" in said), (2, "", True))
    status, out, said = there.tool("archives")
    checks.same("tools/archives", (status, out), (0, f"{there.top}/target/staticlib\n"))
    crates = [{"vcpus": "vcpus_c"}.get(name, name) for name in ARCHIVES]
    checks.same("what rt was asked", there.asked(), [f"{crate}: lib --cpu x86-64" for crate in crates])
    checks.true(f"how long it takes: {said!r}", SLOW in said.splitlines()[0])
    checks.same("lines for crates", said.splitlines()[1:3], ["  utils proved, 18 functions", "  vioapic_c proved, 3 functions"])
    made = {path.name: path.read_text() for path in (there.top / "target" / "staticlib").iterdir()}
    checks.same("an archive for each name, of its crate", made, {f"lib{name}.a": f"{crate} x86-64\n" for name, crate in zip(ARCHIVES, crates)})
    checks.same("the second time", (there.tool("archives"), there.asked()), ((0, f"{there.top}/target/staticlib\n", ""), []))
    os.utime(there.top / "crates" / "utils" / "src" / "lib.rt", (2**32, 2**32))
    checks.same("a file has changed: status and how often rt was asked", (there.tool("archives")[0], len(there.asked())), (0, len(ARCHIVES)))
    there.forget()
    there.write("broken", "")
    status, out, said = there.tool("archives")
    checks.same("a proof that fails", (status, out, "not proved" in said, there.asked()), (1, "", True, ["vioapic_c: lib --cpu x86-64"]))
