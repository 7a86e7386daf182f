#!/usr/bin/env python3
"""refused_where.py: each must-fail edit is refused at the facts that it names.

    tests/refused_where.py [--all-checked] [--found] [--jobs N] [CRATE..]

`rt ci` says that the prover refuses an edit, and one place where. An edit names the facts that its wrong answers break in lines

    # refused: FUNCTION FACT       as `PicChip/poll returns`: the folder below proofs/, and the goal in it
    # refused: MODULE THEOREM      as `Restore restored_at_once`: the module of proofs/ (or specs/MODULE), and the theorem

An edit may hold several wrong answers, and each of its facts must be refused by itself. So each edit is laid over a copy of its crate, `rt
check` runs there, and what it prints is read. Where the checker didn't come to a fact, since it rests on another that is refused, each wrong
answer is laid over a copy alone, and the fact must be refused at one of them.

A goal is named after the code, and a fact as the edited code has it. Where a proof file answers a goal that the edited code hasn't, the edit is
faulty; a refusal by another name that is gone, or by a limit of the checker's own, counts for nothing. One that only shows that a proof lost its
shape (a rewriting step that finds nothing to rewrite) doesn't show that the fact is false: after such a fact the edit names a computed case,
which is refused because its two sides differ,

    # shown: MODULE CASE           as `Cases sent_again`

What a check printed is kept, by the sums of all that it read, in sillwander/refused below XDG_CACHE_HOME (or ~/.cache), so that only what changed
is tried again, from this checkout or another. To try them takes 15 to 40 seconds of a processor each. The copies begin with what an `rt check`
of each crate leaves in its out/, which is made first; --all-checked says that it was. --found prints, for those who write an edit, every fact that
is refused and not named. N checks run at once, or as many as there are processors. With CRATE only the edits of those crates are tried.
"""
import argparse
import collections
import concurrent.futures
import glob
import gzip
import hashlib
import os
import pathlib
import queue
import re
import shutil
import signal
import subprocess
import sys
import tempfile
import time

TOP = pathlib.Path(__file__).resolve().parents[1]
PARTS = ("src", "specs", "proofs")
# What a rewriting step says that finds nothing to rewrite.
SHAPE = re.compile(r"no occurrence|no part of the goal|is an instance of")
# A name that the edited text hasn't any more, or a declaration that wasn't looked at.
GONE = re.compile(r"was not admitted|has no field `|is not in scope|has no `[^`]*` that can be named")
# A proof file that answers a goal that the edited code hasn't.
UNFIT = re.compile(r"error: .*module `\S+\.Goals` has no `")
# A limit of the checker's own, at which it gives no verdict; and kept work of a library that couldn't be used, so that nothing is known of the edit.
LIMIT = re.compile(r"antt ran out of (stack|the (steps|memory))|outgrew the memory limit|stopped at the step limit")
STALE = re.compile(r"Run the lower steps again")


# What a check says.


def messages(log):
    """What a check printed, each message in a line: where one is broken, what follows begins with a blank."""
    lines = []
    for line in log.split("\n"):
        if line.startswith(" ") and lines:
            lines[-1] += " " + line.strip()
        else:
            lines.append(line)
    return lines


def refused(log):
    """The (place, fact) pairs that a check refuses or leaves unproved; with each, whether only a proof's shape was lost."""
    found, open_goals = {}, []
    for line in messages(log):
        error = re.match(r"(\S+?\.antt):\d+:\d+: error: `([^`]+)`: (.*)", line)
        if error and not GONE.search(error[3]) and not LIMIT.search(error[3]):
            key = place(error[1]), error[2]
            found[key] = bool(SHAPE.search(error[3])) and found.get(key, True)
        # A function's open goals are named in front of its line.
        goal = re.match(r"note: (?:\./)?src/\S+:\d+:\d+: it is not proved that .*?\(`([^`]+)`\)", line)
        if goal:
            open_goals.append(goal[1])
        function = re.match(r"fn \w+::(\S+): (not proved|no proof)(.*)", line)
        if function:
            answers = re.search(r"expected answers in \./(\S+\.antt)", function[3])
            left = re.search(r"`search` did not prove ([^;]*)", function[3])
            where = place(answers[1]) if answers else function[1].replace("::", "/")
            for fact in open_goals + (re.findall(r"`([^`]+)`", left[1]) if left else []):
                found[where, fact] = False
        if line.startswith("fn "):
            open_goals = []
        goal = re.match(r"note: `([^`]+)` of (\S+\.antt) must prove: ", line)
        if goal:
            found[place(goal[2]), goal[1]] = False
    # Of several clauses a check may name the one that isn't proved: then what they are part of isn't either.
    for (where, fact), shape in list(found.items()):
        whole, clause, _ = fact.partition("-clause-")
        if clause:
            found[where, whole] = shape and found.get((where, whole), True)
    return found


def hidden(log):
    """Tells of a place and a fact whether the checker may not have come to it."""
    unchecked, waiting = collections.defaultdict(set), set()
    for line in log.split("\n"):
        found = re.match(r"(\S+?\.antt):\d+:\d+: error: \d+ declarations? that depends? on .* not checked: (.*)", line)
        if found:
            unchecked[place(found[1])] |= {"more" if re.fullmatch(r"\d+ more", it) else it.split(" (")[0] for it in re.split(r", | and ", found[2])}
        found = re.match(r"note: `search` has not tried the goals of (.*), which wait", line) or re.match(r"(fn \w+::\S+): no proof: it calls ", line)
        if found:
            waiting |= {it.partition("::")[2].replace("::", "/") for it in re.findall(r"\w+(?:::\w+)+", found[1])}
    return lambda where, fact: where in waiting or bool(unchecked[where] & {fact, "more"})


def place(path):
    """proofs/chip/F/Answers.antt is chip/F, proofs/M.antt is M and specs/M.antt is specs/M."""
    below = re.search(r"(?:^|/)(proofs|specs)/(.*)\.antt$", path)
    if not below:
        return path
    name = re.sub(r"/(Answers|Invariants|Proof)$", "", below[2])
    return name if below[1] == "proofs" else "specs/" + name


# Edits, and the texts that they make.


class Edit:
    def __init__(self, path):
        self.path, self.crate, text = path, path.split("/")[-3], read(path)
        self.named = re.findall(r"^# (refused|shown): (\S+) (\S+)$", text, re.M)
        self.pairs, file, old = [], None, None
        for line in text.split("\n"):
            if line.startswith("file: "):
                file = line[len("file: "):].strip()
            elif line.startswith("old: "):
                old = line[len("old: "):]
            elif line.startswith("new:"):
                self.pairs.append((file, old, line[len("new:"):].removeprefix(" ")))

    def texts(self, pairs):
        """The texts of the files that these wrong answers change, or None where one doesn't apply."""
        texts = {}
        for file, old, new in pairs:
            text = texts[file] if file in texts else read(TOP / "crates" / self.crate / file)
            if text.count(old) != 1:
                return None
            texts[file] = text.replace(old, new)
        return texts


def read(path):
    with open(path, encoding="utf-8") as file:
        return file.read()


def crates_below():
    """Each crate of crates.txt, lowest first: the repository's crates that it stands on, and its line."""
    lines = {line.split(":")[0].split()[0]: line for line in read(TOP / "crates.txt").split("\n") if ":" in line.split("#")[0]}
    deps = {name: [dep for dep in line.split(":")[1].split() if dep in lines] for name, line in lines.items()}

    def whole(name):
        found = []
        for dep in deps[name]:
            found += [it for it in [*whole(dep), dep] if it not in found]
        return found

    return {name: whole(name) for name in lines}, lines


# Checks, and what is kept of them.


class Kept:
    """What checks printed, each by the sum of all that it read."""

    def __init__(self, kit):
        home = pathlib.Path(os.environ.get("XDG_CACHE_HOME") or pathlib.Path.home() / ".cache")
        self.folder, self.kit = home / "sillwander" / "refused", kit
        self.below, self.lines = crates_below()
        self.sums = {}
        try:
            self.folder.mkdir(parents=True, exist_ok=True)
            for path in self.folder.iterdir():
                if path.stat().st_mtime < time.time() - 90 * 86400:
                    path.unlink()
        except OSError as error:
            print(f"what checks print can't be kept, so that each run tries every edit: {error}")

    def sum_of(self, crate, texts=None):
        if texts is None and crate in self.sums:
            return self.sums[crate]
        home, sum = TOP / "crates" / crate, hashlib.sha256(self.lines[crate].encode())
        for part in PARTS:
            for path in sorted(home.glob(part + "/**/*")):
                name = str(path.relative_to(home))
                if path.is_file():
                    sum.update(repr((name, texts[name].encode() if texts and name in texts else path.read_bytes())).encode())
        if texts is None:
            self.sums[crate] = sum.hexdigest()
        return sum.hexdigest()

    def path(self, crate, texts):
        all_read = (self.kit, crate, self.sum_of(crate, texts), [(it, self.sum_of(it)) for it in self.below[crate]])
        return self.folder / f"{crate}-{hashlib.sha256(repr(all_read).encode()).hexdigest()}.gz"

    def get(self, path):
        try:
            with gzip.open(path, "rt", encoding="utf-8") as file:
                log = file.read()
            os.utime(path)
            return log
        except (OSError, EOFError, UnicodeDecodeError):
            return None

    def put(self, path, log):
        try:
            with tempfile.NamedTemporaryFile(dir=path.parent, prefix="new-", delete=False) as file:
                file.write(gzip.compress(log.encode()))
            os.replace(file.name, path)
        except OSError:
            pass


class Copy:
    """A folder in which edited crates are checked, one after the other."""

    def __init__(self, kept):
        self.kept, self.folder, self.there = kept, pathlib.Path(tempfile.mkdtemp(prefix="sillwander-edits-")), set()
        shutil.copy(TOP / "crates.txt", self.folder)

    def lay(self, crate, *parts):
        """Puts a crate there as it is in the checkout, with parts of what a check left of it."""
        to = self.folder / "crates" / crate
        shutil.rmtree(to, ignore_errors=True)
        for part in (*PARTS, *parts):
            if (TOP / "crates" / crate / part).is_dir():
                shutil.copytree(TOP / "crates" / crate / part, to / part)

    def check(self, crate, texts):
        """What `rt check` prints of the edited crate, and its status."""
        for below in self.kept.below[crate]:
            if below not in self.there:
                self.lay(below, "out/rlib")
                self.there.add(below)
        # rt looks at each line of crates.txt: a crate that isn't needed is there as it is, and empty of what was checked.
        for other in set(self.kept.lines) - self.there - {crate}:
            if not (self.folder / "crates" / other).exists():
                self.lay(other)
        self.there.discard(crate)
        self.lay(crate, "out/incremental")
        for file, text in texts.items():
            (self.folder / "crates" / crate / file).write_text(text, encoding="utf-8")
        ran = subprocess.run(["rt", "check", "--jobs", "1"], cwd=self.folder / "crates" / crate, stdin=subprocess.DEVNULL, stdout=subprocess.PIPE,
                             stderr=subprocess.STDOUT, text=True, errors="replace")
        shutil.rmtree(self.folder / "crates" / crate / "out", ignore_errors=True)
        return ran.stdout, ran.returncode


class Checks:
    """Checks of edited crates, as many at once as there are processors."""

    def __init__(self, jobs):
        self.kept = Kept(subprocess.run(["rt", "version"], stdout=subprocess.PIPE, text=True, check=True).stdout.strip())
        memory = next((int(n) for n in re.findall(r"^MemAvailable: +(\d+)", read("/proc/meminfo"), re.M)), 0)
        self.at_once = jobs or max(1, min(len(os.sched_getaffinity(0)), memory // 2_000_000))
        self.made, self.copies, self.free = 0, [], queue.Queue()

    def known(self, crate, texts):
        return self.kept.get(self.kept.path(crate, texts))

    def log(self, crate, texts):
        """What a check of the crate with these texts prints; the last line says how it ended."""
        path = self.kept.path(crate, texts)
        log = self.kept.get(path)
        if log is not None:
            return log
        began = [self.kept.sum_of(it, texts={}) for it in [*self.kept.below[crate], crate]]
        copy = self.free.get()
        try:
            said, status = copy.check(crate, texts)
        finally:
            self.free.put(copy)
        self.made += 1
        log = f"{said}\nstatus {status}"
        # 1: refused, 3: it met a limit of its own, 0: proved. What else there may be says nothing of the edit, and isn't kept; nor is what was said of other files.
        if [self.kept.sum_of(it, texts={}) for it in [*self.kept.below[crate], crate]] != began or began[:-1] != [self.kept.sum_of(it) for it in self.kept.below[crate]]:
            sys.exit("refused_where.py: files have changed while this ran: run it again")
        if status in (0, 1, 3) and not STALE.search(log):
            self.kept.put(path, log)
        return log

    def each(self, call, given):
        """What the call gives for each, side by side."""
        try:
            while len(self.copies) < self.at_once:
                self.copies.append(Copy(self.kept))
                self.free.put(self.copies[-1])
            pool = concurrent.futures.ThreadPoolExecutor(self.at_once)
            try:
                return list(pool.map(call, given))
            finally:
                # Where one of them ended the whole, the others needn't begin.
                pool.shutdown(cancel_futures=True)
        finally:
            for copy in self.copies:
                shutil.rmtree(copy.folder, ignore_errors=True)


def compiled(log):
    """Whether the checker came to the proofs at all, and refused one."""
    return log.endswith(("status 1", "status 3")) and not re.search(r"\berror\[[\w-]+\]", log) and not STALE.search(log)


def lacking(edit, there):
    """What the edit names and isn't refused."""
    wrong = []
    for k, (kind, where, fact) in enumerate(edit.named):
        if (where, fact) not in there:
            wrong.append((where, fact, f"{edit.path}: nothing is refused at {where} {fact}"))
        elif there[where, fact] and (kind == "shown" or edit.named[k + 1:k + 2] == [] or edit.named[k + 1][0] != "shown"):
            wrong.append((where, fact, f"{edit.path}: at {where} {fact} only a proof's shape is lost, and no computed case is shown"))
    return wrong


def faults(edit, checks):
    """What is wrong with an edit's refusals, and the facts that are refused."""
    texts = edit.texts(edit.pairs)
    if not edit.named:
        return [f"{edit.path} names no fact"], {}
    if not texts:
        return [f"{edit.path} doesn't fit the crate's text"], {}
    log = checks.log(edit.crate, texts)
    if not compiled(log):
        return [f"{edit.path} isn't refused by the prover: {' / '.join(log.strip().split(chr(10))[-4:])[:400]}"], {}
    if UNFIT.search(log):
        return [f"{edit.path}: a proof file doesn't fit the edited code, which shows nothing"], {}
    there = refused(log)
    # What another refusal hides: each wrong answer alone.
    is_hidden = hidden(log)
    for pair in edit.pairs if len(edit.pairs) > 1 else ():
        if not any(is_hidden(where, fact) for where, fact, _ in lacking(edit, there)):
            break
        alone = edit.texts([pair])
        log = checks.log(edit.crate, alone) if alone else ""
        if compiled(log):
            for key, shape in refused(log).items():
                if key in there or is_hidden(*key):
                    there[key] = shape and there.get(key, True)
    return [words for _, _, words in lacking(edit, there)], there


def check_here(crates, at_once):
    """Has rt check these crates here, so that the copies begin with what that keeps: a few by themselves, with what is below them, and else all at once."""
    runs = [("rt", "check", f"crates/{it}") for it in crates] if len(crates) <= 8 else [("rt", "all", "check", "--jobs", str(at_once), ".")]
    for *words, folder in runs:
        ran = subprocess.run(words, cwd=TOP / folder, stdin=subprocess.DEVNULL, stdout=subprocess.PIPE, stderr=subprocess.STDOUT, text=True, errors="replace")
        if ran.returncode:
            print(ran.stdout[-3000:])
            sys.exit(f"refused_where.py: not proved as it stands: {' '.join(words)} in {folder}")


def main():
    parser = argparse.ArgumentParser(description=__doc__.split("\n\n")[0], formatter_class=argparse.RawDescriptionHelpFormatter)
    parser.add_argument("--all-checked", action="store_true")
    parser.add_argument("--found", action="store_true")
    parser.add_argument("--jobs", type=int, default=0, metavar="N")
    parser.add_argument("crates", nargs="*", metavar="CRATE")
    given = parser.parse_args()
    os.chdir(TOP)
    # The copies go however this ends.
    signal.signal(signal.SIGTERM, lambda *_: sys.exit("refused_where.py: ended"))
    for name in given.crates:
        if not os.path.isdir(f"crates/{name}/must-fail"):
            parser.error(f"no edits are crates/{name}/must-fail")
    checks, names = Checks(given.jobs), given.crates
    edits = [Edit(path) for path in sorted(glob.glob("crates/*/must-fail/*.edit")) if not names or path.split("/")[1] in names]
    texts = [(edit.crate, edit.texts(edit.pairs)) for edit in edits]
    left = [crate for crate, changed in texts if changed is not None and checks.known(crate, changed) is None]
    if left:
        print(f"{len(left)} of {len(edits)} edits are tried, {checks.at_once} at once; of the others it is known what the checker says", flush=True)
    if left and not given.all_checked:
        check_here(sorted(set(left), key=lambda it: len(checks.kept.below[it])), checks.at_once)
    results = checks.each(lambda edit: faults(edit, checks), edits)
    wrong = [line for found, _ in results for line in found]
    for line in wrong:
        print(line)
    if given.found:
        for edit, (_, there) in zip(edits, results):
            for where, fact in sorted(set(there) - {it[1:] for it in edit.named}):
                print(f"{edit.path}: {where} {fact} is refused too{', by its shape alone' if there[where, fact] else ''}")
    facts = sum(kind == "refused" for edit in edits for kind, _, _ in edit.named)
    said = f"{len(edits)} must-fail edits refused at the {facts} facts that they name" if not wrong else f"{len(wrong)} faults"
    print(f"{said} ({checks.made} checks in this run)")
    return 1 if wrong or not edits else 0


if __name__ == "__main__":
    sys.exit(main())
