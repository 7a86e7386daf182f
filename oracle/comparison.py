"""The comparison itself: both programs run on the same scripts, every line compared, a difference made small and shown."""
import concurrent.futures
import itertools
import os
import subprocess
import sys
import time

from scripts import describe, is_unjudged, pack, split, unpack

TIME_LIMIT = 120  # seconds for one run: a program that hangs is a difference
SHRINKING = 60  # seconds for making a difference small; what is reached then is shown
SHOWN = 1000  # bytes of a script that are printed


def run(command, given):
    """What a program prints; a crash, a time-out or an exit status is part of it, so that it can't pass for an answer."""
    try:
        done = subprocess.run(command, input=given, stdout=subprocess.PIPE, stderr=subprocess.PIPE, timeout=TIME_LIMIT)
    except subprocess.TimeoutExpired:
        return b"(no answer in time)\n", b""
    if done.returncode != 0:
        return done.stdout + b"(exit status %d)\n" % done.returncode, done.stderr
    return done.stdout, done.stderr


class Comparison:
    def __init__(self, command, oracle, in_batches):
        self.command, self.oracle, self.in_batches = command, oracle, in_batches
        self.fields = self.scripts = self.ended_badly = self.by_rust = self.by_harness = 0
        self.different = []

    def expected_batch(self, scripts):
        answers, counts = run([self.oracle, "--batch", "--count"], pack(scripts))
        answers = unpack(answers)
        if len(answers) != len(scripts):
            broke = next((script for script in scripts if run([self.oracle], script)[1]), b"")
            sys.exit(f"compare: the oracle failed: {counts.decode(errors='replace')}\n    at the script {broke.hex(' ')}")
        by_rust, by_harness = map(int, counts.split())
        self.by_rust += by_rust
        self.by_harness += by_harness
        return answers

    def answers(self, scripts):
        answers = unpack(run(self.command + ["--batch"], pack(scripts))[0]) if self.in_batches else []
        # A batch that broke off is asked again script by script, to find the one that broke it.
        return answers if len(answers) == len(scripts) else self.one_by_one(scripts)

    def one_by_one(self, scripts):
        """A process for each script, as many at once as there are processors."""
        with concurrent.futures.ThreadPoolExecutor(os.cpu_count()) as pool:
            return list(pool.map(lambda script: run(self.command, script)[0], scripts))

    def compare(self, scripts):
        for script, expected, answer in zip(scripts, self.expected_batch(scripts), self.answers(scripts), strict=True):
            self.scripts += 1
            self.fields += expected.count(b"\n")
            self.ended_badly += expected.startswith(b"bad") or b"\nbad" in expected
            if expected != answer:
                self.different.append(script)

    def both(self, pieces):
        script = b"".join(pieces)
        return run([self.oracle], script)[0].splitlines(keepends=True), run(self.command, script)[0].splitlines(keepends=True)

    def cut(self, pieces):
        """The pieces up to the first line that differs, if that is enough to show it; nothing if no line differs.

        Nothing too where dropping fields has taken the name of what the Rust is from a chip, or made a late choice the first of
        its chip, one to which the Rust has no answer: that difference would be a false alarm.
        """
        if is_unjudged(b"".join(pieces)):
            return None
        expected, answer = self.both(pieces)
        if expected == answer:
            return None
        first = next(n for n, (one, other) in enumerate(itertools.zip_longest(expected, answer)) if one != other)
        shorter = pieces[: first + 1]
        expected, answer = self.both(shorter)
        return shorter if expected != answer else pieces

    def smallest(self, script):
        """Drops fields, many at once and then one at a time, while the difference stays."""
        pieces = self.cut(split(script)) or split(script)
        size = len(pieces) // 2
        end = time.monotonic() + SHRINKING
        while size:
            at = 0
            while at < len(pieces) and time.monotonic() < end:
                shorter = self.cut(pieces[:at] + pieces[at + size :])
                if shorter:
                    pieces = shorter
                else:
                    at += size
            size //= 2
        return pieces

    def report(self, script):
        """The smallest script that shows a script's difference, as lines of text."""
        pieces = self.smallest(script)
        expected, answer = self.both(pieces)
        marked = run([self.oracle, "--mark"], b"".join(pieces))[0].splitlines()
        script = b"".join(pieces)
        more = f" .. {len(script)} bytes" if len(script) > SHOWN else ""
        lines = ["a difference; the smallest script that shows it:", f"    {script[:SHOWN].hex(' ')}{more}"]
        for piece, want, got, mark in itertools.zip_longest(pieces, expected, answer, marked):
            judge = {b"R": "the Rust", b"H": "the harness"}.get((mark or b"")[-1:], "nobody")
            field = describe(piece) if piece else "(after the script)"
            verdict = text(want) if want == got else f"DIFFERS: {judge} says '{text(want)}', the program '{text(got)}'"
            lines.append(f"    {field:60} {verdict}")
        return lines


def text(line):
    if line is None:
        return "(no line)"
    return line.decode(errors="replace").removesuffix("\n") + ("" if line.endswith(b"\n") else " (no newline)")
