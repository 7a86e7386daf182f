"""What the tests of scripts share: counting checks, and telling of those that fail."""

SHOWN = 400  # letters of a value
TOLD = 20  # failures; the others are only counted


class Checks:
    def __init__(self):
        self.made = self.failed = 0

    def same(self, what, found, wanted):
        self.made += 1
        if found != wanted:
            self.failed += 1
            if self.failed <= TOLD:
                print(f"FAILED {what}\n    wanted {str(wanted)[:SHOWN]}\n    found  {str(found)[:SHOWN]}")

    def true(self, what, holds):
        self.same(what, bool(holds), True)

    def same_lines(self, what, found, wanted):
        """Outputs, as text. The first line that differs is named, since long ones are cut."""
        lines = zip(wanted.splitlines() + ["(the end)"], found.splitlines() + ["(the end)"])
        where = next((f", line {number}: wanted {w!r}, found {f!r}" for number, (w, f) in enumerate(lines, 1) if w != f), "")
        self.same(what + where, found, wanted)

    def whole(self, check, *arguments):
        """Makes the checks of a function. If the tested code breaks it off, that is one failure, and the others are still made."""
        try:
            check(self, *arguments)
        except Exception as error:
            self.same(f"{check.__name__} comes to its end", repr(error), "")
