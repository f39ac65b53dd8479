"""What was tried, counted: how many passed, failed and were skipped, with one line for each failure."""

# Of a longer text, a failure's line has the beginning and the end.
LONGEST = 200


def shown(value):
    """A value on one line: descriptions as they are, texts and bytes as Python writes them."""
    text = " ".join(value.split()) if isinstance(value, Words) else repr(value)
    return text if len(text) <= LONGEST else "%s .. %s" % (text[:LONGEST // 2], text[-LONGEST // 2:])


class Words(str):
    """A description, which is shown as it is and not as a quoted text."""


class Tally:
    """The count of one group of tests."""

    def __init__(self, group):
        self.group = group
        self.passed = self.failed = self.skipped = 0

    def passes(self, count=1):
        self.passed += count

    def fails(self, where, found, expected):
        """Says in one line where, what was found and what was expected."""
        self.failed += 1
        print("FAILED %s: %s: found %s, expected %s" % (self.group, where, shown(found), shown(expected)), flush=True)

    def skips(self, why, count):
        """Tests that cannot be made on this machine are counted, and never as passed."""
        self.skipped += count
        print("skipped %s: %d: %s" % (self.group, count, why), flush=True)

    def equal(self, where, found, expected):
        """One test: both are the same."""
        if found == expected:
            self.passes()
        else:
            self.fails(where, found, expected)

    def judge(self, where, differing):
        """One test: nothing differs, or a pair says what was found and what was expected."""
        if differing:
            self.fails(where, *differing)
        else:
            self.passes()

    def counts(self):
        return "%d passed, %d failed" % (self.passed, self.failed) + (", %d skipped" % self.skipped if self.skipped else "")

    def add(self, other):
        self.passed += other.passed
        self.failed += other.failed
        self.skipped += other.skipped
