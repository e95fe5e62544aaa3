"""A page gone through from its start to its end, every table and block of code on it run and compared."""
import collections
import re

from pages.library import Wrong, takes_in
from pages.markdown import NUMBER, blocks, cells, figures, title

# What a page says in a fixed wording beside its tables.
WORDS = re.compile(r"\*\*(Book|Take|Reduce|Refresh|Guarantee|Conversion):\*\* (.*?)\.(?= |$)")

# Of these words, and of others that stand beside tables, the parts that have numbers which are run.
PLACES = re.compile(r"\*\*(?:Book|Take|Reduce|Refresh|Guarantee|Conversion):\*\* .*?(?:\.(?= |$)|$)|S = [\d,]+, Q = [\d,]+|`\{.*?\}`")


class Page:
    """One page. A class for it names its tables by their heads, and how many tables and blocks of code of each name it has."""

    path, tables, has = "", {}, {}
    only_read = None  # the heads of tables that are only read; a page that has them may also have code that isn't run
    prose = ()  # the columns that are not compared
    given = ()  # the columns that say what a call is given

    def __init__(self, text, header, library):
        self.header, self.library = header, library
        self.raw, self.blocks = text.split("\n"), blocks(text)
        self.seen, self.passed, self.failures = collections.Counter(), 0, []
        self.heading, self.before, self.table_left = "", "", b""
        self.book = self.start = None
        self.takes = []

    # What the page says is what is true.
    def hold(self, line, said, true):
        if said == true:
            self.passed += 1
        else:
            self.failures.append(f"{self.path}:{line}: says {said!r}, and it is {true!r}")

    def run(self):
        for block in self.blocks:
            try:
                getattr(self, f"meet_{block.kind}")(block)
            except Exception as why:  # whatever can't be read is a failure of the page
                self.failures.append(f"{self.path}:{block.line}: can't be read: {why}")
        self.hold(1, dict(self.seen), self.has)
        return self

    def meet_heading(self, block):
        self.heading = title(block)
        self.book = self.start = None
        self.takes = []

    def meet_text(self, block):
        self.before = " ".join(block.lines)
        for name, said in WORDS.findall(self.before):
            getattr(self, f"word_{name.lower()}")(block.line, said)

    def meet_table(self, block):
        head, _, *rows = [cells(row) for row in block.lines]
        name = self.tables.get(" | ".join(head))
        if name:
            self.seen[name] += 1
            getattr(self, name)([(block.line + 2 + i, row) for i, row in enumerate(rows)])
        elif " | ".join(head) not in (self.only_read or ()):
            raise Wrong(f"an unknown table: {head}")

    def meet_code(self, block):
        name = self.code(block.lines)
        if name:
            self.seen[name] += 1
            getattr(self, name)(block.line, block.lines)
        elif self.only_read is None:
            raise Wrong("unknown code")

    # The name of a block of code, by what it begins with or stands behind.
    def code(self, lines):
        return None

    def word_book(self, line, said):
        self.takes = []
        self.book = self.start = self.table_left if said == "as the last table left it" else self.library.book(said)

    def word_take(self, line, said):
        self.takes = takes_in(said)

    # The places of the numbers that are run, as line, first and last column, and whether they say what a call is given.
    def places(self):
        for block in self.blocks:
            if block.kind == "text":
                self.before = " ".join(block.lines)
                yield from self.places_in_words(block)
            elif block.kind == "table" and " | ".join(cells(block.lines[0])) in self.tables:
                yield from self.places_in_table(block)
            elif block.kind == "code" and self.code(block.lines) not in (None, "grammar", "prototypes"):
                yield from self.places_in_code(block)

    def places_in_words(self, block):
        for i, line in enumerate(block.lines):
            for match in re.finditer(PLACES, line):
                shift = match.start()
                given = match[0].startswith(("**Book", "**Take", "**Reduce", "**Conversion"))
                yield from ((block.line + i, shift + a, shift + b, given) for a, b in spans(match[0]))

    def places_in_code(self, block):
        given = self.code(block.lines) in ("program", "sheet", "now")
        for at, line in enumerate(block.lines, block.line):
            indented = len(self.raw[at - 1]) - len(line)
            yield from ((at, indented + a, indented + b, given) for a, b in spans(line))

    def places_in_table(self, block):
        head = cells(block.lines[0])
        for i, row in enumerate(block.lines[2:], 2):
            at = 1
            for name, cell in zip(head, row.strip("|").split(" |")):
                if name not in self.prose:
                    yield from ((block.line + i, at + a, at + b, name in self.given) for a, b in spans(cell))
                at += len(cell) + 2


# Where numbers stand in a line; of a dump or of bytes in hex, each byte.
def spans(line):
    pattern = r"\b[0-9a-f]{2}\b|\b[0-9a-f]{4}(?=:)" if re.match(r"[0-9a-f]{4}:| ?(?:[0-9a-f]{2} )+[0-9a-f]{2}$", line) else NUMBER
    return [match.span() for match in re.finditer(pattern, line)]


# The values that a range names: its two ends, or each value of a list such as '1 buy, 2 sell' or '0 or 1', or the size alone.
def values_in(text, size):
    text = text.split(";")[0]
    if text == "the size":
        text = str(size)
    if match := re.match(r"([\d,]+) to (the size|[\d,]+)$", text):
        least, most = figures(match[1])[0], size if match[2] == "the size" else figures(match[2])[0]
        return [least, most], lambda value: least <= value <= most
    values = [int(n) for n in re.findall(r"(?:^|, | or )(\d+)(?= |$)", text)]
    return values, lambda value: value in values


# What lies at and right beside some values, as far as so many bytes hold it. The values themselves must fit.
def tried(values, width=4):
    if max(values) >= 256 ** width:
        raise Wrong(f"too large for {width} bytes: {values}")
    return sorted({value + d for value in values for d in (-1, 0, 1) if 0 <= value + d < 256 ** width})
