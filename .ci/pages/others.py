"""README.md, docs/READINGS.md, docs/PROOFS.md and the notes of editions, of which parts are run."""
import glob
import os
import re
import subprocess
import tempfile

from pages.library import compile_c, listed, orders_in, sheet_of, takes_in
from pages.markdown import codes, number, read
from pages.page import Page


# What a program in C prints; its exit status must be 0.
def output_of(lines):
    with tempfile.TemporaryDirectory() as folder:
        source, program = os.path.join(folder, "program.c"), os.path.join(folder, "program")
        with open(source, "w", encoding="utf-8") as file:
            file.write("\n".join(lines) + "\n")
        compile_c(source, program)
        return subprocess.run([program], check=True, capture_output=True, text=True).stdout.splitlines()


class Readme(Page):
    path = "README.md"
    tables = {"crate | holds": "crates"}
    has = {"program": 1, "prints": 1, "crates": 1}
    only_read = ("to learn | read", "call | in C | definition | code")

    def code(self, lines):
        return "program" if lines[0].startswith("#include") else "prints" if self.before == "It prints:" else None

    def crates(self, rows):
        named = [name for _, row in rows for name in codes(row[0])]
        self.hold(rows[0][0], sorted(named), sorted(re.findall(r"^(\w+)(?: staticlib)?:", read("crates.txt"), re.M)))

    def program(self, line, lines):
        self.output = output_of(lines)

    def prints(self, line, lines):
        self.hold(line, lines, self.output)


class Readings(Page):
    path = "docs/READINGS.md"
    tables = {
        "case | book | incoming | each gets | left | shows": "cases",
        "reading | book | incoming | each gets | still rests | left | another reading would give": "apart",
        "reading | book | incoming | executions | still rests | left | another reading would give": "parts_apart",
    }
    has = {"cases": 1, "apart": 1, "parts_apart": 2}
    only_read = ("point | decided | reason",)
    prose = ("case", "reading", "shows", "another reading would give")
    given = ("book", "incoming")

    # What each order gets, at its own price, what of it still rests, and what is left.
    def shares(self, line, book, incoming):
        (take,), start = takes_in(incoming), self.library.book(book)
        gets, executions, left, after = self.library.take(start, take)
        orders, resting = orders_in(start), {o.number: o.size for o in orders_in(after)}
        prices = {o.number: o.price for o in orders}
        self.hold(line, [e.price for e in executions], [prices[e.number] for e in executions])
        row = lambda sizes: ", ".join(f"{sizes.get(o.number, 0):,}" for o in orders) or "none"
        return row(gets), row(resting), f"{left:,}", sheet_of(start, take)

    # A case is a sheet of the tests too, or the beginning of one; case n, a book of no bytes, can't be.
    def cases(self, rows):
        paths = sorted(glob.glob("tests/sheets/case-*.sheet")) + ["crates/fillsheet/stdin"]
        sheets = {path: read(path).splitlines() for path in paths}
        met = set()
        for line, (case, book, incoming, gets, left, _) in rows:
            true = self.shares(line, book, incoming)
            self.hold(line, [gets, left], [true[0], true[2]])
            names = ["crates/fillsheet/stdin"] if case == "c" else [p for p in paths if p.startswith(f"tests/sheets/case-{case}")]
            found = [p for p in names if begins(sheets[p], true[3])]
            self.hold(line, case == "n" or len(found) == 1, True)
            met.update(found)
        self.hold(rows[0][0], sorted(met), sorted(paths))

    def apart(self, rows):
        for line, (_, book, incoming, gets, rests, left, _) in rows:
            self.hold(line, (gets, rests, left), self.shares(line, book, incoming)[:3])


    # The executions of each take one by one, and what rests in the end.
    def parts_apart(self, rows):
        for line, (_, book, incoming, executions, rests, left, _) in rows:
            after, made, remain = self.library.book(book), [], []
            prices = {o.number: o.price for o in orders_in(after)}
            for (take,) in map(takes_in, incoming.split("; ")):
                _, found, over, after = self.library.take(after, take)
                self.hold(line, [e.price for e in found], [prices[e.number] for e in found])
                made.append(", ".join(f"p{e.paragraph} #{e.number} {e.shares:,}" for e in found))
                remain.append(f"{over:,}")
            self.hold(line, (executions, rests, left), ("; ".join(made), listed(orders_in(after)), "; ".join(remain)))


# Whether a sheet begins so. One that sets no algorithm has the first.
def begins(sheet, lines):
    sheet = sheet if sheet[0].startswith("A ") else ["A 1", *sheet]
    return sheet[:len(lines)] == lines


class Edition2(Page):
    path = "docs/changes/2026-edition-2.md"
    has = {"now": 1}
    only_read = ("what | in version 1 | in version 2", "what | before | now", "measured | edition 1 | edition 2")

    def code(self, lines):
        return "now" if self.before == "Now:" else None

    # The lines that a program moves over to compile, and are accepted.
    def now(self, line, lines):
        body = "uint8_t book[RUHVASTO_RECORD_BYTES] = {0}, executions[RUHVASTO_EXECUTION_BYTES]; uint32_t refusal; ruhvasto_taken taken;"
        self.hold(line, output_of(["#include <ruhvasto.h>", "int main(void) {", body, *lines, "return refusal + taken.refusal; }"]), [])


class Proofs(Page):
    path = "docs/PROOFS.md"
    tables = {"file | says": "counts"}
    has = {"counts": 1}
    only_read = ("part | what says it", "part | definition", "fact | theorem", "part | clause of `Fair` | words that it uses",
                 "call | answers | other buffers", "what | how", "command | does")
    prose = ("file", "says")

    # Lines of definitions without imports and empty lines: fewer than the page says.
    def counts(self, rows):
        most = re.search(r"fewer than ([\d,]+) lines together, .* fewer than ([\d,]+) more", self.before).groups()
        sums = [0, 0]
        for _, (files, _) in rows:
            for file in codes(files.removeprefix("for `fillsheet`: ")):
                lines = read(f"crates/{file}.antt").split("\n")
                sums[files.startswith("for")] += sum(1 for words in lines if words.strip() and not words.startswith("use "))
        self.hold(rows[0][0], [count < number(limit) for count, limit in zip(sums, most)], [True, True])
