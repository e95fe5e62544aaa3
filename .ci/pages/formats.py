"""docs/FORMATS.md: limits, layouts, dumps, sheets, and books for convert."""
import functools
import re

from pages.library import (OLD_RECORD, RECORD, Execution, Row, SIDES, Take, Wrong, answer, converted, dump, executions_in, fillsheet,
                           in_old_form, is_longest_sheet, lent_book, orders_in, rows_in, traded)
from pages.markdown import codes, figures, number, read
from pages.page import Page, tried, values_in

# The fields of a record of each length, with their widths.
COMMON = {"mark": 2, "side": 1, "kind": 1, "order number": 4, "price": 4, "size": 4, "minimum": 4, "setter mark": 1}
FIELDS = {OLD_RECORD: COMMON | {"none": 11}, RECORD: COMMON | {"security": 1, "none": 10, "hidden shares": 4, "refresh size": 4}}

# What the layout of a record, of the old form or not, says of fields whose values go by the kind: the words, and for each kind the range.
BY_KIND = {
    False: {"minimum": ("1 to the size for kind 3, 0 for kinds 1, 2 and 4", {3: "1 to the size", 1: "0", 2: "0", 4: "0"}),
            "setter mark": ("0 or 1; 1 only for kinds 1 and 4", {1: "0 to 1", 2: "0", 3: "0", 4: "0 to 1"}),
            "none": ("zero", {kind: "0" for kind in (1, 2, 3, 4)}),
            "hidden shares": ("0 to 999,999 for kind 4, 0 for kinds 1, 2 and 3", {4: "0 to 999,999", 1: "0", 2: "0", 3: "0"}),
            "refresh size": ("1 to 999,999 for kind 4, 0 for kinds 1, 2 and 3", {4: "1 to 999,999", 1: "0", 2: "0", 3: "0"})},
    True: {"minimum": ("1 to the size for kind 3, 0 for kinds 1 and 2", {3: "1 to the size", 1: "0", 2: "0"}),
           "setter mark": ("0 or 1; 1 only for kind 1", {1: "0 to 1", 2: "0", 3: "0"}),
           "none": ("zero", {kind: "0" for kind in (1, 2, 3)})},
}


class Formats(Page):
    path = "docs/FORMATS.md"
    tables = {
        "what | least | most": "limits",
        "bytes | width | field | values": "layout",
        "place, hex | bytes | field | number | meaning": "fields",
        "line | does | fields": "commands",
        "number | when": "printable",
        "line | printed | why": "lines",
        "input | written | why": "inputs",
    }
    has = {"limits": 1, "layout": 4, "dump": 13, "fields": 4, "grammar": 2, "commands": 1, "printable": 2, "sheet": 1, "printed": 1, "lines": 1,
           "inputs": 1}
    prose = ("why", "meaning")
    given = ("line", "input")

    def code(self, lines):
        if re.match(r"0000:", lines[0]):
            return "dump"
        if re.match(r"(sheet|printed) +=", lines[0]):
            return "grammar"
        return {"Printed:": "printed", "Case c whole, as a sheet:": "sheet"}.get(self.before)

    def limits(self, rows):
        h = self.header
        true = {
            "bytes of a book": [0, h["BOOK_BYTES"]], "bytes of a record": [h["RECORD_BYTES"]] * 2,
            "bytes of an old book": [0, h["OLD_BOOK_BYTES"]], "bytes of a record of an old book": [h["OLD_RECORD_BYTES"]] * 2,
            "orders of a book": [0, h["BOOK_ORDERS"]],
            "security": [0, h["SECURITIES"] - 1],
            "order number": [1, 4294967295], "price, limit price": [1, h["PRICE_MOST"]], "size, shares of a reduce": [1, h["SIZE_MOST"]],
            "minimum, kind 3": [1], "minimum, kinds 1, 2 and 4": [0, 0], "hidden shares, kind 4": [0, h["SIZE_MOST"]],
            "refresh size, kind 4": [1, h["SIZE_MOST"]], "hidden shares and refresh size, kinds 1, 2 and 3": [0, 0],
            "bytes of an execution": [h["EXECUTION_BYTES"]] * 2,
            "bytes of an execution buffer": [0, self.enough("R 1+1/1"), self.enough("D 2"), h["RESERVE"]],
            "executions of one take": [0, h["EXECUTIONS_BYTES"] // h["EXECUTION_BYTES"]],
            "paragraph of an execution": [min(self.named(2)), max(self.named(2)), max(self.named(1)), 1],
            "shares of an execution": [1, h["SIZE_MOST"]],
            "bytes of a ladder": [h["LADDER_BYTES"]] * 2, "bytes of a row": [h["ROW_BYTES"]] * 2,
            "rows of a ladder": [0, h["LADDER_ROWS"]], "displayed shares, other shares of a row": [0, *{*self.largest()[2:4]}],
            "orders of a row": [1, self.largest().orders],
            "bytes of a sheet for `fillsheet`": [0, 65536], "bytes of a book for `convert`": [0, h["BOOK_BYTES"]],
        }
        for (line, row), (what, numbers) in zip(rows, true.items(), strict=True):
            self.hold(line, [row[0], figures(row[1]) + figures(row[2])], [what, numbers])
        (_, sheet), (line, book) = rows[-2:]
        self.hold(line - 1, is_longest_sheet(number(sheet[2])), True)
        self.hold(line, [converted(bytes(number(book[2]) + more))[:7] == b"refused" for more in (0, 1)], [False, True])

    def meet_text(self, block):
        super().meet_text(block)
        if self.heading == "Is a book sound? A checklist" and block.lines[0].startswith("1. "):
            self.checklist(block.line)
        if self.heading == "The old book":
            self.old_book(block.line)

    # The numbers of the list are those of the tables.
    def checklist(self, line):
        h = self.header
        words = [f"at most {h['BOOK_BYTES']:,} bytes", f"a multiple of {h['RECORD_BYTES']}.",
                 f"begins with {self.library.book('D 1')[:2].hex(' ').upper()} hex", f"a price of 1 to {h['PRICE_MOST']:,};",
                 f"a size of 1 to {h['SIZE_MOST']:,};", f"has security 0 or {h['SECURITIES'] - 1} in byte 21, and zeros in bytes 22 to 31;",
                 f"0 to {h['SIZE_MOST']:,} hidden shares and a refresh size of 1 to {h['SIZE_MOST']:,},"]
        self.hold(line, [said for said in words if said in self.before], words)

    # So are those of the old form, beside its table.
    def old_book(self, line):
        most, record, book = f"{self.header['OLD_BOOK_BYTES']:,}", self.header["OLD_RECORD_BYTES"], self.library.book("D 1")
        _, old = self.library.convert("to_old", book, record)
        held = {"is a buffer": [f"0 to {most} bytes", f"records of {record} bytes"],
                "checklist": [f"with {most} in line 1,", f"{record} in line 2,"],
                "tells its form": [f"{old[1]:x} hex in an old one", f"{book[1]:x} hex in a new one"]}
        for sign, words in held.items():
            if sign in self.before:
                self.hold(line, [said for said in words if said in self.before], words)

    # A form of bytes: places without a gap, widths, and the values at each.
    def layout(self, rows):
        field_holds, size = {"The record of an order": (self.record_field, "RECORD_BYTES"),
                             "The old book": (functools.partial(self.record_field, old=True), "OLD_RECORD_BYTES"),
                             "The execution": (self.execution_field, "EXECUTION_BYTES"),
                             "The ladder": (self.row_field, "ROW_BYTES")}[self.heading]
        at = 0
        for line, (places, width, field, values) in rows:
            first, *last = figures(places)
            last = last[0] if last else first
            self.hold(line, [first, int(width)], [at, last - first + 1])
            at = last + 1
            field_holds(line, first, int(width), field, values)
        self.hold(rows[-1][0], at, self.header[size])

    # The fewest bytes for the executions of a take that fills as many orders as a book can have, all alike and of two shares.
    def enough(self, order):
        book = self.library.book(", ".join([order] * self.header["BOOK_ORDERS"]))
        take = 1, 100000, 2 * self.header["BOOK_ORDERS"], 1
        (_, count, left), _, _ = self.library.call("take", book, *take, executions=bytes(self.header["EXECUTIONS_BYTES"]))
        need = count * self.header["EXECUTION_BYTES"]
        short = self.library.call("take", book, *take, executions=bytes(need - 1))[0]
        if left or short != (8, 0, 0):
            raise Wrong(f"it takes {count} executions, leaves {left} and says {short}")
        return need

    # The row of as many orders of the largest size as a book can have.
    def largest(self):
        most = self.header["SIZE_MOST"]
        (row,) = rows_in(self.library.ladder(self.library.book(", ".join([f"R {most}+{most}/{most}"] * self.header["BOOK_ORDERS"]))))
        return row

    # Of a row with numbers that differ, and of the largest.
    def row_field(self, line, first, width, field, values):
        ladder = self.library.ladder(self.library.book("D 600 at 4660, H 500 at 4660, M 400/1 at 4660, R 30+7/30 at 4660"))
        true = {0: ("mark", ladder[:2].hex(" ").upper() + " hex", 0x444c), 2: ("side", "1 buy, 2 sell", 2), 3: ("none", "zero", 0),
                4: ("price", "as in the records", 4660),
                8: ("displayed shares: those of kind 1, and the shown ones of kind 4", f"0 to {self.largest().displayed:,}", 630),
                12: ("other shares: those of kinds 2 and 3, and the hidden ones of kind 4", f"0 to {self.largest().other:,}", 907),
                16: ("number of orders, of whatever kind", f"1 to {self.largest().orders}", 4), 18: ("none", "zero", 0)}[first]
        self.hold(line, (field, values, int.from_bytes(ladder[first:first + width], "little")), true)
        self.hold(line, rows_in(ladder), [Row(2, 4660, 630, 907, 4)])

    # The paragraphs that executions name, where a take fills an order for each.
    def named(self, algorithm):
        book = self.library.book("D 300, D 40, H 200, M 100/50, H 30")
        return {e.paragraph for e in self.library.take(book, Take(1, 100000, 670, algorithm))[1]}

    def execution_field(self, line, first, width, field, values):
        _, _, buffer = self.library.call("take", self.library.book("D 600 at 4660"), 1, 4660, 500, 2, executions=bytes([255] * 16))
        true = {0: ("mark", buffer[:2].hex(" ").upper() + " hex"), 2: ("paragraph of the rule that gave the shares", values),
                3: ("none", "zero"), 4: ("order number of the resting order", "as in its record"),
                8: ("price of the resting order, at which the shares are traded", "as in its record"),
                12: ("shares", f"1 to {self.header['SIZE_MOST']:,}")}[first]
        self.hold(line, (field, values), true)
        self.hold(line, [buffer[3], *executions_in(1, buffer)], [0, Execution(1, 4660, 500, 2)])
        if first == 2:
            said = re.fullmatch(r"(\d) or (\d) under algorithm 1, (\d) to (\d) under algorithms 2 and 3", values)
            one, other, least, most = map(int, said.groups())
            pro_rata = set(range(least, most + 1))
            self.hold(line, [{one, other}, pro_rata, pro_rata], [self.named(1), self.named(2), self.named(3)])

    # What check, or of the old form to_new, takes for sound at this place, at the ends of the values and right outside.
    def record_field(self, line, first, width, field, values, old=False):
        if field == "mark":
            mark = int.from_bytes(bytes.fromhex(values.removesuffix(" hex")), "little")
            sound = [self.is_sound(first, width, value, old=old) for value in (mark, mark ^ 1, mark ^ 256)]
            return self.hold(line, sound, [True, False, False])
        every = {1: values} if old or field == "kind" else {1: values, 4: values}
        words, kinds = BY_KIND[old].get(field, (values, every))
        self.hold(line, values, words)
        for kind, range_ in kinds.items():
            ends, inside = values_in(range_, 500)
            true = [value for value in tried(ends, width) if self.is_sound(first, width, value, kind, old)]
            self.hold(line, [value for value in tried(ends, width) if inside(value)], true)

    def is_sound(self, first, width, value, kind=1, old=False):
        books = {1: "D 500", 2: "H 500", 3: "M 500/500", 4: "R 500+500/500"}
        if (first, width) == (3, 1) and value in books:  # another kind has other numbers
            kind = value
        book = self.library.book(books[kind])
        record = bytearray(in_old_form(book) if old else book)
        record[first:first + width] = value.to_bytes(width, "little")
        if old:
            return self.library.convert("to_new", bytes(record), RECORD)[0] == 0
        return self.library.call("check", bytes(record))[0][0] == 0

    def word_take(self, line, said):
        super().word_take(line, said)
        room, each = re.search(r"The execution buffer has (\d+) bytes, each (\w\w) hex before\.", self.before).groups()
        returned, self.book, self.executions = self.library.call(
            "take", self.book, *self.takes[0], executions=bytes.fromhex(each) * int(room))
        self.count = returned[1]
        self.hold(line, re.search(r"It returns (`.*?`)", self.before)[1], answer(returned))

    def word_reduce(self, line, said):
        order, shares = map(number, re.match(r"order ([\d,]+) by ([\d,]+)$", said).groups())
        (refusal,), self.book, _ = self.library.call("reduce", self.book, 0, order, shares)
        self.hold(line, refusal, 0)

    # The book into the other form; back, it is the one that the section began with.
    def word_conversion(self, line, said):
        call, room, each = re.match(r"(to_old|to_new) into (\d+) bytes, each (\w\w) hex before$", said).groups()
        refusal, self.book = self.library.convert(call, self.book, int(room), int(each, 16))
        self.hold(line, re.search(r"It returns (\d+)", self.before)[1], str(refusal))
        self.hold(line, self.book, in_old_form(self.start) if call == "to_old" else self.start)

    # What an order with two executions lost in each part, and what it shows of what is left.
    def word_refresh(self, line, said):
        pattern = r"order (\d+), which lost ([\d,]+) shown and ([\d,]+) of ([\d,]+) hidden shares, shows ([\d,]+) of the ([\d,]+) that are left$"
        order, *numbers = map(number, re.match(pattern, said).groups())
        (before,), (after,) = ([o for o in orders_in(book) if o.number == order] for book in (self.start, self.book))
        shown, hidden = (e.shares for e in executions_in(self.count, self.executions) if e.number == order)
        self.hold(line, numbers, [shown, hidden, before.hidden, after.size, after.size + after.hidden])
        self.hold(line, [after.price, after.refresh, after.setter], [before.price, before.refresh, before.setter])

    def dump(self, line, lines):
        of = re.match(r"\*\*Dump\*\* of the (book|old book|execution buffer|ladder)\b", self.before)[1]
        if of == "ladder":
            return self.dump_ladder(line, lines)
        if of.endswith("book"):
            self.record = RECORD if of == "book" else OLD_RECORD
            orders = orders_in(self.book, self.record)
            remarks = {self.record * i: f"order {o.number}" for i, o in enumerate(orders)} | {self.record * len(orders): "free"}
            self.dumped, width = self.book, self.record // 2
        else:
            executions = executions_in(self.count, self.executions)
            remarks = {16 * i: traded([e]) for i, e in enumerate(executions)} | {16 * self.count: "as it was"}
            self.dumped, width = self.executions, 16
        for i, (said, true) in enumerate(zip(lines, dump(self.dumped, remarks, width), strict=True)):
            self.hold(line + i, said, true)

    # Its rows, and one behind them; rows_in has seen that all behind them is zero.
    def dump_ladder(self, line, lines):
        security = int(re.search(r"of the ladder of security (\d)", self.before)[1])
        ladder, each, sides = self.library.ladder(self.book, security), self.header["ROW_BYTES"], {number: side for side, number in SIDES.items()}
        rows = rows_in(ladder)
        remarks = {each * i: f"{sides[r.side]} at {r.price}: {r.displayed:,} and {r.other:,} in {r.orders}" for i, r in enumerate(rows)}
        remarks[each * len(rows)] = "free, and so are all behind it"
        for i, (said, true) in enumerate(zip(lines, dump(ladder[:each * (len(rows) + 1)], remarks, each), strict=True)):
            self.hold(line + i, said, true)

    # A record of the last dump, field by field.
    def fields(self, rows):
        start = int(rows[0][1][0].split()[0], 16)
        record = self.dumped[start:start + self.record]
        self.hold(rows[0][0], self.before, f"The record of order {orders_in(record, self.record)[0].number}, field by field:")
        at = 0
        for (line, row), (field, width) in zip(rows, FIELDS[self.record].items(), strict=True):
            data, last = record[at:at + width], start + at + width - 1
            places = f"{start + at:02x}" + (f" to {last:02x}" if width > 1 else "")
            value = int.from_bytes(data, "little")
            self.hold(line, row[:4], [places, data.hex(" "), field, "" if field == "mark" else str(value) if field == "price" else f"{value:,}"])
            at += width

    def grammar(self, line, lines):
        pass

    def commands(self, rows):
        for (line, row), numbers in zip(rows, [[1, 2, 3], [1, 2, 1, 2, 3], [], []], strict=True):
            self.hold(line, figures(" | ".join(row)), numbers)

    # The refusals that fillsheet can print: those of its calls but 2 and 8, of which the page cites the proof that they never come; or that
    # convert can.
    def printable(self, rows):
        said = {6: [self.header["BOOK_ORDERS"]]}
        refusals = {n for call in ("add", "reduce", "take") for n in self.header.of_call[call]} - {2, 8}
        if self.heading.startswith("Books"):
            untold = [self.header["RESERVE"], self.header["SECURITIES"] - 1]
            said, refusals = {2: [self.header["BOOK_BYTES"]], 11: untold}, set(self.header.of_call["to_old"]) - {12}
        for (line, row), value in zip(rows, sorted(refusals), strict=True):
            self.hold(line, [figures(cell) for cell in row], [[value], said.get(value, [])])

    # Case c's sheet is the one that rt ci runs.
    def sheet(self, line, lines):
        self.hold(line, lines, read("crates/fillsheet/stdin").splitlines())
        self.sheet_lines = lines

    def printed(self, line, lines):
        self.hold(line, lines, fillsheet(self.sheet_lines))

    # A sheet line by line, with what each line prints.
    def lines(self, rows):
        sheet, before = [], 0
        for line, (command, said, _) in rows:
            sheet += codes(command)
            printed = fillsheet(sheet)
            self.hold(line, [] if said == "nothing" else said.split(", "), [f"`{words}`" for words in printed[before:]])
            before = len(printed)

    # What convert writes of each input.
    def inputs(self, rows):
        for line, (given, said, _) in rows:
            other = re.match(r"a book of (.*)$", given)
            written = converted(self.library.book(other[1]) if other else lent_book(given, self.book))
            self.hold(line, f"{codes(said)[0]}\n".encode() if said.startswith("`") else lent_book(said, self.book), written)
