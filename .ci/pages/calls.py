"""docs/CALLS.md: the tables of calls, and the cases by hand."""
import re

from pages.library import (CALLS, FORMS, KINDS, Take, Wrong, answer, executions_in, fillsheet, lent_book, listed, orders_in, rows_in, sheet_of,
                           totals, traded, turned)
from pages.markdown import codes, figures, number, read
from pages.page import Page, tried, values_in


class Calls(Page):
    path = "docs/CALLS.md"
    tables = {
        "number | name in C | condition | calls": "refusals",
        "calls | bytes of stack, less than | name in C": "stack",
        "argument | range": "ranges",
        "field of the request | range": "ranges",
        "field | accepted | refused": "answers",
        "call | asks of the whole book | of its security alone": "apart",
        "buffer | security | answer: refusal, orders": "checks",
        "buffer | security, number | answer: refusal, start, length": "finds",
        "side, kind, number, price, size, minimum, hidden, refresh, security | returned | why": "adds",
        "record | side | kind | number | price | size | minimum | setter mark | hidden shares | refresh size | security": "records",
        "security, number, shares | returned | orders afterwards: number, kind, size": "reduces",
        "side, limit, size, algorithm, security | bytes for executions | returned: refusal, count, left | executions, in order"
        " | orders afterwards": "taken",
        "buffer | security | bytes of the ladder | returned": "ladders",
        "row | side | price | displayed shares | other shares | orders": "rows",
        "call | numbers; of take then the bytes for executions | ladder | returned | rows afterwards": "kept",
        "call | source | bytes of the target | returned | why": "conversions",
        "paragraph | algorithm 1 | algorithms 2 and 3": "paragraphs",
        "order | size | exact share | first step | lacks | rest | second step | gets": "sharing",
        "algorithm | paragraph | order | minimum | shares left | gets": "turns",
    }
    has = {"refusals": 1, "stack": 1, "prototypes": 8, "ranges": 6, "answers": 3, "checks": 2, "finds": 2, "adds": 3, "records": 3, "reduces": 3,
           "taken": 3, "ladders": 1, "rows": 2, "kept": 2, "apart": 1, "conversions": 3, "paragraphs": 1, "sharing": 5, "printed": 3, "turns": 1}
    prose = ("condition", "why")
    given = ("buffer", "security", "security, number", "side, kind, number, price, size, minimum, hidden, refresh, security",
             "security, number, shares", "side, limit, size, algorithm, security", "bytes for executions", "bytes of the ladder",
             "numbers; of take then the bytes for executions", "ladder", "source", "bytes of the target")

    def code(self, lines):
        return "prototypes" if lines[0].startswith("C  ") else "printed" if self.before.endswith("Printed:") else None

    # The table is in the order in which each call says its refusals. A form with a ladder has those of its plain call, and two more.
    def refusals(self, rows):
        of_call = self.header.of_call
        for (line, row), (value, name) in zip(rows, self.header.refusals, strict=True):
            calls = [call for call in CALLS if value == 0 or value in of_call[call]]
            calls += ["the forms with a ladder"] if all(value in set(of_call[f"{call}_ladder"]) - set(of_call[call]) for call in FORMS) else []
            self.hold(line, [row[0], row[1], row[3]], [str(value), f"`{name}`", ", ".join(calls)])
        for said in of_call.values():
            self.hold(rows[0][0], said, [value for value, _ in self.header.refusals if value in said])
        for call in FORMS:
            self.hold(rows[0][0], set(of_call[f"{call}_ladder"]), {*of_call[call], 9, 10})

    def stack(self, rows):
        names = {"check, find, add, reduce": "STACK_BYTES", "take": "TAKE_STACK_BYTES",
                 "ladder, and the forms with a ladder": "LADDER_STACK_BYTES", "to_new, to_old": "CONVERSION_STACK_BYTES"}
        for (line, row), (calls, name) in zip(rows, names.items(), strict=True):
            self.hold(line, row, [calls, f"{self.header[name]:,}", f"`RUHVASTO_{name}`"])

    # The header declares what is for C, and the crate named has what is for Rattle.
    def prototypes(self, line, lines):
        in_c, rattle = re.match(r"C (.*;) Rattle (.*)$", " ".join(" ".join(lines).split())).groups()
        for prototype in re.findall(r"\S[^;]*;", in_c):
            self.hold(line, prototype in self.header.flat, True)
        for crate, function in re.findall(r"(\w+)::(\w+.*?)(?= \w+::\w+[(<]|$)", rattle):
            source = " ".join(read(f"crates/{crate}/src/lib.rt").split()).replace("( ", "(").replace(", )", ")")
            self.hold(line, f"pub fn {function} " in source, True)

    # Whether the call of this section refuses 1, given some numbers in the place of its usual ones.
    def refuses(self, **changed):
        usual = {"Check": {"security": 0}, "Find": {"security": 0, "number": 1}, "Reduce": {"security": 0, "number": 1, "shares": 1},
                 "Take": {"side": 1, "limit": 1, "size": 1, "algorithm": 1, "security": 0}, "Ladder": {"security": 0},
                 "Add": {"side": 1, "kind": 1, "number": 1, "price": 1, "size": 500, "minimum": 0, "hidden": 0, "refresh": 0,
                         "security": 0}}[self.heading]
        if set(changed) - set(usual):
            raise Wrong(f"no such number: {changed}")
        if self.heading == "Add" and changed.get("kind") == 3:
            changed.setdefault("minimum", 1)
        if self.heading == "Add" and changed.get("kind") == 4:
            changed.setdefault("refresh", changed.get("size", 500))
        returned, _, _ = self.library.call(self.heading.lower(), b"", *{**usual, **changed}.values())
        return returned[0] == 1

    # Every range is tried at its ends and right outside, each value of a list too; of add for each kind that the row speaks of.
    def ranges(self, rows):
        fields = {"Check": ["`security`"], "Find": ["`security`", "`number`"], "Reduce": ["`security`", "`number`", "`shares`"],
                  "Take": ["`side`", "`limit`", "`size`", "`algorithm`", "`security`"], "Ladder": ["`security`"],
                  "Add": ["`side`", "`kind`", "`number`", "`price`", "`size`", "`minimum`, kind 3", "`minimum`, kinds 1, 2 and 4", "`hidden`, kind 4",
                          "`hidden`, kinds 1, 2 and 3", "`refresh`, kind 4", "`refresh`, kinds 1, 2 and 3", "`security`"]}[self.heading]
        self.hold(rows[0][0], [row[0] for _, row in rows], fields)
        for line, (name, values) in rows:
            ends, inside = values_in(values, 500)
            all_kinds = KINDS.values() if self.heading == "Add" and name != "`kind`" else [None]
            for kind in figures(name) or all_kinds:
                base = {} if kind is None else {"kind": kind}
                refused = [value for value in tried(ends) if self.refuses(**base, **{codes(name)[0]: value})]
                self.hold(line, [value for value in tried(ends) if not inside(value)], refused)

    def answers(self, rows):
        call, record, orders = self.heading.lower(), self.header["RECORD_BYTES"], self.header["BOOK_ORDERS"]
        most = self.header["EXECUTIONS_BYTES"] // self.header["EXECUTION_BYTES"]
        accepted = {"check": {"`refusal`": [0], "`orders`": [0, orders]}, "take": {"`refusal`": [0], "`count`": [0, most], "`left`": []},
                    "find": {"`refusal`": [0], "`start`": [record], "`length`": [record], "the part, in Rattle": [record]}}[call]
        for (line, row), (name, numbers) in zip(rows, accepted.items(), strict=True):
            refused = self.header.of_call[call] if name == "`refusal`" else [0]
            self.hold(line, [row[0], figures(row[1]), [] if row[2] == "empty" else figures(row[2])],
                      [name, numbers, [] if name.startswith("the part") else refused])

    # A book as the tables have it that say what a call is lent.
    def buffer(self, said):
        return lent_book(said, self.book)

    def checks(self, rows):
        for line, (buffer, security, said) in rows:
            self.hold(line, said, answer(self.library.call("check", self.buffer(buffer), number(security))[0]))

    def finds(self, rows):
        for line, (buffer, sought, said) in rows:
            self.hold(line, said, answer(self.library.call("find", self.buffer(buffer), *figures(sought))[0]))

    def adds(self, rows):
        for line, (numbers, said, _) in rows:
            returned, self.book, _ = self.library.call("add", self.book, *figures(numbers))
            self.hold(line, said, str(returned[0]))

    def records(self, rows):
        for place, ((line, row), order) in enumerate(zip(rows, orders_in(self.book), strict=True)):
            self.hold(line, row, [str(n) for n in (place, *order)])
        self.table_left = self.book

    def reduces(self, rows):
        for line, (numbers, said, after) in rows:
            returned, self.book, _ = self.library.call("reduce", self.book, *figures(numbers))
            self.hold(line, [said, after], [str(returned[0]), listed(orders_in(self.book))])

    def taken(self, rows):
        for line, (numbers, room, said, executions, after) in rows:
            returned, self.book, buffer = self.library.call("take", self.book, *figures(numbers), executions=bytes(int(room)))
            true = [answer(returned), traded(executions_in(returned[1], buffer)), listed(orders_in(self.book))]
            self.hold(line, [said, executions, after], true)

    # Whatever stood in the ladder; refused, it still stands there.
    def ladders(self, rows):
        for line, (buffer, security, length, said) in rows:
            book, before = self.buffer(buffer), bytes([255] * number(length))
            (refusal,), _, _, ladder = self.library.keep("ladder", book, before, number(security))
            self.hold(line, said, str(refusal))
            self.hold(line, ladder == (before if refusal else self.library.ladder(book, number(security))), True)

    # The rows of the ladder of a security, which the words in front name.
    def rows(self, rows):
        self.ladders_kept = [self.library.ladder(self.book, security) for security in range(self.header["SECURITIES"])]
        ladder = self.ladders_kept[int(re.search(r"of security (\d)", self.before)[1])]
        for place, ((line, row), true) in enumerate(zip(rows, rows_in(ladder), strict=True)):
            self.hold(line, row, [str(n) for n in (place, *true)])
        self.table_left = self.book

    # The ladder of a security that the calls before left, or another one in its place.
    def lent(self, said, security):
        if said == "the other security's":
            return self.ladders_kept[1 - security]
        if match := re.match(r"its first (\d+) bytes$", said):
            return self.ladders_kept[security][:int(match[1])]
        match = re.match(r"kept(?:, byte (\d+) = (\w\w) hex)?$", said)
        data = bytearray(self.ladders_kept[security])
        if match[1]:
            if data[int(match[1])] == int(match[2], 16):
                raise Wrong(f"no change: {said}")
            data[int(match[1])] = int(match[2], 16)
        return bytes(data)

    # A refused call leaves all as it was; with the ladder that was kept each does what the plain call does, and leaves the new book's. The
    # ladder of the other security stays right.
    def kept(self, rows):
        for line, (call, given, lent, said, after) in rows:
            numbers = figures(given)
            executions = bytes([238] * numbers.pop()) if call == "take" else b""
            security = dict(enumerate(numbers)).get({"add": 8, "reduce": 0, "take": 4}[call], 0)
            before = self.lent(lent, security)
            returned, book, filled, ladder = self.library.keep(f"{call}_ladder", self.book, before, *numbers, executions=executions)
            true = "as before" if ladder == before else totals(rows_in(ladder))
            self.hold(line, [said, after], [answer(returned) if call == "take" else str(returned[0]), true])
            if lent == "kept":
                self.hold(line, (returned, book, filled) == self.library.call(call, self.book, *numbers, executions=executions), True)
            if returned[0]:
                self.hold(line, (book, filled, ladder) == (self.book, executions, before), True)
            else:
                self.hold(line, ladder == self.library.ladder(book, security), True)
                self.book, self.ladders_kept[security] = book, ladder
                self.hold(line, self.ladders_kept[1 - security] == self.library.ladder(book, 1 - security), True)

    # Each refusal that a call has on account of orders stands once: of the whole book, or of the call's security.
    def apart(self, rows):
        of_call, whole = self.header.of_call, {2, 4, 6, 11, 12}
        true = {call: set(of_call[call]) - {1, 9} for call in ("check", "find", "add", "reduce", "take", "ladder")}
        true["the forms with a ladder"] = set(of_call["add_ladder"]) - set(of_call["add"]) - {9}
        true["to_new, to_old"] = set(of_call["to_old"])
        for (line, row), (calls, numbers) in zip(rows, true.items(), strict=True):
            self.hold(line, [row[0], *map(figures, row[1:])], [calls, sorted(numbers & whole), sorted(numbers - whole)])

    # Whatever stood in the target; refused, it still stands there. Accepted, it is the source in the other form, and leads back to it.
    def conversions(self, rows):
        for line, (call, lent, length, said, _) in rows:
            source, length = self.buffer(lent), number(length)
            refusal, target = self.library.convert(call, source, length)
            self.hold(line, [said, target], [str(refusal), bytes([238] * length) if refusal else turned(source, call, length)])
            if not refusal:
                back = "to_old" if call == "to_new" else "to_new"
                self.hold(line, self.library.convert(back, target, len(source)), (0, source))

    def paragraphs(self, rows):
        lot = self.header["ROUND_LOT"]
        true = [[[2], [], [lot, 3]], [[3], [], [lot]], [[4], [], [lot]], [[5], [], []], [[6], [], [lot]]]
        for (line, row), numbers in zip(rows, true, strict=True):
            self.hold(line, [figures(cell) for cell in row], numbers)
        for algorithm, column in (1, 1), (2, 2), (3, 2):
            self.named(rows[0][0], [(number(row[0]), row[column]) for _, row in rows], algorithm)

    # Of each kind an order of a lot, and one below it, of a reserve order each part: its execution names the one paragraph whose group it is in.
    def named(self, line, groups, algorithm):
        lot = self.header["ROUND_LOT"]
        sizes = (lot, lot - 1)
        book = self.library.book(", ".join([f"D {n}, H {n}, M {n}/1" for n in sizes] + [f"R {n}+{m}/{n}" for n in sizes for m in sizes]))
        executions = self.library.take(book, Take(1, 100000, 14 * lot, algorithm))[1]
        said = [[paragraph for paragraph, cell in groups if is_in(part, cell)] for o in orders_in(book) for part in parts_of(o)]
        named = sorted(executions, key=lambda e: (e.number, e.paragraph))  # the shown part's paragraph is the lower
        self.hold(line, [said, [p.size for o in orders_in(book) for p in parts_of(o)]], [[[e.paragraph] for e in named], [e.shares for e in named]])

    # The orders that the take may trade with; in a case by hand they are at one price.
    def opposite(self):
        side, limit = self.takes[0][:2]
        found = [o for o in orders_in(self.start) if o.side != side and (o.price <= limit if side == 1 else o.price >= limit)]
        if len({o.price for o in found}) != 1:
            raise Wrong("not one price within the limit")
        return found

    def round_lots(self):
        group = [o for o in self.opposite() if o.kind == 1 and o.size >= self.header["ROUND_LOT"]]
        return group, min(self.takes[0].size, sum(o.size for o in group))

    def gets(self, algorithm):
        return self.library.take(self.start, self.takes[0]._replace(algorithm=algorithm))[0]

    # Lot sharing by hand, plain or beside the setter; and what the library gives, of which plain sharing is algorithm 2's.
    def sharing(self, rows):
        form, total, shares = re.search(r"(Plain|Beside the setter), S = ([\d,]+), Q = ([\d,]+):$", self.before).groups()
        group, divided = self.round_lots()
        true = self.gets(2 if form == "Plain" else 3)
        if form == "Plain":
            self.plain = true
        else:
            group, divided = [o for o in group if not o.setter], divided - self.guarantee
        self.hold(rows[0][0], [number(total), number(shares)], [sum(o.size for o in group), divided])
        named = {str(e.paragraph) for e in self.library.take(self.start, self.takes[0])[1]}
        self.hold(rows[0][0], set(re.findall(r"in paragraph (\d)", self.before)) <= named, True)
        steps = lot_sharing(divided, group, self.header["ROUND_LOT"])
        for (line, row), o in zip(rows, group, strict=True):
            tenths, first, rest, second = steps[o.number]
            numbers = [o.number, o.size, first, o.size - first, rest, second, true[o.number]]
            self.hold(line, [*row[:2], *row[3:]], [f"{n:,}" for n in numbers])
            self.hold(line, [row[2], first + second], [f"{tenths / 10:,.1f}", true[o.number]])

    def word_guarantee(self, line, said):
        group, divided = self.round_lots()
        setter = next(o for o in group if o.setter)
        self.guarantee, plain = min(setter.size, 2 * divided // 5), self.plain[setter.number]
        self.hold(line, said, f"the smaller of {setter.size:,} and 2 × {divided:,} ÷ 5, so {self.guarantee:,}")
        more = "is more" if plain > self.guarantee else "isn't more"
        self.hold(line, f"Plain sharing gives the setter {plain:,}, which {more}." in self.before, True)
        self.hold(line, self.gets(3)[setter.number], self.guarantee)

    # A case by hand has the book and take of the case of its letter.
    def word_take(self, line, said):
        super().word_take(line, said)
        cases = read("docs/READINGS.md")
        for take in self.takes:
            row = f"| {said.replace(' at 100000', '').split(', ')[0]}, algorithm {take.algorithm} |"
            letter = re.match(r"Case (\w)", self.heading)[1]
            self.hold(line, f"| {letter} | {self.words_of_book} {row}" in cases, True)

    # The book of check and find is case c's.
    def word_book(self, line, said):
        super().word_book(line, said)
        self.words_of_book = said
        if self.heading in ("Check", "Find"):
            self.hold(line, f"| c | {said} |" in read("docs/READINGS.md"), True)

    def printed(self, line, lines):
        self.hold(line, lines, fillsheet(sheet_of(self.start, self.takes[0])))

    # The paragraph is the one that the execution names; where there is none, that of the order's turn.
    def turns(self, rows):
        true = []
        for take in self.takes:
            gets, executions, _, _ = self.library.take(self.start, take)
            left, named = take.size, {e.number: e.paragraph for e in executions}
            for o in sorted(self.opposite(), key=lambda o: turn(o, take.algorithm)):
                paragraph = named.get(o.number, turn(o, take.algorithm)[0])
                true.append([f"{n:,}" for n in (take.algorithm, paragraph, o.number, o.minimum, left, gets[o.number])])
                left -= gets[o.number]
        for (line, row), words in zip(rows, true, strict=True):
            self.hold(line, row, words)


# Lot sharing step by step: for each order its exact share in tenths, the first step, the rest at its turn, and the second step.
def lot_sharing(shares, orders, lot):
    total = sum(o.size for o in orders)
    first = {o.number: o.size * shares // total // lot * lot for o in orders}
    rest, steps = shares - sum(first.values()), {}
    for o in sorted(orders, key=lambda o: (-o.size, o.number)):
        second = min(lot, o.size - first[o.number], rest)
        steps[o.number] = (o.size * shares * 10 // total, first[o.number], rest, second)
        rest -= second
    return steps


# The parts of an order, as orders of kinds 1 to 3: of a reserve order two.
def parts_of(order):
    return [order._replace(kind=1), order._replace(kind=2, size=order.hidden)] if order.kind == 4 else [order]


# Whether an order is in the group of a cell of the table of paragraphs: 'non-displayed, 100 or more: lot sharing'.
def is_in(order, cell):
    kinds = re.match(r"[a-z -]*", cell)[0].removesuffix(" together").split(" and ")
    least, below = re.search(r"(\d+)(?: shares)? or more", cell), re.search(r"below (\d+)", cell)
    return (("displayed", "non-displayed", "minimum quantity")[order.kind - 1] in kinds
            and (not least or order.size >= int(least[1])) and (not below or order.size < int(below[1])))


# The paragraph that an order stands in, and its turn in it; under pro rata for orders that share in turn.
def turn(order, algorithm):
    if algorithm == 1:
        return (2 if order.kind == 1 else 3), order.number
    if order.kind == 3:
        return 5, order.minimum, order.number
    if order.size >= 100:
        raise Wrong("an order that shares by lots")
    return (3 if order.kind == 1 else 6), -order.size, order.number
