"""What the pages are held to: the header's constants, the library's calls and the programs; and their answers as the pages write them."""
import collections
import functools
import os
import re
import subprocess

from pages.markdown import number, read

HEADER, ARCHIVE = "include/ruhvasto.h", "target/staticlib/libruhvasto.a"
FILLSHEET, CONVERT = "target/bin/fillsheet", "target/bin/convert"
CALLS = ["check", "find", "add", "reduce", "take", "ladder", "to_new", "to_old"]
FORMS = ["add", "reduce", "take"]  # the calls that also have a form with a ladder
SIDES = {"buy": 1, "sell": 2}
KINDS = {"D": 1, "H": 2, "M": 3, "R": 4}
ORDER = re.compile(r"(?:(buy|sell) )?([DHMR]) ([\d,]+)(?:\+([\d,]+))?(?:/([\d,]+))?(?: at (\d+))?(?: of security (\d))?$")
RECORD, OLD_RECORD = 40, 32  # bytes
TAKE = re.compile(r"(buy|sell) ([\d,]+)(?: at (\d+))?(?: of security (\d))?, algorithms? (\d)(?: and (\d))?$")

Order = collections.namedtuple("Order", "side kind number price size minimum setter hidden refresh security")
Execution = collections.namedtuple("Execution", "number price shares paragraph")
Row = collections.namedtuple("Row", "side price displayed other orders")
Take = collections.namedtuple("Take", "side limit size algorithm security", defaults=[0])


class Wrong(Exception):
    """What can't be read, or done."""


# The constants of the header, its refusals, and those that it says of each call.
class Header:
    def __init__(self):
        text = read(HEADER)
        self.flat = " ".join(text.split())
        self.constants = {name: int(value) for name, value in re.findall(r"RUHVASTO_(\w+)(?: =)? (\d+)\b", text)}
        listed = re.search(r"/\* Refusal numbers, [^\n]* \*/\nenum \{(.*?)\n\};", text, re.S)[1]
        self.refusals = [(int(value), name) for name, value in re.findall(r"(RUHVASTO_\w+) = (\d+)", listed)]
        numbers = {name: value for value, name in self.refusals}
        said = re.findall(r"Refusals: ((?:RUHVASTO_\w+[, *]*)+)\. \*/[^;]*?\bruhvasto_(\w+)\([^;]*;", self.flat)
        self.of_call = {call: [numbers[name] for name in re.findall(r"\w+", names)] for names, call in said}

    def __getitem__(self, name):
        return self.constants[name]


def compile_c(source, program):
    words = ["cc", "-std=c99", "-Wall", "-Wextra", "-Werror", "-Iinclude", source, ARCHIVE, "-o", program]
    if (compiled := subprocess.run(words, capture_output=True, text=True)).returncode:
        raise Wrong(f"it doesn't compile:\n{compiled.stderr}")


# The library, through a program that makes the calls it is told.
class Library:
    def __init__(self, folder):
        program = os.path.join(folder, "documents")
        compile_c(".ci/documents.c", program)
        self.process = subprocess.Popen([program], stdin=subprocess.PIPE, stdout=subprocess.PIPE, text=True)

    # The numbers that a call returns, and book and executions afterwards.
    def call(self, name, book, *numbers, executions=b""):
        return self.keep(name, book, b"", *numbers, executions=executions)[:3]

    # The same of a call with a ladder, and the ladder afterwards.
    def keep(self, name, book, ladder, *numbers, executions=b""):
        if max(numbers, default=0) > 4294967295:
            raise Wrong(f"a number of more than four bytes: {numbers}")
        buffers = " ".join(f"x{buffer.hex()}" for buffer in (book, executions, ladder))
        self.process.stdin.write(f"{name} {buffers} {' '.join(map(str, numbers))}\n")
        self.process.stdin.flush()
        *answer, book, executions, ladder = self.process.stdout.readline().split()
        return tuple(map(int, answer)), *(bytes.fromhex(buffer[1:]) for buffer in (book, executions, ladder))

    # The refusal number of a conversion into a target of so many bytes, which have this value before; and the target afterwards.
    def convert(self, name, source, length, before=238):
        (refusal,), after, target = self.call(name, source, executions=bytes([before] * length))
        if after != source:
            raise Wrong(f"{name} changed its source")
        return refusal, target

    # The ladder that a new call makes of a security of a book, whatever stood in it.
    @functools.lru_cache(maxsize=None)
    def ladder(self, book, security=0):
        (refusal,), _, _, ladder = self.keep("ladder", book, bytes([255] * 6144), security)
        if refusal:
            raise Wrong(f"the ladder is refused {refusal}")
        return ladder

    # A book made by adding orders: 'D 600, buy M 500/400 at 99900, R 100+250/100 of security 1', with '4 records, ' in front where it has
    # room for more.
    @functools.lru_cache(maxsize=None)
    def book(self, said):
        room = re.match(r"(\d+) records, ", said)
        said = said[room.end():] if room else said
        words = [] if said == "empty" else said.split(", ")
        book = bytes(RECORD * (int(room[1]) if room else len(words)))
        for place, word in enumerate(words, 1):
            (refusal,), book, _ = self.call("add", book, *request(word, place))
            if refusal:
                raise Wrong(f"refused {refusal}: {word}")
        return book

    # A take from a book that has room for all its executions: what each order gets, the executions, what is left, the book afterwards.
    def take(self, book, take):
        (refusal, count, left), after, buffer = self.call("take", book, *take, executions=bytes(8192))
        if refusal:
            raise Wrong(f"the take is refused {refusal}")
        executions, gets = executions_in(count, buffer), collections.Counter()
        for e in executions:
            gets[e.number] += e.shares
        return gets, executions, left, after


# What add is given for an order as the pages write it, with this number.
def request(word, place):
    match = ORDER.match(word)
    if not match or (bool(match[4]), bool(match[5])) != (match[2] == "R", match[2] in "MR"):
        raise Wrong(f"no order: {word}")
    size, hidden, behind = (number(words or "0") for words in match.group(3, 4, 5))
    minimum, refresh = (behind, 0) if match[2] == "M" else (0, behind)
    return SIDES[match[1] or "sell"], KINDS[match[2]], place, int(match[6] or 100000), size, minimum, hidden, refresh, int(match[7] or 0)


# Takes as the pages write them, one for each algorithm: 'buy 220 at 100000 of security 1, algorithms 1 and 2'.
def takes_in(said):
    match = TAKE.match(said)
    if not match:
        raise Wrong(f"no take: {said}")
    order = SIDES[match[1]], int(match[3] or 100000), number(match[2])
    return [Take(*order, int(a), int(match[4] or 0)) for a in match.groups()[4:] if a]


def fillsheet(lines):
    return list(printed_of("".join(line + "\n" for line in lines)))


@functools.lru_cache(maxsize=None)
def printed_of(sheet):
    return subprocess.run([FILLSHEET], input=sheet, check=True, capture_output=True, text=True).stdout.splitlines()


# What convert writes of a book.
@functools.lru_cache(maxsize=None)
def converted(book):
    return subprocess.run([CONVERT], input=book, check=True, capture_output=True).stdout


# The records of a book in the other form, as a conversion has to write them, with zeros up to a length.
def turned(book, name, length):
    width, mark, more = (OLD_RECORD, b"\x4f\x43", RECORD - OLD_RECORD) if name == "to_new" else (RECORD, b"\x4f\x42", 0)
    records = [mark + book[at + 2:at + OLD_RECORD] + bytes(more) for at in range(0, len(book), width) if book[at]]
    return b"".join(records).ljust(length, b"\0")


# A book in the old form, with as many records.
def in_old_form(book):
    return turned(book, "to_old", len(book) // RECORD * OLD_RECORD)


# A buffer as the pages say that it is lent: zeros, or a book, in the old form or not, perhaps with a byte changed.
def lent_book(said, book):
    if match := re.match(r"(\d+) zeros$", said):
        return bytes(int(match[1]))
    match = re.match(r"the book( in the old form)?(?:, byte (\d+) = (\w\w) hex)?$", said)
    data = bytearray(in_old_form(book) if match[1] else book)
    if match[2]:
        if data[int(match[2])] == int(match[3], 16):
            raise Wrong(f"no change: {said}")
        data[int(match[2])] = int(match[3], 16)
    return bytes(data)


# The longest sheet that fillsheet looks at, if that is so many line feeds: of one more it prints one line, not one for each.
@functools.lru_cache(maxsize=None)
def is_longest_sheet(feeds):
    return len(fillsheet([""] * feeds)) == feeds and len(fillsheet([""] * (feeds + 1))) == 1


# A book and a take as a sheet.
def sheet_of(book, take):
    letters = {1: "B", 2: "S"}
    adds = [f"{letters[o.side]} {o.number} {letter(o.kind)} {o.price} {o.size} {o.minimum}" for o in orders_in(book)]
    return [f"A {take.algorithm}", *adds, f"T {letters[take.side]} {take.limit} {take.size}"]


def numbers_at(data, places):
    return [int.from_bytes(data[at:at + 4], "little") for at in places]


# The orders of a book; of an old one, with records of another width, nothing is hidden.
def orders_in(book, width=RECORD):
    records = (book[at:at + width] for at in range(0, len(book), width))
    return [Order(r[2], r[3], *numbers_at(r, (4, 8, 12, 16)), r[20], *numbers_at(r, (32, 36)), r[21]) for r in records if r[0]]


def executions_in(count, buffer):
    found = (buffer[at:at + 16] for at in range(0, 16 * count, 16))
    return [Execution(*numbers_at(e, (4, 8, 12)), e[2]) for e in found]


# The rows of a ladder, up to the first whose first byte is zero. All behind them must be zeros.
def rows_in(ladder):
    rows = [ladder[at:at + 24] for at in range(0, len(ladder), 24)]
    used = next((place for place, row in enumerate(rows) if not row[0]), len(rows))
    if any(ladder[24 * used:]):
        raise Wrong("bytes behind the rows")
    return [Row(r[2], *numbers_at(r, (4, 8, 12)), int.from_bytes(r[16:18], "little")) for r in rows[:used]]


def letter(kind):
    return next(name for name, value in KINDS.items() if value == kind)


# Orders as the tables have them: number, kind, and size; of kind 3 the minimum, of kind 4 the hidden shares and the refresh size; and the
# security, where it isn't 0.
def listed(orders):
    behind = {3: "/{0.minimum:,}", 4: "+{0.hidden:,}/{0.refresh:,}"}
    of = lambda o: behind.get(o.kind, "").format(o) + (f" of security {o.security}" if o.security else "")
    return ", ".join(f"{o.number} {letter(o.kind)} {o.size:,}{of(o)}" for o in orders) or "none"


def traded(executions):
    return ", ".join(f"{e.shares:,} of {e.number} at {e.price} by paragraph {e.paragraph}" for e in executions) or "none"


# The rows of a ladder as the tables have them: side, price, displayed shares, other shares, orders.
def totals(rows):
    return ", ".join(" ".join(map(str, row)) for row in rows) or "none"


def answer(numbers):
    return "`{" + ", ".join(map(str, numbers)) + "}`"


# Bytes as a dump has them, so many to a line, with a remark behind some lines.
def dump(data, remarks, width):
    for at in range(0, len(data), width):
        row = data[at:at + width]
        words = "  ".join(row[i:i + 4].hex(" ") for i in range(0, width, 4))
        text = "".join(chr(b) if 32 <= b < 127 else "." for b in row)
        yield f"{at:04x}:  {words}   |{text}|   {remarks.get(at, '')}".rstrip()
