"""A page of Markdown as headings, paragraphs, tables and blocks of code; and the numbers in it."""
import collections
import os
import re

# Lines are counted from 1. Code is given without its indentation.
Block = collections.namedtuple("Block", "kind line lines")

NUMBER = re.compile(r"\d{1,3}(?:,\d{3})+|\d+")


def read(path):
    with open(path, encoding="utf-8") as file:
        return file.read()


def blocks(text):
    found, fenced = [], False
    for line, words in enumerate(text.split("\n"), 1):
        if words.startswith("```"):
            fenced = not fenced
            found += [Block("code", line + 1, [])] if fenced else []
            continue
        kind = "code" if fenced or words.startswith("    ") else kind_of(words)
        words = words if fenced else words.removeprefix("    ")
        if fenced or found and found[-1].kind == kind not in ("gap", "heading"):
            found[-1].lines.append(words)
        elif kind == "code" and [block.kind for block in found[-2:]] == ["code", "gap"]:
            found.pop()
            found[-1].lines.extend(["", words])
        else:
            found.append(Block(kind, line, [words]))
    return [block for block in found if block.kind != "gap"]


def kind_of(words):
    return "gap" if not words else "heading" if words.startswith("#") else "table" if words.startswith("|") else "text"


def title(block):
    return block.lines[0].lstrip("# ")


def cells(row):
    return [cell.strip() for cell in row.strip("|").split(" |")]


def number(text):
    return int(text.replace(",", ""))


def figures(text):
    return [number(n) for n in NUMBER.findall(text)]


def codes(text):
    return re.findall(r"`([^`]+)`", text)


# Whether a link leads somewhere: to a file that is there and, if it names one, to a heading of it.
def leads(page, target):
    path, _, anchor = target.partition("#")
    file = os.path.join(os.path.dirname(page), path) if path else page
    if not os.path.exists(file):
        return False
    headings = [title(block) for block in blocks(read(file)) if block.kind == "heading"] if anchor else []
    return not anchor or anchor in [re.sub(r"[^\w -]", "", words).lower().replace(" ", "-") for words in headings]


def links(text):
    return re.findall(r"\]\(([^):]+)\)", text)
