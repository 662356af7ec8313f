"""The examples of docs/FORMAT.md: the documents in its blocks, and each edit of the first one with
its fault."""
import collections
import re

from words import text_at

UNSEEN = "In an editor"
# a span in back-ticks, as often as is said after it; or the name of the byte order mark
PIECE = re.compile(r"`([^`]*)`(?:×(\d+))?|(U\+FEFF)")
NUMBER = re.compile(r"- \*\*(\d+)(?:, ([a-z ]+))?\*\*: ")
# the text below each heading, by the heading
PARTS = re.split(r"^#+ (.*)\n", text_at("docs", "FORMAT.md"), flags=re.M)
SECTIONS = dict(zip(PARTS[1::2], PARTS[2::2]))
# A document, its fault on the page by number and by name or None, and whether a schema sees it
Example = collections.namedtuple("Example", "title text number name is_seen")


def blocks(heading):
    """The blocks of code below a heading, without their indentation."""
    found = re.findall(r"(?:^    .*\n)+", SECTIONS[heading], re.M)
    return [re.sub("^    ", "", it, flags=re.M) for it in found]


def pieces(text):
    found = PIECE.findall(text)
    return "".join("\ufeff" if mark else piece * int(times or 1) for piece, times, mark in found)


def edited(document, example):
    """The document after the edits, which are joined by `and`: each is `old` → `new`."""
    for edit in re.split(r"(?<=`) and (?=`)", example):
        old, new = map(pieces, edit.split(" → "))
        if not old or old not in document:
            raise ValueError(f"{old} stands in no document")
        document = document.replace(old, new, 1)
    return document


def faults():
    """The examples of faults in the page's order: those of each item that begins with a number."""
    for heading in ("What is refused", "Mistakes of form", UNSEEN):
        for item in re.split(r"^(?=- )", SECTIONS[heading], flags=re.M)[1:]:
            found, flat = NUMBER.match(item), " ".join(item.split("\n\n")[0].split())
            for edit in flat.split("Example: ")[1:] if found else ():
                edit, is_seen = edit.rstrip(" ."), heading != UNSEEN
                text = edited(first().decode(), edit).encode()
                yield Example(f"{heading}: {edit}", text, int(found[1]), found[2], is_seen)


def first():
    """The document that the edits are of."""
    return blocks("The format of documents")[0].encode()


def part_by_part():
    """The document that the page explains, and its answers."""
    *parts, answers = blocks("A document part by part")
    return "".join(parts).encode(), answers.encode()


def explained():
    """The document of which the page shows the lookups behind its answers, and what it shows."""
    return [it.encode() for it in blocks("Why a document is answered so")[:2]]
