"""Reads include/msg_runtime.h and msg_process.h: their calls, structures and constants, and what
their comments say of them."""
import collections
import re

from words import ROOT, text_at

HEADER = f"{ROOT}/include/msg_runtime.h"
PROCESS = f"{ROOT}/include/msg_process.h"
COMMENT = re.compile(r"/\*.*?\*/", re.S)
CALL = re.compile(r"^(static inline )?(?:__attribute__\(\(\w+\)\) )?"
                  r"((?:const )?\w+ \**)(msg_\w+)\(([^)]*)\)", re.M)
STRUCTURE = re.compile(r"typedef struct \{([^}]*)\} (\w+);|^struct (\w+) \{([^}]*)\};", re.M)
CONSTANT = re.compile(r"(\w+) = (\d+)\b")
# `parameters` are pairs of a type and a name; an array has the `count` of its brackets
Call = collections.namedtuple("Call", "name result parameters is_inline")
Field = collections.namedtuple("Field", "name type count")


def text_of(path=HEADER):
    return text_at(path)


def code(text):
    """The header's text without comments."""
    return COMMENT.sub(" ", text)


def parameter(words):
    found = re.fullmatch(r"\s*(.*?)(\w+)\s*", words, re.S)
    return " ".join(found[1].split()), found[2]


def call_of(found):
    inline, result, name, parameters = found.groups()
    each = () if parameters.strip() in ("", "void") else parameters.split(",")
    return Call(name, result.strip(), tuple(map(parameter, each)), bool(inline))


def calls(text):
    return [call_of(it) for it in CALL.finditer(code(text))]


def fields_of(body):
    for line in filter(str.strip, body.split(";")):
        kind, names = re.fullmatch(r"\s*((?:const )?\w+ \**)(.*)", line, re.S).groups()
        for name in names.split(","):
            found = re.fullmatch(r"\s*(\w+)(?:\[(\w+)\])?\s*", name)
            yield Field(found[1], kind.strip(), found[2])


def structures(text):
    """The fields of each structure, by its name."""
    found = STRUCTURE.findall(code(text))
    return {one or other: list(fields_of(inner or body)) for inner, one, other, body in found}


def enumerations(text):
    """The numbers of each."""
    bodies = re.findall(r"\benum \{([^}]*)\}", code(text))
    return [{name: int(value) for name, value in CONSTANT.findall(body)} for body in bodies]


def constants(text):
    """The numbers of all enumerations."""
    return {name: value for it in enumerations(text) for name, value in it.items()}


def version(text):
    """As a face's manifest spells it."""
    return ".".join(re.findall(r"^#define MSG_VERSION_(?:MAJOR|MINOR|PATCH) (\d+)$", text, re.M))


def said_of(text):
    """Of each constant the comment that stands behind it in its line."""
    return dict(re.findall(r"^[ ]*(MSG_\w+) = \d+,?[ ]*/\* (.*?) \*/", text, re.M))


def groups(text):
    """The header in its order. A group that has calls begins with ('title', words, more). What one
    comment says of the calls behind it is ('calls', words, calls)."""
    parts, title = re.split(r"(/\*.*?\*/)", text, flags=re.S), None
    for comment, behind in zip(parts[1::2], parts[2::2]):
        words = re.sub(r"(?m)^[ \t]*\**[ \t]*|[ \t]+$", "", comment[2:-2]).strip()
        if words.startswith("----"):
            head, _, more = words[4:].partition("----")
            title, words = ("title", head.strip(), more.strip()), ""
        found = [call_of(it) for it in CALL.finditer(behind)]
        if found and title:
            yield title
            title = None
        if found:
            yield "calls", words, found


def parted(words):
    """What a call's comment says: what it does, its faults, and its cost."""
    found = re.fullmatch(r"(.*?)(?:\bFaults: (.*?))?(?:\bCost: (.*))?", words, re.S)
    return [(it or "").strip() for it in found.groups()]


def faults_of(text):
    """The faults that the comments give each call; by `those of` another call that one's, too."""
    found = {}
    for words, behind in ((words, them) for kind, words, them in groups(text) if kind == "calls"):
        said = parted(words)[1]
        names = set(re.findall(r"\bMSG_[A-Z_]+\b", said))
        names.update(*(found[it] for it in re.findall(r"\bthose\s+of\s+(\w+)", said)))
        found.update({it.name: names for it in behind})
    return found
