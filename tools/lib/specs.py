"""Reads what the crates define: the definitions of specs/*.antt, the functions, types and constants
of src/*.rt, and which of them each names."""
import functools
import glob
import os
import re
from typing import NamedTuple

from words import ROOT, text_at

CRATES = os.path.join(ROOT, "crates")
NAME = r"[A-Za-z_][\w'\-?]*"
TOKEN = re.compile(rf"(?<![\w'.\-])((?:{NAME}\.)*{NAME}|◌?[^\w\s(){{}}\[\],;:.'\"]+◌?)")
IMPORT = re.compile(r"(?m)^ *(?:ghost )?use (\w+(?:\.\w+)*)(?:\.\{([^}]*)\}| as (\w+));? *$")
BEGIN = re.compile(r"^(?:abbrev|unfoldable|pub|mutual|infix[lr]?)\b")
HEAD = re.compile(rf"^\s*((?:abbrev |unfoldable |pub |record |data )+)({NAME}|◌\S+◌)")
MODULE = re.compile(r"^module _ .* where$")
MAKERS = re.compile(rf"^\s+({NAME}(?: {NAME})*) :")
MARKS = ("TheVariants", "TheInside", "TheOpen", "TheConstants")
RUST = re.compile(r"(?m)^(pub(?:\([^)]*\))? )?(struct|enum|trait|const) (\w+)")
FUNCTION = re.compile(r"(?m)^((?: *(?:///|#\[)[^\n]*\n)*)( *)(pub(?:\([^)]*\))? )?"
                      r'(?:const )?(?:extern "C" )?fn (\w+)')
RUST_USE = re.compile(r"(?m)^use ((?:crate|msg_\w+)(?:::\w+)*)::(?:(\w+)|\{([^}]*)\});")


class Item(NamedTuple):
    """One definition, with its comment. `names` are those by which others cite it, and `within` is
    the head of its module, which has parameters."""

    file: str
    line: int
    names: tuple
    comment: str
    text: str
    within: str = ""

    @property
    def crate(self):
        return self.file.split("/")[1]

    @property
    def is_rust(self):
        return self.file.endswith(".rt")


class Function(NamedTuple):
    """A function of src/. Its `contract` begins with its signature. It may have no body."""

    file: str
    line: int
    name: str
    is_public: bool
    comment: str
    contract: str
    body: str

    @property
    def is_export(self):
        """Whether it is a call for C."""
        return self.contract.startswith('pub extern "C"')


text_of = functools.lru_cache(None)(text_at)


def crates():
    """(name, what it stands on) of each crate of crates.txt, lowest first."""
    for line in text_of("crates.txt").splitlines():
        if line.strip() and not line.startswith("#"):
            head, _, on = line.partition(":")
            yield head.split()[0], on.split()


@functools.lru_cache(None)
def files(crate, part, ending):
    found = glob.glob(f"crates/{crate}/{part}/**/*{ending}", root_dir=ROOT, recursive=True)
    return tuple(sorted(found, key=os.path.split))


@functools.lru_cache(None)
def functions(path):
    """Those of a file of src/, in its order."""
    text = text_of(path)
    found, ours = list(FUNCTION.finditer(text)), []
    for one, end in zip(found, [*(it.start() for it in found[1:]), len(text)]):
        above, margin, public, name = one.groups()
        whole, body = text[one.start(2):end], ""
        begin = re.search(rf"(?m)^{margin}\{{|(?<=\)) (?:-> \S+ )?\{{$", whole)
        if begin:
            body = whole[begin.end():].split(f"\n{margin}}}")[0]
            whole = whole[:begin.start()]
        comment = "\n".join(it for it in above.split("\n") if it.lstrip().startswith("///"))
        line = text.count("\n", 0, one.start()) + 1
        ours.append(Function(path, line, name, public == "pub ", comment, whole, body))
    return tuple(ours)


def functions_of(crate):
    return [it for path in files(crate, "src", ".rt") for it in functions(path)]


def exports():
    """The calls for C, by name."""
    return {it.name: it for it in functions_of("msg_c") if it.is_export}


def edits(crate):
    """The must-fail edits of a crate, by name."""
    return {os.path.basename(path)[:-5]: path for path in files(crate, "must-fail", ".edit")}


def names_in(block):
    """The names that a block of a specification defines. Fields of records are none."""
    lines, found, in_data = block.split("\n"), [], False
    is_mutual = lines[0].endswith("mutual")
    for line in lines[1:] if is_mutual else lines:
        head, makers = HEAD.match(line), MAKERS.match(line)
        if head and (is_mutual or not line.startswith(" ")):
            found.append(head[2])
            in_data = "data " in head[1]
        elif makers and in_data:
            found += makers[1].split()
    return tuple(dict.fromkeys(found))


def blocks(lines):
    """(first line, comment, text) of each definition of a specification's lines."""
    comment, begun, held = [], None, []
    for at, line in enumerate(lines + ["-- end"], 1):
        flat = line.startswith("--")
        is_infix = len(held) == 1 and held[0].startswith("infix")
        if held and (flat or BEGIN.match(line)) and not is_infix:
            yield begun, comment, "\n".join(held).rstrip()
            comment, held = [], []
        if held:
            held.append(line)
        elif flat:
            comment = [] if line.startswith("-- ----") else comment + [line]
        elif BEGIN.match(line):
            begun, held = at - len(comment), [line]
        elif not line.strip():
            comment = []


def out_of_modules(lines):
    """(line, the head of its module) of each line, without the margin that a module has."""
    head = ""
    for line in lines:
        if line.strip() and not line.startswith(" "):
            head = line if MODULE.match(line) else ""
        yield ("", head) if line == head else (line[2:] if head else line, head)


@functools.lru_cache(None)
def definitions(path):
    """The definitions of one file of specs/, in its order."""
    lines = IMPORT.sub(lambda it: "\n" * it[0].count("\n"), text_of(path)).split("\n")
    flat, heads = zip(*out_of_modules(lines))
    found = ((at, names_in(text), "\n".join(comment), text, heads[at - 1])
             for at, comment, text in blocks(list(flat)))
    return tuple(Item(path, *it) for it in found if it[1])


def declared(path):
    """The names that a file of specs/ declares, at any margin."""
    heads = map(HEAD.match, text_of(path).split("\n"))
    return [it[2] for it in heads if it and it[1] != "pub " and it[2] != "mutual"]


def model_of(text, name):
    """What contracts see of a type: the ghost lines of its `impl Model`, where it has them."""
    found = re.search(rf"(?ms)^(impl(?:<[^>]*>)? Model for {name}\b[^\n]*\n)(.*?)^\}}", text)
    ghost = r"(?ms)^    ghost (?:Value|view|also_owns|invariant\w*) =.*?;\n"
    kept = re.findall(ghost, found[2]) if found else []
    return f"\n\n{found[1]}{''.join(kept)}}}" if kept else ""


def without_attributes(text):
    return "\n".join(it for it in text.split("\n") if not it.strip().startswith("#["))


@functools.lru_cache(None)
def rust_items(path):
    """The types, traits and constants of a file of src/, by their names, without attributes."""
    text, items = text_of(path), {}
    for found in RUST.finditer(text):
        before, whole, name = text[:found.start()], text[found.start():], found[3]
        is_short = found[2] == "const" or ";" in whole.split("\n")[0]
        end = re.search(r"(?m);\n|^\}\n" if is_short else r"(?m)^\}\n", whole).end()
        above = re.search(r"(?m)(?:^(?://|#\[).*\n)*\n*\Z", before)[0].strip("\n")
        body = without_attributes(whole[:end].rstrip()) + model_of(text, name)
        item = Item(path, before.count("\n") + 1, (name,), without_attributes(above), body)
        items.setdefault(name, item)
    return items


@functools.lru_cache(None)
def rust_type(crate, name):
    there = map(rust_items, files(crate, "src", ".rt"))
    return next((items[name] for items in there if name in items), None)


def rust_path(crate, parts):
    """The file of a module of src/."""
    names = ("/".join(parts), "/".join(parts + ["mod"]), "lib", "main")
    paths = [f"crates/{crate}/src/{it}.rt" for it in names]
    return next(it for it in paths if os.path.exists(f"{ROOT}/{it}"))


@functools.lru_cache(None)
def resolve(package, module, name):
    """The item of ours that a name of a module stands for; None if it is the kit's."""
    parts = module.split(".")
    path = f"crates/{package}/specs/{'/'.join(parts)}.antt"
    if parts[0] == "declared" and os.path.isdir(f"{CRATES}/{package}"):
        marks = [it for it in parts if it in MARKS]
        *plain, last = [it for it in parts[1:] if it not in MARKS]
        if marks == ["TheConstants"]:
            return rust_items(rust_path(package, [*plain, last])).get(name)
        return rust_items(rust_path(package, plain)).get(last) or rust_type(package, last)
    there = definitions(path) if os.path.exists(f"{ROOT}/{path}") else ()
    return next((it for it in there if name in it.names), None)


@functools.lru_cache(None)
def scope(path):
    """(package, module, name) of each name that a file imports, and the same of each alias."""
    known, aliases = {}, {}
    for where, names, alias in IMPORT.findall(text_of(path)):
        package, *rest = where.removeprefix("Rattle.").split(".")
        module = ".".join(rest[1:] if rest[:1] == ["specs"] else rest)
        if alias:
            aliases[alias] = (package, module)
        for item in filter(None, (it.strip() for it in names.split(","))):
            was, _, now = item.partition(" as ")
            known[now or was] = (package, module, was)
    return known, aliases


@functools.lru_cache(None)
def rust_scope(path):
    """The types of ours that a file of src/ uses: (crate, name)."""
    crate, known = path.split("/")[1], {}
    for where, one, several in RUST_USE.findall(text_of(path)):
        package = where.split("::")[0]
        for name in filter(None, (it.strip() for it in (one or several).split(","))):
            known[name] = (crate if package == "crate" else package, name)
    return known


def named_in(item):
    """(items of ours, names of the kit) that a definition cites."""
    plain = re.sub(r"--[^\n]*|//[^\n]*|\"[^\"]*\"", " ", f"{item.within} {item.text}")
    known, aliases = scope(item.file)
    types = rust_scope(item.file) if item.is_rust else {}
    ours, kit = [], []
    for token in dict.fromkeys(TOKEN.findall(plain)):
        is_word = token[0].isalpha() or token[0] == "_"
        head, *rest = token.split(".") if is_word else [f"◌{token}◌"]
        place = (*aliases[head], rest[0]) if head in aliases and rest else known.get(head)
        found = resolve(*place) if place else None
        if not found and item.is_rust:
            crate, name = types.get(head, (item.crate, head))
            found = rust_type(crate, name) if head[:1].isupper() else None
        elif not place:
            found = next((it for it in definitions(item.file) if head in it.names), None)
        if found:
            ours.append(found)
        elif place:
            kit.append(place)
    return ours, kit
