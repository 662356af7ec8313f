#!/usr/bin/env python3
"""Makes the copies of the C that checks run: `copies.py steps ROOT INTO`, `copies.py small ROOT
INTO`.

steps: trusted/process/msg_process.c, include/*.h and trusted/objc/seat.h, step by step. One place
takes all keys, so that they meet. A STEP() stands before each statement on what a handler of a
signal reads or writes, and each atomic load or store. Plain loads of a note are loads one by one.
small: trusted/objc/*.c and *.h with small tables, in which all names meet.

What is replaced stands in steps.edit and small.edit. Each old text has to be there once, or the
script fails: so a changed source isn't checked as the old one was."""
import pathlib
import re
import sys

what, root, out = sys.argv[1], *map(pathlib.Path, sys.argv[2:4])
out.mkdir(parents=True, exist_ok=True)
EDIT = pathlib.Path(__file__).with_name(f"{what}.edit").read_text()
unseen = set(re.findall(r"(?m)^file: (.*)", EDIT))
SHARED = "holds tried kept own seats stay stays_on is_away is_over msg_process_own"
SHARED = re.compile(rf"\b(?:{'|'.join(SHARED.split())})\b")
ATOMIC = re.compile(r"__atomic_store_n\(|__atomic_load_n\(&msg_process_own")
NO_STATEMENT = ("}", "else", "//", "/*", "* ", "case", "#", "static ", "_Alignas")


def swap(file, text):
    """The text of a file after the replacements that the edit has for it."""
    unseen.discard(file)
    rows = EDIT.partition(f"file: {file}\n")[2].partition("file: ")[0]
    for pair in re.findall(r"(?m)((?:^old: .*\n)+)((?:^new:.*\n)+)", rows):
        old, new = ("\n".join(line[5:] for line in it.splitlines()) for it in pair)
        assert text.count(old) == 1, (file, text.count(old), old)
        text = text.replace(old, new)
    return text


def is_shared(code):
    return SHARED.search(code) and not ATOMIC.search(code)


def control_of(code):
    """What a line begins with that decides whether its statement is taken: its length."""
    place = 0
    while word := re.compile(r"(\} |else )|(if|for|while) \(").match(code, place):
        place = word.end()
        depth = 1 if word[2] else 0
        while depth and place < len(code):
            depth += {"(": 1, ")": -1}.get(code[place], 0)
            place += 1
        while code[place:place + 1] == " ":
            place += 1
    return place


def guarded(code):
    """The same line, with a STEP() before each statement that a condition on it guards."""
    place = control_of(code)
    head, body = code[:place], code[place:]
    if not place or not body.endswith(";"):
        return code
    done = []
    for statement in body[:-1].split("; else "):
        inner = guarded(f"{statement};")
        step = inner == f"{statement};" and is_shared(statement)
        done.append(f"{{ STEP(); {statement}; }}" if step else inner)
    return head + " else ".join(done)


def steps(text):
    """A STEP() at the begin of each statement of a body, also of one that a condition guards."""
    depth, done, control = 0, [], False
    for line in text.split("\n"):
        code = line.strip()
        begins_one = code and not code.startswith((*NO_STATEMENT, *"|&?:"))
        is_step = depth > 0 and begins_one and is_shared(code)
        if is_step and control:
            assert code.endswith(";"), line
            line = line.replace(code, f"{{ STEP(); {code} }}")
        elif depth > 0:
            line = line.replace(code, guarded(code)) if code else line
            line = re.sub(r"^(\s*)", r"\1STEP(); ", line, count=1) if is_step else line
        done.append(line)
        # a control line without a brace: its statement comes on the next line
        control = re.match(r"(\} )?(if|for|while|else)\b", code) and code[-1] not in "{;"
        depth += code.count("{") - code.count("}")
    return "\n".join(done)


def notes(seat):
    """The functions of seat.h that load notes, by a key."""
    end = seat.index("#endif\n", seat.index("shim_note(Class"))
    text = seat[seat.index("static inline uint64_t shim_said_in("):end]
    key = "    uint64_t key = __atomic_load_n(&class_->key, __ATOMIC_ACQUIRE) + sel->name.key;\n"
    for old, new in ((key, ""), (" __attribute__((unused)) =", " ="),
                     ("Class class_, SEL sel", "uint64_t key"), ("class_, sel", "key")):
        text = text.replace(old, new)
    text = re.sub(r"(?s)    MSG_TEST\(.*?;.*?\n", "", text)
    return re.sub(r"(?s)#ifdef __x86_64__.*?#else\n(.*?)#endif\n", r"\1", text)


def copy_steps():
    for file in ("include/msg_runtime.h", "include/msg_process.h", "trusted/process/memory.h",
                 "trusted/process/msg_process.c"):
        text = (root / file).read_text()
        text = swap(file, text if file.startswith("include") else text.replace("__thread ", ""))
        # the first function that takes steps, where there is one
        head, first, body = text.partition("static inline uint32_t take(")
        (out / pathlib.Path(file).name).write_text(head + steps(first + body))
    made = swap("trusted/objc/seat.h", notes((root / "trusted/objc/seat.h").read_text()))
    assert "asm" not in made and "class_" not in made and "note->imp" not in made, made
    (out / "shim_note.h").write_text(made)


def copy_small():
    for folder in ("trusted/objc", "trusted/objc/tests", "include"):
        for path in (root / folder).glob("*.[ch]"):
            (out / path.name).write_text(swap(f"{folder}/{path.name}", path.read_text()))


{"steps": copy_steps, "small": copy_small}[what]()
assert not unseen, unseen
