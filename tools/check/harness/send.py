#!/usr/bin/env python3
"""Checks that a compiled send loads its notes in the order of trusted/objc/seat.h: `send.py ROOT
FLAGS..` compiles ROOT/trusted/objc/sending.c for x86-64.

Each inline copy of the assembly has to be just the lines of WAY, one after the other and with no
label in between. objc_msg_lookup has to have one, and no fourth operand of that form. Of the second
note, which find_from asks, the compiler has to make SECOND."""
import re
import subprocess
import sys

PROBE = """#include "sending.c"
#define AT(field) "i"(offsetof(msg_sender, notes) + offsetof(msg_note, field))
void cv_places(void) { __asm__("# places %c0 %c1 %c2" : : AT(stamp), AT(count), AT(seal)); }
"""
WAY = r"""movq STAMP\((%\w+),(%\w+),4\), (%\w+)
(?:addq|movq) msg_process_words\(%rip\), %\w+
movq \([^)]*\3[^)]*\), (%\w+)
cmpq \4, COUNT\(\1,\2,4\)
j[bc] .*
subq SEAL\(\1,\2,4\), %\w+
"""
SECOND = r"""movq (\d+)\((%\w+)\), (%\w+)
movq \([^)]*\3[^)]*\), (%\w+)
cmpq \4, (\d+)\(\2\)
j[bc] .*
movq (\d*)\(\2\), %\w+
"""
root, flags = sys.argv[1], sys.argv[2:]
words = ["cc", "-std=c11", "-O2", "-D_DEFAULT_SOURCE", "-D_GNU_SOURCE", "-w", *flags]
words += [f"-I{root}/include", f"-I{root}/trusted/objc", "-x", "c", "-S", "-o", "-", "-"]
made = subprocess.run(words, input=PROBE, text=True, stdout=subprocess.PIPE, check=True).stdout
places = re.search(r"places (\d+) (\d+) (\d+)", made).groups()
places = dict(zip(("STAMP", "COUNT", "SEAL"), places))
blocks = len(re.findall(r"(?m)^\s*#APP$", made)) - 1  # without the probe's own
code = re.sub(r"(?m)#.*|^\s*\.(?!L).*|\{disp32\}", "", made)
code = re.sub(r"\s*\n\s*", "\n", re.sub(r"[ \t]+", " ", code))
way = re.compile(re.sub("STAMP|COUNT|SEAL", lambda it: places[it[0]], WAY))
copies = len(way.findall(code))


def body(name):
    return re.search(rf"(?s)\n{name}:\n.*?\n(?=[a-z_]\w*:)", code)[0]


send = body("objc_msg_lookup")
loads = re.findall(r"\d*\(%\w+,%\w+,4\)", send)
if not way.search(send) or len(loads) != 3 or blocks != 3 * copies:
    sys.exit(f"{send}objc_msg_lookup loads of a note: {' '.join(loads)}\n"
             f"blocks of assembly: {blocks}, copies of the way: {copies}")
second = re.search(SECOND, body("find_from"))
loads = [int(second[it] or 0) for it in (1, 5, 6)] if second else []
wanted = [int(places[it]) for it in ("STAMP", "COUNT", "SEAL")]
if [it - loads[2] for it in loads] != [it - wanted[2] for it in wanted]:
    sys.exit(f"{body('find_from')}its loads of the second note aren't stamp, count, seal")
print(f"ALL RIGHT: {copies} copies")
