"""What the measuring tools share: programs over the library, instructions as valgrind's callgrind
counts them, and the Debian packages that a tool needs."""
import os
import re
import shutil
import subprocess
import sys

from words import ROOT

ARCHIVE = os.path.join(ROOT, "crates", "msg_c", "out", "libmsg_c.a")
CALLGRIND = ("valgrind", "--tool=callgrind", "--callgrind-out-file=/dev/null")


def said(words):
    return subprocess.run(words, capture_output=True, text=True, check=True).stdout


def row(*cells):
    print("|", " | ".join(map(str, cells)), "|", flush=True)


def table(*head):
    row(*head)
    print("|" + "---|" * len(head), flush=True)


def has_valgrind():
    return shutil.which("valgrind") is not None


def collected(words, **how):
    """How many instructions a program takes; `how` is of subprocess.run."""
    how = {"stdout": subprocess.DEVNULL, "check": True, **how, "stderr": subprocess.PIPE}
    told = subprocess.run([*CALLGRIND, *words], **how).stderr
    return int(re.search(rb"Collected *: (\d+)", told)[1])


def instructions(words_of, fewer, more):
    """How many one step takes, with its loop: of a run of `more` less one of `fewer`."""
    return (collected(words_of(more)) - collected(words_of(fewer))) / (more - fewer)


def shim(folder, given, *more):
    """What a program is linked with in place of -lobjc; it is built in the folder."""
    over = ["--archive", given.archive] if given.archive else []
    over = ["--standin"] if given.standin else over
    words = [f"{ROOT}/tools/test/objc", "--link", folder, *more, *over]
    return subprocess.run(words, stdout=subprocess.PIPE, text=True, check=True).stdout.split()


def lack(packages):
    """A line where some of Debian's packages aren't installed, or nothing."""
    asked = {name: subprocess.run(["dpkg", "-s", name], capture_output=True) for name in packages}
    names = " ".join(name for name, it in asked.items() if it.returncode)
    return f"not installed: apt-get install {names} (Debian 12)" if names else ""


def need(packages):
    """Ends with a line where some aren't installed."""
    line = lack(packages)
    if line:
        sys.exit(line)
