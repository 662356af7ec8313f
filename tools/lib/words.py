"""How the tools in Python read their words. --help prints the tool's page and starts nothing. A
wrong word is refused in one line, with status 2."""
import argparse
import importlib.util
import os
import pathlib
import sys
from importlib.machinery import SourceFileLoader

ROOT = os.path.abspath(f"{__file__}/../../..")


def text_at(*path, errors="strict"):
    """The text of a file, by its path below the repository's root or by its whole path."""
    return pathlib.Path(ROOT, *path).read_text("utf-8", errors)


def bytes_at(*path):
    return pathlib.Path(ROOT, *path).read_bytes()


def write_at(what, *path):
    """Writes a text, or bytes."""
    pathlib.Path(ROOT, *path).write_bytes(what.encode() if isinstance(what, str) else what)


def module_of(tool):
    """A tool, such as test/fuzz, as a module."""
    loader = SourceFileLoader(os.path.basename(tool), f"{ROOT}/tools/{tool}")
    found = importlib.util.module_from_spec(importlib.util.spec_from_loader(loader.name, loader))
    sys.dont_write_bytecode = True
    loader.exec_module(found)
    return found


def told(faults):
    """Writes each fault in a line to standard error. It returns the status: 1 if there is one."""
    print("".join(fault + "\n" for fault in faults), file=sys.stderr, end="")
    return 1 if faults else 0


def write_or_check(tool, made, is_check, faults=()):
    """Writes the files that a tool makes, or tells what isn't so. It returns the status."""
    faults = list(faults)
    for path, new in made.items():
        if not is_check:
            write_at(new, path)
        elif not os.path.exists(f"{ROOT}/{path}") or text_at(path) != new:
            faults.append(f"{path}: not what the sources say: run {tool}, and commit it")
    return told(faults)


class Words(argparse.ArgumentParser):
    """Takes the words that are added to it; --help prints `page`, the tool's own docstring."""

    def __init__(self, page):
        name, form = os.path.relpath(sys.argv[0], ROOT), argparse.RawDescriptionHelpFormatter
        super().__init__(prog=name, add_help=False, allow_abbrev=False, formatter_class=form)
        self.add_argument("--help", action="version", version=page)

    def read(self, *places, **options):
        """What the words say. An option has the type of its default. It is a flag if that is False,
        and one of some words if it is a tuple. A place is a name, or a pair of a name and its
        default; `name*` takes any number of words."""
        for name, default in options.items():
            how = {"default": default, "type": str if default is None else type(default)}
            if isinstance(default, tuple):
                how = {"choices": default}
            elif default is False:
                how = {"action": "store_true"}
            self.add_argument("--" + name.replace("_", "-"), **how)
        for place in places:
            name, *default = (place,) if isinstance(place, str) else place
            how = {"nargs": "?", "default": default[0]} if default else {}
            how |= {"nargs": "*"} if name.endswith("*") else {}
            self.add_argument(name.rstrip("*"), **how)
        return self.parse_args()

    def want_built(self, program, how):
        if not os.access(program, os.X_OK):
            self.error(f"{program} isn't there: {how}")

    def error(self, message):
        print(f"{self.prog}: {message} ({self.prog} --help)", file=sys.stderr)
        sys.exit(2)
