"""What tests in Python share: they run programs, and tell what is as expected."""
import os
import subprocess

# what whoever runs the tests has chosen of Yeldrost isn't used
ENVIRONMENT = os.environ | {"YELDROST_STANDIN": "quiet"}
for chosen in ("DESTDIR", "YELDROST_LIBRARY", "YELDROST_LIB_DIR"):
    ENVIRONMENT.pop(chosen, None)
otherwise = []  # titles of what isn't as expected


def run(words, **how):
    """A run. Its `stdout` has what it writes to both of its outputs."""
    outputs = {"stdout": subprocess.PIPE, "stderr": subprocess.STDOUT}
    return subprocess.run(words, text=True, check=False, **{"env": ENVIRONMENT, **outputs, **how})


def check(title, holds, said=""):
    print(f"{title}: as expected" if holds else f"{title}: otherwise\n{said}", flush=True)
    if not holds:
        otherwise.append(title)
    return holds


def passes(title, words, wanted=None, **how):
    """Whether a run ends well, and writes what is wanted."""
    ended = run(words, **how)
    holds = ended.returncode == 0 and wanted in (None, ended.stdout)
    return check(title, holds, f"status {ended.returncode}\n{ended.stdout}")


def builds(title, words, program, printed, **how):
    """Whether a program is built by the words, and prints what is wanted."""
    is_built = passes(f"{title}, built", [*words, "-o", program], **how)
    return is_built and passes(title, [program], printed, **how)


def chosen_library(given):
    """What tools/build/install is told of the library, by the words of a test."""
    archive = ["--archive", os.path.abspath(given.archive)] if given.archive else []
    return ["--stand-in"] if given.stand_in else archive


def config(environment, *words):
    return run(["pkg-config", *words], env=environment).stdout.split()


def compare(what, cases):
    """Tells which (title, wanted, found) differ, and how many don't. It returns the status."""
    wrong = [f"{it[0]}: wants {it[1]}, and has {it[2]}" for it in cases if it[1] != it[2]]
    print(*wrong, f"{what}: {len(cases) - len(wrong)} of {len(cases)} as expected", sep="\n")
    return 1 if wrong else 0
