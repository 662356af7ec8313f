"""What tools/test/gnustep asks of Debian's programs for GNUstep, over libobjc and over the shim:
what they print and write, their times, and bundles that are loaded beside threads that send."""
import bz2
import difflib
import glob
import gzip
import lzma
import os
import plistlib
import re
import shutil
import statistics
import subprocess
import sys
import tarfile
import zipfile

import gnustep
import measure
from words import bytes_at, text_at, write_at

BUNDLES = 12
# The aims are 1.0 of the time, of which a twentieth is noise, and 1.1 of the instructions.
MOST_TIMED = {"seconds": 1.05, "instructions": 1.1}
# those of the table of whole programs
MOST = {"instructions": 0.9, "resident": 1.1}
UNITS = {"seconds": 1, "instructions": 1e6, "resident": 1024}
LONG = ("NSRegularExpression/basic", "PropertyLists/test01", "NSJSONSerialization/tests00",
        "NSLock/tryLock", "GSMime/general", "NSURLConnection/test03")
ROUNDS = (2, 4)
SERVER = ("sogo", "postgresql", "memcached")
RUNS = ("plmerge new.plist plain.plist large.plist", "gspath path", "defaults domains",
        "plparse plain.plist", "xmlparse page.xml", "lsar one.zip", "sogo-tool", "gdnc --no-fork")
TIMED = 'TIMEFORMAT="processors %U %S"; time "$@" > /dev/null 2>&1'
MEANT = {"name": "plain", "count": 17, "half": 0.5, "on": True, "bytes": b"\0\1\2",
         "list": ["one", {"two": 2}, ["three"]]}
# The commands of each case, by its name; they are run in a copy of the folder of inputs.
CASES = dict(it.split("\n", 1) for it in text_at(gnustep.OWN, "cases").split("== ")[1:])
# Where libobjc is wrong: what ours must tell.
UNTOLD = ("libobjc never initializes the class that reads property lists, since a +load replaces a "
          "method of it before its first message: plutil reads none")
PAGE = "the page's twenty lines"
BETTER = {"plutil": UNTOLD, "plutil, wrong": UNTOLD,
          PAGE: "as plutil's: the class is initialized once"}
TELLS = {PAGE: "read 2, initialized 1 times"}
TELLING = """{ %s
} 2>&1
echo "ended with $?"
find . -type f -newer .begun | sort | while read -r file; do
    echo "wrote $file"; cat "$file"; echo
done
cp -r . "$KEPT" 2> /dev/null
"""
PACKED = {"first.txt": "first\n" * 2000, "inner/second": "\0\1\2" * 5000,
          "inner/deeper/n\u00e4me.txt": "third", "inner/empty": ""}
ZIPPED = {"zip": zipfile.ZIP_DEFLATED, "stored.zip": zipfile.ZIP_STORED,
          "bz.zip": zipfile.ZIP_BZIP2, "lzma.zip": zipfile.ZIP_LZMA}
TARRED = {"tar": "w", "tgz": "w:gz", "tbz2": "w:bz2", "txz": "w:xz"}
ALONE = {"txt.gz": lambda data: gzip.compress(data, mtime=0), "txt.bz2": bz2.compress,
         "txt.xz": lzma.compress, "txt.lzma": lambda data: lzma.compress(data, lzma.FORMAT_ALONE)}


def make_texts(place):
    for name, kind in (("xml", plistlib.FMT_XML), ("binary", plistlib.FMT_BINARY)):
        write_at(plistlib.dumps(MEANT, fmt=kind), place, f"{name}.plist")
    row = 'key{0} = ({0}, "text {0}", {{ inner = <{0:08x}>; other = "a\\"b"; }});'
    write_at(f"{{ {' '.join(map(row.format, range(2000)))} }}\n", place, "large.plist")
    write_at("caf\u00e9 na\u00efve \u00fcber\n".encode("latin1") * 50, place, "latin.txt")


def make_archives(place):
    packed = f"{place}/packed"
    os.makedirs(f"{packed}/inner/deeper")
    for name, text in PACKED.items():
        write_at(text, packed, name)
    files = sorted(glob.glob(f"{packed}/**", recursive=True))
    for path in files:
        os.utime(path, (1_600_000_000, 1_600_000_000))
    for end, how in ZIPPED.items():
        with zipfile.ZipFile(f"{place}/one.{end}", "w", how) as archive:
            for path in files:
                archive.write(path, os.path.relpath(path, place))
    for end, mode in TARRED.items():
        with tarfile.open(f"{place}/one.{end}", mode) as archive:
            archive.add(packed, "packed")
    for end, pack in ALONE.items():
        write_at(pack(b"a line of a file\n" * 3000), place, f"one.{end}")
    write_at(bytes_at(place, "one.zip")[:900], place, "broken.zip")


def make_inputs(folder):
    place = f"{folder}/inputs"
    shutil.rmtree(place, ignore_errors=True)
    shutil.copytree(f"{gnustep.OWN}/inputs", place)
    make_texts(place)
    make_archives(place)
    shutil.copy(f"{gnustep.OWN}/ldap_server.py", place)
    words = ["gcc-12", "-w", f"{gnustep.OWN}/ldap.c", "-ldl", "-o", f"{place}/ldap"]
    subprocess.run(words, check=True)
    source = re.search(r"```objc\n(.*?)```", text_at("docs", "OBJECTIVE-C.md"), re.S)[1]
    words = ["gcc-12", "-x", "objective-c", "-w", "-", "-x", "none", "-lobjc"]
    subprocess.run([*words, "-o", f"{place}/untold"], input=source, text=True, check=True)
    write_at("", place, ".begun")
    return place


def plutil_is_right(kept):
    """Whether what it converted is what was meant."""
    read = plistlib.loads(bytes_at(kept, "plain.plist"))
    wanted = ["plain", b"\0\1\2", {"two": "2"}]
    return [read["name"], read["bytes"], read["list"][1]] == wanted


def run_case(place, name, command, library, given):
    kept = f"{given.folder}/kept/{library.title}"
    shutil.rmtree(kept, ignore_errors=True)
    os.makedirs(kept)
    words, env = ["sh", "-c", TELLING % command], {"KEPT": kept}
    _, text = gnustep.run(words, library, given.seconds, copied=place, env=env)
    text = gnustep.steady(text, (r'(XADFirstSolidEntry": ").*', r"\1ADDRESS"))
    write_at(text, given.folder, "kept", f"{name}.{library.title}")
    return text, kept


def chosen(table, given):
    return {name: it for name, it in table.items() if not given.names or name in given.names}


def run_programs(libraries, given):
    place, same, right, cases = make_inputs(given.folder), 0, True, chosen(CASES, given)
    for name, command in cases.items():
        told = [run_case(place, name, command, library, given) for library in libraries]
        (theirs, _), (here, kept) = told
        if theirs == here:
            same += 1
            continue
        better = name in BETTER and TELLS.get(name, "") in here
        better = better and (name != "plutil" or plutil_is_right(kept))
        right = right and better
        print(f"{name}: differs" + (f", in our favour: {BETTER[name]}" if better else ""))
        both = (theirs.splitlines(), here.splitlines())
        lines = difflib.unified_diff(*both, "libobjc", "the shim", lineterm="", n=0)
        print("".join(f"    {line[:160]}\n" for line in [*lines][:12]), end="", flush=True)
    what = f"{len(cases)} sets of runs of Debian's programs"
    print(f"{what}: {same} with the same output, endings and files over both")
    return right


def make_bundles(folder):
    place = f"{folder}/loaded"
    for number in range(BUNDLES):
        bundle, title = f"{place}/B{number}.bundle", f"Loaded{number}_00"
        os.makedirs(f"{bundle}/Resources", exist_ok=True)
        text = f"{{ NSExecutable = B{number}; NSPrincipalClass = {title}; }}\n"
        write_at(text, bundle, "Resources", "Info-gnustep.plist")
        words = ["-shared", "-fPIC", f"-DN={number}"]
        gnustep.build(folder, "bundle.m", *words, built=f"{bundle}/B{number}")
    return place


def load_bundles(program, place, library, given):
    """The times of loading, the count of wrong answers, and the statuses of runs that failed."""
    took, wrong, ended, words = [], 0, [], [program, place, str(BUNDLES)]
    for _ in range(given.runs):
        status, text = gnustep.run(words, library, given.seconds, place=place)
        found = re.search(r"^(\d+) (\d+) ([\d.]+)$", text, re.M)
        if status or not found:
            ended.append(status)
        else:
            wrong += int(found[2])
            took.append(float(found[3]))
    return took, wrong, ended


def run_bundles(libraries, given):
    """Whether no send was lost over ours, and loading took no longer."""
    place, medians = make_bundles(given.folder), []
    words = ["-lgnustep-base", "-lobjc", "-pthread"]
    program = gnustep.build(given.folder, "bundles.m", *words)
    for library in libraries:
        took, wrong, ended = load_bundles(program, place, library, given)
        medians.append(statistics.median(took or [0]))
        print(f"{library.title}: {BUNDLES} bundles loaded beside three senders in "
              f"{medians[-1]:.1f} ms, the median of {len(took)} runs with {wrong} wrong answers; "
              f"{len(ended)} runs ended otherwise{f': with {ended}' if ended else ''}")
    return bool(took) and not wrong and not ended and medians[1] <= medians[0]


def figure(pattern, text):
    return int(re.search(pattern, text, re.M)[1])


def counted(words, library, copied, start=()):
    """Instructions."""
    words = [*start, *measure.CALLGRIND, *words]
    return figure(r"Collected *: (\d+)", gnustep.run(words, library, 600, copied=copied)[1])


def row(title, kind, theirs, ours, most, ratio=None):
    """Whether the ratio is within the aim."""
    ratio, digits = ratio or ours / theirs, 3 if kind == "seconds" else 1
    both = (f"{it / UNITS[kind]:,.{digits}f}" for it in (theirs, ours))
    measure.row(title, kind, *both, f"{ratio:.3f}")
    return ratio <= most[kind]


def head(of):
    print(of + "\n")
    measure.table("", "", "libobjc", "the shim", "ratio")


def seconds(words, library, given, copied):
    """Of processors, without what the namespaces take."""
    words = ["bash", "-c", TIMED, "bash", *words]
    _, text = gnustep.run(words, library, given.seconds, copied=copied)
    return sum(map(float, re.search(r"(?m)^processors ([\d.]+) ([\d.]+)$", text).groups()))


def run_times(suite, libraries, given):
    """Of whole programs, in turns over both: whether no median ratio is above the aims."""
    start = gnustep.build(given.folder, "start.m", "-lgnustep-base", "-lobjc")
    inputs, right, runs = make_inputs(given.folder), True, {}
    for folder, name in (it.split("/") for it in LONG):
        runs[f"{folder}/{name}"] = (["./obj/" + name], f"{suite.base}/{folder}")
    document = CASES["autogsdoc, Foundation"].replace("\\\n", "").split()
    runs |= {"autogsdoc of 6 headers": (document, inputs), "a small program": ([start], inputs)}
    head(f"Seconds of processors, medians of {given.runs} runs, and millions of instructions:")
    for title, (words, copied) in chosen(runs, given).items():
        pairs = [[seconds(words, library, given, copied) for library in libraries]
                 for _ in range(given.runs)]
        ratio = statistics.median(mine / max(other, 0.001) for other, mine in pairs)
        medians = map(statistics.median, zip(*pairs))
        right &= row(title, "seconds", *medians, MOST_TIMED, ratio)
        both = (counted(words, library, copied) for library in libraries)
        right &= row(title, "instructions", *both, MOST_TIMED)
    return right


def session(library, rounds, *words):
    """Of sogod: what is counted of all, how many requests, and kibibytes."""
    more = ", counted: a minute of a processor" if words else ""
    print(f"sogod over {library.title}, {rounds} rounds{more}", file=sys.stderr, flush=True)
    words = ["python3", f"{gnustep.OWN}/sogo.py", str(rounds), *words]
    _, text = gnustep.run(words, library, 3000, place="/var/tmp")
    told = re.search(r"^requests (\d+) wrong (\d+) resident (\d+)$", text, re.M)
    if not told or told[2] != "0":
        raise ChildProcessError(f"over {library.title}: {told[0] if told else text[-300:]}")
    return figure(r"Collected *: (\d+)", text) if more else 0, int(told[1]), int(told[3])


def server(library):
    """Instructions of its start, of each request in a later round, and kibibytes."""
    told = [session(library, rounds, *measure.CALLGRIND) for rounds in ROUNDS]
    (few, asked, _), (many, more, _) = told
    each = (many - few) / (more - asked)
    return few - asked * each, each, session(library, ROUNDS[1])[2]


def run_server(libraries):
    """Whether each is within the aims, or it can't be run here."""
    no_server = "it wants root" if os.geteuid() else measure.lack(SERVER)
    if no_server:
        print(f"sogod: left out, {no_server}", file=sys.stderr)
        return True
    try:
        start, request, resident = zip(*map(server, libraries))
    except ChildProcessError as error:
        print(f"sogod: left out, since it doesn't run {error}", file=sys.stderr)
        return False
    right = row("sogod, its start", "instructions", *start, MOST)
    right &= row("sogod, a request", "instructions", *request, MOST)
    return row("sogod", "resident", *resident, MOST) and right


def run_table(libraries, given):
    """Whether each is within the aims."""
    inputs, right = make_inputs(given.folder), True
    start = ["python3", f"{gnustep.OWN}/until_idle.py"]
    head("Millions of instructions, and MiB:")
    for title, run in chosen({it.split()[0]: it.split() for it in RUNS}, given).items():
        if not shutil.which(title):
            print(f"{title} isn't there: left out", file=sys.stderr)
            continue
        both = (counted(run, library, inputs, start) for library in libraries)
        right &= row(title, "instructions", *both, MOST)
        told = (gnustep.run([*start, *run], library, 60, copied=inputs) for library in libraries)
        both = (figure(r"^resident (\d+)", text) for _, text in told)
        right &= row(title, "resident", *both, MOST)
    has_server = not given.names or "sogod" in given.names
    return run_server(libraries) and right if has_server else right


def main(suite, libraries, given):
    told = [run_table(libraries, given)] if given.table else []
    told += [run_programs(libraries, given)] if given.programs else []
    told += [run_bundles(libraries, given)] if given.bundles else []
    told += [run_times(suite, libraries, given)] if given.times else []
    return all(told)
