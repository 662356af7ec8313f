"""GNUstep base's test programs and Debian's programs: they are built once, and each is run in
namespaces of its own."""
import concurrent.futures
import glob
import os
import re
import shutil
import subprocess
import sys
import time

import measure
from words import ROOT, text_at, write_at

FOLDER = "/var/tmp/yeldrost-gnustep"
DEBIAN = "http://deb.debian.org/debian"
PACKAGES = """gobjc-12 gobjc libobjc-12-dev gnustep-make libgnustep-base-dev gnustep-base-runtime
dpkg-dev make unar openvpn-auth-ldap iproute2 valgrind""".split()
OWN = f"{ROOT}/trusted/objc/gnustep"
NOT_APART = 121
HIDDEN = ("/root", "/tmp", "/run")

# A program's namespaces have no network but the machine's own, empty places for GNUstep's defaults
# and ports, and a copy of its folder. No process outlives it.
INSIDE = f"""ip link set lo up
for place in {' '.join(HIDDEN)}; do mount -t tmpfs none $place || exit {NOT_APART}; done
if [ -n "$COPIED" ]; then
    mkdir /tmp/.copy && cp -a "$COPIED/." /tmp/.copy && mount --bind /tmp/.copy "$COPIED" &&
        cd "$COPIED" || exit {NOT_APART}
fi
exec timeout -k 2 "$SECONDS_LEFT" env -u COPIED -u SECONDS_LEFT "$@"
"""
ALONE = ("nice", "-n", "5", "unshare", *["--map-root-user"] * (os.geteuid() != 0), "-m", "-p", "-n",
         "-f", "--kill-child", "--mount-proc", "sh", "-c", INSIDE, "sh")
APT = "deb-src [signed-by=/usr/share/keyrings/debian-archive-keyring.gpg] {} bookworm main\n"
MAKE = '. "$GNUSTEP_MAKEFILES/GNUstep.sh"; exec make -j1 -k debug=yes'


def is_hidden(folder):
    """Whether it lies where a program finds an empty place instead."""
    folder, places = os.path.realpath(folder), map(os.path.realpath, HIDDEN)
    return any(os.path.commonpath((folder, place)) == place for place in places)


def get_sources(folder):
    """Debian's source package of gnustep-base, by a list of apt-get's own."""
    sources, apt = f"{folder}/source", f"{folder}/apt"
    if os.path.isdir(sources):
        return sources
    print("getting the source package of gnustep-base", file=sys.stderr)
    for part in ("lists/partial", "cache/archives/partial"):
        os.makedirs(f"{apt}/{part}", exist_ok=True)
    write_at(APT.format(DEBIAN), apt, "sources")
    options = [f"Dir::Etc::SourceList={apt}/sources", f"Dir::State::Lists={apt}/lists",
               f"Dir::Cache={apt}/cache", "Dir::Etc::SourceParts=-", "APT::Sandbox::User=root"]
    get, how = ["apt-get", "-q"], {"check": True, "stdout": sys.stderr}
    get += [word for it in options for word in ("-o", it)]
    subprocess.run([*get, "update"], **how)
    subprocess.run([*get, "source", "--download-only", "gnustep-base"], **how, cwd=apt)
    package = glob.glob(f"{apt}/gnustep-base_*.dsc")
    subprocess.run(["dpkg-source", "-x", *package, sources + ".new"], **how)
    os.rename(sources + ".new", sources)
    return sources


class Suite:
    """A copy of Tests/base, built against Debian's libobjc as gnustep-tests does."""

    def __init__(self, folder):
        self.folder, self.base = folder, f"{folder}/Tests/base"

    def folders(self):
        return sorted(os.path.dirname(it) for it in glob.glob("*/TestInfo", root_dir=self.base))

    def names(self, folder):
        """Pairs of a program and the ending of its source."""
        sources = sorted(glob.glob("*.[mc]", root_dir=f"{self.base}/{folder}"))
        return [os.path.splitext(it) for it in sources]

    def is_built(self, folder, name):
        return os.path.exists(f"{self.base}/{folder}/obj/{name}")

    def programs(self):
        """Pairs of a folder and a program that is built."""
        them = ((folder, name) for folder in self.folders() for name, _ in self.names(folder))
        return [it for it in them if self.is_built(*it)]

    def may_abort(self, program):
        return os.path.exists(f"{self.base}/{'/'.join(program)}.m.abort")

    def build(self, jobs):
        whole = f"{self.folder}/built"
        if os.path.exists(whole):
            return
        sources = get_sources(self.folder)
        if not os.path.isdir(self.base):
            shutil.copytree(f"{sources}/Tests", f"{self.folder}/Tests", symlinks=True)
        write_at("", self.folder, "config.mak")  # as of a source tree that is configured
        print("building Tests/base", file=sys.stderr)
        with concurrent.futures.ThreadPoolExecutor(jobs) as pool:
            for folder, left in zip(self.folders(), pool.map(self.build_folder, self.folders())):
                if left:
                    print(f"{folder}: not built: {' '.join(left)}", file=sys.stderr)
        write_at("", whole)

    def build_folder(self, folder):
        """The names of the programs that weren't built."""
        place, names = f"{self.base}/{folder}", self.names(folder)
        if not names:
            return []
        makefiles = measure.said(["gnustep-config", "--variable=GNUSTEP_MAKEFILES"]).strip()
        framework, kinds = f"{makefiles}/TestFramework", {".m": "OBJC", ".c": "C"}
        text = text_at(framework, "GNUmakefile.in").replace("@TESTOPTS@", "GNUSTEP_OBJ_DIR=./obj")
        rules = "\n".join(f"{name}_{kinds[end]}_FILES={name}{end}" for name, end in names)
        text = text.replace("@TESTNAMES@", " ".join(name for name, _ in names))
        write_at(text.replace("@TESTRULES@", rules), place, "GNUmakefile")
        more = {"GNUSTEP_MAKEFILES": makefiles, "GSTESTTOP": framework, "GSTESTROOT": self.base,
                "ADDITIONAL_OBJCFLAGS": "-DTEST_TS=0",
                "ADDITIONAL_INCLUDE_DIRS": "-I" + framework}
        with open(f"{place}/build.log", "wb") as log:
            how = {"cwd": place, "env": os.environ | more, "stdout": log, "stderr": log}
            subprocess.run(["nice", "-n", "15", "bash", "-c", MAKE], **how, check=False)
        return [name for name, _ in names if not self.is_built(folder, name)]


def build(folder, source, *words, built=None):
    """A program, or a library, of trusted/objc/gnustep, against Debian's libobjc."""
    built = built or f"{folder}/{os.path.splitext(source)[0]}"
    source = f"{OWN}/{source}"
    if os.path.exists(built) and os.path.getmtime(built) > os.path.getmtime(source):
        return built
    flags = measure.said(["gnustep-config", "--objc-flags"]).split()
    flags = [it for it in flags if it not in ("-MMD", "-MP")]
    compile_it = ["gcc-12", "-x", "objective-c", *flags, "-std=gnu11", "-O2", "-w", source]
    subprocess.run([*compile_it, "-x", "none", *words, "-o", built], check=True)
    return built


class Library:
    """What programs run over: the libobjc.so.4 in `folder`, or Debian's; `more` is environment."""

    def __init__(self, title, folder=None, **more):
        self.title, self.more = title, more | ({"LD_LIBRARY_PATH": folder} if folder else {})


def run(words, library, seconds, copied="", place=None, env=None):
    """The status of a program and what it wrote, in namespaces of its own."""
    inner = [f"{name}={value}" for name, value in {**library.more, **(env or {})}.items()]
    outer = os.environ | {"HOME": "/root", "LC_ALL": "C.UTF-8", "COPIED": copied,
                          "SECONDS_LEFT": str(seconds)}
    for name in ("LD_LIBRARY_PATH", "LD_PRELOAD"):
        outer.pop(name, None)
    how = {"stdin": subprocess.DEVNULL, "stdout": subprocess.PIPE, "stderr": subprocess.STDOUT}
    ended = subprocess.run([*ALONE, *inner, *words], cwd=copied or place, env=outer, **how)
    if ended.returncode == NOT_APART:
        sys.exit(f"{words[0]} isn't run, since no copy of {copied or place} stands apart for it")
    return ended.returncode, ended.stdout.decode(errors="replace")


KINDS = ("Passed test", "Failed test", "Dashed hope", "Failed set", "Skipped set")
CHECK = re.compile(rf"^({'|'.join(KINDS)}):[ \t]*(.*)$", re.M)
TIME = r"\d{4}-\d\d-\d\d \d\d:\d\d:\d\d"
CHANGING = ((rf"\b{TIME}(\.\d+)? *[+-]\d+", "DATE"), (rf"{TIME}\.\d+", "DATE"),
            (r"\[\d+:\d+\]", "[]"), (r"0x[0-9a-f]+", "0x"))


def steady(text, *more):
    """Without what changes from run to run."""
    for pattern, put in (*CHANGING, *more):
        text = re.sub(pattern, put, text)
    return text


class Told:
    """What a program of the suite told: checks, as pairs of a kind and a text, and how it ended."""

    def __init__(self, status, text):
        self.status = status
        self.checks = [(kind, steady(what)) for kind, what in CHECK.findall(text)]

    def count(self, kind):
        return sum(1 for found, _ in self.checks if found == kind)


def run_test(suite, program, library, given, logs):
    env = {"NSZombieEnabled": "YES", "CRASH_ON_ZOMBIE": "YES", "GSTESTROOT": suite.base}
    (folder, name), title = program, ".".join(program)
    more = {key: value.replace("@", title) for key, value in library.more.items()}
    library, copied = Library(library.title, **more), f"{suite.base}/{folder}"
    status, text = run(["./obj/" + name], library, given.seconds, copied=copied, env=env)
    write_at(text, logs, f"{library.title}.{title}.log")
    return Told(status, text)


def run_suite(suite, programs, libraries, given, logs):
    """What each program told over each library, several of them side by side."""
    os.makedirs(logs, exist_ok=True)
    began, told = time.time(), {}
    with concurrent.futures.ThreadPoolExecutor(given.jobs) as pool:
        pairs = [(program, library) for program in programs for library in libraries]
        runs = [pool.submit(run_test, suite, *pair, given, logs) for pair in pairs]
        for (program, library), waited in zip(pairs, runs):
            told.setdefault(program, {})[library.title] = waited.result()
    if len(programs) > 1:
        over, took = ", ".join(it.title for it in libraries), time.time() - began
        print(f"{len(programs)} programs run over {over} in {took:.0f} s", file=sys.stderr)
    return told
