"""Times builds through the launcher beside gcc alone, and beside ccache and sccache where they are there: see bench/users.sh.

All is done in one run, interleaved: in each round each file is preprocessed, compiled, hit and missed by each tool in turn, so that what
else the machine does meets all alike. A figure is the median, over files and rounds, of a call's time over that of its anchor beside it.
"""
import contextlib
import os
import shutil
import statistics
import subprocess
import sys
import tempfile
import time

TOP = os.path.dirname(os.path.dirname(os.path.realpath(__file__)))
WORDS = ["-O2", "-g", "-Wall", "-Iheaders"]
# What make builds: all files, and the example.
FOLDERS = (".", "../example")
NULL = [(os.POSIX_SPAWN_OPEN, n, os.devnull, os.O_RDWR, 0) for n in (0, 1, 2)]

FUNCTION = """
static int sum_{n}(const struct item *items, size_t length, int least)
{{
    int sum = {n};
    for (size_t i = 0; i < length; i++) {{
        if (items[i].value < least || strcmp(items[i].name, "none{n}") == 0)
            continue;
        sum = sum * 31 + items[i].value % ({n} + 7);
        if (isupper((unsigned char)items[i].name[0]))
            sum ^= (int)(sqrt((double)items[i].value) * {n});
    }}
    return sum;
}}
"""
HEADER = """#ifndef ITEM_H
#define ITEM_H
#include <ctype.h>
#include <errno.h>
#include <math.h>
#include <pthread.h>
#include <signal.h>
#include <stdint.h>
#include <stdio.h>
#include <stdlib.h>
#include <string.h>
#include <time.h>
#include <unistd.h>
struct item { char name[32]; int value; };
#endif
"""


def source(number):
    """A source of ordinary size: twelve headers of the system, and between 6 and 18 functions."""
    count = 6 + number % 5 * 3
    functions = "".join(FUNCTION.format(n=number * 100 + n) for n in range(count))
    calls = "".join(f"    sum += sum_{number * 100 + n}(items, length, {n});\n" for n in range(count))
    whole = f"int all_{number}(const struct item *items, size_t length)\n{{\n    int sum = 0;\n{calls}    return sum;\n}}\n"
    return '#include "item.h"\n' + functions + whole


def write(path, text):
    with open(path, "w", encoding="utf-8") as it:
        it.write(text)


def run_time(words, env, expected=0):
    """The seconds that a program takes. Its output is dropped."""
    begun = time.perf_counter()
    child = os.posix_spawn(words[0], words, env, file_actions=NULL)
    _, status = os.waitpid(child, 0)
    took = time.perf_counter() - begun
    if os.waitstatus_to_exitcode(status) != expected:
        sys.exit(f"bench/users.sh: {' '.join(words)} ended with {os.waitstatus_to_exitcode(status)}")
    return took


class Tool:
    """A way to call the compiler: the words before it, and variables."""

    def __init__(self, name, words, env):
        self.name, self.words, self.env = name, words, env

    def time(self, *words):
        return run_time([*self.words, GCC, *words], self.env)


def tools(room, program):
    """gcc alone, and each of the others that is there; ccache by its preprocessor and by its direct mode."""
    env = {"PATH": f"{room}/bin:{os.environ['PATH']}", "HOME": room, "XDG_RUNTIME_DIR": f"{room}/run", "LC_ALL": "C"}
    found = [Tool("gcc", [], env)]
    os.symlink(os.path.realpath(program), f"{room}/bin/ragzomei")
    os.symlink(f"{TOP}/tools/ragzomei-cc", f"{room}/bin/ragzomei-cc")
    found.append(Tool("ragzomei", [f"{room}/bin/ragzomei-cc"], env | {"RAGZOMEI_ADDR": f"{room}/run/sock"}))
    ccache, sccache = shutil.which("ccache"), shutil.which("sccache")
    if ccache:
        found.append(Tool("ccache", [ccache], env | {"CCACHE_DIR": f"{room}/ccache", "CCACHE_NODIRECT": "1"}))
        found.append(Tool("ccache direct", [ccache], env | {"CCACHE_DIR": f"{room}/ccache-direct"}))
    if sccache:
        found.append(Tool("sccache", [sccache], env | {"SCCACHE_DIR": f"{room}/sccache", "SCCACHE_SERVER_PORT": "14226"}))
    return {it.name: it for it in found}


@contextlib.contextmanager
def servers(room, by_name):
    """The servers, while they are needed."""
    ours = by_name["ragzomei"]
    words = [f"{room}/bin/ragzomei", "serve", ours.env["RAGZOMEI_ADDR"], f"{room}/store", "4000000000", "4"]
    server = subprocess.Popen(words, env=ours.env, stdout=subprocess.PIPE)
    server.stdout.readline()
    theirs = by_name.get("sccache")
    if theirs:
        subprocess.run([*theirs.words, "--start-server"], env=theirs.env, capture_output=True, check=True)
    try:
        yield
    finally:
        server.kill()
        server.wait()
        if theirs:
            subprocess.run([*theirs.words, "--stop-server"], env=theirs.env, capture_output=True, check=False)


def key_of(ours, name):
    """The key under which a compile is cached, as the launcher explains it."""
    words = [*ours.words, GCC, *WORDS, "-c", name, "-o", "x.o"]
    told = subprocess.run(words, env=ours.env | {"RAGZOMEI_EXPLAIN": "1"}, capture_output=True, check=True).stderr.decode()
    return told.split("cached under ")[1].split()[0]


class Times:
    """Ratios by the row and the tool, each over its anchor beside it."""

    def __init__(self):
        self.ratios, self.anchors = {}, {}

    def add(self, row, tool, took, anchor):
        self.ratios.setdefault((row, tool), []).append(took / anchor)
        self.anchors.setdefault(row, []).append(anchor)

    def line(self, row, title, names, goal):
        cells = []
        for name in names:
            kept = self.ratios.get((row, name))
            cells.append(f"{statistics.median(kept):.3f}" if kept else "")
        anchor = f"{statistics.median(self.anchors[row]) * 1000:.1f} ms" if row in self.anchors else ""
        print(f"| {title} | {anchor} | {' | '.join(cells)} | {goal} |")


def time_file(times, by_name, name, kind, key, order):
    """One file in one round: hits by each tool, a compile under its key, a miss by each, and a call that none caches."""
    compile_words = [*WORDS, "-c", name, "-o", "x.o"]
    text_words = [*WORDS, "-E", name, "-o", "x.i"]
    gcc, ours = by_name["gcc"], by_name["ragzomei"]
    for tool in order:
        if tool.name == "gcc":
            continue
        text = gcc.time(*text_words)
        times.add(f"hit {kind}", tool.name, tool.time(*compile_words), text)
    if "ccache direct" in by_name:
        words = [f"{ours.words[0][:-3]}", "compile", ours.env["RAGZOMEI_ADDR"], GCC, "--key", key, "--out", "obj=x.o", "--", *compile_words]
        direct = by_name["ccache direct"].time(*compile_words)
        times.add(f"key {kind}", "ragzomei", run_time(words, ours.env), direct)
    for tool in order:
        if tool.name != "gcc":
            text = gcc.time(*text_words)
            times.add(f"pass {kind}", tool.name, tool.time(*text_words), text)


def time_miss(times, by_name, kind, text, number, order):
    """A source that no tool has seen, by gcc alone beside each tool."""
    for tool in order:
        if tool.name == "gcc":
            continue
        words = [*WORDS, "-c", "new.c", "-o", "x.o"]
        write("new.c", f"{text}\nint new_{number}_{tool.name.replace(' ', '_')};\n")
        alone = by_name["gcc"].time(*words)
        times.add(f"miss {kind}", tool.name, tool.time(*words), alone)


def make_time(tool, make, folder):
    """A build of a folder by make -j4 from nothing."""
    subprocess.run([make, "-s", "-C", folder, "clean"], check=True)
    return run_time([make, "-s", "-j4", "-C", folder, f"CC={' '.join([*tool.words, GCC])}"], tool.env)


def prepare(room, files):
    """The sources, and a Makefile of them. Answers the names by their kind."""
    for folder in ("bin", "run", "work", "work/headers"):
        os.makedirs(f"{room}/{folder}", mode=0o700)
    shutil.copytree(f"{TOP}/examples/make", f"{room}/example")
    os.chdir(f"{room}/work")
    write("headers/item.h", HEADER)
    names = [f"file{number}.c" for number in range(files)]
    for number, name in enumerate(names):
        write(name, source(number))
    write("tiny.c", "int tiny;\n")
    objects = " ".join(name[:-2] + ".o" for name in names)
    rule = f"%.o: %.c\n\t$(CC) {' '.join(WORDS)} -MMD -MP -c $< -o $@\n"
    write("Makefile", f"all: {objects}\n{rule}clean:\n\trm -f {objects} *.d\n")
    return names


def time_all(times, by_name, names, rounds):
    """All rounds; each begins with another tool."""
    order = list(by_name.values())
    ours = by_name["ragzomei"]
    make = shutil.which("make")
    keys = {}
    for name in [*names, "tiny.c"]:
        for tool in order:
            tool.time(*WORDS, "-c", name, "-o", "x.o")
        keys[name] = key_of(ours, name)
    for tool in order[1:]:
        for folder in FOLDERS:
            make_time(tool, make, folder)
    for number in range(rounds):
        order = order[1:] + order[:1]
        for name in [*names, "tiny.c"]:
            kind = "tiny" if name == "tiny.c" else "ordinary"
            time_file(times, by_name, name, kind, keys[name], order)
            with open(name, encoding="utf-8") as it:
                time_miss(times, by_name, kind, it.read(), number * 1000 + len(times.anchors.get(f"miss {kind}", [])), order)
        for tool in order:
            if tool.name == "gcc":
                continue
            for folder in FOLDERS:
                alone = make_time(by_name["gcc"], make, folder)
                times.add(f"make {folder}", tool.name, make_time(tool, make, folder), alone)
        print(f"bench/users.sh: round {number + 1} of {rounds}", file=sys.stderr)


def main(words):
    global GCC
    if not 1 <= len(words) <= 3 or not all(it.isdigit() and int(it) > 0 for it in words[:2]):
        sys.exit("usage: bench/users.sh ROUNDS [FILES [PROGRAM]]")
    rounds, files = int(words[0]), int(words[1]) if len(words) > 1 else 40
    program = os.path.realpath(words[2] if len(words) > 2 else f"{TOP}/crates/sc_main/out/sc_main")
    GCC = shutil.which("gcc")
    if not GCC or not os.access(program, os.X_OK):
        sys.exit(f"bench/users.sh: there is no {program if GCC else 'gcc'}")
    with tempfile.TemporaryDirectory(prefix="users-") as room:
        names = prepare(room, files)
        by_name = tools(room, program)
        times = Times()
        with servers(room, by_name):
            time_all(times, by_name, names, rounds)
        os.chdir("/")
    columns = [name for name in by_name if name != "gcc"]
    print(f"| Work | its anchor takes | {' | '.join(columns)} | goal |\n|---|---|{'---|' * len(columns)}---|")
    for kind in ("ordinary", "tiny"):
        times.line(f"hit {kind}", f"hit, {kind}, over `gcc -E`", columns, "at most 1.2, ahead of both" if kind == "ordinary" else "")
        times.line(f"key {kind}", f"`compile` alone, {kind}, over a direct hit of ccache", columns, "at most 0.6" if kind == "ordinary" else "")
        times.line(f"miss {kind}", f"miss, {kind}, over gcc", columns, "at most 1.12" if kind == "ordinary" else "")
        times.line(f"pass {kind}", f"a call that isn't cached, {kind}, over gcc", columns, "at most 1.02" if kind == "ordinary" else "")
    times.line("make ../example", "warm `make -j4` of the example, links and all, over gcc", columns, "at most 0.2, ahead of sccache")
    times.line("make .", "warm `make -j4` of all files, over gcc", columns, "")
    return 0


if __name__ == "__main__":
    sys.exit(main(sys.argv[1:]))
