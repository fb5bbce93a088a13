"""What the scripts over tables share: how messages are spelled, what the program makes of a script, and how tables are run."""
import os
import struct
import subprocess
import sys

TOP = os.path.dirname(os.path.dirname(os.path.realpath(__file__)))
PROGRAM = os.path.realpath(sys.argv[1]) if len(sys.argv) > 1 else f"{TOP}/crates/sc_main/out/sc_main"


class Wrong(Exception):
    """A row, or a check, that comes to something else."""


def u32(number):
    return struct.pack("<I", number)


def u64(number):
    return struct.pack("<Q", number)


def text(data):
    return u64(len(data)) + data


def items(spelled):
    return u64(len(spelled)) + b"".join(spelled)


def pairs(*named):
    return items([text(name) + u64(number) for name, number in named])


def time(seconds, nanoseconds):
    return u64(seconds) + u32(nanoseconds)


def frame(payload):
    return struct.pack(">I", len(payload)) + payload


def statistics(reasons=pairs(), written=time(0, 0), levels=b"\0"):
    """Statistics of nothing, but for reasons, a time, and levels that are given as they are spelled."""
    counts = b"".join((u64(0) * 5, pairs() * 6, u64(0) * 6, written, time(0, 0), u64(0), time(0, 0), u64(0)))
    return counts + reasons + pairs() + u64(0) + levels


def compile_of(words, variables=u64(0), exe=b"/cc"):
    return u32(4) + text(exe) + text(b"/") + words + variables


WORDS = [b"--key", b"key1", b"--out", b"obj=/o", b"--", b"a.c"]
COMPILE = compile_of(items([text(word) for word in WORDS]))
COMPILED = ["started", "finished 0 - hi - auto"]
HEAD = "script 1\nconns {}\n{}level remote rw\ntool /cc 1 gcc\nrun key1 0 hi - obj=AB\n"


def driven(script, words=("drive",)):
    """What the program prints of a script, and the lines of each connection."""
    bounded = ["prlimit", f"--as={2 << 30}", PROGRAM, *words]
    ended = subprocess.run(bounded, input=script.encode(), capture_output=True, timeout=300)
    if ended.returncode != 0:
        raise Wrong(f"a script ended with {ended.returncode}, {ended.stderr!r}:\n{script[:2000]}")
    lines, sections = ended.stdout.decode().splitlines(), {}
    for line in lines:
        if line.startswith("conn "):
            number, end = line[5:].split(" ", 1)
            sections[int(number)] = section = [end]
        elif line.startswith("level "):
            break
        else:
            section.append(line)
    return lines, sections


def run_tables(name, tables):
    """Runs each table, prints a line for each, and gives the status: 1 at the first row that comes to something else."""
    if not os.access(PROGRAM, os.X_OK):
        sys.exit(f"{name}: there is no program {PROGRAM}")
    for table in tables:
        try:
            print(f"{name}: {table.__name__}: {table()} rows", flush=True)
        except (Wrong, subprocess.TimeoutExpired) as error:
            print(f"{name}: {table.__name__}: {error}", file=sys.stderr)
            return 1
    return 0
