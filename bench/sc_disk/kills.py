"""Kills a program that stores files at ten moments (kill -9), opens the store again each time, and looks at every file that is left."""
import pathlib
import random
import shutil
import signal
import subprocess
import sys
import tempfile
import time

SIZE = 2_000_000
# So many numbers are kept for each turn.
NUMBERS = 1_000_001
CAPACITY = 40 * SIZE


def bad_files(folder):
    """The files that aren't a whole one of the program's: of its size, each byte the last one of its turn's first number."""
    for path in folder.rglob("*"):
        if path.is_dir():
            continue
        bytes_of = path.read_bytes()
        number = int(path.name[20:40]) if path.name.isdigit() else None
        if number is None or bytes_of != bytes([number // NUMBERS * NUMBERS % 256]) * SIZE:
            yield path


def files(folder):
    return [path for path in folder.rglob("*") if path.is_file()]


def await_first(folder, turn):
    """Until a file of this turn stands."""
    while not any(path.name.isdigit() and int(path.name[20:40]) // NUMBERS == turn for path in files(folder)):
        time.sleep(0.01)


def opened(program, folder):
    """How many files an opening indexes, and their bytes."""
    done = subprocess.run([program, str(folder), str(CAPACITY)], capture_output=True, text=True, check=True)
    words = done.stdout.split()
    return int(words[1]), int(words[2])


def main():
    program = sys.argv[1]
    folder = pathlib.Path(tempfile.mkdtemp(prefix="sc_disk_kills"))
    random.seed(1)
    failed = 0
    for turn in range(10):
        work = subprocess.Popen([program, str(folder), str(CAPACITY), str(turn * NUMBERS), str(NUMBERS), str(SIZE)], stdout=subprocess.DEVNULL)
        await_first(folder, turn)
        time.sleep(random.uniform(0.0, 0.3))
        work.send_signal(signal.SIGKILL)
        work.wait()
        left = files(folder)
        temporaries = sum(path.name.startswith(".sccachetmp") for path in left)
        indexed, size = opened(program, folder)
        bad = list(bad_files(folder))
        good = not bad and indexed == len(left) - temporaries == len(files(folder)) and size == indexed * SIZE
        print(f"stop {turn + 1}: {len(left) - temporaries} files and {temporaries} temporaries left, {indexed} indexed, {len(bad)} not whole: {'ok' if good else 'WRONG'}")
        failed += not good
    shutil.rmtree(folder)
    sys.exit(1 if failed else 0)


main()
