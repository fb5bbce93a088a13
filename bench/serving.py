#!/usr/bin/env python3
"""Times a server and its clients, beside a bare C server that answers as many bytes (bench/serving/).

Usage: bench/serving.py [PROGRAM]     (by default the proved program in crates/sc_main/out; needs gcc)
"""
import os
import shutil
import socket
import statistics
import struct
import subprocess
import sys
import tempfile
import time

TOP = os.path.dirname(os.path.dirname(os.path.realpath(__file__)))
PROGRAM = os.path.realpath(sys.argv[1]) if len(sys.argv) > 1 else f"{TOP}/crates/sc_main/out/sc_main"
GET_STATS = struct.pack(">I", 4) + struct.pack("<I", 1)


def text(value):
    return struct.pack("<Q", len(value)) + value


def frame(payload):
    return struct.pack(">I", len(payload)) + payload


def get_raw(key):
    return frame(struct.pack("<I", 7) + text(key))


def put_raw(key, value):
    return frame(struct.pack("<I", 8) + text(key) + text(value))


def ask(addr, data):
    """The payload of the reply to one frame."""
    link = socket.socket(socket.AF_UNIX)
    link.connect(addr)
    link.sendall(data)
    got = b""
    while len(got) < 4 or len(got) < 4 + struct.unpack(">I", got[:4])[0]:
        got += link.recv(1 << 20)
    link.close()
    return got[4:]


def resident(process):
    with open(f"/proc/{process.pid}/status", encoding="utf-8") as it:
        return next(int(line.split()[1]) for line in it if line.startswith("VmRSS"))


def built(room, name):
    path = os.path.join(room, name)
    subprocess.run(["gcc", "-O2", "-o", path, f"{TOP}/bench/serving/{name}.c"], check=True)
    return path


def a_request(room, asker, addr, data, count=20000):
    """Nanoseconds a request over one link: the least of five runs."""
    path = os.path.join(room, "frame")
    with open(path, "wb") as it:
        it.write(data)
    return min(float(subprocess.run([asker, addr, path, str(count)], check=True, capture_output=True).stdout) for _ in range(5))


def beside_echo(room, asker, echo, addr, data):
    """A request to the server, and one to the bare server that answers as many bytes."""
    size = len(ask(addr, data))
    place = os.path.join(room, f"echo-{size}")
    with subprocess.Popen([echo, place, str(size)], stdout=subprocess.PIPE) as bare:
        bare.stdout.readline()
        pairs = [(a_request(room, asker, addr, data, 5000), a_request(room, asker, place, data, 5000)) for _ in range(3)]
        bare.kill()
    return size, min(p[0] for p in pairs), min(p[1] for p in pairs)


def a_process(words, folder, count=200, gone=None):
    """Milliseconds of a process, the median of so many. The file that is to be gone is removed before each, which isn't timed."""
    times = []
    for _ in range(count):
        if gone is not None and os.path.exists(gone):
            os.remove(gone)
        begun = time.perf_counter()
        subprocess.run(words, cwd=folder, check=True, stdout=subprocess.DEVNULL)
        times.append((time.perf_counter() - begun) * 1e3)
    return statistics.median(times)


def hit_line(name, words, folder):
    """A line on hits: without the object, as behind `make clean`, and over it, where a file system may wait for the disk."""
    gone = a_process(words, folder, gone=os.path.join(folder, "a.o"))
    return f"{name}: {gone:.2f} ms; over an object that stands there: {a_process(words, folder):.2f} ms"


def main():
    with tempfile.TemporaryDirectory(prefix="bench-serving-") as room:
        asker, echo = built(room, "ask"), built(room, "echo")
        with open(os.path.join(room, "a.c"), "w", encoding="utf-8") as it:
            it.write("int twice(int n) { return 2 * n; }\n")
        addr = os.path.join(room, "socket")
        server = subprocess.Popen([PROGRAM, "serve", addr, os.path.join(room, "store"), "100000000", "2"], stdout=subprocess.PIPE)
        server.stdout.readline()
        print(f"memory at rest: {resident(server)} kB")
        compile_words = [PROGRAM, "compile", addr, "cc", "--key", "bench", "--out", "obj=a.o", "--", "-c", "a.c", "-o", "a.o"]
        subprocess.run(compile_words, cwd=room, check=True)
        print(f"a process that does nothing (--version): {a_process([PROGRAM, '--version'], room):.2f} ms")
        plain = ["cc", "-c", "a.c", "-o", "a.o"]
        print(hit_line("a hit through a new client process", compile_words, room))
        print(f"the compiler itself: {a_process(plain, room, 50):.2f} ms")
        for peer in ("ccache", "sccache"):
            if shutil.which(peer):
                print(hit_line(peer, [peer, *plain], room))
        expected = struct.pack("<II", 9, 0)
        if ask(addr, put_raw(b"bench20", bytes(20000))) != expected:
            sys.exit("bench/serving.py: the put was refused")
        for name, data in (("get-stats", GET_STATS), ("get-raw of 20 kB", get_raw(b"bench20"))):
            size, ours, bare = beside_echo(room, asker, echo, addr, data)
            print(f"{name} ({size} bytes back), one kept link: {ours / 1e3:.1f} us, bare echo {bare / 1e3:.1f} us, ratio {ours / bare:.2f}")
        before = resident(server)
        a_request(room, asker, addr, GET_STATS, 100000)
        print(f"memory before and behind 500,000 requests on five links: {before} kB, {resident(server)} kB")
        subprocess.run([PROGRAM, "stop", addr], check=True, stdout=subprocess.DEVNULL)
        if server.wait(30) != 0:
            sys.exit("bench/serving.py: the server didn't end with 0")


if __name__ == "__main__":
    main()
