"""What the scripts over a running server share: the program, a server, its links and frames, a compile, and the running of checks."""
import contextlib
import os
import shutil
import socket
import struct
import subprocess
import sys
import tempfile
import time

from spelled import PROGRAM, Wrong, frame, u32

SOURCE = "int twice(int n) { return 2 * n; }\n"

# Requests and replies as they are on the wire: a length, then a number and what belongs to it.
ZERO_STATS, GET_STATS = frame(u32(0)), frame(u32(1))
STARTED = frame(u32(0) + u32(0))
ZEROED = frame(u32(1))


def expect(holds, what):
    if not holds:
        raise Wrong(what)


def run(*words, folder=None, variables=None, seconds=60):
    """What a command of the program ends with: its status, its output, what it told on standard error."""
    kept = dict(os.environ, **(variables or {}))
    kept.pop("SCCACHE_IGNORE_SERVER_IO_ERROR", None) if not variables else None
    ended = subprocess.run([PROGRAM, *words], cwd=folder, env=kept, capture_output=True, timeout=seconds)
    return ended.returncode, ended.stdout, ended.stderr


def resident(process):
    """How much memory a process has, in kB."""
    with open(f"/proc/{process.pid}/status", encoding="utf-8") as it:
        return next(int(line.split()[1]) for line in it if line.startswith("VmRSS"))


class Server:
    """A server that was started, and has printed that it listens."""

    def __init__(self, room, addr="socket", folder="store", size="100000000", tokens="2"):
        self.process = subprocess.Popen([PROGRAM, "serve", addr, folder, size, tokens], cwd=room, stdout=subprocess.PIPE, stderr=subprocess.PIPE)
        line = self.process.stdout.readline().decode()
        expect(line.startswith("sccache: Listening on address "), f"the server at {addr} said {line!r}, {self.process.poll()}")
        place = line.split()[-1]
        # A client names a port by digits alone, and finds a path from any folder.
        self.addr = place.rpartition(":")[2] if addr.isdigit() else os.path.join(room, addr)
        self.is_port = addr.isdigit()

    def link(self):
        """A link to it."""
        if self.is_port:
            return socket.create_connection(("127.0.0.1", int(self.addr)), timeout=30)
        link = socket.socket(socket.AF_UNIX)
        link.settimeout(30)
        link.connect(self.addr)
        return link

    def kill(self):
        self.process.kill()
        self.process.wait()

    def descriptors(self):
        return len(os.listdir(f"/proc/{self.process.pid}/fd"))

    def resident(self):
        """How much memory it has, in kB."""
        return resident(self.process)


@contextlib.contextmanager
def serving(room, **how):
    server = Server(room, **how)
    try:
        yield server
    finally:
        if server.process.poll() is None:
            server.kill()
        server.process.stdout.close()
        server.process.stderr.close()


def stop(server):
    """Stops it, and gives what was printed of that."""
    status, out, err = run("stop", server.addr)
    expect((status, err) == (0, b""), f"stop ended with {status}, {err!r}")
    expect(out.startswith(b"Stopping sccache server...\nCompile requests"), f"stop printed {out!r}")
    expect(server.process.wait(30) == 0, "the server that was stopped didn't end with 0")
    return out.decode()


def compile_at(server, room, compiler="cc", key="hello-1", seconds=60, **how):
    words = ["compile", server.addr, compiler, "--key", key, "--out", "obj=a.o", "--", "-c", "a.c", "-o", "a.o"]
    return run(*words, folder=room, seconds=seconds, **how)


def write(room, name, text, mode=0o644):
    path = os.path.join(room, name)
    with open(path, "w", encoding="utf-8") as it:
        it.write(text)
    os.chmod(path, mode)
    return path


def read(room, name):
    with open(os.path.join(room, name), "rb") as it:
        return it.read()


def count(stats, name):
    """The number of a line of printed statistics."""
    for line in stats.splitlines():
        if line.startswith(name + " ") and line[len(name) :].split()[0].isdigit():
            return int(line[len(name) :].split()[0])
    raise Wrong(f"no line {name!r} in\n{stats}")


def receive(link):
    """The payload of the next frame; nothing where the link ends. What comes behind the frame is left for the next call."""
    data, size = b"", 4
    while len(data) < size:
        piece = link.recv(size - len(data))
        if not piece:
            return None
        data += piece
        if len(data) == 4:
            size = 4 + struct.unpack(">I", data)[0]
    return data[4:]


def ask(link, frame):
    link.sendall(frame)
    return receive(link)


def run_checks(name, checks):
    """Runs each check in a folder of its own, prints a line for each, and gives the status: 1 at the first that doesn't hold."""
    if not os.access(PROGRAM, os.X_OK):
        sys.exit(f"{name}: there is no program {PROGRAM}")
    if not shutil.which("cc"):
        sys.exit(f"{name}: there is no C compiler cc")
    for check in checks:
        begun = time.time()
        with tempfile.TemporaryDirectory(prefix="serving-") as room:
            try:
                told = check(room)
            except (Wrong, OSError, subprocess.TimeoutExpired) as error:
                print(f"{name}: {check.__name__}: {error}", file=sys.stderr)
                return 1
        print(f"{name}: {check.__name__} ({time.time() - begun:.1f} s)" + (f": {told}" if told else ""), flush=True)
    return 0
