"""The desk program on stored runs (runs/*: day.ttg, commands, and what is printed), and where reading or writing fails, stops short
or comes in pieces. Every test says the bytes that must be printed,
those that must stand on standard error, and the exit code, and ends the program after LIMIT seconds. Usage: desk.py PROGRAM"""
import array
import contextlib
import fcntl
import os
import resource
import select
import shutil
import signal
import socket
import subprocess
import sys
import tempfile
import termios
import threading
import time

LIMIT = 10
HERE = os.path.dirname(os.path.abspath(__file__))
PROGRAM = os.path.abspath(sys.argv[1])
DAY = os.path.join(HERE, "..", "..", "example", "day.ttg")

# The example's timetable: stops with transfer times 4, 5, 3; connections 0 to 4 (trip from to departure arrival): 0 0 1 600 620;
# 0 1 2 625 640; 1 1 2 622 650; 1 2 0 655 690; 2 1 2 630 642. Posting 10 minutes on connection 1 makes it arrive at 650, so that
# connection 4 is earlier; connection 4 leaves 630 - 620 = 10 minutes after connection 0 arrives, 5 of them for the change.
COUNTS = b"stops 3 rides 5\n"
ASK = b"q 0 2 595\n"
EARLY = b"arrives 640 by 0 1\n"
LATER = b"arrives 642 by 0 4\n"
UNREADABLE = b"no 18 at 0\n"
CYCLE = [
    (ASK, EARLY),
    (b"p 7 1 10\n", b"posted 7\n"),
    (ASK, LATER),
    (b"m 0 4\n", b"margin 5\n"),
    (b"why 1\n", b"why 1 delay 10 notice 7\n"),
    (b"w 7\n", b"withdrawn 7\n"),
    (b"w 7\n", b"no 27 at 0\n"),
    (b"w  7\n", UNREADABLE),
]


def commands(count):
    """So many commands of the cycle one after the other, and what they print after the counts."""
    rows = [CYCLE[i % len(CYCLE)] for i in range(count)]
    return b"".join(a for a, _ in rows), b"".join(b for _, b in rows)


class Run:
    """The program in a folder of its own; what it is given as standard input and output; what comes of it."""

    def __init__(self, stdin, stdout, day=DAY, before=None):
        self.folder = tempfile.mkdtemp()
        if day == "folder":
            os.mkdir(os.path.join(self.folder, "day.ttg"))
        elif day == "empty":
            open(os.path.join(self.folder, "day.ttg"), "wb").close()
        elif day is not None:
            shutil.copy(day, os.path.join(self.folder, "day.ttg"))
        self.process = subprocess.Popen(
            [PROGRAM], cwd=self.folder, stdin=stdin, stdout=stdout, stderr=subprocess.PIPE, preexec_fn=before
        )
        self.killer = threading.Timer(LIMIT, self.process.kill)
        self.killer.start()

    def end(self):
        """Standard error and the exit code."""
        error = self.process.stderr.read()
        code = self.process.wait()
        self.killer.cancel()
        shutil.rmtree(self.folder)
        return error, code


def expect(what, got, want):
    if got != want:
        raise AssertionError(f"{what}: {got[:200]!r}, not {want[:200]!r}" if isinstance(got, bytes) else f"{what}: {got}, not {want}")


def ends(run, error=b"", code=0):
    got, status = run.end()
    expect("standard error", got, error)
    expect("exit code", status, code)


def fed(data):
    """A file of these bytes to read."""
    f = tempfile.TemporaryFile()
    f.write(data)
    f.seek(0)
    return f


def printed(data, want, **how):
    """Given these bytes, it prints these."""
    with fed(data) as f, tempfile.TemporaryFile() as out:
        run = Run(f, out, **how)
        ends(run)
        out.seek(0)
        expect("printed", out.read(), want)


@contextlib.contextmanager
def pipe():
    r, w = os.pipe()
    try:
        yield r, w
    finally:
        for fd in (r, w):
            with contextlib.suppress(OSError):
                os.close(fd)


def read_line(fd):
    """The next line, within the limit."""
    line = b""
    until = time.time() + LIMIT
    while not line.endswith(b"\n"):
        if not select.select([fd], [], [], max(0, until - time.time()))[0]:
            raise AssertionError(f"no answer; so far {line!r}")
        byte = os.read(fd, 1)
        if not byte:
            raise AssertionError(f"output ended after {line!r}")
        line += byte
    return line


def read_all(fd):
    parts = []
    while part := os.read(fd, 1 << 16):
        parts.append(part)
    return b"".join(parts)


def waiting(fd):
    """How many bytes of a pipe are not read yet."""
    n = array.array("i", [0])
    fcntl.ioctl(fd, termios.FIONREAD, n)
    return n[0]


def ignoring(*signals):
    def before():
        for s in signals:
            signal.signal(s, signal.SIG_IGN)
    return before


def pour(fd, data):
    """Writes the data over and over until nobody reads it."""
    with contextlib.suppress(OSError):
        while True:
            os.write(fd, data)


# ---- output that fails


def full_device():
    with pipe() as (r, w), open("/dev/full", "wb") as out:
        ends(Run(r, out), b"standard output: No space left on device\n")


def full_device_refused_file():
    with pipe() as (r, w), open("/dev/full", "wb") as out:
        ends(Run(r, out, day=None), b"standard output: No space left on device\n")


def closed_output():
    with pipe() as (r, w):
        ends(Run(r, None, before=lambda: os.close(1)), b"standard output: Bad file descriptor\n")


def size_limit():
    data, answers = commands(20000)
    most = 100000

    def before():
        signal.signal(signal.SIGXFSZ, signal.SIG_IGN)
        resource.setrlimit(resource.RLIMIT_FSIZE, (most, most))

    with fed(data) as f, tempfile.TemporaryFile() as out:
        ends(Run(f, out, before=before), b"standard output: File too large\n")
        out.seek(0)
        expect("printed", out.read(), (COUNTS + answers)[:most])


def full_disk():
    """On a file system of four pages; where none can be mounted, the test is left out."""
    data, answers = commands(20000)
    disk = tempfile.mkdtemp()
    try:
        if subprocess.run(["mount", "-t", "tmpfs", "-o", "size=16k", "tmpfs", disk], capture_output=True).returncode != 0:
            return "left out: no file system can be mounted"
        try:
            with fed(data) as f, open(os.path.join(disk, "out"), "w+b") as out:
                ends(Run(f, out), b"standard output: No space left on device\n")
                out.seek(0)
                expect("printed", out.read(), (COUNTS + answers)[:16384])
        finally:
            subprocess.run(["umount", disk], check=True)
    finally:
        os.rmdir(disk)


def reader_gone(before, error, code):
    """The reader goes after the counts, while commands come without end."""
    with pipe() as (r, w), pipe() as (out, into):
        run = Run(r, into, before=before)
        os.close(into)
        os.close(r)
        expect("printed", read_line(out), COUNTS)
        os.close(out)
        feeder = threading.Thread(target=pour, args=(w, commands(1000)[0]))
        feeder.start()
        ends(run, error, code)
        feeder.join()


def reader_gone_ignored():
    reader_gone(ignoring(signal.SIGPIPE), b"standard output: Broken pipe\n", 0)


def reader_gone_signalled():
    """The program is started with the signal at its default, and ignores it."""
    reader_gone(None, b"standard output: Broken pipe\n", 0)


def output_not_waiting():
    """A pipe that nobody reads and that does not wait: what fits is written."""
    data, answers = commands(20000)
    with fed(data) as f, pipe() as (out, into):
        os.set_blocking(into, False)
        run = Run(f, into)
        os.close(into)
        ends(run, b"standard output: Resource temporarily unavailable\n")
        got = read_all(out)
        want = COUNTS + answers
        expect("printed", got, want[: len(got)])
        expect("as much as a pipe holds", 4096 <= len(got) < len(want), True)


# ---- input that fails


def folder_as_input():
    fd = os.open(HERE, os.O_RDONLY)
    with tempfile.TemporaryFile() as out:
        ends(Run(fd, out), b"standard input: Is a directory\n")
        out.seek(0)
        expect("printed", out.read(), COUNTS)
    os.close(fd)


def closed_input():
    with tempfile.TemporaryFile() as out:
        ends(Run(None, out, before=lambda: os.close(0)), b"standard input: Bad file descriptor\n")
        out.seek(0)
        expect("printed", out.read(), COUNTS)


def input_not_waiting():
    """A pipe that does not wait, with a command and half of one: the half is neither worked nor refused."""
    with pipe() as (r, w), tempfile.TemporaryFile() as out:
        os.set_blocking(r, False)
        os.write(w, ASK + b"m 0")
        ends(Run(r, out), b"standard input: Resource temporarily unavailable\n")
        out.seek(0)
        expect("printed", out.read(), COUNTS + EARLY)


def stopped_and_continued():
    """Stopped while it waits for a command, and continued: the wait is no failure."""
    with pipe() as (r, w), pipe() as (out, into):
        run = Run(r, into)
        os.close(into)
        expect("printed", read_line(out), COUNTS)
        run.process.send_signal(signal.SIGSTOP)
        os.waitid(os.P_PID, run.process.pid, os.WSTOPPED)
        run.process.send_signal(signal.SIGCONT)
        os.waitid(os.P_PID, run.process.pid, os.WCONTINUED)
        os.write(w, ASK)
        expect("answer", read_line(out), EARLY)
        os.close(w)
        ends(run)


# ---- the timetable


def no_timetable():
    with pipe() as (r, w), tempfile.TemporaryFile() as out:
        ends(Run(r, out, day=None))
        out.seek(0)
        expect("printed", out.read(), b"no 1 at 0\n")


def folder_as_timetable():
    with pipe() as (r, w), tempfile.TemporaryFile() as out:
        ends(Run(r, out, day="folder"))
        out.seek(0)
        expect("printed", out.read(), b"no 1 at 0\n")


def empty_timetable():
    with pipe() as (r, w), tempfile.TemporaryFile() as out:
        ends(Run(r, out, day="empty"))
        out.seek(0)
        expect("printed", out.read(), b"no 1 at 0\n")


# ---- input in pieces


def no_input():
    printed(b"", COUNTS)


def last_line_without_newline():
    printed(ASK + b"m 0 4", COUNTS + EARLY + UNREADABLE)


def single_bytes():
    data, answers = commands(2 * len(CYCLE))
    with pipe() as (r, w), tempfile.TemporaryFile() as out:
        run = Run(r, out)
        for byte in data + b"m 0 4":
            os.write(w, bytes([byte]))
            while waiting(r) > 0 and run.process.poll() is None:
                time.sleep(0)
        os.close(w)
        ends(run)
        out.seek(0)
        expect("printed", out.read(), COUNTS + answers + UNREADABLE)


def long_line():
    printed(b"w 1" + b" " * 1000000 + b"\n" + ASK, COUNTS + UNREADABLE + EARLY)


def long_last_line():
    printed(ASK + b"x" * 1000000, COUNTS + EARLY + UNREADABLE)


def long_lines_around_a_block():
    """Lines of every length from 65,500 to 65,560 bytes, each before a command."""
    lengths = range(65500, 65561)
    printed(b"".join(b"x" * (n - 1) + b"\n" + ASK for n in lengths), COUNTS + (UNREADABLE + EARLY) * len(lengths))


def commands_across_blocks():
    """A command that starts at each of the last bytes of the first block, and at the first of the second."""
    for start in range(65536 - len(ASK) - 1, 65538):
        fill = b"\n" * start
        printed(fill + ASK + ASK, COUNTS + UNREADABLE * start + EARLY + EARLY)


def hundred_thousand_commands():
    """Each write is a message of its own: together they are few."""
    data, answers = commands(100000)
    ours, theirs = socket.socketpair(socket.AF_UNIX, socket.SOCK_SEQPACKET)
    with fed(data) as f, ours, theirs:
        run = Run(f, theirs)
        theirs.close()
        parts = []
        while part := ours.recv(1 << 20):
            parts.append(part)
        ends(run)
        expect("printed", b"".join(parts), COUNTS + answers)
        expect("at most a write for 32 KiB", len(parts) <= 1 + len(answers) // 32768, True)
        expect("writes end with a line", all(part.endswith(b"\n") for part in parts), True)


def answer_before_next_command():
    with pipe() as (r, w), pipe() as (out, into):
        run = Run(r, into)
        os.close(into)
        expect("printed", read_line(out), COUNTS)
        for i in range(50 * len(CYCLE)):
            line, answer = CYCLE[i % len(CYCLE)]
            os.write(w, line)
            expect("answer", read_line(out), answer)
        os.write(w, ASK + b"m 0 4\nm ")
        expect("answer", read_line(out), EARLY)
        expect("answer", read_line(out), b"margin 5\n")
        os.write(w, b"0 4\n")
        expect("answer", read_line(out), b"margin 5\n")
        os.close(w)
        ends(run)
        expect("after the last answer", read_all(out), b"")


# ---- stored runs


def stored(name):
    """What is printed to the commands of a folder of runs."""
    def test():
        folder = os.path.join(HERE, "runs", name)
        with open(os.path.join(folder, "commands"), "rb") as given, open(os.path.join(folder, "printed"), "rb") as want:
            printed(given.read(), want.read(), day=os.path.join(folder, "day.ttg"))
    test.__name__ = "runs/" + name
    return test


TESTS = [stored(name) for name in sorted(os.listdir(os.path.join(HERE, "runs")))] + [
    full_device,
    full_device_refused_file,
    closed_output,
    size_limit,
    full_disk,
    reader_gone_ignored,
    reader_gone_signalled,
    output_not_waiting,
    folder_as_input,
    closed_input,
    input_not_waiting,
    stopped_and_continued,
    no_timetable,
    folder_as_timetable,
    empty_timetable,
    no_input,
    last_line_without_newline,
    single_bytes,
    long_line,
    long_last_line,
    long_lines_around_a_block,
    commands_across_blocks,
    hundred_thousand_commands,
    answer_before_next_command,
]

passed = failed = 0
for test in TESTS:
    try:
        note = test()
    except Exception as problem:
        failed += 1
        print(f"{test.__name__}: failed: {problem}")
    else:
        passed += note is None
        if note:
            print(f"{test.__name__}: {note}")
print(f"{passed} passed, {failed} failed")
sys.exit(failed > 0)
