"""gtfs_import and gtfs_export. A stored run is a folder of runs/, named after its program and a case: `in` has the files that the program
finds, `out` those that stand there afterwards, `printed` and `error` what it prints on either stream. The other tests are about the longest
timetable, and about files that are too long, or cannot be read or written. Every test compares all files afterwards, both streams and the
exit code. Usage: gtfs.py FOLDER"""
import os
import shutil
import struct
import subprocess
import sys
import tempfile

LIMIT = 10
HERE = os.path.dirname(os.path.abspath(__file__))
PROGRAMS = os.path.abspath(sys.argv[1])

HEADER = b"trip_id,arrival_time,departure_time,stop_id,stop_sequence\n"
# Stop 0 to stop 1 from 10:00 to 10:20, with transfer times 4 and 5.
TEXT = HEADER + b"0,10:00:00,10:00:00,0,0\n0,10:20:00,10:20:00,1,1\n"
CHANGE = b"4\n5\n"
DAY = b"TTG" + bytes([1, 0, 2, 0, 1, 0, 4, 0, 5, 0, 0, 0, 0, 0, 1, 0, 88, 2, 108, 2])
COUNTS = b"stops 2 rides 1\n"
OLD = b"an older file"


def folder_of(files):
    """A new folder with these files; None for a folder of the name, a string for a link to that path."""
    folder = tempfile.mkdtemp()
    for name, data in files.items():
        path = os.path.join(folder, name)
        if data is None:
            os.makedirs(os.path.join(path, "inside"))
        elif isinstance(data, str):
            os.symlink(data, path)
        else:
            with open(path, "wb") as f:
                f.write(data)
    return folder


def files_in(folder):
    """The files of a folder; a folder or a link in it as folder_of has it."""
    found = {}
    for name in os.listdir(folder):
        path = os.path.join(folder, name)
        if os.path.islink(path):
            found[name] = os.readlink(path)
        elif os.path.isdir(path):
            found[name] = None
        else:
            with open(path, "rb") as f:
                found[name] = f.read()
    return found


def expect(what, got, want):
    if got != want:
        raise AssertionError(f"{what}: {str(got)[:300]}, not {str(want)[:300]}")


def works(program, given, after, printed=b"", error=b""):
    """The program finds these files, prints these bytes on either stream, and leaves these files."""
    folder = folder_of(given)
    try:
        run = subprocess.run([os.path.join(PROGRAMS, program)], cwd=folder, stdin=subprocess.DEVNULL, capture_output=True, timeout=LIMIT)
        expect("printed", run.stdout, printed)
        expect("standard error", run.stderr, error)
        expect("exit code", run.returncode, 0)
        expect("files", files_in(folder), after)
    finally:
        shutil.rmtree(folder)


def stored(name):
    """A stored run."""
    run = os.path.join(HERE, "runs", name)
    with open(os.path.join(run, "printed"), "rb") as f:
        printed = f.read()
    with open(os.path.join(run, "error"), "rb") as f:
        error = f.read()
    given = files_in(os.path.join(run, "in")) if os.path.isdir(os.path.join(run, "in")) else {}
    after = files_in(os.path.join(run, "out")) if os.path.isdir(os.path.join(run, "out")) else {}
    works(name.split("-")[0], given, {**given, **after}, printed, error)


def imports(given, after=None, printed=b"", error=b""):
    """gtfs_import leaves what it found and these files."""
    works("gtfs_import", given, {**given, **(after or {})}, printed, error)


def exports(given, after=None, printed=b"", error=b""):
    works("gtfs_export", given, {**given, **(after or {})}, printed, error)


FEED = {"stop_times.txt": TEXT, "change.txt": CHANGE}
NO_FILE = b"No such file or directory\n"
IS_FOLDER = b"Is a directory\n"

# The timetable with the longest text, 113838 bytes: 500 stops, and 2000 trips of one ride from stop 498 to stop 499.
RIDES = b"".join(struct.pack("<5H", trip, 498, 499, 600, 601) for trip in range(2000))
LONGEST = {"day.ttg": b"TTG" + struct.pack("<503H", 1, 500, 2000, *[60] * 500) + RIDES}
LONGEST_FEED = {
    "stop_times.txt": HEADER + b"".join(b"%d,10:00:00,10:00:00,498,0\n%d,10:01:00,10:01:00,499,1\n" % (trip, trip) for trip in range(2000)),
    "change.txt": b"60\n" * 500,
}
LONGEST_COUNTS = b"stops 500 rides 2000\n"


def longest_text(length):
    """A text of this many bytes whose first row is wrong."""
    return HEADER + b"x" * (length - len(HEADER))


def tests():
    for name in sorted(os.listdir(os.path.join(HERE, "runs"))):
        yield f"stored run {name}", lambda name=name: stored(name)
    yield "a feed", lambda: imports(FEED, {"day.ttg": DAY}, COUNTS)
    yield "an older day.ttg is replaced", lambda: imports({**FEED, "day.ttg": OLD}, {"day.ttg": DAY}, COUNTS)
    yield "an older day.ttg stays after a refusal", lambda: imports(
        {**FEED, "change.txt": b"61\n5\n", "day.ttg": OLD}, printed=b"no 7 at 0\n"
    )
    yield "no change.txt", lambda: imports({"stop_times.txt": TEXT, "day.ttg": OLD}, error=b"change.txt: " + NO_FILE)
    yield "stop_times.txt is a folder", lambda: imports({**FEED, "stop_times.txt": None}, error=b"stop_times.txt: " + IS_FOLDER)
    yield "change.txt is a folder", lambda: imports({**FEED, "change.txt": None}, error=b"change.txt: " + IS_FOLDER)
    yield "an empty stop_times.txt", lambda: imports({**FEED, "stop_times.txt": b""}, printed=b"no 31 at 0\n")
    yield "an empty change.txt", lambda: imports({**FEED, "change.txt": b""}, printed=b"no 4 at 0\n")
    yield "a first line alone", lambda: imports(
        {**FEED, "stop_times.txt": HEADER}, {"day.ttg": b"TTG" + bytes([1, 0, 2, 0, 0, 0, 4, 0, 5, 0])}, b"stops 2 rides 0\n"
    )
    yield "500 stops", lambda: imports(
        {**FEED, "change.txt": b"0\n" * 500},
        {"day.ttg": b"TTG" + bytes([1, 0, 244, 1, 1, 0]) + bytes(1000) + DAY[13:]},
        b"stops 500 rides 1\n",
    )
    yield "501 stops", lambda: imports({**FEED, "change.txt": b"0\n" * 501}, printed=b"no 4 at 0\n")
    yield "change.txt of 65536 bytes", lambda: imports({**FEED, "change.txt": b"0\n" * 32768}, printed=b"no 4 at 0\n")
    yield "change.txt of 65537 bytes", lambda: imports(
        {**FEED, "change.txt": b"0\n" * 32767 + b"00\n"}, error=b"change.txt: longer than 65536 bytes\n"
    )
    for text, line in (
        (b"4\n5", 2),
        (b"4\n\n", 2),
        (b"x\n5\n", 1),
        (b"4\r\n5\n", 1),
        (b"4\n65536\n", 2),
        (b"4\n000005\n", 2),
        (b"4 \n", 1),
        (b"\n", 1),
    ):
        yield f"change.txt {text!r}", lambda text=text, line=line: imports(
            {**FEED, "change.txt": text}, error=b"change.txt: line %d is no number from 0 to 65535\n" % line
        )
    yield "change.txt with leading zeros", lambda: imports({**FEED, "change.txt": b"00004\n05\n"}, {"day.ttg": DAY}, COUNTS)
    yield "a text of 1048576 bytes", lambda: imports({**FEED, "stop_times.txt": longest_text(1048576)}, printed=b"no 31 at 1\n")
    yield "a text of 1048577 bytes", lambda: imports(
        {**FEED, "stop_times.txt": longest_text(1048577)}, error=b"stop_times.txt: longer than 1048576 bytes\n"
    )
    yield "the longest timetable", lambda: imports(LONGEST_FEED, LONGEST, LONGEST_COUNTS)
    yield "day.ttg.new cannot be written", lambda: imports(
        {**FEED, "day.ttg": OLD, "day.ttg.new": None}, error=b"day.ttg.new: " + IS_FOLDER
    )
    yield "no room for day.ttg.new", lambda: works(
        "gtfs_import",
        {**FEED, "day.ttg": OLD, "day.ttg.new": "/dev/full"},
        {**FEED, "day.ttg": OLD},
        error=b"day.ttg.new: No space left on device\n",
    )
    yield "day.ttg is a folder", lambda: imports({**FEED, "day.ttg": None}, error=b"day.ttg: " + IS_FOLDER)
    yield "a file", lambda: exports({"day.ttg": DAY}, FEED, COUNTS)
    yield "the longest text", lambda: exports(LONGEST, LONGEST_FEED, LONGEST_COUNTS)
    yield "older texts are replaced", lambda: exports({"day.ttg": DAY, "stop_times.txt": OLD, "change.txt": OLD}, FEED, COUNTS)
    yield "older texts stay after a refusal", lambda: exports(
        {"day.ttg": DAY[:-1], "stop_times.txt": OLD, "change.txt": OLD}, printed=b"no 6 at 0\n"
    )
    yield "day.ttg is a folder, for export", lambda: exports({"day.ttg": None}, error=b"day.ttg: " + IS_FOLDER)
    yield "an empty day.ttg", lambda: exports({"day.ttg": b""}, printed=b"no 1 at 0\n")
    yield "a day.ttg longer than any", lambda: exports(
        {"day.ttg": b"TTG" + bytes([1, 0, 244, 1, 208, 7]) + bytes(30000)}, printed=b"no 6 at 0\n"
    )
    yield "no room for stop_times.txt.new", lambda: works(
        "gtfs_export",
        {"day.ttg": DAY, "stop_times.txt.new": "/dev/full"},
        {"day.ttg": DAY},
        error=b"stop_times.txt.new: No space left on device\n",
    )
    yield "no room for change.txt.new", lambda: works(
        "gtfs_export",
        {"day.ttg": DAY, "stop_times.txt": OLD, "change.txt.new": "/dev/full"},
        {"day.ttg": DAY, "stop_times.txt": OLD},
        error=b"change.txt.new: No space left on device\n",
    )
    yield "stop_times.txt is a folder, for export", lambda: works(
        "gtfs_export",
        {"day.ttg": DAY, "stop_times.txt": None, "change.txt": OLD},
        {"day.ttg": DAY, "stop_times.txt": None, "change.txt": OLD},
        error=b"stop_times.txt: " + IS_FOLDER,
    )
    yield "change.txt is a folder, for export", lambda: exports(
        {"day.ttg": DAY, "stop_times.txt": OLD, "change.txt": None}, {"stop_times.txt": TEXT}, error=b"change.txt: " + IS_FOLDER
    )


passed = failed = 0
for what, test in tests():
    try:
        test()
        passed += 1
    except Exception as error:
        failed += 1
        print(f"{what}: {error}")
print(f"{passed} passed, {failed} failed")
sys.exit(failed > 0)
