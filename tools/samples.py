#!/usr/bin/env python3
"""Runs the commands seldump and selmake on the files of examples/ and on inputs whose outcome the rules give at once, and compares what they print and
their statuses; with arguments, the program of that name by the command that follows: samples.py NAME COMMAND.

What must be printed stands in examples/ and below, from the rules (docs/SCOPE.md), never from the programs. One line for each difference and exit
status 1, or one line that says how many samples agree.
"""

import collections
import fcntl
import itertools
import os
import pathlib
import shutil
import signal
import struct
import subprocess
import sys
import tempfile
import termios
import threading
import time
import tty

ROOT = pathlib.Path(__file__).resolve().parent.parent
SECONDS = 60  # for one run

# The case of the rules: a line of input, and its line of output.
LINE = b"ask=0000 next=FFFF record=010002E8030000200004013001595A55\n"
RECORD = LINE[18:]
OUTPUT = (b"id=0001 time=+1000 gen=i2c:10 chan=0 lun=0 rev=04 sensor=01 number=30 dir=assert type=01 "
          b"event=Upper Critical - going high data=reading=90, threshold=85\n")
ENDED = OUTPUT + b"walk=ended read=1\n"


def capture(*links):
    """The case's record in a slot for each (asked id, next id)."""
    return b"".join(b"ask=%04X next=%04X" % link + RECORD for link in links)


def bad(line):
    return b"refused=6 line=%d\n" % line


STATUS = {b"walk=ended": 0, b"walk=missing": 3, b"walk=circle": 4, b"refused=6": 5, b"refused=5": 5}


def closes(must, says=b""):
    """What must be printed, with the status that its last line asks for, and what must be said on standard error."""
    return must, STATUS[must.splitlines()[-1].split()[0]], says


CIRCLE = capture(*((k, (k + 1) % 3000) for k in range(3000)))
CHAIN = capture(*((k, k + 1 if k < 2999 else 0xFFFF) for k in reversed(range(3000))))
TOO_MANY = b"refused=5 line=3001\n"

# Of seldump: name, standard input, what must be printed
DUMPED = [
    ("the case of the rules", LINE, ENDED),
    ("an empty input", b"", b"walk=missing ask=0000 read=0\n"),
    ("a later id missing", capture((0, 1)), OUTPUT + b"walk=missing ask=0001 read=1\n"),
    ("a slot that names itself", capture((0, 0)), OUTPUT + b"walk=circle read=1\n"),
    ("an asked id twice", capture((0, 0xFFFF), (0, 0)), ENDED),
    ("a lone newline", b"\n", bad(1)),
    ("one more newline", LINE + b"\n", bad(2)),
    ("59 NUL bytes", bytes(59), bad(1)),
    ("a NUL byte before the newline", LINE[:-1] + b"\0\n", bad(1)),
    ("a NUL byte in the second line", LINE + LINE.replace(b" ", b"\0"), bad(2)),
    ("CR LF", LINE.replace(b"\n", b"\r\n") * 3, bad(1)),
    ("CR LF in the second line", LINE + LINE.replace(b"\n", b"\r\n"), bad(2)),
    ("lower case", LINE + LINE + LINE.lower(), bad(3)),
    ("a line of 100,000 characters", b"0" * 100_000 + b"\n" + LINE, bad(1)),
    ("a line of 100,000 characters after two good ones", LINE * 2 + b"0" * 100_000 + b"\n", bad(3)),
    ("a line of 100,000 characters that ends in a good one", b"0" * 100_000 + LINE, bad(1)),
    ("100,000 characters and no newline", b"0" * 100_000, bad(1)),
    ("a good line without newline", LINE[:-1], bad(1)),
    ("a second line without newline", LINE + LINE[:-1], bad(2)),
    ("3,001 good lines without newlines", LINE[:-1] * 3001, bad(1)),
    ("3,000 lines in a circle", CIRCLE, OUTPUT * 3000 + b"walk=circle read=3000\n"),
    ("3,000 lines in reverse", CHAIN, OUTPUT * 3000 + b"walk=ended read=3000\n"),
    ("3,000 lines and a newline", CHAIN + b"\n", bad(3001)),
    ("3,001 lines", CHAIN + LINE, TOO_MANY),
    ("3,001 lines and what is no line", CHAIN + LINE + b"\0", TOO_MANY),
    ("6,000 lines", CHAIN * 2, TOO_MANY),
    ("3,001 lines, the last one bad", CHAIN + LINE.lower(), bad(3001)),
    ("3,001 lines, the last one without newline", CHAIN + LINE[:-1], bad(3001)),
    ("3,001 lines, the first one bad", LINE.lower() + CHAIN, bad(1)),
]

DUMPED_IN_PIECES = [
    ("the case of the rules", LINE, ENDED),
    ("two slots", capture((0, 0x00FF), (0x00FF, 0xFFFF)), OUTPUT * 2 + b"walk=ended read=2\n"),
    ("a third line bad", LINE * 2 + LINE.lower(), bad(3)),
    ("a second line without newline", LINE + LINE[:-1], bad(2)),
]

# Lines of entries: that of the case, and both kinds of OEM entries, with their records.
ENTRY = b"id=0001 time=000003E8 gen=0:10 chan=0 lun=0 rev=04 sensor=01 number=30 dir=0 type=01 offset=9 data2=1:5A data3=1:55\n"
STAMPED, STAMPED_RECORD = b"id=0104 type=C1 time=6553F1FF maker=0002A2 data=0102030405FF\n", b" record=0401C1FFF15365A202000102030405FF\n"
PLAIN, PLAIN_RECORD = b"id=ABCD type=E0 data=000102030405060708090A0B0C\n", b" record=CDABE0000102030405060708090A0B0C\n"
THREE = b"ask=0000 next=0104" + RECORD + b"ask=0104 next=ABCD" + STAMPED_RECORD + b"ask=ABCD next=FFFF" + PLAIN_RECORD


def makes(must):
    """What comes where the capture is made."""
    return must, 0, b""


def no_line(line):
    return b"", 5, b"selmake: line %d: no entry line (6)\n" % line


def no_such(line):
    return b"", 5, b"selmake: line %d: no such record (7)\n" % line


def entry(*changes):
    """The case's line with other fields."""
    line = ENTRY
    for field, value in (change.split(b"=") for change in changes):
        start = line.index(field + b"=") + len(field) + 1
        line = line[:start] + value + line[start + len(value):]
    return line


def slot(place, digits):
    """The case's slot, with other digits from a byte of its record on."""
    start = len(b"ask=0000 next=FFFF record=") + 2 * place
    return makes(LINE[:start] + digits + LINE[start + len(digits):])


MANY = ENTRY * 3000
MADE = makes(capture((0, 1), *[(1, 1)] * 2998, (1, 0xFFFF)))
MORE_LINES = b"", 5, b"selmake: more than 3000 lines (5)\n"

NO_RECORD = (b"gen=0:80", b"gen=1:80", b"gen=2:10", b"chan=C", b"chan=D", b"lun=4", b"dir=2", b"type=80",
             b"data2=1:FF", b"data2=0:01", b"data2=4:00", b"data3=3:FF", b"data3=0:FF", b"data3=4:00")

# Of selmake: name, standard input, what must come
ENTRIES = [
    ("a system entry", ENTRY, makes(LINE)),
    ("an OEM entry with a time", STAMPED, makes(b"ask=0000 next=FFFF" + STAMPED_RECORD)),
    ("an OEM entry without", PLAIN, makes(b"ask=0000 next=FFFF" + PLAIN_RECORD)),
    ("all three", ENTRY + STAMPED + PLAIN, makes(THREE)),
    ("an empty input", b"", makes(b"")),
    ("a software id", entry(b"gen=1:7F"), slot(7, b"FF")),
    ("the highest address, channel and unit", entry(b"gen=0:7F", b"chan=B", b"lun=3"), slot(7, b"FEB3")),
    ("system software's channel, another revision", entry(b"chan=F", b"rev=05"), slot(8, b"F005")),
    ("a deassertion, the highest type and offset", entry(b"dir=1", b"type=7F", b"offset=F"), slot(12, b"FF5F")),
    ("event data that is unspecified", entry(b"data2=0:00", b"data3=0:00"), slot(13, b"09FFFF")),
    ("event data of the other kinds", entry(b"data2=2:00", b"data3=3:FE"), slot(13, b"B900FE")),
    *((f"no record: {change.decode()}", entry(change), no_such(1)) for change in NO_RECORD),
    ("no record: a software id with a unit", entry(b"gen=1:10", b"lun=1"), no_such(1)),
    ("no record: a time under type E0", STAMPED.replace(b"C1", b"E0"), no_such(1)),
    ("no record: no time under type DF", PLAIN.replace(b"E0", b"DF"), no_such(1)),
    ("no entry line", ENTRY + b"id=0001\n", no_line(2)),
    ("no record, then no entry line", entry(b"lun=4") + b"\n", no_such(1)),
    ("no entry line, then no record", ENTRY + b"\n" + entry(b"lun=4"), no_line(2)),
    ("a lone newline", b"\n", no_line(1)),
    ("a last line without newline", ENTRY + PLAIN[:-1], no_line(2)),
    ("CR LF", ENTRY.replace(b"\n", b"\r\n"), no_line(1)),
    ("lower case", ENTRY + STAMPED.lower(), no_line(2)),
    ("a slot's line", LINE, no_line(1)),
    ("a NUL byte before the newline", PLAIN[:-1] + b"\0\n", no_line(1)),
    ("400,000 characters and no newline", ENTRY + b"0" * 400_000, no_line(2)),
    ("3,000 lines", MANY, MADE),
    ("3,000 lines, the last one refused", MANY[:-len(ENTRY)] + entry(b"lun=4"), no_such(3000)),
    ("3,001 lines", MANY + ENTRY, MORE_LINES),
    ("3,001 lines, the last one a newline", MANY + b"\n", MORE_LINES),
    ("3,001 lines, the last one without newline", MANY + b"0", MORE_LINES),
    ("6,000 lines", MANY * 2, MORE_LINES),
    ("3,001 lines, the first one bad", ENTRY.lower() + MANY, no_line(1)),
]


def in_pieces(process, data, size):
    """Writes each piece once the program has read all before it; it may stop reading at any time."""
    pipe, end = process.stdin.fileno(), time.monotonic() + SECONDS
    try:
        for place in range(0, len(data), size):
            while struct.unpack("i", fcntl.ioctl(pipe, termios.FIONREAD, bytes(4)))[0] and process.poll() is None and time.monotonic() < end:
                time.sleep(0.0001)
            os.write(pipe, data[place:place + size])
    except BrokenPipeError:
        pass


def run(command, data=None, file=subprocess.PIPE, size=None, **more):
    """What the command prints, its status and what it says on standard error, given data, at once or in pieces, or a file as standard input."""
    # a group of its own, so that a command that does not end can be ended with all that it started
    with subprocess.Popen(command, cwd=ROOT, stdin=file, stderr=subprocess.PIPE, start_new_session=True, **{"stdout": subprocess.PIPE, **more}) as process:
        try:
            if size:
                in_pieces(process, data, size)
                data = None
            prints, says = process.communicate(data, timeout=SECONDS)
            return prints or b"", process.returncode, says
        except subprocess.TimeoutExpired:
            os.killpg(process.pid, signal.SIGKILL)
            return b"(not ended after %d seconds)" % SECONDS, None, b""


def terminals():
    """Whether there are terminals on this machine."""
    try:
        for end in os.openpty():
            os.close(end)
        return True
    except OSError:
        return False


def run_until_error(command, data):
    """What the command prints where the data is read, and then a read fails: the data comes through a terminal that is closed."""
    read, write = os.openpty()
    tty.setraw(write)
    os.write(write, data)
    closing = threading.Timer(0.2, os.close, [write])
    closing.start()
    try:
        return run(command, file=read)
    finally:
        closing.join()
        os.close(read)


def run_on(command, path):
    file = os.open(path, os.O_RDONLY)
    try:
        return run(command, file=file)
    finally:
        os.close(file)


CUT = b"cannot be read to its end"
UNWRITTEN = b"cannot be written"

# Of a program: an example, with the ending that all of its inputs in examples/ have, the ending of its outputs there, and what comes where one is printed;
# other inputs, and those that are given in pieces; a good line, what is printed for it, and an input with much to print; what comes where line k cannot be read.
Program = collections.namedtuple("Program", "example output comes inputs pieces line printed long cut")
PROGRAMS = {
    "seldump": Program(
        ROOT / "examples/oem.txt", ".out", closes, [(name, data, closes(must, b"CR LF" if b"\r\n" in data else b"")) for name, data, must in DUMPED],
        [(name, data, closes(must)) for name, data, must in DUMPED_IN_PIECES], LINE, ENDED, CHAIN, lambda k: closes(bad(k), CUT)),
    "selmake": Program(ROOT / "examples/made.entries", ".txt", makes, ENTRIES, ENTRIES[:5], ENTRY, LINE, MANY, lambda k: (b"", 1, CUT)),
}


def calls(program, command):
    """Of each way to call it: what must be printed (None: anything), the status, and what must be said; and what came."""
    example = program.example
    yield "--", program.comes(example.with_suffix(program.output).read_bytes()), run([*command, "--", str(example)])
    yield "- for standard input", program.comes(program.printed), run([*command, "-"], program.line)
    for word in ("--help", "-h", "--version"):
        yield word, (None, 0, b""), run([*command, word])
    yield "an unknown option", (b"", 2, b"unknown option --colour"), run([*command, "--colour"])
    yield "two files", (b"", 2, b"one file at most"), run([*command, str(example), str(example)])
    yield "no such file", (b"", 1, b"there is no file"), run([*command, "examples/none"])
    yield "a directory", (b"", 1, b"is a directory"), run([*command, "examples"])
    yield "a file's name with an escape sequence", (b"", 1, b"none?[31m"), run([*command, "none\x1b[31m"])
    yield "standard input closed", (b"", 1, b"standard input is closed"), run(command, file=None, preexec_fn=lambda: os.close(0))
    yield "standard output closed", (b"", 1, b"standard output is closed"), run(command, program.line, preexec_fn=lambda: os.close(1))
    with open("/dev/full", "wb") as full:
        yield "a full disk", (b"", 1, UNWRITTEN), run(command, program.line, stdout=full)
    yield "a reader that goes away", (b"", 1, b""), run_with_output(command, program.long, reads=10)
    yield "output that would block", (b"", 1, UNWRITTEN), run_with_output(command, program.long, blocks=False)
    yield "input that would block", program.cut(1), run_without_input(command)


def run_with_output(command, data, reads=0, blocks=True):
    """With a pipe as standard output of which so many bytes are read before it is closed; or none, and writing to it does not wait."""
    end, output = os.pipe()
    os.set_blocking(output, blocks)
    with tempfile.TemporaryFile() as file:  # all is there to be read, also where the command waits to write
        file.write(data)
        file.seek(0)
        process = subprocess.Popen(command, cwd=ROOT, stdin=file, stdout=output, stderr=subprocess.PIPE)
    try:
        with process:
            os.close(output)
            if blocks:
                os.read(end, reads)
                os.close(end)
            said = process.stderr.read()
            return b"", process.wait(SECONDS), said
    finally:
        if not blocks:
            os.close(end)


def run_without_input(command):
    """With a pipe as standard input that has no byte yet, and reading from it does not wait."""
    input, end = os.pipe()
    os.set_blocking(input, False)
    try:
        return run(command, file=input)
    finally:
        os.close(input)
        os.close(end)


# Stands before the C library's read: of three reads two are interrupted by a signal.
INTERRUPTED = """#include <errno.h>
#include <sys/syscall.h>
#include <unistd.h>
ssize_t read(int fd, void *to, size_t most) {
    static int calls;
    if (++calls % 3 != 0) { errno = EINTR; return -1; }
    return syscall(SYS_read, fd, to, most);
}
"""


def runs_by_itself(program):
    """It does not where the C library is too old."""
    try:
        return run([str(program)], b"")[1] == 0
    except OSError:
        return False


def interrupted(folder):
    """The built program itself, with reads that are interrupted; nothing where there is no C compiler, or it does not run by itself here."""
    source, library, program = folder / "read.c", folder / "read.so", ROOT / "target/bin/seldump"
    source.write_text(INTERRUPTED)
    alone = shutil.which("cc") and runs_by_itself(program)
    if not alone or subprocess.run(["cc", "-shared", "-fPIC", "-o", library, source], stderr=subprocess.DEVNULL).returncode != 0:
        print("samples: no C compiler, or no program that runs by itself, so the reads that are interrupted are left out")
        return
    environment = {**os.environ, "LD_PRELOAD": str(library)}
    yield "two of three reads interrupted", (OUTPUT * 3000 + b"walk=ended read=3000\n", 0, b""), run([str(program)], CHAIN, env=environment)


def outcomes(name, command):
    """Of each sample its name, what must come, and what came: what is printed, the status, and words on standard error."""
    program = PROGRAMS[name]
    for path in sorted({program.example, *(ROOT / "examples").glob("*" + program.example.suffix)}):
        output = path.with_suffix(program.output)
        must = program.comes(output.read_bytes()) if output.exists() else (b"(no %s there)" % output.name.encode(), 0, b"")
        yield f"examples/{path.name} as FILE", must, run([*command, str(path)], file=subprocess.DEVNULL)
        yield f"examples/{path.name} as standard input", must, run_on(command, path)
    for sample, data, must in program.inputs:
        yield sample, must, run(command, data)
    for sample, data, must in program.pieces:
        yield f"{sample}, in pieces of 7 bytes", must, run(command, data, size=7)
    yield "a folder as standard input", program.cut(1), run_on(command, ROOT)
    yield from calls(program, command)
    if name == "seldump":  # selmake takes a read that is interrupted for one that fails
        with tempfile.TemporaryDirectory() as folder:
            yield from interrupted(pathlib.Path(folder))
    if not terminals():
        print("samples: no terminal is to be had, so the reads that fail after good bytes are left out")
        return
    line = program.line
    for sample, data, k in (("a line without newline", line[:-1], 1), ("a good line", line, 2), ("a bad line and a good one", line.lower() + line, 1)):
        yield f"{sample}, and then a read that fails", program.cut(k), run_until_error(command, data)


def difference(must, came):
    """What is not as it must be; None where all is. Where no words must be said, none may be."""
    if must[0] is not None and came[0] != must[0]:
        return first_difference(must[0], came[0])
    if came[1] != must[1]:
        return f"the status must be {must[1]}, is {came[1]}, and {came[2]!r} is said"
    if must[2] not in came[2] or bool(must[2]) != bool(came[2]):
        return f"{must[2]!r} must be said, is {came[2]!r}"


def first_difference(must, prints):
    lines = itertools.zip_longest(must.split(b"\n"), prints.split(b"\n"), fillvalue=b"(end)")
    return next(f"line {number} must be {says!r}, is {stands!r}" for number, (says, stands) in enumerate(lines, 1) if says != stands)


def main():
    commands = {sys.argv[1]: sys.argv[2:]} if sys.argv[1:] else {name: [f"./{name}"] for name in PROGRAMS}
    agree = differ = 0
    try:
        for program, command in commands.items():
            subprocess.run(command, cwd=ROOT, stdin=subprocess.DEVNULL, stdout=subprocess.DEVNULL)  # the first run may build, which takes its time
            for name, must, came in outcomes(program, command):
                fault = difference(must, came)
                if fault:
                    differ += 1
                    print(f"samples: {program}, {name}: {fault}")
                else:
                    agree += 1
    except OSError as error:
        print(f"samples: {error}")
        return 1
    if differ == 0:
        print(f"samples: {agree} agree")
    return 1 if differ else 0


sys.exit(main())
