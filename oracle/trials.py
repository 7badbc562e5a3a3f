"""Random records, lines that are broken, and how a program is given an input: for the commands that compare one with the rules."""

import collections
import fcntl
import itertools
import os
import struct
import subprocess
import tempfile
import termios
import threading
import time
import tty

import rust

SECONDS = 20  # for one run of a program
NOT_ENDED = b"(not ended after %d seconds)" % SECONDS

# How an input is given: a file; a pipe, as fast as it is read; a pipe in pieces, each written once all before it has been read; a terminal whose other
# end closes, so that a read error follows the bytes; a folder, or what is open for writing alone, so that there is nothing but a read error.
Case = collections.namedtuple("Case", "name data way pieces", defaults=("pipe", ()))


# ---- records


def system(rng):
    event = rng.choice([rng.randrange(1, 13), 0x6F, 0x6F, rng.randrange(128)]) | rng.choice((0x00, 0x80))
    sensor = rng.choice([rng.randrange(0x2D), rng.randrange(0x2D), rng.randrange(256)])
    channel = rng.choice((0, 0, 0, rng.randrange(16)))
    values = [rng.choice((0x00, 0xFE, 0xFF, 9, 10, 99, 100, rng.randrange(256))) for _ in range(2)]
    return bytes([0x02, *time_bytes(rng), rng.randrange(256), channel << 4 | rng.randrange(16), rng.choice((4, 3, rng.randrange(256))),
                  sensor, rng.randrange(256), event, rng.randrange(256), *values])


def time_bytes(rng):
    digits = rng.randrange(10)
    return rng.choice((0, 1, 10**digits - 1, 10**digits, 0x20000000, 0x20000001, 0xFFFFFFFE, 0xFFFFFFFF, rng.randrange(2**32))).to_bytes(4, "little")


def oem(rng):
    maker = rng.choice((0, 9, 10, 0xFFFFFF, rng.randrange(2**24))).to_bytes(3, "little")
    return bytes([rng.choice((0xC0, 0xDF, 0xE0, 0xFF, rng.randrange(0xC0, 0x100)))]) + time_bytes(rng) + maker + rng.randbytes(6)


def record(rng):
    """Sixteen bytes: mostly a system event, else an OEM record, one of an unknown type, an invalid channel, or any bytes."""
    kind = rng.randrange(10)
    rest = system(rng) if kind < 6 else oem(rng) if kind < 8 else rng.randbytes(14)
    if kind == 9:
        rest = bytes([rng.choice((0x00, 0x01, 0x03, 0xBF, rng.randrange(256)))]) + rest[1:]
    elif kind == 5:
        rest = rest[:6] + bytes([rng.choice((0xC0, 0xD0)) | rest[6] & 0x0F]) + rest[7:]
    return rng.choice((rng.randrange(0x20), rng.randrange(0x10000), 0x0000, 0xFFFF)).to_bytes(2, "little") + rest


# ---- broken inputs

BYTES = b"\x00\x01\t\n\x0B\x0C\r \x1A/:=@FGZ_`afgx\x7F\x80\x85\xA0\xFF"


def changed(rng, data, place):
    byte = rng.choice((rng.choice(BYTES), rng.randrange(256), data[place] ^ 0x20, data[place] ^ 1 << rng.randrange(8)))
    return data[:place] + bytes([byte]) + data[place + 1:]


def lost(rng, data, place):
    return data[:place] + data[place + 1:]


def doubled(rng, data, place):
    return data[:place] + data[place:place + 1] + data[place:]


def inserted(rng, data, place):
    return data[:place] + bytes([rng.choice(BYTES)]) + data[place:]


def cut(rng, data, place):
    return data[:place]


def swapped(rng, data, place):
    return data[:place] + data[place:place + 2][::-1] + data[place + 2:]


DAMAGES = (changed, lost, doubled, inserted, cut, swapped)


def one_line_broken(good):
    """A line that is wrong in one way, by name."""
    text = good[:-1]
    yield from {
        "an empty line": b"\n", "CR LF": text + b"\r\n", "a CR for a newline": text + b"\r", "lower case": good.lower(),
        "lower-case digits": good[:26] + good[26:].lower(), "names in upper case": good.upper(), "a tab for a space": good.replace(b" ", b"\t"),
        "two spaces": good.replace(b" ", b"  "), "a space before": b" " + good, "a space at the end": text + b" \n",
        "a NUL at the end": text + b"\0\n", "only NULs": bytes(58) + b"\n", "NULs and no newline": bytes(59), "a NUL for a newline": text + b"\0",
        "spaces": b" " * 58 + b"\n", "0x before digits": good.replace(b"ask=", b"ask=0x"), "0x as digits": b"ask=0x" + good[6:],
        "a mark before": b"\xEF\xBB\xBF" + good, "two bytes a character": text.decode().encode("utf-16-le") + b"\n",
        "a wide digit": b"ask=" + "\uFF10".encode() + good[5:], "58 bytes over 7Fh": b"\xFF" * 58 + b"\n", "one digit less": text[:-1] + b"\n",
        "one digit more": text + b"0\n", "a byte more": text + b"00\n", "no record": good[:18] + b"\n", "two lines in one": text + good,
        "a sign": b"ask=+" + good[5:], "another order": good[9:19] + good[:9] + good[19:], "58 digits": b"0" * 58 + b"\n",
        "a line in two": text[:30] + b"\n" + text[30:] + b"\n", "a form feed for a newline": text + b"\x0C",
        "a line separator": text + "\u2028".encode() + b"\n",
    }.items()


# ---- a program


def unread(end):
    return struct.unpack("i", fcntl.ioctl(end, termios.FIONREAD, bytes(4)))[0]


def feed(case, end, process):
    """Writes the data to the end of a pipe or terminal, and closes it. The program may stop reading at any time."""
    sizes = itertools.cycle(case.pieces or (1 << 16,))
    place = 0
    try:
        while place < len(case.data):
            while case.way == "pieces" and unread(end) and process.poll() is None:
                time.sleep(0)
            place += os.write(end, case.data[place:place + next(sizes)])
    except OSError:  # nobody reads any more
        pass
    finally:
        os.close(end)


def run(command, case):
    """What the program prints, and that it did not end or was ended by a signal; and what it says on standard error."""
    writer = None
    if case.way == "file":
        with tempfile.TemporaryFile() as file:
            file.write(case.data)
            file.flush()
            read = os.dup(file.fileno())
            os.lseek(read, 0, os.SEEK_SET)
    elif case.way == "folder":
        read = os.open(rust.ROOT, os.O_RDONLY)
    elif case.way == "write-only":
        read = os.open(os.devnull, os.O_WRONLY)
    elif case.way == "error":
        read, writer = os.openpty()
        tty.setraw(writer)
    else:
        read, writer = os.pipe()
    process = subprocess.Popen(command, stdin=read, stdout=subprocess.PIPE, stderr=subprocess.PIPE)
    os.close(read)
    feeder = threading.Thread(target=feed, args=(case, writer, process)) if writer is not None else None
    if feeder:
        feeder.start()
    try:
        output, said = process.communicate(timeout=SECONDS)
    except subprocess.TimeoutExpired:
        process.kill()
        output, said = NOT_ENDED, process.communicate()[1]
    if feeder:
        feeder.join()
    ended_by_signal = process.returncode < 0 and output != NOT_ENDED
    return output + b"(ended by signal %d)" % -process.returncode if ended_by_signal else output, said


def name_of(function):
    return function.__name__.replace("_", " ")


def short(data):
    return f"{data!r}" if len(data) <= 600 else f"{data[:400]!r} ... {data[-100:]!r}"
