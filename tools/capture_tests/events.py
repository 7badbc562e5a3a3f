"""tools/capture from-events and to-events: files of Platform Event Messages."""

import os
import random
import resource
import subprocess
import tempfile

from common import ROOT, RUN_CAPTURE, SECONDS, convert, examples, expect, made_from, printed_for, replayed, same, test, text_of

POWER_OFF, BOOT = bytes.fromhex("0409016F00FFFF"), bytes.fromhex("041F006F01FFFF")
UNSPECIFIED = 0xFFFFFFFF  # a time
MOST_BYTES = 16_777_216


def system_record(id, message, moment=UNSPECIFIED, generator="2000"):
    """By table 32-1 of the standard."""
    return id.to_bytes(2, "little") + b"\x02" + moment.to_bytes(4, "little") + bytes.fromhex(generator) + message


def log_of(messages, first=1, end=0xFFFF, **given):
    """The slots of a log of these messages, the last of which names the end as next."""
    ids = range(first, first + len(messages))
    return [*zip([0, *ids[1:]], [*ids[1:], end], (system_record(id, message, **given) for id, message in zip(ids, messages)))]


def line_of(message, comment=""):
    """In ipmitool's form."""
    return " ".join(f"0x{byte:02x}" for byte in message) + comment + "\n"


def file_of(messages):
    return "".join(map(line_of, messages)).encode()


def event_of(record):
    """The line that must be written for a record."""
    id = f"id={int.from_bytes(record[:2], 'little'):04X}"
    if record[2] != 2:
        return f"# {id} type={record[2]:02X}: no system record, left out\n"
    return line_of(record[9:], f" # {id} time={int.from_bytes(record[3:7], 'little')} generator={record[7:9].hex().upper()}")


def left_out(records):
    return sum(record[2] != 2 for record in records)


def outcome(records):
    """Status and standard error for a log that ends."""
    count = left_out(records)
    return (1, f"capture: records that are no system records, and so have no message, are left out: {count}\n") if count else (0, "")


def messages_in(text):
    return [bytes(int(word, 16) for word in line.split(" # ")[0].split()) for line in text.splitlines() if not line.startswith("#")]


def some_messages(count, seed):
    chance = random.Random(seed)
    return [bytes(chance.randrange(256) for _ in range(7)) for _ in range(count)]


def refused(data, says, *options):
    """Nothing is written, and what is wrong is said in one line."""
    status, capture, said = made_from("events", *options, data=data)
    same((data[:200], options, status, capture), (data[:200], options, 2, ""))
    expect(says in said and said.count("\n") == 1, "says", said, "and not", says)


# ---- what a line is


@test
def events_in_every_form():
    for line in ("0x04 0x09 0x01 0x6f 0x00 0xff 0xff\n", "0X4 0x09 0X01 0x6F 0X0 0xfF 0XFf\n", "4 9 1 111 0 255 255\n", "04 011 01 0157 00 0377 0377\n", "0004 0x0009 0x001 0000157 000 255 0x0FF\n",
                 "0x04 0x09 0x01 0x6f 0x00 0xff 0xff", "0x04 0x09 0x01 0x6f 0x00 0xff 0xff\r\n", " \t 4\t9  1\v111\f0 255\t255 \r\n", "4 9 1 111 0 255 255# Power Unit #0x01 Power off/down\n"):
        for data, count in ((line, 1), (f"# first\n\n{line}" * 2, 2)):
            same((data, *made_from("events", data=data.encode())), (data, 0, text_of(log_of([POWER_OFF] * count)), ""))


@test
def every_byte_in_every_form():
    forms = [[f"{byte:#x}", f"0X{byte:02X}", f"{byte}", f"0{byte:o}"] for byte in range(256)]
    lines = [" ".join([word] * 7) for words in forms for word in words]
    same(made_from("events", data="\n".join(lines).encode()), (0, text_of(log_of([bytes([byte] * 7) for byte in range(256) for _ in range(4)])), ""))


@test
def comments_and_empty_lines():
    data = b"# events\r\n\r\n   \t\n##\n" + file_of([POWER_OFF]) + b"#0x04 0x1f\n" + b"#" + b"\x00\xff\x1b" * 50_000 + b"\n" + file_of([BOOT]) + b"\n  # the end"
    same(made_from("events", data=data), (0, text_of(log_of([POWER_OFF, BOOT])), ""))


@test
def no_events():
    """The capture of an empty log."""
    for data in (b"", b"\n", b"\r\n\r\n", b" \t", b"# nothing\n", b"#"):
        same((data, *made_from("events", data=data)), (data, 0, "", ""))
    same(printed_for(""), ["walk=missing ask=0000 read=0"])


BAD_LINES = {  # and what is said of them
    **{"1 2 3 4 5 6"[:2 * count - 1]: f"has {count} byte{'s' * (count > 1)}, and a message has 7; the standard's shorter forms, of 5 and 6 bytes, are refused too" for count in range(1, 7)},
    **dict.fromkeys(["1 2 3 4 5 6 7 8", "1 2 3 4 5 6 7 8 9 # more", "0x04 0x09 0x01 0x6f 0x00 0xff 0xff Power off", "1 2 3 4 5 6 7\r1 2 3 4 5 6 7"], "has more than the 7 bytes that a message has"),
    **{f"1 2 3 {word} 5 6 7": f"has '{word}', which is no byte" for word in ("256", "0x100", "0400", "1000", "-1", "-0", "+4", "08", "09", "0x", "0X", "x4", "0xg", "0x4h", "ff", "4.", "4,", "1_0", "0b1",
                                                                            "0o7", "0x0x4", "4x", "0xfff", "zz", "(4)", "\\x04", "9" * 20)},
    "1 2 3 4 5 6 zz": "has 'zz', which is no byte",  # as any other word
    "zz": "has 'zz', which is no byte",
    "1 2 3 4 5 6 7,": "has '7,', which is no byte",
    "04,09,01,6F,00,FF,FF": "has '04,09,01,6F,00,FF,FF', which is no byte",
    "0409016F00FFFF": "has '0409016F00FFFF', which is no byte",
    "1\0 2 3 4 5 6 7": "has '1\\x00', which is no byte",
    "\x1b[1m 2 3 4 5 6 7": "has '\\x1b[1m', which is no byte",
    "\xa04 2 3 4 5 6 7": "has '\\xa04', which is no byte",  # what is white space elsewhere
    "1 2 3 4 5 6 " + "9" * 5000: f"has '{'9' * 20}', which is no byte",  # a number that python does not read
    "1 2 3 4 5 6 0x" + "f" * 5000: f"has '0x{'f' * 18}', which is no byte",
}


@test
def bad_lines():
    for bad, says in BAD_LINES.items():
        refused(bad.encode("latin-1"), f"capture: line 1 {says}")
        refused(b"# first\n" + file_of([POWER_OFF]) + b"\n" + bad.encode("latin-1") + b"\n" + file_of([BOOT]) + b"zz\n", f"capture: line 4 {says}")


@test
def bad_lines_behind_what_a_capture_has():
    """Nothing is written either."""
    refused(file_of([POWER_OFF] * 3000) + b"zz", "line 3001 has 'zz'")
    refused(file_of([POWER_OFF] * 3002) + b"1 2", "line 3003 has 2 bytes")


@test
def files_of_events_by_name():
    with tempfile.TemporaryDirectory() as folder:
        for name, data in (("events", file_of([POWER_OFF])), ("capture", text_of(log_of([POWER_OFF])).encode())):
            with open(f"{folder}/{name}", "wb") as file:
                file.write(data)
        same(convert("from-events", f"{folder}/events"), (0, text_of(log_of([POWER_OFF])).encode(), ""))
        same(convert("to-events", f"{folder}/capture"), (0, event_of(system_record(1, POWER_OFF)).encode(), ""))
        for kind in ("from-events", "to-events"):
            for name in (folder, f"{folder}/none"):
                status, out, said = convert(kind, name)
                same((kind, name, status, out), (kind, name, 2, b""))


# ---- what a message does not have


@test
def options_of_events():
    data = file_of([POWER_OFF, BOOT])
    for options, given in (([], {}), (["--generator", "4100"], {"generator": "4100"}), (["--generator", "2cb3"], {"generator": "2CB3"}), (["--generator", "FFFF"], {"generator": "FFFF"}),
                           (["--generator", "0000"], {"generator": "0000"}), (["--time", "0"], {"moment": 0}), (["--time", "1783573203"], {"moment": 1783573203}),
                           (["--time", "4294967294"], {"moment": 4294967294}), (["--time", "4294967295"], {"moment": UNSPECIFIED}), (["--first-id", "0001"], {"first": 1}),
                           (["--first-id", "abCD"], {"first": 0xABCD}), (["--first-id", "FFFD"], {"first": 0xFFFD}),
                           (["--first-id", "0010", "--time", "7", "--generator", "2100"], {"first": 16, "moment": 7, "generator": "2100"}),
                           (["--generator", "2100", "--first-id", "0010", "--time", "7"], {"first": 16, "moment": 7, "generator": "2100"})):
        same((options, *made_from("events", *options, data=data)), (options, 0, text_of(log_of([POWER_OFF, BOOT], **given)), ""))


@test
def wrong_calls_of_events():
    bad = {"--generator": ("", "200", "20000", "0x20", "20 0", "200g", "-200"), "--time": ("", "-1", "+1", "01", "4294967296", "9999999999", "10000000000", "1e3", "0x10", "none"),
           "--first-id": ("", "0000", "FFFF", "fFfF", "1", "00001", "0x01", "000g")}
    for words in (["from-events"], ["from-events", ""], ["from-events", "-", "-"], ["from-events", "--plain", "-"], ["from-events", "--seconds", "9", "-"], ["from-events", "-x"],
                  ["from-events", "-", "--time", "1"], ["to-events"], ["to-events", "--plain", "-"], ["to-events", "--time", "1", "-"], ["to-events", "-", "-"],
                  ["from-raw", "--time", "1", "-"], ["live", "--time", "1", "x"], *(["from-events", option] for option in bad), *(["from-events", option, "0001"] for option in bad),
                  *(["from-events", option, word, "-"] for option, words in bad.items() for word in words), *(["from-events", *[option, "1000"] * 2, "-"] for option in bad)):
        status, out, said = convert(*words)
        same((words, status, out), (words, 2, b""))
        expect("capture: wrong call\nusage: capture live" in said and "capture from-events [" in said, said)


@test
def help_on_events():
    for kind in ("from-events", "to-events"):
        status, out, said = convert(kind, "--help")
        same((kind, status, b"\nfrom-events  takes" in out, b"\nto-events    makes" in out, said), (kind, 0, True, True, ""))


@test
def reserved_channels():
    """They are refused before anything is read; the low half of the byte tells nothing of a channel."""
    for channel in range(16):
        for low in (0x0, 0x3, 0xC):
            generator = f"2C{channel << 4 | low:02X}"
            if channel in (0xC, 0xD):
                for data in (b"", b"zz\n", file_of([POWER_OFF])):
                    refused(data, f"generator {generator} has channel {channel:X}h, which is reserved: its records would be refused with 3", "--generator", generator)
            else:
                same(made_from("events", "--generator", generator, data=file_of([POWER_OFF])), (0, text_of(log_of([POWER_OFF], generator=generator)), ""))


@test
def events_whose_time_is_not_given():
    """seldump says so."""
    _, capture, _ = made_from("events", data=file_of([POWER_OFF]))
    same(printed_for(capture), ["id=0001 time=none gen=i2c:10 chan=0 lun=0 rev=04 sensor=09 number=01 dir=assert type=6F event=Power Off / Power Down data=", "walk=ended read=1"])


# ---- ids, and what has no room


@test
def ids_near_the_last():
    for first, count, fits in ((0xFFFE, 1, True), (0xFFFE, 2, False), (0xFFFD, 2, True), (0xFFFD, 3, False), (0xFF00, 255, True), (0xFF00, 256, False), (0xFFFE, 0, True)):
        messages = some_messages(count, first)
        if fits:
            same(made_from("events", "--first-id", f"{first:04x}", data=file_of(messages)), (0, text_of(log_of(messages, first)), ""))
        else:
            refused(file_of(messages), f"the ids, from {first:04X}h upward, would pass FFFEh; nothing is written", "--first-id", f"{first:04X}")


@test
def over_3000_events():
    """The first 3,000 are written, and the id of the next is named: the log does not look ended, and no id is FFFFh."""
    messages = some_messages(3002, 1)
    same(made_from("events", data=file_of(messages[:3000])), (0, text_of(log_of(messages[:3000])), ""))
    for count, first in ((3001, 1), (3002, 1), (3001, 0x8000), (3001, 0xFFFE - 3000)):
        status, capture, said = made_from("events", "--first-id", f"{first:04X}", data=file_of(messages[:count]))
        same((count, first, status, capture), (count, first, 1, text_of(log_of(messages[:3000], first, end=first + 3000))))
        same((printed_for(capture)[-1], said), (f"walk=missing ask={first + 3000:04X} read=3000", "capture: what comes behind 3,000 events is left out: a capture has no more slots\n"))
    last = 0xFFFF - 3000
    same(made_from("events", "--first-id", f"{last:04X}", data=file_of(messages[:3000])), (0, text_of(log_of(messages[:3000], last)), ""))
    refused(file_of(messages), "would pass FFFEh", "--first-id", f"{last:04X}")


def bounded(command, feed):
    """Status, standard error and the bytes of standard output of a conversion that may take 256 MB, fed by another program."""
    with subprocess.Popen(feed, stdout=subprocess.PIPE) as feed, tempfile.TemporaryFile() as out:
        run = subprocess.run([*RUN_CAPTURE, command, "-"], stdin=feed.stdout, stdout=out, stderr=subprocess.PIPE, timeout=SECONDS,
                             preexec_fn=lambda: resource.setrlimit(resource.RLIMIT_AS, (2 ** 28, 2 ** 28)))
        feed.kill()
        return run.returncode, run.stderr.decode(), os.fstat(out.fileno()).st_size


@test
def files_of_events_without_end():
    """They are refused in one line, whatever stands in them, and nothing is written."""
    for feed in (["yes", line_of(POWER_OFF)[:-1]], ["yes", "# comment"], ["yes", ""], ["yes", "zz"], ["cat", "/dev/zero"]):
        same((feed, *bounded("from-events", feed)), (feed, 2, f"capture: - has over {MOST_BYTES:,} bytes, more than events need; nothing is written\n", 0))
    for feed, says in ((["yes", text_of(log_of([POWER_OFF]))[:-1]], "over 3,000 slots"), (["cat", "/dev/zero"], "is no capture")):
        status, said, written = bounded("to-events", feed)
        expect((status, written) == (2, 0) and says in said and said.count("\n") == 1, status, written, said)


@test
def files_of_events_at_the_bound():
    """Long comments may be as many bytes; so may the words of a line."""
    line = file_of([POWER_OFF])
    for filler in (b"#", b" ", b"9"):
        data = line + filler * (MOST_BYTES - len(line))
        with tempfile.NamedTemporaryFile() as file:
            file.write(data)
            file.flush()
            status, said, written = bounded("from-events", ["cat", file.name])
            same((filler, status, written), (filler, 2, 0) if filler == b"9" else (filler, 0, 59))
            file.write(b"\n")
            file.flush()
            same(bounded("from-events", ["cat", file.name])[::2], (2, 0))


# ---- there and back


@test
def events_there_and_back():
    """The seven bytes come back, and with what the comments tell the capture does."""
    for seed, options in enumerate(([], ["--generator", "4100", "--time", "1783573203", "--first-id", "0BB8"], ["--generator", "FFEF", "--time", "0", "--first-id", "FE00"])):
        messages = some_messages(300, seed)
        status, capture, said = made_from("events", *options, data=file_of(messages))
        same((status, said), (0, ""))
        status, events, said = convert("to-events", "-", data=capture.encode())
        same((status, messages_in(events.decode()), said), (0, messages, ""))
        same(made_from("events", *options, data=events), (0, capture, ""))
        told = dict(zip(["--generator", "--time", "--first-id"], ["2000", str(UNSPECIFIED), "0001"]))
        told.update(zip(options[::2], options[1::2]))
        same(events.decode().splitlines()[0].split(" # ")[1], f"id={told['--first-id']} time={told['--time']} generator={told['--generator']}")


@test
def events_of_the_examples():
    """A record that is no system record stands there as a comment. What is made of the others again prints as they do, but for what a message does not have."""
    kinds = set()
    for path, records, printed in examples():
        events = "".join(map(event_of, records))
        status, said = outcome(records)
        same((path, *convert("to-events", path)), (path, status, events.encode(), said))
        status, capture, said = made_from("events", data=events.encode())
        same((path, status, capture, said), (path, 0, text_of(log_of([record[9:] for record in records if record[2] == 2])), ""))
        before = [line for line, record in zip(printed, records) if record[2] == 2]
        *now, verdict = printed_for(capture)
        same((path, verdict), (path, f"walk=ended read={len(before)}"))
        for stood, stands in zip(before, now):
            expect("refused=3" in stood or stood.partition(" rev=")[1:] == stands.partition(" rev=")[1:], path, stood, stands)
        kinds.update(record[2] for record in records)
    expect({0x01, 0x02, 0xC1, 0xDF, 0xE2, 0xFF} <= kinds, kinds)


@test
def captures_that_do_not_end_to_events():
    for name, status, count, says in (("circle", 1, 5, "circle: 001Bh"), ("missing", 1, 3, "missing: no record 001Dh"), ("damaged", 2, 0, "is no capture: line 6")):
        now, events, said = convert("to-events", ROOT / f"examples/{name}.txt")
        same((name, now, events.count(b"\n")), (name, status, count))
        expect(says in said, said)
    maker = bytes.fromhex("0300E2") + bytes(13)
    slots = [(7, 8, system_record(7, BOOT)), *log_of([POWER_OFF, BOOT], end=3), (3, 2, maker)]
    status, events, said = convert("to-events", "-", data=text_of(slots).encode())
    same((status, events.decode()), (1, "".join(map(event_of, [system_record(1, POWER_OFF), system_record(2, BOOT), maker]))))
    same([line.split(";")[0] for line in said.splitlines()], ["capture: 1 slots are not in the chain, and are left out", outcome([maker])[1][:-1],
                                                             "capture: the log does not end, and its first 3 records are written"])
    status, events, said = convert("to-events", "-", data=b"")
    expect((status, events) == (1, b"") and "missing: no record 0000h" in said, status, events, said)
    for data in (b"ask=", b"?\n"):
        same(convert("to-events", "-", data=data)[:2], (2, b""))


# ---- what the library says


@test
def events_are_records_as_the_library_says():
    """The program `replay` is the library itself. Where it refuses, so does the tool."""
    chance, count = random.Random(3), 20
    for channel in range(16):
        generator, messages = bytes([chance.randrange(256), channel << 4 | chance.randrange(16)]), some_messages(count, channel)
        moment, first = chance.choice([0, chance.randrange(2 ** 32), UNSPECIFIED]), chance.randrange(1, 0xFFFF - count)
        asked = [id.to_bytes(2, "little") + moment.to_bytes(4, "little") + generator + message for id, message in enumerate(messages, first)]
        answers = replayed([f"P 1000{question.hex().upper()}" for question in asked])
        status, capture, _ = made_from("events", "--generator", generator.hex(), "--time", str(moment), "--first-id", f"{first:04X}", data=file_of(messages))
        if status == 2:
            same((channel, capture, answers), (channel, "", [f"3 {channel:02X}"] * count))
        else:
            same((channel, status, [f"0 {line[26:]}" for line in capture.splitlines()]), (channel, 0, answers))


@test
def messages_are_those_of_the_library():
    """Of records of every type, on every channel; those that it refuses are left out."""
    chance = random.Random(4)
    types = [*range(256), *[2] * 256]
    records = [id.to_bytes(2, "little") + bytes([kind, *(chance.randrange(256) for _ in range(13))]) for id, kind in enumerate(types, 1)]
    slots = [*zip([0, *range(2, 513)], [*range(2, 513), 0xFFFF], records)]
    status, events, said = convert("to-events", "-", data=text_of(slots).encode())
    same((status, said), outcome(records))
    lines = events.decode().splitlines()
    same(len(lines), len(records))
    for record, line, answer in zip(records, lines, replayed([f"O 0700{record.hex().upper()}" for record in records])):
        told = f"2 {line[15:17]}" if line.startswith("# id=") else "0 " + messages_in(line)[0].hex().upper()
        same((record.hex(), told), (record.hex(), answer))
