"""tools/capture with ipmitool: on a simulated controller, OpenIPMI's ipmi_sim, at 127.0.0.1, and on tools/controller."""

import atexit
import csv
import datetime
import math
import os
import pathlib
import random
import re
import select
import shutil
import signal
import socket
import subprocess
import tempfile
import threading
import time

from common import CAPTURE, ROOT, SECONDS, convert, examples, expect, made_from, printed_for, same, test, text_of

LAN = """name "sel"
set_working_mc 0x20
  startlan 1
    addr 127.0.0.1 {port}
    priv_limit admin
    allowed_auths_admin none md5
    guid a123456789abcdefa123456789abcdef
  endlan
  user 2 true "tester" "secret" admin 10 none md5
"""
COMMANDS = """mc_setbmc 0x20
mc_add 0x20 0 no-device-sdrs 0x23 9 8 0x9f 0x1291 0xf02
sel_enable 0x20 3000 0x0a
mc_enable 0x20
"""
SUMMER = 0x6A4F2AD3  # a time in July 2026
# Event type, sensor type and offset; the words of the original Rust; the words of FreeIPMI.
OTHER_WORDS = """
6F 05 5|Unauthorized dock/undock|Unauthorized dock
6F 07 B|Machine Check Exception (Uncorrectable)|Machine Check Exception
6F 0C 0|Correctable ECC / other correctable memory error|Correctable memory error
6F 0C 1|Uncorrectable ECC / other uncorrectable memory error|Uncorrectable memory error
6F 0C 5|Correctable ECC / other correctable memory error logging limit reached|Correctable memory error logging limit reached
6F 12 5|Timestamp Clock Sync|Timestamp Clock Synch
6F 19 1|Thermal Trip|Event Offset = 01h (Event Type Code = 6Fh)
6F 1B 0||Cable/Interconnect is connected
6F 1B 1||Configuration Error - Incorrect cable connected
6F 20 0|Critical stop during OS load / initialization|Critical stop during OS load
6F 21 0||Fault Status asserted
6F 21 1||Identify Status asserted
6F 21 2||Slot/Connector Device installed/attached
6F 21 3||Slot/Connector Ready for Device Installation
6F 21 4||Slot/Connector Ready for Device Removal
6F 21 5||Slot Power is Off
6F 21 6||Slot/Connector Device Removal Request
6F 21 7||Interlock asserted
6F 21 8||Slot is Disabled
6F 21 9||Slot holds spare device
6F 22 0|S0 / G0 'working'|S0/G0
6F 22 1|S1 'sleeping with system h/w & processor context maintained'|S1
6F 22 2|S2 'sleeping, processor context lost'|S2
6F 22 3|S3 'sleeping, processor & h/w context lost, memory retained'|S3
6F 22 4|S4 'non-volatile sleep / suspend-to-disk'|S4
6F 22 5|S5 / G2 'soft-off'|S5/G2
6F 22 6|S4 / S5 soft-off, particular S4 / S5 state cannot be determined|S4/S5 soft-off
6F 22 D||Unspecified
6F 23 4||reserved
6F 23 5||reserved
6F 23 6||reserved
6F 23 7||reserved
6F 24 3|platform generated SNMP trap|platform generated SNMP trap, OEM format
""".strip().splitlines()


# ---- the records, and what must be printed for them


def event_record(sensor, event_type, *data):
    return bytes([0, 0, 2, *SUMMER.to_bytes(4, "little"), 0x20, 0x00, 0x04, sensor, 0x30, event_type, *data])


def every_event():
    """A record for each event type and offset of the standard's two tables: 12 generic types, and the specific one of 44 sensor types."""
    for event_type, sensor in [*((event_type, 0x01) for event_type in range(0x01, 0x0D)), *((0x6F, sensor) for sensor in range(0x01, 0x2D))]:
        for offset in range(16):
            yield event_record(sensor, event_type, offset, 0xFF, 0xFF)


def any_records(count, seed=10):
    chance = random.Random(seed)
    for _ in range(count):
        kind = chance.choice([0x02] * 10 + [0xC0, 0xC1, 0xDF, 0xE0, 0xE2, 0xFF, 0x00, 0x01, 0x03, 0xBF])
        moment = chance.randrange(2 ** chance.choice([29, 32]) - 0x10000)  # with room for what the clock goes on
        yield bytes([0, 0, kind, *moment.to_bytes(4, "little"), *(chance.randrange(256) for _ in range(9))])


def number(part):
    return int.from_bytes(part, "little")


# Event types; those that the standard leaves unspecified or reserves have their event data read as a threshold.
THRESHOLD, DISCRETE, OEM, OTHER = [0x01], [*range(0x02, 0x0D), 0x6F], range(0x70, 0x80), [0x00, *range(0x0D, 0x6F)]


def data_text(event_type, first, second, third):
    """By table 29-6 of the standard."""
    reads, extends = event_type in [*THRESHOLD, *OTHER], event_type not in OEM
    of_second = ["", "reading={}" if reads else "prev=0x{:02X}", "oem2=0x{:02X}", "ext2=0x{:02X}" if extends else ""]
    of_third = ["", "threshold={}" if reads else "", "oem3=0x{:02X}", "ext3=0x{:02X}" if extends else ""]
    texts = (text.format(value) for text, value in ((of_second[first >> 6], second), (of_third[first >> 4 & 3], third)) if value != 0xFF)
    return ", ".join(filter(None, texts))


def time_text(moment):
    if moment == 0xFFFFFFFF:
        return "none"
    return f"{'+' if moment <= 0x20000000 else ''}{moment}" if moment else "Unknown"


def must_print(record, event):
    """The line of a record, by docs/SCOPE.md, with the text of its event."""
    id, kind, moment, data = f"id={number(record[:2]):04X}", record[2], time_text(number(record[3:7])), record.hex().upper()
    if 0xC0 <= kind <= 0xDF:
        return f"{id} type={kind:02X} time={moment} maker={number(record[7:10])} data={data[20:]}"
    if 0xE0 <= kind:
        return f"{id} type={kind:02X} data={data[6:]}"
    if kind != 0x02:
        return f"{id} refused=2 value={kind:02X}"
    channel, unit = record[8] >> 4, record[8] & 3
    if channel in (0xC, 0xD):
        return f"{id} refused=3 value={channel:02X}"
    generator = f"sw:{record[7] >> 1:02X} chan={channel:X}" if record[7] & 1 else f"i2c:{record[7] >> 1:02X} chan={channel:X} lun={unit:X}"
    direction = "deassert" if record[12] & 0x80 else "assert"
    return (f"{id} time={moment} gen={generator} rev={record[9]:02X} sensor={record[10]:02X} number={record[11]:02X} dir={direction}"
            f" type={record[12] & 0x7F:02X} event={event} data={data_text(record[12] & 0x7F, *record[13:])}")


def event_of(record):
    """Event type, sensor type and offset, as far as they decide the text."""
    event_type = record[12] & 0x7F
    return event_type, record[10] if event_type == 0x6F else None, record[13] & 0x0F


FIELDS = re.compile(r"id=(?P<id>\w+) (?:refused=(?P<refused>\d) value=(?P<value>\w+)|type=(?P<kind>\w+) (?:time=(?P<moment>\+?\w+) maker=(?P<maker>\d+) )?data=(?P<bytes>\w+)"
                    r"|time=(?P<time>\+?\w+) gen=(?P<by>i2c|sw):(?P<address>\w+) chan=(?P<channel>\w)(?: lun=(?P<unit>\w))? rev=(?P<revision>\w+) sensor=(?P<sensor>\w+)"
                    r" number=(?P<number>\w+) dir=(?P<direction>\w+) type=(?P<type>\w+) event=(?P<event>.*) data=(?P<data>.*))")


def fields_of(line):
    return {name: value for name, value in FIELDS.fullmatch(line).groupdict().items() if value is not None}


# ---- the simulated controller


class Simulator:
    """A controller whose log is empty. Each run of ipmitool is counted."""

    def __init__(self):
        folder = tempfile.TemporaryDirectory()
        self.path = pathlib.Path(folder.name)
        (self.path / "ipmitool").write_text(f"#!/bin/sh\necho >>{self.path}/runs\nexec {shutil.which('ipmitool')} \"$@\"\n")
        (self.path / "ipmitool").chmod(0o755)
        # FreeIPMI keeps files at home
        self.environment = {**os.environ, "HOME": folder.name, "TZ": "UTC", "PATH": f"{folder.name}:{os.environ['PATH']}"}
        with socket.socket(socket.AF_INET, socket.SOCK_DGRAM) as free:
            free.bind(("127.0.0.1", 0))
            self.port = free.getsockname()[1]
        (self.path / "lan").write_text(LAN.format(port=self.port))
        (self.path / "commands").write_text(COMMANDS)
        atexit.register(folder.cleanup)
        self.user = ["-H", "127.0.0.1", "-p", str(self.port), "-U", "tester", "-P", "secret"]
        self.options = ["-I", "lan", *self.user]
        self.freeipmi = ["-D", "LAN", "-h", f"127.0.0.1:{self.port}", "-u", "tester", "-p", "secret", "-l", "ADMIN"]
        self.start()

    def start(self):
        self.process = subprocess.Popen(["ipmi_sim", "-n", "-c", self.path / "lan", "-f", self.path / "commands", "-s", self.path],
                                        stdin=subprocess.DEVNULL, stdout=subprocess.DEVNULL, stderr=subprocess.DEVNULL)
        atexit.register(self.process.kill)
        end = time.monotonic() + SECONDS
        while self.run("ipmitool", *self.options, "mc", "guid").returncode != 0:
            expect(time.monotonic() < end and self.process.poll() is None, "ipmi_sim does not answer")

    def restart(self, forgets=False):
        self.process.kill()
        self.process.wait()
        if forgets:
            shutil.rmtree(self.path / "ipmi_sim")  # what it keeps of itself
        self.start()

    def add(self, records):
        """Its clock is set to the time of each before. The seconds by which a time is late at most."""
        commands = [[0x0A, command, *data] for record in records for command, data in ((0x49, record[3:7]), (0x44, record))]
        (self.path / "add").write_text("".join(f"raw {' '.join(map(hex, command))}\n" for command in commands))
        start = time.monotonic()
        self.ipmitool("exec", str(self.path / "add"))
        return math.ceil(time.monotonic() - start) + 1

    def runs(self):
        return len((self.path / "runs").read_text())

    def run(self, *command, seconds=SECONDS):
        return subprocess.run(command, env=self.environment, stdin=subprocess.DEVNULL, stdout=subprocess.PIPE, stderr=subprocess.PIPE, encoding="latin-1", timeout=seconds)

    def ipmitool(self, *words):
        said = self.run("ipmitool", *self.options, *words)
        expect(said.returncode == 0, words, said.stderr)
        return said.stdout


class Filled(Simulator):
    """A controller whose log has all these records, read back once through tools/capture."""

    def __init__(self):
        super().__init__()
        self.fill()
        self.read()

    def fill(self):
        first, events = [record for _, records, _ in examples() for record in records], [*every_event()]
        self.records = [*first, *events, *any_records(100)]
        self.events = slice(len(first), len(first) + len(events))
        self.late = self.add(self.records)

    def read(self):
        self.file = self.path / "capture.txt"
        before = self.runs()
        self.said = self.run(CAPTURE, "live", self.file, *self.options, seconds=10 * SECONDS)
        self.taken = self.runs() - before
        self.slots = [(int(line[4:8], 16), int(line[14:18], 16), bytes.fromhex(line[26:58])) for line in self.file.read_text().splitlines()]
        self.lines = printed_for(self.file.read_text())


STARTED = {}


def started(kind):
    """One for all tests; where it does not come up, each of them fails at once."""
    if kind not in STARTED:
        STARTED[kind] = None
        STARTED[kind] = kind()
    expect(STARTED[kind], "there is no simulated controller")
    return STARTED[kind]


def simulator():
    return started(Filled)


@test
def the_log_is_read_whole_and_in_order():
    it = simulator()
    same((it.said.returncode, it.said.stderr.splitlines()[-1]), (0, f"capture: {it.file} has {len(it.records)} slots: ended"))
    same(it.taken, 2)  # the first question alone, and one session
    ids = range(1, len(it.records) + 1)
    same(it.slots, [*zip([0, *ids[1:]], [*ids[1:], 0xFFFF], (record for _, _, record in it.slots))])
    for id, record, (_, _, stands) in zip(ids, it.records, it.slots):
        if record[2] < 0xE0:  # the controller writes the time
            since = (number(stands[3:7]) - number(record[3:7])) % 2 ** 32
            expect(0 <= since <= it.late, "record", id, "is late by", since)
            record = record[:3] + stands[3:7] + record[7:]
        same(stands, id.to_bytes(2, "little") + record[2:])


@test
def every_record_is_printed_as_it_was_added():
    it = simulator()
    same(it.lines[-1], f"walk=ended read={len(it.records)}")
    same(len(it.lines), len(it.records) + 1)
    # The texts of one record for each event are left to FreeIPMI; any other record has the same text, or none where there is no such event.
    texts = {event_of(record): fields_of(line)["event"] for line, (_, _, record) in [*zip(it.lines, it.slots)][it.events]}
    for line, (_, _, record) in zip(it.lines, it.slots):
        same(line, must_print(record, texts.get(event_of(record), "")))


@test
def the_examples_are_printed_as_they_are_stored():
    """But for the ids, which the controller gives, and what its clock went on between being set and adding."""
    it = simulator()
    stored = [line for _, _, printed in examples() for line in printed[:-1]]
    for line, must in zip(it.lines, stored):
        id, moment = (re.search(rf"\b{name}=\+?\w+", line) for name in ("id", "time"))
        must = re.sub(r"^id=\w+", id[0], must)
        same(line, re.sub(r"\btime=\+?\w+", moment[0], must) if moment else must)


def said_by_ipmitool(it):
    """What `ipmitool -v sel list` says of each record, by name; and the date and the time of `ipmitool -c sel list`."""
    for block, row in zip(it.ipmitool("-v", "sel", "list").split("\n\n"), csv.reader(it.ipmitool("-c", "sel", "list").splitlines())):
        said = {name.strip(): words.strip() for name, _, words in (line.partition(":") for line in block.splitlines())}
        yield {**said, "Date": row[1].strip(), "Time": row[2]}


# ipmitool calls 0Ch reserved; the standard has a class of texts for it, and so has ipmitool.
EVENT_TYPES = {0x00: "Unspecified", 0x01: "Threshold", 0x6F: "Sensor-specific Discrete", **dict.fromkeys(range(0x02, 0x0C), "Generic Discrete"),
               **dict.fromkeys(range(0x70, 0x80), "OEM")}


def shown_by_ipmitool(moment):
    """Date and time, from the text that seldump prints. The last second since the log was initialised it takes for a date, of another zone than all others."""
    if moment == "none":
        return "Unspecified", "Unspecified"
    seconds = 0 if moment == "Unknown" else int(moment)
    if seconds < 0x20000000:
        return "Pre-Init", f"{seconds:010}"
    shown = datetime.datetime.fromtimestamp(seconds, datetime.timezone.utc)
    return f"{shown:%m/%d/%y}", f"{shown:%H:%M:%S} {'GMT' if moment.startswith('+') else 'UTC'}"


def in_words_of_ipmitool(line, sensors, said):
    """What ipmitool must say of a record, from its line."""
    stands = fields_of(line)
    must = {"SEL Record ID": stands["id"].lower()}
    if "time" in stands or "moment" in stands:
        must["Date"], must["Time"] = shown_by_ipmitool(stands.get("time", stands.get("moment")))
    if stands.get("refused") == "2":
        return {**must, "Record Type": stands["value"].lower()}
    if stands.get("refused") == "3":
        return {**must, "Record Type": "02", "Generator ID": stands["value"][1].lower() + said["Generator ID"][1:]}
    if "kind" in stands:
        timed = "maker" in stands
        must["Record Type"] = f"{stands['kind'].lower()}  (OEM {'timestamped' if timed else 'non-timestamped'})"
        if timed:
            must["Manufactacturer ID"] = f"{int(stands['maker']):06x}"
        return {**must, "OEM Defined": stands["bytes"].lower() + " " + said["OEM Defined"].partition(" ")[2]}
    kept = 0xF3FF if "unit" in stands else 0xF0FF  # the line has neither reserved bits, nor the unit of software
    generator = int(stands["channel"], 16) << 12 | int(stands.get("unit", "0"), 16) << 8 | int(stands["address"], 16) << 1 | (stands["by"] == "sw")
    same(int(said["Generator ID"], 16) & kept, generator)
    same(data_text(int(stands["type"], 16), *bytes.fromhex(said["Event Data"])), stands["data"])
    return {**must, "Record Type": "02", "EvM Revision": stands["revision"].lower(), "Sensor Type": sensors.get(int(stands["sensor"], 16), "Unknown"),
            "Sensor Number": stands["number"].lower(), "Event Type": EVENT_TYPES.get(int(stands["type"], 16), "Reserved"),
            "Event Direction": "Deassertion Event" if stands["direction"] == "deassert" else "Assertion Event"}


@test
def ipmitool_says_the_same_of_each_field():
    it = simulator()
    sensors = {int(code, 16): name for name, code in re.findall(r"(\S+(?: \S+)*) +\((0x\w\w)\)", it.ipmitool("sdr", "type", "list"))}
    told = [*said_by_ipmitool(it)]
    same(len(told), len(it.records))
    for line, said in zip(it.lines, told):
        must = in_words_of_ipmitool(line, sensors, said)
        same({"line": line, **{name: said.get(name) for name in must}}, {"line": line, **must})


def bare(words):
    """Without case and punctuation."""
    return re.sub(r"[^a-z0-9]", "", words.lower())


@test
def freeipmi_has_the_same_event_texts():
    it = simulator()
    told = it.run("ipmi-sel", *it.freeipmi, "--ignore-sdr-cache", "-vv", "--comma-separated-output")
    expect(told.returncode == 0, told.stderr)
    rows = {int(row[0]): row for row in (line.split(",", 6) for line in told.stdout.splitlines()) if row[0].isdecimal()}
    other = {key: (mine, theirs) for key, mine, theirs in (row.split("|") for row in OTHER_WORDS)}
    for line, (_, _, record) in [*zip(it.lines, it.slots)][it.events]:
        stands, row, key = fields_of(line), rows[number(record[:2])], f"{record[12]:02X} {record[10]:02X} {record[13]:X}"
        same(row[5], "Assertion Event")
        expect(row[3].startswith(f"Sensor #{int(stands['number'], 16)} "), row)
        if key in other:
            same((key, (stands["event"], row[6])), (key, other.pop(key)))
        else:
            same((key, bare("" if row[6].startswith("Event Offset =") else row[6])), (key, bare(stands["event"])))
    same(other, {})


@test
def raw_files_of_ipmitool():
    it = simulator()
    written = it.path / "written"
    it.ipmitool("sel", "writeraw", str(written))
    same(made_from("raw", data=written.read_bytes()), (0, it.file.read_text(), ""))
    same(convert("to-raw", it.file), (0, written.read_bytes(), ""))
    same(it.ipmitool("sel", "readraw", str(written)), it.ipmitool("sel", "list"))


@test
def another_interface():
    it = simulator()
    begun = it.path / "other.txt"
    begun.write_text(text_of(it.slots[:-5]))
    said = it.run(CAPTURE, "live", begun, "-I", "lanplus", "-C", "3", *it.user)
    same((said.returncode, begun.read_text()), (0, text_of(it.slots)))


@test
def a_controller_that_does_not_answer():
    it = simulator()
    begun = it.path / "begun.txt"
    begun.write_text(text_of(it.slots[:-2]))
    it.process.send_signal(signal.SIGSTOP)
    try:
        said = it.run(CAPTURE, "live", begun, *it.options, "-N", "1", "-R", "1")
    finally:
        it.process.send_signal(signal.SIGCONT)
    same((said.returncode, begun.read_text()), (1, text_of(it.slots[:-2])))
    expect("no answer for Get SEL Info: " in said.stderr, said.stderr)
    same((it.run(CAPTURE, "live", begun, *it.options).returncode, begun.read_text()), (0, text_of(it.slots)))


@test
def a_wrong_password():
    """It is tried once, and leaves nothing."""
    it = simulator()
    for interface in (["lan"], ["lanplus", "-C", "3"]):
        before = it.runs()
        said = it.run(CAPTURE, "live", it.path / "none.txt", "-I", *interface, *it.user[:-1], "wrong", "-N", "1", "-R", "1")
        same((said.returncode, [*it.path.glob("none.txt*")], it.runs() - before), (1, [], 1))
        expect("no answer for Get SEL Info: " in said.stderr and "wrong" not in said.stderr, said.stderr)


# ---- a log that changes


def captured_here(it, name, *options):
    """Status, standard error, and seldump's verdict on the capture; None where there is no file."""
    said = it.run(CAPTURE, "live", it.path / name, *(options or it.options))
    return said.returncode, said.stderr, printed_for((it.path / name).read_text())[-1] if (it.path / name).exists() else None


def small(records, seed=10):
    """A controller whose log has so many records, and no others."""
    it = started(Simulator)
    it.ipmitool("sel", "clear")
    it.add([*any_records(records, seed)])
    return it


@test
def a_log_that_has_grown_over_the_network():
    it = small(5)
    same(captured_here(it, "grown.txt")[::2], (0, "walk=ended read=5"))
    status, said, verdict = captured_here(it, "grown.txt")
    expect((status, verdict) == (0, "walk=ended read=5") and "nothing new" in said, said)
    it.add([*any_records(3)])
    same(captured_here(it, "grown.txt")[::2], (0, "walk=ended read=8"))
    same(captured_here(it, "whole.txt")[::2], (0, "walk=ended read=8"))
    same((it.path / "grown.txt").read_text(), (it.path / "whole.txt").read_text())


@test
def a_log_that_is_erased_and_filled_anew_between_two_runs():
    it = small(8)
    same(captured_here(it, "erased.txt")[::2], (0, "walk=ended read=8"))
    whole = (it.path / "erased.txt").read_text()
    small(8, seed=11)
    for there in (whole, whole[:59 * 5]):
        (it.path / "erased.txt").write_text(there)
        status, said, verdict = captured_here(it, "erased.txt")
        expect(status == 2 and "the log is not the one" in said and "take another file" in said, status, said)
        same((it.path / "erased.txt").read_text(), there)


@test
def a_log_that_is_erased_and_filled_anew_while_it_is_read():
    """By another, while the answer for record 0005h is on its way. Nothing is left of a capture that was begun; what was read is kept beside it."""
    started(Simulator).restart(forgets=True)  # so that its ids begin with 1 again
    it, erased = small(8), []

    def erase(answer):
        if not erased:
            erased.append(small(8, seed=11))
        return answer
    with Proxy(it, erase) as proxy:
        status, said, verdict = captured_here(it, "during.txt", *proxy.ipmitool)
    expect(erased and (status, verdict) == (1, None) and "the log was erased while it was read" in said, status, verdict, said)
    same((it.path / "during.txt.rest").read_text().count("\n"), 5)


@test
def a_controller_that_starts_anew():
    """With its log, it is gone on with. Without, and filled anew, it is another, also where the capture has no notes."""
    it = small(8)
    same(captured_here(it, "restart.txt")[::2], (0, "walk=ended read=8"))
    whole = (it.path / "restart.txt").read_text()
    it.restart()
    status, said, verdict = captured_here(it, "restart.txt")
    expect((status, verdict) == (0, "walk=ended read=8") and "nothing new" in said, status, said)
    it.restart(forgets=True)
    for records, says in ((0, "it has 0 entries, and had 8"), (8, "record ")):
        it.add([*any_records(records, seed=11)])
        status, said, _ = captured_here(it, "restart.txt")
        expect(status == 2 and says in said, status, said)
    (it.path / "restart.txt.info").unlink()
    status, said, _ = captured_here(it, "restart.txt")
    expect(status == 2 and "record " in said, status, said)
    same((it.path / "restart.txt").read_text(), whole)


# ---- a log that is not whole, over the network: what ipmitool and FreeIPMI do themselves


class Proxy:
    """Stands before the simulated controller and changes its answer for record 0005h, or others. The session has no authentication, so that it can."""

    ANSWER = 0x0B << 2, 0x43, 0x00  # network function, command and completion code of an answer to change

    def __init__(self, it, change):
        self.change, self.controller = change, ("127.0.0.1", it.port)
        self.front, self.back = (socket.socket(socket.AF_INET, socket.SOCK_DGRAM) for _ in range(2))
        self.front.bind(("127.0.0.1", 0))
        port = str(self.front.getsockname()[1])
        self.ipmitool = ["-I", "lan", "-A", "NONE", "-H", "127.0.0.1", "-p", port, "-U", "tester", "-P", "secret"]
        self.freeipmi = ["-D", "LAN", "--authentication-type=NONE", "-h", f"127.0.0.1:{port}", "-u", "tester", "-p", "secret", "-l", "ADMIN"]

    def __enter__(self):
        self.closing, self.closed = socket.socketpair()
        self.thread = threading.Thread(target=self.serve)
        self.thread.start()
        return self

    def __exit__(self, *_):
        self.closing.close()
        self.thread.join()
        for end in (self.front, self.back, self.closed):
            end.close()

    def serve(self):
        client = None
        while True:
            for end in select.select([self.front, self.back, self.closed], [], [])[0]:
                if end is self.closed:
                    return
                packet, sender = end.recvfrom(1024)
                if end is self.front:
                    client = sender
                    self.see(packet[14:-1])
                    self.back.sendto(packet, self.controller)
                else:
                    self.front.sendto(self.changed(packet), client)

    def see(self, ask):
        """Six bytes and data, on their way to the controller."""

    def changed(self, packet):
        """After 13 bytes of headers comes the length of the message: six bytes, completion code, data, checksum."""
        message = packet[14:]
        if (*message[1:2], *message[5:7]) != self.ANSWER or not self.is_meant(message[7:-1]):
            return packet
        message = message[:6] + self.change(message[6:-1])
        return packet[:13] + bytes([len(message) + 1]) + message + bytes([-sum(message[3:]) & 0xFF])

    def is_meant(self, answer):
        return answer[2:4] == b"\x05\x00"


class FewBytes(Proxy):
    """Answers at most so many bytes of a record at once, and refuses more with CAh."""

    def __init__(self, it, most):
        super().__init__(it, lambda _: b"\xca")
        self.most = most

    def is_meant(self, answer):
        return len(answer) > 2 + self.most


class EventReceiver(Proxy):
    """Takes Platform Event Messages, which the simulated controller refuses as an unknown command, and keeps their data."""

    ANSWER = 0x05 << 2, 0x02, 0xC1

    def __init__(self, it):
        super().__init__(it, lambda _: b"\x00")
        self.messages = []

    def see(self, ask):
        if (*ask[1:2], *ask[5:6]) == (0x04 << 2, 0x02):
            self.messages.append(ask[6:])

    def is_meant(self, answer):
        return True


TIMES = [  # what seldump, ipmitool and FreeIPMI print, the latter two as date and time: docs/DIFFERENCES.md has the same
    (0x00000000, "Unknown", "Pre-Init,0000000000", "PostInit,PostInit"),
    (0x00000001, "+1", "Pre-Init,0000000001", "PostInit,PostInit"),
    (0x1FFFFFFF, "+536870911", "Pre-Init,0536870911", "PostInit,PostInit"),
    (0x20000000, "+536870912", "01/05/87,18:48:32 GMT", "PostInit,PostInit"),
    (0x20000001, "536870913", "01/05/87,18:48:33 UTC", "Jan-05-1987,18:48:33"),
    (0xFFFFFFFE, "4294967294", "02/07/06,06:28:14 UTC", "Feb-07-2106,06:28:14"),
    (0xFFFFFFFF, "none", "Unspecified,Unspecified", "Unspec.,Unspec."),
]


@test
def times_at_the_edges():
    """Of one record, as three readers print its time; the controller's own clock cannot be stopped at an edge, so the answer is changed on its way."""
    started(Simulator).restart(forgets=True)  # so that its ids begin with 1 again
    it = small(5, seed=12)
    for moment, *must in TIMES:
        file = it.path / f"time{moment:08X}.txt"
        with Proxy(it, lambda answer: answer[:3] + b"\x05\x00\x02" + moment.to_bytes(4, "little") + bytes(9)) as proxy:
            it.run(CAPTURE, "live", file, *proxy.ipmitool)
            listed = it.run("ipmitool", *proxy.ipmitool, "-c", "sel", "list").stdout
            logged = it.run("ipmi-sel", *proxy.freeipmi, "--ignore-sdr-cache", "--comma-separated-output").stdout
        printed = fields_of(printed_for(file.read_text())[4])["time"]
        rows = ([*map(str.strip, row[1:3])] for rows in (listed, logged) for row in csv.reader(rows.splitlines()) if row[0] == "5")
        same((moment, printed, *map(",".join, rows)), (moment, *must))


EVENT_DATA = [  # sensor type, event types and event data; what seldump and FreeIPMI print of the data
    (0x07, THRESHOLD, "01 12 34", "", ""),
    (0x07, THRESHOLD, "11 12 34", "threshold=52", "Threshold = 34h"),
    (0x07, THRESHOLD, "41 12 34", "reading=18", "Sensor Reading = 12h"),
    (0x07, THRESHOLD, "51 12 34", "reading=18, threshold=52", "Sensor Reading = 12h ; Threshold = 34h"),
    (0x07, THRESHOLD, "A1 12 34", "oem2=0x12, oem3=0x34", "OEM Event Data2 code = 12h ; OEM Event Data3 code = 34h"),
    (0x07, THRESHOLD, "F1 12 34", "ext2=0x12, ext3=0x34", "Event Data2 = 12h ; Event Data3 = 34h"),
    (0x07, THRESHOLD, "51 FF 34", "threshold=52", "Sensor Reading = FFh ; Threshold = 34h"),
    (0x07, THRESHOLD, "51 12 FF", "reading=18", "Sensor Reading = 12h ; Threshold = FFh"),
    (0x07, THRESHOLD, "A1 FF 34", "oem3=0x34", "OEM Event Data3 code = 34h"),
    (0x07, THRESHOLD, "F1 12 FF", "ext2=0x12", "Event Data2 = 12h"),
    (0x07, DISCRETE, "01 12 34", "", ""),
    (0x07, DISCRETE, "11 12 34", "", ""),
    (0x07, DISCRETE, "41 12 34", "prev=0x12", "Severity State = transition to Non-Critical from OK"),
    (0x07, DISCRETE, "51 12 34", "prev=0x12", "Severity State = transition to Non-Critical from OK"),
    (0x07, DISCRETE, "61 12 34", "prev=0x12, oem3=0x34", "Severity State = transition to Non-Critical from OK ; OEM Event Data3 code = 34h"),
    (0x07, DISCRETE, "91 12 34", "oem2=0x12", "OEM Event Data2 code = 12h"),
    (0x07, DISCRETE, "A1 12 34", "oem2=0x12, oem3=0x34", "OEM Event Data2 code = 12h ; OEM Event Data3 code = 34h"),
    (0x07, DISCRETE, "F1 12 34", "ext2=0x12, ext3=0x34", "Event Data2 = 12h ; Event Data3 = 34h"),
    (0x07, DISCRETE, "A1 FF 34", "oem3=0x34", "OEM Event Data3 code = 34h"),
    (0x07, DISCRETE, "F1 12 FF", "ext2=0x12", "Event Data2 = 12h"),
    (0x07, DISCRETE, "41 FF FF", "", ""),
    (0x07, DISCRETE, "41 8F FF", "prev=0x8F", "Severity State = Informational"),  # its upper half is a severity, its lower one a state, and Fh is neither
    (0x07, DISCRETE, "41 9F FF", "prev=0x9F", "Event Data2 = 9Fh"),
    (0x07, DISCRETE, "41 F0 FF", "prev=0xF0", "Event Data2 = F0h"),
    (0x0F, [0x6F], "C1 01 FF", "ext2=0x01", "Memory initialization"),
    (0x0F, [0x6F], "41 F1 FF", "prev=0xF1", "Previous State = Memory initialization"),  # FreeIPMI takes the state for the extension above
    (0x0F, [0x6F], "41 21 FF", "prev=0x21", "Previous State = Memory initialization ; Severity State = transition to Critical from less severe"),
    (0x07, OEM, "01 12 34", "", ""),
    (0x07, OEM, "51 12 34", "prev=0x12", "OEM Event Data2 code = 12h ; OEM Event Data3 code = 34h"),
    (0x07, OEM, "A1 12 34", "oem2=0x12, oem3=0x34", "OEM Event Data2 code = 12h ; OEM Event Data3 code = 34h"),
    (0x07, OEM, "F1 12 34", "", "OEM Event Data2 code = 12h ; OEM Event Data3 code = 34h"),
    (0x07, OEM, "51 FF FF", "", ""),
    (0x07, OTHER, "01 12 34", "", "Event Data2 = 12h ; Event Data3 = 34h"),
    (0x07, OTHER, "51 12 34", "reading=18, threshold=52", "Event Data2 = 12h ; Event Data3 = 34h"),
    (0x07, OTHER, "A1 12 34", "oem2=0x12, oem3=0x34", "Event Data2 = 12h ; Event Data3 = 34h"),
    (0x07, OTHER, "F1 12 34", "ext2=0x12, ext3=0x34", "Event Data2 = 12h ; Event Data3 = 34h"),
    (0x07, OTHER, "51 FF FF", "", "Event Data2 = FFh ; Event Data3 = FFh"),
]


@test
def event_data_by_event_type():
    """Of records of every event type, as two readers print it."""
    rows = [(sensor, event_type, *row) for sensor, event_types, *row in EVENT_DATA for event_type in event_types]
    it = small(0)
    it.add([event_record(sensor, event_type, *bytes.fromhex(data)) for sensor, event_type, data, *_ in rows])
    file = it.path / "data.txt"
    it.run(CAPTURE, "live", file, *it.options)
    printed = printed_for(file.read_text())
    logged = it.run("ipmi-sel", *it.freeipmi, "--ignore-sdr-cache", "--no-header-output", "--comma-separated-output").stdout.splitlines()
    same((printed[-1], len(logged)), (f"walk=ended read={len(rows)}", len(rows)))
    for (*added, mine, theirs), line, row in zip(rows, printed, logged):
        same((*added, fields_of(line)["data"], row.partition(" ; ")[2]), (*added, mine, theirs))  # in the row the event comes first


BROKEN = {  # how a log is broken at record 0005h, and what tools/capture must make of it: status, words, verdict
    "circle": (lambda answer: answer[:1] + b"\x02\x00" + answer[3:], 0, "circle: 0002h is named as next", "walk=circle read=5"),
    "missing": (lambda answer: b"\xcb", 0, "missing: no record 0005h", "walk=missing ask=0005 read=4"),
    "short": (lambda answer: answer[:11], 1, "the answer for 0005h is short: 10 bytes of 18", "walk=missing ask=0005 read=4"),
}


@test
def a_log_that_is_not_whole_over_the_network():
    it = simulator()
    for name, (change, status, words, verdict) in BROKEN.items():
        file = it.path / f"{name}.txt"
        with Proxy(it, change) as proxy:
            said = it.run(CAPTURE, "live", file, *proxy.ipmitool)
        same((name, said.returncode, printed_for(file.read_text())[-1]), (name, status, verdict))
        expect(words in said.stderr, said.stderr)


@test
def records_by_parts_over_the_network():
    """The very capture that whole reads give."""
    it = small(8)
    same(captured_here(it, "whole-reads.txt")[::2], (0, "walk=ended read=8"))
    whole = (it.path / "whole-reads.txt").read_text()
    for most in (1, 5, 16, 255):
        file = it.path / f"parts{most}.txt"
        said = it.run(CAPTURE, "live", "--bytes", str(most), file, *it.options)
        same((most, said.returncode, file.read_text()), (most, 0, whole))


@test
def a_controller_that_answers_a_few_bytes_over_the_network():
    """The size is found. Two other readers list nothing, one of them with status 0: docs/GUIDE.md has the same."""
    it = small(8)
    same(captured_here(it, "all-bytes.txt")[::2], (0, "walk=ended read=8"))
    for most in (1, 4, 15):
        with FewBytes(it, most) as proxy:
            status, said, verdict = captured_here(it, f"few{most}.txt", *proxy.ipmitool)
            listed = it.run("ipmitool", *proxy.ipmitool, "sel", "list")
            logged = it.run("ipmi-sel", *proxy.freeipmi, "--ignore-sdr-cache", "--no-header-output")
        same((most, status, verdict, (it.path / f"few{most}.txt").read_text()), (most, 0, "walk=ended read=8", (it.path / "all-bytes.txt").read_text()))
        expect(f"the controller answers at most {most} byte" in said, said)
        same((listed.returncode, listed.stdout, logged.returncode, logged.stdout), (0, "", 1, ""))


@test
def other_tools_on_a_log_that_is_not_whole():
    """As docs/DIFFERENCES.md has it. A circle has no end for either: they are stopped after five seconds."""
    it, listed = simulator(), {}
    for name, (change, *_) in BROKEN.items():
        with Proxy(it, change) as proxy:
            for tool, command in (("ipmitool", ["ipmitool", *proxy.ipmitool, "sel", "list"]),
                                  ("freeipmi", ["ipmi-sel", *proxy.freeipmi, "--ignore-sdr-cache", "--no-header-output"])):
                said = it.run("timeout", "5", *command)
                listed[tool, name] = said.returncode, said.stdout.splitlines()
    for tool in ("ipmitool", "freeipmi"):
        status, lines = listed[tool, "circle"]
        expect(status == 124 and len(lines) > 100, tool, status, len(lines))
    same([(status, len(lines)) for status, lines in (listed["ipmitool", "missing"], listed["freeipmi", "missing"])], [(0, 4), (1, 4)])
    same(listed["ipmitool", "short"][1][4].split(" | ")[-3:], ["reserved", "", "Asserted"])
    same([line.split(" | ")[0].strip() for line in listed["freeipmi", "short"][1][3:5]], ["4", "6"])


# ---- files of events


def events_in(data):
    """Of each line of a file of events the bytes in hexadecimal; nothing for a comment."""
    return [line.partition("#")[0].replace("0x", "").replace(" ", "") for line in data.decode("latin-1").splitlines()]


def events_of(file, *status):
    """As to-events writes them of a capture in a file."""
    now, data, said = convert("to-events", file)
    expect(now in status, now, said)
    return data


@test
def event_files_that_ipmitool_wrote():
    """Of a record of type 02h it writes the bytes that to-events does. It writes seven bytes of any other too, and from-events takes them all for events."""
    it = simulator()
    saved = it.path / "saved"
    it.ipmitool("sel", "save", str(saved))
    mine, theirs = events_in(events_of(it.file, 1)), events_in(saved.read_bytes())
    same((len(mine), len(theirs)), (len(it.records), len(it.records)))
    for (_, _, record), own, other in zip(it.slots, mine, theirs):
        same((record.hex(), own, len(other)), (record.hex(), other if record[2] == 0x02 else "", 14))
    expect({0x02, 0xC1, 0xDF, 0xE2, 0xFF} <= {record[2] for _, _, record in it.slots}, "not records of all kinds")
    status, capture, said = made_from("events", data=saved.read_bytes())
    same((status, said, [line[44:].lower() for line in capture.splitlines()]), (0, "", theirs))
    same(printed_for(capture)[-1], f"walk=ended read={len(it.records)}")


@test
def event_files_that_ipmitool_adds_to_a_log():
    """As they are, under a generator and at times that are not in the file."""
    written = events_of(simulator().file, 1)
    it = small(0)
    (it.path / "add.events").write_bytes(written)
    it.ipmitool("sel", "add", str(it.path / "add.events"))
    status, said, verdict = captured_here(it, "added.txt")
    events = [*filter(None, events_in(written))]
    same((status, verdict), (0, f"walk=ended read={len(events)}"))
    added = events_of(it.path / "added.txt", 0)
    same(events_in(added), events)
    same({line.split("=")[-1] for line in added.decode().splitlines()}, {"4100"})


@test
def event_files_that_ipmitool_sends():
    """As they are. The simulated controller does not take them, so their way there is looked at."""
    it = simulator()
    messages = [*dict.fromkeys(record[9:] for _, _, record in it.slots if record[2] == 0x02)]
    file = it.path / "send.events"
    status, capture, said = made_from("events", data="".join(f"{' '.join(map(str, message))}\n" for message in messages).encode())
    (it.path / "send.txt").write_text(capture)
    file.write_bytes(events_of(it.path / "send.txt", 0))
    refused = it.run("ipmitool", *it.options, "event", "file", str(file))
    expect(refused.returncode == 1 and "Platform Event Message command failed: Invalid command" in refused.stderr, refused.returncode, refused.stderr)
    with EventReceiver(it) as proxy:
        sent = it.run("ipmitool", *proxy.ipmitool, "event", "file", str(file))
    same((sent.returncode, [*dict.fromkeys(proxy.messages)]), (0, messages))  # one that was not answered at once is sent again


# ---- what ipmitool does, on this machine alone: the commands of docs/GUIDE.md


def beside(capture, *command, options=()):
    """A command beside a controller that answers as the capture of examples/ says."""
    return subprocess.run([ROOT / "tools/controller", *options, ROOT / "examples" / capture, *command], stdin=subprocess.DEVNULL, stdout=subprocess.PIPE,
                          stderr=subprocess.PIPE, encoding="latin-1", timeout=SECONDS)


def captured(capture, options=()):
    with tempfile.TemporaryDirectory() as folder:
        file = pathlib.Path(folder, "capture.txt")
        said = beside(capture, CAPTURE, "live", file, "-I", "dummy", options=options)
        return said.returncode, said.stderr, printed_for(file.read_text())[-1]


@test
def a_circle_with_ipmitool():
    """ipmitool lists the same records again and again, until it is ended."""
    status, said, verdict = captured("circle.txt")
    same((status, verdict), (0, "walk=circle read=5"))
    said = beside("circle.txt", "timeout", "2", "ipmitool", "-I", "dummy", "sel", "list")
    expect(said.returncode == 124 and len(said.stdout.splitlines()) > 100, said.returncode, len(said.stdout.splitlines()))


@test
def a_missing_record_with_ipmitool():
    """ipmitool lists what comes before it, and ends with status 0."""
    status, said, verdict = captured("missing.txt")
    same((status, verdict), (0, "walk=missing ask=001D read=3"))
    said = beside("missing.txt", "ipmitool", "-I", "dummy", "sel", "list")
    same((said.returncode, len(said.stdout.splitlines())), (0, 3))


@test
def a_short_answer_with_ipmitool():
    """Through this interface ipmitool fills it up with the end of the answer before, and lists that: here a deassertion as an assertion."""
    short = ["--short", "001D=10"]
    status, said, verdict = captured("circle.txt", options=short)
    same((status, verdict), (1, "walk=missing ask=001D read=3"))
    expect("the answer for 001Dh is short: 10 bytes of 18" in said, said)
    whole, cut = (beside("circle.txt", "timeout", "2", "ipmitool", "-I", "dummy", "sel", "list", options=words).stdout.splitlines()[3] for words in ([], short))
    same((whole.split(" | ")[0].strip(), whole.split(" | ")[-1], cut), ("1d", "Deasserted", whole.replace("Deasserted", "Asserted")))


@test
def a_few_bytes_with_ipmitool():
    """ipmitool lists nothing, writes an empty file, and ends with status 0."""
    with tempfile.TemporaryDirectory() as folder:
        for most in (1, 4, 15, 16):
            file = pathlib.Path(folder, f"capture{most}.txt")
            said = beside("made.txt", CAPTURE, "live", file, "-I", "dummy", options=["--bytes", str(most)])
            same((most, said.returncode, file.read_text()), (most, 0, (ROOT / "examples/made.txt").read_text()))
            expect(f"the controller answers at most {most} byte" in said.stderr, said.stderr)
        file = pathlib.Path(folder, "raw")
        for words in (["list"], ["writeraw", file]):
            said = beside("made.txt", "ipmitool", "-I", "dummy", "sel", *words, options=["--bytes", "4"])
            same((said.returncode, said.stdout, "Cannot return number of requested data bytes" in said.stderr), (0, "", True))
        same(file.read_bytes(), b"")


# What tools/controller answers to one ask after the other, by its options: bytes, or a completion code. Of examples/made.txt, the first record.
FIRST = "02 00 01 00 02 e8 03 00 00 20 00 04 01 30 01 59 5a 55"
IN_PARTS = {
    (): """
        0x43 0 0 0 0 0 0xff | FIRST
        0x43 0 0 0 0 4 4 | c5
        0x43 1 0 0 0 4 4 | c5
        0x42 | 01 00
        0x43 0 0 0 0 4 4 | c5
        0x43 1 0 0 0 4 4 | 02 00 03 00 00 20
        0x43 1 0 0 0 0 16 | FIRST
        0x43 1 0 0 0 14 0xff | 02 00 5a 55
        0x43 1 0 0 0 15 2 | ca
        0x43 1 0 0 0 16 1 | cc
        0x43 1 0 9 0 0 4 | cb
    """,
    ("--bytes", "4"): """
        0x43 0 0 0 0 0 0xff | ca
        0x42 | 01 00
        0x43 1 0 0 0 0 5 | ca
        0x43 1 0 0 0 0 0xff | ca
        0x43 1 0 0 0 0 4 | 02 00 01 00 02 e8
        0x43 1 0 0 0 12 4 | 02 00 01 59 5a 55
        0x43 1 0 0 0 13 4 | ca
        0x42 | 02 00
        0x43 1 0 0 0 0 4 | c5
        0x43 2 0 0 0 15 1 | 02 00 55
    """,
    ("--bytes", "254"): "0x43 0 0 0 0 0 0xff | ca",
    ("--bytes", "255"): "0x43 0 0 0 0 0 0xff | FIRST",
    ("--bytes", "4", "--short", "0000=4"): """
        0x42 | 01 00
        0x43 1 0 0 0 0 4 | 02 00 01 00
        0x43 1 0 0 0 4 4 | 02 00
    """,
}


@test
def parts_of_tools_controller():
    for options, asks in IN_PARTS.items():
        rows = [row.strip().replace("FIRST", FIRST).split(" | ") for row in asks.strip().splitlines()]
        commands = "".join(f"ipmitool -I dummy raw 0x0a {ask} 2>&1 | tr '\\n' ' '; echo\n" for ask, _ in rows)
        said = beside("made.txt", "sh", "-c", commands, options=options).stdout.splitlines()
        came = [refused[1] if (refused := re.search(r"rsp=0x(\w\w)", line)) else " ".join(line.split()) for line in said]
        same((options, [[ask, answer] for (ask, _), answer in zip(rows, came)]), (options, rows))
