"""The questions of the program `replay`, in the order of crates/replay/stdin, and the records of `seldump`'s capture, crates/seldump/stdin.

What `seldump` must print, crates/seldump/stdout, is by dump.py. The answers of `replay`, crates/replay/stdout, come from three places: from model.py for lines
that begin with p, w, I, F, X, s, D, V, L, M, K, N, P, O, R or J, which the Rust does not have, for what Q refuses, where it refuses nothing, for what is
refused by its length or by a reservation of 0, which it tells less of, and for what E and G refuse, as it knows no versions (judge.py: mapped back it must be
the Rust's, which is asked e and g of what follows the version, and answers so what E and G accept; of lines that begin with e or = the two must say the same,
and so must s and t of the times, and D and d, V and v of the event types, that the rules leave alone; what M and N write both must read as the entry that was
asked for, and what K writes must be the entry that the Rust reads; of what P records and what O takes the Rust must read the fields of the message; of what Q
accepts both must say the same six bytes); from panics.txt where the Rust panics, which the model must say too; from the Rust for every other line. That a line
is no question, `?`, is said by the program that asks the Rust (src/main.rs), or by model.py.
"""

import hashlib
import itertools
import re

import model
from rust import ROOT


def question(kind, data):
    return f"{kind} {bytes(data).hex().upper()}"


def mixed(length):
    return bytes((37 * i + 11 * length + 5) % 256 for i in range(length))


def word(number):
    return number.to_bytes(2, "little")


def changed(data, place, value):
    return data[:place] + bytes([value]) + data[place + 1:]


RECORD = bytes.fromhex("010002E8030000200004013001595A55")
BY_SOFTWARE = changed(RECORD, 7, 0x21)
OEM_TIMED = bytes.fromhex("0200C1E8030000AB1280010203040506")
OEM_PLAIN = bytes.fromhex("0300E20102030405060708090A0B0C0D")
INFO = bytes.fromhex("510A00F03FE803000000020000") + b"\x8F"
ALLOCATION = bytes.fromhex("000414008000600001")

# A good answer of each kind, first the plain ones, then more.
GOOD = {
    "e": RECORD, "y": RECORD, "g": word(2) + RECORD, "p": word(2) + RECORD,
    "i": INFO, "a": ALLOCATION, "r": word(0x1234), "c": b"\x01",
}
MORE = [("e", BY_SOFTWARE), ("e", OEM_TIMED), ("e", OEM_PLAIN), ("g", word(0xFFFF) + OEM_TIMED), ("g", word(0) + OEM_PLAIN)]

# A log of eight entries as it was once read in one piece: eight Get SEL Entry answers end to end.
EIGHT_ANSWERS = b"".join(word(k + 1 if k < 8 else 0xFFFF) + word(k) + RECORD[2:] for k in range(1, 9))

EDGES = (0x00, 0x01, 0xFE, 0xFF)
WORDS = (0x0000, 0x0001, 0x00FF, 0x0100, 0x7FFF, 0x8000, 0xFFFE, 0xFFFF)


def times():
    """Around every change of the number of digits, decimal and binary."""
    yield 0
    for k in range(10):
        yield from (10**k - 1, 10**k, 10**k + 1)
    for k in range(32):
        yield from (2**k - 1, 2**k)
    yield from (0x20000001, 0xFFFFFFFE, 0xFFFFFFFF)


def time_texts():
    for kind in ("t", "s"):
        for time in times():
            yield question(kind, time.to_bytes(4, "little"))


def timed_records():
    """Each kind of record with a time, at the edges of the ranges of times."""
    for time in (0, 1, 0x1FFFFFFF, 0x20000000, 0x20000001, 0xFFFFFFFE, 0xFFFFFFFF):
        for record in (RECORD, OEM_TIMED):
            yield question("e", record[:3] + time.to_bytes(4, "little") + record[7:])


def allocations():
    """Every length to well past the fields: mixed bytes, then all 00h, all FFh."""
    for length in range(301):
        yield question("a", mixed(length))
    for byte in (b"\x00", b"\xFF"):
        for length in range(301):
            yield question("a", byte * length)


def event_data():
    """Every first byte, so every offset and both kinds, with values at the edges."""
    for kind in ("d", "v"):
        for first in range(256):
            for second in EDGES:
                for third in EDGES:
                    yield question(kind, [first, second, third])


def typed_data():
    """Every event type, with bit 7 and without, under every pair of kinds; at the ends of the ranges of types with values at the edges too, and with every value."""
    ends = (0x00, 0x01, 0x02, 0x0C, 0x0D, 0x6E, 0x6F, 0x70, 0x7F)
    for kind in ("D", "V"):
        for event in range(256):
            for first in range(0x05, 0x100, 0x10):
                yield question(kind, [event, first, 0x12, 0x34])
        for event in (*ends, 0x81, 0x8C, 0xEF, 0xF0):
            for first in range(0x09, 0x100, 0x10):
                for second, third in ((0x00, 0xFF), (0xFF, 0x00), (0xFF, 0xFF), (0xFE, 0xFE)):
                    yield question(kind, [event, first, second, third])
        for event in (0x01, 0x6F, 0x70):
            for first in (0x50, 0xF0):
                for value in range(256):
                    yield question(kind, [event, first, value, 255 - value])


def typed_records():
    """A record of each event type whose event data says most: both kinds 01, and both kinds 11; and of each direction."""
    for event in range(256):
        for first in (0x59, 0xF9):
            yield question("e", RECORD[:12] + bytes([event, first]) + RECORD[14:])


def unspecified_records():
    """Event data under every pair of kinds, either byte FFh or not."""
    for kinds in range(0x00, 0x100, 0x10):
        for second in (0x12, 0xFF):
            yield from (question("e", RECORD[:13] + bytes([kinds, second, third])) for third in (0x12, 0xFF))


def event_texts():
    """Every sensor type and every event type, with two offsets past the last; then every offset, with and without the bits that do not count."""
    for sensor in range(256):
        for offset in range(18):
            yield question("x", [0x6F, sensor, offset])
    for event in range(256):
        for offset in range(18):
            yield question("x", [event, 0x0C, offset])
    for event in (0x01, 0x81, 0x6F, 0xEF):
        for offset in range(256):
            yield question("x", [event, 0x0C, offset])


def lengths():
    """Every length to well past the fields: mixed bytes, and a good answer continued by mixed bytes."""
    for kind, good in GOOD.items():
        for length in range(301):
            if kind != "a":  # asked above
                yield question(kind, mixed(length))
            yield question(kind, (good + mixed(length))[:length])


def lengths_alone():
    """A letter of an answer and a length, before there is a byte: small ones, those that a byte or a word would cut to a good one, and the largest; every other letter."""
    good = sorted({len(answer) for answer in GOOD.values()})
    for letter in b"egiarc":
        for length in (*range(41), 127, 128, 255, *(base + g for base in (2**8, 2**16, 2**24, 2**31) for g in (0, *good)), 2**32 - 1):
            yield question("L", bytes([letter]) + length.to_bytes(4, "little"))
    for letter in range(256):
        if letter not in b"egiarc":
            yield question("L", bytes([letter]) + (16).to_bytes(4, "little"))


def eight_answers():
    """The 144 bytes of a whole log, which no reader may take for one answer of that length."""
    for kind in GOOD:
        yield question(kind, EIGHT_ANSWERS)


def every_value(kind, good, place):
    """A good answer with every value of one byte."""
    for value in range(256):
        yield question(kind, changed(good, place, value))


def fields():
    """Record type; generator and revision; direction and event type; version and supported commands of an info; progress; reservation."""
    for place in (2, 7, 8, 9, 12):
        yield from every_value("e", RECORD, place)
    yield from every_value("e", BY_SOFTWARE, 8)
    for channel in range(16):
        record = changed(RECORD, 8, channel << 4)
        yield from (question("y", record), question("g", word(2) + record))
    yield from every_value("i", INFO, 0)
    yield from every_value("i", INFO, 13)
    yield from every_value("c", b"\x00", 0)
    for id in (*WORDS, 0x0002, 0x00FE, 0x0101):
        for length in range(4):  # of zeros too: length before reservation
            yield question("r", (word(id) + b"\x00")[:length])


def oem_records():
    """The edges of the ranges of types, makers with high bits, and channel Ch where it is none."""
    for record_type in (0xBF, 0xC0, 0xDF, 0xE0, 0xFF):
        for maker in (0x000000, 0x000001, 0x00C000, 0x7FFFFF, 0x800000, 0xC0C0C0, 0xFFFFFF):
            record = changed(OEM_TIMED[:7] + maker.to_bytes(3, "little") + OEM_TIMED[10:], 2, record_type)
            yield from (question("e", record), question("y", record), question("g", word(3) + record))


def damaged(kind, good):
    """Each byte in turn 00h, FFh, and flipped in each bit; one byte lost, one too many; cut at every length."""
    for place, byte in enumerate(good):
        for value in (0x00, 0xFF, *(byte ^ 1 << bit for bit in range(8))):
            yield question(kind, changed(good, place, value))
        yield question(kind, good[:place] + good[place + 1:])
        yield question(kind, good[:place] + b"\x5A" + good[place:])
        yield question(kind, good[:place])
    yield question(kind, good + b"\x5A")


def damages():
    for kind, good in [*GOOD.items(), *MORE]:
        yield from damaged(kind, good)


VERSIONS = (0x51, 0x02)  # 1.5 and 2.0, by their byte in a Get Device ID answer
UNNAMED = (0x00, 0x20, 0x15, 0x52, 0xFF)  # none: both with their digits the other way round, too


def versioned(kind, version, data):
    return question(kind, bytes([version]) + data)


def version_bytes():
    """Every version byte: before a record that is good, of a channel that 1.5 alone reserves, cut short and empty; before a good answer."""
    for version in range(256):
        for record in (RECORD, changed(RECORD, 8, 0x90), RECORD[:15], b""):
            yield versioned("E", version, record)
        yield versioned("G", version, GOOD["g"])


def versioned_channels():
    """Under both versions every channel, by an address and by a software id; of a record with the lowest and the highest byte that has it."""
    for version in VERSIONS:
        for record in (RECORD, BY_SOFTWARE):
            for channel in range(0x00, 0x100, 0x10):
                yield from (versioned("E", version, changed(record, 8, channel | low)) for low in (0x0, 0xF))
                yield versioned("G", version, word(2) + changed(record, 8, channel))


def versioned_types():
    """Under both versions the edges of the ranges of types, with a channel that 1.5 alone reserves and with one that both do: OEM records have none."""
    for version in VERSIONS:
        for record_type in (0x01, 0x02, 0x03, 0xBF, 0xC0, 0xDF, 0xE0, 0xFF):
            for channel in (0x90, 0xC0):
                record = changed(changed(RECORD, 2, record_type), 8, channel)
                yield from (versioned("E", version, record), versioned("G", version, word(2) + record))


def versioned_lengths():
    """Every length to past the fields, under both versions and under bytes that are none; fewer of these before an answer."""
    for kind, good, versions in (("E", RECORD, VERSIONS + UNNAMED), ("G", GOOD["g"], VERSIONS + UNNAMED[:2])):
        for version in versions:
            yield from (versioned(kind, version, (good + mixed(length))[:length]) for length in range(41))


def versioned_damages():
    """A good record behind each version, which is damaged too."""
    for version in VERSIONS:
        yield from damaged("E", bytes([version]) + RECORD)


def texts_of_records():
    """Generic event types, then sensor-specific ones, then two that have no text; asserted and deasserted."""
    cases = [(event, 0x01) for event in range(0x01, 0x0D)]
    cases += [(0x6F, sensor) for sensor in (0x01, 0x05, 0x08, 0x0C, 0x0D, 0x22, 0x23, 0x2C, 0xC0)]
    cases += [(0x00, 0x0C), (0x7F, 0x0C)]
    for event, sensor in cases:
        for offset in range(16):
            for high in (0x00, 0x80):
                yield question("y", RECORD[:10] + bytes([sensor, 0x30, event | high, 0x50 | offset]) + RECORD[14:])


def record_ids():
    for id in WORDS:
        yield question("n", word(id))


def requests():
    """Every command, with reservations and record ids at the edges; then what is no request."""
    for command in range(256):
        yield question("q", [command])
    for reservation in WORDS:
        for last in (0xAA, 0x00, 0xAB, 0x01, 0xFF):
            yield question("q", b"\x47" + word(reservation) + bytes([last]))
        for id in WORDS:
            yield question("q", b"\x43" + word(reservation) + word(id))
    for command in (0x3F, 0x40, 0x41, 0x42, 0x43, 0x44, 0x47):
        for length in range(8):
            yield question("q", bytes([command]) + b"\xAA" * length)


# Good records to compare: of the system by an address and by a software id, with each kind of event data, with all bits set, and with none; OEM
# records at the edges of their types.
COMPARED = [
    *(bytes.fromhex(f"010002E8030000{generator}04013001{data}") for generator in ("2000", "2100", "A1F3", "20E2")
      for data in ("595A55", "A9FF55", "F5A0FF", "0F1234")),
    bytes.fromhex("000002" + 26 * "0"), bytes.fromhex("FFFF02" + 26 * "F"),
    OEM_TIMED, OEM_PLAIN, *(changed(OEM_TIMED, 2, record_type) for record_type in (0xC0, 0xDF, 0xE0, 0xFF)),
]

# What equal entries overlook, by the list of docs/SCOPE.md: the smallest pairs.
OVERLOOKED = [
    ("010002E8030000200004013001595A55", "010002E8030000200404013001595A55"),
    ("010002E8030000210004013001595A55", "010002E8030000210104013001595A55"),
    ("010002E8030000200004013001190055", "010002E8030000200004013001190155"),
    ("010002E803000020000401300119FF55", "010002E803000020000401300159FF55"),
    ("010002E8030000200004013001495A00", "010002E8030000200004013001495A01"),
    ("010002E8030000200004013001495AFF", "010002E8030000200004013001595AFF"),
]

DATA_VALUES = (0x00, 0x5A, 0xFE, 0xFF)


def flipped(record, bits):
    """The record with these bits changed."""
    return (int.from_bytes(record, "little") ^ sum(1 << bit for bit in bits)).to_bytes(len(record), "little")


def flips(record, bits):
    """The record, and with each of the bits and with every two of them changed."""
    bits = list(bits)
    yield record
    for k, bit in enumerate(bits):
        yield flipped(record, [bit])
        yield from (flipped(record, [bit, other]) for other in bits[k + 1:])


def data_pairs():
    """Two records that differ in one event data byte and its kind, each kind and value with each."""
    for place, shift in ((14, 6), (15, 4)):
        shown = [changed(changed(RECORD, 13, kind << shift | 0x09), place, value) for kind in range(4) for value in DATA_VALUES]
        yield from ((a, b) for a in shown for b in shown)


def pairs():
    """What is overlooked, both ways round; each bit of good records flipped, and two bits of the bytes that are not compared whole; event data; then who is refused first."""
    for one, other in OVERLOOKED:
        yield from (question("=", bytes.fromhex(one + other)), question("=", bytes.fromhex(other + one)))
    for record in COMPARED:
        yield from (question("=", record + flipped(record, bits)) for bits in ([], *([bit] for bit in range(128))))
    for record in (RECORD, BY_SOFTWARE):
        for bytes_ in ((8,), (13, 14), (13, 15)):
            places = [8 * byte + bit for byte in bytes_ for bit in range(8)]
            yield from (question("=", record + other) for other in flips(record, places))
    yield from (question("=", a + b) for a, b in data_pairs())
    refused = [changed(RECORD, 2, 0x03), changed(RECORD, 2, 0xBF), changed(RECORD, 8, 0xC0), changed(BY_SOFTWARE, 8, 0xD3)]
    good = [RECORD, OEM_TIMED, OEM_PLAIN]
    yield from (question("=", a + b) for a in refused + good for b in refused + good)
    yield from (question("=", (RECORD * 3)[:length]) for length in (0, 15, 16, 17, 31, 33, 48))


# Entries to write, by the fields of the question in their order; these fields have more than a byte, and of the OEM bytes the first is the lowest.
SIZES = {"room": 2, "oem": 13, "kept": 5, "id": 2, "time": 4, "maker": 4}
SYSTEM = {
    "room": 16, "oem": 0, "head": 0, "id": 1, "time": 1000, "generator": 0, "sender": 0x10, "channel": 0x0, "unit": 2, "revision_kind": 0, "revision": 0x04,
    "sensor": 0x01, "number": 0x30, "direction": 0, "event_type": 0x01, "offset": 9, "kind2": 1, "value2": 0x5A, "kind3": 1, "value3": 0x55,
}
TIMED = {"room": 16, "oem": 0x060504030201, "head": 1, "id": 2, "type": 0xC1, "time": 1000, "maker": 0x8012AB}
PLAIN = {"room": 16, "oem": 0x0D0C0B0A090807060504030201, "head": 2, "id": 3, "type": 0xE2}
WRITTEN = [
    SYSTEM, TIMED, PLAIN,
    SYSTEM | {"generator": 1, "channel": 0xB, "unit": 0, "revision_kind": 1, "revision": 0x03, "direction": 1, "kind2": 0, "value2": 0, "kind3": 0, "value3": 0},
    SYSTEM | {"channel": 0xF, "revision_kind": 2, "revision": 0x51, "event_type": 0x6F, "offset": 0, "kind2": 2, "kind3": 3},
]

# Fields of an entry up to their bound, and past it, where no record parses to it.
BOUNDS = [
    *({"sender": sender} for sender in (0, 126, 127, 128, 129, 255)),
    *({"channel": channel} for channel in (*range(18), 0x80, 0xF0, 0xFF)),
    *({"generator": 0, "unit": unit} for unit in (0, 1, 2, 3, 4, 5, 255)),
    *({"revision_kind": 2, "revision": revision} for revision in (0x00, 0x02, 0x03, 0x04, 0x05, 0xFF)),
    *({"event_type": event} for event in (0, 126, 127, 128, 129, 255)),
    *({"offset": offset} for offset in (0, 14, 15, 16, 17, 255)),
    *({f"kind{byte}": kind, f"value{byte}": value} for byte in (2, 3) for kind in (1, 2, 3) for value in EDGES),
    *({"type": record_type} for record_type in (0x00, 0x02, 0xBF, 0xC0, 0xDF, 0xE0, 0xFF)),
    *({"maker": maker} for maker in (0, 0xFFFFFE, 0xFFFFFF, 0x1000000, 0x80000000, 2**32 - 1)),
    *({"oem": value << 8 * place} for place in range(13) for value in (0x01, 0xFF)),
]

# Fields that no entry has.
NO_ENTRY = [
    *({"head": head} for head in (3, 0x80, 0xFF)),
    *({name: value} for name in ("generator", "direction") for value in (2, 0x81, 0xFF)),
    *({name: value} for name in ("kind2", "kind3") for value in (4, 0x81, 0xFF)),
    *({"generator": 1, "unit": unit} for unit in (1, 3, 4, 255)),
    *({"revision_kind": kind, "revision": revision} for kind in (0, 1, 3, 0xFF) for revision in range(7) if (kind, revision) not in ((0, 0x04), (1, 0x03))),
    *({f"kind{byte}": 0, f"value{byte}": value} for byte in (2, 3) for value in (0x01, 0xFE, 0xFF)),
]

ROOMS = (0, 1, 15, 16, 17, 0x00FF, 0x0100, 0xFFFF)


def joined(fields):
    """The bytes of an entry to write."""
    return b"".join(value.to_bytes(SIZES.get(name, 1), "little") for name, value in fields.items())


def fitting(changes, fields):
    return [change for change in changes if change.keys() <= fields.keys()]


def with_each(changes, entries):
    return [fields | change for fields in entries for change in fitting(changes, fields)]


def entries_to_write():
    """Each bound; heads of another kind; what is no entry, alone, and with a field past its bound and no room, as `?` comes first; rooms, also of what answers 7,
    which comes before 4, and of what is no entry; damages."""
    past = with_each([{"sender": 128}, {"type": 0xBF}], WRITTEN)
    for fields in (*with_each(BOUNDS, WRITTEN), *with_each([{"head": head} for head in range(3)], WRITTEN),
                   *with_each(NO_ENTRY, WRITTEN), *with_each(NO_ENTRY, with_each([{"room": 0}], past)),
                   *with_each([{"room": room} for room in ROOMS], [*WRITTEN, *past, *with_each(NO_ENTRY[:1], WRITTEN)])):
        yield question("M", joined(fields))
    for fields in (SYSTEM, TIMED, PLAIN):
        yield from damaged("M", joined(fields))


def entry_to_write(flat):
    return question("M", word(16) + model.asked_entry(flat))


def entries_of_records(asked):
    """Of every record of kind e that is accepted the entry to write, each once."""
    entries = (model.answer(line) for line in asked if line[:2] == "e ")
    yield from dict.fromkeys(entry_to_write(bytes.fromhex(entry[2:])) for entry in entries if entry[:2] == "0 ")


# Records of the system to keep bytes of: by an address and by a software id, with each kind of event data; with no bit set, and with all.
KEEPING = [*COMPARED[:16:5], *COMPARED[16:18]]
KEPT_BITS = [8 * place + bit for place in (7, 8, 13, 14, 15) for bit in range(8)]


def any_bytes(number, length):
    """Without order, but the same each time."""
    return hashlib.sha256(b"%d" % number).digest()[:length]


def any_record(number):
    """By number a record of the system, two times of four, an OEM record or one of any type."""
    record = any_bytes(number, 16)
    return changed(record, 2, (0x02, 0x02, 0xC0 | record[2], record[2])[number % 4])


def records_to_keep():
    """With what no field holds, set and not: every channel above all values of the four bits, and above some by a software id; event data under every pair of kinds,
    with values at the edges; those above."""
    for record, lows in ((RECORD, range(16)), (BY_SOFTWARE, (0x0, 0x1, 0x4, 0x8, 0xF))):
        yield from (changed(record, 8, channel << 4 | low) for channel in range(16) for low in lows)
    yield from (RECORD[:13] + bytes([kinds << 4 | 0x09, second, third]) for kinds in range(16) for second in EDGES for third in EDGES)
    yield from KEEPING


def records_of_examples():
    """The records of the captures in examples/; a line that is none has no record."""
    for path in sorted((ROOT / "examples").glob("*.txt")):
        yield from map(bytes.fromhex, re.findall(r"(?m) record=([0-9A-F]{32})$", path.read_text()))


def again(record, room=16):
    return question("K", word(room) + record)


def records_again():
    """Rooms, also of what is refused, as 4 comes last; types, with a channel that is none too; lengths; what no field holds, and each bit of what is kept flipped;
    damages; the records of the captures; any."""
    refused = [changed(RECORD, 2, 0x03), changed(RECORD, 8, 0xC0), changed(BY_SOFTWARE, 8, 0xDF), RECORD[:15], b""]
    yield from (again(record, room) for record in (RECORD, COMPARED[17], OEM_TIMED, OEM_PLAIN, RECORD + mixed(5), *refused) for room in ROOMS)
    for record_type in (0x00, 0x01, 0x02, 0x03, 0xBF, 0xC0, 0xDF, 0xE0, 0xFF):
        yield from (again(changed(changed(RECORD, 2, record_type), 8, channel), room) for channel in (0x00, 0xC0) for room in (15, 16))
    yield from (question("K", (word(16) + RECORD + mixed(length))[:length]) for length in range(41))
    yield from map(again, (*records_to_keep(), *(flipped(record, [bit]) for record in KEEPING for bit in KEPT_BITS)))
    yield from damaged("K", word(16) + RECORD)
    yield from map(again, (*records_of_examples(), *map(any_record, range(150))))


def keeping(flat, record):
    """The fields of the question for an entry, by its flat bytes, and what is kept of a record; of that the first byte is the lowest, as of the OEM bytes."""
    return {"room": 16, "kept": model.number(model.kept_of(record)), "head": flat[0], "id": model.number(flat[1:3]), "time": model.number(flat[3:7]),
            **model.Event(*flat[7:])._asdict()}


def parsed_from(record, other=None):
    """The entry of a record, with what is kept of it, or of another."""
    return keeping(model.entry(record), other or record)


def made_of(fields):
    """An entry, with what is kept of the record that is written for its fields; bits past a bound are not in that."""
    head = joined({name: value for name, value in fields.items() if name not in ("room", "oem", "kept")})
    return keeping(head, model.written(b"", head))


def kept_entries():
    """What is kept and fields that follow, also with a channel that is none; what is kept of another record, which differs in a bit or in an event data byte; another
    field, also past its bound; each bound, with what follows from the fields; what is no entry, alone, and where else 7 or 4 is due; rooms, also of what is 7,
    which comes before 4, and of what is no entry; OEM entries; damages; any."""
    good, software = [*map(parsed_from, KEEPING)], [{"generator": 1, "unit": 0}]
    refused = [parsed_from(changed(RECORD, 8, 0xC0)), *with_each([{"sender": 0x7F}, {"sender": 128}, {"channel": 0xC}, {"unit": 4}, {"head": 3}], good[:1])]
    for fields in (*map(parsed_from, records_to_keep()), *(parsed_from(record, flipped(record, [bit])) for record in KEEPING for bit in KEPT_BITS),
                   *(parsed_from(one, other) for one, other in data_pairs()), *with_each(BOUNDS + software, good[:4]),
                   *map(made_of, with_each(BOUNDS, (fields for fields in WRITTEN if fields["head"] == 0))),
                   *with_each([*NO_ENTRY, {"head": 1}, {"head": 2}], good[:2]), *with_each(NO_ENTRY, with_each([{"sender": 128, "room": 0}], good[:1])),
                   *with_each([{"room": room} for room in ROOMS], good + refused)):
        yield question("N", joined(fields))
    for flat in map(model.entry, (OEM_TIMED, OEM_PLAIN)):  # these keep nothing
        yield from (question("N", word(16) + bytes(5) + head) for head in (flat, flat[:model.HEAD[flat[0]]]))
    yield from damaged("N", joined(good[0]))
    for record in (changed(any_record(number), 2, 0x02) for number in range(150)):
        bits = {KEPT_BITS[byte % 40] for byte in any_bytes(model.number(record), record[0] % 3)}
        yield question("N", joined(parsed_from(record, flipped(record, bits))))


# An event message, and what it is recorded with: id, time and generator bytes. The sixteen bytes of the record all differ.
MESSAGE = bytes.fromhex("040930EF57A1C2")
GIVEN = bytes.fromhex("341278BC9A562E53")
RECORDED = model.recorded(GIVEN + MESSAGE)

MESSAGE_ROOMS = sorted({*ROOMS, 6, 7, 8, 0x8000})


def to_record(message, given=GIVEN, room=16):
    return question("P", word(room) + given + message)


def to_message(record, room=7):
    return question("O", word(room) + record)


def given_again(record):
    """The message of a record, with all that stands before it but the type."""
    return to_record(record[model.MESSAGE:], record[:2] + record[3:model.MESSAGE])


def message_values():
    """Every value of each byte of the generator and of a message."""
    for place in range(8, 17):
        yield from every_value("P", word(16) + GIVEN + MESSAGE, place)


def records_with_messages():
    """The records of the captures, those that are compared, and any."""
    return [*records_of_examples(), *COMPARED, *map(any_record, range(100))]


def messages_to_record():
    """Lengths, also those that a byte or a word would cut to a good one; ids and times at their edges; channels by a software id; what is short or long, with a
    bad channel and no room, each with each, as 1 and 8 come before 3, and 4 last; rooms; damages, so also too few bytes; records with messages."""
    yield from (to_record((MESSAGE + mixed(length))[:length]) for length in (*range(21), 255, 256, 263, 300, 60_000, 65_543))
    yield from (to_record(MESSAGE, word(id) + GIVEN[2:]) for id in WORDS)
    for time in (0, 1, *(2**bits + by for bits in (8, 16, 24, 29, 31) for by in (-1, 0)), 2**29 + 1, 2**32 - 2, 2**32 - 1):
        yield to_record(MESSAGE, GIVEN[:2] + time.to_bytes(4, "little") + GIVEN[6:])
    yield from (to_record(MESSAGE, GIVEN[:6] + bytes([0x2F, channel << 4])) for channel in range(16))
    for length, high, room in itertools.product((0, 4, 5, 6, 7, 8, 9, 14), (0x53, 0xBF, 0xC0, 0xDF, 0xE0), (0, 15, 16)):
        yield to_record((MESSAGE + MESSAGE)[:length], changed(GIVEN, 7, high), room)
    for message, high in itertools.product((MESSAGE, MESSAGE[:6], MESSAGE + b"\x5A"), (0x53, 0xC3)):
        yield from (to_record(message, changed(GIVEN, 7, high), room) for room in MESSAGE_ROOMS)
    yield from damaged("P", word(16) + GIVEN + MESSAGE)
    yield from (given_again(record) for record in records_with_messages() if record[2] == 0x02)


def records_made(asked):
    """The record of every message that is accepted, each once."""
    answers = (model.answer(line) for line in asked if line[:2] == "P ")
    return [*dict.fromkeys(bytes.fromhex(answer[2:]) for answer in answers if answer[:2] == "0 ")]


def records_to_take():
    """Lengths, also those that a byte or a word would cut to a short one; every type; every channel, also by a software id; what is short, of another type,
    with a bad channel and no room, each with each, as 1 comes before 2, and 4 last; records one behind the other; rooms; damages; records with messages."""
    yield from (to_message((RECORDED + mixed(length))[:length]) for length in (*range(41), 255, 256, 271, 300, 60_000, 65_536))
    for place in (2, 8):
        yield from every_value("O", word(7) + RECORDED, 2 + place)
    yield from (to_message(RECORDED[:7] + bytes([0x2F, channel << 4]) + MESSAGE) for channel in range(16))
    for length, record_type, high, room in itertools.product((0, 2, 3, 15, 16, 17, 32), (0x02, 0x03, 0xC1, 0xE2), (0x53, 0xC0), (0, 6, 7)):
        yield to_message((2 * changed(changed(RECORDED, 2, record_type), 8, high))[:length], room)
    some = (RECORDED, changed(RECORDED, 2, 0x03), changed(RECORDED, 8, 0xC3), RECORD, OEM_TIMED, OEM_PLAIN)
    yield from (to_message(one + other) for one, other in itertools.product(some, (*some, bytes(16), b"\xFF" * 16, b"\x5A")))
    yield from (to_message(record, room) for record in (*some, RECORDED[:15], RECORDED + RECORD) for room in MESSAGE_ROOMS)
    yield from damaged("O", word(7) + RECORDED)
    yield from map(to_message, records_with_messages())


def messages():
    """There and back: every message that is accepted is also taken from its record."""
    there = [*message_values(), *messages_to_record()]
    yield from (*there, *map(to_message, records_made(there)), *records_to_take())


LAST = 0xFFFF


# What a record holds means nothing to a walk: one record twice, an unknown type, an invalid channel, an OEM record, zeros.
RECORDS = (RECORD, RECORD, changed(RECORD, 2, 0x03), changed(RECORD, 8, 0xC0), OEM_PLAIN, bytes(16))


def slots(links):
    """A slot for each (asked id, next id)."""
    return b"".join(word(ask) + word(following) + RECORDS[k % len(RECORDS)] for k, (ask, following) in enumerate(links))


def walk(budget, places, capture):
    return question("w", budget.to_bytes(4, "little") + word(places) + capture)


def line_of(*ids):
    """The links of a chain through the ids."""
    return list(zip(ids, ids[1:]))


SEVEN = line_of(0, 1, 2, 3, 4, 5, 6, LAST)
EDGE_IDS = line_of(0, 0x00FF, 0xFF00, 0x0100, 0x8000, 0xFFFE, LAST)


def shapes():
    """The links of small captures."""
    yield []
    # in order, in reverse, shuffled; ids at the edges; and with slots that no link leads to
    for chain in (line_of(0, LAST), line_of(0, 1, LAST), SEVEN, EDGE_IDS):
        yield from (chain, chain[::-1])
    yield [SEVEN[k] for k in (3, 6, 0, 5, 2, 1, 4)]
    yield line_of(9, 8, 7) + line_of(0, 3, LAST) + [(12, 0)]
    # circles: tails of several lengths before loops of several, alone and with slots beside them
    for tail in (0, 1, 3):
        for loop in (1, 2, 5):
            circle = line_of(*range(tail + loop), tail)
            yield from (circle, circle[::-1], [(20, 21)] + circle + [(22, LAST)])
    yield line_of(0, 5, 6, 5) + [(k, LAST) for k in range(10, 14)]
    # the first id is missing, then a later one
    yield from ([(1, LAST)], [(LAST, LAST)], line_of(1, 2, LAST), [(0, 1)], line_of(0, 1, 2, 7), [(0, 256), (1, LAST)])
    # an asked id twice: the second is never seen, be it the end, a circle or a way to other slots
    yield from ([(0, LAST), (0, 0)], [(0, 0), (0, LAST)], [(0, 1), (0, 2), (1, LAST), (2, LAST)], [(0, 1), (1, 2), (1, LAST), (2, 0)],
                [(0, 1), (1, LAST), (1, 0)], [(0, 1), (0, 1), (0, 1)])
    # a slot with FFFFh as asked id is never looked up
    yield from ([(LAST, 0), (0, LAST)], [(0, 1), (1, LAST), (LAST, 0)], [(0, LAST), (LAST, 1), (1, LAST)])


def small_walks():
    """Each shape with budgets around its length and the largest, and lists around its length."""
    for links in shapes():
        n = len(links)
        for budget in sorted({b for b in (0, 1, n - 1, n, n + 1, n + 2, 2**32 - 1) if b >= 0}):
            yield walk(budget, n, slots(links))
        for budget in (0, n + 1):
            yield walk(budget, n + 1, slots(links))
            if n > 0:
                yield walk(budget, n - 1, slots(links))


def walk_edges():
    """Lists of many places; slots of a bad length, with and without room; a question too short for its fields."""
    for places in (2999, 3000, 3001, 3002, 3003, 0x7FFF, 0x8000, 0xFFFF):
        yield walk(8, places, slots(SEVEN))
        yield walk(8, places, slots(SEVEN) + b"\x00")
    for length in (1, 2, 4, 10, 18, 19, 21, 22, 39, 40, 41, 140, 139, 141):
        for places in (0, 1, 2, 3001, 3002):
            if places < 10 or length != 40:
                yield walk(3, places, slots(SEVEN + SEVEN)[:length])
    for length in range(6):
        yield question("w", mixed(length))
    for bit in range(32):
        yield walk(1 << bit, 7, slots(SEVEN))


def long_walks():
    """The most slots: an end, in order and in reverse, no room, a small circle and one of all slots, a miss. Then one slot too many."""
    chain = line_of(*range(3000), LAST)
    yield walk(3001, 3000, slots(chain))
    yield walk(3000, 3000, slots(chain[::-1]))
    yield walk(3000, 2999, slots(chain))
    yield walk(2**32 - 1, 3001, slots([(0, 1), (1, 0)] + [(k, LAST) for k in range(2, 3000)]))
    yield walk(3001, 3000, slots(line_of(*range(3000), 0)))
    yield walk(2**32 - 1, 3001, slots(line_of(*range(3000), 3000)))
    yield walk(3001, 3001, slots(line_of(*range(3001), LAST)))


def with_index(index, capture):
    """How an index is asked with its slots."""
    return word(len(index)) + model.words(index) + capture


def index_of(capture):
    return model.right_index(model.ids_of(capture)[0])


def lookup(id, index, capture):
    return question("F", word(id) + with_index(index, capture))


def indexed_walk(budget, places, index, capture):
    return question("X", budget.to_bytes(4, "little") + word(places) + with_index(index, capture))


def with_ids(*ids):
    """Slots with these asked ids; each names the next one's, and the last closes."""
    return slots(line_of(*ids, LAST))


# Asked ids of twelve slots: equal ones side by side and apart, two that swap their bytes, the lowest and the highest.
TWELVE = (5, LAST, 0x0100, 0, 5, 0x0001, 0x7FFF, 5, 0x8000, 0, 0x00FF, LAST)


def short_ids():
    """Three asked ids in every order, each any number of times, of up to four slots."""
    for n in range(5):
        yield from itertools.product((0x0001, 0x0100, 0x0101), repeat=n)


def indexes():
    """Of every short capture, of every shape of a walk and of the twelve slots; byte orders and bits of an id; every length to three slots."""
    yield from (question("I", with_ids(*ids)) for ids in short_ids())
    yield from (question("I", slots(links)) for links in shapes())
    yield from (question("I", with_ids(*ids)) for ids in (TWELVE, TWELVE[::-1], WORDS, WORDS[::-1], *((1 << bit, 0) for bit in range(16))))
    yield from (question("I", with_ids(3, 2, 1, 0)[:length]) for length in range(62))


def lookups():
    """With the right index: in every short capture ids that are there, or missing below, between or above; in the twelve slots each id and its neighbours; of a
    length that is none, in the slots that are whole."""
    for ids in short_ids():
        yield from (lookup(id, index_of(with_ids(*ids)), with_ids(*ids)) for id in (0x0000, 0x0001, 0x0100, 0x0101) if len(ids) < 4 or id in ids)
    near = {(id + by) % 2**16 for id in TWELVE for by in (-1, 0, 1)}
    yield from (lookup(id, index_of(capture), capture) for capture in (with_ids(*TWELVE), with_ids(*WORDS[::-1])) for id in sorted({*near, *WORDS}))
    for length in range(62):
        capture = with_ids(3, 2, 1, 0)[:length]
        yield lookup(2, index_of(capture), capture)


def swapped(index, place):
    """The number at the place behind the next one."""
    return index[:place] + index[place:place + 2][::-1] + index[place + 2:]


def faulty(right):
    """The index with one fault: two numbers side by side swapped; another number, that of the place before, of no slot, or with another byte; a place short or long;
    no place; the other way round, in slot order, all the same, none of a slot; twice."""
    n = len(right)
    for place, slot in enumerate(right):
        yield swapped(right, place)
        for wrong in (right[place - 1], n, n + 1, 0x8000, LAST, slot ^ 0x0100, slot << 8):
            yield right[:place] + [wrong] + right[place + 1:]
        yield from (right[:place] + right[place + 1:], right[:place + 1] + right[place:])
    yield from ([], right[::-1], [*range(n)], [0] * n, [LAST] * n, right + right)
    yield from (right + [more] for more in (0, n, LAST))
    yield [n] + right


def wrong_indexes(capture):
    """Each once, and none that is right after all."""
    right = index_of(capture)
    return [[*index] for index in dict.fromkeys(map(tuple, faulty(right))) if [*index] != right]


def vain_lookups():
    """With an index that is not right, of ids that no slot has, so that there is nothing to find: below, between and above those of the slots; where there is no slot;
    with many more numbers than slots."""
    for ids in ((2, 4, 6), (6, 2, 2, 4)):
        capture = with_ids(*ids)
        yield from (lookup(id, index, capture) for index in wrong_indexes(capture) for id in (0, 3, 5, LAST))
    for index in ([0], [1], [LAST], [0, 1, 2]):
        yield from (lookup(id, index, capture) for id in (0, 1, LAST) for capture in (b"", RECORD))
    yield from (lookup(id, [*range(k)], with_ids(2, 4, 6)) for k in (255, 256, 257) for id in (3, 7))


def indexed_walks():
    """Each shape of a walk, with its index; budgets and lists around its length. Budgets with a bit in each byte."""
    for links in shapes():
        n, index = len(links), index_of(slots(links))
        for budget in sorted({0, 1, n, n + 1, 2**32 - 1}):
            yield indexed_walk(budget, n, index, slots(links))
        yield from (indexed_walk(n + 1, places, index, slots(links)) for places in (n - 1, n + 1) if places >= 0)
    yield from (indexed_walk(1 << bit, 7, [*range(7)], slots(SEVEN)) for bit in (2, 8, 16, 24, 31))


def checked_indexes():
    """Of three slots every index of three numbers to 3, one of which is right. Of the twelve, of others with ids twice and of none each that is wrong by one fault,
    and the index of other slots."""
    for ids in itertools.product((0, 7), repeat=3):
        yield from (indexed_walk(4, 3, [*index], with_ids(*ids)) for index in itertools.product(range(4), repeat=3))
    for capture in (with_ids(*TWELVE), with_ids(0, 0, 0), with_ids(3, 0), with_ids(0), b""):
        n = len(capture) // 20
        yield from (indexed_walk(n + 1, n, index, capture) for index in wrong_indexes(capture))
    seven = [links for links in shapes() if len(links) == 7]
    yield from (indexed_walk(8, 7, index_of(slots(other)), slots(links)) for links in seven for other in seven if other != links)


def refusals_in_order():
    """What is bad by length, by index and by places, each alone and with the others; places and numbers that are too many come before all."""
    for capture in (good := with_ids(0, 2, 1), good + b"\x00", good[:41]):
        right, n = index_of(capture), len(capture) // 20
        for index in ([0, 2, 1], [0, 1, 2], right, right[:-1], right + [n], []):
            yield from (indexed_walk(budget, places, index, capture) for budget in (0, n + 1) for places in (0, n - 1, n, n + 1, 3000, 3001, 3002, LAST)
                        if budget or places < 3000)


def cut_questions():
    """What stops inside its own fields, or inside the slots; a number of numbers that the bytes do not hold, or that is too many."""
    capture = with_ids(0, 2, 1)
    for whole in (lookup(LAST, [0, 2, 1], capture), indexed_walk(4, 3, [0, 2, 1], capture), lookup(LAST, [], b""), indexed_walk(1, 0, [], b"")):
        yield from (whole[:2 + 2 * length] for length in range((len(whole) - 2) // 2 + 1))
    for head in (("F", word(9)), ("X", (4).to_bytes(4, "little") + word(3))):
        yield from (question(head[0], head[1] + word(k) + model.words([0, 2, 1]) + capture) for k in (4, 32, 33, 34, 0x0100, 0x0300, 3001, 3002, 0x8000, LAST))
    for k in (3001, 3002):
        yield from (lookup(9, [*range(k)], capture), indexed_walk(4, 3, [*range(k)], capture))


def shuffled(links):
    """Without order, but the same each time."""
    return sorted(links, key=lambda link: any_bytes(link[0], 8))


def middling():
    """Slots whose numbers need a second byte: in reverse, shuffled, in a circle, with equal ids far apart; of the latter two numbers swapped."""
    chain, apart = line_of(*range(257), LAST), with_ids(*(0x0100 * (k % 3) + k % 64 for k in range(257)))
    right = index_of(apart)
    yield from (question("I", capture) for capture in (slots(chain[::-1]), apart))
    yield from (indexed_walk(258, 257, index_of(capture), capture) for capture in (slots(shuffled(chain)), slots(shuffled(line_of(*range(257), 0))), apart))
    yield from (lookup(id, right, apart) for id in (0x0100, 0x0201, 0x013F))
    place = next(place for place, pair in enumerate(zip(right, right[1:])) if apart[20 * pair[0]:][:2] == apart[20 * pair[1]:][:2])
    yield indexed_walk(258, 257, swapped(right, place), apart)


def most_slots():
    """The most slots: without order, ids twice and both ends of the ids among them; in order; shuffled; a circle in reverse; equal ids, the last two numbers
    swapped. Then one slot too many."""
    chain, any_ids = line_of(*range(3000), LAST), [model.number(any_bytes(k, 2)) for k in range(2996)]
    yield question("I", with_ids(LAST, 0, *any_ids, LAST, 0))
    yield lookup(2999, [*range(3000)], slots(chain))
    yield indexed_walk(3001, 3000, index_of(slots(shuffled(chain))), slots(shuffled(chain)))
    yield indexed_walk(2**32 - 1, 3001, [*range(3000)][::-1], slots(line_of(*range(3000), 0)[::-1]))
    yield indexed_walk(3001, 3000, [*range(2998), 2999, 2998], slots([(0, 0)] * 3000))
    yield question("I", slots([(0, LAST)] * 3001))
    yield indexed_walk(3002, 3001, [*range(3001)], slots(line_of(*range(3001), LAST)))


def reads():
    """Every m; more bytes than one."""
    yield from (question("R", [m]) for m in range(256))
    yield from (question("R", [m, more]) for m in (0, 1, 16) for more in (0, 1, 16))


def partial(room, reservation, id, offset, count):
    return question("Q", bytes([room]) + word(reservation) + word(id) + bytes([offset, count]))


def partial_requests():
    """Offsets and counts around the border, and those whose sum a byte would cut; every offset, every count. Reservations, ids and rooms, of what is good and
    of what is refused, as 14 comes before 16, and 4 last. Damages, so also other numbers of bytes."""
    far = (0x00, 0x01, 0x0F, 0x10, 0x20, 0x7F, 0x80, 0xF0, 0xF1, 0xFE, 0xFF)
    near = (*itertools.product(range(19), repeat=2), *itertools.product(far, repeat=2))
    yield from (partial(6, 0x1234, 0x5678, *read) for read in (*near, *((offset, 1) for offset in range(256)), *((0, count) for count in range(256))))
    some = ((0, 16), (5, 6), (16, 1), (3, 0), (0, 0xFF))
    yield from (partial(room, reservation, 0x5678, *read) for room in (5, 6) for reservation in WORDS for read in some)
    yield from (partial(6, reservation, id, *read) for reservation in (0, 1, 0x8000) for id in WORDS for read in some[1:3])
    rooms = (*range(9), 15, 16, 0x7F, 0x80, 0xFF)
    yield from (partial(room, reservation, 0x5678, *read) for room in rooms for reservation in (0, 0x1234) for read in some[::2])
    yield from damaged("Q", bytes.fromhex("06341278560F01"))


def framed(m, answers):
    """How answers are asked to be joined."""
    return bytes([m]) + b"".join(bytes([len(answer)]) + answer for answer in answers)


def join(m, answers):
    return question("J", framed(m, answers))


UNLIKE = bytes(range(0xB0, 0xC0))  # sixteen bytes that all differ


def parts(m, next_id=0x1234, record=UNLIKE):
    """The right answers, one for each read."""
    return [word(next_id) + record[offset:offset + count] for offset, count in model.reads(m)]


def not_taken(part):
    """What is refused in place of a right answer: without a byte, cut, without its id, longer; with another id, by its low byte or its high one, and then cut
    or longer too."""
    low, high = flipped(part, [0]), flipped(part, [15])
    return [*dict.fromkeys((b"", part[:1], part[:2], part[:-1], part[2:], part + b"\x5A", part.ljust(255, b"\x5A"), low, high, low[:-1], high + b"\x5A"))]


SHORTER_LAST = (3, 5, 6, 7, *range(9, 16))  # of these the last read has fewer bytes than the others
OVER = (17, 18, 127, 128, 253, 254, 255)    # more than a record has


def right_joinings():
    """Every m with its right answers; any number of them, and the other way round; records of every kind, also such as no parser takes."""
    yield from (join(m, parts(m)) for m in range(1, 256))
    for m in range(1, 17):
        yield from (join(m, parts(m)[:count]) for count in range(len(parts(m))))
        yield from (join(m, parts(m)[::-1]), join(m, parts(m)[1:] + parts(m)[:1]))
    yield from (join(m, []) for m in OVER)
    records = (RECORD, OEM_TIMED, OEM_PLAIN, bytes(16), b"\xFF" * 16, changed(RECORD, 2, 0x03), changed(RECORD, 8, 0xC0))
    yield from (join(m, parts(m, 0x0002, record)) for m in (1, 5, 16) for record in records)


def refused_answers():
    """Before each read what is refused there, and the right answers; all of it in one question. Where less than m bytes are left, an answer of m."""
    for m in (*range(1, 17), *OVER):
        right = parts(m)
        wrong = [not_taken(part) for part in right]
        yield from (join(m, right[:place] + [answer] + right[place:]) for place, answers in enumerate(wrong) for answer in answers)
        yield join(m, itertools.chain(*([*answers, part] for answers, part in zip(wrong, right)), not_taken(right[-1])))
    for m in (*SHORTER_LAST, *OVER):
        *before, last = parts(m)
        yield join(m, [*before, last.ljust(min(2 + m, 255), b"\x5A"), last])


def after_the_last():
    """16, whatever the answer is: no byte, cut, right, of another next id, longer; the whole again."""
    for m in (1, 2, 3, 5, 8, 9, 15, 16, 17, 255):
        first, last = parts(m)[0], parts(m)[-1]
        more = (b"", *not_taken(last)[1:4], first, last, flipped(first, [0]), last + b"\x5A", bytes(18), bytes(255))
        yield from (join(m, parts(m) + [answer]) for answer in more)
    yield from (join(m, parts(m) + parts(m, 0x4321)) for m in range(1, 17))


def next_ids():
    """Each with each, and each bit: the first that was taken decides."""
    for one, other in itertools.product((*WORDS, 0xFF00), repeat=2):
        first, last = parts(8, one)
        yield join(8, [first, word(other) + last[2:], last])
    for id, bit in itertools.product((0x0000, LAST), range(16)):
        right = parts(6, id)
        yield join(6, [*right[:2], flipped(right[2], [bit]), right[2]])
    # an id that was refused first, by its length, and comes again
    for cut in (parts(8, 0x4321)[0][:-1], parts(8, 0x4321)[0] + b"\x5A"):
        yield from (join(8, [cut, *parts(8, id), cut]) for id in (0x1234, 0x4321))


def many_answers():
    """More answers than a byte counts, refused before each read or after the last."""
    for m, count in itertools.product((1, 9, 16), (15, 16, 17, 255, 256, 257)):
        first, *rest = parts(m)
        yield from (join(m, [b""] * count + [first, *rest]), join(m, [first] + [b"\x5A"] * count + rest), join(m, [first, *rest] + [first] * count))


def cut_answers():
    """What stops inside an answer, and the same behind an m of 0; lengths at their edges. Of an m of 0 whatever follows."""
    for whole in (join(5, parts(5)), join(16, parts(16)), join(16, [b"", b"", *parts(16)]), join(0, parts(5))):
        yield from (whole[:2 + 2 * length] for length in range(len(whole) // 2))
    for m, length in itertools.product((0, 1, 16, 255), (1, 0x7F, 0x80, 0xFF)):
        yield from (question("J", bytes([m, length]) + bytes(count)) for count in (length - 1, length, length + 1))
    yield from (question("J", b"\x00" + mixed(length)) for length in range(20))


def any_joining(number):
    """By number: the right answers, before some of which stand others that are refused there."""
    m, *dice = any_bytes(number, 17)
    m, answers = 1 + m % 17, []
    for part, byte in zip(parts(m, 0x0101 * number, any_bytes(number + 1, 16)), dice):
        answers += not_taken(part)[byte % 11:][:byte // 64] + [part]
    return join(m, answers)


LETTERS = "eygpiarcdvDVLEGMKNPOxtsnqwIFXRQJ="
FIXED = {"d": 3, "v": 3, "D": 4, "V": 4, "L": 5, "x": 3, "t": 4, "s": 4, "n": 2, "=": 32, "N": 29, "R": 1, "Q": 7}


def malformed():
    """What answers `?`, as far as it stands in one line."""
    whole = {"M": joined(SYSTEM), "K": word(16) + RECORD, "N": joined(parsed_from(RECORD)), "P": word(16) + GIVEN + MESSAGE, "O": word(7) + RECORDED,
             "I": with_ids(0), "F": word(0) + with_index([0], with_ids(0)), "X": bytes(6) + with_index([0], with_ids(0)),
             "Q": bytes.fromhex("06341278560F01"), "J": b"\x01\x03" + parts(1)[0]}
    yield ""
    yield from (chr(c) for c in (0x00, 0x09, 0x0D, 0x20, 0x7F, 0xE9))
    for kind in LETTERS:
        lines = (kind, kind + "00", kind.upper() + " 00", kind + kind + " 00", f" {kind} 00", f"{kind}  00", f"{kind}\t00", f"{kind}:00")
        # these are questions: two have a version, one has a bad capture, two an m of 0
        yield from (line for line in lines if line not in ("E 00", "G 00", "I 00", "R 00", "J 00"))
        good = question(kind, whole.get(kind, bytes([0xAB]) * FIXED.get(kind, 18)))
        yield from (good + "0", good.lower(), good + " ", good + "\r", good + "\0", good + " 00", good[:-1] + "G", good[:-1] + "/", good[:-1] + ":",
                    good[:-1] + "@", good[:-1] + "`", good[:-1] + "\xE9", good.replace(" ", " 0x"))
    for kind, count in FIXED.items():
        yield from (question(kind, bytes(length)) for length in range(8) if length != count)
    for c in range(0x21, 0x7F):
        if chr(c) not in LETTERS:
            yield chr(c) + " 00"
    yield from ("E ", "G ", "entry 00", "none", "?")


def longest():
    """The most digits that a question can have, and two more."""
    yield question("a", mixed(66_200))
    yield question("a", mixed(66_201))
    yield again(RECORD + mixed(66_200 - 18))
    yield again(RECORD + mixed(66_201 - 18))
    for m, length in itertools.product((0, 16), (66_200, 66_201)):
        yield join(m, parts(16) + [b""] * (length - 20))


LETTERED = [
    *time_texts(), *allocations(), *event_data(), *typed_data(), *event_texts(),
    *lengths(), *lengths_alone(), *eight_answers(), *fields(), *timed_records(), *typed_records(), *unspecified_records(), *oem_records(),
    *damages(), *version_bytes(), *versioned_channels(), *versioned_types(), *versioned_lengths(), *versioned_damages(), *texts_of_records(),
    *pairs(), *entries_to_write(), *dict.fromkeys((*records_again(), *kept_entries())), *dict.fromkeys(messages()),
    *record_ids(), *requests(), *small_walks(), *walk_edges(), *long_walks(),
    *dict.fromkeys((*indexes(), *lookups(), *vain_lookups(), *indexed_walks(), *checked_indexes(), *refusals_in_order(), *cut_questions(),
                    *middling(), *most_slots())),
    *dict.fromkeys((*reads(), *partial_requests(), *right_joinings(), *refused_answers(), *after_the_last(), *next_ids(), *many_answers(), *cut_answers(),
                    *map(any_joining, range(100)))),
    *malformed(), *longest(),
]

# Records of messages to read, but for those with every value of a byte. They are not printed: a capture would not hold them.
READ = [question("e", record) for record in records_made(messages_to_record())]

ASKED = [*LETTERED, *READ, *entries_of_records([*LETTERED, *READ])]

# The last line, which no newline closes.
UNCLOSED = "t E8030000"

RECORD_AT = {"e": 0, "g": 2}  # where the record begins


def records_to_print(asked):
    """The record of every question of the kinds e and g that has one, each once, also of those that are refused; the case of docs/SCOPE.md first."""
    kinds = [line for line in asked if line[:1] in RECORD_AT and line[1:2] == " " and model.answer(line) != "?"]
    records = (bytes.fromhex(line[2:])[RECORD_AT[line[0]]:][:16] for line in kinds)
    return [*dict.fromkeys((RECORD, *(record for record in records if len(record) == 16)))]


def chained(records):
    """The text of a capture: these records from 0000h to the end."""
    ids = [*range(len(records)), LAST]
    return "".join(f"ask={ask:04X} next={following:04X} record={record.hex().upper()}\n" for ask, following, record in zip(ids, ids[1:], records))


PRINTED = records_to_print(LETTERED)
