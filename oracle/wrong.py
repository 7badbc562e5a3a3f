"""Wrong models of the index and of what uses it, of event messages and their records, of reads of a few bytes, of their requests and of the joining of their
answers, each with one fault. The Rust has nothing there that could disagree with the model, but for the bytes of a request and the fields of a message: so the
stored questions are shown to tell each of these from it."""

import itertools
import unittest.mock

import model
from judge import fits
# as they are, while others stand in their places
from model import first_slot, found_line, framed, indexed_walk_line, is_bad, is_no_read, is_right, join_line, joining, message_line, partial_line, reads
from model import reads_line, record_of, recorded_line, right_index, told


def checked_by(key):
    """A check that sees no more of a slot than the key has, and takes what does not fall."""
    def check(index, asked):
        n = len(asked)
        keys = [key(asked[slot], slot) for slot in index if slot < n]
        return len(index) == len(keys) == n and keys == sorted(keys)
    return check


def each_once(index, asked):
    """The order of ids, and that each slot has its number: not the order of equal ids."""
    return sorted(index) == [*range(len(asked))] and checked_by(lambda id, slot: id)(index, asked)


def sorted_by(key):
    return lambda asked: sorted(range(len(asked)), key=lambda slot: key(asked[slot], slot))


def refusing(*numbers):
    """The walk with an index, its refusals in this order."""
    def line(data):
        right = indexed_walk_line(data)
        if right == "?":
            return right
        index, slots = model.index_and_slots(data[6:])
        asked, _ = model.ids_of(slots)
        due = {"5": is_bad(slots), "10": not is_right(index, asked), "4": model.number(data[4:6]) < len(asked)}
        first = next((number for number in numbers if due[number]), None)
        return f"4 {len(asked):04X}" if first == "4" else first or right
    return {"X": line}


def lookup_refused(data):
    parts = model.index_and_slots(data[2:])
    return "5" if parts and is_bad(parts[1]) else found_line(data)


def last_slot(id, asked):
    return max((slot for slot, ask in enumerate(asked) if ask == id), default=None)


# By the fault: functions and numbers of the model, and what stands in their place.
FUNCTIONS = {
    "equal ids in any order accepted": {"is_right": each_once},
    "a number twice accepted": {"is_right": checked_by(lambda id, slot: (id, slot))},
    "ids alone checked": {"is_right": checked_by(lambda id, slot: id)},
    "an index too long accepted": {"is_right": lambda index, asked: is_right(index[:len(asked)], asked)},
    "an index too short accepted": {"is_right": lambda index, asked: index == right_index(asked)[:len(index)]},
    "an empty index accepted": {"is_right": lambda index, asked: not index or is_right(index, asked)},
    "the first number not checked": {"is_right": lambda index, asked: len(index) == len(asked) and index[1:] == right_index(asked)[1:]},
    "the last number not checked": {"is_right": lambda index, asked: len(index) == len(asked) and index[:-1] == right_index(asked)[:-1]},
    "low bytes of numbers checked": {"is_right": lambda index, asked: [n % 256 for n in index] == [n % 256 for n in right_index(asked)]},
    "every index accepted": {"is_right": lambda index, asked: True},
    "equal ids in falling order": {"right_index": sorted_by(lambda id, slot: (id, -slot))},
    "low byte of an id first": {"right_index": sorted_by(lambda id, slot: (id % 256, id, slot))},
    "ids with a sign": {"right_index": sorted_by(lambda id, slot: ((id + 0x8000) % 0x10000, slot))},
    "FFFFh before all others": {"right_index": sorted_by(lambda id, slot: ((id + 1) % 0x10000, slot))},
    "the last slot found": {"first_slot": last_slot},
    "FFFFh never found": {"first_slot": lambda id, asked: first_slot(id, asked) if id != model.LAST else None},
    "0000h never found": {"first_slot": lambda id, asked: first_slot(id, asked) if id != model.FIRST else None},
    "low byte of an id looked for": {"first_slot": lambda id, asked: first_slot(id % 256, [ask % 256 for ask in asked])},
    "slot 0 never found": {"first_slot": lambda id, asked: first_slot(id, asked) or None},
    "3,001 slots taken": {"is_bad": lambda slots: len(slots) % 20 != 0 or len(slots) > 60020},
    "3,000 slots refused": {"is_bad": lambda slots: is_bad(slots) or len(slots) == 60000},
    "a part of a slot left out": {"is_bad": lambda slots: len(slots) > 60000},
    "no slot refused": {"is_bad": lambda slots: is_bad(slots) or not slots},
    "3,000 numbers or places at most": {"MOST_PLACES": 3000},
    "3,002 numbers or places at most": {"MOST_PLACES": 3002},
    "longer questions taken": {"MOST_DIGITS": model.MOST_DIGITS + 2},
    "shorter questions taken": {"MOST_DIGITS": model.MOST_DIGITS - 2},
}

# And the lines of a letter.
LINES = {
    "10 after 4": refusing("5", "4", "10"), "10 before 5": refusing("10", "5", "4"), "5 after 10 and 4": refusing("10", "4", "5"),
    "4 before 5 and 10": refusing("4", "5", "10"), "4 before 10 and 5": refusing("4", "10", "5"), "a lookup that refuses a bad length": {"F": lookup_refused},
}


# ---- event messages


def at(place, change):
    """A record with another byte at the place."""
    return lambda record: record[:place] + bytes([change(record[place])]) + record[place + 1:]


def turned(start, end):
    """A record with these bytes from the last to the first."""
    return lambda record: record[:start] + record[start:end][::-1] + record[end:]


# By the fault: a record whose message is another.
CHANGED = {
    "the direction lost": at(12, lambda byte: byte & 0x7F), "the direction always set": at(12, lambda byte: byte | 0x80),
    "the direction the other way round": at(12, lambda byte: byte ^ 0x80), "the direction in bit 0": at(12, lambda byte: byte << 1 & 0xFF | byte >> 7),
    "the event type lost": at(12, lambda byte: byte & 0x80), "event type 6Fh always": at(12, lambda byte: byte & 0x80 | 0x6F),
    "the revision always 04h": at(9, lambda byte: 0x04), "an unknown revision made 04h": at(9, lambda byte: byte if byte == 0x03 else 0x04),
    "revision and sensor type swapped": turned(9, 11), "sensor type and number swapped": turned(10, 12), "sensor number and event type swapped": turned(11, 13),
    "event type and event data swapped": turned(12, 14), "the first two of event data swapped": turned(13, 15),
    "the last two of event data swapped": turned(14, 16), "event data from the last": turned(13, 16), "the message from the last": turned(9, 16),
    "event data a byte late": lambda record: record[:13] + b"\xFF" + record[13:15],
    "event data a byte early": lambda record: record[:13] + record[14:16] + b"\xFF",
    "event data a byte on, the last first": lambda record: record[:13] + record[15:16] + record[13:15],
    "no event data": lambda record: record[:13] + b"\xFF" * 3, "the last byte lost": at(15, lambda byte: 0xFF),
    "the offset alone": at(13, lambda byte: byte & 0x0F), "the kinds alone": at(13, lambda byte: byte & 0xF0),
    "FFh for unspecified event data": lambda record: record[:13] + model.written(b"", model.entry(record))[13:],
    "00h for FFh": lambda record: record[:14] + record[14:16].replace(b"\xFF", b"\x00"),
    "the message a byte late": lambda record: record[:9] + b"\x00" + record[9:15],
    "the message a byte early": lambda record: record[:9] + record[10:16] + b"\x00",
    "the record's id in the message": lambda record: record[:9] + record[:2] + record[11:16],
    "the generator in the message": lambda record: record[:9] + record[7:14],
}

# By the fault: a record with other bytes before its message, or of another length.
BEFORE = {
    "the id's high byte first": turned(0, 2), "the time's high byte first": turned(3, 7), "generator bytes swapped": turned(7, 9),
    "the time's halves swapped": lambda record: record[:3] + record[5:7] + record[3:5] + record[7:], "the time's highest byte lost": at(6, lambda byte: 0x00),
    "the id's high byte lost": at(1, lambda byte: 0x00), "no id": lambda record: bytes(2) + record[2:],
    "0001h for an id of 0000h": lambda record: (b"\x01\x00" if record[:2] == bytes(2) else record[:2]) + record[2:],
    "0000h for an id of FFFFh": lambda record: (bytes(2) if record[:2] == b"\xFF\xFF" else record[:2]) + record[2:],
    "no time": lambda record: record[:3] + bytes(4) + record[7:],
    "FFFFFFFFh for a time of 0": lambda record: record[:3] + (record[3:7] if any(record[3:7]) else b"\xFF" * 4) + record[7:],
    "0 for a time of FFFFFFFFh": lambda record: record[:3] + (record[3:7] if record[3:7] != b"\xFF" * 4 else bytes(4)) + record[7:],
    "type 00h": at(2, lambda byte: 0x00), "type 01h": at(2, lambda byte: 0x01), "type 03h": at(2, lambda byte: 0x03), "type 20h": at(2, lambda byte: 0x20),
    "type C0h": at(2, lambda byte: 0xC0), "type E0h": at(2, lambda byte: 0xE0), "no type": lambda record: record[:2] + record[3:],
    "the type first": lambda record: record[2:3] + record[:2] + record[3:],
    "the type after the time": lambda record: record[:2] + record[3:7] + record[2:3] + record[7:],
    "time before id": lambda record: record[3:7] + record[2:3] + record[:2] + record[7:],
    "generator before time": lambda record: record[:3] + record[7:9] + record[3:7] + record[9:],
    "generator last": lambda record: record[:7] + record[9:] + record[7:9],
    "always an address": at(7, lambda byte: byte & 0xFE), "always a software id": at(7, lambda byte: byte | 0x01),
    "an address without its lowest bit": at(7, lambda byte: byte >> 1), "20h for every address": at(7, lambda byte: 0x20),
    "no channel": at(8, lambda byte: byte & 0x0F), "no unit": at(8, lambda byte: byte & 0xFC), "the channel alone": at(8, lambda byte: byte & 0xF0),
    "reserved bits of the generator lost": at(8, lambda byte: byte & 0xF3),
    "what fields hold alone": lambda record: model.written(b"", model.entry(record)),
    "a byte less": lambda record: record[:15], "a byte more": lambda record: record + b"\x00",
}

# By the fault: which rooms are refused, where some bytes are needed.
ROOMS = {
    "room of a byte less": lambda room, needed: room < needed - 1, "room of a byte more": lambda room, needed: room < needed + 1,
    "no other room": lambda room, needed: room != needed, "room by its low byte": lambda room, needed: room % 256 < needed,
    "room by its high byte": lambda room, needed: room < 256, "room with a sign": lambda room, needed: not needed <= room < 0x8000,
    "room of the other": lambda room, needed: room < 16 + 7 - needed,
}

# And where the channel is, or which are reserved.
CHANNELS = {
    "the channels of 1.5": {"reserved": model.RESERVED_CHANNELS[model.IPMI_15]}, "Ch alone": {"reserved": [0xC]}, "Dh alone": {"reserved": [0xD]},
    "Bh too": {"reserved": [0xB, 0xC, 0xD]}, "Eh too": {"reserved": [0xC, 0xD, 0xE]}, "Fh too": {"reserved": [0xC, 0xD, 0xF]},
    "Eh and Fh too": {"reserved": range(0xC, 0x10)}, "Eh and Fh alone": {"reserved": [0xE, 0xF]}, "all but 0h": {"reserved": range(0x1, 0x10)},
    "the channel in the low bits": {"channel": lambda low, high: high & 0x0F}, "the channel as a byte": {"channel": lambda low, high: high},
    "the channel without low bits": {"channel": lambda low, high: 0 if high & 0x0F else high >> 4},
    "the channel of the first byte": {"channel": lambda low, high: low >> 4}, "the low bits of the first byte": {"channel": lambda low, high: low & 0x0F},
    "the channel of an address": {"channel": lambda low, high: 0 if low % 2 else high >> 4},
    "the channel of a software id": {"channel": lambda low, high: high >> 4 if low % 2 else 0},
}


def high_bits(low, high):
    return high >> 4


def is_less(room, needed):
    return room < needed


def same(record):
    return record


def recording(*numbers, length=len, least=7, most=7, channel=high_bits, reserved=(0xC, 0xD), no_room=is_less, bad=lambda record: False, says={}, filler=b"\xFF",
              made=same):
    """The record of a message, its refusals in this order; each of them may be another's, and so may its line, and the bytes that are recorded."""
    def line(data):
        if len(data) < 10:
            return "?"
        room, low, high, message = model.number(data[:2]), data[8], data[9], data[10:]
        due = {"1": length(message) < least, "8": length(message) > most, "3": channel(low, high) in reserved, "4": no_room(room, 16)}
        record = model.recorded(data[2:10] + message.ljust(7, filler)[:7])
        first = next((number for number in numbers or "1834" if due[number]), None)
        if first:
            lines = {"1": "1 0007", "8": "8", "3": "3 {channel:02X}", "4": "4 0010"} | says
            return lines[first].format(channel=high >> 4, high=high, length=len(message), room=room)
        return "7" if bad(record) else "0 " + made(record).hex().upper()
    return {"P": line}


RECORDINGS = {
    **{f"{', '.join(numbers)} in this order": recording(*numbers) for numbers in itertools.permutations("1834") if numbers[2:] != ("3", "4")},
    **{f"{number} never": recording(*(other for other in "1834" if other != number)) for number in "1834"},
    **{name: recording(made=made) for name, made in (CHANGED | BEFORE).items()},
    **{name: recording(no_room=no_room) for name, no_room in ROOMS.items()},
    **{f"{name} refused": recording(**changes) for name, changes in CHANNELS.items()},
    "six bytes taken": recording(least=6), "six bytes taken, then 00h": recording(least=6, filler=b"\x00"), "five bytes taken": recording(least=5),
    "five bytes taken, then 00h": recording(least=5, filler=b"\x00"), "four bytes taken": recording(least=4),
    "eight bytes taken": recording(most=8), "eight bytes needed": recording(least=8, most=8),
    "no byte taken": recording(length=lambda message: len(message) or 7), "the length in a byte": recording(length=lambda message: len(message) % 256),
    "the length in a word": recording(length=lambda message: len(message) % 65536),
    "the last seven bytes taken": {"P": lambda data: recorded_line(data[:10] + data[10:][-7:])},
    "an unknown revision refused": recording(bad=lambda record: record[9] not in (0x03, 0x04)),
    "event type 00h refused": recording(bad=lambda record: record[12] & 0x7F == 0x00),
    "sensor number FFh refused": recording(bad=lambda record: record[11] == 0xFF),
    "reserved bits of the generator refused": recording(bad=lambda record: record[8] & 0x0C),
    "ids 0000h and FFFFh refused": recording(bad=lambda record: record[:2] in (bytes(2), b"\xFF\xFF")),
    "an unspecified time refused": recording(bad=lambda record: record[3:7] == b"\xFF" * 4),
    **{f"{line} for 1": recording(says={"1": line}) for line in ("1", "1 07", "1 0005", "1 0010", "1 {length:04X}", "8", "7")},
    **{f"{line} for 8": recording(says={"8": line}) for line in ("8 0007", "8 {length:04X}", "1 0007", "7")},
    **{f"{line} for 3": recording(says={"3": line}) for line in ("3", "3 {channel:X}", "3 {channel:04X}", "3 {high:02X}", "2 {channel:02X}", "7")},
    **{f"{line} for 4": recording(says={"4": line}) for line in ("4", "4 10", "4 0007", "4 {room:04X}")},
    "nine bytes a question": {"P": lambda data: recorded_line(data + b"\x00" * (len(data) == 9))},
    "all bytes a question": {"P": lambda data: "1 0007" if len(data) < 10 else recorded_line(data)},
    "no message no question": {"P": lambda data: "?" if len(data) == 10 else recorded_line(data)},
    "a short message no question": {"P": lambda data: "?" if len(data) < 17 else recorded_line(data)},
    "a long message no question": {"P": lambda data: "?" if len(data) > 17 else recorded_line(data)},
    "no room": {"P": lambda data: recorded_line(b"\x10\x00" + data)}, "a room of one byte": {"P": lambda data: recorded_line(data[:1] + b"\x00" + data[1:])},
    "the room's high byte first": {"P": lambda data: recorded_line(data[:2][::-1] + data[2:])},
    "the id after time and generator": {"P": lambda data: recorded_line(data[:2] + data[8:10] + data[2:8] + data[10:])},
    "the message before what it is recorded with": {"P": lambda data: recorded_line(data[:2] + data[9:17] + data[2:9] + data[17:])},
}


def taking(*numbers, length=len, least=16, most=16, is_other=lambda record_type: record_type != 0x02, channel=high_bits, reserved=(0xC, 0xD), no_room=is_less,
           says={}, filler=b"\xFF", made=same, taken=lambda record: record[9:16]):
    """The message of a record, its refusals in this order, also for more bytes or by the channel; each of them may be another's, and so may its line, the
    record that is read and the bytes that are taken."""
    def line(data):
        if len(data) < 2:
            return "?"
        room, record = model.number(data[:2]), data[2:]
        filled = record.ljust(16, filler)
        due = {"1": length(record) < least, "8": len(record) > most, "2": len(record) > 2 and is_other(record[2]), "3": channel(*filled[7:9]) in reserved,
               "4": no_room(room, 7)}
        first = next((number for number in numbers or "124" if due[number]), None)
        if first:
            lines = {"1": "1 0010", "8": "8", "2": "2 {type:02X}", "3": "3 {channel:02X}", "4": "4 0007"} | says
            return lines[first].format(type=filled[2], channel=filled[8] >> 4, length=len(record), room=room)
        return "0 " + taken(made(filled)).hex().upper()
    return {"O": line}


# By the fault: the record types that are refused.
TYPES = {
    "OEM types taken": lambda record_type: record_type != 0x02 and record_type < 0xC0, "OEM types alone refused": lambda record_type: record_type >= 0xC0,
    "timed OEM types taken": lambda record_type: record_type != 0x02 and not 0xC0 <= record_type < 0xE0,
    "OEM types without a time taken": lambda record_type: record_type != 0x02 and record_type < 0xE0,
    "types up to 02h taken": lambda record_type: record_type > 0x02, "types from 02h taken": lambda record_type: record_type < 0x02,
    "type 00h taken": lambda record_type: record_type not in (0x00, 0x02), "type 03h taken": lambda record_type: record_type not in (0x02, 0x03),
    "types by their low bits": lambda record_type: record_type % 16 != 0x02, "types by one bit": lambda record_type: not record_type & 0x02,
}

# By the fault: the bytes that are taken of a record, also of a longer one.
PLACES = {
    "the first seven bytes": lambda record: record[:7], "the last seven bytes": lambda record: record[-7:], "all bytes to the end": lambda record: record[9:],
    "seven bytes from the generator": lambda record: record[7:14], "the generator too": lambda record: record[7:16],
    "a byte before too": lambda record: record[8:16], "six bytes": lambda record: record[9:15], "five bytes": lambda record: record[9:14],
    "a byte more": lambda record: record[9:16] + b"\x00", "the whole record": lambda record: record[:16],
}

TAKINGS = {
    **{f"{', '.join(numbers)} in this order": taking(*numbers) for numbers in itertools.permutations("124") if numbers != ("1", "2", "4")},
    **{f"{', '.join(numbers)} in this order": taking(*numbers) for numbers in itertools.permutations("1234")},
    **{f"more bytes refused, {', '.join(numbers)} in this order": taking(*numbers) for numbers in ("1824", "1284", "1248")},
    **{f"{number} never": taking(*(other for other in "124" if other != number)) for number in "124"},
    **{name: taking(made=made) for name, made in CHANGED.items()}, **{name: taking(taken=taken) for name, taken in PLACES.items()},
    **{name: taking(is_other=is_other) for name, is_other in TYPES.items()}, **{name: taking(no_room=no_room) for name, no_room in ROOMS.items()},
    **{f"{name} refused": taking("1", "2", "3", "4", **changes) for name, changes in CHANNELS.items()},
    "fifteen bytes taken": taking(least=15), "fifteen bytes taken, then 00h": taking(least=15, filler=b"\x00"), "three bytes taken": taking(least=3),
    "no byte taken": taking(length=lambda record: len(record) or 16), "seventeen bytes needed": taking(least=17), "eighteen bytes needed": taking(least=18),
    "the length in a byte": taking(length=lambda record: len(record) % 256), "the length in a word": taking(length=lambda record: len(record) % 65536),
    "more than 18 bytes refused": taking("1", "8", "2", "4", most=18), "more than 255 bytes refused": taking("1", "8", "2", "4", most=255),
    "the last sixteen bytes read": {"O": lambda data: message_line(data[:2] + data[2:][-16:])},
    **{f"{line} for 1": taking(says={"1": line}) for line in ("1", "1 10", "1 0007", "1 0012", "1 {length:04X}")},
    **{f"{line} for 2": taking(says={"2": line}) for line in ("2", "2 {type:X}", "2 {type:04X}", "2 02", "2 {channel:02X}", "7")},
    **{f"{line} for 4": taking(says={"4": line}) for line in ("4", "4 07", "4 0010", "4 {room:04X}")},
    "one byte a question": {"O": lambda data: message_line(data + b"\x00" * (len(data) == 1))},
    "all bytes a question": {"O": lambda data: "1 0010" if len(data) < 2 else message_line(data)},
    "no record no question": {"O": lambda data: "?" if len(data) == 2 else message_line(data)},
    "a short record no question": {"O": lambda data: "?" if len(data) < 18 else message_line(data)},
    "a long record no question": {"O": lambda data: "?" if len(data) > 18 else message_line(data)},
    "no room": {"O": lambda data: message_line(b"\x07\x00" + data)}, "a room of one byte": {"O": lambda data: message_line(data[:1] + b"\x00" + data[1:])},
    "the room's high byte first": {"O": lambda data: message_line(data[:2][::-1] + data[2:])},
}


# ---- reads of a few bytes


def steps(first, by):
    """Reads of at most m bytes that begin a step apart, which depends on m."""
    return lambda m: [(offset, min(m, 16 - offset)) for offset in range(first, 16, by(min(m, 16)))]


def evenly(m):
    """As few reads, of which none has over a byte more than another."""
    ends = [16 * k // len(reads(m)) for k in range(len(reads(m)) + 1)]
    return [(start, end - start) for start, end in zip(ends, ends[1:])]


def counted(change):
    """Reads one behind the other, of other counts."""
    def read(m):
        counts = change([count for _, count in reads(m)], m)
        return [*zip(itertools.accumulate([0, *counts]), counts)]
    return read


# What lists other reads, or counts other bytes for the answers.
READS = {
    "the last read as long as the others": {"reads": counted(lambda counts, m: counts[:1] * len(counts))},
    "m not cut to 16": {"reads": counted(lambda counts, m: [m] if m > 16 else counts)},
    "m cut to 15": {"reads": lambda m: reads(min(m, 15))},
    "the low half of m": {"reads": lambda m: reads(m % 16 or 16)},
    "m with a sign": {"reads": lambda m: reads(m if m < 128 else 1)},
    "the last read missing": {"reads": lambda m: reads(m)[:-1] or reads(m)},
    "the last read missing where less is left": {"reads": lambda m: [(offset, count) for offset, count in reads(m) if count == min(m, 16)]},
    "a read of no byte at the end": {"reads": lambda m: reads(m) + [(16, 0)] * (16 % min(m, 16) == 0)},
    "what is left read first": {"reads": counted(lambda counts, m: counts[::-1])},
    "reads of even length": {"reads": evenly},
    "reads a byte at a time": {"reads": lambda m: reads(1)},
    "a gap of a byte": {"reads": steps(0, lambda count: count + 1)},
    "an overlap of a byte": {"reads": steps(0, lambda count: max(1, count - 1))},
    "the first byte not read": {"reads": steps(1, lambda count: count)},
    "seventeen bytes": {"reads": lambda m: [(offset, min(m, 17 - offset)) for offset in range(0, 17, min(m, 17))]},
    "fifteen bytes": {"reads": lambda m: [(offset, min(m, 15 - offset)) for offset in range(0, 15, min(m, 15))]},
}

# What no count shows.
LISTS = {
    "offsets from 1": {"reads": lambda m: [(offset + 1, count) for offset, count in reads(m)]},
    "offset and count of a read swapped": {"reads": lambda m: [(count, offset) for offset, count in reads(m)]},
    "the end of a read for its count": {"reads": lambda m: [(offset, offset + count) for offset, count in reads(m)]},
    "the reads from the last": {"reads": lambda m: reads(m)[::-1]},
}

LIST_LINES = {
    "m of 0 taken for all bytes": {"R": lambda data: reads_line(b"\x10" if data == b"\x00" else data)},
    "m of 0 has no reads": {"R": lambda data: "0" if data == b"\x00" else reads_line(data)},
    "m over 16 refused": {"R": lambda data: "13" if len(data) == 1 and data[0] > 16 else reads_line(data)},
    "m of 255 refused": {"R": lambda data: "13" if data == b"\xFF" else reads_line(data)},
    "more bytes behind m": {"R": lambda data: reads_line(data[:1])},
    "more bytes behind an m of 0": {"R": lambda data: "13" if data[:1] == b"\x00" else reads_line(data)},
}


# ---- the request for a part of a record


def requesting(*numbers, past=is_no_read, unreserved=lambda reservation: reservation == 0, least=6, no_room="4 0006", sent=lambda request: request):
    """The request, its refusals in this order; each of them may be another's, and so may the bytes that are sent."""
    def line(data):
        if len(data) != 7:
            return "?"
        due = {"14": unreserved(model.number(data[1:3])), "16": past(data[5], data[6]), "4": data[0] < least}
        first = next((number for number in numbers or ("14", "16", "4") if due[number]), None)
        return no_room if first == "4" else first or "0 " + sent(data[1:]).hex().upper()
    return {"Q": line}


REQUESTS = {
    "16 before 14": requesting("16", "14", "4"), "4 before 14 and 16": requesting("4", "14", "16"), "4 before 16": requesting("14", "4", "16"),
    "4 after 16, before 14": requesting("16", "4", "14"), "4 before 16 and 14": requesting("4", "16", "14"),
    "14 never": requesting("16", "4"), "16 never": requesting("14", "4"), "4 never": requesting("14", "16"),
    "the sum wraps in a byte": requesting(past=lambda offset, count: count == 0 or (offset + count) % 256 > 16),
    "a count of FFh asks for all": requesting(past=lambda offset, count: is_no_read(offset, count) and count != 0xFF),
    "a count of FFh at 0 asks for all": requesting(past=lambda offset, count: is_no_read(offset, count) and (offset, count) != (0, 0xFF)),
    "a count of FFh is what is left": requesting(past=lambda offset, count: is_no_read(offset, 1 if count == 0xFF else count)),
    "a count of 0 taken": requesting(past=lambda offset, count: offset + count > 16),
    "a count of 0 at 16 taken": requesting(past=lambda offset, count: is_no_read(offset, count) and (offset, count) != (16, 0)),
    "a read to the end refused": requesting(past=lambda offset, count: count == 0 or offset + count > 15),
    "a read of all refused": requesting(past=lambda offset, count: is_no_read(offset, count) or count == 16),
    "a read past the end by one": requesting(past=lambda offset, count: count == 0 or offset + count > 17),
    "the count alone": requesting(past=lambda offset, count: not 1 <= count <= 16),
    "the offset alone": requesting(past=lambda offset, count: count == 0 or offset > 15),
    "offset and count apart": requesting(past=lambda offset, count: not 1 <= count <= 16 or offset > 15),
    "a count with a sign": requesting(past=lambda offset, count: count == 0 or offset + (count + 128) % 256 - 128 > 16),
    "an offset with a sign": requesting(past=lambda offset, count: count == 0 or (offset + 128) % 256 - 128 + count > 16),
    "the reservation's low byte": requesting(unreserved=lambda reservation: reservation % 256 == 0),
    "the reservation's high byte": requesting(unreserved=lambda reservation: reservation < 256),
    "a reservation of FFFFh refused": requesting(unreserved=lambda reservation: reservation in (0, 0xFFFF)),
    "room of 5": requesting(least=5), "room of 7": requesting(least=7), "room of 16": requesting(least=16),
    "room with a sign": {"Q": lambda data: requesting(least=6 if data[:1] < b"\x80" else 256)["Q"](data)},
    "4 carries 16": requesting(no_room="4 0010"), "4 carries nothing": requesting(no_room="4"), "4 carries two digits": requesting(no_room="4 06"),
    "offset and count swapped": requesting(sent=lambda request: request[:4] + request[4:][::-1]),
    "reservation and id swapped": requesting(sent=lambda request: request[2:4] + request[:2] + request[4:]),
    "the reservation's high byte first": requesting(sent=lambda request: request[:2][::-1] + request[2:]),
    "the id's high byte first": requesting(sent=lambda request: request[:2] + request[2:4][::-1] + request[4:]),
    "all bytes asked for": requesting(sent=lambda request: request[:4] + b"\x00\xFF"),
    "FFh for sixteen bytes": requesting(sent=lambda request: request[:5] + (b"\xFF" if request[5] == 16 else request[5:])),
    "the end for the count": requesting(sent=lambda request: request[:5] + bytes([request[4] + request[5]])),
    "no reservation sent": requesting(sent=lambda request: bytes(2) + request[2:]),
    "more bytes behind the count": {"Q": lambda data: partial_line(data[:7])},
    "a room of two bytes": {"Q": lambda data: partial_line(data[:1] + data[2:])},
    "no room": {"Q": lambda data: partial_line(b"\xFF" + data)},
}


# ---- the joining of answers


def telling(*numbers, needed=lambda taken, counts: 2 + counts[len(taken)], same=lambda one, other: one == other):
    """The number of an answer, the tests in this order; the length that it needs, and how next ids are held against each other, may be another's."""
    def number(answer, taken, counts):
        ended = len(taken) == len(counts)
        length = needed(taken[:-1] if ended else taken, counts)  # after the last as for the last
        due = {16: ended, 1: len(answer) < length, 8: len(answer) > length, 15: bool(taken) and not same(taken[0][:2], answer[:2])}
        return next((number for number in numbers or (16, 1, 8, 15) if due[number]), 0)
    return {"told": number}


def cut_to_count(answers, counts):
    """Longer answers taken, and their first bytes joined."""
    with unittest.mock.patch.multiple(model, **telling(16, 1, 15)):
        numbers, taken = joining(answers, counts)
    return numbers, [answer[:2 + count] for answer, count in zip(taken, counts)]


def moving(*refused):
    """A refused answer with one of these numbers has the read's place: its bytes, cut or filled."""
    def join(answers, counts):
        numbers, taken = [], []
        for answer in answers:
            number = told(answer, taken, counts)
            numbers.append(number)
            if number == 0 or number in refused:
                next_id = taken[0][:2] if taken else answer[:2].ljust(2, b"\x00")
                taken.append(next_id + answer[2:].ljust(16, b"\x00")[:counts[len(taken)]])
        return numbers, taken
    return {"joining": join}


def remembering(*refused):
    """A refused answer with one of these numbers leaves its next id."""
    def join(answers, counts):
        numbers, taken, known = [], [], None
        for answer in answers:
            asked = [known + part[2:] for part in taken] if known else taken
            number = told(answer, asked, counts)
            if number == 0 and not taken and known and answer[:2] != known:
                number = 15
            numbers.append(number)
            if number == 0:
                taken.append(answer)
            if number == 0 or number in refused and len(answer) >= 2:
                known = answer[:2]
        return numbers, [known + part[2:] for part in taken] if known else taken
    return {"joining": join}


def stopping(answers, counts):
    """Once refused, all further answers are refused alike."""
    numbers, taken = joining(answers, counts)
    first = next((place for place, number in enumerate(numbers) if number), len(numbers))
    return numbers[:first] + numbers[first:first + 1] * (len(numbers) - first), taken[:first]


def starting_anew(answers, counts):
    """A refused answer takes away those before it."""
    numbers, taken = [], []
    for answer in answers:
        numbers.append(told(answer, taken, counts))
        taken = taken + [answer] if numbers[-1] == 0 else taken if numbers[-1] == 16 else []
    return numbers, taken


def with_numbers(change):
    """The joining, its numbers told in another way."""
    def join(answers, counts):
        numbers, taken = joining(answers, counts)
        return [*change(numbers)], taken
    return {"joining": join}


def unless(is_none):
    """A next id that is taken for none is not held against others."""
    return telling(same=lambda one, other: is_none(one) or one == other)


JOININGS = {
    "16 after 1": telling(1, 16, 8, 15), "16 after 8": telling(8, 16, 1, 15), "16 after 1 and 8": telling(1, 8, 16, 15), "16 last": telling(1, 8, 15, 16),
    "15 before 16": telling(15, 16, 1, 8), "15 before 8": telling(16, 1, 15, 8), "15 before 1 and 8": telling(16, 15, 1, 8),
    "15 before 1": telling(16, 8, 15, 1), "15 before 1 where there is a next id": telling(16, 8, 15, 1, same=lambda one, other: len(other) < 2 or one == other),
    "15 never": telling(16, 1, 8), "8 never": {"joining": cut_to_count},
    "an answer without its next id needed": telling(needed=lambda taken, counts: counts[len(taken)]),
    "a byte more needed": telling(needed=lambda taken, counts: 3 + counts[len(taken)]),
    "the first count needed": telling(needed=lambda taken, counts: 2 + counts[0]),
    "a whole answer needed": telling(needed=lambda taken, counts: 18),
    "all that is left needed": telling(needed=lambda taken, counts: 2 + sum(counts[len(taken):])),
    "next ids by their low byte": telling(same=lambda one, other: one[:1] == other[:1]),
    "next ids by their high byte": telling(same=lambda one, other: one[1:] == other[1:]),
    "next ids without their highest bit": telling(same=lambda one, other: (model.number(one) ^ model.number(other)) % 0x8000 == 0),
    "next ids with their bytes in any order": telling(same=lambda one, other: sorted(one) == sorted(other)),
    "next ids by their sum": telling(same=lambda one, other: sum(one) == sum(other)),
    "a next id of 0000h is none": unless(lambda id: id == b"\x00\x00"), "a next id of FFFFh is none": unless(lambda id: id == b"\xFF\xFF"),
    "FFFFh is every next id": telling(same=lambda one, other: one == other or other == b"\xFF\xFF"),
    "the first next id held against 0000h": {"told": lambda answer, taken, counts: told(answer, taken, counts) or 15 * (not taken and answer[:2] != bytes(2))},
    "a refused answer has its place": moving(1, 8, 15), "one that is too short has its place": moving(1), "one that is too long has its place": moving(8),
    "one of another next id has its place": moving(15),
    "a refused answer leaves its next id": remembering(1, 8, 15, 16), "one that is too short leaves its next id": remembering(1),
    "one that is too long leaves its next id": remembering(8), "one of another next id leaves it": remembering(15),
    "one after the last leaves its next id": remembering(16),
    "the first refusal stays": {"joining": stopping}, "a refused answer starts anew": {"joining": starting_anew},
    "numbers in decimal digits": with_numbers(lambda numbers: (int(str(number), 16) for number in numbers)),
    "no number after the last": with_numbers(lambda numbers: (number for number in numbers if number != 16)),
    "no number for what is taken": with_numbers(lambda numbers: filter(None, numbers)),
    "1 for what is too long": with_numbers(lambda numbers: (1 if number == 8 else number for number in numbers)),
    "256 answers at most": {"joining": lambda answers, counts: joining(answers[:256], counts)},
    "255 answers at most": {"joining": lambda answers, counts: joining(answers[:255], counts)},
    "bytes a byte late": {"record_of": lambda taken: taken[0][:2] + b"".join(answer[3:] + b"\x00" for answer in taken)},
    "bytes a byte early": {"record_of": lambda taken: taken[0][:2] + b"".join(answer[1:-1] for answer in taken)},
    "next ids among the bytes": {"record_of": lambda taken: b"".join(taken)[:18]},
    "the last next id": {"told": telling(16, 1, 8)["told"], "record_of": lambda taken: taken[-1][:2] + record_of(taken)[2:]},
    "no next id": {"record_of": lambda taken: record_of(taken)[2:]},
    "the next id last": {"record_of": lambda taken: record_of(taken)[2:] + record_of(taken)[:2]},
    "the next id's high byte first": {"record_of": lambda taken: record_of(taken)[:2][::-1] + record_of(taken)[2:]},
    "the answers from the last": {"record_of": lambda taken: record_of(taken[::-1])},
    "the first answer's bytes alone": {"record_of": lambda taken: (taken[0][:2] + taken[0][2:] * 16)[:18]},
    "a record that no parser takes left out": {"record_of": lambda taken: record_of(taken) if not model.refusal(record_of(taken)[2:]) else b""},
}


def lengths_up_to(most):
    """A longer answer is no answer."""
    return {"framed": lambda data: None if any(len(answer) > most for answer in framed(data) or []) else framed(data)}


def ending_in_short(data):
    """The last answer taken as it is, where bytes are missing."""
    at = 0
    while at < len(data) and at + 1 + data[at] <= len(data):
        at += 1 + data[at]
    return framed(data[:at]) + [data[at + 1:]] * (at < len(data))


def showing(change):
    """The numbers of a joining and the record that follows them, in another way."""
    def line(data):
        right = join_line(data)
        if right[:2] != "0 ":
            return right
        end = 2 + 2 * len(framed(data[1:]))
        return f"0 {change(right[2:end], right[end:])}".rstrip()
    return {"J": line}


FRAMES = {
    "an answer that is cut taken as short": {"framed": ending_in_short},
    "an answer that is cut left out": {"framed": lambda data: ending_in_short(data)[:-1] if framed(data) is None else framed(data)},
    "an answer without a byte left out": {"framed": lambda data: framed(data) and [*filter(None, framed(data))]},
    "answers of 254 bytes at most": lengths_up_to(254), "answers of 127 bytes at most": lengths_up_to(127), "answers of 18 bytes at most": lengths_up_to(18),
}

JOIN_LINES = {
    "m of 0 taken for all bytes": {"J": lambda data: join_line(b"\x10" + data[1:] if data[:1] == b"\x00" else data)},
    "m of 0 after what is cut": {"J": lambda data: "?" if framed(data[1:]) is None else join_line(data)},
    "m of 0 with answers": {"J": lambda data: "?" if data[:1] == b"\x00" and len(data) > 1 else join_line(data)},
    "m over 16 refused": {"J": lambda data: "13" if data and data[0] > 16 else join_line(data)},
    "m of 255 refused": {"J": lambda data: "13" if data[:1] == b"\xFF" else join_line(data)},
    "no byte taken for an m of 0": {"J": lambda data: join_line(data or b"\x00")},
    "m alone no question": {"J": lambda data: "?" if len(data) == 1 and data[0] else join_line(data)},
    "the record before the numbers": showing(lambda numbers, record: record + numbers),
    "no record": showing(lambda numbers, record: numbers),
    "no record where an answer was refused": showing(lambda numbers, record: numbers + record * (not numbers.strip("0"))),
    "no record where the last answer was refused": showing(lambda numbers, record: numbers + record * (numbers[-2:] == "00")),
    "zeros where answers are missing": showing(lambda numbers, record: numbers + (record or 36 * "0")),
    "the number of answers first": showing(lambda numbers, record: f"{len(numbers) // 2 % 256:02X}" + numbers + record),
}


# By the letters of the questions that have to tell them apart; K has the longest question.
MODELS = [("IFXK", FUNCTIONS, LINES), ("P", {}, RECORDINGS), ("O", {}, TAKINGS), ("R", READS | LISTS, LIST_LINES), ("Q", {}, REQUESTS),
          ("J", READS | JOININGS | FRAMES, JOIN_LINES)]


def not_told_apart(asked, answers):
    """The wrong models that allow all of these answers, by letters and name."""
    for letters, functions, lines in MODELS:
        said = [(question, answer) for question, answer in zip(asked, answers) if question[:1] in letters and question[1:2] == " "]
        trials = [*((name, unittest.mock.patch.multiple(model, **changes)) for name, changes in functions.items()),
                  *((name, unittest.mock.patch.dict(model.LINES, changes)) for name, changes in lines.items())]
        for name, trial in trials:
            with trial:
                if all(fits(question, model.answer(question), answer) for question, answer in said):
                    yield f"{letters}, {name}"
