"""tools/capture live: a controller that answers a few bytes of a record at once. With a script that stands in for ipmitool."""

import runpy
import signal

from common import CAPTURE, SECONDS, expect, printed_for, record, replayed, same, test
from stand_in import NO_SUCH_RECORD, Room, answer, at_most, at_once, chain, info, notes, said_on_a_terminal

SIZES = range(1, 17)
LOSE = "echo >reserved"  # the reservation


def reads(most):
    """Offset and count of each read of a record, by request 12's words."""
    most, offset = min(most, 16), 0
    while offset < 16:
        yield offset, min(most, 16 - offset)
        offset += most


def parts_of(ids, most):
    return [(id, offset, count) for id in ids for offset, count in reads(most)]


def costs(most):
    asks = len([*reads(most)])
    return f"a record costs {asks} ask" + "s" * (asks > 1)


def outcome(room, *before):
    """Status, what is said, and the capture; None where there is none."""
    status, said = room.run(before=before)
    return status, said, room.text() if room.file.exists() else None


def tells(said, *words):
    for each in words:
        expect(each in said, "says", said, "and not", each)


# ---- the reads


@test
def the_reads_are_those_of_the_library():
    """Of every size; the program `replay` is the library itself."""
    tool = runpy.run_path(str(CAPTURE))
    answers = replayed([f"R {most:02X}" for most in range(256)])
    same(answers[0], "13")
    same(len(tool["READS"]), 16)
    for most in range(1, 256):
        same((most, "0 " + bytes(number for read in tool["reads_of"](most) for number in read).hex().upper()), (most, answers[most]))
        same((most, "0 " + tool["READS"][min(most, 16) - 1]), (most, answers[most]))


@test
def bytes_that_are_given():
    """No record is asked for whole, and each costs as many asks as there are reads, under one reservation."""
    script, text = chain(1, 2, 3)

    def given(most):
        with Room(script, limits=at_most(min(most, 16))) as room:
            status, said, stands = outcome(room, *(["--bytes", str(most), "--seconds", "9"] if most % 2 else ["--seconds", "9", "--bytes", str(most)]))
            same((most, status, stands), (most, 0, text))
            same((most, room.asked(), room.parts(), room.ids().count("reserve")), (most, [], parts_of([0, 2, 3], most), 1))
            expect(f"records are read by parts of at most {most} byte" in said and said.count(costs(most) + "\n") == 1, said)
            same((most, room.notes.read_text()), (most, notes(last=(5, 1000, 2000, 3), most=most)))
    at_once(given, [*SIZES, 17, 99, 100, 254, 255])


# ---- the search for a size


@test
def a_size_is_found():
    """By five asks at most, for each size and each code that a whole read may be refused with; then a record costs what its reads do."""
    script, text = chain(1, 2)

    def found(case):
        most, code = case
        with Room(script, limits=at_most(most, code)) as room:
            status, said, stands = outcome(room)
            asks = len(room.parts()) - 2 * len([*reads(most)])
            same((case, status, stands, room.asked(), room.ids().count("reserve")), (case, 0, text, [0], 1))
            same((case, room.parts()[asks:]), (case, parts_of([0, 2], most)))
            same((case, asks, {part[:2] for part in room.parts()[:asks]}), (case, 1 if most == 16 else 5, {(0, 0)}))
            told = f"capture: the controller answers at most {most} byte{'s' * (most > 1)} of a record at once; {costs(most)}\n"
            expect(said.count(told) == 1 and "read by parts" not in said, said)
            same((case, room.notes.read_text()), (case, notes(last=(5, 1000, 2000, 2), most=most)))
            same((case, printed_for(room.text())[-1]), (case, "walk=ended read=2"))
    at_once(found, [*((most, "ca") for most in SIZES), *((most, code) for most in (1, 4, 16) for code in ("cc", "c7"))])


@test
def a_size_is_found_in_the_middle_of_a_log():
    """What was read whole stays; from the record on that is refused, all is read by parts."""
    script, text = chain(1, 2, 3, 4)
    with Room(script, limits=at_most("255", also="case $id in 0003|0004) most=6 ;; esac")) as room:
        status, said, stands = outcome(room)
        same((status, stands, room.asked(), room.parts()[-6:]), (0, text, [0, 2, 3], parts_of([3, 4], 6)))
        same(room.notes.read_text(), notes(last=(5, 1000, 2000, 4), most=6))


@test
def a_size_is_found_where_answers_break_off():
    """A whole read is refused, and a part that is too long is cut, and not refused."""
    script, text = chain(1, 2)
    for most in (1, 4, 15):
        with Room(script, limits=at_most(most, also=f"[ $count = 255 ] || [ $count -le {most} ] || count={most}")) as room:
            status, said, stands = outcome(room)
            same((most, status, stands), (most, 0, text))
            expect(f"answers at most {most} byte" in said, said)


@test
def no_size_is_answered():
    """It stops with the controller's code, as for any refusal; what was read is kept, and the search is made anew by the next run."""
    script, text = chain(1, 2, 3)
    for code in ("ca", "cc", "c7"):
        with Room(script, limits=at_most(255, code, also="[ $id != 0003 ] || most=0")) as room:
            status, said, stands = outcome(room)
            same((status, stands, room.asked()), (1, text[:118], [0, 2, 3]))
            tells(said.splitlines()[-1], f"0003h was refused with completion code {code.upper()}h: Unable", "no part of it is answered either",
                  "has 2 slots, and the same command goes on from there")
            expect(len(room.parts()) <= 5, room.parts())
            expect("bytes" not in room.notes.read_text(), room.notes.read_text())
            room.limit(at_most(255))
            room.ends({}, 0, "3 slots: ended", text, "walk=ended read=3")


@test
def another_refusal_is_no_question_of_size():
    """Of a whole read it is told as before; in the search it ends it."""
    script, text = chain(1, 2)
    for code in ("c1", "c5", "c9", "d4", "ff"):
        with Room(script, limits=at_most(15, code)) as room:
            status, said, stands = outcome(room)
            same((status, stands, room.ids()), (1, None, ["info", "0000"]))
            tells(said, f"0000h was refused with completion code {code.upper()}h: Unable", "nothing was read")
    with Room(script, limits=at_most(4, also="[ $count != 4 ] || refuse d4")) as room:
        status, said, stands = outcome(room)
        same((status, stands, len(room.parts())), (1, None, 3))
        tells(said, "0000h was refused with completion code CAh: ", "; a part of 0000h (offset 0, count 4) was refused with completion code D4h: ")


@test
def a_size_that_is_too_large():
    script, _ = chain(1, 2)
    with Room(script, limits=at_most(4)) as room:
        status, said, stands = outcome(room, "--bytes", "5")
        same((status, stands, room.parts()), (1, None, [(0, 0, 5)]))
        tells(said, "part 1 of 0000h (offset 0, count 5) was refused with completion code CAh: ", "a smaller number of --bytes may be answered")


@test
def a_size_is_remembered():
    """A run that goes on does not search again. A size that is given wins, and is remembered too. Without the line in the notes all is as before."""
    script, text = chain(1, 2)
    grown, longer = chain(1, 2, 3)
    more, longest = chain(1, 2, 3, 4)
    with Room(script, limits=at_most(4)) as room:
        same(outcome(room)[::2], (0, text))
        before = len(room.parts())
        room.script(grown)
        status, said, stands = outcome(room)
        same((status, stands, room.asked(), room.parts()[before:]), (0, longer, [0], parts_of([2, 3], 4)))
        expect(f"records are read by parts of at most 4 bytes; {costs(4)}" in said, said)
        before = len(room.parts())
        room.script(more)
        status, said, stands = outcome(room, "--bytes", "3")
        same((status, stands, room.parts()[before:]), (0, longest, parts_of([3, 4], 3)))
        same(room.notes.read_text(), notes(last=(5, 1000, 2000, 4), most=3))
    with Room(grown, text, notes=notes()) as room:
        same((outcome(room)[::2], room.parts(), room.notes.read_text()), ((0, longer), [], notes(last=(5, 1000, 2000, 3))))


@test
def a_size_of_another_log_is_not_remembered():
    """Where there is no capture yet, the notes are those of another."""
    script, text = chain(1)
    with Room(script, notes=notes(most=2)) as room:
        same((outcome(room)[::2], room.parts(), room.notes.read_text()), ((0, text), [], notes(last=(5, 1000, 2000, 1))))


@test
def a_size_on_a_terminal():
    """What is said of it has a line of its own."""
    script, _ = chain(1, 2)
    with Room(script, limits=at_most(4)) as room:
        said = said_on_a_terminal(room)
        expect(f"\r\ncapture: the controller answers at most 4 bytes of a record at once; {costs(4)}\r\n" in said, said)


# ---- the reservation


@test
def a_reservation_that_is_lost():
    """At any part: the record is read from its beginning, under another reservation."""
    script, text = chain(1, 2, 3)

    def lost(at):
        with Room(script, limits=at_most(4, also=f"[ $parts != {at} ] || {LOSE}")) as room:
            same((at, *outcome(room, "--bytes", "4")[::2]), (at, 0, text))
            whole = parts_of([0, 2, 3], 4)
            same((at, room.parts(), room.ids().count("reserve")), (at, [*whole[:at], *whole[(at - 1) // 4 * 4:]], 2))
    at_once(lost, range(1, 13))


@test
def a_reservation_that_is_always_lost():
    """It is asked for five times; what was read is kept, and the next run goes on."""
    script, text = chain(1, 2, 3)
    for at in (0, 8):
        with Room(script, limits=at_most(4, also=f"[ $id$offset != 0003{at} ] || {LOSE}")) as room:
            status, said, stands = outcome(room, "--bytes", "4")
            same((at, status, stands, room.ids().count("reserve")), (at, 1, text[:118], 5))
            same(room.parts()[8:], [(3, offset, 4) for _ in range(5) for offset in range(0, at + 4, 4)])
            tells(said, "0003h could not be read by parts: its reservation was lost", "(begun 5 times); ", "has 2 slots")
            room.limit(at_most(4))
            same(outcome(room)[::2], (0, text))


@test
def a_reservation_that_is_lost_in_the_search():
    """It is renewed, and the same size asked for again; always lost, it ends the run."""
    script, text = chain(1, 2)

    def lost(at):
        with Room(script, limits=at_most(4, also=f"[ $parts != {at} ] || {{ {LOSE}; refuse c5; }}")) as room:
            status, said, stands = outcome(room)
            sizes = [16, 8, 4, 6, 5]
            same((at, status, stands, room.ids().count("reserve")), (at, 0, text, 2))
            same((at, room.parts()), (at, [*((0, 0, size) for size in [*sizes[:at], *sizes[at - 1:]]), *parts_of([0, 2], 4)]))
    at_once(lost, range(1, 6))
    with Room(script, limits=at_most(4, also=LOSE)) as room:
        status, said, stands = outcome(room)
        same((status, stands, room.ids().count("reserve")), (1, None, 5))
        tells(said, "0000h was refused with completion code CAh: ", "; 0000h could not be read by parts: its reservation was lost", "nothing was read")


NO_RESERVATION = {  # what Reserve SEL answers, and what is said of it
    "refused": ("refuse c1", "Reserve SEL: completion code C1h"),
    "0": ("echo ' 00 00'", "Reserve SEL: reservation 0, which is none"),
    "one byte": ("echo ' 01'", "Reserve SEL: 1 bytes of 2"),
    "no byte": ("echo", "Reserve SEL: 0 bytes of 2"),
}


@test
def a_controller_that_gives_no_reservation():
    """No part is asked for then, whether the size was given or is to be found."""
    script, text = chain(1, 2, 3)

    def without(case):
        (name, (words, says)), before = case
        with Room({**script, "reserve": [words]}, text[:59], notes=notes(), limits=at_most(4)) as room:
            status, said, stands = outcome(room, *before)
            same((name, status, stands, room.parts()), (name, 1, text[:59], []))
            expect(f"without a reservation no record can be read by parts, and the controller gives none ({says})" in said, said)
            expect(("0000h was refused with completion code CAh: " in said) == (not before) and "has 1 slots" in said, said)
    at_once(without, [(case, before) for case in NO_RESERVATION.items() for before in ([], ["--bytes", "4"])])


@test
def a_longer_answer_to_reserve():
    """As the library reads it: the first two bytes."""
    script, text = chain(1)
    with Room({**script, "reserve": ["printf 0x340x12 >reserved; echo ' 34 12 00'"]}, limits=at_most(4)) as room:
        same(outcome(room)[::2], (0, text))


# ---- joining


@test
def parts_of_another_length():
    """A part that breaks off, or has too many bytes, is refused by its name, and the record is not kept."""
    script, text = chain(1, 2, 3)
    for change, says in (("count=4", "the answer for part 2 of 0003h (offset 8, count 8) is short: 6 bytes of 10"),
                         ("count=0", "the answer for part 2 of 0003h (offset 8, count 8) is short: 2 bytes of 10"),
                         ("offset=5 count=9", "the answer for part 2 of 0003h (offset 8, count 8) is long: 11 bytes of 10")):
        with Room(script, limits=at_most(255, also=f"[ $id+$offset+$count != 0003+8+8 ] || {{ {change.replace(' ', '; ')}; }}")) as room:
            status, said, stands = outcome(room, "--bytes", "8")
            same((change, status, stands), (change, 1, text[:118]))
            expect(says in said.splitlines()[-1], said)
            room.limit(at_most(255))
            same(outcome(room)[::2], (0, text))


@test
def a_controller_that_breaks_answers_off():
    """A short answer to a whole read is told as before, and is no reason to search; with the bytes that came, all is read."""
    script, text = chain(1, 2, 3)
    with Room(script, limits=at_most(255, also="[ $count -le 8 ] || count=8")) as room:
        status, said, stands = outcome(room)
        same((status, stands, room.ids()), (1, None, ["info", "0000"]))
        tells(said, "the answer for 0000h is short: 10 bytes of 18; nothing was read")
        same(outcome(room, "--bytes", "8")[::2], (0, text))


@test
def a_part_that_is_too_long_in_the_search():
    script, text = chain(1, 2)
    with Room(script, limits=at_most(8, also="[ $count != 8 ] || { most=9; count=9; }")) as room:
        status, said, stands = outcome(room)
        same((status, stands), (1, None))
        expect("the answer for a part of 0000h (offset 0, count 8) is long: 11 bytes of 10" in said, said)


@test
def a_record_that_is_added_meanwhile():
    """Behind the last, at any of its parts: the last is read from its beginning, and the new one too."""
    script, text = chain(1, 2)
    grown, longer = chain(1, 2, 3)

    def added(at):
        with Room({**grown, 2: [*script[2], *grown[2]]}, limits=at_most(4, also=f"[ $id != 0002 ] || [ $parts -lt {at} ] || times=2")) as room:
            status, said, stands = outcome(room, "--bytes", "4")
            begun = [] if at <= 5 else parts_of([2], 4)[:at - 4]
            same((at, status, stands, room.parts()), (at, 0, longer, [*parts_of([0], 4), *begun, *parts_of([2, 3], 4)]))
            same((at, room.ids().count("reserve")), (at, 1))
    at_once(added, range(5, 9))


@test
def a_log_that_is_added_to_and_loses_the_reservation():
    """As the standard has it: the reservation is cancelled where a record is added."""
    script, _ = chain(1, 2)
    grown, longer = chain(1, 2, 3)
    added = f"[ $id != 0002 ] || [ $parts -lt 7 ] || times=2; [ $parts != 7 ] || {LOSE}"
    with Room({**grown, 2: [*script[2], *grown[2]]}, limits=at_most(4, also=added)) as room:
        status, said, stands = outcome(room, "--bytes", "4")
        same((status, stands, room.parts()), (0, longer, [*parts_of([0], 4), *parts_of([2], 4)[:3], *parts_of([2, 3], 4)]))


@test
def a_next_id_that_changes_each_time():
    """From FFFFh, it is begun five times; another change is no growth of a log, and is refused at once."""
    script, text = chain(1, 2)
    with Room({**script, 2: [*script[2], answer(3, record(2))]}, limits=at_most(4, also="[ $offset = 12 ] && times=2 || times=1")) as room:
        status, said, stands = outcome(room, "--bytes", "4")
        same((status, stands, room.parts()[4:]), (1, text[:59], parts_of([2] * 5, 4)))
        tells(said, "0002h could not be read by parts: its next id changed from FFFFh meanwhile", "(begun 5 times); ", "has 1 slots")
    for before, now in ((3, 9), (3, 0xFFFF), (0, 3)):
        with Room({0: [answer(before, record(1)), answer(now, record(1))]}, limits=at_most(8, also="times=$((1 + offset / 8))")) as room:
            status, said, stands = outcome(room, "--bytes", "8")
            same((status, stands, room.parts()), (1, None, parts_of([0], 8)))
            expect(f"part 2 of 0000h (offset 8, count 8) names {now:04X}h as next, and the parts before it {before:04X}h" in said, said)


@test
def records_that_are_missing_by_parts():
    """Where the first part is not there, the record is not; where a later one is not, that is no answer."""
    script, text = chain(1, 2, end=3)
    for most in (1, 5, 16):
        with Room({**script, 3: [NO_SUCH_RECORD]}, limits=at_most(most)) as room:
            room.ends({}, 0, "missing: no record 0003h", text, "walk=missing ask=0003 read=2")
            same(room.parts()[-1][:2], (3, 0))
    with Room({**script, 3: [answer(4, record(3))]}, limits=at_most(4, also="[ $id$offset != 00034 ] || refuse cb")) as room:
        status, said, stands = outcome(room)
        same((status, stands), (1, text))
        expect("part 2 of 0003h (offset 4, count 4) was refused with completion code CBh" in said, said)


@test
def an_empty_log_by_parts():
    """A whole read is refused before it is seen that there is no record. No size is known then, and none remembered."""
    with Room({0: [NO_SUCH_RECORD]}, limits=at_most(4)) as room:
        room.ends({}, 0, "missing: no record 0000h", "", "walk=missing ask=0000 read=0")
        same(room.notes.read_text(), notes())
        script, text = chain(1)
        room.ends(script, 0, "1 slots: ended", text, "walk=ended read=1")
        same(room.notes.read_text(), notes(last=(5, 1000, 2000, 1), most=4))


@test
def an_answer_that_does_not_come_for_a_part():
    """It is asked for three times, as any other."""
    script, text = chain(1, 2)
    with Room(script, sessions=False, limits=at_most(8, also="[ $id$offset != 00028 ] || [ $times -gt 2 ] || exit 1")) as room:
        same(outcome(room, "--bytes", "8")[::2], (0, text))
        same(room.parts(), [(0, 0, 8), (0, 8, 8), (2, 0, 8), *[(2, 8, 8)] * 3])
    with Room(script, sessions=False, limits=at_most(8, also="[ $id$offset != 00028 ] || exit 1")) as room:
        status, said, stands = outcome(room, "--bytes", "8")
        same((status, stands), (1, text[:59]))
        expect("no answer for part 2 of 0002h (offset 8, count 8): ipmitool ended with status 1 and no word (asked 3 times)" in said, said)


@test
def a_run_that_is_killed_within_a_record():
    """No part of it is kept: the next run reads it from its beginning, by the same size."""
    script, text = chain(1, 2, 3)
    with Room(script, limits=at_most(4, also="[ $id$offset != 00038 ] || exec sleep 60")) as room:
        with room.started() as process:
            while (3, 8, 4) not in room.parts():
                expect(process.poll() is None, "it has ended")
            process.send_signal(signal.SIGKILL)
            process.wait(SECONDS)
        same((room.text(), room.notes.read_text()), (text[:118], notes(most=4)))
        before = len(room.parts())
        room.limit(at_most(4))
        same((outcome(room)[::2], room.parts()[before:]), ((0, text), parts_of([2, 3], 4)))


@test
def a_log_that_is_erased_while_it_is_read_by_parts():
    """A look shows it, as where whole records are read."""
    script, text = chain(1, 2, 3)
    with Room({**script, "info": [info(), info(5, 1000, 2001)]}, limits=at_most(4)) as room:
        status, said, stands = outcome(room)
        same((status, room.there()), (1, ["capture.txt.rest"]))
        expect("the log was erased while it was read" in said, said)


@test
def a_circle_by_parts():
    script, text = chain(1, 2, 3, end=2)
    with Room(script, limits=at_most(7)) as room:
        room.ends({}, 0, "circle: 0002h", text, "walk=circle read=3")
        same(room.parts()[-9:], parts_of([0, 2, 3], 7))
