"""tools/capture live: a capture is of one log, is none where nothing was read, and can be made longer. With a script that stands in for ipmitool."""

import os
import random
import signal
import subprocess
import time

from common import SECONDS, expect, line, log, printed_for, record, same, test, text_of
from stand_in import NO_SUCH_RECORD, Room, answer, at_once, chain, in_lines, info, notes

NO_TIME = 0xFFFFFFFF
REFUSED = "echo 'Unable to send RAW command (channel=0x0 netfn=0xa lun=0x0 cmd=0x40 rsp=0xc1): Invalid command' >&2; exit 1"
NO_SESSION = "echo 'Error: Unable to establish LAN session' >&2; exit 1"
NO_INFO = {"a refusal": REFUSED, "13 bytes": in_lines(bytes(13)), "15 bytes": in_lines(bytes(15)), "no byte": "echo"}
LATER = record(1)[:3] + b"\x99" + record(1)[4:]  # the first record of another log
TAKE_ANOTHER = "take another file for the log as it is now"


# ---- the notes beside a capture


@test
def the_notes_beside_a_capture():
    script, text = chain(1, 2, 3)
    with Room({**script, "info": [info(3, 1000, 2000), info(4, 1001, 2000)]}) as room:
        status, said = room.run("-I", "lanplus", "-H", "192.0.2.7", "-p", "1623", "-U", "admin", "-P", "secret")
        same((status, room.text(), room.there()), (0, text, ["capture.txt", "capture.txt.info"]))
        same(room.notes.read_text(), notes("interface=lanplus\nhost=192.0.2.7\nport=1623\n", (3, 1000, 2000, 0), (4, 1001, 2000, 3)))
        same(room.looks(), 2)


@test
def the_place_as_it_is_given():
    for options, place in ((["-Ilan", "-Ha"], "interface=lan\nhost=a\n"), (["-vI", "lan", "-H", "a", "-H", "b"], "interface=lan\nhost=b\n"), (["-v"], ""), (["-P", "-Ilan"], ""),
                           (["-d", "1"], "device=1\n"), (["-I", "lan\nhost=x\x1b[2J"], "interface=lan\\x0ahost=x\\x1b[2J\n"), ([b"-H\xff"], "host=\\xff\n")):
        script, _ = chain(1)
        with Room(script) as room:
            same(room.run(*options)[0], 0)
            same(room.notes.read_text(), notes(place, last=(5, 1000, 2000, 1)))


@test
def another_controllers_options():
    """Nothing is asked, and nothing is changed. The same options in another form are the same."""
    script, text = chain(1, 2, 3)
    there = notes("interface=lan\nhost=a\n", last=(5, 1000, 2000, 1))
    for options in (["-I", "lan", "-H", "b"], ["-I", "lanplus", "-H", "a"], ["-I", "lan"], [], ["-I", "lan", "-H", "a", "-p", "623"]):
        with Room(script, text[:59], notes=there) as room:
            room.refuses("was read with interface=lan host=a, and now there is", "give the same options, or take another file", options=options)
            same(room.runs(), [])
    with Room(script, text[:59], notes=there) as room:
        same((room.run("-Ilan", "-Ha")[0], room.text()), (0, text))


@test
def notes_that_are_none_of_ours():
    """Whether there is a capture or not, they are left as they are, and nothing is asked."""
    script, text = chain(1, 2)
    good = notes()
    sizes = [good + more for more in ("bytes=0\n", "bytes=04\n", "bytes=256\n", "bytes=none\n", "bytes=4", "bytes=4\nbytes=4\n", "byte=4\n")]
    for there in ("", "root:x:0:0\n", good + "\n", good[:-1], good.replace("2000", "x"), good.replace("slots=0", "slots=none"), "host=a\n" + good,
                  good.replace("first", "1st"), good * 2, *sizes, "bytes=4\n" + good):
        for capture in (None, text[:59]) if there else (None, "", text[:59]):
            with Room(script, capture, notes=there) as room:
                room.refuses("capture.txt.info is not what this program writes there; move it away, or take another name")
                same(room.runs(), [])
    for make in (lambda path: path.symlink_to("elsewhere"), os.mkfifo, lambda path: path.mkdir()):
        with Room(script) as room:
            (room.path / "elsewhere").write_text(good)
            make(room.notes)
            status, said = room.run()
            same((status, room.runs(), (room.path / "elsewhere").read_text()), (2, [], good))


@test
def old_notes_without_a_capture_are_replaced():
    script, text = chain(1)
    for capture in (None, ""):
        with Room(script, capture, notes=notes("host=old\n", (7, 8, 9, 0), (7, 8, 9, 7))) as room:
            same((room.run("-H", "new")[0], room.text(), room.notes.read_text()), (0, text, notes("host=new\n", last=(5, 1000, 2000, 1))))


# ---- between two runs


@test
def a_log_that_was_erased_between_two_runs():
    """The time of the erasure shows it, also where the records are the same; so does a number of records that has become less."""
    script, text = chain(1, 2, 3)
    for before, now, says in (((5, 1000, 2000), info(5, 1000, 2001), "it was last erased at 2001, and before that at 2000"),
                              ((5, 1000, "none"), info(5, 1000, 2001), "it was last erased at 2001, and before that never"),
                              ((5, 1000, 2000), info(5, 1000, 1), "it was last erased at 1"),
                              ((5, "none", "none"), info(4, NO_TIME, 0), "it has 4 entries, and had 5")):
        for capture in (text[:59], text[:65], text):
            with Room({**script, "info": [now]}, capture, notes=notes(last=(*before, 1))) as room:
                room.refuses("the log is not the one", says, TAKE_ANOTHER, *["its slots behind the first 1 may be of either"] * (capture == text))


OTHER_LOGS = {  # what is answered after the first and second of three records are held, and what shows that it is another log
    "the last is another": ({2: [answer(3, LATER)]}, "record 0002h is another"),
    "the last is gone": ({2: [NO_SUCH_RECORD]}, "record 0002h is gone"),
    "the last names another": ({2: [answer(4, record(2))]}, "record 0002h names 0004h as next, and named 0003h"),
    "the last names the end": ({2: [answer(0xFFFF, record(2))]}, "record 0002h names FFFFh as next, and named 0003h"),
    "the first is another": ({0: [answer(2, LATER)]}, "record 0000h is another"),
    "the first is gone": ({0: [NO_SUCH_RECORD]}, "record 0000h is gone"),
}


@test
def a_log_that_is_another_without_times():
    """The records show it: with a controller that has no times or tells nothing, and with a capture that has no notes."""
    script, text = chain(1, 2, 3)

    def another(case):
        (name, (other, says)), told, beside = case
        with Room({**script, **other, "info": [told]}, text[:118], notes=beside) as room:
            room.refuses(says, TAKE_ANOTHER)
    known = notes(last=(5, "none", "none", 2))
    at_once(another, [(other, told, beside) for other in OTHER_LOGS.items()
                      for told, beside in ((info(5, NO_TIME, NO_TIME), known), (info(5, 0, 0), known), (REFUSED, known), (info(), None))])
    for other, says in [*OTHER_LOGS.values()][:4]:  # the last is asked in any case: a clock may count from a start
        with Room({**script, **other}, text[:118], notes=notes(last=(5, 1000, 2000, 2))) as room:
            room.refuses(says, TAKE_ANOTHER)


@test
def a_log_that_is_the_same_without_times():
    script, text = chain(1, 2, 3)
    for told, beside in ((info(5, NO_TIME, NO_TIME), notes(last=(5, "none", "none", 2))), (info(5, 0, 0), notes(last=(5, 1000, 2000, 2))), (info(), None), (REFUSED, None)):
        with Room({**script, "info": [told]}, text[:118], notes=beside) as room:
            room.ends({}, 0, "3 slots: ended", text, "walk=ended read=3")
            same(room.asked()[:3], [2, 0, 3])  # last and first, and what is lacking


@test
def what_was_known_is_not_forgotten():
    """A look that tells nothing does not make the time of the last erasure be forgotten."""
    script, text = chain(1, 2, 3, end=4)
    with Room({**script, 4: [NO_SUCH_RECORD], "info": [info(), REFUSED]}) as room:
        room.ends({}, 0, "missing: no record 0004h", text, "walk=missing ask=0004 read=3")
        same(room.notes.read_text(), notes(last=(5, 1000, 2000, 3)))
        room.script({"info": [info(5, 1000, 2001)]})
        room.refuses("it was last erased at 2001, and before that at 2000")


@test
def a_controller_that_tells_nothing():
    """It is said once; the first record is asked again, before the slot is written that closes the chain."""
    for name, words in NO_INFO.items():
        script, text = chain(1, 2, 3)
        with Room({**script, "info": [words]}) as room:
            said = room.ends({}, 0, "3 slots: ended", text, "walk=ended read=3")
            same((name, said.count("does not tell when its log was erased"), room.asked()), (name, 1, [0, 2, 3, 0]))
            same(room.notes.read_text(), notes(first=(*["none"] * 3, 0), last=(*["none"] * 3, 3)))


# ---- while it is read


@test
def a_log_that_is_erased_while_it_is_read():
    """What was read since the last good look is taken off, and kept beside it."""
    script, text = chain(*range(1, 251))
    lines = text.splitlines(keepends=True)
    ways = {"times": [info(250), info(250), info(250, 1000, 2001)], "number": [info(250, 0, 0), info(250, 0, 0), info(50, 0, 0)]}
    for way, looks in ways.items():
        with Room({**script, "info": looks}) as room:
            room.file.with_suffix(".txt.rest").write_text("older")
            status, said = room.run()
            same((way, status, room.there()), (way, 1, ["capture.txt", "capture.txt.info", "capture.txt.rest", "capture.txt.rest2"]))
            same((room.text(), (room.path / "capture.txt.rest2").read_text()), ("".join(lines[:100]), "".join(lines[100:200])))
            same((room.path / "capture.txt.rest").read_text(), "older")
            expect("the log was erased while it was read" in said and "capture.txt.rest2" in said and TAKE_ANOTHER in said, said)
            expect("goes on from there" not in said, said)
            room.refuses("the log is not the one", TAKE_ANOTHER)
            same(printed_for(room.text())[-1], "walk=missing ask=0065 read=100")


@test
def each_look_is_noted():
    """At each hundredth ask, on the disk, so that it outlives a kill."""
    script, text = chain(*range(1, 131))
    with Room({**script, 121: ["exec sleep 60"], "info": [info(), info(6, 1001)]}) as room:
        with room.started() as process:
            room.wait_for(121)
            process.kill()
            process.wait()
        same((room.text(), room.notes.read_text()), (text[:120 * 59], notes(last=(6, 1001, 2000, 100))))


@test
def a_log_that_is_erased_while_it_is_read_without_times():
    script, text = chain(*range(1, 121))
    lines = text.splitlines(keepends=True)
    for words in (info(120, 0, NO_TIME), REFUSED):
        with Room({**script, 0: [script[0][0], script[0][0], answer(2, LATER)], "info": [words]}) as room:
            status, said = room.run()
            same((status, room.text(), (room.path / "capture.txt.rest").read_text()), (1, "".join(lines[:100]), "".join(lines[100:])))
            expect("the log was erased while it was read: record 0000h is another" in said, said)


@test
def a_log_that_is_erased_before_the_first_look():
    """Nothing of it is left, neither an empty capture nor notes; also where the first slot is the last."""
    for ids in ([1, 2, 3], [1]):
        script, text = chain(*ids)
        for looks, first in (([info(), info(5, 1000, 2001)], []), ([info(5, 0, 0)], [answer(2, LATER)]), ([info(5, 0, 0)], [NO_SUCH_RECORD])):
            for capture in (None, ""):
                with Room({**script, 0: [*script[0], *first], "info": looks}, capture) as room:
                    status, said = room.run()
                    same((ids, status, room.there()), (ids, 1, ["capture.txt.rest"]))
                    same((room.path / "capture.txt.rest").read_text(), text)
                    expect("the log was erased while it was read" in said, said)


@test
def a_chain_is_closed_only_after_a_look():
    """Killed while it looks, it leaves a capture that is not closed: ended and circle are said of one log only."""
    for end, verdict in ((0xFFFF, "ended"), (2, "circle: 0002h")):
        script, text = chain(1, 2, 3, end=end)
        with Room({**script, "info": [info(), "exec sleep 60"]}) as room:
            with room.started() as process:
                room.wait_for(3, looks=2)
                process.kill()
                process.wait()
            same(room.text(), text[:118])
            room.script({"info": [info()]})
            room.ends({}, 0, verdict, text, f"walk={verdict.partition(':')[0]} read=3")


def an_erasure_among_kills(case):
    """A log that is erased and filled anew behind some answer, read by runs that are killed at moments of no choice of their own."""
    seed, times = case
    chance = random.Random(seed)
    ids = range(1, 31)
    old, new = chain(*ids)[0], {ask: [answer(following, record(id)[:3] + LATER[3:4] + record(id)[4:])] for ask, following, id in zip([0, *ids[1:]], [*ids[1:], 0xFFFF], ids)}
    script = {ask: [f"if [ -f erased ]; then {new[ask][0]}; else {old[ask][0]}; fi"] for ask in old}
    script["info"] = [f"if [ -f erased ]; then {info(30, 1000, 2001)}; else {info(30, 1000, 2000)}; fi" if times else info(30, 0, NO_TIME)]
    last = chance.choice([0, *ids[1:]])
    script[last][0] += "; touch erased" if chance.random() < 0.5 else "; (sleep 0.05; touch erased) &"
    with Room(script, sessions=chance.random() < 0.8) as room:
        for _ in range(6):
            with room.started(stderr=subprocess.DEVNULL) as process:
                before = len(room.asked())
                kill = chance.randrange(1, 40)
                while len(room.asked()) - before < kill and process.poll() is None:
                    time.sleep(0.005)
            if room.file.exists():
                verdict = printed_for(room.text())[-1]
                logs = {text[32:34] for text in room.text().splitlines()}
                expect(not verdict.startswith("walk=ended") or len(logs) == 1, case, "has two logs:", room.text())
            if process.returncode != -signal.SIGKILL:
                break


@test
def kills_while_the_log_is_erased():
    """A capture whose log ends is of one log, wherever a run was killed."""
    at_once(an_erasure_among_kills, [(seed, seed % 2 == 0) for seed in range(10)])


@test
def a_chain_that_slots_close_which_were_there():
    """The slot that is lacking in the middle closes the chain; it too is written only after a look."""
    script, text = chain(1, 2, 3)
    lines = text.splitlines(keepends=True)
    with Room({**script, "info": [info(), info(5, 1000, 2001)]}, lines[2] + lines[0], notes=notes(last=(5, 1000, 2000, 2))) as room:
        status, said = room.run()
        same((status, room.text(), (room.path / "capture.txt.rest").read_text()), (1, lines[2] + lines[0], lines[1]))


@test
def a_log_that_is_erased_where_a_record_is_missing():
    script, text = chain(1, 2, end=9)
    with Room({**script, 9: [NO_SUCH_RECORD], "info": [info(), info(5, 1000, 2001)]}) as room:
        same((room.run()[0], room.there()), (1, ["capture.txt.rest"]))


@test
def a_look_that_fails():
    """The slot that would close the chain is not written; the next run goes on from there."""
    script, text = chain(1, 2, 3)
    with Room({**script, "info": [info(), *[NO_SESSION] * 4]}, sessions=False) as room:
        status, said = room.run()
        same((status, room.text()), (1, text[:118]))
        expect("no answer for Get SEL Info: Error: Unable to establish LAN session (asked 3 times)" in said, said)
        room.ends({"info": [info()]}, 0, "3 slots: ended", text, "walk=ended read=3")


@test
def records_that_are_added_meanwhile():
    script, text = chain(1, 2, 3)
    for last, told in ((info(6, 1001), 1), (info(6), 1), (info(5, 1001), 1), (info(), 0)):
        with Room({**script, "info": [info(), last]}) as room:
            said = room.ends({}, 0, "3 slots: ended", text, "walk=ended read=3")
            same(said.count("records were added to the log meanwhile; the same command reads those that are not in"), told)


# ---- no capture where nothing was read


@test
def nothing_is_left_where_nothing_was_read():
    """A wrong password is tried once, since a user may be locked out; and no file looks like an empty log."""
    for sessions in (True, False):
        with Room({"info": [NO_SESSION]}, sessions=sessions) as room:
            status, said = room.run("-I", "lan", "-H", "a", "-P", "wrong")
            same((status, room.there(), room.runs()), (1, [], ["raw"]))
            expect("no answer for Get SEL Info: Error: Unable to establish LAN session; nothing was read" in said and "wrong" not in said, said)
    for words in ("exit 1", "echo ' 01 02'", "echo '?'", REFUSED):
        with Room({0: [words]}, sessions=False) as room:
            same((room.run()[0], room.there()), (1, []))
    with Room({"info": [NO_SESSION]}, "") as room:
        same((room.run()[0], room.there()), (1, ["capture.txt"]))


@test
def an_empty_log_has_a_file_and_notes():
    with Room({0: [NO_SUCH_RECORD], "info": [info(0, 0, 2000)]}) as room:
        room.ends({}, 0, "0 slots: missing: no record 0000h", "", "walk=missing ask=0000 read=0")
        same(room.notes.read_text(), notes(first=(0, "none", 2000, 0), last=(0, "none", 2000, 0)))
        script, text = chain(1)
        room.ends({**script, "info": [info()]}, 0, "1 slots: ended", text, "walk=ended read=1")
        same(room.notes.read_text(), notes(last=(5, 1000, 2000, 1)))


# ---- a log that has grown


@test
def a_log_that_has_grown():
    """The same command reads what was added: only the last record is asked again, and names another as next."""
    script, text = chain(1, 2)
    grown, longer = chain(1, 2, 3, 4)
    for sessions in (True, False):
        with Room(script, sessions=sessions) as room:
            room.ends({}, 0, "2 slots: ended", text, "walk=ended read=2")
            said = room.ends({}, 0, "2 slots: ended", text, "walk=ended read=2")
            expect("nothing new was added" in said, said)
            room.ends({**grown, "info": [info(7, 1007)]}, 0, "4 slots: ended", longer, "walk=ended read=4")
            same(room.asked(), [0, 2, 2, 2, 3, 4])
            same(room.notes.read_text(), notes(last=(7, 1007, 2000, 4)))


@test
def a_log_that_has_grown_behind_its_first_record():
    script, text = chain(1)
    grown, longer = chain(1, 2)
    with Room(script) as room:
        room.ends({}, 0, "1 slots: ended", text, "walk=ended read=1")
        room.ends(grown, 0, "2 slots: ended", longer, "walk=ended read=2")


@test
def a_log_that_has_grown_in_a_capture_of_another_order():
    """The digits are overwritten in the line of the last record, wherever that stands; a later slot of the same id is never seen."""
    _, text = chain(1, 2, 3)
    grown, longer = chain(1, 2, 3, 4)
    lines, more = text.splitlines(keepends=True), longer.splitlines(keepends=True)
    there, double = lines[2] + lines[0] + lines[1], line(3, 0xFFFF, record(9))
    with Room(grown, there + double, notes=notes()) as room:
        room.ends({}, 0, "5 slots: ended", more[2] + lines[0] + lines[1] + double + more[3], "walk=ended read=4")


@test
def a_log_that_has_grown_and_is_cut_off():
    """Stopped at any point, what is there is true: the log goes on behind the last slot, and the next run goes on there."""
    _, text = chain(1, 2)
    grown, longer = chain(1, 2, 3, 4)
    for hang, there in ((2, text), (3, longer[:118]), (4, longer[:177])):
        with Room({**grown, hang: ["exec sleep 60"]}, text, notes=notes()) as room:
            with room.started() as process:
                while hang not in room.asked():
                    room.wait_for(len(room.asked()) + 1)
                process.send_signal(signal.SIGKILL)
                process.wait(SECONDS)
            same((hang, room.text()), (hang, there))
            room.ends({hang: grown[hang]}, 0, "4 slots: ended", longer, "walk=ended read=4")


# Ends the program at once before the call of that number that changes something on the disk.
CRASH = """import os
left = [{calls}]
def counted(function):
    def call(*words):
        left[0] -= 1
        return os._exit(9) if left[0] < 0 else function(*words)
    return call
for name in ("pwrite", "ftruncate", "fsync", "rename", "unlink"):
    setattr(os, name, counted(getattr(os, name)))
"""


@test
def crashes_between_any_two_writes():
    """What is there is true at any point, of a log that is read for the first time or has grown; and the next run ends with the whole log."""
    _, text = chain(1, 2)
    grown, longer = chain(1, 2, 3, 4)
    true = {None: {None, "", *(longer[:59 * count] for count in range(1, 5))}, text: {text, *(longer[:59 * count] for count in range(2, 5))}}

    def crash(case):
        there, calls = case
        with Room(grown, there, notes=there and notes()) as room:
            room.instead_of_pty(CRASH.format(calls=calls))
            status, _ = room.run()
            left = room.text() if room.file.exists() else None
            expect(status in (0, 9) and left in true[there], case, "leaves", left, "with status", status)
            expect(status == 9 or left == longer, case, "ends with", left)
            room.instead_of_pty("")
            room.ends({}, 0, "4 slots: ended", longer, "walk=ended read=4")
            return status
    ended = {there: at_once(crash, [(there, calls) for calls in range(20)]) for there in (None, text)}
    for statuses in ended.values():
        expect(statuses[0] == 9 and statuses[-1] == 0, "there were more writes, or none:", statuses)


@test
def a_log_that_has_grown_into_a_circle():
    """Its last slot closes the chain another way: only after a look."""
    script, text = chain(1, 2, 3)
    circle, round = chain(1, 2, 3, end=2)
    with Room(circle, text, notes=notes()) as room:
        room.ends({}, 0, "3 slots: circle: 0002h", round, "walk=circle read=3")
        same(room.looks(), 2)
        said = room.ends({}, 0, "3 slots: circle: 0002h", round, "walk=circle read=3")
        expect("nothing was asked: a circle has no end to go on from" in said, said)
    with Room({**circle, "info": [info(), info(5, 1000, 2001)]}, text, notes=notes()) as room:
        same((room.run()[0], room.text(), room.there()), (1, text, ["capture.txt", "capture.txt.info"]))


@test
def a_log_that_has_grown_and_lost_its_end():
    script, text = chain(1, 2, end=3)
    with Room({**script, 3: [NO_SUCH_RECORD]}, text_of(log(1, 2)), notes=notes()) as room:
        room.ends({}, 0, "2 slots: missing: no record 0003h", text, "walk=missing ask=0003 read=2")


@test
def a_grown_log_that_is_another():
    """Nothing is added to a capture whose log was erased since, also where it was closed."""
    _, text = chain(1, 2)
    grown, _ = chain(1, 2, 3, 4)
    for other, beside in (({"info": [info(5, 1000, 2001)]}, notes()), ({2: [answer(3, LATER)]}, notes()), ({2: [answer(3, LATER)]}, None), ({0: [answer(2, LATER)]}, None)):
        with Room({**grown, **other}, text, notes=beside) as room:
            room.refuses("the log is not the one", TAKE_ANOTHER)
