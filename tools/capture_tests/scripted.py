"""tools/capture live, with a script that stands in for ipmitool."""

import os
import pathlib
import random
import re
import resource
import signal
import subprocess
import sys
import time

from common import CAPTURE, PATIENCE, SECONDS, convert, expect, line, printed_for, record, same, test
from stand_in import NO_SUCH_RECORD, Room, answer, at_once, chain, every_process_of, info, no_process_stays, notes, said_on_a_terminal


# ---- how a log ends


@test
def a_log_that_ends():
    script, text = chain(1, 2, 7, 0x1234, 0xFFFE)
    with Room() as room:
        room.ends(script, 0, "5 slots: ended", text, "walk=ended read=5")
        same(room.asked(), [0, 2, 7, 0x1234, 0xFFFE])


@test
def options_are_handed_on():
    script, _ = chain(1)
    with Room(script) as room:
        options = ["-I", "lanplus", "-H", "127.0.0.1", "-U", "a user", "-P", "-h", "--seconds", "-v"]
        same(room.run(*options, before=["--seconds", "9"])[0], 0)
        first, second = (room.path / "calls").read_text().split("\n\n")[:-1]
        same(first.splitlines(), [*options, "raw", "0x0a", "0x40"])
        same(second.splitlines()[:-1], [*options, "exec"])


@test
def what_is_no_option_is_not_handed_on():
    """A command before `raw` would be carried out, and `sel clear` is one."""
    for words in (["sel", "clear"], ["-I", "lan", "sel", "clear"], ["-v", "sel", "clear"], ["lanplus"], ["-I", "lan", "-v", "power", "off"], ["-v", "shell"],
                  ["-Ilan", "shell"], ["-vI", "lan", "shell"], ["--new", "word", "shell"]):
        with Room() as room:
            status, said = room.run(*words)
            same((words, status, room.runs()), (words, 2, []))
            expect("is no option of ipmitool" in said, said)
    with Room() as room:
        room.refuses("and there is none", options=["-I", "lan", "-H"])
        same(room.runs(), [])


@test
def a_circle():
    script, text = chain(1, 2, 3, 4, end=2)
    with Room() as room:
        room.ends(script, 0, "circle: 0002h", text, "walk=circle read=4")
        same(room.asked(), [0, 2, 3, 4])


@test
def a_circle_by_way_of_the_first_record():
    script, text = chain(1, 2, 3, end=1)
    script[1] = [answer(2, record(1))]
    with Room() as room:
        room.ends(script, 0, "circle: 0002h", text + line(1, 2, record(1)), "walk=circle read=4")


@test
def a_circle_to_0000h():
    script, text = chain(1, 2, 3, end=0)
    with Room() as room:
        room.ends(script, 0, "circle: 0000h", text, "walk=circle read=3")


@test
def a_record_that_names_itself():
    script, text = chain(1, 2, end=2)
    with Room() as room:
        room.ends(script, 0, "circle: 0002h", text, "walk=circle read=2")


@test
def a_missing_id():
    script, text = chain(1, 2, 3, end=9)
    with Room() as room:
        room.ends({**script, 9: [NO_SUCH_RECORD]}, 0, "missing: no record 0009h", text, "walk=missing ask=0009 read=3")
        same(room.asked(), [0, 2, 3, 9])


@test
def a_missing_id_that_comes_back():
    script, text = chain(1, 2, 9)
    script[9].insert(0, NO_SUCH_RECORD)
    with Room() as room:
        room.ends(script, 0, "missing: no record 0009h", text.partition("ask=0009")[0], "walk=missing ask=0009 read=2")
        room.ends({}, 0, "3 slots: ended", text, "walk=ended read=3")
        same(room.asked(), [0, 2, 9, 2, 9])  # the last that is there is asked again, so that it is seen to be the same log


@test
def an_empty_log():
    with Room() as room:
        room.ends({0: [NO_SUCH_RECORD]}, 0, "missing: no record 0000h", "", "walk=missing ask=0000 read=0")


FAULTS = {
    "17 bytes": ("echo ' ff ff 03 00 02 e8 03 00 00 20 00 04 01 30 01 59'; echo ' 5a'", "short: 17 bytes of 18"),
    "one byte": ("echo ' ff'", "short: 1 bytes of 18"),
    "no byte": ("echo", "short: 0 bytes of 18"),
    "no line": (":", "short: 0 bytes of 18"),
    "a refusal": ("echo 'Unable to send RAW command (channel=0x0 netfn=0xa lun=0x0 cmd=0x43 rsp=0xd4): ?' >&2; exit 1", "0003h was refused with completion code D4h"),
    "a refusal without a digit": ("echo 'Unable to send RAW command (channel=0x0 netfn=0xa lun=0x0 cmd=0x43 rsp=0x5): ?' >&2; exit 1", "completion code 05h"),
    "no hexadecimal": ("echo ' ff ff 03 00 0'", "not bytes in hexadecimal"),
    "bytes of no text": ("printf '\\377\\n'", "not bytes in hexadecimal"),
}


LOST = {  # what is asked for again
    "a busy controller": ("echo 'Unable to send RAW command (channel=0x0 netfn=0xa lun=0x0 cmd=0x43 rsp=0xc0): Node busy' >&2; exit 1", "0003h was refused with completion code C0h"),
    "a slow controller": ("echo 'Unable to send RAW command (channel=0x0 netfn=0xa lun=0x0 cmd=0x43 rsp=0xc3): Timeout' >&2; exit 1", "0003h was refused with completion code C3h"),
    "no answer": ("echo 'Unable to send RAW command (channel=0x0 netfn=0xa lun=0x0 cmd=0x43)' >&2; exit 1", "no answer for 0003h: Unable"),
    "no session": ("echo 'Error: Unable to establish LAN session' >&2; exit 1", "no answer for 0003h: Error: Unable to establish LAN session (asked 3 times)"),
    "no word": ("exit 1", "no answer for 0003h: ipmitool ended with status 1"),
    "a signal": ("kill -9 $$", "no answer for 0003h: ipmitool ended with status -9"),
    "a hang": ("exec sleep 60", f"no answer for 0003h within {PATIENCE} seconds (asked 3 times)"),
}


def a_fault(name, words, says, sessions, tries):
    """It ends the run with status 1 and keeps what was read; the next run, where the answer has changed, goes on from there."""
    script, text = chain(1, 2, 3, 4)
    good, script[3] = script[3], [words]
    with Room(script, sessions=sessions) as room:
        try:
            status, said = room.run(before=["--seconds", str(PATIENCE)] if "hang" in name else [])
            same((status, room.text()), (1, text.partition("ask=0003")[0]))
            same(printed_for(room.text())[-1], "walk=missing ask=0003 read=2")
            expect(says in said.splitlines()[-1] and "the same command goes on from there" in said, "says", said)
            if not sessions:
                same(room.asked(), [0, 2, *[3] * tries])
            before = len(room.asked())
            room.ends({3: good}, 0, "4 slots: ended", text, "walk=ended read=4")
            same(room.asked()[before:], [2, 3, 4])
        except AssertionError as error:
            raise AssertionError(f"{name}, {'in a session' if sessions else 'alone'}: {error}")


@test
def faults():
    """An answer that does not come is asked for three times in all; another fault ends the run at once."""
    at_once(lambda fault: a_fault(*fault), [(name, words, says, sessions, tries) for some, tries in ((LOST, 3), (FAULTS, 1))
                                            for name, (words, says) in some.items() for sessions in (True, False) if name != "a hang" or not sessions])


@test
def lost_answers_that_come_when_asked_again():
    script, text = chain(1, 2, 3, 4)
    for id, (words, _) in zip((0, 2, 3), (LOST["no session"], LOST["a busy controller"], LOST["a hang"])):
        script[id].insert(0, words)
    with Room(script, sessions=False) as room:
        status, said = room.run(before=["--seconds", str(PATIENCE)])
        same((status, room.text(), room.asked()), (0, text, [0, 0, 2, 2, 3, 3, 4]))


@test
def a_long_answer():
    script, text = chain(1, 2, 3)
    script[2] = [answer(3, record(2) + b"\x07\x08")]
    with Room() as room:
        room.ends(script, 0, "3 slots: ended", text, "walk=ended read=3")
    with Room(script) as room:
        expect("more than 18 bytes, the rest of which is not kept: 1, the first for 0002h" in room.run()[1], "no word of it")


@test
def an_answer_for_another_record():
    script, _ = chain(1, 2, 3)
    script[2] = [answer(3, record(1))]
    with Room(script) as room:
        status, said = room.run()
        same(status, 0)
        expect("another id than was asked for: 1, the first for 0002h" in said, said)


@test
def an_answer_that_changes_in_a_circle():
    """The second answer for 0002h would end the log; it is never asked for, and the first answer stays."""
    script, text = chain(1, 2, 3, end=2)
    script[2].append(answer(0xFFFF, record(2)))
    with Room() as room:
        room.ends(script, 0, "circle: 0002h", text, "walk=circle read=3")
        room.ends({}, 0, "circle: 0002h", text, "walk=circle read=3")
        same(room.asked(), [0, 2, 3])


@test
def going_on_from_every_byte():
    """Wherever the writing was cut off, the next run ends with the same capture, and asks for nothing that is there in whole."""
    script, text = chain(1, 2, 3)

    def going_on_from(end):
        with Room(script, text[:end], notes=notes()) as room:
            status, said = room.run()
            same((end, status, room.text()), (end, 0, text))
            held = end // 59  # the last that is held is asked again, so that it is seen to be the same log
            same((end, room.asked()), (end, [[], [0], [2], [3]][held] + [0, 2, 3][held:]))
    at_once(going_on_from, [*range(61), *range(115, 122), *range(len(text) - 3, len(text) + 1)])


@test
def a_line_that_was_not_written_to_its_end_is_taken_off():
    """Also where nothing comes behind it."""
    script, text = chain(1, 2, end=3)
    for there in (text[:100], text + "ask="):
        with Room({**script, 3: [NO_SUCH_RECORD]}, there) as room:
            room.ends({}, 0, "missing: no record 0003h", text, "walk=missing ask=0003 read=2")


@test
def going_on_with_slots_in_another_order():
    script, text = chain(1, 2, 3, 4, 5)
    lines = text.splitlines(keepends=True)
    there = lines[3] + lines[1] + lines[1].replace("next=0003", "next=0009") + line(0xFFFF, 0, record(1)) + lines[0]
    with Room(script, there, notes=notes()) as room:
        room.ends({}, 0, "7 slots: ended", there + lines[2] + lines[4], "walk=ended read=5")
        same(room.asked(), [2, 3, 5])


@test
def kills():
    """Killed at moments of no choice of its own, it goes on until the log is there; only what was being asked is asked again."""
    ids = range(1, 41)
    script, text = chain(*ids)
    chance = random.Random(10)
    with Room(script) as room:
        killed = 0
        while True:
            more = len(room.asked()) + chance.randrange(1, 7)
            with room.started(stderr=subprocess.DEVNULL) as process:
                while len(room.asked()) < more and process.poll() is None:
                    time.sleep(chance.uniform(0, 0.02))
                if process.poll() is not None:
                    break
            killed += 1
            there = room.text() if room.file.exists() else ""
            expect(text.startswith(there), "after", killed, "kills the capture is", there)
            expect(killed <= len(ids), "does not come on")
        same((process.returncode, room.text()), (0, text))
        # after a kill one is asked again that was not written, and the last that was, so that it is seen to be the same log
        expect(killed > 3 and len(room.asked()) <= len(ids) + 2 * killed, killed, "kills,", len(room.asked()), "asked")


@test
def interruptions():
    """By any signal that it can see; no ipmitool stays behind, neither one for a single ask nor a session."""
    for number, sessions in ((signal.SIGINT, True), (signal.SIGINT, False), (signal.SIGTERM, True), (signal.SIGTERM, False), (signal.SIGHUP, True)):
        script, text = chain(1, 2, 3)
        script[2].insert(0, "exec sleep 60")
        with Room(script, sessions=sessions) as room:
            with room.started(preexec_fn=lambda: signal.signal(signal.SIGINT, signal.SIG_DFL)) as process:  # in the background it may be ignored
                room.wait_for(2)
                process.send_signal(number)
                said = process.communicate(timeout=SECONDS)[1].decode()
                same((number, process.returncode), (number, 128 + number))
            no_process_stays(room)
            expect(("interrupted" if number == signal.SIGINT else f"ended by signal {number:d}") in said and "has 1 slots" in said and "Traceback" not in said, said)
            room.ends({}, 0, "3 slots: ended", text, "walk=ended read=3")


@test
def a_killed_run_leaves_no_session():
    script, _ = chain(*range(1, 100))
    script[50].insert(0, "sleep 1")
    with Room(script) as room:
        with room.started() as process:
            room.wait_for(50)
            process.kill()
            process.wait()
            expect(every_process_of(room), "no session was open")
            no_process_stays(room, 30)


@test
def no_room_on_the_disk():
    script, text = chain(*range(1, 10))
    with Room(script) as room:
        status, said = room.run(preexec_fn=lambda: resource.setrlimit(resource.RLIMIT_FSIZE, (400, 400)))
        same((status, room.text()), (1, text[:6 * 59]))
        expect("could not be written" in said, said)
        room.ends({}, 0, "9 slots: ended", text, "walk=ended read=9")
    with Room(script) as room:  # not even for the notes
        status, said = room.run(preexec_fn=lambda: resource.setrlimit(resource.RLIMIT_FSIZE, (100, 100)))
        same((status, room.there()), (1, []))
        expect("capture.txt.info could not be written" in said, said)
    with Room(script) as room:  # for the notes, and not for the first slot
        room.instead_of_pty("import os\ndef full(*_):\n    raise OSError(28, 'No space left on device')\nos.pwrite = full\n")
        status, said = room.run()
        same((status, room.there()), (1, []))
        expect("a slot could not be written" in said, said)


@test
def three_thousand_slots():
    """Of a longer log 3,000 are read, and no more is asked; one of 3,000 ends."""
    ids = range(1, 3002)
    script, text = chain(*ids)
    lines = text.splitlines(keepends=True)
    with Room({id: script[id] for id in (2998, 2999, 3000, 3001)}, "".join(lines[:2998]), notes=notes()) as room:
        room.ends({}, 1, "3,000 slots, the most that a capture has: 0BB9h is not asked for", "".join(lines[:3000]), "walk=missing ask=0BB9 read=3000")
        room.ends({}, 1, "0BB9h is not asked for", "".join(lines[:3000]), "walk=missing ask=0BB9 read=3000")
        same(room.asked(), [2998, 2999, 3000])
    lines[2999] = lines[2999].replace("next=0BB9", "next=FFFF")
    with Room({2999: script[2999], 3000: [answer(0xFFFF, record(3000))]}, "".join(lines[:2999]), notes=notes()) as room:
        room.ends({}, 0, "3000 slots: ended", "".join(lines[:3000]), "walk=ended read=3000")
        said = room.ends({3000: script[3000]}, 0, "3000 slots: ended", "".join(lines[:3000]), "walk=ended read=3000")
        expect("has no room" in said, said)
        same(room.asked(), [2999, 3000])


@test
def files_that_are_no_captures():
    _, text = chain(1, 2)
    for there in (text.lower(), text.replace("\n", "\r\n"), text + "\n", "root:x:0:0\n", text + "ask=00G", text[:58] + "0", " ", text * 1501):
        for beside in (None, notes()):
            with Room(text=there, notes=beside) as room:
                status, said = room.run()
                same((status, room.file.read_bytes().decode(), room.runs()), (2, there, []))
                expect("is no capture: line" in said or "over 3,000 slots" in said, said)


@test
def files_without_one_whole_line():
    """They may be anything: only where the notes beside them say so are they a capture, of which the first line was not written to its end."""
    script, text = chain(1, 2)
    for there in ("a", "ask=", "ask=0000 next=0002 record=0100", text[:58]):
        with Room(script, there) as room:
            room.refuses("is no capture: it has not one whole line")
            same(room.runs(), [])
        with Room(script, there, notes=notes()) as room:
            room.ends({}, 0, "2 slots: ended", text, "walk=ended read=2")


@test
def files_that_cannot_be_had():
    with Room() as room:
        os.mkfifo(room.path / "pipe")
        for name in (room.path, room.path / "none" / "x", "/dev/null/x", "/dev/full", room.path / "pipe"):
            room.file = name
            status, said = room.run()
            same((status, room.runs()), (2, []))
            expect(said.startswith("capture: "), said)


@test
def links():
    """One that leads nowhere is refused, and nothing is made where it points; one to a capture is gone on with."""
    script, text = chain(1, 2, 3)
    with Room(script) as room:
        room.file.symlink_to(room.path / "elsewhere")
        status, said = room.run()
        same((status, room.runs(), (room.path / "elsewhere").exists()), (2, [], False))
        expect("is a link to a file that is not there" in said, said)
        (room.path / "elsewhere").write_text(text[:59])
        room.ends({}, 0, "3 slots: ended", text, "walk=ended read=3")
        expect(room.file.is_symlink() and room.notes.exists(), room.there())
    with Room(script) as room:  # put there while the first record is asked for
        room.script({0: [f"ln -s elsewhere capture.txt; {script[0][0]}"]})
        status, said = room.run()
        same((status, (room.path / "elsewhere").exists(), room.there()), (2, False, ["capture.txt"]))
        expect("another has made" in said, said)


@test
def names_and_words_that_a_terminal_would_act_on():
    with Room({"info": ["printf 'Error: \\033[2J\\233\\a\\nno' >&2; exit 1"]}) as room:
        room.file = os.fsencode(room.path) + b"/a\x1b[2J\xffb\nc"
        status, said = room.run()
        same(status, 1)
        expect(all(char.isprintable() for char in said[:-1]) and r"Error: \x1b[2J\x9b\x07 / no" in said, said)
        with open(room.file, "w") as file:
            file.write("?")
        status, said = room.run()
        same(status, 2)
        expect(all(char.isprintable() for char in said[:-1]) and r"/a\x1b[2J\xffb\x0ac is no capture" in said, said)


@test
def two_at_once():
    script, text = chain(1, 2)
    script[2].insert(0, "exec sleep 60")
    with Room(script) as room:
        with room.started() as process:
            room.wait_for(2)
            status, said = room.run()
        same(status, 2)
        expect("another capture is writing" in said, said)
        room.ends({}, 0, "2 slots: ended", text, "walk=ended read=2")


@test
def two_that_begin_at_once():
    """The one that has its first answer later finds the file made."""
    script, text = chain(1, 2)
    script[0][:0] = ["sleep 2; " + script[0][0]]
    with Room(script) as room:
        with room.started() as process:
            room.wait_for(1)
            room.ends({}, 0, "2 slots: ended", text, "walk=ended read=2")
            beside = room.notes.read_text()
            said = process.communicate(timeout=SECONDS)[1].decode()
        same((process.returncode, room.text(), room.notes.read_text()), (2, text, beside))
        expect("another has made" in said, said)


@test
def no_ipmitool():
    with Room() as room:
        (room.path / "python3").symlink_to(sys.executable)
        for change, says in ((lambda path: path.chmod(0o644), "Permission denied: 'ipmitool'"), (pathlib.Path.unlink, "install it (Debian: apt-get install ipmitool)")):
            change(room.path / "ipmitool")
            run = subprocess.run([CAPTURE, "live", room.file], env={"PATH": str(room.path)}, stderr=subprocess.PIPE, timeout=SECONDS)
            last = run.stderr.decode().splitlines()[-1]
            expect(run.returncode == 2 and last.startswith("capture: ") and last.endswith(says), run)


@test
def progress_without_a_terminal():
    script, text = chain(*range(1, 102))
    with Room(script, "".join(text.splitlines(keepends=True)[:99]), notes=notes()) as room:
        status, said = room.run()
        same((status, said.splitlines()), (0, [f"capture: going on with {room.file}, which has 99 slots", f"capture: {room.file} has 101 slots: ended"]))


@test
def progress_on_a_terminal():
    """With the total, the rate and the time that is left, where the controller tells how many records there are."""
    for words, shows in ((info(entries=3), r"\rcapture: 2 of 3 slots, asking for 0003h, \d+ a second, \d+ seconds left *\r"),
                         ("echo ' 00'", r"\rcapture: 2 slots, asking for 0003h, \d+ a second *\r")):
        script, _ = chain(1, 2, 3)
        with Room({**script, "info": [words]}) as room:
            said = said_on_a_terminal(room)
            expect(re.search(shows, said) and said.endswith("3 slots: ended\r\n"), said)


@test
def wrong_calls():
    sizes = [["live", "--bytes", size, "x"] for size in ("", "0", "04", "256", "1000", "-4", "4x", "FF")]
    for words in ([], ["live"], ["live", ""], ["live", "", ""], ["live", "-I", "lan"], ["live", "--seconds", "0", "x"], ["live", "--seconds"],
                  *sizes, ["live", "--bytes"], ["live", "--bytes", "4"], ["live", "--bytes", "4", "--bytes", "4", "x"], ["from-raw", "--bytes", "4", "x"],
                  ["live", "--seconds", "9", "--seconds", "9", "x"], ["to-raw"], ["from-hex", "--plain", "x"],
                  ["from-raw", "x", "y"], ["from-raw", "--raw", "x"], ["shout", "x"], ["-x"]):
        status, out, said = convert(*words)
        same((words, status, out), (words, 2, b""))
        expect("usage: capture live" in said, said)


@test
def wrong_calls_of_the_controller():
    capture = str(CAPTURE.parent.parent / "examples/made.txt")
    sizes = [["--bytes", size, capture, "true"] for size in ("", "0", "04", "256", "x")]
    for words in ([], [capture], *sizes, ["--bytes", "4", "--bytes", "4", capture, "true"], ["--short", "1", capture, "true"], ["--bytes", "4"],
                  ["--short", "0000=3", "--bytes", "4", capture]):
        run = subprocess.run([CAPTURE.with_name("controller"), *words], stdout=subprocess.PIPE, stderr=subprocess.PIPE, timeout=SECONDS)
        same((words, run.returncode, run.stderr[:29]), (words, 2, b"controller: usage: controller"))
    for words in (["--bytes", "1"], ["--bytes", "255", "--short", "0000=3"], ["--short", "0000=3", "--bytes", "16"], []):
        same((words, subprocess.run([CAPTURE.with_name("controller"), *words, capture, "false"], timeout=SECONDS).returncode), (words, 1))


@test
def help():
    for words in ([], ["live"], ["from-raw"], ["from-hex"], ["to-raw"]):
        for asks in ("-h", "--help"):
            status, out, said = convert(*words, asks)
            same((words, status, out.split(b"\n")[0][:14], said), (words, 0, b"Makes captures", ""))
    for asks in ("-h", "--help"):
        run = subprocess.run([CAPTURE.with_name("controller"), asks], stdout=subprocess.PIPE, stderr=subprocess.PIPE, timeout=SECONDS)
        same((run.returncode, run.stdout[:11], run.stderr), (0, b"controller ", b""))
