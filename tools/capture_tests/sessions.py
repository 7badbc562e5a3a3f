"""tools/capture live: many asks a session, and what breaks one. With a script that stands in for ipmitool."""

import os
import pty
import resource

from common import PATIENCE, expect, record, same, test
from stand_in import Room, answer, at_once, chain, info, no_process_stays

MUCH = "while echo 00000000000000000000000000000000; do :; done"


@test
def a_session_for_the_whole_log():
    """The first question is asked alone; then there is one session, also for the looks."""
    script, text = chain(*range(1, 121))
    with Room(script) as room:
        room.ends({}, 0, "120 slots: ended", text, "walk=ended read=120")
        same((room.runs(), room.looks(), len(room.asked())), (["raw", "exec"], 3, 120))


BREAKS = {  # how a session breaks; asked alone, the controller answers
    "gone": "[ $mode = raw ] || kill -9 $$",
    "hangs": "[ $mode = raw ] || exec sleep 60",
    "words before the answer": "[ $mode = raw ] || echo Close Session command failed",
    "words on standard error": "[ $mode = raw ] || echo '?' >&2",
    "a line that is not ended": "[ $mode = raw ] || printf x",
    "an older mark": "[ $mode = raw ] || echo 'Given netfn \"capture-1\" is invalid.' >&2",
    "an older answer with its mark": f"[ $mode = raw ] || {{ {answer(0xFFFF, record(9))}; echo 'Given netfn \"capture-2\" is invalid.' >&2; sleep 0.3; }}",
    "a mark of its own": "[ $mode = raw ] || echo 'Given netfn \"capture-4\" is invalid.' >&2",
    "no answer": "[ $mode = raw ] || exit 1",
    "no byte": "[ $mode = raw ] || { echo; exit 1; }",
    "no completion code": "[ $mode = raw ] || { echo 'Unable to send RAW command (channel=0x0 netfn=0xa lun=0x0 cmd=0x43)' >&2; exit 1; }",
    "two refusals": "[ $mode = raw ] || for i in 1 2; do echo 'Unable to send RAW command (cmd=0x43 rsp=0xcb): ?' >&2; done",
    "too much": f"[ $mode = raw ] || {MUCH}",
}


def a_broken_session(case):
    """Broken at 0003h, which is then asked alone; what comes behind it has a new session."""
    name, words = case
    script, text = chain(*range(1, 7))
    script[3] = [f"{words}\n{script[3][0]}"]
    with Room(script) as room:
        try:
            status, said = room.run(before=["--seconds", str(PATIENCE)])
            same((status, room.text()), (0, text))
            same((room.runs(), room.asked()), (["raw", "exec", "raw", "exec"], [0, 2, 3, 3, 4, 5, 6]))
            no_process_stays(room)
        except AssertionError as error:
            raise AssertionError(f"{name}: {error}")


@test
def sessions_that_break():
    at_once(a_broken_session, BREAKS.items())


@test
def words_before_a_session():
    """Words on the way in, as ipmitool has them where a controller does not tell its cipher suites, are no answer and break nothing."""
    script, text = chain(1, 2, 3)
    with Room(script) as room:
        path = room.path / "ipmitool"
        path.write_text(path.read_text().replace("mode=$1\n", "mode=$1\necho 'Unable to Get Channel Cipher Suites' >&2\n"))
        room.ends({}, 0, "3 slots: ended", text, "walk=ended read=3")
        same(room.runs(), ["raw", "exec"])


@test
def a_session_that_is_late():
    """An answer that comes after its time is never taken for that of another ask: the session is gone by then."""
    script, text = chain(*range(1, 7))
    script[3] = [f"[ $mode = raw ] || {{ sleep {2 * PATIENCE}; {answer(0xFFFF, record(9))}; exit; }}\n{script[3][0]}"]
    with Room(script) as room:
        same((room.run(before=["--seconds", str(PATIENCE)])[0], room.text()), (0, text))


@test
def three_sessions_at_most():
    script, text = chain(*range(1, 9))
    for id, words in script.items():
        words[0] = f"{BREAKS['gone']}\n{words[0]}"
    with Room(script) as room:
        room.ends({}, 0, "8 slots: ended", text, "walk=ended read=8")
        same(room.runs(), ["raw", "exec", "raw", "exec", "raw", "exec", *["raw"] * 7])
    with Room(script, sessions=False) as room:
        room.ends({}, 0, "8 slots: ended", text, "walk=ended read=8")
        same(room.runs().count("exec"), 3)


@test
def refusals_in_a_session():
    """A completion code is an answer: it breaks nothing."""
    script, text = chain(1, 2, end=3)
    words = "echo 'Unable to send RAW command (channel=0x0 netfn=0xa lun=0x0 cmd=0x43 rsp=0x%s): words' >&2; exit 1"
    for code, status, says in (("cb", 0, "missing: no record 0003h"), ("d4", 1, "0003h was refused with completion code D4h")):
        with Room({**script, 3: [words % code]}) as room:
            room.ends({}, status, says, text, "walk=missing ask=0003 read=2")
            same((room.runs(), room.asked()), (["raw", "exec"], [0, 2, 3]))


@test
def no_terminal_to_be_had():
    """Without one there are no sessions; each ask is alone."""
    script, text = chain(1, 2, 3)
    with Room(script) as room:
        room.instead_of_pty("")
        room.ends({}, 0, "3 slots: ended", text, "walk=ended read=3")
        same(room.runs(), ["raw"] * 5)


@test
def words_without_end():
    """What ipmitool says is read up to a bound."""
    script, text = chain(1, 2, 3)
    for sessions in (True, False):
        with Room({**script, 3: [MUCH]}, sessions=sessions) as room:
            status, said = room.run(preexec_fn=lambda: resource.setrlimit(resource.RLIMIT_AS, (2 ** 29, 2 ** 29)))
            same((status, room.text()), (1, text[:118]))
            no_process_stays(room)
            expect("ipmitool said more for 0003h than any answer has" in said, said)


@test
def nobody_is_asked_for_a_password():
    """ipmitool has neither a terminal nor an input from which it could take one, alone or in a session."""
    script, text = chain(1, 2, 3)
    for id in (0, "info"):
        words = script[id][0] if id == 0 else info()
        script[id] = [f"[ \"$(cat <&3)\" = '' ] && ! (: </dev/tty) 2>/dev/null || echo ' ?'\n{words}"]
    with Room(script) as room:
        path = room.path / "ipmitool"
        path.write_text(path.read_text().replace("mode=$1\n", "mode=$1\nexec 3<&0\n"))
        ends = pty.openpty()
        status, said = room.run(preexec_fn=lambda: os.close(os.open(os.ttyname(ends[1]), os.O_RDWR)))  # the first terminal that is opened is its own
        same((status, room.text(), room.runs()), (0, text, ["raw", "exec"]))
        for end in ends:
            os.close(end)
