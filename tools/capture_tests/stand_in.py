"""A script that stands in for ipmitool, and a folder with it and a capture."""

import concurrent.futures
import contextlib
import os
import pathlib
import pty
import re
import signal
import subprocess
import tempfile
import time

from common import RUN_CAPTURE, SECONDS, expect, log, printed_for, same, text_of

NO_SUCH_RECORD = ("echo 'Unable to send RAW command (channel=0x0 netfn=0xa lun=0x0 cmd=0x43 rsp=0xcb):"
                  " Requested sensor, data, or record not found' >&2; exit 1")
RESERVE = "printf 0x%02x0x00 $times >reserved; printf ' %02x 00\\n' $times"  # another one each time

# Stands in for ipmitool. Answers as the file says that has the asked id for its name, or `info` or `reserve`, and .1 for the first time that it is asked,
# .2 for the second. $mode is `raw` for one ask, and `exec` for a session. $$ is the script itself. A part of a record is cut out of the answer for it. The
# file `limits`, where it is there, says by $most how many bytes of a record are answered at once, and by $code how more are refused. It can go by what is
# asked for, and change it: $id, $offset, $count, $times, which is how often that was asked for, and $parts, how many parts were asked for in all.
STAND_IN = """#!/bin/sh
cd "${0%/*}"
{ printf '%s\\n' "$@"; echo; } >>calls
refuse() {
    echo "Unable to send RAW command (channel=0x0 netfn=0xa lun=0x0 cmd=0x43 rsp=0x$1): words" >&2
    exit 1
}
part() {
    said=" $1 $2"
    shift $((2 + offset))
    for byte; do [ $((count -= 1)) -ge 0 ] || break; said="$said $byte"; done
    echo "$said"
}
answer() {
    count= reserved=
    case "$1 $2 $3 $4 $5 $8 $9" in
    'raw 0x0a 0x40    ') id=info word=info ;;
    'raw 0x0a 0x42    ') id=reserve word=reserve ;;
    'raw 0x0a 0x43 0x00 0x00 0x00 0xff') id=${7#0x}${6#0x} word=$id offset=0 count=255 ;;
    'raw 0x0a 0x43 '*' 0x'*' 0x'*) id=${7#0x}${6#0x} reserved=$4$5 offset=$(($8)) count=$(($9)) word=$id+$offset+$count ;;
    *) echo "stand-in: $*" >&2; exit 3 ;;
    esac
    echo "$word" >>asked
    times=$(grep -cx "$word" asked)
    if [ -f limits ] && [ "$count" ]; then
        parts=$(grep -c + asked)
        . ./limits
        [ $count -le $most ] || refuse $code
    fi
    [ -z "$reserved" ] || [ "$reserved" = "$(cat reserved)" ] || refuse c5
    file=$times
    while [ ! -f "$id.$file" ]; do file=$((file - 1)); [ $file -gt 0 ] || exit 3; done
    if [ -f limits ] && [ "$count" ] || [ "$reserved" ]; then
        whole=$(. "./$id.$file") || exit 1
        part $whole
    else
        . "./$id.$file"
    fi
}
while [ "$1" != raw ] && [ "$1" != exec ]; do shift; done
mode=$1
if [ $mode = raw ]; then
    answer "$@"
elif [ ! -f no-sessions ]; then
    while read -r words; do
        set -- $words
        case $2 in
        capture-*) echo "Given netfn \\"$2\\" is invalid." >&2 ;;
        *) (answer "$@") ;;
        esac
    done <"$2"
fi
"""


def in_lines(data):
    """The words of the stand-in for bytes, in lines of sixteen, as ipmitool has it."""
    return "echo '" + "\n".join(" " + data[place:place + 16].hex(" ") for place in range(0, len(data), 16)) + "'"


def answer(following, record):
    return in_lines(following.to_bytes(2, "little") + record)


def info(entries=5, added=1000, erased=2000):
    """The answer to Get SEL Info."""
    return in_lines(b"\x51" + entries.to_bytes(2, "little") + bytes(2) + added.to_bytes(4, "little") + erased.to_bytes(4, "little") + b"\x0a")


def chain(*ids, end=0xFFFF):
    """A log of records with these ids: the stand-in's script, and the capture that it makes."""
    slots = log(*ids, end=end)
    return {ask: [answer(following, record)] for ask, following, record in slots}, text_of(slots)


def at_most(most, code="ca", also=""):
    """The limits of a controller that answers so many bytes of a record at once; and words that are carried out before each answer."""
    return f"most={most} code={code}\n{also}\n"


def notes(place="", first=(5, 1000, 2000, 0), last=(5, 1000, 2000, 0), most=None):
    """What stands beside a capture."""
    looks = "".join(f"{when}-{what}={value}\n" for when, look in (("first", first), ("last", last)) for what, value in zip(("entries", "added", "erased", "slots"), look))
    return f"written-by=capture live\n{place}{looks}" + (f"bytes={most}\n" if most else "")


class Room:
    """A folder with a stand-in and a capture."""

    def __init__(self, script=(), text=None, sessions=True, notes=None, limits=None):
        self.folder = tempfile.TemporaryDirectory()
        self.path = pathlib.Path(self.folder.name)
        self.file, self.notes = self.path / "capture.txt", self.path / "capture.txt.info"
        self.environment = {**os.environ, "PATH": f"{self.path}:{os.environ['PATH']}"}
        (self.path / "ipmitool").write_text(STAND_IN)
        (self.path / "ipmitool").chmod(0o755)
        if not sessions:
            (self.path / "no-sessions").touch()
        self.script({"info": [info()], "reserve": [RESERVE], **dict(script)})
        if limits is not None:
            self.limit(limits)
        if text is not None:
            self.file.write_text(text)
        if notes is not None:
            self.notes.write_text(notes)

    def __enter__(self):
        return self

    def __exit__(self, *_):
        for process in every_process_of(self):  # of a run that was killed; it may sleep, or speak on
            with contextlib.suppress(ProcessLookupError):
                os.kill(process, signal.SIGKILL)
        self.folder.cleanup()

    def script(self, script):
        """What is asked is answered by this script from now on, as if it were asked for the first time."""
        for id, answers in dict(script).items():
            name = id if isinstance(id, str) else f"{id:04x}"
            for old in self.path.glob(f"{name}.*"):
                old.unlink()
            before = self.ids().count(name)
            for times, words in enumerate(answers, 1):
                (self.path / f"{name}.{times + before}").write_text(words + "\n")
            (self.path / f"{name}.1").write_text(answers[0] + "\n")

    def limit(self, limits):
        (self.path / "limits").write_text(limits)

    @contextlib.contextmanager
    def started(self, *options, before=(), **more):
        with subprocess.Popen([*RUN_CAPTURE, "live", *before, self.file, *options], env=self.environment, stdin=subprocess.DEVNULL, stdout=subprocess.PIPE,
                              start_new_session=True, **{"stderr": subprocess.PIPE, **more}) as process:
            try:
                yield process
            finally:
                with contextlib.suppress(ProcessLookupError):
                    os.killpg(process.pid, signal.SIGKILL)  # what does not end must not keep the tests waiting

    def run(self, *options, **more):
        with self.started(*options, **more) as process:
            out, said = process.communicate(timeout=SECONDS)
        expect(out == b"" and b"Traceback" not in said, "printed", out, said)
        return process.returncode, said.decode()

    def instead_of_pty(self, words):
        """Has these words carried out where tools/capture imports pty; there are no sessions then."""
        (self.path / "pty.py").write_text(f"{words}\ndef openpty():\n    raise OSError('out of pty devices')\n")
        self.environment["PYTHONPATH"] = str(self.path)

    def text(self):
        return self.file.read_text()

    def there(self):
        """The files beside the stand-in's own."""
        return sorted(path.name for path in self.path.glob("capture.txt*"))

    def ids(self):
        path = self.path / "asked"
        return path.read_text().split() if path.exists() else []

    def asked(self):
        """The ids of the records that were asked for whole."""
        return [int(id, 16) for id in self.ids() if re.fullmatch("[0-9a-f]{4}", id)]

    def parts(self):
        """Record, offset and count of each part that was asked for."""
        return [(int(id, 16), int(offset), int(count)) for id, offset, count in (word.split("+") for word in self.ids() if "+" in word)]

    def looks(self):
        return self.ids().count("info")

    def runs(self):
        """Of each run of the stand-in, whether it was one ask, or a session."""
        path = self.path / "calls"
        return [word for word in path.read_text().split() if word in ("raw", "exec")] if path.exists() else []

    def wait_for(self, asks, looks=0):
        end = time.monotonic() + SECONDS
        while len(self.asked()) < asks or self.looks() < looks:
            expect(time.monotonic() < end, "asked only for", self.ids())
            time.sleep(0.01)

    def ends(self, script, status, says, text, verdict):
        """A run over a script: its status, words of what it says, the capture that it leaves, and seldump's verdict on that."""
        self.script(script)
        got, said = self.run()
        same(got, status)
        expect(says in said.splitlines()[-1], "says", said)
        same(self.text(), text)
        same(printed_for(self.text())[-1], verdict)
        return said

    def refuses(self, *says, options=(), status=2):
        """A run that is refused, with these words in one line, and that leaves all files as they are."""
        before = {name: (self.path / name).read_bytes() for name in self.there()}
        got, said = self.run(*options)
        same((got, {name: (self.path / name).read_bytes() for name in self.there()}), (status, before))
        for words in says:
            expect(words in said.splitlines()[-1], "says", said, "and not", words)


def said_on_a_terminal(room):
    read, write = pty.openpty()
    with room.started(stderr=write) as process:
        os.close(write)
        said = b""
        with contextlib.suppress(OSError):  # the end of a terminal
            while data := os.read(read, 1000):
                said += data
    os.close(read)
    return said.decode()


def every_process_of(room):
    """The processes that run the stand-in of a room, or what it has started."""
    found = []
    for path in pathlib.Path("/proc").glob("[0-9]*"):
        with contextlib.suppress(OSError):
            if os.readlink(path / "cwd") == str(room.path.resolve()):
                found.append(int(path.name))
    return found


def no_process_stays(room, seconds=5):
    """What was killed may take a moment to be gone."""
    end = time.monotonic() + seconds
    while every_process_of(room):
        expect(time.monotonic() < end, "processes stay:", every_process_of(room))
        time.sleep(0.05)


def at_once(check, cases):
    """What the check gives for each case, several at a time: most of it is waiting."""
    with concurrent.futures.ThreadPoolExecutor(4) as several:
        return [*several.map(check, cases)]
