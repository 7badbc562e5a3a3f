"""What the tests of tools/capture share."""

import contextlib
import os
import pathlib
import shutil
import subprocess
import sys

ROOT = pathlib.Path(__file__).resolve().parent.parent.parent
CAPTURE = ROOT / "tools/capture"
RUN_CAPTURE = [sys.executable, "-S", CAPTURE]  # it needs nothing but python's own library, and starts sooner so
SECONDS = 120  # for one run
PATIENCE = 4  # seconds for an ask, where one hangs: more than an answer takes on a busy machine
RECORD = bytes.fromhex("010002E8030000200004013001595A55")  # that of the case in docs/SCOPE.md
TESTS = []


def test(function):
    """Adds a test, which its name describes. It fails by raising."""
    TESTS.append(function)
    return function


def expect(condition, *what):
    if not condition:
        raise AssertionError(" ".join(str(part) for part in what))


def same(stands, must):
    if stands != must:
        stands, must = repr(stands), repr(must)
        begin = max(len(os.path.commonprefix([stands, must])) - 80, 0)
        raise AssertionError(f"is ...{stands[begin:begin + 400]}, must be ...{must[begin:begin + 400]}")


def record(id):
    return id.to_bytes(2, "little") + RECORD[2:]


def line(ask, following, record):
    return f"ask={ask:04X} next={following:04X} record={record.hex().upper()}\n"


def log(*ids, end=0xFFFF):
    """The slots of a log of records with these ids, the last of which names the end as next."""
    return [*zip([0, *ids[1:]], [*ids[1:], end], map(record, ids))]


def text_of(slots):
    return "".join(line(*slot) for slot in slots)


def printed_for(capture):
    """The lines that seldump prints for a capture; its status may tell how the log ends."""
    run = subprocess.run([ROOT / "seldump"], input=capture.encode(), stdout=subprocess.PIPE, timeout=SECONDS)
    expect(run.returncode in (0, 3, 4, 5), "seldump ends with status", run.returncode)
    return run.stdout.decode().splitlines()


def replayed(questions):
    """The answers of the program `replay`, which ./check has built by now: run as it is, or with the toolchain's own C library."""
    program = ROOT / "crates/replay/out/replay"
    expect(program.exists(), "no crates/replay/out/replay; build it: (cd crates/replay && rt run </dev/null)")
    commands = [[program]]
    if shutil.which("rt"):
        kit = pathlib.Path(subprocess.check_output(["rt", "doc"], text=True).strip()).parent / "toolchain/lib"
        commands.append([kit / "ld-linux-x86-64.so.2", "--library-path", kit, program])
        commands.append(["qemu-x86_64", *commands[-1]])
    asked = "".join(f"{question}\n" for question in questions).encode()
    for command in commands:
        with contextlib.suppress(OSError):
            run = subprocess.run(command, input=asked, stdout=subprocess.PIPE, stderr=subprocess.DEVNULL, timeout=SECONDS)
            if run.returncode == 0:
                answers = run.stdout.decode().splitlines()
                same(len(answers), len(questions))
                return answers
    raise AssertionError("crates/replay/out/replay does not run here")


def convert(*words, data=b""):
    """Status, standard output and standard error of tools/capture."""
    run = subprocess.run([*RUN_CAPTURE, *words], input=data, stdout=subprocess.PIPE, stderr=subprocess.PIPE, timeout=SECONDS)
    expect(b"Traceback" not in run.stderr, run.stderr)
    return run.returncode, run.stdout, run.stderr.decode()


def made_from(kind, *options, data):
    """Status, capture and standard error of a capture made from these data."""
    status, out, said = convert(f"from-{kind}", *options, "-", data=data)
    return status, out.decode(), said


def examples():
    """Of each capture in examples/ that ends: its path, the records in the order of the log, and what must be printed for them."""
    for path in sorted((ROOT / "examples").glob("*.out")):
        printed = path.read_text().splitlines()
        if printed[-1].startswith("walk=ended"):
            slots = {text[4:8]: (text[14:18], bytes.fromhex(text[26:58])) for text in reversed(path.with_suffix(".txt").read_text().splitlines())}
            ask, records = "0000", []
            while ask != "FFFF":
                ask, data = slots[ask]
                records.append(data)
            yield path.with_suffix(".txt"), records, printed
