"""tools/capture from-raw, from-hex and to-raw."""

import os
import resource
import subprocess
import tempfile

from common import RECORD, RUN_CAPTURE, SECONDS, convert, examples, expect, log, made_from, printed_for, record, same, test, text_of


def records(*ids):
    return b"".join(map(record, ids))


def answers(*slots):
    """Answers in hexadecimal, of (next id, record id)."""
    return [(following.to_bytes(2, "little") + record(id)).hex() for following, id in slots]


# ---- files of records


@test
def raw_files_and_back():
    for path, parts, printed in examples():
        plain = b"".join(parts)
        status, capture, said = made_from("raw", "--plain", data=plain)
        same((path, status, said, printed_for(capture)), (path, 0, "", printed))
        same(convert("to-raw", "--plain", path), (0, plain, ""))
        # ipmitool has the maker's three bytes of an OEM record with a time the other way about
        turned = b"".join(part[:7] + part[7:10][::-1] + part[10:] if 0xC0 <= part[2] <= 0xDF else part for part in parts)
        same(made_from("raw", data=turned), (0, capture, ""))
        same(convert("to-raw", path), (0, turned, ""))
        expect(path.stem != "oem" or turned != plain, "no maker in", path)


@test
def raw_files_with_the_ids_of_a_log():
    same(made_from("raw", data=records(1, 2, 7, 0xFFFE)), (0, text_of(log(1, 2, 7, 0xFFFE)), ""))
    same(made_from("raw", data=records(0xFFFF, 1)), (0, text_of(log(0xFFFF, 1)), ""))


@test
def raw_files_whose_ids_make_no_chain():
    for ids in ([1, 2, 1, 2], [1, 1, 1], [5, 0], [1, 0xFFFF, 3], [0, 0], [0xFFFF, 0xFFFF]):
        status, capture, said = made_from("raw", data=records(*ids))
        *lines, verdict = printed_for(capture)
        same((status, [int(text[3:7], 16) for text in lines], verdict), (0, ids, f"walk=ended read={len(ids)}"))
        expect("places in the file" in said, said)


@test
def raw_files_that_are_cut():
    whole = records(1, 2, 3)
    same(made_from("raw", data=b""), (0, "", ""))
    for end in (1, 2, 15, 17, 31, 33, 47):
        status, capture, said = made_from("raw", data=whole[:end])
        last = printed_for(capture)[-1]
        same((end, status, last[:12], last.split()[-1]), (end, 1, "walk=missing", f"read={end // 16}"))
        expect(f"{end % 16} bytes after {end // 16} whole ones" in said, said)


@test
def raw_files_that_are_too_long():
    status, capture, said = made_from("raw", data=records(*range(1, 3003)))
    same((status, printed_for(capture)[-1]), (1, "walk=missing ask=0BB9 read=3000"))
    expect("what comes behind 3,000 records is left out" in said, said)
    status, capture, said = made_from("raw", data=RECORD * 70_000)
    same((status, printed_for(capture)[-1]), (1, "walk=missing ask=0BB8 read=3000"))


@test
def output_that_nobody_reads():
    read, write = os.pipe()
    os.close(read)
    with os.fdopen(write, "wb") as closed:
        run = subprocess.run([*RUN_CAPTURE, "from-raw", "-"], input=records(*range(1, 3001)), stdout=closed, stderr=subprocess.PIPE, timeout=SECONDS)
    same((run.returncode, run.stderr), (1, b""))


@test
def captures_that_do_not_end_to_raw():
    for end, says in ((2, "circle: 0002h"), (9, "missing: no record 0009h")):
        slots = [(7, 8, record(7)), *log(1, 2, 3, end=end), (3, 0xFFFF, record(3))]
        status, raw, said = convert("to-raw", "-", data=text_of(slots).encode())
        same((status, raw), (1, records(1, 2, 3)))
        expect(says in said and "2 slots are not in the chain" in said, said)
    for data in (b"ask=", b"?\n"):
        same(convert("to-raw", "-", data=data)[:2], (2, b""))


# ---- answers in hexadecimal


def made_from_answers(lines):
    return made_from("hex", data="\n".join(lines).encode("latin-1"))


@test
def hex_dumps():
    capture, lines = text_of(log(1, 2, 3)), answers((2, 1), (3, 2), (0xFFFF, 3))
    for form in (lines, [text.upper() for text in ["", *lines, ""]], [bytes.fromhex(text).hex(" ") + "\r" for text in lines]):
        same(made_from_answers(form), (0, capture, ""))
    same(made_from_answers([]), (0, "", ""))


@test
def hex_dumps_of_a_circle():
    status, capture, said = made_from_answers(answers((2, 1), (3, 2), (1, 3)) * 5000)
    same((status, capture, said), (0, text_of([*log(1, 2, 3, end=1), (1, 2, record(1))]), ""))
    same(printed_for(capture)[-1], "walk=circle read=4")


@test
def hex_dumps_that_change():
    """Of two answers for an id both are kept, and the first counts."""
    status, capture, said = made_from_answers(answers((2, 1), (3, 2), (2, 3), (0xFFFF, 2)))
    same((status, capture.count("ask=0002"), printed_for(capture)[-1]), (0, 2, "walk=circle read=4"))


@test
def hex_dumps_with_a_gap():
    status, capture, said = made_from_answers(answers((2, 1), (3, 2), (0xFFFF, 5)))
    same((status, printed_for(capture)[-1]), (0, "walk=missing ask=0003 read=2"))
    expect("0003h is named as next, and 0005h follows" in said, said)


@test
def hex_dumps_with_a_fault():
    first, second, third = answers((2, 1), (3, 2), (0xFFFF, 3))
    for lines, says in (([third[:-2]], "line 3 has 17 bytes"), ([third[:32], third[32:]], "join them"), (["00" + third], "completion code"),
                        ([third[:-1]], "line 3 is not"), (["\xa0" + third], "line 3 is not"), (["next"], "line 3 is not")):
        status, capture, said = made_from_answers([first, second, *lines, first])
        same((lines, status, capture), (lines, 1, text_of(log(1, 2, end=3))))
        expect(says in said, said)


@test
def hex_dumps_that_are_too_long():
    status, capture, said = made_from_answers(answers(*((id + 1, id) for id in range(1, 3003))))
    same((status, printed_for(capture)[-1]), (1, "walk=missing ask=0BB9 read=3000"))
    expect("what comes behind 3,000 answers is left out" in said, said)


# ---- more than any log has


@test
def files_without_end():
    """No more is read than a capture can need, and the rest is refused in one line."""
    answer, slot = answers((2, 1))[0] + "\n", text_of(log(1))
    for kind, word, status, says in (("from-raw", None, 1, "what comes behind 3,000 records is left out"), ("from-hex", answer, 1, "what comes behind 4,194,304 bytes is left out"),
                                     ("from-hex", None, 1, "what comes behind 4,194,304 bytes is left out"), ("to-raw", slot, 2, "over 3,000 slots"), ("to-raw", None, 2, "is no capture")):
        feed = subprocess.Popen(["yes", word.rstrip("\n")] if word else ["cat", "/dev/zero"], stdout=subprocess.PIPE)
        with feed, tempfile.TemporaryFile() as out:
            run = subprocess.run([*RUN_CAPTURE, kind, "-"], stdin=feed.stdout, stdout=out, stderr=subprocess.PIPE, timeout=SECONDS,
                                 preexec_fn=lambda: resource.setrlimit(resource.RLIMIT_AS, (2 ** 28, 2 ** 28)))
            feed.kill()
            last = run.stderr.decode().splitlines()[-1]
            same((kind, word, run.returncode), (kind, word, status))
            expect(says in last and b"Traceback" not in run.stderr and os.fstat(out.fileno()).st_size <= 3000 * 59, run.stderr)


@test
def a_file_without_end_that_is_gone_on_with():
    with tempfile.NamedTemporaryFile() as file:
        file.write(text_of(log(1, end=2)).encode() * 3001)
        file.truncate(2 ** 33)
        run = subprocess.run([*RUN_CAPTURE, "live", file.name], stderr=subprocess.PIPE, timeout=SECONDS, preexec_fn=lambda: resource.setrlimit(resource.RLIMIT_AS, (2 ** 28, 2 ** 28)))
        same((run.returncode, os.fstat(file.fileno()).st_size), (2, 2 ** 33))
        expect(b"over 3,000 slots" in run.stderr, run.stderr)
