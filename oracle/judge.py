"""What the port has to answer: the Rust's answer, and the model's where it has one. Where both have one, the model's mapped back by model.ported, and by nothing
else, must be the Rust's. The Rust has no versions, and its rule is that of 2.0: of a question with a version it is asked what follows, and under 1.5 its answer
is narrowed first, as channels 8h to Bh are reserved there. Nor has it a writer: of an entry to write, with the bytes that it keeps or without, it is asked what it
reads from the model's sixteen bytes, and of a record to write again what it reads from that. Nor has it event messages: of one to record it is asked what it
reads from the record, and of a record whose message is taken what it reads from that, on channel 0h, as none is tested there; the entry must have the fields of
the message. A request for a part of a record it never refuses, and where the model accepts one, both must say the same six bytes. Nor has it an index, nor
reads of a few bytes and the joining of their answers: there the model judges alone. wrong.py has what the questions of these, and of event messages, tell from
it."""

import sys

sys.dont_write_bytecode = True  # no __pycache__ beside the sources
import model
from rust import stop

BOTH = (*"=Qeygiarc",)  # the kinds of questions to the Rust that both answer
PANIC = "panic"


def on_channel_0(record):
    return record[:8] + bytes(byte & 0x0F for byte in record[8:9]) + record[9:]


# What is to be written, by its letter: from the bytes of the question the record that the Rust is asked about.
WRITERS = {"M": lambda data: model.written(data[2:15], data[15:]), "N": lambda data: model.written_with(data[2:7], data[7:]), "K": lambda data: data[2:],
           "P": lambda data: model.recorded(data[2:]), "O": lambda data: on_channel_0(data[2:])}


def put(question):
    """The question that the Rust is asked: without its version where that is a named one, of what is to be written the record, and else as it stands."""
    kind, _, digits = question.partition(" ")
    if kind in WRITERS and model.answer(question) != "?":
        return f"e {WRITERS[kind](bytes.fromhex(digits)).hex().upper()}"
    if kind not in model.VERSIONED or model.answer(question) in ("?", model.UNNAMED):
        return question
    return f"{model.VERSIONED[kind][0]} {digits[2:]}"


def narrowed(question, rust):
    """The Rust's answer as the question's version has it: under 1.5 an entry of the system on a channel 8h to Bh is refused."""
    kind, _, digits = question.partition(" ")
    if kind in model.VERSIONED and digits[:2] == "51" and rust[:2] == "0 ":
        flat = bytes.fromhex(rust[2:])[2 if kind == "G" else 0:]  # behind the next id
        if flat[0] == 0x00 and 0x8 <= flat[9] <= 0xB:
            return f"3 {flat[9]:02X}"
    return rust


def is_read_back(question, entry):
    """Whether an answer to e is the entry that an M asks to write, behind the room, or an N, behind what it keeps."""
    if entry[:2] != "0 ":
        return False
    data, flat = bytes.fromhex(question[2:]), bytes.fromhex(entry[2:])
    return model.asked_entry(flat) == data[2:] if question[0] == "M" else flat == data[7:]


def is_written_again(question, entry):
    """Whether a K is answered as an answer to e says: by the same refusal, or by the entry written, which if it is of the system keeps bytes of the record."""
    answer, record = model.answer(question), bytes.fromhex(question[2:])[2:]
    if entry[:2] != "0 ":
        return answer == entry
    flat = bytes.fromhex(entry[2:])
    asked = model.asked_entry(flat)
    again = model.written_with(model.kept_of(record), flat) if flat[0] == model.SYSTEM else model.written(asked[:13], asked[13:])
    return answer in ("0 " + again.hex().upper(), "4 0010")


def has_message(flat, generator, message):
    """Whether the fields of a system entry behind its time are those of generator bytes and of an event message."""
    e = model.Event(*flat[7:])
    revision, sensor, number, event, *data = message
    return e == e._replace(revision=revision, sensor=sensor, number=number, direction=event >> 7, event_type=event & 0x7F, **model.held(*generator, *data))


def is_recorded(question, entry):
    """Whether a P is answered as an answer to e of its record says: too short as well, by the same channel, or by a record with all that was given. What is
    longer the Rust takes: 8 is the model's alone."""
    answer, given = model.answer(question), bytes.fromhex(question[2:])[2:]
    if answer == "8":
        return entry[:2] in ("0 ", "3 ")
    if entry[:2] != "0 ":
        return model.ported(answer) == model.ported(entry)
    flat = bytes.fromhex(entry[2:])
    return answer in ("0 " + put(question)[2:], "4 0010") and flat[:7] == bytes([model.SYSTEM]) + given[:6] and has_message(flat, given[6:8], given[8:])


def is_taken(question, entry):
    """Whether an O is answered as an answer to e of its record says, on channel 0h: by the same refusal, by the type of an OEM entry, or by a message with the
    fields of the entry."""
    answer, record = model.answer(question), bytes.fromhex(put(question)[2:])
    if entry[:2] != "0 ":
        return answer == entry
    flat = bytes.fromhex(entry[2:])
    if flat[0] != model.SYSTEM:
        return answer == f"2 {flat[3]:02X}"
    return answer == "4 0007" or answer[:2] == "0 " and has_message(flat, record[7:9], bytes.fromhex(answer[2:]))


# The second way to say what is written: by the entry that the Rust reads. Of a K the bytes stay.
READ_BACK = {"K": is_written_again, "P": is_recorded, "O": is_taken}


def due(question, rust):
    """The answer that is due, by the Rust's to what is put to it. Where the two judges part, that is told, and all is stopped."""
    modelled, asked = model.answer(question), put(question)
    answer = rust if modelled is None else modelled
    if asked.partition(" ")[0] not in BOTH or is_panic(question, rust):
        return answer
    if question[0] in "MN":
        # the second way to say 7: model and Rust read the bytes alike, and not as that entry
        agree = model.answer(asked) == rust and is_read_back(question, rust) == (answer != "7")
    elif question[0] in READ_BACK:
        agree = READ_BACK[question[0]](question, due(asked, rust))
    elif question[0] == "Q":
        # the Rust has no such refusals; what is accepted, and what is no question, both say
        agree = answer == rust or answer in ("14", "16", "4 0006")
    else:
        # a bare 1 is the Rust's alone: the model says what was short, and with a version it says every refusal
        untold = answer == "1" or modelled is None and asked != question and rust[:2] != "0 "
        agree = not untold and model.ported(answer) == narrowed(question, rust)
    if not agree:
        stop(1, f"the Rust answers {rust}, and the model {modelled}: {question[:200]}")
    return answer


def fits(question, due, answered):
    """Whether an answer is the one that is due; of a lookup, with an index that is not right, one of those that are."""
    return answered in due.split(model.OR) if question[:2] == "F " else answered == due


def is_panic(question, rust):
    """An allocation answer of 8 bytes: the Rust tests for 8 and reads the ninth."""
    return rust == PANIC and question.startswith("a ") and len(question) == 2 + 2 * 8
