#!/usr/bin/env python3
"""Lays out the store of event texts by the tables of specs/Tables.antt, writes crates/event_offset/src/store.rt, and says how many bytes it has.

Texts that are the same have one copy, a text that lies in a longer one lies there, and where the end of one text is the start of another they share it.
Nothing rests on this script: that every place holds its text is proved of what it writes. ./check sees that store.rt is what it writes.
"""
import re
import textwrap
from pathlib import Path

CRATE = Path(__file__).resolve().parent.parent / 'crates/event_offset'
OFFSETS = 16
COLUMNS = 99  # of a line of numbers, as rt fmt fills them


def classes(tables):
    """The texts of each row, in the order of the tables."""
    rows = re.findall(r'code = 0x[0-9a-fA-F]+;\s+texts =(.*?)\[\];', tables, re.S)
    return [re.findall(r'"([^"]*)"', row) for row in rows]


def shared(a, b):
    """The length of the longest end of a that b starts with."""
    return next(n for n in range(min(len(a), len(b)), -1, -1) if a.endswith(b[:n]))


def chains(texts):
    """The texts that lie in no other, each once, in chains in which each shares its end with the next: the longest ends first."""
    alone = [t for t in dict.fromkeys(texts) if t and not any(t != u and t in u for u in texts)]
    pairs = sorted((-shared(a, b), i, j) for i, a in enumerate(alone) for j, b in enumerate(alone) if i != j)
    next_of, first_of = {}, list(range(len(alone)))  # first_of[k]: the text with which the chain of text k starts
    for n, i, j in pairs:
        if n < 0 and i not in next_of and first_of[j] == j and first_of[i] != j:
            next_of[i] = j
            first_of = [first_of[i] if k == j else k for k in first_of]
    for k in sorted(set(first_of)):
        chain = alone[k]
        while k in next_of:
            chain += alone[next_of[k]][shared(alone[k], alone[next_of[k]]):]
            k = next_of[k]
        yield chain


def array(name, kind, numbers):
    lines = textwrap.fill(' '.join(f'{n},' for n in numbers), COLUMNS, initial_indent='    ', subsequent_indent='    ')
    return f'pub(crate) const {name}: [{kind}; {len(numbers)}] = [\n{lines}\n];\n'


def lay_out(tables):
    """The store, and the source that has it and its places."""
    texts = [t for row in classes(tables) for t in row + [''] * (OFFSETS - len(row))]
    parts = list(chains(texts))
    store = ''.join(parts)
    lines = '\\\n'.join('    ' + p for p in parts)
    return store, f'''// The texts of src/storage/sdr/event_offset.rs of ipmi-rs-core 0.6.0, changed: one store, and its 640 places, 40 classes by 16 offsets.
// Written by tools/lay_out_texts.py. Texts share their bytes where they can: a line of the store has one text or more.
// The classes are the rows of table 42-2 and then those of table 42-3; a place of length 0 has no text.
pub(crate) const STORE: [u8; {len(store)}] = *b"\\
{lines}";

{array('STARTS', 'u16', [store.index(t) for t in texts])}
{array('LENGTHS', 'u8', [len(t) for t in texts])}'''


if __name__ == '__main__':
    store, source = lay_out((CRATE / 'specs/Tables.antt').read_text())
    (CRATE / 'src/store.rt').write_text(source)
    print(f'crates/event_offset/src/store.rt: a store of {len(store)} bytes')
