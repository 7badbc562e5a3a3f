#!/usr/bin/env python3
"""The floors of the crates, by crates.txt: floors.py prints them, highest first; floors.py --write puts them into docs/FLOORS.md.

A crate stands one floor above the highest of the crates of this repository that its line names; the toolchain's libraries do not count. --write
also takes rooms that are gone off the page's list, and adds new ones, with the first sentence of their source as words to begin with.
"""
import re
import sys
from pathlib import Path

PAGE, HEAD = 'docs/FLOORS.md', '    floor  rooms'


def named(root):
    """{crate: what its line of crates.txt names}. Beside the crate's name there may be words on it, as `staticlib`."""
    lines = [x.split('#')[0].partition(':') for x in (root / 'crates.txt').read_text().splitlines()]
    return {words.split()[0]: deps.split() for words, _, deps in lines if words.strip()}


def floors(crates):
    """The rooms of each floor, lowest first; crates that stand on themselves have none."""
    built, placed = [], set()
    while True:
        ready = [c for c in crates if c not in placed and all(d in placed for d in crates[c] if d in crates)]
        if not ready:
            return built
        built.append(ready)
        placed.update(ready)


def drawing(built):
    return [HEAD] + [f'    {n:>5}  {"  ".join(rooms)}' for n, rooms in reversed(list(enumerate(built, 1)))]


def split(page):
    """The page's lines before the drawing, the drawing, the lines up to the list of rooms, and that list, which ends the page: {room: its lines}."""
    lines = page.splitlines()
    start = next((k for k, x in enumerate(lines) if x == HEAD), len(lines))
    end = next((k for k in range(start, len(lines)) if not lines[k].startswith('    ')), len(lines))
    first = next((k for k in range(end, len(lines)) if lines[k].startswith('- `')), len(lines))
    rooms, room = {}, []
    for x in lines[first:]:
        m = re.match(r'- `(\w+)`:', x)
        room = rooms.setdefault(m.group(1), []) if m else room
        room.append(x)
    return lines[:start], lines[start:end], lines[end:first], rooms


def floor_faults(root):
    """What docs/FLOORS.md says otherwise than crates.txt."""
    crates, page = named(root), root / PAGE
    built = floors(crates)
    on_a_floor = {c for rooms in built for c in rooms}
    _, drawn, _, listed = split(page.read_text() if page.is_file() else '')
    yield from (f'crates.txt: {c} stands on itself' for c in crates if c not in on_a_floor)
    if drawn != drawing(built):
        yield f'{PAGE}: the drawing is not that of crates.txt (tools/floors.py --write makes it anew)'
    yield from (f'{PAGE}: no words on the room {c}' for c in crates if not re.match(r'- `\w+`: \S', listed.get(c, [''])[0]))
    yield from (f'{PAGE}: the room {c} is not there' for c in listed if c not in crates)


def first_words(root, crate):
    """A line of the list for a crate that has none."""
    source = next(f for f in (root / 'crates' / crate / 'src' / x for x in ('lib.rt', 'main.rt')) if f.is_file())
    said = re.match(r'// (.+?)(?:[.:;]\s|$)', source.read_text(), re.M)
    return f'- `{crate}`:' + (f' {said.group(1)[0].lower()}{said.group(1)[1:]}' if said else '')


def main(root, words):
    crates = named(root)
    built = floors(crates)
    if words == ['--write']:
        before, _, between, listed = split((root / PAGE).read_text())
        lines = [x for c in crates for x in listed.get(c) or [first_words(root, c)]]
        (root / PAGE).write_text('\n'.join(before + drawing(built) + between + lines) + '\n')
    elif words:
        sys.exit('usage: floors.py [--write]')
    else:
        print(*(x[4:] for x in drawing(built)), sep='\n')


if __name__ == '__main__':
    main(Path(__file__).resolve().parent.parent, sys.argv[1:])
