"""Respells the repository's own definitions, lemmas, fields and constructors of antt in snake case, as today's Rattle spells them.

usage: snake_names.py ROOT        renames in crates/ below ROOT, in place
       snake_names.py ROOT --show  prints old and new names and what falls together, and writes nothing

A name is ours if a file of specs/ or proofs/ declares it, the files of a function's own proof aside. `camelCase` becomes `camel_case` and
`of-words` becomes `of_words`; names of types, which begin with a capital, stay. Texts, Rust's functions and what Rattle makes keep their names.
"""
import re
import sys
from pathlib import Path

OWN_PROOF = re.compile(r'/proofs/.+/(Proof|Answers|Invariants)\.antt$')
DECLARED = re.compile(r"(?m)^ *(?:(?:abbrev|unfoldable) )?(?:pub )?([^\s(){}.;,@\"=]+) (?:\{[^}]*\} )*:(?= |$)")
# a text, a comment, or a token
PIECES = re.compile(r'"(?:\\.|[^"\\])*"|\{-(?s:.*?)-\}|(?<![^\s(){}.;,@"])--[^\n]*|[^\s(){}.;,@"⌜⌝]+|.|\n')
RUST = re.compile(r'//[^\n]*|b?"(?:\\.|[^"\\])*"|b?\'(?:\\.|[^\'\\])\'|[A-Za-z0-9_]+|.|\n')


def snake(name):
    name = re.sub(r'(?<=[a-z])(?=[A-Z])|(?<=[0-9])(?=[A-Z][a-z])', '_', name)
    return name.lower().replace('-', '_')


def antt_files(root):
    return sorted(p for p in root.glob('crates/*/*/**/*.antt') if p.relative_to(root).parts[2] in ('specs', 'proofs'))


def declared(root, folder):
    found = set()
    for p in antt_files(root):
        if p.relative_to(root).parts[2] == folder and not OWN_PROOF.search(str(p)):
            found |= set(DECLARED.findall(''.join(' ' if re.match(r'"|--|\{-', x) and x != '"' else x for x in PIECES.findall(p.read_text()))))
    return {n for n in found if re.fullmatch(r"[a-z][A-Za-z0-9_'-]*", n)}


def own_names(root):
    """{old: new}; also of what a binder or an `as` names. A lemma that would have the name of a definition gets `_lem`, also one that port.py spelled in snake case before."""
    said, proved = declared(root, 'specs'), declared(root, 'proofs')
    found = {n: snake(n) for n in said | proved if re.search('[A-Z]', n) and '-' not in n}
    for p in antt_files(root):
        for x in PIECES.findall(p.read_text()):
            if re.fullmatch(r'[a-z][A-Za-z0-9_]*', x) and re.search(r'[a-z0-9][A-Z]', x):
                found.setdefault(x, snake(x))
    for p in sorted(root.glob('crates/*/src/**/*.rt')):
        for x in RUST.findall(p.read_text()):
            if re.fullmatch(r'[a-z][A-Za-z0-9_]*', x) and re.search(r'[a-z0-9][A-Z]', x):
                found.setdefault(x, snake(x))
    taken = {found[n] for n in found if n in said | proved} | said
    found.update((n, snake(n) if n in said or snake(n) not in taken else snake(n) + '_lem') for n in said | proved if '-' in n)
    found.update((n, n + '_lem') for n in proved - said if n in set(found.values()) and n in SPELLED_BEFORE)
    return found


# Lemmas of which port.py made the dashes to underscores, and beside which a definition stands.
SPELLED_BEFORE = {'goes_on', 'few_bytes', 'too_many', 'valid_to', 'no_other', 'refused_as', 'written_entry', 'after_last', 'no_room', 'too_short'}


def in_comment(text, names):
    """In a comment a name in camel case is a name; words joined by a dash may be English, outside backticks."""
    camel = {a: b for a, b in names.items() if re.search('[A-Z]', a)}
    text = re.sub(r'[A-Za-z0-9_]+', lambda m: camel.get(m.group(0), m.group(0)), text)
    return re.sub(r'`[^`\n]+`', lambda m: re.sub(r"[A-Za-z0-9_'-]+", lambda w: names.get(w.group(0), w.group(0)), m.group(0)), text)


def in_antt(text, names):
    out, before = [], ''
    for x in PIECES.findall(text):
        if x.startswith('--') or x.startswith('{-'):
            out.append(in_comment(x, names))
        elif x.startswith('"') or (before == '.' and x in SPELLED_BEFORE):  # behind a dot stands a field or a module
            out.append(x)
        else:
            out.append(names.get(x, x))
        before = x
    return ''.join(out)


def in_rust(text, names):
    camel = {a: b for a, b in names.items() if '-' not in a and re.search('[A-Z]', a)}
    out = []
    for x in RUST.findall(text):
        if x.startswith('//'):
            out.append(in_comment(x, camel))
        else:
            out.append(camel.get(x, x))
    return ''.join(out)


def in_edit(text, names):
    """The lines of a must-fail edit: by the file that it changes."""
    lines = text.split('\n')
    antt = any(x.startswith('file: ') and x.endswith('.antt') for x in lines)
    change = in_antt if antt else in_rust
    return '\n'.join(x[:5] + change(x[5:], names) if re.match(r'old: |new: ', x) else in_comment(x, names) if x.startswith('#') else x for x in lines)


def fallen(root, names):
    """New names that stand in the tree already, or that two old ones share."""
    by_new = {}
    for a, b in names.items():
        by_new.setdefault(b, []).append(a)
    for b, olds in sorted(by_new.items()):
        if len(olds) > 1:
            yield f'{b}: {", ".join(sorted(olds))} fall together'
    for p in antt_files(root):
        used = set(PIECES.findall(p.read_text()))
        for b in sorted(used & set(by_new)):
            yield f'{p.relative_to(root)}: {b} stands there, and {", ".join(by_new[b])} becomes it{" (both in the file)" if used & set(by_new[b]) else ""}'
    for p in sorted(root.glob('crates/*/src/**/*.rt')):
        used = set(RUST.findall(p.read_text()))
        for b in sorted(used & set(by_new)):
            if used & set(by_new[b]):
                yield f'{p.relative_to(root)}: {b} stands there, and {", ".join(by_new[b])} becomes it (both in the file)'


def main(argv):
    root = Path(argv[0]).resolve()
    names = own_names(root)
    if argv[1:] == ['--show']:
        print(*(f'{a} {b}' for a, b in sorted(names.items())), sep='\n')
        print(*fallen(root, names), sep='\n')
        return
    for p in antt_files(root):
        p.write_text(in_antt(p.read_text(), names))
    for p in sorted(root.glob('crates/*/src/**/*.rt')):
        p.write_text(in_rust(p.read_text(), names))
    for p in sorted(root.glob('crates/*/must-fail/*.edit')):
        p.write_text(in_edit(p.read_text(), names))


if __name__ == '__main__':
    main(sys.argv[1:])
