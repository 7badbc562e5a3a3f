"""The quick tests of ./check over a tree: quick.py ROOT prints a line for each fault, and exits with 1 where there is one."""
import re
import sys
from itertools import takewhile
from pathlib import Path

sys.dont_write_bytecode = True
from floors import floor_faults, named
from lay_out_texts import lay_out
from signatures import signature_faults

# A crate whose functions are those of another under the same contracts, which tools/signatures.py sees: what the page states of the one it states of both.
AGAIN = {'abi_c': 'abi'}
# What the type of data is made of, beside the types that the code declares and records of data.
DATA = {'ℕ', 'Bool', 'List', 'Option', 'Result', 'String', 'Type', '→', '×'}


def blank(pattern, text):
    """The text with every match made blank, so that lines and columns stay."""
    return re.sub(pattern, lambda m: re.sub(r'[^\n]', ' ', m.group(0)), text)


def code_of(path):
    """Rattle source without comments and literals, and without the comments of the antt in its clauses."""
    return blank(r'(?s)//[^\n]*|/\*.*?\*/|\{-.*?-\}|(?<!\S)--[^\n]*|"(?:\\.|[^"\\])*"|b\'(?:\\.|[^\'\\])\'', path.read_text())


def antt_of(path):
    """antt source without comments and texts."""
    return blank(r'(?s)"(?:\\.|[^"\\])*"|\{-.*?-\}|(?<![^\s(){}.;,@"])--[^\n]*', path.read_text())


def closing(code, i, pair):
    """The place after the bracket that closes the one at i."""
    depth = 0
    while i < len(code):
        depth += (code[i] == pair[0]) - (code[i] == pair[1])
        i += 1
        if depth == 0:
            break
    return i


# ---- functions and their clauses


def functions(code):
    """(line, name with its type, parameters, clauses by kind) of each `pub fn`, and of each `From` and `TryFrom` for a type of others."""
    impls = [(m.start(), closing(code, m.end() - 1, '{}'), m.group(1)) for m in re.finditer(r'\bimpl\b[^{;]*?(\w+)\s*(?:<[^>]*>)?\s*\{', code)]
    for m in re.finditer(r'\bpub\s+(?:(?:const|unsafe|extern)\s+)*fn\s+(\w+)\s*(<(?:->|<[^<>]*>|[^<>])*>)?\s*\(', code):
        name = '::'.join([t for start, end, t in impls if start < m.start() < end] + [m.group(1)])
        end = closing(code, m.end() - 1, '()')
        clauses, i = {'requires': '', 'ensures': ''}, end
        while i < len(code) and code[i] not in '{;':
            w = re.compile(r'(requires|ensures)\b[^{;]*\{').match(code, i)
            if w:
                i = closing(code, w.end() - 1, '{}')
                clauses[w.group(1)] += code[w.start():i]
            else:
                i = closing(code, i, '[]') if code[i] == '[' else i + 1
        yield code.count('\n', 0, m.start()) + 1, name, (m.group(2) or '') + code[m.end():end - 1], clauses
    # a conversion: what it gives is a ghost member, and a type that is not public has none for others
    for m in re.finditer(r'\bimpl\s+(Try)?From<[^{;]*>\s+for\s+(\w+)\s*\{', code):
        if re.search(rf'(?m)^(?:pub\(crate\) )?(?:enum|struct) {m.group(2)}\b', code):
            continue
        gives = re.search(r'\bghost (?:try_)?from_gives = \{', code[m.end():closing(code, m.end() - 1, '{}')])
        fn = 'try_from' if m.group(1) else 'from'
        yield code.count('\n', 0, m.start()) + 1, f'{m.group(2)}::{fn}', '', {'requires': '', 'ensures': gives.group(0) if gives else ''}


def lent_outputs(params, writers):
    """The parameters behind which a function can write: `&mut`, and a struct that holds one."""
    lent = re.findall(r"(\w+)\s*:\s*&\s*(?:'\w+\s+)?mut\b", params) + re.findall(r"&\s*(?:'\w+\s+)?mut\s+(self)\b", params)
    return lent + [p for p, t in re.findall(r'(\w+)\s*:\s*(\w+)', params) if t in writers]


def listed(root):
    """The exceptions that docs/STATEMENTS.md argues: {crate::function: line}."""
    page = root / 'docs/STATEMENTS.md'
    lines = page.read_text().splitlines() if page.is_file() else []
    return {m.group(1): n for n, x in enumerate(lines, 1) if (m := re.match(r'- `([\w:]+)` requires \S', x))}


def stated(root, crate):
    """The functions that docs/STATEMENTS.md lists under a crate's heading: {name: line}. Each item begins with their names and a colon."""
    page, names, inside = root / 'docs/STATEMENTS.md', {}, False
    lines = page.read_text().splitlines() if page.is_file() else []
    for n, x in enumerate(lines, 1):
        inside = x == f'## {crate}' if x.startswith('## ') else inside
        item = ' '.join([x] + [y.strip() for y in takewhile(lambda y: y.startswith('  '), lines[n:])])
        if inside and (m := re.match(r'- (`[\w:]+`(?:, `[\w:]+`)*): \S', item)):
            names.update((name, n) for name in re.findall(r'`([\w:]+)`', m.group(1)))
    return names


def stating_faults(root, crate):
    """Public functions that the page leaves out, and functions of the page that are not there."""
    base, said, there = root / 'crates' / crate / 'src', stated(root, crate) | stated(root, AGAIN.get(crate, crate)), set()
    public = set(re.findall(r'\bpub\s+mod\s+(\w+)', code_of(base / 'lib.rt')))
    for f in sorted(base.rglob('*.rt')):
        for n, name, _, _ in functions(code_of(f)):
            whole = '::'.join([p for p in f.relative_to(base).with_suffix('').parts if p in public] + [name])
            there.add(whole)
            if whole not in said:
                yield f'{f.relative_to(root)}:{n}: docs/STATEMENTS.md does not state {crate}::{whole}'
    yield from (f'docs/STATEMENTS.md:{n}: {crate}::{x} is stated, and is not there' for x, n in said.items() if x not in there)


def source_faults(root, crate, met):
    argued = listed(root)
    files = {f: code_of(f) for f in sorted((root / 'crates' / crate / 'src').rglob('*.rt'))}
    writers = {m.group(1) for code in files.values() for m in re.finditer(r"\bstruct\s+(\w+)\s*<[^>]*>\s*[({][^})]*&\s*'\w+\s+mut\b", code)}
    for f, code in files.items():
        for n, name, params, clauses in functions(code):
            at = f'{f.relative_to(root)}:{n}: pub fn {name}'
            lent = lent_outputs(params, writers)
            if not clauses['ensures']:
                yield f'{at} has no ensures'
            for p in lent:
                if not re.search(rf'(?<![\w.])(?:«{p}»|{p})\.new\b', clauses['ensures']):
                    yield f'{at}: no clause names {p}.new'
            if clauses['requires']:
                met.add(f'{crate}::{name}')
                if f'{crate}::{name}' not in argued:
                    yield f'{at} has a requires that docs/STATEMENTS.md does not list'
                elif not (re.fullmatch(r'(\w+::)*put(_\w+)?', name) and lent) and not re.search(r'<[^>]*:\s*Fn(Mut|Once)?\(', params):
                    yield f'{at} has a requires and is no part writer, and takes no function'


# ---- records that claim something


def indent(line):
    return len(line) - len(line.lstrip())


def declarations(lines):
    """(line number, indent, name, type) of each signature, its further lines joined; `pub` or not."""
    for k, line in enumerate(lines):
        m = re.match(r' *(?:abbrev |unfoldable )?(pub )?([^\s(){}]+) (?:\{[^}]*\} )?:(?: |$)(.*)', line)
        if not m or m.group(2) in ('use', 'record', 'module', 'mod', 'data', 'let'):
            continue
        whole = m.group(3)
        for more in lines[k + 1:]:
            if more.strip() and indent(more) <= indent(line):
                break
            whole += ' ' + more.strip()
        yield k, bool(m.group(1)), m.group(2), whole.strip()


def records(antt):
    """(name, types of its fields) of each record, also in a section."""
    lines = antt.split('\n')
    for k, line in enumerate(lines):
        m = re.match(r' *(?:pub )?record ([^\s({]+)', line)
        if not m:
            continue
        start = next((j for j in range(k, len(lines)) if re.search(r'(?<!\S)where\s*$', lines[j])), len(lines) - 1)
        end = next((j for j in range(start + 1, len(lines)) if lines[j].strip() and indent(lines[j]) <= indent(line)), len(lines))
        yield m.group(1), [t for _, _, _, t in declarations(lines[start + 1:end])]


def cases(antt):
    """The types of the cases of each `data`."""
    lines = antt.split('\n')
    for k, line in enumerate(lines):
        if re.match(r'(?:pub )?data \S', line):
            start = next(j for j in range(k, len(lines)) if re.search(r'(?<!\S)where\s*$', lines[j]))
            yield from (t for _, _, _, t in declarations(list(takewhile(lambda x: not x.strip() or indent(x), lines[start + 1:]))))


def of_data(kind, known):
    return all(w in known for w in re.findall(r'[^\s(){}]+', kind))


def claims(root):
    """(crate, name, fields) of each record of specs/ whose fields are not all data; and the names of which data is made."""
    found, made, known = [], [], set(DATA)
    for f in sorted((root / 'crates').glob('*/specs/**/*.antt')):
        antt = antt_of(f)
        found += [(f.relative_to(root).parts[1], name, fields) for name, fields in records(antt)]
        made += [(name, re.findall(r' : (.*)', cases)) for name, cases in re.findall(r'(?m)^(?:pub )?data (\S+) : Type 0 where\n((?:  \S.*\n?)+)', antt)]
        made += [(name, [kind]) for name, kind in re.findall(r'(?m)^abbrev (?:pub )?(\S+) : Type 0\n\1 = (.*)', antt)]
        for m in re.finditer(r'(?m)^use \S*\.declared\.\S*\.\{([^}]*)\}', antt):
            known |= {n.split(' as ')[-1].strip() for n in m.group(1).split(',')}
    while True:  # a record of data is data for the next, and so is what is made of data alone
        claiming = [r for r in found if not all(of_data(t, known) for t in r[2])]
        more = {name for _, name, _ in found} - {name for _, name, _ in claiming}
        more |= {name for name, kinds in made if all(of_data(t, known | {name}) for t in kinds)}
        if not more - known:
            return claiming, known
        known |= more


def parameters(lines, k):
    """The types of the parameters of the sections that line k stands in."""
    depth = indent(lines[k])
    for line in reversed(lines[:k]):
        if line.strip() and indent(line) < depth:
            depth = indent(line)
            if re.match(r' *module ', line):
                yield from re.findall(r'[({][^:(){}]* : ([^(){}]*(?:\([^()]*\)[^(){}]*)*)[)}]', line)


def split_arrows(signature):
    parts, depth, start = [], 0, 0
    for i, c in enumerate(signature):
        depth += (c in '({') - (c in ')}')
        if c == '→' and depth == 0:
            parts.append(signature[start:i].strip())
            start = i + 1
    return parts, signature[start:].strip()


def proves(lines, name, known):
    """Whether a `pub` declaration has the record for its type, and nothing but data as parameters."""
    for k, is_pub, _, signature in declarations(lines):
        premises, result = split_arrows(signature)
        if is_pub and result.split()[:1] == [name]:
            named = [re.fullmatch(r'(?:[({][^:(){}]* : (.*)[)}]\s*)+', p) for p in premises]
            kinds = [t for p in premises for t in re.findall(r'[({][^:(){}]* : ((?:[^(){}]|\([^()]*\))*)[)}]', p)] + list(parameters(lines, k))
            if all(named) and all(of_data(t, known) for t in kinds):
                return True
    return False


def mentions(text, name):
    return re.search(rf'(?<![^\s({{]){re.escape(name)}(?![^\s)}}])', text)


def unproved_claims(root):
    claiming, known = claims(root)
    # a promise is proved of each function whose contract cites it; a premise and a notion that a definition uses claim nothing
    used = [re.sub(r'(?m)^ghost use [^;]*;', '', code_of(f)) for f in (root / 'crates').glob('*/src/**/*.rt')]
    used += [t.rpartition('→')[0] for _, _, fields in claiming for t in fields]
    used += [t.rpartition('→')[0] for f in (root / 'crates').glob('*/specs/**/*.antt') for t in cases(antt_of(f))]
    used += [m.group(1) for f in (root / 'crates').glob('*/specs/**/*.antt') for m in re.finditer(r'(?m)^[^\s:]+(?: [^:\n]*)? =((?:.*\n?)(?: +.*\n?)*)', antt_of(f))]
    proofs = {c: [antt_of(f).split('\n') for f in sorted((root / 'crates' / c / 'proofs').rglob('*.antt'))] for c, _, _ in claiming}
    left = [r for r in claiming if not any(mentions(text, r[1]) for text in used)]
    shown = [r for r in left if any(proves(p, r[1], known) for p in proofs[r[0]])]
    for r in shown:  # what a proved record holds is proved with it
        shown += [x for x in left if x not in shown and any(mentions(t, x[1]) for t in r[2])]
    for crate, name, _ in (r for r in left if r not in shown):
        yield f'crates/{crate}: specs/ states {name}, and proofs/ has no pub declaration of that type over data alone'


# ---- the rest


def file_faults(root, crate):
    base = root / 'crates' / crate
    for f in sorted(base.rglob('*.antt')):
        for n, x in enumerate(antt_of(f).split('\n'), 1):
            if re.search(r'(?<![^\s(){}\[\],;=])\?\w*(?![^\s(){}\[\],;])', x):
                yield f'{f.relative_to(root)}:{n}: a hole'
    for f in sorted(base.rglob('*.edit')):
        head = (f.read_text().splitlines() + ['', ''])[:2]
        if f.parent != base / 'must-fail':
            yield f'{f.relative_to(root)}: no edit that is tried stands here'
        if not re.match(r'# \S+ \S+', head[0]) or head[0].startswith('# refused: ') or not re.match(r'# refused: \S+ \S+ \S+', head[1]):
            yield f'{f.relative_to(root)}: does not begin with its two comment lines'


def wide_lines(root):
    """Lines of the pages over 120 columns, and table rows over 160. Code may be wider, and so may a line of one word, as a link."""
    for f in filter(Path.is_file, [root / 'README.md', *sorted((root / 'docs').glob('*.md'))]):
        before, code, fenced = '', False, False
        for n, x in enumerate(f.read_text().splitlines(), 1):
            fenced ^= x.startswith('```')
            code = x.startswith('    ') and (code or not before.strip())
            most = 160 if x.startswith('|') else 120
            if len(x) > most and not code and not fenced and ' ' in re.sub(r'^ *(- |\d+\. )?', '', x):
                yield f'{f.relative_to(root)}:{n}: {len(x)} columns, of at most {most}'
            before = x


def sample_faults(root):
    """Samples of README.md that are not what stands in examples/: a capture or entries, what seldump prints for the one, and what selmake makes of the others."""
    page = root / 'README.md'
    for command, name, shown in re.findall(r'(?m)^    \$ (cat|\./seldump|\./selmake) (\S+)\n((?:    [^$\n].*\n)*)', page.read_text() if page.is_file() else ''):
        shows = {'cat': (root / name).suffix, './seldump': '.out', './selmake': '.txt'}
        file = (root / name).with_suffix(shows[command])
        if not file.is_file() or re.sub(r'(?m)^    ', '', shown) != file.read_text():
            yield f'README.md: `{command} {name}` shows something else than {file.relative_to(root)}'


def pair_faults(root):
    """Pairs of records, one beside the other in a row of docs/SCOPE.md, that `replay` does not answer to have equal entries."""
    page, lines = root / 'docs/SCOPE.md', [root / 'crates/replay' / name for name in ('stdin', 'stdout')]
    pairs = re.findall(r'\| `([0-9A-F ]+)` \| `([0-9A-F ]+)` \|', page.read_text()) if page.is_file() else []
    answers = dict(zip(*(f.read_text(encoding='latin-1').split('\n') for f in lines))) if all(map(Path.is_file, lines)) else {}
    for pair in pairs:
        if answers.get('= ' + ''.join(pair).replace(' ', '')) != '0 01':
            yield f'docs/SCOPE.md: `{pair[0]}` and `{pair[1]}`: no answer of replay says that they have equal entries'


def store_faults(root):
    """A store of event texts that is not what tools/lay_out_texts.py lays out by the tables."""
    crate = root / 'crates/event_offset'
    if (crate / 'src/store.rt').is_file() and (crate / 'src/store.rt').read_text() != lay_out((crate / 'specs/Tables.antt').read_text())[1]:
        yield 'crates/event_offset/src/store.rt is not what tools/lay_out_texts.py writes'


def faults(root):
    names = set(named(root))
    there = {d.name for d in (root / 'crates').iterdir() if d.is_dir()}
    yield from (f'crates/{c} is not listed in crates.txt' for c in sorted(there - names))
    yield from (f'crates.txt lists {c}, which is not there' for c in sorted(names - there))
    met = set()
    for c in sorted(there):
        if (root / 'crates' / c / 'src/lib.rt').is_file():
            yield from source_faults(root, c, met)
            yield from stating_faults(root, c)
        yield from file_faults(root, c)
    yield from (f'docs/STATEMENTS.md:{n}: {x} is listed, and has no requires' for x, n in listed(root).items() if x not in met)
    yield from unproved_claims(root)
    yield from signature_faults(root)
    yield from floor_faults(root)
    yield from wide_lines(root)
    yield from sample_faults(root)
    yield from pair_faults(root)
    yield from store_faults(root)


if __name__ == '__main__':
    found = list(faults(Path(sys.argv[1]).resolve()))
    print(*found, sep='\n', end='\n' if found else '')
    sys.exit(bool(found))
