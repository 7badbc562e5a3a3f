"""What crates/abi exports to C: crates/abi_c, of which the library is made, include/sel.h and rust/ipmi-sel/src/ffi.rs declare that, name by name
and type by type, the first under the same contracts, and their sizes are those of the definitions."""
import re

ABI, LIBRARY, HEADER, RUST = 'crates/abi/src', 'crates/abi_c/src', 'include/sel.h', 'rust/ipmi-sel/src'
# The answer of most functions stands where the flat form is.
STRUCTS = 'crates/flat_form/src'
C = {'u8': 'uint8_t', 'u16': 'uint16_t', 'u32': 'uint32_t', 'usize': 'size_t'}
# The header's macro; file and name of the constant in Rust; file and name of the definition; and how many times that, where it is not once.
SIZES = [
    ('SEL_STORE', 'text.rs', 'STORE', 'crates/event_offset/specs/Fills.antt', 'store_room'),
    ('SEL_PLACES', 'text.rs', 'PLACES', 'crates/event_offset/specs/Places.antt', 'places'),
    ('SEL_EVENT_TEXT', 'text.rs', 'EVENT_ROOM', 'crates/event_offset/specs/Event.antt', 'event_room'),
    ('SEL_DATA_TEXT', 'text.rs', 'DATA_ROOM', 'crates/event_data/specs/DataText.antt', 'data_room'),
    ('SEL_TIME_TEXT', 'text.rs', 'TIME_ROOM', 'crates/storage/specs/Time.antt', 'time_room'),
    ('SEL_FLAT', 'flat.rs', 'MOST', 'crates/flat/specs/Sizes.antt', 'flat_room'),
    ('SEL_REQUEST', 'request.rs', 'MOST', 'crates/flat/specs/Sizes.antt', 'request_room'),
    ('SEL_KEPT', 'storage/sel/kept.rs', 'KEPT', 'crates/flat_writer/specs/Kept.antt', 'kept_room'),
    ('SEL_MESSAGE', 'events.rs', 'MESSAGE', 'crates/platform_event/specs/Message.antt', 'message_bytes'),
    # at most as many reads as a record has bytes, of two bytes each
    ('SEL_READS', 'parts.rs', 'READS', 'crates/field/specs/Lengths.antt', 'entry_bytes', 2),
]
# The bytes that each letter's answer needs: what the header says of them, with the names of the definitions.
LENGTHS = ('crates/field/specs/Lengths.antt', 'crates/platform_event/specs/Message.antt')
SAID = [
    'under {entry_bytes} for e, under {get_entry_bytes} for g, under {info_bytes} for i, under {allocation_bytes} for a, under {reserve_bytes} for r, under {clear_bytes} for c;',
    'over {info_bytes} for i, and never for the others',
    '{entry_bytes} for e, {get_entry_bytes} for g, {info_bytes} for i, {allocation_bytes} for a, {reserve_bytes} for r, {clear_bytes} for c; 0',
    'A record of the log, {entry_bytes} bytes or more',
    '1 with {entry_bytes} under {entry_bytes} bytes; 2 with the type',
    '1 with {get_entry_bytes} under {get_entry_bytes} bytes; then 2 and 3 as sel_entry',
    '1 with {allocation_bytes} under {allocation_bytes} bytes; then 4',
    '1 with {info_bytes} under {info_bytes} bytes, 8 over {info_bytes}',
    '1 with {reserve_bytes} under {reserve_bytes} bytes, then 9',
    '1 with {clear_bytes} where it is empty',
    '{entry_bytes} where it is 1, the record type where it is 2',
    '1 with {message_bytes} under {message_bytes} bytes, also for the forms of five and six bytes that the standard allows; then 8 over {message_bytes} bytes;',
]
# The numbers of refusals: what the header says of them, and the constants of Rust, with the names of the definitions.
NUMBERS = 'crates/field/specs/Handed.antt'
NAMED = ('0 accepted, {not_enough_data} too short, {unknown_type} unknown record type, {invalid_channel} invalid channel, {no_room} no room, {bad_capture} bad capture, '
         '{no_such_record} no such record, {too_long} too long, {no_reservation} a reservation of 0, {wrong_index} wrong index, {unnamed_version} no such version, '
         '{no_bytes} no bytes at once, {unreserved} no reservation, {next_differs} next ids differ, {no_such_part} no such part of a record, or an answer after the last;')
CONSTANTS = [
    ('TOO_SHORT', 'not_enough_data'), ('UNKNOWN_TYPE', 'unknown_type'), ('INVALID_CHANNEL', 'invalid_channel'), ('NO_ROOM', 'no_room'), ('BAD_CAPTURE', 'bad_capture'),
    ('NO_SUCH_RECORD', 'no_such_record'), ('TOO_LONG', 'too_long'), ('NO_RESERVATION', 'no_reservation'), ('WRONG_INDEX', 'wrong_index'),
    ('NO_BYTES', 'no_bytes'), ('UNRESERVED', 'unreserved'), ('NEXT_DIFFERS', 'next_differs'), ('NO_SUCH_PART', 'no_such_part'),
]
# The numbers of the versions: the header's macro, the constant of Rust, the definition.
VERSIONS = [('SEL_IPMI_1_5', 'IPMI_1_5', 'ipmi15'), ('SEL_IPMI_2_0', 'IPMI_2_0', 'ipmi20')]
VERSION = 'crates/connection/specs/Version.antt'
EXPORT = r'#\[unsafe\(no_mangle\)\]pub extern"C"fn (\w+)(?:<[^>]*>)?\(([^()]*)\)->(\w+)'
CLAUSE = r' ?((?:requires|ensures)(?: \w+)?)(?=\{)'
WIDTH = {'u8': 1, 'u16': 2, 'u32': 4, 'usize': 8}
MOST_RESULT = 16  # bytes: a result over these is handed back in another way on each machine


def bare(path):
    """A file of Rattle, C or Rust without comments."""
    return re.sub(r'(?s)//[^\n]*|/\*.*?\*/', ' ', path.read_text())


def tight(text):
    """The text with no space but between two words, and with no last comma."""
    return re.sub(r',([)}])', r'\1', re.sub(r'\s*([^\w\s])\s*', r'\1', ' '.join(text.split())))


def read(shape, text, file):
    """Every match of the shape, of which the text must be made."""
    left = re.sub(shape, '', text)
    if left or not text:
        raise ValueError(f'{file} cannot be read: {left[:80] or "nothing is declared"}')
    return [m.groups() for m in re.finditer(shape, text)]


def parameter(text):
    """A parameter in C, in Rust, and as Rust hands it over; a slice is a pointer and a length."""
    m = re.fullmatch(r"(\w+):(?:&(?:'\w+ ?)?(mut)?\[(u8|u16)\]|(u8|u16|u32|usize))", text)
    if not m:
        raise ValueError(f'{ABI} cannot be read: parameter {text}')
    name, mut, item, kind = m.groups()
    if kind:
        return f'{C[kind]} {name}', f'{name}:{kind}', name
    return (f'{"" if mut else "const "}{C[item]}*{name},size_t {name}_length', f'{name}:*{mut or "const"} {item},{name}_length:usize',
            f'{name}.as_{"mut_" if mut else ""}ptr(),{name}.len()')


def size(kinds):
    """The bytes of a struct of these fields, as C lays it out where size_t has eight."""
    at = 0
    for kind in kinds:
        at += -at % WIDTH[kind] + WIDTH[kind]
    return at + -at % max(WIDTH[kind] for kind in kinds)


def exported(root):
    """{name: declaration} in the header, of the structs in ffi.rs and of its functions, and {name: call} in ffi.rs, as they must be."""
    code = ''.join(tight(bare(f)) for place in (ABI, STRUCTS) for f in sorted((root / place).rglob('*.rt')))
    structs = re.findall(r'#\[repr\(C\)\](?:#\[derive\([^()]*\)\])?pub struct (\w+)\{([^{}]*)\}', code)
    functions = re.findall(EXPORT, code)
    if not functions or (len(functions), len(structs)) != (code.count('no_mangle'), code.count('repr(')):
        raise ValueError(f'{ABI} cannot be read: {len(functions)} functions and {len(structs)} structs of those marked')
    header, rust_structs, rust, calls = {}, {}, {}, {}
    for name, fields in structs:
        if size([kind for _, kind in read(r'pub (\w+):(u8|u16|u32|usize)(?:,|$)', fields, ABI)]) > MOST_RESULT:
            raise ValueError(f'{ABI}: {name} has over {MOST_RESULT} bytes')
        listed = ''.join(f'{C[kind]} {field};' for field, kind in read(r'pub (\w+):(u8|u16|u32|usize)(?:,|$)', fields, ABI))
        header[name] = f'typedef struct {name}{{{listed}}}{name}'
        rust_structs[name.removeprefix('Sel')] = f'#[repr(C)]pub(crate)struct {name.removeprefix("Sel")}{{{fields}}}'
    for name, parameters, result in functions:
        if result not in C and result not in header:
            raise ValueError(f'{ABI} cannot be read: {name} hands back {result}')
        in_c, in_rust, given = (','.join(x) for x in zip(*map(parameter, parameters.split(','))))
        header[name] = f'{C.get(result, result)} {name}({in_c})'
        rust[name] = f'pub fn {name}({in_rust})->{result.removeprefix("Sel")}'
        calls[name] = f'library::{name}({given})'
    return header, rust_structs, rust, calls


def block(code, i):
    """The place after the bracket that closes the one at i."""
    depth = 0
    while True:
        depth += (code[i] == '{') - (code[i] == '}')
        i += 1
        if not depth:
            return i


def promised(root, place):
    """{name: declaration, clauses, where what the clauses cite comes from, and body} of each function that a crate exports."""
    found, marked = {}, 0
    for file in sorted((root / place).rglob('*.rt')):
        code = tight(bare(file))
        marked += code.count('no_mangle')
        cited = {name.split(' as ')[-1]: f'{path}.{name}' for path, names in re.findall(r'ghost use ([\w.]+)\.\{([^{}]*)\};', code) for name in names.split(',')}
        for m in re.finditer(EXPORT, code):
            i, clauses = m.end(), ''
            while w := re.compile(CLAUSE).match(code, i):
                i = block(code, w.end())
                clauses += code[w.start():i]
            found[m.group(1)] = (f'{m.group(1)}({m.group(2)})->{m.group(3)}', clauses, {n: cited.get(n) for n in re.findall(r"[\w']+", clauses)}, code[i:block(code, i)])
    if len(found) != marked:
        raise ValueError(f'{place} cannot be read: {len(found)} functions of those marked')
    return found


def library_faults(root):
    """The crate of which the library is made exports each function of the other, under the same contract, and does nothing but call it."""
    abi, library = promised(root, ABI), promised(root, LIBRARY)
    yield from (f'{LIBRARY} leaves out {name}' for name in abi if name not in library)
    yield from (f'{LIBRARY}: {name} is not in {ABI}' for name in library if name not in abi)
    for name in (n for n in library if n in abi):
        (declared, clauses, cited, _), (found, said, meant, body) = abi[name], library[name]
        given = re.findall(r'(?:^|,)(\w+):', declared[declared.index('(') + 1:declared.rindex(')')])
        if found != declared:
            yield f'{LIBRARY}: {found} must be {declared}'
        if said != clauses:
            yield f'{LIBRARY}: {name} promises {said.strip()}, and in {ABI} {clauses.strip()}'
        yield from (f'{LIBRARY}: {name} cites {x} of {meant[x]}, and {ABI} of {cited[x]}' for x in cited if x in meant and meant[x] != cited[x])
        if body != '{abi::' + f'{name}({",".join(given)})' + '}':
            yield f'{LIBRARY}: {name} is {body}, and must call the function of {ABI} with what it is given'


def differing(file, found, must):
    """What is found and is not as it must be."""
    for text, name in found:
        if text != must.get(name):
            yield f'{file}: {text} must be {must[name]}' if name in must else f'{file}: {name} is not exported'


def missing(file, found, must):
    yield from (f'{file} leaves out {name}' for name in must if name not in [n for _, n in found])


def header_faults(root, must):
    text = re.sub(rf'(?m)^#define (?:{"|".join(s[0] for s in SIZES)}) \d+ *$', '', bare(root / HEADER))
    text = re.sub(rf'(?m)^#define (?:{"|".join(v[0] for v in VERSIONS)}) 0x[0-9A-F]{{2}} *$', '', text)
    frame = r'#ifndef SEL_H#define SEL_H(?:#include<[\w.]+>)*#ifdef __cplusplus extern"C"\{#endif (.*)#ifdef __cplusplus\}#endif#endif'
    [(body,)] = read(frame, tight(text), HEADER)
    found = read(r'(typedef struct \w+\{[^{}]*\}(?=\w)|[\w ]+ (?=\w+\())(\w+)(\([^()]*\))?;', body, HEADER)
    found = [(kind + name + parameters if parameters else kind + name, name) for kind, name, parameters in found]
    yield from differing(HEADER, found, must)
    yield from missing(HEADER, found, must)


def ffi_faults(root, structs, functions, calls):
    """ffi.rs need not declare every function."""
    file = f'{RUST}/ffi.rs'
    code = tight(bare(root / file))
    found = re.findall(r'((?:#\[[^]]*\])*pub\(crate\)struct (\w+)\{[^{}]*\})', code)
    yield from differing(file, found, structs)
    yield from missing(file, found, structs)
    blocks = re.findall(r'extern"C"\{([^{}]*)\}', code)
    yield from differing(file, read(r'(pub fn (\w+)\([^()]*\)(?:->\w+)?);', ''.join(blocks), file), functions)
    called = re.findall(r'(library::(\w+)\((?:[^()]|\(\))*\))', code)
    yield from differing(file, called, calls)
    if (len(found), len(blocks), len(called)) != (code.count('struct '), code.count('extern'), code.count('library::')):
        yield f'{file} cannot be read: a struct, extern or library:: of another form'


def size_faults(root):
    for macro, file, constant, spec, name, *times in SIZES:
        found = re.findall(rf'(?m)^{name} = (\d+)$', (root / spec).read_text() if (root / spec).is_file() else '')
        if len(found) != 1:
            yield f'{spec}: no line {name} = a number'
            continue
        for n in times:
            found, name = [str(n * int(found[0]))], f'{n} * {name}'
        said = {
            f'{HEADER}: {macro}': re.findall(rf'(?m)^#define {macro} (\d+) *$', bare(root / HEADER)),
            f'{RUST}/{file}: {constant}': re.findall(rf'(?m)^(?:pub(?:\(crate\))? )?const {constant}: usize = (\d+);$', bare(root / RUST / file)),
        }
        yield from (f'{at} is {" and ".join(numbers) or "no number"}, and {name} is {found[0]}' for at, numbers in said.items() if numbers != found)
        for number in re.findall(rf'\b{macro} \((\d+)\)', (root / HEADER).read_text()):
            if number != found[0]:
                yield f'{HEADER}: a comment says {macro} ({number}), and {name} is {found[0]}'


def number_faults(root):
    """The header's comments name the lengths and the numbers of the definitions, and so do the constants of Rust."""
    lengths = dict(re.findall(r'(?m)^(\w+_bytes) = (\d+)$', ''.join((root / file).read_text() for file in LENGTHS)))
    numbers = dict(re.findall(r'(?m)^(\w+)(?: \w+)? = handed (\d+) ', (root / NUMBERS).read_text()))
    header = ' '.join((root / HEADER).read_text().replace('\n *', ' ').split())
    for said in (NAMED, *SAID):
        if said.format(**lengths, **numbers) not in header:
            yield f'{HEADER} does not say: {said.format(**lengths, **numbers)}'
    file = f'{RUST}/refusal.rs'
    constants = dict(re.findall(r'(?m)^(?:pub\(crate\) )?const (\w+): u32 = (\d+);$', bare(root / file)))
    yield from (f'{file}: {name} is {constants.get(name)}, and {definition} is {numbers[definition]}'
                for name, definition in CONSTANTS if constants.get(name) != numbers[definition])


def version_faults(root):
    """The numbers of the versions, in the header and in Rust, are those of the definition."""
    for macro, constant, name in VERSIONS:
        found = re.findall(rf'(?m)^{name} = (0x[0-9A-F]{{2}})$', (root / VERSION).read_text())
        said = {
            f'{HEADER}: {macro}': re.findall(rf'(?m)^#define {macro} (\w+) *$', bare(root / HEADER)),
            f'{RUST}/connection.rs: {constant}': re.findall(rf'(?m)^const {constant}: u8 = (\w+);$', bare(root / RUST / 'connection.rs')),
        }
        yield from (f'{at} is {" and ".join(numbers) or "no number"}, and {name} is {" and ".join(found)}' for at, numbers in said.items() if numbers != found or len(found) != 1)


def signature_faults(root):
    if not (root / 'crates/abi').is_dir():
        return
    try:
        header, structs, functions, calls = exported(root)
        yield from library_faults(root)
        yield from header_faults(root, header)
        yield from ffi_faults(root, structs, functions, calls)
        yield from size_faults(root)
        yield from number_faults(root)
        yield from version_faults(root)
    except (OSError, ValueError, KeyError) as fault:  # a file that is not there, or not of the form that is read here
        yield f'signatures: {fault}'
