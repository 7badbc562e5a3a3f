"""Each quick test fails on a planted fault, and a tree without fault passes."""
import subprocess
import sys
import tempfile
from pathlib import Path

sys.dont_write_bytecode = True
sys.path.insert(0, str(Path(__file__).parent))
from gate import edit_fault
from lay_out_texts import lay_out
from quick import faults

LIB, EDIT = 'crates/a/src/lib.rt', 'crates/a/must-fail/x.edit'
SPEC, PROOF, PAGE, FLOORS = 'crates/a/specs/Lib.antt', 'crates/a/proofs/Lib.antt', 'docs/STATEMENTS.md', 'docs/FLOORS.md'
CLEAR = 'pub fn clear(s: &mut [u8]) -> u8\n    ensures { s.new ≡ s.old }\n{\n    0\n}\n'
PUT = 'pub fn put(s: &mut [u8]) -> u8\n    requires { 1 ≤ length s.old }\n    ensures { s.new ≡ s.old }\n{\n    0\n}\n'
STATED = '## a\n\n- `clear`: the same.\n  Rules out: another.\n'
THEOREM = 'pub record Demand : Type 0 where\n  -- one\n  pub one : (n : ℕ) → n ≡ n\n'
GOOD = {
    'crates.txt': 'a:\n',
    LIB: CLEAR,
    SPEC: THEOREM + '\npub record Data : Type 0 where\n  pub number : ℕ\n',
    PROOF: '-- what? a comment\npub demand : Demand\ndemand = record { one = λ n. refl }\n',
    EDIT: '# a wrong program\n# refused: 0 is not 1 (returns)\nfile: src/lib.rt\nold: 0\nnew: 1\n',
    PAGE: STATED,
    FLOORS: '# Floors\n\n    floor  rooms\n        1  a\n\nWhat each holds:\n\n- `a`: nothing\n  much\n',
}
TWO = {'crates.txt': 'a:\nb: a bytes\n', 'crates/b/src/lib.rt': '// none\n', FLOORS: '    floor  rooms\n        2  b\n        1  a\n\n- `a`: one\n- `b`: another\n'}
WIDE = 'word ' * 24 + 'x\n'
SAMPLE = {'README.md': 'Run it:\n\n    $ cat examples/x.txt\n    a\n    $ ./seldump examples/x.txt\n    c\n\nSo.\n', 'examples/x.txt': 'a\n', 'examples/x.out': 'c\n'}
PAIR = {'docs/SCOPE.md': '| bit 0 | `00 AA` | `01 AA` |\n', 'crates.txt': 'a:\nreplay: a\n', FLOORS: '    floor  rooms\n        2  replay\n        1  a\n\n- `a`: one\n- `replay`: another\n',
        'crates/replay/src/main.rt': 'fn main() {}\n', 'crates/replay/stdin': 't 00\n= 00AA01AA\n', 'crates/replay/stdout': '0\n0 01\n'}
ROWS = ('"Battery low" ∷\n          "low" ∷', '"wide" ∷\n          "low" ∷\n          "" ∷\n          "Low" ∷')
TABLES = 'abbrev pub table : List Row\ntable =\n' + ''.join(f'    record {{\n      code = 0x01;\n      texts =\n          {x}\n          [];\n    }} ∷\n' for x in ROWS) + '    []\n'
STORE = 'crates/event_offset/src/store.rt'
LAID = {'crates.txt': 'a:\nevent_offset:\n', FLOORS: '    floor  rooms\n        1  a  event_offset\n\n- `a`: one\n- `event_offset`: another\n',
        'crates/event_offset/specs/Tables.antt': TABLES, STORE: lay_out(TABLES)[1]}
# What is planted, and a word of what is then said.
PLANTED = [
    ({'crates/b/src/lib.rt': '// nothing\n'}, 'crates/b is not listed'),
    ({'crates.txt': 'a:\nc:\n'}, 'lists c, which is not there'),
    ({LIB: 'pub fn f() -> u8 {\n    0\n}\n'}, 'has no ensures'),
    ({LIB: '#[unsafe(no_mangle)]\npub extern "C" fn f() -> u8 {\n    0\n}\n'}, 'has no ensures'),
    ({LIB: '// ensures { s.new }\npub fn f() -> u8 {\n    0\n}\n'}, 'has no ensures'),
    ({LIB: CLEAR.replace('s.new', 's.old')}, 'names s.new'),
    ({LIB: CLEAR.replace('ensures {', 'ensures same {').replace('s.new', 's.old')}, 'names s.new'),
    ({LIB: CLEAR.replace('s.new', 'out.s.new')}, 'names s.new'),
    ({LIB: CLEAR.replace("(s: &mut [u8])", "<'a>(s: &'a mut [u8])").replace('s.new', 's.old')}, 'names s.new'),
    ({LIB: CLEAR.replace('s: &mut [u8]', '&mut self')}, 'names self.new'),
    ({LIB: "pub struct W<'a> {\n    out: &'a mut [u8],\n}\n\n" + CLEAR.replace('s: &mut [u8]', "w: W<'a>")}, 'names w.new'),
    ({LIB: CLEAR.replace('s.new', '0').replace(' }', ' -- s.new\n    }')}, 'names s.new'),
    ({LIB: CLEAR.replace('s.new', '{- s.new -} 0')}, 'names s.new'),
    ({LIB: 'pub fn f() -> u8 {\n    0\n}\n', 'crates/a/src/main.rt': 'fn main() {}\n'}, 'has no ensures'),
    ({LIB: PUT}, 'does not list'),
    ({LIB: PUT.replace('fn put(', 'fn f('), PAGE: '- `a::f` requires a place\n'}, 'is no part writer'),
    ({LIB: CLEAR + '\npub fn each<F: Fn(u8) -> Option<u8>>(f: F) -> u8\n    requires { F.IsAlwaysCallable f }\n    ensures { 0 }\n{\n    0\n}\n', PAGE: STATED.replace('`clear`', '`clear`, `each`')}, 'pub fn each has a requires that'),
    ({LIB: CLEAR + '\npub fn each<F: Fn(u8) -> Option<u8>>(f: F) -> u8\n    ensures { 0 }\n{\n    0\n}\n'}, 'does not state a::each'),
    ({LIB: f'impl A {{\n{PUT}}}\n\nimpl B {{\n{PUT}}}\n', PAGE: '- `a::A::put` requires room\n'}, 'pub fn B::put has a requires'),
    ({PAGE: '- `a::put_old` requires room\n'}, 'is listed, and has no requires'),
    ({PAGE: ''}, 'does not state a::clear'),
    ({PAGE: STATED.replace('## a', '## b')}, 'does not state a::clear'),
    ({LIB: CLEAR + '\n#[unsafe(no_mangle)]\n' + CLEAR.replace('pub fn clear', 'pub extern "C" fn sel_clear')}, 'does not state a::sel_clear'),
    ({PAGE: STATED.replace('`clear`:', 'no:').replace('the same', '`clear`')}, 'does not state a::clear'),
    ({PAGE: STATED.replace('`clear`:', '`clear`,')}, 'does not state a::clear'),
    ({LIB: f'impl A {{\n{CLEAR}}}\n'}, 'does not state a::A::clear'),
    ({LIB: 'pub mod part;\n\n' + CLEAR, 'crates/a/src/part.rt': CLEAR}, 'does not state a::part::clear'),
    ({LIB: CLEAR + '\nimpl From<u8> for Id {\n    ghost from_gives = { λ n r. r ≡ n };\n\n    fn from(n: u8) -> Id {\n        Id(n)\n    }\n}\n'}, 'does not state a::Id::from'),
    ({LIB: CLEAR + '\nimpl TryFrom<u8> for Id {\n    fn try_from(n: u8) -> Result<Id, No> {\n        Err(No)\n    }\n}\n', PAGE: STATED.replace('`clear`', '`clear`, `Id::try_from`')}, 'pub fn Id::try_from has no ensures'),
    ({PAGE: STATED.replace('`clear`', '`clear`, `gone`')}, 'a::gone is stated, and is not there'),
    ({PROOF: GOOD[PROOF] + 'returns c = ?\n'}, 'a hole'),
    ({PROOF: GOOD[PROOF] + 'returns c = (omega arith, ?)\n'}, 'a hole'),
    ({PROOF: GOOD[PROOF] + 'returns = [?]\n'}, 'a hole'),
    ({'crates/a/must-fail/more/y.edit': GOOD[EDIT]}, 'no edit that is tried stands here'),
    ({EDIT: '# a wrong program\nfile: src/lib.rt\n'}, 'two comment lines'),
    ({EDIT: GOOD[EDIT].replace('# refused: 0 is not 1 (returns)', '# refused: fact')}, 'two comment lines'),
    ({EDIT: GOOD[EDIT].replace('# a wrong program\n', '')}, 'two comment lines'),
    ({PROOF: '-- pub demand : Demand\n'}, 'specs/ states Demand'),
    ({PROOF: GOOD[PROOF].replace('pub demand', 'demand')}, 'specs/ states Demand'),
    ({PROOF: 'pub demand : ⊥ → Demand\ndemand ()\n'}, 'specs/ states Demand'),
    ({PROOF: 'pub demand : (h : ⊥) → Demand\ndemand h = elim h [ ]\n'}, 'specs/ states Demand'),
    ({PROOF: 'module _ (h : ⊥) where\n  pub demand : Demand\n  demand = elim h [ ]\n'}, 'specs/ states Demand'),
    ({LIB: '// Demand\n' + CLEAR, PROOF: ''}, 'specs/ states Demand'),
    ({SPEC: GOOD[SPEC] + '\npub data Odd : Type 0 where\n  odd : (n : ℕ) → n < 0 → Odd\n', PROOF: 'pub demand : (o : Odd) → Demand\ndemand o = it\n'}, 'specs/ states Demand'),
    ({SPEC: GOOD[SPEC] + '\nabbrev pub Odd : Type 0\nOdd = (n : ℕ) × n < 0\n', PROOF: 'pub demand : (o : Odd) → Demand\ndemand o = it\n'}, 'specs/ states Demand'),
    ({SPEC: GOOD[SPEC] + '\npub record All : Type 0 where\n  pub demand : Demand\n'}, 'specs/ states All'),
    ({SPEC: GOOD[SPEC] + '\npub record Small (n : ℕ) : Type 0 where\n  pub small : n < 3\n\npub data Row (n : ℕ) : Type 0 where\n  low : n < 3 → Row n\n'}, 'specs/ states Small'),
    ({SPEC: 'pub record Demand : Type 0 where\n  pub all : All\n\npub record All : Type 0 where\n  pub demand : Demand\n', PROOF: ''}, 'specs/ states All'),
    ({SPEC: GOOD[SPEC] + '\nrecord More : Type 0 where\n  one :\n      T allGood\n'}, 'specs/ states More'),
    ({SPEC: 'module _ (n : ℕ) where\n  pub record Demand : Type 0 where\n    pub one : n ≡ n\n', PROOF: ''}, 'specs/ states Demand'),
    ({'crates.txt': 'a:\nb:\n', 'crates/b/src/lib.rt': '// none\n', 'crates/b/specs/Lib.antt': THEOREM}, 'crates/b: specs/ states Demand'),
    ({FLOORS: ''}, 'the drawing is not that of crates.txt'),
    ({FLOORS: GOOD[FLOORS].replace('1  a', '2  a')}, 'the drawing is not that of crates.txt'),
    ({FLOORS: GOOD[FLOORS].replace('1  a', '1  a  b')}, 'the drawing is not that of crates.txt'),
    ({**TWO, 'crates.txt': 'a:\nb: bytes\n'}, 'the drawing is not that of crates.txt'),
    ({**TWO, 'crates.txt': 'a: b\nb:\n'}, 'the drawing is not that of crates.txt'),
    ({**TWO, 'crates.txt': 'a: b\nb: a\n'}, 'b stands on itself'),
    ({FLOORS: GOOD[FLOORS].replace('- `a`: nothing', '- `a`:')}, 'no words on the room a'),
    ({**TWO, FLOORS: TWO[FLOORS].replace('- `b`: another\n', '')}, 'no words on the room b'),
    ({FLOORS: GOOD[FLOORS] + '- `gone`: words\n'}, 'the room gone is not there'),
    ({'README.md': WIDE}, 'README.md:1: 121 columns'),
    ({'docs/MORE.md': '    code\n\n- and\n  ' + WIDE}, 'docs/MORE.md:4: 123 columns'),
    ({'docs/MORE.md': '10. and\n    ' + WIDE}, 'docs/MORE.md:2: 125 columns'),
    ({'docs/MORE.md': '```\ncode\n```\n- ' + WIDE}, 'docs/MORE.md:4: 123 columns'),
    ({'docs/MORE.md': f'| {"x" * 157} |\n'}, 'docs/MORE.md:1: 161 columns'),
    ({**SAMPLE, 'examples/x.txt': 'a\nb\n'}, '`cat examples/x.txt` shows something else'),
    ({**SAMPLE, 'examples/x.out': 'c\n\n'}, '`./seldump examples/x.txt` shows something else'),
    ({'README.md': SAMPLE['README.md']}, '`./seldump examples/x.txt` shows something else'),
    ({'README.md': SAMPLE['README.md'].replace('seldump examples/x.txt', 'selmake examples/x.entries'), 'examples/x.txt': 'a\n'}, '`./selmake examples/x.entries` shows something else'),
    (PAIR | {'docs/SCOPE.md': PAIR['docs/SCOPE.md'].replace('01', '02')}, '`00 AA` and `02 AA`: no answer'),
    (PAIR | {'crates/replay/stdout': '0\n0 00\n'}, '`00 AA` and `01 AA`: no answer'),
    ({'docs/SCOPE.md': PAIR['docs/SCOPE.md']}, '`00 AA` and `01 AA`: no answer'),
    (LAID | {STORE: LAID[STORE].replace(' 8,', ' 9,', 1)}, 'store.rt is not what tools/lay_out_texts.py writes'),
    (LAID | {STORE: LAID[STORE].replace(', 0', ',\n    0', 1)}, 'store.rt is not what tools/lay_out_texts.py writes'),
    (LAID | {STORE: LAID[STORE].replace('lowide', 'low\\\n    wide')}, 'store.rt is not what tools/lay_out_texts.py writes'),
    (LAID | {'crates/event_offset/specs/Tables.antt': TABLES.replace('Battery', 'battery')}, 'store.rt is not what tools/lay_out_texts.py writes'),
]


# A tree that exports a struct and two functions to C, with its sizes.
ABI, LIBRARY, HEADER, RUST = 'crates/abi/src/lib.rt', 'crates/abi_c/src/lib.rt', 'include/sel.h', 'rust/ipmi-sel/src/'
FFI = RUST + 'ffi.rs'
ROOMS = {
    'event_offset/specs/Fills': ['store_room = 7'],
    'event_offset/specs/Places': ['places = 6'],
    'event_offset/specs/Event': ['event_room = 5'],
    'event_data/specs/DataText': ['data_room = 4'],
    'storage/specs/Time': ['time_room = 3'],
    'connection/specs/Version': ['ipmi15 = 0x51', 'ipmi20 = 0x02'],
    'flat/specs/Sizes': ['flat_room = 2', 'request_room = 1'],
    'flat_writer/specs/Kept': ['kept_room = 8'],
    'platform_event/specs/Message': ['message_bytes = 7'],
    'field/specs/Lengths': ['entry_bytes = 16', 'get_entry_bytes = 18', 'info_bytes = 14', 'allocation_bytes = 9', 'reserve_bytes = 2', 'clear_bytes = 1'],
}
EXPORTS = {
    **GOOD,
    **{f'crates/{file}.antt': '\n\n'.join(f'abbrev pub {x.split()[0]} : ℕ\n{x}' for x in lines) + '\n' for file, lines in ROOMS.items()},
    'crates.txt': 'a:\nabi:\nabi_c staticlib:\nevent_offset:\nevent_data:\nstorage:\nconnection:\nflat:\nflat_writer:\nplatform_event:\nfield:\n',
    PAGE: STATED + STATED.replace('## a', '## abi').replace('`clear`', '`sel_text`, `sel_length`'),
    ABI: '''// Answers.
ghost use Rattle.flat_form.specs.Form.{Gives, filled as taken};

#[repr(C)]
#[derive(Clone, Copy)]
pub struct SelAnswer {
    pub number: u32,
    pub value: u32,
    pub length: usize,
}

#[unsafe(no_mangle)]
pub extern "C" fn sel_text<'a>(
    starts: &'a [u16],
    event_type: u8,
    sensor_type: u8,
    id: u16,
    out: &mut [u8],
) -> SelAnswer
    ensures { Gives (taken event_type) out.old result out.new }
{
    text(starts, event_type, sensor_type, id, out)
}

#[unsafe(no_mangle)]
pub extern "C" fn sel_length(kind: u8, len: usize) -> u32
    ensures { result ≡ 0 }
{
    0
}
''',
    LIBRARY: '''// The library.
ghost use Rattle.flat_form.specs.Form.{Gives, filled as taken};

#[unsafe(no_mangle)]
pub extern "C" fn sel_text<'a>(
    starts: &'a [u16],
    event_type: u8,
    sensor_type: u8,
    id: u16,
    out: &mut [u8],
) -> SelAnswer
    ensures { Gives (taken event_type) out.old result out.new }
{
    abi::sel_text(starts, event_type, sensor_type, id, out)
}

#[unsafe(no_mangle)]
pub extern "C" fn sel_length(kind: u8, len: usize) -> u32
    ensures { result ≡ 0 }
{
    abi::sel_length(kind, len)
}
''',
    'crates/field/specs/Handed.antt': ''.join(f'{x} = handed {n} []\n' for x, n in (
        ('not_enough_data', 1), ('unknown_type t', 2), ('invalid_channel n', 3), ('no_room n', 4), ('bad_capture', 5), ('no_such_record', 7), ('too_long', 8),
        ('no_reservation', 9), ('wrong_index', 10), ('unnamed_version', 11), ('no_bytes', 13), ('unreserved', 14), ('next_differs', 15), ('no_such_part', 16))),
    RUST + 'connection.rs': 'const IPMI_1_5: u8 = 0x51;\nconst IPMI_2_0: u8 = 0x02;\n',
    RUST + 'refusal.rs': ''.join(f'const {x}: u32 = {n};\n' for x, n in (
        ('TOO_SHORT', 1), ('UNKNOWN_TYPE', 2), ('INVALID_CHANNEL', 3), ('NO_ROOM', 4), ('BAD_CAPTURE', 5), ('NO_SUCH_RECORD', 7), ('TOO_LONG', 8),
        ('NO_RESERVATION', 9), ('NO_BYTES', 13), ('UNRESERVED', 14), ('NEXT_DIFFERS', 15), ('NO_SUCH_PART', 16))) + 'pub(crate) const WRONG_INDEX: u32 = 10;\n',
    HEADER: '''/* 0 accepted, 1 too short, 2 unknown record type, 3 invalid channel, 4 no room, 5 bad capture, 7 no such record, 8 too long,
 * 9 a reservation of 0, 10 wrong index, 11 no such version, 13 no bytes at once, 14 no reservation, 15 next ids differ,
 * 16 no such part of a record, or an answer after the last; 255.
 * A record of the log, 16 bytes or more: 1 with 16 under 16 bytes; 2 with the type. 1 with 18 under 18 bytes; then 2 and 3 as sel_entry.
 * 1 with 9 under 9 bytes; then 4. 1 with 14 under 14 bytes, 8 over 14. 1 with 2 under 2 bytes, then 9. 1 with 1 where it is empty.
 * 1 with 7 under 7 bytes, also for the forms of five and six bytes that the standard allows; then 8 over 7 bytes; then 3.
 * value: 16 where it is 1, the record type where it is 2. Refused: under 16 for e, under 18 for g, under 14 for i, under 9 for a, under 2 for r,
 * under 1 for c; over 14 for i, and never for the others. Counted: 16 for e, 18 for g, 14 for i, 9 for a, 2 for r, 1 for c; 0 else. */
#ifndef SEL_H
#define SEL_H

#include <stdint.h>

#ifdef __cplusplus
extern "C" {
#endif

typedef struct SelAnswer {
    uint32_t number;
    uint32_t value;
    size_t length;
} SelAnswer;

#define SEL_STORE 7
#define SEL_PLACES 6
#define SEL_EVENT_TEXT 5
#define SEL_DATA_TEXT 4
#define SEL_TIME_TEXT 3
#define SEL_FLAT 2
#define SEL_REQUEST 1
#define SEL_KEPT 8
#define SEL_MESSAGE 7
#define SEL_READS 32
#define SEL_IPMI_1_5 0x51
#define SEL_IPMI_2_0 0x02

/* At most SEL_EVENT_TEXT (5) bytes. */
SelAnswer sel_text(const uint16_t *starts, size_t starts_length,
                   uint8_t event_type, uint8_t sensor_type, uint16_t id, uint8_t *out, size_t out_length);

uint32_t sel_length(uint8_t kind, size_t len);

#ifdef __cplusplus
}
#endif

#endif
''',
    FFI: '''#[repr(C)]
pub(crate) struct Answer {
    pub number: u32,
    pub value: u32,
    pub length: usize,
}

mod library {
    use super::Answer;

    extern "C" {
        pub fn sel_text(
            starts: *const u16,
            starts_length: usize,
            event_type: u8,
            sensor_type: u8,
            id: u16,
            out: *mut u8,
            out_length: usize,
        ) -> Answer;
        pub fn sel_length(kind: u8, len: usize) -> u32;
    }
}

pub(crate) fn text(starts: &[u16], [event_type, sensor_type]: [u8; 2], id: u16, out: &mut [u8]) -> Answer {
    unsafe { library::sel_text(starts.as_ptr(), starts.len(), event_type, sensor_type, id, out.as_mut_ptr(), out.len()) }
}
''',
    RUST + 'text.rs': ''.join(f'const {x}: usize = {n};\n' for x, n in zip(('STORE', 'PLACES', 'EVENT_ROOM', 'DATA_ROOM', 'TIME_ROOM'), '76543')),
    RUST + 'flat.rs': '/// The most bytes.\nconst MOST: usize = 2;\n',
    RUST + 'request.rs': 'const MOST: usize = 1;\n',
    RUST + 'storage/sel/kept.rs': 'pub const KEPT: usize = 8;\n',
    RUST + 'parts.rs': 'const READS: usize = 32;\n',
    RUST + 'events.rs': 'pub const MESSAGE: usize = 7;\n',
}
ALL = EXPORTS['crates.txt'].replace(' staticlib', '').replace(':', '').split()
EXPORTS[FLOORS] = '    floor  rooms\n        1  ' + '  '.join(ALL) + '\n\n' + ''.join(f'- `{c}`: words\n' for c in ALL)
# What is planted there: a file, its words, others for them, and a word of what is then said.
CHANGED = [
    (HEADER, 'uint8_t event_type, uint8_t sensor_type', 'uint8_t sensor_type, uint8_t event_type', 'include/sel.h: SelAnswer sel_text('),
    (HEADER, 'uint16_t id', 'uint32_t id', 'include/sel.h: SelAnswer sel_text('),
    (HEADER, 'const uint16_t', 'uint16_t', 'include/sel.h: SelAnswer sel_text('),
    (HEADER, 'size_t out_length', 'size_t out_length, uint8_t more', 'include/sel.h: SelAnswer sel_text('),
    (HEADER, 'uint32_t sel_length', 'size_t sel_length', 'include/sel.h: size_t sel_length('),
    (HEADER, 'uint32_t sel_length(uint8_t kind, size_t len);', '', 'include/sel.h leaves out sel_length'),
    (HEADER, 'uint32_t sel_length(uint8_t kind, size_t len);', '/* uint32_t sel_length(uint8_t kind, size_t len); */', 'include/sel.h leaves out sel_length'),
    (HEADER, 'uint32_t sel_length', 'uint32_t sel_more(uint8_t kind);\nuint32_t sel_length', 'include/sel.h: sel_more is not exported'),
    (HEADER, '    uint32_t number;\n    uint32_t value;', '    uint32_t value;\n    uint32_t number;', 'include/sel.h: typedef struct SelAnswer{'),
    (HEADER, 'uint32_t sel_length', '#if 0\nuint32_t sel_length', 'include/sel.h cannot be read'),
    (HEADER, '#define SEL_H\n', '#define SEL_H\n#define uint8_t int\n', 'include/sel.h cannot be read'),
    (HEADER, 'SEL_DATA_TEXT 4', 'SEL_DATA_TEXT 5', 'SEL_DATA_TEXT is 5, and data_room is 4'),
    (HEADER, '#define SEL_FLAT 2\n', '', 'SEL_FLAT is no number'),
    (HEADER, '#define SEL_FLAT', '#define SEL_MORE 2\n#define SEL_FLAT', 'include/sel.h cannot be read'),
    (HEADER, 'SEL_EVENT_TEXT (5)', 'SEL_EVENT_TEXT (6)', 'a comment says SEL_EVENT_TEXT (6)'),
    (FFI, 'event_type: u8,\n            sensor_type: u8', 'sensor_type: u8,\n            event_type: u8', 'ffi.rs: pub fn sel_text('),
    (FFI, 'id: u16,\n ', 'id: u32,\n ', 'ffi.rs: pub fn sel_text('),
    (FFI, '*mut u8', '*const u8', 'ffi.rs: pub fn sel_text('),
    (FFI, 'len: usize) -> u32', 'len: usize) -> usize', 'ffi.rs: pub fn sel_length('),
    (FFI, 'pub fn sel_length', 'pub fn sel_more', 'ffi.rs: sel_more is not exported'),
    (FFI, 'pub fn sel_length', '#[link_name = "sel_text"]\n        pub fn sel_length', 'ffi.rs cannot be read'),
    (FFI, 'starts.len(), event_type, sensor_type', 'starts.len(), sensor_type, event_type', 'ffi.rs: library::sel_text('),
    (FFI, 'out.len()', 'starts.len()', 'ffi.rs: library::sel_text('),
    (FFI, '    pub number: u32,\n    pub value: u32,', '    pub value: u32,\n    pub number: u32,', 'ffi.rs: #[repr(C)]pub(crate)struct Answer{'),
    (FFI, '#[repr(C)]\n', '', 'ffi.rs: pub(crate)struct Answer{'),
    (FFI, 'extern "C"', 'extern "system"', 'ffi.rs cannot be read'),
    (RUST + 'text.rs', 'TIME_ROOM: usize = 3', 'TIME_ROOM: usize = 33', 'text.rs: TIME_ROOM is 33, and time_room is 3'),
    (RUST + 'flat.rs', '= 2', '= 3', 'flat.rs: MOST is 3, and flat_room is 2'),
    (RUST + 'request.rs', 'const', '// const', 'request.rs: MOST is no number'),
    (RUST + 'storage/sel/kept.rs', '= 8', '= 5', 'kept.rs: KEPT is 5, and kept_room is 8'),
    (RUST + 'parts.rs', '= 32', '= 16', 'parts.rs: READS is 16, and 2 * entry_bytes is 32'),
    (RUST + 'events.rs', '= 7', '= 8', 'events.rs: MESSAGE is 8, and message_bytes is 7'),
    (HEADER, 'SEL_MESSAGE 7', 'SEL_MESSAGE 8', 'SEL_MESSAGE is 8, and message_bytes is 7'),
    (HEADER, '1 with 7', '1 with 5', 'include/sel.h does not say: 1 with 7 under 7 bytes, also'),
    (HEADER, 'SEL_READS 32', 'SEL_READS 33', 'SEL_READS is 33, and 2 * entry_bytes is 32'),
    ('crates/storage/specs/Time.antt', 'time_room = 3', 'time_room = 1 + 2', 'Time.antt: no line time_room = a number'),
    (ABI, '#[unsafe(no_mangle)]\n', '', 'crates/abi/src cannot be read: 0 functions'),
    (ABI, '#[unsafe(no_mangle)]\npub extern "C" fn sel_length', '#[unsafe(no_mangle)]\npub fn sel_length', 'crates/abi/src cannot be read: 1 functions'),
    (ABI, 'len: usize', 'len: u64', 'cannot be read: parameter len:u64'),
    (ABI, 'len: usize) -> u32', 'len: usize) -> u8', 'include/sel.h: uint32_t sel_length('),
    (ABI, 'out: &mut [u8]', 'out: &[u8]', 'crates/abi_c/src: sel_text('),
    (ABI, '≡ 0', '≡ 1', 'crates/abi_c/src: sel_length promises ensures{result≡0}, and in crates/abi/src ensures{result≡1}'),
    (ABI, 'filled as taken', 'left as taken', 'crates/abi_c/src: sel_text cites taken of Rattle.flat_form.specs.Form.filled as taken'),
    (LIBRARY, '#[unsafe(no_mangle)]\npub extern "C" fn sel_length', 'pub fn sel_length', 'crates/abi_c/src leaves out sel_length'),
    (LIBRARY, '#[unsafe(no_mangle)]\npub extern "C" fn sel_length', '#[unsafe(no_mangle)]\npub fn sel_length', 'crates/abi_c/src cannot be read: 1 functions'),
    (LIBRARY, 'fn sel_length', 'fn sel_more', 'crates/abi_c/src: sel_more is not in crates/abi/src'),
    (LIBRARY, 'len: usize', 'len: u32', 'crates/abi_c/src: sel_length(kind:u8,len:u32)->u32 must be sel_length(kind:u8,len:usize)->u32'),
    (LIBRARY, 'kind: u8, len: usize', 'len: usize, kind: u8', 'crates/abi_c/src: sel_length(len:usize,kind:u8)->u32 must be'),
    (LIBRARY, ') -> u32', ') -> usize', 'crates/abi_c/src: sel_length(kind:u8,len:usize)->usize must be'),
    (LIBRARY, 'result ≡ 0', 'result ≤ 0', 'crates/abi_c/src: sel_length promises ensures{result≤0}'),
    (LIBRARY, '    ensures { result ≡ 0 }\n', '', 'crates/abi_c/src: sel_length promises , and'),
    (LIBRARY, '    ensures { result ≡ 0 }\n', '    requires { kind ≡ 0 }\n    ensures { result ≡ 0 }\n', 'crates/abi_c/src: sel_length promises requires{kind≡0}'),
    (LIBRARY, 'specs.Form', 'specs.Other', 'crates/abi_c/src: sel_text cites Gives of Rattle.flat_form.specs.Other.Gives'),
    (LIBRARY, 'abi::sel_length(kind, len)', '0', 'crates/abi_c/src: sel_length is {0}'),
    (LIBRARY, 'sensor_type, id, out)', 'event_type, id, out)', 'crates/abi_c/src: sel_text is {abi::sel_text(starts,event_type,event_type'),
    (ABI, '    pub value: u32,\n', '    pub value: u32,\n    pub more: u32,\n', 'SelAnswer has over 16 bytes'),
    ('crates/field/specs/Lengths.antt', 'info_bytes = 14', 'info_bytes = 15', 'include/sel.h does not say: 1 with 15 under 15 bytes, 8 over 15'),
    (HEADER, '2 for r,', '3 for r,', 'include/sel.h does not say: under 16 for e'),
    (HEADER, '1 with 18', '1 with 16', 'include/sel.h does not say: 1 with 18 under 18 bytes'),
    (HEADER, '9 a reservation', '10 a reservation', 'include/sel.h does not say: 0 accepted, 1 too short'),
    ('crates/field/specs/Handed.antt', 'too_long = handed 8', 'too_long = handed 10', 'refusal.rs: TOO_LONG is 8, and too_long is 10'),
    (HEADER, '11 no such', '10 no such', 'include/sel.h does not say: 0 accepted, 1 too short'),
    (HEADER, '10 wrong', '12 wrong', 'include/sel.h does not say: 0 accepted, 1 too short'),
    (HEADER, '14 no res', '13 no res', 'include/sel.h does not say: 0 accepted, 1 too short'),
    (RUST + 'refusal.rs', 'NO_SUCH_PART: u32 = 16', 'NO_SUCH_PART: u32 = 15', 'refusal.rs: NO_SUCH_PART is 15, and no_such_part is 16'),
    (RUST + 'refusal.rs', 'WRONG_INDEX: u32 = 10', 'WRONG_INDEX: u32 = 12', 'refusal.rs: WRONG_INDEX is 12, and wrong_index is 10'),
    (RUST + 'refusal.rs', 'pub(crate) const', '// pub(crate) const', 'refusal.rs: WRONG_INDEX is None, and wrong_index is 10'),
    (HEADER, 'SEL_IPMI_1_5 0x51', 'SEL_IPMI_1_5 0x15', 'SEL_IPMI_1_5 is 0x15, and ipmi15 is 0x51'),
    (HEADER, '#define SEL_IPMI_2_0 0x02\n', '', 'SEL_IPMI_2_0 is no number, and ipmi20 is 0x02'),
    (RUST + 'connection.rs', 'IPMI_2_0: u8 = 0x02', 'IPMI_2_0: u8 = 0x20', 'connection.rs: IPMI_2_0 is 0x20, and ipmi20 is 0x02'),
    ('crates/connection/specs/Version.antt', 'ipmi15 = 0x51', 'ipmi15 = 0x50', 'connection.rs: IPMI_1_5 is 0x51, and ipmi15 is 0x50'),
    (RUST + 'refusal.rs', 'NO_RESERVATION: u32 = 9', 'NO_RESERVATION: u32 = 1', 'refusal.rs: NO_RESERVATION is 1, and no_reservation is 9'),
]


def tried(tree):
    with tempfile.TemporaryDirectory() as d:
        for name, text in tree.items():
            (Path(d) / name).parent.mkdir(parents=True, exist_ok=True)
            (Path(d) / name).write_text(text)
        return list(faults(Path(d).resolve()))


bad = [f'the tree without fault: {x}' for x in tried(GOOD)]
# A text twice, one inside another, one whose start is another's end, and one in the other case.
if lay_out(TABLES)[0] != 'Battery lowideLow':
    bad.append(f'the texts are laid out as {lay_out(TABLES)[0]}')
# Trees without fault: a listed part writer; theorems over data, in a section and on several lines; a promise; a premise; a notion that a
# definition uses; a theorem inside a proved one; a premise of a case of data; data by its cases; a function in a module of the crate's own; names of functions on
# two lines; data in data; a second floor; wide code, a table's row and a link; samples; two records; a store of texts.
PASSES = [
    {LIB: PUT, PAGE: STATED.replace('clear', 'put') + '\n## Exceptions\n\n- `a::put` requires room for a byte\n'},
    {PROOF: 'module _ (n : ℕ) (f : ℕ → Bool) where\n  pub demand :\n      {s : List ℕ} (g : ℕ → ℕ) → Demand\n  demand = it\n'},
    {LIB: CLEAR.replace('{ s.new', '{ Demand × s.new'), PROOF: ''},
    {LIB: CLEAR.replace('ensures {', 'ensures all { Demand }\n    ensures same {'), PROOF: ''},
    {SPEC: THEOREM.replace('n ≡ n', 'Small n → n ≡ n') + '\npub record Small\n    (n : ℕ)\n    : Type 0 where\n  pub small : n < 3\n'},
    {SPEC: GOOD[SPEC] + '\npub record Small (n : ℕ) : Type 0 where\n  pub small : n < 3\n\nabbrev pub Within : ℕ → Type 0\nWithin n = (m : ℕ) × Small m\n'},
    {SPEC: GOOD[SPEC] + '\npub record All : Type 0 where\n  pub demand : (n : ℕ) → n < 3 → Demand\n', PROOF: 'pub all : All\nall = it\n'},
    {SPEC: GOOD[SPEC] + '\npub data Either : Type 0 where\n  left : Data → Either\n  right : List ℕ → Either → Either\n', PROOF: 'pub demand : (e : Either) → Demand\ndemand e = it\n'},
    {SPEC: GOOD[SPEC] + '\npub record Small (n : ℕ) : Type 0 where\n  pub small : n < 3\n\npub data Row (n : ℕ)\n    : ℕ → Type 0 where\n  low : Small n → Row n 0\n'},
    {LIB: 'mod part;\n', 'crates/a/src/part.rt': CLEAR},
    {LIB: CLEAR + '\n' + CLEAR.replace('clear', 'more'), PAGE: STATED.replace('`clear`', '`clear`,\n  `more`')},
    {SPEC: GOOD[SPEC] + '\nabbrev pub Either : Type 0\nEither = Result Data ℕ\n', PROOF: 'pub demand : (e : Either) → Demand\ndemand e = it\n'},
    {LIB: CLEAR + '\npub(crate) enum No {\n    A,\n}\n\nimpl From<u8> for No {\n    ghost from_gives = { λ n r. r ≡ No.A };\n\n    fn from(n: u8) -> No {\n        No::A\n    }\n}\n'},
    {SPEC: GOOD[SPEC] + '\npub record Pair : Type 0 where\n  pub first : Data\n  pub rest : List Data\n'},
    TWO,
    {'docs/MORE.md': f'Code:\n\n    {WIDE}\n    {WIDE}\n```\n{WIDE}```\n\n| {"x" * 156} |\n- [{"x" * 60}](../{"x" * 60})\n'},
    SAMPLE,
    PAIR,
    LAID,
]
bad += [f'tree {n} without fault: {x}' for n, tree in enumerate(PASSES, 1) for x in tried({**GOOD, **tree})]
# The tree that exports to C, and the same where ffi.rs leaves a function out, and with other spaces and comments in the header.
WITHOUT = EXPORTS[FFI].replace('        pub fn sel_length(kind: u8, len: usize) -> u32;\n', '')
SPACED = EXPORTS[HEADER].replace('uint16_t *starts, ', 'uint16_t* starts , ').replace('SEL_FLAT 2', 'SEL_FLAT 2 /* more(x); */')
bad += [f'exports without fault: {x}' for tree in ({}, {FFI: WITHOUT}, {HEADER: SPACED}) for x in tried({**EXPORTS, **tree})]
for change, word in PLANTED:
    said = tried({**GOOD, **change})
    if not any(word in x for x in said):
        bad.append(f'planted, and not found: {word} (said: {said})')
for file, old, new, word in CHANGED:
    said = tried({**EXPORTS, file: EXPORTS[file].replace(old, new)})
    if old not in EXPORTS[file] or not any(word in x for x in said):
        bad.append(f'planted in {file}, and not found: {word} (said: {said})')
# What rt ci says of the must-fail edits where it passes, how many files of edits there are, and a word of what is then said.
DONE = 'rt: ok; handles allowed: none{}; every proof and must-fail edit was done in this run\n'
SAID = [
    ('; must-fail edits: 7 refused', 7, None),
    ('; must-fail edits: 7 refused, 2 of them only by a limit', 7, None),
    ('', 0, None),
    ('; must-fail edits: 7 refused, 3 bad', 10, '3 must-fail edits are bad'),
    ('; must-fail edits: 7 refused, 2 of them only by a limit, 1 bad', 7, '1 must-fail edits are bad'),
    ('; must-fail edits: 0 refused, 1 bad', 1, '1 must-fail edits are bad'),
    ('; must-fail edits: 7 refused', 8, '7 must-fail edits are refused, of 8'),
    ('', 1, '0 must-fail edits are refused, of 1'),
]
for words, files, fault in SAID:
    said = edit_fault(['rt: field: 1 bad\n', DONE.format(words)], files)
    if fault not in (said or '') if fault else said:
        bad.append(f'gate.py says {said} of the edits, and not {fault}')
if not edit_fault(['1 passed, 0 failed\n'], 0):
    bad.append('gate.py misses no line `rt: ok`')
# The samples of both programs must differ on a command that prints what it reads, on one that always ends well, and on one that never says why it failed.
for program, first in (('seldump', 'CR LF'), ('selmake', 'a system entry')):
    for command, word in (('cat', f'{first}: line 1 must be'), ('true', 'standard output closed: the status must be 1, is 0'), ('false', "a full disk: b'cannot be written' must be said")):
        samples = subprocess.run([sys.executable, Path(__file__).with_name('samples.py'), program, command], capture_output=True, text=True)
        if samples.returncode != 1 or f'samples: {program}, {word}' not in samples.stdout:
            bad.append(f'samples.py takes {command} for {program} (status {samples.returncode})')
print(*bad, sep='\n', end='\n' if bad else '')
sys.exit(bool(bad))
