//! The logs of examples/, record by record: what is read is written again, byte for byte.

use ipmi_sel::capture::record_bytes;
use ipmi_sel::storage::sel::{Entry, GetSelEntry};
use logs::{captures, slot};

mod logs;

#[test]
fn records_come_back() {
    let (mut records, mut changed, mut turned_away) = (0, 0, 0);
    for (name, text) in captures() {
        let slots: Option<Vec<_>> = text.lines().map(slot).collect();
        // A capture with a line that is none is refused.
        assert_eq!(slots.is_none(), name == "damaged", "{name}");
        for (_, answer) in slots.unwrap_or_default() {
            let record = record_bytes(&answer);
            let Ok(entry) = Entry::parse(record) else {
                turned_away += 1;
                continue;
            };
            assert_eq!(entry.to_bytes().unwrap(), record, "{name}");
            assert_eq!(GetSelEntry::parse_success_response(&answer).unwrap().entry.to_bytes().unwrap(), record, "{name}");
            records += 1;
            changed += usize::from(entry.remade().to_bytes().unwrap() != record);
        }
    }
    println!("{records} records, of which {changed} are others when they are made from their fields; {turned_away} are refused");
    assert!(records > 50 && changed > 0 && turned_away > 0);
}
