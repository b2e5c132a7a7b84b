//! The examples of 004: control messages (4.3), the version entry (5.3) and the
//! advertisement shown in 5.2.

use second::entry::{entry_at, value_at, write_entry, EntryAnswer, Mark, OpenAdvertisement};
use second::error_list::{code_at, count_codes, CodeAnswer, CountAnswer, MEANINGS};
use second::message::{read_byte, write_notice, write_query, Event, MessageReader};

fn read_all(stream: &[u8]) -> Vec<Event> {
    let mut reader = MessageReader::fresh();
    let mut buffer = [0; 8];
    stream
        .iter()
        .map(|&byte| read_byte(&mut reader, &mut buffer, byte))
        .filter(|event| *event != Event::Nothing)
        .collect()
}

#[test]
fn buffer_status_query() {
    let mut out = [0xEE; 4];
    assert_eq!(write_query(&mut out), (0, 3));
    assert_eq!(out, [0x7E, 0x00, 0x7E, 0xEE]);
    assert_eq!(write_query(&mut out[..2]), (28, 0));
    assert_eq!(read_all(&[0x7E, 0x00, 0x7E]), [Event::Query]);
}

#[test]
fn buffer_status_notification() {
    let mut out = [0xEE; 8];
    assert_eq!(write_notice(0x0180, &mut out), (0, 5));
    assert_eq!(out[..6], [0x7E, 0x00, 0x80, 0x01, 0x7E, 0xEE]);
    assert_eq!(read_all(&out[..5]), [Event::Notice { room: 384 }]);
    assert_eq!(write_notice(0x7D7E, &mut out), (0, 7));
    assert_eq!(out, [0x7E, 0x00, 0x7D, 0x5E, 0x7D, 0x5D, 0x7E, 0xEE]);
    assert_eq!(read_all(&out), [Event::Notice { room: 0x7D7E }]);
}

#[test]
fn two_flags_are_one_start() {
    assert_eq!(read_all(&[0x7E, 0x7E, 0x00, 0x7E]), [Event::Query]);
}

#[test]
fn version_entry() {
    let bytes = [0x80, 0x06, 0x32, 0x2E, 0x33, 0x2E, 0x31, 0x00];
    let due = EntryAnswer::Entry { tag: 0x80, length: 6, next: 8, mark: Mark::Known };
    assert_eq!(entry_at(&bytes, 0), due);
    assert_eq!(value_at(&bytes, 0), b"2.3.1\0");
    assert_eq!(entry_at(&bytes, 8), EntryAnswer::NoMore);
    assert_eq!(entry_at(&bytes, 7), EntryAnswer::Refused(34));
    assert_eq!(entry_at(&bytes[..7], 0), EntryAnswer::Refused(35));
    let mut out = [0xEE; 9];
    assert_eq!(write_entry(0x80, b"2.3.1\0", &mut out), (0, 8));
    assert_eq!(out[..8], bytes);
    assert_eq!(out[8], 0xEE);
}

/// The advertisement of 5.2, with values of the widths a hub might choose.
fn example_advertisement() -> Vec<(u8, Vec<u8>)> {
    vec![
        (1, vec![0; 4]),
        (0x80, b"1.0.0\0".to_vec()),
        (2, 1024u16.to_le_bytes().to_vec()),
        (3, 1024u16.to_le_bytes().to_vec()),
        (4, 128u16.to_le_bytes().to_vec()),
        (5, 256u16.to_le_bytes().to_vec()),
        (8, b"SHTP\0".to_vec()),
        (6, vec![0]),
        (9, b"control\0".to_vec()),
        (1, vec![1, 0, 0, 0]),
        (8, b"sensorhub\0".to_vec()),
        (6, vec![1]),
        (9, b"device\0".to_vec()),
        (7, vec![4]),
        (9, b"inputWake\0".to_vec()),
    ]
}

#[test]
fn advertisement_written_and_walked() {
    let entries = example_advertisement();
    let mut cargo = [0; 200];
    let mut end = 1;
    for (tag, value) in &entries {
        let (number, written) = write_entry(*tag, value, &mut cargo[end..]);
        assert_eq!((number, written), (0, value.len() + 2));
        end += written;
    }
    let mut open = OpenAdvertisement::open(&cargo[..end], 1);
    for (due_tag, due_value) in &entries {
        let (answer, value) = open.next_entry();
        let EntryAnswer::Entry { tag, mark: Mark::Known, .. } = answer else {
            panic!("{answer:?}");
        };
        assert_eq!((tag, value), (*due_tag, &due_value[..]));
    }
    assert_eq!(open.next_entry(), (EntryAnswer::NoMore, &[][..]));
    assert_eq!(open.place, end);
}

#[test]
fn error_list_codes() {
    let cargo = [1, 0, 12, 13, 4];
    assert_eq!(count_codes(&cargo), CountAnswer::Codes(4));
    let code = |place| code_at(&cargo, place);
    assert_eq!(code(0), CodeAnswer::Code { code: 0, meaning: Some(MEANINGS[0]) });
    assert_eq!(code(1), CodeAnswer::Code { code: 12, meaning: Some(MEANINGS[12]) });
    assert_eq!(code(2), CodeAnswer::Code { code: 13, meaning: None });
    assert_eq!(code(4), CodeAnswer::NoMore);
    assert_eq!(code(usize::MAX), CodeAnswer::NoMore);
    assert_eq!(count_codes(&[1]), CountAnswer::Codes(0));
    for other in [&[][..], &[0][..], &[2, 1][..]] {
        assert_eq!(count_codes(other), CountAnswer::Refused(37));
        assert_eq!(code_at(other, 9), CodeAnswer::Refused(37));
    }
}
