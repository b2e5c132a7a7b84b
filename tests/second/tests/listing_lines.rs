//! Every sort of line that the listing program writes (01, the listing program).

use second::listing::list;
use second::message::write_message;

/// The lines behind the heading, tabs shown as blanks.
fn lines(input: &[u8]) -> Vec<String> {
    let mut output = Vec::new();
    list(input, &mut output).unwrap();
    let text = String::from_utf8(output).unwrap();
    assert!(text.ends_with('\n'));
    let mut lines = text.lines().map(|line| line.replace('\t', " "));
    assert_eq!(lines.next().unwrap(), "event channel bytes number gap dropped");
    lines.collect()
}

fn messages(payloads: &[&[u8]]) -> Vec<u8> {
    let mut stream = Vec::new();
    for payload in payloads {
        let mut out = vec![0; 3 + 2 * payload.len()];
        let (number, written) = write_message(1, payload, &mut out);
        assert_eq!(number, 0);
        stream.extend(&out[..written]);
    }
    stream
}

#[test]
fn empty_and_unclosed_input() {
    assert!(lines(&[]).is_empty());
    assert!(lines(&[0x7E, 0x7E, 0x7E]).is_empty());
    assert!(lines(&[1, 2, 0x7E, 1, 0, 0, 0, 0]).is_empty());
}

#[test]
fn parts_drops_and_gaps() {
    let stream = messages(&[
        &[14, 0, 3, 0, 1, 2, 3, 4],
        &[10, 0x80, 3, 1, 5],
        &[10, 0x80, 3, 1, 5],
        &[9, 0x80, 3, 4, 6],
        &[9, 0, 5, 2, 6],
        &[6, 0, 3, 5, 1, 2, 0, 0],
    ]);
    let due = [
        "part 3 4 0 0 0",
        "part 3 5 0 0 0",
        "refused 3 0 20 0 0",
        "refused 3 0 21 2 1",
        "part 5 1 0 2 0",
        "cargo 3 2 0 0 1",
    ];
    assert_eq!(lines(&stream), due);
}

#[test]
fn nulls_and_refusals_without_a_channel() {
    let stream = messages(&[
        &[],
        &[0, 0, 7],
        &[0, 0x80, 7, 7],
        &[0xFF, 0x7F, 7, 7],
        &[4, 0, 7, 7],
        &[5, 0, 32, 7],
        &[5, 0, 255, 7],
    ]);
    let due = [
        "refused - 0 2 0 0",
        "refused - 0 2 0 0",
        "null - 0 0 0 0",
        "refused - 0 22 0 0",
        "refused - 0 4 0 0",
        "refused 32 0 9 0 0",
        "refused 255 0 9 0 0",
    ];
    assert_eq!(lines(&stream), due);
}

#[test]
fn refused_messages() {
    let stream = [0x7E, 9, 0x7E, 0x7E, 0x7D, 0x7E, 0x7E, 0, 1, 0x7E, 0x7E, 0, 0xFF, 0xFF, 0x7E];
    let due =
        ["refused - 0 30 0 0", "refused - 0 31 0 0", "refused - 0 33 0 0", "notice - 65535 0 0 0"];
    assert_eq!(lines(&stream), due);
}

#[test]
fn the_longest_message_and_one_more() {
    let mut transfer = vec![0xFE, 0x7F, 31, 0];
    transfer.resize(32_766, 0x7E);
    let mut longer = transfer.clone();
    longer.push(0);
    let due = ["cargo 31 32762 0 0 0", "refused - 0 32 0 0", "refused 31 0 20 0 0"];
    assert_eq!(lines(&messages(&[&transfer, &longer, &transfer])), due);
}
