//! What a reader told of a stream: as the driver answers it, and as text.

use crate::show::hex;
use second::told::{Told, What};

/// The messages in an answer of the driver; none where it is no such answer.
pub fn told_in(mut answer: &[u8]) -> Option<Vec<Told>> {
    let mut list = Vec::new();
    while !answer.is_empty() {
        let place = take_number(&mut answer)?.try_into().ok()?;
        let (kind, value) = (take_number(&mut answer)?, take_number(&mut answer)?);
        let what = match (kind, value) {
            (1, length) => What::Transfer(take(&mut answer, length.try_into().ok()?)?.to_vec()),
            (2, 0) => What::Query,
            (3, room) => What::Notice { room: room.try_into().ok()? },
            (4, number) => What::Refused(number.try_into().ok()?),
            _ => return None,
        };
        list.push(Told { place, what });
    }
    Some(list)
}

fn take_number(answer: &mut &[u8]) -> Option<u64> {
    take(answer, 8).map(|eight| u64::from_le_bytes(eight.try_into().expect("eight bytes")))
}

/// The next bytes of an answer, which goes on behind them.
fn take<'a>(answer: &mut &'a [u8], length: usize) -> Option<&'a [u8]> {
    let part = answer.get(..length)?;
    *answer = &answer[length..];
    Some(part)
}

/// Each message behind the place of the byte that closed it.
pub fn text(list: &[Told]) -> String {
    let one = |told: &Told| {
        let what = match &told.what {
            What::Transfer(payload) => format!("transfer {}", hex(payload)),
            What::Query => "query".to_string(),
            What::Notice { room } => format!("notice {room}"),
            What::Refused(number) => format!("refused {number}"),
        };
        format!("{}: {what}", told.place)
    };
    list.iter().map(one).collect::<Vec<_>>().join(", ")
}
