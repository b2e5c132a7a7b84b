//! Compared calls of the listing's lines.

use crate::cases::{written, Case};
use crate::receivers::{answer, answer_row};
use crate::request::Request;
use crate::rows::{link_event_numbers, load_numbers};
use second::gen;
use second::listing::{line_of, HEADING};
use second::message::LinkEvent;
use second::numbers::{DONE, OUTPUT_SHORT, UNSOUND};
use second::receiver::Incoming;
use second::rng::Rng;

/// A text written to an output that may be too short.
fn text_case(rng: &mut Rng, request: Request, text: &[u8]) -> Case {
    let room = gen::lent_length(rng, text.len());
    let mut out = rng.bytes(room);
    let request = request.bytes("out", &out);
    if room < text.len() {
        return request.expects(written((OUTPUT_SHORT, 0), out));
    }
    out[..text.len()].copy_from_slice(text);
    request.expects(written((DONE, text.len()), out))
}

pub fn heading(rng: &mut Rng) -> Case {
    text_case(rng, Request::new(), HEADING.as_bytes())
}

/// News made by hand. The reader itself refuses with no number that tells a channel.
fn news(rng: &mut Rng) -> LinkEvent {
    match rng.below(8) {
        0 => LinkEvent::Nothing,
        1 => LinkEvent::Query,
        2 => LinkEvent::Notice { room: rng.next_u64() as u16 },
        3 => LinkEvent::Refused(rng.pick(&[UNSOUND, 30, 31, 32, 33])),
        _ => LinkEvent::Transfer(answer(rng)),
    }
}

pub fn line(rng: &mut Rng) -> Case {
    let event = news(rng);
    let wide = rng.pick(&gen::WIDE);
    let (channel, total, any) = (rng.below(40), rng.below(99_999), rng.below(99_999));
    let load = Incoming { channel, total, held: rng.pick(&[any, wide]) };
    let load = rng.percent(80).then_some(load);
    let length = rng.between(4, 9);
    let message = rng.bytes(length);
    let (_, answer, [kind, value]) = link_event_numbers(&event);
    let answer = match &event {
        LinkEvent::Transfer(answer) => answer_row(rng, answer),
        _ => answer,
    };
    let request = Request::new().numbers("news", &[kind, value]).numbers("answer", &answer);
    let request = request.numbers("load", &load_numbers(load)).bytes("message", &message);
    let text = line_of(&event, load, &message).unwrap_or_default();
    text_case(rng, request, text.as_bytes())
}
