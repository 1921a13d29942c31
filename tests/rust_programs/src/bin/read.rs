//! Reads the datagrams of its input, a line each, `control HEX` or `user HEX`, with each of their cuts in a block of its own length.
//! What a whole one says, and what the bodies of its elements say, is written to a room of every size from 0 up, and read again as
//! the same. A line `body TYPE BODY AGAIN` is a row of tests/lines/bodies. Prints how many datagrams and bodies there were.

use gtp::{
    write_element, write_message, write_packet, write_user, write_value, ControlMessage, Element, Elements, Header, TooSmall,
    UserHeader, UserMessage, Value, ValueError, WriteError,
};
use std::cmp::Ordering;

/// The types of elements whose bodies have a form.
const KINDS: [u8; 15] = [1, 2, 3, 71, 72, 73, 79, 80, 82, 83, 87, 94, 99, 100, 128];

/// What a call writes to a room that is large enough. It refuses a smaller one, with the size that it needs, and leaves it as it is;
/// so it leaves what a larger one has behind.
fn written(write: impl Fn(&mut [u8]) -> Result<usize, WriteError>) -> Box<[u8]> {
    let size = match write(&mut []) {
        Ok(size) | Err(WriteError::TooSmall(TooSmall { needed: size })) => size,
        Err(error) => panic!("{error}"),
    };
    let mut text = Box::default();
    for len in 0..=size + 4 {
        let mut room = vec![0xa5; len].into_boxed_slice();
        let is_small = len < size;
        let answer = if is_small { Err(WriteError::TooSmall(TooSmall { needed: size })) } else { Ok(size) };
        assert_eq!(write(&mut room), answer);
        let (front, back) = room.split_at(if is_small { 0 } else { size });
        assert!(back.iter().all(|octet| *octet == 0xa5));
        match len.cmp(&size) {
            Ordering::Less => {}
            Ordering::Equal => text = front.into(),
            Ordering::Greater => assert_eq!(front, &*text),
        }
    }
    text
}

/// Reads a body and each of its cuts in each form, and writes what it says.
fn read_body(body: &[u8]) {
    for kind in KINDS {
        for len in 0..=body.len() {
            let cut: Box<[u8]> = body[..len].into();
            let Ok(value) = Value::read(kind, &cut) else { continue };
            let again = written(|room| write_value(room, &value));
            assert!(again.len() <= len);
            assert_eq!(Value::read(kind, &again).as_ref(), Ok(&value));
        }
    }
}

/// Reads the elements of a list, one after the other, and what they say.
fn read_elements(list: &[u8]) {
    let mut elements = Elements::new(list);
    let mut end = 0;
    for element in elements.by_ref() {
        assert_eq!(element.at, end);
        end += 4 + element.body.len();
        if let Some(first) = Elements::new(list).first(element.kind, element.instance) {
            assert!(first.at <= element.at && (first.kind, first.instance) == (element.kind, element.instance));
        }
        assert_eq!(element.value(), Value::read(element.kind, element.body));
    }
    assert_eq!(elements.rest(), &list[end..]);
}

/// Writes the elements of a list again, one after the other.
fn write_elements(list: &[u8]) {
    let mut again = vec![0xa5; list.len()].into_boxed_slice();
    for element in Elements::new(list) {
        let Element { kind, instance, at, body, .. } = element;
        let alone = written(|room| write_element(room, 0, kind, instance, body));
        assert_eq!(Elements::new(&alone).next(), Some(Element { at: 0, spare: 0, ..element }));
        let small = write_element(&mut again[..at + alone.len() - 1], at, kind, instance, body);
        assert_eq!(small, Err(WriteError::TooSmall(TooSmall { needed: alone.len() })));
        assert_eq!(write_element(&mut again, at, kind, instance, body), Ok(alone.len()));
        read_body(body);
        if kind == 93 {
            write_elements(body);
        }
    }
    assert!(Elements::new(&again).eq(Elements::new(list).map(|element| Element { spare: 0, ..element })));
}

fn control_again(message: &ControlMessage<'_>) {
    let (kind, teid, sequence, priority) = (message.kind(), message.teid(), message.sequence(), message.priority());
    let header = Header { kind, teid, sequence, priority };
    let again = written(|room| write_message(room, &header, message.payload()));
    let back = ControlMessage::read(&again).expect("what was written of a message");
    assert_eq!(format!("{back:?}"), format!("{message:?}"));
    assert!(back.second().is_none());
    if message.has_elements() {
        write_elements(message.payload());
    }
}

fn read_control(octets: &[u8], is_whole: bool) {
    let mut next = match ControlMessage::read(octets) {
        Ok(message) => Some(message),
        Err(_) => {
            (0..octets.len().min(40)).for_each(|place| read_elements(&octets[place..]));
            None
        }
    };
    while let Some(message) = next {
        if message.has_elements() {
            read_elements(message.payload());
        }
        if is_whole {
            control_again(&message);
        }
        next = message.second();
    }
}

fn read_user(octets: &[u8], is_whole: bool) {
    let Ok(message) = UserMessage::read(octets) else { return };
    let extensions: usize = message.extensions().map(|extension| 2 + extension.content.len()).sum();
    assert!(message.payload().len() + extensions <= octets.len());
    if !is_whole {
        return;
    }
    let (kind, teid, sequence, npdu, peer) =
        (message.kind(), message.teid(), message.sequence(), message.npdu(), message.peer());
    let header = UserHeader { kind, teid, sequence, npdu, peer };
    let again = written(|room| write_user(room, &header, message.payload()));
    let back = UserMessage::read(&again).expect("what was written of a message");
    assert_eq!(format!("{back:?}"), format!("{message:?}"));
    assert_eq!(back.extensions().count(), 0);
    if kind == UserMessage::G_PDU {
        let again = written(|room| write_packet(room, teid, message.payload()));
        let back = UserMessage::read(&again).expect("a G-PDU");
        assert_eq!((back.kind(), back.teid(), back.payload()), (kind, teid, message.payload()));
    }
}

/// The octets of some digits; `-` is none.
fn octets_of(digits: &str) -> Vec<u8> {
    let octet = |at| u8::from_str_radix(&digits[at..at + 2], 16).expect("digits");
    if digits == "-" {
        return Vec::new();
    }
    (0..digits.len()).step_by(2).map(octet).collect()
}

/// Whether a row says what is written again for a body.
fn read_row(kind: &str, body: &str, again: &str) {
    let (kind, body) = (kind.parse().expect("a type"), octets_of(body).into_boxed_slice());
    match Value::read(kind, &body) {
        Ok(value) => assert_eq!(written(|room| write_value(room, &value)), octets_of(again).into(), "{kind} {body:02x?}"),
        Err(ValueError::Short) => assert_eq!(again, "short", "{kind} {body:02x?}"),
        Err(ValueError::Bad) => assert_eq!(again, "none", "{kind} {body:02x?}"),
    }
}

fn read_cuts(digits: &str, read: impl Fn(&[u8], bool)) {
    let octets = octets_of(digits);
    for len in 0..=octets.len() {
        let cut: Box<[u8]> = octets[..len].into();
        read(&cut, len == octets.len());
    }
}

fn main() {
    let (mut datagrams, mut bodies) = (0, 0);
    for line in std::io::stdin().lines() {
        let line = line.expect("a line");
        match line.split(' ').collect::<Vec<_>>()[..] {
            ["body", kind, body, again] => read_row(kind, body, again),
            ["control", digits] => read_cuts(digits, read_control),
            ["user", digits] => read_cuts(digits, read_user),
            _ => panic!("{line}"),
        }
        *(if line.starts_with("body") { &mut bodies } else { &mut datagrams }) += 1;
    }
    assert!(datagrams > 0 && bodies > 0);
    println!("{datagrams} {bodies}");
}
