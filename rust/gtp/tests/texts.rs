//! What messages and elements are called, and what elements say, as text.

use gtp::kinds::message::{CREATE_SESSION_REQUEST, ECHO_REQUEST};
use gtp::{element_name, message_name, Element, Elements, WriteError};

/// A Modify Bearer Request (TS 29.274 6.1), whose table is not read here.
const MODIFY_BEARER_REQUEST: u8 = 34;

fn element(kind: u8, body: &[u8]) -> Element<'_> {
    Element { kind, instance: 0, spare: 0, at: 0, body }
}

#[test]
fn types_have_names() {
    assert_eq!(message_name(CREATE_SESSION_REQUEST).as_deref(), Some("create-session-request"));
    assert_eq!(message_name(MODIFY_BEARER_REQUEST).as_deref(), Some("modify-bearer-request"));
    assert_eq!(message_name(4), None);
    assert_eq!(element_name(93).as_deref(), Some("bearer-context"));
    assert_eq!(element_name(86).as_deref(), Some("uli"));
    assert_eq!(element_name(250), None);
}

#[test]
fn a_value_is_shown() {
    let recovery = element(3, &[7]);
    assert_eq!(recovery.lines(ECHO_REQUEST).unwrap(), "ie 3 0 recovery 7\n");
    let json = "{\"type\":3,\"instance\":0,\"name\":\"recovery\",\"value\":7}\n";
    assert_eq!(recovery.json(ECHO_REQUEST).unwrap(), json);
}

#[test]
fn a_group_is_shown_with_its_elements() {
    let list = [93, 0, 5, 0, 73, 0, 1, 0, 5];
    let context = Elements::new(&list).next().expect("a context");
    assert_eq!(context.lines(MODIFY_BEARER_REQUEST).unwrap(), "ie 93 0 bearer-context\n  ie 73 0 ebi 5\n");
}

#[test]
fn a_long_text_is_whole() {
    let octets = [0xab; 1000];
    let lines = element(250, &octets).lines(ECHO_REQUEST).unwrap();
    assert_eq!(lines, format!("ie 250 0 octets {}\n", "ab".repeat(1000)));
}

#[test]
fn what_no_element_is_has_no_text() {
    let octets = [0; 65_536];
    assert_eq!(element(3, &octets).lines(ECHO_REQUEST), Err(WriteError::BadValue));
    let late = Element { instance: 16, ..element(3, &octets[..1]) };
    assert_eq!(late.json(ECHO_REQUEST), Err(WriteError::BadValue));
}
