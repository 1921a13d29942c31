//! Writing to a buffer.

use crate::ffi;
use crate::{Value, WriteError};
use std::net::IpAddr;

/// The header of a message of the control plane (TS 29.274 5.1).
#[derive(Clone, Copy, Debug, Default, PartialEq, Eq)]
pub struct Header {
    /// The type of the message.
    pub kind: u8,
    /// The receiver's TEID.
    pub teid: Option<u32>,
    /// The sequence number, below 2^24.
    pub sequence: u32,
    /// The message priority, below 16; only beside a TEID.
    pub priority: Option<u8>,
}

fn result_of(status: u8, size: u64) -> Result<usize, WriteError> {
    match status {
        ffi::DONE => Ok(size as usize),
        _ => Err(WriteError::of(status, size)),
    }
}

/// The version of the library, as `"0.1.0"`: that of this crate where both are of one release.
pub fn version() -> String {
    let (mut buffer, mut size) = ([0; 32], 0);
    // SAFETY: the pointers are to a slice of this length and to a place of its own.
    unsafe { ffi::gtp_version(buffer.as_mut_ptr(), buffer.len(), &mut size) };
    String::from_utf8_lossy(&buffer[..size as usize]).into_owned()
}

/// Writes an element at a place of the buffer, and returns how many octets it has.
///
/// # Errors
/// `BadValue` for an instance above 15, a body of more than 65,535 octets or a place past the buffer; `TooSmall` says how many octets
/// the element has. The buffer is as it was then.
pub fn write_element(buffer: &mut [u8], place: usize, kind: u8, instance: u8, body: &[u8]) -> Result<usize, WriteError> {
    let mut size = 0;
    let (to, room) = (buffer.as_mut_ptr(), buffer.len());
    // SAFETY: the pointers are to slices of these lengths and to a place of its own, and the buffer is borrowed alone.
    let status =
        unsafe { ffi::gtp_element_write(to, room, place as u64, kind, instance, body.as_ptr(), body.len(), &mut size) };
    result_of(status, size)
}

/// Writes the body of an element that says a value (TS 29.274 clause 8), at the front of the buffer, and returns how many octets it
/// has: what [`write_element`] takes. A [`Value`] that was read is written as the body that says the same, with spare bits 0.
///
/// # Errors
/// `BadValue` for a value that its type cannot say; `TooSmall` says how many octets the body has; `NoMemory`. The buffer is as it was
/// then.
pub fn write_value(buffer: &mut [u8], value: &Value<'_>) -> Result<usize, WriteError> {
    let mut size = 0;
    let status = value.write(buffer, &mut size);
    result_of(status, size)
}

/// Writes a message of the control plane that carries these octets, which may be elements, and returns how many octets it has. It is
/// written as it is asked for: [`ControlMessage::read`](crate::ControlMessage::read) says whether it is one.
///
/// # Errors
/// `BadValue` for a value of the header out of its range, or more than 65,527 octets to carry; `TooSmall` says how many octets the
/// message has. The buffer is as it was then.
pub fn write_message(buffer: &mut [u8], header: &Header, payload: &[u8]) -> Result<usize, WriteError> {
    let head = ffi::Head {
        kind: header.kind,
        has_teid: header.teid.is_some().into(),
        teid: header.teid.unwrap_or(0),
        seq: header.sequence,
        has_priority: header.priority.is_some().into(),
        priority: header.priority.unwrap_or(0),
        ..ffi::Head::default()
    };
    let mut size = 0;
    let (to, room) = (buffer.as_mut_ptr(), buffer.len());
    // SAFETY: the pointers are to slices of these lengths and to places of their own, and the buffer is borrowed alone.
    let status = unsafe { ffi::gtp_control_write(to, room, &head, payload.as_ptr(), payload.len(), &mut size) };
    result_of(status, size)
}

/// Writes a G-PDU without extension headers (TS 29.281 5.1), and returns how many octets it has.
///
/// # Errors
/// `BadValue` for a packet of more than 65,535 octets; `TooSmall` says how many octets the G-PDU has. The buffer is as it was then.
pub fn write_packet(buffer: &mut [u8], teid: u32, packet: &[u8]) -> Result<usize, WriteError> {
    let mut size = 0;
    let (to, room) = (buffer.as_mut_ptr(), buffer.len());
    // SAFETY: the pointers are to slices of these lengths and to a place of its own, and the buffer is borrowed alone.
    let status = unsafe { ffi::gtp_packet_write(to, room, teid, packet.as_ptr(), packet.len(), &mut size) };
    result_of(status, size)
}

/// What a message of the user plane says beside what it carries (TS 29.281 5.1).
#[derive(Clone, Copy, Debug, Default, PartialEq, Eq)]
pub struct UserHeader {
    /// The type of the message, as [`UserMessage::G_PDU`](crate::UserMessage::G_PDU).
    pub kind: u8,
    /// The receiver's TEID, or of an Error Indication the one that it is about.
    pub teid: u32,
    /// The sequence number, which an echo, an Error Indication and a notification always have.
    pub sequence: Option<u16>,
    /// The N-PDU number.
    pub npdu: Option<u8>,
    /// The address of an Error Indication.
    pub peer: Option<IpAddr>,
}

/// Writes a message of the user plane without extension headers, and returns how many octets it has. `payload` is the packet of a
/// G-PDU, the types of a notification, and what a message of a type carries that is not known here. Allocates as many octets.
///
/// # Errors
/// `BadValue` for a message without a part that it always has, more than 255 types, or more than 65,543 octets; `TooSmall` says how
/// many octets the message has; `NoMemory`. The buffer is as it was then.
pub fn write_user(buffer: &mut [u8], header: &UserHeader, payload: &[u8]) -> Result<usize, WriteError> {
    let head = ffi::UserHead {
        kind: header.kind,
        teid: header.teid,
        has_seq: header.sequence.is_some().into(),
        seq: header.sequence.unwrap_or(0),
        has_npdu: header.npdu.is_some().into(),
        npdu: header.npdu.unwrap_or(0),
        peer: header.peer.map_or(ffi::Address::default(), ffi::Address::of),
        ..ffi::UserHead::default()
    };
    let mut size = 0;
    let (to, room) = (buffer.as_mut_ptr(), buffer.len());
    // SAFETY: the pointers are to slices of these lengths and to places of their own, and the buffer is borrowed alone.
    let status = unsafe { ffi::gtp_user_write(to, room, &head, payload.as_ptr(), payload.len(), &mut size) };
    result_of(status, size)
}
