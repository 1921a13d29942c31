//! The baseline of the measurements: decoders and encoders of the same checks in plain Rust, written as a
//! program without proofs would be, with the exports that `bench/library` has, too.
#![crate_type = "staticlib"]

mod elements;
mod fault;
mod messages;
mod packets;
mod seen;
mod values;

use fault::Fault;
use messages::{Datagram, InPlace, Message, Owned};
use packets::Packet;
use seen::View;
use std::hint::black_box;

/// Not inlined, so that all of the answer is written to memory.
#[inline(never)]
fn viewed(octets: &[u8]) -> Result<Datagram<'_, InPlace>, Fault> {
    messages::read(octets)
}

/// Not inlined, for the same reason.
#[inline(never)]
fn decoded(octets: &[u8]) -> Result<Datagram<'_, Owned>, Fault> {
    messages::read(octets)
}

/// Not inlined, so that no part of it moves out of a loop.
#[inline(never)]
fn encoded(message: &Message<Owned>) -> Option<Vec<u8>> {
    message.encode()
}

#[inline(never)]
fn packet_decoded(octets: &[u8]) -> Result<Packet<'_>, packets::Fault> {
    packets::read(octets)
}

#[inline(never)]
fn packet_viewed(octets: &[u8]) -> Result<View<'_>, packets::Fault> {
    View::read(octets)
}

#[inline(never)]
fn packet_encoded(packet: &Packet) -> Option<Vec<u8>> {
    packet.encode()
}

/// # Safety
/// `octets` can be read for `len` octets, for as long as the answer is used.
unsafe fn slice_of<'a>(octets: *const u8, len: usize) -> &'a [u8] {
    unsafe { std::slice::from_raw_parts(octets, len) }
}

/// Reads a control datagram in place: one more than its sequence number, or 0 for a fault.
///
/// # Safety
/// `octets` can be read for `len` octets.
#[unsafe(no_mangle)]
pub unsafe extern "C" fn baseline_view(octets: *const u8, len: usize) -> u64 {
    match black_box(&viewed(unsafe { slice_of(octets, len) })) {
        Ok(datagram) => 1 + u64::from(datagram.message.seq),
        Err(_) => 0,
    }
}

/// Decodes a control datagram: one more than its sequence number and the members of its list, or 0.
///
/// # Safety
/// `octets` can be read for `len` octets.
#[unsafe(no_mangle)]
pub unsafe extern "C" fn baseline_decode(octets: *const u8, len: usize) -> u64 {
    match black_box(&decoded(unsafe { slice_of(octets, len) })) {
        Ok(datagram) => 1 + u64::from(datagram.message.seq) + datagram.message.members() as u64,
        Err(_) => 0,
    }
}

/// The first fault of a control datagram as a number, 0 for none.
///
/// # Safety
/// `octets` can be read for `len` octets.
#[unsafe(no_mangle)]
pub unsafe extern "C" fn baseline_fault(octets: *const u8, len: usize) -> u64 {
    viewed(unsafe { slice_of(octets, len) })
        .err()
        .map_or(0, Fault::code)
}

/// How many octets so many encodings have; 0 where one is not what came.
fn encode_often(octets: &[u8], times: u32, mut encode: impl FnMut() -> Option<Vec<u8>>) -> u64 {
    if encode().as_deref() != Some(octets) {
        return 0;
    }
    (0..times)
        .filter_map(|_| black_box(encode()))
        .map(|written| written.len() as u64)
        .sum()
}

/// Decodes a control datagram once and encodes the message so many times: how many octets that was.
///
/// # Safety
/// `octets` can be read for `len` octets.
#[unsafe(no_mangle)]
pub unsafe extern "C" fn baseline_encode(octets: *const u8, len: usize, times: u32) -> u64 {
    let octets = unsafe { slice_of(octets, len) };
    match decoded(octets) {
        Ok(datagram) => encode_often(octets, times, || encoded(black_box(&datagram.message))),
        Err(_) => 0,
    }
}

/// Decodes a user datagram by a call that is not inlined: one more than the octets of its packet, or 0.
///
/// # Safety
/// `octets` can be read for `len` octets.
#[unsafe(no_mangle)]
pub unsafe extern "C" fn baseline_packet(octets: *const u8, len: usize) -> u64 {
    match black_box(&packet_decoded(unsafe { slice_of(octets, len) })) {
        Ok(packet) if packet.is_user_packet() => 1 + packet.payload.len() as u64,
        _ => 0,
    }
}

/// What a G-PDU says, for C.
#[repr(C)]
pub struct PacketParts {
    teid: u32,
    seq: u32,
    npdu: u32,
    first: u32,
    chain: usize,
    payload: usize,
}

/// Decodes a G-PDU, inlined, and writes out its parts: whether it is one.
///
/// # Safety
/// `octets` can be read for `len` octets.
#[unsafe(no_mangle)]
pub unsafe extern "C" fn baseline_packet_parts(
    octets: *const u8,
    len: usize,
    parts: &mut PacketParts,
) -> bool {
    match packets::read(unsafe { slice_of(octets, len) }) {
        Ok(packet) if packet.is_user_packet() => {
            *parts = PacketParts {
                teid: packet.teid,
                seq: packet.seq.map_or(65_536, u32::from),
                npdu: packet.npdu.map_or(256, u32::from),
                first: u32::from(packet.first),
                chain: packet.chain.len(),
                payload: packet.payload.len(),
            };
            true
        }
        _ => false,
    }
}

/// Views a user datagram by a call that is not inlined: one more than the octets of its packet, or 0.
///
/// # Safety
/// `octets` can be read for `len` octets.
#[unsafe(no_mangle)]
pub unsafe extern "C" fn baseline_packet_view(octets: *const u8, len: usize) -> u64 {
    match black_box(&packet_viewed(unsafe { slice_of(octets, len) })) {
        Ok(view) if view.is_user_packet() => 1 + view.payload().len() as u64,
        _ => 0,
    }
}

/// Views a G-PDU, inlined, and writes out its parts: whether it is one.
///
/// # Safety
/// `octets` can be read for `len` octets.
#[unsafe(no_mangle)]
pub unsafe extern "C" fn baseline_packet_view_parts(
    octets: *const u8,
    len: usize,
    parts: &mut PacketParts,
) -> bool {
    match View::read(unsafe { slice_of(octets, len) }) {
        Ok(view) if view.is_user_packet() => {
            *parts = PacketParts {
                teid: view.teid(),
                seq: view.seq().map_or(65_536, u32::from),
                npdu: view.npdu().map_or(256, u32::from),
                first: u32::from(view.first()),
                chain: view.chain().len(),
                payload: view.payload().len(),
            };
            true
        }
        _ => false,
    }
}

/// Decodes a user datagram once and encodes the message so many times: how many octets that was.
///
/// # Safety
/// `octets` can be read for `len` octets.
#[unsafe(no_mangle)]
pub unsafe extern "C" fn baseline_packet_encode(octets: *const u8, len: usize, times: u32) -> u64 {
    let octets = unsafe { slice_of(octets, len) };
    match packet_decoded(octets) {
        Ok(packet) => encode_often(octets, times, || packet_encoded(black_box(&packet))),
        Err(_) => 0,
    }
}
