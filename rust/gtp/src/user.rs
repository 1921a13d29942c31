//! Messages of the user plane (TS 29.281 5.1), read in place.

use crate::ffi;
use crate::UserFault;
use std::iter::FusedIterator;
use std::net::IpAddr;

/// A message of the user plane.
#[derive(Clone, Copy)]
pub struct UserMessage<'a> {
    octets: &'a [u8],
    head: ffi::UserHead,
}

impl std::fmt::Debug for UserMessage<'_> {
    fn fmt(&self, f: &mut std::fmt::Formatter<'_>) -> std::fmt::Result {
        f.debug_struct("UserMessage")
            .field("kind", &self.kind())
            .field("teid", &self.teid())
            .field("sequence", &self.sequence())
            .field("npdu", &self.npdu())
            .field("peer", &self.peer())
            .field("payload", &self.payload())
            .finish()
    }
}

impl<'a> UserMessage<'a> {
    /// Echo Request.
    pub const ECHO_REQUEST: u8 = 1;
    /// Echo Response.
    pub const ECHO_RESPONSE: u8 = 2;
    /// Error Indication.
    pub const ERROR_INDICATION: u8 = 26;
    /// Supported Extension Headers Notification.
    pub const SUPPORTED_EXTENSIONS: u8 = 31;
    /// End Marker.
    pub const END_MARKER: u8 = 254;
    /// G-PDU, which carries a user's packet.
    pub const G_PDU: u8 = 255;

    /// Reads a datagram. Allocates nothing.
    ///
    /// # Errors
    /// The first fault of the datagram.
    pub fn read(octets: &'a [u8]) -> Result<UserMessage<'a>, UserFault> {
        let (mut head, mut fault) = (ffi::UserHead::default(), ffi::Fault::default());
        // SAFETY: the pointers are to a slice of this length and to places of their own.
        let status = unsafe { ffi::gtp_user_read(octets.as_ptr(), octets.len(), &mut head, &mut fault) };
        match status {
            ffi::DONE => Ok(UserMessage { octets, head }),
            _ => Err(UserFault::of(&fault)),
        }
    }

    /// The type of the message (TS 29.281 table 6.1-1).
    pub fn kind(&self) -> u8 {
        self.head.kind
    }

    /// The TEID of the header, or of an Error Indication the one that it is about; 0 for a message without one.
    pub fn teid(&self) -> u32 {
        self.head.teid
    }

    /// The sequence number.
    pub fn sequence(&self) -> Option<u16> {
        (self.head.has_seq != 0).then_some(self.head.seq)
    }

    /// The N-PDU number.
    pub fn npdu(&self) -> Option<u8> {
        (self.head.has_npdu != 0).then_some(self.head.npdu)
    }

    /// The address of an Error Indication.
    pub fn peer(&self) -> Option<IpAddr> {
        self.head.peer.ip()
    }

    /// The packet of a G-PDU, the types of a notification, and what a message of another type carries; none of the others.
    pub fn payload(&self) -> &'a [u8] {
        let (at, len) = (self.head.payload_at as usize, self.head.payload_len as usize);
        &self.octets[at..at + len]
    }

    /// The extension headers, in their order.
    pub fn extensions(&self) -> Extensions<'a> {
        let len = self.head.extensions_len as usize;
        let chain = if len == 0 { &[] } else { &self.octets[12..12 + len] };
        Extensions { chain, kind: self.head.extension }
    }
}

/// An extension header (TS 29.281 5.2).
#[derive(Clone, Copy, Debug, PartialEq, Eq)]
pub struct Extension<'a> {
    /// Its type.
    pub kind: u8,
    /// What it carries.
    pub content: &'a [u8],
}

/// The extension headers of a message.
#[derive(Clone, Debug)]
pub struct Extensions<'a> {
    chain: &'a [u8],
    kind: u8,
}

impl<'a> Iterator for Extensions<'a> {
    type Item = Extension<'a>;

    fn next(&mut self) -> Option<Extension<'a>> {
        let fours = usize::from(*self.chain.first()?);
        let (header, rest) = self.chain.split_at(4 * fours);
        let (next, content) = header[1..].split_last()?;
        let extension = Extension { kind: self.kind, content };
        (self.chain, self.kind) = (rest, *next);
        Some(extension)
    }
}

impl FusedIterator for Extensions<'_> {}
