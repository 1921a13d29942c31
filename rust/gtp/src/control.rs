//! Messages of the control plane (TS 29.274 5.1), read in place.

use crate::ffi;
use crate::{ControlFault, Element, Elements};

/// A message of the control plane.
#[derive(Clone, Copy)]
pub struct ControlMessage<'a> {
    octets: &'a [u8],
    head: ffi::Head,
}

impl std::fmt::Debug for ControlMessage<'_> {
    fn fmt(&self, f: &mut std::fmt::Formatter<'_>) -> std::fmt::Result {
        f.debug_struct("ControlMessage")
            .field("kind", &self.kind())
            .field("teid", &self.teid())
            .field("sequence", &self.sequence())
            .field("priority", &self.priority())
            .field("payload", &self.payload())
            .finish()
    }
}

impl<'a> ControlMessage<'a> {
    /// Reads a datagram of one message or two. Allocates nothing.
    ///
    /// # Errors
    /// The first fault of the datagram.
    pub fn read(octets: &'a [u8]) -> Result<ControlMessage<'a>, ControlFault> {
        let (mut head, mut fault) = (ffi::Head::default(), ffi::Fault::default());
        // SAFETY: the pointers are to a slice of this length and to places of their own.
        let status = unsafe { ffi::gtp_control_read(octets.as_ptr(), octets.len(), &mut head, &mut fault) };
        match status {
            ffi::DONE => Ok(ControlMessage { octets, head }),
            _ => Err(ControlFault::of(&fault)),
        }
    }

    /// The type of the message (table 6.1-1).
    pub fn kind(&self) -> u8 {
        self.head.kind
    }

    /// The receiver's TEID.
    pub fn teid(&self) -> Option<u32> {
        (self.head.has_teid != 0).then_some(self.head.teid)
    }

    /// The sequence number, below 2^24.
    pub fn sequence(&self) -> u32 {
        self.head.seq
    }

    /// The message priority, below 16 (5.4).
    pub fn priority(&self) -> Option<u8> {
        (self.head.has_priority != 0).then_some(self.head.priority)
    }

    /// The octets after the header.
    pub fn payload(&self) -> &'a [u8] {
        let at = self.head.list_at as usize;
        &self.octets[at..at + self.head.list_len as usize]
    }

    /// Whether the type is known here, so that the payload is elements, all of them whole.
    pub fn has_elements(&self) -> bool {
        self.head.has_elements != 0
    }

    /// The elements of the message.
    pub fn elements(&self) -> Elements<'a> {
        Elements::new(self.payload())
    }

    /// The first element of a type and instance.
    pub fn element(&self, kind: u8, instance: u8) -> Option<Element<'a>> {
        self.elements().first(kind, instance)
    }

    /// The second message of the datagram (5.5.1).
    pub fn second(&self) -> Option<ControlMessage<'a>> {
        match self.head.second_len as usize {
            0 => None,
            len => ControlMessage::read(&self.octets[self.octets.len() - len..]).ok(),
        }
    }
}
