//! What messages and elements are called, and what elements say, as text.

use crate::ffi;
use crate::{Element, WriteError};

/// The text that a call writes, in a buffer of as many octets as it says that it needs.
fn text_of(mut write: impl FnMut(*mut u8, usize, &mut u64) -> u8) -> Result<Option<String>, WriteError> {
    let (mut text, mut size) = (vec![0; 256], 0);
    loop {
        match write(text.as_mut_ptr(), text.len(), &mut size) {
            ffi::DONE => {
                text.truncate(size as usize);
                return Ok(Some(String::from_utf8_lossy(&text).into_owned()));
            }
            ffi::NONE => return Ok(None),
            ffi::TOO_SMALL if size as usize > text.len() => text.resize(size as usize, 0),
            status => return Err(WriteError::of(status, size)),
        }
    }
}

/// The name of a type of message of the control plane (TS 29.274 table 6.1-1), as `"create-session-request"`, also of types that are
/// not read here; `None` of one that has no name.
pub fn message_name(kind: u8) -> Option<String> {
    // SAFETY: the pointers are to a slice of this length and to a place of its own.
    text_of(|to, room, size| unsafe { ffi::gtp_message_name(to, room, kind, size) }).ok().flatten()
}

/// The name of a type of element (TS 29.274 table 8.1-1), as `"bearer-context"`; `None` of one that has no name.
pub fn element_name(kind: u8) -> Option<String> {
    // SAFETY: the pointers are to a slice of this length and to a place of its own.
    text_of(|to, room, size| unsafe { ffi::gtp_element_name(to, room, kind, size) }).ok().flatten()
}

impl Element<'_> {
    /// The lines of the element in a message of a type, as `gtpshow decode --all` shows them: the value of its type, and the fields of its
    /// form; a group with the elements in it.
    ///
    /// # Errors
    /// `BadValue` for an instance above 15 or a body of more than 65,535 octets, which no element has that was read; `NoMemory`.
    pub fn lines(&self, message: u8) -> Result<String, WriteError> {
        let (body, len) = (self.body.as_ptr(), self.body.len());
        // SAFETY: the pointers are to slices of these lengths and to a place of their own.
        let text = text_of(|to, room, size| unsafe {
            ffi::gtp_element_lines(to, room, message, self.kind, self.instance, body, len, size)
        })?;
        Ok(text.unwrap_or_default())
    }

    /// The element as one line of JSON, as it is among the `elements` of `gtpshow decode --all --json`.
    ///
    /// # Errors
    /// Those of [`Element::lines`].
    pub fn json(&self, message: u8) -> Result<String, WriteError> {
        let (body, len) = (self.body.as_ptr(), self.body.len());
        // SAFETY: the pointers are to slices of these lengths and to a place of their own.
        let text = text_of(|to, room, size| unsafe {
            ffi::gtp_element_json(to, room, message, self.kind, self.instance, body, len, size)
        })?;
        Ok(text.unwrap_or_default())
    }
}
