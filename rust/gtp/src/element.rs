//! Elements (TS 29.274 8.2), in the place where they lie.

use crate::ffi;
use crate::{Value, ValueError};
use std::iter::FusedIterator;

/// An element.
#[derive(Clone, Copy, Debug, PartialEq, Eq)]
pub struct Element<'a> {
    /// Its type (TS 29.274 table 8.1-1).
    pub kind: u8,
    /// Its instance, below 16.
    pub instance: u8,
    /// The spare half octet before the instance.
    pub spare: u8,
    /// The place of its first octet in the payload of the message, or in the body of the group.
    pub at: usize,
    /// Its body.
    pub body: &'a [u8],
}

impl<'a> Element<'a> {
    fn of(octets: &'a [u8], e: &ffi::Element) -> Element<'a> {
        let body = e.body_at as usize;
        Element {
            kind: e.kind,
            instance: e.instance,
            spare: e.spare,
            at: e.at as usize,
            body: &octets[body..body + e.len as usize],
        }
    }

    /// What the body says, by the element's type.
    ///
    /// # Errors
    /// The body says no value of the type. Of a type without a form here the value is [`Value::Octets`].
    pub fn value(&self) -> Result<Value<'a>, ValueError> {
        Value::read(self.kind, self.body)
    }

    /// The elements in the body of a group, as a Bearer Context (93).
    pub fn elements(&self) -> Elements<'a> {
        Elements::new(self.body)
    }
}

/// The elements of a message or of a group, in their order. It ends before an element that is not whole.
#[derive(Clone, Debug)]
pub struct Elements<'a> {
    octets: &'a [u8],
    place: usize,
}

impl<'a> Elements<'a> {
    /// The elements at the front of any octets.
    pub fn new(octets: &'a [u8]) -> Elements<'a> {
        Elements { octets, place: 0 }
    }

    /// The octets after those that were read: none at the end, and else some that are no whole element.
    pub fn rest(&self) -> &'a [u8] {
        &self.octets[self.place..]
    }

    /// The first of these elements with a type and instance; `None` if there is none, or they are not whole elements.
    pub fn first(&self, kind: u8, instance: u8) -> Option<Element<'a>> {
        let mut found = ffi::Element::default();
        let (octets, place) = (self.octets, self.place as u64);
        // SAFETY: the pointers are to a slice of this length and to a place of their own.
        let status = unsafe { ffi::gtp_element_first(octets.as_ptr(), octets.len(), place, kind, instance, &mut found) };
        (status == ffi::DONE).then(|| Element::of(octets, &found))
    }
}

impl<'a> Iterator for Elements<'a> {
    type Item = Element<'a>;

    fn next(&mut self) -> Option<Element<'a>> {
        let mut found = ffi::Element::default();
        // SAFETY: the pointers are to a slice of this length and to a place of their own.
        let status = unsafe { ffi::gtp_element_next(self.octets.as_ptr(), self.octets.len(), self.place as u64, &mut found) };
        if status != ffi::DONE {
            return None;
        }
        self.place = (found.body_at + found.len) as usize;
        Some(Element::of(self.octets, &found))
    }
}

impl FusedIterator for Elements<'_> {}
