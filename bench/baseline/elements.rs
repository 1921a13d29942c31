//! Lists of elements, and the rows of a message's table.

use crate::fault::Fault;
use crate::values::{Unread, Value};

/// An element: its body, and its place in the datagram.
#[derive(Clone, Copy)]
pub struct Element<'a> {
    pub kind: u8,
    pub instance: u8,
    pub body: &'a [u8],
    pub at: usize,
}

/// The elements of octets, in order; a fault where the rest is no whole element.
#[derive(Clone, Copy)]
pub struct Elements<'a> {
    pub rest: &'a [u8],
    pub at: usize,
}

impl<'a> Elements<'a> {
    #[inline]
    fn read_next(&mut self) -> Result<Option<Element<'a>>, Fault> {
        let at = self.at;
        if self.rest.is_empty() {
            return Ok(None);
        }
        let [kind, high, low, last, tail @ ..] = self.rest else {
            return Err(Fault::Truncated { at });
        };
        let len = usize::from(u16::from_be_bytes([*high, *low]));
        if tail.len() < len {
            return Err(Fault::Truncated { at });
        }
        let (body, rest) = tail.split_at(len);
        self.rest = rest;
        self.at += 4 + len;
        Ok(Some(Element {
            kind: *kind,
            instance: last & 0x0f,
            body,
            at,
        }))
    }
}

/// The first element of each row, by one walk, and the elements from the first group on. `place` says
/// which row has a type and an instance.
#[inline]
pub fn first_of_rows<'a, const N: usize>(
    list: Elements<'a>,
    place: impl Fn(u8, u8) -> Option<usize>,
) -> Result<[Option<Element<'a>>; N], Fault> {
    let mut rows = [None; N];
    let mut list = list;
    while let Some(element) = list.read_next()? {
        if let Some(index) = place(element.kind, element.instance) {
            rows[index].get_or_insert(element);
        }
    }
    Ok(rows)
}

/// Goes over the elements of a type and instance, in a list that is whole, from the first of them on.
#[inline]
pub fn for_each_from<'a>(
    first: Option<Element<'a>>,
    list: Elements<'a>,
    mut visit: impl FnMut(Element<'a>) -> Result<(), Fault>,
) -> Result<(), Fault> {
    let Some(first) = first else {
        return Ok(());
    };
    let mut rest = Elements {
        rest: &list.rest[first.at - list.at..],
        at: first.at,
    };
    while let Some(element) = rest.read_next()? {
        if element.kind == first.kind && element.instance == first.instance {
            visit(element)?;
        }
    }
    Ok(())
}

/// The value of an element.
#[inline]
pub fn value_of<'a, T: Value<'a>>(element: Element<'a>) -> Result<T, Fault> {
    let Element {
        kind,
        instance,
        body,
        at,
    } = element;
    T::read(body).map_err(|unread| match unread {
        Unread::Short => Fault::ShortValue { kind, instance, at },
        Unread::Bad => Fault::BadValue { kind, instance, at },
    })
}

/// The value of a row that needs an element.
#[inline]
fn needed<'a, T: Value<'a>>(
    row: Option<Element<'a>>,
    instance: u8,
    conditional: bool,
) -> Result<T, Fault> {
    value_of(row.ok_or(Fault::Missing {
        kind: T::KIND,
        instance,
        conditional,
    })?)
}

#[inline]
pub fn mandatory<'a, T: Value<'a>>(row: Option<Element<'a>>) -> Result<T, Fault> {
    needed(row, 0, false)
}

#[inline]
pub fn conditional<'a, T: Value<'a>>(row: Option<Element<'a>>, instance: u8) -> Result<T, Fault> {
    needed(row, instance, true)
}

/// The value of a row that needs no element: one that does not read counts as none.
#[inline]
pub fn optional<'a, T: Value<'a>>(row: Option<Element<'a>>) -> Option<T> {
    T::read(row?.body).ok()
}

#[inline]
pub fn needed_if<'a, T: Value<'a>>(
    is_needed: bool,
    row: Option<Element<'a>>,
    instance: u8,
) -> Result<Option<T>, Fault> {
    if is_needed {
        conditional(row, instance).map(Some)
    } else {
        Ok(optional(row))
    }
}

/// Appends the element of a value.
pub fn put<'a, T: Value<'a>>(out: &mut Vec<u8>, instance: u8, value: &T) {
    let [high, low] = (value.size() as u16).to_be_bytes();
    out.extend_from_slice(&[T::KIND, high, low, instance]);
    value.write(out);
}

pub fn put_option<'a, T: Value<'a>>(out: &mut Vec<u8>, instance: u8, value: &Option<T>) {
    if let Some(value) = value {
        put(out, instance, value);
    }
}

/// How many octets the element of a value has.
pub fn room<'a, T: Value<'a>>(value: &T) -> usize {
    4 + value.size()
}

pub fn room_option<'a, T: Value<'a>>(value: &Option<T>) -> usize {
    value.as_ref().map_or(0, room)
}
