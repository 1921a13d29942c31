//! What elements say: sixteen types, read where they lie and written.

/// Why a body says nothing.
#[derive(Clone, Copy, Debug)]
pub enum Unread {
    Short,
    Bad,
}

pub trait Value<'a>: Sized {
    /// The type of the element.
    const KIND: u8;

    fn read(body: &'a [u8]) -> Result<Self, Unread>;

    /// How many octets the body has.
    fn size(&self) -> usize;

    fn write(&self, out: &mut Vec<u8>);
}

/// The octets at an index.
fn array<const N: usize>(octets: &[u8], at: usize) -> [u8; N] {
    octets[at..at + N].try_into().expect("so many octets")
}

fn number32(octets: &[u8], at: usize) -> u32 {
    u32::from_be_bytes(array(octets, at))
}

/// A number of five octets.
fn number40(octets: &[u8], at: usize) -> u64 {
    u64::from(octets[at]) << 32 | u64::from(number32(octets, at + 1))
}

/// A type of element that says a number in some bits of its first octet.
macro_rules! octet_value {
    ($name:ident, $kind:literal, $mask:literal) => {
        #[derive(Clone, Copy)]
        pub struct $name(pub u8);

        impl Value<'_> for $name {
            const KIND: u8 = $kind;

            fn read(body: &[u8]) -> Result<Self, Unread> {
                body.first()
                    .map(|octet| $name(octet & $mask))
                    .ok_or(Unread::Short)
            }

            fn size(&self) -> usize {
                1
            }

            fn write(&self, out: &mut Vec<u8>) {
                out.push(self.0);
            }
        }
    };
}

octet_value!(Recovery, 3, 0xff);
octet_value!(Identity, 73, 0x0f);
octet_value!(RadioAccess, 82, 0xff);
octet_value!(PdnType, 99, 0x07);
octet_value!(Transaction, 100, 0xff);
octet_value!(Selection, 128, 0x03);

/// A subscriber: 6 to 15 digits.
#[derive(Clone, Copy)]
pub struct Imsi {
    digits: [u8; 15],
    len: u8,
}

impl Imsi {
    fn digits(&self) -> &[u8] {
        &self.digits[..usize::from(self.len)]
    }
}

impl Value<'_> for Imsi {
    const KIND: u8 = 1;

    fn read(body: &[u8]) -> Result<Imsi, Unread> {
        match body.len() {
            0..3 => return Err(Unread::Short),
            3..=8 => {}
            _ => return Err(Unread::Bad),
        }
        let mut digits = [0; 15];
        let mut len = 0;
        for (index, octet) in body.iter().enumerate() {
            let (low, high) = (octet & 0x0f, octet >> 4);
            if low > 9 {
                return Err(Unread::Bad);
            }
            digits[len] = low;
            len += 1;
            if high == 15 && index == body.len() - 1 {
                break;
            }
            if high > 9 || len == 15 {
                return Err(Unread::Bad);
            }
            digits[len] = high;
            len += 1;
        }
        if len < 6 {
            return Err(Unread::Bad);
        }
        Ok(Imsi {
            digits,
            len: len as u8,
        })
    }

    fn size(&self) -> usize {
        usize::from(self.len).div_ceil(2)
    }

    fn write(&self, out: &mut Vec<u8>) {
        let mut packed = [0; 8];
        for (octet, pair) in packed.iter_mut().zip(self.digits().chunks(2)) {
            *octet = pair[0] | pair.get(1).unwrap_or(&15) << 4;
        }
        out.extend_from_slice(&packed[..self.size()]);
    }
}

/// An access point's name: labels, each after its length.
#[derive(Clone, Copy)]
pub struct Name<'a>(pub &'a [u8]);

fn is_label(label: &[u8]) -> bool {
    label
        .iter()
        .all(|octet| octet.is_ascii_graphic() && *octet != b'.')
}

fn are_labels(octets: &[u8]) -> bool {
    let mut rest = octets;
    while let Some((&len, tail)) = rest.split_first() {
        let len = usize::from(len);
        if len == 0 || len > 63 || len > tail.len() {
            return false;
        }
        let (label, after) = tail.split_at(len);
        if !is_label(label) {
            return false;
        }
        rest = after;
    }
    true
}

impl<'a> Value<'a> for Name<'a> {
    const KIND: u8 = 71;

    fn read(body: &'a [u8]) -> Result<Name<'a>, Unread> {
        if body.is_empty() {
            return Err(Unread::Short);
        }
        if body.len() > 100 || !are_labels(body) {
            return Err(Unread::Bad);
        }
        Ok(Name(body))
    }

    fn size(&self) -> usize {
        self.0.len()
    }

    fn write(&self, out: &mut Vec<u8>) {
        out.extend_from_slice(self.0);
    }
}

/// A traffic flow template: at most 255 octets.
#[derive(Clone, Copy)]
pub struct Template<'a>(pub &'a [u8]);

impl<'a> Value<'a> for Template<'a> {
    const KIND: u8 = 84;

    fn read(body: &'a [u8]) -> Result<Template<'a>, Unread> {
        if body.len() > 255 {
            return Err(Unread::Bad);
        }
        Ok(Template(body))
    }

    fn size(&self) -> usize {
        self.0.len()
    }

    fn write(&self, out: &mut Vec<u8>) {
        out.extend_from_slice(self.0);
    }
}

#[derive(Clone, Copy)]
pub struct TunnelEnd {
    interface: u8,
    teid: u32,
    v4: Option<[u8; 4]>,
    v6: Option<[u8; 16]>,
}

impl Value<'_> for TunnelEnd {
    const KIND: u8 = 87;

    fn read(body: &[u8]) -> Result<TunnelEnd, Unread> {
        let flags = *body.first().ok_or(Unread::Short)?;
        let (has_v4, has_v6) = (flags & 0x80 != 0, flags & 0x40 != 0);
        let after_v4 = if has_v4 { 9 } else { 5 };
        let end = if has_v6 { after_v4 + 16 } else { after_v4 };
        if body.len() < end {
            return Err(Unread::Short);
        }
        if !has_v4 && !has_v6 {
            return Err(Unread::Bad);
        }
        Ok(TunnelEnd {
            interface: flags & 0x3f,
            teid: number32(body, 1),
            v4: has_v4.then(|| array(body, 5)),
            v6: has_v6.then(|| array(body, after_v4)),
        })
    }

    fn size(&self) -> usize {
        5 + self.v4.map_or(0, |v4| v4.len()) + self.v6.map_or(0, |v6| v6.len())
    }

    fn write(&self, out: &mut Vec<u8>) {
        let flags = u8::from(self.v4.is_some()) << 7 | u8::from(self.v6.is_some()) << 6;
        out.push(flags | self.interface);
        out.extend_from_slice(&self.teid.to_be_bytes());
        if let Some(v4) = self.v4 {
            out.extend_from_slice(&v4);
        }
        if let Some(v6) = self.v6 {
            out.extend_from_slice(&v6);
        }
    }
}

#[derive(Clone, Copy)]
pub struct Network {
    mcc: [u8; 3],
    /// The last digit is 15 where there are two.
    mnc: [u8; 3],
}

impl Value<'_> for Network {
    const KIND: u8 = 83;

    fn read(body: &[u8]) -> Result<Network, Unread> {
        let [first, second, third, ..] = *body else {
            return Err(Unread::Short);
        };
        let mcc = [first & 0x0f, first >> 4, second & 0x0f];
        let mnc = [third & 0x0f, third >> 4, second >> 4];
        let digits = if mnc[2] == 15 { &mnc[..2] } else { &mnc };
        if mcc.iter().chain(digits).any(|digit| *digit > 9) {
            return Err(Unread::Bad);
        }
        Ok(Network { mcc, mnc })
    }

    fn size(&self) -> usize {
        3
    }

    fn write(&self, out: &mut Vec<u8>) {
        let (mcc, mnc) = (self.mcc, self.mnc);
        out.extend_from_slice(&[
            mcc[1] << 4 | mcc[0],
            mnc[2] << 4 | mcc[2],
            mnc[1] << 4 | mnc[0],
        ]);
    }
}

/// An address of a subscriber.
#[derive(Clone, Copy)]
pub enum Allocation {
    V4([u8; 4]),
    V6 {
        prefix: u8,
        address: [u8; 16],
    },
    V4V6 {
        prefix: u8,
        v6: [u8; 16],
        v4: [u8; 4],
    },
    Other(u8),
}

impl Value<'_> for Allocation {
    const KIND: u8 = 79;

    fn read(body: &[u8]) -> Result<Allocation, Unread> {
        let kind = body.first().ok_or(Unread::Short)? & 0x07;
        let least = match kind {
            1 => 5,
            2 => 18,
            3 => 22,
            _ => 1,
        };
        if body.len() < least {
            return Err(Unread::Short);
        }
        Ok(match kind {
            1 => Allocation::V4(array(body, 1)),
            2 => Allocation::V6 {
                prefix: body[1],
                address: array(body, 2),
            },
            3 => Allocation::V4V6 {
                prefix: body[1],
                v6: array(body, 2),
                v4: array(body, 18),
            },
            other => Allocation::Other(other),
        })
    }

    fn size(&self) -> usize {
        match self {
            Allocation::V4(_) => 5,
            Allocation::V6 { .. } => 18,
            Allocation::V4V6 { .. } => 22,
            Allocation::Other(_) => 1,
        }
    }

    fn write(&self, out: &mut Vec<u8>) {
        match self {
            Allocation::V4(v4) => {
                out.push(1);
                out.extend_from_slice(v4);
            }
            Allocation::V6 { prefix, address } => {
                out.extend_from_slice(&[2, *prefix]);
                out.extend_from_slice(address);
            }
            Allocation::V4V6 { prefix, v6, v4 } => {
                out.extend_from_slice(&[3, *prefix]);
                out.extend_from_slice(v6);
                out.extend_from_slice(v4);
            }
            Allocation::Other(kind) => out.push(*kind),
        }
    }
}

#[derive(Clone, Copy)]
pub struct Quality {
    capability: bool,
    level: u8,
    vulnerability: bool,
    class: u8,
    /// Most up and down, and guaranteed up and down.
    rates: [u64; 4],
}

impl Value<'_> for Quality {
    const KIND: u8 = 80;

    fn read(body: &[u8]) -> Result<Quality, Unread> {
        if body.len() < 22 {
            return Err(Unread::Short);
        }
        Ok(Quality {
            capability: body[0] & 0x40 != 0,
            level: body[0] >> 2 & 0x0f,
            vulnerability: body[0] & 1 != 0,
            class: body[1],
            rates: [2, 7, 12, 17].map(|at| number40(body, at)),
        })
    }

    fn size(&self) -> usize {
        22
    }

    fn write(&self, out: &mut Vec<u8>) {
        let flags = u8::from(self.capability) << 6 | self.level << 2;
        out.extend_from_slice(&[flags | u8::from(self.vulnerability), self.class]);
        for rate in self.rates {
            out.extend_from_slice(&rate.to_be_bytes()[3..]);
        }
    }
}

/// The most that bearers carry together, up and down.
#[derive(Clone, Copy)]
pub struct Together {
    up: u32,
    down: u32,
}

impl Value<'_> for Together {
    const KIND: u8 = 72;

    fn read(body: &[u8]) -> Result<Together, Unread> {
        if body.len() < 8 {
            return Err(Unread::Short);
        }
        Ok(Together {
            up: number32(body, 0),
            down: number32(body, 4),
        })
    }

    fn size(&self) -> usize {
        8
    }

    fn write(&self, out: &mut Vec<u8>) {
        out.extend_from_slice(&self.up.to_be_bytes());
        out.extend_from_slice(&self.down.to_be_bytes());
    }
}

#[derive(Clone, Copy)]
pub struct Cause {
    value: u8,
    flags: u8,
    /// The type and the instance of an element at fault.
    offending: Option<(u8, u8)>,
}

impl Cause {
    pub fn accepts(&self) -> bool {
        (16..64).contains(&self.value)
    }
}

impl Value<'_> for Cause {
    const KIND: u8 = 2;

    fn read(body: &[u8]) -> Result<Cause, Unread> {
        if body.len() < 2 {
            return Err(Unread::Short);
        }
        Ok(Cause {
            value: body[0],
            flags: body[1] & 0x07,
            offending: (body.len() >= 6).then(|| (body[2], body[5] & 0x0f)),
        })
    }

    fn size(&self) -> usize {
        if self.offending.is_some() { 6 } else { 2 }
    }

    fn write(&self, out: &mut Vec<u8>) {
        out.extend_from_slice(&[self.value, self.flags]);
        if let Some((kind, instance)) = self.offending {
            out.extend_from_slice(&[kind, 0, 0, instance]);
        }
    }
}

#[derive(Clone, Copy)]
pub struct Charging(u32);

impl Value<'_> for Charging {
    const KIND: u8 = 94;

    fn read(body: &[u8]) -> Result<Charging, Unread> {
        if body.len() < 4 {
            return Err(Unread::Short);
        }
        Ok(Charging(number32(body, 0)))
    }

    fn size(&self) -> usize {
        4
    }

    fn write(&self, out: &mut Vec<u8>) {
        out.extend_from_slice(&self.0.to_be_bytes());
    }
}
