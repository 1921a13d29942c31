//! User datagrams as a view: the octets, and where the packet begins; parts are read when they are asked for.

use crate::packets::{Fault, G_PDU, chain_length};

#[derive(Clone, Copy)]
pub struct View<'a> {
    octets: &'a [u8],
    start: usize,
}

impl<'a> View<'a> {
    #[inline]
    pub fn read(octets: &'a [u8]) -> Result<View<'a>, Fault> {
        let [flags, _, high, low, _, _, _, _, rest @ ..] = octets else {
            return Err(Fault::Short);
        };
        if flags >> 5 != 1 {
            return Err(Fault::Version);
        }
        if flags & 0x10 == 0 {
            return Err(Fault::Protocol);
        }
        if usize::from(u16::from_be_bytes([*high, *low])) != rest.len() {
            return Err(Fault::Length);
        }
        if flags & 0x07 == 0 {
            return Ok(View { octets, start: 8 });
        }
        let [_, _, _, next, ..] = rest else {
            return Err(Fault::Short);
        };
        let first = if flags & 0x04 != 0 { *next } else { 0 };
        let start = 12 + chain_length(octets, 12, first)?;
        Ok(View { octets, start })
    }

    #[inline]
    pub fn is_user_packet(&self) -> bool {
        self.octets[1] == G_PDU
    }

    #[inline]
    pub fn teid(&self) -> u32 {
        u32::from_be_bytes(self.octets[4..8].try_into().unwrap())
    }

    #[inline]
    pub fn seq(&self) -> Option<u16> {
        (self.octets[0] & 0x02 != 0).then(|| u16::from_be_bytes([self.octets[8], self.octets[9]]))
    }

    #[inline]
    pub fn npdu(&self) -> Option<u8> {
        (self.octets[0] & 0x01 != 0).then(|| self.octets[10])
    }

    #[inline]
    pub fn first(&self) -> u8 {
        if self.octets[0] & 0x04 != 0 {
            self.octets[11]
        } else {
            0
        }
    }

    #[inline]
    pub fn chain(&self) -> &'a [u8] {
        if self.octets[0] & 0x07 == 0 {
            &[]
        } else {
            &self.octets[12..self.start]
        }
    }

    #[inline]
    pub fn payload(&self) -> &'a [u8] {
        &self.octets[self.start..]
    }
}
