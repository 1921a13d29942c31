//! User datagrams: a G-PDU with its chain of extension headers. All other types are kept as octets.

pub enum Fault {
    Short,
    Version,
    Protocol,
    Length,
    ExtensionZero { at: usize },
    ExtensionPast { at: usize },
    ExtensionNeeded { kind: u8 },
}

pub struct Packet<'a> {
    pub kind: u8,
    pub teid: u32,
    pub seq: Option<u16>,
    pub npdu: Option<u8>,
    /// The type of the first extension header, 0 for none, and the octets of the chain.
    pub first: u8,
    pub chain: &'a [u8],
    pub payload: &'a [u8],
}

pub const G_PDU: u8 = 255;

/// How many octets a chain of extension headers has, from `start` on.
#[inline]
pub fn chain_length(octets: &[u8], start: usize, first: u8) -> Result<usize, Fault> {
    let mut at = start;
    let mut kind = first;
    while kind != 0 {
        let units = *octets.get(at).ok_or(Fault::ExtensionPast { at })?;
        if units == 0 {
            return Err(Fault::ExtensionZero { at });
        }
        let size = 4 * usize::from(units);
        if size > octets.len() - at {
            return Err(Fault::ExtensionPast { at });
        }
        if kind >= 128 {
            return Err(Fault::ExtensionNeeded { kind });
        }
        at += size;
        kind = octets[at - 1];
    }
    Ok(at - start)
}

#[inline]
pub fn read(octets: &[u8]) -> Result<Packet<'_>, Fault> {
    let [flags, kind, high, low, a, b, c, d, rest @ ..] = octets else {
        return Err(Fault::Short);
    };
    let flags = *flags;
    if flags >> 5 != 1 {
        return Err(Fault::Version);
    }
    if flags & 0x10 == 0 {
        return Err(Fault::Protocol);
    }
    if usize::from(u16::from_be_bytes([*high, *low])) != rest.len() {
        return Err(Fault::Length);
    }
    let mut packet = Packet {
        kind: *kind,
        teid: u32::from_be_bytes([*a, *b, *c, *d]),
        seq: None,
        npdu: None,
        first: 0,
        chain: &[],
        payload: rest,
    };
    if flags & 0x07 != 0 {
        let [high, low, npdu, next, rest @ ..] = rest else {
            return Err(Fault::Short);
        };
        packet.seq = (flags & 0x02 != 0).then(|| u16::from_be_bytes([*high, *low]));
        packet.npdu = (flags & 0x01 != 0).then_some(*npdu);
        packet.first = if flags & 0x04 != 0 { *next } else { 0 };
        let size = chain_length(octets, 12, packet.first)?;
        (packet.chain, packet.payload) = rest.split_at(size);
    }
    Ok(packet)
}

impl Packet<'_> {
    pub fn is_user_packet(&self) -> bool {
        self.kind == G_PDU
    }

    fn flags(&self) -> u8 {
        u8::from(self.first != 0) << 2
            | u8::from(self.seq.is_some()) << 1
            | u8::from(self.npdu.is_some())
    }

    /// The encoding, or none where it is longer than its header can state.
    pub fn encode(&self) -> Option<Vec<u8>> {
        let flags = self.flags();
        let len = self.chain.len() + self.payload.len() + if flags == 0 { 0 } else { 4 };
        let [high, low] = u16::try_from(len).ok()?.to_be_bytes();
        let mut out = Vec::with_capacity(8 + len);
        out.extend_from_slice(&[0x30 | flags, self.kind, high, low]);
        out.extend_from_slice(&self.teid.to_be_bytes());
        if flags != 0 {
            out.extend_from_slice(&self.seq.unwrap_or(0).to_be_bytes());
            out.extend_from_slice(&[self.npdu.unwrap_or(0), self.first]);
        }
        out.extend_from_slice(self.chain);
        out.extend_from_slice(self.payload);
        Some(out)
    }
}
