//! What the bodies of elements say (TS 29.274 clause 8).

use crate::ffi::{self, Read, Write, WriteNumber};
use crate::setup::network_digits;
use crate::ValueError;
use std::net::{Ipv4Addr, Ipv6Addr};

/// What the body of an element says, by its type.
#[derive(Clone, Debug, PartialEq, Eq)]
#[non_exhaustive]
pub enum Value<'a> {
    /// IMSI (1): its digits.
    Imsi(String),
    /// Cause (2).
    Cause(Cause),
    /// Recovery (3): the restart counter.
    Recovery(u8),
    /// Access Point Name (71): its labels, joined by dots.
    Apn(String),
    /// Aggregate Maximum Bit Rate (72).
    Ambr(Ambr),
    /// EPS Bearer ID (73).
    Ebi(u8),
    /// PDN Address Allocation (79).
    Paa(Paa),
    /// Bearer QoS (80).
    Quality(Quality),
    /// RAT Type (82).
    Rat(u8),
    /// Serving Network (83): country and network codes, as digits.
    Network {
        /// The mobile country code, three digits.
        mcc: String,
        /// The mobile network code, two digits or three.
        mnc: String,
    },
    /// F-TEID (87).
    FTeid(FTeid),
    /// Charging ID (94).
    ChargingId(u32),
    /// PDN Type (99): 1 IPv4, 2 IPv6, 3 both.
    PdnType(u8),
    /// Procedure Transaction ID (100).
    Pti(u8),
    /// Selection Mode (128).
    Selection(u8),
    /// A body of another type.
    Octets(&'a [u8]),
}

/// A cause (8.4).
#[derive(Clone, Copy, Debug, PartialEq, Eq)]
pub struct Cause {
    /// Its value (table 8.4-1): 16 accepts.
    pub value: u8,
    /// The flag PCE: the PDN connection is at fault.
    pub pce: bool,
    /// The flag BCE: the bearer context is at fault.
    pub bce: bool,
    /// The flag CS: another node than the sender is the cause.
    pub cs: bool,
    /// The type and instance of the element at fault.
    pub offending: Option<(u8, u8)>,
}

/// Total bit rates, in kilobits a second (8.7).
#[derive(Clone, Copy, Debug, Default, PartialEq, Eq)]
pub struct Ambr {
    /// Uplink.
    pub up: u32,
    /// Downlink.
    pub down: u32,
}

/// An address allocation (8.14).
#[derive(Clone, Copy, Debug, PartialEq, Eq)]
pub enum Paa {
    /// An IPv4 address.
    V4(Ipv4Addr),
    /// An IPv6 address, and the length of its prefix in bits.
    V6(Ipv6Addr, u8),
    /// Both.
    V4V6(Ipv4Addr, Ipv6Addr, u8),
    /// Another PDN type.
    Other(u8),
}

/// The quality of service of a bearer (8.15). Rates are in kilobits a second, below 2^40.
#[derive(Clone, Copy, Debug, Default, PartialEq, Eq)]
pub struct Quality {
    /// The bit of pre-emption capability.
    pub pci: bool,
    /// The priority level, below 16.
    pub pl: u8,
    /// The bit of pre-emption vulnerability.
    pub pvi: bool,
    /// The QoS class identifier.
    pub qci: u8,
    /// The maximum bit rate, uplink and downlink.
    pub mbr: (u64, u64),
    /// The guaranteed bit rate, uplink and downlink.
    pub gbr: (u64, u64),
}

impl Quality {
    pub(crate) fn raw(&self) -> ffi::Quality {
        ffi::Quality {
            mbr_up: self.mbr.0,
            mbr_down: self.mbr.1,
            gbr_up: self.gbr.0,
            gbr_down: self.gbr.1,
            pci: self.pci,
            pl: self.pl,
            pvi: self.pvi,
            qci: self.qci,
        }
    }
}

/// A tunnel endpoint (8.22).
#[derive(Clone, Copy, Debug, PartialEq, Eq)]
pub struct FTeid {
    /// Its interface type.
    pub interface: u8,
    /// Its TEID.
    pub teid: u32,
    /// Its IPv4 address.
    pub v4: Option<Ipv4Addr>,
    /// Its IPv6 address.
    pub v6: Option<Ipv6Addr>,
}

fn read<T: Default>(call: Read<T>, body: &[u8]) -> Result<T, ValueError> {
    let mut value = T::default();
    // SAFETY: the pointers are to a slice of this length and to a place of its own.
    match unsafe { call(body.as_ptr(), body.len(), &mut value) } {
        ffi::DONE => Ok(value),
        status => Err(ValueError::of(status)),
    }
}

/// The octets that are to be written, and where.
struct Room<'a> {
    buffer: &'a mut [u8],
    size: &'a mut u64,
}

impl Room<'_> {
    fn write<T>(self, call: Write<T>, value: T) -> u8 {
        // SAFETY: the pointers are to a slice of this length, to a struct and to a place of its own, and the buffer is borrowed alone.
        unsafe { call(self.buffer.as_mut_ptr(), self.buffer.len(), &value, self.size) }
    }

    fn write_number(self, call: WriteNumber, number: impl Into<u32>) -> u8 {
        // SAFETY: the pointers are to a slice of this length and to a place of its own, and the buffer is borrowed alone.
        unsafe { call(self.buffer.as_mut_ptr(), self.buffer.len(), number.into(), self.size) }
    }

    fn write_octets(self, octets: &[u8]) -> u8 {
        *self.size = octets.len() as u64;
        match self.buffer.get_mut(..octets.len()) {
            Some(place) => {
                place.copy_from_slice(octets);
                ffi::DONE
            }
            None => ffi::TOO_SMALL,
        }
    }
}

/// The digits of an IMSI. A text that is none has a count of 0, which no IMSI has.
pub(crate) fn digits_of(text: &str) -> ffi::Imsi {
    let mut imsi = ffi::Imsi::default();
    if text.len() <= imsi.digits.len() && text.bytes().all(|octet| octet.is_ascii_digit()) {
        imsi.count = text.len() as u8;
        for (digit, octet) in imsi.digits.iter_mut().zip(text.bytes()) {
            *digit = octet - b'0';
        }
    }
    imsi
}

/// Labels, each after its length, of a text that joins them by dots. A text that is too long has a length of 0, which no name has.
fn labels_of(text: &str) -> ffi::Apn {
    let mut apn = ffi::Apn::default();
    if text.len() >= apn.octets.len() {
        return apn;
    }
    for label in text.split('.') {
        let start = usize::from(apn.len);
        apn.octets[start] = label.len() as u8;
        apn.octets[start + 1..][..label.len()].copy_from_slice(label.as_bytes());
        apn.len += 1 + label.len() as u8;
    }
    apn
}

fn text_of(digits: &[u8]) -> String {
    digits.iter().map(|digit| char::from(b'0' + digit)).collect()
}

/// The digits of an IMSI, as a text.
pub(crate) fn imsi_of(imsi: &ffi::Imsi) -> String {
    text_of(&imsi.digits[..usize::from(imsi.count)])
}

/// Labels, joined by dots.
pub(crate) fn apn_of(apn: &ffi::Apn) -> String {
    let mut rest = &apn.octets[..usize::from(apn.len)];
    let mut labels = Vec::new();
    while let Some((len, more)) = rest.split_first() {
        let (label, after) = more.split_at(usize::from(*len));
        labels.push(String::from_utf8_lossy(label));
        rest = after;
    }
    labels.join(".")
}

impl From<ffi::Cause> for Cause {
    fn from(cause: ffi::Cause) -> Cause {
        Cause {
            value: cause.value,
            pce: cause.pce != 0,
            bce: cause.bce != 0,
            cs: cause.cs != 0,
            offending: (cause.has_offending != 0).then_some((cause.offending, cause.instance)),
        }
    }
}

impl From<ffi::Paa> for Paa {
    fn from(paa: ffi::Paa) -> Paa {
        match paa.pdn {
            1 => Paa::V4(paa.v4.into()),
            2 => Paa::V6(paa.v6.into(), paa.prefix),
            3 => Paa::V4V6(paa.v4.into(), paa.v6.into(), paa.prefix),
            other => Paa::Other(other),
        }
    }
}

impl From<Cause> for ffi::Cause {
    fn from(cause: Cause) -> ffi::Cause {
        let (offending, instance) = cause.offending.unwrap_or_default();
        ffi::Cause {
            value: cause.value,
            pce: cause.pce.into(),
            bce: cause.bce.into(),
            cs: cause.cs.into(),
            has_offending: cause.offending.is_some().into(),
            offending,
            instance,
        }
    }
}

impl From<Paa> for ffi::Paa {
    fn from(paa: Paa) -> ffi::Paa {
        let none = ffi::Paa::default();
        match paa {
            Paa::V4(v4) => ffi::Paa { pdn: 1, v4: v4.octets(), ..none },
            Paa::V6(v6, prefix) => ffi::Paa { pdn: 2, prefix, v6: v6.octets(), ..none },
            Paa::V4V6(v4, v6, prefix) => ffi::Paa { pdn: 3, prefix, v4: v4.octets(), v6: v6.octets() },
            // 1 to 3 have addresses, which another type has not.
            Paa::Other(pdn) => ffi::Paa { pdn: if (1..=3).contains(&pdn) { u8::MAX } else { pdn }, ..none },
        }
    }
}

impl From<FTeid> for ffi::FTeid {
    fn from(end: FTeid) -> ffi::FTeid {
        ffi::FTeid {
            teid: end.teid,
            interface: end.interface,
            has_v4: end.v4.is_some().into(),
            has_v6: end.v6.is_some().into(),
            v4: end.v4.map_or([0; 4], |v4| v4.octets()),
            v6: end.v6.map_or([0; 16], |v6| v6.octets()),
        }
    }
}

impl From<ffi::Quality> for Quality {
    fn from(q: ffi::Quality) -> Quality {
        Quality { pci: q.pci, pl: q.pl, pvi: q.pvi, qci: q.qci, mbr: (q.mbr_up, q.mbr_down), gbr: (q.gbr_up, q.gbr_down) }
    }
}

impl From<ffi::FTeid> for FTeid {
    fn from(end: ffi::FTeid) -> FTeid {
        FTeid {
            interface: end.interface,
            teid: end.teid,
            v4: (end.has_v4 != 0).then(|| end.v4.into()),
            v6: (end.has_v6 != 0).then(|| end.v6.into()),
        }
    }
}

fn network_of(network: ffi::Network) -> Value<'static> {
    let (mcc, mnc) = network.digits.split_at(3);
    let count = if mnc[2] == 15 { 2 } else { 3 };
    Value::Network { mcc: text_of(mcc), mnc: text_of(&mnc[..count]) }
}

impl<'a> Value<'a> {
    /// What the body of an element of a type says.
    ///
    /// # Errors
    /// It says no value of the type.
    pub fn read(kind: u8, body: &'a [u8]) -> Result<Value<'a>, ValueError> {
        let octet = |call: Read<u32>| read(call, body).map(|number| number as u8);
        Ok(match kind {
            1 => Value::Imsi(imsi_of(&read(ffi::gtp_imsi_read, body)?)),
            2 => Value::Cause(read(ffi::gtp_cause_read, body)?.into()),
            3 => Value::Recovery(octet(ffi::gtp_recovery_read)?),
            71 => Value::Apn(apn_of(&read(ffi::gtp_apn_read, body)?)),
            72 => {
                let ffi::Ambr { up, down } = read(ffi::gtp_ambr_read, body)?;
                Value::Ambr(Ambr { up, down })
            }
            73 => Value::Ebi(octet(ffi::gtp_ebi_read)?),
            79 => Value::Paa(read(ffi::gtp_paa_read, body)?.into()),
            80 => Value::Quality(read(ffi::gtp_qos_read, body)?.into()),
            82 => Value::Rat(octet(ffi::gtp_rat_read)?),
            83 => network_of(read(ffi::gtp_network_read, body)?),
            87 => Value::FTeid(read(ffi::gtp_fteid_read, body)?.into()),
            94 => Value::ChargingId(read(ffi::gtp_charging_id_read, body)?),
            99 => Value::PdnType(octet(ffi::gtp_pdn_type_read)?),
            100 => Value::Pti(octet(ffi::gtp_pti_read)?),
            128 => Value::Selection(octet(ffi::gtp_selection_read)?),
            _ => Value::Octets(body),
        })
    }

    /// Writes the body that says the value, and how many octets it has.
    pub(crate) fn write(&self, buffer: &mut [u8], size: &mut u64) -> u8 {
        let room = Room { buffer, size };
        match self {
            Value::Imsi(digits) => room.write(ffi::gtp_imsi_write, digits_of(digits)),
            Value::Cause(cause) => room.write(ffi::gtp_cause_write, (*cause).into()),
            Value::Recovery(number) => room.write_number(ffi::gtp_recovery_write, *number),
            Value::Apn(name) => room.write(ffi::gtp_apn_write, labels_of(name)),
            Value::Ambr(Ambr { up, down }) => room.write(ffi::gtp_ambr_write, ffi::Ambr { up: *up, down: *down }),
            Value::Ebi(number) => room.write_number(ffi::gtp_ebi_write, *number),
            Value::Paa(paa) => room.write(ffi::gtp_paa_write, (*paa).into()),
            Value::Quality(quality) => room.write(ffi::gtp_qos_write, quality.raw()),
            Value::Rat(number) => room.write_number(ffi::gtp_rat_write, *number),
            Value::Network { mcc, mnc } => {
                room.write(ffi::gtp_network_write, ffi::Network { digits: network_digits(mcc, mnc) })
            }
            Value::FTeid(end) => room.write(ffi::gtp_fteid_write, (*end).into()),
            Value::ChargingId(number) => room.write_number(ffi::gtp_charging_id_write, *number),
            Value::PdnType(number) => room.write_number(ffi::gtp_pdn_type_write, *number),
            Value::Pti(number) => room.write_number(ffi::gtp_pti_write, *number),
            Value::Selection(number) => room.write_number(ffi::gtp_selection_write, *number),
            Value::Octets(octets) => room.write_octets(octets),
        }
    }
}
