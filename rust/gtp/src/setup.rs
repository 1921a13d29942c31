//! With what a gateway starts, and with what a session is asked for.

use crate::ffi;
use crate::value::digits_of;
use crate::{Ambr, Quality};
use std::net::{IpAddr, Ipv4Addr, Ipv6Addr};

/// Which gateway it is.
#[derive(Clone, Copy, Debug, PartialEq, Eq, Hash)]
pub enum Role {
    /// The serving gateway.
    Serving,
    /// The packet gateway.
    Packet,
}

/// The addresses of a gateway.
#[derive(Clone, Copy, Debug, PartialEq, Eq)]
pub struct Addresses {
    /// For the control plane.
    pub control: IpAddr,
    /// For the user plane.
    pub user: IpAddr,
}

impl From<IpAddr> for Addresses {
    /// One address for both planes.
    fn from(address: IpAddr) -> Addresses {
        Addresses { control: address, user: address }
    }
}

/// Times, in ticks (TS 29.274 7.6).
#[derive(Clone, Copy, Debug, PartialEq, Eq)]
pub struct Timers {
    /// T3-RESPONSE: after so many ticks a request goes out again, 1 to 1,000.
    pub t3: u32,
    /// N3-REQUESTS: so often, 0 to 100.
    pub n3: u32,
    /// For so many ticks an answer is held, 1 to 100,000.
    pub hold: u32,
}

/// Optional behaviour of a gateway. By default each switch is off.
#[derive(Clone, Copy, Debug, Default, PartialEq, Eq)]
pub struct Switches {
    /// A packet gateway compares the names of access points by their network identifiers (TS 23.003 9.1): without an operator
    /// identifier (`.mnc<3 digits>.mcc<3 digits>.gprs`) at the end of either name, upper and lower case alike. One that is written as
    /// it is asked for comes first. Off, names are compared as they are written.
    pub network_identifiers: bool,
    /// A datagram of the control plane that is of another version than 2 is answered with a Version Not Supported Indication
    /// (TS 29.274 7.7.2), unless its type, the second octet, is 3. Off, it is dropped.
    pub version_not_supported: bool,
}

/// With what a gateway starts.
#[derive(Clone, Debug, PartialEq, Eq)]
pub struct Setup<'a> {
    /// Which gateway it is.
    pub role: Role,
    /// Its own addresses.
    pub own: Addresses,
    /// Those of the other gateway.
    pub peer: Addresses,
    /// The restart counter, one more at each start (TS 23.007 18).
    pub counter: u8,
    /// Times.
    pub timers: Timers,
    /// Names of the access points that a packet gateway serves, at most 16.
    pub access_points: &'a [&'a str],
    /// The first IPv4 address that a packet gateway gives to sessions, and how many, at most 65,536.
    pub pool: (Ipv4Addr, u32),
    /// The first IPv6 address, and how many, each with a prefix of 64 bits of its own, at most 65,536.
    pub pool6: (Ipv6Addr, u32),
    /// Templates of access points, at most 16. Of several for one access point the last counts.
    pub templates: &'a [Template<'a>],
    /// Its optional behaviour.
    pub switches: Switches,
}

/// The dedicated bearer that a packet gateway asks for with each session of an access point, in a second message of the datagram that
/// answers for the session (TS 29.274 5.5.1).
#[derive(Clone, Copy, Debug, PartialEq, Eq)]
pub struct Template<'a> {
    /// The name of the access point, one of those of the setup.
    pub access_point: &'a str,
    /// The quality of service of the bearer.
    pub quality: Quality,
    /// The traffic flow template, at most 255 octets.
    pub tft: &'a [u8],
}

impl Template<'_> {
    /// The same for the library, which takes the place of the access point for its name. `None`: a value is out of its range.
    fn raw(&self, access_points: &[&str]) -> Option<ffi::Template> {
        let place = access_points.iter().position(|name| *name == self.access_point)?;
        let mut raw = ffi::Template {
            quality: self.quality.raw(),
            access_point: u8::try_from(place).ok()?,
            tft_len: u8::try_from(self.tft.len()).ok()?,
            ..ffi::Template::default()
        };
        raw.tft[..self.tft.len()].copy_from_slice(self.tft);
        Some(raw)
    }
}

impl Setup<'_> {
    /// The same for the library. `None`: a value is out of its range.
    pub(crate) fn raw(&self) -> Option<ffi::Setup> {
        let mut templates = [ffi::Template::default(); ffi::MOST_TEMPLATES];
        if self.templates.len() > templates.len() {
            return None;
        }
        for (raw, template) in templates.iter_mut().zip(self.templates) {
            *raw = template.raw(self.access_points)?;
        }
        Some(ffi::Setup {
            own_control: ffi::Address::of(self.own.control),
            own_user: ffi::Address::of(self.own.user),
            peer_control: ffi::Address::of(self.peer.control),
            peer_user: ffi::Address::of(self.peer.user),
            pool6: self.pool6.0.octets(),
            pool6_count: self.pool6.1,
            pool: self.pool.0.into(),
            pool_count: self.pool.1,
            t3: self.timers.t3,
            n3: self.timers.n3,
            hold: self.timers.hold,
            role: match self.role {
                Role::Serving => 0,
                Role::Packet => 1,
            },
            counter: self.counter,
            template_count: self.templates.len() as u8,
            switches: u8::from(self.switches.network_identifiers) + 2 * u8::from(self.switches.version_not_supported),
            templates,
        })
    }
}

/// A value of a [`Setup`].
#[derive(Clone, Copy, Debug, PartialEq, Eq, Hash)]
pub enum SetupValue {
    /// The names of the access points: one is none or has a comma, or they are more than 16.
    AccessPoints,
    /// The time after which a request goes out again.
    T3Response,
    /// How often it goes out again.
    N3Requests,
    /// The time for which an answer is held.
    Hold,
    /// The IPv4 addresses.
    Pool,
    /// The IPv6 addresses.
    Pool6,
    /// The templates: there are more than 16, or one names no access point of the setup, has more than 255 octets, or a quality that
    /// is out of its range.
    Templates,
}

impl Setup<'_> {
    /// A value for which [`Gateway::new`](crate::Gateway::new) answers `BadValue`; `None` if there is none.
    pub fn bad_value(&self) -> Option<SetupValue> {
        if self.has_bad_names() {
            return Some(SetupValue::AccessPoints);
        }
        let names = self.access_points.join(",");
        let Some(setup) = self.raw() else {
            return Some(SetupValue::Templates);
        };
        // SAFETY: the pointers are to a struct and to a slice of this length.
        match unsafe { ffi::gtp_setup_bad_value(&setup, names.as_ptr(), names.len()) } {
            6 => Some(SetupValue::AccessPoints),
            7 => Some(SetupValue::T3Response),
            8 => Some(SetupValue::N3Requests),
            9 => Some(SetupValue::Hold),
            10 => Some(SetupValue::Pool),
            11 => Some(SetupValue::Pool6),
            12 | 13 => Some(SetupValue::Templates),
            _ => None,
        }
    }

    /// The library cuts a text at each comma, and an empty one has no names.
    pub(crate) fn has_bad_names(&self) -> bool {
        self.access_points.iter().any(|name| name.is_empty() || name.contains(','))
    }
}

/// With what a session is asked for (TS 29.274 table 7.2.1-1).
#[derive(Clone, Debug, PartialEq, Eq)]
pub struct SessionRequest<'a> {
    /// The subscriber: 6 to 15 digits.
    pub imsi: &'a str,
    /// The name of the access point.
    pub access_point: &'a str,
    /// The EPS bearer identity of the default bearer, 5 to 15.
    pub identity: u8,
    /// The mobile country code of the serving network, three digits.
    pub mcc: &'a str,
    /// Its mobile network code, two digits or three.
    pub mnc: &'a str,
    /// The radio access technology (8.17).
    pub rat: u8,
    /// The selection mode, below 4 (8.58).
    pub selection: u8,
    /// The PDN type, below 8 (8.34): 1 IPv4, 2 IPv6, 3 both.
    pub pdn: u8,
    /// The total bit rates.
    pub ambr: Ambr,
    /// The quality of service of the default bearer.
    pub quality: Quality,
}

/// A value of a [`SessionRequest`].
#[derive(Clone, Copy, Debug, PartialEq, Eq, Hash)]
pub enum SessionValue {
    /// The subscriber.
    Imsi,
    /// The name of the access point.
    AccessPoint,
    /// The EPS bearer identity.
    Identity,
    /// The codes of the serving network.
    Network,
    /// The quality of service.
    Quality,
    /// The selection mode.
    Selection,
    /// The PDN type.
    Pdn,
}

/// The digits of a network's codes: 001 and 01 are 0, 0, 1 and 0, 1, 15. What is no code has a digit that is none.
pub(crate) fn network_digits(mcc: &str, mnc: &str) -> [u8; 6] {
    let mut digits = [15; 6];
    if mcc.len() != 3 || !(2..=3).contains(&mnc.len()) {
        return digits;
    }
    for (digit, octet) in digits.iter_mut().zip(mcc.bytes().chain(mnc.bytes())) {
        *digit = if octet.is_ascii_digit() { octet - b'0' } else { 14 };
    }
    digits
}

impl SessionRequest<'_> {
    pub(crate) fn raw(&self) -> ffi::Session {
        ffi::Session {
            quality: self.quality.raw(),
            ambr_up: self.ambr.up,
            ambr_down: self.ambr.down,
            network: network_digits(self.mcc, self.mnc),
            identity: self.identity,
            rat: self.rat,
            selection: self.selection,
            pdn: self.pdn,
        }
    }

    /// A value for which [`Gateway::create_session`](crate::Gateway::create_session) answers `BadValue`; `None` if there is
    /// none.
    pub fn bad_value(&self) -> Option<SessionValue> {
        let (session, imsi, name) = (self.raw(), digits_of(self.imsi), self.access_point);
        // SAFETY: the pointers are to structs and to a slice of this length.
        match unsafe { ffi::gtp_session_bad_value(&session, &imsi, name.as_ptr(), name.len()) } {
            1 => Some(SessionValue::Imsi),
            2 => Some(SessionValue::AccessPoint),
            3 => Some(SessionValue::Identity),
            4 => Some(SessionValue::Network),
            5 => Some(SessionValue::Quality),
            6 => Some(SessionValue::Selection),
            7 => Some(SessionValue::Pdn),
            _ => None,
        }
    }
}
