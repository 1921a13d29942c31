//! Addresses and planes.

use crate::ffi;
use std::net::{IpAddr, Ipv4Addr, Ipv6Addr, SocketAddr};

/// A plane, each with a UDP port of its own.
#[derive(Clone, Copy, Debug, PartialEq, Eq, Hash)]
pub enum Plane {
    /// GTPv2-C, port 2123.
    Control,
    /// GTP-U, port 2152.
    User,
}

impl Plane {
    /// The port that the standard gives it (TS 29.274 4.2, TS 29.281 4.4.2).
    pub const fn port(self) -> u16 {
        match self {
            Plane::Control => 2123,
            Plane::User => 2152,
        }
    }

    pub(crate) fn number(self) -> u8 {
        match self {
            Plane::Control => 0,
            Plane::User => 1,
        }
    }

    pub(crate) fn of(number: u8) -> Plane {
        match number {
            0 => Plane::Control,
            1 => Plane::User,
            _ => unreachable!("the library has no plane {number}"),
        }
    }
}

impl ffi::Address {
    pub(crate) fn of(address: IpAddr) -> ffi::Address {
        let mut octets = [0; 16];
        // A socket for both IP versions gives an IPv4 address in the form of an IPv6 address.
        match address.to_canonical() {
            IpAddr::V4(v4) => {
                octets[..4].copy_from_slice(&v4.octets());
                ffi::Address { version: 4, octets }
            }
            IpAddr::V6(v6) => ffi::Address { version: 6, octets: v6.octets() },
        }
    }

    /// The address; `None` if there is none.
    pub(crate) fn ip(&self) -> Option<IpAddr> {
        let [a, b, c, d, ..] = self.octets;
        match self.version {
            4 => Some(Ipv4Addr::new(a, b, c, d).into()),
            6 => Some(Ipv6Addr::from(self.octets).into()),
            _ => None,
        }
    }
}

impl ffi::End {
    pub(crate) fn of(end: SocketAddr) -> ffi::End {
        ffi::End { address: ffi::Address::of(end.ip()), port: end.port() }
    }

    pub(crate) fn socket(&self) -> SocketAddr {
        let ip = self.address.ip().expect("what is sent has an address");
        SocketAddr::new(ip, self.port)
    }
}
