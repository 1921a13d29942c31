//! Sessions and bearers.

use crate::ffi;
use crate::value::{apn_of, imsi_of};
use std::net::{Ipv4Addr, Ipv6Addr};

/// The state of a session or bearer.
#[derive(Clone, Copy, Debug, PartialEq, Eq, Hash)]
pub enum State {
    /// It was asked for.
    Pending,
    /// It is open.
    Active,
    /// Its end was asked for.
    Closing,
}

impl State {
    fn of(number: u8) -> State {
        match number {
            0 => State::Pending,
            1 => State::Active,
            2 => State::Closing,
            _ => unreachable!("the library has no state {number}"),
        }
    }
}

/// A session.
#[derive(Clone, Debug, PartialEq, Eq)]
pub struct Session {
    /// The gateway's own control plane TEID.
    pub teid: u32,
    /// The peer's.
    pub remote: Option<u32>,
    /// Its state.
    pub state: State,
    /// The EPS bearer identity of its default bearer.
    pub identity: u8,
    /// Its IPv4 address.
    pub v4: Option<Ipv4Addr>,
    /// Its IPv6 address.
    pub v6: Option<Ipv6Addr>,
    /// The digits of its subscriber.
    pub imsi: String,
    /// The name of its access point.
    pub access_point: String,
}

impl From<ffi::SessionRow> for Session {
    fn from(row: ffi::SessionRow) -> Session {
        Session {
            teid: row.teid,
            remote: (row.has_remote != 0).then_some(row.remote),
            state: State::of(row.state),
            identity: row.identity,
            v4: (row.has_v4 != 0).then(|| row.v4.into()),
            v6: (row.has_v6 != 0).then(|| row.v6.into()),
            imsi: imsi_of(&row.imsi),
            access_point: apn_of(&row.access_point),
        }
    }
}

/// A bearer.
#[derive(Clone, Debug, PartialEq, Eq)]
pub struct Bearer {
    /// The gateway's own user plane TEID.
    pub teid: u32,
    /// The peer's.
    pub remote: Option<u32>,
    /// The session's own control plane TEID.
    pub session: u32,
    /// Its state.
    pub state: State,
    /// Its EPS bearer identity, once it is known.
    pub identity: Option<u8>,
    /// Whether it is a dedicated bearer; else it is the default bearer of its session.
    pub is_dedicated: bool,
    /// Whether an End Marker was sent or came.
    pub ended: bool,
}

impl From<ffi::BearerRow> for Bearer {
    fn from(row: ffi::BearerRow) -> Bearer {
        Bearer {
            teid: row.teid,
            remote: (row.has_remote != 0).then_some(row.remote),
            session: row.session,
            state: State::of(row.state),
            identity: (row.identity != 0).then_some(row.identity),
            is_dedicated: row.dedicated != 0,
            ended: row.ended != 0,
        }
    }
}
