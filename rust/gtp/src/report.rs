//! What calls of a gateway come to.

use crate::ffi;

/// What a message came to.
#[derive(Clone, Copy, Debug, PartialEq, Eq)]
#[non_exhaustive]
pub enum Outcome<'a> {
    /// A request was answered with this cause (TS 29.274 table 8.4-1).
    Answered(u8),
    /// An Echo Request was answered.
    Echoed,
    /// A request that came again was answered as before.
    Repeated,
    /// A session or bearer is active now.
    Opened,
    /// A session or bearer is gone.
    Closed,
    /// An answer could not be used, and its bearer is gone.
    Clash,
    /// The peer refused a request with this cause.
    Rejected(u8),
    /// An Echo Response came.
    Alive,
    /// A packet came.
    Accepted {
        /// The own TEID of the bearer on which it came.
        bearer: u32,
        /// The packet.
        packet: &'a [u8],
    },
    /// An End Marker came.
    Ended,
    /// An Error Indication came, and its session or bearer is gone.
    Broken,
    /// It was dropped. By rules 6, 10 and 12 a datagram may wait for its sender.
    Dropped {
        /// By which rule: 1 to 12 are X1 to X12 (`gtpshow explain`).
        rule: u8,
        /// Of X1: the number of the fault, after H or U.
        fault: Option<u8>,
    },
}

impl<'a> Outcome<'a> {
    fn of(outcome: ffi::Outcome, bearer: u32, packet: &'a [u8]) -> Option<Outcome<'a>> {
        let fault = (outcome.fault != 0).then_some(outcome.fault);
        match outcome.kind {
            4 => Some(Outcome::Answered(outcome.cause)),
            5 => Some(Outcome::Echoed),
            6 => Some(Outcome::Repeated),
            7 => Some(Outcome::Opened),
            8 => Some(Outcome::Closed),
            9 => Some(Outcome::Clash),
            10 => Some(Outcome::Rejected(outcome.cause)),
            11 => Some(Outcome::Alive),
            12 => Some(Outcome::Accepted { bearer, packet }),
            13 => Some(Outcome::Ended),
            14 => Some(Outcome::Broken),
            15 => Some(Outcome::Dropped { rule: outcome.cause, fault }),
            _ => None,
        }
    }
}

/// What a datagram came to.
#[derive(Clone, Copy, Debug, PartialEq, Eq)]
pub struct Received<'a> {
    /// What its message came to.
    pub outcome: Outcome<'a>,
    /// What its second message came to.
    pub second: Option<Outcome<'a>>,
    /// Whether a session or bearer was made for a request.
    pub made: bool,
    /// The restart counter that the peer told.
    pub counter: Option<u8>,
    /// Whether that is later than the one before, so that the peer's earlier sessions are gone.
    pub restarted: bool,
    /// How many datagrams wait to be taken.
    pub waiting: usize,
}

impl<'a> Received<'a> {
    pub(crate) fn of(told: &ffi::Told, octets: &'a [u8]) -> Received<'a> {
        let packet = &octets[octets.len() - told.payload_len as usize..];
        Received {
            outcome: Outcome::of(told.outcome, told.teid, packet).expect("a datagram has an outcome"),
            second: Outcome::of(told.second, told.teid, packet),
            made: told.made != 0,
            counter: (told.counted != 0).then_some(told.counter),
            restarted: told.restarted != 0,
            waiting: told.waiting as usize,
        }
    }
}

/// What a tick came to.
#[derive(Clone, Copy, Debug, PartialEq, Eq)]
pub struct Ticked {
    /// How many requests were given up.
    pub gave_up: usize,
    /// How many answers are held no more.
    pub forgot: usize,
    /// How many datagrams wait to be taken.
    pub waiting: usize,
}

impl Ticked {
    pub(crate) fn of(told: &ffi::Told) -> Ticked {
        Ticked { gave_up: told.gave_up as usize, forgot: told.forgot as usize, waiting: told.waiting as usize }
    }
}
