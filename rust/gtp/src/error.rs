//! Errors. None of them changes a gateway, nor loses what waits to be sent.

use crate::ffi;
use std::error::Error as StdError;
use std::fmt;

/// Why a gateway did not start, or did not take a datagram or a tick.
#[derive(Clone, Copy, Debug, PartialEq, Eq)]
#[non_exhaustive]
pub enum Error {
    /// A value is out of its range.
    BadValue,
    /// An allocation was refused; the same call may be made again.
    NoMemory,
    /// More than 4,096 datagrams wait to be taken.
    Full,
}

impl Error {
    pub(crate) fn of(status: u8) -> Error {
        match status {
            ffi::NO_MEMORY => Error::NoMemory,
            ffi::FULL => Error::Full,
            _ => Error::BadValue,
        }
    }
}

impl fmt::Display for Error {
    fn fmt(&self, f: &mut fmt::Formatter<'_>) -> fmt::Result {
        f.write_str(match self {
            Error::BadValue => "a value is out of its range",
            Error::NoMemory => "no memory",
            Error::Full => "more than 4,096 datagrams wait to be taken",
        })
    }
}

impl StdError for Error {}

/// By which rule a gateway refuses a command.
#[derive(Clone, Copy, Debug, PartialEq, Eq)]
#[non_exhaustive]
pub enum Refusal {
    /// G1: it has no such session or bearer.
    NoSuchContext,
    /// G2: the session or bearer is not active.
    NotActive,
    /// G3: it is a command of the other gateway.
    WrongRole,
    /// G4 S1: it has 1,000 sessions.
    SessionsFull,
    /// G4 S4: no TEID is left.
    TeidsUsed,
    /// G4 B1: 256 requests are pending.
    PendingFull,
    /// G5: an End Marker was sent on the bearer.
    BearerEnded,
    /// G7: the packet has more than 65,000 octets.
    PacketTooLong,
}

impl Refusal {
    fn of(number: u8) -> Refusal {
        match number {
            1 => Refusal::NoSuchContext,
            2 => Refusal::NotActive,
            3 => Refusal::WrongRole,
            4 => Refusal::SessionsFull,
            5 => Refusal::TeidsUsed,
            6 => Refusal::PendingFull,
            7 => Refusal::BearerEnded,
            8 => Refusal::PacketTooLong,
            _ => unreachable!("the library has no refusal {number}"),
        }
    }
}

impl fmt::Display for Refusal {
    fn fmt(&self, f: &mut fmt::Formatter<'_>) -> fmt::Result {
        f.write_str(match self {
            Refusal::NoSuchContext => "no such session or bearer",
            Refusal::NotActive => "the session or bearer is not active",
            Refusal::WrongRole => "a command of the other gateway",
            Refusal::SessionsFull => "1,000 sessions are open",
            Refusal::TeidsUsed => "no TEID is left",
            Refusal::PendingFull => "256 requests are pending",
            Refusal::BearerEnded => "an End Marker was sent on the bearer",
            Refusal::PacketTooLong => "the packet has more than 65,000 octets",
        })
    }
}

/// Why a command was not carried out.
#[derive(Clone, Copy, Debug, PartialEq, Eq)]
#[non_exhaustive]
pub enum CommandError {
    /// A rule of the gateway forbids it.
    Refused(Refusal),
    /// A value is out of its range.
    BadValue,
    /// An allocation was refused; the same call may be made again.
    NoMemory,
    /// More than 4,096 datagrams wait to be taken.
    Full,
}

impl CommandError {
    pub(crate) fn of(status: u8, told: &ffi::Told) -> CommandError {
        match status {
            ffi::REFUSED => CommandError::Refused(Refusal::of(told.outcome.cause)),
            ffi::NO_MEMORY => CommandError::NoMemory,
            ffi::FULL => CommandError::Full,
            _ => CommandError::BadValue,
        }
    }
}

impl fmt::Display for CommandError {
    fn fmt(&self, f: &mut fmt::Formatter<'_>) -> fmt::Result {
        match self {
            CommandError::Refused(why) => write!(f, "refused: {why}"),
            CommandError::BadValue => Error::BadValue.fmt(f),
            CommandError::NoMemory => Error::NoMemory.fmt(f),
            CommandError::Full => Error::Full.fmt(f),
        }
    }
}

impl StdError for CommandError {}

/// The buffer has too little room: nothing was written.
#[derive(Clone, Copy, Debug, PartialEq, Eq)]
pub struct TooSmall {
    /// How many octets there are to be written.
    pub needed: usize,
}

impl fmt::Display for TooSmall {
    fn fmt(&self, f: &mut fmt::Formatter<'_>) -> fmt::Result {
        write!(f, "{} octets do not fit", self.needed)
    }
}

impl StdError for TooSmall {}

/// Why an element or a message was not written.
#[derive(Clone, Copy, Debug, PartialEq, Eq)]
#[non_exhaustive]
pub enum WriteError {
    /// A value is out of its range.
    BadValue,
    /// The buffer has too little room.
    TooSmall(TooSmall),
    /// An allocation was refused; the same call may be made again.
    NoMemory,
}

impl WriteError {
    pub(crate) fn of(status: u8, size: u64) -> WriteError {
        match status {
            ffi::TOO_SMALL => WriteError::TooSmall(TooSmall { needed: size as usize }),
            ffi::NO_MEMORY => WriteError::NoMemory,
            _ => WriteError::BadValue,
        }
    }
}

impl fmt::Display for WriteError {
    fn fmt(&self, f: &mut fmt::Formatter<'_>) -> fmt::Result {
        match self {
            WriteError::BadValue => Error::BadValue.fmt(f),
            WriteError::TooSmall(small) => small.fmt(f),
            WriteError::NoMemory => Error::NoMemory.fmt(f),
        }
    }
}

impl StdError for WriteError {}

/// Why the body of an element says no value of its type.
#[derive(Clone, Copy, Debug, PartialEq, Eq)]
pub enum ValueError {
    /// It is below the least length of its type.
    Short,
    /// It is long enough, and says nothing.
    Bad,
}

impl ValueError {
    pub(crate) fn of(status: u8) -> ValueError {
        match status {
            ffi::SHORT_VALUE => ValueError::Short,
            _ => ValueError::Bad,
        }
    }
}

impl fmt::Display for ValueError {
    fn fmt(&self, f: &mut fmt::Formatter<'_>) -> fmt::Result {
        f.write_str(match self {
            ValueError::Short => "the body is too short for its type",
            ValueError::Bad => "the body is no value of its type",
        })
    }
}

impl StdError for ValueError {}

/// The first fault of a datagram of the control plane.
#[derive(Clone, Copy, Debug, PartialEq, Eq)]
#[non_exhaustive]
pub enum ControlFault {
    /// H1: it is too short for a header.
    Short {
        /// How many octets there are.
        held: u64,
    },
    /// H2: it is of another version.
    Version(u8),
    /// H3: the stated length is not the one that it has.
    Length {
        /// The length that the header states.
        stated: u64,
        /// The length that there is.
        held: u64,
    },
    /// H4: the flag for a TEID does not fit the type of message.
    TeidFlag {
        /// The type of the message.
        kind: u8,
    },
    /// H5: what follows the first message is no second one.
    Piggyback {
        /// The place of its first octet.
        at: u64,
    },
    /// H6: an element that has to be there is missing.
    Missing {
        /// The type of the element.
        kind: u8,
        /// Its instance.
        instance: u8,
        /// Whether the standard calls it conditional; else it is mandatory.
        is_conditional: bool,
        /// The place of the bearer context that lacks it, counted from the start of the datagram; none where the
        /// message itself does.
        group: Option<u64>,
    },
    /// H7 I1: the element at this place does not end in the message.
    Truncated {
        /// The place of its first octet.
        at: u64,
    },
    /// H7 I2: an element's body is below the least length of its type.
    ShortValue {
        /// The type of the element.
        kind: u8,
        /// Its instance.
        instance: u8,
        /// The place of its first octet.
        at: u64,
    },
    /// H7 I3: an element's body is no value of its type.
    BadValue {
        /// The type of the element.
        kind: u8,
        /// Its instance.
        instance: u8,
        /// The place of its first octet.
        at: u64,
    },
}

impl ControlFault {
    pub(crate) fn of(f: &ffi::Fault) -> ControlFault {
        let (kind, instance, at) = (f.element, f.instance, f.at);
        match (f.number, f.detail) {
            (1, _) => ControlFault::Short { held: f.held },
            (2, _) => ControlFault::Version(f.version),
            (3, _) => ControlFault::Length { stated: f.stated, held: f.held },
            (4, _) => ControlFault::TeidFlag { kind: f.message },
            (5, _) => ControlFault::Piggyback { at },
            (6, _) => {
                let group = (at != 0).then_some(at);
                ControlFault::Missing { kind, instance, is_conditional: f.conditional != 0, group }
            }
            (_, 1) => ControlFault::Truncated { at },
            (_, 2) => ControlFault::ShortValue { kind, instance, at },
            _ => ControlFault::BadValue { kind, instance, at },
        }
    }
}

impl fmt::Display for ControlFault {
    fn fmt(&self, f: &mut fmt::Formatter<'_>) -> fmt::Result {
        match self {
            ControlFault::Short { held } => write!(f, "H1 held {held}"),
            ControlFault::Version(version) => write!(f, "H2 version {version}"),
            ControlFault::Length { stated, held } => write!(f, "H3 stated {stated} held {held}"),
            ControlFault::TeidFlag { kind } => write!(f, "H4 type {kind}"),
            ControlFault::Piggyback { at } => write!(f, "H5 at {at}"),
            ControlFault::Missing { kind, instance, is_conditional, .. } => {
                let mark = if *is_conditional { "conditional" } else { "mandatory" };
                write!(f, "H6 type {kind} instance {instance} {mark}")
            }
            ControlFault::Truncated { at } => write!(f, "H7 I1 at {at}"),
            ControlFault::ShortValue { kind, instance, at } => write!(f, "H7 I2 type {kind} instance {instance} at {at}"),
            ControlFault::BadValue { kind, instance, at } => write!(f, "H7 I3 type {kind} instance {instance} at {at}"),
        }
    }
}

impl StdError for ControlFault {}

/// The first fault of a datagram of the user plane.
#[derive(Clone, Copy, Debug, PartialEq, Eq)]
#[non_exhaustive]
pub enum UserFault {
    /// U1: it is too short for a header.
    Short {
        /// How many octets there are.
        held: u64,
    },
    /// U2: it is of another version.
    Version(u8),
    /// U3: it is GTP' and not GTP.
    Protocol,
    /// U4: the stated length is not the one that it has.
    Length {
        /// The length that the header states.
        stated: u64,
        /// The length that there is.
        held: u64,
    },
    /// U5: an extension header of length 0.
    ExtensionZero {
        /// The place of its length.
        at: u64,
    },
    /// U6: an extension header that does not end in the datagram.
    ExtensionPast {
        /// The place of its length.
        at: u64,
    },
    /// U7: an extension header that has to be understood and is not.
    ExtensionNeeded {
        /// The type of the extension header.
        kind: u8,
        /// The place of its length.
        at: u64,
    },
    /// U8: an element that has to be there is missing.
    Missing {
        /// The type of the element.
        kind: u8,
    },
    /// U9: an element is not whole, or no value of its type.
    Element {
        /// The place of its first octet.
        at: u64,
    },
}

impl UserFault {
    pub(crate) fn of(f: &ffi::Fault) -> UserFault {
        match f.number {
            1 => UserFault::Short { held: f.held },
            2 => UserFault::Version(f.version),
            3 => UserFault::Protocol,
            4 => UserFault::Length { stated: f.stated, held: f.held },
            5 => UserFault::ExtensionZero { at: f.at },
            6 => UserFault::ExtensionPast { at: f.at },
            7 => UserFault::ExtensionNeeded { kind: f.element, at: f.at },
            8 => UserFault::Missing { kind: f.element },
            _ => UserFault::Element { at: f.at },
        }
    }
}

impl fmt::Display for UserFault {
    fn fmt(&self, f: &mut fmt::Formatter<'_>) -> fmt::Result {
        match self {
            UserFault::Short { held } => write!(f, "U1 held {held}"),
            UserFault::Version(version) => write!(f, "U2 version {version}"),
            UserFault::Protocol => f.write_str("U3"),
            UserFault::Length { stated, held } => write!(f, "U4 stated {stated} held {held}"),
            UserFault::ExtensionZero { at } => write!(f, "U5 at {at}"),
            UserFault::ExtensionPast { at } => write!(f, "U6 at {at}"),
            UserFault::ExtensionNeeded { kind, .. } => write!(f, "U7 type {kind:02x}"),
            UserFault::Missing { kind } => write!(f, "U8 type {kind}"),
            UserFault::Element { at } => write!(f, "U9 at {at}"),
        }
    }
}

impl StdError for UserFault {}
