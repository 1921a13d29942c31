//! What can be wrong with a control datagram: the first fault, with its place.

#[derive(Clone, Copy, Debug)]
pub enum Fault {
    Short {
        held: usize,
    },
    Version(u8),
    Piggyback {
        at: usize,
    },
    Length {
        held: usize,
    },
    WrongHeader {
        kind: u8,
    },
    Missing {
        kind: u8,
        instance: u8,
        conditional: bool,
    },
    Truncated {
        at: usize,
    },
    ShortValue {
        kind: u8,
        instance: u8,
        at: usize,
    },
    BadValue {
        kind: u8,
        instance: u8,
        at: usize,
    },
}

impl Fault {
    /// The fault of a second message, its place counted from the start of the datagram.
    pub fn moved(self, place: usize) -> Self {
        match self {
            Fault::Piggyback { at } => Fault::Piggyback { at: place + at },
            Fault::Truncated { at } => Fault::Truncated { at: place + at },
            Fault::ShortValue { kind, instance, at } => Fault::ShortValue {
                kind,
                instance,
                at: place + at,
            },
            Fault::BadValue { kind, instance, at } => Fault::BadValue {
                kind,
                instance,
                at: place + at,
            },
            fault => fault,
        }
    }

    /// The number by which the driver compares it with the fault of the library.
    pub fn code(self) -> u64 {
        let (which, kind, instance, place) = match self {
            Fault::Short { held } => (1, 0, 0, held),
            Fault::Version(version) => (2, version, 0, 0),
            Fault::Piggyback { at } => (3, 0, 0, at),
            Fault::Length { held } => (4, 0, 0, held),
            Fault::WrongHeader { kind } => (5, kind, 0, 0),
            Fault::Missing {
                kind,
                instance,
                conditional,
            } => (6 + u64::from(conditional), kind, instance, 0),
            Fault::Truncated { at } => (8, 0, 0, at),
            Fault::ShortValue { kind, instance, at } => (9, kind, instance, at),
            Fault::BadValue { kind, instance, at } => (10, kind, instance, at),
        };
        which << 56 | u64::from(kind) << 48 | u64::from(instance) << 40 | place as u64
    }
}
