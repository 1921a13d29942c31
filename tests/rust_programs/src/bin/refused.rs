//! Each allocation of the library in a run of two gateways and a node, and in each call that writes through memory, is refused in turn:
//! the call says so, and the same call once more goes on; or the call asks again, where it only wanted room in advance. All answers are
//! those of a run in which none is refused. build.rs links it with --wrap=malloc,--wrap=realloc. Prints how many there were.

use gtp::{
    write_user, write_value, Addresses, Ambr, Cause, CommandError, Error, FTeid, Gateway, Node, Outcome, Paa, Plane, Quality,
    Role, SessionRequest, Setup, Switches, Template, Timers, UserHeader, UserMessage, Value, WriteError,
};
use std::alloc::{GlobalAlloc, Layout, System};
use std::ffi::c_void;
use std::fmt::Debug;
use std::net::{Ipv4Addr, Ipv6Addr, SocketAddr};
use std::ptr;
use std::sync::atomic::{AtomicUsize, Ordering::Relaxed};

/// Allocates for this program itself by calloc, which is not wrapped, so that only the library's memory is refused.
struct Own;

// SAFETY: the memory is that of `System`, which keeps the contract.
unsafe impl GlobalAlloc for Own {
    unsafe fn alloc(&self, layout: Layout) -> *mut u8 {
        // SAFETY: the caller keeps what `System` asks for, which is the same.
        unsafe { System.alloc_zeroed(layout) }
    }

    unsafe fn dealloc(&self, at: *mut u8, layout: Layout) {
        // SAFETY: the memory came from `System` with this layout.
        unsafe { System.dealloc(at, layout) }
    }
}

#[global_allocator]
static OWN: Own = Own;

/// How many allocations the library has asked for, and which of them is refused.
static ASKED: AtomicUsize = AtomicUsize::new(0);
static REFUSED: AtomicUsize = AtomicUsize::new(NONE);
const NONE: usize = usize::MAX;

/// How many calls of a run lacked memory.
static LACKED: AtomicUsize = AtomicUsize::new(0);

extern "C" {
    fn __real_malloc(len: usize) -> *mut c_void;
    fn __real_realloc(at: *mut c_void, len: usize) -> *mut c_void;
}

/// From here on the allocation at a place is refused.
fn refuse(place: usize) {
    ASKED.store(0, Relaxed);
    REFUSED.store(place, Relaxed);
}

fn is_refused() -> bool {
    ASKED.fetch_add(1, Relaxed) == REFUSED.load(Relaxed)
}

#[no_mangle]
extern "C" fn __wrap_malloc(len: usize) -> *mut c_void {
    if is_refused() {
        ptr::null_mut()
    } else {
        // SAFETY: malloc takes any length.
        unsafe { __real_malloc(len) }
    }
}

#[no_mangle]
unsafe extern "C" fn __wrap_realloc(at: *mut c_void, len: usize) -> *mut c_void {
    if is_refused() {
        ptr::null_mut()
    } else {
        // SAFETY: the caller keeps what realloc asks for.
        unsafe { __real_realloc(at, len) }
    }
}

/// Makes a call, and once more where it lacked memory.
fn twice<T, E: PartialEq + Debug>(no_memory: E, mut call: impl FnMut() -> Result<T, E>) -> T {
    let first = call();
    first
        .or_else(|error| {
            assert_eq!(error, no_memory);
            LACKED.fetch_add(1, Relaxed);
            call()
        })
        .expect("the same call goes on")
}

/// Hands on each datagram that waits, and notes it and what it came to.
fn pass(from: &mut Gateway, to: &mut Gateway, answers: &mut Vec<String>) {
    let mut room = [0; 2048];
    while let Some(sent) = from.take(&mut room).expect("a room for each") {
        let received = twice(Error::NoMemory, || to.receive(sent.from, sent.plane, sent.octets));
        answers.push(format!("{sent:?} {received:?}"));
    }
}

const SERVING: Ipv4Addr = Ipv4Addr::new(192, 0, 2, 1);
const PACKET: Ipv4Addr = Ipv4Addr::new(192, 0, 2, 2);
const QUALITY: Quality = Quality { pci: false, pl: 8, pvi: false, qci: 9, mbr: (0, 0), gbr: (0, 0) };
const TFT: &[u8] = &[0x21, 0x10, 0];
/// A session of this access point gets a second bearer in the same datagram.
const TEMPLATES: &[Template<'_>] = &[Template { access_point: "ims", quality: QUALITY, tft: TFT }];

fn setup_of(role: Role) -> Setup<'static> {
    let (own, peer, templates) = match role {
        Role::Serving => (SERVING, PACKET, &[][..]),
        Role::Packet => (PACKET, SERVING, TEMPLATES),
    };
    Setup {
        role,
        own: Addresses { control: own.into(), user: own.into() },
        peer: Addresses { control: peer.into(), user: peer.into() },
        counter: 1,
        timers: Timers { t3: 3, n3: 3, hold: 60 },
        access_points: &["internet", "ims"],
        pool: (Ipv4Addr::new(10, 1, 0, 1), 1000),
        pool6: (Ipv6Addr::new(0x2001, 0xdb8, 0, 0, 0, 0, 0, 1), 1000),
        templates,
        switches: Switches::default(),
    }
}

fn gateway(role: Role) -> Gateway {
    twice(Error::NoMemory, || Gateway::new(&setup_of(role)))
}

/// Peers, of which one has the control address of an earlier one, and what an Echo Request of each comes to.
fn node() -> Vec<String> {
    let mut node = Node::new();
    let mut answers = Vec::new();
    for last in [1, 3, 1, 5] {
        let peer = Addresses { control: Ipv4Addr::new(192, 0, 2, last).into(), user: PACKET.into() };
        let place = twice(Error::NoMemory, || node.add(&Setup { peer, ..setup_of(Role::Packet) }));
        answers.push(format!("{place} of {}", node.len()));
    }
    for last in 1..=5 {
        let source = SocketAddr::new(Ipv4Addr::new(192, 0, 2, last).into(), 2123);
        let echo = [0x40, 1, 0, 9, 0, 0, 1, 0, 3, 0, 1, 0, 1];
        answers.push(format!("{:?}", twice(Error::NoMemory, || node.receive(source, Plane::Control, &echo))));
    }
    answers
}

/// What the calls answered in a run with all commands.
fn run() -> Vec<String> {
    let mut answers = node();
    let (mut serving, mut packet) = (gateway(Role::Serving), gateway(Role::Packet));
    let lack = CommandError::NoMemory;
    for (access_point, pdn) in [("internet", 3), ("ims", 1)] {
        let ambr = Ambr { up: 1000, down: 1000 };
        let (imsi, mcc, mnc, identity, rat, selection, quality) = ("001010123456789", "001", "01", 5, 6, 0, QUALITY);
        let request = SessionRequest { imsi, access_point, identity, mcc, mnc, rat, selection, pdn, ambr, quality };
        let session = twice(lack, || serving.create_session(&request));
        pass(&mut serving, &mut packet, &mut answers);
        pass(&mut packet, &mut serving, &mut answers);
        pass(&mut serving, &mut packet, &mut answers);
        let there = serving.session(session).and_then(|session| session.remote).expect("a session");
        let bearer = twice(lack, || packet.create_bearer(there, &QUALITY, TFT));
        pass(&mut packet, &mut serving, &mut answers);
        pass(&mut serving, &mut packet, &mut answers);
        answers.push(format!("{:?}", serving.sessions().chain(packet.sessions()).collect::<Vec<_>>()));
        answers.push(format!("{:?}", serving.bearers().chain(packet.bearers()).collect::<Vec<_>>()));
        let up = serving.bearers().next().expect("a bearer").teid;
        twice(lack, || serving.send_user(up, b"x"));
        twice(lack, || packet.send_user(bearer, b"y"));
        twice(lack, || packet.end_marker(bearer));
        twice(lack, || serving.echo());
        pass(&mut serving, &mut packet, &mut answers);
        twice(lack, || packet.echo());
        // The answers of both are forgotten, and the request that is not handed on goes out again.
        for _ in 0..61 {
            for gateway in [&mut serving, &mut packet] {
                answers.push(format!("{:?}", twice(Error::NoMemory, || gateway.tick())));
            }
        }
        pass(&mut packet, &mut serving, &mut answers);
        pass(&mut serving, &mut packet, &mut answers);
        let identity = packet.bearer(bearer).and_then(|bearer| bearer.identity).expect("an identity");
        twice(lack, || packet.delete_bearer(there, identity));
        pass(&mut packet, &mut serving, &mut answers);
        pass(&mut serving, &mut packet, &mut answers);
        match pdn {
            3 => twice(lack, || serving.delete_session(session)),
            _ => twice(lack, || packet.release_session(there)),
        };
        for _ in 0..2 {
            pass(&mut serving, &mut packet, &mut answers);
            pass(&mut packet, &mut serving, &mut answers);
        }
        assert_eq!(serving.sessions().count() + packet.sessions().count(), 0);
    }
    answers
}

/// A call that writes lacks memory exactly where an allocation was refused; it has then written nothing, and once more it writes.
fn refuse_each_of(write: impl Fn(&mut [u8]) -> Result<usize, WriteError>) {
    let (mut whole, blank) = ([0xa5; 64], [0xa5; 64]);
    refuse(NONE);
    let size = write(&mut whole).expect("a value");
    let all = ASKED.load(Relaxed);
    assert!(all > 0);
    for place in 0..all {
        let mut room = blank;
        refuse(place);
        assert_eq!((write(&mut room), room), (Err(WriteError::NoMemory), blank));
        assert_eq!((write(&mut room), room), (Ok(size), whole));
    }
}

fn main() {
    let header = UserHeader { kind: UserMessage::G_PDU, ..UserHeader::default() };
    refuse_each_of(|room| write_user(room, &header, b"packet"));
    for value in [
        Value::Imsi("001011".into()),
        Value::Cause(Cause { value: 16, pce: false, bce: false, cs: false, offending: None }),
        Value::Recovery(7),
        Value::Apn("internet".into()),
        Value::Ambr(Ambr { up: 1000, down: 1000 }),
        Value::Ebi(5),
        Value::Paa(Paa::V4V6(SERVING, Ipv6Addr::LOCALHOST, 64)),
        Value::Quality(QUALITY),
        Value::Rat(6),
        Value::Network { mcc: "001".into(), mnc: "01".into() },
        Value::FTeid(FTeid { interface: 7, teid: 1, v4: Some(SERVING), v6: None }),
        Value::ChargingId(9),
        Value::PdnType(1),
        Value::Pti(1),
        Value::Selection(1),
    ] {
        refuse_each_of(|room| write_value(room, &value));
    }

    refuse(NONE);
    let first = run();
    let all = ASKED.load(Relaxed);
    assert!(first.iter().any(|line| line.contains(&format!("{:?}", Outcome::Opened))));
    for place in 0..all {
        refuse(place);
        assert_eq!(run(), first, "allocation {place} refused");
        match LACKED.swap(0, Relaxed) {
            0 => assert_eq!(ASKED.load(Relaxed), all + 1, "allocation {place} refused"),
            lacked => assert_eq!(lacked, 1, "allocation {place} refused"),
        }
    }
    println!("{all}");
}
