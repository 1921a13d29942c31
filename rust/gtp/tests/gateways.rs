//! Two gateways in one process: what one sends the other receives. And a node with a gateway for each of several peers.

use gtp::kinds::message;
use gtp::*;
use std::net::{IpAddr, Ipv4Addr, Ipv6Addr, SocketAddr};
use std::thread;

const SERVING: IpAddr = IpAddr::V4(Ipv4Addr::new(192, 0, 2, 1));
const PACKET: IpAddr = IpAddr::V6(Ipv6Addr::new(0x2001, 0xdb8, 0, 0, 0, 0, 0, 1));

fn setup(role: Role) -> Setup<'static> {
    let (own, peer) = match role {
        Role::Serving => (SERVING, PACKET),
        Role::Packet => (PACKET, SERVING),
    };
    Setup {
        role,
        own: own.into(),
        peer: peer.into(),
        counter: 7,
        timers: Timers { t3: 3, n3: 2, hold: 20 },
        access_points: &["internet", "ims"],
        pool: (Ipv4Addr::new(10, 1, 0, 1), 10),
        pool6: ("2001:db8:1::1".parse().unwrap(), 10),
        templates: &[],
        switches: Switches::default(),
    }
}

fn request() -> SessionRequest<'static> {
    SessionRequest {
        imsi: "001010123456789",
        access_point: "internet",
        identity: 5,
        mcc: "001",
        mnc: "01",
        rat: 6,
        selection: 0,
        pdn: 3,
        ambr: Ambr { up: 1000, down: 2000 },
        quality: Quality { pl: 8, qci: 9, ..Quality::default() },
    }
}

/// Two gateways, and the packets that they accepted.
struct Pair {
    serving: Gateway,
    packet: Gateway,
    accepted: Vec<Vec<u8>>,
}

impl Pair {
    fn new() -> Pair {
        Pair::with_templates(&[])
    }

    /// The packet gateway has these templates.
    fn with_templates(templates: &[Template<'_>]) -> Pair {
        let serving = Gateway::new(&setup(Role::Serving)).unwrap();
        let packet = Gateway::new(&Setup { templates, ..setup(Role::Packet) }).unwrap();
        Pair { serving, packet, accepted: Vec::new() }
    }

    /// Hands each the datagrams of the other, until none waits.
    fn settle(&mut self) {
        while forward(&mut self.serving, &mut self.packet, &mut self.accepted)
            || forward(&mut self.packet, &mut self.serving, &mut self.accepted)
        {}
    }

    fn open_session(&mut self) -> u32 {
        let teid = self.serving.create_session(&request()).unwrap();
        self.settle();
        teid
    }
}

/// Hands on the datagram that waits longest, in a block of its own length. A smaller room is refused with that length, and stays as
/// it is; so does what a larger one has behind.
fn forward(from: &mut Gateway, to: &mut Gateway, accepted: &mut Vec<Vec<u8>>) -> bool {
    let Err(TooSmall { needed }) = from.take(&mut []) else {
        return false;
    };
    for len in 1..needed {
        let mut small = vec![0xa5; len].into_boxed_slice();
        assert_eq!(from.take(&mut small), Err(TooSmall { needed }));
        assert!(small.iter().all(|octet| *octet == 0xa5));
    }
    let mut room = vec![0xa5; needed + 8].into_boxed_slice();
    let sent = from.take(&mut room).unwrap().unwrap();
    let (source, plane, octets) = (sent.from, sent.plane, Box::<[u8]>::from(sent.octets));
    assert_eq!(room[octets.len()..], [0xa5; 8]);
    let received = to.receive(source, plane, &octets).unwrap();
    if let Outcome::Accepted { packet, .. } = received.outcome {
        accepted.push(packet.to_vec());
    }
    true
}

#[test]
fn a_session_opens_carries_packets_and_ends() {
    let mut pair = Pair::new();
    let teid = pair.open_session();
    let session = pair.serving.session(teid).unwrap();
    assert_eq!(session.state, State::Active);
    assert_eq!((session.imsi.as_str(), session.access_point.as_str()), ("001010123456789", "internet"));
    assert_eq!(session.v4, Some(Ipv4Addr::new(10, 1, 0, 1)));
    assert_eq!(session.v6, Some("2001:db8:1::1".parse().unwrap()));
    let other = pair.packet.sessions().next().unwrap();
    assert_eq!((other.v4, other.v6, other.remote), (session.v4, session.v6, Some(teid)));

    let up = pair.serving.bearers().next().unwrap().teid;
    let down = pair.packet.bearers().next().unwrap().teid;
    pair.serving.send_user(up, b"up").unwrap();
    pair.packet.send_user(down, b"").unwrap();
    pair.settle();
    assert_eq!(pair.accepted, [b"up".to_vec(), Vec::new()]);

    pair.serving.delete_session(teid).unwrap();
    pair.settle();
    assert_eq!((pair.serving.sessions().count(), pair.packet.sessions().count()), (0, 0));
}

#[test]
fn a_dedicated_bearer_opens_and_ends() {
    let mut pair = Pair::new();
    pair.open_session();
    let session = pair.packet.sessions().next().unwrap().teid;
    let bearer = pair.packet.create_bearer(session, &request().quality, &[0x21]).unwrap();
    pair.settle();
    let found = pair.packet.bearer(bearer).unwrap();
    assert_eq!((found.state, found.is_dedicated, found.session), (State::Active, true, session));
    assert_eq!(pair.serving.bearers().filter(|bearer| bearer.is_dedicated).count(), 1);
    pair.packet.end_marker(bearer).unwrap();
    assert_eq!(pair.packet.end_marker(bearer), Err(CommandError::Refused(Refusal::BearerEnded)));
    pair.packet.delete_bearer(session, found.identity.unwrap()).unwrap();
    pair.settle();
    assert_eq!((pair.packet.bearers().count(), pair.serving.bearers().count()), (1, 1));
    pair.packet.release_session(session).unwrap();
    pair.settle();
    assert_eq!(pair.serving.sessions().count(), 0);
}

#[test]
fn a_session_with_a_template_gets_its_bearer_at_once() {
    let quality = Quality { pl: 2, qci: 1, ..Quality::default() };
    let mut pair = Pair::with_templates(&[Template { access_point: "internet", quality, tft: &[0x21, 0x10, 0] }]);
    let teid = pair.serving.create_session(&request()).unwrap();
    assert!(forward(&mut pair.serving, &mut pair.packet, &mut pair.accepted));

    let mut room = [0; 2048];
    let sent = pair.packet.take(&mut room).unwrap().unwrap();
    let message = ControlMessage::read(sent.octets).unwrap();
    let second = message.second().expect("a second message");
    assert_eq!((message.kind(), second.kind()), (message::CREATE_SESSION_RESPONSE, message::CREATE_BEARER_REQUEST));
    let received = pair.serving.receive(sent.from, sent.plane, sent.octets).unwrap();
    assert_eq!((received.outcome, received.second), (Outcome::Opened, Some(Outcome::Answered(16))));
    assert_eq!(pair.packet.take(&mut room), Ok(None));

    pair.settle();
    for (gateway, other) in [(&pair.serving, &pair.packet), (&pair.packet, &pair.serving)] {
        let bearer = gateway.bearers().find(|bearer| bearer.is_dedicated).unwrap();
        let there = other.bearer(bearer.remote.unwrap()).unwrap();
        assert_eq!((bearer.state, there.remote, there.identity), (State::Active, Some(bearer.teid), bearer.identity));
    }
    assert_eq!(pair.serving.session(teid).unwrap().state, State::Active);

    // A session of another access point has its default bearer alone.
    pair.serving.create_session(&SessionRequest { imsi: "001010123456780", access_point: "ims", ..request() }).unwrap();
    pair.settle();
    assert_eq!((pair.serving.bearers().count(), pair.packet.bearers().count()), (3, 3));
}

#[test]
fn network_identifiers_are_compared_where_the_setup_says_so() {
    for (network_identifiers, outcome) in [(true, Outcome::Opened), (false, Outcome::Rejected(78))] {
        let packet = Setup { switches: Switches { network_identifiers, ..Switches::default() }, ..setup(Role::Packet) };
        let mut serving = Gateway::new(&setup(Role::Serving)).unwrap();
        let mut packet = Gateway::new(&packet).unwrap();
        serving.create_session(&SessionRequest { access_point: "Internet.mnc001.mcc001.GPRS", ..request() }).unwrap();
        assert!(forward(&mut serving, &mut packet, &mut Vec::new()));
        let mut room = [0; 2048];
        let sent = packet.take(&mut room).unwrap().unwrap();
        assert_eq!(serving.receive(sent.from, sent.plane, sent.octets).unwrap().outcome, outcome);
    }
}

#[test]
fn the_version_is_told_where_the_setup_says_so() {
    let echo = [0x32, 1, 0, 4, 0, 0, 0, 0, 0, 1, 0, 0];
    for version_not_supported in [true, false] {
        let switches = Switches { version_not_supported, ..Switches::default() };
        let mut gateway = Gateway::new(&Setup { switches, ..setup(Role::Packet) }).unwrap();
        let source = SocketAddr::new(SERVING, 40000);
        let dropped = if version_not_supported { (12, None) } else { (1, Some(2)) };
        let outcome = gateway.receive(source, Plane::Control, &echo).unwrap().outcome;
        assert_eq!(outcome, Outcome::Dropped { rule: dropped.0, fault: dropped.1 });
        let mut room = [0; 2048];
        let answer = gateway.take(&mut room).unwrap().map(|sent| (sent.to, sent.octets));
        assert_eq!(answer, version_not_supported.then_some((source, &[0x40, 3, 0, 4, 0, 0, 0, 0][..])));
    }
}

#[test]
fn a_template_that_is_none_is_refused() {
    let good = Template { access_point: "ims", quality: Quality::default(), tft: &[0; 255] };
    let opens = |templates: &[Template<'_>]| Gateway::new(&Setup { templates, ..setup(Role::Packet) }).map(drop);
    assert_eq!(opens(&[good; 16]), Ok(()));
    assert_eq!(opens(&[good; 17]), Err(Error::BadValue));
    for bad in [
        Template { access_point: "web", ..good },
        Template { quality: Quality { pl: 16, ..Quality::default() }, ..good },
        Template { tft: &[0; 256], ..good },
    ] {
        assert_eq!(opens(&[bad]), Err(Error::BadValue), "{bad:?}");
        assert_eq!(Setup { templates: &[bad], ..setup(Role::Packet) }.bad_value(), Some(SetupValue::Templates), "{bad:?}");
    }
}

/// Of each form a value and the body that is written for it, by the figures of TS 29.274 clause 8.
#[test]
fn values_are_written_and_read() {
    let v6: Ipv6Addr = "2001:db8::1".parse().unwrap();
    let address = *b"\x20\x01\x0d\xb8\0\0\0\0\0\0\0\0\0\0\0\x01";
    let with_v6 = |front: &[u8], back: &[u8]| [front, &address, back].concat();
    let cause = Cause { value: 70, pce: false, bce: true, cs: true, offending: Some((87, 1)) };
    let quality = Quality { pci: true, pl: 15, pvi: true, qci: 9, mbr: (1, 2), gbr: (3, (1 << 40) - 1) };
    let rates = b"\0\0\0\0\x01\0\0\0\0\x02\0\0\0\0\x03\xff\xff\xff\xff\xff";
    let end = |v4, v6| Value::FTeid(FTeid { interface: 7, teid: 0x01020304, v4, v6 });
    let v4 = Ipv4Addr::new(10, 1, 0, 1);
    let values: &[(u8, Value<'_>, &[u8])] = &[
        (1, Value::Imsi("001010123456789".into()), b"\x00\x01\x01\x21\x43\x65\x87\xf9"),
        (1, Value::Imsi("123456".into()), b"\x21\x43\x65"),
        (2, Value::Cause(cause), b"\x46\x03\x57\0\0\x01"),
        (2, Value::Cause(Cause { pce: true, bce: false, cs: false, offending: None, ..cause }), b"\x46\x04"),
        (3, Value::Recovery(255), b"\xff"),
        (71, Value::Apn("internet.org".into()), b"\x08internet\x03org"),
        (72, Value::Ambr(Ambr { up: 1, down: 0x01020304 }), b"\0\0\0\x01\x01\x02\x03\x04"),
        (73, Value::Ebi(15), b"\x0f"),
        (79, Value::Paa(Paa::V4(v4)), b"\x01\x0a\x01\0\x01"),
        (79, Value::Paa(Paa::V6(v6, 64)), &with_v6(b"\x02\x40", b"")),
        (79, Value::Paa(Paa::V4V6(v4, v6, 64)), &with_v6(b"\x03\x40", b"\x0a\x01\0\x01")),
        (79, Value::Paa(Paa::Other(4)), b"\x04"),
        (80, Value::Quality(quality), &[b"\x7d\x09", &rates[..]].concat()),
        (82, Value::Rat(6), b"\x06"),
        (83, Value::Network { mcc: "001".into(), mnc: "01".into() }, b"\x00\xf1\x10"),
        (83, Value::Network { mcc: "310".into(), mnc: "150".into() }, b"\x13\x00\x51"),
        (87, end(Some(v4), None), b"\x87\x01\x02\x03\x04\x0a\x01\0\x01"),
        (87, end(None, Some(v6)), &with_v6(b"\x47\x01\x02\x03\x04", b"")),
        (87, end(Some(v4), Some(v6)), &with_v6(b"\xc7\x01\x02\x03\x04\x0a\x01\0\x01", b"")),
        (94, Value::ChargingId(0x01020304), b"\x01\x02\x03\x04"),
        (99, Value::PdnType(3), b"\x03"),
        (100, Value::Pti(200), b"\xc8"),
        (128, Value::Selection(3), b"\x03"),
        (84, Value::Octets(b"\x21\x10\0"), b"\x21\x10\0"),
    ];
    for (kind, value, body) in values {
        let mut room = [0xa5; 100];
        assert_eq!(write_value(&mut room, value), Ok(body.len()), "{value:?}");
        assert_eq!((&room[..body.len()], room[body.len()]), (*body, 0xa5), "{value:?}");
        assert_eq!(Value::read(*kind, body), Ok(value.clone()));
        let mut small = vec![0xa5; body.len() - 1];
        assert_eq!(write_value(&mut small, value), Err(WriteError::TooSmall(TooSmall { needed: body.len() })));
        assert!(small.iter().all(|octet| *octet == 0xa5), "{value:?}");
    }
}

#[test]
fn values_out_of_their_ranges_are_not_written() {
    let none = FTeid { interface: 7, teid: 1, v4: None, v6: None };
    let quality = Quality::default();
    let network = |mcc: &str, mnc: &str| Value::Network { mcc: mcc.into(), mnc: mnc.into() };
    for bad in [
        Value::Imsi("12345".into()),
        Value::Imsi("1234567890123456".into()),
        Value::Imsi("12345x".into()),
        Value::Cause(Cause { value: 16, pce: false, bce: false, cs: false, offending: Some((1, 16)) }),
        Value::Apn(String::new()),
        Value::Apn("a..b".into()),
        Value::Apn("a".repeat(64)),
        Value::Apn("a".repeat(300)),
        Value::Ebi(16),
        Value::Paa(Paa::Other(1)),
        Value::Paa(Paa::Other(8)),
        Value::Quality(Quality { pl: 16, ..quality }),
        Value::Quality(Quality { mbr: (1 << 40, 0), ..quality }),
        network("01", "01"),
        network("001", "0"),
        network("0a1", "01"),
        Value::FTeid(none),
        Value::FTeid(FTeid { interface: 64, v4: Some(Ipv4Addr::LOCALHOST), ..none }),
        Value::PdnType(8),
        Value::Selection(4),
    ] {
        let mut room = [0xa5; 400];
        assert_eq!(write_value(&mut room, &bad), Err(WriteError::BadValue), "{bad:?}");
        assert_eq!(room, [0xa5; 400]);
    }
}

#[test]
fn what_is_refused_changes_nothing() {
    let mut pair = Pair::new();
    assert_eq!(pair.serving.delete_session(1), Err(CommandError::Refused(Refusal::NoSuchContext)));
    assert_eq!(pair.packet.create_session(&request()), Err(CommandError::Refused(Refusal::WrongRole)));
    assert_eq!(request().bad_value(), None);
    for (value, bad) in [
        (SessionValue::Imsi, SessionRequest { imsi: "12345", ..request() }),
        (SessionValue::Imsi, SessionRequest { imsi: "00101012345678x", pdn: 8, ..request() }),
        (SessionValue::AccessPoint, SessionRequest { access_point: "a..b", ..request() }),
        (SessionValue::Identity, SessionRequest { identity: 4, ..request() }),
        (SessionValue::Network, SessionRequest { mcc: "01", ..request() }),
        (SessionValue::Network, SessionRequest { mnc: "0x", ..request() }),
        (SessionValue::Network, SessionRequest { mnc: "01f", ..request() }),
        (SessionValue::Selection, SessionRequest { selection: 4, ..request() }),
        (SessionValue::Pdn, SessionRequest { pdn: 8, ..request() }),
        (SessionValue::Quality, SessionRequest { quality: Quality { pl: 16, ..Quality::default() }, ..request() }),
    ] {
        assert_eq!(pair.serving.create_session(&bad), Err(CommandError::BadValue), "{bad:?}");
        assert_eq!(bad.bad_value(), Some(value), "{bad:?}");
    }
    assert_eq!(pair.serving.sessions().count(), 0);
    for names in [&["a,b"][..], &[""], &["a", ""]] {
        assert!(
            matches!(Gateway::new(&Setup { access_points: names, ..setup(Role::Packet) }), Err(Error::BadValue)),
            "{names:?}"
        );
        assert_eq!(Setup { access_points: names, ..setup(Role::Packet) }.bad_value(), Some(SetupValue::AccessPoints));
    }
    assert_eq!(setup(Role::Packet).bad_value(), None);
    for (value, timers) in [
        (SetupValue::T3Response, Timers { t3: 0, n3: 0, hold: 1 }),
        (SetupValue::T3Response, Timers { t3: 1_001, n3: 101, hold: 0 }),
        (SetupValue::N3Requests, Timers { t3: 1_000, n3: 101, hold: 1 }),
        (SetupValue::Hold, Timers { t3: 1, n3: 100, hold: 100_001 }),
    ] {
        let bad = Setup { timers, ..setup(Role::Packet) };
        assert!(matches!(Gateway::new(&bad), Err(Error::BadValue)), "{bad:?}");
        assert_eq!(bad.bad_value(), Some(value));
    }
    let bad = Setup { pool: (Ipv4Addr::BROADCAST, 2), ..setup(Role::Packet) };
    assert_eq!(bad.bad_value(), Some(SetupValue::Pool));
    let bad = Setup { pool6: (Ipv6Addr::UNSPECIFIED, 65_537), ..setup(Role::Packet) };
    assert_eq!(bad.bad_value(), Some(SetupValue::Pool6));
}

#[test]
fn a_datagram_that_does_not_fit_waits() {
    let mut pair = Pair::new();
    pair.serving.echo().unwrap();
    assert_eq!(pair.serving.take(&mut [0; 12]), Err(TooSmall { needed: 13 }));
    let mut room = [0; 13];
    let sent = pair.serving.take(&mut room).unwrap().unwrap();
    assert_eq!((sent.plane, sent.from, sent.to.ip()), (Plane::Control, SocketAddr::new(SERVING, 2123), PACKET));
    let message = ControlMessage::read(sent.octets).unwrap();
    assert_eq!((message.kind(), message.element(3, 0).unwrap().value()), (1, Ok(Value::Recovery(7))));
    assert_eq!(pair.serving.take(&mut []), Ok(None));
}

#[test]
fn a_request_goes_out_again_and_is_given_up() {
    let mut pair = Pair::new();
    pair.serving.echo().unwrap();
    let mut waiting = Vec::new();
    let mut gave_up = 0;
    for _ in 0..9 {
        let ticked = pair.serving.tick().unwrap();
        waiting.push(ticked.waiting);
        gave_up += ticked.gave_up;
    }
    assert_eq!((waiting, gave_up), (vec![1, 1, 2, 2, 2, 3, 3, 3, 3], 1));
}

#[test]
fn strangers_and_garbage_are_dropped() {
    let mut pair = Pair::new();
    let stranger = SocketAddr::new(Ipv4Addr::new(203, 0, 113, 1).into(), 2123);
    for (source, octets, rule, fault) in
        [(stranger, &[0x40, 1, 0, 4, 0, 0, 1, 0][..], 11, None), (SocketAddr::new(SERVING, 2123), &[0x40][..], 1, Some(1))]
    {
        let received = pair.packet.receive(source, Plane::Control, octets).unwrap();
        assert_eq!(received.outcome, Outcome::Dropped { rule, fault });
        assert_eq!(received.waiting, 0);
    }
}

#[test]
fn an_ipv4_end_in_the_form_of_ipv6_is_the_same_end() {
    let mut pair = Pair::new();
    pair.serving.echo().unwrap();
    let mut room = [0; 64];
    let sent = pair.serving.take(&mut room).unwrap().unwrap();
    let IpAddr::V4(own) = sent.from.ip() else { panic!("the serving gateway has an IPv4 address") };
    let mapped = SocketAddr::new(own.to_ipv6_mapped().into(), sent.from.port());
    assert_eq!(pair.packet.receive(mapped, Plane::Control, sent.octets).unwrap().outcome, Outcome::Echoed);
}

#[test]
fn a_gateway_goes_to_another_thread() {
    let mut pair = Pair::new();
    let mut serving = thread::spawn(move || {
        pair.serving.echo().unwrap();
        pair.serving
    })
    .join()
    .unwrap();
    assert_eq!(serving.tick().unwrap().waiting, 1);
}

const OTHER: IpAddr = IpAddr::V4(Ipv4Addr::new(192, 0, 2, 2));

/// A packet gateway for each of these peers, and their serving gateways.
fn node_of(peers: &[Addresses]) -> (Node, Vec<Gateway>) {
    let mut node = Node::new();
    let mut serving = Vec::new();
    for (place, peer) in peers.iter().enumerate() {
        let pool = (Ipv4Addr::new(10, 1 + place as u8, 0, 1), 10);
        assert_eq!(node.add(&Setup { peer: *peer, pool, ..setup(Role::Packet) }), Ok(place));
        serving.push(Gateway::new(&Setup { own: *peer, ..setup(Role::Serving) }).unwrap());
    }
    assert_eq!((node.len(), node.is_empty()), (peers.len(), peers.is_empty()));
    (node, serving)
}

/// Hands the node what waits at the serving gateway of the peer at this place, and back what waits at its gateway. Returns how many
/// packets came to the node.
fn exchange(serving: &mut Gateway, node: &mut Node, place: usize) -> usize {
    let mut room = [0; 2048];
    let mut packets = 0;
    while let Some(sent) = serving.take(&mut room).unwrap() {
        let routed = node.receive(sent.from, sent.plane, sent.octets).unwrap().expect("a peer");
        assert_eq!(routed.place, place);
        packets += usize::from(matches!(routed.received.outcome, Outcome::Accepted { packet: b"up", .. }));
    }
    while let Some(sent) = node.gateway_mut(place).unwrap().take(&mut room).unwrap() {
        serving.receive(sent.from, sent.plane, sent.octets).unwrap();
    }
    packets
}

/// Each peer has the address on one plane that the other has on the other plane.
#[test]
fn a_datagram_goes_to_the_gateway_of_its_peer() {
    let peers = [Addresses { control: SERVING, user: OTHER }, Addresses { control: OTHER, user: SERVING }];
    let (mut node, mut serving) = node_of(&peers);
    for (place, serving) in serving.iter_mut().enumerate() {
        let teid = serving.create_session(&request()).unwrap();
        assert_eq!(exchange(serving, &mut node, place), 0);
        assert_eq!(serving.session(teid).unwrap().v4, Some(Ipv4Addr::new(10, 1 + place as u8, 0, 1)));
        let bearer = serving.bearers().next().unwrap().teid;
        serving.send_user(bearer, b"up").unwrap();
        assert_eq!(exchange(serving, &mut node, place), 1);
        let sessions = [0, 1].map(|place| node.gateway(place).unwrap().sessions().count());
        assert_eq!(sessions, [1, place]);
    }
    assert!(node.gateway(2).is_none() && node.gateway_mut(2).is_none());
}

#[test]
fn of_peers_with_one_address_the_first_is_meant() {
    let six = IpAddr::V6("2001:db8::2".parse().unwrap());
    let (mut node, mut serving) = node_of(&[six.into(), SERVING.into(), SERVING.into(), OTHER.into()]);
    for (from, place) in [(0, 0), (1, 1), (2, 1), (3, 3)] {
        serving[from].echo().unwrap();
        exchange(&mut serving[from], &mut node, place);
    }
    let IpAddr::V4(v4) = OTHER else { panic!("it is an IPv4 address") };
    let mapped = SocketAddr::new(v4.to_ipv6_mapped().into(), 2123);
    assert_eq!(node.receive(mapped, Plane::Control, &[0x40]).unwrap().expect("a peer").place, 3);
}

#[test]
fn a_datagram_of_no_peer_does_nothing() {
    let echo = [0x40, 1, 0, 9, 0, 0, 1, 0, 3, 0, 1, 0, 1];
    let from = |address| SocketAddr::new(address, 2123);
    assert_eq!(Node::new().receive(from(SERVING), Plane::Control, &echo), Ok(None));
    let (mut node, _) = node_of(&[Addresses { control: SERVING, user: OTHER }]);
    let bad = Setup { peer: PACKET.into(), timers: Timers { t3: 0, n3: 2, hold: 20 }, ..setup(Role::Packet) };
    assert_eq!((node.add(&bad), node.len()), (Err(Error::BadValue), 1));
    for (address, plane) in [(PACKET, Plane::Control), (OTHER, Plane::Control), (SERVING, Plane::User)] {
        assert_eq!(node.receive(from(address), plane, &echo), Ok(None));
    }
    assert_eq!(node.gateway_mut(0).unwrap().take(&mut []), Ok(None));
    let routed = node.receive(from(SERVING), Plane::Control, &echo).unwrap().expect("a peer");
    assert_eq!((routed.place, routed.received.outcome, routed.received.waiting), (0, Outcome::Echoed, 1));
}

#[test]
fn a_node_goes_to_another_thread() {
    let (mut node, mut serving) = node_of(&[SERVING.into()]);
    let mut node = thread::spawn(move || {
        assert_eq!(node.add(&Setup { peer: OTHER.into(), ..setup(Role::Packet) }), Ok(1));
        node
    })
    .join()
    .unwrap();
    serving[0].echo().unwrap();
    exchange(&mut serving[0], &mut node, 0);
}

#[test]
fn what_is_written_is_read() {
    let mut room = [0; 64];
    let mut elements = [0; 16];
    let size = write_element(&mut elements, 0, 3, 0, &[9]).unwrap();
    let header = Header { kind: 2, teid: None, sequence: 77, priority: None };
    let len = write_message(&mut room, &header, &elements[..size]).unwrap();
    let message = ControlMessage::read(&room[..len]).unwrap();
    assert_eq!((message.kind(), message.teid(), message.sequence(), message.priority()), (2, None, 77, None));
    assert_eq!(message.elements().collect::<Vec<_>>(), [Element { kind: 3, instance: 0, spare: 0, at: 0, body: &[9] }]);
    assert_eq!(write_message(&mut room[..4], &header, &[]), Err(WriteError::TooSmall(TooSmall { needed: 8 })));
    assert_eq!(write_message(&mut room, &Header { sequence: 1 << 24, ..header }, &[]), Err(WriteError::BadValue));

    let len = write_packet(&mut room, 0x01020304, b"packet").unwrap();
    let message = UserMessage::read(&room[..len]).unwrap();
    assert_eq!((message.kind(), message.teid(), message.payload()), (UserMessage::G_PDU, 0x01020304, &b"packet"[..]));
    assert_eq!(UserMessage::read(&room[..len - 1]).unwrap_err(), UserFault::Length { stated: 6, held: 5 });
}

#[test]
fn library_and_crate_are_of_one_version() {
    assert_eq!(version(), env!("CARGO_PKG_VERSION"));
}

#[test]
fn messages_of_the_user_plane_are_written_and_read() {
    let mut room = [0; 64];
    let about = UserHeader { kind: UserMessage::ERROR_INDICATION, teid: 9, sequence: Some(0), npdu: None, peer: Some(PACKET) };
    let len = write_user(&mut room, &about, &[]).unwrap();
    let message = UserMessage::read(&room[..len]).unwrap();
    assert_eq!((message.kind(), message.teid(), message.peer()), (UserMessage::ERROR_INDICATION, 9, Some(PACKET)));
    assert_eq!(write_user(&mut room, &UserHeader { peer: None, ..about }, &[]), Err(WriteError::BadValue));
    let types = UserHeader { kind: UserMessage::SUPPORTED_EXTENSIONS, sequence: Some(3), ..UserHeader::default() };
    let len = write_user(&mut room, &types, &[0xc0, 0x85]).unwrap();
    let message = UserMessage::read(&room[..len]).unwrap();
    assert_eq!((message.sequence(), message.payload()), (Some(3), &[0xc0, 0x85][..]));
    assert_eq!(write_user(&mut room[..4], &types, &[]), Err(WriteError::TooSmall(TooSmall { needed: 14 })));
}
