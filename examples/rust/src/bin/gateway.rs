//! A gateway on UDP: gateway serving|packet OWN PEER [COUNTER]; ports 2123 and 2152 of OWN are its own. It moves octets between its
//! sockets and the gateway, lets a tick pass each second, and reads commands, a line each:
//!   create IMSI NAME    asks for a session (serving)       delete    ends all active sessions
//!   send TEXT           sends a packet on all bearers      list      shows sessions and bearers
//! The restart counter has to be one more at each start (TS 23.007 18); here it is a word of the command line.

use gtp::{Ambr, Gateway, Outcome, Plane, Quality, Role, SessionRequest, Setup, State, Switches, Timers};
use std::error::Error;
use std::io::{self, BufRead, ErrorKind};
use std::net::{IpAddr, Ipv4Addr, Ipv6Addr, UdpSocket};
use std::sync::mpsc::{channel, Receiver, TryRecvError};
use std::thread;
use std::time::{Duration, Instant};

/// The sockets of a gateway.
struct Sockets {
    control: UdpSocket,
    user: UdpSocket,
}

impl Sockets {
    fn open(own: IpAddr) -> io::Result<Sockets> {
        let open = |plane: Plane| {
            let socket = UdpSocket::bind((own, plane.port()))?;
            socket.set_nonblocking(true)?;
            Ok::<_, io::Error>(socket)
        };
        Ok(Sockets { control: open(Plane::Control)?, user: open(Plane::User)? })
    }

    fn of(&self, plane: Plane) -> &UdpSocket {
        match plane {
            Plane::Control => &self.control,
            Plane::User => &self.user,
        }
    }

    /// Sends all that waits.
    fn flush(&self, gateway: &mut Gateway, room: &mut [u8]) -> Result<(), Box<dyn Error>> {
        while let Some(sent) = gateway.take(room)? {
            if let Err(error) = self.of(sent.plane).send_to(sent.octets, sent.to) {
                eprintln!("send to {}: {error}", sent.to);
            }
        }
        Ok(())
    }

    /// Hands in what came on a plane.
    fn receive(&self, plane: Plane, gateway: &mut Gateway, room: &mut [u8]) -> Result<(), Box<dyn Error>> {
        loop {
            let (len, source) = match self.of(plane).recv_from(room) {
                Ok(came) => came,
                Err(error) if error.kind() == ErrorKind::WouldBlock => return Ok(()),
                Err(error) => return Err(error.into()),
            };
            let received = gateway.receive(source, plane, &room[..len])?;
            println!("received {:?}", received.outcome);
            if let Outcome::Accepted { packet, .. } = received.outcome {
                println!("packet {}", String::from_utf8_lossy(packet));
            }
            self.flush(gateway, room)?;
        }
    }
}

fn create(gateway: &mut Gateway, imsi: &str, access_point: &str) {
    let request = SessionRequest {
        imsi,
        access_point,
        identity: 5,
        mcc: "001",
        mnc: "01",
        rat: 6,
        selection: 0,
        pdn: 1,
        ambr: Ambr { up: 1000, down: 1000 },
        quality: Quality { pl: 8, qci: 9, ..Quality::default() },
    };
    match gateway.create_session(&request) {
        Ok(teid) => println!("session {teid:08x} asked for"),
        Err(error) => println!("create: {error}"),
    }
}

fn delete(gateway: &mut Gateway) {
    let active: Vec<_> = gateway.sessions().filter(|session| session.state == State::Active).collect();
    for session in active {
        if let Err(error) = gateway.delete_session(session.teid) {
            println!("delete {:08x}: {error}", session.teid);
        }
    }
}

fn send(gateway: &mut Gateway, text: &str) {
    let active: Vec<_> = gateway.bearers().filter(|bearer| bearer.state == State::Active).collect();
    for bearer in active {
        if let Err(error) = gateway.send_user(bearer.teid, text.as_bytes()) {
            println!("send {:08x}: {error}", bearer.teid);
        }
    }
}

fn list(gateway: &Gateway) {
    for session in gateway.sessions() {
        let address = session.v4.map_or("none".into(), |v4| v4.to_string());
        println!("session {:08x} {:?} address {address}", session.teid, session.state);
    }
    for bearer in gateway.bearers() {
        println!("bearer {:08x} {:?} identity {:?}", bearer.teid, bearer.state, bearer.identity);
    }
}

fn command(gateway: &mut Gateway, line: &str) {
    match line.split_whitespace().collect::<Vec<_>>()[..] {
        ["create", imsi, name] => create(gateway, imsi, name),
        ["delete"] => delete(gateway),
        ["send", ..] => send(gateway, line["send".len()..].trim()),
        ["list"] => list(gateway),
        _ => println!("bad command"),
    }
}

/// The lines of standard input, as they come.
fn lines() -> Receiver<String> {
    let (give, take) = channel();
    thread::spawn(move || io::stdin().lock().lines().map_while(Result::ok).try_for_each(|line| give.send(line)));
    take
}

fn run(role: Role, own: IpAddr, peer: IpAddr, counter: u8) -> Result<(), Box<dyn Error>> {
    let setup = Setup {
        role,
        own: own.into(),
        peer: peer.into(),
        counter,
        timers: Timers { t3: 3, n3: 3, hold: 60 },
        access_points: &["internet"],
        pool: (Ipv4Addr::new(10, 1, 0, 1), 1000),
        pool6: (Ipv6Addr::UNSPECIFIED, 0),
        templates: &[],
        switches: Switches::default(),
    };
    let (mut gateway, mut room) = (Gateway::new(&setup)?, vec![0; 65_536]);
    let (sockets, commands) = (Sockets::open(own)?, lines());
    let mut next = Instant::now() + Duration::from_secs(1);
    loop {
        sockets.receive(Plane::Control, &mut gateway, &mut room)?;
        sockets.receive(Plane::User, &mut gateway, &mut room)?;
        match commands.try_recv() {
            Ok(line) => command(&mut gateway, &line),
            Err(TryRecvError::Empty) => thread::sleep(Duration::from_millis(10)),
            Err(TryRecvError::Disconnected) => return Ok(()),
        }
        if Instant::now() >= next {
            gateway.tick()?;
            next += Duration::from_secs(1);
        }
        sockets.flush(&mut gateway, &mut room)?;
    }
}

fn main() -> Result<(), Box<dyn Error>> {
    let words: Vec<String> = std::env::args().skip(1).collect();
    let (role, own, peer, counter) = match words.iter().map(String::as_str).collect::<Vec<_>>()[..] {
        ["serving", own, peer] => (Role::Serving, own, peer, "0"),
        ["serving", own, peer, counter] => (Role::Serving, own, peer, counter),
        ["packet", own, peer] => (Role::Packet, own, peer, "0"),
        ["packet", own, peer, counter] => (Role::Packet, own, peer, counter),
        _ => return Err("usage: gateway serving|packet OWN PEER [COUNTER]".into()),
    };
    run(role, own.parse()?, peer.parse()?, counter.parse()?)
}
