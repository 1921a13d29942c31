//! Shows a datagram as `gtpshow decode` does: decode [--user] HEX.

use gtp::{ControlMessage, Element, Elements, Paa, UserMessage, Value};
use std::process::ExitCode;

fn hex(octets: &[u8]) -> String {
    if octets.is_empty() {
        return "-".into();
    }
    octets.iter().map(|octet| format!("{octet:02x}")).collect()
}

/// The octets of hexadecimal digits.
pub fn octets_of(digits: &str) -> Option<Vec<u8>> {
    let octet = |at| u8::from_str_radix(digits.get(at..at + 2)?, 16).ok();
    (0..digits.len()).step_by(2).map(octet).collect()
}

fn name_of(kind: u8) -> &'static str {
    match kind {
        1 => "echo-request",
        2 => "echo-response",
        3 => "version-not-supported",
        32 => "create-session-request",
        33 => "create-session-response",
        36 => "delete-session-request",
        37 => "delete-session-response",
        95 => "create-bearer-request",
        96 => "create-bearer-response",
        99 => "delete-bearer-request",
        100 => "delete-bearer-response",
        _ => "other",
    }
}

fn paa_text(paa: Paa) -> String {
    match paa {
        Paa::V4(v4) => format!("ipv4 {v4}"),
        Paa::V6(v6, prefix) => format!("ipv6 {prefix} {}", hex(&v6.octets())),
        Paa::V4V6(v4, v6, prefix) => format!("ipv4v6 {prefix} {} {v4}", hex(&v6.octets())),
        Paa::Other(pdn) => format!("other {pdn}"),
    }
}

fn value_text(element: &Element<'_>) -> String {
    match element.value() {
        Ok(Value::Imsi(digits)) => format!("imsi {digits}"),
        Ok(Value::Cause(cause)) => {
            let at = cause.offending.map(|(kind, instance)| format!(" offending {kind} {instance}"));
            format!("cause {}{}", cause.value, at.unwrap_or_default())
        }
        Ok(Value::Recovery(counter)) => format!("recovery {counter}"),
        Ok(Value::Apn(name)) => format!("apn {name}"),
        Ok(Value::Ambr(ambr)) => format!("ambr {} {}", ambr.up, ambr.down),
        Ok(Value::Ebi(identity)) => format!("ebi {identity}"),
        Ok(Value::Paa(paa)) => format!("paa {}", paa_text(paa)),
        Ok(Value::Quality(q)) => format!(
            "qos pci {} pl {} pvi {} qci {} mbr {} {} gbr {} {}",
            u8::from(q.pci),
            q.pl,
            u8::from(q.pvi),
            q.qci,
            q.mbr.0,
            q.mbr.1,
            q.gbr.0,
            q.gbr.1
        ),
        Ok(Value::Rat(rat)) => format!("rat {rat}"),
        Ok(Value::Network { mcc, mnc }) => format!("serving-network {mcc} {mnc}"),
        Ok(Value::FTeid(end)) => {
            let v4 = end.v4.map(|v4| format!(" v4 {v4}")).unwrap_or_default();
            let v6 = end.v6.map(|v6| format!(" v6 {}", hex(&v6.octets()))).unwrap_or_default();
            format!("fteid {} {:08x}{v4}{v6}", end.interface, end.teid)
        }
        Ok(Value::ChargingId(number)) => format!("charging-id {number}"),
        Ok(Value::PdnType(pdn)) => format!("pdn-type {pdn}"),
        Ok(Value::Pti(pti)) => format!("pti {pti}"),
        Ok(Value::Selection(mode)) => format!("selection {mode}"),
        _ if element.kind == 84 && element.body.len() <= 255 => format!("tft {}", hex(element.body)),
        _ => format!("octets {}", hex(element.body)),
    }
}

fn show_elements(elements: Elements<'_>, indent: &str) {
    for element in elements {
        print!("{indent}ie {} {} ", element.kind, element.instance);
        let mut inner = element.elements();
        inner.by_ref().for_each(drop);
        if indent.is_empty() && element.kind == 93 && inner.rest().is_empty() {
            println!("bearer-context");
            show_elements(element.elements(), "  ");
        } else {
            println!("{}", value_text(&element));
        }
    }
}

fn show_control(message: &ControlMessage<'_>) {
    print!("gtpv2 type {} {}", message.kind(), name_of(message.kind()));
    if let Some(teid) = message.teid() {
        print!(" teid {teid:08x}");
    }
    print!(" seq {}", message.sequence());
    if let Some(priority) = message.priority() {
        print!(" priority {priority}");
    }
    println!();
    if message.has_elements() {
        show_elements(message.elements(), "");
    } else {
        println!("octets {}", hex(message.payload()));
    }
    if let Some(second) = message.second() {
        show_control(&second);
    }
}

fn show_user(message: &UserMessage<'_>) {
    let kind = message.kind();
    let name = match kind {
        UserMessage::ERROR_INDICATION => "error-indication",
        UserMessage::SUPPORTED_EXTENSIONS => "supported-extensions",
        UserMessage::END_MARKER => "end-marker",
        UserMessage::G_PDU => "g-pdu",
        UserMessage::ECHO_REQUEST | UserMessage::ECHO_RESPONSE => name_of(kind),
        _ => "other",
    };
    print!("gtpu type {kind} {name}");
    if !matches!(kind, 1 | 2 | 26 | 31) {
        print!(" teid {:08x}", message.teid());
    }
    if let Some(sequence) = message.sequence() {
        print!(" seq {sequence}");
    }
    if let Some(npdu) = message.npdu() {
        print!(" npdu {npdu}");
    }
    println!();
    for extension in message.extensions() {
        println!("ext {:02x} {}", extension.kind, hex(extension.content));
    }
    match (kind, message.peer()) {
        (_, Some(std::net::IpAddr::V4(v4))) => println!("teid {:08x}\npeer {v4}", message.teid()),
        (_, Some(std::net::IpAddr::V6(v6))) => println!("teid {:08x}\npeer {}", message.teid(), hex(&v6.octets())),
        (1 | 2 | 254, _) => {}
        (31, _) => println!("types {}", hex(message.payload())),
        (255, _) => println!("payload {}", hex(message.payload())),
        _ => println!("octets {}", hex(message.payload())),
    }
}

/// Shows a datagram, or its first fault, and says whether it has none.
pub fn show(octets: &[u8], is_user: bool) -> bool {
    let shown = if is_user {
        UserMessage::read(octets).map(|message| show_user(&message)).map_err(|fault| fault.to_string())
    } else {
        ControlMessage::read(octets).map(|message| show_control(&message)).map_err(|fault| fault.to_string())
    };
    match shown {
        Ok(()) => true,
        Err(fault) => {
            println!("fault {fault}");
            false
        }
    }
}

fn main() -> ExitCode {
    let words: Vec<String> = std::env::args().skip(1).collect();
    let (is_user, digits) = match words.iter().map(String::as_str).collect::<Vec<_>>()[..] {
        ["--user", digits] => (true, digits),
        [digits] => (false, digits),
        _ => {
            eprintln!("usage: decode [--user] HEX");
            return ExitCode::from(2);
        }
    };
    let Some(octets) = octets_of(digits) else {
        eprintln!("bad hex");
        return ExitCode::from(2);
    };
    if show(&octets, is_user) {
        ExitCode::SUCCESS
    } else {
        ExitCode::FAILURE
    }
}
