//! What include/gtp.h declares, in its order. tests/rust compares the sizes and places with those of the header.

// The library is for x86-64, and lengths are converted by `as`.
const _: () = assert!(usize::BITS == 64);

#[repr(C)]
#[derive(Clone, Copy, Debug, Default)]
pub struct Address {
    pub version: u8,
    pub octets: [u8; 16],
}

#[repr(C)]
#[derive(Clone, Copy, Debug, Default)]
pub struct End {
    pub address: Address,
    pub port: u16,
}

#[repr(C)]
#[derive(Clone, Copy, Debug, Default)]
pub struct Fault {
    pub at: u64,
    pub stated: u64,
    pub held: u64,
    pub number: u8,
    pub detail: u8,
    pub version: u8,
    pub message: u8,
    pub element: u8,
    pub instance: u8,
    pub conditional: u8,
}

#[repr(C)]
#[derive(Clone, Copy, Debug, Default)]
pub struct Head {
    pub list_at: u64,
    pub list_len: u64,
    pub second_len: u64,
    pub teid: u32,
    pub seq: u32,
    pub kind: u8,
    pub has_teid: u8,
    pub has_priority: u8,
    pub priority: u8,
    pub has_elements: u8,
}

#[repr(C)]
#[derive(Clone, Copy, Debug, Default)]
pub struct Element {
    pub at: u64,
    pub body_at: u64,
    pub len: u64,
    pub kind: u8,
    pub instance: u8,
    pub spare: u8,
}

#[repr(C)]
#[derive(Clone, Copy, Debug, Default)]
pub struct UserHead {
    pub payload_at: u64,
    pub payload_len: u64,
    pub extensions_len: u64,
    pub teid: u32,
    pub seq: u16,
    pub has_seq: u8,
    pub has_npdu: u8,
    pub npdu: u8,
    pub kind: u8,
    pub extension: u8,
    pub peer: Address,
}

#[repr(C)]
#[derive(Clone, Copy, Debug, Default)]
pub struct Imsi {
    pub count: u8,
    pub digits: [u8; 15],
}

#[repr(C)]
#[derive(Clone, Copy, Debug, Default)]
pub struct Cause {
    pub value: u8,
    pub pce: u8,
    pub bce: u8,
    pub cs: u8,
    pub has_offending: u8,
    pub offending: u8,
    pub instance: u8,
}

#[repr(C)]
#[derive(Clone, Copy, Debug)]
pub struct Apn {
    pub len: u8,
    pub octets: [u8; 100],
}

impl Default for Apn {
    fn default() -> Apn {
        Apn { len: 0, octets: [0; 100] }
    }
}

#[repr(C)]
#[derive(Clone, Copy, Debug, Default)]
pub struct Ambr {
    pub up: u32,
    pub down: u32,
}

#[repr(C)]
#[derive(Clone, Copy, Debug, Default)]
pub struct Paa {
    pub pdn: u8,
    pub prefix: u8,
    pub v4: [u8; 4],
    pub v6: [u8; 16],
}

#[repr(C)]
#[derive(Clone, Copy, Debug, Default)]
pub struct Quality {
    pub mbr_up: u64,
    pub mbr_down: u64,
    pub gbr_up: u64,
    pub gbr_down: u64,
    pub pci: bool,
    pub pl: u8,
    pub pvi: bool,
    pub qci: u8,
}

#[repr(C)]
#[derive(Clone, Copy, Debug, Default)]
pub struct Network {
    pub digits: [u8; 6],
}

#[repr(C)]
#[derive(Clone, Copy, Debug, Default)]
pub struct FTeid {
    pub teid: u32,
    pub interface: u8,
    pub has_v4: u8,
    pub has_v6: u8,
    pub v4: [u8; 4],
    pub v6: [u8; 16],
}

#[repr(C)]
#[derive(Debug)]
pub struct Gateway {
    pub hidden: *mut u8,
    pub count: u64,
}

#[repr(C)]
#[derive(Clone, Copy, Debug)]
pub struct Template {
    pub quality: Quality,
    pub access_point: u8,
    pub tft_len: u8,
    pub tft: [u8; 255],
}

impl Default for Template {
    fn default() -> Template {
        Template { quality: Quality::default(), access_point: 0, tft_len: 0, tft: [0; 255] }
    }
}

/// The most templates of a setup.
pub const MOST_TEMPLATES: usize = 16;

#[repr(C)]
#[derive(Clone, Copy, Debug, Default)]
pub struct Setup {
    pub own_control: Address,
    pub own_user: Address,
    pub peer_control: Address,
    pub peer_user: Address,
    pub pool6: [u8; 16],
    pub pool6_count: u32,
    pub pool: u32,
    pub pool_count: u32,
    pub t3: u32,
    pub n3: u32,
    pub hold: u32,
    pub role: u8,
    pub counter: u8,
    pub template_count: u8,
    pub switches: u8,
    pub templates: [Template; MOST_TEMPLATES],
}

#[repr(C)]
#[derive(Clone, Copy, Debug, Default)]
pub struct Outcome {
    pub kind: u8,
    pub cause: u8,
    pub fault: u8,
}

#[repr(C)]
#[derive(Clone, Copy, Debug, Default)]
pub struct Told {
    pub waiting: u64,
    pub payload_len: u64,
    pub gave_up: u64,
    pub forgot: u64,
    pub teid: u32,
    pub outcome: Outcome,
    pub second: Outcome,
    pub made: u8,
    pub counted: u8,
    pub counter: u8,
    pub restarted: u8,
}

#[repr(C)]
#[derive(Clone, Copy, Debug, Default)]
pub struct Datagram {
    pub len: u64,
    pub from: End,
    pub to: End,
    pub plane: u8,
}

#[repr(C)]
#[derive(Clone, Copy, Debug, Default)]
pub struct Session {
    pub quality: Quality,
    pub ambr_up: u32,
    pub ambr_down: u32,
    pub network: [u8; 6],
    pub identity: u8,
    pub rat: u8,
    pub selection: u8,
    pub pdn: u8,
}

#[repr(C)]
#[derive(Clone, Copy, Debug, Default)]
pub struct SessionRow {
    pub teid: u32,
    pub remote: u32,
    pub has_remote: u8,
    pub state: u8,
    pub identity: u8,
    pub has_v4: u8,
    pub has_v6: u8,
    pub v4: [u8; 4],
    pub v6: [u8; 16],
    pub imsi: Imsi,
    pub access_point: Apn,
}

#[repr(C)]
#[derive(Clone, Copy, Debug, Default)]
pub struct BearerRow {
    pub teid: u32,
    pub remote: u32,
    pub session: u32,
    pub has_remote: u8,
    pub state: u8,
    pub identity: u8,
    pub dedicated: u8,
    pub ended: u8,
}

#[repr(C)]
#[derive(Debug)]
pub struct Places {
    pub hidden: *mut u8,
    pub count: u64,
}

pub const DONE: u8 = 0;
pub const NO_MEMORY: u8 = 2;
pub const FULL: u8 = 3;
pub const NONE: u8 = 4;
pub const TOO_SMALL: u8 = 5;
pub const REFUSED: u8 = 6;
pub const SHORT_VALUE: u8 = 10;

/// A call that reads the body of an element.
pub type Read<T> = unsafe extern "C" fn(*const u8, usize, *mut T) -> u8;

/// A call that writes the body of an element.
pub type Write<T> = unsafe extern "C" fn(*mut u8, usize, *const T, *mut u64) -> u8;

/// A call that writes the body of an element that says a number.
pub type WriteNumber = unsafe extern "C" fn(*mut u8, usize, u32, *mut u64) -> u8;

extern "C" {
    pub fn gtp_control_read(octets: *const u8, len: usize, head: *mut Head, fault: *mut Fault) -> u8;
    pub fn gtp_element_next(octets: *const u8, len: usize, place: u64, element: *mut Element) -> u8;
    pub fn gtp_element_first(octets: *const u8, len: usize, place: u64, kind: u8, instance: u8, element: *mut Element) -> u8;
    pub fn gtp_user_read(octets: *const u8, len: usize, head: *mut UserHead, fault: *mut Fault) -> u8;

    pub fn gtp_imsi_read(body: *const u8, len: usize, value: *mut Imsi) -> u8;
    pub fn gtp_cause_read(body: *const u8, len: usize, value: *mut Cause) -> u8;
    pub fn gtp_recovery_read(body: *const u8, len: usize, number: *mut u32) -> u8;
    pub fn gtp_apn_read(body: *const u8, len: usize, value: *mut Apn) -> u8;
    pub fn gtp_ambr_read(body: *const u8, len: usize, value: *mut Ambr) -> u8;
    pub fn gtp_ebi_read(body: *const u8, len: usize, number: *mut u32) -> u8;
    pub fn gtp_paa_read(body: *const u8, len: usize, value: *mut Paa) -> u8;
    pub fn gtp_qos_read(body: *const u8, len: usize, value: *mut Quality) -> u8;
    pub fn gtp_rat_read(body: *const u8, len: usize, number: *mut u32) -> u8;
    pub fn gtp_network_read(body: *const u8, len: usize, value: *mut Network) -> u8;
    pub fn gtp_fteid_read(body: *const u8, len: usize, value: *mut FTeid) -> u8;
    pub fn gtp_charging_id_read(body: *const u8, len: usize, number: *mut u32) -> u8;
    pub fn gtp_pdn_type_read(body: *const u8, len: usize, number: *mut u32) -> u8;
    pub fn gtp_pti_read(body: *const u8, len: usize, number: *mut u32) -> u8;
    pub fn gtp_selection_read(body: *const u8, len: usize, number: *mut u32) -> u8;

    pub fn gtp_imsi_write(buffer: *mut u8, room: usize, value: *const Imsi, size: *mut u64) -> u8;
    pub fn gtp_cause_write(buffer: *mut u8, room: usize, value: *const Cause, size: *mut u64) -> u8;
    pub fn gtp_recovery_write(buffer: *mut u8, room: usize, number: u32, size: *mut u64) -> u8;
    pub fn gtp_apn_write(buffer: *mut u8, room: usize, value: *const Apn, size: *mut u64) -> u8;
    pub fn gtp_ambr_write(buffer: *mut u8, room: usize, value: *const Ambr, size: *mut u64) -> u8;
    pub fn gtp_ebi_write(buffer: *mut u8, room: usize, number: u32, size: *mut u64) -> u8;
    pub fn gtp_paa_write(buffer: *mut u8, room: usize, value: *const Paa, size: *mut u64) -> u8;
    pub fn gtp_qos_write(buffer: *mut u8, room: usize, value: *const Quality, size: *mut u64) -> u8;
    pub fn gtp_rat_write(buffer: *mut u8, room: usize, number: u32, size: *mut u64) -> u8;
    pub fn gtp_network_write(buffer: *mut u8, room: usize, value: *const Network, size: *mut u64) -> u8;
    pub fn gtp_fteid_write(buffer: *mut u8, room: usize, value: *const FTeid, size: *mut u64) -> u8;
    pub fn gtp_charging_id_write(buffer: *mut u8, room: usize, number: u32, size: *mut u64) -> u8;
    pub fn gtp_pdn_type_write(buffer: *mut u8, room: usize, number: u32, size: *mut u64) -> u8;
    pub fn gtp_pti_write(buffer: *mut u8, room: usize, number: u32, size: *mut u64) -> u8;
    pub fn gtp_selection_write(buffer: *mut u8, room: usize, number: u32, size: *mut u64) -> u8;

    pub fn gtp_message_name(buffer: *mut u8, room: usize, message: u8, size: *mut u64) -> u8;
    pub fn gtp_element_name(buffer: *mut u8, room: usize, kind: u8, size: *mut u64) -> u8;
    pub fn gtp_element_lines(
        buffer: *mut u8,
        room: usize,
        message: u8,
        kind: u8,
        instance: u8,
        body: *const u8,
        body_len: usize,
        size: *mut u64,
    ) -> u8;
    pub fn gtp_element_json(
        buffer: *mut u8,
        room: usize,
        message: u8,
        kind: u8,
        instance: u8,
        body: *const u8,
        body_len: usize,
        size: *mut u64,
    ) -> u8;

    pub fn gtp_version(buffer: *mut u8, room: usize, size: *mut u64) -> u8;
    pub fn gtp_element_write(
        buffer: *mut u8,
        room: usize,
        place: u64,
        kind: u8,
        instance: u8,
        body: *const u8,
        body_len: usize,
        size: *mut u64,
    ) -> u8;
    pub fn gtp_control_write(
        buffer: *mut u8,
        room: usize,
        head: *const Head,
        list: *const u8,
        list_len: usize,
        size: *mut u64,
    ) -> u8;
    pub fn gtp_packet_write(
        buffer: *mut u8,
        room: usize,
        teid: u32,
        packet: *const u8,
        packet_len: usize,
        size: *mut u64,
    ) -> u8;

    pub fn gtp_user_write(
        buffer: *mut u8,
        room: usize,
        head: *const UserHead,
        octets: *const u8,
        octets_len: usize,
        size: *mut u64,
    ) -> u8;

    pub fn gtp_gateway_new(gateway: *mut Gateway, setup: *const Setup, access_points: *const u8, len: usize) -> u8;
    pub fn gtp_setup_bad_value(setup: *const Setup, access_points: *const u8, len: usize) -> u8;
    pub fn gtp_session_bad_value(
        session: *const Session,
        imsi: *const Imsi,
        access_point: *const u8,
        access_point_len: usize,
    ) -> u8;
    pub fn gtp_gateway_free(gateway: *mut Gateway) -> u8;
    pub fn gtp_gateway_receive(
        gateway: *mut Gateway,
        source: *const End,
        plane: u8,
        octets: *const u8,
        len: usize,
        told: *mut Told,
    ) -> u8;
    pub fn gtp_gateway_tick(gateway: *mut Gateway, told: *mut Told) -> u8;
    pub fn gtp_gateway_take(gateway: *mut Gateway, buffer: *mut u8, room: usize, datagram: *mut Datagram) -> u8;
    pub fn gtp_gateway_create_session(
        gateway: *mut Gateway,
        session: *const Session,
        imsi: *const Imsi,
        access_point: *const u8,
        access_point_len: usize,
        told: *mut Told,
    ) -> u8;
    pub fn gtp_gateway_delete_session(gateway: *mut Gateway, session: u32, told: *mut Told) -> u8;
    pub fn gtp_gateway_create_bearer(
        gateway: *mut Gateway,
        session: u32,
        quality: *const Quality,
        tft: *const u8,
        len: usize,
        told: *mut Told,
    ) -> u8;
    pub fn gtp_gateway_delete_bearer(gateway: *mut Gateway, session: u32, identity: u8, told: *mut Told) -> u8;
    pub fn gtp_gateway_release_session(gateway: *mut Gateway, session: u32, told: *mut Told) -> u8;
    pub fn gtp_gateway_end_marker(gateway: *mut Gateway, bearer: u32, told: *mut Told) -> u8;
    pub fn gtp_gateway_send_user(gateway: *mut Gateway, bearer: u32, payload: *const u8, len: usize, told: *mut Told) -> u8;
    pub fn gtp_gateway_echo(gateway: *mut Gateway, told: *mut Told) -> u8;
    pub fn gtp_gateway_session(gateway: *mut Gateway, teid: u32, row: *mut SessionRow) -> u8;
    pub fn gtp_gateway_bearer(gateway: *mut Gateway, teid: u32, row: *mut BearerRow) -> u8;
    pub fn gtp_gateway_session_at(gateway: *mut Gateway, place: u64, row: *mut SessionRow) -> u8;
    pub fn gtp_gateway_bearer_at(gateway: *mut Gateway, place: u64, row: *mut BearerRow) -> u8;

    pub fn gtp_places_new(places: *mut Places) -> u8;
    pub fn gtp_places_free(places: *mut Places) -> u8;
    pub fn gtp_places_add(places: *mut Places, address: *const Address) -> u8;
    pub fn gtp_places_pop(places: *mut Places) -> u8;
    pub fn gtp_places_find(places: *mut Places, address: *const Address, place: *mut u64) -> u8;
}

#[cfg(test)]
mod tests {
    use super::*;
    use std::mem::{offset_of, size_of};

    /// The size of each struct and the place of each of its fields are those of the header: `GTP_LAYOUT` names a file with the lines
    /// that the program of tests/c_programs/structs.py prints.
    #[test]
    fn layout() {
        let Some(file) = std::env::var_os("GTP_LAYOUT") else {
            return;
        };
        let mut all = String::new();
        macro_rules! lines {
            ($name:literal, $type:ident { $($field:ident),* }) => {
                all += &format!("{} {}\n", $name, size_of::<$type>());
                $(all += &format!("{}.{} {}\n", $name, stringify!($field), offset_of!($type, $field));)*
            };
        }
        lines!("gtp_address", Address { version, octets });
        lines!("gtp_end", End { address, port });
        lines!("gtp_fault", Fault { at, stated, held, number, detail, version, message, element, instance, conditional });
        lines!(
            "gtp_head",
            Head { list_at, list_len, second_len, teid, seq, kind, has_teid, has_priority, priority, has_elements }
        );
        lines!("gtp_element", Element { at, body_at, len, kind, instance, spare });
        lines!(
            "gtp_user_head",
            UserHead { payload_at, payload_len, extensions_len, teid, seq, has_seq, has_npdu, npdu, kind, extension, peer }
        );
        lines!("gtp_imsi", Imsi { count, digits });
        lines!("gtp_cause", Cause { value, pce, bce, cs, has_offending, offending, instance });
        lines!("gtp_apn", Apn { len, octets });
        lines!("gtp_ambr", Ambr { up, down });
        lines!("gtp_paa", Paa { pdn, prefix, v4, v6 });
        lines!("gtp_quality", Quality { mbr_up, mbr_down, gbr_up, gbr_down, pci, pl, pvi, qci });
        lines!("gtp_network", Network { digits });
        lines!("gtp_fteid", FTeid { teid, interface, has_v4, has_v6, v4, v6 });
        lines!("gtp_gateway", Gateway { hidden, count });
        lines!("gtp_template", Template { quality, access_point, tft_len, tft });
        lines!(
            "gtp_setup",
            Setup {
                own_control,
                own_user,
                peer_control,
                peer_user,
                pool6,
                pool6_count,
                pool,
                pool_count,
                t3,
                n3,
                hold,
                role,
                counter,
                template_count,
                switches,
                templates
            }
        );
        lines!("gtp_outcome", Outcome { kind, cause, fault });
        lines!(
            "gtp_told",
            Told { waiting, payload_len, gave_up, forgot, teid, outcome, second, made, counted, counter, restarted }
        );
        lines!("gtp_datagram", Datagram { len, from, to, plane });
        lines!("gtp_session", Session { quality, ambr_up, ambr_down, network, identity, rat, selection, pdn });
        lines!(
            "gtp_session_row",
            SessionRow { teid, remote, has_remote, state, identity, has_v4, has_v6, v4, v6, imsi, access_point }
        );
        lines!("gtp_bearer_row", BearerRow { teid, remote, session, has_remote, state, identity, dedicated, ended });
        lines!("gtp_places", Places { hidden, count });
        assert_eq!(all, std::fs::read_to_string(file).expect("GTP_LAYOUT names a file"));
    }
}
