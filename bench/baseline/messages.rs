//! Control messages: the kinds that are measured. All others are kept as octets.
//!
//! One reading makes both forms of a message: in place, where texts lie in the datagram and of a list the
//! first member is kept, and owned.

use crate::elements::{
    Element, Elements, conditional, first_of_rows, for_each_from, mandatory, needed_if, optional,
    put, put_option, room, room_option, value_of,
};
use crate::fault::Fault;
use crate::values::{
    Allocation, Cause, Charging, Identity, Imsi, Name, Network, PdnType, Quality, RadioAccess,
    Recovery, Selection, Template, Together, Transaction, TunnelEnd, Value,
};

const CONTEXT: u8 = 93;

/// How a message keeps what has no fixed size.
pub trait Keep<'a> {
    type Name: From<Name<'a>>;
    type Template: From<Template<'a>>;
    type Octets: From<&'a [u8]> + AsRef<[u8]>;
    type List<T>: List<T>;
}

pub trait List<T> {
    fn new() -> Self;
    fn add(&mut self, member: T);
    fn count(&self) -> usize;
}

/// The first member, and how many there are.
pub struct First<T> {
    pub first: Option<T>,
    count: usize,
}

impl<T> List<T> for First<T> {
    fn new() -> First<T> {
        First {
            first: None,
            count: 0,
        }
    }

    fn add(&mut self, member: T) {
        self.count += 1;
        self.first.get_or_insert(member);
    }

    fn count(&self) -> usize {
        self.count
    }
}

impl<T> List<T> for Vec<T> {
    fn new() -> Vec<T> {
        Vec::new()
    }

    fn add(&mut self, member: T) {
        self.push(member);
    }

    fn count(&self) -> usize {
        self.len()
    }
}

/// A text that was copied.
#[derive(Clone, Copy)]
pub struct Copied<const N: usize> {
    octets: [u8; N],
    len: u8,
}

impl<const N: usize> Copied<N> {
    fn of(octets: &[u8]) -> Copied<N> {
        let mut copied = Copied {
            octets: [0; N],
            len: octets.len() as u8,
        };
        copied.octets[..octets.len()].copy_from_slice(octets);
        copied
    }

    fn octets(&self) -> &[u8] {
        &self.octets[..usize::from(self.len)]
    }
}

impl From<Name<'_>> for Copied<100> {
    fn from(name: Name) -> Copied<100> {
        Copied::of(name.0)
    }
}

impl From<Template<'_>> for Copied<255> {
    fn from(template: Template) -> Copied<255> {
        Copied::of(template.0)
    }
}

pub enum InPlace {}

impl<'a> Keep<'a> for InPlace {
    type Name = Name<'a>;
    type Template = Template<'a>;
    type Octets = &'a [u8];
    type List<T> = First<T>;
}

pub enum Owned {}

impl<'a> Keep<'a> for Owned {
    type Name = Copied<100>;
    type Template = Copied<255>;
    type Octets = Vec<u8>;
    type List<T> = Vec<T>;
}

/// Reads the bearer contexts of a message, each from its own list.
#[inline]
fn contexts<'a, L: List<T>, T>(
    first: Option<Element<'a>>,
    list: Elements<'a>,
    read: impl Fn(Elements<'a>) -> Result<T, Fault>,
) -> Result<L, Fault> {
    let mut contexts = L::new();
    for_each_from(first, list, |context| {
        let inner = Elements {
            rest: context.body,
            at: context.at + 4,
        };
        contexts.add(read(inner)?);
        Ok(())
    })?;
    Ok(contexts)
}

fn missing_context(conditional: bool) -> Fault {
    Fault::Missing {
        kind: CONTEXT,
        instance: 0,
        conditional,
    }
}

/// Appends a bearer context.
fn put_context(out: &mut Vec<u8>, write: impl FnOnce(&mut Vec<u8>)) {
    let start = out.len();
    out.extend_from_slice(&[CONTEXT, 0, 0, 0]);
    write(out);
    let [high, low] = ((out.len() - start - 4) as u16).to_be_bytes();
    out[start + 1] = high;
    out[start + 2] = low;
}

/// A bearer of a Create Session Request.
pub struct SessionRequestContext {
    identity: Identity,
    quality: Quality,
    user: TunnelEnd,
}

impl SessionRequestContext {
    #[inline]
    fn read(list: Elements) -> Result<SessionRequestContext, Fault> {
        let [identity, quality, user] =
            first_of_rows(list, |kind, instance| match (kind, instance) {
                (73, 0) => Some(0),
                (80, 0) => Some(1),
                (87, 2) => Some(2),
                _ => None,
            })?;
        Ok(SessionRequestContext {
            identity: mandatory(identity)?,
            quality: mandatory(quality)?,
            user: conditional(user, 2)?,
        })
    }

    fn room(&self) -> usize {
        4 + room(&self.identity) + room(&self.quality) + room(&self.user)
    }

    fn put(&self, out: &mut Vec<u8>) {
        put_context(out, |out| {
            put(out, 0, &self.identity);
            put(out, 0, &self.quality);
            put(out, 2, &self.user);
        });
    }
}

pub struct CreateSessionRequest<'a, K: Keep<'a>> {
    imsi: Imsi,
    access: RadioAccess,
    network: Option<Network>,
    control: TunnelEnd,
    name: K::Name,
    selection: Option<Selection>,
    pdn_type: PdnType,
    allocation: Option<Allocation>,
    together: Option<Together>,
    contexts: K::List<SessionRequestContext>,
    recovery: Option<Recovery>,
}

impl<'a, K: Keep<'a>> CreateSessionRequest<'a, K> {
    #[inline]
    fn read(list: Elements<'a>) -> Result<Self, Fault> {
        let rows: [_; 11] = first_of_rows(list, |kind, instance| match (kind, instance) {
            (1, 0) => Some(0),
            (82, 0) => Some(1),
            (83, 0) => Some(2),
            (87, 0) => Some(3),
            (71, 0) => Some(4),
            (128, 0) => Some(5),
            (99, 0) => Some(6),
            (79, 0) => Some(7),
            (72, 0) => Some(8),
            (CONTEXT, 0) => Some(9),
            (3, 0) => Some(10),
            _ => None,
        })?;
        let imsi = conditional(rows[0], 0)?;
        let access = mandatory(rows[1])?;
        let network = optional(rows[2]);
        let control = mandatory(rows[3])?;
        let name: Name = mandatory(rows[4])?;
        let selection = optional(rows[5]);
        let pdn_type = conditional(rows[6], 0)?;
        let allocation = optional(rows[7]);
        let together = optional(rows[8]);
        let first = rows[9].ok_or(missing_context(false))?;
        let contexts = contexts(Some(first), list, SessionRequestContext::read)?;
        let recovery = optional(rows[10]);
        Ok(CreateSessionRequest {
            imsi,
            access,
            network,
            control,
            name: name.into(),
            selection,
            pdn_type,
            allocation,
            together,
            contexts,
            recovery,
        })
    }
}

impl CreateSessionRequest<'_, Owned> {
    fn room(&self) -> usize {
        room(&self.imsi)
            + room(&self.access)
            + room_option(&self.network)
            + room(&self.control)
            + room(&Name(self.name.octets()))
            + room_option(&self.selection)
            + room(&self.pdn_type)
            + room_option(&self.allocation)
            + room_option(&self.together)
            + self
                .contexts
                .iter()
                .map(SessionRequestContext::room)
                .sum::<usize>()
            + room_option(&self.recovery)
    }

    fn put(&self, out: &mut Vec<u8>) {
        put(out, 0, &self.imsi);
        put(out, 0, &self.access);
        put_option(out, 0, &self.network);
        put(out, 0, &self.control);
        put(out, 0, &Name(self.name.octets()));
        put_option(out, 0, &self.selection);
        put(out, 0, &self.pdn_type);
        put_option(out, 0, &self.allocation);
        put_option(out, 0, &self.together);
        self.contexts.iter().for_each(|context| context.put(out));
        put_option(out, 0, &self.recovery);
    }
}

/// A bearer of a Create Session Response.
pub struct SessionResponseContext {
    identity: Identity,
    cause: Cause,
    user: Option<TunnelEnd>,
    quality: Option<Quality>,
    charging: Option<Charging>,
}

impl SessionResponseContext {
    #[inline]
    fn read(accepting: bool, list: Elements) -> Result<SessionResponseContext, Fault> {
        let rows: [_; 5] = first_of_rows(list, |kind, instance| match (kind, instance) {
            (73, 0) => Some(0),
            (2, 0) => Some(1),
            (87, 2) => Some(2),
            (80, 0) => Some(3),
            (94, 0) => Some(4),
            _ => None,
        })?;
        let identity = mandatory(rows[0])?;
        let cause: Cause = mandatory(rows[1])?;
        let user = needed_if(accepting && cause.accepts(), rows[2], 2)?;
        let quality = optional(rows[3]);
        let charging = optional(rows[4]);
        Ok(SessionResponseContext {
            identity,
            cause,
            user,
            quality,
            charging,
        })
    }

    fn room(&self) -> usize {
        4 + room(&self.identity)
            + room(&self.cause)
            + room_option(&self.user)
            + room_option(&self.quality)
            + room_option(&self.charging)
    }

    fn put(&self, out: &mut Vec<u8>) {
        put_context(out, |out| {
            put(out, 0, &self.identity);
            put(out, 0, &self.cause);
            put_option(out, 2, &self.user);
            put_option(out, 0, &self.quality);
            put_option(out, 0, &self.charging);
        });
    }
}

pub struct CreateSessionResponse<'a, K: Keep<'a>> {
    cause: Cause,
    control: Option<TunnelEnd>,
    allocation: Option<Allocation>,
    together: Option<Together>,
    contexts: K::List<SessionResponseContext>,
    recovery: Option<Recovery>,
}

impl<'a, K: Keep<'a>> CreateSessionResponse<'a, K> {
    #[inline]
    fn read(list: Elements<'a>) -> Result<Self, Fault> {
        let rows: [_; 6] = first_of_rows(list, |kind, instance| match (kind, instance) {
            (2, 0) => Some(0),
            (87, 1) => Some(1),
            (79, 0) => Some(2),
            (72, 0) => Some(3),
            (CONTEXT, 0) => Some(4),
            (3, 0) => Some(5),
            _ => None,
        })?;
        let cause: Cause = mandatory(rows[0])?;
        let accepting = cause.accepts();
        let control = needed_if(accepting, rows[1], 1)?;
        let allocation = needed_if(accepting, rows[2], 0)?;
        let together = optional(rows[3]);
        if accepting && rows[4].is_none() {
            return Err(missing_context(true));
        }
        let contexts = contexts(rows[4], list, |inner| {
            SessionResponseContext::read(accepting, inner)
        })?;
        let recovery = optional(rows[5]);
        Ok(CreateSessionResponse {
            cause,
            control,
            allocation,
            together,
            contexts,
            recovery,
        })
    }
}

impl CreateSessionResponse<'_, Owned> {
    fn room(&self) -> usize {
        room(&self.cause)
            + room_option(&self.control)
            + room_option(&self.allocation)
            + room_option(&self.together)
            + self
                .contexts
                .iter()
                .map(SessionResponseContext::room)
                .sum::<usize>()
            + room_option(&self.recovery)
    }

    fn put(&self, out: &mut Vec<u8>) {
        put(out, 0, &self.cause);
        put_option(out, 1, &self.control);
        put_option(out, 0, &self.allocation);
        put_option(out, 0, &self.together);
        self.contexts.iter().for_each(|context| context.put(out));
        put_option(out, 0, &self.recovery);
    }
}

/// A bearer of a Create Bearer Request.
pub struct BearerRequestContext<'a, K: Keep<'a>> {
    identity: Identity,
    template: K::Template,
    user: TunnelEnd,
    quality: Quality,
    charging: Option<Charging>,
}

impl<'a, K: Keep<'a>> BearerRequestContext<'a, K> {
    #[inline]
    fn read(list: Elements<'a>) -> Result<Self, Fault> {
        let rows: [_; 5] = first_of_rows(list, |kind, instance| match (kind, instance) {
            (73, 0) => Some(0),
            (84, 0) => Some(1),
            (87, 1) => Some(2),
            (80, 0) => Some(3),
            (94, 0) => Some(4),
            _ => None,
        })?;
        let identity = mandatory(rows[0])?;
        let template: Template = mandatory(rows[1])?;
        let user = conditional(rows[2], 1)?;
        let quality = mandatory(rows[3])?;
        let charging = optional(rows[4]);
        Ok(BearerRequestContext {
            identity,
            template: template.into(),
            user,
            quality,
            charging,
        })
    }
}

impl BearerRequestContext<'_, Owned> {
    fn room(&self) -> usize {
        4 + room(&self.identity)
            + room(&Template(self.template.octets()))
            + room(&self.user)
            + room(&self.quality)
            + room_option(&self.charging)
    }

    fn put(&self, out: &mut Vec<u8>) {
        put_context(out, |out| {
            put(out, 0, &self.identity);
            put(out, 0, &Template(self.template.octets()));
            put(out, 1, &self.user);
            put(out, 0, &self.quality);
            put_option(out, 0, &self.charging);
        });
    }
}

pub struct CreateBearerRequest<'a, K: Keep<'a>> {
    transaction: Option<Transaction>,
    linked: Identity,
    contexts: K::List<BearerRequestContext<'a, K>>,
}

impl<'a, K: Keep<'a>> CreateBearerRequest<'a, K> {
    #[inline]
    fn read(list: Elements<'a>) -> Result<Self, Fault> {
        let rows: [_; 3] = first_of_rows(list, |kind, instance| match (kind, instance) {
            (100, 0) => Some(0),
            (73, 0) => Some(1),
            (CONTEXT, 0) => Some(2),
            _ => None,
        })?;
        let transaction = optional(rows[0]);
        let linked = mandatory(rows[1])?;
        let first = rows[2].ok_or(missing_context(false))?;
        let contexts = contexts(Some(first), list, BearerRequestContext::<'a, K>::read)?;
        Ok(CreateBearerRequest {
            transaction,
            linked,
            contexts,
        })
    }
}

impl CreateBearerRequest<'_, Owned> {
    fn room(&self) -> usize {
        room_option(&self.transaction)
            + room(&self.linked)
            + self
                .contexts
                .iter()
                .map(BearerRequestContext::room)
                .sum::<usize>()
    }

    fn put(&self, out: &mut Vec<u8>) {
        put_option(out, 0, &self.transaction);
        put(out, 0, &self.linked);
        self.contexts.iter().for_each(|context| context.put(out));
    }
}

/// A bearer of a Create Bearer Response.
pub struct BearerResponseContext {
    identity: Identity,
    cause: Cause,
    serving: Option<TunnelEnd>,
    packet: Option<TunnelEnd>,
}

impl BearerResponseContext {
    #[inline]
    fn read(accepting: bool, list: Elements) -> Result<BearerResponseContext, Fault> {
        let rows: [_; 4] = first_of_rows(list, |kind, instance| match (kind, instance) {
            (73, 0) => Some(0),
            (2, 0) => Some(1),
            (87, 2) => Some(2),
            (87, 3) => Some(3),
            _ => None,
        })?;
        let identity = mandatory(rows[0])?;
        let cause: Cause = mandatory(rows[1])?;
        let accepting = accepting && cause.accepts();
        let serving = needed_if(accepting, rows[2], 2)?;
        let packet = needed_if(accepting, rows[3], 3)?;
        Ok(BearerResponseContext {
            identity,
            cause,
            serving,
            packet,
        })
    }

    fn room(&self) -> usize {
        4 + room(&self.identity)
            + room(&self.cause)
            + room_option(&self.serving)
            + room_option(&self.packet)
    }

    fn put(&self, out: &mut Vec<u8>) {
        put_context(out, |out| {
            put(out, 0, &self.identity);
            put(out, 0, &self.cause);
            put_option(out, 2, &self.serving);
            put_option(out, 3, &self.packet);
        });
    }
}

pub struct CreateBearerResponse<'a, K: Keep<'a>> {
    cause: Cause,
    contexts: K::List<BearerResponseContext>,
    recovery: Option<Recovery>,
}

impl<'a, K: Keep<'a>> CreateBearerResponse<'a, K> {
    #[inline]
    fn read(list: Elements<'a>) -> Result<Self, Fault> {
        let rows: [_; 3] = first_of_rows(list, |kind, instance| match (kind, instance) {
            (2, 0) => Some(0),
            (CONTEXT, 0) => Some(1),
            (3, 0) => Some(2),
            _ => None,
        })?;
        let cause: Cause = mandatory(rows[0])?;
        let accepting = cause.accepts();
        if accepting && rows[1].is_none() {
            return Err(missing_context(true));
        }
        let contexts = contexts(rows[1], list, |inner| {
            BearerResponseContext::read(accepting, inner)
        })?;
        let recovery = optional(rows[2]);
        Ok(CreateBearerResponse {
            cause,
            contexts,
            recovery,
        })
    }
}

impl CreateBearerResponse<'_, Owned> {
    fn room(&self) -> usize {
        room(&self.cause)
            + self
                .contexts
                .iter()
                .map(BearerResponseContext::room)
                .sum::<usize>()
            + room_option(&self.recovery)
    }

    fn put(&self, out: &mut Vec<u8>) {
        put(out, 0, &self.cause);
        self.contexts.iter().for_each(|context| context.put(out));
        put_option(out, 0, &self.recovery);
    }
}

pub struct DeleteBearerRequest<'a, K: Keep<'a>> {
    linked: Option<Identity>,
    identities: K::List<Identity>,
}

impl<'a, K: Keep<'a>> DeleteBearerRequest<'a, K> {
    #[inline]
    fn read(list: Elements<'a>) -> Result<Self, Fault> {
        let rows: [_; 2] = first_of_rows(list, |kind, instance| match (kind, instance) {
            (73, 0) => Some(0),
            (73, 1) => Some(1),
            _ => None,
        })?;
        let linked: Option<Identity> = optional(rows[0]);
        let mut identities: K::List<Identity> = List::new();
        for_each_from(rows[1], list, |element| {
            identities.add(value_of(element)?);
            Ok(())
        })?;
        if linked.is_none() && identities.count() == 0 {
            return Err(Fault::Missing {
                kind: Identity::KIND,
                instance: 0,
                conditional: true,
            });
        }
        Ok(DeleteBearerRequest { linked, identities })
    }
}

impl DeleteBearerRequest<'_, Owned> {
    fn room(&self) -> usize {
        room_option(&self.linked) + self.identities.iter().map(room).sum::<usize>()
    }

    fn put(&self, out: &mut Vec<u8>) {
        put_option(out, 0, &self.linked);
        self.identities
            .iter()
            .for_each(|identity| put(out, 1, identity));
    }
}

pub enum Body<'a, K: Keep<'a>> {
    EchoRequest { recovery: Recovery },
    CreateSessionRequest(CreateSessionRequest<'a, K>),
    CreateSessionResponse(CreateSessionResponse<'a, K>),
    CreateBearerRequest(CreateBearerRequest<'a, K>),
    CreateBearerResponse(CreateBearerResponse<'a, K>),
    DeleteBearerRequest(DeleteBearerRequest<'a, K>),
    Other { kind: u8, octets: K::Octets },
}

pub struct Message<'a, K: Keep<'a>> {
    pub teid: Option<u32>,
    pub seq: u32,
    pub priority: Option<u8>,
    pub body: Body<'a, K>,
}

/// What stands before the elements, and the elements.
struct Header<'a> {
    kind: u8,
    teid: Option<u32>,
    seq: u32,
    priority: Option<u8>,
    list: Elements<'a>,
}

/// The header of a message whose first octet is given apart from the others.
#[inline]
fn read_header(flags: u8, octets: &[u8]) -> Result<Header<'_>, Fault> {
    let [_, kind, high, low, rest @ ..] = octets else {
        return Err(Fault::Short { held: octets.len() });
    };
    let kind = *kind;
    if flags >> 5 != 2 {
        return Err(Fault::Version(flags >> 5));
    }
    if flags & 0x10 != 0 {
        return Err(Fault::Piggyback { at: 0 });
    }
    if usize::from(u16::from_be_bytes([*high, *low])) != rest.len() {
        return Err(Fault::Length { held: rest.len() });
    }
    let short = Fault::Short { held: octets.len() };
    if flags & 0x08 != 0 {
        let [a, b, c, d, e, f, g, last, rest @ ..] = rest else {
            return Err(short);
        };
        Ok(Header {
            kind,
            teid: Some(u32::from_be_bytes([*a, *b, *c, *d])),
            seq: u32::from_be_bytes([0, *e, *f, *g]),
            priority: (flags & 0x04 != 0).then_some(last >> 4),
            list: Elements { rest, at: 12 },
        })
    } else {
        let [a, b, c, _, rest @ ..] = rest else {
            return Err(short);
        };
        Ok(Header {
            kind,
            teid: None,
            seq: u32::from_be_bytes([0, *a, *b, *c]),
            priority: None,
            list: Elements { rest, at: 8 },
        })
    }
}

#[inline]
fn read_body<'a, K: Keep<'a>>(header: &Header<'a>) -> Result<Body<'a, K>, Fault> {
    let Header { kind, list, .. } = *header;
    let has_teid = match kind {
        1 => false,
        32 | 33 | 95 | 96 | 99 => true,
        _ => {
            return Ok(Body::Other {
                kind,
                octets: list.rest.into(),
            });
        }
    };
    if header.teid.is_some() != has_teid {
        return Err(Fault::WrongHeader { kind });
    }
    match kind {
        32 => CreateSessionRequest::read(list).map(Body::CreateSessionRequest),
        33 => CreateSessionResponse::read(list).map(Body::CreateSessionResponse),
        95 => CreateBearerRequest::read(list).map(Body::CreateBearerRequest),
        96 => CreateBearerResponse::read(list).map(Body::CreateBearerResponse),
        99 => DeleteBearerRequest::read(list).map(Body::DeleteBearerRequest),
        _ => {
            let [recovery] = first_of_rows(list, |kind, instance| {
                ((kind, instance) == (3, 0)).then_some(0)
            })?;
            Ok(Body::EchoRequest {
                recovery: mandatory(recovery)?,
            })
        }
    }
}

/// One message, or two, of which the first announces the second.
pub struct Datagram<'a, K: Keep<'a>> {
    pub message: Message<'a, K>,
    pub second: Option<Message<'a, K>>,
}

#[inline]
fn read_message<'a, K: Keep<'a>>(flags: u8, octets: &'a [u8]) -> Result<Message<'a, K>, Fault> {
    let header = read_header(flags, octets)?;
    let body = read_body(&header)?;
    Ok(Message {
        teid: header.teid,
        seq: header.seq,
        priority: header.priority,
        body,
    })
}

/// The second message, at a place.
fn read_second<'a, K: Keep<'a>>(octets: &'a [u8], at: usize) -> Result<Message<'a, K>, Fault> {
    let Some(flags) = octets.first() else {
        return Err(Fault::Piggyback { at });
    };
    read_message(*flags, octets).map_err(|fault| fault.moved(at))
}

fn read_pair<'a, K: Keep<'a>>(octets: &'a [u8], stated: usize) -> Result<Datagram<'a, K>, Fault> {
    let Some((front, back)) = octets.split_at_checked(4 + stated) else {
        return Err(Fault::Length {
            held: octets.len() - 4,
        });
    };
    Ok(Datagram {
        message: read_message(front[0] - 0x10, front)?,
        second: Some(read_second(back, front.len())?),
    })
}

#[inline]
pub fn read<'a, K: Keep<'a>>(octets: &'a [u8]) -> Result<Datagram<'a, K>, Fault> {
    match octets {
        [flags, _, high, low, ..] if flags >> 4 == 5 => {
            read_pair(octets, usize::from(u16::from_be_bytes([*high, *low])))
        }
        _ => Ok(Datagram {
            message: read_message(octets.first().copied().unwrap_or(0), octets)?,
            second: None,
        }),
    }
}

impl<'a, K: Keep<'a>> Message<'a, K> {
    /// How many members the list of the message has.
    pub fn members(&self) -> usize {
        match &self.body {
            Body::EchoRequest { .. } => 0,
            Body::CreateSessionRequest(message) => message.contexts.count(),
            Body::CreateSessionResponse(message) => message.contexts.count(),
            Body::CreateBearerRequest(message) => message.contexts.count(),
            Body::CreateBearerResponse(message) => message.contexts.count(),
            Body::DeleteBearerRequest(message) => message.identities.count(),
            Body::Other { octets, .. } => octets.as_ref().len(),
        }
    }
}

impl Message<'_, Owned> {
    fn kind(&self) -> u8 {
        match &self.body {
            Body::EchoRequest { .. } => 1,
            Body::CreateSessionRequest(_) => 32,
            Body::CreateSessionResponse(_) => 33,
            Body::CreateBearerRequest(_) => 95,
            Body::CreateBearerResponse(_) => 96,
            Body::DeleteBearerRequest(_) => 99,
            Body::Other { kind, .. } => *kind,
        }
    }

    fn room(&self) -> usize {
        match &self.body {
            Body::EchoRequest { recovery } => room(recovery),
            Body::CreateSessionRequest(message) => message.room(),
            Body::CreateSessionResponse(message) => message.room(),
            Body::CreateBearerRequest(message) => message.room(),
            Body::CreateBearerResponse(message) => message.room(),
            Body::DeleteBearerRequest(message) => message.room(),
            Body::Other { octets, .. } => octets.len(),
        }
    }

    fn put_body(&self, out: &mut Vec<u8>) {
        match &self.body {
            Body::EchoRequest { recovery } => put(out, 0, recovery),
            Body::CreateSessionRequest(message) => message.put(out),
            Body::CreateSessionResponse(message) => message.put(out),
            Body::CreateBearerRequest(message) => message.put(out),
            Body::CreateBearerResponse(message) => message.put(out),
            Body::DeleteBearerRequest(message) => message.put(out),
            Body::Other { octets, .. } => out.extend_from_slice(octets),
        }
    }

    fn put_header(&self, out: &mut Vec<u8>, len: u16) {
        let [high, low] = len.to_be_bytes();
        let [_, a, b, c] = self.seq.to_be_bytes();
        match self.teid {
            Some(teid) => {
                let flags = if self.priority.is_some() { 0x4c } else { 0x48 };
                out.extend_from_slice(&[flags, self.kind(), high, low]);
                out.extend_from_slice(&teid.to_be_bytes());
                out.extend_from_slice(&[a, b, c, self.priority.unwrap_or(0) << 4]);
            }
            None => out.extend_from_slice(&[0x40, self.kind(), high, low, a, b, c, 0]),
        }
    }

    /// The encoding, or none where it is longer than its header can state.
    pub fn encode(&self) -> Option<Vec<u8>> {
        let len = self.room() + if self.teid.is_some() { 8 } else { 4 };
        let stated = u16::try_from(len).ok()?;
        let mut out = Vec::with_capacity(4 + len);
        self.put_header(&mut out, stated);
        self.put_body(&mut out);
        Some(out)
    }
}
