//! The gateways of a node, each with its peer.

use crate::ffi;
use crate::{Error, Gateway, Plane, Received, Setup};
use std::net::{IpAddr, SocketAddr};
use std::ptr;

/// Addresses in the order in which they were added. The library opens them for the first one.
#[derive(Debug)]
struct Places {
    raw: ffi::Places,
}

// SAFETY: the library has no global state, and its places are proved to be `Send`.
unsafe impl Send for Places {}

impl Default for Places {
    fn default() -> Places {
        Places { raw: ffi::Places { hidden: ptr::null_mut(), count: 0 } }
    }
}

impl Places {
    /// Adds an address behind all others. An error changes nothing.
    fn push(&mut self, address: IpAddr) -> Result<(), Error> {
        // SAFETY: the places are zeroes, or ones that the library made, which it leaves as they are.
        if unsafe { ffi::gtp_places_new(&mut self.raw) } == ffi::NO_MEMORY {
            return Err(Error::NoMemory);
        }
        let address = ffi::Address::of(address);
        // SAFETY: the places are ones that the library made, and the pointer is to a struct.
        match unsafe { ffi::gtp_places_add(&mut self.raw, &address) } {
            ffi::DONE => Ok(()),
            status => Err(Error::of(status)),
        }
    }

    /// Takes the last address away.
    fn pop(&mut self) {
        // SAFETY: the places are ones that the library made, or zeroes.
        unsafe { ffi::gtp_places_pop(&mut self.raw) };
    }

    /// The first place of an address.
    fn find(&mut self, address: IpAddr) -> Option<usize> {
        let (address, mut place) = (ffi::Address::of(address), 0);
        // SAFETY: the places are ones that the library made, or zeroes, and the pointers are to a struct and to a number.
        let status = unsafe { ffi::gtp_places_find(&mut self.raw, &address, &mut place) };
        (status == ffi::DONE).then_some(place as usize)
    }
}

impl Drop for Places {
    fn drop(&mut self) {
        // SAFETY: the places are ones that the library made, or zeroes.
        unsafe { ffi::gtp_places_free(&mut self.raw) };
    }
}

/// The gateways of a node, one for each peer. A peer's place is the number of peers that were added before it; a command, a tick, a
/// look-up or what is to be sent is a call of the gateway at that place.
#[derive(Debug, Default)]
pub struct Node {
    control: Places,
    user: Places,
    gateways: Vec<Gateway>,
}

/// What a datagram came to, and the place of the peer that it came from.
#[derive(Clone, Copy, Debug, PartialEq, Eq)]
pub struct Routed<'a> {
    /// The place of the peer.
    pub place: usize,
    /// What the datagram came to at its gateway.
    pub received: Received<'a>,
}

impl Node {
    /// A node without peers. Takes no memory.
    pub fn new() -> Node {
        Node::default()
    }

    /// Adds the peer of this setup, with a gateway that has just started, and returns its place.
    ///
    /// # Errors
    /// `BadValue` if a value of the setup is out of its range, which [`Setup::bad_value`] names; `NoMemory`. No peer is added.
    pub fn add(&mut self, setup: &Setup<'_>) -> Result<usize, Error> {
        let gateway = Gateway::new(setup)?;
        self.gateways.try_reserve(1).map_err(|_| Error::NoMemory)?;
        self.control.push(setup.peer.control)?;
        if let Err(error) = self.user.push(setup.peer.user) {
            self.control.pop();
            return Err(error);
        }
        self.gateways.push(gateway);
        Ok(self.gateways.len() - 1)
    }

    /// Hands in a datagram, whatever its octets and wherever it comes from: the gateway of the first peer that has the address of the
    /// source on this plane receives it. `None` if no peer has it: nothing has happened.
    ///
    /// # Errors
    /// `NoMemory` or `Full`: nothing has happened, and the datagram may be handed in again.
    pub fn receive<'a>(&mut self, source: SocketAddr, plane: Plane, octets: &'a [u8]) -> Result<Option<Routed<'a>>, Error> {
        let places = match plane {
            Plane::Control => &mut self.control,
            Plane::User => &mut self.user,
        };
        let Some(place) = places.find(source.ip()) else {
            return Ok(None);
        };
        let received = self.gateways[place].receive(source, plane, octets)?;
        Ok(Some(Routed { place, received }))
    }

    /// The gateway of the peer at this place; `None` if there are fewer peers.
    pub fn gateway(&self, place: usize) -> Option<&Gateway> {
        self.gateways.get(place)
    }

    /// The same, to be changed.
    pub fn gateway_mut(&mut self, place: usize) -> Option<&mut Gateway> {
        self.gateways.get_mut(place)
    }

    /// How many peers there are.
    pub fn len(&self) -> usize {
        self.gateways.len()
    }

    /// Whether there are none.
    pub fn is_empty(&self) -> bool {
        self.gateways.is_empty()
    }
}
