//! A gateway.

use crate::ffi;
use crate::value::digits_of;
use crate::{Bearer, CommandError, Error, Plane, Quality, Received, Session, SessionRequest, Setup, Ticked, TooSmall};
use std::cell::UnsafeCell;
use std::net::SocketAddr;
use std::ptr;

/// A serving or packet gateway (TS 29.274 7, TS 29.281 7).
#[derive(Debug)]
pub struct Gateway {
    // A look-up takes `&self` and hands the library a pointer to change, by which it changes nothing. Nobody else calls meanwhile,
    // since a gateway is not `Sync`.
    raw: UnsafeCell<ffi::Gateway>,
}

// SAFETY: the library has no global state, and its gateway is proved to be `Send`.
unsafe impl Send for Gateway {}

/// A datagram that is to be sent.
#[derive(Clone, Copy, Debug, PartialEq, Eq)]
pub struct Sent<'b> {
    /// Its plane.
    pub plane: Plane,
    /// The gateway's own end.
    pub from: SocketAddr,
    /// Where it goes.
    pub to: SocketAddr,
    /// Its octets.
    pub octets: &'b [u8],
}

impl Gateway {
    /// A gateway that has just started.
    ///
    /// # Errors
    /// `BadValue` if a value of the setup is out of its range, which [`Setup::bad_value`] names; `NoMemory`.
    pub fn new(setup: &Setup<'_>) -> Result<Gateway, Error> {
        if setup.has_bad_names() {
            return Err(Error::BadValue);
        }
        let names = setup.access_points.join(",");
        let setup = setup.raw().ok_or(Error::BadValue)?;
        let mut gateway = Gateway { raw: UnsafeCell::new(ffi::Gateway { hidden: ptr::null_mut(), count: 0 }) };
        // SAFETY: the gateway is zeroes, and the pointers are to a struct and to a slice of this length.
        match unsafe { ffi::gtp_gateway_new(gateway.raw.get_mut(), &setup, names.as_ptr(), names.len()) } {
            ffi::DONE => Ok(gateway),
            status => Err(Error::of(status)),
        }
    }

    /// Hands in a datagram, whatever its octets and wherever it comes from.
    ///
    /// # Errors
    /// `NoMemory` or `Full`: nothing has happened, and the datagram may be handed in again.
    pub fn receive<'a>(&mut self, source: SocketAddr, plane: Plane, octets: &'a [u8]) -> Result<Received<'a>, Error> {
        let mut told = ffi::Told::default();
        let (source, plane) = (ffi::End::of(source), plane.number());
        // SAFETY: the gateway is one that the library made, and the pointers are to structs and to a slice of this length.
        let status =
            unsafe { ffi::gtp_gateway_receive(self.raw.get_mut(), &source, plane, octets.as_ptr(), octets.len(), &mut told) };
        match status {
            ffi::DONE => Ok(Received::of(&told, octets)),
            _ => Err(Error::of(status)),
        }
    }

    /// Lets a tick pass, the unit of [`Timers`](crate::Timers).
    ///
    /// # Errors
    /// `NoMemory` or `Full`: the tick has not passed.
    pub fn tick(&mut self) -> Result<Ticked, Error> {
        let mut told = ffi::Told::default();
        // SAFETY: the gateway is one that the library made, and the pointer is to a struct.
        match unsafe { ffi::gtp_gateway_tick(self.raw.get_mut(), &mut told) } {
            ffi::DONE => Ok(Ticked::of(&told)),
            status => Err(Error::of(status)),
        }
    }

    /// Takes the datagram that waits longest; `None` if none waits. It is handed out once.
    ///
    /// # Errors
    /// The buffer is too small: nothing is written, and the datagram waits still.
    pub fn take<'b>(&mut self, buffer: &'b mut [u8]) -> Result<Option<Sent<'b>>, TooSmall> {
        let mut datagram = ffi::Datagram::default();
        // SAFETY: the gateway is one that the library made, and the pointers are to a slice of this length and to a struct.
        match unsafe { ffi::gtp_gateway_take(self.raw.get_mut(), buffer.as_mut_ptr(), buffer.len(), &mut datagram) } {
            ffi::DONE => Ok(Some(Sent {
                plane: Plane::of(datagram.plane),
                from: datagram.from.socket(),
                to: datagram.to.socket(),
                octets: &buffer[..datagram.len as usize],
            })),
            ffi::TOO_SMALL => Err(TooSmall { needed: datagram.len as usize }),
            _ => Ok(None),
        }
    }

    /// Carries out a command, and returns the TEID of what it is about.
    fn command(&mut self, call: impl FnOnce(*mut ffi::Gateway, *mut ffi::Told) -> u8) -> Result<u32, CommandError> {
        let mut told = ffi::Told::default();
        match call(self.raw.get_mut(), &mut told) {
            ffi::DONE => Ok(told.teid),
            status => Err(CommandError::of(status, &told)),
        }
    }

    /// Asks for a session, and returns its own control plane TEID. A command of the serving gateway.
    ///
    /// # Errors
    /// Nothing has happened. [`CommandError`] says why.
    pub fn create_session(&mut self, request: &SessionRequest<'_>) -> Result<u32, CommandError> {
        let (session, imsi, name) = (request.raw(), digits_of(request.imsi), request.access_point);
        // SAFETY: the gateway is one that the library made, and the pointers are to structs and to a slice of this length.
        self.command(|gateway, told| unsafe {
            ffi::gtp_gateway_create_session(gateway, &session, &imsi, name.as_ptr(), name.len(), told)
        })
    }

    /// Ends an active session, by its own TEID, which is returned. A command of the serving gateway.
    ///
    /// # Errors
    /// Nothing has happened. [`CommandError`] says why.
    pub fn delete_session(&mut self, session: u32) -> Result<u32, CommandError> {
        // SAFETY: the gateway is one that the library made, and the pointer is to a struct.
        self.command(|gateway, told| unsafe { ffi::gtp_gateway_delete_session(gateway, session, told) })
    }

    /// Asks for a dedicated bearer of a session, with a traffic flow template of at most 255 octets, and returns its own user plane
    /// TEID. A command of the packet gateway.
    ///
    /// # Errors
    /// Nothing has happened. [`CommandError`] says why.
    pub fn create_bearer(&mut self, session: u32, quality: &Quality, tft: &[u8]) -> Result<u32, CommandError> {
        let quality = quality.raw();
        // SAFETY: the gateway is one that the library made, and the pointers are to structs and to a slice of this length.
        self.command(|gateway, told| unsafe {
            ffi::gtp_gateway_create_bearer(gateway, session, &quality, tft.as_ptr(), tft.len(), told)
        })
    }

    /// Ends a dedicated bearer of a session, by its EPS bearer identity, 5 to 15, and returns its own user plane TEID. A command of the
    /// packet gateway.
    ///
    /// # Errors
    /// Nothing has happened. [`CommandError`] says why.
    pub fn delete_bearer(&mut self, session: u32, identity: u8) -> Result<u32, CommandError> {
        // SAFETY: the gateway is one that the library made, and the pointer is to a struct.
        self.command(|gateway, told| unsafe { ffi::gtp_gateway_delete_bearer(gateway, session, identity, told) })
    }

    /// Ends an active session, by its own TEID, which is returned. A command of the packet gateway.
    ///
    /// # Errors
    /// Nothing has happened. [`CommandError`] says why.
    pub fn release_session(&mut self, session: u32) -> Result<u32, CommandError> {
        // SAFETY: the gateway is one that the library made, and the pointer is to a struct.
        self.command(|gateway, told| unsafe { ffi::gtp_gateway_release_session(gateway, session, told) })
    }

    /// Sends an End Marker on a bearer, once for each. A command of the packet gateway.
    ///
    /// # Errors
    /// Nothing has happened. [`CommandError`] says why.
    pub fn end_marker(&mut self, bearer: u32) -> Result<(), CommandError> {
        // SAFETY: the gateway is one that the library made, and the pointer is to a struct.
        self.command(|gateway, told| unsafe { ffi::gtp_gateway_end_marker(gateway, bearer, told) }).map(drop)
    }

    /// Sends a packet of at most 65,000 octets on a bearer.
    ///
    /// # Errors
    /// Nothing has happened. [`CommandError`] says why.
    pub fn send_user(&mut self, bearer: u32, packet: &[u8]) -> Result<(), CommandError> {
        // SAFETY: the gateway is one that the library made, and the pointers are to a slice of this length and to a struct.
        self.command(|gateway, told| unsafe {
            ffi::gtp_gateway_send_user(gateway, bearer, packet.as_ptr(), packet.len(), told)
        })
        .map(drop)
    }

    /// Asks whether the peer is alive.
    ///
    /// # Errors
    /// Nothing has happened. [`CommandError`] says why.
    pub fn echo(&mut self) -> Result<(), CommandError> {
        // SAFETY: the gateway is one that the library made, and the pointer is to a struct.
        self.command(|gateway, told| unsafe { ffi::gtp_gateway_echo(gateway, told) }).map(drop)
    }

    /// The session with this control plane TEID of the gateway's own.
    pub fn session(&self, teid: u32) -> Option<Session> {
        let mut row = ffi::SessionRow::default();
        // SAFETY: the gateway is one that the library made, and the pointer is to a struct.
        let status = unsafe { ffi::gtp_gateway_session(self.raw.get(), teid, &mut row) };
        (status == ffi::DONE).then(|| row.into())
    }

    /// The bearer with this user plane TEID of the gateway's own.
    pub fn bearer(&self, teid: u32) -> Option<Bearer> {
        let mut row = ffi::BearerRow::default();
        // SAFETY: the gateway is one that the library made, and the pointer is to a struct.
        let status = unsafe { ffi::gtp_gateway_bearer(self.raw.get(), teid, &mut row) };
        (status == ffi::DONE).then(|| row.into())
    }

    /// The sessions, in the order of the gateway's own TEIDs.
    pub fn sessions(&self) -> impl Iterator<Item = Session> + '_ {
        (0..).map_while(|place| {
            let mut row = ffi::SessionRow::default();
            // SAFETY: the gateway is one that the library made, and the pointer is to a struct.
            let status = unsafe { ffi::gtp_gateway_session_at(self.raw.get(), place, &mut row) };
            (status == ffi::DONE).then(|| row.into())
        })
    }

    /// The bearers, in the order of the gateway's own TEIDs.
    pub fn bearers(&self) -> impl Iterator<Item = Bearer> + '_ {
        (0..).map_while(|place| {
            let mut row = ffi::BearerRow::default();
            // SAFETY: the gateway is one that the library made, and the pointer is to a struct.
            let status = unsafe { ffi::gtp_gateway_bearer_at(self.raw.get(), place, &mut row) };
            (status == ffi::DONE).then(|| row.into())
        })
    }
}

impl Drop for Gateway {
    fn drop(&mut self) {
        // SAFETY: the gateway is one that the library made, or zeroes.
        unsafe { ffi::gtp_gateway_free(self.raw.get_mut()) };
    }
}
