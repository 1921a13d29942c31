//! GTPv2-C (3GPP TS 29.274) and GTP-U (TS 29.281) of the S5/S8 interface: messages read in place and written to a buffer, and a
//! serving or packet gateway, or one for each of many peers. A safe face of `libgtp_c`, whose code is proved; docs/C.md says what is.
//!
//! Nothing here needs a clock or a socket. The caller hands a [`Gateway`] what came, sends what it takes from it, and calls
//! [`Gateway::tick`] at even intervals; a [`Node`] hands what came to the gateway of the peer that it comes from. Formatted with
//! `{:x?}`, TEIDs are hexadecimal, as lines and reports have them.
//!
//! ```
//! use gtp::kinds::{element::RECOVERY, message::ECHO_REQUEST};
//! use gtp::{ControlMessage, Value};
//!
//! let octets = [0x40, 1, 0, 9, 0, 0, 5, 0, 3, 0, 1, 0, 7];
//! let message = ControlMessage::read(&octets)?;
//! assert_eq!((message.kind(), message.sequence()), (ECHO_REQUEST, 5));
//! let counter = message.element(RECOVERY, 0).expect("an Echo Request has a counter").value()?;
//! assert_eq!(counter, Value::Recovery(7));
//! # Ok::<(), Box<dyn std::error::Error>>(())
//! ```
#![warn(missing_debug_implementations)]

mod address;
mod context;
mod control;
mod element;
mod error;
mod ffi;
mod gateway;
pub mod kinds;
mod node;
mod report;
mod setup;
mod text;
mod user;
mod value;
mod write;

pub use address::Plane;
pub use context::{Bearer, Session, State};
pub use control::ControlMessage;
pub use element::{Element, Elements};
pub use error::{CommandError, ControlFault, Error, Refusal, TooSmall, UserFault, ValueError, WriteError};
pub use gateway::{Gateway, Sent};
pub use node::{Node, Routed};
pub use report::{Outcome, Received, Ticked};
pub use setup::{Addresses, Role, SessionRequest, SessionValue, Setup, SetupValue, Switches, Template, Timers};
pub use text::{element_name, message_name};
pub use user::{Extension, Extensions, UserMessage};
pub use value::{Ambr, Cause, FTeid, Paa, Quality, Value};
pub use write::{version, write_element, write_message, write_packet, write_user, write_value, Header, UserHeader};
