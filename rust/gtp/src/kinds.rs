//! Types of messages (TS 29.274 table 6.1-1) and of elements (table 8.1-1) that are known here.

/// Types of messages of the control plane.
pub mod message {
    /// Echo Request.
    pub const ECHO_REQUEST: u8 = 1;
    /// Echo Response.
    pub const ECHO_RESPONSE: u8 = 2;
    /// Version Not Supported Indication.
    pub const VERSION_NOT_SUPPORTED: u8 = 3;
    /// Create Session Request.
    pub const CREATE_SESSION_REQUEST: u8 = 32;
    /// Create Session Response.
    pub const CREATE_SESSION_RESPONSE: u8 = 33;
    /// Delete Session Request.
    pub const DELETE_SESSION_REQUEST: u8 = 36;
    /// Delete Session Response.
    pub const DELETE_SESSION_RESPONSE: u8 = 37;
    /// Create Bearer Request.
    pub const CREATE_BEARER_REQUEST: u8 = 95;
    /// Create Bearer Response.
    pub const CREATE_BEARER_RESPONSE: u8 = 96;
    /// Delete Bearer Request.
    pub const DELETE_BEARER_REQUEST: u8 = 99;
    /// Delete Bearer Response.
    pub const DELETE_BEARER_RESPONSE: u8 = 100;
}

/// Types of elements.
pub mod element {
    /// International Mobile Subscriber Identity.
    pub const IMSI: u8 = 1;
    /// Cause.
    pub const CAUSE: u8 = 2;
    /// Recovery: the restart counter.
    pub const RECOVERY: u8 = 3;
    /// Access Point Name.
    pub const APN: u8 = 71;
    /// Aggregate Maximum Bit Rate.
    pub const AMBR: u8 = 72;
    /// EPS Bearer ID.
    pub const EBI: u8 = 73;
    /// PDN Address Allocation.
    pub const PAA: u8 = 79;
    /// Bearer Quality of Service.
    pub const BEARER_QOS: u8 = 80;
    /// RAT Type.
    pub const RAT_TYPE: u8 = 82;
    /// Serving Network.
    pub const SERVING_NETWORK: u8 = 83;
    /// Bearer Traffic Flow Template.
    pub const BEARER_TFT: u8 = 84;
    /// Fully Qualified Tunnel Endpoint Identifier.
    pub const FTEID: u8 = 87;
    /// Bearer Context: a group of elements.
    pub const BEARER_CONTEXT: u8 = 93;
    /// Charging ID.
    pub const CHARGING_ID: u8 = 94;
    /// PDN Type.
    pub const PDN_TYPE: u8 = 99;
    /// Procedure Transaction ID.
    pub const PTI: u8 = 100;
    /// Selection Mode.
    pub const SELECTION_MODE: u8 = 128;
}
