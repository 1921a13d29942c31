"""The words of the standard for numbers that elements carry, by element, and the words of a datagram's elements in order. Written
after the tables of TS 29.274 and not after the program."""

from __future__ import annotations

from decoding import defect_of, element_list
from gateways import CAUSE, CONTEXT, FTEID, PAA, PDN_TYPE, RAT, elements

# Messages: their types by plane.
MESSAGES = {
    "control": {
        1: "echo-request",
        2: "echo-response",
        3: "version-not-supported",
        32: "create-session-request",
        33: "create-session-response",
        36: "delete-session-request",
        37: "delete-session-response",
        95: "create-bearer-request",
        96: "create-bearer-response",
        99: "delete-bearer-request",
        100: "delete-bearer-response",
    },
    "user": {
        1: "echo-request",
        2: "echo-response",
        26: "error-indication",
        31: "supported-extensions",
        254: "end-marker",
        255: "g-pdu",
    },
}

# Causes: table 8.4-1.
CAUSES = {
    2: "Local Detach", 3: "Complete Detach", 4: "RAT changed from 3GPP to Non-3GPP", 5: "ISR deactivation",
    6: "Error Indication received from RNC/eNodeB/S4-SGSN", 7: "IMSI Detach Only", 8: "Reactivation Requested",
    9: "PDN reconnection to this APN disallowed", 10: "Access changed from Non-3GPP to 3GPP",
    11: "PDN connection inactivity timer expires", 12: "PGW not responding", 13: "Network Failure",
    14: "QoS parameter mismatch", 15: "EPS to 5GS Mobility", 16: "Request accepted", 17: "Request accepted partially",
    18: "New PDN type due to network preference", 19: "New PDN type due to single address bearer only",
    64: "Context Not Found", 65: "Invalid Message Format", 66: "Version not supported by next peer", 67: "Invalid length",
    68: "Service not supported", 69: "Mandatory IE incorrect", 70: "Mandatory IE missing", 72: "System failure",
    73: "No resources available", 74: "Semantic error in the TFT operation", 75: "Syntactic error in the TFT operation",
    76: "Semantic errors in packet filter(s)", 77: "Syntactic errors in packet filter(s)", 78: "Missing or unknown APN",
    80: "GRE key not found", 81: "Relocation failure", 82: "Denied in RAT", 83: "Preferred PDN type not supported",
    84: "All dynamic addresses are occupied", 85: "UE context without TFT already activated",
    86: "Protocol type not supported", 87: "UE not responding", 88: "UE refuses", 89: "Service denied",
    90: "Unable to page UE", 91: "No memory available", 92: "User authentication failed",
    93: "APN access denied - no subscription", 94: "Request rejected (reason not specified)", 95: "P-TMSI Signature mismatch",
    96: "IMSI/IMEI not known", 97: "Semantic error in the TAD operation", 98: "Syntactic error in the TAD operation",
    100: "Remote peer not responding", 101: "Collision with network initiated request",
    102: "Unable to page UE due to Suspension", 103: "Conditional IE missing",
    104: "APN Restriction type Incompatible with currently active PDN connection",
    105: "Invalid overall length of the triggered response message and a piggybacked initial message",
    106: "Data forwarding not supported", 107: "Invalid reply from remote peer", 108: "Fallback to GTPv1",
    109: "Invalid peer", 110: "Temporarily rejected due to handover/TAU/RAU procedure in progress",
    111: "Modifications not limited to S1-U bearers", 112: "Request rejected for a PMIPv6 reason", 113: "APN Congestion",
    114: "Bearer handling not supported", 115: "UE already re-attached",
    116: "Multiple PDN connections for a given APN not allowed", 117: "Target access restricted for the subscriber",
    119: "MME/SGSN refuses due to VPLMN Policy", 120: "GTP-C Entity Congestion", 121: "Late Overlapping Request",
    122: "Timed out Request", 123: "UE is temporarily not reachable due to power saving",
    124: "Relocation failure due to NAS message redirection", 125: "UE not authorised by OCS or external AAA Server",
    126: "Multiple accesses to a PDN connection not allowed", 127: "Request rejected due to UE capability",
    128: "S1-U Path Failure", 129: "5GC not allowed", 130: "PGW mismatch with network slice subscribed by the UE",
    131: "Rejection due to paging restriction",
}
# RAT types: table 8.17-1.
RAT_TYPES = {
    1: "UTRAN", 2: "GERAN", 3: "WLAN", 4: "GAN", 5: "HSPA Evolution", 6: "EUTRAN", 7: "Virtual", 8: "EUTRAN-NB-IoT",
    9: "LTE-M", 10: "NR", 11: "WB-E-UTRAN(LEO)", 12: "WB-E-UTRAN(MEO)", 13: "WB-E-UTRAN(GEO)", 14: "WB-E-UTRAN(OTHERSAT)",
    15: "EUTRAN-NB-IoT(LEO)", 16: "EUTRAN-NB-IoT(MEO)", 17: "EUTRAN-NB-IoT(GEO)", 18: "EUTRAN-NB-IoT(OTHERSAT)",
    19: "LTE-M(LEO)", 20: "LTE-M(MEO)", 21: "LTE-M(GEO)", 22: "LTE-M(OTHERSAT)",
}
# Interface types of F-TEIDs: table 8.22-1.
INTERFACE_TYPES = {
    0: "S1-U eNodeB GTP-U interface", 1: "S1-U SGW GTP-U interface", 2: "S12 RNC GTP-U interface",
    3: "S12 SGW GTP-U interface", 4: "S5/S8 SGW GTP-U interface", 5: "S5/S8 PGW GTP-U interface",
    6: "S5/S8 SGW GTP-C interface", 7: "S5/S8 PGW GTP-C interface", 8: "S5/S8 SGW PMIPv6 interface",
    9: "S5/S8 PGW PMIPv6 interface", 10: "S11 MME GTP-C interface", 11: "S11/S4 SGW GTP-C interface",
    12: "S10/N26 MME GTP-C interface", 13: "S3 MME GTP-C interface", 14: "S3 SGSN GTP-C interface",
    15: "S4 SGSN GTP-U interface", 16: "S4 SGW GTP-U interface", 17: "S4 SGSN GTP-C interface",
    18: "S16 SGSN GTP-C interface", 19: "eNodeB/gNodeB GTP-U interface for DL data forwarding",
    20: "eNodeB GTP-U interface for UL data forwarding", 21: "RNC GTP-U interface for data forwarding",
    22: "SGSN GTP-U interface for data forwarding", 23: "SGW/UPF GTP-U interface for DL data forwarding",
    24: "Sm MBMS GW GTP-C interface", 25: "Sn MBMS GW GTP-C interface", 26: "Sm MME GTP-C interface",
    27: "Sn SGSN GTP-C interface", 28: "SGW GTP-U interface for UL data forwarding", 29: "Sn SGSN GTP-U interface",
    30: "S2b ePDG GTP-C interface", 31: "S2b-U ePDG GTP-U interface", 32: "S2b PGW GTP-C interface",
    33: "S2b-U PGW GTP-U interface", 34: "S2a TWAN GTP-U interface", 35: "S2a TWAN GTP-C interface",
    36: "S2a PGW GTP-C interface", 37: "S2a PGW GTP-U interface", 38: "S11 MME GTP-U interface",
    39: "S11 SGW GTP-U interface", 40: "N26 AMF GTP-C interface", 41: "N19mb UPF GTP-U interface",
}
# PDN types: table 8.34-1.
PDN_TYPES = {
    1: "IPv4", 2: "IPv6", 3: "IPv4v6", 4: "Non-IP", 5: "Ethernet",
}


def word_of(kind: int, body: bytes) -> str | None:
    """The word of what an element says, if it reads and its number has one."""
    if kind not in (CAUSE, FTEID, PAA, PDN_TYPE, RAT) or defect_of(kind, body) is not None:
        return None
    if kind == CAUSE:
        return CAUSES.get(body[0])
    if kind == RAT:
        return RAT_TYPES.get(body[0])
    if kind == FTEID:
        return INTERFACE_TYPES.get(body[0] & 63)
    if kind == PAA and body[0] & 7 in (1, 2, 3):
        return None
    return PDN_TYPES.get(body[0] & 7)


def words_of(octets: bytes) -> list[str]:
    """The words of a list of elements, as far as they are whole, with those inside bearer contexts that are whole."""
    words = []
    for kind, _, body in elements(octets):
        if kind == CONTEXT:
            words += [word_of(inner_kind, inner) for inner_kind, _, inner in element_list(body) or []]
        else:
            words.append(word_of(kind, body))
    return [word for word in words if word]
