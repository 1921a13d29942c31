/* libgtp_c: GTPv2-C (TS 29.274) and GTP-U (TS 29.281) of the S5/S8 interface, proved: datagrams read in place, written to a
 * buffer, a serving or packet gateway, and the places of many peers. docs/C.md says what is proved.
 *
 * What a caller keeps (nothing checks it):
 *  1. A gtp_gateway or gtp_places is zeroed, or as the last call left it. It is not changed, and not used beside a copy of itself;
 *     a copy that takes its place, as by a move, is fine. One that was opened is freed, or its memory is lost.
 *  2. One call at a time for a gateway, and for a gtp_places. Calls from several threads are ordered, by a lock, by the start or
 *     join of a thread, or by an atomic with sequential consistency. Either may go to another thread; there is no global state.
 *  3. Pointers are not NULL, not even with a length of 0; each is to as much memory as its length says, aligned for its type, and
 *     initialised (zeroes do), also a struct or buffer that a call only writes. What a call writes overlaps nothing else that the
 *     same call is handed. A bool is 0 or 1.
 *  4. malloc, realloc and free are one allocator, the C library's or as good. No call from a signal handler, nor in the child of
 *     a fork of a process with threads.
 * No call keeps a pointer, reads past a length, writes past one, or waits. Every call ends. Nothing here needs a clock or a
 * socket: the caller hands in what came, sends what is taken, and calls gtp_gateway_tick at even intervals.
 *
 * Every call answers an enum gtp_status. Any status but GTP_DONE leaves the gateway as it was, with all that waits to be sent, and
 * the gtp_places.
 * Only GTP_DONE fills what a call writes, with these exceptions: GTP_REFUSED fills `told`, GTP_TOO_SMALL fills `datagram` or
 * `size`, GTP_FAULTY fills `fault`. Places and lengths count octets. An identifier (TEID) is a number in the machine's order. */
#ifndef GTP_H
#define GTP_H
#include <stdbool.h>
#include <stddef.h>
#include <stdint.h>
#ifdef __cplusplus
extern "C" {
#endif

#define GTP_VERSION "0.1.0"     /* of this header; gtp_version says that of the library */

enum gtp_status {
    GTP_DONE = 0,
    GTP_BAD_VALUE = 1,      /* a value is out of its range */
    GTP_NO_MEMORY = 2,      /* an allocation was refused; the same call may be made again */
    GTP_FULL = 3,           /* more than 4,096 datagrams wait to be taken */
    GTP_NONE = 4,           /* there is none: no datagram waits, no element, session, bearer or address is there */
    GTP_TOO_SMALL = 5,      /* the buffer has too little room */
    GTP_REFUSED = 6,        /* the gateway refuses the command: told->outcome.cause says by which rule */
    GTP_EMPTY = 7,          /* no gateway is open here, or no gtp_places */
    GTP_NOT_EMPTY = 8,      /* gtp_gateway_new, gtp_places_new: one is open here */
    GTP_FAULTY = 9,         /* the octets are no message, or no whole element */
    GTP_SHORT_VALUE = 10,   /* the body is below the least length of its form */
    GTP_NO_VALUE = 11       /* the body is long enough, and says nothing */
};
enum gtp_role { GTP_SERVING = 0, GTP_PACKET = 1 };
/* Types of messages that are read here (TS 29.274 table 6.1-1), and of elements (table 8.1-1). */
enum gtp_message {
    GTP_ECHO_REQUEST = 1, GTP_ECHO_RESPONSE = 2, GTP_VERSION_NOT_SUPPORTED = 3, GTP_CREATE_SESSION_REQUEST = 32,
    GTP_CREATE_SESSION_RESPONSE = 33, GTP_DELETE_SESSION_REQUEST = 36, GTP_DELETE_SESSION_RESPONSE = 37,
    GTP_CREATE_BEARER_REQUEST = 95, GTP_CREATE_BEARER_RESPONSE = 96, GTP_DELETE_BEARER_REQUEST = 99,
    GTP_DELETE_BEARER_RESPONSE = 100
};
enum gtp_element_type {
    GTP_IMSI = 1, GTP_CAUSE = 2, GTP_RECOVERY = 3, GTP_APN = 71, GTP_AMBR = 72, GTP_EBI = 73, GTP_PAA = 79, GTP_BEARER_QOS = 80,
    GTP_RAT_TYPE = 82, GTP_SERVING_NETWORK = 83, GTP_BEARER_TFT = 84, GTP_FTEID = 87, GTP_BEARER_CONTEXT = 93,
    GTP_CHARGING_ID = 94, GTP_PDN_TYPE = 99, GTP_PTI = 100, GTP_SELECTION_MODE = 128
};
enum gtp_plane { GTP_CONTROL = 0, GTP_USER = 1 };           /* UDP ports 2123 and 2152 */

/* An address: of IP version 4 its four octets stand first, of version 6 it has sixteen, in the order in which they are sent. */
struct gtp_address { uint8_t version, octets[16]; };        /* version: 4 or 6 */
struct gtp_end { struct gtp_address address; uint16_t port; };

/* ---- Reading a datagram in place. No memory is taken. ---- */

struct gtp_fault {              /* the first fault; what does not belong to it is 0. docs/PROTOCOL.md has the numbers */
    uint64_t at;                /* the place, from the start of the datagram; of H6 that of the bearer context that lacks the
                                 * element, and 0 where the message itself does */
    uint64_t stated, held;      /* the stated length, and how many octets there are */
    uint8_t number;             /* H1 to H7 on the control plane, U1 to U9 on the user plane */
    uint8_t detail;             /* of H7: I1 to I3 */
    uint8_t version;
    uint8_t message;            /* the type of the message */
    uint8_t element, instance;  /* the type of the element or of the extension header, and its instance */
    uint8_t conditional;        /* 1: the element that is missing is conditional */
};

struct gtp_head {               /* of a message of the control plane (TS 29.274 5.1) */
    uint64_t list_at, list_len; /* the octets after the header: where they begin, and how many they are */
    uint64_t second_len;        /* so many octets at the end of the datagram are a second message (5.5.1); 0: none */
    uint32_t teid, seq;         /* the receiver's TEID; seq is below 2^24 */
    uint8_t kind;               /* the type of the message (table 6.1-1) */
    uint8_t has_teid, has_priority, priority;
    uint8_t has_elements;       /* 1: the octets after the header are elements; 0: the type is not known here */
};
uint8_t gtp_control_read(const uint8_t *octets, size_t len, struct gtp_head *head, struct gtp_fault *fault);

struct gtp_element {
    uint64_t at, body_at, len;  /* the place of its first octet and of its body, and how many octets its body has */
    uint8_t kind, instance, spare;
};
/* The element at `place`; the next one begins at body_at + len. The elements of a message are those of
 * octets[0 .. list_at + list_len] from list_at on, those of a group those of octets[0 .. body_at + len] from body_at on.
 * GTP_NONE: place == len. GTP_FAULTY: no whole element stands there. GTP_BAD_VALUE: place > len. */
uint8_t gtp_element_next(const uint8_t *octets, size_t len, uint64_t place, struct gtp_element *element);
/* The first element of a type and instance from `place` on. GTP_FAULTY: the octets from there on are not whole elements. */
uint8_t gtp_element_first(const uint8_t *octets, size_t len, uint64_t place, uint8_t kind, uint8_t instance,
                          struct gtp_element *element);

struct gtp_user_head {          /* of a message of the user plane (TS 29.281 5.1) */
    uint64_t payload_at, payload_len;   /* what it carries: where it begins, and how many octets it is. Of a G-PDU, and of a type
                                   that is not known here: the last octets of the datagram. Of a notification: the types of its
                                   first list (8.5). Of the others: 0, 0 */
    uint64_t extensions_len;    /* the chain of extension headers, which begins at 12 */
    uint32_t teid;
    uint16_t seq;
    uint8_t has_seq, has_npdu, npdu;
    uint8_t kind;               /* 1, 2 echo, 26 Error Indication, 31 notification, 254 End Marker, 255 G-PDU */
    uint8_t extension;          /* the type of the first extension header; 0: none */
    struct gtp_address peer;    /* of an Error Indication; version 0: none */
};
uint8_t gtp_user_read(const uint8_t *octets, size_t len, struct gtp_user_head *head, struct gtp_fault *fault);

/* What the body of an element says (TS 29.274 clause 8). GTP_SHORT_VALUE, GTP_NO_VALUE: it says nothing. Where a has_.. is 0, or pdn
 * has no such address, the octets that belong to it say nothing. */
struct gtp_imsi { uint8_t count, digits[15]; };             /* count: 6 to 15; digits: 0 to 9 */
struct gtp_cause { uint8_t value, pce, bce, cs, has_offending, offending, instance; };
struct gtp_apn { uint8_t len, octets[100]; };               /* labels, each after an octet with its length */
struct gtp_ambr { uint32_t up, down; };                     /* kilobits a second */
struct gtp_paa { uint8_t pdn, prefix, v4[4], v6[16]; };     /* pdn: 1 IPv4, 2 IPv6, 3 both; prefix in bits */
struct gtp_quality {                                        /* 8.15 */
    uint64_t mbr_up, mbr_down, gbr_up, gbr_down;            /* kilobits a second, below 2^40 */
    bool pci;
    uint8_t pl;                                             /* priority level, below 16 */
    bool pvi;
    uint8_t qci;
};
struct gtp_network { uint8_t digits[6]; };                  /* 001 01 is 0, 0, 1, 0, 1, 15 */
struct gtp_fteid {                                          /* interface: its type, below 64 */
    uint32_t teid;
    uint8_t interface, has_v4, has_v6, v4[4], v6[16];
};
uint8_t gtp_imsi_read(const uint8_t *body, size_t len, struct gtp_imsi *value);             /* type 1 */
uint8_t gtp_cause_read(const uint8_t *body, size_t len, struct gtp_cause *value);           /* 2 */
uint8_t gtp_recovery_read(const uint8_t *body, size_t len, uint32_t *number);               /* 3 */
uint8_t gtp_apn_read(const uint8_t *body, size_t len, struct gtp_apn *value);               /* 71 */
uint8_t gtp_ambr_read(const uint8_t *body, size_t len, struct gtp_ambr *value);             /* 72 */
uint8_t gtp_ebi_read(const uint8_t *body, size_t len, uint32_t *number);                    /* 73 */
uint8_t gtp_paa_read(const uint8_t *body, size_t len, struct gtp_paa *value);               /* 79 */
uint8_t gtp_qos_read(const uint8_t *body, size_t len, struct gtp_quality *value);           /* 80 */
uint8_t gtp_rat_read(const uint8_t *body, size_t len, uint32_t *number);                    /* 82 */
uint8_t gtp_network_read(const uint8_t *body, size_t len, struct gtp_network *value);       /* 83 */
uint8_t gtp_fteid_read(const uint8_t *body, size_t len, struct gtp_fteid *value);           /* 87 */
uint8_t gtp_charging_id_read(const uint8_t *body, size_t len, uint32_t *number);            /* 94 */
uint8_t gtp_pdn_type_read(const uint8_t *body, size_t len, uint32_t *number);               /* 99 */
uint8_t gtp_pti_read(const uint8_t *body, size_t len, uint32_t *number);                    /* 100 */
uint8_t gtp_selection_read(const uint8_t *body, size_t len, uint32_t *number);              /* 128 */
/* A traffic flow template (84) is its body, of at most 255 octets. */

/* ---- What messages and elements are called, and what elements say, as text, in a buffer of `room` octets. GTP_TOO_SMALL: nothing is
 * written, and *size says how many octets it is. No text has a 0 at its end. ---- */

/* The name of a type of message (TS 29.274 table 6.1-1) or of element (table 8.1-1), as "create-session-request", also of types that
 * are not read here. GTP_NONE: the type has no name. */
uint8_t gtp_message_name(uint8_t *buffer, size_t room, uint8_t message, uint64_t *size);
uint8_t gtp_element_name(uint8_t *buffer, size_t room, uint8_t kind, uint64_t *size);
/* An element, in a message of the type `message`: its lines, as `gtpshow decode --all` shows them, or one line of JSON, as it is
 * among the `elements` of `gtpshow decode --all --json`. A group is shown with the elements in it. docs/ELEMENTS.md has the fields of
 * each type. Each takes memory for the text, and gives it back: GTP_NO_MEMORY. GTP_BAD_VALUE: instance > 15, or
 * body_len > 65,535. */
uint8_t gtp_element_lines(uint8_t *buffer, size_t room, uint8_t message, uint8_t kind, uint8_t instance,
                          const uint8_t *body, size_t body_len, uint64_t *size);
uint8_t gtp_element_json(uint8_t *buffer, size_t room, uint8_t message, uint8_t kind, uint8_t instance,
                         const uint8_t *body, size_t body_len, uint64_t *size);

/* ---- Writing to a buffer of `room` octets. GTP_TOO_SMALL: nothing is written, and *size says how many octets it is. ---- */

/* The version of the library, as in GTP_VERSION but without a 0 at its end. */
uint8_t gtp_version(uint8_t *buffer, size_t room, uint64_t *size);
/* An element, at `place` of the buffer: *size octets. GTP_BAD_VALUE: instance > 15, body_len > 65,535 or place > room. */
uint8_t gtp_element_write(uint8_t *buffer, size_t room, uint64_t place, uint8_t kind, uint8_t instance,
                          const uint8_t *body, size_t body_len, uint64_t *size);
/* The body of an element that says a value (TS 29.274 clause 8), at the front of the buffer: *size octets, for gtp_element_write. What
 * a gtp_.._read filled is written as the body that says the same, with spare bits 0. Each takes memory for as many octets, at most 100,
 * and gives it back: GTP_NO_MEMORY. GTP_BAD_VALUE: a value is out of its range; here a has_.. and a flag of a cause are set where they
 * are not 0, and what does not belong to the value counts for nothing. */
uint8_t gtp_imsi_write(uint8_t *buffer, size_t room, const struct gtp_imsi *value, uint64_t *size);
uint8_t gtp_cause_write(uint8_t *buffer, size_t room, const struct gtp_cause *value, uint64_t *size);    /* instance: below 16 */
uint8_t gtp_recovery_write(uint8_t *buffer, size_t room, uint32_t number, uint64_t *size);              /* number: below 256 */
uint8_t gtp_apn_write(uint8_t *buffer, size_t room, const struct gtp_apn *value, uint64_t *size);
uint8_t gtp_ambr_write(uint8_t *buffer, size_t room, const struct gtp_ambr *value, uint64_t *size);
uint8_t gtp_ebi_write(uint8_t *buffer, size_t room, uint32_t number, uint64_t *size);                   /* below 16 */
uint8_t gtp_paa_write(uint8_t *buffer, size_t room, const struct gtp_paa *value, uint64_t *size);        /* pdn: below 8 */
uint8_t gtp_qos_write(uint8_t *buffer, size_t room, const struct gtp_quality *value, uint64_t *size);
uint8_t gtp_rat_write(uint8_t *buffer, size_t room, uint32_t number, uint64_t *size);                   /* below 256 */
uint8_t gtp_network_write(uint8_t *buffer, size_t room, const struct gtp_network *value, uint64_t *size);
uint8_t gtp_fteid_write(uint8_t *buffer, size_t room, const struct gtp_fteid *value, uint64_t *size);    /* an address at least */
uint8_t gtp_charging_id_write(uint8_t *buffer, size_t room, uint32_t number, uint64_t *size);
uint8_t gtp_pdn_type_write(uint8_t *buffer, size_t room, uint32_t number, uint64_t *size);              /* below 8 */
uint8_t gtp_pti_write(uint8_t *buffer, size_t room, uint32_t number, uint64_t *size);                   /* below 256 */
uint8_t gtp_selection_write(uint8_t *buffer, size_t room, uint32_t number, uint64_t *size);             /* below 4 */

/* A message of the control plane that carries `list`, which may be elements; of `head` the type, TEID, seq and priority count.
 * It is written as it is asked for: gtp_control_read says whether it is one. GTP_BAD_VALUE: seq >= 2^24, priority > 15, a
 * priority without a TEID, or list_len > 65,527. */
uint8_t gtp_control_write(uint8_t *buffer, size_t room, const struct gtp_head *head, const uint8_t *list, size_t list_len,
                          uint64_t *size);
/* A G-PDU. GTP_BAD_VALUE: packet_len > 65,535. */
uint8_t gtp_packet_write(uint8_t *buffer, size_t room, uint32_t teid, const uint8_t *packet, size_t packet_len,
                         uint64_t *size);

/* A message of the user plane without extension headers (TS 29.281 7), of the kind, TEID, seq, npdu and peer of `head`, where its
 * has_.. say so; `octets` is the packet of a G-PDU, the types of a notification, and what a message of a type carries that is not
 * known here. It takes memory for as many octets, and gives it back: GTP_NO_MEMORY. GTP_BAD_VALUE: an echo (1, 2), an Error
 * Indication (26) or a notification (31) has no seq, an Error Indication no address, a notification more than 255 types, or the
 * message more than 65,543 octets. The octets of a kind that carries none count for nothing. */
uint8_t gtp_user_write(uint8_t *buffer, size_t room, const struct gtp_user_head *head, const uint8_t *octets, size_t octets_len,
                       uint64_t *size);

/* ---- A gateway. ---- */

/* Opaque. Begin with all zeroes: gtp_gateway gateway = {0}; */
typedef struct gtp_gateway { void *hidden; uint64_t count; } gtp_gateway;

struct gtp_template {                   /* the dedicated bearer that a packet gateway asks for with each session of an access point */
    struct gtp_quality quality;
    uint8_t access_point;               /* its place among the names, from 0 */
    uint8_t tft_len, tft[255];          /* its traffic flow template: how many octets, and they */
};
/* Optional behaviour, by default off. */
enum gtp_switch {
    GTP_SWITCH_NETWORK_IDENTIFIERS = 1, /* a packet gateway compares the names of access points by their network identifiers (TS 23.003
                                           9.1): without an operator identifier at the end of either name, upper and lower case
                                           alike. One that is written as it is asked for comes first */
    GTP_SWITCH_VERSION_NOT_SUPPORTED = 2 /* a datagram of the control plane of another version than 2 is answered with a Version Not
                                           Supported Indication (TS 29.274 7.7.2), unless its type, the second octet, is 3 */
};
struct gtp_setup {
    struct gtp_address own_control, own_user, peer_control, peer_user;
    uint8_t pool6[16];                  /* the first IPv6 address for sessions: each has a prefix of 64 bits of its own */
    uint32_t pool6_count;               /* at most 65,536; 0: none */
    uint32_t pool, pool_count;          /* IPv4 addresses for sessions: 10.1.0.1 is 0x0a010001; at most 65,536 */
    uint32_t t3, n3, hold;              /* TS 29.274 7.6: ticks until a request goes out again, 1 to 1,000; how often, 0 to 100;
                                           ticks for which an answer is held, 1 to 100,000 */
    uint8_t role;                       /* enum gtp_role; a serving gateway uses no pool, access points or templates, but they have to be
                                           good: no pool goes past the last address, each template is of an access point */
    uint8_t counter;                    /* the restart counter, one more at each start (TS 23.007 18) */
    uint8_t template_count;             /* at most 16; 0: none */
    uint8_t switches;                   /* of enum gtp_switch, joined by |; 0: none */
    struct gtp_template templates[16];  /* so many of them count: of several for one access point the last. With each session of an
                                           access point that has one the packet gateway asks for such a bearer, in a second message of
                                           the datagram that answers for the session (TS 29.274 5.5.1) */
};
enum gtp_setup_value {
    GTP_SETUP_GOOD,             /* none */
    GTP_SETUP_ROLE, GTP_SETUP_OWN_CONTROL, GTP_SETUP_OWN_USER, GTP_SETUP_PEER_CONTROL, GTP_SETUP_PEER_USER,
    GTP_SETUP_ACCESS_POINTS, GTP_SETUP_T3, GTP_SETUP_N3, GTP_SETUP_HOLD, GTP_SETUP_POOL, GTP_SETUP_POOL6,
    GTP_SETUP_TEMPLATE_COUNT, GTP_SETUP_TEMPLATES, GTP_SETUP_SWITCHES
};
/* A value for which gtp_gateway_new answers GTP_BAD_VALUE, of several one of them. No memory is taken. */
uint8_t gtp_setup_bad_value(const struct gtp_setup *setup, const uint8_t *access_points, size_t len);
/* Opens a gateway in `gateway`, which is empty. access_points: names with commas between them, as "internet,ims", at most 16.
 * A setup is looked at before memory is taken: one that is bad is always GTP_BAD_VALUE. The room for all datagrams that may ever wait
 * is taken now, some 300 KB, so no later call lacks it. */
uint8_t gtp_gateway_new(gtp_gateway *gateway, const struct gtp_setup *setup, const uint8_t *access_points, size_t len);
/* Closes it, with its sessions and all that waits, without a word to the peer. It is empty then, and may be opened again. */
uint8_t gtp_gateway_free(gtp_gateway *gateway);

enum gtp_outcome_kind {
    GTP_BEGUN = 1,          /* a request was sent for a command */
    GTP_GONE_OUT,           /* a packet or an End Marker was sent */
    GTP_NOT_BEGUN,          /* a command was refused; cause: 1 to 8 are G1, G2, G3, G4 S1, G4 S4, G4 B1, G5, G7 */
    GTP_ANSWERED,           /* a request was answered with this cause */
    GTP_ECHOED,             /* an Echo Request was answered */
    GTP_REPEATED,           /* a request that came again was answered as before */
    GTP_OPENED,             /* a session or bearer is active now */
    GTP_CLOSED,             /* a session or bearer is gone */
    GTP_CLASH,              /* an answer could not be used, and its bearer is gone */
    GTP_REJECTED,           /* the peer refused a request with this cause */
    GTP_ALIVE,              /* an Echo Response came */
    GTP_ACCEPTED,           /* a packet came on the bearer told->teid */
    GTP_ENDED,              /* an End Marker came */
    GTP_BROKEN,             /* an Error Indication came, and its session or bearer is gone */
    GTP_DROPPED,            /* a datagram was dropped; cause: X1 to X12 (docs/PROTOCOL.md); of X1, fault is its number after H or U;
                               of X6, X10 and X12 a datagram may wait for its sender */
    GTP_TICKED              /* a tick passed */
};
struct gtp_outcome { uint8_t kind, cause, fault; };

struct gtp_told {                       /* what a call came to */
    uint64_t waiting;                   /* so many datagrams wait to be taken */
    uint64_t payload_len;               /* of GTP_ACCEPTED: the packet, the last octets that were handed in */
    uint64_t gave_up, forgot;           /* of a tick: requests that were given up, and answers that are held no more */
    uint32_t teid;                      /* the session or bearer that a request was sent for, or the bearer on which a packet came; 0:
                                           neither. gtp_gateway_session_at and its kind tell what else has changed */
    struct gtp_outcome outcome, second; /* second: of a datagram's second message; kind 0: none */
    uint8_t made;                       /* 1: a session or bearer was made for a request */
    uint8_t counted, counter;           /* 1: the peer told its restart counter, and it */
    uint8_t restarted;                  /* 1: it is later than the one before, so the peer's earlier sessions are gone */
};
/* A datagram came from `source`. */
uint8_t gtp_gateway_receive(gtp_gateway *gateway, const struct gtp_end *source, uint8_t plane,
                            const uint8_t *octets, size_t len, struct gtp_told *told);
/* A tick passes, the unit of t3 and hold. */
uint8_t gtp_gateway_tick(gtp_gateway *gateway, struct gtp_told *told);

struct gtp_datagram { uint64_t len; struct gtp_end from, to; uint8_t plane; };
/* The datagram that waits longest: it is handed out once. GTP_NONE: none waits. GTP_TOO_SMALL: datagram->len says how many octets
 * it has, nothing is written, and it waits still. */
uint8_t gtp_gateway_take(gtp_gateway *gateway, uint8_t *buffer, size_t room, struct gtp_datagram *datagram);

struct gtp_session {                    /* with what a session is asked for (TS 29.274 table 7.2.1-1) */
    struct gtp_quality quality;         /* of the default bearer */
    uint32_t ambr_up, ambr_down;        /* kilobits a second */
    uint8_t network[6];                 /* the digits of the serving network: 001 01 is 0, 0, 1, 0, 1, 15 */
    uint8_t identity;                   /* EPS bearer identity of the default bearer, 5 to 15 */
    uint8_t rat, selection, pdn;        /* 8.17; 8.58, below 4; 8.34, below 8: 1 IPv4, 2 IPv6, 3 both */
};
/* The IMSI that a text of 6 to 15 decimal digits writes. Of any other text: one that no call takes. */
static inline struct gtp_imsi gtp_imsi_of(const char *text) {
    struct gtp_imsi imsi = { 0, { 0 } };
    while (imsi.count < 15 && text[imsi.count] >= '0' && text[imsi.count] <= '9') {
        imsi.digits[imsi.count] = (uint8_t)(text[imsi.count] - '0');
        imsi.count++;
    }
    if (text[imsi.count] != '\0') imsi.count = 0;
    return imsi;
}
enum gtp_session_value {
    GTP_SESSION_GOOD,           /* none */
    GTP_SESSION_IMSI, GTP_SESSION_ACCESS_POINT, GTP_SESSION_IDENTITY, GTP_SESSION_NETWORK, GTP_SESSION_QUALITY,
    GTP_SESSION_SELECTION, GTP_SESSION_PDN
};
/* A value for which gtp_gateway_create_session answers GTP_BAD_VALUE, of several one of them. No memory is taken. */
uint8_t gtp_session_bad_value(const struct gtp_session *session, const struct gtp_imsi *imsi,
                              const uint8_t *access_point, size_t access_point_len);
/* Commands of the serving gateway. access_point: a name, as "internet". */
uint8_t gtp_gateway_create_session(gtp_gateway *gateway, const struct gtp_session *session, const struct gtp_imsi *imsi,
                                   const uint8_t *access_point, size_t access_point_len, struct gtp_told *told);
uint8_t gtp_gateway_delete_session(gtp_gateway *gateway, uint32_t session, struct gtp_told *told);
/* Commands of the packet gateway. tft: a traffic flow template of at most 255 octets; identity: 5 to 15. */
uint8_t gtp_gateway_create_bearer(gtp_gateway *gateway, uint32_t session, const struct gtp_quality *quality,
                                  const uint8_t *tft, size_t len, struct gtp_told *told);
uint8_t gtp_gateway_delete_bearer(gtp_gateway *gateway, uint32_t session, uint8_t identity, struct gtp_told *told);
uint8_t gtp_gateway_release_session(gtp_gateway *gateway, uint32_t session, struct gtp_told *told);
uint8_t gtp_gateway_end_marker(gtp_gateway *gateway, uint32_t bearer, struct gtp_told *told);
/* Commands of both. payload: at most 65,000 octets. */
uint8_t gtp_gateway_send_user(gtp_gateway *gateway, uint32_t bearer, const uint8_t *payload, size_t len, struct gtp_told *told);
uint8_t gtp_gateway_echo(gtp_gateway *gateway, struct gtp_told *told);

struct gtp_session_row {
    uint32_t teid, remote;              /* the gateway's own control plane TEID, and the peer's */
    uint8_t has_remote, state, identity;/* state: 0 pending, 1 active, 2 closing; identity: of the default bearer */
    uint8_t has_v4, has_v6, v4[4], v6[16];
    struct gtp_imsi imsi;
    struct gtp_apn access_point;
};
struct gtp_bearer_row {
    uint32_t teid, remote, session;     /* the gateway's own user plane TEID, the peer's, and the session's own */
    uint8_t has_remote, state, identity;/* identity: 0 while none is known */
    uint8_t dedicated, ended;           /* ended: an End Marker was sent or came */
};
/* By the gateway's own TEID. */
uint8_t gtp_gateway_session(gtp_gateway *gateway, uint32_t teid, struct gtp_session_row *row);
uint8_t gtp_gateway_bearer(gtp_gateway *gateway, uint32_t teid, struct gtp_bearer_row *row);
/* By place, from 0, in the order of the gateway's own TEIDs. Each place takes the same time. GTP_NONE: behind the last. */
uint8_t gtp_gateway_session_at(gtp_gateway *gateway, uint64_t place, struct gtp_session_row *row);
uint8_t gtp_gateway_bearer_at(gtp_gateway *gateway, uint64_t place, struct gtp_bearer_row *row);

/* ---- Many peers: a gateway for each, in an array of the caller's. A gtp_places has the addresses of the peers on one plane, in the
 * order of the array, and says to which of them a datagram goes:
 *
 *     uint64_t peer = 0;
 *     if (gtp_places_find(&places[plane], &source.address, &peer) == GTP_DONE)
 *         gtp_gateway_receive(&gateways[peer], &source, plane, octets, len, &told);
 * ---- */

/* Opaque. Begin with all zeroes: gtp_places places = {0}; */
typedef struct gtp_places { void *hidden; uint64_t count; } gtp_places;
/* Opens it without addresses; it is empty before. */
uint8_t gtp_places_new(gtp_places *places);
/* Lets the addresses go. It is empty then, and may be opened again. */
uint8_t gtp_places_free(gtp_places *places);
/* Adds an address behind all others, also one that is there. GTP_BAD_VALUE: the version is neither 4 nor 6. */
uint8_t gtp_places_add(gtp_places *places, const struct gtp_address *address);
/* Takes the last address away, as where the gateway of its peer could not be opened. GTP_NONE: there is none. */
uint8_t gtp_places_pop(gtp_places *places);
/* The first place of an address, from 0, in the order in which they were added, in time that grows with the logarithm of their number.
 * No memory is taken. An IPv6 address that maps an IPv4 address is another one. GTP_NONE: the address is not there, so a datagram from
 * it is of no peer. GTP_BAD_VALUE: as above. */
uint8_t gtp_places_find(gtp_places *places, const struct gtp_address *address, uint64_t *place);

#ifdef __cplusplus
}
#endif
#endif
