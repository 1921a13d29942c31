/* Shows a datagram as `gtpshow decode` does: decode [--user] HEX. */
#include "gtp.h"
#include <stdio.h>
#include <stdlib.h>
#include <string.h>

static void put_octets(const uint8_t *octets, size_t len) {
    if (!len) putchar('-');
    for (size_t i = 0; i < len; i++) printf("%02x", octets[i]);
}

static void put_v4(const uint8_t *v4) { printf("%u.%u.%u.%u", v4[0], v4[1], v4[2], v4[3]); }

static void put_digits(const uint8_t *digits, size_t count) {
    for (size_t i = 0; i < count; i++) putchar('0' + digits[i]);
}

/* A name, its labels joined by dots. */
static void put_apn(const struct gtp_apn *apn) {
    for (size_t at = 0; at < apn->len; at += 1u + apn->octets[at])
        printf("%s%.*s", at ? "." : "", apn->octets[at], (const char *)apn->octets + at + 1);
}

typedef uint8_t read_number(const uint8_t *, size_t, uint32_t *);
static const struct { uint8_t kind; const char *name; read_number *read; } NUMBERS[] = {
    { 3, "recovery", gtp_recovery_read }, { 73, "ebi", gtp_ebi_read }, { 82, "rat", gtp_rat_read },
    { 94, "charging-id", gtp_charging_id_read }, { 99, "pdn-type", gtp_pdn_type_read }, { 100, "pti", gtp_pti_read },
    { 128, "selection", gtp_selection_read } };

/* Whether the body of an element of this type says something, which is shown then. */
static bool put_value(uint8_t kind, const uint8_t *body, size_t len) {
    struct gtp_imsi imsi = {0}; struct gtp_cause cause = {0}; struct gtp_apn apn = {0}; struct gtp_ambr ambr = {0};
    struct gtp_paa paa = {0}; struct gtp_quality qos = {0}; struct gtp_network network = {0}; struct gtp_fteid fteid = {0};
    if (kind == 1 && !gtp_imsi_read(body, len, &imsi)) { printf("imsi "); put_digits(imsi.digits, imsi.count); return true; }
    if (kind == 2 && !gtp_cause_read(body, len, &cause)) {
        printf("cause %u", cause.value);
        if (cause.has_offending) printf(" offending %u %u", cause.offending, cause.instance);
        return true;
    }
    if (kind == 71 && !gtp_apn_read(body, len, &apn)) { printf("apn "); put_apn(&apn); return true; }
    if (kind == 72 && !gtp_ambr_read(body, len, &ambr)) { printf("ambr %u %u", ambr.up, ambr.down); return true; }
    if (kind == 79 && !gtp_paa_read(body, len, &paa)) {
        if (paa.pdn == 1) { printf("paa ipv4 "); put_v4(paa.v4); }
        else if (paa.pdn == 2) { printf("paa ipv6 %u ", paa.prefix); put_octets(paa.v6, 16); }
        else if (paa.pdn == 3) { printf("paa ipv4v6 %u ", paa.prefix); put_octets(paa.v6, 16); putchar(' '); put_v4(paa.v4); }
        else printf("paa other %u", paa.pdn);
        return true;
    }
    if (kind == 80 && !gtp_qos_read(body, len, &qos)) {
        printf("qos pci %d pl %u pvi %d qci %u mbr %llu %llu gbr %llu %llu", qos.pci, qos.pl, qos.pvi, qos.qci,
               (unsigned long long)qos.mbr_up, (unsigned long long)qos.mbr_down, (unsigned long long)qos.gbr_up,
               (unsigned long long)qos.gbr_down);
        return true;
    }
    if (kind == 83 && !gtp_network_read(body, len, &network)) {
        printf("serving-network "); put_digits(network.digits, 3); putchar(' ');
        put_digits(network.digits + 3, network.digits[5] == 15 ? 2 : 3);
        return true;
    }
    if (kind == 84 && len <= 255) { printf("tft "); put_octets(body, len); return true; }
    if (kind == 87 && !gtp_fteid_read(body, len, &fteid)) {
        printf("fteid %u %08x", fteid.interface, fteid.teid);
        if (fteid.has_v4) { printf(" v4 "); put_v4(fteid.v4); }
        if (fteid.has_v6) { printf(" v6 "); put_octets(fteid.v6, 16); }
        return true;
    }
    for (size_t i = 0; i < sizeof NUMBERS / sizeof *NUMBERS; i++) {
        uint32_t number = 0;
        if (kind == NUMBERS[i].kind && !NUMBERS[i].read(body, len, &number)) { printf("%s %u", NUMBERS[i].name, number); return true; }
    }
    return false;
}

/* The elements from a place on to the end of the octets: those of a message, or, further in, those of a group. */
static void put_elements(const uint8_t *octets, size_t end, uint64_t place, int depth) {
    struct gtp_element e = {0};
    for (; gtp_element_next(octets, end, place, &e) == GTP_DONE; place = e.body_at + e.len) {
        const uint8_t *body = octets + e.body_at;
        struct gtp_element inner = {0};
        printf("%sie %u %u ", depth ? "  " : "", e.kind, e.instance);
        if (!depth && e.kind == 93 && gtp_element_first(octets, e.body_at + e.len, e.body_at, 0, 0, &inner) != GTP_FAULTY) {
            puts("bearer-context");
            put_elements(octets, e.body_at + e.len, e.body_at, depth + 1);
            continue;
        }
        if (!put_value(e.kind, body, e.len)) { printf("octets "); put_octets(body, e.len); }
        putchar('\n');
    }
}

static const char *message_name(uint8_t kind) {
    switch (kind) {
        case 1: return "echo-request"; case 2: return "echo-response"; case 3: return "version-not-supported";
        case 32: return "create-session-request"; case 33: return "create-session-response";
        case 36: return "delete-session-request"; case 37: return "delete-session-response";
        case 95: return "create-bearer-request"; case 96: return "create-bearer-response";
        case 99: return "delete-bearer-request"; case 100: return "delete-bearer-response";
        default: return "other";
    }
}

static int put_control_fault(const struct gtp_fault *f) {
    printf("fault H%u", f->number);
    if (f->number == 1) printf(" held %llu", (unsigned long long)f->held);
    if (f->number == 2) printf(" version %u", f->version);
    if (f->number == 3) printf(" stated %llu held %llu", (unsigned long long)f->stated, (unsigned long long)f->held);
    if (f->number == 4) printf(" type %u", f->message);
    if (f->number == 5) printf(" at %llu", (unsigned long long)f->at);
    if (f->number == 6) printf(" type %u instance %u %s", f->element, f->instance, f->conditional ? "conditional" : "mandatory");
    if (f->number == 7) {
        printf(" I%u", f->detail);
        if (f->detail != 1) printf(" type %u instance %u", f->element, f->instance);
        printf(" at %llu", (unsigned long long)f->at);
    }
    putchar('\n');
    return 1;
}

static int show_control(const uint8_t *octets, size_t len) {
    struct gtp_head head = {0};
    struct gtp_fault fault = {0};
    if (gtp_control_read(octets, len, &head, &fault) != GTP_DONE) return put_control_fault(&fault);
    printf("gtpv2 type %u %s", head.kind, message_name(head.kind));
    if (head.has_teid) printf(" teid %08x", head.teid);
    printf(" seq %u", head.seq);
    if (head.has_priority) printf(" priority %u", head.priority);
    putchar('\n');
    if (head.has_elements) put_elements(octets, head.list_at + head.list_len, head.list_at, 0);
    else { printf("octets "); put_octets(octets + head.list_at, head.list_len); putchar('\n'); }
    return head.second_len ? show_control(octets + len - head.second_len, head.second_len) : 0;
}

static int put_user_fault(const struct gtp_fault *f) {
    printf("fault U%u", f->number);
    if (f->number == 1) printf(" held %llu", (unsigned long long)f->held);
    if (f->number == 2) printf(" version %u", f->version);
    if (f->number == 4) printf(" stated %llu held %llu", (unsigned long long)f->stated, (unsigned long long)f->held);
    if (f->number == 5 || f->number == 6 || f->number == 9) printf(" at %llu", (unsigned long long)f->at);
    if (f->number == 7) printf(" type %02x", f->element);
    if (f->number == 8) printf(" type %u", f->element);
    putchar('\n');
    return 1;
}

/* The chain of extension headers: a type, a length in fours, what it carries, and the type of the next. */
static void put_extensions(const uint8_t *chain, size_t len, uint8_t kind) {
    for (size_t at = 0; at < len; at += 4u * chain[at]) {
        printf("ext %02x ", kind);
        put_octets(chain + at + 1, 4u * chain[at] - 2);
        putchar('\n');
        kind = chain[at + 4u * chain[at] - 1];
    }
}

static int show_user(const uint8_t *octets, size_t len) {
    struct gtp_user_head head;
    struct gtp_fault fault = {0};
    memset(&head, 0, sizeof head);
    if (gtp_user_read(octets, len, &head, &fault) != GTP_DONE) return put_user_fault(&fault);
    bool named = head.kind == 1 || head.kind == 2 || head.kind == 26 || head.kind == 31;
    printf("gtpu type %u %s", head.kind, head.kind == 26 ? "error-indication" : head.kind == 31 ? "supported-extensions" :
           head.kind == 254 ? "end-marker" : head.kind == 255 ? "g-pdu" : named ? message_name(head.kind) : "other");
    if (!named) printf(" teid %08x", head.teid);
    if (head.has_seq) printf(" seq %u", head.seq);
    if (head.has_npdu) printf(" npdu %u", head.npdu);
    putchar('\n');
    if (head.extensions_len) put_extensions(octets + 12, head.extensions_len, head.extension);
    if (head.kind == 26) {
        printf("teid %08x\npeer ", head.teid);
        if (head.peer.version == 4) put_v4(head.peer.octets); else put_octets(head.peer.octets, 16);
        putchar('\n');
    } else if (!named || head.kind == 31) {
        if (head.kind == 254) return 0;
        printf("%s", head.kind == 255 ? "payload " : head.kind == 31 ? "types " : "octets ");
        put_octets(octets + head.payload_at, head.payload_len);
        putchar('\n');
    }
    return 0;
}

int main(int argc, char **argv) {
    bool user = argc == 3 && !strcmp(argv[1], "--user");
    if (argc != (user ? 3 : 2)) { fputs("usage: decode [--user] HEX\n", stderr); return 2; }
    const char *digits = argv[argc - 1];
    size_t len = strlen(digits) / 2;
    uint8_t *octets = malloc(len ? len : 1);
    if (!octets) return 3;
    for (size_t i = 0; i < len; i++) {
        unsigned octet;
        if (sscanf(digits + 2 * i, "%2x", &octet) != 1) { fputs("bad hex\n", stderr); free(octets); return 2; }
        octets[i] = (uint8_t)octet;
    }
    int status = user ? show_user(octets, len) : show_control(octets, len);
    free(octets);
    return status;
}
