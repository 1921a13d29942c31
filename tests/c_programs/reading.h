/* Reads a datagram and all that lies in it, and writes it again. */
#ifndef READING_H
#define READING_H
#include "check.h"

typedef uint8_t read_number(const uint8_t *, size_t, uint32_t *);
static read_number *const NUMBERS[] = { gtp_recovery_read, gtp_ebi_read, gtp_rat_read, gtp_charging_id_read, gtp_pdn_type_read,
    gtp_pti_read, gtp_selection_read };

static uint8_t *block(const uint8_t *octets, size_t len) {
    uint8_t *copy = malloc(len ? len : 1);
    memcpy(copy, octets, len);
    return copy;
}

static bool is_value_status(uint8_t s) { return s == GTP_DONE || s == GTP_SHORT_VALUE || s == GTP_NO_VALUE; }

/* A room of every size below the text's is left as it is; then the text is written, and what is behind it is left as it is. */
#define EVERY_ROOM(len, call) do { \
    uint64_t size = 0; \
    for (uint64_t room = 0; room <= (len) + 4; room++) { \
        uint8_t *buffer = malloc(room ? room : 1); \
        memset(buffer, 0xa5, room ? room : 1); \
        uint8_t status = (call); \
        CHECK(status == (room < (len) ? GTP_TOO_SMALL : GTP_DONE) && size == (len)); \
        for (uint64_t i = room < (len) ? 0 : (len); i < room; i++) CHECK(buffer[i] == 0xa5); \
        if (room == (len)) memcpy(written, buffer, room); \
        free(buffer); \
    } } while (0)

typedef uint8_t write_number(uint8_t *, size_t, uint32_t, uint64_t *);
static write_number *const NUMBER_WRITES[] = { gtp_recovery_write, gtp_ebi_write, gtp_rat_write, gtp_charging_id_write,
    gtp_pdn_type_write, gtp_pti_write, gtp_selection_write };
static const uint8_t NUMBER_TYPES[] = { 3, 73, 82, 94, 99, 100, 128 };

/* Of each type of element, how many bodies were written again octet for octet. */
static unsigned same_bodies[256];

/* A value that was read is written to rooms of every size, and read again as the same. */
#define WRITE_AGAIN(kind, value, write, read, passed) do { \
    uint8_t none[1] = {0}, written[100] = {0}; \
    uint64_t needed = 0; \
    CHECK(write(none, 0, passed, &needed) == GTP_TOO_SMALL && needed >= 1 && needed <= len); \
    EVERY_ROOM(needed, write(buffer, room, passed, &size)); \
    uint8_t before[sizeof value]; \
    memcpy(before, &value, sizeof value); \
    CHECK(read(written, needed, &value) == GTP_DONE && !memcmp(before, &value, sizeof value)); \
    same_bodies[kind] += needed == len && !memcmp(written, body, len); \
} while (0)

#define AGAIN(kind, type, name) do { \
    struct type value; \
    memset(&value, 0, sizeof value); \
    if (name##_read(body, len, &value) == GTP_DONE) WRITE_AGAIN(kind, value, name##_write, name##_read, &value); \
} while (0)

/* What a body says in each form, written again. */
static void write_values(const uint8_t *body, size_t len) {
    AGAIN(1, gtp_imsi, gtp_imsi);
    AGAIN(2, gtp_cause, gtp_cause);
    AGAIN(71, gtp_apn, gtp_apn);
    AGAIN(72, gtp_ambr, gtp_ambr);
    AGAIN(79, gtp_paa, gtp_paa);
    AGAIN(80, gtp_quality, gtp_qos);
    AGAIN(83, gtp_network, gtp_network);
    AGAIN(87, gtp_fteid, gtp_fteid);
    for (size_t i = 0; i < sizeof NUMBERS / sizeof *NUMBERS; i++) {
        uint32_t value = 0;
        if (NUMBERS[i](body, len, &value) == GTP_DONE) WRITE_AGAIN(NUMBER_TYPES[i], value, NUMBER_WRITES[i], NUMBERS[i], value);
    }
}

/* Every form on every body, and on each of its cuts. */
static void read_values(const uint8_t *body, size_t len) {
    struct gtp_imsi imsi; struct gtp_cause cause; struct gtp_apn apn; struct gtp_ambr ambr; struct gtp_paa paa;
    struct gtp_quality qos; struct gtp_network network; struct gtp_fteid fteid; uint32_t number = 0;
    memset(&imsi, 0, sizeof imsi); memset(&cause, 0, sizeof cause); memset(&apn, 0, sizeof apn); memset(&ambr, 0, sizeof ambr);
    memset(&paa, 0, sizeof paa); memset(&qos, 0, sizeof qos); memset(&network, 0, sizeof network); memset(&fteid, 0, sizeof fteid);
    for (size_t n = 0; n <= len && n <= 32; n++) {
        size_t cut = n == 32 ? len : n;
        uint8_t *b = block(body, cut);
        CHECK(is_value_status(gtp_imsi_read(b, cut, &imsi)) && is_value_status(gtp_cause_read(b, cut, &cause)));
        CHECK(is_value_status(gtp_apn_read(b, cut, &apn)) && is_value_status(gtp_ambr_read(b, cut, &ambr)));
        CHECK(is_value_status(gtp_paa_read(b, cut, &paa)) && is_value_status(gtp_qos_read(b, cut, &qos)));
        CHECK(is_value_status(gtp_network_read(b, cut, &network)) && is_value_status(gtp_fteid_read(b, cut, &fteid)));
        for (size_t i = 0; i < sizeof NUMBERS / sizeof *NUMBERS; i++) CHECK(is_value_status(NUMBERS[i](b, cut, &number)));
        CHECK(imsi.count <= 15 && apn.len <= 100);
        free(b);
    }
}

/* The elements of a list, from a place on, one after the other, each written again in a list of the same length. */
static void read_elements(const uint8_t *octets, size_t end, uint64_t place, uint8_t *list, size_t room) {
    struct gtp_element e, first;
    uint64_t at = 0, size = 0;
    memset(&e, 0, sizeof e); memset(&first, 0, sizeof first);
    uint64_t from = place;
    uint8_t status;
    while ((status = gtp_element_next(octets, end, place, &e)) == GTP_DONE) {
        CHECK(e.at == place && e.body_at == place + 4 && e.body_at + e.len <= end);
        uint8_t found = gtp_element_first(octets, end, from, e.kind, e.instance, &first);
        CHECK(found == GTP_FAULTY || (found == GTP_DONE && first.at <= e.at && first.kind == e.kind));
        if (e.len <= 64) { read_values(octets + e.body_at, e.len); write_values(octets + e.body_at, e.len); }
        if (list) {
            CHECK(gtp_element_write(list, room, at, e.kind, 16, octets + e.body_at, e.len, &size) == GTP_BAD_VALUE);
            CHECK(gtp_element_write(list, at + 3 + e.len, at, e.kind, e.instance, octets + e.body_at, e.len, &size) == GTP_TOO_SMALL);
            CHECK(size == 4 + e.len);
            CHECK(gtp_element_write(list, room, at, e.kind, e.instance, octets + e.body_at, e.len, &size) == GTP_DONE);
            at += size;
        }
        place = e.body_at + e.len;
    }
    CHECK(status == (place == end ? GTP_NONE : GTP_FAULTY) && gtp_element_next(octets, end, end + 1, &e) == GTP_BAD_VALUE);
}

static void read_control(const uint8_t *octets, size_t len, bool again) {
    struct gtp_head head, back; struct gtp_fault fault;
    memset(&head, 0, sizeof head); memset(&back, 0, sizeof back); memset(&fault, 0, sizeof fault);
    uint8_t status = gtp_control_read(octets, len, &head, &fault);
    CHECK(status == GTP_DONE ? fault.number == 0 : status == GTP_FAULTY && fault.number >= 1 && fault.number <= 7);
    if (status != GTP_DONE) {
        for (size_t place = 0; place <= len && place < 40; place++) read_elements(octets, len, place, NULL, 0);
        return;
    }
    CHECK(head.list_at + head.list_len + head.second_len == len);
    const uint8_t *list = octets + head.list_at;
    uint8_t *same = block(list, head.list_len);
    if (head.has_elements) read_elements(octets, head.list_at + head.list_len, head.list_at, same, head.list_len);
    if (again) {
        uint64_t size = head.list_at + head.list_len;
        uint8_t *written = malloc(size);
        EVERY_ROOM(head.list_at + head.list_len, gtp_control_write(buffer, room, &head, list, head.list_len, &size));
        CHECK(gtp_control_read(written, size, &back, &fault) == GTP_DONE);
        CHECK(back.kind == head.kind && back.teid == head.teid && back.seq == head.seq && back.priority == head.priority);
        CHECK(!memcmp(written + head.list_at, list, head.list_len) && back.has_priority == head.has_priority);
        free(written);
    }
    free(same);
    if (head.second_len) read_control(octets + len - head.second_len, head.second_len, again);
}

/* What a message carries lies in the datagram: at its end; of a notification behind the type and the length of its list. */
static void check_place(const uint8_t *octets, size_t len, const struct gtp_user_head *head) {
    CHECK(head->payload_at <= len && head->payload_len <= len - head->payload_at);
    if (head->kind == 31) CHECK(octets[head->payload_at - 2] == 141 && octets[head->payload_at - 1] == head->payload_len);
    else if (head->kind == 1 || head->kind == 2 || head->kind == 26 || head->kind == 254) CHECK(!head->payload_at && !head->payload_len);
    else CHECK(head->payload_at + head->payload_len == len);
}

/* Whether a message that was written without its extension headers is the same but for them. */
static bool is_same_user(const struct gtp_user_head *head, const struct gtp_user_head *back) {
    return back->kind == head->kind && back->teid == head->teid && back->payload_len == head->payload_len
        && back->has_seq == head->has_seq && back->seq == head->seq && back->has_npdu == head->has_npdu && back->npdu == head->npdu
        && !memcmp(&back->peer, &head->peer, sizeof back->peer) && back->extensions_len == 0;
}

/* A message that was read is written, without its extension headers, and read again. */
static void write_user(const uint8_t *octets, size_t len, const struct gtp_user_head *head) {
    uint8_t none[1] = {0};
    uint64_t needed = 0;
    struct gtp_user_head back; struct gtp_fault fault;
    memset(&back, 0, sizeof back); memset(&fault, 0, sizeof fault);
    const uint8_t *carried = octets + head->payload_at;
    CHECK(gtp_user_write(none, 0, head, carried, head->payload_len, &needed) == GTP_TOO_SMALL && needed >= 8 && needed <= len + 4);
    uint8_t *written = malloc(needed);
    EVERY_ROOM(needed, gtp_user_write(buffer, room, head, carried, head->payload_len, &size));
    CHECK(gtp_user_read(written, needed, &back, &fault) == GTP_DONE && is_same_user(head, &back));
    CHECK(!memcmp(written + back.payload_at, carried, head->payload_len));
    free(written);
}

static void read_user(const uint8_t *octets, size_t len, bool again) {
    struct gtp_user_head head, back; struct gtp_fault fault;
    memset(&head, 0, sizeof head); memset(&back, 0, sizeof back); memset(&fault, 0, sizeof fault);
    uint8_t status = gtp_user_read(octets, len, &head, &fault);
    CHECK(status == GTP_DONE ? fault.number == 0 : status == GTP_FAULTY && fault.number >= 1 && fault.number <= 9);
    if (status != GTP_DONE) return;
    CHECK(head.payload_len + head.extensions_len <= len);
    check_place(octets, len, &head);
    if (again) write_user(octets, len, &head);
    if (!again || head.kind != 255) return;
    const uint8_t *packet = octets + head.payload_at;
    uint8_t *written = malloc(8 + head.payload_len);
    EVERY_ROOM(8 + head.payload_len, gtp_packet_write(buffer, room, head.teid, packet, head.payload_len, &size));
    CHECK(gtp_user_read(written, 8 + head.payload_len, &back, &fault) == GTP_DONE && back.teid == head.teid);
    CHECK(back.payload_len == head.payload_len && !memcmp(written + 8, packet, head.payload_len));
    free(written);
}
#endif
