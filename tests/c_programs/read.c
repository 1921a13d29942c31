/* Reads the datagrams of its input, a line each, 'control HEX' or 'user HEX', with each of their cuts in a block of its own
 * length, and writes those of the control plane and the G-PDUs again, and what the bodies of elements say, to a room of every size
 * from 0 up. Of each form a body of these datagrams is written again octet for octet. Then each octet gets each value: what is a
 * message is written, and read again as the same. A line 'body TYPE BODY AGAIN' is a row of tests/lines/bodies. */
#include "reading.h"

/* So long is the longest datagram of the input of which each octet gets each value, and so much room has what is written. */
enum { MOST = 200, ROOM = 208 };

static void control_again(const uint8_t *octets, size_t len) {
    uint8_t written[ROOM] = {0};
    struct gtp_head head, back; struct gtp_fault fault;
    uint64_t size = 0;
    memset(&head, 0, sizeof head); memset(&back, 0, sizeof back); memset(&fault, 0, sizeof fault);
    if (gtp_control_read(octets, len, &head, &fault) != GTP_DONE) return;
    CHECK(gtp_control_write(written, sizeof written, &head, octets + head.list_at, head.list_len, &size) == GTP_DONE);
    CHECK(gtp_control_read(written, size, &back, &fault) == GTP_DONE && back.second_len == 0);
    CHECK(back.kind == head.kind && back.has_teid == head.has_teid && back.teid == head.teid && back.seq == head.seq);
    CHECK(back.has_priority == head.has_priority && back.priority == head.priority && back.list_len == head.list_len);
    CHECK(!memcmp(written + back.list_at, octets + head.list_at, head.list_len));
    if (head.second_len) control_again(octets + len - head.second_len, head.second_len);
}

static void user_again(const uint8_t *octets, size_t len) {
    uint8_t written[ROOM] = {0};
    struct gtp_user_head head, back; struct gtp_fault fault;
    uint64_t size = 0;
    memset(&head, 0, sizeof head); memset(&back, 0, sizeof back); memset(&fault, 0, sizeof fault);
    if (gtp_user_read(octets, len, &head, &fault) != GTP_DONE) return;
    check_place(octets, len, &head);
    const uint8_t *carried = octets + head.payload_at;
    CHECK(gtp_user_write(written, sizeof written, &head, carried, head.payload_len, &size) == GTP_DONE);
    CHECK(gtp_user_read(written, size, &back, &fault) == GTP_DONE && is_same_user(&head, &back));
    CHECK(!memcmp(written + back.payload_at, carried, head.payload_len));
}

/* Each octet of a datagram gets each value. */
static void each_value(uint8_t *octets, size_t len, bool user) {
    for (size_t place = 0; place < len; place++) {
        uint8_t first = octets[place];
        for (unsigned value = 0; value < 256; value++) {
            octets[place] = (uint8_t)value;
            if (user) user_again(octets, len); else control_again(octets, len);
        }
        octets[place] = first;
    }
}

/* The octets of the digits up to a blank or the end of the line; '-' is none. */
static uint8_t *octets_of(const char *digits, size_t *len) {
    size_t count = strcspn(digits, " \n");
    CHECK(count % 2 == 0 || *digits == '-');
    *len = count / 2;
    uint8_t *octets = malloc(*len ? *len : 1);
    for (size_t i = 0; i < *len; i++) { unsigned octet; CHECK(sscanf(digits + 2 * i, "%2x", &octet) == 1); octets[i] = (uint8_t)octet; }
    return octets;
}

#define BODY(number, type, name) case number: { \
    struct type value; \
    memset(&value, 0, sizeof value); \
    uint8_t status = name##_read(body, len, &value); \
    return status == GTP_DONE ? name##_write(written, ROOM, &value, size) : status; }

/* Writes what a body says. */
static uint8_t body_again(unsigned kind, const uint8_t *body, size_t len, uint8_t *written, uint64_t *size) {
    switch (kind) {
    BODY(1, gtp_imsi, gtp_imsi)
    BODY(2, gtp_cause, gtp_cause)
    BODY(71, gtp_apn, gtp_apn)
    BODY(72, gtp_ambr, gtp_ambr)
    BODY(79, gtp_paa, gtp_paa)
    BODY(80, gtp_quality, gtp_qos)
    BODY(83, gtp_network, gtp_network)
    BODY(87, gtp_fteid, gtp_fteid)
    }
    for (size_t i = 0; i < sizeof NUMBERS / sizeof *NUMBERS; i++) {
        uint32_t value = 0;
        if (NUMBER_TYPES[i] != kind) continue;
        uint8_t status = NUMBERS[i](body, len, &value);
        return status == GTP_DONE ? NUMBER_WRITES[i](written, ROOM, value, size) : status;
    }
    return GTP_BAD_VALUE;
}

/* Whether a row says what is written again for a body. */
static bool is_body(const char *row) {
    uint8_t written[ROOM] = {0};
    uint64_t size = 0;
    size_t len, wanted_len;
    const char *digits = strchr(row, ' ') + 1, *again = strchr(digits, ' ') + 1;
    uint8_t *body = octets_of(digits, &len);
    uint8_t status = body_again((unsigned)atoi(row), body, len, written, &size);
    free(body);
    if (!strncmp(again, "short", 5)) return status == GTP_SHORT_VALUE;
    if (!strncmp(again, "none", 4)) return status == GTP_NO_VALUE;
    uint8_t *wanted = octets_of(again, &wanted_len);
    bool is_same = status == GTP_DONE && size == wanted_len && !memcmp(written, wanted, wanted_len);
    free(wanted);
    return is_same;
}

int main(void) {
    static char line[200000];
    unsigned count = 0, bodies = 0;
    while (fgets(line, sizeof line, stdin)) {
        bool user = line[0] == 'u';
        char *digits = strchr(line, ' ') + 1;
        if (line[0] == 'b') {
            if (!is_body(digits)) { printf("%s", line); return 1; }
            bodies++;
            continue;
        }
        size_t len;
        uint8_t *octets = octets_of(digits, &len);
        for (size_t n = 0; n <= len; n++) {
            uint8_t *cut = block(octets, n);
            if (user) read_user(cut, n, n == len); else read_control(cut, n, n == len && len < 2000);
            free(cut);
        }
        if (len <= MOST) each_value(octets, len, user);
        free(octets);
        count++;
    }
    static const uint8_t OTHERS[] = { 1, 2, 71, 72, 79, 80, 83, 87 };
    for (size_t i = 0; i < sizeof OTHERS; i++) CHECK(same_bodies[OTHERS[i]]);
    for (size_t i = 0; i < sizeof NUMBER_TYPES; i++) CHECK(same_bodies[NUMBER_TYPES[i]]);
    CHECK(count && bodies);
    printf("%u\n", count);
    return 0;
}
