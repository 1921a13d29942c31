/* Each allocation of a run, and of each call that writes through memory, is refused in turn: the call says so, the same call once
 * more goes on, and all answers are those of a run in which none is refused. Linked with --wrap=malloc,--wrap=realloc. Prints how
 * many there were in the run. */
#include "check.h"

void *__real_malloc(size_t n);
void *__real_realloc(void *p, size_t n);
void *__wrap_malloc(size_t n);
void *__wrap_realloc(void *p, size_t n);
static long refused = -1, asked, faults;
static int counting;
static int refuse(void) { return counting && asked++ == refused; }
void *__wrap_malloc(size_t n) { return refuse() ? NULL : __real_malloc(n); }
void *__wrap_realloc(void *p, size_t n) { return refuse() ? NULL : __real_realloc(p, n); }

static uint8_t first_run[65536], this_run[65536];
static size_t first_len, this_len;
static void note(const void *p, size_t n) { CHECK(this_len + n <= sizeof this_run); memcpy(this_run + this_len, p, n); this_len += n; }

#define TWICE(call) do { uint8_t s_ = (call); if (s_ == GTP_NO_MEMORY) { faults++; s_ = (call); } CHECK(s_ == GTP_DONE); } while (0)

static struct gtp_told told;

static void pass(gtp_gateway *from, gtp_gateway *to) {
    uint8_t buffer[2048] = {0};
    struct gtp_datagram d;
    memset(&d, 0, sizeof d);
    while (gtp_gateway_take(from, buffer, sizeof buffer, &d) == GTP_DONE) {
        note(buffer, d.len);
        TWICE(gtp_gateway_receive(to, &d.from, d.plane, buffer, d.len, &told));
        note(&told.outcome, sizeof told.outcome);
    }
}

/* Addresses of peers, of which every fourth is there already: a look-up and what takes one away ask for no memory. */
static void places(void) {
    gtp_places p = {0};
    TWICE(gtp_places_new(&p));
    for (uint8_t k = 0; k < 40; k++) {
        struct gtp_address last = v4(k % 4 ? k : 0);
        TWICE(gtp_places_add(&p, &last));
        long before = asked;
        for (uint8_t i = 0; i <= k + 1; i++) {
            struct gtp_address address = v4(i);
            uint64_t place = 99;
            uint8_t status = gtp_places_find(&p, &address, &place);
            CHECK(i <= k && (i % 4 || !i) ? status == GTP_DONE && place == i : status == GTP_NONE && place == 99);
        }
        CHECK(asked == before);
    }
    long before = asked;
    for (int left = 40; left > 0; left--) CHECK(gtp_places_pop(&p) == GTP_DONE);
    CHECK(gtp_places_pop(&p) == GTP_NONE && gtp_places_free(&p) == GTP_DONE && asked == before);
}

static void run(void) {
    gtp_gateway serving = {0}, packet = {0};
    struct gtp_setup s = setup_of(GTP_SERVING, false), p = setup_of(GTP_PACKET, false);
    struct gtp_quality q = wish(1).quality;
    struct gtp_session wanted = wish(1);
    p.template_count = 1;                   /* a session of "ims" gets a second bearer in the same datagram */
    p.templates[0].quality = q; p.templates[0].access_point = 1; p.templates[0].tft_len = 3;
    memcpy(p.templates[0].tft, "\x21\x10\x00", 3);
    this_len = 0;
    places();
    TWICE(gtp_gateway_new(&serving, &s, text(""), 0));
    TWICE(gtp_gateway_new(&packet, &p, text("internet,ims"), 12));
    for (int k = 0; k < 2; k++) {
        TWICE(create(&serving, "001010123456789", 3, &told));
        uint32_t session = told.teid;
        pass(&serving, &packet);
        pass(&packet, &serving);
        CHECK(told.outcome.kind == GTP_OPENED);
        struct gtp_session_row row;
        memset(&row, 0, sizeof row);
        CHECK(gtp_gateway_session(&serving, session, &row) == GTP_DONE);
        TWICE(gtp_gateway_create_bearer(&packet, row.remote, &q, text("\x21\x10\x00"), 3, &told));
        pass(&packet, &serving);
        pass(&serving, &packet);
        TWICE(gtp_gateway_send_user(&serving, session + 1, text("x"), 1, &told));
        pass(&serving, &packet);
        TWICE(gtp_gateway_echo(&packet, &told));
        for (int t = 0; t < 61; t++) { TWICE(gtp_gateway_tick(&serving, &told)); TWICE(gtp_gateway_tick(&packet, &told)); note(&told.gave_up, 16); }
        pass(&packet, &serving);
        TWICE(gtp_gateway_delete_session(&serving, session, &told));
        pass(&serving, &packet);
        pass(&packet, &serving);
    }
    struct gtp_imsi subscriber = gtp_imsi_of("001010123456780");
    TWICE(gtp_gateway_create_session(&serving, &wanted, &subscriber, text("ims"), 3, &told));
    pass(&serving, &packet);
    pass(&packet, &serving);
    CHECK(told.outcome.kind == GTP_OPENED && told.second.kind == GTP_ANSWERED);
    pass(&serving, &packet);
    CHECK(told.outcome.kind == GTP_OPENED);
    CHECK(gtp_gateway_free(&serving) == GTP_DONE && gtp_gateway_free(&packet) == GTP_DONE);
}

/* The calls that write through memory: a user message, the body of each type of element, and elements as text. */
enum { WRITERS = 20 };

static uint8_t written(int writer, uint8_t *room, size_t len, uint64_t *size) {
    struct gtp_user_head packet = {0};
    struct gtp_imsi imsi = { 6, { 0, 0, 1, 0, 1, 1 } };
    struct gtp_cause cause = {0};
    struct gtp_apn name = { 9, "\x08internet" };
    struct gtp_ambr rates = { 1000, 1000 };
    struct gtp_paa allocation = {0};
    struct gtp_quality quality = wish(1).quality;
    struct gtp_network network = { { 0, 0, 1, 0, 1, 15 } };
    struct gtp_fteid end = {0};
    packet.kind = 255;
    cause.value = 16;
    allocation.pdn = 3;
    end.has_v4 = 1;
    switch (writer) {
    case 0: return gtp_user_write(room, len, &packet, text("packet"), 6, size);
    case 1: return gtp_imsi_write(room, len, &imsi, size);
    case 2: return gtp_cause_write(room, len, &cause, size);
    case 3: return gtp_recovery_write(room, len, 7, size);
    case 4: return gtp_apn_write(room, len, &name, size);
    case 5: return gtp_ambr_write(room, len, &rates, size);
    case 6: return gtp_ebi_write(room, len, 5, size);
    case 7: return gtp_paa_write(room, len, &allocation, size);
    case 8: return gtp_qos_write(room, len, &quality, size);
    case 9: return gtp_rat_write(room, len, 6, size);
    case 10: return gtp_network_write(room, len, &network, size);
    case 11: return gtp_fteid_write(room, len, &end, size);
    case 12: return gtp_charging_id_write(room, len, 9, size);
    case 13: return gtp_pdn_type_write(room, len, 1, size);
    case 14: return gtp_pti_write(room, len, 1, size);
    case 15: return gtp_selection_write(room, len, 1, size);
    case 16: return gtp_element_lines(room, len, 32, 1, 0, text("\x00\x01\x01\x21\x43\x65\x87\xf9"), 8, size);
    case 17: return gtp_element_json(room, len, 32, 77, 0, text("\x02\x00\x00"), 3, size);
    case 18: return gtp_element_lines(room, len, 35, 93, 0, text("\x49\x00\x01\x00\x05\x02\x00\x02\x00\x10\x00"), 11, size);
    default: return gtp_element_json(room, len, 35, 93, 0, text("\x49\x00\x01\x00\x05"), 5, size);
    }
}

/* A call that writes lacks memory exactly where an allocation was refused; it has then written nothing, and once more it writes. */
static void each_writer_is_refused(void) {
    uint8_t whole[4096] = {0}, room[4096], blank[4096];
    memset(blank, 0xaa, sizeof blank);
    for (int writer = 0; writer < WRITERS; writer++) {
        uint64_t octets = 0;
        asked = 0; refused = -1;
        counting = 1; uint8_t status = written(writer, whole, sizeof whole, &octets); counting = 0;
        CHECK(status == GTP_DONE && octets > 0);
        long all = asked;
        CHECK(all > 0);
        for (long at = 0; at < all; at++) {
            uint64_t size = 99;
            memcpy(room, blank, sizeof room);
            asked = 0; refused = at;
            counting = 1; status = written(writer, room, sizeof room, &size); counting = 0;
            CHECK(status == GTP_NO_MEMORY && size == 99 && !memcmp(room, blank, sizeof room));
            CHECK(written(writer, room, sizeof room, &size) == GTP_DONE && size == octets && !memcmp(room, whole, octets));
        }
    }
}

int main(void) {
    each_writer_is_refused();
    asked = 0; refused = -1;
    counting = 1; run(); counting = 0;
    long all = asked;
    memcpy(first_run, this_run, first_len = this_len);
    for (refused = 0; refused < all; refused++) {
        asked = 0; counting = 1; run(); counting = 0;
        CHECK(this_len == first_len && !memcmp(this_run, first_run, first_len));
    }
    CHECK(faults == all && all > 50);
    printf("%ld\n", all);
    return 0;
}
