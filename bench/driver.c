/* Measures the proved library beside the plain Rust baseline, both in this process and in turn: each turn takes
 * about a millisecond, and the best of all turns counts. Prints a line a measurement, its fields parted by '|',
 * which bench/run joins over several layouts of the program.
 *   driver TURNS HEX..     the datagrams, as hexadecimal digits, in the order of `enum datagram`
 *   driver run SESSIONS    one run of so many sessions, ten events each, whose instructions are counted from outside
 *   driver make SESSIONS   its events alone */
#define _POSIX_C_SOURCE 200809L
#include <malloc.h>
#include <stdbool.h>
#include <stddef.h>
#include <stdint.h>
#include <stdio.h>
#include <stdlib.h>
#include <string.h>
#include <time.h>

struct packet_parts {
    uint32_t teid, seq, npdu, first;
    size_t chain, payload;
};

uint64_t gtp_bench_view(const uint8_t *octets, size_t len);
uint64_t gtp_bench_view_values(const uint8_t *octets, size_t len);
uint64_t gtp_bench_decode(const uint8_t *octets, size_t len);
uint64_t gtp_bench_view_message(const uint8_t *octets, size_t len);
uint64_t gtp_bench_fault(const uint8_t *octets, size_t len);
uint64_t gtp_bench_encode(const uint8_t *octets, size_t len, uint32_t times);
uint64_t gtp_bench_packet(const uint8_t *octets, size_t len);
bool gtp_bench_packet_parts(const uint8_t *octets, size_t len, struct packet_parts *parts);
uint64_t gtp_bench_packet_view(const uint8_t *octets, size_t len);
bool gtp_bench_packet_view_parts(const uint8_t *octets, size_t len, struct packet_parts *parts);
uint64_t gtp_bench_packet_encode(const uint8_t *octets, size_t len, uint32_t times);
uint64_t gtp_bench_find_session(uint32_t sessions, uint32_t times);
uint64_t gtp_bench_change_newest(uint32_t sessions, uint32_t times);
uint64_t gtp_bench_change_oldest(uint32_t sessions, uint32_t times);
uint64_t gtp_bench_find_bearer(uint32_t sessions, uint32_t times);
uint64_t gtp_bench_change_bearer(uint32_t sessions, uint32_t times);
uint64_t gtp_bench_tables(uint32_t call, uint32_t sessions, uint32_t times);
uint64_t gtp_bench_look_up(uint32_t held, uint32_t times);
uint64_t gtp_bench_tick(uint32_t held, uint32_t times);
uint32_t gtp_bench_comparisons(uint32_t held);
uint64_t gtp_bench_make_sessions(const uint8_t *request, size_t len, uint32_t sessions, uint32_t times);
uint64_t gtp_bench_repeat_requests(const uint8_t *request, size_t len, uint32_t sessions, uint32_t times);
uint64_t gtp_bench_take_packets(const uint8_t *request, size_t len, const uint8_t *packet, size_t packet_len,
                                uint32_t sessions, uint32_t times);
uint64_t gtp_bench_take_responses(const uint8_t *response, size_t len, uint32_t sessions, uint32_t times, bool come);
uint64_t gtp_bench_run(uint32_t sessions, bool happen);
uint64_t gtp_bench_deliver(uint32_t sessions, uint32_t times);

uint64_t baseline_view(const uint8_t *octets, size_t len);
uint64_t baseline_decode(const uint8_t *octets, size_t len);
uint64_t baseline_fault(const uint8_t *octets, size_t len);
uint64_t baseline_encode(const uint8_t *octets, size_t len, uint32_t times);
uint64_t baseline_packet(const uint8_t *octets, size_t len);
bool baseline_packet_parts(const uint8_t *octets, size_t len, struct packet_parts *parts);
uint64_t baseline_packet_view(const uint8_t *octets, size_t len);
bool baseline_packet_view_parts(const uint8_t *octets, size_t len, struct packet_parts *parts);
uint64_t baseline_packet_encode(const uint8_t *octets, size_t len, uint32_t times);

/* bench/hand.c */
uint64_t hand_packet(const uint8_t *octets, size_t len);
bool hand_packet_parts(const uint8_t *octets, size_t len, struct packet_parts *parts);

enum datagram { SESSION_REQUEST, SESSION_RESPONSE, BEARER_REQUEST, BEARER_RESPONSE, ECHO_REQUEST, PACKET, PACKET_EXTENDED, DATAGRAMS };
enum { SLOTS = 1024, STRIDE = 192, LONGEST = 65536 + 64, TYPE_AT = 1 };

/* Many copies of a datagram; those of the control plane have sequence numbers of their own. */
static struct {
    size_t len;
    uint8_t octets[SLOTS][STRIDE];
} copies[DATAGRAMS];

static uint64_t sink;
static struct packet_parts parts;

static _Noreturn void stop(const char *why)
{
    fprintf(stderr, "bench: %s\n", why);
    exit(1);
}

static double now(void)
{
    struct timespec t;
    clock_gettime(CLOCK_MONOTONIC, &t);
    return (double)t.tv_sec * 1e9 + (double)t.tv_nsec;
}

/* A pass goes over all copies of a datagram once. Its calls are direct, so that no pointer stands between. */
#define ONCE(function)                                                     \
    static void function##_pass(enum datagram d)                           \
    {                                                                      \
        for (size_t i = 0; i < SLOTS; i++) {                               \
            uint64_t answer = function(copies[d].octets[i], copies[d].len); \
            if (answer == 0) stop(#function);                              \
            sink += answer;                                                \
        }                                                                  \
    }
#define PARTS(function)                                                                \
    static void function##_pass(enum datagram d)                                       \
    {                                                                                  \
        for (size_t i = 0; i < SLOTS; i++) {                                           \
            if (!function(copies[d].octets[i], copies[d].len, &parts)) stop(#function); \
            sink += parts.payload;                                                     \
        }                                                                              \
    }
#define OFTEN(function)                                                           \
    static void function##_pass(enum datagram d)                                  \
    {                                                                             \
        uint64_t answer = function(copies[d].octets[0], copies[d].len, SLOTS);    \
        if (answer != SLOTS * copies[d].len) stop(#function);                     \
        sink += answer;                                                           \
    }
ONCE(gtp_bench_view)
ONCE(gtp_bench_view_values)
ONCE(gtp_bench_decode)
ONCE(gtp_bench_view_message)
ONCE(gtp_bench_packet)
PARTS(gtp_bench_packet_parts)
ONCE(gtp_bench_packet_view)
PARTS(gtp_bench_packet_view_parts)
OFTEN(gtp_bench_encode)
OFTEN(gtp_bench_packet_encode)
ONCE(baseline_view)
ONCE(baseline_decode)
ONCE(baseline_packet)
PARTS(baseline_packet_parts)
ONCE(baseline_packet_view)
PARTS(baseline_packet_view_parts)
OFTEN(baseline_encode)
OFTEN(baseline_packet_encode)
ONCE(hand_packet)
PARTS(hand_packet_parts)

typedef void pass(enum datagram d);

/* The library's pass, and the baseline's in place and owned. */
#define VIEW gtp_bench_view_pass, baseline_view_pass
#define VALUES gtp_bench_view_values_pass, baseline_view_pass
#define READ gtp_bench_decode_pass, baseline_view_pass
#define OWN gtp_bench_decode_pass, baseline_decode_pass
#define MADE gtp_bench_view_message_pass, baseline_decode_pass
#define WRITE gtp_bench_encode_pass, baseline_encode_pass
/* The view of a G-PDU, called and inlined, and what stands beside it, called and inlined. */
#define SEEN(name, called, inlined)                                                                            \
    { "view called, G-PDU" name, PACKET, gtp_bench_packet_view_pass, called##_pass },                          \
    { "view called, G-PDU with extensions" name, PACKET_EXTENDED, gtp_bench_packet_view_pass, called##_pass }, \
    { "view inlined, G-PDU" name, PACKET, gtp_bench_packet_view_parts_pass, inlined##_pass },                  \
    { "view inlined, G-PDU with extensions" name, PACKET_EXTENDED, gtp_bench_packet_view_parts_pass, inlined##_pass }
static const struct {
    const char *name;
    enum datagram datagram;
    pass *library, *baseline;
} pairs[] = {
    { "view, Create Session Request", SESSION_REQUEST, VIEW },
    { "view, Create Session Response", SESSION_RESPONSE, VIEW },
    { "view, Create Bearer Request", BEARER_REQUEST, VIEW },
    { "view, Create Bearer Response", BEARER_RESPONSE, VIEW },
    { "view, Echo Request", ECHO_REQUEST, VIEW },
    { "view and four values, Create Session Request", SESSION_REQUEST, VALUES },
    { "decode, Create Session Request", SESSION_REQUEST, READ },
    { "decode, Create Session Response", SESSION_RESPONSE, READ },
    { "decode, Create Bearer Request", BEARER_REQUEST, READ },
    { "decode, Create Bearer Response", BEARER_RESPONSE, READ },
    { "decode, Echo Request", ECHO_REQUEST, READ },
    { "decode to owned, Create Session Request", SESSION_REQUEST, OWN },
    { "decode to owned, Create Session Response", SESSION_RESPONSE, OWN },
    { "decode to owned, Create Bearer Request", BEARER_REQUEST, OWN },
    { "decode to owned, Create Bearer Response", BEARER_RESPONSE, OWN },
    { "decode to owned, Echo Request", ECHO_REQUEST, OWN },
    { "view and its message, Create Session Request", SESSION_REQUEST, MADE },
    { "view and its message, Create Session Response", SESSION_RESPONSE, MADE },
    { "view and its message, Echo Request", ECHO_REQUEST, MADE },
    { "encode, Create Session Request", SESSION_REQUEST, WRITE },
    { "encode, Create Session Response", SESSION_RESPONSE, WRITE },
    { "encode, Create Bearer Request", BEARER_REQUEST, WRITE },
    { "encode, Create Bearer Response", BEARER_RESPONSE, WRITE },
    { "encode, Echo Request", ECHO_REQUEST, WRITE },
    { "decode called, G-PDU", PACKET, gtp_bench_packet_pass, baseline_packet_pass },
    { "decode called, G-PDU with extensions", PACKET_EXTENDED, gtp_bench_packet_pass, baseline_packet_pass },
    { "decode inlined, G-PDU", PACKET, gtp_bench_packet_parts_pass, baseline_packet_parts_pass },
    { "decode inlined, G-PDU with extensions", PACKET_EXTENDED, gtp_bench_packet_parts_pass, baseline_packet_parts_pass },
    SEEN("", baseline_packet, baseline_packet_parts),
    SEEN(", Rust view", baseline_packet_view, baseline_packet_view_parts),
    SEEN(", C by hand", hand_packet, hand_packet_parts),
    { "encode, G-PDU", PACKET, gtp_bench_packet_encode_pass, baseline_packet_encode_pass },
    { "encode, G-PDU with extensions", PACKET_EXTENDED, gtp_bench_packet_encode_pass, baseline_packet_encode_pass },
};
enum { PAIRS = sizeof pairs / sizeof *pairs };

static size_t octets_of(const char *digits, uint8_t *octets, size_t most)
{
    size_t len = strlen(digits) / 2;
    if (len > most) stop("a datagram is too long");
    for (size_t i = 0; i < len; i++) {
        char pair[3] = { digits[2 * i], digits[2 * i + 1], 0 };
        octets[i] = (uint8_t)strtoul(pair, NULL, 16);
    }
    return len;
}

static void copy(enum datagram d, const char *digits)
{
    uint8_t first[STRIDE];
    copies[d].len = octets_of(digits, first, STRIDE);
    size_t seq_at = first[0] & 8 ? 8 : 4;
    for (size_t i = 0; i < SLOTS; i++) {
        memcpy(copies[d].octets[i], first, copies[d].len);
        if (d < PACKET) {
            copies[d].octets[i][seq_at + 1] = (uint8_t)(i >> 8);
            copies[d].octets[i][seq_at + 2] = (uint8_t)i;
        }
    }
}

/* Whether these read a packet as the library decodes it. */
static void compare_view(const uint8_t *octets, size_t len, uint64_t (*called)(const uint8_t *, size_t),
                         bool (*inlined)(const uint8_t *, size_t, struct packet_parts *))
{
    struct packet_parts decoded = { 0 }, seen = { 0 };
    if (gtp_bench_packet_parts(octets, len, &decoded) != inlined(octets, len, &seen)) stop("views of packets are not alike");
    if (memcmp(&decoded, &seen, sizeof decoded) != 0) stop("parts of a view are not alike");
    if (gtp_bench_packet(octets, len) != called(octets, len)) stop("payloads of views are not alike");
}

/* Whether both answer alike: the same message, or the same fault with its place. */
static void compare(enum datagram d, const uint8_t *octets, size_t len)
{
    if (d < PACKET) {
        if (gtp_bench_fault(octets, len) != baseline_fault(octets, len)) stop("faults are not alike");
        if (gtp_bench_view(octets, len) != baseline_view(octets, len)) stop("views are not alike");
        if (gtp_bench_decode(octets, len) != baseline_decode(octets, len)) stop("messages are not alike");
        if (gtp_bench_view_message(octets, len) != gtp_bench_decode(octets, len)) stop("a view has another message");
        return;
    }
    struct packet_parts ours = { 0 }, theirs = { 0 };
    if (gtp_bench_packet_parts(octets, len, &ours) != baseline_packet_parts(octets, len, &theirs)) stop("packets are not alike");
    if (memcmp(&ours, &theirs, sizeof ours) != 0) stop("parts are not alike");
    if (gtp_bench_packet(octets, len) != baseline_packet(octets, len)) stop("payloads are not alike");
    compare_view(octets, len, gtp_bench_packet_view, gtp_bench_packet_view_parts);
    compare_view(octets, len, baseline_packet_view, baseline_packet_view_parts);
    compare_view(octets, len, hand_packet, hand_packet_parts);
}

/* Compares the answers for a datagram, each cut of it, and each change of one octet but the type. */
static long compare_all(enum datagram d)
{
    uint8_t octets[STRIDE];
    size_t len = copies[d].len;
    long compared = 0;
    for (size_t cut = 0; cut <= len; cut++, compared++) compare(d, copies[d].octets[0], cut);
    for (size_t at = 0; at < len; at++) {
        memcpy(octets, copies[d].octets[0], len);
        for (int value = 0; at != TYPE_AT && value < 256; value++, compared++) {
            octets[at] = (uint8_t)value;
            compare(d, octets, len);
        }
    }
    return compared;
}

static double turn(pass *run, enum datagram d, int passes)
{
    double start = now();
    for (int i = 0; i < passes; i++) run(d);
    return (now() - start) / ((double)passes * SLOTS);
}

static double least(double a, double b) { return a < b ? a : b; }

static void measure_pairs(int turns)
{
    double library[PAIRS], baseline[PAIRS];
    int passes[PAIRS];
    for (size_t k = 0; k < PAIRS; k++) {
        library[k] = turn(pairs[k].library, pairs[k].datagram, 1);
        baseline[k] = turn(pairs[k].baseline, pairs[k].datagram, 1);
        passes[k] = 1 + (int)(1e6 / (baseline[k] * SLOTS));
    }
    for (int t = 0; t < turns; t++)
        for (size_t k = 0; k < PAIRS; k++) {
            library[k] = least(library[k], turn(pairs[k].library, pairs[k].datagram, passes[k]));
            baseline[k] = least(baseline[k], turn(pairs[k].baseline, pairs[k].datagram, passes[k]));
        }
    for (size_t k = 0; k < PAIRS; k++)
        printf("pair|%s|%zu|%.2f|%.2f\n", pairs[k].name, copies[pairs[k].datagram].len, library[k], baseline[k]);
}

/* Writes the front of an element, whose body follows. */
static size_t put_front(uint8_t *at, uint8_t kind, size_t len, uint8_t instance)
{
    at[0] = kind;
    at[1] = (uint8_t)(len >> 8);
    at[2] = (uint8_t)len;
    at[3] = instance;
    return 4;
}

static size_t close_control(uint8_t *octets, size_t len)
{
    octets[2] = (uint8_t)((len - 4) >> 8);
    octets[3] = (uint8_t)(len - 4);
    return len;
}

enum { HEADER = 12, CONTEXT = 93, IDENTITY = 73, UNKNOWN = 250, RECOVERY_LEN = 5 };

/* Where the bearer context of a datagram begins. */
static size_t context_at(const uint8_t *octets, size_t len)
{
    size_t at = HEADER;
    while (at < len && octets[at] != CONTEXT) at += 4 + ((size_t)octets[at + 1] << 8 | octets[at + 2]);
    if (at >= len) stop("a datagram has no bearer context");
    return at;
}

static size_t unknown_elements(uint8_t *octets, size_t want)
{
    const uint8_t *first = copies[SESSION_REQUEST].octets[0];
    size_t own = copies[SESSION_REQUEST].len - HEADER, len = HEADER;
    memcpy(octets, first, HEADER);
    while (len + 5 + own <= want) {
        len += put_front(octets + len, UNKNOWN, 1, 0);
        octets[len++] = 7;
    }
    memcpy(octets + len, first + HEADER, own);
    return close_control(octets, len + own);
}

static size_t identities(uint8_t *octets, size_t want)
{
    static const uint8_t front[HEADER] = { 0x48, 99, 0, 0, 1, 0, 0, 1, 0, 0, 5, 0 };
    size_t len = HEADER;
    memcpy(octets, front, HEADER);
    while (len + 5 <= want) {
        len += put_front(octets + len, IDENTITY, 1, 1);
        octets[len++] = 5;
    }
    return close_control(octets, len);
}

static size_t contexts_beside(uint8_t *octets, size_t want)
{
    const uint8_t *first = copies[SESSION_REQUEST].octets[0];
    size_t len = copies[SESSION_REQUEST].len, at = context_at(first, len), size = len - RECOVERY_LEN - at;
    memcpy(octets, first, len);
    while (len + size <= want) {
        memcpy(octets + len, first + at, size);
        len += size;
    }
    return close_control(octets, len);
}

/* Nested contexts, in the one that the message's table names. */
static size_t contexts_within(uint8_t *octets, size_t want)
{
    const uint8_t *first = copies[SESSION_REQUEST].octets[0];
    size_t whole = copies[SESSION_REQUEST].len, at = context_at(first, whole), len = whole - RECOVERY_LEN;
    size_t own = len - at - 4, levels = (want - whole) / 4;
    memcpy(octets, first, len);
    put_front(octets + at, CONTEXT, own + 4 * levels, 0);
    for (size_t left = levels; left > 0; left--) len += put_front(octets + len, CONTEXT, 4 * (left - 1), 0);
    memcpy(octets + len, first + whole - RECOVERY_LEN, RECOVERY_LEN);
    return close_control(octets, len + RECOVERY_LEN);
}

static double time_once(uint64_t (*function)(const uint8_t *, size_t), const uint8_t *octets, size_t len)
{
    int times = (int)(200000 / len) + 1;
    double start = now();
    for (int i = 0; i < times; i++) sink += function(octets, len);
    return (now() - start) / times;
}

static void measure_growth(int turns)
{
    static const struct {
        const char *name;
        size_t (*make)(uint8_t *, size_t);
    } kinds[] = {
        { "unknown elements", unknown_elements },
        { "identities", identities },
        { "contexts beside each other", contexts_beside },
        { "nested contexts", contexts_within },
    };
    static uint8_t octets[LONGEST];
    for (size_t k = 0; k < sizeof kinds / sizeof *kinds; k++)
        for (size_t want = 1024; want <= 65536; want *= 2) {
            size_t len = kinds[k].make(octets, want);
            double view = 1e18, decode = 1e18, baseline = 1e18;
            compare(SESSION_REQUEST, octets, len);
            if (gtp_bench_view(octets, len) == 0) stop(kinds[k].name);
            for (int t = 0; t < turns; t++) {
                view = least(view, time_once(gtp_bench_view, octets, len));
                decode = least(decode, time_once(gtp_bench_decode, octets, len));
                baseline = least(baseline, time_once(baseline_decode, octets, len));
            }
            printf("grow|%s|%zu|%.2f|%.2f|%.2f\n", kinds[k].name, len, view / 1e3, decode / 1e3, baseline / 1e3);
        }
}

typedef uint64_t many(uint32_t count, uint32_t times);

/* The time of one of so many calls, without that of what they are called on, which is made first. */
static double time_many(many *function, uint32_t count, uint32_t times, int turns)
{
    double all = 1e18, none = 1e18;
    for (int t = 0; t < turns; t++) {
        double start = now();
        sink += function(count, 0);
        double between = now();
        sink += function(count, times);
        none = least(none, between - start);
        all = least(all, now() - between);
    }
    return (all - none) / times;
}

static void measure_tables(int turns)
{
    static const struct {
        const char *name;
        many *function;
        uint32_t few, most, times;
        bool counts; /* whether the answer is how often the call was made */
    } rows[] = {
        { "find a session by its own TEID", gtp_bench_find_session, 10, 1000, 50000, true },
        { "find a bearer by the peer's TEID", gtp_bench_find_bearer, 10, 1000, 50000, true },
        { "remove the newest session, add one", gtp_bench_change_newest, 10, 1000, 20000, true },
        { "remove the oldest session, add one", gtp_bench_change_oldest, 10, 1000, 1000, true },
        { "add a bearer, remove it", gtp_bench_change_bearer, 10, 1000, 20000, true },
        { "look up a held answer", gtp_bench_look_up, 10, 4096, 50000, true },
        { "a tick with nothing due", gtp_bench_tick, 10, 4096, 99000, false },
    };
    for (size_t k = 0; k < sizeof rows / sizeof *rows; k++) {
        double ns[2];
        uint32_t counts[2] = { rows[k].few, rows[k].most };
        for (int side = 0; side < 2; side++) {
            uint64_t wanted = rows[k].counts ? rows[k].times : 0;
            if (rows[k].function(counts[side], rows[k].times) != wanted) stop(rows[k].name);
            ns[side] = time_many(rows[k].function, counts[side], rows[k].times, turns);
        }
        printf("table|%s|%u|%u|%.2f|%.2f\n", rows[k].name, rows[k].few, rows[k].most, ns[0], ns[1]);
    }
    printf("count|most comparisons of a look-up|10|4096|%u|%u\n", gtp_bench_comparisons(10), gtp_bench_comparisons(4096));
}

/* The time of one of so many calls of the tables, without that of making them: the least of so many turns, and of 100 times as many
 * for few sessions. */
static double time_tables(uint32_t call, uint32_t sessions, uint32_t times, int turns)
{
    double all = 1e18, none = 1e18;
    for (int t = 0; t < (sessions > 1000 ? turns : 100 * turns); t++) {
        double start = now();
        sink += gtp_bench_tables(call, sessions, 0);
        double between = now();
        sink += gtp_bench_tables(call, sessions, times);
        none = least(none, between - start);
        all = least(all, now() - between);
    }
    return (all - none) / times;
}

/* Each call of the tables by how many sessions there are: the first so many of 10, 1,000, 100,000 and 1,000,000. */
static void print_tables(int sizes, int turns)
{
    static const uint32_t sessions[] = { 10, 1000, 100000, 1000000 };
    static const struct { const char *name; uint32_t call, times[4]; } rows[] = {
        { "get a bearer", 0, { 20000, 20000, 1000000, 4000000 } },
        { "find a bearer by the peer's TEID", 1, { 20000, 20000, 1000000, 1000000 } },
        { "find a bearer by session and identity", 2, { 20000, 20000, 1000000, 1000000 } },
        { "find the lowest free address", 3, { 20000, 20000, 1000000, 4000000 } },
        { "close the bearers of a session", 4, { 20000, 20000, 200000, 1000000 } },
        { "remove the bearers of a session", 5, { 10, 500, 20000, 20000 } },
        { "remove a session", 6, { 10, 500, 20000, 20000 } },
    };
    printf("\n%-46s", "tables: nanoseconds, by sessions");
    for (int k = 0; k < sizes; k++) printf("%10u", sessions[k]);
    for (size_t row = 0; row < sizeof rows / sizeof *rows; row++) {
        printf("\n%-46s", rows[row].name);
        for (int k = 0; k < sizes; k++) printf("%10.0f", time_tables(rows[row].call, sessions[k], rows[row].times[k], turns));
    }
    printf("\n");
}

/* What a gateway receives, so many times, once it has so many sessions. */
static uint64_t make_sessions(uint32_t sessions, uint32_t times)
{
    return gtp_bench_make_sessions(copies[SESSION_REQUEST].octets[0], copies[SESSION_REQUEST].len, sessions, times);
}

/* The same for sessions of both IP versions: the PDN type, the one octet of its element, is 3. */
static uint64_t make_sessions_of_both(uint32_t sessions, uint32_t times)
{
    enum { PDN_TYPE_AT = 71 };
    uint8_t request[STRIDE];
    memcpy(request, copies[SESSION_REQUEST].octets[0], copies[SESSION_REQUEST].len);
    request[PDN_TYPE_AT] = 3;
    return gtp_bench_make_sessions(request, copies[SESSION_REQUEST].len, sessions, times);
}

static uint64_t repeat_requests(uint32_t sessions, uint32_t times)
{
    return gtp_bench_repeat_requests(copies[SESSION_REQUEST].octets[0], copies[SESSION_REQUEST].len, sessions, times);
}

static uint64_t take_packets(uint32_t sessions, uint32_t times)
{
    return gtp_bench_take_packets(copies[SESSION_REQUEST].octets[0], copies[SESSION_REQUEST].len,
                                  copies[PACKET].octets[0], copies[PACKET].len, sessions, times);
}

static uint64_t take_responses(uint32_t sessions, uint32_t times)
{
    return gtp_bench_take_responses(copies[SESSION_RESPONSE].octets[0], copies[SESSION_RESPONSE].len, sessions, times, true);
}

/* All but the answers, which do not come. */
static uint64_t wait_for_responses(uint32_t sessions, uint32_t times)
{
    return gtp_bench_take_responses(copies[SESSION_RESPONSE].octets[0], copies[SESSION_RESPONSE].len, sessions, times, false);
}

/* A run has ten events a session, which send six datagrams. */
enum { EVENTS = 10, DATAGRAMS_SENT = 6, FEW_SESSIONS = 1000, MOST_SESSIONS = 10000, MOST_KEPT = 16667 };

/* At a number of sessions: so many stand before what is measured, which is done so many times. */
struct size {
    uint32_t sessions, before, times;
};

/* A further session is made at 0 to 19, and at 900 to 999: 10 and 950 in the middle. Answers open sessions that
 * stand already, so they come at 10 and at 1,000. */
static const struct {
    const char *name;
    many *function, *without; /* the same, without what is measured, where that is not to do it no times */
    struct size few, most;
} receives[] = {
    { "receive a Create Session Request", make_sessions, NULL, { 10, 0, 20 }, { 950, 900, 100 } },
    { "receive a Create Session Request, IPv4v6", make_sessions_of_both, NULL, { 10, 0, 20 }, { 950, 900, 100 } },
    { "receive a Create Session Response", take_responses, wait_for_responses, { 10, 0, 10 }, { 1000, 900, 100 } },
    { "receive a request once more", repeat_requests, NULL, { 10, 10, 20000 }, { 1000, 1000, 20000 } },
    { "receive a user packet", take_packets, NULL, { 10, 10, 50000 }, { 1000, 1000, 50000 } },
};
enum { RECEIVES = sizeof receives / sizeof *receives };

/* What is done before what is measured. */
static uint64_t done_before(size_t row, struct size size)
{
    return receives[row].without ? receives[row].without(size.before, size.times) : receives[row].function(size.before, 0);
}

#ifdef COUNT_ALLOCATIONS
/* What is asked of the C library, which the linker leads through here (--wrap): how often, and how many octets are
 * in use, now and at most. */
static uint64_t allocations;
static size_t in_use, most_in_use;
void *__real_malloc(size_t size);
void *__real_realloc(void *old, size_t size);
void __real_free(void *old);
void *__wrap_malloc(size_t size);
void *__wrap_realloc(void *old, size_t size);
void __wrap_free(void *old);

static void *used(void *block)
{
    allocations++;
    in_use += malloc_usable_size(block);
    if (in_use > most_in_use) most_in_use = in_use;
    return block;
}

void *__wrap_malloc(size_t size)
{
    return used(__real_malloc(size));
}

void *__wrap_realloc(void *old, size_t size)
{
    in_use -= malloc_usable_size(old);
    return used(__real_realloc(old, size));
}

void __wrap_free(void *old)
{
    in_use -= malloc_usable_size(old);
    __real_free(old);
}

static uint64_t allocations_of(size_t row, struct size size)
{
    uint64_t start = allocations;
    sink += done_before(row, size);
    uint64_t between = allocations;
    sink += receives[row].function(size.before, size.times);
    return (allocations - between) - (between - start);
}

/* Prints how many allocations a call makes, on average. */
static void count_allocations(void)
{
    for (size_t k = 0; k < RECEIVES; k++)
        printf("allocations|%s|%u|%u|%.2f|%.2f\n", receives[k].name, receives[k].few.sessions, receives[k].most.sessions,
               (double)allocations_of(k, receives[k].few) / receives[k].few.times,
               (double)allocations_of(k, receives[k].most) / receives[k].most.times);
}
#endif

#ifdef COUNT_ALLOCATIONS
/* The most octets that a run has in use, beyond those that its events have, for each event. */
static double octets_an_event(uint32_t sessions)
{
    most_in_use = in_use;
    sink += gtp_bench_run(sessions, false);
    size_t events = most_in_use;
    most_in_use = in_use;
    sink += gtp_bench_run(sessions, true);
    return (double)(most_in_use - events) / (EVENTS * (double)sessions);
}

static void count_octets(void)
{
    printf("allocations|octets an event of a run|%d|%d|%.1f|%.1f\n", EVENTS * FEW_SESSIONS, EVENTS * MOST_SESSIONS,
           octets_an_event(FEW_SESSIONS), octets_an_event(MOST_SESSIONS));
}
#endif

/* The time of an event in a run of so many sessions, ten events each. Each run begins without the memory of the one
 * before, so that a short one has no more of it at hand than a long one. */
static double time_run(uint32_t sessions, int turns)
{
    double all = 1e18, none = 1e18;
    if (gtp_bench_run(sessions, true) != sessions) stop("a packet of a run was not accepted");
    for (int t = 0; t < turns; t++) {
        malloc_trim(0);
        double start = now();
        sink += gtp_bench_run(sessions, false);
        malloc_trim(0);
        double between = now();
        sink += gtp_bench_run(sessions, true);
        none = least(none, between - start);
        all = least(all, now() - between);
    }
    return (all - none) / (EVENTS * (double)sessions);
}

/* The time of a delivery after so many sessions. */
static double time_deliveries(uint32_t sessions, int turns)
{
    enum { TIMES = 20000 };
    double all = 1e18, none = 1e18;
    if (gtp_bench_deliver(sessions, TIMES) != EVENTS * (uint64_t)sessions + TIMES) stop("an event of a run is missing");
    for (int t = 0; t < turns; t++) {
        double start = now();
        sink += gtp_bench_deliver(sessions, 0);
        double between = now();
        sink += gtp_bench_deliver(sessions, TIMES);
        none = least(none, between - start);
        all = least(all, now() - between);
    }
    return (all - none) / TIMES;
}

static void measure_worlds(int turns)
{
    printf("world|an event of a run, by events|%d|%d|%.1f|%.1f\n", EVENTS * FEW_SESSIONS, EVENTS * MOST_SESSIONS,
           time_run(FEW_SESSIONS, turns), time_run(MOST_SESSIONS, turns));
    printf("world|a delivery, by datagrams that are kept|%d|%d|%.1f|%.1f\n", DATAGRAMS_SENT * 2, DATAGRAMS_SENT * MOST_KEPT,
           time_deliveries(2, turns), time_deliveries(MOST_KEPT, turns));
}

/* The time of one of so many calls. */
static double time_received(size_t row, struct size size, int turns)
{
    double all = 1e18, none = 1e18;
    if (receives[row].function(size.before, size.times) != size.times) stop(receives[row].name);
    for (int t = 0; t < turns; t++) {
        double start = now();
        sink += done_before(row, size);
        double between = now();
        sink += receives[row].function(size.before, size.times);
        none = least(none, between - start);
        all = least(all, now() - between);
    }
    return (all - none) / size.times;
}

static void measure_gateways(int turns)
{
    for (size_t k = 0; k < RECEIVES; k++)
        printf("gateway|%s|%u|%u|%.2f|%.2f\n", receives[k].name, receives[k].few.sessions, receives[k].most.sessions,
               time_received(k, receives[k].few, turns), time_received(k, receives[k].most, turns));
}

int main(int count, char **words)
{
    if (count == 4) {
        print_tables(atoi(words[2]), atoi(words[3]));
        return sink == 1;
    }
    if (count == 3) return gtp_bench_run((uint32_t)atoi(words[2]), strcmp(words[1], "run") == 0) == 1;
    if (count != 2 + DATAGRAMS) stop("driver TURNS HEX..");
    int turns = atoi(words[1]);
    long compared = 0;
    for (enum datagram d = 0; d < DATAGRAMS; d++) copy(d, words[2 + d]);
#ifdef COUNT_ALLOCATIONS
    count_allocations();
    count_octets();
    return sink == 1;
#endif
    for (enum datagram d = 0; d < DATAGRAMS; d++) compared += compare_all(d);
    printf("alike|%ld\n", compared);
    measure_pairs(turns);
    measure_growth(turns / 4 + 1);
    measure_tables(turns / 4 + 1);
    measure_gateways(turns);
    measure_worlds(turns / 4 + 1);
    return sink == 1;
}
