/* Shows the elements of messages of the control plane, a line each of its input, 'control HEX', by the library: those that are whole,
 * from the end of the header on. Of each element its lines; with the word 'json' its JSON. A buffer that is an octet too small is as it
 * was, and the call says how much it needs. */
#include "check.h"

typedef uint8_t show(uint8_t *, size_t, uint8_t, uint8_t, uint8_t, const uint8_t *, size_t, uint64_t *);

static void put(show *shown, uint8_t message, const struct gtp_element *e, const uint8_t *body) {
    uint64_t size = 0, again = 0;
    uint8_t one = 0xaa;
    CHECK(shown(&one, 0, message, e->kind, e->instance, body, e->len, &size) == GTP_TOO_SMALL && size > 0 && one == 0xaa);
    uint8_t *buffer = malloc(size);
    CHECK(buffer != NULL);
    memset(buffer, 0xaa, size);
    CHECK(shown(buffer, size - 1, message, e->kind, e->instance, body, e->len, &again) == GTP_TOO_SMALL && again == size);
    for (uint64_t i = 0; i < size; i++) CHECK(buffer[i] == 0xaa);
    CHECK(shown(buffer, size, message, e->kind, e->instance, body, e->len, &again) == GTP_DONE && again == size);
    fwrite(buffer, 1, size, stdout);
    free(buffer);
}

static void put_name(uint8_t named(uint8_t *, size_t, uint8_t, uint64_t *), const char *what, uint8_t kind) {
    uint8_t buffer[64], blank[64];
    uint64_t size = 77;
    memset(buffer, 0xaa, sizeof buffer);
    memset(blank, 0xaa, sizeof blank);
    uint8_t status = named(buffer, sizeof buffer, kind, &size);
    if (status == GTP_NONE) { CHECK(size == 77 && !memcmp(buffer, blank, sizeof blank)); return; }
    CHECK(status == GTP_DONE && size > 0 && size < sizeof buffer);
    printf("%s %u %.*s\n", what, kind, (int)size, (const char *)buffer);
    CHECK(named(blank, size - 1, kind, &size) == GTP_TOO_SMALL && blank[0] == 0xaa);
}

/* The names of all types. */
static void put_names(void) {
    for (unsigned kind = 0; kind < 256; kind++) put_name(gtp_message_name, "message", (uint8_t)kind);
    for (unsigned kind = 0; kind < 256; kind++) put_name(gtp_element_name, "element", (uint8_t)kind);
}

static void bad_values(show *shown) {
    static uint8_t long_body[65536];
    uint8_t buffer[8] = { 0 };
    uint64_t size = 77;
    CHECK(shown(buffer, sizeof buffer, 32, 3, 16, long_body, 1, &size) == GTP_BAD_VALUE && size == 77);
    CHECK(shown(buffer, sizeof buffer, 32, 3, 0, long_body, 65536, &size) == GTP_BAD_VALUE && size == 77);
    CHECK(shown(buffer, sizeof buffer, 32, 255, 15, long_body, 65535, &size) == GTP_TOO_SMALL && size > 65535);
}

int main(int argc, char **argv) {
    static char line[200000];
    static uint8_t octets[100000];
    bool is_json = argc > 1 && !strcmp(argv[1], "json");
    unsigned count = 0;
    if (argc > 1 && !strcmp(argv[1], "names")) { put_names(); return 0; }
    bad_values(is_json ? gtp_element_json : gtp_element_lines);
    while (fgets(line, sizeof line, stdin)) {
        const char *digits = strchr(line, ' ') + 1;
        size_t len = strcspn(digits, "\n") / 2;
        for (size_t i = 0; i < len; i++) {
            unsigned octet = 0;
            if (sscanf(digits + 2 * i, "%2x", &octet) != 1) return 2;
            octets[i] = (uint8_t)octet;
        }
        printf("datagram %u\n", count++);
        uint64_t place = octets[0] & 8 ? 12 : 8;
        struct gtp_element e;
        memset(&e, 0, sizeof e);
        while (place <= len && gtp_element_next(octets, len, place, &e) == GTP_DONE) {
            put(is_json ? gtp_element_json : gtp_element_lines, octets[1], &e, octets + e.body_at);
            place = e.body_at + e.len;
        }
    }
    return 0;
}
