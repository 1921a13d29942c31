/* Shows each datagram of its input, a line each, 'control HEX' or 'user HEX', as `gtpshow decode -` does, by examples/c/decode.c. */
#define main decode_main
#include "../../examples/c/decode.c"
#undef main

int main(void) {
    static char line[200000];
    unsigned count = 0;
    (void)decode_main;
    while (fgets(line, sizeof line, stdin)) {
        const char *digits = strchr(line, ' ') + 1;
        size_t len = strcspn(digits, "\n") / 2;
        uint8_t *octets = malloc(len ? len : 1);
        if (!octets) return 3;
        for (size_t i = 0; i < len; i++) {
            unsigned octet = 0;
            if (sscanf(digits + 2 * i, "%2x", &octet) != 1) return 2;
            octets[i] = (uint8_t)octet;
        }
        printf("datagram %u\n", count++);
        if (line[0] == 'u') show_user(octets, len); else show_control(octets, len);
        free(octets);
    }
    return 0;
}
