/* G-PDUs read by hand in C, with the same checks and parts as the baseline; the fault's number is answered. */
#include <stdbool.h>
#include <stddef.h>
#include <stdint.h>
#include <string.h>

struct packet_parts {
    uint32_t teid, seq, npdu, first;
    size_t chain, payload;
};

struct packet {
    uint8_t kind, has_seq, has_npdu, npdu, first;
    uint16_t seq;
    uint32_t teid;
    const uint8_t *chain, *payload;
    size_t chain_len, payload_len;
};

static inline uint32_t be16(const uint8_t *at) { return (uint32_t)at[0] << 8 | at[1]; }

static inline uint32_t be32(const uint8_t *at)
{
    uint32_t value;
    memcpy(&value, at, 4);
    return __builtin_bswap32(value);
}

/* The octets of a chain that begins at the thirteenth octet with this type; 0 and the fault where it has one. */
static inline uint32_t read_chain(const uint8_t *octets, size_t len, uint8_t kind, size_t *end)
{
    size_t at = 12;
    while (kind != 0) {
        if (at >= len) return 6;
        size_t size = 4u * octets[at];
        if (size == 0) return 5;
        if (size > len - at) return 6;
        if (kind >= 128) return 7;
        at += size;
        kind = octets[at - 1];
    }
    *end = at;
    return 0;
}

static inline uint32_t read_packet(const uint8_t *octets, size_t len, struct packet *packet)
{
    size_t end = 8;
    if (len < 8) return 1;
    if (octets[0] >> 5 != 1) return 2;
    if ((octets[0] & 0x10) == 0) return 3;
    if (be16(octets + 2) != len - 8) return 4;
    *packet = (struct packet){ .kind = octets[1], .teid = be32(octets + 4), .chain = octets };
    if (octets[0] & 0x07) {
        if (len < 12) return 1;
        packet->has_seq = octets[0] >> 1 & 1;
        if (packet->has_seq) packet->seq = (uint16_t)be16(octets + 8);
        packet->has_npdu = octets[0] & 1;
        if (packet->has_npdu) packet->npdu = octets[10];
        packet->first = octets[0] & 0x04 ? octets[11] : 0;
        uint32_t fault = read_chain(octets, len, packet->first, &end);
        if (fault != 0) return fault;
        packet->chain = octets + 12;
        packet->chain_len = end - 12;
    }
    packet->payload = octets + end;
    packet->payload_len = len - end;
    return 0;
}

/* Not inlined, so that all of the answer is written to memory. */
__attribute__((noinline)) static uint32_t packet_read(const uint8_t *octets, size_t len, struct packet *packet)
{
    return read_packet(octets, len, packet);
}

uint64_t hand_packet(const uint8_t *octets, size_t len)
{
    struct packet packet;
    if (packet_read(octets, len, &packet) != 0 || packet.kind != 255) return 0;
    return 1 + packet.payload_len;
}

bool hand_packet_parts(const uint8_t *octets, size_t len, struct packet_parts *parts)
{
    struct packet packet;
    if (read_packet(octets, len, &packet) != 0 || packet.kind != 255) return false;
    parts->teid = packet.teid;
    parts->seq = packet.has_seq ? packet.seq : 65536;
    parts->npdu = packet.has_npdu ? packet.npdu : 256;
    parts->first = packet.first;
    parts->chain = packet.chain_len;
    parts->payload = packet.payload_len;
    return true;
}
