/* One call n times over, to and fro between the two halves of its inputs, and a number made of all answers: probe_ is Rattle, peer_ is C. */
#ifndef LOOPS_H
#define LOOPS_H

#include <stddef.h>
#include <stdint.h>

/* A camera record as bytes, its numbers little-endian:
     0 unit, 1 interface, 2 controls (4 bytes)
     6 EV's low limit (4), 10 high limit (4), 14 steps
    15 face's count, 16 addresses (15), 31 offers (15)
    46 metadata's maximum (4), 50 writable; 51 HDR's Auto
    52 throttle's minimum (4), 56 maximum (4), 60 step (4)
    64 streaming
    65 EV is held, 66 flags, 67 value (4)
    71 face by address (15)
    86 metadata is held, 87 value (4)
    91 HDR is held, 92 value (4)
    96 throttle is held, 97 mode (4), 101 percent (4)
   Where a setting is not held, a loop leaves its value's bytes as they are. */
enum { RECORD = 105 };

#define LOOPS(P) \
    uint64_t P##request(uint8_t *record, size_t record_len, const uint8_t *setups, size_t setups_len, const uint8_t *payloads, \
                        size_t payloads_len, uint8_t *reply, size_t room, size_t n); \
    uint64_t P##batch(uint8_t *record, size_t record_len, const uint8_t *batches, size_t len, uint8_t *out, size_t room, size_t n); \
    uint64_t P##streaming(uint8_t *record, size_t record_len, size_t n); \
    uint64_t P##load(uint8_t *record, size_t record_len, const uint8_t *snapshots, size_t len, size_t n); \
    uint64_t P##write(uint8_t *record, size_t record_len, uint8_t *out, size_t room, size_t n); \
    uint64_t P##sensor(uint8_t *record, size_t record_len, size_t n); \
    uint64_t P##form(const uint8_t *snapshots, size_t len, size_t n); \
    uint64_t P##merge(const uint8_t *firsts, size_t firsts_len, const uint8_t *seconds, size_t seconds_len, uint8_t *out, \
                      size_t room, size_t n); \
    uint64_t P##count(const uint8_t *blocks, size_t len, size_t n); \
    uint64_t P##item(const uint8_t *blocks, size_t len, size_t k, size_t n); \
    uint64_t P##view(const uint8_t *blocks, size_t len, size_t k, size_t n); \
    uint64_t P##append(uint8_t *buf, size_t room, uint32_t id, const uint8_t *payloads, size_t len, size_t n); \
    uint64_t P##header(const uint8_t *packets, size_t len, size_t n); \
    uint64_t P##check(const uint8_t *sets, size_t len, size_t n); \
    uint64_t P##property(const uint8_t *sets, size_t len, size_t k, size_t n);

LOOPS(probe_)
LOOPS(peer_)

#endif
