/* The papers' rules once more, written by hand in C, to compare with: the camera is a struct that each call changes in place, and the tests
   are the same, in the same order, the test of the whole record in each call. */
#ifndef PEER_H
#define PEER_H

#include <stdbool.h>
#include <stddef.h>
#include <stdint.h>

enum {
    WRONG_STATE = 0x02, OUT_OF_RANGE = 0x04, INVALID_UNIT = 0x05, INVALID_CONTROL = 0x06, INVALID_REQUEST = 0x07,
    INVALID_VALUE = 0x08, UNKNOWN = 0xFF, NO_ROOM = 0x20, BAD_RECORD = 0x21, BAD_SNAPSHOT = 0x22, CUT_BATCH = 0x48
};
enum { EV = 0x03, FACE = 0x06, METADATA = 0x09, HDR = 0x0D, THROTTLE = 0x0E };
enum { ENDPOINTS = 15, ADDRESSES = 15, LONGEST_ANSWER = 1 + 8 * ENDPOINTS, ANSWER_ROOM = 3 + LONGEST_ANSWER };
enum { LONGEST_SNAPSHOT = 55 + 13 * ADDRESSES };

struct settings {
    bool ev_held, metadata_held, hdr_held, throttle_held;
    uint8_t ev_flags;
    uint8_t face[ADDRESSES]; /* by address, 0x81 first; 0 is none */
    int32_t ev_value;
    uint32_t metadata, hdr, throttle_mode, throttle_percent;
};

struct camera {
    uint8_t unit, interface;
    bool streaming, metadata_writable, hdr_auto;
    uint8_t ev_steps, face_count;
    uint8_t face_address[ENDPOINTS], face_offers[ENDPOINTS];
    uint32_t controls;
    int32_t ev_low, ev_high;
    uint32_t metadata_max, throttle_min, throttle_max, throttle_step;
    struct settings held;
};

uint8_t camera_request(struct camera *c, const uint8_t *setup, size_t setup_len, const uint8_t *payload, size_t len,
                       uint8_t *reply, size_t room, size_t *count);
uint8_t camera_batch(struct camera *c, const uint8_t *s, size_t len, uint8_t *out, size_t room, size_t *count);
uint8_t camera_streaming(struct camera *c, bool on);
uint8_t camera_load(struct camera *c, const uint8_t *s, size_t len);
uint8_t camera_write(const struct camera *c, uint8_t *out, size_t room, size_t *count);
uint8_t camera_sensor(const struct camera *c, int32_t *value);

bool snapshot_ok(const uint8_t *s, size_t len);
uint8_t snapshot_merge(const uint8_t *a, size_t a_len, const uint8_t *b, size_t b_len, uint8_t *out, size_t room, size_t *count);

struct item {
    uint32_t id;
    bool unknown;
    size_t at, len;
};
struct header {
    uint8_t flags;
    size_t at, len;
};
uint8_t frame_count(const uint8_t *block, size_t len, size_t *items);
uint8_t frame_item(const uint8_t *block, size_t len, size_t k, struct item *item);
uint8_t frame_append(uint8_t *buf, size_t room, size_t at, uint32_t id, const uint8_t *payload, size_t len, size_t *end);
uint8_t frame_header(const uint8_t *packet, size_t len, struct header *h);

struct property {
    size_t offset, kind, name_at, name_len, value_at, value_len;
    int interface; /* -1: none */
};
uint8_t set_check(const uint8_t *set, size_t length, size_t *offset);
uint8_t set_property(const uint8_t *set, size_t length, size_t k, struct property *p);

/* By pointer: gcc then makes one load of the bytes. */
static inline unsigned le16(const uint8_t *p) { return p[0] | p[1] << 8; }
static inline uint32_t le32(const uint8_t *p) { return p[0] | p[1] << 8 | p[2] << 16 | (uint32_t)p[3] << 24; }
static inline void put16(uint8_t *p, unsigned n)
{
    p[0] = (uint8_t)n;
    p[1] = (uint8_t)(n >> 8);
}
static inline void put32(uint8_t *p, uint32_t n)
{
    put16(p, n & 0xFFFF);
    put16(p + 2, n >> 16);
}

#endif
