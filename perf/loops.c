/* The peer in the loops of perf/probe. */
#include "loops.h"
#include "peer.h"

#include <string.h>

static uint64_t mix(uint64_t sum, uint64_t x) { return sum << 5 ^ x; }

static const uint8_t *half(const uint8_t *s, size_t len, size_t second) { return second ? s + len / 2 : s; }

/* Of an odd number the second half has one more. */
static size_t half_len(size_t len, size_t second) { return second ? len - len / 2 : len / 2; }

static struct camera get(const uint8_t *s)
{
    struct camera c = {0};

    c.unit = s[0];
    c.interface = s[1];
    c.controls = le32(s + 2);
    c.ev_low = (int32_t)le32(s + 6);
    c.ev_high = (int32_t)le32(s + 10);
    c.ev_steps = s[14];
    c.face_count = s[15];
    memcpy(c.face_address, s + 16, ENDPOINTS);
    memcpy(c.face_offers, s + 31, ENDPOINTS);
    c.metadata_max = le32(s + 46);
    c.metadata_writable = s[50] != 0;
    c.hdr_auto = s[51] != 0;
    c.throttle_min = le32(s + 52);
    c.throttle_max = le32(s + 56);
    c.throttle_step = le32(s + 60);
    c.streaming = s[64] != 0;
    c.held.ev_held = s[65] != 0;
    c.held.ev_flags = s[66];
    c.held.ev_value = (int32_t)le32(s + 67);
    memcpy(c.held.face, s + 71, ADDRESSES);
    c.held.metadata_held = s[86] != 0;
    c.held.metadata = le32(s + 87);
    c.held.hdr_held = s[91] != 0;
    c.held.hdr = le32(s + 92);
    c.held.throttle_held = s[96] != 0;
    c.held.throttle_mode = le32(s + 97);
    c.held.throttle_percent = le32(s + 101);
    return c;
}

static void put(const struct camera *c, uint8_t *s)
{
    const struct settings *h = &c->held;

    s[64] = c->streaming;
    s[65] = h->ev_held;
    if (h->ev_held) {
        s[66] = h->ev_flags;
        put32(s + 67, (uint32_t)h->ev_value);
    }
    memcpy(s + 71, h->face, ADDRESSES);
    s[86] = h->metadata_held;
    if (h->metadata_held)
        put32(s + 87, h->metadata);
    s[91] = h->hdr_held;
    if (h->hdr_held)
        put32(s + 92, h->hdr);
    s[96] = h->throttle_held;
    if (h->throttle_held) {
        put32(s + 97, h->throttle_mode);
        put32(s + 101, h->throttle_percent);
    }
}

uint64_t peer_request(uint8_t *record, size_t record_len, const uint8_t *setups, size_t setups_len, const uint8_t *payloads,
                      size_t payloads_len, uint8_t *reply, size_t room, size_t n)
{
    struct camera c = get(record);
    uint64_t sum = 0;

    (void)record_len;
    for (size_t i = 0, second = 0; i < n; i++, second ^= 1) {
        size_t count;
        uint8_t code = camera_request(&c, half(setups, setups_len, second), half_len(setups_len, second),
                                      half(payloads, payloads_len, second), half_len(payloads_len, second), reply, room, &count);
        sum = mix(mix(sum, code), count);
    }
    put(&c, record);
    return sum;
}

uint64_t peer_batch(uint8_t *record, size_t record_len, const uint8_t *batches, size_t len, uint8_t *out, size_t room, size_t n)
{
    struct camera c = get(record);
    uint64_t sum = 0;

    (void)record_len;
    for (size_t i = 0, second = 0; i < n; i++, second ^= 1) {
        size_t count;
        uint8_t code = camera_batch(&c, half(batches, len, second), half_len(len, second), out, room, &count);
        sum = mix(mix(sum, code), count);
    }
    put(&c, record);
    return sum;
}

uint64_t peer_streaming(uint8_t *record, size_t record_len, size_t n)
{
    struct camera c = get(record);
    uint64_t sum = 0;

    (void)record_len;
    for (size_t i = 0, second = 0; i < n; i++, second ^= 1)
        sum = mix(mix(sum, camera_streaming(&c, second)), 0);
    put(&c, record);
    return sum;
}

uint64_t peer_load(uint8_t *record, size_t record_len, const uint8_t *snapshots, size_t len, size_t n)
{
    struct camera c = get(record);
    uint64_t sum = 0;

    (void)record_len;
    for (size_t i = 0, second = 0; i < n; i++, second ^= 1)
        sum = mix(mix(sum, camera_load(&c, half(snapshots, len, second), half_len(len, second))), 0);
    put(&c, record);
    return sum;
}

uint64_t peer_write(uint8_t *record, size_t record_len, uint8_t *out, size_t room, size_t n)
{
    struct camera c = get(record);
    uint64_t sum = 0;

    (void)record_len;
    for (size_t i = 0; i < n; i++) {
        size_t count;
        uint8_t code = camera_write(&c, out, room, &count);
        sum = mix(mix(sum, code), count);
    }
    put(&c, record);
    return sum;
}

uint64_t peer_sensor(uint8_t *record, size_t record_len, size_t n)
{
    struct camera c = get(record);
    uint64_t sum = 0;

    (void)record_len;
    for (size_t i = 0, second = 0; i < n; i++, second ^= 1) {
        int32_t value;
        uint8_t code = camera_sensor(&c, &value);
        sum = mix(mix(sum, code), (uint32_t)value);
        c.streaming = second;
    }
    put(&c, record);
    return sum;
}

uint64_t peer_form(const uint8_t *snapshots, size_t len, size_t n)
{
    uint64_t sum = 0;

    for (size_t i = 0, second = 0; i < n; i++, second ^= 1)
        sum = mix(sum, snapshot_ok(half(snapshots, len, second), half_len(len, second)) ? 0 : BAD_SNAPSHOT);
    return sum;
}

uint64_t peer_merge(const uint8_t *firsts, size_t firsts_len, const uint8_t *seconds, size_t seconds_len, uint8_t *out, size_t room,
                    size_t n)
{
    uint64_t sum = 0;

    for (size_t i = 0, second = 0; i < n; i++, second ^= 1) {
        size_t count;
        uint8_t code = snapshot_merge(half(firsts, firsts_len, second), half_len(firsts_len, second),
                                      half(seconds, seconds_len, second), half_len(seconds_len, second), out, room, &count);
        sum = mix(mix(sum, code), count);
    }
    return sum;
}

uint64_t peer_count(const uint8_t *blocks, size_t len, size_t n)
{
    uint64_t sum = 0;

    for (size_t i = 0, second = 0; i < n; i++, second ^= 1) {
        size_t items;
        uint8_t code = frame_count(half(blocks, len, second), half_len(len, second), &items);
        sum = mix(mix(sum, code), items);
    }
    return sum;
}

uint64_t peer_item(const uint8_t *blocks, size_t len, size_t k, size_t n)
{
    uint64_t sum = 0;

    for (size_t i = 0, second = 0; i < n; i++, second ^= 1) {
        struct item f;
        uint8_t code = frame_item(half(blocks, len, second), half_len(len, second), k, &f);
        sum = mix(mix(mix(mix(mix(sum, code), f.id), f.unknown), f.at), f.len);
    }
    return sum;
}

uint64_t peer_view(const uint8_t *blocks, size_t len, size_t k, size_t n)
{
    uint64_t sum = 0;

    for (size_t i = 0, second = 0; i < n; i++, second ^= 1) {
        struct item f;
        const uint8_t *block = half(blocks, len, second);
        uint8_t code = frame_item(block, half_len(len, second), k, &f);
        sum = mix(mix(mix(mix(mix(sum, code), f.id), f.unknown), f.len), f.len ? block[f.at] : 0);
    }
    return sum;
}

uint64_t peer_append(uint8_t *buf, size_t room, uint32_t id, const uint8_t *payloads, size_t len, size_t n)
{
    uint64_t sum = 0;
    size_t at = 0;

    for (size_t i = 0, second = 0; i < n; i++, second ^= 1) {
        uint8_t code = frame_append(buf, room, at, id, half(payloads, len, second), half_len(len, second), &at);
        sum = mix(mix(sum, code), at);
    }
    return sum;
}

uint64_t peer_header(const uint8_t *packets, size_t len, size_t n)
{
    uint64_t sum = 0;

    for (size_t i = 0, second = 0; i < n; i++, second ^= 1) {
        struct header h;
        uint8_t code = frame_header(half(packets, len, second), half_len(len, second), &h);
        sum = mix(mix(mix(mix(sum, code), h.flags), h.at), h.len);
    }
    return sum;
}

uint64_t peer_check(const uint8_t *sets, size_t len, size_t n)
{
    uint64_t sum = 0;

    for (size_t i = 0, second = 0; i < n; i++, second ^= 1) {
        size_t offset;
        uint8_t code = set_check(half(sets, len, second), half_len(len, second), &offset);
        sum = mix(mix(sum, code), offset);
    }
    return sum;
}

uint64_t peer_property(const uint8_t *sets, size_t len, size_t k, size_t n)
{
    uint64_t sum = 0;

    for (size_t i = 0, second = 0; i < n; i++, second ^= 1) {
        struct property p;
        uint8_t code = set_property(half(sets, len, second), half_len(len, second), k, &p);
        sum = mix(mix(mix(sum, code), p.offset), p.kind);
        sum = mix(mix(mix(mix(sum, p.name_at), p.name_len), p.value_at), p.value_len);
        sum = mix(sum, p.interface < 0 ? 256 : (uint64_t)p.interface);
    }
    return sum;
}
