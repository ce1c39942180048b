/* The five controls: the tests of their values, what a SET sets, and what a GET answers. Only camera.c has it, so that both are compiled as one. */
#include "peer.h"

#include <string.h>

static const uint8_t divisors[5] = {6, 4, 3, 2, 1};

static bool one_bit(uint64_t n) { return n && !(n & (n - 1)); }

static uint64_t flags56(const uint8_t *p) { return le32(p) | (uint64_t)(le32(p + 3) >> 8) << 32; }

/* The tests of values, for a SET and for a setting that is held. */
static uint8_t ev_test(const struct camera *c, uint64_t flags, int32_t value)
{
    if (!one_bit(flags) || !(flags & c->ev_steps))
        return INVALID_VALUE;
    int d = divisors[__builtin_ctzll(flags)];
    if (value < c->ev_low * d || value > c->ev_high * d)
        return OUT_OF_RANGE;
    return 0;
}

static uint8_t metadata_test(const struct camera *c, uint32_t n)
{
    if (n > c->metadata_max)
        return OUT_OF_RANGE;
    return n == 0 || n == c->metadata_max ? 0 : INVALID_VALUE;
}

static uint8_t hdr_test(const struct camera *c, uint32_t n)
{
    if (n > 2)
        return OUT_OF_RANGE;
    return n == 2 && !c->hdr_auto ? INVALID_VALUE : 0;
}

static uint8_t throttle_test(const struct camera *c, uint32_t mode, uint32_t percent)
{
    if (percent < c->throttle_min || percent > c->throttle_max)
        return OUT_OF_RANGE;
    if (mode > 1 || percent % c->throttle_step)
        return INVALID_VALUE;
    return 0;
}

static uint8_t take_face(const struct camera *c, struct settings *to, const uint8_t *p)
{
    uint8_t next[ADDRESSES];
    unsigned seen = 0, n = *p++;

    memcpy(next, to->face, sizeof next);
    for (; n; n--, p += 8) {
        unsigned i = 0;
        while (i < c->face_count && c->face_address[i] != p[0])
            i++;
        if (i == c->face_count)
            return OUT_OF_RANGE;
        uint64_t flags = flags56(p + 1);
        if ((seen & 1u << i) || !one_bit(flags) || !(flags & c->face_offers[i]))
            return INVALID_VALUE;
        seen |= 1u << i;
        next[p[0] - 0x81] = (uint8_t)flags;
    }
    memcpy(to->face, next, sizeof next);
    return 0;
}

/* Tests the values of a payload of the right length, and sets them where all are accepted. */
static uint8_t take(const struct camera *c, struct settings *to, unsigned selector, const uint8_t *p)
{
    uint8_t code;

    switch (selector) {
    case EV: {
        uint64_t flags = flags56(p);
        int32_t value = (int32_t)le32(p + 7);
        if ((code = ev_test(c, flags, value)))
            return code;
        to->ev_held = true;
        to->ev_flags = (uint8_t)flags;
        to->ev_value = value;
        return 0;
    }
    case FACE:
        return take_face(c, to, p);
    case METADATA:
        if ((code = metadata_test(c, le32(p))))
            return code;
        to->metadata_held = true;
        to->metadata = le32(p);
        return 0;
    case HDR:
        if ((code = hdr_test(c, le32(p))))
            return code;
        to->hdr_held = true;
        to->hdr = le32(p);
        return 0;
    default:
        if ((code = throttle_test(c, le32(p), le32(p + 4))))
            return code;
        to->throttle_held = true;
        to->throttle_mode = le32(p);
        to->throttle_percent = le32(p + 4);
        return 0;
    }
}

static size_t full_length(const struct camera *c, unsigned selector)
{
    switch (selector) {
    case EV:
        return 11;
    case FACE:
        return 1 + 8u * c->face_count;
    case THROTTLE:
        return 20;
    default:
        return 4;
    }
}

static bool length_ok(const struct camera *c, unsigned selector, const uint8_t *payload, size_t len)
{
    if (selector == FACE)
        return len >= 1 && payload[0] <= c->face_count && len == 1 + 8u * payload[0];
    return len == full_length(c, selector);
}

/* The answers of a GET, by its code. */
enum { CUR = 0x81, MIN, MAX, RES, LEN, INFO, DEF };

static size_t ev_bytes(uint8_t *a, uint8_t flags, int32_t value)
{
    a[0] = flags;
    memset(a + 1, 0, 6);
    put32(a + 7, (uint32_t)value);
    return 11;
}

static size_t ev_answer(const struct camera *c, unsigned code, uint8_t *a)
{
    switch (code) {
    case MIN:
        return ev_bytes(a, 16, c->ev_low);
    case MAX:
        return ev_bytes(a, 16, c->ev_high);
    case RES:
        return ev_bytes(a, c->ev_steps, 0);
    case CUR:
        if (c->held.ev_held)
            return ev_bytes(a, c->held.ev_flags, c->held.ev_value);
    }
    return ev_bytes(a, 16, 0);
}

static size_t face_answer(const struct camera *c, unsigned code, uint8_t *a)
{
    if (code == MIN || code == RES) {
        a[0] = 0;
        return 1;
    }
    *a++ = c->face_count;
    for (unsigned i = 0; i < c->face_count; i++, a += 8) {
        uint8_t address = c->face_address[i], offers = c->face_offers[i], flags = offers & 1 ? 1 : offers;
        if (code == MAX)
            flags = offers;
        else if (code == CUR && c->held.face[address - 0x81])
            flags = c->held.face[address - 0x81];
        a[0] = address;
        a[1] = flags;
        memset(a + 2, 0, 6);
    }
    return 1 + 8u * c->face_count;
}

static size_t number_answer(uint8_t *a, uint32_t n)
{
    put32(a, n);
    return 4;
}

static size_t metadata_answer(const struct camera *c, unsigned code, uint8_t *a)
{
    if (!c->metadata_writable)
        return number_answer(a, code == RES ? 0 : c->metadata_max);
    if (code == MAX || code == RES)
        return number_answer(a, c->metadata_max);
    return number_answer(a, code == CUR && c->held.metadata_held ? c->held.metadata : 0);
}

static size_t hdr_answer(const struct camera *c, unsigned code, uint8_t *a)
{
    if (code == MAX)
        return number_answer(a, c->hdr_auto ? 3 : 1);
    return number_answer(a, code == CUR && c->held.hdr_held ? c->held.hdr : 0);
}

static size_t throttle_answer(const struct camera *c, unsigned code, uint8_t *a)
{
    uint32_t mode = code == MAX, percent = code == MIN ? c->throttle_min : code == RES ? c->throttle_step : c->throttle_max;

    if (code == CUR && c->held.throttle_held) {
        mode = c->held.throttle_mode;
        percent = c->held.throttle_percent;
    }
    put32(a, mode);
    put32(a + 4, percent);
    put32(a + 8, c->throttle_min);
    put32(a + 12, c->throttle_max);
    put32(a + 16, c->throttle_step);
    return 20;
}

static size_t answer(const struct camera *c, unsigned selector, unsigned code, uint8_t *a)
{
    if (code == LEN) {
        put16(a, (unsigned)full_length(c, selector));
        return 2;
    }
    if (code == INFO) {
        a[0] = selector == EV ? 0x13 : selector == METADATA && !c->metadata_writable ? 0x01 : 0x03;
        return 1;
    }
    switch (selector) {
    case EV:
        return ev_answer(c, code, a);
    case FACE:
        return face_answer(c, code, a);
    case METADATA:
        return metadata_answer(c, code, a);
    case HDR:
        return hdr_answer(c, code, a);
    default:
        return throttle_answer(c, code, a);
    }
}
