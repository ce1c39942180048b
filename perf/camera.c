/* The camera: the record test and the calls. */
#include "controls.h"

#define BIT(selector) (1u << ((selector) - 1))
#define ALL (BIT(EV) | BIT(FACE) | BIT(METADATA) | BIT(HDR) | BIT(THROTTLE))

static bool well_formed(const struct camera *c)
{
    const struct settings *h = &c->held;
    uint8_t offers[ADDRESSES] = {0};

    if (c->controls & ~ALL)
        return false;
    if (c->controls & BIT(EV)) {
        if (c->ev_low < -128 || c->ev_low > 0 || c->ev_high < 0 || c->ev_high > 127 || c->ev_steps < 16 || c->ev_steps > 31)
            return false;
        if (h->ev_held && ev_test(c, h->ev_flags, h->ev_value))
            return false;
    } else if (h->ev_held)
        return false;
    if (c->controls & BIT(FACE)) {
        unsigned before = 0x80, i;
        if (c->face_count < 1 || c->face_count > ENDPOINTS)
            return false;
        for (i = 0; i < c->face_count; i++) {
            unsigned address = c->face_address[i], o = c->face_offers[i] >> 1;
            if (address <= before || address > 0x8F || (o != 1 && o != 2))
                return false;
            offers[address - 0x81] = c->face_offers[i];
            before = address;
        }
        for (; i < ENDPOINTS; i++)
            if (c->face_address[i] || c->face_offers[i])
                return false;
    }
    for (unsigned i = 0; i < ADDRESSES; i++) {
        unsigned f = h->face[i];
        if (f && ((f & (f - 1)) || !(f & offers[i])))
            return false;
    }
    if (c->controls & BIT(METADATA)) {
        if (c->metadata_max < 1)
            return false;
        if (h->metadata_held && (!c->metadata_writable || metadata_test(c, h->metadata)))
            return false;
    } else if (h->metadata_held)
        return false;
    if (h->hdr_held && (!(c->controls & BIT(HDR)) || hdr_test(c, h->hdr)))
        return false;
    if (c->controls & BIT(THROTTLE)) {
        if (c->throttle_min < 1 || c->throttle_min > c->throttle_max || c->throttle_max > 100 || c->throttle_step < 1 ||
            c->throttle_min % c->throttle_step || c->throttle_max % c->throttle_step)
            return false;
        if (h->throttle_held && throttle_test(c, h->throttle_mode, h->throttle_percent))
            return false;
    } else if (h->throttle_held)
        return false;
    return true;
}

uint8_t camera_request(struct camera *c, const uint8_t *setup, size_t setup_len, const uint8_t *payload, size_t len,
                       uint8_t *reply, size_t room, size_t *count)
{
    *count = 0;
    if (!well_formed(c))
        return BAD_RECORD;
    if (setup_len != 8)
        return UNKNOWN;
    if (setup[5] != c->unit || setup[4] != c->interface)
        return INVALID_UNIT;
    unsigned selector = setup[3];
    if (selector < 1 || selector > 32 || !(c->controls & BIT(selector)))
        return INVALID_CONTROL;
    bool set = setup[0] == 0x21 && setup[1] == 0x01;
    bool get = setup[0] == 0xA1 && setup[1] >= CUR && setup[1] <= DEF;
    if (setup[2] || !(set || get) || (set && selector == METADATA && !c->metadata_writable))
        return INVALID_REQUEST;
    size_t wlength = le16(setup + 6);
    if (set) {
        if (len != wlength || !length_ok(c, selector, payload, len))
            return UNKNOWN;
        if (selector == THROTTLE && !c->streaming)
            return WRONG_STATE;
        return take(c, &c->held, selector, payload);
    }
    if (len)
        return UNKNOWN;
    uint8_t a[LONGEST_ANSWER];
    size_t n = answer(c, selector, setup[1], a);
    if (n > wlength)
        n = wlength;
    if (n > room)
        return NO_ROOM;
    memcpy(reply, a, n);
    *count = n;
    return 0;
}

/* How many bytes a request of a batch sends: a GET that no test refuses sends some. */
static size_t reply_length(const struct camera *c, const uint8_t *setup)
{
    unsigned code = setup[1], selector = setup[3];
    size_t wlength = le16(setup + 6), n = 1;

    if (setup[0] != 0xA1 || code < CUR || code > DEF || setup[2] || setup[5] != c->unit || setup[4] != c->interface || selector < 1 ||
        selector > 32 || !(c->controls & BIT(selector)))
        return 0;
    if (code == LEN)
        n = 2;
    else if (code != INFO && (selector != FACE || (code != MIN && code != RES)))
        n = full_length(c, selector);
    return n < wlength ? n : wlength;
}

static size_t data_length(const uint8_t *setup) { return setup[0] == 0x21 ? le16(setup + 6) : 0; }

uint8_t camera_batch(struct camera *c, const uint8_t *s, size_t len, uint8_t *out, size_t room, size_t *count)
{
    size_t needed = 0;

    *count = 0;
    if (!well_formed(c))
        return BAD_RECORD;
    for (size_t at = 0; at < len; at += 8 + data_length(s + at)) {
        if (len - at < 8 || len - at < 8 + data_length(s + at))
            return CUT_BATCH;
        needed += 3 + reply_length(c, s + at);
    }
    if (room < needed)
        return NO_ROOM;
    for (size_t at = 0; at < len; at += 8 + data_length(s + at)) {
        uint8_t *answer = out + *count;
        size_t sent;
        answer[0] = camera_request(c, s + at, 8, s + at + 8, data_length(s + at), answer + 3, room - *count - 3, &sent);
        put16(answer + 1, (unsigned)sent);
        *count += 3 + sent;
    }
    return 0;
}

uint8_t camera_streaming(struct camera *c, bool on)
{
    if (!well_formed(c))
        return BAD_RECORD;
    c->streaming = on;
    return 0;
}

uint8_t camera_sensor(const struct camera *c, int32_t *value)
{
    *value = 0;
    if (!well_formed(c))
        return BAD_RECORD;
    if (c->held.ev_held)
        *value = c->held.ev_value * (120 / divisors[__builtin_ctz(c->held.ev_flags)]);
    return 0;
}

uint8_t camera_load(struct camera *c, const uint8_t *s, size_t len)
{
    if (!well_formed(c))
        return BAD_RECORD;
    if (!snapshot_ok(s, len))
        return BAD_SNAPSHOT;
    struct settings next = c->held;
    for (size_t at = 0; at < len; at += le16(s + at)) {
        unsigned kind = le16(s + at + 2);
        if (!(c->controls & BIT(kind)))
            return INVALID_CONTROL;
        if (kind == METADATA && !c->metadata_writable)
            return INVALID_REQUEST;
        if (kind == THROTTLE && !c->streaming)
            return WRONG_STATE;
        uint8_t code = take(c, &next, kind, s + at + 4);
        if (code)
            return code;
    }
    c->held = next;
    return 0;
}

/* Writes the head of a snapshot's record. */
static uint8_t *record(uint8_t *out, unsigned len, unsigned kind)
{
    put16(out, len);
    put16(out + 2, kind);
    return out + 4;
}

static uint8_t *number_record(uint8_t *out, unsigned kind, uint32_t n)
{
    out = record(out, 8, kind);
    put32(out, n);
    return out + 4;
}

uint8_t camera_write(const struct camera *c, uint8_t *out, size_t room, size_t *count)
{
    const struct settings *h = &c->held;
    size_t n = 0;

    *count = 0;
    if (!well_formed(c))
        return BAD_RECORD;
    n = h->ev_held * 15u + h->metadata_held * 8u + h->hdr_held * 8u + h->throttle_held * 24u;
    for (unsigned i = 0; i < ADDRESSES; i++)
        n += h->face[i] ? 13 : 0;
    if (room < n)
        return NO_ROOM;
    if (h->ev_held) {
        out = record(out, 15, EV);
        out += ev_bytes(out, h->ev_flags, h->ev_value);
    }
    for (unsigned i = 0; i < ADDRESSES; i++)
        if (h->face[i]) {
            out = record(out, 13, FACE);
            out[0] = 1;
            out[1] = (uint8_t)(0x81 + i);
            out[2] = h->face[i];
            memset(out + 3, 0, 6);
            out += 9;
        }
    if (h->metadata_held)
        out = number_record(out, METADATA, h->metadata);
    if (h->hdr_held)
        out = number_record(out, HDR, h->hdr);
    if (h->throttle_held) {
        out = record(out, 24, THROTTLE);
        put32(out, h->throttle_mode);
        put32(out + 4, h->throttle_percent);
        memset(out + 8, 0, 12);
    }
    *count = n;
    return 0;
}
