/* Snapshots: form and merging. */
#include "peer.h"

#include <string.h>

/* The key of the record at r, or -1 where it has a fault. */
static int key_of(const uint8_t *r, size_t left)
{
    if (left < 4)
        return -1;
    unsigned len = le16(r);
    if (len > left)
        return -1;
    switch (le16(r + 2)) {
    case EV:
        return len == 15 ? 0 : -1;
    case FACE:
        return len == 13 && r[4] == 1 && r[5] >= 0x81 && r[5] <= 0x8F ? r[5] - 0x80 : -1;
    case METADATA:
        return len == 8 ? 16 : -1;
    case HDR:
        return len == 8 ? 17 : -1;
    case THROTTLE:
        return len == 24 && !(le32(r + 12) | le32(r + 16) | le32(r + 20)) ? 18 : -1;
    }
    return -1;
}

bool snapshot_ok(const uint8_t *s, size_t len)
{
    int last = -1;

    for (size_t at = 0; at < len; at += le16(s + at)) {
        int key = key_of(s + at, len - at);
        if (key <= last)
            return false;
        last = key;
    }
    return true;
}

/* Of a sound record: a number that sorts as its key does. */
static unsigned rank(const uint8_t *r)
{
    return r[2] == FACE ? FACE << 8 | r[5] : r[2] << 8;
}

/* Merges two sound snapshots and returns the length; where out is NULL it only measures. */
static size_t merged(const uint8_t *a, size_t a_len, const uint8_t *b, size_t b_len, uint8_t *out)
{
    size_t i = 0, j = 0, n = 0;

    while (i < a_len || j < b_len) {
        unsigned x = i < a_len ? rank(a + i) : 0xFFFF, y = j < b_len ? rank(b + j) : 0xFFFF;
        const uint8_t *from = y <= x ? b + j : a + i;
        unsigned len = le16(from);
        if (x <= y)
            i += len;
        if (y <= x)
            j += len;
        if (out)
            memcpy(out + n, from, len);
        n += len;
    }
    return n;
}

uint8_t snapshot_merge(const uint8_t *a, size_t a_len, const uint8_t *b, size_t b_len, uint8_t *out, size_t room, size_t *count)
{
    *count = 0;
    if (!snapshot_ok(a, a_len) || !snapshot_ok(b, b_len))
        return BAD_SNAPSHOT;
    size_t n = merged(a, a_len, b, b_len, NULL);
    if (room < n)
        return NO_ROOM;
    merged(a, a_len, b, b_len, out);
    *count = n;
    return 0;
}
