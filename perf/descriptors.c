/* Descriptor sets. */
#include "peer.h"

enum place { SET, CONFIGURATION, FUNCTION };

/* Where a walk is, and the property that it looks for: found once `left` others are passed. */
struct walk {
    const uint8_t *s;
    size_t offset, left;
    struct property *found;
};

static uint8_t good_property(const uint8_t *d, size_t length)
{
    if (length < 12)
        return 0x33;
    unsigned type = le16(d + 4), name = le16(d + 6);
    if (type < 1 || type > 7 || name < 2 || name % 2 || length < 10 + name)
        return 0x34;
    unsigned data = le16(d + 8 + name);
    if (le16(d + 6 + name) || length != 10 + name + data || ((type == 4 || type == 5) && data != 4))
        return 0x34;
    return 0;
}

static uint8_t contents(struct walk *w, enum place place, int interface, size_t at, size_t end)
{
    const uint8_t *s = w->s;

    while (at < end) {
        size_t left = end - at;
        w->offset = at;
        if (left < 4)
            return 0x31;
        size_t length = le16(s + at);
        if (length > left)
            return 0x31;
        if (length < 4)
            return 0x33;
        unsigned type = le16(s + at + 2);
        if (type >= 3 && type <= 8) {
            if (type == 4) {
                uint8_t code = good_property(s + at, length);
                if (code)
                    return code;
                if (w->left-- == 0) {
                    size_t name = le16(s + at + 6);
                    *w->found = (struct property){at, le16(s + at + 4), at + 8, name, at + 10 + name, length - 10 - name, interface};
                }
            }
            at += length;
            continue;
        }
        if (!(place == SET && type == 1) && !(place == CONFIGURATION && type == 2))
            return 0x32;
        if (length != 8)
            return 0x33;
        size_t total = le16(s + at + 6);
        if (total > left)
            return 0x31;
        if (total < 8)
            return 0x33;
        if (s[at + 5])
            return 0x34;
        uint8_t code = contents(w, place + 1, place == CONFIGURATION ? s[at + 4] : -1, at + 8, at + total);
        if (code)
            return code;
        at += total;
    }
    return 0;
}

static bool good_header(const uint8_t *set, size_t length)
{
    return length >= 10 && le16(set) == 10 && le16(set + 2) == 0 && le16(set + 8) == length;
}

uint8_t set_check(const uint8_t *set, size_t length, size_t *offset)
{
    struct walk w = {set, 0, SIZE_MAX, NULL};

    *offset = 0;
    if (!good_header(set, length))
        return 0x30;
    uint8_t code = contents(&w, SET, -1, 10, length);
    if (code)
        *offset = w.offset;
    return code;
}

uint8_t set_property(const uint8_t *set, size_t length, size_t k, struct property *p)
{
    struct property found = {0, 0, 0, 0, 0, 0, -1};
    struct walk w = {set, 0, k, &found};

    *p = found;
    if (!good_header(set, length))
        return 0x30;
    uint8_t code = contents(&w, SET, -1, 10, length);
    if (code) {
        p->offset = w.offset;
        return code;
    }
    if (w.left <= k) /* not below zero, so not found */
        return 0x35;
    *p = found;
    return 0;
}
