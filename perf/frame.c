/* Metadata blocks and payload headers. */
#include "peer.h"

#include <string.h>

static bool known(uint32_t id) { return (id >= 1 && id <= 6) || id >= 0x80000000; }

uint8_t frame_item(const uint8_t *block, size_t len, size_t k, struct item *item)
{
    struct item found = {0, false, 0, 0};
    bool any = false;

    *item = found;
    if (len > 65535)
        return 0x43;
    for (size_t at = 0, n = 0; at < len; n++) {
        if (len - at < 8)
            return 0x40;
        uint32_t id = le32(block + at), size = le32(block + at + 4);
        if (id == 0)
            return 0x41;
        if (size < 8)
            return 0x42;
        if (size > len - at)
            return 0x40;
        if (n == k) {
            found = (struct item){id, !known(id), at + 8, size - 8};
            any = true;
        }
        at += size;
    }
    *item = found;
    return any ? 0 : 0x44;
}

uint8_t frame_count(const uint8_t *block, size_t len, size_t *items)
{
    size_t n = 0;

    *items = 0;
    if (len > 65535)
        return 0x43;
    for (size_t at = 0; at < len; n++) {
        if (len - at < 8)
            return 0x40;
        uint32_t size = le32(block + at + 4);
        if (le32(block + at) == 0)
            return 0x41;
        if (size < 8)
            return 0x42;
        if (size > len - at)
            return 0x40;
        at += size;
    }
    *items = n;
    return 0;
}

uint8_t frame_append(uint8_t *buf, size_t room, size_t at, uint32_t id, const uint8_t *payload, size_t len, size_t *end)
{
    *end = 0;
    if (!known(id))
        return 0x41;
    if (at > 65535 || len > 65535 || at + 8 + len > 65535)
        return 0x43;
    if (at + 8 + len > room)
        return NO_ROOM;
    put32(buf + at, id);
    put32(buf + at + 4, (uint32_t)(8 + len));
    memcpy(buf + at + 8, payload, len);
    *end = at + 8 + len;
    return 0;
}

uint8_t frame_header(const uint8_t *packet, size_t len, struct header *h)
{
    *h = (struct header){0, 0, 0};
    if (len < 2 || packet[0] > len)
        return 0x45;
    unsigned flags = packet[1], from = 2 + (flags & 4 ? 4 : 0) + (flags & 8 ? 6 : 0);
    if (packet[0] < from)
        return 0x46;
    *h = (struct header){(uint8_t)flags, from, packet[0] - from};
    return 0;
}
