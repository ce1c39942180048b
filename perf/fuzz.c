/* Holds the proved calls and the C peer to each other: `fuzz SEED ROUNDS` makes random inputs, most of them near sound ones, and compares the
   answers, the records and every byte of the buffers that are lent. It ends with 1 at the first difference. */
#include "loops.h"
#include "peer.h"

#include <stdio.h>
#include <stdlib.h>
#include <string.h>

static uint64_t state;
static unsigned long compared;

static uint32_t below(size_t n)
{
    state ^= state << 13;
    state ^= state >> 7;
    state ^= state << 17;
    return (uint32_t)((state >> 16) % n);
}

static bool one_in(uint32_t n) { return below(n) == 0; }

/* Changes some bytes, of a hundred inputs in about so many. */
static void spoil(uint8_t *p, size_t len, unsigned percent)
{
    while (len && below(100) < percent)
        p[below(len)] = (uint8_t)(one_in(3) ? below(4) : below(256));
}

static void same(const char *what, uint64_t ours, uint64_t peers, const uint8_t *x, const uint8_t *y, size_t len)
{
    compared++;
    if (ours == peers && (len == 0 || !memcmp(x, y, len)))
        return;
    printf("%s differs, comparison %lu: %llx, C %llx\n", what, compared, (unsigned long long)ours, (unsigned long long)peers);
    exit(1);
}

/* Room for a payload: of face authentication one entry too many, and three bytes. */
enum { PAYLOAD = LONGEST_ANSWER + 8 + 3 };

static const uint8_t selectors[5] = {EV, FACE, METADATA, HDR, THROTTLE};

static bool has(const uint8_t *r, unsigned selector) { return le32(r + 2) >> (selector - 1) & 1; }

/* A step flag and a value that the limits of record r allow; `past` lets the value go one too far. */
static void ev(const uint8_t *r, uint8_t *flags, uint8_t *value, int past)
{
    static const int divisors[5] = {6, 4, 3, 2, 1};
    unsigned bit = below(5);
    int low = (int8_t)r[6] * divisors[bit] - past, high = r[10] * divisors[bit] + past;

    *flags = (uint8_t)(1 << bit);
    put32(value, (uint32_t)(low < high ? low + (int)below((size_t)(high - low + 1)) : low));
}

/* A flag that an endpoint offers. */
static uint8_t offered(uint8_t offers) { return offers & 1 && one_in(2) ? 1 : offers & 6; }

static void settings(uint8_t *r)
{
    if (has(r, EV) && one_in(2)) {
        r[65] = 1;
        ev(r, r + 66, r + 67, 0);
        if (!(r[66] & r[14]))
            r[65] = 0;
    }
    for (unsigned i = 0; i < r[15]; i++)
        if (has(r, FACE) && one_in(2))
            r[71 + r[16 + i] - 0x81] = offered(r[31 + i]);
    if (has(r, METADATA) && r[50] && one_in(2)) {
        r[86] = 1;
        put32(r + 87, one_in(2) ? 0 : le32(r + 46));
    }
    if (has(r, HDR) && one_in(2)) {
        r[91] = 1;
        r[92] = (uint8_t)below(2u + r[51]);
    }
    if (has(r, THROTTLE) && one_in(2)) {
        r[96] = 1;
        r[97] = (uint8_t)below(2);
        put32(r + 101, le32(r + (one_in(2) ? 52 : 56)));
    }
}

static void camera(uint8_t r[RECORD])
{
    uint32_t bits = 0;

    memset(r, 0, RECORD);
    r[0] = 4;
    for (int i = 0; i < 5; i++)
        if (!one_in(8))
            bits |= 1u << (selectors[i] - 1);
    put32(r + 2, bits);
    put32(r + 6, (uint32_t)-(int)below(129));
    put32(r + 10, below(128));
    r[14] = (uint8_t)(16 + below(16));
    unsigned wanted = 1 + below(ENDPOINTS);
    for (unsigned address = 0x81; wanted; address++)
        if (below(0x90 - address) < wanted) {
            r[16 + r[15]] = (uint8_t)address;
            r[31 + r[15]] = (uint8_t)(2 + below(4));
            r[15]++;
            wanted--;
        }
    put32(r + 46, 1 + below(5000));
    r[50] = !one_in(4);
    r[51] = one_in(2);
    uint32_t step = 1 + below(10), low = 1 + below(100 / step), high = low + below(100 / step - low + 1);
    put32(r + 52, low * step);
    put32(r + 56, high * step);
    put32(r + 60, step);
    r[64] = !one_in(4);
    settings(r);
    spoil(r, RECORD, 15);
}

/* The payload of a SET to the camera r; returns its length, at most that of one entry too many. */
static size_t payload(const uint8_t *r, unsigned selector, uint8_t *p)
{
    unsigned endpoints = r[15] < 1 ? 1 : r[15] > ENDPOINTS ? ENDPOINTS : r[15];
    size_t len = 4;

    memset(p, 0, PAYLOAD);
    if (selector == EV) {
        len = 11;
        ev(r, p, p + 7, 1);
    } else if (selector == FACE) {
        unsigned from = one_in(3) ? below(ENDPOINTS) : 0;
        p[0] = (uint8_t)(one_in(9) ? below(ENDPOINTS + 2) : below(endpoints + 1));
        for (unsigned i = 0; i < p[0]; i++) {
            unsigned at = 16 + (from + i) % endpoints;
            p[1 + 8 * i] = r[at];
            p[2 + 8 * i] = offered(r[at + ENDPOINTS]);
        }
        len = 1 + 8u * p[0];
    } else if (selector == METADATA)
        put32(p, one_in(3) ? below(5000) : one_in(2) ? 0 : le32(r + 46));
    else if (selector == HDR)
        p[0] = (uint8_t)below(4);
    else {
        len = 20;
        p[0] = (uint8_t)below(2);
        p[4] = (uint8_t)(one_in(4) ? below(110) : r[60] * below(r[60] ? 110 / r[60] + 1u : 1));
    }
    spoil(p, len, 15);
    return len;
}

/* A SET or a GET; returns the length of its payload. */
static size_t setup(const uint8_t *r, uint8_t *u, uint8_t *p)
{
    unsigned selector = selectors[below(5)];
    size_t len = payload(r, selector, p);
    bool set = one_in(2);

    if (one_in(20))
        len += below(3);
    memcpy(u, (uint8_t[8]){set ? 0x21 : 0xA1, (uint8_t)(set ? 1 : 0x81 + below(7)), 0, (uint8_t)selector, r[1], r[0]}, 8);
    u[6] = (uint8_t)(set ? len : below(LONGEST_ANSWER + 15));
    spoil(u, 8, 10);
    return set ? len : one_in(30);
}

static void cameras(void)
{
    uint8_t a[RECORD], b[RECORD], setups[16], p[2 * PAYLOAD], q[PAYLOAD], ours[LONGEST_SNAPSHOT + 10], peers[LONGEST_SNAPSHOT + 10];

    camera(a);
    memcpy(b, a, RECORD);
    size_t len = setup(a, setups, p), n = 1;
    if (setup(a, setups + 8, q) == len) {
        memcpy(p + len, q, len);
        n = 2;
    } else
        memset(p + len, 0, len);
    size_t halves = one_in(40) ? below(16) : 16, room = one_in(3) ? below(LONGEST_ANSWER + 5) : LONGEST_ANSWER;
    memset(ours, 0xEE, sizeof ours);
    memset(peers, 0xEE, sizeof peers);
    uint64_t x = probe_request(a, RECORD, setups, halves, p, 2 * len, ours, room, n);
    uint64_t y = peer_request(b, RECORD, setups, halves, p, 2 * len, peers, room, n);
    same("request's reply", x, y, ours, peers, sizeof ours);
    same("request's record", x, y, a, b, RECORD);
    room = one_in(4) ? below(LONGEST_SNAPSHOT + 1) : LONGEST_SNAPSHOT;
    x = probe_write(a, RECORD, ours, room, 1);
    y = peer_write(b, RECORD, peers, room, 1);
    same("write", x, y, ours, peers, sizeof ours);
    same("sensor", probe_sensor(a, RECORD, 1), peer_sensor(b, RECORD, 1), a, b, RECORD);
    n = below(3);
    same("set_streaming", probe_streaming(a, RECORD, n), peer_streaming(b, RECORD, n), a, b, RECORD);
}

/* A batch of some requests to the camera, sometimes cut short; a setup that is spoilt may split it otherwise. */
static void batches(void)
{
    uint8_t a[RECORD], b[RECORD], s[2 * 6 * (8 + PAYLOAD)], p[PAYLOAD], ours[6 * ANSWER_ROOM + 10], peers[6 * ANSWER_ROOM + 10];
    size_t n = 0;

    camera(a);
    memcpy(b, a, RECORD);
    for (unsigned k = below(7); k; k--) {
        size_t len = setup(a, s + n, p);
        n += 8;
        if (s[n - 8] == 0x21) {
            memcpy(s + n, p, len);
            n += len;
        }
    }
    if (one_in(8))
        n = below(n + 1);
    memcpy(s + n, s, n);
    size_t room = one_in(3) ? below(6 * ANSWER_ROOM) : 6 * ANSWER_ROOM;
    memset(ours, 0xEE, sizeof ours);
    memset(peers, 0xEE, sizeof peers);
    uint64_t x = probe_batch(a, RECORD, s, 2 * n, ours, room, 2), y = peer_batch(b, RECORD, s, 2 * n, peers, room, 2);
    same("batch's answers", x, y, ours, peers, sizeof ours);
    same("batch's record", x, y, a, b, RECORD);
}

/* Records for some keys; returns their length, at most 250. */
static size_t records(const uint8_t *r, uint8_t *to)
{
    size_t n = 0;
    uint8_t p[PAYLOAD];

    for (unsigned key = 0; key < 19; key++) {
        unsigned selector = key == 0 ? EV : key <= 15 ? FACE : selectors[key - 14];
        size_t len = payload(r, selector, p);
        const uint8_t *listed = memchr(r + 16, 0x80 + (int)key, ENDPOINTS);
        if (one_in(3) || (selector == FACE && !listed && !one_in(20)))
            continue;
        if (selector == FACE) {
            memset(p, 0, len = 9);
            p[0] = 1;
            p[1] = (uint8_t)(0x80 + key);
            p[2] = listed ? offered(listed[ENDPOINTS]) : 1;
        }
        if (selector == THROTTLE)
            memset(p + 8, 0, 12);
        put16(to + n, (unsigned)(4 + len));
        put16(to + n + 2, selector);
        memcpy(to + n + 4, p, len);
        n += 4 + len;
    }
    spoil(to, n, 5);
    return n && one_in(30) ? below(n) : n;
}

static void snapshots(void)
{
    uint8_t a[RECORD], b[RECORD], s[2 * LONGEST_SNAPSHOT], t[2 * LONGEST_SNAPSHOT], ours[LONGEST_SNAPSHOT + 10], peers[LONGEST_SNAPSHOT + 10];

    camera(a);
    memcpy(b, a, RECORD);
    size_t n = records(a, s), m = records(a, t);
    memmove(s + n, s, n);
    memmove(t + m, t, m);
    same("load", probe_load(a, RECORD, s, 2 * n, 1), peer_load(b, RECORD, s, 2 * n, 1), a, b, RECORD);
    same("snapshot's check", probe_form(s, 2 * n, 1), peer_form(s, 2 * n, 1), s, s, 0);
    memset(ours, 0xEE, sizeof ours);
    memset(peers, 0xEE, sizeof peers);
    size_t room = one_in(3) ? below(LONGEST_SNAPSHOT) : LONGEST_SNAPSHOT;
    uint64_t x = probe_merge(s, 2 * n, t, 2 * m, ours, room, 1), y = peer_merge(s, 2 * n, t, 2 * m, peers, room, 1);
    same("merge", x, y, ours, peers, sizeof ours);
}

/* Mostly an id of a kind that is read, at the bounds of its kind as a rule. */
static uint32_t metadata_id(void)
{
    static const uint32_t bounds[] = {1, 6, 7, 0x7FFFFFFF, 0x80000000, 0xFFFFFFFF};

    return one_in(40) ? 0 : one_in(3) ? 1 + below(12) : one_in(3) ? 0x7FFFFFF8 + below(16) : bounds[below(6)];
}

static void frames(void)
{
    uint8_t block[2 * 600], packets[40], ours[300], peers[300];
    size_t n = 0;

    memset(block, 0x11, sizeof block);
    for (unsigned k = below(12); k; k--) {
        uint32_t len = 8 + below(40);
        put32(block + n, metadata_id());
        put32(block + n + 4, len);
        n += len;
    }
    spoil(block, n, 8);
    if (n && one_in(20))
        n = below(n);
    memmove(block + n, block, n);
    size_t k = below(12), len = below(60), room = below(300), times = below(4);
    uint32_t id = metadata_id();
    same("count", probe_count(block, 2 * n, 1), peer_count(block, 2 * n, 1), block, block, 0);
    same("item", probe_item(block, 2 * n, k, 1), peer_item(block, 2 * n, k, 1), block, block, 0);
#ifdef VIEWS
    same("item_view", probe_view(block, 2 * n, k, 1), peer_view(block, 2 * n, k, 1), block, block, 0);
#endif
    memset(ours, 0xEE, sizeof ours);
    memset(peers, 0xEE, sizeof peers);
    uint64_t x = probe_append(ours, room, id, block, 2 * len, times), y = peer_append(peers, room, id, block, 2 * len, times);
    same("append", x, y, ours, peers, sizeof ours);
    for (size_t i = 0; i < sizeof packets; i++)
        packets[i] = (uint8_t)below(24);
    len = below(20);
    same("header", probe_header(packets, 2 * len, 2), peer_header(packets, 2 * len, 2), packets, packets, 0);
}

/* Blocks and items of the greatest length and beyond. */
static void long_frames(void)
{
    static uint8_t block[2 * 65536], ours[65536], peers[65536];

    put32(block, 6);
    for (uint32_t len = 65534; len <= 65536; len++) {
        put32(block + 4, len);
        same("count", probe_count(block, 2 * len, 1), peer_count(block, 2 * len, 1), block, block, 0);
        same("item", probe_item(block, 2 * len, 0, 1), peer_item(block, 2 * len, 0, 1), block, block, 0);
        uint64_t x = probe_append(ours, sizeof ours, 6, block, 2 * (len - 8), 1);
        same("append", x, peer_append(peers, sizeof peers, 6, block, 2 * (len - 8), 1), ours, peers, sizeof ours);
    }
}

/* A registry property or another feature; returns its length. */
static size_t feature(uint8_t *p)
{
    unsigned name = 2 * (1 + below(6)), type = 1 + below(7), data = type == 4 || type == 5 ? 4 : below(9), len = 10 + name + data;

    if (one_in(2)) {
        memset(p, 0x41, len);
        put16(p + 2, 4);
        put16(p + 4, type);
        put16(p + 6, name);
        put16(p + 6 + name, 0);
        put16(p + 8 + name, data);
    } else {
        len = 4 + below(12);
        memset(p, 1, len);
        put16(p + 2, one_in(4) ? 5 + below(4) : 3);
    }
    put16(p, len);
    return len;
}

static size_t contents(uint8_t *p, unsigned depth)
{
    size_t n = 0;

    for (unsigned k = below(4); k; k--) {
        uint8_t *h = p + n;
        if (depth == 2 || one_in(2)) {
            n += feature(h);
            continue;
        }
        size_t len = 8 + contents(h + 8, depth + 1);
        memcpy(h, (uint8_t[6]){8, 0, (uint8_t)(depth + 1), 0, (uint8_t)below(9)}, 6);
        put16(h + 6, (unsigned)len);
        n += len;
    }
    return n;
}

static void sets(void)
{
    static uint8_t s[2 * 4096];
    size_t n = 10 + contents(s + 10, 0), k = below(6);

    memset(s, 0, 10);
    s[0] = 10;
    put16(s + 8, (unsigned)n);
    spoil(s, n, 30);
    if (one_in(30))
        n = below(n);
    memmove(s + n, s, n);
    same("descriptors' check", probe_check(s, 2 * n, 1), peer_check(s, 2 * n, 1), s, s, 0);
    same("property", probe_property(s, 2 * n, k, 1), peer_property(s, 2 * n, k, 1), s, s, 0);
}

int main(int argc, char **argv)
{
    state = (argc > 1 ? strtoull(argv[1], NULL, 0) : 1) * 0x9E3779B97F4A7C15u + 1;
    long rounds = argc > 2 ? atol(argv[2]) : 20000;

    long_frames();
    for (long i = 0; i < rounds; i++) {
        cameras();
        batches();
        snapshots();
        frames();
        sets();
    }
    printf("%lu comparisons with the C peer, all equal\n", compared);
    return 0;
}
