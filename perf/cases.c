/* The inputs, and the calls on them. */
#include "cases.h"
#include "arrays.h"
#include "loops.h"
#include "peer.h"

#include <string.h>

enum { BLOCK = 65535, FEATURES = 65534, PROPERTIES = 65530 };

/* All five controls, eight endpoints, and all settings held. */
static const uint8_t full[RECORD] = {
    4, 0, 0x24, 0x31, 0, 0,
    0xFE, 0xFF, 0xFF, 0xFF, 2, 0, 0, 0, 0x1F,
    8, 0x81, 0x82, 0x83, 0x85, 0x87, 0x88, 0x8A, 0x8F, 0, 0, 0, 0, 0, 0, 0,
    3, 5, 2, 4, 3, 5, 3, 5, 0, 0, 0, 0, 0, 0, 0,
    0x00, 0x10, 0, 0, 1,
    1,
    5, 0, 0, 0, 100, 0, 0, 0, 5, 0, 0, 0,
    1,
    1, 2, 0xFD, 0xFF, 0xFF, 0xFF,
    1, 4, 2, 0, 4, 0, 1, 4, 0, 2, 0, 0, 0, 0, 1,
    1, 0x00, 0x10, 0, 0,
    1, 1, 0, 0, 0,
    1, 1, 0, 0, 0, 80, 0, 0, 0,
};
/* The same with fifteen endpoints, each of which offers D0 and D1 and holds D1. */
static uint8_t twin[RECORD];
/* The paper's bench camera, fresh: EV, one endpoint, HDR, throttle. */
static const uint8_t bench[RECORD] = {
    4, 0, 0x24, 0x30, 0, 0,
    0xFE, 0xFF, 0xFF, 0xFF, 2, 0, 0, 0, 0x1F,
    1, 0x81, 0, 0, 0, 0, 0, 0, 0, 0, 0, 0, 0, 0, 0, 0,
    3, 0, 0, 0, 0, 0, 0, 0, 0, 0, 0, 0, 0, 0, 0,
    0, 0, 0, 0, 0,
    0,
    5, 0, 0, 0, 100, 0, 0, 0, 5, 0, 0, 0,
    1,
};

/* Payloads of two SETs each, that set different values. */
static const uint8_t evs[22] = {2, 0, 0, 0, 0, 0, 0, 0xFD, 0xFF, 0xFF, 0xFF, 1, 0, 0, 0, 0, 0, 0, 12};
static const uint8_t far_evs[22] = {2, 0, 0, 0, 0, 0, 0, 9, 0, 0, 0, 1, 0, 0, 0, 0, 0, 0, 13};
static const uint8_t hdrs[8] = {1, 0, 0, 0, 2};
static const uint8_t throttles[40] = {1, 0, 0, 0, 80, [24] = 55};
/* Two batches each: the start-up of crates/bench, and a hundred times GET_INFO of EV. */
static uint8_t start_up[2 * 115] = {
    0xA1, 0x86, 0, 3, 0, 4, 1, 0, 0xA1, 0x85, 0, 3, 0, 4, 2, 0, 0xA1, 0x83, 0, 3, 0, 4, 11, 0,
    0x21, 1, 0, 3, 0, 4, 11, 0, 2, 0, 0, 0, 0, 0, 0, 0xFD, 0xFF, 0xFF, 0xFF, 0xA1, 0x81, 0, 9, 0, 4, 4, 0,
    0x21, 1, 0, 14, 0, 4, 20, 0, 1, 0, 0, 0, 82, 0, 0, 0, 0, 0, 0, 0, 0, 0, 0, 0, 0, 0, 0, 0,
    0x21, 1, 0, 13, 0, 4, 4, 0, 1, 0, 0, 0, 0xA1, 0x81, 0, 6, 0, 4, 9, 0, 0xA1, 0x81, 0, 3, 0, 4, 11, 0, 0xA1, 0x81, 0, 3, 0, 5, 11, 0,
};
static uint8_t infos[2 * 100 * 8];
static uint8_t faces[2 * 65], all_faces[2 * LONGEST_ANSWER];

/* Two equal inputs each, but for the snapshots that are loaded: those differ in EV's step. */
static uint8_t loaded[2 * 159], all_loaded[2 * LONGEST_SNAPSHOT], merged_a[2 * LONGEST_SNAPSHOT], merged_b[2 * LONGEST_SNAPSHOT];
static uint8_t small[2 * 23] = {15, 0, 3, 0, 2, 0, 0, 0, 0, 0, 0, 0xFD, 0xFF, 0xFF, 0xFF, 8, 0, 13, 0, 1}; /* the paper's: EV and HDR */
static uint8_t block_200[2 * 200], block_64k[2 * BLOCK], payload_16[2 * 16], payload_1000[2 * 1000], packets[2 * 24];
static uint8_t array[2 * sizeof second_array], features[2 * FEATURES], properties[2 * PROPERTIES];
static uint8_t record[RECORD], reply[LONGEST_ANSWER], out[LONGEST_SNAPSHOT], buffer[BLOCK];

static void twice(uint8_t *p, size_t half) { memcpy(p + half, p, half); }

/* Items of `size` bytes; the last takes what is left. */
static void items(uint8_t *p, size_t half, size_t size)
{
    for (size_t at = 0, n; at < half; at += n) {
        n = half - at < 2 * size ? half - at : size;
        put32(p + at, 6);
        put32(p + at + 4, (uint32_t)n);
    }
    twice(p, half);
}

/* A snapshot with a record of every key. */
static void all_keys(uint8_t *p, uint8_t flag)
{
    uint8_t *at = p;

    memcpy(at, (uint8_t[15]){15, 0, 3, 0, flag, 0, 0, 0, 0, 0, 0, 0xFD, 0xFF, 0xFF, 0xFF}, 15);
    at += 15;
    for (unsigned address = 0x81; address <= 0x8F; address++, at += 13)
        memcpy(at, (uint8_t[13]){13, 0, 6, 0, 1, (uint8_t)address, flag}, 13);
    memcpy(at, (uint8_t[8]){8, 0, 9, 0, 0, 0x10}, 8);
    memcpy(at + 8, (uint8_t[8]){8, 0, 13, 0, flag}, 8);
    memcpy(at + 16, (uint8_t[24]){24, 0, 14, 0, 1, 0, 0, 0, 80}, 24);
    twice(p, LONGEST_SNAPSHOT);
}

/* A descriptor set of equal descriptors. */
static void set(uint8_t *p, size_t half, const uint8_t *descriptor)
{
    p[0] = 10;
    put16(p + 8, (unsigned)half);
    for (size_t at = 10; at < half; at += descriptor[0])
        memcpy(p + at, descriptor, descriptor[0]);
    twice(p, half);
}

/* An entry for each endpoint of a camera, twice. */
static void entries(uint8_t *p, const uint8_t *camera)
{
    p[0] = camera[15];
    for (int i = 0; i < camera[15]; i++) {
        p[1 + 8 * i] = camera[16 + i];
        p[2 + 8 * i] = camera[31 + i] & 6;
    }
    twice(p, 1 + 8u * camera[15]);
}

/* A camera's snapshot, and the same with another step of EV. */
static void written(uint8_t *p, const uint8_t *camera, size_t len)
{
    memcpy(record, camera, RECORD);
    peer_write(record, RECORD, p, len, 1);
    twice(p, len);
    p[len + 4] = 4;
}

void prepare(void)
{
    memcpy(twin, full, RECORD);
    twin[15] = ENDPOINTS;
    for (int i = 0; i < ENDPOINTS; i++) {
        twin[16 + i] = (uint8_t)(0x81 + i);
        twin[31 + i] = 3;
        twin[71 + i] = 2;
    }
    twice(start_up, sizeof start_up / 2);
    for (size_t at = 0; at < sizeof infos; at += 8)
        memcpy(infos + at, (uint8_t[8]){0xA1, 0x86, 0, EV, 0, 4, 1}, 8);
    entries(faces, full);
    entries(all_faces, twin);
    written(loaded, full, 159);
    written(all_loaded, twin, LONGEST_SNAPSHOT);
    all_keys(merged_a, 1);
    all_keys(merged_b, 2);
    twice(small, 23);
    items(block_200, 200, 20);
    items(block_64k, BLOCK, 8);
    memset(payload_16, 7, sizeof payload_16);
    memset(payload_1000, 9, sizeof payload_1000);
    packets[0] = 22;
    packets[1] = 0x0E;
    twice(packets, 24);
    memcpy(array, second_array, sizeof second_array);
    twice(array, sizeof second_array);
    set(features, FEATURES, (uint8_t[4]){4, 0, 3});
    set(properties, PROPERTIES, (uint8_t[12]){12, 0, 4, 0, 1, 0, 2}); /* a name that is only its zero pair, no data */
}

static uint64_t request(bool ours, const uint8_t *camera, const uint8_t *setup, const uint8_t *payloads, size_t len, size_t n)
{
    uint8_t setups[16];

    memcpy(record, camera, RECORD);
    memcpy(setups, setup, 8);
    twice(setups, 8);
    return (ours ? probe_request : peer_request)(record, RECORD, setups, 16, payloads, len, reply, sizeof reply, n);
}

#define CASE(name) static uint64_t name(bool ours, size_t n)
#define GET(camera, unit, code, selector, wlength) \
    request(ours, camera, (uint8_t[8]){0xA1, code, 0, selector, 0, unit, wlength}, out, 0, n)
#define SET(camera, selector, payloads) \
    request(ours, camera, (uint8_t[8]){0x21, 1, 0, selector, 0, 4, sizeof payloads / 2}, payloads, sizeof payloads, n)

CASE(get_ev) { return GET(full, 4, 0x81, EV, 11); }
CASE(get_ev_fresh) { return GET(bench, 4, 0x81, EV, 11); }
CASE(get_info) { return GET(full, 4, 0x86, EV, 1); }
CASE(get_face) { return GET(full, 4, 0x81, FACE, 65); }
CASE(get_all_faces) { return GET(twin, 4, 0x81, FACE, LONGEST_ANSWER); }
CASE(get_info_twin) { return GET(twin, 4, 0x86, EV, 1); }
CASE(get_throttle) { return GET(full, 4, 0x81, THROTTLE, 20); }
CASE(other_unit) { return GET(full, 5, 0x81, EV, 11); }
CASE(set_ev) { return SET(full, EV, evs); }
CASE(set_ev_far) { return SET(full, EV, far_evs); }
CASE(set_face) { return SET(full, FACE, faces); }
CASE(set_all_faces) { return SET(twin, FACE, all_faces); }
CASE(set_hdr) { return SET(full, HDR, hdrs); }
CASE(set_throttle) { return SET(full, THROTTLE, throttles); }

/* A camera's other calls. */
#define CALL(camera, name, ...) (memcpy(record, camera, RECORD), (ours ? probe_##name : peer_##name)(record, RECORD, __VA_ARGS__))

CASE(batch_ten) { return CALL(bench, batch, start_up, sizeof start_up, buffer, sizeof buffer, n); }
CASE(batch_hundred) { return CALL(full, batch, infos, sizeof infos, buffer, sizeof buffer, n); }
CASE(streaming) { return CALL(full, streaming, n); }
CASE(sensor) { return CALL(full, sensor, n); }
CASE(load) { return CALL(full, load, loaded, sizeof loaded, n); }
CASE(load_all) { return CALL(twin, load, all_loaded, sizeof all_loaded, n); }
CASE(load_small) { return CALL(bench, load, small, sizeof small, n); }
CASE(write_full) { return CALL(full, write, out, sizeof out, n); }
CASE(write_all) { return CALL(twin, write, out, sizeof out, n); }
CASE(write_small)
{
    uint8_t camera[RECORD];

    memcpy(camera, bench, RECORD);
    peer_load(camera, RECORD, small, sizeof small, 1);
    return CALL(camera, write, out, sizeof out, n);
}

/* Calls without a camera. */
#define PLAIN(name, input, ...) (ours ? probe_##name : peer_##name)(input, sizeof input, __VA_ARGS__)

CASE(form) { return PLAIN(form, merged_a, n); }
CASE(form_small) { return PLAIN(form, small, n); }
CASE(merge) { return PLAIN(merge, merged_a, merged_b, sizeof merged_b, out, sizeof out, n); }
CASE(merge_small) { return PLAIN(merge, small, small, sizeof small, out, sizeof out, n); }
CASE(count_200) { return PLAIN(count, block_200, n); }
CASE(count_64k) { return PLAIN(count, block_64k, n); }
CASE(item_200) { return PLAIN(item, block_200, 9, n); }
CASE(item_64k) { return PLAIN(item, block_64k, 8000, n); }
#ifdef VIEWS
CASE(view_200) { return PLAIN(view, block_200, 9, n); }
CASE(view_64k) { return PLAIN(view, block_64k, 8000, n); }
#endif
CASE(append_16) { return PLAIN(append, buffer, 6, payload_16, sizeof payload_16, n); }
CASE(append_1000) { return PLAIN(append, buffer, 6, payload_1000, sizeof payload_1000, n); }
CASE(header) { return PLAIN(header, packets, n); }
CASE(check_712) { return PLAIN(check, array, n); }
CASE(check_64k) { return PLAIN(check, features, n); }
CASE(property_first) { return PLAIN(property, array, 0, n); }
CASE(property_last) { return PLAIN(property, array, 8, n); }
CASE(property_64k) { return PLAIN(property, properties, 5459, n); }
CASE(property_none) { return PLAIN(property, features, 0, n); }

const struct test tests[] = {
    {"request: GET_CUR EV", get_ev, 10000},
    {"request: GET_CUR EV, fresh bench camera", get_ev_fresh, 10000},
    {"request: GET_INFO EV", get_info, 10000},
    {"request: GET_INFO EV, 15 endpoints", get_info_twin, 10000},
    {"request: GET_CUR face, 8 endpoints", get_face, 10000},
    {"request: GET_CUR face, 15 endpoints", get_all_faces, 10000},
    {"request: GET_CUR throttle", get_throttle, 10000},
    {"request: SET_CUR EV", set_ev, 10000},
    {"request: SET_CUR face, 8 entries", set_face, 10000},
    {"request: SET_CUR face, 15 entries", set_all_faces, 10000},
    {"request: SET_CUR HDR", set_hdr, 10000},
    {"request: SET_CUR throttle", set_throttle, 10000},
    {"request: another unit, refused 0x05", other_unit, 10000},
    {"request: SET_CUR EV, refused 0x04", set_ev_far, 10000},
    {"batch::run, start-up of ten, bench camera", batch_ten, 10000},
    {"batch::run, 100 of GET_INFO EV", batch_hundred, 1000},
    {"set_streaming", streaming, 10000},
    {"sensor", sensor, 10000},
    {"load, 159 bytes", load, 10000},
    {"load, 250 bytes", load_all, 10000},
    {"load, 23 bytes", load_small, 10000},
    {"write, 159 bytes", write_full, 10000},
    {"write, 250 bytes", write_all, 10000},
    {"write, 23 bytes", write_small, 10000},
    {"snapshot::check, 250 bytes", form, 10000},
    {"snapshot::check, 23 bytes", form_small, 10000},
    {"merging::merge, 250 and 250 bytes", merge, 10000},
    {"merging::merge, 23 and 23 bytes", merge_small, 10000},
    {"frame::count, 10 items, 200 bytes", count_200, 10000},
    {"frame::count, 8191 items, 65535 bytes", count_64k, 100},
    {"frame::item, last of 10, 200 bytes", item_200, 10000},
    {"frame::item, number 8000, 65535 bytes", item_64k, 100},
#ifdef VIEWS
    {"frame::item_view, last of 10, 200 bytes", view_200, 10000},
    {"frame::item_view, number 8000, 65535 bytes", view_64k, 100},
#endif
    {"frame::append, 16 bytes", append_16, 10000},
    {"frame::append, 1000 bytes", append_1000, 10000},
    {"packet::header", header, 10000},
    {"descriptors::check, 712 bytes", check_712, 10000},
    {"descriptors::check, 65534 bytes", check_64k, 100},
    {"descriptors::property, first, 712 bytes", property_first, 10000},
    {"descriptors::property, last, 712 bytes", property_last, 10000},
    {"descriptors::property, last, 65530 bytes", property_64k, 100},
    {"descriptors::property, none, 65534 bytes", property_none, 100},
};
const size_t test_count = sizeof tests / sizeof *tests;
