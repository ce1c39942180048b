/* Runs the boot code's check on 004's two arrays and on damaged copies of the second. Says what differs; the exit status is 0 where nothing does. */
#include "arrays.h"
#include "flandurvi_descriptors.h"

#include <stdio.h>
#include <string.h>

/* One byte of the second array changed, and the answer. */
static const struct {
    const char *what;
    size_t at;
    uint8_t byte;
    uint32_t answer;
} damaged[] = {
    {"total one less", 8, 0xc7, FLANDURVI_DESCRIPTORS_BAD_SET_HEADER},
    {"configuration length 9", 10, 0x09, FLANDURVI_DESCRIPTORS_BAD_LENGTH},
    {"configuration total past the set", 16, 0xbf, FLANDURVI_DESCRIPTORS_PAST_PARENT},
    {"function type 3", 20, 0x03, FLANDURVI_DESCRIPTORS_SOUND},
    {"function type 1", 20, 0x01, FLANDURVI_DESCRIPTORS_BAD_TYPE},
    {"function reserved", 23, 0x01, FLANDURVI_DESCRIPTORS_BAD_FIELD},
    {"function total one more", 24, 0x6f, FLANDURVI_DESCRIPTORS_PAST_PARENT},
    {"first name odd", 32, 0x29, FLANDURVI_DESCRIPTORS_BAD_FIELD},
    {"zero pair of the first name", 73, 0x01, FLANDURVI_DESCRIPTORS_BAD_FIELD},
    {"last data type 5", 658, 0x05, FLANDURVI_DESCRIPTORS_SOUND},
    {"last data type 8", 658, 0x08, FLANDURVI_DESCRIPTORS_BAD_FIELD},
    {"last data length", 706, 0x05, FLANDURVI_DESCRIPTORS_BAD_FIELD},
    {"second interface 7", 388, 0x07, FLANDURVI_DESCRIPTORS_SOUND},
};

static int failures;

static void expect(const char *what, const uint8_t *set, size_t length, uint32_t answer)
{
    uint32_t got = flandurvi_descriptors_check(set, length);
    if (got != answer) {
        printf("%s: 0x%02x, not 0x%02x\n", what, (unsigned)got, (unsigned)answer);
        failures++;
    }
}

/* Cut short, a set is shorter than its total. */
static void expect_cut(void)
{
    for (size_t length = 0; length < sizeof second_array; length++)
        expect("cut short", second_array, length, FLANDURVI_DESCRIPTORS_BAD_SET_HEADER);
}

int main(void)
{
    uint8_t copy[sizeof second_array];

    expect("first, as printed", first_array, sizeof first_array, FLANDURVI_DESCRIPTORS_BAD_FIELD);
    memcpy(copy, first_array, sizeof first_array);
    copy[16] = 36;
    expect("first, name length 36", copy, sizeof first_array, FLANDURVI_DESCRIPTORS_SOUND);
    expect("second", second_array, sizeof second_array, FLANDURVI_DESCRIPTORS_SOUND);
    expect_cut();
    for (size_t i = 0; i < sizeof damaged / sizeof damaged[0]; i++) {
        memcpy(copy, second_array, sizeof second_array);
        copy[damaged[i].at] = damaged[i].byte;
        expect(damaged[i].what, copy, sizeof copy, damaged[i].answer);
    }
    return failures != 0;
}
