/* The check of a Microsoft OS 2.0 descriptor set, for the boot code.
   Link target/staticlib/libdescriptors.a, which c/archive.sh proves and writes. */
#ifndef FLANDURVI_DESCRIPTORS_H
#define FLANDURVI_DESCRIPTORS_H

#include <stddef.h>
#include <stdint.h>

enum {
    FLANDURVI_DESCRIPTORS_SOUND = 0x00,
    FLANDURVI_DESCRIPTORS_BAD_SET_HEADER = 0x30,
    FLANDURVI_DESCRIPTORS_PAST_PARENT = 0x31,
    FLANDURVI_DESCRIPTORS_BAD_TYPE = 0x32,
    FLANDURVI_DESCRIPTORS_BAD_LENGTH = 0x33,
    FLANDURVI_DESCRIPTORS_BAD_FIELD = 0x34
};

/* FLANDURVI_DESCRIPTORS_SOUND, or the refusal of the set's first fault. `set` points to `length` bytes that nothing writes
   during the call; it is not null, even where `length` is 0. */
uint32_t flandurvi_descriptors_check(const uint8_t *set, size_t length);

#endif
