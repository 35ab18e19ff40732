/* The proved player, as C functions on numbers and slices. A slice is a pointer and a length. */
#ifndef CARDREADER_H
#define CARDREADER_H

#include <stddef.h>
#include <stdint.h>

/* 0: done; 1 to 9: the number of a refusal; 255: no memory could be had. */
#define CARDREADER_DONE 0
#define CARDREADER_NO_MEMORY 255

/* status as above; length: the bytes of the report that were written, 0 where refused */
struct cardreader_played {
    uint64_t status;
    uint64_t length;
};

/* Plays a trace over an image and writes its report. The pool of a shadow has pool_words zero words. */
struct cardreader_played cardreader_play_nested(uint8_t *image, size_t image_len, const uint8_t *trace, size_t trace_len, uint8_t *report, size_t report_len);
struct cardreader_played cardreader_play_shadow(size_t pool_words, uint8_t *image, size_t image_len, const uint8_t *trace, size_t trace_len, uint8_t *report, size_t report_len);
struct cardreader_played cardreader_play_tlb_tlb_shadow(size_t pool_words, uint8_t *image, size_t image_len, const uint8_t *trace, size_t trace_len, uint8_t *report, size_t report_len);

/* status: 0, or 3 or 4 for a root register that breaks its layout, or 255; sum: the words that the loads answered, added up modulo 2^64 */
struct cardreader_loaded {
    uint64_t status;
    uint64_t sum;
};

/* Loads from each address in turn, in mode s with SUM and MXR 0, on a machine over these words with these roots. */
struct cardreader_loaded cardreader_loads_nested(uint64_t *words, size_t words_len, uint64_t guest_root, uint64_t host_root, const uint64_t *addresses, size_t addresses_len);
struct cardreader_loaded cardreader_loads_shadow(size_t pool_words, uint64_t *words, size_t words_len, uint64_t guest_root, uint64_t host_root, const uint64_t *addresses, size_t addresses_len);
struct cardreader_loaded cardreader_loads_tlb(uint64_t *words, size_t words_len, uint64_t guest_root, uint64_t host_root, const uint64_t *addresses, size_t addresses_len);

#endif
