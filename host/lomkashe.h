/* Lomkashe's console for a C program: answers a script of forms, one line for each. */
#ifndef LOMKASHE_H
#define LOMKASHE_H

#include <stddef.h>
#include <stdint.h>

#ifdef __cplusplus
extern "C" {
#endif

/* A script has at most this many bytes; a longer one is refused with LOMKASHE_LONG_SCRIPT. */
#define LOMKASHE_MOST_SCRIPT_BYTES 32768

/* The output needs this many bytes for each line of the script; less is refused with LOMKASHE_SHORT_OUTPUT. */
#define LOMKASHE_BYTES_FOR_A_LINE 32

/* The refusals. They are checked in this order, and leave the output as it was. */
#define LOMKASHE_LONG_SCRIPT (-51)
#define LOMKASHE_SHORT_OUTPUT (-52)

/*
 * Answers the script into the output. Returns how many bytes it wrote, or one of the refusals above.
 * Output bytes behind those written stay as they were. Neither pointer may be null, also for a length of 0;
 * the two do not overlap. Nothing is kept from one call to the next.
 */
int64_t lomkashe_run(const uint8_t *script, size_t script_length, uint8_t *output, size_t output_length);

#ifdef __cplusplus
}
#endif

#endif
