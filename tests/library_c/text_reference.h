/* Lists as text: an independent reference implementation, written to be simple. */
#ifndef TEXT_REFERENCE_H
#define TEXT_REFERENCE_H

#include <stddef.h>
#include <stdint.h>

struct text_said {
    size_t reason, place, length;
};

/* Writes the text of a list to `output` if the call is accepted. */
struct text_said reference_write_text(size_t k, size_t d, size_t n, const uint32_t *table, size_t length,
                                      uint8_t *output, size_t output_length);

/* Writes the list of a text to `output` if the call is accepted. */
struct text_said reference_read_text(size_t k, size_t d, size_t n, const uint8_t *text, size_t length, uint32_t *output,
                                     size_t output_length);

#endif
