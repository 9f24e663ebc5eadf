/* The table of kinds for all tests in C: the number of operands, and whether the gate is conditional. The tests in
 * Python have theirs in tests/reference.py. */
#ifndef KINDS_H
#define KINDS_H

#include <stdint.h>

#define KINDS 8

static const uint32_t kind_operands[KINDS] = {0, 0, 1, 1, 2, 2, 2, 3};
static const uint8_t kind_conditional[KINDS] = {0, 0, 0, 0, 1, 1, 0, 1};

#endif
