/*
 * Where a call belongs, worked out from the document's words: "FNV-1a, 32 bits, as published: start
 * at 2166136261, for each of the four bytes, lowest first, exclusive-or, then times 16777619 modulo
 * 2^32."
 */
#ifndef KEY_H
#define KEY_H

#include <stdint.h>

uint32_t pseudo_key(uint32_t call);

/* The first bits of the pseudo key, read as a number: the call's entry where the directory has this
 * depth, and the pattern of its page where the page has. */
unsigned first_bits(uint32_t call, unsigned depth);

/* The lowest call from this one on whose pseudo key begins with the pattern, of so many bits; 8 at
 * most, so that one is found soon. */
uint32_t call_under(unsigned depth, unsigned pattern, uint32_t from);

#endif
