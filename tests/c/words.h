/* What each word of a state holds, for the tests that break one; no host is told. */
#ifndef WORDS_H
#define WORDS_H

#include <ghixramel.h>

enum { PORT_KIND_WORD = 7, DEBOUNCE_WORD = 17, DEBOUNCE_COUNT_WORD = 18, STATUS_WORD = 19, LINE_WORD = 20, POINTER_WORD = 21 };
enum { BUS_WORD = 22, CHOICE_WORD = 23, MODE_WORD = 24, NUMBER_WORD = 25, PLACE_WORD = 26, PART_WORD = 27, WORDS = 28 };

/* The bits of a word that can be other than 0; of pointer, bus state and place not all of their numbers can stand, of the part
 * only all of them, and of status and line only what the other words give. */
uint64_t bits_of_word(uint32_t word);

/* The state that has the image. */
struct ghixramel words_of(const struct ghixramel_image *image);

/* The words with the status and the line that the others give, pins past the last one left out. */
struct ghixramel kept_words(struct ghixramel device);

#endif
