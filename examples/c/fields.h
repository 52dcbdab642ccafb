/*
 * The kinds of fields that a sheet has, and the word that stands for each in text. The body of a field has bytes, its slot and
 * its part, as far as it has them, and after them numbers of four bytes.
 */
#ifndef EXAMPLES_FIELDS_H
#define EXAMPLES_FIELDS_H

#include "zimogrud.h"

#include <stddef.h>

enum { NUMBER_LENGTH = 4 };

/* What the text takes behind the word is told in words, as well. */
struct kind {
    const char *word;
    const char *taken;
    unsigned tag;
    size_t body_length;
    size_t byte_count;
};

static const struct kind kinds[] = {
    {"place", "11 numbers (a slot, a part and a triangle's nine)", ZG_TAG_PLACE, ZG_PLACE_BODY_LENGTH, 2},
    {"lift", "1 number (a slot)", ZG_TAG_LIFT, ZG_LIFT_BODY_LENGTH, 1},
    {"shift", "4 numbers (a part and a move's three)", ZG_TAG_SHIFT, ZG_SHIFT_BODY_LENGTH, 1},
    {"undo", "no number", ZG_TAG_UNDO, ZG_UNDO_BODY_LENGTH, 0},
};
enum { KIND_COUNT = sizeof kinds / sizeof kinds[0] };

static inline size_t number_count(const struct kind *kind)
{
    return (kind->body_length - kind->byte_count) / NUMBER_LENGTH;
}

#endif
