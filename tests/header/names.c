/*
 * The names of include/zimogrud.h and the numbers of documents 01 and 02 that they stand for, told once more: a name with
 * another number does not compile. Compiled as C and as C++, and never run; the calls below show that names and declarations
 * go together without a cast or a warning.
 */
#include "zimogrud.h"

#ifndef __cplusplus
#define static_assert _Static_assert
#endif

#define IS(name, number) static_assert((name) == (number), #name)

IS(ZG_LIMIT, 1073741824);
IS(ZG_TURN_LENGTH, 3 * 2);
IS(ZG_SIDE_LENGTH, 4 * 3);
IS(ZG_FLAT_TRIANGLE_LENGTH, 3 * 2);
IS(ZG_SEGMENT_LENGTH, 2 * 3);
IS(ZG_TRIANGLE_LENGTH, 3 * 3);
IS(ZG_TRIANGLE_BYTES, 3 * 3 * 4);
IS(ZG_LIST_TRIANGLES, 1024);
IS(ZG_LIST_LONGEST, 1024 * 9);
IS(ZG_PAIR_LENGTH, 2);

IS(ZG_TOLD, 0);
IS(ZG_ANSWER_TOO_SHORT, 1);
IS(ZG_ANSWER_LENGTH, 4);
IS(ZG_AT_REFUSAL, 0);
IS(ZG_AT_SIDE, 1);
IS(ZG_AT_PLACE, 2);
IS(ZG_AT_VALUE, 3);
IS(ZG_FIRST, 0);
IS(ZG_SECOND, 1);

IS(ZG_SERVED, 0);
IS(ZG_OFF_GRID, 1);
IS(ZG_FLAT_SHAPE, 2);
IS(ZG_WRONG_LENGTH, 3);
IS(ZG_START_BEYOND_END, 4);
IS(ZG_TOO_LITTLE_ROOM, 5);
IS(ZG_NO_SUCH_SLOT, 6);
IS(ZG_NO_SUCH_PART, 7);
IS(ZG_SLOT_FILLED, 8);
IS(ZG_SLOT_EMPTY, 9);
IS(ZG_PART_NOT_PLACED, 10);
IS(ZG_LEAVES_GRID, 11);
IS(ZG_NOTHING_TO_UNDO, 12);
IS(ZG_BAD_FIELD, 13);
IS(ZG_SHEET_CUT, 14);
IS(ZG_SHEET_TOO_LONG, 15);
IS(ZG_SHELL_OPEN, 16);

IS(ZG_SIGN_MINUS, -1 + 1);
IS(ZG_SIGN_ZERO, 0 + 1);
IS(ZG_SIGN_PLUS, 1 + 1);
IS(ZG_APART, 0);
IS(ZG_MEETING, 1);
IS(ZG_REFUSED_BASE, 100);

IS(ZG_SLOTS, 64);
IS(ZG_PARTS, 16);
IS(ZG_REACH, 32);
IS(ZG_CALL_LENGTH, 3);
IS(ZG_CALL_COORDINATES, 9);
IS(ZG_CALL_ANSWER_LENGTH, 6);
IS(ZG_CALL_PLACE, 1);
IS(ZG_CALL_LIFT, 2);
IS(ZG_CALL_SHIFT, 3);
IS(ZG_CALL_UNDO, 4);
IS(ZG_CALL_PARTS, 5);
IS(ZG_CALL_AT_COUNT, 3);
IS(ZG_CALL_AT_REACH, 4);
IS(ZG_CALL_AT_VALUE, 5);
IS(ZG_NO_CLASH, 0);
IS(ZG_CLASH, 1);

/*
 * The most lines are of fields without a body, and one of a cut field. A refusal has at most two digits and a count four, for
 * 64 slots have 2,016 pairs.
 */
IS(ZG_SHEET_LONGEST, 65536);
IS(ZG_SHEET_TEXT_LENGTH, (65536 / 3 + 1) * (2 + 1 + 4 + 1));
IS(ZG_TAG_PLACE, 1);
IS(ZG_TAG_LIFT, 2);
IS(ZG_TAG_SHIFT, 3);
IS(ZG_TAG_UNDO, 4);
IS(ZG_FIELD_HEAD_LENGTH, 1 + 2);
IS(ZG_PLACE_BODY_LENGTH, 1 + 1 + 9 * 4);
IS(ZG_LIFT_BODY_LENGTH, 1);
IS(ZG_SHIFT_BODY_LENGTH, 1 + 3 * 4);
IS(ZG_UNDO_BODY_LENGTH, 0);

int turns_left(const int32_t *points);
int parts_clash(const uint32_t *calls, const int32_t *numbers);
int is_too_long(const uint8_t *sheet, size_t sheet_length);
int is_off_grid(const uint8_t *triangle);

int turns_left(const int32_t *points)
{
    uint64_t answer[ZG_ANSWER_LENGTH];
    return zg_turn(points, ZG_TURN_LENGTH, answer, ZG_ANSWER_LENGTH) == ZG_TOLD && answer[ZG_AT_REFUSAL] == ZG_SERVED
        && answer[ZG_AT_VALUE] == ZG_SIGN_PLUS && points[0] >= -ZG_LIMIT;
}

int parts_clash(const uint32_t *calls, const int32_t *numbers)
{
    uint64_t answers[ZG_CALL_ANSWER_LENGTH];
    return zg_plate(calls, ZG_CALL_LENGTH, numbers, ZG_CALL_COORDINATES, answers, ZG_CALL_ANSWER_LENGTH) == 1
        && calls[0] == ZG_CALL_PARTS && answers[ZG_CALL_AT_VALUE] == ZG_CLASH;
}

int is_too_long(const uint8_t *sheet, size_t sheet_length)
{
    static uint8_t text[ZG_SHEET_TEXT_LENGTH];
    return zg_sheet(sheet, sheet_length, text) == sizeof "15 0\n" - 1 && sheet_length > ZG_SHEET_LONGEST;
}

int is_off_grid(const uint8_t *triangle)
{
    return zg_pair_bytes(triangle, ZG_TRIANGLE_BYTES, triangle, ZG_TRIANGLE_BYTES) == ZG_REFUSED_BASE + ZG_OFF_GRID;
}
