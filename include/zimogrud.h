/*
 * Zimogrud for C and C++: the exact signs of points, the tests whether two shapes of the plane or of space have a point in
 * common, the listing of all pairs of triangles of two lists that have one, and runs of calls on a plate, as numbers or as a
 * job sheet, as libdoor.a has them. Where a number has a name, both are told, the number in brackets or beside the name; the
 * names are defined before the calls.
 *
 * What goes in. Points are one list of whole numbers, point after point:
 *
 *     zg_turn      three points of the plane, ZG_TURN_LENGTH (6) numbers
 *     zg_side      four points of space, ZG_SIDE_LENGTH (12) numbers
 *     zg_flat      two triangles of the plane, ZG_FLAT_TRIANGLE_LENGTH (6) numbers each
 *     zg_segment   a segment and a triangle of space, ZG_SEGMENT_LENGTH (6) and ZG_TRIANGLE_LENGTH (9) numbers
 *     zg_pair      two triangles of space, ZG_TRIANGLE_LENGTH (9) numbers each
 *     zg_pair_bytes
 *                  the same as bytes, ZG_TRIANGLE_BYTES (36) each: told below, at its declaration, with what it answers
 *     zg_list      two lists of triangles of space, ZG_TRIANGLE_LENGTH (9) numbers a triangle; each list has 0 to
 *                  ZG_LIST_TRIANGLES (1024) triangles, so up to ZG_LIST_LONGEST (9216) numbers
 *     zg_plate     calls on a plate: told below, at its declaration, with what it answers
 *     zg_sheet     a job sheet, which is bytes: told below, at its declaration, with what it answers
 *
 * Every number should lie from -ZG_LIMIT to ZG_LIMIT (1073741824), ends included. Yet any numbers and any lengths may be given.
 * What can't be served is refused.
 *
 * What comes out, of all but zg_pair_bytes, zg_plate and zg_sheet. ZG_ANSWER_LENGTH (4) numbers are written to the front of
 * `answer`, and all after the fourth stay:
 *
 *     answer[ZG_AT_REFUSAL]   [0]   the refusal number, ZG_SERVED (0) where the call serves
 *     answer[ZG_AT_SIDE]      [1]   ZG_FIRST (0) for the first or only list, ZG_SECOND (1) for the second; 0 where the call
 *                                   serves
 *     answer[ZG_AT_PLACE]     [2]   the place, by the table below; 0 where the call serves
 *     answer[ZG_AT_VALUE]     [3]   the value; 0 where the call refuses
 *
 * The result is ZG_TOLD (0); or it is ZG_ANSWER_TOO_SHORT (1), with `answer` untouched and `buffer` too, where `answer` has
 * room for fewer than four numbers. The result says nothing of a refusal: read the refusal number, and the value only where
 * that is ZG_SERVED.
 *
 * The listing. zg_list also writes to `buffer`, from buffer[start] on: ZG_PAIR_LENGTH (2) numbers for each pair of triangles
 * that have a point in common, the index of the one in the first list and of the other in the second, both from 0. The pairs
 * rise in the first index and then in the second. The numbers before buffer[start] and after the last pair stay as they are,
 * and the whole buffer does where the call refuses. `start` counts numbers, not pairs. It may be the buffer's length: then
 * there is no room, and the call serves where there is no pair.
 *
 *     refusal                  given where                                                 place
 *     ZG_OFF_GRID          1   a number is below -1073741824 or above 1073741824           its position in that list, from 0
 *     ZG_FLAT_SHAPE        2   a triangle is flat (zg_flat, and a place on a plate)        0
 *     ZG_WRONG_LENGTH      3   a list has the wrong length                                 its length
 *     ZG_START_BEYOND_END  4   `start` is above the buffer's length (zg_list)              the buffer's length
 *     ZG_TOO_LITTLE_ROOM   5   there are fewer than two numbers a pair from `start` on     how many pairs there are
 *                              (zg_list)
 *
 * A triangle is flat where its corners lie on one line, equal corners included, and a segment where its ends are equal.
 * zg_segment, zg_pair, zg_pair_bytes and zg_list take a flat shape as the segment or the point that it is; only zg_flat and a
 * place, of zg_plate or zg_sheet, refuse one. In zg_list a length is wrong where it is no multiple of nine or is above 9216. A
 * position is that of the number in its whole list, of whatever triangle. Refusals 4 and 5 have side 0.
 *
 * Of several faults the first counts: 4; 3, first list before second; then 1 and then 2 of the first list, and of the second;
 * 5. Of several numbers of a list for which 1 could be given, that of the lowest position counts.
 *
 * What the caller owes, which no call can see for itself. Each pointer is not null, is aligned for its type and is valid for
 * as many numbers or bytes as the length beside it says, and `text` of zg_sheet for ZG_SHEET_TEXT_LENGTH (174768) bytes: for
 * reading and, at `answer`, `answers`, `buffer` and `text`, for writing; not null and aligned also where the length is 0. Bytes
 * need no alignment. These four overlap neither each other nor any of the other lists, and nothing else writes to any of them
 * during the call. zg_list takes some 296 kilobytes of stack, whatever its lists, zg_plate some 87 and zg_sheet some 68; the
 * other calls take little. The processor rounds doubles to nearest and an inexact result raises no signal, as it is in every
 * thread of a C or Rust program that has not changed it (fesetround, feenableexcept): an estimate in doubles tells signs, and
 * it is proved for that way of rounding only.
 *
 * The library keeps nothing from one call to the next. Several threads may call it at once, each with an `answer`, `answers`,
 * `buffer` or `text` of its own.
 */
#ifndef ZIMOGRUD_H
#define ZIMOGRUD_H

#include <stddef.h>
#include <stdint.h>

/* ---- The names. All are of type int, and fit the arrays and the results that they are compared with. ---- */

/* Coordinates, how many numbers the lists have, and how many bytes a triangle takes. */
#define ZG_LIMIT 1073741824
#define ZG_TURN_LENGTH 6
#define ZG_SIDE_LENGTH 12
#define ZG_FLAT_TRIANGLE_LENGTH 6
#define ZG_SEGMENT_LENGTH 6
#define ZG_TRIANGLE_LENGTH 9
#define ZG_TRIANGLE_BYTES 36
#define ZG_LIST_TRIANGLES 1024
#define ZG_LIST_LONGEST 9216

/* What a call gives back, but for zg_pair_bytes, zg_plate and zg_sheet. */
#define ZG_TOLD 0
#define ZG_ANSWER_TOO_SHORT 1

/* An answer: how long it is, and what stands where. An answer of zg_plate has the first three at the same places. */
#define ZG_ANSWER_LENGTH 4
#define ZG_AT_REFUSAL 0
#define ZG_AT_SIDE 1
#define ZG_AT_PLACE 2
#define ZG_AT_VALUE 3

/* Sides. */
#define ZG_FIRST 0
#define ZG_SECOND 1

/*
 * Refusals. zg_plate gives 1, 2, 6 to 12 and 16, zg_sheet 1, 2 and 6 to 15, zg_flat 1 to 3, zg_list 1 and 3 to 5, the other
 * calls 1 and 3.
 */
#define ZG_SERVED 0
#define ZG_OFF_GRID 1
#define ZG_FLAT_SHAPE 2
#define ZG_WRONG_LENGTH 3
#define ZG_START_BEYOND_END 4
#define ZG_TOO_LITTLE_ROOM 5
#define ZG_NO_SUCH_SLOT 6
#define ZG_NO_SUCH_PART 7
#define ZG_SLOT_FILLED 8
#define ZG_SLOT_EMPTY 9
#define ZG_PART_NOT_PLACED 10
#define ZG_LEAVES_GRID 11
#define ZG_NOTHING_TO_UNDO 12
#define ZG_BAD_FIELD 13
#define ZG_SHEET_CUT 14
#define ZG_SHEET_TOO_LONG 15
#define ZG_SHELL_OPEN 16

/* Values of zg_turn and zg_side: the signs -1, 0 and 1. */
#define ZG_SIGN_MINUS 0
#define ZG_SIGN_ZERO 1
#define ZG_SIGN_PLUS 2

/*
 * Values of zg_flat, zg_segment and zg_pair, and results of zg_pair_bytes. Where that refuses, its result is ZG_REFUSED_BASE
 * plus the number of the refusal.
 */
#define ZG_APART 0
#define ZG_MEETING 1
#define ZG_REFUSED_BASE 100

/* How many numbers of the buffer a pair of zg_list takes. */
#define ZG_PAIR_LENGTH 2

/* The plate: how many slots and parts it has, and how many changes it can take back at most. */
#define ZG_SLOTS 64
#define ZG_PARTS 16
#define ZG_REACH 32

/* How many numbers a call on the plate takes of each of the three lists. */
#define ZG_CALL_LENGTH 3
#define ZG_CALL_COORDINATES 9
#define ZG_CALL_ANSWER_LENGTH 6

/* The calls on the plate. */
#define ZG_CALL_PLACE 1
#define ZG_CALL_LIFT 2
#define ZG_CALL_SHIFT 3
#define ZG_CALL_UNDO 4
#define ZG_CALL_PARTS 5

/* What stands where in the answer of a call on the plate, after the first three; and the values of ZG_CALL_PARTS. */
#define ZG_CALL_AT_COUNT 3
#define ZG_CALL_AT_REACH 4
#define ZG_CALL_AT_VALUE 5
#define ZG_NO_CLASH 0
#define ZG_CLASH 1

/* A sheet: how many bytes it may have at most, and how many its answer's text may take. */
#define ZG_SHEET_LONGEST 65536
#define ZG_SHEET_TEXT_LENGTH 174768

/* A field of a sheet: its tags, and how many bytes its head has, and its body by its tag. */
#define ZG_TAG_PLACE 1
#define ZG_TAG_LIFT 2
#define ZG_TAG_SHIFT 3
#define ZG_TAG_UNDO 4
#define ZG_FIELD_HEAD_LENGTH 3
#define ZG_PLACE_BODY_LENGTH 38
#define ZG_LIFT_BODY_LENGTH 1
#define ZG_SHIFT_BODY_LENGTH 13
#define ZG_UNDO_BODY_LENGTH 0

/* ---- The calls ---- */

#ifdef __cplusplus
extern "C" {
#endif

/*
 * Value: how the three points turn. ZG_SIGN_MINUS (0) to the right, sign -1; ZG_SIGN_ZERO (1) not at all, on one line;
 * ZG_SIGN_PLUS (2) to the left, sign 1.
 */
uint32_t zg_turn(const int32_t *points, size_t points_length, uint64_t *answer, size_t answer_length);

/*
 * Value: the sign of the determinant of a - d, b - d, c - d, of the points a, b, c, d. ZG_SIGN_MINUS (0) for -1, ZG_SIGN_ZERO
 * (1) for 0, ZG_SIGN_PLUS (2) for 1.
 */
uint32_t zg_side(const int32_t *points, size_t points_length, uint64_t *answer, size_t answer_length);

/*
 * Value: whether the two triangles have a point in common. ZG_APART (0) or ZG_MEETING (1); a touch is meeting. A flat triangle
 * is refused.
 */
uint32_t zg_flat(const int32_t *a, size_t a_length, const int32_t *b, size_t b_length, uint64_t *answer, size_t answer_length);

/*
 * Value: whether the segment a and the triangle b have a point in common. ZG_APART (0) or ZG_MEETING (1); a touch is meeting.
 * Either may be flat, and is the segment or the point that it is then.
 */
uint32_t zg_segment(const int32_t *a, size_t a_length, const int32_t *b, size_t b_length, uint64_t *answer,
    size_t answer_length);

/*
 * Value: whether the two triangles have a point in common. ZG_APART (0) or ZG_MEETING (1); a touch is meeting. Either may be
 * flat, and is the segment or the point that it is then.
 */
uint32_t zg_pair(const int32_t *a, size_t a_length, const int32_t *b, size_t b_length, uint64_t *answer, size_t answer_length);

/*
 * The same verdict for a caller that holds a triangle as ZG_TRIANGLE_BYTES (36) bytes: its nine numbers one after the other,
 * signed ones of 32 bits, low byte first. Nothing is written; the result tells all.
 *
 * Result: ZG_APART (0) or ZG_MEETING (1), or ZG_REFUSED_BASE (100) plus the number of a refusal:
 *
 *     ZG_REFUSED_BASE + ZG_WRONG_LENGTH   103   a or b is not 36 bytes long
 *     ZG_REFUSED_BASE + ZG_OFF_GRID       101   both are, and a number of a or of b is off the grid
 *
 * Side and place are not told. zg_pair, on the same numbers, tells them.
 */
uint32_t zg_pair_bytes(const uint8_t *a, size_t a_length, const uint8_t *b, size_t b_length);

/*
 * Value: how many pairs of a triangle of a and a triangle of b have a point in common; a touch counts. `buffer` gets them.
 * Flat triangles are the segments and the points that they are.
 */
uint32_t zg_list(const int32_t *a, size_t a_length, const int32_t *b, size_t b_length, uint32_t *buffer, size_t buffer_length,
    size_t start, uint64_t *answer, size_t answer_length);

/*
 * A run of calls on a plate that is empty at first. The plate has ZG_SLOTS (64) slots and ZG_PARTS (16) parts, both numbered
 * from 0; its reach, the changes that it can take back, is at most ZG_REACH (32). Call k takes ZG_CALL_LENGTH (3) numbers of
 * `calls`, from calls[3k] on, ZG_CALL_COORDINATES (9) of `numbers`, from numbers[9k] on, and ZG_CALL_ANSWER_LENGTH (6) of
 * `answers`, from answers[6k] on. What it doesn't need of the first two may be anything.
 *
 *     calls[3k]            calls[3k + 1]   calls[3k + 2]   numbers[9k] on     refused with, the first counts
 *     ZG_CALL_PLACE   1    slot            part            the triangle's 9   6, 7, 1, 2, 8
 *     ZG_CALL_LIFT    2    slot                                               6, 9
 *     ZG_CALL_SHIFT   3    part                            3: dx, dy, dz      7, 10, 11
 *     ZG_CALL_UNDO    4                                                       12
 *     ZG_CALL_PARTS   5    p               q                                  7 for p, 7 for q, 10 for p, 10 for q,
 *                                                                             16 for p, 16 for q
 *
 *     answers[6k + ZG_AT_REFUSAL]      [6k]       the refusal number, ZG_SERVED (0) where the call serves
 *     answers[6k + ZG_AT_SIDE]         [6k + 1]   ZG_SECOND (1) where ZG_CALL_PARTS refuses q, otherwise ZG_FIRST (0)
 *     answers[6k + ZG_AT_PLACE]        [6k + 2]   the place, by the tables; 0 where the call serves
 *     answers[6k + ZG_CALL_AT_COUNT]   [6k + 3]   the count after the call
 *     answers[6k + ZG_CALL_AT_REACH]   [6k + 4]   the reach after the call
 *     answers[6k + ZG_CALL_AT_VALUE]   [6k + 5]   of ZG_CALL_PARTS ZG_CLASH (1) where p and q clash, ZG_NO_CLASH (0) where
 *                                                 they don't or p is q; 0 of other calls and where the call refuses
 *
 *     refusal                  given where                                    place
 *     ZG_NO_SUCH_SLOT      6   a slot is above 63                             the slot
 *     ZG_NO_SUCH_PART      7   a part is above 15                             the part
 *     ZG_SLOT_FILLED       8   a place into a filled slot                     the slot
 *     ZG_SLOT_EMPTY        9   a lift of an empty slot                        the slot
 *     ZG_PART_NOT_PLACED  10   no triangle of that part is on the plate       the part
 *     ZG_LEAVES_GRID      11   a shift would take a coordinate off the grid   the lowest such slot
 *     ZG_NOTHING_TO_UNDO  12   an undo at reach 0                             0
 *     ZG_SHELL_OPEN       16   the shell of a part is open                    the part
 *
 * Two parts clash where their skins meet, that is, where a triangle of the one has a point in common with a triangle of the
 * other, or where a corner of one is inside the other: an odd number of the other's triangles lies ahead of it in the +x
 * direction. (The corner is taken to be moved by a vanishing positive amount in y and a still smaller one in z, so that no ray
 * runs along a triangle or through a corner.) So a part that is swallowed whole clashes; one in a hollow that is given by an
 * inner skin doesn't. Inside asks for closed shells: each directed edge of a part's triangles occurs once, and its reverse
 * once, where the triangle a, b, c has the edges a to b, b to c and c to a. A part asked against itself doesn't clash, and
 * skins that meet do, whatever the shells; otherwise 16 is given where one is open. The count is of pairs of triangles that
 * have a point in common: a part that is swallowed whole adds nothing to it.
 *
 * Result: how many calls were done. These are all that `calls`, `numbers` and `answers` have room for, or those before the
 * first of another kind than 1 to 5. All numbers of `answers` after theirs stay as they are.
 */
uint64_t zg_plate(const uint32_t *calls, size_t calls_length, const int32_t *numbers, size_t numbers_length, uint64_t *answers,
    size_t answers_length);

/*
 * A job sheet, read on a plate that is empty at first, and answered as text. A sheet is fields, one after the other, of at most
 * ZG_SHEET_LONGEST (65536) bytes in all. A field has a head of ZG_FIELD_HEAD_LENGTH (3) bytes, a one-byte tag and a two-byte
 * length, low byte first, and a body of that length:
 *
 *     tag                 length                          body                                refused with, the first counts
 *     ZG_TAG_PLACE   1    ZG_PLACE_BODY_LENGTH (38)       slot, part, the triangle's 9        6, 7, 1, 2, 8
 *     ZG_TAG_LIFT    2    ZG_LIFT_BODY_LENGTH (1)         slot                                6, 9
 *     ZG_TAG_SHIFT   3    ZG_SHIFT_BODY_LENGTH (13)       part, 3 numbers: dx, dy, dz         7, 10, 11
 *     ZG_TAG_UNDO    4    ZG_UNDO_BODY_LENGTH (0)                                             12
 *
 * Slot and part are a byte each, the numbers signed ones of 32 bits, low byte first. The fields are applied in order, as the
 * calls of zg_plate are. For each field the text has a line: the refusal number, a space, the count after it and a newline
 * (byte 10), both numbers in decimal without sign or leading zeros. ZG_SERVED (0) is the number of a field that is served.
 *
 *     refusal                  given where
 *     ZG_BAD_FIELD        13   the tag is unknown, or the length is wrong for the tag
 *     ZG_SHEET_CUT        14   the sheet ends inside a field
 *     ZG_SHEET_TOO_LONG   15   the sheet is above 65536 bytes
 *
 * At one field, a cut head is 14, then 13, then a cut body 14. After 13 or 14 one such line is written, with the count as it
 * stands, and reading stops; earlier fields stand. Of a sheet that is too long nothing is applied, and its one line is 15 0. An
 * empty sheet has the empty text.
 *
 * Result: how many bytes the text has. It is written to the front of `text`, with no zero byte behind it; all bytes after it
 * stay as they are. `text` has to have room for ZG_SHEET_TEXT_LENGTH (174768) bytes, whatever the sheet.
 */
size_t zg_sheet(const uint8_t *sheet, size_t sheet_length, uint8_t *text);

#ifdef __cplusplus
}
#endif

#endif
