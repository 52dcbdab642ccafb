/*
 * The relay: lets the second program reach a libdoor.a that is not linked into it. That is how it asks from another
 * processor, where an emulator runs the relay, and how the calls are made under a tool that watches memory. It reads
 * requests from standard input until its end, makes the call that each one asks for, and writes the replies to standard
 * output in the same order. relay.h says what it needs from the other part of its program.
 *
 * A request is one frame. Its reply is the same frame, of the same size, as the call left it. All numbers in it are
 * little-endian:
 *
 *     bytes 0 to 7     the mark of a frame, 0x7a670005
 *     bytes 8 to 15    in a reply the result; in a request any number
 *     bytes 16 to 19   the call: 1 zg_turn, 2 zg_side, 3 zg_flat, 4 zg_segment, 5 zg_pair, 6 zg_list, 7 zg_plate,
 *                      8 zg_sheet, 9 zg_pair_bytes
 *     bytes 20 to 23   how many numbers each margin has
 *     bytes 24 to 27   how many numbers the first list has; for zg_plate it holds the calls, bit for bit, for zg_sheet
 *                      the sheet and for zg_pair_bytes the first slice, four bytes to a number
 *     bytes 28 to 31   how many numbers the second list has; 0 for zg_turn, zg_side and zg_sheet; for zg_pair_bytes it
 *                      holds the second slice
 *     bytes 32 to 35   how many numbers the lent answer has, or the lent answers of zg_plate; 1 for zg_sheet, 0 for
 *                      zg_pair_bytes
 *     bytes 36 to 39   how many numbers the lent buffer has; 0 for all but zg_list and zg_sheet
 *     bytes 40 to 47   the start place, for zg_list; how many bytes the sheet has, for zg_sheet; for zg_pair_bytes how
 *                      many bytes of the lists stand before the first slice, behind it, before the second slice and
 *                      behind it, a byte to each, and four bytes of 0
 *     then             a margin, the lent answer and a margin, unsigned 64-bit numbers
 *     then             a margin, the lent buffer and a margin, unsigned 32-bit numbers
 *     then             the first list and then the second, signed 32-bit numbers
 *     then             four bytes of 0 where the frame's size would not be a multiple of eight without them
 *
 * The room that zg_sheet writes its text to is too long to be sent each time. It is kept here, between two margins, all
 * of it filled with marks. The frame's buffer is the front of that room, four bytes to a number: it is put there before
 * the call and taken from there after it. The frame's answer is not lent: its number is the seed of the marks, and in
 * the reply 1 where all marks but those of the front stayed, 0 elsewhere.
 *
 * All whole requests that have arrived are answered before more are waited for. The sender must take replies while it
 * sends requests.
 *
 * Exit status: 0 the input ended after a whole request; 1 a malformed request, or one cut short; 2 reading or writing
 * failed.
 */
#include "relay.h"

#include "zimogrud.h"

#include <string.h>

#define MARK 0x7a670005u

enum { TURN = 1, SIDE = 2, FLAT = 3, SEGMENT = 4, PAIR = 5, LIST = 6, PLATE = 7, SHEET = 8, PAIR_BYTES = 9 };
/* A listing has 2^20 pairs at most, of two numbers each. The block takes a frame with the longest of everything. */
enum { LONGEST_LIST = 1 << 15, LONGEST_MARGIN = 64, LONGEST_BUFFER = (1 << 21) + (1 << 14) };
enum { LONGEST_ANSWER = 64, LONGEST_PLATE_ANSWERS = 1 << 14 };
enum { LONGEST_SHEET = 1 << 20 };
enum { BLOCK_BYTES = 1 << 24 };
/* The room for a sheet's text, and the marks on either side of it, eight bytes each. */
enum { TEXT_BYTES = ZG_SHEET_TEXT_LENGTH, TEXT_MARGIN = 64, TEXT_MARKS = TEXT_MARGIN + TEXT_BYTES / 8 + TEXT_MARGIN };

struct head {
    uint64_t mark;
    uint64_t result;
    uint32_t call;
    uint32_t margin;
    uint32_t first_length;
    uint32_t second_length;
    uint32_t answer_length;
    uint32_t buffer_length;
    uint64_t start;
};

/* The frames that have arrived, the first at the front. */
static _Alignas(8) unsigned char block[BLOCK_BYTES];

/* ---- Frames ---- */

static int is_well_formed_sheet(const struct head *head)
{
    return head->first_length <= LONGEST_SHEET && head->start <= sizeof(int32_t) * head->first_length
        && head->second_length == 0 && head->answer_length == 1 && head->buffer_length <= TEXT_BYTES / sizeof(uint32_t);
}

/* Where a slice of bytes starts in its list, and where it ends, in bytes. */
struct slice {
    size_t start;
    size_t end;
};

static struct slice slice_in(uint32_t list_length, uint64_t margins)
{
    size_t before = margins & 0xff, behind = margins >> 8 & 0xff;
    return (struct slice){ .start = before, .end = sizeof(int32_t) * list_length - behind };
}

static struct slice first_slice(const struct head *head)
{
    return slice_in(head->first_length, head->start);
}

static struct slice second_slice(const struct head *head)
{
    return slice_in(head->second_length, head->start >> 16);
}

static int is_well_formed_slice(struct slice slice, uint32_t list_length)
{
    return list_length <= LONGEST_LIST && slice.start <= slice.end && slice.end <= sizeof(int32_t) * list_length;
}

static int is_well_formed_pair_bytes(const struct head *head)
{
    return is_well_formed_slice(first_slice(head), head->first_length)
        && is_well_formed_slice(second_slice(head), head->second_length) && head->answer_length == 0
        && head->buffer_length == 0;
}

static int is_well_formed_call(const struct head *head)
{
    uint32_t longest_second = head->call >= FLAT ? LONGEST_LIST : 0;
    uint32_t longest_buffer = head->call == LIST ? LONGEST_BUFFER : 0;
    uint32_t longest_answer = head->call == PLATE ? LONGEST_PLATE_ANSWERS : LONGEST_ANSWER;
    return head->call >= TURN && head->call <= PLATE && head->first_length <= LONGEST_LIST
        && head->second_length <= longest_second && head->answer_length <= longest_answer
        && head->buffer_length <= longest_buffer;
}

static int is_well_formed(const struct head *head)
{
    if (head->mark != MARK || head->margin > LONGEST_MARGIN)
        return 0;
    switch (head->call) {
    case SHEET:
        return is_well_formed_sheet(head);
    case PAIR_BYTES:
        return is_well_formed_pair_bytes(head);
    default:
        return is_well_formed_call(head);
    }
}

/* How many numbers a lent run has with its margins. */
static size_t with_margins(const struct head *head, uint32_t length)
{
    return (size_t)length + 2 * (size_t)head->margin;
}

static size_t frame_size(const struct head *head)
{
    size_t list_bytes = sizeof(int32_t) * ((size_t)head->first_length + head->second_length);
    size_t buffer_bytes = sizeof(uint32_t) * with_margins(head, head->buffer_length);
    size_t answer_bytes = sizeof(uint64_t) * with_margins(head, head->answer_length);
    return sizeof *head + answer_bytes + (buffer_bytes + list_bytes + 7) / 8 * 8;
}

/* The lent runs of a call, each with its numbers only, without its margins. */
struct runs {
    uint64_t *answer;
    uint32_t *buffer;
    int32_t *first;
    int32_t *second;
};

/* Where they stand in the frame. */
static struct runs runs_of(const struct head *head, unsigned char *frame)
{
    uint64_t *answer_room = (uint64_t *)(frame + sizeof *head);
    uint32_t *buffer_room = (uint32_t *)(answer_room + with_margins(head, head->answer_length));
    int32_t *first = (int32_t *)(buffer_room + with_margins(head, head->buffer_length));
    return (struct runs){
        .answer = answer_room + head->margin,
        .buffer = buffer_room + head->margin,
        .first = first,
        .second = first + head->first_length,
    };
}

static uint64_t make_call(const struct head *head, const struct runs *lent)
{
    const int32_t *first = lent->first, *second = lent->second;
    switch (head->call) {
    case TURN:
        return zg_turn(first, head->first_length, lent->answer, head->answer_length);
    case SIDE:
        return zg_side(first, head->first_length, lent->answer, head->answer_length);
    case FLAT:
        return zg_flat(first, head->first_length, second, head->second_length, lent->answer, head->answer_length);
    case SEGMENT:
        return zg_segment(first, head->first_length, second, head->second_length, lent->answer, head->answer_length);
    case PAIR:
        return zg_pair(first, head->first_length, second, head->second_length, lent->answer, head->answer_length);
    case LIST:
        return zg_list(first, head->first_length, second, head->second_length, lent->buffer, head->buffer_length,
            head->start, lent->answer, head->answer_length);
    default:
        return zg_plate((const uint32_t *)first, head->first_length, second, head->second_length, lent->answer,
            head->answer_length);
    }
}

/* Lends each run, the lists too, so that a forbidden write to them shows in the reply. */
static uint64_t call_with_loans(const struct head *head, const struct runs *own)
{
    size_t answer_bytes = sizeof *own->answer * head->answer_length;
    size_t buffer_bytes = sizeof *own->buffer * head->buffer_length;
    size_t first_bytes = sizeof *own->first * head->first_length;
    size_t second_bytes = sizeof *own->second * head->second_length;
    struct runs lent = {
        .answer = lend(ANSWER_LOAN, own->answer, answer_bytes),
        .buffer = lend(BUFFER_LOAN, own->buffer, buffer_bytes),
        .first = lend(FIRST_LOAN, own->first, first_bytes),
        .second = lend(SECOND_LOAN, own->second, second_bytes),
    };
    uint64_t result = make_call(head, &lent);
    take_back(lent.answer, own->answer, answer_bytes);
    take_back(lent.buffer, own->buffer, buffer_bytes);
    take_back(lent.first, own->first, first_bytes);
    take_back(lent.second, own->second, second_bytes);
    return result;
}

/* ---- Slices of bytes ---- */

/* What stands before a slice is lent with it, so that it starts at any address; what stands behind it isn't. */
static uint64_t judge_slices(const struct head *head, const struct runs *own)
{
    struct slice a = first_slice(head), b = second_slice(head);
    uint8_t *lent_first = lend(FIRST_LOAN, own->first, a.end);
    uint8_t *lent_second = lend(SECOND_LOAN, own->second, b.end);
    uint64_t result = zg_pair_bytes(lent_first + a.start, a.end - a.start, lent_second + b.start, b.end - b.start);
    take_back(lent_first, own->first, a.end);
    take_back(lent_second, own->second, b.end);
    return result;
}

/* ---- Sheets ---- */

/* The room for a text with its margins. All marks stand in it whenever no sheet is read, so that they need not be made
 * anew for each. */
static uint64_t text_room[TEXT_MARKS];
static uint64_t marks[TEXT_MARKS];

/* No two of one seed are alike, nor the first ones of two seeds. */
static uint64_t mark_at(uint64_t seed, size_t place)
{
    return (seed + place) * 0x9e3779b97f4a7c15u;
}

static void make_marks(uint64_t seed)
{
    for (size_t k = 0; k < TEXT_MARKS; k++)
        text_room[k] = marks[k] = mark_at(seed, k);
}

static int marks_stayed(void)
{
    uint64_t difference = 0;
    for (size_t k = 0; k < TEXT_MARKS; k++)
        difference |= text_room[k] ^ marks[k];
    return difference == 0;
}

static uint64_t read_sheet(const struct head *head, const struct runs *own)
{
    size_t front_bytes = sizeof *own->buffer * head->buffer_length, sheet_bytes = head->start;
    uint64_t *text = text_room + TEXT_MARGIN, seed = own->answer[0];
    if (marks[0] != mark_at(seed, 0))
        make_marks(seed);
    memcpy(text, own->buffer, front_bytes);
    uint8_t *lent_sheet = lend(FIRST_LOAN, own->first, sheet_bytes);
    uint8_t *lent_text = lend(BUFFER_LOAN, text, TEXT_BYTES);
    uint64_t result = zg_sheet(lent_sheet, sheet_bytes, lent_text);
    take_back(lent_sheet, own->first, sheet_bytes);
    take_back(lent_text, text, TEXT_BYTES);
    memcpy(own->buffer, text, front_bytes);
    memcpy(text, marks + TEXT_MARGIN, front_bytes);
    own->answer[0] = marks_stayed();
    if (!own->answer[0])
        make_marks(seed);
    return result;
}

/* ---- Requests ---- */

static uint64_t result_of(const struct head *head, const struct runs *own)
{
    switch (head->call) {
    case SHEET:
        return read_sheet(head, own);
    case PAIR_BYTES:
        return judge_slices(head, own);
    default:
        return call_with_loans(head, own);
    }
}

/* Turns the request at the front into its reply. Gives the frame's size, or 0 where it has not arrived whole. */
static size_t serve(unsigned char *frame, size_t arrived)
{
    struct head head;
    if (arrived < sizeof head)
        return 0;
    memcpy(&head, frame, sizeof head);
    if (!is_well_formed(&head))
        end(MALFORMED);
    size_t size = frame_size(&head);
    if (arrived < size)
        return 0;
    struct runs own = runs_of(&head, frame);
    uint64_t result = result_of(&head, &own);
    memcpy(frame + offsetof(struct head, result), &result, sizeof result);
    return size;
}

void relay(void)
{
    size_t arrived = 0;
    for (;;) {
        size_t got = read_some(block + arrived, sizeof block - arrived);
        if (got == 0)
            end(arrived == 0 ? ALL_SERVED : MALFORMED);
        arrived += got;
        size_t served = 0, size;
        while ((size = serve(block + served, arrived - served)) != 0)
            served += size;
        /* A long frame arrives in many parts, and stays where it is until it is whole. */
        if (served == 0)
            continue;
        write_all(block, served);
        memmove(block, block + served, arrived - served);
        arrived -= served;
    }
}
