/*
 * An example in C: reads a job sheet from standard input, has the library answer it, and prints each field as a line of text
 * with its answer behind it, as a remark:
 *
 *     place 0 0  (0,0,0) (4,0,0) (0,4,0)  # count 0
 *     lift 5  # refused (9): the slot is empty; count 0
 *
 * Where reading stops, at a field that is broken or cut, a remark of its own says what is wrong, and after how many bytes of
 * the sheet; so it does of a sheet that is too long. make_sheet makes the same sheet of what is printed, up to there.
 *
 * Exit status: 0 the sheet is shown, whatever its answers; 2 reading or writing failed.
 */
#include "fields.h"
#include "text.h"

static const char program[] = "show_sheet";

/* One byte more than a sheet may have, so that a longer one is noticed. */
struct sheet {
    size_t length;
    uint8_t bytes[ZG_SHEET_LONGEST + 1];
};

struct answer {
    size_t length, place;
    uint8_t text[ZG_SHEET_TEXT_LENGTH];
};

/* A line of the answer. */
struct verdict {
    unsigned refusal, count;
};

/* ---- Reading ---- */

static void read_sheet(struct sheet *sheet)
{
    sheet->length = fread(sheet->bytes, 1, sizeof sheet->bytes, stdin);
    if (ferror(stdin)) {
        fprintf(stderr, "%s: the sheet can't be read\n", program);
        exit(FAILED);
    }
}

/* Low byte first. */
static uint32_t number_at(const uint8_t *bytes, size_t length)
{
    uint32_t number = 0;
    while (length-- > 0)
        number = number << 8 | bytes[length];
    return number;
}

/* Of 32 bits, those from 2 to the 31st on stand for the numbers below zero. */
static int32_t signed_at(const uint8_t *bytes)
{
    uint32_t bits = number_at(bytes, NUMBER_LENGTH);
    return bits <= INT32_MAX ? (int32_t)bits : -1 - (int32_t)(UINT32_MAX - bits);
}

/* A number of the answer's text, and the blank or the line's end behind it. */
static unsigned next_number(struct answer *answer)
{
    unsigned number = 0;
    for (; answer->text[answer->place] >= '0'; answer->place++)
        number = 10 * number + (unsigned)(answer->text[answer->place] - '0');
    answer->place++;
    return number;
}

/* ---- Showing ---- */

/* A number that the header names, as text. */
#define AS_TEXT(number) #number
#define WRITTEN(number) AS_TEXT(number)

static const struct kind *kind_of(unsigned tag)
{
    for (size_t i = 0; i < KIND_COUNT; i++)
        if (kinds[i].tag == tag)
            return &kinds[i];
    return NULL;
}

static const char *words_of(unsigned refusal)
{
    switch (refusal) {
    case ZG_OFF_GRID: return "a coordinate is off the grid (-" WRITTEN(ZG_LIMIT) " to " WRITTEN(ZG_LIMIT) ")";
    case ZG_FLAT_SHAPE: return "the triangle is flat: its corners lie on one line";
    case ZG_NO_SUCH_SLOT: return "there is no such slot (0 to 63)";
    case ZG_NO_SUCH_PART: return "there is no such part (0 to 15)";
    case ZG_SLOT_FILLED: return "the slot is filled";
    case ZG_SLOT_EMPTY: return "the slot is empty";
    case ZG_PART_NOT_PLACED: return "no triangle of that part is on the plate";
    case ZG_LEAVES_GRID: return "the shift would take a coordinate off the grid";
    case ZG_NOTHING_TO_UNDO: return "nothing is left to undo";
    default: return "this program does not know why"; /* None of the reasons that a whole field has. */
    }
}

/* The field begins at the bytes and is whole. Gives how many bytes it has. */
static size_t show_field(const uint8_t *field)
{
    const struct kind *kind = kind_of(field[0]);
    const uint8_t *body = field + ZG_FIELD_HEAD_LENGTH;
    size_t i, count = number_count(kind);
    printf("%s", kind->word);
    for (i = 0; i < kind->byte_count; i++)
        printf(" %u", (unsigned)body[i]);
    for (i = 0; i < count; i++) {
        long number = signed_at(body + kind->byte_count + NUMBER_LENGTH * i);
        printf("%s%ld%s", i == 0 ? "  (" : i % 3 == 0 ? " (" : ",", number, i % 3 == 2 ? ")" : "");
    }
    return ZG_FIELD_HEAD_LENGTH + kind->body_length;
}

static void show_verdict(struct verdict verdict)
{
    if (verdict.refusal == ZG_SERVED)
        printf("  # count %u\n", verdict.count);
    else
        printf("  # refused (%u): %s; count %u\n", verdict.refusal, words_of(verdict.refusal), verdict.count);
}

/* What is wrong with the field that begins with the bytes, of which so many are left. */
static void show_fault(const uint8_t *field, size_t left, unsigned refusal)
{
    const struct kind *kind = kind_of(field[0]);
    if (refusal == ZG_SHEET_TOO_LONG)
        printf("the sheet has more than %d bytes", ZG_SHEET_LONGEST);
    else if (left < ZG_FIELD_HEAD_LENGTH)
        printf("the sheet ends inside a field: the head has %zu of %d bytes", left, ZG_FIELD_HEAD_LENGTH);
    else if (kind == NULL)
        printf("tag %u is unknown", (unsigned)field[0]);
    else if (refusal == ZG_BAD_FIELD)
        printf("tag %u, %s, has the length %u, not %zu", kind->tag, kind->word, (unsigned)number_at(field + 1, 2),
            kind->body_length);
    else
        printf("the sheet ends inside a field: the body of %s has %zu of %zu bytes", kind->word, left - ZG_FIELD_HEAD_LENGTH,
            kind->body_length);
}

/* The answer has a line for each whole field, and one for what is wrong, if something is: its lines say what the bytes are. */
static void show(const struct sheet *sheet, struct answer *answer)
{
    size_t place = 0;
    while (answer->place < answer->length) {
        struct verdict verdict = {.refusal = next_number(answer)};
        verdict.count = next_number(answer);
        if (verdict.refusal < ZG_BAD_FIELD) {
            place += show_field(sheet->bytes + place);
            show_verdict(verdict);
        } else {
            printf("# after %zu bytes: refused (%u): ", place, verdict.refusal);
            show_fault(sheet->bytes + place, sheet->length - place, verdict.refusal);
            printf("; count %u\n", verdict.count);
        }
    }
}

int main(void)
{
    static struct sheet sheet;
    static struct answer answer;
    read_sheet(&sheet);
    answer.length = zg_sheet(sheet.bytes, sheet.length, answer.text);
    show(&sheet, &answer);
    end_output(program, "the lines");
    return 0;
}
