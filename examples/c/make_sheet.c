/*
 * An example in C: reads the calls of a job sheet as text from standard input, and writes the sheet, which is bytes, to
 * standard output. It calls nothing of the library: what it writes is for ./sheet and zg_sheet to judge.
 *
 * A line of the text is a field of the sheet:
 *
 *     place SLOT PART  (x,y,z) (x,y,z) (x,y,z)
 *     lift SLOT
 *     shift PART  (dx,dy,dz)
 *     undo
 *
 * Between words stand blanks, commas, semicolons and brackets, in any mixture. Blank lines are passed over; # begins a
 * remark, which goes to the end of its line. A slot or a part is any byte, 0 to 255, and the other numbers are any that fit
 * 32 bits, for a sheet can say what the plate then refuses. What can't be said in a sheet, or makes it too long, is told on
 * standard error, with its line, and nothing is written.
 *
 * Exit status: 0 the sheet is written; 2 the text was bad, or reading or writing failed.
 */
#include "fields.h"
#include "text.h"

enum { MOST_NUMBERS = 2 + ZG_TRIANGLE_LENGTH };

struct sheet {
    size_t length;
    uint8_t bytes[ZG_SHEET_LONGEST];
};

/* ---- Reading ---- */

static void cut_remark(struct line *line)
{
    const char *remark = memchr(line->text, '#', line->length);
    if (remark != NULL)
        line->length = (size_t)(remark - line->text);
}

static const struct kind *read_kind(const struct line *line, struct word word)
{
    for (size_t i = 0; i < KIND_COUNT; i++)
        if (strlen(kinds[i].word) == word.end - word.start
            && memcmp(kinds[i].word, line->text + word.start, word.end - word.start) == 0)
            return &kinds[i];
    reject(line, word, "is none of place, lift, shift and undo");
}

/* Reads what stands behind the place, and sees that it is what a field of this kind has. */
static void read_numbers(const struct line *line, size_t place, const struct kind *kind, int32_t *numbers)
{
    size_t wanted = kind->byte_count + number_count(kind), found = 0;
    struct word word;
    for (; next_word(line, &place, &word); found++) {
        int32_t number = read_number(line, word);
        if (found < kind->byte_count && (number < 0 || number > UINT8_MAX))
            reject(line, word, "does not fit a byte (0 to 255)");
        if (found < wanted)
            numbers[found] = number;
    }
    if (found != wanted) {
        fprintf(stderr, "%s: line %lu: %s takes %s, not %zu\n", line->program, line->number, kind->word, kind->taken, found);
        exit(FAILED);
    }
}

/* ---- Making the sheet ---- */

/* Low byte first. */
static void add_number(struct sheet *sheet, uint32_t number, size_t length)
{
    for (size_t i = 0; i < length; i++)
        sheet->bytes[sheet->length++] = (uint8_t)(number >> 8 * i);
}

static void add_field(struct sheet *sheet, const struct kind *kind, const int32_t *numbers)
{
    size_t count = kind->byte_count + number_count(kind);
    add_number(sheet, kind->tag, 1);
    add_number(sheet, (uint32_t)kind->body_length, ZG_FIELD_HEAD_LENGTH - 1);
    for (size_t i = 0; i < count; i++)
        add_number(sheet, (uint32_t)numbers[i], i < kind->byte_count ? 1 : NUMBER_LENGTH);
}

static void add_line(struct sheet *sheet, struct line *line)
{
    int32_t numbers[MOST_NUMBERS];
    size_t place = 0;
    struct word word;
    cut_remark(line);
    if (!next_word(line, &place, &word)) {
        fprintf(stderr, "%s: line %lu has brackets or commas, and no word\n", line->program, line->number);
        exit(FAILED);
    }
    const struct kind *kind = read_kind(line, word);
    read_numbers(line, place, kind, numbers);
    if (ZG_FIELD_HEAD_LENGTH + kind->body_length > ZG_SHEET_LONGEST - sheet->length) {
        fprintf(stderr, "%s: line %lu: with this field the sheet has more than %d bytes\n", line->program, line->number,
            ZG_SHEET_LONGEST);
        exit(FAILED);
    }
    add_field(sheet, kind, numbers);
}

int main(void)
{
    static struct sheet sheet;
    struct line line = {.program = "make_sheet"};
    while (read_content(&line))
        add_line(&sheet, &line);
    /* What is not written shows at the end of the output. */
    (void)fwrite(sheet.bytes, 1, sheet.length, stdout);
    end_output(line.program, "the sheet");
    return 0;
}
