/*
 * An example in C: reads triangles of space as text from standard input, and says of each two that follow each other
 * whether they have a point in common, or why they are refused, on one line of standard output that names their lines.
 *
 * A line of the text is a triangle: whole numbers, x, y and z of one corner after the other. Between numbers stand blanks,
 * commas, semicolons and brackets, in any mixture: (0,0,0) (4,0,0) (0,4,0). Blank lines, and lines whose first mark is #,
 * are passed over, and so is the byte-order mark that some editors put before a text in UTF-8. A triangle whose corners lie on
 * one line is the segment, or the point, that it is. Whatever the numbers and however many, the library says what is wrong
 * with them. What is no triangle at all is told on standard error, with its line, and ends the program: text that is no whole
 * number, a number that does not fit 32 bits, a line that is too long, a last triangle without a partner. So does a text in
 * UTF-16.
 *
 * Exit status: 0 every pair was answered, refusals included; 2 the text was bad, or reading or writing failed.
 */
#include "text.h"
#include "zimogrud.h"

/* Each number takes a digit and a mark that ends it. */
enum { MOST_NUMBERS = (LONGEST_LINE + 1) / 2 };

struct triangle {
    unsigned long line;
    size_t length;
    int32_t numbers[MOST_NUMBERS];
};

/* ---- Reading ---- */

static void read_numbers(const struct line *line, struct triangle *triangle)
{
    size_t place = 0;
    struct word word;
    triangle->line = line->number;
    triangle->length = 0;
    while (next_word(line, &place, &word))
        triangle->numbers[triangle->length++] = read_number(line, word);
}

/* Gives whether there was one. */
static int read_triangle(struct line *line, struct triangle *triangle)
{
    if (!read_content(line))
        return 0;
    read_numbers(line, triangle);
    return 1;
}

/* ---- Answering ---- */

static void print_refusal(const uint64_t *answer, const struct triangle *first, const struct triangle *second)
{
    int is_first = answer[ZG_AT_SIDE] == ZG_FIRST;
    const struct triangle *refused = is_first ? first : second;
    size_t place = (size_t)answer[ZG_AT_PLACE];
    printf("refused (%u): the %s triangle", (unsigned)answer[ZG_AT_REFUSAL], is_first ? "first" : "second");
    switch (answer[ZG_AT_REFUSAL]) {
    case ZG_OFF_GRID:
        printf("'s corner %zu has %c = %ld, off the grid (%d to %d)\n", place / 3 + 1, "xyz"[place % 3],
            (long)refused->numbers[place], -ZG_LIMIT, ZG_LIMIT);
        break;
    case ZG_WRONG_LENGTH:
        printf(" has %zu number%s, not %d\n", place, place == 1 ? "" : "s", ZG_TRIANGLE_LENGTH);
        break;
    default: /* None of the reasons that zg_pair has. */
        puts(" has a fault that this program does not know");
    }
}

static void answer_pair(const struct triangle *first, const struct triangle *second)
{
    uint64_t answer[ZG_ANSWER_LENGTH];
    /* The result needs no look: it is ZG_TOLD, since the answer has its room. */
    (void)zg_pair(first->numbers, first->length, second->numbers, second->length, answer, ZG_ANSWER_LENGTH);
    printf("lines %lu and %lu: ", first->line, second->line);
    if (answer[ZG_AT_REFUSAL] != ZG_SERVED)
        print_refusal(answer, first, second);
    else if (answer[ZG_AT_VALUE] == ZG_MEETING)
        puts("meeting: they have a point in common");
    else
        puts("apart: they have no point in common");
}

int main(void)
{
    struct line line = {.program = "pairs"};
    struct triangle first, second;
    while (read_triangle(&line, &first)) {
        if (!read_triangle(&line, &second)) {
            fprintf(stderr, "pairs: line %lu: this triangle has no partner, for the text ends\n", first.line);
            exit(FAILED);
        }
        answer_pair(&first, &second);
    }
    end_output("pairs", "the answers");
    return 0;
}
