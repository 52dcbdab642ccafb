/*
 * What the programs of this folder have in common that read text or write it: lines, their words, and whole numbers. What is
 * wrong is told on standard error in one line, with the program's name and the line of the text, and ends the program.
 *
 * Between words stand blanks, commas, semicolons and brackets, in any mixture: (0,0,0) (4,0,0) (0,4,0). The byte-order mark
 * that some editors put before a text in UTF-8 is passed over; a text in UTF-16 is refused.
 */
#ifndef EXAMPLES_TEXT_H
#define EXAMPLES_TEXT_H

#include <stdint.h>
#include <stdio.h>
#include <stdlib.h>
#include <string.h>

enum { FAILED = 2 };
/* A line has room for many times the numbers of a triangle. */
enum { LONGEST_LINE = 4096, LONGEST_SHOWN_WORD = 40 };

struct line {
    const char *program;
    unsigned long number;
    size_t length;
    char text[LONGEST_LINE];
};

/* A word of a line: the place of its first character, and the place after its last. */
struct word {
    size_t start, end;
};

/* ---- Lines ---- */

/* Gives whether the mark is all that is read of the line so far. */
static inline int is_mark(const struct line *line, const char *mark, size_t mark_length)
{
    return line->length == mark_length && memcmp(line->text, mark, mark_length) == 0;
}

/* Looks for a byte-order mark, after each of the first characters of the text. */
static inline void look_for_mark(struct line *line)
{
    if (is_mark(line, "\xFF\xFE", 2) || is_mark(line, "\xFE\xFF", 2)) {
        fprintf(stderr, "%s: the text is UTF-16: save it as UTF-8 or as plain text\n", line->program);
        exit(FAILED);
    }
    if (is_mark(line, "\xEF\xBB\xBF", 3))
        line->length = 0;
}

/* Gives whether there was a line. A last line may lack its end. */
static inline int read_line(struct line *line)
{
    int character;
    line->number++;
    line->length = 0;
    for (size_t count = 1; (character = getchar()) != EOF && character != '\n'; count++) {
        if (line->length == LONGEST_LINE) {
            fprintf(stderr, "%s: line %lu is longer than %d characters\n", line->program, line->number, LONGEST_LINE);
            exit(FAILED);
        }
        line->text[line->length++] = (char)character;
        if (line->number == 1 && count <= 3)
            look_for_mark(line);
    }
    if (ferror(stdin)) {
        fprintf(stderr, "%s: line %lu can't be read\n", line->program, line->number);
        exit(FAILED);
    }
    return character != EOF || line->length > 0;
}

/* A zero byte is never one of the marks; strchr alone would find it, at their end. */
static inline int is_among(const char *marks, char character)
{
    return character != '\0' && strchr(marks, character) != NULL;
}

/* Gives whether the line is blank, or its first mark is #. */
static inline int is_passed_over(const struct line *line)
{
    size_t place = 0;
    while (place < line->length && is_among(" \t\r", line->text[place]))
        place++;
    return place == line->length || line->text[place] == '#';
}

/* Reads on to the next line that is not passed over. Gives whether there was one. */
static inline int read_content(struct line *line)
{
    do
        if (!read_line(line))
            return 0;
    while (is_passed_over(line));
    return 1;
}

/* ---- Words and numbers ---- */

static inline int is_separator(char character)
{
    return is_among(" \t\r,;()[]{}", character);
}

/* Gives whether a word follows the place, which is moved to its end. */
static inline int next_word(const struct line *line, size_t *place, struct word *word)
{
    while (*place < line->length && is_separator(line->text[*place]))
        ++*place;
    word->start = *place;
    while (*place < line->length && !is_separator(line->text[*place]))
        ++*place;
    word->end = *place;
    return word->start < word->end;
}

/* Says what is wrong with the word, and ends the program. */
static inline _Noreturn void reject(const struct line *line, struct word word, const char *what)
{
    size_t shown_end = word.end - word.start > LONGEST_SHOWN_WORD ? word.start + LONGEST_SHOWN_WORD : word.end;
    fprintf(stderr, "%s: line %lu: '", line->program, line->number);
    for (size_t i = word.start; i < shown_end; i++)
        fputc(line->text[i] > ' ' && line->text[i] <= '~' ? line->text[i] : '?', stderr);
    fprintf(stderr, "%s' %s\n", shown_end < word.end ? "..." : "", what);
    exit(FAILED);
}

static inline int32_t read_number(const struct line *line, struct word word)
{
    const int64_t beyond = (int64_t)INT32_MAX + 1;
    int is_negative = line->text[word.start] == '-';
    size_t place = word.start + (is_negative || line->text[word.start] == '+');
    int64_t number = 0;
    if (place == word.end)
        reject(line, word, "is no whole number");
    for (; place < word.end; place++) {
        if (line->text[place] < '0' || line->text[place] > '9')
            reject(line, word, "is no whole number");
        /* Past what fits, the digits are still looked at, but the number grows no more: it would not fit 64 bits either. */
        if (number <= beyond)
            number = 10 * number + (line->text[place] - '0');
    }
    if (is_negative)
        number = -number;
    if (number < INT32_MIN || number > INT32_MAX)
        reject(line, word, "does not fit 32 bits (-2147483648 to 2147483647)");
    return (int32_t)number;
}

/* ---- Writing ---- */

/* Writes out what is still to be written. */
static inline void end_output(const char *program, const char *what)
{
    if (fflush(stdout) != 0 || ferror(stdout)) {
        fprintf(stderr, "%s: %s can't be written\n", program, what);
        exit(FAILED);
    }
}

#endif
