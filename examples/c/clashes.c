/*
 * An example in C, as the author of a viewer would write it: reads a file of triangles of space, as the viewer holds them, and
 * prints which of them clash:
 *
 *     clashes FILE
 *
 * For each two triangles that have a point in common there is a line with their indices, from 0 and the lower one first; the
 * lines rise by the first index and then by the second. The last line says how many of how many pairs clash.
 *
 * A triangle is 36 bytes: nine whole numbers, x, y and z of one corner after the other, signed ones of 32 bits, low byte first.
 * The file is triangles, one after the other, any number of them, and nothing else. Its bytes go to the library as they are. A
 * triangle whose corners lie on one line is the segment, or the point, that it is.
 *
 * A file is answered whole or not at all, since a triangle that is passed over would look as if it clashed with nothing. Where
 * the size is no multiple of 36, or a triangle is refused, because a number of it is off the grid, that is told on standard
 * error, and nothing is printed.
 *
 * Exit status: 0 every pair was answered, whether it clashes or not; 2 the file can't be read, is no file of triangles or has
 * one that is refused, or writing failed.
 */
#include "text.h"
#include "zimogrud.h"

#include <errno.h>

enum { FIRST_ROOM = 4096 };

static const char program[] = "clashes";

/* The bytes of the file, and for how many of them there is room. */
struct model {
    const char *name;
    size_t size, room;
    uint8_t *bytes;
};

/* ---- Reading ---- */

/* Says what can't be done with the file, and ends the program. The reason is the latest of the C library. */
static _Noreturn void fail(const struct model *model, const char *what)
{
    fprintf(stderr, "%s: %s can't be %s: %s\n", program, model->name, what, strerror(errno));
    exit(FAILED);
}

static void make_room(struct model *model)
{
    size_t room = model->room == 0 ? FIRST_ROOM : 2 * model->room;
    uint8_t *bytes = room > model->room ? realloc(model->bytes, room) : NULL;
    if (bytes == NULL) {
        fprintf(stderr, "%s: %s is too large for the memory\n", program, model->name);
        exit(FAILED);
    }
    model->room = room;
    model->bytes = bytes;
}

static void read_model(struct model *model)
{
    FILE *file = fopen(model->name, "rb");
    if (file == NULL)
        fail(model, "opened");
    /* What is read fills the room, until the file ends. */
    do {
        make_room(model);
        model->size += fread(model->bytes + model->size, 1, model->room - model->size, file);
    } while (model->size == model->room);
    if (ferror(file))
        fail(model, "read");
    (void)fclose(file);
    if (model->size % ZG_TRIANGLE_BYTES != 0) {
        fprintf(stderr, "%s: %s has %zu byte%s, which is no multiple of %d, the bytes of a triangle\n", program, model->name,
            model->size, model->size == 1 ? "" : "s", ZG_TRIANGLE_BYTES);
        exit(FAILED);
    }
}

/* ---- Answering ---- */

/* Gives whether the two triangles have a point in common. A refusal must not pass for a no: it ends the program. */
static int clash(const struct model *model, size_t first, size_t second)
{
    const uint8_t *a = model->bytes + ZG_TRIANGLE_BYTES * first, *b = model->bytes + ZG_TRIANGLE_BYTES * second;
    uint32_t result = zg_pair_bytes(a, ZG_TRIANGLE_BYTES, b, ZG_TRIANGLE_BYTES);
    if (result == ZG_APART || result == ZG_MEETING)
        return result == ZG_MEETING;
    fprintf(stderr, "%s: %s: triangle %zu, counted from 0, is refused (%u): ", program, model->name, first,
        (unsigned)(result - ZG_REFUSED_BASE));
    if (result == ZG_REFUSED_BASE + ZG_OFF_GRID)
        fprintf(stderr, "a number of it is off the grid (%d to %d)\n", -ZG_LIMIT, ZG_LIMIT);
    else /* None of the reasons that there are, since the lengths are right. */
        fprintf(stderr, "this program does not know why\n");
    exit(FAILED);
}

static void print_clashes(const struct model *model)
{
    size_t count = model->size / ZG_TRIANGLE_BYTES, i, j, clashes = 0, pairs = 0;
    /* A triangle is refused beside itself where a number of it is off the grid. Once none is, no pair is refused. */
    for (i = 0; i < count; i++)
        (void)clash(model, i, i);
    for (i = 0; i < count; i++)
        for (j = i + 1; j < count; j++, pairs++)
            if (clash(model, i, j)) {
                printf("%zu %zu\n", i, j);
                clashes++;
            }
    printf("%zu of %zu pair%s clash%s\n", clashes, pairs, pairs == 1 ? "" : "s", clashes == 1 || pairs == 1 ? "es" : "");
}

int main(int argument_count, char **arguments)
{
    static struct model model;
    if (argument_count != 2) {
        fprintf(stderr, "%s: it takes the name of one file: clashes FILE\n", program);
        return FAILED;
    }
    model.name = arguments[1];
    read_model(&model);
    print_clashes(&model);
    free(model.bytes);
    end_output(program, "the pairs");
    return 0;
}
