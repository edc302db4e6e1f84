/* Reads updates in Raw, CopyRect, RRE and Hextile (updates.h). Only the two pixels of the stamp
   are decoded; everything else is skipped, or looked at for how long it is. */
#include "updates.h"
#include <string.h>

enum state {
    HEAD, RECTANGLE, END, STAMPED, RRE_HEAD, RRE_PART, TILE, COLOURS, TILE_PART, TILE_END
};
enum { IS_RAW = 1, HAS_BACK = 2, HAS_FORE = 4, HAS_PARTS = 8, IS_COLOURED = 16, SIDE = 16 };

/* Skips `skip` bytes, gathers `need` more, and is in this state then. */
static void want(struct reader *reader, int state, size_t skip, size_t need)
{
    reader->state = state;
    reader->skip = skip;
    reader->need = need;
    reader->have = 0;
}

/* Whether this area has the n-th of the stamp's pixels. */
static int has(const struct reader *reader, struct area area, int n)
{
    int line = reader->height - LINE;
    return area.x <= n && n < area.x + area.width && area.y <= line && line < area.y + area.height;
}

static int has_any(const struct reader *reader, struct area area)
{
    return has(reader, area, 0) || has(reader, area, 1);
}

static void paint(struct reader *reader, struct area area, uint32_t colour)
{
    for (int n = 0; n < 2; n++)
        if (has(reader, area, n))
            reader->stamp[n] = colour;
}

static void next_rectangle(struct reader *reader)
{
    reader->whole = reader->rectangles == 0;
    if (reader->whole)
        want(reader, HEAD, 0, UPDATE_HEAD);
    else
        want(reader, RECTANGLE, 0, RECTANGLE_HEAD);
    reader->rectangles--;
}

static void raw(struct reader *reader, struct area area, int then)
{
    size_t all = 4 * (size_t)area.width * area.height;
    if (!has_any(reader, area)) {
        want(reader, then, all, 0);
        return;
    }
    if (!has(reader, area, 0) || !has(reader, area, 1))
        fail("an area that has half of the stamp");
    size_t before = 4 * (size_t)(reader->height - LINE - area.y) * area.width;
    reader->after = all - before - STAMP;
    reader->then = then;
    want(reader, STAMPED, before, STAMP);
}

/* The tile at x and y of the rectangle, or the next rectangle if there is none. */
static void tile_at(struct reader *reader, int x, int y)
{
    struct area *in = &reader->rectangle;
    if (x >= in->width) {
        x = 0;
        y += SIDE;
    }
    if (y >= in->height || in->width == 0) {
        next_rectangle(reader);
        return;
    }
    int width = in->width - x < SIDE ? in->width - x : SIDE;
    int height = in->height - y < SIDE ? in->height - y : SIDE;
    reader->tile = (struct area){in->x + x, in->y + y, width, height};
    want(reader, TILE, 0, 1);
}

static void rectangle(struct reader *reader, const uint8_t *head)
{
    struct area area = {get16(head), get16(head + 2), get16(head + 4), get16(head + 6)};
    uint32_t encoding = get32(head + 8);
    if (area.x + area.width > reader->width || area.y + area.height > reader->height)
        fail("a rectangle that leaves the screen");
    reader->rectangle = area;
    if (encoding == RAW)
        raw(reader, area, END);
    else if (encoding == COPYRECT && !has_any(reader, area))
        want(reader, END, 4, 0);
    else if (encoding == RRE)
        want(reader, RRE_HEAD, 0, 8);
    else if (encoding == HEXTILE)
        tile_at(reader, 0, 0);
    else
        fail("a rectangle of encoding %u, or a copy to the stamp", encoding);
    reader->encodings[encoding]++;
}

/* Subrectangles of `each` bytes: they are read if the stamp is in the area, and skipped if not. */
static void parts(struct reader *reader, struct area in, int part, size_t each, int then)
{
    if (reader->parts && has_any(reader, in))
        want(reader, part, 0, each);
    else
        want(reader, then, reader->parts * each, 0);
}

static void rre_part(struct reader *reader, const uint8_t *f)
{
    struct area *in = &reader->rectangle;
    struct area part = {in->x + get16(f + 4), in->y + get16(f + 6), get16(f + 8), get16(f + 10)};
    paint(reader, part, get_pixel(f));
    reader->parts--;
    parts(reader, *in, RRE_PART, 12, END);
}

static void tile_mask(struct reader *reader, int mask)
{
    if (mask & IS_RAW) {
        raw(reader, reader->tile, TILE_END);
        return;
    }
    reader->mask = mask;
    want(reader, COLOURS, 0, (mask & HAS_BACK ? 4 : 0) + (mask & HAS_FORE ? 4 : 0) +
                             (mask & HAS_PARTS ? 1 : 0));
}

static void tile_colours(struct reader *reader, const uint8_t *field)
{
    int mask = reader->mask;
    if (mask & HAS_BACK) {
        reader->back = get_pixel(field);
        field += 4;
    }
    if (mask & HAS_FORE) {
        reader->fore = get_pixel(field);
        field += 4;
    }
    reader->parts = mask & HAS_PARTS ? *field : 0;
    paint(reader, reader->tile, reader->back);
    parts(reader, reader->tile, TILE_PART, reader->mask & IS_COLOURED ? 6 : 2, TILE_END);
}

static void tile_part(struct reader *reader, const uint8_t *field)
{
    uint32_t colour = reader->mask & IS_COLOURED ? get_pixel(field) : reader->fore;
    const uint8_t *at = field + (reader->mask & IS_COLOURED ? 4 : 0);
    struct area part = {reader->tile.x + (at[0] >> 4), reader->tile.y + (at[0] & 15),
                        (at[1] >> 4) + 1, (at[1] & 15) + 1};
    paint(reader, part, colour);
    reader->parts--;
    parts(reader, reader->tile, TILE_PART, reader->mask & IS_COLOURED ? 6 : 2, TILE_END);
}

static void step(struct reader *reader)
{
    const uint8_t *field = reader->field;
    switch ((enum state)reader->state) {
    case HEAD:
        if (field[0] != 0)
            fail("a message of type %d", field[0]);
        reader->rectangles = get16(field + 2);
        next_rectangle(reader);
        break;
    case RECTANGLE: rectangle(reader, field); break;
    case END: next_rectangle(reader); break;
    case STAMPED:
        reader->stamp[0] = get_pixel(field);
        reader->stamp[1] = get_pixel(field + 4);
        want(reader, reader->then, reader->after, 0);
        break;
    case RRE_HEAD:
        reader->parts = get32(field);
        paint(reader, reader->rectangle, get_pixel(field + 4));
        parts(reader, reader->rectangle, RRE_PART, 12, END);
        break;
    case RRE_PART: rre_part(reader, field); break;
    case TILE: tile_mask(reader, field[0]); break;
    case COLOURS: tile_colours(reader, field); break;
    case TILE_PART: tile_part(reader, field); break;
    case TILE_END:
        tile_at(reader, reader->tile.x - reader->rectangle.x + SIDE,
                reader->tile.y - reader->rectangle.y);
        break;
    }
}

struct reader reader_of(int width, int height)
{
    struct reader reader = {.width = width, .height = height};
    want(&reader, HEAD, 0, UPDATE_HEAD);
    return reader;
}

size_t take(struct reader *reader, const uint8_t *bytes, size_t length)
{
    const uint8_t *at = bytes, *end = bytes + length;
    for (reader->whole = 0; !reader->whole; step(reader)) {
        size_t skipped = (size_t)(end - at) < reader->skip ? (size_t)(end - at) : reader->skip;
        at += skipped;
        reader->skip -= skipped;
        size_t missing = reader->need - reader->have;
        size_t taken = (size_t)(end - at) < missing ? (size_t)(end - at) : missing;
        memcpy(reader->field + reader->have, at, taken);
        at += taken;
        reader->have += taken;
        if (reader->skip || taken < missing)
            break;
    }
    return at - bytes;
}
