/* Draws the screens and lines of text of a host, and makes updates of them (pictures.h). */
#include "pictures.h"
#include <stdlib.h>
#include <string.h>

enum { TILE = 16, CLOCK = 64, LETTER = 8 };

/* An area of the screen and its pixels, by rows. */
struct area {
    int x, y, width, height;
    uint32_t *pixels;
};

static uint32_t mixed(uint32_t n)
{
    n = (n ^ n >> 15) * 0x2c1b3c6d;
    n = (n ^ n >> 12) * 0x297a2d39;
    return n ^ n >> 15;
}

/* A colour for nearly each pixel, which moves with each turn. */
static uint32_t smooth(int x, int y, int turn)
{
    return ((x + 16 * turn) & 255) | (y & 255) << 8 | ((x + y) / 4 & 255) << 16;
}

/* Letters of 8 by 16 pixels, one of five a space, strokes of two pixels, light on dark. */
static uint32_t text(int x, int y, int turn)
{
    uint32_t letter = mixed(x / LETTER + 1000 * (y / LINE) + 100000 * turn) % 80;
    int column = (x % LETTER - 1) / 2, row = (y % LINE - 3) / 2;
    int inside = x % LETTER >= 1 && column < 3 && y % LINE >= 3 && row < 5;
    int ink = letter >= 16 && inside && mixed(letter) >> (column + 3 * row) & 1;
    return ink ? 0xd0d0d0 : 0x101018;
}

static struct area drawn(int x, int y, int width, int height, int turn,
                         uint32_t (*colour)(int, int, int))
{
    struct area area = {x, y, width, height, room(4 * (size_t)width * height)};
    for (int row = 0; row < height; row++)
        for (int column = 0; column < width; column++)
            area.pixels[row * (size_t)width + column] = colour(x + column, y + row, turn);
    return area;
}

static size_t raw(uint8_t *to, const struct area *area, struct area tile)
{
    uint8_t *at = to;
    for (int y = tile.y; y < tile.y + tile.height; y++)
        for (int x = tile.x; x < tile.x + tile.width; x++, at += 4)
            put_pixel(at, area->pixels[y * (size_t)area->width + x]);
    return at - to;
}

/* A tile of at most two colours, its background that of its first pixel and its runs of the other
   one its subrectangles; or 0 bytes, if it has more colours, or more runs than are worth it. */
static size_t of_two_colours(uint8_t *to, const struct area *area, struct area tile)
{
    const uint32_t *first = area->pixels + tile.y * (size_t)area->width + tile.x;
    uint32_t back = *first, fore = back;
    uint8_t *at = to + 10;
    int runs = 0;
    for (int y = 0; y < tile.height; y++) {
        const uint32_t *row = first + y * (size_t)area->width;
        for (int x = 0, end; x < tile.width; x = end) {
            for (end = x + 1; end < tile.width && row[end] == row[x];)
                end++;
            if (row[x] == back)
                continue;
            if ((runs && row[x] != fore) || ++runs > 127)
                return 0;
            fore = row[x];
            *at++ = x << 4 | y;
            *at++ = (end - x - 1) << 4;
        }
    }
    to[0] = runs ? 2 | 4 | 8 : 2;
    put_pixel(to + 1, back);
    put_pixel(to + 5, fore);
    to[9] = runs;
    return runs ? at - to : 5;
}

/* The tiles of an area; that of the stamp is raw, and the offset of its stamp is told. */
static size_t hextile(uint8_t *to, const struct area *area, int line, size_t *stamp)
{
    uint8_t *at = to;
    for (int y = 0; y < area->height; y += TILE)
        for (int x = 0; x < area->width; x += TILE) {
            int width = area->width - x < TILE ? area->width - x : TILE;
            int height = area->height - y < TILE ? area->height - y : TILE;
            struct area tile = {x, y, width, height, NULL};
            int stamped = x == 0 && y <= line && line < y + height;
            size_t taken = stamped ? 0 : of_two_colours(at, area, tile);
            if (stamped)
                *stamp = at - to + 1 + 4 * (line - y) * width;
            if (taken == 0) {
                *at = 1;
                taken = 1 + raw(at + 1, area, tile);
            }
            at += taken;
        }
    return at - to;
}

static uint8_t *rectangle(uint8_t *at, const struct area *area, int encoding)
{
    put16(at, area->x);
    put16(at + 2, area->y);
    put16(at + 4, area->width);
    put16(at + 6, area->height);
    put32(at + 8, encoding);
    return at + RECTANGLE_HEAD;
}

/* An update of one area whose row `line` begins with the stamp. If it scrolls, the screen above the
   area is copied up by a line first. */
static struct picture picture_of(struct area area, int line, int encoding, int scrolls)
{
    size_t tiles = (size_t)(area.width / TILE + 1) * (area.height / TILE + 1);
    uint8_t *bytes = room(64 + 5 * tiles + 4 * (size_t)area.width * area.height);
    uint8_t *at = bytes + UPDATE_HEAD;
    put16(bytes + 2, 1 + scrolls);
    if (scrolls) {
        struct area above = {0, 0, area.width, area.y, NULL};
        at = rectangle(at, &above, COPYRECT);
        put16(at, 0);
        put16(at + 2, LINE);
        at += 4;
    }
    at = rectangle(at, &area, encoding);
    struct area all = {0, 0, area.width, area.height, NULL};
    size_t stamp = 4 * (size_t)line * area.width;
    size_t length = encoding == HEXTILE ? hextile(at, &area, line, &stamp) : raw(at, &area, all);
    free(area.pixels);
    return (struct picture){bytes, at - bytes + length, at - bytes + stamp};
}

struct show show_of(const char *mode, int width, int height, int encoding)
{
    int screens = !strcmp(mode, "screens"), terminal = !strcmp(mode, "terminal");
    int photo = !strcmp(mode, "photo"), line = height - LINE;
    if (!screens && !terminal && !photo && strcmp(mode, "clock"))
        fail("%s is no mode", mode);
    if (width < CLOCK || height < 2 * LINE || width > 16384 || height > 16384)
        fail("a screen of %d by %d pixels is too small, or too large", width, height);
    struct show show = {0};
    uint32_t (*colour)(int, int, int) = screens || photo ? smooth : text;
    show.whole = picture_of(drawn(0, 0, width, height, TURNS, colour), line, encoding, 0);
    for (int turn = 0; turn < TURNS; turn++) {
        struct area area = screens ? drawn(0, 0, width, height, turn, colour) :
                           drawn(0, line, terminal ? width : CLOCK, LINE, turn, colour);
        show.turns[turn] = picture_of(area, screens ? line : 0, encoding, terminal);
    }
    return show;
}
