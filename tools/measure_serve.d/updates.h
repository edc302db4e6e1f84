/* Reads a stream of updates only as far as it must to find the end of each, and what it is
   stamped. */
#ifndef UPDATES_H
#define UPDATES_H
#include "shared.h"

struct area {
    int x, y, width, height;
};

/* What comes next in a stream: first `skip` bytes that are skipped, then a field, and then `step`
   does what the state says. */
struct reader {
    int width, height;
    int state, then, whole;
    size_t skip, need, have, after;
    uint8_t field[16];
    int rectangles, mask;           /* how many rectangles are to come; a Hextile tile's mask */
    uint32_t parts, back, fore;     /* how many subrectangles are to come; colours of Hextile */
    struct area rectangle, tile;
    uint32_t stamp[2];              /* the two pixels of the stamp, as painted so far; 0 before */
    long long encodings[6];         /* how many rectangles there were in each encoding */
};

/* A reader at a message's beginning, of a screen of this size. */
struct reader reader_of(int width, int height);

/* Reads of these bytes, and answers how many it took: all, or those until an update is `whole`. */
size_t take(struct reader *reader, const uint8_t *bytes, size_t length);
#endif
