/* What a host shows: updates that are made once, and then only stamped and sent. */
#ifndef PICTURES_H
#define PICTURES_H
#include "shared.h"

/* A whole message of a host, and the offset in it of the eight bytes of the stamp. */
struct picture {
    uint8_t *bytes;
    size_t length, stamp;
};

enum { TURNS = 8 };

/* The whole screen, and the updates that follow in turn, each of another content. */
struct show {
    struct picture whole, turns[TURNS];
};

/* What is shown in a mode (`screens`, `terminal`, `clock` or `photo`), in Raw or in Hextile. */
struct show show_of(const char *mode, int width, int height, int encoding);
#endif
