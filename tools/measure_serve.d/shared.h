/* What the programs here share: numbers of RFB, sockets, the time, and a stamp's pixels. */
#ifndef SHARED_H
#define SHARED_H
#include <stddef.h>
#include <stdint.h>
#include <sys/uio.h>

enum { RAW = 0, COPYRECT = 1, RRE = 2, HEXTILE = 5 };
enum { INIT = 24, REQUEST = 10, UPDATE_HEAD = 4, RECTANGLE_HEAD = 12 };

/* A stamp is the first two pixels of the last LINE rows of a screen: the update's number, and
   which of the host's connections it was sent to, both from 1. A pixel has four bytes, a number
   three. A connection has MOST updates at most. */
enum { LINE = 16, STAMP = 8, MOST = 1 << 20 };

/* The format of every pixel here: 32 bits, depth 24, little endian, blue first. */
extern const uint8_t FORMAT[16];

static inline unsigned get16(const uint8_t *at) { return at[0] << 8 | at[1]; }
static inline uint32_t get32(const uint8_t *at) { return get16(at) << 16 | get16(at + 2); }
static inline uint32_t get_pixel(const uint8_t *at) { return at[0] | at[1] << 8 | at[2] << 16; }
void put16(uint8_t *at, unsigned value);
void put32(uint8_t *at, uint32_t value);
void put_pixel(uint8_t *at, uint32_t value);

/* Says what went wrong, and ends the program with status 1. */
void fail(const char *what, ...) __attribute__((noreturn, format(printf, 1, 2)));
/* CLOCK_MONOTONIC, in nanoseconds. */
int64_t now(void);
void *room(size_t bytes);
int64_t number(const char *word);

/* Sockets of ADDRESS:PORT, without delay of small messages. */
int listening(const char *endpoint);
int accepted(int listener);
int connected(const char *endpoint);

/* All of it is read or written; 0 if the peer has ended. */
int read_all(int socket, void *bytes, size_t count);
int write_all(int socket, const struct iovec *parts, int count);
#endif
