/* What the programs here share: shared.h says what each of it is. */
#define _GNU_SOURCE
#include "shared.h"
#include <arpa/inet.h>
#include <errno.h>
#include <netinet/tcp.h>
#include <stdarg.h>
#include <stdio.h>
#include <stdlib.h>
#include <string.h>
#include <time.h>
#include <unistd.h>

const uint8_t FORMAT[16] = {32, 24, 0, 1, 0, 255, 0, 255, 0, 255, 16, 8, 0};

void put16(uint8_t *at, unsigned value)
{
    at[0] = value >> 8;
    at[1] = value;
}

void put32(uint8_t *at, uint32_t value)
{
    put16(at, value >> 16);
    put16(at + 2, value);
}

void put_pixel(uint8_t *at, uint32_t value)
{
    at[0] = value;
    at[1] = value >> 8;
    at[2] = value >> 16;
    at[3] = 0;
}

void fail(const char *what, ...)
{
    va_list arguments;
    va_start(arguments, what);
    fprintf(stderr, "%s: ", program_invocation_short_name);
    vfprintf(stderr, what, arguments);
    fprintf(stderr, "\n");
    va_end(arguments);
    exit(1);
}

int64_t now(void)
{
    struct timespec time;
    clock_gettime(CLOCK_MONOTONIC, &time);
    return time.tv_sec * INT64_C(1000000000) + time.tv_nsec;
}

void *room(size_t bytes)
{
    void *found = calloc(bytes, 1);
    if (!found)
        fail("no memory for %zu bytes", bytes);
    return found;
}

int64_t number(const char *word)
{
    char *end;
    long value = strtol(word, &end, 10);
    if (*end || end == word || value < 0)
        fail("%s is no number", word);
    return value;
}

static struct sockaddr_in address_of(const char *endpoint)
{
    struct sockaddr_in address = {.sin_family = AF_INET};
    char text[64];
    const char *colon = strchr(endpoint, ':');
    if (!colon || colon - endpoint >= (long)sizeof text)
        fail("%s is no ADDRESS:PORT", endpoint);
    memcpy(text, endpoint, colon - endpoint);
    text[colon - endpoint] = 0;
    address.sin_port = htons(number(colon + 1));
    if (inet_pton(AF_INET, text, &address.sin_addr) != 1)
        fail("%s is no ADDRESS:PORT", endpoint);
    return address;
}

static int without_delay(int socket)
{
    int yes = 1;
    setsockopt(socket, IPPROTO_TCP, TCP_NODELAY, &yes, sizeof yes);
    return socket;
}

int listening(const char *endpoint)
{
    struct sockaddr_in address = address_of(endpoint);
    int yes = 1, listener = socket(AF_INET, SOCK_STREAM, 0);
    setsockopt(listener, SOL_SOCKET, SO_REUSEADDR, &yes, sizeof yes);
    if (bind(listener, (struct sockaddr *)&address, sizeof address) || listen(listener, 256))
        fail("can't listen at %s: %s", endpoint, strerror(errno));
    return listener;
}

int accepted(int listener)
{
    int peer = accept(listener, NULL, NULL);
    if (peer < 0)
        fail("can't accept: %s", strerror(errno));
    return without_delay(peer);
}

int connected(const char *endpoint)
{
    struct sockaddr_in address = address_of(endpoint);
    int peer = socket(AF_INET, SOCK_STREAM, 0);
    if (connect(peer, (struct sockaddr *)&address, sizeof address))
        fail("can't connect to %s: %s", endpoint, strerror(errno));
    return without_delay(peer);
}

int read_all(int socket, void *bytes, size_t count)
{
    for (uint8_t *at = bytes; count;) {
        ssize_t got = read(socket, at, count);
        if (got == 0 || (got < 0 && errno != EINTR && errno != EAGAIN))
            return 0;
        if (got > 0) {
            at += got;
            count -= got;
        }
    }
    return 1;
}

int write_all(int socket, const struct iovec *parts, int count)
{
    for (size_t done = 0; count;) {
        struct iovec left[4];
        for (int i = 0; i < count; i++)
            left[i] = parts[i];
        left[0].iov_base = (uint8_t *)left[0].iov_base + done;
        left[0].iov_len -= done;
        ssize_t sent = writev(socket, left, count);
        if (sent < 0 && errno != EINTR)
            return 0;
        for (done += sent > 0 ? sent : 0; count && done >= parts->iov_len; count--)
            done -= (parts++)->iov_len;
    }
    return 1;
}
