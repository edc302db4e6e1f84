/* Viewers in one process, which ask for the whole screen once all are connected, and then for what
   changed, each time an update has come.

   usage: viewers ADDRESS:PORT N ENCODINGS SIGHTS

   ENCODINGS are those that are asked for, in this order: of `raw`, `copyrect`, `rre` and `hextile`,
   with commas between them. Pixels are asked for in the host's format. Updates aren't painted: they
   are read to find the end of each, and what it is stamped (updates.h).

   Prints `ready` once each viewer has had a screen. At each line on its input, and at the
   input's end, prints what has come since the line before: to all viewers, then to the one that
   got least and the one in the middle; and how many rectangles there were of each encoding, from
   the start. At the end writes into SIGHTS, for each viewer and each update that it saw, a line:
   the viewer, the host's connection, the update's number, and the CLOCK_MONOTONIC nanoseconds
   when it was first whole. Ends with status 1 if anything isn't as it should be, also if an
   older update comes after a newer one. */
#include "updates.h"
#include <stdio.h>
#include <stdlib.h>
#include <string.h>
#include <sys/epoll.h>
#include <unistd.h>

enum { PIECE = 1 << 18, EVENTS = 64 };

struct sight {
    int connection, update;
    int64_t time;
};

struct viewer {
    int socket;
    struct reader reader;
    long long updates, bytes, updates_before, bytes_before;
    struct sight *sights;
    int seen, room;
};

static struct viewer *viewers;
static int count, ready;
static int64_t start;

static uint32_t encoding_of(const char *word)
{
    static const char *const words[] = {[RAW] = "raw", [COPYRECT] = "copyrect", [RRE] = "rre",
                                        [HEXTILE] = "hextile"};
    for (int n = 0; n <= HEXTILE; n++)
        if (words[n] && !strcmp(word, words[n]))
            return n;
    fail("%s is no encoding", word);
}

static void say(struct viewer *viewer, const void *bytes, size_t length)
{
    struct iovec part = {(void *)bytes, length};
    if (!write_all(viewer->socket, &part, 1))
        fail("viewer %d: its peer has ended", (int)(viewer - viewers));
}

static void hear(struct viewer *viewer, void *bytes, size_t length)
{
    if (!read_all(viewer->socket, bytes, length))
        fail("viewer %d: its peer has ended", (int)(viewer - viewers));
}

static void ask(struct viewer *viewer, int incremental)
{
    uint8_t request[REQUEST] = {3, incremental};
    put16(request + 6, viewer->reader.width);
    put16(request + 8, viewer->reader.height);
    say(viewer, request, sizeof request);
}

static void shake_hands(struct viewer *viewer)
{
    uint8_t got[256];
    hear(viewer, got, 12);
    say(viewer, "RFB 003.008\n", 12);
    hear(viewer, got, 1);
    hear(viewer, got, got[0]);
    say(viewer, "\1", 1);
    hear(viewer, got, 4);
    say(viewer, "\1", 1);
    hear(viewer, got, INIT);
    viewer->reader = reader_of(get16(got), get16(got + 2));
    for (uint32_t left = get32(got + 20); left; left--)
        hear(viewer, got, 1);
}

static void begin(struct viewer *viewer, const char *endpoint, const char *encodings)
{
    uint8_t format[20] = {0}, list[4 + 4 * 16] = {2};
    char words[256];
    int listed = 0;
    viewer->socket = connected(endpoint);
    shake_hands(viewer);
    memcpy(format + 4, FORMAT, sizeof FORMAT);
    say(viewer, format, sizeof format);
    snprintf(words, sizeof words, "%s", encodings);
    for (char *word = strtok(words, ","); word && listed < 16; word = strtok(NULL, ","))
        put32(list + 4 + 4 * listed++, encoding_of(word));
    put16(list + 2, listed);
    say(viewer, list, 4 + 4 * listed);
}

/* Whether an update is seen that this viewer hasn't seen before. */
static int note_sight(struct viewer *viewer)
{
    int update = viewer->reader.stamp[0], connection = viewer->reader.stamp[1];
    if (update == 0)
        return 0;
    if (viewer->seen) {
        struct sight *last = &viewer->sights[viewer->seen - 1];
        if (last->update == update && last->connection == connection)
            return 0;
        if (last->update > update || last->connection != connection)
            fail("update %d of connection %d came after update %d of connection %d", update,
                 connection, last->update, last->connection);
    }
    if (viewer->seen == viewer->room) {
        viewer->room = 2 * viewer->room + 64;
        viewer->sights = realloc(viewer->sights, viewer->room * sizeof *viewer->sights);
        if (!viewer->sights)
            fail("no memory for what is seen");
    }
    viewer->sights[viewer->seen++] = (struct sight){connection, update, now()};
    return 1;
}

static void look(struct viewer *viewer)
{
    static uint8_t piece[PIECE];
    ssize_t got = read(viewer->socket, piece, sizeof piece);
    if (got <= 0)
        fail("viewer %d: its peer has ended", (int)(viewer - viewers));
    viewer->bytes += got;
    for (ssize_t at = 0; at < got;) {
        at += take(&viewer->reader, piece + at, got - at);
        if (!viewer->reader.whole)
            continue;
        viewer->updates++;
        ask(viewer, 1);
        if (note_sight(viewer) && viewer->seen == 1 && ++ready == count) {
            printf("ready\n");
            fflush(stdout);
        }
    }
}

static void begin_to_count(void)
{
    start = now();
    for (struct viewer *viewer = viewers; viewer < viewers + count; viewer++) {
        viewer->updates_before = viewer->updates;
        viewer->bytes_before = viewer->bytes;
    }
}

static int by_size(const void *one, const void *other)
{
    long long a = *(const long long *)one, b = *(const long long *)other;
    return (a > b) - (a < b);
}

static void tell_of(const char *what, long long *each)
{
    long long all = 0;
    for (int n = 0; n < count; n++)
        all += each[n];
    qsort(each, count, sizeof *each, by_size);
    printf("%s %lld least_%s %lld median_%s %lld ", what, all, what, each[0], what,
           each[count / 2]);
}

static void tell(void)
{
    double taken = (now() - start) / 1e9;
    long long *updates = room(count * sizeof *updates), *bytes = room(count * sizeof *bytes);
    long long encodings[6] = {0};
    for (int n = 0; n < count; n++) {
        updates[n] = viewers[n].updates - viewers[n].updates_before;
        bytes[n] = viewers[n].bytes - viewers[n].bytes_before;
        for (int e = 0; e <= HEXTILE; e++)
            encodings[e] += viewers[n].reader.encodings[e];
    }
    tell_of("updates", updates);
    tell_of("bytes", bytes);
    printf("seconds %.3f raw %lld copyrect %lld rre %lld hextile %lld\n", taken, encodings[RAW],
           encodings[COPYRECT], encodings[RRE], encodings[HEXTILE]);
    fflush(stdout);
}

static void write_sights(const char *path)
{
    FILE *file = fopen(path, "w");
    if (!file)
        fail("can't write %s", path);
    for (int n = 0; n < count; n++)
        for (struct sight *s = viewers[n].sights; s < viewers[n].sights + viewers[n].seen; s++)
            fprintf(file, "%d %d %d %lld\n", n, s->connection, s->update, (long long)s->time);
    if (fclose(file))
        fail("can't write %s", path);
}

/* Reads what is on the input, a line at most, and answers it: 0 at its end. */
static int told(void)
{
    char byte = '\n';
    ssize_t got = read(STDIN_FILENO, &byte, 1);
    if (byte == '\n') {
        tell();
        begin_to_count();
    }
    return got > 0;
}

int main(int argc, char **words)
{
    if (argc != 5)
        fail("usage: viewers ADDRESS:PORT N ENCODINGS SIGHTS");
    count = number(words[2]);
    viewers = room((count + 1) * sizeof *viewers);
    int poll = epoll_create1(0);
    struct epoll_event input = {.events = EPOLLIN}, events[EVENTS];
    for (int n = 0; n < count; n++)
        begin(&viewers[n], words[1], words[3]);
    for (struct viewer *viewer = viewers; viewer < viewers + count; viewer++) {
        ask(viewer, 0);
        struct epoll_event event = {.events = EPOLLIN, .data.ptr = viewer};
        epoll_ctl(poll, EPOLL_CTL_ADD, viewer->socket, &event);
    }
    if (epoll_ctl(poll, EPOLL_CTL_ADD, STDIN_FILENO, &input))
        fail("its input has to be a pipe or a terminal");
    begin_to_count();
    for (int goes_on = 1; goes_on;) {
        int come = epoll_wait(poll, events, EVENTS, -1);
        for (int n = 0; n < come; n++)
            if (events[n].data.ptr)
                look(events[n].data.ptr);
            else
                goes_on = told();
    }
    write_sights(words[4]);
    return 0;
}
