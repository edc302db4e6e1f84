/* A host of RFB 3.8 without a password, which sends updates as fast as its clients ask, or at a
   rate.

   usage: host ADDRESS:PORT WIDTH HEIGHT MODE RATE ENCODING TIMES

   MODE is `screens` (the whole screen, each time with other pixels), `terminal` (the screen scrolls
   up by a line of 16 pixels, and a new line of text comes), `clock` (an area of 64 by 16 pixels of a
   screen of text changes) or `photo` (one of a screen of many colours). RATE is how many updates
   there are a second, if they are asked for, or 0: as many as are asked for. ENCODING is `raw` or
   `hextile`; clients have to take it, and CopyRect. A client is first sent the whole screen. Each
   client has its own thread and numbers, since a proxy connects once for each viewer.

   Prints `listening`. At each line on its input, and at the input's end, prints what it has sent
   since the line before. At the end writes into TIMES a line for each update: the connection's
   number, the update's, and the CLOCK_MONOTONIC nanoseconds just before it was sent. */
#include "pictures.h"
#include <errno.h>
#include <pthread.h>
#include <signal.h>
#include <stdatomic.h>
#include <stdio.h>
#include <stdlib.h>
#include <string.h>
#include <sys/socket.h>
#include <sys/time.h>
#include <time.h>
#include <unistd.h>

enum { CLIENTS = 300, WAITS = 100 };

struct client {
    int socket, number;
    pthread_t thread;
    int64_t *times;
    atomic_int begun;           /* updates whose time is noted */
    atomic_llong updates, bytes;
};

static struct show show;
static struct client clients[CLIENTS];
static atomic_int come, ending;
static int width, height, rate;

static int shaken_hands(int socket)
{
    uint8_t got[12], start[INIT + 4] = {0};
    struct iovec version = {"RFB 003.008\n", 12}, types = {"\1\1", 2}, accepted = {"\0\0\0\0", 4};
    struct iovec init = {start, sizeof start};
    put16(start, width);
    put16(start + 2, height);
    memcpy(start + 4, FORMAT, sizeof FORMAT);
    put32(start + 20, 4);
    memcpy(start + 24, "host", 4);
    return write_all(socket, &version, 1) && read_all(socket, got, 12) &&
           write_all(socket, &types, 1) && read_all(socket, got, 1) &&
           write_all(socket, &accepted, 1) && read_all(socket, got, 1) &&
           write_all(socket, &init, 1);
}

/* Waits for a message's first byte: 0 if the client has gone, or the host is to end. */
static int begins(int socket, uint8_t *byte)
{
    ssize_t got;
    while ((got = recv(socket, byte, 1, 0)) < 0 && errno == EAGAIN && !ending)
        ;
    return got > 0 && !ending;
}

/* Waits for a request: 1 if all is asked for, 0 if only what changed, -1 if none comes. */
static int asked(int socket)
{
    uint8_t message[20];
    while (begins(socket, message)) {
        size_t rest = *message == 0 ? 19 : *message == 3 ? 9 : *message == 4 ? 7 :
                      *message == 5 ? 5 : *message == 2 ? 3 : 0;
        if (rest == 0)
            fail("a client's message of type %d", *message);
        if (!read_all(socket, message + 1, rest))
            break;
        if (*message == 3)
            return !message[1];
        if (*message == 0 && (message[4] != 32 || memcmp(message + 6, FORMAT + 2, 11)))
            fail("a client wants another pixel format");
        for (int left = *message == 2 ? get16(message + 2) : 0; left; left--)
            if (!read_all(socket, message + 4, 4))
                return -1;
    }
    return -1;
}

/* Waits until the next moment at which something changes. */
static void wait_for_change(void)
{
    if (rate == 0)
        return;
    int64_t each = 1000000000 / rate, next = (now() / each + 1) * each;
    struct timespec time = {next / 1000000000, next % 1000000000};
    while (clock_nanosleep(CLOCK_MONOTONIC, TIMER_ABSTIME, &time, NULL))
        ;
}

static int send_stamped(struct client *client, const struct picture *picture)
{
    uint8_t stamp[STAMP];
    int n = client->begun;
    if (n == MOST)
        fail("more than %d updates", MOST);
    put_pixel(stamp, n + 1);
    put_pixel(stamp + 4, client->number);
    client->times[n] = now();
    client->begun = n + 1;
    struct iovec parts[] = {{picture->bytes, picture->stamp}, {stamp, STAMP},
                            {picture->bytes + picture->stamp + STAMP,
                             picture->length - picture->stamp - STAMP}};
    if (!write_all(client->socket, parts, 3))
        return 0;
    client->updates++;
    client->bytes += picture->length;
    return 1;
}

/* Ends the stream, and waits until the client has, so that nothing that was sent is lost. */
static void part(int socket)
{
    uint8_t some[256];
    ssize_t got = 1;
    shutdown(socket, SHUT_WR);
    for (int waits = 0; waits < WAITS && (got > 0 || (got < 0 && errno == EAGAIN)); waits++)
        got = recv(socket, some, sizeof some, 0);
    close(socket);
}

static void *serve(void *given)
{
    struct client *client = given;
    struct timeval wait = {0, 100000};
    setsockopt(client->socket, SOL_SOCKET, SO_RCVTIMEO, &wait, sizeof wait);
    int whole, goes_on = shaken_hands(client->socket);
    for (unsigned turn = 0; goes_on && (whole = asked(client->socket)) >= 0; turn++) {
        if (!whole)
            wait_for_change();
        goes_on = send_stamped(client, whole ? &show.whole : &show.turns[turn % TURNS]);
    }
    part(client->socket);
    return NULL;
}

static void *accept_all(void *listener)
{
    for (int n = 0; n < CLIENTS; n++) {
        clients[n].socket = accepted(*(int *)listener);
        clients[n].number = n + 1;
        clients[n].times = room(MOST * sizeof(int64_t));
        if (pthread_create(&clients[n].thread, NULL, serve, &clients[n]))
            fail("no thread for a client");
        come = n + 1;
    }
    fail("more than %d clients", CLIENTS);
}

static void write_times(const char *path)
{
    FILE *file = fopen(path, "w");
    if (!file)
        fail("can't write %s", path);
    for (int n = 0; n < come; n++)
        for (int update = 0, end = clients[n].begun; update < end; update++)
            fprintf(file, "%d %d %lld\n", n + 1, update + 1, (long long)clients[n].times[update]);
    if (fclose(file))
        fail("can't write %s", path);
}

/* Tells what all clients were sent since this was told before. */
static void tell(void)
{
    static long long updates_before, bytes_before;
    static int64_t start;
    long long updates = 0, bytes = 0;
    int64_t time = now();
    for (int n = 0; n < come; n++) {
        updates += clients[n].updates;
        bytes += clients[n].bytes;
    }
    printf("updates %lld bytes %lld seconds %.3f\n", updates - updates_before, bytes - bytes_before,
           start ? (time - start) / 1e9 : 0);
    fflush(stdout);
    updates_before = updates;
    bytes_before = bytes;
    start = time;
}

int main(int argc, char **words)
{
    if (argc != 8)
        fail("usage: host ADDRESS:PORT WIDTH HEIGHT MODE RATE raw|hextile TIMES");
    width = number(words[2]);
    height = number(words[3]);
    rate = number(words[5]);
    show = show_of(words[4], width, height, strcmp(words[6], "hextile") ? RAW : HEXTILE);
    signal(SIGPIPE, SIG_IGN);
    int listener = listening(words[1]);
    pthread_t thread;
    if (pthread_create(&thread, NULL, accept_all, &listener))
        fail("no thread");
    printf("listening\n");
    fflush(stdout);
    for (int c; (c = getchar()) != EOF;)
        if (c == '\n')
            tell();
    tell();
    ending = 1;
    for (int n = 0; n < come; n++)
        pthread_join(clients[n].thread, NULL);
    write_times(words[7]);
    return 0;
}
