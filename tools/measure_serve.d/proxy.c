/* The cheapest thing that can stand between a host and viewers: it connects to the host once for
   each viewer, and copies bytes both ways, in one thread.

   usage: proxy HOST:PORT ADDRESS:PORT

   The second is where it listens. Prints `serving`, and runs until it is killed. */
#include "shared.h"
#include <errno.h>
#include <signal.h>
#include <stdio.h>
#include <stdlib.h>
#include <sys/epoll.h>
#include <sys/socket.h>
#include <unistd.h>

enum { PIECE = 1 << 16, EVENTS = 64 };

/* One of the two sockets of a pair, and what came from it and isn't sent to the other yet. */
struct end {
    int socket;
    struct end *other;
    uint32_t waits_for;
    size_t from, to;
    uint8_t bytes[PIECE];
};

static int poll;

static void add(struct end *end)
{
    struct epoll_event event = {.events = end->waits_for = EPOLLIN, .data.ptr = end};
    epoll_ctl(poll, EPOLL_CTL_ADD, end->socket, &event);
}

static void add_pair(int viewer, int host)
{
    struct end *pair = room(2 * sizeof *pair);
    for (int n = 0; n < 2; n++) {
        pair[n].socket = n ? host : viewer;
        pair[n].other = &pair[1 - n];
        add(&pair[n]);
    }
}

/* It is read while nothing of it waits to be sent, and written while something waits for it. */
static void wait_for(struct end *end)
{
    struct end *other = end->other;
    uint32_t events = (end->from == end->to ? EPOLLIN : 0);
    events |= other->from < other->to ? EPOLLOUT : 0;
    struct epoll_event event = {.events = events, .data.ptr = end};
    if (events != end->waits_for)
        epoll_ctl(poll, EPOLL_CTL_MOD, end->socket, &event);
    end->waits_for = events;
}

/* Sends what came from this end; 0 if the other has gone. */
static int send_on(struct end *end)
{
    ssize_t sent = send(end->other->socket, end->bytes + end->from, end->to - end->from,
                        MSG_DONTWAIT | MSG_NOSIGNAL);
    if (sent > 0)
        end->from += sent;
    wait_for(end);
    wait_for(end->other);
    return sent > 0 || errno == EAGAIN;
}

/* Reads once and sends that on, or sends what waits; 0 if the end has gone. */
static int copy(struct end *end, uint32_t events)
{
    if (events & EPOLLOUT)
        return send_on(end->other);
    ssize_t got = recv(end->socket, end->bytes, PIECE, MSG_DONTWAIT);
    if (got <= 0)
        return got < 0 && errno == EAGAIN;
    end->from = 0;
    end->to = got;
    return send_on(end);
}

/* Closes both. Their memory stays, since another event may speak of it: a run has few viewers. */
static void close_pair(struct end *end)
{
    if (end->socket < 0)
        return;
    close(end->socket);
    close(end->other->socket);
    end->socket = end->other->socket = -1;
}

int main(int argc, char **words)
{
    if (argc != 3)
        fail("usage: proxy HOST:PORT ADDRESS:PORT");
    int listener = listening(words[2]);
    struct epoll_event event = {.events = EPOLLIN}, events[EVENTS];
    poll = epoll_create1(0);
    epoll_ctl(poll, EPOLL_CTL_ADD, listener, &event);
    printf("serving\n");
    fflush(stdout);
    for (;;) {
        int come = epoll_wait(poll, events, EVENTS, -1);
        for (int n = 0; n < come; n++) {
            struct end *end = events[n].data.ptr;
            if (!end) {
                int viewer = accepted(listener);
                add_pair(viewer, connected(words[1]));
            } else if (end->socket >= 0 && !copy(end, events[n].events))
                close_pair(end);
        }
    }
}
