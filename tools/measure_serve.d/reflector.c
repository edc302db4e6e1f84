/* The obvious reflector: libvncclient paints what a host sends into one framebuffer, and
   libvncserver shows that to viewers. A host's copy is passed on as one, and everything else marked
   as changed.

   usage: reflector HOST:PORT ADDRESS:PORT

   The second is where it listens. Prints `serving`, and runs until it is killed. One thread
   waits for the host and the viewers at once, and answers a viewer as soon as it can. */
#include "shared.h"
#include <arpa/inet.h>
#include <rfb/rfb.h>
#include <rfb/rfbclient.h>

static rfbScreenInfoPtr screen;
static int is_copied;

static void copied(rfbClient *host, int from_x, int from_y, int width, int height, int x, int y)
{
    (void)host;
    rfbDoCopyRect(screen, x, y, x + width, y + height, x - from_x, y - from_y);
    is_copied = 1;
}

/* libvncclient says this of every rectangle, also of one that was copied. */
static void changed(rfbClient *host, int x, int y, int width, int height)
{
    (void)host;
    if (!is_copied && screen)
        rfbMarkRectAsModified(screen, x, y, x + width, y + height);
    is_copied = 0;
}

static void in_our_format(rfbPixelFormat *format)
{
    format->redShift = 16;
    format->greenShift = 8;
    format->blueShift = 0;
}

static rfbClient *host_at(char *endpoint)
{
    rfbClient *host = rfbGetClient(8, 3, 4);
    char *words[] = {"reflector", endpoint};
    int count = 2;
    in_our_format(&host->format);
    host->appData.encodingsString = "copyrect hextile rre raw";
    host->GotCopyRect = copied;
    host->GotFrameBufferUpdate = changed;
    if (!rfbInitClient(host, &count, words))
        fail("no host at %s", endpoint);
    return host;
}

/* The screen has a cursor without pixels, beside it: a copy needs one. */
static void show(rfbClient *host, const char *endpoint)
{
    screen = rfbGetScreen(NULL, NULL, host->width, host->height, 8, 3, 4);
    screen->frameBuffer = (char *)host->frameBuffer;
    in_our_format(&screen->serverFormat);
    screen->deferUpdateTime = 0;
    screen->cursor = rfbMakeXCursor(1, 1, " ", " ");
    screen->cursorX = screen->cursorY = -16;
    screen->alwaysShared = TRUE;
    screen->listenInterface = htonl(INADDR_LOOPBACK);
    screen->autoPort = FALSE;
    screen->port = number(strchr(endpoint, ':') + 1);
    screen->ipv6port = 0;
    rfbInitServer(screen);
    if (screen->listenSock < 0)
        fail("can't listen at %s", endpoint);
    FD_SET(host->sock, &screen->allFds);
    screen->maxFd = screen->maxFd > host->sock ? screen->maxFd : host->sock;
}

static void quiet(const char *format, ...)
{
    (void)format;
}

int main(int argc, char **words)
{
    if (argc != 3 || !strchr(words[2], ':'))
        fail("usage: reflector HOST:PORT ADDRESS:PORT");
    rfbLog = rfbErr = rfbClientLog = quiet;
    rfbClient *host = host_at(words[1]);
    show(host, words[2]);
    printf("serving\n");
    fflush(stdout);
    for (int come = 0;; come = 0) {
        while (host->buffered || WaitForMessage(host, 0) > 0) {
            if (!HandleRFBServerMessage(host))
                return 0;
            come = 1;
        }
        rfbProcessEvents(screen, come ? 0 : 1000000);
    }
}
