/* libvncserver's own Raw rectangles of 1920 by 1080 pixels, ten of them, written to a socket that a
 * thread empties: in the host's format (`host`), in two bytes a pixel (`two`), or none (`none`). */
#include <pthread.h>
#include <rfb/rfb.h>
#include <stdio.h>
#include <string.h>
#include <sys/socket.h>
#include <unistd.h>

enum { WIDTH = 1920, HEIGHT = 1080, TIMES = 10 };

static void *emptied(void *end)
{
    static char room[1 << 20];
    while (read(*(int *)end, room, sizeof room) > 0) {
    }
    return NULL;
}

int main(int count, char **words)
{
    const char *work = count > 1 ? words[1] : "none";
    int ends[2], ours = 1;
    pthread_t thread;
    rfbScreenInfoPtr screen = rfbGetScreen(&ours, words, WIDTH, HEIGHT, 8, 3, 4);
    if (!screen || socketpair(AF_UNIX, SOCK_STREAM, 0, ends)) {
        return 1;
    }
    rfbLogEnable(0);
    screen->frameBuffer = calloc(WIDTH * HEIGHT, 4);
    pthread_create(&thread, NULL, emptied, &ends[1]);
    rfbClientPtr viewer = rfbNewClient(screen, ends[0]);
    if (!viewer) {
        return 1;
    }
    viewer->format = screen->serverFormat;
    if (!strcmp(work, "two")) {
        viewer->format.bitsPerPixel = viewer->format.depth = 16;
        viewer->format.redMax = viewer->format.blueMax = 31;
        viewer->format.greenMax = 63;
        viewer->format.redShift = 11;
        viewer->format.greenShift = 5;
        viewer->format.blueShift = 0;
    }
    rfbSetTranslateFunction(viewer);
    for (int n = 0; n < (strcmp(work, "none") ? TIMES : 0); n++) {
        if (!rfbSendRectEncodingRaw(viewer, 0, 0, WIDTH, HEIGHT) || !rfbSendUpdateBuf(viewer)) {
            return 1;
        }
    }
    printf("%d\n", WIDTH * HEIGHT);
    return 0;
}
