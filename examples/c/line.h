/* The line of the devices in this folder: a pseudo-terminal, whose other end any program can open as a serial port. */
#ifndef LINE_H
#define LINE_H

#include "hart.h"

#include <fcntl.h>
#include <poll.h>
#include <stdio.h>
#include <stdlib.h>
#include <termios.h>
#include <time.h>
#include <unistd.h>

enum {
    MOST_HEARD = 1024, /* the most characters that are heard at once */
    LONGEST = 287,     /* room for any message */
    GAP = 50           /* so many milliseconds without a byte end what is heard at once; a byte takes nine of them at 1200 bits a second */
};

static void fail(const char *what)
{
    perror(what);
    exit(1);
}

/* Returns the seconds of a clock that is never set. */
static double now(void)
{
    struct timespec time;
    if (clock_gettime(CLOCK_MONOTONIC, &time) != 0)
        fail("clock_gettime");
    return (double)time.tv_sec + (double)time.tv_nsec * 1e-9;
}

/* Opens a pseudo-terminal that leaves all bytes as they are, and waits neither for bytes nor for whoever reads them. Prints the name of the
 * other end. */
static int open_line(void)
{
    struct termios raw;
    int line = posix_openpt(O_RDWR | O_NOCTTY);
    if (line < 0 || grantpt(line) != 0 || unlockpt(line) != 0 || tcgetattr(line, &raw) != 0)
        fail("pseudo-terminal");
    raw.c_iflag = 0;
    raw.c_oflag = 0;
    raw.c_lflag = 0;
    if (tcsetattr(line, TCSANOW, &raw) != 0 || fcntl(line, F_SETFL, O_NONBLOCK) != 0)
        fail("pseudo-terminal");
    printf("%s\n", ptsname(line));
    fflush(stdout);
    return line;
}

/* Listens up to a gap, and returns how many characters came, at most MOST_HEARD + 1, so that a delivery that is too long is noticed.
 * Returns 0 at the time `end`, or once the other end is closed after something was heard. */
static size_t hear_delivery(int line, double end, hart_char *heard)
{
    static bool was_heard;
    size_t held = 0;
    while (now() < end) {
        uint8_t bytes[256];
        struct pollfd look = {.fd = line, .events = POLLIN};
        int count = poll(&look, 1, GAP);
        if (count < 0)
            continue; /* a signal came */
        ssize_t got = (look.revents & POLLIN) != 0 ? read(line, bytes, sizeof bytes) : 0;
        for (ssize_t i = 0; i < got && held <= MOST_HEARD; i++)
            heard[held++] = (hart_char){.byte = bytes[i]};
        was_heard = was_heard || got > 0;
        if (got > 0)
            continue;
        if (held > 0)
            return held;
        if (count > 0 && was_heard)
            return 0; /* the other end is closed */
        if (count > 0)
            poll(NULL, 0, GAP); /* nobody has opened it */
    }
    return 0;
}

/* Sends a message. If nobody reads it, the rest of it is dropped. */
static void say(int line, const uint8_t *message, size_t len)
{
    for (size_t sent = 0; sent < len;) {
        ssize_t more = write(line, message + sent, len - sent);
        if (more < 0)
            return;
        sent += (size_t)more;
    }
}

/* Prints the image of a device in hex. */
static void print_image(const hart_device *device)
{
    for (size_t i = 0; i < device->image_len; i++)
        printf("%02X", device->image[i]);
    printf("\n");
}

#endif
