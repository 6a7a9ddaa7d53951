/* A small gateway. It finds the device at polling address 0 behind a serial port, and then reads its primary variable again and again. With
 * a COMMAND it sends this too before each poll, whether the library knows the command or not. The library finds the frames, matches
 * replies to requests and counts retries. The program opens the port and measures silences.
 *
 * Usage: gateway PORT [POLLS [COMMAND [DATA]]]; 10 polls if absent, DATA in hex. The status is 2 if a request was not answered. */
#define _DEFAULT_SOURCE

#include "hart.h"

#include <fcntl.h>
#include <poll.h>
#include <stdio.h>
#include <stdlib.h>
#include <string.h>
#include <sys/ioctl.h>
#include <termios.h>
#include <unistd.h>

enum {
    RETRIES = 3,
    REPLY_LIMIT = 33,   /* the character times after which a primary master misses a reply */
    GAP = 50,           /* so many milliseconds without a byte are a silence */
    GAP_CHARACTERS = 5, /* the whole character times in them */
    PAUSE = 100,        /* milliseconds after a poll */
    ROOM = 600,         /* 269 at least */
    LONGEST = 287,      /* room for any message */
    MOST_PREAMBLES = 20,
    BUSY = 32 /* a response code */
};

/* A port, the bytes from it that may still be needed, and the master at it. */
struct line {
    int port;
    uint8_t heard[ROOM];
    size_t held;
    hart_master master;
};

/* Ends the program with this text unless something holds. */
static void check(bool holds, const char *otherwise)
{
    if (!holds) {
        fprintf(stderr, "gateway: %s\n", otherwise);
        exit(1);
    }
}

/* Opens a port at 1200 baud, 8 data bits, odd parity and 1 stop bit. A byte with bad parity is read as 0; the check byte shows that. */
static int open_port(const char *name)
{
    struct termios raw;
    int port = open(name, O_RDWR | O_NOCTTY);
    check(port >= 0 && tcgetattr(port, &raw) == 0, "the port cannot be opened");
    cfmakeraw(&raw);
    raw.c_iflag |= INPCK;
    raw.c_cflag |= CREAD | CLOCAL | PARENB | PARODD;
    check(cfsetspeed(&raw, B1200) == 0 && tcsetattr(port, TCSAFLUSH, &raw) == 0, "the port cannot be set");
    return port;
}

/* Waits for bytes for the length of a gap, and returns how many came. */
static size_t hear(struct line *line)
{
    struct pollfd look = {.fd = line->port, .events = POLLIN};
    if (poll(&look, 1, GAP) == 0)
        return 0;
    ssize_t got = read(line->port, line->heard + line->held, ROOM - line->held);
    check(got > 0, "the port is gone");
    line->held += (size_t)got;
    return (size_t)got;
}

/* Sends a message once the line is silent. A modem sends while RTS is on; a pseudo-terminal has none. */
static void say(struct line *line, const uint8_t *message, size_t len)
{
    int rts = TIOCM_RTS;
    do
        line->held = 0;
    while (hear(line) > 0);
    ioctl(line->port, TIOCMBIS, &rts);
    for (size_t sent = 0; sent < len;) {
        ssize_t more = write(line->port, message + sent, len - sent);
        check(more > 0, "the port is gone");
        sent += (size_t)more;
    }
    tcdrain(line->port);
    ioctl(line->port, TIOCMBIC, &rts);
}

/* Lets the master receive a frame. A device that is busy, or that heard the request with faults, is asked again at once. */
static hart_event receive(struct line *line, const hart_frame *frame)
{
    hart_event event = hart_receive(frame, &line->master);
    bool is_good = event.event == HART_EVENT_ANSWERED && frame->payload[0] != BUSY;
    return !is_good && hart_matches(&line->master.request, frame).is_reply ? hart_again(&line->master) : event;
}

/* Listens until the request in hand is answered, due again or given up. For the master, time passes only in silences, so a long reply is
 * not missed. */
static hart_event await(struct line *line, hart_frame *frame)
{
    hart_event event = {0};
    while (event.event == HART_EVENT_NONE) {
        bool is_silent = hear(line) == 0;
        hart_search found;
        do {
            found = hart_find_in_bytes(line->heard, line->held, is_silent, frame, 1);
            line->held -= found.used;
            memmove(line->heard, line->heard + found.used, line->held);
            if (found.count == 1)
                event = receive(line, frame);
        } while (found.count == 1 && event.event == HART_EVENT_NONE);
        if (is_silent && event.event == HART_EVENT_NONE)
            event = hart_tick(GAP_CHARACTERS, &line->master);
    }
    return event;
}

/* Prints a reply: the primary variable of Command 1 as a number, and other data in hex. */
static void print_reply(const hart_frame *reply)
{
    const uint8_t *data = reply->payload + 2;
    printf("code %u, status %02X", reply->payload[0], reply->payload[1]);
    if (reply->command == 1 && reply->payload[0] == 0)
        printf(", primary variable %g, unit %u", (double)hart_float(data + 1), data[0]);
    for (int i = 0; reply->command != 1 && i < reply->payload_len - 2; i++)
        printf("%s%02X", i == 0 ? ", data " : "", data[i]);
    printf("\n");
}

/* Sends a request until it is answered or given up, and returns whether it was answered. */
static bool ask(struct line *line, const hart_frame *request, uint8_t preambles, hart_frame *reply)
{
    uint8_t message[LONGEST] = {0};
    hart_event event = {0};
    uint8_t fault = hart_submit(request, &line->master);
    check(fault == HART_OK, hart_fault_text(fault));
    while (line->master.state == HART_DUE) {
        hart_outcome made = hart_send(preambles, &line->master, message, sizeof message);
        check(made.fault == HART_OK, hart_fault_text(made.fault));
        say(line, message, made.len);
        event = await(line, reply);
    }
    printf("command %u, sent %u: ", request->command, event.sendings);
    if (event.event == HART_EVENT_ANSWERED)
        print_reply(reply);
    else
        printf("no reply\n");
    fflush(stdout);
    return event.event == HART_EVENT_ANSWERED;
}

int main(int argc, char **argv)
{
    static struct line line;
    hart_frame reply = {0}, polled = {.is_primary = true};
    hart_unique unique = {0};
    const char *data = argc > 4 ? argv[4] : "";
    int missed = 0;
    check(argc > 1, "usage: gateway PORT [POLLS [COMMAND [DATA]]]");
    check(hart_new_master(RETRIES, REPLY_LIMIT, &line.master) == HART_OK, "no such master");
    line.port = open_port(argv[1]);
    while (!unique.is_given)
        if (ask(&line, &polled, MOST_PREAMBLES, &reply))
            unique = hart_unique_of(reply.command, reply.payload, reply.payload_len);
    uint8_t preambles = reply.payload[5];
    polled.is_unique = true;
    polled.expanded_type = unique.expanded_type;
    polled.device_id = unique.device_id;
    polled.command = 1;
    hart_frame own = polled;
    own.command = argc > 3 ? (uint8_t)atoi(argv[3]) : 1;
    for (size_t at = 0; at + 1 < strlen(data) && own.payload_len < 255; at += 2)
        own.payload_len += sscanf(data + at, "%2hhx", &own.payload[at / 2]) == 1;
    for (int polls = argc > 2 ? atoi(argv[2]) : 10; polls > 0; polls--) {
        missed += argc > 3 && !ask(&line, &own, preambles, &reply);
        missed += !ask(&line, &polled, preambles, &reply);
        poll(NULL, 0, PAUSE);
    }
    return missed == 0 ? 0 : 2;
}
