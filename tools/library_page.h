/* What stands around the examples of docs/LIBRARY.md, so that they run: tools/library_page.py puts each into a function of its own. A port
 * delivers a reply of the bench device to Command 1, and then nothing more. */
#include "hart.h"

#include <stdio.h>
#include <stdlib.h>
#include <sys/types.h>

/* What the port delivers, and how much of it was read. */
static const uint8_t delivered[] = {0xFF, 0xFF, 0x86, 0xB7, 0x42, 0x0A, 0x1B, 0x2C, 0x01, 0x07,
                                    0x00, 0x00, 0x20, 0x41, 0xC8, 0x00, 0x00, 0xE1};
static size_t taken;
static const int port = 1;

/* How often an example did what it is there for. */
static struct {
    size_t told, shown, lines, sent, stored;
} counts;

static ssize_t deliver(int from, uint8_t *bytes, size_t room)
{
    size_t len = sizeof delivered - taken < room ? sizeof delivered - taken : room;
    memcpy(bytes, delivered + taken, len);
    taken += from == port ? len : 0;
    return (ssize_t)len;
}
#define read deliver

static void tell(const hart_frame *frame, uint64_t start)
{
    counts.told += frame->command == 1 && start == 2;
}

static void show(const uint8_t *bytes, size_t len, uint8_t kind)
{
    counts.shown += kind == HART_FLOAT && len == 4 && hart_float(bytes) == 25.0f;
}

/* The lines of a bad date, of a changed configuration and of a cold start. */
static void write_line(const uint8_t *text, size_t len)
{
    static const char *const lines[] = {"invalid date", "configuration changed", "cold start"};
    if (len == 0)
        return;
    const char *line = counts.lines < 3 ? lines[counts.lines] : "";
    counts.lines += len == strlen(line) && memcmp(text, line, len) == 0;
}

static void send_message(int to, const uint8_t *message, size_t len)
{
    counts.sent += to == port && len > 0 && message[0] == 0xFF;
}

static void store(const hart_device *device)
{
    counts.stored += device->image_len == 86;
}

/* What a device hears: a request of this command to the bench device. */
static size_t hear_command(uint8_t command, hart_char *heard, size_t room)
{
    hart_frame request = {.is_primary = true, .is_unique = true, .expanded_type = 0x3742, .device_id = 0x0A1B2C};
    uint8_t message[287];
    request.command = command;
    size_t len = hart_encode(&request, 5, message, sizeof message).len;
    for (size_t i = 0; i < len && i < room; i++)
        heard[i] = (hart_char){.byte = message[i]};
    return len;
}

/* The requests that a device hears, one after another. */
static size_t hear_until_gap(int from, hart_char *heard, size_t room)
{
    static uint8_t next;
    return next++ < 2 && from == port ? hear_command(next, heard, room) : 0;
}

/* The frames that a master finds: silence, a reply with communication faults, and then the reply. */
static bool next_frame(int from, hart_frame *found, uint8_t *times)
{
    static const uint8_t identity[] = {0x00, 0x40, 0xFE, 0x37, 0x42, 0x05, 0x07, 0x01, 0x02, 0x18, 0x00, 0x0A,
                                       0x1B, 0x2C, 0x05, 0x04, 0x00, 0x00, 0x00, 0x00, 0x37, 0x00, 0x37, 0x01};
    static int turn;
    *found = (hart_frame){.is_reply = true, .is_primary = from == port, .payload_len = 2, .payload = {0x88}};
    *times = 40;
    if (turn == 2)
        memcpy(found->payload, identity, found->payload_len = sizeof identity);
    return turn++ > 0;
}

static size_t carry_out(const hart_frame *asked, uint8_t *data, bool *is_write)
{
    *is_write = false;
    data[0] = asked->command;
    return 1;
}

static void check(bool holds, const char *what)
{
    if (!holds) {
        fprintf(stderr, "docs/LIBRARY.md: the example of %s does not do what it is there for\n", what);
        exit(1);
    }
}
