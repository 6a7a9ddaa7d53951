/* Reads bytes as they were heard on a HART line from a file, or from a port or a pipe at standard input, and prints a line for each
 * message as soon as it is decided, as `hart dump` does. */
#define _POSIX_C_SOURCE 200809L

#include "hart.h"

#include <inttypes.h>
#include <stdio.h>
#include <string.h>
#include <fcntl.h>
#include <unistd.h>

enum { PIECE = 4096, AT_ONCE = 16 };

static void print_bytes(const uint8_t *bytes, size_t len)
{
    if (len == 0)
        printf("-");
    for (size_t i = 0; i < len; i++)
        printf("%02X", bytes[i]);
}

static void print_address(const hart_frame *frame)
{
    if (!frame->is_unique)
        printf("@%u", frame->polling_address);
    else if (frame->expanded_type == 0 && frame->device_id == 0)
        printf("all");
    else
        printf("%04X%06" PRIX32, (unsigned)frame->expanded_type, frame->device_id);
}

/* Prints a frame that was found after this many bytes were dropped. */
static void print_frame(const hart_frame *frame, uint64_t before)
{
    printf("%" PRIu64 " %" PRIu64 " %s %s %d ", before + frame->start, before + frame->stop, frame->is_reply ? "ACK" : "STX",
           frame->is_primary ? "P" : "S", frame->is_burst);
    print_address(frame);
    printf(" ");
    print_bytes(frame->expansion, frame->expansion_len);
    printf(" %u ", frame->command);
    print_bytes(frame->payload, frame->payload_len);
    printf("\n");
}

int main(int argc, char **argv)
{
    static uint8_t heard[PIECE];
    static hart_frame frames[AT_ONCE];
    size_t held = 0;
    uint64_t used = 0;
    bool ended = false;
    int from = argc > 1 ? open(argv[1], O_RDONLY) : STDIN_FILENO;
    if (from < 0) {
        perror(argv[1]);
        return 1;
    }
    while (!ended) {
        /* At most 268 bytes are held, so there is always room. */
        ssize_t got = read(from, heard + held, sizeof heard - held);
        if (got < 0) {
            perror("read");
            return 1;
        }
        held += (size_t)got;
        ended = got == 0;
        hart_search found;
        do {
            found = hart_find_in_bytes(heard, held, ended, frames, AT_ONCE);
            for (size_t i = 0; i < found.count; i++)
                print_frame(&frames[i], used);
            held -= found.used;
            used += found.used;
            memmove(heard, heard + found.used, held);
        } while (found.count == AT_ONCE);
        fflush(stdout);
    }
    return 0;
}
