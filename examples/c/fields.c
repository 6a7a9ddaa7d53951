/* Reads at most 64 KiB, as they were heard on a HART line, from standard input, and prints each message in words: its command, its
 * status, and the fields of its data with their names. */
#include "hart.h"

#include <stdio.h>

enum { MOST = 1 << 16, FIELDS = 16, NAME = 64 };

/* Prints a name that was written, or "unknown" if there is none. */
static void print_name(hart_outcome written, const uint8_t *name)
{
    if (written.fault == HART_OK)
        printf("%.*s", (int)written.len, (const char *)name);
    else
        printf("unknown");
}

static void print_value(const hart_field *field, const uint8_t *bytes)
{
    uint8_t name[NAME];
    printf(" ");
    if (field->kind == HART_FLOAT)
        printf("%g", (double)hart_float(bytes));
    else if (field->kind == HART_UNIT_CODE)
        print_name(hart_unit_name(bytes[0], name, NAME), name);
    else
        for (size_t i = 0; i < field->len; i++)
            printf(i > 0 ? " %02X" : "%02X", bytes[i]);
}

/* Prints what follows the name of the command: what the status bytes of a reply say, or why a request is refused. */
static void print_status(const hart_frame *frame, hart_reading read)
{
    uint8_t name[NAME];
    if (read.fault != HART_OK) {
        printf(", no reply\n");
        return;
    }
    printf(", ");
    print_name(hart_code_name(frame->command, read.code, name, NAME), name);
    for (unsigned bit = 0x80; bit > 0; bit /= 2)
        if (read.status & bit) {
            printf(", ");
            print_name(hart_status_name((uint8_t)bit, name, NAME), name);
        }
    printf("\n");
}

static void print_message(const hart_frame *frame)
{
    hart_field fields[FIELDS];
    uint8_t name[NAME];
    hart_reading read = frame->is_reply ? hart_read_reply(frame->command, frame->payload, frame->payload_len, fields, FIELDS)
                                        : hart_read_request(frame->command, frame->payload, frame->payload_len, fields, FIELDS);
    printf("%s, Command %u, ", frame->is_reply ? "reply" : "request", frame->command);
    print_name(hart_command_name(frame->command, name, NAME), name);
    print_status(frame, read);
    for (size_t i = 0; i < read.count && i < FIELDS; i++) {
        printf("    ");
        print_name(hart_field_name(frame->is_reply, frame->command, i, name, NAME), name);
        printf(":");
        print_value(&fields[i], frame->payload + fields[i].start);
        printf("\n");
    }
}

int main(void)
{
    static uint8_t heard[MOST];
    static hart_frame frame;
    size_t len = fread(heard, 1, MOST, stdin);
    size_t used = 0;
    for (;;) {
        hart_search found = hart_find_in_bytes(heard + used, len - used, true, &frame, 1);
        if (found.count == 0)
            return 0;
        print_message(&frame);
        used += found.used;
    }
}
