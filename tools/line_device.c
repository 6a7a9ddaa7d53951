/* The library's device as a command that answers line by line, as `hart serve` does: a line of items is a delivery, and `restart`, `protect
 * on` and `protect off` are what they say. It ends with its input.
 *
 * Usage: line_device IMAGE [OTHER]: the image with which the device begins, in hex; with any second word the device has another identity
 * and other process values than the bench device */
#include "hart.h"

#include <stdio.h>
#include <stdlib.h>
#include <string.h>

enum {
    MOST_HEARD = 1025, /* one character more than a delivery may have */
    LONGEST = 287,     /* room for any message */
    LONGEST_LINE = 8192,
    PROTECTED = 4 /* the bit of the flags, which are the last byte of an image */
};

static hart_identity identity;
static hart_process process;
static hart_device device;

/* Reads an image. The device then holds it. */
static void begin(const char *hex)
{
    size_t len = strlen(hex) / 2;
    hart_bench_identity(&identity);
    hart_bench_process(&process);
    for (size_t i = 0; i < len && i < sizeof device.image; i++) {
        char digits[3] = {hex[2 * i], hex[2 * i + 1], 0};
        device.image[i] = (uint8_t)strtoul(digits, NULL, 16);
    }
    device.image_len = (uint8_t)len;
}

/* Gives the device another identity and other process values. */
static void differ(void)
{
    identity.device_id = 0x0F0F0F;
    identity.expanded_device_type = 0x2A55;
    identity.manufacturer = 0x99;
    identity.response_preambles = 6;
    identity.device_revision = 3;
    process.variables[0].value[0] = 0x40;
    process.variables[0].unit = 33;
    process.loop_current[1] = 0x20;
    process.status = 0x81;
    process.additional_status[0] = 1;
    process.sensor.unit = 33;
    process.output.damping[0] = 0x40;
}

/* Reads the items of a line, and returns how many there are. */
static size_t read_items(char *line, hart_char *heard)
{
    size_t len = 0;
    for (char *item = strtok(line, " "); item != NULL && len < MOST_HEARD; item = strtok(NULL, " ")) {
        char *rest = item;
        uint8_t byte = (uint8_t)strtoul(item, &rest, 16);
        uint8_t faults = *rest == '!' ? (uint8_t)strtoul(rest + 1, NULL, 16) : 0;
        heard[len++] = (hart_char){.byte = byte, .faults = faults};
    }
    return len;
}

/* The device hears a line, and its reply is written. */
static void hear(char *line)
{
    static hart_char heard[MOST_HEARD];
    static uint8_t reply[LONGEST];
    size_t len = read_items(line, heard);
    hart_outcome said = hart_hear(&identity, &process, heard, len, &device, reply, sizeof reply);
    if (said.fault != HART_OK)
        printf("fault %u", said.fault);
    else if (said.len == 0)
        printf("-");
    for (size_t i = 0; i < said.len; i++)
        printf(i == 0 ? "%02X" : " %02X", reply[i]);
    printf("\n");
}

/* Switches the write protection. */
static void protect(bool on)
{
    uint8_t *flags = &device.image[device.image_len - 1];
    *flags = (uint8_t)(on ? *flags | PROTECTED : *flags & ~PROTECTED);
    printf("ok\n");
}

int main(int argc, char **argv)
{
    static char line[LONGEST_LINE];
    if (argc < 2)
        return 2;
    begin(argv[1]);
    if (argc > 2)
        differ();
    while (fgets(line, sizeof line, stdin) != NULL) {
        line[strcspn(line, "\n")] = 0;
        if (strcmp(line, "restart") == 0) {
            hart_restart(&device);
            printf("ok\n");
        } else if (strncmp(line, "protect ", 8) == 0) {
            protect(strcmp(line + 8, "on") == 0);
        } else {
            hear(line);
        }
        fflush(stdout);
    }
    return 0;
}
