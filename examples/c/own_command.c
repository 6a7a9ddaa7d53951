/* Plays a device with two commands of its own on a pseudo-terminal, as device.c plays the bench device:
 *
 *   - Command 34 writes the damping of the loop current output, a float of 0 to 60 seconds in 4 bytes, and replies with it. Command 15,
 *     which the library knows, then reads it. The write counts as a configuration change.
 *   - Command 128 reads the number of replies that this device has given, in 2 bytes.
 *
 * The library finds such a request, and makes its reply with the device status. What the command does is the business of this program.
 *
 * Usage: own_command [SECONDS], 60 if absent */
#define _XOPEN_SOURCE 700

#include "line.h"

#include <string.h>

enum { WRITE_DAMPING = 34, READ_REPLIES = 128, MOST_DAMPING = 60, MOST_DATA = 4 };

/* Response codes. */
enum { SUCCESS = 0, TOO_LARGE = 3, TOO_SMALL = 4, TOO_FEW_BYTES = 5, WRITE_PROTECTED = 7 };

static const uint8_t own[] = {WRITE_DAMPING, READ_REPLIES};

/* Who the device is, what it measures, what it holds, and how many replies it has given. */
static hart_identity identity;
static hart_process process;
static hart_device device;
static unsigned replies;

/* Writes the damping, and returns the response code. */
static uint8_t write_damping(const hart_frame *asked)
{
    if (asked->payload_len < 4)
        return TOO_FEW_BYTES;
    if ((device.image[device.image_len - 1] & 0x04) != 0)
        return WRITE_PROTECTED;
    float damping = hart_float(asked->payload);
    if (damping > MOST_DAMPING)
        return TOO_LARGE;
    if (!(damping >= 0))
        return TOO_SMALL; /* also what is no number */
    memcpy(process.output.damping, asked->payload, 4);
    return SUCCESS;
}

/* Carries out a request of one of these commands, and writes its reply. */
static hart_outcome carry_out(const hart_frame *asked, uint8_t *reply)
{
    uint8_t data[MOST_DATA] = {(uint8_t)(replies >> 8), (uint8_t)replies};
    bool is_write = asked->command == WRITE_DAMPING;
    uint8_t code = is_write ? write_damping(asked) : SUCCESS;
    size_t data_len = is_write ? 4 : 2;
    if (is_write)
        memcpy(data, process.output.damping, 4);
    return hart_answer(&identity, &process, asked, code, is_write && code == SUCCESS, data, code == SUCCESS ? data_len : 0, &device, reply,
                       LONGEST);
}

/* Lets the device hear these characters at once, and sends its reply. */
static void answer(int line, const hart_char *heard, size_t heard_len)
{
    static uint8_t reply[LONGEST];
    hart_frame asked = {0};
    hart_hearing hearing = hart_hear_own(&identity, &process, own, sizeof own, heard, heard_len, &device, &asked, reply, LONGEST);
    hart_outcome said = hearing.is_own ? carry_out(&asked, reply) : (hart_outcome){hearing.len, hearing.fault};
    if (said.fault != HART_OK)
        fprintf(stderr, "%s\n", hart_fault_text(said.fault));
    replies += said.len > 0;
    say(line, reply, said.len);
}

int main(int argc, char **argv)
{
    static hart_char heard[MOST_HEARD + 1];
    hart_registers registers = {0};
    hart_bench_identity(&identity);
    hart_bench_process(&process);
    hart_bench_registers(&registers);
    if (hart_new_device(&registers, &device).fault != HART_OK)
        fail("device");
    int line = open_line();
    double end = now() + (argc > 1 ? atof(argv[1]) : 60);
    for (size_t len; (len = hear_delivery(line, end, heard)) > 0;)
        answer(line, heard, len);
    print_image(&device);
    return 0;
}
