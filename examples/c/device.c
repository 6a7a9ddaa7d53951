/* Plays the bench device on a pseudo-terminal. It prints the name of the other end, which any program can open as a serial port, and
 * replies to what comes in there. It ends when the other end is closed after something was heard, or after SECONDS, and then prints the
 * image of the device in hex. SIGUSR1 restarts the device.
 *
 * Usage: device [SECONDS], 60 if absent */
#define _XOPEN_SOURCE 700

#include "line.h"

#include <signal.h>

/* Who the device is, what it measures, and what it holds. */
static hart_identity identity;
static hart_process process;
static hart_device device;

static volatile sig_atomic_t was_without_power;

static void lose_power(int number)
{
    (void)number;
    was_without_power = 1;
}

/* Lets the device hear these characters at once, and sends its reply. */
static void answer(int line, const hart_char *heard, size_t heard_len)
{
    static uint8_t reply[LONGEST];
    if (was_without_power) {
        was_without_power = 0;
        hart_restart(&device);
    }
    hart_outcome said = hart_hear(&identity, &process, heard, heard_len, &device, reply, sizeof reply);
    if (said.fault != HART_OK)
        fprintf(stderr, "fault %u\n", said.fault);
    say(line, reply, said.len);
}

int main(int argc, char **argv)
{
    static hart_char heard[MOST_HEARD + 1];
    hart_registers registers = {0};
    struct sigaction action = {.sa_handler = lose_power};
    hart_bench_identity(&identity);
    hart_bench_process(&process);
    hart_bench_registers(&registers);
    if (hart_new_device(&registers, &device).fault != HART_OK || sigaction(SIGUSR1, &action, NULL) != 0)
        fail("device");
    int line = open_line();
    double end = now() + (argc > 1 ? atof(argv[1]) : 60);
    for (size_t len; (len = hear_delivery(line, end, heard)) > 0;)
        answer(line, heard, len);
    print_image(&device);
    return 0;
}
