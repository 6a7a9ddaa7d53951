/* Measures how much stack the calls of hart.h take: makes each call on a painted stack, and looks how far the paint is gone. Prints the
 * most that each call took, in bytes, and fails if it took more than the limit stated here, which is for x86-64. */
#define _XOPEN_SOURCE 700
#include "hart.h"

#include <stdio.h>
#include <stdlib.h>
#include <string.h>
#include <ucontext.h>

enum {
    AREA = 131072, /* the size of the painted stack */
    PAINT = 0xA5,
    LONGEST = 1024 /* the most characters in a delivery */
};

/* What the calls work on. None of it is on the stack. */
static hart_identity identity;
static hart_process process;
static hart_registers registers;
static hart_device device;
static uint8_t bytes[LONGEST];
static hart_char heard[LONGEST];
static size_t len;
static hart_frame frames[4], request, reply;
static hart_master master;
static hart_field fields[16];
static uint8_t output[287];
static uint8_t text[HART_EXPLAINED_LEN];

static void find_in_bytes(void)
{
    hart_find_in_bytes(bytes, len, true, frames, 4);
}

static void find(void)
{
    hart_find(heard, len, true, frames, 4);
}

static void decode(void)
{
    hart_decode(bytes + 5, len > 5 ? len - 5 : 0, &reply);
}

static void encode(void)
{
    hart_encode(&request, 20, output, sizeof output);
}

static void hear(void)
{
    hart_hear(&identity, &process, heard, len, &device, output, sizeof output);
}

static void hear_own(void)
{
    static const uint8_t own[] = {200};
    hart_hear_own(&identity, &process, own, sizeof own, heard, len, &device, &reply, output, sizeof output);
    hart_answer(&identity, &process, &reply, 0, false, bytes, 253, &device, output, sizeof output);
}

static void accept(void)
{
    hart_accept(&request, heard, len, &reply);
}

/* Takes a request in hand, sends it, receives what was found, and lets time pass. */
static void exchange(void)
{
    hart_new_master(0, 33, &master);
    hart_submit(&request, &master);
    hart_send(20, &master, output, sizeof output);
    hart_receive(&reply, &master);
    hart_tick(255, &master);
    hart_again(&master);
}

static void new_device(void)
{
    hart_new_device(&registers, &device);
}

static void read_reply(void)
{
    hart_read_reply(reply.command, reply.payload, reply.payload_len, fields, 16);
}

static void read_request(void)
{
    hart_read_request(request.command, request.payload, request.payload_len, fields, 16);
}

static void field_name(void)
{
    hart_field_name(true, 3, 2, output, sizeof output);
}

static void explain(void)
{
    hart_explain(HART_WORDS, &request, text, sizeof text);
    hart_explain(HART_JSON, &reply, text, sizeof text);
}

/* A call, the most bytes of stack that it may take, and the most that it took so far. */
static struct measure {
    const char *name;
    void (*call)(void);
    size_t limit;
    size_t most;
} measures[] = {
    {"hart_find_in_bytes", find_in_bytes, 4096, 0}, {"hart_find", find, 4096, 0},
    {"hart_decode", decode, 4096, 0},               {"hart_encode", encode, 4096, 0},
    {"hart_hear", hear, 9728, 0},                   {"hart_accept", accept, 4096, 0},
    {"hart_new_device", new_device, 4096, 0},       {"hart_read_reply", read_reply, 4096, 0},
    {"hart_read_request", read_request, 4096, 0},   {"hart_field_name", field_name, 4096, 0},
    {"a master", exchange, 6144, 0},                {"hart_hear_own, hart_answer", hear_own, 10240, 0},
    {"hart_explain", explain, 36864, 0},
};

/* The stack on which a call runs. */
static uint8_t stack[AREA];

/* Makes a call on a painted stack, and returns how much of the paint is gone; the stack grows down to its front. */
static size_t stack_of(void (*call)(void))
{
    ucontext_t here, there;
    memset(stack, PAINT, AREA);
    getcontext(&there);
    there.uc_stack.ss_sp = stack;
    there.uc_stack.ss_size = AREA;
    there.uc_link = &here;
    makecontext(&there, call, 0);
    swapcontext(&here, &there);
    size_t left = 0;
    while (left < AREA && stack[left] == PAINT)
        left++;
    return AREA - left;
}

/* Measures each call on what is heard now. */
static void measure_all(void)
{
    for (size_t i = 0; i < len; i++)
        heard[i] = (hart_char){.byte = bytes[i]};
    for (size_t i = 0; i < sizeof measures / sizeof measures[0]; i++) {
        size_t took = stack_of(measures[i].call);
        if (took > measures[i].most)
            measures[i].most = took;
    }
}

/* A request to the bench device, and then its reply. */
static void measure_exchange(uint8_t command, uint8_t payload_len)
{
    request = (hart_frame){.is_primary = true, .is_unique = true, .expanded_type = 0x3742, .device_id = 0x0A1B2C, .command = command};
    request.payload_len = payload_len;
    if (command == 18)
        request.payload[18] = request.payload[19] = 1;
    len = hart_encode(&request, 20, bytes, sizeof bytes).len;
    measure_all();
    len = hart_hear(&identity, &process, heard, len, &device, output, sizeof output).len;
    memcpy(bytes, output, len);
    measure_all();
}

/* As many characters as a delivery may have, without a frame. */
static void measure_noise(void)
{
    for (len = 0; len < LONGEST; len++)
        bytes[len] = len % 7 < 2 ? 0xFF : 0x82;
    measure_all();
}

int main(void)
{
    static const uint8_t exchanges[][2] = {{0, 0}, {3, 0}, {9, 8}, {13, 0}, {17, 24}, {18, 21}, {22, 32}, {48, 0}, {200, 255}};
    hart_bench_identity(&identity);
    hart_bench_process(&process);
    hart_bench_registers(&registers);
    hart_new_device(&registers, &device);
    for (size_t i = 0; i < sizeof exchanges / sizeof exchanges[0]; i++)
        measure_exchange(exchanges[i][0], exchanges[i][1]);
    measure_noise();
    bool is_within = true;
    for (size_t i = 0; i < sizeof measures / sizeof measures[0]; i++) {
        printf("%s: %zu bytes of stack\n", measures[i].name, measures[i].most);
        is_within = is_within && measures[i].most <= measures[i].limit;
    }
    if (!is_within)
        fprintf(stderr, "a call takes more stack than tools/library_stack.c allows\n");
    return is_within ? EXIT_SUCCESS : EXIT_FAILURE;
}
