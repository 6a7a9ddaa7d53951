/* Makes the calls of hart.h with pseudo-random arguments: frames that are mostly well made, noise, damage, fault bits, and a device that
 * lives on from round to round. Prints a hash of all results, which has to be the same on each target.
 *
 * Usage: library_random [ROUNDS] */
#include "hart.h"

#include <inttypes.h>
#include <stdio.h>
#include <stdlib.h>
#include <string.h>

enum {
    MOST_BYTES = 700, /* room for what is heard in a round */
    MOST_FRAMES = 4,
    MOST_FIELDS = 16,
    MESSAGE = 287
};

static const uint8_t commands[] = {0, 1, 2, 3, 6, 7, 8, 9, 11, 12, 13, 14, 15, 16, 17, 18, 19, 20, 21, 22, 38, 48, 4, 200};

/* What a round hears, and the device. */
static uint8_t bytes[MOST_BYTES];
static size_t len;
static hart_char heard[MOST_BYTES];
static hart_identity identity;
static hart_process process;
static hart_registers registers;
static hart_device device;

/* How often something was found, so that a reader sees that the rounds are not empty. */
static struct {
    size_t frames, bodies, replies, accepted, matches, addresses;
} counts;

/* Returns the next pseudo-random number below `limit` (xorshift). No expression below asks for two of them, since the order would be the
 * compiler's choice. */
static uint32_t below(uint32_t limit)
{
    static uint64_t state = 88172645463325252u;
    state ^= state << 13;
    state ^= state >> 7;
    state ^= state << 17;
    return (uint32_t)(state >> 16) % limit;
}

static uint8_t any_byte(void)
{
    return (uint8_t)below(256);
}

/* Whether something that happens once in `times` happens now. */
static bool once_in(uint32_t times)
{
    return below(times) == 0;
}

/* The hash so far (FNV-1a). */
static uint64_t hash = 14695981039346656037u;

static void mix_bytes(const uint8_t *mixed, size_t mixed_len)
{
    for (size_t i = 0; i < mixed_len; i++)
        hash = (hash ^ mixed[i]) * 1099511628211u;
}

static void mix(uint64_t number)
{
    for (int shift = 0; shift < 64; shift += 8)
        mix_bytes(&(uint8_t){(uint8_t)(number >> shift)}, 1);
}

static void mix_outcome(hart_outcome told, const uint8_t *written)
{
    mix(told.len);
    mix(told.fault);
    mix_bytes(written, told.len);
}

static void mix_frame(const hart_frame *frame)
{
    mix(frame->start);
    mix(frame->stop);
    mix(frame->device_id);
    mix(frame->expanded_type);
    mix_bytes((uint8_t[]){frame->is_reply, frame->is_primary, frame->is_burst, frame->is_unique}, 4);
    mix_bytes((uint8_t[]){frame->polling_address, frame->command, frame->expansion_len, frame->payload_len}, 4);
    mix_bytes(frame->expansion, frame->expansion_len);
    mix_bytes(frame->payload, frame->payload_len);
}

static void mix_search(hart_search told, const hart_frame *frames)
{
    mix(told.used);
    mix(told.count);
    mix(told.fault);
    for (size_t i = 0; i < told.count; i++)
        mix_frame(&frames[i]);
    counts.frames += told.count;
}

/* Gives a frame an address: mostly polling address 0 or that of the bench device. */
static void choose_address(hart_frame *frame)
{
    frame->is_unique = !once_in(4);
    frame->polling_address = once_in(3) ? (uint8_t)below(70) : 0;
    frame->expanded_type = once_in(4) ? (uint16_t)below(17000) : 0x3742;
    frame->device_id = once_in(4) ? below(17000000) : 0x0A1B2C;
    if (once_in(16))
        frame->expanded_type = 0, frame->device_id = 0;
}

/* Fills the payload, and gives some commands data that they take. */
static void choose_payload(hart_frame *frame)
{
    frame->payload_len = once_in(4) ? any_byte() : (uint8_t)below(40);
    for (size_t i = 0; i < sizeof frame->payload; i++)
        frame->payload[i] = once_in(3) ? any_byte() : (uint8_t)(0x20 + below(0x40));
    if (frame->is_reply && once_in(2))
        frame->payload[0] = 0;
    if (frame->is_reply && frame->command == 0)
        frame->payload[2] = 254;
    if (!frame->is_reply && frame->command == 18 && once_in(2))
        frame->payload[18] = (uint8_t)(1 + below(28)), frame->payload[19] = (uint8_t)(1 + below(12));
    if (!frame->is_reply && frame->command == 6 && once_in(2))
        frame->payload[0] = (uint8_t)below(64), frame->payload[1] = (uint8_t)below(2);
}

static hart_frame any_frame(void)
{
    hart_frame frame = {0};
    frame.is_reply = once_in(3);
    frame.is_primary = once_in(2);
    frame.is_burst = once_in(8);
    choose_address(&frame);
    frame.command = commands[below(sizeof commands)];
    frame.expansion_len = once_in(8) ? (uint8_t)below(5) : 0;
    for (size_t i = 0; i < sizeof frame.expansion; i++)
        frame.expansion[i] = any_byte();
    choose_payload(&frame);
    return frame;
}

static void add_noise(size_t noise_len)
{
    for (size_t i = 0; i < noise_len && len < sizeof bytes; i++)
        bytes[len++] = once_in(3) ? 0xFF : any_byte();
}

/* Writes a frame as a message behind what is heard. */
static void add_message(const hart_frame *frame)
{
    uint8_t message[MESSAGE] = {0};
    uint8_t preambles = once_in(16) ? any_byte() : (uint8_t)(5 + below(16));
    hart_outcome told = hart_encode(frame, preambles, message, once_in(20) ? below(60) : sizeof message);
    mix_outcome(told, message);
    if (told.fault != HART_OK || len + told.len > sizeof bytes)
        return;
    memcpy(bytes + len, message, told.len);
    len += told.len;
}

/* Makes what is heard: messages and noise, of which a bit may be damaged. The result is the last frame. */
static hart_frame hear_something(void)
{
    hart_frame frame = any_frame();
    len = 0;
    if (once_in(3))
        add_noise(below(60));
    for (uint32_t left = once_in(4) ? below(4) : 1; left > 0; left--) {
        frame = any_frame();
        add_message(&frame);
        if (once_in(4))
            add_noise(below(30));
    }
    if (len > 0 && once_in(6)) {
        uint32_t at = below((uint32_t)len);
        bytes[at] ^= (uint8_t)(1u << below(8));
    }
    return frame;
}

/* Copies the bytes to characters, one of which may have faults. */
static void hear_characters(void)
{
    static const uint8_t faults[] = {0x40, 0x20, 0x10, 0x02, 0x01, 0x50};
    for (size_t i = 0; i < len; i++)
        heard[i] = (hart_char){.byte = bytes[i]};
    if (len > 0 && once_in(4)) {
        uint32_t at = below((uint32_t)len);
        heard[at].faults = faults[below(sizeof faults)];
    }
}

/* Finds frames, and reads the one that seems to begin first. */
static void find(void)
{
    hart_frame frames[MOST_FRAMES] = {{0}};
    hart_frame frame = {0};
    bool ended = once_in(2);
    mix_search(hart_find_in_bytes(bytes, len, ended, frames, below(MOST_FRAMES + 1)), frames);
    hear_characters();
    mix_search(hart_find(heard, len, ended, frames, below(MOST_FRAMES + 1)), frames);
    size_t at = 0;
    while (at + 1 < len && !(bytes[at] == 0xFF && bytes[at + 1] != 0xFF))
        at++;
    at += at + 1 < len;
    hart_outcome told = hart_decode(bytes + at, len - at, &frame);
    mix_outcome(told, bytes + at);
    if (told.fault == HART_OK)
        mix_frame(&frame);
    counts.bodies += told.fault == HART_OK;
    mix(hart_check_byte(bytes, len));
}

/* Lets the device live on: it may lose its power, be protected, or have its image damaged, and then it hears. What it replies is heard
 * next. */
static void live(void)
{
    uint8_t reply[MESSAGE] = {0};
    if (once_in(50))
        hart_restart(&device);
    if (once_in(50))
        device.image[device.image_len - 1] ^= 4;
    if (once_in(200)) {
        uint32_t at = below(sizeof device.image);
        device.image[at] = any_byte();
    }
    hart_outcome told = hart_hear(&identity, &process, heard, len, &device, reply, sizeof reply);
    mix_outcome(told, reply);
    mix_bytes(device.image, sizeof device.image);
    mix_bytes((uint8_t[]){device.image_len, device.primary_cold_start, device.secondary_cold_start}, 3);
    if (told.fault == HART_BAD_FIELD || told.fault == HART_BAD_VERSION || told.fault == HART_BAD_LENGTH)
        hart_new_device(&registers, &device);
    counts.replies += told.len > 0;
    if (told.len == 0)
        return;
    len = told.len;
    for (size_t i = 0; i < len; i++)
        heard[i] = (hart_char){.byte = reply[i]};
}

static void mix_acceptance(hart_acceptance told)
{
    mix_bytes((uint8_t[]){told.is_accepted, told.code, told.status, told.fault, told.reason}, 5);
}

/* Asks whether what is heard answers a request, frame by frame too, and which address it gives. */
static void accept(const hart_frame *request)
{
    hart_frame reply = {0};
    hart_frame frames[MOST_FRAMES] = {{0}};
    hart_acceptance told = hart_accept(request, heard, len, &reply);
    mix_acceptance(told);
    mix_frame(&reply);
    hart_unique unique = hart_unique_of(request->command, reply.payload, reply.payload_len);
    mix(unique.is_given);
    mix(unique.expanded_type);
    mix(unique.device_id);
    counts.accepted += told.is_accepted;
    hart_search found = hart_find(heard, len, true, frames, MOST_FRAMES);
    for (size_t i = 0; i < found.count; i++) {
        hart_match match = hart_matches(request, &frames[i]);
        mix_bytes((uint8_t[]){match.is_reply, match.fault}, 2);
        mix_acceptance(hart_accept_frame(request, &frames[i]));
        counts.matches += match.is_reply;
    }
    counts.addresses += unique.is_given;
}

/* Reads the data of a frame, and asks for names. */
static void read_data(const hart_frame *frame)
{
    hart_field fields[MOST_FIELDS] = {{0}};
    uint8_t name[64] = {0};
    size_t room = below(MOST_FIELDS + 1);
    hart_reading told = frame->is_reply ? hart_read_reply(frame->command, frame->payload, frame->payload_len, fields, room)
                                        : hart_read_request(frame->command, frame->payload, frame->payload_len, fields, room);
    mix(told.count);
    mix(told.taken);
    mix_bytes((uint8_t[]){told.code, told.status, told.fault}, 3);
    for (size_t i = 0; i < MOST_FIELDS; i++)
        mix_bytes((uint8_t[]){fields[i].start, fields[i].len, fields[i].kind}, 3);
    mix_outcome(hart_field_name(frame->is_reply, frame->command, below(10), name, sizeof name), name);
    uint8_t command = any_byte();
    mix_outcome(hart_command_name(command, name, below(sizeof name + 1)), name);
}

int main(int argc, char **argv)
{
    long rounds = argc > 1 ? atol(argv[1]) : 100000;
    hart_bench_identity(&identity);
    hart_bench_process(&process);
    hart_bench_registers(&registers);
    hart_new_device(&registers, &device);
    for (long round = 0; round < rounds; round++) {
        hart_frame frame = hear_something();
        find();
        live();
        hart_frame request = once_in(3) ? any_frame() : frame;
        accept(&request);
        read_data(&request);
    }
    fprintf(stderr, "%zu frames, %zu bodies, %zu replies, %zu accepted, %zu matches, %zu addresses\n", counts.frames, counts.bodies,
            counts.replies, counts.accepted, counts.matches, counts.addresses);
    printf("%016" PRIx64 "\n", hash);
    return 0;
}
