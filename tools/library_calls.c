/* Makes each call of hart.h as a program in C does, and holds what it tells, what it writes and what it leaves as it
 * was against the rows of library_rows.h and what stands here. Each check that fails is named on standard error, and
 * the status is then 1. */
#include "library_rows.h"

#include <stdio.h>
#include <stdlib.h>
#include <string.h>

static bool has_failed;

/* Names a call that does not do what it has to, its row, counted from 0, and the function that made it. */
static void check(bool holds, const char *function, const char *call, size_t row)
{
    if (holds)
        return;
    has_failed = true;
    fprintf(stderr, "%s: %s, row %zu: not as it has to be\n", function, call, row);
}

/* Reads a text of bytes in hex, and tells how many there are. */
static size_t read_bytes(const char *text, uint8_t *bytes)
{
    size_t len = 0;
    char *rest;
    unsigned long byte = strtoul(text, &rest, 16);
    while (rest != text && len < LONGEST) {
        bytes[len++] = (uint8_t)byte;
        text = rest;
        byte = strtoul(text, &rest, 16);
    }
    return len;
}

/* The same as characters without faults. */
static size_t read_characters(const char *text, hart_char *heard)
{
    uint8_t bytes[LONGEST] = {0};
    size_t len = read_bytes(text, bytes);
    for (size_t i = 0; i < len; i++)
        heard[i] = (hart_char){.byte = bytes[i]};
    return len;
}

static bool is_outcome(hart_outcome told, size_t len, uint8_t fault)
{
    return told.len == len && told.fault == fault;
}

static bool is_search(hart_search told, hart_search want)
{
    return told.used == want.used && told.count == want.count && told.fault == want.fault;
}

/* Whether a frame is that of WRITE at this place. */
static bool is_write(const hart_frame *frame, uint64_t start)
{
    return frame->start == start && frame->stop == start + 12 && frame->command == 19 &&
           frame->expanded_type == 0x3742 && frame->device_id == 0x0A1B2C && frame->is_primary && frame->is_unique &&
           !frame->is_reply && !frame->is_burst && frame->expansion_len == 0 && frame->payload_len == 3 &&
           memcmp(frame->payload, (uint8_t[]){0x01, 0x23, 0x45}, 3) == 0;
}

static bool is_reading(hart_reading told, hart_reading want)
{
    return told.count == want.count && told.taken == want.taken && told.code == want.code &&
           told.status == want.status && told.fault == want.fault;
}

static void data_are_read(void)
{
    for (size_t row = 0; row < ROWS(data_rows); row++) {
        const struct data_row *want = &data_rows[row];
        uint8_t data[LONGEST] = {0};
        size_t len = read_bytes(want->data, data);
        hart_field fields[FIELD_ROOM] = {UNTOUCHED, UNTOUCHED, UNTOUCHED};
        hart_reading told = want->is_reply ? hart_read_reply(want->command, data, len, fields, FIELD_ROOM)
                                           : hart_read_request(want->command, data, len, fields, FIELD_ROOM);
        bool holds = is_reading(told, want->told) && memcmp(fields, want->fields, sizeof fields) == 0;
        check(holds, __func__, want->is_reply ? "hart_read_reply" : "hart_read_request", row);
    }
}

/* Asks for a name. */
static hart_outcome name_of(const struct name_row *want, uint8_t *name)
{
    switch (want->what) {
    case COMMAND:
        return hart_command_name(want->command, name, want->room);
    case FIELD_OF_REQUEST:
    case FIELD_OF_REPLY:
        return hart_field_name(want->what == FIELD_OF_REPLY, want->command, want->number, name, want->room);
    case UNIT:
        return hart_unit_name(want->number, name, want->room);
    case CODE:
        return hart_code_name(want->command, want->number, name, want->room);
    case STATUS_BIT:
        return hart_status_name(want->number, name, want->room);
    default:
        return hart_comm_fault_name(want->number, name, want->room);
    }
}

static void names_are_written(void)
{
    uint8_t name[NAME_ROOM] = {0};
    for (size_t row = 0; row < ROWS(name_rows); row++) {
        const struct name_row *want = &name_rows[row];
        hart_outcome told = name_of(want, name);
        bool holds = is_outcome(told, want->told.len, want->told.fault) && memcmp(name, want->held, NAME_ROOM) == 0;
        check(holds, __func__, "a name", row);
    }
}

/* Plays turns with a device, one after the other. After the reply, and in silence, the output has to be as it was. */
static void play(const char *function, const struct turn *turns, size_t turns_len, const hart_identity *identity,
                 const hart_process *process, hart_device *device)
{
    for (size_t row = 0; row < turns_len; row++) {
        hart_char heard[LONGEST] = {{0}};
        uint8_t reply[LONGEST] = {0};
        uint8_t want[LONGEST] = {0};
        size_t heard_len = read_characters(turns[row].heard, heard);
        size_t want_len = read_bytes(turns[row].reply, want);
        if (turns[row].is_restarted)
            hart_restart(device);
        hart_outcome said = hart_hear(identity, process, heard, heard_len, device, reply, sizeof reply);
        bool holds = is_outcome(said, want_len, HART_OK) && memcmp(reply, want, sizeof reply) == 0;
        check(holds, function, turns[row].is_restarted ? "hart_restart and hart_hear" : "hart_hear", row);
    }
}

static void a_device_answers_and_is_kept(void)
{
    hart_identity identity = {0};
    hart_process process = {0};
    hart_registers registers = {0};
    hart_device device = {.primary_cold_start = true, .secondary_cold_start = true};
    hart_bench_identity(&identity);
    hart_bench_process(&process);
    hart_bench_registers(&registers);
    hart_outcome made = hart_new_device(&registers, &device);
    check(is_outcome(made, IMAGE_LEN, HART_OK), __func__, "hart_new_device", 0);
    play(__func__, bench_turns, ROWS(bench_turns), &identity, &process, &device);
    hart_device kept = device;
    memcpy(registers.date, (uint8_t[]){31, 2, 100}, sizeof registers.date);
    hart_outcome refused = hart_new_device(&registers, &device);
    bool is_kept = memcmp(&device, &kept, sizeof device) == 0;
    check(is_outcome(refused, 0, HART_BAD_FIELD) && is_kept, __func__, "hart_new_device", 1);
}

/* The bench device hears a row, and answers what is handed out. While a request is handed out, neither the device nor the
 * output changes. */
static void hear_own(const struct own_row *want, const hart_identity *identity, const hart_process *process,
                     hart_device *device, size_t row)
{
    static const uint8_t own[] = {1, 128};
    hart_char heard[LONGEST] = {{0}};
    uint8_t data[LONGEST] = {0};
    uint8_t reply[LONGEST] = {0};
    uint8_t none[LONGEST] = {0};
    uint8_t sent[LONGEST] = {0};
    hart_frame asked = {0};
    hart_device before = *device;
    size_t heard_len = read_characters(want->heard, heard);
    size_t data_len = read_bytes(want->data, data);
    size_t sent_len = read_bytes(want->reply, sent);
    hart_hearing said = hart_hear_own(identity, process, own, sizeof own, heard, heard_len, device, &asked, reply,
                                      sizeof reply);
    check(said.is_own == want->is_own && said.fault == HART_OK, __func__, "hart_hear_own", row);
    if (said.is_own) {
        bool is_left = memcmp(device, &before, sizeof before) == 0 && memcmp(reply, none, sizeof none) == 0;
        check(is_left && said.len == 0 && asked.command == 128 && asked.start == 5, __func__, "hart_hear_own", row);
        hart_outcome answered = hart_answer(identity, process, &asked, want->code, want->is_write, data, data_len, device,
                                            reply, sizeof reply);
        check(answered.fault == want->fault, __func__, "hart_answer", row);
        said.len = answered.len;
    }
    check(said.len == sent_len && memcmp(reply, sent, sizeof sent) == 0, __func__, "hart_answer", row);
}

static void a_maker_answers_commands_of_its_own(void)
{
    hart_identity identity = {0};
    hart_process process = {0};
    hart_registers registers = {0};
    hart_device device = {.primary_cold_start = true, .secondary_cold_start = true};
    uint8_t data[LONGEST] = {0};
    uint8_t reply[LONGEST] = {0};
    hart_bench_identity(&identity);
    hart_bench_process(&process);
    hart_bench_registers(&registers);
    hart_new_device(&registers, &device);
    for (size_t row = 0; row < ROWS(own_rows); row++)
        hear_own(&own_rows[row], &identity, &process, &device, row);
    hart_frame asked = {.is_primary = true, .is_unique = true, .expanded_type = 0x3742, .device_id = 0x0A1B2C};
    asked.command = 128;
    hart_outcome said = hart_answer(&identity, &process, &asked, 0, true, data, 254, &device, reply, sizeof reply);
    check(is_outcome(said, 0, HART_TOO_LONG), __func__, "hart_answer", ROWS(own_rows));
    asked.command = 1;
    said = hart_answer(&identity, &process, &asked, 0, true, data, 0, &device, reply, sizeof reply);
    check(is_outcome(said, 0, HART_NO_REQUEST), __func__, "hart_answer", ROWS(own_rows) + 1);
}

static bool is_acceptance(hart_acceptance told, hart_acceptance want)
{
    return told.is_accepted == want.is_accepted && told.code == want.code && told.status == want.status &&
           told.fault == want.fault && told.reason == want.reason;
}

static void a_reply_is_accepted_and_gives_an_address(void)
{
    uint8_t identify[LONGEST] = {0};
    hart_frame request = {0};
    hart_frame reply = {0};
    size_t identify_len = read_bytes("02 80 00 00 82", identify);
    hart_outcome read = hart_decode(identify, identify_len, &request);
    check(read.fault == HART_OK, __func__, "hart_decode", 0);
    for (size_t row = 0; row < ROWS(acceptance_rows); row++) {
        const struct acceptance_row *want = &acceptance_rows[row];
        hart_char heard[LONGEST] = {{0}};
        size_t heard_len = read_characters(want->heard, heard);
        request.command = want->command;
        request.is_burst = want->is_burst;
        hart_acceptance told = hart_accept(&request, heard, heard_len, &reply);
        bool is_shown =
            reply.start == want->start && reply.stop == want->stop && reply.payload_len == want->payload_len;
        check(is_acceptance(told, want->told) && is_shown, __func__, "hart_accept", row);
    }
    hart_unique unique = hart_unique_of(reply.command, reply.payload, 24);
    bool is_given = unique.is_given && unique.expanded_type == 0x3742 && unique.device_id == 0x0A1B2C;
    check(is_given, __func__, "hart_unique_of", 0);
}

/* A frame that was found is matched with a request of the primary master to polling address 0. Numbers that are no frame, and a reply in
 * the place of the request, are refused. */
static void a_reply_is_matched_frame_by_frame(void)
{
    hart_frame request = {.is_primary = true};
    for (size_t row = 0; row < ROWS(match_rows); row++) {
        const struct match_row *want = &match_rows[row];
        uint8_t heard[LONGEST] = {0};
        hart_frame found = {0};
        hart_search search = hart_find_in_bytes(heard, read_bytes(want->found, heard), true, &found, 1);
        request.command = want->command;
        hart_match match = hart_matches(&request, &found);
        bool is_matched = match.is_reply == want->is_reply.is_reply && match.fault == want->is_reply.fault;
        check(search.count == 1 && is_matched, __func__, "hart_matches", row);
        check(is_acceptance(hart_accept_frame(&request, &found), want->told), __func__, "hart_accept_frame", row);
    }
    hart_frame other = {.polling_address = 64};
    hart_match bad = hart_matches(&request, &other);
    check(!bad.is_reply && bad.fault == HART_BAD_ADDRESS, __func__, "hart_matches", ROWS(match_rows));
    other = (hart_frame){.is_reply = true, .payload_len = 2};
    bad = hart_matches(&other, &request);
    check(!bad.is_reply && bad.fault == HART_NO_REQUEST, __func__, "hart_matches", ROWS(match_rows) + 1);
}

/* Lets a master take a step, and returns what it tells. */
static hart_event take_step(const struct master_row *want, hart_master *master, size_t *len)
{
    hart_frame request = {.is_primary = true, .command = want->number};
    uint8_t message[LONGEST] = {0};
    hart_frame found = {0};
    hart_outcome sent;
    switch (want->step) {
    case SUBMIT:
        return (hart_event){.fault = hart_submit(&request, master)};
    case SEND:
        sent = hart_send(want->number, master, message, sizeof message);
        *len = sent.len;
        return (hart_event){.fault = sent.fault};
    case RECEIVE:
        *len = read_bytes(want->found, message);
        *len = hart_find_in_bytes(message, *len, true, &found, 1).count - 1;
        return hart_receive(&found, master);
    case TICK:
        return hart_tick(want->number, master);
    default:
        return hart_again(master);
    }
}

static void a_master_sends_until_it_is_answered(void)
{
    hart_master master = {.retries = 9};
    check(hart_new_master(16, 33, &master) == HART_BAD_MASTER && master.retries == 9, __func__, "hart_new_master", 0);
    check(hart_again(&master).fault == HART_BAD_MASTER, __func__, "hart_again", 0);
    check(hart_new_master(1, 33, &master) == HART_OK && master.retries == 1, __func__, "hart_new_master", 1);
    for (size_t row = 0; row < ROWS(master_rows); row++) {
        const struct master_row *want = &master_rows[row];
        size_t len = 0;
        hart_event told = take_step(want, &master, &len);
        bool is_told =
            told.event == want->told.event && told.sendings == want->told.sendings && told.fault == want->told.fault;
        bool is_kept = master.state == want->state && master.sendings == want->sendings &&
                       master.waited == want->waited && master.retries == 1 && master.reply_limit == 33;
        check(is_told && is_kept && len == want->len, __func__, "hart_submit, hart_send, hart_receive, ..", row);
    }
    check(master.request.command == 0 && master.request.is_primary, __func__, "hart_submit", ROWS(master_rows));
}

static void each_number_has_its_place(void)
{
    hart_device device = {.primary_cold_start = true, .secondary_cold_start = true};
    hart_outcome made = hart_new_device(&other_registers, &device);
    check(is_outcome(made, IMAGE_LEN, HART_OK), __func__, "hart_new_device", 0);
    play(__func__, other_turns, ROWS(other_turns), &other_identity, &other_process, &device);
}

/* After the message the beginning of Command 0 is heard, of which nothing is decided. */
static void a_message_is_found_read_and_written(void)
{
    uint8_t heard[LONGEST] = {0};
    uint8_t message[LONGEST] = {0};
    uint8_t want[LONGEST] = {0};
    hart_frame frames[2] = {{0}};
    hart_frame none = {0};
    hart_frame decoded = {0};
    size_t heard_len = read_bytes("FF FF " WRITE " FF FF 02 80", heard);
    hart_search found = hart_find_in_bytes(heard, heard_len, false, frames, 2);
    bool is_found = is_search(found, (hart_search){14, 1, HART_OK}) && is_write(&frames[0], 2);
    bool is_left = memcmp(&frames[1], &none, sizeof none) == 0;
    check(is_found && is_left, __func__, "hart_find_in_bytes", 0);
    hart_outcome written = hart_encode(&frames[0], 5, message, sizeof message);
    read_bytes("FF FF FF FF FF " WRITE, want);
    bool is_written = is_outcome(written, 17, HART_OK) && memcmp(message, want, sizeof want) == 0;
    check(is_written, __func__, "hart_encode", 0);
    check(hart_check_byte(message + 5, 11) == 0x3D, __func__, "hart_check_byte", 0);
    hart_outcome read = hart_decode(message + 5, sizeof message - 5, &decoded);
    check(is_outcome(read, 12, HART_OK) && is_write(&decoded, 0), __func__, "hart_decode", 0);
}

/* Each message is explained in just as much room as its text needs, and not in less. */
static void messages_are_explained(void)
{
    static uint8_t text[HART_EXPLAINED_LEN + 1], kept[HART_EXPLAINED_LEN + 1];
    hart_frame frame = {0};
    for (size_t row = 0; row < ROWS(explained_rows); row++) {
        const struct explained_row *want = &explained_rows[row];
        uint8_t heard[LONGEST] = {0};
        size_t len = strlen(want->text);
        memset(text, 0x7F, sizeof text);
        memset(kept, 0x7F, sizeof kept);
        hart_find_in_bytes(heard, read_bytes(want->heard, heard), true, &frame, 1);
        hart_outcome told = hart_explain(want->style, &frame, text, len - 1);
        bool is_kept = memcmp(text, kept, sizeof text) == 0;
        check(is_outcome(told, 0, HART_NO_ROOM) && is_kept, __func__, "hart_explain without room", row);
        memcpy(kept, want->text, len);
        told = hart_explain(want->style, &frame, text, len);
        bool is_text = memcmp(text, kept, sizeof text) == 0;
        check(is_outcome(told, len, HART_OK) && is_text, __func__, "hart_explain", row);
    }
    hart_outcome told = hart_explain(2, &frame, text, HART_EXPLAINED_LEN);
    check(is_outcome(told, 0, HART_BAD_STYLE), __func__, "hart_explain", ROWS(explained_rows));
    frame.payload_len = 1;
    told = hart_explain(2, &frame, text, HART_EXPLAINED_LEN);
    check(is_outcome(told, 0, HART_TOO_SHORT_REPLY), __func__, "hart_explain", ROWS(explained_rows) + 1);
}

static void faults_of_characters_are_heard(void)
{
    hart_char heard[LONGEST] = {{0}};
    size_t heard_len = read_characters("FF FF " WRITE, heard);
    for (size_t row = 0; row < ROWS(damage_rows); row++) {
        const struct damage_row *want = &damage_rows[row];
        hart_frame frame = {0};
        heard[10].faults = want->faults;
        hart_search told = hart_find(heard, heard_len, true, &frame, 1);
        check(is_search(told, want->told) && frame.stop == want->stop, __func__, "hart_find", row);
    }
}

static void marks_of_a_port_are_read(void)
{
    for (size_t row = 0; row < ROWS(mark_rows); row++) {
        const struct mark_row *want = &mark_rows[row];
        uint8_t delivered[LONGEST] = {0};
        uint8_t bytes[LONGEST] = {0};
        uint8_t faults[LONGEST] = {0};
        hart_char heard[LONGEST] = {{0}};
        size_t len = read_bytes(want->delivered, delivered);
        hart_unmarked told = hart_unmark(delivered, len, heard, want->room);
        read_bytes(want->bytes, bytes);
        read_bytes(want->faults, faults);
        bool holds = told.used == want->told.used && told.len == want->told.len;
        for (size_t i = 0; i < LONGEST; i++)
            holds = holds && heard[i].byte == bytes[i] && heard[i].faults == faults[i];
        check(holds, __func__, "hart_unmark", row);
    }
}

static void texts_are_packed_and_unpacked(void)
{
    for (size_t row = 0; row < ROWS(text_rows); row++) {
        const struct text_row *want = &text_rows[row];
        uint8_t packed[LONGEST] = {0};
        uint8_t bytes[LONGEST] = {0};
        uint8_t text[LONGEST] = {0};
        read_bytes(want->packed, bytes);
        hart_outcome told =
            hart_pack_text((const uint8_t *)want->text, strlen(want->text), packed, want->packed_len);
        bool is_packed = memcmp(packed, bytes, sizeof packed) == 0;
        check(is_outcome(told, want->told.len, want->told.fault) && is_packed, __func__, "hart_pack_text", row);
        if (told.fault != HART_OK)
            continue;
        told = hart_unpack_text(packed, want->packed_len, text, sizeof text);
        bool is_text = strcmp((const char *)text, want->unpacked) == 0;
        check(is_outcome(told, strlen(want->unpacked), HART_OK) && is_text, __func__, "hart_unpack_text", row);
        told = hart_unpack_text(packed, want->packed_len, text, 7);
        check(is_outcome(told, 0, HART_NO_ROOM), __func__, "hart_unpack_text", row);
    }
    check(hart_version() == HART_VERSION, __func__, "hart_version", 0);
}

/* What hart.h defines in C: a text for each fault that has a number, and floats as bytes. */
static void faults_have_texts_and_floats_have_bytes(void)
{
    uint8_t bytes[4] = {0};
    for (size_t fault = 0; fault < ROWS(fault_numbers); fault++) {
        const char *text = hart_fault_text(fault_numbers[fault]);
        check(strcmp(text, hart_fault_text(255)) != 0, __func__, "hart_fault_text", fault);
    }
    for (size_t row = 0; row < ROWS(float_rows); row++) {
        const struct float_row *want = &float_rows[row];
        check(hart_float(want->bytes) == want->value, __func__, "hart_float", row);
        hart_put_float(want->value, bytes);
        check(memcmp(bytes, want->bytes, sizeof bytes) == 0, __func__, "hart_put_float", row);
    }
}

int main(void)
{
    faults_have_texts_and_floats_have_bytes();
    data_are_read();
    names_are_written();
    a_device_answers_and_is_kept();
    a_maker_answers_commands_of_its_own();
    a_reply_is_accepted_and_gives_an_address();
    a_reply_is_matched_frame_by_frame();
    a_master_sends_until_it_is_answered();
    each_number_has_its_place();
    a_message_is_found_read_and_written();
    messages_are_explained();
    faults_of_characters_are_heard();
    marks_of_a_port_are_read();
    texts_are_packed_and_unpacked();
    return has_failed ? 1 : 0;
}
