/* What library_calls.c passes to calls of hart.h row by row, and what has to come of it. */
#ifndef LIBRARY_ROWS_H
#define LIBRARY_ROWS_H

#include "hart.h"

enum {
    LONGEST = 287,  /* room for any message, and for all that is heard below */
    IMAGE_LEN = 86, /* the length of the image of a new device */
    FIELD_ROOM = 3, /* room for the fields of the data below */
    NAME_ROOM = 16  /* room for the names below */
};

#define ROWS(table) (sizeof(table) / sizeof(table)[0])

/* A field as it was before a call. */
#define UNTOUCHED {9, 9, 9}

/* The body of Command 19 of the primary master to device 37420A1B2C. */
#define WRITE "82 B7 42 0A 1B 2C 13 03 01 23 45 3D"

/* The reply to Command 0 at polling address 0 after two preamble bytes. */
#define IDENTITY "FF FF 06 80 00 18 00 40 FE 37 42 05 07 01 02 18 00 0A 1B 2C 05 04 00 00 00 00 37 00 37 01 71"

/* What stands before the command: of requests to the bench device and its replies, and of those of the other device. */
#define TO_BENCH "FF FF FF FF FF 82 B7 42 0A 1B 2C "
#define FROM_BENCH "FF FF FF FF FF 86 B7 42 0A 1B 2C "
#define TO_OTHER "FF FF 82 92 34 56 78 9A "
#define FROM_OTHER "FF FF FF FF FF FF FF FF FF FF FF 86 92 34 56 78 9A "

/* Programs that were built before have these numbers in them. */
_Static_assert(HART_OK == 0 && HART_TOO_SHORT_REPLY == 1 && HART_BAD_PREAMBLE == 2 && HART_BAD_DELIMITER == 3 &&
                   HART_TRUNCATED == 4 && HART_BAD_CHECK == 5 && HART_SHORT_REPLY == 6 && HART_BAD_ADDRESS == 10 &&
                   HART_LONG_EXPANSION == 11 && HART_NO_ROOM == 12 && HART_BAD_FAULT_BITS == 13 &&
                   HART_NO_REPLY == 14 && HART_UNKNOWN == 15 && HART_OUT_OF_RANGE == 16 &&
                   HART_BROADCAST_ADDRESS == 17 && HART_BAD_VERSION == 18 && HART_BAD_LENGTH == 19 &&
                   HART_BAD_FIELD == 20 && HART_BAD_VARIABLES == 21 && HART_TOO_LONG == 22 && HART_NO_REQUEST == 23 &&
                   HART_WRONG_ADDRESS == 24 && HART_PENDING == 25 && HART_BAD_MASTER == 26 &&
                   HART_BAD_CODE == 27 && HART_BAD_CHARACTER == 28 && HART_BAD_STYLE == 29,
               "the numbers of faults");
_Static_assert(HART_IDLE == 0 && HART_DUE == 1 && HART_AWAITING == 2 && HART_ANSWERED == 3 && HART_EVENT_NONE == 0 &&
                   HART_EVENT_ANSWERED == 1 && HART_EVENT_RETRY == 2 && HART_EVENT_GIVEN_UP == 3,
               "the numbers of states and events");
_Static_assert(HART_NO_REASON == 0 && HART_NO_FRAME == 1 && HART_SEVERAL_FRAMES == 2 && HART_OTHER_FRAME == 3 &&
                   HART_COMMUNICATION_FAULTS == 4 && HART_UNFIT_DATA == 5,
               "the numbers of reasons");
_Static_assert(HART_WORDS == 0 && HART_JSON == 1, "the numbers of styles");
_Static_assert(HART_BYTES == 0 && HART_NUMBER == 1 && HART_PACKED_TEXT == 2 && HART_DATE == 3 && HART_FLOAT == 4 &&
                   HART_VARIABLES == 5 && HART_LATIN_TEXT == 6 && HART_UNIT_CODE == 7,
               "the numbers of kinds");

/* These are compared byte by byte, so they may have no padding. */
_Static_assert(sizeof(hart_frame) == 288 && sizeof(hart_field) == 3 && sizeof(hart_device) == 89, "padding");

/* Each fault that a call may return. */
static const uint8_t fault_numbers[] = {0,  1,  2,  3,  4,  5,  6,  10, 11, 12, 13, 14,
                                        15, 16, 17, 18, 19, 20, 21, 22, 23, 24, 25, 26, 27, 28, 29};

/* A number, and its four bytes by IEEE 754. */
struct float_row {
    float value;
    uint8_t bytes[4];
};

static const struct float_row float_rows[] = {
    {25.0f, {0x41, 0xC8, 0x00, 0x00}},
    {-0.375f, {0xBE, 0xC0, 0x00, 0x00}},
    {0.1f, {0x3D, 0xCC, 0xCC, 0xCD}},
};

/* A request or a reply, what is told of its data, and its first fields. */
struct data_row {
    bool is_reply;
    uint8_t command;
    const char *data;
    hart_reading told; /* the count, the bytes taken, the code, the status, the fault */
    hart_field fields[FIELD_ROOM];
};

static const struct data_row data_rows[] = {
    {false, 19, "01 02 03 04", {1, 3, 0, 0, HART_OK}, {{0, 3, HART_BYTES}, UNTOUCHED, UNTOUCHED}},
    {false, 6, "05", {1, 1, 0, 0, HART_OK}, {{0, 1, HART_NUMBER}, UNTOUCHED, UNTOUCHED}},
    {false, 6, "40 00", {0, 0, 2, 0, HART_OK}, {UNTOUCHED, UNTOUCHED, UNTOUCHED}},
    {false, 19, "01 02", {0, 0, 5, 0, HART_OK}, {UNTOUCHED, UNTOUCHED, UNTOUCHED}},
    {false, 200, "", {0, 0, 64, 0, HART_OK}, {UNTOUCHED, UNTOUCHED, UNTOUCHED}},
    {true,
     1,
     "00 40 20 41 BC 00 00 07",
     {2, 7, 0, 0x40, HART_OK},
     {{2, 1, HART_UNIT_CODE}, {3, 4, HART_FLOAT}, UNTOUCHED}},
    {true, 1, "05 40 20", {0, 2, 5, 0x40, HART_OK}, {UNTOUCHED, UNTOUCHED, UNTOUCHED}},
    {true, 1, "00 40 20", {0, 0, 0, 0, HART_NO_REPLY}, {UNTOUCHED, UNTOUCHED, UNTOUCHED}},
    {true,
     9,
     "00 00 00 00 00 00 00 00 00 00 00 00 00 00 00",
     {3, 15, 0, 0, HART_OK},
     {{2, 1, HART_BYTES}, {3, 8, HART_VARIABLES}, {11, 4, HART_BYTES}}},
    {true,
     13,
     "00 00 00 00 00 00 00 00 00 00 00 00 00 00 00 00 00 00 00 00 00 00 00",
     {3, 23, 0, 0, HART_OK},
     {{2, 6, HART_PACKED_TEXT}, {8, 12, HART_PACKED_TEXT}, {20, 3, HART_DATE}}},
};

/* What has a name. */
enum named { COMMAND, FIELD_OF_REQUEST, FIELD_OF_REPLY, UNIT, CODE, STATUS_BIT, COMM_FAULT };

/* A name that is asked for with some room, what is told, and what an output that was there before then holds. The number is that of a
 * field, a unit, a code or a bit. */
struct name_row {
    enum named what;
    uint8_t command;
    uint8_t number;
    size_t room;
    hart_outcome told;
    const char *held;
};

static const struct name_row name_rows[] = {
    {FIELD_OF_REPLY, 1, 1, 16, {16, HART_OK}, "primary variable"},
    {FIELD_OF_REQUEST, 1, 0, 16, {0, HART_UNKNOWN}, "primary variable"},
    {COMMAND, 12, 0, 12, {12, HART_OK}, "read messageable"},
    {COMMAND, 12, 0, 11, {0, HART_NO_ROOM}, "read messageable"},
    {UNIT, 0, 32, 15, {15, HART_OK}, "degrees Celsiuse"},
    {UNIT, 0, 32, 14, {0, HART_NO_ROOM}, "degrees Celsiuse"},
    {UNIT, 0, 170, 16, {0, HART_UNKNOWN}, "degrees Celsiuse"},
    {CODE, 18, 9, 16, {12, HART_OK}, "invalid dateiuse"},
    {CODE, 38, 9, 16, {16, HART_OK}, "counter mismatch"},
    {CODE, 19, 9, 16, {0, HART_UNKNOWN}, "counter mismatch"},
    {CODE, 0, 64, 16, {0, HART_NO_ROOM}, "counter mismatch"},
    {STATUS_BIT, 0, 0x20, 16, {10, HART_OK}, "cold startsmatch"},
    {STATUS_BIT, 0, 0x60, 16, {0, HART_UNKNOWN}, "cold startsmatch"},
    {STATUS_BIT, 0, 0x40, 16, {0, HART_NO_ROOM}, "cold startsmatch"},
    {COMM_FAULT, 0, 0x20, 16, {7, HART_OK}, "overrunartsmatch"},
    {COMM_FAULT, 0, 0x04, 16, {0, HART_UNKNOWN}, "overrunartsmatch"},
    {COMM_FAULT, 0, 0x08, 16, {0, HART_NO_ROOM}, "overrunartsmatch"},
};

/* A message that is heard, how it is to be explained, and the lines of this explanation. */
struct explained_row {
    uint8_t style;
    const char *heard;
    const char *text;
};

static const struct explained_row explained_rows[] = {
    {HART_WORDS, "FF FF 02 80 00 00 82",
     "2-7: request of the primary master to the device at polling address 0, Command 0, read unique identifier\n"},
    {HART_WORDS, "FF FF E2 80 00 00 00 00 AA BB CC 0B 01 FF 4A",
     "2-15: request of the primary master to all devices, Command 11, read unique identifier associated with tag\n"
     "    expansion bytes: 0xAABBCC\n"
     "    data: 0xFF\n"
     "    too few data: 1 of 6\n"},
    {HART_WORDS, "FF FF 86 B7 42 0A 1B 2C 13 05 00 60 01 23 45 5F",
     "2-16: reply of device 37420A1B2C to the primary master, Command 19, write final assembly number\n"
     "    response code: 0, success\n"
     "    device status: configuration changed, cold start\n"
     "    final assembly number: 0x012345\n"},
    {HART_JSON, "FF FF " WRITE,
     "{\"type\":\"message\",\"start\":2,\"stop\":14,\"kind\":\"request\",\"master\":\"primary\",\"address\":\"37420A1B2C\","
     "\"burst\":false,\"expansion\":\"\",\"command\":19,\"command_name\":\"write final assembly number\",\"data\":\"012345\","
     "\"fields\":{\"final_assembly_number\":\"012345\"},\"ignored\":\"\",\"problem\":null,\"sending\":1}\n"},
    {HART_JSON, "FF FF 86 B7 42 0A 1B 2C 13 02 A8 05 F2",
     "{\"type\":\"message\",\"start\":2,\"stop\":13,\"kind\":\"reply\",\"master\":\"primary\",\"address\":\"37420A1B2C\","
     "\"burst\":false,\"expansion\":\"\",\"command\":19,\"command_name\":\"write final assembly number\",\"status\":\"A805\","
     "\"response_code\":null,\"response\":null,\"device_status\":null,"
     "\"communication_faults\":[\"overrun\",\"longitudinal parity\"],"
     "\"data\":\"\",\"fields\":{},\"ignored\":\"\",\"problem\":null,\"answers\":null}\n"},
};

/* What a device hears at once, after it was without power if so, and what it replies. */
struct turn {
    const char *heard;
    const char *reply;
    bool is_restarted;
};

/* The bench device, in the worked messages of docs/COMMANDS.md: who it is, its primary variable, communication faults
 * to a damaged write, the write, what was written, silence to another polling address, and a restart that is shown in
 * the first reply after it and not in the second. */
static const struct turn bench_turns[] = {
    {.heard = "FF FF FF FF FF 02 80 00 00 82",
     .reply = "FF FF FF FF FF 06 80 00 18 00 00 FE 37 42 05 07 01 02 18 00 0A 1B 2C 05 04 00 00 00 00 37 00 37 01 31"},
    {.heard = TO_BENCH "01 00 4B", .reply = FROM_BENCH "01 07 00 00 20 41 C8 00 00 E1"},
    {.heard = TO_BENCH "13 03 01 23 45 3C", .reply = FROM_BENCH "13 02 88 00 D7"},
    {.heard = TO_BENCH "13 03 01 23 45 3D", .reply = FROM_BENCH "13 05 00 40 01 23 45 7F"},
    {.heard = TO_BENCH "10 00 5A", .reply = FROM_BENCH "10 05 00 40 01 23 45 7C"},
    {.heard = "FF FF FF FF FF 02 81 00 00 83", .reply = ""},
    {.heard = TO_BENCH "01 00 4B", .reply = FROM_BENCH "01 07 00 60 20 41 C8 00 00 81", .is_restarted = true},
    {.heard = TO_BENCH "01 00 4B", .reply = FROM_BENCH "01 07 00 40 20 41 C8 00 00 A1"},
};

/* The other device, whose numbers of one size differ, so that none can stand in the place of another: who it is. */
static const hart_identity other_identity = {
    .device_id = 0x56789A,
    .expanded_device_type = 0x1234,
    .manufacturer = 0xBCDE,
    .private_label_distributor = 0xF011,
    .request_preambles = 6,
    .response_preambles = 11,
    .device_revision = 0x21,
    .software_revision = 0x22,
    .hardware_revision = 10,
    .signalling_code = 3,
    .flags = 0x24,
    .device_variables = 0x25,
    .device_profile = 0x26,
};

/* What it measures. */
static const hart_process other_process = {
    .loop_current = {0x31, 0x32, 0x33, 0x34},
    .percent_of_range = {0x35, 0x36, 0x37, 0x38},
    .variables = {{0x41, 0x42, {0x43, 0x44, 0x45, 0x46}, 0x47},
                  {0x48, 0x49, {0x4A, 0x4B, 0x4C, 0x4D}, 0x4E},
                  {0x51, 0x52, {0x53, 0x54, 0x55, 0x56}, 0x57},
                  {0x58, 0x59, {0x5A, 0x5B, 0x5C, 0x5D}, 0x5E}},
    .variables_len = 4,
    .time_stamp = {0x61, 0x62, 0x63, 0x64},
    .status = 0x85,
    .additional_status = {0x70, 0x71, 0x72, 0x73, 0x74, 0x75, 0x76, 0x77, 0x78, 0x79, 0x7A, 0x7B, 0x7C,
                          0x7D, 0x7E, 0x7F, 0x80, 0x81, 0x82, 0x83, 0x84, 0x85, 0x86, 0x87, 0x88},
    .sensor = {.serial_number = {0x91, 0x92, 0x93},
               .unit = 0x94,
               .upper_limit = {0x95, 0x96, 0x97, 0x98},
               .lower_limit = {0x99, 0x9A, 0x9B, 0x9C},
               .minimum_span = {0x9D, 0x9E, 0x9F, 0xA0}},
    .output = {.alarm_code = 0xA1,
               .transfer_function = 0xA2,
               .unit = 0xA3,
               .upper_range_value = {0xA4, 0xA5, 0xA6, 0xA7},
               .lower_range_value = {0xA8, 0xA9, 0xAA, 0xAB},
               .damping = {0xAC, 0xAD, 0xAE, 0xAF},
               .channel_flags = 0xB0},
};

/* What its registers hold. */
static const hart_registers other_registers = {
    .polling_address = 5,
    .loop_current_mode = 1,
    .message = {0xC0, 0xC1, 0xC2, 0xC3, 0xC4, 0xC5, 0xC6, 0xC7, 0xC8, 0xC9, 0xCA, 0xCB,
                0xCC, 0xCD, 0xCE, 0xCF, 0xD0, 0xD1, 0xD2, 0xD3, 0xD4, 0xD5, 0xD6, 0xD7},
    .tag = {0xE0, 0xE1, 0xE2, 0xE3, 0xE4, 0xE5},
    .descriptor = {0xE6, 0xE7, 0xE8, 0xE9, 0xEA, 0xEB, 0xEC, 0xED, 0xEE, 0xEF, 0xF0, 0xF1},
    .date = {0x0F, 0x06, 0x7D},
    .assembly = {0xF3, 0xF4, 0xF5},
    .long_tag = {0x01, 0x02, 0x03, 0x04, 0x05, 0x06, 0x07, 0x08, 0x09, 0x0A, 0x0B, 0x0C, 0x0D, 0x0E, 0x0F, 0x10,
                 0x11, 0x12, 0x13, 0x14, 0x15, 0x16, 0x17, 0x18, 0x19, 0x1A, 0x1B, 0x1C, 0x1D, 0x1E, 0x1F, 0x20},
};

/* Each command that reads and needs no tag, to the other device, and the reply, by the tables of docs/COMMANDS.md. */
static const struct turn other_turns[] = {
    {.heard = TO_OTHER "00 00 90",
     .reply = FROM_OTHER "00 18 00 95 FE 12 34 06 07 21 22 53 24 56 78 9A 0B 25 00 00 76 BC DE F0 11 26 FD"},
    {.heard = TO_OTHER "01 00 91", .reply = FROM_OTHER "01 07 00 95 42 43 44 45 46 41"},
    {.heard = TO_OTHER "02 00 92", .reply = FROM_OTHER "02 0A 00 95 31 32 33 34 35 36 37 38 01"},
    {.heard = TO_OTHER "03 00 93",
     .reply = FROM_OTHER "03 1A 00 95 31 32 33 34 42 43 44 45 46 49 4A 4B 4C 4D 52 53 54 55 56 59 5A 5B 5C 5D 1C"},
    {.heard = TO_OTHER "07 00 97", .reply = FROM_OTHER "07 04 00 95 05 01 06"},
    {.heard = TO_OTHER "08 00 98", .reply = FROM_OTHER "08 06 00 95 41 48 51 58 0F"},
    {.heard = TO_OTHER "09 06 F6 F4 F5 01 02 03 68",
     .reply = FROM_OTHER "09 37 00 95 76 F6 41 42 43 44 45 46 47 F4 00 39 35 36 37 38 47 F5 00 27 31 32 33 34 47 "
                         "01 48 49 4A 4B 4C 4D 4E 02 51 52 53 54 55 56 57 03 58 59 5A 5B 5C 5D 5E 61 62 63 64 AC"},
    {.heard = TO_OTHER "0C 00 9C",
     .reply = FROM_OTHER "0C 1A 00 95 C0 C1 C2 C3 C4 C5 C6 C7 C8 C9 CA CB CC CD CE CF D0 D1 D2 D3 D4 D5 D6 D7 17"},
    {.heard = TO_OTHER "0D 00 9D",
     .reply = FROM_OTHER "0D 17 00 95 E0 E1 E2 E3 E4 E5 E6 E7 E8 E9 EA EB EC ED EE EF F0 F1 0F 06 7D 6E"},
    {.heard = TO_OTHER "0E 00 9E",
     .reply = FROM_OTHER "0E 12 00 95 91 92 93 94 95 96 97 98 99 9A 9B 9C 9D 9E 9F A0 2D"},
    {.heard = TO_OTHER "0F 00 9F",
     .reply = FROM_OTHER "0F 14 00 95 A1 A2 A3 A4 A5 A6 A7 A8 A9 AA AB AC AD AE AF 00 FA B0 F0"},
    {.heard = TO_OTHER "10 00 80", .reply = FROM_OTHER "10 05 00 95 F3 F4 F5 E6"},
    {.heard = TO_OTHER "14 00 84",
     .reply = FROM_OTHER "14 22 00 95 01 02 03 04 05 06 07 08 09 0A 0B 0C 0D 0E 0F 10 11 12 13 14 15 16 17 18 19 "
                         "1A 1B 1C 1D 1E 1F 20 17"},
    {.heard = TO_OTHER "30 00 A0",
     .reply = FROM_OTHER "30 1B 00 95 70 71 72 73 74 75 76 77 78 79 7A 7B 7C 7D 7E 7F 80 81 82 83 84 85 86 87 88 A2"},
};

/* A reply to Command 0 with communication faults, one whose data are no identity, and the same of Command 1. */
#define DAMAGED "FF FF 06 80 00 02 88 00 0C"
#define NO_IDENTITY "FF FF 06 80 00 03 00 00 01 84"
#define OF_COMMAND_1 "FF FF 06 80 01 02 05 00 80"

/* A reply to Command 128 of polling address 0. */
#define OF_COMMAND_128 "FF FF 06 80 80 02 00 00 04"

/* The command and the burst bit of a request to polling address 0, what is heard after it, what is told of that, and
 * which frame is then shown, which is the one before if none is accepted. */
struct acceptance_row {
    uint8_t command;
    bool is_burst;
    const char *heard;
    hart_acceptance told; /* whether it is accepted, the code, the status, the fault, the reason */
    uint64_t start;
    uint64_t stop;
    uint8_t payload_len;
};

static const struct acceptance_row acceptance_rows[] = {
    {0, false, IDENTITY " " IDENTITY, {false, 0, 0, HART_OK, HART_SEVERAL_FRAMES}, 0, 0, 0},
    {0, false, IDENTITY, {true, 0, 0x40, HART_OK, HART_NO_REASON}, 2, 31, 24},
    {1, false, IDENTITY " " IDENTITY, {false, 0, 0, HART_WRONG_ADDRESS, HART_NO_REASON}, 2, 31, 24},
    {1, true, IDENTITY " " IDENTITY, {false, 0, 0, HART_NO_REQUEST, HART_NO_REASON}, 2, 31, 24},
    {0, false, "FF FF 06 80", {false, 0, 0, HART_OK, HART_NO_FRAME}, 2, 31, 24},
    {0, false, OF_COMMAND_1, {false, 0, 0, HART_OK, HART_OTHER_FRAME}, 2, 31, 24},
    {0, false, DAMAGED, {false, 0, 0, HART_OK, HART_COMMUNICATION_FAULTS}, 2, 31, 24},
    {0, false, NO_IDENTITY, {false, 0, 0, HART_OK, HART_UNFIT_DATA}, 2, 31, 24},
};

/* The command of a request, a frame that was found, whether it is a reply to the request, and what is told of the
 * frame if the request is one that the library knows. */
struct match_row {
    uint8_t command;
    const char *found;
    hart_match is_reply;
    hart_acceptance told;
};

static const struct match_row match_rows[] = {
    {0, IDENTITY, {true, HART_OK}, {true, 0, 0x40, HART_OK, HART_NO_REASON}},
    {0, DAMAGED, {true, HART_OK}, {false, 0, 0, HART_OK, HART_COMMUNICATION_FAULTS}},
    {0, NO_IDENTITY, {true, HART_OK}, {false, 0, 0, HART_OK, HART_UNFIT_DATA}},
    {0, OF_COMMAND_1, {false, HART_OK}, {false, 0, 0, HART_OK, HART_OTHER_FRAME}},
    {1, OF_COMMAND_1, {true, HART_OK}, {false, 0, 0, HART_WRONG_ADDRESS, HART_NO_REASON}},
    {0, "FF FF 02 80 00 00 82", {false, HART_OK}, {false, 0, 0, HART_OK, HART_OTHER_FRAME}},
    {128, OF_COMMAND_128, {true, HART_OK}, {false, 0, 0, HART_NO_REQUEST, HART_NO_REASON}},
    {128, "FF FF 06 00 80 02 00 00 84", {false, HART_OK}, {false, 0, 0, HART_NO_REQUEST, HART_NO_REASON}},
    {128, "FF FF 06 81 80 02 00 00 05", {false, HART_OK}, {false, 0, 0, HART_NO_REQUEST, HART_NO_REASON}},
};

/* What a master with one retry and a reply limit of 33 is told to do, what it tells, and its state after that. */
enum step { SUBMIT, SEND, RECEIVE, TICK, AGAIN };
struct master_row {
    enum step step;
    uint8_t number;    /* SUBMIT: the command; SEND: how many preamble bytes; TICK: how many character times */
    const char *found; /* RECEIVE: a frame */
    hart_event told;   /* the event, the sendings, the fault */
    size_t len;        /* SEND: the length of the message */
    uint8_t state;
    uint8_t sendings;
    uint8_t waited;
};

static const struct master_row master_rows[] = {
    {SUBMIT, 1, "", {0, 0, HART_WRONG_ADDRESS}, 0, HART_IDLE, 0, 0},
    {SEND, 20, "", {0, 0, HART_OK}, 0, HART_IDLE, 0, 0},
    {AGAIN, 0, "", {HART_EVENT_NONE, 0, HART_OK}, 0, HART_IDLE, 0, 0},
    {SUBMIT, 0, "", {0, 0, HART_OK}, 0, HART_DUE, 0, 0},
    {SUBMIT, 128, "", {0, 0, HART_PENDING}, 0, HART_DUE, 0, 0},
    {SEND, 4, "", {0, 0, HART_BAD_PREAMBLE}, 0, HART_DUE, 0, 0},
    {TICK, 255, "", {HART_EVENT_NONE, 0, HART_OK}, 0, HART_DUE, 0, 0},
    {SEND, 5, "", {0, 0, HART_OK}, 10, HART_AWAITING, 1, 0},
    {RECEIVE, 0, OF_COMMAND_1, {HART_EVENT_NONE, 0, HART_OK}, 0, HART_AWAITING, 1, 0},
    {RECEIVE, 0, DAMAGED, {HART_EVENT_NONE, 0, HART_OK}, 0, HART_AWAITING, 1, 0},
    {AGAIN, 0, "", {HART_EVENT_RETRY, 0, HART_OK}, 0, HART_DUE, 1, 0},
    {SEND, 6, "", {0, 0, HART_OK}, 11, HART_AWAITING, 2, 0},
    {TICK, 32, "", {HART_EVENT_NONE, 0, HART_OK}, 0, HART_AWAITING, 2, 32},
    {RECEIVE, 0, IDENTITY, {HART_EVENT_ANSWERED, 2, HART_OK}, 0, HART_ANSWERED, 2, 0},
    {RECEIVE, 0, IDENTITY, {HART_EVENT_NONE, 0, HART_OK}, 0, HART_ANSWERED, 2, 0},
    {TICK, 255, "", {HART_EVENT_NONE, 0, HART_OK}, 0, HART_ANSWERED, 2, 0},
    {AGAIN, 0, "", {HART_EVENT_GIVEN_UP, 2, HART_OK}, 0, HART_IDLE, 0, 0},
    {SUBMIT, 128, "", {0, 0, HART_OK}, 0, HART_DUE, 0, 0},
    {SEND, 5, "", {0, 0, HART_OK}, 10, HART_AWAITING, 1, 0},
    {TICK, 33, "", {HART_EVENT_RETRY, 0, HART_OK}, 0, HART_DUE, 1, 0},
    {SEND, 5, "", {0, 0, HART_OK}, 10, HART_AWAITING, 2, 0},
    {TICK, 255, "", {HART_EVENT_GIVEN_UP, 2, HART_OK}, 0, HART_IDLE, 0, 0},
    {SUBMIT, 128, "", {0, 0, HART_OK}, 0, HART_DUE, 0, 0},
    {SEND, 5, "", {0, 0, HART_OK}, 10, HART_AWAITING, 1, 0},
    {RECEIVE, 0, OF_COMMAND_128, {HART_EVENT_ANSWERED, 1, HART_OK}, 0, HART_ANSWERED, 1, 0},
    {SUBMIT, 0, "", {0, 0, HART_OK}, 0, HART_DUE, 0, 0},
};

/* What the bench device hears, whose own command is 128, and what it replies; or that a request is handed out, how it is
 * answered, and what is told of that. */
struct own_row {
    const char *heard;
    bool is_own;
    uint8_t code;
    bool is_write;
    const char *data;
    uint8_t fault; /* of the answer */
    const char *reply;
};

static const struct own_row own_rows[] = {
    {TO_BENCH "80 00 CA", true, 0, false, "12 34", HART_OK, FROM_BENCH "80 04 00 00 12 34 EC"},
    {TO_BENCH "81 00 CB", false, 0, false, "", HART_OK, FROM_BENCH "81 02 40 00 8D"},
    {TO_BENCH "80 00 CA", true, 0, true, "", HART_OK, FROM_BENCH "80 02 00 40 8C"},
    {TO_BENCH "01 00 4B", false, 0, false, "", HART_OK, FROM_BENCH "01 07 00 40 20 41 C8 00 00 A1"},
    {TO_BENCH "80 00 CA", true, 128, true, "", HART_BAD_CODE, ""},
    {TO_BENCH "80 00 CA", true, 5, false, "", HART_OK, FROM_BENCH "80 02 05 40 89"},
    {"FF FF FF FF FF 02 80 80 00 02", false, 0, false, "", HART_OK, ""},
};

/* What a port delivers, how much room there is, and what comes of it: the bytes of the characters and their faults. */
struct mark_row {
    const char *delivered;
    size_t room;
    hart_unmarked told; /* how many bytes are used up, how many characters there are */
    const char *bytes;
    const char *faults;
};

static const struct mark_row mark_rows[] = {
    {"FF FF FF FF 82 FF 00 B7 00", 8, {9, 5}, "FF FF 82 B7 00", "00 00 00 40 00"},
    {"82 FF 00", 8, {1, 1}, "82", "00"},
    {"82 FF", 8, {1, 1}, "82", "00"},
    {"FF 00 00 FF 41", 8, {5, 2}, "00 41", "40 00"},
    {"01 02 03", 2, {2, 2}, "01 02", "00 00"},
    {"", 8, {0, 0}, "", ""},
};

/* A text, the length of its packed form, what is told, and the packed bytes. */
struct text_row {
    const char *text;
    size_t packed_len;
    hart_outcome told;
    const char *packed;
    const char *unpacked;
};

static const struct text_row text_rows[] = {
    {"PUMP-7", 6, {6, HART_OK}, "41 53 50 B7 78 20", "PUMP-7  "},
    {"", 6, {6, HART_OK}, "82 08 20 82 08 20", "        "},
    {"NINE CHAR", 6, {0, HART_TOO_LONG}, "", ""},
    {"pump", 6, {0, HART_BAD_CHARACTER}, "", ""},
    {"PUMP", 7, {0, HART_BAD_LENGTH}, "", ""},
};

/* The fault bits of character 10 of a message, what is told of the search, and where the frame stops that is shown. */
struct damage_row {
    uint8_t faults;
    hart_search told; /* how many are used, how many frames there are, the fault */
    uint64_t stop;
};

static const struct damage_row damage_rows[] = {
    {0x00, {14, 1, HART_OK}, 14},
    {0x40, {14, 0, HART_OK}, 0},
    {0x01, {0, 0, HART_BAD_FAULT_BITS}, 0},
};

#endif
