/* HART messages (HART Protocol Revision 7), by proved code. docs/LIBRARY.md shows how to build a program around these calls.
 *
 * Link libhart.a or libhart.so. A call keeps no pointer and no state, allocates nothing and never waits. It reads only its
 * arguments. Two threads may make calls at the same time, each on its own memory.
 *
 * Duties of the caller, at each call:
 *   - No pointer is null, even with length 0. Each pointer is aligned for its type. A pointer with a length after it points to that number
 *     of elements; a pointer without a length points to one element. Lengths are below 2^63.
 *   - Until the call returns, nobody else writes the memory behind a pointer. If the pointer is not const, nobody else reads this memory,
 *     and it overlaps nothing else that is passed.
 *   - What a call reads is initialised, and each bool in it is 0 or 1. What a call only writes need not be initialised; a call reads a
 *     hart_device and a hart_master before it writes them, except where it makes a new one.
 * The call checks everything else. If a call returns a fault, it has written nothing.
 */
#ifndef HART_H
#define HART_H

#include <stdbool.h>
#include <stddef.h>
#include <stdint.h>
#include <string.h>

#ifdef __cplusplus
extern "C" {
#endif

/* A length or a count, always of 64 bits, even where pointers have 32 bits, as in examples/cortex-m. */
#if UINTPTR_MAX < UINT64_MAX
typedef uint64_t hart_size;
#else
typedef size_t hart_size;
#endif

/* The version of this header, and of the library that is linked: major, minor and patch, a byte each. */
#define HART_VERSION 0x000100
uint32_t hart_version(void);

/* A frame and its offsets in what was passed. You can pass a frame to hart_encode exactly as another call has written it. */
typedef struct hart_frame {
    uint64_t start;          /* the offset of the delimiter, from 0 */
    uint64_t stop;           /* the offset after the check byte */
    uint32_t device_id;      /* at most 0xFFFFFF for a unique address; 0 for a polling address */
    uint16_t expanded_type;  /* at most 0x3FFF for a unique address; 0 for a polling address */
    bool is_reply;           /* true for a reply (ACK), false for a request (STX) */
    bool is_primary;         /* true for the primary master, false for the secondary master */
    bool is_burst;           /* the burst bit */
    bool is_unique;          /* true for a unique address, which is broadcast if device_id and expanded_type are 0 */
    uint8_t polling_address; /* at most 63; 0 for a unique address */
    uint8_t command;         /* the command number */
    uint8_t expansion_len;   /* 0 to 3 */
    uint8_t payload_len;     /* 0 to 255; at least 2 for a reply */
    uint8_t expansion[3];    /* only the first expansion_len bytes are used */
    uint8_t payload[255];    /* the first payload_len bytes count; a reply begins with its two status bytes */
} hart_frame;

/* Faults: why a call did nothing. */
enum {
    HART_OK = 0,
    HART_TOO_SHORT_REPLY = 1, /* a reply whose payload is shorter than the two status bytes */
    HART_BAD_PREAMBLE = 2,    /* a number of preamble bytes outside 5 to 20 */
    HART_BAD_DELIMITER = 3,   /* the first byte is no STX or ACK delimiter */
    HART_TRUNCATED = 4,       /* the bytes end before the check byte */
    HART_BAD_CHECK = 5,       /* the exclusive or of the body with its check byte is not 0 */
    HART_SHORT_REPLY = 6,     /* the byte count of a reply is below 2 */
    HART_BAD_ADDRESS = 10,    /* a number of the address is out of range */
    HART_LONG_EXPANSION = 11, /* more than three expansion bytes */
    HART_NO_ROOM = 12,        /* the output is too short for what is to be written */
    HART_BAD_FAULT_BITS = 13, /* `faults` of a character has a bit that is no fault bit */
    HART_NO_REPLY = 14,       /* a payload is no reply to the command */
    HART_UNKNOWN = 15,        /* there is no such command or field, or no name */
    HART_OUT_OF_RANGE = 16,   /* a number of an identity is out of range */
    HART_BROADCAST_ADDRESS = 17, /* the unique address of an identity would be broadcast */
    HART_BAD_VERSION = 18,    /* an image of an unknown version */
    HART_BAD_LENGTH = 19,     /* an image of no bytes or of more than 86 bytes, or with the wrong length for its version; or packed text
                               * of other than 6, 12 or 24 bytes */
    HART_BAD_FIELD = 20,      /* a polling address above 63, a loop current mode above 1, an invalid date, or image flags above 7 */
    HART_BAD_VARIABLES = 21,  /* a process without a dynamic variable, or with more than four */
    HART_TOO_LONG = 22,       /* a delivery of more than 1,024 characters, more data than a reply can have, or more text than
                               * the packed text can have */
    HART_NO_REQUEST = 23,     /* a frame that is a reply, has expansion bytes or the burst bit, or has refused data */
    HART_WRONG_ADDRESS = 24,  /* a command not allowed at this kind of address */
    HART_PENDING = 25,        /* the master has a request in hand already */
    HART_BAD_MASTER = 26,     /* more than 15 retries, a reply limit of 0, or a state, request or sendings that no call writes */
    HART_BAD_CODE = 27,       /* a response code above 127 */
    HART_BAD_CHARACTER = 28,  /* a character that packed text does not have */
    HART_BAD_STYLE = 29       /* a style of explanation other than HART_WORDS and HART_JSON */
};

/* Returns an English text of a fault, for logs. This is plain C: nothing of it is proved. */
static inline const char *hart_fault_text(uint8_t fault)
{
    static const char *const texts[] = {
        "no fault", "a reply without its status bytes", "a number of preamble bytes outside 5 to 20", "no delimiter", "too few bytes",
        "a bad check byte", "a byte count of a reply below 2", NULL, NULL, NULL, "a number of an address out of range",
        "more than three expansion bytes", "no room in the output", "an unknown fault bit", "no reply to the command",
        "no such command, field or name", "a number of an identity out of range", "an identity with the broadcast address",
        "an image of an unknown version", "an image or packed text of a bad length", "a bad value of a register",
        "no dynamic variable, or more than four", "too many characters, or too much data or text", "no request of a master",
        "a command not allowed at this address", "a request in hand already", "limits or a state that no master has",
        "a response code above 127",
        "a character that packed text does not have", "an unknown style of explanation"};
    const char *text = fault < sizeof texts / sizeof texts[0] ? texts[fault] : NULL;
    return text ? text : "an unknown fault";
}

/* Returns the number that four bytes stand for as a float of IEEE 754, the most significant byte first. Plain C, not proved. */
static inline float hart_float(const uint8_t bytes[4])
{
    uint32_t bits = (uint32_t)bytes[0] << 24 | (uint32_t)bytes[1] << 16 | (uint32_t)bytes[2] << 8 | bytes[3];
    float value;
    memcpy(&value, &bits, sizeof value);
    return value;
}

/* Writes a number as a float in four bytes, the most significant byte first. Plain C, not proved. */
static inline void hart_put_float(float value, uint8_t bytes[4])
{
    uint32_t bits;
    memcpy(&bits, &value, sizeof bits);
    for (int i = 0; i < 4; i++)
        bytes[i] = (uint8_t)(bits >> (24 - 8 * i));
}

/* A character that was heard. */
typedef struct hart_char {
    uint8_t byte;
    uint8_t faults; /* 0, or fault bits: 0x40 vertical parity, 0x20 overrun, 0x10 framing, 0x02 buffer overflow */
} hart_char;

/* The result of a search. */
typedef struct hart_search {
    hart_size used;  /* how many elements are used up; pass the elements after them again, followed by new elements */
    hart_size count; /* how many frames were found: frames[0] to frames[count - 1]; later elements of `frames` are unchanged */
    uint8_t fault;   /* HART_OK, or why nothing was done */
} hart_search;

/* Finds the next frames in bytes without faults, at most `frames_len` frames. `ended` says that no more bytes will come.
 * Returns how many bytes are used up. Pass the bytes after them again, followed by new bytes. Offsets count from the first byte that is
 * passed. If `frames` has room for more frames, the call leaves at most 268 bytes unused, and none if `ended` is true. Repeated calls find
 * exactly the frames of the whole input, however the input is divided. A buffer of 269 bytes is enough. Faults: none. */
hart_search hart_find_in_bytes(const uint8_t *bytes, hart_size bytes_len, bool ended, hart_frame *frames, hart_size frames_len);

/* Like hart_find_in_bytes, for characters with fault bits. Fault: HART_BAD_FAULT_BITS, and then nothing is found or used up. */
hart_search hart_find(const hart_char *heard, hart_size heard_len, bool ended, hart_frame *frames, hart_size frames_len);

/* The result of hart_unmark. */
typedef struct hart_unmarked {
    hart_size used; /* how many bytes are used up; pass the bytes after them again, followed by new ones */
    hart_size len;  /* how many characters were written */
} hart_unmarked;

/* Reads what a POSIX port delivers with INPCK and PARMRK and without ISTRIP, and writes its characters to the front of `heard`, as far as
 * there is room: FF 00 x is the byte x with a receive error, faults 0x40; FF before any other byte is left out, so FF FF is FF. An
 * incomplete mark at the end, FF or FF 00, is not used up. Faults: none. */
hart_unmarked hart_unmark(const uint8_t *bytes, hart_size bytes_len, hart_char *heard, hart_size heard_len);

/* The number of bytes that were written or read. */
typedef struct hart_outcome {
    hart_size len; /* 0 if there is a fault */
    uint8_t fault; /* HART_OK, or why nothing was done */
} hart_outcome;

/* Reads the frame whose body is at the front of `bytes`; other bytes may follow. Returns the length of the body.
 * Faults, in the order of the bytes: HART_TRUNCATED (no bytes), HART_BAD_DELIMITER, HART_TRUNCATED (before the byte count),
 * HART_SHORT_REPLY, HART_TRUNCATED (before the check byte), HART_BAD_CHECK. */
hart_outcome hart_decode(const uint8_t *bytes, hart_size bytes_len, hart_frame *frame);

/* Writes a frame as a message to the front of `output`: `preambles` preamble bytes, then the body. Returns the length; 287 bytes are
 * enough for any message. Ignores `start`, `stop` and the fields of the unused kind of address.
 * Faults: HART_BAD_ADDRESS, HART_LONG_EXPANSION, HART_TOO_SHORT_REPLY, HART_BAD_PREAMBLE, HART_NO_ROOM. */
hart_outcome hart_encode(const hart_frame *frame, uint8_t preambles, uint8_t *output, hart_size output_len);

/* Returns the check byte of some bytes: their exclusive or. */
uint8_t hart_check_byte(const uint8_t *bytes, hart_size bytes_len);

/* The kinds of fields, and their numbers of bytes. Numbers and floats have the most significant byte first. */
enum {
    HART_BYTES = 0,       /* plain bytes, at least one: an id, flags, a status, codes of device variables, a time stamp */
    HART_NUMBER = 1,      /* a number or a code of one or two bytes */
    HART_PACKED_TEXT = 2, /* packed text in 6, 12 or 24 bytes, four characters in three bytes */
    HART_DATE = 3,        /* a date in three bytes: the day, the month, the year minus 1900 */
    HART_FLOAT = 4,       /* a floating point number of IEEE 754 in four bytes */
    HART_VARIABLES = 5,   /* one to eight device variables of eight bytes each: code, classification, unit, value in four bytes, status */
    HART_LATIN_TEXT = 6,  /* a long tag: 32 characters of ISO Latin-1, one in each byte */
    HART_UNIT_CODE = 7    /* the code of a unit in one byte (HCF_SPEC-183, table 2) */
};

/* A field of data: its offset and length in what was passed, and its kind. */
typedef struct hart_field {
    uint8_t start; /* the offset of the field's first byte, from 0 */
    uint8_t len;   /* how many bytes the field has */
    uint8_t kind;  /* HART_BYTES to HART_UNIT_CODE */
} hart_field;

/* The result of reading the data of a message. */
typedef struct hart_reading {
    hart_size count; /* how many fields there are, even if `fields` has room for fewer; elements without a field are unchanged */
    hart_size taken; /* how many bytes are taken, status bytes included; unless the data are refused, later bytes are ignored */
    uint8_t code;    /* for a reply its response code; for a request the response code that refuses it, or 0 */
    uint8_t status;  /* for a reply its device status; for a request 0 */
    uint8_t fault;   /* HART_OK, or why nothing was read; all other numbers are then 0, and a `code` of 0 does not mean success */
} hart_reading;

/* Reads the data of a request of this command, and writes its fields; 16 elements are enough for any data. A refused request has no fields,
 * and no bytes are taken. Its code is the first of these that applies: 64 for an unknown command, 5 for too few bytes, 2 for Command 6 with
 * an address above 63, 12 for Command 6 with a mode above 1, 9 for Command 18 with a bad date. Faults: none.
 * To fill in data, pass 255 zeros: the fields then say where each value goes, and `taken` how long the data are. */
hart_reading hart_read_request(uint8_t command, const uint8_t *data, hart_size data_len, hart_field *fields, hart_size fields_len);

/* Reads the payload of a reply to this command, status bytes first, and writes its fields; the first field starts at offset 2.
 * A reply with a code other than 0 has no fields. Fault: HART_NO_REPLY if the payload has fewer than two bytes, bit 7 of the first byte is
 * set, the command is unknown, or the code is 0 and the data do not fit the command. */
hart_reading hart_read_reply(uint8_t command, const uint8_t *payload, hart_size payload_len, hart_field *fields, hart_size fields_len);

/* Packs a text into all bytes of `packed`, which has 6, 12 or 24 bytes: four characters in three bytes. Fills the text up with spaces to
 * 8, 16 or 32 characters. Returns packed_len. Faults: HART_BAD_LENGTH (of `packed`), HART_TOO_LONG, HART_BAD_CHARACTER (outside 0x20 to
 * 0x5F, such as lower case). */
hart_outcome hart_pack_text(const uint8_t *text, hart_size text_len, uint8_t *packed, hart_size packed_len);

/* Writes the 8, 16 or 32 characters of packed text to the front of `text`, without a final 0. Returns their number.
 * Faults: HART_BAD_LENGTH (of `packed`), HART_NO_ROOM. */
hart_outcome hart_unpack_text(const uint8_t *packed, hart_size packed_len, uint8_t *text, hart_size text_len);

/* Writes the name of a command to the front of `output`, without a final 0. Returns its length; 64 bytes are enough for any name.
 * Faults: HART_UNKNOWN, HART_NO_ROOM. */
hart_outcome hart_command_name(uint8_t command, uint8_t *output, hart_size output_len);

/* Writes the name of a field, without a final 0. hart_read_reply or hart_read_request writes this field at `index`. Returns its length.
 * Faults: HART_UNKNOWN if there is no such command or field, HART_NO_ROOM. */
hart_outcome hart_field_name(bool is_reply, uint8_t command, hart_size index, uint8_t *output, hart_size output_len);

/* The next four calls write a name, too, without a final 0, and return its length; 64 bytes are enough for any name. They write the names
 * that the program `hart explain` shows. Faults: HART_UNKNOWN if there is no name, HART_NO_ROOM. */

/* The name of a unit, such as "degrees Celsius" for 32. A code that means different units in different classes of variables has no name. */
hart_outcome hart_unit_name(uint8_t unit, uint8_t *output, hart_size output_len);

/* The name of a response code of a command, such as "invalid date" for code 9 of Command 18. The code is payload[0] of a reply, if bit 0x80
 * of this byte is clear. */
hart_outcome hart_code_name(uint8_t command, uint8_t code, uint8_t *output, hart_size output_len);

/* The name of a bit of the device status: 0x80, 0x40, and so on to 0x01. The status is payload[1] of a reply with a response code. */
hart_outcome hart_status_name(uint8_t bit, uint8_t *output, hart_size output_len);

/* The name of a communication fault: bit 0x40, 0x20, 0x10, 0x08 or 0x02 of payload[0] of a reply, if bit 0x80 of this byte is set. */
hart_outcome hart_comm_fault_name(uint8_t bit, uint8_t *output, hart_size output_len);

/* The styles of explanations, and their greatest length. */
enum {
    HART_WORDS = 0,            /* in words: a line for the header, and a line for each thing that the message says */
    HART_JSON = 1,             /* one object of JSON in one line, as docs/explain.schema.json says, without `preambles` */
    HART_EXPLAINED_LEN = 16384 /* room for the explanation of any message */
};

/* Writes what a message means to the front of `output`, without a final 0, and returns its length. These are the lines that the program
 * `hart explain` writes of this message if it hears no other one: in JSON a request has `sending` 1, and a reply `answers` null. Only
 * `preambles` is left out. The last byte is a line feed. The places are `start` and `stop` of the frame.
 * Faults: HART_BAD_ADDRESS, HART_LONG_EXPANSION, HART_TOO_SHORT_REPLY, HART_BAD_STYLE, HART_NO_ROOM. */
hart_outcome hart_explain(uint8_t style, const hart_frame *frame, uint8_t *output, hart_size output_len);

/* Devices. Each call of hart_hear gets the identity of the device and its process values. The caller keeps the state of the device in a
 * hart_device, which can be stored as bytes. A float is four bytes, the most significant first. docs/COMMANDS.md names each field. */

/* The identity of a device. */
typedef struct hart_identity {
    uint32_t device_id;                  /* at most 0xFFFFFF */
    uint16_t expanded_device_type;       /* its lower 14 bits are in the unique address */
    uint16_t manufacturer;
    uint16_t private_label_distributor;
    uint8_t request_preambles;           /* the least number of preamble bytes of a request, 5 to 20 */
    uint8_t response_preambles;          /* the number of preamble bytes of a reply, 5 to 20 */
    uint8_t device_revision;
    uint8_t software_revision;
    uint8_t hardware_revision;           /* at most 31 */
    uint8_t signalling_code;             /* at most 7 */
    uint8_t flags;
    uint8_t device_variables;            /* the greatest number of device variables */
    uint8_t device_profile;
} hart_identity;

/* A dynamic variable. */
typedef struct hart_variable {
    uint8_t classification;
    uint8_t unit;
    uint8_t value[4]; /* a float */
    uint8_t status;
} hart_variable;

/* The sensor of a device, Command 14. Limits and span are floats. */
typedef struct hart_sensor {
    uint8_t serial_number[3];
    uint8_t unit; /* of the limits and of the span */
    uint8_t upper_limit[4];
    uint8_t lower_limit[4];
    uint8_t minimum_span[4];
} hart_sensor;

/* The loop current output, Command 15. Range values and damping are floats. */
typedef struct hart_output {
    uint8_t alarm_code;
    uint8_t transfer_function;
    uint8_t unit; /* of the range values */
    uint8_t upper_range_value[4];
    uint8_t lower_range_value[4];
    uint8_t damping[4]; /* in seconds */
    uint8_t channel_flags;
} hart_output;

/* The process values of a device: what it measures, and what it knows of its sensor and output. */
typedef struct hart_process {
    uint8_t loop_current[4];       /* in milliampere, a float */
    uint8_t percent_of_range[4];   /* a float */
    hart_variable variables[4];    /* the dynamic variables, primary first; the first variables_len elements count */
    uint8_t variables_len;         /* 1 to 4 */
    uint8_t time_stamp[4];         /* when the variables were measured */
    uint8_t status;                /* bits 0x80, 0x04, 0x02 and 0x01 of the device status; other bits are ignored */
    uint8_t additional_status[25]; /* byte 6, counted from 0, is the extended device status */
    hart_sensor sensor;
    hart_output output;
} hart_process;

/* The registers of a new device. */
typedef struct hart_registers {
    uint8_t polling_address;   /* at most 63 */
    uint8_t loop_current_mode; /* 1 if the loop current follows the process, 0 if it is held */
    uint8_t message[24];       /* packed text, like the tag and the descriptor */
    uint8_t tag[6];
    uint8_t descriptor[12];
    uint8_t date[3];           /* the day, the month and the year less 1900, or three zeros if the date is not set */
    uint8_t assembly[3];       /* the final assembly number */
    uint8_t long_tag[32];
} hart_registers;

/* The state of a device, in 89 bytes without padding. You can put in an image that `hart sim` has written, with both bools false. hart_hear
 * writes images of version 2. image[1] is the polling address, and image[2] is the loop current mode. Bit 0x04 of image[image_len - 1] is
 * write protection, which the caller may set and clear. hart_hear checks a stored image; the caller checks that both bools are 0 or 1. */
typedef struct hart_device {
    uint8_t image[86];        /* version 2 (86 bytes) or version 1 (54); the first image_len bytes count */
    uint8_t image_len;
    bool primary_cold_start;  /* the next reply with a response code to the primary master shows a cold start */
    bool secondary_cold_start;
} hart_device;

/* Write the identity, the process values and the initial registers of the bench device, which the program `hart` simulates. */
void hart_bench_identity(hart_identity *identity);
void hart_bench_process(hart_process *process);
void hart_bench_registers(hart_registers *registers);

/* Makes a new device with these registers, counter 0 and all bits clear. Returns the length of its image, 86.
 * Fault: HART_BAD_FIELD for a polling address above 63, a loop current mode above 1 or a bad date. */
hart_outcome hart_new_device(const hart_registers *registers, hart_device *device);

/* Records that the device was without power: sets both cold start bits, and nothing else. */
void hart_restart(hart_device *device);

/* Lets a device hear a delivery, which is all that came between two silences. Writes the reply, a whole message, to the front of `reply`,
 * and updates the device. Returns the length of the reply, or 0 if the device is silent; 287 bytes are enough for any reply. A damaged
 * request gets a reply with communication faults if its delimiter and its unique address are intact and no character is missing.
 * Faults: HART_OUT_OF_RANGE, HART_BROADCAST_ADDRESS; HART_BAD_LENGTH (0 or above 86), HART_BAD_VERSION, HART_BAD_LENGTH, HART_BAD_FIELD;
 * HART_BAD_VARIABLES; HART_BAD_FAULT_BITS, HART_TOO_LONG (then send nothing); HART_NO_ROOM. A fault changes nothing. */
hart_outcome hart_hear(const hart_identity *identity, const hart_process *process, const hart_char *heard, hart_size heard_len,
                       hart_device *device, uint8_t *reply, hart_size reply_len);

/* The result of hart_hear_own. */
typedef struct hart_hearing {
    hart_size len; /* the length of the reply; 0 if the device is silent, if is_own is true, or if there is a fault */
    bool is_own;   /* true if `asked` is a request that the caller carries out */
    uint8_t fault; /* HART_OK, or why nothing was done */
} hart_hearing;

/* Like hart_hear, for a device that knows further commands: those in `own`. If the delivery is a request to the device's unique address
 * with such a command, which hart_command_name does not know, writes this request to `asked` and changes nothing else. The caller carries
 * it out, and calls hart_answer. Faults: those of hart_hear. */
hart_hearing hart_hear_own(const hart_identity *identity, const hart_process *process, const uint8_t *own, hart_size own_len,
                           const hart_char *heard, hart_size heard_len, hart_device *device, hart_frame *asked, uint8_t *reply,
                           hart_size reply_len);

/* Writes the reply to such a request, a whole message, to the front of `reply`: this response code, the device status for the asking
 * master, and at most 253 bytes of data. Updates the device: clears the cold start bit of this master and, if `is_write` is true, counts a
 * configuration change and sets the configuration-changed bits of both masters, also in this reply. Returns the length of the reply.
 * Faults: those of hart_hear for the identity, the device and the process; HART_BAD_ADDRESS, HART_LONG_EXPANSION, HART_TOO_SHORT_REPLY;
 * HART_NO_REQUEST (not a request that hart_hear_own hands out); HART_BAD_CODE; HART_TOO_LONG; HART_NO_ROOM. A fault changes nothing. */
hart_outcome hart_answer(const hart_identity *identity, const hart_process *process, const hart_frame *asked, uint8_t code, bool is_write,
                         const uint8_t *data, hart_size data_len, hart_device *device, uint8_t *reply, hart_size reply_len);

/* Why no reply was accepted. */
enum {
    HART_NO_REASON = 0,            /* a reply was accepted, or the call has a fault */
    HART_NO_FRAME = 1,             /* nothing that was heard is a frame */
    HART_SEVERAL_FRAMES = 2,       /* several frames were heard at once */
    HART_OTHER_FRAME = 3,          /* the frame answers another request, or it is no reply */
    HART_COMMUNICATION_FAULTS = 4, /* the device heard the request with communication faults: bit 0x80 of payload[0] is set */
    HART_UNFIT_DATA = 5            /* the data of the reply do not fit its command */
};

/* Whether a request was answered. */
typedef struct hart_acceptance {
    bool is_accepted; /* true if a reply to the request was accepted */
    uint8_t code;     /* the response code of the accepted reply, where 0 is success; also 0 if none was accepted */
    uint8_t status;   /* the device status of the accepted reply; 0 if none was accepted */
    uint8_t fault;    /* HART_OK, or why nothing was done */
    uint8_t reason;   /* why no reply was accepted, HART_NO_FRAME to HART_UNFIT_DATA; otherwise HART_NO_REASON */
} hart_acceptance;

/* Returns whether a master accepts a delivery as the reply to a request. If so, writes the frame of the reply to `reply`, which must not be
 * `request`. A reply with communication faults is not accepted; hart_find finds it. Faults: HART_BAD_ADDRESS, HART_LONG_EXPANSION,
 * HART_TOO_SHORT_REPLY; HART_NO_REQUEST (a reply, expansion bytes, the burst bit, or data that hart_read_request refuses);
 * HART_WRONG_ADDRESS (a command other than 0 at a polling address, or other than 11 and 21 by broadcast); HART_BAD_FAULT_BITS,
 * HART_TOO_LONG. */
hart_acceptance hart_accept(const hart_frame *request, const hart_char *heard, hart_size heard_len, hart_frame *reply);

/* Like hart_accept, for a frame that hart_find has found: whether this frame is the reply. The reason is never HART_NO_FRAME or
 * HART_SEVERAL_FRAMES. Faults: those of hart_accept for the request; then HART_BAD_ADDRESS, HART_LONG_EXPANSION, HART_TOO_SHORT_REPLY for
 * the frame. */
hart_acceptance hart_accept_frame(const hart_frame *request, const hart_frame *frame);

/* Whether a frame is a reply to a request. */
typedef struct hart_match {
    bool is_reply; /* true if the frame is a reply to the request */
    uint8_t fault; /* HART_OK, or why nothing was done */
} hart_match;

/* Returns whether a frame is a reply to a request of any command, known or not: an ACK without expansion bytes, with the request's master,
 * address and command. The payload is not read: payload[0] is a response code, or has bit 0x80 and communication faults. Faults: those of
 * hart_encode for the request's frame, HART_NO_REQUEST (a reply, expansion bytes or the burst bit), those of hart_encode for the frame. */
hart_match hart_matches(const hart_frame *request, const hart_frame *frame);

/* The unique address in a reply. */
typedef struct hart_unique {
    bool is_given;          /* true if the reply has a unique address; otherwise both numbers are 0 */
    uint16_t expanded_type; /* at most 0x3FFF */
    uint32_t device_id;     /* at most 0xFFFFFF */
} hart_unique;

/* Returns the unique address in the payload of a reply to Command 0, 11 or 21 with code 0; the payload begins with its status bytes. For
 * any other payload, or if the address is broadcast, no address is given. Faults: none. */
hart_unique hart_unique_of(uint8_t command, const uint8_t *payload, hart_size payload_len);

/* Masters. The caller keeps the state of a master in a hart_master, one for each line, decides when to send, and says how much time has
 * passed. A call changes nothing if it has a fault. */

/* What a master has in hand. */
enum {
    HART_IDLE = 0,     /* no request */
    HART_DUE = 1,      /* a request that is due to be sent, for the first time or again */
    HART_AWAITING = 2, /* a request that was sent, and whose reply is awaited */
    HART_ANSWERED = 3  /* a request that was answered: the master takes a new one, or hart_again repeats this one */
};

/* The state of a master. */
typedef struct hart_master {
    hart_frame request;  /* the request in hand; it does not count if `state` is HART_IDLE */
    uint8_t retries;     /* how often a request is sent again, at most 15 */
    uint8_t reply_limit; /* how many character times a reply is awaited, at least 1 */
    uint8_t state;       /* HART_IDLE to HART_ANSWERED */
    uint8_t sendings;    /* how often the request in hand was sent, at most retries + 1 */
    uint8_t waited;      /* in the state HART_AWAITING, the character times since the request was sent; 255 means 255 or more */
} hart_master;

/* What became of the request in hand. */
enum {
    HART_EVENT_NONE = 0,     /* nothing new */
    HART_EVENT_ANSWERED = 1, /* the frame is the reply; the state is then HART_ANSWERED */
    HART_EVENT_RETRY = 2,    /* the request is due again; the state is then HART_DUE */
    HART_EVENT_GIVEN_UP = 3  /* the request was sent retries + 1 times and is dropped; the state is then HART_IDLE */
};

/* The result of a call that may end a request. */
typedef struct hart_event {
    uint8_t event;    /* HART_EVENT_NONE to HART_EVENT_GIVEN_UP */
    uint8_t sendings; /* if the request was answered or given up, how often it was sent; otherwise 0 */
    uint8_t fault;    /* HART_OK, or why nothing was done */
} hart_event;

/* Makes a master with no request in hand. Returns HART_OK or the fault. Fault: HART_BAD_MASTER. */
uint8_t hart_new_master(uint8_t retries, uint8_t reply_limit, hart_master *master);

/* Takes in hand a request of any command, known or not. Returns HART_OK or the fault. Faults: HART_BAD_MASTER; HART_BAD_ADDRESS,
 * HART_LONG_EXPANSION, HART_TOO_SHORT_REPLY; HART_NO_REQUEST (a reply, expansion bytes or the burst bit); HART_PENDING (the state is
 * HART_DUE or HART_AWAITING); HART_WRONG_ADDRESS (a known command that may not be sent to this address). */
uint8_t hart_submit(const hart_frame *request, hart_master *master);

/* Writes the request that is due as a message to the front of `output`, and awaits the reply from then on. Returns the length of the
 * message, or 0 if no request is due; 287 bytes are enough. Faults: HART_BAD_MASTER, HART_BAD_PREAMBLE, HART_NO_ROOM. */
hart_outcome hart_send(uint8_t preambles, hart_master *master, uint8_t *output, hart_size output_len);

/* Receives a frame that was found. The event is HART_EVENT_ANSWERED if the frame is the awaited reply: hart_matches says so, bit 0x80 of
 * payload[0] is clear, and for a known command hart_read_reply can read the payload. Faults: HART_BAD_MASTER; HART_BAD_ADDRESS,
 * HART_LONG_EXPANSION, HART_TOO_SHORT_REPLY. */
hart_event hart_receive(const hart_frame *frame, hart_master *master);

/* Lets character times of silence pass, 9.167 ms each at 1,200 bits a second; 255 means 255 or more. Count none while characters come in,
 * since a reply can be longer than reply_limit. If a reply is awaited and reply_limit character times have passed since the request was
 * sent, the event is HART_EVENT_RETRY or HART_EVENT_GIVEN_UP. Fault: HART_BAD_MASTER. */
hart_event hart_tick(uint8_t character_times, hart_master *master);

/* Ends the wait for a reply at once, or repeats a request that was answered, as after communication faults or response code 32 (busy):
 * HART_EVENT_RETRY or HART_EVENT_GIVEN_UP. In the states HART_IDLE and HART_DUE nothing changes. Fault: HART_BAD_MASTER. */
hart_event hart_again(hart_master *master);

#ifdef __cplusplus
}
#endif

#endif
