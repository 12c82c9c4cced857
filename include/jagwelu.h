/*
 * The schedule unit of an output-controlled inverter: what firmware calls.
 *
 * The caller holds everything: the unit (struct jag_unit), the store of JAG_STORE_LENGTH bytes, and every buffer. There is no hidden
 * state and no allocation. A call that may change the unit takes it and hands it back; the caller keeps what came back:
 *
 *     struct jag_done done = jag_tick(unit, second, store, sizeof store);
 *     unit = done.unit;
 *     if (done.cause != JAG_ACCEPTED) ...
 *
 * A question (due, ceiling, command, free blocks, check, request) is given a copy and hands back its answer alone: it changes nothing
 * of the unit, which stays with the caller.
 *
 * Every call may be given any values. A refusal is a number of document 01's table or of 02 (enum jag_cause; the lowest that applies,
 * where 17 stands before 7); unit, store and buffer are then as they were. Behind each call stand the numbers that it may refuse with, in the
 * order in which they are judged.
 *
 * Seconds count from 2000-01-01 00:00:00 Japanese time and end with 2099; slots are half hours of 1,800 seconds; months count from
 * January 2000 = 0. A digit is a byte of value 0 to 9, not ASCII, except in a name and in a request's segment; a MAC address is 12
 * ASCII characters, 0-9 or A-F.
 *
 * Buffers. A pointer comes with a length: so many bytes are the caller's, and are read or written in this call and no later. Any length
 * is taken, 0 too, and any alignment.
 * - A buffer that a call writes (`out`, and the store in jag_take_file and jag_take_response) must not overlap another buffer of the same
 *   call. Nothing tests for it, and nothing that is said here holds where they do: a body written over its own rates can come out as a
 *   lawful one, with rates that nobody gave. Buffers that are only read may overlap.
 * - With length 0 nothing is read or written through the pointer, and it may be null: null and 0 are an empty buffer, as for `next` of
 *   jag_write_body in a 201 or 202. With another length it must not be null.
 *
 * The library is compiled for x86-64 with the System V calling convention, as on Linux: a `size_t` has 8 bytes, and a number's least
 * byte stands first. A compiler for anything else is refused below.
 */
#ifndef JAGWELU_H
#define JAGWELU_H

#include <stddef.h>
#include <stdint.h>

#if !defined(__x86_64__) || defined(_WIN32)
#error "libjagwelu.a is compiled for x86-64 with the System V calling convention"
#endif

#ifdef __cplusplus
#define JAG_ASSERT(test, text) static_assert(test, text)
#else
#define JAG_ASSERT(test, text) _Static_assert(test, text)
#endif
JAG_ASSERT(sizeof(size_t) == 8, "libjagwelu.a is compiled for x86-64, where a size_t has 8 bytes");

#ifdef __cplusplus
extern "C" {
#endif

#define JAG_BLOCK_COUNT 16u
#define JAG_BLOCK_LENGTH 1488u
#define JAG_STORE_LENGTH (JAG_BLOCK_COUNT * JAG_BLOCK_LENGTH)
#define JAG_REQUEST_LENGTH 84u
#define JAG_NO_FLAG 10u

#define JAG_NAME_LENGTH 55u
/* The longest body that is taken, read or written: a 201 of 397 days. (A 202 has at most 1,549 bytes, a 203 412, a 301 33.) A longer
 * one is refused, and so are its first JAG_BODY_LENGTH + 1 bytes: more need not be kept of what comes in. */
#define JAG_BODY_LENGTH 19777u
/* The longest body that is not refused for its length: 13 records of 99,999 rates, refused with 10. No byte past JAG_FORM_LENGTH + 1
 * changes with which number a body is refused. */
#define JAG_FORM_LENGTH 1300708u

/* 0, or why a call was refused. */
enum jag_cause {
    JAG_ACCEPTED = 0,
    JAG_PLANT_ID = 1,      /* ID length, byte or check digit */
    JAG_SETTING = 2,       /* setting, MAC length or MAC byte out of range */
    JAG_STORE_SIZE = 3,    /* store not JAG_STORE_LENGTH bytes */
    JAG_UNSOUND = 4,       /* unit, or a lent store, not sound: overwritten, or never installed */
    JAG_CLOCK_UNSET = 5,
    JAG_RANGE = 6,         /* second, slot, status, writer's flag or record's index out of range */
    JAG_NAME = 7,          /* name or segment breaks its form, or a format that is not taken or written */
    JAG_OTHER_PLANT = 8,   /* the name's ID is not the plant's; read for no plant: its check digit is wrong */
    JAG_FORM = 9,          /* record count, digit, length */
    JAG_DATE = 10,         /* a date or a rate count */
    JAG_RATE = 11,         /* a rate above 100 */
    JAG_CHECKSUM = 12,
    JAG_RECORD_PLANT = 13, /* a record's plant ID is not the name's */
    JAG_FULL = 14,         /* more than 16 months would be held */
    JAG_BUFFER = 15,       /* output longer than the lent buffer */
    JAG_ERROR_FILE = 16,   /* error file breaks its form */
    JAG_RESPONSE = 17      /* response or boundary breaks its form; judged before 7 */
};

/* What an installer sets. Any values may be given, and none is cut: one that is out of its range is refused. */
struct jag_settings {
    uint64_t panel;       /* W, 1 to 2,000,000 */
    uint64_t inverter;    /* W, 1 to 2,000,000 */
    uint64_t minutes;     /* of a ramp over 100%, 5 to 10 */
};

/* The settings of these values. A setting that is added later gets here the value that units without it have. */
static inline struct jag_settings jag_settings_of(uint64_t panel, uint64_t inverter, uint64_t minutes) {
    struct jag_settings settings = {panel, inverter, minutes};
    return settings;
}

/* A unit: 128 bytes at a multiple of 8, of which the 2 before clock are padding. Made by jag_install; to be kept, not to be written to.
 * Padding, here and in the other structs, is not looked at and not kept: it may hold anything after a call, a refused one too. So units
 * are compared field by field, not by memcmp; of a unit that is saved and brought back the fields count. */
struct jag_unit {
    uint8_t id[26];
    uint8_t mac[12];
    uint8_t wanted_flag;  /* of the fixed schedule that is wanted, JAG_NO_FLAG where none */
    uint8_t held_flag;    /* of the fixed schedule that is held, JAG_NO_FLAG where none */
    uint8_t failures;     /* of the fixed request, 0 to 5 */
    uint8_t clock_set;    /* 0: the clock is unset, and then clock is 0; 1: it is at the second clock */
    uint16_t floor;       /* months below it are given up */
    uint16_t months[16];  /* month of each block that is not free */
    uint16_t free;        /* bit b is 1 where block b is free */
    uint32_t clock;
    uint32_t command;     /* parts; 6,000 * minutes of them are 100% */
    uint64_t fixed_at;    /* second from which the fixed schedule may be asked for again */
    uint64_t update_at;   /* second from which the update is due */
    struct jag_settings settings;
};

/* The unit after a call, and 0 or the cause of the refusal. */
struct jag_done {
    struct jag_unit unit;
    uint32_t cause;
};

/* cause 0: the value; else 0. */
struct jag_number {
    uint32_t cause;
    uint32_t value;
};

/* cause 0: the bytes written; else 0. */
struct jag_written {
    size_t length;
    uint32_t cause;
};

enum jag_due_kind { JAG_NOTHING = 0, JAG_UPDATE = 1, JAG_FIXED = 2 };

/* What is to be requested; flag is that of the fixed schedule, 0 where it is not that. The request's segment (002, 4.2) is `0000` for
 * JAG_UPDATE, and `999` with the flag's digit for JAG_FIXED. */
struct jag_due_answer {
    uint32_t cause;
    uint32_t kind;
    uint32_t flag;
};

/* has_rate 1: rate in percent of the lesser capacity, percent of the inverter's; else all 0 but the cause. */
struct jag_ceiling_answer {
    uint32_t cause;
    uint32_t has_rate;
    uint32_t rate;
    uint32_t percent;
};

/* What a file says: of all its records the count and the rates; of the first its start. 0 what the format does not have; all 0 but the cause
 * where refused. */
struct jag_file {
    uint32_t cause;
    uint32_t format;      /* 201 yearly, 202 monthly, 203 update, 301 registration */
    uint32_t segment;
    uint32_t records;
    uint32_t rates;
    uint32_t start;       /* slot */
    uint32_t flag;        /* 203 */
    uint32_t next_access; /* second, 203 */
    uint32_t result;      /* 301: 0 registered, 1 not */
};

/* An error file: its code, and where in the file its text stands. All 0 but the cause where refused. */
struct jag_error {
    size_t text_at;
    size_t text_length;
    uint32_t cause;
    uint32_t code;
};

/* Where in its body the fields of a record begin: schedule ID of 10 digits, plant ID of 26, start of 12, count rates, a flag digit,
 * checksum of 2 digits, next access of 14. A 201 or 202 has no flag and no next access: 0. All 0 but the cause where refused. */
struct jag_places {
    size_t schedule;
    size_t plant;
    size_t start;
    size_t rates;
    size_t count;
    size_t flag;
    size_t checksum;
    size_t next;
    uint32_t cause;
};

/* A fresh unit, or 1, 2 and a unit of which every call is refused with 3 or 4. The store needs no filling: it may hold anything. */
struct jag_done jag_install(const uint8_t *id, size_t id_length, const uint8_t *mac, size_t mac_length,
                            struct jag_settings settings);

/* The clock is at this second, whatever it was: 3, 4, 6. To be called each second while the clock is good; may jump. */
struct jag_done jag_tick(struct jag_unit unit, uint64_t second, const uint8_t *store, size_t store_length);

/* The clock is lost, and the command 0: 4. */
struct jag_done jag_clock_lost(struct jag_unit unit);

/* A file came in: 3, 4, 5, 7 to 14. This call and the next alone write to the store, which must overlap neither name nor body. */
struct jag_done jag_take_file(struct jag_unit unit, const uint8_t *name, size_t name_length, const uint8_t *body,
                              size_t body_length, uint8_t *store, size_t store_length);

/* A whole response came in, the body of the modem's HTTP response uncut (002, 4.2): 3, 4, 5, 17, 7 to 14. The boundary is that of the
 * response's Content-Type, 1 to 70 letters or digits, without the two hyphens. The file in the response is taken as jag_take_file takes
 * it, under the name behind `filename=`; so its cause 9 is a bad body in a good response. The store must overlap neither boundary nor
 * response. Beside its file the response of 002's figure 4.3 has 190 bytes; another server's may have more headers. */
struct jag_done jag_take_response(struct jag_unit unit, const uint8_t *boundary, size_t boundary_length,
                                  const uint8_t *response, size_t response_length, uint8_t *store, size_t store_length);

/* A request failed, with the HTTP status or 0 (link lost, or file refused): 4, 5, 6. */
struct jag_done jag_update_failed(struct jag_unit unit, uint64_t status);
struct jag_done jag_fixed_failed(struct jag_unit unit, uint64_t status);

/* What is to be requested now: 4, 5. */
struct jag_due_answer jag_due(struct jag_unit unit);

/* The ceiling of a slot: 3, 4, 5, 6. */
struct jag_ceiling_answer jag_ceiling(struct jag_unit unit, uint64_t slot, const uint8_t *store, size_t store_length);

/* The inverter's command in parts: 4. */
struct jag_number jag_command(struct jag_unit unit);

/* How many blocks are free: 4. */
struct jag_number jag_free_blocks(struct jag_unit unit);

/* 0 where unit and store are sound: 3, 4. */
uint32_t jag_check(struct jag_unit unit, const uint8_t *store, size_t store_length);

/* The request for a segment of four ASCII digits, JAG_REQUEST_LENGTH bytes: 4, 7, 15. Bytes of out past them stay. out must not overlap
 * the segment. */
struct jag_written jag_request(struct jag_unit unit, const uint8_t *segment, size_t segment_length, uint8_t *out,
                               size_t out_length);

/* A file by itself, for no plant: 7 to 13. */
struct jag_file jag_read(const uint8_t *name, size_t name_length, const uint8_t *body, size_t body_length);

/* A file for the plant of this ID, 26 digits, without a unit: 7 to 13. 8 is the name of another plant's file. So a registration (301),
 * which no unit takes, is read for the plant that asked for it. */
struct jag_file jag_read_for(const uint8_t *plant, size_t plant_length, const uint8_t *name, size_t name_length,
                             const uint8_t *body, size_t body_length);

/* A body taken apart. Where the fields of a record stand, the first record being 0: 6 for an index not below the format's record count
 * (201: 13; 202, 203 and 301: 1), 7 for a format that is not 201 to 203 (a number that is no format's, whatever the index), 9 for a body
 * that breaks its form; nothing else of the body is judged. */
struct jag_places jag_record(uint32_t format, const uint8_t *body, size_t body_length, size_t index);

/* The rates of all its records end to end, as jag_write_body takes them: 7, 9, 15. */
struct jag_written jag_copy_rates(uint32_t format, const uint8_t *body, size_t body_length, uint8_t *out,
                                  size_t out_length);

/* A body of format 201, 202 or 203, its rates end to end, at most JAG_BODY_LENGTH bytes: 1, 6, 7, 9, 10, 11, 15. Bytes of out past it
 * stay. For 201 and 202 next and flag are not looked at: next may be null with length 0. out must overlap none of the others, the rates
 * least of all. */
struct jag_written jag_write_body(uint32_t format, const uint8_t *plant, size_t plant_length, const uint8_t *schedule,
                                  size_t schedule_length, const uint8_t *start, size_t start_length,
                                  const uint8_t *next, size_t next_length, const uint8_t *rates, size_t rates_length,
                                  uint32_t flag, uint8_t *out, size_t out_length);

/* The code of an error file and the place of its text: 16. */
struct jag_error jag_error_file(const uint8_t *file, size_t file_length);

/* The layout is fixed; a compiler that lays it out otherwise is refused here. */
#define JAG_AT(type, field, place) JAG_ASSERT(offsetof(struct type, field) == (place), #type "." #field)
JAG_AT(jag_settings, panel, 0);
JAG_AT(jag_settings, inverter, 8);
JAG_AT(jag_settings, minutes, 16);
JAG_ASSERT(sizeof(struct jag_settings) == 24, "jag_settings");
JAG_AT(jag_unit, id, 0);
JAG_AT(jag_unit, mac, 26);
JAG_AT(jag_unit, wanted_flag, 38);
JAG_AT(jag_unit, held_flag, 39);
JAG_AT(jag_unit, failures, 40);
JAG_AT(jag_unit, clock_set, 41);
JAG_AT(jag_unit, floor, 42);
JAG_AT(jag_unit, months, 44);
JAG_AT(jag_unit, free, 76);
JAG_AT(jag_unit, clock, 80);
JAG_AT(jag_unit, command, 84);
JAG_AT(jag_unit, fixed_at, 88);
JAG_AT(jag_unit, update_at, 96);
JAG_AT(jag_unit, settings, 104);
JAG_ASSERT(sizeof(struct jag_unit) == 128, "jag_unit");
JAG_AT(jag_done, unit, 0);
JAG_AT(jag_done, cause, 128);
JAG_ASSERT(sizeof(struct jag_done) == 136, "jag_done");
JAG_AT(jag_number, cause, 0);
JAG_AT(jag_number, value, 4);
JAG_ASSERT(sizeof(struct jag_number) == 8, "jag_number");
JAG_AT(jag_written, length, 0);
JAG_AT(jag_written, cause, 8);
JAG_ASSERT(sizeof(struct jag_written) == 16, "jag_written");
JAG_AT(jag_due_answer, cause, 0);
JAG_AT(jag_due_answer, kind, 4);
JAG_AT(jag_due_answer, flag, 8);
JAG_ASSERT(sizeof(struct jag_due_answer) == 12, "jag_due_answer");
JAG_AT(jag_ceiling_answer, cause, 0);
JAG_AT(jag_ceiling_answer, has_rate, 4);
JAG_AT(jag_ceiling_answer, rate, 8);
JAG_AT(jag_ceiling_answer, percent, 12);
JAG_ASSERT(sizeof(struct jag_ceiling_answer) == 16, "jag_ceiling_answer");
JAG_AT(jag_file, cause, 0);
JAG_AT(jag_file, format, 4);
JAG_AT(jag_file, segment, 8);
JAG_AT(jag_file, records, 12);
JAG_AT(jag_file, rates, 16);
JAG_AT(jag_file, start, 20);
JAG_AT(jag_file, flag, 24);
JAG_AT(jag_file, next_access, 28);
JAG_AT(jag_file, result, 32);
JAG_ASSERT(sizeof(struct jag_file) == 36, "jag_file");
JAG_AT(jag_error, text_at, 0);
JAG_AT(jag_error, text_length, 8);
JAG_AT(jag_error, cause, 16);
JAG_AT(jag_error, code, 20);
JAG_ASSERT(sizeof(struct jag_error) == 24, "jag_error");
JAG_AT(jag_places, schedule, 0);
JAG_AT(jag_places, plant, 8);
JAG_AT(jag_places, start, 16);
JAG_AT(jag_places, rates, 24);
JAG_AT(jag_places, count, 32);
JAG_AT(jag_places, flag, 40);
JAG_AT(jag_places, checksum, 48);
JAG_AT(jag_places, next, 56);
JAG_AT(jag_places, cause, 64);
JAG_ASSERT(sizeof(struct jag_places) == 72, "jag_places");

#ifdef __cplusplus
}
#endif
#endif
