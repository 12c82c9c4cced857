/* What firmware does with the unit on one day: installs it, sets the clock, asks what is due, builds the request, takes files and whole
 * responses, ticks through the day second by second, and reads ceiling and command. The files are made by the library's own writer, in the
 * server's place.
 * Beside that every field of every struct that a call hands back is printed, with values that tell it from the others. */
#include "jagwelu.h"

#include <stdio.h>
#include <string.h>

#define DAY 86400u
#define SLOT 1800u
/* The first number that 32 bits do not hold. */
#define WIDE (1ull << 32)

/* 2026-03-27 00:00:00, day 9,582 from 2000-01-01. */
static const uint64_t MIDNIGHT = 9582ull * DAY;

static const uint8_t ID[26] = {1, 2, 3, 4, 5, 6, 7, 8, 9, 0, 1, 2, 3, 4, 5, 6, 7, 8, 9, 0, 1, 2, 3, 4, 5, 5};
static const uint8_t OTHER_ID[26] = {0, 0, 0, 0, 0, 0, 0, 0, 0, 0, 0, 0, 0, 0, 0, 0, 0, 0, 0, 0, 0, 0, 0, 0, 1, 9};
static const uint8_t MAC[12] = {'0', '0', '1', 'B', '2', 'C', '3', 'D', '4', 'E', '5', 'F'};

static const char UPDATE_NAME[] = "203_0000_12345678901234567890123455_20260327090000.data";
static const char YEAR_NAME[] = "201_9993_12345678901234567890123455_20260327233000.data";
static const char BOUNDARY[] = "BOUNDARY";
static const char REGISTRATION_NAME[] = "301_8888_12345678901234567890123455_20260327090000.data";

static uint8_t store[JAG_STORE_LENGTH];
static uint8_t body[JAG_BODY_LENGTH];
static uint8_t rates[13 * JAG_BLOCK_LENGTH];
/* With room for the headers of 002's figure 4.3. */
static uint8_t response[JAG_BODY_LENGTH + 200];

/* ASCII digits as the digits of a body. */
static void digits(const char *text, uint8_t *out) {
    for (size_t i = 0; text[i] != '\0'; i++) {
        out[i] = (uint8_t)(text[i] - '0');
    }
}

/* Writes a body into the first `room` bytes of `body`. Where there is no next access, it is null with length 0. */
static size_t write_body(uint32_t format, const char *start, const char *next, size_t count, uint32_t flag, size_t room) {
    uint8_t schedule[10], begins[12], again[14];
    digits("2603270001", schedule);
    digits(start, begins);
    if (next != NULL) {
        digits(next, again);
    }
    struct jag_written written = jag_write_body(format, ID, sizeof ID, schedule, sizeof schedule, begins, sizeof begins,
                                                next == NULL ? NULL : again, next == NULL ? 0 : sizeof again, rates, count,
                                                flag, body, room);
    printf("body of %u: length %zu, cause %u\n", format, written.length, written.cause);
    return written.length;
}

static void print_file(const char *what, struct jag_file file) {
    printf("%s: cause %u, format %u, segment %u, records %u, rates %u, start %u, flag %u, next access %u, result %u\n", what,
           file.cause, file.format, file.segment, file.records, file.rates, file.start, file.flag, file.next_access,
           file.result);
}

static struct jag_file read_file(const char *name, size_t length) {
    return jag_read((const uint8_t *)name, strlen(name), body, length);
}

static struct jag_file read_file_for(const uint8_t *plant, const char *name, size_t length) {
    return jag_read_for(plant, 26, (const uint8_t *)name, strlen(name), body, length);
}

static void print_error(const char *message) {
    struct jag_error error = jag_error_file((const uint8_t *)message, strlen(message));
    printf("error file: text at %zu, text length %zu, cause %u, code %u\n", error.text_at, error.text_length, error.cause,
           error.code);
}

static void print_number(const char *what, struct jag_number number) {
    printf("%s: cause %u, value %u\n", what, number.cause, number.value);
}

static void print_ceiling(const char *what, struct jag_ceiling_answer ceiling) {
    printf("%s: cause %u, has rate %u, rate %u, percent %u\n", what, ceiling.cause, ceiling.has_rate, ceiling.rate,
           ceiling.percent);
}

/* Every field of the unit; of a free block the month is open. */
static void print_unit(struct jag_unit unit) {
    printf("unit: id ");
    for (size_t i = 0; i < 26; i++) {
        printf("%u", unit.id[i]);
    }
    printf(", mac %.12s, w %u, h %u, k %u, clock set %u, floor %u, clock %u, command %u", (const char *)unit.mac,
           unit.wanted_flag, unit.held_flag, unit.failures, unit.clock_set, unit.floor, unit.clock, unit.command);
    printf(", f %llu, u %llu, panel %llu, inverter %llu, minutes %llu, months", (unsigned long long)unit.fixed_at,
           (unsigned long long)unit.update_at, (unsigned long long)unit.settings.panel,
           (unsigned long long)unit.settings.inverter, (unsigned long long)unit.settings.minutes);
    for (unsigned b = 0; b < JAG_BLOCK_COUNT; b++) {
        if ((unit.free >> b & 1) == 0) {
            printf(" %u:%u", unit.months[b], b);
        }
    }
    printf(", free %04x\n", unit.free);
}

/* Prints the time of day, and what is due; builds the request where something is. */
static void ask(struct jag_unit unit) {
    struct jag_due_answer due = jag_due(unit);
    uint32_t second = unit.clock % DAY;
    printf("%02u:%02u:%02u due: cause %u, kind %u, flag %u\n", second / 3600, second / 60 % 60, second % 60, due.cause, due.kind,
           due.flag);
    if (due.cause != JAG_ACCEPTED || due.kind == JAG_NOTHING) {
        return;
    }
    uint8_t segment[4] = {'0', '0', '0', '0'};
    if (due.kind == JAG_FIXED) {
        memcpy(segment, "999", 3);
        segment[3] = (uint8_t)('0' + due.flag);
    }
    uint8_t request[JAG_REQUEST_LENGTH];
    struct jag_written written = jag_request(unit, segment, sizeof segment, request, sizeof request);
    printf("         %.*s\n", (int)written.length, (const char *)request);
}

static void show(struct jag_unit unit) {
    uint32_t second = unit.clock % DAY;
    struct jag_ceiling_answer ceiling = jag_ceiling(unit, unit.clock / SLOT, store, sizeof store);
    struct jag_number command = jag_command(unit);
    printf("%02u:%02u:%02u ", second / 3600, second / 60 % 60, second % 60);
    if (ceiling.has_rate) {
        printf("ceiling: rate %u, %u%% of the inverter; ", ceiling.rate, ceiling.percent);
    } else {
        printf("ceiling: none; ");
    }
    printf("command %u parts\n", command.value);
}

static struct jag_unit take(struct jag_unit unit, const char *name, size_t length) {
    struct jag_done done = jag_take_file(unit, (const uint8_t *)name, strlen(name), body, length, store, sizeof store);
    struct jag_number free = jag_free_blocks(done.unit);
    printf("take %.8s: cause %u, %u blocks free\n", name, done.cause, free.value);
    return done.unit;
}

static int same(struct jag_unit a, struct jag_unit b) {
    return memcmp(a.id, b.id, 26) == 0 && memcmp(a.mac, b.mac, 12) == 0 && a.wanted_flag == b.wanted_flag
           && a.held_flag == b.held_flag && a.failures == b.failures && a.clock_set == b.clock_set && a.floor == b.floor
           && a.settings.panel == b.settings.panel && a.settings.inverter == b.settings.inverter
           && a.settings.minutes == b.settings.minutes && a.clock == b.clock && a.command == b.command && a.fixed_at == b.fixed_at && a.update_at == b.update_at
           && memcmp(a.months, b.months, sizeof a.months) == 0 && a.free == b.free;
}

/* The body of the server's HTTP response, as the modem hands it over: 002's figure 4.3 around the first `length` bytes of `body`. */
static size_t respond(const char *name, size_t length) {
    int head = snprintf((char *)response, sizeof response,
                        "--%s\r\nContent-Length: %zu\r\nContent-Type: application/octet-stream\r\n"
                        "Content-Disposition: attachment; filename=%s\r\n\r\n",
                        BOUNDARY, length, name);
    memcpy(response + head, body, length);
    int tail = snprintf((char *)response + head + length, sizeof response - (size_t)head - length, "\r\n--%s--", BOUNDARY);
    return (size_t)head + length + (size_t)tail;
}

static struct jag_done take_whole(struct jag_unit unit, const char *boundary, size_t length) {
    return jag_take_response(unit, (const uint8_t *)boundary, strlen(boundary), response, length, store, sizeof store);
}

/* The file comes in a response, and leaves what it leaves by itself. A response that is cut, or has another boundary, leaves nothing. */
static struct jag_unit take_response(struct jag_unit unit, const char *name, size_t length) {
    static uint8_t copy[sizeof store];
    memcpy(copy, store, sizeof store);
    struct jag_done filed = jag_take_file(unit, (const uint8_t *)name, strlen(name), body, length, copy, sizeof copy);
    size_t whole = respond(name, length);
    static uint8_t before[sizeof store];
    memcpy(before, store, sizeof store);
    struct jag_done cut = take_whole(unit, BOUNDARY, whole - 1);
    struct jag_done other = take_whole(unit, "boundary", whole);
    printf("response cut: cause %u, of another boundary: cause %u, all as it was %d\n", cut.cause, other.cause,
           same(cut.unit, unit) && same(other.unit, unit) && memcmp(store, before, sizeof store) == 0);
    struct jag_done done = take_whole(unit, BOUNDARY, whole);
    printf("take response of %zu bytes, %.8s: cause %u, %u blocks free, same as its file %d\n", whole, name, done.cause,
           jag_free_blocks(done.unit).value,
           done.cause == filed.cause && same(done.unit, filed.unit) && memcmp(store, copy, sizeof store) == 0);
    return done.unit;
}

/* One tick a second up to the given second of the day. */
static struct jag_unit run(struct jag_unit unit, uint64_t until) {
    while (unit.clock < MIDNIGHT + until) {
        struct jag_done done = jag_tick(unit, (uint64_t)unit.clock + 1, store, sizeof store);
        if (done.cause != JAG_ACCEPTED) {
            printf("tick: cause %u\n", done.cause);
            break;
        }
        unit = done.unit;
    }
    return unit;
}

/* Units that were overwritten: each call refuses them and hands back what came in. A setting whose low 32 bits are the old one is another. */
static void overwritten(struct jag_unit unit) {
    struct jag_unit mark = unit, unset = unit, floor = unit, wide = unit;
    mark.clock_set = 7;
    unset.clock_set = 0;
    floor.floor = 1200;
    wide.settings.inverter += WIDE;
    struct jag_unit spoilt[] = {mark, unset, floor, wide};
    for (size_t i = 0; i < 4; i++) {
        struct jag_done tick = jag_tick(spoilt[i], unit.clock, store, sizeof store);
        struct jag_done lost = jag_clock_lost(spoilt[i]);
        struct jag_done update = jag_update_failed(spoilt[i], 0);
        printf("overwritten: tick %u, lost %u, failed %u, check %u, short store %u, same %d\n", tick.cause, lost.cause,
               update.cause, jag_check(spoilt[i], store, sizeof store), jag_tick(spoilt[i], unit.clock, store, 5).cause,
               same(tick.unit, spoilt[i]) && same(lost.unit, spoilt[i]) && same(update.unit, spoilt[i]));
    }
}

/* Null with length 0 is an empty buffer, in every call. */
static void empty(struct jag_unit unit) {
    const uint8_t *name = (const uint8_t *)UPDATE_NAME;
    printf("empty: install %u, tick %u, take %u and %u, response %u and %u, ceiling %u, check %u, request %u and %u, "
           "read %u and %u, read for %u, write %u, error file %u, record %u, copy %u\n",
           jag_install(NULL, 0, NULL, 0, jag_settings_of(4000, 5500, 5)).cause, jag_tick(unit, unit.clock, NULL, 0).cause,
           jag_take_file(unit, NULL, 0, NULL, 0, NULL, 0).cause, jag_take_file(unit, name, 55, NULL, 0, store, sizeof store).cause,
           jag_take_response(unit, NULL, 0, NULL, 0, NULL, 0).cause, jag_take_response(unit, NULL, 0, NULL, 0, store, sizeof store).cause,
           jag_ceiling(unit, 0, NULL, 0).cause, jag_check(unit, NULL, 0), jag_request(unit, NULL, 0, NULL, 0).cause,
           jag_request(unit, (const uint8_t *)"0000", 4, NULL, 0).cause, jag_read(NULL, 0, NULL, 0).cause,
           jag_read(name, 55, NULL, 0).cause, jag_read_for(NULL, 0, name, 55, NULL, 0).cause,
           jag_write_body(203, NULL, 0, NULL, 0, NULL, 0, NULL, 0, NULL, 0, 0, NULL, 0).cause, jag_error_file(NULL, 0).cause,
           jag_record(203, NULL, 0, 0).cause, jag_copy_rates(203, NULL, 0, NULL, 0).cause);
}

/* The body taken apart, every place of its first record printed, and written again. A 201 has no flag and no next access: their places are 0. */
static void again(uint32_t format, size_t length) {
    static uint8_t parts[sizeof rates], copy[sizeof body];
    struct jag_places at = jag_record(format, body, length, 0);
    struct jag_written copied = jag_copy_rates(format, body, length, parts, sizeof parts);
    struct jag_written written = jag_write_body(format, body + at.plant, 26, body + at.schedule, 10, body + at.start, 12,
                                                body + at.next, 14, parts, copied.length, body[at.flag], copy, sizeof copy);
    printf("record 0 of %u: schedule %zu, plant %zu, start %zu, rates %zu, count %zu, flag %zu, checksum %zu, next %zu, cause %u\n", format,
           at.schedule, at.plant, at.start, at.rates, at.count, at.flag, at.checksum, at.next, at.cause);
    printf("its %zu rates copied: cause %u; written again: cause %u, same %d\n", copied.length, copied.cause, written.cause,
           written.length == length && memcmp(copy, body, length) == 0);
}

/* The longest body there is, a 201 from January 2028 on, fits its buffer, and a byte less is too little. It reads well for its plant alone. */
static void longest(void) {
    memset(rates, 1, sizeof rates);
    write_body(201, "202801010000", NULL, 397 * 48, 0, sizeof body - 1);
    size_t length = write_body(201, "202801010000", NULL, 397 * 48, 0, sizeof body);
    print_file("read", read_file(YEAR_NAME, length));
    print_file("read for its plant", read_file_for(ID, YEAR_NAME, length));
    print_file("read for another", read_file_for(OTHER_ID, YEAR_NAME, length));
    print_file("read a byte short", read_file(YEAR_NAME, length - 1));
}

/* A registration: read for the plant that it is for, refused with 8 for another, and not taken. */
static void registration(struct jag_unit unit) {
    digits("000001", body);
    memcpy(body + 6, ID, sizeof ID);
    body[32] = 1;
    print_file("registration", read_file(REGISTRATION_NAME, 33));
    print_file("registration for its plant", read_file_for(ID, REGISTRATION_NAME, 33));
    print_file("registration for another", read_file_for(OTHER_ID, REGISTRATION_NAME, 33));
    take(unit, REGISTRATION_NAME, 33);
}

/* From 09:00 to 11:30: an update is due and taken, and its rates are ramped to. */
static struct jag_unit morning(struct jag_unit unit) {
    static const uint64_t TIMES[] = {34199, 34200, 34500, 36000, 36087, 37800, 37812, 37836, 39600, 39660};
    unit = jag_tick(unit, MIDNIGHT + 9 * 3600, store, sizeof store).unit;
    ask(unit);
    rates[0] = 100, rates[1] = 40, rates[2] = 28;
    size_t length = write_body(203, "202603270930", "20260327113000", 3, 2, sizeof body);
    print_file("read", read_file(UPDATE_NAME, length));
    print_file("read for its plant", read_file_for(ID, UPDATE_NAME, length));
    again(203, length);
    unit = take(unit, UPDATE_NAME, length);
    ask(unit);
    for (size_t i = 0; i < sizeof TIMES / sizeof TIMES[0]; i++) {
        unit = run(unit, TIMES[i]);
        show(unit);
        if (TIMES[i] == 36000) {
            print_ceiling("ceiling", jag_ceiling(unit, unit.clock / SLOT, store, sizeof store));
            print_ceiling("ceiling of no slot", jag_ceiling(unit, 1753200, store, sizeof store));
            print_number("command", jag_command(unit));
            print_number("free blocks", jag_free_blocks(unit));
            print_unit(unit);
        }
    }
    return run(unit, 11 * 3600 + 30 * 60);
}

/* The link drops, and the update is asked for again. */
static struct jag_unit noon(struct jag_unit unit) {
    ask(unit);
    unit = jag_update_failed(unit, 0).unit;
    printf("link lost: update again after %llu seconds\n", (unsigned long long)(unit.update_at - unit.clock));
    ask(unit);
    unit = run(unit, 12 * 3600);
    ask(unit);
    unit = jag_update_failed(unit, 404).unit;
    printf("status 404: update again after %llu seconds\n", (unsigned long long)(unit.update_at - unit.clock));
    return unit;
}

/* The fixed schedule is due in the window, fails, and is taken, by its response; it is another than the wanted one, so that it is still due. */
static struct jag_unit night(struct jag_unit unit) {
    unit = run(unit, 23 * 3600 + 39 * 60 + 59);
    ask(unit);
    unit = run(unit, 23 * 3600 + 40 * 60);
    ask(unit);
    unit = jag_fixed_failed(unit, 503).unit;
    printf("status 503: failures %u\n", unit.failures);
    ask(unit);
    unit = run(unit, 23 * 3600 + 45 * 60);
    ask(unit);
    memset(rates, 55, sizeof rates);
    size_t length = write_body(201, "202604010000", NULL, 395 * 48, 0, sizeof body);
    again(201, length);
    printf("record 13 of 201: cause %u, of 301: cause %u\n", jag_record(201, body, length, 13).cause, jag_record(301, body, length, 0).cause);
    unit = take_response(unit, YEAR_NAME, length);
    for (int i = 0; i < 4; i++) {
        unit = jag_fixed_failed(unit, 0).unit;
    }
    print_unit(unit);
    body[60] = 101;
    unit = take_response(unit, YEAR_NAME, length);
    return take(unit, YEAR_NAME, length);
}

int main(void) {
    memset(store, 0xA5, sizeof store);
    struct jag_done refused = jag_install(ID, 25, MAC, sizeof MAC, jag_settings_of(4000, 5500, 5));
    printf("install with 25 digits: cause %u, then tick: cause %u\n", refused.cause,
           jag_tick(refused.unit, 0, store, sizeof store).cause);
    printf("install with a wide setting: cause %u, %u, %u\n",
           jag_install(ID, sizeof ID, MAC, sizeof MAC, jag_settings_of(WIDE + 4000, 5500, 5)).cause,
           jag_install(ID, sizeof ID, MAC, sizeof MAC, jag_settings_of(4000, WIDE + 5500, 5)).cause,
           jag_install(ID, sizeof ID, MAC, sizeof MAC, jag_settings_of(4000, 5500, WIDE + 5)).cause);
    struct jag_done installed = jag_install(ID, sizeof ID, MAC, sizeof MAC, jag_settings_of(4000, 5500, 5));
    struct jag_unit unit = installed.unit;
    printf("install: cause %u\n", installed.cause);
    print_unit(unit);
    ask(unit);
    unit = morning(unit);
    unit = noon(unit);
    unit = night(unit);
    registration(unit);
    longest();
    printf("status 200: cause %u\n", jag_fixed_failed(unit, 200).cause);
    printf("check: %u\n", jag_check(unit, store, sizeof store));
    overwritten(unit);
    empty(unit);
    print_error("E1001 busy");
    print_error("E2001 busy");
    unit = jag_clock_lost(unit).unit;
    print_number("clock lost, command", jag_command(unit));
    printf("response without a clock: cause %u\n", take_whole(unit, BOUNDARY, sizeof response).cause);
    ask(unit);
    return 0;
}
