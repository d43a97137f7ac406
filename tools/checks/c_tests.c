/* Tests of the library for C by its calls (tools/checks/try_c_tests.sh): answers, reports, and what is put into a room. The expected values
   were worked out by hand, from docs/formats.md and docs/c.md. It prints each comparison that failed, and `N passed, M failed` last.

   The three allocation functions of the library are here, so that an allocation can be refused. */
#include "strip122.h"

#include <stdbool.h>
#include <stdio.h>
#include <stdlib.h>
#include <string.h>

#define COUNT(array) (sizeof(array) / sizeof((array)[0]))

/* Every report begins with 9 in each field except its size. */
#define NINE_ENCODED {sizeof(strip122_encoded), 9, 9, 9, 9, 9, 9, 9, 9}
#define NINE_DECODED {sizeof(strip122_decoded), 9, 9, 9, 9, 9, 9, 9, 9, 9, 9, 9, 9, 9, {9, 9, 9, 9, 9, 9, 9, 9, 9, 9}}
#define NINE_LISTED {sizeof(strip122_listed), 9, 9, 9, 9}

/* ---- memory */

/* Whether there is a block, and where. */
typedef struct {
    bool ok;
    void *at;
} rattle_block;

rattle_block rattle_alloc(size_t size, size_t align);
rattle_block rattle_realloc(void *old, size_t kept, size_t size, size_t align);
void rattle_dealloc(void *at);

#define NEVER SIZE_MAX

static size_t until_refused = NEVER; /* the allocations that are still given, before one is refused */
static size_t in_use;                /* the blocks that were not given back */

static rattle_block block_at(void *at) {
    static char nothing;
    rattle_block block = {at != NULL, at != NULL ? at : &nothing};
    return block;
}

/* Whether the next allocation is refused; those after it are given. */
static bool is_refused(void) {
    if (until_refused == NEVER) {
        return false;
    }
    if (until_refused == 0) {
        until_refused = NEVER;
        return true;
    }
    until_refused--;
    return false;
}

rattle_block rattle_alloc(size_t size, size_t align) {
    rattle_block block = block_at(is_refused() ? NULL : malloc(size != 0 ? size : align));
    in_use += block.ok;
    return block;
}

rattle_block rattle_realloc(void *old, size_t kept, size_t size, size_t align) {
    (void)kept;
    return block_at(is_refused() ? NULL : realloc(old, size != 0 ? size : align));
}

void rattle_dealloc(void *at) {
    free(at);
    in_use--;
}

/* ---- comparisons */

static const char *test;
static bool is_passed;

static void compare(bool is_same, int line, const char *what, long long got, long long wanted) {
    if (!is_same) {
        printf("%s, line %d: %s is %lld, and not %lld\n", test, line, what, got, wanted);
        is_passed = false;
    }
}

#define EXPECT(got, wanted) compare((long long)(got) == (long long)(wanted), __LINE__, #got, (long long)(got), (long long)(wanted))

/* The first place of the octets from `first` on that does not hold a value, or their number. */
static size_t other_than(uint8_t value, const uint8_t *octets, size_t first, size_t count) {
    while (first < count && octets[first] == value) {
        first++;
    }
    return first;
}

/* ---- what the tests share */

#define COLUMNS 24u
#define LEAST_ROWS 17u
#define PIXELS (COLUMNS * LEAST_ROWS)
#define TALL 64u
#define TALL_PIXELS (COLUMNS * TALL)
#define ROOM 4000u

/* A setting for image 5, of 24 columns, in segments of 16 blocks. */
static strip122_setting setting_of(uint32_t rows, uint8_t depth) {
    strip122_setting setting = strip122_usual(COLUMNS, rows);
    setting.segment = 16;
    setting.image = 5;
    setting.depth = depth;
    return setting;
}

/* Packets that were encoded. */
typedef struct {
    uint8_t octets[ROOM];
    size_t count;
} packets;

/* Encodes a raster of which each value is 77, in one or two octets. */
static packets flat(const strip122_setting *setting) {
    static uint8_t raster[2 * TALL_PIXELS];
    static packets made;
    strip122_encoded report = NINE_ENCODED;
    size_t pixels = (size_t)setting->width * setting->rows;
    size_t each = setting->depth > 8 ? 2 : 1;
    for (size_t at = 0; at < pixels * each; at++) {
        raster[at] = (at + 1) % each == 0 ? 77 : 0;
    }
    memset(made.octets, 9, sizeof made.octets);
    EXPECT(strip122_encode(setting, raster, pixels * each, made.octets, ROOM, &report), STRIP122_DONE);
    made.count = report.octets < ROOM ? (size_t)report.octets : 0;
    EXPECT(made.count, report.octets);
    EXPECT(other_than(9, made.octets, made.count, ROOM), ROOM);
    return made;
}

/* The packets of a flat image of 64 rows, in two segments, which end at block 16 of 24 and at the last one. */
static packets two_segments(void) {
    strip122_setting setting = setting_of(TALL, 8);
    return flat(&setting);
}

static strip122_range places[2];

/* Decodes packets by the usual wish, with two places for ranges, each of which has 9 in both fields before. */
static strip122_answer decode(const packets *given, uint8_t *room, size_t size, strip122_decoded *report) {
    strip122_wish wish = strip122_usual_wish();
    for (size_t at = 0; at < COUNT(places); at++) {
        places[at].first = 9;
        places[at].last = 9;
    }
    return strip122_decode(&wish, given->octets, given->count, room, size, places, COUNT(places), report);
}

/* Expects a range at a place. */
static void expect_range(size_t at, uint32_t first, uint32_t last) {
    EXPECT(places[at].first, first);
    EXPECT(places[at].last, last);
}

/* Expects the geometry of a setting, and all of its rows. */
static void expect_geometry(const strip122_decoded *report, const strip122_setting *setting) {
    EXPECT(report->width, setting->width);
    EXPECT(report->rows, setting->rows);
    EXPECT(report->written, setting->rows);
    EXPECT(report->segment, setting->segment);
    EXPECT(report->image, setting->image);
    EXPECT(report->depth, setting->depth);
    EXPECT(report->is_signed, setting->is_signed);
    EXPECT(report->word, setting->word);
    EXPECT(memcmp(report->weights, setting->weights, sizeof report->weights), 0);
}

/* Lets the packet that begins there report the height last, and returns where the next one begins. */
static size_t report_last(packets *given, size_t at) {
    given->octets[at + 7] = 0x21;
    given->octets[at + 13] = 0;
    return at + 7 + 256u * given->octets[at + 4] + given->octets[at + 5];
}

/* ---- encode, and the rooms */

/* Expects this answer for a flat raster of 17 rows, and a report with the fields that apply to it. */
static void expect_raster(uint8_t depth, size_t octets, size_t size, strip122_answer answer) {
    uint8_t raster[PIXELS + 1], room[1000] = {0};
    strip122_setting setting = setting_of(LEAST_ROWS, depth);
    strip122_encoded report = NINE_ENCODED;
    memset(raster, 77, sizeof raster);
    EXPECT(strip122_encode(&setting, raster, octets, room, size, &report), answer);
    EXPECT(report.octets > 3, answer == STRIP122_DONE || answer == STRIP122_SMALL_ROOM);
    EXPECT(report.field, answer == STRIP122_OUT_OF_RANGE ? STRIP122_DEPTH : 0);
    EXPECT(report.value, answer == STRIP122_BAD_PIXEL ? 77 : 0);
    if (answer != STRIP122_DONE) {
        EXPECT(other_than(0, room, 0, sizeof room), sizeof room);
    }
}

static void rasters(void) {
    expect_raster(8, PIXELS, 1000, STRIP122_DONE);
    expect_raster(17, PIXELS, 1000, STRIP122_OUT_OF_RANGE);
    expect_raster(8, PIXELS - 1, 1000, STRIP122_SHORT);
    expect_raster(8, PIXELS + 1, 1000, STRIP122_LONG);
    expect_raster(6, PIXELS, 1000, STRIP122_BAD_PIXEL);
    expect_raster(8, PIXELS, 3, STRIP122_SMALL_ROOM);
}

/* Expects that no raster is encoded with this setting, because of this field. */
static void expect_field(const strip122_setting *setting, uint32_t field) {
    strip122_encoded report = NINE_ENCODED;
    EXPECT(strip122_encode(setting, NULL, 0, NULL, 0, &report), STRIP122_OUT_OF_RANGE);
    EXPECT(report.field, field);
}

/* Rows that are left open are refused by their number in the order of fields, so by the width first if that is out of range. */
static void open_rows(void) {
    strip122_setting setting = setting_of(0, 8), wide = strip122_usual(17, 0), narrow = strip122_usual(16, 0);
    expect_field(&setting, STRIP122_ROWS);
    expect_field(&wide, STRIP122_ROWS);
    expect_field(&narrow, STRIP122_WIDTH);
}

/* Expects that a raster with this setting is refused. */
static void expect_refused(const strip122_setting *setting, strip122_answer answer) {
    uint8_t raster[PIXELS], room[1000];
    strip122_encoded report = NINE_ENCODED;
    memset(raster, 77, sizeof raster);
    EXPECT(strip122_encode(setting, raster, sizeof raster, room, sizeof room, &report), answer);
    EXPECT(report.octets, 0);
}

static void structures(void) {
    strip122_setting wrong = setting_of(LEAST_ROWS, 8), no_book = wrong;
    EXPECT(sizeof(strip122_setting), 200);
    EXPECT(sizeof(strip122_encoded), 48);
    EXPECT(sizeof(strip122_wish), 176);
    EXPECT(sizeof(strip122_decoded), 72);
    EXPECT(sizeof(strip122_listed), 32);
    EXPECT(sizeof(strip122_range), 8);
    wrong.size = 196;
    expect_refused(&wrong, STRIP122_WRONG_SIZE);
    no_book.has_book = 1;
    expect_refused(&no_book, STRIP122_BAD_BOOK);
}

/* A segment of 16 blocks has at most 24 + 18,343 octets, in 19 packets of 1,000 octets of text: 18,937 octets with their headers. A block
   row has three blocks, so a row ends at most one segment, and the end has at most 12 blocks and the last segment. An image of 17 rows has
   nine blocks. */
static void rooms(void) {
    strip122_setting setting = setting_of(LEAST_ROWS, 8);
    EXPECT(strip122_row_room(&setting), 18937);
    EXPECT(strip122_end_room(&setting), 2 * 18937);
    EXPECT(strip122_bound(&setting), 18937);
}

/* ---- the encoder row by row */

static strip122_encoder encoder;

/* Expects this answer, and no octets, after this number of rows. */
static void expect_row(strip122_answer got, const strip122_encoded *report, strip122_answer answer, uint32_t rows) {
    EXPECT(got, answer);
    EXPECT(report->octets, 0);
    EXPECT(report->rows, rows);
}

/* Rows and ends after `new` was refused, with an encoder, and after it was freed. */
static void rows(void) {
    uint8_t row[COLUMNS], room[100];
    strip122_setting wrong = setting_of(0, 17), setting = setting_of(0, 8);
    strip122_encoded report = NINE_ENCODED;
    memset(row, 77, sizeof row);
    EXPECT(strip122_encoder_new(&encoder, &wrong, &report), STRIP122_OUT_OF_RANGE);
    EXPECT(report.field, STRIP122_DEPTH);
    expect_row(strip122_encoder_row(&encoder, row, sizeof row, room, sizeof room, &report), &report, STRIP122_NO_IMAGE, 0);
    expect_row(strip122_encoder_new(&encoder, &setting, &report), &report, STRIP122_DONE, 0);
    expect_row(strip122_encoder_row(&encoder, row, sizeof row, room, sizeof room, &report), &report, STRIP122_DONE, 1);
    expect_row(strip122_encoder_row(&encoder, row, sizeof row - 1, room, sizeof room, &report), &report, STRIP122_SHORT, 1);
    expect_row(strip122_encoder_end(&encoder, 1, room, sizeof room, &report), &report, STRIP122_UNFINISHED, 1);
    strip122_encoder_free(&encoder);
    expect_row(strip122_encoder_end(&encoder, 1, room, sizeof room, &report), &report, STRIP122_NO_IMAGE, 0);
    strip122_encoder_free(&encoder);
    EXPECT(in_use, 0);
}

/* ---- calls that read packets */

static void there_and_back(void) {
    for (uint8_t depth = 8; depth <= 12; depth = (uint8_t)(depth + 4)) {
        uint8_t back[900];
        strip122_setting setting = setting_of(LEAST_ROWS, depth);
        strip122_decoded report = NINE_DECODED;
        packets given = flat(&setting);
        size_t each = depth > 8 ? 2 : 1;
        memset(back, 7, sizeof back);
        EXPECT(decode(&given, back, sizeof back, &report), STRIP122_DONE);
        EXPECT(report.octets, each * PIXELS);
        for (size_t at = 0; at < each * PIXELS; at++) {
            EXPECT(back[at], (at + 1) % each == 0 ? 77 : 0);
        }
        EXPECT(other_than(7, back, each * PIXELS, sizeof back), sizeof back);
    }
}

static void small_rooms(void) {
    uint8_t raster[2 * PIXELS], back[815];
    strip122_setting setting = setting_of(LEAST_ROWS, 12);
    strip122_encoded encoded = NINE_ENCODED;
    strip122_decoded decoded = NINE_DECODED;
    packets given = flat(&setting);
    for (size_t at = 0; at < sizeof raster; at++) {
        raster[at] = at % 2 == 1 ? 77 : 0;
    }
    EXPECT(strip122_encode(&setting, raster, sizeof raster, NULL, 0, &encoded), STRIP122_SMALL_ROOM);
    EXPECT(encoded.octets, given.count);
    memset(back, 7, sizeof back);
    EXPECT(decode(&given, back, sizeof back, &decoded), STRIP122_SMALL_ROOM);
    EXPECT(decoded.octets, 816);
    expect_geometry(&decoded, &setting);
    EXPECT(other_than(7, back, 0, sizeof back), sizeof back);
}

/* If the height is reported last, it is found as well. */
static void a_height_reported_last(void) {
    uint8_t back[PIXELS];
    strip122_setting setting = setting_of(LEAST_ROWS, 8);
    strip122_decoded report = NINE_DECODED;
    packets given = flat(&setting);
    EXPECT(report_last(&given, 0), given.count);
    memset(back, 7, sizeof back);
    EXPECT(decode(&given, back, sizeof back, &report), STRIP122_DONE);
    expect_geometry(&report, &setting);
    EXPECT(other_than(77, back, 0, sizeof back), sizeof back);
    EXPECT(decode(&given, back, sizeof back - 1, &report), STRIP122_SMALL_ROOM);
    EXPECT(report.octets, 408);
    expect_geometry(&report, &setting);
}

/* A flat image of three times three blocks has this look. No block is missing, so there is no rectangle, and it is listed in one line. */
static void looks_and_lists(void) {
    static const char line[] = "apid 100 image 0 width 24 rows 17 depth 8 signed 0 segment 16 packets 1 octets ";
    uint8_t room[10], lines[200];
    strip122_setting setting = setting_of(LEAST_ROWS, 8);
    strip122_wish wish = strip122_usual_wish();
    strip122_decoded decoded = NINE_DECODED;
    strip122_listed listed = NINE_LISTED;
    packets given;
    setting.image = 0;
    given = flat(&setting);
    memset(room, 7, sizeof room);
    EXPECT(strip122_look(&wish, given.octets, given.count, room, sizeof room, NULL, 0, &decoded), STRIP122_DONE);
    EXPECT(decoded.octets, 9);
    EXPECT(other_than(77, room, 0, 9), 9);
    EXPECT(room[9], 7);
    EXPECT(strip122_rects(&wish, given.octets, given.count, room, sizeof room, NULL, 0, &decoded), STRIP122_DONE);
    EXPECT(decoded.octets, 0);
    wish.apid = STRIP122_EACH_APID;
    wish.octets = ROOM;
    EXPECT(strip122_info(&wish, given.octets, given.count, lines, sizeof lines, &listed), STRIP122_DONE);
    EXPECT(listed.images, 1);
    EXPECT(memcmp(lines, line, sizeof line - 1), 0);
}

/* Expects this answer by a wish, and this number of pixels that are too many. */
static void expect_wish(const strip122_wish *wish, size_t size, strip122_answer answer, uint64_t pixels) {
    uint8_t room[TALL_PIXELS];
    strip122_decoded report = NINE_DECODED;
    packets given = two_segments();
    EXPECT(strip122_decode(wish, given.octets, given.count, room, size, NULL, 0, &report), answer);
    EXPECT(report.pixels, pixels);
}

static void wishes(void) {
    strip122_wish usual = strip122_usual_wish(), few = usual, early = usual, wrong = usual, no_book = usual;
    few.pixels = TALL_PIXELS - 1;
    expect_wish(&few, TALL_PIXELS, STRIP122_TOO_MANY_PIXELS, 1536);
    expect_wish(&few, 0, STRIP122_TOO_MANY_PIXELS, 1536);
    early.octets = two_segments().count;
    expect_wish(&early, TALL_PIXELS, STRIP122_LONG_INPUT, 0);
    wrong.size = 164;
    expect_wish(&wrong, TALL_PIXELS, STRIP122_WRONG_SIZE, 0);
    no_book.has_book = 1;
    expect_wish(&no_book, TALL_PIXELS, STRIP122_BAD_BOOK, 0);
}

static void pictures(void) {
    uint8_t room[TALL_PIXELS] = {0};
    strip122_decoded report = NINE_DECODED;
    packets given = two_segments();
    EXPECT(decode(&given, room, sizeof room, &report), STRIP122_DONE);
    EXPECT(report.octets, 1536);
    EXPECT(report.ranges, 0);
    EXPECT(report.image, 5);
    expect_range(0, 9, 9);
    expect_range(1, 9, 9);
    EXPECT(other_than(77, room, 0, sizeof room), sizeof room);
}

/* The second segment's packet is cut. */
static void losses(void) {
    uint8_t room[TALL_PIXELS] = {0};
    strip122_decoded report = NINE_DECODED;
    packets given = two_segments();
    given.count--;
    EXPECT(decode(&given, room, sizeof room, &report), STRIP122_DAMAGED);
    EXPECT(report.ranges, 1);
    EXPECT(report.fault, 2);
    EXPECT(report.fault_octets, 1);
    expect_range(0, 19, 63);
    expect_range(1, 9, 9);
}

static void heights_reported_last(void) {
    uint8_t room[TALL_PIXELS] = {0};
    strip122_decoded report = NINE_DECODED;
    packets given = two_segments();
    size_t second = report_last(&given, 0);
    EXPECT(report_last(&given, second), given.count);
    EXPECT(decode(&given, room, sizeof room, &report), STRIP122_DONE);
    EXPECT(report.octets, 1536);
    EXPECT(report.ranges, 0);
    EXPECT(report.rows, TALL);
    EXPECT(report.written, TALL);
    EXPECT(other_than(77, room, 0, sizeof room), sizeof room);
    /* The first segment reaches five block rows, and these determine 19 rows. The height isn't known, so the answer is 1. */
    given.count = second;
    EXPECT(decode(&given, room, sizeof room, &report), STRIP122_DAMAGED);
    EXPECT(report.octets, 456);
    EXPECT(report.ranges, 0);
    EXPECT(report.rows, 0);
    EXPECT(report.written, 19);
    EXPECT(report.fault, 0);
    expect_range(0, 9, 9);
    expect_range(1, 9, 9);
    EXPECT(decode(&given, NULL, 0, &report), STRIP122_SMALL_ROOM);
    EXPECT(report.octets, 456);
    EXPECT(report.rows, 0);
    EXPECT(report.written, 19);
}

static void refusals(void) {
    strip122_decoded report = NINE_DECODED;
    packets given = two_segments(), none = {"no packets", 10};
    EXPECT(decode(&given, NULL, 0, &report), STRIP122_SMALL_ROOM);
    EXPECT(report.octets, 1536);
    EXPECT(report.width, 24);
    EXPECT(report.rows, TALL);
    EXPECT(report.written, TALL);
    EXPECT(decode(&none, NULL, 0, &report), STRIP122_NO_SEGMENT);
    EXPECT(report.octets, 0);
}

/* ---- restored coefficients */

/* Expects `count` values of a look of 16 bits from a place on, and returns the place after them. */
static size_t expect_values(const uint8_t *room, size_t first, size_t count, long long value) {
    for (size_t at = first; at < first + count; at++) {
        EXPECT(256 * room[2 * at] + room[2 * at + 1], value);
    }
    return first + count;
}

/* Each pixel is 40000, so each DC is 8 * 40000 = 312 * 2^10 + 2^9, and q is 10. The limit cuts the first segment after 15 bits of plane 9:
   these DCs are given whole, and get 2^8 of 2^9 if they are restored; the other 49 are 312 * 2^10, and get 2^9. It cuts the second one after
   6 bits of plane 3, the last one: these DCs are given, and the other 5 get 2^3 of 2^4. A look has an eighth of each. */
static void restored(void) {
    static uint8_t raster[2 * 17 * 200];
    uint8_t given[200], room[150];
    strip122_setting setting = strip122_usual(17, 200);
    strip122_encoded report = NINE_ENCODED;
    strip122_wish wish = strip122_usual_wish();
    setting.depth = 16;
    setting.limit = 32;
    for (size_t at = 0; at < sizeof raster; at += 2) {
        raster[at] = 40000 / 256;
        raster[at + 1] = 40000 % 256;
    }
    EXPECT(strip122_encode(&setting, raster, sizeof raster, given, sizeof given, &report), STRIP122_DONE);
    EXPECT(report.octets, 2 * (30 + 32));
    for (wish.restore = 0; wish.restore < 2; wish.restore++) {
        strip122_decoded decoded = NINE_DECODED;
        size_t at = 0;
        EXPECT(strip122_look(&wish, given, 124, room, sizeof room, NULL, 0, &decoded), STRIP122_DONE);
        EXPECT(decoded.octets, sizeof room);
        at = expect_values(room, at, 15, wish.restore != 0 ? 40032 : 40000);
        at = expect_values(room, at, 49, wish.restore != 0 ? 40000 : 39936);
        at = expect_values(room, at, 6, 40000);
        expect_values(room, at, 5, wish.restore != 0 ? 40001 : 40000);
    }
}

/* ---- allocations that are refused */

static uint8_t given_room[ROOM];
static packets sample;

static strip122_answer call_new(void) {
    strip122_encoded report = NINE_ENCODED;
    strip122_setting setting = setting_of(TALL, 8);
    strip122_answer answer = strip122_encoder_new(&encoder, &setting, &report);
    strip122_encoder_free(&encoder);
    return answer;
}

static strip122_answer call_encode(void) {
    uint8_t raster[TALL_PIXELS];
    strip122_encoded report = NINE_ENCODED;
    strip122_setting setting = setting_of(TALL, 8);
    memset(raster, 77, sizeof raster);
    return strip122_encode(&setting, raster, sizeof raster, given_room, ROOM, &report);
}

static strip122_answer call_decode(void) {
    strip122_decoded report = NINE_DECODED;
    return decode(&sample, given_room, ROOM, &report);
}

static strip122_answer call_look(void) {
    strip122_wish wish = strip122_usual_wish();
    strip122_decoded report = NINE_DECODED;
    return strip122_look(&wish, sample.octets, sample.count, given_room, ROOM, NULL, 0, &report);
}

static strip122_answer call_rects(void) {
    strip122_wish wish = strip122_usual_wish();
    strip122_decoded report = NINE_DECODED;
    return strip122_rects(&wish, sample.octets, sample.count, given_room, ROOM, NULL, 0, &report);
}

static strip122_answer call_info(void) {
    strip122_wish wish = strip122_usual_wish();
    strip122_listed report = NINE_LISTED;
    return strip122_info(&wish, sample.octets, sample.count, given_room, ROOM, &report);
}

/* Each allocation of a call is refused in turn: the answer is 8, the room is as it was, and each block is given back. */
static void expect_no_memory(strip122_answer (*call)(void), strip122_answer otherwise) {
    strip122_answer answer;
    size_t count = 0;
    for (;; count++) {
        memset(given_room, 9, ROOM);
        until_refused = count;
        answer = call();
        EXPECT(in_use, 0);
        if (until_refused != NEVER) {
            break;
        }
        EXPECT(answer, STRIP122_NO_MEMORY);
        EXPECT(other_than(9, given_room, 0, ROOM), ROOM);
    }
    until_refused = NEVER;
    EXPECT(answer, otherwise);
    EXPECT(count > 0, 1);
}

static void refused_memory(void) {
    sample = two_segments();
    sample.count--;
    expect_no_memory(call_new, STRIP122_DONE);
    expect_no_memory(call_encode, STRIP122_DONE);
    expect_no_memory(call_decode, STRIP122_DAMAGED);
    expect_no_memory(call_look, STRIP122_DAMAGED);
    expect_no_memory(call_rects, STRIP122_DAMAGED);
    expect_no_memory(call_info, STRIP122_DAMAGED);
}

static const struct {
    const char *name;
    void (*run)(void);
} tests[] = {
    {"rasters", rasters},
    {"open_rows", open_rows},
    {"structures", structures},
    {"rooms", rooms},
    {"rows", rows},
    {"there_and_back", there_and_back},
    {"small_rooms", small_rooms},
    {"a_height_reported_last", a_height_reported_last},
    {"looks_and_lists", looks_and_lists},
    {"wishes", wishes},
    {"pictures", pictures},
    {"losses", losses},
    {"heights_reported_last", heights_reported_last},
    {"refusals", refusals},
    {"restored", restored},
    {"refused_memory", refused_memory},
};

int main(void) {
    size_t passed = 0;
    for (size_t at = 0; at < COUNT(tests); at++) {
        test = tests[at].name;
        is_passed = true;
        tests[at].run();
        passed += is_passed;
    }
    printf("%zu passed, %zu failed\n", passed, COUNT(tests) - passed);
    return passed == COUNT(tests) ? 0 : 1;
}
