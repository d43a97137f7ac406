/* Calls the library for C as an input says (tools/fuzz_c.sh), and stops if a call breaks the rules of strip122.h. */
#include "strip122.h"

#include <stdlib.h>
#include <string.h>

#define WIDEST 256u
#define ROOM (1u << 16)

static strip122_encoder encoder;

/* The octets of an input that are left. */
typedef struct {
    const uint8_t *at;
    size_t left;
} input;

static uint32_t take(input *in, unsigned octets) {
    uint32_t value = 0;
    while (octets-- > 0 && in->left > 0) {
        value = value << 8 | *in->at++;
        in->left--;
    }
    return value;
}

static void demand(int holds) {
    if (!holds) {
        abort();
    }
}

/* A setting, often in range. */
static strip122_setting setting_of(input *in) {
    strip122_setting s = strip122_usual(take(in, 1), take(in, 1));
    uint32_t flags = take(in, 1);
    s.depth = (uint8_t)(flags & 1 ? 8 : take(in, 1));
    s.segment = flags & 2 ? 16 : take(in, 1);
    s.limit = flags & 4 ? 0 : take(in, 2);
    s.packet = flags & 8 ? 64 : take(in, 3);
    s.total = flags & 16 ? 0 : take(in, 3);
    s.fill = flags >> 5 & 1;
    s.optimal = flags >> 6 & 1;
    s.is_signed = flags >> 7;
    s.word = (uint8_t)take(in, 1);
    s.stop_plane = (uint8_t)take(in, 1);
    s.stop_dc = take(in, 1) & 1;
    s.has_book = take(in, 1) == 1;
    return s;
}

/* A room of exactly `size` octets, each of which is 0xA5, and whether they still are behind the first ones. */
static uint8_t *room_of(size_t size) {
    uint8_t *room = malloc(size + 1);
    demand(room != NULL);
    memset(room, 0xA5, size);
    return room;
}

static int is_painted(const uint8_t *room, uint64_t from, size_t size) {
    for (uint64_t at = from; at < size; at++) {
        if (room[at] != 0xA5) {
            return 0;
        }
    }
    return 1;
}

static void try_rows(input *in) {
    strip122_setting s = setting_of(in);
    strip122_encoded report = STRIP122_ENCODED;
    strip122_answer answer = strip122_encoder_new(&encoder, &s, &report);
    size_t octets = (size_t)s.width * (s.depth > 8 ? 2u : 1u);
    uint32_t rows = 0;
    uint64_t all = 0;
    demand(answer == 0 || answer == 2 || answer == 8 || answer == 12);
    demand(answer != 2 || report.field != 0);
    for (unsigned calls = 0; in->left > 0 && calls < 2000; calls++) {
        int ends = take(in, 1) == 0;
        size_t size = take(in, 1) == 0 ? take(in, 3) % ROOM : (size_t)strip122_end_room(&s);
        size = size > 1u << 24 ? 1u << 24 : size;
        uint8_t row[2 * WIDEST], *room = room_of(size);
        memset(row, (int)take(in, 1), sizeof row);
        size_t given = take(in, 1) == 1 ? take(in, 2) % sizeof row : octets;
        strip122_answer got = ends ? strip122_encoder_end(&encoder, 1, room, size, &report)
                                   : strip122_encoder_row(&encoder, row, given, room, size, &report);
        demand((answer == 0) == (got != STRIP122_NO_IMAGE));
        demand(got != STRIP122_SMALL_ROOM || report.octets > size);
        demand(is_painted(room, got == 0 ? report.octets : 0, size));
        if (got == 0) {
            all += report.octets;
            rows = ends ? rows : rows + 1;
            demand(report.all == all && report.rows == rows && all <= strip122_bound(&s));
            rows = ends ? 0 : rows;
            all = ends ? 0 : all;
        }
        free(room);
    }
    strip122_encoder_free(&encoder);
    strip122_encoder_free(&encoder);
}

static void try_encode(input *in) {
    strip122_setting s = setting_of(in);
    strip122_encoded report = STRIP122_ENCODED;
    size_t size = take(in, 2);
    uint8_t *room = room_of(size), *raster = malloc(in->left + 1);
    demand(raster != NULL);
    memcpy(raster, in->at, in->left);
    strip122_answer answer = strip122_encode(&s, raster, in->left, room, size, &report);
    demand(is_painted(room, answer == 0 ? report.octets : 0, size));
    free(raster);
    free(room);
}

/* The calls that read packets and report alike. */
typedef strip122_answer reading(const strip122_wish *, const uint8_t *, size_t, uint8_t *, size_t, strip122_range *, size_t, strip122_decoded *);

/* The parameters of an input, with caps that often are reached. */
static strip122_wish wish_of(input *in) {
    strip122_wish wish = strip122_usual_wish();
    uint32_t flags = take(in, 1);
    wish.apid = (uint16_t)take(in, 2);
    wish.pixels = flags & 1 ? take(in, 2) : 1u << 20;
    wish.octets = flags & 2 ? take(in, 2) : wish.octets;
    wish.restore = flags >> 2 & 1;
    return wish;
}

/* Reads packets into a room of any size, and then into one of exactly the size that was reported. */
static void try_reading(input *in, reading *call) {
    strip122_decoded report = STRIP122_DECODED, again = STRIP122_DECODED;
    strip122_range ranges[4];
    size_t size = take(in, 2);
    strip122_wish wish = wish_of(in);
    uint8_t *room = room_of(size), *packets = malloc(in->left + 1);
    demand(packets != NULL);
    memcpy(packets, in->at, in->left);
    strip122_answer answer = call(&wish, packets, in->left, room, size, ranges, 4, &report);
    demand(is_painted(room, answer <= 1 ? report.octets : 0, size));
    demand(answer != STRIP122_SMALL_ROOM || report.octets > size);
    demand(answer != STRIP122_TOO_MANY_PIXELS || report.pixels > wish.pixels);
    demand(answer != STRIP122_LONG_INPUT || in->left >= wish.octets);
    if (answer == STRIP122_SMALL_ROOM && report.octets <= 1u << 21) {
        uint8_t *enough = room_of((size_t)report.octets);
        answer = call(&wish, packets, in->left, enough, (size_t)report.octets, ranges, 4, &again);
        demand(answer <= 1 ? again.octets == report.octets : answer == STRIP122_LONG_INPUT || answer == STRIP122_TOO_MANY_PIXELS);
        free(enough);
    }
    free(packets);
    free(room);
}

static void try_info(input *in) {
    strip122_listed report = STRIP122_LISTED;
    size_t size = take(in, 2);
    strip122_wish wish = wish_of(in);
    wish.apid = wish.apid < 2048 ? wish.apid : STRIP122_EACH_APID;
    uint8_t *room = room_of(size), *packets = malloc(in->left + 1);
    demand(packets != NULL);
    memcpy(packets, in->at, in->left);
    strip122_answer answer = strip122_info(&wish, packets, in->left, room, size, &report);
    demand(is_painted(room, answer <= 1 ? report.octets : 0, size));
    demand(answer != STRIP122_SMALL_ROOM || report.octets > size);
    demand(answer > 1 || (report.images == 0) == (report.octets == 0));
    free(packets);
    free(room);
}

int LLVMFuzzerTestOneInput(const uint8_t *octets, size_t count) {
    input in = {octets, count};
    switch (take(&in, 1) % 6) {
        case 0: try_rows(&in); break;
        case 1: try_encode(&in); break;
        case 2: try_reading(&in, (strip122_look)); break;
        case 3: try_reading(&in, (strip122_rects)); break;
        case 4: try_info(&in); break;
        default: try_reading(&in, (strip122_decode));
    }
    return 0;
}
