/* Measures the encoder row by row beside that of whole images: rows WIDTH ROWS ROUNDS < raster of one octet a pixel (tools/bench.sh). Each
   round encodes the raster once by strip122_encode and once by strip122_encoder_row. It prints the least and the greatest processor time of
   both, in nanoseconds a pixel, and stops if their packets differ. */
#include "strip122.h"

#include <stdio.h>
#include <stdlib.h>
#include <string.h>
#include <time.h>

static strip122_encoder encoder;
static strip122_setting setting;
static uint8_t *raster, *whole, *parts;
static size_t pixels, room;

static void demand(int holds, const char *what) {
    if (!holds) {
        fprintf(stderr, "rows: %s\n", what);
        exit(1);
    }
}

static size_t encode(void) {
    strip122_encoded report = STRIP122_ENCODED;
    demand(strip122_encode(&setting, raster, pixels, whole, room, &report) == STRIP122_DONE, "strip122_encode");
    return (size_t)report.octets;
}

static size_t encode_rows(void) {
    strip122_encoded report = STRIP122_ENCODED;
    size_t at = 0;
    demand(strip122_encoder_new(&encoder, &setting, &report) == STRIP122_DONE, "strip122_encoder_new");
    for (size_t row = 0; row < setting.rows; row++) {
        demand(strip122_encoder_row(&encoder, raster + row * setting.width, setting.width, parts + at, room - at, &report) == STRIP122_DONE,
               "strip122_encoder_row");
        at += (size_t)report.octets;
    }
    demand(strip122_encoder_end(&encoder, 1, parts + at, room - at, &report) == STRIP122_DONE, "strip122_encoder_end");
    strip122_encoder_free(&encoder);
    return at + (size_t)report.octets;
}

/* Runs a call once, and widens the span of its times. */
static size_t measure(size_t (*call)(void), double span[2]) {
    clock_t start = clock();
    size_t octets = call();
    double spent = 1e9 * (double)(clock() - start) / CLOCKS_PER_SEC / (double)pixels;
    span[0] = spent < span[0] ? spent : span[0];
    span[1] = spent > span[1] ? spent : span[1];
    return octets;
}

int main(int count, char **words) {
    double spans[2][2] = {{1e9, 0}, {1e9, 0}};
    demand(count == 4, "usage: rows WIDTH ROWS ROUNDS < raster of one octet a pixel");
    setting = strip122_usual((uint32_t)strtoul(words[1], NULL, 10), (uint32_t)strtoul(words[2], NULL, 10));
    pixels = (size_t)setting.width * setting.rows;
    room = (size_t)strip122_bound(&setting) + (size_t)strip122_end_room(&setting);
    raster = malloc(pixels + 1);
    whole = malloc(room + 1);
    parts = malloc(room + 1);
    demand(raster != NULL && whole != NULL && parts != NULL, "no memory");
    demand(fread(raster, 1, pixels, stdin) == pixels, "the raster is short");
    for (unsigned long rounds = strtoul(words[3], NULL, 10); rounds > 0; rounds--) {
        size_t octets = measure(encode, spans[0]);
        demand(measure(encode_rows, spans[1]) == octets && memcmp(whole, parts, octets) == 0, "the packets differ");
    }
    printf("%.1f to %.1f | %.1f to %.1f | %+.1f\n", spans[0][0], spans[0][1], spans[1][0], spans[1][1], 100 * (spans[1][0] / spans[0][0] - 1));
    return 0;
}
