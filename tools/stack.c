/* Measures the stack that the library takes: stack < raster of 512 x 512 pixels of one octet. Each call runs in a thread whose stack is
   painted before (tools/try_c.sh). It prints a line for each call, and fails if a call takes more than 65,536 octets. */
#include "strip122.h"

#include <pthread.h>
#include <stdio.h>
#include <stdlib.h>
#include <string.h>

#define SIDE 512u
#define PAINT 0xA5
#define STACK (4u << 20)
#define MOST 65536u

static uint8_t raster[SIDE * SIDE], packets[16 * SIDE * SIDE], picture[SIDE * SIDE], stack[STACK];
static size_t octets;
static strip122_encoder encoder;

static void *rows(void *setting) {
    strip122_encoded report = STRIP122_ENCODED;
    size_t at = 0;
    int failed = strip122_encoder_new(&encoder, (strip122_setting *)setting, &report) != STRIP122_DONE;
    for (uint32_t row = 0; row < SIDE && !failed; row++) {
        failed = strip122_encoder_row(&encoder, raster + row * SIDE, SIDE, packets + at, sizeof packets - at, &report) != STRIP122_DONE;
        at += (size_t)report.octets;
    }
    failed = failed || strip122_encoder_end(&encoder, 1, packets + at, sizeof packets - at, &report) != STRIP122_DONE;
    strip122_encoder_free(&encoder);
    octets = (size_t)report.all;
    return failed ? setting : NULL;
}

static void *encode(void *setting) {
    strip122_encoded report = STRIP122_ENCODED;
    return strip122_encode((strip122_setting *)setting, raster, sizeof raster, packets, sizeof packets, &report) != STRIP122_DONE ? setting
                                                                                                                                 : NULL;
}

static void *decode(void *setting) {
    strip122_decoded report = STRIP122_DECODED;
    strip122_wish wish = strip122_usual_wish();
    int same = strip122_decode(&wish, packets, octets, picture, sizeof picture, NULL, 0, &report) == STRIP122_DONE &&
               memcmp(picture, raster, sizeof raster) == 0;
    return same ? NULL : setting;
}

static void *look(void *setting) {
    strip122_decoded report = STRIP122_DECODED;
    strip122_wish wish = strip122_usual_wish();
    return strip122_look(&wish, packets, octets, picture, sizeof picture, NULL, 0, &report) == STRIP122_DONE ? NULL : setting;
}

static void *rects(void *setting) {
    strip122_decoded report = STRIP122_DECODED;
    strip122_wish wish = strip122_usual_wish();
    return strip122_rects(&wish, packets, octets, picture, sizeof picture, NULL, 0, &report) == STRIP122_DONE ? NULL : setting;
}

static void *info(void *setting) {
    strip122_listed report = STRIP122_LISTED;
    strip122_wish wish = strip122_usual_wish();
    return strip122_info(&wish, packets, octets, picture, sizeof picture, &report) == STRIP122_DONE ? NULL : setting;
}

/* Runs a call on the painted stack, and prints how much of it was written. Returns whether that is at most what a call may take. */
static int measure(const char *name, void *(*call)(void *), strip122_setting *setting) {
    pthread_attr_t attributes;
    pthread_t thread;
    void *failed = setting;
    size_t clean = 0;
    memset(stack, PAINT, sizeof stack);
    if (pthread_attr_init(&attributes) != 0 || pthread_attr_setstack(&attributes, stack, sizeof stack) != 0 ||
        pthread_create(&thread, &attributes, call, setting) != 0 || pthread_join(thread, &failed) != 0 || failed != NULL) {
        fprintf(stderr, "%s failed\n", name);
        exit(1);
    }
    while (clean < sizeof stack && stack[clean] == PAINT) {
        clean++;
    }
    printf("stack: %s, segments of %u blocks: %zu octets\n", name, (unsigned)setting->segment, sizeof stack - clean);
    if (sizeof stack - clean > MOST) {
        fprintf(stderr, "%s takes more than %u octets of stack\n", name, MOST);
        return 0;
    }
    return 1;
}

int main(void) {
    if (fread(raster, 1, sizeof raster, stdin) != sizeof raster) {
        fprintf(stderr, "usage: stack < raster of 512 x 512 pixels of one octet\n");
        return 2;
    }
    strip122_setting setting = strip122_usual(SIDE, SIDE);
    int few = 1;
    for (setting.segment = 64; setting.segment <= 1024; setting.segment *= 4) {
        few &= measure("rows", rows, &setting);
        few &= measure("encode", encode, &setting);
        few &= measure("decode", decode, &setting);
        few &= measure("look", look, &setting);
        few &= measure("rects", rects, &setting);
        few &= measure("info", info, &setting);
    }
    return few ? 0 : 1;
}
