/* Encodes a raster row by row, with static memory only: example_rows WIDTH ROWS DEPTH < raster > packets. Each row is read from the
   standard input, and the packets that it settles are written before the next one is read. With ROWS 0 the image has the rows that the
   input has, 17 or more. */
#include "arena.h"
#include "strip122.h"

#include <stdio.h>
#include <stdlib.h>

#define WIDEST 4096u

static strip122_encoder encoder;
static uint8_t memory[1 << 23], row[2 * WIDEST], room[1 << 22];

/* Writes what a call put into the room, or says why it put nothing. */
static int send(const char *call, strip122_answer answer, const strip122_encoded *report) {
    if (answer != STRIP122_DONE) {
        fprintf(stderr, "%s after %u rows: %s\n", call, (unsigned)report->rows, strip122_text(answer));
        return 0;
    }
    return fwrite(room, 1, (size_t)report->octets, stdout) == report->octets;
}

int main(int count, char **words) {
    if (count != 4) {
        fprintf(stderr, "usage: example_rows WIDTH ROWS DEPTH < raster > packets\n");
        return 2;
    }
    strip122_setting setting = strip122_usual((uint32_t)strtoul(words[1], NULL, 10), (uint32_t)strtoul(words[2], NULL, 10));
    setting.depth = (uint8_t)strtoul(words[3], NULL, 10);
    setting.segment = 128;
    setting.limit = 8192;
    size_t octets = setting.width * (setting.depth > 8 ? 2u : 1u);
    if (octets > sizeof row || strip122_end_room(&setting) > sizeof room || strip122_memory(&setting) > sizeof memory) {
        fprintf(stderr, "too wide for this example\n");
        return 2;
    }

    strip122_arena(memory, sizeof memory);
    strip122_encoded report = STRIP122_ENCODED;
    strip122_answer answer = strip122_encoder_new(&encoder, &setting, &report);
    if (answer != STRIP122_DONE) {
        fprintf(stderr, "no encoder: %s, field %u\n", strip122_text(answer), (unsigned)report.field);
        return 1;
    }
    int sent = 1;
    while (sent && fread(row, 1, octets, stdin) == octets) {
        sent = send("row", strip122_encoder_row(&encoder, row, octets, room, sizeof room, &report), &report);
    }
    sent = sent && send("end", strip122_encoder_end(&encoder, 1, room, sizeof room, &report), &report);
    strip122_encoder_free(&encoder);
    return sent ? 0 : 1;
}
