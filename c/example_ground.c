/* Reads packets as a command of the program does: example_ground decode|look|rects|info APID < packets > output. The first call has no
   room, and reports how many octets the second one needs. The status is that of the program if the packets can be read. */
#include "strip122.h"

#include <stdio.h>
#include <stdlib.h>
#include <string.h>

static uint8_t packets[1 << 24];

/* A call, by its name, into a room. Returns its answer, and the octets that it gave or needs. */
static strip122_answer read_packets(const char *call, const strip122_wish *wish, size_t octets, uint8_t *room, size_t size, uint64_t *given) {
    strip122_decoded decoded = STRIP122_DECODED;
    strip122_listed listed = STRIP122_LISTED;
    strip122_answer answer;
    if (strcmp(call, "info") == 0) {
        answer = strip122_info(wish, packets, octets, room, size, &listed);
        *given = listed.octets;
        return answer;
    }
    if (strcmp(call, "look") == 0) {
        answer = strip122_look(wish, packets, octets, room, size, NULL, 0, &decoded);
    } else if (strcmp(call, "rects") == 0) {
        answer = strip122_rects(wish, packets, octets, room, size, NULL, 0, &decoded);
    } else {
        answer = strip122_decode(wish, packets, octets, room, size, NULL, 0, &decoded);
    }
    *given = decoded.octets;
    return answer;
}

int main(int count, char **words) {
    if (count != 3) {
        fprintf(stderr, "usage: example_ground decode|look|rects|info APID < packets > output\n");
        return 2;
    }
    strip122_wish wish = strip122_usual_wish();
    wish.apid = (uint16_t)strtoul(words[2], NULL, 10);
    size_t octets = fread(packets, 1, sizeof packets, stdin);
    uint64_t given = 0;
    uint8_t *room = NULL;
    strip122_answer answer = read_packets(words[1], &wish, octets, NULL, 0, &given);
    if (answer == STRIP122_SMALL_ROOM) {
        room = malloc((size_t)given);
        if (room == NULL) {
            return 6;
        }
        answer = read_packets(words[1], &wish, octets, room, (size_t)given, &given);
    }
    if (answer > STRIP122_DAMAGED) {
        fprintf(stderr, "%s: %s\n", words[1], strip122_text(answer));
        free(room);
        return 3;
    }
    if (room != NULL) {
        fwrite(room, 1, (size_t)given, stdout);
    }
    free(room);
    return (int)answer;
}
