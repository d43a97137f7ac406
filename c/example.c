/* Encodes a raster of one octet a pixel and decodes its packets again, with memory from a fixed buffer only:
   example WIDTH ROWS < raster > packets. The status is 0 if the picture is the raster. */
#include "arena.h"
#include "strip122.h"

#include <stdio.h>
#include <stdlib.h>
#include <string.h>

static uint8_t raster[1 << 20], packets[1 << 21], picture[1 << 20], memory[1 << 23];

int main(int count, char **words) {
    if (count != 3) {
        fprintf(stderr, "usage: example WIDTH ROWS < raster > packets\n");
        return 2;
    }
    strip122_setting setting = strip122_usual((uint32_t)strtoul(words[1], NULL, 10), (uint32_t)strtoul(words[2], NULL, 10));
    size_t octets = fread(raster, 1, sizeof raster, stdin);

    strip122_arena(memory, sizeof memory);
    strip122_encoded encoded = STRIP122_ENCODED;
    strip122_answer answer = strip122_encode(&setting, raster, octets, packets, sizeof packets, &encoded);
    if (answer != STRIP122_DONE) {
        fprintf(stderr, "not encoded: %s\n", strip122_text(answer));
        return 1;
    }
    fprintf(stderr, "%llu octets of packets", (unsigned long long)encoded.octets);
    fwrite(packets, 1, (size_t)encoded.octets, stdout);

    strip122_wish wish = strip122_usual_wish();
    strip122_decoded decoded = STRIP122_DECODED;
    strip122_range ranges[16];
    answer = strip122_decode(&wish, packets, (size_t)encoded.octets, picture, sizeof picture, ranges, 16, &decoded);
    if (answer != STRIP122_DONE || decoded.octets != octets || memcmp(picture, raster, octets) != 0) {
        fprintf(stderr, ", not decoded: %s\n", strip122_text(answer));
        return 1;
    }
    fprintf(stderr, ", and the raster came back\n");
    return 0;
}
