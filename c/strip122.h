/* strip122 as a library for C, C99 or later, and C++ (docs/c.md). Written by hand after crates/strip122_c, whose contracts say what each
   call does. The library is for x86-64 with SSE 4.2 and Linux; sizes have 64 bits. */
#ifndef STRIP122_H
#define STRIP122_H

#include <stddef.h>
#include <stdint.h>

/* The version of this header, 10,000 times the first number, 100 times the second, and the third: 0.2.0. While the first number is 0, a
   library fits a header of the same first and second number. */
#define STRIP122_VERSION 200u

#ifdef __cplusplus
extern "C" {
#endif

/* What a call answers. */
typedef enum strip122_answer {
    STRIP122_DONE = 0,
    STRIP122_DAMAGED = 1,      /* decode, look, rects, info: all is given, but the packets can't be read to their end; or, except for
                                  info, rows are damaged or the height isn't known */
    STRIP122_OUT_OF_RANGE = 2, /* new, encode: a field of the setting is out of range */
    STRIP122_SHORT = 3,        /* row, encode: there are fewer octets than the setting needs */
    STRIP122_LONG = 4,         /* row, encode: there are more octets than the setting needs */
    STRIP122_BAD_PIXEL = 5,    /* row, encode: a value is out of the range of its bits */
    STRIP122_NO_SEGMENT = 6,   /* decode, look, rects: no packet that is kept begins a segment */
    STRIP122_SMALL_ROOM = 7,   /* row, end, encode, decode, look, rects, info: the room has fewer octets than `octets` of the report */
    STRIP122_NO_MEMORY = 8,    /* new, encode, decode, look, rects, info: an allocation failed */
    STRIP122_NO_IMAGE = 9,     /* row, end: there is no encoder, since `new` was refused or `free` was called */
    STRIP122_ALL_ROWS = 10,    /* row: the image has all of its rows */
    STRIP122_UNFINISHED = 11,  /* end: rows of the image are missing */
    STRIP122_BAD_BOOK = 12,    /* new, encode, decode, look, rects, info: the book is not a sound code book */
    STRIP122_WRONG_SIZE = 13,  /* all: the first field of a structure is not its size */
    STRIP122_TOO_MANY_PIXELS = 14, /* decode, look, rects: a header reports more pixels than the wish allows */
    STRIP122_LONG_INPUT = 15,  /* decode, look, rects, info: there are as many octets as the wish has */
    STRIP122_TOO_MANY_IMAGES = 16, /* info: more than 4,096 images begin */
    STRIP122_ANSWERS = 0x7fffffff /* no answer: with it the type has 32 bits */
} strip122_answer;

/* The fields of a setting. They are tested in this order. */
enum strip122_field {
    STRIP122_WIDTH = 1,
    STRIP122_ROWS,
    STRIP122_DEPTH,
    STRIP122_SEGMENT,
    STRIP122_LIMIT,
    STRIP122_FILL,
    STRIP122_WORD,
    STRIP122_STOP,
    STRIP122_WEIGHTS,
    STRIP122_APID,
    STRIP122_IMAGE,
    STRIP122_PACKET,
    STRIP122_TOTAL = 15
};

/* A setting of the encoder (crates/base_122/src/range.rt has the range of each field). A flag is set by each number except 0. */
typedef struct strip122_setting {
    uint32_t size;      /* sizeof(strip122_setting) */
    uint32_t width;     /* pixels of a row */
    uint32_t rows;      /* of the image, 17 to 262,144; 0 leaves them open until `end`, and strip122_encode takes no 0 */
    uint32_t segment;   /* blocks of a segment */
    uint32_t limit;     /* octets of a coded segment, with its header; 0 is no limit */
    uint32_t packet;    /* greatest length of a packet data field, in octets */
    uint64_t total;     /* octets of all coded segments of an image; 0 is no total */
    uint16_t apid;
    uint16_t image;     /* number of the first image */
    uint8_t depth;      /* bits of a pixel */
    uint8_t is_signed;
    uint8_t fill;       /* each coded segment is filled up to the limit */
    uint8_t word;       /* octets of a code word */
    uint8_t stop_dc;    /* only the DC coefficients are sent */
    uint8_t stop_plane; /* the last bit plane that is sent */
    uint8_t stop_stage; /* its last stage, less one */
    uint8_t optimal;    /* code options are chosen by length; 0: by the heuristic */
    uint8_t weights[10];
    uint8_t has_book;   /* `book` is the code book; 0: that of the profile is */
    uint8_t book[138];  /* the octets of a code book (docs/formats.md, "Words and codes") */
} strip122_setting;

/* What was done, or why it was not. Set `size` before the call (STRIP122_ENCODED does). Every other field is written; one that the answer
   does not need is 0. */
typedef struct strip122_encoded {
    uint32_t size;     /* sizeof(strip122_encoded) */
    uint32_t field;    /* the first field out of range, of enum strip122_field */
    uint64_t octets;   /* of the packets that the call put into the room, or that the room needs */
    uint64_t all;      /* of all packets of the image so far */
    uint64_t packets;  /* of the image so far */
    uint32_t segments; /* of the image so far */
    uint32_t rows;     /* row, end: taken so far; encode: the row of the first pixel out of range */
    uint32_t column;   /* place in its row and value of the first pixel out of range */
    int32_t value;
} strip122_encoded;

#define STRIP122_ENCODED {sizeof(strip122_encoded), 0, 0, 0, 0, 0, 0, 0, 0}

/* The parameters of the calls that read packets. The packets don't carry the code book: with another book than the encoder's, segments are refused or give
   another picture. */
typedef struct strip122_wish {
    uint32_t size;     /* sizeof(strip122_wish) */
    uint16_t apid;     /* of the packets that are read; for info STRIP122_EACH_APID is each */
    uint8_t has_book;  /* `book` is the code book; 0: that of the profile is */
    uint8_t book[138]; /* the octets of a code book (docs/formats.md, "Words and codes") */
    uint64_t pixels;   /* greatest number of pixels of a picture */
    uint64_t octets;   /* at which reading ends */
    uint8_t restore;   /* decode, look: coefficients that are given in part are moved inside their intervals; 0: they stay as they are given */
} strip122_wish;

#define STRIP122_EACH_APID 65535u

/* What was found, or what room is needed. Set `size` before the call (STRIP122_DECODED does). Every other field is written; one that the
   answer does not need is 0. */
typedef struct strip122_decoded {
    uint32_t size;         /* sizeof(strip122_decoded) */
    uint32_t width;
    uint64_t octets;       /* of what is given, which the room needs */
    uint64_t ranges;       /* ranges of damaged rows, including those for which there was no place */
    uint64_t fault_octets; /* the octet at which a packet has another version, or the octets missing from the last packet */
    uint64_t pixels;       /* that a header reports, if they are too many */
    uint32_t rows;         /* the height of the image; 0 if no header reports it */
    uint32_t written;      /* rows of the picture: the height if it is known, otherwise those that the received headers determine */
    uint32_t segment;
    uint16_t image;
    uint8_t depth;
    uint8_t is_signed;
    uint8_t word;
    uint8_t fault;         /* why the packets can't be read on: 1 if a packet has another version, 2 if the last one is cut */
    uint8_t weights[10];
} strip122_decoded;

#define STRIP122_DECODED {sizeof(strip122_decoded), 0, 0, 0, 0, 0, 0, 0, 0, 0, 0, 0, 0, 0, {0}}

/* What was listed, or what room is needed. Set `size` before the call (STRIP122_LISTED does). Every other field is written; one that the
   answer does not need is 0. */
typedef struct strip122_listed {
    uint32_t size;         /* sizeof(strip122_listed) */
    uint32_t fault;        /* why the packets can't be read on, as in strip122_decoded */
    uint64_t octets;       /* of the lines, which the room needs */
    uint64_t images;       /* at most 4,096 */
    uint64_t fault_octets; /* as in strip122_decoded */
} strip122_listed;

#define STRIP122_LISTED {sizeof(strip122_listed), 0, 0, 0, 0}

/* The rows from one to another, both among them. */
typedef struct strip122_range {
    uint32_t first;
    uint32_t last;
} strip122_range;

/* The place of an encoder: static, on the stack, in an arena or in a structure of the caller's. From strip122_encoder_new on its octets are
   the library's: nothing else reads, writes, copies or moves them while there is an encoder. The library proves that its own value needs at
   most this number of octets, at a multiple of 8. */
#define STRIP122_ENCODER_OCTETS 4096
typedef struct strip122_encoder {
    uint64_t kept[STRIP122_ENCODER_OCTETS / 8];
} strip122_encoder;

/* A pointer to octets or to ranges may be null if their number is 0 (see the end of this header). No other pointer may be null. What is
   written may not overlap anything else. */

/* The version of the library, which is STRIP122_VERSION of its own header. */
uint32_t strip122_version(void);

/* ---- the encoder row by row. One encoder is used by one call at a time. */

/* Makes an encoder of images of a setting, and opens the first image. Takes all memory that its images need; no other call of an encoder
   takes any. 0; 2, 8, 12, 13: there is no encoder, and nothing to free. The octets at `encoder` must not hold an encoder before. */
strip122_answer strip122_encoder_new(strip122_encoder *encoder, const strip122_setting *setting, strip122_encoded *report);

/* Takes the octets of one row, as a raster has them, and puts the packets of the segments that the row settles at the start of the room.
   Most rows settle none, and need no room. 0; 3, 4, 5, 7, 9, 10, 13: encoder and room are as they were, so a row can be mended, or given
   again with a larger room. */
strip122_answer strip122_encoder_row(strip122_encoder *encoder, const uint8_t *row, size_t octets, uint8_t *room, size_t size,
                                     strip122_encoded *report);

/* Ends the image after its last row: puts the packets that are left at the start of the room, and opens the next image of the same
   setting, with the number `image`. 0; 7, 9, 11, 13: encoder and room are as they were. */
strip122_answer strip122_encoder_end(strip122_encoder *encoder, uint16_t image, uint8_t *room, size_t size, strip122_encoded *report);

/* Frees what the encoder owns. There is no encoder then; another `free` does nothing, and `new` can make one again. */
void strip122_encoder_free(strip122_encoder *encoder);

/* Octets of a room that is enough for each row; for each end, and each row; and for all packets of an image (of 262,144 rows if `rows` is
   0). With a limit, they are those of segments that are full; without one they are a bound that no blocks exceed. 0 if the setting is
   refused. */
uint64_t strip122_row_room(const strip122_setting *setting);
uint64_t strip122_end_room(const strip122_setting *setting);
uint64_t strip122_bound(const strip122_setting *setting);

/* ---- whole images */

/* Encodes a raster of `octets` octets. After answer 0 a room of `size` octets begins with the packets. */
strip122_answer strip122_encode(const strip122_setting *setting, const uint8_t *raster, size_t octets, uint8_t *room, size_t size,
                                strip122_encoded *encoded);

/* Decodes the packets of the wish's APID. After answers 0 and 1 a room of `size` octets begins with the picture, and the first of `places` places
   have the ranges of damaged rows. */
strip122_answer strip122_decode(const strip122_wish *wish, const uint8_t *packets, size_t octets, uint8_t *room, size_t size,
                                strip122_range *ranges, size_t places, strip122_decoded *decoded);

/* The same for the look at the packets, a raster as the command `look` gives it: a row for each block row, and in each a value for each of
   (width + 7) / 8 blocks. */
strip122_answer strip122_look(const strip122_wish *wish, const uint8_t *packets, size_t octets, uint8_t *room, size_t size,
                              strip122_range *ranges, size_t places, strip122_decoded *decoded);

/* The same for the rectangles of pixels that losses damage: the lines of the command `rects`, none if there is no damage. */
strip122_answer strip122_rects(const strip122_wish *wish, const uint8_t *packets, size_t octets, uint8_t *room, size_t size,
                               strip122_range *ranges, size_t places, strip122_decoded *decoded);

/* Lists the images of the packets: after answers 0 and 1 the room begins with the lines of the command `info`. */
strip122_answer strip122_info(const strip122_wish *wish, const uint8_t *packets, size_t octets, uint8_t *room, size_t size,
                              strip122_listed *listed);

/* ---- without the library */

/* The setting for an image of this size, with the usual value of each other field. */
static inline strip122_setting strip122_usual(uint32_t width, uint32_t rows) {
    strip122_setting s = {sizeof(strip122_setting), width, rows, 64, 0, 1024, 0, 100, 0, 8, 0, 0, 1, 0, 0, 3, 1,
                          {0, 1, 1, 1, 2, 2, 2, 3, 3, 3}, 0, {0}};
    return s;
}

/* The usual parameters: APID 100, pictures of at most 2^32 pixels, at most 2^40 octets, the code book of the profile, and nothing restored. */
static inline strip122_wish strip122_usual_wish(void) {
    strip122_wish w = {sizeof(strip122_wish), 100, 0, {0}, (uint64_t)1 << 32, (uint64_t)1 << 40, 0};
    return w;
}

/* A few words for an answer, for a log. */
static inline const char *strip122_text(strip122_answer answer) {
    switch (answer) {
        case STRIP122_DONE: return "done";
        case STRIP122_DAMAGED: return "damaged";
        case STRIP122_OUT_OF_RANGE: return "a field is out of range";
        case STRIP122_SHORT: return "too few octets";
        case STRIP122_LONG: return "too many octets";
        case STRIP122_BAD_PIXEL: return "a pixel is out of range";
        case STRIP122_NO_SEGMENT: return "no segment";
        case STRIP122_SMALL_ROOM: return "the room is too small";
        case STRIP122_NO_MEMORY: return "no memory";
        case STRIP122_NO_IMAGE: return "no encoder";
        case STRIP122_ALL_ROWS: return "the image has all of its rows";
        case STRIP122_UNFINISHED: return "rows are missing";
        case STRIP122_BAD_BOOK: return "no sound code book";
        case STRIP122_WRONG_SIZE: return "a structure has another size";
        case STRIP122_TOO_MANY_PIXELS: return "too many pixels";
        case STRIP122_LONG_INPUT: return "long input";
        case STRIP122_TOO_MANY_IMAGES: return "too many images";
        case STRIP122_ANSWERS: break;
    }
    return "no answer";
}

/* The calls themselves take no null pointer. These macros pass the address of an octet in place of one. */
static inline const uint8_t *strip122_octets(const uint8_t *octets) {
    static const uint8_t nothing = 0;
    return octets != NULL ? octets : &nothing;
}

static inline uint8_t *strip122_room(uint8_t *room) {
    static uint8_t nothing;
    return room != NULL ? room : &nothing;
}

static inline strip122_range *strip122_places(strip122_range *ranges) {
    static strip122_range nothing;
    return ranges != NULL ? ranges : &nothing;
}

#define strip122_encoder_row(encoder, row, octets, room, size, report)                                                                    \
    (strip122_encoder_row)(encoder, strip122_octets(row), octets, strip122_room(room), size, report)
#define strip122_encoder_end(encoder, image, room, size, report) (strip122_encoder_end)(encoder, image, strip122_room(room), size, report)
#define strip122_encode(setting, raster, octets, room, size, encoded)                                                                     \
    (strip122_encode)(setting, strip122_octets(raster), octets, strip122_room(room), size, encoded)
#define strip122_decode(wish, packets, octets, room, size, ranges, places, decoded)                                                       \
    (strip122_decode)(wish, strip122_octets(packets), octets, strip122_room(room), size, strip122_places(ranges), places, decoded)
#define strip122_look(wish, packets, octets, room, size, ranges, places, decoded)                                                         \
    (strip122_look)(wish, strip122_octets(packets), octets, strip122_room(room), size, strip122_places(ranges), places, decoded)
#define strip122_rects(wish, packets, octets, room, size, ranges, places, decoded)                                                        \
    (strip122_rects)(wish, strip122_octets(packets), octets, strip122_room(room), size, strip122_places(ranges), places, decoded)
#define strip122_info(wish, packets, octets, room, size, listed)                                                                          \
    (strip122_info)(wish, strip122_octets(packets), octets, strip122_room(room), size, listed)

#ifdef __cplusplus
}
#endif
#endif
