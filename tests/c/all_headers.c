/* One program whose parts are compiled with the headers of all editions, and the one library. */
#define _DEFAULT_SOURCE

#include "expect.h"

/* What the parts give of the first entry of an image, by first_entry.c. */
typedef uint32_t of_first_entry(uint32_t format, const uint8_t *image, size_t length);

of_first_entry kind_by_edition_1, kind_by_edition_2, kind_by_edition_3, kind_by_edition_4;
of_first_entry date_by_edition_1, date_by_edition_2, date_by_edition_3, date_by_edition_4;
of_first_entry frame_by_edition_1, frame_by_edition_2, frame_by_edition_3, frame_by_edition_4;
of_first_entry moved_by_edition_1, moved_by_edition_2, moved_by_edition_3, moved_by_edition_4;
of_first_entry room_by_edition_1, room_by_edition_2, room_by_edition_3, room_by_edition_4;

enum {
    EDITIONS = 4,
    REFUSED = 100000000 /* where a call is refused, its number times this is given */
};

static of_first_entry *const kinds[EDITIONS] = {kind_by_edition_1, kind_by_edition_2,
                                                kind_by_edition_3, kind_by_edition_4};
static of_first_entry *const dates[EDITIONS] = {date_by_edition_1, date_by_edition_2,
                                                date_by_edition_3, date_by_edition_4};
static of_first_entry *const frames[EDITIONS] = {frame_by_edition_1, frame_by_edition_2,
                                                 frame_by_edition_3, frame_by_edition_4};
static of_first_entry *const moves[EDITIONS] = {moved_by_edition_1, moved_by_edition_2,
                                                moved_by_edition_3, moved_by_edition_4};
static of_first_entry *const rooms[EDITIONS] = {room_by_edition_1, room_by_edition_2,
                                                room_by_edition_3, room_by_edition_4};

/*
 * An image; the kind, the date and the frame of its first entry by each edition; and the length of
 * the image after the entry was removed and added again. A room file of which it is the only body
 * has 16 bytes more than the image, and is refused for what the image is refused for.
 */
struct image_case {
    const char *what;
    uint32_t format;
    const char *image;
    uint32_t kinds[EDITIONS];
    uint32_t dates[EDITIONS];
    uint32_t frames[EDITIONS];
    uint32_t moves[EDITIONS];
};

static const struct image_case image_cases[] = {
    {"VPD FEh",
     2,
     "FE 00 04 01 02 03 04 00",
     {0, 766, 766, 766},
     {0, 0, 0, 0},
     {0, 0, 0, 7},
     {14 * REFUSED, 8, 8, 8}},
    {"VPD 01h, lengths of two and three bytes",
     2,
     "01 80 03 53 4B 55 80 80 02 41 37 FF",
     {513, 513, 513, 513},
     {0, 0, 0, 0},
     {0, 0, 0, 11},
     {9, 9, 9, 9}},
    {"Tiny: a pool",
     3,
     "56 02 0A 01 04 41 C2 C3 44 82",
     {769, 769, 769, 769},
     {0, 0, 0, 0},
     {0, 0, 0, 6},
     {10, 10, 10, 10}},
    {"ONIE 21h",
     4,
     "54 6C 76 49 6E 66 6F 00 01 00 08 21 00 FE 04 9C 9F B5 F2",
     {16 * REFUSED, 16 * REFUSED, 1057, 1057},
     {16 * REFUSED, 16 * REFUSED, 0, 0},
     {16 * REFUSED, 16 * REFUSED, 0, 2},
     {16 * REFUSED, 16 * REFUSED, 19, 19}},
    {"FBOSS 13",
     1,
     "FB FB 05 FF 0D 08 32 30 32 34 30 32 32 39 01 00 08 01 01 09 01 02 0A 01 03 0B 00 FA 02 0D E1",
     {269, 269, 269, 269},
     {20240229, 20240229, 20240229, 20240229},
     {0, 0, 0, 10},
     {31, 31, 31, 31}},
    {"FBOSS 13, no day",
     1,
     "FB FB 05 FF 0D 08 32 30 32 33 30 32 32 39 01 00 08 01 01 09 01 02 0A 01 03 0B 00 FA 02 FD 34",
     {7 * REFUSED, 7 * REFUSED, 7 * REFUSED, 7 * REFUSED},
     {7 * REFUSED, 7 * REFUSED, 7 * REFUSED, 7 * REFUSED},
     {7 * REFUSED, 7 * REFUSED, 7 * REFUSED, 7 * REFUSED},
     {7 * REFUSED, 7 * REFUSED, 7 * REFUSED, 7 * REFUSED}},
    {"FBOSS 1, required",
     1,
     "FB FB 05 FF 01 00 08 01 01 09 01 02 0A 01 03 0B 00 FA 02 82 1E",
     {257, 257, 257, 257},
     {0, 0, 0, 0},
     {0, 0, 0, 2},
     {11 * REFUSED, 11 * REFUSED, 11 * REFUSED, 11 * REFUSED}},
    {"VPD 01h, a dotted key",
     2,
     "01 03 61 2E 62 00 00",
     {513, 513, 513, 513},
     {0, 0, 0, 0},
     {0, 0, 0, 6},
     {7 * REFUSED, 7 * REFUSED, 7 * REFUSED, 7 * REFUSED}},
    {"ONIE 25h",
     4,
     "54 6C 76 49 6E 66 6F 00 01 00 1B 25 13 31 32 2F 33 31 2F 32 30 32 34 20 32 33 3A 35 39 3A 35 "
     "39 FE 04 9E C5 75 CD",
     {16 * REFUSED, 16 * REFUSED, 1061, 1061},
     {16 * REFUSED, 16 * REFUSED, 20241231, 20241231},
     {16 * REFUSED, 16 * REFUSED, 0, 21},
     {16 * REFUSED, 16 * REFUSED, 38, 38}},
};

int main(void)
{
    size_t i, e;

    for (i = 0; i < sizeof image_cases / sizeof image_cases[0]; i++) {
        const struct image_case *c = &image_cases[i];
        struct lent image = lend_hex(c->image);

        for (e = 0; e < EDITIONS; e++) {
            expect_number(kinds[e](c->format, image.bytes, image.length), c->kinds[e], c->what);
            expect_number(dates[e](c->format, image.bytes, image.length), c->dates[e], c->what);
            expect_number(frames[e](c->format, image.bytes, image.length), c->frames[e], c->what);
            expect_number(moves[e](c->format, image.bytes, image.length), c->moves[e], c->what);
            expect_number(rooms[e](c->format, image.bytes, image.length),
                          c->kinds[e] >= REFUSED ? c->kinds[e] : image.length + 16, c->what);
        }
        give_back(image);
    }
    return expectations_met("all_headers");
}
