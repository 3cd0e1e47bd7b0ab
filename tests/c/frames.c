/*
 * The length of an entry's whole frame: word 7 of a record, from edition 4 on the bytes of its code,
 * its length bytes as stored, its key and its value, and 0 in every edition before. Compiled once
 * with each edition's header; so that of edition 3 has a member that is 0, and that of edition 4 the
 * length, of the same images by the one library.
 *
 * Places and lengths of frames are counted by hand from the bytes beside them. Every image goes
 * through list, entry and step, by the functions of the header and by the exported calls with each
 * edition that has its format, and so does what every such edition edits, adds and removes.
 */
#define _DEFAULT_SOURCE

#include "answers.h"
#include "checks.h"
#include "images.h"

enum { NEWEST = 4, MOST_ENTRIES = 13, MOST_PARTS = 5, FRAME_WORD = 7 };

/* A frame: the place of its first byte, and its length. */
struct frame {
    uint32_t place;
    uint32_t length;
};

/* Some bytes, and how many 41h follow them. */
struct bytes {
    const char *hex;
    size_t more;
};

/* The frames of an image, and the place where its end begins. */
struct frames {
    uint32_t count;
    struct frame list[MOST_ENTRIES];
    uint32_t end;
};

/* An image, in which 00 may stand for each byte of the check. */
struct image_case {
    const char *what;
    uint32_t format;
    struct bytes bytes[MOST_PARTS];
    struct frames frames;
};

/* The first edition that has a format. */
static uint32_t first_edition(uint32_t format)
{
    return format == 4 ? 3 : 1;
}

/* How many bytes the end of an image has. */
static uint32_t end_length(uint32_t format)
{
    static const uint32_t lengths[] = {0, 4, 1, 1, 6};

    return lengths[format];
}

/* Lends bytes of a case. */
static struct lent lend_bytes(const struct bytes *bytes, size_t count)
{
    struct lent hex[MOST_PARTS], lent;
    size_t i, length = 0;

    for (i = 0; i < count; i++) {
        hex[i] = lend_hex(bytes[i].hex != NULL ? bytes[i].hex : "");
        length += hex[i].length + bytes[i].more;
    }
    lent = lend(length);
    length = 0;
    for (i = 0; i < count; i++) {
        memcpy(lent.bytes + length, hex[i].bytes, hex[i].length);
        length += hex[i].length;
        memset(lent.bytes + length, 0x41, bytes[i].more);
        length += bytes[i].more;
        give_back(hex[i]);
    }
    return lent;
}

/* Lends the image of a case, with the right check. */
static struct lent lend_image(const struct image_case *c)
{
    struct lent image = lend_bytes(c->bytes, MOST_PARTS);
    uint8_t *end = image.bytes + c->frames.end;
    uint32_t check;

    if (image.length < c->frames.end + end_length(c->format)) {
        printf("%s: no end\n", c->what);
        exit(1);
    }
    if (c->format == 1) {
        check = check16_of(image.bytes, c->frames.end);
        end[2] = (uint8_t)(check >> 8);
        end[3] = (uint8_t)check;
    } else if (c->format == 3) {
        end[0] = (uint8_t)check8_of(image.bytes, c->frames.end);
    } else if (c->format == 4) {
        put_check32(end + 2, check32_of(image.bytes, c->frames.end + 2));
    }
    return image;
}

/* ---- Images --------------------------------------------------------------------------------- */

/* Images that are listed, and changed under other words. Eight entries of FBOSS, the sixth unnamed. */
#define FBOSS_EIGHT(what) \
    {what, 1, \
     {{"FB FB 05 FF 08 01 FE 01 02 41 42 09 01 02 0A 01 03 0B 00 15 02 00 FF 14 08 02 1A 2B 3C 4D " \
       "5E 01 02 0D 08 32 30 32 34 30 32 32 39 FA 02 00 00", 0}}, \
     {8, {{4, 3}, {7, 4}, {11, 3}, {14, 3}, {17, 2}, {19, 4}, {23, 10}, {33, 10}}, 43}}

/* VPD: both lengths in one to four bytes, and an FEh without a key. */
#define VPD_FORMS(what) \
    {what, 2, \
     {{"01 01 41 02 78 79 01 01 42 80 02 78 79 01 01 43 80 80 02 78 79 01 01 44 80 80 80 02 78 79 " \
       "01 80 01 45 02 78 79 01 80 80 01 46 80 02 78 79 01 80 80 80 01 47 80 80 80 02 78 79 " \
       "FE 80 00 80 80 04 01 02 03 04 FF AA 01", 0}}, \
     {8, {{0, 6}, {6, 7}, {13, 8}, {21, 9}, {30, 7}, {37, 9}, {46, 12}, {58, 10}}, 68}}

/* VPD: values of 16,383 and twice 16,384 bytes, their lengths in two, three and four. */
#define VPD_LONG(what) \
    {what, 2, \
     {{"01 01 41 FF 7F", 16383}, {"01 01 42 81 80 00", 16384}, {"01 01 43 80 81 80 00", 16384}, \
      {"00", 0}}, \
     {3, {{0, 16388}, {16388, 16390}, {32778, 16391}}, 49169}}

/* Seven entries of Tiny; the fifth is unnamed, with a byte for its length, as the pool's. */
#define TINY_SEVEN(what) \
    {what, 3, \
     {{"56 02 28 10 01 11 F5 60 02 1A 2B 3C 4D 5E 61 00 01 80 05 41 31 02 01 AA 81 00 01 99 63 00 " \
       "FF 0F 27 01 04 41 C2 C3 44 00", 0}}, \
     {7, {{3, 2}, {5, 2}, {7, 7}, {14, 7}, {21, 3}, {24, 9}, {33, 6}}, 39}}

/* Twelve entries of ONIE, the sixth unnamed, the last two FDh. */
#define ONIE_TWELVE(what) \
    {what, 4, \
     {{ONIE "00 4B 21 02 41 42 22 00 23 02 53 31 24 06 02 1A 2B 3C 4D 5E 25 13 30 32 2F 30 33 2F " \
       "32 30 32 34 20 30 34 3A 30 35 3A 30 36 26 01 01 2A 02 FF 03 2B 01 4D 2C 02 43 5A 2D 01 56 " \
       "FD 05 00 00 1F 79 00 FD 04 00 00 1F 79 FE 04 00 00 00 00", 0}}, \
     {12, \
      {{11, 4}, {15, 2}, {17, 4}, {21, 8}, {29, 21}, {50, 3}, {53, 4}, {57, 3}, {60, 4}, {64, 3}, \
       {67, 7}, {74, 6}}, \
      80}}

/* One entry of VPD, and images without entries. */
#define VPD_SKU(what) {what, 2, {{"01 03 53 4B 55 02 41 37 00", 0}}, {1, {{0, 8}}, 8}}
#define VPD_NONE(what) {what, 2, {{"00", 0}}, {0, {{0, 0}}, 0}}
#define TINY_NONE(what) {what, 3, {{"56 02 04 6F", 0}}, {0, {{0, 0}}, 3}}
#define ONIE_NONE(what) {what, 4, {{ONIE "00 06 FE 04 D4 43 1C 18", 0}}, {0, {{0, 0}}, 11}}

static const struct image_case image_cases[] = {
    FBOSS_EIGHT("FBOSS: eight entries"),
    {"FBOSS: values of 255 bytes, and bytes after the end",
     1,
     {{"FB FB 05 FF 01 FF", 255},
      {"08 01 01 09 01 02 0A 01 03 0B 00 63 FF", 255},
      {"FA 02 00 00 0B 00 FA 02", 0}},
     {6, {{4, 257}, {261, 3}, {264, 3}, {267, 3}, {270, 2}, {272, 257}}, 529}},

    VPD_NONE("VPD: no entries"),
    VPD_SKU("VPD: SKU"),
    {"VPD: a leading zero group", 2, {{"01 80 01 41 00 00", 0}}, {1, {{0, 5}}, 5}},
    {"VPD: lengths of four bytes",
     2,
     {{"01 80 80 80 01 41 80 80 80 02 41 37 00", 0}},
     {1, {{0, 12}}, 12}},
    VPD_FORMS("VPD: lengths of one to four bytes"),
    {"VPD: 127 bytes, in one length byte and in two",
     2,
     {{"01 01 41 7F", 127}, {"01 01 42 80 7F", 127}, {"00", 0}},
     {2, {{0, 131}, {131, 132}}, 263}},
    {"VPD: 128 bytes, in two length bytes, three and four",
     2,
     {{"01 01 41 81 00", 128},
      {"01 01 42 80 81 00", 128},
      {"01 01 43 80 80 81 00", 128},
      {"FF", 0}},
     {3, {{0, 133}, {133, 134}, {267, 135}}, 402}},
    {"VPD: keys of 130 and 131 bytes",
     2,
     {{"01 81 02", 130}, {"00 01 80 81 03", 131}, {"81 00", 128}, {"00", 0}},
     {2, {{0, 134}, {134, 265}}, 399}},
    VPD_LONG("VPD: lengths of two, three and four bytes"),
    {"VPD: the longest frame",
     2,
     {{"01 01 41 83 FF 79", 65529}, {"00", 0}},
     {1, {{0, 65535}}, 65535}},
    {"VPD: the longest frame, its length in four bytes",
     2,
     {{"01 01 41 80 83 FF 78", 65528}, {"FF", 0}},
     {1, {{0, 65535}}, 65535}},

    TINY_NONE("Tiny: no entries"),
    TINY_SEVEN("Tiny: seven entries"),
    {"Tiny: fifteen bytes by the tag, none and a hundred by a byte, and an empty pool",
     3,
     {{"56 02 7E F2", 15}, {"02 00 05 64", 100}, {"01 00 00 FF 10", 0}},
     {4, {{3, 16}, {19, 2}, {21, 102}, {123, 2}}, 125}},
    {"Tiny: the longest pool", 3, {{"56 02 FF 01 F9", 249}, {"00", 0}}, {1, {{3, 251}}, 254}},

    ONIE_NONE("ONIE: no entries"),
    ONIE_TWELVE("ONIE: twelve entries"),
    {"ONIE: values of 255 bytes, and bytes after the end",
     4,
     {{ONIE "02 0A 21 FF", 255}, {"FD FF", 255}, {"63 00 FE 04 00 00 00 00 21 00 FE 04", 0}},
     {3, {{11, 257}, {268, 257}, {525, 2}}, 527}},
};

/* Expects that the frames of a case follow one another up to the end, which stands there. */
static void frames_tile(uint32_t format, struct lent image, const struct frames *frames,
                        const char *what)
{
    static const uint32_t starts[] = {0, 4, 0, 3, 11};
    uint32_t n, at = starts[format];
    uint8_t end = image.bytes[frames->end];

    for (n = 0; n < frames->count; n++) {
        expect_number(frames->list[n].place, at, what);
        at = frames->list[n].place + frames->list[n].length;
    }
    expect_number(frames->end, at, what);
    if (format == 3) {
        expect_number(image.bytes[2], frames->end + 1, what);
    } else {
        expect(format == 1 ? end == 250 : format == 2 ? end == 0x00 || end == 0xFF : end == 0xFE,
               what);
    }
}

/* A walk of a format and an edition, at an entry. */
static struct lent lend_walk(uint32_t format, uint32_t edition, uint64_t entry)
{
    struct lent walk = lend(BOARDID_WALK_SIZE);

    boardid_walk_set(walk.bytes, format, entry);
    boardid_word_set(walk.bytes, 1, edition);
    return walk;
}

/* The exported list, entry and step with an edition: word 7 has the length from edition 4 on. */
static void by_exports(uint32_t format, uint32_t edition, struct lent image,
                       const struct frames *frames, const char *what)
{
    struct lent records = lend(frames->count * (size_t)BOARDID_RECORD_SIZE);
    struct lent record = lend(BOARDID_RECORD_SIZE), walk = lend_walk(format, edition, 0);
    uint32_t n;

    expect_count(boardid_check(format, edition, image.bytes, image.length), frames->count, what);
    expect_count(boardid_list(format, edition, image.bytes, image.length, records.bytes,
                              records.length),
                 frames->count, what);
    for (n = 0; n < frames->count; n++) {
        const uint8_t *listed = records.bytes + n * (size_t)BOARDID_RECORD_SIZE;
        struct frame frame = frames->list[n];

        expect_number(boardid_word_at(listed, 0), image.bytes[frame.place], what);
        expect_number(boardid_word_at(listed, 2), frame.place, what);
        expect_number(boardid_word_at(listed, FRAME_WORD), edition >= 4 ? frame.length : 0, what);

        memset(record.bytes, 0x5A, record.length);
        expect_count(boardid_entry(format, edition, image.bytes, image.length, n, record.bytes,
                                   record.length),
                     1, what);
        expect_number(boardid_word_at(record.bytes, FRAME_WORD), edition >= 4 ? frame.length : 0,
                      what);
        expect(memcmp(record.bytes, listed, BOARDID_RECORD_SIZE) == 0, what);

        memset(record.bytes, 0x5A, record.length);
        expect_count(boardid_step(walk.bytes, walk.length, image.bytes, image.length, record.bytes,
                                  record.length),
                     1, what);
        expect_number(boardid_word_at(record.bytes, FRAME_WORD), edition >= 4 ? frame.length : 0,
                      what);
        expect(memcmp(record.bytes, listed, BOARDID_RECORD_SIZE) == 0, what);
        expect_number(boardid_walk_edition(walk.bytes), edition, what);
        expect_number(boardid_walk_entry(walk.bytes), (uint64_t)n + 1, what);
    }
    expect_refused(boardid_step(walk.bytes, walk.length, image.bytes, image.length, record.bytes,
                                record.length),
                   13, 0, what);
    give_back(walk);
    give_back(record);
    give_back(records);
}

/* Editions 3 and 4 give the same records of an image, but for word 7. */
static void same_but_frames(uint32_t format, struct lent image, const struct frames *frames,
                            const char *what)
{
    struct lent third = lend(frames->count * (size_t)BOARDID_RECORD_SIZE);
    struct lent fourth = lend(third.length);
    uint32_t n;

    expect_count(boardid_list(format, 3, image.bytes, image.length, third.bytes, third.length),
                 frames->count, what);
    expect_count(boardid_list(format, 4, image.bytes, image.length, fourth.bytes, fourth.length),
                 frames->count, what);
    for (n = 0; n < frames->count; n++) {
        boardid_word_set(fourth.bytes + n * (size_t)BOARDID_RECORD_SIZE, FRAME_WORD, 0);
    }
    expect(same_bytes(third, fourth), what);
    give_back(fourth);
    give_back(third);
}

/* A record by this header: its frame's length, or what stands in its place. */
static void expect_record(struct boardid_record record, struct frame frame, const char *what)
{
    expect_number(record.place, frame.place, what);
#if BOARDID_EDITION >= 4
    expect_number(record.frame_length, frame.length, what);
    expect_number(record.place + record.frame_length, record.value_place + record.value_length,
                  what);
#else
    expect_number(record.reserved, 0, what);
    expect_number(record.value_place + record.value_length - record.place, frame.length, what);
#endif
}

/* The header's list, entry and step. */
static void by_header(uint32_t format, struct lent image, const struct frames *frames,
                      const char *what)
{
    struct lent records = lend(frames->count * (size_t)BOARDID_RECORD_SIZE);
    struct lent record = lend(BOARDID_RECORD_SIZE), walk = lend(BOARDID_WALK_SIZE);
    struct boardid_record direct[MOST_ENTRIES];
    uint32_t n;

    expect_count(boardid_list_entries(format, image.bytes, image.length, records.bytes,
                                      records.length),
                 frames->count, what);
    /* The library is for a machine whose words have the low byte first: structs may be lent. */
    memset(direct, 0x5A, sizeof direct);
    expect_count(boardid_list_entries(format, image.bytes, image.length, (uint8_t *)direct,
                                      sizeof direct),
                 frames->count, what);
    boardid_walk_set(walk.bytes, format, 0);
    for (n = 0; n < frames->count; n++) {
        expect_record(boardid_record_at(records.bytes, n), frames->list[n], what);
        expect_record(direct[n], frames->list[n], what);
        expect_count(boardid_entry_at(format, image.bytes, image.length, n, record.bytes,
                                      record.length),
                     1, what);
        expect_record(boardid_record_at(record.bytes, 0), frames->list[n], what);
        memset(record.bytes, 0x5A, record.length);
        expect_count(boardid_walk_step(walk.bytes, walk.length, image.bytes, image.length,
                                       record.bytes, record.length),
                     1, what);
        expect_record(boardid_record_at(record.bytes, 0), frames->list[n], what);
    }
    give_back(walk);
    give_back(record);
    give_back(records);
}

/* Expects the frames of an image by every call that gives records, in every edition. */
static void expect_frames(uint32_t format, struct lent image, const struct frames *frames,
                          const char *what)
{
    uint32_t edition;

    frames_tile(format, image, frames, what);
    for (edition = first_edition(format); edition <= NEWEST; edition++) {
        by_exports(format, edition, image, frames, what);
    }
    same_but_frames(format, image, frames, what);
    if (BOARDID_EDITION >= first_edition(format)) {
        by_header(format, image, frames, what);
    }
}

static void images(void)
{
    size_t i;

    for (i = 0; i < sizeof image_cases / sizeof image_cases[0]; i++) {
        const struct image_case *c = &image_cases[i];
        struct lent image = lend_image(c), before = lend_copy(image.bytes, image.length);

        expect_frames(c->format, image, &c->frames, c->what);
        expect(same_bytes(image, before), c->what);
        give_back(before);
        give_back(image);
    }
}

/* A walk that changes its edition between two steps: each step goes by the one that it has then. */
static void editions_of_a_walk(void)
{
    struct lent image = lend_hex("01 80 01 41 80 02 78 79 01 01 42 00 01 01 43 80 00 00");
    static const uint32_t by_turns[] = {4, 3, 4};
    static const uint32_t words[] = {8, 0, 5};
    struct lent walk = lend_walk(2, 4, 0), record = lend(BOARDID_RECORD_SIZE);
    size_t i;

    for (i = 0; i < 3; i++) {
        boardid_word_set(walk.bytes, 1, by_turns[i]);
        expect_count(boardid_step(walk.bytes, walk.length, image.bytes, image.length, record.bytes,
                                  record.length),
                     1, "a walk of two editions");
        expect_number(boardid_word_at(record.bytes, FRAME_WORD), words[i],
                      "a walk of two editions: word 7");
    }
    give_back(record);
    give_back(walk);
    give_back(image);
}

/* ---- Edits ---------------------------------------------------------------------------------- */

/* An edit of entry n of an image, by every edition from one on, and the frames afterwards. */
struct edit_case {
    struct image_case before;
    uint32_t since;
    uint32_t n;
    struct bytes value;
    struct frames after;
};

static const struct edit_case edit_cases[] = {
    {FBOSS_EIGHT("FBOSS: a name to 255 bytes"),
     1,
     1,
     {"", 255},
     {8, {{4, 3}, {7, 257}, {264, 3}, {267, 3}, {270, 2}, {272, 4}, {276, 10}, {286, 10}}, 296}},
    {FBOSS_EIGHT("FBOSS: 20 to another address"),
     2,
     6,
     {"02 1A 2B 3C 4D 5F 00 01", 0},
     {8, {{4, 3}, {7, 4}, {11, 3}, {14, 3}, {17, 2}, {19, 4}, {23, 10}, {33, 10}}, 43}},
    {VPD_FORMS("VPD: two lengths of four bytes, the value's to one"),
     1,
     6,
     {"42", 0},
     {8, {{0, 6}, {6, 7}, {13, 8}, {21, 9}, {30, 7}, {37, 9}, {46, 8}, {54, 10}}, 64}},
    {VPD_FORMS("VPD: the value that is there, its length in four bytes"),
     1,
     3,
     {"78 79", 0},
     {8, {{0, 6}, {6, 7}, {13, 8}, {21, 6}, {27, 7}, {34, 9}, {43, 12}, {55, 10}}, 65}},
    {VPD_FORMS("VPD: a value to none"),
     1,
     3,
     {"", 0},
     {8, {{0, 6}, {6, 7}, {13, 8}, {21, 4}, {25, 7}, {32, 9}, {41, 12}, {53, 10}}, 63}},
    {VPD_FORMS("VPD: a value to 128 bytes"),
     1,
     0,
     {"", 128},
     {8,
      {{0, 133}, {133, 7}, {140, 8}, {148, 9}, {157, 7}, {164, 9}, {173, 12}, {185, 10}},
      195}},
    {VPD_FORMS("VPD: FEh"),
     2,
     7,
     {"05 06 07 08", 0},
     {8, {{0, 6}, {6, 7}, {13, 8}, {21, 9}, {30, 7}, {37, 9}, {46, 12}, {58, 8}}, 66}},
    {VPD_LONG("VPD: 16,383 bytes to 16,384"),
     1,
     0,
     {"", 16384},
     {3, {{0, 16390}, {16390, 16390}, {32780, 16391}}, 49171}},
    {VPD_LONG("VPD: 16,384 bytes to 16,384, their length from four bytes to three"),
     1,
     2,
     {"", 16384},
     {3, {{0, 16388}, {16388, 16390}, {32778, 16390}}, 49168}},
    {TINY_SEVEN("Tiny: a pool to eight bytes"),
     1,
     6,
     {"", 8},
     {7, {{3, 2}, {5, 2}, {7, 7}, {14, 7}, {21, 3}, {24, 9}, {33, 10}}, 43}},
    {TINY_SEVEN("Tiny: a pool to none"),
     1,
     6,
     {"", 0},
     {7, {{3, 2}, {5, 2}, {7, 7}, {14, 7}, {21, 3}, {24, 9}, {33, 2}}, 35}},
    {ONIE_TWELVE("ONIE: a name to none"),
     3,
     0,
     {"", 0},
     {12,
      {{11, 2}, {13, 2}, {15, 4}, {19, 8}, {27, 21}, {48, 3}, {51, 4}, {55, 3}, {58, 4}, {62, 3},
       {65, 7}, {72, 6}},
      78}},
    {ONIE_TWELVE("ONIE: FDh to 255 bytes"),
     3,
     10,
     {"", 255},
     {12,
      {{11, 4}, {15, 2}, {17, 4}, {21, 8}, {29, 21}, {50, 3}, {53, 4}, {57, 3}, {60, 4}, {64, 3},
       {67, 257}, {324, 6}},
      330}},
};

/*
 * What an edition made of an image: the frames of the whole output, and of its part up to the length
 * given. Every frame that was kept has the bytes that it had; frame n is an edited one where more is
 * 0, a new one where it is 1, and one that is gone where it is -1.
 */
static void expect_made(const struct image_case *before, struct lent image, struct lent out,
                        const struct frames *after, uint32_t n, int more)
{
    struct lent part = lend_copy(out.bytes, after->end + end_length(before->format));
    uint32_t k;

    expect_frames(before->format, out, after, before->what);
    expect_frames(before->format, part, after, before->what);
    expect(all_are(out, part.length, 0xFF), before->what);
    expect(after->count + (more < 0) == before->frames.count + (more > 0), before->what);
    for (k = 0; k < before->frames.count; k++) {
        if (k != n || more > 0) {
            struct frame old = before->frames.list[k];
            struct frame now = after->list[k + (more > 0 && k >= n) - (more < 0 && k > n)];

            expect(old.length == now.length && memcmp(image.bytes + old.place,
                                                      part.bytes + now.place, now.length) == 0,
                   before->what);
        }
    }
    give_back(part);
}

static void edits(void)
{
    size_t i;
    uint32_t edition;

    for (i = 0; i < sizeof edit_cases / sizeof edit_cases[0]; i++) {
        const struct edit_case *c = &edit_cases[i];
        struct lent image = lend_image(&c->before), value = lend_bytes(&c->value, 1);
        uint32_t length = c->after.end + end_length(c->before.format);

        expect_frames(c->before.format, image, &c->before.frames, c->before.what);
        for (edition = c->since; edition <= NEWEST; edition++) {
            struct lent out = lend(length + 100);

            expect_count(boardid_edit(c->before.format, edition, image.bytes, image.length, c->n,
                                      value.bytes, value.length, out.bytes, out.length),
                         length, c->before.what);
            expect_made(&c->before, image, out, &c->after, c->n, 0);
            give_back(out);
        }
        give_back(value);
        give_back(image);
    }
}

/* ---- Additions and removals ----------------------------------------------------------------- */

/* An addition by every edition from one on: the field, the number of its entry, and the frames. */
struct add_case {
    struct image_case before;
    uint32_t since;
    uint32_t code;
    struct bytes key;
    struct bytes value;
    uint32_t n;
    struct frames after;
};

static const struct add_case add_cases[] = {
    {FBOSS_EIGHT("FBOSS: 12 comes"), 1, 12, {"", 0}, {"51 43 54", 0}, 8,
     {9, {{4, 3}, {7, 4}, {11, 3}, {14, 3}, {17, 2}, {19, 4}, {23, 10}, {33, 10}, {43, 5}}, 48}},
    {FBOSS_EIGHT("FBOSS: 17 comes"), 2, 17, {"", 0}, {"02 1A 2B 3C 4D 5E 00 01", 0}, 8,
     {9, {{4, 3}, {7, 4}, {11, 3}, {14, 3}, {17, 2}, {19, 4}, {23, 10}, {33, 10}, {43, 10}}, 53}},
    {VPD_NONE("VPD: to no entries"), 1, 1, {"4B", 0}, {"", 0}, 0, {1, {{0, 4}}, 4}},
    {VPD_SKU("VPD: FEh comes"), 2, 0xFE, {"", 0}, {"01 02 03 04", 0}, 1,
     {2, {{0, 8}, {8, 7}}, 15}},
    {VPD_FORMS("VPD: 127 bytes come"), 1, 1, {"4B", 0}, {"", 127}, 8,
     {9,
      {{0, 6}, {6, 7}, {13, 8}, {21, 9}, {30, 7}, {37, 9}, {46, 12}, {58, 10}, {68, 131}},
      199}},
    {VPD_FORMS("VPD: 128 bytes come"), 1, 1, {"4B", 0}, {"", 128}, 8,
     {9,
      {{0, 6}, {6, 7}, {13, 8}, {21, 9}, {30, 7}, {37, 9}, {46, 12}, {58, 10}, {68, 133}},
      201}},
    {VPD_FORMS("VPD: a key of 130 bytes comes"), 1, 1, {"4B", 129}, {"", 0}, 8,
     {9,
      {{0, 6}, {6, 7}, {13, 8}, {21, 9}, {30, 7}, {37, 9}, {46, 12}, {58, 10}, {68, 134}},
      202}},
    {VPD_LONG("VPD: 16,300 bytes come"), 1, 1, {"4B", 0}, {"", 16300}, 3,
     {4, {{0, 16388}, {16388, 16390}, {32778, 16391}, {49169, 16305}}, 65474}},
    {TINY_NONE("Tiny: the longest pool comes"), 1, 1, {"", 0}, {"", 249}, 0,
     {1, {{3, 251}}, 254}},
    {TINY_SEVEN("Tiny: 62h comes before the pool"), 1, 0x62, {"", 0}, {"00 01 00 00 00 00", 0}, 6,
     {8, {{3, 2}, {5, 2}, {7, 7}, {14, 7}, {21, 3}, {24, 9}, {33, 7}, {40, 6}}, 46}},
    {TINY_SEVEN("Tiny: 80h comes before the pool"), 2, 0x80, {"", 0},
     {"00 01 00 00 00 00 0F 27", 0}, 6,
     {8, {{3, 2}, {5, 2}, {7, 7}, {14, 7}, {21, 3}, {24, 9}, {33, 9}, {42, 6}}, 48}},
    {ONIE_NONE("ONIE: 255 bytes come"), 3, 0x21, {"", 0}, {"", 255}, 0, {1, {{11, 257}}, 268}},
    {ONIE_TWELVE("ONIE: a third FDh comes"), 3, 0xFD, {"", 0}, {"00 00 1F 79", 0}, 12,
     {13,
      {{11, 4}, {15, 2}, {17, 4}, {21, 8}, {29, 21}, {50, 3}, {53, 4}, {57, 3}, {60, 4}, {64, 3},
       {67, 7}, {74, 6}, {80, 6}},
      86}},
};

static void adds(void)
{
    size_t i;
    uint32_t edition;

    for (i = 0; i < sizeof add_cases / sizeof add_cases[0]; i++) {
        const struct add_case *c = &add_cases[i];
        struct lent image = lend_image(&c->before), key = lend_bytes(&c->key, 1), values;
        struct lent field = lend(BOARDID_FIELD_SIZE);
        uint32_t length = c->after.end + end_length(c->before.format);
        struct boardid_field whole = {0, 0, 0, 0, 0};
        struct bytes parts[2];

        parts[0] = c->key;
        parts[1] = c->value;
        values = lend_bytes(parts, 2);
        whole.code = c->code;
        whole.key_length = whole.value_place = (uint32_t)key.length;
        whole.value_length = (uint32_t)(values.length - key.length);
        boardid_field_set(field.bytes, 0, whole);
        for (edition = c->since; edition <= NEWEST; edition++) {
            struct lent out = lend(length + 20);

            expect_count(boardid_add(c->before.format, edition, image.bytes, image.length,
                                     field.bytes, field.length, values.bytes, values.length,
                                     out.bytes, out.length),
                         length, c->before.what);
            expect_made(&c->before, image, out, &c->after, c->n, 1);
            give_back(out);
        }
        give_back(field);
        give_back(values);
        give_back(key);
        give_back(image);
    }
}

/* A removal of entry n by every edition from one on, and the frames. */
struct remove_case {
    struct image_case before;
    uint32_t since;
    uint32_t n;
    struct frames after;
};

static const struct remove_case remove_cases[] = {
    {FBOSS_EIGHT("FBOSS: 20 goes"), 2, 6,
     {7, {{4, 3}, {7, 4}, {11, 3}, {14, 3}, {17, 2}, {19, 4}, {23, 10}}, 33}},
    {FBOSS_EIGHT("FBOSS: 13 goes"), 1, 7,
     {7, {{4, 3}, {7, 4}, {11, 3}, {14, 3}, {17, 2}, {19, 4}, {23, 10}}, 33}},
    {VPD_SKU("VPD: the only one goes"), 1, 0, {0, {{0, 0}}, 0}},
    {VPD_FORMS("VPD: the first goes"), 1, 0,
     {7, {{0, 7}, {7, 8}, {15, 9}, {24, 7}, {31, 9}, {40, 12}, {52, 10}}, 62}},
    {VPD_FORMS("VPD: one with lengths of four bytes goes"), 1, 6,
     {7, {{0, 6}, {6, 7}, {13, 8}, {21, 9}, {30, 7}, {37, 9}, {46, 10}}, 56}},
    {VPD_FORMS("VPD: FEh goes"), 2, 7,
     {7, {{0, 6}, {6, 7}, {13, 8}, {21, 9}, {30, 7}, {37, 9}, {46, 12}}, 58}},
    {VPD_LONG("VPD: 16,384 bytes go"), 1, 1, {2, {{0, 16388}, {16388, 16391}}, 32779}},
    {TINY_SEVEN("Tiny: 60h goes"), 1, 2,
     {6, {{3, 2}, {5, 2}, {7, 7}, {14, 3}, {17, 9}, {26, 6}}, 32}},
    {TINY_SEVEN("Tiny: 81h goes"), 2, 5,
     {6, {{3, 2}, {5, 2}, {7, 7}, {14, 7}, {21, 3}, {24, 6}}, 30}},
    {TINY_SEVEN("Tiny: the pool goes"), 1, 6,
     {6, {{3, 2}, {5, 2}, {7, 7}, {14, 7}, {21, 3}, {24, 9}}, 33}},
    {ONIE_TWELVE("ONIE: 25h goes"), 3, 4,
     {11,
      {{11, 4}, {15, 2}, {17, 4}, {21, 8}, {29, 3}, {32, 4}, {36, 3}, {39, 4}, {43, 3}, {46, 7},
       {53, 6}},
      59}},
    {ONIE_TWELVE("ONIE: the first FDh goes"), 3, 10,
     {11,
      {{11, 4}, {15, 2}, {17, 4}, {21, 8}, {29, 21}, {50, 3}, {53, 4}, {57, 3}, {60, 4}, {64, 3},
       {67, 6}},
      73}},
};

static void removes(void)
{
    size_t i;
    uint32_t edition;

    for (i = 0; i < sizeof remove_cases / sizeof remove_cases[0]; i++) {
        const struct remove_case *c = &remove_cases[i];
        struct lent image = lend_image(&c->before);
        uint32_t length = c->after.end + end_length(c->before.format);

        for (edition = c->since; edition <= NEWEST; edition++) {
            struct lent out = lend(length + 100);

            expect_count(boardid_remove(c->before.format, edition, image.bytes, image.length, c->n,
                                        out.bytes, out.length),
                         length, c->before.what);
            expect_made(&c->before, image, out, &c->after, c->n, -1);
            give_back(out);
        }
        give_back(image);
    }
}

/* What was written has its frames too: a key of three bytes and a value of 128, and an FEh. */
static void written(void)
{
    static const struct frames frames = {2, {{0, 135}, {135, 7}}, 142};
    struct boardid_field string = {0x01, 0, 3, 3, 128}, info = {0xFE, 0, 0, 3, 4};
    struct lent fields = lend(2 * BOARDID_FIELD_SIZE), out = lend(150), values, part;
    struct bytes bytes = {"53 4B 55", 128};
    uint32_t edition;

    values = lend_bytes(&bytes, 1);
    boardid_field_set(fields.bytes, 0, string);
    boardid_field_set(fields.bytes, 1, info);
    for (edition = 2; edition <= NEWEST; edition++) {
        expect_count(boardid_write(2, edition, fields.bytes, fields.length, values.bytes,
                                   values.length, out.bytes, out.length),
                     143, "a written image");
        part = lend_copy(out.bytes, 143);
        expect_frames(2, out, &frames, "a written image, the whole output");
        expect_frames(2, part, &frames, "a written image");
        give_back(part);
    }
    give_back(values);
    give_back(out);
    give_back(fields);
}

/* ---- Editions ------------------------------------------------------------------------------- */

/* Every exported call on an image with an edition that is not known: 1 at 0, and nothing changed. */
static void unknown_edition(uint32_t format, uint32_t edition, struct lent image)
{
    struct lent lent = lend(16 * BOARDID_RECORD_SIZE), walk = lend_walk(format, edition, 0);
    static const char what[] = "an unknown edition";

    expect_refused(boardid_check(format, edition, image.bytes, image.length), 1, 0, what);
    expect_refused(boardid_list(format, edition, image.bytes, image.length, lent.bytes,
                                lent.length),
                   1, 0, what);
    expect_refused(boardid_entry(format, edition, image.bytes, image.length, 0, lent.bytes,
                                 lent.length),
                   1, 0, what);
    expect_refused(boardid_value(format, edition, image.bytes, image.length, 0), 1, 0, what);
    expect_refused(boardid_string(format, edition, image.bytes, image.length, 0),
                   format == 3 ? 1 : 16, 0, what);
    expect_refused(boardid_step(walk.bytes, walk.length, image.bytes, image.length, lent.bytes,
                                lent.length),
                   1, 0, what);
    expect_number(boardid_walk_edition(walk.bytes), edition, what);
    expect_number(boardid_walk_entry(walk.bytes), 0, what);
    expect_refused(boardid_write(format, edition, NULL, 0, NULL, 0, lent.bytes, lent.length), 1, 0,
                   what);
    expect_refused(boardid_edit(format, edition, image.bytes, image.length, 0, NULL, 0, lent.bytes,
                                lent.length),
                   1, 0, what);
    expect_refused(boardid_add(format, edition, image.bytes, image.length, NULL, 0, NULL, 0,
                               lent.bytes, lent.length),
                   1, 0, what);
    expect_refused(boardid_remove(format, edition, image.bytes, image.length, 0, lent.bytes,
                                  lent.length),
                   1, 0, what);
#if BOARDID_EDITION >= 3
    {
        struct lent piece = lend_hex("10 00 00 00"), block = lend(BOARDID_VENDOR_BLOCK_SIZE);

        expect_refused(boardid_vendor_read(format, edition, image.bytes, image.length, lent.bytes,
                                           lent.length, block.bytes, block.length),
                       format == 4 ? 1 : 16, 0, what);
        expect_refused(boardid_vendor_write(format, edition, NULL, 0, 0, piece.bytes, piece.length,
                                            lent.bytes, lent.length),
                       format == 4 ? 1 : 16, 0, what);
        expect(all_are(block, 0, 0x5A), what);
        give_back(block);
        give_back(piece);
    }
#endif
    expect(all_are(lent, 0, 0x5A), what);
    give_back(walk);
    give_back(lent);
}

static void unknown_editions(void)
{
    static const uint32_t unknown[] = {0, 5, 6, 99, 257, 260, 65540, 0x80000004, 0xFFFFFFFF};
    size_t i, k;

    for (i = 0; i < sizeof image_cases / sizeof image_cases[0]; i++) {
        struct lent image = lend_image(&image_cases[i]);

        for (k = 0; k < sizeof unknown / sizeof unknown[0]; k++) {
            unknown_edition(image_cases[i].format, unknown[k], image);
        }
        give_back(image);
    }
}

/*
 * Edition 4 names what edition 3 names: a write of any one code, with a value of any length that a
 * rule asks for, is answered alike. The value's bytes are zeros, which break the rule of a text.
 */
static void same_names(void)
{
    struct lent values = lend(20), field = lend(BOARDID_FIELD_SIZE);
    struct lent third = lend(64), fourth = lend(64);
    uint32_t format, code, length;

    memset(values.bytes, 0, values.length);
    for (format = 0; format <= 6; format++) {
        for (code = 0; code <= 300; code++) {
            for (length = 0; length <= 19; length++) {
                struct boardid_field one = {0, 0, 1, 0, 0};

                one.code = code;
                one.value_length = length;
                boardid_field_set(field.bytes, 0, one);
                memset(third.bytes, 0x5A, third.length);
                memset(fourth.bytes, 0x5A, fourth.length);
                expect_number(boardid_write(format, 4, field.bytes, field.length, values.bytes,
                                            values.length, fourth.bytes, fourth.length),
                              boardid_write(format, 3, field.bytes, field.length, values.bytes,
                                            values.length, third.bytes, third.length),
                              "what editions 3 and 4 name");
                expect(same_bytes(third, fourth), "what editions 3 and 4 write");
            }
        }
    }
    give_back(fourth);
    give_back(third);
    give_back(field);
    give_back(values);
}

int main(void)
{
    images();
    editions_of_a_walk();
    edits();
    adds();
    removes();
    written();
    unknown_editions();
    same_names();
    return expectations_met("frames");
}
