/*
 * The calls on vendor payloads, through a header's functions and as the library exports them: the
 * example of the vendor's document, and both sides of each refusal. Compiled with each header from
 * edition 3 on. All lent memory ends at a page that may not be touched.
 *
 * Payloads, values and images are put together here, so that neither call is held to the other; the
 * last section holds what is written to what is read.
 */
#define _DEFAULT_SOURCE

#include "answers.h"
#include "checks.h"

/* What begins the value of an entry that has a piece. */
#define PREFIX "00 00 1F 79 00 "

/* The example of the vendor's document: the serial DQ000MPW and eight offsets of 0. */
#define SERIAL "44 51 30 30 30 4D 50 57 "
#define EXAMPLE_BUT_ONE "08 " SERIAL "00 09 00 00 00 00 00 00 00 00 00 02 60 51 "
#define EXAMPLE EXAMPLE_BUT_ONE "4B "

static const int8_t zeros[8];
static const int8_t ends[8] = {-128, -1, 0, 24, 127, -2, 1, -127};

/* ---- What is lent --------------------------------------------------------------------------- */

/* Bytes that are being put together. */
struct made {
    uint8_t bytes[66000];
    size_t length;
};

/* Puts bytes after those that are there. */
static void put(struct made *made, const uint8_t *bytes, size_t length)
{
    if (length != 0) {
        memcpy(made->bytes + made->length, bytes, length);
    }
    made->length += length;
}

/* Puts bytes written in hexadecimal. */
static void put_hex(struct made *made, const char *hex)
{
    struct lent bytes = lend_hex(hex);

    put(made, bytes.bytes, bytes.length);
    give_back(bytes);
}

/* Puts the check of all that is there. */
static void put_its_check(struct made *made)
{
    put_check32(made->bytes + made->length, check32_of(made->bytes, made->length));
    made->length += 4;
}

/* Lends an ONIE image of these entries, with the right length and the right check. */
static struct lent lend_image(const struct made *entries)
{
    struct made image;
    uint8_t length[2];

    image.length = 0;
    length[0] = (uint8_t)((entries->length + 6) >> 8);
    length[1] = (uint8_t)(entries->length + 6);
    put_hex(&image, "54 6C 76 49 6E 66 6F 00 01");
    put(&image, length, 2);
    put(&image, entries->bytes, entries->length);
    put_hex(&image, "FE 04");
    put_its_check(&image);
    return lend_copy(image.bytes, image.length);
}

/* Lends an ONIE image of entries written in hexadecimal. */
static struct lent lend_image_hex(const char *hex)
{
    struct made entries;

    entries.length = 0;
    put_hex(&entries, hex);
    return lend_image(&entries);
}

/* Puts an FDh entry that has a piece. */
static void put_entry(struct made *entries, const uint8_t *piece, size_t length)
{
    uint8_t head[2];

    head[0] = 0xFD;
    head[1] = (uint8_t)(BOARDID_VENDOR_PREFIX_LENGTH + length);
    put(entries, head, 2);
    put_hex(entries, PREFIX);
    put(entries, piece, length);
}

/* Lends an ONIE image of a payload, in as few pieces as can be, but one at least. */
static struct lent lend_image_of(const uint8_t *payload, size_t length)
{
    struct made entries;
    size_t from = 0, piece;

    entries.length = 0;
    do {
        piece = length - from < 250 ? length - from : 250;
        put_entry(&entries, payload + from, piece);
        from += piece;
    } while (from < length);
    return lend_image(&entries);
}

/* The payload of a serial and offsets. */
static struct made payload_of(struct lent serial, const int8_t *offsets)
{
    struct made payload;
    uint8_t byte = (uint8_t)serial.length;
    size_t k;

    payload.length = 0;
    put(&payload, &byte, 1);
    put(&payload, serial.bytes, serial.length);
    put_hex(&payload, "00 09 00");
    for (k = 0; k < 8; k++) {
        byte = (uint8_t)offsets[k];
        put(&payload, &byte, 1);
    }
    put_its_check(&payload);
    return payload;
}

/* Lends a serial of a length, every byte of it another than the one before. */
static struct lent lend_serial(size_t length)
{
    struct lent serial = lend(length);
    size_t i;

    for (i = 0; i < length; i++) {
        serial.bytes[i] = (uint8_t)(7 * i + length);
    }
    return serial;
}

/* Lends the lengths of pieces. */
static struct lent lend_pieces(const uint32_t *lengths, size_t count)
{
    struct lent pieces = lend(count * BOARDID_VENDOR_PIECE_SIZE);
    size_t k;

    for (k = 0; k < count; k++) {
        boardid_vendor_piece_set(pieces.bytes, k, lengths[k]);
    }
    return pieces;
}

/* ---- Expectations --------------------------------------------------------------------------- */

/* Expects that a block says a serial's length and offsets, each of its twelve words. */
static void expect_block(const uint8_t *bytes, uint32_t serial_length, const int8_t *offsets,
                         const char *what)
{
    struct boardid_vendor_block block = boardid_vendor_block_at(bytes);
    uint32_t k;

    expect_number(boardid_word_at(bytes, 0), 1, what);
    expect_number(boardid_word_at(bytes, 1), serial_length, what);
    expect_number(boardid_word_at(bytes, 2), serial_length + 3, what);
    expect_number(boardid_word_at(bytes, 3), 9, what);
    expect_number(block.serial_place, 1, what);
    expect_number(block.serial_length, serial_length, what);
    expect_number(block.block_place, serial_length + 3, what);
    expect_number(block.block_length, 9, what);
    for (k = 0; k < 8; k++) {
        uint32_t byte = (uint8_t)offsets[k];

        expect_number(boardid_word_at(bytes, 4 + k), byte < 128 ? byte : byte | 0xFFFFFF00, what);
        expect(block.offsets[k] == offsets[k], what);
    }
}

/*
 * Expects that an image has a payload: into exactly its length and 48 bytes, and into more, where
 * the bytes after them stay. The image stays as it is.
 */
static void expect_payload(struct lent image, const uint8_t *wanted, size_t length,
                           const int8_t *offsets, const char *what)
{
    struct lent before = lend_copy(image.bytes, image.length), payload, block;
    size_t more;

    for (more = 0; more <= 9; more += 9) {
        payload = lend(length + more);
        block = lend(BOARDID_VENDOR_BLOCK_SIZE + more);
        expect_count(boardid_vendor_read_payload(image.bytes, image.length, payload.bytes,
                                                 payload.length, block.bytes, block.length),
                     (uint32_t)length, what);
        expect(memcmp(payload.bytes, wanted, length) == 0, what);
        expect(all_are(payload, length, 0x5A), what);
        expect_block(block.bytes, wanted[0], offsets, what);
        expect(all_are(block, BOARDID_VENDOR_BLOCK_SIZE, 0x5A), what);
        expect(same_bytes(image, before), what);
        give_back(block);
        give_back(payload);
    }
    give_back(before);
}

/* Expects that the exported read is refused, and that every lent byte stays as it was. */
static void expect_read_refused(uint32_t format, uint32_t edition, struct lent image,
                                size_t payload_length, size_t block_length, struct outcome outcome,
                                const char *what)
{
    struct lent before = lend_copy(image.bytes, image.length);
    struct lent payload = lend(payload_length), block = lend(block_length);

    expect_answer(boardid_vendor_read(format, edition, image.bytes, image.length, payload.bytes,
                                      payload.length, block.bytes, block.length),
                  outcome, what);
    expect(all_are(payload, 0, 0x5A), what);
    expect(all_are(block, 0, 0x5A), what);
    expect(same_bytes(image, before), what);
    give_back(block);
    give_back(payload);
    give_back(before);
}

/*
 * Expects a refusal of a read that is no matter of room: with room enough, and with none. The image
 * stays as it is, and so does all that is lent with it.
 */
static void expect_no_payload(struct lent image, uint32_t number, uint64_t place, const char *what)
{
    struct lent payload = lend(300), block = lend(60);
    struct outcome outcome = {number, place, 0};

    expect_answer(boardid_vendor_read_payload(image.bytes, image.length, payload.bytes,
                                              payload.length, block.bytes, block.length),
                  outcome, what);
    expect(all_are(payload, 0, 0x5A), what);
    expect(all_are(block, 0, 0x5A), what);
    expect_answer(boardid_vendor_read_payload(image.bytes, image.length, NULL, 0, NULL, 0), outcome,
                  what);
    expect_read_refused(4, BOARDID_EDITION, image, 300, 0, outcome, what);
    expect_read_refused(4, BOARDID_EDITION, image, 0, 48, outcome, what);
    expect_read_refused(4, BOARDID_EDITION, image, 65536, 47, outcome, what);
    give_back(block);
    give_back(payload);
}

/* ---- Reading -------------------------------------------------------------------------------- */

/* The vendor document's example, as two whole images, each with its check written here. */
static void example(void)
{
    struct lent payload = lend_hex(EXAMPLE);
    struct lent one = lend_hex("54 6C 76 49 6E 66 6F 00 01 00 25 FD 1D " PREFIX EXAMPLE
                               "FE 04 C4 CA CB B7");
    struct lent two = lend_hex("54 6C 76 49 6E 66 6F 00 01 00 2C FD 1C " PREFIX EXAMPLE_BUT_ONE
                               "FD 06 " PREFIX "4B FE 04 0F AE 02 F5");
    struct lent rest = lend_hex("54 6C 76 49 6E 66 6F 00 01 00 25 FD 1D " PREFIX EXAMPLE
                                "FE 04 C4 CA CB B7 FD 06 " PREFIX "00 FF FF");
    struct lent bytes = lend(48);
    struct boardid_vendor_block block, direct;

    expect_payload(one, payload.bytes, payload.length, zeros, "the example in one piece");
    expect_payload(two, payload.bytes, payload.length, zeros, "the example in two pieces");
    expect_payload(rest, payload.bytes, payload.length, zeros, "bytes after the image");

    expect_count(boardid_vendor_read(4, 3, one.bytes, one.length, payload.bytes, payload.length,
                                     bytes.bytes, bytes.length),
                 24, "the exported read, edition 3");
    block = boardid_vendor_block_at(bytes.bytes);
    expect(block.serial_length == 8 &&
               memcmp(payload.bytes + block.serial_place, "DQ000MPW", 8) == 0,
           "the serial is DQ000MPW");

    /* The library is for a machine whose words have the low byte first: the struct may be lent. */
    memset(&direct, 0x5A, sizeof direct);
    expect_count(boardid_vendor_read_payload(one.bytes, one.length, payload.bytes, payload.length,
                                             (uint8_t *)&direct, sizeof direct),
                 24, "a struct that is lent");
    expect(memcmp(&direct, &block, sizeof block) == 0, "a struct that is lent: its words");
    give_back(bytes);
    give_back(rest);
    give_back(two);
    give_back(one);
    give_back(payload);
}

/* Entries, and the number that a read of their image is refused with; 0: it gives the example. */
struct entries_case {
    const char *what;
    const char *entries;
    uint32_t number;
};

static const struct entries_case entries_cases[] = {
    {"no entries", "", 17},
    {"no FDh", "21 01 41 26 01 01", 17},
    {"another enterprise number", "FD 1D 00 00 1F 78 00 " EXAMPLE, 17},
    {"an enterprise number low byte first", "FD 1D 79 1F 00 00 00 " EXAMPLE, 17},
    {"another fifth byte", "FD 1D 00 00 1F 79 01 " EXAMPLE, 17},
    {"four bytes of the prefix", "FD 04 00 00 1F 79", 17},
    {"the prefix not at the start", "FD 1E FF " PREFIX EXAMPLE, 17},
    {"code FCh", "FC 1D " PREFIX EXAMPLE, 17},
    {"code 26h", "26 1D " PREFIX EXAMPLE, 17},
    {"one piece", "FD 1D " PREFIX EXAMPLE, 0},
    {"two pieces", "FD 1C " PREFIX EXAMPLE_BUT_ONE "FD 06 " PREFIX "4B", 0},
    {"the second piece first", "FD 06 " PREFIX "4B FD 1C " PREFIX EXAMPLE_BUT_ONE, 18},
    {"the payload twice", "FD 1D " PREFIX EXAMPLE "FD 1D " PREFIX EXAMPLE, 18},
    {"an empty piece before", "FD 05 " PREFIX "FD 1D " PREFIX EXAMPLE, 0},
    {"an empty piece after", "FD 1D " PREFIX EXAMPLE "FD 05 " PREFIX, 0},
    {"empty pieces between",
     "FD 1C " PREFIX EXAMPLE_BUT_ONE "FD 05 " PREFIX "FD 05 " PREFIX "FD 06 " PREFIX "4B", 0},
    {"an empty piece alone", "FD 05 " PREFIX, 18},
    {"two empty pieces", "FD 05 " PREFIX "FD 05 " PREFIX, 18},
    {"other entries before, between and after",
     "21 01 41 FD 04 00 00 1F 79 FD 1C " PREFIX EXAMPLE_BUT_ONE
     "26 06 " PREFIX "00 FD 06 00 00 1F 78 00 00 FD 06 00 00 1F 79 01 00 FD 04 00 00 1F 79 "
     "FD 06 " PREFIX "4B 2C 02 43 5A 26 06 " PREFIX "00 FD 09 FF FF FF FF " PREFIX,
     0},
    {"a second piece of another code", "FD 1C " PREFIX EXAMPLE_BUT_ONE "26 06 " PREFIX "4B", 18},
    {"a second piece of another enterprise",
     "FD 1C " PREFIX EXAMPLE_BUT_ONE "FD 06 00 00 1F 78 00 4B", 18},
    {"a second piece without a prefix", "FD 1C " PREFIX EXAMPLE_BUT_ONE "FD 04 4B 4B 4B 4B", 18},
};

static void entries(void)
{
    struct lent payload = lend_hex(EXAMPLE), prefix = lend_hex(PREFIX), image;
    struct made made;
    size_t i;
    int bit;

    for (i = 0; i < sizeof entries_cases / sizeof entries_cases[0]; i++) {
        const struct entries_case *c = &entries_cases[i];

        image = lend_image_hex(c->entries);
        if (c->number != 0) {
            expect_no_payload(image, c->number, 0, c->what);
        } else {
            expect_payload(image, payload.bytes, payload.length, zeros, c->what);
        }
        give_back(image);
    }
    for (i = 0; i < prefix.length; i++) {
        for (bit = 0; bit < 8; bit++) {
            made.length = 0;
            put_entry(&made, payload.bytes, payload.length);
            made.bytes[2 + i] = (uint8_t)(made.bytes[2 + i] ^ 1 << bit);
            image = lend_image(&made);
            expect_no_payload(image, 17, 0, "a wrong bit of the prefix");
            give_back(image);
        }
    }
    give_back(prefix);
    give_back(payload);
}

/* Payloads whose length is not that of their parts, whether their last four bytes are the check. */
static const char *const wrong_lengths[] = {
    "",
    "00",
    "08",
    "FF",
    "00 00",
    "00 00 00",
    "00 00 00 00 00 00",
    "00 00 00 00 00 00 00 00",
    "01 41",
    "01 41 00",
    "01 41 00 09",
    "08 " SERIAL,
    "08 " SERIAL "00",
    "08 " SERIAL "00 09",
    "08 " SERIAL "00 09 00 00 00 00 00 00 00 00 00",
    EXAMPLE_BUT_ONE,
    EXAMPLE "00",
    EXAMPLE EXAMPLE,
    "07 " SERIAL "00 09 00 00 00 00 00 00 00 00 00 00 00 00 00",
    "09 " SERIAL "00 09 00 00 00 00 00 00 00 00 00 00 00 00 00",
    "FF " SERIAL "00 09 00 00 00 00 00 00 00 00 00 00 00 00 00",
    "08 " SERIAL "00 08 00 00 00 00 00 00 00 00 00 00 00 00 00",
    "08 " SERIAL "00 0A 00 00 00 00 00 00 00 00 00 00 00 00 00",
    "08 " SERIAL "09 00 00 00 00 00 00 00 00 00 00 00 00 00 00",
    "08 " SERIAL "01 09 00 00 00 00 00 00 00 00 00 00 00 00 00",
    "08 " SERIAL "FF FF 00 00 00 00 00 00 00 00 00 00 00 00 00",
};

/* Payloads without their check, and the number of a read where it is right: 0 or 20. */
struct block_case {
    const char *what;
    const char *payload;
    uint32_t number;
};

static const struct block_case block_cases[] = {
    {"no serial", "00 00 09 00 80 FF 00 18 7F FE 01 81", 0},
    {"DQ000MPW", "08 " SERIAL "00 09 00 80 FF 00 18 7F FE 01 81", 0},
    {"a serial of any bytes", "04 00 0A 1B FF 00 09 00 80 FF 00 18 7F FE 01 81", 0},
    {"a serial that is the prefix", "05 " PREFIX "00 09 00 80 FF 00 18 7F FE 01 81", 0},
    {"no block", "00 00 00", 20},
    {"no block after a serial", "08 " SERIAL "00 00", 20},
    {"a version alone", "00 00 01 00", 20},
    {"seven offsets", "00 00 08 00 80 FF 00 18 7F FE 01", 20},
    {"nine offsets", "00 00 0A 00 80 FF 00 18 7F FE 01 81 00", 20},
    {"version 01", "08 " SERIAL "00 09 01 80 FF 00 18 7F FE 01 81", 20},
    {"version 80", "00 00 09 80 80 FF 00 18 7F FE 01 81", 20},
    {"version FF", "00 00 09 FF 80 FF 00 18 7F FE 01 81", 20},
    {"version 01 and seven offsets", "00 00 08 01 80 FF 00 18 7F FE 01", 20},
};

/* A payload whose check is right, then with each bit of the check wrong, and low byte first. */
static void judged_block(const struct made *payload, uint32_t number, const char *what)
{
    struct made other = *payload;
    uint8_t *check = other.bytes + other.length - 4;
    uint32_t right = check32_of(payload->bytes, payload->length - 4);
    struct lent image = lend_image_of(payload->bytes, payload->length);
    int bit;

    if (number != 0) {
        expect_no_payload(image, number, 0, what);
    } else {
        expect_payload(image, payload->bytes, payload->length, ends, what);
    }
    give_back(image);
    for (bit = 0; bit < 32; bit++) {
        put_check32(check, right ^ (uint32_t)1 << bit);
        image = lend_image_of(other.bytes, other.length);
        expect_no_payload(image, 19, 0, what);
        give_back(image);
    }
    put_check32(check, (right & 0xFF) << 24 | (right & 0xFF00) << 8 | (right >> 8 & 0xFF00) |
                           right >> 24);
    image = lend_image_of(other.bytes, other.length);
    expect_no_payload(image, 19, 0, what);
    give_back(image);
}

static void payloads(void)
{
    struct made payload;
    struct lent image;
    size_t i;

    for (i = 0; i < sizeof wrong_lengths / sizeof wrong_lengths[0]; i++) {
        payload.length = 0;
        put_hex(&payload, wrong_lengths[i]);
        image = lend_image_of(payload.bytes, payload.length);
        expect_no_payload(image, 18, 0, wrong_lengths[i]);
        give_back(image);
        if (payload.length >= 4) {
            payload.length -= 4;
            put_its_check(&payload);
            image = lend_image_of(payload.bytes, payload.length);
            expect_no_payload(image, 18, 0, wrong_lengths[i]);
            give_back(image);
        }
    }
    for (i = 0; i < sizeof block_cases / sizeof block_cases[0]; i++) {
        payload.length = 0;
        put_hex(&payload, block_cases[i].payload);
        put_its_check(&payload);
        judged_block(&payload, block_cases[i].number, block_cases[i].what);
    }

    /* Nine bytes by the low byte of the length alone. */
    payload.length = 0;
    put_hex(&payload, "00 01 09");
    memset(payload.bytes + payload.length, 0, 265);
    payload.length += 265;
    put_its_check(&payload);
    judged_block(&payload, 20, "a block of 265 bytes");

    /* The most bytes that an image's pieces can have, 1,986: a serial of 255 and a long block. */
    payload.length = 0;
    memset(payload.bytes, 0, sizeof payload.bytes);
    payload.bytes[0] = 255;
    payload.bytes[256] = 1724 / 256;
    payload.bytes[257] = 1724 % 256;
    payload.length = 1982;
    put_its_check(&payload);
    image = lend_image_of(payload.bytes, payload.length);
    expect_number(image.length, 2059, "the longest image");
    expect_no_payload(image, 20, 0, "a payload of 1,986 bytes");
    give_back(image);
    payload.bytes[1985] ^= 1;
    image = lend_image_of(payload.bytes, payload.length);
    expect_no_payload(image, 19, 0, "a payload of 1,986 bytes, a wrong check");
    give_back(image);
}

/* Each bit of the example's payload changed: 18 in the two lengths, 19 in all else. */
static void wrong_bits(void)
{
    struct lent payload = lend_hex(EXAMPLE), image;
    size_t i;
    int bit;

    for (i = 0; i < payload.length; i++) {
        for (bit = 0; bit < 8; bit++) {
            payload.bytes[i] = (uint8_t)(payload.bytes[i] ^ 1 << bit);
            image = lend_image_of(payload.bytes, payload.length);
            expect_no_payload(image, i == 0 || i == 9 || i == 10 ? 18 : 19, 0,
                              "a wrong bit of the payload");
            give_back(image);
            payload.bytes[i] = (uint8_t)(payload.bytes[i] ^ 1 << bit);
        }
    }
    give_back(payload);
}

/* One payload however it is cut: into two and three pieces at any place, and into single bytes. */
static void cuts(void)
{
    struct lent serial = lend_hex(SERIAL), image;
    struct made payload = payload_of(serial, ends), entries;
    size_t first, second, i;

    for (first = 0; first <= payload.length; first++) {
        for (second = first; second <= payload.length; second++) {
            entries.length = 0;
            put_entry(&entries, payload.bytes, first);
            put_hex(&entries, "FD 06 00 00 7E D9 00 2A");
            put_entry(&entries, payload.bytes + first, second - first);
            if (second != payload.length) {
                put_entry(&entries, payload.bytes + second, payload.length - second);
            }
            image = lend_image(&entries);
            expect_payload(image, payload.bytes, payload.length, ends, "cut at two places");
            give_back(image);
        }
    }
    entries.length = 0;
    for (i = 0; i < payload.length; i++) {
        put_entry(&entries, payload.bytes + i, 1);
    }
    image = lend_image(&entries);
    expect_payload(image, payload.bytes, payload.length, ends, "single bytes");
    give_back(image);

    /* As many empty pieces as the image has room for beside it. */
    entries.length = 0;
    put_entry(&entries, payload.bytes, payload.length);
    while (entries.length + 7 <= 2042) {
        put_entry(&entries, payload.bytes, 0);
    }
    image = lend_image(&entries);
    expect_payload(image, payload.bytes, payload.length, ends, "many empty pieces");
    give_back(image);
    give_back(serial);
}

/* The room of a read: refusal 12 on both sides, and where it comes in the order. */
static void read_rooms(void)
{
    static const struct outcome no_room = {12, 0, 0}, too_long = {2, 0, 0};
    struct lent image = lend_image_hex("FD 1D " PREFIX EXAMPLE), payload, block;
    struct lent no_image = lend(0), long_image = lend(65537), longest = lend(65536);
    size_t length;

    for (length = 0; length < 24; length++) {
        expect_read_refused(4, 3, image, length, 48, no_room, "a payload that does not fit");
    }
    for (length = 0; length < 48; length++) {
        expect_read_refused(4, 3, image, 24, length, no_room, "less than a block");
    }
    expect_read_refused(4, 3, image, 23, 47, no_room, "neither has room");
    expect_read_refused(4, 3, image, 0, 0, no_room, "nothing is lent");
    expect_refused(boardid_vendor_read_payload(image.bytes, image.length, NULL, 0, NULL, 0), 12, 0,
                   "null pointers");

    payload = lend(65536);
    block = lend(70000);
    expect_count(boardid_vendor_read_payload(image.bytes, image.length, payload.bytes,
                                             payload.length, block.bytes, block.length),
                 24, "the longest buffer, and a block of any length");
    expect(all_are(payload, 24, 0x5A), "bytes after the payload stay");
    expect(all_are(block, 48, 0x5A), "bytes after the block stay");
    give_back(block);
    give_back(payload);

    expect_read_refused(4, 3, image, 65537, 48, too_long, "a buffer of 65,537 bytes");
    expect_read_refused(4, 3, no_image, 65537, 48, too_long, "2 for the buffer before 3");
    expect_read_refused(4, 3, long_image, 24, 48, too_long, "an image of 65,537 bytes");
    expect_read_refused(4, 3, long_image, 0, 0, too_long, "2 for the image before 12");
    memcpy(longest.bytes, image.bytes, image.length);
    payload = lend_hex(EXAMPLE);
    expect_payload(longest, payload.bytes, payload.length, zeros, "an image of 65,536 bytes");
    give_back(payload);
    give_back(longest);
    give_back(long_image);
    give_back(no_image);
    give_back(image);
}

/* An image's own refusals come before 17 to 20, whatever its payload. */
static void images(void)
{
    static const char *const payloads[] = {"", "FD 1D " PREFIX EXAMPLE, "FD 05 " PREFIX,
                                           "FD 1D " PREFIX EXAMPLE_BUT_ONE "4C",
                                           "FD 0C " PREFIX "00 00 00 FF 41 D9 12"};
    static const uint32_t numbers[] = {17, 0, 18, 19, 20};
    struct made entries;
    struct lent image, none = lend(0);
    size_t i, start;

    expect_no_payload(none, 3, 0, "no image");
    for (i = 0; i < sizeof payloads / sizeof payloads[0]; i++) {
        entries.length = 0;
        put_hex(&entries, payloads[i]);
        start = 11 + entries.length;

        image = lend_image(&entries);
        if (numbers[i] != 0) {
            expect_no_payload(image, numbers[i], 0, payloads[i]);
        }
        image.bytes[image.length - 1] ^= 1;
        expect_no_payload(image, 10, start + 2, "the image's check");
        image.bytes[image.length - 1] ^= 1;
        image.bytes[8] = 2;
        expect_no_payload(image, 4, 0, "the image's version");
        image.bytes[8] = 1;
        image.bytes[10]++;
        expect_no_payload(image, 5, 9, "the image's length");
        image.bytes[0] ^= 0x20;
        expect_no_payload(image, 3, 0, "the image's magic");
        give_back(image);

        put_hex(&entries, "2C 02 63 7A");
        image = lend_image(&entries);
        expect_no_payload(image, 7, start, "a broken rule");
        give_back(image);
        entries.length -= 4;
        put_hex(&entries, "FD 03 00 00 1F");
        image = lend_image(&entries);
        expect_no_payload(image, 7, start, "an FDh of three bytes");
        give_back(image);
        entries.length -= 5;
        put_hex(&entries, "25 13 30 32 2F 32 39 2F 32 30 32 33 20 30 30 3A 30 30 3A 30 30");
        image = lend_image(&entries);
        expect_no_payload(image, 7, start, "29 February 2023");
        give_back(image);
        entries.length -= 21;
        put_hex(&entries, "21 00 21 00");
        image = lend_image(&entries);
        expect_no_payload(image, 8, start + 2, "a name twice");
        give_back(image);
        entries.length -= 4;
        put_hex(&entries, "FF 00");
        image = lend_image(&entries);
        expect_no_payload(image, 6, start, "a forbidden code");
        give_back(image);
    }
    give_back(none);
}

/* ---- Writing -------------------------------------------------------------------------------- */

/* Expects that the exported write is refused, and that every lent byte stays as it was. */
static void expect_write_refused(uint32_t format, uint32_t edition, struct lent serial,
                                 struct lent pieces, size_t out_length, struct outcome outcome,
                                 const char *what)
{
    struct lent before = lend_copy(serial.bytes, serial.length), out = lend(out_length);
    struct lent lengths = lend_copy(pieces.bytes, pieces.length);

    expect_answer(boardid_vendor_write(format, edition, serial.bytes, serial.length,
                                       boardid_vendor_offsets_word(ends), pieces.bytes,
                                       pieces.length, out.bytes, out.length),
                  outcome, what);
    expect(all_are(out, 0, 0x5A), what);
    expect(same_bytes(serial, before), what);
    expect(same_bytes(pieces, lengths), what);
    give_back(lengths);
    give_back(out);
    give_back(before);
}

/* The values that a payload and lengths of pieces make. */
static struct made values_of(const struct made *payload, const uint32_t *lengths, size_t count)
{
    struct made values;
    size_t from = 0, k;

    values.length = 0;
    for (k = 0; k < count; k++) {
        put_hex(&values, PREFIX);
        put(&values, payload->bytes + from, lengths[k]);
        from += lengths[k];
    }
    return values;
}

/*
 * Expects that a write is taken: into just room enough, into more, where the bytes after stay, and
 * not into one byte less. The lengths are lent also with one more that is cut short.
 */
static void expect_written(struct lent serial, const int8_t *offsets, const uint32_t *lengths,
                           size_t count, const char *what)
{
    static const struct outcome no_room = {12, 0, 0};
    struct made payload = payload_of(serial, offsets);
    struct made values = values_of(&payload, lengths, count);
    struct lent pieces = lend_pieces(lengths, count), cut = lend(pieces.length + 3), out;
    struct lent before = lend_copy(serial.bytes, serial.length);
    size_t more;

    memcpy(cut.bytes, pieces.bytes, pieces.length);
    for (more = 0; more <= 3; more++) {
        out = lend(values.length + 7 * more);
        expect_count(boardid_vendor_write_payload(serial.bytes, serial.length, offsets, cut.bytes,
                                                  pieces.length + more, out.bytes, out.length),
                     (uint32_t)(5 * count + 16 + serial.length), what);
        expect_number(values.length, 5 * count + 16 + serial.length, what);
        expect(memcmp(out.bytes, values.bytes, values.length) == 0, what);
        expect(all_are(out, values.length, 0x5A), what);
        give_back(out);
    }
    expect(memcmp(cut.bytes, pieces.bytes, pieces.length) == 0, what);
    expect(all_are(cut, pieces.length, 0x5A), what);
    expect(same_bytes(serial, before), what);
    expect_write_refused(4, BOARDID_EDITION, serial, pieces, values.length - 1, no_room, what);
    expect_write_refused(4, BOARDID_EDITION, serial, pieces, 0, no_room, what);
    give_back(before);
    give_back(cut);
    give_back(pieces);
}

/* The vendor document's example, in one piece and in two, as bytes written here. */
static void written_example(void)
{
    static const uint32_t whole[] = {24}, parts[] = {23, 1};
    struct lent one = lend_hex(PREFIX EXAMPLE), two = lend_hex(PREFIX EXAMPLE_BUT_ONE PREFIX "4B");
    struct lent serial = lend_hex(SERIAL), pieces = lend_pieces(whole, 1), out = lend(40);
    struct lent offsets = lend_hex("08 " SERIAL "00 09 00 80 FF 00 18 7F FE 01 81 9C 5F 2E 05");

    expect_count(boardid_vendor_write_payload(serial.bytes, serial.length, zeros, pieces.bytes,
                                              pieces.length, out.bytes, out.length),
                 29, "the example in one piece");
    expect(memcmp(out.bytes, one.bytes, 29) == 0, "the example's value");
    expect(all_are(out, 29, 0x5A), "bytes after the value stay");
    expect_count(boardid_vendor_write(4, 3, serial.bytes, serial.length,
                                      (uint64_t)0x8101FE7F << 32 | 0x1800FF80, pieces.bytes,
                                      pieces.length, out.bytes, out.length),
                 29, "the exported write, edition 3");
    expect(memcmp(out.bytes + 5, offsets.bytes, 24) == 0, "offset k is in bits 8k to 8k + 7");
    give_back(pieces);

    pieces = lend_pieces(parts, 2);
    memset(out.bytes, 0x5A, out.length);
    expect_count(boardid_vendor_write_payload(serial.bytes, serial.length, zeros, pieces.bytes,
                                              pieces.length, out.bytes, out.length),
                 34, "the example in two pieces");
    expect(memcmp(out.bytes, two.bytes, 34) == 0, "the example's two values");
    expect(all_are(out, 34, 0x5A), "bytes after the values stay");
    give_back(pieces);
    give_back(offsets);
    give_back(out);
    give_back(serial);
    give_back(two);
    give_back(one);
}

/* A write: how long the serial is, the lengths of the pieces, and the number; 0: it is taken. */
struct pieces_case {
    const char *what;
    size_t serial_length;
    size_t count;
    uint32_t lengths[8];
    uint32_t number;
};

static const struct pieces_case pieces_cases[] = {
    {"one piece", 8, 1, {24}, 0},
    {"two pieces", 8, 2, {23, 1}, 0},
    {"empty pieces", 8, 5, {0, 10, 0, 14, 0}, 0},
    {"no serial", 0, 1, {16}, 0},
    {"single bytes and the rest", 1, 8, {1, 1, 1, 1, 1, 1, 1, 10}, 0},
    {"a piece of 250 bytes", 234, 1, {250}, 0},
    {"a piece of 251 bytes", 235, 1, {251}, 18},
    {"250 bytes and one", 235, 2, {250, 1}, 0},
    {"a serial of 255 bytes", 255, 2, {250, 21}, 0},
    {"a serial of 255 bytes in three pieces", 255, 3, {21, 250, 0}, 0},
    {"a serial of 255 bytes in one piece", 255, 1, {271}, 18},
    {"a piece of 251 bytes, the second", 255, 2, {20, 251}, 18},
    {"a serial of 256 bytes", 256, 2, {250, 22}, 18},
    {"a serial of 256 bytes, a sum of 16", 256, 1, {16}, 18},
    {"a serial of 264 bytes, a sum of 24", 264, 1, {24}, 18},
    {"a serial of 65,544 bytes, a sum of 24", 65544, 1, {24}, 18},
    {"no pieces", 8, 0, {0}, 18},
    {"no pieces, no serial", 0, 0, {0}, 18},
    {"one empty piece", 8, 1, {0}, 18},
    {"a sum one less", 8, 2, {20, 3}, 18},
    {"a sum one more", 8, 2, {20, 5}, 18},
    {"a sum of the serial alone", 8, 1, {8}, 18},
    {"a sum with the prefixes", 8, 2, {28, 6}, 18},
    {"a sum 256 more", 8, 2, {140, 140}, 18},
    {"the right sum, then one byte", 8, 3, {20, 4, 1}, 18},
    {"a length of 2^32 - 1", 8, 2, {0xFFFFFFFF, 25}, 18},
    {"a length of 2^32 - 1, then 1", 8, 3, {24, 0xFFFFFFFF, 1}, 18},
    {"a length of 256", 8, 2, {24, 256}, 18},
    {"a length of 2^31", 8, 3, {24, 0x80000000, 0x80000000}, 18},
};

static void writes(void)
{
    static const struct outcome lengths = {18, 0, 0};
    size_t i, more;

    for (i = 0; i < sizeof pieces_cases / sizeof pieces_cases[0]; i++) {
        const struct pieces_case *c = &pieces_cases[i];
        struct lent serial = lend_serial(c->serial_length), pieces, cut;

        if (c->number == 0) {
            expect_written(serial, ends, c->lengths, c->count, c->what);
        } else {
            /* Whatever the room, and whether a length that is cut short follows. */
            pieces = lend_pieces(c->lengths, c->count);
            for (more = 0; more <= 3; more++) {
                cut = lend(pieces.length + more);
                if (pieces.length != 0) {
                    memcpy(cut.bytes, pieces.bytes, pieces.length);
                }
                expect_write_refused(4, BOARDID_EDITION, serial, cut, 0, lengths, c->what);
                expect_write_refused(4, BOARDID_EDITION, serial, cut, 65536, lengths, c->what);
                give_back(cut);
            }
            give_back(pieces);
        }
        give_back(serial);
    }
    expect_refused(boardid_vendor_write_payload(NULL, 0, zeros, NULL, 0, NULL, 0), 18, 0,
                   "null pointers");
}

/* The longest output, 65,536 bytes: 13,104 pieces, of which one has all 16 bytes. */
static void write_rooms(void)
{
    static const struct outcome too_long = {2, 0, 0}, no_room = {12, 0, 0}, lengths = {18, 0, 0};
    const size_t count = 13104;
    struct lent serial = lend(0), pieces = lend((count + 1) * BOARDID_VENDOR_PIECE_SIZE), out;
    struct lent most = pieces;
    struct made payload = payload_of(serial, ends);
    size_t k;

    memset(pieces.bytes, 0, pieces.length);
    boardid_vendor_piece_set(pieces.bytes, 7, 16);
    most.length = count * BOARDID_VENDOR_PIECE_SIZE;
    out = lend(65536);
    expect_count(boardid_vendor_write_payload(NULL, 0, ends, most.bytes, most.length, out.bytes,
                                              out.length),
                 65536, "13,104 pieces");
    for (k = 0; k < out.length;) {
        static const uint8_t prefix[] = {0x00, 0x00, 0x1F, 0x79, 0x00};

        expect(memcmp(out.bytes + k, prefix, 5) == 0, "13,104 prefixes");
        k += 5;
        if (k == 8 * 5) {
            expect(memcmp(out.bytes + k, payload.bytes, 16) == 0, "13,104 pieces: the payload");
            k += 16;
        }
    }
    give_back(out);
    expect_write_refused(4, 3, serial, most, 65535, no_room, "13,104 pieces, no room");
    expect_write_refused(4, 3, serial, pieces, 65536, no_room, "13,105 pieces");
    expect_write_refused(4, 3, serial, most, 65537, too_long, "an output of 65,537 bytes");
    expect_write_refused(4, 3, serial, serial, 65537, too_long, "2 before 18");
    boardid_vendor_piece_set(pieces.bytes, 7, 17);
    expect_write_refused(4, 3, serial, pieces, 65536, lengths, "18 before 12");
    give_back(pieces);

    /* Sums that are right in 16 bits and in 32. */
    pieces = lend(263 * BOARDID_VENDOR_PIECE_SIZE);
    for (k = 0; k < 262; k++) {
        boardid_vendor_piece_set(pieces.bytes, k, 250);
    }
    boardid_vendor_piece_set(pieces.bytes, k, 65536 + 16 - 262 * 250);
    expect_write_refused(4, 3, serial, pieces, 65536, lengths, "a sum of 2^16 and 16");
    give_back(pieces);
    pieces = lend((size_t)17179870 * BOARDID_VENDOR_PIECE_SIZE);
    for (k = 0; k < 17179869; k++) {
        boardid_vendor_piece_set(pieces.bytes, k, 250);
    }
    boardid_vendor_piece_set(pieces.bytes, k, 46 + 16);
    expect_refused(boardid_vendor_write_payload(NULL, 0, ends, pieces.bytes, pieces.length, NULL,
                                                0),
                   18, 0, "a sum of 2^32 and 16");
    give_back(pieces);
    give_back(serial);
}

/* ---- Formats and editions ------------------------------------------------------------------- */

/* Both exported calls are refused with a number at 0, whatever else is wrong with what is lent. */
static void both_refused(uint32_t format, uint32_t edition, uint32_t number, const char *what)
{
    static const uint32_t right[] = {24}, wrong[] = {25};
    struct lent image = lend_image_hex("FD 1D " PREFIX EXAMPLE), serial = lend_hex(SERIAL);
    struct lent none = lend(0), pieces = lend_pieces(right, 1), others = lend_pieces(wrong, 1);
    struct lent long_image = lend(65537);
    struct outcome outcome = {0, 0, 0};

    outcome.number = number;
    expect_read_refused(format, edition, image, 24, 48, outcome, what);
    expect_read_refused(format, edition, image, 65537, 48, outcome, what);
    expect_read_refused(format, edition, image, 0, 0, outcome, what);
    expect_read_refused(format, edition, none, 24, 48, outcome, what);
    expect_read_refused(format, edition, long_image, 24, 48, outcome, what);
    expect_write_refused(format, edition, serial, pieces, 29, outcome, what);
    expect_write_refused(format, edition, serial, pieces, 65537, outcome, what);
    expect_write_refused(format, edition, serial, pieces, 0, outcome, what);
    expect_write_refused(format, edition, serial, others, 29, outcome, what);
    expect_write_refused(format, edition, long_image, none, 29, outcome, what);
    give_back(long_image);
    give_back(others);
    give_back(pieces);
    give_back(none);
    give_back(serial);
    give_back(image);
}

/* The exported calls with every other format, and with editions that do not have them. */
static void editions(void)
{
    static const uint32_t formats[] = {0, 1, 2, 3, 5, 260, 0x80000004};
    static const uint32_t unknown[] = {0, 5, 99, 259, 260, 0x80000003, 0xFFFFFFFF};
    size_t i, k;
    uint32_t edition;

    for (i = 0; i < sizeof formats / sizeof formats[0]; i++) {
        for (edition = 1; edition <= 4; edition++) {
            both_refused(formats[i], edition, 16, "another format");
        }
        for (k = 0; k < sizeof unknown / sizeof unknown[0]; k++) {
            both_refused(formats[i], unknown[k], 16, "another format: 16 before 1");
        }
    }
    for (k = 0; k < sizeof unknown / sizeof unknown[0]; k++) {
        both_refused(4, unknown[k], 1, "an unknown edition");
    }
    both_refused(4, 1, 16, "edition 1");
    both_refused(4, 2, 16, "edition 2");
}

/* ---- Both calls ----------------------------------------------------------------------------- */

/* What was written is written into an image, one FDh for each value, and reads back. */
static void written_and_read(struct lent serial, const int8_t *offsets, const uint32_t *lengths,
                             size_t count, const char *what)
{
    struct made payload = payload_of(serial, offsets);
    struct lent pieces = lend_pieces(lengths, count), values = lend(payload.length + 5 * count);
    struct lent fields = lend((count + 2) * BOARDID_FIELD_SIZE), out = lend(2059), image;
    struct boardid_field field = {BOARDID_ONIE_PRODUCT_NAME, 0, 0, 0, 0};
    uint64_t answer;
    size_t k;

    expect_count(boardid_vendor_write_payload(serial.bytes, serial.length, offsets, pieces.bytes,
                                              pieces.length, values.bytes, values.length),
                 (uint32_t)values.length, what);

    /* An empty name first, then the values; the last field is an FDh of four bytes, no piece. */
    boardid_field_set(fields.bytes, 0, field);
    field.code = BOARDID_ONIE_VENDOR_EXTENSION;
    for (k = 0; k < count; k++) {
        field.value_length = BOARDID_VENDOR_PREFIX_LENGTH + lengths[k];
        boardid_field_set(fields.bytes, k + 1, field);
        field.value_place += field.value_length;
    }
    field.value_place = 0;
    field.value_length = 4;
    boardid_field_set(fields.bytes, count + 1, field);
    answer = boardid_write_image(BOARDID_FORMAT_ONIE, fields.bytes, fields.length, values.bytes,
                                 values.length, out.bytes, out.length);
    expect_number(boardid_answer_number(answer), 0, what);
    image = lend_copy(out.bytes, boardid_answer_count(answer));
    expect_payload(image, payload.bytes, payload.length, offsets, what);

    /* An edit of another entry leaves the payload as it is. */
    answer = boardid_edit_entry(BOARDID_FORMAT_ONIE, image.bytes, image.length, 0,
                                (const uint8_t *)"AMP", 3, out.bytes, out.length);
    expect_count(answer, (uint32_t)image.length + 3, what);
    expect_payload(out, payload.bytes, payload.length, offsets, what);
    give_back(image);
    give_back(out);
    give_back(fields);
    give_back(values);
    give_back(pieces);
}

/* Every length of a serial and every byte as an offset, in one piece, two or three. */
static void round_trips(void)
{
    size_t length;
    uint32_t k;

    for (length = 0; length <= BOARDID_VENDOR_SERIAL_MAX; length++) {
        struct lent serial = lend_serial(length);
        uint32_t whole = (uint32_t)length + BOARDID_VENDOR_PAYLOAD_MIN;
        uint32_t lengths[3];
        int8_t offsets[8];

        for (k = 0; k < 8; k++) {
            int value = (int)((length + 37 * k) % 256);

            offsets[k] = (int8_t)(value < 128 ? value : value - 256);
        }
        lengths[0] = whole;
        if (whole <= BOARDID_VENDOR_PIECE_MAX) {
            written_and_read(serial, offsets, lengths, 1, "one piece");
        }
        lengths[0] = whole / 2;
        lengths[1] = whole - whole / 2;
        written_and_read(serial, offsets, lengths, 2, "two pieces");
        lengths[0] = 1 + whole / 7;
        lengths[1] = whole > 250 ? 22 : 0;
        lengths[2] = whole - lengths[0] - lengths[1];
        written_and_read(serial, offsets, lengths, 3, "three pieces");
        give_back(serial);
    }
}

/* Two edits that move a byte from one piece to another: the payload reads as it did before. */
static void another_cut(void)
{
    static const uint8_t value[] = {0x00, 0x00, 0x1F, 0x79, 0x00, 0x4B};
    struct lent image = lend_image_hex("FD 1D " PREFIX EXAMPLE "FD 05 " PREFIX), out = lend(60);
    struct lent shorter = lend_hex(PREFIX EXAMPLE_BUT_ONE), payload = lend_hex(EXAMPLE), edited;

    expect_payload(image, payload.bytes, payload.length, zeros, "before");
    expect_count(boardid_edit_entry(4, image.bytes, image.length, 0, shorter.bytes, shorter.length,
                                    out.bytes, out.length),
                 (uint32_t)image.length - 1, "a byte is taken from the first piece");
    expect_no_payload(out, 18, 0, "a byte is missing");
    edited = lend_copy(out.bytes, out.length);
    expect_count(boardid_edit_entry(4, edited.bytes, edited.length, 1, value, sizeof value,
                                    out.bytes, out.length),
                 (uint32_t)image.length, "it is put into the second");
    expect_payload(out, payload.bytes, payload.length, zeros, "after");
    give_back(edited);
    give_back(payload);
    give_back(shorter);
    give_back(out);
    give_back(image);
}

int main(void)
{
    example();
    entries();
    payloads();
    wrong_bits();
    cuts();
    read_rooms();
    images();
    written_example();
    writes();
    write_rooms();
    editions();
    round_trips();
    another_cut();
    return expectations_met("vendor");
}
