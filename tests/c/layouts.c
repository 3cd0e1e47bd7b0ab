/*
 * Every constant, accessor and layout function of a header; those that read a room file are in
 * room.c. Compiled once with each edition's header; nothing here calls the library.
 */
#define _DEFAULT_SOURCE

#include <stddef.h>

#include <boardid.h>

#include "expect.h"

/* Sixteen words of lent bytes, each with four different bytes: word w is w0 w1 w2 w3, low first. */
static void fill_words(uint8_t *bytes, size_t words)
{
    size_t i;

    for (i = 0; i < 4 * words; i++) {
        bytes[i] = (uint8_t)(i / 4 * 16 + i % 4);
    }
}

/* The number that fill_words puts into word w. */
static uint32_t filled_word(uint32_t w)
{
    return w * 0x10101010u + 0x03020100u;
}

static void constants(void)
{
    expect_number(BOARDID_FORMAT_FBOSS, 1, "format FBOSS");
    expect_number(BOARDID_FORMAT_VPD, 2, "format VPD");
    expect_number(BOARDID_FORMAT_TINY, 3, "format Tiny");

    expect_number(BOARDID_FBOSS_PRODUCT_NAME, 1, "FBOSS 1");
    expect_number(BOARDID_FBOSS_PRODUCT_PART_NUMBER, 2, "FBOSS 2");
    expect_number(BOARDID_FBOSS_SYSTEM_ASSEMBLY_PART_NUMBER, 3, "FBOSS 3");
    expect_number(BOARDID_FBOSS_META_PCBA_PART_NUMBER, 4, "FBOSS 4");
    expect_number(BOARDID_FBOSS_META_PCB_PART_NUMBER, 5, "FBOSS 5");
    expect_number(BOARDID_FBOSS_ODM_PCBA_PART_NUMBER, 6, "FBOSS 6");
    expect_number(BOARDID_FBOSS_ODM_PCBA_SERIAL_NUMBER, 7, "FBOSS 7");
    expect_number(BOARDID_FBOSS_PRODUCT_PRODUCTION_STATE, 8, "FBOSS 8");
    expect_number(BOARDID_FBOSS_PRODUCT_VERSION, 9, "FBOSS 9");
    expect_number(BOARDID_FBOSS_PRODUCT_SUB_VERSION, 10, "FBOSS 10");
    expect_number(BOARDID_FBOSS_PRODUCT_SERIAL_NUMBER, 11, "FBOSS 11");
    expect_number(BOARDID_FBOSS_SYSTEM_MANUFACTURER, 12, "FBOSS 12");
    expect_number(BOARDID_FBOSS_SYSTEM_MANUFACTURING_DATE, 13, "FBOSS 13");
    expect_number(BOARDID_FBOSS_PCB_MANUFACTURER, 14, "FBOSS 14");
    expect_number(BOARDID_FBOSS_ASSEMBLED_AT, 15, "FBOSS 15");
    expect_number(BOARDID_FBOSS_EEPROM_LOCATION_ON_FABRIC, 16, "FBOSS 16");
    expect_number(BOARDID_VPD_STRING, 0x01, "VPD 01h");
    expect_number(BOARDID_TINY_ASCII_STRINGS, 0x01, "Tiny 01h");
    expect_number(BOARDID_TINY_SERIAL_NUMBER, 0x10, "Tiny 10h");
    expect_number(BOARDID_TINY_FACTORY_TEST_FLAGS, 0x11, "Tiny 11h");
    expect_number(BOARDID_TINY_BASE_MAC_ADDRESS, 0x60, "Tiny 60h");
    expect_number(BOARDID_TINY_PRODUCT_IDENTITY, 0x61, "Tiny 61h");
    expect_number(BOARDID_TINY_SYSTEM_PRODUCT_IDENTITY, 0x62, "Tiny 62h");
#if BOARDID_EDITION >= 2
    expect_number(BOARDID_FBOSS_X86_CPU_MAC_ADDRESSES, 17, "FBOSS 17");
    expect_number(BOARDID_FBOSS_BMC_MAC_ADDRESSES, 18, "FBOSS 18");
    expect_number(BOARDID_FBOSS_SWITCH_ASIC_MAC_ADDRESSES, 19, "FBOSS 19");
    expect_number(BOARDID_FBOSS_META_RESERVED_MAC_ADDRESSES, 20, "FBOSS 20");
    expect_number(BOARDID_VPD_INFO, 0xFE, "VPD FEh");
    expect_number(BOARDID_TINY_PRODUCT_IDENTITY_BATCH, 0x80, "Tiny 80h");
    expect_number(BOARDID_TINY_SYSTEM_PRODUCT_IDENTITY_BATCH, 0x81, "Tiny 81h");
    expect_number(BOARDID_READING_IDENTITY_WITH_BATCH, 7, "reading 7");
#endif
#if BOARDID_EDITION >= 3
    expect_number(BOARDID_READING_DATE_WITH_TIME, 9, "reading 9");
    expect_number(BOARDID_FORMAT_ONIE, 4, "format ONIE");
    expect_number(BOARDID_ONIE_PRODUCT_NAME, 0x21, "ONIE 21h");
    expect_number(BOARDID_ONIE_PART_NUMBER, 0x22, "ONIE 22h");
    expect_number(BOARDID_ONIE_SERIAL_NUMBER, 0x23, "ONIE 23h");
    expect_number(BOARDID_ONIE_BASE_MAC_ADDRESS, 0x24, "ONIE 24h");
    expect_number(BOARDID_ONIE_MANUFACTURE_DATE, 0x25, "ONIE 25h");
    expect_number(BOARDID_ONIE_MAC_ADDRESS_COUNT, 0x2A, "ONIE 2Ah");
    expect_number(BOARDID_ONIE_MANUFACTURER, 0x2B, "ONIE 2Bh");
    expect_number(BOARDID_ONIE_COUNTRY_CODE, 0x2C, "ONIE 2Ch");
    expect_number(BOARDID_ONIE_VENDOR, 0x2D, "ONIE 2Dh");
    expect_number(BOARDID_ONIE_VENDOR_EXTENSION, 0xFD, "ONIE FDh");
    expect_number(BOARDID_KIND(BOARDID_FORMAT_ONIE, BOARDID_ONIE_PRODUCT_NAME), 1057,
                  "kind of ONIE 21h");
    expect_number(BOARDID_KIND(BOARDID_FORMAT_ONIE, BOARDID_ONIE_VENDOR_EXTENSION), 1277,
                  "kind of ONIE FDh");
    expect_number(BOARDID_VENDOR_PREFIX_LENGTH, 5, "vendor prefix");
    expect_number(BOARDID_VENDOR_PIECE_MAX, 250, "longest vendor piece");
    expect_number(BOARDID_VENDOR_SERIAL_MAX, 255, "longest vendor serial");
    expect_number(BOARDID_VENDOR_PAYLOAD_MIN, 16, "vendor payload without a serial");
    expect_number(BOARDID_VENDOR_PAYLOAD_MAX, 271, "longest vendor payload");
    expect_number(BOARDID_VENDOR_OFFSETS, 8, "vendor offsets");
    expect_number(BOARDID_VENDOR_PIECE_SIZE, 4, "length of a vendor piece");
    expect_number(BOARDID_VENDOR_BLOCK_SIZE, 48, "vendor block");
    expect_number(BOARDID_VENDOR_C_BAND_WEST_IN, 0, "offset 0");
    expect_number(BOARDID_VENDOR_C_BAND_WEST_OUT, 1, "offset 1");
    expect_number(BOARDID_VENDOR_C_BAND_EAST_IN, 2, "offset 2");
    expect_number(BOARDID_VENDOR_C_BAND_EAST_OUT, 3, "offset 3");
    expect_number(BOARDID_VENDOR_L_BAND_WEST_IN, 4, "offset 4");
    expect_number(BOARDID_VENDOR_L_BAND_WEST_OUT, 5, "offset 5");
    expect_number(BOARDID_VENDOR_L_BAND_EAST_IN, 6, "offset 6");
    expect_number(BOARDID_VENDOR_L_BAND_EAST_OUT, 7, "offset 7");
#endif

    expect_number(BOARDID_KIND(BOARDID_FORMAT_VPD, BOARDID_VPD_STRING), 513, "kind of VPD 01h");
    expect_number(BOARDID_KIND(BOARDID_FORMAT_TINY, BOARDID_TINY_PRODUCT_IDENTITY), 865,
                  "kind of Tiny 61h");

    expect_number(BOARDID_READING_PLAIN_BYTES, 0, "reading 0");
    expect_number(BOARDID_READING_TEXT, 1, "reading 1");
    expect_number(BOARDID_READING_NUMBER, 2, "reading 2");
    expect_number(BOARDID_READING_ADDRESS_BLOCK, 3, "reading 3");
    expect_number(BOARDID_READING_STRING_NUMBER, 4, "reading 4");
    expect_number(BOARDID_READING_TEST_FLAGS, 5, "reading 5");
    expect_number(BOARDID_READING_IDENTITY, 6, "reading 6");
    expect_number(BOARDID_READING_DATE, 8, "reading 8");

    expect_number(BOARDID_ROOM_FORM_1, 1, "form 1 of a room file");
    expect_number(BOARDID_ROOM_MAX, 65536, "longest room file");
    expect_number(BOARDID_ROOM_BOARDS_MAX, 7280, "most boards of a room file");
    expect_number(BOARDID_ROOM_HEAD_SIZE, 8, "head of a room file");
    expect_number(BOARDID_ROOM_ROW_SIZE, 8, "row of a room file");

    expect_number(BOARDID_IMAGE_MAX, 65536, "longest image");
    expect_number(BOARDID_RECORD_SIZE, 64, "record");
    expect_number(BOARDID_FIELD_SIZE, 20, "field");
    expect_number(BOARDID_WALK_SIZE, 16, "walk");
}

/* Whether a number is that of a refusal, or 0, in this edition. */
static int is_refusal(uint32_t number)
{
    return number <= 23 && (BOARDID_EDITION >= 3 || number <= 16 || number >= 21);
}

static void refusals(void)
{
    uint32_t a, b;

    expect_number(BOARDID_NOT_REFUSED, 0, "refusal 0");
    expect_number(BOARDID_REFUSED_EDITION, 1, "refusal 1");
    expect_number(BOARDID_REFUSED_TOO_LONG, 2, "refusal 2");
    expect_number(BOARDID_REFUSED_HEADER, 3, "refusal 3");
    expect_number(BOARDID_REFUSED_VERSION, 4, "refusal 4");
    expect_number(BOARDID_REFUSED_PAST_ROOM, 5, "refusal 5");
    expect_number(BOARDID_REFUSED_FORBIDDEN, 6, "refusal 6");
    expect_number(BOARDID_REFUSED_RULE, 7, "refusal 7");
    expect_number(BOARDID_REFUSED_TWICE, 8, "refusal 8");
    expect_number(BOARDID_REFUSED_AFTER_POOL, 9, "refusal 9");
    expect_number(BOARDID_REFUSED_CHECK, 10, "refusal 10");
    expect_number(BOARDID_REFUSED_MISSING, 11, "refusal 11");
    expect_number(BOARDID_REFUSED_NO_ROOM, 12, "refusal 12");
    expect_number(BOARDID_REFUSED_NOT_THERE, 13, "refusal 13");
    expect_number(BOARDID_REFUSED_NOT_NAMED, 14, "refusal 14");
    expect_number(BOARDID_REFUSED_NO_STRING, 15, "refusal 15");
    expect_number(BOARDID_REFUSED_FORMAT, 16, "refusal 16");
#if BOARDID_EDITION >= 3
    expect_number(BOARDID_REFUSED_NO_PAYLOAD, 17, "refusal 17");
    expect_number(BOARDID_REFUSED_PAYLOAD_LENGTH, 18, "refusal 18");
    expect_number(BOARDID_REFUSED_PAYLOAD_CHECK, 19, "refusal 19");
    expect_number(BOARDID_REFUSED_BLOCK, 20, "refusal 20");
#endif
    expect_number(BOARDID_REFUSED_ROOM_FILE, 21, "refusal 21");
    expect_number(BOARDID_REFUSED_NO_BOARD, 22, "refusal 22");
    expect_number(BOARDID_REFUSED_BOARD_THERE, 23, "refusal 23");
    for (a = 0; a <= 32; a++) {
        expect(boardid_refusal_text(a)[0] != '\0', "a text for each number");
        expect((strcmp(boardid_refusal_text(a), boardid_refusal_text(0xFFFFFFFF)) != 0) ==
                   is_refusal(a),
               "one text for every number that is no refusal");
        for (b = 0; b < a; b++) {
            expect(strcmp(boardid_refusal_text(a), boardid_refusal_text(b)) != 0 ||
                       (!is_refusal(a) && !is_refusal(b)),
                   "a text of its own for each refusal");
        }
    }
}

static void answers(void)
{
    const uint64_t one = 1;
    uint64_t answer;

    answer = one << 32;
    expect_number(boardid_answer_number(answer), 0, "number of a count");
    expect_number(boardid_answer_place(answer), 0, "place of a count");
    expect_number(boardid_answer_count(answer), 1, "count");
    expect_number(boardid_answer_part(answer).place, 0, "part of a count: place");
    expect_number(boardid_answer_part(answer).length, 1, "part of a count: length");

    answer = 0;
    expect_number(boardid_answer_number(answer), 0, "number of no entries");
    expect_number(boardid_answer_count(answer), 0, "count of no entries");

    answer = (one << 27) - 1;
    answer = answer << 32 | 0xFEDCBA98;
    expect_number(boardid_answer_number(answer), 0, "number of the longest part");
    expect_number(boardid_answer_place(answer), 0, "place of the longest part");
    expect_number(boardid_answer_part(answer).place, 0xFEDCBA98, "part: place");
    expect_number(boardid_answer_part(answer).length, (one << 27) - 1, "part: length");

    answer = (uint64_t)7 << 59;
    expect_number(boardid_answer_number(answer), 7, "7 at 0: number");
    expect_number(boardid_answer_place(answer), 0, "7 at 0: place");

    answer = (uint64_t)16 << 59 | ((one << 59) - 1);
    expect_number(boardid_answer_number(answer), 16, "16 at the last place: number");
    expect_number(boardid_answer_place(answer), (one << 59) - 1, "16 at the last place: place");
    expect_number(boardid_answer_count(answer), 0, "refused: count");
    expect_number(boardid_answer_part(answer).place, 0, "refused: place of the part");
    expect_number(boardid_answer_part(answer).length, 0, "refused: length of the part");

    answer = (uint64_t)31 << 59 | 5;
    expect_number(boardid_answer_number(answer), 31, "all five bits of the number");
    expect_number(boardid_answer_place(answer), 5, "31 at 5: place");
}

static void words(void)
{
    struct lent bytes = lend(12);

    fill_words(bytes.bytes, 3);
    expect_number(boardid_word_at(bytes.bytes, 0), 0x03020100, "word 0");
    expect_number(boardid_word_at(bytes.bytes, 2), 0x23222120, "word 2");
    boardid_word_set(bytes.bytes, 1, 0xFEDCBA98);
    expect_number(boardid_word_at(bytes.bytes, 0), 0x03020100, "the word before stays");
    expect_number(boardid_word_at(bytes.bytes, 1), 0xFEDCBA98, "the word that was set");
    expect_number(boardid_word_at(bytes.bytes, 2), 0x23222120, "the word after stays");
    expect_number(bytes.bytes[4], 0x98, "low byte first");
    expect_number(bytes.bytes[5], 0xBA, "then the second");
    expect_number(bytes.bytes[6], 0xDC, "then the third");
    expect_number(bytes.bytes[7], 0xFE, "then the high byte");
    give_back(bytes);
}

static void records(void)
{
    struct lent bytes = lend(3 * BOARDID_RECORD_SIZE);
    struct boardid_record record;
    uint32_t i;

    expect_number(sizeof(struct boardid_record), 64, "size of the record's struct");
    expect_number(offsetof(struct boardid_record, code), 0, "word 0");
    expect_number(offsetof(struct boardid_record, kind), 4, "word 1");
    expect_number(offsetof(struct boardid_record, place), 8, "word 2");
    expect_number(offsetof(struct boardid_record, key_place), 12, "word 3");
    expect_number(offsetof(struct boardid_record, key_length), 16, "word 4");
    expect_number(offsetof(struct boardid_record, value_place), 20, "word 5");
    expect_number(offsetof(struct boardid_record, value_length), 24, "word 6");
#if BOARDID_EDITION >= 4
    expect_number(offsetof(struct boardid_record, frame_length), 28, "word 7");
#else
    expect_number(offsetof(struct boardid_record, reserved), 28, "word 7");
#endif
    expect_number(offsetof(struct boardid_record, reading), 32, "word 8");
    expect_number(offsetof(struct boardid_record, carried), 36, "words 9 to 15");

    fill_words(bytes.bytes + 2 * BOARDID_RECORD_SIZE, 16);
    record = boardid_record_at(bytes.bytes, 2);
    expect_number(record.code, filled_word(0), "code");
    expect_number(record.kind, filled_word(1), "kind");
    expect_number(record.place, filled_word(2), "place");
    expect_number(record.key_place, filled_word(3), "key place");
    expect_number(record.key_length, filled_word(4), "key length");
    expect_number(record.value_place, filled_word(5), "value place");
    expect_number(record.value_length, filled_word(6), "value length");
#if BOARDID_EDITION >= 4
    expect_number(record.frame_length, filled_word(7), "frame length");
#else
    expect_number(record.reserved, filled_word(7), "reserved");
#endif
    expect_number(record.reading, filled_word(8), "reading");
    for (i = 0; i < 7; i++) {
        expect_number(record.carried[i], filled_word(9 + i), "carried");
    }
    record = boardid_record_at(bytes.bytes, 1);
    expect_number(record.code, 0x5A5A5A5A, "the record before");
    give_back(bytes);
}

static void readings(void)
{
    struct boardid_record record;
    uint32_t reading, i;

    memset(&record, 0, sizeof record);
    for (i = 0; i < 7; i++) {
        record.carried[i] = 0xF0000001 + i;
    }
    for (reading = 0; reading < 12; reading++) {
        int identity = reading == 6 || (reading == 7 && BOARDID_EDITION >= 2);
        int dated = reading == 8 || (reading == 9 && BOARDID_EDITION >= 3);
        struct boardid_identity given;
        struct boardid_date date;
#if BOARDID_EDITION >= 3
        struct boardid_time time_of_day;
#endif

        record.reading = reading;
        expect_number(boardid_record_number(&record), reading == 2 ? 0xF0000001 : 0, "number");
        expect_number(boardid_record_address_base(&record),
                      reading == 3 ? (uint64_t)0xF0000001 << 32 | 0xF0000002 : 0, "address base");
        expect_number(boardid_record_address_count(&record), reading == 3 ? 0xF0000003 : 0,
                      "address count");
        expect_number(boardid_record_string_number(&record), reading == 4 ? 0xF0000001 : 0,
                      "string number");
        expect_number(boardid_record_test_flags(&record), reading == 5 ? 0xF0000001 : 0,
                      "test flags");
        expect_number(boardid_record_tests_passed(&record), reading == 5 ? 0xF0000002 : 0,
                      "tests passed");
        given = boardid_record_identity(&record);
        expect_number(given.serial_string, identity ? 0xF0000001 : 0, "serial string number");
        expect_number(given.part_string, identity ? 0xF0000002 : 0, "part string number");
        expect_number(given.revision_major, identity ? 0xF0000003 : 0, "major");
        expect_number(given.revision_minor, identity ? 0xF0000004 : 0, "minor");
        expect_number(given.free_bytes[0], identity ? 0xF0000005 : 0, "first free byte");
        expect_number(given.free_bytes[1], identity ? 0xF0000006 : 0, "second free byte");
#if BOARDID_EDITION >= 2
        expect_number(boardid_record_batch(&record), reading == 7 ? 0xF0000007 : 0, "batch");
#endif
        date = boardid_record_date(&record);
        expect_number(date.year, dated ? 0xF0000001 : 0, "year");
        expect_number(date.month, dated ? 0xF0000002 : 0, "month");
        expect_number(date.day, dated ? 0xF0000003 : 0, "day");
#if BOARDID_EDITION >= 3
        time_of_day = boardid_record_time(&record);
        expect_number(time_of_day.hour, reading == 9 ? 0xF0000004 : 0, "hour");
        expect_number(time_of_day.minute, reading == 9 ? 0xF0000005 : 0, "minute");
        expect_number(time_of_day.second, reading == 9 ? 0xF0000006 : 0, "second");
#endif
    }
}

static void fields(void)
{
    static const struct boardid_field set = {0x01020304, 0x11121314, 0x21222324, 0x31323334,
                                             0x41424344};
    static const uint8_t as_bytes[BOARDID_FIELD_SIZE] = {
        0x04, 0x03, 0x02, 0x01, 0x14, 0x13, 0x12, 0x11, 0x24, 0x23,
        0x22, 0x21, 0x34, 0x33, 0x32, 0x31, 0x44, 0x43, 0x42, 0x41};
    struct lent bytes = lend(3 * BOARDID_FIELD_SIZE);
    struct boardid_field got;

    boardid_field_set(bytes.bytes, 1, set);
    expect(memcmp(bytes.bytes + BOARDID_FIELD_SIZE, as_bytes, BOARDID_FIELD_SIZE) == 0,
           "a field's bytes");
    got = boardid_field_at(bytes.bytes, 1);
    expect_number(got.code, set.code, "code");
    expect_number(got.key_place, set.key_place, "key place");
    expect_number(got.key_length, set.key_length, "key length");
    expect_number(got.value_place, set.value_place, "value place");
    expect_number(got.value_length, set.value_length, "value length");
    expect_number(boardid_field_at(bytes.bytes, 0).value_length, 0x5A5A5A5A, "the field before");
    expect_number(boardid_field_at(bytes.bytes, 2).code, 0x5A5A5A5A, "the field after");
    give_back(bytes);
}

static void walks(void)
{
    static const uint8_t as_bytes[BOARDID_WALK_SIZE] = {
        3, 0, 0, 0, BOARDID_EDITION, 0, 0, 0, 0xEF, 0xCD, 0xAB, 0x89, 0x67, 0x45, 0x23, 0x01};
    const uint64_t entry = (uint64_t)0x01234567 << 32 | 0x89ABCDEF;
    struct lent walk = lend(BOARDID_WALK_SIZE);

    boardid_walk_set(walk.bytes, BOARDID_FORMAT_TINY, entry);
    expect(memcmp(walk.bytes, as_bytes, BOARDID_WALK_SIZE) == 0, "a walk's bytes");
    expect_number(boardid_walk_format(walk.bytes), 3, "format");
    expect_number(boardid_walk_edition(walk.bytes), BOARDID_EDITION, "edition");
    expect_number(boardid_walk_entry(walk.bytes), entry, "entry number");
    give_back(walk);
}

#if BOARDID_EDITION >= 3
static void vendor_blocks(void)
{
    static const uint8_t offsets[] = {
        0x18, 0x00, 0x00, 0x00, 0xFE, 0xFF, 0xFF, 0xFF, 0x00, 0x00, 0x00, 0x00, 0x7F, 0x00, 0x00,
        0x00, 0x80, 0xFF, 0xFF, 0xFF, 0xFF, 0xFF, 0xFF, 0x7F, 0x00, 0x00, 0x00, 0x80, 0xFF, 0xFF,
        0xFF, 0xFF};
    static const int32_t numbers[] = {24, -2, 0, 127, -128, INT32_MAX, INT32_MIN, -1};
    struct lent bytes = lend(BOARDID_VENDOR_BLOCK_SIZE);
    struct boardid_vendor_block block;
    uint32_t k;

    expect_number(sizeof(struct boardid_vendor_block), 48, "size of the block's struct");
    expect_number(offsetof(struct boardid_vendor_block, serial_place), 0, "word 0");
    expect_number(offsetof(struct boardid_vendor_block, serial_length), 4, "word 1");
    expect_number(offsetof(struct boardid_vendor_block, block_place), 8, "word 2");
    expect_number(offsetof(struct boardid_vendor_block, block_length), 12, "word 3");
    expect_number(offsetof(struct boardid_vendor_block, offsets), 16, "words 4 to 11");

    fill_words(bytes.bytes, 4);
    memcpy(bytes.bytes + 16, offsets, sizeof offsets);
    block = boardid_vendor_block_at(bytes.bytes);
    expect_number(block.serial_place, filled_word(0), "serial place");
    expect_number(block.serial_length, filled_word(1), "serial length");
    expect_number(block.block_place, filled_word(2), "block place");
    expect_number(block.block_length, filled_word(3), "block length");
    for (k = 0; k < 8; k++) {
        expect(block.offsets[k] == numbers[k], "offset");
        expect(boardid_signed_word_at(bytes.bytes, 4 + k) == numbers[k], "signed word");
    }
    give_back(bytes);
}

static void vendor_pieces(void)
{
    static const uint8_t as_bytes[] = {0x17, 0, 0, 0, 0x98, 0xBA, 0xDC, 0xFE, 0x5A, 0x5A, 0x5A};
    struct lent pieces = lend(sizeof as_bytes);

    boardid_vendor_piece_set(pieces.bytes, 0, 23);
    boardid_vendor_piece_set(pieces.bytes, 1, 0xFEDCBA98);
    expect(memcmp(pieces.bytes, as_bytes, sizeof as_bytes) == 0, "lengths of pieces");
    expect_number(boardid_vendor_piece_at(pieces.bytes, 0), 23, "length of piece 0");
    expect_number(boardid_vendor_piece_at(pieces.bytes, 1), 0xFEDCBA98, "length of piece 1");
    give_back(pieces);
}

static void vendor_offsets(void)
{
    static const int8_t offsets[] = {24, -2, 0, 127, -128, -1, 1, -127};
    int8_t one[8] = {0, 0, 0, 0, 0, 0, 0, 0};
    uint32_t k;

    expect_number(boardid_vendor_offsets_word(offsets), (uint64_t)0x8101FF80 << 32 | 0x7F00FE18,
                  "eight offsets");
    for (k = 0; k < 8; k++) {
        one[k] = -1;
        expect_number(boardid_vendor_offsets_word(one), (uint64_t)0xFF << 8 * k, "one offset");
        one[k] = 0;
    }
}
#endif

/*
 * The types of the calls that change an image, exported and with the edition filled in: what a
 * compiled program passes never changes. A pointer of another type does not compile here.
 */
static void types(void)
{
    uint64_t (*const write)(uint32_t, uint32_t, const uint8_t *, size_t, const uint8_t *, size_t,
                            uint8_t *, size_t) = boardid_write;
    uint64_t (*const write_image)(uint32_t, const uint8_t *, size_t, const uint8_t *, size_t,
                                  uint8_t *, size_t) = boardid_write_image;
    uint64_t (*const edit)(uint32_t, uint32_t, const uint8_t *, size_t, uint64_t, const uint8_t *,
                           size_t, uint8_t *, size_t) = boardid_edit;
    uint64_t (*const edit_entry)(uint32_t, const uint8_t *, size_t, uint64_t, const uint8_t *,
                                 size_t, uint8_t *, size_t) = boardid_edit_entry;
    uint64_t (*const add)(uint32_t, uint32_t, const uint8_t *, size_t, const uint8_t *, size_t,
                          const uint8_t *, size_t, uint8_t *, size_t) = boardid_add;
    uint64_t (*const add_field)(uint32_t, const uint8_t *, size_t, const uint8_t *, size_t,
                                const uint8_t *, size_t, uint8_t *, size_t) = boardid_add_field;
    uint64_t (*const remove_one)(uint32_t, uint32_t, const uint8_t *, size_t, uint64_t, uint8_t *,
                                 size_t) = boardid_remove;
    uint64_t (*const remove_entry)(uint32_t, const uint8_t *, size_t, uint64_t, uint8_t *,
                                   size_t) = boardid_remove_entry;

    expect(write != NULL && edit != NULL && add != NULL && remove_one != NULL, "exported calls");
    expect(write_image != NULL && edit_entry != NULL && add_field != NULL && remove_entry != NULL,
           "calls of the header");
}

/* The types of the calls on a room file, in the same way. */
static void room_types(void)
{
    uint64_t (*const add)(uint32_t, uint32_t, const uint8_t *, size_t, uint32_t, uint32_t,
                          const uint8_t *, size_t, uint8_t *, size_t) = boardid_room_add;
    uint64_t (*const add_board)(uint32_t, const uint8_t *, size_t, uint32_t, uint32_t,
                                const uint8_t *, size_t, uint8_t *,
                                size_t) = boardid_room_add_board;
    uint64_t (*const replace)(uint32_t, uint32_t, const uint8_t *, size_t, uint32_t, uint32_t,
                              const uint8_t *, size_t, uint8_t *, size_t) = boardid_room_replace;
    uint64_t (*const replace_board)(uint32_t, const uint8_t *, size_t, uint32_t, uint32_t,
                                    const uint8_t *, size_t, uint8_t *,
                                    size_t) = boardid_room_replace_board;
    uint64_t (*const remove_one)(uint32_t, uint32_t, const uint8_t *, size_t, uint32_t, uint8_t *,
                                 size_t) = boardid_room_remove;
    uint64_t (*const remove_board)(uint32_t, const uint8_t *, size_t, uint32_t, uint8_t *,
                                   size_t) = boardid_room_remove_board;
    uint64_t (*const fetch)(uint32_t, uint32_t, const uint8_t *, size_t,
                            uint32_t) = boardid_room_fetch;
    uint64_t (*const fetch_board)(uint32_t, const uint8_t *, size_t,
                                  uint32_t) = boardid_room_fetch_board;

    expect(add != NULL && replace != NULL && remove_one != NULL && fetch != NULL,
           "exported calls on a room file");
    expect(add_board != NULL && replace_board != NULL && remove_board != NULL &&
               fetch_board != NULL,
           "calls of the header on a room file");
}

int main(void)
{
    types();
    room_types();
    constants();
    refusals();
    answers();
    words();
    records();
    readings();
    fields();
    walks();
#if BOARDID_EDITION >= 3
    vendor_blocks();
    vendor_pieces();
    vendor_offsets();
#endif
    return expectations_met("layouts");
}
