/*
 * boardid.h, edition 4: reads, writes and edits board-identity EEPROM images.
 *
 * A program includes this header and links libboardid.a or libboardid.so. The library is one binary
 * for the headers of every edition; which formats there are and which codes have a name is settled
 * by the header that a program is compiled with. What a name means is the same in every edition
 * that has it.
 *
 * An image is at most 65,536 bytes that the caller lends. The library opens no file, takes no
 * memory and keeps nothing between calls. It takes any bytes and any numbers: a call ends in an
 * answer, and a refused call changes nothing that was lent to it.
 *
 * What a caller has to see to is this, and no more:
 *   - a pointer is good for the length that goes with it (a length of 0 goes with any pointer);
 *   - what a call writes does not overlap anything else that is lent to the same call.
 *
 * The words used below: an image holds entries, counted from 0. An entry has a code, a key (VPD
 * alone has keys) and a value. A place counts bytes from the image's first byte, from 0. A named
 * entry is one whose code has a name in this edition; every other entry has kind 0, is read as
 * plain bytes and is kept as it is by every edit, addition and removal. Numbers that end in h are
 * hexadecimal.
 *
 * docs/C-INTERFACE.md has the same calls with every layout to the byte and six worked examples.
 */
#ifdef BOARDID_H
#if BOARDID_EDITION != 4
#error "boardid.h of another edition is already included in this source file"
#endif
#else
#define BOARDID_H

#include <stddef.h>
#include <stdint.h>

#ifdef __cplusplus
extern "C" {
#endif

/* The edition of this header. The calls below pass it; a caller never writes one. */
#define BOARDID_EDITION 4

/*
 * The version of the package that this header is from, as a number for #if and as a text: version
 * 4.3 is 403. Headers before 4.3 do not have it, so that there it is 0 in an #if.
 */
#define BOARDID_VERSION 403
#define BOARDID_VERSION_TEXT "4.3"

/* ---- Formats, codes and kinds ------------------------------------------------------------- */

/* The formats. */
enum {
    BOARDID_FORMAT_FBOSS = 1, /* FBOSS v5 */
    BOARDID_FORMAT_VPD = 2,   /* VPD 2.0 */
    BOARDID_FORMAT_TINY = 3   /* Tiny EEPROM version 2 */
};

/* From edition 3 on. */
enum {
    BOARDID_FORMAT_ONIE = 4 /* ONIE TlvInfo version 1 */
};

/*
 * The named codes of FBOSS v5. Text is bytes 20h to 7Eh, and has 0 to 255 of them where no length
 * is given. A date is a day of the Gregorian calendar, which is taken back to year 1. An image must
 * have codes 1, 8, 9, 10 and 11. No named code may come twice.
 */
enum {
    BOARDID_FBOSS_PRODUCT_NAME = 1,                 /* text; required */
    BOARDID_FBOSS_PRODUCT_PART_NUMBER = 2,          /* text */
    BOARDID_FBOSS_SYSTEM_ASSEMBLY_PART_NUMBER = 3,  /* text of 8 bytes */
    BOARDID_FBOSS_META_PCBA_PART_NUMBER = 4,        /* text of 12 bytes */
    BOARDID_FBOSS_META_PCB_PART_NUMBER = 5,         /* text of 12 bytes */
    BOARDID_FBOSS_ODM_PCBA_PART_NUMBER = 6,         /* text */
    BOARDID_FBOSS_ODM_PCBA_SERIAL_NUMBER = 7,       /* text */
    BOARDID_FBOSS_PRODUCT_PRODUCTION_STATE = 8,     /* a number of one byte; required */
    BOARDID_FBOSS_PRODUCT_VERSION = 9,              /* a number of one byte; required */
    BOARDID_FBOSS_PRODUCT_SUB_VERSION = 10,         /* a number of one byte; required */
    BOARDID_FBOSS_PRODUCT_SERIAL_NUMBER = 11,       /* text; required */
    BOARDID_FBOSS_SYSTEM_MANUFACTURER = 12,         /* text */
    BOARDID_FBOSS_SYSTEM_MANUFACTURING_DATE = 13,   /* a date: eight digits YYYYMMDD, years 0001 to
                                                       9999 */
    BOARDID_FBOSS_PCB_MANUFACTURER = 14,            /* text */
    BOARDID_FBOSS_ASSEMBLED_AT = 15,                /* text */
    BOARDID_FBOSS_EEPROM_LOCATION_ON_FABRIC = 16    /* text */
};

/* Named from edition 2 on. Eight bytes each: an address of six, a count of two, high byte first. */
enum {
    BOARDID_FBOSS_X86_CPU_MAC_ADDRESSES = 17,       /* an address block */
    BOARDID_FBOSS_BMC_MAC_ADDRESSES = 18,           /* an address block */
    BOARDID_FBOSS_SWITCH_ASIC_MAC_ADDRESSES = 19,   /* an address block */
    BOARDID_FBOSS_META_RESERVED_MAC_ADDRESSES = 20  /* an address block */
};

/* The named types of VPD 2.0. Nothing is required. */
enum {
    BOARDID_VPD_STRING = 0x01 /* key of one byte or more, and no key twice; any value. A key that
                                 is read has any bytes; one that is written or added has only
                                 a-z, A-Z, 0-9 and _ */
};

/* Named from edition 2 on. */
enum {
    BOARDID_VPD_INFO = 0xFE /* any key; value of four bytes; not twice */
};

/*
 * The named tags of Tiny EEPROM version 2. The high four bits of a tag are the value's length; the
 * pool's length stands in a byte of its own. No named tag may come twice, and the pool comes last.
 * Nothing is required.
 */
enum {
    BOARDID_TINY_ASCII_STRINGS = 0x01,           /* the pool of strings: 0 to 255 bytes */
    BOARDID_TINY_SERIAL_NUMBER = 0x10,           /* a string number */
    BOARDID_TINY_FACTORY_TEST_FLAGS = 0x11,      /* test flags */
    BOARDID_TINY_BASE_MAC_ADDRESS = 0x60,        /* an address block of count 1, high byte first */
    BOARDID_TINY_PRODUCT_IDENTITY = 0x61,        /* an identity: serial string number, part string
                                                    number, major 0 to 99 or 128 to 153, minor 0 to
                                                    99, two free bytes */
    BOARDID_TINY_SYSTEM_PRODUCT_IDENTITY = 0x62  /* an identity */
};

/* Named from edition 2 on. */
enum {
    BOARDID_TINY_PRODUCT_IDENTITY_BATCH = 0x80,       /* an identity, then a batch number of two
                                                         bytes, low byte first, at most 9999 */
    BOARDID_TINY_SYSTEM_PRODUCT_IDENTITY_BATCH = 0x81 /* an identity with batch */
};

/*
 * The named codes of ONIE TlvInfo version 1, all from edition 3 on. Text is bytes 20h to 7Eh, and
 * has 0 to 255 of them where no length is given. No named code may come twice, but FDh may come any
 * number of times. Nothing is required. The length in an image's header counts all bytes from the
 * first entry to the check's last, and is at most 2,048; with the header that is 2,059 bytes.
 */
enum {
    BOARDID_ONIE_PRODUCT_NAME = 0x21,      /* text */
    BOARDID_ONIE_PART_NUMBER = 0x22,       /* text */
    BOARDID_ONIE_SERIAL_NUMBER = 0x23,     /* text */
    BOARDID_ONIE_BASE_MAC_ADDRESS = 0x24,  /* an address block of count 1, high byte first */
    BOARDID_ONIE_MANUFACTURE_DATE = 0x25,  /* a date with time: 19 bytes MM/DD/YYYY HH:NN:SS, the
                                              day as in FBOSS 13, hours 00 to 23, minutes and
                                              seconds 00 to 59 */
    BOARDID_ONIE_MAC_ADDRESS_COUNT = 0x2A, /* a number of two bytes, high byte first */
    BOARDID_ONIE_MANUFACTURER = 0x2B,      /* text */
    BOARDID_ONIE_COUNTRY_CODE = 0x2C,      /* text of two bytes, each a letter A-Z */
    BOARDID_ONIE_VENDOR = 0x2D,            /* text */
    BOARDID_ONIE_VENDOR_EXTENSION = 0xFD   /* plain bytes, 4 to 255; may come again */
};

/* The kind of a named entry: its format and its code in one number. May stand in a case label. */
#define BOARDID_KIND(format, code) ((format) * 256 + (code))

/* ---- Answers ------------------------------------------------------------------------------ */

/*
 * The numbers of refusals, each with its place after "at". In a write the place of 7, 8, 9, 13 and
 * 14 is not this one but the number of the field in the list, counted from 0. In an addition 7, 8,
 * 13 and 14 for the new field are at 0; those for an entry that is stored are at the entry. In the
 * calls on a room file what a stored body is refused for has its place in the file: that of the
 * body's first byte and the one in the body together, also where the latter is 0.
 */
enum {
    BOARDID_NOT_REFUSED = 0,
    BOARDID_REFUSED_EDITION = 1,    /* the library does not know the edition; at 0 */
    BOARDID_REFUSED_TOO_LONG = 2,   /* the image, the room file or the output is longer than 65,536
                                       bytes; at 0 */
    BOARDID_REFUSED_HEADER = 3,     /* shorter than the header, a wrong magic, or FBOSS byte 3 is
                                       not FFh; at 0 */
    BOARDID_REFUSED_VERSION = 4,    /* another version byte; at 0 */
    BOARDID_REFUSED_PAST_ROOM = 5,  /* an entry runs past the room; at its first byte. The entries
                                       run out without an end; at the byte where the next would be.
                                       The Tiny length byte is below 4 or above the image; at 2.
                                       The ONIE length is above 2,048 or runs past the image, or it
                                       leaves bytes after the check; at 9 */
    BOARDID_REFUSED_FORBIDDEN = 6,  /* FBOSS code 0 or 255, or 250 with a length other than 2; VPD
                                       type 02h to FDh, or a fourth length byte that says another
                                       follows; Tiny tag 00h; ONIE code 00h or FFh, or FEh with a
                                       length other than 4; at the entry's first byte */
    BOARDID_REFUSED_RULE = 7,       /* a named entry, or the new value of one, breaks the rule of
                                       its code; at the entry's first byte. The alphabet of a VPD
                                       01h key is a reason in a write or an addition only */
    BOARDID_REFUSED_TWICE = 8,      /* a named code (VPD 01h: a key) comes a second time; at the
                                       first byte of the second entry. Never of ONIE FDh */
    BOARDID_REFUSED_AFTER_POOL = 9, /* an entry after the pool; at its first byte */
    BOARDID_REFUSED_CHECK = 10,     /* the check is wrong; at the first byte of the stored one */
    BOARDID_REFUSED_MISSING = 11,   /* a required field is missing, or is to be removed; at 0 */
    BOARDID_REFUSED_NO_ROOM = 12,   /* more entries than records lent, an output too small, a Tiny
                                       image above 255 bytes, an ONIE image above 2,059, or fewer
                                       than 48 bytes lent for a vendor block; at 0 */
    BOARDID_REFUSED_NOT_THERE = 13, /* no entry of that number; at 0. In a write or an addition: a
                                       field's key or value is not inside the lent values. In an
                                       addition also: the field is cut short */
    BOARDID_REFUSED_NOT_NAMED = 14, /* a code without a name in this edition is not written, edited,
                                       added or removed; in an edit or a removal at the entry's
                                       first byte */
    BOARDID_REFUSED_NO_STRING = 15, /* no pool, or no string of that number; at 0 */
    BOARDID_REFUSED_FORMAT = 16     /* the format is not 1 to 4, not 3 for a string, or not 4 for a
                                       vendor payload; at 0 */
};

/* Of the calls on vendor payloads alone, from edition 3 on; all at 0. */
enum {
    BOARDID_REFUSED_NO_PAYLOAD = 17,     /* no FDh entry's value begins with 00 00 1F 79 00 */
    BOARDID_REFUSED_PAYLOAD_LENGTH = 18, /* the payload is not exactly as long as its parts. In
                                            writing: a serial above 255 bytes, a piece above 250, no
                                            pieces, or pieces that do not sum to the payload */
    BOARDID_REFUSED_PAYLOAD_CHECK = 19,  /* the payload's own check is wrong */
    BOARDID_REFUSED_BLOCK = 20           /* the block's version is not 00, or the block does not
                                            have nine bytes */
};

/* Of the calls on room files alone; all at 0. */
enum {
    BOARDID_REFUSED_ROOM_FILE = 21,  /* the head or the contents of the file are wrong, the file
                                        does not end with its last body, or the form that the call
                                        is told is not known or not the file's */
    BOARDID_REFUSED_NO_BOARD = 22,   /* no board has that number */
    BOARDID_REFUSED_BOARD_THERE = 23 /* a board of that number is there already */
};

/*
 * Where several things are wrong, the first in this order is reported. "The image's own refusals"
 * of the calls below are tried so; what is wrong up to 10 is reported alike by every edition that
 * has the format.
 *   - 2; then 3, 4, 3 for FBOSS byte 3, 5 for the Tiny length byte, and 5 for an ONIE length that
 *     is above 2,048 or runs past the image;
 *   - then entry by entry: 9, 6 for the code, 5 for a missing byte and 6 for a length byte as they
 *     are read, and 5 for a value past the room;
 *   - then 5 for an ONIE length that leaves bytes after the check;
 *   - then 10;
 *   - then entry by entry: 7, 8;
 *   - then 11.
 */

/* A part of an image or of a room file: the place of its first byte, and its length. */
struct boardid_part {
    uint32_t place;
    uint32_t length;
};

/* The number of the refusal; 0 where the call was not refused. */
static inline uint32_t boardid_answer_number(uint64_t answer)
{
    return (uint32_t)(answer >> 59);
}

/* The place of the refusal; 0 where the call was not refused. */
static inline uint64_t boardid_answer_place(uint64_t answer)
{
    return boardid_answer_number(answer) != 0 ? answer << 5 >> 5 : 0;
}

/* The count or length that the call gives; 0 where it was refused. */
static inline uint32_t boardid_answer_count(uint64_t answer)
{
    return boardid_answer_number(answer) == 0 ? (uint32_t)(answer >> 32) : 0;
}

/*
 * The part that boardid_value_at, boardid_string_at or boardid_room_fetch_board gives; the empty
 * part at 0 where it was refused.
 */
static inline struct boardid_part boardid_answer_part(uint64_t answer)
{
    struct boardid_part part;

    part.place = boardid_answer_number(answer) == 0 ? (uint32_t)answer : 0;
    part.length = boardid_answer_count(answer);
    return part;
}

/* A sentence for people about a refusal's number, without a full stop. */
static inline const char *boardid_refusal_text(uint32_t number)
{
    switch (number) {
    case BOARDID_NOT_REFUSED:
        return "not refused";
    case BOARDID_REFUSED_EDITION:
        return "the library does not know the edition of the header";
    case BOARDID_REFUSED_TOO_LONG:
        return "the image, the room file or the output is longer than 65,536 bytes";
    case BOARDID_REFUSED_HEADER:
        return "the image is shorter than the header, or the header is not this format's";
    case BOARDID_REFUSED_VERSION:
        return "the image has another version of the format";
    case BOARDID_REFUSED_PAST_ROOM:
        return "an entry or the end of the entries runs past the room, or a stored length is wrong";
    case BOARDID_REFUSED_FORBIDDEN:
        return "the code or a length byte is one that no entry can have";
    case BOARDID_REFUSED_RULE:
        return "the entry or the new value breaks the rule of its code";
    case BOARDID_REFUSED_TWICE:
        return "the code or the key comes a second time";
    case BOARDID_REFUSED_AFTER_POOL:
        return "an entry comes after the string pool";
    case BOARDID_REFUSED_CHECK:
        return "the stored check is wrong";
    case BOARDID_REFUSED_MISSING:
        return "a required field is missing";
    case BOARDID_REFUSED_NO_ROOM:
        return "too few records, an output too small, or an image too long for Tiny or ONIE";
    case BOARDID_REFUSED_NOT_THERE:
        return "no entry has that number, or a field's key or value is not inside the values";
    case BOARDID_REFUSED_NOT_NAMED:
        return "this edition does not name the code";
    case BOARDID_REFUSED_NO_STRING:
        return "there is no string pool, or no string of that number";
    case BOARDID_REFUSED_FORMAT:
        return "the format is not known, or is none that this call is for";
    case BOARDID_REFUSED_NO_PAYLOAD:
        return "no entry has a piece of a vendor payload";
    case BOARDID_REFUSED_PAYLOAD_LENGTH:
        return "the lengths of the vendor payload and of its parts or pieces do not fit";
    case BOARDID_REFUSED_PAYLOAD_CHECK:
        return "the check of the vendor payload is wrong";
    case BOARDID_REFUSED_BLOCK:
        return "the vendor block has another version, or another length than nine bytes";
    case BOARDID_REFUSED_ROOM_FILE:
        return "the room file's head or contents are wrong, or it has another form";
    case BOARDID_REFUSED_NO_BOARD:
        return "no board of the room file has that number";
    case BOARDID_REFUSED_BOARD_THERE:
        return "a board of that number is in the room file already";
    default:
        return "no refusal has this number";
    }
}

/* ---- Layouts in lent bytes ---------------------------------------------------------------- */

/*
 * Records, fields and walks lie in lent bytes as unsigned 32-bit words, low byte first, on every
 * machine. The functions below read and write them there. Each takes lent bytes that hold what it
 * reads or writes whole; it tests no length.
 */
enum {
    BOARDID_IMAGE_MAX = 65536, /* the most bytes of an image, and of an output */
    BOARDID_RECORD_SIZE = 64,  /* the bytes of a record */
    BOARDID_FIELD_SIZE = 20,   /* the bytes of a field */
    BOARDID_WALK_SIZE = 16     /* the bytes of a walk */
};

/* Word w of lent bytes, counted from 0. */
static inline uint32_t boardid_word_at(const uint8_t *bytes, size_t w)
{
    uint32_t word = bytes[4 * w + 3];

    word = word << 8 | bytes[4 * w + 2];
    word = word << 8 | bytes[4 * w + 1];
    return word << 8 | bytes[4 * w];
}

/* Sets word w of lent bytes. */
static inline void boardid_word_set(uint8_t *bytes, size_t w, uint32_t word)
{
    bytes[4 * w] = (uint8_t)word;
    bytes[4 * w + 1] = (uint8_t)(word >> 8);
    bytes[4 * w + 2] = (uint8_t)(word >> 16);
    bytes[4 * w + 3] = (uint8_t)(word >> 24);
}

/*
 * How an entry's value is to be read. An entry of kind 0 is always plain bytes. A library that is
 * newer than this header may give a number that is not here: take such an entry for plain bytes.
 */
enum {
    BOARDID_READING_PLAIN_BYTES = 0,
    BOARDID_READING_TEXT = 1,
    BOARDID_READING_NUMBER = 2,
    BOARDID_READING_ADDRESS_BLOCK = 3,
    BOARDID_READING_STRING_NUMBER = 4,
    BOARDID_READING_TEST_FLAGS = 5,
    BOARDID_READING_IDENTITY = 6,
    BOARDID_READING_DATE = 8
};

/* From edition 2 on. */
enum {
    BOARDID_READING_IDENTITY_WITH_BATCH = 7
};

/* From edition 3 on. */
enum {
    BOARDID_READING_DATE_WITH_TIME = 9
};

/*
 * One entry of an image: sixteen words in the order in which they lie in lent bytes. On a machine
 * whose words have the low byte first, an array of these may be lent as the bytes of records.
 *
 * The key and a value of plain bytes are any bytes, as many as their lengths say. A zero may stand
 * in them and does not end them, and they may hold control bytes: do not print them as they are.
 *
 * From edition 4 on a record has the length of the entry's whole frame: its code, its length bytes
 * as they are stored, its key and its value. The next entry begins at place + frame_length. After
 * the last one there begins what ends the entries: FBOSS code 250, VPD's end byte, Tiny's check
 * byte, ONIE code FEh.
 */
struct boardid_record {
    uint32_t code;
    uint32_t kind;         /* BOARDID_KIND(format, code), or 0 where the code is not named */
    uint32_t place;        /* of the entry's first byte */
    uint32_t key_place;    /* FBOSS, Tiny and ONIE, which have no keys: the value's place */
    uint32_t key_length;   /* FBOSS, Tiny and ONIE: 0 */
    uint32_t value_place;
    uint32_t value_length;
    uint32_t frame_length; /* of the whole entry: code, length bytes, key and value */
    uint32_t reading;      /* one of BOARDID_READING_..; any other number: plain bytes */
    uint32_t carried[7];   /* what the reading carries: read it with the functions below */
};

/* Compiles only where the struct has the 64 bytes of a record. */
typedef char boardid_record_has_64_bytes[sizeof(struct boardid_record) == 64 ? 1 : -1];

/* Record k of lent bytes that hold records one after another, counted from 0. */
static inline struct boardid_record boardid_record_at(const uint8_t *records, size_t k)
{
    const uint8_t *bytes = records + k * BOARDID_RECORD_SIZE;
    struct boardid_record record;
    size_t i;

    record.code = boardid_word_at(bytes, 0);
    record.kind = boardid_word_at(bytes, 1);
    record.place = boardid_word_at(bytes, 2);
    record.key_place = boardid_word_at(bytes, 3);
    record.key_length = boardid_word_at(bytes, 4);
    record.value_place = boardid_word_at(bytes, 5);
    record.value_length = boardid_word_at(bytes, 6);
    record.frame_length = boardid_word_at(bytes, 7);
    record.reading = boardid_word_at(bytes, 8);
    for (i = 0; i < 7; i++) {
        record.carried[i] = boardid_word_at(bytes, 9 + i);
    }
    return record;
}

/* The number of an entry whose reading is a number; 0 of any other. */
static inline uint32_t boardid_record_number(const struct boardid_record *record)
{
    return record->reading == BOARDID_READING_NUMBER ? record->carried[0] : 0;
}

/* The first address of an address block, as a number of 48 bits; 0 of any other entry. */
static inline uint64_t boardid_record_address_base(const struct boardid_record *record)
{
    uint64_t base = record->carried[0];

    return record->reading == BOARDID_READING_ADDRESS_BLOCK ? base << 32 | record->carried[1] : 0;
}

/* How many addresses an address block has; 0 of any other entry. */
static inline uint32_t boardid_record_address_count(const struct boardid_record *record)
{
    return record->reading == BOARDID_READING_ADDRESS_BLOCK ? record->carried[2] : 0;
}

/* The string number of an entry whose reading is a string number; 0 of any other. */
static inline uint32_t boardid_record_string_number(const struct boardid_record *record)
{
    return record->reading == BOARDID_READING_STRING_NUMBER ? record->carried[0] : 0;
}

/*
 * The byte of an entry whose reading is test flags; 0 of any other. Bit 0: assembly test passed,
 * bit 1: configuration test, bit 2: burn-in test, bit 3: system test; bits 4 to 7 are reserved.
 */
static inline uint32_t boardid_record_test_flags(const struct boardid_record *record)
{
    return record->reading == BOARDID_READING_TEST_FLAGS ? record->carried[0] : 0;
}

/* How many of the four tests were passed; 0 of an entry with another reading. */
static inline uint32_t boardid_record_tests_passed(const struct boardid_record *record)
{
    return record->reading == BOARDID_READING_TEST_FLAGS ? record->carried[1] : 0;
}

/* A product's identity. The first two count strings of the pool, and are no places. */
struct boardid_identity {
    uint32_t serial_string;
    uint32_t part_string;
    uint32_t revision_major; /* 0 to 99, or 128 to 153 for 0A to 0Z */
    uint32_t revision_minor; /* 0 to 99 */
    uint32_t free_bytes[2];
};

/* The identity of an entry whose reading is an identity, with or without batch; of any other 0s. */
static inline struct boardid_identity boardid_record_identity(const struct boardid_record *record)
{
    struct boardid_identity identity = {0, 0, 0, 0, {0, 0}};

    if (record->reading == BOARDID_READING_IDENTITY ||
        record->reading == BOARDID_READING_IDENTITY_WITH_BATCH) {
        identity.serial_string = record->carried[0];
        identity.part_string = record->carried[1];
        identity.revision_major = record->carried[2];
        identity.revision_minor = record->carried[3];
        identity.free_bytes[0] = record->carried[4];
        identity.free_bytes[1] = record->carried[5];
    }
    return identity;
}

/* The batch number of an entry whose reading is an identity with batch; 0 of any other. */
static inline uint32_t boardid_record_batch(const struct boardid_record *record)
{
    return record->reading == BOARDID_READING_IDENTITY_WITH_BATCH ? record->carried[6] : 0;
}

/* A day of the Gregorian calendar. */
struct boardid_date {
    uint32_t year;  /* 1 to 9999 */
    uint32_t month; /* 1 to 12 */
    uint32_t day;   /* 1 to 31, and no more than the month has */
};

/* The date of an entry whose reading is a date, with or without time; of any other 0s. */
static inline struct boardid_date boardid_record_date(const struct boardid_record *record)
{
    struct boardid_date date = {0, 0, 0};

    if (record->reading == BOARDID_READING_DATE ||
        record->reading == BOARDID_READING_DATE_WITH_TIME) {
        date.year = record->carried[0];
        date.month = record->carried[1];
        date.day = record->carried[2];
    }
    return date;
}

/* A time of the day. */
struct boardid_time {
    uint32_t hour;   /* 0 to 23 */
    uint32_t minute; /* 0 to 59 */
    uint32_t second; /* 0 to 59 */
};

/* The time of an entry whose reading is a date with time; of any other 0s. */
static inline struct boardid_time boardid_record_time(const struct boardid_record *record)
{
    struct boardid_time time_of_day = {0, 0, 0};

    if (record->reading == BOARDID_READING_DATE_WITH_TIME) {
        time_of_day.hour = record->carried[3];
        time_of_day.minute = record->carried[4];
        time_of_day.second = record->carried[5];
    }
    return time_of_day;
}

/*
 * One field of a list to write, or the field to add. The places count bytes of the lent values,
 * from 0. Outside VPD the key is not looked at.
 */
struct boardid_field {
    uint32_t code;
    uint32_t key_place;
    uint32_t key_length;
    uint32_t value_place;
    uint32_t value_length;
};

/* Field k of lent bytes that hold fields one after another, counted from 0. */
static inline struct boardid_field boardid_field_at(const uint8_t *fields, size_t k)
{
    const uint8_t *bytes = fields + k * BOARDID_FIELD_SIZE;
    struct boardid_field field;

    field.code = boardid_word_at(bytes, 0);
    field.key_place = boardid_word_at(bytes, 1);
    field.key_length = boardid_word_at(bytes, 2);
    field.value_place = boardid_word_at(bytes, 3);
    field.value_length = boardid_word_at(bytes, 4);
    return field;
}

/* Sets field k of lent bytes. */
static inline void boardid_field_set(uint8_t *fields, size_t k, struct boardid_field field)
{
    uint8_t *bytes = fields + k * BOARDID_FIELD_SIZE;

    boardid_word_set(bytes, 0, field.code);
    boardid_word_set(bytes, 1, field.key_place);
    boardid_word_set(bytes, 2, field.key_length);
    boardid_word_set(bytes, 3, field.value_place);
    boardid_word_set(bytes, 4, field.value_length);
}

/*
 * A walk holds a format, an edition and the number of the entry that its next step gives. It holds
 * no pointer, so it may be copied and stored.
 */

/* Sets a walk of this edition: its next step gives the entry of that number. */
static inline void boardid_walk_set(uint8_t *walk, uint32_t format, uint64_t entry)
{
    boardid_word_set(walk, 0, format);
    boardid_word_set(walk, 1, BOARDID_EDITION);
    boardid_word_set(walk, 2, (uint32_t)entry);
    boardid_word_set(walk, 3, (uint32_t)(entry >> 32));
}

/* The format of a walk. */
static inline uint32_t boardid_walk_format(const uint8_t *walk)
{
    return boardid_word_at(walk, 0);
}

/* The edition of the header that a walk was set with. */
static inline uint32_t boardid_walk_edition(const uint8_t *walk)
{
    return boardid_word_at(walk, 1);
}

/* The number of the entry that a walk's next step gives. */
static inline uint64_t boardid_walk_entry(const uint8_t *walk)
{
    uint64_t high = boardid_word_at(walk, 3);

    return high << 32 | boardid_word_at(walk, 2);
}

/* ---- Vendor payloads ---------------------------------------------------------------------- */

/*
 * From edition 3 on. An optics lab's amplifiers keep a payload in the FDh entries of an ONIE image.
 * It is cut into pieces, and each entry whose value begins with the prefix 00 00 1F 79 00 has one:
 * what follows the prefix, in image order. Joined, they are
 *   - the serial's length in one byte, and the serial, which may be any bytes;
 *   - the block's length in two bytes, high byte first, and the block;
 *   - the check, in four bytes, high byte first: ONIE's CRC-32 over all before it.
 * The block of a dual-band amplifier has nine bytes: version 00, and eight offsets, each a signed
 * byte in tenths of a decibel, so that 18h is 24, which is 2.4 dB, and FEh is -2.
 */
enum {
    BOARDID_VENDOR_PREFIX_LENGTH = 5, /* the bytes of the prefix */
    BOARDID_VENDOR_PIECE_MAX = 250,   /* the most bytes of a piece, without its prefix */
    BOARDID_VENDOR_SERIAL_MAX = 255,  /* the most bytes of a serial */
    BOARDID_VENDOR_PAYLOAD_MIN = 16,  /* the bytes of a payload besides those of its serial */
    BOARDID_VENDOR_PAYLOAD_MAX = 271, /* the most bytes of a payload that is read or written */
    BOARDID_VENDOR_OFFSETS = 8,       /* how many offsets a block has */
    BOARDID_VENDOR_PIECE_SIZE = 4,    /* the bytes of a piece's length in lent pieces, one word */
    BOARDID_VENDOR_BLOCK_SIZE = 48    /* the bytes that are lent for what a payload says */
};

/* The offsets, by their number in the block. */
enum {
    BOARDID_VENDOR_C_BAND_WEST_IN = 0,
    BOARDID_VENDOR_C_BAND_WEST_OUT = 1,
    BOARDID_VENDOR_C_BAND_EAST_IN = 2,
    BOARDID_VENDOR_C_BAND_EAST_OUT = 3,
    BOARDID_VENDOR_L_BAND_WEST_IN = 4,
    BOARDID_VENDOR_L_BAND_WEST_OUT = 5,
    BOARDID_VENDOR_L_BAND_EAST_IN = 6,
    BOARDID_VENDOR_L_BAND_EAST_OUT = 7
};

/*
 * What a payload says: twelve words in the order in which they lie in lent bytes. The places count
 * bytes of the payload, from 0. On a machine whose words have the low byte first, one of these may
 * be lent as the bytes of a block.
 */
struct boardid_vendor_block {
    uint32_t serial_place;
    uint32_t serial_length;
    uint32_t block_place;
    uint32_t block_length;                   /* 9 */
    int32_t offsets[BOARDID_VENDOR_OFFSETS]; /* -128 to 127, in tenths of a decibel */
};

/* Compiles only where the struct has the 48 bytes that are lent for it. */
typedef char boardid_vendor_block_has_48_bytes[sizeof(struct boardid_vendor_block) == 48 ? 1 : -1];

/* Word w of lent bytes as a signed number, in two's complement. */
static inline int32_t boardid_signed_word_at(const uint8_t *bytes, size_t w)
{
    uint32_t word = boardid_word_at(bytes, w);

    return word <= 0x7FFFFFFF ? (int32_t)word : -1 - (int32_t)(0xFFFFFFFF - word);
}

/* The block in lent bytes that boardid_vendor_read_payload has filled. */
static inline struct boardid_vendor_block boardid_vendor_block_at(const uint8_t *bytes)
{
    struct boardid_vendor_block block;
    size_t k;

    block.serial_place = boardid_word_at(bytes, 0);
    block.serial_length = boardid_word_at(bytes, 1);
    block.block_place = boardid_word_at(bytes, 2);
    block.block_length = boardid_word_at(bytes, 3);
    for (k = 0; k < BOARDID_VENDOR_OFFSETS; k++) {
        block.offsets[k] = boardid_signed_word_at(bytes, 4 + k);
    }
    return block;
}

/* The length of piece k in lent bytes that hold lengths one after another, counted from 0. */
static inline uint32_t boardid_vendor_piece_at(const uint8_t *pieces, size_t k)
{
    return boardid_word_at(pieces, k);
}

/* Sets the length of piece k in lent bytes. It counts no byte of the prefix, and may be 0. */
static inline void boardid_vendor_piece_set(uint8_t *pieces, size_t k, uint32_t length)
{
    boardid_word_set(pieces, k, length);
}

/* Eight offsets as the library takes them: offset k in bits 8k to 8k + 7 of one number. */
static inline uint64_t boardid_vendor_offsets_word(const int8_t offsets[8])
{
    uint64_t word = 0;
    size_t k;

    for (k = BOARDID_VENDOR_OFFSETS; k > 0; k--) {
        word = word << 8 | (uint8_t)offsets[k - 1];
    }
    return word;
}

/* ---- Room files --------------------------------------------------------------------------- */

/*
 * A room file holds the boards of a machine room, of any formats, in at most 65,536 bytes. All its
 * numbers have the high byte first:
 *   - the head, 8 bytes: 52h 4Dh, the form 01h, 00h, the count of boards in two bytes, 00h 00h;
 *   - the contents, a row of 8 bytes for each board: the board's number in four bytes, its format
 *     in one, 00h, the length of its body in two. The numbers of the boards rise from row to row,
 *     without a sign;
 *   - the bodies in the order of the rows, without gaps. The file ends with the last one; without
 *     boards it ends with the head.
 * A board's number is any of 32 bits. A body is what was read from the board's chip: an image, and
 * what follows the image's end, which is kept; 1 to 65,535 bytes.
 */
enum {
    BOARDID_ROOM_FORM_1 = 1,        /* the form above */
    BOARDID_ROOM_MAX = 65536,       /* the most bytes of a file, and of an output */
    BOARDID_ROOM_BOARDS_MAX = 7280, /* the most boards of a file */
    BOARDID_ROOM_HEAD_SIZE = 8,     /* the bytes of the head */
    BOARDID_ROOM_ROW_SIZE = 8       /* the bytes of a row */
};

/* A row of the contents, with the place of the body, which counts bytes of the file, from 0. */
struct boardid_room_row {
    uint32_t board;
    uint32_t format;
    uint32_t body_place;
    uint32_t body_length; /* 1 to 65,535; 0 where there is no such row */
};

/* The place of the first row in a file of that form; 0 of a form that this header does not have. */
static inline size_t boardid_room_contents_place(uint32_t form)
{
    return form == BOARDID_ROOM_FORM_1 ? BOARDID_ROOM_HEAD_SIZE : 0;
}

/*
 * Writes a room file of that form without boards to the front of out. A first board is then added
 * to it, into another buffer.
 *
 * Gives the length of the file, which is 8; or 0, and nothing is written, where out is shorter or
 * this header does not have the form. Bytes of out after the file stay as they were.
 */
static inline size_t boardid_room_write_empty(uint32_t form, uint8_t *out, size_t out_length)
{
    const size_t length = boardid_room_contents_place(form);
    size_t i;

    if (length == 0 || out_length < length) {
        return 0;
    }
    for (i = 0; i < length; i++) {
        out[i] = 0;
    }
    out[0] = 0x52;
    out[1] = 0x4D;
    out[2] = (uint8_t)form;
    return length;
}

/*
 * How many rows a room file of that form has. This is for a file that a call on room files, told
 * the same form, has not refused, or has refused with another number than 1, 2 and 21: only then
 * are its head and its contents known to be right. It may be lent any other bytes too, and reads
 * none past their length, but what it gives then says nothing of them: 0 where there is no head
 * with that form, where the rows that the head counts are not all there, and of more than 65,536
 * bytes, and else what the head counts.
 */
static inline uint32_t boardid_room_rows(uint32_t form, const uint8_t *file, size_t file_length)
{
    const size_t place = boardid_room_contents_place(form);
    uint32_t rows;

    if (place == 0 || file_length < place || file_length > BOARDID_ROOM_MAX || file[2] != form) {
        return 0;
    }
    rows = (uint32_t)file[4] << 8 | file[5];
    return rows <= (file_length - place) / BOARDID_ROOM_ROW_SIZE ? rows : 0;
}

/*
 * Row k of a room file of that form, counted from 0, with the place of its body. It relies on what
 * boardid_room_rows relies on. It may be lent any other bytes too: whatever they are, it reads none
 * past their length, and gives either a row whose body lies inside them or, where there is none, a
 * row of 0s.
 *
 * It adds the lengths of all rows before k. A program that goes through a long file may do so
 * itself: the body of row k + 1 begins where that of row k ends.
 */
static inline struct boardid_room_row boardid_room_row_at(uint32_t form, const uint8_t *file,
                                                          size_t file_length, size_t k)
{
    const struct boardid_room_row none = {0, 0, 0, 0};
    const size_t rows = boardid_room_rows(form, file, file_length);
    const uint8_t *bytes = file;
    struct boardid_room_row row = none;
    size_t end, i;

    if (k >= rows) {
        return none;
    }
    end = boardid_room_contents_place(form) + rows * BOARDID_ROOM_ROW_SIZE;
    for (i = 0; i <= k; i++) {
        bytes = file + boardid_room_contents_place(form) + i * BOARDID_ROOM_ROW_SIZE;
        row.body_place = (uint32_t)end;
        row.body_length = (uint32_t)bytes[6] << 8 | bytes[7];
        end += row.body_length;
        if (row.body_length == 0 || end > file_length) {
            return none;
        }
    }
    row.board = (uint32_t)bytes[0] << 24 | (uint32_t)bytes[1] << 16 | (uint32_t)bytes[2] << 8 |
                bytes[3];
    row.format = bytes[4];
    return row;
}

/* ---- What the library exports ------------------------------------------------------------- */

/* These take the edition as a number. The calls below pass this header's: use those. */
uint64_t boardid_check(uint32_t format, uint32_t edition, const uint8_t *image,
                       size_t image_length);
uint64_t boardid_list(uint32_t format, uint32_t edition, const uint8_t *image, size_t image_length,
                      uint8_t *records, size_t records_length);
uint64_t boardid_entry(uint32_t format, uint32_t edition, const uint8_t *image, size_t image_length,
                       uint64_t n, uint8_t *record, size_t record_length);
uint64_t boardid_value(uint32_t format, uint32_t edition, const uint8_t *image, size_t image_length,
                       uint64_t n);
uint64_t boardid_string(uint32_t format, uint32_t edition, const uint8_t *image,
                        size_t image_length, uint64_t number);
uint64_t boardid_step(uint8_t *walk, size_t walk_length, const uint8_t *image, size_t image_length,
                      uint8_t *record, size_t record_length);
uint64_t boardid_write(uint32_t format, uint32_t edition, const uint8_t *fields,
                       size_t fields_length, const uint8_t *values, size_t values_length,
                       uint8_t *out, size_t out_length);
uint64_t boardid_edit(uint32_t format, uint32_t edition, const uint8_t *image, size_t image_length,
                      uint64_t n, const uint8_t *value, size_t value_length, uint8_t *out,
                      size_t out_length);
uint64_t boardid_add(uint32_t format, uint32_t edition, const uint8_t *image, size_t image_length,
                     const uint8_t *field, size_t field_length, const uint8_t *values,
                     size_t values_length, uint8_t *out, size_t out_length);
uint64_t boardid_remove(uint32_t format, uint32_t edition, const uint8_t *image,
                        size_t image_length, uint64_t n, uint8_t *out, size_t out_length);
uint64_t boardid_room_add(uint32_t form, uint32_t edition, const uint8_t *file, size_t file_length,
                          uint32_t board, uint32_t format, const uint8_t *body, size_t body_length,
                          uint8_t *out, size_t out_length);
uint64_t boardid_room_replace(uint32_t form, uint32_t edition, const uint8_t *file,
                              size_t file_length, uint32_t board, uint32_t format,
                              const uint8_t *body, size_t body_length, uint8_t *out,
                              size_t out_length);
uint64_t boardid_room_remove(uint32_t form, uint32_t edition, const uint8_t *file,
                             size_t file_length, uint32_t board, uint8_t *out, size_t out_length);
uint64_t boardid_room_fetch(uint32_t form, uint32_t edition, const uint8_t *file,
                            size_t file_length, uint32_t board);

/*
 * From edition 3 on. The format is 4, ONIE: any other is refused with 16, whatever the edition, and
 * then an edition that is not known with 1, and editions 1 and 2 with 16.
 */
uint64_t boardid_vendor_read(uint32_t format, uint32_t edition, const uint8_t *image,
                             size_t image_length, uint8_t *payload, size_t payload_length,
                             uint8_t *block, size_t block_length);
uint64_t boardid_vendor_write(uint32_t format, uint32_t edition, const uint8_t *serial,
                              size_t serial_length, uint64_t offsets, const uint8_t *pieces,
                              size_t pieces_length, uint8_t *out, size_t out_length);

/* ---- The calls ---------------------------------------------------------------------------- */

/*
 * Checks an image.
 *
 * Gives the count of its entries.
 * Refused: 16, 1, then the image's own refusals.
 */
static inline uint64_t boardid_check_image(uint32_t format, const uint8_t *image,
                                           size_t image_length)
{
    return boardid_check(format, BOARDID_EDITION, image, image_length);
}

/*
 * Lists an image: fills lent records with its entries, in image order.
 *
 * Gives the count of entries. Records past it stay as they were. The records lent are
 * records_length / 64; bytes that make no whole record stay as they were.
 * Refused: as boardid_check_image, then 12 where there are more entries than records.
 */
static inline uint64_t boardid_list_entries(uint32_t format, const uint8_t *image,
                                            size_t image_length, uint8_t *records,
                                            size_t records_length)
{
    return boardid_list(format, BOARDID_EDITION, image, image_length, records, records_length);
}

/*
 * Gives entry n of an image in a lent record.
 *
 * Gives count 1. Bytes past the record stay as they were.
 * Refused: as boardid_check_image, then 13 where there is no entry n, then 12 where less than a
 * whole record is lent.
 */
static inline uint64_t boardid_entry_at(uint32_t format, const uint8_t *image, size_t image_length,
                                        uint64_t n, uint8_t *record, size_t record_length)
{
    return boardid_entry(format, BOARDID_EDITION, image, image_length, n, record, record_length);
}

/*
 * Gives the value of entry n as a part of the image.
 *
 * Refused: as boardid_check_image, then 13 where there is no entry n.
 */
static inline uint64_t boardid_value_at(uint32_t format, const uint8_t *image, size_t image_length,
                                        uint64_t n)
{
    return boardid_value(format, BOARDID_EDITION, image, image_length, n);
}

/*
 * Gives a string of a Tiny image's pool as a part of the image. Strings are counted from 0. A
 * string ends with the first byte whose top bit is on; that byte is part of it, as stored, so its
 * low seven bits are the last character. A tail of the pool without such a byte is no string.
 *
 * Refused: 16 where the format is not Tiny, else as boardid_check_image, then 15 where there is no
 * pool or no such string.
 */
static inline uint64_t boardid_string_at(uint32_t format, const uint8_t *image, size_t image_length,
                                         uint64_t number)
{
    return boardid_string(format, BOARDID_EDITION, image, image_length, number);
}

/*
 * Takes one step of a walk that boardid_walk_set has set: gives the entry of the walk's number, of
 * the image lent to this step, in a lent record, and moves the walk on by one.
 *
 * Gives count 1. A refused step leaves the walk where it was.
 * Refused: as boardid_entry_at, by the walk's format, edition and number; so 13 comes after the
 * last entry. Fewer than 16 bytes are no walk: 16.
 */
static inline uint64_t boardid_walk_step(uint8_t *walk, size_t walk_length, const uint8_t *image,
                                         size_t image_length, uint8_t *record, size_t record_length)
{
    return boardid_step(walk, walk_length, image, image_length, record, record_length);
}

/*
 * Writes an image from a list of fields, in list order, into out. The fields' keys and values are
 * parts of the lent values. The fields lent are fields_length / 20.
 *
 * Gives the length of the image, its end included. Every byte of out after it is FFh.
 * Refused: 16, 1, 2 for out; then field by field, each whole before the next, at the field's
 * number: 14, 13, 9, 7, 8; then 11; then 12 where the image does not fit in out, or a Tiny image
 * would have more than 255 bytes, or an ONIE image more than 2,059. Of VPD 01h, 7 is also for a key
 * with a byte other than a-z, A-Z, 0-9 and _, though an image with that key is read.
 */
static inline uint64_t boardid_write_image(uint32_t format, const uint8_t *fields,
                                           size_t fields_length, const uint8_t *values,
                                           size_t values_length, uint8_t *out, size_t out_length)
{
    return boardid_write(format, BOARDID_EDITION, fields, fields_length, values, values_length, out,
                         out_length);
}

/*
 * Edits an image: puts the image with a new value of entry n into out. Every other entry keeps its
 * bytes and its order, also one that this edition does not name. Of a VPD entry n the key stays as
 * it is, whatever its bytes. The check is made anew. What followed the image's end is not kept.
 *
 * Gives the length of the new image, its end included. Every byte of out after it is FFh.
 * Refused: as boardid_check_image, with 2 for out too; then 13 where there is no entry n; then, at
 * the entry's first byte, 14 where this edition does not name its code and 7 where the new value
 * breaks its rule; then 12 where the new image does not fit in out, or a Tiny image would have more
 * than 255 bytes, or an ONIE image more than 2,059.
 */
static inline uint64_t boardid_edit_entry(uint32_t format, const uint8_t *image,
                                          size_t image_length, uint64_t n, const uint8_t *value,
                                          size_t value_length, uint8_t *out, size_t out_length)
{
    return boardid_edit(format, BOARDID_EDITION, image, image_length, n, value, value_length, out,
                        out_length);
}

/*
 * Adds a field to an image: puts the image with one more entry into out. The new entry comes after
 * the last one, in a Tiny image with a pool before the pool; a new pool comes last. The field is
 * the first 20 bytes of field; bytes past them are not looked at. Its key and value are parts of
 * the lent values. Every stored entry keeps its bytes and its order, also one that this edition
 * does not name; the new one has VPD lengths in their shortest form. The check is made anew. What
 * followed the image's end is not kept.
 *
 * Gives the length of the new image, its end included. Every byte of out after it is FFh.
 * Refused: as boardid_check_image, with 2 for out too; then, all at 0: 13 where fewer than 20 bytes
 * of field are lent, or its value or, in VPD, its key is not inside the values; 14 where this
 * edition does not name its code; 7 where it breaks the rule of its code, as in boardid_write_image
 * (so of VPD 01h also for a key with a byte other than a-z, A-Z, 0-9 and _); 8 where the image has
 * that code (VPD 01h: that key) already, but never of ONIE FDh; 12 where the new image does not fit
 * in out, or a Tiny image would have more than 255 bytes, or an ONIE image more than 2,059.
 */
static inline uint64_t boardid_add_field(uint32_t format, const uint8_t *image, size_t image_length,
                                         const uint8_t *field, size_t field_length,
                                         const uint8_t *values, size_t values_length, uint8_t *out,
                                         size_t out_length)
{
    return boardid_add(format, BOARDID_EDITION, image, image_length, field, field_length, values,
                       values_length, out, out_length);
}

/*
 * Removes entry n from an image: puts the image without it into out. Every other entry keeps its
 * bytes and its order, also one that this edition does not name. The check is made anew. What
 * followed the image's end is not kept. A Tiny pool is removed as any other entry, also where
 * string numbers count its strings.
 *
 * Gives the length of the new image, its end included. Every byte of out after it is FFh.
 * Refused: as boardid_check_image, with 2 for out too; then 13 where there is no entry n; then 14,
 * at the entry's first byte, where this edition does not name its code; then 11, at 0, where it is
 * required, which is FBOSS 1, 8, 9, 10 and 11; then 12 where the new image does not fit in out.
 */
static inline uint64_t boardid_remove_entry(uint32_t format, const uint8_t *image,
                                            size_t image_length, uint64_t n, uint8_t *out,
                                            size_t out_length)
{
    return boardid_remove(format, BOARDID_EDITION, image, image_length, n, out, out_length);
}

/*
 * The four calls on a room file are told the form that they expect, which is BOARDID_ROOM_FORM_1.
 * In each of them this edition has to accept every stored body, as boardid_check_image does, also
 * the one that goes and those that are not asked for; so a board whose format this edition does not
 * have is 16, at the first byte of its body.
 *
 * "The file's own refusals" are tried in this order: 1; 2 for the file and, in a call that has one,
 * for out; 21; 22 or 23; then what each stored body is refused for, in the order of the rows, at
 * its place in the file. All before the bodies are at 0.
 */

/*
 * Adds a board to a room file: puts the file with one more row and its body into out. The body goes
 * in as it is, with what follows the image's end. Every other board keeps its number, its format
 * and its body, byte for byte.
 *
 * Gives the length of the new file. Bytes of out after it stay as they were.
 * Refused: the file's own refusals, with 23 where a board of that number is there; then what the
 * body is refused for, as by boardid_check_image, at its place in the body; then 12, at 0, where
 * the new file does not fit in out, which has at most 65,536 bytes.
 */
static inline uint64_t boardid_room_add_board(uint32_t form, const uint8_t *file,
                                              size_t file_length, uint32_t board, uint32_t format,
                                              const uint8_t *body, size_t body_length, uint8_t *out,
                                              size_t out_length)
{
    return boardid_room_add(form, BOARDID_EDITION, file, file_length, board, format, body,
                            body_length, out, out_length);
}

/*
 * Replaces a board of a room file: puts the file with another body of that board, of the same
 * format or another one, into out. Every other board stays, as in boardid_room_add_board.
 *
 * Gives the length of the new file. Bytes of out after it stay as they were.
 * Refused: the file's own refusals, with 22 where no board has that number; then what the body is
 * refused for, and 12, as in boardid_room_add_board.
 */
static inline uint64_t boardid_room_replace_board(uint32_t form, const uint8_t *file,
                                                  size_t file_length, uint32_t board,
                                                  uint32_t format, const uint8_t *body,
                                                  size_t body_length, uint8_t *out,
                                                  size_t out_length)
{
    return boardid_room_replace(form, BOARDID_EDITION, file, file_length, board, format, body,
                                body_length, out, out_length);
}

/*
 * Removes a board from a room file: puts the file without its row and its body into out. Every
 * other board stays, as in boardid_room_add_board.
 *
 * Gives the length of the new file. Bytes of out after it stay as they were.
 * Refused: the file's own refusals, with 22 where no board has that number; then 12, at 0, where
 * the new file does not fit in out.
 */
static inline uint64_t boardid_room_remove_board(uint32_t form, const uint8_t *file,
                                                 size_t file_length, uint32_t board, uint8_t *out,
                                                 size_t out_length)
{
    return boardid_room_remove(form, BOARDID_EDITION, file, file_length, board, out, out_length);
}

/*
 * Gives the body of a board as a part of a room file, for boardid_answer_part. Its format stands in
 * the board's row.
 *
 * Refused: the file's own refusals, with 22 where no board has that number.
 */
static inline uint64_t boardid_room_fetch_board(uint32_t form, const uint8_t *file,
                                                size_t file_length, uint32_t board)
{
    return boardid_room_fetch(form, BOARDID_EDITION, file, file_length, board);
}

/*
 * Reads the vendor payload of an ONIE image, from edition 3 on: joins its pieces into the front of
 * payload, and puts what it says into block, for boardid_vendor_block_at. No payload that is read
 * has more than 271 bytes.
 *
 * Gives the length of the payload. Bytes of payload after it, and bytes of block after the 48, stay
 * as they were.
 * Refused: as boardid_check_image, with 2 for payload too; then, all at 0: 17 where no entry has a
 * piece, 18 where the payload is not exactly as long as its parts (also where it ends before a
 * length), 19 where its check is wrong, 20 where the block's version is not 00 or the block does
 * not have nine bytes; then 12 where the payload does not fit in payload, or fewer than 48 bytes of
 * block are lent.
 */
static inline uint64_t boardid_vendor_read_payload(const uint8_t *image, size_t image_length,
                                                   uint8_t *payload, size_t payload_length,
                                                   uint8_t *block, size_t block_length)
{
    return boardid_vendor_read(BOARDID_FORMAT_ONIE, BOARDID_EDITION, image, image_length, payload,
                               payload_length, block, block_length);
}

/*
 * Writes a vendor payload, from edition 3 on: puts the values of its FDh entries into out, one
 * after another, each the prefix and a piece, without the entry's code and length. An image is then
 * written or edited with them. It takes the serial, the eight offsets and the lengths of the
 * pieces. The pieces lent are pieces_length / 4; a length may be 0, and together they are 16 and
 * the serial's length.
 *
 * Gives the bytes put out: 5 for each piece, 16, and the serial's length. Bytes of out after them
 * stay as they were.
 * Refused, all at 0: 16, 1, 2 for out; then 18 where the serial has more than 255 bytes, a piece
 * more than 250, there are no pieces, or they do not sum to the payload; then 12 where the values
 * do not fit in out.
 */
static inline uint64_t boardid_vendor_write_payload(const uint8_t *serial, size_t serial_length,
                                                    const int8_t offsets[8],
                                                    const uint8_t *pieces, size_t pieces_length,
                                                    uint8_t *out, size_t out_length)
{
    return boardid_vendor_write(BOARDID_FORMAT_ONIE, BOARDID_EDITION, serial, serial_length,
                                boardid_vendor_offsets_word(offsets), pieces, pieces_length, out,
                                out_length);
}

/* ---- Helpers ------------------------------------------------------------------------------ */

/*
 * What programs that make the calls above have in common. The functions of this section are C that
 * is tested; they are outside the proofs. They take no memory and keep nothing, and what is said of
 * the calls at the top of this file holds of them too: a pointer is good for the length that goes
 * with it, and what a function writes overlaps nothing else that is lent to it.
 */

/* The name of a format, for people; null of a number that is no format of this edition. */
static inline const char *boardid_format_name(uint32_t format)
{
    switch (format) {
    case BOARDID_FORMAT_FBOSS:
        return "FBOSS v5";
    case BOARDID_FORMAT_VPD:
        return "VPD 2.0";
    case BOARDID_FORMAT_TINY:
        return "Tiny EEPROM version 2";
    case BOARDID_FORMAT_ONIE:
        return "ONIE TlvInfo version 1";
    default:
        return NULL;
    }
}

/*
 * The name that a format's document gives to a kind; null of 0 and of every number that is no kind
 * of this edition. What tells one VPD entry from another is its key, and not this name.
 */
static inline const char *boardid_kind_name(uint32_t kind)
{
    switch (kind) {
    case BOARDID_KIND(BOARDID_FORMAT_FBOSS, BOARDID_FBOSS_PRODUCT_NAME):
        return "Product Name";
    case BOARDID_KIND(BOARDID_FORMAT_FBOSS, BOARDID_FBOSS_PRODUCT_PART_NUMBER):
        return "Top Level 20- Product Part Number";
    case BOARDID_KIND(BOARDID_FORMAT_FBOSS, BOARDID_FBOSS_SYSTEM_ASSEMBLY_PART_NUMBER):
        return "System Assembly Part Number";
    case BOARDID_KIND(BOARDID_FORMAT_FBOSS, BOARDID_FBOSS_META_PCBA_PART_NUMBER):
        return "Meta PCBA Part Number";
    case BOARDID_KIND(BOARDID_FORMAT_FBOSS, BOARDID_FBOSS_META_PCB_PART_NUMBER):
        return "Meta PCB Part Number";
    case BOARDID_KIND(BOARDID_FORMAT_FBOSS, BOARDID_FBOSS_ODM_PCBA_PART_NUMBER):
        return "ODM/JDM PCBA Part Number";
    case BOARDID_KIND(BOARDID_FORMAT_FBOSS, BOARDID_FBOSS_ODM_PCBA_SERIAL_NUMBER):
        return "ODM/JDM PCBA Serial Number";
    case BOARDID_KIND(BOARDID_FORMAT_FBOSS, BOARDID_FBOSS_PRODUCT_PRODUCTION_STATE):
        return "Product Production State";
    case BOARDID_KIND(BOARDID_FORMAT_FBOSS, BOARDID_FBOSS_PRODUCT_VERSION):
        return "Product Version";
    case BOARDID_KIND(BOARDID_FORMAT_FBOSS, BOARDID_FBOSS_PRODUCT_SUB_VERSION):
        return "Product Sub Version";
    case BOARDID_KIND(BOARDID_FORMAT_FBOSS, BOARDID_FBOSS_PRODUCT_SERIAL_NUMBER):
        return "Product Serial Number";
    case BOARDID_KIND(BOARDID_FORMAT_FBOSS, BOARDID_FBOSS_SYSTEM_MANUFACTURER):
        return "System Manufacturer";
    case BOARDID_KIND(BOARDID_FORMAT_FBOSS, BOARDID_FBOSS_SYSTEM_MANUFACTURING_DATE):
        return "System Manufacturing Date";
    case BOARDID_KIND(BOARDID_FORMAT_FBOSS, BOARDID_FBOSS_PCB_MANUFACTURER):
        return "PCB Manufacturer";
    case BOARDID_KIND(BOARDID_FORMAT_FBOSS, BOARDID_FBOSS_ASSEMBLED_AT):
        return "Assembled at";
    case BOARDID_KIND(BOARDID_FORMAT_FBOSS, BOARDID_FBOSS_EEPROM_LOCATION_ON_FABRIC):
        return "EEPROM location on Fabric";
    case BOARDID_KIND(BOARDID_FORMAT_FBOSS, BOARDID_FBOSS_X86_CPU_MAC_ADDRESSES):
        return "X86 CPU MAC Addresses";
    case BOARDID_KIND(BOARDID_FORMAT_FBOSS, BOARDID_FBOSS_BMC_MAC_ADDRESSES):
        return "BMC MAC Addresses";
    case BOARDID_KIND(BOARDID_FORMAT_FBOSS, BOARDID_FBOSS_SWITCH_ASIC_MAC_ADDRESSES):
        return "Switch ASIC MAC Addresses";
    case BOARDID_KIND(BOARDID_FORMAT_FBOSS, BOARDID_FBOSS_META_RESERVED_MAC_ADDRESSES):
        return "Meta Reserved MAC Addresses";
    case BOARDID_KIND(BOARDID_FORMAT_VPD, BOARDID_VPD_STRING):
        return "string";
    case BOARDID_KIND(BOARDID_FORMAT_VPD, BOARDID_VPD_INFO):
        return "info header";
    case BOARDID_KIND(BOARDID_FORMAT_TINY, BOARDID_TINY_ASCII_STRINGS):
        return "ASCII encoded strings pool";
    case BOARDID_KIND(BOARDID_FORMAT_TINY, BOARDID_TINY_SERIAL_NUMBER):
        return "Serial number";
    case BOARDID_KIND(BOARDID_FORMAT_TINY, BOARDID_TINY_FACTORY_TEST_FLAGS):
        return "Factory test flags";
    case BOARDID_KIND(BOARDID_FORMAT_TINY, BOARDID_TINY_BASE_MAC_ADDRESS):
        return "Base MAC address";
    case BOARDID_KIND(BOARDID_FORMAT_TINY, BOARDID_TINY_PRODUCT_IDENTITY):
        return "Product identity";
    case BOARDID_KIND(BOARDID_FORMAT_TINY, BOARDID_TINY_SYSTEM_PRODUCT_IDENTITY):
        return "System product identity";
    case BOARDID_KIND(BOARDID_FORMAT_TINY, BOARDID_TINY_PRODUCT_IDENTITY_BATCH):
        return "Product identity w/ batch code";
    case BOARDID_KIND(BOARDID_FORMAT_TINY, BOARDID_TINY_SYSTEM_PRODUCT_IDENTITY_BATCH):
        return "System product identity w/ batch code";
    case BOARDID_KIND(BOARDID_FORMAT_ONIE, BOARDID_ONIE_PRODUCT_NAME):
        return "Product Name";
    case BOARDID_KIND(BOARDID_FORMAT_ONIE, BOARDID_ONIE_PART_NUMBER):
        return "Part Number";
    case BOARDID_KIND(BOARDID_FORMAT_ONIE, BOARDID_ONIE_SERIAL_NUMBER):
        return "Serial Number";
    case BOARDID_KIND(BOARDID_FORMAT_ONIE, BOARDID_ONIE_BASE_MAC_ADDRESS):
        return "MAC #1 Base";
    case BOARDID_KIND(BOARDID_FORMAT_ONIE, BOARDID_ONIE_MANUFACTURE_DATE):
        return "Manufacture Date";
    case BOARDID_KIND(BOARDID_FORMAT_ONIE, BOARDID_ONIE_MAC_ADDRESS_COUNT):
        return "Num MACs";
    case BOARDID_KIND(BOARDID_FORMAT_ONIE, BOARDID_ONIE_MANUFACTURER):
        return "Manufacturer";
    case BOARDID_KIND(BOARDID_FORMAT_ONIE, BOARDID_ONIE_COUNTRY_CODE):
        return "Country Code";
    case BOARDID_KIND(BOARDID_FORMAT_ONIE, BOARDID_ONIE_VENDOR):
        return "Vendor";
    case BOARDID_KIND(BOARDID_FORMAT_ONIE, BOARDID_ONIE_VENDOR_EXTENSION):
        return "Vendor Extension";
    default:
        return NULL;
    }
}

/*
 * The number of the first entry from entry number from on that has a code; count where there is
 * none. It goes through the first count records, as boardid_list_entries has filled them.
 */
static inline size_t boardid_find_code(const uint8_t *records, size_t count, uint32_t code,
                                       size_t from)
{
    size_t k;

    for (k = from; k < count; k++) {
        if (boardid_record_at(records, k).code == code) {
            return k;
        }
    }
    return count;
}

/*
 * The number of the first entry from entry number from on that has a key, byte for byte, whatever
 * its code; count where there is none. It goes through the first count records, as
 * boardid_list_entries has filled them from the image, and reads the image where they say. VPD
 * alone has keys: in every other format all keys are empty.
 */
static inline size_t boardid_find_key(const uint8_t *image, const uint8_t *records, size_t count,
                                      const void *key, size_t key_length, size_t from)
{
    const uint8_t *wanted = (const uint8_t *)key;
    size_t k, i;

    for (k = from; k < count; k++) {
        struct boardid_record record = boardid_record_at(records, k);

        if (record.key_length == key_length) {
            for (i = 0; i < key_length && image[record.key_place + i] == wanted[i]; i++) {
            }
            if (i == key_length) {
                return k;
            }
        }
    }
    return count;
}

/*
 * Address k of an address block, counted from 0, in six bytes, high byte first: its first address
 * and k together. After FF FF FF FF FF FF comes 00 00 00 00 00 00. How many addresses the block has
 * is not asked. Of an entry with another reading the bytes are 0s, whatever k is.
 */
static inline void boardid_record_address_bytes(const struct boardid_record *record, uint32_t k,
                                                uint8_t bytes[6])
{
    uint64_t address = boardid_record_address_base(record);
    size_t i;

    if (record->reading == BOARDID_READING_ADDRESS_BLOCK) {
        address += k;
    }
    for (i = 6; i > 0; i--) {
        bytes[i - 1] = (uint8_t)address;
        address >>= 8;
    }
}

/*
 * Puts a string of a Tiny image's pool into text, as snprintf would: as many of its characters as
 * fit, and a zero after them. The top bit of the last character is taken off, so each is 00h to
 * 7Fh; they may be control characters, and a zero may stand among them too.
 *
 * Gives the length of the whole string, without the zero at the end, so that all of it is there
 * where that is less than text_size. No string has the length 0: this is given where there is no
 * such string, no pool, or the image is refused, and text is then the empty text; boardid_string_at
 * says for what. Bytes of text after the zero stay as they were. With a text_size of 0 nothing is
 * written.
 */
static inline size_t boardid_string_text(const uint8_t *image, size_t image_length, uint64_t number,
                                         char *text, size_t text_size)
{
    struct boardid_part part = boardid_answer_part(
        boardid_string_at(BOARDID_FORMAT_TINY, image, image_length, number));
    size_t i;

    for (i = 0; i < part.length && i + 1 < text_size; i++) {
        text[i] = (char)(image[part.place + i] & 0x7F);
    }
    if (text_size != 0) {
        text[i] = '\0';
    }
    return part.length;
}

/* The most bytes of a Tiny pool. */
enum {
    BOARDID_TINY_POOL_MAX = 255
};

/*
 * How many strings the bytes of a pool have; so also the number of the string that is appended to
 * them next.
 */
static inline uint32_t boardid_pool_strings(const uint8_t *pool, size_t pool_length)
{
    uint32_t strings = 0;
    size_t i;

    for (i = 0; i < pool_length; i++) {
        strings += (uint32_t)(pool[i] >> 7);
    }
    return strings;
}

/*
 * Appends a text as one string to the bytes of a pool, which may be none: the characters, the last
 * one with its top bit on. The pool is pool_length bytes at the front of pool_size.
 *
 * Gives the new length of the pool; or 0, and nothing is written, where the text is empty or has a
 * byte above 7Fh, where the pool ends in bytes of no string, which the new string would take in,
 * where pool_size bytes are too few, and where the pool would have more than 255 bytes.
 */
static inline size_t boardid_pool_append(uint8_t *pool, size_t pool_length, size_t pool_size,
                                         const void *text, size_t text_length)
{
    const uint8_t *characters = (const uint8_t *)text;
    size_t room = BOARDID_TINY_POOL_MAX;
    size_t i;

    if (pool_size < room) {
        room = pool_size;
    }
    if (text_length == 0 || pool_length > room || text_length > room - pool_length ||
        (pool_length != 0 && pool[pool_length - 1] <= 0x7F)) {
        return 0;
    }
    for (i = 0; i < text_length; i++) {
        if (characters[i] > 0x7F) {
            return 0;
        }
    }
    for (i = 0; i < text_length; i++) {
        pool[pool_length + i] = characters[i];
    }
    pool[pool_length + text_length - 1] |= 0x80;
    return pool_length + text_length;
}

/* The bytes that a length has in VPD, in its shortest form: one for each seven bits. */
static inline uint32_t boardid_vpd_length_bytes(uint64_t length)
{
    uint32_t bytes = 1;

    while (length > 0x7F) {
        length >>= 7;
        bytes++;
    }
    return bytes;
}

/* The place of an image's first entry, or of its end where it has none; 0 of any other format. */
static inline uint32_t boardid_first_place(uint32_t format)
{
    switch (format) {
    case BOARDID_FORMAT_FBOSS:
        return 4;
    case BOARDID_FORMAT_TINY:
        return 3;
    case BOARDID_FORMAT_ONIE:
        return 11;
    default:
        return 0;
    }
}

/* The bytes of an image's end; 1 of any other format. */
static inline uint32_t boardid_end_length(uint32_t format)
{
    switch (format) {
    case BOARDID_FORMAT_FBOSS:
        return 4;
    case BOARDID_FORMAT_ONIE:
        return 6;
    default:
        return 1;
    }
}

/* The length of the frame that a field gets in a write or an addition that is not refused. */
static inline uint64_t boardid_field_frame_length(uint32_t format, struct boardid_field field)
{
    uint64_t length = field.value_length;

    if (format == BOARDID_FORMAT_VPD) {
        return length + 1 + boardid_vpd_length_bytes(field.key_length) + field.key_length +
               boardid_vpd_length_bytes(field.value_length);
    }
    if (format == BOARDID_FORMAT_TINY && field.code != BOARDID_TINY_ASCII_STRINGS) {
        return length + 1;
    }
    return length + 2;
}

/* The answer with the length of a new image, or 12 where no image of the format is that long. */
static inline uint64_t boardid_length_answer(uint32_t format, uint64_t length)
{
    uint64_t most = BOARDID_IMAGE_MAX;

    if (format == BOARDID_FORMAT_TINY) {
        most = 255;
    }
    if (format == BOARDID_FORMAT_ONIE) {
        most = 2059;
    }
    return length <= most ? length << 32 : (uint64_t)BOARDID_REFUSED_NO_ROOM << 59;
}

/*
 * The length of an image, its end included. What the lent bytes have after it is not looked at.
 *
 * Gives the length.
 * Refused: as boardid_check_image.
 */
static inline uint64_t boardid_image_length(uint32_t format, const uint8_t *image,
                                            size_t image_length)
{
    uint64_t answer = boardid_check_image(format, image, image_length);
    uint32_t entries = boardid_answer_count(answer);
    uint64_t end = boardid_first_place(format);
    uint8_t record[BOARDID_RECORD_SIZE];

    if (entries != 0) {
        answer = boardid_entry_at(format, image, image_length, entries - 1, record, sizeof record);
        end = boardid_record_at(record, 0).value_place;
        end += boardid_record_at(record, 0).value_length;
    }
    return boardid_answer_number(answer) != 0 ? answer : (end + boardid_end_length(format)) << 32;
}

/*
 * The length that an image to write has: answers as boardid_write_image with an output of
 * BOARDID_IMAGE_MAX bytes, and needs no output. So it gives the length, or is refused for what the
 * write is refused for, with 12 where no output is long enough.
 */
static inline uint64_t boardid_write_length(uint32_t format, const uint8_t *fields,
                                            size_t fields_length, const uint8_t *values,
                                            size_t values_length)
{
    uint64_t answer = boardid_write_image(format, fields, fields_length, values, values_length,
                                          NULL, 0);
    uint64_t length = boardid_first_place(format) + boardid_end_length(format);
    size_t k;

    /* 12 comes last: where that is given, nothing else is wrong. */
    if (boardid_answer_number(answer) != BOARDID_REFUSED_NO_ROOM) {
        return answer;
    }
    for (k = 0; k < fields_length / BOARDID_FIELD_SIZE && length <= BOARDID_IMAGE_MAX; k++) {
        length += boardid_field_frame_length(format, boardid_field_at(fields, k));
    }
    return boardid_length_answer(format, length);
}

/*
 * The length that an edited image has: answers as boardid_edit_entry with an output of
 * BOARDID_IMAGE_MAX bytes, and needs no output.
 */
static inline uint64_t boardid_edit_length(uint32_t format, const uint8_t *image,
                                           size_t image_length, uint64_t n, const uint8_t *value,
                                           size_t value_length)
{
    uint64_t answer = boardid_edit_entry(format, image, image_length, n, value, value_length, NULL,
                                         0);
    uint8_t bytes[BOARDID_RECORD_SIZE];
    struct boardid_record record;
    uint64_t length;

    if (boardid_answer_number(answer) != BOARDID_REFUSED_NO_ROOM) {
        return answer;
    }
    length = boardid_answer_count(boardid_image_length(format, image, image_length));
    boardid_entry_at(format, image, image_length, n, bytes, sizeof bytes);
    record = boardid_record_at(bytes, 0);
    length = length - record.value_length + value_length;
    if (format == BOARDID_FORMAT_VPD) {
        /* The value's length is stored between key and value, and is written in shortest form. */
        length -= record.value_place - (record.key_place + record.key_length);
        length += boardid_vpd_length_bytes(value_length);
    }
    return boardid_length_answer(format, length);
}

/*
 * The length that an image with a field added has: answers as boardid_add_field with an output of
 * BOARDID_IMAGE_MAX bytes, and needs no output.
 */
static inline uint64_t boardid_add_length(uint32_t format, const uint8_t *image,
                                          size_t image_length, const uint8_t *field,
                                          size_t field_length, const uint8_t *values,
                                          size_t values_length)
{
    uint64_t answer = boardid_add_field(format, image, image_length, field, field_length, values,
                                        values_length, NULL, 0);
    uint64_t length;

    if (boardid_answer_number(answer) != BOARDID_REFUSED_NO_ROOM) {
        return answer;
    }
    length = boardid_answer_count(boardid_image_length(format, image, image_length));
    length += boardid_field_frame_length(format, boardid_field_at(field, 0));
    return boardid_length_answer(format, length);
}

#ifdef __cplusplus
}
#endif

#endif
