/*
 * The two calls that change how many entries an image has, boardid_add_field and
 * boardid_remove_entry: what they put out, byte by byte, and what they refuse, in which order and
 * at which place. Compiled once with each edition's header. All lent memory ends at a page that may
 * not be touched.
 *
 * Format 4, ONIE, is a number here: the headers of editions 1 and 2 have no name for it.
 */
#define _DEFAULT_SOURCE

#include "answers.h"
#include "images.h"

enum { NEWEST = 4 };

/* ---- Images --------------------------------------------------------------------------------- */

/* What VPD fields are added from: at 0 SKU, at 3 A7, at 5 note, at 9 four bytes, at 13 lab.rack. */
#define VPD_VALUES "53 4B 55 41 37 6E 6F 74 65 01 02 03 04 " LAB_RACK

#define SKU "01 03 53 4B 55 02 41 37 "

/* An entry with the key SKU, its lengths in two bytes and three; an FEh, its lengths in two. */
#define LONG_SKU "01 80 03 53 4B 55 80 80 02 41 37 "
#define LONG_INFO "FE 80 00 80 04 01 02 03 04 "

/* What FBOSS fields are added from: at 0 QCT, at 3 20240229, at 11 20230231, at 19 an address. */
#define FBOSS_ADDED \
    "51 43 54 32 30 32 34 30 32 32 39 32 30 32 33 30 32 33 31 02 00 00 00 00 01 00 01"

/* FBOSS: what is required and no more; with code 17; and with entries that no edition names. */
#define FBOSS_LEAST FBOSS_START "FA 02 82 1E"
#define FBOSS_17 "11 08 02 00 00 00 00 01 00 01 "
#define FBOSS_WITH_17 FBOSS_START FBOSS_17 "FA 02 60 AC"
#define FBOSS_UNNAMED "63 02 00 FF 63 00 15 01 FA "
#define FBOSS_WITH_UNNAMED FBOSS_START FBOSS_UNNAMED "FA 02 F6 F1"

/* FBOSS: 1, 99, 8, 15, 9, 17, 10, 11 and 21. */
#define FBOSS_NINE \
    "FB FB 05 FF 01 00 63 01 00 08 01 01 0F 02 41 42 09 01 02 " FBOSS_17 \
    "0A 01 03 0B 00 15 00 FA 02 E8 C2"

/* What Tiny fields are added from: at 0 an address, at 6 an identity with batch, at 14 a string. */
#define TINY_VALUES "02 1A 2B 3C 4D 5E 00 01 80 05 41 31 2A 00 41 C2"

#define TINY_POOL "01 04 41 C2 C3 44 "
#define TINY_BATCH "80 00 01 80 05 41 31 2A 00 "

/* Tiny: 23h and 02h, which no edition names, and 80h, which edition 1 does not. */
#define TINY_UNNAMED "23 AA BB 02 01 CC " TINY_BATCH

/* Tiny: an identity and a string number that count strings of the pool. */
#define TINY_COUNTING "61 00 01 02 03 2D 2D 10 01 "

/* What ONIE fields are added from: at 0 CZ, at 2 an enterprise number, at 6 a date. */
#define ONIE_ADDED "43 5A 00 00 1F 79 " ONIE_DATE

/* The four entries of ONIE_FOUR. */
#define FOUR "21 01 41 26 01 01 FD 04 00 00 1F 79 FD 05 00 00 1F 79 00 "

#define ONIE_NONE ONIE "00 06 FE 04 D4 43 1C 18"

/* ---- Additions ------------------------------------------------------------------------------ */

/* An addition: the image, the field, the lent values, the room, and the answer with the image. */
struct add_case {
    const char *what;
    uint32_t format;
    const char *image;
    struct boardid_field field;
    const char *values;
    size_t out_length;
    struct outcome by_edition[2];
    const char *added;
};

static const struct add_case add_cases[] = {
    {"VPD: to no entries", 2, "00", {1, 0, 3, 3, 2}, VPD_VALUES, 12, {{0, 0, 9}, {0, 0, 9}},
     SKU "00"},
    {"VPD: to no entries and an end FFh", 2, "FF", {1, 0, 3, 3, 2}, VPD_VALUES, 12,
     {{0, 0, 9}, {0, 0, 9}}, SKU "00"},
    {"VPD: an empty value", 2, "00", {1, 5, 4, 0, 0}, VPD_VALUES, 12, {{0, 0, 8}, {0, 0, 8}},
     "01 04 6E 6F 74 65 00 00"},
    {"VPD: after the last entry", 2, SKU "00", {1, 5, 4, 9, 4}, VPD_VALUES, 40,
     {{0, 0, 20}, {0, 0, 20}}, SKU "01 04 6E 6F 74 65 04 01 02 03 04 00"},
    {"VPD: an end FFh becomes 00h", 2, SKU "FF AA BB", {1, 5, 4, 9, 1}, VPD_VALUES, 18,
     {{0, 0, 17}, {0, 0, 17}}, SKU "01 04 6E 6F 74 65 01 01 00"},
    {"VPD: long lengths stay", 2, LONG_SKU LONG_INFO "FF 01 00", {1, 5, 4, 3, 2}, VPD_VALUES, 40,
     {{0, 0, 30}, {0, 0, 30}}, LONG_SKU LONG_INFO "01 04 6E 6F 74 65 02 41 37 00"},
    {"VPD: the manual's example", 2, "01 80 03 53 4B 55 80 02 41 37 FF AA", {1, 0, 1, 1, 0}, "6E", 20,
     {{0, 0, 15}, {0, 0, 15}}, "01 80 03 53 4B 55 80 02 41 37 01 01 6E 00 00"},
    {"VPD: the manual's example, its key", 2, "01 80 03 53 4B 55 80 02 41 37 FF AA",
     {1, 0, 3, 3, 2}, VPD_VALUES, 40, {{8, 0, 0}, {8, 0, 0}}, ""},
    {"VPD: what no write makes stays", 2, NAMES, {1, 0, 3, 3, 2}, VPD_VALUES, 50,
     {{0, 0, 38}, {0, 0, 38}},
     "01 80 08 " LAB_RACK " 03 52 30 37 FE 01 22 04 01 02 03 04 01 03 22 00 FF 00 " SKU "00"},
    {"VPD: FEh", 2, SKU "00", {0xFE, 5, 4, 9, 4}, VPD_VALUES, 30, {{14, 0, 0}, {0, 0, 20}},
     SKU "FE 04 6E 6F 74 65 04 01 02 03 04 00"},
    {"VPD: FEh without a key, at the values' end", 2, "00", {0xFE, 21, 0, 9, 4}, VPD_VALUES, 30,
     {{14, 0, 0}, {0, 0, 8}}, "FE 00 04 01 02 03 04 00"},
    {"VPD: FEh with a dotted key", 2, "00", {0xFE, 13, 8, 9, 4}, VPD_VALUES, 30,
     {{14, 0, 0}, {0, 0, 16}}, "FE 08 " LAB_RACK " 04 01 02 03 04 00"},
    {"VPD: FEh with a key that is there", 2, SKU "00", {0xFE, 0, 3, 9, 4}, VPD_VALUES, 30,
     {{14, 0, 0}, {0, 0, 19}}, SKU "FE 03 53 4B 55 04 01 02 03 04 00"},
    {"VPD: a key that an FEh has", 2, "FE 03 53 4B 55 04 01 02 03 04 00", {1, 0, 3, 3, 2},
     VPD_VALUES, 30, {{0, 0, 19}, {0, 0, 19}}, "FE 03 53 4B 55 04 01 02 03 04 " SKU "00"},
    {"VPD: a second FEh", 2, LONG_INFO "00", {0xFE, 0, 0, 9, 4}, VPD_VALUES, 30,
     {{14, 0, 0}, {8, 0, 0}}, ""},
    {"VPD: a second FEh with another key", 2, SKU LONG_INFO "00", {0xFE, 5, 4, 9, 4}, VPD_VALUES,
     40, {{14, 0, 0}, {8, 0, 0}}, ""},
    {"VPD: FEh of three bytes", 2, SKU "00", {0xFE, 5, 4, 9, 3}, VPD_VALUES, 30,
     {{14, 0, 0}, {7, 0, 0}}, ""},
    {"VPD: FEh of five bytes, 7 before 8", 2, SKU LONG_INFO "00", {0xFE, 5, 4, 9, 5}, VPD_VALUES,
     30, {{14, 0, 0}, {7, 0, 0}}, ""},
    {"VPD: 8 before 12", 2, SKU LONG_INFO "00", {0xFE, 5, 4, 9, 4}, VPD_VALUES, 0,
     {{14, 0, 0}, {8, 0, 0}}, ""},
    {"VPD: beside an FEh that breaks its rule", 2, "01 01 41 00 FE 01 41 03 01 02 03 00",
     {1, 0, 3, 3, 2}, VPD_VALUES, 30, {{0, 0, 20}, {7, 4, 0}},
     "01 01 41 00 FE 01 41 03 01 02 03 " SKU "00"},
    {"VPD: beside two FEh", 2, SKU "FE 00 04 01 02 03 04 FE 01 41 04 01 02 03 04 00",
     {1, 5, 4, 9, 0}, VPD_VALUES, 40, {{0, 0, 31}, {8, 15, 0}},
     SKU "FE 00 04 01 02 03 04 FE 01 41 04 01 02 03 04 01 04 6E 6F 74 65 00 00"},

    {"VPD: the key of the first entry", 2, SKU "01 04 6E 6F 74 65 00 00", {1, 0, 3, 9, 4},
     VPD_VALUES, 40, {{8, 0, 0}, {8, 0, 0}}, ""},
    {"VPD: the key of the last entry", 2, SKU "01 04 6E 6F 74 65 00 00", {1, 5, 4, 9, 4},
     VPD_VALUES, 40, {{8, 0, 0}, {8, 0, 0}}, ""},
    {"VPD: a key whose length is stored in two bytes", 2, "01 01 41 00 " LONG_SKU "00",
     {1, 0, 3, 3, 2}, VPD_VALUES, 40, {{8, 0, 0}, {8, 0, 0}}, ""},
    {"VPD: a key that is there, 8 before 12", 2, SKU "00", {1, 0, 3, 9, 4}, VPD_VALUES, 8,
     {{8, 0, 0}, {8, 0, 0}}, ""},
    {"VPD: the beginning of a key", 2, SKU "00", {1, 0, 2, 3, 1}, VPD_VALUES, 40,
     {{0, 0, 15}, {0, 0, 15}}, SKU "01 02 53 4B 01 41 00"},
    {"VPD: more than a key", 2, SKU "00", {1, 0, 4, 3, 1}, VPD_VALUES, 40,
     {{0, 0, 17}, {0, 0, 17}}, SKU "01 04 53 4B 55 41 01 41 00"},
    {"VPD: a key of the same length", 2, SKU "00", {1, 0, 3, 3, 1}, "53 4B 56 41", 40,
     {{0, 0, 16}, {0, 0, 16}}, SKU "01 03 53 4B 56 01 41 00"},
    {"VPD: a key in small letters", 2, SKU "00", {1, 0, 3, 3, 1}, "73 6B 75 41", 40,
     {{0, 0, 16}, {0, 0, 16}}, SKU "01 03 73 6B 75 01 41 00"},
    {"VPD: a dotted key", 2, SKU "00", {1, 13, 8, 3, 2}, VPD_VALUES, 40, {{7, 0, 0}, {7, 0, 0}},
     ""},
    {"VPD: a dotted key that is there, 7 before 8", 2, "01 08 " LAB_RACK " 00 " SKU "00",
     {1, 13, 8, 3, 2}, VPD_VALUES, 60, {{7, 0, 0}, {7, 0, 0}}, ""},
    {"VPD: a dotted key, 7 before 12", 2, SKU "00", {1, 13, 8, 3, 2}, VPD_VALUES, 0,
     {{7, 0, 0}, {7, 0, 0}}, ""},
    {"VPD: beside a dotted key", 2, "01 08 " LAB_RACK " 00 00", {1, 17, 4, 3, 2}, VPD_VALUES, 60,
     {{0, 0, 21}, {0, 0, 21}}, "01 08 " LAB_RACK " 00 01 04 72 61 63 6B 02 41 37 00"},
    {"VPD: an empty key", 2, SKU "00", {1, 0, 0, 3, 2}, VPD_VALUES, 40, {{7, 0, 0}, {7, 0, 0}},
     ""},

    {"VPD: a value over the end", 2, "00", {1, 0, 3, 20, 2}, VPD_VALUES, 40,
     {{13, 0, 0}, {13, 0, 0}}, ""},
    {"VPD: an empty value at the end", 2, "00", {1, 0, 3, 21, 0}, VPD_VALUES, 40,
     {{0, 0, 7}, {0, 0, 7}}, "01 03 53 4B 55 00 00"},
    {"VPD: an empty value past the end", 2, "00", {1, 0, 3, 22, 0}, VPD_VALUES, 40,
     {{13, 0, 0}, {13, 0, 0}}, ""},
    {"VPD: a key over the end", 2, "00", {1, 20, 2, 0, 0}, VPD_VALUES, 40,
     {{13, 0, 0}, {13, 0, 0}}, ""},
    {"VPD: a key past the end, 13 before 7", 2, "00", {1, 22, 0, 0, 0}, VPD_VALUES, 40,
     {{13, 0, 0}, {13, 0, 0}}, ""},
    {"VPD: a value whose sum would wrap", 2, "00", {1, 0, 3, 0xFFFFFFFF, 2}, VPD_VALUES, 40,
     {{13, 0, 0}, {13, 0, 0}}, ""},
    {"VPD: a key whose sum would wrap", 2, "00", {1, 2, 0xFFFFFFFF, 0, 0}, VPD_VALUES, 40,
     {{13, 0, 0}, {13, 0, 0}}, ""},
    {"VPD: no values", 2, "00", {1, 0, 1, 0, 0}, "", 40, {{13, 0, 0}, {13, 0, 0}}, ""},
    {"VPD: no values, an empty key", 2, "00", {1, 0, 0, 0, 0}, "", 40, {{7, 0, 0}, {7, 0, 0}}, ""},
    {"VPD: 13 before 14", 2, SKU "00", {2, 0, 3, 20, 2}, VPD_VALUES, 40, {{13, 0, 0}, {13, 0, 0}},
     ""},
    {"VPD: the key's 13 before 14", 2, SKU "00", {2, 20, 2, 0, 0}, VPD_VALUES, 40,
     {{13, 0, 0}, {13, 0, 0}}, ""},
    {"VPD: 13 before 8", 2, SKU "00", {1, 0, 3, 20, 2}, VPD_VALUES, 0, {{13, 0, 0}, {13, 0, 0}},
     ""},
    {"VPD: type 02h, 14 before 12", 2, SKU "00", {2, 0, 3, 3, 2}, VPD_VALUES, 0,
     {{14, 0, 0}, {14, 0, 0}}, ""},
    {"VPD: type 00h", 2, SKU "00", {0, 0, 3, 3, 2}, VPD_VALUES, 40, {{14, 0, 0}, {14, 0, 0}}, ""},
    {"VPD: type FDh", 2, SKU "00", {0xFD, 0, 3, 3, 2}, VPD_VALUES, 40, {{14, 0, 0}, {14, 0, 0}},
     ""},
    {"VPD: type FFh", 2, SKU "00", {0xFF, 0, 3, 3, 2}, VPD_VALUES, 40, {{14, 0, 0}, {14, 0, 0}},
     ""},
    {"VPD: code 257", 2, "00", {257, 0, 3, 3, 2}, VPD_VALUES, 40, {{14, 0, 0}, {14, 0, 0}}, ""},
    {"VPD: code 01000001h", 2, "00", {0x01000001, 0, 3, 3, 2}, VPD_VALUES, 40,
     {{14, 0, 0}, {14, 0, 0}}, ""},
    {"VPD: the image's own before 13", 2, "01 01 41 00 01 01 41 00 00", {2, 90, 3, 90, 2},
     VPD_VALUES, 0, {{8, 4, 0}, {8, 4, 0}}, ""},
    {"VPD: an image of no bytes", 2, "", {1, 0, 3, 3, 2}, VPD_VALUES, 40, {{5, 0, 0}, {5, 0, 0}},
     ""},
    {"VPD: an image without an end", 2, SKU, {1, 5, 4, 3, 2}, VPD_VALUES, 40,
     {{5, 8, 0}, {5, 8, 0}}, ""},
    {"VPD: a type 02h in the image", 2, SKU "02 00", {1, 5, 4, 3, 2}, VPD_VALUES, 40,
     {{6, 8, 0}, {6, 8, 0}}, ""},

    {"FBOSS: 12", 1, FBOSS_LEAST, {12, 0, 0, 0, 3}, FBOSS_ADDED, 30, {{0, 0, 26}, {0, 0, 26}},
     FBOSS_START "0C 03 51 43 54 FA 02 E4 49"},
    {"FBOSS: 12, the key not looked at", 1, FBOSS_LEAST, {12, 0xFFFFFFFF, 0xFFFFFFFF, 0, 3},
     FBOSS_ADDED, 30, {{0, 0, 26}, {0, 0, 26}}, FBOSS_START "0C 03 51 43 54 FA 02 E4 49"},
    {"FBOSS: 12 after what is not named", 1, FBOSS_WITH_UNNAMED " FA 02 00 00", {12, 0, 0, 0, 3},
     FBOSS_ADDED, 40, {{0, 0, 35}, {0, 0, 35}},
     FBOSS_START FBOSS_UNNAMED "0C 03 51 43 54 FA 02 20 CD"},
    {"FBOSS: 12 after 17, which edition 1 does not name", 1, FBOSS_WITH_17, {12, 0, 0, 0, 0},
     FBOSS_ADDED, 40, {{0, 0, 33}, {0, 0, 33}}, FBOSS_START FBOSS_17 "0C 00 FA 02 3A 21"},
    {"FBOSS: 17", 1, FBOSS_LEAST, {17, 0, 0, 19, 8}, FBOSS_ADDED, 40, {{14, 0, 0}, {0, 0, 31}},
     FBOSS_WITH_17},
    {"FBOSS: 17 a second time", 1, FBOSS_WITH_17, {17, 0, 0, 19, 8}, FBOSS_ADDED, 60,
     {{14, 0, 0}, {8, 0, 0}}, ""},
    {"FBOSS: 17 a second time, 8 before 12", 1, FBOSS_WITH_17, {17, 0, 0, 19, 8}, FBOSS_ADDED, 31,
     {{14, 0, 0}, {8, 0, 0}}, ""},
    {"FBOSS: 17 of seven bytes, 7 before 8", 1, FBOSS_WITH_17, {17, 0, 0, 19, 7}, FBOSS_ADDED, 60,
     {{14, 0, 0}, {7, 0, 0}}, ""},
    {"FBOSS: 13, a day", 1, FBOSS_LEAST, {13, 0, 0, 3, 8}, FBOSS_ADDED, 31,
     {{0, 0, 31}, {0, 0, 31}}, FBOSS_2024},
    {"FBOSS: 13, no day", 1, FBOSS_LEAST, {13, 0, 0, 11, 8}, FBOSS_ADDED, 40,
     {{7, 0, 0}, {7, 0, 0}}, ""},
    {"FBOSS: 13, no day, 7 before 12", 1, FBOSS_LEAST, {13, 0, 0, 11, 8}, FBOSS_ADDED, 0,
     {{7, 0, 0}, {7, 0, 0}}, ""},
    {"FBOSS: to an image with no day", 1, FBOSS_NO_DAY, {12, 0, 0, 0, 3}, FBOSS_ADDED, 40,
     {{7, 17, 0}, {7, 17, 0}}, ""},
    {"FBOSS: a required one that is there", 1, FBOSS_LEAST, {11, 0, 0, 0, 3}, FBOSS_ADDED, 40,
     {{8, 0, 0}, {8, 0, 0}}, ""},
    {"FBOSS: 8 of two bytes, 7 before 8", 1, FBOSS_LEAST, {8, 0, 0, 0, 2}, FBOSS_ADDED, 40,
     {{7, 0, 0}, {7, 0, 0}}, ""},
    {"FBOSS: a required one that is not there", 1,
     "FB FB 05 FF 01 00 08 01 01 09 01 02 0A 01 03 FA 02 57 48", {11, 0, 0, 0, 3}, FBOSS_ADDED, 40,
     {{11, 0, 0}, {11, 0, 0}}, ""},
    {"FBOSS: 99", 1, FBOSS_LEAST, {99, 0, 0, 0, 3}, FBOSS_ADDED, 40, {{14, 0, 0}, {14, 0, 0}}, ""},
    {"FBOSS: 99, which is there", 1, FBOSS_WITH_UNNAMED, {99, 0, 0, 0, 0}, FBOSS_ADDED, 60,
     {{14, 0, 0}, {14, 0, 0}}, ""},
    {"FBOSS: 0", 1, FBOSS_LEAST, {0, 0, 0, 0, 3}, FBOSS_ADDED, 40, {{14, 0, 0}, {14, 0, 0}}, ""},
    {"FBOSS: 250", 1, FBOSS_LEAST, {250, 0, 0, 0, 2}, FBOSS_ADDED, 40, {{14, 0, 0}, {14, 0, 0}},
     ""},
    {"FBOSS: 255", 1, FBOSS_LEAST, {255, 0, 0, 0, 3}, FBOSS_ADDED, 40, {{14, 0, 0}, {14, 0, 0}},
     ""},
    {"FBOSS: 257", 1, FBOSS_LEAST, {257, 0, 0, 0, 3}, FBOSS_ADDED, 40, {{14, 0, 0}, {14, 0, 0}},
     ""},
    {"FBOSS: 99, 13 before 14", 1, FBOSS_LEAST, {99, 0, 0, 20, 8}, FBOSS_ADDED, 40,
     {{13, 0, 0}, {13, 0, 0}}, ""},
    {"FBOSS: 13 before 7", 1, FBOSS_LEAST, {8, 0, 0, 27, 2}, FBOSS_ADDED, 40,
     {{13, 0, 0}, {13, 0, 0}}, ""},
    {"FBOSS: another magic", 1, "FB FA 05 FF", {99, 0, 0, 90, 0}, "", 0, {{3, 0, 0}, {3, 0, 0}},
     ""},
    {"FBOSS: another version", 1, "FB FB 04 FF", {99, 0, 0, 90, 0}, "", 0, {{4, 0, 0}, {4, 0, 0}},
     ""},
    {"FBOSS: code 255 in the image", 1, FBOSS_START "FF", {99, 0, 0, 90, 0}, "", 0,
     {{6, 17, 0}, {6, 17, 0}}, ""},
    {"FBOSS: the image's check is wrong", 1, FBOSS_START "FA 02 82 1F", {12, 0, 0, 0, 3},
     FBOSS_ADDED, 40, {{10, 19, 0}, {10, 19, 0}}, ""},
    {"FBOSS: 12 twice in the image", 1, FBOSS_START "0C 00 0C 00 FA 02 62 6D", {12, 0, 0, 0, 3},
     FBOSS_ADDED, 40, {{8, 19, 0}, {8, 19, 0}}, ""},

    {"Tiny: 10h to no entries", 3, "56 02 04 6F", {0x10, 0, 0, 0, 1}, "07", 10,
     {{0, 0, 6}, {0, 0, 6}}, "56 02 06 10 07 A2"},
    {"Tiny: 11h after 10h, and bytes after the end", 3, "56 02 06 10 07 A2 00 11",
     {0x11, 0, 0, 0, 1}, "F5", 10, {{0, 0, 8}, {0, 0, 8}}, "56 02 08 10 07 11 F5 E7"},
    {"Tiny: 60h before the pool, the only entry", 3, "56 02 0A " TINY_POOL "82",
     {0x60, 0, 0, 0, 6}, TINY_VALUES, 20, {{0, 0, 17}, {0, 0, 17}},
     "56 02 11 60 02 1A 2B 3C 4D 5E " TINY_POOL "7A"},
    {"Tiny: 60h before the pool", 3, "56 02 0C 10 00 " TINY_POOL "DC", {0x60, 0, 0, 0, 6},
     TINY_VALUES, 20, {{0, 0, 19}, {0, 0, 19}},
     "56 02 13 10 00 60 02 1A 2B 3C 4D 5E " TINY_POOL "9B"},
    {"Tiny: 60h, the key not looked at", 3, "56 02 0C 10 00 " TINY_POOL "DC",
     {0x60, 17, 1, 0, 6}, TINY_VALUES, 20, {{0, 0, 19}, {0, 0, 19}},
     "56 02 13 10 00 60 02 1A 2B 3C 4D 5E " TINY_POOL "9B"},
    {"Tiny: 80h before the pool", 3, "56 02 0C 10 00 " TINY_POOL "DC", {0x80, 0, 0, 6, 8},
     TINY_VALUES, 30, {{14, 0, 0}, {0, 0, 21}}, "56 02 15 10 00 " TINY_BATCH TINY_POOL "BA"},
    {"Tiny: before an empty pool", 3, "56 02 06 01 00 F5", {0x10, 0, 0, 0, 1}, "07", 10,
     {{0, 0, 8}, {0, 0, 8}}, "56 02 08 10 07 01 00 75"},
    {"Tiny: a pool to no entries", 3, "56 02 04 6F", {0x01, 0, 0, 15, 1}, "41 41 41 41 41 41 41 "
     "41 41 41 41 41 41 41 41 C1", 10, {{0, 0, 7}, {0, 0, 7}}, "56 02 07 01 01 C1 8F"},
    {"Tiny: an empty pool to no entries", 3, "56 02 04 6F", {0x01, 0, 0, 0, 0}, "", 10,
     {{0, 0, 6}, {0, 0, 6}}, "56 02 06 01 00 F5"},
    {"Tiny: a pool after all entries", 3, "56 02 13 " TINY_UNNAMED "2E", {0x01, 0, 0, 14, 2},
     TINY_VALUES, 30, {{0, 0, 23}, {0, 0, 23}}, "56 02 17 " TINY_UNNAMED "01 02 41 C2 74"},
    {"Tiny: 10h after what is not named", 3, "56 02 13 " TINY_UNNAMED "2E", {0x10, 0, 0, 0, 1},
     "07", 30, {{0, 0, 21}, {0, 0, 21}}, "56 02 15 " TINY_UNNAMED "10 07 C6"},
    {"Tiny: 11h between what is not named and the pool", 3,
     "56 02 17 " TINY_UNNAMED "01 02 41 C2 74", {0x11, 0, 0, 0, 1}, "0F", 30,
     {{0, 0, 25}, {0, 0, 25}}, "56 02 19 " TINY_UNNAMED "11 0F 01 02 41 C2 F1"},
    {"Tiny: a second pool", 3, "56 02 0A " TINY_POOL "82", {0x01, 0, 0, 14, 2}, TINY_VALUES, 30,
     {{8, 0, 0}, {8, 0, 0}}, ""},
    {"Tiny: a second pool, empty", 3, "56 02 06 01 00 F5", {0x01, 0, 0, 0, 0}, "", 30,
     {{8, 0, 0}, {8, 0, 0}}, ""},
    {"Tiny: 10h a second time", 3, "56 02 0C 10 00 " TINY_POOL "DC", {0x10, 0, 0, 0, 1}, "07", 30,
     {{8, 0, 0}, {8, 0, 0}}, ""},
    {"Tiny: 80h a second time", 3, "56 02 13 " TINY_UNNAMED "2E", {0x80, 0, 0, 6, 8}, TINY_VALUES,
     40, {{14, 0, 0}, {8, 0, 0}}, ""},
    {"Tiny: 10h of two bytes, 7 before 8", 3, "56 02 0C 10 00 " TINY_POOL "DC",
     {0x10, 0, 0, 0, 2}, TINY_VALUES, 30, {{7, 0, 0}, {7, 0, 0}}, ""},
    {"Tiny: a major number of 100", 3, "56 02 04 6F", {0x61, 0, 0, 0, 6}, "00 01 64 00 00 00", 30,
     {{7, 0, 0}, {7, 0, 0}}, ""},
    {"Tiny: a batch number of 10,000", 3, "56 02 04 6F", {0x81, 0, 0, 0, 8},
     "00 01 00 00 00 00 10 27", 30, {{14, 0, 0}, {7, 0, 0}}, ""},
    {"Tiny: 23h, which is there", 3, "56 02 13 " TINY_UNNAMED "2E", {0x23, 0, 0, 0, 2},
     TINY_VALUES, 30, {{14, 0, 0}, {14, 0, 0}}, ""},
    {"Tiny: 00h", 3, "56 02 04 6F", {0x00, 0, 0, 0, 0}, "", 30, {{14, 0, 0}, {14, 0, 0}}, ""},
    {"Tiny: 110h", 3, "56 02 04 6F", {0x110, 0, 0, 0, 1}, "07", 30, {{14, 0, 0}, {14, 0, 0}}, ""},
    {"Tiny: 13 before 14", 3, "56 02 04 6F", {0x23, 0, 0, 0, 2}, "07", 30,
     {{13, 0, 0}, {13, 0, 0}}, ""},
    {"Tiny: a bad length byte", 3, "56 02 03", {0x10, 0, 0, 0, 1}, "07", 30,
     {{5, 2, 0}, {5, 2, 0}}, ""},
    {"Tiny: the image's check is wrong", 3, "56 02 06 10 07 A3", {0x11, 0, 0, 0, 1}, "07", 30,
     {{10, 5, 0}, {10, 5, 0}}, ""},
    {"Tiny: 10h twice in the image", 3, "56 02 08 10 07 10 08 0F", {0x11, 0, 0, 0, 1}, "07", 30,
     {{8, 5, 0}, {8, 5, 0}}, ""},
    {"Tiny: an entry after the pool in the image", 3, "56 02 08 01 00 10 07 00",
     {0x11, 0, 0, 0, 1}, "07", 30, {{9, 5, 0}, {9, 5, 0}}, ""},

    {"ONIE: 2Ch to no entries", 4, ONIE_NONE, {0x2C, 0, 0, 0, 2}, ONIE_ADDED, 24,
     {{16, 0, 0}, {0, 0, 21}}, ONIE "00 0A 2C 02 43 5A FE 04 89 F1 86 1C"},
    {"ONIE: 2Ch, the key not looked at, and bytes after the end", 4, ONIE_NONE " AA BB",
     {0x2C, 90, 90, 0, 2}, ONIE_ADDED, 24, {{16, 0, 0}, {0, 0, 21}},
     ONIE "00 0A 2C 02 43 5A FE 04 89 F1 86 1C"},
    {"ONIE: 2Dh", 4, ONIE_FOUR, {0x2D, 0, 0, 0, 2}, "56 31", 44, {{16, 0, 0}, {0, 0, 40}},
     ONIE "00 1D " FOUR "2D 02 56 31 FE 04 9F 1A 85 2E"},
    {"ONIE: FDh, the same a third time", 4, ONIE_FOUR, {0xFD, 0, 0, 2, 4}, ONIE_ADDED, 44,
     {{16, 0, 0}, {0, 0, 42}}, ONIE "00 1F " FOUR "FD 04 00 00 1F 79 FE 04 48 84 E5 D2"},
    {"ONIE: 25h after 21h", 4, ONIE "00 08 21 00 FE 04 9C 9F B5 F2", {0x25, 0, 0, 6, 19},
     ONIE_ADDED, 44, {{16, 0, 0}, {0, 0, 40}},
     ONIE "00 1D 21 00 25 13 " ONIE_DATE " FE 04 2C 08 67 2C"},
    {"ONIE: 25h, 24 hours", 4, ONIE_NONE, {0x25, 0, 0, 0, 19}, ONIE_NO_DATE, 44,
     {{16, 0, 0}, {7, 0, 0}}, ""},
    {"ONIE: 21h a second time", 4, ONIE_FOUR, {0x21, 0, 0, 0, 2}, ONIE_ADDED, 44,
     {{16, 0, 0}, {8, 0, 0}}, ""},
    {"ONIE: 21h a second time, 8 before 12", 4, ONIE_FOUR, {0x21, 0, 0, 0, 2}, ONIE_ADDED, 36,
     {{16, 0, 0}, {8, 0, 0}}, ""},
    {"ONIE: 21h of a zero, 7 before 8", 4, ONIE_FOUR, {0x21, 0, 0, 2, 1}, ONIE_ADDED, 44,
     {{16, 0, 0}, {7, 0, 0}}, ""},
    {"ONIE: FDh of three bytes", 4, ONIE_FOUR, {0xFD, 0, 0, 2, 3}, ONIE_ADDED, 44,
     {{16, 0, 0}, {7, 0, 0}}, ""},
    {"ONIE: 2Ch of three letters", 4, ONIE_NONE, {0x2C, 0, 0, 0, 3}, "43 5A 45", 44,
     {{16, 0, 0}, {7, 0, 0}}, ""},
    {"ONIE: 26h, which is there", 4, ONIE_FOUR, {0x26, 0, 0, 0, 1}, ONIE_ADDED, 44,
     {{16, 0, 0}, {14, 0, 0}}, ""},
    {"ONIE: 00h", 4, ONIE_NONE, {0x00, 0, 0, 0, 2}, ONIE_ADDED, 44, {{16, 0, 0}, {14, 0, 0}}, ""},
    {"ONIE: FEh", 4, ONIE_NONE, {0xFE, 0, 0, 2, 4}, ONIE_ADDED, 44, {{16, 0, 0}, {14, 0, 0}}, ""},
    {"ONIE: FFh", 4, ONIE_NONE, {0xFF, 0, 0, 0, 2}, ONIE_ADDED, 44, {{16, 0, 0}, {14, 0, 0}}, ""},
    {"ONIE: 12Ch", 4, ONIE_NONE, {0x12C, 0, 0, 0, 2}, ONIE_ADDED, 44, {{16, 0, 0}, {14, 0, 0}}, ""},
    {"ONIE: 13 before 14", 4, ONIE_FOUR, {0x26, 0, 0, 26, 0}, ONIE_ADDED, 44,
     {{16, 0, 0}, {13, 0, 0}}, ""},
    {"ONIE: 21h twice in the image", 4, ONIE "00 0A 21 00 21 00 FE 04 BF AB 52 4C",
     {0x2C, 0, 0, 0, 2}, ONIE_ADDED, 44, {{16, 0, 0}, {8, 13, 0}}, ""},
    {"ONIE: the image's check is wrong", 4, ONIE "00 08 21 00 FE 04 9C 9F B5 F3",
     {0x2C, 0, 0, 0, 2}, ONIE_ADDED, 44, {{16, 0, 0}, {10, 15, 0}}, ""},
    {"ONIE: a length that leaves bytes after the check", 4,
     ONIE "00 08 FE 04 DE DD 31 12 00 00", {0x2C, 0, 0, 0, 2}, ONIE_ADDED, 44,
     {{16, 0, 0}, {5, 9, 0}}, ""},

    {"format 0", 0, "", {1, 0, 3, 3, 2}, VPD_VALUES, 40, {{16, 0, 0}, {16, 0, 0}}, ""},
    {"format 5", 5, "", {1, 0, 3, 3, 2}, VPD_VALUES, 40, {{16, 0, 0}, {16, 0, 0}}, ""},
    {"format 258", 258, "00", {1, 0, 3, 3, 2}, VPD_VALUES, 40, {{16, 0, 0}, {16, 0, 0}}, ""},
};

/* One addition, into an output of a length, of a field of a length. */
static void one_add(const struct add_case *c, struct lent image, struct lent field,
                    struct lent values, size_t out_length, struct outcome outcome)
{
    struct lent image_before = lend_copy(image.bytes, image.length);
    struct lent field_before = lend_copy(field.bytes, field.length);
    struct lent values_before = lend_copy(values.bytes, values.length), out = lend(out_length);

    expect_answer(boardid_add_field(c->format, image.bytes, image.length, field.bytes,
                                    field.length, values.bytes, values.length, out.bytes,
                                    out.length),
                  outcome, c->what);
    expect_output(out, outcome, c->added, c->what);
    expect(same_bytes(image, image_before), c->what);
    expect(same_bytes(field, field_before), c->what);
    expect(same_bytes(values, values_before), c->what);
    give_back(out);
    give_back(values_before);
    give_back(field_before);
    give_back(image_before);
}

/* Lends an image with more bytes after it. */
static struct lent lend_followed(struct lent image)
{
    static const uint8_t more[] = {0xAA, 0x00, 0xFF, 0x01, 0xFE};
    struct lent followed = lend(image.length + sizeof more);

    memcpy(followed.bytes, image.bytes, image.length);
    memcpy(followed.bytes + image.length, more, sizeof more);
    return followed;
}

/*
 * Removes the entry that was added from a whole output: the bytes are those of the image before, up
 * to its end, which in VPD is 00h.
 */
static void removed_again(const struct add_case *c, struct lent image, uint32_t length)
{
    const uint32_t count = boardid_answer_count(boardid_check_image(c->format, image.bytes,
                                                                    image.length));
    struct lent hex = lend_hex(c->added), added = lend(hex.length + 9), out = lend(added.length);
    struct lent record = lend(BOARDID_RECORD_SIZE);
    uint32_t n = count, old_length;
    uint64_t answer;

    memset(added.bytes, 0xFF, added.length);
    memcpy(added.bytes, hex.bytes, hex.length);
    expect_count(boardid_check_image(c->format, added.bytes, added.length), count + 1, c->what);
    expect_count(boardid_check_image(c->format, hex.bytes, hex.length), count + 1, c->what);
    if (c->format == 3 && count != 0 && c->field.code != 1) {
        boardid_entry_at(c->format, image.bytes, image.length, count - 1, record.bytes,
                         record.length);
        n -= boardid_record_at(record.bytes, 0).code == 1;
    }
    expect_count(boardid_entry_at(c->format, added.bytes, added.length, n, record.bytes,
                                  record.length),
                 1, c->what);
    expect_number(boardid_record_at(record.bytes, 0).code, c->field.code, c->what);
    expect_number(boardid_record_at(record.bytes, 0).kind, BOARDID_KIND(c->format, c->field.code),
                  c->what);
    old_length = length - (boardid_record_at(record.bytes, 0).value_place +
                           boardid_record_at(record.bytes, 0).value_length -
                           boardid_record_at(record.bytes, 0).place);
    answer = boardid_remove_entry(c->format, added.bytes, added.length, n, out.bytes, out.length);
    expect_count(answer, old_length, c->what);
    if (c->format == 2) {
        expect(memcmp(out.bytes, image.bytes, old_length - 1) == 0, c->what);
        expect_number(out.bytes[old_length - 1], 0x00, c->what);
    } else {
        expect(memcmp(out.bytes, image.bytes, old_length) == 0, c->what);
    }
    expect(all_are(out, old_length, 0xFF), c->what);
    give_back(record);
    give_back(out);
    give_back(added);
    give_back(hex);
}

static void adds(void)
{
    static const struct outcome no_room = {12, 0, 0}, cut_short = {13, 0, 0};
    size_t i, cut;

    for (i = 0; i < sizeof add_cases / sizeof add_cases[0]; i++) {
        const struct add_case *c = &add_cases[i];
        struct outcome outcome = outcome_of(c->format, c->by_edition);
        struct lent image = lend_hex(c->image), followed = lend_followed(image);
        struct lent values = lend_hex(c->values), field = lend(BOARDID_FIELD_SIZE);
        struct lent longer = lend(BOARDID_FIELD_SIZE + 1), three = lend(3 * BOARDID_FIELD_SIZE);

        boardid_field_set(field.bytes, 0, c->field);
        boardid_field_set(longer.bytes, 0, c->field);
        boardid_field_set(three.bytes, 0, c->field);
        one_add(c, image, field, values, c->out_length, outcome);
        one_add(c, image, longer, values, c->out_length, outcome);
        one_add(c, image, three, values, c->out_length, outcome);
        if (outcome.number == 0) {
            one_add(c, image, field, values, BOARDID_IMAGE_MAX, outcome);
            one_add(c, image, field, values, outcome.count, outcome);
            one_add(c, image, field, values, outcome.count - 1, no_room);
            one_add(c, image, field, values, 0, no_room);
            one_add(c, followed, field, values, c->out_length, outcome);
            removed_again(c, image, outcome.count);
        }
        /* A field that is cut short is 13, whatever it would say, after the image's own. */
        if (boardid_answer_number(boardid_check_image(c->format, image.bytes, image.length)) == 0) {
            outcome = cut_short;
        }
        for (cut = 0; cut < BOARDID_FIELD_SIZE; cut += cut == 4 ? 15 : 4) {
            struct lent part = lend_copy(field.bytes, cut);

            one_add(c, image, part, values, c->out_length, outcome);
            give_back(part);
        }
        give_back(three);
        give_back(longer);
        give_back(field);
        give_back(values);
        give_back(followed);
        give_back(image);
    }
}

/* ---- Removals ------------------------------------------------------------------------------- */

/* A removal: the image, the entry's number, the room, and the answer with the image. */
struct remove_case {
    const char *what;
    uint32_t format;
    const char *image;
    uint64_t n;
    size_t out_length;
    struct outcome by_edition[2];
    const char *removed;
};

static const struct remove_case remove_cases[] = {
    {"VPD: the last one out", 2, SKU "00", 0, 9, {{0, 0, 1}, {0, 0, 1}}, "00"},
    {"VPD: the last one out, an end FFh", 2, LONG_SKU "FF AA BB", 0, 4, {{0, 0, 1}, {0, 0, 1}},
     "00"},
    {"VPD: the first of three", 2, SKU LONG_INFO "01 04 6E 6F 74 65 80 01 41 FF AA", 0, 40,
     {{0, 0, 19}, {0, 0, 19}}, LONG_INFO "01 04 6E 6F 74 65 80 01 41 00"},
    {"VPD: the second of three, FEh", 2, SKU LONG_INFO "01 04 6E 6F 74 65 80 01 41 FF AA", 1, 40,
     {{14, 8, 0}, {0, 0, 18}}, SKU "01 04 6E 6F 74 65 80 01 41 00"},
    {"VPD: the last of three", 2, LONG_SKU LONG_INFO "01 04 6E 6F 74 65 80 01 41 FF AA", 2, 40,
     {{0, 0, 21}, {0, 0, 21}}, LONG_SKU LONG_INFO "00"},
    {"VPD: between long lengths", 2, LONG_SKU "01 01 41 00 01 80 80 01 42 80 80 80 01 43 00", 1,
     40, {{0, 0, 22}, {0, 0, 22}}, LONG_SKU "01 80 80 01 42 80 80 80 01 43 00"},
    {"VPD: lab.rack", 2, NAMES, 0, 40, {{0, 0, 15}, {0, 0, 15}},
     "FE 01 22 04 01 02 03 04 01 03 22 00 FF 00 00"},
    {"VPD: FEh with the key 22h", 2, NAMES, 1, 40, {{14, 15, 0}, {0, 0, 22}},
     "01 80 08 " LAB_RACK " 03 52 30 37 01 03 22 00 FF 00 00"},
    {"VPD: the key 22h 00h FFh", 2, NAMES, 2, 40, {{0, 0, 24}, {0, 0, 24}},
     "01 80 08 " LAB_RACK " 03 52 30 37 FE 01 22 04 01 02 03 04 00"},
    {"VPD: FEh alone", 2, LONG_INFO "00", 0, 40, {{14, 0, 0}, {0, 0, 1}}, "00"},
    {"VPD: beside an FEh that breaks its rule", 2, "01 01 41 00 FE 01 41 03 01 02 03 00", 0, 40,
     {{0, 0, 8}, {7, 4, 0}}, "FE 01 41 03 01 02 03 00"},
    {"VPD: an FEh that breaks its rule", 2, "01 01 41 00 FE 01 41 03 01 02 03 00", 1, 40,
     {{14, 4, 0}, {7, 4, 0}}, ""},
    {"VPD: no entries", 2, "00", 0, 40, {{13, 0, 0}, {13, 0, 0}}, ""},
    {"VPD: no entry 1", 2, SKU "00", 1, 40, {{13, 0, 0}, {13, 0, 0}}, ""},
    {"VPD: no entry 1, 13 before 12", 2, SKU "00", 1, 0, {{13, 0, 0}, {13, 0, 0}}, ""},
    {"VPD: no entry 4,294,967,296", 2, SKU "00", 0x100000000, 40, {{13, 0, 0}, {13, 0, 0}}, ""},
    {"VPD: no entry 2^64 - 1", 2, SKU "00", UINT64_MAX, 40, {{13, 0, 0}, {13, 0, 0}}, ""},
    {"VPD: no room", 2, SKU "00", 0, 0, {{12, 0, 0}, {12, 0, 0}}, ""},
    {"VPD: 14 before 12", 2, SKU LONG_INFO "00", 1, 0, {{14, 8, 0}, {12, 0, 0}}, ""},
    {"VPD: the image's own before 13", 2, "01 01 41 00 01 01 41 00 00", 7, 0,
     {{8, 4, 0}, {8, 4, 0}}, ""},
    {"VPD: an entry that breaks its rule", 2, SKU "01 00 00 00", 1, 40, {{7, 8, 0}, {7, 8, 0}},
     ""},
    {"VPD: an image without an end", 2, SKU, 0, 40, {{5, 8, 0}, {5, 8, 0}}, ""},

    {"FBOSS: 13", 1, FBOSS_2024, 5, 40, {{0, 0, 21}, {0, 0, 21}}, FBOSS_LEAST},
    {"FBOSS: 13, the first", 1,
     "FB FB 05 FF 0D 08 32 30 32 34 30 32 32 39 01 00 08 01 01 09 01 02 0A 01 03 0B 00 FA 02 0D E1",
     0, 40, {{0, 0, 21}, {0, 0, 21}}, FBOSS_LEAST},
    {"FBOSS: 17", 1, FBOSS_WITH_17, 5, 40, {{14, 17, 0}, {0, 0, 21}}, FBOSS_LEAST},
    {"FBOSS: 15 between others, and bytes after the end", 1, FBOSS_NINE " FA 02", 3, 40,
     {{0, 0, 36}, {0, 0, 36}},
     "FB FB 05 FF 01 00 63 01 00 08 01 01 09 01 02 " FBOSS_17 "0A 01 03 0B 00 15 00 FA 02 4F 8F"},
    {"FBOSS: 17 between others", 1, FBOSS_NINE, 5, 40, {{14, 19, 0}, {0, 0, 30}},
     "FB FB 05 FF 01 00 63 01 00 08 01 01 0F 02 41 42 09 01 02 0A 01 03 0B 00 15 00 FA 02 06 D6"},
    {"FBOSS: 99", 1, FBOSS_NINE, 1, 40, {{14, 6, 0}, {14, 6, 0}}, ""},
    {"FBOSS: 21, 14 before 12", 1, FBOSS_NINE, 8, 0, {{14, 34, 0}, {14, 34, 0}}, ""},
    {"FBOSS: 1, required", 1, FBOSS_NINE, 0, 40, {{11, 0, 0}, {11, 0, 0}}, ""},
    {"FBOSS: 8, required", 1, FBOSS_NINE, 2, 40, {{11, 0, 0}, {11, 0, 0}}, ""},
    {"FBOSS: 9, required", 1, FBOSS_NINE, 4, 40, {{11, 0, 0}, {11, 0, 0}}, ""},
    {"FBOSS: 10, required", 1, FBOSS_NINE, 6, 40, {{11, 0, 0}, {11, 0, 0}}, ""},
    {"FBOSS: 11, required", 1, FBOSS_NINE, 7, 40, {{11, 0, 0}, {11, 0, 0}}, ""},
    {"FBOSS: 11, required, 11 before 12", 1, FBOSS_NINE, 7, 0, {{11, 0, 0}, {11, 0, 0}}, ""},
    {"FBOSS: no entry 9", 1, FBOSS_NINE, 9, 40, {{13, 0, 0}, {13, 0, 0}}, ""},
    {"FBOSS: a required one is missing, 11 before 13", 1,
     "FB FB 05 FF 01 00 08 01 01 09 01 02 0A 01 03 FA 02 57 48", 9, 40, {{11, 0, 0}, {11, 0, 0}},
     ""},
    {"FBOSS: the day that is none", 1, FBOSS_NO_DAY, 5, 40, {{7, 17, 0}, {7, 17, 0}}, ""},
    {"FBOSS: the image's check is wrong", 1, FBOSS_START "FA 02 82 1F", 0, 40,
     {{10, 19, 0}, {10, 19, 0}}, ""},
    {"FBOSS: 12 twice in the image", 1, FBOSS_START "0C 00 0C 00 FA 02 62 6D", 6, 40,
     {{8, 19, 0}, {8, 19, 0}}, ""},
    {"FBOSS: another version", 1, "FB FB 04 FF", 0, 40, {{4, 0, 0}, {4, 0, 0}}, ""},

    {"Tiny: the last one out", 3, "56 02 06 10 07 A2", 0, 6, {{0, 0, 4}, {0, 0, 4}},
     "56 02 04 6F"},
    {"Tiny: the pool, the last one out, and bytes after the end", 3,
     "56 02 0A " TINY_POOL "82 00 11", 0, 6, {{0, 0, 4}, {0, 0, 4}}, "56 02 04 6F"},
    {"Tiny: 60h before the pool", 3, "56 02 13 10 00 60 02 1A 2B 3C 4D 5E " TINY_POOL "9B", 1, 30,
     {{0, 0, 12}, {0, 0, 12}}, "56 02 0C 10 00 " TINY_POOL "DC"},
    {"Tiny: 10h, the first", 3, "56 02 13 10 00 60 02 1A 2B 3C 4D 5E " TINY_POOL "9B", 0, 30,
     {{0, 0, 17}, {0, 0, 17}}, "56 02 11 60 02 1A 2B 3C 4D 5E " TINY_POOL "7A"},
    {"Tiny: a pool whose strings are counted", 3,
     "56 02 13 " TINY_COUNTING "01 04 53 B1 50 B2 C4", 2, 30, {{0, 0, 13}, {0, 0, 13}},
     "56 02 0D " TINY_COUNTING "68"},
    {"Tiny: the pool of the manual's example", 3,
     "56 02 13 10 00 60 02 1A 2B 3C 4D 5E 01 04 53 4E 2D B7 63", 2, 24, {{0, 0, 13}, {0, 0, 13}},
     "56 02 0D 10 00 60 02 1A 2B 3C 4D 5E 33"},
    {"Tiny: 10h beside a pool", 3, "56 02 13 " TINY_COUNTING "01 04 53 B1 50 B2 C4", 1, 30,
     {{0, 0, 17}, {0, 0, 17}}, "56 02 11 61 00 01 02 03 2D 2D 01 04 53 B1 50 B2 39"},
    {"Tiny: 80h between what is not named and the pool", 3,
     "56 02 17 " TINY_UNNAMED "01 02 41 C2 74", 2, 30, {{14, 9, 0}, {0, 0, 14}},
     "56 02 0E 23 AA BB 02 01 CC 01 02 41 C2 B8"},
    {"Tiny: the pool after what is not named", 3, "56 02 17 " TINY_UNNAMED "01 02 41 C2 74", 3,
     30, {{0, 0, 19}, {0, 0, 19}}, "56 02 13 " TINY_UNNAMED "2E"},
    {"Tiny: 23h", 3, "56 02 17 " TINY_UNNAMED "01 02 41 C2 74", 0, 30, {{14, 3, 0}, {14, 3, 0}},
     ""},
    {"Tiny: 02h, 14 before 12", 3, "56 02 17 " TINY_UNNAMED "01 02 41 C2 74", 1, 0,
     {{14, 6, 0}, {14, 6, 0}}, ""},
    {"Tiny: no entries", 3, "56 02 04 6F", 0, 30, {{13, 0, 0}, {13, 0, 0}}, ""},
    {"Tiny: the image's check is wrong", 3, "56 02 06 10 07 A3", 0, 30, {{10, 5, 0}, {10, 5, 0}},
     ""},
    {"Tiny: an entry after the pool in the image", 3, "56 02 08 01 00 10 07 00", 1, 30,
     {{9, 5, 0}, {9, 5, 0}}, ""},

    {"ONIE: the last one out", 4, ONIE "00 0A 2C 02 43 5A FE 04 89 F1 86 1C AA BB", 0, 30,
     {{16, 0, 0}, {0, 0, 17}}, ONIE_NONE},
    {"ONIE: 21h, the first", 4, ONIE_FOUR, 0, 40, {{16, 0, 0}, {0, 0, 33}},
     ONIE "00 16 26 01 01 FD 04 00 00 1F 79 FD 05 00 00 1F 79 00 FE 04 84 AE D0 8E"},
    {"ONIE: the first FDh", 4, ONIE_FOUR, 2, 40, {{16, 0, 0}, {0, 0, 30}},
     ONIE "00 13 21 01 41 26 01 01 FD 05 00 00 1F 79 00 FE 04 92 AE D6 6A"},
    {"ONIE: the second FDh", 4, ONIE_FOUR, 3, 40, {{16, 0, 0}, {0, 0, 29}},
     ONIE "00 12 21 01 41 26 01 01 FD 04 00 00 1F 79 FE 04 BB E9 86 83"},
    {"ONIE: 26h", 4, ONIE_FOUR, 1, 40, {{16, 0, 0}, {14, 14, 0}}, ""},
    {"ONIE: 26h, 14 before 12", 4, ONIE_FOUR, 1, 0, {{16, 0, 0}, {14, 14, 0}}, ""},
    {"ONIE: no entry 4", 4, ONIE_FOUR, 4, 40, {{16, 0, 0}, {13, 0, 0}}, ""},
    {"ONIE: no entries", 4, ONIE_NONE, 0, 40, {{16, 0, 0}, {13, 0, 0}}, ""},
    {"ONIE: 24 hours", 4, ONIE_MISDATED, 0, 40, {{16, 0, 0}, {7, 11, 0}}, ""},
    {"ONIE: the image's check is wrong", 4, ONIE "00 08 21 00 FE 04 9C 9F B5 F3", 0, 40,
     {{16, 0, 0}, {10, 15, 0}}, ""},

    {"format 0", 0, "", 0, 40, {{16, 0, 0}, {16, 0, 0}}, ""},
    {"format 5", 5, "", 0, 40, {{16, 0, 0}, {16, 0, 0}}, ""},
    {"format 259", 259, "56 02 06 10 07 A2", 0, 40, {{16, 0, 0}, {16, 0, 0}}, ""},
};

/* One removal, into an output of a length. */
static void one_remove(const struct remove_case *c, struct lent image, size_t out_length,
                       struct outcome outcome)
{
    struct lent before = lend_copy(image.bytes, image.length), out = lend(out_length);

    expect_answer(boardid_remove_entry(c->format, image.bytes, image.length, c->n, out.bytes,
                                       out.length),
                  outcome, c->what);
    expect_output(out, outcome, c->removed, c->what);
    expect(same_bytes(image, before), c->what);
    give_back(out);
    give_back(before);
}

static void removes(void)
{
    static const struct outcome no_room = {12, 0, 0};
    size_t i;

    for (i = 0; i < sizeof remove_cases / sizeof remove_cases[0]; i++) {
        const struct remove_case *c = &remove_cases[i];
        struct outcome outcome = outcome_of(c->format, c->by_edition);
        struct lent image = lend_hex(c->image), followed = lend_followed(image);

        one_remove(c, image, c->out_length, outcome);
        if (outcome.number == 0) {
            struct lent removed = lend_hex(c->removed);
            uint32_t count = boardid_answer_count(boardid_check_image(c->format, image.bytes,
                                                                      image.length));

            one_remove(c, image, BOARDID_IMAGE_MAX, outcome);
            one_remove(c, image, outcome.count, outcome);
            one_remove(c, image, outcome.count - 1, no_room);
            one_remove(c, followed, c->out_length, outcome);
            expect_count(boardid_check_image(c->format, removed.bytes, removed.length), count - 1,
                         c->what);
            give_back(removed);
        }
        give_back(followed);
        give_back(image);
    }
}

/* After its pool is gone a Tiny image has no strings, though its numbers count them as before. */
static void strings_gone(void)
{
    struct lent image = lend_hex("56 02 13 " TINY_COUNTING "01 04 53 B1 50 B2 C4");
    struct lent out = lend(image.length), record = lend(BOARDID_RECORD_SIZE);

    expect_number(boardid_answer_part(boardid_string_at(3, image.bytes, image.length, 1)).place, 16,
                  "a string of the pool");
    expect_count(boardid_remove_entry(3, image.bytes, image.length, 2, out.bytes, out.length), 13,
                 "the pool goes");
    expect_refused(boardid_string_at(3, out.bytes, out.length, 1), 15, 0, "no pool, no string");
    expect_count(boardid_entry_at(3, out.bytes, out.length, 1, record.bytes, record.length), 1,
                 "a string number without a pool");
    expect_number(boardid_record_at(record.bytes, 0).carried[0], 1, "the same string number");
    give_back(record);
    give_back(out);
    give_back(image);
}

/* ---- The order ------------------------------------------------------------------------------ */

/* Both exported calls with the same format and edition, image and room: one refusal of both. */
static void both_refused(uint32_t format, uint32_t edition, struct lent image, struct lent out,
                         uint32_t number, uint64_t place, const char *what)
{
    struct lent before = lend_copy(out.bytes, out.length);

    expect_refused(boardid_add(format, edition, image.bytes, image.length, NULL, 0, NULL, 0,
                               out.bytes, out.length),
                   number, place, what);
    expect_refused(boardid_remove(format, edition, image.bytes, image.length, UINT64_MAX, out.bytes,
                                  out.length),
                   number, place, what);
    expect(same_bytes(out, before), what);
    give_back(before);
}

/* 16, 1, 2, the image's own, 13: each with all that come after it. */
static void order(void)
{
    static const uint32_t formats[] = {0, 5, 6, 256, 257, 260, 65538, 0x80000002, 0xFFFFFFFF};
    static const uint32_t unknown[] = {0, 5, 6, 99, 257, 0x80000001, 0xFFFFFFFF};
    struct lent longer = lend((size_t)BOARDID_IMAGE_MAX + 1);
    struct lent too_long = lend((size_t)BOARDID_IMAGE_MAX + 1), none = lend(0);
    struct lent wrong = lend_hex("FF FF 00"), bad = lend_hex("01 01 41 00 01 01 41 00 00");
    struct lent good = lend_hex(SKU "00");
    uint32_t format, edition;
    size_t i;

    memset(longer.bytes, 0, longer.length);
    for (i = 0; i < sizeof formats / sizeof formats[0]; i++) {
        for (edition = 0; edition <= NEWEST + 1; edition++) {
            both_refused(formats[i], edition, longer, too_long, 16, 0, "16 before 1 and 2");
        }
    }
    for (format = 1; format <= 4; format++) {
        for (i = 0; i < sizeof unknown / sizeof unknown[0]; i++) {
            both_refused(format, unknown[i], longer, too_long, 1, 0, "1 before 2");
        }
        for (edition = 1; edition <= NEWEST; edition++) {
            uint32_t two = format == 4 && edition < 3 ? 16 : 2;

            both_refused(format, edition, longer, none, two, 0, "an image of 65,537 bytes");
            both_refused(format, edition, wrong, too_long, two, 0, "an output of 65,537 bytes");
            both_refused(format, edition, none, too_long, two, 0, "2 before 3 and 5");
        }
    }
    for (edition = 1; edition <= NEWEST; edition++) {
        both_refused(2, edition, bad, none, 8, 4, "the image's own before 13");
        both_refused(2, edition, good, none, 13, 0, "13 before 12");
        both_refused(1, edition, good, none, 3, 0, "another format's image");
        both_refused(3, edition, good, none, 3, 0, "another format's image");
        both_refused(4, edition, good, none, edition < 3 ? 16 : 3, 0, "another format's image");
    }
    give_back(good);
    give_back(bad);
    give_back(wrong);
    give_back(none);
    give_back(too_long);
    give_back(longer);
}

/* ---- Additions beside writes ---------------------------------------------------------------- */

/* A list of fields, what is required and one field; its values; and two outputs. */
struct field_list {
    struct lent fields;
    size_t required;
    struct lent values;
    struct lent written;
    struct lent added;
};

/*
 * A field added to an image that was written from a list is answered as a write of the list with
 * that field at its end: the same number, and where it is 0 the same length and bytes.
 */
static void as_written(uint32_t format, uint32_t edition, const struct field_list *list,
                       struct lent image)
{
    static const char what[] = "an addition beside a write";
    uint8_t *last = list->fields.bytes + list->required * BOARDID_FIELD_SIZE;
    uint64_t write, add;

    memset(list->written.bytes, 0x5A, list->written.length);
    memset(list->added.bytes, 0x5A, list->added.length);
    write = boardid_write(format, edition, list->fields.bytes, list->fields.length,
                          list->values.bytes, list->values.length, list->written.bytes,
                          list->written.length);
    add = boardid_add(format, edition, image.bytes, image.length, last, BOARDID_FIELD_SIZE,
                      list->values.bytes, list->values.length, list->added.bytes,
                      list->added.length);
    if (boardid_answer_number(write) == 0) {
        expect_number(add, write, what);
    } else {
        expect_refused(add, boardid_answer_number(write), 0, what);
    }
    expect(same_bytes(list->written, list->added), what);
}

/* Every code with values of every length to 20, of zeros, digits and letters, in every edition. */
static void every_code(void)
{
    static const uint8_t fillings[] = {0x00, 0x31, 0x41};
    static const struct boardid_field required[] = {FBOSS_FIELDS};
    struct lent values = lend_hex(FBOSS_VALUES), all = lend(40);
    struct field_list list;
    uint32_t format, edition, code, length;
    size_t i;

    memcpy(all.bytes, values.bytes, 3);
    list.values = all;
    list.written = lend(60);
    list.added = lend(60);
    for (format = 1; format <= 4; format++) {
        list.required = format == 1 ? sizeof required / sizeof required[0] : 0;
        list.fields = lend((list.required + 1) * BOARDID_FIELD_SIZE);
        for (i = 0; i < list.required; i++) {
            boardid_field_set(list.fields.bytes, i, required[i]);
        }
        for (edition = format == 4 ? 3 : 1; edition <= NEWEST; edition++) {
            struct lent image = lend(30);

            boardid_write(format, edition, list.fields.bytes, list.required * BOARDID_FIELD_SIZE,
                          all.bytes, all.length, image.bytes, image.length);
            for (code = 0; code <= 300; code++) {
                for (length = 0; length <= 20; length++) {
                    struct boardid_field field = {0, 3, 1, 4, 0};

                    field.code = code;
                    field.value_length = length;
                    memset(all.bytes + 3, fillings[(code + length) % 3], all.length - 3);
                    boardid_field_set(list.fields.bytes, list.required, field);
                    as_written(format, edition, &list, image);
                }
            }
            give_back(image);
        }
        give_back(list.fields);
    }
    give_back(list.added);
    give_back(list.written);
    give_back(all);
    give_back(values);
}

/* ---- Keys ----------------------------------------------------------------------------------- */

/* Each byte as a key that is there: it is removed, and another is added only in the alphabet. */
static void key_bytes(void)
{
    static const struct boardid_field whole = {BOARDID_VPD_STRING, 0, 1, 1, 0};
    struct lent image = lend_hex("01 01 00 01 42 00"), field = lend(BOARDID_FIELD_SIZE);
    struct lent key = lend(1), out = lend(10), wanted = lend_hex("01 01 00 01 42 01 01 00 00 00");
    int stored, byte;

    boardid_field_set(field.bytes, 0, whole);
    for (stored = 0; stored < 256; stored++) {
        image.bytes[2] = wanted.bytes[2] = (uint8_t)stored;
        expect_count(boardid_remove_entry(2, image.bytes, image.length, 0, out.bytes, out.length),
                     1, "any key is removed");
        expect_number(out.bytes[0], 0, "any key is removed: the end");
        expect(all_are(out, 1, 0xFF), "any key is removed: after the end");
        for (byte = 0; byte < 256; byte++) {
            uint64_t answer;
            int written;

            key.bytes[0] = wanted.bytes[7] = (uint8_t)byte;
            written = of_alphabet(key.bytes, key.length);
            memset(out.bytes, 0x5A, out.length);
            answer = boardid_add_field(2, image.bytes, image.length, field.bytes, field.length,
                                       key.bytes, key.length, out.bytes, out.length);
            if (written && byte != stored) {
                expect_count(answer, 10, "a key of the alphabet is added");
                expect(same_bytes(out, wanted), "a key of the alphabet is added as it is");
            } else {
                expect_refused(answer, written ? 8 : 7, 0, "a key that is not added");
                expect(all_are(out, 0, 0x5A), "a key that is not added leaves the output");
            }
        }
    }
    give_back(wanted);
    give_back(out);
    give_back(key);
    give_back(field);
    give_back(image);
}

/* The most keys that an image can have: each byte alone, then as many of two bytes as there fit. */
static void most_keys(void)
{
    static const struct boardid_field two = {BOARDID_VPD_STRING, 0, 2, 2, 0};
    const uint32_t count = 13158;
    struct lent image = lend(BOARDID_IMAGE_MAX), out = lend(BOARDID_IMAGE_MAX);
    struct lent again = lend(BOARDID_IMAGE_MAX), field = lend(BOARDID_FIELD_SIZE);
    uint8_t *at = image.bytes;
    uint32_t n, length;

    memset(image.bytes, 0, image.length);
    for (n = 0; n < count; n++) {
        at[0] = BOARDID_VPD_STRING;
        at[1] = n < 256 ? 1 : 2;
        at[2] = (uint8_t)n;
        at[3] = (uint8_t)(n >> 8); /* the second byte of the key, or the value's length, 0 */
        at += at[1] + 3;
    }
    length = (uint32_t)(at - image.bytes) + 1;
    boardid_field_set(field.bytes, 0, two);
    expect_refused(boardid_add_field(2, image.bytes, image.length, field.bytes, field.length,
                                     (const uint8_t *)"A0", 2, out.bytes, out.length),
                   8, 0, "13,158 keys: one of them");
    expect_refused(boardid_add_field(2, image.bytes, image.length, field.bytes, field.length,
                                     (const uint8_t *)"zz", 2, out.bytes, out.length),
                   12, 0, "13,158 keys: no room for another");
    expect(all_are(out, 0, 0x5A), "13,158 keys: a refused addition");
    for (n = 300; n < count; n += 6428) { /* 300, 6,728 and the last, 13,156 */
        const size_t place = 256 * 4 + (n - 256) * (size_t)5;

        expect_count(boardid_remove_entry(2, image.bytes, image.length, n, out.bytes, out.length),
                     length - 5, "13,158 keys: one goes");
        expect(memcmp(out.bytes, image.bytes, place) == 0, "all before it stay");
        expect(memcmp(out.bytes + place, image.bytes + place + 5, length - place - 5) == 0,
               "all after it stay");
        expect(all_are(out, length - 5, 0xFF), "FFh after the end");
        expect_count(boardid_add_field(2, out.bytes, out.length, field.bytes, field.length,
                                       (const uint8_t *)"zz", 2, again.bytes, again.length),
                     length, "13,157 keys: another comes");
        expect(memcmp(again.bytes, out.bytes, length - 6) == 0, "all entries stay");
        expect(memcmp(again.bytes + length - 6, "\1\2zz\0", 6) == 0, "the new one is the last");
        expect_count(boardid_check_image(2, again.bytes, again.length), count, "13,158 keys again");
    }
    give_back(field);
    give_back(again);
    give_back(out);
    give_back(image);
}

/* ---- Sizes ---------------------------------------------------------------------------------- */

/* Lends a field. */
static struct lent lend_field(uint32_t code, uint32_t key_length, uint32_t value_length)
{
    struct boardid_field whole = {0, 0, 0, 0, 0};
    struct lent field = lend(BOARDID_FIELD_SIZE);

    whole.code = code;
    whole.key_length = key_length;
    whole.value_length = value_length;
    boardid_field_set(field.bytes, 0, whole);
    return field;
}

/*
 * Adds a field to an image, key and value of 41h, and expects an outcome. Where it is not refused,
 * the bytes from a place on are those given, and each that follows to the end of the value is 41h.
 */
static void add_long(uint32_t format, const char *hex, struct lent field, struct outcome outcome,
                     size_t place, const char *start, const char *what)
{
    struct lent image = lend_hex(hex), values = lend(70000), out = lend(BOARDID_IMAGE_MAX);
    struct lent wanted = lend_hex(start), part;
    struct boardid_field whole = boardid_field_at(field.bytes, 0);
    size_t i;

    memset(values.bytes, 0x41, values.length);
    expect_answer(boardid_add_field(format, image.bytes, image.length, field.bytes, field.length,
                                    values.bytes, values.length, out.bytes, out.length),
                  outcome, what);
    if (outcome.number != 0) {
        expect(all_are(out, 0, 0x5A), what);
    } else {
        expect(memcmp(out.bytes + place, wanted.bytes, wanted.length) == 0, what);
        for (i = 0; i < whole.value_length; i++) {
            expect(out.bytes[place + wanted.length + i] == 0x41, what);
        }
        expect(all_are(out, outcome.count, 0xFF), what);
        part = lend(outcome.count);
        expect_answer(boardid_add_field(format, image.bytes, image.length, field.bytes,
                                        field.length, values.bytes, values.length, part.bytes,
                                        part.length),
                      outcome, what);
        expect(memcmp(part.bytes, out.bytes, part.length) == 0, what);
        expect(boardid_answer_number(boardid_check_image(format, part.bytes, part.length)) == 0,
               what);
        memset(part.bytes, 0x5A, part.length);
        expect_refused(boardid_add_field(format, image.bytes, image.length, field.bytes,
                                         field.length, values.bytes, values.length, part.bytes,
                                         part.length - 1),
                       12, 0, what);
        expect(all_are(part, 0, 0x5A), what);
        give_back(part);
    }
    give_back(wanted);
    give_back(out);
    give_back(values);
    give_back(image);
    give_back(field);
}

static void sizes(void)
{
    static const struct outcome no_room = {12, 0, 0}, rule = {7, 0, 0};
    struct outcome outcome = {0, 0, 0};
    struct lent image, values, out;

    /* VPD: SKU has 8 bytes; the lengths of the new value in one, two and three. */
    outcome.count = 8 + 4 + 127 + 1;
    add_long(2, SKU "00", lend_field(1, 1, 127), outcome, 8, "01 01 41 7F", "VPD: 127 bytes");
    outcome.count = 8 + 5 + 128 + 1;
    add_long(2, SKU "00", lend_field(1, 1, 128), outcome, 8, "01 01 41 81 00", "VPD: 128 bytes");
    outcome.count = 8 + 5 + 16383 + 1;
    add_long(2, SKU "00", lend_field(1, 1, 16383), outcome, 8, "01 01 41 FF 7F",
             "VPD: 16,383 bytes");
    outcome.count = 8 + 6 + 16384 + 1;
    add_long(2, SKU "00", lend_field(1, 1, 16384), outcome, 8, "01 01 41 81 80 00",
             "VPD: 16,384 bytes");
    outcome.count = 65536;
    add_long(2, SKU "00", lend_field(1, 1, 65521), outcome, 8, "01 01 41 83 FF 71",
             "VPD: full to the last byte");
    add_long(2, "00", lend_field(1, 1, 65529), outcome, 0, "01 01 41 83 FF 79",
             "VPD: one entry, full to the last byte");
    add_long(2, SKU "00", lend_field(1, 1, 65522), no_room, 0, "", "VPD: a byte too many");
    add_long(2, SKU "00", lend_field(1, 1, 70000), no_room, 0, "", "VPD: 70,000 bytes");
    add_long(2, SKU "00", lend_field(1, 70000, 70000), no_room, 0, "", "VPD: a key of 70,000");
    outcome.count = 8 + 2 + 127 + 1 + 1;
    add_long(2, SKU "00", lend_field(1, 127, 0), outcome, 8, "01 7F 41", "VPD: a key of 127 bytes");
    outcome.count = 8 + 3 + 128 + 1 + 1;
    add_long(2, SKU "00", lend_field(1, 128, 0), outcome, 8, "01 81 00 41",
             "VPD: a key of 128 bytes");

    /* FBOSS: a text of 255 bytes is the longest. */
    outcome.count = 21 + 2 + 255;
    add_long(1, FBOSS_LEAST, lend_field(12, 0, 255), outcome, 17, "0C FF", "FBOSS: 255 bytes");
    add_long(1, FBOSS_LEAST, lend_field(12, 0, 256), rule, 0, "", "FBOSS: 256 bytes");

    /* Tiny: a length byte of 255, and pools that break the rule rather than the room. */
    outcome.count = 255;
    add_long(3, "56 02 04 6F", lend_field(1, 0, 249), outcome, 0, "56 02 FF 01 F9",
             "Tiny: the longest pool");
    add_long(3, "56 02 04 6F", lend_field(1, 0, 250), no_room, 0, "", "Tiny: a pool of 250 bytes");
    add_long(3, "56 02 04 6F", lend_field(1, 0, 255), no_room, 0, "", "Tiny: a pool of 255 bytes");
    add_long(3, "56 02 04 6F", lend_field(1, 0, 256), rule, 0, "", "Tiny: a pool of 256 bytes");
    add_long(3, "56 02 06 10 07 A2", lend_field(1, 0, 247), outcome, 0, "56 02 FF 10 07 01 F7",
             "Tiny: the longest pool after 10h");
    add_long(3, "56 02 06 10 07 A2", lend_field(1, 0, 248), no_room, 0, "",
             "Tiny: a pool of 248 bytes after 10h");

    /* The longest image, and values and a field of any length. */
    image = lend(BOARDID_IMAGE_MAX);
    memset(image.bytes, 0, image.length);
    values = lend(70000);
    values.bytes[69999] = 'A';
    out = lend(6);
    {
        struct lent field = lend(70000);
        struct boardid_field last = {BOARDID_VPD_STRING, 69999, 1, 69999, 1};

        boardid_field_set(field.bytes, 0, last);
        expect_count(boardid_add_field(2, image.bytes, image.length, field.bytes, field.length,
                                       values.bytes, values.length, out.bytes, out.length),
                     6, "an image of 65,536 bytes, values and a field of 70,000");
        expect(memcmp(out.bytes, "\1\1A\1A\0", 6) == 0, "the values' last byte");
        give_back(field);
    }
    give_back(out);
    give_back(values);
    give_back(image);
}

/* Tiny: 10h before pools of 245 to 249 bytes: it fits in the 255 bytes of an image, or not. */
static void tiny_room(void)
{
    static const uint8_t seven[] = {7};
    struct lent field = lend_field(0x10, 0, 1), none = lend_hex("56 02 04 6F"), out = lend(300);
    uint32_t length;

    for (length = 245; length <= 249; length++) {
        struct lent pool = lend_field(1, 0, length), values = lend(length), image = lend(300);

        expect_count(boardid_add_field(3, none.bytes, none.length, pool.bytes, pool.length,
                                       values.bytes, values.length, image.bytes, image.length),
                     length + 6, "Tiny: a pool");
        memset(out.bytes, 0x5A, out.length);
        if (length <= 247) {
            expect_count(boardid_add_field(3, image.bytes, image.length, field.bytes, field.length,
                                           seven, sizeof seven, out.bytes, out.length),
                         length + 8, "Tiny: 10h before a long pool");
            expect_number(out.bytes[2], length + 8, "Tiny: the length byte");
            expect_count(boardid_check_image(3, out.bytes, out.length), 2, "Tiny: it is read");
            expect_count(boardid_remove_entry(3, out.bytes, out.length, 0, image.bytes,
                                              length + 6),
                         length + 6, "Tiny: 10h goes again");
            expect_count(boardid_check_image(3, image.bytes, length + 6), 1, "Tiny: it is read");
        } else {
            expect_refused(boardid_add_field(3, image.bytes, image.length, field.bytes,
                                             field.length, seven, sizeof seven, out.bytes,
                                             out.length),
                           12, 0, "Tiny: 10h would pass 255 bytes");
            expect(all_are(out, 0, 0x5A), "Tiny: a refused addition");
        }
        give_back(image);
        give_back(values);
        give_back(pool);
    }
    give_back(out);
    give_back(none);
    give_back(field);
}

#if BOARDID_EDITION >= 3
/* ONIE: FDh of 255 bytes one after another, the last one to a length of 2,048, and away again. */
static void onie_room(void)
{
    struct lent values = lend(256), now = lend(BOARDID_IMAGE_MAX), next = lend(BOARDID_IMAGE_MAX);
    struct lent none = lend_hex(ONIE_NONE), field, exact = lend(2059);
    uint32_t k, length = 17;

    memset(values.bytes, 0x41, values.length);
    memset(now.bytes, 0xFF, now.length);
    memcpy(now.bytes, none.bytes, none.length);
    for (k = 0; k < 8; k++) {
        uint32_t value_length = k < 7 ? 255 : 241;

        if (k == 7) {
            field = lend_field(0xFD, 0, 242);
            memset(next.bytes, 0x5A, next.length);
            expect_refused(boardid_add_field(4, now.bytes, now.length, field.bytes, field.length,
                                             values.bytes, values.length, next.bytes, next.length),
                           12, 0, "ONIE: a length of 2,049");
            expect(all_are(next, 0, 0x5A), "ONIE: a refused addition");
            give_back(field);
        }
        field = lend_field(0xFD, 0, value_length);
        expect_count(boardid_add_field(4, now.bytes, now.length, field.bytes, field.length,
                                       values.bytes, values.length, next.bytes, next.length),
                     length + 2 + value_length, "ONIE: FDh again");
        length += 2 + value_length;
        expect_number(next.bytes[9] * 256u + next.bytes[10], length - 11, "ONIE: the length");
        expect(memcmp(next.bytes + 11, now.bytes + 11, length - 19 - value_length) == 0,
               "ONIE: the entries before stay");
        expect(all_are(next, length, 0xFF), "ONIE: FFh after the end");
        expect_count(boardid_check_image(4, next.bytes, next.length), k + 1, "ONIE: it is read");
        if (k == 7) {
            expect_count(boardid_add_field(4, now.bytes, now.length, field.bytes, field.length,
                                           values.bytes, values.length, exact.bytes, exact.length),
                         2059, "ONIE: the longest image");
            expect_refused(boardid_add_field(4, now.bytes, now.length, field.bytes, field.length,
                                             values.bytes, values.length, exact.bytes,
                                             exact.length - 1),
                           12, 0, "ONIE: no room for the longest image");
        }
        memcpy(now.bytes, next.bytes, next.length);
        give_back(field);
    }
    expect_number(length, 2059, "ONIE: the longest image");
    for (k = 8; k > 0; k--) {
        length -= k == 8 ? 243 : 257;
        expect_count(boardid_remove_entry(4, now.bytes, now.length, k - 1, next.bytes, next.length),
                     length, "ONIE: the last FDh goes");
        expect_number(next.bytes[9] * 256u + next.bytes[10], length - 11, "ONIE: the length");
        expect_count(boardid_check_image(4, next.bytes, next.length), k - 1, "ONIE: it is read");
        memcpy(now.bytes, next.bytes, next.length);
    }
    expect(memcmp(now.bytes, none.bytes, none.length) == 0, "ONIE: none is left");
    field = lend_field(0x21, 0, 256);
    expect_refused(boardid_add_field(4, now.bytes, now.length, field.bytes, field.length,
                                     values.bytes, values.length, next.bytes, next.length),
                   7, 0, "ONIE: a text of 256 bytes");
    give_back(field);
    give_back(exact);
    give_back(none);
    give_back(next);
    give_back(now);
    give_back(values);
}
#endif

int main(void)
{
    adds();
    removes();
    strings_gone();
    order();
    every_code();
    key_bytes();
    most_keys();
    sizes();
    tiny_room();
#if BOARDID_EDITION >= 3
    onie_room();
#endif
    return expectations_met("changes");
}
