/*
 * Every call that all editions have, through a header's functions, on the cases of the scope
 * document and of docs/DECISIONS.md (their numbers, as D13, stand beside them). Compiled once with
 * each edition's header. All lent memory ends at a page that may not be touched. Additions and
 * removals are here beside the other calls on the same images; changes.c has their own cases.
 *
 * Format 4, ONIE, is a number here: the headers of editions 1 and 2 have no name for it.
 */
#define _DEFAULT_SOURCE

#include "answers.h"
#include "images.h"

/* ---- Images --------------------------------------------------------------------------------- */

/* An image, and what check answers, by outcome_of. */
struct image_case {
    const char *what;
    uint32_t format;
    const char *image;
    struct outcome by_edition[2];
};

static const struct image_case image_cases[] = {
    {"FBOSS: no bytes", 1, "", {{3, 0, 0}, {3, 0, 0}}},
    {"FBOSS: header alone", 1, "FB FB 05 FF", {{5, 4, 0}, {5, 4, 0}}},
    {"FBOSS: wrong magic", 1, "FB FA 05 FF", {{3, 0, 0}, {3, 0, 0}}},
    {"FBOSS: version 4", 1, "FB FB 04 FF", {{4, 0, 0}, {4, 0, 0}}},
    {"D15: three bytes", 1, "FB FB 04", {{3, 0, 0}, {3, 0, 0}}},
    {"D15: version before byte 3", 1, "FB FB 04 00", {{4, 0, 0}, {4, 0, 0}}},
    {"D15: byte 3", 1, "FB FB 05 00", {{3, 0, 0}, {3, 0, 0}}},
    {"D14: FA", 1, "FB FB 05 FF FA", {{5, 4, 0}, {5, 4, 0}}},
    {"D14: FA 02", 1, "FB FB 05 FF FA 02", {{5, 4, 0}, {5, 4, 0}}},
    {"D14: FA 02 7D", 1, "FB FB 05 FF FA 02 7D", {{5, 4, 0}, {5, 4, 0}}},
    {"D14: FA 03", 1, "FB FB 05 FF FA 03", {{6, 4, 0}, {6, 4, 0}}},
    {"D14: wrong check", 1, "FB FB 05 FF FA 02 1D 0F", {{10, 6, 0}, {10, 6, 0}}},
    {"D14: nothing that is required", 1, "FB FB 05 FF FA 02 7D E4", {{11, 0, 0}, {11, 0, 0}}},
    {"FBOSS: code 0", 1, "FB FB 05 FF 00 00", {{6, 4, 0}, {6, 4, 0}}},
    {"FBOSS: code 255", 1, "FB FB 05 FF 63 00 FF", {{6, 6, 0}, {6, 6, 0}}},
    {"FBOSS: a length that is missing", 1, "FB FB 05 FF 63 00 63", {{5, 6, 0}, {5, 6, 0}}},
    {"FBOSS: a value past the room", 1, "FB FB 05 FF 63 02 00", {{5, 4, 0}, {5, 4, 0}}},
    {"FBOSS: what is required",
     1,
     "FB FB 05 FF 01 00 08 01 01 09 01 02 0A 01 03 0B 00 FA 02 82 1E",
     {{0, 0, 5}, {0, 0, 5}}},
    {"FBOSS: bytes after the end",
     1,
     "FB FB 05 FF 01 00 08 01 01 09 01 02 0A 01 03 0B 00 FA 02 82 1E 00 FF 01",
     {{0, 0, 5}, {0, 0, 5}}},
    {"FBOSS: without 11",
     1,
     "FB FB 05 FF 01 00 08 01 01 09 01 02 0A 01 03 FA 02 57 48",
     {{11, 0, 0}, {11, 0, 0}}},
    {"FBOSS: 1Fh in a text",
     1,
     "FB FB 05 FF 01 01 1F 08 01 01 09 01 02 0A 01 03 0B 00 FA 02 39 5C",
     {{7, 4, 0}, {7, 4, 0}}},
    {"FBOSS: the same with a wrong check",
     1,
     "FB FB 05 FF 01 01 1F 08 01 01 09 01 02 0A 01 03 0B 00 FA 02 39 5D",
     {{10, 20, 0}, {10, 20, 0}}},
    {"FBOSS: 1 a second time",
     1,
     "FB FB 05 FF 01 00 08 01 01 09 01 02 0A 01 03 0B 00 01 00 FA 02 BD 34",
     {{8, 17, 0}, {8, 17, 0}}},
    {"FBOSS: 17 of seven bytes",
     1,
     "FB FB 05 FF 01 00 08 01 01 09 01 02 0A 01 03 0B 00 11 07 01 02 03 04 05 06 07 FA 02 83 06",
     {{0, 0, 6}, {7, 17, 0}}},
    {"FBOSS: 17 a second time",
     1,
     "FB FB 05 FF 01 00 08 01 01 09 01 02 0A 01 03 0B 00 11 08 02 00 00 00 00 01 00 02 "
     "11 08 02 00 00 00 00 01 00 02 FA 02 D4 4B",
     {{0, 0, 7}, {8, 27, 0}}},
    {"FBOSS: 21 twice",
     1,
     "FB FB 05 FF 01 00 08 01 01 09 01 02 0A 01 03 0B 00 15 00 15 00 FA 02 33 56",
     {{0, 0, 7}, {0, 0, 7}}},
    {"FBOSS: month 13",
     1,
     "FB FB 05 FF 01 00 08 01 01 09 01 02 0A 01 03 0B 00 0D 08 32 30 32 33 31 33 30 31 FA 02 88 BB",
     {{7, 17, 0}, {7, 17, 0}}},
    {"FBOSS: 31 February", 1, FBOSS_NO_DAY, {{7, 17, 0}, {7, 17, 0}}},
    {"FBOSS: 31 February and a wrong check",
     1,
     FBOSS_START "0D 08 32 30 32 33 30 32 33 31 FA 02 9C 6D",
     {{10, 29, 0}, {10, 29, 0}}},
    {"FBOSS: 29 February 1900",
     1,
     FBOSS_START "0D 08 31 39 30 30 30 32 32 39 FA 02 A8 7E",
     {{7, 17, 0}, {7, 17, 0}}},
    {"FBOSS: 29 February 2000",
     1,
     FBOSS_START "0D 08 32 30 30 30 30 32 32 39 FA 02 4B C7",
     {{0, 0, 6}, {0, 0, 6}}},
    {"FBOSS: 10 October 1582",
     1,
     FBOSS_START "0D 08 31 35 38 32 31 30 31 30 FA 02 6F 7A",
     {{0, 0, 6}, {0, 0, 6}}},
    {"FBOSS: year 0000",
     1,
     FBOSS_START "0D 08 30 30 30 30 30 31 30 31 FA 02 7A 5B",
     {{7, 17, 0}, {7, 17, 0}}},
    {"FBOSS: no day, then 1 a second time",
     1,
     FBOSS_START "0D 08 32 30 32 33 30 32 33 31 01 00 FA 02 C3 9D",
     {{7, 17, 0}, {7, 17, 0}}},
    {"FBOSS: 1 a second time, then no day",
     1,
     FBOSS_START "01 00 0D 08 32 30 32 33 30 32 33 31 FA 02 2F 22",
     {{8, 17, 0}, {8, 17, 0}}},
    {"FBOSS: 13 a second time and no day",
     1,
     FBOSS_START "0D 08 32 30 32 33 30 32 32 38 0D 08 32 30 32 33 30 32 33 31 FA 02 25 00",
     {{7, 27, 0}, {7, 27, 0}}},
    {"FBOSS: 13 a second time and a day",
     1,
     FBOSS_START "0D 08 32 30 32 33 30 32 32 38 0D 08 32 30 32 33 30 32 32 38 FA 02 87 18",
     {{8, 27, 0}, {8, 27, 0}}},
    {"FBOSS: no day, and 11 is missing",
     1,
     "FB FB 05 FF 01 00 08 01 01 09 01 02 0A 01 03 0D 08 32 30 32 33 30 32 33 31 FA 02 0A 0B",
     {{7, 15, 0}, {7, 15, 0}}},
    {"D18: a count of 0",
     1,
     "FB FB 05 FF 01 00 08 01 01 09 01 01 0A 01 01 0B 00 11 08 02 00 00 00 00 01 00 00 FA 02 12 06",
     {{0, 0, 6}, {0, 0, 6}}},

    {"VPD: no bytes", 2, "", {{5, 0, 0}, {5, 0, 0}}},
    {"VPD: 00", 2, "00", {{0, 0, 0}, {0, 0, 0}}},
    {"VPD: FF", 2, "FF", {{0, 0, 0}, {0, 0, 0}}},
    {"VPD: FF and more", 2, "FF 02 02", {{0, 0, 0}, {0, 0, 0}}},
    {"VPD: SKU", 2, "01 03 53 4B 55 02 41 37 00", {{0, 0, 1}, {0, 0, 1}}},
    {"VPD: SKU without an end", 2, "01 03 53 4B 55 02 41 37", {{5, 8, 0}, {5, 8, 0}}},
    {"VPD: type 02h", 2, "01 03 53 4B 55 02 41 37 02", {{6, 8, 0}, {6, 8, 0}}},
    {"VPD: type FDh", 2, "FD", {{6, 0, 0}, {6, 0, 0}}},
    {"VPD: an empty key", 2, "01 00 00 00", {{7, 0, 0}, {7, 0, 0}}},
    {"VPD: five length bytes", 2, "01 80 80 80 80", {{6, 0, 0}, {6, 0, 0}}},
    {"VPD: leading zero groups", 2, "01 80 01 41 00 00", {{0, 0, 1}, {0, 0, 1}}},
    {"VPD: a key twice", 2, "01 01 41 00 01 01 41 00 00", {{8, 4, 0}, {8, 4, 0}}},
    {"VPD: FEh of three bytes", 2, "FE 01 41 03 01 02 03 00", {{0, 0, 1}, {7, 0, 0}}},
    {"D1: FEh without a key", 2, "FE 00 04 01 02 03 04 00", {{0, 0, 1}, {0, 0, 1}}},
    {"D16: a key past the room", 2, "01 05 41", {{5, 0, 0}, {5, 0, 0}}},
    {"D16: three length bytes", 2, "01 80 80 80", {{5, 0, 0}, {5, 0, 0}}},
    {"D16: a value's length", 2, "01 01 41 80 80 80 80", {{6, 0, 0}, {6, 0, 0}}},
    {"D17: two forms of a length", 2, "01 01 41 00 01 80 01 41 00 00", {{8, 4, 0}, {8, 4, 0}}},
    {"D17: FEh twice",
     2,
     "FE 01 41 04 01 02 03 04 FE 01 42 04 01 02 03 04 00",
     {{0, 0, 2}, {8, 8, 0}}},
    {"D17: one key of 01h and FEh",
     2,
     "01 01 41 00 FE 01 41 04 01 02 03 04 00",
     {{0, 0, 2}, {0, 0, 2}}},
    {"D18: any key of FEh", 2, "FE 03 2E 2E 20 04 01 02 03 04 00", {{0, 0, 1}, {0, 0, 1}}},
    {"VPD: lab.rack", 2, "01 08 " LAB_RACK " 03 52 30 37 00", {{0, 0, 1}, {0, 0, 1}}},
    {"VPD: any keys", 2, NAMES, {{0, 0, 3}, {0, 0, 3}}},
    {"VPD: lab.rack of 01h and FEh",
     2,
     "01 08 " LAB_RACK " 00 FE 08 " LAB_RACK " 04 01 02 03 04 00",
     {{0, 0, 2}, {0, 0, 2}}},
    {"VPD: lab.rack twice",
     2,
     "01 08 " LAB_RACK " 00 01 08 " LAB_RACK " 00 00",
     {{8, 11, 0}, {8, 11, 0}}},
    {"VPD: lab.rack twice, two forms of its length",
     2,
     "01 08 " LAB_RACK " 00 01 80 08 " LAB_RACK " 00 00",
     {{8, 11, 0}, {8, 11, 0}}},
    {"VPD: lab.rack, then an empty key",
     2,
     "01 08 " LAB_RACK " 00 01 00 00 00",
     {{7, 11, 0}, {7, 11, 0}}},
    {"VPD: keys 00h, FFh, 22h",
     2,
     "01 01 00 00 01 01 FF 00 01 01 22 00 00",
     {{0, 0, 3}, {0, 0, 3}}},
    {"VPD: key 00h twice", 2, "01 01 00 00 01 01 00 00 00", {{8, 4, 0}, {8, 4, 0}}},
    {"VPD: a zero ends no key", 2, "01 01 41 00 01 02 41 00 00 00", {{0, 0, 2}, {0, 0, 2}}},

    {"Tiny: no entries", 3, "56 02 04 6F", {{0, 0, 0}, {0, 0, 0}}},
    {"Tiny: bytes from L on", 3, "56 02 04 6F 00 01", {{0, 0, 0}, {0, 0, 0}}},
    {"Tiny: wrong check", 3, "56 02 04 6E", {{10, 3, 0}, {10, 3, 0}}},
    {"Tiny: L below 4", 3, "56 02 03", {{5, 2, 0}, {5, 2, 0}}},
    {"Tiny: L above the image", 3, "56 02 05 6F", {{5, 2, 0}, {5, 2, 0}}},
    {"D15: two bytes", 3, "56 02", {{3, 0, 0}, {3, 0, 0}}},
    {"D15: two bytes of version 3", 3, "56 03", {{3, 0, 0}, {3, 0, 0}}},
    {"D15: version before L", 3, "56 03 00", {{4, 0, 0}, {4, 0, 0}}},
    {"Tiny: tag 00h", 3, "56 02 05 00 00", {{6, 3, 0}, {6, 3, 0}}},
    {"Tiny: an entry past the room", 3, "56 02 06 60 00 00", {{5, 3, 0}, {5, 3, 0}}},
    {"Tiny: an entry after the pool", 3, "56 02 08 01 00 10 00 50", {{9, 5, 0}, {9, 5, 0}}},
    {"Tiny: 9 before 6", 3, "56 02 07 01 00 00 00", {{9, 5, 0}, {9, 5, 0}}},
    {"Tiny: 10h twice", 3, "56 02 08 10 00 10 01 26", {{8, 5, 0}, {8, 5, 0}}},
    {"Tiny: 23h twice", 3, "56 02 0A 23 AA BB 23 AA BB CB", {{0, 0, 2}, {0, 0, 2}}},
    {"Tiny: major 100", 3, "56 02 0B 61 00 01 64 00 20 20 E6", {{7, 3, 0}, {7, 3, 0}}},
    {"Tiny: the largest revisions",
     3,
     "56 02 12 61 00 01 63 63 20 20 62 00 01 99 00 00 FF 79",
     {{0, 0, 2}, {0, 0, 2}}},
    {"Tiny: batch 10000",
     3,
     "56 02 0D 80 00 01 00 00 20 20 10 27 5B",
     {{0, 0, 1}, {7, 3, 0}}},
    {"Tiny: 80h twice",
     3,
     "56 02 16 80 00 01 00 00 20 20 0F 27 80 00 01 00 00 20 20 0F 27 4B",
     {{0, 0, 2}, {8, 12, 0}}},
    {"D18: a string number without a pool", 3, "56 02 06 10 07 A2", {{0, 0, 1}, {0, 0, 1}}},

    {"ONIE: no bytes", 4, "", {{16, 0, 0}, {3, 0, 0}}},
    {"ONIE: ten bytes", 4, ONIE "00", {{16, 0, 0}, {3, 0, 0}}},
    {"ONIE: ten bytes of version 2", 4, "54 6C 76 49 6E 66 6F 00 02 00", {{16, 0, 0}, {3, 0, 0}}},
    {"ONIE: wrong magic",
     4,
     "74 6C 76 49 6E 66 6F 00 01 00 06 FE 04 67 3D 57 ED",
     {{16, 0, 0}, {3, 0, 0}}},
    {"ONIE: no zero after the magic",
     4,
     "54 6C 76 49 6E 66 6F 20 01 00 06 FE 04 D3 EF 19 2E",
     {{16, 0, 0}, {3, 0, 0}}},
    {"ONIE: version 2",
     4,
     "54 6C 76 49 6E 66 6F 00 02 00 06 FE 04 93 E3 66 C8",
     {{16, 0, 0}, {4, 0, 0}}},
    {"ONIE: version before the length",
     4,
     "54 6C 76 49 6E 66 6F 00 00 FF FF FE 04 8D 33 7B 06",
     {{16, 0, 0}, {4, 0, 0}}},
    {"ONIE: no entries", 4, ONIE "00 06 FE 04 D4 43 1C 18", {{16, 0, 0}, {0, 0, 0}}},
    {"ONIE: bytes after the room",
     4,
     ONIE "00 06 FE 04 D4 43 1C 18 00 FF FE",
     {{16, 0, 0}, {0, 0, 0}}},
    {"ONIE: wrong check", 4, ONIE "00 06 FE 04 D4 43 1C 19", {{16, 0, 0}, {10, 13, 0}}},
    {"ONIE: the check low byte first",
     4,
     ONIE "00 06 FE 04 18 1C 43 D4",
     {{16, 0, 0}, {10, 13, 0}}},
    {"ONIE: the check without FE 04", 4, ONIE "00 06 FE 04 2B B7 6C 4C", {{16, 0, 0}, {10, 13, 0}}},
    {"ONIE: a length past the image", 4, ONIE "00 07 FE 04 D5 81 76 2F", {{16, 0, 0}, {5, 9, 0}}},
    {"ONIE: a length above 2,048", 4, ONIE "08 01 FE 04 14 B8 22 72", {{16, 0, 0}, {5, 9, 0}}},
    {"ONIE: the length before a forbidden code",
     4,
     ONIE "00 09 00 FE 04 CF BD B7 65",
     {{16, 0, 0}, {5, 9, 0}}},
    {"ONIE: a length of 0", 4, ONIE "00 00", {{16, 0, 0}, {5, 11, 0}}},
    {"ONIE: a length of 0, the end after the room",
     4,
     ONIE "00 00 FE 04 D0 CE 60 AA",
     {{16, 0, 0}, {5, 11, 0}}},
    {"ONIE: a length that leaves a byte",
     4,
     ONIE "00 07 FE 04 D5 81 76 2F 00",
     {{16, 0, 0}, {5, 9, 0}}},
    {"ONIE: the same with a wrong check",
     4,
     ONIE "00 07 FE 04 00 00 00 00 00",
     {{16, 0, 0}, {5, 9, 0}}},
    {"ONIE: a second end in the room",
     4,
     ONIE "00 0C FE 04 D9 D4 99 CE FE 04 D4 43 1C 18",
     {{16, 0, 0}, {5, 9, 0}}},
    {"ONIE: a forbidden code before that",
     4,
     ONIE "00 08 00 FE 04 77 01 D0 00 00",
     {{16, 0, 0}, {6, 11, 0}}},
    {"ONIE: FE", 4, ONIE "00 01 FE", {{16, 0, 0}, {5, 11, 0}}},
    {"ONIE: FE, its length after the room",
     4,
     ONIE "00 01 FE 04 00 00 00 00",
     {{16, 0, 0}, {5, 11, 0}}},
    {"ONIE: FE 04", 4, ONIE "00 02 FE 04", {{16, 0, 0}, {5, 11, 0}}},
    {"ONIE: FE 04 and three bytes", 4, ONIE "00 05 FE 04 00 00 00", {{16, 0, 0}, {5, 11, 0}}},
    {"ONIE: FE 04 and three bytes of the room",
     4,
     ONIE "00 05 FE 04 D6 05 A2 41",
     {{16, 0, 0}, {5, 11, 0}}},
    {"ONIE: FE 05", 4, ONIE "00 02 FE 05", {{16, 0, 0}, {6, 11, 0}}},
    {"ONIE: FE 03 and its value", 4, ONIE "00 05 FE 03 00 00 00", {{16, 0, 0}, {6, 11, 0}}},
    {"ONIE: FE 00", 4, ONIE "00 02 FE 00", {{16, 0, 0}, {6, 11, 0}}},
    {"ONIE: FE 03 after an entry",
     4,
     ONIE "00 0E 26 01 01 FE 03 00 00 00 FE 04 D0 04 F2 3F",
     {{16, 0, 0}, {6, 14, 0}}},
    {"ONIE: code 00h", 4, ONIE "00 01 00", {{16, 0, 0}, {6, 11, 0}}},
    {"ONIE: code 00h and a length",
     4,
     ONIE "00 08 00 00 FE 04 84 11 7D A9",
     {{16, 0, 0}, {6, 11, 0}}},
    {"ONIE: code FFh", 4, ONIE "00 01 FF", {{16, 0, 0}, {6, 11, 0}}},
    {"ONIE: code FFh after an entry",
     4,
     ONIE "00 0A 26 00 FF 00 FE 04 64 25 AC 5E",
     {{16, 0, 0}, {6, 13, 0}}},
    {"ONIE: a length that is missing", 4, ONIE "00 01 21", {{16, 0, 0}, {5, 11, 0}}},
    {"ONIE: a length after the room", 4, ONIE "00 01 21 00", {{16, 0, 0}, {5, 11, 0}}},
    {"ONIE: a value past the room", 4, ONIE "00 02 21 01 41", {{16, 0, 0}, {5, 11, 0}}},
    {"ONIE: a value that takes the end",
     4,
     ONIE "00 09 21 08 41 FE 04 A8 F9 6C 41",
     {{16, 0, 0}, {5, 11, 0}}},
    {"ONIE: no end", 4, ONIE "00 05 26 00 27 01 00", {{16, 0, 0}, {5, 16, 0}}},
    {"ONIE: an end after the room",
     4,
     ONIE "00 02 26 00 FE 04 4B F8 95 EA",
     {{16, 0, 0}, {5, 13, 0}}},
    {"ONIE: an empty text", 4, ONIE "00 08 21 00 FE 04 9C 9F B5 F2", {{16, 0, 0}, {0, 0, 1}}},
    {"ONIE: 20h and 7Eh in a text",
     4,
     ONIE "00 0A 21 02 20 7E FE 04 23 B8 23 13",
     {{16, 0, 0}, {0, 0, 1}}},
    {"ONIE: 1Fh in a text", 4, ONIE "00 09 21 01 1F FE 04 B3 D3 20 71", {{16, 0, 0}, {7, 11, 0}}},
    {"ONIE: the same with a wrong check",
     4,
     ONIE "00 09 21 01 1F FE 04 00 00 00 00",
     {{16, 0, 0}, {10, 16, 0}}},
    {"ONIE: 7Fh in a text",
     4,
     ONIE "00 0D 21 01 41 22 02 42 7F FE 04 41 A8 86 7A",
     {{16, 0, 0}, {7, 14, 0}}},
    {"ONIE: 23h, 2Bh and 2Dh of other bytes than text",
     4,
     ONIE "00 0D 2D 00 2B 00 23 01 E9 FE 04 82 0A F7 43",
     {{16, 0, 0}, {7, 15, 0}}},
    {"ONIE: an address of five bytes",
     4,
     ONIE "00 0D 24 05 00 00 00 00 00 FE 04 33 1D FB 84",
     {{16, 0, 0}, {7, 11, 0}}},
    {"ONIE: an address of six bytes",
     4,
     ONIE "00 0E 24 06 00 00 00 00 00 00 FE 04 CE EF 7C 7F",
     {{16, 0, 0}, {0, 0, 1}}},
    {"ONIE: an address of eight bytes",
     4,
     ONIE "00 10 24 08 00 00 00 00 00 00 00 00 FE 04 40 B8 C4 30",
     {{16, 0, 0}, {7, 11, 0}}},
    {"ONIE: digits that are no date",
     4,
     ONIE "00 1B 25 13 39 39 2F 30 30 2F 30 30 30 30 20 39 39 3A 39 39 3A 39 39 FE 04 CF 01 6A E2",
     {{16, 0, 0}, {7, 11, 0}}},
    {"ONIE: 29 February 2024, 23:59:59",
     4,
     ONIE "00 1B 25 13 30 32 2F 32 39 2F 32 30 32 34 20 32 33 3A 35 39 3A 35 39 FE 04 08 5D 0F 2C",
     {{16, 0, 0}, {0, 0, 1}}},
    {"ONIE: 29 February 2023",
     4,
     ONIE "00 1B 25 13 30 32 2F 32 39 2F 32 30 32 33 20 32 33 3A 35 39 3A 35 39 FE 04 7C C5 E6 A3",
     {{16, 0, 0}, {7, 11, 0}}},
    {"ONIE: the same with a wrong check",
     4,
     ONIE "00 1B 25 13 30 32 2F 32 39 2F 32 30 32 33 20 32 33 3A 35 39 3A 35 39 FE 04 7C C5 E6 A2",
     {{16, 0, 0}, {10, 34, 0}}},
    {"ONIE: 24 hours", 4, ONIE_MISDATED, {{16, 0, 0}, {7, 11, 0}}},
    {"ONIE: 60 minutes",
     4,
     ONIE "00 1B 25 13 31 32 2F 33 31 2F 32 30 32 34 20 32 33 3A 36 30 3A 30 30 FE 04 B0 2D F5 25",
     {{16, 0, 0}, {7, 11, 0}}},
    {"ONIE: 60 seconds",
     4,
     ONIE "00 1B 25 13 31 32 2F 33 31 2F 32 30 32 34 20 32 33 3A 35 39 3A 36 30 FE 04 83 A1 E1 AC",
     {{16, 0, 0}, {7, 11, 0}}},
    {"ONIE: 25h a second time and no date",
     4,
     ONIE "00 30 25 13 31 32 2F 33 31 2F 32 30 32 34 20 32 33 3A 35 39 3A 35 39 25 13 31 32 2F 33 "
     "31 2F 32 30 32 34 20 32 34 3A 30 30 3A 30 30 FE 04 DA 85 42 5D",
     {{16, 0, 0}, {7, 32, 0}}},
    {"ONIE: 25h a second time and a date",
     4,
     ONIE "00 30 25 13 31 32 2F 33 31 2F 32 30 32 34 20 32 33 3A 35 39 3A 35 39 25 13 31 32 2F 33 "
     "31 2F 32 30 32 34 20 32 33 3A 35 39 3A 35 39 FE 04 F3 DC 9A 46",
     {{16, 0, 0}, {8, 32, 0}}},
    {"ONIE: a date of 18 bytes",
     4,
     ONIE "00 1A 25 12 31 2F 30 32 2F 32 30 32 34 20 30 33 3A 30 34 3A 30 35 FE 04 6E A1 "
     "6B 04",
     {{16, 0, 0}, {7, 11, 0}}},
    {"ONIE: a date of 20 bytes",
     4,
     ONIE "00 1C 25 14 30 31 2F 30 32 2F 32 30 32 34 20 30 33 3A 30 34 3A 30 35 5A FE 04 "
     "6E 64 93 24",
     {{16, 0, 0}, {7, 11, 0}}},
    {"ONIE: a date with a letter",
     4,
     ONIE "00 1B 25 13 30 31 2F 30 32 2F 32 30 32 34 20 30 33 3A 30 34 3A 30 41 FE 04 90 "
     "C5 18 E1",
     {{16, 0, 0}, {7, 11, 0}}},
    {"ONIE: a date with a dash",
     4,
     ONIE "00 1B 25 13 30 31 2D 30 32 2F 32 30 32 34 20 30 33 3A 30 34 3A 30 35 FE 04 B7 "
     "89 DE 9C",
     {{16, 0, 0}, {7, 11, 0}}},
    {"ONIE: a date with a T",
     4,
     ONIE "00 1B 25 13 30 31 2F 30 32 2F 32 30 32 34 54 30 33 3A 30 34 3A 30 35 FE 04 8D "
     "C6 F9 1C",
     {{16, 0, 0}, {7, 11, 0}}},
    {"ONIE: a date of eight digits",
     4,
     ONIE "00 10 25 08 32 30 32 34 30 31 30 32 FE 04 4D 11 90 0D",
     {{16, 0, 0}, {7, 11, 0}}},
    {"ONIE: a count of one byte",
     4,
     ONIE "00 09 2A 01 03 FE 04 D1 3F 4B 74",
     {{16, 0, 0}, {7, 11, 0}}},
    {"ONIE: a count of two bytes",
     4,
     ONIE "00 0A 2A 02 00 00 FE 04 B7 22 39 B4",
     {{16, 0, 0}, {0, 0, 1}}},
    {"ONIE: a count of three bytes",
     4,
     ONIE "00 0B 2A 03 00 00 03 FE 04 4D 6D 44 B7",
     {{16, 0, 0}, {7, 11, 0}}},
    {"ONIE: country CZ", 4, ONIE "00 0A 2C 02 43 5A FE 04 89 F1 86 1C", {{16, 0, 0}, {0, 0, 1}}},
    {"ONIE: country AZ, the ends of the alphabet",
     4,
     ONIE "00 0A 2C 02 41 5A FE 04 23 F8 4E 97",
     {{16, 0, 0}, {0, 0, 1}}},
    {"ONIE: country cz", 4, ONIE "00 0A 2C 02 63 7A FE 04 11 8E 6F C2", {{16, 0, 0}, {7, 11, 0}}},
    {"ONIE: country @Z, before A",
     4,
     ONIE "00 0A 2C 02 40 5A FE 04 9B 44 29 F2",
     {{16, 0, 0}, {7, 11, 0}}},
    {"ONIE: country A[, after Z",
     4,
     ONIE "00 0A 2C 02 41 5B FE 04 22 3A 24 A0",
     {{16, 0, 0}, {7, 11, 0}}},
    {"ONIE: country of one letter",
     4,
     ONIE "00 09 2C 01 43 FE 04 2E E5 33 14",
     {{16, 0, 0}, {7, 11, 0}}},
    {"ONIE: country of three letters",
     4,
     ONIE "00 0B 2C 03 43 5A 45 FE 04 E1 49 4D A0",
     {{16, 0, 0}, {7, 11, 0}}},
    {"ONIE: FDh of three bytes",
     4,
     ONIE "00 0B FD 03 00 00 1F FE 04 36 35 23 68",
     {{16, 0, 0}, {7, 11, 0}}},
    {"ONIE: FDh of four bytes",
     4,
     ONIE "00 0C FD 04 00 00 1F 79 FE 04 3D DF A0 A8",
     {{16, 0, 0}, {0, 0, 1}}},
    {"ONIE: FDh three times",
     4,
     ONIE "00 19 FD 04 00 00 1F 79 FD 04 00 00 1F 79 FD 05 FF 00 00 00 00 FE 04 CB 53 7B "
     "F4",
     {{16, 0, 0}, {0, 0, 3}}},
    {"ONIE: FDh, then one of no bytes",
     4,
     ONIE "00 0E FD 04 00 00 1F 79 FD 00 FE 04 31 53 0C F0",
     {{16, 0, 0}, {7, 17, 0}}},
    {"ONIE: 21h twice",
     4,
     ONIE "00 0C 21 01 41 21 01 41 FE 04 9C 4E A7 A5",
     {{16, 0, 0}, {8, 14, 0}}},
    {"ONIE: 2Ah twice",
     4,
     ONIE "00 10 2A 02 00 01 26 00 2A 02 00 02 FE 04 BC 37 91 66",
     {{16, 0, 0}, {8, 17, 0}}},
    {"ONIE: 7 before 8",
     4,
     ONIE "00 0D 2C 02 43 5A 2C 01 43 FE 04 94 A7 82 09",
     {{16, 0, 0}, {7, 15, 0}}},
    {"ONIE: entry by entry",
     4,
     ONIE "00 0C 21 00 21 00 2C 00 FE 04 ED 6C 35 EB",
     {{16, 0, 0}, {8, 13, 0}}},
    {"ONIE: what no edition names",
     4,
     ONIE "00 21 26 01 FF 27 01 FF 28 01 FF 29 01 FF 2E 01 FF 2F 01 FF 20 01 FF 01 01 FF "
     "FC 01 FF FE 04 97 43 47 9C",
     {{16, 0, 0}, {0, 0, 9}}},
    {"ONIE: 26h twice, of any bytes",
     4,
     ONIE "00 0C 26 02 01 02 26 00 FE 04 62 E7 9B E9",
     {{16, 0, 0}, {0, 0, 2}}},

    {"format 0", 0, "00", {{16, 0, 0}, {16, 0, 0}}},
    {"format 5", 5, "00", {{16, 0, 0}, {16, 0, 0}}},
    {"D6: format 260", 260, ONIE "00 06 FE 04 D4 43 1C 18", {{16, 0, 0}, {16, 0, 0}}},
    {"D6: format 257", 257, "FB FB 05 FF", {{16, 0, 0}, {16, 0, 0}}},
    {"D6: format 2^31 + 2", 0x80000002, "00", {{16, 0, 0}, {16, 0, 0}}},
};

/* All other calls on an image that check refuses: they refuse it alike and change nothing. */
static void refused_alike(uint32_t format, struct lent image, struct outcome outcome,
                          const char *what)
{
    struct lent records = lend(130), out = lend(100), walk = lend(BOARDID_WALK_SIZE);
    static const uint8_t value[] = {0x42};

    expect_answer(boardid_list_entries(format, image.bytes, image.length, records.bytes,
                                       records.length),
                  outcome, what);
    expect_answer(boardid_entry_at(format, image.bytes, image.length, 0, records.bytes,
                                   records.length),
                  outcome, what);
    expect_answer(boardid_entry_at(format, image.bytes, image.length, 0, NULL, 0), outcome, what);
    expect_answer(boardid_value_at(format, image.bytes, image.length, 0), outcome, what);
    if (format == BOARDID_FORMAT_TINY) {
        expect_answer(boardid_string_at(format, image.bytes, image.length, 0), outcome, what);
    } else {
        expect_refused(boardid_string_at(format, image.bytes, image.length, 0), 16, 0, what);
    }
    boardid_walk_set(walk.bytes, format, 0);
    expect_answer(boardid_walk_step(walk.bytes, walk.length, image.bytes, image.length,
                                    records.bytes, records.length),
                  outcome, what);
    expect_number(boardid_walk_format(walk.bytes), format, what);
    expect_number(boardid_walk_edition(walk.bytes), BOARDID_EDITION, what);
    expect_number(boardid_walk_entry(walk.bytes), 0, what);
    expect_answer(boardid_edit_entry(format, image.bytes, image.length, 5, value, sizeof value,
                                     out.bytes, out.length),
                  outcome, what);
    expect_answer(boardid_add_field(format, image.bytes, image.length, NULL, 0, value, sizeof value,
                                    out.bytes, out.length),
                  outcome, what);
    expect_answer(boardid_remove_entry(format, image.bytes, image.length, 5, out.bytes, out.length),
                  outcome, what);
    expect(all_are(records, 0, 0x5A), what);
    expect(all_are(out, 0, 0x5A), what);
    give_back(walk);
    give_back(out);
    give_back(records);
}

/* What holds of every record of an accepted image. */
static void record_holds(uint32_t format, struct boardid_record record, const char *what)
{
    uint32_t i;

    expect(record.kind == 0 || record.kind == BOARDID_KIND(format, record.code), what);
    expect(record.kind != 0 || record.reading == BOARDID_READING_PLAIN_BYTES, what);
#if BOARDID_EDITION >= 4
    expect_number(record.frame_length, record.value_place + record.value_length - record.place,
                  what);
#else
    expect_number(record.reserved, 0, what);
#endif
    if (format != BOARDID_FORMAT_VPD) {
        expect_number(record.key_place, record.value_place, what);
        expect_number(record.key_length, 0, what);
    }
    for (i = 0; i < 7; i++) {
        expect(record.reading >= BOARDID_READING_NUMBER || record.carried[i] == 0, what);
    }
}

/*
 * Entry n of an accepted image is removed, unless it is required or has no name, and is added again
 * to what is left, unless its key is one that no write makes. To the image itself it is not added,
 * but where it is an FDh.
 */
static void one_entry_moved(uint32_t format, struct lent image, uint32_t n,
                            struct boardid_record record, const char *what)
{
    const uint32_t count = boardid_answer_count(boardid_check_image(format, image.bytes,
                                                                    image.length));
    const uint32_t frame = record.value_place + record.value_length - record.place;
    const int required = format == 1 && (record.code == 1 ||
                                         (record.code >= 8 && record.code <= 11));
    const int key = format != 2 || record.code != 1 ||
                    of_alphabet(image.bytes + record.key_place, record.key_length);
    const int again = format == 4 && record.code == 0xFD;
    struct lent less = lend(image.length), more = lend(image.length + frame);
    struct lent field = lend(BOARDID_FIELD_SIZE);
    struct boardid_field whole;
    uint64_t answer;

    whole.code = record.code;
    whole.key_place = record.key_place;
    whole.key_length = record.key_length;
    whole.value_place = record.value_place;
    whole.value_length = record.value_length;
    boardid_field_set(field.bytes, 0, whole);
    answer = boardid_add_field(format, image.bytes, image.length, field.bytes, field.length,
                               image.bytes, image.length, more.bytes, more.length);
    if (again) {
        expect_number(boardid_answer_number(answer), 0, what);
        expect_count(boardid_check_image(format, more.bytes, more.length), count + 1, what);
    } else {
        expect_refused(answer, record.kind == 0 ? 14 : key ? 8 : 7, 0, what);
        expect(all_are(more, 0, 0x5A), what);
    }

    answer = boardid_remove_entry(format, image.bytes, image.length, n, less.bytes, less.length);
    if (record.kind == 0 || required) {
        expect_refused(answer, required ? 11 : 14, required ? 0 : record.place, what);
        expect(all_are(less, 0, 0x5A), what);
    } else {
        expect_number(boardid_answer_number(answer), 0, what);
        expect(boardid_answer_count(answer) + frame <= image.length, what);
        expect(all_are(less, boardid_answer_count(answer), 0xFF), what);
        expect_count(boardid_check_image(format, less.bytes, less.length), count - 1, what);
        memset(more.bytes, 0x5A, more.length);
        answer = boardid_add_field(format, less.bytes, less.length, field.bytes, field.length,
                                   image.bytes, image.length, more.bytes, more.length);
        if (key) {
            expect_number(boardid_answer_number(answer), 0, what);
            expect(boardid_answer_count(answer) <= image.length, what);
            expect(all_are(more, boardid_answer_count(answer), 0xFF), what);
            expect_count(boardid_check_image(format, more.bytes, more.length), count, what);
        } else {
            expect_refused(answer, 7, 0, what);
            expect(all_are(more, 0, 0x5A), what);
        }
    }
    give_back(field);
    give_back(more);
    give_back(less);
}

/* Entry n of an accepted image by every call that gives one entry, against its record in the list. */
static void one_entry(uint32_t format, struct lent image, uint32_t n, const uint8_t *bytes,
                      const char *what)
{
    struct boardid_record record = boardid_record_at(bytes, 0);
    struct lent lent = lend(BOARDID_RECORD_SIZE + 5), cut = lend(BOARDID_RECORD_SIZE - 1);
    struct lent walk = lend(BOARDID_WALK_SIZE), out = lend(image.length + 8);
    uint64_t answer;

    record_holds(format, record, what);
    expect_count(boardid_entry_at(format, image.bytes, image.length, n, lent.bytes, lent.length), 1,
                 what);
    expect(memcmp(lent.bytes, bytes, BOARDID_RECORD_SIZE) == 0, what);
    expect(all_are(lent, BOARDID_RECORD_SIZE, 0x5A), what);
    expect_refused(boardid_entry_at(format, image.bytes, image.length, n, cut.bytes, cut.length),
                   12, 0, what);

    answer = boardid_value_at(format, image.bytes, image.length, n);
    expect_number(answer, (uint64_t)record.value_length << 32 | record.value_place, what);
    expect_number(boardid_answer_part(answer).place, record.value_place, what);
    expect_number(boardid_answer_part(answer).length, record.value_length, what);

    memset(lent.bytes, 0x5A, lent.length);
    boardid_walk_set(walk.bytes, format, n);
    expect_refused(boardid_walk_step(walk.bytes, walk.length, image.bytes, image.length, cut.bytes,
                                     cut.length),
                   12, 0, what);
    expect_number(boardid_walk_entry(walk.bytes), n, what);
    expect(all_are(cut, 0, 0x5A), what);
    expect_count(boardid_walk_step(walk.bytes, walk.length, image.bytes, image.length, lent.bytes,
                                   lent.length),
                 1, what);
    expect(memcmp(lent.bytes, bytes, BOARDID_RECORD_SIZE) == 0, what);
    expect_number(boardid_walk_format(walk.bytes), format, what);
    expect_number(boardid_walk_edition(walk.bytes), BOARDID_EDITION, what);
    expect_number(boardid_walk_entry(walk.bytes), (uint64_t)n + 1, what);

    /* An edit to the value that is there: refused exactly where the code has no name. */
    answer = boardid_edit_entry(format, image.bytes, image.length, n,
                                image.bytes + record.value_place, record.value_length, out.bytes,
                                out.length);
    if (record.kind == 0) {
        expect_refused(answer, 14, record.place, what);
        expect(all_are(out, 0, 0x5A), what);
    } else {
        expect_number(boardid_answer_number(answer), 0, what);
        expect(boardid_answer_count(answer) <= image.length, what);
        expect(all_are(out, boardid_answer_count(answer), 0xFF), what);
    }
    one_entry_moved(format, image, n, record, what);
    give_back(out);
    give_back(walk);
    give_back(cut);
    give_back(lent);
}

#if BOARDID_EDITION >= 4
/* The frames of an accepted image follow one another, from its header to what ends the entries. */
static void frames_tile(uint32_t format, struct lent image, const uint8_t *records, uint32_t count,
                        const char *what)
{
    static const uint32_t starts[] = {0, 4, 0, 3, 11};
    uint32_t at = starts[format], n;

    for (n = 0; n < count; n++) {
        struct boardid_record record = boardid_record_at(records, n);

        expect_number(record.place, at, what);
        at = record.place + record.frame_length;
    }
    expect(at < image.length, what);
    if (at < image.length) {
        uint8_t end = image.bytes[at];

        expect(format == 1   ? end == 250
               : format == 2 ? end == 0x00 || end == 0xFF
               : format == 3 ? image.bytes[2] == at + 1
                             : end == 0xFE,
               what);
    }
}
#endif

/* All other calls on an image that check accepts. */
static void accepted_alike(uint32_t format, struct lent image, uint32_t count, const char *what)
{
    size_t size = (size_t)count * BOARDID_RECORD_SIZE;
    struct lent records = lend(size + 70), walk = lend(BOARDID_WALK_SIZE), few;
    struct lent record = lend(BOARDID_RECORD_SIZE);
    uint32_t n;

    expect_count(boardid_list_entries(format, image.bytes, image.length, records.bytes,
                                      records.length),
                 count, what);
    expect(all_are(records, size, 0x5A), what);
    if (count == 0) {
        expect_count(boardid_list_entries(format, image.bytes, image.length, NULL, 0), 0, what);
    } else {
        few = lend(size - 1);
        expect_refused(boardid_list_entries(format, image.bytes, image.length, few.bytes,
                                            few.length),
                       12, 0, what);
        expect(all_are(few, 0, 0x5A), what);
        give_back(few);
    }
    for (n = 0; n < count; n++) {
        one_entry(format, image, n, records.bytes + (size_t)n * BOARDID_RECORD_SIZE, what);
    }
#if BOARDID_EDITION >= 4
    frames_tile(format, image, records.bytes, count, what);
#endif
    boardid_walk_set(walk.bytes, format, 0);
    for (n = 0; n < count; n++) {
        expect_count(boardid_walk_step(walk.bytes, walk.length, image.bytes, image.length,
                                       record.bytes, record.length),
                     1, what);
        expect(memcmp(record.bytes, records.bytes + (size_t)n * BOARDID_RECORD_SIZE,
                      BOARDID_RECORD_SIZE) == 0,
               what);
    }
    expect_refused(boardid_walk_step(walk.bytes, walk.length, image.bytes, image.length,
                                     record.bytes, record.length),
                   13, 0, what);
    expect_number(boardid_walk_entry(walk.bytes), count, what);
    boardid_walk_set(walk.bytes, format, UINT64_MAX);
    expect_refused(boardid_walk_step(walk.bytes, walk.length, image.bytes, image.length,
                                     record.bytes, record.length),
                   13, 0, what);
    expect_number(boardid_walk_entry(walk.bytes), UINT64_MAX, what);
    expect_refused(boardid_entry_at(format, image.bytes, image.length, count, NULL, 0), 13, 0,
                   what);
    expect_refused(boardid_entry_at(format, image.bytes, image.length, (uint64_t)1 << 32,
                                    record.bytes, record.length),
                   13, 0, what);
    expect_refused(boardid_value_at(format, image.bytes, image.length, count), 13, 0, what);
    expect_refused(boardid_value_at(format, image.bytes, image.length, (uint64_t)1 << 32), 13, 0,
                   what);
    expect_refused(boardid_edit_entry(format, image.bytes, image.length, count, NULL, 0, NULL, 0),
                   13, 0, what);
    expect_refused(boardid_remove_entry(format, image.bytes, image.length, count, NULL, 0), 13, 0,
                   what);
    expect_refused(boardid_add_field(format, image.bytes, image.length, NULL, 0, NULL, 0, NULL, 0),
                   13, 0, what);
    if (format != BOARDID_FORMAT_TINY) {
        expect_refused(boardid_string_at(format, image.bytes, image.length, 0), 16, 0, what);
    }
    give_back(record);
    give_back(walk);
    give_back(records);
}

static void images(void)
{
    size_t i;

    for (i = 0; i < sizeof image_cases / sizeof image_cases[0]; i++) {
        const struct image_case *c = &image_cases[i];
        struct outcome outcome = outcome_of(c->format, c->by_edition);
        struct lent image = lend_hex(c->image), before = lend_copy(image.bytes, image.length);

        expect_answer(boardid_check_image(c->format, image.bytes, image.length), outcome, c->what);
        if (outcome.number != 0) {
            refused_alike(c->format, image, outcome, c->what);
        } else {
            accepted_alike(c->format, image, outcome.count, c->what);
        }
        expect(same_bytes(image, before), c->what);
        give_back(before);
        give_back(image);
    }
}

/* ---- Records -------------------------------------------------------------------------------- */

/* The words of a record that carry something: code, edition that names it, then words 2 to 15. */
struct record_case {
    uint32_t code;
    uint32_t since;
    uint32_t places[5]; /* words 2 to 6 */
    uint32_t frame;     /* word 7 from edition 4 on; 0 before */
    uint32_t reading;
    uint32_t carried[7];
};

static void expect_records(uint32_t format, const char *hex, const struct record_case *cases,
                           size_t count, const char *what)
{
    struct lent image = lend_hex(hex), records = lend(count * BOARDID_RECORD_SIZE);
    size_t n, i;

    expect_count(boardid_list_entries(format, image.bytes, image.length, records.bytes,
                                      records.length),
                 (uint32_t)count, what);
    for (n = 0; n < count; n++) {
        const struct record_case *c = &cases[n];
        const uint8_t *bytes = records.bytes + n * BOARDID_RECORD_SIZE;
        int named = c->since != 0 && c->since <= BOARDID_EDITION;

        expect_number(boardid_word_at(bytes, 0), c->code, what);
        expect_number(boardid_word_at(bytes, 1), named ? format * 256 + c->code : 0, what);
        for (i = 0; i < 5; i++) {
            expect_number(boardid_word_at(bytes, 2 + i), c->places[i], what);
        }
        expect_number(boardid_word_at(bytes, 7), BOARDID_EDITION >= 4 ? c->frame : 0, what);
        expect_number(boardid_word_at(bytes, 8), named ? c->reading : 0, what);
        for (i = 0; i < 7; i++) {
            expect_number(boardid_word_at(bytes, 9 + i), named ? c->carried[i] : 0, what);
        }
    }
    give_back(records);
    give_back(image);
}

static void records(void)
{
    static const struct record_case fboss[] = {
        {8, 1, {4, 6, 0, 6, 1}, 3, 2, {0xFE, 0, 0, 0, 0, 0, 0}},
        {1, 1, {7, 9, 0, 9, 2}, 4, 1, {0, 0, 0, 0, 0, 0, 0}},
        {9, 1, {11, 13, 0, 13, 1}, 3, 2, {2, 0, 0, 0, 0, 0, 0}},
        {10, 1, {14, 16, 0, 16, 1}, 3, 2, {3, 0, 0, 0, 0, 0, 0}},
        {11, 1, {17, 19, 0, 19, 0}, 2, 1, {0, 0, 0, 0, 0, 0, 0}},
        {21, 0, {19, 21, 0, 21, 2}, 4, 0, {0, 0, 0, 0, 0, 0, 0}},
        {20, 2, {23, 25, 0, 25, 8}, 10, 3, {0x021A, 0x2B3C4D5E, 0x0102, 0, 0, 0, 0}},
        {13, 1, {33, 35, 0, 35, 8}, 10, 8, {2024, 2, 29, 0, 0, 0, 0}},
    };
    static const struct record_case vpd[] = {
        {0x01, 1, {0, 3, 3, 9, 2}, 11, 0, {0, 0, 0, 0, 0, 0, 0}},
        {0xFE, 2, {11, 13, 0, 14, 4}, 7, 0, {0, 0, 0, 0, 0, 0, 0}},
        {0x01, 1, {18, 20, 1, 22, 0}, 4, 0, {0, 0, 0, 0, 0, 0, 0}},
    };
    static const struct record_case names[] = {
        {0x01, 1, {0, 3, 8, 12, 3}, 15, 0, {0, 0, 0, 0, 0, 0, 0}},
        {0xFE, 2, {15, 17, 1, 19, 4}, 8, 0, {0, 0, 0, 0, 0, 0, 0}},
        {0x01, 1, {23, 25, 3, 29, 0}, 6, 0, {0, 0, 0, 0, 0, 0, 0}},
    };
    static const struct record_case tiny[] = {
        {0x10, 1, {3, 4, 0, 4, 1}, 2, 4, {1, 0, 0, 0, 0, 0, 0}},
        {0x11, 1, {5, 6, 0, 6, 1}, 2, 5, {0xF5, 2, 0, 0, 0, 0, 0}},
        {0x60, 1, {7, 8, 0, 8, 6}, 7, 3, {0x021A, 0x2B3C4D5E, 1, 0, 0, 0, 0}},
        {0x61, 1, {14, 15, 0, 15, 6}, 7, 6, {0, 1, 0x80, 5, 0x41, 0x31, 0}},
        {0x02, 0, {21, 23, 0, 23, 1}, 3, 0, {0, 0, 0, 0, 0, 0, 0}},
        {0x81, 2, {24, 25, 0, 25, 8}, 9, 7, {0, 1, 0x99, 0x63, 0, 0xFF, 9999}},
        {0x01, 1, {33, 35, 0, 35, 4}, 6, 0, {0, 0, 0, 0, 0, 0, 0}},
    };
#if BOARDID_EDITION >= 3
    static const struct record_case onie[] = {
        {0x21, 3, {11, 13, 0, 13, 2}, 4, 1, {0, 0, 0, 0, 0, 0, 0}},
        {0x22, 3, {15, 17, 0, 17, 0}, 2, 1, {0, 0, 0, 0, 0, 0, 0}},
        {0x23, 3, {17, 19, 0, 19, 2}, 4, 1, {0, 0, 0, 0, 0, 0, 0}},
        {0x24, 3, {21, 23, 0, 23, 6}, 8, 3, {0x021A, 0x2B3C4D5E, 1, 0, 0, 0, 0}},
        {0x25, 3, {29, 31, 0, 31, 19}, 21, 9, {2024, 2, 3, 4, 5, 6, 0}},
        {0x26, 0, {50, 52, 0, 52, 1}, 3, 0, {0, 0, 0, 0, 0, 0, 0}},
        {0x2A, 3, {53, 55, 0, 55, 2}, 4, 2, {0xFF03, 0, 0, 0, 0, 0, 0}},
        {0x2B, 3, {57, 59, 0, 59, 1}, 3, 1, {0, 0, 0, 0, 0, 0, 0}},
        {0x2C, 3, {60, 62, 0, 62, 2}, 4, 1, {0, 0, 0, 0, 0, 0, 0}},
        {0x2D, 3, {64, 66, 0, 66, 1}, 3, 1, {0, 0, 0, 0, 0, 0, 0}},
        {0xFD, 3, {67, 69, 0, 69, 5}, 7, 0, {0, 0, 0, 0, 0, 0, 0}},
        {0xFD, 3, {74, 76, 0, 76, 4}, 6, 0, {0, 0, 0, 0, 0, 0, 0}},
    };
#endif

    expect_records(1,
                   "FB FB 05 FF 08 01 FE 01 02 41 42 09 01 02 0A 01 03 0B 00 15 02 00 FF "
                   "14 08 02 1A 2B 3C 4D 5E 01 02 0D 08 32 30 32 34 30 32 32 39 FA 02 AE 73",
                   fboss, sizeof fboss / sizeof fboss[0], "records of FBOSS");
    expect_records(2, "01 80 03 53 4B 55 80 80 02 41 37 FE 00 04 01 02 03 04 01 01 5F 00 FF", vpd,
                   sizeof vpd / sizeof vpd[0], "records of VPD");
    expect_records(2, NAMES, names, sizeof names / sizeof names[0], "records with any keys");
    expect_records(3,
                   "56 02 28 10 01 11 F5 60 02 1A 2B 3C 4D 5E 61 00 01 80 05 41 31 02 01 AA "
                   "81 00 01 99 63 00 FF 0F 27 01 04 41 C2 C3 44 DE",
                   tiny, sizeof tiny / sizeof tiny[0], "records of Tiny");
#if BOARDID_EDITION >= 3
    expect_records(4,
                   ONIE "00 4B 21 02 41 42 22 00 23 02 53 31 24 06 02 1A 2B 3C 4D 5E 25 13 30 32 "
                   "2F 30 33 2F 32 30 32 34 20 30 34 3A 30 35 3A 30 36 26 01 01 2A 02 FF 03 2B 01 "
                   "4D 2C 02 43 5A 2D 01 56 FD 05 00 00 1F 79 00 FD 04 00 00 1F 79 FE 04 81 37 40 "
                   "15",
                   onie, sizeof onie / sizeof onie[0], "records of ONIE");
#endif
}

/* ---- Strings, walks, editions --------------------------------------------------------------- */

static void expect_string(const char *hex, uint64_t number, uint32_t place, uint32_t length,
                          const char *what)
{
    struct lent image = lend_hex(hex);
    uint64_t answer = boardid_string_at(BOARDID_FORMAT_TINY, image.bytes, image.length, number);

    if (length == 0) {
        expect_refused(answer, 15, 0, what);
    } else {
        expect_number(answer, (uint64_t)length << 32 | place, what);
        expect_number(boardid_answer_part(answer).place, place, what);
        expect_number(boardid_answer_part(answer).length, length, what);
    }
    give_back(image);
}

static void strings(void)
{
    expect_string("56 02 06 01 00 F5", 0, 0, 0, "D19: an empty pool");
    expect_string("56 02 08 01 02 41 42 56", 0, 0, 0, "D19: an unfinished tail");
    expect_string("56 02 0A 01 04 41 C2 C3 44 82", 0, 5, 2, "D19: string 0");
    expect_string("56 02 0A 01 04 41 C2 C3 44 82", 1, 7, 1, "D19: string 1");
    expect_string("56 02 0A 01 04 41 C2 C3 44 82", 2, 0, 0, "D19: string 2");
    expect_string("56 02 0A 01 04 41 C2 C3 44 82", (uint64_t)1 << 32, 0, 0, "D6: string 2^32");
    expect_string("56 02 04 6F", 0, 0, 0, "D19: no pool");
    expect_string("56 02 06 10 07 A2", 7, 0, 0, "D18: string 7");
}

static void cut_walks(void)
{
    struct lent image = lend_hex("00"), record = lend(BOARDID_RECORD_SIZE);
    struct lent walk = lend(BOARDID_WALK_SIZE), longer = lend(BOARDID_WALK_SIZE + 3);

    boardid_walk_set(walk.bytes, BOARDID_FORMAT_VPD, 0);
    expect_refused(boardid_walk_step(walk.bytes, 15, image.bytes, image.length, record.bytes,
                                     record.length),
                   16, 0, "a walk of 15 bytes");
    expect_refused(boardid_walk_step(NULL, 0, image.bytes, image.length, record.bytes,
                                     record.length),
                   16, 0, "a walk of no bytes");
    boardid_word_set(walk.bytes, 1, 99);
    expect_refused(boardid_walk_step(walk.bytes, walk.length, image.bytes, image.length,
                                     record.bytes, record.length),
                   1, 0, "a walk of an unknown edition");
    expect(all_are(record, 0, 0x5A), "a refused step leaves the record");
    give_back(image);

    image = lend_hex("01 03 53 4B 55 02 41 37 00");
    boardid_walk_set(longer.bytes, BOARDID_FORMAT_VPD, 0);
    expect_count(boardid_walk_step(longer.bytes, longer.length, image.bytes, image.length,
                                   record.bytes, record.length),
                 1, "a walk of 19 bytes");
    expect_number(boardid_walk_entry(longer.bytes), 1, "a walk of 19 bytes is moved on");
    expect(all_are(longer, BOARDID_WALK_SIZE, 0x5A), "bytes past the walk stay");
    give_back(longer);
    give_back(walk);
    give_back(record);
    give_back(image);
}

/* Every exported call with format 4 and an edition that does not have it: one number, at 0. */
static void onie_refused(uint32_t e, uint32_t number, const char *what)
{
    struct lent image = lend_hex(ONIE "00 06 FE 04 D4 43 1C 18"), record = lend(64), out = lend(20);
    struct lent walk = lend(BOARDID_WALK_SIZE);

    expect_refused(boardid_check(4, e, image.bytes, image.length), number, 0, what);
    expect_refused(boardid_check(4, e, image.bytes, 0), number, 0, what);
    expect_refused(boardid_list(4, e, image.bytes, image.length, record.bytes, 64), number, 0,
                   what);
    expect_refused(boardid_entry(4, e, image.bytes, image.length, 0, record.bytes, 64), number, 0,
                   what);
    expect_refused(boardid_value(4, e, image.bytes, image.length, 0), number, 0, what);
    expect_refused(boardid_string(4, e, image.bytes, image.length, 0), 16, 0, what);
    expect_refused(boardid_write(4, e, NULL, 0, NULL, 0, out.bytes, out.length), number, 0, what);
    expect_refused(boardid_edit(4, e, image.bytes, image.length, 0, NULL, 0, out.bytes, out.length),
                   number, 0, what);
    boardid_walk_set(walk.bytes, 4, 0);
    boardid_word_set(walk.bytes, 1, e);
    expect_refused(boardid_step(walk.bytes, walk.length, image.bytes, image.length, record.bytes,
                                record.length),
                   number, 0, what);
    expect_number(boardid_walk_entry(walk.bytes), 0, what);
    expect(all_are(record, 0, 0x5A), what);
    expect(all_are(out, 0, 0x5A), what);
    give_back(walk);
    give_back(out);
    give_back(record);
    give_back(image);
}

/* The exported calls with editions that no header has: 5 is one past the newest. */
static void editions(void)
{
    static const uint32_t unknown[] = {0, 5, 99, 257, 0x80000001, 0xFFFFFFFF};
    struct lent image = lend_hex("56 02 04 6F"), record = lend(64), out = lend(10);
    struct lent walk = lend(BOARDID_WALK_SIZE);
    size_t i;

    for (i = 0; i < sizeof unknown / sizeof unknown[0]; i++) {
        uint32_t e = unknown[i];

        expect_refused(boardid_check(3, e, image.bytes, image.length), 1, 0, "edition: check");
        expect_refused(boardid_list(3, e, image.bytes, image.length, record.bytes, 64), 1, 0,
                       "edition: list");
        expect_refused(boardid_entry(3, e, image.bytes, image.length, 0, record.bytes, 64), 1, 0,
                       "edition: entry");
        expect_refused(boardid_value(3, e, image.bytes, image.length, 0), 1, 0, "edition: value");
        expect_refused(boardid_string(3, e, image.bytes, image.length, 0), 1, 0,
                       "edition: string");
        expect_refused(boardid_write(3, e, NULL, 0, NULL, 0, out.bytes, out.length), 1, 0,
                       "edition: write");
        expect_refused(boardid_edit(3, e, image.bytes, image.length, 0, NULL, 0, out.bytes,
                                    out.length),
                       1, 0, "edition: edit");
        boardid_walk_set(walk.bytes, 3, 0);
        boardid_word_set(walk.bytes, 1, e);
        expect_refused(boardid_step(walk.bytes, walk.length, image.bytes, image.length,
                                    record.bytes, 64),
                       1, 0, "edition: step");
        expect_refused(boardid_check(0, e, image.bytes, image.length), 16, 0, "16 before 1");
        expect_refused(boardid_string(1, e, image.bytes, image.length, 0), 16, 0,
                       "D19: 16 before 1");
        expect_refused(boardid_write(0, e, NULL, 0, NULL, 0, out.bytes, out.length), 16, 0,
                       "write: 16 before 1");
        onie_refused(e, 1, "format 4, an unknown edition");
    }
    for (i = 1; i <= 4; i++) {
        expect_count(boardid_check(3, (uint32_t)i, image.bytes, image.length), 0,
                     "edition: 1 to 4 are known");
    }
    onie_refused(1, 16, "format 4, edition 1");
    onie_refused(2, 16, "format 4, edition 2");
    expect(all_are(record, 0, 0x5A), "an unknown edition leaves the record");
    expect(all_are(out, 0, 0x5A), "an unknown edition leaves the output");
    give_back(walk);
    give_back(out);
    give_back(record);
    give_back(image);
}

/* ---- Writes --------------------------------------------------------------------------------- */

/* A write: its fields, the lent values, the room, and the answer with the image. */
struct write_case {
    const char *what;
    uint32_t format;
    size_t count;
    struct boardid_field fields[6];
    const char *values;
    size_t out_length;
    struct outcome by_edition[2];
    const char *image;
};

static const struct write_case write_cases[] = {
    {"D3: an empty part at the end", 2, 1, {{1, 0, 3, 5, 0}}, "53 4B 55 41 37", 10,
     {{0, 0, 7}, {0, 0, 7}}, "01 03 53 4B 55 00 00"},
    {"D3: an empty part past the end", 2, 1, {{1, 0, 3, 6, 0}}, "53 4B 55 41 37", 10,
     {{13, 0, 0}, {13, 0, 0}}, ""},
    {"D3: a part over the end", 2, 1, {{1, 0, 3, 4, 2}}, "53 4B 55 41 37", 10,
     {{13, 0, 0}, {13, 0, 0}}, ""},
    {"D3: a sum that would wrap", 2, 1, {{1, 0, 3, 0xFFFFFFFF, 2}}, "53 4B 55 41 37", 10,
     {{13, 0, 0}, {13, 0, 0}}, ""},
    {"D3: a key over the end", 2, 1, {{1, 3, 3, 0, 0}}, "53 4B 55 41 37", 10,
     {{13, 0, 0}, {13, 0, 0}}, ""},
    {"no values", 2, 1, {{1, 0, 1, 0, 0}}, "", 10, {{13, 0, 0}, {13, 0, 0}}, ""},
    {"SKU", 2, 1, {{1, 0, 3, 3, 2}}, "53 4B 55 41 37", 9, {{0, 0, 9}, {0, 0, 9}},
     "01 03 53 4B 55 02 41 37 00"},
    {"SKU without room", 2, 1, {{1, 0, 3, 3, 2}}, "53 4B 55 41 37", 8,
     {{12, 0, 0}, {12, 0, 0}}, ""},
    {"a key outside the alphabet", 2, 1, {{1, 0, 3, 3, 2}}, "53 2E 55 41 37", 20,
     {{7, 0, 0}, {7, 0, 0}}, ""},
    {"lab.rack", 2, 1, {{1, 0, 8, 0, 3}}, LAB_RACK, 20, {{7, 0, 0}, {7, 0, 0}}, ""},
    {"lab, then lab.rack", 2, 2, {{1, 0, 3, 0, 3}, {1, 0, 8, 0, 3}}, LAB_RACK, 40,
     {{7, 1, 0}, {7, 1, 0}}, ""},
    {"lab, then an empty key", 2, 2, {{1, 0, 3, 0, 3}, {1, 3, 0, 0, 3}}, LAB_RACK, 40,
     {{7, 1, 0}, {7, 1, 0}}, ""},
    {"FEh with the key lab.rack", 2, 1, {{0xFE, 0, 8, 4, 4}}, LAB_RACK, 20,
     {{14, 0, 0}, {0, 0, 16}}, "FE 08 " LAB_RACK " 04 72 61 63 6B 00"},
    {"FEh", 2, 2, {{1, 0, 3, 3, 2}, {0xFE, 0, 0, 0, 4}}, "53 4B 55 41 37", 20,
     {{14, 1, 0}, {0, 0, 16}}, "01 03 53 4B 55 02 41 37 FE 00 04 53 4B 55 41 00"},
    {"a key twice", 2, 2, {{1, 0, 1, 0, 0}, {1, 0, 1, 1, 1}}, "53 4B", 20,
     {{8, 1, 0}, {8, 1, 0}}, ""},
    {"D10: field by field", 2, 2, {{1, 0, 0, 0, 1}, {2, 0, 1, 0, 1}}, "53 4B 55 41 37", 20,
     {{7, 0, 0}, {7, 0, 0}}, ""},
    {"D10: 14 after a pool", 3, 2, {{1, 0, 0, 0, 2}, {0x20, 0, 0, 9, 9}}, "53 4B 55 41 37", 20,
     {{14, 1, 0}, {14, 1, 0}}, ""},
    {"D10: 13 after a pool", 3, 2, {{1, 0, 0, 0, 2}, {0x10, 0, 0, 9, 1}}, "53 4B 55 41 37", 20,
     {{13, 1, 0}, {13, 1, 0}}, ""},
    {"D10: 9 before 7", 3, 2, {{1, 0, 0, 0, 2}, {0x10, 0, 0, 0, 2}}, "53 4B 55 41 37", 20,
     {{9, 1, 0}, {9, 1, 0}}, ""},
    {"D10: a second pool", 3, 2, {{1, 0, 0, 0, 2}, {1, 0, 0, 0, 2}}, "53 4B 55 41 37", 20,
     {{9, 1, 0}, {9, 1, 0}}, ""},
    {"D10: a code that no entry has", 1, 1, {{250, 0, 0, 0, 2}}, "53 4B", 20,
     {{14, 0, 0}, {14, 0, 0}}, ""},
    {"D6: code 257", 1, 1, {{257, 0, 0, 0, 2}}, "53 4B", 20, {{14, 0, 0}, {14, 0, 0}}, ""},
    {"D11: FBOSS of no fields", 1, 0, {{0, 0, 0, 0, 0}}, "", 0, {{11, 0, 0}, {11, 0, 0}}, ""},
    {"D11: VPD of no fields", 2, 0, {{0, 0, 0, 0, 0}}, "", 3, {{0, 0, 1}, {0, 0, 1}}, "00"},
    {"D11: VPD of no fields, no room", 2, 0, {{0, 0, 0, 0, 0}}, "", 0,
     {{12, 0, 0}, {12, 0, 0}}, ""},
    {"D11: Tiny of no fields", 3, 0, {{0, 0, 0, 0, 0}}, "", 4, {{0, 0, 4}, {0, 0, 4}},
     "56 02 04 6F"},
    {"D11: Tiny of no fields, no room", 3, 0, {{0, 0, 0, 0, 0}}, "", 3,
     {{12, 0, 0}, {12, 0, 0}}, ""},
    {"D12: a pool of one byte", 3, 1, {{1, 0, 0, 0, 1}}, "C1", 9, {{0, 0, 7}, {0, 0, 7}},
     "56 02 07 01 01 C1 8F"},
    {"FBOSS, what is required", 1, 5,
     {{1, 9, 9, 3, 0}, {8, 0, 0, 0, 1}, {9, 0, 0, 1, 1}, {10, 0, 0, 2, 1}, {11, 0, 0, 0, 0}},
     "01 02 03", 23, {{0, 0, 21}, {0, 0, 21}},
     "FB FB 05 FF 01 00 08 01 01 09 01 02 0A 01 03 0B 00 FA 02 82 1E"},
    {"FBOSS with 17", 1, 6,
     {{1, 0, 0, 0, 0}, {8, 0, 0, 0, 1}, {9, 0, 0, 0, 1}, {10, 0, 0, 0, 1}, {11, 0, 0, 0, 0},
      {17, 0, 0, 1, 8}},
     "01 02 00 00 00 00 01 00 00", 31, {{14, 5, 0}, {0, 0, 31}},
     "FB FB 05 FF 01 00 08 01 01 09 01 01 0A 01 01 0B 00 11 08 02 00 00 00 00 01 00 00 FA 02 12 06"},
    {"FBOSS without 11", 1, 4,
     {{1, 0, 0, 0, 0}, {8, 0, 0, 0, 1}, {9, 0, 0, 1, 1}, {10, 0, 0, 2, 1}},
     "01 02 03", 0, {{11, 0, 0}, {11, 0, 0}}, ""},
    {"FBOSS: 29 February 2024", 1, 6, {FBOSS_FIELDS, {13, 0, 0, 3, 8}}, FBOSS_VALUES, 31,
     {{0, 0, 31}, {0, 0, 31}}, FBOSS_2024},
    {"FBOSS: 29 February 2024, no room", 1, 6, {FBOSS_FIELDS, {13, 0, 0, 3, 8}}, FBOSS_VALUES, 30,
     {{12, 0, 0}, {12, 0, 0}}, ""},
    {"FBOSS: 31 February", 1, 6, {FBOSS_FIELDS, {13, 0, 0, 11, 8}}, FBOSS_VALUES, 40,
     {{7, 5, 0}, {7, 5, 0}}, ""},
    {"FBOSS: 31 February, 7 before 12", 1, 6, {FBOSS_FIELDS, {13, 0, 0, 11, 8}}, FBOSS_VALUES, 0,
     {{7, 5, 0}, {7, 5, 0}}, ""},
    {"FBOSS: 31 February, 7 before 11", 1, 1, {{13, 0, 0, 11, 8}}, FBOSS_VALUES, 40,
     {{7, 0, 0}, {7, 0, 0}}, ""},
    {"FBOSS: a date over the end, 13 before 7", 1, 1, {{13, 0, 0, 12, 8}}, FBOSS_VALUES, 40,
     {{13, 0, 0}, {13, 0, 0}}, ""},
    {"FBOSS: 7 before 8", 1, 2, {{13, 0, 0, 3, 8}, {13, 0, 0, 11, 8}}, FBOSS_VALUES, 40,
     {{7, 1, 0}, {7, 1, 0}}, ""},
    {"FBOSS: 13 twice", 1, 2, {{13, 0, 0, 3, 8}, {13, 0, 0, 3, 8}}, FBOSS_VALUES, 40,
     {{8, 1, 0}, {8, 1, 0}}, ""},
    {"FBOSS: 8 at a field before no day", 1, 3,
     {{1, 0, 0, 0, 0}, {1, 0, 0, 0, 0}, {13, 0, 0, 11, 8}}, FBOSS_VALUES, 40,
     {{8, 1, 0}, {8, 1, 0}}, ""},
    {"ONIE of no fields", 4, 0, {{0, 0, 0, 0, 0}}, "", 20,
     {{16, 0, 0}, {0, 0, 17}}, ONIE "00 06 FE 04 D4 43 1C 18"},
    {"ONIE of no fields, exact room", 4, 0, {{0, 0, 0, 0, 0}}, "", 17,
     {{16, 0, 0}, {0, 0, 17}}, ONIE "00 06 FE 04 D4 43 1C 18"},
    {"ONIE of no fields, no room", 4, 0, {{0, 0, 0, 0, 0}}, "", 16, {{16, 0, 0}, {12, 0, 0}}, ""},
    {"ONIE, in list order", 4, 6,
     {{0x23, 0, 0, 0, 4}, {0xFD, 0, 0, 4, 4}, {0x2A, 0, 0, 8, 2}, {0xFD, 0, 0, 4, 8},
      {0x2C, 0, 0, 10, 2}, {0x21, 0, 0, 0, 0}},
     ONIE_VALUES, 49,
     {{16, 0, 0}, {0, 0, 49}},
     ONIE "00 26 23 04 4C 45 41 46 FD 04 00 00 1F 79 2A 02 00 03 FD 08 00 00 1F 79 00 03 43 5A "
     "2C 02 43 5A 21 00 FE 04 55 D6 32 A5"},
    {"ONIE, no room", 4, 6,
     {{0x23, 0, 0, 0, 4}, {0xFD, 0, 0, 4, 4}, {0x2A, 0, 0, 8, 2}, {0xFD, 0, 0, 4, 8},
      {0x2C, 0, 0, 10, 2}, {0x21, 0, 0, 0, 0}},
     ONIE_VALUES, 48,
     {{16, 0, 0}, {12, 0, 0}}, ""},
    {"ONIE: a key is not looked at", 4, 1, {{0x21, 99, 99, 0, 4}}, ONIE_VALUES, 30,
     {{16, 0, 0}, {0, 0, 23}}, ONIE "00 0C 21 04 4C 45 41 46 FE 04 80 01 04 E9"},
    {"ONIE: 26h", 4, 2, {{0x21, 0, 0, 0, 4}, {0x26, 0, 0, 0, 1}}, ONIE_VALUES, 30,
     {{16, 0, 0}, {14, 1, 0}}, ""},
    {"ONIE: code 00h", 4, 1, {{0x00, 0, 0, 0, 4}}, ONIE_VALUES, 30, {{16, 0, 0}, {14, 0, 0}}, ""},
    {"ONIE: code FEh", 4, 1, {{0xFE, 0, 0, 0, 4}}, ONIE_VALUES, 30, {{16, 0, 0}, {14, 0, 0}}, ""},
    {"ONIE: code FFh", 4, 2, {{0x21, 0, 0, 0, 4}, {0xFF, 0, 0, 0, 4}}, ONIE_VALUES, 30,
     {{16, 0, 0}, {14, 1, 0}}, ""},
    {"ONIE: code 121h", 4, 1, {{0x121, 0, 0, 0, 4}}, ONIE_VALUES, 30, {{16, 0, 0}, {14, 0, 0}}, ""},
    {"ONIE: 14 before 13", 4, 1, {{0x28, 0, 0, 13, 1}}, ONIE_VALUES, 30,
     {{16, 0, 0}, {14, 0, 0}}, ""},
    {"ONIE: 13 before 7", 4, 1, {{0x24, 0, 0, 13, 1}}, ONIE_VALUES, 30,
     {{16, 0, 0}, {13, 0, 0}}, ""},
    {"ONIE: an address of four bytes", 4, 2, {{0x21, 0, 0, 0, 4}, {0x24, 0, 0, 0, 4}},
     ONIE_VALUES, 40,
     {{16, 0, 0}, {7, 1, 0}}, ""},
    {"ONIE: FDh of three bytes", 4, 2, {{0xFD, 0, 0, 4, 4}, {0xFD, 0, 0, 4, 3}}, ONIE_VALUES, 40,
     {{16, 0, 0}, {7, 1, 0}}, ""},
    {"ONIE: a country of four bytes", 4, 1, {{0x2C, 0, 0, 0, 4}}, ONIE_VALUES, 40,
     {{16, 0, 0}, {7, 0, 0}}, ""},
    {"ONIE: 7 before 8", 4, 2, {{0x2C, 0, 0, 10, 2}, {0x2C, 0, 0, 8, 2}}, ONIE_VALUES, 40,
     {{16, 0, 0}, {7, 1, 0}}, ""},
    {"ONIE: 21h twice", 4, 3, {{0x21, 0, 0, 0, 4}, {0x22, 0, 0, 0, 4}, {0x21, 0, 0, 0, 1}},
     ONIE_VALUES, 60,
     {{16, 0, 0}, {8, 2, 0}}, ""},
    {"ONIE: field by field", 4, 3, {{0x21, 0, 0, 0, 4}, {0x21, 0, 0, 0, 1}, {0x26, 0, 0, 0, 1}},
     ONIE_VALUES, 60,
     {{16, 0, 0}, {8, 1, 0}}, ""},
    {"ONIE: a date", 4, 1, {{0x25, 0, 0, 0, 19}}, ONIE_DATE, 40, {{16, 0, 0}, {0, 0, 38}},
     ONIE_DATED},
    {"ONIE: 24 hours", 4, 1, {{0x25, 0, 0, 0, 19}}, ONIE_NO_DATE, 40, {{16, 0, 0}, {7, 0, 0}}, ""},
    {"ONIE: 24 hours, 7 before 12", 4, 1, {{0x25, 0, 0, 0, 19}}, ONIE_NO_DATE, 0,
     {{16, 0, 0}, {7, 0, 0}}, ""},
    {"ONIE: 24 hours, 7 before 8", 4, 2, {{0x25, 0, 0, 0, 19}, {0x25, 0, 0, 20, 19}},
     ONIE_DATE " 00 " ONIE_NO_DATE, 80, {{16, 0, 0}, {7, 1, 0}}, ""},
    {"format 0", 0, 0, {{0, 0, 0, 0, 0}}, "", 3, {{16, 0, 0}, {16, 0, 0}}, ""},
};

static void writes(void)
{
    size_t i, k;

    for (i = 0; i < sizeof write_cases / sizeof write_cases[0]; i++) {
        const struct write_case *c = &write_cases[i];
        struct outcome outcome = outcome_of(c->format, c->by_edition);
        struct lent fields = lend(c->count * BOARDID_FIELD_SIZE);
        struct lent cut = lend(c->count * BOARDID_FIELD_SIZE + BOARDID_FIELD_SIZE - 1);
        struct lent values = lend_hex(c->values), out = lend(c->out_length);

        for (k = 0; k < c->count; k++) {
            boardid_field_set(fields.bytes, k, c->fields[k]);
            boardid_field_set(cut.bytes, k, c->fields[k]);
        }
        expect_answer(boardid_write_image(c->format, fields.bytes, fields.length, values.bytes,
                                          values.length, out.bytes, out.length),
                      outcome, c->what);
        expect_output(out, outcome, c->image, c->what);
        memset(out.bytes, 0x5A, out.length);
        expect_answer(boardid_write_image(c->format, cut.bytes, cut.length, values.bytes,
                                          values.length, out.bytes, out.length),
                      outcome, c->what);
        expect_output(out, outcome, c->image, c->what);
        give_back(out);
        give_back(values);
        give_back(cut);
        give_back(fields);
    }
}

/* ---- Edits ---------------------------------------------------------------------------------- */

struct edit_case {
    const char *what;
    uint32_t format;
    const char *image;
    uint64_t n;
    const char *value;
    size_t out_length;
    struct outcome by_edition[2];
    const char *edited;
};

static const struct edit_case edit_cases[] = {
    {"SKU to B", 2, "01 03 53 4B 55 02 41 37 00", 0, "42", 10, {{0, 0, 8}, {0, 0, 8}},
     "01 03 53 4B 55 01 42 00"},
    {"SKU to B, no room", 2, "01 03 53 4B 55 02 41 37 00", 0, "42", 7, {{12, 0, 0}, {12, 0, 0}},
     ""},
    {"SKU to nothing", 2, "01 03 53 4B 55 02 41 37 00", 0, "", 7, {{0, 0, 7}, {0, 0, 7}},
     "01 03 53 4B 55 00 00"},
    {"D2: the key's length stays", 2, "01 80 03 53 4B 55 80 02 41 37 00", 0, "42", 11,
     {{0, 0, 9}, {0, 0, 9}}, "01 80 03 53 4B 55 01 42 00"},
    {"D13: an end FFh", 2, "01 03 53 4B 55 02 41 37 FF AA BB", 0, "42", 8,
     {{0, 0, 8}, {0, 0, 8}}, "01 03 53 4B 55 01 42 00"},
    {"D13: no room", 2, "01 03 53 4B 55 02 41 37 FF AA BB", 0, "42", 7,
     {{12, 0, 0}, {12, 0, 0}}, ""},
    {"D13: no entry 1", 2, "01 03 53 4B 55 02 41 37 FF AA BB", 1, "42", 8,
     {{13, 0, 0}, {13, 0, 0}}, ""},
    {"D13: the image's own first", 2, "01 00 00 00", 5, "42", 8, {{7, 0, 0}, {7, 0, 0}}, ""},
    {"D13: FEh to three bytes", 2, "01 03 53 4B 55 02 41 37 FE 00 04 01 02 03 04 00", 1,
     "01 02 03", 20, {{14, 8, 0}, {7, 8, 0}}, ""},
    {"FEh to four bytes", 2, "01 03 53 4B 55 02 41 37 FE 00 04 01 02 03 04 00", 1, "05 06 07 08",
     20, {{14, 8, 0}, {0, 0, 16}}, "01 03 53 4B 55 02 41 37 FE 00 04 05 06 07 08 00"},
    {"what is not named stays", 2, "01 03 53 4B 55 02 41 37 FE 80 00 80 04 01 02 03 04 00", 0, "",
     20, {{0, 0, 16}, {0, 0, 16}}, "01 03 53 4B 55 00 FE 80 00 80 04 01 02 03 04 00"},
    {"lab.rack to B", 2, NAMES, 0, "42", 30, {{0, 0, 28}, {0, 0, 28}},
     "01 80 08 " LAB_RACK " 01 42 FE 01 22 04 01 02 03 04 01 03 22 00 FF 00 00"},
    {"lab.rack to B, no room", 2, NAMES, 0, "42", 27, {{12, 0, 0}, {12, 0, 0}}, ""},
    {"FEh with the key 22h", 2, NAMES, 1, "05 06 07 08", 40, {{14, 15, 0}, {0, 0, 30}},
     "01 80 08 " LAB_RACK " 03 52 30 37 FE 01 22 04 05 06 07 08 01 03 22 00 FF 00 00"},
    {"key 22h 00h FFh", 2, NAMES, 2, "58", 31, {{0, 0, 31}, {0, 0, 31}},
     "01 80 08 " LAB_RACK " 03 52 30 37 FE 01 22 04 01 02 03 04 01 03 22 00 FF 01 58 00"},
    {"SKU beside lab.rack", 2, "01 08 " LAB_RACK " 00 01 03 53 4B 55 02 41 37 00", 1, "42", 20,
     {{0, 0, 19}, {0, 0, 19}}, "01 08 " LAB_RACK " 00 01 03 53 4B 55 01 42 00"},
    {"D12: a pool", 3, "56 02 07 01 01 C1 8F", 0, "41 C2", 8, {{0, 0, 8}, {0, 0, 8}},
     "56 02 08 01 02 41 C2 DF"},
    {"Tiny: another length than the tag's", 3, "56 02 06 10 07 A2", 0, "00 00", 20,
     {{7, 3, 0}, {7, 3, 0}}, ""},
    {"FBOSS: a number of two bytes", 1,
     "FB FB 05 FF 01 00 08 01 01 09 01 02 0A 01 03 0B 00 FA 02 82 1E", 1, "01 02", 40,
     {{7, 6, 0}, {7, 6, 0}}, ""},
    {"FBOSS: 17",
     1,
     "FB FB 05 FF 01 00 08 01 01 09 01 01 0A 01 01 0B 00 11 08 02 00 00 00 00 01 00 01 FA 02 02 27",
     5,
     "02 00 00 00 00 01 00 00",
     40,
     {{14, 17, 0}, {0, 0, 31}},
     "FB FB 05 FF 01 00 08 01 01 09 01 01 0A 01 01 0B 00 11 08 02 00 00 00 00 01 00 00 FA 02 12 06"},
    {"FBOSS: 13 to 29 February 2024", 1, FBOSS_2023, 5, "32 30 32 34 30 32 32 39", 31,
     {{0, 0, 31}, {0, 0, 31}}, FBOSS_2024},
    {"FBOSS: 13 to 29 February 2024, no room", 1, FBOSS_2023, 5, "32 30 32 34 30 32 32 39", 30,
     {{12, 0, 0}, {12, 0, 0}}, ""},
    {"FBOSS: 13 to 29 February 2023", 1, FBOSS_2023, 5, "32 30 32 33 30 32 32 39", 40,
     {{7, 17, 0}, {7, 17, 0}}, ""},
    {"FBOSS: 13 to 29 February 2023, 7 before 12", 1, FBOSS_2023, 5, "32 30 32 33 30 32 32 39", 0,
     {{7, 17, 0}, {7, 17, 0}}, ""},
    {"FBOSS: a number beside 31 February", 1, FBOSS_NO_DAY, 1, "02", 40,
     {{7, 17, 0}, {7, 17, 0}}, ""},
    {"FBOSS: 31 February to a day", 1, FBOSS_NO_DAY, 5, "32 30 32 33 30 32 32 38", 40,
     {{7, 17, 0}, {7, 17, 0}}, ""},
    {"FBOSS: 31 February, 7 before 13", 1, FBOSS_NO_DAY, 6, "", 40, {{7, 17, 0}, {7, 17, 0}}, ""},
    {"ONIE: 21h to BC", 4, ONIE_FOUR, 0, "42 43", 39, {{16, 0, 0}, {0, 0, 37}},
     ONIE "00 1A 21 02 42 43 26 01 01 FD 04 00 00 1F 79 FD 05 00 00 1F 79 00 FE 04 F2 84 47 08"},
    {"ONIE: 21h to BC, no room", 4, ONIE_FOUR, 0, "42 43", 36, {{16, 0, 0}, {12, 0, 0}}, ""},
    {"ONIE: 21h to nothing", 4, ONIE_FOUR, 0, "", 36, {{16, 0, 0}, {0, 0, 35}},
     ONIE "00 18 21 00 26 01 01 FD 04 00 00 1F 79 FD 05 00 00 1F 79 00 FE 04 94 34 0D E9"},
    {"ONIE: 21h to 1Fh", 4, ONIE_FOUR, 0, "1F", 60, {{16, 0, 0}, {7, 11, 0}}, ""},
    {"ONIE: 26h", 4, ONIE_FOUR, 1, "02", 60, {{16, 0, 0}, {14, 14, 0}}, ""},
    {"ONIE: 26h, 14 before 12", 4, ONIE_FOUR, 1, "02", 0, {{16, 0, 0}, {14, 14, 0}}, ""},
    {"ONIE: the first FDh", 4, ONIE_FOUR, 2, "01 02 03 04 05 06", 60, {{16, 0, 0}, {0, 0, 38}},
     ONIE "00 1B 21 01 41 26 01 01 FD 06 01 02 03 04 05 06 FD 05 00 00 1F 79 00 FE 04 2A 6E A5 5C"},
    {"ONIE: the second FDh", 4, ONIE_FOUR, 3, "01 02 03 04", 60, {{16, 0, 0}, {0, 0, 35}},
     ONIE "00 18 21 01 41 26 01 01 FD 04 00 00 1F 79 FD 04 01 02 03 04 FE 04 13 F7 1D 91"},
    {"ONIE: FDh to three bytes", 4, ONIE_FOUR, 3, "01 02 03", 60, {{16, 0, 0}, {7, 23, 0}}, ""},
    {"ONIE: no entry 4", 4, ONIE_FOUR, 4, "01", 60, {{16, 0, 0}, {13, 0, 0}}, ""},
    {"ONIE: what follows the end goes", 4,
     ONIE "00 0A 2C 02 43 5A FE 04 89 F1 86 1C AA BB", 0, "44 45", 24,
     {{16, 0, 0}, {0, 0, 21}}, ONIE "00 0A 2C 02 44 45 FE 04 03 5C 5A E8"},
    {"ONIE: a country to three letters", 4,
     ONIE "00 0A 2C 02 43 5A FE 04 89 F1 86 1C AA BB", 0, "43 5A 45", 24,
     {{16, 0, 0}, {7, 11, 0}}, ""},
    {"ONIE: 25h to a date", 4,
     ONIE "00 1B 25 13 30 32 2F 30 33 2F 32 30 32 34 20 30 34 3A 30 35 3A 30 36 FE 04 46 49 5E D1",
     0, ONIE_DATE, 40, {{16, 0, 0}, {0, 0, 38}}, ONIE_DATED},
    {"ONIE: 25h to 24 hours", 4, ONIE_DATED, 0, ONIE_NO_DATE, 40, {{16, 0, 0}, {7, 11, 0}}, ""},
    {"ONIE: 25h to 24 hours, 7 before 12", 4, ONIE_DATED, 0, ONIE_NO_DATE, 0,
     {{16, 0, 0}, {7, 11, 0}}, ""},
    {"ONIE: 24 hours to a date", 4, ONIE_MISDATED, 0, ONIE_DATE, 40, {{16, 0, 0}, {7, 11, 0}}, ""},
    {"ONIE: no entries", 4, ONIE "00 06 FE 04 D4 43 1C 18", 0, "", 40,
     {{16, 0, 0}, {13, 0, 0}}, ""},
};

static void edits(void)
{
    size_t i;

    for (i = 0; i < sizeof edit_cases / sizeof edit_cases[0]; i++) {
        const struct edit_case *c = &edit_cases[i];
        struct outcome outcome = outcome_of(c->format, c->by_edition);
        struct lent image = lend_hex(c->image), before = lend_copy(image.bytes, image.length);
        struct lent value = lend_hex(c->value), out = lend(c->out_length);

        expect_answer(boardid_edit_entry(c->format, image.bytes, image.length, c->n, value.bytes,
                                         value.length, out.bytes, out.length),
                      outcome, c->what);
        expect_output(out, outcome, c->edited, c->what);
        expect(same_bytes(image, before), c->what);
        give_back(out);
        give_back(value);
        give_back(before);
        give_back(image);
    }
}

/* ---- Keys ----------------------------------------------------------------------------------- */

/* Each byte as a key: every one is read and kept by an edit, and the alphabet's are written. */
static void key_bytes(void)
{
    static const struct boardid_field whole = {BOARDID_VPD_STRING, 2, 1, 4, 1};
    struct lent image = lend_hex("01 01 00 01 42 00"), out = lend(image.length);
    struct lent field = lend(BOARDID_FIELD_SIZE);
    uint64_t answer;
    int byte;

    boardid_field_set(field.bytes, 0, whole);
    for (byte = 0; byte < 256; byte++) {
        image.bytes[2] = (uint8_t)byte;
        expect_count(boardid_check_image(2, image.bytes, image.length), 1, "any key is read");
        answer = boardid_edit_entry(2, image.bytes, image.length, 0, image.bytes + 4, 1, out.bytes,
                                    out.length);
        expect_count(answer, 6, "any key is edited");
        expect(same_bytes(out, image), "an edit keeps any key");

        memset(out.bytes, 0x5A, out.length);
        answer = boardid_write_image(2, field.bytes, field.length, image.bytes, image.length,
                                     out.bytes, out.length);
        if (of_alphabet(image.bytes + 2, 1)) {
            expect_count(answer, 6, "a key of the alphabet is written");
            expect(same_bytes(out, image), "a key of the alphabet is written as it is");
        } else {
            expect_refused(answer, 7, 0, "a key outside the alphabet is not written");
            expect(all_are(out, 0, 0x5A), "a key outside the alphabet leaves the output");
        }
    }
    give_back(field);
    give_back(out);
    give_back(image);
}

/* The most keys that an image can have: each byte alone, then as many of two bytes as there fit. */
static void most_keys(void)
{
    const uint32_t count = 13158;
    struct lent image = lend(BOARDID_IMAGE_MAX);
    uint8_t *at = image.bytes;
    uint32_t n;

    memset(image.bytes, 0, image.length);
    for (n = 0; n < count; n++) {
        at[0] = BOARDID_VPD_STRING;
        at[1] = n < 256 ? 1 : 2;
        at[2] = (uint8_t)n;
        at[3] = (uint8_t)(n >> 8); /* the second byte of the key, or the value's length, 0 */
        at += at[1] + 3;
    }
    expect_count(boardid_check_image(2, image.bytes, image.length), count, "13,158 keys");
#if BOARDID_EDITION >= 4
    {
        struct lent records = lend((size_t)count * BOARDID_RECORD_SIZE);

        expect_count(boardid_list_entries(2, image.bytes, image.length, records.bytes,
                                          records.length),
                     count, "a list of 13,158 keys");
        frames_tile(2, image, records.bytes, count, "13,158 frames");
        give_back(records);
    }
#endif
    at[-2] = 1; /* a key that has come before */
    expect_refused(boardid_check_image(2, image.bytes, image.length), 8, 65529,
                   "13,158 keys, the last a second time");
    give_back(image);
}

/* ---- Sizes ---------------------------------------------------------------------------------- */

/* An edit of a one-byte pool to a pool of a length: the answer of D12. */
static void pool_of(size_t length, struct outcome outcome, const char *what)
{
    struct lent image = lend_hex("56 02 07 01 01 C1 8F"), value = lend(length), out = lend(300);
    uint64_t answer;

    memset(value.bytes, 0x41, value.length);
    answer = boardid_edit_entry(3, image.bytes, image.length, 0, value.bytes, value.length,
                                out.bytes, out.length);
    expect_answer(answer, outcome, what);
    if (outcome.number != 0) {
        expect(all_are(out, 0, 0x5A), what);
    } else {
        expect_count(boardid_check_image(3, out.bytes, out.length), 1, what);
        expect(all_are(out, outcome.count, 0xFF), what);
    }
    give_back(out);
    give_back(value);
    give_back(image);
}

/* A write of one VPD value of a length into the longest output: the answer of D9. */
static void value_of(size_t length, struct outcome outcome, const char *what)
{
    static const uint8_t start[] = {0x01, 0x01, 0x41, 0x83, 0xFF, 0x79};
    struct lent values = lend(length), out = lend(BOARDID_IMAGE_MAX), field = lend(20);
    struct boardid_field whole = {BOARDID_VPD_STRING, 0, 1, 0, 0};

    memset(values.bytes, 0x41, values.length);
    whole.value_length = (uint32_t)length;
    boardid_field_set(field.bytes, 0, whole);
    expect_answer(boardid_write_image(2, field.bytes, field.length, values.bytes, values.length,
                                      out.bytes, out.length),
                  outcome, what);
    if (outcome.number != 0) {
        expect(all_are(out, 0, 0x5A), what);
    } else {
        expect(memcmp(out.bytes, start, sizeof start) == 0, what);
        expect_number(out.bytes[BOARDID_IMAGE_MAX - 1], 0, what);
        expect_count(boardid_check_image(2, out.bytes, out.length), 1, what);
    }
    give_back(field);
    give_back(out);
    give_back(values);
}

static void sizes(void)
{
    static const struct outcome pools[] = {{0, 0, 255}, {12, 0, 0}, {12, 0, 0}, {7, 3, 0}};
    static const struct outcome values[] = {{0, 0, 65536}, {12, 0, 0}};
    struct lent image = lend((size_t)BOARDID_IMAGE_MAX + 1), out, value;

    /* The longest images. */
    memset(image.bytes, 0, image.length);
    expect_count(boardid_check_image(2, image.bytes, image.length - 1), 0, "D5: 65,536 bytes");
    expect_refused(boardid_check_image(2, image.bytes, image.length), 2, 0, "D5: 65,537 bytes");
    expect_refused(boardid_check_image(1, image.bytes, image.length), 2, 0, "2 before 3");
    expect_refused(boardid_edit_entry(1, image.bytes, 1, 0, NULL, 0, image.bytes + 1, 0), 3, 0,
                   "an image of one byte");
    out = lend((size_t)BOARDID_IMAGE_MAX + 1);
    expect_refused(boardid_edit_entry(1, image.bytes, 1, 0, NULL, 0, out.bytes, out.length), 2, 0,
                   "D5: an output of 65,537 bytes");
    expect_refused(boardid_write_image(2, NULL, 0, NULL, 0, out.bytes, out.length), 2, 0,
                   "a write into 65,537 bytes");
    expect(all_are(out, 0, 0x5A), "an output that is too long stays");
    expect_count(boardid_write_image(2, NULL, 0, NULL, 0, out.bytes, out.length - 1), 1,
                 "a write into 65,536 bytes");
    expect_number(out.bytes[BOARDID_IMAGE_MAX], 0x5A, "a byte that is not lent");
    give_back(out);

    /* A value, a field list and records may have any length. */
    value = lend(70000);
    out = lend(100);
    expect_count(boardid_check_image(2, (const uint8_t *)"\1\1A\0\0", 5), 1, "an empty value");
    expect_refused(boardid_edit_entry(2, (const uint8_t *)"\1\1A\0\0", 5, 0, value.bytes,
                                      value.length, out.bytes, out.length),
                   12, 0, "a value of 70,000 bytes");
    give_back(out);
    give_back(value);

    pool_of(249, pools[0], "D12: a pool of 249 bytes");
    pool_of(250, pools[1], "D12: a pool of 250 bytes");
    pool_of(255, pools[2], "D12: a pool of 255 bytes");
    pool_of(256, pools[3], "D12: a pool of 256 bytes");
    value_of(65529, values[0], "D9: a value of 65,529 bytes");
    value_of(65530, values[1], "D9: a value of 65,530 bytes");
    give_back(image);
}

/* The most entries that an image can have: code 99 with no value, again and again. */
static void most_entries(void)
{
    static const uint8_t start[] = {0xFB, 0xFB, 0x05, 0xFF, 0x01, 0x00, 0x08, 0x01, 0x01,
                                    0x09, 0x01, 0x02, 0x0A, 0x01, 0x03, 0x0B, 0x00};
    static const uint8_t end[] = {0xFA, 0x02, 0x07, 0xA1, 0xFF}, two[] = {2};
    const size_t count = 32762;
    struct lent image = lend(BOARDID_IMAGE_MAX), edited = lend(BOARDID_IMAGE_MAX);
    struct lent records = lend(count * BOARDID_RECORD_SIZE);
    size_t i;

    memcpy(image.bytes, start, sizeof start);
    for (i = sizeof start; i < image.length - sizeof end; i += 2) {
        image.bytes[i] = 99;
        image.bytes[i + 1] = 0;
    }
    memcpy(image.bytes + i, end, sizeof end);
    expect_count(boardid_check_image(1, image.bytes, image.length), (uint32_t)count,
                 "32,762 entries");
    expect_count(boardid_list_entries(1, image.bytes, image.length, records.bytes, records.length),
                 (uint32_t)count, "a list of 32,762 entries");
    expect_number(boardid_record_at(records.bytes, count - 1).code, 99, "the last entry");
    expect_number(boardid_record_at(records.bytes, count - 1).place, i - 2, "its place");
#if BOARDID_EDITION >= 4
    frames_tile(1, image, records.bytes, (uint32_t)count, "32,762 frames");
#endif
    expect_count(boardid_edit_entry(1, image.bytes, image.length, 1, two, sizeof two, edited.bytes,
                                    edited.length),
                 65535, "an edit among 32,762 entries");
    expect_count(boardid_list_entries(1, edited.bytes, edited.length, records.bytes,
                                      records.length),
                 (uint32_t)count, "32,762 entries after an edit");
#if BOARDID_EDITION >= 4
    frames_tile(1, edited, records.bytes, (uint32_t)count, "32,762 frames after an edit");
#endif
    give_back(records);
    give_back(edited);
    give_back(image);
}

#if BOARDID_EDITION >= 3
/* Puts ONIE's header with a length at the front of an image. */
static void onie_header(struct lent image, uint32_t length)
{
    struct lent start = lend_hex(ONIE);

    memcpy(image.bytes, start.bytes, start.length);
    image.bytes[9] = (uint8_t)(length >> 8);
    image.bytes[10] = (uint8_t)length;
    give_back(start);
}

/* Puts ONIE's end with a check at a place of an image. */
static void onie_end(struct lent image, size_t place, uint32_t check)
{
    image.bytes[place] = 0xFE;
    image.bytes[place + 1] = 4;
    image.bytes[place + 2] = (uint8_t)(check >> 24);
    image.bytes[place + 3] = (uint8_t)(check >> 16);
    image.bytes[place + 4] = (uint8_t)(check >> 8);
    image.bytes[place + 5] = (uint8_t)check;
}

/* The longest ONIE image has a length of 2,048, here of as many entries as can be: 1,021. */
static void onie_lengths(void)
{
    struct lent image = lend(2060), records = lend(1021 * BOARDID_RECORD_SIZE);
    size_t i;

    for (i = 11; i < 2053; i += 2) {
        image.bytes[i] = 0x63;
        image.bytes[i + 1] = 0;
    }
    onie_header(image, 2048);
    onie_end(image, 2053, 0x87E6BB60);
    expect_count(boardid_check_image(4, image.bytes, image.length), 1021, "ONIE: 1,021 entries");
    expect_count(boardid_list_entries(4, image.bytes, 2059, records.bytes, records.length), 1021,
                 "ONIE: a list of 1,021 entries");
    expect_number(boardid_record_at(records.bytes, 1020).place, 2051, "ONIE: the last entry");
#if BOARDID_EDITION >= 4
    frames_tile(4, image, records.bytes, 1021, "ONIE: 1,021 frames");
#endif
    expect_refused(boardid_check_image(4, image.bytes, 2058), 5, 9, "ONIE: a byte too few");
    image.bytes[2058]++;
    expect_refused(boardid_check_image(4, image.bytes, 2059), 10, 2055, "ONIE: the last byte");

    /* One byte more: a first entry of one byte. Everything but the length is right. */
    image.bytes[12] = 1;
    image.bytes[13] = 0;
    for (i = 14; i < 2054; i += 2) {
        image.bytes[i] = 0x63;
        image.bytes[i + 1] = 0;
    }
    onie_header(image, 2049);
    onie_end(image, 2054, 0x62C15057);
    expect_refused(boardid_check_image(4, image.bytes, image.length), 5, 9,
                   "ONIE: a length of 2,049");
    give_back(records);
    give_back(image);
}

/* Writes and edits around the longest ONIE image: eight FDh, all of 255 bytes but the last. */
static void onie_room(void)
{
    struct lent fields = lend(8 * BOARDID_FIELD_SIZE), values = lend(256), out = lend(70), image;
    struct boardid_field field = {0xFD, 0, 0, 0, 255};
    struct lent longest = lend(BOARDID_IMAGE_MAX), end = lend(6);
    uint32_t k;

    memset(values.bytes, 0x41, values.length);
    for (k = 0; k < 7; k++) {
        boardid_field_set(fields.bytes, k, field);
    }
    field.value_length = 242;
    boardid_field_set(fields.bytes, 7, field);
    expect_refused(boardid_write_image(4, fields.bytes, fields.length, values.bytes, values.length,
                                       longest.bytes, longest.length),
                   12, 0, "ONIE: a write of length 2,049");
    expect(all_are(longest, 0, 0x5A), "ONIE: a write that is too long leaves the output");
    field.value_length = 241;
    boardid_field_set(fields.bytes, 7, field);
    expect_refused(boardid_write_image(4, fields.bytes, fields.length, values.bytes, values.length,
                                       longest.bytes, 2058),
                   12, 0, "ONIE: a write into 2,058 bytes");
    expect_count(boardid_write_image(4, fields.bytes, fields.length, values.bytes, values.length,
                                     longest.bytes, longest.length),
                 2059, "ONIE: a write of length 2,048");
    onie_end(end, 0, 0xD2DAF907);
    expect(memcmp(longest.bytes + 2053, end.bytes, end.length) == 0, "ONIE: the end as written");
    expect(all_are(longest, 2059, 0xFF), "ONIE: FFh after the longest image");
    expect_count(boardid_check_image(4, longest.bytes, longest.length), 8, "ONIE: it is read");

    /* The new value of the last entry may not grow. */
    image = lend_copy(longest.bytes, 2059);
    memset(longest.bytes, 0x5A, longest.length);
    expect_refused(boardid_edit_entry(4, image.bytes, image.length, 7, values.bytes, 242,
                                      longest.bytes, longest.length),
                   12, 0, "ONIE: an edit to length 2,049");
    expect_refused(boardid_edit_entry(4, image.bytes, image.length, 7, values.bytes, 256,
                                      longest.bytes, longest.length),
                   7, 1810, "ONIE: an edit to 256 bytes, 7 before 12");
    expect(all_are(longest, 0, 0x5A), "ONIE: a refused edit leaves the output");
    expect_count(boardid_edit_entry(4, image.bytes, image.length, 7, values.bytes, 241,
                                    longest.bytes, longest.length),
                 2059, "ONIE: an edit to length 2,048");
    expect(memcmp(longest.bytes, image.bytes, image.length) == 0, "ONIE: an edit to what was");
    expect_count(boardid_edit_entry(4, image.bytes, image.length, 0, values.bytes, 4, longest.bytes,
                                    longest.length),
                 1808, "ONIE: an edit that makes it shorter");
    give_back(image);

    /* A text of 255 bytes is the longest; 256 break the rule, whatever the room. */
    field.code = 0x21;
    field.value_length = 256;
    boardid_field_set(fields.bytes, 0, field);
    expect_refused(boardid_write_image(4, fields.bytes, BOARDID_FIELD_SIZE, values.bytes,
                                       values.length, out.bytes, out.length),
                   7, 0, "ONIE: a text of 256 bytes");
    field.value_length = 255;
    boardid_field_set(fields.bytes, 0, field);
    expect_refused(boardid_write_image(4, fields.bytes, BOARDID_FIELD_SIZE, values.bytes,
                                       values.length, out.bytes, out.length),
                   12, 0, "ONIE: a text of 255 bytes, no room");
    expect_count(boardid_write_image(4, fields.bytes, BOARDID_FIELD_SIZE, values.bytes,
                                     values.length, longest.bytes, longest.length),
                 274, "ONIE: a text of 255 bytes");
    give_back(end);
    give_back(longest);
    give_back(out);
    give_back(values);
    give_back(fields);
}
#endif

int main(void)
{
    images();
    records();
    strings();
    cut_walks();
    editions();
    writes();
    edits();
    key_bytes();
    most_keys();
    sizes();
    most_entries();
#if BOARDID_EDITION >= 3
    onie_lengths();
    onie_room();
#endif
    return expectations_met("calls");
}
