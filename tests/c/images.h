/*
 * Images, and bytes that they are written from, in hexadecimal, and the alphabet of VPD keys, which
 * several test programs use.
 */
#ifndef IMAGES_H
#define IMAGES_H

#include <stddef.h>
#include <stdint.h>
#include <string.h>

/* Whether a VPD 01h with this key is written and added: its bytes are a-z, A-Z, 0-9 and _. */
static inline int of_alphabet(const uint8_t *key, size_t length)
{
    static const char alphabet[] = "abcdefghijklmnopqrstuvwxyz"
                                   "ABCDEFGHIJKLMNOPQRSTUVWXYZ0123456789_";
    size_t i;

    for (i = 0; i < length; i++) {
        if (memchr(alphabet, key[i], sizeof alphabet - 1) == NULL) {
            return 0;
        }
    }
    return length != 0;
}

/* The key "lab.rack", which is read and is not written. */
#define LAB_RACK "6C 61 62 2E 72 61 63 6B"

/* A VPD image with the keys lab.rack, its length in two bytes, 22h of an FEh, and 22h 00h FFh. */
#define NAMES "01 80 08 " LAB_RACK " 03 52 30 37 FE 01 22 04 01 02 03 04 01 03 22 00 FF 00 FF AA"

/* ONIE's magic and version; the length, the entries and the end follow. */
#define ONIE "54 6C 76 49 6E 66 6F 00 01 "

/* What FBOSS images are written from: at 0 the bytes 1, 2 and 3, at 3 20240229, at 11 20230231. */
#define FBOSS_VALUES "01 02 03 32 30 32 34 30 32 32 39 32 30 32 33 30 32 33 31"

/* What is required of FBOSS, as fields of these values, and as the start of an image. */
#define FBOSS_FIELDS \
    {1, 0, 0, 0, 0}, {8, 0, 0, 0, 1}, {9, 0, 0, 1, 1}, {10, 0, 0, 2, 1}, {11, 0, 0, 0, 0}
#define FBOSS_START "FB FB 05 FF 01 00 08 01 01 09 01 02 0A 01 03 0B 00 "

/* FBOSS images with the dates 20230228 and 20240229, and one with 20230231. */
#define FBOSS_2023 FBOSS_START "0D 08 32 30 32 33 30 32 32 38 FA 02 3E 74"
#define FBOSS_2024 FBOSS_START "0D 08 32 30 32 34 30 32 32 39 FA 02 49 81"
#define FBOSS_NO_DAY FBOSS_START "0D 08 32 30 32 33 30 32 33 31 FA 02 9C 6C"

/* Values of ONIE 25h, 12/31/2024 23:59:59 and 12/31/2024 24:00:00, and an image with each. */
#define ONIE_DATE "31 32 2F 33 31 2F 32 30 32 34 20 32 33 3A 35 39 3A 35 39"
#define ONIE_NO_DATE "31 32 2F 33 31 2F 32 30 32 34 20 32 34 3A 30 30 3A 30 30"
#define ONIE_DATED ONIE "00 1B 25 13 " ONIE_DATE " FE 04 9E C5 75 CD"
#define ONIE_MISDATED ONIE "00 1B 25 13 " ONIE_NO_DATE " FE 04 B7 9C AD D6"

/* What ONIE images are written from: at 0 LEAF, at 4 an enterprise number, at 8 a 3, at 10 CZ. */
#define ONIE_VALUES "4C 45 41 46 00 00 1F 79 00 03 43 5A"

/* An ONIE image of four entries: 21h, 26h, which no edition names, and FDh twice. */
#define ONIE_FOUR \
    ONIE "00 19 21 01 41 26 01 01 FD 04 00 00 1F 79 FD 05 00 00 1F 79 00 FE 04 0F 05 E4 95"

#endif
