/* The checks of FBOSS v5, Tiny and ONIE, bit by bit, for test programs that put images together. */
#ifndef CHECKS_H
#define CHECKS_H

#include <stddef.h>
#include <stdint.h>

/* FBOSS v5: 16 bits, polynomial 1021h, start 1D0Fh, high bit first, no final change. */
static inline uint32_t check16_of(const uint8_t *bytes, size_t length)
{
    uint32_t check = 0x1D0F;
    size_t i;
    int bit;

    for (i = 0; i < length; i++) {
        check ^= (uint32_t)bytes[i] << 8;
        for (bit = 0; bit < 8; bit++) {
            check = (check & 0x8000) != 0 ? (check << 1 ^ 0x1021) & 0xFFFF : check << 1;
        }
    }
    return check;
}

/* Tiny: 8 bits, polynomial 07h, start 0, high bit first, no final change. */
static inline uint32_t check8_of(const uint8_t *bytes, size_t length)
{
    uint32_t check = 0;
    size_t i;
    int bit;

    for (i = 0; i < length; i++) {
        check ^= bytes[i];
        for (bit = 0; bit < 8; bit++) {
            check = (check & 0x80) != 0 ? (check << 1 ^ 0x07) & 0xFF : check << 1;
        }
    }
    return check;
}

/* ONIE: the CRC-32 of IEEE 802.3. */
static inline uint32_t check32_of(const uint8_t *bytes, size_t length)
{
    uint32_t check = 0xFFFFFFFF;
    size_t i;
    int bit;

    for (i = 0; i < length; i++) {
        check ^= bytes[i];
        for (bit = 0; bit < 8; bit++) {
            check = (check & 1) != 0 ? check >> 1 ^ 0xEDB88320 : check >> 1;
        }
    }
    return check ^ 0xFFFFFFFF;
}

/* Puts a check of four bytes, high byte first. */
static inline void put_check32(uint8_t *bytes, uint32_t check)
{
    bytes[0] = (uint8_t)(check >> 24);
    bytes[1] = (uint8_t)(check >> 16);
    bytes[2] = (uint8_t)(check >> 8);
    bytes[3] = (uint8_t)check;
}

#endif
