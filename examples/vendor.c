/*
 * vendor: prints the vendor payload of an amplifier's image file as a person would read it.
 *
 *     vendor FILE
 *
 * The image is an ONIE image. The payload lies in its vendor extensions, in one or in several, and
 * has the serial number of a USB-UART chip and the calibration of a dual-band amplifier. To compile
 * this program takes a header of edition 3 or later, of version 3.1 or later.
 *
 * One line gives the file, the edition of the header, and how long the payload is; then come the
 * serial number and eight offsets in decibels. The serial number may be any bytes, and is printed
 * in quotes as the example list prints text.
 *
 * Exit status: 0 printed, 1 the library refused the image, 2 a wrong command line, 3 the file could
 * not be read or what it says not be written.
 */
#include "image_file.h"

/* The names that the vendor's document gives to the offsets. */
static const char *const offset_names[BOARDID_VENDOR_OFFSETS] = {
    [BOARDID_VENDOR_C_BAND_WEST_IN] = "C-band west in",
    [BOARDID_VENDOR_C_BAND_WEST_OUT] = "C-band west out",
    [BOARDID_VENDOR_C_BAND_EAST_IN] = "C-band east in",
    [BOARDID_VENDOR_C_BAND_EAST_OUT] = "C-band east out",
    [BOARDID_VENDOR_L_BAND_WEST_IN] = "L-band west in",
    [BOARDID_VENDOR_L_BAND_WEST_OUT] = "L-band west out",
    [BOARDID_VENDOR_L_BAND_EAST_IN] = "L-band east in",
    [BOARDID_VENDOR_L_BAND_EAST_OUT] = "L-band east out",
};

/* Prints an offset, which counts tenths of a decibel. */
static void print_offset(const char *name, int32_t offset)
{
    long tenths = offset < 0 ? -(long)offset : (long)offset;

    printf("  %s %c%ld.%ld dB\n", name, offset < 0 ? '-' : '+', tenths / 10, tenths % 10);
}

/* Prints the payload of an image; returns the exit status. */
static int vendor(const char *path, const struct image_file *image)
{
    uint8_t payload[BOARDID_VENDOR_PAYLOAD_MAX], bytes[BOARDID_VENDOR_BLOCK_SIZE];
    uint64_t answer = boardid_vendor_read_payload(image->bytes, image->length, payload,
                                                  sizeof payload, bytes, sizeof bytes);
    struct boardid_vendor_block block;
    size_t k;

    if (boardid_answer_number(answer) != 0) {
        report_refusal("vendor", path, answer);
        return REFUSED;
    }
    block = boardid_vendor_block_at(bytes);
    printf("%s: vendor payload, edition %d, %lu bytes\n", path, BOARDID_EDITION,
           (unsigned long)boardid_answer_count(answer));
    printf("  serial number ");
    print_text(payload + block.serial_place, block.serial_length);
    printf("\n");
    for (k = 0; k < BOARDID_VENDOR_OFFSETS; k++) {
        print_offset(offset_names[k], block.offsets[k]);
    }
    if (fflush(stdout) != 0 || ferror(stdout)) {
        fprintf(stderr, "vendor: the payload could not be written: %s\n", strerror(errno));
        return FAILED;
    }
    return DONE;
}

int main(int argc, char **argv)
{
    struct image_file image;
    int status;

    if (argc != 2) {
        fprintf(stderr, "usage: vendor FILE\n");
        return BAD_USAGE;
    }
    if (read_image_file(argv[1], &image) != 0) {
        fprintf(stderr, "vendor: %s: %s\n", argv[1], strerror(errno));
        return FAILED;
    }
    status = vendor(argv[1], &image);
    free(image.bytes);
    return status;
}
