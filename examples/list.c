/*
 * list: lists the entries of an image file as a person would read them.
 *
 *     list fboss|vpd|tiny|onie FILE
 *
 * Compiled with the header of edition 1 or 2, it has no onie. To compile this program takes a header
 * of version 4.3 or later.
 *
 * One line gives the file, its format, the edition of the header that this program was compiled
 * with, and how many entries there are. Then each entry has a line: its number, its name and its
 * value. An entry that the edition does not name has its code for a name, and its bytes for a value.
 * A date is printed as YYYY-MM-DD, and one with its time as YYYY-MM-DD HH:MM:SS, whatever the format
 * stores. A value whose reading this program does not know is printed as plain bytes.
 *
 * A VPD key may be any bytes. Text and keys stand in quotes; each of their bytes that is no
 * printable ASCII, or is a quote or a backslash, is printed as \x and two hexadecimal digits. So a
 * terminal is sent no control bytes of an image, and what stands in quotes can be read back.
 *
 * Exit status: 0 listed, 1 the library refused the image, 2 a wrong command line, 3 the file could
 * not be read or the list not be written.
 */
#include "image_file.h"

/* Whether bytes are printable ASCII. */
static int is_text(const uint8_t *bytes, size_t length)
{
    size_t i;

    for (i = 0; i < length; i++) {
        if (bytes[i] < 0x20 || bytes[i] > 0x7E) {
            return 0;
        }
    }
    return 1;
}

/* Prints bytes in hexadecimal. */
static void print_hex(const uint8_t *bytes, size_t length)
{
    size_t i;

    if (length == 0) {
        printf("no bytes");
    }
    for (i = 0; i < length; i++) {
        printf(i == 0 ? "%02X" : " %02X", bytes[i]);
    }
}

/* Prints the string that a string number counts; says so where the pool has none. */
static void print_string(const struct image_file *image, uint32_t number)
{
    char text[BOARDID_TINY_POOL_MAX + 1];
    size_t length = boardid_string_text(image->bytes, image->length, number, text, sizeof text);

    if (length == 0) {
        printf("string %lu, which the pool does not have", (unsigned long)number);
    } else {
        print_text((const uint8_t *)text, length);
    }
}

/* Prints every string of the pool, and how many bytes after the last one make no string. */
static void print_pool(const struct image_file *image, const struct boardid_record *record)
{
    const uint8_t *pool = image->bytes + record->value_place;
    uint32_t strings = boardid_pool_strings(pool, record->value_length);
    uint32_t rest = 0, number;

    if (strings == 0) {
        printf("no strings");
    }
    for (number = 0; number < strings; number++) {
        printf("%s", number != 0 ? ", " : "");
        print_string(image, number);
    }
    while (rest < record->value_length && pool[record->value_length - rest - 1] <= 0x7F) {
        rest++;
    }
    if (rest != 0) {
        printf("; bytes of no string: %lu", (unsigned long)rest);
    }
}

/* Prints an address block: the first address and how many there are. */
static void print_addresses(const struct boardid_record *record)
{
    uint32_t count = boardid_record_address_count(record);
    uint8_t bytes[6];
    int i;

    boardid_record_address_bytes(record, 0, bytes);
    for (i = 0; i < 6; i++) {
        printf(i == 0 ? "%02x" : ":%02x", bytes[i]);
    }
    printf(count == 1 ? ", %lu address" : ", %lu addresses", (unsigned long)count);
}

/* Prints which factory tests were passed. */
static void print_test_flags(const struct boardid_record *record)
{
    static const char *const tests[4] = {"assembly", "configuration", "burn-in", "system"};
    uint32_t flags = boardid_record_test_flags(record);
    const char *before = ": ";
    int bit;

    printf("%lu of 4 tests passed", (unsigned long)boardid_record_tests_passed(record));
    for (bit = 0; bit < 4; bit++) {
        if ((flags >> bit & 1) != 0) {
            printf("%s%s", before, tests[bit]);
            before = ", ";
        }
    }
    if (flags > 0x0F) {
        printf("; reserved bits %02Xh", (unsigned)(flags & 0xF0));
    }
}

/* Prints an identity: the two strings, and the revision in the parts that the board's maker uses. */
static void print_identity(const struct image_file *image, const struct boardid_record *record)
{
    struct boardid_identity identity = boardid_record_identity(record);

    printf("serial ");
    print_string(image, identity.serial_string);
    printf(", part ");
    print_string(image, identity.part_string);
    if (identity.revision_major < 128) {
        printf(", revision %02lu", (unsigned long)identity.revision_major);
    } else {
        printf(", revision 0%c", (int)('A' + (identity.revision_major - 128)));
    }
    printf(" %02lu ", (unsigned long)identity.revision_minor);
#if BOARDID_EDITION >= 2
    if (record->reading == BOARDID_READING_IDENTITY_WITH_BATCH) {
        printf("%04lu ", (unsigned long)boardid_record_batch(record));
    }
#endif
    print_character(identity.free_bytes[0]);
    print_character(identity.free_bytes[1]);
}

/* Prints a date. */
static void print_date(const struct boardid_record *record)
{
    struct boardid_date date = boardid_record_date(record);

    printf("%04lu-%02lu-%02lu", (unsigned long)date.year, (unsigned long)date.month,
           (unsigned long)date.day);
}

#if BOARDID_EDITION >= 3
/* Prints a time. */
static void print_time(const struct boardid_record *record)
{
    struct boardid_time time_of_day = boardid_record_time(record);

    printf("%02lu:%02lu:%02lu", (unsigned long)time_of_day.hour,
           (unsigned long)time_of_day.minute, (unsigned long)time_of_day.second);
}
#endif

/* Prints the value of an entry by its reading. */
static void print_value(const struct image_file *image, const struct boardid_record *record)
{
    const uint8_t *value = image->bytes + record->value_place;

    switch (record->reading) {
    case BOARDID_READING_TEXT:
        print_text(value, record->value_length);
        break;
    case BOARDID_READING_NUMBER:
        printf("%lu", (unsigned long)boardid_record_number(record));
        break;
    case BOARDID_READING_ADDRESS_BLOCK:
        print_addresses(record);
        break;
    case BOARDID_READING_STRING_NUMBER:
        print_string(image, boardid_record_string_number(record));
        break;
    case BOARDID_READING_TEST_FLAGS:
        print_test_flags(record);
        break;
    case BOARDID_READING_IDENTITY:
#if BOARDID_EDITION >= 2
    case BOARDID_READING_IDENTITY_WITH_BATCH:
#endif
        print_identity(image, record);
        break;
    case BOARDID_READING_DATE:
        print_date(record);
        break;
#if BOARDID_EDITION >= 3
    case BOARDID_READING_DATE_WITH_TIME:
        print_date(record);
        printf(" ");
        print_time(record);
        break;
#endif
    case BOARDID_READING_PLAIN_BYTES:
    default: /* a reading that the header does not have is taken for plain bytes */
        if (record->kind == BOARDID_KIND(BOARDID_FORMAT_TINY, BOARDID_TINY_ASCII_STRINGS)) {
            print_pool(image, record);
        } else if (record->kind == BOARDID_KIND(BOARDID_FORMAT_VPD, BOARDID_VPD_STRING) &&
                   is_text(value, record->value_length)) {
            print_text(value, record->value_length);
        } else {
            print_hex(value, record->value_length);
        }
        break;
    }
}

/*
 * Prints what an entry is called: the name of its code, or its code. In VPD its key comes after
 * that, and of a 01h stands alone.
 */
static void print_name(uint32_t format, const struct image_file *image,
                       const struct boardid_record *record)
{
    const char *name = boardid_kind_name(record->kind);

    if (record->kind == BOARDID_KIND(BOARDID_FORMAT_VPD, BOARDID_VPD_STRING)) {
        name = "";
    }
    if (name != NULL) {
        printf("%s", name);
    } else if (format == BOARDID_FORMAT_FBOSS) {
        printf("code %lu", (unsigned long)record->code);
    } else {
        const char *word = format == BOARDID_FORMAT_VPD    ? "type"
                           : format == BOARDID_FORMAT_TINY ? "tag"
                                                           : "code";

        printf("%s %02lXh", word, (unsigned long)record->code);
    }
    if (format == BOARDID_FORMAT_VPD) {
        printf("%s", name == NULL || name[0] != '\0' ? " " : "");
        print_text(image->bytes + record->key_place, record->key_length);
    }
}

/* Lists an image; returns the exit status. */
static int list(uint32_t format, const char *path, const struct image_file *image)
{
    uint64_t answer = boardid_check_image(format, image->bytes, image->length);
    uint32_t count = boardid_answer_count(answer);
    size_t length = (size_t)count * BOARDID_RECORD_SIZE;
    uint8_t *records;
    uint32_t n;

    if (boardid_answer_number(answer) != 0) {
        report_refusal("list", path, answer);
        return REFUSED;
    }
    records = malloc(length != 0 ? length : 1);
    if (records == NULL) {
        fprintf(stderr, "list: %s: no memory for %lu records\n", path, (unsigned long)count);
        return FAILED;
    }
    answer = boardid_list_entries(format, image->bytes, image->length, records, length);
    if (boardid_answer_number(answer) != 0) {
        report_refusal("list", path, answer);
        free(records);
        return REFUSED;
    }
    printf(count == 1 ? "%s: %s, edition %d, %lu entry\n" : "%s: %s, edition %d, %lu entries\n",
           path, boardid_format_name(format), BOARDID_EDITION, (unsigned long)count);
    for (n = 0; n < count; n++) {
        struct boardid_record record = boardid_record_at(records, n);

        printf("%3lu  ", (unsigned long)n);
        print_name(format, image, &record);
        printf(": ");
        print_value(image, &record);
        printf("\n");
    }
    free(records);
    if (fflush(stdout) != 0 || ferror(stdout)) {
        fprintf(stderr, "list: the list could not be written: %s\n", strerror(errno));
        return FAILED;
    }
    return DONE;
}

int main(int argc, char **argv)
{
    struct image_file image;
    uint32_t format = argc == 3 ? format_of_word(argv[1]) : 0;
    int status;

    if (format == 0) {
        fprintf(stderr, "usage: list " FORMAT_WORDS " FILE\n");
        return BAD_USAGE;
    }
    if (read_image_file(argv[2], &image) != 0) {
        fprintf(stderr, "list: %s: %s\n", argv[2], strerror(errno));
        return FAILED;
    }
    status = list(format, argv[2], &image);
    free(image.bytes);
    return status;
}
