/* values.c: values as people type them, made into the bytes that are stored. */
#include "command.h"

#include <ctype.h>
#include <stdlib.h>
#include <string.h>
#include <strings.h>

/* Says that a typed value is none: the word, and what is wanted. */
static int no_value(struct job *job, const char *word, const char *wanted)
{
    struct text text = {NULL, 0, 0};

    text_word(&text, word);
    refuse(job, STATUS_REFUSED, BOARDID_REFUSED_RULE, "%s%s", text_of(&text), wanted);
    text_free(&text);
    return STATUS_REFUSED;
}

/* Reads an address of six bytes, with colons, hyphens or nothing between them. */
bool read_address(const char *word, size_t length, uint8_t bytes[6])
{
    const char between = length == 17 ? word[2] : '\0';
    size_t i;

    if (length != 12 && !(length == 17 && (between == ':' || between == '-'))) {
        return false;
    }
    for (i = 0; i < 6; i++) {
        const char *at = word + i * (between == '\0' ? 2 : 3);
        const char pair[3] = {at[0], at[1], '\0'};
        size_t one;

        if (!isxdigit((unsigned char)at[0]) || !isxdigit((unsigned char)at[1]) ||
            !read_hex(pair, &bytes[i], 1, &one) || one != 1 ||
            (between != '\0' && i < 5 && at[2] != between)) {
            return false;
        }
    }
    return true;
}

/* The bytes of a typed address: six, and in FBOSS two more for the count. */
static int typed_address(struct job *job, uint32_t format, const char *word, struct text *value)
{
    const char *slash = strchr(word, '/');
    uint8_t bytes[8];
    uint64_t count;

    if (format != BOARDID_FORMAT_FBOSS) {
        if (!read_address(word, strlen(word), bytes)) {
            return no_value(job, word, " is no address: six bytes, as 02:1a:2b:3c:4d:5e");
        }
        text_put(value, (const char *)bytes, 6);
        return STATUS_DONE;
    }
    if (slash == NULL || !read_address(word, (size_t)(slash - word), bytes)) {
        return no_value(job, word,
                        " is no address block: address and count, as 02:1a:2b:3c:4d:5e/16");
    }
    if (!read_number(slash + 1, 0xFFFF, &count)) {
        return no_value(job, slash + 1, " is no count of addresses: it is 0 to 65535");
    }
    bytes[6] = (uint8_t)(count >> 8);
    bytes[7] = (uint8_t)count;
    text_put(value, (const char *)bytes, 8);
    return STATUS_DONE;
}

/* Reads the tests that were passed: their words with commas between them, none, or a number. */
bool read_flags(const char *word, uint8_t *flags)
{
    static const char *const tests[] = {"assembly", "configuration", "burn-in", "system"};
    uint64_t number;

    if (strcasecmp(word, "none") == 0 || read_number(word, 0xFF, &number)) {
        *flags = strcasecmp(word, "none") == 0 ? 0 : (uint8_t)number;
        return true;
    }
    *flags = 0;
    for (;;) {
        const size_t length = strcspn(word, ",");
        char part[16];
        size_t bit = 0, skip = strspn(word, " "), end = length;

        while (end > skip && word[end - 1] == ' ') {
            end--;
        }
        if (end <= skip || end - skip >= sizeof part) {
            return false;
        }
        memcpy(part, word + skip, end - skip);
        part[end - skip] = '\0';
        while (bit < 4 && strcasecmp(part, tests[bit]) != 0) {
            bit++;
        }
        if (bit < 4) {
            *flags |= (uint8_t)(1u << bit);
        } else if (read_number(part, 0xFF, &number)) {
            *flags |= (uint8_t)number;
        } else {
            return false;
        }
        if (word[length] == '\0') {
            return true;
        }
        word += length + 1;
    }
}

/* Whether a word has a form: a 0 of the form is any digit. */
static bool has_form(const char *word, const char *form)
{
    for (; *form != '\0'; form++, word++) {
        if (*form == '0' ? !isdigit((unsigned char)*word) : *word != *form) {
            return false;
        }
    }
    return *word == '\0';
}

/* Adds a date as FBOSS stores it; what is typed otherwise goes as it is. */
void stored_date(const char *word, struct text *value)
{
    if (has_form(word, "0000-00-00")) {
        text_put(value, word, 4);
        text_put(value, word + 5, 2);
        text_put(value, word + 8, 2);
    } else {
        text_put(value, word, strlen(word));
    }
}

/* Adds a date with time as ONIE stores it; what is typed otherwise goes as it is. */
void stored_datetime(const char *word, struct text *value)
{
    if (has_form(word, "0000-00-00T00:00:00") || has_form(word, "0000-00-00 00:00:00")) {
        text_put(value, word + 5, 2);
        text_put(value, "/", 1);
        text_put(value, word + 8, 2);
        text_put(value, "/", 1);
        text_put(value, word, 4);
        text_put(value, " ", 1);
        text_put(value, word + 11, 8);
    } else {
        text_put(value, word, strlen(word));
    }
}

/* The bytes of a typed number, high byte first. */
static int typed_number(struct job *job, uint32_t format, uint32_t code, const char *word,
                        struct text *value)
{
    const struct known *known = find_known(format, code);
    const bool two = known != NULL && known->length == 2;
    uint8_t bytes[2];
    uint64_t number;

    if (!read_number(word, two ? 0xFFFF : 0xFF, &number)) {
        return no_value(job, word, two ? " is no number of two bytes: it is 0 to 65535"
                                       : " is no number of one byte: it is 0 to 255");
    }
    bytes[0] = (uint8_t)(number >> 8);
    bytes[1] = (uint8_t)number;
    text_put(value, (const char *)bytes + (two ? 0 : 1), two ? 2 : 1);
    return STATUS_DONE;
}

/* The bytes of a value typed in hexadecimal. */
static int typed_hex(struct job *job, const char *word, struct text *value)
{
    uint8_t *bytes = memory(strlen(word) / 2 + 1);
    size_t length = 0;
    int status = STATUS_DONE;

    if (read_hex(word, bytes, strlen(word) / 2 + 1, &length)) {
        text_put(value, (const char *)bytes, length);
    } else {
        status = no_value(job, word, " is not hexadecimal, as 0a1b, 0a:1b or 0a 1b");
    }
    free(bytes);
    return status;
}

/* The bytes of a typed value. Strings and identities of Tiny, which need its pool, are not here. */
int typed_value(struct job *job, uint32_t format, uint32_t code, enum type type, const char *word,
                struct text *value)
{
    uint8_t flags;

    if (job->options.hex) {
        return typed_hex(job, word, value);
    }
    switch (type) {
    case TYPE_NUMBER:
        return typed_number(job, format, code, word, value);
    case TYPE_ADDRESS:
        return typed_address(job, format, word, value);
    case TYPE_FLAGS:
        if (!read_flags(word, &flags)) {
            return no_value(job, word, " are no tests: any of assembly, configuration, burn-in, "
                            "system with commas between them, none, or a number to 255");
        }
        text_put(value, (const char *)&flags, 1);
        return STATUS_DONE;
    case TYPE_DATE:
        stored_date(word, value);
        return STATUS_DONE;
    case TYPE_DATETIME:
        stored_datetime(word, value);
        return STATUS_DONE;
    case TYPE_BYTES:
        return typed_hex(job, word, value);
    case TYPE_POOL:
        return usage(job, "the string pool is given in hexadecimal: --hex");
    default:
        text_put(value, word, strlen(word));
        return STATUS_DONE;
    }
}

/* Reads a revision: two characters of the major number, a point, two digits of the minor one. */
bool read_revision(const char *word, uint8_t *major, uint8_t *minor)
{
    if (strlen(word) != 5 || word[2] != '.' || !isdigit((unsigned char)word[3]) ||
        !isdigit((unsigned char)word[4]) || !isdigit((unsigned char)word[0])) {
        return false;
    }
    if (isdigit((unsigned char)word[1])) {
        *major = (uint8_t)((word[0] - '0') * 10 + (word[1] - '0'));
    } else if (word[0] == '0' && word[1] >= 'A' && word[1] <= 'Z') {
        *major = (uint8_t)(128 + (word[1] - 'A'));
    } else if (word[0] == '0' && word[1] >= 'a' && word[1] <= 'z') {
        *major = (uint8_t)(128 + (word[1] - 'a'));
    } else {
        return false;
    }
    *minor = (uint8_t)((word[3] - '0') * 10 + (word[4] - '0'));
    return true;
}

/* Takes one NAME=VALUE of an identity. */
static int identity_word(struct job *job, char *word, struct typed_identity *identity)
{
    uint64_t number;
    size_t length;

    if (strncasecmp(word, "serial=", 7) == 0) {
        identity->serial = word + 7;
    } else if (strncasecmp(word, "part=", 5) == 0) {
        identity->part = word + 5;
    } else if (strncasecmp(word, "revision=", 9) == 0) {
        identity->has_revision = true;
        if (!read_revision(word + 9, &identity->major, &identity->minor)) {
            return no_value(job, word + 9, " is no revision: as 05.12, major 00 to 99 or 0A to 0Z, "
                            "minor 00 to 99");
        }
    } else if (strncasecmp(word, "free=", 5) == 0) {
        identity->has_free = true;
        if (!read_hex(word + 5, identity->free_bytes, 2, &length) || length != 2) {
            return no_value(job, word + 5, " are no two free bytes: hexadecimal, as 2020");
        }
    } else if (strncasecmp(word, "batch=", 6) == 0) {
        identity->has_batch = true;
        if (!read_number(word + 6, 0xFFFF, &number)) {
            return no_value(job, word + 6, " is no batch: it is 0 to 9999");
        }
        identity->batch = (uint32_t)number;
    } else {
        return no_value(job, word, " is none of serial=, part=, revision=, free= and batch=");
    }
    return STATUS_DONE;
}

/* A copy of a word; null of null. */
static char *copy_of(const char *word)
{
    char *copy = word == NULL ? NULL : strdup(word);

    if (copy == NULL && word != NULL) {
        no_memory();
    }
    return copy;
}

/* Reads an identity: NAME=VALUE words with blanks between them. Its texts are to be given back. */
int typed_identity(struct job *job, const char *words, struct typed_identity *identity)
{
    char *copy = copy_of(words), *rest = copy, *word;
    int status = STATUS_DONE;

    *identity = (struct typed_identity){.serial = NULL};
    while (status == STATUS_DONE && (word = strsep(&rest, " ")) != NULL) {
        status = *word == '\0' ? STATUS_DONE : identity_word(job, word, identity);
    }
    identity->serial = copy_of(identity->serial);
    identity->part = copy_of(identity->part);
    free(copy);
    return status;
}
