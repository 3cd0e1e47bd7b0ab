/* text.c: text that grows, bytes made safe to print, and the small things of JSON. */
#include "command.h"

#include <stdarg.h>
#include <stdlib.h>
#include <string.h>

/* Ends the program where there is no memory. No temporary file is there when it is called. */
_Noreturn void no_memory(void)
{
    fputs("boardid: no memory\n", stderr);
    exit(STATUS_FILE);
}

/* Memory of that length, all 0. */
void *memory(size_t length)
{
    void *bytes = calloc(length == 0 ? 1 : length, 1);

    if (bytes == NULL) {
        no_memory();
    }
    return bytes;
}

/* Adds bytes to a text. */
void text_put(struct text *text, const char *bytes, size_t length)
{
    if (text->room - text->length <= length) {
        const size_t room = 2 * text->room + length + 64;
        char *grown = realloc(text->bytes, room);

        if (grown == NULL) {
            no_memory();
        }
        text->bytes = grown;
        text->room = room;
    }
    if (length != 0) {
        memcpy(text->bytes + text->length, bytes, length);
    }
    text->length += length;
    text->bytes[text->length] = '\0';
}

/* Adds to a text as vprintf prints. */
void text_add_list(struct text *text, const char *format, va_list arguments)
{
    char *added = NULL;
    const int length = vasprintf(&added, format, arguments);

    if (length < 0) {
        no_memory();
    }
    text_put(text, added, (size_t)length);
    free(added);
}

/* Adds to a text as printf prints. */
void text_add(struct text *text, const char *format, ...)
{
    va_list arguments;

    va_start(arguments, format);
    text_add_list(text, format, arguments);
    va_end(arguments);
}

/* Adds bytes of an image: those outside 20h to 7Eh as \x1b, a backslash as two. */
void text_escaped(struct text *text, const uint8_t *bytes, size_t length)
{
    size_t i;

    for (i = 0; i < length; i++) {
        if (bytes[i] < 0x20 || bytes[i] > 0x7E) {
            text_add(text, "\\x%02x", bytes[i]);
        } else if (bytes[i] == '\\') {
            text_put(text, "\\\\", 2);
        } else {
            text_put(text, (const char *)&bytes[i], 1);
        }
    }
}

/* Adds bytes of an image in quotes. A quote in them has a backslash before it. */
void text_quoted(struct text *text, const uint8_t *bytes, size_t length)
{
    size_t i;

    text_put(text, "\"", 1);
    for (i = 0; i < length; i++) {
        if (bytes[i] == '"') {
            text_put(text, "\\\"", 2);
        } else {
            text_escaped(text, &bytes[i], 1);
        }
    }
    text_put(text, "\"", 1);
}

/* How many bytes a character of UTF-8 has at the front of a word, and which one it is; 0: none. */
static size_t utf8_length(const uint8_t *bytes, uint32_t *character)
{
    size_t length, i;
    uint32_t least;

    if (bytes[0] < 0x80) {
        *character = bytes[0];
        return 1;
    }
    if (bytes[0] >= 0xC2 && bytes[0] <= 0xDF) {
        length = 2;
        least = 0x80;
        *character = bytes[0] & 0x1Fu;
    } else if (bytes[0] >= 0xE0 && bytes[0] <= 0xEF) {
        length = 3;
        least = 0x800;
        *character = bytes[0] & 0x0Fu;
    } else if (bytes[0] >= 0xF0 && bytes[0] <= 0xF4) {
        length = 4;
        least = 0x10000;
        *character = bytes[0] & 0x07u;
    } else {
        return 0;
    }
    for (i = 1; i < length; i++) {
        if ((bytes[i] & 0xC0) != 0x80) {
            return 0;
        }
        *character = *character << 6 | (bytes[i] & 0x3Fu);
    }
    if (*character < least || *character > 0x10FFFF ||
        (*character >= 0xD800 && *character <= 0xDFFF)) {
        return 0;
    }
    return length;
}

/* Adds a word of the command line. What is no printable ASCII goes as \x1b. */
void text_word(struct text *text, const char *word)
{
    for (; *word != '\0'; word++) {
        if (*word < 0x20 || *word > 0x7E) {
            text_add(text, "\\x%02x", (uint8_t)*word);
        } else {
            text_put(text, word, 1);
        }
    }
}

/* Adds bytes in hexadecimal, lower case, with something between each two. */
void text_hex(struct text *text, const uint8_t *bytes, size_t length, const char *between)
{
    size_t i;

    for (i = 0; i < length; i++) {
        text_add(text, "%s%02x", i == 0 ? "" : between, bytes[i]);
    }
}

/* Adds bytes in hexadecimal; of more than 32 the first 32 and how many there are. */
void text_cut_hex(struct text *text, const uint8_t *bytes, size_t length)
{
    text_hex(text, bytes, length > 32 ? 32 : length, " ");
    if (length == 0) {
        text_add(text, "no bytes");
    } else if (length > 32) {
        text_add(text, " .. (%zu bytes)", length);
    }
}

/* The bytes of a text; the empty string where nothing was added. */
const char *text_of(const struct text *text)
{
    return text->bytes == NULL ? "" : text->bytes;
}

/* Gives a text's memory back; the text is empty then. */
void text_free(struct text *text)
{
    free(text->bytes);
    *text = (struct text){NULL, 0, 0};
}

/* Whether all bytes are printable ASCII. */
bool is_printable(const uint8_t *bytes, size_t length)
{
    size_t i;

    for (i = 0; i < length; i++) {
        if (bytes[i] < 0x20 || bytes[i] > 0x7E) {
            return false;
        }
    }
    return true;
}

/* The value of a hexadecimal digit; 16 of any other character. */
static uint32_t digit(char c)
{
    if (c >= '0' && c <= '9') {
        return (uint32_t)(c - '0');
    }
    if (c >= 'a' && c <= 'f') {
        return (uint32_t)(c - 'a') + 10;
    }
    if (c >= 'A' && c <= 'F') {
        return (uint32_t)(c - 'A') + 10;
    }
    return 16;
}

/* Reads a number, decimal or hexadecimal after 0x, that is not above `most`. */
bool read_number(const char *word, uint64_t most, uint64_t *number)
{
    const bool hex = word[0] == '0' && (word[1] == 'x' || word[1] == 'X');
    const uint32_t base = hex ? 16 : 10;
    uint64_t n = 0;

    word += hex ? 2 : 0;
    if (*word == '\0') {
        return false;
    }
    for (; *word != '\0'; word++) {
        const uint32_t d = digit(*word);

        if (d >= base || n > (UINT64_MAX - d) / base) {
            return false;
        }
        n = n * base + d;
    }
    if (n > most) {
        return false;
    }
    *number = n;
    return true;
}

/* Reads bytes in hexadecimal, with nothing, a colon or blanks between them. */
bool read_hex(const char *word, uint8_t *bytes, size_t room, size_t *length)
{
    size_t n = 0;

    while (*word == ' ') {
        word++;
    }
    while (*word != '\0') {
        const uint32_t high = digit(word[0]);
        const uint32_t low = high < 16 ? digit(word[1]) : 16;

        if (low >= 16 || n == room) {
            return false;
        }
        bytes[n++] = (uint8_t)(high << 4 | low);
        word += 2;
        if (*word == ':' && digit(word[1]) < 16) {
            word++;
        } else {
            while (*word == ' ') {
                word++;
            }
        }
    }
    *length = n;
    return true;
}

/*
 * A word of the command line as JSON. What is no character, and 7Fh, which JSON would have as it
 * is, goes as \x7f, in letters.
 */
json_t *json_word(const char *word)
{
    const uint8_t *bytes = (const uint8_t *)word;
    struct text text = {NULL, 0, 0};
    json_t *json;

    while (*bytes != 0) {
        uint32_t character = 0;
        size_t length = utf8_length(bytes, &character);

        if (length == 0 || character == 0x7F) {
            length = 1;
            text_add(&text, "\\x%02x", bytes[0]);
        } else {
            text_put(&text, (const char *)bytes, length);
        }
        bytes += length;
    }
    json = json_string(text_of(&text));
    text_free(&text);
    return json;
}

/* Bytes in hexadecimal as JSON. */
json_t *json_hex(const uint8_t *bytes, size_t length)
{
    struct text text = {NULL, 0, 0};
    json_t *json;

    text_hex(&text, bytes, length, "");
    json = json_string(text_of(&text));
    text_free(&text);
    return json;
}

/* Printable ASCII as JSON; null where the bytes are anything else. */
json_t *json_printable(const uint8_t *bytes, size_t length)
{
    return is_printable(bytes, length) ? json_stringn((const char *)bytes, length) : json_null();
}

/* Puts a value into an object. */
void put(json_t *object, const char *key, json_t *value)
{
    if (object == NULL || value == NULL || json_object_set_new(object, key, value) != 0) {
        no_memory();
    }
}

/* Appends a value to an array. */
void append(json_t *array, json_t *value)
{
    if (array == NULL || value == NULL || json_array_append_new(array, value) != 0) {
        no_memory();
    }
}
