/* names.c: the names of formats, codes and entries, and the command names. */
#include "command.h"

#include <stdlib.h>
#include <string.h>
#include <strings.h>

/* Every code that the newest edition names, with its short names and how its value is typed. */
static const struct known table[] = {
    {BOARDID_FORMAT_FBOSS, 1, {"product", NULL}, TYPE_TEXT, 0},
    {BOARDID_FORMAT_FBOSS, 2, {"part", NULL}, TYPE_TEXT, 0},
    {BOARDID_FORMAT_FBOSS, 3, {"assembly-part", NULL}, TYPE_TEXT, 8},
    {BOARDID_FORMAT_FBOSS, 4, {"pcba-part", NULL}, TYPE_TEXT, 12},
    {BOARDID_FORMAT_FBOSS, 5, {"pcb-part", NULL}, TYPE_TEXT, 12},
    {BOARDID_FORMAT_FBOSS, 6, {"odm-part", NULL}, TYPE_TEXT, 0},
    {BOARDID_FORMAT_FBOSS, 7, {"odm-serial", NULL}, TYPE_TEXT, 0},
    {BOARDID_FORMAT_FBOSS, 8, {"state", NULL}, TYPE_NUMBER, 1},
    {BOARDID_FORMAT_FBOSS, 9, {"version", NULL}, TYPE_NUMBER, 1},
    {BOARDID_FORMAT_FBOSS, 10, {"sub-version", NULL}, TYPE_NUMBER, 1},
    {BOARDID_FORMAT_FBOSS, 11, {"serial", NULL}, TYPE_TEXT, 0},
    {BOARDID_FORMAT_FBOSS, 12, {"manufacturer", NULL}, TYPE_TEXT, 0},
    {BOARDID_FORMAT_FBOSS, 13, {"date", NULL}, TYPE_DATE, 8},
    {BOARDID_FORMAT_FBOSS, 14, {"pcb-manufacturer", NULL}, TYPE_TEXT, 0},
    {BOARDID_FORMAT_FBOSS, 15, {"assembled", NULL}, TYPE_TEXT, 0},
    {BOARDID_FORMAT_FBOSS, 16, {"location", NULL}, TYPE_TEXT, 0},
    {BOARDID_FORMAT_FBOSS, 17, {"cpu-mac", "mac"}, TYPE_ADDRESS, 8},
    {BOARDID_FORMAT_FBOSS, 18, {"bmc-mac", "mac"}, TYPE_ADDRESS, 8},
    {BOARDID_FORMAT_FBOSS, 19, {"asic-mac", "mac"}, TYPE_ADDRESS, 8},
    {BOARDID_FORMAT_FBOSS, 20, {"meta-mac", "mac"}, TYPE_ADDRESS, 8},
    {BOARDID_FORMAT_VPD, 0x01, {NULL, NULL}, TYPE_TEXT, 0},
    {BOARDID_FORMAT_VPD, 0xFE, {"info", NULL}, TYPE_BYTES, 4},
    {BOARDID_FORMAT_TINY, 0x01, {"pool", NULL}, TYPE_POOL, 0},
    {BOARDID_FORMAT_TINY, 0x10, {"serial", NULL}, TYPE_STRING, 1},
    {BOARDID_FORMAT_TINY, 0x11, {"tests", NULL}, TYPE_FLAGS, 1},
    {BOARDID_FORMAT_TINY, 0x60, {"mac", NULL}, TYPE_ADDRESS, 6},
    {BOARDID_FORMAT_TINY, 0x61, {"identity", NULL}, TYPE_IDENTITY, 6},
    {BOARDID_FORMAT_TINY, 0x62, {"system-identity", NULL}, TYPE_IDENTITY, 6},
    {BOARDID_FORMAT_TINY, 0x80, {"identity-batch", NULL}, TYPE_IDENTITY, 8},
    {BOARDID_FORMAT_TINY, 0x81, {"system-identity-batch", NULL}, TYPE_IDENTITY, 8},
    {BOARDID_FORMAT_ONIE, 0x21, {"product", NULL}, TYPE_TEXT, 0},
    {BOARDID_FORMAT_ONIE, 0x22, {"part", NULL}, TYPE_TEXT, 0},
    {BOARDID_FORMAT_ONIE, 0x23, {"serial", NULL}, TYPE_TEXT, 0},
    {BOARDID_FORMAT_ONIE, 0x24, {"mac", NULL}, TYPE_ADDRESS, 6},
    {BOARDID_FORMAT_ONIE, 0x25, {"date", NULL}, TYPE_DATETIME, 19},
    {BOARDID_FORMAT_ONIE, 0x2A, {"macs", NULL}, TYPE_NUMBER, 2},
    {BOARDID_FORMAT_ONIE, 0x2B, {"manufacturer", NULL}, TYPE_TEXT, 0},
    {BOARDID_FORMAT_ONIE, 0x2C, {"country", NULL}, TYPE_TEXT, 2},
    {BOARDID_FORMAT_ONIE, 0x2D, {"vendor", NULL}, TYPE_TEXT, 0},
    {BOARDID_FORMAT_ONIE, 0xFD, {"extension", NULL}, TYPE_BYTES, 0},
};

/* The word of a type, as JSON has it. */
const char *type_name(enum type type)
{
    static const char *const words[] = {"bytes", "text",     "number", "address",  "string",
                                        "flags", "identity", "date",   "datetime", "pool"};

    return words[type];
}

/* The word of a format on the command line. */
const char *format_word(uint32_t format)
{
    static const char *const words[] = {"fboss", "vpd", "tiny", "onie"};

    return format >= 1 && format <= 4 ? words[format - 1] : "unknown";
}

/* The name of a format for people. */
const char *format_title(uint32_t format)
{
    const char *title = boardid_format_name(format);

    return title == NULL ? "a format that is not known" : title;
}

/* Reads a format: its word, or its number. */
bool read_format(const char *word, uint32_t *format)
{
    uint32_t f;

    for (f = 1; f <= 4; f++) {
        const char number[2] = {(char)('0' + f), '\0'};

        if (strcasecmp(word, format_word(f)) == 0 || strcmp(word, number) == 0) {
            *format = f;
            return true;
        }
    }
    return false;
}

/* What is known of a code; null where no edition that this command knows names it. */
const struct known *find_known(uint32_t format, uint32_t code)
{
    size_t i;

    for (i = 0; i < sizeof table / sizeof table[0]; i++) {
        if (table[i].format == format && table[i].code == code) {
            return &table[i];
        }
    }
    return NULL;
}

/* The document's name of a code; null where it has none, and of VPD 01h, which goes by its key. */
const char *code_title(uint32_t format, uint32_t code)
{
    if (code > 0xFF || (format == BOARDID_FORMAT_VPD && code == BOARDID_VPD_STRING)) {
        return NULL;
    }
    return boardid_kind_name(BOARDID_KIND(format, code));
}

/* Whether an edition names a code. The library is asked: it writes none that is not named. */
bool edition_names(uint32_t format, uint32_t edition, uint32_t code)
{
    uint8_t bytes[BOARDID_FIELD_SIZE], value[1] = {'A'}, out[1];
    const struct boardid_field field = {code, 0, 1, 0, 0};
    uint32_t number;

    boardid_field_set(bytes, 0, field);
    number = boardid_answer_number(
        boardid_write(format, edition, bytes, sizeof bytes, value, sizeof value, out, 0));
    return number != BOARDID_REFUSED_EDITION && number != BOARDID_REFUSED_NOT_NAMED &&
           number != BOARDID_REFUSED_FORMAT;
}

/* The newest edition that the library knows. */
uint32_t newest_edition(void)
{
    uint32_t edition = 0;

    while (boardid_answer_number(boardid_check(BOARDID_FORMAT_FBOSS, edition + 1, NULL, 0)) !=
           BOARDID_REFUSED_EDITION) {
        edition++;
    }
    return edition;
}

/* The first edition that names a code; 0: none. */
uint32_t edition_that_names(uint32_t format, uint32_t code)
{
    const uint32_t newest = newest_edition();
    uint32_t edition;

    for (edition = 1; edition <= newest; edition++) {
        if (edition_names(format, edition, code)) {
            return edition;
        }
    }
    return 0;
}

/* The first edition that has a format; 0: none. */
uint32_t edition_that_has(uint32_t format)
{
    const uint32_t newest = newest_edition();
    uint32_t edition;

    for (edition = 1; edition <= newest; edition++) {
        if (boardid_answer_number(boardid_check(format, edition, NULL, 0)) !=
            BOARDID_REFUSED_FORMAT) {
            return edition;
        }
    }
    return 0;
}

/* Adds a code as its document writes it. */
void put_code(struct text *text, uint32_t format, uint32_t code)
{
    if (format == BOARDID_FORMAT_FBOSS) {
        text_add(text, "%u", code);
    } else {
        text_add(text, "%02Xh", code);
    }
}

/* Adds a VPD key; of a long one the front. */
static void put_key(struct text *text, const uint8_t *key, size_t length)
{
    text_escaped(text, key, length > 64 ? 64 : length);
    if (length > 64) {
        text_add(text, " .. (%zu bytes)", length);
    }
}

/* Adds what an entry is called: its document's name, its VPD key, or its code. */
void put_label(struct text *text, const struct image *image, uint32_t code, const uint8_t *key,
               size_t key_length)
{
    const char *title = edition_names(image->format, image->edition, code)
                            ? code_title(image->format, code)
                            : NULL;

    if (title != NULL) {
        text_add(text, "%s", title);
        if (key_length != 0) {
            text_add(text, " ");
            put_key(text, key, key_length);
        }
        return;
    }
    if (image->format == BOARDID_FORMAT_VPD && code == BOARDID_VPD_STRING && key_length != 0) {
        put_key(text, key, key_length);
        return;
    }
    text_add(text, image->format == BOARDID_FORMAT_VPD ? "type " : "code ");
    put_code(text, image->format, code);
    if (key_length != 0) {
        text_add(text, " ");
        put_key(text, key, key_length);
    }
}

/* Adds what entry n of a list is called. */
void put_entry_label(struct text *text, const struct image *image, uint32_t n)
{
    const struct boardid_record *record = &image->records[n];

    put_label(text, image, record->code, image->bytes + record->key_place, record->key_length);
}

/* The name of an entry in JSON: the document's, the VPD key where it is text, or null. */
json_t *json_name(const struct image *image, uint32_t code, const uint8_t *key, size_t key_length)
{
    const char *title = edition_names(image->format, image->edition, code)
                            ? code_title(image->format, code)
                            : NULL;

    if (title != NULL) {
        return json_string(title);
    }
    return key_length == 0 ? json_null() : json_printable(key, key_length);
}

/* The short names of a code in JSON. */
json_t *json_shorts(uint32_t format, uint32_t code)
{
    const struct known *known = find_known(format, code);
    json_t *array = json_array();
    int i;

    for (i = 0; known != NULL && i < 2 && known->shorts[i] != NULL; i++) {
        append(array, json_string(known->shorts[i]));
    }
    return array;
}

/* Whether a word is a document's name; case does not count, and - and _ are as good as a blank. */
static bool is_title(const char *title, const char *word)
{
    for (; *title != '\0' && *word != '\0'; title++, word++) {
        const char t[2] = {*title, '\0'}, w[2] = {*word, '\0'};

        if (*title == ' ' ? strchr(" -_", *word) == NULL : strcasecmp(t, w) != 0) {
            return false;
        }
    }
    return *title == *word;
}

/* Reads a code: hexadecimal after 0x, or decimal, which VPD does not have. */
static bool read_code(uint32_t format, const char *word, uint32_t *code)
{
    const bool hex = word[0] == '0' && (word[1] == 'x' || word[1] == 'X');
    uint64_t number;

    if ((!hex && format == BOARDID_FORMAT_VPD) || !read_number(word, UINT32_MAX, &number)) {
        return false;
    }
    *code = (uint32_t)number;
    return true;
}

/* Whether a word fits a code: its document's name, a short name, or the code itself. */
bool name_fits(uint32_t format, uint32_t code, bool named, const char *word)
{
    const struct known *known = find_known(format, code);
    const char *title = code_title(format, code);
    uint32_t number;

    if (read_code(format, word, &number) && number == code) {
        return true;
    }
    if (!named) {
        return false;
    }
    if (title != NULL && is_title(title, word)) {
        return true;
    }
    for (int i = 0; known != NULL && i < 2 && known->shorts[i] != NULL; i++) {
        if (strcasecmp(known->shorts[i], word) == 0) {
            return true;
        }
    }
    return false;
}

/* Whether a word is # and a number; the number is the greatest where it is too large. */
bool is_entry_number(const char *word, uint64_t *number)
{
    if (word[0] != '#' || word[1] == '\0' || word[1 + strspn(word + 1, "0123456789")] != '\0') {
        return false;
    }
    if (!read_number(word + 1, UINT64_MAX, number)) {
        *number = UINT64_MAX;
    }
    return true;
}

/* Whether a word fits entry n. */
bool entry_fits(const struct image *image, uint32_t n, const char *word)
{
    const struct boardid_record *record = &image->records[n];
    uint64_t number;

    if (is_entry_number(word, &number)) {
        return number == n;
    }
    if (name_fits(image->format, record->code, record->kind != 0, word)) {
        return true;
    }
    return image->format == BOARDID_FORMAT_VPD && record->key_length == strlen(word) &&
           memcmp(image->bytes + record->key_place, word, record->key_length) == 0;
}

/* Says that a word fits no entry, and which there are. */
static int no_entry(struct job *job, const struct image *image, const char *word)
{
    struct text text = {NULL, 0, 0};
    uint64_t number;
    uint32_t n;

    if (is_entry_number(word, &number)) {
        text_add(&text, "no entry ");
        text_word(&text, word);
        if (image->count == 0) {
            text_add(&text, "; it has none");
        } else {
            text_add(&text, "; it has %u, #0 to #%u", image->count, image->count - 1);
        }
    } else {
        text_add(&text, "no entry %s", *word == '\0' ? "with an empty name" : "");
        text_word(&text, word);
        text_add(&text, "; it has: %s", image->count == 0 ? "none" : "");
        for (n = 0; n < image->count && n < 64; n++) {
            text_add(&text, n == 0 ? "" : ", ");
            put_entry_name(&text, image, n);
        }
        if (n < image->count) {
            text_add(&text, " .. (%u entries)", image->count);
        }
    }
    refuse(job, STATUS_REFUSED, BOARDID_REFUSED_NOT_THERE, "%s", text_of(&text));
    text_free(&text);
    for (n = 0; n < image->count; n++) {
        const uint32_t code = image->records[n].code;
        const uint32_t since = edition_that_names(image->format, code);

        if (since > image->edition && name_fits(image->format, code, true, word)) {
            hint(job, "edition %u names it: -e %u", since, since);
            break;
        }
    }
    return STATUS_REFUSED;
}

/* Finds the one entry that a word fits. */
int find_entry(struct job *job, const struct image *image, const char *word, uint32_t *n)
{
    struct text text = {NULL, 0, 0}, numbers = {NULL, 0, 0};
    uint32_t found = 0, i;

    for (i = 0; i < image->count; i++) {
        if (entry_fits(image, i, word)) {
            if (found++ == 0) {
                *n = i;
            }
        }
    }
    if (found == 1) {
        return STATUS_DONE;
    }
    if (found == 0) {
        return no_entry(job, image, word);
    }
    text_word(&text, word);
    text_add(&text, " fits ");
    found = 0;
    for (i = 0; i < image->count; i++) {
        if (!entry_fits(image, i, word)) {
            continue;
        }
        if (found < 16) {
            text_add(&text, "%sentry %u, ", found == 0 ? "" : ", and ", i);
            put_entry_label(&text, image, i);
            text_add(&numbers, "%s'#%u'", found == 0 ? "" : " or ", i);
        }
        found++;
    }
    if (found > 16) {
        text_add(&text, " .. (%u entries)", found);
    }
    refuse(job, STATUS_REFUSED, -1, "%s: say %s", text_of(&text), text_of(&numbers));
    text_free(&text);
    text_free(&numbers);
    return STATUS_REFUSED;
}

/* Finds the one code that a word fits, of those that the edition names. */
int find_code(struct job *job, const struct image *image, const char *word, uint32_t *code)
{
    struct text text = {NULL, 0, 0}, codes = {NULL, 0, 0}, names = {NULL, 0, 0};
    uint32_t found = 0, other = 0, c;

    for (c = 0; c <= 0xFF; c++) {
        const char *title = code_title(image->format, c);

        if (edition_names(image->format, image->edition, c)) {
            if (title != NULL) {
                text_add(&names, "%s%s", names.length == 0 ? "" : ", ", title);
            }
            if (name_fits(image->format, c, true, word)) {
                text_add(&text, "%s", found == 0 ? "" : ", and ");
                put_label(&text, image, c, NULL, 0);
                text_add(&codes, found == 0 ? "" : " or ");
                text_add(&codes, image->format == BOARDID_FORMAT_FBOSS ? "%u" : "0x%02x", c);
                *code = c;
                found++;
            }
        } else if (edition_that_names(image->format, c) != 0 &&
                   name_fits(image->format, c, true, word)) {
            other = c;
        }
    }
    if (found == 0 && read_code(image->format, word, &c)) {
        *code = c;
        found = 1;
    } else if (found == 0 && other != 0) {
        *code = other;
        found = 1;
    } else if (found == 0) {
        struct text shown = {NULL, 0, 0};

        text_word(&shown, word);
        refuse(job, STATUS_REFUSED, BOARDID_REFUSED_NOT_THERE,
               "no field %s; edition %u names of %s: %s", text_of(&shown), image->edition,
               format_title(image->format), text_of(&names));
        hint(job, "boardid names -f %s has the short names too", format_word(image->format));
        text_free(&shown);
    } else if (found > 1) {
        struct text shown = {NULL, 0, 0};

        text_word(&shown, word);
        refuse(job, STATUS_REFUSED, -1, "%s fits %s: say %s", text_of(&shown), text_of(&text),
               text_of(&codes));
        text_free(&shown);
    }
    text_free(&text);
    text_free(&codes);
    text_free(&names);
    return found == 1 ? STATUS_DONE : STATUS_REFUSED;
}

/* One line of names, or one object of them. */
static void print_named(uint32_t format, uint32_t code, json_t *array)
{
    const struct known *known = find_known(format, code);
    const char *title = boardid_kind_name(BOARDID_KIND(format, code));
    const uint32_t since = edition_that_names(format, code);
    const char *type = type_name(known == NULL ? TYPE_BYTES : known->type);
    struct text shorts = {NULL, 0, 0};

    if (array != NULL) {
        json_t *object = json_object();

        put(object, "format", json_string(format_word(format)));
        put(object, "code", json_integer(code));
        put(object, "kind", json_integer(BOARDID_KIND(format, code)));
        put(object, "name", title == NULL ? json_null() : json_string(title));
        put(object, "short", json_shorts(format, code));
        put(object, "since", json_integer(since));
        put(object, "type", json_string(type));
        append(array, object);
        return;
    }
    for (int i = 0; known != NULL && i < 2 && known->shorts[i] != NULL; i++) {
        text_add(&shorts, "%s%s", i == 0 ? "" : ", ", known->shorts[i]);
    }
    if (shorts.length == 0) {
        text_add(&shorts, "-");
    }
    printf("%-6s  ", format_word(format));
    if (format == BOARDID_FORMAT_FBOSS) {
        printf("%-4u", code);
    } else {
        printf("0x%02x", code);
    }
    printf("  %-37s  %-21s  %7u  %s\n", title == NULL ? "-" : title, text_of(&shorts), since, type);
    text_free(&shorts);
}

/* names: what an edition names. */
int command_names(struct job *job)
{
    const uint32_t edition = job->options.edition;
    json_t *array = job->options.json ? json_array() : NULL;
    const char *head = "format  code  name                                   short names          "
                       "  edition  value\n";
    uint32_t format, code;
    bool any = false;

    if (boardid_answer_number(boardid_check(BOARDID_FORMAT_FBOSS, edition, NULL, 0)) ==
        BOARDID_REFUSED_EDITION) {
        json_decref(array);
        refuse(job, STATUS_REFUSED, BOARDID_REFUSED_EDITION, "the library does not know edition %u",
               edition);
        hint(job, "it knows the editions 1 to %u", newest_edition());
        return STATUS_REFUSED;
    }
    for (format = 1; format <= 4; format++) {
        if (job->options.format != 0 && job->options.format != format) {
            continue;
        }
        for (code = 0; code <= 0xFF; code++) {
            if (edition_names(format, edition, code)) {
                if (!any && array == NULL) {
                    fputs(head, stdout);
                }
                any = true;
                print_named(format, code, array);
            }
        }
    }
    if (!any && job->options.format != 0) {
        json_decref(array);
        refuse(job, STATUS_REFUSED, BOARDID_REFUSED_FORMAT, "edition %u does not have %s", edition,
               format_title(job->options.format));
        if (edition_that_has(job->options.format) != 0) {
            hint(job, "edition %u does: -e %u", edition_that_has(job->options.format),
                 edition_that_has(job->options.format));
        }
        return STATUS_REFUSED;
    }
    if (array != NULL) {
        json_t *object = json_object();

        put(object, "edition", json_integer(edition));
        put(object, "names", array);
        print_json(object);
    }
    return STATUS_DONE;
}
