/*
 * command.h: what the files of the command `boardid` share.
 *
 * main.c     options, and which command it is           help.c    the texts of --help
 * text.c     growing text, bytes made safe to print     files.c   reading and safe writing
 * names.c    names of codes and entries                 frames.c  where an image's frames are
 * explain.c  refusals for people                        show.c    values for people, and in JSON
 * values.c   values typed by people, as bytes           pool.c    the strings of a Tiny pool
 * images.c   list, get, check, strings                  changes.c set, add, remove
 * vendor.c   vendor                                     write.c   write
 * rooms.c    room
 */
#ifndef COMMAND_H
#define COMMAND_H

#ifndef _GNU_SOURCE
#define _GNU_SOURCE
#endif

#include <jansson.h>
#include <stdarg.h>
#include <stdbool.h>
#include <stddef.h>
#include <stdint.h>
#include <stdio.h>
#include <sys/stat.h>

#include <boardid.h>

/* The exit statuses. */
enum {
    STATUS_DONE = 0,    /* done */
    STATUS_REFUSED = 1, /* refused by the library, or no such name, or a name that fits two */
    STATUS_USAGE = 2,   /* a wrong command line */
    STATUS_FILE = 3,    /* a file cannot be read or written, or there is no memory */
    STATUS_BLANK = 4    /* the chip is blank */
};

/* ---- text.c -------------------------------------------------------------------------------- */

/* Text that grows. All 0 is the empty text. */
struct text {
    char *bytes; /* ends with a zero byte; null where nothing was added */
    size_t length;
    size_t room;
};

_Noreturn void no_memory(void);
void *memory(size_t length);
void text_add_list(struct text *text, const char *format, va_list arguments)
    __attribute__((format(printf, 2, 0)));
void text_add(struct text *text, const char *format, ...) __attribute__((format(printf, 2, 3)));
void text_put(struct text *text, const char *bytes, size_t length);
void text_escaped(struct text *text, const uint8_t *bytes, size_t length);
void text_quoted(struct text *text, const uint8_t *bytes, size_t length);
void text_word(struct text *text, const char *word);
void text_hex(struct text *text, const uint8_t *bytes, size_t length, const char *between);
void text_cut_hex(struct text *text, const uint8_t *bytes, size_t length);
const char *text_of(const struct text *text);
void text_free(struct text *text);
bool is_printable(const uint8_t *bytes, size_t length);
bool read_number(const char *word, uint64_t most, uint64_t *number);
bool read_hex(const char *word, uint8_t *bytes, size_t room, size_t *length);
json_t *json_word(const char *word);
json_t *json_hex(const uint8_t *bytes, size_t length);
json_t *json_printable(const uint8_t *bytes, size_t length);
void put(json_t *object, const char *key, json_t *value);
void append(json_t *array, json_t *value);

/* ---- main.c -------------------------------------------------------------------------------- */

/* What stands on the command line. */
struct options {
    uint32_t format; /* 0: to be detected */
    uint32_t edition;
    uint64_t offset, length, size, code;
    bool has_length, has_size, has_code;
    bool json, hex, raw, dry_run, in_place, names;
    char **words; /* those after the command */
    int count;    /* of words */
};

/* Why something is not done. */
struct problem {
    int number;       /* the refusal's; -1 where it has none */
    int64_t place;    /* in the file; -1 where none is known */
    int64_t entry;    /* its number; -1 where none is known */
    json_t *name;     /* the entry's, or null */
    const char *file; /* the file that it is about; null: the first of the command */
    struct text message, hint;
};

struct command;

/* One run of the command. */
struct job {
    const struct command *command;
    struct options options;
    const char *file; /* the file that the command is about, as it was typed; null: none */
    struct problem problem;
};

/* A command: its name, what it takes, and what does it. */
struct command {
    const char *name;
    const char *options; /* the letters of its options; \\1 is --names */
    int least, most;     /* words after its name */
    int (*run)(struct job *job);
    const char *usage; /* what follows the name */
    const char *what;  /* one line of what it does */
    const char *help;  /* the rest of its help */
};

extern const struct command commands[];
const struct command *find_command(const char *name);
void print_usage(const struct command *command, FILE *out);
void print_help(const struct command *command);
int refuse(struct job *job, int status, int number, const char *format, ...)
    __attribute__((format(printf, 4, 5)));
void hint(struct job *job, const char *format, ...) __attribute__((format(printf, 2, 3)));
int usage(struct job *job, const char *format, ...) __attribute__((format(printf, 2, 3)));
void print_json(json_t *object);
uint32_t newest_edition(void);

/* ---- files.c ------------------------------------------------------------------------------- */

enum {
    FILE_MAX = 16 * 1024 * 1024, /* the most bytes of a file that is changed */
    ROOM_MAX = BOARDID_IMAGE_MAX
};

/* A file that was read. */
struct input {
    const char *name; /* as it was typed; - is standard input */
    uint8_t *bytes;
    size_t length;
    bool there;       /* false: there is no such file, and it may be made */
    struct stat stat; /* of the file when it was read; not of standard input */
};

/* A run of bytes in which two files differ. Past the end of a file there are no bytes. */
struct run {
    size_t place;
    size_t end;
};

int read_input(struct job *job, const char *name, bool may_miss, struct input *input);
int may_write(struct job *job, const struct input *input, size_t length);
int write_output(struct job *job, const struct input *input, const uint8_t *bytes, size_t length);
bool next_run(const struct input *input, const uint8_t *bytes, size_t length, struct run *run);
void hold_standard(void);
bool is_standard(const char *name);
void put_file_name(struct text *text, const char *name);

/* ---- frames.c ------------------------------------------------------------------------------ */

/* What stands at a place where an entry may begin. */
enum frame_state {
    FRAME_ENTRY,      /* an entry, whole */
    FRAME_END,        /* what ends the entries */
    FRAME_NONE,       /* no byte: the entries run out */
    FRAME_CUT,        /* a length byte is missing */
    FRAME_LONG_KEY,   /* the key runs past the room */
    FRAME_LONG,       /* the value runs past the room */
    FRAME_FORBIDDEN,  /* a code that no entry can have */
    FRAME_BAD_LENGTH  /* a length byte that no entry can have */
};

struct frame {
    enum frame_state state;
    uint32_t code;
    size_t place, length; /* of the whole frame, where it is an entry or the end */
    size_t key_place, key_length;
    size_t value_place, value_length;
};

size_t frames_begin(uint32_t format);
size_t frames_end(uint32_t format, const uint8_t *bytes, size_t room);
struct frame frame_at(uint32_t format, const uint8_t *bytes, size_t room, size_t place);
size_t image_length(uint32_t format, const uint8_t *bytes, size_t room);

/* ---- images.c ------------------------------------------------------------------------------ */

/* An image, and its list where the library accepts it. */
struct image {
    uint32_t format, edition;
    const uint8_t *bytes;
    size_t room;     /* how many bytes it may have */
    uint64_t offset; /* of its first byte in the file */
    size_t length;   /* of the image, its end included */
    uint32_t count;
    struct boardid_record *records;
};

int find_room(struct job *job, const struct input *input, size_t *offset, size_t *room);
int find_format(struct job *job, const uint8_t *bytes, size_t room, uint64_t offset,
                uint32_t *format);
int explain_or_blank(struct job *job, const struct image *image, uint64_t answer);
int list_image(struct job *job, struct image *image);
int open_image(struct job *job, struct input *input, struct image *image);
int ask_string(const struct image *image, uint32_t number, struct boardid_part *part);
json_t *image_json(const struct job *job, const struct image *image);
int command_list(struct job *job);
int command_get(struct job *job);
int command_check(struct job *job);
int command_strings(struct job *job);

/* ---- names.c ------------------------------------------------------------------------------- */

/* How a value is typed and shown. */
enum type {
    TYPE_BYTES,
    TYPE_TEXT,
    TYPE_NUMBER,
    TYPE_ADDRESS,
    TYPE_STRING,
    TYPE_FLAGS,
    TYPE_IDENTITY,
    TYPE_DATE,
    TYPE_DATETIME,
    TYPE_POOL
};

/* A code that some edition names. */
struct known {
    uint32_t format, code;
    const char *shorts[2]; /* short names; null where there is none */
    enum type type;
    uint32_t length; /* of the value; 0: any */
};

const char *type_name(enum type type);
const char *format_word(uint32_t format);
const char *format_title(uint32_t format);
bool read_format(const char *word, uint32_t *format);
const struct known *find_known(uint32_t format, uint32_t code);
const char *code_title(uint32_t format, uint32_t code);
bool edition_names(uint32_t format, uint32_t edition, uint32_t code);
uint32_t edition_that_names(uint32_t format, uint32_t code);
uint32_t edition_that_has(uint32_t format);
void put_code(struct text *text, uint32_t format, uint32_t code);
void put_label(struct text *text, const struct image *image, uint32_t code, const uint8_t *key,
               size_t key_length);
void put_entry_label(struct text *text, const struct image *image, uint32_t n);
bool is_entry_number(const char *word, uint64_t *number);
void put_entry_name(struct text *text, const struct image *image, uint32_t n);
json_t *json_name(const struct image *image, uint32_t code, const uint8_t *key, size_t key_length);
bool name_fits(uint32_t format, uint32_t code, bool named, const char *word);
bool entry_fits(const struct image *image, uint32_t n, const char *word);
int find_entry(struct job *job, const struct image *image, const char *word, uint32_t *n);
int find_code(struct job *job, const struct image *image, const char *word, uint32_t *code);
json_t *json_shorts(uint32_t format, uint32_t code);
int command_names(struct job *job);

/* ---- show.c -------------------------------------------------------------------------------- */

enum style {
    STYLE_TABLE, /* for the table of list */
    STYLE_GET,   /* alone on a line */
    STYLE_SAID   /* in a sentence; text in quotes */
};

void show_value(struct text *text, const struct image *image, uint32_t n, enum style style);
json_t *entry_json(const struct image *image, uint32_t n);
json_t *string_json(const struct image *image, uint32_t number);

/* ---- explain.c ----------------------------------------------------------------------------- */

/* A field that was to be written, for what is said of it. */
struct wanted {
    uint32_t code;
    const uint8_t *key;
    size_t key_length;
    const uint8_t *value;
    size_t value_length;
};

int explain_too_long(struct job *job, size_t room);
int explain_image(struct job *job, const struct image *image, uint64_t answer);
int explain_rule(struct job *job, const struct image *image, const struct wanted *wanted,
                 int64_t place, bool writing);
int explain_not_named(struct job *job, const struct image *image, uint32_t code);
void prefix_entry(struct job *job, const struct image *image, int64_t entry, uint32_t code,
                  const uint8_t *key, size_t key_length, int64_t place);
int explain_no_room(struct job *job, const struct image *image, size_t need, size_t room);
void at_entry(struct job *job, const struct image *image, int64_t entry, uint32_t code,
              const uint8_t *key, size_t key_length, int64_t place);
int explain_missing(struct job *job, uint32_t format, const bool there[256]);

/* ---- values.c ------------------------------------------------------------------------------ */

/* The value of an identity as it was typed. Null and false: left out. */
struct typed_identity {
    char *serial, *part;
    bool has_revision, has_free, has_batch;
    uint8_t major, minor, free_bytes[2];
    uint32_t batch;
};

int typed_value(struct job *job, uint32_t format, uint32_t code, enum type type, const char *word,
                struct text *value);
int typed_identity(struct job *job, const char *words, struct typed_identity *identity);
bool read_address(const char *word, size_t length, uint8_t bytes[6]);
bool read_revision(const char *word, uint8_t *major, uint8_t *minor);
bool read_flags(const char *word, uint8_t *flags);
void stored_date(const char *word, struct text *value);
void stored_datetime(const char *word, struct text *value);

/* ---- pool.c -------------------------------------------------------------------------------- */

/* A Tiny pool that is being changed. */
struct pool {
    uint8_t bytes[256 + 256]; /* room to spare: a pool has at most 255 */
    size_t length;
    bool changed;
    int taken; /* a string that the entry counts by now, which may not be rewritten; -1: none */
};

void pool_of(const struct image *image, struct pool *pool, int64_t *entry);
int pool_number(struct job *job, const struct image *image, struct pool *pool, const char *string,
                int64_t own, int which, uint8_t *number);

/* ---- changes.c ----------------------------------------------------------------------------- */

/* What is said of a change once it is made. */
struct change {
    const char *done, *would; /* "set", "would set" */
    struct text said;         /* the rest of the sentence */
    int64_t entry;            /* -1: it is about none */
    json_t *name;             /* the entry's; null: none */
};

int too_long_to_change(struct job *job);
int check_change(struct job *job);
int open_change(struct job *job, struct input *input, struct image *image);
int new_room(struct job *job, const struct image *image, size_t *room);
int finish_image(struct job *job, const struct input *input, const struct image *image,
                 const uint8_t *out, size_t room, size_t length, struct change *change);
int finish_change(struct job *job, const struct input *input, const uint8_t *bytes, size_t length,
                  json_t *object, struct change *change);
int command_set(struct job *job);
int command_add(struct job *job);
int command_remove(struct job *job);
int command_vendor(struct job *job);
int command_write(struct job *job);
int command_room(struct job *job);
int command_help(struct job *job);

#endif
