/*
 * A fuzz harness over the sixteen calls of libboardid.a, for libFuzzer.
 *
 * It needs no second implementation: it holds the calls to what document 01 says of all of them,
 * and to each other. A call that is refused leaves lent memory as it was, an accepted write or edit
 * is read back, an add or a removal leaves every other entry byte for byte, a list is what its entries say one by one, each frame ends where the next entry or
 * the end begins, a date is a day, a payload is what the vendor extensions of a list hold, a room file is what its rows say and its bodies are what check accepts, and so on. Where something
 * does not hold the program stops.
 *
 * An input is seven bytes, then the second part, then the first part:
 *
 *   0     the call: check, list, entry, value, string, step, write, edit, vendor read, vendor write,
 *         add, remove, room add, room replace, room remove, room fetch
 *   1     the format, by number in FORMATS; of a room call, the new body's
 *   2     the edition, by number in EDITIONS
 *   3     n, or by number in NUMBERS from F0h on; the offsets of a vendor write are a multiple of it.
 *         A room call's board is that of row n / 3 or one more or less, or by number in NUMBERS
 *   4     bits 0 to 2: how much memory is lent, by number in `room_of`; bit 3: the image is given
 *         right checks first, and of ONIE the right length, and a room file the right head, rows
 *         and bodies; bits 4 to 7: how many bytes of a walk are cut off, or how long a block is, by
 *         number in BLOCKS, or a field, in FIELDS, or the form that a room call is told, in FORMS
 *   5, 6  the length of the second part, low byte first
 *
 * The first part is the image, the room file, the fields of a write, or the pieces of a vendor write.
 * The second part is the new value of an edit, the values of a write, the serial of a vendor write, the
 * field of an add with the values after it, or the new body of a room call.
 */

#define _DEFAULT_SOURCE /* MAP_ANONYMOUS */

#include <stdint.h>
#include <stdio.h>
#include <stdlib.h>
#include <string.h>
#include <sys/mman.h>
#include <unistd.h>

uint64_t boardid_check(uint32_t format, uint32_t edition, const uint8_t *image, size_t image_len);
uint64_t boardid_list(uint32_t format, uint32_t edition, const uint8_t *image, size_t image_len,
                      uint8_t *records, size_t records_len);
uint64_t boardid_entry(uint32_t format, uint32_t edition, const uint8_t *image, size_t image_len,
                       uint64_t n, uint8_t *record, size_t record_len);
uint64_t boardid_value(uint32_t format, uint32_t edition, const uint8_t *image, size_t image_len,
                       uint64_t n);
uint64_t boardid_string(uint32_t format, uint32_t edition, const uint8_t *image, size_t image_len,
                        uint64_t number);
uint64_t boardid_step(uint8_t *walk, size_t walk_len, const uint8_t *image, size_t image_len,
                      uint8_t *record, size_t record_len);
uint64_t boardid_write(uint32_t format, uint32_t edition, const uint8_t *fields, size_t fields_len,
                       const uint8_t *values, size_t values_len, uint8_t *out, size_t out_len);
uint64_t boardid_edit(uint32_t format, uint32_t edition, const uint8_t *image, size_t image_len,
                      uint64_t n, const uint8_t *value, size_t value_len, uint8_t *out,
                      size_t out_len);
uint64_t boardid_vendor_read(uint32_t format, uint32_t edition, const uint8_t *image,
                             size_t image_len, uint8_t *payload, size_t payload_len, uint8_t *block,
                             size_t block_len);
uint64_t boardid_vendor_write(uint32_t format, uint32_t edition, const uint8_t *serial,
                              size_t serial_len, uint64_t offsets, const uint8_t *pieces,
                              size_t pieces_len, uint8_t *out, size_t out_len);
uint64_t boardid_add(uint32_t format, uint32_t edition, const uint8_t *image, size_t image_len,
                     const uint8_t *field, size_t field_len, const uint8_t *values,
                     size_t values_len, uint8_t *out, size_t out_len);
uint64_t boardid_remove(uint32_t format, uint32_t edition, const uint8_t *image, size_t image_len,
                        uint64_t n, uint8_t *out, size_t out_len);
uint64_t boardid_room_add(uint32_t form, uint32_t edition, const uint8_t *file, size_t file_len,
                          uint32_t board, uint32_t format, const uint8_t *body, size_t body_len,
                          uint8_t *out, size_t out_len);
uint64_t boardid_room_replace(uint32_t form, uint32_t edition, const uint8_t *file, size_t file_len,
                              uint32_t board, uint32_t format, const uint8_t *body,
                              size_t body_len, uint8_t *out, size_t out_len);
uint64_t boardid_room_remove(uint32_t form, uint32_t edition, const uint8_t *file, size_t file_len,
                             uint32_t board, uint8_t *out, size_t out_len);
uint64_t boardid_room_fetch(uint32_t form, uint32_t edition, const uint8_t *file, size_t file_len,
                            uint32_t board);

enum {
    CHECK,
    LIST,
    ENTRY,
    VALUE,
    STRING,
    STEP,
    WRITE,
    EDIT,
    VENDOR_READ,
    VENDOR_WRITE,
    ADD,
    REMOVE,
    ROOM_ADD,
    ROOM_REPLACE,
    ROOM_REMOVE,
    ROOM_FETCH,
    CALLS
};

#define LONGEST 65536u
#define RECORD 64u
#define FIELD 20u
#define WALK 16u
#define BLOCK 48u
#define PREFIX 5u
#define HEAD 8u
#define ROW 8u

static const uint32_t FORMATS[8] = {1, 2, 3, 0, 4, 257, 260, UINT32_MAX};
static const uint32_t EDITIONS[8] = {1, 2, 0, 3, 4, 5, 260, UINT32_MAX};
#define NEWEST 4u
static const uint8_t BLOCKS[16] = {48, 48, 48, 47, 0, 49, 60, 96, 1, 4, 16, 32, 44, 46, 64, 95};
#define LONGEST_BLOCK 96u
static const uint8_t FIELDS[16] = {20, 20, 20, 20, 20, 20, 20, 20, 19, 0, 21, 40, 1, 16, 39, 60};
static const uint32_t FORMS[16] = {1, 1, 1, 1, 1, 1, 1, 1, 1, 1, 1, 1, 0, 2, 257, UINT32_MAX};
static const uint64_t NUMBERS[16] = {
    0xF0, 0xFF, 0x100, 0x101, 0x7FFF, 0xFFFF, 0x10000, 0x7FFFFFFF,
    0x80000000, 0xFFFFFFFF, 0x100000000, 0x100000001, 1ull << 58, 1ull << 63, UINT64_MAX - 1,
    UINT64_MAX};

/* Stops where a condition does not hold, and says which. */
#define HOLDS(condition)                                                      \
    do {                                                                      \
        if (!(condition)) {                                                   \
            fprintf(stderr, "fuzz.c:%d: not so: %s\n", __LINE__, #condition); \
            abort();                                                          \
        }                                                                     \
    } while (0)

/* libFuzzer takes these for coverage. The library has no counters of its own, so the answers it gives
   stand in for them. */
__attribute__((section("__libfuzzer_extra_counters"))) static uint8_t counters[CALLS * 32 * 64];

static unsigned log2_of(uint64_t number) {
    unsigned bits = 0;
    for (; number > 0; number >>= 1) bits++;
    return bits;
}

static unsigned refusal(uint64_t answer) { return (unsigned)(answer >> 59); }
static uint64_t place(uint64_t answer) { return answer & ((1ull << 59) - 1); }
static uint64_t count(uint64_t answer) { return place(answer) >> 32; }

static void counted(unsigned call, uint64_t answer) {
    uint64_t what = refusal(answer) != 0 ? place(answer) : count(answer);
    /* Small numbers one by one, others by their size. */
    unsigned bucket = what < 32 ? (unsigned)what : 32 + log2_of(what) % 32;
    counters[(call * 32 + refusal(answer)) * 64 + bucket] = 1;
}

/*
 * Lent memory. Each call is made three times: on heap blocks of exactly the length lent, which the
 * address sanitizer guards, and on memory that ends where a page that can't be touched begins, or
 * begins where one ends. The last two also catch the library's own code, which has no sanitizer.
 */
enum { HEAP, BEFORE_GUARD, AFTER_GUARD, WAYS };

struct lent {
    uint8_t *bytes;
    size_t len;
};

/* Room for the longest part of each kind, between two guard pages. */
#define ROOM (8u << 20)
enum { FIRST, OTHER, THIRD, OUT, BESIDE, PARTS };
static uint8_t *arenas[PARTS];
static size_t page;

static void make_arenas(void) {
    page = (size_t)sysconf(_SC_PAGESIZE);
    for (int part = 0; part < PARTS; part++) {
        uint8_t *all = mmap(NULL, ROOM + 2 * page, PROT_NONE, MAP_PRIVATE | MAP_ANONYMOUS, -1, 0);
        HOLDS(all != MAP_FAILED);
        HOLDS(mprotect(all + page, ROOM, PROT_READ | PROT_WRITE) == 0);
        arenas[part] = all + page;
    }
}

static struct lent lend(int way, int part, const uint8_t *bytes, size_t len) {
    struct lent lent = {NULL, len};
    HOLDS(len <= ROOM);
    switch (way) {
    case HEAP: lent.bytes = malloc(len); break;
    case BEFORE_GUARD: lent.bytes = arenas[part] + ROOM - len; break;
    default: lent.bytes = arenas[part]; break;
    }
    if (len > 0) memcpy(lent.bytes, bytes, len);
    return lent;
}

static void take_back(int way, struct lent lent) {
    if (way == HEAP) free(lent.bytes);
}

static int same(const uint8_t *a, const uint8_t *b, size_t len) {
    return len == 0 || memcmp(a, b, len) == 0;
}

/* What one input asks for. */
struct request {
    unsigned call;
    uint32_t format, edition, form, board;
    uint64_t n;
    unsigned room_mode, cut;
    const uint8_t *first, *other, *third;
    size_t first_len, other_len, third_len;
};

static int is_of_room(const struct request *r) { return r->call >= ROOM_ADD; }

/* The content of written memory before a call. */
static uint8_t *filled(size_t len) {
    uint8_t *bytes = malloc(len + 1);
    for (size_t i = 0; i < len; i++) bytes[i] = (uint8_t)(i * 167 + 91);
    return bytes;
}

/* What is written beside the output: a walk, or a block. Gives its length. */
static size_t before_beside(const struct request *r, uint8_t *beside) {
    if (r->call == VENDOR_READ) {
        for (unsigned i = 0; i < LONGEST_BLOCK; i++) beside[i] = (uint8_t)(i * 89 + 37);
        return BLOCKS[r->cut];
    }
    for (int i = 0; i < 4; i++) {
        beside[i] = (uint8_t)(r->format >> 8 * i);
        beside[4 + i] = (uint8_t)(r->edition >> 8 * i);
    }
    for (int i = 0; i < 8; i++) beside[8 + i] = (uint8_t)(r->n >> 8 * i);
    return WALK - r->cut;
}

/*
 * Makes the call of a request in every way, with so much memory lent, and holds it to what is true of
 * any call: the answer is one of the table, only what is lent to be written is written, and nothing
 * where the call is refused. Gives the answer, what was written in `out`, and the block of a vendor
 * read in `block`.
 */
static uint64_t make(const struct request *r, uint8_t *out, size_t out_len, uint8_t *block) {
    uint8_t *before = filled(out_len);
    uint8_t beside[LONGEST_BLOCK];
    size_t beside_len = before_beside(r, beside);

    uint64_t answer = 0;
    for (int way = 0; way < WAYS; way++) {
        struct lent a = lend(way, FIRST, r->first, r->first_len);
        struct lent b = lend(way, OTHER, r->other, r->other_len);
        struct lent c = lend(way, THIRD, r->third, r->third_len);
        struct lent o = lend(way, OUT, before, out_len);
        struct lent w = lend(way, BESIDE, beside, beside_len);
        uint32_t f = r->format, e = r->edition;
        uint64_t given = 0;
        switch (r->call) {
        case CHECK: given = boardid_check(f, e, a.bytes, a.len); break;
        case LIST: given = boardid_list(f, e, a.bytes, a.len, o.bytes, o.len); break;
        case ENTRY: given = boardid_entry(f, e, a.bytes, a.len, r->n, o.bytes, o.len); break;
        case VALUE: given = boardid_value(f, e, a.bytes, a.len, r->n); break;
        case STRING: given = boardid_string(f, e, a.bytes, a.len, r->n); break;
        case STEP: given = boardid_step(w.bytes, w.len, a.bytes, a.len, o.bytes, o.len); break;
        case WRITE:
            given = boardid_write(f, e, a.bytes, a.len, b.bytes, b.len, o.bytes, o.len);
            break;
        case EDIT:
            given = boardid_edit(f, e, a.bytes, a.len, r->n, b.bytes, b.len, o.bytes, o.len);
            break;
        case VENDOR_READ:
            given = boardid_vendor_read(f, e, a.bytes, a.len, o.bytes, o.len, w.bytes, w.len);
            break;
        case VENDOR_WRITE:
            given = boardid_vendor_write(f, e, b.bytes, b.len, r->n, a.bytes, a.len, o.bytes,
                                         o.len);
            break;
        case ADD:
            given = boardid_add(f, e, a.bytes, a.len, b.bytes, b.len, c.bytes, c.len, o.bytes,
                                o.len);
            break;
        case REMOVE: given = boardid_remove(f, e, a.bytes, a.len, r->n, o.bytes, o.len); break;
        case ROOM_ADD:
            given = boardid_room_add(r->form, e, a.bytes, a.len, r->board, f, b.bytes, b.len,
                                     o.bytes, o.len);
            break;
        case ROOM_REPLACE:
            given = boardid_room_replace(r->form, e, a.bytes, a.len, r->board, f, b.bytes, b.len,
                                         o.bytes, o.len);
            break;
        case ROOM_REMOVE:
            given = boardid_room_remove(r->form, e, a.bytes, a.len, r->board, o.bytes, o.len);
            break;
        default: given = boardid_room_fetch(r->form, e, a.bytes, a.len, r->board); break;
        }
        HOLDS(same(a.bytes, r->first, a.len));
        HOLDS(same(b.bytes, r->other, b.len));
        HOLDS(same(c.bytes, r->third, c.len));
        if (refusal(given) != 0) {
            HOLDS(same(o.bytes, before, o.len));
            HOLDS(same(w.bytes, beside, w.len));
        } else if (r->call == STEP) {
            uint64_t next = r->n + 1;
            HOLDS(w.len == WALK && same(w.bytes, beside, 8));
            for (int i = 0; i < 8; i++) HOLDS(w.bytes[8 + i] == (uint8_t)(next >> 8 * i));
        } else if (r->call == VENDOR_READ) {
            HOLDS(w.len >= BLOCK && same(w.bytes + BLOCK, beside + BLOCK, w.len - BLOCK));
        } else {
            HOLDS(same(w.bytes, beside, w.len));
        }
        int stays = r->call == VENDOR_READ || r->call == VENDOR_WRITE;
        if (refusal(given) == 0 && (stays || (is_of_room(r) && r->call != ROOM_FETCH))) {
            /* Bytes past the payload, the values or the new file stay. */
            uint64_t len = count(given);
            HOLDS(len <= o.len && same(o.bytes + len, before + len, o.len - len));
        }
        if (way == HEAP) {
            answer = given;
            if (out_len > 0) memcpy(out, o.bytes, out_len);
            if (r->call == VENDOR_READ && w.len >= BLOCK) memcpy(block, w.bytes, BLOCK);
        }
        HOLDS(given == answer);
        HOLDS(same(o.bytes, out, out_len));
        if (r->call == VENDOR_READ && w.len >= BLOCK) HOLDS(same(w.bytes, block, BLOCK));
        take_back(way, a);
        take_back(way, b);
        take_back(way, c);
        take_back(way, o);
        take_back(way, w);
    }
    free(before);
    counted(r->call, answer);

    unsigned number = refusal(answer);
    if (is_of_room(r)) {
        /* A new body's places count in it, all others in the file. */
        size_t most = r->first_len > r->other_len ? r->first_len : r->other_len;
        HOLDS(number <= 23 && (number == 0 || place(answer) <= most));
        HOLDS(number != 0 || r->call == ROOM_FETCH || (answer & UINT32_MAX) == 0);
        return answer;
    }
    int of_any_format = r->call != STRING && r->call != VENDOR_READ && r->call != VENDOR_WRITE;
    if (of_any_format && (r->call != STEP || beside_len == WALK)) {
        /* A format that there is, and an edition that there is not. */
        int no_edition = r->edition < 1 || r->edition > NEWEST;
        if (r->format >= 1 && r->format <= 4) HOLDS((number == 1) == no_edition);
    }
    HOLDS(number <= (r->call == VENDOR_READ || r->call == VENDOR_WRITE ? 20 : 16));
    if (number != 0 && !(number >= 5 && number <= 10) && number != 14) {
        HOLDS(place(answer) == 0 || (r->call == WRITE && number == 13));
    }
    if (number != 0) {
        HOLDS(place(answer) <= (r->call == WRITE ? r->first_len / FIELD : r->first_len));
    } else if (r->call != VALUE && r->call != STRING) {
        HOLDS((answer & UINT32_MAX) == 0);
    }
    return answer;
}

static uint32_t word(const uint8_t *bytes, unsigned number) {
    const uint8_t *at = bytes + 4 * number;
    return at[0] | (uint32_t)at[1] << 8 | (uint32_t)at[2] << 16 | (uint32_t)at[3] << 24;
}

/* The list of an image, or NULL where check refuses it. */
static uint8_t *listed(uint32_t format, uint32_t edition, const uint8_t *image, size_t len,
                       uint64_t *entries) {
    uint64_t answer = boardid_check(format, edition, image, len);
    *entries = 0;
    if (refusal(answer) != 0) return NULL;
    *entries = count(answer);
    uint8_t *records = malloc(*entries * RECORD + 1);
    HOLDS(boardid_list(format, edition, image, len, records, *entries * RECORD) == answer);
    return records;
}

/* Two lists with the same codes, keys and values, but for the value of one entry. */
static void hold_alike(const uint8_t *image, const uint8_t *records, const uint8_t *other_image,
                       const uint8_t *other_records, uint64_t entries, uint64_t but_for) {
    for (uint64_t i = 0; i < entries; i++) {
        const uint8_t *a = records + i * RECORD, *b = other_records + i * RECORD;
        HOLDS(word(a, 0) == word(b, 0) && word(a, 4) == word(b, 4));
        HOLDS(same(image + word(a, 3), other_image + word(b, 3), word(a, 4)));
        if (i == but_for) continue;
        HOLDS(word(a, 6) == word(b, 6));
        HOLDS(same(image + word(a, 5), other_image + word(b, 5), word(a, 6)));
    }
}

/* Where the entries of a format begin, and the first edition that has it. */
static uint64_t header_of(uint32_t format) {
    return format == 1 ? 4 : format == 2 ? 0 : format == 3 ? 3 : 11;
}
static uint32_t first_edition(uint32_t format) { return format == 4 ? 3 : 1; }

/* A record's reading is one of the ten. Dates stand with their codes alone: they are days, and carry
   what their digits say. */
static void hold_reading(const uint8_t *image, const uint8_t *record) {
    static const unsigned fboss_places[3] = {0, 4, 6}, onie_places[6] = {6, 0, 3, 11, 14, 17};
    static const uint32_t last_days[13] = {0, 31, 29, 31, 30, 31, 30, 31, 31, 30, 31, 30, 31};
    uint32_t kind = word(record, 1), reading = word(record, 8);
    HOLDS(reading <= 9 && (reading == 0 || kind != 0));
    HOLDS((reading == 8) == (kind == 256 + 13) && (reading == 9) == (kind == 1024 + 0x25));
    if (reading < 8) return;

    const uint8_t *value = image + word(record, 5);
    const unsigned *places = reading == 8 ? fboss_places : onie_places;
    unsigned carried = reading == 8 ? 3 : 6;
    uint32_t numbers[7] = {0};
    HOLDS(word(record, 6) == (reading == 8 ? 8 : 19));
    for (unsigned k = 0; k < carried; k++) {
        for (unsigned i = 0; i < (k == 0 ? 4u : 2u); i++) {
            uint8_t digit = value[places[k] + i];
            HOLDS(digit >= '0' && digit <= '9');
            numbers[k] = numbers[k] * 10 + (digit - '0');
        }
    }
    for (unsigned k = 0; k < 7; k++) HOLDS(word(record, 9 + k) == numbers[k]);
    uint32_t year = numbers[0], month = numbers[1], day = numbers[2];
    HOLDS(year >= 1 && month >= 1 && month <= 12 && day >= 1 && day <= last_days[month]);
    if (month == 2 && day == 29) {
        HOLDS(year % 4 == 0 && (year % 100 != 0 || year % 400 == 0));
    }
    HOLDS(numbers[3] <= 23 && numbers[4] <= 59 && numbers[5] <= 59);
}

/* The frames of a list: the entries begin after the header and lie without gaps, and the image's end is
   right after the last. From edition 4 on a record has the length of its frame. */
static void hold_frames(uint32_t format, uint32_t edition, const uint8_t *image, size_t len,
                        const uint8_t *records, uint64_t entries) {
    uint64_t at = header_of(format);
    for (uint64_t i = 0; i < entries; i++) {
        const uint8_t *record = records + i * RECORD;
        HOLDS(word(record, 2) == at && word(record, 3) > word(record, 2));
        HOLDS((uint64_t)word(record, 3) + word(record, 4) <= word(record, 5));
        uint64_t end = (uint64_t)word(record, 5) + word(record, 6);
        HOLDS(word(record, 7) == (edition < 4 ? 0 : end - at));
        HOLDS(end < len);
        at = end;
    }
    switch (format) {
    case 1: HOLDS(at + 4 <= len && image[at] == 250 && image[at + 1] == 2); break;
    case 2: HOLDS(at < len && (image[at] == 0x00 || image[at] == 0xFF)); break;
    case 3: HOLDS(at + 1 == image[2] && image[2] <= len); break;
    default:
        /* The end and its check, and the declared length ends with them. */
        HOLDS(at + 6 <= len && image[at] == 0xFE && image[at + 1] == 4);
        HOLDS(at + 6 == 11 + ((uint64_t)image[9] << 8 | image[10]) && at + 6 <= 2059);
        break;
    }
}

/* An image that is accepted: its list, entry by entry, and those of the older editions. */
static void hold_image(const struct request *r) {
    uint64_t entries, others;
    /* Edition 4 names what edition 3 names. */
    HOLDS(boardid_check(r->format, 4, r->first, r->first_len) ==
          boardid_check(r->format, 3, r->first, r->first_len));
    uint8_t *records = listed(r->format, r->edition, r->first, r->first_len, &entries);
    if (records == NULL) return;
    hold_frames(r->format, r->edition, r->first, r->first_len, records, entries);
    for (uint64_t i = 0; i < entries; i++) {
        const uint8_t *record = records + i * RECORD;
        HOLDS(word(record, 1) == 0 || word(record, 1) == r->format * 256 + word(record, 0));
        hold_reading(r->first, record);
        /* One by one is as slow as it sounds: a few are enough. */
        if (i < 8 || i + 2 > entries) {
            uint8_t one[RECORD];
            uint64_t value = boardid_value(r->format, r->edition, r->first, r->first_len, i);
            HOLDS(value == ((uint64_t)word(record, 6) << 32 | word(record, 5)));
            HOLDS(boardid_entry(r->format, r->edition, r->first, r->first_len, i, one, RECORD) ==
                  1ull << 32);
            HOLDS(same(one, record, RECORD));
            uint8_t walk[WALK] = {0};
            for (int k = 0; k < 4; k++) {
                walk[k] = (uint8_t)(r->format >> 8 * k);
                walk[4 + k] = (uint8_t)(r->edition >> 8 * k);
                walk[8 + k] = (uint8_t)(i >> 8 * k);
            }
            HOLDS(boardid_step(walk, WALK, r->first, r->first_len, one, RECORD) == 1ull << 32);
            HOLDS(same(one, record, RECORD));
        }
    }
    HOLDS(refusal(boardid_value(r->format, r->edition, r->first, r->first_len, entries)) == 13);
    for (uint32_t e = first_edition(r->format); e < r->edition; e++) {
        uint8_t *older = listed(r->format, e, r->first, r->first_len, &others);
        HOLDS(older != NULL && others == entries);
        hold_alike(r->first, records, r->first, older, entries, UINT64_MAX);
        hold_frames(r->format, e, r->first, r->first_len, older, entries);
        /* Edition 3 names nothing new in the formats that edition 2 has, and edition 4 in none: the
           records are the same but for the length of the frame. */
        for (uint64_t i = 0; e >= 2 && i < entries; i++) {
            const uint8_t *a = records + i * RECORD, *b = older + i * RECORD;
            HOLDS(same(a, b, 28) && same(a + 32, b + 32, RECORD - 32));
        }
        free(older);
    }
    free(records);
}

/* An output: FFh after the image, which is accepted whole and up to its length. */
static uint8_t *hold_output(const struct request *r, const uint8_t *out, size_t out_len,
                            uint64_t len, uint64_t *entries) {
    HOLDS(len > 0 && len <= out_len);
    for (size_t i = len; i < out_len; i++) HOLDS(out[i] == 0xFF);
    uint64_t whole = boardid_check(r->format, r->edition, out, out_len);
    HOLDS(refusal(whole) == 0);
    HOLDS(boardid_check(r->format, r->edition, out, len) == whole);
    /* No shorter beginning of the output is an image. */
    HOLDS(refusal(boardid_check(r->format, r->edition, out, len - 1)) != 0);
    /* The frames of both, as every edition that accepts them. */
    for (uint32_t e = first_edition(r->format); e <= NEWEST; e++) {
        for (int part = 0; part < 2; part++) {
            size_t image_len = part ? len : out_len;
            uint8_t *records = listed(r->format, e, out, image_len, entries);
            if (records == NULL) continue;
            hold_frames(r->format, e, out, image_len, records, *entries);
            free(records);
        }
    }
    return listed(r->format, r->edition, out, len, entries);
}

/* A write that is accepted reads back. */
static void hold_write(const struct request *r, const uint8_t *out, size_t out_len, uint64_t len) {
    uint64_t entries;
    uint8_t *records = hold_output(r, out, out_len, len, &entries);
    HOLDS(entries == r->first_len / FIELD);
    for (uint64_t i = 0; i < entries; i++) {
        const uint8_t *field = r->first + i * FIELD, *record = records + i * RECORD;
        uint32_t key_len = r->format == 2 ? word(field, 2) : 0;
        HOLDS(word(record, 0) == word(field, 0));
        HOLDS(word(record, 1) == r->format * 256 + word(field, 0));
        HOLDS(word(record, 4) == key_len && word(record, 6) == word(field, 4));
        if (key_len > 0) {
            HOLDS(same(out + word(record, 3), r->other + word(field, 1), key_len));
        }
        HOLDS(same(out + word(record, 5), r->other + word(field, 3), word(field, 4)));
    }
    free(records);
}

/* An edit that is accepted changes the one value. */
static void hold_edit(const struct request *r, const uint8_t *out, size_t out_len, uint64_t len) {
    uint64_t entries, before;
    uint8_t *records = hold_output(r, out, out_len, len, &entries);
    uint8_t *old = listed(r->format, r->edition, r->first, r->first_len, &before);
    HOLDS(old != NULL && before == entries && r->n < entries);
    hold_alike(r->first, old, out, records, entries, r->n);
    const uint8_t *record = records + r->n * RECORD;
    HOLDS(word(record, 6) == r->other_len);
    HOLDS(same(out + word(record, 5), r->other, r->other_len));
    /* What an edition accepted, it still accepts. */
    for (uint32_t e = first_edition(r->format); e <= NEWEST; e++) {
        if (refusal(boardid_check(r->format, e, r->first, r->first_len)) == 0) {
            HOLDS(refusal(boardid_check(r->format, e, out, len)) == 0);
        }
    }
    free(records);
    free(old);
}

/* How many bytes the end of a format has, and how many an image of it at most. */
static uint64_t end_of(uint32_t format) { return format == 1 ? 4 : format == 4 ? 6 : 1; }
static uint64_t longest(uint32_t format) {
    return format == 3 ? 255 : format == 4 ? 2059 : LONGEST;
}

/* Where an entry of a list begins, and how many bytes its frame has. */
static uint64_t at_of(const uint8_t *record) { return word(record, 2); }
static uint64_t frame_of(const uint8_t *record) {
    return (uint64_t)word(record, 5) + word(record, 6) - word(record, 2);
}

/* How many bytes a VPD length has in its shortest form. */
static uint64_t shortest(uint64_t length) {
    return length < 1u << 7 ? 1 : length < 1u << 14 ? 2 : length < 1u << 21 ? 3 : 4;
}

/* The length of the frame of a new entry. */
static uint64_t frame_of_field(const struct request *r) {
    uint64_t key = word(r->other, 2), value = word(r->other, 4);
    if (r->format == 2) return 1 + shortest(key) + key + shortest(value) + value;
    return (r->format == 3 && word(r->other, 0) >> 4 != 0 ? 1 : 2) + value;
}

/* Whether a part of a field lies inside the values. */
static int inside(const struct request *r, unsigned number) {
    return (uint64_t)word(r->other, number) + word(r->other, number + 1) <= r->third_len;
}

/* Whether an entry stands in the way of a field: one of its code, of VPD type 01h one of its key too. */
static int is_there(const struct request *r, const uint8_t *records, uint64_t entries) {
    uint32_t code = word(r->other, 0), key_len = word(r->other, 2);
    if (r->format == 4 && code == 0xFD) return 0;
    for (uint64_t i = 0; i < entries; i++) {
        const uint8_t *record = records + i * RECORD;
        if (word(record, 0) != code) continue;
        if (r->format != 2 || code != 1) return 1;
        if (word(record, 4) == key_len &&
            same(r->first + word(record, 3), r->third + word(r->other, 1), key_len)) {
            return 1;
        }
    }
    return 0;
}

/* What an add is refused for but for its length, 0 where for nothing: parts outside the values, then what
   a write of the field alone says of its code and its rule, then an entry in its way. */
static unsigned field_refusal(const struct request *r, const uint8_t *records, uint64_t entries) {
    if (r->other_len < FIELD || !inside(r, 3) || (r->format == 2 && !inside(r, 1))) return 13;
    uint8_t *out = malloc(LONGEST);
    uint64_t alone = boardid_write(r->format, r->edition, r->other, FIELD, r->third, r->third_len,
                                   out, LONGEST);
    free(out);
    if (refusal(alone) == 14 || refusal(alone) == 7) return refusal(alone);
    return is_there(r, records, entries) ? 8 : 0;
}

/* A list that is another with one entry more, at a number. */
static void hold_one_more(const uint8_t *image, const uint8_t *records, const uint8_t *more_image,
                          const uint8_t *more_records, uint64_t entries, uint64_t number) {
    hold_alike(image, records, more_image, more_records, number, UINT64_MAX);
    hold_alike(image, records + number * RECORD, more_image, more_records + (number + 1) * RECORD,
               entries - number, UINT64_MAX);
}

/* An add or a removal that is not refused, of an entry of this number: every other entry stays byte for
   byte, and what editions accepted of the image, they read on with that entry added or gone. */
static void hold_changed(const struct request *r, const uint8_t *out, size_t out_len, uint64_t len,
                         const uint8_t *old, uint64_t before, uint64_t number) {
    uint64_t entries, others, adding = r->call == ADD;
    uint8_t *records = hold_output(r, out, out_len, len, &entries);
    HOLDS(adding ? entries == before + 1 : entries + 1 == before);
    const uint8_t *record = (adding ? records : old) + number * RECORD;
    uint64_t at = at_of(record), frame = frame_of(record), header = header_of(r->format);
    uint64_t end = header;
    for (uint64_t i = 0; i < before; i++) end += frame_of(old + i * RECORD);
    uint64_t more = adding ? frame : 0, less = adding ? 0 : frame;
    HOLDS(same(out + header, r->first + header, at - header));
    HOLDS(same(out + at + more, r->first + at + less, end - at - less));
    HOLDS(len == end + more - less + end_of(r->format));
    if (r->format == 2) HOLDS(out[len - 1] == 0x00);
    if (adding) {
        uint32_t key_len = r->format == 2 ? word(r->other, 2) : 0;
        HOLDS(frame == frame_of_field(r));
        HOLDS(word(record, 0) == word(r->other, 0));
        HOLDS(word(record, 1) == r->format * 256 + word(r->other, 0));
        HOLDS(word(record, 4) == key_len && word(record, 6) == word(r->other, 4));
        if (key_len > 0) HOLDS(same(out + word(record, 3), r->third + word(r->other, 1), key_len));
        HOLDS(same(out + word(record, 5), r->third + word(r->other, 3), word(record, 6)));
    }
    for (uint32_t e = r->edition; e <= NEWEST; e++) {
        uint8_t *former = listed(r->format, e, r->first, r->first_len, &others);
        if (former == NULL) continue;
        uint8_t *later = listed(r->format, e, out, e % 2 ? len : out_len, &others);
        HOLDS(later != NULL && others == entries);
        if (adding) {
            hold_one_more(r->first, former, out, later, before, number);
        } else {
            hold_one_more(out, later, r->first, former, entries, number);
        }
        free(former);
        free(later);
    }
    /* What was added, removed: the entries that there were. */
    if (adding) {
        uint8_t *back = malloc(len);
        uint64_t left = boardid_remove(r->format, r->edition, out, out_len, number, back, len);
        HOLDS(left == (end + end_of(r->format)) << 32);
        HOLDS(same(back + header, r->first + header, end - header));
        HOLDS(r->format == 2 || same(back, r->first, count(left)));
        free(back);
    }
    free(records);
}

/* An add or a removal: after what check refuses, it is about the list, the field or the number, and the
   room alone. */
static void hold_change(const struct request *r, uint64_t answer, const uint8_t *out,
                        size_t out_len) {
    uint64_t entries, checked = boardid_check(r->format, r->edition, r->first, r->first_len);
    unsigned known = refusal(checked);
    if (known == 16 || known == 1) {
        HOLDS(answer == checked);
        return;
    }
    if (out_len > LONGEST || r->first_len > LONGEST) {
        HOLDS(answer == 2ull << 59);
        return;
    }
    uint8_t *records = listed(r->format, r->edition, r->first, r->first_len, &entries);
    if (records == NULL) {
        HOLDS(answer == checked);
        return;
    }
    uint64_t number = r->n, place_given = 0, len = header_of(r->format) + end_of(r->format);
    for (uint64_t i = 0; i < entries; i++) len += frame_of(records + i * RECORD);
    unsigned expected;
    if (r->call == ADD) {
        expected = field_refusal(r, records, entries);
        /* In Tiny the pool stays the last. */
        int pool = r->format == 3 && entries > 0 && word(records + (entries - 1) * RECORD, 0) == 1;
        number = entries - (uint64_t)pool;
        if (expected == 0) len += frame_of_field(r);
    } else if (number >= entries) {
        expected = 13;
    } else {
        const uint8_t *record = records + number * RECORD;
        uint32_t code = word(record, 0);
        int required = r->format == 1 && (code == 1 || (code >= 8 && code <= 11));
        expected = word(record, 1) == 0 ? 14 : required ? 11 : 0;
        if (expected == 14) place_given = at_of(record);
        len -= frame_of(record);
    }
    if (expected == 0 && (len > out_len || len > longest(r->format))) expected = 12;
    if (expected != 0) {
        HOLDS(answer == ((uint64_t)expected << 59 | place_given));
    } else {
        HOLDS(answer == len << 32);
        hold_changed(r, out, out_len, len, records, entries, number);
    }
    free(records);
}

/* What a vendor extension begins with where a piece of a payload follows. */
static const uint8_t prefix[PREFIX] = {0x00, 0x00, 0x1F, 0x79, 0x00};

static uint32_t check32(const uint8_t *bytes, size_t len) {
    uint32_t check = UINT32_MAX;
    for (size_t i = 0; i < len; i++) {
        check ^= bytes[i];
        for (int bit = 0; bit < 8; bit++) check = check >> 1 ^ (check & 1) * 0xEDB88320u;
    }
    return ~check;
}

/* What a payload is refused for: its length, then its check, then its block. 0 where it is not. */
static unsigned payload_refusal(const uint8_t *payload, uint64_t len) {
    if (len == 0 || len < 3 + (uint64_t)payload[0]) return 18;
    const uint8_t *rest = payload + 1 + payload[0];
    unsigned block = (unsigned)rest[0] << 8 | rest[1];
    if (len != 7 + (uint64_t)payload[0] + block) return 18;
    uint32_t check = check32(payload, len - 4);
    for (int i = 0; i < 4; i++) {
        if (payload[len - 4 + i] != (uint8_t)(check >> (24 - 8 * i))) return 19;
    }
    return block == 9 && rest[2] == 0 ? 0 : 20;
}

/* A block says where the parts of a payload are, and what its offsets are. */
static void hold_block(const uint8_t *payload, const uint8_t *block) {
    uint32_t serial = payload[0];
    HOLDS(word(block, 0) == 1 && word(block, 1) == serial);
    HOLDS(word(block, 2) == 3 + serial && word(block, 3) == 9);
    for (unsigned k = 0; k < 8; k++) {
        HOLDS((int32_t)word(block, 4 + k) == (int8_t)payload[4 + serial + k]);
    }
}

/* A vendor call of another format or edition, or into an output that is too long. */
static int hold_known(const struct request *r, uint64_t answer, size_t out_len) {
    int unknown_edition = r->edition < 1 || r->edition > NEWEST;
    if (r->format != 4 || r->edition < first_edition(4) || unknown_edition) {
        HOLDS(refusal(answer) == (r->format == 4 && unknown_edition ? 1 : 16));
        return 0;
    }
    if (out_len > LONGEST || (r->call == VENDOR_READ && r->first_len > LONGEST)) {
        HOLDS(refusal(answer) == 2);
        return 0;
    }
    return 1;
}

/* A vendor read: after what check refuses, it is about what the matching entries of the list hold. */
static void hold_vendor_read(const struct request *r, uint64_t answer, const uint8_t *out,
                             size_t out_len, const uint8_t *block) {
    if (!hold_known(r, answer, out_len)) return;
    uint64_t entries;
    uint8_t *records = listed(r->format, r->edition, r->first, r->first_len, &entries);
    if (records == NULL) {
        HOLDS(answer == boardid_check(r->format, r->edition, r->first, r->first_len));
        return;
    }
    uint8_t joined[2048];
    uint64_t len = 0;
    int matching = 0;
    for (uint64_t i = 0; i < entries; i++) {
        const uint8_t *record = records + i * RECORD, *value = r->first + word(record, 5);
        uint32_t value_len = word(record, 6);
        if (word(record, 0) != 0xFD || value_len < PREFIX || !same(value, prefix, PREFIX)) continue;
        matching = 1;
        memcpy(joined + len, value + PREFIX, value_len - PREFIX);
        len += value_len - PREFIX;
    }
    free(records);
    unsigned expected = matching ? payload_refusal(joined, len) : 17;
    if (expected == 0 && (out_len < len || BLOCKS[r->cut] < BLOCK)) expected = 12;
    HOLDS(refusal(answer) == expected);
    if (expected == 0) {
        HOLDS(count(answer) == len && same(out, joined, len));
        hold_block(joined, block);
    }
}

/* What a vendor write is refused for: the serial's length, a piece's, or their sum. */
static unsigned pieces_refusal(const struct request *r, size_t out_len) {
    uint64_t pieces = r->first_len / 4, sum = 0;
    for (uint64_t i = 0; i < pieces; i++) {
        uint32_t piece = word(r->first, (unsigned)i);
        if (piece > 250) return 18;
        sum += piece;
    }
    if (r->other_len > 255 || sum != 16 + r->other_len) return 18;
    return pieces * PREFIX + sum > out_len ? 12 : 0;
}

/* A vendor write: the prefix and a piece, one after another. Put into an image they read back. */
static void hold_vendor_write(const struct request *r, uint64_t answer, const uint8_t *out,
                              size_t out_len) {
    if (!hold_known(r, answer, out_len)) return;
    HOLDS(refusal(answer) == pieces_refusal(r, out_len));
    if (refusal(answer) != 0) return;
    uint64_t pieces = r->first_len / 4, len = 16 + r->other_len, at = 0, joined = 0;
    uint8_t payload[271], block[BLOCK], image[2059], read[271];
    uint8_t *fields = malloc(pieces * FIELD + 1);
    HOLDS(count(answer) == pieces * PREFIX + len);
    for (uint64_t i = 0; i < pieces; i++) {
        uint32_t piece = word(r->first, (unsigned)i);
        HOLDS(same(out + at, prefix, PREFIX));
        if (piece > 0) memcpy(payload + joined, out + at + PREFIX, piece);
        uint32_t words[5] = {0xFD, 0, 0, (uint32_t)at, PREFIX + piece};
        for (unsigned k = 0; k < FIELD; k++) {
            fields[i * FIELD + k] = (uint8_t)(words[k / 4] >> 8 * (k % 4));
        }
        at += PREFIX + piece;
        joined += piece;
    }
    HOLDS(payload_refusal(payload, len) == 0);
    HOLDS(payload[0] == r->other_len && same(payload + 1, r->other, r->other_len));
    for (unsigned k = 0; k < 8; k++) {
        HOLDS(payload[4 + r->other_len + k] == (uint8_t)(r->n >> 8 * k));
    }
    uint64_t made = boardid_write(4, r->edition, fields, pieces * FIELD, out, at, image, 2059);
    free(fields);
    if (refusal(made) != 0) {
        /* More than an image holds. */
        HOLDS(refusal(made) == 12 && at + 2 * pieces > 2042);
        return;
    }
    HOLDS(boardid_vendor_read(4, r->edition, image, count(made), read, len, block, BLOCK) ==
          len << 32);
    HOLDS(same(read, payload, len));
    hold_block(payload, block);
}

/* A board of a room file: its row, and where its body lies. */
struct board {
    uint32_t number;
    uint32_t format;
    size_t at, len;
};

/* The boards of a room file, or NULL where its head or its contents are wrong. */
static struct board *boards_of(const uint8_t *file, size_t len, size_t *boards) {
    static const uint8_t start[4] = {0x52, 0x4D, 0x01, 0x00};
    *boards = 0;
    if (len < HEAD || !same(file, start, 4) || file[6] != 0 || file[7] != 0) return NULL;
    size_t count = (size_t)file[4] << 8 | file[5], at = HEAD + count * ROW;
    if (at > len) return NULL;
    struct board *all = malloc(count * sizeof *all + 1);
    int right = 1;
    for (size_t i = 0; i < count; i++) {
        const uint8_t *row = file + HEAD + i * ROW;
        all[i].number = (uint32_t)row[0] << 24 | (uint32_t)row[1] << 16 | row[2] << 8 | row[3];
        all[i].format = row[4];
        all[i].at = at;
        all[i].len = (size_t)row[6] << 8 | row[7];
        at += all[i].len;
        if (row[5] != 0 || all[i].len == 0) right = 0;
        if (i > 0 && all[i].number <= all[i - 1].number) right = 0;
    }
    if (right && at == len) {
        *boards = count;
        return all;
    }
    free(all);
    return NULL;
}

/* What a room call is refused for after 21 and before 12: a board that is there or not, a stored body, or
   the new one. 0 where for nothing. */
static uint64_t board_refusal(const struct request *r, const struct board *all, size_t boards,
                              int there) {
    if (r->call == ROOM_ADD && there) return 23ull << 59;
    if (r->call != ROOM_ADD && !there) return 22ull << 59;
    for (size_t i = 0; i < boards; i++) {
        uint64_t own = boardid_check(all[i].format, r->edition, r->first + all[i].at, all[i].len);
        if (refusal(own) != 0) return own + all[i].at;
    }
    if (r->call != ROOM_ADD && r->call != ROOM_REPLACE) return 0;
    uint64_t own = boardid_check(r->format, r->edition, r->other, r->other_len);
    return refusal(own) != 0 ? own : 0;
}

/* The file that a room call made, of so many boards below its own: every other row and body as it was, and
   what is done can be undone. */
static void hold_made_room(const struct request *r, const uint8_t *out, uint64_t len,
                           const struct board *old, size_t before, size_t below) {
    size_t boards, added = r->call == ROOM_ADD, removed = r->call == ROOM_REMOVE;
    struct board *all = boards_of(out, len, &boards);
    HOLDS(all != NULL && boards == before + added - removed);
    for (size_t i = 0; i < before; i++) {
        if (i == below && !added) continue;
        const struct board *now = all + (i < below ? i : i + added - removed);
        HOLDS(now->number == old[i].number && now->format == old[i].format);
        HOLDS(now->len == old[i].len && same(out + now->at, r->first + old[i].at, now->len));
        /* One by one is as slow as it sounds: a few are enough. */
        if (i < 4 || i + 2 > before) {
            HOLDS(boardid_room_fetch(1, r->edition, out, len, now->number) ==
                  ((uint64_t)now->len << 32 | now->at));
        }
    }
    uint64_t fetched = boardid_room_fetch(1, r->edition, out, len, r->board), back;
    uint8_t *was = malloc(r->first_len);
    if (removed) {
        HOLDS(fetched == 22ull << 59);
        back = boardid_room_add(1, r->edition, out, len, r->board, old[below].format,
                                r->first + old[below].at, old[below].len, was, r->first_len);
    } else {
        const struct board *new = all + below;
        HOLDS(new->number == r->board && new->format == r->format && new->len == r->other_len);
        HOLDS(same(out + new->at, r->other, new->len));
        HOLDS(fetched == ((uint64_t)new->len << 32 | new->at));
        back = added ? boardid_room_remove(1, r->edition, out, len, r->board, was, r->first_len)
                     : boardid_room_replace(1, r->edition, out, len, r->board, old[below].format,
                                            r->first + old[below].at, old[below].len, was,
                                            r->first_len);
    }
    HOLDS(back == (uint64_t)r->first_len << 32 && same(was, r->first, r->first_len));
    free(was);
    free(all);
}

/* A room call: it is about the edition, the lengths, the contents, the boards, what check says of each body,
   and the room, in this order. */
static void hold_room(const struct request *r, uint64_t answer, const uint8_t *out,
                      size_t out_len) {
    if (r->edition < 1 || r->edition > NEWEST) {
        HOLDS(answer == 1ull << 59);
        return;
    }
    if (r->first_len > LONGEST || (r->call != ROOM_FETCH && out_len > LONGEST)) {
        HOLDS(answer == 2ull << 59);
        return;
    }
    size_t boards, below = 0;
    struct board *all = r->form == 1 ? boards_of(r->first, r->first_len, &boards) : NULL;
    if (all == NULL) {
        HOLDS(answer == 21ull << 59);
        return;
    }
    while (below < boards && all[below].number < r->board) below++;
    int there = below < boards && all[below].number == r->board;
    uint64_t expected = board_refusal(r, all, boards, there), len = r->first_len;
    if (r->call == ROOM_ADD) len += ROW + r->other_len;
    if (r->call == ROOM_REPLACE && there) len = len + r->other_len - all[below].len;
    if (r->call == ROOM_REMOVE && there) len -= ROW + all[below].len;
    if (expected != 0) {
        HOLDS(answer == expected);
    } else if (r->call == ROOM_FETCH) {
        HOLDS(answer == ((uint64_t)all[below].len << 32 | all[below].at));
    } else if (len > out_len) {
        HOLDS(answer == 12ull << 59);
    } else {
        HOLDS(answer == len << 32);
        hold_made_room(r, out, len, all, boards, below);
    }
    free(all);
}

/* How much memory is lent to be written, by the number of a mode and what just suffices. */
static size_t room_of(unsigned mode, size_t enough) {
    switch (mode) {
    case 0: return enough;
    case 1: return enough > 0 ? enough - 1 : 0;
    case 2: return 0;
    case 3: return enough + 1;
    case 4: return enough + 63;
    case 5: return enough + 64;
    case 6: return LONGEST;
    default: return LONGEST + 1;
    }
}

/* Gives an image right checks, and of ONIE the right length, so that more than those is reached. */
static void seal(uint32_t format, uint8_t *image, size_t len) {
    if (format == 1) {
        size_t at = 4;
        while (at + 4 <= len && image[at] != 250) at += 2 + (size_t)image[at + 1];
        if (at + 4 > len) return;
        uint16_t check = 0x1D0F;
        for (size_t i = 0; i < at; i++) {
            check ^= (uint16_t)(image[i] << 8);
            for (int bit = 0; bit < 8; bit++) {
                check = (uint16_t)(check << 1 ^ (check >> 15) * 0x1021);
            }
        }
        image[at + 2] = (uint8_t)(check >> 8);
        image[at + 3] = (uint8_t)check;
    } else if (format == 3 && len > 2 && image[2] >= 4 && image[2] <= len) {
        uint8_t check = 0;
        for (size_t i = 0; i + 1 < image[2]; i++) {
            check ^= image[i];
            for (int bit = 0; bit < 8; bit++) check = (uint8_t)(check << 1 ^ (check >> 7) * 0x07);
        }
        image[image[2] - 1] = check;
    } else if (format == 4) {
        size_t at = 11;
        while (at + 6 <= len && image[at] != 0xFE) at += 2 + (size_t)image[at + 1];
        if (at + 6 > len) return;
        image[9] = (uint8_t)((at - 5) >> 8);
        image[10] = (uint8_t)(at - 5);
        uint32_t check = check32(image, at + 2);
        for (int i = 0; i < 4; i++) image[at + 2 + i] = (uint8_t)(check >> (24 - 8 * i));
    }
}

/* Gives the payload of an ONIE image its right check, wherever the pieces lie. */
static void seal_payload(uint8_t *image, size_t len) {
    uint8_t joined[4096];
    size_t places[4096], count = 0;
    for (size_t at = 11; at + 6 <= len && image[at] != 0xFE; at += 2 + (size_t)image[at + 1]) {
        size_t end = at + 2 + image[at + 1];
        if (end > len || image[at] != 0xFD || image[at + 1] < PREFIX) continue;
        if (!same(image + at + 2, prefix, PREFIX)) continue;
        for (size_t i = at + 2 + PREFIX; i < end && count < sizeof joined; i++) {
            joined[count] = image[i];
            places[count++] = i;
        }
    }
    if (count < 4) return;
    uint32_t check = check32(joined, count - 4);
    for (int i = 0; i < 4; i++) image[places[count - 4 + i]] = (uint8_t)(check >> (24 - 8 * i));
}

/* Gives a room file a right head, rows that rise, and bodies that fill it and have right checks. */
static void seal_room(uint8_t *file, size_t len) {
    static const uint8_t start[4] = {0x52, 0x4D, 0x01, 0x00};
    if (len < HEAD) return;
    memcpy(file, start, 4);
    file[6] = file[7] = 0;
    size_t count = (size_t)file[4] << 8 | file[5], most = (len - HEAD) / (ROW + 1);
    if (count > most) count = most;
    /* A file without boards is a head alone. */
    if (count == 0 && most > 0) count = 1;
    file[4] = (uint8_t)(count >> 8);
    file[5] = (uint8_t)count;
    size_t at = HEAD + count * ROW;
    uint64_t last = 0;
    for (size_t i = 0; i < count; i++) {
        uint8_t *row = file + HEAD + i * ROW;
        uint64_t number = (uint64_t)row[0] << 24 | (uint64_t)row[1] << 16 | row[2] << 8 | row[3];
        size_t left = len - at - (count - i - 1), body = (size_t)row[6] << 8 | row[7];
        if (i > 0 && number <= last) number = last + 1;
        if (body == 0) body = 1;
        if (body > left || i + 1 == count) body = left;
        for (int k = 0; k < 4; k++) row[k] = (uint8_t)(number >> (24 - 8 * k));
        row[5] = 0;
        row[6] = (uint8_t)(body >> 8);
        row[7] = (uint8_t)body;
        seal(row[4], file + at, body);
        at += body;
        last = number;
    }
}

/* The board of a room call: that of a row, one more or one less, or another number. */
static uint32_t board_of(uint8_t n, const uint8_t *file, size_t len) {
    size_t count = len < HEAD + ROW ? 0 : (size_t)file[4] << 8 | file[5];
    if (n >= 0xF0 || count == 0) return (uint32_t)NUMBERS[n % 16];
    if (count > (len - HEAD) / ROW) count = (len - HEAD) / ROW;
    const uint8_t *row = file + HEAD + n / 3 % count * ROW;
    uint32_t number = (uint32_t)row[0] << 24 | (uint32_t)row[1] << 16 | row[2] << 8 | row[3];
    return n % 3 == 0 ? number : n % 3 == 1 ? number + 1 : number - 1;
}

int LLVMFuzzerTestOneInput(const uint8_t *data, size_t size) {
    if (size < 7) return 0;
    if (arenas[0] == NULL) make_arenas();

    struct request r = {
#ifdef ONLY
        .call = ONLY, /* this call, whatever the input says */
#else
        .call = data[0] % CALLS,
#endif
        .format = FORMATS[data[1] % 8],
        .edition = EDITIONS[data[2] % 8],
        .n = data[3] < 0xF0 ? data[3] : NUMBERS[data[3] - 0xF0],
        .room_mode = data[4] % 8,
        .cut = data[4] >> 4,
    };
    size_t rest = size - 7;
    r.other_len = data[5] | (size_t)data[6] << 8;
    if (r.other_len > rest) r.other_len = rest;
    r.other = data + 7;
    r.first_len = rest - r.other_len;
    uint8_t *first = malloc(r.first_len + 1);
    memcpy(first, r.other + r.other_len, r.first_len);
    uint8_t *body = malloc(r.other_len + 1);
    memcpy(body, r.other, r.other_len);
    int on_image = r.call != WRITE && r.call != VENDOR_WRITE && !is_of_room(&r);
    if ((data[4] & 8) != 0 && is_of_room(&r)) {
        seal_room(first, r.first_len);
        seal(r.format, body, r.other_len);
    }
    if ((data[4] & 8) != 0 && on_image) {
        if (r.call == VENDOR_READ) seal_payload(first, r.first_len);
        seal(r.format, first, r.first_len);
    }
    r.first = first;
    r.third = r.other + r.other_len;
    if (r.call == ADD) {
        size_t field = FIELDS[r.cut] < r.other_len ? FIELDS[r.cut] : r.other_len;
        r.third = r.other + field;
        r.third_len = r.other_len - field;
        r.other_len = field;
    }
    if (is_of_room(&r)) {
        r.other = body;
        r.form = FORMS[r.cut];
        r.board = board_of(data[3], first, r.first_len);
        r.cut = 0;
    }
    /* Offsets that differ in every byte. */
    if (r.call == VENDOR_WRITE) r.n *= 0x9E3779B97F4A7C15u;

    /* What just suffices is a list's count, one record, or what a roomy output shows. */
    size_t enough = 0;
    size_t roomy = 2 * rest + 512 < LONGEST ? 2 * rest + 512 : LONGEST;
    uint8_t *out = malloc(roomy);
    uint8_t block[BLOCK];
    if (r.call == LIST) {
        uint64_t answer = boardid_check(r.format, r.edition, r.first, r.first_len);
        enough = refusal(answer) == 0 ? count(answer) * RECORD : RECORD;
    } else if (r.call == ENTRY || r.call == STEP) {
        enough = RECORD;
    } else if (r.call >= WRITE) {
        uint64_t answer = make(&r, out, roomy, block);
        enough = refusal(answer) == 0 ? count(answer) : 64;
        if (refusal(answer) == 0 && r.call == WRITE) hold_write(&r, out, roomy, enough);
        if (refusal(answer) == 0 && r.call == EDIT) hold_edit(&r, out, roomy, enough);
        if (r.call == VENDOR_READ) hold_vendor_read(&r, answer, out, roomy, block);
        if (r.call == VENDOR_WRITE) hold_vendor_write(&r, answer, out, roomy);
        if (r.call == ADD || r.call == REMOVE) hold_change(&r, answer, out, roomy);
        if (is_of_room(&r)) hold_room(&r, answer, out, roomy);
    }
    size_t room = room_of(r.room_mode, enough);
    free(out);
    out = malloc(room + 1);
    uint64_t answer = make(&r, out, room, block);
    switch (r.call) {
    case VALUE:
    case STRING:
        if (refusal(answer) == 0) {
            HOLDS((answer & UINT32_MAX) + count(answer) <= r.first_len);
        }
        break;
    case WRITE:
        if (refusal(answer) == 0) hold_write(&r, out, room, count(answer));
        break;
    case EDIT:
        if (refusal(answer) == 0) hold_edit(&r, out, room, count(answer));
        break;
    case VENDOR_READ: hold_vendor_read(&r, answer, out, room, block); break;
    case VENDOR_WRITE: hold_vendor_write(&r, answer, out, room); break;
    case ADD:
    case REMOVE: hold_change(&r, answer, out, room); break;
    case ROOM_ADD:
    case ROOM_REPLACE:
    case ROOM_REMOVE:
    case ROOM_FETCH: hold_room(&r, answer, out, room); break;
    default: break;
    }
    if (on_image) hold_image(&r);
    free(out);
    free(body);
    free(first);
    return 0;
}

#ifdef REPLAY
/* Runs the inputs that are named, once each, without libFuzzer. */
int main(int argc, char **argv) {
    static uint8_t data[1 << 17];
    for (int i = 1; i < argc; i++) {
        FILE *file = fopen(argv[i], "rb");
        HOLDS(file != NULL);
        size_t size = fread(data, 1, sizeof data, file);
        fclose(file);
        LLVMFuzzerTestOneInput(data, size);
    }
    printf("replay: %d inputs\n", argc - 1);
    return 0;
}
#endif
