/*
 * The four calls on room files, boardid_room_add_board, boardid_room_replace_board,
 * boardid_room_remove_board and boardid_room_fetch_board: what they put out, byte by byte, and what
 * they refuse, in which order and at which place; and the header's functions that read a room file.
 * Compiled once with each edition's header. All lent memory ends at a page that may not be touched.
 *
 * Format 4, ONIE, is a number here: the headers of editions 1 and 2 have no name for it.
 */
#define _DEFAULT_SOURCE

#include "answers.h"
#include "images.h"

enum { NEWEST = 4 };

/* ---- Files ---------------------------------------------------------------------------------- */

/* The head of a file of form 1 with less than 256 boards, and a row of its contents. */
#define HEAD(boards) "52 4D 01 00 00 " boards " 00 00 "
#define ROW(board, format, length) board " " format " 00 " length " "

/* Bodies. VPD: of 9 bytes, of 1, and of 3, of which two follow the end. */
#define SKU "01 03 53 4B 55 02 41 37 00 "
#define VPD_NONE "00 "
#define VPD_TAIL "00 AA BB "

/* VPD: an FEh of three bytes, which breaks its rule from edition 2 on, at 4; 12 bytes. */
#define VPD_SHORT_INFO "01 01 41 00 FE 01 41 03 01 02 03 00 "

/* Tiny of 7 bytes, a pool; and of 4. FBOSS of 21 bytes, what is required. ONIE of 17 bytes. */
#define TINY "56 02 07 01 01 C1 8F "
#define TINY_NONE "56 02 04 6F "
#define FBOSS FBOSS_START "FA 02 82 1E "
#define ONIE_NONE ONIE "00 06 FE 04 D4 43 1C 18 "

/* No boards; boards 5 and 256; boards 5, 256 and FFFFFFFFh, whose bodies are at 32, 41 and 48. */
#define NO_BOARDS HEAD("00")
#define ROW_5 ROW("00 00 00 05", "02", "00 09")
#define ROW_256 ROW("00 00 01 00", "03", "00 07")
#define ROW_LAST ROW("FF FF FF FF", "01", "00 15")
#define TWO_BOARDS HEAD("02") ROW_5 ROW_256 SKU TINY
#define THREE_BOARDS HEAD("03") ROW_5 ROW_256 ROW_LAST SKU TINY FBOSS

/* Boards 5, 6, which is ONIE, and 7. */
#define ROW_6 ROW("00 00 00 06", "04", "00 11")
#define ROW_7 ROW("00 00 00 07", "03", "00 04")
#define WITH_ONIE HEAD("03") ROW_5 ROW_6 ROW_7 SKU ONIE_NONE TINY_NONE

/* ---- Calls ---------------------------------------------------------------------------------- */

enum call { ADD, REPLACE, REMOVE, FETCH, CALLS };

/* One call: add and replace have a format and a body, and all but fetch an output. */
struct request {
    enum call call;
    uint32_t form;
    struct lent file;
    uint32_t board;
    uint32_t format;
    struct lent body;
    struct lent out;
};

/* The call with the header's edition. */
static uint64_t by_header(const struct request *r)
{
    switch (r->call) {
    case ADD:
        return boardid_room_add_board(r->form, r->file.bytes, r->file.length, r->board, r->format,
                                      r->body.bytes, r->body.length, r->out.bytes, r->out.length);
    case REPLACE:
        return boardid_room_replace_board(r->form, r->file.bytes, r->file.length, r->board,
                                          r->format, r->body.bytes, r->body.length, r->out.bytes,
                                          r->out.length);
    case REMOVE:
        return boardid_room_remove_board(r->form, r->file.bytes, r->file.length, r->board,
                                         r->out.bytes, r->out.length);
    default:
        return boardid_room_fetch_board(r->form, r->file.bytes, r->file.length, r->board);
    }
}

/* The exported call with any edition. */
static uint64_t by_export(const struct request *r, uint32_t edition)
{
    switch (r->call) {
    case ADD:
        return boardid_room_add(r->form, edition, r->file.bytes, r->file.length, r->board,
                                r->format, r->body.bytes, r->body.length, r->out.bytes,
                                r->out.length);
    case REPLACE:
        return boardid_room_replace(r->form, edition, r->file.bytes, r->file.length, r->board,
                                    r->format, r->body.bytes, r->body.length, r->out.bytes,
                                    r->out.length);
    case REMOVE:
        return boardid_room_remove(r->form, edition, r->file.bytes, r->file.length, r->board,
                                   r->out.bytes, r->out.length);
    default:
        return boardid_room_fetch(r->form, edition, r->file.bytes, r->file.length, r->board);
    }
}

/* Keeps a copy of lent bytes, at most 65,537. */
static void keep(uint8_t *copy, struct lent lent)
{
    if (lent.length != 0) {
        memcpy(copy, lent.bytes, lent.length);
    }
}

/*
 * Makes a call with an output of a length, by the header where the edition is its own and else by
 * the export; expects its answer, every bit of it, the new file in the output and 5Ah after it, or
 * nothing new where it is refused, and that the file and the body are as they were. Of a fetch the
 * outcome's place is that of the part, and the bytes are those of the part.
 */
static void expect_room(struct request r, uint32_t edition, size_t out_length,
                        struct outcome outcome, struct lent made, const char *what)
{
    static uint8_t file[BOARDID_ROOM_MAX + 1], body[BOARDID_ROOM_MAX + 1];
    uint64_t answer;

    keep(file, r.file);
    keep(body, r.body);
    r.out = lend(out_length);
    answer = edition == BOARDID_EDITION ? by_header(&r) : by_export(&r, edition);
    if (outcome.number != 0 || r.call != FETCH) {
        expect_answer(answer, outcome, what);
    }
    if (outcome.number != 0) {
        expect(all_are(r.out, 0, 0x5A), what);
    } else if (r.call == FETCH) {
        struct boardid_part part = boardid_answer_part(answer);

        expect_number(answer, (uint64_t)outcome.count << 32 | outcome.place, what);
        expect_number(part.place, outcome.place, what);
        expect_number(part.length, made.length, what);
        expect(part.place <= r.file.length && part.length <= r.file.length - part.place &&
                   part.length == made.length &&
                   memcmp(r.file.bytes + part.place, made.bytes, made.length) == 0,
               what);
    } else {
        expect_number(made.length, outcome.count, what);
        expect(made.length <= out_length && memcmp(r.out.bytes, made.bytes, made.length) == 0,
               what);
        expect(all_are(r.out, made.length, 0x5A), what);
    }
    expect(r.file.length == 0 || memcmp(r.file.bytes, file, r.file.length) == 0, what);
    expect(r.body.length == 0 || memcmp(r.body.bytes, body, r.body.length) == 0, what);
    give_back(r.out);
}

/* Expects one refusal of a call, whatever the output's length up to the most. */
static void expect_always(struct request r, uint32_t edition, uint32_t number, uint64_t place,
                          const char *what)
{
    static const size_t lengths[] = {0, 69, BOARDID_ROOM_MAX};
    const struct outcome outcome = {number, place, 0};
    const struct lent none = {NULL, 0, NULL, 0};
    size_t k;

    for (k = 0; k < (r.call == FETCH ? 1 : sizeof lengths / sizeof lengths[0]); k++) {
        expect_room(r, edition, lengths[k], outcome, none, what);
    }
}

/*
 * Expects what goes before everything else: an edition that is not known, whatever the file and the
 * output; an output that is too long; and a form that is not known.
 */
static void expect_first(struct request r, const char *what)
{
    static const uint32_t editions[] = {0, NEWEST + 1, 257, 0x01000001, 0xFFFFFFFF};
    static const uint32_t forms[] = {0, 2, 3, 257, 0x01000001, 0xFFFFFFFF};
    const struct outcome unknown = {1, 0, 0}, too_long = {2, 0, 0};
    const struct lent none = {NULL, 0, NULL, 0};
    size_t k;

    for (k = 0; k < sizeof editions / sizeof editions[0]; k++) {
        expect_always(r, editions[k], 1, 0, what);
        if (r.call != FETCH) {
            expect_room(r, editions[k], BOARDID_ROOM_MAX + 1, unknown, none, what);
        }
    }
    if (r.call != FETCH) {
        expect_room(r, BOARDID_EDITION, BOARDID_ROOM_MAX + 1, too_long, none, what);
    }
    for (k = 0; k < sizeof forms / sizeof forms[0]; k++) {
        r.form = forms[k];
        expect_always(r, BOARDID_EDITION, 21, 0, what);
        if (r.call != FETCH) {
            expect_room(r, BOARDID_EDITION, BOARDID_ROOM_MAX + 1, too_long, none, what);
        }
    }
}

/* ---- Worked cases --------------------------------------------------------------------------- */

/*
 * A call, the editions whose answer this is, the answer, and the new file, or of a fetch the body.
 * A call that is not refused has an output that is large enough.
 */
struct room_case {
    const char *what;
    enum call call;
    uint32_t since, until;
    const char *file;
    uint32_t board;
    uint32_t format;
    const char *body;
    struct outcome outcome;
    const char *made;
};

static const struct room_case room_cases[] = {
    {"add: to no boards", ADD, 1, 4, NO_BOARDS, 7, 2, SKU, {0, 0, 25},
     HEAD("01") ROW("00 00 00 07", "02", "00 09") SKU},
    {"add: a body of one byte", ADD, 1, 4, NO_BOARDS, 0, 2, VPD_NONE, {0, 0, 17},
     HEAD("01") ROW("00 00 00 00", "02", "00 01") VPD_NONE},
    {"add: all four bytes of a number", ADD, 1, 4, NO_BOARDS, 0x12345678, 3, TINY_NONE, {0, 0, 20},
     HEAD("01") ROW("12 34 56 78", "03", "00 04") TINY_NONE},
    {"add: before the first", ADD, 1, 4, THREE_BOARDS, 4, 2, VPD_TAIL, {0, 0, 80},
     HEAD("04") ROW("00 00 00 04", "02", "00 03") ROW_5 ROW_256 ROW_LAST VPD_TAIL SKU TINY FBOSS},
    {"add: after the first", ADD, 1, 4, THREE_BOARDS, 6, 1, FBOSS, {0, 0, 98},
     HEAD("04") ROW_5 ROW("00 00 00 06", "01", "00 15") ROW_256 ROW_LAST SKU FBOSS TINY FBOSS},
    {"add: before the second", ADD, 1, 4, THREE_BOARDS, 255, 3, TINY_NONE, {0, 0, 81},
     HEAD("04") ROW_5 ROW("00 00 00 FF", "03", "00 04") ROW_256 ROW_LAST SKU TINY_NONE TINY FBOSS},
    {"add: after the second", ADD, 1, 4, THREE_BOARDS, 257, 2, VPD_NONE, {0, 0, 78},
     HEAD("04") ROW_5 ROW_256 ROW("00 00 01 01", "02", "00 01") ROW_LAST SKU TINY VPD_NONE FBOSS},
    {"add: before the third", ADD, 1, 4, THREE_BOARDS, 0xFFFFFFFE, 2, VPD_NONE, {0, 0, 78},
     HEAD("04") ROW_5 ROW_256 ROW("FF FF FF FE", "02", "00 01") ROW_LAST SKU TINY VPD_NONE FBOSS},
    {"add: after the last", ADD, 1, 4, TWO_BOARDS, 0xFFFFFFFF, 1, FBOSS, {0, 0, 69}, THREE_BOARDS},
    {"add: the same body again", ADD, 1, 4, TWO_BOARDS, 6, 2, SKU, {0, 0, 57},
     HEAD("03") ROW_5 ROW("00 00 00 06", "02", "00 09") ROW_256 SKU SKU TINY},
    {"add: a body whose key is not written", ADD, 1, 4, NO_BOARDS, 1, 2, "01 03 61 2E 62 00 00",
     {0, 0, 23}, HEAD("01") ROW("00 00 00 01", "02", "00 07") "01 03 61 2E 62 00 00"},
    {"add: ONIE", ADD, 3, 4, TWO_BOARDS, 6, 4, ONIE_NONE, {0, 0, 65},
     HEAD("03") ROW_5 ROW_6 ROW_256 SKU ONIE_NONE TINY},
    {"add: ONIE and what follows it", ADD, 3, 4, NO_BOARDS, 6, 4, ONIE_NONE "FF 00", {0, 0, 35},
     HEAD("01") ROW("00 00 00 06", "04", "00 13") ONIE_NONE "FF 00"},
    {"add: beside ONIE", ADD, 3, 4, WITH_ONIE, 1, 2, VPD_NONE, {0, 0, 71},
     HEAD("04") ROW("00 00 00 01", "02", "00 01") ROW_5 ROW_6 ROW_7 VPD_NONE SKU ONIE_NONE
     TINY_NONE},
    {"add: an FEh of three bytes", ADD, 1, 1, TWO_BOARDS, 6, 2, VPD_SHORT_INFO, {0, 0, 60},
     HEAD("03") ROW_5 ROW("00 00 00 06", "02", "00 0C") ROW_256 SKU VPD_SHORT_INFO TINY},

    {"add: 23, the first", ADD, 1, 4, THREE_BOARDS, 5, 2, SKU, {23, 0, 0}, ""},
    {"add: 23, the second", ADD, 1, 4, THREE_BOARDS, 256, 2, SKU, {23, 0, 0}, ""},
    {"add: 23, the last", ADD, 1, 4, THREE_BOARDS, 0xFFFFFFFF, 2, SKU, {23, 0, 0}, ""},
    {"add: 23 before the stored bodies' own", ADD, 1, 4,
     HEAD("01") ROW("00 00 00 05", "09", "00 01") VPD_NONE, 5, 2, SKU, {23, 0, 0}, ""},
    {"add: 23 before the new body's own", ADD, 1, 4, THREE_BOARDS, 5, 9, "", {23, 0, 0}, ""},
    {"add: 23 and ONIE", ADD, 1, 4, WITH_ONIE, 7, 2, SKU, {23, 0, 0}, ""},
    {"add: stored ONIE", ADD, 1, 2, WITH_ONIE, 1, 2, SKU, {16, 41, 0}, ""},
    {"add: stored ONIE before the new body's own", ADD, 1, 2, WITH_ONIE, 1, 9, "", {16, 41, 0}, ""},

    {"add: the new body, format 0", ADD, 1, 4, TWO_BOARDS, 6, 0, SKU, {16, 0, 0}, ""},
    {"add: the new body, format 5", ADD, 1, 4, TWO_BOARDS, 6, 5, SKU, {16, 0, 0}, ""},
    {"add: the new body, format 257", ADD, 1, 4, TWO_BOARDS, 6, 257, FBOSS, {16, 0, 0}, ""},
    {"add: the new body, format 258", ADD, 1, 4, TWO_BOARDS, 6, 258, SKU, {16, 0, 0}, ""},
    {"add: the new body, format 02000002h", ADD, 1, 4, TWO_BOARDS, 6, 0x02000002, SKU, {16, 0, 0},
     ""},
    {"add: the new body, ONIE", ADD, 1, 2, TWO_BOARDS, 6, 4, ONIE_NONE, {16, 0, 0}, ""},
    {"add: the new body, no ONIE", ADD, 3, 4, TWO_BOARDS, 6, 4, SKU, {3, 0, 0}, ""},
    {"add: the new body, empty FBOSS", ADD, 1, 4, TWO_BOARDS, 6, 1, "", {3, 0, 0}, ""},
    {"add: the new body, empty VPD", ADD, 1, 4, TWO_BOARDS, 6, 2, "", {5, 0, 0}, ""},
    {"add: the new body, empty Tiny", ADD, 1, 4, TWO_BOARDS, 6, 3, "", {3, 0, 0}, ""},
    {"add: the new body, no end", ADD, 1, 4, TWO_BOARDS, 6, 2, "01 01 41 00", {5, 4, 0}, ""},
    {"add: the new body, a key twice", ADD, 1, 4, TWO_BOARDS, 6, 2, "01 01 41 00 01 01 41 00 00",
     {8, 4, 0}, ""},
    {"add: the new body, its check", ADD, 1, 4, TWO_BOARDS, 6, 3, "56 02 04 6E", {10, 3, 0}, ""},
    {"add: the new body, its version", ADD, 1, 4, TWO_BOARDS, 6, 1, "FB FB 04 FF", {4, 0, 0}, ""},
    {"add: the new body, a missing field", ADD, 1, 4, TWO_BOARDS, 6, 1,
     "FB FB 05 FF FA 02 7D E4", {11, 0, 0}, ""},
    {"add: the new body, an FEh of three bytes", ADD, 2, 4, TWO_BOARDS, 6, 2, VPD_SHORT_INFO,
     {7, 4, 0}, ""},

    {"replace: the first, longer", REPLACE, 1, 4, THREE_BOARDS, 5, 2,
     "01 04 6E 6F 74 65 02 68 69 00", {0, 0, 70},
     HEAD("03") ROW("00 00 00 05", "02", "00 0A") ROW_256 ROW_LAST
     "01 04 6E 6F 74 65 02 68 69 00" TINY FBOSS},
    {"replace: the first, another format", REPLACE, 1, 4, THREE_BOARDS, 5, 1, FBOSS, {0, 0, 81},
     HEAD("03") ROW("00 00 00 05", "01", "00 15") ROW_256 ROW_LAST FBOSS TINY FBOSS},
    {"replace: the second, shorter", REPLACE, 1, 4, THREE_BOARDS, 256, 3, TINY_NONE, {0, 0, 66},
     HEAD("03") ROW_5 ROW("00 00 01 00", "03", "00 04") ROW_LAST SKU TINY_NONE FBOSS},
    {"replace: the second, another format", REPLACE, 1, 4, THREE_BOARDS, 256, 2, VPD_TAIL,
     {0, 0, 65}, HEAD("03") ROW_5 ROW("00 00 01 00", "02", "00 03") ROW_LAST SKU VPD_TAIL FBOSS},
    {"replace: the last, another format", REPLACE, 1, 4, THREE_BOARDS, 0xFFFFFFFF, 3, TINY,
     {0, 0, 55}, HEAD("03") ROW_5 ROW_256 ROW("FF FF FF FF", "03", "00 07") SKU TINY TINY},
    {"replace: by the same", REPLACE, 1, 4, THREE_BOARDS, 256, 3, TINY, {0, 0, 69}, THREE_BOARDS},
    {"replace: the same length", REPLACE, 1, 4, THREE_BOARDS, 5, 2, "01 03 53 4B 55 02 42 38 00",
     {0, 0, 69}, HEAD("03") ROW_5 ROW_256 ROW_LAST "01 03 53 4B 55 02 42 38 00" TINY FBOSS},
    {"replace: the only one", REPLACE, 1, 4, HEAD("01") ROW_5 SKU, 5, 3, TINY_NONE, {0, 0, 20},
     HEAD("01") ROW("00 00 00 05", "03", "00 04") TINY_NONE},
    {"replace: by ONIE", REPLACE, 3, 4, TWO_BOARDS, 5, 4, ONIE_NONE, {0, 0, 48},
     HEAD("02") ROW("00 00 00 05", "04", "00 11") ROW_256 ONIE_NONE TINY},
    {"replace: ONIE by VPD", REPLACE, 3, 4, WITH_ONIE, 6, 2, VPD_NONE, {0, 0, 46},
     HEAD("03") ROW_5 ROW("00 00 00 06", "02", "00 01") ROW_7 SKU VPD_NONE TINY_NONE},
    {"replace: 22", REPLACE, 1, 4, THREE_BOARDS, 6, 2, SKU, {22, 0, 0}, ""},
    {"replace: 22, below the first", REPLACE, 1, 4, THREE_BOARDS, 4, 2, SKU, {22, 0, 0}, ""},
    {"replace: 22, above the last", REPLACE, 1, 4, TWO_BOARDS, 257, 2, SKU, {22, 0, 0}, ""},
    {"replace: 22, no boards", REPLACE, 1, 4, NO_BOARDS, 0, 2, SKU, {22, 0, 0}, ""},
    {"replace: 22 before the stored bodies' own", REPLACE, 1, 4,
     HEAD("01") ROW("00 00 00 05", "09", "00 01") VPD_NONE, 6, 2, SKU, {22, 0, 0}, ""},
    {"replace: 22 before the new body's own", REPLACE, 1, 4, THREE_BOARDS, 6, 9, "", {22, 0, 0},
     ""},
    {"replace: the body that goes, ONIE", REPLACE, 1, 2, WITH_ONIE, 6, 2, SKU, {16, 41, 0}, ""},
    {"replace: another stored body, ONIE", REPLACE, 1, 2, WITH_ONIE, 7, 2, SKU, {16, 41, 0}, ""},
    {"replace: by ONIE, 16", REPLACE, 1, 2, TWO_BOARDS, 5, 4, ONIE_NONE, {16, 0, 0}, ""},
    {"replace: the new body, format 257", REPLACE, 1, 4, TWO_BOARDS, 5, 257, FBOSS, {16, 0, 0},
     ""},
    {"replace: the new body, empty", REPLACE, 1, 4, TWO_BOARDS, 5, 2, "", {5, 0, 0}, ""},
    {"replace: the new body, its check", REPLACE, 1, 4, TWO_BOARDS, 256, 3, "56 02 04 6E",
     {10, 3, 0}, ""},

    {"remove: the first", REMOVE, 1, 4, THREE_BOARDS, 5, 0, "", {0, 0, 52},
     HEAD("02") ROW_256 ROW_LAST TINY FBOSS},
    {"remove: the second", REMOVE, 1, 4, THREE_BOARDS, 256, 0, "", {0, 0, 54},
     HEAD("02") ROW_5 ROW_LAST SKU FBOSS},
    {"remove: the last", REMOVE, 1, 4, THREE_BOARDS, 0xFFFFFFFF, 0, "", {0, 0, 40}, TWO_BOARDS},
    {"remove: the only one", REMOVE, 1, 4, HEAD("01") ROW_5 SKU, 5, 0, "", {0, 0, 8}, NO_BOARDS},
    {"remove: one of two of the same length", REMOVE, 1, 4,
     HEAD("02") ROW("00 00 00 01", "02", "00 03") ROW("00 00 00 02", "02", "00 03")
     "00 01 01 00 02 02", 1, 0, "", {0, 0, 19},
     HEAD("01") ROW("00 00 00 02", "02", "00 03") "00 02 02"},
    {"remove: the other of the two", REMOVE, 1, 4,
     HEAD("02") ROW("00 00 00 01", "02", "00 03") ROW("00 00 00 02", "02", "00 03")
     "00 01 01 00 02 02", 2, 0, "", {0, 0, 19},
     HEAD("01") ROW("00 00 00 01", "02", "00 03") "00 01 01"},
    {"remove: ONIE", REMOVE, 3, 4, WITH_ONIE, 6, 0, "", {0, 0, 37},
     HEAD("02") ROW_5 ROW_7 SKU TINY_NONE},
    {"remove: beside ONIE", REMOVE, 3, 4, WITH_ONIE, 5, 0, "", {0, 0, 45},
     HEAD("02") ROW_6 ROW_7 ONIE_NONE TINY_NONE},
    {"remove: ONIE, 16", REMOVE, 1, 2, WITH_ONIE, 6, 0, "", {16, 41, 0}, ""},
    {"remove: beside ONIE, 16", REMOVE, 1, 2, WITH_ONIE, 5, 0, "", {16, 41, 0}, ""},
    {"remove: 22", REMOVE, 1, 4, THREE_BOARDS, 0xFFFFFFFE, 0, "", {22, 0, 0}, ""},
    {"remove: 22, a number that is one with fewer bits", REMOVE, 1, 4, TWO_BOARDS, 0x01000005, 0,
     "", {22, 0, 0}, ""},
    {"remove: 22, no boards", REMOVE, 1, 4, NO_BOARDS, 0, 0, "", {22, 0, 0}, ""},
    {"remove: 22 before the stored bodies' own", REMOVE, 1, 4,
     HEAD("01") ROW("00 00 00 05", "09", "00 01") VPD_NONE, 6, 0, "", {22, 0, 0}, ""},

    {"fetch: the first", FETCH, 1, 4, THREE_BOARDS, 5, 0, "", {0, 32, 9}, SKU},
    {"fetch: the second", FETCH, 1, 4, THREE_BOARDS, 256, 0, "", {0, 41, 7}, TINY},
    {"fetch: the last", FETCH, 1, 4, THREE_BOARDS, 0xFFFFFFFF, 0, "", {0, 48, 21}, FBOSS},
    {"fetch: the only one", FETCH, 1, 4, HEAD("01") ROW("00 00 00 00", "02", "00 01") VPD_NONE, 0,
     0, "", {0, 16, 1}, VPD_NONE},
    {"fetch: what follows the image's end", FETCH, 1, 4,
     HEAD("02") ROW("00 00 00 01", "02", "00 03") ROW_7 VPD_TAIL TINY_NONE, 1, 0, "", {0, 24, 3},
     VPD_TAIL},
    {"fetch: after what follows the image's end", FETCH, 1, 4,
     HEAD("02") ROW("00 00 00 01", "02", "00 03") ROW_7 VPD_TAIL TINY_NONE, 7, 0, "", {0, 27, 4},
     TINY_NONE},
    {"fetch: ONIE", FETCH, 3, 4, WITH_ONIE, 6, 0, "", {0, 41, 17}, ONIE_NONE},
    {"fetch: beside ONIE", FETCH, 3, 4, WITH_ONIE, 7, 0, "", {0, 58, 4}, TINY_NONE},
    {"fetch: ONIE, 16", FETCH, 1, 2, WITH_ONIE, 6, 0, "", {16, 41, 0}, ""},
    {"fetch: before ONIE, 16", FETCH, 1, 2, WITH_ONIE, 5, 0, "", {16, 41, 0}, ""},
    {"fetch: after ONIE, 16", FETCH, 1, 2, WITH_ONIE, 7, 0, "", {16, 41, 0}, ""},
    {"fetch: an FEh of three bytes", FETCH, 1, 1, HEAD("01") ROW("00 00 00 05", "02", "00 0C")
     VPD_SHORT_INFO, 5, 0, "", {0, 16, 12}, VPD_SHORT_INFO},
    {"fetch: an FEh of three bytes, 7", FETCH, 2, 4, HEAD("01") ROW("00 00 00 05", "02", "00 0C")
     VPD_SHORT_INFO, 5, 0, "", {7, 20, 0}, ""},
    {"fetch: 22", FETCH, 1, 4, THREE_BOARDS, 6, 0, "", {22, 0, 0}, ""},
    {"fetch: 22, no boards", FETCH, 1, 4, NO_BOARDS, 5, 0, "", {22, 0, 0}, ""},
    {"fetch: 22 before the stored bodies' own", FETCH, 1, 4,
     HEAD("01") ROW("00 00 00 05", "09", "00 01") VPD_NONE, 6, 0, "", {22, 0, 0}, ""},
};

/* A case by one edition: not refused, with more room, exactly enough, and one byte too little. */
static void case_by_edition(const struct room_case *c, struct request r, uint32_t edition)
{
    struct lent made = lend_hex(c->made);
    const struct outcome no_room = {12, 0, 0};

    if (c->outcome.number != 0) {
        expect_always(r, edition, c->outcome.number, c->outcome.place, c->what);
    } else if (c->call == FETCH) {
        expect_room(r, edition, 0, c->outcome, made, c->what);
    } else {
        expect_room(r, edition, made.length, c->outcome, made, c->what);
        expect_room(r, edition, made.length + 1, c->outcome, made, c->what);
        expect_room(r, edition, made.length + 100, c->outcome, made, c->what);
        expect_room(r, edition, BOARDID_ROOM_MAX, c->outcome, made, c->what);
        expect_room(r, edition, made.length - 1, no_room, made, c->what);
        expect_room(r, edition, 8 - (made.length == 8), no_room, made, c->what);
        expect_room(r, edition, 0, no_room, made, c->what);
    }
    give_back(made);
}

static void worked(void)
{
    size_t i;
    uint32_t edition;

    for (i = 0; i < sizeof room_cases / sizeof room_cases[0]; i++) {
        const struct room_case *c = &room_cases[i];
        struct request r;

        r.call = c->call;
        r.form = BOARDID_ROOM_FORM_1;
        r.file = lend_hex(c->file);
        r.board = c->board;
        r.format = c->format;
        r.body = lend_hex(c->body);
        r.out = lend(0);
        for (edition = c->since; edition <= c->until; edition++) {
            case_by_edition(c, r, edition);
        }
        expect_first(r, c->what);
        give_back(r.out);
        give_back(r.body);
        give_back(r.file);
    }
}

/* ---- Files that are refused ----------------------------------------------------------------- */

/* Expects one refusal of all four calls, whatever the board and whatever the new body. */
static void expect_wrong(struct lent file, uint32_t edition, uint32_t number, uint64_t place,
                         const uint32_t *boards, size_t count, const char *what)
{
    struct request r;
    size_t k;

    r.form = BOARDID_ROOM_FORM_1;
    r.file = file;
    r.out = lend(0);
    for (r.call = ADD; r.call < CALLS; r.call = (enum call)(r.call + 1)) {
        for (k = 0; k < count; k++) {
            r.board = boards[k];
            r.format = 2;
            r.body = lend_hex(SKU);
            expect_always(r, edition, number, place, what);
            give_back(r.body);
            r.format = 9;
            r.body = lend(0);
            expect_always(r, edition, number, place, what);
            give_back(r.body);
        }
    }
    give_back(r.out);
}

/* Files whose head or contents are wrong: 21 at 0, also where a body is wrong too. */
struct wrong_file {
    const char *what;
    const char *file;
};

static const struct wrong_file wrong_files[] = {
    {"21: no bytes", ""},
    {"21: seven bytes", "52 4D 01 00 00 00 00"},
    {"21: nine bytes, no boards", NO_BOARDS "00"},
    {"21: a second magic byte", "52 4E 01 00 00 00 00 00"},
    {"21: small letters", "72 6D 01 00 00 00 00 00"},
    {"21: the magic the other way round", "4D 52 01 00 00 00 00 00"},
    {"21: form 0", "52 4D 00 00 00 00 00 00"},
    {"21: form 2", "52 4D 02 00 00 00 00 00"},
    {"21: form 2 with a total", "52 4D 02 00 00 00 00 00 00 00 00 00"},
    {"21: byte 3", "52 4D 01 01 00 00 00 00"},
    {"21: byte 6", "52 4D 01 00 00 00 01 00"},
    {"21: byte 7", "52 4D 01 00 00 00 00 01"},
    {"21: a count, and no rows", HEAD("01")},
    {"21: a count of 256, and one row", "52 4D 01 00 01 00 00 00 " ROW_5 SKU},
    {"21: a count of 8,192, whose rows have 65,536 bytes", "52 4D 01 00 20 00 00 00"},
    {"21: a count of 8,193, and one row", "52 4D 01 00 20 01 00 00 " ROW_5 SKU},
    {"21: a count of 65,535", "52 4D 01 00 FF FF 00 00"},
    {"21: one row cut short", HEAD("01") "00 00 00 05 02 00 00"},
    {"21: a row without its body", HEAD("01") ROW_5},
    {"21: a body of 0 bytes", HEAD("01") ROW("00 00 00 05", "02", "00 00")},
    {"21: a body of 0 bytes before another",
     HEAD("02") ROW("00 00 00 04", "02", "00 00") ROW_5 SKU},
    {"21: a body of 0 bytes after another", HEAD("02") ROW_5 ROW("00 00 00 06", "02", "00 00") SKU},
    {"21: a row's zero byte", HEAD("01") "00 00 00 05 02 01 00 09 " SKU},
    {"21: a row's zero byte, the last row", HEAD("02") ROW_5 "00 00 01 00 03 80 00 07 " SKU TINY},
    {"21: one byte too few", HEAD("01") ROW("00 00 00 05", "02", "00 0A") SKU},
    {"21: one byte too many", HEAD("01") ROW_5 SKU "00"},
    {"21: one body more than rows", HEAD("01") ROW_5 SKU TINY},
    {"21: one row less than counted", HEAD("02") ROW_5 SKU},
    {"21: a length with its low byte first", HEAD("01") ROW("00 00 00 05", "02", "09 00") SKU},
    {"21: a length of FFFFh", HEAD("01") ROW("00 00 00 05", "02", "FF FF") SKU},
    {"21: lengths that sum to 65,536 and what is there",
     HEAD("02") ROW("00 00 00 05", "02", "FF FF") ROW("00 00 01 00", "02", "00 0A") SKU},
    {"21: the same, the longer one last",
     HEAD("02") ROW("00 00 00 05", "02", "00 09") ROW("00 00 01 00", "02", "FF F7") SKU "00 00"},
    {"21: a board twice", HEAD("02") ROW_5 ROW_5 SKU SKU},
    {"21: a board twice, the last two", HEAD("03") ROW("00 00 00 04", "02", "00 01") ROW_5 ROW_5
     VPD_NONE SKU SKU},
    {"21: falling", HEAD("02") ROW_256 ROW_5 TINY SKU},
    {"21: falling at the end", HEAD("03") ROW_5 ROW_LAST ROW_256 SKU FBOSS TINY},
    {"21: falling in the high byte", HEAD("02") ROW("01 00 00 00", "02", "00 01")
     ROW("00 FF FF FF", "02", "00 01") "00 00"},
    {"21: 80000000h before 7FFFFFFFh", HEAD("02") ROW("80 00 00 00", "02", "00 01")
     ROW("7F FF FF FF", "02", "00 01") "00 00"},
    {"21: FFFFFFFFh before 0", HEAD("02") ROW("FF FF FF FF", "02", "00 01")
     ROW("00 00 00 00", "02", "00 01") "00 00"},
    {"21 before a format's 16", HEAD("01") ROW("00 00 00 05", "09", "00 0A") SKU},
    {"21 before a body's own", HEAD("02") ROW("00 00 00 05", "02", "00 01")
     ROW("00 00 00 05", "02", "00 01") "02 02"},
    {"21: an image, and no file", SKU},
};

/* Expects that all four calls refuse a file with 21, where its boards 5 and 6 are asked for. */
static void expect_no_file(struct lent file, const char *what)
{
    const struct outcome outcome = {21, 0, 0};
    const struct lent none = {NULL, 0, NULL, 0};
    struct lent body = lend_hex(SKU);
    struct request r;

    r.form = BOARDID_ROOM_FORM_1;
    r.file = file;
    r.format = 2;
    r.body = body;
    r.out = none;
    for (r.call = ADD; r.call < CALLS; r.call = (enum call)(r.call + 1)) {
        for (r.board = 5; r.board <= 6; r.board++) {
            expect_room(r, BOARDID_EDITION, 100, outcome, none, what);
        }
    }
    give_back(body);
}

/* Every other value of each byte of a head, every cut and every longer file: 21. */
static void near_files(void)
{
    static const size_t places[] = {0, 1, 2, 3, 6, 7, 13, 21, 29};
    struct lent file = lend_hex(THREE_BOARDS), longer = lend(file.length + 1);
    size_t k;
    uint32_t value;

    for (k = 0; k < sizeof places / sizeof places[0]; k++) {
        uint8_t right = file.bytes[places[k]];

        for (value = 0; value < 256; value += value < 8 ? 1 : 13) {
            if (value != right) {
                file.bytes[places[k]] = (uint8_t)value;
                expect_no_file(file, "21: a byte");
            }
        }
        file.bytes[places[k]] = right;
    }
    for (value = 0; value < 65536; value += value < 12 ? 1 : 977) {
        file.bytes[4] = (uint8_t)(value >> 8);
        file.bytes[5] = (uint8_t)value;
        if (value != 3) {
            expect_no_file(file, "21: another count");
        }
    }
    file.bytes[4] = 0;
    file.bytes[5] = 3;
    for (k = 0; k < file.length; k++) {
        struct lent cut = lend_copy(file.bytes, k);

        expect_no_file(cut, "21: a file cut short");
        give_back(cut);
    }
    memcpy(longer.bytes, file.bytes, file.length);
    for (value = 0; value < 256; value += 51) {
        longer.bytes[file.length] = (uint8_t)value;
        expect_no_file(longer, "21: a byte after the file");
    }
    give_back(longer);
    give_back(file);
}

static void wrong(void)
{
    static const uint32_t boards[] = {5, 6, 256};
    size_t i;
    uint32_t edition;

    for (i = 0; i < sizeof wrong_files / sizeof wrong_files[0]; i++) {
        struct lent file = lend_hex(wrong_files[i].file);

        for (edition = 1; edition <= NEWEST; edition++) {
            expect_wrong(file, edition, 21, 0, boards, sizeof boards / sizeof boards[0],
                         wrong_files[i].what);
        }
        give_back(file);
    }
    near_files();
}

/*
 * Files with a stored body that is refused: each call on every board of theirs, and an addition of
 * another one, whose body is wrong too, gives that refusal at its place in the file. All have the
 * boards 5 and 256 and, where they have three, FFFFFFFFh.
 */
struct stored_case {
    const char *what;
    uint32_t since, until;
    const char *file;
    uint32_t number;
    uint64_t place;
};

/* Two boards, of which the second, at 33, has this format, length and body. */
#define AFTER_SKU(format, length, body) \
    HEAD("02") ROW_5 ROW("00 00 01 00", format, length) SKU body

static const struct stored_case stored_cases[] = {
    {"stored: format 9 of the second", 1, 4, AFTER_SKU("09", "00 07", TINY), 16, 33},
    {"stored: format 0", 1, 4, AFTER_SKU("00", "00 07", TINY), 16, 33},
    {"stored: format 5", 1, 4, AFTER_SKU("05", "00 07", TINY), 16, 33},
    {"stored: format FFh", 1, 4, AFTER_SKU("FF", "00 07", TINY), 16, 33},
    {"stored: format 9 of the first", 1, 4,
     HEAD("02") ROW("00 00 00 05", "09", "00 09") ROW_256 SKU TINY, 16, 24},
    {"stored: ONIE", 1, 2, AFTER_SKU("04", "00 11", ONIE_NONE), 16, 33},
    {"stored: no ONIE", 3, 4, AFTER_SKU("04", "00 07", TINY), 3, 33},
    {"stored: no ONIE, 16 before 3", 1, 2, AFTER_SKU("04", "00 07", TINY), 16, 33},
    {"stored: 3", 1, 4, AFTER_SKU("01", "00 07", TINY), 3, 33},
    {"stored: 3, one byte", 1, 4, AFTER_SKU("03", "00 01", "56"), 3, 33},
    {"stored: 4", 1, 4, AFTER_SKU("01", "00 04", "FB FB 04 FF"), 4, 33},
    {"stored: 5 where the next would be", 1, 4, AFTER_SKU("02", "00 04", "01 01 41 00"), 5, 37},
    {"stored: 5 at the first byte", 1, 4, AFTER_SKU("02", "00 01", "01"), 5, 33},
    {"stored: 5 of the first, whose end is the second's start", 1, 4,
     HEAD("02") ROW("00 00 00 05", "02", "00 08") ROW_256 "01 03 53 4B 55 02 41 37 " TINY, 5, 32},
    {"stored: 5 of the Tiny length", 1, 4, AFTER_SKU("03", "00 06", "56 02 07 01 01 C1 "), 5, 35},
    {"stored: 6", 1, 4, AFTER_SKU("02", "00 05", "01 01 41 00 02"), 6, 37},
    {"stored: 6 at the first byte", 1, 4, AFTER_SKU("02", "00 01", "02"), 6, 33},
    {"stored: 7", 1, 4, AFTER_SKU("02", "00 04", "01 00 00 00"), 7, 33},
    {"stored: 7 of an FEh", 2, 4, AFTER_SKU("02", "00 0C", VPD_SHORT_INFO), 7, 37},
    {"stored: 7 of a date", 1, 4, AFTER_SKU("01", "00 1F", FBOSS_NO_DAY), 7, 50},
    {"stored: 8", 1, 4, AFTER_SKU("02", "00 09", "01 01 41 00 01 01 41 00 00"), 8, 37},
    {"stored: 10", 1, 4, AFTER_SKU("03", "00 04", "56 02 04 6E"), 10, 36},
    {"stored: 10 of FBOSS", 1, 4, AFTER_SKU("01", "00 15", FBOSS_START "FA 02 82 1F"), 10, 52},
    {"stored: 11", 1, 4, AFTER_SKU("01", "00 08", "FB FB 05 FF FA 02 7D E4"), 11, 33},
    {"stored: the first of two", 1, 4,
     HEAD("02") ROW("00 00 00 05", "02", "00 09") ROW("00 00 01 00", "09", "00 01")
     "01 01 41 00 01 01 41 00 00 00", 8, 28},
    {"stored: the first of two, the second by an earlier number", 1, 4,
     HEAD("02") ROW("00 00 00 05", "09", "00 01") ROW("00 00 01 00", "01", "00 01") "00 00", 16,
     24},
    {"stored: the last of three", 1, 4,
     HEAD("03") ROW_5 ROW_256 ROW("FF FF FF FF", "03", "00 04") SKU TINY "56 02 04 6E", 10, 51},
    {"stored: the second of three", 1, 4,
     HEAD("03") ROW_5 ROW("00 00 01 00", "03", "00 04") ROW("FF FF FF FF", "09", "00 15") SKU
     "56 02 04 6E" FBOSS, 10, 44},
};

static void stored(void)
{
    static const uint32_t boards[] = {5, 256, 0xFFFFFFFF};
    size_t i, k;
    uint32_t edition;

    for (i = 0; i < sizeof stored_cases / sizeof stored_cases[0]; i++) {
        const struct stored_case *c = &stored_cases[i];
        struct request r;

        r.form = BOARDID_ROOM_FORM_1;
        r.file = lend_hex(c->file);
        r.out = lend(0);
        for (edition = c->since; edition <= c->until; edition++) {
            for (r.call = ADD; r.call < CALLS; r.call = (enum call)(r.call + 1)) {
                for (k = 0; k < (r.call == ADD ? 1 : (size_t)r.file.bytes[5]); k++) {
                    r.board = r.call == ADD ? 77 : boards[k];
                    r.format = 2;
                    r.body = lend_hex(SKU);
                    expect_always(r, edition, c->number, c->place, c->what);
                    give_back(r.body);
                    r.body = lend_hex("01 01 41 00 FD");
                    expect_always(r, edition, c->number, c->place, c->what);
                    give_back(r.body);
                }
            }
        }
        give_back(r.out);
        give_back(r.file);
    }
}

/* ---- Lengths -------------------------------------------------------------------------------- */

/* A file of 65,537 bytes is 2 before anything is said of it, and one of 65,536 is read. */
static void long_files(void)
{
    static const uint32_t boards[] = {5, 6};
    struct lent file = lend((size_t)BOARDID_ROOM_MAX + 1), most, head = lend_hex(HEAD("01") ROW_5);
    const struct lent none = {NULL, 0, NULL, 0};
    const struct outcome too_long = {2, 0, 0}, unknown = {1, 0, 0};
    struct request r;

    memset(file.bytes, 0, file.length);
    expect_wrong(file, BOARDID_EDITION, 2, 0, boards, 2, "2: a long file, no head");
    memcpy(file.bytes, head.bytes, head.length);
    file.bytes[14] = 0xFF;
    file.bytes[15] = 0xF0;
    expect_wrong(file, BOARDID_EDITION, 2, 0, boards, 2, "2: a long file");
    r.call = REMOVE;
    r.form = 9;
    r.file = file;
    r.board = 5;
    r.body = none;
    expect_room(r, BOARDID_EDITION, (size_t)BOARDID_ROOM_MAX + 1, too_long, none,
                "2: a long file, a long output, and another form");
    expect_room(r, 0, 100, unknown, none, "1 before 2 for the file");
    give_back(file);

    /* One board with all the room that there is: 65,520 bytes. */
    most = lend(BOARDID_ROOM_MAX);
    memset(most.bytes, 0, most.length);
    memcpy(most.bytes, head.bytes, head.length);
    most.bytes[14] = 0xFF;
    most.bytes[15] = 0xF0;
    expect_number(boardid_room_fetch_board(1, most.bytes, most.length, 5),
                  (uint64_t)65520 << 32 | 16, "a body of 65,520 bytes");
    r.call = REMOVE;
    r.form = 1;
    r.file = most;
    r.out = lend(8);
    expect_count(by_header(&r), 8, "it goes, into 8 bytes");
    expect(memcmp(r.out.bytes, "RM\1\0\0\0\0", 8) == 0, "it is gone");
    give_back(r.out);
    r.call = ADD;
    r.board = 6;
    r.format = 2;
    r.body = lend_hex(VPD_NONE);
    expect_always(r, BOARDID_EDITION, 12, 0, "12: a full file");
    give_back(r.body);
    give_back(most);
    give_back(head);
}

/* New bodies of every length about the longest that fits: both sides of each line. */
static void long_bodies(void)
{
    static const size_t lengths[] = {65519, 65520, 65521, 65535, 65536, 65537};
    const struct lent none = {NULL, 0, NULL, 0};
    const struct outcome too_long = {2, 0, 0}, no_room = {12, 0, 0}, no_format = {16, 0, 0};
    struct request r;
    size_t k;

    r.form = BOARDID_ROOM_FORM_1;
    r.board = 5;
    for (k = 0; k < sizeof lengths / sizeof lengths[0]; k++) {
        r.body = lend(lengths[k]);
        r.body.bytes[0] = 0;
        for (r.call = ADD; r.call <= REPLACE; r.call = (enum call)(r.call + 1)) {
            r.file = lend_hex(r.call == ADD ? NO_BOARDS : HEAD("01") ROW_5 SKU);
            r.format = 2;
            if (lengths[k] > 65536) {
                expect_room(r, BOARDID_EDITION, BOARDID_ROOM_MAX, too_long, none, "the body's 2");
                expect_room(r, BOARDID_EDITION, 0, too_long, none, "the body's 2 before 12");
            } else if (lengths[k] > 65520) {
                expect_room(r, BOARDID_EDITION, BOARDID_ROOM_MAX, no_room, none,
                            "12: a body that no file has room for");
                expect_room(r, BOARDID_EDITION, 16, no_room, none, "12: a long body");
            } else {
                r.out = lend(BOARDID_ROOM_MAX);
                expect_count(by_header(&r), 16 + (uint32_t)lengths[k], "a long body");
                expect_number((uint32_t)r.out.bytes[14] << 8 | r.out.bytes[15], lengths[k],
                              "its length in the row");
                expect(memcmp(r.out.bytes + 16, r.body.bytes, lengths[k]) == 0, "a long body");
                expect(all_are(r.out, 16 + lengths[k], 0x5A), "after a long body");
                expect_number(boardid_room_row_at(1, r.out.bytes, 16 + lengths[k], 0).body_length,
                              lengths[k], "its row");
                give_back(r.out);
                expect_room(r, BOARDID_EDITION, 15 + lengths[k], no_room, none,
                            "12: one byte too little for a long body");
            }
            r.format = 9;
            expect_room(r, BOARDID_EDITION, BOARDID_ROOM_MAX, no_format, none,
                        "16 before 2 of a long body");
            r.format = 3;
            expect_refused(by_export(&r, 0), 1, 0, "1 before a long body");
            give_back(r.file);
        }
        give_back(r.body);
    }
    /* Replacing a long body by a shorter one frees its room. */
    r.call = REPLACE;
    r.format = 2;
    r.body = lend_hex(SKU);
    r.file = lend(BOARDID_ROOM_MAX);
    memset(r.file.bytes, 0, r.file.length);
    memcpy(r.file.bytes, "RM\1\0\0\1\0\0\0\0\0\5\2\0\xFF\xF0", 16);
    r.out = lend(26);
    expect_count(by_header(&r), 25, "a long body goes for a short one");
    expect_number(r.out.bytes[24], 0, "the short one's last byte");
    expect_number(r.out.bytes[25], 0x5A, "the byte after it");
    give_back(r.out);
    give_back(r.file);
    give_back(r.body);
}

/* As many boards as there can be, 7,280, each with the body 00; the numbers are even. */
static void most_boards(void)
{
    const uint32_t count = BOARDID_ROOM_BOARDS_MAX;
    struct lent file = lend(8 + 9 * (size_t)count), out = lend(BOARDID_ROOM_MAX);
    struct boardid_room_row row;
    const struct lent none = {NULL, 0, NULL, 0};
    struct request r;
    uint32_t k;

    memset(file.bytes, 0, file.length);
    memcpy(file.bytes, "RM\1\0\x1C\x70\0\0", 8);
    for (k = 0; k < count; k++) {
        uint8_t *bytes = file.bytes + 8 + 8 * (size_t)k;

        bytes[2] = (uint8_t)(k >> 7);
        bytes[3] = (uint8_t)(k << 1);
        bytes[4] = 2;
        bytes[7] = 1;
    }
    expect_number(boardid_room_rows(1, file.bytes, file.length), count, "7,280 rows");
    for (k = 0; k < count; k += k < 4 || k > count - 4 ? 1 : 1819) {
        uint64_t answer = boardid_room_fetch_board(1, file.bytes, file.length, 2 * k);

        expect_number(answer, (uint64_t)1 << 32 | (8 + 8 * count + k), "one of 7,280");
        row = boardid_room_row_at(1, file.bytes, file.length, k);
        expect_number(row.board, 2 * k, "row of 7,280: board");
        expect_number(row.body_place, 8 + 8 * count + k, "row of 7,280: place");
        expect_refused(boardid_room_fetch_board(1, file.bytes, file.length, 2 * k + 1), 22, 0,
                       "none of 7,280");
    }
    r.form = BOARDID_ROOM_FORM_1;
    r.file = file;
    r.format = 2;
    r.body = lend_hex(VPD_NONE);
    r.out = none;
    r.call = ADD;
    for (k = 0; k <= count; k += 3640) {
        r.board = 2 * k + 1;
        expect_always(r, BOARDID_EDITION, 12, 0, "12: the 7,281st board");
    }
    give_back(r.body);

    /* One goes, and then a body of 9 and of 10 bytes has the room of two. */
    expect_count(boardid_room_remove_board(1, file.bytes, file.length, 7000, out.bytes, out.length),
                 65519, "one of 7,280 goes");
    expect_number((uint32_t)out.bytes[4] << 8 | out.bytes[5], 7279, "7,279 boards");
    expect(all_are(out, 65519, 0x5A), "after 7,279 boards");
    for (k = 9; k <= 10; k++) {
        r.call = ADD;
        r.file = lend_copy(out.bytes, 65519);
        r.board = 7001;
        r.body = lend(k);
        r.body.bytes[0] = 0;
        r.out = lend(BOARDID_ROOM_MAX);
        if (k == 9) {
            expect_count(by_header(&r), 65536, "a file full to its last byte");
            expect_number(boardid_room_fetch_board(1, r.out.bytes, r.out.length, 14558),
                          (uint64_t)1 << 32 | 65535, "its last byte");
        } else {
            expect_refused(by_header(&r), 12, 0, "12: one byte more than a file has");
            expect(all_are(r.out, 0, 0x5A), "12: one byte more than a file has");
        }
        give_back(r.out);
        give_back(r.body);
        give_back(r.file);
    }
    give_back(out);
    give_back(file);
}

/* Slices of no bytes, with null pointers. */
static void no_bytes(void)
{
    struct lent file = lend_hex(TWO_BOARDS), out = lend(100);

    expect_refused(boardid_room_fetch_board(1, NULL, 0, 5), 21, 0, "no file: fetch");
    expect_refused(boardid_room_remove_board(1, NULL, 0, 5, NULL, 0), 21, 0, "no file: remove");
    expect_refused(boardid_room_add_board(1, NULL, 0, 5, 2, NULL, 0, NULL, 0), 21, 0,
                   "no file: add");
    expect_refused(boardid_room_add_board(1, file.bytes, file.length, 6, 2, NULL, 0, out.bytes,
                                          out.length),
                   5, 0, "no body: add");
    expect_refused(boardid_room_replace_board(1, file.bytes, file.length, 5, 3, NULL, 0, out.bytes,
                                              out.length),
                   3, 0, "no body: replace");
    expect_refused(boardid_room_remove_board(1, file.bytes, file.length, 5, NULL, 0), 12, 0,
                   "no output: remove");
    expect_refused(boardid_room_add_board(1, file.bytes, file.length, 6, 2, file.bytes + 24, 9,
                                          NULL, 0),
                   12, 0, "no output: add, of a body that is a part of the file");
    expect_count(boardid_room_add_board(1, file.bytes, file.length, 6, 2, file.bytes + 24, 9,
                                        out.bytes, out.length),
                 57, "a body that is a part of the file");
    expect(memcmp(out.bytes + 32, file.bytes + 24, 9) == 0 &&
               memcmp(out.bytes + 41, file.bytes + 24, 9) == 0,
           "a body that is a part of the file");
    expect(all_are(out, 57, 0x5A), "after a body that is a part of the file");
    give_back(out);
    give_back(file);
}

/* ---- Numbers of boards ---------------------------------------------------------------------- */

/*
 * Boards with these numbers, added in each of 120 orders, make one file, byte by byte; removed in
 * the same order, they leave none.
 */
static const uint32_t numbers[] = {0, 1, 0x7FFFFFFF, 0x80000000, 0xFFFFFFFF};

enum { NUMBERS = 5 };

#define ALL_NUMBERS \
    HEAD("05") ROW("00 00 00 00", "02", "00 02") ROW("00 00 00 01", "02", "00 02") \
    ROW("7F FF FF FF", "02", "00 02") ROW("80 00 00 00", "02", "00 02") \
    ROW("FF FF FF FF", "02", "00 02") "00 00 00 01 00 02 00 03 00 04"

/* One order: order k is the mixed digits of k. */
static void one_order(uint32_t order, struct lent all)
{
    struct lent now = lend(100), next = lend(100);
    uint32_t left[NUMBERS] = {0, 1, 2, 3, 4}, taken[NUMBERS], k, length;

    length = (uint32_t)boardid_room_write_empty(1, now.bytes, now.length);
    for (k = 0; k < NUMBERS; k++) {
        uint32_t at = order % (NUMBERS - k), i;
        uint8_t body[2] = {0, 0};

        order /= NUMBERS - k;
        taken[k] = left[at];
        for (i = at; i + 1 < NUMBERS - k; i++) {
            left[i] = left[i + 1];
        }
        body[1] = (uint8_t)taken[k];
        memset(next.bytes, 0x5A, next.length);
        expect_count(boardid_room_add_board(1, now.bytes, length, numbers[taken[k]], 2, body, 2,
                                            next.bytes, length + 10),
                     length + 10, "a number is added");
        length += 10;
        memcpy(now.bytes, next.bytes, length);
        expect_refused(boardid_room_add_board(1, now.bytes, length, numbers[taken[k]], 2, body, 2,
                                              next.bytes, next.length),
                       23, 0, "a number is there");
    }
    expect(length == all.length && memcmp(now.bytes, all.bytes, length) == 0,
           "the same file in every order");
    for (k = 0; k < NUMBERS; k++) {
        struct boardid_part part = boardid_answer_part(
            boardid_room_fetch_board(1, now.bytes, length, numbers[taken[k]]));

        expect(part.length == 2 && now.bytes[part.place] == 0 &&
                   now.bytes[part.place + 1] == taken[k],
               "a number's own body");
        expect_count(boardid_room_remove_board(1, now.bytes, length, numbers[taken[k]], next.bytes,
                                               next.length),
                     length - 10, "a number goes");
        length -= 10;
        memcpy(now.bytes, next.bytes, length);
        expect_refused(boardid_room_remove_board(1, now.bytes, length, numbers[taken[k]],
                                                 next.bytes, next.length),
                       22, 0, "a number is gone");
    }
    expect_number(length, 8, "no boards are left");
    give_back(next);
    give_back(now);
}

static void board_numbers(void)
{
    struct lent all = lend_hex(ALL_NUMBERS);
    uint32_t order;

    for (order = 0; order < 120; order++) {
        one_order(order, all);
    }
    give_back(all);
}

/* ---- What other editions name --------------------------------------------------------------- */

/*
 * Bodies with entries that edition 2 names and edition 1 does not, and entries that none names: a
 * program of every edition removes another board, and these stay, byte for byte.
 */
static void newer_bodies(void)
{
    static const char *const file =
        HEAD("03") ROW("00 00 00 01", "02", "00 0F") ROW_5 ROW("00 00 00 09", "03", "00 10")
        "FE 80 00 80 04 01 02 03 04 01 01 41 00 FF 07 " SKU
        "56 02 10 23 AA BB 80 00 01 80 05 41 31 2A 00 1E ";
    static const char *const without =
        HEAD("02") ROW("00 00 00 01", "02", "00 0F") ROW("00 00 00 09", "03", "00 10")
        "FE 80 00 80 04 01 02 03 04 01 01 41 00 FF 07 "
        "56 02 10 23 AA BB 80 00 01 80 05 41 31 2A 00 1E ";
    struct lent room = lend_hex(file), wanted = lend_hex(without), out = lend(wanted.length + 1);
    struct boardid_part part;

    expect_count(boardid_room_remove_board(1, room.bytes, room.length, 5, out.bytes, out.length),
                 (uint32_t)wanted.length, "beside what edition 1 does not name");
    expect(memcmp(out.bytes, wanted.bytes, wanted.length) == 0, "what edition 1 does not name");
    expect_number(out.bytes[wanted.length], 0x5A, "after what edition 1 does not name");
    part = boardid_answer_part(boardid_room_fetch_board(1, out.bytes, wanted.length, 9));
    expect_count(boardid_check_image(3, out.bytes + part.place, part.length), 2, "it is read");
    give_back(out);
    give_back(wanted);
    give_back(room);
}

/* ---- The header's functions ----------------------------------------------------------------- */

static void expect_row(struct boardid_room_row row, uint32_t board, uint32_t format, uint32_t place,
                       uint32_t length, const char *what)
{
    expect_number(row.board, board, what);
    expect_number(row.format, format, what);
    expect_number(row.body_place, place, what);
    expect_number(row.body_length, length, what);
}

static void empty_files(void)
{
    static const uint32_t forms[] = {0, 2, 3, 257, 0x01000001, 0xFFFFFFFF};
    struct lent out, wanted = lend_hex(NO_BOARDS);
    size_t length, k;

    for (length = 0; length < 20; length++) {
        out = lend(length);
        expect_number(boardid_room_write_empty(1, out.bytes, out.length), length < 8 ? 0 : 8,
                      "an empty file");
        if (length < 8) {
            expect(all_are(out, 0, 0x5A), "no room for an empty file");
        } else {
            expect(memcmp(out.bytes, wanted.bytes, 8) == 0, "an empty file");
            expect(all_are(out, 8, 0x5A), "after an empty file");
            expect_number(boardid_room_rows(1, out.bytes, 8), 0, "an empty file has no rows");
            expect_row(boardid_room_row_at(1, out.bytes, 8, 0), 0, 0, 0, 0, "an empty file");
            expect_refused(boardid_room_fetch_board(1, out.bytes, 8, 0), 22, 0, "an empty file");
        }
        give_back(out);
    }
    out = lend(20);
    for (k = 0; k < sizeof forms / sizeof forms[0]; k++) {
        expect_number(boardid_room_write_empty(forms[k], out.bytes, out.length), 0,
                      "an empty file of another form");
        expect(all_are(out, 0, 0x5A), "an empty file of another form");
        expect_number(boardid_room_rows(forms[k], wanted.bytes, wanted.length), 0, "another form");
    }
    expect_number(boardid_room_write_empty(1, NULL, 0), 0, "no bytes for an empty file");
    give_back(out);
    give_back(wanted);
}

static void rows(void)
{
    static const uint32_t forms[] = {0, 2, 3, 257, 0x01000001, 0xFFFFFFFF};
    struct lent file = lend_hex(THREE_BOARDS), cut;
    size_t k;

    expect_number(boardid_room_rows(1, file.bytes, file.length), 3, "three rows");
    expect_row(boardid_room_row_at(1, file.bytes, file.length, 0), 5, 2, 32, 9, "row 0");
    expect_row(boardid_room_row_at(1, file.bytes, file.length, 1), 256, 3, 41, 7, "row 1");
    expect_row(boardid_room_row_at(1, file.bytes, file.length, 2), 0xFFFFFFFF, 1, 48, 21, "row 2");
    expect_row(boardid_room_row_at(1, file.bytes, file.length, 3), 0, 0, 0, 0, "row 3");
    expect_row(boardid_room_row_at(1, file.bytes, file.length, (size_t)-1), 0, 0, 0, 0,
               "the last row that a number has");
    for (k = 0; k < sizeof forms / sizeof forms[0]; k++) {
        expect_number(boardid_room_rows(forms[k], file.bytes, file.length), 0, "another form");
        expect_row(boardid_room_row_at(forms[k], file.bytes, file.length, 0), 0, 0, 0, 0,
                   "another form");
    }
    file.bytes[2] = 2;
    expect_number(boardid_room_rows(1, file.bytes, file.length), 0, "a file of another form");
    expect_number(boardid_room_rows(2, file.bytes, file.length), 0, "a form that is not there");
    file.bytes[2] = 1;

    /* Cut short: the rows are there from 32 bytes on, and each one's body is inside the bytes. */
    for (k = 0; k < file.length; k++) {
        cut = lend_copy(file.bytes, k);
        expect_number(boardid_room_rows(1, cut.bytes, k), k < 32 ? 0 : 3, "rows of a cut file");
        expect_number(boardid_room_row_at(1, cut.bytes, k, 0).body_length, k < 41 ? 0 : 9,
                      "row 0 of a cut file");
        expect_number(boardid_room_row_at(1, cut.bytes, k, 1).body_length, k < 48 ? 0 : 7,
                      "row 1 of a cut file");
        expect_row(boardid_room_row_at(1, cut.bytes, k, 2), 0, 0, 0, 0, "row 2 of a cut file");
        give_back(cut);
    }
    expect_number(boardid_room_rows(1, NULL, 0), 0, "rows of no bytes");
    expect_row(boardid_room_row_at(1, NULL, 0, 0), 0, 0, 0, 0, "a row of no bytes");

    /* A body of 0 bytes is none, and what comes after it is not read. */
    file.bytes[23] = 0;
    expect_number(boardid_room_row_at(1, file.bytes, file.length, 0).body_length, 9, "before");
    expect_row(boardid_room_row_at(1, file.bytes, file.length, 1), 0, 0, 0, 0, "a body of 0 bytes");
    expect_row(boardid_room_row_at(1, file.bytes, file.length, 2), 0, 0, 0, 0, "after it");
    give_back(file);
}

/* Any bytes, with the head's form or without: nothing past them is read, and a body is inside. */
static void any_bytes(void)
{
    uint32_t state = 1, turn, k, count;

    for (turn = 0; turn < 4000; turn++) {
        struct lent bytes = lend(turn % 200);
        size_t i;

        for (i = 0; i < bytes.length; i++) {
            state = state * 1664525u + 1013904223u;
            bytes.bytes[i] = (uint8_t)(state >> 24);
            if (turn % 4 != 0 && i >= 8 && i % 8 == 6) {
                bytes.bytes[i] = 0;
            }
        }
        if (bytes.length > 5 && turn % 3 != 0) {
            bytes.bytes[2] = 1;
            bytes.bytes[4] = 0;
            bytes.bytes[5] &= turn % 2 == 0 ? 3 : 31;
        }
        count = boardid_room_rows(1, bytes.bytes, bytes.length);
        expect(count == 0 || 8 + 8 * (size_t)count <= bytes.length, "rows of any bytes");
        for (k = 0; k <= count + 1; k++) {
            struct boardid_room_row row = boardid_room_row_at(1, bytes.bytes, bytes.length, k);

            expect(row.body_length == 0
                       ? row.board == 0 && row.format == 0 && row.body_place == 0
                       : k < count && row.body_place >= 8 + 8 * count &&
                             row.body_place <= bytes.length &&
                             row.body_length <= bytes.length - row.body_place,
                   "a row of any bytes");
        }
        give_back(bytes);
    }
}

/* More bytes than a file has: no rows, also where the head counts some. */
static void too_many_bytes(void)
{
    struct lent bytes = lend((size_t)BOARDID_ROOM_MAX + 1);

    memset(bytes.bytes, 0, bytes.length);
    memcpy(bytes.bytes, "RM\1\0\0\1\0\0\0\0\0\5\2\0\0\1", 16);
    expect_number(boardid_room_rows(1, bytes.bytes, bytes.length - 1), 1, "65,536 bytes");
    expect_number(boardid_room_rows(1, bytes.bytes, bytes.length), 0, "65,537 bytes");
    expect_row(boardid_room_row_at(1, bytes.bytes, bytes.length, 0), 0, 0, 0, 0, "65,537 bytes");
    memset(bytes.bytes + 4, 0xFF, bytes.length - 4);
    expect_number(boardid_room_rows(1, bytes.bytes, bytes.length - 1), 0, "65,535 rows");
    bytes.bytes[4] = 0x1F;
    expect_number(boardid_room_rows(1, bytes.bytes, bytes.length - 1), 8191, "8,191 rows");
    expect_row(boardid_room_row_at(1, bytes.bytes, bytes.length - 1, 8190), 0, 0, 0, 0,
               "8,191 rows without bodies");
    give_back(bytes);
}

int main(void)
{
    worked();
    wrong();
    stored();
    long_files();
    long_bodies();
    most_boards();
    no_bytes();
    board_numbers();
    newer_bodies();
    empty_files();
    rows();
    any_bytes();
    too_many_bytes();
    return expectations_met("room");
}
