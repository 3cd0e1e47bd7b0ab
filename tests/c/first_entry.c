/*
 * Five functions of a program that has the headers of all editions: compiled once with each
 * edition's header, under the names that KIND, DATE, FRAME, MOVED and ROOM are defined as. They give
 * the kind of the first entry of an image; its date as the number YYYYMMDD, which is 0 where its
 * reading is no date; the length of its frame, or what an edition before 4 has in its place; the
 * length of the image, at most 64 bytes, after the entry was removed and added again; and the length
 * of a room file of which the image is the only body. Where a call is refused, all give the
 * refusal's number times 100,000,000.
 */
#include <boardid.h>

uint32_t KIND(uint32_t format, const uint8_t *image, size_t length);
uint32_t DATE(uint32_t format, const uint8_t *image, size_t length);
uint32_t FRAME(uint32_t format, const uint8_t *image, size_t length);
uint32_t MOVED(uint32_t format, const uint8_t *image, size_t length);
uint32_t ROOM(uint32_t format, const uint8_t *image, size_t length);

/* The first entry of an image, and the number of the refusal. */
static uint32_t first_entry(uint32_t format, const uint8_t *image, size_t length,
                            struct boardid_record *record)
{
    uint8_t bytes[BOARDID_RECORD_SIZE] = {0};
    uint64_t answer = boardid_entry_at(format, image, length, 0, bytes, sizeof bytes);

    *record = boardid_record_at(bytes, 0);
    return boardid_answer_number(answer);
}

uint32_t KIND(uint32_t format, const uint8_t *image, size_t length)
{
    struct boardid_record record;
    uint32_t number = first_entry(format, image, length, &record);

    return number != 0 ? number * 100000000 : record.kind;
}

uint32_t DATE(uint32_t format, const uint8_t *image, size_t length)
{
    struct boardid_record record;
    uint32_t number = first_entry(format, image, length, &record);
    struct boardid_date date = boardid_record_date(&record);

    return number != 0 ? number * 100000000 : date.year * 10000 + date.month * 100 + date.day;
}

uint32_t FRAME(uint32_t format, const uint8_t *image, size_t length)
{
    struct boardid_record record;
    uint32_t number = first_entry(format, image, length, &record);

#if BOARDID_EDITION >= 4
    return number != 0 ? number * 100000000 : record.frame_length;
#else
    return number != 0 ? number * 100000000 : record.reserved;
#endif
}

uint32_t MOVED(uint32_t format, const uint8_t *image, size_t length)
{
    struct boardid_record record;
    struct boardid_field field = {0, 0, 0, 0, 0};
    uint8_t removed[64], added[64], bytes[BOARDID_FIELD_SIZE];
    uint64_t answer;

    first_entry(format, image, length, &record);
    field.code = record.code;
    field.key_place = record.key_place;
    field.key_length = record.key_length;
    field.value_place = record.value_place;
    field.value_length = record.value_length;
    boardid_field_set(bytes, 0, field);
    answer = boardid_remove_entry(format, image, length, 0, removed, sizeof removed);
    if (boardid_answer_number(answer) == 0) {
        answer = boardid_add_field(format, removed, sizeof removed, bytes, sizeof bytes, image,
                                   length, added, sizeof added);
    }
    if (boardid_answer_number(answer) != 0) {
        return boardid_answer_number(answer) * 100000000;
    }
    return boardid_answer_count(answer);
}

uint32_t ROOM(uint32_t format, const uint8_t *image, size_t length)
{
    uint8_t none[BOARDID_ROOM_HEAD_SIZE], room[96];
    uint64_t answer;

    boardid_room_write_empty(BOARDID_ROOM_FORM_1, none, sizeof none);
    answer = boardid_room_add_board(BOARDID_ROOM_FORM_1, none, sizeof none, 7, format, image,
                                    length, room, sizeof room);
    if (boardid_answer_number(answer) != 0) {
        return boardid_answer_number(answer) * 100000000;
    }
    length = boardid_answer_count(answer);
    answer = boardid_room_fetch_board(BOARDID_ROOM_FORM_1, room, length, 7);
    return boardid_answer_part(answer).place + boardid_answer_part(answer).length;
}
