// Every function of a header used from C++. Compiled once with each edition's header.
#include <boardid.h>

#include <cstdio>
#include <cstring>

int main()
{
    static const uint8_t values[] = {'S', 'K', 'U', 'A', '7'};
    static const uint8_t wanted[] = {1, 3, 'S', 'K', 'U', 1, 'B', 0, 0xFF};
    static const uint8_t text[] = {'B'};
    uint8_t field[BOARDID_FIELD_SIZE], walk[BOARDID_WALK_SIZE], record[BOARDID_RECORD_SIZE];
    uint8_t image[9], edited[9];
    const boardid_field sku = {BOARDID_VPD_STRING, 0, 3, 3, 2};
    bool good = true;

    boardid_field_set(field, 0, sku);
    good = good && boardid_field_at(field, 0).value_place == 3;
    uint64_t answer = boardid_write_image(BOARDID_FORMAT_VPD, field, sizeof field, values,
                                          sizeof values, image, sizeof image);
    good = good && boardid_answer_count(answer) == sizeof image;
    good = good && boardid_answer_count(boardid_check_image(BOARDID_FORMAT_VPD, image,
                                                            sizeof image)) == 1;
    good = good && boardid_answer_count(boardid_list_entries(BOARDID_FORMAT_VPD, image,
                                                             sizeof image, record,
                                                             sizeof record)) == 1;
    const boardid_record entry = boardid_record_at(record, 0);
    good = good && entry.kind == BOARDID_KIND(BOARDID_FORMAT_VPD, BOARDID_VPD_STRING);
    good = good && entry.value_place == 6 && entry.value_length == 2;
#if BOARDID_EDITION >= 4
    good = good && entry.place == 0 && entry.frame_length == 8;
#else
    good = good && entry.place == 0 && entry.reserved == 0;
#endif
    good = good && boardid_answer_count(boardid_entry_at(BOARDID_FORMAT_VPD, image, sizeof image, 0,
                                                         record, sizeof record)) == 1;
    const boardid_part part =
        boardid_answer_part(boardid_value_at(BOARDID_FORMAT_VPD, image, sizeof image, 0));
    good = good && part.place == 6 && part.length == 2;
    good = good && boardid_answer_number(boardid_string_at(BOARDID_FORMAT_VPD, image, sizeof image,
                                                           0)) == BOARDID_REFUSED_FORMAT;
    boardid_walk_set(walk, BOARDID_FORMAT_VPD, 0);
    answer = boardid_walk_step(walk, sizeof walk, image, sizeof image, record, sizeof record);
    good = good && boardid_answer_count(answer) == 1 && boardid_walk_entry(walk) == 1;
    good = good && boardid_walk_format(walk) == BOARDID_FORMAT_VPD;
    good = good && boardid_walk_edition(walk) == BOARDID_EDITION;
    answer = boardid_walk_step(walk, sizeof walk, image, sizeof image, record, sizeof record);
    good = good && boardid_answer_number(answer) == BOARDID_REFUSED_NOT_THERE;
    good = good && boardid_answer_place(answer) == 0;
    answer = boardid_edit_entry(BOARDID_FORMAT_VPD, image, sizeof image, 0, text, sizeof text,
                                edited, sizeof edited);
    good = good && boardid_answer_count(answer) == 8;
    good = good && std::memcmp(edited, wanted, sizeof edited) == 0;

    static const uint8_t both[] = {1, 3, 'S', 'K', 'U', 1, 'B', 1, 1, 'K', 1, 'U', 0, 0xFF};
    static const uint8_t left[] = {1, 1, 'K', 1, 'U', 0, 0xFF, 0xFF};
    uint8_t added[14], removed[8];
    const boardid_field more = {BOARDID_VPD_STRING, 1, 1, 2, 1};
    boardid_field_set(field, 0, more);
    answer = boardid_add_field(BOARDID_FORMAT_VPD, edited, sizeof edited, field, sizeof field,
                               values, sizeof values, added, sizeof added);
    good = good && boardid_answer_count(answer) == 13;
    good = good && std::memcmp(added, both, sizeof added) == 0;
    answer = boardid_remove_entry(BOARDID_FORMAT_VPD, added, sizeof added, 0, removed,
                                  sizeof removed);
    good = good && boardid_answer_count(answer) == 6;
    good = good && std::memcmp(removed, left, sizeof removed) == 0;

    // The helpers.
    uint8_t two[2 * BOARDID_RECORD_SIZE], pool[8], tiny[16], address[6];
    char string[8];
    good = good && boardid_answer_count(boardid_list_entries(BOARDID_FORMAT_VPD, added,
                                                             sizeof added, two, sizeof two)) == 2;
    good = good && boardid_find_code(two, 2, BOARDID_VPD_STRING, 1) == 1;
    good = good && boardid_find_key(added, two, 2, "K", 1, 0) == 1;
    good = good && boardid_find_key(added, two, 2, "U", 1, 0) == 2;
    good = good && std::strcmp(boardid_kind_name(entry.kind), "string") == 0;
    good = good && std::strcmp(boardid_format_name(BOARDID_FORMAT_VPD), "VPD 2.0") == 0;
    boardid_record_address_bytes(&entry, 1, address);
    good = good && address[5] == 0;
    good = good && boardid_pool_append(pool, 0, sizeof pool, "SN-7", 4) == 4;
    good = good && boardid_pool_strings(pool, 4) == 1;
    const boardid_field strings = {BOARDID_TINY_ASCII_STRINGS, 0, 0, 0, 4};
    boardid_field_set(field, 0, strings);
    answer = boardid_write_image(BOARDID_FORMAT_TINY, field, sizeof field, pool, 4, tiny,
                                 sizeof tiny);
    good = good && boardid_write_length(BOARDID_FORMAT_TINY, field, sizeof field, pool, 4) == answer;
    good = good && boardid_image_length(BOARDID_FORMAT_TINY, tiny, sizeof tiny) == answer;
    good = good && boardid_string_text(tiny, sizeof tiny, 0, string, sizeof string) == 4;
    good = good && std::strcmp(string, "SN-7") == 0;
    good = good && boardid_answer_count(boardid_edit_length(BOARDID_FORMAT_VPD, image, sizeof image,
                                                            0, text, sizeof text)) == 8;
    boardid_field_set(field, 0, more);
    good = good && boardid_answer_count(boardid_add_length(BOARDID_FORMAT_VPD, edited,
                                                           sizeof edited, field, sizeof field,
                                                           values, sizeof values)) == 13;
    good = good && BOARDID_VERSION >= 403 && std::strlen(BOARDID_VERSION_TEXT) >= 3;

    uint8_t room[8], filled[24], changed[30], emptied[8];
    good = good && boardid_room_write_empty(BOARDID_ROOM_FORM_1, room, sizeof room) == 8;
    good = good && boardid_room_contents_place(BOARDID_ROOM_FORM_1) == 8;
    answer = boardid_room_add_board(BOARDID_ROOM_FORM_1, room, sizeof room, 7, BOARDID_FORMAT_VPD,
                                    edited, 8, filled, sizeof filled);
    good = good && boardid_answer_count(answer) == sizeof filled;
    good = good && boardid_room_rows(BOARDID_ROOM_FORM_1, filled, sizeof filled) == 1;
    const boardid_part body = boardid_answer_part(
        boardid_room_fetch_board(BOARDID_ROOM_FORM_1, filled, sizeof filled, 7));
    good = good && body.place == 16 && body.length == 8;
    good = good && std::memcmp(filled + body.place, wanted, body.length) == 0;
    answer = boardid_room_replace_board(BOARDID_ROOM_FORM_1, filled, sizeof filled, 7,
                                        BOARDID_FORMAT_VPD, added, sizeof added, changed,
                                        sizeof changed);
    good = good && boardid_answer_count(answer) == sizeof changed;
    const boardid_room_row row =
        boardid_room_row_at(BOARDID_ROOM_FORM_1, changed, sizeof changed, 0);
    good = good && row.board == 7 && row.format == BOARDID_FORMAT_VPD;
    good = good && row.body_place == 16 && row.body_length == sizeof added;
    answer = boardid_room_remove_board(BOARDID_ROOM_FORM_1, changed, sizeof changed, 7, emptied,
                                       sizeof emptied);
    good = good && boardid_answer_count(answer) == sizeof emptied;
    good = good && std::memcmp(emptied, room, sizeof emptied) == 0;
    answer = boardid_room_remove_board(BOARDID_ROOM_FORM_1, emptied, sizeof emptied, 7, room,
                                       sizeof room);
    good = good && boardid_answer_number(answer) == BOARDID_REFUSED_NO_BOARD;

    good = good && boardid_record_number(&entry) == 0;
    good = good && boardid_record_address_base(&entry) == 0;
    good = good && boardid_record_address_count(&entry) == 0;
    good = good && boardid_record_string_number(&entry) == 0;
    good = good && boardid_record_test_flags(&entry) == 0;
    good = good && boardid_record_tests_passed(&entry) == 0;
    const boardid_identity identity = boardid_record_identity(&entry);
    good = good && identity.serial_string == 0 && identity.free_bytes[1] == 0;
    good = good && boardid_record_date(&entry).year == 0;

    static const uint8_t fboss[] = {0xFB, 0xFB, 5,   0xFF, 1,   0,   8,  1,    1,   9,   1,
                                    2,    10,   1,   3,    11,  0,   13, 8,    '2', '0', '2',
                                    '4',  '0',  '2', '2',  '9', 250, 2,  0x49, 0x81};
    answer = boardid_entry_at(BOARDID_FORMAT_FBOSS, fboss, sizeof fboss, 5, record, sizeof record);
    const boardid_record dated = boardid_record_at(record, 0);
    const boardid_date date = boardid_record_date(&dated);
    good = good && boardid_answer_count(answer) == 1 && dated.reading == BOARDID_READING_DATE;
    good = good && date.year == 2024 && date.month == 2 && date.day == 29;
#if BOARDID_EDITION >= 2
    good = good && boardid_record_batch(&entry) == 0;
#endif
#if BOARDID_EDITION >= 3
    static const uint8_t letters[] = {'C', 'Z'};
    const boardid_field country = {BOARDID_ONIE_COUNTRY_CODE, 0, 0, 0, 2};
    uint8_t onie[21];
    boardid_field_set(field, 0, country);
    answer = boardid_write_image(BOARDID_FORMAT_ONIE, field, sizeof field, letters, sizeof letters,
                                 onie, sizeof onie);
    good = good && boardid_answer_count(answer) == sizeof onie;
    good = good && boardid_answer_count(boardid_entry_at(BOARDID_FORMAT_ONIE, onie, sizeof onie, 0,
                                                         record, sizeof record)) == 1;
    good = good && boardid_record_at(record, 0).kind ==
                       BOARDID_KIND(BOARDID_FORMAT_ONIE, BOARDID_ONIE_COUNTRY_CODE);

    const char *const evening = "12/31/2024 23:59:58";
    const boardid_field manufacture = {BOARDID_ONIE_MANUFACTURE_DATE, 0, 0, 0, 19};
    uint8_t stamped[38];
    boardid_field_set(field, 0, manufacture);
    answer = boardid_write_image(BOARDID_FORMAT_ONIE, field, sizeof field,
                                 reinterpret_cast<const uint8_t *>(evening), 19, stamped,
                                 sizeof stamped);
    good = good && boardid_answer_count(answer) == sizeof stamped;
    good = good && boardid_answer_count(boardid_entry_at(BOARDID_FORMAT_ONIE, stamped,
                                                         sizeof stamped, 0, record,
                                                         sizeof record)) == 1;
    const boardid_record timed = boardid_record_at(record, 0);
    const boardid_time time_of_day = boardid_record_time(&timed);
    good = good && timed.reading == BOARDID_READING_DATE_WITH_TIME;
    good = good && boardid_record_date(&timed).year == 2024;
    good = good && boardid_record_date(&timed).month == 12 && boardid_record_date(&timed).day == 31;
    good = good && time_of_day.hour == 23 && time_of_day.minute == 59 && time_of_day.second == 58;
    good = good && boardid_record_time(&dated).hour == 0;

    static const int8_t offsets[BOARDID_VENDOR_OFFSETS] = {24, -2, 0, 0, 0, 0, 0, -128};
    uint8_t piece[BOARDID_VENDOR_PIECE_SIZE], block[BOARDID_VENDOR_BLOCK_SIZE];
    uint8_t vendor[BOARDID_VENDOR_PREFIX_LENGTH + BOARDID_VENDOR_PAYLOAD_MIN + 2];
    uint8_t payload[BOARDID_VENDOR_PAYLOAD_MAX], amplifier[42];
    boardid_vendor_piece_set(piece, 0, BOARDID_VENDOR_PAYLOAD_MIN + 2);
    good = good && boardid_vendor_piece_at(piece, 0) == 18;
    good = good && boardid_vendor_offsets_word(offsets) >> 56 == 0x80;
    answer = boardid_vendor_write_payload(letters, sizeof letters, offsets, piece, sizeof piece,
                                          vendor, sizeof vendor);
    good = good && boardid_answer_count(answer) == sizeof vendor;
    const boardid_field extension = {BOARDID_ONIE_VENDOR_EXTENSION, 0, 0, 0, sizeof vendor};
    boardid_field_set(field, 0, extension);
    answer = boardid_write_image(BOARDID_FORMAT_ONIE, field, sizeof field, vendor, sizeof vendor,
                                 amplifier, sizeof amplifier);
    good = good && boardid_answer_count(answer) == sizeof amplifier;
    answer = boardid_vendor_read_payload(amplifier, sizeof amplifier, payload, sizeof payload,
                                         block, sizeof block);
    good = good && boardid_answer_count(answer) == 18;
    const boardid_vendor_block given = boardid_vendor_block_at(block);
    good = good && given.serial_length == 2;
    good = good && std::memcmp(payload + given.serial_place, letters, 2) == 0;
    good = good && given.offsets[BOARDID_VENDOR_C_BAND_WEST_OUT] == -2;
    good = good && boardid_signed_word_at(block, 4 + BOARDID_VENDOR_L_BAND_EAST_OUT) == -128;
    answer = boardid_vendor_read_payload(onie, sizeof onie, payload, sizeof payload, block,
                                         sizeof block);
    good = good && boardid_answer_number(answer) == BOARDID_REFUSED_NO_PAYLOAD;
#endif
    std::printf("plus_plus: %s\n", good ? boardid_refusal_text(BOARDID_NOT_REFUSED) : "wrong");
    return good ? 0 : 1;
}
