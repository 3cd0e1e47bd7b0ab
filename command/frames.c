/*
 * frames.c: where the frames of an image are.
 *
 * The library alone says whether an image is accepted. This walk is for what it does not give:
 * where an accepted image ends, and which entry of a refused one stands at the refusal's place.
 */
#include "command.h"

/* The place of an image's first entry. */
size_t frames_begin(uint32_t format)
{
    switch (format) {
    case BOARDID_FORMAT_FBOSS:
        return 4;
    case BOARDID_FORMAT_TINY:
        return 3;
    case BOARDID_FORMAT_ONIE:
        return 11;
    default:
        return 0;
    }
}

/* Where the room of the entries ends: the first byte after all that a frame may have. */
size_t frames_end(uint32_t format, const uint8_t *bytes, size_t room)
{
    if (format == BOARDID_FORMAT_TINY && room >= 3) {
        return bytes[2] >= 4 && bytes[2] <= room ? bytes[2] - (size_t)1 : room;
    }
    if (format == BOARDID_FORMAT_ONIE && room >= 11) {
        const size_t end = 11 + ((size_t)bytes[9] << 8 | bytes[10]);

        return end <= room ? end : room;
    }
    return room;
}

/* Reads a VPD length, seven bits a byte, and moves the place on. */
static enum frame_state vpd_length(const uint8_t *bytes, size_t end, size_t *place, size_t *length)
{
    int i;

    *length = 0;
    for (i = 0; i < 4; i++) {
        if (*place >= end) {
            return FRAME_CUT;
        }
        *length = *length << 7 | (bytes[*place] & 0x7Fu);
        if ((bytes[(*place)++] & 0x80) == 0) {
            return FRAME_ENTRY;
        }
    }
    return FRAME_BAD_LENGTH;
}

/* What stands at a place of a VPD image. */
static void vpd_frame(const uint8_t *bytes, size_t end, struct frame *frame)
{
    size_t place = frame->place + 1;

    if (frame->code == 0x00 || frame->code == 0xFF) {
        frame->state = FRAME_END;
        frame->length = 1;
        return;
    }
    if (frame->code != BOARDID_VPD_STRING && frame->code != BOARDID_VPD_INFO) {
        frame->state = FRAME_FORBIDDEN;
        return;
    }
    frame->state = vpd_length(bytes, end, &place, &frame->key_length);
    if (frame->state != FRAME_ENTRY) {
        frame->key_length = 0;
        return;
    }
    frame->key_place = place;
    if (frame->key_length > end - place) {
        frame->state = FRAME_LONG_KEY;
        return;
    }
    place += frame->key_length;
    frame->state = vpd_length(bytes, end, &place, &frame->value_length);
    frame->value_place = place;
    if (frame->state == FRAME_ENTRY && frame->value_length > end - place) {
        frame->state = FRAME_LONG;
    }
}

/* What stands at a place of a Tiny image. */
static void tiny_frame(const uint8_t *bytes, size_t end, struct frame *frame)
{
    frame->value_length = frame->code >> 4;
    frame->value_place = frame->place + 1;
    if (frame->code == 0) {
        frame->state = FRAME_FORBIDDEN;
        return;
    }
    if (frame->value_length == 0) {
        if (frame->value_place >= end) {
            frame->state = FRAME_CUT;
            return;
        }
        frame->value_length = bytes[frame->value_place];
        frame->value_place++;
    }
    frame->state = frame->value_length > end - frame->value_place ? FRAME_LONG : FRAME_ENTRY;
}

/* What stands at a place of an FBOSS or an ONIE image: one byte of code, one of length. */
static void plain_frame(const uint8_t *bytes, size_t end, uint32_t last, size_t last_length,
                        struct frame *frame)
{
    if (frame->code == 0 || frame->code == 0xFF) {
        frame->state = FRAME_FORBIDDEN;
        return;
    }
    if (end - frame->place < 2) {
        frame->state = FRAME_CUT;
        return;
    }
    frame->value_length = bytes[frame->place + 1];
    frame->value_place = frame->place + 2;
    if (frame->code == last && frame->value_length != last_length) {
        frame->state = FRAME_BAD_LENGTH;
    } else if (frame->value_length > end - frame->value_place) {
        frame->state = FRAME_LONG;
    } else {
        frame->state = frame->code == last ? FRAME_END : FRAME_ENTRY;
    }
}

/* What stands at a place where an entry of an image may begin. */
struct frame frame_at(uint32_t format, const uint8_t *bytes, size_t room, size_t place)
{
    const size_t end = frames_end(format, bytes, room);
    struct frame frame = {FRAME_NONE, 0, place, 0, place, 0, place, 0};

    if (place >= end) {
        if (format == BOARDID_FORMAT_TINY && place == end && end < room) {
            frame.state = FRAME_END;
            frame.length = 1;
        }
        return frame;
    }
    frame.code = bytes[place];
    switch (format) {
    case BOARDID_FORMAT_FBOSS:
        plain_frame(bytes, end, 250, 2, &frame);
        break;
    case BOARDID_FORMAT_ONIE:
        plain_frame(bytes, end, 0xFE, 4, &frame);
        break;
    case BOARDID_FORMAT_TINY:
        tiny_frame(bytes, end, &frame);
        break;
    default:
        vpd_frame(bytes, end, &frame);
        break;
    }
    if (frame.state == FRAME_ENTRY || (frame.state == FRAME_END && frame.length == 0)) {
        frame.length = frame.value_place + frame.value_length - place;
    }
    return frame;
}

/* The length of an image that the library accepts, its end included. */
size_t image_length(uint32_t format, const uint8_t *bytes, size_t room)
{
    size_t place = frames_begin(format);

    for (;;) {
        const struct frame frame = frame_at(format, bytes, room, place);

        if (frame.state != FRAME_ENTRY) {
            return place + frame.length;
        }
        place += frame.length;
    }
}
