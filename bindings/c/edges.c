/*
 * Every output length from 0 to one more than the answer's, every refusal's number, frames and fragments of every length, texts
 * with white space and the bytes beside it at their edges, every control byte, every mask with its longest messages and its worked
 * examples, the lengths of fragments, previews against coding and sending, both readings of WIDE calls in every place, receiver
 * states that no call leads to, tallies up to the largest 64-bit number, and states that are kept under names, with the lent bytes
 * of their stores. Every field of every answer is looked at, flags as the bytes that they are, and every input for being
 * unchanged. Every buffer has its exact length on the heap, so that valgrind sees a byte read or written beside it. Prints how
 * many calls were held against what is to be expected; the exit status is 1 where one differs.
 */
#include "xara.h"

#include <stdio.h>
#include <stdlib.h>
#include <string.h>

#define SENTINEL 0xA5

/* A flag of an answer as the byte that it is, which may be any byte of a wrong library. */
#define FLAG(type, answer, field) byte_at(&(answer), offsetof(type, field))

/* The masks of 1 to 7 check bits, and the most fragments of a message that is sent under each. */
#define MASKS 7
static const struct {
    uint8_t mask;
    size_t most;
} masks[MASKS] = {{0x80, 129}, {0xC0, 65}, {0xE0, 33}, {0xF0, 17}, {0xF8, 9}, {0xFC, 5}, {0xFE, 3}};

_Static_assert(XARA_MASK(4) == XARA_MASK_HF && XARA_MASK(5) == XARA_MASK_FM, "HF has 4 check bits, FM has 5");
_Static_assert(XARA_MAX_FRAGMENTS(XARA_MASK_HF) == XARA_MAX_FRAGMENTS_HF, "the most fragments under HF");
_Static_assert(XARA_MAX_FRAGMENTS(XARA_MASK_HF | XARA_MASK_FM) == XARA_MAX_FRAGMENTS_FM, "the most fragments under FM");

static unsigned long calls, wrong;

static void expect(bool is, const char *what, size_t at)
{
    calls++;
    if (!is) {
        wrong++;
        fprintf(stderr, "%s differs at %zu\n", what, at);
    }
}

static uint8_t byte_at(const void *answer, size_t place)
{
    uint8_t byte;
    memcpy(&byte, (const char *)answer + place, 1);
    return byte;
}

static uint8_t *filled(size_t n)
{
    uint8_t *bytes = malloc(n);
    if (bytes == NULL)
        exit(2);
    memset(bytes, SENTINEL, n);
    return bytes;
}

static uint8_t *copied(const uint8_t *from, size_t n)
{
    uint8_t *bytes = filled(n);
    memcpy(bytes, from, n);
    return bytes;
}

static bool untouched(const uint8_t *bytes, size_t n)
{
    for (size_t i = 0; i < n; i++)
        if (bytes[i] != SENTINEL)
            return false;
    return true;
}

/* The answer's bytes are at the front of the room and all after them is unchanged; all is where the room is too short. */
static bool written(const uint8_t *out, size_t room, const uint8_t *answer, size_t n)
{
    if (room < n)
        return untouched(out, room);
    return memcmp(out, answer, n) == 0 && untouched(out + n, room - n);
}

/* Each answer in all its fields. A refusal of 0 is none; a caller that expects a refusal expects 0 in the fields after it. */
static bool answered(XaraAnswer a, uint8_t refusal, size_t value)
{
    return FLAG(XaraAnswer, a, ok) == (refusal == 0) && a.refusal == refusal && a.value == value;
}

static bool encoded(XaraEncoded a, uint8_t refusal, uint8_t type, size_t length)
{
    return FLAG(XaraEncoded, a, ok) == (refusal == 0) && a.refusal == refusal && a.aprs_type == type && a.length == length;
}

static bool previewed(XaraPreview a, uint8_t refusal, size_t length, size_t count)
{
    return FLAG(XaraPreview, a, ok) == (refusal == 0) && a.refusal == refusal && a.length == length && a.count == count;
}

static bool decoded(XaraDecoded a, uint8_t refusal, uint8_t command, size_t length)
{
    return FLAG(XaraDecoded, a, ok) == (refusal == 0) && a.refusal == refusal && a.command == command && a.length == length;
}

static bool summed_up(XaraSummary a, uint8_t refusal, uint8_t type, uint8_t ui, size_t digis)
{
    return FLAG(XaraSummary, a, ok) == (refusal == 0) && a.refusal == refusal && a.aprs_type == type &&
           FLAG(XaraSummary, a, ui) == ui && a.digis == digis;
}

/* The tallies by place: offered, more, done, then dropped by cause. There is no padding between them. */
#define TALLIES 8
_Static_assert(sizeof(XaraTallies) == TALLIES * sizeof(uint64_t), "eight tallies");

/* Tallies that a caller made up. */
static const XaraTallies few = {3, 1, 4, 1, 5, 9, 2, 6};

/* A receiver whose tally at a place is this. */
static XaraReceiver with_tally(XaraReceiver r, size_t place, uint64_t value)
{
    memcpy((char *)&r.tallies + place * sizeof value, &value, sizeof value);
    return r;
}

/* A receiver that has counted one more answer of this kind, with its cause where it is dropped. */
static XaraReceiver counted(XaraReceiver r, uint8_t kind, uint8_t cause)
{
    uint64_t all[TALLIES];
    memcpy(all, &r.tallies, sizeof all);
    all[0]++;
    all[kind == XARA_DROPPED ? 2u + cause : kind - 1u]++;
    memcpy(&r.tallies, all, sizeof all);
    return r;
}

static bool same(XaraReceiver a, XaraReceiver b)
{
    return a.held == b.held && a.nfrag == b.nfrag && a.count == b.count && a.crc_mask == b.crc_mask && a.overflow == b.overflow &&
           memcmp(&a.tallies, &b.tallies, sizeof a.tallies) == 0;
}

static bool fresh(XaraFresh a, uint8_t refusal, XaraReceiver receiver)
{
    return FLAG(XaraFresh, a, ok) == (refusal == 0) && a.refusal == refusal && same(a.receiver, receiver);
}

/* The code is that of the refusal, or of the cause where the answer is dropped; else 0. */
static bool pushed(XaraPushed a, uint8_t kind, uint8_t code, size_t length, XaraReceiver receiver)
{
    return a.kind == kind && a.refusal == (kind == XARA_REFUSED ? code : 0) && a.cause == (kind == XARA_DROPPED ? code : 0) &&
           a.length == length && same(a.receiver, receiver);
}

/* Dropped by this cause, which the tallies of the receiver have not counted. */
static bool dropped(XaraPushed a, uint8_t cause, XaraReceiver receiver)
{
    return pushed(a, XARA_DROPPED, cause, 0, counted(receiver, XARA_DROPPED, cause));
}

/* Data of this type into every room. */
static void encode_rooms(uint8_t command, uint8_t type, const uint8_t *data, size_t n)
{
    uint8_t *lent = copied(data, n), *whole = filled(XARA_MAX_MESSAGE);
    XaraEncoded full = xara_encode(command, lent, n, whole, XARA_MAX_MESSAGE);
    expect(encoded(full, 0, type, full.length) && full.length <= XARA_MAX_MESSAGE, "encode", n);
    for (size_t room = 0; room <= full.length + 1; room++) {
        uint8_t *out = filled(room);
        XaraEncoded a = xara_encode(command, lent, n, out, room);
        bool fits = room >= full.length;
        expect(encoded(a, fits ? 0 : XARA_REFUSAL_OUTPUT, fits ? type : 0, fits ? full.length : 0) &&
                   written(out, room, whole, full.length),
               "encode", room);
        free(out);
    }
    expect(memcmp(lent, data, n) == 0, "data to encode", n);
    free(lent);
    free(whole);
}

/* The readings of a message: the original one and the mended one. */
typedef XaraDecoded (*Decode)(const uint8_t *message, size_t message_len, uint8_t *out, size_t out_len);
#define READINGS 2
static const Decode readings[READINGS] = {xara_decode, xara_decode_mended};

/* A message is read as data of this command, into every room. */
static void read_rooms(Decode decode, uint8_t command, const uint8_t *message, size_t n, const uint8_t *data, size_t length)
{
    uint8_t *lent = copied(message, n);
    for (size_t room = 0; room <= length + 1; room++) {
        uint8_t *out = filled(room);
        XaraDecoded a = decode(lent, n, out, room);
        bool fits = room >= length;
        expect(decoded(a, fits ? 0 : XARA_REFUSAL_OUTPUT, fits ? command : 0, fits ? length : 0) &&
                   written(out, room, data, length),
               "decode", room);
        free(out);
    }
    expect(memcmp(lent, message, n) == 0, "message to decode", n);
    free(lent);
}

/* An answer of so many bytes into room for so many. */
static bool answered_in(XaraAnswer a, size_t n, const uint8_t *out, size_t room, const uint8_t *whole)
{
    bool fits = room >= n;
    return answered(a, fits ? 0 : XARA_REFUSAL_OUTPUT, fits ? n : 0) && written(out, room, whole, n);
}

/* The frame of a fragment into every room. */
static void frame_rooms(const uint8_t *fragment, size_t n, size_t field)
{
    XaraControl control = {1, 0x80, 7};
    uint8_t *lent = copied(fragment, n), *whole = filled(field + XARA_FRAME_EXTRA);
    XaraAnswer full = xara_build_frame(field, lent, n, control, 0, whole, field + XARA_FRAME_EXTRA);
    expect(answered(full, 0, field + XARA_FRAME_EXTRA), "frame", n);
    for (size_t room = 0; room <= full.value + 1; room++) {
        uint8_t *out = filled(room);
        XaraAnswer a = xara_build_frame(field, lent, n, control, 0, out, room);
        expect(answered_in(a, full.value, out, room, whole), "frame", room);
        free(out);
    }
    expect(memcmp(lent, fragment, n) == 0, "fragment to frame", n);
    free(lent);
    free(whole);
}

/* Fragment k of so many may have this length: of several each before the last has exactly field bytes, the last at least 2. */
static bool booked(size_t length, size_t field, size_t k, size_t count)
{
    if (k + 1 < count)
        return length == field;
    return length >= (count > 1 ? 2 : 1) && length <= field;
}

/* Fragment k of so many into every room, then framed. */
static void fragment_rooms(const uint8_t *message, size_t n, size_t field, uint8_t mask, size_t k, size_t count)
{
    uint8_t *lent = copied(message, n), *whole = filled(field);
    XaraAnswer full = xara_fragment(lent, n, field, mask, k, whole, field);
    expect(answered(full, 0, full.value) && booked(full.value, field, k, count), "fragment", k);
    for (size_t room = 0; room <= full.value + 1; room++) {
        uint8_t *out = filled(room);
        XaraAnswer a = xara_fragment(lent, n, field, mask, k, out, room);
        expect(answered_in(a, full.value, out, room, whole), "fragment", room);
        free(out);
    }
    expect(memcmp(lent, message, n) == 0, "message to send", n);
    frame_rooms(whole, full.value, field);
    free(lent);
    free(whole);
}

/* All fragments of a message, whose count is known, and the number after the last. */
static void sender_rooms(const uint8_t *message, size_t n, size_t field, uint8_t mask, size_t count)
{
    uint8_t *lent = copied(message, n), *out = filled(field);
    expect(answered(xara_count_for_field(n, field), 0, count), "count", n);
    for (size_t k = 0; k < count; k++)
        fragment_rooms(message, n, field, mask, k, count);
    XaraAnswer past = xara_fragment(lent, n, field, mask, count, out, field);
    expect(answered(past, XARA_REFUSAL_NUMBER, 0) && untouched(out, field), "number", count);
    expect(memcmp(lent, message, n) == 0, "message to send", n);
    free(lent);
    free(out);
}

/* Generic bytes of every length to 40: 7 bit up to four of them, 8 bit from there on. */
static void generic_rooms(const uint8_t *any)
{
    for (size_t n = 0; n <= 40; n++)
        encode_rooms(XARA_GENERIC, XARA_TEXT, any, n);
}

/* Data coded into every room, its message decoded into every room in both readings. Hands back the message's length. */
static size_t both_rooms(uint8_t command, const uint8_t *data, size_t n, uint8_t *message)
{
    uint8_t *lent = copied(data, n);
    encode_rooms(command, XARA_TEXT, data, n);
    expect(summed_up(xara_summary(command, lent, n), 0, XARA_TEXT, command == XARA_AX25, 0), "summary", n);
    XaraEncoded a = xara_encode(command, lent, n, message, XARA_MAX_MESSAGE);
    for (size_t r = 0; r < READINGS; r++)
        read_rooms(readings[r], command, message, a.length, data, n);
    expect(memcmp(lent, data, n) == 0, "data to sum up", n);
    free(lent);
    return a.length;
}

static void coding_rooms(void)
{
    static const uint8_t frame[] = {0x86, 0xA2, 0x40, 0x40, 0x40, 0x40, 0x60, 0x96, 0x62, 0x82, 0x40,
                                    0x40, 0x40, 0x61, 0x03, 0xF0, 0x41, 0x42, 0x43, 0x44, 0x45};
    uint8_t any[300], *message = filled(XARA_MAX_MESSAGE);
    for (size_t i = 0; i < sizeof any; i++)
        any[i] = (uint8_t)(i * 37);
    generic_rooms(any);
    size_t n = both_rooms(XARA_AX25, frame, sizeof frame, message);
    sender_rooms(message, n, 5, XARA_MASK_HF, 3);
    n = both_rooms(XARA_GENERIC, any, sizeof any, message);
    sender_rooms(message, n, 30, XARA_MASK_HF, 11);
    sender_rooms(message, n, 64, XARA_MASK_FM, 5);
    free(message);
}

/* So many bits of a value after the bits that are there. */
static size_t push(uint8_t *out, size_t at, unsigned value, unsigned width)
{
    for (unsigned i = 0; i < width; i++, at++)
        out[at / 8] |= (uint8_t)((value >> (width - 1 - i) & 1) << (7 - at % 8));
    return at;
}

/* The message that decodes to the most bytes: a third party's, a text of the longest word after calls of 6 bits, one of 9. */
static void longest(uint8_t *message)
{
    static const unsigned head[][2] = {{0x5F, 8}, {0, 8},  {47, 6}, {47, 6}, {9, 4}, {6, 3},
                                       {303, 9},  {47, 6}, {47, 6}, {2, 2},  {47, 6}};
    size_t at = 0;
    memset(message, 0, XARA_MAX_MESSAGE);
    for (size_t i = 0; i < sizeof head / sizeof head[0]; i++)
        at = push(message, at, head[i][0], head[i][1]);
    while (at + 7 <= 8 * XARA_MAX_MESSAGE)
        at = push(message, at, 3, 7);
}

/* The mended reading has a byte less: of the call of 9 bits it makes WIDE2-3, the original one WIDE2-11. */
static void longest_rooms(void)
{
    uint8_t *message = filled(XARA_MAX_MESSAGE);
    longest(message);
    uint8_t *kept = copied(message, XARA_MAX_MESSAGE);
    for (size_t r = 0; r < READINGS; r++) {
        size_t length = XARA_MAX_DECODED - r;
        uint8_t *out = filled(length), *small = filled(length - 1);
        XaraDecoded a = readings[r](message, XARA_MAX_MESSAGE, small, length - 1);
        expect(decoded(a, XARA_REFUSAL_OUTPUT, 0, 0) && untouched(small, length - 1), "longest", 0);
        a = readings[r](message, XARA_MAX_MESSAGE, out, length);
        expect(decoded(a, 0, XARA_AX25_LONG, length), "longest", 1);
        free(out);
        free(small);
    }
    expect(memcmp(message, kept, XARA_MAX_MESSAGE) == 0, "longest", 2);
    free(message);
    free(kept);
}

/* Frames cut short anywhere, to the coder and the summary. */
static void short_frames(void)
{
    uint8_t *out = filled(XARA_MAX_MESSAGE);
    for (size_t n = 0; n < 16; n++) {
        uint8_t *frame = filled(n);
        XaraEncoded a = xara_encode(XARA_AX25, frame, n, out, XARA_MAX_MESSAGE);
        expect(encoded(a, XARA_REFUSAL_SHORT, 0, 0) && untouched(out, XARA_MAX_MESSAGE), "short frame", n);
        expect(summed_up(xara_summary(XARA_AX25, frame, n), XARA_REFUSAL_SHORT, 0, 0, 0), "short summary", n);
        expect(untouched(frame, n), "short frame's bytes", n);
        free(frame);
    }
    free(out);
}

/* CQ from K1A with this control byte, PID and A, under a command with calls of six letters or of seven. The frame's length. */
static size_t with_control(uint8_t command, uint8_t control, uint8_t pid, uint8_t *frame)
{
    size_t letters = command == XARA_AX25_LONG ? 7 : 6, n = 0;
    for (size_t call = 0; call < 2; call++) {
        for (size_t i = 0; i < letters; i++)
            frame[n++] = (uint8_t)((i < 3 ? (call == 0 ? "CQ " : "K1A")[i] : ' ') << 1);
        frame[n++] = (uint8_t)(0x60 | call);
    }
    frame[n++] = control;
    frame[n++] = pid;
    frame[n++] = 'A';
    return n;
}

/* UI is control 03 or 13, 000P0011, whatever the PID is; generic bytes are never UI. */
static void one_control(uint8_t command, uint8_t control, uint8_t pid)
{
    uint8_t frame[19];
    size_t n = with_control(command, control, pid, frame);
    uint8_t ui = command != XARA_GENERIC && (control == 0x03 || control == 0x13), *lent = copied(frame, n);
    expect(summed_up(xara_summary(command, lent, n), 0, XARA_TEXT, ui, 0), "control", control);
    expect(memcmp(lent, frame, n) == 0, "data with this control", control);
    free(lent);
}

/* A polled frame that is cut short anywhere is refused; with both control and PID it is UI without any information. */
static void polled_cut(uint8_t command)
{
    uint8_t frame[19];
    size_t whole = with_control(command, 0x13, 0xF0, frame) - 1;
    for (size_t n = 0; n <= whole; n++) {
        uint8_t *lent = copied(frame, n), is = n == whole, refusal = is ? 0 : XARA_REFUSAL_SHORT;
        expect(summed_up(xara_summary(command, lent, n), refusal, XARA_TEXT, is, 0), "polled and cut", n);
        expect(memcmp(lent, frame, n) == 0, "polled and cut bytes", n);
        free(lent);
    }
}

/* Every control byte with some PIDs, under every command. */
static void every_control(void)
{
    static const uint8_t pids[] = {0xF0, 0x00, 0x03, 0x13, 0xCF};
    for (unsigned control = 0; control < 256; control++)
        for (size_t p = 0; p < sizeof pids; p++)
            for (uint8_t command = 0; command < 3; command++)
                one_control(command, (uint8_t)control, pids[p]);
    polled_cut(XARA_AX25);
    polled_cut(XARA_AX25_LONG);
}

/* The coder treats only 03 with PID F0 as the short header: 13 and F0 are coded in the body, as letters of seven bits. */
static void polled_frame(void)
{
    static const uint8_t coded[] = {0x00, 0xAC, 0xB7, 0x01, 0x00, 0x04, 0xF8, 0x41, 0x00};
    uint8_t frame[19], *out = filled(sizeof frame);
    size_t n = with_control(XARA_AX25, 0x13, 0xF0, frame);
    expect(encoded(xara_encode(XARA_AX25, frame, n, out, n), 0, XARA_TEXT, sizeof coded), "polled frame", 0);
    expect(written(out, sizeof frame, coded, sizeof coded), "polled frame's message", 0);
    expect(decoded(xara_decode(coded, sizeof coded, out, sizeof frame), 0, XARA_AX25, n), "polled frame back", 0);
    with_control(XARA_AX25, 0x13, 0x70, frame);
    expect(written(out, sizeof frame, frame, n), "polled frame's bytes back", 0);
    free(out);
}

/* The CRC-16/GENIBUS of the bytes up to each place, by its polynomial. */
static void crc_lengths(void)
{
    unsigned c = 0xFFFF;
    for (size_t n = 0; n < 40; n++) {
        uint8_t *bytes = filled(n);
        expect(xara_crc16_genibus(bytes, n) == (c ^ 0xFFFF) && untouched(bytes, n), "crc", n);
        free(bytes);
        c ^= SENTINEL << 8;
        for (int bit = 0; bit < 8; bit++)
            c = (c & 0x8000 ? c << 1 ^ 0x1021 : c << 1) & 0xFFFF;
    }
}

/* No bytes at all. */
static void nothing(void)
{
    uint8_t *none = filled(0), *out = filled(0);
    expect(xara_crc16_genibus(none, 0) == 0, "crc of nothing", 0);
    for (size_t r = 0; r < READINGS; r++)
        expect(decoded(readings[r](none, 0, out, 0), XARA_REFUSAL_NOT_DECODED, 0, 0), "decode nothing", r);
    expect(encoded(xara_encode(XARA_GENERIC, none, 0, out, 0), XARA_REFUSAL_OUTPUT, 0, 0), "encode nothing", 0);
    expect(summed_up(xara_summary(XARA_GENERIC, none, 0), 0, XARA_TEXT, 0, 0), "summary of nothing", 0);
    free(none);
    free(out);
}

/* Every command but the three, which is refused before the summary looks at a length. */
static void command_refusals(void)
{
    static const size_t lengths[] = {0, 15, 20, XARA_MAX_DATA, XARA_MAX_DATA + 1};
    uint8_t *frame = filled(XARA_MAX_DATA + 1), *out = filled(100);
    for (unsigned command = 3; command < 256; command++) {
        XaraEncoded a = xara_encode((uint8_t)command, frame, 20, out, 100);
        expect(encoded(a, XARA_REFUSAL_COMMAND, 0, 0), "command", command);
        for (size_t i = 0; i < sizeof lengths / sizeof *lengths; i++) {
            XaraSummary s = xara_summary((uint8_t)command, frame, lengths[i]);
            expect(summed_up(s, XARA_REFUSAL_COMMAND, 0, 0, 0), "summary", command);
        }
    }
    expect(untouched(frame, XARA_MAX_DATA + 1) && untouched(out, 100), "command's bytes", 0);
    free(frame);
    free(out);
}

/* Data that is too long. */
static void length_refusals(void)
{
    size_t n = XARA_MAX_DATA + 1;
    uint8_t *data = filled(n), *out = filled(XARA_MAX_MESSAGE);
    for (uint8_t command = XARA_AX25; command <= XARA_GENERIC; command++) {
        expect(encoded(xara_encode(command, data, n, out, XARA_MAX_MESSAGE), XARA_REFUSAL_TOO_LONG, 0, 0), "data", command);
        expect(summed_up(xara_summary(command, data, n), XARA_REFUSAL_TOO_LONG, 0, 0, 0), "summary", command);
    }
    expect(untouched(data, n) && untouched(out, XARA_MAX_MESSAGE), "too long", 0);
    free(data);
    free(out);
}

/* A message with this header byte is refused with this in both readings, whatever the room, and nothing is changed. */
static void not_read(uint8_t header, size_t n, uint8_t refusal)
{
    uint8_t *message = filled(n), *out = filled(XARA_MAX_MESSAGE);
    message[0] = header;
    for (size_t i = 0; i < 2 * READINGS; i++) {
        size_t room = i < READINGS ? 0 : XARA_MAX_MESSAGE - 2;
        expect(decoded(readings[i % READINGS](message, n, out, room), refusal, 0, 0), "message refused", refusal);
    }
    expect(message[0] == header && untouched(message + 1, n - 1), "message refused, its bytes", refusal);
    expect(untouched(out, XARA_MAX_MESSAGE), "message refused, the output", refusal);
    free(message);
    free(out);
}

/* A message over 5,000 bytes comes first, then one that can't be decoded, then a room that is too short, were it by a byte. */
static void decoder_refusals(void)
{
    static const uint8_t headers[] = {0x20, 0x30, 0x48, 0xFF};
    for (size_t i = 0; i < sizeof headers; i++)
        not_read(headers[i], XARA_MAX_MESSAGE + 1, XARA_REFUSAL_TOO_LONG);
    not_read(0x30, XARA_MAX_MESSAGE, XARA_REFUSAL_NOT_DECODED);
    not_read(0x30, 1, XARA_REFUSAL_NOT_DECODED);
    not_read(0x48, 1, XARA_REFUSAL_NOT_DECODED);
    not_read(0x20, XARA_MAX_MESSAGE, XARA_REFUSAL_OUTPUT);
}

/*
 * A report is written as SOURCE>DESTINATION,DIGIPEATERS:INFORMATION, where a digipeater that has repeated it has a star. Here a
 * call comes to each place of a `?`; with eight blanks after that it is padded to nine letters.
 */
static void with_call(char *out, const char *report, const char *call)
{
    for (; *report != '\0'; report++) {
        if (*report != '?') {
            *out++ = *report;
            continue;
        }
        bool padded = strncmp(report + 1, "        ", 8) == 0;
        out += sprintf(out, "%-*s", padded ? 9 : 0, call);
        report += padded ? 8 : 0;
    }
    *out = '\0';
}

/* The address field of a call, for so many letters. Hands back the text after the call. */
static const char *address(uint8_t *out, const char *call, size_t letters)
{
    size_t n = strcspn(call, "-*,>:");
    for (size_t i = 0; i < letters; i++)
        out[i] = (uint8_t)((i < n ? call[i] : ' ') << 1);
    char *rest = (char *)call + n;
    unsigned long ssid = *rest == '-' ? strtoul(rest + 1, &rest, 10) : 0;
    out[letters] = (uint8_t)(0x60 | ssid << 1 | (*rest == '*' ? 0x80 : 0));
    return rest + (*rest == '*');
}

/* The frame of a report, with control 03 and PID F0, for calls of so many letters. Its length. */
static size_t frame_of(uint8_t *out, const char *report, size_t letters)
{
    size_t n = 2 * (letters + 1);
    const char *rest = address(out + letters + 1, report, letters);
    rest = address(out, rest + 1, letters);
    for (; *rest == ','; n += letters + 1)
        rest = address(out + n, rest + 1, letters);
    out[n - 1] |= 0x01;
    out[n++] = 0x03;
    out[n++] = 0xF0;
    memcpy(out + n, rest + 1, strlen(rest + 1));
    return n + strlen(rest + 1);
}

/* A report is coded. The length of its message. */
static size_t message_of(uint8_t *message, const char *report)
{
    uint8_t frame[200];
    size_t n = frame_of(frame, report, 6);
    uint8_t *lent = copied(frame, n);
    XaraEncoded a = xara_encode(XARA_AX25, lent, n, message, XARA_MAX_MESSAGE);
    expect(encoded(a, 0, a.aprs_type, a.length) && memcmp(lent, frame, n) == 0, "report", n);
    free(lent);
    return a.length;
}

/*
 * A report that was sent is read as another one. Calls of up to five letters have the same bits in a long frame: its header byte
 * alone is another.
 */
static void comes_back(Decode decode, const char *sent, const char *back)
{
    uint8_t frame[200], *message = filled(XARA_MAX_MESSAGE);
    size_t length = message_of(message, sent);
    for (uint8_t command = XARA_AX25; command <= XARA_AX25_LONG; command++) {
        message[0] |= (uint8_t)(0x10 * command);
        size_t n = frame_of(frame, back, 6u + command);
        read_rooms(decode, command, message, length, frame, n);
    }
    free(message);
}

/* Calls as they are sent and as the original reading hands them back, the first few as others. The mended one changes none. */
#define MISREAD 4
static const char *const wide[][2] = {
    {"WIDE1-2", "WIDE1-10"}, {"WIDE1-3", "WIDE1-11"},  {"WIDE2-2", "WIDE2-10"},  {"WIDE2-3", "WIDE2-11"},
    {"WIDE1", "WIDE1"},      {"WIDE1-1", "WIDE1-1"},   {"WIDE2", "WIDE2"},       {"WIDE2-1", "WIDE2-1"},
    {"WIDE2-4", "WIDE2-4"},  {"WIDE1-11", "WIDE1-11"}, {"WIDE2-10", "WIDE2-10"}, {"PNW2-1", "PNW2-1"},
};

/* A report with each of the calls in its places, in both readings. */
static void each_call(const char *report)
{
    char sent[200], misread[200];
    for (size_t i = 0; i < sizeof wide / sizeof wide[0]; i++) {
        with_call(sent, report, wide[i][0]);
        with_call(misread, report, wide[i][1]);
        comes_back(xara_decode, sent, misread);
        comes_back(xara_decode_mended, sent, sent);
    }
}

/*
 * Destination, source, each digipeater, a message's addressee, and the calls of a third party's report. These are not padded: a
 * room may be enough for the mended answer and too short for the original one. Last a path that is sent as a single number.
 */
static void wide_places(void)
{
    static const char *const reports[] = {
        "K1A>?:A",
        "?>CQ:A",
        "?>APRS,?*,?:>by WIDE2-2 and WIDE2-10",
        "K1A>APRS::?        :by WIDE2-2 and WIDE2-10",
        "K1A>APRS:}?>APRS,TCPIP,K1A*:>hi",
        "K1A>APRS:}K1A>?,TCPIP,K1A*:>hi",
        "K1A>APRS:}K1A>APRS,TCPIP,?*:!4903.50N/07201.75W-mast",
        "?>APRS,?:}?>?,TCPIP,?*::?        :hi",
    };
    static const char alias[] = "K1A>APRS,WIDE1-1*,WIDE2-1:>hi";
    char path[] = "K1A>CQ,ALL,ALL,ALL,ALL,ALL,ALL,ALL,ALL:A", one[sizeof path + 2];
    for (size_t i = 0; i < sizeof reports / sizeof reports[0]; i++)
        each_call(reports[i]);
    for (size_t k = 0; k < 8; k++) {
        sprintf(one, "%.*s?%s", (int)(7 + 4 * k), path, path + 10 + 4 * k);
        each_call(one);
        sprintf(one, "K1A>APRS,%.*s?%s", (int)(4 * k), path + 7, path + 10 + 4 * k);
        each_call(one);
    }
    for (size_t r = 0; r < READINGS; r++)
        comes_back(readings[r], alias, alias);
}

/* Worked examples: a report, what the original reading makes of it, and its message. */
#define EXAMPLES 5
static const struct {
    const char *sent, *misread;
    size_t length;
    uint8_t message[14];
} examples[EXAMPLES] = {
    {"K1A-1>CQ,WIDE2-2:A", "K1A-1>CQ,WIDE2-10:A", 8, {0x48, 0x56, 0x5B, 0x80, 0x80, 0x32, 0xE4, 0x10}},
    {"K1A>CQ,WIDE1-3,WIDE2-3:A", "K1A>CQ,WIDE1-11,WIDE2-11:A", 9, {0x49, 0x2B, 0x2D, 0xC0, 0x40, 0x09, 0x5C, 0xBD, 0x04}},
    {"K1A>APRS,WIDE1-1*,WIDE2-2:>hi",
     "K1A>APRS,WIDE1-1*,WIDE2-10:>hi",
     14,
     {0x49, 0xB4, 0x49, 0x30, 0x0B, 0x70, 0x10, 0x01, 0x29, 0x97, 0x07, 0xDA, 0x34, 0x80}},
    {"K1A>APRS::WIDE2-2  :hi", "K1A>APRS::WIDE2-10 :hi", 11, {0x40, 0xD1, 0x24, 0xC0, 0x2D, 0xC0, 0x40, 0x09, 0x2E, 0xD1, 0xA4}},
    {"K1A>CQ,WIDE2-10:A", "K1A>CQ,WIDE2-10:A", 12, {0x48, 0x56, 0x5B, 0x80, 0x80, 0x0B, 0x92, 0x20, 0xAE, 0x81, 0x48, 0x20}},
};

static void wide_examples(void)
{
    uint8_t *message = filled(XARA_MAX_MESSAGE);
    for (size_t i = 0; i < EXAMPLES; i++) {
        size_t n = message_of(message, examples[i].sent);
        expect(n == examples[i].length && memcmp(message, examples[i].message, n) == 0, "example's message", i);
        comes_back(xara_decode, examples[i].sent, examples[i].misread);
        comes_back(xara_decode_mended, examples[i].sent, examples[i].sent);
    }
    free(message);
}

/* A call that the original reading may hand back in place of another is at the start, as text or as an address field. */
static bool starts_misread(const uint8_t *bytes, size_t n)
{
    for (size_t i = 0; i < MISREAD; i++) {
        const char *call = wide[i][1];
        if (n >= strlen(call) && memcmp(bytes, call, strlen(call)) == 0)
            return true;
        for (size_t letters = 6; letters <= 7; letters++) {
            uint8_t field[8];
            address(field, call, letters);
            if (n > letters && memcmp(bytes, field, letters) == 0 && (bytes[letters] & 0x1E) == (field[letters] & 0x1E))
                return true;
        }
    }
    return false;
}

static bool holds_misread(const uint8_t *bytes, size_t n)
{
    for (size_t i = 0; i < n; i++)
        if (starts_misread(bytes + i, n - i))
            return true;
    return false;
}

/* Both readings refuse a message with the same, or answer alike where the original answer holds none of these calls. */
static void read_alike(const uint8_t *message, size_t n)
{
    size_t room = 500;
    uint8_t *lent = copied(message, n), *out = filled(room), *other = filled(room);
    XaraDecoded a = xara_decode(lent, n, out, room), b = xara_decode_mended(lent, n, other, room);
    bool ok = a.refusal == 0, refused = a.refusal == XARA_REFUSAL_NOT_DECODED && untouched(out, room);
    expect(decoded(a, a.refusal, ok ? a.command : 0, ok ? a.length : 0) && (ok || refused), "original reading", n);
    bool may = ok && holds_misread(out, a.length);
    expect(decoded(b, a.refusal, a.command, may ? b.length : a.length), "mended reading", n);
    expect(untouched(out + a.length, room - a.length) && untouched(other + b.length, room - b.length), "after both answers", n);
    expect(may || memcmp(out, other, room) == 0, "both answers", n);
    expect(memcmp(lent, message, n) == 0, "message of both readings", n);
    free(lent);
    free(out);
    free(other);
}

/* A message that is cut short anywhere, with every header byte. */
static void cut_message(const uint8_t *message, size_t length)
{
    uint8_t *bytes = copied(message, length);
    for (unsigned header = 0; header < 256; header++) {
        bytes[0] = (uint8_t)header;
        for (size_t n = 1; n <= length; n++)
            read_alike(bytes, n);
    }
    free(bytes);
}

/* The examples, and a third party's report with WIDE calls in all its places. */
static void cut_messages(void)
{
    uint8_t *message = filled(XARA_MAX_MESSAGE);
    cut_message(message, message_of(message, "K1A>APRS,WIDE2-2:}WIDE1-2>WIDE2-2,TCPIP,WIDE2-3*::WIDE1-3  :hi"));
    for (size_t i = 0; i < EXAMPLES; i++)
        cut_message(examples[i].message, examples[i].length);
    free(message);
}

/* A frame is refused with this, before a room that is too short, and nothing is changed. */
static void not_coded(const uint8_t *frame, size_t n, uint8_t refusal, size_t at)
{
    uint8_t *lent = copied(frame, n), *out = filled(100);
    for (size_t room = 0; room <= 100; room += 100)
        expect(encoded(xara_encode(XARA_AX25, lent, n, out, room), refusal, 0, 0) && untouched(out, 100), "frame refused", at);
    expect(memcmp(lent, frame, n) == 0, "frame refused, its bytes", at);
    free(lent);
    free(out);
}

/* A frame is coded as another one is. */
static void coded_as(const uint8_t *odd, const uint8_t *clean, size_t n, size_t at)
{
    uint8_t *lent = copied(odd, n), *other = copied(clean, n), *out = filled(100), *whole = filled(100);
    XaraEncoded full = xara_encode(XARA_AX25, other, n, whole, 100), a = xara_encode(XARA_AX25, lent, n, out, 100);
    expect(encoded(full, 0, full.aprs_type, full.length), "frame without white space", at);
    expect(encoded(a, 0, full.aprs_type, full.length) && memcmp(out, whole, 100) == 0, "frame with white space", at);
    expect(memcmp(lent, odd, n) == 0 && memcmp(other, clean, n) == 0, "frame with white space, its bytes", at);
    free(lent);
    free(other);
    free(out);
    free(whole);
}

/* White space around a call, and around an altitude, which has less. */
static bool is_white(uint8_t c, bool call)
{
    return (c >= 9 && c <= 13) || c == 32 || (call && c >= 28 && c <= 31);
}

/* A text of a frame with every byte up to 21 before and after it; `shift` is 1 in address fields. */
static void text_edges(const char *information, size_t place, const char *text, const char *clean, unsigned shift)
{
    uint8_t plain[60] = {0x82, 0xA0, 0x40, 0x40, 0x40, 0x40, 0x60, 0x96, 0x62, 0x82, 0x40, 0x40, 0x40, 0x61, 0x03, 0xF0}, odd[60];
    size_t n = 16 + strlen(information), length = strlen(text);
    bool altitude = length == 3 && shift == 0;
    memcpy(plain + 16, information, strlen(information));
    for (size_t i = 0; i < strlen(clean); i++)
        plain[place + i] = (uint8_t)(clean[i] << shift);
    for (uint8_t c = 0; c <= 0x21; c++) {
        uint8_t refusal = is_white(c, !altitude) ? 0 : altitude ? XARA_REFUSAL_FORMAT : XARA_REFUSAL_BAD_CALL;
        for (size_t front = 0; front < 2; front++) {
            memcpy(odd, plain, n);
            odd[place + (front ? 0 : length)] = (uint8_t)(c << shift);
            for (size_t i = 0; i < length; i++)
                odd[place + front + i] = (uint8_t)(text[i] << shift);
            if (refusal == 0)
                coded_as(odd, plain, n, c);
            else
                not_coded(odd, n, refusal, c);
        }
    }
}

/* The destination's, the source's and the addressee's text, and an altitude. */
static void white_space(void)
{
    text_edges(":A        :x", 0, "AP", "AP", 1);
    text_edges(":A        :x", 7, "K1A", "K1A", 1);
    text_edges(":A        :x", 17, "A", "A", 0);
    text_edges("!4903.50N/00723.75E>/A=000000", 41, "123", "0123", 0);
}

/* The information is not of the form that its type asks for, and a call has a letter that has no code. */
static void form_refusals(void)
{
    static const uint8_t call[] = {0x80, 0x40, 0x40, 0x40, 0x40, 0x40, 0x60, 0x96,
                                   0x62, 0x82, 0x40, 0x40, 0x40, 0x61, 0x03, 0xF0};
    static const char information[] = "!4903.50N/00723.75E>/A=00x234";
    uint8_t frame[16 + sizeof information] = {0x82, 0xA0, 0xA4, 0xA6, 0x40, 0x40, 0x60, 0x96,
                                              0x62, 0x82, 0x40, 0x40, 0x40, 0x61, 0x03, 0xF0};
    size_t n = 16 + sizeof information - 1;
    memcpy(frame + 16, information, sizeof information);
    not_coded(frame, n, XARA_REFUSAL_FORMAT, 0);
    not_coded(call, sizeof call, XARA_REFUSAL_BAD_CALL, 0);
    uint8_t *lent = copied(frame, n);
    expect(summed_up(xara_summary(XARA_AX25, lent, n), 0, XARA_POSITION, 1, 0), "summary of a wrong form", 0);
    free(lent);
}

/* A letter's code: 0 for a blank, 1 to 26 for A to Z, small or not, 27 to 36 for 0 to 9; 37 where it has none. */
static unsigned letter_code(uint8_t c)
{
    if (c == ' ')
        return 0;
    if ((c >= 'A' && c <= 'Z') || (c >= 'a' && c <= 'z'))
        return c % 32u;
    return c >= '0' && c <= '9' ? c - '0' + 27u : 37;
}

/* The bits of a call of three letters with these codes: a blank ends it, and the SSID is 0. */
static size_t push_call(uint8_t *out, size_t at, const unsigned codes[3])
{
    for (size_t i = 0; i < 3; i++)
        at = push(out, at, codes[i], 6);
    return push(out, at, 0, 10);
}

/* A call of K, this byte and 1, as the source, or as a digipeater after K1A: coded with the letter's code, or refused. The message has
   the code of CQ, the calls, and a bit for Text with the seven of A. */
static void one_letter(uint8_t byte, size_t digis)
{
    uint8_t frame[24] = {0x86, 0xA2, 0x40, 0x40, 0x40, 0x40, 0x60, 0x96, 0x62, 0x82, 0x40, 0x40, 0x40, 0x60}, message[12] = {0};
    const uint8_t call[] = {0x96, byte, 0x62, 0x40, 0x40, 0x40, 0x61, 0x03, 0xF0, 'A'};
    const unsigned letters[3] = {11, letter_code(byte >> 1), 28}, before[3] = {11, 28, 1};
    size_t n = 7 + 7 * digis + sizeof call, at = 8 + digis;
    memcpy(frame + 7 + 7 * digis, call, sizeof call);
    if (letters[1] == 37) {
        not_coded(frame, n, XARA_REFUSAL_BAD_CALL, byte);
        return;
    }
    message[0] = (uint8_t)(0x40 + 8 * digis);
    at = push(message, at, 43, 6);
    if (digis > 0)
        at = push_call(message, at, before);
    at = push(message, push_call(message, at, letters), 'A', 8);
    uint8_t *lent = copied(frame, n), *out = filled(100);
    expect(encoded(xara_encode(XARA_AX25, lent, n, out, 100), 0, XARA_TEXT, (at + 7) / 8), "letter", byte);
    expect(written(out, 100, message, (at + 7) / 8), "letter, its message", byte);
    expect(memcmp(lent, frame, n) == 0, "letter, its frame", byte);
    encode_rooms(XARA_AX25, XARA_TEXT, frame, n);
    free(lent);
    free(out);
}

/* A frame with a letter that has no code is refused for its command, its length, or its end that is missing first; and for the letter
   before the form of its information. */
static void letter_order(void)
{
    static const char information[] = "!4903.50N/00723.75E>/A=00x234";
    uint8_t frame[16 + sizeof information] = {0x82, 0xA0, 0xA4, 0xA6, 0x40, 0x40, 0x60, 0x96,
                                              0xBE, 0x62, 0x40, 0x40, 0x40, 0x61, 0x03, 0xF0};
    memcpy(frame + 16, information, sizeof information);
    not_coded(frame, 16 + sizeof information - 1, XARA_REFUSAL_BAD_CALL, 0);
    not_coded(frame, 16, XARA_REFUSAL_BAD_CALL, 1);
    for (size_t n = 0; n < 16; n++)
        not_coded(frame, n, XARA_REFUSAL_SHORT, n);
    uint8_t *data = filled(XARA_MAX_DATA + 1), *out = filled(100);
    memcpy(data, frame, 16);
    expect(encoded(xara_encode(3, data, XARA_MAX_DATA + 1, out, 0), XARA_REFUSAL_COMMAND, 0, 0), "command and letter", 3);
    for (size_t n = XARA_MAX_DATA; n <= XARA_MAX_DATA + 1; n++) {
        uint8_t refusal = n > XARA_MAX_DATA ? XARA_REFUSAL_TOO_LONG : XARA_REFUSAL_BAD_CALL;
        expect(encoded(xara_encode(XARA_AX25, data, n, out, 0), refusal, 0, 0), "length and letter", n);
    }
    expect(memcmp(data, frame, 16) == 0 && untouched(data + 16, XARA_MAX_DATA - 15) && untouched(out, 100), "letter's bytes", 0);
    free(data);
    free(out);
}

/* Every byte as a letter of the source and of a digipeater, but for a hyphen, which ends the letters. */
static void every_letter(void)
{
    for (unsigned byte = 0; byte < 256; byte++)
        for (size_t digis = 0; digis < 2 && byte >> 1 != '-'; digis++)
            one_letter((uint8_t)byte, digis);
}

/* Fields outside 3 to 512. */
static void field_refusals(void)
{
    XaraControl control = {0, 0, 0};
    uint8_t *message = filled(9), *fragment = filled(1), *out = filled(600);
    size_t fields[] = {0, 1, 2, 513, SIZE_MAX};
    for (size_t i = 0; i < 5; i++) {
        size_t field = fields[i];
        expect(answered(xara_count_for_field(1, field), XARA_REFUSAL_FIELD, 0), "count", field);
        expect(answered(xara_fragment(message, 9, field, 0, 0, out, 600), XARA_REFUSAL_FIELD, 0), "fragment", field);
        expect(answered(xara_build_frame(field, fragment, 1, control, 0, out, 600), XARA_REFUSAL_FIELD, 0), "frame", field);
    }
    expect(untouched(message, 9) && untouched(fragment, 1) && untouched(out, 600), "field's bytes", 0);
    free(message);
    free(fragment);
    free(out);
}

static bool is_mask(unsigned mask)
{
    for (size_t i = 0; i < MASKS; i++)
        if (masks[i].mask == mask)
            return true;
    return false;
}

/* Every mask but the seven, which is refused before an empty message. */
static void mask_refusals(void)
{
    uint8_t *none = filled(0), *out = filled(600);
    for (unsigned mask = 0; mask < 256; mask++) {
        uint8_t refusal = is_mask(mask) ? XARA_REFUSAL_EMPTY : XARA_REFUSAL_MASK;
        expect(answered(xara_fragment(none, 0, 5, (uint8_t)mask, 0, out, 600), refusal, 0), "mask", mask);
    }
    expect(untouched(out, 600), "output", 0);
    free(none);
    free(out);
}

/* A fragment of a message with this first byte is refused with this, and nothing is changed. */
static void not_sent(uint8_t first, size_t n, size_t field, uint8_t mask, size_t k, uint8_t refusal)
{
    uint8_t *message = filled(n), *out = filled(600);
    message[0] = first;
    expect(answered(xara_fragment(message, n, field, mask, k, out, 600), refusal, 0), "fragment refused", refusal);
    expect(message[0] == first && untouched(message + 1, n - 1) && untouched(out, 600), "fragment refused, its bytes", refusal);
    free(message);
    free(out);
}

/* Too long a message, a first byte of 80, and a number after the last. */
static void sender_refusals(void)
{
    expect(answered(xara_count_for_field(XARA_MAX_MESSAGE + 1, 512), XARA_REFUSAL_TOO_LONG, 0), "count", XARA_MAX_MESSAGE + 1);
    not_sent(0x40, XARA_MAX_MESSAGE + 1, 512, XARA_MASK_HF, 0, XARA_REFUSAL_TOO_LONG);
    not_sent(0x80, 9, 5, XARA_MASK_HF, 0, XARA_REFUSAL_FIRST_BYTE);
    not_sent(0x40, 9, 5, XARA_MASK_HF, SIZE_MAX, XARA_REFUSAL_NUMBER);
}

/* The header's masks and counts, by the number of check bits. */
static void mask_macros(void)
{
    for (size_t i = 0; i < MASKS; i++) {
        expect(XARA_MASK(i + 1) == masks[i].mask, "mask of check bits", i + 1);
        expect(XARA_MAX_FRAGMENTS(XARA_MASK(i + 1)) == masks[i].most, "most fragments", i + 1);
    }
}

/* The last fragment of a message of so many bytes is sent. */
static void last_sent(size_t n, size_t field, uint8_t mask)
{
    size_t k = (n - 1) / (field - 1), length = 1 + n - k * (field - 1);
    uint8_t *message = filled(n), *out = filled(length);
    message[0] = 0x40;
    expect(answered(xara_fragment(message, n, field, mask, k, out, length), 0, length), "last fragment", n);
    expect(out[0] == 0x40 && untouched(out + 1, length - 1), "last fragment's bytes", n);
    expect(message[0] == 0x40 && untouched(message + 1, n - 1), "message to send", n);
    free(message);
    free(out);
}

/* Under each mask the longest message at some fields, 5,000 bytes at most: its last fragment is sent. A byte more is refused. */
static void mask_limits(void)
{
    static const size_t fields[] = {3, 4, 40, 512};
    for (size_t i = 0; i < 4 * MASKS; i++) {
        uint8_t mask = masks[i / 4].mask;
        size_t field = fields[i % 4], room = masks[i / 4].most * (field - 1);
        bool all = room >= XARA_MAX_MESSAGE;
        size_t longest = all ? XARA_MAX_MESSAGE : room;
        last_sent(longest, field, mask);
        not_sent(0x40, longest + 1, field, mask, SIZE_MAX, all ? XARA_REFUSAL_TOO_LONG : XARA_REFUSAL_COUNT);
    }
}

/* A message to send at a field under a mask. */
typedef struct {
    const uint8_t *bytes;
    size_t length, field;
    uint8_t mask;
} Sending;

/* Fragment k is these bytes, or is refused with 12 where there are none. */
static void sent(Sending s, size_t k, const uint8_t *fragment, size_t n)
{
    uint8_t *lent = copied(s.bytes, s.length), *out = filled(s.field);
    XaraAnswer a = xara_fragment(lent, s.length, s.field, s.mask, k, out, s.field);
    expect(answered(a, n == 0 ? XARA_REFUSAL_COUNT : 0, n) && written(out, s.field, fragment, n), "worked example", s.mask);
    expect(memcmp(lent, s.bytes, s.length) == 0, "worked example's message", s.mask);
    free(lent);
    free(out);
}

/*
 * The first fragment of document 01's message at field 5 and the second, and the first of four at field 3, for which FE has no
 * room.
 */
static void worked_examples(void)
{
    static const uint8_t message[] = {0x40, 0xAC, 0xB7, 0x01, 0x00, 0x10, 0x40};
    static const uint8_t second[] = {0x40, 0x00, 0x10, 0x40};
    static const uint8_t at_5[MASKS][5] = {{0xC0, 0x00, 0xAC, 0xB7, 0x01}, {0xC0, 0x40, 0xAC, 0xB7, 0x01},
                                           {0xC0, 0x40, 0xAC, 0xB7, 0x01}, {0xC0, 0x40, 0xAC, 0xB7, 0x01},
                                           {0xC0, 0x48, 0xAC, 0xB7, 0x01}, {0xC0, 0x4C, 0xAC, 0xB7, 0x01},
                                           {0xC0, 0x4C, 0xAC, 0xB7, 0x01}};
    static const uint8_t at_3[MASKS][3] = {{0xC0, 0x02, 0xAC}, {0xC0, 0x42, 0xAC}, {0xC0, 0x42, 0xAC}, {0xC0, 0x42, 0xAC},
                                           {0xC0, 0x4A, 0xAC}, {0xC0, 0x4E, 0xAC}, {0}};
    expect(answered(xara_count_for_field(7, 3), 0, 4), "worked example", 0);
    for (size_t i = 0; i < MASKS; i++) {
        Sending by_5 = {message, sizeof message, 5, masks[i].mask}, by_3 = {message, sizeof message, 3, masks[i].mask};
        sent(by_5, 0, at_5[i], 5);
        sent(by_5, 1, second, 4);
        sent(by_3, 0, at_3[i], masks[i].mask == 0xFE ? 0 : 3);
    }
}

/* Messages of 21 and zeros, with the lengths of their fragments at a field and 0 after the last: the same under every mask. */
#define SLOTS 13
static const struct {
    size_t n, field, lengths[4];
} slots[SLOTS] = {
    {1, 3, {1}},
    {3, 3, {3}},
    {4, 3, {3, 3}},
    {5, 3, {3, 3, 2}},
    {5, 5, {5}},
    {6, 5, {5, 3}},
    {8, 5, {5, 5}},
    {9, 5, {5, 5, 2}},
    {24, 10, {10, 10, 7}},
    {24, 24, {24}},
    {25, 24, {24, 3}},
    {513, 512, {512, 3}},
    {1023, 512, {512, 512, 2}},
};

/* A message of 21 and zeros has just fragments of these lengths. */
static void slot_lengths(size_t n, size_t field, const size_t *lengths, uint8_t mask)
{
    static const uint8_t message[1023] = {0x21};
    uint8_t *lent = copied(message, n), *out = filled(field);
    size_t k = 0;
    for (; lengths[k] != 0; k++)
        expect(answered(xara_fragment(lent, n, field, mask, k, out, field), 0, lengths[k]), "length of a fragment", n);
    expect(answered(xara_fragment(lent, n, field, mask, k, out, field), XARA_REFUSAL_NUMBER, 0), "number after the last", n);
    expect(answered(xara_count_for_field(n, field), 0, k), "count of fragments", n);
    expect(memcmp(lent, message, n) == 0, "message to send", n);
    free(lent);
    free(out);
}

/* The rows, and the bytes of six and of nine by fields of 5. */
static void slot_examples(void)
{
    static const uint8_t message[9] = {0x21}, six[2][5] = {{0xA1, 0x80}, {0x21}}, nine[3][5] = {{0xA1, 0xA1}, {0xA1}, {0x21}};
    Sending of_six = {message, 6, 5, XARA_MASK_HF}, of_nine = {message, 9, 5, XARA_MASK_HF};
    for (size_t i = 0; i < MASKS * SLOTS; i++)
        slot_lengths(slots[i / MASKS].n, slots[i / MASKS].field, slots[i / MASKS].lengths, masks[i % MASKS].mask);
    sent(of_six, 0, six[0], 5);
    sent(of_six, 1, six[1], 3);
    sent(of_nine, 0, nine[0], 5);
    sent(of_nine, 1, nine[1], 5);
    sent(of_nine, 2, nine[2], 2);
}

/* Data under a command. */
typedef struct {
    uint8_t command;
    const uint8_t *bytes;
    size_t n;
} Data;

/* A preview at a field under a mask is refused with this; where that is 0 it answers this length and this count. */
static void priced(Data d, size_t field, uint8_t mask, uint8_t refusal, size_t length, size_t count)
{
    uint8_t *lent = copied(d.bytes, d.n);
    expect(previewed(xara_preview(d.command, lent, d.n, field, mask), refusal, length, count), "preview", d.n);
    expect(memcmp(lent, d.bytes, d.n) == 0, "data to preview", d.n);
    free(lent);
}

static void not_priced(Data d, size_t field, uint8_t mask, uint8_t refusal)
{
    priced(d, field, mask, refusal, 0, 0);
}

/* Document 01's frame, the same from k_1, and a position whose altitude has an x. */
#define PLAIN_FRAME 17
static const uint8_t plain_frame[PLAIN_FRAME + 1] = "\x86\xA2\x40\x40\x40\x40\x60\x96\x62\x82\x40\x40\x40\x61\x03\xF0\x41";
static const uint8_t no_call[PLAIN_FRAME + 1] = "\x86\xA2\x40\x40\x40\x40\x60\xD6\xBE\x62\x40\x40\x40\x61\x03\xF0\x41";
#define NO_FORM 45
static const uint8_t no_form[NO_FORM + 1] = "\x82\xA0\xA4\xA6\x40\x40\x60\x96\x62\x82\x40\x40\x40\x61\x03\xF0"
                                            "!4903.50N/00723.75E>/A=00x234";

/* Answers: the frame, nothing, and bytes of 80 and of 41 up to the most. */
static void preview_answers(void)
{
    uint8_t high[XARA_MAX_DATA], low[XARA_MAX_DATA];
    memset(high, 0x80, sizeof high);
    memset(low, 0x41, sizeof low);
    priced((Data){XARA_AX25, plain_frame, PLAIN_FRAME}, 5, XARA_MASK_HF, 0, 7, 2);
    priced((Data){XARA_GENERIC, high, 0}, 3, XARA_MASK_HF, 0, 2, 1);
    priced((Data){XARA_GENERIC, high, 33}, 3, XARA_MASK_HF, 0, 34, 17);
    not_priced((Data){XARA_GENERIC, high, 34}, 3, XARA_MASK_HF, XARA_REFUSAL_COUNT);
    priced((Data){XARA_GENERIC, high, 17}, 3, XARA_MASK_FM, 0, 18, 9);
    not_priced((Data){XARA_GENERIC, high, 18}, 3, XARA_MASK_FM, XARA_REFUSAL_COUNT);
    priced((Data){XARA_GENERIC, high, XARA_MAX_DATA}, 512, XARA_MASK_HF, 0, 5000, 10);
    priced((Data){XARA_GENERIC, low, XARA_MAX_DATA}, 512, XARA_MASK_HF, 0, 4376, 9);
}

/* Refusals, each with what would be refused after it. */
static void preview_refusals(void)
{
    static const uint8_t long_data[XARA_MAX_DATA + 1] = {0x80};
    not_priced((Data){3, plain_frame, PLAIN_FRAME}, 2, 0x00, XARA_REFUSAL_COMMAND);
    not_priced((Data){3, long_data, sizeof long_data}, 2, 0x00, XARA_REFUSAL_COMMAND);
    not_priced((Data){XARA_GENERIC, long_data, sizeof long_data}, 2, 0x00, XARA_REFUSAL_TOO_LONG);
    not_priced((Data){XARA_AX25, plain_frame, 10}, 2, 0x00, XARA_REFUSAL_SHORT);
    not_priced((Data){XARA_AX25, no_call, PLAIN_FRAME}, 513, 0xF1, XARA_REFUSAL_BAD_CALL);
    not_priced((Data){XARA_AX25, no_form, NO_FORM}, 2, 0x00, XARA_REFUSAL_FORMAT);
    not_priced((Data){XARA_AX25, plain_frame, PLAIN_FRAME}, 2, 0x00, XARA_REFUSAL_FIELD);
    not_priced((Data){XARA_AX25, plain_frame, PLAIN_FRAME}, 3, 0x00, XARA_REFUSAL_MASK);
    not_priced((Data){XARA_AX25, plain_frame, PLAIN_FRAME}, 3, XARA_MASK(7), XARA_REFUSAL_COUNT);
    for (unsigned command = 3; command < 256; command++)
        not_priced((Data){(uint8_t)command, plain_frame, PLAIN_FRAME}, 5, XARA_MASK_HF, XARA_REFUSAL_COMMAND);
}

/* How many fragments a message of so many bytes takes. */
static size_t count_of(size_t n, size_t field)
{
    return n <= field ? 1 : (n - 1) / (field - 1) + 1;
}

/* The refusal of a message that was coded to so many bytes: the field's, then the mask's, then that of the count. */
static uint8_t sender_refusal(size_t length, size_t field, uint8_t mask)
{
    if (field < 3 || field > 512)
        return XARA_REFUSAL_FIELD;
    if (!is_mask(mask))
        return XARA_REFUSAL_MASK;
    return count_of(length, field) > 257u - mask ? XARA_REFUSAL_COUNT : 0;
}

/* Data that the coder refuses with this, or codes to so many bytes, at fields around the limits under every byte as the mask. */
static void every_mask(Data d, uint8_t refusal, size_t length)
{
    static const size_t fields[] = {0, 1, 2, 3, 4, 5, 511, 512, 513, SIZE_MAX};
    uint8_t *lent = copied(d.bytes, d.n);
    for (size_t i = 0; i < 256 * sizeof fields / sizeof *fields; i++) {
        size_t field = fields[i / 256];
        uint8_t mask = (uint8_t)i, first = refusal != 0 ? refusal : sender_refusal(length, field, mask);
        XaraPreview a = xara_preview(d.command, lent, d.n, field, mask);
        expect(previewed(a, first, first == 0 ? length : 0, first == 0 ? count_of(length, field) : 0), "preview in order", i);
    }
    expect(memcmp(lent, d.bytes, d.n) == 0, "data to preview in order", d.n);
    free(lent);
}

/* The first refusal of any two: each of the coder's is met before the sender's, and all in their order. */
static void preview_order(void)
{
    static const uint8_t commands[] = {3, 4, 128, 255};
    uint8_t both[XARA_MAX_DATA + 1] = {0}, form[XARA_MAX_DATA + 1] = {0}, high[XARA_MAX_DATA];
    memcpy(both, no_form, NO_FORM);
    memcpy(form, no_form, NO_FORM);
    both[8] = 0xBE; /* a letter without a code before the wrong form */
    memset(high, 0x80, sizeof high);
    for (size_t i = 0; i < sizeof commands; i++) {
        every_mask((Data){commands[i], both, sizeof both}, XARA_REFUSAL_COMMAND, 0);
        every_mask((Data){commands[i], both, 15}, XARA_REFUSAL_COMMAND, 0);
        every_mask((Data){commands[i], both, 16}, XARA_REFUSAL_COMMAND, 0);
        every_mask((Data){commands[i], form, NO_FORM}, XARA_REFUSAL_COMMAND, 0);
        every_mask((Data){commands[i], plain_frame, PLAIN_FRAME}, XARA_REFUSAL_COMMAND, 0);
    }
    every_mask((Data){XARA_AX25, both, sizeof both}, XARA_REFUSAL_TOO_LONG, 0);
    every_mask((Data){XARA_AX25, form, sizeof form}, XARA_REFUSAL_TOO_LONG, 0);
    every_mask((Data){XARA_AX25_LONG, both, sizeof both}, XARA_REFUSAL_TOO_LONG, 0);
    every_mask((Data){XARA_GENERIC, both, sizeof both}, XARA_REFUSAL_TOO_LONG, 0);
    every_mask((Data){XARA_AX25, both, 15}, XARA_REFUSAL_SHORT, 0);
    every_mask((Data){XARA_AX25_LONG, both, 0}, XARA_REFUSAL_SHORT, 0);
    every_mask((Data){XARA_AX25, both, NO_FORM}, XARA_REFUSAL_BAD_CALL, 0);
    every_mask((Data){XARA_AX25, both, XARA_MAX_DATA}, XARA_REFUSAL_BAD_CALL, 0);
    every_mask((Data){XARA_AX25, form, NO_FORM}, XARA_REFUSAL_FORMAT, 0);
    every_mask((Data){XARA_AX25, form, XARA_MAX_DATA}, XARA_REFUSAL_FORMAT, 0);
    every_mask((Data){XARA_AX25, plain_frame, PLAIN_FRAME}, 0, 7);
    every_mask((Data){XARA_GENERIC, high, 0}, 0, 2);
    every_mask((Data){XARA_GENERIC, high, 512}, 0, 513);
    every_mask((Data){XARA_GENERIC, high, XARA_MAX_DATA}, 0, XARA_MAX_MESSAGE);
}

/* Under each mask the longest message at some fields: it has the most fragments, or 5,000 bytes. A byte more is refused. */
static void preview_limits(void)
{
    static const size_t fields[] = {3, 4, 40, 511, 512};
    uint8_t high[XARA_MAX_DATA + 1];
    memset(high, 0x80, sizeof high);
    for (size_t i = 0; i < 5 * MASKS; i++) {
        uint8_t mask = masks[i / 5].mask;
        size_t field = fields[i % 5], most = masks[i / 5].most, room = most * (field - 1);
        bool all = room > XARA_MAX_MESSAGE;
        size_t longest = all ? XARA_MAX_MESSAGE : room, count = all ? count_of(longest, field) : most;
        priced((Data){XARA_GENERIC, high, longest - 1}, field, mask, 0, longest, count);
        not_priced((Data){XARA_GENERIC, high, longest}, field, mask, all ? XARA_REFUSAL_TOO_LONG : XARA_REFUSAL_COUNT);
    }
}

/* Every field up to one over the largest, for messages with a byte less than, as many as and a byte more than the largest. */
static void preview_fields(void)
{
    uint8_t high[XARA_MAX_FIELD];
    memset(high, 0x80, sizeof high);
    for (size_t field = 0; field <= XARA_MAX_FIELD + 1; field++) {
        for (size_t n = XARA_MAX_FIELD - 2; n <= XARA_MAX_FIELD; n++) {
            uint8_t refusal = sender_refusal(n + 1, field, XARA_MASK(1));
            bool ok = refusal == 0;
            priced((Data){XARA_GENERIC, high, n}, field, XARA_MASK(1), refusal, ok ? n + 1 : 0, ok ? count_of(n + 1, field) : 0);
        }
    }
}

/* A preview answers what coding into 5,000 bytes and then sending fragment 0 into 512 answers. */
static void as_coded_and_sent(Data d, size_t field, uint8_t mask)
{
    uint8_t *lent = copied(d.bytes, d.n), *message = filled(XARA_MAX_MESSAGE), *out = filled(XARA_MAX_FIELD);
    XaraEncoded coded = xara_encode(d.command, lent, d.n, message, XARA_MAX_MESSAGE);
    uint8_t refusal = coded.refusal;
    size_t count = 0;
    if (coded.ok) {
        refusal = xara_fragment(message, coded.length, field, mask, 0, out, XARA_MAX_FIELD).refusal;
        count = xara_count_for_field(coded.length, field).value;
    }
    bool ok = refusal == 0;
    priced(d, field, mask, refusal, ok ? coded.length : 0, ok ? count : 0);
    free(lent);
    free(message);
    free(out);
}

/* Data under each command and one that there is not, at some fields and under some masks. */
static void each_price(const uint8_t *bytes, size_t n)
{
    static const size_t fields[] = {2, 3, 10, 512};
    static const uint8_t some[] = {0x00, XARA_MASK(1), XARA_MASK_HF, XARA_MASK(7)};
    for (uint8_t command = 0; command <= 3; command++)
        for (size_t i = 0; i < 16; i++)
            as_coded_and_sent((Data){command, bytes, n}, fields[i / 4], some[i % 4]);
}

/* Reports of every type, cut short anywhere, and any bytes of every length to 300. */
static void preview_data(void)
{
    static const char *const reports[] = {
        "K1A>CQ:A",
        "K1A-1>CQ,WIDE2-2,WIDE1-1*:any text",
        "K1A>APRS,WIDE1-1*,WIDE2-1:!4903.50N/07201.75W-/A=001234 mast",
        "K1A>APRS:@092345h4903.50N/07201.75W>moved",
        "K1A>APRS::WIDE2-2  :hi",
        "K1A>APRS,WIDE2-2:}WIDE1-2>WIDE2-2,TCPIP,WIDE2-3*::WIDE1-3  :hi",
    };
    uint8_t bytes[300];
    for (size_t i = 0; i < sizeof reports / sizeof *reports; i++) {
        size_t length = frame_of(bytes, reports[i], 6);
        for (size_t n = 0; n <= length; n++)
            each_price(bytes, n);
        each_price(bytes, frame_of(bytes, reports[i], 7));
    }
    for (size_t i = 0; i < sizeof bytes; i++)
        bytes[i] = (uint8_t)(i * 37);
    for (size_t n = 0; n <= sizeof bytes; n++)
        as_coded_and_sent((Data){XARA_GENERIC, bytes, n}, 3, masks[n % MASKS].mask);
}

/* A report with every byte in every place of it. */
static void preview_bytes(void)
{
    uint8_t frame[60];
    size_t n = frame_of(frame, "K1A>APRS,WIDE1-1:!4903.50N/07201.75W-/A=001234", 6);
    for (size_t i = 0; i < 256 * n; i++) {
        uint8_t was = frame[i / 256];
        frame[i / 256] = (uint8_t)i;
        as_coded_and_sent((Data){XARA_AX25, frame, n}, 5, XARA_MASK_FM);
        frame[i / 256] = was;
    }
}

static void preview_edges(void)
{
    preview_answers();
    preview_refusals();
    preview_order();
    preview_limits();
    preview_fields();
    preview_data();
    preview_bytes();
}

/* The frame of a fragment of so many bytes is refused with this at field 5, and nothing is changed. */
static void not_framed(size_t n, XaraControl control, uint8_t marker, uint8_t refusal)
{
    uint8_t *fragment = filled(n), *out = filled(8);
    expect(answered(xara_build_frame(5, fragment, n, control, marker, out, 8), refusal, 0), "frame refused", refusal);
    expect(untouched(fragment, n) && untouched(out, 8), "frame refused, its bytes", refusal);
    free(fragment);
    free(out);
}

static void frame_refusals(void)
{
    XaraControl control = {3, 1, 7}, reply = {4, 0, 0}, hint = {0, 0, 8};
    not_framed(0, control, XARA_TERMINATOR, XARA_REFUSAL_FRAGMENT);
    not_framed(6, control, XARA_TERMINATOR, XARA_REFUSAL_FRAGMENT);
    not_framed(5, reply, XARA_TERMINATOR, XARA_REFUSAL_MARKER);
    not_framed(5, reply, 0, XARA_REFUSAL_CONTROL);
    not_framed(5, hint, 0, XARA_REFUSAL_CONTROL);
}

/*
 * Pushes of up to 8 bytes and joins of up to 8 of 7 bytes, on a store of so many bytes, are refused with this: the state comes
 * back as it was, and nothing is changed. All 8 bytes are a frame at field 5 that goes on.
 */
static void refused(XaraReceiver state, size_t size, size_t field, uint8_t refusal)
{
    static const uint8_t bytes[8] = {0xC1, 0x42, 0x43, 0x44, 0x45, 0x01, 0x47, 0x48};
    uint8_t *store = filled(size), *frame = copied(bytes, 8);
    for (size_t n = 0; n <= 8; n++) {
        XaraPushed a = xara_receiver_push(state, store, size, frame, n, field);
        expect(pushed(a, XARA_REFUSED, refusal, 0, state), "push refused", refusal);
        if (refusal == XARA_REFUSAL_FIELD)
            continue;
        a = xara_receiver_join(state, store, size, frame, 7, n);
        expect(pushed(a, XARA_REFUSED, refusal, 0, state), "join refused", refusal);
    }
    expect(untouched(store, size) && memcmp(frame, bytes, 8) == 0, "bytes of a refused call", size);
    free(store);
    free(frame);
}

/* Stores of another length, and states with more than a receiver can hold or count: 17, whichever byte says overflow. */
static void state_refusals(void)
{
    size_t sizes[] = {0, 1, 4999, 5001}, over[] = {1, 2, 1000, SIZE_MAX - 5000};
    uint8_t overflows[] = {0, 1, 7, 0xFF};
    for (size_t i = 0; i < 16; i++) {
        size_t more = over[i % 4];
        uint8_t flag = overflows[i / 4];
        refused((XaraReceiver){4, 3, 2, XARA_MASK_HF, flag, few}, sizes[i % 4], 5, XARA_REFUSAL_STATE);
        refused((XaraReceiver){5000 + more, 1, 9, XARA_MASK_HF, flag, few}, XARA_STORE, 5, XARA_REFUSAL_STATE);
        refused((XaraReceiver){1, 255 + more, 9, XARA_MASK_FM, flag, few}, XARA_STORE, 5, XARA_REFUSAL_STATE);
        refused((XaraReceiver){5000 + more, 0, 9, 0, flag, few}, XARA_STORE, 0, XARA_REFUSAL_STATE);
    }
}

/* Masks that no receiver has: 9, whatever else it has. A new receiver that is refused is 0 in every field. */
static void receiver_masks(void)
{
    for (unsigned i = 0; i < 256; i++) {
        uint8_t mask = (uint8_t)i;
        if (is_mask(mask)) {
            expect(fresh(xara_receiver_new(mask), 0, (XaraReceiver){.crc_mask = mask}), "new", i);
            continue;
        }
        expect(fresh(xara_receiver_new(mask), XARA_REFUSAL_MASK, (XaraReceiver){0}), "new refused", i);
        refused((XaraReceiver){5000, 255, 5, mask, (uint8_t)(i * 7), few}, XARA_STORE, 0, XARA_REFUSAL_MASK);
        refused((XaraReceiver){.crc_mask = mask}, XARA_STORE, 5, XARA_REFUSAL_MASK);
    }
}

/* Fields outside 3 to 512: 8. */
static void receiver_fields(void)
{
    size_t fields[] = {0, 1, 2, 513, SIZE_MAX, SIZE_MAX - 2};
    for (size_t i = 0; i < 6; i++)
        for (unsigned overflow = 0; overflow < 256; overflow++)
            refused((XaraReceiver){7, 3, 9, XARA_MASK_FM, (uint8_t)overflow, few}, XARA_STORE, fields[i], XARA_REFUSAL_FIELD);
}

/* In overflow a fragment is dropped and only the overflow may end, whatever is held and whichever byte says overflow. */
static void overflow_states(void)
{
    size_t held[] = {0, 1, 4999, 5000}, nfrag[] = {0, 1, 254, 255};
    uint8_t *store = filled(XARA_STORE), *f = filled(3);
    for (unsigned i = 0; i < 16 * 255; i++) {
        XaraReceiver state = {held[i % 4], nfrag[i / 4 % 4], 7, XARA_MASK_HF, (uint8_t)(1 + i / 16), few}, after = state;
        after.overflow = 1;
        f[0] = 0x80;
        expect(dropped(xara_receiver_join(state, store, XARA_STORE, f, 3, 3), XARA_CAUSE_OVERFLOW, after), "overflow goes on", i);
        expect(dropped(xara_receiver_join(state, store, XARA_STORE, f, 1, 1), XARA_CAUSE_OVERFLOW, after), "no second byte", i);
        expect(dropped(xara_receiver_join(state, store, XARA_STORE, f, 3, 0), XARA_CAUSE_NO_FRAGMENT, after), "idle", i);
        after.overflow = 0;
        f[0] = 0x7F;
        expect(dropped(xara_receiver_join(state, store, XARA_STORE, f, 3, 3), XARA_CAUSE_OVERFLOW, after), "overflow ends", i);
        after.held = after.nfrag = 0;
        expect(same(xara_receiver_reset(state), after), "reset", i);
    }
    expect(untouched(store, XARA_STORE) && f[0] == 0x7F && untouched(f + 1, 2), "bytes in overflow", 0);
    free(store);
    free(f);
}

/* A state without overflow that a caller made up: a full one drops the fragment and forgets, another takes it in. */
static void made_up(size_t held, size_t nfrag, uint8_t mask)
{
    uint8_t *store = filled(XARA_STORE), *f = filled(3);
    f[0] = 0x80;
    XaraReceiver state = {held, nfrag, 7, mask, 0, few}, full = {0, 0, 7, mask, 1, few};
    XaraReceiver grown = {held + 2, nfrag + 1, 7, mask, 0, few}, begun = {2, 1, SENTINEL, mask, 0, few};
    bool over = held != 0 && (nfrag == 255 || held > 4998);
    XaraPushed a = xara_receiver_join(state, store, XARA_STORE, f, 3, 3);
    if (over)
        expect(dropped(a, XARA_CAUSE_LIMIT, full) && untouched(store, XARA_STORE), "full", held);
    else
        expect(pushed(a, XARA_MORE, 0, 0, counted(held == 0 ? begun : grown, XARA_MORE, 0)), "made up", held);
    expect(f[0] == 0x80 && untouched(f + 1, 2), "fragment", held);
    free(store);
    free(f);
}

static void made_up_states(void)
{
    size_t held[] = {0, 1, 2, 2500, 4997, 4998, 4999, 5000}, nfrag[] = {0, 1, 2, 128, 253, 254, 255};
    for (size_t i = 0; i < 8 * 7 * MASKS; i++)
        made_up(held[i % 8], nfrag[i / 8 % 7], masks[i / 56].mask);
}

/* Frames of every length but the right one are dropped; of that one, too, where they hold no fragment. */
static void frame_lengths(void)
{
    XaraReceiver state = {9, 2, 3, XARA_MASK_FM, 0, few};
    uint8_t *store = filled(XARA_STORE);
    for (size_t n = 0; n <= 40; n++) {
        uint8_t *frame = filled(n), *kept = filled(n);
        memset(frame, 0, n);
        memset(kept, 0, n);
        uint8_t cause = n == 30 + XARA_FRAME_EXTRA ? XARA_CAUSE_NO_FRAGMENT : XARA_CAUSE_WRONG_LENGTH;
        expect(dropped(xara_receiver_push(state, store, XARA_STORE, frame, n, 30), cause, state), "frame of this length", n);
        XaraPushed beyond = xara_receiver_join(state, store, XARA_STORE, frame, n, n + 1);
        expect(dropped(beyond, XARA_CAUSE_NO_FRAGMENT, state), "beyond the fragment", n);
        XaraPushed none = xara_receiver_join(state, store, XARA_STORE, frame, n, 0);
        expect(dropped(none, XARA_CAUSE_NO_FRAGMENT, state), "no fragment", n);
        expect(memcmp(frame, kept, n) == 0, "frame", n);
        free(frame);
        free(kept);
    }
    expect(untouched(store, XARA_STORE), "store", 0);
    free(store);
}

/* The two frames of document 01's message at field 5. */
#define FIRST {0xC0, 0x40, 0xAC, 0xB7, 0x01, 0x01, 0xA3, 0x8C}
#define LAST {0x40, 0x00, 0x10, 0x40, 0x14, 0x00, 0x52, 0x42}
#define LAST_DAMAGED {0x40, 0x00, 0x10, 0x41, 0x14, 0x00, 0x52, 0x42}

/* A message of two fragments is done; heard again with another check byte it is dropped. One fragment alone is always done. */
static void whole_messages(void)
{
    static const uint8_t sent[2][8] = {FIRST, LAST};
    static const uint8_t message[] = {0x40, 0xAC, 0xB7, 0x01, 0x00, 0x10, 0x40};
    uint8_t *store = filled(XARA_STORE), *first = copied(sent[0], 8), *last = copied(sent[1], 8);
    XaraReceiver state = xara_receiver_new(XARA_MASK_HF).receiver;
    XaraPushed a = xara_receiver_push(state, store, XARA_STORE, first, 8, 5);
    expect(pushed(a, XARA_MORE, 0, 0, (XaraReceiver){4, 1, 0x40, XARA_MASK_HF, 0, {1, 1, 0, 0, 0, 0, 0, 0}}), "first fragment", 0);
    a = xara_receiver_push(a.receiver, store, XARA_STORE, last, 8, 5);
    expect(pushed(a, XARA_DONE, 0, 7, (XaraReceiver){0, 2, 0x40, XARA_MASK_HF, 0, {2, 1, 1, 0, 0, 0, 0, 0}}), "last fragment", 0);
    expect(written(store, XARA_STORE, message, sizeof message), "message", 0);
    expect(memcmp(first, sent[0], 8) == 0 && memcmp(last, sent[1], 8) == 0, "frames", 0);
    a = xara_receiver_push(a.receiver, store, XARA_STORE, last, 8, 5);
    expect(pushed(a, XARA_DONE, 0, 4, (XaraReceiver){0, 1, 0x40, XARA_MASK_HF, 0, {3, 1, 2, 0, 0, 0, 0, 0}}), "last one alone", 0);
    first[1] ^= 0x80;
    a = xara_receiver_push(a.receiver, store, XARA_STORE, first, 8, 5);
    expect(pushed(a, XARA_MORE, 0, 0, (XaraReceiver){4, 1, 0xC0, XARA_MASK_HF, 0, {4, 2, 2, 0, 0, 0, 0, 0}}), "check byte", 0);
    a = xara_receiver_push(a.receiver, store, XARA_STORE, last, 8, 5);
    XaraReceiver after = {0, 2, 0xC0, XARA_MASK_HF, 0, {5, 2, 2, 0, 0, 0, 0, 1}};
    expect(pushed(a, XARA_DROPPED, XARA_CAUSE_CHECK, 0, after), "check byte", 1);
    free(store);
    free(first);
    free(last);
}

/* All fragments of a message at field 3 to a receiver, with these bits of the check byte changed: the answer to the last. */
static XaraPushed heard(const uint8_t *message, size_t n, uint8_t mask, uint8_t changed, uint8_t *store)
{
    XaraPushed a = {.kind = XARA_MORE, .receiver = xara_receiver_new(mask).receiver};
    for (size_t k = 0; k < n / 2; k++) {
        uint8_t *f = filled(3), kept[3];
        xara_fragment(message, n, 3, mask, k, f, 3);
        f[1] ^= k == 0 ? changed : 0;
        memcpy(kept, f, 3);
        expect(a.kind == XARA_MORE, "message goes on", k);
        a = xara_receiver_join(a.receiver, store, XARA_STORE, f, 3, 3);
        expect(memcmp(f, kept, 3) == 0, "fragment", k);
        free(f);
    }
    return a;
}

/* A message of full fragments is done. With a bit of its check byte changed it is dropped if the bit is the mask's, else done. */
static void mask_journey(const uint8_t *message, size_t n, uint8_t mask)
{
    uint8_t *lent = copied(message, n), *store = filled(XARA_STORE);
    size_t count = n / 2;
    uint8_t check = (uint8_t)((count - 2) | (xara_crc16_genibus(lent, n) >> 8 & mask));
    XaraPushed a = heard(lent, n, mask, 0, store);
    XaraTallies whole = {.offered = count, .more = count - 1, .done = 1};
    expect(pushed(a, XARA_DONE, 0, n, (XaraReceiver){0, count, check, mask, 0, whole}), "journey", mask);
    expect(written(store, XARA_STORE, message, n), "journey's message", mask);
    for (unsigned bit = 1; bit < 256; bit *= 2) {
        bool found = mask & bit;
        XaraTallies tallies = {.offered = count, .more = count - 1, .done = !found, .check = found};
        XaraReceiver after = {0, count, (uint8_t)(check ^ bit), mask, 0, tallies};
        a = heard(lent, n, mask, (uint8_t)bit, store);
        expect(found ? pushed(a, XARA_DROPPED, XARA_CAUSE_CHECK, 0, after) : pushed(a, XARA_DONE, 0, n, after), "check byte", bit);
    }
    expect(memcmp(lent, message, n) == 0, "message to send", mask);
    free(lent);
    free(store);
}

/* A message of 255 fragments, more than any sender's, is done, whatever the mask. */
static void most_heard(uint8_t mask)
{
    uint8_t *message = filled(XARA_RX_MAX_FRAGMENTS + 1), *store = filled(XARA_STORE), *f = filled(3);
    message[0] = 0x40;
    uint8_t check = (uint8_t)(xara_crc16_genibus(message, XARA_RX_MAX_FRAGMENTS + 1) >> 8 & mask);
    f[0] = 0xC0;
    f[1] = check;
    XaraPushed a = xara_receiver_join(xara_receiver_new(mask).receiver, store, XARA_STORE, f, 3, 3);
    f[1] = SENTINEL;
    for (size_t k = 1; k < XARA_RX_MAX_FRAGMENTS; k++) {
        XaraTallies tallies = {.offered = k, .more = k};
        expect(pushed(a, XARA_MORE, 0, 0, (XaraReceiver){k + 1, k, check, mask, 0, tallies}), "one of many", k);
        f[0] = k + 1 < XARA_RX_MAX_FRAGMENTS ? 0xC0 : 0x40;
        a = xara_receiver_join(a.receiver, store, XARA_STORE, f, 3, 2);
    }
    XaraReceiver after = {0, XARA_RX_MAX_FRAGMENTS, check, mask, 0, {.offered = 255, .more = 254, .done = 1}};
    expect(pushed(a, XARA_DONE, 0, 256, after), "last of many", mask);
    expect(written(store, XARA_STORE, message, XARA_RX_MAX_FRAGMENTS + 1), "message of many", mask);
    free(message);
    free(store);
    free(f);
}

/* Under each mask a message of as many fragments as it leaves room for, into every room and to a receiver, and one of 255. */
static void mask_journeys(void)
{
    uint8_t message[258];
    for (size_t i = 0; i < sizeof message; i++)
        message[i] = (uint8_t)(i * 37 % 128);
    for (size_t i = 0; i < MASKS; i++) {
        size_t most = masks[i].most;
        sender_rooms(message, 2 * most, 3, masks[i].mask, most);
        mask_journey(message, 2 * most, masks[i].mask);
        most_heard(masks[i].mask);
    }
}

/* A push at a field, a join of n bytes or a reset, and what is to come of it. The bytes that it lends are these, then zeros. */
typedef struct {
    enum { PUSH, JOIN, RESET } call;
    size_t number, length; /* the field or n, and how many bytes are lent */
    uint8_t front[8];
    uint8_t kind, code; /* of the refusal or of the cause */
    size_t done;        /* the length of the message */
    XaraReceiver after;
} Step;

/* What a call answers. A reset answers nothing: its receiver is put in the place of an answer. */
static XaraPushed answer_to(const Step *s, XaraReceiver r, uint8_t *store)
{
    uint8_t *kept = filled(s->length);
    memset(kept, 0, s->length);
    memcpy(kept, s->front, s->length < sizeof s->front ? s->length : sizeof s->front);
    uint8_t *lent = copied(kept, s->length);
    XaraPushed a = {.receiver = r};
    if (s->call == PUSH)
        a = xara_receiver_push(r, store, XARA_STORE, lent, s->length, s->number);
    else if (s->call == JOIN)
        a = xara_receiver_join(r, store, XARA_STORE, lent, s->length, s->number);
    else
        a.receiver = xara_receiver_reset(r);
    expect(memcmp(lent, kept, s->length) == 0, "bytes of a step", s->length);
    free(kept);
    free(lent);
    return a;
}

/* The store is unchanged but by fragments that are taken in and by a last one, which puts its first byte to the front. */
static bool may_write(const Step *s)
{
    return s->kind == XARA_MORE || s->kind == XARA_DONE || (s->kind == XARA_DROPPED && s->code == XARA_CAUSE_CHECK);
}

/* Worked examples of the tallies, one after the other from a new receiver on. */
#define STEPS 14
static const Step steps[STEPS] = {
    {PUSH, 5, 8, FIRST, XARA_MORE, 0, 0, {4, 1, 0x40, 0xF0, 0, {1, 1, 0, 0, 0, 0, 0, 0}}},
    {PUSH, 5, 8, LAST, XARA_DONE, 0, 7, {0, 2, 0x40, 0xF0, 0, {2, 1, 1, 0, 0, 0, 0, 0}}},
    {PUSH, 5, 1, {0x40}, XARA_DROPPED, XARA_CAUSE_WRONG_LENGTH, 0, {0, 2, 0x40, 0xF0, 0, {3, 1, 1, 1, 0, 0, 0, 0}}},
    {PUSH, 2, 1, {0x40}, XARA_REFUSED, XARA_REFUSAL_FIELD, 0, {0, 2, 0x40, 0xF0, 0, {3, 1, 1, 1, 0, 0, 0, 0}}},
    {JOIN, 0, 1, {0x40}, XARA_DROPPED, XARA_CAUSE_NO_FRAGMENT, 0, {0, 2, 0x40, 0xF0, 0, {4, 1, 1, 1, 1, 0, 0, 0}}},
    {JOIN, 2, 1, {0x40}, XARA_DROPPED, XARA_CAUSE_NO_FRAGMENT, 0, {0, 2, 0x40, 0xF0, 0, {5, 1, 1, 1, 2, 0, 0, 0}}},
    {JOIN, 1, 1, {0xC0}, XARA_DROPPED, XARA_CAUSE_NO_FRAGMENT, 0, {0, 2, 0x40, 0xF0, 0, {6, 1, 1, 1, 3, 0, 0, 0}}},
    {RESET, 0, 0, {0}, 0, 0, 0, {0, 0, 0x40, 0xF0, 0, {6, 1, 1, 1, 3, 0, 0, 0}}},
    {PUSH, 5, 8, FIRST, XARA_MORE, 0, 0, {4, 1, 0x40, 0xF0, 0, {7, 2, 1, 1, 3, 0, 0, 0}}},
    {PUSH, 5, 8, LAST_DAMAGED, XARA_DROPPED, XARA_CAUSE_CHECK, 0, {0, 2, 0x40, 0xF0, 0, {8, 2, 1, 1, 3, 0, 0, 1}}},
    {JOIN, 5001, 5001, {0x80}, XARA_MORE, 0, 0, {5000, 1, 0x00, 0xF0, 0, {9, 3, 1, 1, 3, 0, 0, 1}}},
    {JOIN, 5002, 5002, {0x80}, XARA_DROPPED, XARA_CAUSE_LIMIT, 0, {0, 0, 0x00, 0xF0, 1, {10, 3, 1, 1, 3, 0, 1, 1}}},
    {JOIN, 1, 1, {0x81}, XARA_DROPPED, XARA_CAUSE_OVERFLOW, 0, {0, 0, 0x00, 0xF0, 1, {11, 3, 1, 1, 3, 1, 1, 1}}},
    {JOIN, 1, 1, {0x01}, XARA_DROPPED, XARA_CAUSE_OVERFLOW, 0, {0, 0, 0x00, 0xF0, 0, {12, 3, 1, 1, 3, 2, 1, 1}}},
};

static void tally_examples(void)
{
    static const uint8_t message[] = {0x40, 0xAC, 0xB7, 0x01, 0x00, 0x10, 0x40};
    uint8_t *store = filled(XARA_STORE);
    XaraReceiver receiver = xara_receiver_new(XARA_MASK_HF).receiver;
    for (size_t i = 0; i < STEPS; i++) {
        uint8_t *kept = copied(store, XARA_STORE);
        XaraPushed a = answer_to(&steps[i], receiver, store);
        expect(pushed(a, steps[i].kind, steps[i].code, steps[i].done, steps[i].after), "step", i);
        expect(may_write(&steps[i]) || memcmp(store, kept, XARA_STORE) == 0, "store of a step", i);
        expect(steps[i].kind != XARA_DONE || memcmp(store, message, sizeof message) == 0, "message of a step", i);
        receiver = a.receiver;
        free(kept);
    }
    free(store);
}

/* Worked examples with a full tally, which is refused with 27 after 17, 9 and 8, and with one that takes a last message. */
static void tally_limits(void)
{
    static const Step done = {JOIN, 1, 1, {0x01}, XARA_DONE, 0, 1, {0, 1, 0x00, 0xF0, 0, {UINT64_MAX, 0, 1, 0, 0, 0, 0, 0}}};
    XaraReceiver full = {.crc_mask = XARA_MASK_HF, .tallies = {.check = UINT64_MAX}};
    refused(full, XARA_STORE, 5, XARA_REFUSAL_TALLY);
    refused(full, XARA_STORE, 2, XARA_REFUSAL_FIELD);
    full.crc_mask = 0xF1;
    refused(full, XARA_STORE, 2, XARA_REFUSAL_MASK);
    full.nfrag = 256;
    refused(full, XARA_STORE, 2, XARA_REFUSAL_STATE);
    XaraReceiver near = {.crc_mask = XARA_MASK_HF, .tallies = {.offered = UINT64_MAX - 1}};
    uint8_t *store = filled(XARA_STORE);
    XaraPushed a = answer_to(&done, near, store);
    expect(pushed(a, done.kind, done.code, done.done, done.after), "last message", 0);
    refused(a.receiver, XARA_STORE, 5, XARA_REFUSAL_TALLY);
    free(store);
}

/* Every set of the four faults, with each tally that may be full: 17 comes first, then 9, 8 and 27. A join has no field. */
static void refusal_order(void)
{
    for (size_t i = 0; i < 16 * TALLIES; i++) {
        bool over = i & 8, mask = i & 4, field = i & 2, full = i & 1;
        XaraReceiver state = {over ? 5001 : 5, 2, 3, mask ? 0xF1 : XARA_MASK_HF, 7, few};
        if (full)
            state = with_tally(state, i / 16, UINT64_MAX);
        if (over || mask || field)
            refused(state, XARA_STORE, field ? 513 : 5, over ? XARA_REFUSAL_STATE : mask ? XARA_REFUSAL_MASK : XARA_REFUSAL_FIELD);
        if (full && !over && !mask)
            refused(state, XARA_STORE, 5, XARA_REFUSAL_TALLY);
    }
}

/* Each tally alone that is full, whatever the state: 27, and 27 after a reset, which keeps it. */
static void full_tallies(void)
{
    XaraReceiver states[] = {
        {0, 0, 0, 0xF0, 0, few}, {4, 1, 64, 0xF8, 0, few}, {0, 0, 9, 0x80, 7, few}, {5000, 255, 9, 0xFE, 0, few}};
    for (size_t i = 0; i < 4 * TALLIES; i++) {
        XaraReceiver state = with_tally(states[i % 4], i / 4, UINT64_MAX), after = state;
        refused(state, XARA_STORE, 5, XARA_REFUSAL_TALLY);
        after.held = after.nfrag = after.overflow = 0;
        expect(same(xara_receiver_reset(state), after), "reset of a full receiver", i);
        refused(after, XARA_STORE, 5, XARA_REFUSAL_TALLY);
    }
}

/* A call for each answer, the state that it meets, and the one after it. Neither has counted anything. */
#define ANSWERS 7
static const struct {
    XaraReceiver before;
    Step step;
} answers[ANSWERS] = {
    {{.crc_mask = 0xF0}, {JOIN, 3, 3, {0xC1, 0x42}, XARA_MORE, 0, 0, {2, 1, 0x42, 0xF0, 0, {0}}}},
    {{.crc_mask = 0xF0}, {JOIN, 1, 1, {0x01}, XARA_DONE, 0, 1, {0, 1, 0, 0xF0, 0, {0}}}},
    {{5, 2, 3, 0xF0, 0, {0}}, {PUSH, 5, 7, {0x40}, XARA_DROPPED, XARA_CAUSE_WRONG_LENGTH, 0, {5, 2, 3, 0xF0, 0, {0}}}},
    {{5, 2, 3, 0xF0, 0, {0}}, {PUSH, 5, 8, {0x40}, XARA_DROPPED, XARA_CAUSE_NO_FRAGMENT, 0, {5, 2, 3, 0xF0, 0, {0}}}},
    {{5, 2, 3, 0xF0, 1, {0}}, {PUSH, 5, 8, {0xC0, 0, 0, 0, 0, 1}, XARA_DROPPED, XARA_CAUSE_OVERFLOW, 0, {5, 2, 3, 0xF0, 1, {0}}}},
    {{5000, 1, 3, 0xF0, 0, {0}}, {JOIN, 2, 2, {0xC0}, XARA_DROPPED, XARA_CAUSE_LIMIT, 0, {0, 0, 3, 0xF0, 1, {0}}}},
    {{2, 1, 0, 0xF0, 0, {0}}, {JOIN, 1, 1, {0x01}, XARA_DROPPED, XARA_CAUSE_CHECK, 0, {0, 2, 0, 0xF0, 0, {0}}}},
};

static bool is_full(XaraTallies t)
{
    uint64_t all[TALLIES];
    memcpy(all, &t, sizeof all);
    for (size_t i = 0; i < TALLIES; i++)
        if (all[i] == UINT64_MAX)
            return true;
    return false;
}

/* An answer is counted in tallies that are not full. The next call is refused where that has made one full, else it is counted. */
static void counted_once(size_t which, XaraTallies tallies)
{
    static const Step none = {.call = JOIN};
    const Step *s = &answers[which].step;
    uint8_t *store = filled(XARA_STORE);
    XaraReceiver before = answers[which].before, after = s->after;
    before.tallies = after.tallies = tallies;
    after = counted(after, s->kind, s->code);
    XaraPushed a = answer_to(s, before, store);
    expect(pushed(a, s->kind, s->code, s->done, after), "counted", which);
    if (is_full(after.tallies))
        refused(a.receiver, XARA_STORE, 5, XARA_REFUSAL_TALLY);
    else
        expect(dropped(answer_to(&none, a.receiver, store), XARA_CAUSE_NO_FRAGMENT, after), "counted again", which);
    free(store);
}

/* Each answer with each tally alone that can take just one more, and with all eight. */
static void last_of_each(void)
{
    const uint64_t most = UINT64_MAX - 1;
    XaraReceiver some = {.tallies = few}, all = {.tallies = {most, most, most, most, most, most, most, most}};
    for (size_t i = 0; i < ANSWERS * (TALLIES + 1); i++) {
        size_t place = i / ANSWERS;
        counted_once(i % ANSWERS, (place < TALLIES ? with_tally(some, place, most) : all).tallies);
    }
}

static void tally_edges(void)
{
    tally_examples();
    tally_limits();
    refusal_order();
    full_tallies();
    last_of_each();
}

/* Slots, kept states, and what a keep or a drop answers, in all their fields. */
static bool same_slot(const XaraSlot *a, const XaraSlot *b)
{
    return a->len == b->len && memcmp(a->name, b->name, XARA_MAX_NAME) == 0 && same(a->receiver, b->receiver);
}

static bool same_kept(const XaraKept *a, const XaraKept *b)
{
    for (size_t i = 0; i < XARA_KEPT; i++)
        if (!same_slot(&a->slots[i], &b->slots[i]))
            return false;
    return true;
}

static bool kept_so(XaraKeeping a, uint8_t refusal, size_t place, const XaraKept *kept)
{
    return FLAG(XaraKeeping, a, ok) == (refusal == 0) && a.refusal == refusal && a.place == place && same_kept(&a.kept, kept);
}

/* A name, which may be too long by one or two. */
typedef struct {
    size_t n;
    uint8_t bytes[XARA_MAX_NAME + 2];
} Name;

#define NAME(text) ((Name){sizeof(text) - 1, text})

/* A name of one letter: A is 0. */
static Name letter(size_t i)
{
    return (Name){1, {(uint8_t)('A' + i)}};
}

static XaraReceiver flagged(XaraReceiver r)
{
    r.overflow = r.overflow != 0;
    return r;
}

static XaraSlot slot_of(Name name, XaraReceiver r)
{
    XaraSlot slot = {.len = name.n, .receiver = r};
    memcpy(slot.name, name.bytes, name.n);
    return slot;
}

/* Kept states as an accepted call hands them back, with this slot at a place. */
static XaraKept with_slot(XaraKept kept, size_t place, XaraSlot slot)
{
    kept.slots[place] = slot;
    for (size_t i = 0; i < XARA_KEPT; i++)
        kept.slots[i].receiver = flagged(kept.slots[i].receiver);
    return kept;
}

/* A receiver with its store, and kept states with theirs. */
typedef struct {
    XaraReceiver receiver;
    XaraKept kept;
    uint8_t *store, *lent;
    size_t store_len, lent_len;
} Station;

/* So many bytes that look like no others. */
static uint8_t *mixed(size_t n)
{
    static uint32_t number = 1;
    uint8_t *bytes = filled(n);
    for (size_t i = 0; i < n; i++) {
        number = number * 1664525 + 1013904223;
        bytes[i] = (uint8_t)(number >> 24);
    }
    return bytes;
}

/* The receiver is in the middle of a message, and the slots are free. */
static Station station(size_t store_len, size_t lent_len)
{
    return (Station){{4, 1, 0x40, XARA_MASK_HF, 0, few}, {{{0, {0}, {0}}}}, mixed(store_len), mixed(lent_len), store_len, lent_len};
}

static void closed(Station s)
{
    free(s.store);
    free(s.lent);
}

/* The bytes that a call is lent as they are to be after it, and the name that it is lent. */
typedef struct {
    uint8_t *store, *lent, *name;
} Bytes;

static Bytes bytes_of(const Station *s, Name name)
{
    return (Bytes){copied(s->store, s->store_len), copied(s->lent, s->lent_len), copied(name.bytes, name.n)};
}

static void expect_bytes(const Station *s, Name name, Bytes after, const char *what, size_t at)
{
    expect(memcmp(s->store, after.store, s->store_len) == 0 && memcmp(s->lent, after.lent, s->lent_len) == 0 &&
               memcmp(name.bytes, after.name, name.n) == 0,
           what, at);
    free(after.store);
    free(after.lent);
    free(after.name);
}

/* A keep of the receiver goes to a place, or is refused with this: then the place is 0. */
static void keeps(Station *s, Name name, uint8_t refusal, size_t place)
{
    Bytes bytes = bytes_of(s, name);
    XaraKept after = s->kept;
    if (refusal == 0) {
        after = with_slot(after, place, slot_of(name, s->receiver));
        memcpy(bytes.lent + place * XARA_STORE, bytes.store, XARA_STORE);
    }
    XaraKeeping a = xara_kept_keep(s->kept, s->receiver, s->store, s->store_len, s->lent, s->lent_len, bytes.name, name.n);
    expect(kept_so(a, refusal, place, &after), "keep", refusal + place);
    expect_bytes(s, name, bytes, "bytes of a keep", refusal + place);
    s->kept = a.kept;
}

/* A return brings the receiver of this place with its store, or is refused with this: then the receiver is all zeros. */
static void returns(Station *s, Name name, uint8_t refusal, size_t place)
{
    Bytes bytes = bytes_of(s, name);
    XaraReceiver after = {0};
    if (refusal == 0) {
        after = flagged(s->kept.slots[place].receiver);
        memcpy(bytes.store, bytes.lent + place * XARA_STORE, XARA_STORE);
    }
    XaraFresh a = xara_kept_return(s->kept, s->store, s->store_len, s->lent, s->lent_len, bytes.name, name.n);
    expect(fresh(a, refusal, after), "return", refusal + place);
    expect_bytes(s, name, bytes, "bytes of a return", refusal + place);
    if (refusal == 0)
        s->receiver = a.receiver;
}

/* A drop makes this place free, or is refused with this: then the place is 0. */
static void drops(Station *s, Name name, uint8_t refusal, size_t place)
{
    Bytes bytes = bytes_of(s, name);
    XaraKept after = refusal == 0 ? with_slot(s->kept, place, (XaraSlot){0, {0}, {0}}) : s->kept;
    XaraKeeping a = xara_kept_drop(s->kept, s->lent, s->lent_len, bytes.name, name.n);
    expect(kept_so(a, refusal, place, &after), "drop", refusal + place);
    expect_bytes(s, name, bytes, "bytes of a drop", refusal + place);
    s->kept = a.kept;
}

/* The refusals of a keep, a return and a drop by one name, 0 for none; one that is not refused has this place. */
static void each_refusal(Station s, Name name, const uint8_t refusals[3], size_t place)
{
    Station again = s;
    keeps(&s, name, refusals[0], refusals[0] == 0 ? place : 0);
    s = again;
    returns(&s, name, refusals[1], refusals[1] == 0 ? place : 0);
    s = again;
    drops(&s, name, refusals[2], refusals[2] == 0 ? place : 0);
}

/* A name is kept at this place: each call finds it. */
static void known(Station s, Name name, size_t place)
{
    each_refusal(s, name, (const uint8_t[3]){0, 0, 0}, place);
}

/* A name is not kept: a keep puts it to this place, or is refused with this. */
static void unknown(Station s, Name name, uint8_t refusal, size_t place)
{
    each_refusal(s, name, (const uint8_t[3]){refusal, XARA_REFUSAL_NAME, XARA_REFUSAL_NAME}, place);
}

/* A name that is no name. */
static void unnamed(Station s, Name name)
{
    unknown(s, name, XARA_REFUSAL_NAME, 0);
}

/* A station with so many names of one letter kept, each with a receiver and a store of its own. */
static Station keeping(size_t names)
{
    Station s = station(XARA_STORE, XARA_KEPT_STORE);
    for (size_t i = 0; i < names; i++) {
        s.receiver = (XaraReceiver){4 + i, 1 + i, (uint8_t)(0x40 + i), masks[i % MASKS].mask, 0, few};
        s.receiver.tallies.offered = i;
        keeps(&s, letter(i), 0, i);
        free(s.store);
        s.store = mixed(XARA_STORE);
    }
    return s;
}

/* A push to the receiver of a station. */
static void hears(Station *s, Step step)
{
    XaraPushed a = answer_to(&step, s->receiver, s->store);
    expect(pushed(a, step.kind, step.code, step.done, step.after), "heard", step.done);
    s->receiver = a.receiver;
}

/* Two channels are left with the same message half heard, under F0 and under F8, and the first is returned to. */
static Station worked_journey(void)
{
    static const uint8_t half[] = {0xC0, 0xAC, 0xB7, 0x01}, alone[] = {0x40, 0x00, 0x10, 0x40};
    static const uint8_t message[] = {0x40, 0xAC, 0xB7, 0x01, 0x00, 0x10, 0x40};
    static const Step first = {PUSH, 5, 8, FIRST, XARA_MORE, 0, 0, {4, 1, 0x40, 0xF0, 0, {1, 1, 0, 0, 0, 0, 0, 0}}};
    static const Step other = {PUSH, 5, 8, LAST, XARA_DONE, 0, 4, {0, 1, 0x00, 0xF8, 0, {1, 0, 1, 0, 0, 0, 0, 0}}};
    static const Step again = {PUSH, 5, 8, FIRST, XARA_MORE, 0, 0, {4, 1, 0x40, 0xF8, 0, {2, 1, 1, 0, 0, 0, 0, 0}}};
    static const Step last = {PUSH, 5, 8, LAST, XARA_DONE, 0, 7, {0, 2, 0x40, 0xF0, 0, {2, 1, 1, 0, 0, 0, 0, 0}}};
    Station s = station(XARA_STORE, XARA_KEPT_STORE);
    s.kept = xara_kept_none();
    s.receiver = xara_receiver_new(XARA_MASK_HF).receiver;
    hears(&s, first);
    keeps(&s, NAME("net"), 0, 0);
    expect(memcmp(s.lent, half, sizeof half) == 0, "lent bytes of a message half heard", 0);
    s.receiver = xara_receiver_new(XARA_MASK_FM).receiver;
    hears(&s, other);
    expect(memcmp(s.store, alone, sizeof alone) == 0, "message of another channel", 0);
    hears(&s, again);
    keeps(&s, NAME("fm"), 0, 1);
    returns(&s, NAME("net"), 0, 0);
    hears(&s, last);
    expect(memcmp(s.store, message, sizeof message) == 0, "message after a return", 0);
    return s;
}

/* Names after that: one is dropped, and more are kept than there is room for. */
static Station worked_names(void)
{
    Station s = worked_journey();
    drops(&s, NAME("net"), 0, 0);
    returns(&s, NAME("net"), XARA_REFUSAL_NAME, 0);
    keeps(&s, NAME("x"), 0, 0);
    for (size_t i = 2; i < XARA_KEPT; i++)
        keeps(&s, letter(i), 0, i);
    keeps(&s, NAME("ninth"), XARA_REFUSAL_KEPT, 0);
    keeps(&s, NAME("fm"), 0, 1);
    unnamed(s, NAME(""));
    unnamed(s, NAME("ninebytes"));
    return s;
}

/* What is no state, after that: each with a name that would be refused with 20, too. */
static void kept_example(void)
{
    Station s = worked_names(), less = station(XARA_STORE, XARA_KEPT_STORE - 1);
    s.receiver.crc_mask = 0xF1;
    keeps(&s, NAME(""), XARA_REFUSAL_MASK, 0);
    s.receiver.nfrag = 256;
    keeps(&s, NAME(""), XARA_REFUSAL_STATE, 0);
    s.receiver = xara_receiver_new(XARA_MASK_HF).receiver;
    s.kept.slots[4].receiver.crc_mask = 0x00;
    each_refusal(s, NAME("fm"), (const uint8_t[3]){XARA_REFUSAL_MASK, XARA_REFUSAL_MASK, XARA_REFUSAL_MASK}, 0);
    each_refusal(less, NAME(""), (const uint8_t[3]){XARA_REFUSAL_STATE, XARA_REFUSAL_STATE, XARA_REFUSAL_STATE}, 0);
    closed(s);
    closed(less);
}

/* Nothing is kept: zeros in every field. All places are then taken in their order, and a place that is dropped is taken again. */
static void kept_places(void)
{
    static const XaraKept zeros = {{{0, {0}, {0}}}};
    XaraKept none = xara_kept_none();
    expect(same_kept(&none, &zeros), "nothing kept", 0);
    for (size_t i = 0; i < XARA_KEPT; i++) {
        Station some = keeping(i), all = keeping(XARA_KEPT);
        unknown(some, letter(i), 0, i);
        known(all, letter(i), i);
        unknown(all, NAME("new"), XARA_REFUSAL_KEPT, 0);
        drops(&all, letter(i), 0, i);
        unknown(all, letter(i), 0, i);
        if (i > 0) {
            drops(&all, letter(i / 2), 0, i / 2);
            unknown(all, letter(i), 0, i / 2);
        }
        closed(some);
        closed(all);
    }
}

/* Every length of a store around 5,000 and of the lent bytes around 40,000. A drop is lent no store. */
static void kept_lengths(void)
{
    static const size_t stores[] = {5000, 0, 1, 4999, 5001, 40000}, lents[] = {40000, 0, 1, 5000, 35000, 39999, 40001, 45000};
    for (size_t i = 0; i < 6 * 8; i++) {
        Station s = keeping(3), odd = station(stores[i % 6], lents[i / 6]);
        odd.kept = s.kept;
        uint8_t lent = i / 6 == 0 ? 0 : XARA_REFUSAL_STATE, any = i == 0 ? 0 : XARA_REFUSAL_STATE;
        each_refusal(odd, letter(1), (const uint8_t[3]){any, any, lent}, 1);
        closed(s);
        closed(odd);
    }
}

/* The three calls by name. */
enum { KEEP, RETURN, DROP };

/*
 * Faults by number, 0 for none. Of sizes: 1 a store, 2 the lent bytes, 3 to 6 a state that holds too much, 7 to 10 one that counts
 * too much. Of masks: 1 to 4. The four states are the one that is handed in to a keep, and those of three slots.
 */
#define SIZE_FAULTS 11
#define MASK_FAULTS 5

/* The refusal of a call by a fault of a size and one of a mask. */
static uint8_t fault_refusal(int call, size_t size, size_t mask)
{
    bool lent = size != 0 && !(size == 1 && call == DROP), handed_in = size == 3 || size == 7;
    if (lent && (call == KEEP || !handed_in))
        return XARA_REFUSAL_STATE;
    return mask != 0 && (call == KEEP || mask != 1) ? XARA_REFUSAL_MASK : 0;
}

/* A station with these faults. */
static Station faulty(size_t size, size_t mask, XaraKept kept)
{
    Station s = station(XARA_STORE - (size == 1), XARA_KEPT_STORE - (size == 2));
    s.kept = kept;
    XaraReceiver *four[4] = {&s.receiver, &s.kept.slots[0].receiver, &s.kept.slots[3].receiver, &s.kept.slots[7].receiver};
    if (size >= 7)
        four[size - 7]->nfrag = mask % 2 == 0 ? 256 : SIZE_MAX;
    else if (size >= 3)
        four[size - 3]->held = mask % 2 == 0 ? 5001 : SIZE_MAX;
    if (mask >= 1)
        four[mask - 1]->crc_mask = 0xF1;
    return s;
}

/* 17 comes before 9, 9 before 20 and 20 before 21, whichever state has the fault. */
static void one_order(size_t size, size_t mask, XaraKept kept)
{
    static const uint8_t last[5][3] = {{0, 0, 0}, {0, 0, 0}, {21, 20, 20}, {20, 20, 20}, {20, 20, 20}};
    const Name names[5] = {letter(2), letter(7), NAME("new"), NAME(""), NAME("ninebytes")};
    const size_t places[5] = {2, 7, 5, 0, 0};
    Station s = faulty(size, mask, kept);
    for (size_t i = 0; i < 5; i++) {
        uint8_t refusals[3];
        for (int call = KEEP; call <= DROP; call++) {
            uint8_t fault = fault_refusal(call, size, mask), none = last[i][call];
            bool room = none == XARA_REFUSAL_KEPT && kept.slots[places[i]].len == 0;
            refusals[call] = fault != 0 ? fault : room ? 0 : none;
        }
        each_refusal(s, names[i], refusals, places[i]);
    }
    closed(s);
}

/* With eight states kept, and with seven. */
static void kept_order(void)
{
    Station s = keeping(XARA_KEPT);
    XaraKept all = s.kept, less = s.kept;
    less.slots[5] = (XaraSlot){0, {0}, {0}};
    for (size_t i = 0; i < SIZE_FAULTS * MASK_FAULTS; i++) {
        one_order(i % SIZE_FAULTS, i / SIZE_FAULTS, all);
        one_order(i % SIZE_FAULTS, i / SIZE_FAULTS, less);
    }
    closed(s);
}

/* The largest state that may be is kept, and returned to, in every place. */
static void largest_states(void)
{
    Station s = keeping(XARA_KEPT);
    for (size_t i = 0; i < XARA_KEPT; i++) {
        s.receiver = (XaraReceiver){5000, 255, 0xFF, XARA_MASK(7), 1, few};
        keeps(&s, letter(i), 0, i);
    }
    for (size_t i = 0; i < XARA_KEPT; i++)
        known(s, letter(i), i);
    closed(s);
}

/* Every byte as the mask of the receiver that is handed in, and of each that is kept. */
static void kept_masks(void)
{
    Station s = keeping(XARA_KEPT);
    for (unsigned mask = 0; mask < 256; mask++) {
        uint8_t refusal = is_mask(mask) ? 0 : XARA_REFUSAL_MASK;
        Station one = s;
        one.receiver.crc_mask = (uint8_t)mask;
        each_refusal(one, letter(6), (const uint8_t[3]){refusal, 0, 0}, 6);
        one = s;
        one.kept.slots[mask % XARA_KEPT].receiver.crc_mask = (uint8_t)mask;
        each_refusal(one, letter(6), (const uint8_t[3]){refusal, refusal, refusal}, 6);
    }
    closed(s);
}

/* A slot that is free by its length, with a name in it and with what can be no state. */
static XaraSlot rubbish(size_t len, uint8_t overflow)
{
    const uint64_t most = UINT64_MAX;
    XaraReceiver none = {SIZE_MAX, SIZE_MAX, SENTINEL, 0xF1, overflow, {most, most, most, most, most, most, most, most}};
    return (XaraSlot){len, {'n', 'e', 't', '4', '5', '6', '7', '8'}, none};
}

/* Slots with names of no length or of more than eight bytes are free: such names are not kept, and the slots are taken in order. */
static void free_slots(void)
{
    static const size_t lens[XARA_KEPT] = {0, 9, 10, 259, 65539, ((size_t)1 << 32) + 3, ((size_t)1 << 63) + 3, SIZE_MAX};
    static const uint8_t flags[XARA_KEPT] = {0, 1, 2, 255, 128, 7, 0xFE, 16};
    Station s = station(XARA_STORE, XARA_KEPT_STORE);
    for (size_t i = 0; i < XARA_KEPT; i++)
        s.kept.slots[i] = rubbish(lens[i], flags[i]);
    unknown(s, NAME("net"), 0, 0);
    unknown(s, NAME("net45678"), 0, 0);
    unnamed(s, NAME(""));
    unnamed(s, NAME("net456789"));
    unnamed(s, NAME("net4567890"));
    XaraKept all = s.kept;
    for (size_t i = 0; i < XARA_KEPT; i++) {
        s.kept = all;
        s.kept.slots[0] = slot_of(letter(0), s.receiver);
        s.kept.slots[i] = slot_of(NAME("net"), s.receiver);
        known(s, NAME("net"), i);
        unknown(s, NAME("n"), 0, i == 0 ? 1 : i == 1 ? 2 : 1);
    }
    closed(s);
}

/* Of two slots with one name the first counts, in every pair of places, and a free one before or between them does not. */
static void two_of_one_name(void)
{
    Station s = keeping(XARA_KEPT);
    for (size_t i = 0; i < XARA_KEPT * XARA_KEPT; i++) {
        size_t a = i / XARA_KEPT, b = i % XARA_KEPT;
        if (a >= b)
            continue;
        Station twice = s;
        memcpy(twice.kept.slots[a].name, "same", 4);
        memcpy(twice.kept.slots[b].name, "same", 4);
        twice.kept.slots[a].len = twice.kept.slots[b].len = 4;
        known(twice, NAME("same"), a);
        drops(&twice, NAME("same"), 0, a);
        known(twice, NAME("same"), b);
        drops(&twice, NAME("same"), 0, b);
        unknown(twice, NAME("same"), 0, a);
    }
    closed(s);
}

/* Names of zeros of one to eight bytes are eight names, and so are eight that differ in one byte, each in another one. */
static void close_names(void)
{
    Station zeros = station(XARA_STORE, XARA_KEPT_STORE), bytes = station(XARA_STORE, XARA_KEPT_STORE);
    for (size_t i = 0; i < XARA_KEPT; i++) {
        Name changed = NAME("ABCDEFGH");
        changed.bytes[i] ^= 0x80;
        zeros.receiver.tallies.more = bytes.receiver.tallies.done = i;
        unknown(zeros, (Name){i + 1, {0}}, 0, i);
        keeps(&zeros, (Name){i + 1, {0}}, 0, i);
        unknown(bytes, changed, 0, i);
        keeps(&bytes, changed, 0, i);
    }
    for (size_t i = 0; i < XARA_KEPT; i++) {
        Name changed = NAME("ABCDEFGH");
        unknown(bytes, changed, XARA_REFUSAL_KEPT, 0);
        changed.bytes[i] ^= 0x80;
        known(zeros, (Name){i + 1, {0}}, i);
        known(bytes, changed, i);
    }
    closed(zeros);
    closed(bytes);
}

/* Bytes after a name's length are not looked at, and a keep makes them zeros. */
static void after_names(void)
{
    Station s = keeping(4);
    memcpy(s.kept.slots[1].name, "AZZZZZZZ", XARA_MAX_NAME);
    memcpy(s.kept.slots[2].name, "AZZZZZZZ", XARA_MAX_NAME);
    s.kept.slots[1].len = 2;
    s.kept.slots[2].len = 7;
    known(s, NAME("A"), 0);
    known(s, NAME("AZ"), 1);
    known(s, NAME("AZZZZZZ"), 2);
    unknown(s, NAME("AZZ"), 0, 4);
    unknown(s, (Name){2, {'A'}}, 0, 4);
    unknown(s, NAME("AZZZZZZZ"), 0, 4);
    closed(s);
}

/* Every byte as a flag of the receiver that is handed in, of one that is named, and of one beside it. */
static void kept_flags(void)
{
    Station s = keeping(XARA_KEPT);
    for (unsigned flag = 0; flag < 256; flag++) {
        s.receiver.overflow = (uint8_t)(flag * 7);
        s.kept.slots[flag % XARA_KEPT].receiver.overflow = (uint8_t)flag;
        s.kept.slots[(flag + 3) % XARA_KEPT].receiver.overflow = (uint8_t)(flag * 5);
        known(s, letter(flag % XARA_KEPT), flag % XARA_KEPT);
        unknown(s, NAME("new"), XARA_REFUSAL_KEPT, 0);
    }
    closed(s);
}

/* Each tally alone that is full does not hinder a keep or a return, and is full again after it. */
static void kept_tallies(void)
{
    Station s = keeping(XARA_KEPT);
    for (size_t i = 0; i < TALLIES; i++) {
        XaraReceiver full = with_tally(s.receiver, i, UINT64_MAX);
        s.receiver = full;
        keeps(&s, letter(i), 0, i);
        s.receiver = xara_receiver_new(XARA_MASK_FM).receiver;
        returns(&s, letter(i), 0, i);
        expect(same(s.receiver, full), "full receiver", i);
        refused(s.receiver, XARA_STORE, 5, XARA_REFUSAL_TALLY);
        s.receiver = with_tally(full, i, i);
    }
    closed(s);
}

/* The name may stand in the caller's own kept states, also where the answer goes to these. */
static void own_names(void)
{
    Station s = keeping(XARA_KEPT);
    for (size_t i = 0; i < XARA_KEPT; i++) {
        XaraKeeping a = {.kept = s.kept};
        XaraSlot *slot = &a.kept.slots[i];
        XaraKept kept = with_slot(s.kept, i, slot_of(letter(i), s.receiver)), less = with_slot(s.kept, i, (XaraSlot){0, {0}, {0}});
        XaraFresh back = xara_kept_return(a.kept, s.store, XARA_STORE, s.lent, XARA_KEPT_STORE, slot->name, slot->len);
        expect(fresh(back, 0, slot->receiver), "return by its own name", i);
        a = xara_kept_keep(a.kept, s.receiver, s.store, XARA_STORE, s.lent, XARA_KEPT_STORE, slot->name, slot->len);
        expect(kept_so(a, 0, i, &kept), "keep by its own name", i);
        a = xara_kept_drop(a.kept, s.lent, XARA_KEPT_STORE, slot->name, slot->len);
        expect(kept_so(a, 0, i, &less), "drop by its own name", i);
    }
    closed(s);
}

/* A message on each of eight channels, a fragment of each in turn: each is left and returned to, and all are completed. */
static void eight_channels(void)
{
    Station s = station(XARA_STORE, XARA_KEPT_STORE);
    for (size_t i = 0; i < 3 * XARA_KEPT; i++) {
        size_t k = i / XARA_KEPT, channel = i % XARA_KEPT;
        uint8_t mask = masks[channel % MASKS].mask, message[6] = {0x40, 1, 2, 3, 4, (uint8_t)channel}, f[3];
        xara_fragment(message, sizeof message, 3, mask, k, f, sizeof f);
        s.receiver = xara_receiver_new(mask).receiver;
        if (k > 0)
            returns(&s, letter(channel), 0, channel);
        XaraPushed a = xara_receiver_join(s.receiver, s.store, XARA_STORE, f, sizeof f, sizeof f);
        s.receiver = a.receiver;
        expect(a.kind == (k < 2 ? XARA_MORE : XARA_DONE) && a.receiver.tallies.offered == k + 1, "channel", channel);
        expect(k < 2 || (a.length == sizeof message && memcmp(s.store, message, sizeof message) == 0), "its message", channel);
        keeps(&s, letter(channel), 0, channel);
    }
    closed(s);
}

static void kept_edges(void)
{
    kept_example();
    kept_places();
    kept_lengths();
    kept_order();
    largest_states();
    kept_masks();
    free_slots();
    two_of_one_name();
    close_names();
    after_names();
    kept_flags();
    kept_tallies();
    own_names();
    eight_channels();
}

int main(void)
{
    coding_rooms();
    longest_rooms();
    short_frames();
    every_control();
    polled_frame();
    crc_lengths();
    nothing();
    command_refusals();
    length_refusals();
    decoder_refusals();
    wide_places();
    wide_examples();
    cut_messages();
    white_space();
    form_refusals();
    every_letter();
    letter_order();
    field_refusals();
    mask_refusals();
    sender_refusals();
    mask_macros();
    mask_limits();
    worked_examples();
    slot_examples();
    preview_edges();
    frame_refusals();
    state_refusals();
    receiver_masks();
    receiver_fields();
    overflow_states();
    made_up_states();
    frame_lengths();
    whole_messages();
    mask_journeys();
    tally_edges();
    kept_edges();
    printf("%lu compared, %lu differ\n", calls, wrong);
    return wrong != 0;
}
