/*
 * Sends a position report through all calls, hears it whole, then with a frame lost and sent again, and shows where the frames
 * went.
 */
#include "xara.h"

#include <inttypes.h>
#include <stdio.h>
#include <stdlib.h>
#include <string.h>

#define FIELD 10
#define MARKER 0xFF

static void fail(const char *what, uint8_t refusal)
{
    fprintf(stderr, "%s: refused %d: %s\n", what, refusal, xara_refusal_text(refusal));
    exit(1);
}

static void show(const char *what, const uint8_t *bytes, size_t n)
{
    printf("%-9s", what);
    for (size_t i = 0; i < n; i++)
        printf("%02X", bytes[i]);
    printf("\n");
}

/* A call of up to six letters into an address field; the last field of a frame ends the list. */
static size_t address(uint8_t *out, const char *call, unsigned ssid, bool last)
{
    char letters[8];
    snprintf(letters, sizeof letters, "%-6s", call);
    for (size_t i = 0; i < 6; i++)
        out[i] = (uint8_t)(letters[i] << 1);
    out[6] = (uint8_t)(0x60 | ssid << 1 | last);
    return 7;
}

/* The report: an AX.25 frame with a position, an altitude and a comment. */
static size_t report(uint8_t *out)
{
    const char *information = "!4903.50N/00723.75E>/A=001234 mast moved, VARA HF ";
    size_t n = address(out, "APRS", 0, false);
    n += address(out + n, "DL1ABC", 9, false);
    n += address(out + n, "WIDE1", 1, true);
    out[n++] = 0x03;
    out[n++] = 0xF0;
    memcpy(out + n, information, strlen(information));
    return n + strlen(information);
}

/* The frame of fragment k. */
static size_t frame(const uint8_t *message, size_t n, size_t k, uint8_t *out)
{
    uint8_t fragment[FIELD];
    XaraControl control = {.reply = 0, .compressed = 0, .hint = 0};
    XaraAnswer cut = xara_fragment(message, n, FIELD, XARA_MASK_HF, k, fragment, sizeof fragment);
    if (!cut.ok)
        fail("fragment", cut.refusal);
    XaraAnswer built = xara_build_frame(FIELD, fragment, cut.value, control, MARKER, out, FIELD + XARA_FRAME_EXTRA);
    if (!built.ok)
        fail("frame", built.refusal);
    return built.value;
}

static const char *heard(const XaraPushed *pushed)
{
    switch (pushed->kind) {
    case XARA_DROPPED:
        return "dropped";
    case XARA_MORE:
        return "more";
    case XARA_DONE:
        return "done";
    default:
        fail("push", pushed->refusal);
        return "";
    }
}

/* Pushes all frames of a message but one; the length of the message that is done, or 0. No frame is lost where lost is the count. */
static size_t transmit(XaraReceiver *receiver, uint8_t *store, const uint8_t *message, size_t n, size_t count, size_t lost)
{
    uint8_t sent[FIELD + XARA_FRAME_EXTRA];
    size_t done = 0;
    for (size_t k = 0; k < count; k++) {
        size_t length = frame(message, n, k, sent);
        show(k == lost ? "lost" : "frame", sent, length);
        if (k == lost)
            continue;
        XaraPushed pushed = xara_receiver_push(*receiver, store, XARA_STORE, sent, length, FIELD);
        printf("%-9s%s\n", "", heard(&pushed));
        if (pushed.kind == XARA_DROPPED)
            printf("%-9s%s\n", "", xara_cause_text(pushed.cause));
        *receiver = pushed.receiver;
        done = pushed.kind == XARA_DONE ? pushed.length : 0;
    }
    return done;
}

/* Decodes what was heard and holds it against what was sent. */
static void arrive(const uint8_t *store, size_t done, const uint8_t *data, size_t n)
{
    static uint8_t out[XARA_MAX_DECODED];
    XaraDecoded decoded = xara_decode(store, done, out, sizeof out);
    if (!decoded.ok)
        fail("decode", decoded.refusal);
    show("decoded", out, decoded.length);
    if (decoded.command != XARA_AX25 || decoded.length != n || memcmp(out, data, n) != 0) {
        fprintf(stderr, "what arrived is not what was sent\n");
        exit(1);
    }
}

static void show_tallies(XaraTallies t)
{
    printf("\noffered %" PRIu64 ", more %" PRIu64 ", done %" PRIu64 ", dropped: ", t.offered, t.more, t.done);
    printf("%" PRIu64 " wrong length, %" PRIu64 " no fragment, ", t.wrong_length, t.no_fragment);
    printf("%" PRIu64 " overflow, %" PRIu64 " limit, %" PRIu64 " check\n", t.overflow, t.limit, t.check);
}

int main(void)
{
    uint8_t data[200], message[XARA_MAX_MESSAGE], store[XARA_STORE];
    size_t n = report(data);
    show("report", data, n);
    XaraEncoded coded = xara_encode(XARA_AX25, data, n, message, sizeof message);
    if (!coded.ok)
        fail("encode", coded.refusal);
    show("message", message, coded.length);
    printf("%-9stype %d, %zu bytes for %zu\n", "", coded.aprs_type, coded.length, n);

    XaraAnswer count = xara_count_for_field(coded.length, FIELD);
    XaraFresh fresh = xara_receiver_new(XARA_MASK_HF);
    if (!count.ok || !fresh.ok)
        fail("count or receiver", count.ok ? fresh.refusal : count.refusal);
    XaraReceiver receiver = fresh.receiver;
    size_t done = transmit(&receiver, store, message, coded.length, count.value, count.value);
    arrive(store, done, data, n);

    printf("\nthe same with frame 1 lost, then sent again\n");
    if (transmit(&receiver, store, message, coded.length, count.value, 1) != 0)
        return 1;
    done = transmit(&receiver, store, message, coded.length, count.value, count.value);
    arrive(store, done, data, n);
    show_tallies(receiver.tallies);

    XaraAnswer refused = xara_fragment(message, coded.length, 2, XARA_MASK_HF, 0, store, sizeof store);
    printf("\nfield 2: refused %d: %s\n", refused.refusal, xara_refusal_text(refused.refusal));
    return refused.ok;
}
