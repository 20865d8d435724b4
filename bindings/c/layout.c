/* Prints the size of each struct of xara.h and the place of each field, for the Rust crate's test to compare with its own. */
#include "xara.h"

#include <stdio.h>

_Static_assert(sizeof(XaraTallies) == 64 && sizeof(XaraReceiver) == 88, "the sizes that the header tells");
_Static_assert(sizeof(XaraFresh) == 96 && sizeof(XaraPushed) == 104, "the sizes that the header tells");
_Static_assert(sizeof(XaraSlot) == 104 && sizeof(XaraKept) == 832 && sizeof(XaraKeeping) == 848, "the sizes that the header tells");
_Static_assert(sizeof(XaraPreview) == 24 && offsetof(XaraPreview, ok) == 0 && offsetof(XaraPreview, refusal) == 1 &&
                   offsetof(XaraPreview, length) == 8 && offsetof(XaraPreview, count) == 16,
               "the sizes that the header tells");
_Static_assert(XARA_KEPT_STORE == XARA_KEPT * XARA_STORE, "a store for each kept state");
_Static_assert(offsetof(XaraReceiver, tallies) == 24 && offsetof(XaraPushed, cause) == 2, "after the fields that stood there");

#define SIZE(type) printf(#type " %zu %zu\n", sizeof(type), _Alignof(type))
#define PLACE(type, field) printf(#type "." #field " %zu %zu\n", offsetof(type, field), sizeof(((type *)0)->field))

static void arguments(void)
{
    SIZE(XaraControl);
    PLACE(XaraControl, reply);
    PLACE(XaraControl, compressed);
    PLACE(XaraControl, hint);
    SIZE(XaraTallies);
    PLACE(XaraTallies, offered);
    PLACE(XaraTallies, more);
    PLACE(XaraTallies, done);
    PLACE(XaraTallies, wrong_length);
    PLACE(XaraTallies, no_fragment);
    PLACE(XaraTallies, overflow);
    PLACE(XaraTallies, limit);
    PLACE(XaraTallies, check);
    SIZE(XaraReceiver);
    PLACE(XaraReceiver, held);
    PLACE(XaraReceiver, nfrag);
    PLACE(XaraReceiver, count);
    PLACE(XaraReceiver, crc_mask);
    PLACE(XaraReceiver, overflow);
    PLACE(XaraReceiver, tallies);
    SIZE(XaraSlot);
    PLACE(XaraSlot, len);
    PLACE(XaraSlot, name);
    PLACE(XaraSlot, receiver);
    SIZE(XaraKept);
    PLACE(XaraKept, slots);
}

static void answers(void)
{
    SIZE(XaraAnswer);
    PLACE(XaraAnswer, ok);
    PLACE(XaraAnswer, refusal);
    PLACE(XaraAnswer, value);
    SIZE(XaraFresh);
    PLACE(XaraFresh, ok);
    PLACE(XaraFresh, refusal);
    PLACE(XaraFresh, receiver);
    SIZE(XaraPushed);
    PLACE(XaraPushed, kind);
    PLACE(XaraPushed, refusal);
    PLACE(XaraPushed, cause);
    PLACE(XaraPushed, length);
    PLACE(XaraPushed, receiver);
    SIZE(XaraKeeping);
    PLACE(XaraKeeping, ok);
    PLACE(XaraKeeping, refusal);
    PLACE(XaraKeeping, place);
    PLACE(XaraKeeping, kept);
    SIZE(XaraEncoded);
    PLACE(XaraEncoded, ok);
    PLACE(XaraEncoded, refusal);
    PLACE(XaraEncoded, aprs_type);
    PLACE(XaraEncoded, length);
    SIZE(XaraPreview);
    PLACE(XaraPreview, ok);
    PLACE(XaraPreview, refusal);
    PLACE(XaraPreview, length);
    PLACE(XaraPreview, count);
    SIZE(XaraSummary);
    PLACE(XaraSummary, ok);
    PLACE(XaraSummary, refusal);
    PLACE(XaraSummary, aprs_type);
    PLACE(XaraSummary, ui);
    PLACE(XaraSummary, digis);
    SIZE(XaraDecoded);
    PLACE(XaraDecoded, ok);
    PLACE(XaraDecoded, refusal);
    PLACE(XaraDecoded, command);
    PLACE(XaraDecoded, length);
}

int main(void)
{
    arguments();
    answers();
    return 0;
}
