/*
 * xara.h: the packet coding of the gateway, for C and C++.
 *
 * Link libxara.a, which `./archive` writes to target/staticlib. It is for x86-64 Linux, needs no other library than C's,
 * allocates nothing and keeps nothing between calls: threads may call it at once, each with its own outputs and stores. No call takes
 * more than 8 KiB of stack, and the deepest, xara_decode, takes less than 3: bindings/stack counts it from the archive's code, without
 * the arguments that cross by value, and without what the C library's memcpy, memmove and memset and its loader take.
 *
 * Compile a program with the header of the archive that it is linked with. XaraReceiver, XaraFresh and XaraPushed cross by value
 * and are larger here than in an archive without tallies: a program that was compiled with the header of such an archive must be
 * compiled again with this one. XaraSlot, XaraKept and XaraKeeping, which hold receivers, cross by value too.
 *
 * A report travels one way:
 *
 *   data -> xara_encode -> message -> xara_fragment -> fragments -> xara_build_frame -> frames -> the air
 *        -> xara_receiver_push -> message -> xara_decode -> data
 *
 * Before a report is sent, xara_preview tells what it costs: the length of its message, and how many fragments that takes.
 *
 * A message may be read in two ways, and the receiving side alone chooses: xara_encode and all that goes on the air are the same
 * for both. The calls WIDE1-2, WIDE1-3, WIDE2-2 and WIDE2-3 are sent in a short form that ends in two bits. xara_decode takes
 * these for two decimal digits, as the Rust from which this library was ported does, and hands the calls back with the SSIDs 10
 * and 11: a path WIDE2-2 comes out as WIDE2-10. xara_decode_mended takes them for a binary number and hands the calls back as
 * they were sent. All else is the same in both readings.
 *
 * A channel may be left with a message half heard: xara_kept_keep keeps the receiver under a name, and xara_kept_return hands it
 * back later, so that the message can be completed. XaraKept says how.
 *
 * What every call keeps to:
 * - It ends on every input with an answer or with a refusal, whose number is one of enum xara_refusal.
 * - Where it refuses, it changes no lent byte, and a receiver and the kept states come back as they were.
 * - Where it answers, it writes the bytes of the answer to the front of the lent output, and leaves all bytes after them as they
 *   were. xara_kept_keep alone writes to another place of the bytes that it is lent, and tells which. No call writes to an input.
 * - It sets every field of the struct that it returns. A field that has no meaning in that answer is 0, and each field below says
 *   when. A flag is 0 or 1 as a byte. Nothing is promised of the padding between the fields.
 *
 * What the caller keeps to, since nothing can test it:
 * - A pointer and the length after it are so many bytes that may be read, and where the pointer is not to const also written. A
 *   pointer is never NULL, even where the length is 0: any address will do then.
 * - Bytes that a call may write overlap no other buffer of the same call. Those that it only reads may overlap one another.
 * - Nobody else writes what the call reads, or reads or writes what it may write, while the call runs.
 * - A size_t has 8 bytes.
 *
 * What is promised, with a proof, about a message that xara_fragment accepted: the receiver answers XARA_MORE to each of its
 * frames but the last and XARA_DONE to the last, and the store then starts with exactly the message. It is so if
 * - the receiver has the sender's mask;
 * - the receiver is new, or its last call was an ending: a reset, or a push or join of a fragment that is not empty and whose
 *   first byte is below 80 (hexadecimal, as all bytes here are);
 * - the frames of the message arrive in order, undamaged and complete, each once;
 * - only idle calls stand between them: calls that are refused, frames of another length than field + 3, and frames or fragments
 *   of no bytes;
 * - all pushes and joins since the receiver was new, those of the message included, are fewer than 2^64: no tally is full then.
 *
 * What the air can still do, since the format leaves no room to find it out:
 * - A frame that is lost may go unnoticed. The first of several fragments carries check bits of the whole message, as many as the
 *   mask has, and w check bits miss about one fault in 2^w. Of 4,000 messages that were sent under each mask with one middle
 *   frame lost, this many were still answered with XARA_DONE, each with other bytes than were sent:
 *
 *     mask           80   C0   E0   F0   F8   FC   FE
 *     check bits      1    2    3    4    5    6    7
 *     still done  1,977  966  476  232  122   61   28
 *
 * - A message of one fragment carries no check bits, and neither does the last of several fragments. Heard alone, by a receiver
 *   that holds nothing and is not in overflow, it is always answered with XARA_DONE.
 * - A damaged frame is taken for what it says: xara_receiver_push does not look at the CRC at the frame's end.
 *
 * What a gateway does about it:
 * - It checks a frame's CRC before it pushes the frame: the frame's last two bytes, high byte first, must be what
 *   xara_crc16_genibus answers to all bytes before them. A frame with another CRC is not pushed.
 * - It calls xara_receiver_reset when the channel was silent, so that the start of a message that was broken off is not joined
 *   to the next message.
 */
#ifndef XARA_H
#define XARA_H

#include <stdbool.h>
#include <stddef.h>
#include <stdint.h>

#ifdef __cplusplus
extern "C" {
#endif

/* Sizes, in bytes. An output with the most bytes is never refused as too short. */
#define XARA_MAX_DATA 4999     /* data to code */
#define XARA_MAX_MESSAGE 5000  /* a message: the output of xara_encode, the input of xara_fragment and of both readings */
#define XARA_MAX_DECODED 45764 /* decoded data: the output of xara_decode and of xara_decode_mended */
#define XARA_STORE 5000        /* a receiver's store: exactly so many */
#define XARA_MIN_FIELD 3       /* the field: a fragment has at most field bytes */
#define XARA_MAX_FIELD 512
#define XARA_FRAME_EXTRA 3 /* a frame has field + 3 bytes */
#define XARA_MAX_FRAME (XARA_MAX_FIELD + XARA_FRAME_EXTRA)
#define XARA_KEPT_STORE 40000 /* the stores of the kept states: exactly so many, 5,000 for each */
#define XARA_MAX_NAME 8       /* the name of a kept state: 1 to 8 */

/* The most states that are kept. */
#define XARA_KEPT 8

/*
 * The masks: which bits of the check byte are the CRC's. They are the top 1 to 7 bits of a byte. More check bits find more
 * faults, fewer leave room for more fragments. A sender and its receiver use the same.
 */
#define XARA_MASK(w) (0x100u - (1u << (8 - (w)))) /* 1 to 7 check bits */
#define XARA_MASK_HF 0xF0u                        /* 4 check bits */
#define XARA_MASK_FM 0xF8u                        /* 5 check bits */

/* The most fragments of a message that is sent under each mask, and of one that is heard. */
#define XARA_MAX_FRAGMENTS(mask) (257u - (mask)) /* 129, 65, 33, 17, 9, 5, 3 for 1 to 7 check bits */
#define XARA_MAX_FRAGMENTS_HF 17
#define XARA_MAX_FRAGMENTS_FM 9
#define XARA_RX_MAX_FRAGMENTS 255

/* No marker: it ends a fragment that is shorter than its field. */
#define XARA_TERMINATOR 0x14u

/* What data is. */
enum xara_command {
    XARA_AX25 = 0,      /* an AX.25 frame with calls of six letters */
    XARA_AX25_LONG = 1, /* the same with calls of seven */
    XARA_GENERIC = 2    /* any bytes */
};

/* What the information of an AX.25 frame is. Generic bytes count as text. */
enum xara_aprs_type {
    XARA_TEXT = 0,
    XARA_BINARY = 1,
    XARA_POSITION = 2,
    XARA_TIMESTAMPED_POSITION = 3,
    XARA_MESSAGE = 4,
    XARA_THIRD_PARTY = 6
};

/* Why a call refuses. Nothing is changed then. The numbers 18, 19 and 22 to 26 are not in use. */
enum xara_refusal {
    XARA_REFUSAL_COMMAND = 1,     /* the command is not 0, 1 or 2 */
    XARA_REFUSAL_TOO_LONG = 2,    /* data over 4,999 bytes, or a message over 5,000 */
    XARA_REFUSAL_SHORT = 3,       /* the AX.25 frame ends too early */
    XARA_REFUSAL_BAD_CALL = 4,    /* a call has a letter that has no code */
    XARA_REFUSAL_FORMAT = 5,      /* the information is not of the form that its type asks for */
    XARA_REFUSAL_OUTPUT = 6,      /* the lent output is shorter than the answer */
    XARA_REFUSAL_NOT_DECODED = 7, /* the message can't be decoded */
    XARA_REFUSAL_FIELD = 8,       /* the field is outside 3 to 512 */
    XARA_REFUSAL_MASK = 9,        /* the mask is not the top 1 to 7 bits of a byte */
    XARA_REFUSAL_EMPTY = 10,      /* the message to send is empty */
    XARA_REFUSAL_FIRST_BYTE = 11, /* its first byte is 80 or more */
    XARA_REFUSAL_COUNT = 12,      /* it takes more fragments than the mask leaves room for */
    XARA_REFUSAL_NUMBER = 13,     /* the fragment's number is not below the count */
    XARA_REFUSAL_FRAGMENT = 14,   /* the fragment to frame is empty or longer than the field */
    XARA_REFUSAL_MARKER = 15,     /* the marker is 14 */
    XARA_REFUSAL_CONTROL = 16,    /* the reply is over 3 or the hint over 7 */
    XARA_REFUSAL_STATE = 17,      /* the store has not 5,000 bytes, the kept ones not 40,000, or a state holds over 5,000 or
                                     counts over 255 */
    XARA_REFUSAL_NAME = 20,       /* the name has not 1 to 8 bytes, or is not kept */
    XARA_REFUSAL_KEPT = 21,       /* eight states are kept already */
    XARA_REFUSAL_TALLY = 27       /* a tally is already the largest 64-bit number */
};

/* What a push or a join answers. */
enum xara_kind {
    XARA_REFUSED = 0, /* nothing is changed, in the receiver and in the store */
    XARA_DROPPED = 1, /* the frame or fragment is lost, and `cause` says why */
    XARA_MORE = 2,    /* the message goes on */
    XARA_DONE = 3     /* the message is the first `length` bytes of the store */
};

/*
 * Why a push or a join drops a frame or a fragment. There is no fragment where a frame of field + 3 bytes holds none, and where
 * the n of a join is 0 or over f_len. The second byte of a first fragment is its check byte: a join of a single byte of 80 or more
 * has none, which matters where the receiver holds nothing and is not in overflow.
 */
enum xara_cause {
    XARA_CAUSE_NONE = 0,         /* nothing is dropped */
    XARA_CAUSE_WRONG_LENGTH = 1, /* the frame has not field + 3 bytes */
    XARA_CAUSE_NO_FRAGMENT = 2,  /* there is no fragment, or a first fragment has no second byte */
    XARA_CAUSE_OVERFLOW = 3,     /* an earlier fragment took the message over the limit */
    XARA_CAUSE_LIMIT = 4,        /* the fragment takes the message over 5,000 bytes or over 255 fragments */
    XARA_CAUSE_CHECK = 5         /* the check bits are not those of the message */
};

/* In each answer look at `ok` or `kind` first: a field that has no meaning there is 0, which may be a value elsewhere. */

/* 16 bytes. A length or a count, or a refusal's number. */
typedef struct XaraAnswer {
    bool ok;         /* 1 where it answers, 0 where it refuses */
    uint8_t refusal; /* enum xara_refusal; 0 where ok */
    size_t value;    /* 0 where not ok */
} XaraAnswer;

/* 3 bytes. What the control byte of a frame carries. */
typedef struct XaraControl {
    uint8_t reply;      /* 0 to 3 */
    uint8_t compressed; /* any byte but 0 is compressed */
    uint8_t hint;       /* 0 to 7 */
} XaraControl;

/*
 * 64 bytes. Where fragments went. A push or a join that is not refused adds 1 to offered and 1 to one other tally: to more or done
 * for that answer, to the tally of its cause where it is dropped. One that is refused adds nothing. So, of every receiver that
 * started as new, whatever was pushed, joined and reset since,
 *
 *   offered = more + done + wrong_length + no_fragment + overflow + limit + check
 *
 * A new receiver starts them at 0, and nothing else does: a reset keeps them, and a struct that is handed in again brings its own.
 * A caller may hand in any eight numbers. Where one of them is 2^64 - 1, offered or another, every push and join is refused with
 * XARA_REFUSAL_TALLY, after a reset as before it.
 */
typedef struct XaraTallies {
    uint64_t offered;      /* pushes and joins that were not refused */
    uint64_t more;         /* answered with XARA_MORE */
    uint64_t done;         /* answered with XARA_DONE */
    uint64_t wrong_length; /* answered with XARA_DROPPED, this one and the next four by cause */
    uint64_t no_fragment;
    uint64_t overflow;
    uint64_t limit;
    uint64_t check;
} XaraTallies;

/*
 * 88 bytes. A receiver's state, which goes with one store. Each call takes it by value and hands back the next one: keep that,
 * lend the same store again, and write to neither between calls. After XARA_DONE the message may be read from the store until
 * the next call.
 *
 * Where a push or a join refuses, it hands back the very struct that came in, byte for byte in every field: an overflow of 7
 * comes back as 7. Where it answers, overflow comes back as 0 or 1. A reset refuses nothing and hands back an overflow of 0.
 */
typedef struct XaraReceiver {
    size_t held;      /* bytes of the store that are held, to 5,000; 0 where no message has begun */
    size_t nfrag;     /* fragments of the message that is held, to 255; where none is held, 0 or those of the last message */
    uint8_t count;    /* the check byte of the message that is held, or of an earlier one; 0 in a new receiver, kept by a reset */
    uint8_t crc_mask; /* a mask of 1 to 7 check bits, as XARA_MASK_HF */
    uint8_t overflow; /* 0 or 1, and any byte but 0 is taken for 1: the rest of a message that is too long is dropped */
    XaraTallies tallies;
} XaraReceiver;

/* 96 bytes. A receiver that is new or was kept, or a refusal's number. */
typedef struct XaraFresh {
    bool ok;               /* 1 where it answers, 0 where it refuses */
    uint8_t refusal;       /* enum xara_refusal; 0 where ok */
    XaraReceiver receiver; /* 0 in every field where not ok */
} XaraFresh;

/* 104 bytes. What a push or a join answers, and the receiver from here on. */
typedef struct XaraPushed {
    uint8_t kind;          /* enum xara_kind */
    uint8_t refusal;       /* enum xara_refusal where kind is XARA_REFUSED, else 0 */
    uint8_t cause;         /* enum xara_cause: 1 to 5 where kind is XARA_DROPPED, else 0 */
    size_t length;         /* the message's length where kind is XARA_DONE, else 0 */
    XaraReceiver receiver; /* the very one that came in where kind is XARA_REFUSED; else with overflow 0 or 1 */
} XaraPushed;

/*
 * 104 bytes. A slot: a receiver's state that is kept under a name. Where len is not 1 to 8 the slot is free, and may hold anything
 * in its other fields: no call refuses for them.
 *
 * A name is any bytes, and its length counts: "A" and "A" with a zero after it are two names.
 */
typedef struct XaraSlot {
    size_t len;                  /* bytes of the name, 1 to 8; any other number where the slot is free, 0 where a call made it so */
    uint8_t name[XARA_MAX_NAME]; /* its first len bytes are the name; those after it are not looked at, and a keep sets them to 0 */
    XaraReceiver receiver;       /* as it was when it was kept, with its own mask and its own tallies */
} XaraSlot;

/*
 * 832 bytes. Up to eight receivers that are kept under names, each with its store: that of slots[i] is the 5,000 bytes from
 * 5000 * i on of 40,000 that the caller lends. The two go together: start with xara_kept_none and lent bytes of any content, keep
 * the XaraKept that each keep and drop hands back, lend the same bytes again, and write to neither between calls. A channel is
 * left and returned to so:
 *
 *   static uint8_t store[XARA_STORE], lent[XARA_KEPT_STORE];
 *   static const uint8_t net[] = {'n', 'e', 't'};
 *   XaraKept kept = xara_kept_none();
 *   XaraReceiver receiver = xara_receiver_new(XARA_MASK_HF).receiver;
 *
 *   // Frames are pushed, and the channel is left in the middle of a message. Where left.ok is 0, it could not be kept.
 *   XaraKeeping left = xara_kept_keep(kept, receiver, store, sizeof store, lent, sizeof lent, net, sizeof net);
 *   kept = left.kept;
 *
 *   // Another channel is heard, with the same store.
 *   receiver = xara_receiver_new(XARA_MASK_FM).receiver;
 *
 *   // Back to the first one: the next push goes on with its message.
 *   XaraFresh back = xara_kept_return(kept, store, sizeof store, lent, sizeof lent, net, sizeof net);
 *   if (back.ok)
 *       receiver = back.receiver;
 *
 * What is promised, with a proof: where the kept states are handed on as they were left, and nobody else writes the lent bytes or
 * the receiver's store, every push and join after a return answers as if no call had been made between the keeping and the return.
 * An unfinished message can be completed, and what was counted between the two is gone from the tallies.
 *
 * A caller may make up any XaraKept. Of two slots with one name the first counts. Where a slot that is not free holds what can be
 * no state, every call but xara_kept_none refuses with XARA_REFUSAL_STATE or XARA_REFUSAL_MASK, whichever name it is asked for.
 * Tallies are not tested: a state with a full one may be kept and returned to, and refuses pushes and joins as before.
 */
typedef struct XaraKept {
    XaraSlot slots[XARA_KEPT];
} XaraKept;

/* 848 bytes. What a keep or a drop answers, and the kept states from here on. */
typedef struct XaraKeeping {
    bool ok;         /* 1 where it answers, 0 where it refuses */
    uint8_t refusal; /* enum xara_refusal; 0 where ok */
    size_t place;    /* 0 to 7: slots[place] is the slot that was written or made free; 0 where not ok */
    XaraKept kept;   /* the very one that came in where not ok; else with overflow 0 or 1 in every slot, a free one too */
} XaraKeeping;

/* 16 bytes. The data's type and the message's length, or a refusal's number. */
typedef struct XaraEncoded {
    bool ok;           /* 1 where it answers, 0 where it refuses */
    uint8_t refusal;   /* enum xara_refusal; 0 where ok */
    uint8_t aprs_type; /* enum xara_aprs_type; 0 where not ok */
    size_t length;     /* 0 where not ok */
} XaraEncoded;

/* 24 bytes. The message's length and how many fragments it takes, or a refusal's number. */
typedef struct XaraPreview {
    bool ok;         /* 1 where it answers, 0 where it refuses */
    uint8_t refusal; /* enum xara_refusal; 0 where ok */
    size_t length;   /* bytes of the message, to 5,000; 0 where not ok */
    size_t count;    /* fragments, to XARA_MAX_FRAGMENTS of the mask; 0 where not ok */
} XaraPreview;

/* 16 bytes. What a frame is, or a refusal's number. */
typedef struct XaraSummary {
    bool ok;           /* 1 where it answers, 0 where it refuses */
    uint8_t refusal;   /* enum xara_refusal; 0 where ok */
    uint8_t aprs_type; /* enum xara_aprs_type; 0 where not ok */
    bool ui;           /* 1 where control is 03 or 13, else 0; 0 where not ok */
    size_t digis;      /* digipeaters, to 8; 0 where not ok */
} XaraSummary;

/* 16 bytes. The command and the data's length, or a refusal's number. */
typedef struct XaraDecoded {
    bool ok;         /* 1 where it answers, 0 where it refuses */
    uint8_t refusal; /* enum xara_refusal; 0 where ok */
    uint8_t command; /* enum xara_command; 0 where not ok */
    size_t length;   /* 0 where not ok */
} XaraDecoded;

/* The CRC-16/GENIBUS of any bytes, of any length. Refuses nothing. */
uint16_t xara_crc16_genibus(const uint8_t *data, size_t data_len);

/*
 * How many fragments a message of so many bytes takes: 1 up to field bytes.
 * Refuses with FIELD, TOO_LONG.
 */
XaraAnswer xara_count_for_field(size_t total, size_t field);

/*
 * Fragment k of a message, counted from 0, to the front of out; answers its length, at most field: of several fragments each
 * before the last has exactly field bytes, the last at least 2. One fragment alone is the message.
 * Refuses with FIELD, MASK, EMPTY, TOO_LONG, FIRST_BYTE, COUNT, NUMBER, OUTPUT, in this order.
 */
XaraAnswer xara_fragment(const uint8_t *message, size_t message_len, size_t field, uint8_t mask, size_t k, uint8_t *out,
                         size_t out_len);

/*
 * The frame of a fragment to the front of out; answers its length, which is field + 3.
 * The marker stands after a fragment that is shorter than the field, and may be any byte but 14.
 * Refuses with FIELD, FRAGMENT, MARKER, CONTROL, OUTPUT, in this order.
 */
XaraAnswer xara_build_frame(size_t field, const uint8_t *data, size_t data_len, XaraControl control, uint8_t marker, uint8_t *out,
                            size_t out_len);

/* A receiver that holds nothing: all fields are 0 but crc_mask, the tallies too. Refuses with MASK. */
XaraFresh xara_receiver_new(uint8_t crc_mask);

/*
 * A frame that was heard, of field + 3 bytes; one of another length is dropped. The CRC at its end is not looked at: check it
 * before the call.
 * The store has exactly XARA_STORE bytes, whatever they are at first.
 * Refuses with STATE, MASK, FIELD, TALLY, in this order.
 */
XaraPushed xara_receiver_push(XaraReceiver receiver, uint8_t *store, size_t store_len, const uint8_t *frame, size_t frame_len,
                              size_t field);

/*
 * A fragment without its frame: the n first bytes of f. Where n is 0 or over f_len it is dropped.
 * Refuses with STATE, MASK, TALLY, in this order.
 */
XaraPushed xara_receiver_join(XaraReceiver receiver, uint8_t *store, size_t store_len, const uint8_t *f, size_t f_len, size_t n);

/*
 * A receiver that holds nothing from here on: held, nfrag and overflow are 0; count, crc_mask and the tallies are kept. The next
 * fragment starts a message. Refuses nothing and touches no store. Call it when the channel was silent.
 */
XaraReceiver xara_receiver_reset(XaraReceiver receiver);

/* Nothing is kept: every slot is free, with 0 in all its fields. Refuses nothing. */
XaraKept xara_kept_none(void);

/*
 * Keeps a receiver with its store under a name. A name that is kept already is replaced in its place, a new one goes to the first
 * slot that is free. The whole store is copied, all 5,000 bytes, to the lent bytes from 5000 * place on; no other lent byte is
 * written. Answers the place. The receiver and its store stay as they are, and may be pushed to further.
 *
 * slots[place] has the name, with zeros after it, and the receiver with overflow 0 or 1. All other slots come back as they came,
 * with overflow 0 or 1.
 *
 * The store has exactly XARA_STORE bytes, the lent bytes are exactly XARA_KEPT_STORE. The name may stand in the caller's own
 * XaraKept, since that crosses by value.
 * Refuses with STATE, MASK, NAME, KEPT, in this order; with the first two for the receiver and for every kept state. A name that is
 * kept already is never refused with KEPT.
 */
XaraKeeping xara_kept_keep(XaraKept kept, XaraReceiver receiver, const uint8_t *store, size_t store_len, uint8_t *lent,
                           size_t lent_len, const uint8_t *name, size_t name_len);

/*
 * The receiver that was kept under a name, with overflow 0 or 1, and its whole store to the store that is lent, all 5,000 bytes.
 * Whatever receiver went with that store before is lost, unless it was kept. The name stays kept: the same state may be returned to
 * again.
 *
 * The store has exactly XARA_STORE bytes, the lent bytes are exactly XARA_KEPT_STORE and are only read.
 * Refuses with STATE, MASK, NAME, in this order; with the first two for every kept state.
 */
XaraFresh xara_kept_return(XaraKept kept, uint8_t *store, size_t store_len, const uint8_t *lent, size_t lent_len,
                           const uint8_t *name, size_t name_len);

/*
 * Makes the slot of a name free: 0 in all its fields, as in xara_kept_none. Answers its place. All other slots come back as they
 * came, with overflow 0 or 1. No lent byte is written: the bytes of the store stay until another state is kept in this place.
 *
 * The lent bytes are exactly XARA_KEPT_STORE.
 * Refuses with STATE, MASK, NAME, in this order; with the first two for every kept state.
 */
XaraKeeping xara_kept_drop(XaraKept kept, const uint8_t *lent, size_t lent_len, const uint8_t *name, size_t name_len);

/*
 * The message that data is coded to, to the front of out; answers its length, at most 5,000, and the data's type.
 * Refuses with COMMAND, TOO_LONG, then SHORT, BAD_CALL or FORMAT, whichever is met first, then OUTPUT.
 */
XaraEncoded xara_encode(uint8_t command, const uint8_t *data, size_t data_len, uint8_t *out, size_t out_len);

/*
 * What data costs before it is sent: the length of its message, and how many fragments that takes at this field under this mask.
 * The answer is that of coding and then sending with outputs that are large enough: the length is that of xara_encode, the count
 * that of xara_count_for_field, and a refusal is the first one of xara_encode and then of xara_fragment for fragment 0. No output
 * is lent, and nothing is written.
 * Refuses with COMMAND, TOO_LONG, then SHORT, BAD_CALL or FORMAT, whichever is met first, then FIELD, MASK, COUNT, in this order:
 * the field and the mask of data that can't be coded are not looked at.
 */
XaraPreview xara_preview(uint8_t command, const uint8_t *data, size_t data_len, size_t field, uint8_t mask);

/*
 * What a frame is, before it is coded; of generic bytes text, no UI frame, 0 digipeaters. UI is control 000P0011, 03 or 13,
 * whatever the PID is; the coder has its short header for control 03 with PID F0 alone.
 * Refuses with COMMAND, TOO_LONG, SHORT, in this order.
 */
XaraSummary xara_summary(uint8_t command, const uint8_t *data, size_t data_len);

/*
 * The data that a message was coded from, to the front of out; answers the command and the data's length, at most
 * XARA_MAX_DECODED. This is the original reading: WIDE1-2, WIDE1-3, WIDE2-2 and WIDE2-3 come back as WIDE1-10, WIDE1-11, WIDE2-10
 * and WIDE2-11, which can then not be told from calls that were sent with these SSIDs. xara_decode_mended tells them apart.
 * Refuses with TOO_LONG, NOT_DECODED, OUTPUT, in this order.
 */
XaraDecoded xara_decode(const uint8_t *message, size_t message_len, uint8_t *out, size_t out_len);

/*
 * The same in the mended reading: WIDE1-2, WIDE1-3, WIDE2-2 and WIDE2-3 come back as they were sent, wherever a call may stand:
 * as destination, source or digipeater, as the addressee of a message, and in a third party's report. All other calls come back as
 * from xara_decode, WIDE1-10, WIDE1-11, WIDE2-10 and WIDE2-11 among them. The sender need not know of the choice.
 * Refuses with TOO_LONG, NOT_DECODED, OUTPUT, in this order; with the first two exactly where xara_decode does, with OUTPUT by the
 * length of this answer. The two lengths can differ: in a third party's report WIDE2-2 is a byte shorter than WIDE2-10.
 */
XaraDecoded xara_decode_mended(const uint8_t *message, size_t message_len, uint8_t *out, size_t out_len);

/* What a refusal says, for a log. */
static inline const char *xara_refusal_text(uint8_t refusal)
{
    switch (refusal) {
    case XARA_REFUSAL_COMMAND:
        return "the command is not 0, 1 or 2";
    case XARA_REFUSAL_TOO_LONG:
        return "data over 4,999 bytes, or a message over 5,000";
    case XARA_REFUSAL_SHORT:
        return "the AX.25 frame ends too early";
    case XARA_REFUSAL_BAD_CALL:
        return "a call has a letter that has no code";
    case XARA_REFUSAL_FORMAT:
        return "the information is not of the form that its type asks for";
    case XARA_REFUSAL_OUTPUT:
        return "the output is shorter than the answer";
    case XARA_REFUSAL_NOT_DECODED:
        return "the message can't be decoded";
    case XARA_REFUSAL_FIELD:
        return "the field is outside 3 to 512";
    case XARA_REFUSAL_MASK:
        return "the mask is not the top 1 to 7 bits of a byte";
    case XARA_REFUSAL_EMPTY:
        return "the message to send is empty";
    case XARA_REFUSAL_FIRST_BYTE:
        return "the first byte of the message to send is 80 or more";
    case XARA_REFUSAL_COUNT:
        return "the message takes more fragments than the mask leaves room for";
    case XARA_REFUSAL_NUMBER:
        return "the fragment's number is not below the count";
    case XARA_REFUSAL_FRAGMENT:
        return "the fragment to frame is empty or longer than the field";
    case XARA_REFUSAL_MARKER:
        return "the marker is 14";
    case XARA_REFUSAL_CONTROL:
        return "the reply is over 3 or the hint over 7";
    case XARA_REFUSAL_STATE:
        return "the store has not 5,000 bytes, the kept ones not 40,000, or a state holds over 5,000 or counts over 255";
    case XARA_REFUSAL_NAME:
        return "the name has not 1 to 8 bytes, or is not kept";
    case XARA_REFUSAL_KEPT:
        return "eight states are kept already";
    case XARA_REFUSAL_TALLY:
        return "a tally is already the largest 64-bit number";
    default:
        return "no refusal of this library";
    }
}

/* What a cause says, for a log. */
static inline const char *xara_cause_text(uint8_t cause)
{
    switch (cause) {
    case XARA_CAUSE_WRONG_LENGTH:
        return "the frame has not field + 3 bytes";
    case XARA_CAUSE_NO_FRAGMENT:
        return "there is no fragment, or a first fragment has no second byte";
    case XARA_CAUSE_OVERFLOW:
        return "an earlier fragment took the message over the limit";
    case XARA_CAUSE_LIMIT:
        return "the fragment takes the message over 5,000 bytes or over 255 fragments";
    case XARA_CAUSE_CHECK:
        return "the check bits are not those of the message";
    default:
        return "no cause of this library";
    }
}

#ifdef __cplusplus
}
#endif

#endif
