/* ixohuemil.h: the C interface of Ixohuemil, a receiver for ultra-high-definition satellite broadcasting.
 *
 * Control blocks and slots go in; notes and whole units come out. Link with libixohuemil.a; beside it only memcpy and memset
 * of the C library are needed.
 *
 *   start        once
 *   frame        then 120 times slot or lost_slot, and after each of them events until *count is 0
 *   lost_frame   in place of a frame and its 120 slots; then events until *count is 0
 *
 * Every call but text answers 0 (accepted) or the number of a refusal, tested in the order in which it is listed. A refused
 * call changes nothing that it was lent. No input is forbidden: damage inside a slot gives a note, a wrong call a refusal.
 *
 * The caller owns all memory. The library keeps no pointer, allocates nothing and has no global state. Calls on different
 * memories may run at the same time; calls on one state may not. What is lent must be valid for the length that is given with
 * it, a pointer of length 0 too must not be NULL, and memory that is written must not overlap other memory of the call.
 * Lengths count bytes of uint8_t, and words of 8 bytes of state, settings and events.
 *
 * A call needs 8 KiB of stack, ixohuemil_text 96 KiB.
 */
#ifndef IXOHUEMIL_H
#define IXOHUEMIL_H

#include <stddef.h>
#include <stdint.h>

#ifdef __cplusplus
extern "C" {
#endif

/* Sizes. */
#define IXOHUEMIL_STATE_WORDS 751         /* the receiver's state */
#define IXOHUEMIL_SETTINGS_WORDS 32       /* ixohuemil_settings */
#define IXOHUEMIL_EVENT_WORDS 24          /* ixohuemil_event */
#define IXOHUEMIL_MOST_PACKET_IDS 16      /* watched packet_ids */
#define IXOHUEMIL_MOST_LIMIT 1048576      /* the settings' limit */
#define IXOHUEMIL_PACKET_BYTES 21433      /* packet memory */
#define IXOHUEMIL_BLOCK_BYTES 1178        /* a frame's control block */
#define IXOHUEMIL_FRAME_SLOTS 120         /* slots of a frame */
#define IXOHUEMIL_MOST_SLOT_BYTES 5049    /* the longest slot */
#define IXOHUEMIL_MOST_PIECE_BYTES 1400   /* the packer's piece size m */
#define IXOHUEMIL_MOST_PIECES 65535       /* pieces of a unit that the packer takes */
#define IXOHUEMIL_CAPTURE_COLLECTING 65536 /* collecting memory of tlv_capture */
#define IXOHUEMIL_MOST_LINE_BYTES 152     /* room that ixohuemil_text wants for a line */
#define IXOHUEMIL_STACK_BYTES 8192        /* stack of a call */
#define IXOHUEMIL_TEXT_STACK_BYTES 98304  /* stack of ixohuemil_text */

/* What a call answers. */
enum {
    IXOHUEMIL_ACCEPTED = 0,
    /* start */
    IXOHUEMIL_REFUSED_COUNT = 1,           /* n is not 1 to 16 */
    IXOHUEMIL_REFUSED_ID_TWICE = 2,        /* a packet_id stands twice */
    IXOHUEMIL_REFUSED_CID = 3,             /* the CID is above 4,095 */
    IXOHUEMIL_REFUSED_LIMIT = 4,           /* the limit R is not 1 to 1,048,576 */
    /* frame, lost_frame */
    IXOHUEMIL_REFUSED_BLOCK_LENGTH = 10,   /* the control block has not 1,178 bytes */
    IXOHUEMIL_REFUSED_FRAME_NOT_READ = 11, /* slots are due, or events were not read until nothing waits */
    IXOHUEMIL_REFUSED_MODES = 12,          /* the control block's modes break the rules */
    IXOHUEMIL_REFUSED_STREAM = 13,         /* not exactly one TLV stream has the stream id */
    IXOHUEMIL_REFUSED_NO_LIVE_SLOT = 14,   /* that stream has no live slot */
    /* slot, lost_slot, next, events */
    IXOHUEMIL_REFUSED_NO_SLOT_DUE = 20,    /* no slot is due */
    IXOHUEMIL_REFUSED_EVENTS_WAIT = 21,    /* events were not read until nothing waits */
    IXOHUEMIL_REFUSED_MEMORY = 22,         /* packet memory is under 21,433 bytes, or collecting memory under n x R */
    IXOHUEMIL_REFUSED_SLOT_LENGTH = 23,    /* the slot has another length than its mode's; a dummy slot has 0 bytes */
    /* pack */
    IXOHUEMIL_REFUSED_PIECE_SIZE = 70,     /* the piece size m is not 1 to 1,400 */
    IXOHUEMIL_REFUSED_KIND = 71,           /* the kind is above 4 */
    IXOHUEMIL_REFUSED_PIECES = 72,         /* the unit has more than 65,535 pieces */
    IXOHUEMIL_REFUSED_PACK_OUTPUT = 73,    /* the output is too short for the packets */
    IXOHUEMIL_REFUSED_PACK_CID = 74,       /* the CID is above 4,095 */
    /* cut */
    IXOHUEMIL_REFUSED_RUN = 75,            /* the run is not whole TLV packets, each starting with 0x7F */
    IXOHUEMIL_REFUSED_CUT_LENGTH = 76,     /* no mode has slots of l bytes */
    IXOHUEMIL_REFUSED_CUT_END = 77,        /* slot s passes the run's end */
    IXOHUEMIL_REFUSED_CUT_OUTPUT = 78,     /* the output has not l bytes */
    /* what is lent */
    IXOHUEMIL_REFUSED_STATE_WORDS = 90,    /* the state has fewer than 751 words */
    IXOHUEMIL_REFUSED_SETTINGS = 91,       /* the settings have fewer than 32 words, or a word is above its bound */
    IXOHUEMIL_REFUSED_EVENT = 92,          /* an event has fewer than 24 words, or is no unit that can be packed */
    IXOHUEMIL_REFUSED_SHOW_OUTPUT = 93     /* the output is shorter than the unit */
};

/* Notes: 52 and above are of one packet_id, the others of none. */
enum {
    IXOHUEMIL_NOTE_SLOT_LOST = 40,         /* an own slot was lost where packets had been followed */
    IXOHUEMIL_NOTE_SLOT_UNSOUND = 41,      /* the slot's pointers and packets disagree, or a packet does not begin with 0x7F */
    IXOHUEMIL_NOTE_HELD_BREAKS = 42,       /* the held packet does not go on as the slot says */
    IXOHUEMIL_NOTE_PACKET_LONG = 43,       /* a packet above 16,384 bytes */
    IXOHUEMIL_NOTE_COMPRESSED_HEADER = 50, /* a malformed compressed header */
    IXOHUEMIL_NOTE_MMTP_HEADER = 51,       /* a malformed MMTP header */
    IXOHUEMIL_NOTE_PAYLOAD = 52,           /* a malformed payload */
    IXOHUEMIL_NOTE_PACKETS_MISSING = 60,   /* packets of this packet_id are missing */
    IXOHUEMIL_NOTE_UNIT_DROPPED = 61,      /* an open unit was dropped */
    IXOHUEMIL_NOTE_NO_BEGINNING = 62,      /* a piece without a beginning */
    IXOHUEMIL_NOTE_PIECE_MISFITS = 63,     /* a piece that does not fit the open unit */
    IXOHUEMIL_NOTE_UNIT_LONG = 64          /* a joined unit above the limit R */
};

/* What start is told. Set all of it to 0 first; later settings take the words in `later`. Words behind these 32 do not count. */
typedef struct ixohuemil_settings {
    uint64_t stream_id;      /* the TLV stream's id, at most 65,535 */
    uint64_t cid;            /* the context id of the IP flow, at most 4,095 */
    uint64_t n;              /* how many packet_ids are watched: 1 to 16 */
    uint64_t limit;          /* R, the most bytes of a joined unit: 1 to 1,048,576 */
    uint64_t packet_ids[16]; /* the first n are watched; each at most 65,535, also behind n */
    uint64_t later[12];      /* 0 */
} ixohuemil_settings;

/* The words `what`, `memory` and `kind` of an event. */
enum { IXOHUEMIL_NOTHING_WAITS = 0, IXOHUEMIL_NOTE = 1, IXOHUEMIL_UNIT = 2 };
enum { IXOHUEMIL_IN_PACKET_MEMORY = 0, IXOHUEMIL_IN_COLLECTING_MEMORY = 1 };
enum {
    IXOHUEMIL_MPU_METADATA = 0,
    IXOHUEMIL_MOVIE_FRAGMENT_METADATA = 1,
    IXOHUEMIL_TIMED_MFU = 2,
    IXOHUEMIL_NON_TIMED_MFU = 3,
    IXOHUEMIL_SIGNALLING = 4
};

/* A note or a unit. Words that do not apply are 0. A unit's bytes are `length` bytes from `start` on in its memory: of
 * packet memory until the next call of slot, of collecting memory until the next call of next or events. In a record that is
 * lent, a `memory` other than 0 or 1 reads as collecting memory, and words behind the 24 do not count. */
typedef struct ixohuemil_event {
    uint64_t what;           /* nothing waits, a note or a unit */
    uint64_t note;           /* the note's number */
    uint64_t memory;         /* where the unit's bytes stand */
    uint64_t start;
    uint64_t length;
    uint64_t packet_id;      /* of a unit, and of notes from 52 on */
    uint64_t kind;
    uint64_t psn;            /* the packet sequence number of the unit's first packet */
    uint64_t mpu;            /* the MPU sequence number; 0 for signalling */
    uint64_t movie_fragment; /* this and the next four: kind 2 */
    uint64_t sample;
    uint64_t offset;
    uint64_t priority;
    uint64_t dependency;
    uint64_t item;           /* the item id: kind 3 */
    uint64_t later[9];       /* 0 */
} ixohuemil_event;

/* The records have just these words; an array with a negative length does not compile. */
typedef char ixohuemil_settings_size[sizeof(ixohuemil_settings) == 8 * IXOHUEMIL_SETTINGS_WORDS ? 1 : -1];
typedef char ixohuemil_event_size[sizeof(ixohuemil_event) == 8 * IXOHUEMIL_EVENT_WORDS ? 1 : -1];

/* The receiver. Its three memories go together, and belong to it from start until the last call:
 *   state       751 words or more; any content before start. May be copied and moved between calls.
 *   packet      packet memory, 21,433 bytes or more; any content.
 *   collecting  collecting memory, n x R bytes or more; any content. packet_id k of the settings, from 0, collects from k x R on.
 * A copy of all three goes on from where it was made. */

/* Makes `state` a fresh receiver. Refusals: 90, 91, 1 to 4. */
uint8_t ixohuemil_start(const ixohuemil_settings *settings, size_t settings_words, uint64_t *state, size_t state_words);

/* Begins a frame by its control block; its 120 slots are then due. Refusals: 90, 10 to 14. */
uint8_t ixohuemil_frame(uint64_t *state, size_t state_words, const uint8_t *block, size_t block_bytes);

/* Counts a frame as lost, with all its slots. Refusals: 90, 11. */
uint8_t ixohuemil_lost_frame(uint64_t *state, size_t state_words);

/* Gives the slot that is due: dummy slots with 0 bytes, and other streams' slots too. Refusals: 90, 20 to 23. */
uint8_t ixohuemil_slot(uint64_t *state, size_t state_words, uint8_t *packet, size_t packet_bytes, const uint8_t *collecting,
                       size_t collecting_bytes, const uint8_t *data, size_t data_bytes);

/* Counts the slot that is due as lost. Refusals: 90, 20 to 22. */
uint8_t ixohuemil_lost_slot(uint64_t *state, size_t state_words, const uint8_t *packet, size_t packet_bytes,
                            const uint8_t *collecting, size_t collecting_bytes);

/* Writes one event to `event`; it has 0 in all words once nothing waits. Refusals: 90, 92, 22. */
uint8_t ixohuemil_next(uint64_t *state, size_t state_words, const uint8_t *packet, size_t packet_bytes, uint8_t *collecting,
                       size_t collecting_bytes, ixohuemil_event *event, size_t event_words);

/* Writes as many events as there are, or as `events` holds, and their number to `*count`. It ends early behind a joined unit,
 * so that the bytes of all that it gives stand where they say. Call it until `*count` is 0. A `*count` below what `events`
 * holds, whose last event is no joined unit, also means that nothing waits: use the records before the next slot is given.
 * Words behind the last record, and a rest of fewer than 24 words, stay as they were. Refusals: 90, 92, 22. */
uint8_t ixohuemil_events(uint64_t *state, size_t state_words, const uint8_t *packet, size_t packet_bytes, uint8_t *collecting,
                         size_t collecting_bytes, ixohuemil_event *events, size_t events_words, uint64_t *count);

/* Copies a unit's bytes to the front of `output`, and their number to `*length`: 0 for a place outside its memory. Only
 * `memory`, `start` and `length` of `event` count, `what` does not. Refusals: 92, 93. */
uint8_t ixohuemil_show(const uint8_t *packet, size_t packet_bytes, const uint8_t *collecting, size_t collecting_bytes,
                       const ixohuemil_event *event, size_t event_words, uint8_t *output, size_t output_bytes,
                       uint64_t *length);

/* Packs a unit into TLV packets from the front of `output`, and writes their length to `*length`. The unit's fields are those of
 * `unit`, a record as next gives it: `what` is 2; `note`, `memory`, `start` and `length` do not count; a field above its
 * width on the air is refused with 92. `sn` is the first packet's sequence number of the compressed header, `m` the most
 * bytes of a piece. A unit of n pieces has n packets; their counters fall to 0, modulo 256. Refusals: 92, 70 to 74. */
uint8_t ixohuemil_pack(const ixohuemil_event *unit, size_t unit_words, uint16_t cid, uint8_t sn, size_t m, const uint8_t *bytes,
                       size_t bytes_length, uint8_t *output, size_t output_bytes, uint64_t *length);

/* Copies slot `s`, from 0, of a run of TLV packets to `output`, with slots of `l` bytes, and writes the top and last pointer
 * that its control block has for it. Refusals: 75 to 78. */
uint8_t ixohuemil_cut(const uint8_t *run, size_t run_bytes, size_t l, size_t s, uint8_t *output, size_t output_bytes,
                      uint16_t *top, uint16_t *last);

/* Writes the lines of a whole capture to the front of `text`; answers how many bytes they are. With 65,536 bytes of collecting
 * memory they are those that tlv_capture(1) prints. Once fewer than 152 bytes are left it stops: then lines are missing, the
 * `end` line among them. */
uint64_t ixohuemil_text(const uint8_t *capture, size_t capture_bytes, uint8_t *packet, size_t packet_bytes, uint8_t *collecting,
                        size_t collecting_bytes, uint8_t *text, size_t text_bytes);

#ifdef __cplusplus
}
#endif

#endif
