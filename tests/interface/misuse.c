/* Wrong calls, `misuse CAPTURE`: each is refused by its number, and nothing that was lent changes; noise as a state is read to an
 * end. The capture is document 01's. All memory lies between pages that may not be touched. */
#include <ixohuemil.h>

#include "lend.h"

enum { WORDS = IXOHUEMIL_STATE_WORDS, SETTINGS = IXOHUEMIL_SETTINGS_WORDS, EVENT = IXOHUEMIL_EVENT_WORDS };
enum { SLOT = 1870, OUTPUT = 2000, MEMORIES = 8, LIMIT = 100 };

static lent state, settings, packet, collecting, events, block, data, output;
static lent *const memories[MEMORIES] = {&state, &settings, &packet, &collecting, &events, &block, &data, &output};
static uint8_t *before[MEMORIES];
static uint64_t count, length;
static uint16_t top, last;
static int noisy_units;

static uint64_t *words(const lent *memory) { return (uint64_t *)(void *)memory->bytes; }
static ixohuemil_settings *the_settings(void) { return (void *)settings.bytes; }
static ixohuemil_event *the_event(void) { return (void *)events.bytes; }

static void remember(void) {
    for (int k = 0; k < MEMORIES; k++) memcpy(before[k], memories[k]->bytes, memories[k]->length);
    count = 71, length = 72, top = 73, last = 74;
}

static int unchanged(void) {
    int same = count == 71 && length == 72 && top == 73 && last == 74;
    for (int k = 0; k < MEMORIES; k++)
        same = same && memcmp(before[k], memories[k]->bytes, memories[k]->length) == 0 && beside_untouched(memories[k]);
    return same;
}

/* The call is refused with the number, and changes nothing. */
#define REFUSED(number, call) (remember(), CHECK((call) == (number)), CHECK(unchanged()))
#define ACCEPTED(call) CHECK((call) == IXOHUEMIL_ACCEPTED)

static uint8_t start_with(size_t settings_words, size_t state_words) {
    return ixohuemil_start(the_settings(), settings_words, words(&state), state_words);
}
static uint8_t start(void) { return start_with(SETTINGS, WORDS); }
static uint8_t frame(size_t bytes) { return ixohuemil_frame(words(&state), WORDS, block.bytes, bytes); }
static uint8_t slot(size_t packet_bytes, size_t collecting_bytes, size_t bytes) {
    return ixohuemil_slot(words(&state), WORDS, packet.bytes, packet_bytes, collecting.bytes, collecting_bytes, data.bytes, bytes);
}
static uint8_t lost_slot(size_t packet_bytes, size_t collecting_bytes) {
    return ixohuemil_lost_slot(words(&state), WORDS, packet.bytes, packet_bytes, collecting.bytes, collecting_bytes);
}
static uint8_t next(size_t packet_bytes, size_t collecting_bytes, size_t event_words) {
    return ixohuemil_next(words(&state), WORDS, packet.bytes, packet_bytes, collecting.bytes, collecting_bytes, the_event(),
                          event_words);
}
static uint8_t many(size_t packet_bytes, size_t collecting_bytes, size_t events_words) {
    return ixohuemil_events(words(&state), WORDS, packet.bytes, packet_bytes, collecting.bytes, collecting_bytes, the_event(),
                            events_words, &count);
}
static uint8_t show(size_t event_words, size_t output_bytes) {
    return ixohuemil_show(packet.bytes, packet.length, collecting.bytes, collecting.length, the_event(), event_words, output.bytes,
                          output_bytes, &length);
}
/* A unit of one piece too many, at a byte each; it stands in memory that nobody may write. */
#define TOO_MANY (IXOHUEMIL_MOST_PIECES + 1)
static const uint8_t long_unit[TOO_MANY];
static uint8_t pack(size_t unit_words, uint16_t cid, size_t m, size_t bytes, size_t output_bytes) {
    const uint8_t *unit = bytes > data.length ? long_unit : data.bytes;
    return ixohuemil_pack(the_event(), unit_words, cid, 0, m, unit, bytes, output.bytes, output_bytes, &length);
}
static uint8_t cut(size_t run_bytes, size_t l, size_t s, size_t output_bytes) {
    return ixohuemil_cut(data.bytes, run_bytes, l, s, output.bytes, output_bytes, &top, &last);
}

/* Too few words of state, in every call that takes one. */
static void short_states(size_t n) {
    uint64_t *w = words(&state);
    const uint8_t *p = packet.bytes;
    uint8_t *c = collecting.bytes;
    size_t pl = packet.length, cl = collecting.length;
    REFUSED(90, start_with(SETTINGS, n));
    REFUSED(90, start_with(0, n));
    REFUSED(90, ixohuemil_frame(w, n, block.bytes, block.length));
    REFUSED(90, ixohuemil_lost_frame(w, n));
    REFUSED(90, ixohuemil_slot(w, n, packet.bytes, 0, c, 0, data.bytes, 1));
    REFUSED(90, ixohuemil_lost_slot(w, n, p, pl, c, cl));
    REFUSED(90, ixohuemil_next(w, n, p, pl, c, cl, the_event(), 3));
    REFUSED(90, ixohuemil_events(w, n, p, pl, c, cl, the_event(), 3, &count));
}

/* Each word of the settings one above its bound, alone. */
static void wrong_settings(void) {
    for (int k = 0; k < SETTINGS; k++) {
        if (k == 2 || k == 3) continue;
        uint64_t good = words(&settings)[k], bad[] = {k < 20 ? 65536 : 1, UINT64_MAX, (uint64_t)1 << 32, (uint64_t)1 << 63};
        for (int b = 0; b < 4; b++) words(&settings)[k] = bad[b], REFUSED(91, start());
        words(&settings)[k] = good;
    }
    REFUSED(91, start_with(SETTINGS - 1, WORDS));
    REFUSED(91, start_with(0, WORDS));
    static const uint64_t wrong_n[] = {0, 17, 255, 256, 257, 65537, ((uint64_t)1 << 32) + 1, UINT64_MAX};
    for (int k = 0; k < 8; k++) the_settings()->n = wrong_n[k], REFUSED(1, start());
    the_settings()->n = 2;
    REFUSED(2, start());
    the_settings()->packet_ids[1] = 65535, the_settings()->cid = 4096;
    static const uint64_t wrong_limit[] = {0, 1048577, (uint64_t)1 << 32, ((uint64_t)1 << 32) + 1, UINT64_MAX};
    for (int k = 0; k < 5; k++) the_settings()->limit = wrong_limit[k], REFUSED(3, start());
    the_settings()->cid = 2;
    for (int k = 0; k < 5; k++) the_settings()->limit = wrong_limit[k], REFUSED(4, start());
    the_settings()->limit = LIMIT, the_settings()->n = 1, the_settings()->packet_ids[1] = 0;
}

/* Calls out of order and with wrong lengths, from a fresh start on. */
static void wrong_order(void) {
    size_t p = packet.length, c = collecting.length;
    REFUSED(20, slot(p, c, SLOT));
    REFUSED(20, lost_slot(p - 1, c - 1));
    REFUSED(22, next(p, c - 1, EVENT));
    ACCEPTED(next(p, c, EVENT));
    CHECK(the_event()->what == IXOHUEMIL_NOTHING_WAITS);
    REFUSED(10, frame(IXOHUEMIL_BLOCK_BYTES - 1));
    block.bytes[2]--;
    REFUSED(12, frame(IXOHUEMIL_BLOCK_BYTES));
    block.bytes[2]++, block.bytes[25]++;
    REFUSED(13, frame(IXOHUEMIL_BLOCK_BYTES));
    block.bytes[25]--, memset(block.bytes + 633, 0x11, 60);
    REFUSED(14, frame(IXOHUEMIL_BLOCK_BYTES));
    memset(block.bytes + 633, 0, 60);
    ACCEPTED(frame(IXOHUEMIL_BLOCK_BYTES));
    REFUSED(11, frame(IXOHUEMIL_BLOCK_BYTES));
    REFUSED(11, ixohuemil_lost_frame(words(&state), WORDS));
    REFUSED(22, slot(p - 1, c, SLOT));
    REFUSED(22, slot(p, c - 1, SLOT - 1));
    REFUSED(22, lost_slot(0, 0));
    REFUSED(23, slot(p, c, SLOT - 1));
    REFUSED(23, slot(p, c, 0));
    ACCEPTED(slot(p, c, SLOT));
    REFUSED(21, slot(p - 1, c, SLOT));
    REFUSED(21, lost_slot(p, c));
    REFUSED(11, frame(IXOHUEMIL_BLOCK_BYTES));
}

/* Events into too little memory, then the unit of the worked example. */
static void wrong_events(void) {
    size_t p = packet.length, c = collecting.length;
    REFUSED(92, next(p - 1, c, EVENT - 1));
    REFUSED(92, next(p, c, 0));
    REFUSED(92, many(p - 1, c, EVENT - 1));
    REFUSED(22, next(p - 1, c, EVENT));
    REFUSED(22, many(p, c - 1, EVENT));
    memset(events.bytes, 0xEE, events.length);
    ACCEPTED(many(p, c, 2 * EVENT - 1));
    CHECK(count == 1 && words(&events)[EVENT] == 0xEEEEEEEEEEEEEEEE);
    CHECK(the_event()->what == IXOHUEMIL_UNIT && the_event()->length == 2 && the_event()->psn == 7);
    REFUSED(92, show(EVENT - 1, 2));
    REFUSED(93, show(EVENT, 1));
    ACCEPTED(show(EVENT, 2));
    CHECK(length == 2 && memcmp(output.bytes, packet.bytes + the_event()->start, 2) == 0);
    ixohuemil_event given = *the_event();
    static const uint64_t outside[] = {IXOHUEMIL_PACKET_BYTES - 1, IXOHUEMIL_PACKET_BYTES + 1, UINT64_MAX, UINT64_MAX - 1};
    for (int k = 0; k < 4; k++) {
        the_event()->start = outside[k], length = 5;
        ACCEPTED(show(EVENT, 0));
        CHECK(length == 0);
    }
    *the_event() = given, the_event()->length = UINT64_MAX;
    ACCEPTED(show(EVENT, 0));
    CHECK(length == 0);
    *the_event() = given;
}

/* The packer and the cutter; the event is a unit. */
static void wrong_sending(void) {
    static const uint64_t most[] = {65535, 255, UINT32_MAX, UINT32_MAX, UINT32_MAX, UINT32_MAX, UINT32_MAX, 255, 255, UINT32_MAX};
    REFUSED(92, pack(EVENT - 1, 2, 0, 2, OUTPUT));
    for (int k = 5; k < EVENT; k++) {
        uint64_t good = words(&events)[k];
        words(&events)[k] = k < 15 ? most[k - 5] + 1 : 1;
        REFUSED(92, pack(EVENT, 2, 0, 2, OUTPUT));
        words(&events)[k] = good;
    }
    static const uint64_t no_unit[] = {0, 1, 3, 258, UINT64_MAX};
    for (int k = 0; k < 5; k++) the_event()->what = no_unit[k], REFUSED(92, pack(EVENT, 2, 1400, 2, OUTPUT));
    the_event()->what = IXOHUEMIL_UNIT, the_event()->kind = 5;
    REFUSED(70, pack(EVENT, 4096, 0, TOO_MANY, 0));
    REFUSED(70, pack(EVENT, 2, 1401, 2, OUTPUT));
    REFUSED(71, pack(EVENT, 4096, 1, TOO_MANY, 0));
    the_event()->kind = IXOHUEMIL_SIGNALLING;
    REFUSED(72, pack(EVENT, 4096, 1, TOO_MANY, 0));
    REFUSED(73, pack(EVENT, 4096, 1, IXOHUEMIL_MOST_PIECES, OUTPUT));
    REFUSED(73, pack(EVENT, 4096, 1400, 2, 22));
    REFUSED(74, pack(EVENT, 4096, 1400, 2, 23));
    ACCEPTED(pack(EVENT, 2, 1400, 2, 23));
    CHECK(length == 23 && output.bytes[0] == 0x7F);
    REFUSED(75, cut(SLOT - 1, 0, 9, 0));
    REFUSED(76, cut(SLOT, SLOT + 1, 9, 0));
    REFUSED(77, cut(SLOT, SLOT, 1, 0));
    REFUSED(77, cut(SLOT, SLOT, SIZE_MAX, 0));
    REFUSED(78, cut(SLOT, SLOT, 0, SLOT - 1));
    REFUSED(78, cut(SLOT, SLOT, 0, SLOT + 1));
    ACCEPTED(cut(SLOT, SLOT, 0, SLOT));
    CHECK(top == 0 && last == SLOT && memcmp(output.bytes, data.bytes, SLOT) == 0);
}

static uint64_t noise(void) {
    static uint64_t seed = 88172645463325252u;
    seed ^= seed << 13, seed ^= seed >> 7, seed ^= seed << 17;
    return seed;
}

/* A state of noise, or a real one, behind an accepted slot, with noise in some words; some of it small, to pass for real. */
static void spoil_state(int round) {
    size_t words_of_noise = round % 2 ? WORDS : 1 + noise() % 8;
    start(), frame(IXOHUEMIL_BLOCK_BYTES), slot(packet.length, collecting.length, SLOT);
    for (size_t k = 0; k < words_of_noise; k++) words(&state)[round % 2 ? k : noise() % WORDS] = noise() >> noise() % 64;
    for (size_t k = IXOHUEMIL_PACKET_BYTES / 2; round % 4 == 2 && k < packet.length; k++) packet.bytes[k] = 0x7F & noise();
}

/* Makes calls on a spoilt state. */
static void noisy_calls(int round) {
    spoil_state(round);
    for (int call = 0; call < 30; call++) {
        uint64_t which = noise() % 8;
        if (which == 0) frame(IXOHUEMIL_BLOCK_BYTES);
        if (which == 1) ixohuemil_lost_frame(words(&state), WORDS);
        if (which == 2) slot(packet.length, collecting.length, noise() % 2 ? SLOT : 0);
        if (which == 3) lost_slot(packet.length, collecting.length);
        if (which == 4 && many(packet.length, collecting.length, 2 * EVENT) == 0) CHECK(count <= 2);
        if (which > 4 && next(packet.length, collecting.length, EVENT) == 0) {
            CHECK(the_event()->what <= 2);
            noisy_units += the_event()->what == IXOHUEMIL_UNIT;
            if (show(EVENT, OUTPUT) == 0) CHECK(length == the_event()->length || length == 0);
        }
    }
    for (int k = 0; k < MEMORIES; k++) CHECK(beside_untouched(memories[k]));
}

/* Lends the memories, each flush with its end or its start, with what the capture says. */
static void prepare(const uint8_t *capture, int where) {
    static const size_t lengths[MEMORIES] = {8 * WORDS, 8 * SETTINGS, IXOHUEMIL_PACKET_BYTES, LIMIT, 16 * EVENT, IXOHUEMIL_BLOCK_BYTES,
                                             SLOT, OUTPUT};
    for (int k = 0; k < MEMORIES; k++) {
        *memories[k] = lend(lengths[k], where);
        for (size_t b = 0; b < lengths[k]; b++) memories[k]->bytes[b] = noise();
        before[k] = realloc(before[k], lengths[k]);
    }
    memset(settings.bytes, 0, settings.length);
    the_settings()->stream_id = 1, the_settings()->cid = 2, the_settings()->n = 1, the_settings()->limit = LIMIT;
    memcpy(block.bytes, capture + 43, IXOHUEMIL_BLOCK_BYTES);
    memcpy(data.bytes, capture + 43 + IXOHUEMIL_BLOCK_BYTES + 3, SLOT);
}

int main(int arguments, char **names) {
    static uint8_t capture[4096];
    FILE *file = arguments > 1 ? fopen(names[1], "rb") : NULL;
    if (file == NULL || fread(capture, 1, sizeof capture, file) < 43 + IXOHUEMIL_BLOCK_BYTES + 3 + SLOT) return 2;
    fclose(file);
    for (int where = AT_START; where <= AT_END; where++) {
        prepare(capture, where);
        for (size_t n = 0; n < WORDS; n += n < 740 ? 74 : 1) short_states(n);
        wrong_settings();
        ACCEPTED(start());
        wrong_order();
        wrong_events();
        wrong_sending();
        for (int round = 0; round < 4000; round++) noisy_calls(round);
        for (int k = 0; k < MEMORIES; k++) take_back(memories[k]);
    }
    for (int k = 0; k < MEMORIES; k++) free(before[k]);
    CHECK(noisy_units > 100);
    return end_of_checks("misuse");
}
