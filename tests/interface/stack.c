/* Makes every call on the stack that the header says it needs, `stack CAPTURE...`; below it lies a page that may not be touched. */
#define _GNU_SOURCE
#include <ixohuemil.h>
#include <ucontext.h>

#include "lend.h"

enum { WORDS = IXOHUEMIL_STATE_WORDS, SETTINGS = IXOHUEMIL_SETTINGS_WORDS, EVENT = IXOHUEMIL_EVENT_WORDS, ROOM = 64 };

static uint64_t state[WORDS], count, length, units, text_length;
static uint8_t packet[IXOHUEMIL_PACKET_BYTES], collecting[IXOHUEMIL_CAPTURE_COLLECTING];
static uint8_t capture[1 << 23], text[1 << 23], output[1 << 20], slot_of_run[IXOHUEMIL_MOST_SLOT_BYTES];
static size_t capture_length;
static uint16_t top, last;
static ixohuemil_event events[ROOM];
static ixohuemil_settings settings;
static ucontext_t here, there;

static uint64_t number(const uint8_t *bytes, int count) { return count ? number(bytes, count - 1) << 8 | bytes[count - 1] : 0; }

/* Packs and cuts what the last event carried. */
static void send_again(const ixohuemil_event *event) {
    units++;
    ixohuemil_show(packet, sizeof packet, collecting, sizeof collecting, event, EVENT, output, sizeof output, &length);
    ixohuemil_pack(event, EVENT, 2, 0, 100, collecting, 20000, output, sizeof output, &length);
    ixohuemil_cut(output, length, 1870, 1, slot_of_run, 1870, &top, &last);
}

/* Reads one event by next, the others by events. */
static uint8_t read_events(void) {
    uint8_t refused = ixohuemil_next(state, WORDS, packet, sizeof packet, collecting, sizeof collecting, events, EVENT);
    for (count = events[0].what != 0; refused == 0 && count > 0;) {
        if (events[count - 1].what == IXOHUEMIL_UNIT) send_again(&events[count - 1]);
        refused = ixohuemil_events(state, WORDS, packet, sizeof packet, collecting, sizeof collecting, events, ROOM * EVENT, &count);
    }
    return refused;
}

/* The command at `at`, if it is whole; its length, or 0 at the capture's end. */
static size_t command(const uint8_t *at, size_t left) {
    size_t all = left == 0 ? 0 : *at == 'F' ? 1 + IXOHUEMIL_BLOCK_BYTES : *at == 'S' && left > 2 ? 3 + number(at + 1, 2) : 1;
    uint8_t refused = 255;
    if (all == 0 || all > left) return 0;
    if (*at == 'F') return ixohuemil_frame(state, WORDS, at + 1, IXOHUEMIL_BLOCK_BYTES) ? 0 : all;
    if (*at == 'X') refused = ixohuemil_lost_frame(state, WORDS);
    if (*at == 'L') refused = ixohuemil_lost_slot(state, WORDS, packet, sizeof packet, collecting, sizeof collecting);
    if (*at == 'S' && all > 2)
        refused = ixohuemil_slot(state, WORDS, packet, sizeof packet, collecting, sizeof collecting, at + 3, all - 3);
    return refused || read_events() ? 0 : all;
}

static void by_calls(void) {
    if (ixohuemil_start(&settings, SETTINGS, state, WORDS)) return;
    for (size_t at = 42, step = 1; step > 0; at += step) step = command(capture + at, capture_length - at);
}

static void by_text(void) {
    text_length = ixohuemil_text(capture, capture_length, packet, sizeof packet, collecting, sizeof collecting, text, sizeof text);
}

/* Runs on a stack of so many bytes. */
static void run_on(size_t bytes, void (*run)(void)) {
    lent stack = lend(bytes, AT_START);
    getcontext(&there);
    there.uc_stack.ss_sp = stack.bytes, there.uc_stack.ss_size = bytes, there.uc_link = &here;
    makecontext(&there, run, 0);
    CHECK(swapcontext(&here, &there) == 0);
    size_t spare = 0;
    while (spare < bytes && stack.bytes[spare] == PATTERN) spare++;
    CHECK(spare > 0);
    take_back(&stack);
}

int main(int arguments, char **names) {
    for (int k = 1; k < arguments; k++) {
        FILE *file = fopen(names[k], "rb");
        capture_length = file ? fread(capture, 1, sizeof capture, file) : 0;
        if (file) fclose(file);
        if (capture_length < 42 || capture[0] != 'C') continue;
        settings.stream_id = number(capture + 1, 2), settings.cid = number(capture + 3, 2), settings.n = capture[5];
        settings.limit = number(capture + 38, 4);
        for (int id = 0; id < 16; id++) settings.packet_ids[id] = number(capture + 6 + 2 * id, 2);
        run_on(IXOHUEMIL_STACK_BYTES, by_calls);
        run_on(IXOHUEMIL_TEXT_STACK_BYTES, by_text);
        CHECK(text_length > 0);
    }
    CHECK(units > 0);
    return end_of_checks("stack");
}
