/* Reads captures, `ways CAPTURE...`, by next and by events with arrays of several lengths: the same events, with the same bytes.
 *
 * Every memory has just the length that the call needs, between pages that may not be touched. In the middle of each reading
 * it goes on with copies of its memories. */
#include <ixohuemil.h>

#include "lend.h"

enum { WORDS = IXOHUEMIL_STATE_WORDS, COLLECTING = IXOHUEMIL_CAPTURE_COLLECTING, MOST_EVENTS = 64 };

/* A reading: its memories, and what it has given: records without their places, and bytes. */
typedef struct {
    lent state, packet, collecting, events;
    size_t events_words; /* 0: by next */
    uint8_t *given;
    size_t given_length, given_room;
} reading;

static uint64_t *words(const lent *memory) { return (uint64_t *)(void *)memory->bytes; }

static uint64_t number(const uint8_t *bytes, int count) { return count ? number(bytes, count - 1) << 8 | bytes[count - 1] : 0; }

static void append(reading *r, const void *bytes, size_t length) {
    while (r->given == NULL || r->given_length + length > r->given_room)
        if ((r->given = realloc(r->given, r->given_room = 2 * r->given_room + 4096)) == NULL) abort();
    memcpy(r->given + r->given_length, bytes, length);
    r->given_length += length;
}

/* Takes an event: its bytes by its place, which are those that show copies. */
static void take(reading *r, ixohuemil_event event) {
    const lent *memory = event.memory == IXOHUEMIL_IN_PACKET_MEMORY ? &r->packet : &r->collecting;
    CHECK(event.what == IXOHUEMIL_NOTE || event.what == IXOHUEMIL_UNIT);
    CHECK(event.start + event.length <= memory->length);
    lent output = lend(event.length, AT_END);
    uint64_t length = 77;
    CHECK(ixohuemil_show(r->packet.bytes, r->packet.length, r->collecting.bytes, r->collecting.length, &event,
                         IXOHUEMIL_EVENT_WORDS, output.bytes, output.length, &length) == 0);
    CHECK(length == event.length && memcmp(output.bytes, memory->bytes + event.start, length) == 0);
    append(r, output.bytes, output.length);
    take_back(&output);
    append(r, &event, sizeof event);
}

/* Reads events until nothing waits; the refusal. */
static uint8_t read_events(reading *r) {
    ixohuemil_event *events = (void *)r->events.bytes;
    for (;;) {
        uint64_t count = 1;
        uint8_t refused =
            r->events_words == 0
                ? ixohuemil_next(words(&r->state), WORDS, r->packet.bytes, r->packet.length, r->collecting.bytes,
                                 r->collecting.length, events, IXOHUEMIL_EVENT_WORDS)
                : ixohuemil_events(words(&r->state), WORDS, r->packet.bytes, r->packet.length, r->collecting.bytes,
                                   r->collecting.length, events, r->events_words, &count);
        if (refused) return refused;
        if (count == 0 || events[0].what == IXOHUEMIL_NOTHING_WAITS) return 0;
        CHECK(count <= r->events.length / sizeof(ixohuemil_event));
        for (uint64_t k = 0; k < count; k++) {
            CHECK(k + 1 == count || events[k].memory == IXOHUEMIL_IN_PACKET_MEMORY);
            take(r, events[k]);
        }
    }
}

/* The state and both memories are moved elsewhere, and the old ones spoilt. */
static void move(reading *r, int where) {
    lent *all[] = {&r->state, &r->packet, &r->collecting};
    for (int k = 0; k < 3; k++) {
        lent moved = lend(all[k]->length, where);
        memcpy(moved.bytes, all[k]->bytes, moved.length);
        CHECK(beside_untouched(all[k]));
        take_back(all[k]);
        *all[k] = moved;
    }
}

/* The call of an operand lent alone. */
static uint8_t give(reading *r, int letter, const uint8_t *operand, size_t length) {
    lent data = lend(length, AT_END);
    memcpy(data.bytes, operand, length);
    uint8_t refused =
        letter == 'F' ? ixohuemil_frame(words(&r->state), WORDS, data.bytes, length)
                      : ixohuemil_slot(words(&r->state), WORDS, r->packet.bytes, r->packet.length, r->collecting.bytes,
                                       r->collecting.length, data.bytes, length);
    CHECK(memcmp(data.bytes, operand, length) == 0);
    take_back(&data);
    return refused;
}

/* The call of the command at `at`; the refusal, or 255 at the capture's end. */
static uint8_t command(reading *r, const uint8_t *capture, size_t length, size_t *at) {
    if (*at >= length) return 255;
    int letter = capture[(*at)++];
    size_t operand = letter == 'F' ? IXOHUEMIL_BLOCK_BYTES : 0;
    if (letter == 'S' && *at + 2 <= length) operand = 2 + number(capture + *at, 2);
    if (memchr("FXSL", letter, 4) == NULL || *at + operand > length || (letter == 'S' && operand < 2)) return 255;
    const uint8_t *from = capture + *at;
    *at += operand;
    if (letter == 'F') return give(r, 'F', from, operand);
    uint8_t refused = letter == 'S'   ? give(r, 'S', from + 2, operand - 2)
                      : letter == 'X' ? ixohuemil_lost_frame(words(&r->state), WORDS)
                                      : ixohuemil_lost_slot(words(&r->state), WORDS, r->packet.bytes, r->packet.length,
                                                            r->collecting.bytes, r->collecting.length);
    return refused ? refused : read_events(r);
}

/* Starts a reading by C; the refusal. */
static uint8_t start(reading *r, const uint8_t *c, size_t events_words, int where) {
    lent settings = lend(sizeof(ixohuemil_settings), where);
    uint64_t *to = words(&settings);
    memset(to, 0, settings.length);
    to[0] = number(c, 2), to[1] = number(c + 2, 2), to[2] = c[4], to[3] = number(c + 37, 4);
    for (int k = 0; k < 16; k++) to[4 + k] = number(c + 5 + 2 * k, 2);
    uint64_t collecting = to[2] * to[3] <= COLLECTING ? to[2] * to[3] : COLLECTING;
    r->state = lend(8 * WORDS, where);
    r->packet = lend(IXOHUEMIL_PACKET_BYTES, where);
    r->collecting = lend(collecting, where);
    r->events = lend(8 * (events_words ? events_words : IXOHUEMIL_EVENT_WORDS), where);
    r->events_words = events_words;
    uint8_t refused = ixohuemil_start((void *)settings.bytes, IXOHUEMIL_SETTINGS_WORDS, words(&r->state), WORDS);
    take_back(&settings);
    return refused;
}

/* Reads a capture whole; what it gave, with the refusal behind it. */
static reading read_capture(const uint8_t *capture, size_t length, size_t events_words, int where) {
    reading r;
    memset(&r, 0, sizeof r);
    uint8_t refused = start(&r, capture + 1, events_words, where);
    size_t at = 42;
    for (int calls = 1; refused == 0; calls++) {
        refused = command(&r, capture, length, &at);
        if (calls % 50 == 0) move(&r, where);
    }
    append(&r, &refused, 1);
    lent *all[] = {&r.state, &r.packet, &r.collecting, &r.events};
    for (int k = 0; k < 4; k++) CHECK(beside_untouched(all[k]));
    return r;
}

static void leave(reading *r) {
    take_back(&r->state), take_back(&r->packet), take_back(&r->collecting), take_back(&r->events);
    free(r->given);
}

/* Reads a file's capture in every way; how many bytes each gave. */
static size_t compare(const uint8_t *capture, size_t length) {
    static const size_t ways[] = {24, 25, 47, 48, 71, 24 * MOST_EVENTS, 24 * MOST_EVENTS + 23};
    reading by_next = read_capture(capture, length, 0, AT_END);
    for (size_t k = 0; k < sizeof ways / sizeof *ways; k++) {
        reading other = read_capture(capture, length, ways[k], k % 2 ? AT_START : AT_END);
        CHECK(other.given_length == by_next.given_length);
        CHECK(memcmp(other.given, by_next.given, by_next.given_length) == 0);
        CHECK(memcmp(other.state.bytes, by_next.state.bytes, by_next.state.length) == 0);
        CHECK(memcmp(other.packet.bytes, by_next.packet.bytes, by_next.packet.length) == 0);
        CHECK(memcmp(other.collecting.bytes, by_next.collecting.bytes, by_next.collecting.length) == 0);
        leave(&other);
    }
    size_t given = by_next.given_length;
    leave(&by_next);
    return given;
}

int main(int count, char **names) {
    size_t given = 0, room = 1 << 24;
    uint8_t *capture = malloc(room);
    for (int k = 1; k < count; k++) {
        FILE *file = fopen(names[k], "rb");
        size_t length = file && capture ? fread(capture, 1, room, file) : 0;
        if (file) fclose(file);
        CHECK(file != NULL && length < room);
        if (length >= 42 && capture[0] == 'C') given += compare(capture, length);
    }
    free(capture);
    CHECK(given > 1000);
    return end_of_checks("ways");
}
