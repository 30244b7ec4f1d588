/* Prints the units and notes of a capture on standard input, line for line as tlv_capture(1) does. */
#include <inttypes.h>
#include <ixohuemil.h>
#include <stdio.h>

#define N " %" PRIu64 /* a space and a number */
enum { WORDS = IXOHUEMIL_STATE_WORDS, BLOCK = IXOHUEMIL_BLOCK_BYTES, ROOM = 64, ENDS = -1 };
static uint64_t state[WORDS], frames, slot, units, notes;
static uint8_t packet[IXOHUEMIL_PACKET_BYTES], collecting[IXOHUEMIL_CAPTURE_COLLECTING], data[65535];

/* Reads a command's operands to `data`; 0 where the capture is cut short. */
static int get(size_t length) { return fread(data, 1, length, stdin) == length; }
static uint64_t number(int from, int to) { return from == to ? 0 : number(from, to - 1) << 8 | data[to - 1]; }

static uint8_t start(void) {
    ixohuemil_settings settings = {0};
    settings.stream_id = number(0, 2), settings.cid = number(2, 4), settings.n = data[4], settings.limit = number(37, 41);
    for (int k = 0; k < IXOHUEMIL_MOST_PACKET_IDS; k++) settings.packet_ids[k] = number(5 + 2 * k, 7 + 2 * k);
    return ixohuemil_start(&settings, IXOHUEMIL_SETTINGS_WORDS, state, WORDS);
}

static void print(const ixohuemil_event *e) {
    printf("%" PRIu64 N, frames, slot);
    if (e->what == IXOHUEMIL_UNIT)
        printf(" unit" N N N N N "\n", e->packet_id, e->kind, e->psn, e->mpu, e->length);
    else if (e->note < IXOHUEMIL_NOTE_PAYLOAD) printf(" note" N " -\n", e->note);
    else printf(" note" N N "\n", e->note, e->packet_id);
    *(e->what == IXOHUEMIL_UNIT ? &units : &notes) += 1;
}

static uint8_t read_events(void) {
    ixohuemil_event events[ROOM];
    for (uint64_t count = ROOM; count > 0;) {
        uint8_t refused = ixohuemil_events(state, WORDS, packet, sizeof packet, collecting, sizeof collecting, events,
                                           ROOM * IXOHUEMIL_EVENT_WORDS, &count);
        if (refused) return refused;
        for (uint64_t k = 0; k < count; k++) print(&events[k]);
    }
    return IXOHUEMIL_ACCEPTED;
}

static int command(int letter) {
    int refused = ENDS, length;
    if (letter == 'F' && get(BLOCK)) refused = ixohuemil_frame(state, WORDS, data, BLOCK);
    if (letter == 'X') refused = ixohuemil_lost_frame(state, WORDS);
    if (letter == 'L') refused = ixohuemil_lost_slot(state, WORDS, packet, sizeof packet, collecting, sizeof collecting);
    if (letter == 'S' && get(2) && get(length = number(0, 2)))
        refused = ixohuemil_slot(state, WORDS, packet, sizeof packet, collecting, sizeof collecting, data, length);
    if (refused) return refused;
    slot = letter == 'F' || letter == 'X' ? frames++, 0 : slot + 1;
    return letter == 'F' ? IXOHUEMIL_ACCEPTED : read_events();
}

int main(void) {
    int refused = getchar() == 'C' && get(41) ? start() : ENDS;
    while (refused == IXOHUEMIL_ACCEPTED) refused = command(getchar());
    if (refused != ENDS) printf("refused %d\n", refused);
    printf("end" N N N "\n", frames, units, notes);
}
