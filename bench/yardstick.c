// The same job by hand: a trace of nails, seats, frees, messages, data links, restarts and frames on standard input, its
// report on standard output. It has the same tables as the proved exchange, so that it is a measure of the speed
// of the proved program; nothing is proved of it. It is written to be fast: rows are worked through
// whole, without a test for each octet, a frame costs what is connected and sends and not what could, and each leg
// of a call, slot and number is found in a table. It is one program in parts, compiled as one. With the word
// `--strict` its lines have 59 internal slots in place of 30, and no path is ever moved. With `--meters ON SPARE`, up to
// nine of each, it has these numbers of meters in place of three and three, and at the end a line `left` and what the
// meters say that are left.
#include <stdint.h>
#include <stdio.h>
#include <stdlib.h>
#include <string.h>
#include <unistd.h>

#include "yardstick/exchange.h"
#include "yardstick/input.h"
#include "yardstick/report.h"
#include "yardstick/plan.h"
#include "yardstick/trace.h"
#include "yardstick/fabric.h"
#include "yardstick/circuits.h"
#include "yardstick/speech.h"
#include "yardstick/messages.h"
#include "yardstick/meters.h"
#include "yardstick/calls.h"
#include "yardstick/expiries.h"

static void start(void) {
    for (unsigned k = 0; k < 2 * LINES; k++) {
        End *e = &ends[k / LINES][k % LINES];
        memset(e->place, NO_CELL, sizeof e->place);
        memset(e->other, NO_LINE, sizeof e->other);
        memset(e->slot, NO_SLOT, sizeof e->slot);
        e->line = k % LINES;
    }
    memset(heard_from, 0xFF, sizeof heard_from);
    memset(room_at, NO_ROOM, sizeof room_at);
    memset(crossed_by, NO_SLOT, sizeof crossed_by);
    memset(read_from, NO_SLOT, sizeof read_from);
    memset(read_at, NO_CELL, sizeof read_at);
    memset(halves, IDLE, sizeof halves);
    memset(highways, IDLE, sizeof highways);
    memset(crossed, IDLE, sizeof crossed);
    memset(due_in, 0xFF, sizeof due_in);
    memset(none_before, 0xFF, sizeof none_before);
    make_prefixes();
    make_digits();
    if (!bridges) return;
    for (int octet = 0; octet < 256; octet++) linear[octet] = expand(octet);
    for (int v = -MOST; v <= MOST; v++) codes[v + MOST] = compress(v);
}

// The arguments; 2 where they are others.
static int read_arguments(int count, char **words, int *says_left) {
    unsigned on = 3, spare = 3;
    for (int k = 1; k < count; k++) {
        if (k == 1 && !strcmp(words[k], "run")) {
            continue;
        } else if (!strcmp(words[k], "--strict")) {
            slots = STRICT_SLOTS;
        } else if (!strcmp(words[k], "--meters") && k + 2 < count) {
            on = atoi(words[++k]);
            spare = atoi(words[++k]);
            *says_left = 1;
        } else {
            return 2;
        }
    }
    if (on > MOST_METERS / 2 || spare > MOST_METERS / 2) return 2;
    start_meters(on, spare);
    return 0;
}

int main(int count, char **words) {
    int says_left = 0;
    if (read_arguments(count, words, &says_left)) return 2;
    read_trace();
    start();
    change_at(0);
    Counter number = { "1", 1 }; // of the event
    for (size_t i = 0; i < event_count; i++) {
        const Event *e = &events[i];
        put_counter(&number);
        count_up(&number);
        switch (e->kind) {
        case NAIL: nail(e->x, e->y); break;
        case SEAT: seat(e->x, e->room); break;
        case FREE: free_slot(e->x); break;
        case SIGNAL: message(e->x.line, messages + e->first, e->length); break;
        case UP: link_up(e->x.line); break;
        case DOWN: link_down(e->x.line); break;
        case RENEW: restart_line(e->x.line); break;
        case FRAME: expire(frame(e)); break;
        }
        put("\n");
        change_at(i + 1);
        if (out_len >= PIECE) flush();
    }
    if (says_left) say_left();
    flush();
    return 0;
}
