// The meters: what they note of the calls that ended, what they say, and their changes.

typedef struct {
    Slot caller, called;
    uint8_t to_room, room, answered, cause;
    uint32_t from, to;
} Call;

typedef enum { CALL_DETAIL, PEG_COUNT, HOLDING_TIME } MeterKind;

enum { MOST_METERS = 18, DETAILS = 10 }; // the most calls that details are kept of

// Of call details the ring of the last calls, and how many came; of a peg count the calls and the answered
// ones; of the holding time the sum and the longest, which stay below 2 to the 32nd, since so few events come.
typedef struct {
    MeterKind kind;
    Call ring[DETAILS];
    uint32_t first, second;
} Meter;

// They are on and spare in this order: a change takes out the first one that is on, and puts in the one behind
// the last. So those that are on are always next to each other.
static Meter meters[MOST_METERS];
static unsigned meter_count, first_on, first_spare;

// Numbers of meters that are on and spare. The kinds of each are call details, a peg count and the holding time, in turn.
static void start_meters(unsigned on, unsigned spare) {
    for (unsigned k = 0; k < on + spare; k++) meters[k].kind = (k < on ? k : k - on) % 3;
    meter_count = on + spare;
    first_spare = on;
}

static void note_on(Meter *m, const Call *call) {
    uint32_t held = call->to - call->from;
    switch (m->kind) {
    case CALL_DETAIL:
        m->ring[m->first++ % DETAILS] = *call;
        break;
    case PEG_COUNT:
        m->first++;
        m->second += call->answered;
        break;
    case HOLDING_TIME:
        m->first += held;
        if (held > m->second) m->second = held;
        break;
    }
}

static void note(const Call *call) {
    for (unsigned k = first_on; k < first_spare; k++) note_on(&meters[k], call);
}

static void put_slot(Slot x) {
    put_number(x.line);
    put("/");
    put_number(x.place + (x.place < 15 ? 1 : 2));
}

static void put_call(const Call *call) {
    put("call ");
    put_slot(call->caller);
    put(" ");
    if (call->to_room) {
        put("room ");
        put_number(call->room);
    } else {
        put_slot(call->called);
    }
    put(" ");
    put_numbers(call->from, call->to);
    put(" ");
    put_number(call->cause);
    put("\n");
}

static void put_registers(const Meter *m) {
    put_numbers(m->first, m->second);
    put("\n");
}

static void say(const Meter *m) {
    switch (m->kind) {
    case CALL_DETAIL:
        for (uint32_t n = m->first < DETAILS ? 0 : m->first - DETAILS; n < m->first; n++) put_call(&m->ring[n % DETAILS]);
        break;
    case PEG_COUNT:
        put("peg ");
        put_registers(m);
        break;
    case HOLDING_TIME:
        put("holding ");
        put_registers(m);
        break;
    }
}

// Not a part of the loop over the events, most of which have no change behind them.
static __attribute__((noinline)) void change(void) {
    if (first_on < first_spare) say(&meters[first_on++]);
    if (first_spare < meter_count) first_spare++;
    if (out_len >= PIECE) flush();
}

// The changes that come behind this many events; those behind fewer were made.
static inline void change_at(uint32_t events_done) {
    static uint32_t made;
    while (changes[made] == events_done) {
        made++;
        change();
    }
}

// What the meters say that are left, first those that are on.
static void say_left(void) {
    put("left\n");
    for (unsigned k = first_on; k < meter_count; k++) say(&meters[k]);
}
