// The circuits, and the commands on them.

// By which circuit a slot hears: none, a pair with the other slot, a member at its port, or a tone.
typedef struct { enum { NOTHING, PAIR, MEMBER, TONED } kind; Slot other; } Circuit;

static Circuit circuits[EXTERNAL][PLACES];
static uint32_t ports[BRIDGES]; // those taken
static uint32_t taken[EXTERNAL]; // the slots that a circuit names or a leg of a call holds
static uint32_t held[EXTERNAL]; // those that a leg holds

// The slots that hear a tone, and the octet of it for the next frame, the end and the first one.
static uint32_t toned[EXTERNAL];
static Lines toned_on;
static struct { const uint8_t *next, *end, *first; } tone_at[EXTERNAL][PLACES];

static Circuit *circuit(Slot x) { return &circuits[x.line][x.place]; }
static int is_in(const uint32_t *slots, Slot x) { return slots[x.line] >> x.place & 1; }
static void add(uint32_t *slots, Slot x) { slots[x.line] |= 1u << x.place; }
static void take_out(uint32_t *slots, Slot x) { slots[x.line] &= ~(1u << x.place); }

static void hear(Slot x, uint32_t from) {
    heard_from[x.line][x.place] = from;
    mark(x.line, 1u << x.place);
}

// Two slots without a circuit hear each other. Writes how many paths were moved for each way.
static void pair(Slot x, Slot y) {
    *circuit(x) = (Circuit){ PAIR, y };
    *circuit(y) = (Circuit){ PAIR, x };
    hear(x, frame_number + 2);
    hear(y, frame_number + 2);
    unsigned there = connect(x, y), back = connect(y, x);
    put_numbers(there, back);
}

static int has_port(void) {
    uint32_t all = ALL_SLOTS;
    for (unsigned b = 0; b < bridges; b++) all &= ports[b];
    return bridges && all != ALL_SLOTS;
}

// A slot without a circuit sits in a room; a port is free. Writes how many paths were moved for each way.
static void sit(Slot x, uint8_t room) {
    unsigned b = 0;
    while (ports[b] == ALL_SLOTS) b++;
    Slot port = { external + b, __builtin_ctz(~ports[b]) };
    ports[b] |= 1u << port.place;
    room_at[b][port.place] = room;
    *circuit(x) = (Circuit){ MEMBER, port };
    hear(x, frame_number + 2);
    hear(port, frame_number + 2);
    unsigned there = connect(x, port), back = connect(port, x);
    put_numbers(there, back);
}

// A slot without a circuit hears a tone from the next frame on, where the trace gives it; answers whether.
static int sound(Slot x, ToneKind kind) {
    if (!tones[kind].length) return 0;
    circuit(x)->kind = TONED;
    add(toned, x);
    toned_on |= (Lines)1 << x.line;
    const uint8_t *first = tones[kind].octets;
    tone_at[x.line][x.place].next = tone_at[x.line][x.place].first = first;
    tone_at[x.line][x.place].end = first + tones[kind].length;
    return 1;
}

// Takes away what names the slot.
static void clear(Slot x) {
    Circuit c = *circuit(x);
    circuit(x)->kind = NOTHING;
    if (c.kind == TONED) {
        take_out(toned, x);
        if (!toned[x.line]) toned_on &= ~((Lines)1 << x.line);
    } else if (c.kind) {
        disconnect(x);
        disconnect(c.other);
        hear(x, NEVER);
        hear(c.other, NEVER);
        if (c.kind == PAIR) {
            circuit(c.other)->kind = NOTHING;
        } else {
            ports[c.other.line - external] &= ~(1u << c.other.place);
            room_at[c.other.line - external][c.other.place] = NO_ROOM;
        }
    }
}

static void nail(Slot x, Slot y) {
    if (is_in(taken, x) || is_in(taken, y)) {
        put(" busy");
        return;
    }
    add(taken, x);
    add(taken, y);
    put(" granted ");
    pair(x, y);
}

static void seat(Slot x, uint8_t room) {
    if (is_in(taken, x)) {
        put(" busy");
    } else if (!has_port()) {
        put(" noport");
    } else {
        add(taken, x);
        put(" seated ");
        sit(x, room);
    }
}

static void free_slot(Slot x) {
    if (!is_in(taken, x) || is_in(held, x)) {
        put(" notnailed");
        return;
    }
    take_out(taken, x);
    if (circuit(x)->kind == PAIR) take_out(taken, circuit(x)->other);
    clear(x);
    put(" freed");
}
