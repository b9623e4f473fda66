// The live paths, by which a frame goes.

// The paths at a line that is one end of them. By its internal slot, a path's place here and the line at its other end;
// by its place, its slot; and the slots that are taken, which are a row of Paull's matrix at an incoming line, and a
// column at an outgoing one. A slot that is free has NO_CELL and NO_LINE, and a place without a path NO_SLOT.
typedef struct {
    SlotRow place, other;
    Row slot;
    uint64_t taken;
    unsigned line;
} End;

enum { INCOMING, OUTGOING };
static End ends[2][LINES], *const incoming = ends[INCOMING], *const outgoing = ends[OUTGOING];
static Lines from_on, to_on; // the lines that have a path

// The first frame in which the circuit of each slot is heard, and the room of each port.
static uint32_t heard_from[LINES][CELLS];
static Row room_at[BRIDGES];

// The slots that a change before a frame concerns, for the next frame and the two before it, and their lines.
enum { CHANGES = 4 };
static uint32_t changed[CHANGES][LINES];
static Lines changed_on[CHANGES];

static void mark(unsigned line, uint32_t places) {
    changed[frame_number % CHANGES][line] |= places;
    changed_on[frame_number % CHANGES] |= (Lines)1 << line;
}

static void add_end(End *e, unsigned slot, unsigned place, unsigned other) {
    e->taken |= 1ull << slot;
    e->place[slot] = place;
    e->other[slot] = other;
    e->slot[place] = slot;
}

static void remove_end(End *e, unsigned slot) {
    e->taken &= ~(1ull << slot);
    e->slot[e->place[slot]] = NO_SLOT;
    e->place[slot] = NO_CELL;
    e->other[slot] = NO_LINE;
}

static void lay(Slot from, Slot to, unsigned slot) {
    add_end(&incoming[from.line], slot, from.place, to.line);
    add_end(&outgoing[to.line], slot, to.place, from.line);
    from_on |= (Lines)1 << from.line;
    to_on |= (Lines)1 << to.line;
    mark(to.line, 1u << to.place);
}

// Takes away the path from a slot.
static void disconnect(Slot from) {
    unsigned i = from.line, slot = incoming[i].slot[from.place], j = incoming[i].other[slot];
    mark(j, 1u << outgoing[j].place[slot]);
    remove_end(&incoming[i], slot);
    remove_end(&outgoing[j], slot);
    if (!incoming[i].taken) from_on &= ~((Lines)1 << i);
    if (!outgoing[j].taken) to_on &= ~((Lines)1 << j);
}

// A chain of paths, by the lines that it leads to from the first one on, which is an end of it. It leaves an outgoing line
// in slot a and an incoming one in slot b.
typedef struct { unsigned first, paths; End *end[2 * LINES]; } Chain; // `first` is INCOMING or OUTGOING

static inline unsigned which_end(const Chain *c, unsigned k) { return c->first ^ (k & 1); }

// Goes on by a path, if there is one; answers whether.
static inline int walk(Chain *c, unsigned a, unsigned b) {
    unsigned which = which_end(c, c->paths), slot = which == OUTGOING ? a : b;
    const End *e = c->end[c->paths];
    if (!(e->taken >> slot & 1)) return 0;
    c->end[++c->paths] = &ends[!which][e->other[slot]];
    return 1;
}

// What is in slot a comes into slot b, and the other way round; answers which places it has.
static inline uint32_t swap_slots(End *e, unsigned a, unsigned b) {
    uint8_t place_a = e->place[a], place_b = e->place[b], other = e->other[a];
    e->other[a] = e->other[b];
    e->other[b] = other;
    e->place[a] = place_b;
    e->place[b] = place_a;
    e->slot[place_a] = b; // also for NO_CELL, which counts for nothing
    e->slot[place_b] = a;
    return 1u << place_a | 1u << place_b;
}

// Exchanges two slots on a chain. Its first and its last line have one of them taken, and those between have both.
static void move_paths(const Chain *c, unsigned a, unsigned b) {
    for (unsigned k = 0; k <= c->paths; k++) {
        uint32_t places = swap_slots(c->end[k], a, b);
        if (which_end(c, k) == OUTGOING) mark(c->end[k]->line, places);
    }
    c->end[0]->taken ^= 1ull << a | 1ull << b;
    c->end[c->paths]->taken ^= 1ull << a | 1ull << b;
}

// Makes room for a path from line i, which leaves a free, to line j, which leaves b free, where no slot is
// free in both. The chain that starts with the path to line j in a exchanges a and b, and frees a; or that
// which starts with the path from line i in b, where it is shorter, and frees b. Answers the freed slot, and
// how many paths moved.
static unsigned exchange(unsigned i, unsigned j, unsigned a, unsigned b, unsigned *moved) {
    Chain to, from;
    to.first = OUTGOING, to.paths = 0, to.end[0] = &outgoing[j];
    from.first = INCOMING, from.paths = 0, from.end[0] = &incoming[i];
    while (walk(&to, a, b) && walk(&from, a, b)) {}
    const Chain *chain = from.paths < to.paths ? &from : &to;
    move_paths(chain, a, b);
    *moved = chain->paths;
    return chain == &to ? a : b;
}

// Lays a path, and answers how many were moved for it.
static unsigned connect(Slot from, Slot to) {
    uint64_t taken_from = incoming[from.line].taken, taken_to = outgoing[to.line].taken;
    uint64_t common = below(slots) & ~(taken_from | taken_to);
    unsigned moved = 0, slot;
    if (common) slot = __builtin_ctzll(common);
    else slot = exchange(from.line, to.line, __builtin_ctzll(~taken_from), __builtin_ctzll(~taken_to), &moved);
    lay(from, to, slot);
    return moved;
}
