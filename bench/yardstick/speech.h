// What is heard in a frame.

// In a frame one half of the speech memory is crossed and the other is filled.
static Row halves[2][LINES];
static uint8_t highways[STRICT_SLOTS][LINES + 1]; // by internal slot, and by incoming line or NO_LINE
static SlotRow crossed[LINES];
static Lines sent_on[2], highways_on, crossed_to; // the lines of these that may not be idle
static uint64_t loud[LINES]; // the octets of crossed rows that may not be idle

// What is read out: for each place its internal slot, where its circuit is heard, and the places and lines that have one;
// for each port in a room where its member is read, if it is heard, and where the room's mix goes. It follows `crossed_by`,
// the slots of the places when the octets were crossed. A change alters it in its own frame and in the two behind that.
static Row crossed_by[LINES], read_from[LINES];
static SlotRow read_at[LINES]; // for each internal slot the place that hears it
static uint32_t hearing[LINES];
static Lines heard_on;
static struct { uint16_t from, to; int16_t heard; uint8_t room; } members[BRIDGES * PLACES]; // two octets by their offsets
static unsigned member_count;

enum { FEW = 10 }; // octets of a row that are written one by one
enum { MOST = 4095 }; // the greatest magnitude
static int16_t linear[256];
static uint8_t codes[2 * MOST + 1];

static int32_t expand(uint8_t octet) {
    uint8_t code = octet ^ 0x55;
    int segment = code >> 4 & 7, low = 2 * (code & 15) + 1;
    int32_t middle = segment ? (low + 32) << (segment - 1) : low;
    return code & 0x80 ? middle : -middle;
}

static uint8_t compress(int32_t v) {
    int32_t magnitude = v < 0 ? -v : v;
    int segment = magnitude < 32 ? 0 : 27 - __builtin_clz(magnitude);
    int interval = magnitude >> (segment ? segment : 1) & 15;
    return (uint8_t)((v < 0 ? 0 : 0x80) | segment << 4 | interval) ^ 0x55;
}

static void find_heard_at(unsigned line, unsigned place) {
    uint8_t last = read_from[line][place];
    uint8_t slot = heard_from[line][place] <= frame_number ? crossed_by[line][place] : NO_SLOT;
    if (read_at[line][last] == place) read_at[line][last] = NO_CELL;
    read_from[line][place] = slot;
    read_at[line][slot] = place;
    if (slot == NO_SLOT) hearing[line] &= ~(1u << place);
    else hearing[line] |= 1u << place;
}

// Which places of these lines hear what was crossed in the frame before.
static void find_heard(Lines some) {
    const uint32_t *now = changed[frame_number % CHANGES];
    const uint32_t *last = changed[(frame_number - 1) % CHANGES], *before = changed[(frame_number - 2) % CHANGES];
    while (some) {
        unsigned line = next_line(&some);
        for (uint32_t left = now[line] | last[line] | before[line]; left; left &= left - 1)
            find_heard_at(line, __builtin_ctz(left));
        heard_on &= ~((Lines)1 << line);
        heard_on |= (Lines)(hearing[line] != 0) << line;
    }
}

static void find_members(Row *filling) {
    member_count = 0;
    for (unsigned b = 0; b < bridges; b++) {
        unsigned line = external + b;
        memcpy(filling[line], idle_row, sizeof(Row));
        for (int k = 0; k < PLACES; k++) {
            if (room_at[b][k] == NO_ROOM) continue;
            members[member_count].from = line * sizeof(SlotRow) + read_from[line][k];
            members[member_count].to = line * sizeof(Row) + k;
            members[member_count].heard = heard_from[line][k] <= frame_number ? -1 : 0;
            members[member_count++].room = room_at[b][k];
        }
    }
}

// Each member's port gets the sum of the others in its room: the room's total without itself.
static void mix(Row *filling) {
    int32_t totals[ROOMS] = { 0 }, own[BRIDGES * PLACES];
    const uint8_t *from = (const uint8_t *)crossed;
    uint8_t *to = (uint8_t *)filling;
    for (unsigned m = 0; m < member_count; m++) {
        own[m] = linear[from[members[m].from]] & members[m].heard;
        totals[members[m].room] += own[m];
    }
    for (unsigned m = 0; m < member_count; m++) {
        int32_t others = totals[members[m].room] - own[m];
        others = others > MOST ? MOST : others < -MOST ? -MOST : others;
        to[members[m].to] = codes[others + MOST];
    }
}

// The first stage: into the internal slots of incoming lines.
static inline void fill_highways(Row *filled, Lines speaking, const unsigned slots) {
    while (speaking) {
        unsigned i = next_line(&speaking);
        const uint8_t *restrict from = filled[i], *restrict in = incoming[i].place;
        for (unsigned s = 0; s < slots; s++) highways[s][i] = from[in[s]];
    }
}

static void silence_highways(Lines some) {
    while (some) {
        unsigned i = next_line(&some);
        for (unsigned s = 0; s < STRICT_SLOTS; s++) highways[s][i] = IDLE;
    }
}

static void silence(unsigned line) {
    memcpy(crossed[line], idle_row, sizeof(SlotRow));
    loud[line] = 0;
}

// The second stage: across to the outgoing lines.
static inline void cross_all(const unsigned slots) {
    for (Lines some = crossed_to & ~to_on; some;) silence(next_line(&some));
    for (Lines some = to_on; some;) {
        unsigned j = next_line(&some);
        const uint8_t *restrict by = outgoing[j].other;
        uint8_t *restrict to = crossed[j];
        for (unsigned s = 0; s < slots; s++) to[s] = highways[s][by[s]];
        loud[j] = outgoing[j].taken;
    }
    crossed_to = to_on;
}

// The same for few lines that send, path by path.
static void cross_few(Lines speaking) {
    for (Lines some = crossed_to; some;) silence(next_line(&some));
    crossed_to = 0;
    while (speaking) {
        unsigned i = next_line(&speaking);
        for (uint64_t left = incoming[i].taken; left; left &= left - 1) {
            unsigned s = __builtin_ctzll(left), j = incoming[i].other[s];
            crossed[j][s] = highways[s][i];
            loud[j] |= 1ull << s;
            crossed_to |= (Lines)1 << j;
        }
    }
}

// Few lines send if all lines that are sent to are at least twice as many. Otherwise the highways of lines that send
// nothing count too. The loops have a fixed length.
static void cross(Row *filled, Lines sent) {
    Lines speaking = from_on & sent;
    if (slots == PLACES) fill_highways(filled, speaking, PLACES);
    else fill_highways(filled, speaking, STRICT_SLOTS);
    highways_on |= speaking;
    if (2 * __builtin_popcountll(speaking) <= __builtin_popcountll(to_on)) {
        cross_few(speaking);
        return;
    }
    silence_highways(highways_on & ~speaking);
    highways_on = speaking;
    if (slots == PLACES) cross_all(PLACES);
    else cross_all(STRICT_SLOTS);
}

// The octets of the tones that are heard on a line.
static void put_tones(unsigned line, uint8_t *heard) {
    for (uint32_t left = toned[line]; left; left &= left - 1) {
        unsigned place = __builtin_ctz(left);
        const uint8_t *next = tone_at[line][place].next;
        heard[place] = *next++;
        tone_at[line][place].next = next == tone_at[line][place].end ? tone_at[line][place].first : next;
    }
}

// Writes a row of which few octets may not be idle, if one is not.
static void send_few(unsigned line) {
    uint8_t some = 0;
    size_t from = out_len;
    put_prefix(line);
    put_text(idle_digits, sizeof idle_digits);
    uint8_t *digits = out + out_len - 2 * PLACES;
    for (uint64_t left = loud[line]; left; left &= left - 1) {
        unsigned slot = __builtin_ctzll(left), place = read_at[line][slot];
        uint8_t octet = crossed[line][slot];
        memcpy(digits + 2 * place, octet_digits[octet], 2); // NO_CELL is behind the row
        some |= place == NO_CELL ? 0 : octet ^ IDLE;
    }
    if (!some) out_len = from;
}

// Writes a row if an octet of it is not idle.
static void send_all(unsigned line) {
    const uint8_t *restrict from = crossed[line], *restrict by = read_from[line];
    Row heard;
    for (int k = 0; k < PLACES; k++) heard[k] = from[by[k]];
    memcpy(heard + PLACES, idle_row, CELLS - PLACES);
    if (__builtin_expect(toned[line] != 0, 0)) put_tones(line, heard); // in most traces none rings
    if (!memcmp(heard, idle_row, sizeof heard)) return;
    put_prefix(line);
    put_octets(heard);
}

// What each external line sends.
static void send(void) {
    for (Lines some = ((heard_on & crossed_to) | toned_on) & below(external); some;) {
        unsigned line = next_line(&some);
        if (!toned[line] && __builtin_popcountll(loud[line]) <= FEW) send_few(line);
        else send_all(line);
    }
}

// What is read out follows the changes, and then the slots by which this frame is crossed.
static void follow_changes(Row *filling) {
    unsigned now = frame_number % CHANGES;
    Lines some = changed_on[now] | changed_on[(frame_number - 1) % CHANGES] | changed_on[(frame_number - 2) % CHANGES];
    if (!some) return;
    find_heard(some);
    if (some >> external) find_members(filling);
    for (some = changed_on[now]; some;) {
        unsigned line = next_line(&some);
        memcpy(crossed_by[line], outgoing[line].slot, sizeof(Row));
    }
}

// Forgets the oldest changes, in whose place those come that the next frame is the first to see.
static void forget_changes(void) {
    unsigned next = (frame_number + 1) % CHANGES;
    while (changed_on[next]) changed[next][next_line(&changed_on[next])] = 0;
}

// Fills a half of the speech memory with the rows of a frame. Ports that have a member are never idle.
static void fill(Row *filling, Lines *sent, const Event *e) {
    Lines given = member_count ? below(lines) & ~below(external) : 0;
    for (const Given *from = rows + e->first, *end = from + e->length; from < end; from++) {
        memcpy(filling[from->line], from->octets, sizeof(Row));
        given |= (Lines)1 << from->line;
    }
    for (Lines idle = *sent & ~given; idle;) memcpy(filling[next_line(&idle)], idle_row, sizeof(Row));
    *sent = given;
}

static Counter frame_digits = { "0", 1 }; // of the next frame

// Answers where in the report the octets of the frame begin.
static size_t frame(const Event *e) {
    unsigned now = frame_number & 1;
    put(" frame ");
    put_counter(&frame_digits);
    size_t octets = out_len;
    follow_changes(halves[now]);
    send();
    if (member_count) mix(halves[now]);
    cross(halves[!now], sent_on[!now]);
    fill(halves[now], &sent_on[now], e);
    forget_changes();
    frame_number++;
    count_up(&frame_digits);
    return octets;
}
