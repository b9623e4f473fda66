// The reader of traces. It ends the program at the first line that fails.

typedef enum { NAIL, SEAT, FREE, FRAME, SIGNAL, UP, DOWN, RENEW } Kind;

// A frame has `length` rows from `first` on; a message has as many octets from there on.
typedef struct {
    uint8_t kind, room;
    Slot x, y;
    uint16_t length;
    uint32_t first;
} Event;

typedef struct { Row octets; uint8_t line; } Given; // a row of a frame, which has none for a line that is idle

enum { MOST_WORDS = EXTERNAL + 4 }; // one more than a number's line can have, so that too many are seen
typedef struct { const uint8_t *at, *end; } Word;

typedef enum { RINGBACK, BUSY } ToneKind;
typedef struct { uint8_t octets[TONE]; unsigned length; } Tone; // no octets: it isn't given

// How many frames a leg may wait in a state; a timer that isn't given has the usual value.
enum { T301, T302, T303, T305, T308, T309, T310, TIMERS };
static uint32_t timers[TIMERS] = { 1440000, 120000, 32000, 240000, 32000, 48000, 80000 };

static Tone tones[2];
static Event events[MOST_EVENTS];
static uint32_t changes[MOST_CHANGES + 1]; // of meters: how many events come before each, and NEVER behind the last
static Given *rows;
static uint8_t *messages;
static size_t event_count, change_count, row_count, row_room, message_count, message_room;

// A number without leading zeros, up to `stop` or else the end; -1 where there is none.
static int number(Word *word, uint8_t stop) {
    const uint8_t *p = word->at;
    int n = 0;
    if (p == word->end || *p < '0' || *p > '9') return -1;
    while (p < word->end && *p >= '0' && *p <= '9' && p - word->at < 9) n = n * 10 + (*p++ - '0');
    if (*word->at == '0' && p - word->at > 1) return -1;
    if (stop ? p == word->end || *p != stop : p != word->end) return -1;
    word->at = p + (stop != 0);
    return n;
}

static Slot slot(Word word) {
    int line = number(&word, '/');
    if (line < 0 || line >= (int)external) refuse("slot");
    int channel = number(&word, 0);
    if (channel < 1 || channel > 31 || channel == 16) refuse("slot");
    return (Slot){ line, channel < 16 ? channel - 1 : channel - 2 };
}

static unsigned line_of(Word word) {
    int line = number(&word, 0);
    if (line < 0 || line >= (int)external) refuse("slot");
    return line;
}

static unsigned room_of(Word word) {
    int room = number(&word, 0);
    if (room < 0 || room >= ROOMS) refuse("number");
    return room;
}

// The length of the text is known where this is used, so that the compiler writes the comparison.
#define is(word, text) \
    ((word).end - (word).at == sizeof text - 1 && !memcmp((word).at, text, sizeof text - 1))

static void append(Event event) {
    if (event_count == MOST_EVENTS) refuse("limit");
    events[event_count++] = event;
}

static void read_header(Word *words, size_t count) {
    if (count != 5 || !is(words[0], "exchange") || !is(words[1], "1")) refuse("header");
    int e = number(&words[2], 0), b = number(&words[3], 0), p = number(&words[4], 0);
    if (e < 1 || e > EXTERNAL || b < 0 || b > BRIDGES || p < 1 || p > 8) refuse("header");
    external = e;
    bridges = b;
    lines = e + b;
}

static void read_command(Kind kind, Word *words, size_t count) {
    Event e = { .kind = kind };
    if (count != (kind == FREE ? 2 : 3)) refuse("word");
    e.x = slot(words[1]);
    if (kind == NAIL) {
        e.y = slot(words[2]);
        if (e.x.line == e.y.line && e.x.place == e.y.place) refuse("slot");
    } else if (kind == SEAT) {
        e.room = room_of(words[2]);
    }
    append(e);
}

// The thirty octets that sixty digits write, and two idle ones; answers whether all of these are digits.
static int read_octets(uint8_t *octets, const uint8_t *digits) {
    uint8_t value[2 * CELLS] = { [2 * PLACES] = 'D', '5', 'D', '5' }, bad = 0;
    uint16_t pairs[CELLS];
    memcpy(value, digits, 2 * PLACES);
    for (int k = 0; k < 2 * CELLS; k++) {
        uint8_t digit = value[k], decimal = digit - '0', letter = (digit | 0x20) - 'a';
        bad |= (decimal > 9) & (letter > 5);
        value[k] = (digit & 15) + (decimal > 9 ? 9 : 0);
    }
    memcpy(pairs, value, sizeof pairs);
    for (int k = 0; k < CELLS; k++) octets[k] = pairs[k] << 4 | pairs[k] >> 8;
    return !bad;
}

static const uint8_t one_more_than_value[256] = {
    ['0'] = 1, 2, 3, 4, 5, 6, 7, 8, 9, 10, ['A'] = 11, 12, 13, 14, 15, 16, ['a'] = 11, 12, 13, 14, 15, 16,
};

// The value of a digit, above 15 where it is none.
static unsigned digit_value(uint8_t c) { return one_more_than_value[c] - 1u; }

// By two digits, as one number of their characters, the octet that they write and 256; 0 for other characters.
static uint16_t hex_pairs[1 << 16];

static inline unsigned hex_pair(const uint8_t *p) {
    uint16_t pair;
    memcpy(&pair, p, sizeof pair);
    return hex_pairs[pair];
}

static void make_hex_pairs(void) {
    static const char digits[] = "0123456789ABCDEFabcdef";
    for (const char *high = digits; *high; high++) {
        for (const char *low = digits; *low; low++) {
            uint16_t pair;
            memcpy(&pair, (char[]){ *high, *low }, sizeof pair);
            hex_pairs[pair] = 256 | digit_value(*high) << 4 | digit_value(*low);
        }
    }
}

// The octets that a word's digits write, at most n; answers how many they are.
static unsigned read_hex(Word word, uint8_t *octets, size_t most) {
    size_t count = word.end - word.at;
    unsigned bad = count % 2;
    for (const uint8_t *d = word.at; d < word.end; d++) bad |= digit_value(*d) >> 4;
    if (bad) refuse("hex");
    if (count < 2 || count > 2 * most) refuse("length");
    for (const uint8_t *d = word.at; d < word.end; d += 2) *octets++ = digit_value(d[0]) << 4 | digit_value(d[1]);
    return count / 2;
}

// Room for the rows of one more frame.
static Given *new_rows(void) {
    if (row_count + external > row_room) {
        row_room = row_room ? 2 * row_room : 1 << 13;
        rows = realloc(rows, row_room * sizeof *rows);
        if (!rows) exit(5);
    }
    return rows + row_count;
}

// A frame whose rows were read.
static void append_frame(unsigned count) {
    append((Event){ .kind = FRAME, .first = row_count, .length = count });
    row_count += count;
}

// Most lines are plain: they have single spaces and no fault. read_plain() and the functions that it calls read such a
// line, and answer where the next one begins. For any other line they answer NULL, and read_line() reads it word by word.
// They never pass the zeros behind a part of the trace.

// A number of one or two digits without a leading zero; too great where there is none.
static inline const uint8_t *read_plain_number(const uint8_t *p, unsigned *n) {
    unsigned first = p[0] - '0', second = p[1] - '0';
    int two = first - 1 < 9 && second < 10;
    *n = two ? first * 10 + second : first;
    return p + 1 + two;
}

static const uint8_t *read_plain_frame(const uint8_t *p) {
    Given *new = new_rows();
    Lines given = 0;
    unsigned count = 0, line;
    for (p++; *p == ' '; p += 2 * PLACES) {
        p = read_plain_number(p + 1, &line);
        if (*p++ != ':' || line >= external || given >> line & 1 || !read_octets(new[count].octets, p)) return NULL;
        new[count++].line = line;
        given |= (Lines)1 << line;
    }
    if (*p != '\n') return NULL;
    append_frame(count);
    return p + 1;
}

static inline const uint8_t *read_plain_slot(const uint8_t *p, Slot *x) {
    unsigned line, channel;
    p = read_plain_number(p, &line);
    if (line >= external || *p != '/') return NULL;
    p = read_plain_number(p + 1, &channel);
    if (channel - 1 > 30 || channel == 16) return NULL;
    *x = (Slot){ line, channel < 16 ? channel - 1 : channel - 2 };
    return p;
}

static const uint8_t *read_plain_nail(const uint8_t *p) {
    Event e = { .kind = NAIL };
    if (memcmp(p, "nail ", 5) || !(p = read_plain_slot(p + 5, &e.x)) || *p != ' ') return NULL;
    if (!(p = read_plain_slot(p + 1, &e.y)) || *p != '\n') return NULL;
    if (e.x.line == e.y.line && e.x.place == e.y.place) return NULL;
    append(e);
    return p + 1;
}

static const uint8_t *read_plain_free(const uint8_t *p) {
    Event e = { .kind = FREE };
    if (memcmp(p, "free ", 5) || !(p = read_plain_slot(p + 5, &e.x)) || *p != '\n') return NULL;
    append(e);
    return p + 1;
}

static void read_part(Word word, Given *new, Lines *given) {
    int line = number(&word, ':');
    if (line < 0 || line >= (int)external || *given >> line & 1) refuse("slot");
    memcpy(new->octets, idle_row, sizeof(Row));
    if (read_hex(word, new->octets, PLACES) != PLACES) refuse("length");
    new->line = line;
    *given |= (Lines)1 << line;
}

static void read_frame(Word *words, size_t count) {
    Given *new = new_rows();
    Lines given = 0;
    for (size_t i = 1; i < count; i++) read_part(words[i], new + i - 1, &given);
    append_frame(count - 1);
}

// The lines of a number, each once.
static void read_list(const Word *words, size_t count, uint8_t *list) {
    Lines given = 0;
    for (size_t i = 0; i < count; i++) {
        unsigned line = line_of(words[i]);
        if (given >> line & 1) refuse("slot");
        given |= (Lines)1 << line;
        list[i] = line | (i + 1 == count ? LAST_LINE : 0);
    }
}

static void read_number(Word *words, size_t count) {
    if (event_count || count < 4 || (count > 4 && !is(words[2], "lines"))) refuse("word");
    size_t length = words[1].end - words[1].at;
    if (length > MOST_DIGITS) refuse("number");
    for (const uint8_t *d = words[1].at; d < words[1].end; d++)
        if (*d < '0' || *d > '9') refuse("number");
    if (is(words[2], "room")) {
        add_number(words[1].at, length, TO_ROOM, room_of(words[3]));
    } else if (is(words[2], "line") || is(words[2], "lines")) {
        uint8_t list[EXTERNAL];
        read_list(words + 3, count - 3, list);
        add_number(words[1].at, length, TO_LINES, number_count);
        memcpy(listed[number_count - 1], list, count - 3);
    } else {
        refuse("word");
    }
}

static void read_tone(Word *words, size_t count) {
    if (event_count || count != 3) refuse("word");
    int busy = is(words[1], "busy");
    if (!busy && !is(words[1], "ringback")) refuse("word");
    Tone *tone = &tones[busy ? BUSY : RINGBACK];
    if (tone->length) refuse("word");
    tone->length = read_hex(words[2], tone->octets, TONE);
}

static void read_timer(Word *words, size_t count) {
    static int given[TIMERS];
    if (event_count || count != 3) refuse("word");
    int timer = is(words[1], "T301") ? T301 : is(words[1], "T302") ? T302 : is(words[1], "T303") ? T303
        : is(words[1], "T305") ? T305 : is(words[1], "T308") ? T308 : is(words[1], "T309") ? T309
        : is(words[1], "T310") ? T310 : TIMERS;
    if (timer == TIMERS || given[timer]) refuse("word");
    given[timer] = 1;
    int frames = number(&words[2], 0);
    if (frames < 1) refuse("number");
    timers[timer] = frames;
}

// Room for the octets of one more message.
static uint8_t *new_octets(void) {
    if (message_count + MESSAGE > message_room) {
        message_room = message_room ? 2 * message_room : 1 << 18;
        messages = realloc(messages, message_room);
        if (!messages) exit(5);
    }
    return messages + message_count;
}

static void append_message(unsigned line, unsigned length) {
    append((Event){ .kind = SIGNAL, .x.line = line, .length = length, .first = message_count });
    message_count += length;
}

static const uint8_t *read_plain_message(const uint8_t *p) {
    uint8_t *octets = new_octets();
    unsigned length = 0, line;
    if (p[1] != ' ') return NULL;
    p = read_plain_number(p + 2, &line);
    if (line >= external || *p++ != ' ') return NULL;
    for (unsigned octet; length < MESSAGE && (octet = hex_pair(p)); p += 2) octets[length++] = octet;
    if (!length || *p != '\n') return NULL;
    append_message(line, length);
    return p + 1;
}

static const uint8_t *read_plain(const uint8_t *p) {
    if (!memcmp(p, "sync\n", 5)) return p + 5;
    switch (*p) {
    case 'F': return read_plain_frame(p);
    case 'M': return read_plain_message(p);
    case 'n': return read_plain_nail(p);
    case 'f': return read_plain_free(p);
    default: return NULL;
    }
}

static void read_message_line(Word *words, size_t count) {
    if (count != 2 && count != 3) refuse("word");
    unsigned line = line_of(words[1]);
    append_message(line, count == 3 ? read_hex(words[2], new_octets(), MESSAGE) : 0);
}

static void read_link(Kind kind, Word *words, size_t count) {
    if (count != 2) refuse("word");
    append((Event){ .kind = kind, .x.line = line_of(words[1]) });
}

static void read_words(Word *words, size_t count) {
    if (!external) {
        read_header(words, count);
    } else if (is(words[0], "sync")) {
        if (count != 1) refuse("word");
    } else if (is(words[0], "change")) {
        if (count != 1) refuse("word");
        if (change_count == MOST_CHANGES) refuse("limit");
        changes[change_count++] = event_count;
    } else if (is(words[0], "F")) {
        read_frame(words, count);
    } else if (is(words[0], "nail")) {
        read_command(NAIL, words, count);
    } else if (is(words[0], "seat")) {
        read_command(SEAT, words, count);
    } else if (is(words[0], "free")) {
        read_command(FREE, words, count);
    } else if (is(words[0], "M")) {
        read_message_line(words, count);
    } else if (is(words[0], "up")) {
        read_link(UP, words, count);
    } else if (is(words[0], "down")) {
        read_link(DOWN, words, count);
    } else if (is(words[0], "restart")) {
        read_link(RENEW, words, count);
    } else if (is(words[0], "number")) {
        read_number(words, count);
    } else if (is(words[0], "tone")) {
        read_tone(words, count);
    } else if (is(words[0], "timer")) {
        read_timer(words, count);
    } else {
        refuse("word");
    }
}

// Reads a line word by word, and answers where the next one begins.
static const uint8_t *read_line(const uint8_t *p, const uint8_t *end) {
    Word words[MOST_WORDS];
    size_t count = 0;
    if (*p == '#') {
        p = memchr(p, '\n', end - p);
        return p ? p + 1 : end;
    }
    while (count < MOST_WORDS) {
        while (p < end && *p == ' ') p++;
        if (p == end || *p == '\n') break;
        words[count].at = p;
        for (; p < end && *p != ' ' && *p != '\n'; p++)
            if (*p < 0x20 || *p > 0x7E) refuse(external ? "word" : "header");
        words[count++].end = p;
    }
    if (count) read_words(words, count);
    return p + (p < end);
}

static void read_trace(void) {
    Input in = { 0 };
    size_t rest = 0, newest;
    make_hex_pairs();
    do {
        newest = read_on(&in, rest);
        const uint8_t *p = in.bytes, *end = newest ? last_end(&in, newest) : p + in.length;
        rest = in.bytes + in.length - end;
        while (p < end) {
            line_number++;
            const uint8_t *next = external ? read_plain(p) : NULL;
            p = next ? next : read_line(p, end);
        }
    } while (newest);
    line_number++;
    if (!external) refuse("header");
    changes[change_count] = NEVER;
    free(in.bytes);
}
