// The sizes of the exchange, and what all parts share.
enum {
    PLACES = 30, // places of a line
    CELLS = 32, // of a row: a power of two that has room for thirty and the idle one
    STRICT_SLOTS = 59, // internal slots of a line on which no path ever moves
    STRICT_CELLS = 64, // of a row of internal slots
    EXTERNAL = 32, // the most external lines, and bridge lines
    BRIDGES = 2,
    LINES = EXTERNAL + BRIDGES,
    ROOMS = 64,
    TONE = 8000, // the most octets of a tone, and of a message
    MESSAGE = 260,
    IDLE = 0xD5,
    MOST_EVENTS = 65535,
    MOST_CHANGES = 65535,
    PIECE = 1 << 16,
    // Entries of tables that name nothing: a cell, an internal slot, a line and a room that are there, and count for
    // nothing.
    NO_CELL = PLACES,
    NO_SLOT = STRICT_CELLS - 1,
    NO_LINE = LINES,
    NO_ROOM = ROOMS,
};
#define ALL_SLOTS ((1u << PLACES) - 1)
#define NEVER UINT32_MAX

typedef struct { uint8_t line, place; } Slot;
typedef uint8_t Row[CELLS]; // thirty octets or entries, and two idle ones behind them
typedef uint64_t Lines; // a bit for each of some lines

static unsigned slots = PLACES; // internal slots of a line
typedef uint8_t SlotRow[STRICT_CELLS]; // octets or entries, and idle ones behind them

static const uint8_t idle_row[STRICT_CELLS] = {
    IDLE, IDLE, IDLE, IDLE, IDLE, IDLE, IDLE, IDLE, IDLE, IDLE, IDLE, IDLE, IDLE, IDLE, IDLE, IDLE,
    IDLE, IDLE, IDLE, IDLE, IDLE, IDLE, IDLE, IDLE, IDLE, IDLE, IDLE, IDLE, IDLE, IDLE, IDLE, IDLE,
    IDLE, IDLE, IDLE, IDLE, IDLE, IDLE, IDLE, IDLE, IDLE, IDLE, IDLE, IDLE, IDLE, IDLE, IDLE, IDLE,
    IDLE, IDLE, IDLE, IDLE, IDLE, IDLE, IDLE, IDLE, IDLE, IDLE, IDLE, IDLE, IDLE, IDLE, IDLE, IDLE,
};
static unsigned external, bridges, lines;
static uint32_t frame_number; // of the next frame

static Lines below(unsigned n) { return ((Lines)1 << n) - 1; }

// Takes the first of some lines from them.
static unsigned next_line(Lines *some) {
    unsigned line = __builtin_ctzll(*some);
    *some &= *some - 1;
    return line;
}
