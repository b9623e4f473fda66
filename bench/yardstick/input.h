// Standard input, a part at a time.

enum {
    PART = 1 << 18, // octets that are read at once, unless a line is longer
    PADDING = 64, // zeros behind them
    MOST_BYTES = 1 << 26,
};

// Lines that were read, and the beginning of one more.
typedef struct { uint8_t *bytes; size_t length, room; } Input;

static size_t input_length; // octets of all parts so far
static unsigned line_number; // the line of the trace that is read

// An input that is too long is refused as such, whatever else its lines have.
static _Noreturn void refuse(const char *why) {
    static uint8_t rest[1 << 16];
    for (ssize_t n; input_length <= MOST_BYTES && (n = read(0, rest, sizeof rest)) > 0;) input_length += n;
    if (input_length > MOST_BYTES) printf("refused 0 limit\n");
    else printf("refused %u %s\n", line_number, why);
    exit(1);
}

static void make_room(Input *in) {
    in->room = in->room ? 2 * in->room : PART;
    in->bytes = realloc(in->bytes, in->room + PADDING);
    if (!in->bytes) exit(5);
}

// Reads on behind the last `rest` octets, which come to the beginning. Answers how many octets were read.
static size_t read_on(Input *in, size_t rest) {
    if (in->length) memmove(in->bytes, in->bytes + in->length - rest, rest);
    if (rest == in->room) make_room(in);
    ssize_t n = read(0, in->bytes + rest, in->room - rest);
    if (n < 0) n = 0;
    in->length = rest + n;
    memset(in->bytes + in->length, 0, PADDING);
    input_length += n;
    if (input_length > MOST_BYTES) refuse("limit");
    return n;
}

// Where the last line ends that is among the newest octets, or the first octet if none does.
static const uint8_t *last_end(const Input *in, size_t newest) {
    const uint8_t *p = in->bytes + in->length, *from = p - newest;
    while (p > from && p[-1] != '\n') p--;
    return p > from ? p : in->bytes;
}
