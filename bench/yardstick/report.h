// The report.

static uint8_t out[PIECE + 16384]; // a frame's line has at most 32 * 64 characters of octets, its numbers, and 64 messages
static size_t out_len;

static void flush(void) {
    for (size_t done = 0; done < out_len;) {
        ssize_t n = write(1, out + done, out_len - done);
        if (n <= 0) exit(4);
        done += n;
    }
    out_len = 0;
}

// The length of the text is known where this is used, so that the compiler writes it whole.
#define put(text) put_text(text, sizeof text - 1)

static inline void put_text(const char *text, size_t length) {
    memcpy(out + out_len, text, length);
    out_len += length;
}

// Two digits for each number below 100.
static const char two_digits[] =
    "0001020304050607080910111213141516171819"
    "2021222324252627282930313233343536373839"
    "4041424344454647484950515253545556575859"
    "6061626364656667686970717273747576777879"
    "8081828384858687888990919293949596979899";

// A number from 10 on.
static __attribute__((noinline)) void put_long(unsigned n) {
    if (n >= 1000) put_long(n / 100);
    else if (n >= 100) out[out_len++] = '0' + n / 100;
    put_text(two_digits + 2 * (n % 100), 2);
}

static inline void put_number(unsigned n) {
    if (n < 10) out[out_len++] = '0' + n;
    else put_long(n);
}

// A number that goes up by one at a time, by its digits.
typedef struct { char digits[8]; unsigned length; } Counter;

static void count_up(Counter *c) {
    unsigned k = c->length;
    while (k && c->digits[k - 1] == '9') c->digits[--k] = '0';
    if (!k) {
        c->digits[c->length++] = '0';
        c->digits[k++] = '0';
    }
    c->digits[k - 1]++;
}

static inline void put_counter(const Counter *c) {
    memcpy(out + out_len, c->digits, sizeof c->digits);
    out_len += c->length;
}

// A space, a line's number and a colon.
static struct { char text[4]; unsigned length; } prefixes[EXTERNAL];

static void make_prefixes(void) {
    for (unsigned line = 0; line < EXTERNAL; line++) {
        char *text = prefixes[line].text;
        *text++ = ' ';
        if (line >= 10) *text++ = '0' + line / 10;
        *text++ = '0' + line % 10;
        *text++ = ':';
        prefixes[line].length = text - prefixes[line].text;
    }
}

static inline void put_prefix(unsigned line) {
    memcpy(out + out_len, prefixes[line].text, sizeof prefixes[line].text);
    out_len += prefixes[line].length;
}

static void put_numbers(unsigned a, unsigned b) {
    put_number(a);
    put(" ");
    put_number(b);
}

// The digits of each octet, and of an idle row.
static uint8_t octet_digits[256][2];
static char idle_digits[2 * PLACES];

static void make_digits(void) {
    static const char digits[] = "0123456789ABCDEF";
    for (int octet = 0; octet < 256; octet++) {
        octet_digits[octet][0] = digits[octet >> 4];
        octet_digits[octet][1] = digits[octet & 15];
    }
    for (int k = 0; k < PLACES; k++) memcpy(idle_digits + 2 * k, octet_digits[IDLE], 2);
}

// The digits of a few octets.
static inline void put_few(const uint8_t *octets, size_t length) {
    uint8_t *to = out + out_len;
    for (size_t k = 0; k < length; k++) memcpy(to + 2 * k, octet_digits[octets[k]], 2);
    out_len += 2 * length;
}

static inline void put_octet(uint8_t octet) { put_few(&octet, 1); }

// The digits of a whole row: of the idle octets behind its thirty they are written over.
static void put_octets(const uint8_t *octets) {
    uint8_t *digits = out + out_len, halves[2 * CELLS];
    uint16_t pairs[CELLS];
    for (int k = 0; k < CELLS; k++) pairs[k] = (octets[k] >> 4 | octets[k] << 8) & 0x0F0F;
    memcpy(halves, pairs, sizeof halves);
    for (int k = 0; k < 2 * CELLS; k++) digits[k] = halves[k] + '0' + (halves[k] > 9 ? 'A' - '9' - 1 : 0);
    out_len += 2 * PLACES;
}
