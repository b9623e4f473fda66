// The number plan: a tree with a branch for each digit. No number begins another, so each ends at a leaf.

enum { MOST_NUMBERS = 256, MOST_DIGITS = 20 };

typedef enum { NO_NUMBER, MORE, TO_LINES, TO_ROOM } Found;

typedef struct {
    uint16_t next[10]; // 0 where there is no branch: none leads to the root
    uint8_t found, target; // a room, or which list of lines
} Node;

// The list of lines of each number, in order; its last line is marked.
enum { LAST_LINE = 0x80 };
static uint8_t listed[MOST_NUMBERS][EXTERNAL];

static Node nodes[(MOST_NUMBERS + 1) * MOST_DIGITS + 1]; // the root is an inner node once there is a number
static unsigned node_count = 1, number_count;

// Digits are characters here, and values from 0 to 9 where a number is looked for.
static void add_number(const uint8_t *digits, size_t length, Found found, uint8_t target) {
    Node *node = nodes;
    int new = 0;
    for (size_t k = 0; k < length; k++) {
        uint16_t *next = &node->next[digits[k] - '0'];
        if (node->found > MORE) refuse("prefix");
        node->found = MORE;
        new = !*next;
        if (new) *next = node_count++;
        node = &nodes[*next];
    }
    if (!new) refuse("prefix");
    if (number_count++ == MOST_NUMBERS) refuse("limit");
    node->found = found;
    node->target = target;
}

static const Node *look(const uint8_t *digits, size_t length) {
    static const Node none = { .found = NO_NUMBER };
    const Node *node = nodes;
    for (size_t k = 0; k < length && node->found <= MORE; k++) {
        unsigned next = node->next[digits[k]];
        if (!next) return &none;
        node = &nodes[next];
    }
    return node;
}
