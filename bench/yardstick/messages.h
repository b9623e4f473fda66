// Messages of Q.931, read from the trace and written into the report.

typedef enum {
    ALERTING = 0x01, CALL_PROCEEDING = 0x02, PROGRESS = 0x03, SETUP = 0x05, CONNECT = 0x07,
    SETUP_ACKNOWLEDGE = 0x0D, CONNECT_ACKNOWLEDGE = 0x0F, USER_INFORMATION = 0x20, DISCONNECT = 0x45,
    RESTART = 0x46, RELEASE = 0x4D, RESTART_ACKNOWLEDGE = 0x4E, RELEASE_COMPLETE = 0x5A, FACILITY = 0x62,
    NOTIFY = 0x6E, STATUS_ENQUIRY = 0x75, INFORMATION = 0x7B, STATUS = 0x7D,
} Type;

typedef enum {
    BEARER = 0x04, CAUSE = 0x08, CALL_STATE = 0x14, CHANNEL = 0x18, PROGRESS_INDICATOR = 0x1E,
    CALLING_NUMBER = 0x6C, CALLED_NUMBER = 0x70, RESTART_INDICATOR = 0x79, LOW_LAYER = 0x7C,
    HIGH_LAYER = 0x7D, SENDING_COMPLETE = 0xA1,
} Code;

typedef enum {
    UNALLOCATED = 1, NORMAL_CLEARING = 16, USER_BUSY = 17, NO_USER_RESPONDING = 18, NO_ANSWER = 19, OUT_OF_ORDER = 27,
    INVALID_NUMBER = 28, TO_ENQUIRY = 30, UNSPECIFIED = 31, NO_CHANNEL = 34, TEMPORARY_FAILURE = 41, CONGESTION = 42, CHANNEL_NOT_AVAILABLE = 44,
    BEARER_NOT_IMPLEMENTED = 65, INVALID_REFERENCE = 81, ELEMENT_MISSING = 96, UNKNOWN_TYPE = 97,
    INVALID_CONTENTS = 100, WRONG_STATE = 101, TIMER_EXPIRY = 102,
} Cause;

// The elements that aren't looked at yet are from `at` up to `end`; Sending complete may be among the others.
typedef struct {
    uint8_t type, flag, complete;
    uint16_t reference;
    const uint8_t *at, *end;
} Message;

typedef struct { uint8_t code, length; const uint8_t *at; } Element; // `at` is NULL where there is none

static int read_message(Message *m, const uint8_t *octets, unsigned length) {
    if (length < 5 || octets[0] != 0x08 || octets[1] != 0x02) return 0;
    m->flag = octets[2] >> 7;
    m->reference = (octets[2] & 0x7F) << 8 | octets[3];
    m->type = octets[4];
    m->complete = 0;
    m->at = octets + 5;
    m->end = octets + length;
    return 1;
}

// The next element that has contents and that no shift hides. A locking shift hides all that is left, and
// a non-locking one the item behind it.
static Element next_element(Message *m) {
    const uint8_t *p = m->at;
    int hidden = 0;
    while (p < m->end) {
        uint8_t code = *p++;
        if (code & 0x80) {
            if (!hidden && (code & 0xF8) == 0x90) break;
            m->complete |= !hidden && code == SENDING_COMPLETE;
            hidden = !hidden && (code & 0xF8) == 0x98;
            continue;
        }
        if (p == m->end || *p >= m->end - p) break;
        Element e = { code, p[0], p + 1 };
        p += 1 + e.length;
        if (!hidden) {
            m->at = p;
            return e;
        }
        hidden = 0;
    }
    m->at = m->end;
    return (Element){ 0, 0, NULL };
}

static Element find(Message m, Code code) {
    Element e;
    do e = next_element(&m); while (e.at && e.code != code);
    return e;
}

static uint8_t cause_in(Message m) {
    Element e = find(m, CAUSE);
    unsigned at = e.length && !(e.at[0] & 0x80) ? 2 : 1;
    return at < e.length ? e.at[at] & 0x7F : NORMAL_CLEARING;
}

// A channel that is named is kept as its place.
typedef struct { enum { NONE_NAMED, ANY, PREFERRED, EXCLUSIVE, INVALID } kind; uint8_t place; } Channel;

static Channel channel_in(Element e) {
    if (!e.at) return (Channel){ NONE_NAMED, 0 };
    if (e.length && e.at[0] == 0xA3) return (Channel){ ANY, 0 };
    if (e.length != 3 || (e.at[0] != 0xA9 && e.at[0] != 0xA1) || e.at[1] != 0x83) return (Channel){ INVALID, 0 };
    unsigned channel = e.at[2] & 0x7F;
    if (channel < 1 || channel > 31 || channel == 16) return (Channel){ INVALID, 0 };
    return (Channel){ e.at[0] == 0xA9 ? EXCLUSIVE : PREFERRED, channel < 16 ? channel - 1 : channel - 2 };
}

static int is_known(uint8_t type) {
    switch (type) {
    case ALERTING: case CALL_PROCEEDING: case PROGRESS: case SETUP: case CONNECT: case SETUP_ACKNOWLEDGE:
    case CONNECT_ACKNOWLEDGE: case USER_INFORMATION: case DISCONNECT: case RESTART: case RELEASE:
    case RESTART_ACKNOWLEDGE: case RELEASE_COMPLETE: case FACILITY: case NOTIFY: case STATUS_ENQUIRY:
    case INFORMATION: case STATUS: return 1;
    default: return 0;
    }
}

static void put_message(unsigned line, unsigned flag, uint16_t reference, Type type) {
    put_prefix(line);
    put("0802");
    put_few((uint8_t[]){ flag << 7 | reference >> 8, reference, type }, 3);
}

static void put_element(Code code, const uint8_t *octets, unsigned length) {
    put_few((uint8_t[]){ code, length }, 2);
    put_few(octets, length);
}

static void put_channel(uint8_t place) {
    put("1803A983");
    put_octet(0x80 + place + (place < 15 ? 1 : 2));
}

static void put_cause(Cause cause) {
    put("080282");
    put_octet(0x80 + cause);
}

static void put_state(uint8_t state) {
    put("1401");
    put_octet(state);
}

static void put_progress(void) { put("1E028288"); }
