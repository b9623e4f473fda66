// Calls: their legs, and what each message does to them.

typedef enum {
    NULL_STATE = 0, OVERLAP_SENDING = 2, OUTGOING_PROCEEDING = 3, DELIVERED = 4, PRESENT = 6, RECEIVED = 7, INCOMING_PROCEEDING = 9,
    ACTIVE = 10, DISCONNECT_INDICATION = 12, RELEASE_REQUEST = 19,
} State;

// A leg holds a slot of its line. The reference of a called leg was chosen here, a caller's by the
// user; `other` is the slot of the other leg, where that is the peer. A leg has the cause with which it was cleared,
// may wait, and may have been sent its last message again. An active one waits where `resent` is set: its data
// link is down. Once that is up, its user is asked for its state, and may not have answered yet.
typedef struct {
    uint8_t state, called;
    enum { ALONE, LEG, ROOM } peer;
    uint16_t reference;
    Slot other;
    uint8_t cause, resent, asked;
} Leg;

static Leg legs[EXTERNAL][PLACES];

// By its reference, one more than the place of a leg, 0 where there is none; and the references that
// called legs have, from 1 on. These never have more than thirty, which are the lowest.
static uint8_t caller_at[EXTERNAL][1 << 15], called_at[EXTERNAL][PLACES + 1];
static uint32_t references[EXTERNAL];

static uint32_t down; // the lines whose data links are down

// The places of each line whose users are owed a RESTART, since nothing was sent when their legs were removed, and those
// whose users have not acknowledged one, or left RELEASE without a reply. They count where no leg is.
static uint32_t owed[EXTERNAL], unconfirmed[EXTERNAL];

static Leg *leg(Slot x) { return &legs[x.line][x.place]; }

// The states of a caller whose call may still be noted.
#define CALLING (1u << OUTGOING_PROCEEDING | 1u << DELIVERED | 1u << ACTIVE)

// One more than the timer of a state, 0 where it has none.
static const uint8_t timer_in[RELEASE_REQUEST + 1] = {
    [OVERLAP_SENDING] = T302 + 1, [PRESENT] = T303 + 1, [INCOMING_PROCEEDING] = T310 + 1,
    [RECEIVED] = T301 + 1, [ACTIVE] = T309 + 1, [DISCONNECT_INDICATION] = T305 + 1, [RELEASE_REQUEST] = T308 + 1,
};

// The frame in which each leg is due, by its place and line, and one before which none at the place is.
static uint32_t due_in[PLACES][EXTERNAL], none_before[PLACES];

// The leg waits from the next frame on.
static void wait(Slot x) {
    const Leg *l = leg(x);
    unsigned timer = timer_in[l->state];
    int waits = timer && (l->state != ACTIVE || l->resent);
    uint32_t due = waits ? frame_number + timers[timer - 1] : NEVER;
    due_in[x.place][x.line] = due;
    if (due < none_before[x.place]) none_before[x.place] = due;
}

// The leg waits for the second time in its state, or an active one for its data link.
static void wait_again(Slot x) {
    leg(x)->resent = 1;
    wait(x);
}

static void enter(Slot x, State state) {
    leg(x)->state = state;
    leg(x)->resent = 0;
    wait(x);
}

// The call is answered; an active leg waits from now on if its data link is down.
static void enter_active(Slot x) {
    enter(x, ACTIVE);
    if (down >> x.line & 1) wait_again(x);
}

// What was sent last to a leg that was called, or is to release: its part of the report.
enum { MOST_KEPT = 200 };
static struct { uint8_t text[MOST_KEPT], length; } kept[EXTERNAL][PLACES];

static void keep(Slot x, size_t from) {
    kept[x.line][x.place].length = out_len - from;
    memcpy(kept[x.line][x.place].text, out + from, out_len - from);
}

static void send_again(Slot x) {
    wait_again(x);
    put_text((const char *)kept[x.line][x.place].text, kept[x.line][x.place].length);
}

static void add_leg(Slot x, Leg l) {
    *leg(x) = l;
    wait(x);
    add(taken, x);
    add(held, x);
    if (l.called) {
        called_at[x.line][l.reference] = x.place + 1;
        references[x.line] |= 1u << (l.reference - 1);
    } else {
        caller_at[x.line][l.reference] = x.place + 1;
    }
}

// The slot is cleared, and the leg is gone.
static void remove_leg(Slot x) {
    Leg *l = leg(x);
    clear(x);
    take_out(taken, x);
    take_out(held, x);
    take_out(owed, x);
    take_out(unconfirmed, x);
    if (l->called) {
        called_at[x.line][l->reference] = 0;
        references[x.line] &= ~(1u << (l->reference - 1));
    } else {
        caller_at[x.line][l->reference] = 0;
    }
    l->state = NULL_STATE;
    due_in[x.place][x.line] = NEVER;
}

static void put_to(Slot x, const Leg *l, Type type) { put_message(x.line, !l->called, l->reference, type); }

static void put_status(Slot x, Cause cause) {
    put_to(x, leg(x), STATUS);
    put_cause(cause);
    put_state(leg(x)->state);
}

// The call of a leg ends, before anything of it is cleared: it is noted, unless its clearing began before.
static void end_call(Slot x, Cause cause) {
    if (leg(x)->called && leg(x)->peer == LEG) x = leg(x)->other;
    const Leg *l = leg(x);
    if (l->called || l->peer == ALONE || !(CALLING >> l->state & 1)) return;
    Slot port = circuit(x)->other;
    note(&(Call){
        .caller = x, .called = l->other, .to_room = l->peer == ROOM, .answered = l->state == ACTIVE, .cause = cause,
        .room = l->peer == ROOM ? room_at[port.line - external][port.place] : NO_ROOM,
        .from = l->state == ACTIVE ? heard_from[x.line][x.place] - 2 : frame_number, .to = frame_number,
    });
}

static void clear_leg(Slot x, Cause cause) {
    Leg *l = leg(x);
    clear(x);
    enter(x, DISCONNECT_INDICATION);
    l->peer = ALONE;
    l->cause = cause;
    int heard = cause == USER_BUSY && sound(x, BUSY);
    put_to(x, l, DISCONNECT);
    put_cause(cause);
    if (heard) put_progress();
}

// Clears the peer of a leg that was cleared, where it is a leg.
static void clear_peer(Leg l, Cause cause) {
    if (l.peer == LEG) clear_leg(l.other, cause);
}

static void alert(Slot x) {
    Slot y = leg(x)->other;
    enter(x, RECEIVED);
    enter(y, DELIVERED);
    int heard = sound(y, RINGBACK);
    put_to(y, leg(y), ALERTING);
    if (heard) put_progress();
}

static void answer(Slot x) {
    Slot y = leg(x)->other;
    enter_active(x);
    enter_active(y);
    clear(y);
    put(" moved ");
    pair(y, x);
    put_to(x, leg(x), CONNECT_ACKNOWLEDGE);
    put_to(y, leg(y), CONNECT);
}

static void disconnect_call(Slot x, Cause cause) {
    Leg l = *leg(x);
    end_call(x, cause);
    clear(x);
    enter(x, RELEASE_REQUEST);
    leg(x)->peer = ALONE;
    size_t from = out_len;
    put_to(x, &l, RELEASE);
    keep(x, from);
    clear_peer(l, cause);
}

static void released(Slot x, Cause cause) {
    Leg l = *leg(x);
    end_call(x, cause);
    remove_leg(x);
    put_to(x, &l, RELEASE_COMPLETE);
    clear_peer(l, cause);
}

static void gone(Slot x, Cause cause) {
    Leg l = *leg(x);
    end_call(x, cause);
    remove_leg(x);
    clear_peer(l, cause);
}

// ---- SETUP

// What a SETUP says, or INFORMATION: the first elements of the codes that count, by their order in the SETUP that goes
// out.
typedef enum { BEARER_SAID, CHANNEL_SAID, CALLING_SAID, CALLED_SAID, LOW_SAID, HIGH_SAID, SAID } Said;

static const uint8_t one_more_than_said[128] = {
    [BEARER] = BEARER_SAID + 1, [CHANNEL] = CHANNEL_SAID + 1, [CALLING_NUMBER] = CALLING_SAID + 1,
    [CALLED_NUMBER] = CALLED_SAID + 1, [LOW_LAYER] = LOW_SAID + 1, [HIGH_LAYER] = HIGH_SAID + 1,
};

// Answers whether nothing more of the number comes.
static int read_said(Message m, Element said[SAID]) {
    for (Element e; (e = next_element(&m)).at;) {
        unsigned k = one_more_than_said[e.code];
        if (k && !said[k - 1].at) said[k - 1] = e;
    }
    return m.complete;
}

static Cause bearer_fault(Element e) {
    if (!e.at) return ELEMENT_MISSING;
    if (e.length < 2 || e.length > 10) return INVALID_CONTENTS;
    if (e.at[1] != 0x90 || (e.at[0] != 0x80 && e.at[0] != 0x90 && e.at[0] != 0x88)) return BEARER_NOT_IMPLEMENTED;
    return 0;
}

// Where the number leads; NULL where one of its octets is no digit.
static const Node *look_up(Element e) {
    uint8_t digits[MOST_DIGITS];
    for (unsigned k = 1; k < e.length; k++) {
        digits[k - 1] = (e.at[k] & 0x7F) - '0';
        if (digits[k - 1] > 9) return NULL;
    }
    return look(digits, e.length ? e.length - 1 : 0);
}

// The slots that a call takes, and where it goes.
typedef struct { Slot caller, called; const Node *to; } Route;

// Where the number leads, which may be on to more digits. Like the two that follow it answers why the call can't
// be, or 0.
static Cause find_target(Element number, int complete, Route *r) {
    r->to = look_up(number);
    if (!r->to) return INVALID_NUMBER;
    if (r->to->found == NO_NUMBER) return UNALLOCATED;
    return r->to->found == MORE && complete ? INVALID_NUMBER : 0;
}

static Cause find_caller(unsigned line, Channel channel, Route *r) {
    uint32_t idle = ALL_SLOTS & ~taken[line];
    int named = channel.kind >= PREFERRED && idle >> channel.place & 1;
    if (channel.kind == EXCLUSIVE && !named) return CHANNEL_NOT_AVAILABLE;
    if (!idle) return NO_CHANNEL;
    r->caller = (Slot){ line, named ? channel.place : __builtin_ctz(idle) };
    return 0;
}

// A slot or a port for a number that is whole.
static Cause find_called(Route *r) {
    if (r->to->found == MORE) return 0;
    if (r->to->found == TO_ROOM) return has_port() ? 0 : CONGESTION;
    Cause cause = OUT_OF_ORDER;
    for (const uint8_t *next = listed[r->to->target];; next++) {
        unsigned line = *next & ~LAST_LINE;
        uint32_t idle = ALL_SLOTS & ~taken[line];
        if (line == r->caller.line) idle &= ~(1u << r->caller.place);
        if (down >> line & 1) idle = 0;
        else cause = NO_CHANNEL;
        if (idle) {
            r->called = (Slot){ line, __builtin_ctz(idle) };
            return 0;
        }
        if (*next & LAST_LINE) return cause;
    }
}

static Cause find_route(unsigned line, const Element said[SAID], int complete, Route *r) {
    Cause fault = bearer_fault(said[BEARER_SAID]);
    if (fault) return fault;
    Channel channel = channel_in(said[CHANNEL_SAID]);
    if (channel.kind == INVALID) return INVALID_CONTENTS;
    Element number = said[CALLED_SAID];
    if (number.at ? !number.length || number.length > 1 + MOST_DIGITS : complete) return INVALID_NUMBER;
    if ((fault = find_target(number, complete, r))) return fault;
    if ((fault = find_caller(line, channel, r))) return fault;
    return find_called(r);
}

// What a caller in overlap sending has said: the elements of its SETUP, which stay where they are in the trace, and
// the number, which grows here.
static struct { Element said[SAID]; uint8_t number[1 + MOST_DIGITS]; } dialled[EXTERNAL][PLACES];

static void wait_for_digits(uint16_t reference, const Route *r, const Element said[SAID]) {
    Slot x = r->caller;
    Element *kept = dialled[x.line][x.place].said;
    uint8_t *number = dialled[x.line][x.place].number;
    memcpy(kept, said, SAID * sizeof *said);
    if (said[CALLED_SAID].length) memcpy(number, said[CALLED_SAID].at, said[CALLED_SAID].length);
    kept[CALLED_SAID] = (Element){ CALLED_NUMBER, said[CALLED_SAID].length, number };
    add_leg(x, (Leg){ OVERLAP_SENDING, 0, ALONE, reference, x });
    put_to(x, leg(x), SETUP_ACKNOWLEDGE);
    put_channel(x.place);
}

// The caller's leg may be there already; then its user knows the channel.
static void put_proceeding(Slot x, int is_new) {
    put_to(x, leg(x), CALL_PROCEEDING);
    if (is_new) put_channel(x.place);
}

static void call_line(uint16_t reference, const Route *r, const Element said[SAID], int is_new) {
    static const uint8_t most[SAID] = { [CALLING_SAID] = 22, [CALLED_SAID] = 21, [LOW_SAID] = 16, [HIGH_SAID] = 3 };
    Slot x = r->caller, y = r->called;
    add_leg(x, (Leg){ OUTGOING_PROCEEDING, 0, LEG, reference, y });
    add_leg(y, (Leg){ PRESENT, 1, LEG, __builtin_ctz(~references[y.line]) + 1, x });
    put_proceeding(x, is_new);
    size_t from = out_len;
    put_to(y, leg(y), SETUP);
    put_octet(SENDING_COMPLETE);
    put_element(BEARER, said[BEARER_SAID].at, said[BEARER_SAID].length);
    put_channel(y.place);
    for (Said k = CALLING_SAID; k < SAID; k++)
        if (said[k].length && said[k].length <= most[k]) put_element(said[k].code, said[k].at, said[k].length);
    keep(y, from);
}

static void call_room(uint16_t reference, const Route *r, int is_new) {
    Slot x = r->caller;
    add_leg(x, (Leg){ ACTIVE, 0, ROOM, reference, x });
    enter_active(x);
    put(" moved ");
    sit(x, r->to->target);
    put_proceeding(x, is_new);
    put_to(x, leg(x), CONNECT);
}

static void set_up(unsigned line, const Message *m) {
    Element said[SAID] = { 0 };
    Route r;
    int complete = read_said(*m, said);
    Cause fault = find_route(line, said, complete, &r);
    if (fault) {
        put_message(line, 1, m->reference, RELEASE_COMPLETE);
        put_cause(fault);
    } else if (r.to->found == MORE) {
        wait_for_digits(m->reference, &r, said);
    } else if (r.to->found == TO_ROOM) {
        call_room(m->reference, &r, 1);
    } else {
        call_line(m->reference, &r, said, 1);
    }
}

// ---- INFORMATION

// Adds a called party number to the one so far, whose type octet stays; answers whether there is room.
static int is_added(uint8_t *number, Element *so_far, Element more) {
    unsigned skipped = so_far->length > 0;
    if (!more.length || so_far->length + more.length - skipped > 1 + MOST_DIGITS) return 0;
    memcpy(number + so_far->length, more.at + skipped, more.length - skipped);
    so_far->length += more.length - skipped;
    return 1;
}

static void take_digits(Slot x, const Message *m) {
    Element *said = dialled[x.line][x.place].said, more[SAID] = { 0 };
    int complete = read_said(*m, more);
    Element part = more[CALLED_SAID];
    Route r = { .caller = x };
    Cause fault = 0;
    if (part.at && !is_added(dialled[x.line][x.place].number, &said[CALLED_SAID], part)) fault = INVALID_NUMBER;
    if (!fault) fault = find_target(said[CALLED_SAID], complete, &r);
    if (!fault) fault = find_called(&r);
    if (fault) clear_leg(x, fault);
    else if (r.to->found == TO_ROOM) call_room(leg(x)->reference, &r, 0);
    else if (r.to->found == TO_LINES) call_line(leg(x)->reference, &r, said, 0);
    else wait(x);
}

// ---- Messages to a leg

// What a user says that was asked for its state: in another one than active it has lost the call.
static void take_state(Slot x, State told) {
    Leg l = *leg(x);
    leg(x)->asked = 0;
    if (told == ACTIVE) return;
    end_call(x, WRONG_STATE);
    clear_leg(x, WRONG_STATE);
    clear_peer(l, WRONG_STATE);
}

// Answers whether the state of a leg allows the message, and then does its act.
static int is_done(Slot x, const Message *m) {
    State state = leg(x)->state;
    Element e;
    switch (m->type) {
    case PROGRESS: case NOTIFY: case FACILITY: case USER_INFORMATION: case SETUP: return 1;
    case CONNECT_ACKNOWLEDGE: return state == ACTIVE;
    case INFORMATION:
        if (state != OVERLAP_SENDING) return state == OUTGOING_PROCEEDING || state == DELIVERED || state == ACTIVE;
        take_digits(x, m);
        return 1;
    case CALL_PROCEEDING:
        if (state != PRESENT) return 0;
        enter(x, INCOMING_PROCEEDING);
        return 1;
    case ALERTING:
        if (state != PRESENT && state != INCOMING_PROCEEDING) return 0;
        alert(x);
        return 1;
    case CONNECT:
        if (state != PRESENT && state != RECEIVED && state != INCOMING_PROCEEDING) return 0;
        answer(x);
        return 1;
    case DISCONNECT:
        if (state == RELEASE_REQUEST) return 0;
        disconnect_call(x, cause_in(*m));
        return 1;
    case RELEASE:
        if (state == RELEASE_REQUEST) gone(x, cause_in(*m));
        else released(x, cause_in(*m));
        return 1;
    case RELEASE_COMPLETE: gone(x, cause_in(*m)); return 1;
    case STATUS:
        e = find(*m, CALL_STATE);
        if (e.length && (e.at[0] & 0x3F) == NULL_STATE) gone(x, TEMPORARY_FAILURE);
        else if (e.length && state == ACTIVE && leg(x)->asked) take_state(x, e.at[0] & 0x3F);
        return 1;
    case STATUS_ENQUIRY: put_status(x, TO_ENQUIRY); return 1;
    default: return 0;
    }
}

// ---- Messages that name no leg

// Removes a leg whose slot is among some of its line's. The other leg of its call is cleared, unless it is removed too.
static void restart_leg(Slot x, uint32_t slots, Cause cause) {
    Leg l = *leg(x);
    end_call(x, cause);
    remove_leg(x);
    if (l.peer != LEG) return;
    if (l.other.line != x.line || !(slots >> l.other.place & 1)) clear_leg(l.other, cause);
    else leg(l.other)->peer = ALONE; // it is removed in its turn, and the call was noted
}

// The places that a RESTART or a RESTART ACKNOWLEDGE is about: one, all, or none where its indicator or its channel is none
// that counts.
static uint32_t slots_meant(const Message *m, uint8_t indicator) {
    if (indicator == 0x86 || indicator == 0x87) return ALL_SLOTS;
    Channel channel = channel_in(find(*m, CHANNEL));
    return indicator == 0x80 && (channel.kind == PREFERRED || channel.kind == EXCLUSIVE) ? 1u << channel.place : 0;
}

static void restart(unsigned line, const Message *m, uint8_t indicator) {
    uint32_t slots = slots_meant(m, indicator);
    if (!slots) return;
    for (uint32_t left = slots & held[line]; left; left &= left - 1)
        restart_leg((Slot){ line, __builtin_ctz(left) }, slots, TEMPORARY_FAILURE);
    put_message(line, 1, 0, RESTART_ACKNOWLEDGE);
    if (indicator == 0x80) put_channel(__builtin_ctz(slots));
    put_element(RESTART_INDICATOR, &indicator, 1);
}

// A message on the global call reference: a RESTART from the side that chose it, or a RESTART ACKNOWLEDGE to that side.
// A slot that has a leg keeps what was noted of it, for when it is removed something else is noted.
static void take_global(unsigned line, const Message *m) {
    Element e = find(*m, RESTART_INDICATOR);
    uint8_t indicator = e.length ? e.at[0] : 0;
    if (m->type == RESTART && !m->flag) restart(line, m, indicator);
    if (m->type == RESTART_ACKNOWLEDGE && m->flag) unconfirmed[line] &= ~slots_meant(m, indicator);
}

static void answer_unknown(unsigned line, const Message *m) {
    Element e;
    switch (m->type) {
    case RELEASE_COMPLETE: break;
    case STATUS:
        e = find(*m, CALL_STATE);
        if (!e.length || (e.at[0] & 0x3F) == NULL_STATE) break;
        put_message(line, !m->flag, m->reference, RELEASE_COMPLETE);
        put_cause(WRONG_STATE);
        break;
    case STATUS_ENQUIRY:
        put_message(line, !m->flag, m->reference, STATUS);
        put_cause(TO_ENQUIRY);
        put_state(NULL_STATE);
        break;
    default:
        put_message(line, !m->flag, m->reference, RELEASE_COMPLETE);
        put_cause(INVALID_REFERENCE);
    }
}

static void message(unsigned line, const uint8_t *octets, unsigned length) {
    Message m;
    put(" message");
    if (!read_message(&m, octets, length)) return;
    if (!m.reference) {
        take_global(line, &m);
        return;
    }
    unsigned at = !m.flag ? caller_at[line][m.reference] : m.reference <= PLACES ? called_at[line][m.reference] : 0;
    Slot x = { line, at - 1 };
    if (at) {
        if (!is_done(x, &m)) put_status(x, is_known(m.type) ? WRONG_STATE : UNKNOWN_TYPE);
    } else if (m.type != SETUP) {
        answer_unknown(line, &m);
    } else if (!m.flag) {
        set_up(line, &m);
    }
}

// ---- Data links

static void link_down(unsigned line) {
    put(" message");
    down |= 1u << line;
    for (uint32_t left = held[line]; left; left &= left - 1) {
        Slot x = { line, __builtin_ctz(left) };
        switch (leg(x)->state) {
        case ACTIVE:
            leg(x)->asked = 0;
            if (!leg(x)->resent) wait_again(x);
            break;
        case DISCONNECT_INDICATION: case RELEASE_REQUEST: break; // their timers end them
        default:
            restart_leg(x, ALL_SLOTS, OUT_OF_ORDER);
            add(owed, x);
        }
    }
}

static void put_restart(unsigned line, const Slot *x) {
    uint8_t indicator = x ? 0x80 : 0x86;
    put_message(line, 0, 0, RESTART);
    if (x) put_channel(x->place);
    put_element(RESTART_INDICATOR, &indicator, 1);
}

// Each slot without a leg that waits for a RESTART has it now, and is not acknowledged yet.
static void link_up(unsigned line) {
    put(" message");
    uint32_t renewed = (owed[line] | unconfirmed[line]) & ~held[line];
    int whole = renewed && !held[line];
    down &= ~(1u << line);
    for (uint32_t left = held[line] | renewed; left; left &= left - 1) {
        Slot x = { line, __builtin_ctz(left) };
        if (!(held[line] >> x.place & 1)) {
            if (!whole) put_restart(line, &x);
        } else if (leg(x)->state == OVERLAP_SENDING) {
            clear_leg(x, TEMPORARY_FAILURE);
        } else if (leg(x)->state == ACTIVE) {
            enter(x, ACTIVE);
            leg(x)->asked = 1;
            put_to(x, leg(x), STATUS_ENQUIRY);
        } else if (leg(x)->state == RELEASE_REQUEST) {
            send_again(x);
        }
    }
    if (whole) put_restart(line, NULL);
    owed[line] = 0;
    unconfirmed[line] = renewed;
}

// The exchange restarts a line. While its data link is down, its user is owed the RESTART of all its channels.
static void restart_line(unsigned line) {
    put(" message");
    for (uint32_t left = held[line]; left; left &= left - 1)
        restart_leg((Slot){ line, __builtin_ctz(left) }, ALL_SLOTS, TEMPORARY_FAILURE);
    int is_down = down >> line & 1;
    owed[line] = is_down ? ALL_SLOTS : 0;
    unconfirmed[line] = is_down ? 0 : ALL_SLOTS;
    if (!is_down) put_restart(line, NULL);
}
