// What is done in the turn of a frame for the legs that have waited too long.

static void give_up(Slot x) {
    Leg l = *leg(x);
    remove_leg(x);
    put_to(x, &l, RELEASE_COMPLETE);
    put_cause(TIMER_EXPIRY);
}

// The slot isn't cleared: a tone that is heard goes on.
static void ask_for_release(Slot x) {
    size_t from = out_len;
    enter(x, RELEASE_REQUEST);
    put_to(x, leg(x), RELEASE);
    put_cause(leg(x)->cause);
    keep(x, from);
}

static void clear_other(Leg l, uint8_t cause) {
    if (l.peer != LEG) return;
    put(" send");
    clear_leg(l.other, cause);
}

// The called user doesn't answer: the record and the caller get this cause.
static void clear_both(Slot x, uint8_t cause) {
    Leg l = *leg(x);
    end_call(x, cause);
    clear_leg(x, TIMER_EXPIRY);
    clear_other(l, cause);
}

static void run_out(Slot x) {
    Leg l = *leg(x);
    if (l.state == RELEASE_REQUEST && l.resent) {
        remove_leg(x);
        add(down >> x.line & 1 ? owed : unconfirmed, x);
        return;
    }
    if (l.state == ACTIVE) {
        end_call(x, OUT_OF_ORDER);
        remove_leg(x);
        add(owed, x);
        clear_other(l, OUT_OF_ORDER);
        return;
    }
    put(" send");
    switch (l.state) {
    case OVERLAP_SENDING: clear_leg(x, INVALID_NUMBER); break;
    case DISCONNECT_INDICATION: ask_for_release(x); break;
    case INCOMING_PROCEEDING: clear_both(x, NO_USER_RESPONDING); break;
    case RECEIVED: clear_both(x, NO_ANSWER); break;
    default:
        if (l.resent) {
            end_call(x, NO_USER_RESPONDING);
            give_up(x);
            clear_other(l, NO_USER_RESPONDING);
        } else {
            send_again(x);
        }
    }
}

static uint32_t first_due(unsigned place) {
    uint32_t first = NEVER;
    for (unsigned line = 0; line < EXTERNAL; line++)
        if (due_in[place][line] < first) first = due_in[place][line];
    return first;
}

// Behind a frame, whose octets begin here in the report: what is sent is reported before them. What a slot hears
// belongs to the world before, so they are written first.
static void expire(size_t octets) {
    static uint8_t said[EXTERNAL * 2 * CELLS];
    uint32_t f = frame_number - 1;
    unsigned place = f % PLACES;
    if (none_before[place] > f) return;
    size_t length = out_len - octets;
    memcpy(said, out + octets, length);
    out_len = octets;
    for (unsigned line = 0; line < external; line++)
        if (due_in[place][line] <= f) run_out((Slot){ line, place });
    none_before[place] = first_due(place);
    put_text((const char *)said, length);
}
