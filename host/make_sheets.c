/*
 * make_sheets.c: see make_sheets.h. Nothing here calls either program: what a
 * maker says must follow is worked out from document 01 alone.
 */

#include "make_sheets.h"

#include "chmurzeta.h"

#include <string.h>

/* ---- Conditions ---- */

static void leaf(struct plan_condition *c, uint32_t input)
{
    c->tag[c->nodes] = TAG_INPUT;
    c->input[c->nodes] = (uint8_t)input;
    c->nodes++;
}

static void branch(struct plan_condition *c, uint32_t tag)
{
    c->tag[c->nodes] = (uint8_t)tag;
    c->input[c->nodes] = 0;
    c->nodes++;
}

/* The most nodes that fit in a depth. */
static uint32_t fill_of(uint32_t depth)
{
    return (UINT32_C(1) << depth) - 1;
}

/*
 * Adds a condition of exactly `nodes` nodes, at most `depth` deep. With
 * `pairs` it has no NOT, so it has as many inputs as there can be; `nodes` is
 * odd then.
 */
static void grow(struct plan_condition *c, struct dice *d, uint32_t nodes, uint32_t depth, uint32_t inputs, bool pairs)
{
    if (nodes == 1) {
        leaf(c, dice_below(d, inputs));
        return;
    }
    bool turn = !pairs && nodes - 1 <= fill_of(depth - 1) && (nodes == 2 || dice_one_in(d, 4));
    if (turn) {
        branch(c, TAG_NOT);
        grow(c, d, nodes - 1, depth - 1, inputs, pairs);
        return;
    }
    branch(c, dice_one_in(d, 2) ? TAG_AND : TAG_OR);
    uint32_t both = nodes - 1;
    uint32_t fill = fill_of(depth - 1);
    uint32_t low = both > fill ? both - fill : 1;
    uint32_t high = both - 1 < fill ? both - 1 : fill;
    uint32_t left;
    switch (dice_below(d, 3)) {
    case 0:
        left = low;
        break;
    case 1:
        left = high;
        break;
    default:
        left = dice_from(d, low, high);
        break;
    }
    if (pairs && left % 2 == 0) {
        left = left < high ? left + 1 : left - 1;
    }
    grow(c, d, left, depth - 1, inputs, pairs);
    grow(c, d, both - left, depth - 1, inputs, pairs);
}

static uint32_t some_nodes(struct dice *d, uint32_t most)
{
    switch (dice_below(d, 6)) {
    case 0:
    case 1:
    case 2:
        return dice_from(d, 1, most < 4 ? most : 4);
    case 3:
        return most;
    default:
        return dice_from(d, 1, most);
    }
}

static void condition_free(struct plan_condition *c, struct dice *d, uint32_t inputs)
{
    c->nodes = 0;
    if (dice_one_in(d, 12)) {
        /* One straight line down to depth 8. */
        for (int i = 0; i < 7; i++) {
            branch(c, TAG_NOT);
        }
        leaf(c, dice_below(d, inputs));
        return;
    }
    grow(c, d, some_nodes(d, 31), 8, inputs, false);
}

static void condition_home(struct plan_condition *c)
{
    c->nodes = 0;
    branch(c, TAG_NOT);
    leaf(c, 0);
}

static void condition_gate(struct plan_condition *c, struct dice *d, uint32_t inputs)
{
    c->nodes = 0;
    if (dice_one_in(d, 3)) {
        leaf(c, 0);
        return;
    }
    branch(c, TAG_AND);
    leaf(c, 0);
    grow(c, d, some_nodes(d, 29), 7, inputs, false);
}

/* The first node of number 5, or c->nodes where there is none. */
static uint32_t first_big(const struct plan_condition *c)
{
    /* operands still to come, for each depth */
    uint32_t due[PLAN_NODES + 2] = {0};
    uint32_t depth = 1;
    due[1] = 1;
    for (uint32_t i = 0; i < c->nodes; i++) {
        while (due[depth] == 0) {
            depth--;
        }
        due[depth]--;
        if (i == 31 || depth == 9) {
            return i;
        }
        if (c->tag[i] != TAG_INPUT) {
            depth++;
            due[depth] = c->tag[i] == TAG_NOT ? 1 : 2;
        }
    }
    return c->nodes;
}

/* ---- Plans ---- */

static void swap_transitions(struct plan *p, uint32_t i, uint32_t j)
{
    struct plan_transition t = p->transition[i];
    p->transition[i] = p->transition[j];
    p->transition[j] = t;
}

static void shuffle(struct plan *p, struct dice *d)
{
    for (uint32_t i = p->transitions; i > 1; i--) {
        swap_transitions(p, i - 1, dice_below(d, i));
    }
}

static struct plan_transition *add(struct plan *p, uint32_t source, uint32_t destination, uint32_t priority, uint32_t wait)
{
    struct plan_transition *t = &p->transition[p->transitions++];
    t->source = source;
    t->destination = destination;
    t->priority = priority;
    t->wait = wait;
    t->condition.nodes = 0;
    return t;
}

/* Document 01's sheet for SF_Equivalent, in the order in which it is told. */
void plan_two_contact(struct plan *p)
{
    enum { ACTIVATE, A, B };
    enum { ACTIVITY = 1, READY = 2, EQUIVALENT_OUT = 4, ERROR = 8 };
    static const uint16_t row[9] = {
        ACTIVITY, READY, READY, READY, READY | ERROR, READY | ERROR, READY, READY | ERROR, READY | EQUIVALENT_OUT,
    };
    /* The forms of its conditions. */
    enum { FORM_INPUT, FORM_NOT, FORM_BOTH, FORM_NEITHER, FORM_NOT_BOTH };
    static const struct {
        uint8_t source, destination, priority, wait, form, input;
    } other[] = {
        {0, 1, 0, 0, FORM_INPUT, ACTIVATE},
        {1, 8, 1, 0, FORM_BOTH, 0},
        {1, 2, 2, 0, FORM_INPUT, B},
        {1, 3, 3, 0, FORM_INPUT, A},
        {2, 4, 1, 100, FORM_INPUT, ACTIVATE},
        {2, 1, 2, 0, FORM_NOT, B},
        {2, 8, 3, 0, FORM_INPUT, A},
        {3, 5, 1, 100, FORM_INPUT, ACTIVATE},
        {3, 1, 2, 0, FORM_NOT, A},
        {3, 8, 3, 0, FORM_INPUT, B},
        {4, 1, 1, 0, FORM_NEITHER, 0},
        {5, 1, 1, 0, FORM_NEITHER, 0},
        {7, 1, 1, 0, FORM_NEITHER, 0},
        {6, 7, 1, 100, FORM_INPUT, ACTIVATE},
        {6, 1, 2, 0, FORM_NEITHER, 0},
        {8, 1, 1, 0, FORM_NEITHER, 0},
        {8, 6, 2, 0, FORM_NOT_BOTH, 0},
    };

    p->states = 9;
    p->inputs = 3;
    p->outputs = 4;
    p->transitions = 0;
    for (int s = 0; s < 9; s++) {
        p->row[s] = row[s];
    }
    for (uint32_t s = 1; s <= 8; s++) {
        condition_home(&add(p, s, 0, 0, 0)->condition);
    }
    for (size_t i = 0; i < sizeof other / sizeof other[0]; i++) {
        struct plan_condition *c =
            &add(p, other[i].source, other[i].destination, other[i].priority, other[i].wait)->condition;
        switch (other[i].form) {
        case FORM_INPUT:
            leaf(c, other[i].input);
            break;
        case FORM_NOT:
            branch(c, TAG_NOT);
            leaf(c, other[i].input);
            break;
        default:
            if (other[i].form != FORM_BOTH) {
                branch(c, TAG_NOT);
            }
            branch(c, other[i].form == FORM_NEITHER ? TAG_OR : TAG_AND);
            leaf(c, A);
            leaf(c, B);
            break;
        }
    }
}

static uint32_t some_wait(struct dice *d)
{
    static const uint32_t edge[] = {1, 2, 99, 100, 101, 16777214, 16777215};
    switch (dice_below(d, 6)) {
    case 0:
        return edge[dice_below(d, sizeof edge / sizeof edge[0])];
    case 1:
        return dice_from(d, 1, 300);
    case 2:
        return dice_from(d, 1, 16777215);
    default:
        return 0;
    }
}

/* A priority that no transition of this source has yet. */
static uint32_t free_priority(const struct plan *p, struct dice *d, uint32_t source, uint32_t low)
{
    bool dense = dice_one_in(d, 2);
    uint32_t priority = dense ? low : dice_from(d, low, 127);
    for (;;) {
        bool taken = false;
        for (uint32_t i = 0; i < p->transitions && !taken; i++) {
            taken = p->transition[i].source == source && p->transition[i].priority == priority;
        }
        if (!taken) {
            return priority;
        }
        priority = priority == 127 ? low : priority + 1;
    }
}

/* The home transitions, then `others` more between distinct pairs. */
static void connect(struct plan *p, struct dice *d, uint32_t others)
{
    uint16_t pair[31 * 31];
    uint32_t pairs = 0;
    p->transitions = 0;
    for (uint32_t source = 0; source < p->states; source++) {
        if (source != 0) {
            condition_home(&add(p, source, 0, 0, 0)->condition);
        }
        for (uint32_t destination = 1; destination < p->states; destination++) {
            if (source != destination) {
                pair[pairs++] = (uint16_t)(source << 8 | destination);
            }
        }
    }
    for (uint32_t i = 0; i < others; i++) {
        uint32_t pick = dice_from(d, i, pairs - 1);
        uint16_t chosen = pair[pick];
        pair[pick] = pair[i];
        uint32_t source = chosen >> 8;
        uint32_t priority = free_priority(p, d, source, source == 0 ? 0 : 1);
        add(p, source, chosen & 255u, priority, 0);
    }
}

static uint32_t most_others(uint32_t states)
{
    uint32_t pairs = (states - 1) * (states - 1);
    uint32_t left = 128 - (states - 1);
    return pairs < left ? pairs : left;
}

static void random_rows(struct plan *p, struct dice *d)
{
    for (uint32_t s = 0; s < p->states; s++) {
        uint32_t row = (uint32_t)dice_roll(d) & ((UINT32_C(1) << p->outputs) - 1);
        p->row[s] = (uint16_t)((row & ~UINT32_C(1)) | (s == 0));
    }
}

void plan_random(struct plan *p, struct dice *d, uint32_t most_states)
{
    p->states = dice_from(d, 2, most_states);
    p->inputs = dice_one_in(d, 4) ? 16 : dice_from(d, 1, 16);
    p->outputs = dice_from(d, 1, 16);
    random_rows(p, d);
    uint32_t most = most_others(p->states);
    connect(p, d, dice_one_in(d, 4) ? most : dice_from(d, 0, most));
    for (uint32_t i = 0; i < p->transitions; i++) {
        struct plan_transition *t = &p->transition[i];
        if (t->destination != 0) {
            t->wait = some_wait(d);
            if (t->source == 0) {
                condition_gate(&t->condition, d, p->inputs);
            } else {
                condition_free(&t->condition, d, p->inputs);
            }
        }
    }
    if (!dice_one_in(d, 4)) {
        shuffle(p, d);
    }
}

void plan_largest(struct plan *p, struct dice *d, uint32_t states)
{
    p->states = states;
    p->inputs = 16;
    p->outputs = 16;
    random_rows(p, d);
    connect(p, d, 128 - (states - 1));
    for (uint32_t i = 0; i < p->transitions; i++) {
        struct plan_transition *t = &p->transition[i];
        if (t->destination == 0) {
            continue;
        }
        t->wait = dice_from(d, 1, 16777215);
        t->condition.nodes = 0;
        if (t->source == 0) {
            branch(&t->condition, TAG_AND);
            leaf(&t->condition, 0);
            grow(&t->condition, d, 29, 7, 16, true);
        } else {
            grow(&t->condition, d, 31, 8, 16, true);
        }
    }
    shuffle(p, d);
}

uint32_t plan_words(const struct plan *p)
{
    uint32_t words = 2 + p->states * (p->outputs + 2);
    for (uint32_t i = 0; i < p->transitions; i++) {
        const struct plan_transition *t = &p->transition[i];
        words += t->wait != 0 ? 7 : 6;
        for (uint32_t j = 0; j < t->condition.nodes; j++) {
            words += t->condition.tag[j] >= TAG_AND ? 2 : 1;
        }
    }
    return words;
}

/* ---- Packing ---- */

static void put_field(struct packed *out, uint32_t width, uint32_t value)
{
    out->field[out->fields++] = out->bits;
    for (uint32_t i = width; i > 0; i--) {
        uint32_t at = out->bits++;
        if (at % 8 == 0) {
            out->bytes[at / 8] = 0;
        }
        if (value >> (i - 1) & 1) {
            out->bytes[at / 8] |= (uint8_t)(128 >> at % 8);
        }
    }
}

void pack(const struct plan *p, struct packed *out)
{
    out->bits = 0;
    out->fields = 0;
    put_field(out, 5, p->states - 1);
    put_field(out, 4, p->inputs - 1);
    put_field(out, 4, p->outputs - 1);
    put_field(out, 7, p->transitions - 1);
    for (uint32_t s = 0; s < p->states; s++) {
        uint32_t row = 0;
        for (uint32_t a = 0; a < p->outputs; a++) {
            row = row << 1 | (p->row[s] >> a & 1);
        }
        put_field(out, p->outputs, row);
    }
    for (uint32_t i = 0; i < p->transitions; i++) {
        const struct plan_transition *t = &p->transition[i];
        out->source_at[i] = out->bits;
        put_field(out, 5, t->source);
        out->destination_at[i] = out->bits;
        put_field(out, 5, t->destination);
        put_field(out, 7, t->priority);
        put_field(out, 24, t->wait);
        for (uint32_t j = 0; j < t->condition.nodes; j++) {
            out->tag_at[i][j] = out->bits;
            put_field(out, 2, t->condition.tag[j]);
            if (t->condition.tag[j] == TAG_INPUT) {
                put_field(out, 4, t->condition.input[j]);
            }
        }
    }
    out->field[out->fields] = out->bits;
    out->len = (out->bits + 7) / 8;
}

/* ---- Spoilt sheets ---- */

static void spoil_home_form(struct plan *p, struct dice *d, struct plan_transition *t)
{
    struct plan_condition *c = &t->condition;
    switch (dice_below(d, 8)) {
    case 0:
        t->priority = free_priority(p, d, t->source, 1);
        return;
    case 1:
        t->wait = dice_one_in(d, 2) ? 1 : dice_from(d, 1, 16777215);
        return;
    case 2: /* input 0 */
        c->nodes = 0;
        leaf(c, 0);
        return;
    case 3: /* another input */
        if (p->inputs > 1) {
            c->input[1] = (uint8_t)dice_from(d, 1, p->inputs - 1);
            return;
        }
        break;
    case 4: /* the same truth in another form */
        c->nodes = 0;
        branch(c, TAG_NOT);
        branch(c, dice_one_in(d, 2) ? TAG_AND : TAG_OR);
        leaf(c, 0);
        leaf(c, 0);
        return;
    case 5: /* less of it */
        c->nodes = 0;
        branch(c, dice_one_in(d, 2) ? TAG_AND : TAG_OR);
        branch(c, TAG_NOT);
        leaf(c, 0);
        grow(c, d, some_nodes(d, 28), 7, p->inputs, false);
        return;
    case 6: /* input 0 first, as a gate has it */
        c->nodes = 0;
        branch(c, TAG_AND);
        leaf(c, 0);
        grow(c, d, some_nodes(d, 29), 7, p->inputs, false);
        return;
    default:
        break;
    }
    /* NOT NOT NOT input 0: the same truth, two nodes more */
    c->nodes = 0;
    branch(c, TAG_NOT);
    branch(c, TAG_NOT);
    branch(c, TAG_NOT);
    leaf(c, 0);
}

static void spoil_gate(struct plan *p, struct dice *d, struct plan_transition *t)
{
    struct plan_condition *c = &t->condition;
    c->nodes = 0;
    switch (dice_below(d, 8)) {
    case 0: /* another input alone */
        if (p->inputs > 1) {
            leaf(c, dice_from(d, 1, p->inputs - 1));
            return;
        }
        break;
    case 1: /* gated in truth, but the input stands second */
        branch(c, TAG_AND);
        branch(c, TAG_NOT);
        grow(c, d, some_nodes(d, 27), 6, p->inputs, false);
        leaf(c, 0);
        return;
    case 2: /* gated in truth, but one deeper */
        branch(c, TAG_AND);
        branch(c, TAG_AND);
        leaf(c, 0);
        grow(c, d, some_nodes(d, 15), 6, p->inputs, false);
        grow(c, d, some_nodes(d, 11), 7, p->inputs, false);
        return;
    case 3: /* OR for AND */
        branch(c, TAG_OR);
        leaf(c, 0);
        grow(c, d, some_nodes(d, 29), 7, p->inputs, false);
        return;
    case 4: /* AND, but its first operand is another input */
        if (p->inputs > 1) {
            branch(c, TAG_AND);
            leaf(c, dice_from(d, 1, p->inputs - 1));
            leaf(c, 0);
            return;
        }
        break;
    case 5: /* as a way home has it */
        branch(c, TAG_NOT);
        leaf(c, 0);
        return;
    case 6:
        branch(c, TAG_AND);
        branch(c, TAG_NOT);
        branch(c, TAG_NOT);
        leaf(c, 0);
        leaf(c, 0);
        return;
    default:
        break;
    }
    /* NOT NOT input 0: the same truth in another form */
    branch(c, TAG_NOT);
    branch(c, TAG_NOT);
    leaf(c, 0);
}

static bool spoil_home(struct plan *p, struct dice *d, uint32_t *state)
{
    if (p->states < 2) {
        return false;
    }
    *state = dice_from(d, 1, p->states - 1);
    for (uint32_t i = 0; i < p->transitions; i++) {
        struct plan_transition *t = &p->transition[i];
        if (t->source != *state || t->destination != 0) {
            continue;
        }
        if (p->transitions == 1) {
            t->source = 0;
            t->destination = *state;
            return true;
        }
        if (dice_one_in(d, 2)) {
            /* Send it elsewhere, where that makes no loop and no pair. */
            uint32_t to = dice_from(d, 1, p->states - 1);
            bool taken = to == *state;
            for (uint32_t j = 0; j < p->transitions && !taken; j++) {
                taken = p->transition[j].source == *state && p->transition[j].destination == to;
            }
            if (!taken) {
                t->destination = to;
                return true;
            }
        }
        memmove(t, t + 1, (p->transitions - i - 1) * sizeof *t);
        p->transitions--;
        return true;
    }
    return false;
}

bool spoil(struct plan *p, struct dice *d, uint32_t number, struct packed *out, struct expected *e)
{
    uint32_t i = dice_below(d, p->transitions);
    uint32_t j = dice_below(d, p->transitions);
    struct plan_transition *t = &p->transition[i];
    e->known = true;
    e->number = number;
    e->place = 0;

    switch (number) {
    case CHZ_SHORT: {
        pack(p, out);
        out->len = dice_below(d, (uint32_t)out->len);
        uint32_t f = 0;
        while (out->field[f + 1] <= 8 * out->len) {
            f++;
        }
        e->place = out->field[f];
        return true;
    }
    case CHZ_ONE_STATE:
        p->states = 1;
        pack(p, out);
        return true;
    case CHZ_STATE_NO: {
        if (p->states >= 32) {
            return false;
        }
        bool at_source = dice_one_in(d, 2);
        *(at_source ? &t->source : &t->destination) = dice_one_in(d, 2) ? p->states : dice_from(d, p->states, 31);
        pack(p, out);
        e->place = at_source ? out->source_at[i] : out->destination_at[i];
        return true;
    }
    case CHZ_INPUT_NO: {
        if (p->inputs >= 16) {
            return false;
        }
        uint32_t node = dice_below(d, t->condition.nodes);
        while (t->condition.tag[node] != TAG_INPUT) {
            node++; /* the last node is an input */
        }
        t->condition.input[node] = (uint8_t)(dice_one_in(d, 2) ? p->inputs : dice_from(d, p->inputs, 15));
        pack(p, out);
        e->place = out->tag_at[i][node] + 2;
        return true;
    }
    case CHZ_BIG: {
        t->condition.nodes = 0;
        switch (dice_below(d, 4)) {
        case 0: /* too many, none too deep */
            grow(&t->condition, d, dice_one_in(d, 2) ? 32 : dice_from(d, 32, 60), 8, p->inputs, false);
            break;
        case 1: /* one line, one too deep */
            for (int n = 0; n < 8; n++) {
                branch(&t->condition, TAG_NOT);
            }
            leaf(&t->condition, 0);
            break;
        default:
            grow(&t->condition, d, dice_from(d, 9, 60), 14, p->inputs, false);
            break;
        }
        uint32_t big = first_big(&t->condition);
        if (big == t->condition.nodes) {
            return false;
        }
        if (p->inputs < 16 && dice_one_in(d, 2)) {
            /* At fault twice, where it is an input: its tag is judged first. */
            t->condition.input[big] = (uint8_t)dice_from(d, p->inputs, 15);
        }
        pack(p, out);
        e->place = out->tag_at[i][big];
        return true;
    }
    case CHZ_TAIL: {
        pack(p, out);
        e->place = out->bits;
        uint32_t spare = (8 - out->bits % 8) % 8;
        bool further = spare == 0 || dice_one_in(d, 2);
        if (spare != 0 && (!further || dice_one_in(d, 3))) {
            out->bytes[out->len - 1] |= (uint8_t)(1 << dice_below(d, spare));
        }
        if (further) {
            uint32_t more = dice_one_in(d, 2) ? 1 : dice_from(d, 1, 40);
            bool zero = dice_one_in(d, 2);
            while (more-- > 0) {
                out->bytes[out->len++] = zero ? 0 : (uint8_t)dice_roll(d);
            }
        }
        return true;
    }
    case CHZ_LOOP:
        p->transition[j].destination = p->transition[j].source;
        t->source = t->destination;
        e->place = i < j ? i : j;
        break;
    case CHZ_PAIR:
        if (i == j) {
            return false;
        }
        t->source = p->transition[j].source;
        t->destination = p->transition[j].destination;
        e->place = i > j ? i : j;
        break;
    case CHZ_RANK:
        for (uint32_t n = 0; n < p->transitions; n++) {
            uint32_t other = (j + n) % p->transitions;
            if (other != i && p->transition[other].source == t->source) {
                t->priority = p->transition[other].priority;
                e->place = i > other ? i : other;
                pack(p, out);
                return true;
            }
        }
        return false;
    case CHZ_NO_HOME:
        if (!spoil_home(p, d, &e->place)) {
            return false;
        }
        if (dice_one_in(d, 3)) {
            uint32_t second;
            if (spoil_home(p, d, &second) && second < e->place) {
                e->place = second;
            }
        }
        break;
    case CHZ_HOME_FORM:
        for (uint32_t n = 0; n < p->transitions; n++) {
            uint32_t home = (i + n) % p->transitions;
            if (p->transition[home].destination == 0) {
                spoil_home_form(p, d, &p->transition[home]);
                e->place = home;
                pack(p, out);
                return true;
            }
        }
        return false;
    case CHZ_GATE:
        for (uint32_t n = 0; n < p->transitions; n++) {
            uint32_t gate = (i + n) % p->transitions;
            if (p->transition[gate].source == 0) {
                spoil_gate(p, d, &p->transition[gate]);
                e->place = gate;
                pack(p, out);
                return true;
            }
        }
        return false;
    case CHZ_ACTIVITY: {
        uint32_t s = dice_below(d, p->states);
        p->row[s] ^= 1;
        e->place = s;
        break;
    }
    default:
        return false;
    }
    pack(p, out);
    return true;
}

void cut(struct packed *p, struct dice *d, struct expected *e)
{
    /* Mostly where the fault stands, else anywhere. */
    bool read_to_end = e->number > CHZ_TAIL;
    size_t len = read_to_end || dice_one_in(d, 4) ? dice_below(d, (uint32_t)p->len) : e->place / 8 + dice_below(d, 3);
    if (len >= p->len) {
        len = p->len - 1;
    }
    p->len = len;
    uint32_t f = 0;
    while (p->field[f + 1] <= 8 * len) {
        f++;
    }
    /* The first field that isn't wholly there, unless one was refused before it. */
    if (read_to_end || e->place >= p->field[f]) {
        e->number = CHZ_SHORT;
        e->place = p->field[f];
    }
}
