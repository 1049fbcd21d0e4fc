/* Reads a tenancy book from standard input, replays it, and prints its printout, as docs/BOOK.md, docs/OFFICE.md,
 * docs/SHARES.md and docs/PRINTOUT.md say. It was written from those pages alone, as a second program beside the first.
 *
 * A share is one 64-bit number, and joining two shares is adding them:
 *   trees:    the set of the cells, cell 0 in the lowest bit; shares that join have no cell in both, so no bit is carried;
 *   counting: k readers are k, a source that has given out n readers is SOURCE - n.
 * The empty share is 0 in both kinds. Every join that a replay makes is defined (the lending promise), so none is tested.
 *
 * The leases stand in an array at their own numbers. Each is in two lists: that of its lender's borrowers, by which a recall
 * finds all that is under a lease, and that of the leases due on its day, by which a day finds what lapses. */

#include <stdbool.h>
#include <stdint.h>
#include <stdio.h>

enum {
    MOST_EVENTS = 4096,
    HEADER = 8,
    BOOK_SPACE = HEADER + 7 * MOST_EVENTS + 1, /* a byte more than a book has, so that a longer input is seen */
    TREES = 1,
    COUNTING = 2,
    LAST_NAME = 999,      /* resources and holders are 1 to 999 */
    MOST_NUMBERS = 60000, /* lease numbers */
    ROWS = 1024,          /* live leases */
    QUOTA = 64,           /* live leases of one holder */
    LAST_DAY = 9999,
    NEVER = 10000,        /* the due day of a first lease */
    SOURCE = 8192,        /* a source that has given out nothing */
    MOST_READERS = 4095,
    LONGEST_REFUSAL = 12, /* bytes of the line "! 4096 23 2" */
    LONGEST_LEASE = 219,
    LONGEST_TOTALS = 64
};

enum code { OPEN = 1, DELEGATE, YIELD, MERGE, ASSIGN, RECALL, DAY, CODES };

/* How many operands each code uses. */
static const int uses[CODES] = {[OPEN] = 2, [DELEGATE] = 3, [YIELD] = 1, [MERGE] = 2, [ASSIGN] = 2, [RECALL] = 1, [DAY] = 1};

typedef uint64_t share;

struct lease {
    share held;
    uint16_t resource, holder, lender, due;
    uint16_t height;                       /* how many leases are above it */
    uint16_t borrower;                     /* the first lease that it lent, or 0 */
    uint16_t next_borrower, last_borrower; /* its neighbours among its lender's borrowers, or 0 */
    uint16_t next_due, last_due;           /* its neighbours among the leases due on its day, or 0 */
    bool live;
};

/* The lease with number n stands at n. Place 0 is the house, which lent the first leases and is never live. A book can't
 * issue more numbers than it has events. */
static struct lease lease[MOST_EVENTS + 1];
static uint16_t first_due[NEVER + 1];             /* for each day a lease due on it, or 0 */
static uint16_t leases_of_holder[UINT16_MAX + 1]; /* for any operand, also those that are no holder */
static uint16_t leases_of_resource[LAST_NAME + 1];

static unsigned kind, term, chain, today, issued, live;
static unsigned yielded, merged, recalled, lapsed;

/* ---- shares ---- */

/* The whole of a resource. */
static share whole(void)
{
    return kind == TREES ? UINT64_MAX : SOURCE;
}

/* The upper halves of the filled leaves, or 0 where there are none or one of them is a single cell. A set of blocks is kept
 * as the set of their first cells. */
static share upper_halves(share cells)
{
    static const share first_cells[] = {0x5555555555555555, 0x1111111111111111, 0x0101010101010101,
                                        0x0001000100010001, 0x0000000100000001, 1};
    share full = cells & (cells >> 1) & first_cells[0]; /* full blocks of two cells */
    share upper = 0;
    if ((full | full << 1) != cells)
        return 0;
    for (int step = 1; step < 6 && full != 0; step++) {
        int size = 1 << step;
        share larger = full & (full >> size) & first_cells[step];
        share leaves = full & ~(larger | larger << size);
        upper |= (leaves << size / 2) * ((UINT64_C(1) << size / 2) - 1);
        full = larger;
    }
    return full != 0 ? cells << 32 : upper;
}

/* The lent half of a share, or 0 where it doesn't halve. The kept half is the rest. */
static share lent_half(share held)
{
    if (kind == TREES)
        return upper_halves(held);
    return held != 1 && held != SOURCE - MOST_READERS;
}

/* ---- the lists of leases ---- */

static void add_borrower(unsigned lender, unsigned n)
{
    unsigned next = lease[lender].borrower;
    lease[n].lender = (uint16_t)lender;
    lease[n].last_borrower = 0;
    lease[n].next_borrower = (uint16_t)next;
    if (next != 0)
        lease[next].last_borrower = (uint16_t)n;
    lease[lender].borrower = (uint16_t)n;
}

static void remove_borrower(unsigned n)
{
    unsigned last = lease[n].last_borrower, next = lease[n].next_borrower;
    if (last != 0)
        lease[last].next_borrower = (uint16_t)next;
    else
        lease[lease[n].lender].borrower = (uint16_t)next;
    if (next != 0)
        lease[next].last_borrower = (uint16_t)last;
}

static void add_due(unsigned n)
{
    uint16_t *first = &first_due[lease[n].due];
    lease[n].last_due = 0;
    lease[n].next_due = *first;
    if (*first != 0)
        lease[*first].last_due = (uint16_t)n;
    *first = (uint16_t)n;
}

static void remove_due(unsigned n)
{
    unsigned last = lease[n].last_due, next = lease[n].next_due;
    if (last != 0)
        lease[last].next_due = (uint16_t)next;
    else
        first_due[lease[n].due] = (uint16_t)next;
    if (next != 0)
        lease[next].last_due = (uint16_t)last;
}

/* ---- leases that come and go ---- */

static bool is_name(unsigned name)
{
    return name >= 1 && name <= LAST_NAME;
}

static bool is_live(unsigned n)
{
    return n <= issued && lease[n].live;
}

/* Issues the next number to a new lease. */
static void issue(unsigned lender, unsigned resource, unsigned holder, unsigned due, unsigned height, share held)
{
    unsigned n = ++issued;
    lease[n].held = held;
    lease[n].resource = (uint16_t)resource;
    lease[n].holder = (uint16_t)holder;
    lease[n].due = (uint16_t)due;
    lease[n].height = (uint16_t)height;
    lease[n].live = true;
    add_borrower(lender, n);
    add_due(n);
    leases_of_holder[holder]++;
    leases_of_resource[resource]++;
    live++;
}

/* Closes a lease that has no borrower; its share joins that of the lease `to`. What the house has is never looked at. */
static void close_into(unsigned to, unsigned n)
{
    lease[to].held += lease[n].held;
    remove_borrower(n);
    remove_due(n);
    leases_of_holder[lease[n].holder]--;
    leases_of_resource[lease[n].resource]--;
    lease[n].live = false;
    live--;
}

/* Closes a lease and all under it, borrowers before their lenders, and answers how many it closed. */
static unsigned close_family(unsigned n)
{
    unsigned closed = 0, at = n;
    for (;;) {
        while (lease[at].borrower != 0)
            at = lease[at].borrower;
        unsigned lender = lease[at].lender;
        close_into(lender, at);
        closed++;
        if (at == n)
            return closed;
        at = lender;
    }
}

/* ---- the calls; each answers the number of the refusal, or 0 where it is granted ---- */

static int open_resource(unsigned resource, unsigned holder)
{
    if (leases_of_holder[holder] >= QUOTA)
        return 21;
    if (!is_name(resource))
        return 1;
    if (!is_name(holder))
        return 2;
    if (leases_of_resource[resource] != 0)
        return 3;
    if (issued == MOST_NUMBERS)
        return 4;
    if (live == ROWS)
        return 5;
    issue(0, resource, holder, NEVER, 0, whole());
    return 0;
}

static int delegate(unsigned lender, unsigned holder, unsigned due)
{
    if (leases_of_holder[holder] >= QUOTA)
        return 21;
    if (due > today + term)
        return 22;
    if (is_live(lender) && lease[lender].height >= chain)
        return 23;
    if (!is_live(lender))
        return 6;
    if (!is_name(holder))
        return 2;
    if (due <= today || due > lease[lender].due || due > LAST_DAY)
        return 7;
    share lent = lent_half(lease[lender].held);
    if (lent == 0)
        return 8;
    if (issued == MOST_NUMBERS)
        return 4;
    if (live == ROWS)
        return 5;
    lease[lender].held -= lent;
    issue(lender, lease[lender].resource, holder, due, lease[lender].height + 1u, lent);
    return 0;
}

static int yield(unsigned n)
{
    if (!is_live(n))
        return 6;
    if (lease[n].borrower != 0)
        return 9;
    close_into(lease[n].lender, n);
    yielded++;
    return 0;
}

/* Heights stay as they are: two leases of one lender have the same height. */
static int merge(unsigned a, unsigned b)
{
    if (!is_live(a) || !is_live(b))
        return 6;
    if (a >= b)
        return 10;
    if (lease[a].lender != lease[b].lender || lease[a].lender == 0 || lease[a].holder != lease[b].holder ||
        lease[a].due != lease[b].due)
        return 11;
    while (lease[b].borrower != 0) {
        unsigned n = lease[b].borrower;
        remove_borrower(n);
        add_borrower(a, n);
    }
    close_into(a, b);
    merged++;
    return 0;
}

static int assign(unsigned n, unsigned holder)
{
    if (leases_of_holder[holder] >= QUOTA)
        return 21;
    if (!is_live(n))
        return 6;
    if (!is_name(holder))
        return 2;
    if (lease[n].holder == holder)
        return 12;
    leases_of_holder[lease[n].holder]--;
    leases_of_holder[holder]++;
    lease[n].holder = (uint16_t)holder;
    return 0;
}

static int recall(unsigned n)
{
    if (!is_live(n))
        return 6;
    recalled += close_family(n);
    return 0;
}

/* No live lease is due today or before. A lease is due on its lender's day or before it, so whole families lapse. */
static int day(unsigned new_day)
{
    if (new_day < today || new_day > LAST_DAY)
        return 13;
    while (today < new_day) {
        today++;
        while (first_due[today] != 0)
            lapsed += close_family(first_due[today]);
    }
    return 0;
}

/* ---- writing; each writes at a place and answers the place after it ---- */

/* A number of at most five digits, and after it a blank or the end of the line. */
static char *put_number(char *at, unsigned number, char after)
{
    char *end = at + 1 + (number > 9) + (number > 99) + (number > 999) + (number > 9999);
    at = end;
    do {
        *--at = (char)('0' + number % 10);
        number /= 10;
    } while (number != 0);
    *end++ = after;
    return end;
}

/* The text of a block of `size` cells, which are the lowest bits. */
static char *put_block(char *at, share cells, int size)
{
    share full = UINT64_MAX >> (64 - size);
    int half = size / 2;
    if (cells == 0 || cells == full) {
        *at++ = cells == 0 ? '0' : '1';
    } else {
        *at++ = '(';
        at = put_block(at, cells & (full >> half), half);
        at = put_block(at, cells >> half, half);
        *at++ = ')';
    }
    return at;
}

/* A share that isn't empty, as no lease's share is, and the end of the line. */
static char *put_share(char *at, share held)
{
    if (kind == TREES) {
        at = put_block(at, held, 64);
        *at++ = '\n';
        return at;
    }
    *at++ = held <= MOST_READERS ? 'r' : 's';
    return put_number(at, (unsigned)(held <= MOST_READERS ? held : SOURCE - held), '\n');
}

/* The line of a refused event; a level of -1 is none. */
static char *put_refusal(char *at, unsigned event, int number, int level)
{
    *at++ = '!';
    *at++ = ' ';
    at = put_number(at, event, ' ');
    at = put_number(at, (unsigned)number, ' ');
    *at++ = level < 0 ? '-' : (char)('0' + level);
    *at++ = '\n';
    return at;
}

static char *put_lease(char *at, unsigned n, bool may_write)
{
    at = put_number(at, n, ' ');
    at = put_number(at, lease[n].resource, ' ');
    at = put_number(at, lease[n].holder, ' ');
    at = put_number(at, lease[n].lender, ' ');
    at = put_number(at, lease[n].due, ' ');
    *at++ = may_write ? 'w' : 'r';
    *at++ = ' ';
    return put_share(at, lease[n].held);
}

/* The lines of the live leases. Only the holder of a resource's first lease can have the whole of it, since that lease has a
 * share that isn't empty; and a first lease stands before all others of its resource. So one standing for each resource is
 * enough: that of the holder of its first lease. */
static char *put_roll(char *at)
{
    static share standing[LAST_NAME + 1];
    static uint16_t first_holder[LAST_NAME + 1];
    for (unsigned n = 1; n <= issued; n++) {
        if (!lease[n].live)
            continue;
        if (lease[n].lender == 0)
            first_holder[lease[n].resource] = lease[n].holder;
        if (lease[n].holder == first_holder[lease[n].resource])
            standing[lease[n].resource] += lease[n].held;
    }
    for (unsigned n = 1; n <= issued; n++) {
        unsigned resource = lease[n].resource;
        if (lease[n].live)
            at = put_lease(at, n, lease[n].holder == first_holder[resource] && standing[resource] == whole());
    }
    return at;
}

static char *put_totals(char *at)
{
    *at++ = '=';
    *at++ = ' ';
    at = put_number(at, issued, ' ');
    at = put_number(at, live, ' ');
    at = put_number(at, yielded, ' ');
    at = put_number(at, merged, ' ');
    at = put_number(at, recalled, ' ');
    return put_number(at, lapsed, '\n');
}

/* ---- the book ---- */

static unsigned word(const unsigned char *bytes)
{
    return bytes[0] + 256u * bytes[1];
}

/* The refusal of opening, or 0. */
static int opening(const unsigned char *book, size_t length)
{
    if (length < HEADER)
        return 41;
    if (word(book) > MOST_EVENTS)
        return 42;
    if (book[2] != TREES && book[2] != COUNTING)
        return 43;
    if (book[6] != 0 || book[7] != 0)
        return 44;
    if (length != HEADER + 7 * (size_t)word(book))
        return 45;
    return 0;
}

/* The level at which a call is refused with a number. */
static int level(unsigned code, int number)
{
    if (code == RECALL || code == DAY)
        return 0;
    return number >= 21 ? number - 21 : 3;
}

/* Makes the call that an event asks for. */
static int call(unsigned code, unsigned first, unsigned second, unsigned third)
{
    switch (code) {
    case OPEN:
        return open_resource(first, second);
    case DELEGATE:
        return delegate(first, second, third);
    case YIELD:
        return yield(first);
    case MERGE:
        return merge(first, second);
    case ASSIGN:
        return assign(first, second);
    case RECALL:
        return recall(first);
    default:
        return day(first);
    }
}

/* Does one event, and writes its line if it is refused. */
static char *step(char *at, unsigned event, unsigned code, const unsigned char *record)
{
    unsigned first = word(record), second = word(record + 2), third = word(record + 4);
    if (code < OPEN || code > DAY)
        return put_refusal(at, event, 47, -1);
    if ((uses[code] < 3 && third != 0) || (uses[code] < 2 && second != 0))
        return put_refusal(at, event, 48, -1);
    int number = call(code, first, second, third);
    return number == 0 ? at : put_refusal(at, event, number, level(code, number));
}

/* Replays a book that opens, and writes the printout. */
static char *replay(char *at, const unsigned char *book)
{
    unsigned events = word(book);
    kind = book[2];
    chain = book[3];
    term = word(book + 4);
    for (unsigned i = 0; i < events; i++)
        at = step(at, i + 1, book[HEADER + i], book + HEADER + events + 6 * (size_t)i);
    return put_totals(put_roll(at));
}

int main(void)
{
    static unsigned char book[BOOK_SPACE];
    static char printout[MOST_EVENTS * LONGEST_REFUSAL + ROWS * LONGEST_LEASE + LONGEST_TOTALS];
    size_t length = fread(book, 1, sizeof book, stdin);
    int refused = opening(book, length);
    char *end = refused != 0 ? put_refusal(printout, 0, refused, -1) : replay(printout, book);
    fwrite(printout, 1, (size_t)(end - printout), stdout);
    return 0;
}
