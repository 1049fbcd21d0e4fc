#!/usr/bin/env python3
"""The program `leasing` once more, by the rules of docs/OFFICE.md: shares no code and no representation with crates/.

A lease is an object that knows its lender and the leases that it lent, and the ledger is a dictionary of the live ones. A
layer wraps an office. A refusal is an exception, which gains a level in each office that it passes through. The calls
that stand over any office are functions that make calls to one. Reads calls and lists of calls from standard input and
prints what `leasing` should print.
"""
import functools
import re
import sys

sys.dont_write_bytecode = True
import sharing

MOST_ROWS = 1024
MOST_NUMBERS = 60000
LAST_DAY = 9999
NEVER = 10000

# A word has none of the characters that Unicode counts as white space.
WORD = re.compile('[^\t-\r \x85\xa0\u1680\u2000-\u200a\u2028\u2029\u202f\u205f\u3000]+')

REASONS = {
    1: 'the resource is not from 1 to 999',
    2: 'the holder is not from 1 to 999',
    3: 'the resource is open',
    4: 'all 60000 numbers are issued',
    5: 'no row is free',
    6: 'the lease is not live',
    7: 'the due day is not after today, or is too late',
    8: "the share doesn't halve",
    9: 'a live lease is under it',
    10: 'lease a is not below lease b',
    11: 'lenders, holders or due days differ, or the house is the lender',
    12: 'the lease has that holder already',
    13: 'the day is before today or after day 9999',
    14: 'a live lease falls due by that day',
    15: 'there is no such position',
    21: 'the holder has too many leases',
    22: 'the term is too long',
    23: 'the chain of lenders is too long',
}

# How many numbers each call has.
SWEEPS = {'recall': 1, 'day': 1, 'hand_in': 1}
CHANGES = {'open': 2, 'delegate': 3, 'yield': 1, 'merge': 2, 'assign': 2, 'set_day': 1, **SWEEPS}
QUESTIONS = {'count': 0, 'issued': 0, 'today': 0, 'lease': 1, 'lease_at': 1, 'standing': 2}
CALLS = {**CHANGES, **QUESTIONS}

# What is said in a list of the leases that each call closed.
CLOSED_BY = {'yield': 'yielded', 'merge': 'merged', 'recall': 'recalled', 'hand_in': 'recalled', 'day': 'lapsed'}

EXPECTED = ('expected: office KIND ROWS QUOTA TERM CHAIN (KIND is trees or counting), or a call to that office: '
            'open RESOURCE HOLDER, delegate LENDER HOLDER DUE, yield LEASE, merge A B, assign LEASE HOLDER, set_day DAY, '
            'recall LEASE, day DAY, hand_in LEASE, standing RESOURCE HOLDER, count, issued, today, lease NUMBER, '
            'lease_at POSITION, or some of these with semicolons between them')


class Refusal(Exception):
    """A refusal on its way up from the office that refuses."""

    def __init__(self, number):
        """Begins at level 0, in the office that refuses."""
        super().__init__(number)
        self.number = number
        self.level = 0

    def __str__(self):
        """The refusal as it is printed."""
        return 'refused %d at level %d: %s' % (self.number, self.level, REASONS[self.number])


def refuse(reason_holds, number):
    """Refuses with a number if the reason for it holds."""
    if reason_holds:
        raise Refusal(number)


@functools.lru_cache(maxsize=4096)
def share_text(kind, share):
    """The text of a share; remembered, since the roll prints the same shares again and again."""
    return kind.text(share)


def join(kind, a, b):
    """The join of two shares of one resource."""
    joined = kind.join(a, b)
    assert joined is not None, 'shares of one resource always join'
    return joined


class Lease:
    """A live lease. Its lender is another lease, or None, the house; `lent` has the live leases that it lent."""

    def __init__(self, kind, number, resource, holder, lender, due, share):
        """Makes a lease that has lent nothing yet, and tells its lender of it."""
        self.kind, self.number, self.resource, self.holder = kind, number, resource, holder
        self.lender, self.due, self.share = lender, due, share
        self.lent = set()
        if lender is not None:
            lender.lent.add(self)

    def height(self):
        """How many leases are above this one."""
        above, lease = 0, self.lender
        while lease is not None:
            above, lease = above + 1, lease.lender
        return above

    def under(self):
        """The leases under this one: those that it lent, and so on for each that is found."""
        found = list(self.lent)
        for lease in found:
            found += lease.lent
        return found

    def gain(self, share):
        """Joins a share to this lease's own."""
        self.share = join(self.kind, self.share, share)

    def __str__(self):
        """The lease as it is printed."""
        lender = 'the house' if self.lender is None else 'lease %d until day %d' % (self.lender.number, self.due)
        return 'lease %d: resource %d, holder %d, lent by %s, share %s' % (
            self.number, self.resource, self.holder, lender, share_text(self.kind, self.share))


class Ledger:
    """The office without layers."""

    def __init__(self, kind, rows):
        """Sets up an office with an empty roll."""
        self.kind = kind
        self.capacity = min(rows, MOST_ROWS)
        self.live = {}
        self.last_number = 0
        self.day = 0

    def ask(self, call, *numbers):
        """Answers a call or a question by the method of its name."""
        return getattr(self, 'yield_lease' if call == 'yield' else call)(*numbers)

    def roll(self):
        """The live leases by rising number: a dictionary keeps the order in which they came."""
        return list(self.live.values())

    def check_holder(self, holder):
        """Refuses a holder out of range."""
        refuse(not 1 <= holder <= 999, 2)

    def check_room(self):
        """Refuses where no number or no row is left for one more lease."""
        refuse(self.last_number == MOST_NUMBERS, 4)
        refuse(len(self.live) == self.capacity, 5)

    def issue(self, resource, holder, lender, due, share):
        """Enters a lease with the next number, and answers the number."""
        self.last_number += 1
        self.live[self.last_number] = Lease(self.kind, self.last_number, resource, holder, lender, due, share)
        return self.last_number

    def close(self, lease):
        """Strikes a lease out, here and at its lender."""
        del self.live[lease.number]
        if lease.lender is not None:
            lease.lender.lent.remove(lease)

    def open(self, resource, holder):
        """Opens a resource with a first lease."""
        refuse(not 1 <= resource <= 999, 1)
        self.check_holder(holder)
        refuse(any(lease.resource == resource for lease in self.live.values()), 3)
        self.check_room()
        return self.issue(resource, holder, None, NEVER, self.kind.whole)

    def delegate(self, lender, holder, due):
        """Lends half of the lender's share."""
        lender = self.lease(lender)
        self.check_holder(holder)
        refuse(not self.day < due <= min(lender.due, LAST_DAY), 7)
        halves = self.kind.halve(lender.share)
        refuse(halves is None, 8)
        self.check_room()
        lender.share, lent = halves
        return self.issue(lender.resource, holder, lender, due, lent)

    def yield_lease(self, number):
        """Gives a lease's share back to its lender."""
        lease = self.lease(number)
        refuse(lease.lent, 9)
        self.close(lease)
        if lease.lender is not None:
            lease.lender.gain(lease.share)

    def merge(self, a, b):
        """Joins the lease b to the lease a, with what b lent."""
        into, other = self.lease(a), self.lease(b)
        refuse(a >= b, 10)
        refuse(into.lender is None or into.lender is not other.lender, 11)
        refuse((into.holder, into.due) != (other.holder, other.due), 11)
        self.close(other)
        into.gain(other.share)
        for lease in other.lent:
            lease.lender = into
        into.lent |= other.lent

    def assign(self, number, holder):
        """Gives a lease to another holder."""
        lease = self.lease(number)
        self.check_holder(holder)
        refuse(lease.holder == holder, 12)
        lease.holder = holder

    def set_day(self, day):
        """Moves today on."""
        refuse(not self.day <= day <= LAST_DAY, 13)
        refuse(any(lease.due <= day for lease in self.live.values()), 14)
        self.day = day

    def count(self):
        """How many leases are live."""
        return len(self.live)

    def issued(self):
        """How many numbers were issued."""
        return self.last_number

    def today(self):
        """The day."""
        return self.day

    def lease(self, number):
        """The live lease with a number."""
        refuse(number not in self.live, 6)
        return self.live[number]

    def lease_at(self, position):
        """The live lease at a position of the roll."""
        refuse(position >= len(self.live), 15)
        return self.roll()[position]


class Layer:
    """An office over another, with one question of its own."""

    def __init__(self, limit, below):
        """Wraps an office."""
        self.limit = limit
        self.below = below
        self.kind = below.kind

    def ask(self, call, *numbers):
        """Objects to the call or passes it down, and passes a refusal up with a level more."""
        refuse(self.objects(call, *numbers), self.objection)
        try:
            return self.below.ask(call, *numbers)
        except Refusal as refusal:
            refusal.level += 1
            raise

    def roll(self):
        """The roll of the office below."""
        return self.below.roll()


class Quota(Layer):
    """Limits how many leases a holder has."""
    objection = 21

    def objects(self, call, *numbers):
        """Whether the new holder has enough leases; each of these calls has its holder second."""
        if call not in ('open', 'delegate', 'assign'):
            return False
        return [lease.holder for lease in self.roll()].count(numbers[1]) >= self.limit


class Term(Layer):
    """Limits for how many days leases are lent."""
    objection = 22

    def objects(self, call, *numbers):
        """Whether the due day is too many days away."""
        return call == 'delegate' and numbers[2] - self.below.ask('today') > self.limit


class Chain(Layer):
    """Limits how far down leases are lent on."""
    objection = 23

    def objects(self, call, *numbers):
        """Whether the lender is live and too many leases are above it."""
        return call == 'delegate' and any(
            lease.number == numbers[0] and lease.height() >= self.limit for lease in self.roll())


def close(office, leases):
    """Yields some leases, from the highest number down, and answers how many."""
    for lease in sorted(leases, key=lambda lease: lease.number, reverse=True):
        office.ask('yield', lease.number)
    return len(leases)


def hand_in(office, number):
    """Closes a lease and all under it, or nothing if it isn't live."""
    found = [lease for lease in office.roll() if lease.number == number]
    return close(office, found + [below for lease in found for below in lease.under()])


def recall(office, number):
    """Closes a lease and all under it."""
    refuse(all(lease.number != number for lease in office.roll()), 6)
    return hand_in(office, number)


def day(office, new):
    """Closes what falls due by a day, and then moves today on to it."""
    refuse(not office.ask('today') <= new <= LAST_DAY, 13)
    closed = close(office, [lease for lease in office.roll() if lease.due <= new])
    office.ask('set_day', new)
    return closed


def standing(office, resource, holder):
    """What a holder's shares of a resource join to."""
    shares = [lease.share for lease in office.roll() if (lease.resource, lease.holder) == (resource, holder)]
    return functools.reduce(functools.partial(join, office.kind), shares, office.kind.empty)


OVER_ANY_OFFICE = {'recall': recall, 'day': day, 'hand_in': hand_in, 'standing': standing}


def make(office, call, *numbers):
    """Makes a call to an office or over it."""
    return OVER_ANY_OFFICE[call](office, *numbers) if call in OVER_ANY_OFFICE else office.ask(call, *numbers)


def set_up(name, rows, quota, term, chain):
    """A new office: three layers on a ledger."""
    return Quota(quota, Term(term, Chain(chain, Ledger(sharing.KINDS[name], rows))))


def read_number(word):
    """The number that a word is, or None."""
    digits = word[1:] if word.startswith('+') else word
    if not (digits.isascii() and digits.isdigit()):
        return None
    digits = digits.lstrip('0') or '0'
    return int(digits) if len(digits) <= 5 and int(digits) <= 65535 else None


def read_numbers(names, words):
    """Some names followed by the numbers that the words are; or None if one of these is no number."""
    numbers = [read_number(word) for word in words]
    return None if None in numbers else names + numbers


def read_office(text):
    """The words of a line that sets up an office, or None."""
    words = WORD.findall(text)
    if words[:1] == ['office'] and len(words) == 6 and words[1] in sharing.KINDS:
        return read_numbers(words[:2], words[2:])
    return None


def read_call(text):
    """The words of a call, or None."""
    words = WORD.findall(text)
    if words and CALLS.get(words[0]) == len(words) - 1:
        return read_numbers(words[:1], words[1:])
    return None


def read_calls(text):
    """The calls of a line, of which a call by itself has one; or None if a piece of the line is no call."""
    calls = [read_call(piece) for piece in text.split(';')]
    return None if None in calls else calls


def read_job(text):
    """The lease of a job and its calls; or None."""
    before, colon, after = text.partition(':')
    words, calls = WORD.findall(before), read_calls(after)
    if not colon or len(words) != 2 or words[0] != 'job' or calls is None:
        return None
    lease = read_number(words[1])
    return None if lease is None else (lease, calls)


def answer(office, call, *numbers):
    """What is answered to a call, in words."""
    try:
        result = make(office, call, *numbers)
    except Refusal as refusal:
        return str(refusal)
    if call == 'standing':
        return 'share ' + share_text(office.kind, result)
    if call in QUESTIONS:
        return str(result)
    if call in SWEEPS:
        return 'granted, %d closed' % result
    return 'granted' if result is None else 'granted, lease %d' % result


def in_words(closed):
    """What some calls closed, in words."""
    return 'closed: ' + ', '.join('%d %s' % (number, how) for how, number in closed.items())


def count_closed(office, closed, call):
    """Makes a call, counts what it closed, and gives back its answer; a refused call closes nothing."""
    before = office.ask('count')
    words = answer(office, *call)
    if call[0] in CLOSED_BY:
        closed[CLOSED_BY[call[0]]] += before - office.ask('count')
    return words


def answer_list(office, calls):
    """What the calls of a list closed, in words."""
    closed = dict.fromkeys(CLOSED_BY.values(), 0)
    for call in calls:
        count_closed(office, closed, call)
    return in_words(closed)


def answer_job(office, lease, calls):
    """What became of a job, in words, a line each: its calls up to a refused one, and then its slip."""
    closed = dict.fromkeys(CLOSED_BY.values(), 0)
    made, refusal = 0, []
    while made < len(calls) and not refusal:
        words = count_closed(office, closed, calls[made])
        made += 1
        if words.startswith('refused'):
            refusal = [words]
    handed_in = 'slip of lease %d handed in, %d closed' % (lease, hand_in(office, lease))
    return ['%d of %d calls made' % (made, len(calls)), *refusal, in_words(closed), handed_in]


def print_roll(office):
    """Prints the day, the counts and the live leases."""
    print('  today is day %d, %d issued, %d live' % tuple(office.ask(call) for call in ('today', 'issued', 'count')))
    for lease in office.roll():
        print('    %s' % lease)


def answer_office(name, rows, quota, term, chain):
    """Prints that an office is set up, and gives it back."""
    print('an office of %s, %d rows, quota %d, term %d, chain %d' % (name, min(rows, MOST_ROWS), quota, term, chain))
    return set_up(name, rows, quota, term, chain)


def written(calls):
    """Calls as they are printed."""
    return '; '.join(' '.join(map(str, call)) for call in calls)


def answer_calls(office, calls):
    """Prints the answer to a call or to a list of calls, with the roll but for a single question."""
    print(written(calls))
    print('  ' + (answer_list(office, calls) if len(calls) > 1 else answer(office, *calls[0])))
    if len(calls) > 1 or calls[0][0] in CHANGES:
        print_roll(office)


def print_job(office, lease, calls):
    """Does a job, and prints what became of it, and the roll."""
    print('job %d: %s' % (lease, written(calls)))
    for words in answer_job(office, lease, calls):
        print('  ' + words)
    print_roll(office)


def answer_line(office, line):
    """Prints the answer to a line, and gives back the office that the next line is for."""
    try:
        text = line.decode('utf-8')
    except UnicodeDecodeError:
        text = ''
    words, calls, job = read_office(text), read_calls(text), read_job(text)
    if words is not None:
        return answer_office(*words[1:])
    if office is None or calls is None and job is None:
        print(EXPECTED)
    elif job is not None:
        print_job(office, *job)
    else:
        answer_calls(office, calls)
    return office


def main():
    """Answers every line of standard input."""
    lines = sys.stdin.buffer.read().split(b'\n')
    if len(lines) > 1 and not lines[-1]:
        lines.pop()
    office = None
    for line in lines:
        office = answer_line(office, line)


if __name__ == '__main__':
    main()
