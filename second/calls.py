#!/usr/bin/env python3
"""Prints input for `leasing`: offices, and calls, lists of calls and jobs to them, most sensible, some wrong, some unreadable.

    second/calls.py SEED OFFICES LINES   so many offices with about so many lines each, the same for the same seed
    second/calls.py numbers              an office that issues all 60,000 numbers
    second/calls.py readers              an office of counting shares that gives out all 4,095 readers
    second/calls.py rows                 an office that fills all 1,024 rows
    second/calls.py families             families as large and as deep as can be, closed by a call each, in long lists

Makes each call to an office of its own too, so as to know what is live.
"""
import random
import sys

sys.dont_write_bytecode = True
import leasing

ODD = [0, 1, 2, 3, 998, 999, 1000, 9998, 9999, 10000, 59999, 60000, 65534, 65535]

UNREADABLE = [
    b'', b'   ', b'\t', b'lend 1 2', b'open', b'open 1', b'open 1 2 3', b'open 1,2', b'OPEN 1 1', b'open1 1',
    b'open -1 1', b'open -0 1', b'open 1 65536', b'open 99999999999999999999 1', b'open ++1 1', b'open + 1',
    b'open 1+ 1', b'open 1 1.0', b'open 0x1 1', b'open 1e0 1', b'open 1_0 1', b'open one 1', b'open \xd9\xa1 1',
    b'open \xc2\xb2 1', b'open 1 1\xff', b'delegate 1 2', b'delegate 1 2 3 4', b'yield', b'yield 1 2',
    b'yield 1 # the last', b'yield_lease 1', b'merge 1', b'merge 1 2 3', b'assign 1', b'assign 1 2 3', b'set_day',
    b'set_day 1 2', b'set day 1', b'set_day 70000', b'count 1', b'issued issued', b'today 0', b'lease', b'lease 1 2',
    b'lease -1', b'lease_at', b'lease_at 65536', b'recall', b'recall 1 2', b'recall 65536',
    b'recall all', b'day', b'day 1 2', b'day -1', b'Day 3', b'hand_in', b'hand_in 1 2', b'hand in 1', b'hand-in 1',
    b'standing', b'standing 1', b'standing 1 2 3', b'standing 1 two', b'granted', b'office', b'office trees',
    b'office trees 4 2 30', b'office trees 4 2 30 1 1', b'office oaks 4 2 30 1', b'office TREES 4 2 30 1',
    b'office 4 trees 2 30 1', b'office trees 65536 2 30 1', b'office counting 4 2 30 -1', b'\xff\xfe', b'count \xc3',
    b'\xc0\xafcount', b'count\x00', b'co\xc3\xbcnt', b'"count"',
    b'count\x1c', b'count\x1f', b'count\xe2\x80\x8b', b'\xef\xbb\xbfcount', b';', b' ; ', b';;', b'count;', b';count',
    b'count; ;issued', b'count, issued', b'count: issued', b'count. issued', b'count issued', b'count\\; issued',
    b'count\xcd\xbe issued', b'count\xef\xbc\x9b issued', b'count; issued 1', b'count; granted', b'count; \xff',
    b'job', b'job 1', b'job 1:', b'job: count', b'job one: count', b'job 1 2: count', b'job 65536: count', b'job 1: count;',
    b'job 1: job 2: count', b'job 1: count: issued', b'job 1; count', b'job1: count', b'Job 1: count', b'1: count', b': count',
    b'job 1\xef\xbc\x9a count', b'job 1: office trees 4 2 30 1', b':', b'job 1: count; ;issued',
]

# What spoils a list: a piece that is no call, even if it is a good line.
NO_CALL = [*UNREADABLE, b'office trees 4 2 30 1', b'office counting 1024 64 100 8']


def one_of(rng, tight, wide):
    """One of the tight numbers or, more often, of the wide ones; at times 0 or 1."""
    return rng.choice(rng.choices([[0, 1], tight, wide], [3, 30, 67])[0])


def some_office(rng):
    """The kind, the rows and the layers' numbers of an office."""
    return [
        rng.choice(['trees', 'counting']),
        one_of(rng, [2, 3, 4, 5, 6, 8, 10], [16, 24, 40, 1023, 1024, 1025, 65535]),
        one_of(rng, [2, 3, 4, 6, 8], [20, 40, 65535]),
        one_of(rng, [2, 5, 30, 60], [200, 9999, 65535]),
        one_of(rng, [1, 2, 3, 4], [10, 15, 65535]),
    ]


def able(leases):
    """Those of some leases whose shares halve, or all if none does."""
    return [lease for lease in leases if lease.kind.halve(lease.share) is not None] or leases


def deepest(leases):
    """The newest of the leases with the most above them."""
    return max(leases, key=lambda lease: (lease.height(), lease.number))


def twins(roll):
    """The pairs of leases that can be merged."""
    return [(a, b) for a in roll for b in roll if a.number < b.number and a.lender is not None
            and (a.lender, a.holder, a.due) == (b.lender, b.holder, b.due)]


def under(lease):
    """The numbers of the leases under a lease."""
    return sorted(below.number for below in lease.under())


def families(roll):
    """The leases that lent something, or all if none did."""
    return [lease for lease in roll if lease.lent] or roll


class Caller:
    """Chooses the calls to one office."""

    def __init__(self, rng, words):
        """Begins with an empty roll, no plan, and a few days on which leases fall due."""
        self.rng = rng
        self.office = leasing.set_up(*words)
        self.rows, self.quota, self.term = words[1:4]
        self.plan = []
        self.days = sorted(rng.sample(range(2, 150), 8)) + [9998, 9999]
        self.holders = range(1, rng.choice([3, 5, 9]))

    def mostly(self, sensible, odd):
        """A sensible choice if there is one, and at times an odd one."""
        return self.rng.choice(sensible if sensible and self.rng.random() < 0.93 else odd)

    def holder(self):
        """A holder, mostly one who may have another lease."""
        holders = [lease.holder for lease in self.office.roll()]
        return self.mostly([h for h in self.holders if holders.count(h) < self.quota], [*self.holders, *ODD])

    def due(self, lender):
        """A due day, mostly one that the lender can give."""
        today = self.office.ask('today')
        last = min(lender.due, today + self.term)
        days = [day for day in self.days + [last] if today < day <= last]
        return self.mostly(days[:3], [today, today + 1, last + 1, lender.due, lender.due + 1, *ODD])

    def number(self, roll):
        """The number of a lease, mostly of a live one."""
        return self.mostly([lease.number for lease in roll], [self.rng.randint(1, self.office.ask('issued') + 1), *ODD])

    def pick(self, leases):
        """One of some leases, half of the time the newest."""
        return leases[-1] if self.rng.random() < 0.5 else self.rng.choice(leases)

    def open(self, roll):
        """Opens one of a few resources, mostly one that is not open."""
        open_ones = {lease.resource for lease in roll}
        return 'open', self.mostly([r for r in range(1, 7) if r not in open_ones], [*range(1, 7), *ODD]), self.holder()

    def lend_from(self, lender):
        """Lends from a lease."""
        return 'delegate', lender.number, self.holder(), self.due(lender)

    def lend(self, roll):
        """Lends from a lease, mostly one that can lend."""
        return self.lend_from(self.pick(able(roll) if self.rng.random() < 0.9 else roll))

    def lend_deep(self, roll):
        """Lends from the lease with the most above it, of those that can lend."""
        return self.lend_from(deepest(able(roll)))

    def lend_often(self, roll):
        """Plans to lend again and again from one lease, to one holder until one day."""
        call = self.lend_from(self.rng.choice([deepest(able(roll)), self.rng.choice(able(roll))]))
        self.plan += [call] * self.rng.randint(1, 8)
        return call

    def lend_twin(self, roll):
        """Lends a lease that can be merged with another."""
        lenders = able([lease for lease in roll if lease.lent])
        if not lenders:
            return self.lend(roll)
        lender = self.pick(lenders)
        lease = self.pick(sorted(lender.lent, key=lambda lease: lease.number))
        return 'delegate', lender.number, lease.holder, lease.due

    def lend_under_twin(self, roll):
        """Lends from a lease that can be merged into another."""
        lenders = able([b for _, b in twins(roll)])
        return self.lend_from(self.rng.choice(lenders)) if lenders else self.lend_twin(roll)

    def merge(self, roll):
        """Merges two leases, rather ones that lent something, and may plan to yield what is under them then."""
        pairs = twins(roll)
        if not pairs:
            return self.lend_twin(roll)
        a, b = self.rng.choice([pair for pair in pairs if pair[1].lent] or pairs)
        if not b.lent and b in able([b, a]) and self.rng.random() < 0.4:
            return self.lend_from(b)
        if self.rng.random() < 0.3:
            self.plan_yields(under(a) + under(b) + [a.number])
        elif self.rng.random() < 0.2:
            self.plan_recall(a)
        return 'merge', a.number, b.number

    def plan_recall(self, lease):
        """Plans to recall a lease, and to ask what its holder and its lender's have before and after."""
        asked = [('standing', lease.resource, one.holder) for one in (lease, lease.lender)]
        self.plan += [*asked, (self.rng.choice(['recall', 'hand_in']), lease.number), *asked]

    def merge_many(self, roll):
        """Plans to merge all leases that can be merged into one lease."""
        pairs = twins(roll)
        if not pairs:
            return self.lend_often(roll)
        first = self.rng.choice(pairs)[0]
        self.plan += [('merge', a.number, b.number) for a, b in pairs if a is first]
        return self.plan.pop(0)

    def merge_wrong(self, roll):
        """Merges leases in the wrong order, or any two."""
        pairs = twins(roll)
        if pairs and self.rng.random() < 0.3:
            a, b = self.rng.choice(pairs)
            return 'merge', b.number, a.number
        numbers = [self.number(roll), self.number(roll)]
        return ('merge', *(sorted(numbers) if self.rng.random() < 0.6 else numbers))

    def plan_yields(self, numbers):
        """Plans to yield leases, from the highest number down or in any order."""
        numbers = sorted(numbers, reverse=True)
        if self.rng.random() < 0.4:
            self.rng.shuffle(numbers)
        self.plan += [('yield', number) for number in numbers[:12]]

    def yield_last(self, roll):
        """Yields a lease that has lent nothing."""
        return 'yield', self.rng.choice([lease for lease in roll if not lease.lent]).number

    def yield_any(self, roll):
        """Yields any lease."""
        return 'yield', self.number(roll)

    def yield_all(self, roll):
        """Plans to yield a lease and all under it."""
        lease = self.rng.choice(roll)
        self.plan_yields(under(lease) + [lease.number])
        return self.plan.pop(0)

    def assign(self, roll):
        """Gives a lease to a holder, at times to its own."""
        lease = self.pick(roll)
        return 'assign', self.number([lease]), lease.holder if self.rng.random() < 0.2 else self.holder()

    def set_day(self, roll):
        """Moves the day on a little, or to where a lease falls due, or to somewhere odd."""
        today, due = self.office.ask('today'), min(lease.due for lease in roll)
        near = [today, today + 1, today + 2, min(due - 1, today + 9), due]
        return 'set_day', self.mostly(near, [due - 1, due + 1, max(today - 1, 0), *ODD])

    def recall(self, roll):
        """Recalls a lease, mostly one that lent something, or hands in its slip."""
        leases = families(roll) if self.rng.random() < 0.7 else roll
        return self.rng.choice(['recall', 'hand_in']), self.pick(leases).number

    def recall_any(self, roll):
        """Recalls any lease or hands in any slip, often of a lease that isn't live."""
        issued = self.office.ask('issued')
        return self.rng.choice(['recall', 'hand_in']), self.rng.choice([self.number(roll), self.rng.randint(1, issued)])

    def move_day(self, roll):
        """Closes what falls due first, at times with all that somebody lent or with more, and rarely everything lent."""
        today = self.office.ask('today')
        first = min(lease.due for lease in roll)
        lent = [lease.due for lease in self.pick(families(roll)).lent]
        near = [today, first, first, first, max(lent, default=first), first + 1, first - 1]
        return 'day', self.mostly([day for day in near if day < 9998], [today, max(today - 1, 0), *ODD])

    def standing(self, roll):
        """Asks what a holder has of a resource, mostly one who has something of it, or more than one lease."""
        lease, other = self.rng.choice(roll), self.rng.choice(roll)
        held = [(lease.resource, lease.holder) for lease in roll]
        often = [pair for pair in held if held.count(pair) > 1] or held
        number = self.rng.choice(ODD)
        odd = [(lease.resource, other.holder), (number, lease.holder), (lease.resource, number)]
        return ('standing', *self.mostly(often, odd))

    def question(self, roll):
        """Asks a question."""
        position = self.mostly([0, len(roll) - 1, len(roll), self.rng.randint(0, len(roll))], ODD)
        return self.rng.choice([
            ('count',), ('issued',), ('today',), ('lease', self.number(roll)), ('lease_at', position)])

    def anything(self, roll):
        """Any call with any numbers."""
        call, count = self.rng.choice(sorted(leasing.CALLS.items()))
        return (call, *(self.rng.choice([self.number(roll), self.rng.choice(ODD)]) for _ in range(count)))

    WAYS = {open: 7, lend: 14, lend_deep: 10, lend_often: 3, lend_twin: 9, lend_under_twin: 12, merge: 12, merge_many: 2,
            merge_wrong: 4, yield_last: 6, yield_any: 4, yield_all: 1, assign: 5, set_day: 4, recall: 3, recall_any: 3,
            move_day: 4, standing: 6, question: 6, anything: 5}
    WAYS_WHEN_FULL = {merge: 6, merge_many: 2, yield_last: 4, yield_any: 3, yield_all: 1, assign: 2, set_day: 1,
                      recall: 1, recall_any: 1, move_day: 2, standing: 2}

    def first(self):
        """A call where nothing is live."""
        day = self.rng.choice(self.days)
        odd = [('set_day', day), ('lease_at', 0), ('lease', 1), ('delegate', 1, 1, day), ('merge', 1, 2), ('yield', 1),
               ('recall', 1), ('hand_in', 1), ('day', day), ('standing', 1, 1)]
        return self.mostly([self.open([])], odd)

    def choose(self):
        """The next call: what is planned, or one of the ways by their weights."""
        if self.plan:
            return self.plan.pop(0)
        roll = self.office.roll()
        if not roll:
            return self.first()
        full = len(roll) == self.rows and self.rng.random() < 0.7
        ways = self.WAYS_WHEN_FULL if full else self.WAYS
        way, = self.rng.choices(list(ways), list(ways.values()))
        return way(self, roll)

    def call(self):
        """The next call, after it is made to the caller's own office; a refusal may end the plan."""
        words = self.choose()
        if leasing.answer(self.office, *words).startswith('refused') and self.rng.random() < 0.4:
            self.plan.clear()
        return words

    def job(self, many):
        """A job of about so many calls, made to the caller's own office: mostly for a lease that is out or is yet to come."""
        roll, issued = self.office.roll(), self.office.ask('issued')
        lease = self.mostly([lease.number for lease in roll] + [issued + 1, issued + 2], [self.rng.randint(1, issued + 1), *ODD])
        calls, stopped = [], False
        while len(calls) < many:
            calls.append(self.choose())
            if not stopped:
                stopped = leasing.answer(self.office, *calls[-1]).startswith('refused')
        leasing.hand_in(self.office, lease)
        return lease, calls

    def wind_up(self):
        """The calls that close everything: yields from the highest number down, recalls, or slips of all numbers."""
        roll = self.office.roll()
        return self.rng.choice([
            [('yield', lease.number) for lease in reversed(roll)],
            [('recall', lease.number) for lease in roll if lease.lender is None],
            [('hand_in', number) for number in range(self.office.ask('issued'), 0, -1)],
        ])


BLANKS = [' ', '  ', '\t', ' \t ', '\v', '\f', '\r', '\u0085', '\u00a0', '\u1680', '\u2003', '\u2028', '\u3000']


def oddly(rng, call, blank):
    """A call with odd blanks, and with plus signs and zeros."""
    signs = ['', '+', '0', '+000', '0' * 300]
    words = [rng.choice(signs) + str(word) if isinstance(word, int) else word for word in call]
    return rng.choice(['', blank]) + blank.join(words) + rng.choice(['', blank, '\r'])


def written(rng, *calls):
    """A line with these calls: now and then with odd blanks, plus signs and zeros."""
    if rng.random() < 0.94:
        return rng.choice(['; ', ';', ' ;  ']).join(' '.join(map(str, call)) for call in calls).encode()
    blank = rng.choice(BLANKS)
    return ';'.join(oddly(rng, call, blank) for call in calls).encode()


def written_job(rng, lease, calls):
    """A line with this job: now and then with odd blanks, a plus sign or zeros."""
    blank = rng.choice(BLANKS)
    slip = 'job %d' % lease if rng.random() < 0.94 else oddly(rng, ['job', lease], blank)
    return (slip + rng.choice([':', ': ', ' : '])).encode() + written(rng, *calls)


def spoiled(rng, caller):
    """A list with a piece that is no call, so that none of its calls is made."""
    pieces = [written(rng, caller.choose()) for _ in range(rng.randint(1, 5))]
    pieces.insert(rng.randint(0, len(pieces)), rng.choice(NO_CALL))
    return b'; '.join(pieces)


def some_line(rng, caller):
    """A call or, at times, a list of calls, a job or something unreadable."""
    way, = rng.choices(['call', 'list', 'job', 'spoiled list', 'unreadable line'], [76, 12, 6, 3, 3])
    if way == 'unreadable line':
        return rng.choice(UNREADABLE)
    if way == 'spoiled list':
        return spoiled(rng, caller)
    if way == 'job':
        return written_job(rng, *caller.job(rng.choice([1, 2, 3, 4, 8])))
    many = rng.choice([2, 2, 3, 4, 6, 12, 30]) if way == 'list' else 1
    return written(rng, *(caller.call() for _ in range(many)))


def last_lines(rng, calls):
    """Some calls, each on its own line or all in one list."""
    return [written(rng, *calls)] if calls and rng.random() < 0.5 else [written(rng, call) for call in calls]


def office_lines(rng, lines):
    """The lines of one office."""
    words = some_office(rng)
    caller = Caller(rng, words)
    yield written(rng, ['office', *words])
    for _ in range(lines):
        yield some_line(rng, caller)
    if rng.random() < 0.5:
        yield from last_lines(rng, caller.wind_up())


BEFORE_OFFICES = [b'count', b'open 1 1', b'lease_at 0', b'set_day 1', b'recall 1', b'standing 1 1', b'count; issued']


def random_lines(seed, offices, lines):
    """The lines of all offices, at times with a call before the first."""
    rng = random.Random(seed)
    if rng.random() < 0.3:
        yield rng.choice(BEFORE_OFFICES)
    for _ in range(offices):
        yield from office_lines(rng, lines)


def number_lines():
    """One lease stays live while the other numbers are issued, so that a delegate too meets the last one."""
    yield 'office trees 2 65535 65535 65535'
    yield 'open 2 1'
    for number in range(2, leasing.MOST_NUMBERS):
        yield 'open 1 1'
        yield 'yield %d' % number
    yield 'delegate 1 2 0'
    yield 'open 1 1'
    yield from ['open 2 1', 'open 3 1', 'delegate 1 2 0', 'delegate 1 2 5']
    yield 'yield %d' % leasing.MOST_NUMBERS
    yield from ['open 1 1', 'delegate 1 2 5', 'lease 1', 'issued', 'yield 1', 'open 2 1', 'count']


def reader_lines():
    """Lends a reader at a time to one holder, and merges it with those that the holder has."""
    yield 'office counting 3 65535 65535 65535'
    yield from ['open 1 1', 'delegate 1 2 9']
    for number in range(3, 4097):
        yield 'delegate 1 2 9'
        yield 'merge 2 %d' % number
    yield from ['delegate 1 2 9', 'delegate 2 3 9', 'merge 2 4097', 'yield 4097', 'yield 2', 'lease 1']


def row_lines():
    """Opens every resource, lends until no row is free, and yields one to lend it again."""
    yield 'office counting 65535 65535 65535 65535'
    for resource in range(1, 1000):
        yield 'open %d %d' % (resource, resource)
    yield from ['delegate %d 1 9' % lender for lender in range(1, 27)]
    yield from ['lease_at 1023', 'lease_at 1024', 'yield 999', 'delegate 998 1 9', 'open 999 1', 'count', 'issued']


def lend_readers(lender, number, readers, due):
    """Calls that lend so many readers to holder 2, one by one, all merged into the lease with the next number."""
    yield 'delegate %d 2 %d' % (lender, due)
    for other in range(number + 1, number + readers):
        yield 'delegate %d 2 %d' % (lender, due)
        yield 'merge %d %d' % (number, other)


def deep_calls(deepest, due):
    """Opens a resource, and lends from each lease to the next as many readers as that is to lend on and one more."""
    yield 'open 1 1'
    lender, number = 1, 2
    for readers in range(deepest, 0, -1):
        yield from lend_readers(lender, number, readers, due)
        lender, number = number, number + readers


def lapse_calls(resources):
    """Opens resources and lends two leases of each from each other, until days that rise with the resource."""
    for resource in range(1, resources + 1):
        first, day = resource * 3 - 2, resource * 2
        yield 'open %d %d' % (resource, resource)
        yield 'delegate %d 998 %d' % (first, day)
        yield 'delegate %d 999 %d' % (first + 1, day - resource % 2)


def family_lines():
    """Large and deep families, and many small ones, closed by recalls, hand-ins and days."""
    asked = ['standing 1 1', 'standing 1 2', 'count', 'issued']
    for close in ['day 9', 'recall 1', 'hand_in 1']:
        yield 'office counting 1024 65535 65535 65535'
        yield '; '.join(['open 1 1', *['delegate 1 2 9'] * 1024])
        yield from [*asked, close, *asked, close]
    for close in ['recall 1', 'hand_in 2', 'day 9', 'recall 1000']:
        yield 'office counting 1024 65535 65535 65535'
        yield '; '.join(deep_calls(44, 9))
        yield from [*asked, close, *asked, close]
    days = ['day %d' % day for day in range(1, 701, 50)]
    recalls = ['recall %d' % first for first in range(1, 1024, 3)]
    for close in [['day 340'], days, recalls]:
        yield 'office trees 1024 65535 65535 65535'
        yield '; '.join(lapse_calls(342))
        yield from [*asked, '; '.join([*close, 'count']), *asked, 'standing 7 7']


MODES = {'numbers': number_lines, 'readers': reader_lines, 'rows': row_lines, 'families': family_lines}


def main():
    """Prints the lines; the last has no newline where the seed is odd."""
    if len(sys.argv) == 2 and sys.argv[1] in MODES:
        sys.stdout.writelines(line + '\n' for line in MODES[sys.argv[1]]())
        return
    seed, offices, count = map(int, sys.argv[1:])
    lines = list(random_lines(seed, offices, count))
    sys.stdout.buffer.write(b'\n'.join(lines) + (b'' if seed % 2 else b'\n'))


if __name__ == '__main__':
    main()
