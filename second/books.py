#!/usr/bin/env python3
"""Writes tenancy books, as docs/BOOK.md says what they are, to try programs with that replay them.

    books.py SEED MODE > book     the book of a seed, a number, in a mode; always the same bytes
    books.py SEED all FOLDER      the books of a seed in all modes, as files of the folder with the modes' names
    books.py list                 the modes, one on a line

The generator keeps a small office of its own, so that it can ask for calls that are granted where a mode wants that, and for
calls that are just refused where a mode wants that.
"""

import os
import random
import sys

OPEN, DELEGATE, YIELD, MERGE, ASSIGN, RECALL, DAY = range(1, 8)
TREES, COUNTING = 1, 2
NEVER, LAST_DAY, ROWS, QUOTA, MOST_EVENTS = 10000, 9999, 1024, 64, 4096
NAMES_AT_LIMITS = [0, 1, 999, 1000, 65535]
DAYS_AT_LIMITS = [0, 1, 9998, 9999, 10000, 10001, 65535]


# ---- shares: a tree share is a frozenset of blocks (first cell, size); a counting share is ("s", n) or ("r", k) ----

def joined_blocks(blocks):
    """The filled leaves of a set of blocks: two neighbours that are halves of one block become that block."""
    blocks = set(blocks)
    for size in (1, 2, 4, 8, 16, 32):
        for first in [first for first, s in blocks if s == size and first % (2 * size) == 0]:
            if (first + size, size) in blocks:
                blocks -= {(first, size), (first + size, size)}
                blocks.add((first, 2 * size))
    return frozenset(blocks)


def halves(share):
    """The kept half and the lent half, or None."""
    if isinstance(share, frozenset):
        if not share or any(size == 1 for _, size in share):
            return None
        return (frozenset((first, size // 2) for first, size in share),
                frozenset((first + size // 2, size // 2) for first, size in share))
    what, number = share
    if what == "s":
        return (("s", number + 1), ("r", 1)) if number < 4095 else None
    return (("r", number - 1), ("r", 1)) if number > 1 else None


def join(a, b):
    if isinstance(a, frozenset):
        return joined_blocks(a | b)
    (what_a, number_a), (what_b, number_b) = sorted([a, b])  # readers stand before the source
    return ("r", number_a + number_b) if what_b == "r" else ("s", number_b - number_a)


# ---- the generator's own office ----

class Lease:
    def __init__(self, number, resource, holder, lender, due, height, share):
        self.number, self.resource, self.holder, self.lender = number, resource, holder, lender
        self.due, self.height, self.share, self.borrowers = due, height, share, set()


class Book:
    """A book that is being written, and the office as its events leave it."""

    def __init__(self, rng, kind=None, chain=255, term=65535, most=MOST_EVENTS):
        self.rng, self.most = rng, most
        self.kind = kind or rng.choice([TREES, COUNTING])
        self.chain, self.term = chain, term
        self.codes, self.records = bytearray(), bytearray()
        self.today, self.issued = 0, 0
        self.leases = {}     # the live leases by number
        self.numbers = []    # the same numbers, to choose from
        self.place = {}      # where a number stands among them
        self.held = {}       # how many leases a holder has
        self.opened = {}     # the number of the first lease of an open resource
        self.closed = []     # numbers closed, the newest last
        self.far = False     # whether most leases are due as late as may be

    # the bytes

    def event(self, code, first=0, second=0, third=0):
        self.codes.append(code)
        for operand in (first, second, third):
            self.records += operand.to_bytes(2, "little")

    def full(self):
        return len(self.codes) >= self.most

    def bytes(self):
        return (len(self.codes).to_bytes(2, "little") + bytes([self.kind, self.chain]) + self.term.to_bytes(2, "little")
                + b"\0\0" + self.codes + self.records)

    # the office

    def call(self, code, first=0, second=0, third=0):
        """Writes an event, unless the book is full, and does it. Answers whether it is granted."""
        if self.full():
            return False
        self.event(code, first, second, third)
        if self.refusal(code, first, second, third):
            return False
        self.do(code, first, second, third)
        return True

    def refusal(self, code, first, second, third):
        """The number with which a call is refused, or 0."""
        at = self.leases.get
        if code in (OPEN, DELEGATE, ASSIGN) and self.held.get(second, 0) >= QUOTA:
            return 21
        if code == OPEN:
            return (1 if not 1 <= first <= 999 else 2 if not 1 <= second <= 999 else 3 if first in self.opened
                    else 5 if len(self.leases) >= ROWS else 0)
        if code == DAY:
            return 0 if self.today <= first <= LAST_DAY else 13
        lease = at(first)
        if code == DELEGATE:
            if third - self.today > self.term:
                return 22
            if lease and lease.height >= self.chain:
                return 23
        if not lease:
            return 6
        if code == DELEGATE:
            return (2 if not 1 <= second <= 999 else 7 if not self.today < third <= min(lease.due, LAST_DAY)
                    else 8 if not halves(lease.share) else 5 if len(self.leases) >= ROWS else 0)
        if code == YIELD:
            return 9 if lease.borrowers else 0
        if code == MERGE:
            other = at(second)
            return (6 if not other else 10 if first >= second else 0 if self.alike(lease, other) else 11)
        if code == ASSIGN:
            return 2 if not 1 <= second <= 999 else 12 if lease.holder == second else 0
        return 0

    @staticmethod
    def alike(a, b):
        return a.lender == b.lender != 0 and a.holder == b.holder and a.due == b.due

    def do(self, code, first, second, third):
        if code == OPEN:
            whole = frozenset([(0, 64)]) if self.kind == TREES else ("s", 0)
            self.issue(first, second, 0, NEVER, 0, whole)
            self.opened[first] = self.issued
        elif code == DELEGATE:
            lender = self.leases[first]
            lender.share, lent = halves(lender.share)
            self.issue(lender.resource, second, first, third, lender.height + 1, lent)
        elif code == YIELD:
            self.close(first)
        elif code == MERGE:
            a, b = self.leases[first], self.leases[second]
            for number in b.borrowers:
                self.leases[number].lender = first
            a.borrowers |= b.borrowers
            b.borrowers = set()
            self.close(second, into=first)
        elif code == ASSIGN:
            self.count(self.leases[first].holder, -1)
            self.count(second, 1)
            self.leases[first].holder = second
        elif code == RECALL:
            self.close_family(first)
        else:
            for number in sorted((n for n, lease in self.leases.items() if lease.due <= first), reverse=True):
                self.close(number)
            self.today = first

    def count(self, holder, by):
        self.held[holder] = self.held.get(holder, 0) + by

    def issue(self, resource, holder, lender, due, height, share):
        self.issued += 1
        self.leases[self.issued] = Lease(self.issued, resource, holder, lender, due, height, share)
        self.place[self.issued] = len(self.numbers)
        self.numbers.append(self.issued)
        self.count(holder, 1)
        if lender:
            self.leases[lender].borrowers.add(self.issued)

    def close(self, number, into=None):
        lease = self.leases.pop(number)
        place, last = self.place.pop(number), self.numbers.pop()
        if last != number:
            self.numbers[place], self.place[last] = last, place
        self.count(lease.holder, -1)
        self.closed.append(number)
        if lease.lender == 0:
            del self.opened[lease.resource]
        else:
            self.leases[lease.lender].borrowers.discard(number)
            gainer = self.leases[into or lease.lender]
            gainer.share = join(gainer.share, lease.share)

    def close_family(self, number):
        for borrower in list(self.leases[number].borrowers):
            self.close_family(borrower)
        self.close(number)

    # choices

    def some(self):
        """The number of some live lease, or of none that is live."""
        return self.rng.choice(self.numbers) if self.numbers else self.rng.randint(0, 3)

    def some_lease(self, wanted, tries=12):
        """Some live lease that is as wanted, if one is found soon."""
        for _ in range(tries if self.numbers else 0):
            lease = self.leases[self.rng.choice(self.numbers)]
            if wanted(lease):
                return lease
        return None

    def due_within(self, lender):
        """A due day that the lender may ask for, at a limit now and then."""
        latest = min(lender.due, LAST_DAY, self.today + self.term)
        if latest <= self.today:
            return latest
        way = self.rng.random()
        if way < (0.95 if self.far else 0.35):
            return latest
        if way < 0.45:
            return self.today + 1
        if way < 0.75:
            return min(latest, (self.today // 10 + self.rng.randint(1, 3)) * 10)
        return self.rng.randint(self.today + 1, min(latest, self.today + 40))

    # calls that are mostly granted

    def try_open(self, resources, holders):
        free = [r for r in self.rng.sample(resources, min(6, len(resources))) if r not in self.opened]
        return self.call(OPEN, self.rng.choice(free or resources), self.rng.choice(holders))

    def try_delegate(self, holders):
        lender = self.some_lease(lambda lease: lease.height < self.chain and halves(lease.share))
        if not lender:
            return False
        due, holder = self.due_within(lender), self.rng.choice(holders)
        if lender.borrowers and self.rng.random() < 0.4:  # a lease like one that it lent already
            like = self.leases[self.rng.choice(sorted(lender.borrowers))]
            due, holder = like.due, like.holder
        return self.call(DELEGATE, lender.number, holder, due)

    def try_yield(self):
        lease = self.some_lease(lambda lease: not lease.borrowers)
        return bool(lease) and self.call(YIELD, lease.number)

    def pair(self):
        """Two leases that merge, the lower first, or None."""
        for _ in range(12):
            lender = self.some_lease(lambda lease: len(lease.borrowers) > 1)
            if lender:
                seen = {}
                borrowers = sorted(lender.borrowers)
                self.rng.shuffle(borrowers)
                for number in borrowers:
                    lease = self.leases[number]
                    other = seen.setdefault((lease.holder, lease.due), number)
                    if other != number:
                        return min(other, number), max(other, number)
        return None

    def try_merge(self):
        pair = self.pair()
        return bool(pair) and self.call(MERGE, *pair)

    def try_assign(self, holders):
        lease = self.some_lease(lambda lease: True)
        holder = self.rng.choice(holders)
        return bool(lease) and lease.holder != holder and self.call(ASSIGN, lease.number, holder)

    def try_recall(self, first_leases=0.2):
        lease = self.some_lease(lambda lease: lease.lender or self.rng.random() < first_leases)
        return bool(lease) and self.call(RECALL, lease.number)

    def try_day(self, most=8):
        return self.call(DAY, min(LAST_DAY, self.today + self.rng.randint(0, most)))


def names(rng, count):
    """Some names of resources or holders, with 1 and 999 among them more often than not."""
    chosen = rng.sample(range(2, 999), count)
    for limit in (1, 999):
        if rng.random() < 0.6:
            chosen[rng.randrange(count)] = limit
    return chosen


def some_term(rng):
    return rng.choice([1, 5, 30, 100, 1000, 9999, 10000, 65535])


def wild_call(book):
    """A call with any operands, most of them near something."""
    rng = book.rng

    def operand():
        return rng.choice([book.some(), rng.choice(NAMES_AT_LIMITS), rng.choice(DAYS_AT_LIMITS), book.today,
                           book.today + rng.randint(0, 20), rng.randint(0, 65535), book.issued + 1,
                           book.closed[-1] if book.closed else 0])

    code = rng.randint(1, 7)
    used = {OPEN: 2, DELEGATE: 3, YIELD: 1, MERGE: 2, ASSIGN: 2, RECALL: 1, DAY: 1}[code]
    if code == DAY:
        return book.call(DAY, rng.choice([book.today, book.today + 1, max(0, book.today - 1)]))
    return book.call(code, *[operand() for _ in range(used)])


def granted_call(book, resources, holders, weights):
    """A call that is mostly granted, of a sort that is chosen by weights."""
    ways = [lambda: book.try_open(resources, holders), lambda: book.try_delegate(holders), book.try_yield, book.try_merge,
            lambda: book.try_assign(holders), book.try_recall, book.try_day]
    return book.rng.choices(ways, weights)[0]()


# ---- the modes ----

def mode_random(rng):
    events = rng.choice([rng.randint(0, 20), rng.randint(20, 300), rng.randint(300, 1500), rng.randint(1500, 4096)])
    book = Book(rng, chain=rng.choice([1, 2, 3, 5, 6, 7, 255, 255]), term=some_term(rng), most=events)
    resources, holders = names(rng, rng.choice([2, 5, 20, 200])), names(rng, rng.choice([2, 4, 12, 100]))
    fragmenting = rng.choice([0, 0, 0.03])
    weights = [rng.randint(2, 8), rng.randint(15, 40), rng.randint(1, 8), rng.randint(2, 15), rng.randint(1, 6),
               rng.randint(0, 3), rng.randint(0, 4)]
    rounds = 0
    while not book.full():
        rounds += 1
        if rounds > 20 * events + 100 or rng.random() < 0.06:
            wild_call(book)
        elif rng.random() < fragmenting:
            fragments(book, holders)
        else:
            granted_call(book, resources, holders, weights)
    return book.bytes()


def unlike_code(rng):
    return rng.choice([0, 8, 9, 14, 15, 128, 255, rng.randint(8, 255)])


class Aims:
    """Calls that are aimed at one refusal each, or at the last call before it that is granted."""

    def __init__(self, book, resources, holders, busy):
        self.book, self.rng = book, book.rng
        self.resources, self.holders, self.busy = resources, holders, busy  # busy: a holder with many leases

    def no_name(self):
        return self.rng.choice([0, 1000, 1000, 1001, 65535, 1 + 65535 // 2])

    def a_name(self):
        return self.rng.choice([1, 999, self.rng.choice(self.holders)])

    def not_live(self):
        book = self.book
        return self.rng.choice([0, book.issued + 1, 65535, 60001, 60000, 4097] + book.closed[-3:])

    def a_day(self):
        return min(LAST_DAY, self.book.today + self.rng.randint(0, 3))

    def aim_1(self):
        self.book.call(OPEN, self.no_name(), self.rng.choice([self.a_name(), self.no_name(), self.busy]))

    def aim_2(self):
        book, rng = self.book, self.rng
        way = rng.randrange(3)
        if way == 0:
            book.call(OPEN, rng.choice(self.resources + [1, 999]), self.no_name())
        elif way == 1:
            book.call(DELEGATE, book.some(), self.no_name(), rng.choice([book.today, book.today + 1, 65535]))
        else:
            book.call(ASSIGN, rng.choice([book.some(), self.not_live()]), self.no_name())

    def aim_3(self):
        book = self.book
        opened = sorted(book.opened)
        book.call(OPEN, self.rng.choice(opened or self.resources), self.rng.choice([self.a_name(), self.no_name(), self.busy]))

    def aim_6(self):
        book, rng = self.book, self.rng
        gone, there = self.not_live(), book.some()
        calls = [(DELEGATE, gone, self.a_name(), book.today + 1), (DELEGATE, gone, self.no_name(), book.today),
                 (DELEGATE, gone, self.busy, min(65535, book.today + book.term + 1)), (YIELD, gone), (MERGE, gone, there),
                 (MERGE, there, gone), (MERGE, gone, gone), (ASSIGN, gone, self.a_name()), (ASSIGN, gone, self.busy),
                 (RECALL, gone)]
        book.call(*rng.choice(calls))

    def aim_7(self):
        book, rng = self.book, self.rng
        lease = book.some_lease(lambda lease: lease.height < book.chain)
        if lease:
            due = rng.choice([book.today, book.today, max(0, book.today - 1), 0, book.today + 1, min(lease.due, 65535),
                              lease.due + 1, LAST_DAY, NEVER, book.today + book.term])
            book.call(DELEGATE, lease.number, self.a_name(), min(65535, due))

    def aim_8(self):
        """A lease that doesn't halve, or one that is lent from until it doesn't."""
        book = self.book
        lease = book.some_lease(lambda lease: lease.height < book.chain and not halves(lease.share), 30)
        lease = lease or book.some_lease(lambda lease: lease.height < book.chain)
        for _ in range(7 if lease else 0):
            if not book.call(DELEGATE, lease.number, self.a_name(), book.due_within(lease)):
                break

    def aim_9(self):
        lease = self.book.some_lease(lambda lease: lease.borrowers, 30)
        if lease:
            self.book.call(YIELD, lease.number)

    def aim_10(self):
        book = self.book
        pair = book.pair() or (book.some(), book.some())
        low, high = pair
        book.call(MERGE, *self.rng.choice([(high, low), (low, low), (high, high)]))
        if self.rng.random() < 0.5:
            book.call(MERGE, low, high)

    def aim_11(self):
        """Merges of leases that differ in just one thing, of leases of the house, and of a lease with its lender."""
        book, rng = self.book, self.rng
        lender = book.some_lease(lambda lease: lease.height < book.chain and halves(lease.share))
        way = rng.randrange(5)
        if way == 0 or not lender:
            first = sorted(book.opened.values())
            if len(first) > 1:
                book.call(MERGE, *sorted(rng.sample(first, 2)))
        elif way == 1:
            lease = book.some_lease(lambda lease: lease.lender)
            if lease:
                book.call(MERGE, lease.lender, lease.number)
        else:
            self.unlike_pair(lender, way)

    def unlike_pair(self, lender, way):
        book = self.book
        due, holder = book.due_within(lender), self.a_name()
        if not book.call(DELEGATE, lender.number, holder, due):
            return
        a = book.issued
        other_due = due - 1 if way == 2 and due - 1 > book.today else due
        other_holder = 1 + holder % 999 if way == 3 else holder
        if book.call(DELEGATE, a if way == 4 else lender.number, other_holder, other_due):
            book.call(MERGE, a, book.issued)
            if way == 3 and self.rng.random() < 0.7:  # now they are alike
                book.call(ASSIGN, book.issued, holder)
                book.call(MERGE, a, book.issued)

    def aim_12(self):
        number = self.book.some()
        if number in self.book.leases:
            self.book.call(ASSIGN, number, self.book.leases[number].holder)

    def aim_13(self):
        book = self.book
        book.call(DAY, self.rng.choice([max(0, book.today - 1), book.today - 1 if book.today else 0, book.today, 10000, 10001,
                                        65535, 0]))

    def aim_21(self):
        book, rng = self.book, self.rng
        calls = [(OPEN, rng.choice(self.resources + [0, 1000]), self.busy), (DELEGATE, book.some(), self.busy, book.today + 1),
                 (DELEGATE, self.not_live(), self.busy, book.today), (ASSIGN, book.some(), self.busy),
                 (ASSIGN, self.not_live(), self.busy)]
        book.call(*rng.choice(calls))

    def aim_22(self):
        book, rng = self.book, self.rng
        due = book.today + book.term + rng.choice([0, 1, 1, 2])
        lender = rng.choice([book.some(), book.some(), self.not_live()])
        book.call(DELEGATE, lender, rng.choice([self.a_name(), self.no_name(), self.busy]), min(65535, due))

    def aim_23(self):
        book, rng = self.book, self.rng
        lease = book.some_lease(lambda lease: lease.height >= book.chain - 1, 30)
        if lease:
            due = rng.choice([book.due_within(lease), book.today, min(65535, book.today + book.term + 1)])
            book.call(DELEGATE, lease.number, rng.choice([self.a_name(), self.a_name(), self.no_name()]), due)

    def aim_47(self):
        if not self.book.full():
            operands = [self.rng.choice([0, 1, 65535]) for _ in range(3)]
            self.book.event(unlike_code(self.rng), *operands)

    def aim_48(self):
        """A call that would often be granted, with an operand too many."""
        book, rng = self.book, self.rng
        code = rng.choice([OPEN, YIELD, MERGE, ASSIGN, RECALL, DAY])
        extra = rng.choice([1, 255, 256, 65535])
        if book.full():
            return
        if code in (OPEN, MERGE, ASSIGN):
            book.event(code, book.some(), self.a_name(), extra)
        else:
            first = self.a_day() if code == DAY else book.some()
            book.event(code, first, *rng.choice([(extra, 0), (0, extra), (extra, extra)]))

    def recall_first(self):
        first = sorted(self.book.opened.values())
        if first:
            self.book.call(RECALL, self.rng.choice(first))

    def lapse_family(self):
        """A family all due on one day, or on days one after the other, and then that day."""
        book = self.book
        lender = book.some_lease(lambda lease: not lease.lender and halves(lease.share))
        due = min(LAST_DAY, book.today + min(book.term, self.rng.randint(1, 4)))
        number = lender.number if lender else 0
        for _ in range(5 if lender else 0):
            if not book.call(DELEGATE, number, self.a_name(), due):
                break
            number = self.rng.choice([number, book.issued, book.issued])
        book.call(DAY, self.rng.choice([max(0, due - 1), due]))
        book.call(DAY, due)


def mode_adversarial(rng):
    chain = rng.choice([0, 1, 2, 2, 3, 4, 255])
    term = rng.choice([0, 1, 2, 5, 30, 9998, 9999, 10000, 65535])
    book = Book(rng, chain=chain, term=term, most=rng.randint(30, 1500))
    resources, holders = names(rng, rng.choice([4, 10, 30])), names(rng, rng.choice([2, 3, 8]))
    busy = rng.choice(holders)
    aims = Aims(book, resources, holders, busy)
    all_aims = [getattr(aims, name) for name in dir(aims) if name.startswith("aim_")] + [aims.recall_first, aims.lapse_family]
    if rng.random() < 0.5:
        book.most += 80
        for resource in rng.sample(range(1, 1000), QUOTA + rng.randint(-1, 2)):
            book.call(OPEN, resource, busy)
    if rng.random() < 0.3:
        book.call(DAY, rng.choice([9990, 9997, 9998, 9999]))
    weights = [6, 30, 3, 6, 3, 1, 1]
    while not book.full():
        if rng.random() < 0.45:
            granted_call(book, resources, holders, weights)
        rng.choice(all_aims)()
    return book.bytes()


def mode_damaged(rng):
    good = bytearray(mode_random(rng) if rng.random() < 0.5 else Book(rng, most=0).bytes())
    ways = rng.sample(range(12), rng.choice([1, 1, 1, 2, 3]))
    for way in sorted(ways, reverse=True):  # what cuts the book short comes last
        good = damage(rng, good, way)
    return bytes(good)


def damage(rng, book, way):
    """A book with one thing wrong with it; now and then it is one that still opens."""
    book = bytearray(book)
    long_enough = len(book) >= 8
    if way == 0:
        return book[:rng.randint(0, 7)]
    if way == 1:
        return book[:-1]
    if way == 2:
        return book[:rng.randint(0, len(book))]
    if way == 3:
        return book + bytes([rng.choice([0, 1, 255])])
    if way == 4:
        return book + bytes(rng.randint(2, 40))
    if way == 5 and long_enough:
        book[0:2] = rng.choice([4096, 4097, 4098, 65535, 4352, 8192]).to_bytes(2, "little")
    if way == 6 and long_enough:
        events = rng.choice([4095, 4096, 4097])
        return events.to_bytes(2, "little") + book[2:8] + bytes(7 * events)
    if way == 7 and long_enough:
        book[2] = rng.choice([0, 4, 5, 127, 255])
    if way == 8 and long_enough:
        book[rng.choice([6, 7])] = rng.choice([1, 128, 255])
    if way == 9 and long_enough:
        events = int.from_bytes(book[0:2], "little") + rng.choice([-1, 1, 256])
        book[0:2] = max(0, min(65535, events)).to_bytes(2, "little")
    if way == 10:
        return book + bytes(rng.choice([28680, 28681, 28682, 40000, 70000]) - min(len(book), 28680))
    if way == 11:
        return bytearray(rng.choice([0, 1, 2, 255]) for _ in range(rng.randint(0, 60)))
    return book


def fill(book, holders):
    """Fills the rows by opens and delegates of some mixture. Holders have to be 16 or more."""
    rng = book.rng
    wide = rng.random() < 0.5  # many resources, or few
    resources = rng.sample(range(1, 1000), rng.choice([990, 999]) if wide else rng.randint(17, 60))
    stuck = 0
    while len(book.leases) < ROWS and not book.full() and stuck < 3000:
        holder = rng.choice(holders)
        if rng.random() < (0.9 if wide else 0.06) and len(book.opened) < len(resources):
            done = book.call(OPEN, rng.choice([r for r in resources if r not in book.opened]), holder)
        else:
            lender = book.some_lease(lambda lease: lease.height < book.chain and halves(lease.share))
            done = bool(lender) and book.held.get(holder, 0) < QUOTA and book.call(
                DELEGATE, lender.number, holder, book.due_within(lender))
            if not lender:
                free = [r for r in resources if r not in book.opened] or [r for r in range(1, 1000) if r not in book.opened]
                done = bool(free) and book.call(OPEN, rng.choice(free), holder)
        stuck = 0 if done else stuck + 1


def past_full(book, holders):
    """Calls to an office whose rows are all used."""
    rng = book.rng
    free = [r for r in range(1, 1000) if r not in book.opened] or [1]
    lender = book.some_lease(lambda lease: halves(lease.share), 40)
    number = lender.number if lender else book.some()
    due = book.due_within(lender) if lender else book.today + 1
    calls = [(OPEN, rng.choice(free), rng.choice(holders)), (OPEN, rng.choice(free), rng.choice([0, 1000])),
             (OPEN, rng.choice([0, 1000]), rng.choice(holders)), (OPEN, rng.choice(sorted(book.opened) or [1]), rng.choice(holders)),
             (DELEGATE, number, rng.choice(holders), due), (DELEGATE, number, rng.choice(holders), due),
             (DELEGATE, book.some(), rng.choice(holders), due), (DELEGATE, number, rng.choice(holders), book.today),
             (ASSIGN, number, rng.choice(holders))]
    book.call(*rng.choice(calls))


def mode_full(rng):
    book = Book(rng, chain=rng.choice([1, 3, 6, 255]), term=rng.choice([30, 1000, 65535]), most=rng.randint(1400, 3000))
    holders = names(rng, rng.choice([17, 20, 60, 300]))
    fill(book, holders)
    while not book.full():
        for _ in range(rng.randint(1, 12)):
            past_full(book, holders)
        for _ in range(rng.choice([1, 1, 2, 3])):
            rng.choice([book.try_yield, book.try_yield, book.try_merge, book.try_recall, lambda: book.try_day(2)])()
        if rng.random() < 0.8:
            fill(book, holders)
    return book.bytes()


def mode_quota(rng):
    book = Book(rng, chain=rng.choice([2, 255]), term=rng.choice([30, 65535]), most=rng.randint(150, 900))
    busy, other, third = names(rng, 3)
    many = rng.sample(range(1, 1000), 80)
    lent_from = many[:rng.randint(1, 70)]
    for resource in lent_from:
        book.call(OPEN, resource, rng.choice([busy, busy, other]))
    while not book.full():
        holder = rng.choice([busy, busy, busy, other, third])
        way = rng.random()
        lender = book.some_lease(lambda lease: lease.height < book.chain and halves(lease.share))
        if way < 0.2:
            book.call(OPEN, rng.choice(many), holder)
        elif way < 0.6 and lender:
            book.call(DELEGATE, lender.number, holder, rng.choice([min(lender.due, book.today + 9), book.due_within(lender)]))
        elif way < 0.72:
            book.call(ASSIGN, book.some(), holder)
        elif way < 0.8:
            book.try_merge()
        elif way < 0.86:
            book.try_yield()
        elif way < 0.88:
            book.try_recall(0.5)
        elif way < 0.89:
            book.try_day(4)
        elif way < 0.93:
            book.call(ASSIGN, rng.choice([0, book.issued + 1] + book.closed[-1:]), holder)
        else:  # a lease of the busy holder, to itself or away and back
            lease = book.some_lease(lambda lease: lease.holder == busy, 30)
            if lease:
                book.call(ASSIGN, lease.number, rng.choice([busy, other]))
                book.call(ASSIGN, lease.number, busy)
    return book.bytes()


def deep_counting_chain(book, resource, holders, length):
    """A chain of counting leases: each lender lends one reader after the other to one holder, who merges them."""
    rng = book.rng
    if not book.call(OPEN, resource, rng.choice(holders)):
        return []
    chain, due = [book.issued], min(LAST_DAY, book.today + min(book.term, 200))
    for readers in range(length, 0, -1):
        lender, holder, number = chain[-1], rng.choice(holders), 0
        for _ in range(readers):
            if not book.call(DELEGATE, lender, holder, due):
                return chain
            if number:
                book.call(MERGE, number, book.issued)
            number = number or book.issued
        chain.append(number)
        if due > book.today + 1 and rng.random() < 0.5:
            due -= 1
    return chain


def deep_tree_chain(book, resource, holders):
    rng = book.rng
    if not book.call(OPEN, resource, rng.choice(holders)):
        return []
    chain, due = [book.issued], min(LAST_DAY, book.today + min(book.term, 40))
    while book.call(DELEGATE, chain[-1], rng.choice(holders), due):
        chain.append(book.issued)
        if rng.random() < 0.4 and book.call(DELEGATE, chain[-2], rng.choice(holders), due):
            book.call(DELEGATE, book.issued, rng.choice(holders), due)
        if due > book.today + 1 and rng.random() < 0.5:
            due -= 1
    return chain


def use_chain(book, chain, holders):
    """Lends past the end of a chain, yields in its middle, recalls from it, and lets parts of it lapse."""
    rng = book.rng
    for _ in range(rng.randint(2, 8)):
        number = rng.choice(chain)
        way = rng.randrange(6)
        if way == 0:
            book.call(YIELD, number)
        elif way == 1:
            book.call(DELEGATE, chain[-1], rng.choice(holders), book.today + 1)
        elif way == 2:
            book.call(ASSIGN, number, rng.choice(holders))
        elif way == 3:
            book.call(RECALL, rng.choice(chain[len(chain) // 2:]))
        elif way == 4 and chain[-1] in book.leases:
            book.call(DAY, max(book.today, min(LAST_DAY, book.leases[chain[-1]].due + rng.randint(-1, 3))))
        else:
            book.call(DELEGATE, number, rng.choice(holders), book.today + 1)
    if rng.random() < 0.6:
        book.call(RECALL, rng.choice(chain))


def mode_chains(rng):
    book = Book(rng, chain=rng.choice([255, 254, 40, 20, 10, 7, 6, 5]), term=rng.choice([300, 65535, 30]),
                most=rng.choice([400, 1200, 4096]))
    holders = names(rng, rng.choice([3, 30]))
    for resource in rng.sample(range(1, 1000), 900):
        if book.full():
            break
        if book.kind == TREES:
            chain = deep_tree_chain(book, resource, holders)
        else:
            most = int((book.most - len(book.codes)) ** 0.5)
            chain = deep_counting_chain(book, resource, holders, rng.choice([3, 6, max(1, most - 1), max(1, most // 2)]))
        if chain:
            use_chain(book, chain, holders)
        if rng.random() < 0.05:
            book.try_day(30)
    return book.bytes()


def mode_merges(rng):
    book = Book(rng, chain=rng.choice([2, 3, 6, 255]), term=rng.choice([50, 65535]), most=rng.randint(100, 2500))
    resources, holders = names(rng, rng.choice([2, 6, 20])), names(rng, rng.choice([2, 3, 5]))
    while not book.full():
        way = rng.random()
        if way < 0.06:
            book.try_open(resources, holders)
        elif way < 0.5:
            alike_leases(book, holders)
        elif way < 0.75:
            pair = book.pair()
            if pair:
                lend_from_both(book, pair, holders)
                book.call(MERGE, *pair)
                after_merge(book, pair)
        elif way < 0.9:
            book.try_merge() or book.try_open(resources, holders)
        elif way < 0.92:
            book.try_yield()
        elif way < 0.95:
            fragments(book, holders)
        elif way < 0.97:
            book.try_assign(holders)
        elif way < 0.99:
            book.try_recall(0.1)
        else:
            book.try_day(5)
        if rng.random() < 0.02:
            wild_call(book)
    return book.bytes()


def alike_leases(book, holders):
    """Two or more leases of one lender to one holder, due on one day."""
    lender = book.some_lease(lambda lease: lease.height < book.chain and halves(lease.share))
    if lender:
        holder, due = book.rng.choice(holders), book.due_within(lender)
        for _ in range(book.rng.choice([2, 2, 3, 6])):
            book.call(DELEGATE, lender.number, holder, due)


def fragments(book, holders):
    """A lease lends again and again, and what it lent before the last is given back: tree shares of many leaves. Some of
    what it lent is kept by one holder and merged."""
    rng = book.rng
    lender = book.some_lease(lambda lease: lease.height < book.chain and not lease.borrowers and halves(lease.share), 30)
    if not lender:
        return
    holder, due, lent = rng.choice(holders), book.due_within(lender), []
    for _ in range(rng.randint(4, 16)):
        if not book.call(DELEGATE, lender.number, holder, due):
            break
        lent.append(book.issued)
        if len(lent) > 1 and rng.random() < 0.85:
            book.call(YIELD, lent.pop(-2))
        elif len(lent) > 1:
            book.call(MERGE, lent[-2], lent.pop())


def lend_from_both(book, pair, holders):
    rng = book.rng
    for number in pair:
        lease = book.leases[number]
        for _ in range(rng.randint(0, 2)):
            if lease.height < book.chain and halves(lease.share):
                book.call(DELEGATE, number, rng.choice(holders), book.due_within(lease))


def after_merge(book, pair):
    """What a merge should have changed is asked for: the closed lease, what it lent, and the lease that grew."""
    rng = book.rng
    low, high = pair
    if rng.random() < 0.3:
        book.call(rng.choice([YIELD, RECALL]), high)
    if low in book.leases:
        borrowers = sorted(book.leases[low].borrowers)
        way = rng.random()
        if way < 0.25:
            book.call(YIELD, low)
        elif way < 0.5 and borrowers:
            book.call(YIELD, rng.choice(borrowers))
        elif way < 0.6 and borrowers:
            book.call(RECALL, rng.choice(borrowers))
        elif way < 0.75:
            book.call(RECALL, low)
        elif way < 0.8:
            book.call(RECALL, book.leases[low].lender)
        elif len(borrowers) > 1:
            book.call(MERGE, *sorted(rng.sample(borrowers, 2)))


def mode_heavy(rng):
    """As many events as a book can have, nearly all rows used from early on, and a refusal for about every second call."""
    book = Book(rng, chain=rng.choice([6, 255]), term=rng.choice([1000, 65535]), most=MOST_EVENTS)
    book.far = True
    holders = names(rng, rng.choice([20, 24, 60]))
    resources = names(rng, rng.randint(20, 60))
    for resource in resources:
        book.call(OPEN, resource, rng.choice(holders))
        if book.kind == TREES:
            fragments(book, holders)
    fill(book, holders)
    while not book.full():
        way = rng.random()
        if way < 0.5:
            past_full(book, holders)
        elif way < 0.6:
            wild_call(book)
        elif way < 0.62:
            book.try_assign(holders)
        elif way < 0.625:
            book.try_recall(0.02)
        elif way < 0.63:
            fragments(book, holders)
        elif len(book.leases) > ROWS - 3:
            rng.choice([book.try_yield, book.try_yield, book.try_merge])()
        else:
            rng.choice([lambda: book.try_open(resources, holders)] + 9 * [lambda: book.try_delegate(holders)])()
    return book.bytes()


def mode_too_long(rng):
    """The longest book and a byte more: as many bytes as the programs read, of which all but the last are a book."""
    return mode_heavy(rng) + bytes([rng.choice([0, 1, 255])])


MODES = {"random": mode_random, "adversarial": mode_adversarial, "damaged": mode_damaged, "full": mode_full,
         "quota": mode_quota, "chains": mode_chains, "merges": mode_merges, "heavy": mode_heavy, "too_long": mode_too_long}


def book_of(seed, mode):
    return MODES[mode](random.Random(f"{mode} {seed}"))


def main(arguments):
    if arguments == ["list"]:
        print("\n".join(MODES))
    elif len(arguments) == 2 and arguments[0].isdigit() and arguments[1] in MODES:
        sys.stdout.buffer.write(book_of(int(arguments[0]), arguments[1]))
    elif len(arguments) == 3 and arguments[0].isdigit() and arguments[1] == "all":
        for mode in MODES:
            with open(os.path.join(arguments[2], mode), "wb") as file:
                file.write(book_of(int(arguments[0]), mode))
    else:
        print("expected: books.py SEED MODE, books.py SEED all FOLDER, or books.py list", file=sys.stderr)
        return 2
    return 0


if __name__ == "__main__":
    sys.exit(main(sys.argv[1:]))
