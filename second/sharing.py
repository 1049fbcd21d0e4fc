#!/usr/bin/env python3
"""The program `sharing` once more, by the rules of docs/SHARES.md: shares no code and no representation with crates/.

A tree share is a set of cell numbers; a counting share is a pair of a letter and a number. Reads orders from standard
input and prints what `sharing` should print.
"""
import sys

WHOLE = 64
MOST = 4095


class Trees:
    empty = frozenset()
    whole = frozenset(range(WHOLE))

    @staticmethod
    def join(a, b):
        return None if a & b else a | b

    @staticmethod
    def filled_leaves(share, first=0, size=WHOLE):
        block = range(first, first + size)
        if all(cell in share for cell in block):
            return [(first, size)]
        if not any(cell in share for cell in block):
            return []
        half = size // 2
        return Trees.filled_leaves(share, first, half) + Trees.filled_leaves(share, first + half, half)

    @staticmethod
    def halve(share):
        leaves = Trees.filled_leaves(share)
        if not leaves or any(size == 1 for _, size in leaves):
            return None
        kept = {cell for first, size in leaves for cell in range(first, first + size // 2)}
        return frozenset(kept), share - kept

    @staticmethod
    def text(share, first=0, size=WHOLE):
        leaves = Trees.filled_leaves(share, first, size)
        if not leaves:
            return '0'
        if leaves == [(first, size)]:
            return '1'
        half = size // 2
        return '(' + Trees.text(share, first, half) + Trees.text(share, first + half, half) + ')'


class Counting:
    empty = ('e', 0)
    whole = ('s', 0)

    @staticmethod
    def join(a, b):
        if a[0] == 'e':
            return b
        if b[0] == 'e':
            return a
        if a[0] == 'r' and b[0] == 'r':
            return ('r', a[1] + b[1]) if a[1] + b[1] <= MOST else None
        if a[0] == 'r':
            a, b = b, a
        if b[0] == 'r' and b[1] <= a[1]:
            return ('s', a[1] - b[1])
        return None

    @staticmethod
    def halve(share):
        letter, n = share
        if letter == 's' and n < MOST:
            return ('s', n + 1), ('r', 1)
        if letter == 'r' and n > 1:
            return ('r', n - 1), ('r', 1)
        return None

    @staticmethod
    def text(share):
        return 'e' if share[0] == 'e' else '%s%d' % share


KINDS = {'trees': Trees, 'counting': Counting}


def read_order(line):
    words = line.split()
    if len(words) != 2 or words[0] not in KINDS:
        return None
    digits = words[1][1:] if words[1].startswith('+') else words[1]
    if not (digits.isascii() and digits.isdigit()) or int(digits) > 65535:
        return None
    return words[0], int(digits)


def answer(line):
    order = read_order(line)
    if order is None:
        print('expected a kind of share (trees or counting) and how many borrowers (0 to 65535), as in: trees 5')
        return
    name, borrowers = order
    kind = KINDS[name]
    print('%s, borrowers: %d' % (name, borrowers))
    left, loans = kind.whole, []
    while len(loans) < borrowers:
        halves = kind.halve(left)
        if halves is None:
            break
        left, lent = halves
        loans.append(lent)
        print('  loan %d: lent %s, kept %s' % (len(loans), kind.text(lent), kind.text(left)))
    if len(loans) < borrowers:
        print("  no more loans: %s doesn't halve any more" % kind.text(left))
    for lent in loans:
        left = kind.join(left, lent)
    print('  every share is back: %s, %s' % (kind.text(left), 'the whole' if left == kind.whole else 'not the whole'))


def main():
    lines = sys.stdin.buffer.read().split(b'\n')
    if len(lines) > 1 and not lines[-1]:
        lines.pop()
    for line in lines:
        answer(line.decode('utf-8', 'replace'))


if __name__ == '__main__':
    main()
