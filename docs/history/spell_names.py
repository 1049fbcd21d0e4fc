#!/usr/bin/env python3
"""Brings the names of this repository's own definitions and lemmas to one spelling.

usage: python3 tools/spell_names.py        at the top of the repository

A name that is defined in specs/ or proofs/ and has a dash gets underscores (`with-share` becomes `with_share`); one that begins
with a capital, as types and facts do, is joined in camel case (`Joins-every-way` becomes `JoinsEveryWay`). Names that the
toolchain makes (goals and their records), names of its library, comments and strings stay as they are. Nothing is written where
two names would fall together.
"""

import os
import re
import sys

# characters that end a name
ENDS = r'\s(){}\[\],;.:«»⌜⌝"'
TOKEN = re.compile(r'[^' + ENDS + r']+')
SIGNATURE = re.compile(r'^\s*(?:abbrev pub |abbrev |unfoldable pub |unfoldable |pub )?((?:[^' + ENDS + r']+ )+): (?!goal\.)(.*)$')
HEAD = re.compile(r'^\s*(?:pub )?(?:data|record) ([^' + ENDS + r']+)')
LET = re.compile(r'\blet ([^' + ENDS + r']+) (?:[:=] )')
BINDER = re.compile(r'[({]((?:[^' + ENDS + r']+ )*[^' + ENDS + r']+) : ')
# where the plain spelling is the name of a function of src/
OTHER = {
    'bad-due': 'bad_due_day',
    'in-range': 'within_range',
    'lender-of': 'lender_of_lease',
    'of-cells': 'trees_of_cells',
    'of-permission': 'counting_of',
    'set-day': 'new_day',
    'given-out-is-held': 'given_out_is_held_lem',
    'numbers-tell-reasons-apart': 'numbers_tell_reasons_apart_lem',
    'plays-are-histories': 'plays_are_histories_lem',
}
WORDS = ('let', 'λ', 'use', 'module', 'elim', 'in')


def files():
    for folder, folders, names in os.walk('crates'):
        folders[:] = sorted(d for d in folders if d != 'out')
        for name in sorted(names):
            if name.endswith(('.rt', '.antt')):
                yield os.path.join(folder, name)


def parts(line, mark):
    """The line's code, its strings and its comment, in pieces: (is it code, text)."""
    at, start, quoted = 0, 0, False
    while at < len(line):
        if line[at] == '"':
            if quoted:
                yield False, line[start:at + 1]
                start = at + 1
            else:
                yield True, line[start:at]
                start = at
            quoted = not quoted
        elif not quoted and line.startswith(mark, at) and (at == 0 or line[at - 1] in ' \t'):
            break
        at += 1
    yield not quoted, line[start:at]
    yield False, line[at:]


def code(path, text):
    mark = '//' if path.endswith('.rt') else '--'
    for line in text.split('\n'):
        yield list(parts(line, mark))


def spelled(name):
    if name in OTHER:
        return OTHER[name]
    if name[0].isupper():
        return ''.join(word[:1].upper() + word[1:] for word in name.split('-'))
    return name.replace('-', '_')


def dashed(name):
    return re.fullmatch(r"[^\W\d_][^\s]*", name) and re.search(r"[^\s-]-[^\s-]", name) and '→' not in name


def defined(path, text):
    """The names with a dash that a file of specs/ or proofs/ defines."""
    for pieces in code(path, text):
        line = ''.join(t if is_code else ' ' * len(t) for is_code, t in pieces)
        if line.lstrip().startswith('use '):
            continue
        head = HEAD.match(line)
        if head and dashed(head.group(1)):
            yield head.group(1)
        for let in LET.finditer(line):
            if dashed(let.group(1)):
                yield let.group(1)
        for binder in BINDER.finditer(line):
            for name in binder.group(1).split():
                if dashed(name):
                    yield name
        signature = SIGNATURE.match(line)
        if signature and not any(w in WORDS for w in signature.group(1).split()) and '=' not in signature.group(1):
            for name in signature.group(1).split():
                if dashed(name):
                    yield name


def main():
    texts = {p: open(p, encoding='utf-8').read() for p in files()}
    own, seen = {}, set()
    for path, text in texts.items():
        for pieces in code(path, text):
            for is_code, piece in pieces:
                if is_code:
                    seen.update(TOKEN.findall(piece))
        if path.endswith('.antt'):
            for name in defined(path, text):
                own[name] = spelled(name)
    bad = [(old, new) for old, new in own.items() if new in seen]
    olds = {}
    for old, new in own.items():
        olds.setdefault(new, []).append(old)
    bad += [(', '.join(o), new) for new, o in olds.items() if len(o) > 1]
    for old, new in sorted(bad):
        print('falls together: %s and %s' % (old, new))
    if bad:
        return 1
    for path, text in texts.items():
        lines = []
        for line, pieces in zip(text.split('\n'), code(path, text)):
            made = ''.join(TOKEN.sub(lambda m: own.get(m.group(0), m.group(0)), t) if is_code else t for is_code, t in pieces)
            lines.append(made)
        made = '\n'.join(lines)
        if made != text:
            with open(path, 'w', encoding='utf-8') as f:
                f.write(made)
    for old in sorted(own):
        print('%s -> %s' % (old, own[old]))
    return 0


if __name__ == '__main__':
    sys.exit(main())
