#!/usr/bin/env python3
"""Writes a trial as antt: a model, and what an interpreter prints for a schedule of it.

    trial.py NAME INPUT LISTING           the model NAME, and the trial NAME
    trial.py NAME INPUT LISTING --of M    the trial alone, of the model M that stands already

INPUT holds a model's bytes and a schedule's, one after the other; LISTING is what an
interpreter prints for it: each choice with `ok` or the number of its refusal, and the
account. The trial goes into a record of crates/steps_trials/specs, where the checker
computes it anew from the definitions.
"""
import argparse
import itertools
import textwrap

TABLES = [('types', 2), ('lists', 1), ('constructors', 3), ('functions', 5), ('interfaces', 2),
          ('signatures', 4), ('classes', 8), ('methods', 7), ('nodes', 7), ('branches', 3),
          ('statements', 11)]
WIDTH = 100


def numbers(data):
    return [int.from_bytes(data[i:i + 2], 'big') for i in range(0, len(data), 2)]


def split(data):
    """The numbers behind the version byte of the model, and the choices."""
    size = 4 + int.from_bytes(data[:4], 'big')
    return numbers(data[5:size]), numbers(data[size + 5:])


def tied(texts, width):
    """Lines of at most `width` columns, none of which ends inside of a text."""
    words = ' '.join(text.replace(' ', '~') for text in texts)
    return [line.replace('~', ' ') for line in textwrap.wrap(words, width)]


def row_lines(rows):
    """A row a line; rows of one number fill lines."""
    texts = [' '.join('∷ %d' % n for n in row) for row in rows]
    return texts if len(rows[0]) > 1 else tied(texts, WIDTH - 4)


def model_text(name, ns):
    counts, at = ns[:len(TABLES)], len(TABLES)
    out = ['abbrev pub %s : List ℕ' % name, '%s =' % name, '    ' + ' ∷ '.join(map(str, counts))]
    for (table, width), count in zip(TABLES, counts):
        rows = [ns[at + width * r:at + width * (r + 1)] for r in range(count)]
        at += width * count
        if rows:
            out += ['    -- ' + table] + ['    ' + line for line in row_lines(rows)]
    return '\n'.join(out + ['    ∷ []'])


def line_text(line):
    choice, answer = line
    return 'ok %s' % choice if answer == 'ok' else 'refused %s %s' % (choice, answer)


def lines_texts(lines):
    """The list of the lines, part by part; long runs of one line are told by their length."""
    for line, group in itertools.groupby(lines):
        count = len(list(group))
        if count > 9:
            yield 'replicate %d (%s) ++' % (count, line_text(line))
        else:
            yield from [line_text(line) + ' ∷'] * count
    yield '[]'


def account_text(line):
    words = line.split()
    return 'record { %s }' % '; '.join('%s = %s' % pair for pair in zip(words[::2], words[1::2]))


def trial_text(name, model, choices, listing):
    *lines, account = listing.strip().split('\n')
    lines = [tuple(line.split()) for line in lines]
    if choices != [int(choice) for choice, _ in lines]:
        raise SystemExit('the listing is not of these choices')
    out = ['  pub %s : Trial %s' % (name, model)]
    out += ['      (' + '\n      '.join(tied(lines_texts(lines), WIDTH - 8)) + ')']
    return '\n'.join(out + ['      (%s)' % account_text(account)])


def main():
    parser = argparse.ArgumentParser(usage=__doc__)
    parser.add_argument('name')
    parser.add_argument('input')
    parser.add_argument('listing')
    parser.add_argument('--of')
    args = parser.parse_args()
    with open(args.input, 'rb') as f:
        ns, choices = split(f.read())
    with open(args.listing) as f:
        listing = f.read()
    if args.of is None:
        print(model_text(args.name, ns) + '\n')
    print(trial_text(args.name, args.of or args.name, choices, listing))


if __name__ == '__main__':
    main()
