#!/usr/bin/env python3
"""What the calls program prints (document 01, module 8), by the model in steps.py, and inputs to try it on.

  calls.py                answers the lines of standard input
  calls.py gate           writes the input of crates/calls, whose answers are its stdout
  calls.py cases FOLDER   writes the inputs FOLDER/NAME.in, and the answers to each as FOLDER/NAME.out
"""
import os
import random
import sys

from steps import ROUNDS, Steps

LONGEST = 1100


def joined(word, values):
    return ' '.join([word] + [str(value) for value in values])


def call(steps, name, k=0, v=0, marks=''):
    """The call's answer, with what it wrote to slices that have room for anything. Its poster is 0."""
    out, out2 = [0] * ROUNDS, [0] * ROUNDS
    said = steps.call(name, 0, k, v, out, out2, [int(mark) for mark in marks])
    return said, out, out2


def printed(name, said, out, out2):
    kind, a, b, c = said
    if kind == 0:
        return 'refused %d' % a
    if kind == 1:
        return 'none'
    if name == 'append':
        return 'present' if a else 'new'
    if name in ('insert_all', 'remove_all'):
        return joined('old', [a] + out[:a])
    if name == 'retain':
        return 'kept %d' % a
    if name == 'keys':
        return joined('keys', out[:a])
    if name == 'iter':
        return joined('list', ['%d:%d' % pair for pair in zip(out[:a], out2[:a])])
    return 'pop %d %d %s' % (a, b, 'gone' if c else 'stays')


def number(field):
    if not field or any(c not in '0123456789' for c in field):
        return None
    value = int(field)
    return value if value < 2 ** 64 else None


def request(line):
    """The call that a line asks for and its arguments, or None."""
    fields = line.decode('latin-1').split(' ')
    letter, rest = fields[0], fields[1:]
    numbers = [number(field) for field in rest]
    if len(line) > LONGEST:
        return None
    if letter in ('a', 'i') and len(rest) == 2 and None not in numbers:
        return ('append' if letter == 'a' else 'insert_all', *numbers)
    if letter == 'r' and len(rest) == 1 and None not in numbers:
        return ('remove_all', *numbers)
    if letter == 'k' and len(rest) == 1 and rest[0] and all(c in '01' for c in rest[0]):
        return ('retain', 0, 0, rest[0])
    alone = {'f': 'pop_front', 'b': 'pop_back', 'k': 'retain', 'l': 'iter', 'm': 'keys'}
    return (alone[letter],) if letter in alone and not rest else None


def answer(steps, line):
    asked = request(line)
    return printed(asked[0], *call(steps, *asked)) if asked else 'line?'


def answers(data):
    lines = data.split(b'\n')
    if lines[-1] == b'':
        lines.pop()
    steps = Steps()
    return ''.join(answer(steps, line) + '\n' for line in lines).encode()


MALFORMED = [
    b'', b' ', b'  ', b'x', b'A 7 10', b'aa 7 10', b'a', b'a ', b'a 7', b'a 7 ', b'a  7 10', b'a 7  10', b' a 7 10', b'a 7 10 ', b'a 7 10 11', b'a7 10',
    b'a +7 10', b'a -7 10', b'a 0x7 10', b'a 7. 10', b'a 7,10', b'a\t7 10', b'a 7\t10', b'a 7 10\r', b'a 7 10\0', b'\0', b'a 7 \x00', b'a 7 1\xc2\xb9',
    b'\xef\xbb\xbfa 7 10', b'a 18446744073709551616 1', b'a 1 18446744073709551616', b'a 99999999999999999999 1', b'a 1 184467440737095516150',
    b'i', b'i 7', b'i 7 12 13', b'i 7 x', b'r', b'r ', b'r 7 8', b'r x', b'r 18446744073709551616', b'f ', b'f 1', b'ff', b'b ', b'bb', b'k ', b'k  ',
    b'k 2', b'k 0 1', b'k 01 ', b'k  01', b'k01', b'k 0a', b'l ', b'l 1', b'll', b'm ', b'm 1', b'mm', b'line?', b'/', b':',
]


def cases():
    example = b'a 7 10\na 9 20\na 7 11\ni 7 12\nl\nm\nb\nk 0\nl\n'
    yield 'example', example
    yield 'empty', b''
    yield 'one_line_end', b'\n'
    yield 'no_last_line_end', b'a 7 10\na 9 20\nl'
    yield 'last_line_malformed', b'a 7 10\nl \n?'
    yield 'malformed', b''.join(b'a 7 10\n%s\nl\nm\n' % bad for bad in MALFORMED)
    largest = b'18446744073709551615'
    yield 'numbers', b'\n'.join([b'a 0 0', b'a 00 000', b'a %s %s' % (largest, largest), b'a 018446744073709551615 1', b'a %s 1' % (b'0' * 1000), b'i %s 0' % largest, b'l', b'm', b'r 0', b'r 0', b'l', b'm', b'f', b'f']) + b'\n'
    yield 'lengths', b'\n'.join([b'a 1 ' + b'0' * (1100 - 5) + b'1', b'a 1 ' + b'0' * (1101 - 5) + b'1', b'k ' + b'0' * 1098, b'k ' + b'0' * 1099, b'x' * 1100, b'x' * 1101, b'a ' * 4000, b'l', b'l ' * 1000, b'm']) + b'\n'
    yield 'long_last_line', b'a 1 2\n' + b'9' * 200000
    rounds = [b'a %d %d' % (2 ** 64 - 1 - i % 256, 2 ** 64 - 1 - i) for i in range(1023)]
    yield 'limits', b'\n'.join(rounds + [b'a 5 5', b'l', b'a 18446744073709551615 1', b'a 18446744073709551615 2', b'a 5 5', b'i 5 5', b'i 18446744073709551615 3', b'l', b'm', b'r 18446744073709551614', b'a 5 5', b'k ' + b'1' * 1024, b'k ' + b'01' * 510, b'l', b'm']) + b'\n'
    members = [b'a %d %d' % (i, i) for i in range(256)]
    yield 'members', b'\n'.join(members + [b'a 3 1'] * 44 + [b'a 256 1', b'i 256 1', b'a 255 1', b'f', b'a 256 1', b'm', b'l', b'b', b'm']) + b'\n'
    yield 'lists', b'\n'.join([b'a %d %d' % (2 ** 64 - 1 - i % 250, 2 ** 64 - 1 - i) for i in range(1024)] + [b'l', b'm'] * 20) + b'\n'
    yield 'one_record', b'\n'.join([b'a 7 %d' % (2 ** 64 - 1 - i) for i in range(1024)] + [b'i 7 1', b'l', b'r 7', b'l', b'm']) + b'\n'
    for seed in range(40):
        r = random.Random(seed)
        wide = r.choice([3, 12, 300])
        lines = []
        steps = Steps()
        for _ in range(r.choice([50, 400, 3000])):
            k, v = r.randrange(wide), r.choice([r.randrange(9), r.randrange(2 ** 64)])
            line = r.choice([b'a %d %d' % (k, v)] * r.choice([2, 9]) + [b'i %d %d' % (k, v), b'r %d' % k, b'f', b'b', b'l', b'm', b'k', None, r.choice(MALFORMED)])
            if line is None:
                length = len(steps.pairs) + r.choice([0, 0, 0, 1])
                line = b'k' + (b' ' if length else b'') + bytes(r.choice(b'0111') for _ in range(length))
            answer(steps, line)
            lines.append(line)
        yield 'mixed_%02d' % seed, b'\n'.join(lines) + r.choice([b'', b'\n'])


def gate():
    """The document's example, then every malformed line, the lengths and the limits on one map; the last line has no line end."""
    named = dict(cases())
    full = [b'a %d %d' % (2 ** 64 - 1 - i % 200, 2 ** 64 - 1 - i) for i in range(1024)]
    return b''.join([
        named['example'], named['malformed'], named['lengths'], named['numbers'],
        b''.join(b'r %d\n' % k for k in (7, 1, 2 ** 64 - 1)), b'l\nm\nf\nb\nk\n',
        b'\n'.join([b'a %d %d' % (i, i) for i in range(256)] + [b'a 256 1', b'i 256 1', b'a 3 1', b'm', b'k ' + b'0' * 257, b'l', b'm']), b'\n',
        b'\n'.join(full + [b'a 18446744073709551615 1', b'a 5 5', b'i 5 5', b'l', b'i 18446744073709551615 3', b'a 5 5', b'a 6 6', b'k ' + b'1' * 1017]), b'\n',
        b'\n'.join(b'r %d' % (2 ** 64 - 1 - k) for k in range(1, 190)), b'\nf\nb\nm\nl',
    ])


if __name__ == '__main__':
    if sys.argv[1:2] == ['cases']:
        for name, data in cases():
            with open(os.path.join(sys.argv[2], name + '.in'), 'wb') as f:
                f.write(data)
            with open(os.path.join(sys.argv[2], name + '.out'), 'wb') as f:
                f.write(answers(data))
    elif sys.argv[1:2] == ['gate']:
        sys.stdout.buffer.write(gate())
    else:
        sys.stdout.buffer.write(answers(sys.stdin.buffer.read()))
