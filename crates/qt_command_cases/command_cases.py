#!/usr/bin/env python3
"""Writes stdin, the rows of the cases, and stdout, the answers that are wanted: a table of command lines with their outcomes, and
command lines put together of words of every kind, which are read by the rules below. Run it in the crate's folder.

The rules are those of a simple command of clap: a word `--` ends the options and is dropped; a word that begins with `--` is an option, its
value being what stands behind its first `=`, or the next word; any other word that begins with `-` and is longer is refused; all others are
positional. Then come the tests of the mode, of the numbers and of the settings."""
import random

MODES = ('run', 'check', 'format')
NUMBERS = {'workers': (16, 4), 'fuel': (10000000, 100000)}


class Refused(Exception):
    pass


def parted(words):
    """The positional words and the options, by clap."""
    positional, options, ended = [], {}, False
    rest = list(words)
    while rest:
        word = rest.pop(0)
        if ended or word == '-' or not word.startswith('-'):
            positional.append(word)
        elif word == '--':
            ended = True
        else:
            name, equals, value = word[2:].partition('=')
            if not word.startswith('--') or name not in ('workers', 'fuel', 'json') or name in options:
                raise Refused('W1 words')
            if name == 'json':
                if equals:
                    raise Refused('W1 words')
                value = True
            elif not equals:
                if not rest or (rest[0].startswith('-') and rest[0] != '-'):
                    raise Refused('W1 words')
                value = rest.pop(0)
            options[name] = value
    if len(positional) < 2:
        raise Refused('W1 words')
    return positional, options


def number(name, options):
    most, usual = NUMBERS[name]
    if name not in options:
        return usual
    text = options[name]
    if not (1 <= len(text) <= 9 and all(c in '0123456789' for c in text) and 1 <= int(text) <= most):
        raise Refused('W3 number ' + name)
    return int(text)


def settings_of(mode, words):
    settings = {}
    for word in words:
        name, equals, value = word.partition('=')
        if mode == 'format' or not equals or not name or name in settings:
            raise Refused('W4 setting ' + word)
        settings[name] = value
    return list(settings.items())


def told(word):
    return word.replace('\\', '\\\\').replace(' ', '\\s').replace('\n', '\\n') or '\\e'


def answer(words):
    try:
        (mode, file, *others), options = parted(words)
        if mode not in MODES:
            raise Refused('W2 mode ' + mode)
        workers, fuel = number('workers', options), number('fuel', options)
        settings = settings_of(mode, others)
    except Refused as refused:
        return (str(refused) + '\n').replace('\\', '\\\\').replace('\n', '\\n')
    ends = settings if len(settings) <= 8 else settings[:4] + settings[-4:]
    return (f'{mode} {told(file)} workers {workers} fuel {fuel} {"json" if "json" in options else "text"} settings {len(settings)};'
            + ''.join(f' {told(name)} {told(value)};' for name, value in ends))


def says(mode, file, workers=4, fuel=100000, form='text', settings=()):
    return (f'{mode} {file} workers {workers} fuel {fuel} {form} settings {len(settings)};'
            + ''.join(f' {name} {value};' for name, value in settings))


W1 = 'W1 words\\n'
WORKERS, FUEL = 'W3 number workers\\n', 'W3 number fuel\\n'
NONE = says('run', 'p')

# command lines with the answers that are wanted, as they are written here
TABLE = [
    ([], W1), (['run'], W1), (['run', '--json'], W1), ([''], W1), (['-'], W1), (['--'], W1), (['--', 'run'], W1),
    (['run', 'p'], NONE), (['check', 'p'], says('check', 'p')), (['format', 'p'], says('format', 'p')),
    (['run', 'p', '--workers=3'], says('run', 'p', 3)), (['run', 'p', '--workers', '3'], says('run', 'p', 3)),
    (['run', 'p', '--workers='], WORKERS), (['run', 'p', '--workers', ''], WORKERS), (['run', 'p', '--workers', '-'], WORKERS),
    (['run', 'p', '--fuel='], FUEL), (['run', 'p', '--fuel', ''], FUEL), (['run', 'p', '--fuel=7=8'], FUEL),
    (['run', 'p', '--fuel=7'], says('run', 'p', fuel=7)), (['run', 'p', '--fuel', '7'], says('run', 'p', fuel=7)),
    (['run', 'p', '--workers'], W1), (['run', 'p', '--workers', '--json'], W1), (['run', 'p', '--workers', '--'], W1),
    (['run', 'p', '--workers', '--', '3'], W1), (['run', 'p', '--workers', '-3'], W1), (['run', 'p', '-x'], W1), (['run', 'p', '-5'], W1),
    (['run', 'p', '-V'], W1), (['run', 'p', '-h'], W1), (['run', 'p', '--jso'], W1), (['run', 'p', '--help'], W1), (['--help'], W1),
    (['run', 'p', '--version'], W1), (['run', 'p', '--=x'], W1), (['run', 'p', '---'], W1), (['run', 'p', '--worker=3'], W1),
    (['run', 'p', '--JSON'], W1), (['run', 'p', '--workers3'], W1),
    (['run', 'p', '--workers', '3', '--workers', '4'], W1), (['run', 'p', '--workers=3', '--workers=3'], W1),
    (['run', 'p', '--fuel', '3', '--fuel=4'], W1), (['run', 'p', '--json', '--json'], W1),
    (['run', 'p', '--json=1'], W1), (['run', 'p', '--json='], W1), (['run', 'p', '--json'], says('run', 'p', form='json')),
    (['run', 'p', '--json', '1'], 'W4 setting 1\\n'),
    (['run', '-'], says('run', '-')), (['run', '--', '-'], says('run', '-')), (['run', '--', '--'], says('run', '--')),
    (['run', '--', '--json'], says('run', '--json')), (['-', 'p'], 'W2 mode -\\n'), (['run', 'p', '-'], 'W4 setting -\\n'),
    (['', 'p'], 'W2 mode \\n'), (['run', ''], says('run', '\\e')), (['run', 'p', ''], 'W4 setting \\n'),
    (['run', 'a b'], says('run', 'a\\sb')), (['run', ' '], says('run', '\\s')), (['run', 'p.qasm', 'a= '], says('run', 'p.qasm', settings=[('a', '\\s')])),
    (['run', 'a\nb'], says('run', 'a\\nb')), (['run', 'p', 'a\nb'], 'W4 setting a\\nb\\n'), (['run', '\\'], says('run', '\\\\')),
    (['run', 'π.qasm'], says('run', 'π.qasm')), (['läuft', 'p'], 'W2 mode läuft\\n'), (['run', 'folder/'], says('run', 'folder/')),
    (['run', '--', 'p'], NONE), (['--', 'run', 'p'], NONE), (['--', 'run', 'p', '--json'], 'W4 setting --json\\n'),
    (['run', 'p', '--', '--'], 'W4 setting --\\n'), (['run', 'p', '--'], NONE), (['run', 'p', '--', '--json'], 'W4 setting --json\\n'),
    (['run', 'p', '--', '--a=1'], says('run', 'p', settings=[('--a', '1')])), (['run', '--json', '--', 'p'], says('run', 'p', form='json')),
    (['run', 'p', 'a=1', '--json', 'b=2', '--fuel', '7', 'c=3'],
     says('run', 'p', fuel=7, form='json', settings=[('a', '1'), ('b', '2'), ('c', '3')])),
    (['--workers', '2', '--json', '--fuel=9', 'run', 'p'], says('run', 'p', 2, 9, 'json')),
    (['run', '--workers', '2', 'p'], says('run', 'p', 2)), (['--json', 'run', '--fuel', '1', 'p', '--workers=16', 'a=1'],
                                                             says('run', 'p', 16, 1, 'json', [('a', '1')])),
    (['help', 'p'], 'W2 mode help\\n'), (['help', 'run'], 'W2 mode help\\n'), (['paint', 'p'], 'W2 mode paint\\n'), (['Run', 'p'], 'W2 mode Run\\n'),
    (['run ', 'p'], 'W2 mode run \\n'), (['paint', 'p', '--workers', '17'], 'W2 mode paint\\n'), (['paint', 'p', 'a'], 'W2 mode paint\\n'),
    (['paint'], W1), (['paint', 'p', '--no'], W1),
    (['run', 'p', '--workers', '0'], WORKERS), (['run', 'p', '--workers', '1'], says('run', 'p', 1)),
    (['run', 'p', '--workers', '16'], says('run', 'p', 16)), (['run', 'p', '--workers', '17'], WORKERS),
    (['run', 'p', '--workers', '000000016'], says('run', 'p', 16)), (['run', 'p', '--workers', '0000000016'], WORKERS),
    (['run', 'p', '--workers', '+3'], WORKERS), (['run', 'p', '--workers', ' 3'], WORKERS), (['run', 'p', '--workers', '3 '], WORKERS),
    (['run', 'p', '--workers', '３'], WORKERS), (['run', 'p', '--workers', '0x3'], WORKERS), (['run', 'p', '--workers=-3'], WORKERS),
    (['run', 'p', '--workers', '1_0'], WORKERS), (['run', 'p', '--workers', '4294967299'], WORKERS),
    (['run', 'p', '--fuel', '0'], FUEL), (['run', 'p', '--fuel', '10000000'], says('run', 'p', fuel=10000000)),
    (['run', 'p', '--fuel', '10000001'], FUEL), (['run', 'p', '--fuel', '999999999'], FUEL), (['run', 'p', '--fuel', '010000000'],
                                                                                              says('run', 'p', fuel=10000000)),
    (['run', 'p', '--fuel', '0010000000'], FUEL), (['run', 'p', '--fuel', '000000000'], FUEL), (['run', 'p', '--fuel', '4294967296'], FUEL),
    (['run', 'p', '--fuel', '9', '--workers', '99'], WORKERS), (['run', 'p', '--fuel', 'x', '--workers', 'x'], WORKERS),
    (['run', 'p', '--fuel', 'x', 'a'], FUEL), (['check', 'p', '--fuel', 'x'], FUEL), (['format', 'p', '--workers', 'x'], WORKERS),
    (['check', 'p', '--fuel', '5', '--workers', '6', '--json'], says('check', 'p', 6, 5, 'json')),
    (['format', 'p', '--json', '--workers=1'], says('format', 'p', 1, form='json')),
    (['run', 'p', 'a'], 'W4 setting a\\n'), (['run', 'p', '=1'], 'W4 setting =1\\n'), (['run', 'p', '='], 'W4 setting =\\n'),
    (['run', 'p', 'a='], says('run', 'p', settings=[('a', '\\e')])), (['run', 'p', 'a=1=2'], says('run', 'p', settings=[('a', '1=2')])),
    (['run', 'p', 'a=='], says('run', 'p', settings=[('a', '=')])), (['run', 'p', '==a'], 'W4 setting ==a\\n'),
    (['run', 'p', 'a=1', 'a=1'], 'W4 setting a=1\\n'), (['run', 'p', 'a=1', 'b=1', 'a=2'], 'W4 setting a=2\\n'),
    (['run', 'p', 'a=1', 'A=1'], says('run', 'p', settings=[('a', '1'), ('A', '1')])), (['run', 'p', 'a=1', 'a =1'],
                                                                                      says('run', 'p', settings=[('a', '1'), ('a\\s', '1')])),
    (['run', 'p', 'a=1', 'aa=1', 'b'], 'W4 setting b\\n'), (['run', 'p', 'b', 'a=1', 'a=1'], 'W4 setting b\\n'),
    (['run', 'p', 'p'], 'W4 setting p\\n'), (['check', 'p', 'a=1'], says('check', 'p', settings=[('a', '1')])),
    (['check', 'p', 'a'], 'W4 setting a\\n'), (['format', 'p', 'a=1'], 'W4 setting a=1\\n'), (['format', 'p', '', 'a=1'], 'W4 setting \\n'),
    (['format', 'p', '--', '-x'], 'W4 setting -x\\n'), (['run', 'p', '--', '-x=1', '-y=2'], says('run', 'p', settings=[('-x', '1'), ('-y', '2')])),
]

# words behind which stand so many settings, and the answers that are wanted
ENDS = ' s0 0; s1 1; s2 2; s3 3; s9996 9996; s9997 9997; s9998 9998; s9999 9999;'
MANY = [
    (10000, ['run', 'p'], f'run p workers 4 fuel 100000 text settings 10000;{ENDS}'),
    (10000, ['check', '--fuel', '3', 'p', '--json'], f'check p workers 4 fuel 3 json settings 10000;{ENDS}'),
    (10000, ['run', 'p', 's9999=x'], 'W4 setting s9999=9999\\n'),
    (10000, ['format', 'p'], 'W4 setting s0=0\\n'),
    (1, ['run', 'p'], 'run p workers 4 fuel 100000 text settings 1; s0 0;'),
    (1, ['run'], says('run', 's0=0')),
    (1, [], W1),
]

# the words of which command lines are put together
KINDS = ['run', 'check', 'format', 'p', 'a=1', 'a=2', 'b=', '=c', 'd', '', '-', '--', '--json', '--json=x', '--workers', '--workers=2', '--fuel',
         '--fuel=30', '--fuel=', '3', '17', '-3', '--nothing', 'two words']


def put_together(count):
    """Command lines of words of every kind; most begin as a command line does."""
    draw = random.Random(16)
    lines = []
    for _ in range(count):
        words = [draw.choice(KINDS) for _ in range(draw.randrange(6))]
        if draw.randrange(4):
            words.insert(draw.randrange(len(words) + 1), 'p')
            words.insert(0, draw.choice(MODES))
        lines.append(words)
    return lines


def row(call, words):
    return call + ''.join(' ' + told(word) for word in words)


def main():
    rows, answers = [], []
    for words, wanted in TABLE:
        assert answer(words) == wanted, (words, answer(words), wanted)
        rows.append(row('words', words))
        answers.append(wanted)
    for count, words, wanted in MANY:
        assert answer(words + [f's{n}={n}' for n in range(count)]) == wanted, (count, words)
        rows.append(row(f'many {count}', words))
        answers.append(wanted)
    for workers in range(1, 18):
        rows.append(row('words', ['run', 'p', '--workers', str(workers)]))
        answers.append(says('run', 'p', workers) if workers <= 16 else WORKERS)
    for digits in range(1, 11):
        for text in ('1' * digits, '9' * digits, '0' * (digits - 1) + '7', '0' * digits):
            for name in NUMBERS:
                words = ['run', 'p', f'--{name}={text}']
                rows.append(row('words', words))
                answers.append(answer(words))
    for words in put_together(1500):
        rows.append(row('words', words))
        answers.append(answer(words))
    open('stdin', 'w', encoding='utf-8').write('\n'.join(rows) + '\nwards run p\n')
    open('stdout', 'w', encoding='utf-8').write('\n'.join(answers) + '\nno row\n')


main()
