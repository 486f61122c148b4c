#!/usr/bin/env python3
"""Writes stdin, the rows of the cases, stdout, the answers that are wanted, and data/long.txt. Run it in the crate's folder."""

TOLD = 24
LONG = ''.join(f'line {number} of a long file\n' for number in range(400))


def told(text, most):
    """How many bytes a fetch gives, and the last of them."""
    given = text[:most]
    end = given[-TOLD:].replace('"', '\\"').replace('\n', '\\n')
    return f'{len(given)} "{end}"'


def main():
    with open('data/coin.qasm', encoding='ascii') as file:
        coin = file.read()
    rows = [
        ('fetch coin.qasm 1048577', told(coin, 1048577)),
        ('fetch coin.qasm 8', told(coin, 8)),
        ('fetch coin.qasm 0', told(coin, 0)),
        # the buffer of the shelf has 4096 bytes
        *((f'fetch long.txt {most}', told(LONG, most)) for most in (4095, 4096, 4097, 8191, 8192, 8193, len(LONG), 1048577)),
        ('fetch missing.qasm 100', 'failed'),
        ('fetch . 100', 'failed'),
        ('fetch . 0', told('', 0)),
        ('put made.txt one two', 'put;put;'),
        ('fetch made.txt 100', told('onetwo', 100)),
        ('put made.txt ', 'put;'),
        ('fetch made.txt 100', told('', 100)),
        (f'put made.txt {"x" * 5000}', 'put;'),
        ('fetch made.txt 10000', told('x' * 5000, 10000)),
        ('put . one', 'no file'),
        # a device that takes nothing
        ('put /dev/full one two', 'failed;failed;'),
        ('paint coin.qasm', 'no row'),
        ('fetch coin.qasm much', 'no row'),
    ]
    texts = [LONG, ''.join(row + '\n' for row, _ in rows), ''.join(answer + '\n' for _, answer in rows)]
    for name, text in zip(('data/long.txt', 'stdin', 'stdout'), texts):
        with open(name, 'w', encoding='ascii') as file:
            file.write(text)


if __name__ == '__main__':
    main()
