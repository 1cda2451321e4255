#!/usr/bin/env python3
"""Takes a series over epochs from a report: series.py REPORT LINE KEY

The line is named by its first words: `in 339`, `hops 1`, `hop 1 276`, `expo unstable`. For each epoch whose
block has it, a line `EPOCH NUMBER` is printed. The number is the last word of the line; of a line `expo TAG K:N
K:N` it is the mean of K over the users.
"""
import argparse


def mean(pairs):
    """The mean of K over the users of pairs K:N."""
    numbers = [[int(part) for part in pair.split(':')] for pair in pairs]
    return sum(k * n for k, n in numbers) / sum(n for _, n in numbers)


def series(lines, names):
    """The epochs whose blocks have the line of these first words, each with its number as text."""
    epoch = None
    for words in (line.split() for line in lines):
        if words[0] == 'epoch':
            epoch = words[1]
        if words[:len(names)] == names and len(words) > len(names):
            yield epoch, f'{mean(words[2:]):.3f}' if names[0] == 'expo' else words[-1]


def main():
    parser = argparse.ArgumentParser(description='Takes a series over epochs from a report.')
    parser.add_argument('report')
    parser.add_argument('line')
    parser.add_argument('key', nargs='+')
    asked = parser.parse_args()
    with open(asked.report, encoding='ascii') as file:
        for epoch, number in series(file, [asked.line, *asked.key]):
            print(epoch, number)


if __name__ == '__main__':
    main()
