#!/usr/bin/env python3
"""Does what `kineo` does with the same words, by the plain evaluation: tests/plain.py WORDS

It evaluates the definitions of docs/MODEL.md, is slow on purpose, and knows nothing of the code.
"""
import os
import sys

from commands import kineo


class Files(dict):
    """The texts of the files of a folder, read when they are asked for, with a character for each byte."""

    def __init__(self, folder='.'):
        super().__init__()
        self.folder = folder

    def __contains__(self, name):
        try:
            with open(os.path.join(self.folder, name), encoding='latin-1', newline='') as file:
                self[name] = file.read()
        except OSError:
            return False
        return True


def main():
    answer = kineo(sys.argv[1:], Files())
    sys.stdout.write(answer.stdout)
    sys.stderr.write(answer.stderr)
    sys.exit(answer.status)


if __name__ == '__main__':
    main()
