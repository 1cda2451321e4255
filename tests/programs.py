"""Runs a program in a folder with files, and compares what comes with what is wanted."""
import os
import subprocess
import sys
import tempfile
from itertools import zip_longest
from typing import Any, NamedTuple

from commands import Answer

TOP = os.path.dirname(os.path.dirname(os.path.abspath(__file__)))
FOLDER = object()
LONGEST = 300


class Check(NamedTuple):
    """What is wanted of a case, and what came."""
    name: str
    want: Any
    came: Any


def answer(program, words, folder=TOP, **streams):
    """How the program ends on these words.

    What it prints has a character for each byte, or is None where it goes elsewhere.
    """
    streams.setdefault('stdout', subprocess.PIPE)
    done = subprocess.run([program, *words], cwd=folder, stdin=subprocess.DEVNULL, stderr=subprocess.PIPE,
                          timeout=LONGEST, check=False, **streams)
    stdout = None if done.stdout is None else done.stdout.decode('latin-1')
    return Answer(stdout, done.returncode, done.stderr.decode('latin-1'))


def answer_over(program, words, files, **streams):
    """How the program ends in a folder with these files.

    Their texts have a character for each byte; FOLDER stands for a folder.
    """
    with tempfile.TemporaryDirectory() as folder:
        for name, text in files.items():
            path = os.path.join(folder, name)
            if text is FOLDER:
                os.mkdir(path)
            else:
                with open(path, 'w', encoding='latin-1', newline='') as file:
                    file.write(text)
        return answer(program, words, folder, **streams)


def conclude(checks):
    """Prints each check that failed and how many passed and failed, and ends the process by that."""
    passed = failed = 0
    for check in checks:
        if check.want == check.came:
            passed += 1
            continue
        failed += 1
        print(check.name)
        if isinstance(check.want, list) and isinstance(check.came, list):
            for want, came in zip_longest(check.want, check.came):
                print(f'  {want}' if want == came else f'  {want}  CAME {came}')
        else:
            print(f'  wanted {check.want!r:.1500}\n  came   {check.came!r:.1500}')
    print(f'{passed} passed, {failed} failed')
    sys.exit(1 if failed or not passed else 0)


def program_of(word):
    """The program to run: the one that is named, else the launcher at the top of the repository, which builds it."""
    return os.path.abspath(word) if word else os.path.join(TOP, 'kineo')
