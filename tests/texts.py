"""Texts as lines."""


def lines_of(text):
    """The lines of a text: each ends with LF, and a CR before it isn't part of it. The last one may lack its LF."""
    *lines, last = text.split('\n')
    lines = [line[:-1] if line.endswith('\r') else line for line in lines]
    return lines + [last] if last else lines


def text_of(lines):
    """Lines as a text."""
    return ''.join(f'{line}\n' for line in lines)
