"""How far long work is: a line on a terminal, which the next takes the place of; nothing in a pipe or a file."""
import sys


def far(words=''):
    """Shows the words in place of those before; without words the line is taken away."""
    if sys.stderr.isatty():
        sys.stderr.write('\r\033[K' + words)
        sys.stderr.flush()
