"""Writes a module that is accepted, of the form that the first word names, of at most 262,144 bytes, on which a search for names could be slow."""
import itertools
import string
import sys

LIMIT = 262144


def one_letter():
    """One-letter names alone: every use is of a name that is bound often."""
    yield "def f(a, b, c):\n"
    for place in itertools.count():
        letter = string.ascii_lowercase[place % 26]
        yield f"    {letter} = a + b * c\n"


def functions():
    """The 2,000 functions that a module may have, each called."""
    for number in range(2000):
        yield f"def f{number}(a, b=1):\n    return a + b\n\n\n"


def constants():
    """One class of 20,000 constants."""
    yield "class C:\n"
    for number in range(20000):
        yield f"    c{number} = 1\n"


def locals_():
    """One function of 10,000 locals."""
    yield "def f(a):\n"
    for number in range(10000):
        yield f"    v{number} = a\n"


def classes():
    """Classes with bases, each a chain of two."""
    yield "class A:\n    pass\n"
    for number in itertools.count():
        yield f"class B{number}(A):\n    pass\n"


FORMS = {"letters": one_letter, "functions": functions, "constants": constants, "locals": locals_, "classes": classes}

room = LIMIT
for piece in FORMS[sys.argv[1]]():
    room -= len(piece)
    if room < 0:
        break
    sys.stdout.write(piece)
