"""Writes one expression on one line: of the form that the first word names, with about as many tokens as the second says."""
import sys

# the front, what is repeated, what stands between, the end
FORMS = {
    "display": ("[", "1", ", ", "]"),
    "conjunction": ("", "a", " and ", ""),
    "comparisons": ("", "a", " < ", ""),
    "arguments": ("f(", "a", ", ", ")"),
    "strings": ("(", "'a' 'b'", " ", ")"),
}

front, part, mark, end = FORMS[sys.argv[1]]
count = int(sys.argv[2]) // 2
print(front + mark.join([part] * count) + end)
