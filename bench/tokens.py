"""Writes text of the form that the first word names, of about as many bytes as the second says."""
import sys

# the front, what is repeated, the end
FORMS = {
    "cjk": ("s = '", "\u65e5\u672c\u8a9e", "'\n"),
    "emoji": ("s = '", "\U0001f600", "'\n"),
    "combining": ("s = '", "e\u0301", "'\n"),
    "strings": ("", "'some words' \"and\\n others\"\n", ""),
    "comments": ("", "# some words, and caf\u00e9\n", ""),
    "blank-lines": ("", "\n", ""),
    "brackets": ("", "(" * 50 + ")" * 50 + "\n", ""),
    "cr-lf": ("", "x = '''a\r\nb'''\r\n", ""),
}

front, part, end = FORMS[sys.argv[1]]
count = int(sys.argv[2]) // len(part.encode())
sys.stdout.reconfigure(encoding="utf-8", newline="")
sys.stdout.write(front + part * count + end)
