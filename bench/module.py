"""Writes a module of the form that the first word names, of as many bytes as fit the second."""
import subprocess
import sys

# the front, what is repeated
FORMS = {
    "functions": ("", "def f{i}(a, b=1):\n    return a + b\n\n\n"),
    "elifs": ("def f(a):\n    if a == 0:\n        return 0\n", "    elif a == {i}:\n        return {i}\n"),
    "statements": ("x = 0", "; x = {i}"),
    "assignments": ("", "name_{i} = {i}\n"),
    "calls": ("def f(a):\n", "    a = f(a, (a[{i}], [a, {i}]), b=a.name)\n"),
    "nested": ("", "def f{i}(a):\n" + "".join(
        "    " * depth + "if a:\n" for depth in range(1, 19)) + "    " * 19 + "return a\n"),
    "strings": ("", "name_{i}: 'list[int]' = ['one', \"two\\n\"]\n"),
}

form, size = sys.argv[1], int(sys.argv[2])
if form == "modules":
    text = subprocess.run([sys.executable, "bench/text.py", str(size)], capture_output=True, text=True, check=True).stdout
    classes = text.split("\n\nclass ")
    text, others = classes[0], classes[1:]
    part = ("\n\nclass " + other for other in others)
else:
    text, pattern = FORMS[form]
    part = (pattern.replace("{i}", str(i)) for i in range(size))
written = [text]
room = size - len(text) - 1
for more in part:
    room -= len(more)
    if room < 0:
        break
    written.append(more)
sys.stdout.write("".join(written) + "\n")
