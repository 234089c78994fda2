"""Writes a module whose first function runs what the first word names, so many turns as the second word says."""
import sys

# each has {n} turns
FORMS = {
    "arithmetic": "def f():\n    a = 0\n    i = 0\n    while i < {n}:\n        a = (a + i * 3) % 1000\n        i += 1\n    return a\n",
    "list": "def f():\n    xs = []\n    i = 0\n    while i < {n}:\n        xs.append(i)\n        i += 1\n    a = 0\n    for x in xs:\n        a += x\n    return a\n",
    "dict": "def f():\n    d = {}\n    i = 0\n    while i < {n}:\n        d[i] = i\n        i += 1\n    return len(d)\n",
    "calls": "def f():\n    i = 0\n    while i < {n}:\n        i = g(i)\n    return i\n\n\ndef g(a):\n    return h(a) + 1\n\n\ndef h(a):\n    return a\n",
    "classes": "def f():\n    c = Counter()\n    i = 0\n    while i < {n}:\n        c.add(1)\n        i += 1\n    return c.total\n\n\nclass Base:\n    def __init__(self):\n        self.total = 0\n\n\nclass Counter(Base):\n    def __init__(self):\n        super().__init__()\n\n    def add(self, n):\n        self.total += n\n",
    "exceptions": "def f():\n    a = 0\n    i = 0\n    while i < {n}:\n        try:\n            if i % 2 == 0:\n                raise ValueError(\"even\")\n            a += 1\n        except ValueError:\n            a += 2\n        finally:\n            i += 1\n    return a\n",
    # the loop below so many frames
    "depth": "def f():\n    return down({d})\n\n\ndef down(k):\n    if k > 0:\n        return down(k - 1)\n    a = 0\n    i = 0\n    while i < {n}:\n        a = (a + i * 3) % 1000\n        i += 1\n    return a\n",
    # the loop beside so many objects
    "objects": "def f():\n    xs = []\n    i = 0\n    while i < {d}:\n        xs.append([i])\n        i += 1\n    a = 0\n    i = 0\n    while i < {n}:\n        a = (a + i * 3) % 1000\n        i += 1\n    return a\n",
}

form, turns = sys.argv[1], sys.argv[2]
extra = sys.argv[3] if len(sys.argv) > 3 else "0"
sys.stdout.write(FORMS[form].replace("{n}", turns).replace("{d}", extra))
