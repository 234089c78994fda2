"""Prints how long the timing program takes to read the file as a module, and how long CPython's parser does: name, program, file."""
import ast
import subprocess
import sys
import time

RUNS = 5


def best(run):
    times = []
    for _ in range(RUNS):
        begin = time.perf_counter()
        run()
        times.append(time.perf_counter() - begin)
    return min(times)


name, program, path = sys.argv[1:]
with open(path, encoding="utf-8") as file:
    text = file.read()
said = subprocess.run([program, "module", path], capture_output=True, text=True, check=True).stdout.split("\n")[0]
ours = best(lambda: subprocess.run([program, "module", path], stdout=subprocess.DEVNULL, check=True))
try:
    theirs = f"{1000 * best(lambda: ast.parse(text)):.1f} ms"
except (MemoryError, RecursionError):
    theirs = "gives up"
print(f"{name}, {len(text)} bytes: {said}, {1000 * ours:.1f} ms; ast.parse {theirs}")
