"""Prints how long the program takes to read and judge a module, and how long the reader takes alone: name, program, reader, folder."""
import os
import subprocess
import sys
import time

RUNS = 5


def best(words):
    times = []
    for _ in range(RUNS):
        begin = time.perf_counter()
        subprocess.run(words, stdout=subprocess.DEVNULL, stderr=subprocess.DEVNULL, check=False)
        times.append(time.perf_counter() - begin)
    return min(times)


name, program, reader, folder = sys.argv[1:]
path = f"{folder}/one.py"
words = [program, "--module", path, "--suite", f"{folder}/test_one.py", "--report", f"{folder}/report.txt"]
said = subprocess.run(words, capture_output=True, text=True, check=False)
whole, reading = best(words), best([reader, "module", path])
print(f"{name}, {os.path.getsize(path)} bytes: {(said.stdout + said.stderr).strip().split('/')[-1]!r}, {1000 * whole:.0f} ms, of which reading {1000 * reading:.0f} ms")
