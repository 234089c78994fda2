"""Prints how long the program takes to run a module's first function, and how long CPython does, alone and while it is traced: name, program, file, calls."""
import subprocess
import sys
import time

RUNS = 5


def best(run):
    times = []
    for _ in range(RUNS):
        begin = time.perf_counter()
        run()
        times.append(time.perf_counter() - begin)
    return min(times)


def calls():
    for _ in range(times):
        module["f"]()


def traced():
    # each line and each call is told, as a tool that measures coverage wants
    sys.settrace(tell)
    try:
        calls()
    finally:
        sys.settrace(None)


def tell(frame, event, argument):
    seen.add((frame.f_code, frame.f_lineno))
    return tell


name, program, path, times = sys.argv[1], sys.argv[2], sys.argv[3], int(sys.argv[4])
with open(path, encoding="utf-8") as file:
    text = file.read()
module, seen = {}, set()
exec(compile(text, path, "exec"), module)
said = subprocess.run([program, "run", path, str(times)], capture_output=True, text=True, check=True).stdout.split()
ours = best(lambda: subprocess.run([program, "run", path, str(times)], stdout=subprocess.DEVNULL, check=True))
idle = best(lambda: subprocess.run([program, "run", path, "0"], stdout=subprocess.DEVNULL, check=True))
alone, watched = best(calls), best(traced)
steps = int(said[3])
print(f"{name}: {said[1]} calls, {steps} steps, {1000 * (ours - idle):.1f} ms, {1e9 * (ours - idle) / max(steps, 1):.0f} ns a step; CPython {1000 * alone:.1f} ms, traced {1000 * watched:.1f} ms")
