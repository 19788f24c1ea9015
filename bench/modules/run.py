#!/usr/bin/env python3
"""Times builds of many modules, as a chain and as a star, beside `cat` of the same files through `sha256sum`.

Usage: python3 run.py [PROGRAM]. Without PROGRAM it is what bin/program names, which proves and builds it where needed.
"""
import os
import subprocess
import sys
import tempfile
import time

MODULES = 5_000
PASSES = 5
CAT = "cat src/*.js | sha256sum"


def statement(number):
    return f'import "./m{number}.js";\n'


def chain(number):
    """Each module imports the next, and the last has no bytes."""
    return statement(number + 1) if number + 1 < MODULES else ""


def star(number):
    """The first module imports all the others, which have no bytes."""
    return "".join(map(statement, range(1, MODULES))) if number == 0 else ""


def write_tree(folder, text_of):
    os.mkdir(f"{folder}/src")
    with open(f"{folder}/c.json", "w", encoding="ascii") as config:
        config.write('{"entry":"./src/m0.js"}\n')
    for number in range(MODULES):
        with open(f"{folder}/src/m{number}.js", "w", encoding="ascii") as module:
            module.write(text_of(number))


def best_time(folder, words):
    """The least of several times in seconds, and what the command printed."""
    best = float("inf")
    for _ in range(PASSES):
        start = time.perf_counter()
        printed = subprocess.run(words, cwd=folder, stdout=subprocess.PIPE, check=True).stdout
        best = min(best, time.perf_counter() - start)
    return best, printed.decode()


def measure(program, name, text_of):
    with tempfile.TemporaryDirectory(prefix="chunkpack-bench-") as folder:
        write_tree(folder, text_of)
        built, printed = best_time(folder, [program, "build", "c.json"])
        if printed != f"built: {MODULES} modules, 1 chunks, 2 assets\n":
            sys.exit(f"{name}: {printed}")
        read, _ = best_time(folder, ["sh", "-c", CAT])
    print(f"{name} of {MODULES}: build {built * 1000:.1f} ms, cat {read * 1000:.1f} ms, ratio {built / read:.2f}")


def main():
    program = os.path.abspath(sys.argv[1]) if len(sys.argv) > 1 else built_program()
    measure(program, "chain", chain)
    measure(program, "star", star)


def built_program():
    root = os.path.dirname(os.path.dirname(os.path.dirname(os.path.abspath(__file__))))
    return subprocess.run([f"{root}/bin/program"], stdout=subprocess.PIPE, check=True, text=True).stdout.rstrip("\n")


if __name__ == "__main__":
    main()
