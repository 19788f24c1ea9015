#!/usr/bin/env python3
"""Times builds of trees like the program's samples beside other bundlers that are installed, in one run.

Usage: python3 peers.py [PROGRAM [COUNT ..]]. Without PROGRAM it is what bin/program names; without counts 5,000 and 20,000.
Module I of N imports modules 3I + 1 and 3I + 2 and every twelfth one a library, and every fourth one loads 3I + 3 on demand.
"""
import os
import shutil
import sys
import tempfile
import time

from run import built_program

PASSES = 3
LIBRARIES = 7
LIBRARY = "//" + "x" * 24_997 + "\n"


def module(number, count):
    lines = []
    if number % 12 == 3:
        lines.append(f'import "lib{number % LIBRARIES}";\n')
    lines += [f'import "./m{target:05}.js";\n' for target in (3 * number + 1, 3 * number + 2) if target < count]
    target = 3 * number + 3
    if target < count:
        lines.append(f'import("./m{target:05}.js");\n' if number % 4 == 0 else f'import "./m{target:05}.js";\n')
    return "".join(lines)


def write(path, text):
    os.makedirs(os.path.dirname(path), exist_ok=True)
    with open(path, "w", encoding="ascii") as file:
        file.write(text)


def write_tree(folder, count):
    write(f"{folder}/c.json", '{"entry":"./src/m00000.js"}\n')
    for number in range(count):
        write(f"{folder}/src/m{number:05}.js", module(number, count))
    for number in range(LIBRARIES):
        write(f"{folder}/node_modules/lib{number}/index.js", LIBRARY)


def run_once(folder, words):
    """Wall and processor seconds and the peak of memory in MB of a command that ends well, where nothing was built before."""
    for built in ("dist", "out"):
        shutil.rmtree(f"{folder}/{built}", ignore_errors=True)
    start = time.perf_counter()
    child = os.posix_spawn(words[0], words, os.environ, file_actions=[
        (os.POSIX_SPAWN_OPEN, 1, os.devnull, os.O_WRONLY, 0), (os.POSIX_SPAWN_OPEN, 2, os.devnull, os.O_WRONLY, 0)])
    _, status, usage = os.wait4(child, 0)
    if status != 0:
        sys.exit(f"{words[0]} ended with {status}")
    return time.perf_counter() - start, usage.ru_utime + usage.ru_stime, usage.ru_maxrss / 1024


def measure(folder, words):
    os.chdir(folder)
    return [min(column) for column in zip(*(run_once(folder, words) for _ in range(PASSES)))]


def peers(count):
    """Rollup takes minutes for 20,000 modules and is passed over there."""
    words = {
        "esbuild": ["--bundle", "--splitting", "--format=esm", "--outdir=out", "src/m00000.js"],
        "rollup": ["-d", "out", "-f", "es", "src/m00000.js"],
    }
    if count > 5_000:
        del words["rollup"]
    return {name: [shutil.which(name), *rest] for name, rest in words.items() if shutil.which(name)}


def compare(program, count):
    with tempfile.TemporaryDirectory(prefix="chunkpack-bench-") as folder:
        write_tree(folder, count)
        own = measure(folder, [program, "build", "c.json"])
        print(f"{count} modules: {own[0]:.2f} s, {own[1]:.2f} s of processor time, {own[2]:.0f} MB")
        for name, words in peers(count).items():
            other = measure(folder, words)
            ratios = ", ".join(f"{mine / theirs:.2f}" for mine, theirs in zip(own, other))
            print(f"  {name}: {other[0]:.2f} s, {other[1]:.2f} s, {other[2]:.0f} MB; ratios {ratios}")
        os.chdir("/")


def main():
    program = os.path.abspath(sys.argv[1]) if len(sys.argv) > 1 else built_program()
    for count in map(int, sys.argv[2:] or ("5000", "20000")):
        compare(program, count)


if __name__ == "__main__":
    main()
