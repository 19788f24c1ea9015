#!/usr/bin/env python3
"""Builds random trees by 1, 2, 7 and 32 workers and asks that each build writes the same bytes.

Usage: python3 schedules.py [PROGRAM [BUILDS]]. Without BUILDS 10,000. Trees lie in TMPDIR; a folder in memory is quickest.
"""
import hashlib
import os
import random
import subprocess
import sys
import tempfile

from run import built_program

WORKERS = (1, 2, 7, 32)
BUILDS_OF_A_TREE = 5
FORMS = ('import "{}";\n', 'import("{}");\n', 'export * from "{}";\n', 'require("{}");\n',
         'import(/* webpackChunkName: "n{chunk}" */ "{}");\n', 'import "./gone";\n')
CONFIGS = ('{"entry":"./src/m0.js"}',
           '{"entry":{"a":"./src/m0.js","b":"./src/m1.js"},"optimization":{"splitChunks":{"chunks":"all","minSize":0}}}',
           '{"entry":"./src/m0.js","optimization":{"splitChunks":{"minSize":0},"mergeDuplicateChunks":false}}')


def module(source, count):
    """A few statements, one in some two hundred of which names nothing."""
    lines = []
    for _ in range(source.randrange(6)):
        form = FORMS[5] if source.random() < 0.005 else source.choice(FORMS[:5])
        lines.append(form.format(f"./m{source.randrange(count)}.js", chunk=source.randrange(4)))
    text = "".join(lines)
    return text if "require" not in text or "import " not in text and "export " not in text else text.replace("require", "import")


def write_tree(folder, source):
    count = source.choice((3, 10, 40, 150))
    os.makedirs(f"{folder}/src")
    with open(f"{folder}/c.json", "w", encoding="ascii") as file:
        file.write(source.choice(CONFIGS))
    for number in range(count):
        with open(f"{folder}/src/m{number}.js", "w", encoding="ascii") as file:
            file.write(module(source, count) + "/" * 2 + "x" * source.randrange(400) + "\n")


def built(program, folder, workers):
    """What a build printed, its status, and a hash of what it wrote."""
    ran = subprocess.run([program, "build", "c.json", "--workers", str(workers)], cwd=folder, stdout=subprocess.PIPE, check=False)
    hashed = hashlib.sha256()
    dist = f"{folder}/dist"
    for name in sorted(os.listdir(dist)) if os.path.isdir(dist) else ():
        with open(f"{dist}/{name}", "rb") as file:
            hashed.update(name.encode() + b"\0" + file.read())
    subprocess.run(["rm", "-rf", dist], check=True)
    return ran.returncode, ran.stdout, hashed.hexdigest()


def main():
    program = os.path.abspath(sys.argv[1]) if len(sys.argv) > 1 else built_program()
    builds = int(sys.argv[2]) if len(sys.argv) > 2 else 10_000
    ends = {}
    done = seed = 0
    while done < builds:
        with tempfile.TemporaryDirectory(prefix="chunkpack-schedules-") as folder:
            write_tree(folder, random.Random(seed))
            first = built(program, folder, 1)
            for turn in range(BUILDS_OF_A_TREE * len(WORKERS) - 1):
                workers = WORKERS[(turn + 1) % len(WORKERS)]
                other = built(program, folder, workers)
                if other != first:
                    sys.exit(f"tree {seed}: {workers} workers gave {other}, and one gave {first}")
            done += BUILDS_OF_A_TREE * len(WORKERS)
            ends[first[0]] = ends.get(first[0], 0) + 1
        seed += 1
    print(f"{done} builds of {seed} trees, all equal; trees by status: {dict(sorted(ends.items()))}")


if __name__ == "__main__":
    main()
