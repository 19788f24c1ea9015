#!/usr/bin/env python3
"""Times builds by 1, 2 and 4 workers beside esbuild, where it is installed, in one run: the sample tree of 20,000 modules, and
a tree of some thousand real modules.

Usage: TMPDIR=/dev/shm python3 workers.py [PROGRAM]. On ext4 the file system's own work after files were removed is seen, not the
build's. The real modules are those of packages below /usr/share (Debian's node-* and libjs-*).
"""
import os
import re
import shutil
import statistics
import subprocess
import sys
import tempfile

from peers import run_once, write, write_tree
from run import built_program

PASSES = 11
WORKERS = (1, 2, 4)
SAMPLE = 20_000
FOLDERS = ("/usr/share/nodejs", "/usr/share/javascript")
# Packages whose modules name each other by relative paths, and where these lie.
SOURCES = ("lodash", "lodash-es", "core-js", "rxjs", "graphql", "d3", "d3-array", "three", "date-fns", "immutable", "yaml", "semver", "uuid")
# How esbuild builds the real modules.
REAL_WORDS = ["--bundle", "--format=iife", "--outdir=out", "--platform=node", "--log-level=error", "all.js"]


def modules_below(folder):
    for root, folders, files in os.walk(folder):
        folders[:] = [name for name in folders if name not in ("test", "tests", "node_modules", "examples")]
        for name in files:
            path = f"{root}/{name}"
            if name.endswith((".js", ".mjs", ".cjs")) and not name.endswith(".min.js") and os.path.isfile(path) and not os.path.islink(path):
                yield path


def write_real(folder, program):
    """Copies the packages that are there, and writes an entry that imports a module for each package, which imports all of that
    package's modules. A module that a bundler refuses is emptied."""
    count = 0
    indexes = []
    for package in SOURCES:
        for root in FOLDERS:
            source = f"{root}/{package}"
            if os.path.isdir(source):
                target = f"{folder}/node_modules/{package}"
                shutil.copytree(source, target, symlinks=False, ignore_dangling_symlinks=True)
                modules = sorted(os.path.relpath(path, folder) for path in modules_below(target))
                indexes.append(f"all-{package}.js")
                write_imports(f"{folder}/{indexes[-1]}", modules)
                count += len(modules)
                break
    write_imports(f"{folder}/all.js", indexes)
    write(f"{folder}/c.json", '{"entry":"./all.js"}\n')
    emptied = set()
    while refused := (faulty_modules(folder, program) | refused_by_esbuild(folder)) - emptied:
        emptied |= refused
        for path in refused:
            write(f"{folder}/{path}", "")
    return count, len(emptied)


def write_imports(place, paths):
    write(place, "".join(f'import "./{path}";\n' for path in paths))


def faulty_modules(folder, program):
    """The modules that have faults, as the program tells them."""
    lines = os.popen(f"cd {folder} && {program} build c.json").read().splitlines()
    if lines and lines[-1].startswith("faults: "):
        return {line.split(":")[0] for line in lines[:-1]}
    print("  " + (lines[-1] if lines else "nothing"))
    return set()


def refused_by_esbuild(folder):
    """The modules in which esbuild sees errors, where it is installed."""
    if not shutil.which("esbuild"):
        return set()
    told = subprocess.run(["esbuild", *REAL_WORDS, "--log-limit=0"], cwd=folder, capture_output=True, text=True, check=False).stderr
    return set(re.findall(r"^ {4}(\S+):\d+:\d+:$", told, re.MULTILINE))


def compare(program, folder, words, esbuild_words):
    """Prints the medians of some passes; in each pass each command runs once, so that a slow time of the machine is all of theirs."""
    esbuild = shutil.which("esbuild") if esbuild_words else None
    commands = {workers: [program, *words, "--workers", str(workers)] for workers in WORKERS}
    if esbuild:
        commands["esbuild"] = [esbuild, *esbuild_words]
    os.chdir(folder)
    runs = [{name: run_once(folder, command) for name, command in commands.items()} for _ in range(PASSES)]
    middle = {name: [statistics.median(column) for column in zip(*(run[name] for run in runs))] for name in commands}
    for workers in WORKERS:
        wall, processor, memory = middle[workers]
        print(f"  {workers} workers: {wall:.3f} s, {processor:.3f} s of processor time, {memory:.0f} MB, "
              f"{middle[1][0] / wall:.2f} times as fast as one")
    if esbuild:
        wall, processor, memory = middle["esbuild"]
        ratios = "; ".join(
            f"{workers}: {middle[workers][0] / wall:.2f}, {middle[workers][1] / processor:.2f}, {middle[workers][2] / memory:.2f}" for workers in WORKERS)
        print(f"  esbuild: {wall:.3f} s, {processor:.3f} s, {memory:.0f} MB; ratios by workers {ratios}")


def main():
    program = os.path.abspath(sys.argv[1]) if len(sys.argv) > 1 else built_program()
    with tempfile.TemporaryDirectory(prefix="chunkpack-bench-") as folder:
        print(f"a sample of {SAMPLE} modules, in memory")
        compare(program, folder, ["sample", str(SAMPLE)], [])
        print(f"the same tree in a folder")
        write_tree(folder, SAMPLE)
        compare(program, folder, ["build", "c.json"], ["--bundle", "--splitting", "--format=esm", "--outdir=out", "--log-level=error", "src/m00000.js"])
        os.chdir("/")
    with tempfile.TemporaryDirectory(prefix="chunkpack-bench-") as folder:
        count, emptied = write_real(folder, program)
        print(f"{count} modules of real packages, {emptied} of them emptied, and what they import")
        compare(program, folder, ["build", "c.json"], REAL_WORDS)
        os.chdir("/")


if __name__ == "__main__":
    main()
