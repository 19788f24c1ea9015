#!/usr/bin/env python3
"""Lines of large graphs for crates/runs_seal, with the word `q`, by which it shows no changed lists.

    graphs.py tree COUNT      modules as a tree of three branches, a fourth of its third branches loaded on demand, and
                              seven libraries of 50,000 bytes
    graphs.py many COUNT      COUNT modules in 4,096 groups, under 16 cache groups
"""
import json
import random
import sys


def tree(count):
    libraries = [f"node_modules/lib{k}/index.js" for k in range(7)]
    paths = libraries + [f"src/m{i:05}.js" for i in range(count)]
    sync = [[] for _ in paths]
    lazy = [[] for _ in paths]
    for i in range(count):
        own = sync[7 + i]
        if i % 12 == 3:
            own.append(i % 7)
        for branch in (3 * i + 1, 3 * i + 2):
            if branch < count:
                own.append(7 + branch)
        third = 3 * i + 3
        if third < count:
            (lazy[7 + i] if i % 4 == 0 else own).append(7 + third)
    groups = []
    pending = [(7, frozenset())]
    while pending:
        root, there = pending.pop(0)
        reach, todo = {root}, [root]
        while todo:
            for target in sync[todo.pop()]:
                if target not in reach:
                    reach.add(target)
                    todo.append(target)
        groups.append(sorted(reach - there))
        # No group needs more of what is there than the libraries: each other module is in one group.
        known = there | {m for m in reach if m < 7}
        for m in sorted(reach):
            pending += [(target, known) for target in lazy[m]]
    sizes = [50000] * 7 + [60] * count
    return line({}, sizes, paths, groups[:1], groups[1:])


def many(count):
    rng = random.Random(3)
    paths = [f"src/p{m % 16:x}/m{m:05}.js" for m in range(count)]
    rules = {"default": False, "defaultVendors": False}
    for k in range(16):
        rules[f"k{k}"] = {"test": f"src/p{k:x}", "minChunks": 2, "minSize": 1990, "priority": k}
    sizes = [rng.randint(50, 2000) for _ in paths]
    groups = [sorted(rng.sample(range(count), 24)) for _ in range(4096)]
    return line({"optimization": {"splitChunks": {"cacheGroups": rules}}}, sizes, paths, groups[:1], groups[1:])


def line(config, sizes, paths, first, others):
    words = ["splits", json.dumps(config, separators=(",", ":")), "q"]
    words += [f"m:s{size};{path}" for size, path in zip(sizes, paths)]
    words += ["e:main:" + ",".join(map(str, row)) for row in first]
    words += ["g::" + ",".join(map(str, row)) for row in others]
    return " ".join(words)


def main():
    print({"tree": tree, "many": many}[sys.argv[1]](int(sys.argv[2])))


if __name__ == "__main__":
    main()
