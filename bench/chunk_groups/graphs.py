#!/usr/bin/env python3
"""Lines of large graphs with their groups, in the words of crates/runs_seal.

    graphs.py wide MODULES GROUPS    one entry loads each other group
    graphs.py deep MODULES GROUPS    each group loads the next one
    graphs.py many MODULES GROUPS    a group has some 190 parents: three of its four blocks stand in modules that many groups reach
    graphs.py every MODULES GROUPS   each group reaches half of the modules, and may load every group but the entry

One module of 32 is shared, and each group reaches 16 of these; for `every` half of them are, as a tree, and each group reaches
all of it. The other modules are in one group each, as a chain."""
import random
import sys

REACHED = 16
BLOCKS = 4


def draw(shape, modules, groups):
    """Of each module what it imports, of each group its root, and the modules that load it."""
    rng = random.Random(1)
    shared = modules // (2 if shape == "every" else 32)
    own = (modules - shared) // groups
    imports = [[] for _ in range(modules)]
    roots = [shared + g * own for g in range(groups)]
    if shape == "every":
        for at in range(shared):
            imports[at] += [branch for branch in (2 * at + 1, 2 * at + 2) if branch < shared]
    for root in roots:
        imports[root] += [0] if shape == "every" else rng.sample(range(shared), REACHED)
        for at in range(root, root + own - 1):
            imports[at].append(at + 1)
    homes = [[]]
    for g in range(1, groups):
        if shape == "wide":
            homes.append([roots[0]])
        elif shape == "deep":
            homes.append([roots[g - 1] + own - 1])
        elif shape == "many":
            homes.append([roots[rng.randrange(g)]] + [rng.randrange(shared) for _ in range(BLOCKS - 1)])
        else:
            homes.append([g])
    return imports, roots, homes


def line(imports, roots, homes):
    loads = [[] for _ in imports]
    for g, own in enumerate(homes):
        for home in own:
            loads[home].append(g)
    words, blocks = [], [[] for _ in roots]
    count = 0
    for m, targets in enumerate(imports):
        items = [f"i{t}" for t in targets] + [f"l{roots[g]}" for g in loads[m]]
        words.append("m:" + ",".join(items))
        for g in loads[m]:
            blocks[g].append(count)
            count += 1
    words.append(f"e:{roots[0]}")
    words += [f"g:{root}/" + ",".join(map(str, own)) for root, own in zip(roots[1:], blocks[1:])]
    return " ".join(words)


def main():
    print(line(*draw(sys.argv[1], int(sys.argv[2]), int(sys.argv[3]))))


if __name__ == "__main__":
    main()
