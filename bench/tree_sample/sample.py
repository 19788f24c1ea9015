#!/usr/bin/env python3
"""The sample tree from its rules, apart from the program: `sample.py N` prints each file as runs_words does for `tree N`,
and `sample.py --hash N` one hash of all that."""
import hashlib
import sys


def files(n):
    """Path and text of each file of the sample of n modules."""
    tree = {}
    for k in range(7):
        tree["node_modules/lib%d/index.js" % k] = "//" + 24997 * "x" + "\n"
    for i in range(n):
        lines = []
        if i % 12 == 3:
            lines.append('import "lib%d";' % (i % 7))
        for child in (3 * i + 1, 3 * i + 2):
            if child < n:
                lines.append('import "./m%05d.js";' % child)
        child = 3 * i + 3
        if child < n:
            form = 'import("./m%05d.js");' if i % 4 == 0 else 'import "./m%05d.js";'
            lines.append(form % child)
        tree["src/m%05d.js" % i] = "".join(line + "\n" for line in lines)
    return tree


def shown(n):
    tree = files(n)
    parts = []
    for path in sorted(tree, key=lambda path: path.encode()):
        data = tree[path].encode()
        parts.append("%s %d %s\n" % (path, len(data), hashlib.sha256(data).hexdigest()))
        if path.startswith("src/"):
            parts.append(tree[path])
    return "".join(parts)


def main():
    words = sys.argv[1:]
    if words[0] == "--hash":
        print(hashlib.sha256(shown(int(words[1])).encode()).hexdigest())
    else:
        print(shown(int(words[0])))


main()
