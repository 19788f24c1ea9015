"""Random trees, settings and requests in the lines that runs_modules reads: so many trees, from a seed."""
import json
import random
import sys

COUNT, SEED = int(sys.argv[1]), int(sys.argv[2])
chance = random.Random(SEED)
NAMES = ["a", "b", "x", "index", "main", "lib", "p", "q", "node_modules", "package.json", "a.js", "x.js", "index.js", "x.json", "main.js", "%", "s p"]
TEXTS = ["./a", "./x.js", "./lib/", "./lib/x.js", "./index.js", "a", "x", ".", "./", "..", "lib", "/x", "", "./node_modules/q/x.js", "./*", "./lib/*.js", "./%61", "../x.js", "main.js", "./lib/../x.js", "\u0001", "./x", "p//x"]
KEYS = ["import", "require", "default", "browser", "node", "webpack", "module", "0", "x"]
SUBPATHS = [".", "./x", "./x.js", "./*", "./lib/*", "./lib/*.js", "./a", "./lib/", "./node_modules/q", "./*/x", "./**", "x"]
REQUESTS = [".", "./", "..", "../", "", "/", "//", "./x", "./a", "./a/", "./lib", "../x", "./p", "p", "p/", "p/x", "p/lib", "p/lib/x", "p//x", "p/x/", "q", "q/a", "@s/p", "@s", "@s/", "@s/p/x", "@s//x", "@/x", "p/../x", "a", "a/x", "x", "k", "k/x", "kx", "./%", "./s p", "node_modules/p", "p/node_modules/q", "./x/../a", "./../..", "p/..", "p/.", "./index", "./node_modules/p", "lib", "lib/x", "p/package.json", "...", "...//x"]


def some(values, most):
    return [chance.choice(values) for _ in range(chance.randint(0, most))]


def target(depth):
    kind = chance.randint(0, 9 if depth else 6)
    if kind <= 5:
        return chance.choice(TEXTS)
    if kind == 6:
        return chance.choice([None, 7, True])
    if kind == 7:
        return [target(depth - 1) for _ in range(chance.randint(0, 3))]
    return {key: target(depth - 1) for key in some(KEYS, 3)}


def exports():
    if chance.random() < 0.6:
        keys = some(SUBPATHS[:-1] if chance.random() < 0.9 else SUBPATHS, 5)
        return {key: target(2) for key in keys}
    return target(3)


def manifest():
    kind = chance.random()
    if kind < 0.08:
        return chance.choice(["", "[]", "{", "7", "{\"main\":\"a\",}", "null"])
    value = {}
    for field in some(["main", "module", "browser", "exports", "name", "main"], 4):
        value[field] = exports() if field == "exports" else chance.choice(TEXTS + [7, None])
    return json.dumps(value)


def folder():
    parts = []
    while chance.random() < 0.5 and len(parts) < 6:
        parts += chance.choice([["a"], ["lib"], ["x"], ["node_modules"], ["node_modules", "p"], ["node_modules", "p"], ["node_modules", "p"], ["node_modules", "q"], ["node_modules", "@s", "p"]])
    return parts


def package():
    return chance.choice([[], [], ["a"], ["node_modules", "p"]]) + chance.choice([["node_modules", "p"], ["node_modules", "p"], ["node_modules", "@s", "p"], ["node_modules", "q"]])


def add(files, parts, text):
    path = "/".join(parts)
    if any(path == other or path.startswith(other + "/") or other.startswith(path + "/") for other in files):
        return
    files[path] = text


def escaped(text):
    return text.replace("\\", "\\\\")


def settings():
    lists = {
        "extensions": [".js", ".json", ".mjs", "/index.js", ".x", "x"],
        "mainFields": ["main", "module", "browser", "name", "exports"],
        "mainFiles": ["index", "main", "x.js", "/a", "lib/x"],
        "conditionNames": KEYS,
    }
    given = {name: some(values, 3) for name, values in lists.items() if chance.random() < 0.4}
    keys = some(["k", "k$", "p", "p$", "p/x", "./x", "@s", "$", "a", "x$"], 2)
    return {**given, "alias": {key: chance.choice(["./lib", "p", "./", "..", "q", "@s/p", "", "/x", "./x.js", "a/", ".", "k"]) for key in keys}}


def tree():
    print("T")
    files = {}
    for _ in range(chance.randint(1, 14)):
        parts = package() if chance.random() < 0.6 else folder()
        if chance.random() < 0.5:
            add(files, parts + ["package.json"], manifest())
        for name in some(NAMES[:8], 3):
            add(files, parts + chance.choice([[], [], ["lib"], ["x"]]) + [name + chance.choice(["", ".js", ".js", ".json"])], "")
        add(files, parts + [chance.choice(NAMES)], "" if chance.random() < 0.5 else "7")
    for path, text in files.items():
        print("F " + path + "|" + escaped(text))
    print("C " + escaped(json.dumps({"resolve": settings()})))
    for _ in range(12):
        base = "/".join(folder())
        if files and chance.random() < 0.7:
            base = chance.choice(sorted(files)).rpartition("/")[0]
        print(chance.choice("IQ") + " " + base + "|" + chance.choice(REQUESTS))


for _ in range(COUNT):
    tree()
