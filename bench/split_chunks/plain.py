#!/usr/bin/env python3
"""Splits of small chunk graphs by the definition alone: sets, and all candidates before each split.

    plain.py answer < LINES     the answer of each line `splits` of crates/runs_seal
    plain.py make SEED COUNT    lines of random graphs
"""
import json
import random
import sys

RULES = ["Group", "Selection", "Requests", "Sharing", "Modules", "Size", "Made"]
MOST_CHUNKS = 8192


def meets(test, path):
    if isinstance(test, str):
        return path.startswith(test)
    if isinstance(test, list):
        return any(meets(one, path) for one in test)
    ((key, value),) = test.items()
    if key == "inDir":
        return value in path.split("/")[:-1]
    if key == "contains":
        return value in path
    if key == "endsWith":
        return path.endswith(value)
    raise ValueError(key)


class Rule:
    def __init__(self, given, base):
        enforce = given.get("enforce", False)

        def of(key, default, enforced):
            if key in given:
                return given[key]
            return enforced if enforce else base.get(key, default)

        self.test = given.get("test")
        self.name = given.get("name") or None
        self.chunks = given.get("chunks", base.get("chunks", "async"))
        self.min_size = of("minSize", 20000, 0)
        self.min_chunks = given.get("minChunks", 1 if enforce else base.get("minChunks", 1))
        self.max_async = of("maxAsyncRequests", 30, None)
        self.max_initial = of("maxInitialRequests", 30, None)
        self.threshold = None if enforce else given.get("enforceSizeThreshold", base.get("enforceSizeThreshold", 50000))
        self.priority = given.get("priority", 0)
        self.reuse = given.get("reuseExistingChunk", False)

    def meets(self, path):
        return self.test is None or meets(self.test, path)


def rules_of(config):
    split = config.get("optimization", {}).get("splitChunks", {})
    if split is False:
        return []
    groups = {
        "default": {"priority": -20, "reuseExistingChunk": True, "minChunks": 2},
        "defaultVendors": {"priority": -10, "reuseExistingChunk": True, "test": {"inDir": "node_modules"}},
    }
    named = {}
    for key, value in split.get("cacheGroups", {}).items():
        named[key] = value
    ordered = [(k, v) for k, v in named.items()]
    ordered += [(k, v) for k, v in groups.items() if k not in named]
    return [Rule(v, split) for k, v in ordered if v is not False]


class Chunk:
    def __init__(self, entry, name, mods):
        self.entry, self.name, self.mods = entry, name, set(mods)
        self.gone = self.closed = False


class State:
    def __init__(self, case):
        self.entries = case.entries
        self.sizes, self.paths = case.sizes, case.paths
        self.chunks = [Chunk(i < case.entries, n, m) for i, (n, m) in enumerate(case.rows)]
        self.groups = [[i] for i in range(len(case.rows))]
        self.spent = set()
        if case.merge:
            self.merge_equal()
        while len(self.chunks) < min(case.used, MOST_CHUNKS):
            self.chunks.append(Chunk(False, None, ()))

    def merge_equal(self):
        into = {}
        firsts = {}
        for i, c in enumerate(self.chunks):
            if c.entry or c.name is not None or c.gone:
                continue
            key = frozenset(c.mods)
            if key in firsts:
                into[i] = firsts[key]
                c.gone = True
            else:
                firsts[key] = i
        for g, list_ in enumerate(self.groups):
            self.groups[g] = list(dict.fromkeys(into.get(i, i) for i in list_))

    def drop_empty(self):
        for i, c in enumerate(self.chunks):
            if not c.entry and not c.mods:
                c.gone = True
                self.groups = [[j for j in g if j != i] for g in self.groups]

    # ---- the definition

    def is_open(self, i):
        return i < len(self.chunks) and not self.chunks[i].gone and not self.chunks[i].closed

    def groups_of(self, i):
        return [g for g, list_ in enumerate(self.groups) if i in list_]

    def is_selected(self, rule, i):
        initial = any(g < self.entries for g in self.groups_of(i))
        return rule.chunks == "all" or initial == (rule.chunks == "initial")

    def is_full(self, rule, i):
        for g in self.groups_of(i):
            most = rule.max_initial if g < self.entries else rule.max_async
            if most is not None and len(self.groups[g]) >= most:
                return True
        return False

    def usable(self, rule, forced):
        return {i for i in range(len(self.chunks))
                if self.is_open(i) and self.is_selected(rule, i) and (forced or not self.is_full(rule, i))}

    def sharers(self, rule, forced):
        usable = self.usable(rule, forced)
        held = [set() for _ in self.sizes]
        for i in usable:
            for m in self.chunks[i].mods:
                held[m].add(i)
        return [frozenset(s) for s in held]

    def proposals(self, k, rule, forced):
        """Pairs of chunks and modules, whether admissible or not."""
        shares = self.sharers(rule, forced)
        tested = [m for m in range(len(self.sizes)) if rule.meets(self.paths[m])]
        if rule.name is None:
            sets = {shares[m] for m in tested if shares[m]}
            return [(s, frozenset(m for m in tested if s <= shares[m])) for s in sets]
        if k in self.spent:
            return []
        mods = frozenset(m for m in tested if len(shares[m]) >= rule.min_chunks)
        if not mods:
            return []
        return [(frozenset().union(*(shares[m] for m in mods)), mods)]

    def bound(self, rule, forced):
        return rule.threshold if forced else rule.min_size

    def size(self, mods):
        return sum(self.sizes[m] for m in mods)

    def candidates(self, rules):
        found = []
        for k, rule in enumerate(rules):
            for forced in (False, True):
                bound = self.bound(rule, forced)
                if bound is None:
                    continue
                for chunks, mods in self.proposals(k, rule, forced):
                    if len(chunks) >= rule.min_chunks and self.size(mods) >= bound:
                        found.append((k, forced, chunks, mods))
        return found

    def key(self, rules, candidate):
        """What is compared; the greater is taken."""
        k, forced, chunks, mods = candidate
        size = self.size(mods)
        return (rules[k].priority, len(chunks), size * (len(chunks) - 1), -k, len(mods),
                Lower(sorted(mods)), Lower(sorted(chunks)), not forced)

    def taker(self, rule, chunks, mods):
        if rule.name is None and rule.reuse:
            for i in sorted(chunks):
                if not self.chunks[i].entry and self.chunks[i].mods == set(mods):
                    return i
        return None

    def take(self, rules, candidate):
        k, forced, chunks, mods = candidate
        rule = rules[k]
        n = self.taker(rule, chunks, mods)
        reused = n is not None
        if n is None:
            if len(self.chunks) == MOST_CHUNKS:
                return None
            n = len(self.chunks)
            self.chunks.append(Chunk(False, rule.name, ()))
        for i in chunks:
            if i != n:
                self.chunks[i].mods -= mods
        self.chunks[n].mods |= mods
        for list_ in self.groups:
            if any(i in chunks for i in list_) and n not in list_:
                list_.append(n)
        self.chunks[n].closed = True
        if rule.name is not None:
            self.spent.add(k)
        return (k, forced, sorted(chunks), sorted(mods), n, reused)

    def split(self, rules):
        """The splits, and whether they need too many numbers."""
        done = []
        while True:
            found = self.candidates(rules)
            if not found:
                return done, False
            made = self.take(rules, max(found, key=lambda c: self.key(rules, c)))
            if made is None:
                return done, True
            done.append(made)

    def broken(self, rules, split):
        k, forced, chunks, mods, made, reused = split
        if k >= len(rules):
            return "Group"
        rule = rules[k]
        if rule.name is not None and k in self.spent or forced and rule.threshold is None:
            return "Group"
        if not chunks or not all(self.is_open(i) and self.is_selected(rule, i) for i in chunks):
            return "Selection"
        if not forced and any(self.is_full(rule, i) for i in chunks):
            return "Requests"
        options = {tuple(sorted(s)): m for s, m in self.proposals(k, rule, forced)}
        if tuple(chunks) not in options or len(chunks) < rule.min_chunks:
            return "Sharing"
        own = options[tuple(chunks)]
        if mods != sorted(own):
            return "Modules"
        if self.size(own) < self.bound(rule, forced):
            return "Size"
        n = self.taker(rule, chunks, own)
        if n is None and len(self.chunks) == MOST_CHUNKS:
            return "Made"
        if (made, reused) != ((len(self.chunks), False) if n is None else (n, True)):
            return "Made"
        return None

    def check(self, rules, list_):
        for index, split in enumerate(list_):
            rule = self.broken(rules, split)
            if rule is not None:
                return f"{rule}@{index}"
            k, forced, chunks, mods, _, _ = split
            self.take(rules, (k, forced, frozenset(chunks), frozenset(mods)))
        return "ok"


class Lower:
    """A list that is greater where it is lower."""

    def __init__(self, list_):
        self.list = list_

    def __eq__(self, other):
        return self.list == other.list

    def __lt__(self, other):
        return self.list > other.list

    def __gt__(self, other):
        return self.list < other.list


class Case:
    def __init__(self, line):
        text, _, rest = line.partition(" ")[2].partition(" ")
        self.config = json.loads(text)
        self.rules = rules_of(self.config)
        options = self.config.get("optimization", {})
        self.merge = options.get("mergeDuplicateChunks", True)
        self.drop = options.get("removeEmptyChunks", True)
        self.sizes, self.paths, rows, self.used = [], [], {"e": [], "g": []}, 0
        for word in rest.split(" "):
            kind, _, rest_ = word.partition(":")
            if kind == "m":
                size, _, path = rest_.partition(";")
                self.sizes.append(int(size[1:]))
                self.paths.append(path)
            elif kind in "eg" and kind:
                name, _, mods = rest_.partition(":")
                rows[kind].append((name or None, [int(m) for m in mods.split(",") if m]))
            elif kind == "n":
                self.used = int(rest_)
        self.entries = len(rows["e"])
        self.rows = rows["e"] + rows["g"]


def changes(list_, at):
    k, forced, chunks, mods, made, reused = list_[at]
    changed = [
        (k, forced, chunks, mods, made, reused),
        (k, forced, chunks[:-1], mods, made, reused),
        (k, forced, chunks + [chunks[-1] + 1], mods, made, reused),
        (k, forced, chunks[::-1], mods, made, reused),
        (k, forced, [1] + chunks, mods, made, reused),
        (k + 1, forced, chunks, mods, made, reused),
        (7, forced, chunks, mods, made, reused),
        (k, not forced, chunks, mods, made, reused),
        (k, forced, chunks, mods[:-1], made, reused),
        (k, forced, chunks, mods + [mods[-1] + 1 if mods else 1], made, reused),
        (k, forced, chunks, mods[::-1], made, reused),
        (k, forced, chunks, mods, made + 1, reused),
        (k, forced, chunks, mods, made, not reused),
    ]
    for one in changed:
        yield list_[:at] + [one] + list_[at + 1:]
    swapped = list(list_)
    if at + 1 < len(list_):
        swapped[at], swapped[at + 1] = swapped[at + 1], swapped[at]
    yield swapped


def answer(line):
    case = Case(line)
    state = State(case)
    done, over = state.split(case.rules)
    text = ""
    if over:
        text += "limit "
    else:
        for k, forced, chunks, mods, n, reused in done:
            text += f"{k} {'forced' if forced else 'limited'} [{listed(chunks)} ] {{{listed(mods)} }} {'reuses' if reused else 'makes'} {n}; "
        if case.drop:
            state.drop_empty()
    text += "| "
    ident = 0
    for i, c in enumerate(state.chunks):
        if c.gone:
            text += f"{i} gone; "
            continue
        if c.entry or c.closed or c.mods:
            text += f"{i} id {ident} {c.name or ''}{{{listed(sorted(c.mods))} }}; "
        ident += 1
    text += "|" + "".join(f" {g}:{listed(list_)}" for g, list_ in enumerate(state.groups))
    if over:
        return text
    text += " |"
    for at in range(len(done)):
        for list_ in changes(done, at):
            text += " " + State(case).check(case.rules, list_)
        text += ";"
    return text


def listed(numbers):
    return "".join(f" {n}" for n in numbers)


def random_rule(rng, key, paths):
    rule = {}
    if rng.random() < 0.7:
        rule["test"] = rng.choice(["src", "src/a", {"inDir": "node_modules"}, {"endsWith": "s"}, rng.choice(paths)])
    if rng.random() < 0.25:
        rule["name"] = "n" + key
    if rng.random() < 0.6:
        rule["chunks"] = rng.choice(["async", "initial", "all"])
    if rng.random() < 0.6:
        rule["minSize"] = rng.choice([0, 1, 30, 60, 100])
    if rng.random() < 0.5:
        rule["minChunks"] = rng.randint(1, 3)
    if rng.random() < 0.5:
        rule["maxAsyncRequests"] = rng.randint(1, 4)
    if rng.random() < 0.5:
        rule["maxInitialRequests"] = rng.randint(1, 4)
    if rng.random() < 0.5:
        rule["enforceSizeThreshold"] = rng.choice([0, 40, 80, 150])
    if rng.random() < 0.5:
        rule["priority"] = rng.randint(-2, 2)
    if rng.random() < 0.5:
        rule["reuseExistingChunk"] = True
    if rng.random() < 0.1:
        rule["enforce"] = True
    return rule


def random_line(rng):
    count = rng.randint(1, 8)
    paths = [rng.choice(["src/", "src/a", "node_modules/p/", "lib/"]) + chr(97 + i) + rng.choice(["", ".js", "s"]) for i in range(count)]
    base = {}
    if rng.random() < 0.8:
        base["minSize"] = rng.choice([0, 0, 1, 50])
    if rng.random() < 0.5:
        base["chunks"] = rng.choice(["async", "initial", "all", "all"])
    if rng.random() < 0.3:
        base["maxAsyncRequests"] = rng.randint(1, 4)
    if rng.random() < 0.3:
        base["enforceSizeThreshold"] = rng.choice([40, 80, 120])
    if rng.random() < 0.2:
        base["minChunks"] = rng.randint(1, 2)
    groups = {key: random_rule(rng, key, paths) for key in "abc"[:rng.randint(0, 3)]}
    for key in ("default", "defaultVendors"):
        if rng.random() < 0.6:
            groups[key] = False
    base["cacheGroups"] = groups
    options = {"splitChunks": base}
    if rng.random() < 0.3:
        options["mergeDuplicateChunks"] = False
    if rng.random() < 0.3:
        options["removeEmptyChunks"] = False
    is_near = rng.random() < 0.03
    if is_near:
        options["removeEmptyChunks"] = False
    words = ["splits", json.dumps({"optimization": options}, separators=(",", ":"))]
    words += [f"m:s{rng.choice([0, 1, 10, 30, 50, 90])};{path}" for path in paths]
    for i in range(rng.randint(1, 2)):
        words.append(f"e:{'main' if i == 0 else 'other'}:{some(rng, count)}")
    for i in range(rng.randint(0, 5)):
        words.append(f"g:{'' if rng.random() < 0.7 else 'g' + str(i)}:{some(rng, count)}")
    if is_near:
        words.append(f"n:{MOST_CHUNKS - rng.randint(0, 2)}")
    return " ".join(words)


def some(rng, count):
    return ",".join(str(m) for m in range(count) if rng.random() < 0.55)


def main():
    if sys.argv[1] == "answer":
        for line in sys.stdin:
            print(answer(line.rstrip("\n")))
    elif sys.argv[1] == "make":
        rng = random.Random(int(sys.argv[2]))
        for _ in range(int(sys.argv[3])):
            print(random_line(rng))


if __name__ == "__main__":
    main()
