#!/usr/bin/env python3
"""A plain search over all load histories, for the lines `groups` and `named` of crates/runs_seal.

`search.py make SEED COUNT` writes lines of small graphs, `search.py name SEED COUNT` lines of small graphs with names and
a configuration, `search.py answer` reads such lines and writes the expected answers. A shortest reason never has a group
twice, so histories as long as there are groups tell all."""
import json
import random
import re
import sys


def parse(line):
    modules, groups = [], []
    for word in line.split(' '):
        kind, _, text = word.partition(':')
        if kind == 'm':
            modules.append([(p[0], int(p[1:])) for p in text.split(',') if p])
        elif kind == 'e':
            groups.append((True, [int(n) for n in text.split(',') if n], []))
        elif kind == 'g':
            roots, _, blocks = text.partition('/')
            groups.append((False, [int(n) for n in roots.split(',') if n], [int(n) for n in blocks.split(',') if n]))
    return modules, groups


def reached(modules, roots):
    seen, work = set(roots), list(roots)
    while work:
        for kind, target in modules[work.pop()]:
            if kind == 'i' and target < len(modules) and target not in seen:
                seen.add(target)
                work.append(target)
    return seen


def read_module(text):
    """The items (kind, target, name, offset) of `ITEMS;PATH;TEXT`, the path and the text."""
    listed, _, rest = text.partition(';')
    path, _, text = (rest or 'a.js').partition(';')
    text = text.replace('_', ' ').replace('~', '\n')
    items = []
    for word in filter(None, listed.split(',')):
        word, _, times = word.partition('*')
        word, _, at = word.partition('@')
        word, _, name = word.partition('=')
        item = (word[0], int(word[1:]), name or None, min(int(at or 0), len(text)))
        items += [item] * int(times or 1)
    return items, path, text


def place(path, text, offset):
    before = text[:offset]
    return '%s:%d:%d' % (path, before.count('\n') + 1, offset - before.rfind('\n'))


def name_faults(modules, blocks, entries, config):
    """Chunk names that are an entry's, and names of cache groups that an entry or a block has, by place."""
    names = {name for _, _, _, name, _ in blocks}
    faults = []
    for m, item, _, name, at in blocks:
        if name in entries:
            path, text = modules[m][1:]
            faults.append((path, at, 13, place(path, text, at) + ': B13 chunk name "%s" is an entry' % name))
    for found in re.finditer('"name":"([^"]*)"', config):
        at, name = found.start() + len('"name":'), found[1]
        if name in entries or name in names:
            faults.append(('c.json', at, 18, place('c.json', config, at) + ': B18 cache group name "%s" is taken' % name))
    return [fault[3] for fault in sorted(faults)]


def named_answer(line):
    words = line.split(' ')
    config = words[0][2:]
    modules = [read_module(word[2:]) for word in words if word.startswith('m:')]
    lists = [[int(n) for n in word[2:].split(',') if n] for word in words if word.startswith('r:')]
    entry = json.loads(config).get('entry', './src/index.js')
    entries = list(entry) if isinstance(entry, dict) else ['main']
    blocks = [(m, i, target, name, at) for m, (items, _, _) in enumerate(modules)
              for i, (kind, target, name, at) in enumerate(items) if kind == 'l' and target < len(modules)]
    groups = [(name, e, [m for m in lists[e] if m < len(modules)], []) for e, name in enumerate(entries)]
    for name in sorted({name for _, _, _, name, _ in blocks if name}):
        own = [b for b, block in enumerate(blocks) if block[3] == name]
        groups.append((name, None, [blocks[b][2] for b in own], own))
    groups += [(None, None, [block[2]], [b]) for b, block in enumerate(blocks) if block[3] is None]
    if len(groups) > 4096:
        return 'limit'
    faults = name_faults(modules, blocks, entries, config)
    if faults:
        return ''.join(fault + '; ' for fault in faults)
    if len(groups) > 16:
        return '%d groups' % len(groups)
    parts = []
    for g, (name, e, roots, own) in enumerate(groups):
        shown = '' if name is None else ' ' + name
        shown += '' if e is None else ' entry %d' % e
        parts.append('%d:%s roots%s blocks%s; ' % (g, shown, ''.join(' %d' % m for m in roots), ''.join(' %d' % b for b in own)))
    of = [next(g for g, group in enumerate(groups) if b in group[3]) for b in range(len(blocks))]
    parts.append('of%s; ' % ''.join(' %d' % g for g in of))
    edges = [[(kind, target) for kind, target, _, _ in items] for items, _, _ in modules]
    return ''.join(parts) + answer_of(edges, [(e is not None, roots, own) for _, e, roots, own in groups])


def answer(line):
    asked, _, words = line.partition(' ')
    return named_answer(words) if asked == 'named' else answer_of(*parse(words))


def answer_of(modules, groups):
    homes = [m for m, items in enumerate(modules) for kind, t in items if kind == 'l' and t < len(modules)]
    reach = [reached(modules, roots) for _, roots, _ in groups]
    avail = [set(range(len(modules))) for _ in groups]
    reasons = [{} for _ in groups]
    level = [((), frozenset())]
    for _ in groups:
        following = []
        for members, union in level:
            for g, (entry, _, blocks) in enumerate(groups):
                if not entry and not any(homes[b] in union for b in blocks):
                    continue
                avail[g] &= union
                history = members + (g,)
                for m in reach[g] - union:
                    known = reasons[g].get(m)
                    if known is None or (len(history), history) < (len(known), known):
                        reasons[g][m] = history
                following.append((history, union | reach[g]))
        level = following
    parts = []
    for g in range(len(groups)):
        placed = reach[g] - avail[g]
        assert placed == set(reasons[g])
        has = ''.join(' %d' % m for m in sorted(avail[g]))
        gets = ''.join(' %d' % m for m in sorted(placed))
        since = ''.join(' %d(%s)' % (m, ''.join('%d ' % p for p in reasons[g][m])) for m in sorted(placed))
        parts.append('%d: has%s gets%s since%s; ' % (g, has, gets, since))
    return ''.join(parts)


def make(rng):
    count = rng.randint(1, 7)
    words, targets = [], []
    for _ in range(count):
        items = []
        for _ in range(rng.randint(0, 3)):
            kind, target = rng.choice('iil'), rng.randrange(count)
            items.append('%s%d' % (kind, target))
            if kind == 'l':
                targets.append(target)
        words.append('m:' + ','.join(items))
    for _ in range(rng.randint(1, 2)):
        words.append('e:' + ','.join(str(rng.randrange(count)) for _ in range(rng.randint(1, 2))))
    blocks = list(range(len(targets)))
    left = 4
    while blocks and left:
        left -= 1
        own = [blocks.pop(0)]
        while blocks and (left == 0 or rng.random() < 0.3):
            own.append(blocks.pop(0))
        words.append('g:%s/%s' % (','.join(str(targets[b]) for b in own), ','.join(map(str, own))))
    return ' '.join(words)


def make_named(rng):
    count = rng.randint(1, 6)
    names = ['a', 'B', 'c/d', 'ab', None, None]
    entries = rng.sample(['main', 'x', 'a'], rng.randint(1, 2)) if rng.random() < 0.5 else ['main']
    caches = rng.sample(['v', 'w'], rng.randint(0, 2)) if rng.random() < 0.5 else []
    taken = rng.sample(['a', 'B', 'main', 'free'], len(caches))
    groups = ','.join('"%s":{"name":"%s"}' % pair for pair in zip(caches, taken))
    config = '{"entry":{%s},"optimization":{"splitChunks":{"cacheGroups":{%s}}}}' % (','.join('"%s":"./a.js"' % name for name in entries), groups)
    words, left = ['j:' + config], 4
    for m in range(count):
        items, text = [], ''.join(rng.choice('xxx_~') for _ in range(rng.randint(0, 9)))
        for _ in range(rng.randint(0, 3)):
            if rng.random() < 0.4 and left:
                left -= 1
                name = rng.choice(names)
                items.append('l%d%s@%d' % (rng.randrange(count), '=' + name if name else '', rng.randint(0, 9)))
            else:
                items.append('i%d' % rng.randrange(count))
        words.append('m:%s;m%d.js;%s' % (','.join(items), m, text))
    words += ['r:' + ','.join(str(rng.randrange(count)) for _ in range(rng.randint(1, 2))) for _ in entries]
    return ' '.join(words)


if sys.argv[1] in ('make', 'name'):
    rng = random.Random(int(sys.argv[2]))
    for _ in range(int(sys.argv[3])):
        print('groups ' + make(rng) if sys.argv[1] == 'make' else 'named ' + make_named(rng))
else:
    for line in sys.stdin:
        print(answer(line.rstrip('\n')))
