"""Resolution by a plain program of its own: reads the lines that runs_modules reads, and writes the same answers.

It shares no code with the crates, and looks everything up in a set of paths, one rule after another.
"""
import json
import re
import sys

LIMIT = 1048576
FORBIDDEN = re.compile(r"[\x00-\x1f\x7f]")


class Refused(Exception):
    pass


class Verdict(Exception):
    pass


def join(folder, text):
    if FORBIDDEN.search(text) or text.startswith("/"):
        raise Refused
    parts = folder.split("/") if folder else []
    for part in text.split("/"):
        if part == "..":
            if not parts:
                raise Refused
            parts.pop()
        elif part not in ("", "."):
            parts.append(part)
    return "/".join(parts)


def within(folder, name):
    return folder + "/" + name if folder else name


def constant(_):
    raise ValueError


class Target:
    """A target of `exports`: its kind and, of a text, the text."""

    def __init__(self, kind, text=None):
        self.kind = kind
        self.text = text


def refused_segment(text):
    return any(part in (".", "..") or part.lower() == "node_modules" for part in text.split("/"))


def is_index(key):
    return re.fullmatch(r"0|[1-9][0-9]*", key) is not None and int(key) <= 4294967294


def target_of(value, star, conditions):
    if value is None:
        return Target("null")
    if isinstance(value, (bool, int, float)):
        return Target("bad")
    if isinstance(value, str):
        if not value.startswith("./") or "%" in value or "\\" in value or refused_segment(value[2:]):
            return Target("bad")
        return Target("text", value if star is None else value.replace("*", star))
    if isinstance(value, list):
        last = Target("null")
        for member in value:
            target = target_of(member, star, conditions)
            if target.kind in ("text", "key"):
                return target
            if target.kind in ("null", "bad"):
                last = target
        return last
    if any(is_index(key) for key in value):
        return Target("key")
    for key, member in value.items():
        if key == "default" or key in conditions:
            target = target_of(member, star, conditions)
            if target.kind != "undefined":
                return target
    return Target("undefined")


def by_pattern(exports, subpath, conditions):
    matches = []
    for key in exports:
        if key.count("*") != 1:
            continue
        before, after = key.split("*")
        if subpath.startswith(before) and subpath != before and subpath.endswith(after) and len(subpath.encode()) >= len(key.encode()):
            matches.append((len(before.encode()), len(key.encode()), key))
    if not matches:
        return Target("undefined")
    key = max(matches)[2]
    before, after = key.split("*")
    part = subpath[len(before):len(subpath) - len(after)]
    if refused_segment(part):
        return Target("undefined")
    return target_of(exports[key], part, conditions)


def exported(exports, subpath, conditions):
    if isinstance(exports, dict) and any(key.startswith(".") for key in exports):
        if not all(key.startswith(".") for key in exports):
            return Target("bad")
        if subpath.endswith("/"):
            return Target("undefined")
        if "*" not in subpath and subpath in exports:
            return target_of(exports[subpath], None, conditions)
        return by_pattern(exports, subpath, conditions)
    if isinstance(exports, (str, list, dict)) and subpath == ".":
        return target_of(exports, None, conditions)
    return Target("undefined")


class World:
    def __init__(self):
        self.files = {}
        self.folders = {""}
        self.settings = {
            "extensions": [".js", ".json"],
            "mainFields": ["browser", "module", "main"],
            "mainFiles": ["index"],
            "conditionNames": ["webpack", "browser", "module"],
        }
        self.aliases = []
        self.read = []

    def configure(self, given):
        self.aliases = list(given.pop("alias", {}).items())
        self.settings.update(given)

    def add(self, path, text):
        self.files[path] = text
        while "/" in path:
            path = path.rsplit("/", 1)[0]
            self.folders.add(path)

    def manifest(self, folder):
        """None where there is none; a bad one is refused."""
        path = within(folder, "package.json")
        if path not in self.files:
            return None
        if path not in self.read:
            self.read.append(path)
        text = self.files[path]
        try:
            if len(text.encode()) > LIMIT:
                raise ValueError
            value = json.loads(text.lstrip(" \t"), parse_constant=constant)
        except ValueError:
            raise Verdict("BadManifest " + path) from None
        if not isinstance(value, dict):
            raise Verdict("BadManifest " + path)
        return value

    def as_file(self, path):
        if not path:
            return None
        for tried in [path] + [path + extension for extension in self.settings["extensions"]]:
            if tried in self.files:
                return tried
        return None

    def main_file(self, folder):
        for name in self.settings["mainFiles"]:
            found = self.as_file(within(folder, name))
            if found:
                return found
        return None

    def as_folder(self, folder):
        manifest = self.manifest(folder)
        for field in self.settings["mainFields"] if manifest else []:
            value = manifest.get(field)
            if not isinstance(value, str) or not value:
                continue
            try:
                path = join(folder, value)
            except Refused:
                continue
            found = self.as_file(path) or self.main_file(path)
            if found:
                return found
        return self.main_file(folder)

    def named(self, folder, text):
        try:
            path = join(folder, text)
        except Refused:
            return None
        found = None if text.endswith("/") else self.as_file(path)
        return found or self.as_folder(path)

    def bare(self, base, request, condition):
        if request.startswith("@"):
            if "/" not in request:
                return None
            scope, tail = request.split("/", 1)
            name, _, rest = tail.partition("/")
            name = scope + "/" + name
        else:
            name, _, rest = request.partition("/")
        folder = base
        while True:
            if folder.rsplit("/", 1)[-1] != "node_modules":
                package = within(folder, "node_modules/" + name)
                if package in self.folders:
                    return self.package(package, rest, condition)
            if not folder:
                return None
            folder = folder.rsplit("/", 1)[0] if "/" in folder else ""

    def package(self, package, rest, condition):
        manifest = self.manifest(package)
        if manifest is not None and manifest.get("exports") is not None:
            conditions = self.settings["conditionNames"] + [condition]
            target = exported(manifest["exports"], "./" + rest if rest else ".", conditions)
            if target.kind in ("bad", "key"):
                raise Verdict("BadTarget " + within(package, "package.json"))
            if target.kind != "text":
                raise Verdict("NotExported")
            try:
                path = join(package, target.text)
            except Refused:
                return None
            return path if path in self.files else None
        return self.named(package, rest) if rest else self.as_folder(package)

    def resolve(self, base, request, condition):
        for key, value in self.aliases:
            name = key[:-1] if key.endswith("$") else key
            if request == name or not key.endswith("$") and request.startswith(name + "/"):
                request = value + request[len(name):]
                if request in (".", "..") or request.startswith(("./", "../")):
                    base = ""
                break
        if not request or request.startswith("/"):
            return None
        if request in (".", "..") or request.startswith(("./", "../")):
            return self.named(base, request)
        return self.bare(base, request, condition)

    def answer(self, base, request, condition):
        try:
            return self.resolve(base, request, condition) or "Unresolved"
        except Verdict as verdict:
            return str(verdict)


def unescaped(text):
    return re.sub(r"\\(\\|x..)", lambda it: "\\" if it[1] == "\\" else chr(int(it[1][1:], 16)), text)


def main():
    world = World()
    for line in sys.stdin.read().split("\n")[:-1]:
        kind, rest = line[:2], line[2:]
        first, _, second = rest.partition("|")
        if line == "T":
            world = World()
        elif kind == "F ":
            world.add(first, unescaped(second))
        elif kind == "Z ":
            world.add(first, "{}".rjust(int(second)))
        elif kind == "C ":
            world.configure(json.loads(unescaped(rest)).get("resolve", {}))
        elif kind == "I ":
            print(world.answer(first, second, "import"))
        elif kind == "Q ":
            print(world.answer(first, second, "require"))
        elif line == "L":
            print("\n".join(f"  read {path} as manifest" for path in world.read) or "  read nothing")
            world.read = []
        else:
            print(line)


main()
