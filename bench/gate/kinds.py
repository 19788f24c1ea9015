"""What a command that `rt ci` starts is for: a crate and a kind, told by its words and its folder."""
import os
import re

KINDS = ("proof", "start", "edits", "closing", "tests", "compiling", "running", "other")
COMPILERS = re.compile(r"(clang|llvm-|ld|lld|rattle-link)")
PROGRAM = re.compile(r"/rt-run-[^/]+/bin/(\w+?)(_tests)?$")


class Kinds:
    """Remembers over which starts edits were tried: a check there that comes later is the closing one."""

    def __init__(self):
        self.tried = set()

    def kind_of(self, words, folder, parents):
        """The crate and the kind, which are the parent's where nothing else is told."""
        if words[1:2] == ["-ISc"]:
            # (this is about to become the command behind it)
            words = words[3:]
        program = next((found[1] for it in words for found in [PROGRAM.search(it)] if found), None)
        if program:
            return program, "running"
        tool = os.path.basename(words[0]) if words else ""
        if tool == "rattle":
            return self.of_rattle(words, folder)
        if COMPILERS.match(tool):
            return (os.path.basename(folder) if tool == "rattle-link" else parents[0]), "compiling"
        return parents

    def of_rattle(self, words, folder):
        given = lambda flag: words[words.index(flag) + 1] if flag in words[:-1] else ""
        crate = given("--crate-name")
        if not crate:
            return (os.path.basename(folder) if "/crates/" in folder else "rt"), "other"
        if "/rt-edit-" in folder:
            return crate, self.of_edit(given("--incremental"))
        if "--crate-checked" in words:
            return crate, "compiling"
        return crate, "tests" if "--test" in words else "proof"

    def of_edit(self, kept):
        start = os.path.dirname(kept)
        if os.path.basename(kept) == "seed":
            return "closing" if start in self.tried else "start"
        self.tried.add(start)
        return "edits"
