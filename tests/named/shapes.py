"""What a token in backticks must be, by its shape. A check gives what is wrong, or nothing."""
import pathlib
import re

from named.tree import PLACES

# What nothing in the tree declares: words of the languages and of the kit; tools; what a program prints, or must not.
PLAIN = {
    *("requires", "ensures", "u32", "let .. else", "a ∷ b ∷ []", "Learnt", "std::num"),
    *("rt", "gcc", "g++", "apt-get", "perf", "cat", "memcpy", "copy_from_slice", "poll"),
    *("refused-42", "millimeters", "raw", "axioms", "null", "port.py"),
}
COMMANDS = {"rt", "check", "ci", "lib", "run", "must-fail", "version", "git", "bash", "xxd", "column", "second"}
FOLDERS = ("crates", "tests", "captures", "docs", "include")


def declared(*sets):
    return lambda name: not any(name in names for names in sets) and f"nothing declares {name}"


def path_wrong(path):
    inner = re.search(r"\{(.*?)\}", path)
    parts = [path[: inner.start()] + part + path[inner.end() :] for part in inner[1].split(",")] if inner else [path]
    for part in parts:
        wanted = part.rstrip("/").replace("NAME", "*")
        there = not wanted.startswith("/") and any(list(pathlib.Path(".").glob(place + wanted)) for place in PLACES)
        if not there and not re.match(r"target/|crates/\w+/out/", wanted):
            return f"no file {part}"


def file_wrong(name):
    found = [pathlib.Path(name), *(path for folder in FOLDERS for path in pathlib.Path(folder).rglob(name))]
    return not any(path.exists() and "target" not in path.parts for path in found) and f"no file {name}"


class Shapes:
    def __init__(self, tree, shell):
        """`shell` are the functions that the page's own commands define."""
        self.tree, self.shell = tree, shell
        library = {path.rsplit("::", 1)[1] for path in tree.used if path.startswith("std::")}
        captures = {path.stem for path in pathlib.Path("captures").iterdir()}
        code = tree.rt_names | tree.rust_names | tree.crates
        self.table = [
            (r"(?:[0-9A-Fa-f]{2}|\.\.)(?: (?:[0-9A-Fa-f]{2}|\.\.))*|0x[0-9A-Fa-f]+|[\d,]+", lambda token: None),
            (r"boherlin_\w+|BOHERLIN_\w+", declared(tree.c_names)),
            (r"[a-z0-9]+(?:_[a-z0-9]+)+", declared(tree.edits, tree.antt_names, code, library)),
            (r"[a-z0-9]+(?:-[a-z0-9]+)+", declared(tree.antt_names, tree.rust_words, captures)),
            (r"[a-z]+|[A-Z]+(?:_[A-Z]+)*", declared(tree.antt_names, code, shell)),
            (r"[a-z]+[A-Z0-9]\w*", declared(tree.antt_names)),
            (r"[A-Z]\w*", declared(tree.antt_names, tree.rt_names)),
            (r"[\w-]+\.(?:antt|rt|rs|bin|txt|md|h|hex)", file_wrong),
            (r"[\w*./{},-]+/[\w*./{},-]*", path_wrong),
            (r"\w+(?:::\w+)+", self.member_wrong),
        ]

    def wrong(self, token):
        if token in PLAIN:
            return None
        for shape, check in self.table:
            if re.fullmatch(shape, token):
                return check(token)
        words = re.compile(rf"(?<![\w-]){re.escape(token)}(?![\w-])")
        in_code = any(words.search(source.text) for source in self.tree.antt + self.tree.rt)
        return None if in_code else self.command_wrong(token)

    def member_wrong(self, token):
        """`crate::function`, `Type::function`, or a library's name that the code uses."""
        owner, name = token.rsplit("::", 1)
        if owner in self.tree.crates:
            there = any(name in source.names for source in self.tree.rt if source.crate == owner)
        else:
            there = (owner, name) in self.tree.members or token in self.tree.used
        return not there and f"no {name} in {owner}"

    def command_wrong(self, token):
        """A command: its words are commands, crates, paths, or words that the second program knows."""
        words = [word for word in token.split() if not re.match(r"(?:CI|CALLS)=", word)] or [token]
        if words[0] not in COMMANDS | self.shell and ("/" not in words[0] or path_wrong(words[0])):
            return f"what is {token}?"
        known = COMMANDS | self.shell | self.tree.crates | self.tree.rust_words
        for word in words:
            strange = path_wrong(word) if "/" in word else re.fullmatch(r"[a-z][a-z0-9-]*", word) and word not in known
            if strange and words[0] != "git":
                return f"what is {word} in {token}?"
