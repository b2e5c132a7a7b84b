"""What a paper names: each token in backticks is looked up by its shape, and in the file it is said to stand in."""
import re

from named.shapes import Shapes

GONE = "Gone since:"
LISTED = re.compile(r",|,? and|,? or|,? to")
INSIDE = re.compile(r"(?:and \d+ more )?in")
FILE = re.compile(r".*/.*|[\w-]+\.(?:antt|rt|rs)")
BARE = re.compile(r"[a-z]+|[a-z0-9]+(?:[-_][a-z0-9]+)+|[A-Za-z]+[A-Z]\w*")


def units(text):
    """Paragraphs, list items and rows of tables, each on one line; what is fenced is left out."""
    text = re.sub(r"^```.*?^```", "", text, flags=re.M | re.S)
    return [" ".join(part.split()) for part in re.split(r"\n\s*\n|\n(?=\||\s*- |\d+\. )", text)]


def tokens(unit):
    """Each token with the words before it."""
    parts = unit.split("`")
    return [(before.strip(), token) for before, token in zip(parts[0::2], parts[1::2])]


def names_of(sources):
    return set().union(*(source.names for source in sources))


class Page:
    def __init__(self, tree, path, text):
        self.tree, self.path, self.text = tree, path, text
        self.shapes = Shapes(tree, set(re.findall(r"^\$ (\w+)\(\) \{", text, re.M)))
        self.gone = {token for unit in units(text) if unit.startswith(GONE) for _, token in tokens(unit)}

    def faults(self):
        links = re.findall(r"\]\(([^)#:]+)\)", self.text)
        found = [f"no file {link}" for link in links if not (self.path.parent / link).exists()]
        found += [f"{token} is said to be gone, and is there" for token in sorted(self.gone) if not self.wrong(token)]
        for unit in units(self.text):
            if unit.count("`") % 2:
                found.append(f"a backtick is not closed: {unit[:60]}")
            elif not unit.startswith(GONE):
                found += self.unit_faults(unit)
        return found

    def unit_faults(self, unit):
        """In a list behind `crate: File.name` a bare name stands in that file; before 'in' and a file, in that one."""
        found, crate, beside, row = [], None, None, []
        for before, token in tokens(unit):
            if not LISTED.fullmatch(before):
                names = self.names_in(token, crate) if INSIDE.fullmatch(before) else None
                found += [f"no {name} in {token}" for name in row if names is not None and name not in names]
                beside, row = None, []
            if token not in self.gone and (wrong := self.wrong(token, crate, beside)):
                found.append(wrong)
            row += [] if FILE.fullmatch(token) or token in self.gone else [token.split("::")[-1]]
            beside = self.qualified(token, crate) or beside
            crate = self.crate_of(token) or crate
        return found

    def crate_of(self, token):
        first = re.match(r"(?:crates/)?(\w+)(?:/|: |$)", token)
        return first[1] if first and first[1] in self.tree.crates else None

    def qualified(self, token, crate):
        """The files of `crate: File.name`, `crate: File` or `File.name`; None for another token."""
        parts = re.fullmatch(r"(?:(\w+): )?([A-Z]\w*)(?:\.([\w-]+))?", token)
        if parts and not FILE.fullmatch(token) and (parts[1] or parts[3]):
            return self.tree.files(parts[2], parts[1] or crate, there=bool(parts[1]))

    def names_in(self, token, crate):
        """What stands in the file or folder that a token names; None where it names none."""
        if (files := self.qualified(token, crate)) is not None:
            return names_of(files)
        if token.endswith(".antt") and "/" not in token:
            return names_of(self.tree.files(token[:-5], crate))
        return self.tree.names_at(token)

    def wrong(self, token, crate=None, beside=None):
        """What is wrong with a token, if anything; `beside` are the files that its list stands in."""
        files = self.qualified(token, crate)
        if files is not None:
            name = token.split(": ")[-1].partition(".")[2]
            there = files and (not name or name in names_of(files))
            return None if there else f"no {token}"
        is_other = token in self.tree.edits | self.tree.rt_names and token not in self.tree.antt_names
        if beside and BARE.fullmatch(token) and not is_other and token not in names_of(beside):
            return f"no {token} in {beside[0].path}"
        return self.shapes.wrong(token)
