"""What the tree declares, file by file: definitions and theorems, functions and types, edits, names for C."""
import pathlib
import re

# A path in a paper begins at the top, at crates/ or at a crate.
PLACES = ("", "crates/", "crates/*/")
NAME = r"[^\s(){}\[\]:;=,.λ→]+"


def antt_names(text):
    """What an .antt file gives a type: definitions, theorems, records, their fields, constructors."""
    bare = re.sub(r"--.*", "", text)
    typed = re.findall(rf"^\s*(?:(?:abbrev|unfoldable|pub)\s+)*({NAME})\s+:\s", bare, re.M)
    return {*typed, *re.findall(rf"^\s*(?:pub\s+)?(?:record|data)\s+({NAME})", bare, re.M)}


def antt_imports(text):
    """What it takes by name from elsewhere, from libraries too."""
    lists = re.findall(r"^use [^\n{]*\{([^}]*)\}", text, re.M)
    return {name for names in lists for name in re.findall(r"[^\s,]+", names)}


def rt_names(text):
    """Functions, types, traits, constants, modules and fields of a Rattle or Rust file."""
    fields = "\n".join(re.findall(r"\bstruct \w+[^{;]*\{(.*?)\}", text, re.S))
    items = re.findall(r"\b(?:fn|struct|enum|trait|const|mod) (\w+)", text)
    return {*items, *re.findall(r"^\s*(?:pub )?(\w+):", fields, re.M)}


def within(kind, name, text):
    """(type, name) for each name of this form in the blocks of this kind, `impl` or `enum`."""
    blocks = re.findall(rf"^(?:pub )?{kind}(?:<[^>]*>)? (\w+)[^{{]*\{{(.*?)^\}}", text, re.M | re.S)
    return {(owner, found) for owner, body in blocks for found in re.findall(name, body, re.M)}


def members(text):
    return within("impl", r"\b(?:fn|const) (\w+)", text) | within("enum", r"^    ([A-Z]\w*)", text)


class Source:
    """A file of a crate, without its comments, and what it declares."""

    def __init__(self, path):
        text = path.read_text()
        self.path, self.crate, self.is_antt = path, path.parts[1], path.suffix == ".antt"
        self.text = re.sub(r"--.*" if self.is_antt else r"//.*", "", text)
        self.names = antt_names(text) if self.is_antt else rt_names(self.text)

    def public(self):
        """(type or None, name) of each public function."""
        free = re.findall(r'^pub (?:extern "C" )?fn (\w+)', self.text, re.M)
        return within("impl", r"^    pub fn (\w+)", self.text) | {(None, name) for name in free}


class Tree:
    def __init__(self):
        # out/ is made by rt
        paths = sorted(path for path in pathlib.Path("crates").rglob("*") if path.parts[2:3] != ("out",))
        self.antt = [Source(path) for path in paths if path.suffix == ".antt"]
        self.rt = [Source(path) for path in paths if path.suffix == ".rt"]
        self.crates = {path.name for path in pathlib.Path("crates").iterdir()}
        self.edits = {path.stem for path in paths if path.suffix == ".edit"}
        self.antt_names = set().union(*(source.names | antt_imports(source.text) for source in self.antt))
        self.rt_names = set().union(*(source.names for source in self.rt))
        self.members = set().union(*(members(source.text) for source in self.rt))
        self.used = {path for source in self.rt for path in re.findall(r"\b[a-z]\w*(?:::\w+)+", source.text)}
        headers = "".join(path.read_text() for path in pathlib.Path("include").glob("*.h"))
        bare = re.sub(r"/\*.*?\*/|//[^\n]*", "", headers, flags=re.S)
        self.c_names = set(re.findall(r"\bboherlin_\w+|\bBOHERLIN_\w+", bare))
        rust = [path.read_text() for path in pathlib.Path("tests").rglob("*.rs") if "target" not in path.parts]
        self.rust_names = set().union(*(rt_names(text) for text in rust))
        self.rust_words = {word for text in rust for word in re.findall(r'"([a-z][a-z0-9-]*)"', text)}

    def files(self, stem, crate=None, there=False):
        """The .antt files of this name: the crate's, where it has one, and no others where it must be there."""
        found = [source for source in self.antt if source.path.stem == stem]
        mine = [source for source in found if source.crate == crate]
        return mine if there else mine or found

    def names_at(self, path):
        """What stands in a file, or in a folder; None where there is neither."""
        found = [file for place in PLACES for file in pathlib.Path(".").glob(place + path)] if "/" in path else []
        names = set()
        for file in found:
            if file.is_dir():
                names |= {inner.stem for inner in file.iterdir()}
            else:
                names |= (antt_names if file.suffix == ".antt" else rt_names)(file.read_text())
        return names if found else None
