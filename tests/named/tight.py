"""What docs/TIGHT.md owes each edit and each public function."""
import re


def functions(tree):
    """The file, the type or None, and the name of each public function."""
    return [(source, owner, name) for source in tree.rt for owner, name in sorted(source.public(), key=str)]


def edits_unnamed(tree, text):
    return [f"the edit {edit} is not named" for edit in sorted(tree.edits) if f"`{edit}`" not in text]


def lines_missing(tree, tight):
    """Each public function begins a line of the table, as `Type::name`, `name` or `crate::name`."""
    heads = " ".join(re.findall(r"^\| ([^|]*)", tight, re.M))
    missing = []
    for source, owner, name in functions(tree):
        forms = [f"`{owner}::{name}`"] if owner else [f"`{name}`", f"`{source.crate}::{name}`"]
        missing += [] if any(form in heads for form in forms) else [f"no line for {name} of {source.path}"]
    return missing


def has_one_answer(tree, crate, owner, name):
    """A public theorem `one_..` of the crate's OneAnswer.antt speaks of what callers learn from this function."""
    place = r"(?:[a-z]\w*\.)*" + (rf"{owner}\." if owner else "") + name
    for source in tree.files("OneAnswer", crate, there=True):
        called = re.findall(rf"^use Rattle\.{crate}\.(?:proofs\.{place}\.Reads|specs\.contracts\.{place}) as (\S+)$", source.text, re.M)
        theorems = [part for part in re.split(r"\n\s*\n", source.text) if re.search(r"^\s*pub one_", part, re.M)]
        learnt = [re.compile(rf"\({re.escape(alias)}\.(?:Learnt|clauses) ") for alias in called]
        if any(what.search(theorem) for what in learnt for theorem in theorems):
            return True
    return False


def imported(source):
    """(module, name) for all that a file's clauses may cite; an alias counts as a name."""
    lists = re.findall(r"^ghost use (\S+?)\.\{(.*)\};$", source.text, re.M)
    called = re.findall(r"^ghost use ([^\s{]+) as (\S+);$", source.text, re.M)
    return {(module, name.strip()) for module, names in lists for name in names.split(",")} | set(called)


def contract(source, name):
    """A public function's signature with its clauses, and its body, each on one line; nothing where it is not there."""
    found = re.search(rf'^pub extern "C" fn {name}\b(.*?)^\{{\n(.*?)^\}}$', source.text, re.M | re.S)
    return [" ".join(part.split()) for part in found.groups()] if found else [None, ""]


def restated(tree, source, name):
    """The crate whose function of this name a function is for C: it only calls that one, and has its clauses word for word."""
    words, body = contract(source, name)
    called = re.fullmatch(rf"(\w+)::{name}\([\w, ]*\);?", body)
    there = [other for other in tree.rt if called and other.crate == called[1] and contract(other, name)[0] == words]
    return called[1] if any(imported(source) <= imported(other) for other in there) else None


def undecided(tree, tight):
    """Each public function has its theorem, or 'What is not decided' names it with its type or crate; one that is another
    crate's for C has that crate's."""
    told = re.search(r"^## What is not decided$(.*?)^## ", tight, re.M | re.S)[1]
    missing = []
    for source, owner, name in functions(tree):
        named = f"`{owner or source.crate}::{name}`" in told
        crate = restated(tree, source, name) or source.crate
        if not named and not has_one_answer(tree, crate, owner, name):
            missing.append(f"{name} of {source.path} has no theorem in OneAnswer.antt and is not told as undecided")
    return missing
