"""What a file of crates/ imports and does not use."""
import re

LISTED = re.compile(r"^(?:ghost )?use \S+?\.\{(.*)\};?$", re.M)
CALLED = re.compile(r"^(?:ghost )?use [^\s{]+ as (\S+?);?$", re.M)
SINGLE = re.compile(r"^use (?:\w+::)+(\w+);$", re.M)
ANY = re.compile(r"^(?:pub |ghost )?use .*$", re.M)
APART = re.compile(r"[\s(){};,.⌜⌝]+")


def unused(text):
    """By the names that a file calls them by; what it hands on (`pub use`) is not asked for."""
    body = ANY.sub("", text)
    listed = [item.split(" as ")[-1].strip() for row in LISTED.findall(text) for item in row.split(",")]
    words, plain = set(APART.split(body)), set(re.findall(r"\w+", body))
    logic = [name for name in listed + CALLED.findall(text) if not is_used(name, words)]
    return logic + [name for name in SINGLE.findall(text) if name not in plain]


def is_used(name, words):
    """An operator is used by its parts: `◌+◌` as `+`."""
    return name in words or "◌" in name and all(part in words for part in name.split("◌") if part)


def faults(tree):
    return [f"{source.path}: {name} is imported and not used"
            for source in tree.antt + tree.rt for name in unused(source.text)]
