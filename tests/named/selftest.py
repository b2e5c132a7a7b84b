"""Sentences that are right, each with a wrong one beside it, which the checks must find."""
import pathlib

from named import imports, tight
from named.pages import Page

# of a function: crate, type or nothing, name
HAS_THEOREM = [("receiver", "Receiver", "take"), ("opened", "Advertisement", "next"), ("header", None, "gap")]
HAS_NONE = [("receiver", "Receiver", "taken"), ("receiver", "Sender", "take"), ("header", None, "read")]
# of a function for C: crate, name, the crate whose function it is
RESTATED = [("export_c", "boherlin_take", "export"), ("export_c", "boherlin_outside", "export")]
RESTATED += [("export_plain", "boherlin_gap", None), ("export", "boherlin_take", None)]
CASES = [
    ("`demand_3`", "`demand_33`"),
    ("`is_repeat`", "`is_repeatt`"),
    ("`NeverOutside`", "`NeverOutsides`"),
    ("`Kept.demand_3`", "`Kept.demand_4`"),
    ("`joining: Joining.join`, `unjoined`", "`joining: Joining.joins`"),
    ("`joining: Joining.join`, `unjoined`", "`joining: Joining.join`, `channel_at`"),
    ("`link: Wrong`", "`link: Wrongs`"),
    ("`Lasting.antt`", "`Lastingg.antt`"),
    ("`take_sound`, `clear_sound` in `receiver/proofs/Lasting.antt`", "`take_sound` in `receiver/proofs/Changes.antt`"),
    ("`receiver/proofs/Changes.antt`; `take_sound` in `Lasting.antt`", "`sender/src`; `take_sound` in `Lasting.antt`"),
    ("`join` in `joining/src/joinings.rt`", "`join` in `joining/src/channels.rt`"),
    ("`splice_mended` in `crates/link/must-fail`", "`joined_over_a_gap` in `crates/link/must-fail`"),
    ("`joined_over_a_gap`", "`joined_over_two_gaps`"),
    ("`Receiver::take`", "`Receiver::taken`"),
    ("`Receiver::take`", "`Sender::take`"),
    ("`verdict::delivered`", "`sender::delivered`"),
    ("`boherlin_take`", "`boherlin_taken`"),
    ("`link/specs/{Run,Demand}.antt`", "`link/specs/{Run,Demands}.antt`"),
    ("`tests/compare`", "`tests/comparison`"),
    ("`splice.bin`", "`splices.bin`"),
    ("`gap == 0`", "`gap == 1`"),
    ("`rt ci header`", "`rt ci head`"),
    ("`06 00 7E`", "`06 0G 7E`"),
    ("`closes-only`", "`opens-only`"),
    ("`a ∷ b ∷ []`", "`a ∷∷ b`"),
    ("`take`", "`take"),
    ("[the gate](docs/gate.txt)", "[the gate](docs/gates.txt)"),
    ("`uart`\n\nGone since: `uart`.", "`uart`\n\nGone since: `link`."),
    ("Gone since: `uart`.", "Gone since: `receiver`."),
]
# a file's text, and the names that it imports and does not use
IMPORTS = [
    ("use a.B.{x, ◌+◌, [], y as z}\nf : x + z\nf = []\n", []),
    ("use a.B.{x, ◌+◌, [], y as z}\nf = x-y\n", ["x", "◌+◌", "[]", "z"]),
    ("use a.B as m\nuse a.C as n\nf = m.x\n", ["n"]),
    ("use a::b;\nuse a::take_run;\nghost use a.{b-c};\nfn f() { b(1) }\n", ["b-c", "take_run"]),
]


def found(tree, text):
    return Page(tree, pathlib.Path("README.md"), text).faults()


def faults(tree):
    wrong = [f"a right one is refused: {right}: {found(tree, right)}" for right, _ in CASES if found(tree, right)]
    wrong += [f"a wrong one is let through: {text}" for _, text in CASES if not found(tree, text)]
    wrong += [f"its theorem is not found: {place}" for place in HAS_THEOREM if not tight.has_one_answer(tree, *place)]
    wrong += [f"a theorem is found: {place}" for place in HAS_NONE if tight.has_one_answer(tree, *place)]
    for crate, name, of in RESTATED:
        sources = [source for source in tree.rt if source.crate == crate and (None, name) in source.public()]
        wrong += [f"{name} of {source.path} is not {of}'s" for source in sources if tight.restated(tree, source, name) != of]
    return wrong + [f"not {names}: {imports.unused(text)}" for text, names in IMPORTS if imports.unused(text) != names]
