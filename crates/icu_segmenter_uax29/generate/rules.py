"""The rules of each kind, as the rows of specs have them, the machines that stand in the code, and what the proof checks of both."""
import os
import re
import sys

HERE = os.path.dirname(os.path.abspath(__file__))
sys.path.append(os.path.join(HERE, "..", "..", "seg_rules", "generate"))
from automata import Rules  # noqa: E402
from instance import Instance  # noqa: E402
from relation import ACCEPT, Machine, Relation  # noqa: E402
from written import Classes  # noqa: E402

# The module of each kind, and which of its symbols' properties each word of its classes is of.
KINDS = {
    "cluster": ("ClusterRules", {"value": 0, "conjunct": 1, "those": 2}),
    "word": ("WordRules", {"value": 0, "those": 1}),
    "sentence": ("SentenceRules", {"value": 0}),
}
NAMES = {"cluster": "extended grapheme clusters", "word": "words", "sentence": "sentences"}


def classes_of(text, properties, parts):
    """The classes that a file names; symbol 0 is the edge of a text."""
    classes = Classes(len(properties))
    for name, expression in re.findall(r"^abbrev pub \w+ : Class \w+\n(\w+) = (.*)$", text, re.M):
        word = re.match(r"(\w+) (?:\w+\.(\w+)|\(λ p\. p\.\d\))$", expression)
        if word and word[1] in parts:
            value = word[2] or True
            classes[name] = frozenset(k for k, p in enumerate(properties, 1) if (p if isinstance(p, tuple) else (p,))[parts[word[1]]] == value)
        else:
            classes[name] = classes.of(expression)
    return classes


def rules_of(kind, properties):
    """The rules of a kind, over symbols that mean these properties, from symbol 1 on."""
    module, parts = KINDS[kind]
    with open(os.path.join(HERE, "..", "specs", module + ".antt"), encoding="utf-8") as file:
        text = file.read()
    classes = classes_of(text, properties, parts)
    at_end = int(re.search(r"^  at_end = (\d+);$", text, re.M)[1])
    if "has_marks = false" in text:
        return Rules(len(properties), classes.rows(text, f"{kind}_rows")[1], [], at_end, has_marks=False)
    above, below = (classes.rows(text, f"{kind}_rows_{place}_marks")[1] for place in ("above", "below"))
    marks, bare = (classes.of(re.search(rf"^  {name} = bits \(.*?\) (.*);$", text, re.M)[1]) for name in ("marks", "bare"))
    return Rules(len(properties), above, below, at_end, marks, bare, int(re.search(r"^  alone = (\d+);$", text, re.M)[1]))


def machine_of(table, states, accepting):
    """The machine of rows, each a symbol and where it leads from each state; those states accept that are named."""
    number = {name: k for k, name in enumerate(states)}
    return Machine([(ACCEPT, 0, None) if name in accepting else None for name in states],
                   [[number.get(row[q]) for _, row in table] for q in range(len(states))])


def certificate(kind, properties, machine):
    """The text of the certificate, and its numbers."""
    rules = rules_of(kind, properties)
    relation = Relation(rules, machine)
    instance = Instance(rules, machine, relation)
    module, _ = KINDS[kind]
    rows = f"{kind}_rows" if not rules.has_marks else f"{kind}_rows_above_marks {kind}_rows_below_marks"
    words = {"seg_rules.specs.Classes": "bits_from pattern_of rows_of", f"icu_segmenter_uax29.specs.{module}": f"{rows} {kind}_rules"}
    text = instance.text(f"the machine of {NAMES[kind]}", f"{kind}_rules", words)
    return text, (f"{kind}: {len(rules.all)} rows, {rules.last} symbols, {len(rules.befores)} before a place, {len(machine.accepts)} states, "
                  f"{len(relation.configurations)} configurations")
