"""The relations that contracts are made of, and what is wrong with a clause that is not one of them."""

import re
from typing import NamedTuple

from reading import CLOSING, OPENING, antt_words


class Relation(NamedTuple):
    """Where a relation is declared, and what each of its arguments is: value, answer, or exit (lent bytes at exit)."""

    crate: str
    module: str
    places: str

    def home(self):
        """Gives the name of its module."""
        return f"Rattle.{self.crate}.specs.{self.module}"


# The relations of which a theorem says that no two outcomes satisfy them.
RELATIONS = {
    "Answers": Relation("outcome", "Outcome", "value answer"),
    "Leaves": Relation("outcome", "Outcome", "value exit"),
    "AnswersAndLeaves": Relation("outcome", "Outcome", "value value answer exit"),
    "Refuses": Relation("outcome", "Refusal", "value answer"),
    "Gives": Relation("outcome", "Refusal", "value value answer"),
    "IsPart": Relation("handing", "Parts", "value value answer"),
    "Creates": Relation("writer", "Creation", "value value answer exit"),
    "Appends": Relation("writer", "Answers", "value value answer exit"),
    "AppendsFrom": Relation("writer", "Answers", "value value value answer exit"),
    "AppendsBatch": Relation("batch", "Answers", "value value answer exit"),
    "AppendsInTurn": Relation("batch", "Answers", "value value answer exit"),
    "Updates": Relation("update", "Answers", "value value answer exit"),
    "UpdatesAt": Relation("update", "Answers", "value value value answer exit"),
    "AppendsThrough": Relation("through", "Answers", "value value value answer exit"),
    "AppendsBatchThrough": Relation("through", "Answers", "value value value answer exit"),
    "UpdatesThrough": Relation("through", "Answers", "value value value answer exit"),
    "AppendsTo": Relation("through", "Answers", "value value value answer exit exit"),
    "AppendsBatchTo": Relation("through", "Answers", "value value value answer exit exit"),
    "UpdatesTo": Relation("through", "Answers", "value value value answer exit exit"),
    "AppendsTwice": Relation("witness", "Twice", "value exit value value answer"),
    "AppendsAndUpdates": Relation("witness", "Revised", "value exit value value answer"),
    "CreatesAndAppends": Relation("witness", "Begun", "value exit value value answer"),
    "Lists": Relation("listing", "Listing", "value value answer exit"),
    "Prints": Relation("listing", "Listing", "value value answer exit"),
}
# What no ghost use may bring under another meaning, besides the relations: the answer, and the fields by which a clause speaks of a loan.
LENT_NAMES = {"result", "now", "old", "new", "entry", "exit"}
BRACES = re.compile(r"(?P<path>\S+(?: \.\S+)*) \. \{ (?P<items>[^{}]*) \}")
NAME = re.compile(r"[\w][\w'-]*")
FIELD = re.compile(r"\.[\w][\w'-]*")
# What hides what an argument says: a hole, Rattle in brackets, an action.
OPAQUE = {"_", "?", "⟦", "←"}


def brought(text):
    """Gives each name that the ghost use TEXT brings, with the module it comes from; nothing in another form."""
    braces = BRACES.fullmatch(" ".join(antt_words(text)))
    if not braces:
        return None
    names = []
    for item in filter(None, re.split(r" ?, ?", braces["items"])):
        path, _, other = f"{braces['path']} . {item}".partition(" as ")
        module, _, name = path.replace(" ", "").rpartition(".")
        names.append((other or name, module if other in ("", name) else f"{module}.{name}"))
    return names


def fault_in_use(text):
    """Says what is wrong with the ghost use TEXT, or nothing."""
    names = brought(text)
    if names is None:
        return "a ghost use is not of the form MODULE.{NAME, ..}"
    for name, module in names:
        if name in LENT_NAMES or name in RELATIONS and module != RELATIONS[name].home():
            return f"a ghost use brings {name} from {module}"
        if "◌" in name and re.search(r"\w", name):
            return f"a ghost use brings {name}, an operator with a word in it, which could change how a clause reads"
    return None


def grouped(words):
    """Gives the arguments that WORDS spell, each a name or a group in parentheses with its fields, or nothing."""
    arguments, depth = [], 0
    for word in words:
        is_field = bool(arguments) and FIELD.fullmatch(word)
        if depth == 0 and word != "(" and not NAME.fullmatch(word) and not is_field:
            return None
        if depth == 0 and not is_field:
            arguments.append([])
        arguments[-1].append(word)
        depth += (word in OPENING) - (word in CLOSING)
    return arguments if depth == 0 else None


def application(text):
    """Gives RELATION and the arguments of the clause RELATION ARGUMENT .., or nothing."""
    arguments = grouped(antt_words(text))
    if not arguments or len(arguments[0]) != 1 or not NAME.fullmatch(arguments[0][0]):
        return None
    return arguments[0][0], arguments[1:]


def open_in(argument, lent):
    """Gives the word of an ARGUMENT by which it may depend on the answer or on what LENT parameters end as."""
    for at, word in enumerate(argument):
        if word in ("result", ".new", ".exit") or word in RELATIONS or word in OPAQUE:
            return word
        if word in lent and argument[at + 1 : at + 2] != [".old"]:
            return word
    return None


def fault_in_arguments(function, relation, arguments):
    """Says what is wrong with what RELATION is handed in the clause of a FUNCTION, or nothing."""
    places = RELATIONS[relation].places.split()
    if len(arguments) != len(places):
        return f"hands {relation} {len(arguments)} arguments, and it takes {len(places)}"
    at = {kind: [a for a, place in zip(arguments, places) if place == kind] for kind in ("value", "answer", "exit")}
    if at["answer"] != ([["result"]] if function.answers else []):
        return f"does not hand its answer to {relation} as the answer"
    ends = [[parameter, ".new"] for parameter in function.lent]
    if sorted(at["exit"]) != sorted(ends):
        return f"does not hand P.new of each &mut parameter P to {relation} as what is left"
    for argument in at["value"]:
        if word := open_in(argument, function.lent):
            return f"hands {relation} a value that depends on its outcome, by {word}"
    return None


def fault_in_clause(function, text, modules):
    """Says what is wrong with the ensures TEXT of a FUNCTION in a file that brings names from MODULES, or nothing."""
    if not function.answers and not function.lent:
        return "has no answer and no &mut parameter, so its contract says nothing"
    read = application(text)
    if not read:
        return "has an ensures that is not of the form RELATION ARGUMENT .."
    relation, arguments = read
    if relation not in RELATIONS:
        return "has an ensures that is none of the relations " + ", ".join(sorted(RELATIONS))
    if modules.get(relation) != RELATIONS[relation].home():
        return f"has {relation}, which no ghost use brings from {RELATIONS[relation].home()}"
    return fault_in_arguments(function, relation, arguments)
