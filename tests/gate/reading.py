"""Reads Rattle, and the antt of its clauses, as far as the looks at contracts need: words, signs and signatures."""

import re
from typing import NamedTuple

CLAUSES = {"requires", "ensures", "ghost"}
BEFORE_FN = {"const", "unsafe", "extern"}
OPENING, CLOSING, SIGNS = set("([{"), set(")]}"), set("(){}.;,@⟦")

RATTLE = re.compile(
    r"""(?P<blank> \s+ | //[^\n]*)
      | (?P<comment> /\*)
      | (?P<literal> b?r(?P<hashes>\#*)".*?"(?P=hashes)
                   | b?"(?:\\.|[^"\\])*"
                   | b?'(?:\\(?:x\w\w|u\{\w*\}|.)|[^'\\\n])')
      | (?P<word> '?\w+)
      | (?P<sign> .)""",
    re.X | re.S,
)
ANTT = re.compile(
    r"""(?P<blank> [ \t\r\n]+ | --+(?=\s)[^\n]*)
      | (?P<comment> \{-)
      | (?P<bracket> ⟦)
      | (?P<sign> [(){}.;,@])
      | (?P<text> "(?:\\.|[^"\\])*")
      | (?P<name> «[^»]*» | [^ \t\r\n(){}.;,@"«»⟦]+)""",
    re.X | re.S,
)


class Unreadable(Exception):
    """What cannot be read, and its place in the text."""

    def __init__(self, what, place):
        super().__init__(what)
        self.place = place


class Token(NamedTuple):
    """A word or a sign with its place; a clause and a ghost use are one token each, with their antt text."""

    word: str
    place: int
    text: str = ""


class Function(NamedTuple):
    """A public function: its &mut parameters, whether it has an answer, and its clauses."""

    name: str
    place: int
    in_inner: bool
    lent: list
    answers: bool
    clauses: list


def past_comment(text, start, begin, end):
    """Gives the place past the comment at START, which may hold comments of its own kind."""
    depth = 0
    for mark in re.compile(re.escape(begin) + "|" + re.escape(end)).finditer(text, start):
        depth += 1 if mark[0] == begin else -1
        if depth == 0:
            return mark.end()
    raise Unreadable("a comment that never ends", start)


def past_bracket(text, start):
    """Gives the place past the antt bracket at START, which holds Rattle."""
    for token in tokens(text, start + 1):
        if token.word == "⟧":
            return token.place + 1
    raise Unreadable("an antt bracket that never ends", start)


def antt_tokens(text, at=0):
    """Yields each name, sign and quoted text of antt with its place; a bracket is one sign."""
    while piece := ANTT.match(text, at):
        start, at = at, piece.end()
        if piece["comment"]:
            at = past_comment(text, start, "{-", "-}")
        elif piece["bracket"]:
            at = past_bracket(text, start)
        if not piece["blank"] and not piece["comment"]:
            yield Token(piece[0], start)


def past_antt(text, start, end):
    """Gives the place past the antt text at START and the sign END that closes it."""
    depth = 0
    for token in antt_tokens(text, start):
        if token.word == end and depth == 0:
            return token.place + 1
        depth += (token.word in OPENING) - (token.word in CLOSING)
    raise Unreadable("antt text that never ends", start)


def tokens(text, at=0):
    """Yields each word and sign, but no comment and no literal."""
    clause, ends = None, {"{": "}", "use": ";"}
    while piece := RATTLE.match(text, at):
        start, at = at, piece.end()
        if piece["comment"]:
            at = past_comment(text, start, "/*", "*/")
        elif piece[0] in CLAUSES:
            clause = Token(piece[0], start)
        elif clause and piece[0] == "*":
            clause = Token(clause.word + "*", clause.place)
        elif clause and piece[0] in ends:
            begin, at = at, past_antt(text, at, ends[piece[0]])
            word = "ghost use" if piece[0] == "use" else clause.word
            yield Token(word, clause.place, text[begin : at - 1])
            clause = None
        elif piece[0] in ("'", '"'):
            raise Unreadable("a literal that never ends", start)
        elif clause and piece["sign"] and piece[0] not in (":", "="):
            raise Unreadable("a clause with no text in braces", start)
        elif not clause and (piece["word"] or piece["sign"]):
            yield Token(piece[0], start)


def plain(name):
    """Gives an antt NAME without the « » that it needs where antt reserves the word."""
    return name[1:-1] if name[0] == "«" else name


def antt_words(text):
    """Gives the names, signs and quoted texts of an antt TEXT; a dot and the name that it stands tight between are one, a field."""
    words, end = [], None
    for token in antt_tokens(text):
        if words and words[-1] == "." and tight and token.place == end and token.word not in SIGNS:
            words[-1] = "." + plain(token.word)
        else:
            words.append(plain(token.word))
        tight = len(words) > 1 and token.word == "." and token.place == end
        end = token.place + len(token.word)
    return words


def end_of_group(words, start):
    """Gives the place in WORDS of what closes the group that opens at START."""
    depth = 0
    for at in range(start, len(words)):
        depth += (words[at].word in OPENING) - (words[at].word in CLOSING)
        if depth == 0:
            return at
    raise Unreadable("a group that is never closed", words[start].place)


def lent_parameters(parameters):
    """Gives the names of the &mut parameters; a mut deeper in a parameter's type cannot be read, and none is named as the answer is."""
    words = [",", *(token.word for token in parameters)]
    names = []
    for at, word in enumerate(words):
        if word == "result" and words[at + 1 : at + 2] == [":"] and words[at + 2 : at + 3] != [":"] and words[at - 1] != ":":
            raise Unreadable("a parameter with the name of the answer", parameters[at - 1].place)
        if word != "mut" or words[at - 1] == ",":
            continue
        before = [other for other in words[:at] if other[0] != "'"]
        if before[-1] == "&" and words[at + 1] == "self":
            names.append("self")
        elif before[-2:] == [":", "&"]:
            names.append(before[-3])
        else:
            raise Unreadable("a parameter with a mut inside its type", parameters[at - 1].place)
    return names


def contract(words):
    """Gives the clauses among WORDS, which stand between a function's result and its body."""
    depth, clauses = 0, []
    for token in words:
        if depth == 0 and token.word in ("{", ";"):
            return clauses
        if depth == 0 and token.word.rstrip("*") in CLAUSES:
            clauses.append(token)
        depth += (token.word in OPENING) - (token.word in CLOSING)
    raise Unreadable("a function with no body", words[0].place)


def past_generics(words):
    """Gives the place of the ( of the parameters of a function whose name begins WORDS; the > of an arrow closes nothing."""
    depth = 0
    for at, token in enumerate(words):
        if token.word == "(" and depth == 0:
            return at
        depth += (token.word == "<") - (token.word == ">" and words[at - 1].word != "-")
    raise Unreadable("a function with no parameters", words[0].place)


def function(words, in_inner):
    """Reads the public function whose name begins WORDS."""
    start = past_generics(words)
    end = end_of_group(words, start)
    after = [token.word for token in words[end + 1 : end + 5]]
    return Function(
        name=words[0].word,
        place=words[0].place,
        in_inner=in_inner,
        lent=lent_parameters(words[start + 1 : end]),
        answers=after[:2] == ["-", ">"] and after[2:] != ["(", ")"],
        clauses=contract(words[end + 1 :]),
    )


def is_public(words, at):
    """Says whether the fn at AT has a pub before it."""
    before = at - 1
    while words[before].word in BEFORE_FN:
        before -= 1
    return words[before].word == "pub"


def functions(words):
    """Yields each public function among WORDS, with whether an inline mod inner holds it."""
    modules = []
    for at, (word, place, _) in enumerate(words):
        if word == "{":
            modules.append(words[at - 1].word if words[at - 2].word == "mod" else "")
        elif word == "}" and not modules:
            raise Unreadable("a } that closes nothing", place)
        elif word == "}":
            modules.pop()
        elif word == "fn" and is_public(words, at):
            yield function(words[at + 1 :], "inner" in modules)
    if modules:
        raise Unreadable("a { that is never closed", words[-1].place)
