"""What the checker says of a wrong program, and which of it counts.

A program counts as rejected if the checker shows a fact that no longer holds: two sides of an equation, or two statements, that
differ; an equation that remains after all known facts are used; numbers for which all known facts hold and the goal fails; or a
search that tried every way. All other errors say that the proof does not fit the changed text (a place that is not there, a step
that finds nothing to do, an answer too few or too many, a bound that was reached), or that the text does not compile. A right
program that is written another way gives such errors too, so they show nothing.
"""
import re

# The first line of an error; its other lines are indented.
ERROR = re.compile(r"^(?P<path>[^\s:]+):(?P<line>\d+):(?P<column>\d+): error: (?:`(?P<name>[^`]+)`: )?", re.M)

# What it says of a goal that no proof file answers: with the facts that are known there it found values at which the goal fails.
OPEN = re.compile(r"^note: `(?P<name>[^`]+)` of (?P<path>proofs/\S+/(?:Answers|Invariants)\.antt) may be false: (?P<words>.*)$")

# It follows from another error: something that it uses was not accepted.
FOLLOWS = re.compile(
    r"was not admitted \(it has holes or undetermined implicits, or was rejected\)"
    r"|^\d+ declarations? that depends? on .* (?:was|were) not checked",
    re.S,
)

# It is about the shape of a proof, not about the program: how many answers a walk needs, and which, and at which place. At the exit
# of a `?` what is returned is the fault that the call answered: these two are one, and a proof without an answer for that exit
# does not know it.
SHAPE = re.compile(
    r"\bLts\.Closed\b|\bNeed-|differ only where one has `[^`\s]*\.Lts\.(?:Start|After|Then|Else|At|Loop)\b"
    r"|differ only where one has `c\.from_residual-in_err-(?P<call>[\w-]+)\.result`\s+\(expected\) and the other has `c\.(?P=call)\.result`"
)

# A search that was not ended: it says nothing, and nothing against what else is said of the function.
BOUND = re.compile(r"was found\. It stopped (?:\d+ lemmas deep|when its count)")

# what a proof's equations leave of the goal. It may still hold, so it counts only where the proof fits the code.
LEFT = "an equation is left"
SHOWN = {
    "two sides differ": re.compile(
        r"the two (?:types|sides) (?:first differ|differ only|are )|^.*expected type `.*but this has type `"
        r"|does not hold \(this comparison",
        re.S,
    ),
    LEFT: re.compile(r"what it leaves must be a path whose two ends are equal, and .* is none", re.S),
    "numbers for which it fails": re.compile(
        r"All of that holds, and the (?:goal|part) fails, at|^the known facts allow `"
    ),
    "every way was tried": re.compile(r"was found\. Every way was tried: a deeper search would find nothing either"),
}


class Refusal:
    """One error: where it stands, and what it shows, or nothing."""

    def __init__(self, path, line, column, name, words):
        self.path, self.line, self.column, self.name, self.words = path, int(line), int(column), name, words

    @property
    def follows(self):
        return bool(FOLLOWS.search(self.words))

    @property
    def at_bound(self):
        return bool(BOUND.search(self.words))

    @property
    def shows(self):
        """The kind of fact that it shows to fail, or None."""
        if self.follows:
            return None
        for kind, form in SHOWN.items():
            if form.search(self.words):
                return None if SHAPE.search(self.words) else kind
        return None


def refusals(said):
    """The errors in what the checker printed, in its order."""
    lines = said.splitlines()
    at = 0
    while at < len(lines):
        found = OPEN.match(lines[at])
        if found:
            yield Refusal(found["path"], 0, 0, found["name"], found["words"])
        found = ERROR.match(lines[at])
        if not found:
            at += 1
            continue
        end = at + 1
        while end < len(lines) and lines[end].startswith("  "):
            end += 1
        words = "\n".join([lines[at][found.end() :]] + lines[at + 1 : end])
        yield Refusal(found["path"], found["line"], found["column"], found["name"], words)
        at = end


def answer_at(text, line, column):
    """Which answer of a walk, `tie.spec A B ..`, is at this place of a proof file: its number, and how many there are."""
    lines = text.splitlines(keepends=True)
    place = sum(len(one) for one in lines[: line - 1]) + column - 1
    spans = answers_in(text, text.rfind("tie.spec", 0, place + 1))
    for number, (begin, end) in enumerate(spans, 1):
        if begin <= place < end:
            return number, len(spans)
    return None


def answers_in(text, start):
    """Where each answer of the walk stands that begins here."""
    if start < 0:
        return []
    at, spans = start + len("tie.spec"), []
    while at < len(text):
        if text[at].isspace():
            at += 1
            continue
        if text[at] == ")":
            break
        begin, depth = at, 0
        while at < len(text) and not (depth == 0 and (text[at].isspace() or text[at] == ")")):
            depth += {"(": 1, "{": 1, ")": -1, "}": -1}.get(text[at], 0)
            at += 1
        spans.append((begin, at))
    return spans


def place_of(one, folder=None):
    """Whose fact an error is about, and which one. It is a function, MODULE::NAME, with the name of the fact in its proof or
    its place among the answers of its walk; or a file of definitions and laws, with the name of the law. `folder` is the
    crate's, for the text of the proof."""
    path = one.path.removeprefix(f"{folder}/").removeprefix("./")
    proof = re.match(r"proofs/(.*)/(?:Proof|Answers|Invariants)\.antt$", path)
    if not proof:
        return path.removesuffix(".antt"), one.name or "?"
    owner = proof.group(1).replace("/", "::")
    if not (one.name or "").endswith("_spec") or not folder:
        return owner, one.name or "?"
    found = answer_at((folder / path).read_text(), one.line, one.column)
    return owner, f"answer {found[0]} of {found[1]}" if found else "its walk"
