"""The wrong programs of a crate, and how they are put beside what is right in a copy of it: for `.ci/trials`, which says more."""
import pathlib
import re

from refusals import answers_in

ROOT = pathlib.Path(__file__).resolve().parent.parent
HEAD = re.compile(r'^ *(?:pub(?:\(crate\))? )?(?:extern "C" )?fn (\w+)', re.M)
# the end of a function's head: its body begins behind it
HEAD_END = re.compile(r"\{$", re.M)
# a line of specs/ or proofs/ that imports something of a crate
IMPORT = re.compile(r"^((?:pub |unfoldable )*use Rattle\.)(\w+)\.(specs|proofs)\.([^\s{]+)", re.M)
# a type that is declared in src: laws can see it
TYPE = re.compile(r"^(?:pub(?:\(crate\))? )?(?:struct|enum|type) [^;{]*(?:;|\{.*?^\})", re.M | re.S)
MOD = re.compile(r"^(?:pub )?mod \w+\n", re.M)
# a line that imports a module whole, perhaps under another name
MODULE = re.compile(r"^use ([\w.'-]+)(?: as ([\w'-]+))?$", re.M)
# a search with the count of lemmas that it has by itself, and the count that it has in the proof of a wrong function
SEARCH = re.compile(r"\bsearch [\w'-]+(?: depth \d+)?(?=\s*(?:\)|,|$))", re.M)
FITS = " fits 20000"
# an impl of a trait, by the name that rt gives it: a wrong method cannot stand beside the right one there
TRAIT = re.compile(r"\w(?:From|TryFrom|Display)\w*::\w+$")
# the ending of a right function that stands beside itself
RIGHT = "_not"


class Trial:
    """A wrong program: what is changed, how, and which functions must be rejected for it."""

    def __init__(self, crate, kind, name):
        self.crate, self.kind, self.name, self.how = crate, kind, name, ""
        self.refused = [name] if kind == "fn" else []
        self.changes = []
        self.fits = True

    def __str__(self):
        return f"{self.crate}::{self.name}"

    @property
    def files(self):
        return {file for file, _, _ in self.changes}

    @property
    def function(self):
        """The wrong function, if it can stand beside the right one: only its own text changes, or that and its proof."""
        if len(self.refused) != 1 or self.kind not in ("fn", "law") or "/" in self.refused[0] or TRAIT.search(self.refused[0]):
            return None
        code = {file for file in self.files if file.endswith(".rt")}
        own = f"{folder_of(self.refused[0])}/"
        return self.refused[0] if len(code) == 1 and all(file.startswith(own) for file in self.files - code) else None

    @property
    def whole(self):
        """Whether it may change any place of a file."""
        return self.kind == "edit" or self.kind in ("law", "above") and not self.function

    @property
    def of_laws(self):
        """Whether only laws must reject it: files of specs/ or proofs/."""
        return self.kind in ("law", "above") and all("/" in name for name in self.refused)

    @property
    def top(self):
        """The crate that must reject it: its own, or one above."""
        return self.refused[0].partition("/")[0] if self.kind == "above" else self.crate

    def place(self, name):
        """What must reject it, in that crate."""
        return name.partition("/")[2] if self.kind == "above" else name


def crate_lines():
    """The crates of crates.txt, in the file's order, each with those that it uses."""
    for line in (ROOT / "crates.txt").read_text().splitlines():
        name, found, uses = line.partition(":")
        if found and not line.startswith("#"):
            yield name.split()[0], uses.replace(",", " ").split()


def closure(top, uses):
    """A crate with all crates below it; those that it uses come first."""
    found = []

    def visit(crate):
        for name in uses[crate]:
            if name in uses:
                visit(name)
        if crate not in found:
            found.append(crate)

    visit(top)
    return found


def folder_of(function):
    """The folder of a function's proof, if it has one."""
    return f"proofs/{function.replace('::', '/')}"


def trials_in(crate, text):
    """The trials of one file, in its order."""
    found, file, old = [], None, None
    for number, line in enumerate(text.splitlines(), 1):
        word, colon, rest = line.partition(":")
        rest = rest.strip()
        if word in ("fn", "const", "enum", "law", "above") and colon:
            found.append(Trial(crate, word, rest))
        elif word == "file" and colon:
            file = rest
        elif word == "refused" and colon:
            found[-1].refused = rest.split()
        elif word == "old" and colon:
            old = rest
        elif word == "new" and colon and old is not None:
            found[-1].changes.append((file, old, rest))
            old = None
        elif line.startswith("#"):
            if found and not found[-1].changes:
                found[-1].how = (found[-1].how + " " + line[1:].strip()).strip()
        elif line.strip():
            raise SystemExit(f"crates/{crate}/trials.edit:{number} is no line of a trial: {line}")
    for trial in found:
        if not trial.changes or not trial.refused or not trial.how:
            what = "has no change, nothing that is rejected, or no word on how it is wrong"
            raise SystemExit(f"crates/{crate}/trials.edit: {trial.name} {what}")
    return found


# ---- changes in place


def part_of(file, text, trial):
    """Where the text that a trial changes begins and ends: a function's body, a constant or an enum; or the whole file of a
    definition."""
    if not file.endswith(".rt") or trial.whole:
        return 0, len(text)
    name = (trial.function or trial.name).split("::")[-1]
    if trial.kind in ("fn", "law"):
        heads = list(HEAD.finditer(text))
        for at, head in enumerate(heads):
            if head.group(1) == name:
                return body_of(text, head.start()), heads[at + 1].start() if at + 1 < len(heads) else len(text)
        return 0, 0
    form = rf"^(?:pub )?const {name}\b[^;]*;" if trial.kind == "const" else rf"^(?:pub )?enum {name} \{{.*?^\}}"
    found = re.search(form, text, re.M | re.S)
    return found.span() if found else (0, 0)


def body_of(text, start):
    """Where the body begins of the function whose head begins here."""
    found = HEAD_END.search(text, start)
    return found.end() if found else start


def changed(folder, trial):
    """Makes a trial's changes in place in a copy of its crate. Returns what is wrong with them, or None."""
    for file, old, new in trial.changes:
        path = folder / file
        if not path.is_file():
            return f"{trial}: there is no file {file}"
        text = path.read_text()
        start, end = part_of(file, text, trial)
        if text.count(old, start, end) != 1:
            return f"{trial}: it has {text.count(old, start, end)} times: {old}"
        path.write_text(text[:start] + text[start:end].replace(old, new) + text[end:])
    return None


def changed_texts(texts, trial):
    """Makes a trial's changes in these texts, by the files' names. Returns what is wrong with them, or None."""
    for file, old, new in trial.changes:
        if file not in texts:
            return f"{trial}: there is no file {file}"
        if texts[file].count(old) != 1:
            return f"{trial}: it has {texts[file].count(old)} times: {old}"
        texts[file] = texts[file].replace(old, new)
    return None


# ---- functions beside the right ones


def put_beside(folder, trial, ending):
    """Puts a wrong function beside the right one, at the end of its file, with a copy of its proof. Returns what is wrong, or
    None. A function without a proof file, whose proof the checker finds, gets one here: so the checker says what differs, not
    that it found nothing. The right function then stands there once more, with such a proof too, which must prove it."""
    (file,) = (file for file in trial.files if file.endswith(".rt"))
    path, proof = folder / file, folder / folder_of(trial.function)
    if not path.is_file():
        return f"{trial}: there is no file {file}"
    head, right = parts_of(path.read_text(), trial.function.split("::")[-1])
    texts = {file: right}
    if proof.is_dir():
        texts.update({str(one.relative_to(folder)): one.read_text() for one in proof.glob("*.antt")})
    defect = changed_texts(texts, trial)
    if defect:
        return defect
    wrong = texts.pop(file)
    if texts:
        add(path, trial, head + wrong, ending)
        copy_proof(folder, trial, ending, texts)
        return None
    if len(calls_in(wrong)) != len(calls_in(right)) or len(calls_in(right)) > 1:
        what = "it has no proof file, and calls more than one function, or more than the right one"
        return f"{trial}: {what}: give it a proof file"
    for body, name in ((wrong, ending), (right, ending + RIGHT)):
        add(path, trial, head + body, name)
        write_proof(folder, trial.function + name, calls_in(body))
    return None


def unproved_in(folder, trial):
    """The functions that must be rejected for a change in place, and have no proof file, each with its body's calls."""
    for function in trial.refused:
        parts = function.split("::")
        if "/" not in function and not (folder / folder_of(function)).is_dir():
            files = [folder / "src" / pathlib.Path(*parts[:end] or ["lib"]).with_suffix(".rt") for end in range(len(parts))]
            bodies = [parts_of(path.read_text(), parts[-1])[1] for path in reversed(files) if path.is_file()]
            yield function, calls_in(next(filter(None, bodies), ""))


def parts_of(text, name):
    """A function's head, with the attributes before it and its contract, and its body, up to its closing brace."""
    for found in HEAD.finditer(text):
        if found.group(1) == name:
            body, indent = body_of(text, found.start()), re.match(r" *", found.group()).group()
            end = re.compile(rf"^{indent}\}}$", re.M).search(text, body)
            return text[attributes_of(text, found.start()) : body], text[body : end.end() if end else len(text)]
    return "", ""


def attributes_of(text, start):
    """Where the attributes begin of the function whose head begins here: lines from one that begins with `#[` on."""
    begin = start
    for line in reversed(text[:start].splitlines(keepends=True)):
        if re.match(r"\s*(?://|$|\})", line):
            break
        start -= len(line)
        if re.match(r"\s*#\[", line):
            begin = start
    return begin


def add(path, trial, text, ending):
    """Adds a function under its name with the ending, at the end of the file."""
    name = trial.function.split("::")[-1]
    text = re.sub(rf"(?<![.:\w]){name}(?=[(<])", name + ending, text)
    owner = re.match(r"\s", text) and trial.function.split("::")[-2]
    block = f"impl {owner} {{\n{text}\n}}" if owner else text
    path.write_text(f"{path.read_text().rstrip()}\n\n{block}\n")


def calls_in(body):
    """The functions that a body calls, in order. A slice's length is no call."""
    text = body.split("\n{", 1)[-1] if "\n{" in body else body.split("    {\n", 1)[-1]
    return [name for name in re.findall(r"\b([a-z_]\w*)\(", text) if name != "len"]


def copy_proof(folder, trial, ending, texts):
    """Writes the proof of a wrong function: these texts of the right one's files, by their names in the crate. A search that ends
    at its count says nothing, so it may try more here."""
    name, there = trial.function.split("::")[-1], trial.function.replace("::", ".")
    for file, text in texts.items():
        text = re.sub(rf"(?<![\w.])(Rattle\.{trial.crate}\.proofs\.{re.escape(there)})(?![\w'-])", rf"\g<1>{ending}", text)
        text = re.sub(rf"(?<![\w'-]){name}_spec(?![\w'-])", f"{name}{ending}_spec", text)
        text = SEARCH.sub(lambda found: found[0] + FITS, text)
        write(folder / folder_of(trial.function + ending) / pathlib.Path(file).name, text)


def write_proof(folder, function, calls):
    """The proof of a function with at most one call: it returns what the call answers, or the definition itself."""
    there, name = f"Rattle.{folder.name}.proofs.{function.replace('::', '.')}", function.split("::")[-1]
    answers = f"(λ c. search rules) (λ c. c.{calls[0]}.ensures)" if calls else "(λ c. refl)"
    write(
        folder / folder_of(function) / "Proof.antt",
        "use Rattle.std.proofs.Common.{refl, rules}\n"
        f"use {there}.Statement.{{statement}}\n"
        f"use {there}.Tie as tie\n\n"
        f"pub {name}_spec : {{M : Type 1}} → statement M\n{name}_spec = tie.close (tie.spec {answers})\n",
    )


# ---- the names of a proof


def fit_names(folder, endings, names):
    """A function's proof cites places and facts by names that are made of the code's text, as `if-x-lt-y`. So in the copy of it
    that stands beside a wrong function each name is that of the same place there. `names` is what rt says of them: of each
    function its places and facts, in the code's order, each also by a name that has only its call and its number. Where calls or
    tests come in another order, the proof does not fit, unless the trial changes it too. Where a sum or a product is gone or has
    come, as if it is changed for another, so has the answer that it is in range."""
    for trial, ending in endings.items():
        if not trial.function:
            continue
        key = f"Rattle-{trial.crate}-proofs.{trial.function.replace('::', '.')}"
        right, wrong = names.get(f"{key}.Lts"), names.get(f"{key}{ending}.Lts")
        if right and wrong:
            same, renamed = shape_of(right) == shape_of(wrong), names_between(right, wrong)
            trial.fits = same or any(file.endswith(".antt") for file in trial.files)
            for path in (folder / folder_of(trial.function + ending)).glob("*.antt"):
                text = with_names(path.read_text(), renamed)
                path.write_text(with_answers(text, named_in(right)[0], named_in(wrong)[0]) if same else text)


def shape_of(names):
    """The calls and tests of a function, in the code's order, whatever its text calls them."""
    tests = ("Then", "Else", "At-", "Loop")
    return [place for place, _, _, callee, *_ in names["places"] if callee or place.startswith(tests)]


def with_names(text, renamed):
    """A proof with other names of places and facts: behind a dot, but for a definition's name behind that of its module; and where
    a fact's name is the answer's too, at the start of a line."""
    if not renamed:
        return text
    modules = {named or path.split(".")[-1] for path, named in MODULE.findall(text)} - {"tie", "goal"}

    def other(found, line):
        owner = re.search(r"([\w'-]+)\.$", line[: found.start()])
        return found.group() if owner and owner[1] in modules else (found[1] or "") + renamed[found[2]]

    names = "|".join(map(re.escape, sorted(renamed, key=len, reverse=True)))
    lines = text.splitlines(keepends=True)
    for at, line in enumerate(lines):
        if not line.startswith("use "):
            lines[at] = re.sub(rf"(?<=\.)(Need-)?({names})(?![\w'-])", lambda found: other(found, line), line)
            if " as goal\n" in text:
                lines[at] = re.sub(rf"^((?:abbrev )?(?:pub )?)({names})(?= )", lambda found: other(found, ""), lines[at])
    return "".join(lines)


def names_between(right, wrong):
    """For each name that differs, what stands for it in the wrong function."""
    renamed = {}
    for ours, theirs in zip(named_in(right), named_in(wrong)):
        renamed.update({ours[key]: theirs[key] for key in ours if key in theirs and ours[key] and ours[key] != theirs[key]})
    return renamed


def with_answers(text, right, wrong):
    """A proof with answers for the wrong function's facts. The walk has an answer for each, in their order."""
    start = text.rfind("tie.spec")
    spans = answers_in(text, start)
    if list(right) == list(wrong) or len(spans) != len(right):
        return text
    answers = {fact: text[begin:end] for fact, (begin, end) in zip(right, spans)}
    return text[: spans[0][0]] + " ".join(answers.get(fact, "(λ c. search rules)") for fact in wrong) + text[spans[-1][1] :]


def named_in(names):
    """The names of the facts, of the places, and of what is known at each, by the names that have only calls and numbers."""
    places = [place[0] for place in names["places"]]
    return dict(names["needs"]), dict(zip(places, names["places_by_name"])), dict(zip(places, (it[2][1] for it in names["places"])))


# ---- laws beside the right ones


class Import:
    """What a line of specs/ or proofs/ imports: the crate, the folder, the path, and the file if it is among these texts. Else it
    is declared in src, or a function's module, or in another crate."""

    def __init__(self, found, texts):
        self.start, self.crate, self.library, self.path = found
        parts = self.path.rstrip(".").split(".")
        files = ("/".join([self.crate, self.library, *parts[:end]]) + ".antt" for end in range(len(parts), 0, -1))
        self.file = next((file for file in files if file in texts), None)


def texts_with(trial):
    """The files of the trial's crate, and of specs/ and proofs/ up to the crate that must reject it, as CRATE/FILE, with the
    trial's changes; and what is wrong with these, or None."""
    texts, defect = {}, None
    for crate in closure(trial.top, dict(crate_lines())) if trial.kind == "above" else [trial.crate]:
        folder, parts = ROOT / "crates" / crate, ("src", "specs", "proofs") if crate == trial.crate else ("specs", "proofs")
        paths = [path for part in parts for path in sorted((folder / part).rglob("*.*t"))]
        found = {str(path.relative_to(folder)): path.read_text() for path in paths}
        if crate == trial.crate:
            defect = changed_texts(found, trial)
        texts.update({f"{crate}/{file}": text for file, text in found.items()})
    return texts, defect


def copies_for(trial, texts):
    """The files that a trial of laws needs a copy of, if these are the texts with its changes: those by which a place that must
    reject it depends on a changed file. None if a type of src changes, or if not all that such a file imports can be told: it
    imports a function's module, or all that stands below a file."""
    for file in trial.files:
        right = (ROOT / "crates" / trial.crate / file).read_text()
        if file.endswith(".rt") and TYPE.findall(right) != TYPE.findall(texts[f"{trial.crate}/{file}"]):
            return None
    uses = {file: [Import(found, texts) for found in IMPORT.findall(text)] for file, text in texts.items()}
    reach = {}

    def visit(file):
        if file not in reach:
            reach[file] = {file}.union(*(visit(one.file) for one in uses[file] if one.file))
        return reach[file]

    places = {f"{trial.top}/{trial.place(name)}.antt" for name in trial.refused}
    changed_files = {f"{trial.crate}/{file}" for file in trial.files}
    copies = {file for place in places if place in texts for file in visit(place) if visit(file) & changed_files}
    crates = {file.partition("/")[0] for file in texts}
    for file in copies:
        for one in uses[file]:
            below = one.file and one.file.removesuffix(".antt") + "/"
            unknown = not one.file and one.crate in crates and not one.path.startswith("declared.")
            if unknown or one.file and any(other.startswith(below) for other in texts):
                return None
    return copies


def put_laws_beside(folder, trial, name):
    """Puts copies of the changed laws, and of what is between them and the places that must reject them, into a folder of this
    name beside the right ones, in a copy of the crate that must reject them. They import one another, and all else from the
    right files. Returns what is wrong, or None."""
    texts, defect = texts_with(trial)
    if defect:
        return defect
    copies = copies_for(trial, texts)
    if copies is None:
        return f"{trial}: a type changes, or not all that is between the change and what must reject it can be told"

    def parts_of(file):
        """The file's library, and its path in the folder: with its crate's name, if it is of a crate below."""
        crate, library, *parts = file.removesuffix(".antt").split("/")
        return library, [name, *([] if crate == trial.top else [f"of_{crate}"]), *parts]

    def renamed(found):
        one = Import(found.groups(), texts)
        if one.file in copies:
            below = "" if one.crate == trial.top else f"of_{one.crate}."
            return f"{one.start}{trial.top}.{one.library}.{name}.{below}{one.path}"
        return found.group()

    nodes = {}
    for file in copies:
        library, parts = parts_of(file)
        for end in range(len(parts)):
            nodes.setdefault((library, *parts[:end]), set()).add(parts[end])
        write(folder / library / pathlib.Path(*parts).with_suffix(".antt"), IMPORT.sub(renamed, MOD.sub("", texts[file])))
    for (library, *parts), names in nodes.items():
        path = folder / library / pathlib.Path(*parts, "Lib" if not parts else "").with_suffix(".antt")
        there = path.read_text() if path.is_file() else ""
        write(path, "".join(f"pub mod {one}\n" for one in sorted(names)) + there)
    return None


def write(path, text):
    path.parent.mkdir(parents=True, exist_ok=True)
    path.write_text(text)
