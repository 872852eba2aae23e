"""Planted slips, as tools/slips and tools/audit read them: the must-fail edits, and the functions of a source file.

An edit file holds one slip or several. A slip begins with its heading, `# slip NAME in PLACE`, which may go on with
`: what it shows`. Its `file:`, `old:` and `new:` lines follow, as rt reads them: a `file:` line holds for the pairs after it. A slip that
stands alone gives its file its name, NAME.edit; the others are in files together_N.edit.
"""
import re
from functools import lru_cache
from pathlib import Path

# The files that a function's proof is written in.
PROOFS = ("/Proof.antt", "/Invariants.antt", "/Answers.antt")
# Two impls whose names would be the same: the checker tells them apart by numbers of its own, which it prints.
NUMBERED = {
    "From<Option<PageID>> for OptionPageID": "OptionPageIDFromImplaa49c50e",
    "From<OptionPageID> for Option<PageID>": "OptionPageIDFromImpl75ae9c52",
}
HEADING = re.compile(r"# slip (\w+) in ([\w:/.]+?)(?:: (.+))?$")


class Slip:
    """One planted slip: its crate, its edit file, its name, its place and its pairs, as (file, old, new)."""

    def __init__(self, edit, name, place):
        self.edit, self.name, self.place = edit, name, place
        self.crate, self.home, self.lines, self.pairs = edit.parts[-3], edit.parents[1], [], []

    def __str__(self):
        return f"{self.crate}/{self.name}"

    def of_function(self):
        return "::" in self.place


def slips_of(edit, problem):
    """The slips of an edit file, in order."""
    slips, file, old = [], "", None
    for line in edit.read_text().splitlines():
        heading = HEADING.match(line)
        if heading:
            slips.append(Slip(edit, heading.group(1), heading.group(2)))
            file, old = "", None
        elif line.startswith("# slip "):
            problem(f"{edit}", f"the heading '{line}' is not '# slip NAME in PLACE'")
        elif line.startswith(("file: ", "old: ", "new:")) and not slips:
            problem(f"{edit}", "has no heading '# slip NAME in PLACE' before its first line")
            return []
        if slips:
            slips[-1].lines.append(line)
        word, _, rest = line.partition(":")
        rest = rest.removeprefix(" ")
        if word == "file":
            file = rest
        elif word == "old":
            old = rest
        elif word == "new" and slips:
            if old is None:
                problem(f"{edit.parts[-3]}/{slips[-1].name}", "has a new: line with no old: line before it")
            else:
                slips[-1].pairs.append((file, old, rest))
            old = None
    for slip in slips:
        if not slip.pairs:
            problem(f"{slip}", "has no old: and new: lines")
    if not slips:
        problem(f"{edit}", "has no slip")
    return slips


def all_edits(root=Path(".")):
    return sorted(root.glob("crates/*/must-fail/*.edit"))


def planted(slips, texts=None):
    """The changed text of each file once the slips are planted in order, and what keeps one of them out, as (slip, why)."""
    texts, kept_out = dict(texts or {}), []
    for slip in slips:
        for file, old, new in slip.pairs:
            path = slip.home / file
            if path not in texts:
                texts[path] = path.read_text() if path.is_file() else ""
            times = texts[path].count(old) if old else 0
            if times != 1:
                kept_out.append((slip, f"its old text '{old.strip()}' stands {times} times in {file}"))
                break
            texts[path] = texts[path].replace(old, new)
    return texts, kept_out


def blanked(text):
    """The text with its comments and its strings blank, each character at its place."""
    hidden = re.compile(r"//[^\n]*|/\*.*?\*/|\"(?:\\.|[^\"\\])*\"|'(?:\\.|[^'\\])'", re.S)
    return hidden.sub(lambda found: re.sub(r"[^\n]", " ", found.group()), text)


def closing(text, start):
    """The index after the bracket that closes the one at start."""
    pairs = {"(": ")", "{": "}"}
    opens, closes, depth = text[start], pairs[text[start]], 0
    for i in range(start, len(text)):
        depth += (text[i] == opens) - (text[i] == closes)
        if depth == 0:
            return i + 1
    return len(text)


def angled(text, start):
    """The index after the `>` that closes the `<` at start; the arrow of a function's type closes nothing."""
    depth = 0
    for found in re.compile(r"[-=]>|[<>]").finditer(text, start):
        depth += (found.group() == "<") - (found.group() == ">")
        if depth == 0:
            return found.end()
    return len(text)


def apart(text, mark):
    """The parts of a text between marks that stand in no bracket."""
    parts, depth, at = [], 0, 0
    for found in re.finditer(rf"[-=]>|[(\[{{<]|[)\]}}>]|{mark}", text):
        word = found.group()
        depth += (word in ("(", "[", "{", "<")) - (word in (")", "]", "}", ">"))
        if depth == 0 and re.fullmatch(mark, word):
            parts.append(text[at : found.start()])
            at = found.end()
    return [*parts, text[at:]]


def parameters_of(generics):
    """The names that a list `<..>` of type and const parameters binds, in their order; lifetimes are left out."""
    listed = [part.strip() for part in apart(generics[1:-1], ",")]
    return [re.match(r"(?:const\s+)?(\w+)", part).group(1) for part in listed if part and not part.startswith("'")]


def words_of(kind, parameters):
    """A type as the checker has it in a name: `Result<T, Refusal>` is ResultRefusal where T is a parameter, `&[u8]` RefSliceU8."""
    kind = re.sub(r"'\w+|\b(?:dyn|mut|const)\b", "", kind)
    names = []
    for found in re.finditer(r"&|\[([^\[\]]*;)?|(?:\w+::)*(\w+)", kind):
        name = found.group(2) or {"&": "Ref", "[": "Slice"}.get(found.group(), "Array")
        kind_of_array = words_of(found.group(1), parameters) if found.group(1) else ""
        names += [name[0].upper() + name[1:] + kind_of_array] if name not in parameters else []
    return "".join(names)


class Block:
    """An `impl` or a `trait`: where it begins and ends, its parameters, its type and its trait, None where there is none, and its name, as
    the checker prints it: the type's, and of a trait's impl the trait's behind it."""

    def __init__(self, text, found):
        at = found.end()
        generics = text[at : angled(text, at)] if text[at : at + 1] == "<" else ""
        self.start = text.find("{", at)
        self.end = closing(text, self.start)
        self.header = " ".join(text[at + len(generics) : self.start].split(" where ")[0].split())
        self.parameters = parameters_of(generics) if generics else []
        self.declares = found.group(1) == "trait"
        of = apart(self.header, r"\bfor\b")
        names = [re.findall(r"\w+", re.split(r"[<(]", part.strip(" &"))[0]) for part in of]
        self.type = names[-1][-1] if names[-1] else of[-1].strip()
        self.trait = names[0][-1] if len(of) == 2 else None
        name = words_of(of[1], self.parameters) + words_of(of[0], self.parameters) if self.trait else self.type
        self.name = NUMBERED.get(self.header, name)


class Function:
    """A function in a source file: the block that it stands in, where it begins, what comes before its name, its name, its type parameters, its parameters,
    its result, its clauses as (kind, text), and where its body begins and ends; one that a trait declares may have none."""

    def __init__(self, text, found, blocks):
        self.block = next((block for block in blocks if block.start <= found.start() < block.end), None)
        self.begin, self.before, self.name, at = found.start(), found.group(1), found.group(2), found.end()
        generics = text[at : angled(text, at)] if text[at] == "<" else ""
        self.type_parameters = parameters_of(generics) if generics else []
        begin = text.index("(", at + len(generics))
        at = closing(text, begin)
        self.parameters = text[begin + 1 : at - 1]
        end = result_end(text, at)
        self.result, at, self.clauses = " ".join(text[at:end].strip().removeprefix("->").split()), end, []
        while clause := re.compile(r"[^{};]*?\b(requires|ensures|ghost)\b[^{};]*(?={)").match(text, at):
            at = closing(text, clause.end())
            self.clauses.append((clause.group(1), text[clause.end() : at]))
        body = re.compile(r"[^{};]*([{;])").match(text, at)
        self.start = body.start(1) if body else len(text)
        self.end = closing(text, self.start) if body and body.group(1) == "{" else self.start

    def of(self):
        """The type that it is of, as the checker prints it."""
        return self.block.name if self.block else None


def result_end(text, at):
    """Where the result of a function ends, behind its parameters."""
    depth = 0
    for found in re.compile(r"->|[(\[<]|[)\]>]|[{;]|\b(?:requires|ensures|ghost|where)\b").finditer(text, at):
        word = found.group()
        if depth == 0 and word not in ("->", "(", "[", "<"):
            return found.start()
        depth += (word in ("(", "[", "<")) - (word in (")", "]", ">"))
    return len(text)


def functions(text):
    """Each function of a source file without comments, in its order."""
    blocks = [Block(text, found) for found in re.finditer(r"(?m)^[ \t]*(?:pub(?:\(\w+\))?\s+)?(?:unsafe\s+)?\b(impl|trait)\b[ \t]*(?=[<\w&])", text)]
    words = r"((?:\b(?:pub(?:\(\w+\))?|const|unsafe|extern\s+\"[^\"\n]*\")\s+)*)"
    for found in re.finditer(words + r"\bfn\s+(\w+)\s*(?=[<(])", text):
        yield Function(text, found, blocks)


def home_of(function, types, file):
    """The file that a function counts to: its type's, and its own where it is of none or of a trait's impl."""
    return types.get(function.block.type, file) if function.block and not function.block.trait else file


@lru_cache(maxsize=None)
def types_of(source):
    """The file of each type and trait of a crate."""
    return {name: file for file in source.glob("**/*.rt") for name in re.findall(r"\b(?:struct|enum|trait) (\w+)", blanked(file.read_text()))}


@lru_cache(maxsize=None)
def bodies(crate, file):
    """Of each function in a source file: its name, as the checker prints it, and where its body begins and ends."""
    source, found_bodies = crate / "src", []
    for function in functions(blanked(file.read_text())):
        parts = home_of(function, types_of(source), file).relative_to(source).with_suffix("").parts
        path = [crate.name, *(part for part in parts if part not in ("lib", "main")), *([function.of()] if function.of() else []), function.name]
        found_bodies.append(("::".join(path), function.start, function.end))
    return found_bodies


def only_adds_names(old, new, text):
    """Whether a `use` line of code keeps its names, and adds some that stand nowhere else in the file."""
    lines = [re.fullmatch(r"use ((?:\w+::)+)(?:(\w+)|{(\w+(?:, \w+)*)});", line) for line in (old, new)]
    if not all(lines) or lines[0].group(1) != lines[1].group(1):
        return False
    kept, now = [set(re.findall(r"\w+", line.group(2) or line.group(3))) for line in lines]
    return kept <= now and not any(re.search(rf"\b{name}\b", blanked(text)) for name in now - kept)


def without_mut(text):
    """The text without the `mut` of a variable; that of a reference is a promise."""
    return re.sub(r"(&(?:'\w+\s+)?)?\bmut\s+", lambda found: found.group() if found.group(1) else "", text)


def strays(slip):
    """What a slip of a function changes outside that function's body: None, or the text. Another name for a `use` line and a variable's
    `mut` promise nothing."""
    for file, old, new in slip.pairs:
        path = slip.home / file
        text = path.read_text()
        at = text.find(old)
        if at < 0 or only_adds_names(old, new, text) or without_mut(text.replace(old, new)) == without_mut(text):
            continue
        inside = [start <= at and at + len(old) <= end for name, start, end in bodies(slip.home, path) if name == slip.place]
        if not any(inside):
            return old.strip()
    return None


def read_edits(crates, problem):
    """The slips of some crates by edit file, once what stands wrong in the files is named."""
    files = {edit: slips_of(edit, problem) for edit in all_edits() if edit.parts[-3] in crates}
    names = {}
    for edit, slips in files.items():
        if slips and not edit.stem.startswith("together_") and [slip.name for slip in slips] != [edit.stem]:
            problem(f"{edit}", "has the name of its one slip, or is a file together_N.edit")
        for at, slip in enumerate(slips):
            if names.setdefault(str(slip), slip) is not slip:
                problem(f"{slip}", f"its name stands in {names[str(slip)].edit.name} and in {edit.name}")
            why = misplaced(slip, alone=len(slips) == 1)
            if why:
                problem(f"{slip}", why)
            if changes_nothing(slip):
                problem(f"{slip}", "changes nothing: what it plants is what stands there")
            for other in slips[:at]:
                if meet(slip, other):
                    problem(f"{slip}", f"sits in {slip.place} and meets {other.name} of the same file, which sits in {other.place}")
        for slip, why in planted(slips)[1]:
            problem(f"{slip}", why)
    return files


def misplaced(slip, alone):
    """Why a slip is not in the place that it names, or may not stand with others."""
    if not slip.of_function():
        if not (slip.home / slip.place).is_file() or slip.place not in {file for file, _, _ in slip.pairs}:
            return f"names {slip.place}, which is no file that it changes"
        return None if alone or may_join(slip) else f"is a slip of {slip.place}, which others rely on, so it stands alone in its file"
    sources = {slip.home / file for file, _, _ in slip.pairs if file.startswith("src/")}
    if not any(name == slip.place for file in sources if file.is_file() for name, _, _ in bodies(slip.home, file)):
        return f"names {slip.place}, which is no function of its file"
    return None if alone or may_join(slip) else f"changes '{strays(slip)}', which is not in the body of {slip.place}, so it stands alone in its file"


def changes_nothing(slip):
    """Whether its files are, but for comments and spaces, what they were."""
    texts, kept_out = planted([slip])
    words = {path: [re.sub(r"//[^\n]*|/\*.*?\*/|--[^\n]*", "", one, flags=re.S).split() for one in (path.read_text(), text)] for path, text in texts.items() if path.is_file()}
    return not kept_out and all(before == after for before, after in words.values())


def keeps_shape(slip):
    """Whether a slip changes names and numbers alone: no call, no operation and no order of them."""
    return all(shape(old) == shape(new) for _, old, new in slip.pairs)


def shape(text):
    """A line with each name and number that is not called, and is no word of the language, put as one sign."""
    words = r"(?!(?:as|else|for|if|in|let|match|mut|return|while)\b)\w+(?:(?:::|\.)\w+)*\b(?!\s*[(!])"
    return re.sub(rf"(?<![\w.]){words}", "_", text).split()


def meet(slip, other):
    """Whether an error of one may be the other's: they sit in one place, or in two files of definitions with a reader in common. Where one
    of two such files reads the other, what reads the first reads both."""
    readers = [set() if one.of_function() else readers_of(one.home, one.place) for one in (slip, other)]
    return slip.place == other.place or bool(readers[0] & readers[1])


def may_join(slip):
    """Whether a slip may stand with others: it is in one function's body, or in definitions that no code and no function's proof reads,
    and some law does."""
    if slip.of_function():
        return not strays(slip)
    readers = readers_of(slip.home, slip.place)
    apart = not any(file.startswith("src/") or file.endswith(PROOFS) for file in readers)
    read = any(file.startswith("proofs/") for file in readers)
    return slip.place.startswith("specs/") and apart and read and {file for file, _, _ in slip.pairs} == {slip.place}


@lru_cache(maxsize=None)
def uses_in(crate):
    """The modules of a crate that each of its files names in a `use` line or for a tactic, by their files."""
    uses = {}
    for file in [f for part in ("src", "specs", "proofs") for f in (crate / part).glob("**/*") if f.suffix in (".rt", ".antt")]:
        text = file.read_text()
        lines = [line for line in text.splitlines() if line.startswith(("use ", "ghost use "))]
        modules = re.findall(rf"Rattle\.{crate.name}\.((?:specs|proofs)\.[\w.+-]+)", "\n".join(lines))
        modules += [found.replace("::", ".") for found in re.findall(r"\bcrate::((?:specs|proofs)::[\w:]+)::\w+", text)]
        uses[str(file.relative_to(crate))] = {module.rstrip(".").replace(".", "/") + ".antt" for module in modules}
    return uses


def readers_of(crate, place):
    """The files of a crate that read a file, by themselves or through others."""
    found, todo = set(), [place]
    while todo:
        read = todo.pop()
        new = {file for file, modules in uses_in(crate).items() if read in modules} - found
        found |= new
        todo += new
    return found
