"""Wrong bodies: edits of a crate's sources that its contracts are to refuse. Here they are read and put in place, and what a check
says of them is judged.

An edit is a file of lines 'file: src/x.rt', and then pairs of lines 'old: TEXT' and 'new: TEXT', where each old TEXT stands once in
that file, as the earlier pairs have made it.
"""
import re
from typing import NamedTuple

# How a wrong body is refused: at values for which what is to be shown is false; nothing was found that shows it; a written answer
# doesn't fit any more. What is refused only at a call that the body makes, or for the form of the edit, says nothing of the
# function's contract, nor does an edit that can't be applied or read. A body that is proved meets its contract.
VALUES, OPEN, ANSWER = "false at values", "left open", "at a written answer"
CALL, FORM, UNREAD, UNTOLD, PROVED = "at a call alone", "for its form alone", "not read", "not told", "PROVED"
KINDS = (VALUES, OPEN, ANSWER, CALL, FORM, UNREAD, UNTOLD, PROVED)
REFUSED = (VALUES, OPEN, ANSWER)

HEAD = re.compile(r"(?m)^\s*(?:pub(?:\([a-z]+\))?\s+)?(?:const\s+)?(?:unsafe\s+)?fn\s+(\w+)")
IMPL = re.compile(r"(?m)^impl\b([^\n]*)")
FALSE = "values at which this goal is false"
GONE = re.compile(r"has no field|is not in scope|has no `|was not admitted")
NOT_READ = re.compile(r"is not in scope|has no field|is no name|operand is missing|expected the end|cannot continue")
PLACE = re.compile(r"(?:note: )?(?:\./)?(?P<file>\S+?):(?P<line>\d+):\d+: (?P<said>.*)")
GOAL = re.compile(r"`(?P<goal>[^`]*)`\)")
CODE_CHECK = re.compile(r"overflow_|nonzero_|bounds-|slice_bounds-|offset_bounds-|prove-|unreachable")
ANSWERED = re.compile(r"(?:pub )?(?P<goal>[^\s:]+) :")
OF_CALL = re.compile(r"\S+-requires\b")
CHOICE = re.compile(r"note: `decreases-[^`]*` of (?P<file>\S+) is yours to choose")
TOLD_FUNCTION = re.compile(r"fn (?P<name>\S+): (?P<how>proved|not proved|no proof|could not tell)")
ENDED = re.compile(r"(?m)^(logic=|only=)")


class BadEdit(Exception):
    """Why an edit can't be applied."""


class Function(NamedTuple):
    """A function: its file, and the end of the name that a check prints, as `ReadyQueue::put`; '?' if that isn't known."""

    file: str
    name: str

    def is_told_as(self, name):
        return f"::{name}".endswith(f"::{self.name}")

    def has_proof_in(self, file):
        """Whether a file of proofs/ is of this function."""
        return f"/{file}".rpartition("/")[0].endswith("/" + self.name.replace("::", "/"))


class Edit(NamedTuple):
    """A wrong body: its crate, its name, and the changes, each a file with the text that goes and the one that comes."""

    crate: str
    name: str
    changes: list


def read_edit(crate, path):
    """An edit of a crate, from its file."""
    file, old, changes = None, None, []
    for line in path.read_text(encoding="utf-8").splitlines():
        if line.startswith("file: "):
            file = line.removeprefix("file: ").strip()
        elif line.startswith("old: "):
            old = line.removeprefix("old: ")
        elif line.startswith("new:"):
            if file is None or old is None:
                raise BadEdit("a line 'new:' stands before a line 'file:' or 'old:'")
            changes.append((file, old, line.removeprefix("new:").removeprefix(" ")))
            old = None
    if not changes:
        raise BadEdit("it changes nothing")
    return Edit(crate, path.stem, changes)


def without_brackets(text):
    """A text without what stands in `<` and `>`."""
    while "<" in text:
        shorter = re.sub(r"<[^<>]*>", "", text.replace("->", ""))
        if shorter == text:
            return text
        text = shorter
    return text


def function_at(file, text, position):
    """The function whose head stands last before a place of a file."""
    heads = list(HEAD.finditer(text, 0, position))
    if not heads:
        return Function(file, "?")
    name, begin = heads[-1][1], heads[-1].start()
    impls = [it for it in IMPL.finditer(text, 0, begin) if "\n}\n" not in text[it.start() : begin]]
    if impls:
        words = without_brackets(impls[-1][1]).replace("{", " ").partition(" where ")[0].split(" for ")
        # a method of a trait is named by the type and the trait
        return Function(file, "".join(it.strip() for it in reversed(words)) + f"::{name}")
    parts = file.removeprefix("src/").removesuffix(".rt").split("/")
    return Function(file, name if parts in (["lib"], ["main"]) else f"{parts[-1]}::{name}")


def apply(edit, texts, source):
    """The texts with an edit put in, and the functions that it touches; `source` gives the text of a file that isn't among them."""
    texts, functions = dict(texts), set()
    for file, old, new in edit.changes:
        text = texts.get(file)
        text = source(file) if text is None else text
        if text.count(old) != 1:
            raise BadEdit(f"{old!r} stands {text.count(old)} times in {file}")
        functions.add(function_at(file, text, text.index(old) + len(old)))
        texts[file] = text.replace(old, new)
    return texts, functions


class Verdict(NamedTuple):
    """How a wrong body is refused, with the place and the goal."""

    kind: str
    words: str


def of_functions(said, functions, texts):
    """The lines of a check that speak of these functions."""
    return [line for line in said.splitlines() if any(speaks_of(line, it, texts) for it in functions)]


def speaks_of(line, function, texts):
    if told := TOLD_FUNCTION.match(line):
        return function.is_told_as(told["name"])
    if choice := CHOICE.match(line):
        return function.has_proof_in(choice["file"])
    place = PLACE.match(line)
    if not place:
        return False
    if place["file"] != function.file:
        return function.has_proof_in(place["file"])
    text = texts[function.file]
    lines = text.split("\n")[: int(place["line"])]
    end = sum(len(it) + 1 for it in lines)
    # the place of a function is that of its first attribute
    head = HEAD.search(text, end) if lines[-1].lstrip().startswith("#[") else None
    return function_at(function.file, text, head.end() if head else end) == function


def goal_of(told):
    """The name of a goal that isn't proved; empty if it isn't told."""
    name = GOAL.search(told["said"])
    return name["goal"] if name else ""


def answered_goal(told, text_of):
    """The name of the goal, or of the lemma, whose written answer doesn't fit."""
    lines = text_of(told["file"]).splitlines()[: int(told["line"])]
    return next((found["goal"] for line in reversed(lines) if (found := ANSWERED.match(line))), "")


def refusal(told, goal, kind):
    """
    What says that a goal isn't shown, after how far it is from what the function promises and how little it tells: what it ensures and
    invariants of loops come first, what is left after a failure later, what a call asks for last.
    """
    is_promise = goal.startswith("returns") and "in_err" not in goal or goal.endswith("-preserved")
    is_of_call = bool(OF_CALL.match(goal))
    gave_up = "; a search gave up" if "gave up at one of its limits" in told["said"] else ""
    words = f"{told['file']}:{told['line']}" + (f", {goal}" if goal else "") + gave_up
    far = 2 if is_of_call else 0 if is_promise else 1
    return (far, KINDS.index(kind), "differ" not in told["said"]), Verdict(CALL if is_of_call else kind, words)


def judge(said, status, lines, written, text_of):
    """
    What a check says of a wrong body. `lines` are those of `said` that speak of it, `written` the numbers of the lines that the edit
    wrote, by file, and `text_of` gives the text of a file of the crate.
    """
    if status == 0:
        return Verdict(PROVED, "its contract lets the body through")
    if not ENDED.search(said):
        # 3: the prover met a limit; below 0: the check was killed, most likely for memory
        error = next((it for it in said.splitlines() if "error" in it), "")
        return Verdict(UNREAD if error and status in (1, 2) else UNTOLD, error[:160] or f"the check ended with status {status}")
    told = [found for line in lines if (found := PLACE.match(line))]
    errors = [it for it in told if it["said"].startswith("error")]
    for it in errors:
        if it["file"].startswith(("src/", "specs/")) and NOT_READ.search(it["said"]):
            return Verdict(UNREAD, it[0][:160])
    goals = [it for it in told if "it is not proved that" in it["said"]]
    # a check of the code on a line that the edit wrote, as for a sum that it brought in, is no matter of a contract
    own = [it for it in goals if CODE_CHECK.match(goal_of(it)) and int(it["line"]) in written.get(it["file"], ())]
    found = [refusal(it, goal_of(it), VALUES if FALSE in it["said"] else OPEN) for it in goals if it not in own]
    found += [refusal(it, answered_goal(it, text_of), ANSWER) for it in errors if not GONE.search(it["said"])]
    if found:
        return min(found, key=lambda it: it[0])[1]
    if own:
        return Verdict(FORM, f"only a check of the code that it wrote fails, at {own[0]['file']}:{own[0]['line']}, {goal_of(own[0])}")
    if choice := next(filter(None, map(CHOICE.match, lines)), None):
        return Verdict(OPEN, f"{choice['file']}: nothing shows that a loop ends")
    if errors:
        return Verdict(FORM, f"only a proof file is refused that names what is gone: {errors[0][0][:120]}")
    if told:
        return Verdict(OPEN, f"{told[0]['file']}:{told[0]['line']}: {told[0]['said'][:120]}")
    return Verdict(UNTOLD, "no line says why")
