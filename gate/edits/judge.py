"""Judges edits by what a check says of a copy of a crate with the edits in it. gate/edits/refused.py says how."""

import re
from dataclasses import dataclass, field
from pathlib import Path
from typing import Dict, List, NamedTuple, Set, Tuple

from edits.files import Edit, Function, Texts, function_at

# The maximum number of edits in a check.
MOST = 128

MESSAGE = re.compile(r"(note: )?(?:\./)?((?:src|specs|proofs)/\S+?):(\d+):\d+: (.*)")
VERDICT = re.compile(r"fn (\S+): (.*)")
OPEN = re.compile(r"error\b|it is not proved that|`\w+` found no proof")
# A proof names what no longer exists. (The words may be in a line after the message's first.)
GONE = re.compile(r"has no field|is not in scope|has no `|was not admitted|which was rejected, was not checked")
WAITS = re.compile(r"which (is|are) not proved|depends on")


class Message(NamedTuple):
    file: str
    line: int
    text: str


class Said(NamedTuple):
    """The output of a check: its messages, a verdict for each function, and whether the prover was reached and proved the crate."""

    messages: List[Message]
    verdicts: List[Tuple[str, str]]
    is_read: bool
    is_proved: bool
    end: str


def parse(output: str) -> Said:
    messages: List[Message] = []
    verdicts = []
    is_message = False
    lines = [line[len("so far: ") :] if line.startswith("so far: ") else line for line in output.splitlines()]
    for line in lines:
        message = MESSAGE.match(line)
        verdict = VERDICT.match(line)
        if message:
            messages.append(Message(message[2], int(message[3]), message[4]))
        elif verdict:
            verdicts.append((verdict[1], verdict[2]))
        elif is_message and line.startswith(" "):
            messages[-1] = messages[-1]._replace(text=f"{messages[-1].text} {line.strip()}")
            continue
        is_message = bool(message)
    logic = [line for line in lines if line.startswith("logic=")]
    return Said(messages, verdicts, bool(logic), bool(logic) and logic[-1].startswith("logic=proved"), " / ".join(lines[-3:]))


def module_of(file: str) -> str:
    """Returns the module of a file of src/, as a path of folders; empty for a root."""
    module = file[len("src/") : -len(".rt")]
    return "" if module in ("lib", "main") else module


def is_of(message: Message, function: Function) -> bool:
    """Returns whether a message is in a function, or in a proof of it."""
    if message.file == function.file:
        return function.first <= message.line <= function.last
    folder = ["proofs", *(part for part in module_of(function.file).split("/") if part)]
    parts = message.file.split("/")[:-1]
    # (the proofs of a closure are in a folder fn/FUNCTION)
    is_closure = parts[len(folder) : len(folder) + 2] == ["fn", function.name]
    return parts[: len(folder)] == folder and (parts[-1] == function.name or is_closure)


def is_verdict_of(path: str, function: Function) -> bool:
    parts = path.split("::")
    module = [part for part in module_of(function.file).split("/") if part]
    return parts[1 : 1 + len(module)] == module and parts[-1] == function.name


@dataclass
class Judge:
    """The result of each edit of a crate; which edits are still to be tried, how often they were, and which of them alone."""

    crate: Path
    texts: Texts
    refused: Dict[str, str] = field(default_factory=dict)
    failed: Dict[str, str] = field(default_factory=dict)
    tries: Dict[str, int] = field(default_factory=dict)

    def batches(self, edits: List[Edit]) -> List[List[Edit]]:
        """Divides edits into batches so that each message of a check belongs to one edit of its batch."""
        layers: List[Tuple[List[Edit], Set[Tuple[str, ...]]]] = []
        alone = []
        for edit in sorted(edits, key=lambda it: (it.pairs[0].file, it.name)):
            functions = self.texts.functions(edit)
            keys = {self.key(it) for it in functions}
            if self.tries.get(edit.name, 0) > 1 or any(not it.name for it in functions):
                alone.append([edit])
                continue
            layer = next((it for it in layers if not it[1] & keys), None)
            if not layer:
                layer = ([], set())
                layers.append(layer)
            layer[0].append(edit)
            layer[1].update(keys)
        parted = []
        for layer_edits, _ in layers:
            count = -(-len(layer_edits) // MOST)
            parted += [layer_edits[len(layer_edits) * i // count : len(layer_edits) * (i + 1) // count] for i in range(count)]
        return parted + alone

    def key(self, function: Function) -> Tuple[str, ...]:
        """Returns what the functions of a batch differ in: the name, in a file with proofs for a function of that name, or the line."""
        answers = (self.crate / "proofs" / module_of(function.file)).glob(f"**/{function.name}/*.antt")
        return (function.file, function.name, "" if any(answers) else str(function.first))

    def judge(self, batch: List[Edit], places: Dict[str, Set[Function]], said: Said) -> List[Edit]:
        """Judges the edits of a batch, and returns those to be tried again."""
        again = []
        is_alone = len(batch) == 1
        unread = [it for it in batch if not said.is_read and self.own(places[it.name], said)]
        for edit in batch:
            own = self.own(places[edit.name], said)
            proper = [it for it in own if not GONE.search(it.text)]
            tries = self.tries.get(edit.name, 0)
            if not said.is_read:
                if is_alone:
                    self.failed[edit.name] = f"the check can't read it: {own[0].text if own else said.end}"
                    continue
                self.tries[edit.name] = 2 if edit in unread or not unread else tries
            elif proper:
                self.accept(edit, {it.name for it in places[edit.name]}, show(proper[0]))
                continue
            elif own:
                self.failed[edit.name] = f"refused only because a proof names what it took away: {show(own[0])}"
                continue
            elif is_alone or said.is_proved:
                self.judge_unrefused(edit, said)
                continue
            else:
                names = [text for path, text in said.verdicts for it in places[edit.name] if is_verdict_of(path, it)]
                self.tries[edit.name] = tries + 1 if any(WAITS.search(it) for it in names) else 2
            again.append(edit)
        return again

    def accept(self, edit: Edit, names: Set[str], what: str) -> None:
        """Accepts an edit as refused in one of these functions, if its line `breaks:` names the function."""
        if any(re.search(rf"\b{re.escape(it)}\b", edit.breaks) for it in names):
            self.refused[edit.name] = what
        else:
            self.failed[edit.name] = f"`breaks:` doesn't name the function in which it is refused: {what}"

    def own(self, functions: Set[Function], said: Said) -> List[Message]:
        named = [it for it in functions if it.name]
        return [message for message in said.messages if OPEN.match(message.text) and any(is_of(message, it) for it in named)]

    def judge_unrefused(self, edit: Edit, said: Said) -> None:
        """Judges an edit whose function is not refused, by what the check says of the others."""
        if said.is_proved:
            self.failed[edit.name] = "not refused: the crate is proved with it"
            return
        others = [it for it in said.messages if OPEN.match(it.text) and not GONE.search(it.text)]
        names = {self.name_at(it) for it in others} - {""}
        self.accept(edit, names, f"by a caller: {show(others[0]) if others else said.end}")

    def name_at(self, message: Message) -> str:
        if message.file.startswith("proofs/"):
            return message.file.split("/")[-2]
        text = self.texts.load(message.file)
        return function_at(message.file, text, sum(len(it) + 1 for it in text.split("\n")[: message.line - 1]) + 1).name


def show(message: Message) -> str:
    return f"{message.file}:{message.line}: {message.text}"[:160]
