"""The tokens of Rattle code, and notes, which are comments of one line."""

import re
from typing import AbstractSet, Iterator, List, NamedTuple, NoReturn, Optional, Sequence, Set, Tuple

from comments import is_doc, looks_like_mark, looks_like_note

# The line that asks for the implementations of a struct or an enum.
MARK = "#[derive(Pread, Pwrite)]"
# The same, for what is also written by the calls that say that it reads back, such as `write_kept`.
KEPT = "#[derive(Pread, Pwrite, Kept)]"
# The same, for what only stands in others, and isn't read and written alone.
PART = "#[derive(Part)]"
TOKEN = re.compile(
    r"""(?P<space>\s+)
    |(?P<comment>//[^\n]*)
    |(?P<string>b?r(?P<hashes>\#*)".*?"(?P=hashes)|b?"(?:\\.|[^"\\])*"|b?'(?:\\.[^']*|[^'\\])')
    |(?P<lifetime>'[A-Za-z_]\w*)
    |(?P<number>\d\w*)
    |(?P<name>r\#[A-Za-z_]\w*|[A-Za-z_]\w*)
    |(?P<sign>::|->|=>|==|!=|<=|>=|&&|\|\||.)""",
    re.S | re.X,
)
OPENING, CLOSING = "([{<", ")]}>"
# What stands in the place of a string while text is laid out.
STRING = "\ue001"


# What stands before a name of the crate's own that the libraries have too (`names.qualified`).
OWN = "\ue000"


class Refused(Exception):
    """What isn't supported: its file, its line, and why."""

    def __init__(self, path: str, line: int, message: str) -> None:
        super().__init__((f"{path}:{line}: {message}" if line else f"{path}: {message}").replace(OWN, ""))


class Token(NamedTuple):
    """A token. Its kind is `name`, `number`, `lifetime`, `string`, `sign`, or `note`, with what is in it, or `mark`."""

    kind: str
    text: str
    line: int


class Comment(NamedTuple):
    """A comment that looks like a note, or else like the line that asks for implementations, and is neither."""

    text: str
    line: int
    is_mark: bool


class Tokens:
    """The tokens of a file, with a place among them. `own` are the names of the crate's own that the libraries have too, and `read` the
    lines of the notes that were read."""

    def __init__(self, path: str, tokens: Sequence[Token], own: AbstractSet[str] = frozenset(), read: Optional[Set[int]] = None) -> None:
        self.path, self.tokens, self.place, self.own = path, tokens, 0, own
        self.read: Set[int] = set() if read is None else read

    def refuse(self, line: int, message: str) -> NoReturn:
        raise Refused(self.path, line, message)

    def part(self, begin: int, end: Optional[int] = None) -> "Tokens":
        """Returns the tokens from a place to another one, or to the end."""
        return Tokens(self.path, self.tokens[begin:end], self.own, self.read)

    def refuse_unread(self) -> None:
        """Refuses a note, or a line that asks for implementations, that nothing read."""
        left = next((it for it in self.tokens if it.kind in ("note", "mark") and it.line not in self.read), None)
        if left:
            self.refuse(left.line, "the note stands where none is read: write it before a struct, an enum, a field or a variant")

    @property
    def is_done(self) -> bool:
        return self.place >= len(self.tokens)

    @property
    def next(self) -> Token:
        return Token("end", "", self.tokens[-1].line if self.tokens else 0) if self.is_done else self.tokens[self.place]

    def take(self) -> Token:
        token = self.next
        self.place += 1
        return token

    @property
    def line(self) -> int:
        """The line of the token that was taken last."""
        return self.tokens[self.place - 1].line if 0 < self.place <= len(self.tokens) else 0

    @property
    def before(self) -> str:
        """The token before the one that was taken last."""
        return self.tokens[self.place - 2].text if self.place > 1 else ""

    def has(self, *texts: str) -> bool:
        """Takes some tokens if they are the next ones."""
        if [it.text for it in self.tokens[self.place : self.place + len(texts)]] != list(texts):
            return False
        self.place += len(texts)
        return True

    def inside(self) -> "Tokens":
        """Takes an opening bracket, and what is in it, which is returned, and the closing one. (Only between `<` and `>` are these
        brackets.)"""
        opening, closing = ("([{<", ")]}>") if self.next.text == "<" else ("([{", ")]}")
        begin, depth = self.place + 1, 0
        while not self.is_done:
            text = self.take().text
            depth += (text in opening) - (text in closing)
            if depth == 0:
                break
        return self.part(begin, self.place - 1)

    def until_comma(self, opening: str = OPENING, closing: str = CLOSING) -> "Tokens":
        """Takes what stands before the next comma outside brackets, which is returned, and the comma."""
        begin, depth = self.place, 0
        while not self.is_done and (depth or self.next.text != ","):
            if self.next.text == "{":
                self.inside()
                continue
            text = self.take().text
            depth += (text in opening) - (text in closing)
        found = self.part(begin, self.place)
        self.has(",")
        return found

    def until(self, sign: str) -> "Tokens":
        """Takes what stands before the next such sign outside braces, which is returned, and the sign."""
        begin, depth = self.place, 0
        while not self.is_done and (depth or self.next.text != sign):
            text = self.take().text
            depth += (text in "([{") - (text in ")]}")
        found = self.part(begin, self.place)
        self.has(sign)
        return found

    def split(self, opening: str = OPENING, closing: str = CLOSING) -> "Iterator[Tokens]":
        """Takes what stands between commas outside brackets."""
        while not self.is_done:
            yield self.until_comma(opening, closing)

    @property
    def said(self) -> str:
        """Returns the tokens as code. (What stands between quotes stays.)"""
        strings = [it.text for it in self.tokens if it.kind == "string"]
        text = " ".join(STRING if it.kind == "string" else it.text for it in self.tokens)
        text = re.sub(r" ?(<|::) ?| (\.) |(?<=[(\[]) | (?=[)\],;:>])", lambda it: it[1] or it[2] or "", text)
        text = re.sub(r"& (?=['\[]|str\b)", "&", text)
        text = re.sub(r"(?<=[\w>]) \((?=\))|(?<=[a-z]) \(", "(", text)
        return re.sub(STRING, lambda _: strings.pop(0), text)


def read_tokens(path: str, text: str, own: AbstractSet[str]) -> Tuple[Tokens, List[Comment]]:
    """Returns the tokens of a file, and its comments that look like notes and are none."""
    comments: List[Comment] = []
    return Tokens(path, marked(scan(path, text, 1, comments), own), own), comments


def tokens_of(path: str, text: str, line: int = 1, own: AbstractSet[str] = frozenset()) -> Tokens:
    """Returns the tokens of a note, in which no comment stands."""
    return Tokens(path, marked(scan(path, text, line), own), own)


def marked(tokens: List[Token], own: AbstractSet[str]) -> List[Token]:
    """Returns tokens with the mark before each of the crate's own names."""
    return [it._replace(text=OWN + it.text) if it.kind == "name" and it.text in own else it for it in tokens]


def scan(path: str, text: str, line: int, comments: Optional[List[Comment]] = None) -> List[Token]:
    tokens: List[Token] = []
    place = 0
    while place < len(text):
        if text.startswith("/*", place):
            said, kind = block_comment(text, place), "comment"
        else:
            found = TOKEN.match(text, place)
            assert found
            said, kind = found[0], found.lastgroup or ""
        if kind == "comment" and comments is None:
            raise Refused(path, line, "there is a comment in the note: write it on a line of its own")
        if kind == "comment":
            is_behind = bool(tokens) and tokens[-1].line == line and tokens[-1].kind not in ("note", "mark")
            read = read_comment(path, said, line, is_behind)
            tokens += read
            if not read and not said.startswith("//!") and (looks_like_note(said) or looks_like_mark(said)):
                assert comments is not None
                comments.append(Comment(said, line, looks_like_mark(said)))
        elif kind != "space":
            tokens.append(Token(kind, said, line))
        place += len(said)
        line += said.count("\n")
    return tokens


def block_comment(text: str, place: int) -> str:
    """Returns the comment that begins at a place, in which others may stand."""
    depth = 0
    for found in re.finditer(r"/\*|\*/", text[place:]):
        depth += 1 if found[0] == "/*" else -1
        if depth == 0:
            return text[place : place + found.end()]
    return text[place:]


def read_comment(path: str, comment: str, line: int, is_behind: bool) -> List[Token]:
    """Returns the note or the mark that a comment is, or nothing."""
    found = re.search(r"#\[(?:scroll\b|derive\(P(?:read|write|art)\b)", comment)
    if not found or comment.startswith("/*"):
        return []
    text = comment[2:].strip()
    if is_doc(comment):
        if comment[3 : found.start()].strip():
            return []
        raise Refused(path, line, "this is a line of documentation, which is no note: begin it with `//`")
    if is_behind:
        raise Refused(path, line, "the note stands behind code: write it on a line of its own, before what it is for")
    if comment[2 : found.start()].strip():
        raise Refused(path, line, "there is text before the note: write it on a line of its own")
    if text.startswith("#[derive"):
        if text not in (MARK, KEPT, PART):
            raise Refused(path, line, f"this is none of the lines `// {MARK}`, `// {KEPT}` and `// {PART}`")
        return [Token("mark", text, line)]
    if not text.startswith("#[scroll(") or not text.endswith(")]"):
        raise Refused(path, line, "a note is one line, `// #[scroll(..)]`")
    return [Token("note", text[len("#[scroll(") : -2], line)]
