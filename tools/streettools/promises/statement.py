"""The statement of a promise: the words of a definition or a contract without comments, layout and bodies."""

import functools
import hashlib
import re

TOKEN = re.compile(
    r"""(?P<text>b?"(?:[^"\\]|\\.)*")"""
    r"""|(?P<note>//[^\n]*|/\*.*?\*/)"""
    r"""|(?P<letter>b?'(?:[^'\\\n]|\\[^\n]{1,8}?)')"""
    r"""|(?P<other>.)""",
    re.S,
)
"""A text, a comment, a character, or any other character of a file in Rattle."""

NOTE = re.compile(r'("(?:[^"\\\n]|\\.)*")|--[^\n]*')
"""A text, or a comment, of a file of definitions."""

OPEN, CLOSED = "([{", ")]}"
VISIBLE = r"(?:pub(?:\([^)]*\))? )?"
CLAUSE = re.compile(r"\b(?:requires|ensures|decreases)(?:\s+[\w-]+)?\s*$")
"""What precedes the brace of a clause."""

TEXT = re.compile(rf"^{VISIBLE}const \w+:[^=;]*\bstr\b[^=;]*=", re.M)
"""The head of a constant text: what the program prints word by word isn't a contract."""

IMPORT = re.compile(r"^((?:pub |ghost )?use )([^;{\n]+)\.\{([^}]*)\};?[ \t]*$", re.M)


def digest(statement: str) -> str:
    """Returns the SHA-256 of a statement in hexadecimal digits, whatever its layout and the order of its imports."""
    imports = sorted(
        f"{use}{path}.{name.strip()}" for use, path, names in IMPORT.findall(statement) for name in names.split(",")
    )
    return hashlib.sha256("\n".join([*imports, *IMPORT.sub("", statement).split()]).encode()).hexdigest()


def _lines(text: str) -> str:
    """Returns a text without empty lines and without blanks at the ends of lines."""
    return "".join(f"{line.rstrip()}\n" for line in text.splitlines() if line.strip())


def definitions(text: str) -> str:
    """Returns what a file of definitions states: all but its comments."""
    return _lines(NOTE.sub(lambda it: it[1] or "", text))


@functools.lru_cache(maxsize=1024)
def code(text: str) -> str:
    """Returns a file in Rattle without its comments."""
    return "".join("" if it["note"] else it[0] for it in TOKEN.finditer(text))


def _after(text: str, at: int, ends: str) -> int:
    """Returns the place after the first of these characters from a place on, outside of texts and of inner brackets."""
    depth = 0
    for it in TOKEN.finditer(text, at):
        if it["other"]:
            depth += (it[0] in OPEN) - (it[0] in CLOSED)
            if depth == 0 and it[0] in ends:
                return it.end()
    return len(text)


def _head(text: str, at: int) -> int:
    """Returns where the head of the function ends that begins at this place: its body's brace, or the place after its
    semicolon."""
    while at < len(text):
        if text[at] == ";":
            return at + 1
        if text[at] == "{" and not CLAUSE.search(text, max(at - 80, 0), at):
            return at
        at = _after(text, at, CLOSED) if text[at] in OPEN else at + 1
    return at


@functools.lru_cache(maxsize=1024)
def contracts(text: str) -> str:
    """Returns what a file in Rattle states: its types, its traits and the contracts of its functions. Bodies, modules,
    imports of code and constant texts are left out."""
    text = re.sub(rf"^{VISIBLE}(?:use|mod)\b[^;{{]*(?:\{{[^}}]*\}})?;", "", code(text), flags=re.M)
    found, at = [], 0
    for it in re.finditer(rf"\bfn\s+\w+|{TEXT.pattern}", text, re.M):
        if it.start() < at:
            continue
        found.append(text[at : it.start()])
        if "fn" in it[0].split():
            end = _head(text, it.start())
            found.append(text[it.start() : end])
            at = _after(text, end, CLOSED) if text[end : end + 1] == "{" else end
            found.append(";" * (at > end))
        else:
            at = _after(text, it.end(), ";")
    return _lines("".join([*found, text[at:]]))


def item(stated: str, name: str) -> str:
    """Returns the type, the trait or the function of this name in what a file states, an empty text if there is
    none."""
    found = re.search(rf"^(?:[ \t]*#\[[^\n]*\]\n)*[ \t]*{VISIBLE}(struct|enum|trait|fn) {name}\b", stated, re.M)
    if found is None:
        return ""
    end = _head(stated, found.end()) if found[1] == "fn" else _after(stated, found.end(), ";}")
    return stated[found.start() : end]
