"""Which names in backticks of a document are of nothing in the repository.

A name is looked up in what the repository has: its files and folders, and the words of its sources outside comments.

- A path, or a name with a file's ending, must be that of a file, or the end of a file's path. One with a word in
  capitals, as `CRATE/NAME.edit`, stands for many, and one with `out` for what is made.
- `A::b` must be two words of one source file.
- Any other word that looks like an item, as `each_call_ends` or `HeldPage`, must be a word of some source.

tests/docs/outside lists names of others, as those of Xen's and Qubes' own files. Commands, lines of scripts and
words of one or two letters aren't looked up.
"""
import os
import re
from functools import cache
from pathlib import Path

ROOT = Path(__file__).resolve().parent.parent.parent
OUTSIDE = Path(__file__).resolve().parent / "outside"
SOURCES = ["crates", "tools", "tests", "c", "rust", "examples", "bench", ".ci"]
MADE = {"out", ".git", "target", "__pycache__"}
COMMENTS = {
    **dict.fromkeys([".rt", ".rs"], r"//.*"),
    **dict.fromkeys([".c", ".h"], r"(?s:/\*.*?\*/)|//.*"),
    **{".antt": r"--.*", ".in": r"//.*|--.*", ".toml": r"#.*"},
}
FILE = re.compile(r"[\w.*-]*[\w*]\.(?:rt|antt|md|rs|c|h|py|so|a|toml|step|stream|list|edit|svg|txt)")
ITEM = re.compile(r"[A-Za-z]\w*_\w+|[A-Z]\w*[a-z]\w*|[a-z]{3,}")
PART = re.compile(r"[A-Za-z_]\w*(?:::[A-Za-z_]\w*)+")
PATH = re.compile(r"\.?[\w.-]+(?:/[\w.-]+)*/?")
CODE = re.compile(r"`([^`\n]+)`")
BLOCK = re.compile(r"^```.*?^```$", re.MULTILINE | re.DOTALL)


@cache
def files():
    """The paths of all files and folders, from the top."""
    found = set()
    for folder, folders, names in os.walk(ROOT):
        folders[:] = [it for it in folders if it not in MADE]
        found |= {Path(folder, it).relative_to(ROOT).as_posix() for it in [*folders, *names]}
    return found


@cache
def ends_of_paths():
    return {"/".join(parts[at:]) for parts in (it.split("/") for it in files()) for at in range(len(parts))}


@cache
def words_of_files():
    """The words of each source outside comments."""
    found = []
    for name in files():
        path = ROOT / name
        if name.split("/")[0] not in SOURCES and name not in ("vchan", "crates.txt") or not path.is_file() or path.suffix == ".md":
            continue
        try:
            text = path.read_text()
        except UnicodeDecodeError:
            continue
        if comment := COMMENTS.get(path.suffix):
            text = re.sub(comment, "", text)
        found.append(frozenset(re.findall(r"\w+", text)) | {path.stem.split(".")[0]} | set(path.parts))
    return found


@cache
def all_words():
    return frozenset().union(*words_of_files())


@cache
def outside():
    return {it for it in OUTSIDE.read_text().split("\n") if it and not it.startswith("#")}


def is_path(name):
    return PATH.fullmatch(name) and ("/" in name or FILE.fullmatch(name))


def looks_like_an_item(name):
    return name not in outside() and (PART.fullmatch(name) or is_path(name) or ITEM.fullmatch(name))


def unknown(name):
    """Why there is nothing of this name, or None."""
    if PART.fullmatch(name):
        parts = set(name.split("::"))
        return None if any(parts <= it for it in words_of_files()) else "no source has these words together"
    if is_path(name):
        path = name.removeprefix("./").strip("/")
        stands_for_many = MADE & set(path.split("/")) or re.search(r"(^|/)[A-Z]{2,}\b", path)
        return None if stands_for_many or {path, f"{path}.antt"} & ends_of_paths() else "there is no such file"
    return None if name in all_words() else "no source has this word"


def looked_up(text):
    """The names of a document that look like items, each with why there is nothing of that name, or None."""
    return [(it, unknown(it)) for it in dict.fromkeys(CODE.findall(BLOCK.sub("", text))) if looks_like_an_item(it)]
