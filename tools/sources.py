"""What the sources of the crates say: their functions, which of them other crates can call, and which take something to change."""

import dataclasses
import functools
import pathlib
import re

TOP = pathlib.Path(__file__).resolve().parent.parent

FUNCTION = re.compile(r"^( *)(pub(?:\(\w+\))? )?(?:const |unsafe )*fn (\w+)")
TRAIT = re.compile(r"^(pub )?trait (\w+)")
TYPE = re.compile(r"^(?:pub(?:\(\w+\))? )?(?:struct|enum) (\w+)", re.MULTILINE)
PUBLIC_TRAIT = re.compile(r"^pub trait (\w+)", re.MULTILINE)
PUBLIC_MODULE = re.compile(r"^pub mod (\w+)", re.MULTILINE)
PUBLIC_USE = re.compile(r"^pub use (\w+)(?:::\w+)*::(\{[^}]*\}|\w+)", re.MULTILINE)


@dataclasses.dataclass(frozen=True)
class Function:
    """A function by its lines in a file, from 1 on. `owner` is the type or trait whose method it is."""

    file: str
    first: int
    last: int
    name: str
    owner: str | None
    exported: bool
    changes: bool

    @property
    def title(self):
        return f"{self.owner}::{self.name}" if self.owner else self.name


def without_generics(text):
    """The text without what stands between `<` and `>`."""
    depth, kept = 0, []
    for letter in text:
        depth += letter == "<"
        if depth == 0:
            kept.append(letter)
        depth -= letter == ">"
    return "".join(kept)


def owner_of(header):
    """The trait and the type of the header of an `impl`; no trait where the methods are the type's own."""
    words = without_generics(header.removeprefix("unsafe ").removeprefix("impl")).split("{")[0].split(" where ")[0]
    trait, separate, owner = words.partition(" for ")
    if not separate:
        trait, owner = "", words
    return trait.strip().split("::")[-1], owner.strip().split("::")[-1].lstrip("&")


def joined(lines, start, is_last):
    """The lines from `start` to the first one that is the last, as one text."""
    text = []
    for line in lines[start:]:
        text.append(line.strip())
        if is_last(text[-1]):
            break
    return " ".join(text)


def ends_signature(line):
    return line.startswith(("requires", "ensures", "where", "{")) or line.endswith(("{", ";", "}"))


def end_of(lines, start, indent):
    """The index of the last line of the function that begins at `start` with this indent."""
    if lines[start].endswith(("}", ";")):
        return start
    for number in range(start + 1, len(lines)):
        if lines[number].rstrip() == indent + "}":
            return number
        if FUNCTION.match(lines[number]):
            return number - 1
    return len(lines) - 1


@functools.cache
def public_traits(crates):
    """The names of the traits that the crates declare in the open."""
    return frozenset(name for file in crates.glob("*/src/**/*.rt") for name in PUBLIC_TRAIT.findall(file.read_text()))


class Crate:
    """A crate by its folder."""

    def __init__(self, folder):
        self.name = folder.name
        self.folder = folder
        self.files = {str(file.relative_to(folder)): file.read_text() for file in sorted((folder / "src").rglob("*.rt"))}
        front = self.files.get("src/lib.rt", "")
        self.open_modules = set(PUBLIC_MODULE.findall(front))
        self.used = {(module, name) for module, names in PUBLIC_USE.findall(front) for name in re.findall(r"\w+", names)}
        self.types = {(module_of(file), name) for file, text in self.files.items() for name in TYPE.findall(text)}
        self.functions = [function for file in self.files for function in self.functions_in(file)]

    @property
    def exported(self):
        return [function for function in self.functions if function.exported]

    def is_named(self, module, name):
        """Whether another crate can name what a module declares in the open."""
        return module in self.open_modules | {"lib"} or (module, name) in self.used

    def is_reachable(self, owner):
        """Whether another crate can have a value of the type. One of another crate, or any type, is reachable."""
        places = [module for module, name in self.types if name == owner]
        return not places or any(self.is_named(module, owner) for module in places)

    def functions_in(self, file):
        lines, module = self.files[file].split("\n"), module_of(file)
        block, trait, owner, declares = None, None, None, False
        for number, line in enumerate(lines):
            if line.startswith(("impl", "unsafe impl")):
                trait, owner = owner_of(joined(lines, number, lambda text: "{" in text))
                block, declares = number, False
            elif declared := TRAIT.match(line):
                trait, owner, block, declares = declared[2], declared[2], number, True
            elif line.startswith("}"):
                block = None
            if found := FUNCTION.match(line):
                indent, public, name = found.groups()
                is_method = block is not None and indent != ""
                signature = joined(lines, number, ends_signature)
                yield Function(
                    file=file,
                    first=number + 1,
                    last=end_of(lines, number, indent) + 1,
                    name=name,
                    owner=owner if is_method else None,
                    exported=self.is_exported(module, public == "pub ", name, trait, owner, declares and not is_bare(lines, number))
                    if is_method
                    else public == "pub " and self.is_named(module, name),
                    changes="&mut" in signature.split("ensures")[0],
                )

    def is_exported(self, module, is_public, name, trait, owner, is_provided):
        """Whether another crate can call a method."""
        if trait == owner:
            return is_provided and self.is_named(module, trait)
        if trait:
            return trait in public_traits(self.folder.parent) and self.is_reachable(owner)
        return is_public and self.is_reachable(owner)

    def function_at(self, file, text):
        """The function with the line of this text, which has to be in the file once, or `None` outside of all."""
        lines = self.files[file].split("\n")
        tests = (text.__eq__, lambda line: line.strip() == text.strip(), lambda line: text in line)
        found = next((hits for test in tests if (hits := [n for n, line in enumerate(lines, 1) if test(line)])), [])
        if len(found) != 1:
            raise LookupError(f"{self.name} {file} has {len(found)} lines {text.strip()!r}")
        return next((one for one in self.functions if one.file == file and one.first <= found[0] <= one.last), None)


def is_bare(lines, number):
    """Whether a method of a trait is declared without a body."""
    for line in lines[number:]:
        if line.strip() == "{" or (line.endswith("{") and not line.strip().startswith(("requires", "ensures"))):
            return False
        if line.endswith(";"):
            return True
    return True


def module_of(file):
    return pathlib.PurePath(file).parts[1].removesuffix(".rt")


def crates(top=TOP):
    """The crates with sources, by name."""
    folders = sorted(folder for folder in (top / "crates").iterdir() if (folder / "src").is_dir())
    return [Crate(folder) for folder in folders]
