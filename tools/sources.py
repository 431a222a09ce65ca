"""What the crates have: the names that their files declare, their public calls, laws and edits, the requests answered."""
import re
from functools import cache
from pathlib import Path

ROOT = Path(__file__).resolve().parent.parent
CRATES = re.findall(r"^(\w+)(?: [^:#]*)?:", (ROOT / "crates.txt").read_text(), re.M)
FUNCTION = r'(?:pub(?:\(crate\))? )?(?:extern "C" )?fn '


@cache
def read(path):
    return path.read_text() if path.is_file() else ""


def code(path):
    """A source file without its tests, which stand last in it."""
    return read(path).split("#[cfg(test)]")[0]


@cache
def declared(path):
    """The names that a file declares; of what stands inside another thing, only what is pub."""
    if path.suffix == ".rt":
        return set(re.findall(rf"^ *(?:{FUNCTION}|(?:pub(?:\(crate\))? )?(?:struct|enum|const) )(\w+)", read(path), re.M))
    form = r"^( *)((?:(?:pub|unfoldable|abbrev) )*)(?:(?:record|data|ruleset) ([^\s:]+)|([^\s:(){}]+) :)"
    found = re.findall(form, read(path), re.M)
    return {thing or name for indent, marks, thing, name in found if not indent or "pub" in marks}


@cache
def known():
    """Every name that a crate declares, the cases of its enums, and those of the library's that answer."""
    code, proofs = (sorted(ROOT.glob(f"crates/**/*.{suffix}")) for suffix in ("rt", "antt"))
    cases = {case for file in code for case in re.findall(r"^    ([A-Z]\w+)(?:\(.*\)| = \d+| \{.*\})?,$", read(file), re.M)}
    return cases.union(("Option", "Some", "None", "Result", "Ok", "Err"), *map(declared, code + proofs))


@cache
def named():
    """Every name in snake case that a page may write: also those of crates, of edits, and of the commands of the bench."""
    commands = re.findall(r"^  (\w+)  ", read(ROOT / "tickmallet"), re.M)
    return known().union(CRATES, commands, *map(edits, CRATES))


@cache
def calls(crate):
    """The public calls of a library, each with its head: of lib.rt, of public modules, re-exported, methods, for C."""
    src, found = ROOT / "crates" / crate / "src", {}
    lib = read(src / "lib.rt")

    def take(text, path, only=None, form="pub fn "):
        for name, head in re.findall(rf"^ *{form}(\w+)\b(.*?\{{)$", text, re.M | re.S):
            if not only or name in only:
                found[path + name] = head

    take(re.sub(r"^ .*pub fn", "", lib, flags=re.M), "")
    for module in re.findall(r"^pub mod (\w+);", lib, re.M):
        take(read(src / f"{module}.rt"), f"{module}::")
    for module, names in re.findall(r"^pub use (\w+)::\{?([\w, ]+)\}?;", lib, re.M):
        take(re.sub(r"^ .*pub fn", "", read(src / f"{module}.rt"), flags=re.M), "", names.split(", "))
    for file in sorted(src.glob("*.rt")) if lib else []:
        take(read(file), "", form='pub extern "C" fn ')
        for kind, body in re.findall(r"^impl(?:<.*?>)? (\w+).*?\{\n(.*?)^\}", read(file), re.M | re.S):
            take(body, f"{kind}::")
    return found


@cache
def laws(crate):
    text = read(ROOT / "crates" / crate / "proofs/Determined.antt")
    return set(re.findall(r"^ *pub (\S+_determined) :", text, re.M))


def law_of(call):
    """The names that the law of a call may have."""
    plain = call.removeprefix("tickmallet_").lower()
    return {f"{plain.replace('::', '_')}_determined", f"{plain.split('::')[-1]}_determined"}


@cache
def edits(crate):
    return {file.stem for file in (ROOT / "crates" / crate / "must-fail").glob("*.edit")}


def clauses(text):
    """The stretches of a source text that are no code: promises, demands, and what is used for them."""
    for start in re.finditer(r"^ *(ensures|requires|ghost)\b", text, re.M):
        end, depth = start.end(), 0
        while end < len(text) and not (depth == 0 and text[end - 1] in "};"):
            depth += {"{": 1, "}": -1}.get(text[end], 0)
            end += 1
        yield start.start(), end


@cache
def is_code(crate, edit):
    """Whether an edit changes code alone, and no definition and no promise."""
    folder, file = ROOT / "crates" / crate, ""
    for line in read(folder / "must-fail" / f"{edit}.edit").splitlines():
        file = line.removeprefix("file: ") if line.startswith("file: ") else file
        if line.startswith("old: "):
            text, old = read(folder / file), line.removeprefix("old: ")
            at = text.find(old)
            if not file.startswith("src/") or any(start < at + len(old) and at < end for start, end in clauses(text)):
                return False
    return True


def requests():
    """The names that the crates ask_... match, of those that answer hands to one of them."""
    sources = "\n".join(read(file) for file in sorted(ROOT.glob("crates/ask_*/src/*.rt")))
    heads = re.findall(r'^ *((?:b"\w+" \| )*b"\w+") => ask_', read(ROOT / "crates/answer/src/request.rt"), re.M)
    heads = {head for arm in heads for head in re.findall(r'b"(\w+)"', arm)}
    return {name for name in re.findall(r'^ *b"(\w+\.\w+)" =>', sources, re.M) if name.split(".")[0] in heads}
