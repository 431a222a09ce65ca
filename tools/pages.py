"""The documents, in pieces: rows of tables, lines of code, paragraphs."""
import re
from functools import cache

from sources import ROOT, read

# docs/PORT.md and docs/DESIGN-PASS.md tell of what is gone.
PASSED_OVER = (ROOT / "docs/PORT.md", ROOT / "docs/DESIGN-PASS.md")
FORMS = ("*.md", "docs/*.md", "capi/*.md", "tests/*/*.md")
PAGES = [page for form in FORMS for page in sorted(ROOT.glob(form)) if page not in PASSED_OVER]
SPAN = re.compile(r"`([^`]+)`")


def name_of(path):
    return str(path.relative_to(ROOT))


@cache
def blocks(page):
    """A page in pieces (kind, where, section, text): a row of a table, a line of code, or a paragraph as one line."""
    out, section, last = [], "", ""
    for number, line in enumerate(read(page).splitlines(), 1):
        kind = "text" if line.strip() else ""
        if line.startswith("#"):
            kind, section = "", line.lstrip("# ")
        elif line.startswith("|"):
            kind = "head" if last not in ("head", "row") else "row"
        elif line.startswith("    ") and last in ("", "code"):
            kind = "code"
        if kind == last == "text" and not re.match(r" *(- |\d+\. )", line):
            out[-1][3] += " " + line.strip()
        elif kind:
            out.append([kind, f"{name_of(page)}:{number}", section, line.strip() if kind == "text" else line])
        last = kind
    return out


def rows(page):
    """The rows of a page's tables: where, section, heads of the columns, cells."""
    for kind, where, section, line in blocks(page):
        cells = [cell.strip() for cell in line.strip("| ").split("|")]
        if kind == "head":
            head = cells
        elif kind == "row" and not re.fullmatch(r"[-:| ]+", line):
            yield where, section, head, cells


def line_of(page, form):
    """Where a page has a line of this form, or else its first line."""
    found = [n for n, line in enumerate(read(page).splitlines(), 1) if re.search(form, line)]
    return f"{name_of(page)}:{(found or [1])[0]}"
