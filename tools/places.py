"""The goals of functions, as rt makes them, and the answers of proof files."""
import re

NAME = r"[^\s(){},;.]+"
HEAD = re.compile(r"^(?:(?:pub|abbrev|unfoldable) )*(\S+) : (\w+)\.(%s)$" % NAME, re.M)
FILES = ("Invariants.antt", "Answers.antt")


class Goal:
    """One thing that a function's proof answers, or a step of the code that it cites: its name, and the text of the code that it is about."""
    def __init__(self, name, about):
        self.name, self.about = name, about
        self.base = re.sub(r"-\d+$", "", name)
        self.kind = kind(self.base)

def kind(name):
    """What a goal is, apart from the names of the source: two of one kind can be one goal under two names."""
    name, _, clause = name.partition("-clause-")
    if clause:
        return kind(name) + " clause " + clause
    parts = name.split("-")
    if "requires" in parts[1:]:
        return "requires " + parts[0]
    if parts[-1] in ("init", "preserved", "smaller", "test"):
        return "loop " + parts[-1]
    return parts[0]

def asked(files, code):
    """The goals of the files that rt offers, by the file's name; `code` gives the lines of a source file. And the steps, in their order."""
    made = {name: with_wholes([Goal(m.group(3), about(text, m.start(), code)) for m in HEAD.finditer(text)]) for name, text in files.items() if name in FILES}
    steps = re.findall(r"^ *pub (\S+) : (?:Own|Step)-\S+ before$", files["steps"], re.M)
    return dict(made, steps=[Goal(name, "") for name in dict.fromkeys(steps) if "slice_known" not in name])

def with_wholes(goals):
    """The goals, and before those of single clauses the one of all of them together, as which they may be answered too."""
    made, names = [], set()
    for goal in goals:
        whole = goal.name.partition("-clause-")[0]
        if whole != goal.name and whole not in names:
            made.append(Goal(whole, goal.about))
        made.append(goal)
        names |= {whole, goal.name}
    return made

def about(text, at, code):
    """The code at the place that stands in the comment above a goal."""
    place = re.search(r"-- (\S+):(\d+):(\d+)\n\Z", text[:at])
    lines = code(place.group(1)) if place else []
    return lines[int(place.group(2)) - 1][int(place.group(3)) - 1:].strip() if place and int(place.group(2)) <= len(lines) else ""

def pieces(text):
    """A proof file in pieces, each as text and the goal that it answers: what stands before the first answer has None, and so has a lemma.
    Comments right above a piece are of it."""
    starts = [m.start() for m in re.finditer(r"^(?:--.*\n)*(?!--|use |pub use )\S[^\n]* : ", text, re.M)]
    made = [[text[:starts[0]] if starts else text, None]]
    for start, end in zip(starts, starts[1:] + [len(text)]):
        head = HEAD.search(text, start, end)
        made.append([text[start:end], head.group(3) if head else None])
    return made


# ---- the names that can be used at a goal

def told(said):
    """Of each function's folder and goal, after a check past holes: the lines of the names that can be used there, a step each."""
    found, lines = {}, None
    for line in said.split("\n"):
        goal = re.match(r"(?:\./)?proofs/(.+)/\w+\.antt:\d+:\d+: goal \S+ in `(\S+)`$", line)
        if goal:
            of = found.setdefault(goal.group(1), {})
            lines, listing = of.setdefault(goal.group(2), []), False
        elif not line.startswith(" "):
            lines = None
        elif lines is not None:
            line = line.strip()
            if line.startswith("names you can use"):
                listing = True
                line = line.split(":", 1)[1].strip().rstrip("..").strip() if "as in" in line else ""
            elif line.startswith(("the newest fields", "Rattle's own names", "⊢")):
                listing = False
            if listing and line and not line.startswith("by step"):
                lines += spelt(line, of)
    return found

def spelt(line, found):
    """A line of names, or those of another goal that it points to, as far as it says."""
    other = re.match(r"as in `(\S+)` above(?:, as far as (\S+))?$", line)
    if not other:
        return [line]
    lines, far = found.get(other.group(1), []), other.group(2)
    last = next((i for i, one in enumerate(lines) if one.split(":")[0] == far), len(lines) - 1)
    return lines[:last + 1]
