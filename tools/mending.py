"""Proof files brought from the goals of old code to those of new code."""
import re

from places import pieces

def align(old, new, score):
    """Which of `new` each of `old` is, in order: the matching of the highest score, the first of several."""
    pair = [[score(a, b) for b in new] for a in old]
    best = [[0] * (len(new) + 1) for _ in range(len(old) + 1)]
    for i in reversed(range(len(old))):
        for j in reversed(range(len(new))):
            best[i][j] = max(best[i + 1][j], best[i][j + 1], pair[i][j] and pair[i][j] + best[i + 1][j + 1])
    found, at = [], 0
    for i in range(len(old)):
        fits = (j for j in range(at, len(new)) if pair[i][j] and pair[i][j] + best[i + 1][j + 1] == best[i][at])
        found.append(next(fits, None))
        at = at if found[i] is None else found[i] + 1
    return found

def match(old, new, evidence, taste):
    """As align, and whether it is certain: the evidence leaves no choice. Where it leaves one, taste decides."""
    last = [None if j is None else len(new) - 1 - j for j in align(old[::-1], new[::-1], evidence)][::-1]
    both = zip(align(old, new, evidence), last, align(old, new, taste))
    return [(chosen, first == last == chosen) for first, last, chosen in both]

def match_goals(was, now):
    """Of each goal of the old code: its name now, or None, and whether it is certain. A name that both have stays, but one of a family that
    is counted, as returns-2, where the family has more members now or fewer."""
    family = lambda goals, base: [goal.name for goal in goals if goal.base == base]
    stays = {goal.name for goal in was if goal.name in {one.name for one in now} and family(was, goal.base) == family(now, goal.base)}
    evidence = lambda a, b: int(a.name == b.name if {a.name, b.name} & stays else a.kind == b.kind)
    taste = lambda a, b: 100 + 10 * (a.about == b.about) + 2 * (a.name == b.name) if evidence(a, b) else 0
    found = {}
    for goal, (j, sure) in zip(was, match(was, now, evidence, taste)):
        # the same code under both says that it is one goal
        same = j is not None and goal.about and goal.about == now[j].about and [one.about for one in now if one.kind == goal.kind].count(goal.about) == 1
        found[goal.name] = (None, True) if j is None else (now[j].name, sure or same)
    return dict(found, **{name: (name, True) for name in stays})


class Mended:
    """A proof file brought from the old goals and steps to the new ones, and the lines that say how."""
    def __init__(self, text, was, now, old_steps, new_steps):
        self.lines, self.left = [], 0
        parts = pieces(text)
        answered = [goal for _, goal in parts if goal]
        names, old = [goal.name for goal in now], {goal.name for goal in was}
        pairs = match_goals(was, now)
        renamed, gone = {}, set()
        for goal in answered:
            to, sure = pairs.get(goal, (goal, True))
            if goal not in old:  # an answer that was written, or brought over, since
                if goal not in names:
                    self.leave(goal, "no goal has this name, neither before nor now")
            elif to is None:
                gone.add(goal)
                self.lines.append("  %s: the goal is gone" % goal)
            elif to != goal and to in answered and to not in old:
                self.leave(goal, "is %s now, which is answered already" % to)
            elif to != goal:
                renamed[goal] = to
                self.say(goal, to, sure)
        # a goal of clauses is answered whole, or clause by clause
        whole = lambda name: name.partition("-clause-")[0]
        there = {renamed.get(goal, goal) for goal in answered} - gone
        known = {to for to, _ in pairs.values()} | there | {whole(name) for name in names if whole(name) != name}
        self.fresh = [name for name in names if name not in known and whole(name) not in there]
        self.lines += ["  %s: the goal is new" % name for name in self.fresh]
        kept = "".join(text for text, goal in parts if goal not in gone)
        steps = self.moved_steps(kept, old_steps, new_steps)
        self.text = re.sub(STEP, lambda m: m.group(1) + steps.get(m.group(2), m.group(2)), rename(kept, renamed))
        self.is_empty = not re.search(r"^(?!--|use |pub use )\S[^\n]* : ", kept, re.M)
        guessed = sum(line[0] == "?" for line in self.lines)
        self.counts = len(renamed) + len(steps), guessed, len(gone), len(self.fresh), self.left

    def say(self, name, to, sure):
        self.lines.append("%s %s: is %s now" % (" " if sure else "?", name, to))

    def leave(self, name, what):
        self.left += 1
        self.lines.append("! %s: %s" % (name, what))

    def moved_steps(self, text, old, new):
        """The steps that the text cites and that have another name now."""
        pairs, there, found = match_goals(old, new), {step.name for step in new}, {}
        for step in dict.fromkeys(m.group(2) for m in re.finditer(STEP, text)):
            to, sure = pairs.get(step, (step, True))
            if to is None:
                self.leave("c." + step, "the step is gone; there is: %s" % " ".join("c." + one.name for one in new))
            elif to != step and step not in there:
                found[step] = to
                self.say("c." + step, "c." + to, sure)
        return found

# c.STEP, or w.STEP in a branch
STEP = r"((?<![\w.'·+-])[cw]\.)([^\s(){},;.]+)"

def rename(text, renamed):
    """The answers' new names, all at once: where they are declared, as goals, and where one answer cites another."""
    if not renamed:
        return text
    any_of = "|".join(re.escape(name) for name in sorted(renamed, key=len, reverse=True))
    # what stands behind c. or w. or l. is a step or a variable, and no answer
    return re.sub(r"((?<![\w.'·+-])(?![cwl]\.)\w+\.|(?<![\w.'·+-]))(%s)(?![\w'·+-])" % any_of, lambda m: m.group(1) + renamed[m.group(2)], text)
