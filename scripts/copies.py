"""What each level's copy of the browser gets, where it stands, and why an input did nothing in it: what `page`, `seen`, `why`, `hunt`,
`fuzz` and `serve` share. It is worked out of the program's own answers: of `check` and `upgrade` for the policy, and of the states
that `resume` writes.

A copy is followed under a *flat* policy, of one level and the same fuel: there the program's own multi-execution is one browser.
"""
import collections
import json
import os
import re
import tempfile

import asking

SAVED = "ffox-saved 1\n"
MASKS = {"open": "open about:blank", "go": "go {0} about:blank", "type": 'type {0} {1} ""', "reply": 'reply {0} {1} (data () "")'}
MOST_WINDOWS = 64
# What a request waits for, by its destination in a saved state, and the response that it takes.
WAITS = {"win": ("a window", "doc", "a page"), "slot": ("a page", "script", "a script"), "call": ("a callback", "data", "data")}


def parted(line):
    """The tag of a canonical line, without its @, and its words."""
    words = line.split(" ")
    return (words[0][1:], words[1:]) if words[0].startswith("@") else (None, words)


def untagged(line):
    return re.sub(r"^@\S+ ", "", line)


def at_level(level, lines):
    return [line for line in lines if line.startswith(level + " ")]


# Who sees what.

class Policy:
    """Who sees what, from what the program says of the policy."""

    def __init__(self, name, folder=None):
        self.name, self.below = name, {}
        for line in asking.lines_of(asking.told(["check", name], folder)):
            words = line.split()
            self.below[words[1]] = words[3:]
        self.levels = list(self.below)
        self.value = json.loads(asking.told(["upgrade", name], folder))
        self.lowest = next(level for level in self.levels if all(level in self.below[other] for other in self.levels))
        self.top = next(level for level in self.levels if len(self.below[level]) == len(self.levels))

    def join(self, a, b):
        above = [l for l in self.levels if a in self.below[l] and b in self.below[l]]
        return next(l for l in above if all(l in self.below[m] for m in above))

    def domain_level(self, domain):
        keys = self.value["domains"]
        if domain in keys:
            return keys[domain]
        found = [key for key in keys if key.startswith(".") and domain.endswith(key)]
        return keys[max(found, key=len)] if found else self.value["domain"]

    def raising(self, line):
        """What raises the levels of an input, each with its words and its two levels: its kind, the domain that replies, its tag."""
        tag, words = parted(line)
        pair = self.value["kinds"][words[0]]
        yield "`%s`" % words[0], pair["presence"], pair["content"]
        if words[0] == "reply":
            level = self.domain_level(words[1])
            yield "what %s replies" % words[1], level, level
        if tag is not None:
            yield "what is tagged @%s" % tag, tag, tag

    def levels_of(self, line):
        """From which level on it is known that there was this input, and what it says."""
        presence = content = self.lowest
        for _, known, read in self.raising(line):
            presence, content = self.join(presence, known), self.join(content, read)
        return [presence, content]

    @staticmethod
    def mask(line):
        """The masked input of a canonical line."""
        tag, words = parted(line)
        return ("" if tag is None else "@%s " % tag) + MASKS.get(words[0], " ".join(words)).format(*words[1:])

    def seen(self, line, level):
        """What a level sees of a canonical line, or nothing."""
        presence, content = self.levels_of(line)
        if content in self.below[level]:
            return line
        return self.mask(line) if presence in self.below[level] else None

    def sees_all(self, lines):
        """Whether every level sees each of these inputs whole, so that no audit can find anything."""
        _, text, _ = asking.ask(["fmt", self.name], lines)
        return all(self.levels_of(line)[1] == self.lowest for line in asking.lines_of(text))

    def offers(self, line):
        """What each level is offered of a canonical line."""
        return {level: self.seen(line, level) for level in self.levels}

    def cause(self, line, level):
        """Why a level doesn't see an input, or not what it says: which of its parts are above the level."""
        presence, _ = self.levels_of(line)
        hidden = presence not in self.below[level]
        causes = ["%s is %s from %s on" % (what, "known" if hidden else "read", known if hidden else read)
                  for what, known, read in self.raising(line) if (known if hidden else read) not in self.below[level]]
        return " and ".join(causes) or "its parts together are at %s" % (presence if hidden else self.levels_of(line)[1])


class Rules:
    """What rules of a release offer, and how much of each is left."""

    def __init__(self, policy, lines):
        self.policy, self.rules = policy, []
        for line in lines:
            words = line.split()
            if words and not words[0].startswith("#"):
                self.rules.append([words[0], words[1], int(words[2]), words[3] == "whole", line.strip()])
        self.last = None

    def offers(self, line):
        """What each level is offered: by the first rule of use, which is kept as `last` and has one less left."""
        seen, self.last = self.policy.offers(line), None
        for rule in self.rules:
            kind, low, left, whole, text = rule
            if kind == parted(line)[1][0] and left > 0:
                given = {level: self.given(line, level, low, whole, seen[level]) for level in seen}
                if given != seen:
                    rule[2], self.last = left - 1, text
                    return given
        return seen

    def given(self, line, level, low, whole, seen):
        if low not in self.policy.below[level]:
            return seen
        return line if whole else self.policy.mask(line) if seen is None else seen


# Where copies stand.

def parts_of(state):
    """The classes of a saved state: the levels of each, and its rows."""
    found = []
    for row in asking.lines_of(state)[2:-1]:
        if row.startswith("class "):
            found.append((row.split(" ")[1:], []))
        else:
            found[-1][1].append(row)
    return found


class Flat:
    """The flat policy of a policy, in a folder, and states under it."""

    def __init__(self, policy, folder):
        value = {"version": 1, "levels": ["X"], "below": [], "ui": "X", "domain": "X", "fuel": policy.value["fuel"]}
        self.policy, self.name, self.from_file = policy, os.path.join(folder, "flat"), os.path.join(folder, "from")
        with open(self.name, "w", encoding="utf-8") as file:
            json.dump(value, file)
        text = asking.told(["upgrade", self.name]).rstrip("\n")
        self.head = SAVED + "policy %s\nclass X\n" % asking.quoted(text)

    def of(self, rows):
        """The state of one copy that has these rows."""
        return self.head + "".join(row + "\n" for row in rows) + "end\n"

    def resumed(self, state, lines):
        """The lines that inputs give from a state, or from a new browser, and the state after them."""
        return resumed(self.name, self.from_file, state, [untagged(line) for line in lines])

    def levelled(self, line):
        """A line under the flat policy as one under the policy."""
        words = line.split(" ", 3)
        return "%s %s" % (self.policy.domain_level(words[2]) if words[1] == "send" else self.policy.value["ui"], line[2:])


def resumed(policy, file, state, lines):
    """The lines that inputs give under a policy from a state, which is written to a file, and the state after them."""
    if state is not None:
        with open(file, "w", encoding="utf-8", errors="surrogateescape", newline="") as made:
            made.write(state)
    text = asking.told(["resume", policy, "-" if state is None else file], lines=lines)
    lines, _, after = text.rpartition(SAVED)
    return asking.lines_of(lines), SAVED + after


class Copy:
    """A level's copy of the browser, followed from input to input."""

    def __init__(self, flat, rows=None):
        self.flat, self.state = flat, flat.of(rows) if rows else None

    def take(self, line):
        """The lines that an input gives; where it gives none, why, and whether it changes nothing either."""
        before = self.state if self.state is not None else self.flat.resumed(None, [])[1]
        lines, self.state = self.flat.resumed(self.state, [line])
        idle = self.state == before
        why = State(parts_of(before)[0][1]).nothing(line) if not lines else ""
        return [self.flat.levelled(text) for text in lines], why or ("it changes nothing" if idle else ""), idle


class State:
    """What an input may point at in a copy, of the rows that it is saved as: the open windows with their nodes in preorder, and for
    each domain what its requests wait for, the oldest first."""

    def __init__(self, rows):
        nodes, kids, handlers, roots, pages, shown = [], {}, collections.Counter(), [], [], []
        self.asks = collections.defaultdict(list)
        for row in rows:
            word = row.split(" ", 1)[0]
            if word == "node":
                nodes.append(row.split(" ", 2)[1])
            elif word == "on":
                handlers[len(nodes) - 1] += 1
            elif word == "kids":
                kids[len(nodes) - 1] = list(map(int, row.split(" ")[1:]))
            elif word == "page":
                roots.append(int(asking.tree(row)[3]))
            elif word == "win":
                pages.append(int(row.split(" ")[1]))
            elif word == "open":
                shown = list(map(int, row.split(" ")[1:]))
            elif word == "ask":
                items = asking.tree(row)
                self.asks[items[1]].append((items[3][0], items[2]))
        self.windows = []
        for window in shown:
            found = collections.defaultdict(list)
            for node in walk(roots[pages[window]], kids):
                found[nodes[node]].append(handlers[node])
            self.windows.append(found)

    def nothing(self, line):
        """Why an input does nothing, where it points at nothing."""
        kind, *words = parted(line)[1]
        if kind == "open":
            return "%d windows are open" % MOST_WINDOWS if len(self.windows) == MOST_WINDOWS else ""
        if kind == "reply":
            return self.unasked(words[0], int(words[1]), asking.tree(" ".join(words[2:]))[0])
        window = int(words[0])
        if window >= len(self.windows):
            return "no window %d is open" % window if self.windows else "no window is open"
        node = {"link": "link", "type": "box", "click": "button"}.get(kind)
        if node is None:
            return ""
        number, found = int(words[1]), self.windows[window][node]
        if number >= len(found):
            return "window %d has no %s %d" % (window, node, number)
        return "button %d of window %d has no handler" % (number, window) if kind == "click" and not found[number] else ""

    def unasked(self, domain, number, response):
        """Why a reply does nothing: nobody waits for it, or what waits takes another sort of answer."""
        asks = self.asks[domain]
        if number >= len(asks):
            return "no request waits at %s" % domain if not asks else "no request %d waits at %s" % (number, domain)
        who, form, what = WAITS[asks[number][0]]
        return "" if response[0] == form else "%s waits there for %s" % (who, what)


def walk(node, kids):
    """The nodes at and below a node in preorder, without recursion."""
    stack = [node]
    while stack:
        node = stack.pop()
        yield node
        stack += reversed(kids.get(node, ()))


def folder():
    """A folder for the files of a run."""
    return tempfile.TemporaryDirectory(prefix="ffox-copies-")
