"""What the scripts share that ask the program and read its answers: how it is found and run, the report of `audit`, and trees of
items. A script, whose name has no ending, is taken as a module by `script`.

The program is the one that FFOX names; else that of a package, the proved one that `./build` or the gate left, or the one that
`./ffox` compiled unproved. Where there is none, `./ffox` is run once, which compiles it.
"""
import importlib.machinery
import importlib.util
import os
import re
import subprocess
import sys

TOP = os.path.dirname(os.path.dirname(os.path.abspath(__file__)))
PACKED, PROVED, KEPT = (os.path.join(TOP, *parts) for parts in (
    ["bin", "ffox"], ["crates", "ffox", "out", "ffox"], ["crates", "ffox", "out", "unproved", "ffox"]))
PROGRAM = os.path.abspath(os.environ.get("FFOX") or next((path for path in (PACKED, PROVED, KEPT) if os.path.exists(path)), KEPT))
UNPROVED = PROGRAM == KEPT
ATOM = re.compile(r'\s*(?:([()])|("(?:[^"\\]|\\.)*")|([^\s()"]+))')


def me():
    """The name of the script that runs."""
    return os.path.basename(sys.argv[0])


def ends(status, text):
    """Ends the script with one line on standard error."""
    print("%s: %s" % (me(), text), file=sys.stderr)
    sys.exit(status)


def put(text):
    """Writes to standard output, bytes that are no UTF-8 too."""
    sys.stdout.buffer.write(text.encode("utf-8", "surrogateescape"))
    sys.stdout.buffer.flush()


def script(name):
    """A script of this folder as a module."""
    sys.dont_write_bytecode = True
    loader = importlib.machinery.SourceFileLoader(name, os.path.join(TOP, "scripts", name))
    module = importlib.util.module_from_spec(importlib.util.spec_from_loader(name, loader))
    loader.exec_module(module)
    return module


# The program.

def must_be_there():
    """Sees to it that there is a program: where none is built, `./ffox` compiles one. Ends the script where there is none."""
    global PROGRAM, UNPROVED
    if not os.path.exists(PROGRAM):
        if os.environ.get("FFOX"):
            ends(2, "there is no program %s" % PROGRAM)
        if subprocess.run([os.path.join(TOP, "ffox"), "check", "-"], stdout=subprocess.DEVNULL).returncode != 0 or not os.path.exists(KEPT):
            ends(2, "there is no program; ./build proves and builds it")
        PROGRAM, UNPROVED = KEPT, True
    elif UNPROVED:
        print("%s: the program is run unproved, and slow; ./build proves it" % me(), file=sys.stderr)


def must_be_proved():
    """Ends the script where neither FFOX nor `./build` gives a program that is fast enough for it."""
    if not os.path.exists(PROGRAM) or UNPROVED:
        ends(2, "there is no proved program; ./build makes it" if not os.environ.get("FFOX") else "there is no program %s" % PROGRAM)


def ran(words, trace=b"", folder=None):
    """A run over the bytes of a trace, ended."""
    return subprocess.run([PROGRAM, *words], input=trace, capture_output=True, cwd=folder)


def ask(words, lines=(), folder=None, trace=None):
    """The status, the output and the error line of a run over these lines, or over the bytes of a trace."""
    bytes_in = "".join(line + "\n" for line in lines).encode("utf-8", "surrogateescape") if trace is None else trace
    end = ran(words, bytes_in, folder)
    return end.returncode, end.stdout.decode(), end.stderr.decode().strip()


def told(words, folder=None, lines=(), fine=(0,)):
    """What the program writes for these words over these lines. Where it ends otherwise than is fine, the script ends so."""
    status, text, fault = ask(words, lines, folder)
    if status not in fine:
        ends(status, "%s: %s" % (" ".join(words), fault.replace("ffox: ", "", 1)))
    return text


def lines_of(text):
    """The lines of a text. (`splitlines` would cut at other characters too, which may stand in a string.)"""
    return text.split("\n")[:-1] if text.endswith("\n") else text.split("\n") if text else []


def lines_in(name):
    """The lines of a file. Where it can't be read, the script ends."""
    return lines_of(bytes_in(name).decode("utf-8", "surrogateescape"))


def bytes_in(name):
    """The bytes of a file. Where it can't be read, the script ends."""
    try:
        with open(name, "rb") as file:
            return file.read()
    except OSError as fault:
        return ends(2, "%s: %s" % (name, fault.strerror))


def is_silent(line):
    """Whether a line of a trace is blank or a comment."""
    line = line.lstrip(" ")
    return not line or line.startswith("#")


def numbered(policy, trace):
    """The inputs of a trace in their canonical form, each with the number of its line; and what is said of the first bad line."""
    status, text, fault = ask(["fmt", policy], trace=trace)
    if status not in (0, 4):
        ends(status, fault.replace("ffox: ", "", 1))
    numbers = [at for at, line in enumerate(lines_of(trace.decode("utf-8", "surrogateescape")), 1) if not is_silent(line)]
    return list(zip(numbers, lines_of(text))), fault.replace("ffox: ", "", 1) if status else ""


def canonical(policy, lines):
    """The inputs of a trace in their canonical form. A bad line ends the script."""
    return lines_of(told(["fmt", policy], lines=lines))


def verdicts(report):
    """What a report of `audit` says: for each level its line, and where it differs the two lines under it."""
    said, lines = {}, lines_of(report)
    for at, line in enumerate(lines):
        found = re.match(r"([A-Za-z][\w-]*) (clean|differs at) \d+$", line)
        if found:
            said[found[1]] = lines[at:at + (1 if found[2] == "clean" else 3)]
    return said


# Items.

def tree(line):
    """The items of a line: a list is a list, a word and a string are texts as they are spelled."""
    stack, at, line = [[]], 0, line.rstrip()
    while at < len(line):
        found = ATOM.match(line, at)
        at = found.end()
        if found[1] == "(":
            stack.append([])
        elif found[1] == ")":
            last = stack.pop()
            stack[-1].append(last)
        else:
            stack[-1].append(found[2] or found[3])
    return stack[0]


def spelled(item):
    """An item as it is printed."""
    return "(%s)" % " ".join(map(spelled, item)) if isinstance(item, list) else item


def quoted(text):
    """A text as a string of the notation."""
    return '"%s"' % text.replace("\\", "\\\\").replace('"', '\\"').replace("\n", "\\n").replace("\t", "\\t")


def line_of(items):
    return " ".join(map(spelled, items))


class Progress:
    """A line on standard error: written over where that is a terminal, else one where something changed."""

    def __init__(self, quiet=False):
        self.quiet, self.live, self.last = quiet, sys.stderr.isatty(), ""

    def say(self, text, whole=True):
        """A whole line stays, any other is written over and goes to terminals alone."""
        if self.quiet or not (whole or self.live):
            return
        if self.live:
            print("\r" + text.ljust(len(self.last)), end="\n" if whole else "", file=sys.stderr, flush=True)
            self.last = "" if whole else text
        else:
            print(text, file=sys.stderr, flush=True)
