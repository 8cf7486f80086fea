"""The forms of the notation as a table, items with their places, and what is wrong with a line whose fault `ffox` named: which word it
is, what could stand there, and a hint. `explain` prints it. The rules are those of docs/NOTATION.md.
"""
import difflib
import re

KINDS = {
    "open": (["ADDRESS"], "open http://a.com/"), "go": (["NUMBER", "ADDRESS"], "go 0 http://a.com/"), "link": (["NUMBER", "NUMBER"], "link 0 0"),
    "close": (["NUMBER"], "close 0"), "type": (["NUMBER", "NUMBER", "STRING"], 'type 0 0 "text"'), "click": (["NUMBER", "NUMBER"], "click 0 0"),
    "reply": (["DOMAIN", "NUMBER", "RESPONSE"], 'reply a.com 0 (doc () (text t "hi"))')}
VERBS = {"arrive": "arrive LINE", "turn": "turn LEVEL", "drain": "drain", "back": "back", "show": "show LEVEL"}
DOCUMENTS = {
    "text": '(text NAME "..")', "link": '(link NAME http://a.com/ "..")', "box": '(box NAME ".." HANDLER..)', "button": '(button NAME ".." HANDLER..)',
    "script": "(script NAME E)", "src": "(src NAME http://a.com/s)", "div": "(div NAME DOCUMENT..)"}
RESPONSES = {"doc": "(doc (COOKIE..) DOCUMENT..)", "script": "(script (COOKIE..) E)", "data": '(data (COOKIE..) "..")'}
COOKIES = {"set": '(set "key" "value")', "del": '(del "key")'}
SPECIAL = {
    "let": "(let VARIABLE E)", "set": "(set VARIABLE E)", "if": "(if E E E)", "while": "(while E E)", "do": "(do E..)", "and": "(and E E)", "or": "(or E E)",
    "fn": "(fn (VARIABLE..) E)", "call": "(call E E..)", "new": "(new DOCUMENT)"}
OPERANDS = {0: "self", 1: "not len str num cookie del-cookie opener live url page window open close kind text count",
            2: "+ - * / % < <= = cat byte set-cookie open-named go set-text child find listen", 3: "cut nth insert ask"}
OPERATORS = {name: "(%s)" % " ".join([name] + ["E"] * count) for count, names in OPERANDS.items() for name in names.split()}
EXPRESSIONS = {**SPECIAL, **OPERATORS}
# Words of other languages, and what stands for them here.
ELSEWHERE = {
    "alert": "what a page shows are its parts: (set-text NODE ..)", "fetch": '(ask "http://a.com/x" BODY (fn (r) ..)) asks a server', "var": "(let x E)", "const": "(let x E)",
    "function": "(fn (x) E)", "lambda": "(fn (x) E)", "for": "(while E E)", "begin": "(do E..)", "progn": "(do E..)", "define": "(let x E)", "setq": "(set x E)", "concat": "(cat E E)",
    "==": "(= E E)", "!=": "(not (= E E))", ">": "(< E E) with its operands the other way round", ">=": "(<= E E) with its operands the other way round",
    "&&": "(and E E)", "||": "(or E E)", "!": "(not E)", "++": "(cat E E)", "html": "(doc () ..)", "p": '(text NAME "..")', "span": '(text NAME "..")',
    "a": '(link NAME http://a.com/ "..")', "input": '(box NAME "..")', "cookie": '(set "key" "value") among the cookies of a response'}
ITEM = re.compile(rb'(?P<blank> +)|(?P<open>\()|(?P<close>\))|(?P<string>"(?:[^"\\]|\\.)*"?)|(?P<word>[^\s()"]+)|(?P<other>.)', re.S)


class Found:
    """A fault: the byte, how many columns are marked, and what there is to say."""

    def __init__(self, byte, length, *said):
        self.byte, self.length, self.said = byte, max(1, length), [text for text in said if text]


class Item:
    """An item of a line with the byte at which it begins; a list has its parts."""

    def __init__(self, byte, text="", parts=None, parent=None):
        self.byte, self.text, self.parts, self.parent = byte, text, parts, parent

    def head(self):
        return self.parts[0].text if self.parts and self.parts[0].parts is None else ""

    def sort(self):
        if self.parts is not None:
            return "a list"
        return "a string" if self.text.startswith('"') else "the number `%s`" % self.text if re.fullmatch(r"-?\d+", self.text) else "the word `%s`" % self.text


def items(line):
    """The items of a line, as far as it can be read."""
    raw, top = line.encode("utf-8", "surrogateescape"), Item(0, parts=[])
    here = top
    for found in ITEM.finditer(raw):
        text = found[0].decode("utf-8", "surrogateescape")
        if found["open"]:
            new = Item(found.start(), parts=[], parent=here)
            here.parts.append(new)
            here = new
        elif found["close"]:
            here = here.parent or here
        elif found["string"] or found["word"]:
            here.parts.append(Item(found.start(), text, parent=here))
    return top


def at(item, byte):
    """The item that begins at a byte."""
    for part in item.parts or ():
        if part.byte == byte:
            return part
        found = at(part, byte) if part.parts is not None and part.byte < byte else None
        if found:
            return found
    return None


def near(word, words):
    found = difflib.get_close_matches(word, list(words), 1, 0.55)
    return " Did you mean `%s`?" % found[0] if found else ""


def parted(count):
    return "1 part" if count == 1 else "%d parts" % count


def address_fault(text, domain=False):
    """What is wrong with an address, or with a domain, and how it should be."""
    if text.startswith('"'):
        return "%s is a string: an address stands without quotation marks here" % text
    if domain and "://" in text:
        return "`%s` is an address: a reply names the domain alone, as %s" % (text, text.split("://")[1].split("/")[0])
    if not domain:
        if text.startswith("https:"):
            return "`%s`: there is no https here; an address begins with http://" % text
        if not text.startswith("http://"):
            return "`%s` has no scheme: write http://%s" % (text, text.split("://")[-1])
        text, whole = text[7:].partition("/")[0], text
        if ":" in text:
            return "`%s` has a port: there are none; http://%s" % (whole, text.split(":")[0])
        if "#" in whole:
            return "`%s` has a fragment: what stands from # on isn't sent to a server; leave it out" % whole
        if "@" in text:
            return "`%s` names a user: there are none" % whole
    if re.search(r"[A-Z]", text):
        return "`%s` has a capital letter: a domain is in small letters" % text
    if not re.fullmatch(r"[a-z0-9-]+(\.[a-z0-9-]+)*", text) or len(text) > 253:
        return "`%s` is no domain: labels of small letters, digits and -, joined by dots" % text
    if any(part.startswith("-") or part.endswith("-") or len(part) > 63 for part in text.split(".")):
        return "`%s`: a label of a domain has at most 63 bytes, and - neither first nor last" % text
    return "`%s` has a byte that may not stand in a request text, or over 2,048 of them" % (text if domain else whole)


def number_fault(text):
    if text.startswith("-"):
        return "`%s` is below 0: windows, boxes, buttons, links and requests are counted from 0" % text
    if text.isdigit() and text[0] == "0":
        return "`%s` begins with 0: write %d" % (text, int(text))
    return "`%s` is too large: a number is below 4294967296" % text if text.isdigit() else "`%s` is no number: digits alone" % text


# What is wrong with a line.

def fault(line, what, place, levels):
    """What is wrong with a line of a trace, of which `ffox` says what, and where it says so."""
    if what.startswith("text "):
        return text_fault(line, what[5:], place)
    top = items(line)
    parts = top.parts
    tag = parts[0] if parts and parts[0].text.startswith("@") else None
    rest = parts[1:] if tag else parts
    if what == "bad command":
        return command_fault(rest, levels)
    if what == "unknown level":
        name = tag.text[1:]
        hint = "the name stands right behind the @" if not name else "the policy has %s.%s" % (", ".join(levels()), near(name, levels()))
        return Found(tag.byte, len(tag.text), "`%s` names no level: %s" % (tag.text, hint))
    if what == "unknown kind":
        return kind_fault(tag, rest)
    if what.startswith("syntax ") and place is not None:
        return syntax_fault(top, what[7:], place)
    kind, given = rest[0].text, rest[1:]
    wanted, example = KINDS[kind]
    if what == "wrong count":
        return Found(rest[0].byte, len(kind), "`%s` has %s after it, and here %s: %s %s, as in: %s" % (
            kind, parted(len(wanted)), "is 1" if len(given) == 1 else "are %d" % len(given), kind, " ".join(wanted), example))
    if what == "bad number":
        bad = next((part for part, sort in zip(given, wanted) if sort == "NUMBER" and not re.fullmatch(r"0|[1-9]\d{0,9}", part.text)), given[0])
        return Found(bad.byte, len(bad.text), number_fault(bad.text) if bad.parts is None else "a list stands where a number should")
    if what == "bad address":
        bad = next(part for part, sort in zip(given, wanted) if sort in ("ADDRESS", "DOMAIN"))
        return Found(bad.byte, len(bad.text), address_fault(bad.text, kind == "reply") if bad.parts is None else "a list stands where an address should")
    return Found(0, 1, "")


def kind_fault(tag, rest):
    if not rest:
        return Found(tag.byte, len(tag.text), "after the tag `%s` an input should stand, as in: %s open http://a.com/" % (tag.text, tag.text))
    first = rest[0]
    verb = "; `%s` is a command of `travel`" % first.text if first.text in VERBS else ""
    if first.parts is not None:
        return Found(first.byte, 1, "a line begins with a word: %s" % ", ".join(KINDS), "a page stands whole on the line of its reply")
    return Found(first.byte, len(first.text), "`%s` is no kind of input%s.%s There are %s" % (first.text, verb, near(first.text, KINDS), ", ".join(KINDS)))


def command_fault(rest, levels):
    if not rest:
        return Found(0, 1, "a command is missing: %s" % ", ".join(VERBS.values()))
    first = rest[0]
    if first.text in KINDS:
        return Found(first.byte, len(first.text), "`%s` is an input: under `travel` it comes by `arrive %s`" % (first.text, KINDS[first.text][1]))
    if first.text not in VERBS:
        return Found(first.byte, len(first.text), "`%s` is no command.%s There are %s" % (first.text, near(first.text, VERBS), ", ".join(VERBS.values())))
    if first.text in ("drain", "back"):
        return Found(rest[1].byte if rest[1:] else first.byte, len(rest[1].text) if rest[1:] else 1, "`%s` stands alone" % first.text)
    if first.text == "arrive":
        return Found(first.byte, 6, "after `arrive` an input stands, as in: arrive open http://a.com/")
    if len(rest) != 2:
        return Found(first.byte, len(first.text), "`%s` has the name of one level after it: %s" % (first.text, ", ".join(levels())))
    return Found(rest[1].byte, len(rest[1].text), "`%s` is no level of the policy: it has %s.%s" % (rest[1].text, ", ".join(levels()), near(rest[1].text, levels())))


def text_fault(line, what, place):
    """A fault of the text: what isn't closed, what may not stand there."""
    raw = line.encode("utf-8", "surrogateescape")
    rest = raw[place:].decode("utf-8", "replace")
    letter = rest[:1]
    if what == "bad-byte":
        if letter == "\r":
            return Found(place, 1, "the line ends with a carriage return: the file has the line ends of another system (`tr -d '\\r'` takes them away)")
        if letter == "\t":
            return Found(place, 1, "a tabulator: blanks alone stand between items, and \\t stands for one in a string")
        name = "`%s`" % letter if letter.isprintable() else "the byte 0x%02X" % raw[place]
        return Found(place, 1, "%s may not stand here: outside of strings there are visible letters of ASCII alone, in them no raw control characters" % name)
    if what == "bad-escape":
        return Found(place, 2, "`%s` is no escape: there are \\\" \\\\ \\n \\t and \\xHH, with two small digits of which the first is 0 to 7" % rest[:2])
    if what == "unclosed":
        if letter == '"':
            return Found(place, len(line), "the string that begins here is not closed before the line ends")
        return Found(place, 1, "this parenthesis is not closed before the line ends: a page stands whole on one line (scripts/serve folds it for you)")
    if what == "extra":
        return Found(place, 1, "this parenthesis closes nothing: there is one too many, or one to open is missing before it")
    if what == "bad-utf8":
        return Found(place, 1, "the value of the string that begins here is no UTF-8")
    return Found(place, 1, "lists nest at most 64 deep, and here is the 65th")


def syntax_fault(top, what, place):
    """A fault of a document, a response or an expression."""
    bad = at(top, place)
    if bad is None:
        return Found(place, 1, "")
    parent = bad.parent
    form, names = forms_at(bad.parts and bad or bad, what)
    if what == "head":
        word = bad.text if bad.parts is None else bad.head()
        if bad.parts is not None and not bad.parts:
            return Found(place, 2, "an empty list is no %s: there are %s" % (form, " ".join(names)))
        if bad.parts is not None:
            return Found(place, 1, "a list may not stand first in a list: a function is called by (call F ..)")
        elsewhere = ELSEWHERE.get(word)
        return Found(place, len(word), "`%s` is no %s.%s There are %s" % (word, form, "" if elsewhere else near(word, names), " ".join(names)), elsewhere and "here it is " + elsewhere)
    if what == "count":
        return count_fault(bad)
    if what == "name":
        twice = parent is not None and [part.text for part in parent.parts].count(bad.text) > 1
        return Found(place, len(bad.text), "`%s` stands twice among the parameters" % bad.text if twice else
                     "`%s` is a word of the notation, and no variable" % bad.text if bad.text in ("null", "true", "false") else
                     "`%s` is no name: a letter or _, and then letters, digits, _ or -, 64 bytes in all" % bad.text)
    if what == "number":
        return Found(place, len(bad.text), "`%s` is no number: no zeros before it, and from -2^63 to 2^63 - 1" % bad.text)
    if what == "url":
        return Found(place, len(bad.text), address_fault(bad.text))
    return place_fault(bad)


def context(item):
    """Whether an item stands as a document, a response, a cookie or an expression."""
    parent = item.parent
    if parent is None or parent.parent is None:
        return "response"
    outer, head = context(parent), parent.head()
    index = next(k for k, part in enumerate(parent.parts) if part is item)
    if outer == "response":
        return "cookies" if index == 1 else "document" if head == "doc" else "expression"
    if outer == "cookies":
        return "cookie"
    if outer == "document":
        return "document" if head == "div" else "expression"
    return "document" if head == "new" else "expression"


def forms_at(bad, what):
    """The sort of form that should stand where an item does, and the words that may head it."""
    lists = bad if bad.parts is not None and what != "head" else bad.parent if bad.parts is None else bad
    sort = context(lists) if lists is not None and lists.parent is not None else "response"
    table = {"document": DOCUMENTS, "response": RESPONSES, "cookie": COOKIES, "cookies": COOKIES, "expression": EXPRESSIONS}[sort]
    word = {"document": "part of a page", "response": "answer of a server", "cookie": "entry of cookies", "cookies": "entry of cookies", "expression": "form or operator of a script"}[sort]
    return word, table


def count_fault(bad):
    """A list with another number of parts than its form has."""
    if bad.parent is not None and bad.parent.head() == "fn" and bad.parent.parts[1:2] == [bad]:
        return Found(bad.byte, 1, "a handler, and a callback, is a function of one parameter: (fn (n) E), and here are %d" % len(bad.parts))
    head, sort = bad.head(), context(bad)
    table = {"document": DOCUMENTS, "response": RESPONSES, "cookie": COOKIES, "expression": EXPRESSIONS}.get(sort, EXPRESSIONS)
    form = table.get(head, "")
    more = {"if": "there is no `if` without its third part: null may stand there", "text": "the first is its name, by which scripts find it" if sort == "document" else "",
            "let": "the value is missing: null may stand there"}.get(head, "")
    most = "a box or a button has at most 16 handlers" if head in ("box", "button") and len(bad.parts) > 19 else ""
    return Found(bad.byte, 1, "`%s` has %s after it here, and is %s" % (head, parted(len(bad.parts) - 1), form), most or more)


def place_fault(bad):
    """An item of another sort than should stand there."""
    parent = bad.parent
    index = next(k for k, part in enumerate(parent.parts) if part is bad)
    length = len(bad.text) if bad.parts is None else 1
    if parent.parent is None:
        line_kind = next((part.text for part in parent.parts if part.text in KINDS), "")
        wanted = KINDS.get(line_kind, ([], ""))
        return Found(bad.byte, length, "%s stands where %s should: %s" % (bad.sort(), "a string in quotation marks" if line_kind == "type" else "an answer of a server", wanted[1]))
    cookies = parent if context(parent) == "cookies" and not index else None
    if cookies is not None and bad.parts is None:
        return Found(cookies.byte, 1, "the list of cookies is missing before this: () where the answer sets none, as in (%s () ..)" % cookies.parent.head())
    if context(parent) == "response" and index == 1:
        return Found(bad.byte, length, "the list of cookies is missing before it: () where the answer sets none, as in %s" % {
            "doc": '(doc () (text t "hi"))', "script": "(script () null)", "data": '(data () "x")'}.get(parent.head(), "(doc () ..)"))
    first = bad.head() if bad.parts is not None else ""
    if context(parent) == "response" and index > 1 and parent.head() == "doc" or context(parent) == "document" and parent.head() == "div":
        return Found(bad.byte, length, "%s stands where a part of a page should: %s" % (bad.sort() if not first else "`(%s ..)`" % first, " ".join(DOCUMENTS.values())))
    table = {"document": DOCUMENTS, "response": RESPONSES, "cookie": COOKIES}.get(context(parent), EXPRESSIONS)
    return Found(bad.byte, length, "%s stands where something else should: %s" % (bad.sort(), table.get(parent.head(), "")))


def rule_fault(line, what, levels):
    """What is wrong with a rule of a release."""
    if what.startswith("text "):
        found = re.match(r"text (\S+)(?: at (\d+))?", what)
        return text_fault(line, found[1], int(found[2] or 0))
    parts = items(line).parts
    if what == "unknown level":
        bad = parts[1]
        return Found(bad.byte, len(bad.text), "`%s` is no level of the policy: it has %s.%s" % (bad.text, ", ".join(levels()), near(bad.text, levels())))
    if what == "too many":
        return Found(0, len(line), "there are at most 64 rules, and this is the 65th")
    checks = [(lambda text: text in KINDS, "`%%s` is no kind: %s." % ", ".join(KINDS)), (lambda text: re.fullmatch(r"[A-Za-z][\w-]*", text), "`%s` is no name of a level"),
              (lambda text: re.fullmatch(r"0|[1-9]\d*", text) and int(text) < 1 << 32, "`%s` is no quota: a number below 4294967296, without a sign or zeros before it"),
              (lambda text: text in ("whole", "masked"), "`%s` is no form: `whole` or `masked`")]
    for part, (fine, text) in zip(parts, checks):
        if not fine(part.text):
            return Found(part.byte, len(part.text), text % (part.text or "a list") + (near(part.text.lower(), KINDS) if "kind" in text else near(part.text, ("whole", "masked")) if "form" in text else ""))
    return Found(0, len(line), "a rule has four words, and here are %d: %s" % (len(parts), "its form, `whole` or `masked`, is missing" if len(parts) == 3 else "one a line"))
