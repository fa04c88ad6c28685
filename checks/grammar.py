"""The grammar of docs/LANGUAGE.md: the program refuses a text at the very token at which that grammar has no way on, and takes each
form that the page says to write, and none that it says there isn't.

The rules are read from the page (its block ```ebnf), and texts are read by them with an Earley reader: so nothing but the page says
here what the language is. The texts are the programs of the examples and the documents, some hundred that are grown by the rules, and
some hundred made of all these by dropping, doubling, swapping and replacing tokens. Behind each stands `type type`, of which the second can
stand nowhere: a text that the grammar has is refused there and no earlier, whatever its names stand for, since the grammar is tested before
the names.
"""
import os
import random
import re
import tempfile

from harness import TOP, Rows, run

rows = Rows("grammar")
CHANGED = 300
GROWN = 100
MOST_LINES = 25
OPERATORS = "( ! - + * / % < > <= >= == != && ||".split()
SAMPLES = {"NAME": [("name", "a"), ("name", "read"), ("name", "x_1")], "NUMBER": [("number", "0"), ("number", "17")], "TEXT": [("text", '""'), ("text", '"a b"')]}

TOKEN = re.compile(r'(?P<gap>[ \t\r\n]+|#[^\n]*)|(?P<name>[a-z][a-z0-9_]*)|(?P<number>0|[1-9][0-9]*)|(?P<text>"[^"\\\n]*")|'
                   r'(?P<symbol>&&|\|\||[<>=!]=|[{}();,.=+\-*/%<>!])')


def read(*parts):
    with open(os.path.join(TOP, *parts)) as file:
        return file.read()


def fenced(page):
    """The fenced blocks of a document: what stands behind the fence, and the text."""
    return re.findall(r"(?ms)^```([^\n]*)\n(.*?)^```$", page)


PAGE = read("docs", "LANGUAGE.md")
RESERVED = set(re.search(r"\| reserved word \| `([a-z ]+)` \|", PAGE)[1].split())


def tokens_of(text):
    """The tokens of a text, as (kind, spelling)."""
    found, at = [], 0
    while at < len(text):
        token = TOKEN.match(text, at)
        assert token, text[at:at + 40]
        if token.lastgroup != "gap":
            found.append((token.lastgroup, token[0]))
        at = token.end()
    return found


class Grammar:
    """Rules as they stand on the page: `|` between choices, `[ ]` for what may be left out, `{ }` for what may come again."""

    def __init__(self, page):
        self.rules, self.again = {}, set()
        words = re.findall(r'"[^"]*"|\w+|[=;|{}()\[\]]', page)
        self.words, self.at = words, 0
        while self.at < len(words):
            name = self.take()
            self.first = getattr(self, "first", name)
            assert self.take() == "=", name
            self.rules[name] = self.choices()
            assert self.take() == ";", name

    def take(self):
        self.at += 1
        return self.words[self.at - 1]

    def choices(self):
        found = [self.sequence()]
        while self.words[self.at] == "|":
            self.take()
            found.append(self.sequence())
        return found

    def sequence(self):
        found = []
        while self.words[self.at] not in ("|", ";", ")", "]", "}"):
            word = self.take()
            if word not in ("(", "[", "{"):
                found.append(word)
                continue
            inner, name = self.choices(), f"part {self.at}"
            if word == "[":
                inner.append([])
            if word == "{":
                inner = [[], *([*choice, name] for choice in inner)]
                self.again.add(name)
            self.rules[name] = inner
            assert self.take() == {"(": ")", "[": "]", "{": "}"}[word]
            found.append(name)
        return found

    def heights(self):
        """How many rules stand in one another at least, for each rule."""
        found = {}
        while len(found) < len(self.rules):
            for name, choices in self.rules.items():
                known = [self.height(choice, found) for choice in choices if all(part in found or part not in self.rules for part in choice)]
                if known:
                    found[name] = min(known)
        return found

    def height(self, choice, heights):
        return 1 + max((heights.get(part, 0) for part in choice), default=0)

    def grown(self, random_one, name, left):
        """The tokens of a rule that is grown at random, with at most so many rules in one another where that is possible."""
        heights = self.least = getattr(self, "least", None) or self.heights()
        choices = [choice for choice in self.rules[name] if self.height(choice, heights) <= left]
        choices = choices or [min(self.rules[name], key=lambda choice: self.height(choice, heights))]
        # What may come again is left out mostly, so that texts stay short.
        picked = [] if name in self.again and random_one.random() < 0.6 else random_one.choice(choices)
        tokens = []
        for part in picked:
            if part in self.rules:
                tokens += self.grown(random_one, part, left - 1)
            elif part[0] == '"':
                tokens.append(("name" if part[1].isalpha() else "symbol", part[1:-1]))
            else:
                tokens.append(random_one.choice(SAMPLES[part]))
        return tokens

    def fits(self, word, token):
        kind, spelling = token
        if word[0] == '"':
            return word[1:-1] == spelling and kind != "text"
        return {"NAME": kind == "name" and spelling not in RESERVED, "NUMBER": kind == "number", "TEXT": kind == "text"}[word]

    def stop(self, tokens):
        """How many tokens can stand in front of some program, one behind the other."""
        sets = [{("start", (self.first,), 0, 0)}]
        for at, token in enumerate([*tokens, None]):
            here, waiting = sets[at], list(sets[at])
            ended = set()
            while waiting:
                rule, parts, dot, origin = waiting.pop()
                found = []
                if dot == len(parts):
                    if origin == at:
                        ended.add(rule)
                    found = [(r, p, d + 1, o) for r, p, d, o in sets[origin] if d < len(p) and p[d] == rule]
                elif parts[dot] in self.rules:
                    found = [(parts[dot], tuple(choice), 0, at) for choice in self.rules[parts[dot]]]
                    if parts[dot] in ended:
                        found.append((rule, parts, dot + 1, origin))
                waiting += set(found) - here
                here |= set(found)
            if token is None:
                break
            sets.append({(r, p, d + 1, o) for r, p, d, o in here if d < len(p) and p[d] not in self.rules and self.fits(p[d], token)})
            if not sets[-1]:
                return at
        return len(tokens)


def changed(random_one, tokens, others):
    """The tokens with one or two changes."""
    tokens = list(tokens)
    for _ in range(random_one.choice((1, 1, 2))):
        at = random_one.randrange(len(tokens))
        how = random_one.randrange(5)
        if how == 0:
            del tokens[at]
        elif how == 1:
            tokens.insert(at, tokens[at])
        elif how == 2:
            tokens[at - 1], tokens[at] = tokens[at], tokens[at - 1]
        elif how == 3:
            tokens[at] = random_one.choice(others)
        else:
            tokens.insert(at, random_one.choice(others))
    return tokens


def refused_at(text, folder):
    """The byte at which the program refuses a text, None where it takes it."""
    ended = run(folder, "init", given=text.encode())
    if ended.number == 0:
        return None
    found = re.fullmatch(rb"silo: bad program at (\d+)\n", ended.errors)
    return int(found[1]) if found else ended


block = re.search(r"(?ms)^```ebnf\n(.*?)^```", PAGE)[1]
rows.row("lines of the grammar", len(block.splitlines()) <= MOST_LINES, True)
grammar = Grammar(block)

# As many choices as the definition has constructors.
definition = {"statement": ("script_parser", "IsStmt"), "source": ("script_parser", "IsSource"), "place": ("script_expressions", "IsPlace")}
for name, (crate, word) in definition.items():
    body = re.search(rf"(?ms)^pub data {word} .*?(?=^\S)", read("crates", crate, "specs", "Grammar.antt") + "\nend")[0]
    constructors = re.findall(r"(?m)^  (\w+) :", body)
    rows.row(f"choices of {name} and of {word} ({' '.join(constructors)})", len(grammar.rules[name]), len(constructors))

# Each program that the page shows is one that script_tests reads; and all programs here are texts to begin with.
cases = read("crates", "script_tests", "stdin")
texts = []
for kind, shown in fenced(PAGE):
    if not kind:
        texts.append(shown)
        for line in shown.splitlines():
            line = line.split("#")[0].strip()
            rows.row(f"script_tests has {line}", line in cases, True)
for name in sorted(os.listdir(os.path.join(TOP, "examples"))):
    path = os.path.join("examples", name, f"{name}.grain")
    if os.path.exists(os.path.join(TOP, path)):
        texts.append(read(path))
for name in sorted(os.listdir(os.path.join(TOP, "docs"))):
    if name.endswith(".md"):
        texts += [shown for kind, shown in fenced(read("docs", name)) if kind.endswith(".grain")]

random_one = random.Random(7)
whole = [tokens_of(text) for text in texts]
# Grown ones have at most 32 operators and as many parentheses and prefix operators, so that none is too deep.
while len(whole) < len(texts) + GROWN:
    tokens = [*tokens_of("type a {"), *grammar.grown(random_one, "field", 9)]
    for _ in range(3):
        tokens += grammar.grown(random_one, "method", 26)
    if sum(spelling in OPERATORS for _, spelling in tokens) <= 24 and 30 <= len(tokens) <= 250:
        whole.append([*tokens, ("symbol", "}")])
whole = [tokens for tokens in whole if tokens]
every = sorted({token for tokens in whole for token in tokens})
lists = whole + [changed(random_one, random_one.choice(whole), every) for _ in range(CHANGED)]
with tempfile.TemporaryDirectory() as room:
    in_grammar = 0
    for tokens in lists:
        tokens = [*tokens, ("name", "type"), ("name", "type")]
        spelled = [spelling for _, spelling in tokens]
        stop = grammar.stop(tokens)
        in_grammar += stop == len(tokens) - 1
        text = " ".join(spelled)
        assert len(text) < 262_144
        rows.row(text, refused_at(text, room), len(" ".join(spelled[:stop])) + (stop > 0))
    # Nothing is shown by texts of one kind alone.
    rows.row("texts that the grammar has", in_grammar >= len(whole), True)
    rows.row("texts that it doesn't have", len(lists) - in_grammar >= CHANGED // 2, True)

    # What there isn't, and what to write.
    body = "type a {{\n  field f = 0;\n  method m(n, s) create update {{\n    {}\n    return n;\n  }}\n}}\n"
    table = re.search(r"(?ms)^\| There is no .*?\n\n", PAGE)[0]
    for line in table.strip().splitlines()[2:]:
        what, wrong, right = re.fullmatch(r"\| (.*?) \| (.*?) \| (.*?) \|", line).groups()
        for shown in re.findall(r"`([^`]*)`", wrong):
            rows.row(f"{what}: {shown}", refused_at(body.format(shown.replace("\\|", "|")), room) is None, False)
        for number, shown in enumerate(re.findall(r"`([^`]*)`", right) if "docs/" not in right else ()):
            folder = os.path.join(room, f"{what} {number}".replace("/", "-"))
            os.mkdir(folder)
            rows.row(f"{what}: {shown}", refused_at(body.format(shown.replace("\\|", "|")), folder), None)

rows.end()
