"""tools/explain: for wrong programs such as people write, the byte that silo names, the line and column of it, and the likely cause; what it
shows of the line; and how it ends."""
import os
import subprocess
import tempfile

from harness import PROGRAM, TOP, Rows, run

rows = Rows("explain")
EXPLAIN = os.path.join(TOP, "tools", "explain")

with open(os.path.join(TOP, "examples", "bank", "requests.jsonl")) as file:
    REQUESTS = file.read()


def within(body, head="method m(n) create update"):
    """A program whose one method has this body."""
    return "type a {\n  field f = 0;\n  " + head + " {\n    " + body + "\n  }\n}\n"


HEAD = "an option comes first (create, join, createorjoin, suppress, supported, notallowed), then a kind (read, update, plain)"
# A mistake, the program, the byte that silo names, its line and column, and the cause.
MISTAKES = [
    ("missing semicolon", within("let x = 1\n    return x;"), 72, "5:5", "`return` can't stand here: a `;` or a `}` is missing before it"),
    ("capital in a type", "type Account {\n}\n", 5, "1:6", "names have a to z, 0 to 9 and _ alone, no capitals"),
    ("// comment", "// my types\ntype a { }\n", 0, "1:1", "comments begin with #"),
    ("single quotes", within("fail 'no';"), 63, "4:10", "texts stand between double quotes"),
    ("missing brace at the end", "type a {\n  field f = 0;\n", 24, "3:1", "the text ends too early: a brace, a parenthesis or a `;` is missing"),
    ("no option", "type a {\n  method m() read { return 1; }\n}\n", 22, "2:14", HEAD),
    ("option and kind swapped", "type a {\n  method m() read create { return 1; }\n}\n", 22, "2:14", HEAD),
    ("method before field", "type a {\n  method m() create read { return 1; }\n  field f = 0;\n}\n", 50, "3:3", "fields come before methods"),
    ("else if", within("if n { return 1; } else if f { return 2; } else { return 3; }"), 82, "4:29", "there is no `else if`: write `else { if .. { } }`"),
    ("x += 1", within("let x = 1; x += 1;"), 71, "4:18", "there is no `+=` and no `++`: write `x = x + 1;`"),
    ("x++", within("let x = 1; x++;"), 70, "4:17", "there is no `+=` and no `++`: write `x = x + 1;`"),
    ("return;", within("return;"), 64, "4:11", "`return` has a value: `return 0;`"),
    ("set forgotten", within("f = f + n;"), 58, "4:5", "`f` is a field: write `set f = ..`"),
    ("set of a local", within("let x = 1; set x = 2;"), 73, "4:20", "`set` writes fields, and `x` is none: write `x = ..`"),
    ("local named as a field", within("let f = 1;"), 62, "4:9", "`f` is a field of the type: a local or a parameter has another name"),
    ("true", within("if true { return 1; }"), 61, "4:8", "there is no `true`: any number other than 0 is true, write 1"),
    ("1.5", within("return 1.5;"), 66, "4:13", "numbers are whole"),
    ("escape in a text", within('fail "a\\n";'), 63, "4:10", "a text has no \\: there are no escapes"),
    ("call inside an expression", within("return call a/1.m(1) + 1;"), 65, "4:12",
     "a call stands alone, or behind `let x =`, `x =` or `attempt x =`, in no expression"),
    ("return call", within("return call a/1.m(1);"), 65, "4:12", "a call stands alone, or behind `let x =`, `x =` or `attempt x =`, in no expression"),
    ("if call", within("if call a/1.m(1) { return 1; }"), 61, "4:8", "a call stands alone, or behind `let x =`, `x =` or `attempt x =`, in no expression"),
    ("wrong argument count", within("call a/1.m();"), 67, "4:14", "`m` of `a` takes (n), and here is another number of arguments"),
    ("unknown type", within("call b/1.m(1);"), 63, "4:10", "no type is called `b`"),
    ("unknown method", within("call a/1.q(1);"), 67, "4:14", "the type `a` has no method `q`"),
    ("field in plain", "type a {\n  field f = 0;\n  method m() create plain { return f; }\n}\n", 59, "3:36",
     "`f` is a field, and a `plain` method has none: read or update"),
    ("set in read", "type a {\n  field f = 0;\n  method m() create read { set f = 1; }\n}\n", 55, "3:32", "`f` is a field, and a `read` method sets none: update"),
    ("update with suppress", "type a {\n  method m() suppress update { }\n}\n", 18, "2:10",
     "a method that reads or updates fields has the option create, join or createorjoin"),
    ("text key", within('call a/"x".m(1);'), 65, "4:12", "a key is a number, a name, `key`, or an expression in parentheses"),
    ("negative key", within("call a/-1.m(1);"), 65, "4:12", "a key is a number, a name, `key`, or an expression in parentheses"),
    ("a < b < c", within("return 1 < n < 3;"), 71, "4:18", "one comparison alone: join two by `&&`"),
    ("attempt without else", within("attempt x = call a/1.m(1) { return 1; }"), 100, "5:3", "`attempt` has an `else` block"),
    ("attempt without name", within("attempt call a/1.m(1) { } else { }"), 66, "4:13", "`attempt x = call ..` names its result"),
    ("reserved word as a name", "type key { }\n", 5, "1:6", "`key` is a reserved word"),
    ("key as a parameter", "type a {\n  method m(key) create plain { }\n}\n", 20, "2:12", "`key` is a reserved word"),
    ("string of 4,097 bytes", within('fail "' + 'x' * 4097 + '";'), 63, "4:10", "this text has 4097 bytes: 4096 are the most"),
    ("BOM", b"\xef\xbb\xbftype a { }\n", 0, "1:1", "the text begins with a byte order mark: save it without"),
    ("Latin 1 byte", b'type a { method m() create plain { fail "caf\xe9"; } }\n', 40, "1:41", "byte 44 isn't UTF-8: save the text as UTF-8"),
    ("the requests in place of the program", REQUESTS, 0, "1:1", "these are request lines, for `run`: a program begins with `type`"),
]

# More of them, where the place is that of a piece of the text.
MORE = [
    ("a field without a value", "type a { field f; }", "; }", "a field has a first value: `field f = 0;`"),
    ("a local without a value", within("let x;"), ";\n  }\n}", "a local has a first value: `let x = 0;`"),
    ("an undeclared local", within("x = 1;"), "x = 1", "nothing is called `x`: declare it by `let x = ..`"),
    ("a misspelled field", within("set g = 1;"), "g = 1", "`set` writes fields, and `g` is none"),
    ("a misspelled local", within("let total = 1; return totel;"), "totel", "nothing that may stand here is called `totel`; is `total` meant?"),
    ("types of parameters", "type a { method m(n: int) create plain { } }", ": int", "there are no types of values: write the name alone"),
    ("a call without its word", within("a/1.m(1);"), "/1.m(1)", "a call begins with `call`: `call a/KEY.METHOD();`"),
    ("an unknown key", within("let k2 = 1; call a/k.m(1);"), "k.m", "nothing that may stand here is called `k`; is `k2` meant?"),
    ("an else without a block", within("if n { return 1; else { return 2; }"), "else",
     "`else` stands behind a block: a `}` is missing before it, or the braces of the `if`"),
    ("a block without braces", within("if (n > 1) return 1;"), "return 1", "a block has braces: `if .. { .. }`"),
    ("= for ==", within("if n = 1 { return 1; }"), "= 1", "`=` gives a value: `==` compares"),
    ("one &", within("return n & 1;"), "& 1", "write `&&`"),
    ("and", within("return n and 1;"), "and", "write `&&`"),
    ("for", within("for n { }"), "n { }", "there is no `for`: write `while`"),
    ("a list", within("return [1];"), "[1]", "there are no lists: number the grains instead"),
    ("fail without a text", within("fail n;"), "n;", 'a fault has a text: `fail "no";`'),
    ("a type twice", "type a { } type a { }", "a { }", "`a` is declared already, or is one too many"),
    ("a number with 0 in front", within("return 007;"), "07;", "a number doesn't begin with 0"),
    ("a long expression", within(f"return {'n + ' * 33}n;"), "+ n;", "an expression has at most 32 operators: give a part of it a name by `let`"),
    ("many blocks", within("if n { " * 31), "{ \n", "32 braces and parentheses may be open, and this would be one more"),
    ("a number that is too great", within("return 9223372036854775808;"), "9223372036854775808", "numbers go to 9223372036854775807"),
    ("a long name", within(f"let {'x' * 33} = 1;"), "x" * 33, "this name has 33 bytes: 32 are the most"),
    ("a text that isn't closed", within('fail "no;'), '"no', "this text isn't closed on its line"),
    ("a local in a type", "type a { let x = 1; }", "let", "a type has fields, as `field f = 0;`, and then methods"),
    ("a method outside a type", "method m() create plain { }", "method", "a program has types alone: `type NAME { .. }`"),
    ("a brace too many", "type a { } }", "} }", "there is one brace too many before"),
    ("a method's name misspelled", "type a { method deposit(n) create plain { } method m() create plain { call a/1.depositt(1); } }", "depositt",
     "the type `a` has no method `depositt`; is `deposit` meant?"),
]


def explain(path, *byte):
    """The number that it ends with, and its lines."""
    done = subprocess.run([EXPLAIN, path, *byte], env={**os.environ, "SILO": PROGRAM}, capture_output=True)
    return done.returncode, done.stdout.decode().split("\n")[:-1]


with tempfile.TemporaryDirectory() as room:
    path, made = os.path.join(room, "p.grain"), 0

    def given(text):
        """The program's file, and what silo says of it."""
        with open(path, "wb") as file:
            file.write(text if isinstance(text, bytes) else text.encode())
        with open(path, "rb") as file:
            return run(tempfile.mkdtemp(dir=room), "init", given=file.read())

    rows.row("how many mistakes there are", len(MISTAKES), 38)
    for name, text, byte, place, cause in MISTAKES:
        rows.row(f"{name}: silo", given(text).errors, b"silo: bad program at %d\n" % byte)
        number, lines = explain(path)
        rows.row(name, (number, lines[0]), (10, f"{path}:{place}: {cause}"))
        rows.row(f"{name}: by its byte", explain(path, str(byte)), (number, lines))
    for name, text, piece, cause in MORE:
        at = text.rindex(piece) if name in ("a type twice", "a brace too many") else text.index(piece)
        at += 2 * (name == "a brace too many")
        rows.row(f"{name}: silo", given(text).errors, b"silo: bad program at %d\n" % at)
        number, lines = explain(path)
        rows.row(name, (number, lines[0].split(": ", 1)[-1]), (10, cause))

    # The line and the caret, also behind letters of several bytes, and of a long line what stands around the place.
    given('type a { method m() create plain { fail "Żółw" } }')
    rows.row("the caret", explain(path)[1][1:], ['  type a { method m() create plain { fail "Żółw" } }', " " * 49 + "^"])
    given("type a { # " + "x" * 300 + "\n}\ntype b { method m() create plain { return " + '"a" + ' * 20 + "x; } }")
    shown = explain(path)[1][1:]
    rows.row("a long line", (len(shown[0]) < 130, shown[0][shown[1].index("^")]), (True, "x"))

    # What isn't a digit of the language, a number of more digits than Python reads, and a byte amid a letter.
    given("type a { field f = ²; }")
    rows.row("a digit of another kind", explain(path), (10, [f"{path}:1:20: `²` can't stand here", "  type a { field f = ²; }", "  " + " " * 19 + "^"]))
    given(within(f"return {'9' * 5000};"))
    rows.row("a number of 5,000 digits", explain(path)[1][0], f"{path}:4:12: numbers go to 9223372036854775807")
    given("type a { # Ż\n}\ntype B { }")
    rows.row("a byte amid a letter", explain(path, "12")[0], 10)
    # By a pipe it is read once.
    piped = subprocess.run([EXPLAIN, "/dev/stdin"], input=b"type B { }", env={**os.environ, "SILO": PROGRAM}, capture_output=True)
    rows.row("a pipe", (piped.returncode, piped.stdout.split(b"\n")[0]), (10, b"/dev/stdin:1:6: names have a to z, 0 to 9 and _ alone, no capitals"))

    # How it ends otherwise.
    given("type a { }")
    rows.row("a program", explain(path), (0, [f"{path}: a program"]))
    given(" " * 262_145)
    rows.row("too long a text", explain(path), (11, [f"{path}: silo: input too long"]))
    done = subprocess.run([EXPLAIN, os.path.join(room, "none")], capture_output=True)
    rows.row("no file", (done.returncode, b"none: No such file" in done.stderr), (1, True))
    done = subprocess.run([EXPLAIN], capture_output=True)
    rows.row("no word", (done.returncode, done.stderr.startswith(b"Says where a program is wrong")), (1, True))

rows.end()
