"""A plain player of grain programs, by docs/LANGUAGE.md alone: one unit after another, with nothing shared and nothing undone.

A program is a list of types. Expressions, statements and places are tuples whose first word says what they are; `text_of` writes a
program as the text that `init` reads, and `play` plays a unit over a store.
"""
import collections

Type = collections.namedtuple("Type", "name fields methods")
Method = collections.namedtuple("Method", "name parameters option kind body")

STEPS, FRAMES, UNITS, GRAINS, LONGEST = 10_000, 32, 64, 64, 4096
ABORTED = "aborted"


def value_text(value):
    return f'"{value}"' if isinstance(value, str) else str(value)


def expression_text(it):
    match it:
        case ("value", value):
            return value_text(value)
        case ("name", name):
            return name
        case ("prefix", operator, one):
            return f"({operator}{expression_text(one)})"
        case ("infix", operator, one, other):
            return f"({expression_text(one)} {operator} {expression_text(other)})"


def call_text(kind, place, method, arguments):
    return f"call {kind}/{expression_text(place)}.{method}({', '.join(map(expression_text, arguments))})"


def block_text(block):
    return "{ " + "".join(statement_text(it) + " " for it in block) + "}"


def statement_text(it):
    match it:
        case ("let", name, ("call", *call)):
            return f"let {name} = {call_text(*call)};"
        case ("let", name, one):
            return f"let {name} = {expression_text(one)};"
        case ("give", name, one):
            return f"{name} = {expression_text(one)};"
        case ("set", field, one):
            return f"set {field} = {expression_text(one)};"
        case ("return", one):
            return f"return {expression_text(one)};"
        case ("fail", text):
            return f'fail "{text}";'
        case ("if", one, then, other):
            return f"if {expression_text(one)} {block_text(then)} else {block_text(other)}"
        case ("while", one, block):
            return f"while {expression_text(one)} {block_text(block)}"
        case ("call", *call):
            return f"{call_text(*call)};"
        case ("attempt", name, ("call", *call), then, other):
            return f"attempt {name} = {call_text(*call)} {block_text(then)} else {block_text(other)}"


def text_of(program):
    """The program's text."""
    lines = []
    for kind in program:
        lines.append(f"type {kind.name} {{")
        lines += [f"  field {name} = {value_text(value)};" for name, value in kind.fields.items()]
        lines += [f"  method {it.name}({', '.join(it.parameters)}) {it.option} {it.kind} {block_text(it.body)}" for it in kind.methods]
        lines.append("}")
    return "\n".join(lines) + "\n"


class Fault(Exception):
    """What ends a unit, by its text."""


class Returned(Exception):
    """What ends a frame, with its value."""


def need(holds, fault):
    if not holds:
        raise Fault(fault)


def number(value):
    need(isinstance(value, int), "kind")
    return value


def fits(result):
    need(-(2**63) <= result < 2**63, "overflow")
    return result


def quotient(one, other):
    need(other != 0, "divide")
    return abs(one) // abs(other) * (1 if (one < 0) == (other < 0) else -1)


def infix(operator, one, other):
    """What two values give, once both are there."""
    if operator in ("==", "!="):
        return int((one == other) == (operator == "=="))
    if operator == "+" and isinstance(one, str) and isinstance(other, str):
        need(len((one + other).encode()) <= LONGEST, "length")
        return one + other
    one, other = number(one), number(other)
    match operator:
        case "+":
            return fits(one + other)
        case "-":
            return fits(one - other)
        case "*":
            return fits(one * other)
        case "/":
            return fits(quotient(one, other))
        case "%":
            fits(quotient(one, other))
            return one - other * quotient(one, other)
        case "<":
            return int(one < other)
        case "<=":
            return int(one <= other)
        case ">":
            return int(one > other)
        case ">=":
            return int(one >= other)


# By its option and whether there is a transaction: whether a call gets one of its own, whether its frame passes one on, or the
# fault of a refusal.
OWN, ON, OFF = "its own", True, False
OPTIONS = {
    "create": (OWN, OWN),
    "join": ("no transaction", ON),
    "createorjoin": (OWN, ON),
    "suppress": (OFF, OFF),
    "supported": (OFF, ON),
    "notallowed": (OFF, "not allowed"),
}


def entering(option, within):
    how = OPTIONS[option][within]
    need(how in (OWN, ON, OFF), how)
    return how


class Unit:
    """A unit under way. `store` gives a grain's fields by its name and key, where it was written; `ask` gives the answer to a
    call that gets a transaction of its own: a value, a fault, or that it was aborted."""

    def __init__(self, program, store, ask):
        self.types = {kind.name: kind for kind in program}
        self.store, self.ask = store, ask
        self.steps, self.asked, self.locked, self.states, self.written = STEPS, 0, set(), {}, {}

    def step(self):
        need(self.steps > 0, "budget")
        self.steps -= 1

    def state(self, grain):
        if grain not in self.states:
            self.states[grain] = dict(self.store.get(grain, self.types[grain[0]].fields))
        return self.states[grain]

    def frame(self, grain, name, arguments, within, depth):
        """Runs a method to its end."""
        method = next(it for it in self.types[grain[0]].methods if it.name == name)
        if method.kind != "plain" and grain not in self.locked:
            need(len(self.locked) < GRAINS, "grains")
            self.locked.add(grain)
        try:
            Frame(self, grain, dict(zip(method.parameters, arguments)), within, depth).block(method.body)
        except Returned as returned:
            return returned.args[0]
        return 0


class Frame:
    """A method under way on a grain."""

    def __init__(self, unit, grain, names, within, depth):
        self.unit, self.grain, self.names, self.within, self.depth = unit, grain, names, within, depth

    def value(self, it):
        match it:
            case ("value", value):
                return value
            case ("name", "key"):
                return self.grain[1]
            case ("name", name):
                return self.names[name] if name in self.names else self.unit.state(self.grain)[name]
            case ("prefix", operator, one):
                one = number(self.value(one))
                return fits(-one) if operator == "-" else int(one == 0)
            case ("infix", ("&&" | "||") as operator, one, other):
                if (number(self.value(one)) != 0) == (operator == "||"):
                    return int(operator == "||")
                return int(number(self.value(other)) != 0)
            case ("infix", operator, one, other):
                one, other = self.value(one), self.value(other)
                return infix(operator, one, other)

    def call(self, kind, place, name, arguments, tried=False):
        """The value of a call, and whether it has one: the fault of a unit of its own is handed over where it is tried."""
        key = self.value(place)
        arguments = [self.value(it) for it in arguments]
        need(0 <= number(key) < 2**32, "key")
        method = next(it for it in self.unit.types[kind].methods if it.name == name)
        how = entering(method.option, self.within)
        need(self.depth < FRAMES, "depth")
        if how != OWN:
            return self.unit.frame((kind, key), name, arguments, how, self.depth + 1), True
        need(self.unit.asked < UNITS, "units")
        index, self.unit.asked = self.unit.asked, self.unit.asked + 1
        answer = self.unit.ask(index, f"{kind}/{key}.{name}", arguments, self.depth + 1)
        if answer == ABORTED or isinstance(answer, dict):
            text = answer["fault"] if isinstance(answer, dict) else ABORTED
            need(tried, text)
            return text, False
        return answer, True

    def block(self, block):
        for it in block:
            self.unit.step()
            self.statement(it)

    def statement(self, it):
        match it:
            case ("let", name, ("call", *call)):
                self.names[name], _ = self.call(*call)
            case ("let" | "give", name, one):
                self.names[name] = self.value(one)
            case ("set", field, one):
                self.unit.state(self.grain)[field] = self.value(one)
                self.unit.written[self.grain] = self.unit.states[self.grain]
            case ("return", one):
                raise Returned(self.value(one))
            case ("fail", text):
                raise Fault(text)
            case ("if", one, then, other):
                self.block(then if number(self.value(one)) else other)
            case ("while", one, block):
                while self.test(one):
                    self.block(block)
            case ("call", *call):
                self.call(*call)
            case ("attempt", name, ("call", *call), then, other):
                self.names[name], has_value = self.call(*call, tried=True)
                self.block(then if has_value else other)

    def test(self, one):
        self.unit.step()
        return number(self.value(one)) != 0


def place_of(call):
    """The grain and the method that a call's text names."""
    place, name = call.split(".")
    kind, key = place.split("/")
    return (kind, int(key)), name


def play(program, store, call, arguments, depth, ask):
    """Plays a unit: its result, the states of the grains that it wrote, how many answers it asked for, and whether it is a
    transaction."""
    unit = Unit(program, store, ask)
    grain, name = place_of(call)
    method = next(it for it in unit.types[grain[0]].methods if it.name == name)
    is_transaction = OPTIONS[method.option][False] == OWN
    try:
        within = entering(method.option, False)
        result = unit.frame(grain, name, arguments, within != OFF, depth)
        return result, unit.written, unit.asked, is_transaction
    except Fault as fault:
        return {"fault": fault.args[0]}, {}, unit.asked, is_transaction
