"""The rules of the core a second time, plainly: units, locks, versions and entries stand in one list each, and each question
is answered by walks over them. It shares nothing with the crates; `core_lists.py` makes the expected replies with it.

A grain is a pair (type, key), a state a tuple of numbers, an outcome a number, a text (a fault) or `ABORTED`, an origin
("line", n) or ("child", parent, index), a call (grain, method). An event is a tuple that begins with its name."""
import dataclasses

ABORTED = ("aborted",)
READ, UPDATE = "read", "update"
KINDS = 2  # The first type has one field, 0 at first, and the second none.
OPENING = {(0, 0): (100,)}  # The grain that has a state of its own at the opening.
BATCH = 64
UNIT_LIMIT = 2 ** 63


def first_state(grain):
    """The state with which a grain opens."""
    return OPENING.get(grain, (0,) if grain[0] == 0 else ())


@dataclasses.dataclass
class Effect:
    """What a unit did."""
    unit: int
    origin: tuple
    call: tuple
    answers: list
    reads: list  # (grain, state, source)
    writes: list  # (grain, state)
    result: object

    def state_of(self, grain):
        """What was written in the grain, none where nothing was."""
        return next((state for written, state in self.writes if written == grain), None)


@dataclasses.dataclass
class Unit:
    """A unit, with all that it ever did."""
    number: int
    origin: tuple
    call: tuple
    plain: bool
    life: str = "running"  # then finished, refused or ended
    fate: str = "open"  # then to commit, to abort, committed or aborted
    reads: list = dataclasses.field(default_factory=list)
    depends: list = dataclasses.field(default_factory=list)
    effect: Effect = None
    result: object = None

    def is_child_of(self, parent):
        return self.origin[0] == "child" and self.origin[1] == parent


@dataclasses.dataclass
class Batch:
    """A batch that is open."""
    number: int
    units: list
    plan: list
    votes: list = dataclasses.field(default_factory=list)  # (grain, yes)
    decisions: list = None  # "c", ("v", grain) or ("d", unit)

    def unvoted(self):
        """The first planned grain without a vote."""
        voted = [grain for grain, _ in self.votes]
        return next((grain for grain in self.plan if grain not in voted), None)


class NoNumber(Exception):
    """The next unit would have a number that none has: the core says that memory is wanting."""


class Plain:
    """A run, from its first unit's number on. `step` carries an event and answers the reply. Where memory has a limit, so many of
    the grains used last stay in it, and those that are in use; without one every grain does."""

    def __init__(self, base, limit=None):
        self.base = base
        self.limit = limit
        self.here = set()  # The grains in memory, where that has a limit.
        self.recent = []  # Those used last, the last one first.
        self.loaded = {}  # The unit and the state with which a grain was loaded.
        self.settled_bottoms = set()  # The grains whose lowest version is a committed unit's, of this run.
        self.lines = 0
        self.units = []
        self.locks = []  # [grain, unit, mode]
        self.versions = []  # (grain, unit, state), oldest first, without the opening states and the loaded ones
        self.gone = []  # (grain, unit): versions that were taken off
        self.order = []  # The finish order.
        self.closed = 0  # How many of it stand in closed batches.
        self.batches = 0
        self.batch = None
        self.doubt = False
        self.halt = False
        self.learnt = []
        self.wanted = []
        self.settled = []  # (line, unit, what)
        self.emitted = 0

    # What is known of a unit.

    def next(self):
        return self.base + len(self.units)

    def unit(self, number):
        at = number - self.base
        return self.units[at] if 0 <= at < len(self.units) else None

    def fate(self, number):
        one = self.unit(number)
        return one.fate if one else "open"

    def is_running(self, number):
        one = self.unit(number)
        return one is not None and one.life == "running"

    def outcome(self, number):
        """The outcome of a unit that is decided, else none."""
        one = self.unit(number)
        if one is None or one.life == "running":
            return None
        if one.life == "ended" or one.fate == "committed":
            return one.result
        return ABORTED if one.fate == "aborted" else None

    def children(self, parent):
        return [one for one in self.units if one.is_child_of(parent)]

    def decided_children(self, parent):
        """How many children the unit has, none where one of them isn't decided."""
        children = self.children(parent)
        if any(self.outcome(one.number) is None for one in children):
            return None
        return len(children)

    def written(self, number, grain):
        """The state that the unit, which has finished, wrote in the grain."""
        one = self.unit(number)
        return one.effect.state_of(grain) if one and one.effect else None

    def is_stopped(self):
        return self.doubt or self.halt

    # Locks and versions.

    def mode_of(self, number, grain):
        return next((mode for locked, unit, mode in self.locks if (locked, unit) == (grain, number)), None)

    def top(self, grain):
        """The unit and the state on top of the grain."""
        placed = [(unit, state) for at, unit, state in self.versions if at == grain]
        return placed[-1] if placed else self.loaded.get(grain, (0, first_state(grain)))

    def doomed_by(self, number):
        """The oldest source that the unit read and that was taken off since."""
        one = self.unit(number)
        gone = [source for grain, _, source in one.reads if (grain, source) in self.gone]
        return min(gone, default=None)

    def ask(self, number, grain, mode):
        """What a unit is answered that asks for a lock."""
        if not self.is_running(number) or grain[0] >= KINDS:
            return ("not active",)
        source = self.doomed_by(number)
        if source is not None:
            return ("doomed", source)
        if self.mode_of(number, grain) in (UPDATE, mode):
            return ("held",)
        rivals = [unit for at, unit, held in self.locks if at == grain and unit != number and UPDATE in (held, mode)]
        if not rivals:
            return ("free",) if self.is_here(grain) else ("absent",)
        return ("dies" if min(rivals) < number else "waits", min(rivals))

    # Memory.

    def is_here(self, grain):
        return self.limit is None or grain in self.here

    def use(self, grain):
        """The grain is the one used last."""
        if self.limit is not None:
            self.recent = [grain, *(other for other in self.recent if other != grain)][:self.limit]

    def is_idle(self, grain):
        """Nobody has a lock of the grain or waits for it, and one version of it is known."""
        locked = any(at == grain for at, _, _ in self.locks)
        waited = any(at == grain for _, at in self.wanted)
        above = [unit for at, unit, _ in self.versions if at == grain]
        single = not above or (len(above) == 1 and grain in self.settled_bottoms)
        return not locked and not waited and single

    def sweep(self):
        """Idle grains that weren't used lately leave memory."""
        self.here = {grain for grain in self.here if grain in self.recent or not self.is_idle(grain)}

    def last_version(self, grain):
        """The last committed writer of the grain and its state, or nobody with the state at the opening."""
        writers = [number for number in self.order if self.fate(number) == "committed" and self.written(number, grain) is not None]
        return (writers[-1], self.written(writers[-1], grain)) if writers else (0, first_state(grain))

    def next_wanted(self):
        """The lowest grain that somebody waits for and that isn't in memory."""
        return min((grain for _, grain in self.wanted if not self.is_here(grain)), default=None)

    def drop_waits(self, number):
        self.wanted = [want for want in self.wanted if want[0] != number]

    def take_off(self, grain, unit):
        """Takes the unit's version of the grain off, and those above it."""
        kept, above = [], False
        for version in self.versions:
            above = above or version[:2] == (grain, unit)
            if version[0] == grain and above:
                self.gone.append(version[:2])
            else:
                kept.append(version)
        self.versions = kept

    def drop_under(self, grain, unit):
        """Drops what stands under the unit's version of the grain."""
        kept, under = [], any(version[:2] == (grain, unit) for version in self.versions)
        if under:
            self.settled_bottoms.add(grain)
        for version in self.versions:
            under = under and version[:2] != (grain, unit)
            if version[0] != grain or not under:
                kept.append(version)
        self.versions = kept

    def drop_lock(self, grain, unit):
        self.locks = [lock for lock in self.locks if lock[:2] != (grain, unit)]

    def last_state(self, grain):
        """The state that the last committed writer left, none where there is no such writer."""
        states = [self.written(number, grain) for number in self.order if self.fate(number) == "committed"]
        states = [state for state in states if state is not None]
        return states[-1] if states else None

    def settle(self, number, what):
        """A line's unit has its entry, a child has none."""
        one = self.unit(number)
        if one.origin[0] == "line":
            self.settled.append((one.origin[1], number, what))

    # The events of a unit.

    def step(self, event):
        """Carries an event: its reply, as a text."""
        reply = getattr(self, "on_" + event[0])(*event[1:])
        self.sweep()
        return reply

    def on_bad(self, line, why):
        if self.is_stopped() or line != self.lines + 1:
            return "no"
        self.lines += 1
        self.settled.append((line, 0, ("bad", why)))
        return "done"

    def on_begin(self, origin, call, plain):
        if self.is_stopped():
            return "no"
        if origin[0] == "line" and origin[1] != self.lines + 1:
            return "no"
        if origin[0] == "child" and not (
            self.is_running(origin[1]) and self.decided_children(origin[1]) == origin[2]
        ):
            return "no"
        number = self.next()
        if number >= UNIT_LIMIT:
            raise NoNumber
        self.units.append(Unit(number, origin, call, plain))
        if origin[0] == "line":
            self.lines += 1
        return f"unit {number}"

    def on_grant(self, number, grain, mode):
        if self.is_stopped():
            return "no"
        answer = self.ask(number, grain, mode)
        if answer[0] != "free":
            return REFUSALS[answer[0]].format(*answer[1:])
        # The lowest version whose unit is aborted goes, and with it those above it.
        aborted = [unit for at, unit, _ in self.versions if at == grain and self.fate(unit) == "aborted"]
        if aborted:
            self.take_off(grain, aborted[0])
        source, state = self.top(grain)
        if self.mode_of(number, grain) is None:
            self.wanted = [want for want in self.wanted if want != (number, grain)]
            self.use(grain)
            self.unit(number).reads.append((grain, state, source))
            if source != 0 and self.fate(source) != "committed":
                self.unit(number).depends.append(source)
        self.drop_lock(grain, number)
        self.locks.append((grain, number, mode))
        return f"{state_text(state)} of {source}"

    def on_refuse(self, number, grain, mode):
        if self.is_stopped():
            return "no"
        answer = self.ask(number, grain, mode)
        if answer[0] == "dies":
            what = ("lock", answer[1], grain)
        elif answer[0] == "doomed":
            what = ("dependency", answer[1])
        else:
            return "no"
        self.settle(number, what)
        self.unit(number).life = "refused"
        self.unit(number).fate = "aborted"
        self.drop_waits(number)
        return "done"

    def may_end(self, number, plain, effect):
        """Whether the unit runs, is or isn't a plain run, and the effect is of its call, with its children's outcomes."""
        one = self.unit(number)
        return (
            one is not None
            and one.life == "running"
            and one.plain == plain
            and (effect.unit, effect.origin, effect.call) == (number, one.origin, one.call)
            and [self.outcome(child.number) for child in self.children(number)] == effect.answers
        )

    def on_finish(self, number, effect):
        if self.is_stopped() or not self.may_end(number, False, effect):
            return "no"
        one = self.unit(number)
        if any(self.mode_of(number, grain) != UPDATE for grain, _ in effect.writes) or effect.reads != one.reads:
            return "no"
        self.order.append(number)
        one.life, one.result, one.effect = "finished", effect.result, effect
        self.drop_waits(number)
        return "done"

    def end(self, number, outcome):
        self.settle(number, ("done", outcome))
        self.unit(number).life = "ended"
        self.drop_waits(number)
        self.unit(number).result = outcome
        return "done"

    def on_end_plain(self, number, effect):
        if self.is_stopped() or not self.may_end(number, True, effect) or effect.reads or effect.writes:
            return "no"
        return self.end(number, effect.result)

    def on_end_snapshot(self, number, _at, outcome):
        one = self.unit(number)
        if self.is_stopped() or outcome == ABORTED or not self.is_running(number) or not one.plain:
            return "no"
        return "no" if self.children(number) else self.end(number, outcome)

    def on_release(self, number, grain):
        if self.is_running(number) or self.mode_of(number, grain) is None:
            return "no"
        state = self.written(number, grain)
        source = next((source for at, _, source in self.unit(number).reads if at == grain), None)
        if state is not None and (grain, source) not in self.gone:
            self.versions.append((grain, number, state))
        self.drop_lock(grain, number)
        return "done"

    def on_want(self, number, grain):
        if (
            self.is_stopped()
            or not self.is_running(number)
            or grain[0] >= KINDS
            or self.mode_of(number, grain) is not None
            or (number, grain) in self.wanted
        ):
            return "no"
        self.wanted.append((number, grain))
        return "done"

    def on_load(self, unit, grain, state):
        if self.is_stopped() or self.is_here(grain) or all(at != grain for _, at in self.wanted):
            return "no"
        self.versions = [version for version in self.versions if version[0] != grain]
        self.settled_bottoms.discard(grain)
        self.loaded[grain] = (unit, state)
        self.here.add(grain)
        self.use(grain)
        return "done"

    # The events of the settler.

    def batch_units(self):
        """The units of the next batch: of the finished ones that no batch has closed, the first 64 at most, up to one that
        still holds a lock."""
        units = []
        for number in self.order[self.closed:]:
            if len(units) == BATCH or any(unit == number for _, unit, _ in self.locks):
                break
            units.append(number)
        return units

    def has_bad_source(self, number):
        """Whether the unit read from one that is aborted, or to abort."""
        return any(self.fate(source) in ("aborted", "to abort") for source in self.unit(number).depends)

    def on_take(self):
        units = self.batch_units()
        if self.is_stopped() or self.batch or not units:
            return "no"
        writes = [self.unit(number).effect.writes for number in units if not self.has_bad_source(number)]
        self.batches += 1
        self.batch = Batch(self.batches, units, sorted({grain for some in writes for grain, _ in some}))
        return f"batch {self.batches}"

    def on_vote(self, number, grain, yes):
        batch = self.batch
        if self.is_stopped() or not batch or batch.number != number:
            return "no"
        if grain not in batch.plan or grain in [voted for voted, _ in batch.votes]:
            return "no"
        batch.votes.append((grain, yes))
        return "done"

    def decision(self, number, dead):
        """The lowest grain that the unit wrote whose file failed, else its lowest dead dependency, else a commit."""
        failed = [grain for grain, yes in self.batch.votes if not yes and self.written(number, grain) is not None]
        if failed:
            return ("v", min(failed))
        bad = [source for source in self.unit(number).depends if source in dead or self.fate(source) == "aborted"]
        return ("d", min(bad)) if bad else "c"

    def on_decide(self, number):
        batch = self.batch
        if self.is_stopped() or not batch or batch.number != number:
            return "no"
        if batch.decisions is not None or batch.unvoted() is not None:
            return "no"
        decisions, dead = [], []
        for one in batch.units:
            decisions.append(self.decision(one, dead))
            if decisions[-1] != "c":
                dead.append(one)
        batch.decisions = decisions
        for one, decision in zip(batch.units, decisions):
            self.unit(one).fate = "to commit" if decision == "c" else "to abort"
        commits = decisions.count("c")
        if commits == 0:
            self.close("committed", None)
        return f"{commits} commit"

    def close(self, fate, what):
        """Settles the units of the batch: those to commit have this fate, and their lines this entry, or their results."""
        for number, decision in zip(self.batch.units, self.batch.decisions):
            one = self.unit(number)
            if decision == "c":
                one.fate = fate
                self.settle(number, what or ("done", one.result))
            else:
                one.fate = "aborted"
                self.settle(number, ("vote" if decision[0] == "v" else "dependency", decision[1]))
        self.closed += len(self.batch.units)
        self.batch = None

    def may_close(self, number):
        batch = self.batch
        return batch is not None and batch.number == number and batch.decisions is not None and not self.doubt

    def on_sealed(self, number):
        if not self.may_close(number):
            return "no"
        self.close("committed", None)
        return "done"

    def on_not_sealed(self, number):
        if not self.may_close(number):
            return "no"
        self.close("aborted", ("disk",))
        return "done"

    def on_doubt(self, number):
        if not self.may_close(number):
            return "no"
        self.close("to commit", ("in doubt",))
        self.doubt = True
        return "done"

    def on_learn(self, number, grain):
        fate = self.fate(number)
        if self.is_stopped() or self.written(number, grain) is None or fate not in ("committed", "aborted"):
            return "no"
        if (number, grain) in self.learnt:
            return "no"
        self.learnt.append((number, grain))
        if fate == "committed":
            self.drop_under(grain, number)
        else:
            self.take_off(grain, number)
        return "done"

    def on_emitted(self):
        if self.emitted >= len(self.settled):
            return "no"
        self.emitted += 1
        return "done"

    def on_halt(self):
        if self.is_stopped():
            return "no"
        self.halt = True
        return "done"

    # What is asked.

    def next_learn(self):
        for number in self.order:
            if self.fate(number) in ("committed", "aborted"):
                for grain, _ in self.unit(number).effect.writes:
                    if (number, grain) not in self.learnt:
                        return (number, grain)
        return None

    def can_take(self):
        return not self.is_stopped() and self.batch is None and bool(self.batch_units())

    def next_entry(self):
        return self.settled[self.emitted] if self.emitted < len(self.settled) else None

    def aborted_sources(self):
        """The aborted sources of the batch's units, lowest first."""
        reads = [read for number in self.batch.units for read in self.unit(number).reads]
        return sorted({source for _, _, source in reads if self.fate(source) == "aborted"})

    def work(self):
        """What the settler does next, as a tuple that begins with its name."""
        batch = self.batch
        if batch and batch.decisions is not None:
            return ("seals", batch.number, [one for one in batch.units if self.fate(one) == "to commit"])
        if batch and batch.unvoted() is not None:
            grain = batch.unvoted()
            placed = [(one, self.written(one, grain)) for one in batch.units if not self.has_bad_source(one)]
            return ("votes", batch.number, grain, [(one, state) for one, state in placed if state is not None])
        if batch:
            return ("decides", batch.number)
        if not self.doubt and self.next_learn():
            return ("learns", *self.next_learn())
        if self.next_entry():
            return ("writes", self.next_entry())
        if not self.is_stopped() and self.next_wanted() is not None:
            return ("loads", self.next_wanted())
        return ("takes",) if self.can_take() else ("rests",)


def state_text(state):
    return ",".join(str(number) for number in state)


# What a grant is answered that isn't made.
REFUSALS = {
    "not active": "not active",
    "doomed": "doomed by {}",
    "held": "held",
    "dies": "dies by {}",
    "waits": "waits for {}",
    "absent": "not loaded",
}
