"""Two-phase commit between silos, written a second time from docs/TWO-SILOS.md, and what its check sums up. It shares nothing with
the program: transactions are pairs of numbers, packets are tuples, and what a log tells is looked up in the log each time.
"""

HIGHEST = (1 << 63) - 1
NODES = 2


class Coordinator:
    """The log's epoch and commits, and the transactions that wait for votes."""

    def __init__(self):
        self.epoch, self.number, self.commits, self.pending = 0, 0, [], {}

    def start(self, parts):
        self.number += 1
        txn = (self.epoch, self.number)
        if not parts:
            self.commits.append(txn)
            return []
        self.pending[txn] = (parts, set())
        return [("prepare", txn, node, shifts) for node, shifts in parts.items()]

    def ended(self, txn, commit):
        parts, _ = self.pending.pop(txn)
        if commit:
            self.commits.append(txn)
        return [("decision", txn, node, commit) for node in parts]

    def receive(self, packet):
        kind, txn, node = packet[:3]
        yes = kind == "vote" and packet[3]
        if txn not in self.pending:
            return [("decision", txn, node, txn in self.commits)] if yes or kind == "ask" else []
        if kind == "ask":
            return []
        parts, agreed = self.pending[txn]
        if yes:
            agreed.add(node)
            return self.ended(txn, True) if agreed >= set(parts) else []
        return self.ended(txn, False)

    def nudge(self):
        return [("prepare", txn, node, shifts) for txn, (parts, agreed) in self.pending.items()
                for node, shifts in parts.items() if node not in agreed]

    def restart(self):
        self.epoch, self.number, self.pending = self.epoch + 1, 0, {}


class Participant:
    """The log: what was prepared, in order, and what is known to be decided. All else is looked up in it."""

    def __init__(self, node, opening):
        self.node, self.opening, self.prepared, self.done = node, opening, {}, {}

    def balance(self, grain):
        return self.opening[grain] + sum(shifts.get(grain, 0) for txn, shifts in self.prepared.items() if self.done.get(txn))

    def undecided(self):
        return [txn for txn in self.prepared if txn not in self.done]

    def agrees(self, shifts):
        busy = {grain for txn in self.undecided() for grain in self.prepared[txn]}
        return all(grain not in busy and grain in self.opening and 0 <= self.balance(grain) + by <= HIGHEST
                   for grain, by in shifts.items())

    def receive(self, packet):
        kind, txn, _, what = packet
        if kind == "decision":
            if txn in self.prepared and txn not in self.done:
                self.done[txn] = what
            return []
        if txn in self.done:
            return []
        yes = txn in self.prepared or self.agrees(what)
        if yes:
            self.prepared.setdefault(txn, what)
        return [("vote", txn, self.node, yes)]

    def nudge(self):
        return [("ask", txn, self.node) for txn in self.undecided()]


class Check:
    """The course of a check."""

    def __init__(self, seed):
        self.number, self.packets, self.coordinator = seed, [], Coordinator()
        self.nodes = [Participant(node, {k: 1000 for k in range(node, 64, 2)}) for node in range(NODES)]

    def draw(self):
        self.number = (self.number * 6364136223846793005 + 1442695040888963407) % (1 << 64)
        return self.number // 2147483648 // 4

    def deliver(self, at):
        packet = self.packets[at]
        to_node = packet[0] in ("prepare", "decision")
        self.packets += (self.nodes[packet[2]] if to_node else self.coordinator).receive(packet)

    def start(self):
        a, b, n = self.draw() % 64, self.draw() % 64, self.draw() % 100 + 1
        if b == a:
            b = (a + 1) % 64
        parts = {}
        for node in range(NODES):
            shifts = {grain: by for grain, by in sorted([(a, -n), (b, n)]) if grain % NODES == node}
            if shifts:
                parts[node] = shifts
        self.packets += self.coordinator.start(parts)

    def event(self):
        d = self.draw() % 64
        if d == 0:
            self.coordinator.restart()
        elif d <= 2:
            pass  # a participant begins again: its log stays
        elif d <= 6:
            self.packets += self.coordinator.nudge()
        elif d <= 14:
            self.packets += self.nodes[0 if d <= 10 else 1].nudge()
        elif self.packets:
            sent = len(self.packets)
            self.deliver(sent - 1 - self.draw() % min(sent, 64))

    def end(self):
        begun = len(self.packets)
        self.packets += self.coordinator.nudge()
        for node in self.nodes:
            self.packets += node.nudge()
        for _ in range(4):
            ended = len(self.packets)
            for at in range(begun, ended):
                self.deliver(at)
            begun = ended


def line(starts, seed):
    """The line that a check prints."""
    check = Check(seed)
    for _ in range(starts):
        check.start()
        for _ in range(8):
            check.event()
    check.end()
    committed, pending = len(check.coordinator.commits), len(check.coordinator.pending)
    total = sum(node.balance(grain) for node in check.nodes for grain in node.opening)
    undecided = pending + sum(len(node.undecided()) for node in check.nodes)
    return (f'{{"aborted":{starts - committed - pending},"committed":{committed},"requests":{starts},'
            f'"total":{total},"undecided":{undecided}}}\n').encode()
