"""An independent model of one card, written from docs/BLOCK.md and docs/PROTOCOL.md and used to make and to check test data.

It shares no text with the proved crates: words are plain integers, entries plain objects.
"""
import struct

FAST_ACCEPT, FAST_OK, FAST_REPLY, ACCEPT, ACCEPT_OK, COMMIT, PREPARE, PREPARE_OK, REJECT = range(1, 10)
ALL = 255
NAMES = ("kind from to log entry ballot value_kind client number operation bay amount "
         "dependency report accept_ballot").split()


def pack(words, tail=b""):
    """The 512 bytes of up to fifteen words."""
    words = list(words) + [0] * (15 - len(words))
    return (struct.pack(">15I", *words) + tail).ljust(512, b"\0")


def is_ballot(b):
    return b == 0 or (1 <= b // 8 <= 8191 and b % 8 <= 6)


def in_range(i, w):
    if i == 0:
        return 1 <= w <= 9
    if i == 1:
        return w <= 6
    if i == 2:
        return w <= 6 or w == ALL
    if i == 3:
        return w <= 1
    if i == 4:
        return 1 <= w <= 128
    if i in (5, 14):
        return is_ballot(w)
    if i in (6, 13):
        return w <= 2
    if i == 12:
        return w <= 128
    return True


def fits(w, i):
    kind, value = w[0], w[6]
    if i == 2:
        return {True: w[2] == ALL, False: w[2] != ALL}[kind in (1, 4, 7)] if kind != 6 else True
    if i == 5:
        return w[5] == 0 if kind in (1, 2, 3, 6) else w[5] >= 8 if kind in (7, 8, 9) else True
    if i == 6:
        allowed = {1: (2,), 4: (1, 2), 6: (1, 2), 8: (0, 1, 2)}.get(kind, (0,))
        return value in allowed
    if i in (7, 8):
        return (w[i] != 0) == (value == 2)
    if i in (9, 10, 11):
        return value == 2 or w[i] == 0
    if i == 12:
        return value == 2 or (w[12] >= 1 if kind == 3 else w[12] == 0)
    if i == 13:
        if kind != 8:
            return w[13] == 0
        return value in {0: (0,), 1: (2,), 2: (1, 2)}[w[13]]
    if i == 14:
        return w[14] < w[5] if w[13] == 2 else w[14] == 0
    return True


def read(block):
    """(words, None), or (None, (number, word))."""
    if len(block) != 512:
        return None, (1, None)
    w = struct.unpack(">15I", block[:60])
    for i in range(15):
        if not in_range(i, w[i]):
            return None, (2, i)
    if any(block[60:]):
        return None, (2, 15)
    for i in range(15):
        if not fits(w, i):
            return None, (3, i)
    return w, None


NOTHING = (0, 0, 0, 0, 0, 0)
NOOP = (1, 0, 0, 0, 0, 0)


class Entry:
    def __init__(self):
        self.state = 0
        self.promised = 0
        self.accept_ballot = 0
        self.value = NOTHING
        self.dependency = 0
        self.answered = 0
        self.vote = False
        self.answers = {}
        self.accepts = set()

    def has_answered(self):
        return self.vote or self.answered >= 1


class Refused(Exception):
    def __init__(self, number, word=None):
        super().__init__(number, word)
        self.number, self.word = number, word


def message(kind, frm, to, log, entry, ballot=0, value=NOTHING, dependency=0, report=0, accept=0):
    return (kind, frm, to, log, entry, ballot) + tuple(value) + (dependency, report, accept)


class Card:
    def __init__(self, n, seat):
        if n not in (3, 5, 7) or seat >= n:
            raise Refused(8)
        self.n, self.seat, self.f = n, seat, (n - 1) // 2
        self.logs = [[None] + [Entry() for _ in range(128)] for _ in range(2)]
        self.takeover_ = None

    def highest_held(self, log):
        return max((i for i in range(1, 129) if self.logs[log][i].state), default=0)

    def propose(self, command):
        client, number = command[0], command[1]
        if client == 0 or number == 0:
            raise Refused(6)
        if self.seat >= 2:
            raise Refused(11)
        mine = self.logs[self.seat]
        i = 1 + max((k for k in range(1, 129) if mine[k].state or mine[k].promised), default=0)
        if i > 128:
            raise Refused(12)
        e = mine[i]
        d = self.highest_held(1 - self.seat)
        e.state, e.value, e.dependency, e.answered, e.vote = 1, (2,) + tuple(command), d, d, True
        e.answers[self.seat] = (True, d)
        return message(FAST_ACCEPT, self.seat, ALL, self.seat, i, 0, e.value, d)

    def settle(self, log, i):
        if log > 1 or not 1 <= i <= 128:
            raise Refused(7)
        e = self.logs[log][i]
        if log != self.seat or e.state != 1 or e.promised != 0:
            raise Refused(13)
        if len(e.answers) < self.f + 1:
            raise Refused(14)
        return self.settles(log, i, e)

    def settles(self, log, i, e):
        given = [d for _, d in e.answers.values()]
        e.dependency = min(d for d in given if sum(x <= d for x in given) >= self.f + 1)
        e.state, e.accept_ballot = 2, 0
        e.accepts.add(self.seat)
        return message(ACCEPT, self.seat, ALL, log, i, 0, e.value, e.dependency)

    def takeover(self, log, i):
        if log > 1 or not 1 <= i <= 128:
            raise Refused(7)
        e = self.logs[log][i]
        if e.state == 3:
            raise Refused(15)
        known = [k for k in range(1, 129) if self.logs[log][k].state]
        known += [o.dependency for o in self.logs[1 - log][1:] if o.state]
        if i > max(known, default=0):
            raise Refused(16)
        b = next((r * 8 + self.seat for r in range(max(1, e.promised // 8), 8192) if r * 8 + self.seat > e.promised), None)
        if b is None:
            raise Refused(17)
        e.promised = b
        self.takeover_ = {"at": (log, i, b), "reports": {self.seat: self.report(e)}, "chosen": False, "accepts": set()}
        return message(PREPARE, self.seat, ALL, log, i, b)

    @staticmethod
    def report(e):
        if e.state == 2:
            return 2, e.accept_ballot, e.value, e.dependency
        if e.state == 1 and e.vote:
            return 1, 0, e.value, e.dependency
        return 0, 0, NOTHING, 0

    def holder(self, log, ballot):
        return log if ballot == 0 else ballot % 8

    def deliver(self, block):
        w, fault = read(block)
        if fault:
            raise Refused(*fault)
        kind, frm, to, log, i, ballot = w[:6]
        value, dependency, report, accept = w[6:12], w[12], w[13], w[14]
        if to not in (self.seat, ALL) or (kind in (2, 3, 5, 8) and self.holder(log, ballot) != self.seat):
            raise Refused(4)
        if frm >= self.n or frm == self.seat or (kind in (1, 4, 7) and self.holder(log, ballot) != frm):
            raise Refused(5)
        if any(b and b % 8 >= self.n for b in (ballot, accept)):
            raise Refused(5)
        e = self.logs[log][i]
        say = lambda k, **more: message(k, self.seat, frm, log, i, **more)
        if e.state == 3:
            if kind in (1, 4, 7):
                return say(COMMIT, value=e.value, dependency=e.dependency)
            if kind == COMMIT and (e.value, e.dependency) != (value, dependency):
                raise Refused(18)
            return None
        if (kind in (1, 4) and ballot < e.promised) or (kind == PREPARE and ballot <= e.promised):
            return say(REJECT, ballot=e.promised)
        if kind == FAST_ACCEPT:
            if e.state == 0:
                other = self.logs[1 - log]
                blocked = any(other[k].has_answered() and other[k].answered < i for k in range(dependency + 1, 129))
                e.vote = not blocked
                e.answered = self.highest_held(1 - log) if blocked else dependency
                e.state, e.value, e.dependency = 1, value, dependency
            elif e.state != 1:
                return None
            return say(FAST_OK) if e.vote else say(FAST_REPLY, dependency=e.answered)
        if kind in (FAST_OK, FAST_REPLY):
            if e.state != 1 or e.promised != 0 or frm in e.answers:
                return None
            e.answers[frm] = (True, e.dependency) if kind == FAST_OK else (False, dependency)
            if sum(v for v, _ in e.answers.values()) >= 2 * self.f:
                e.state = 3
                return message(COMMIT, self.seat, ALL, log, i, 0, e.value, e.dependency)
            if sum(not v for v, _ in e.answers.values()) >= 2 and len(e.answers) >= self.f + 1:
                return self.settles(log, i, e)
            return None
        if kind == ACCEPT:
            e.promised = e.accept_ballot = ballot
            e.value, e.dependency, e.state = value, dependency, 2
            return say(ACCEPT_OK, ballot=ballot)
        if kind == COMMIT:
            e.value, e.dependency, e.state = value, dependency, 3
            return None
        if kind == PREPARE:
            e.promised = ballot
            r, a, v, d = self.report(e)
            return say(PREPARE_OK, ballot=ballot, value=v, dependency=d, report=r, accept=a)
        if kind == REJECT:
            e.promised = max(e.promised, ballot)
            return None
        if kind == ACCEPT_OK and ballot == 0:
            if e.state != 2 or e.promised != 0:
                return None
            e.accepts.add(frm)
            return self.commits(log, i, e, e.accepts)
        t = self.takeover_
        if t is None or t["at"] != (log, i, ballot) or e.promised != ballot:
            return None
        if kind == ACCEPT_OK:
            if not t["chosen"]:
                return None
            t["accepts"].add(frm)
            return self.commits(log, i, e, t["accepts"])
        if t["chosen"] or frm in t["reports"]:
            return None
        t["reports"][frm] = (report, accept, value, dependency)
        if len(t["reports"]) < self.f + 1:
            return None
        return self.chooses(t, e)

    def commits(self, log, i, e, accepts):
        if len(accepts) < self.f + 1:
            return None
        e.state = 3
        return message(COMMIT, self.seat, ALL, log, i, 0, e.value, e.dependency)

    def chooses(self, t, e):
        log, i, ballot = t["at"]
        seats = sorted(t["reports"])
        accepted = [s for s in seats if t["reports"][s][0] == 2]
        votes = [s for s in seats if t["reports"][s][0] == 1]
        if accepted:
            top = max(t["reports"][s][1] for s in accepted)
            best = next(s for s in accepted if t["reports"][s][1] == top)
            _, _, value, dependency = t["reports"][best]
        elif len(votes) + (log not in t["reports"]) >= self.f + 1:
            _, _, value, dependency = t["reports"][votes[0]]
        else:
            value, dependency = NOOP, 0
        t["chosen"] = True
        t["accepts"] = {self.seat}
        e.state, e.accept_ballot, e.promised, e.value, e.dependency = 2, ballot, ballot, value, dependency
        return message(ACCEPT, self.seat, ALL, log, i, ballot, value, dependency)
