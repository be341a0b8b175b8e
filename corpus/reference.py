#!/usr/bin/env python3
"""An ordinary judge, pair by pair from the paper, rule 26 as request Q-3 mends it, the middle as request Q-4 names it, refusal 11 of request Q-5, edition 2 of request Q-6, its order by the conditions of request Q-7, the sizes of request Q-8, and with no proofs: the independent source of the corpus's expected reports.

reference.py < FILE          the report of one drawing file
reference.py --store FILE    the store's 4,608 numbers after the verdict, a line each
"""
import struct
import sys

LIMIT = {"n": 128, "t": 16, "p": 64}
SB, ASW, DD, CD, RF, SC, MO = range(7)
# the rules of each edition, in the order in which they are tested
RULES = {1: [*range(1, 27)], 2: [*range(1, 15), 16, 17, 18, *range(24, 37)]}


class Refused(Exception):
    pass


def head(s, at, kind, length):
    if len(s) < at + 4:
        raise Refused(1, at)
    got_length, got_kind = struct.unpack_from("<HH", s, at)
    if got_kind != kind:
        raise Refused(2, at)
    if got_length != length:
        raise Refused(3, at)
    if len(s) < at + 4 + length:
        raise Refused(1, at)


def row_bytes(n):
    """Bytes of a row in the file of n actions, the lowest first."""
    return 8 if n <= 64 else 16


def action(s, at, t, p):
    kind, order, thread, place, zero, read, written = struct.unpack_from("<BBHHHII", s, at)
    plain = kind in (1, 2, 6, 7)
    ok = 1 <= kind <= 8 and zero == 0 and thread < t
    ok = ok and (order == 0 if plain else 1 <= order <= 6)
    ok = ok and (place == 65535 if kind == 8 else place < p)
    ok = ok and (kind in (3, 5, 6) or read == 0) and (kind in (4, 5, 7) or written == 0)
    return ok, (kind, order, thread, place, read, written)


def decode(s):
    """Edition, N, place bytes, actions, the seven relations as sets of pairs; or Refused."""
    head(s, 0, 1, 8)
    edition, n, t, p = struct.unpack_from("<HHHH", s, 4)
    if edition not in RULES:
        raise Refused(4, 0)
    if n > LIMIT["n"] or t > LIMIT["t"] or p > LIMIT["p"]:
        raise Refused(5, 0)
    at = 12
    head(s, at, 2, p)
    places = list(s[at + 4:at + 4 + p])
    if any(b > 2 for b in places):
        raise Refused(6, at)
    at += 4 + p
    acts = []
    for _ in range(n):
        head(s, at, 3, 16)
        ok, x = action(s, at + 4, t, p)
        if not ok:
            raise Refused(6, at)
        acts.append(x)
        at += 20
    given, width = [], row_bytes(n)
    for k in range(7):
        head(s, at, 4, 2 + width * n)
        (number,) = struct.unpack_from("<H", s, at + 4)
        if number != k:
            raise Refused(6, at)
        rows = [int.from_bytes(s[i:i + width], "little") for i in range(at + 6, at + 6 + width * n, width)]
        if any(row >> n for row in rows):
            raise Refused(7, at)
        given.append({(a, b) for a in range(n) for b in range(n) if rows[a] >> b & 1})
        if k == ASW and any(acts[a][2] == acts[b][2] for a, b in given[ASW]):
            raise Refused(11, at)
        at += 6 + width * n
    head(s, at, 5, 0)
    if len(s) > at + 4:
        raise Refused(8, at + 4)
    return edition, n, places, acts, given


def closure(n, r):
    out = [{b for b in range(n) if (a, b) in r} for a in range(n)]
    seen = set()
    for a in range(n):
        todo, reached = list(out[a]), set()
        while todo:
            b = todo.pop()
            if b not in reached:
                reached.add(b)
                todo.extend(out[b])
        seen |= {(a, b) for b in reached}
    return seen


def then(r, s):
    after = {}
    for a, b in s:
        after.setdefault(a, []).append(b)
    return {(a, c) for a, b in r for c in after.get(b, ())}


class Judge:
    def __init__(self, edition, n, places, acts, given):
        self.edition, self.n, self.acts, self.given = edition, n, acts, given
        self.all = range(n)
        self.kind = [x[0] for x in acts]
        self.order = [x[1] for x in acts]
        self.at = [None if x[0] == 8 else places[x[3]] for x in acts]
        every = set(self.all)
        of = lambda *ks: {a for a in every if self.kind[a] in ks}
        with_order = lambda *os: {a for a in every if self.order[a] in os}
        self.read, self.write, self.atomic, self.plain = of(3, 5, 6), of(4, 5, 7), of(3, 4, 5), of(6, 7)
        self.fence, self.lock, self.unlock, self.rmw = of(8), of(1), of(2), of(5)
        self.seq_cst = with_order(6)
        self.sc_action = self.seq_cst | self.lock | self.unlock
        self.acquire = ((self.read | self.fence) & with_order(3, 5, 6)) | (self.fence & with_order(2)) | self.lock
        self.release = ((self.write | self.fence) & with_order(4, 5, 6)) | self.unlock
        self.consume = self.read & with_order(2)
        self.derive()

    def place(self, a, b):
        return self.at[a] is not None and self.at[b] is not None and self.acts[a][3] == self.acts[b][3]

    def thread(self, a, b):
        return self.acts[a][2] == self.acts[b][2]

    def kept(self, r, kind):
        """r kept to the actions of one place of this kind."""
        return {(a, b) for a, b in r if self.at[a] == kind and self.place(a, b)}

    def derive(self):
        n, (sb, asw, dd, cd, rf, sc, mo) = self.n, self.given
        all_ = self.all
        pairs = [(a, b) for a in all_ for b in all_]
        goes_on = lambda a, c: self.thread(a, c) or c in self.rmw
        between = {}
        for a, c in mo:
            for b in all_:
                if (c, b) in mo:
                    between.setdefault((a, b), []).append(c)
        hrs = {(a, b) for a, b in pairs if self.at[b] == 2 and (a == b or ((a, b) in mo and goes_on(a, b) and all(goes_on(a, c) for c in between.get((a, b), ()))))}
        rs = {(a, b) for a, b in hrs if a in self.release}
        hrs_rf, rs_rf = then(hrs, rf), then(rs, rf)
        atomic_write = self.atomic & self.write
        sw = set(asw)
        sw |= {(a, b) for a, b in sc if self.place(a, b) and a in self.unlock and b in self.lock}
        sw |= {(a, b) for a, b in rs_rf if self.place(a, b) and a in self.release and b in self.acquire and not self.thread(a, b)}
        for a in self.fence & self.release:
            for x in atomic_write:
                if (a, x) not in sb:
                    continue
                for y in all_:
                    if (x, y) in hrs_rf and self.place(x, y) and y in self.atomic:
                        if y in self.acquire:
                            sw.add((a, y))
                        sw |= {(a, b) for b in self.fence & self.acquire if (y, b) in sb}
        for a in self.atomic & self.release:
            for x in self.atomic:
                if (a, x) in rs_rf and self.place(a, x):
                    sw |= {(a, b) for b in self.fence & self.acquire if (x, b) in sb}
        cad = closure(n, (rf & sb) | dd)
        dob = set()
        for a, b in rs_rf:
            if a in self.release and b in self.consume:
                dob.add((a, b))
                dob |= {(a, d) for d in all_ if (b, d) in cad}
        r = sw | dob | then(sw, sb)
        ithb = closure(n, r | then(sb, r))
        hb = sb | ithb
        vse = set()
        for a, b in hb:
            if a in self.write and b in self.read and self.place(a, b):
                if not any(c in self.write and c not in (a, b) and self.place(c, a) and (a, c) in hb and (c, b) in hb for c in all_):
                    vse.add((a, b))
        vsse = set()
        for v, b in vse:
            if self.at[b] == 2:
                vsse.add((v, b))
                for c in all_:
                    if (v, c) in mo and (b, c) not in hb and not any((v, a) in mo and (a, c) in mo and (b, a) in hb for a in all_):
                        vsse.add((c, b))
        data, unsequenced = set(), set()
        for a, b in pairs:
            if self.place(a, b) and (a in self.write or b in self.write):
                if not self.thread(a, b) and not (a in self.atomic and b in self.atomic) and (a, b) not in hb and (b, a) not in hb:
                    data.add((a, b))
                if a != b and self.thread(a, b) and a in self.plain and b in self.plain and (a, b) not in sb and (b, a) not in sb:
                    unsequenced.add((a, b))
        self.derived = [rs, hrs, sw, cad, dob, ithb, hb, vse, vsse, data, unsequenced]

    def strict(self, r):
        return {(a, b) for a, b in r if a == b} | {p for p in then(r, r) if p not in r}

    def total(self, inside, r):
        out = self.strict(r) | {(a, b) for a, b in r if not inside(a, b)}
        return out | {(a, b) for a in self.all for b in range(a + 1, self.n) if inside(a, b) and (a, b) not in r and (b, a) not in r}

    def unfed(self, source, b):
        rf = self.given[RF]
        sources = {a for a in self.all if (a, b) in source}
        if sources:
            return not any((a, b) in rf for a in sources)
        return any((a, b) in rf for a in self.all)

    def rule(self, k):
        sb, asw, dd, cd, rf, sc, mo = self.given
        rs, hrs, sw, cad, dob, ithb, hb, vse, vsse, data, unsequenced = self.derived
        one = lambda f: {(a, a) for a in self.all if f(a)}
        of_mutex = lambda a, b: self.at[a] == 0 and self.place(a, b)
        of_atomic = lambda a, b: self.at[a] == 2 and self.place(a, b)
        writes_of = lambda a, b: of_atomic(a, b) and a in self.write and b in self.write
        turns = self.kept(sc, 0)
        immediate = lambda r: r - then(r, r)
        up_to = lambda a, y: a == y or (a, y) in mo
        sc_fence = self.fence & self.seq_cst
        if k == 1:
            return one(lambda a: (self.kind[a] == 3 and self.order[a] not in (1, 2, 3, 6)) or (self.kind[a] == 4 and self.order[a] not in (1, 4, 6)))
        if k == 2:
            allowed = {0: (1, 2), 1: (6, 7), 2: (3, 4, 5, 6, 7)}
            return one(lambda a: self.at[a] is not None and self.kind[a] not in allowed[self.at[a]])
        if k == 3:
            return {(a, b) for a, b in sb | dd | cd if not self.thread(a, b)}
        if k == 4:
            return self.strict(sb) | self.strict(dd) | self.strict(cd)
        if k == 5:
            return dd - sb
        if k == 6:
            return self.total(of_mutex, turns)
        if k == 7:
            near = immediate(turns)
            return one(lambda a: a in self.unlock and not any((p, a) in near and p in self.lock and self.thread(p, a) for p in self.all))
        if k == 8:
            return {(p, a) for p, a in immediate(turns) if a in self.lock and p not in self.unlock}
        if k == 9:
            return one(lambda a: (a, a) in ithb)
        if k == 10:
            return self.total(lambda a, b: a in self.sc_action and b in self.sc_action, sc)
        if k in (11, 12):
            return {(a, b) for a, b in (hb if k == 11 else mo) if a in self.sc_action and b in self.sc_action and (a, b) not in sc}
        if k == 13:
            return {(a, b) for a, b in mo if not (a != b and writes_of(a, b))}
        if k == 14:
            return self.total(writes_of, self.kept(mo, 2))
        if k == 15:
            return {(a, b) for a, b in hb if writes_of(a, b) and (a, b) not in mo}
        if k == 16:
            fences = {(f, g) for f, g in sc if f in self.fence and g in self.fence}
            return {(a, b) for a, b in then(then(sb, fences), sb) if writes_of(a, b) and (a, b) not in mo}
        if k == 17:
            def fits(a, b):
                if not self.place(a, b) or a == b:
                    return False
                if self.at[a] == 0:
                    return a in self.unlock and b in self.lock
                return a in self.write and b in self.read and self.acts[a][5] == self.acts[b][4]
            return {(a, b) for a, b in rf if not fits(a, b)}
        if k == 18:
            return {(a, b) for a, b in rf if any(c != a and (c, b) in rf for c in self.all)}
        if k == 19:
            return one(lambda b: b in self.read and self.at[b] == 1 and self.unfed(vse, b))
        if k == 20:
            return one(lambda b: b in self.read and self.at[b] == 2 and self.unfed(vsse, b))
        if k == 21:
            return {(a, b) for x, a in rf for y, b in rf if not up_to(x, y) and (a, b) in hb and of_atomic(a, b)}
        if k == 22:
            near = immediate(mo)
            return {(a, b) for a, b in rf if b in self.rmw and (a, b) not in near}
        if k == 23:
            return {(a, b) for a, b in rf if a in self.seq_cst and b in self.seq_cst and not self.last_of_sc(a, b)}
        reads = [(y, b) for y, b in rf if b in self.atomic]
        if k == 24:
            return {(y, b) for y, b in reads for f in sc_fence if (f, b) in sb for a in self.write if self.place(a, b) and (a, f) in sc and not up_to(a, y)}
        atomic_write = self.atomic & self.write
        if k == 25:
            return {(y, b) for y, b in reads for f in sc_fence if (f, b) in sc for a in atomic_write if self.place(a, b) and (a, f) in sb and not up_to(a, y)}
        if k == 26:
            return {(y, b) for y, b in reads for g in sc_fence if (g, b) in sb for f in sc_fence if (f, g) in sc for a in atomic_write if self.place(a, b) and (a, f) in sb and not up_to(a, y)}
        return self.final_rule(k)

    def last_of_sc(self, a, b):
        """a sc b and no write of b's place between in sc."""
        sc = self.given[SC]
        return (a, b) in sc and not any(c in self.write and self.place(c, b) and (a, c) in sc and (c, b) in sc for c in self.all)

    def final_rule(self, k):
        """The rules that only edition 2 has, by the words of request Q-6 and the axioms of source document 004."""
        rf, sc, mo = self.given[RF:]
        hb, vse = self.derived[6:8]
        later = lambda r, a: [b for b in self.all if (a, b) in r]
        if k == 27:
            ways = closure(self.n, hb)
            return {(a, a) for a in self.all if (a, a) in ways}
        if k == 28:
            sourced, seeing = {r for _, r in rf}, {r for _, r in vse}
            return {(r, r) for r in self.all if self.kind[r] in (3, 6) and (r in sourced) != (r in seeing)}
        if k == 29:
            return {(w, r) for w, r in rf if self.at[r] == 1 and (w, r) not in vse}
        if k == 30:
            return {(w, r) for w, r in rf if self.at[r] == 2 and (r, w) in hb}
        if k == 31:
            near = mo - then(mo, mo)
            return {(w, r) for w in self.all for r in self.rmw if ((w, r) in rf) != ((w, r) in near)}
        if k == 32:
            def restricted(w, r):
                if w in self.seq_cst:
                    return self.last_of_sc(w, r)
                return not any(x in self.write and self.place(x, r) and (w, x) in hb and (x, r) in sc for x in self.all)
            return {(w, r) for w, r in rf if r in self.read & self.seq_cst and not restricted(w, r)}
        if k == 33:
            return {(w, x) for w, x in hb if (x, w) in mo}
        if k == 34:
            return {(x, r) for x, r in rf if any((w, r) in hb for w in later(mo, x))}
        if k == 35:
            return {(x, r) for x, r in rf if any((w, x) in mo for w in later(hb, r))}
        if k == 36:
            return {(r, s) for w, r in rf for s in later(hb, r) for x, y in rf if y == s and (x, w) in mo}

    def tested(self, k, a, b):
        """The relation that rule k tests for an order, in rule 4 the first to offend at (a, b); empty for the rules that test none."""
        sb, asw, dd, cd, rf, sc, mo = self.given
        if k == 4:
            return next(r for r in (sb, dd, cd) if (a, b) in self.strict(r))
        return {6: self.kept(sc, 0), 10: sc, 14: self.kept(mo, 2)}.get(k, set())

    def middle(self, r, a, b):
        """The least z with a to z to b in r where a to b is not; or None."""
        if (a, b) in r:
            return None
        return min((z for z in self.all if (a, z) in r and (z, b) in r), default=None)

    def verdict(self):
        """The lowest rule broken, its least pair, and the middle or None; or None if every rule holds."""
        for k in RULES[self.edition]:
            offences = self.rule(k)
            if offences:
                a, b = min(offences)
                return k, a, b, self.middle(self.tested(k, a, b), a, b)
        return None

    def indeterminate(self):
        fed = {b for _, b in self.given[RF]}
        return sorted(self.read - fed)

    def fit(self):
        """The accesses are as the edition asks where it gives a serial order."""
        if self.edition == 1:
            return all(self.at[a] != 2 or (a in self.atomic and a in self.seq_cst) for a in self.all)
        sequenced = all((a, b) in self.given[SB] or (b, a) in self.given[SB] for a in self.plain for b in self.atomic
                        if self.thread(a, b) and self.place(a, b) and (a in self.write or b in self.write))
        return self.atomic <= self.seq_cst and sequenced

    def serial(self, verdict):
        """The serial order, or None where none is due."""
        data, unsequenced = self.derived[9], self.derived[10]
        if verdict or data or unsequenced or self.indeterminate() or self.fence or not self.fit():
            return None
        before, left, order = self.derived[6] | self.given[SC], set(self.all), []
        while left:
            a = min(a for a in left if not any((z, a) in before for z in left))
            left.remove(a)
            order.append(a)
        return order

    def report(self):
        verdict = self.verdict()
        races = [sorted((a, b) for a, b in r if a < b) for r in (self.derived[10], self.derived[9])]
        bare, order = self.indeterminate(), self.serial(verdict)
        lines = [" ".join(["inconsistent"] + [str(x) for x in verdict if x is not None]) if verdict else "consistent"]
        lines.append("found %d %d %d" % (len(bare), len(races[0]), len(races[1])))
        lines += ["indeterminate %d" % a for a in bare]
        lines += ["unsequenced %d %d" % p for p in races[0]] + ["data %d %d" % p for p in races[1]]
        lines.append("no order" if order is None else " ".join(["order"] + [str(a) for a in order]))
        return "".join(line + "\n" for line in lines)

    def store(self):
        """Two numbers of 64 bits to a row, the low half first."""
        numbers = []
        for r in self.given + self.derived:
            rows = [0] * LIMIT["n"]
            for a, b in r:
                rows[a] |= 1 << b
            for row in rows:
                numbers += [row % 2 ** 64, row >> 64]
        return numbers


def report(s):
    try:
        return Judge(*decode(s)).report()
    except Refused as e:
        return "refused %d %d\n" % e.args


if __name__ == "__main__":
    if sys.argv[1:2] == ["--store"]:
        print("\n".join(map(str, Judge(*decode(open(sys.argv[2], "rb").read())).store())))
    else:
        sys.stdout.write(report(sys.stdin.buffer.read()))
