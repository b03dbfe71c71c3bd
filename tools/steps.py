"""Document 01's refusals and steps, with a map's own limits and a counter for each poster (document 02, No. 1 and 2): the one model that the
scripts beside it share. An answer is its four numbers, as in crates/steps/specs/Coded.antt."""
ROUNDS, MEMBERS, POSTERS, CEILING = 1024, 256, 16, 4294967295
ADDING = ("append", "insert", "insert_all", "occupied_append", "occupied_insert", "vacant_insert")


def refused(number):
    return (0, number, 0, 0)


NONE, DONE = (1, 0, 0, 0), (2, 0, 0, 0)


def first(record):
    return (3, record[0], 0, 0) if record else NONE


def count(n):
    return (4, n, 0, 0)


def write(out, values):
    out[: len(values)] = values
    return count(len(values))


def make(members, rounds):
    """The answer to the making of a map with these limits, and the map."""
    if members > MEMBERS or rounds > ROUNDS:
        return refused(15), Steps(0, 0)
    return DONE, Steps(members, rounds)


class Steps:
    def __init__(self, most_members=MEMBERS, most_rounds=ROUNDS):
        self.most_members = most_members
        self.most_rounds = most_rounds
        self.pairs = []
        self.members = []
        self.taken_in = [0] * POSTERS
        # the rounds of each poster that were accepted, and those handed out and dropped
        self.accepted = [0] * POSTERS
        self.handed = self.dropped = 0

    def full(self):
        return len(self.pairs) >= self.most_rounds

    def crowded(self):
        return len(self.members) >= self.most_members

    def record(self, k):
        return [v for j, v in self.pairs if j == k]

    def add(self, poster, k, v):
        self.pairs.append((k, v))
        if k not in self.members:
            self.members.append(k)
        self.taken_in[poster] = min(self.taken_in[poster] + 1, CEILING)

    def leave(self, k):
        """k's pairs leave P; K is left alone."""
        old = self.record(k)
        self.pairs = [p for p in self.pairs if p[0] != k]
        return old

    def settle(self):
        """Members without a pair leave K."""
        held = {k for k, _ in self.pairs}
        self.members = [k for k in self.members if k in held]

    def rows(self, name, poster, k, v, out, out2, marks):
        """The table of refusals: the rows that are this call's, in order."""
        present = k in self.members
        if name in ADDING:
            yield 16, poster >= POSTERS
        if name.startswith("occupied"):
            yield 9, not present
        if name == "vacant_insert":
            yield 10, present
        if name in ("append", "occupied_append") or (name in ("insert", "insert_all", "vacant_insert") and not present):
            yield 1, self.full()
            yield 2, not present and self.crowded()
        if name in ("insert_all", "remove_all", "get_all"):
            yield 3, len(out) < len(self.record(k))
        if name == "keys":
            yield 3, len(out) < len(self.members)
        if name == "iter":
            yield 3, min(len(out), len(out2)) < len(self.pairs)
        if name == "retain":
            yield 7, len(marks) != len(self.pairs)
            yield 8, any(mark not in (0, 1) for mark in marks)
        if name == "pack_to":
            yield 4, k < len(self.members)
            yield 5, v < len(self.pairs)
            yield 6, k > self.most_members or v > self.most_rounds

    def call(self, name, poster, k, v, out, out2, marks):
        """The answer's four numbers; the lent slices are written in place. A call that adds nothing has no use for its poster."""
        for number, holds in self.rows(name, poster, k, v, out, out2, marks):
            if holds:
                return refused(number)
        old, held = len(self.record(k)), len(self.pairs)
        said = getattr(self, name)(poster, k, v, out, out2, marks)
        self.account(name, poster, old, held, said, marks)
        return said

    def account(self, name, poster, old, held, said, marks):
        """Counts what an accepted call took in, handed out and dropped, by k's record and all rounds before it. The rounds accepted of all
        posters are those held, handed out and dropped together, and each counter of T is its poster's, up to the ceiling."""
        if name in ADDING:
            self.accepted[poster] += 1
        if name in ("insert", "occupied_insert", "remove", "occupied_remove_entry"):
            self.handed += min(old, 1)
            self.dropped += max(old - 1, 0)
        if name in ("insert_all", "remove_all"):
            self.handed += old
        if name in ("pop_front", "pop_back"):
            self.handed += said != NONE
        if name == "retain":
            self.dropped += marks.count(0)
        if name == "clear":
            self.dropped += held
        assert sum(self.accepted) == len(self.pairs) + self.handed + self.dropped
        assert self.taken_in == [min(n, CEILING) for n in self.accepted]

    def append(self, poster, k, v, out, out2, marks):
        present = k in self.members
        self.add(poster, k, v)
        return (5, int(present), 0, 0)

    def insert(self, poster, k, v, out, out2, marks):
        old = self.leave(k)
        self.add(poster, k, v)
        return first(old)

    def insert_all(self, poster, k, v, out, out2, marks):
        old = self.leave(k)
        self.add(poster, k, v)
        return write(out, old)

    def remove(self, poster, k, v, out, out2, marks):
        old = self.leave(k)
        self.settle()
        return first(old)

    def remove_all(self, poster, k, v, out, out2, marks):
        old = self.leave(k)
        self.settle()
        return write(out, old)

    def entry(self, poster, k, v, out, out2, marks):
        return (7, len(self.record(k)), 0, 0) if k in self.members else (8, k, 0, 0)

    def occupied_append(self, poster, k, v, out, out2, marks):
        self.add(poster, k, v)
        return DONE

    vacant_insert = occupied_append
    occupied_insert = insert
    occupied_remove_entry = remove

    def pop(self, at):
        if not self.pairs:
            return NONE
        k, v = self.pairs.pop(at)
        self.settle()
        return (6, k, v, int(k not in self.members))

    def pop_front(self, poster, k, v, out, out2, marks):
        return self.pop(0)

    def pop_back(self, poster, k, v, out, out2, marks):
        return self.pop(-1)

    def retain(self, poster, k, v, out, out2, marks):
        self.pairs = [p for p, mark in zip(self.pairs, marks) if mark == 1]
        self.settle()
        return count(len(self.pairs))

    def pack_to(self, poster, k, v, out, out2, marks):
        return DONE

    def clear(self, poster, k, v, out, out2, marks):
        self.pairs = []
        self.members = []
        return DONE

    def get(self, poster, k, v, out, out2, marks):
        return first(self.record(k))

    def get_all(self, poster, k, v, out, out2, marks):
        return write(out, self.record(k))

    def entry_len(self, poster, k, v, out, out2, marks):
        return count(len(self.record(k)))

    def contains_key(self, poster, k, v, out, out2, marks):
        return (5, int(k in self.members), 0, 0)

    def keys(self, poster, k, v, out, out2, marks):
        return write(out, self.members)

    def keys_len(self, poster, k, v, out, out2, marks):
        return count(len(self.members))

    def values_len(self, poster, k, v, out, out2, marks):
        return count(len(self.pairs))

    def iter(self, poster, k, v, out, out2, marks):
        write(out, [k for k, _ in self.pairs])
        return write(out2, [v for _, v in self.pairs])

    def taken(self, poster, k, v, out, out2, marks):
        """As many counters as the slice holds."""
        return write(out, self.taken_in[: len(out)])
