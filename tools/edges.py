#!/usr/bin/env python3
"""What crates/stored_lists reads and must print, by the model in steps.py: `python3 tools/edges.py`, which writes the first part of
crates/stored_lists/stdin and stdout, up to the list called "the crate's own answers". The lists from there on are oracle/driver/sample.rs's.

How a list of calls is written as text, and what is printed of it, is in crates/tapes/specs; the numbers of a call are in
crates/replay/specs/Tape.antt, those of an answer in crates/steps/specs/Coded.antt. In front of a call's seven numbers stands its name; a
program that reads the text passes over it.

The ceiling of T's counters, 4,294,967,295, is out of reach here: a counter grows by one with a call, and a list has a few thousand at most.
That each counter is the number of its poster's accepted rounds, up to its ceiling, is proved of every list: `taken_counts`
(crates/steps/proofs/Taken.antt) of the steps, `counted` of `Obeys` (crates/steps/specs/Trace.antt) of the map.
"""
import os

from steps import ADDING, MEMBERS, POSTERS, ROUNDS, make

TOP = 2**64 - 1
CALLS = """append insert insert_all remove remove_all entry occupied_append occupied_insert occupied_remove_entry vacant_insert pop_front pop_back
retain pack_to clear get get_all entry_len contains_key keys keys_len values_len iter taken""".split()
LENDING = ("insert_all", "remove_all", "get_all", "keys", "iter", "taken")
# the numbers of a call
WIDTH = 7


# --- lists of calls

def numbers(values):
    return " ".join(str(v) for v in values)


def rows(width, values):
    return "".join("\n" + numbers(values[i : i + width]) for i in range(0, len(values), width))


class Calls:
    """A list under construction, on a new map with limits. Each place of a slice holds a number of its own before the run, and the answers
    hold nines."""

    def __init__(self, name, members=MEMBERS, rounds=ROUNDS):
        assert ";" not in name
        self.name = name
        self.limits = (members, rounds)
        self.words = []
        self.numbers = []
        self.outs = []
        self.outs2 = []
        self.marks = []
        self.room = None
        # the steps after what is written so far, to size slices by
        self.steps = self.new()

    def new(self):
        """The map that a list begins on: after a refused making it is there too."""
        return make(*self.limits)[1]

    def raw(self, word, *seven):
        self.words.append(word)
        self.numbers += seven

    def lend(self, n, n2=0):
        out = [9000 + len(self.outs) + i for i in range(n)]
        out2 = [20000 + len(self.outs2) + i for i in range(n2)]
        self.outs += out
        self.outs2 += out2
        return out, out2

    def do(self, name, k=0, v=0, n=0, n2=0, marks="", poster=0):
        """Makes the call; was it accepted?"""
        marks = [int(mark) for mark in marks]
        self.raw(name, CALLS.index(name), poster, k, v, n, n2, len(marks))
        self.marks += marks
        out, out2 = self.lend(n, n2)
        return self.steps.call(name, poster, k, v, out, out2, marks)[0] != 0

    def fill(self, rounds, members, start=0):
        for i in range(rounds):
            self.do("append", members[i % len(members)], start + i)

    def taken(self, n=POSTERS):
        self.do("taken", n=n)

    def sizes(self):
        for name in ("values_len", "keys_len"):
            self.do(name)
        self.taken()

    def show(self):
        """All that the map shows of P and K, into slices as long as needed."""
        self.do("iter", n=len(self.steps.pairs), n2=len(self.steps.pairs))
        self.do("keys", n=len(self.steps.members))

    def text(self):
        lines = []
        for i in range(0, len(self.numbers), WIDTH):
            lines.append(self.words[i // WIDTH] + " " + numbers(self.numbers[i : i + WIDTH]))
        return "%s; limits %s;\n%s\n; outs%s\n; second outs%s\n; marks%s\n; answers%s\n;" % (
            self.name, numbers(self.limits), "\n".join(lines), rows(32, self.outs), rows(32, self.outs2), rows(32, self.marks), rows(32, self.answers()))

    def answers(self):
        return [9] * (4 * len(self.words) if self.room is None else self.room)

    def run(self):
        """What the program prints: the calls are run up to the first that is none, or whose slices, marks or room for an answer are missing."""
        steps, answers, outs, outs2 = self.new(), self.answers(), list(self.outs), list(self.outs2)
        at = at2 = mark = ran = 0
        while len(self.numbers) >= WIDTH * (ran + 1):
            op, poster, k, v, n, n2, n3 = self.numbers[WIDTH * ran : WIDTH * (ran + 1)]
            known = op < len(CALLS) and (CALLS[op] in LENDING or n == 0) and (CALLS[op] == "iter" or n2 == 0) and (CALLS[op] == "retain" or n3 == 0)
            if not known or n > len(outs) - at or n2 > len(outs2) - at2 or n3 > len(self.marks) - mark or len(answers) - 4 * ran < 4:
                break
            out, out2 = outs[at : at + n], outs2[at2 : at2 + n2]
            answers[4 * ran : 4 * ran + 4] = steps.call(CALLS[op], poster, k, v, out, out2, self.marks[mark : mark + n3])
            outs[at : at + n], outs2[at2 : at2 + n2] = out, out2
            at, at2, mark, ran = at + n, at2 + n2, mark + n3, ran + 1
        return "%s ran %d%s\nouts%s\nouts2%s\n" % (self.name, ran, rows(4, answers), rows(16, outs), rows(16, outs2))


# --- the edges

def adding(calls, known, new, poster=0):
    """Every call that may add, of a member that is there and of one that is not."""
    for k in (known, new):
        for name in ("append", "occupied_append", "vacant_insert"):
            calls.do(name, k, 1, poster=poster)
    calls.do("insert", new, 1, poster=poster)
    calls.do("insert_all", new, 1, poster=poster)
    calls.do("occupied_insert", new, 1, poster=poster)


def most_rounds():
    calls = Calls("with 1,023 rounds a known member's append passes, with 1,024 none does")
    calls.fill(1023, [5, 6, 7])
    calls.sizes()
    calls.do("append", 6, 1)
    calls.sizes()
    adding(calls, 6, 8)
    # the old pairs make way first: a present member is never refused by 1
    calls.do("insert_all", 6, 2, n=len(calls.steps.record(6)) - 1)
    calls.do("insert_all", 6, 2, n=len(calls.steps.record(6)))
    calls.sizes()
    calls.do("append", 8, 3)
    calls.fill(1024 - len(calls.steps.pairs), [8])
    calls.do("insert", 5, 4)
    calls.fill(1024 - len(calls.steps.pairs), [9])
    calls.do("occupied_insert", 7, 5)
    calls.sizes()
    calls.do("get", 7)
    return calls


def most_members():
    calls = Calls("with 256 members and 300 rounds a new one gets 2, a known one passes")
    members = [1000 + 7 * i for i in range(256)]
    calls.fill(300, members)
    calls.sizes()
    adding(calls, members[3], 5)
    calls.do("keys", n=255)
    calls.do("keys", n=256)
    # the last member's only round goes, and another may join; then it is full again
    calls.do("remove", members[255])
    calls.do("append", 5, 1)
    calls.do("append", 6, 1)
    calls.do("insert_all", members[0], 1, n=2)
    calls.sizes()
    return calls


def both_full():
    calls = Calls("with 1,024 rounds and 256 members, 16 comes before 9 and 10, these before 1, and 1 before 2")
    calls.fill(1024, list(range(256)))
    adding(calls, 3, 256, POSTERS)
    adding(calls, 3, 256)
    calls.do("insert_all", 3, 1, n=3)
    calls.do("pop_front")
    adding(calls, 3, 256, TOP)
    adding(calls, 3, 256, POSTERS - 1)
    calls.do("remove_all", 4, n=4)
    calls.do("vacant_insert", 256, 1)
    calls.do("vacant_insert", 257, 1)
    calls.sizes()
    return calls


def refusals():
    calls = Calls("refusals 3 to 10 on three rounds of two members, and their order")
    calls.do("append", 7, 10)
    calls.do("append", 9, 20)
    calls.do("append", 7, 11)
    for name in ("occupied_append", "occupied_insert", "occupied_remove_entry"):
        calls.do(name, 8, 1)
    calls.do("vacant_insert", 7, 1)
    for marks in ("", "11", "1111", "2", "1112", "211", "121", "112", "999", "000"):
        calls.do("retain", marks=marks)
        calls.show()
    calls.do("append", 7, 10)
    calls.do("append", 9, 20)
    calls.do("append", 7, 11)
    for k, v in ((1, 3), (2, 2), (1, 2), (0, 0), (257, 3), (2, 1025), (257, 1025), (257, 2), (1, 1025), (TOP, TOP), (TOP, 0), (0, TOP), (2, 3), (256, 1024), (2, 1024), (256, 3)):
        calls.do("pack_to", k, v)
    calls.show()
    return calls


def slices():
    calls = Calls("slices as long as needed, one short, longer, empty")
    calls.fill(5, [7, 9])
    for spare in (0, -1, -2, 2, 6):
        calls.do("get_all", 7, n=max(0, 3 + spare))
        calls.do("keys", n=max(0, 2 + spare))
        for other in (0, -1, 2, -5):
            calls.do("iter", n=max(0, 5 + spare), n2=max(0, 5 + other))
            calls.do("iter", n=max(0, 5 + other), n2=max(0, 5 + spare))
    # of an absent member: no slice is too short
    for n in (0, 2):
        for name in ("get_all", "remove_all"):
            calls.do(name, 8, n=n)
    for n in (0, 2, 3):
        calls.do("insert_all", 7, 50, n=n)
    calls.do("insert_all", 7, 51, n=4)
    for n in (0, 1, 2):
        calls.do("remove_all", 9, n=n)
    calls.do("remove_all", 7, n=3)
    calls.do("insert_all", 7, 52)
    for name in ("get_all", "keys"):
        calls.do(name, 7)
    calls.do("clear")
    for name in ("get_all", "remove_all", "insert_all"):
        calls.do(name, 7)
    calls.do("clear")
    calls.do("keys")
    calls.do("iter")
    return calls


def again():
    calls = Calls("fill, empty and fill again, and again after pack_to")
    calls.fill(1024, list(range(256)))
    for _ in range(512):
        calls.do("pop_front")
        calls.do("pop_back")
    calls.do("pop_front")
    calls.do("pop_back")
    calls.sizes()
    calls.fill(1024, [1000 + i for i in range(255)])
    calls.do("append", 1000, 1)
    calls.do("pack_to", 255, 1024)
    calls.do("retain", marks="01" * 512)
    calls.do("pack_to", 256, 512)
    calls.fill(512, [2000])
    calls.do("append", 2000, 1)
    calls.sizes()
    calls.show()
    calls.do("retain", marks="0" * 1024)
    calls.do("pack_to", 0, 0)
    calls.fill(256, [3000 + i for i in range(256)])
    calls.do("append", 1, 1)
    calls.do("pack_to", 256, 1024)
    for i in range(0, 256, 2):
        calls.do("remove", 3000 + i)
    for i in range(128):
        calls.do("append", 4000 + i, i)
    calls.do("append", 1, 1)
    calls.sizes()
    calls.show()
    calls.do("clear")
    calls.sizes()
    calls.do("pack_to", 0, 0)
    calls.do("append", 1, 1)
    calls.show()
    return calls


KEPT = [(1, 10), (2, 20), (1, 11), (1, 12), (2, 21), (3, 30)]


def retained():
    calls = Calls("retain of 1:10 2:20 1:11 1:12 2:21 3:30: none, first, last, neighbours of a record, whole records, all, and more calls after each")
    for marks in ("111111", "011111", "111110", "010111", "110011", "101101", "011110", "010011", "101100", "010010", "001100", "000001", "000000"):
        for k, v in KEPT:
            calls.do("append", k, v)
        calls.do("retain", marks=marks)
        calls.show()
        for k in (1, 2, 3):
            calls.do("get_all", k, n=len(calls.steps.record(k)))
        calls.do("append", 1, 40)
        calls.do("append", 3, 41)
        calls.do("insert", 2, 42)
        calls.do("pop_front")
        calls.do("pop_back")
        calls.show()
        calls.do("clear")
    return calls


def every_marks():
    calls = Calls("retain of the same rounds with every marks")
    for bits in range(64):
        for k, v in KEPT:
            calls.do("append", k, v)
        calls.do("retain", marks=format(bits, "06b"))
        calls.show()
        calls.do("clear")
    return calls


def ends_of_numbers():
    calls = Calls("members and rounds 0 and 2^64 - 1")
    for name in ("append", "vacant_insert", "occupied_append", "insert", "occupied_insert"):
        for k in (0, TOP):
            for v in (TOP, 0):
                calls.do(name, k, v)
        calls.show()
    for k in (0, TOP, TOP - 1):
        for name in ("entry", "get", "entry_len", "contains_key", "occupied_remove_entry"):
            calls.do(name, k)
        calls.do("insert_all", k, TOP - k, n=2)
        calls.do("remove_all", k, n=2)
    calls.do("append", TOP, TOP)
    calls.do("append", 0, 0)
    calls.do("pop_front")
    calls.do("pop_back")
    return calls


def taken():
    calls = Calls("T counts the rounds taken in, for their posters, and nothing else")
    calls.taken()
    for poster, (name, k, more) in enumerate((
        ("append", 1, {}), ("append", 1, {}), ("insert", 1, {}), ("insert", 2, {}), ("insert_all", 1, {"n": 1}), ("insert_all", 3, {}),
        ("vacant_insert", 4, {}), ("occupied_append", 4, {}), ("occupied_insert", 4, {}),
        ("occupied_append", 5, {}), ("occupied_insert", 5, {}), ("vacant_insert", 4, {}), ("insert_all", 4, {"n": 0}),
        ("entry", 1, {}), ("get", 1, {}), ("get_all", 1, {"n": 1}), ("pack_to", 256, {"v": 1024}), ("pack_to", 0, {}), ("retain", 0, {"marks": "1011"}),
        ("pop_front", 0, {}), ("pop_back", 0, {}), ("remove", 3, {}), ("remove_all", 3, {}), ("occupied_remove_entry", 4, {}), ("append", 6, {}),
        ("clear", 0, {}), ("append", 6, {}),
    )):
        calls.do(name, k, poster=poster % POSTERS, **more)
        calls.taken()
    return calls


def taken_slices():
    """T from every poster, to slices shorter than sixteen numbers, as long and longer; and after calls that leave it."""
    calls = Calls("T in slices of 0, 3, 15, 16, 17 and 20, each poster with a count of its own, and after clear, pack_to and refused adds")
    for poster in range(POSTERS):
        for _ in range(poster):
            calls.do("append", poster, 1, poster=poster)
    for name in ("append", "insert", "insert_all"):
        calls.do(name, 1, 1, n=1 if name == "insert_all" else 0, poster=15)
    lengths = (0, 3, 15, 16, 17, 20)
    for n in lengths:
        calls.taken(n)
    for name, more in (("clear", {}), ("pack_to", {}), ("pack_to", {"k": 257}), ("append", {"poster": 16}), ("occupied_append", {"k": 9, "poster": 3})):
        calls.do(name, **more)
        calls.taken()
    calls.do("append", 7, 1, poster=9)
    for n in lengths:
        calls.taken(n)
    return calls


# --- posters

def posted(situation, held, members, rounds):
    """Every adding call by the posters 0, 15, 16 and 2^64 - 1, of a member that is there and of one that is not, the old record's slice as long as
    needed and one short; always on a map of these rounds."""
    calls = Calls("posters 0, 15, 16 and 2^64 - 1 at every adding call, %s" % situation, members, rounds)

    def hold():
        calls.do("clear")
        for k in held:
            calls.do("append", k, 1, poster=5)

    hold()
    for k in (held[0], 9):
        record = held.count(k)
        for name in ADDING:
            for n in sorted({record, max(record - 1, 0)}) if name == "insert_all" else (0,):
                for poster in (TOP, 16, 15, 0):
                    if calls.do(name, k, 2, n=n, poster=poster):
                        hold()
    calls.taken()
    calls.show()
    return calls


def posters():
    yield posted("with room", [1, 2, 1], 3, 5)
    yield posted("with all rounds and members that the limits allow", [1, 2, 1], 2, 3)
    yield posted("with all members that the limits allow", [1, 2, 1], 2, 5)
    yield taken_slices()
    calls = Calls("a call that adds nothing has no use for its poster")
    calls.fill(4, [7, 9])
    for name in reversed(CALLS):
        if name not in ADDING:
            calls.do(name, 7, 10, n=4 if name in LENDING else 0, n2=4 if name == "iter" else 0, marks="1101" if name == "retain" else "", poster=TOP)
        if name == "clear":
            calls.fill(4, [7, 9])
    calls.sizes()
    yield calls


def nothing_held(name="every call on the empty map", *limits):
    calls = Calls(name, *limits)
    for name in CALLS:
        calls.do(name, 7, 10, n=2 if name in LENDING else 0, n2=2 if name == "iter" else 0)
        calls.do("clear")
        calls.do(name, 0, 0)
        calls.do("clear")
    return calls


def marked():
    calls = Calls("the marked cases 1 to 10")
    for pairs, name, more in (
        ([], "pop_front", {}),
        ([], "append", {"k": 7, "v": 10}),
        ([(7, 10)], "append", {"k": 7, "v": 11}),
        ([(7, 10), (9, 20), (7, 11)], "insert_all", {"k": 7, "v": 12, "n": 2}),
        ([(9, 20)], "remove_all", {"k": 5}),
        ([(9, 20), (7, 12)], "pop_back", {}),
        ([(7, 10), (7, 11)], "pop_front", {}),
        ([(7, 10), (7, 11), (7, 12)], "retain", {"marks": "001"}),
        ([(7, 10), (7, 11)], "retain", {"marks": "00"}),
        ([(7, 10), (9, 20)], "pack_to", {"k": 1, "v": 2}),
    ):
        for k, v in pairs:
            calls.do("append", k, v)
        calls.do(name, **more)
        calls.show()
        calls.do("clear")
    return calls


def start(k):
    h = 14695981039346656037
    for byte in k.to_bytes(8, "little"):
        h = (h ^ byte) * 1099511628211 % 2**64
    return h % 512


def shared_places():
    calls = Calls("members whose searches start at the last two places of the index and go on at its first")
    members = [k for k in range(8000) if start(k) >= 510][:12]
    calls.fill(24, members)
    for k in members[::3] + members[1::5]:
        calls.do("remove", k)
        for j in members:
            calls.do("get", j)
    calls.fill(12, members)
    calls.show()
    return calls


def begun(name):
    calls = Calls(name)
    calls.do("append", 7, 10)
    calls.do("append", 7, 11)
    calls.do("get_all", 7, n=3)
    return calls


def ended(calls):
    calls.raw("append", 0, 0, 9, 20, 0, 0, 0)
    calls.raw("values_len", 21, 0, 0, 0, 0, 0, 0)
    return calls


def malformed():
    """Lists that hold what is no call, or whose slices, marks or room end early; each is run up to there."""
    for name, seven in (
        ("call 24", (24, 0, 7, 1, 0, 0, 0)), ("call 2^64 - 1", (TOP, 0, 7, 1, 0, 0, 0)),
        ("an out slice for append", (0, 0, 7, 1, 1, 0, 0)), ("a second out slice for get_all", (16, 0, 7, 0, 1, 1, 0)),
        ("a second out slice for taken", (23, 0, 0, 0, 1, 1, 0)), ("marks for append", (0, 0, 7, 1, 0, 0, 1)),
        ("an out slice for retain", (12, 0, 0, 0, 1, 0, 2)), ("marks for iter", (22, 0, 0, 0, 2, 1, 1)),
        ("an out slice that is not all there", (16, 0, 7, 0, 4, 0, 0)), ("an out slice of 2^64 - 1", (16, 0, 7, 0, TOP, 0, 0)),
        ("a second out slice that is not all there", (22, 0, 0, 0, 3, 3, 0)), ("marks that are not all there", (12, 0, 0, 0, 0, 0, 3)),
        ("what is just there", (22, 0, 0, 0, 3, 2, 0)), ("T in what is just there", (23, 0, 0, 0, 3, 0, 0)),
    ):
        calls = begun(name)
        calls.raw("then", *seven)
        calls.lend(3, 2)
        calls.marks += [1, 0]
        yield ended(calls)
    for room in (0, 3, 4, 11, 12, 15, 17):
        calls = ended(begun("room for %d numbers of answers" % room))
        calls.room = room
        yield calls
    for cut in range(1, WIDTH):
        calls = ended(begun("the last call without its last %d numbers" % cut))
        del calls.numbers[-cut:]
        yield calls
    calls = Calls("no call")
    calls.lend(2, 1)
    calls.room = 5
    yield calls


# --- limits of a map's own

def beside(limit, held):
    """Minimums for pack_to: what is held, the limit, one below and one above either, and the largest number."""
    return sorted({max(held - 1, 0), held, limit, limit + 1, TOP})


def packing(calls):
    """pack_to with every minimum beside what is held and beside the limits that the map has."""
    steps = calls.steps
    for k in beside(steps.most_members, len(steps.members)):
        for v in beside(steps.most_rounds, len(steps.pairs)):
            calls.do("pack_to", k, v)
    # which are others after a refused making
    calls.do("pack_to", *calls.limits)


def overfill(calls, first):
    """One round more than the limits that were asked for let in, of as many members; a few, where the limits are too high."""
    members, rounds = (min(limit, 5) for limit in calls.limits)
    calls.fill(rounds + 1, [first + i for i in range(members)] or [first])


def own_limits(members, rounds):
    calls = Calls("limits of %d members and %d rounds: filled to them, every adding call, pack_to beside them, and the same after clear" % (members, rounds), members, rounds)
    for first in (1, 11):
        overfill(calls, first)
        packing(calls)
        adding(calls, first, 7)
        calls.sizes()
        calls.show()
        calls.do("clear")
    calls.do("pack_to", 0, 0)
    overfill(calls, 21)
    calls.show()
    return calls


def one_limit_reached():
    calls = Calls("limits of 2 members and 3 rounds: with 2 members and 2 rounds a new one gets 2, a known one passes, and with 3 rounds of one none does", 2, 3)
    calls.fill(2, [1, 2])
    adding(calls, 1, 3)
    calls.show()
    # the old pairs make way first, at the map's own limit too
    calls.do("insert_all", 1, 5, n=2)
    calls.do("insert", 2, 6)
    calls.do("occupied_insert", 1, 7)
    calls.show()
    calls.do("clear")
    calls.fill(3, [4])
    adding(calls, 4, 5)
    calls.do("pack_to", 1, 3)
    adding(calls, 4, 5)
    calls.do("insert", 4, 8)
    calls.do("append", 5, 9)
    calls.do("append", 6, 9)
    calls.show()
    return calls


def own_limits_again(members, rounds):
    calls = Calls("limits of %d members and %d rounds: fill, empty and fill again, and again after pack_to" % (members, rounds), members, rounds)
    for turn, empty in enumerate((lambda: calls.do("pop_front"), lambda: calls.do("pop_back"), lambda: calls.do("remove", calls.steps.members[0]))):
        overfill(calls, 10 * turn)
        adding(calls, 10 * turn, 99)
        while calls.steps.pairs:
            empty()
    overfill(calls, 30)
    calls.do("retain", marks="01" * (rounds // 2) + "0" * (rounds % 2))
    calls.do("pack_to", members, rounds)
    overfill(calls, 40)
    calls.show()
    calls.do("retain", marks="0" * len(calls.steps.pairs))
    calls.do("pack_to", 0, 0)
    overfill(calls, 50)
    calls.sizes()
    calls.show()
    return calls


def with_limits():
    for members, rounds in ((0, 0), (0, 5), (5, 0), (2, 3), (257, 5), (5, 1025), (TOP, TOP)):
        yield own_limits(members, rounds)
    yield nothing_held("every call on the empty map with both limits 0", 0, 0)
    yield one_limit_reached()
    for members, rounds in ((2, 3), (5, 5)):
        yield own_limits_again(members, rounds)


def lists():
    yield from (marked(), nothing_held(), refusals(), slices(), ends_of_numbers(), taken(), retained(), every_marks(), shared_places())
    yield from posters()
    yield from malformed()
    yield from with_limits()
    yield from (most_rounds(), most_members(), both_full(), again())


CRATE = "the crate's own answers"


def store(name, text):
    """Puts the text in front of the crate's part of a file."""
    path = os.path.join(os.path.dirname(os.path.abspath(__file__)), "..", "crates", "stored_lists", name)
    with open(path) as f:
        stored = f.read()
    with open(path, "w") as f:
        f.write(text + stored[stored.index(CRATE) :])


if __name__ == "__main__":
    made = list(lists())
    store("stdin", "\n".join(calls.text() for calls in made) + "\n")
    store("stdout", "\n".join(calls.run() for calls in made) + "\n")
