# The expected output of crates/index_removals, by a model written from document 01, module 1:
#   python3 tools/index_removals.py > crates/index_removals/stdout
# The hash is taken from the text (basis, exclusive-or, prime, modulo 2^64). A table maps a place to the member in it. A search starts at
# the hash modulo 512 and goes up by one, 511 to 0, until the member or an empty place. Removal is not the program's: the member's run, up
# to the next empty place, is taken out, and those after it join again in the order of their places, which leaves no gap and no mark.
# With -v it says on standard error how much of the closing the run has.
import sys

BASIS, PRIME, PLACES = 14695981039346656037, 1099511628211, 512


def fnv(member):
    h = BASIS
    for byte in member.to_bytes(8, 'little'):
        h = (h ^ byte) * PRIME % 2**64
    return h


def search(table, member):
    place, looked = fnv(member) % PLACES, 1
    while place in table and table[place] != member:
        place, looked = (place + 1) % PLACES, looked + 1
    return place, looked


def show(table, member, before=''):
    place, looked = search(table, member)
    print(f'{before}{member} {"at" if place in table else "absent"} {place} looked {looked}')


def join(table, member):
    place, _ = search(table, member)
    if place not in table:
        table[place] = member
        show(table, member, 'join ')


moves, across = 0, 0


def leave(table, member):
    global moves, across
    place, _ = search(table, member)
    if place in table:
        del table[place]
        after, was = [], {}
        place = (place + 1) % PLACES
        while place in table:
            after.append(table[place])
            was[table[place]] = place
            del table[place]
            place = (place + 1) % PLACES
        for other in after:
            to, _ = search(table, other)
            table[to] = other
            moves += to != was[other]
            across += to > was[other]
    show(table, member, 'leave ')


def agrees(table, members):
    found = all(table.get(search(table, n)[0]) == n for n in members)
    print('agrees' if found and sorted(table.values()) == sorted(members) else 'differs')


for n in [0, 1, 7, 255, 256, 2**16, 2**32 - 1, 2**32, 2**63, 0x0123456789abcdef, 2**64 - 1]:
    print('hash', n, fnv(n))

numbers = [412, 621, 1408, 560, 350, 959, 161, 134] + [i * 4194368 for i in range(8, 256)]
table = {}
for n in numbers[:8]:
    join(table, n)
lost = dict(table)
del lost[510]
show(lost, 412, 'leave ')
for n in numbers[:8]:
    show(lost, n)
agrees(lost, numbers[1:8])
for call, member in [(leave, 412), (join, 412), (leave, 350), (leave, 350)]:
    call(table, member)
    for n in numbers[:8]:
        show(table, n)
for n in numbers:
    join(table, n)
for n in numbers[::3]:
    leave(table, n)
for n in numbers:
    show(table, n)

agrees(table, [n for i, n in enumerate(numbers) if i % 3])

if '-v' in sys.argv:
    print('moved back', moves, 'across the end', across, 'starts', [fnv(n) % PLACES for n in numbers[:8]], file=sys.stderr)
