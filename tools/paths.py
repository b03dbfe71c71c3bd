#!/usr/bin/env python3
"""Shows where a need of a function's proof finds its facts.

  tools/paths.py CRATE FN [NEED ..]

For each NEED of a Proof.antt (without one: every returns and loop need) the places before it, each with how many steps of .before
lead there from the need's c, and the facts that stand there. A function of a module file is named FILE/FN. It runs
`rt check --generated` in the crate's folder. An Answers.antt, which is what this
repository's proofs are, names the facts without these steps.

  tools/paths.py --lets NAME:K NAME:K ..

Prints the lets that name the places K steps back, each from the one before it.
"""
import pathlib
import re
import subprocess
import sys
import tempfile


def lets(pairs):
    """The chain of lets for (name, steps back) in order of the steps."""
    last, passed = 'c', 0
    for name, steps in pairs:
        print(f'    let {name} = {last}{" .before" * (steps - passed)} in')
        last, passed = name, steps


def places(text):
    """The records of a generated Lts file: what stands before each, its fields, and the record that each need begins at."""
    before, fields, needs, record = {}, {}, {}, None
    lines = text.split('\n')
    for i, line in enumerate(lines):
        if m := re.match(r' +pub record (\S+) .*Type 0 where', line):
            record = m.group(1)
            fields.setdefault(record, [])
        elif (m := re.match(r' +pub before : (\S+)', line)) and record:
            before[record] = m.group(1)
        elif (m := re.match(r' +pub (\S+) : ', line)) and record:
            fields[record].append(m.group(1))
        if m := re.match(r' +Need-(\S+) =(.*)', line):
            for rest in [m.group(2)] + lines[i + 1:i + 6]:
                if n := re.search(r'\(c : (\S+)\)', rest):
                    needs.setdefault(m.group(1), n.group(1))
                    break
    return before, fields, needs


def show(crate, function, wanted):
    """Prints the way back from each wanted need."""
    folder = tempfile.mkdtemp()
    top = pathlib.Path(__file__).resolve().parent.parent
    subprocess.run(['rt', 'check', '--generated', folder], cwd=top / 'crates' / crate, capture_output=True, check=False)
    with open(f'{folder}/Rattle-{crate}-proofs/{function}/Lts.antt', encoding='utf-8') as file:
        before, fields, needs = places(file.read())
    for need, start in needs.items():
        if need not in wanted if wanted else not re.match(r'returns|loop', need):
            continue
        print('need', need)
        place, steps = start, 0
        while place:
            facts = [f for f in fields.get(place, []) if f != 'before']
            if place in (start, 'Start') or not re.search(r'-arg\d*$', place):
                own = ' '.join(fields.get('Own-' + place, [])[:8])
                print(f'  {steps:3} back  {place}: {" ".join(facts)}{" (" + own + ")" if own else ""}')
            place, steps = before.get(place), steps + 1


if __name__ == '__main__':
    if sys.argv[1:2] == ['--lets']:
        lets([(a.split(':')[0], int(a.split(':')[1])) for a in sys.argv[2:]])
    elif len(sys.argv) < 3:
        sys.exit(__doc__)
    else:
        show(sys.argv[1], sys.argv[2], sys.argv[3:])
