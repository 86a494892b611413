#!/usr/bin/env python3
"""Computes outside cases from the definitions, by the prover, and compares.

    tools/vectors.py run FILE        lines of: table script budget work-length buffer-length, then number steps furthest length place journal
    tools/vectors.py sides FILE      lines of: journal destination-length, then number length bytes, three times (old side, new side, listing)
    tools/vectors.py join FILE       lines of: journal journal destination-length, then number length bytes
    tools/vectors.py turn FILE       lines of: journal destination-length, then number length bytes

Bytes are in hexadecimal, `-` for none. Each line becomes a case of a theorem; a crate of such theorems is written to a temporary folder,
outside the repository, and proved there over a copy of crates/definitions. The answer is the prover's: a wrong case is refused.
Options: --part N (cases a theorem, 25), --crate N (cases a crate, 250), --keep (leave the folder and name it).
"""
import os, shutil, subprocess, sys, tempfile, time

ROOT = os.path.dirname(os.path.dirname(os.path.abspath(__file__)))

def text(data):
    """A byte list as antt text: quoted where it can be read so."""
    if not data:
        return '[]'
    if all(b == 10 or 32 <= b <= 126 for b in data):
        out = ''.join('\\n' if b == 10 else '\\' + chr(b) if chr(b) in '"\\' else chr(b) for b in data)
        return '(bytes "%s")' % out
    return '(' + ' ∷ '.join(str(b) for b in data) + ' ∷ [])'

def unhex(word):
    return b'' if word == '-' else bytes.fromhex(word)

def run_case(words):
    table, script = unhex(words[0]), unhex(words[1])
    budget, work, size = words[2:5]
    number, steps, furthest, length, place = words[5:10]
    journal = unhex(words[10])
    refused = 1 <= int(number) <= 9 or int(number) in (33, 34)
    return 'run_case %s %s %s %s %s (outcome %s %s %s %s %s (%s))' % (
        text(table), text(script), budget, work, size, number, steps, furthest, length, place,
        'untouched %s' % size if refused else 'zeroed %s %s' % (text(journal), int(size) - len(journal)))

def written(words, dest):
    """What is written into a destination of so many bytes: number, length, bytes."""
    return '(written %s %s (over %s %s))' % (words[0], words[1], text(unhex(words[2])), dest)

def sides_case(words):
    journal, dest = unhex(words[0]), words[1]
    return 'sides_case %s %s %s' % (text(journal), dest, ' '.join(written(words[k:k + 3], dest) for k in (2, 5, 8)))

def join_case(words):
    return 'join_case %s %s %s %s' % (text(unhex(words[0])), text(unhex(words[1])), words[2], written(words[3:6], words[2]))

def turn_case(words):
    return 'turn_case %s %s %s' % (text(unhex(words[0])), words[1], written(words[2:5], words[1]))

HEAD = '''use Rattle.std.specs.Prelude.{ℕ, zero, suc, ◌-◌, ◌≡◌, refl, List, [], ◌∷◌, ◌++◌, map, length, replicate}
use Rattle.definitions.specs.Bytes.{bytes}
'''

OVER = '''
-- a destination of n bytes, each 7, with `out` at its front
unfoldable pub over : List ℕ → ℕ → List ℕ
over out n = out ++ replicate (n - length out) 7
'''

SIDES = HEAD + '''use Rattle.definitions.specs.Listing.{Written, written, old_side_to, new_side_to, listing_to}
use Rattle.definitions.specs.Everything.{everything}
''' + OVER + '''
pub data SidesCase : Type 0 where
  sides_case : List ℕ → ℕ → Written → Written → Written → SidesCase

unfoldable pub computed : SidesCase → List Written
computed (sides_case j n o e l) = old_side_to j (replicate n 7) ∷ new_side_to j (replicate n 7) ∷ listing_to j (replicate n 7) ∷ []

unfoldable pub stated : SidesCase → List Written
stated (sides_case j n o e l) = o ∷ e ∷ l ∷ []
'''

JOINING = HEAD + '''use Rattle.definitions.specs.Listing.{Written, written}
use Rattle.definitions.specs.Joining.{join_to, turn_to}
use Rattle.definitions.specs.Everything.{everything}
''' + OVER + '''
pub data JoiningCase : Type 0 where
  join_case : List ℕ → List ℕ → ℕ → Written → JoiningCase
  turn_case : List ℕ → ℕ → Written → JoiningCase

unfoldable pub computed : JoiningCase → Written
computed (join_case j k n w) = join_to j k (replicate n 7)
computed (turn_case j n w) = turn_to j (replicate n 7)

unfoldable pub stated : JoiningCase → Written
stated (join_case j k n w) = w
stated (turn_case j n w) = w
'''

RUN = HEAD + '''use Rattle.definitions.specs.Run.{Outcome, outcome, outcome_of}
use Rattle.definitions.specs.Everything.{everything}

pub data RunCase : Type 0 where
  run_case : List ℕ → List ℕ → ℕ → ℕ → ℕ → Outcome → RunCase

-- a journal buffer of n bytes, each 7
unfoldable pub untouched : ℕ → List ℕ
untouched n = replicate n 7

unfoldable pub zeroed : List ℕ → ℕ → List ℕ
zeroed j n = j ++ replicate n 0

unfoldable pub computed : RunCase → Outcome
computed (run_case t s budget work size o) = outcome_of t s budget work (untouched size)

unfoldable pub stated : RunCase → Outcome
stated (run_case t s budget work size o) = o
'''

# for each kind of case: how one is made, what the theorems stand on, the type of a case, and what else is computed with
KINDS = {
    'run': (run_case, RUN, 'RunCase', 'untouched zeroed'),
    'sides': (sides_case, SIDES, 'SidesCase', 'over'),
    'join': (join_case, JOINING, 'JoiningCase', 'over'),
    'turn': (turn_case, JOINING, 'JoiningCase', 'over'),
}

def main():
    words = [a for a in sys.argv[1:] if not a.startswith('--')]
    def option(name, default):
        return int(sys.argv[sys.argv.index(name) + 1]) if name in sys.argv else default
    numbers = [sys.argv[i + 1] for i, a in enumerate(sys.argv) if a in ('--part', '--crate')]
    words = [w for w in words if w not in numbers]
    kind, path = words[0], words[1]
    part, crate = option('--part', 25), option('--crate', 250)
    lines = [l.split() for l in open(path) if l.strip() and not l.startswith('#')]
    make, head, data, names = KINDS[kind]
    folder = tempfile.mkdtemp(prefix='vectors-')
    crates = ['definitions:']
    os.makedirs(folder + '/crates')
    shutil.copytree(ROOT + '/crates/definitions', folder + '/crates/definitions')
    shutil.rmtree(folder + '/crates/definitions/must-fail', ignore_errors=True)
    for c in range(0, len(lines), crate):
        name = 'vectors%d' % (c // crate)
        crates.append(name + ': definitions')
        os.makedirs('%s/crates/%s/src' % (folder, name))
        os.makedirs('%s/crates/%s/specs' % (folder, name))
        open('%s/crates/%s/src/lib.rt' % (folder, name), 'w').write('// Cases.\n')
        out = [head]
        for p in range(c, min(c + crate, len(lines)), part):
            cases = [make(w) for w in lines[p:min(p + part, c + crate)]]
            out.append('unfoldable cases%d : List %s\ncases%d =\n    %s\n    ∷ []\n' % (p, data, p, '\n    ∷ '.join(cases)))
            out.append('-- cases %d to %d\nagree%d : map computed cases%d ≡ map stated cases%d\nunfolding everything computed stated %s cases%d\nagree%d = refl\n'
                       % (p + 1, min(p + part, len(lines)), p, p, p, names, p, p))
        open('%s/crates/%s/specs/Cases.antt' % (folder, name), 'w').write('\n'.join(out))
        open('%s/crates/%s/specs/Lib.antt' % (folder, name), 'w').write('pub mod Cases\n')
    open(folder + '/crates.txt', 'w').write('\n'.join(crates) + '\n')
    start = time.time()
    done = subprocess.run(['rt', 'all', 'check'], cwd=folder)
    print('%d cases of %s, %d crates, %.0f s: %s' % (len(lines), os.path.basename(path), len(crates) - 1, time.time() - start,
                                                   'all agree' if done.returncode == 0 else 'NOT all agree'))
    if '--keep' in sys.argv:
        print(folder)
    else:
        shutil.rmtree(folder)
    sys.exit(done.returncode)

main()
