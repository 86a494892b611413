#!/usr/bin/env python3
"""Compares two builds of the static library on the jobs of compare.py without globals and patterns.

    bench/placements.py BEFORE.a AFTER.a [ROUNDS]

The time of the same code depends on where the linker puts it, so each library is linked at six places, behind an object of another size. The two are run
in turn; at each place the best of ROUNDS (15) is taken, and of the six places the mean. First the processor time, start-up and files included; then the time
of one run alone, the best of ten in each program.
"""
import os, subprocess, sys, tempfile
from compare import ROOT, build, jobs, once, run_time, write

PLACES = (1, 17, 49, 113, 305, 1041)

def shifted(folder, size):
    """An object with `size` bytes of code that is never run."""
    source = os.path.join(folder, f"shift{size}.c")
    write(source, f'__asm__(".text\\n.skip {size}, 0x90\\n");\n')
    subprocess.run(["gcc", "-c", "-o", source[:-2] + ".o", source], check=True)
    return source[:-2] + ".o"

def programs(folder, libraries):
    """Each library's program at each place."""
    made = {}
    for size in PLACES:
        for library in libraries:
            made[library, size] = os.path.join(folder, f"zedrun{len(made)}")
            build(made[library, size], shifted(folder, size), library)
    return made

def mean_of_best(made, libraries, rounds, time_of):
    best = {}
    for _ in range(rounds):
        for size in PLACES:
            for library in libraries:
                took = time_of(made[library, size])
                best[library, size] = min(took, best.get((library, size), took))
    return [sum(best[library, size] for size in PLACES) / len(PLACES) for library in libraries]

def shown(before, after, digits):
    return f"{before:9.{digits}f} {after:9.{digits}f} {100 * (after / before - 1):+7.1f} %"

def main():
    if len(sys.argv) < 3: sys.exit(__doc__)
    libraries = [os.path.abspath(p) for p in sys.argv[1:3]]
    rounds = int(sys.argv[3]) if len(sys.argv) > 3 else 15
    os.chdir(ROOT)
    with tempfile.TemporaryDirectory() as folder:
        made = programs(folder, libraries)
        old, script = os.path.join(folder, "OLD"), os.path.join(folder, "ZED")
        print(f"{'edit':32} {'before ms':>9} {'after ms':>9} {'change':>9} {'run us':>10} {'after us':>9} {'change':>9}")
        for name, text, z, _, _ in jobs(65535):
            if "global" in name or "form" in name: continue
            write(old, text), write(script, z)
            whole = mean_of_best(made, libraries, rounds, lambda program: once([program, old, script], os.devnull, os.devnull))
            alone = mean_of_best(made, libraries, rounds // 5 + 1, lambda program: run_time(program, old, script, 10))
            print(f"{name:32} {shown(*whole, 2)}  {shown(*alone, 0)}")

if __name__ == "__main__": main()
