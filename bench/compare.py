#!/usr/bin/env python3
"""Runs the editor beside sed and ed on the same edits, and prints how they compare; and searches by form beside plain ones and grep.

    bench/compare.py [ROUNDS]

Builds bench/zedrun.c over the static library first (tools/library.sh). Each command reads a table from a file and writes the new one; its best
processor time of ROUNDS (10) is taken, start-up included. The three results must be the same bytes. Then how one run grows with the table.
"""
import os, resource, subprocess, sys, tempfile

HERE = os.path.dirname(os.path.abspath(__file__))
ROOT = os.path.dirname(HERE)

def table(lines):
    return "".join(f"R{i:05d} open {i // 60 % 24:02d}:{i % 60:02d} 90\n" for i in range(1, lines + 1))

def long_table(lines):
    """Lines of 96 bytes."""
    return "".join(f"R{i:05d} open {i // 60 % 24:02d}:{i % 60:02d} 90, doors on the left side; the crew waits for its signal, number {i:05d}, there\n"
                   for i in range(1, lines + 1))

def timeless_table(lines):
    """One line near the end has a time."""
    return "".join(f"R{i:05d} open {i // 60 % 24:02d}{':' if i == lines - 5 else '.'}{i % 60:02d} 90\n" for i in range(1, lines + 1))

def season_table():
    """16 KB of stops, each with the lines that the season's script looks for."""
    stop = "R01 open 06:10 90\nR02 open 06:25 90\nR03 open 07:00 60\n"
    return stop * (16384 // len(stop))

# sixteen changes for every line, as globals and as sed and ed have them
EXCHANGED = [("R", "Q"), ("open", "OPEN"), ("90", "120")] + [(f":{i}", f".{i}") for i in range(6)] + [(f"Q{i}", f"Q-{i}") for i in range(5)]
GLOBALS = [f"GE/{a}/{b}/" for a, b in EXCHANGED] + ["GA/OPEN/ at/", "GB/120/+/"]
SIXTEEN = [f"s/{a}/{b}/g" for a, b in EXCHANGED] + ["s/OPEN/& at/g", "s/120/+&/g"]

# name, table, script for zed, for sed, for ed
def jobs(lines):
    every = table(lines)
    even = table(lines - lines % 2)
    long = long_table(lines)
    near = f"R{lines - 5:05d}"
    far = f"signal, number {lines - 5:05d}"
    stops = 16384 // 54
    return [
        ("change every second line", every,
         "RPT (E/90/120/; N; IFEOF AGP; N; IFEOF AGP)\n", "1~2s/90/120/\n", "1,$g/[13579] open/s/90/120/\nw OUT\nq\n"),
        ("find one line near the end", every,
         f"F/{near}/; E/90/120/\n", f"/{near}/s/90/120/\n", f"/{near}/s/90/120/\nw OUT\nq\n"),
        ("the same in any case (U)", every,
         f"F U/{near.lower()}/; E/90/120/\n", f"/{near.lower()}/Is/90/120/\n", f"/{near.lower()}/Is/90/120/\nw OUT\nq\n"),
        ("find one long line", long,
         f"F/{far}/; E/90/120/\n", f"/{far}/s/90/120/\n", f"/{far}/s/90/120/\nw OUT\nq\n"),
        ("the same in any case (U)", long,
         f"F U/{far.upper()}/; E/90/120/\n", f"/{far.upper()}/Is/90/120/\n", f"/{far.upper()}/Is/90/120/\nw OUT\nq\n"),
        ("delete a third of the lines", every,
         "RPT (D; IFEOF AGP; N; IFEOF AGP; N; IFEOF AGP)\n", "1~3d\n", None),
        ("replace every line", every,
         "RPT (R\nR00000 open 06:00 60\nZ\nIFEOF AGP)\n", "s/.*/R00000 open 06:00 60/\n", "1,$s/.*/R00000 open 06:00 60/\nw OUT\nq\n"),
        ("cut every line in two", every,
         "RPT (SA/ open/; N; IFEOF AGP)\n", "s/ open/&\\n/\n", "1,$s/ open/&\\\n/\nw OUT\nq\n"),
        ("join every two lines", even,
         "RPT (CL/ /; N; IFEOF AGP)\n", "N;s/\\n/ /\n", "g/[13579] open/s/$/ /\\\n.,+1j\nw OUT\nq\n"),
        ("one global, no line read", every,
         "GE/90/120/\n", "2,$s/90/120/g\n", "2,$s/90/120/g\nw OUT\nq\n"),
        ("one global, every line read", every,
         "GE/90/120/; M *\n", "2,$s/90/120/g\n", "2,$s/90/120/g\nw OUT\nq\n"),
        ("sixteen globals, no line read", every,
         "; ".join(GLOBALS) + "\n", "".join(f"2,${c}\n" for c in SIXTEEN), "".join(f"2,${c}\n" for c in SIXTEEN) + "w OUT\nq\n"),
        ("sixteen globals, every line read", every,
         "; ".join(GLOBALS) + "; M *\n", "".join(f"2,${c}\n" for c in SIXTEEN), "".join(f"2,${c}\n" for c in SIXTEEN) + "w OUT\nq\n"),
        ("find the one time by its form", timeless_table(lines),
         "F R/0-9#0-9:0-9#0-9/; E/90/120/\n", "/[0-9][0-9]*:[0-9][0-9]*/s/90/120/\n", "/[0-9][0-9]*:[0-9][0-9]*/s/90/120/\nw OUT\nq\n"),
        ("change every time by its form", every,
         "RPT (E R/0-9#0-9:0-9#0-9/--/; N; IFEOF AGP)\n", "s/[0-9][0-9]*:[0-9][0-9]*/--/\n", "1,$s/[0-9][0-9]*:[0-9][0-9]*/--/\nw OUT\nq\n"),
        ("the season's script over 16 KB", season_table(),
         f"{stops}(F B/R02/; E/90/120/; F B/R03/; D; IS/R04 open 07:15 60/)\n",
         "/^R02/s/90/120/\n/^R03/c\\\nR04 open 07:15 60\n", "g/^R02/s/90/120/\ng/^R03/s/.*/R04 open 07:15 60/\nw OUT\nq\n"),
    ]

def once(command, stdin, out):
    """Processor time of one run in milliseconds, start-up included."""
    before = resource.getrusage(resource.RUSAGE_CHILDREN)
    with open(stdin) as i, open(out, "w") as o:
        done = subprocess.run(command, stdin=i, stdout=o, stderr=subprocess.PIPE)
    after = resource.getrusage(resource.RUSAGE_CHILDREN)
    if done.returncode: sys.exit(f"{command}: status {done.returncode}: {done.stderr.decode()}")
    return 1000 * (after.ru_utime + after.ru_stime - before.ru_utime - before.ru_stime)

def run_time(zedrun, old, script, repeats):
    """The best time of one run alone in microseconds, of so many."""
    done = subprocess.run([zedrun, old, script, str(repeats)], stdout=subprocess.DEVNULL, stderr=subprocess.PIPE, check=True)
    return float(done.stderr)

def best(rounds, command, stdin, out):
    return min(once(command, stdin, out) for _ in range(rounds))

def build(zedrun, *objects):
    subprocess.run(["gcc", "-std=c11", "-O2", "-Iinclude", "-o", zedrun, "bench/zedrun.c", "loader/files.c", *objects], check=True)

def read(path):
    with open(path, "rb") as f: return f.read()

def write(path, text):
    with open(path, "w") as f: f.write(text)

def third(lines):
    """ed has no steps of lines: the lines to delete are named from the last on."""
    return "".join(f"{i}d\n" for i in range(1 + (lines - 1) // 3 * 3, 0, -3)) + "w OUT\nq\n"

def compare(folder, zedrun, lines, rounds):
    print(f"{'edit':32} {'zed ms':>8} {'sed ms':>8} {'ed ms':>9} {'sed/zed':>8} {'ed/zed':>8}")
    old, script, sed, ed, out = (os.path.join(folder, n) for n in ("OLD", "ZED", "SED", "ED", "OUT"))
    for name, text, z, s, e in jobs(lines):
        e = (e or third(lines)).replace("OUT", out + ".ed")
        write(old, text), write(script, z), write(sed, s), write(ed, e)
        zt = best(rounds, [zedrun, old, script], os.devnull, out + ".zed")
        st = best(rounds, ["sed", "-f", sed, old], os.devnull, out + ".sed")
        et = best(rounds, ["ed", "-s", old], ed, os.devnull)
        if not read(out + ".zed") == read(out + ".sed") == read(out + ".ed"): sys.exit(f"{name}: the results differ")
        print(f"{name:32} {zt:8.1f} {st:8.1f} {et:9.1f} {st / zt:8.2f} {et / zt:8.2f}")

def searched(folder, zedrun, lines, rounds):
    """A time by its form, beside a plain string that stands in the same line, by the editor and by grep."""
    print(f"\n{'one line near the end':32} {'zed ms':>8} {'run ms':>8} {'grep ms':>8} {'grep/zed':>8}")
    old, script, out = (os.path.join(folder, n) for n in ("OLD", "ZED", "OUT"))
    text = timeless_table(lines)
    write(old, text)
    at = next(l for l in text.split("\n") if ":" in l).split()[2]
    for name, z, g in ((f"plain, {at}", f"F/{at}/\n", ["-F", at]), ("by its form", "F R/0-9#0-9:0-9#0-9/\n", ["-E", "[0-9]+:[0-9]+"])):
        write(script, z)
        zt = best(rounds, [zedrun, old, script], os.devnull, out)
        gt = best(rounds, ["grep", "-m", "1", *g, old], os.devnull, out)
        print(f"{name:32} {zt:8.1f} {run_time(zedrun, old, script, 5 * rounds) / 1000:8.1f} {gt:8.1f} {gt / zt:8.2f}")

def grows(folder, zedrun, few, many, rounds):
    print(f"\n{'one run, microseconds':32} {few:>8} {many:>8} {'grows by':>9}   lines grow by {many / few:.1f}")
    old, script = os.path.join(folder, "OLD"), os.path.join(folder, "ZED")
    for (name, t1, z1, _, _), (_, t2, z2, _, _) in list(zip(jobs(few), jobs(many)))[:-1]:
        took = []
        for text, z in ((t1, z1), (t2, z2)):
            write(old, text), write(script, z)
            took.append(run_time(zedrun, old, script, 5 * rounds))
        print(f"{name:32} {took[0]:8.0f} {took[1]:8.0f} {took[1] / took[0]:9.2f}")

def main():
    os.chdir(ROOT)
    rounds = int(sys.argv[1]) if len(sys.argv) > 1 else 10
    subprocess.run(["tools/library.sh"], check=True, stdout=subprocess.DEVNULL)
    with tempfile.TemporaryDirectory() as folder:
        zedrun = os.path.join(folder, "zedrun")
        build(zedrun, "target/staticlib/libzed.a")
        compare(folder, zedrun, 65535, rounds)
        searched(folder, zedrun, 65535, rounds)
        grows(folder, zedrun, 6553, 65535, rounds)

if __name__ == "__main__": main()
