#!/usr/bin/env python3
"""Makes cases by chance: tables and scripts of the commands of document 01 and of wishes 1 to 6, 8 and 9 of document 02, and journals to join and to turn round (wish 7),
some of them damaged.

    tools/cases.py SEED COUNT [KIND] | tools/oracle.py outcome [KIND] > FILE
    tools/vectors.py KIND FILE

The first line makes COUNT cases and completes them by the plain interpreter; the second computes them from the definitions and compares. KIND is run (where it is not
said), join or turn.
"""
import random, sys
import oracle
R = random.Random(int(sys.argv[1])); N = int(sys.argv[2])
def w(n, alpha): return ''.join(R.choice(alpha) for _ in range(n))
def line():
    r = R.random()
    if r < .1: return ''
    if r < .13: return w(R.choice([250,253,254,255]), 'ab ')
    if r < .16: return w(R.randint(240, 250), 'b ') + w(R.randint(1, 5), 'ab')
    if r < .28: return w(R.randint(8, 60), R.choice(['abAB', 'bbbbbbbbaA', 'bbbbbbbz', 'bqzZ@[`{']))
    return w(R.randint(1, 9), R.choice(['ab', 'aab ', 'abAB1 -', 'a', ' a']))
def codes():
    """A line of stop codes."""
    return R.choice([' ', ' ', ' ', '.', '-', '']).join(R.choice(['A-12', 'A-12', 'A-1', 'B-12', 'A', 'A', '12', 'a-12', 'A.12', '12-A', 'A"1', 'AB', 'A 12', '']) for _ in range(R.randint(1, 6)))
def string(): return w(R.choice([0,1,1,1,2,2,3]), R.choice(['ab', 'a', 'abAB1 ', 'aAzZ@[`{']))
def num(): return str(R.choice([0,1,1,2,2,3,4,5,6,9,65535,65536,'007']) )
def n1(): return str(R.choice([1,1,2,2,3,4,5,6,9,65535]))
def sp(): return R.choice(['', '', ' ', '  '])
def quals(search):
    q = []
    for c in 'BEPLWUS' + ('N' if search or R.random() < .03 else ''):
        if R.random() < .13: q.append(R.choice([c, c.lower()]))
    if R.random() < .2: q.append(n1() if R.random() < .95 else num())
    if R.random() < .15:
        a, b = R.randint(1, 6), R.randint(1, 9)
        if a > b and R.random() < .9: a, b = b, a
        q.append('_%s%d%s,%s%d%s_' % (sp(), a, sp(), sp(), b, sp()))
    R.shuffle(q)
    return ' '.join(q) if R.random() < .8 else ''.join(q)
def qs(search):
    d = R.choice("//////!'*+,-.:?")
    return quals(search) + sp() + d + string().replace(d, 'a') + (d if R.random() < .93 else '\n')
def se(deep=0):
    if R.random() < .75 or deep > 2: return qs(True)
    parts = [se(deep + 1)]
    for _ in range(R.choice([0, 1, 1, 2])):
        bl = R.choice(['', ' ', '\n', ' \\ c&|)\n', '\n\n ']);  bl2 = R.choice(['', ' ', '\n'])
        parts.append(bl + R.choice('&|') + bl2 + se(deep + 1))
    return '(' + sp() + ''.join(parts) + sp() + (')' if R.random() < .98 else '')
def test():
    """The search of IF, UL, WH or UT: many with N, which counts at EOF too."""
    if R.random() < .6: return se()
    part = lambda: R.choice(['N', 'N', 'n', '']) + sp() + '/' + string().replace('/', 'a') + '/'
    if R.random() < .4: return part()
    joined = lambda: R.choice(['(%s%s%s)' % (part(), R.choice('&|'), part()), part()])
    return '(' + joined() + R.choice([' & ', ' | ', '&', '|\n']) + joined() + ')'
def cutting():
    """SA, SB and CL; some without their string, some CL with a qualifier."""
    name = R.choice(['SA', 'SB', 'CL', 'CL'])
    said = name if R.random() < .7 else R.choice([name.lower(), name.capitalize()])
    if R.random() < .04: return said + sp()
    d = R.choice("//////!'*+,-.:?")
    arg = qs(False) if name != 'CL' or R.random() < .04 else d + string().replace(d, 'a') + (d if R.random() < .93 else '\n')
    return said + (' ' if arg[0].isalpha() and R.random() < .97 else sp()) + arg
def changing():
    """GE, GA, GB and CG; some without their strings, with a qualifier, or with an empty first string."""
    if R.random() < .08: return R.choice(['CG', 'cg', 'CG', 'CG+', 'CG 2N'])
    name = R.choice(['GE', 'GE', 'GA', 'GB'])
    said = name if R.random() < .7 else R.choice([name.lower(), name.capitalize()])
    if R.random() < .02: return said + sp()
    if R.random() < .02: return said + ' ' + R.choice('BELWU2') + '/a/b/'
    d = R.choice("//////!'*+,-.:?")
    first = '' if R.random() < .02 else w(R.choice([1, 1, 1, 2, 2, 3]), R.choice(['ab', 'a', 'abAB1 ']))
    new = w(R.choice([0, 1, 1, 2, 2, 3, 4, 9, 60]), R.choice(['ab', 'a', 'abAB1 -']))
    end = R.choice([d, d, d, d, d, d, '\n', ''])
    if R.random() < .03: return said + sp() + d + first.replace(d, 'a') + '\n'
    return said + sp() + d + first.replace(d, 'a') + d + new.replace(d, 'b') + end
def many():
    """Up to 16 globals and more, in one count."""
    return '%d(%s)' % (R.choice([3, 8, 15, 16, 17]), ';'.join(changing() for _ in range(R.randint(1, 2))))
def names():
    """WORD's string: bytes, quoted bytes and ranges, or a few signs by chance, so that often a `-` or a `"` is misused."""
    if R.random() < .06: return w(R.randint(1, 7), 'aB1--""' + R.choice(['', ' .', 'zZ09', '~_']))
    one = lambda: R.choice([w(1, 'ab AB12.x@[`{~'), '"' + w(1, '--""aA1. '), 'A-Z', 'a-z', '0-9', 'A-A', '1-2', 'A-B', 'a-b', 'b-y'])
    return ''.join(one() for _ in range(R.choice([0, 1, 1, 2, 2, 3, 5])))
def naming():
    """WORD; some without its string, some with a qualifier."""
    said = R.choice(['WORD', 'WORD', 'WORD', 'word', 'Words', 'WORDING'])
    if R.random() < .01: return said + sp()
    if R.random() < .01: return said + ' ' + R.choice('WNU2(') + '/a/'
    d = R.choice("/////////!'*+,-.:?")
    return said + sp() + d + names().replace(d, '') + (d if R.random() < .93 else '\n')
def whole_words():
    """A command or a test with W, on strings that stop codes have."""
    with_w = R.choice(['W', 'W', 'W', 'w', 'UW', 'W U', 'WL', '2W', 'W3', 'W2L', 'WB', 'WE', 'WEL', 'WP', 'WS', 'W_2,9_']) + sp()
    s = R.choice(['A', 'A', 'A', 'a', '12', '1', '2', '-', 'B', 'A-12', '-1', ' ', '.', '"'])
    r = R.random()
    if r < .4: return '%s %s/%s/%s/' % (R.choice(['A', 'B', 'E', 'E', 'AP', 'BP', 'EP']), with_w, s, R.choice(['x', 'B', '-', 'A', '']))
    if r < .55: return '%s %s/%s/' % (R.choice(['PA', 'PB', 'SA', 'SB']), with_w, s)
    said = R.choice([with_w, with_w, 'N' + with_w]) + '/' + s + '/'
    if R.random() < .3: said = '(%s%s%s)' % (said, R.choice('&|'), qs(True))
    if r < .75: return R.choice(['F ', 'F ', 'BF ', 'DF ']) + said
    return R.choice(['IF ', 'UL ', 'WH ', 'UT ']) + said + ' ' + R.choice(['E/%s/+/' % s, 'EP W/%s/x/' % s, 'N', '(%s; N)' % naming(), '(AGP)'])
def word_set():
    """Sets that stand for a while, some changed in each round of a loop."""
    one = lambda: R.choice([naming, whole_words, whole_words])()
    part = R.choice([';', '; ', '\n'])
    body = part.join(one() for _ in range(R.randint(1, 4)))
    return R.choice(['%s', '%s', '2(%s)', '3(%s; N)', 'RPT (%s; N)', 'RPT (IFEOF AGP; %s; N)', 'WH W/A/ (%s)', 'UT EW/12/ (%s; N)', 'IF W/A/ (%s) ELSE (N)']) % body + '\n'
def times():
    """A short line with times and stop codes."""
    if R.random() < .3: return codes()[:24]
    return R.choice([' ', ' ', ' ', '', '-']).join(R.choice(['06:10', '6:5', '16:25', '06', ':', 'A-12', 'a1', 'aab', 'abab', 'b', 'a', '(a|b)', '#~', '"', '', '12']) for _ in range(R.randint(1, 5)))[:24]
def character(): return R.choice([w(1, 'aab AB12:.6'), w(1, 'aab1'), '"' + w(1, '|()~#-"a1 '), '0-9', 'a-b', 'A-Z', 'b-b', '1-6'])
def item(deep):
    r = R.random()
    if r < .16 and deep < 9: part = '(' + alternatives(deep + 1) + ')'
    elif r < .3: part = '~' + character()
    else: part = character()
    return '#' + part if R.random() < .3 else part
def row(deep): return ''.join(item(deep) for _ in range(R.choice([1, 1, 2, 2, 3, 4])))
def alternatives(deep):
    rows = [row(deep)] + [R.choice(['', row(deep), row(deep)]) for _ in range(R.choice([0, 0, 0, 1, 1, 2]))]
    R.shuffle(rows)
    return '|'.join(rows)
def pattern():
    """A pattern; some of signs by chance, some with a byte more, less or changed: many of these are ill-formed."""
    r = R.random()
    if r < .05: return w(R.randint(0, 6), '|()~#-"aB1')
    if r < .09: return ''.join(R.choice(['(', '#(', 'a(', '(|']) for _ in range(R.choice([7, 8, 9, 10]))) + 'a' + ')' * R.choice([7, 8, 8, 9])
    if r < .2: return R.choice(['0-9#0-9:0-9#0-9', '0-9#0-9:0-90-9', 'A-Z"-0-9#0-9', '#(a|b)', '#a', '#~ ', '(a|ab)(b|)', 'a#(a|"-)', '#(#a#b)', '~0-9', 'a|b|', '|12'])
    s = alternatives(0)
    if r < .28:
        i = R.randrange(len(s) + 1)
        s = s[:i] + R.choice(['', w(1, '|()~#-"aB1')]) + s[i + R.randint(0, 1):]
    return s[:60]
def by_form():
    """A command or a test with R."""
    with_r = R.choice(['R'] * 6 + ['r', 'RL', 'LR', 'RB', 'ER', 'RE', 'LER', 'RP', 'RS', 'RW', 'WR', 'W R', 'WRL', 'EWR', 'BRW', 'R_2,9_', '_3,5_ R', 'SLR_2,6_', 'PRW'])
    if R.random() < .04: with_r = R.choice(['RU', 'UR', '2R', 'R 2', 'RR', 'R0', 'NR', 'RBL', 'R3W', 'URR'])
    d = R.choice('//////////!+,.?')
    s = pattern().replace(d, 'a')
    said = with_r + sp() + d + s + d
    r = R.random()
    if r < .5: return '%s %s%s' % (R.choice(['A', 'B', 'E', 'E', 'E', 'AP', 'BP', 'EP']), said, R.choice(['x', 'B', '-', 'a|b', '', '(a', '12:00']).replace(d, '')) + (d if R.random() < .9 else '\n')
    if r < .65: return '%s %s' % (R.choice(['PA', 'PB', 'SA', 'SB']), said)
    said = R.choice([said, said, 'N' + said])
    if R.random() < .3: said = '(%s%s%s)' % (said, R.choice('&|'), R.choice([qs(True), 'R/%s/' % pattern().replace('/', 'a')]))
    if r < .85: return R.choice(['F ', 'F ', 'BF ', 'DF ']) + said
    return R.choice(['IF ', 'UL ', 'WH ', 'UT ']) + said + ' ' + R.choice(['E R/%s/+/' % s.replace('/', 'a'), 'EP R/~+/x/', 'N', '(%s; N)' % naming(), '(AGP)'])
def forms():
    """Commands with R, some in loops, some with another set for W before."""
    one = lambda: R.choice([by_form, by_form, by_form, by_form, naming, whole_words])()
    body = R.choice([';', '; ', '\n']).join(one() for _ in range(R.randint(1, 3)))
    return R.choice(['%s', '%s', '%s', '2(%s)', '3(%s; N)', 'RPT (IFEOF AGP; %s; N)', 'WH R/0-9/ (%s; N)', 'UT R/~ #a/ (%s; N)', 'IF R/a|1/ (%s) ELSE (N)']) % body + '\n'
def replacing():
    """Lines that go and lines that come, mixed: stretches to arrange at the run's end. Few of these commands stop."""
    one = lambda: R.choice(['D', 'D', 'D', 'IC', 'IC', 'IS/%s/' % string().replace('/', 'a'), 'IS/%s/; P; CL//' % w(2, 'xy'), 'R\n%s\nZ' % w(3, 'ab-+='), 'SA//; D', 'IS/z/; P', 'N', 'DF //'])
    return ''.join(one() + '\n' for _ in range(R.choice([2, 3, 5, 9, 14])))
def simple():
    r = R.random()
    if r < .11: return cutting()
    if r < .23: return changing()
    if r < .24: return many()
    if r < .27: return naming()
    if r < .3: return whole_words()
    if r < .31: return by_form()
    r = R.random()
    if r < .1: return 'N'
    if r < .15: return 'P'
    if r < .22: return 'M' + sp() + R.choice(['.', '*', n1(), n1(), n1()])
    if r < .32: return R.choice(['F ', 'F ', 'BF ', 'DF ']) + se()
    if r < .44:
        a = R.choice(['', '.', n1(), n1()]); b = R.choice(['', '', n1(), '*']) if a else ''
        return 'D' + sp() + a + (' ' + b if b else '')
    if r < .5: return 'IS/' + string() + '/'
    if r < .54: return 'IC'
    if r < .6: return 'I ' + R.choice(['', '', '.', '*', n1()]) + sp() + R.choice(['', '\\ c']) + '\n' + ''.join(line()[:20] + '\n' for _ in range(R.randint(0, 2))) + R.choice('Zz') + '\n'
    if r < .65: return 'R ' + R.choice(['', '.', n1(), n1() + ' ' + n1(), '. *']) + '\n' + ''.join(line()[:20] + '\n' for _ in range(R.randint(0, 2))) + 'Z\n'
    if r < .83:
        d = R.choice('////!.'); q = quals(False)
        return R.choice(['A', 'B', 'E', 'E', 'AP', 'BP', 'EP']) + ' ' + q + d + string().replace(d, '') + d + string().replace(d, '') + d
    if r < .88: return R.choice(['PA ', 'PB ']) + qs(False)
    if r < .9: return 'PR'
    if r < .97: return R.choice('>>><##$%%')
    if r < .985: return 'AGP'
    return 'W'
def command(deep=0):
    r = R.random()
    if deep > 4 or r < .68: return simple()
    if r < .76: return R.choice(['2', '3', '0', '4 ', '2 3']) + command(deep + 1)
    if r < .79: return 'RPT ' + command(deep + 1)
    if r < .89:
        t = R.choice(['IF ' + test(), 'UL ' + test(), 'IFEOF']) + sp() + R.choice(['', ' THEN '])
        if R.random() < .5: return t + ' ' + command(deep + 1)
        return t + group(deep + 1) + (sp() + R.choice(['ELSE', 'else ']) + sp() + group(deep + 1) if R.random() < .6 else '')
    if r < .93: return R.choice(['WH ', 'UT ']) + test() + ' ' + command(deep + 1)
    return group(deep + 1)
def group(deep): return '(' + R.choice([';', ' ; ', '\n', ';\n']).join(command(deep) for _ in range(R.randint(0, 3))) + ')'
def script():
    s = ''
    for _ in range(R.randint(1, 6)): s += sp() + command() + R.choice(['; ', ';', '\n', '\n', ' \\ note\n'])
    if R.random() < .06:
        i = R.randrange(len(s)); s = s[:i] + R.choice('()&|;/ab0_N\n ') + s[i + R.randint(0, 1):]
    return (s if s.endswith('\n') else s + '\n')
def table_and_script():
    t = ''.join(line() + '\n' for _ in range(R.choice([0, 1, 2, 3, 4, 5, 8])))
    s = script()
    # some begin with globals, and so read most of their lines through them; some end soon, and leave lines to them
    r = R.random()
    if r < .4: s = ''.join(changing() + R.choice(['; ', '\n']) for _ in range(R.choice([1, 1, 1, 2, 3, 4]))) + s
    elif r < .6: s = ''.join(changing() + R.choice(['; ', '\n']) for _ in range(R.choice([1, 1, 2, 3, 4]))) + R.choice(['', 'N', 'M 3', 'D', 'F/b/', 'W']) + '\n'
    if R.random() < .1: s = 'M *\n' + s
    if R.random() < .25:
        # stop codes, and the bytes that count for W named before all else
        t = ''.join(codes() + '\n' for _ in range(R.choice([1, 2, 3, 6]))) + t
        s = R.choice(['', naming() + '\n', naming() + '; ']) + ''.join(word_set() for _ in range(R.randint(1, 3))) + R.choice([s, '', ''])
    if R.random() < .3:
        # times and stop codes in short lines, and patterns before all else
        t = ''.join(times() + '\n' for _ in range(R.choice([1, 1, 2, 3, 5])))
        s = R.choice(['', '', naming() + '\n']) + ''.join(forms() for _ in range(R.randint(1, 3))) + R.choice([s, '', ''])
    if R.random() < .12: s, t = replacing() + s, t + ''.join(line()[:12] + '\n' for _ in range(R.choice([2, 5, 9])))
    return t, s
def run_case():
    t, s = table_and_script()
    opening = len(t) + 2 * t.count('\n')
    size = R.choice([opening + R.randint(0, 30), opening + R.randint(0, 90), 4096, 4096, opening + 300])
    return t.encode().hex() or '-', s.encode().hex(), R.choice([0, 1, 3, 8, 20, 60, 60, 120]), 2 * len(s) + 64, size
def run_records(lines):
    """The records of a run's journal, done or stopped, from these lines or from a table of its own; none of a refused run."""
    t, s = table_and_script()
    if lines is not None: t = ''.join(l.decode() + '\n' for l in lines)
    if R.random() < .4: s = replacing()
    return oracle.records(oracle.outcome(t.encode(), s.encode(), 120, 2 * len(s) + 64, 8192)[5])
def short(): return R.choice([b'', b'', b'a', b'a', b'b', b'ab', b'-', b'--', b'++', b'==', b'<>', b'<>a', line().encode()])
def any_records(lines):
    """Records by chance: each old line is kept, changed or deleted, and lines come between them."""
    out = []
    if lines is None: lines = [short() for _ in range(R.choice([0, 1, 2, 3, 5, 8, 12]))]
    keep, come = R.choice([.1, .5, .9]), R.choice([0, .3, .6])
    for l in lines + [None]:
        while R.random() < come: out.append(['++', None, short()])
        if l is None: return oracle.arranged(out)
        new = l if R.random() < .5 else short()
        out.append(['--', l, None] if R.random() >= keep else ['==' if l == new else '<>', l, new])
def some_records(lines): return R.choice([run_records, any_records, any_records])(lines)
def mixed(recs):
    """The same records with a stretch, or more than it, in another order; now and then this changes no byte."""
    i = R.randrange(len(recs) + 1); part = recs[i:i + R.choice([2, 2, 3, 6])]
    R.shuffle(part)
    return recs[:i] + part + recs[i + len(part):]
def damaged(j):
    i = R.randrange(len(j) + 1)
    return R.choice([j[:i], j[:i] + bytes([R.choice([0, 10, 31, 43, 45, 60, 61, 62, 127])]) + j[i + R.randint(0, 1):], j + b'\0', j + b'<>a\na\n', j + b'<>a\n', j + b'\n',
                     j + b'==' + b'x' * R.choice([254, 255, 256]) + b'\n'])
def given_bytes(recs):
    r = R.random()
    if r < .08: recs = mixed(recs)
    j = oracle.journal_bytes(recs)
    return damaged(j) if r > .92 else j
def other_lines(lines):
    """Another table: a line more, less or changed."""
    i = R.randrange(len(lines) + 1)
    return R.choice([lines[:i] + [short()] + lines[i:], lines[:i] + lines[i + 1:], lines[:i] + [short()] + lines[i + 1:]])
def room_for(length): return R.choice([length, length, max(0, length - 1), max(0, length - 1), length + R.randint(1, 40), 0, 3000])
def join_case():
    first = some_records(None)
    middle = oracle.new_side(first)
    if R.random() < .12: middle = other_lines(middle)
    second = some_records(middle)
    if R.random() < .05: second = some_records(None)
    j, k = given_bytes(first), given_bytes(second)
    return j.hex() or '-', k.hex() or '-', room_for(oracle.join(j, k, 1 << 20)[1])
def turn_case():
    j = given_bytes(some_records(None))
    return j.hex() or '-', room_for(oracle.turn(j, 1 << 20)[1])
make = dict(run=run_case, join=join_case, turn=turn_case)[sys.argv[3] if len(sys.argv) > 3 else 'run']
sys.setrecursionlimit(20000)
for _ in range(N): print(*make())
