#!/usr/bin/env python3
"""Document 01 and wishes 1 to 9 of document 02 once more, written apart from the definitions: a plain interpreter for making and checking cases.

    tools/oracle.py check FILE [KIND]      compares each line of a file of cases (see tools/vectors.py) with what it finds
    tools/oracle.py outcome [KIND] < FILE  completes lines of what is given in a case

KIND is run (where it is not said), join or turn. Given are: table script budget work-length buffer-length; journal journal destination-length; journal destination-length.
"""
import sys

class Refused(Exception):
    def __init__(self, number, place): self.number, self.place = number, place

class Stop(Exception):
    def __init__(self, number): self.number = number

class Budget(Exception):
    pass

class Leave(Exception):
    """AGP: `group` is the innermost group around it, None outside groups."""
    def __init__(self, group): self.group = group

class Done(Exception):
    pass

def good_lines(data):
    if data and data[-1] != 10: return False
    return all(len(l) <= 255 and all(32 <= b <= 126 for b in l) for l in data.split(b'\n')[:-1])

DELIMITERS = b"!'*+,-./:?"

class Reader:
    def __init__(self, script):
        self.s, self.at, self.groups = script, 0, []

    def byte(self, i=None):
        i = self.at if i is None else i
        return self.s[i] if i < len(self.s) else 0

    def spaces(self):
        while self.byte() == 32: self.at += 1

    def comment_end(self, i):
        while i < len(self.s) and self.s[i] != 10: i += 1
        return i

    def blank(self, i):
        while i < len(self.s):
            if self.s[i] in b' \n': i += 1
            elif self.s[i] == 92: i = self.comment_end(i)
            else: break
        return i

    def letters(self):
        i = self.at
        while chr(self.byte(i)).isalpha() and self.byte(i) < 128: i += 1
        name = self.s[self.at:i].upper().decode()
        return (name[:4], i)

    def is_digit(self): return 48 <= self.byte() <= 57

    def digits(self):
        i = self.at
        while 48 <= self.byte(i) <= 57: i += 1
        n = int(self.s[self.at:i]); self.at = i
        return n

    def number(self):
        at = self.at
        if not self.is_digit(): raise Refused(3, at)
        n = self.digits()
        if not 1 <= n <= 65535: raise Refused(3, at)
        return n

    def string(self, d):
        i = self.at
        while i < len(self.s) and self.s[i] not in (d, 10): i += 1
        text = self.s[self.at:i]
        self.at = i + 1 if self.byte(i) == d and i < len(self.s) else i
        return text

    def plain(self):
        """A string without qualifiers."""
        self.spaces()
        if self.byte() not in DELIMITERS or self.at >= len(self.s): raise Refused(3, self.at)
        d = self.byte(); self.at += 1
        return self.string(d)

    def two_plain(self):
        """The strings of GE, GA and GB: two without qualifiers, the first not empty."""
        self.spaces()
        at, d = self.at, self.byte()
        first = self.plain()
        if not first: raise Refused(4, at)
        return first, self.string(d)

    def words(self):
        """WORD's string: the set of the bytes that it names; 33 at a `-` or `"` that is no part of a name."""
        self.spaces()
        i = self.at + 1
        s = self.plain()
        end, named = i + len(s), set()
        while i < end:
            b, left = self.s[i], end - i
            if b == 34 and left > 1: named.add(self.s[i + 1]); i += 2
            elif b in b'-"': raise Refused(33, i)
            elif left > 1 and self.s[i + 1] == 45:
                last = self.s[i + 2] if left > 2 else 0
                if not (kind(b) and kind(b) == kind(last) and b <= last): raise Refused(33, i + 1)
                named.update(range(b, last + 1)); i += 3
            else: named.add(b); i += 1
        return named

    def pattern(self, end):
        """The pattern from here to `end`: one reading from left to right, with a stack of the brackets that stand open; 34 at the first byte that cannot stand there."""
        i, before = self.at, ''  # the `#` and `~` that wait for their item
        levels = [('', [[]])]  # for the pattern and for each open bracket: what stood before it, and its alternatives so far, lists of items
        while True:
            b = chr(self.s[i]) if i < end else 'end'
            rows = levels[-1][1]
            if b == '"' or b not in ('|', '(', ')', '~', '#', '-', 'end'):
                quoted = b == '"'
                i += quoted
                if i == end: raise Refused(34, i)
                first = last = self.s[i]
                i += 1
                if not quoted and kind(first) and i < end and self.s[i] == 45:
                    i += 1
                    last = self.s[i] if i < end else 0
                    if kind(last) != kind(first) or last < first: raise Refused(34, i)
                    i += 1
                item = ('byte', '~' in before, first, last)
            elif b == '#' and not before or b == '~' and '~' not in before: before += b; i += 1; continue
            elif b == '(' and '~' not in before and len(levels) <= 8: levels.append((before, [[]])); before = ''; i += 1; continue
            elif b == '|' and not before: rows.append([]); i += 1; continue
            elif (b == ')' and len(levels) > 1 or b == 'end' and len(levels) == 1) and not before and any(rows):
                before, rows = levels.pop()
                item = ('or', [('row', row) for row in rows])
                if not levels: return item
                i += 1
            else: raise Refused(34, i)
            levels[-1][1][-1].append(('many', item) if '#' in before else item)
            before = ''

    def qualified(self, search, two=False):
        q = dict(anchor='', count=0, cols=None)
        self.spaces()
        while self.byte() not in DELIMITERS or self.at >= len(self.s):
            at, c = self.at, chr(self.byte()).upper()
            if self.is_digit():
                n = self.number()
                if q['count'] or q['anchor'] or q.get('R'): raise Refused(4, at)
                q['count'] = n
            elif c == '_':
                if q['cols']: raise Refused(4, at)
                self.at += 1; self.spaces(); n = self.number(); self.spaces()
                if self.byte() != 44: raise Refused(3, self.at)
                self.at += 1; self.spaces(); where = self.at; m = self.number()
                if n > m: raise Refused(3, where)
                self.spaces()
                if self.byte() != 95: raise Refused(3, self.at)
                self.at += 1; q['cols'] = (n, m)
            elif c and c in 'BEP':
                if q['anchor'] or q['count'] or (q.get('L') and c != 'E'): raise Refused(4, at)
                q['anchor'] = c; self.at += 1
            elif c and c in 'LNWUSR':
                if q.get(c) or (c == 'L' and q['anchor'] and q['anchor'] in 'BP') or (c == 'N' and not search): raise Refused(4, at)
                if c == 'R' and (q.get('U') or q['count']) or c == 'U' and q.get('R'): raise Refused(4, at)
                q[c] = True; self.at += 1
            else: raise Refused(3, at)
            self.spaces()
        d, at = self.byte(), self.at
        self.at += 1
        begin = self.at
        q['s'] = self.string(d)
        if not q['s'] and (q['count'] or q.get('W')): raise Refused(4, at)
        if q.get('R'):
            after, self.at = self.at, begin
            q['pattern'] = self.pattern(begin + len(q['s']))
            self.at = after
        return (q, self.string(d)) if two else q

    def operator(self, sign):
        i = self.blank(self.at)
        if self.byte(i) != sign: return False
        self.at = self.blank(i + 1)
        return True

    def search(self, deep=0):
        self.spaces()
        if self.byte() != 40: return ('q', self.qualified(True))
        if deep == 8: raise Refused(5, self.at)
        self.at += 1
        ors = []
        while True:
            ands = [self.search(deep + 1)]
            while self.operator(38): ands.append(self.search(deep + 1))
            ors.append(('and', ands))
            if not self.operator(124): break
        self.spaces()
        if self.byte() == 41:
            self.at += 1
            return ('or', ors)
        if self.blank(self.at) >= len(self.s): raise Refused(5, len(self.s))
        raise Refused(3, self.at)

    def target(self, star):
        self.spaces()
        if self.byte() == 46: self.at += 1; return '.'
        if star and self.byte() == 42: self.at += 1; return '*'
        return self.number()

    def span(self):
        self.spaces()
        a, b = '.', None
        if self.is_digit() or self.byte() == 46:
            a = self.target(False)
            i = self.at
            self.spaces()
            if self.byte() == 42: self.at += 1; b = '*'
            elif self.is_digit(): b = self.number()
            else: self.at = i
        return a, b

    def lines(self):
        self.spaces()
        if self.byte() == 92: self.at = self.comment_end(self.at)
        if self.byte() != 10: raise Refused(3, self.at)
        self.at += 1
        out = []
        while True:
            if self.at >= len(self.s): raise Refused(5 if self.groups else 6, len(self.s))
            end = self.comment_end(self.at)
            l = self.s[self.at:end]
            self.at = end
            if l in (b'Z', b'z'): return out
            self.at += 1
            out.append(l)

    def sequence(self, top):
        """Commands up to the end or the `)` of a group, as a list; None stands for a line end outside groups."""
        out = []
        while True:
            self.spaces()
            if self.at >= len(self.s):
                if not top: raise Refused(5, len(self.s))
                return out
            b = self.byte()
            if b == 59: self.at += 1
            elif b == 10:
                self.at += 1
                if top: out.append(None)
            elif b == 92: self.at = self.comment_end(self.at)
            elif b == 41:
                if top: raise Refused(5, self.at)
                self.at += 1
                return out
            else: out.append(self.command())

    def group(self, body):
        at = self.at
        if len(self.groups) >= 16: raise Refused(5, at)
        self.at += 1
        node = dict(kind='group', at=at, bare=not body)
        self.groups.append(node)
        node['items'] = self.sequence(False)
        self.groups.pop()
        return node

    def command(self):
        """A command with the counts, RPT and tests before it, which are gathered by a loop: a script can nest thousands of them."""
        prefixes = []
        while True:
            self.spaces()
            at, b = self.at, self.byte()
            if prefixes and (self.at >= len(self.s) or b in b';)\\\n'): raise Refused(3, at)
            if b == 40:
                node = self.group(bool(prefixes))
                if prefixes and prefixes[-1]['kind'] == 'if':
                    i = self.at
                    self.spaces()
                    name, end = self.letters()
                    if name == 'ELSE':
                        self.at = end
                        self.spaces()
                        if self.byte() != 40: raise Refused(3, self.at)
                        prefixes[-1]['else'] = self.group(True)
                    else: self.at = i
                break
            if 48 <= b <= 57:
                n = self.digits()
                if n > 65535: raise Refused(3, at)
                prefixes.append(dict(kind='times', at=at, n=n))
                continue
            if chr(b).isalpha() and b < 128: name, end = self.letters()
            else: name, end = chr(b), at + 1
            self.at = end
            if name == 'RPT': prefixes.append(dict(kind='times', at=at, n=None)); continue
            if name in ('IF', 'UL', 'WH', 'UT', 'IFEO'):
                test = None if name == 'IFEO' else self.search()
                node = dict(kind='if' if name in ('IF', 'UL', 'IFEO') else 'while', at=at, test=test, want=name in ('IF', 'WH', 'IFEO'))
                if node['kind'] == 'if':
                    i = self.at
                    self.spaces()
                    then, end = self.letters()
                    self.at = end if then == 'THEN' else i
                prefixes.append(node)
                continue
            node = dict(kind='do', at=at, name=name, group=self.groups[-1] if self.groups else None)
            if name in ('N', 'P', 'IC', 'PR', '>', '<', '#', '$', '%', 'AGP', 'W', 'CG'): pass
            elif name in ('F', 'BF', 'DF'): node['se'] = self.search()
            elif name == 'M': node['a'] = self.target(True)
            elif name == 'D': node['a'], node['b'] = self.span()
            elif name == 'R': node['a'], node['b'] = self.span(); node['lines'] = self.lines()
            elif name == 'I':
                i = self.at
                self.spaces()
                if self.is_digit() or self.byte() in b'.*' and self.byte(): node['a'] = self.target(True)
                else: node['a'] = None; self.at = i
                node['lines'] = self.lines()
            elif name == 'IS': node.update(name='I', a=None, lines=[self.plain()])
            elif name == 'CL': node['s'] = self.plain()
            elif name in ('GE', 'GA', 'GB'): node['s'], node['new'] = self.two_plain()
            elif name == 'WORD': node['named'] = self.words()
            elif name in ('A', 'B', 'E', 'AP', 'BP', 'EP'): node['q'], node['new'] = self.qualified(False, True)
            elif name in ('PA', 'PB', 'SA', 'SB'): node['q'] = self.qualified(False)
            else: raise Refused(2, at)
            break
        for p in reversed(prefixes):
            p['body'] = node
            node = p
        return node

def kind(b):
    """Digits, capitals and small letters are the kinds of bytes that ranges go between; any other byte has none."""
    return next((k for k, (first, last) in enumerate([(48, 57), (65, 90), (97, 122)], 1) if first <= b <= last), None)

def ends(pattern, text):
    """For each place of the text, from 0 to its length, the set of the places at which a part that begins there and is in the pattern's language ends."""
    what, places = pattern[0], range(len(text) + 1)
    if what == 'byte':
        _, mismatch, first, last = pattern
        return [{i + 1} if i < len(text) and (first <= text[i] <= last) != mismatch else set() for i in places]
    if what == 'or':
        each = [ends(x, text) for x in pattern[1]]
        return [set().union(*[x[i] for x in each]) for i in places]
    if what == 'row':
        out = [{i} for i in places]
        for x in pattern[1]:
            then = ends(x, text)
            out = [set().union(*[then[j] for j in out[i]]) for i in places]
        return out
    one, out = ends(pattern[1], text), {}
    for i in reversed(places): out[i] = {i}.union(*[out[j] for j in one[i] if j > i])
    return [out[i] for i in places]

def apart(line, i, j, words):
    """W's test of the part from i to j."""
    return not (i > 0 and line[i - 1] in words) and not (j < len(line) and line[j] in words)

def chosen(q, line, start, end, words):
    """R: of all parts of the text from `start` to `end` that are in the pattern's language and that the qualifiers allow, the one that is taken."""
    parts = [(start + i, start + j) for i, there in enumerate(ends(q['pattern'], line[start:end])) for j in there]
    if q.get('W'): parts = [(i, j) for i, j in parts if apart(line, i, j, words)]
    if q['anchor'] and q['anchor'] in 'BP': parts = [(i, j) for i, j in parts if i == start]
    if q['anchor'] and q['anchor'] in 'EP': parts = [(i, j) for i, j in parts if j == end]
    if not parts: return None
    if q.get('L') or q['anchor'] == 'E': return max(parts, key=lambda part: (part[1], -part[0]))
    return min(parts, key=lambda part: (part[0], -part[1]))

def place(q, line, p, words):
    """Where the string's match begins and ends; `words` are the bytes that count for W."""
    start, end = p, len(line)
    if q['cols']:
        n, m = q['cols']
        start = min(max(p, n - 1), len(line))
        end = max(start, min(m, len(line)))
    if q.get('S'):
        while start < end and line[start] == 32: start += 1
    if q.get('R'): return chosen(q, line, start, end, words)
    s, text = q['s'], line
    if q.get('U'): s, text = s.upper(), line.upper()
    k = len(s)
    def at(i): return text[i:i + k] == s and (not q.get('W') or apart(line, i, i + k, words))
    if end - start < k: return None
    if q['anchor'] == 'B': return (start, start + k) if at(start) else None
    if q['anchor'] == 'E': return (end - k, end) if at(end - k) else None
    if q['anchor'] == 'P': return (start, end) if end - start == k and at(start) else None
    left = q['count'] or 1
    i = end - k if q.get('L') else start
    step = -1 if q.get('L') else 1
    while start <= i <= end - k:
        if at(i):
            left -= 1
            if not left: return i, i + k
            i += step * k
        else: i += step
    return None

def holds(se, line, p, words):
    """Without a line, at EOF, no string is found: one with N is true, one without is false."""
    if se[0] == 'q': return (line is not None and place(se[1], line, p, words) is not None) != bool(se[1].get('N'))
    return (all if se[0] == 'and' else any)([holds(x, line, p, words) for x in se[1]])

class Editor:
    """Records are lists [mark, old, new]; `cur` is the index of the current one, len(recs) at EOF."""
    def __init__(self, lines, size, budget):
        self.recs = [['==', l, l] for l in lines]
        self.lines, self.size, self.budget = len(lines), size, budget
        self.cur, self.p, self.steps, self.furthest = 0, 0, 0, 1
        self.globals = []
        self.words = {b for b in range(256) if kind(b)}

    def step(self, at):
        self.place = at
        if self.steps == self.budget: raise Budget()
        self.steps += 1

    def number(self, i): return sum(r[0] != '++' for r in self.recs[:i]) + 1
    def see(self, i):
        if i >= len(self.recs): self.read_to(self.lines + 1)
        elif self.recs[i][0] != '++': self.read_to(self.number(i))

    def passed(self, l):
        """A line as the standing globals leave it."""
        for s, new in self.globals:
            l = l.replace(s, new)
            if len(l) > 255: raise Stop(25)
        return l

    def unread(self):
        """The index of the first unread line: these stand last, as in the table."""
        return len(self.recs) - max(0, self.lines - self.furthest)

    def passed_record(self, record, total):
        """An unread line's record as the standing globals leave it, and the length of the journal with it."""
        old = record[1]
        l = self.passed(old)
        if l == old: return record, total
        if total + len(l) + 1 > self.size: raise Stop(26)
        return ['<>', old, l], total + len(l) + 1

    def read_to(self, n):
        """The source lines up to n that are not read yet are read in order; lines + 1 is EOF."""
        total = self.length(self.recs) if self.globals and n > self.furthest else 0
        while self.furthest < n:
            i = self.unread()
            self.furthest += 1
            if i < len(self.recs): self.recs[i], total = self.passed_record(self.recs[i], total)

    def pass_unread(self):
        """After a done script: all unread lines, or none where one stops."""
        if not self.globals: return
        i, total, rest = self.unread(), self.length(self.recs), []
        for record in self.recs[i:]:
            record, total = self.passed_record(record, total)
            rest.append(record)
        self.recs[i:] = rest
    def index(self, a):
        n = 0
        for i, r in enumerate(self.recs):
            if r[0] != '++':
                n += 1
                if n == a: return i
        return None
    def text(self): return self.recs[self.cur][2] if self.cur < len(self.recs) else None
    def live(self, i): return self.recs[i][0] != '--'
    def next_live(self, i):
        i += 1
        while i < len(self.recs) and not self.live(i): i += 1
        return i
    def previous_live(self, i):
        i -= 1
        while i >= 0 and not self.live(i): i -= 1
        return i
    def go(self, i): self.cur, self.p = i, 0; self.see(i)

    def length(self, recs):
        return sum(2 + len(r[1] if r[0] == '--' else r[2]) + 1 + (len(r[1]) + 1 if r[0] == '<>' else 0) for r in recs)

    def put(self, recs, cur, p):
        if self.length(recs) > self.size: raise Stop(26)
        self.recs, self.cur, self.p = recs, cur, p

    def find_line(self, a):
        """The index of the line of M, I and D; reads up to it."""
        if a == '.': return self.cur
        if a == '*': self.see(len(self.recs)); return len(self.recs)
        i = self.index(a)
        if i is None: self.see(len(self.recs)); raise Stop(21)
        if not self.live(i): raise Stop(23)
        self.see(i)
        return i

    def rewritten(self, l):
        """The current line's record with another text."""
        mark, old, _ = self.recs[self.cur]
        return ['++', None, l] if mark == '++' else ['==' if l == old else '<>', old, l]

    def retext(self, l, p):
        if len(l) > 255: raise Stop(25)
        self.put(self.recs[:self.cur] + [self.rewritten(l)] + self.recs[self.cur + 1:], self.cur, p)

    def split(self, k):
        """SA and SB: the first k bytes go into a line of their own before the current one, which keeps the rest."""
        l = self.text()
        self.put(self.recs[:self.cur] + [['++', None, l[:k]], self.rewritten(l[k:])] + self.recs[self.cur + 1:], self.cur + 1, 0)

    def join(self, s):
        """CL: the next live line is read, then taken into the current one."""
        i = self.next_live(self.cur)
        self.see(i)
        if i >= len(self.recs): raise Stop(30)
        mark, old, text = self.recs[i]
        l = self.text() + s + text
        if len(l) > 255: raise Stop(25)
        gone = [] if mark == '++' else [['--', old, None]]
        self.put(self.recs[:self.cur] + [self.rewritten(l)] + self.recs[self.cur + 1:i] + gone + self.recs[i + 1:], self.cur, self.p)

    def deleted(self, a, b):
        """D's records and where it lands."""
        start = self.find_line(a)
        if start >= len(self.recs): raise Stop(20)
        if b is None: last = start
        elif b == '*': last = len(self.recs) - 1; self.see(len(self.recs))
        else:
            last = self.index(b)
            if last is not None and last < start: raise Stop(28)
            if last is None and self.number(start) > b: raise Stop(28)
            if last is None: self.see(len(self.recs)); raise Stop(21)
            if not self.live(last): raise Stop(23)
        land = self.next_live(last)
        self.see(land)
        if land < len(self.recs):
            # every source line passed is read
            for i in range(start, land + 1): self.see(i)
        recs, at = [], 0
        for i, r in enumerate(self.recs):
            if i == land: at = len(recs)
            if start <= i <= last and r[0] != '--':
                if r[0] != '++': recs.append(['--', r[1], None])
            else: recs.append(r)
        if land >= len(self.recs): at = len(recs)
        return recs, at

    def do(self, c):
        name, n = c['name'], len(self.recs)
        self.step(c['at'])
        if name == 'W': raise Done()
        if name == 'AGP': raise Leave(c['group'])
        if name == 'CG': self.globals = []; return
        if name == 'WORD': self.words = c['named']; return
        if name in ('GE', 'GA', 'GB'):
            if len(self.globals) == 16: raise Stop(31)
            s, new = c['s'], c['new']
            self.globals.append((s, s + new if name == 'GA' else new + s if name == 'GB' else new))
            return
        if name == 'N':
            if self.cur >= n: raise Stop(20)
            self.go(self.next_live(self.cur))
        elif name == 'P':
            i = self.previous_live(self.cur)
            if i < 0: raise Stop(22)
            self.go(i)
        elif name == 'M': self.go(self.find_line(c['a']))
        elif name in ('F', 'DF'):
            start = self.cur
            i, p = self.cur, self.p
            while True:
                if i >= n: self.see(n); raise Stop(21)
                self.see(i)
                self.step(c['at'])
                if holds(c['se'], self.recs[i][2], p, self.words): break
                i, p = self.next_live(i), 0
            if i == start: return
            if name == 'F': self.go(i); return
            kept = [(['--', r[1], None] if r[0] != '--' else r) for r in self.recs[start:i] if r[0] != '++']
            recs = self.recs[:start] + kept + self.recs[i:]
            self.put(recs, start + len(kept), 0)
        elif name == 'BF':
            i, p = self.cur, self.p
            if i >= n: i, p = self.previous_live(i), 0
            while True:
                if i < 0: raise Stop(22)
                self.step(c['at'])
                if holds(c['se'], self.recs[i][2], p, self.words): break
                i, p = self.previous_live(i), 0
            self.cur, self.p = i, p
        elif name == 'D':
            recs, at = self.deleted(c['a'], c['b'])
            self.put(recs, at, 0)
        elif name == 'R':
            recs, at = self.deleted(c['a'], c['b'])
            new = [['++', None, l] for l in c['lines']]
            self.put(recs[:at] + new + recs[at:], at + len(new), 0)
        elif name == 'I':
            at, p = (self.cur, self.p) if c['a'] is None else (self.find_line(c['a']), 0)
            new = [['++', None, l] for l in c['lines']]
            self.put(self.recs[:at] + new + self.recs[at:], at + len(new), p)
        else:
            l = self.text()
            if l is None: raise Stop(20)
            p = self.p
            if name == 'IC': self.put(self.recs[:self.cur] + [['++', None, l]] + self.recs[self.cur:], self.cur + 1, p)
            elif name == 'CL': self.join(c['s'])
            elif name == 'PR': self.p = 0
            elif name == '<':
                if p == 0: raise Stop(27)
                self.p -= 1
            elif name in ('>', '#', '$', '%'):
                if p >= len(l): raise Stop(27)
                if name == '>': self.p += 1
                elif name == '#': self.retext(l[:p] + l[p + 1:], p)
                else: self.retext(l[:p] + (l[p:p + 1].lower() if name == '$' else l[p:p + 1].upper()) + l[p + 1:], p + 1)
            else:
                found = place(c['q'], l, p, self.words)
                if found is None: raise Stop(24)
                i, j = found
                if name == 'PA': self.p = j
                elif name == 'PB': self.p = i
                elif name == 'SA': self.split(j)
                elif name == 'SB': self.split(i)
                else:
                    new = c['new']
                    if name[0] == 'A': t = l[:j] + new + l[j:]
                    elif name[0] == 'B': t = l[:i] + new + l[i:]
                    else: t = l[:i] + new + l[j:]
                    q = p
                    if len(name) == 2: q = len(new) + (i if name == 'EP' else j)
                    self.retext(t, q)

    def test(self, c):
        self.step(c['at'])
        if c['test'] is None: return self.cur >= len(self.recs)
        return holds(c['test'], self.text(), self.p, self.words) == c['want']

    def body(self, node):
        """Runs a body; AGP of a group that is this body itself ends it and what it is the body of (returns False)."""
        if node['kind'] != 'group': self.run(node); return True
        try:
            for x in node['items']: self.run(x)
        except Leave as leave:
            if leave.group is not node: raise
            return False
        return True

    def run(self, c):
        kind = c['kind']
        if kind == 'do': self.do(c)
        elif kind == 'group':
            self.step(c['at'])
            self.body(c)
        elif kind == 'times':
            n = c['n']
            while n is None or n > 0:
                self.step(c['at'])
                if not self.body(c['body']): return
                if n is not None: n -= 1
        elif kind == 'if':
            if self.test(c): self.body(c['body'])
            elif 'else' in c: self.body(c['else'])
        else:
            while self.test(c):
                if not self.body(c['body']): return

    def top(self, items):
        i = 0
        while i < len(items):
            if items[i] is not None:
                try: self.run(items[i])
                except Leave:
                    while i < len(items) and items[i] is not None: i += 1
            i += 1

    def bytes(self): return journal_bytes(arranged(self.recs))

def arranged(recs):
    """Each stretch of `--` and `++` records sorted, `--` first; a sort keeps the order of equals."""
    out, stretch = [], []
    for record in recs + [None]:
        if record and record[0] in ('--', '++'): stretch.append(record)
        else:
            out += sorted(stretch, key=lambda r: r[0] == '++') + [record]
            stretch = []
    return out[:-1]

def journal_bytes(recs):
    return b''.join(mark.encode() + (old + b'\n' + new if mark == '<>' else old if mark == '--' else new) + b'\n' for mark, old, new in recs)

def outcome(table, script, budget, work, size):
    try:
        if len(script) > 16384 or not good_lines(script): raise Refused(1, 0)
        if work < 2 * len(script) + 64: raise Refused(8, 0)
        items = Reader(script).sequence(True)
        if not good_lines(table) or table.count(b'\n') > 65535: raise Refused(7, 0)
        if size < len(table) + 2 * table.count(b'\n'): raise Refused(9, 0)
    except Refused as r:
        return (r.number, 0, 0, 0, r.place, b'')
    e = Editor(table.split(b'\n')[:-1], size, budget)
    number, at = 0, 0
    try:
        try: e.top(items)
        except Done: pass
        e.place = len(script)
        e.pass_unread()
    except Stop as s: number, at = s.number, e.place
    except Budget: number, at = 29, e.place
    j = e.bytes()
    return (number, e.steps, e.furthest, len(j), at, j)

def records(journal):
    """A journal's records; None where the bytes are no journal that can be joined or turned round."""
    lines = journal.split(b'\n')
    if lines.pop(): return None
    recs, lines = [], iter(lines)
    for l in lines:
        mark, l = l[:2].decode('latin-1'), l[2:]
        if mark not in ('==', '<>', '--', '++'): return None
        new = l
        if mark == '<>':
            new = next(lines, None)
            if new is None or new == l: return None
        if any(len(x) > 255 or not all(32 <= b <= 126 for b in x) for x in (l, new)): return None
        recs.append([mark, None if mark == '++' else l, None if mark == '--' else new])
    if len(old_side(recs)) > 65535 or len(new_side(recs)) > 65535: return None
    return recs if arranged(recs) == recs else None

def old_side(recs): return [r[1] for r in recs if r[1] is not None]
def new_side(recs): return [r[2] for r in recs if r[2] is not None]

def into(room, recs):
    out = journal_bytes(recs)
    return (0, len(out), out) if len(out) <= room else (10, 0, b'')

def join(j, k, room):
    """Each line of the three tables by its old and its new text: the lines with both bound the stretches, and a line with neither leaves nothing."""
    first, second = records(j), records(k)
    if first is None or second is None: return (11, 0, b'')
    if new_side(first) != old_side(second): return (32, 0, b'')
    middle = [r[1] for r in first if r[2] is not None]  # the old texts of the middle lines
    after = [r[2] for r in second if r[1] is not None]  # their new texts
    # what the first deletes and what the second inserts, each before the middle line that follows it
    left, came = [[] for _ in range(len(middle) + 1)], [[] for _ in range(len(middle) + 1)]
    i = 0
    for r in first:
        if r[2] is None: left[i].append(r)
        else: i += 1
    i = 0
    for r in second:
        if r[1] is None: came[i].append(r)
        else: i += 1
    out = []
    for i, (old, new) in enumerate(zip(middle, after)):
        out += left[i] + came[i]
        if old is not None and new is not None: out.append(['==' if old == new else '<>', old, new])
        elif old is not None: out.append(['--', old, None])
        elif new is not None: out.append(['++', None, new])
    return into(room, arranged(out + left[-1] + came[-1]))

def turn(j, room):
    recs = records(j)
    if recs is None: return (11, 0, b'')
    other = {'==': '==', '<>': '<>', '--': '++', '++': '--'}
    return into(room, arranged([[other[mark], new, old] for mark, old, new in recs]))

def unhex(w): return b'' if w == '-' else bytes.fromhex(w)

# for each kind of case: how many fields of bytes are given, how many fields in all, and what they come to
KINDS = {
    'run': (2, 5, lambda w: outcome(unhex(w[0]), unhex(w[1]), int(w[2]), int(w[3]), int(w[4]))),
    'join': (2, 3, lambda w: join(unhex(w[0]), unhex(w[1]), int(w[2]))),
    'turn': (1, 2, lambda w: turn(unhex(w[0]), int(w[1]))),
}

def main():
    sys.setrecursionlimit(20000)
    is_check = sys.argv[1] == 'check'
    texts, given, find = KINDS[(sys.argv[3 if is_check else 2:] or ['run'])[0]]
    if is_check:
        bad = n = 0
        for line in open(sys.argv[2]):
            w = line.split()
            got = find(w)
            want = tuple(int(x) for x in w[given:-1]) + (unhex(w[-1]),)
            n += 1
            if got != want:
                bad += 1
                if bad < 20: print('given', *[unhex(x) for x in w[:texts]], *w[texts:given], '\nwant', want, '\ngot ', got)
        print('%d cases, %d differ' % (n, bad))
    else:
        for line in sys.stdin:
            w = line.split()
            got = find(w)
            print(' '.join(w[:given]), ' '.join(str(x) for x in got[:-1]), got[-1].hex() or '-')

if __name__ == '__main__': main()
