#!/usr/bin/env python3
"""Ticks off each case of the former tests of the tree in Rattle against the text of `tree_transcripts`.

    tests/tree_cases.py OLD [TEXT]

OLD is the folder `crates/acceptance_tree/src` of a state of this repository that still has it. Its constants are read as data; each
step and its answer, each number that hurts a table and what is told of it, each case of calls and each sweep must stand in TEXT
(crates/tree_transcripts/stdin), in the same order, on tables whose pages are the same bytes; hurts may come in any order. It prints how
many cases there are, and those that the text lacks, and then ends with status 1. The plan of a count is in `acceptance_parts`."""

import pathlib
import re
import sys

TOP = pathlib.Path(__file__).resolve().parent.parent

# ---- Constants of Rattle as data

TOKEN = re.compile(r'\s*(?:(//[^\n]*)|(b?"(?:[^"\\]|\\.)*")|(0x[0-9a-fA-F_]+|\d[\d_]*)|([A-Za-z_][A-Za-z_0-9]*(?:::[A-Za-z_][A-Za-z_0-9]*)*)|(.))', re.S)

class Node:
    def __init__(self, kind, name=None, args=None, fields=None, value=None):
        self.kind, self.name, self.args, self.fields, self.value = kind, name, args or [], fields or {}, value
        self.notes = []
    def __repr__(self):
        return f'{self.kind}:{self.name}{self.args}{self.fields}{self.value}'

class Parser:
    def __init__(self, text, consts):
        self.toks = []
        for m in TOKEN.finditer(text):
            if m.group(0).strip() == '': continue
            self.toks.append(m.groups())
        self.i = 0
        self.consts = consts
    def notes(self):
        out = []
        while self.i < len(self.toks) and self.toks[self.i][0] is not None:
            t = self.toks[self.i][0][2:].strip()
            if t: out.append(t)
            self.i += 1
        return out
    def peek(self):
        self.notes()
        return self.toks[self.i] if self.i < len(self.toks) else (None,)*5
    def punct(self, c):
        if self.peek()[4] == c:
            self.i += 1
            return True
        return False
    def need(self, c):
        assert self.punct(c), (c, self.toks[max(0,self.i-5):self.i+5])
    def items(self, close):
        out = []
        while True:
            notes = self.notes()
            if self.punct(close): return out
            node = self.expr()
            node.notes = notes + node.notes
            out.append(node)
            if self.punct(';'):
                count = self.expr()
                self.need(close)
                return [Node('num', value=node.value) for _ in range(count.value)]
            self.punct(',')
    def expr(self):
        left = self.atom()
        while self.peek()[4] == '+':
            self.i += 1
            right = self.atom()
            left = Node('num', value=self.num(left) + self.num(right))
        return left
    def num(self, n):
        if n.kind == 'path': n = self.consts[n.name]
        return n.value
    def atom(self):
        while self.punct('&'): pass
        if self.punct('-'):
            n = self.atom(); return Node('num', value=-n.value)
        _, s, n, ident, p = self.peek()
        self.i += 1
        if s is not None:
            return Node('bytes' if s.startswith('b') else 'str', value=s.lstrip('b')[1:-1])
        if n is not None:
            return Node('num', value=int(n.replace('_',''), 0))
        if ident in ('true','false'):
            return Node('num', value=int(ident=='true'))
        if ident is not None:
            if self.punct('('):
                return Node('call', ident, self.items(')'))
            if self.peek()[4] == '{' :
                self.i += 1
                fields = {}
                while not self.punct('}'):
                    key = self.peek()[3]; self.i += 1
                    self.need(':')
                    fields[key] = self.expr()
                    self.punct(',')
                return Node('struct', ident, fields=fields)
            return Node('path', ident)
        if p == '[': return Node('array', args=self.items(']'))
        if p == '(': return Node('tuple', args=self.items(')'))
        raise ValueError((s,n,ident,p,self.toks[self.i-5:self.i+5]))

HEAD = re.compile(r'((?:^//[^\n]*\n)*)^(?:pub\(crate\) )?(?:const|static) ([A-Z_0-9]+): [^=]*= ', re.M)

def load(path, outer=None):
    text = open(path).read()
    consts = dict(outer or {})
    own = {}
    for m in HEAD.finditer(text):
        p = Parser(text[m.end():][:0] , consts)
        # cut at the ';' that ends it
        depth, i, s = 0, m.end(), text
        while True:
            c = s[i]
            if s.startswith('//', i):
                i = s.index('\n', i)
            elif c == '"':
                i += 1
                while s[i] != '"': i += 2 if s[i] == '\\' else 1
            elif c in '([{': depth += 1
            elif c in ')]}': depth -= 1
            elif c == ';' and depth == 0: break
            i += 1
        body = s[m.end():i]
        node = Parser(body, consts).expr()
        node.head = [l[2:].strip() for l in m.group(1).splitlines()]
        consts[m.group(2)] = own[m.group(2)] = node
    tests = []
    for m in re.finditer(r'#\[test\]\nfn (\w+)\(rt: HostRuntime\) \{(.*?)\n\}', text, re.S):
        calls = []
        for c in re.finditer(r'(goes|all_go)\(\s*&rt,\s*(?:alloc|rt\.alloc\(\)),\s*(.*?)\);', m.group(2), re.S):
            calls.append((c.group(1), [a.strip() for a in re.split(r',(?![^"]*")', c.group(2)) if a.strip()]))
        tests.append((m.group(1), calls))
    head = []
    for line in text.splitlines():
        if not line.startswith('//'): break
        head.append(line[2:].strip())
    return consts, own, tests, head

# ---- Pages

def poke(page, at, width, number):
    page[at:at + width] = (number % 256 ** width).to_bytes(width, 'big')

PLANE = [(0, 4, 0x55425452), (4, 1, 3), (6, 1, 2), (7, 1, 1), (32, 2, 0x174), (65, 2, 0x178), (98, 2, 0x179), (131, 2, 0x16d)]

def old_sheet(node, page_rows, consts):
    "The bytes of a page of the old tests."
    node = deref(node, consts)
    page = bytearray(4096)
    kind = node.name.split('::')[1]
    args = [deref(a, consts) for a in node.args]
    n = [a.value for a in args]
    def header(numbers):
        for at, width, number in PLANE: poke(page, at, width, number)
        poke(page, 8, 1, page_rows)
        for i, number in enumerate(numbers): poke(page, 12 + 4 * i, 4, number)
    def region(z, rows):
        c = len(rows)
        poke(page, 0, 4, 0x52020100 + c)
        poke(page, 4, 16, z)
        for i, (number, x, y, m) in enumerate(rows):
            poke(page, 24 + 4 * i, 4, number)
            poke(page, 24 + 4 * (c + i), 4, x)
            poke(page, 24 + 4 * (2 * c + i), 4, y)
            poke(page, 24 + 12 * c + 8 * i, 8, m)
    def index(level, entries):
        poke(page, 0, 1, 0x49); poke(page, 1, 1, level); poke(page, 2, 2, len(entries))
        for i, (z, number, to) in enumerate(entries):
            poke(page, 16 + 24 * i, 16, z); poke(page, 32 + 24 * i, 4, number); poke(page, 36 + 24 * i, 4, to)
    if kind == 'Header':
        header(n[:3] + [2, 1]); poke(page, 5, 1, n[3])
    elif kind == 'Rooted': header(n)
    elif kind == 'Old':
        header([1, 0, 1, 2, 1]); poke(page, 4, 1, n[0])
    elif kind == 'Region':
        region(n[0], [row_of(r) for r in args[1].args])
    elif kind == 'Equal':
        region(n[0], [(n[2] + i, 0, n[1], 0) for i in range(n[3])])
    elif kind == 'Index':
        index(n[0], [entry_of(e) for e in args[1].args])
    elif kind == 'Part':
        index(n[0], [(n[1] + i, 0, 1) for i in range(n[2])])
    else: assert kind == 'Blank', kind
    return bytes(page)

def deref(node, consts):
    while node.kind == 'path' and node.name in consts: node = consts[node.name]
    return node

def row_of(r):
    f = r.fields
    return f['number'].value, f['dims'].args[0].value, f['dims'].args[1].value, f['measures'].args[0].value

def entry_of(e):
    k = e.fields['first'].fields
    return k['z'].value, k['number'].value, e.fields['page'].value

WRITTEN = {'EmptyOf1': 'EMPTY_1', 'EmptyOf2': 'EMPTY_2', 'FiveOf1': 'FIVE_1', 'FiveOf2': 'FIVE_2', 'LevelsOf2': 'LEVELS_2', 'Spare': 'SPARE'}

OLD = {}

def old_pages(node, consts):
    "The pages of an old table."
    consts = OLD
    kind = node.name.split('::')[1]
    if kind == 'Nothing': return []
    if kind in WRITTEN:
        out = []
        for page in deref(consts[WRITTEN[kind]], consts).args:
            b = bytes(x.value for x in deref(page, consts).args)
            out.append(b + bytes(4096 - len(b)))
        return out
    pages = []
    if kind == 'Line':
        regions, rows = [a.value for a in node.args]
        chain = (regions + 169) // 170
        for number in range(chain + regions + 1):
            p = bytearray(4096)
            if number == 0:
                for at, w, v in [(0,4,0x55425452),(4,1,1),(6,1,1),(32,2,0x174),(65,2,0x178),(8,1,rows),(12,4,regions*rows+1),(16,4,regions*rows),(20,4,regions),(24,4,1),(28,4,chain)]:
                    poke(p, at, w, v)
            elif number <= chain:
                first = (number - 1) * 170
                count = min(regions - first, 170)
                poke(p, 0, 1, 0x44); poke(p, 2, 2, count)
                if number < chain: poke(p, 4, 4, number + 1)
                for i in range(count):
                    poke(p, 16 + 24 * i, 16, (first + i) * rows)
                    poke(p, 36 + 24 * i, 4, chain + first + i + 1)
            else:
                first = (number - chain - 1) * rows
                poke(p, 0, 4, 0x52010000 + rows); poke(p, 4, 16, first)
                for i in range(rows):
                    poke(p, 24 + 4 * i, 4, first + i + 1); poke(p, 24 + 4 * rows + 4 * i, 4, first + i)
            pages.append(bytes(p))
        return pages
    assert kind == 'Wide'
    h = bytearray(4096)
    for c in deref(consts['WIDE'], consts).args: poke(h, *[x.value for x in c.args])
    r = bytearray(4096)
    poke(r, 0, 4, 0x52040440)
    for i in range(64):
        poke(r, 24 + 4 * i, 4, i + 1); poke(r, 1304 + 8 * i, 8, 2**64 - 1)
    d = bytearray(4096)
    for c in deref(consts['WIDE_DIRECTORY'], consts).args: poke(d, *[x.value for x in c.args])
    return [bytes(h), bytes(r), bytes(d)]

def patched(pages, patches):
    pages = [bytearray(p) for p in pages]
    for page, at, bytes_ in patches:
        if bytes_: pages[page][at:at + len(bytes_)] = bytes_
    return [bytes(p) for p in pages]

# The text's items.
def stepped(words, turn, pages=0):
    a, _, steps = words.partition('+')
    s, _, more = steps.partition('+')
    return int(a) + int(s or 0) * turn + int(more or 0) * pages

def spell(items, turn=0):
    "The bytes of items."
    out = b''
    for item in items.split():
        if item[0] == "'": out += item[1:].encode()
        elif item[0] == '.': out += bytes([len(item) - 1]) + item[1:].encode().ljust(32, b'\0')
        elif item[0] == 'e':
            keys, to = item[1:].split('>')
            key, _, count = keys.partition('*')
            z, _, number = key.partition(':')
            for t in range(int(count or 1)):
                out += stepped(z, t, turn).to_bytes(16, 'big') + int(number or 0).to_bytes(4, 'big') + stepped(to, t, turn).to_bytes(4, 'big')
        elif '*' in item:
            b, c = item.split('*'); out += bytes([int(b)]) * int(c)
        else:
            n, _, w = item.partition('/')
            w = int(w or 1)
            if '~' in n:
                a, b = n.split('~')
                for v in range(int(a), int(b) + 1): out += v.to_bytes(w, 'big')
            else: out += stepped(n, turn).to_bytes(w, 'big')
    return out

def patches_of(words):
    out = []
    for patch in words.split(','):
        if patch.strip():
            place, _, items = patch.strip().partition(' ')
            page, at = place.split('@')
            out.append((int(page), int(at), spell(items)))
    return out

# ---- What the text must hold

LASTS = {2: 2**64 - 1, 1: 2**32 - 1, 4: 2**128 - 1}
KINDS = {'Page': None}
COLS = 'xym'

def fault(node, consts):
    node = deref(node, consts)
    name = node.name.split('::')[-1]
    if name == 'Store': return node.args[0].name.split('::')[-1]
    if name == 'Page': return f"{node.fields['fault'].name.split('::')[-1]} page {node.fields['page'].value}"
    return name

def told(node):
    name = node.name.split('::')[-1]
    if name == 'Well': return 'ok'
    if name == 'NoPage': return 'NoPage'
    return f"{node.args[1].name.split('::')[-1]} page {node.args[0].value}"

def patch(node, consts):
    node = deref(node, consts)
    page, at, width, number = [a.value for a in node.args]
    return (page, at, number.to_bytes(width, 'big'))

def where(z, dims):
    return 'last' if z == LASTS[dims] else str(z)

def numbers(answer, consts):
    "The four numbers of an answer, or None and the words of a fault."
    answer = deref(answer, consts)
    if answer.kind == 'call' and answer.name == 'Ok':
        out = []
        for a in answer.args[0].args:
            a = deref(a, consts)
            out.append(2**128 - 1 if a.value is None else a.value)
        return out, None
    assert answer.name == 'Err', answer
    return None, fault(answer.args[0], consts)

NOTHING = [2**128 - 1] * 4

def query(ask, dims):
    ask = ask.args[0]
    kind = ask.name.split('::')[-1]
    a = ask.args
    def key(c, d): return COLS[c] + (' DESC' if d else '')
    if kind == 'Rows':
        k = [key(*[x.value for x in t.args]) for t in a]
        if k[0] == k[1]: k = k[:1]
        return 'SELECT m FROM t ORDER BY ' + ', '.join(k)
    if kind == 'Values':
        c, d = a[0].value, a[1].value
        return f'SELECT {COLS[c]} FROM t GROUP BY {COLS[c]} ORDER BY {key(c, d)}'
    cols = 'x' if dims == 1 else 'x, y, m'
    some = a[0]
    cond = f' WHERE x = {some.args[0].value}' if some.kind == 'call' else ''
    return f'SELECT {cols} FROM t{cond}'

EXPLAINED = ' | cover exact | filter no | box x 0..4294967295, y 0..4294967295 | points 18446744073709551616 | regions 3 of 3'

def step_want(step, answer, consts, dims, page_rows):
    "What a step and its answer are in the text."
    step = deref(step, consts)
    kind = step.name.split('::')[-1]
    args = [deref(a, consts) for a in step.args]
    n = [a.value for a in args]
    ok, err = numbers(answer, consts)
    def words(good):
        if err: return err
        if ok == NOTHING: return 'none'
        return good(ok) if callable(good) else good
    def line(command, good): return ('line', f'{command} -> {words(good)}')
    plain = {'Open': 'open', 'Close': 'close', 'Check': 'check', 'Begin': 'begin'}
    if kind in plain: return line(plain[kind], 'ok')
    if kind == 'Stored': return ('open', [old_sheet(s, page_rows, consts) for s in deref(args[1], consts).args], n[0], words('ok'))
    if kind == 'Five': return ('open', [old_sheet(s, page_rows, consts) for s in consts['FIVE_ROWS'].args], n[0], words('ok'))
    if kind == 'Again': return line(f'again fail {n[0]}', 'ok')
    if kind == 'Create': return line(f"create {'plane' if dims == 2 else 'line'}" + (f' fail {n[0]}' if n[0] else ''), 'ok')
    if kind == 'Put': return line(f'insert {n[0]}' + (f' {n[1]} {n[2]}' if dims == 2 else ''), lambda v: str(v[0]))
    if kind == 'Fill':
        assert err or ok == [n[0], 0, 0, 0]; return line(f'fill {n[0]}', 'ok')
    if kind == 'Empty':
        assert err or ok == [n[0], 0, 0, 0]; return line(f'empty {n[0]}', 'ok')
    if kind == 'Remove': return line(f'remove {n[0]} {n[1]}', lambda v: 'yes' if v[0] else 'no')
    if kind == 'Delete':
        cond = f' WHERE x = {args[0].args[0].value}' if args[0].kind == 'call' else ''
        return line(f'DELETE FROM t{cond}', lambda v: str(v[0]))
    if kind == 'Count': return line('count', lambda v: f'rows {v[0]} regions {v[1]}' + (' failed' if v[2] else ''))
    if kind == 'Shape': return line('shape', lambda v: f'dims {v[0]} measures {v[1]} columns {v[2]} page-rows {v[3]}')
    if kind == 'Seek': return line(f'seek {n[0]}', 'ok')
    if kind in ('Span', 'Elsewhere'):
        on = f' on {n[1]}' if kind == 'Elsewhere' else ''
        def span(v):
            rows = f'rows {v[2]}..{v[3]}' if v[2] else 'no row'
            return f'{v[0]}..{where(v[1], dims)} {rows}'
        return line(f'span {where(n[0], dims)}{on}', span)
    if kind == 'Walk': return line('walk', lambda v: f'{v[0]} of {v[3]} from {v[1]} to {v[2]}')
    if kind == 'Meet': return line(f'meet {n[0]}', lambda v: f'{v[0]} of {v[3]} from {v[1]} to {v[2]}')
    if kind == 'Trace': return ('trace', ok[0], ok[1])
    if kind == 'Pages': return ('size', ok[0])
    if kind == 'Holds':
        pages = [old_sheet(s, page_rows, consts) for s in deref(args[0], consts).args]
        assert ok == [len(pages), 0, 0, 0]
        return ('holds', pages)
    if kind == 'Bytes':
        b = args[2]
        assert ok == [1, 0, 0, 0]
        return ('bytes', n[0], n[1], bytes(x.value for x in deref(b, consts).args))
    assert kind == 'Plan', kind
    if args[0].kind == 'path': return ('scan',)
    q = query(args[0], dims)
    work = args[1]
    wk = work.name.split('::')[-1]
    if wk == 'Explain': return line('EXPLAIN ' + q, work.args[0].value.replace('\\n', '') + EXPLAINED)
    if wk == 'Execute':
        rows = [a.value for a in deref(work.args[0], consts).args]
        return ('select', q, ok, err, rows)
    f = deref(work.args[0], consts).fields
    def given(g):
        k = g.name.split('::')[-1]
        if k == 'Row': return str(g.args[0].value)
        if k == 'Rows': return '+'.join(str(x.value) for x in deref(g.args[0], consts).args)
        return {'Nothing': 'none'}.get(k, k)
    g = [given(x) for x in f['given'].args]
    assert ok[0] == len(g)
    return ('sweep', q, g, [x.value for x in f['fetched'].args], [x.value for x in f['held'].args], ok[1])

def dims_of(table):
    return 1 if table == 'Table::Line' else 2

def rows_of(table):
    return 2 if table == 'Table::Line' else int(table.split('(')[1].rstrip(')'))

def old_of(node, consts):
    "The pages of an Old, and its patches."
    f = node.fields
    patches = [patch(p, consts) for p in deref(f['patches'], consts).args]
    last = patch(f['last'], consts)
    return f['pages'], patches + ([last] if last[2] else [])

def tuples(node, consts): return deref(node, consts).args

def wants_of(consts, tests):
    "All cases of a file, in order: each with its comments, its want, and where it comes from."
    for test, calls in tests:
        for kind, args in calls:
            if kind == 'goes':
                table, run = args[0], consts[args[1].lstrip('&')]
                dims, rows = dims_of(table), rows_of(table)
                yield ('section', run.fields['shown'].value, [])
                for part in ('first', 'then'):
                    node = run.fields[part]
                    d = deref(node, consts)
                    if getattr(d, 'head', None): yield ('note', d.head)
                    for t in d.args:
                        if t.notes: yield ('note', t.notes)
                        yield step_want(t.args[0], t.args[1], consts, dims, rows)
                cases = deref(run.fields['cases'], consts)
                for case in cases.args:
                    f = case.fields
                    sheets = f['sheets']
                    name = sheets.name.split('::')[-1]
                    const = {'FiveRegions': 'FIVE_REGIONS', 'TwoLevels': 'TWO_LEVELS', 'FiveRows': 'FIVE_ROWS'}.get(name)
                    nodes = consts[const].args if const else sheets.args[0].args
                    pages = [old_sheet(s, rows, consts) for s in nodes]
                    steps = []
                    for made in f['steps'].args:
                        w = step_want(made.args[0], made.args[1], consts, dims, rows)
                        steps.append((made.notes, w, [x.value for x in made.args[2].args]))
                    if case.notes: yield ('note', case.notes)
                    yield ('calls', name, pages, steps)
                continue
            shown, run = args[0].strip('"'), consts[args[1]]
            yield ('section', shown, getattr(run, 'head', []))
            for t in run.args:
                if t.notes: yield ('note', t.notes)
                k = t.name.split('::')[-1]
                if k in ('Makes', 'Calls', 'Ends'):
                    pages, patches = old_of(t.args[0], consts)
                    kind_name = pages
                    all_pages = patched(old_pages(pages, consts), patches)
                    dims = {'Line': 1, 'Wide': 4}.get(pages.name.split('::')[-1], 2)
                if k == 'Makes':
                    yield ('upgrade', pages, patches, all_pages)
                    for s in t.args[1].args:
                        if s.notes: yield ('note', s.notes)
                        yield step_want(s.args[0], s.args[1], consts, dims, 2)
                elif k == 'Calls': yield ('stops', pages, all_pages, t.args[1].value)
                elif k == 'Ends':
                    for e in t.args[1].args:
                        ok, err = numbers(e.args[2], consts)
                        yield ('ends', pages, all_pages, e.args[0].value, e.args[1].value, err or 'ok')
                elif k in ('Refuses', 'Each'):
                    pages = t.args[0]
                    left = None
                    if k == 'Refuses':
                        left = numbers(t.args[1], consts)[1]
                    hurts = deref(t.args[2 if k == 'Refuses' else 1], consts)
                    if getattr(hurts, 'head', None) and hurts is not t.args[-1]: pass
                    for h in hurts.args:
                        if h.notes: yield ('note', h.notes)
                        yield ('hurt', pages, left, [patch(h.args[0], consts)], told(h.args[1]))
                else:
                    left = 'Unclean page 0' if k == 'Refuse' else None
                    yield ('hurt', t.args[0], left, [patch(p, consts) for p in t.args[1].args], told(t.args[2]))

FILES = 'changes openings by_hand deletions levels queries sweep values checks calls upgrades'.split()

def load_all(folder):
    base = load(folder + '/samples.rt')[0]
    old = load(folder + '/old_tables.rt', base)[0]
    OLD.update(old)
    plain = dict(base, NO_PATCH=old['NO_PATCH'])
    out = {}
    calls = load(folder + '/calls.rt', plain)[1]
    plain.update({name: calls[name] for name in ('FIVE_REGIONS', 'TWO_LEVELS')})
    for f in FILES:
        outer = old if f == 'upgrades' else plain
        outer = load(folder + '/trial.rt', outer)[0]
        consts, own, tests, head = load(folder + f'/{f}.rt', outer)
        out[f] = (consts, tests, head)
    return out

# ---- The text

def play(text):
    "The events of a text, and what it tells of hurt tables."
    tables, name, events, hurts, mode, block = {}, None, [], {}, None, None
    def by_words(words):
        front, _, patches = words.partition(' with ')
        return patched(tables[front], patches_of(patches))
    for number, line in enumerate(text.splitlines(), 1):
        if not line or line.startswith('#'): continue
        head, _, rest = line.partition(' ')
        if head == 'end':
            events.append((number, ('calls', block[0], block[1]))); block = None
        elif block: block[1].append(line)
        elif head == 'table':
            name, _, other = rest.partition(' = ')
            tables[name] = by_words(other) if other else []
        elif head in ('page', 'pages'):
            count, items = (1, rest) if head == 'page' else (int(rest.split()[0]), rest.partition(' ')[2])
            tables[name] += [spell(items, turn).ljust(4096, b'\0') for turn in range(count)]
        elif head == 'calls': block = (tables[rest], [])
        elif head == 'checks': mode = (rest.split(), None)
        elif head == 'upgrades':
            names, _, left = rest.partition(' left ')
            mode = (names.split(), left)
        else:
            asked, _, told = line.partition(' -> ')
            words = asked.partition(' ')[2]
            if head == 'hurt':
                for hurt in words.split(';'):
                    for n in mode[0]:
                        key = (tuple(patched(tables[n], patches_of(hurt))), mode[1], told)
                        hurts[key] = hurts.get(key, 0) + 1
            elif head == 'open' and words:
                front, _, patches = words.partition(' with ')
                n, _, k = front.partition(' fail ')
                events.append((number, ('open', patched(tables[n], patches_of(patches)), int(k or 0), told)))
            elif head == 'same': events.append((number, ('same', by_words(words), told)))
            elif head == 'bytes':
                place, _, items = words.partition(' ')
                page, at = place.split('@')
                events.append((number, ('bytes', int(page), int(at), spell(items), told)))
            elif head == 'size': events.append((number, ('size', int(told))))
            elif head == 'upgrade': events.append((number, ('upgrade', by_words(words), told)))
            elif head == 'stops':
                n, _, calls = words.partition(' ')
                events.append((number, ('stops', tables[n], calls, told)))
            elif head == 'ends':
                n, _, ends = words.partition(' ')
                for calls in ends.split(';'):
                    k, m = calls.split()
                    events.append((number, ('ends', tables[n], int(k), int(m), told)))
            else: events.append((number, ('line', line)))
    return events, hurts

TURN = re.compile(r'(\S+) \((\d+) (\d+)\)')

def is_met(want, event):
    "Whether an event is what is wanted."
    kind = want[0]
    if kind in ('line', 'open', 'size'): return event == want
    if kind == 'holds': return event[0] == 'same' and event[1] == want[1] and event[2] == 'yes'
    if kind == 'bytes':
        _, page, at, wanted = want
        if event[0] == 'same':
            return event[2] == 'yes' and page < len(event[1]) and event[1][page][at:at + len(wanted)] == wanted
        return event[0] == 'bytes' and event[1] == page and event[4] == 'yes' and event[2] <= at \
            and event[3][at - event[2]:at - event[2] + len(wanted)] == wanted
    if kind == 'upgrade': return event == ('upgrade', want[3], 'ok')
    if kind == 'stops': return event == ('stops', want[2], want[3], 'ok')
    if kind == 'ends': return event == ('ends',) + want[2:]
    if kind == 'calls':
        return event[0] == 'calls' and event[1] == want[2] and len(event[2]) == len(want[3]) \
            and all(is_call(s, line) for s, line in zip(want[3], event[2]))
    if event[0] != 'line': return False
    asked, _, told = event[1].partition(' -> ')
    if kind == 'trace':
        pages = [] if told == 'none' else told.split()
        return asked == 'trace' and len(pages) == want[1] and (not pages or int(pages[-1]) == want[2])
    if kind == 'select':
        _, query, ok, err, rows = want
        if err: return (asked, told) == (query, err)
        front = f'pages {ok[0]} rows {ok[1]}'
        assert len(rows) == ok[2]
        if rows: return (asked, told) == (query, front + ': ' + ' '.join(map(str, rows)))
        return asked == query and (told == front or told.startswith(front + ': '))
    if kind == 'sweep':
        _, query, given, fetched, held, last = want
        turns = TURN.findall(told)
        return asked == f'sweep {len(given)} {query}' and [t[0] for t in turns] == given and int(turns[-1][1]) == last \
            and [int(t[1]) for t in turns[:len(fetched)]] == fetched and [int(t[2]) for t in turns[:len(held)]] == held
    raise ValueError(want)

def is_call(step, line):
    _, want, numbers = step
    text, _, counts = line.partition(' | ')
    return is_met(want, ('line', text)) and counts.split() == [str(n) for n in numbers]

def tick(folder, text):
    "How many old cases there are, and which of them the text lacks."
    data = load_all(folder)
    events, hurts = play(text)
    at, count, missing = 0, 0, []
    gone = dict(hurts)
    for file in FILES:
        if file not in data: continue
        consts, tests, _ = data[file]
        shown = ''
        run = []
        def find(want, start):
            for i in range(start, len(events)):
                if is_met(want, events[i][1]): return i
            return None
        for want in wants_of(consts, tests):
            if want[0] == 'section': shown = want[1]; continue
            if want[0] == 'note': continue
            count += 1
            if want[0] == 'hurt':
                _, node, left, patches, told = want
                pages = old_pages(node, None)
                if left is None: pages = patched(pages, [(0, 4, b'\3')])
                key = (tuple(patched(pages, patches)), left, told)
                if not gone.get(key): missing.append((file, shown, want))
                else: gone[key] -= 1
                continue
            if want[0] == 'scan':
                missing.append((file, shown, want)); continue
            kept = want[0] in ('bytes', 'holds', 'size')
            found = find(want, at) if not kept else find_kept(want, events, at)
            if found is None: missing.append((file, shown, want)); continue
            if not kept: at = found + 1
    return count, missing

def find_kept(want, events, at):
    "The first event that tells so, of those that only look at the store."
    for i in range(at, len(events)):
        if events[i][1][0] not in ('same', 'bytes', 'size'): return None
        if is_met(want, events[i][1]): return i
        if want[0] == 'size' and events[i][1][0] == 'same' and len(events[i][1][1]) == want[1]: return i
    return None

def main():
    folder = sys.argv[1]
    text = pathlib.Path(sys.argv[2]) if len(sys.argv) > 2 else TOP / "crates/tree_transcripts/stdin"
    count, missing = tick(folder, text.read_text())
    for file, shown, want in missing:
        print(f"{file}: {shown}: {str(want)[:200]}")
    print(f"{count} cases, {len(missing)} missing")
    return 1 if missing else 0


if __name__ == "__main__":
    sys.exit(main())
