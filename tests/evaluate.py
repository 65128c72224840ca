#!/usr/bin/env python3
"""The definitions of crates/spec/specs as Python functions, made from their text: for `plant --quick`.

It knows as much of antt as the definitions are written with, no types, and evaluates arguments at once. It proves nothing: what it
answers is worth as much as its agreement with the prover, which `plant` without `--quick` asks.
"""
import re
import sys
from functools import partial  # noqa: F401 (the functions made use it)
from itertools import pairwise, product

sys.setrecursionlimit(100000)
TOK = re.compile('\\s+|(?P<str>"(?:[^"\\\\]|\\\\.)*")|(?P<num>0x[0-9a-f_]+|\\d+)(?![\\w·])|(?P<proj>\\.\\w+)|(?P<op>[(){};,.])|(?P<name>(?:Ordering|String)\\.[^\\s(){};,"]+|[^\\s(){};,."]+)')
FILES = ['Limits', 'Basics', 'Octets', 'Book', 'Edges', 'Chains', 'Order', 'Digests', 'Assembly', 'Records', 'ByRecord', 'Router', 'Answers', 'Printed', 'Routes',
         'Wire']


def toks(t):
    """The words of a text: strings, numbers, projections, brackets and names."""
    out = []
    i = 0
    while i < len(t):
        m = TOK.match(t, i)
        if m.lastgroup:
            out.append((m.lastgroup, m.group(m.lastgroup)))
        i = m.end()
    return out
PREC = {'||': 1, '&&': 2, 'then_by': 3, 'and_then': 3, '++': 4, '∷': 5, '+': 6, '-': 6, '*': 7, '/': 7, '%': 7, '^': 8}
RIGHT = {'||', '&&', 'then_by', 'and_then', '++', '∷', '^'}
KW = {'then', 'else', 'in', 'if', 'let', '=', ':'}
NATIVE = {'get_or': ('N_get_or', 3), 'take': ('N_take', 2), 'drop': ('N_drop', 2), 'length': ('len', 1), 'replicate': ('N_rep', 2), 'map': ('N_map', 2), 'flat_map': ('N_flat', 2), 'reverse': ('N_rev', 1), 'ltb': ('N_ltb', 2), 'eqb': ('N_eqb', 2), 'not': ('N_not', 1), 'min': ('min', 2), 'compare': ('N_cmp', 2), 'bit_xor': ('N_xor', 2), 'code': ('N_code', 1), 'suc': ('N_suc', 1), 'compare_is_eq': ('N_is_eq', 1)}
CONST = {'true': 'True', 'false': 'False', '[]': '()', 'zero': '0', 'Ordering.lt': '-1', 'Ordering.eq': '0', 'Ordering.gt': '1', 'tt': 'None'}
CONS = {'AS': 1, 'Peering': 4, 'Ok': 1, 'Err': 1, 'Path': 0, 'Loop': 0, 'Bare': 0, **{r: 0 for r in 'Cut Surplus Oversize Crowded Long Peers Misfit Full Small Stranger Twice Wire'.split()}}


def N_get_or(l, i, d):
    return l[i] if i < len(l) else d


def N_take(n, l):
    return l[:n]


def N_drop(n, l):
    return l[n:]


def N_rep(n, x):
    return (x,) * n


def N_map(f, l):
    return tuple((f(x) for x in l))


def N_flat(f, l):
    return tuple((y for x in l for y in f(x)))


def N_rev(l):
    return l[::-1]


def N_ltb(a, b):
    return a < b


def N_eqb(a, b):
    return a == b


def N_not(a):
    return not a


def N_cmp(a, b):
    return (a > b) - (a < b)


def N_xor(a, b):
    return a ^ b


def N_code(c):
    return ord(c)


def N_suc(n):
    return n + 1


def N_is_eq(o):
    return o == 0


def py(name):
    """The Python name of an antt name."""
    return 'f_' + re.sub('\\W', lambda m: '_%x_' % ord(m.group()), name)


class P:
    """A parser of expressions that writes Python: operators by precedence, application, projections, let, if, λ and records."""

    def __init__(s, text, fns, local, mod):
        s.t = toks(text)[::-1]
        s.fns = fns
        s.local = local
        s.mod = mod

    def peek(s):
        return s.t[-1] if s.t else ('end', '')

    def pop(s):
        return s.t.pop()

    def expr(s, p=0):
        l = s.unary()
        while True:
            k, v = s.peek()
            if v in PREC and PREC[v] >= p and (k == 'name'):
                s.pop()
                r = s.expr(PREC[v] if v in RIGHT else PREC[v] + 1)
                l = {'||': f'({l} or {r})', '&&': f'({l} and {r})', 'then_by': f'({l} or {r})', 'and_then': f'N_and({l},{r})', '++': f'({l}+{r})', '∷': f'(({l},)+{r})', '+': f'({l}+{r})', '-': f'max(0,{l}-{r})', '*': f'({l}*{r})', '/': f'({l}//{r})', '%': f'({l}%{r})', '^': f'({l}**{r})'}[v]
            else:
                return l

    def unary(s):
        k, v = s.peek()
        if v == 'if':
            s.pop()
            a = s.expr()
            assert s.pop()[1] == 'then'
            b = s.expr()
            assert s.pop()[1] == 'else', s.t[-5:]
            c = s.expr()
            return f'({b} if {a} else {c})'
        if v == 'let':
            s.pop()
            n = s.pop()[1]
            if s.peek()[1] == ':':
                while s.peek()[1] != '=':
                    s.pop()
            assert s.pop()[1] == '='
            e = s.expr()
            assert s.pop()[1] == 'in'
            loc = s.local
            s.local = loc | {n}
            b = s.expr()
            s.local = loc
            return f'(lambda {py(n)}: {b})({e})'
        if v == 'λ':
            s.pop()
            ns = []
            while s.peek()[1] != '.':
                ns.append(s.pop()[1])
            s.pop()
            loc = s.local
            s.local = loc | set(ns)
            b = s.expr()
            s.local = loc
            return f"(lambda {','.join((py(n) for n in ns))}: {b})"
        return s.app()

    def app(s):
        head = None
        args = []
        k, v = s.peek()
        h = s.pop_head()
        while True:
            k, v = s.peek()
            if k in ('num', 'str') or (k == 'name' and v not in PREC and (v not in KW) and (v != '→')) or v == '(':
                h[2].append(s.atom())
            elif v == 'record':
                h[2].append(s.atom())
            else:
                return s.close(h)

    def pop_head(s):
        k, v = s.peek()
        if k == 'name' and v != 'record' and (v not in s.local) and (v not in CONST):
            if v in s.fns or v in NATIVE or v in CONS:
                s.pop()
                h = ('fn', v, [])
                return ('val', s.fields(s.close(h)), []) if s.peek()[0] == 'proj' else h
            short = v.split('.')[-1]
            raise Exception('unknown ' + v)
        return ('val', s.atom(), [])

    def close(s, h):
        kind, v, args = h
        if kind == 'val':
            return f"{v}({','.join(args)})" if args else v
        if v in CONS:
            assert len(args) == CONS[v], (v, args)
            return f"({v!r},{''.join((a + ',' for a in args))})"
        if v in NATIVE:
            n, ar = NATIVE[v]
            pre = []
        else:
            ar, mod, params = s.fns[v]
            n = py(v)
            pre = [py(p) for p in params] if mod == s.mod else []
            ar = ar + len(params)
        args = pre + args
        if len(args) == ar:
            return f"{n}({','.join(args)})"
        if len(args) < ar:
            return f"partial({','.join([n] + args)})" if args else n
        return f"{n}({','.join(args[:ar])})({','.join(args[ar:])})"

    def fields(s, e):
        """What stands tight behind an atom."""
        while s.peek()[0] == 'proj':
            e = f'{e}[{s.pop()[1][1:]!r}]'
        return e

    def atom(s):
        return s.fields(s.whole())

    def whole(s):
        k, v = s.pop()
        if k == 'num':
            return str(int(v.replace('_', ''), 0))
        if k == 'str':
            return v
        if v == '(':
            e = s.expr()
            if s.peek()[1] == ',':
                s.pop()
                f = s.expr()
                assert s.pop()[1] == ')'
                return '{"0":%s,"1":%s}' % (e, f)
            assert s.pop()[1] == ')', (e, s.t[-6:][::-1])
            return f'({e})'
        if v == 'record':
            assert s.pop()[1] == '{'
            fs = []
            while s.peek()[1] != '}':
                n = s.pop()[1]
                assert s.pop()[1] == '='
                fs.append(f'{n!r}:{s.expr()}')
                if s.peek()[1] == ';':
                    s.pop()
            s.pop()
            return '{' + ','.join(fs) + '}'
        if v in s.local:
            return py(v)
        if v in CONST:
            return CONST[v]
        return s.close(('fn', v, []))


def N_and(a, b):
    return b if a[0] == 'Ok' else a


def strip(text):
    """Without comments."""
    return re.sub('(^|\\s)--[^\\n]*', '\\1', text)


def items(text):
    """The declarations of a file, each with the module and the parameters that it stands under."""
    out = []
    params = []
    mod = None
    cnt = 0
    cur = None
    for line in text.split('\n'):
        if not line.strip():
            continue
        ind = len(line) - len(line.lstrip())
        if ind == 0:
            m = re.match('module _ (.*) where', line)
            if m:
                cnt += 1
                mod = cnt
                params = re.findall('\\((\\w[^:]*) :', m[1])
                params = [x for p in params for x in p.split()]
                cur = None
                continue
            if line.startswith('pub record') or line.startswith('pub data'):
                mod = 'skip'
                cur = None
                continue
            mod = None
            params = []
            base = 0
            cur = [mod, params, line]
            out.append(cur)
        elif mod == 'skip':
            continue
        elif mod is not None and ind == 2:
            if line.strip().startswith('pub record'):
                cur = ['skip', [], '']
                continue
            cur = [mod, params, line.strip()]
            out.append(cur)
        elif cur is not None:
            cur[2] += '\n' + line.strip()
    return out


def pattern(ts, local, tests, binds, var):
    """Takes one pattern off the words: the tests that it makes and the names that it binds."""
    k, v = ts.pop()
    if v == '(':
        inner = []
        d = 1
        while True:
            x = ts.pop()
            if x[1] == '(':
                d += 1
            if x[1] == ')':
                d -= 1
                if d == 0:
                    break
            inner.append(x)
        depth = 0
        pos = None
        for i, x in enumerate(inner):
            if x[1] == '(':
                depth += 1
            elif x[1] == ')':
                depth -= 1
            elif x[1] == '∷' and depth == 0:
                pos = i
                break
        if pos is not None:
            tests.append(f'{var}')
            a = inner[:pos][::-1]
            b = inner[pos + 1:]
            pattern(a, local, tests, binds, f'{var}[0]')
            if len(b) > 1:
                b = [('op', '(')] + b + [('op', ')')]
            pattern(b[::-1], local, tests, binds, f'{var}[1:]')
            return
        h = inner[0][1]
        if h == 'suc':
            tests.append(f'{var}>0')
            binds.append((inner[1][1], f'{var}-1'))
            local.add(inner[1][1])
            return
        if h in CONS:
            tests.append(f'{var}[0]=={h!r}')
            rest = inner[1:][::-1]
            i = 1
            while rest:
                pattern(rest, local, tests, binds, f'{var}[{i}]')
                i += 1
            return
        if h == 'String.◌∷◌':
            tests.append(var)
            binds.append((inner[1][1], f'{var}[0]'))
            binds.append((inner[2][1], f'{var}[1:]'))
            local |= {inner[1][1], inner[2][1]}
            return
        raise Exception(inner)
    if v == '[]':
        tests.append(f'not {var}')
        return
    if v == 'String.[]':
        tests.append(f'not {var}')
        return
    if v == 'zero':
        tests.append(f'{var}==0')
        return
    if v in CONST:
        tests.append(f'{var}=={CONST[v]}')
        return
    if v in CONS:
        tests.append(f'{var}[0]=={v!r}')
        return
    binds.append((v, var))
    local.add(v)


def transpile(texts):
    """The definitions of all files as a namespace of Python functions."""
    fns = {}
    clauses = {}
    order = []
    its = []
    for f in FILES:
        for mod, params, t in items(strip(texts[f])):
            its.append((None if mod is None else (f, mod), params, t))
    skip = {'◌and_then◌', '◌then_by◌'}
    parsed = []
    for mod, params, t in its:
        t1 = t.strip()
        m = re.match('(?:unfoldable |abbrev )(?:pub )?(\\S+) :(.*)', t1, re.S)
        if m:
            if 'Type' in m[2]:
                skip.add(m[1])
            continue
        if re.match('(use|infixr|infixl|infix|pub mod|mod) ', t1):
            continue
        name = t1.split()[0]
        i = t1.index(' =')
        lhs, rhs = (t1[:i], t1[i + 2:])
        if name in skip or ' and_then ' in lhs or ' then_by ' in lhs:
            continue
        ts = toks(lhs)[::-1]
        ts.pop()
        local = set()
        tests = []
        binds = []
        n = 0
        tt = list(ts)
        pats = []
        k = 0
        while tt:
            pattern(tt, local, tests, binds, f'a{k}')
            k += 1
        fns[name] = (k, mod, params)
        parsed.append((name, mod, params, k, local, tests, binds, rhs))
    src = []
    bodies = {}
    for name, mod, params, k, local, tests, binds, rhs in parsed:
        p = P(rhs, fns, local | set(params), mod)
        e = p.expr()
        assert not p.t, (name, p.t[::-1][:8])
        if binds:
            e = f"(lambda {','.join((py(n) for n, _ in binds))}: {e})({','.join((v for _, v in binds))})"
        bodies.setdefault(name, (params, k, []))[2].append((tests, e))
    for name, (params, k, cs) in bodies.items():
        a = [py(p) for p in params] + [f'a{i}' for i in range(k)]
        src.append(f"def {py(name)}({','.join(a)}):")
        for tests, e in cs:
            src.append(f"  if {' and '.join(tests) or 'True'}: return {e}")
        src.append(f'  raise Exception({name!r})')
    g = dict(globals())
    consts = [n for n, (pa, k, _) in bodies.items() if k == 0 and (not pa)]
    code = '\n'.join(src)
    exec(compile(code, 'spec', 'exec'), g)
    for n in consts:
        g['_c_' + py(n)] = g[py(n)]
    return g


def load(specs):
    """The text of each file."""
    return {f: open(f'{specs}/{f}.antt').read() for f in FILES}


def answer(g, digest, w):
    """A question of the tables, by the definitions in g: see CasesForm's `answer`."""
    k = w[0]
    t = lambda x: tuple(x)
    asn = lambda n: {'0': n}
    if k == 'accept':
        return [g['f_verdict_number'](g['f_verdict'](t(w[1])))]
    if k in ('list', 'route'):
        l = g['f_listing' if k == 'list' else 'f_routing'](digest, t(w[1]), asn(w[2]), asn(w[3]), w[4])
        return [g['f_list_number'](l['0']), *l['1']]
    if k == 'print':
        return list(g['f_printed'](digest, t(w[1])))
    if k == 'assemble':
        l = g['f_assembly'](t(w[1]), asn(w[2]), asn(w[3]), t(w[4]), w[5])
        return [g['f_path_number'](l['0']), *l['1']]
    if k == 'least':
        return [x for b in w[1] for c in g['f_solutions'](digest, t(b), asn(w[2]), asn(w[3])) for p in [g['f_combined_path'](t(b), c)] for x in (p['mtu'], p['expiry'])]
    if k == 'sketch':
        return [x for b in w[1] for c in g['f_solutions'](digest, t(b), asn(w[2]), asn(w[3])) for p in [g['f_combined_path'](t(b), c)] for x in [y for i in p['infos'] for y in (i['construction'] + 2 * i['peering'], i['hops'], i['id'])] + [y for h in p['hops'] for y in (h['ingress'], h['egress'])] + [i['id'] for i in p['interfaces']]]
    path = lambda: g['f_assembly'](t(w[1]), asn(w[2]), asn(w[3]), t(w[4]), g['f_path_size']())['1']
    number = lambda l: g['f_wire_number'](l['0'])
    if k == 'hold':
        return list(g['f_router_ids'](path()))
    if k in ('write', 'read', 'send'):
        l = g['f_writing'](path(), g['f_wire_size']()) if k == 'send' else g['f_writing' if k == 'write' else 'f_reading'](t(w[1]), w[2])
        return [number(l), *l['1']]
    if k == 'writes':
        return [number(g['f_writing'](t(x), g['f_wire_size']())) for x in w[1]]
    if k == 'reads':
        return [number(g['f_reading'](t(x), g['f_path_size']())) for x in w[1]]
    if k == 'carry':
        return list(g['f_wire_router_ids'](t(w[1])))
    compared = lambda order, digests, pairs: [x for c, d in pairs for x in (g[order](digest, t(w[1]), c, d) + 1, g[digests](digest, t(w[1]), c, d))]
    if k == 'compared':
        return compared('f_compare_records', 'f_record_digests', pairwise(map(t, w[2])))
    if k == 'compared_all':
        return compared('f_compare_chains', 'f_chain_digests', product(g['f_solutions'](digest, t(w[1]), asn(w[2]), asn(w[3])), repeat=2))
    if k == 'room':
        return [g['f_slots'](w[1])]
    if k == 'live':
        return [g['f_life'](w[1])]
