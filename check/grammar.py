"""The grammar of types, patterns, expressions and declarations (Haskell 2010 Report, chapters 3 and 4), as a reader that
tries every alternative: all trees of a list of tokens, in the order of the alternatives. Written from the rules and apart
from the proved definitions; slow, and for short texts alone. Tokens are their texts, with written braces."""

import re
from functools import lru_cache

WORDS = set('case class data default deriving do else foreign if import in infix infixl infixr instance let module newtype '
            'of then type where _'.split())
OPERATORS = {'..', ':', '::', '=', '\\', '|', '<-', '->', '@', '~', '=>'}
SYMBOLS = set('!#$%&*+./<=>?@\\^|-~:')


def sort_of(text):
    """What a token is: a sort of name or literal, or its own text."""
    if text in WORDS or text in OPERATORS or text in '()[],;`{}':
        return text
    if text[0] in '\'"':
        return 'quoted'
    if text[0].isdigit():
        return 'number'
    parts = re.match(r"((?:[A-Z][\w']*\.)*)(.+)$", text)
    q = 'q' if parts.group(1) else ''
    last = parts.group(2)
    if last[0] in SYMBOLS:
        return q + ('consym' if last[0] == ':' else 'varsym')
    return q + ('conid' if last[0].isupper() else 'varid')


class Reader:
    def __init__(self, tokens):
        self.ts = tokens
        self.sorts = [sort_of(t) for t in tokens] + ['end']
        self.memo = {}

    def at(self, i):
        return self.sorts[i] if i < len(self.ts) else 'end'

    # Each of these gives the trees that begin at a place with the places behind them, in the order of the alternatives.

    def all(self, name, i):
        key = (name, i)
        if key not in self.memo:
            self.memo[key] = []
            found = []
            for tree in getattr(self, name)(i):
                if tree not in found:
                    found.append(tree)
            self.memo[key] = found
        return self.memo[key]

    def sign(self, text, i):
        return [i + 1] if self.at(i) == text else []

    def in_parens(self, sorts, i):
        if self.at(i) == '(' and self.at(i + 1) in sorts and self.at(i + 2) == ')':
            return [(self.ts[i + 1], i + 3)]
        return []

    def named(self, sorts, symbols, i):
        found = [(self.ts[i], i + 1)] if self.at(i) in sorts else []
        return found + self.in_parens(symbols, i)

    def var(self, i):
        return self.named({'varid'}, {'varsym'}, i)

    def qvar(self, i):
        return self.named({'varid', 'qvarid'}, {'varsym', 'qvarsym'}, i)

    def qcon(self, i):
        return self.named({'conid', 'qconid'}, {'consym', 'qconsym', ':'}, i)

    def quoted_op(self, sorts, i):
        if self.at(i) == '`' and self.at(i + 1) in sorts and self.at(i + 2) == '`':
            return [(self.ts[i + 1], i + 3)]
        return []

    def op_of(self, symbols, names, i):
        found = [(self.ts[i], i + 1)] if self.at(i) in symbols else []
        return found + self.quoted_op(names, i)

    def qop(self, i):
        return self.op_of({'varsym', 'qvarsym', 'consym', 'qconsym', ':'}, {'varid', 'qvarid', 'conid', 'qconid'}, i)

    def qconop(self, i):
        return self.op_of({'consym', 'qconsym', ':'}, {'conid', 'qconid'}, i)

    def varop(self, i):
        return self.op_of({'varsym'}, {'varid'}, i)

    def op(self, i):
        return self.op_of({'varsym', 'consym'}, {'varid', 'conid'}, i)

    def commas(self, i):
        n = 0
        found = []
        while self.at(i + n) == ',':
            n += 1
            found.append((n, i + n))
        return found

    def gcon(self, i):
        for name, j in self.all('qcon', i):
            yield ('Con', name), j
        if self.at(i) == '(' and self.at(i + 1) == ')':
            yield ('Unit',), i + 2
        if self.at(i) == '[' and self.at(i + 1) == ']':
            yield ('Nil',), i + 2
        if self.at(i) == '(':
            for n, j in self.commas(i + 1):
                for k in self.sign(')', j):
                    yield ('Commas', n), k

    def many(self, name, i):
        """As many as there are of each number, the trees of each list."""
        yield (), i
        for first, j in self.all(name, i):
            if j > i:
                for rest, k in self.many(name, j):
                    yield (first,) + rest, k

    def listed(self, name, i, sign=','):
        for first, j in self.all(name, i):
            yield (first,), j
            for m in self.sign(sign, j):
                for rest, k in self.listed(name, m, sign):
                    yield (first,) + rest, k

    def between(self, left, name, right, i):
        for j in self.sign(left, i):
            for parts, k in self.listed(name, j):
                for m in self.sign(right, k):
                    yield parts, m

    # types

    def type(self, i):
        for left, j in self.all('btype', i):
            yield ('Type', left, None), j
            for k in self.sign('->', j):
                for right, m in self.all('type', k):
                    yield ('Type', left, right), m

    def btype(self, i):
        for head, j in self.all('atype', i):
            for args, k in self.many('atype', j):
                yield ('Btype', head, args), k

    def atype(self, i):
        if self.at(i) in ('conid', 'qconid'):
            yield ('Con', self.ts[i]), i + 1
        if self.at(i) == '(' and self.at(i + 1) == ')':
            yield ('Unit',), i + 2
        if self.at(i) == '[' and self.at(i + 1) == ']':
            yield ('Nil',), i + 2
        if self.at(i) == '(' and self.at(i + 1) == '->' and self.at(i + 2) == ')':
            yield ('Arrow',), i + 3
        if self.at(i) == '(':
            for n, j in self.commas(i + 1):
                for k in self.sign(')', j):
                    yield ('Commas', n), k
        if self.at(i) == 'varid':
            yield ('Var', self.ts[i]), i + 1
        for parts, j in self.between('(', 'type', ')', i):
            yield ('Tuple', parts), j
        for j in self.sign('[', i):
            for part, k in self.all('type', j):
                for m in self.sign(']', k):
                    yield ('List', part), m

    def class_(self, i):
        if self.at(i) in ('conid', 'qconid'):
            if self.at(i + 1) == 'varid':
                yield ('Class', self.ts[i], self.ts[i + 1], ()), i + 2
            if self.at(i + 1) == '(' and self.at(i + 2) == 'varid':
                for args, j in self.many('atype', i + 3):
                    for k in self.sign(')', j):
                        if args:
                            yield ('Class', self.ts[i], self.ts[i + 2], args), k

    def context(self, i):
        for one, j in self.all('class_', i):
            yield ('One', one), j
        if self.at(i) == '(' and self.at(i + 1) == ')':
            yield ('Classes', ()), i + 2
        for parts, j in self.between('(', 'class_', ')', i):
            yield ('Classes', parts), j

    def qualified(self, i):
        for ty, j in self.all('type', i):
            yield ('Qualified', None, ty), j
        for context, j in self.all('context', i):
            for k in self.sign('=>', j):
                for ty, m in self.all('type', k):
                    yield ('Qualified', context, ty), m

    # patterns

    def pattern(self, i):
        for first, j in self.all('operand', i):
            yield ('Pattern', (), first), j
            for op, k in self.all('qconop', j):
                for rest, m in self.all('pattern', k):
                    yield ('Pattern', ((first, op),) + rest[1], rest[2]), m

    def operand(self, i):
        if self.at(i) == 'number':
            yield ('Number', False, self.ts[i]), i + 1
        if self.at(i) == 'varsym' and self.ts[i] == '-' and self.at(i + 1) == 'number':
            yield ('Number', True, self.ts[i + 1]), i + 2
        for con, j in self.all('gcon', i):
            for args, k in self.many('apat', j):
                yield ('Applied', con, args), k
        for part, j in self.all('apat', i):
            yield ('Single', part), j

    def apat(self, i):
        for name, j in self.all('var', i):
            yield ('Var', name, None), j
            for k in self.sign('@', j):
                for part, m in self.all('apat', k):
                    yield ('Var', name, part), m
        for con, j in self.all('gcon', i):
            yield ('Con', con), j
        for con, j in self.all('qcon', i):
            if self.at(j) == '{' and self.at(j + 1) == '}':
                yield ('Record', con, ()), j + 2
            for fields, k in self.between('{', 'fpat', '}', j):
                yield ('Record', con, fields), k
        if self.at(i) in ('number', 'quoted'):
            yield ('Literal', self.ts[i]), i + 1
        if self.at(i) == '_':
            yield ('Wild',), i + 1
        for parts, j in self.between('(', 'pattern', ')', i):
            yield ('Tuple', parts), j
        for parts, j in self.between('[', 'pattern', ']', i):
            yield ('List', parts), j
        for j in self.sign('~', i):
            for part, k in self.all('apat', j):
                yield ('Lazy', part), k

    def fpat(self, i):
        for name, j in self.all('qvar', i):
            for k in self.sign('=', j):
                for part, m in self.all('pattern', k):
                    yield ('Field', name, part), m

    def lhs(self, i):
        for name, j in self.all('var', i):
            for args, k in self.many('apat', j):
                yield ('Function', name, args), k
        for j in self.sign('(', i):
            for inner, k in self.all('lhs', j):
                if inner[0] != 'PatternLhs':
                    for m in self.sign(')', k):
                        for args, n in self.many('apat', m):
                            if args:
                                yield ('Applied', inner, args), n
        for left, j in self.all('pattern', i):
            for op, k in self.all('varop', j):
                for right, m in self.all('pattern', k):
                    yield ('Infix', left, op, right), m
        for part, j in self.all('pattern', i):
            yield ('PatternLhs', part), j

    # expressions

    def exp(self, i):
        for (chain, is_open), j in self.all('chain', i):
            yield ('Exp', chain, None), j
            if not is_open:
                for k in self.sign('::', j):
                    for ty, m in self.all('qualified', k):
                        yield ('Exp', chain, ty), m

    def chain(self, i):
        minus = self.at(i) == 'varsym' and self.ts[i] == '-'
        start = i + 1 if minus else i
        for part, j in self.all('closed', start):
            yield (('Chain', (), ('Closed', minus, part)), False), j
            for op, k in self.all('qop', j):
                for (rest, is_open), m in self.all('chain', k):
                    yield (('Chain', ((minus, part, op),) + rest[1], rest[2]), is_open), m
        for part, j in self.all('open', start):
            yield (('Chain', (), ('Open', minus, part)), True), j

    def plain_chain(self, i):
        for (chain, _), j in self.all('chain', i):
            yield chain, j

    def semicolon(self, i):
        return [i] + self.sign(';', i)

    def open(self, i):
        for j in self.sign('\\', i):
            for args, k in self.many('apat', j):
                for m in self.sign('->', k):
                    for body, n in self.all('exp', m):
                        if args:
                            yield ('Lambda', args, body), n
        for j in self.sign('let', i):
            for decls, k in self.all('decls', j):
                for m in self.sign('in', k):
                    for body, n in self.all('exp', m):
                        yield ('Let', decls, body), n
        for j in self.sign('if', i):
            for test, k in self.all('exp', j):
                for m in self.semicolon(k):
                    for n in self.sign('then', m):
                        for yes, p in self.all('exp', n):
                            for q in self.semicolon(p):
                                for r in self.sign('else', q):
                                    for no, s in self.all('exp', r):
                                        yield ('If', test, yes, no), s

    def closed(self, i):
        for j in self.sign('case', i):
            for e, k in self.all('exp', j):
                for m in self.sign('of', k):
                    for alts, n in self.all('alts', m):
                        yield ('Case', e, alts), n
        for j in self.sign('do', i):
            for stmts, k in self.all('stmts', j):
                if stmts and stmts[-1][0] == 'Exp':
                    yield ('Do', stmts), k
        for head, j in self.all('aexp', i):
            for args, k in self.many('aexp', j):
                yield ('Apply', head, args), k

    def aexp(self, i):
        for part, j in self.all('simple', i):
            yield part, j
            for updates, k in self.many('update', j):
                if updates:
                    yield ('Update', part, updates), k

    def update(self, i):
        return self.between('{', 'fbind', '}', i)

    def fbind(self, i):
        for name, j in self.all('qvar', i):
            for k in self.sign('=', j):
                for e, m in self.all('exp', k):
                    yield ('Field', name, e), m

    def simple(self, i):
        for name, j in self.all('qvar', i):
            yield ('Var', name), j
        for con, j in self.all('gcon', i):
            yield ('Con', con), j
        if self.at(i) in ('number', 'quoted'):
            yield ('Literal', self.ts[i]), i + 1
        for parts, j in self.between('(', 'exp', ')', i):
            yield ('Tuple', parts), j
        for parts, j in self.between('[', 'exp', ']', i):
            yield ('List', parts), j
        for j in self.sign('[', i):
            for first, k in self.all('exp', j):
                nexts = [(None, k)] + [(e, n) for m in self.sign(',', k) for e, n in self.all('exp', m)]
                for second, m in nexts:
                    for n in self.sign('..', m):
                        for last, p in [(None, n)] + list(self.all('exp', n)):
                            for q in self.sign(']', p):
                                yield ('Range', first, second, last), q
                for m in self.sign('|', k):
                    for quals, n in self.listed('qual', m):
                        for p in self.sign(']', n):
                            yield ('Comprehension', first, quals), p
        for j in self.sign('(', i):
            for chain, k in self.all('plain_chain', j):
                for op, m in self.all('qop', k):
                    for n in self.sign(')', m):
                        yield ('Left', chain, op), n
            if not (self.at(j) == 'varsym' and self.ts[j] == '-'):
                for op, k in self.all('qop', j):
                    for chain, m in self.all('plain_chain', k):
                        for n in self.sign(')', m):
                            yield ('Right', op, chain), n
        for con, j in self.all('qcon', i):
            if self.at(j) == '{' and self.at(j + 1) == '}':
                yield ('Record', con), j + 2

    def bound(self, name, part, i):
        for p, j in self.all('pattern', i):
            for k in self.sign('<-', j):
                for e, m in self.all(part, k):
                    yield ('Bind', p, e), m

    def let(self, i):
        for j in self.sign('let', i):
            for decls, k in self.all('decls', j):
                yield ('Let', decls), k

    def qual(self, i):
        yield from self.bound('qual', 'exp', i)
        yield from self.let(i)
        for e, j in self.all('exp', i):
            yield ('Test', e), j

    def guard(self, i):
        yield from self.bound('guard', 'plain_chain', i)
        yield from self.let(i)
        for e, j in self.all('plain_chain', i):
            yield ('Test', e), j

    def stmt(self, i):
        for e, j in self.all('exp', i):
            yield ('Exp', e), j
        yield from self.bound('stmt', 'exp', i)
        yield from self.let(i)

    def block(self, name, i):
        """Things with semicolons between them in braces; empty ones are allowed."""
        def items(j, behind):
            if self.at(j) == '}':
                yield (), j + 1
            if self.at(j) == ';':
                yield from items(j + 1, True)
            elif behind:
                for item, k in self.all(name, j):
                    for rest, m in items(k, False):
                        yield (item,) + rest, m
        for j in self.sign('{', i):
            yield from items(j, True)

    def decls(self, i):
        return self.block('decl', i)

    def stmts(self, i):
        return self.block('stmt', i)

    def alts(self, i):
        return self.block('alt', i)

    def where(self, i):
        yield None, i
        for j in self.sign('where', i):
            yield from self.all('decls', j)

    def arms(self, sign, i):
        for j in self.sign('|', i):
            for guards, k in self.listed('guard', j):
                for m in self.sign(sign, k):
                    for e, n in self.all('exp', m):
                        yield (('Arm', guards, e),), n
                        for rest, p in self.arms(sign, n):
                            yield (('Arm', guards, e),) + rest, p

    def sides(self, sign, i):
        for j in self.sign(sign, i):
            for e, k in self.all('exp', j):
                for w, m in self.all('where', k):
                    yield ('Plain', e, w), m
        for arms, j in self.arms(sign, i):
            for w, k in self.all('where', j):
                yield ('Guarded', arms, w), k

    def alt(self, i):
        for p, j in self.all('pattern', i):
            for side, k in self.sides('->', j):
                yield ('Alt', p, side), k

    def decl(self, i):
        for names, j in self.listed('var', i):
            for k in self.sign('::', j):
                for ty, m in self.all('qualified', k):
                    yield ('Sig', names, ty), m
        if self.at(i) in ('infixl', 'infixr', 'infix'):
            for digit, j in [(None, i + 1)] + ([(self.ts[i + 1], i + 2)] if re.fullmatch('[0-9]', self.ts[i + 1] if i + 1 < len(self.ts) else '') else []):
                for ops, k in self.listed('op', j):
                    yield ('Fix', self.at(i), digit, ops), k
        for left, j in self.all('lhs', i):
            for side, k in self.sides('=', j):
                yield ('Clause', left, side), k


def trees(name, tokens):
    """All trees of all the tokens, those of earlier alternatives first."""
    reader = Reader(tokens)
    return [tree for tree, j in reader.all(name, 0) if j == len(tokens)]
