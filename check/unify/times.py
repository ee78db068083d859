"""Times of the unifier on large problems: times.py PROGRAM [SIZE]. Seconds and megabytes hold the reading of the commands."""
import resource
import subprocess
import sys
import tempfile
import time


class Commands:
    def __init__(self):
        self.lines, self.count = [], 0

    def make(self, line):
        self.lines.append(line)
        self.count += 1
        return self.count - 1

    def app(self, function, argument):
        return self.make(f"a {function} {argument}")

    def unify(self, a, b):
        self.lines.append(f"u {a} {b}")


def wide(n, sharing=False):
    """Two types with n arguments, a variable against an application."""
    c = Commands()
    con = c.make("c f")
    left = right = con
    for _ in range(n):
        left, right = c.app(left, c.make("v")), c.app(right, c.app(con, c.make("v")))
    c.unify(left, right)
    return c


def deep(n):
    """Two types of n levels."""
    c = Commands()
    con = c.make("c f")
    left, right = c.make("v"), c.make("v")
    for _ in range(n):
        left, right = c.app(con, left), c.app(con, right)
    c.unify(left, right)
    return c


def doubled(n):
    """Two types of 2^n nodes as a tree, n nodes as a graph, against each other, and variables for the levels of a third."""
    c = Commands()
    left, right = c.make("v"), c.make("v")
    for _ in range(n):
        left, right = c.app(left, left), c.app(right, right)
    c.unify(left, right)
    last = c.make("v")
    first = last
    for _ in range(n):
        more = c.make("v")
        c.unify(more, c.app(last, last))
        last = more
    c.unify(last, left)
    c.lines.append(f"h {left}")
    c.unify(first, left)
    return c


def chain(n, up, last_first, before, double=False):
    """Each variable is made an application of the next one (or of the one before it, where `up`)."""
    c = Commands()
    con = c.make("c f")
    variables = [c.make("v") for _ in range(n + 1)]
    steps = [(at + 1, at) if up else (at, at + 1) for at in range(n)]
    make = lambda part: c.app(variables[part], variables[part]) if double else c.app(con, variables[part])
    terms = {step: make(step[1]) for step in steps} if before else {}
    for step in reversed(steps) if last_first else steps:
        c.unify(variables[step[0]], terms[step] if before else make(step[1]))
    return c


def equal(n, last_first):
    """n variables made equal one after another."""
    c = Commands()
    variables = [c.make("v") for _ in range(n + 1)]
    order = range(n - 1, -1, -1) if last_first else range(n)
    for at in order:
        c.unify(variables[at], variables[at + 1])
    return c


def large(n):
    """n calls, each of which gives one variable in a large graph a value."""
    c = Commands()
    con = c.make("c f")
    variables = [c.make("v") for _ in range(n)]
    spine = con
    for variable in variables:
        spine = c.app(spine, c.app(con, variable))
    top = c.make("v")
    c.unify(top, spine)
    leaf = c.app(con, con)
    for variable in variables:
        c.unify(variable, leaf)
    return c


def large_deep(n):
    """The same with a deep value under each variable, shared."""
    c = Commands()
    con = c.make("c f")
    value = con
    for _ in range(n):
        value = c.app(con, value)
    variables = [c.make("v") for _ in range(n)]
    spine = con
    for variable in variables:
        spine = c.app(spine, c.app(con, variable))
    for variable in variables:
        c.unify(variable, value)
    return c


def tree(n):
    """A chain, last to first, under a balanced tree of all of its variables."""
    c = Commands()
    con = c.make("c f")
    variables = [c.make("v") for _ in range(n + 1)]
    row = variables
    while len(row) > 1:
        row = [c.app(*row[at:at + 2]) if at + 1 < len(row) else row[at] for at in range(0, len(row), 2)]
    terms = [c.app(con, variables[at + 1]) for at in range(n)]
    for at in range(n - 1, -1, -1):
        c.unify(variables[at], terms[at])
    return c


def curried(n):
    """A function of n arguments, applied to one after another."""
    c = Commands()
    arrow = c.make("c t")
    function = c.make("v")
    for _ in range(n):
        argument, result = c.make("v"), c.make("v")
        c.unify(function, c.app(c.app(arrow, argument), result))
        function = result
    return c


def nested(n):
    """n functions inside each other, solved from the inside, as inference numbers them."""
    c = Commands()
    arrow = c.make("c t")
    own = [c.make("v") for _ in range(n + 1)]
    names = [c.make("v") for _ in range(n)]
    terms = [c.app(c.app(arrow, names[at]), own[at + 1]) for at in range(n)]
    for at in range(n - 1, -1, -1):
        c.unify(own[at], terms[at])
    return c


def mixed(n):
    """The same where each other one is a list, and each third one a triple."""
    c = Commands()
    arrow, row, triple = c.make("c t"), c.make("c l"), c.make("c p")
    own = [c.make("v") for _ in range(n + 1)]
    names = [c.make("v") for _ in range(n)]
    terms = []
    for at in range(n):
        part = own[at + 1]
        if at % 3 == 0:
            terms.append(c.app(c.app(arrow, c.app(row, names[at])), part))
        elif at % 3 == 1:
            terms.append(c.app(row, part))
        else:
            terms.append(c.app(c.app(c.app(triple, names[at]), names[at]), part))
    for at in range(n - 1, -1, -1):
        c.unify(own[at], terms[at])
    return c


def main():
    program, size = sys.argv[1], int(sys.argv[2]) if len(sys.argv) > 2 else 100000
    cases = [("wide", wide(size)), ("deep", deep(size)), ("doubled 40", doubled(40)), ("doubled", doubled(size))]
    for up in (False, True):
        for last_first in (False, True):
            for before in (False, True):
                name = f"chain of {'older' if up else 'newer'} parts, {'last' if last_first else 'first'} first, terms made {'before' if before else 'on the way'}"
                cases.append((name, chain(size, up, last_first, before)))
    cases += [
        ("chain of pairs, last first, terms made before", chain(size, False, True, True, True)),
        ("equal, first first", equal(size, False)), ("equal, last first", equal(size, True)),
        ("one variable a call", large(size)), ("one variable a call, deep value", large_deep(size)),
        ("chain under a tree", tree(size)), ("curried", curried(size)), ("nested functions", nested(size)),
        ("nested functions, lists and triples", mixed(size)),
    ]
    only = sys.argv[3] if len(sys.argv) > 3 else ""
    for name, commands in cases:
        if only not in name:
            continue
        with tempfile.TemporaryFile("w+") as file:
            file.write("\n".join(commands.lines) + "\n")
            file.seek(0)
            before = resource.getrusage(resource.RUSAGE_CHILDREN)
            start = time.time()
            try:
                done = subprocess.run(["/usr/bin/env", "time", "-f", "%M", program], stdin=file, capture_output=True, text=True, timeout=60)
                memory = int(done.stderr.split()[-1]) // 1024
                answers = done.stdout.split()
            except subprocess.TimeoutExpired:
                print(f"{name}: over 60 seconds", flush=True)
                continue
            after = resource.getrusage(resource.RUSAGE_CHILDREN)
            user = after.ru_utime - before.ru_utime + after.ru_stime - before.ru_stime
            told = f"{answers.count('t')} t, {answers.count('f')} f, last {answers[-1]}"
            print(f"{name}: {time.time() - start:.2f} s, {user:.2f} s of processor, {memory} MB; {told}", flush=True)


main()
