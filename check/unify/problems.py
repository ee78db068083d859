"""Compares the unifier with a textbook one on random problems: each answer, and what is kept at the end.

problems.py PROGRAM [RUNS [SEED]]   PROGRAM is what the crate unify_commands is built to
"""
import random
import subprocess
import sys

FLEXIBLE, RIGID = 6, 2


def walk(term, solution):
    while isinstance(term, int) and term in solution:
        term = solution[term]
    return term


def occurs(number, term, solution):
    term = walk(term, solution)
    if isinstance(term, tuple):
        return any(occurs(number, part, solution) for part in term)
    return term == number


def unify(pairs, solution):
    """A solution of the pairs after `solution`, or None (Robinson 1965)."""
    solution = dict(solution)
    todo = list(pairs)
    while todo:
        left, right = (walk(term, solution) for term in todo.pop())
        if left == right:
            continue
        if not (isinstance(left, int) and left < FLEXIBLE):
            left, right = right, left
        if isinstance(left, int) and left < FLEXIBLE:
            if occurs(left, right, solution):
                return None
            solution[left] = right
        elif isinstance(left, tuple) and isinstance(right, tuple):
            todo += zip(left, right)
        else:
            return None
    return solution


def value(term, solution):
    term = walk(term, solution)
    if isinstance(term, tuple):
        return tuple(value(part, solution) for part in term)
    return term


def read(words):
    """A term of the program's words in prefix form."""
    word = next(words)
    if word == "@":
        function = read(words)
        return (function, read(words))
    return int(word) if word.isdigit() else word


def alike(a, b, there, back):
    """Whether two terms differ in the names of flexible variables alone."""
    if isinstance(a, tuple) and isinstance(b, tuple):
        return all(alike(x, y, there, back) for x, y in zip(a, b))
    if isinstance(a, int) and isinstance(b, int) and a < FLEXIBLE and b < FLEXIBLE:
        return there.setdefault(a, b) == b and back.setdefault(b, a) == a
    return type(a) is type(b) and a == b


def random_term(rng, depth):
    kind = rng.random()
    if depth == 0 or kind < 0.35:
        if rng.random() < 0.75:
            return rng.randrange(FLEXIBLE + (RIGID if rng.random() < 0.3 else 0))
        return rng.choice("abc" if rng.random() < 0.5 else "a")
    return (random_term(rng, depth - 1), random_term(rng, depth - 1))


def commands_of(pairs, rng, lines):
    """The commands of a problem; each term is made once where it was made before, or else anew."""
    lines.append("n")
    made, count = {}, FLEXIBLE + RIGID
    lines += ["v"] * FLEXIBLE + ["r"] * RIGID

    def place(term):
        nonlocal count
        if isinstance(term, int):
            return term
        if term in made and rng.random() < 0.5:
            return made[term]
        if isinstance(term, tuple):
            function, argument = place(term[0]), place(term[1])
            lines.append(f"a {function} {argument}")
        else:
            lines.append(f"c {term}")
        made[term] = count
        count += 1
        return made[term]

    early = [(place(a), place(b)) for a, b in pairs] if rng.random() < 0.5 else None
    for at, (a, b) in enumerate(pairs):
        left, right = early[at] if early else (place(a), place(b))
        lines.append(f"u {left} {right}")
    lines += [f"p {number}" for number in range(FLEXIBLE + RIGID)]


def main():
    program = sys.argv[1]
    runs = int(sys.argv[2]) if len(sys.argv) > 2 else 1000
    seed = int(sys.argv[3]) if len(sys.argv) > 3 else 1
    rng = random.Random(seed)
    problems, lines = [], []
    for _ in range(runs):
        depth = rng.choice([1, 2, 2, 3, 4])
        pairs = [(random_term(rng, depth), random_term(rng, depth)) for _ in range(rng.randrange(1, 13))]
        problems.append(pairs)
        commands_of(pairs, rng, lines)
    done = subprocess.run([program], input="\n".join(lines) + "\n", capture_output=True, text=True, check=True)
    rows = iter(done.stdout.split("\n"))
    solved = 0
    for at, pairs in enumerate(problems):
        solution = {}
        for pair in pairs:
            more = unify([pair], solution)
            answer = next(rows)
            if answer != ("f" if more is None else "t"):
                sys.exit(f"problem {at} of seed {seed}: {pairs}: {pair} is {answer}")
            if more is not None:
                solution = more
                solved += 1
        there, back = {}, {}
        for number in range(FLEXIBLE + RIGID):
            row = next(rows)
            found = read(iter(row.split()))
            if not alike(value(number, solution), found, there, back):
                sys.exit(f"problem {at} of seed {seed}: {pairs}: {number} reads as {row}")
    pairs = sum(len(pairs) for pairs in problems)
    print(f"{runs} problems, {pairs} pairs, of which {solved} could be solved: no difference")


main()
