#!/usr/bin/env python3
"""compare.py PROGRAM [RUNS [SEED]]: gives random scripts to the program, and compares its output and exit status with
those of a model of the rules that was written apart from the proved definitions. It ends with status 1 where a script
has another answer, and prints that script's file. It is no part of the gate."""

import random
import re
import subprocess
import sys
import tempfile

from builds import session
from scripts import Writer


def main(program, runs='1000', seed='1'):
    writer, lines = Writer(random.Random(int(seed))), {}
    for run in range(int(runs)):
        script = writer.script()
        wanted, status = session(script)
        found = subprocess.run([program, 'session'], input=script, capture_output=True, check=False)
        if (found.stdout, found.returncode) != (wanted, status):
            with tempfile.NamedTemporaryFile(delete=False) as file:
                file.write(script)
            print(f'script {run} of seed {seed}, {file.name}: wanted status {status} and')
            print(wanted.decode(errors='replace') + f'found status {found.returncode} and')
            print(found.stdout.decode(errors='replace'))
            return 1
        for sort in re.findall(rb'error (E\d\d)|: (checked|failed|blocked)\b|^(bad script|del:)', wanted, re.M):
            lines[b''.join(sort)] = lines.get(b''.join(sort), 0) + 1
    print(f'{runs} scripts of seed {seed}, no difference; lines: '
          + ', '.join(f'{sort.decode()} {count}' for sort, count in sorted(lines.items())))
    return 0


if __name__ == '__main__':
    sys.exit(main(*sys.argv[1:]))
