#!/usr/bin/env python3
"""Runs the examples in the documents and compares what they print.

    tools/examples.py FILE ..

An example is a line `$ COMMAND` in a block that begins with ```console. The lines up to the next such line are its
standard output; a last line `[status N]` is its exit status, which is 0 where there is none. Each command is run by
bash at the top of the repository. Prints a line for each that differs, and exits with 1 where one did.
"""

import os
import re
import subprocess
import sys

TOP = os.path.dirname(os.path.dirname(os.path.abspath(__file__)))


def examples(path):
    """Each example of a document: the number of its line, its command, what it prints, its exit status."""
    inside, found = False, []
    with open(path, encoding="utf-8") as file:
        for number, line in enumerate(file, 1):
            line = line.rstrip("\n")
            if line.startswith("```"):
                inside = line == "```console"
            elif inside and line.startswith("$ "):
                found.append([number, line[2:], [], 0])
            elif inside and re.fullmatch(r"\[status \d+\]", line):
                found[-1][3] = int(line[8:-1])
            elif inside:
                found[-1][2].append(line)
    return found


def main(paths):
    ran = failed = 0
    for path in paths:
        for number, command, wanted, status in examples(path):
            done = subprocess.run(["bash", "-c", command], cwd=TOP, stdin=subprocess.DEVNULL, stdout=subprocess.PIPE,
                                  stderr=subprocess.DEVNULL, text=True)
            ran += 1
            got = done.stdout.splitlines()
            if got != wanted or done.returncode != status:
                failed += 1
                print(f"{path}:{number}: status {done.returncode}, wanted {status}; printed {got[:3]}, wanted {wanted[:3]}")
    print(f"examples: {ran} run, {failed} differ")
    return 1 if failed or not ran else 0


if __name__ == "__main__":
    sys.exit(main(sys.argv[1:]) if sys.argv[1:] else __doc__)
