#!/usr/bin/env python3
"""tests/bindings/seconds.py PROGRAM CALLS DOCUMENT..: what a later call of a process costs beside the program, in user and
system time, where the first one has paid for the memory that the process has from then on.

PROGRAM is bundle_json, and CALLS the example of that name, which makes so many calls of a document. Of the program's time
that of an input that cannot be read is taken off: its start. Both run by turns, and the slower half of the runs, which other
work on the machine disturbed, does not count. The status is 1 where a call costs more by over a tenth, three times in a row: that much other
work may add to one of two.
"""
import os
import sys

ROUNDS = 40
CALLS = 5
TRIES = 3
MARGIN = 1.1
STARTS = "/"


def seconds(command, document):
    """What a command takes with the document on its standard input."""
    actions = [
        (os.POSIX_SPAWN_OPEN, 0, document, os.O_RDONLY, 0),
        (os.POSIX_SPAWN_OPEN, 1, os.devnull, os.O_WRONLY, 0),
        (os.POSIX_SPAWN_OPEN, 2, os.devnull, os.O_WRONLY, 0),
    ]
    child = os.posix_spawn(command[0], command, os.environ, file_actions=actions)
    _, _, used = os.wait4(child, 0)
    return used.ru_utime + used.ru_stime


def measured(program, calls, document):
    """Milliseconds of a later call, and of the program less its start."""
    runs = {
        "run": ([program], document),
        "start": ([program], STARTS),
        "first": ([calls, "1"], document),
        "all": ([calls, str(1 + CALLS)], document),
    }
    took = {name: [] for name in runs}
    for _ in range(ROUNDS):
        for name, (command, source) in runs.items():
            took[name].append(seconds(command, source))
    half = {name: sum(sorted(times)[: ROUNDS // 2]) / (ROUNDS // 2) * 1000 for name, times in took.items()}
    return (half["all"] - half["first"]) / CALLS, half["run"] - half["start"]


def costs_no_more(program, calls, document):
    """Whether a later call costs no more than the program, within the margin."""
    for _ in range(TRIES):
        call, run = measured(program, calls, document)
        print(f"{os.path.basename(document)}: a later call {call:.2f} ms, the program {run:.2f}")
        if call <= MARGIN * run:
            return True
    return False


def main():
    program, calls, *documents = sys.argv[1:]
    return 0 if all([costs_no_more(program, calls, document) for document in documents]) else 1


sys.exit(main())
