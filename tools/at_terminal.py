#!/usr/bin/env python3
"""Runs a call with a terminal of its own as its input, and types there what comes on the standard input.

    tools/at_terminal.py PROGRAM WORD..     ends as the call does, or with 124 where that waits on for half a minute
"""
import os
import subprocess
import sys

WAIT = 30


def main(call):
    ours, its = os.openpty()
    os.write(ours, sys.stdin.buffer.read())
    try:
        return subprocess.run(call, stdin=its, timeout=WAIT, check=False).returncode
    except subprocess.TimeoutExpired:
        return 124


if __name__ == '__main__':
    sys.exit(main(sys.argv[1:]))
