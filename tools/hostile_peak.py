"""Carries out a command and writes the greatest memory that it took, in kilobytes, to a file.

usage: hostile_peak.py FILE WORD..

Its status is the command's, or 128 more than the signal that ended it. What a process took before it became the command counts
too: so a small one does that, and not what has the lines of a session in memory. Less than what this one takes, some 8 MB, it
does not tell.
"""
import os, sys


def main():
    child = os.fork()
    if child == 0:
        os.execv(sys.argv[2], sys.argv[2:])
    _, status, usage = os.wait4(child, 0)
    with open(sys.argv[1], 'w') as file:
        file.write(str(usage.ru_maxrss))
    ended = os.waitstatus_to_exitcode(status)
    os._exit(ended if ended >= 0 else 128 - ended)


main()
