#!/usr/bin/env python3
"""Runs a session that ends without saving, which is not to be measured.

usage: unsaved.py LINES TOLD -- WORD..

The words hold a session. They are given the lines of a file, and their replies are written to TOLD. Once each line is answered
the replies are no longer read, and one line more is given: so the session breaks off there, and the bench's file stays as it
was. Prints the seconds of processor time that it took. Standard error is as the words leave it.
"""
import fcntl, os, subprocess, sys, threading

ROOM = 1 << 20  # of a pipe, in bytes


def feed(pipe, given):
    try:
        pipe.write(given)
        pipe.flush()
    except BrokenPipeError:
        pass


def unsaved(words, given, errors=None):
    """The replies to these lines, and what the process has used."""
    process = subprocess.Popen(words, stdin=subprocess.PIPE, stdout=subprocess.PIPE, stderr=errors)
    for pipe in (process.stdin, process.stdout):
        fcntl.fcntl(pipe, 1031, ROOM)  # F_SETPIPE_SZ
    feeding = threading.Thread(target=feed, args=(process.stdin, given))
    feeding.start()
    told, awaited = [], given.count(b'\n')
    while awaited > 0:
        part = os.read(process.stdout.fileno(), ROOM)
        if not part:
            break
        told.append(part)
        awaited -= part.count(b'\n')
    feeding.join()
    process.stdout.close()
    feed(process.stdin, b'x\n')
    try:
        process.stdin.close()
    except BrokenPipeError:
        pass
    _, _, usage = os.wait4(process.pid, 0)
    process.returncode = 0
    return b''.join(told), usage


def main():
    if len(sys.argv) < 5 or sys.argv[3] != '--':
        sys.exit(__doc__)
    with open(sys.argv[1], 'rb') as lines:
        told, usage = unsaved(sys.argv[4:], lines.read())
    with open(sys.argv[2], 'wb') as file:
        file.write(told)
    print('%.6f' % (usage.ru_utime + usage.ru_stime))


if __name__ == '__main__':
    main()
