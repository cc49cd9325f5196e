"""Runs a program by a small process of its own: the peak memory that the system tells of a process begins with that of the one
that starts it, and the scripts here hold whole workloads."""
import os
import subprocess
import sys
import time


def started(words, given, out, err):
    """Runs a program on these open files: its status, the seconds, those of processors, and its peak memory in MiB, of which some ten
    are the small process's."""
    read, write = os.pipe()
    with os.fdopen(read) as told:
        process = subprocess.Popen([sys.executable, "-S", __file__, str(write), *words], stdin=given, stdout=out, stderr=err, pass_fds=[write])
        os.close(write)
        status, seconds, used, peak = told.read().split()
        process.wait()
    return int(status), float(seconds), float(used), int(peak) / 1024


def main():
    write, words = int(sys.argv[1]), sys.argv[2:]
    os.set_inheritable(write, False)
    begin = time.monotonic()
    child = os.posix_spawnp(words[0], words, os.environ)
    _, status, used = os.wait4(child, 0)
    seconds = time.monotonic() - begin
    os.write(write, b"%d %f %f %d" % (os.waitstatus_to_exitcode(status), seconds, used.ru_utime + used.ru_stime, used.ru_maxrss))


if __name__ == "__main__":
    main()
