"""A program whose single threads are held for a while, one after another, as a debugger does it (ptrace). Wants root, or
a system that lets a process trace others of its user."""
import ctypes
import os
import random
import subprocess
import sys
import time

DETACH, SEIZE, INTERRUPT = 17, 0x4206, 0x4207
# waits for threads of another process too
ALL = 0x40000000
LIBC = ctypes.CDLL(None, use_errno=True)
LIBC.ptrace.argtypes = [ctypes.c_long, ctypes.c_long, ctypes.c_void_p, ctypes.c_void_p]
LIBC.ptrace.restype = ctypes.c_long


def threads_of(process):
    try:
        return [int(name) for name in os.listdir(f'/proc/{process}/task')]
    except OSError:
        return []


def hold(thread, seconds):
    """Holds a thread for so long; whether it was there to be held."""
    if LIBC.ptrace(SEIZE, thread, None, None) != 0:
        return False
    LIBC.ptrace(INTERRUPT, thread, None, None)
    try:
        if not os.WIFSTOPPED(os.waitpid(thread, ALL)[1]):
            return False
        time.sleep(seconds)
        if LIBC.ptrace(DETACH, thread, None, None) != 0:
            # its process ended meanwhile: until it is waited for, nobody learns of that end
            os.waitpid(thread, ALL)
    except ChildProcessError:
        return False
    return True


def hold_all(process, seconds, seed):
    """Holds threads of a process at random, each for at most so long, until it is gone: how often."""
    dice, count = random.Random(seed), 0
    while there := threads_of(process):
        count += hold(dice.choice(there), dice.random() * seconds)
    return count


def run(command, data, seconds, limit, seed=1):
    """Runs a command whose threads are held: its status, what it wrote, what it said as its error, and how often a
    thread was held. Raises TimeoutExpired where it takes too long."""
    with subprocess.Popen(command, stdin=subprocess.PIPE, stdout=subprocess.PIPE, stderr=subprocess.PIPE) as running:
        # another process holds them, so that waiting for the program's end is not waiting for a held thread
        words = [sys.executable, os.path.abspath(__file__), str(running.pid), str(seconds), str(seed)]
        with subprocess.Popen(words, stdout=subprocess.PIPE) as holder:
            # the program waits for its input until somebody is there to hold its threads
            holder.stdout.readline()
            try:
                written, error = running.communicate(data, timeout=limit)
            except subprocess.TimeoutExpired:
                holder.kill()
                running.kill()
                raise
            return running.returncode, written, error, int(holder.communicate()[0])


if __name__ == '__main__':
    print('ready', flush=True)
    print(hold_all(int(sys.argv[1]), float(sys.argv[2]), int(sys.argv[3])))
