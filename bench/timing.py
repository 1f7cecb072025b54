"""The time, the instructions and the memory that a command takes."""
import re
import subprocess
import sys
import tempfile
import time


def least_time(command, data, rounds):
    best = None
    for _ in range(rounds):
        with tempfile.TemporaryFile() as source:
            source.write(data)
            source.seek(0)
            begun = time.perf_counter()
            done = subprocess.run(command, stdin=source, stdout=subprocess.PIPE)
            taken = time.perf_counter() - begun
        best = taken if best is None else min(best, taken)
    return best, done


def instructions(command, data):
    """How many instructions a command takes, counted by callgrind: the same each time, whatever else runs."""
    counter = ['valgrind', '--tool=callgrind', '--callgrind-out-file=/dev/null', *command]
    done = subprocess.run(counter, input=data, stdout=subprocess.PIPE, stderr=subprocess.PIPE)
    return int(re.search(rb'Collected : (\d+)', done.stderr)[1]), done


# Runs a command without its output, and prints the most memory that it held, in KiB.
LAUNCHER = '''
import os, resource, sys
output = os.dup(1)
os.dup2(os.open(os.devnull, os.O_WRONLY), 1)
os.spawnv(os.P_WAIT, sys.argv[1], sys.argv[1:])
os.write(output, b'%d' % resource.getrusage(resource.RUSAGE_CHILDREN).ru_maxrss)
'''


def most_memory(command, data):
    """The most memory that one run holds, in MB. What its starter held counts too, so that is a small process."""
    launcher = [sys.executable, '-I', '-S', '-c', LAUNCHER]
    return int(subprocess.run(launcher + command, input=data, stdout=subprocess.PIPE).stdout) / 1024
