"""What the scripts beside this one share: the built program, and one timed run of it."""
import os
import pathlib
import subprocess
import sys
import time

top = pathlib.Path(__file__).resolve().parent.parent
built = top / 'crates' / 'route_cli' / 'out' / 'route_cli'


def build():
    """Proves and builds the program where it has to be."""
    subprocess.run([top / 'fibrun', 'replay'], stdin=subprocess.DEVNULL, stdout=subprocess.DEVNULL, check=True)


def run(program, mode, path):
    """The seconds and the peak memory in kilobytes of one run."""
    with open(path, 'rb') as source, open(os.devnull, 'wb') as sink:
        begin = time.perf_counter()
        child = subprocess.Popen([program, mode], stdin=source, stdout=sink)
        _, status, usage = os.wait4(child.pid, 0)
        seconds = time.perf_counter() - begin
        child.returncode = os.waitstatus_to_exitcode(status)
    if child.returncode != 0:
        sys.exit(f'{mode} ended with {child.returncode}')
    return seconds, usage.ru_maxrss
