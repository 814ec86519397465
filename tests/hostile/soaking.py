"""What `stubborn` and `soak` share: the program fib_soak, and what they are asked for."""
import pathlib
import re
import subprocess
import sys

crate = pathlib.Path(__file__).resolve().parent.parent.parent / 'crates' / 'fib_soak'


def soak_program():
    """The program, which is proved and built first where it has to be."""
    subprocess.run(['rt', 'run'], cwd=crate, stdout=subprocess.DEVNULL, check=True)
    return str(crate / 'out' / 'fib_soak')


def numbers(seconds, passes):
    """The seconds, the passes and the program that the command line asks for."""
    words = sys.argv[1:]
    if len(words) > 0:
        seconds = int(words[0])
    if len(words) > 1:
        passes = int(words[1])
    return seconds, passes, words[2] if len(words) > 2 else soak_program()


def resident(process):
    """The megabytes that a process has in memory; None where it has ended."""
    try:
        with open(f'/proc/{process}/status', encoding='ascii') as status:
            return int(re.search(r'^VmRSS:\s+(\d+) kB', status.read(), re.MULTILINE)[1]) / 1024
    except (OSError, TypeError):
        return None
