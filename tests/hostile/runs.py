"""What the scripts beside this one share: a script with every part in it, runs of the program with a call that fails, and
runs that are compared with the definition."""
import contextlib
import os
import pathlib
import subprocess
import sys
import tempfile
import time

import definition

here = pathlib.Path(__file__).resolve().parent
sys.path.append(str(here.parent.parent / 'bench'))
from timing import build, built

SCRIPT = b"""\
add 10.0.0.0/8 192.0.2.1
add 10.0.0.0/8 192.0.2.2 -weight 3
add 10.1.0.0/16 192.0.2.2
sync
get 10.0.0.1
get 10.1.0.1
algo dxr
change 10.1.0.0/16 192.0.2.3
sync
get 10.1.0.1
get -inet6 ::1
add -inet6 2001:db8::/32 2001:db8::1
algo -inet6 radix
sync
get -inet6 2001:db8::7
delete 10.0.0.0/8
get 10.0.0.1
"""

RUNS = ('replay', 'replay --workers 1', 'replay --workers 2', 'replay --workers 3', 'check', 'show', 'gen --count 60')


# In each of these the definition says what the answer is.
MODES = (['check'], ['show'], ['replay'], ['replay', '--workers', '2'])


def program(place=1):
    """The program: the word at this place of the command line, or the one that is built here."""
    if len(sys.argv) > place:
        return sys.argv[place]
    build()
    return str(built)


def answer(name, words, script):
    """The status, the output, the fault and the seconds of a run of the program, which must end within 15 of them."""
    begun = time.monotonic()
    ran = subprocess.run([name] + words, input=script, stdout=subprocess.PIPE, stderr=subprocess.PIPE, timeout=15)
    return ran.returncode, ran.stdout, ran.stderr, time.monotonic() - begun


def is_defined(words, script, status, output, fault):
    """Whether this is an answer that the definition gives the script in this mode."""
    wanted = definition.result(words[0], script)
    if '--workers' in words and wanted[0] == 0:
        return status == 0 and not fault and definition.by_workers(script, int(words[-1]), output)
    return wanted == (status, output, fault)


def demand(name, words, script):
    """Runs the program on a script; where the answer isn't the definition's, that ends all. Its status and seconds."""
    status, output, fault, seconds = answer(name, words, script)
    if not is_defined(words, script, status, output, fault):
        sys.stdout.buffer.write(script)
        sys.exit(f'\n{" ".join(words)}: status {status} on the script above, where the definition says something else')
    return status, seconds


@contextlib.contextmanager
def library():
    """The library that lets one call fail."""
    with tempfile.TemporaryDirectory() as folder:
        path = f'{folder}/fail_one.so'
        subprocess.run(['cc', '-shared', '-fPIC', '-O1', '-o', path, str(here / 'fail_one.c'), '-ldl'], check=True)
        yield path


def end(name, words, path, script=SCRIPT, **failing):
    """The status and the output of a run of the program, which must end within 15 seconds."""
    place = dict(os.environ, LD_PRELOAD=path, **{key: str(number) for key, number in failing.items()})
    ran = subprocess.run([name] + words, input=script, stdout=subprocess.PIPE, stderr=subprocess.PIPE, env=place,
                         timeout=15)
    return ran.returncode, ran.stdout
