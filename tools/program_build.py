"""Proves and builds the program: the crates that it stands on, those that don't stand on one another at once.

As many proofs run at once as there are cores, and 2 GB of free memory for each; FIBRUN_JOBS=N in the
environment allows N. What is under way is told on standard error. What was proved stays so: a build that
was interrupted goes on where it was.
"""
import fcntl
import os
import re
import shutil
import signal
import subprocess
import sys
import tempfile
import time

top = os.path.dirname(os.path.dirname(os.path.realpath(__file__)))
program_crate = 'route_cli'
program = f'{top}/crates/{program_crate}/out/{program_crate}'

memory_of_a_proof = 2_000_000_000
most_jobs = 4
killed = (-signal.SIGKILL, 256 - signal.SIGKILL)


def tell(text):
    print(f'fibrun: {text}', file=sys.stderr, flush=True)


def fail(text):
    tell(text)
    sys.exit(70)


# The crates.


def read_crates():
    """The crates of the repository: the line of each in crates.txt, and the repository's crates that it names."""
    lines, names = {}, {}
    with open(f'{top}/crates.txt', encoding='utf-8') as rows:
        for row in rows:
            head, colon, libraries = row.partition('#')[0].partition(':')
            if colon and head.split():
                name = head.split()[0]
                lines[name], names[name] = row, libraries.split()
    return lines, {name: [it for it in libraries if it in lines] for name, libraries in names.items()}


def all_below(name, below):
    """The crates that a crate stands on, without itself, the lowest first."""
    found = []

    def visit(crate):
        for it in below[crate]:
            if it not in found:
                visit(it)
                found.append(it)

    visit(name)
    return found


def parts(name):
    """The files and folders of a crate that rt reads."""
    folder = f'{top}/crates/{name}'
    return [f'{folder}/{it}' for it in sorted(os.listdir(folder)) if it not in ('out', 'must-fail')]


def files_of(name):
    """The files of a crate that rt reads, and their folders."""
    for part in parts(name):
        yield part
        for folder, folders, files in os.walk(part):
            yield from (f'{folder}/{it}' for it in [*folders, *files])


def is_proved(name, below):
    """Whether the crate was proved here since it and all below it changed, came or went."""
    out = f'{top}/crates/{name}/out'
    made = program if name == program_crate else f'{out}/rlib/stamp'
    try:
        proved = os.stat(f'{out}/fibrun.proved').st_mtime_ns
        files = (file for it in [*all_below(name, below), name] for file in files_of(it))
        return os.path.exists(made) and all(os.stat(file).st_ctime_ns < proved for file in files)
    except OSError:
        return False


def lines_of(name):
    """How many lines the code, the definitions and the proofs of a crate have."""
    count = 0
    for file in files_of(name):
        if file.endswith(('.rt', '.antt')):
            with open(file, 'rb') as text:
                count += text.read().count(b'\n')
    return count


# The machine.


def number_in(file, pattern):
    try:
        with open(file, encoding='utf-8') as text:
            return int(re.search(pattern, text.read(), re.MULTILINE)[1])
    except (OSError, TypeError):
        return None


def count_lanes():
    """How many proofs may run at once, by the cores and the free memory that this process may use."""
    asked = os.environ.get('FIBRUN_JOBS', '')
    if asked.isdigit() and int(asked) > 0:
        return int(asked)
    cores = len(os.sched_getaffinity(0))
    quota = number_in('/sys/fs/cgroup/cpu.max', r'^(\d+) ')
    period = number_in('/sys/fs/cgroup/cpu.max', r'^\d+ (\d+)')
    if quota and period:
        cores = min(cores, quota // period)
    free = 1024 * (number_in('/proc/meminfo', r'^MemAvailable:\s+(\d+)') or 0)
    limit = number_in('/sys/fs/cgroup/memory.max', r'^(\d+)')
    if limit:
        free = min(free, limit - (number_in('/sys/fs/cgroup/memory.stat', r'^anon (\d+)') or 0))
    return max(1, min(cores, free // memory_of_a_proof))


# The build.


def link_or_copy(file, to):
    try:
        os.link(file, to)
    except OSError:
        shutil.copy2(file, to)


def lock(folder):
    """Keeps rt, and other builds, out of a crate's folder until the file that is returned is closed."""
    held = os.open(folder, os.O_RDONLY)
    try:
        fcntl.flock(held, fcntl.LOCK_EX | fcntl.LOCK_NB)
    except BlockingIOError:
        tell(f'waiting for another build of {os.path.basename(folder)}')
        fcntl.flock(held, fcntl.LOCK_EX)
    except OSError:
        pass  # Some file systems have no locks.
    return held


def recover(rooms):
    """Gives each crate the folder out/ back that stands in a room, and removes the rooms."""
    for name in os.listdir(rooms) if os.path.isdir(rooms) else []:
        folder, to = f'{rooms}/{name}/crates/{name}', f'{top}/crates/{name}'
        if os.path.isdir(f'{folder}/out') and os.path.isdir(to) and not os.path.isdir(f'{to}/out'):
            # The rt of a build that was killed may still be at work there.
            held = lock(folder)
            shutil.move(f'{folder}/out', f'{to}/out')
            os.close(held)
    shutil.rmtree(rooms, ignore_errors=True)


class Build:
    """A build that is under way.

    One rt at a time works in a crate's folder and in those below it, so each proof gets a room of its own:
    the texts of its crates, links to the libraries below it, and its folder out/, which goes back to the
    crate when the proof has ended.
    """

    def __init__(self, rooms):
        self.rooms = rooms
        self.lines, self.below = read_crates()
        self.begun = time.time_ns()
        self.names = [*all_below(program_crate, self.below), program_crate]
        self.left = [name for name in self.names if not is_proved(name, self.below)]
        self.lanes = count_lanes()
        # By crate, the process of its proof, its jobs and when it began.
        self.running = {}
        # A crate whose proof was killed is proved again with nothing beside it.
        self.alone = None
        # The seconds that a proof is likely to take. What the proofs that ended took corrects all guesses.
        lines = {name: lines_of(name) for name in self.names}
        self.guess = {name: 20 + lines[name] / 40 + sum(lines[it] for it in all_below(name, self.below)) / 250
                      for name in self.left}
        self.guessed, self.took = 0, 0

    def run(self):
        """Proves and builds everything that is left."""
        told = 0
        self.keep_texts()
        try:
            while self.left or self.running:
                ended = [name for name, (child, _, _) in self.running.items() if child.poll() is not None]
                for name in ended:
                    self.end(name)
                started = self.start_what_can()
                if self.running and (ended or started or time.monotonic() > told + 60):
                    told = time.monotonic()
                    self.tell_where_it_is()
                time.sleep(0.1)
        finally:
            for child, _, _ in self.running.values():
                child.terminate()
            for child, _, _ in self.running.values():
                child.wait()

    def keep_texts(self):
        """Copies the texts of all crates, so that edits during the build belong to the next one."""
        for name in self.names:
            to = f'{self.rooms}/texts/{name}'
            os.makedirs(to)
            for part in parts(name):
                copy = shutil.copytree if os.path.isdir(part) else shutil.copy2
                copy(part, f'{to}/{os.path.basename(part)}')

    def make_room(self, name):
        """Makes the room of a crate, and gives the crate's folder in it."""
        room, names = f'{self.rooms}/{name}', [*all_below(name, self.below), name]
        for it in names:
            shutil.copytree(f'{self.rooms}/texts/{it}', f'{room}/crates/{it}', copy_function=link_or_copy)
            if it != name:
                library = f'{top}/crates/{it}/out/rlib'
                shutil.copytree(library, f'{room}/crates/{it}/out/rlib', copy_function=link_or_copy)
        with open(f'{room}/crates.txt', 'w', encoding='utf-8') as rows:
            rows.writelines(self.lines[it] for it in names)
        if os.path.isdir(f'{top}/crates/{name}/out'):
            shutil.move(f'{top}/crates/{name}/out', f'{room}/crates/{name}/out')
        os.makedirs(f'{room}/crates/{name}/out', exist_ok=True)
        return f'{room}/crates/{name}'

    def start(self, name, jobs):
        """Starts the proof of a crate. A program is also compiled, and run on an empty script."""
        folder = self.make_room(name)
        words = ['rt', 'lib', '--jobs', str(jobs)]
        if name == program_crate:
            words = ['rt', 'run', '--jobs', str(jobs), '--', 'check']
        with open(f'{folder}/out/fibrun.log', 'wb') as log:
            child = subprocess.Popen(words, cwd=folder, stdin=subprocess.DEVNULL, stdout=log, stderr=log)
        self.running[name] = child, jobs, time.monotonic()
        self.left.remove(name)

    def start_what_can(self):
        """Starts crates whose libraries are proved, first those with the longest chain above them, and says
        whether there was one. Lanes that no other crate waits for go to a proof as further jobs."""
        if self.alone and self.running:
            return False
        unproved = {*self.left, *self.running}
        ready = [name for name in self.left if not unproved & {*all_below(name, self.below)}]
        ready.sort(key=self.chains().get, reverse=True)
        idle = self.lanes - sum(jobs for _, jobs, _ in self.running.values())
        started = [self.alone] if self.alone else ready[:max(idle, 0)]
        for number, name in enumerate(started):
            share = -(-idle // (len(started) - number))
            jobs = 1 if self.alone else min(most_jobs, share)
            idle -= jobs
            self.start(name, jobs)
        return bool(started)

    def chains(self):
        """By crate, the seconds of the longest chain of proofs from it up to the program."""
        found = {}
        for name in reversed(self.names):
            above = [found[it] for it in self.left if name in self.below[it]]
            found[name] = self.guess.get(name, 0) + max(above, default=0)
        return found

    def end(self, name):
        """Takes in a proof that has ended."""
        child, _, since = self.running.pop(name)
        out = f'{top}/crates/{name}/out'
        shutil.rmtree(out, ignore_errors=True)
        shutil.move(f'{self.rooms}/{name}/crates/{name}/out', out)
        shutil.rmtree(f'{self.rooms}/{name}')
        if child.returncode == 0:
            self.guessed += self.guess[name]
            self.took += time.monotonic() - since
            self.alone = None
            with open(f'{out}/fibrun.proved', 'wb'):
                pass
            os.utime(f'{out}/fibrun.proved', ns=(self.begun, self.begun))
        elif child.returncode in killed and not self.alone:
            tell(f'the proof of {name} was killed, most likely for memory: once more, with nothing beside it')
            self.left.append(name)
            self.alone = name
        else:
            with open(f'{out}/fibrun.log', errors='replace') as log:
                sys.stderr.write(''.join(log.readlines()[-40:]))
            fail(f'{name} is not proved; the whole log is in crates/{name}/out/fibrun.log')

    def seconds_left(self):
        """About how long the rest takes: its proofs, played through in their order with the guesses."""
        # Where rt had kept work of earlier runs, a proof takes no time, which tells nothing of the others.
        factor = max(self.took / self.guessed, 0.5) if self.guessed else 1
        now, moment, left = time.monotonic(), 0, list(self.left)
        likely = {name: factor * self.guess[name] for name in self.guess}
        # A proof that takes longer than its guess has some way to go.
        ends = {name: max(likely[name] - (now - since), likely[name] / 4)
                for name, (_, _, since) in self.running.items()}
        while left or ends:
            for name in [*left]:
                if len(ends) < self.lanes and not {*left, *ends} & {*all_below(name, self.below)}:
                    ends[name] = moment + likely[name]
                    left.remove(name)
            first = min(ends, key=ends.get)
            moment = ends.pop(first)
        return moment

    def tell_where_it_is(self):
        seconds = self.seconds_left()
        rest = f'{seconds / 60:.0f} minutes' if seconds > 90 else f'{max(10, round(seconds, -1)):.0f} seconds'
        done = len(self.names) - len(self.left) - len(self.running)
        tell(f'{done} of {len(self.names)} crates proved, about {rest} left; under way: {", ".join(self.running)}')


def build():
    """Proves and builds the program where that isn't done."""
    if shutil.which('rt') is None:
        fail('to build the program, the command rt must be on the path')
    # These locks are held until this process ends or becomes the program.
    for name in sorted([*all_below(program_crate, read_crates()[1]), program_crate]):
        lock(f'{top}/crates/{name}')
    # Rooms are links where they stand on the file system of the crates; in .git/ nothing looks for crates.
    has_git = os.path.isdir(f'{top}/.git')
    rooms = f'{top}/.git/fibrun' if has_git else tempfile.mkdtemp(prefix='fibrun-')
    recover(rooms)
    try:
        work = Build(rooms)
        if work.left:
            tell(f'proving and building the program, which is done once, with {work.lanes} proofs at a time')
            work.run()
    except KeyboardInterrupt:
        tell('interrupted; the next run goes on where this one was')
        raise
    finally:
        recover(rooms)
