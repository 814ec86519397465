"""fibrun and the build, with a command that stands for rt: it sleeps, and writes the files that rt writes."""
import importlib.machinery
import importlib.util
import os
import pathlib
import random
import shutil
import signal
import subprocess
import sys
import tempfile
import time
import unittest

top = pathlib.Path(__file__).resolve().parent.parent.parent

# In its folder rt.log stands a line for each start and end. A crate whose source says fail is refused, and
# one whose source says slow takes five seconds.
stub = '''#!/usr/bin/env python3
import os, pathlib, sys, time
here = pathlib.Path.cwd()
log = pathlib.Path(__file__).with_name('rt.log')
def note(text):
    with open(log, 'a') as file:
        file.write(f'{time.monotonic():.3f} {text}\\n')
if sys.argv[1] == 'try':
    source = (here / 'src/main.rt').read_text()
    if 'refused' in source:
        print('src/main.rt:1:1: error', file=sys.stderr)
        print('run=none proved=no', file=sys.stderr)
        sys.exit(1)
    words, text = sys.argv[sys.argv.index('--') + 1:], sys.stdin.read()
    print(len(words), text, end='')
    print('fibrun: line 1: bad address', file=sys.stderr)
    print('checked: ended status=1', file=sys.stderr)
    print('run=ended status=1 runners=1 races=unchecked proved=no', file=sys.stderr)
    sys.exit(1)
source = own = next((here / 'src').iterdir()).read_text()
row = next(row for row in (here / '../../crates.txt').read_text().splitlines() if row.startswith(here.name + ':'))
for library in row.partition(':')[2].split():
    if (here / '..' / library).is_dir() and not (here / '..' / library / 'out/rlib/stamp').exists():
        note(f'{here.name} lacks {library}')
        sys.exit(1)
    if (here / '..' / library).is_dir():
        source += (here / '..' / library / 'out/rlib/stamp').read_text()
note(f'begin {here.name}')
if (here / 'out/rlib/stamp').exists() and (here / 'out/rlib/stamp').read_text() == source:
    sys.exit(0)
print('proving', flush=True)
time.sleep(5 if 'slow' in own else 0.4)
if 'killed' in own and not (here / 'out/once').exists():
    (here / 'out/once').write_text('')
    sys.exit(247)
if 'fail' in own:
    print('src/lib.rt:7:1: error: not proved')
    sys.exit(1)
(here / 'out/rlib').mkdir(parents=True, exist_ok=True)
(here / 'out/rlib/stamp').write_text(source)
if sys.argv[1] == 'run':
    program = here / 'out/route_cli'
    program.write_text('#!/bin/sh\\necho "ran $*"\\ncat\\necho said >&2\\nexit 4\\n')
    program.chmod(0o755)
note(f'end {here.name}')
'''
crates_txt = '''# a comment
low: thiserror
left: low
right: low   # and more
other: low
middle: left right
route_cli: middle clap
'''


class WithRepository(unittest.TestCase):
    def setUp(self):
        folder = tempfile.TemporaryDirectory()
        self.addCleanup(folder.cleanup)
        self.folder = pathlib.Path(folder.name)
        self.top = self.folder / 'repository'
        (self.top / 'tools').mkdir(parents=True)
        (self.top / '.git').mkdir()
        shutil.copy(top / 'fibrun', self.top)
        shutil.copy(top / 'tools/program_build.py', self.top / 'tools')
        (self.top / 'crates.txt').write_text(crates_txt)
        for name in ('low', 'left', 'right', 'other', 'middle'):
            self.write(name, 'fn one() {}\n')
        self.write('route_cli', 'fn main() {}\n')
        (self.folder / 'bin').mkdir()
        (self.folder / 'bin/rt').write_text(stub)
        (self.folder / 'bin/rt').chmod(0o755)

    def write(self, name, text):
        file = self.top / 'crates' / name / 'src' / ('main.rt' if name == 'route_cli' else 'lib.rt')
        file.parent.mkdir(parents=True, exist_ok=True)
        file.write_text(text)

    def start(self, *words, jobs=4):
        paths = f'{self.folder}/bin:{os.environ["PATH"]}'
        return subprocess.Popen([self.top / 'fibrun', *words], stdin=subprocess.PIPE, stdout=subprocess.PIPE,
                                stderr=subprocess.PIPE, text=True, cwd=self.folder,
                                env=dict(os.environ, PATH=paths, FIBRUN_JOBS=str(jobs)))

    def run_it(self, *words, text='', jobs=4):
        child = self.start(*words, jobs=jobs)
        out, err = child.communicate(text, timeout=60)
        return child.returncode, out, err

    def moments(self):
        """What the stub noted, by its words, since the last call."""
        log = self.folder / 'bin/rt.log'
        lines = log.read_text().splitlines() if log.exists() else []
        log.write_text('')
        return {line.partition(' ')[2]: float(line.partition(' ')[0]) for line in lines}

    def wait_for(self, text):
        log = self.folder / 'bin/rt.log'
        end = time.monotonic() + 30
        while not (log.exists() and text in log.read_text()):
            self.assertLess(time.monotonic(), end, f'{text} did not come')
            time.sleep(0.02)


class Building(WithRepository):
    def test_a_first_run_proves_what_the_program_stands_on_and_runs_it(self):
        status, out, err = self.run_it('replay', '--workers', '2', text='get\n')
        self.assertEqual((status, out), (4, 'ran replay --workers 2\nget\n'), err)
        self.assertTrue(err.endswith('said\n'))
        self.assertIn('about', err)
        at = self.moments()
        self.assertEqual({it.split()[1] for it in at}, {'low', 'left', 'right', 'middle', 'route_cli'})
        for name, libraries in {'left': ['low'], 'right': ['low'], 'middle': ['left', 'right'], 'route_cli': ['middle']}.items():
            for library in libraries:
                self.assertLess(at[f'end {library}'], at[f'begin {name}'])
        self.assertLess(max(at['begin left'], at['begin right']), min(at['end left'], at['end right']))
        self.assertFalse((self.top / '.git/fibrun').exists())

    def test_one_job_proves_one_crate_at_a_time(self):
        self.run_it('replay', jobs=1)
        at = self.moments()
        first, second = sorted(('left', 'right'), key=lambda name: at[f'begin {name}'])
        self.assertLess(at[f'end {first}'], at[f'begin {second}'])

    def test_a_second_run_builds_nothing_and_an_edit_builds_what_stands_above_it(self):
        self.run_it('replay')
        self.moments()
        status, out, err = self.run_it('check', text='x')
        self.assertEqual((status, out, err), (4, 'ran check\nx', 'said\n'))
        self.assertEqual(self.moments(), {})
        self.write('right', 'fn two() {}\n')
        self.run_it('replay')
        self.assertEqual({it for it in self.moments() if it.startswith('begin')},
                         {'begin right', 'begin middle', 'begin route_cli'})
        self.write('other', 'fn two() {}\n')
        self.run_it('replay')
        self.assertEqual(self.moments(), {})
        (self.top / 'crates/left/src/gone.rt').write_text('')
        self.run_it('replay')
        (self.top / 'crates/left/src/gone.rt').unlink()
        self.moments()
        self.run_it('replay')
        self.assertIn('begin left', self.moments())

    def test_a_failure_names_its_crate_and_the_rest_is_kept(self):
        self.write('right', 'fail\n')
        self.write('left', 'slow\n')
        begin = time.monotonic()
        status, out, err = self.run_it('replay')
        self.assertLess(time.monotonic() - begin, 4.5)
        self.assertEqual((status, out), (70, ''))
        self.assertIn('fibrun: right is not proved; the whole log is in crates/right/out/fibrun.log', err)
        self.assertIn('error: not proved', err)
        self.assertIn('error: not proved', (self.top / 'crates/right/out/fibrun.log').read_text())
        self.moments()
        self.write('right', 'fn mended() {}\n')
        self.write('left', 'fn quick() {}\n')
        self.assertEqual(self.run_it('replay')[0], 4)
        self.assertNotIn('begin low', self.moments())

    def test_a_proof_that_is_killed_is_tried_once_more_alone(self):
        self.write('left', 'killed\n')
        status, _, err = self.run_it('replay')
        self.assertEqual(status, 4, err)
        self.assertIn('the proof of left was killed, most likely for memory', err)

    def test_an_interrupted_build_goes_on_where_it_was(self):
        for number, status in ((signal.SIGINT, 130), (signal.SIGTERM, 143)):
            self.write('low', f'fn low() {{ {status} }}\n')
            self.write('right', f'slow {status}\n')
            child = self.start('replay')
            self.wait_for('begin right')
            self.wait_for('end left')
            child.send_signal(number)
            child.communicate(timeout=20)
            self.assertEqual(child.returncode, status)
            self.assertFalse((self.top / '.git/fibrun').exists())
            self.assertTrue((self.top / 'crates/right/out/fibrun.log').exists())
            self.moments()
            self.write('right', 'fn quick() {}\n')
            self.assertEqual(self.run_it('replay')[0], 4)
            ended = {it for it in self.moments() if it.startswith('end')}
            self.assertEqual(ended, {'end right', 'end middle', 'end route_cli'})

    def test_what_a_killed_build_had_in_its_rooms_is_put_back(self):
        self.write('right', 'slow\n')
        (self.top / 'crates/right/out').mkdir()
        (self.top / 'crates/right/out/kept').write_text('work')
        child = self.start('replay')
        self.wait_for('begin right')
        child.kill()
        child.communicate()
        self.assertFalse((self.top / 'crates/right/out').exists())
        time.sleep(0.5)
        self.write('right', 'fn quick() {}\n')
        self.assertEqual(self.run_it('replay')[0], 4)
        self.assertEqual((self.top / 'crates/right/out/kept').read_text(), 'work')

    def test_two_builds_do_not_meet(self):
        one, two = self.start('replay'), self.start('replay')
        for child in (one, two):
            child.communicate('', timeout=60)
            self.assertEqual(child.returncode, 4)
        text = (self.folder / 'bin/rt.log').read_text()
        self.assertEqual(text.count('end middle'), 1)

    def test_a_tree_without_git_is_built_too(self):
        (self.top / '.git').rmdir()
        self.assertEqual(self.run_it('replay')[0], 4)

    def test_without_rt_nothing_is_built(self):
        (self.folder / 'bin/rt').unlink()
        child = subprocess.run([sys.executable, self.top / 'fibrun', 'replay'], stdin=subprocess.DEVNULL,
                               stderr=subprocess.PIPE, text=True, env={'PATH': '/nowhere'})
        self.assertEqual((child.returncode, child.stderr),
                         (70, 'fibrun: to build the program, the command rt must be on the path\n'))


class Words(WithRepository):
    def test_words_that_are_no_command_line_are_told_before_anything_is_built(self):
        lines = ['', 'play', 'Replay', 'replay replay', 'replay --workers 0', 'replay --workers 65', 'check --workers 65',
                 'replay --seed 4294967296', 'replay --seed -0', 'replay --seed', 'replay --see 1', 'gen --count 0',
                 'gen --count 1048577', 'gen --seed 1 --seed 1', '--help', '-h', 'replay --help', '--version',
                 '--unproved', '--unproved play', 'replay --unproved', 'replay -- --seed 1', 'replay --seed=', 'replay -']
        for line in lines:
            status, out, err = self.run_it(*line.split())
            self.assertEqual((status, out), (2, ''), line)
            self.assertEqual(err, 'usage: fibrun replay|check|show|gen [--workers N] [--seed N] [--count N]\n', line)
        self.assertEqual(self.moments(), {})

    def test_other_words_build_and_reach_the_program(self):
        for line in ['replay --workers 64', 'show --seed 0', 'gen --count 1048576', '--seed 007 gen', 'replay --seed +5',
                     'replay --seed=-0', '--workers=3 replay', '-- replay']:
            self.assertEqual(self.run_it(*line.split())[1], f'ran {line}\n')


@unittest.skipUnless('FIBRUN' in os.environ, 'no program was given')
class WordsOfTheProgram(unittest.TestCase):
    def test_the_script_takes_the_words_that_the_program_takes(self):
        loader = importlib.machinery.SourceFileLoader('fibrun', str(top / 'fibrun'))
        fibrun = importlib.util.module_from_spec(importlib.util.spec_from_loader('fibrun', loader))
        loader.exec_module(fibrun)
        draw = random.Random(1)
        pieces = ['replay', 'check', 'show', 'gen', 'play', '', '-', '--', '---', '-n', '--help', '--seed', '--seeds',
                  '--workers', '--count', '--seed=1', '--workers=65', '--count=+00', '--seed=-0', '--seed=', '--=1', '=',
                  '0', '1', '+1', '-1', '-0', '++1', '1.0', '0x1', '1_0', ' 1', '64', '65', '1048576', '1048577',
                  '4294967295', '4294967296', '99999999999999999999', '\u0661', 'replay=']
        for _ in range(2000):
            words = [draw.choice(pieces) for _ in range(draw.randrange(1, 5))]
            if draw.random() < 0.5:
                words.insert(draw.randrange(len(words) + 1), draw.choice(['replay', 'check', 'show']))
            done = subprocess.run([os.environ['FIBRUN'], *words], stdin=subprocess.DEVNULL, stdout=subprocess.DEVNULL,
                                  stderr=subprocess.PIPE, text=True)
            self.assertEqual(fibrun.is_command_line(words), done.returncode != 2, words)
            if done.returncode == 2:
                self.assertEqual(done.stderr, fibrun.usage + '\n')


class Unproved(WithRepository):
    def test_it_runs_at_once_with_input_output_and_status_of_the_program(self):
        status, out, err = self.run_it('--unproved', 'replay', '--seed', '1', text='a\nb\n')
        self.assertEqual((status, out), (1, '3 a\nb\n'))
        self.assertEqual(err.splitlines()[1:], ['fibrun: line 1: bad address'])
        self.assertIn('not proved', err.splitlines()[0])
        self.assertEqual(self.moments(), {})

    def test_what_gives_no_answer_is_told(self):
        self.write('route_cli', 'refused\n')
        status, out, err = self.run_it('--unproved', 'replay')
        self.assertEqual((status, out), (70, ''))
        self.assertIn('src/main.rt:1:1: error', err)


if __name__ == '__main__':
    unittest.main()
