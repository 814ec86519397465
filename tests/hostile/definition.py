#!/usr/bin/env python3
"""Answers a script by its definition: a line is the list of its words, and each answer scans a whole table.

usage: tests/hostile/definition.py replay|check|show [--workers N] < SCRIPT

It writes what the program must write, on standard output and error, and ends with the program's status. It shares
nothing with the program: a table is a map that is copied at each change, and an answer looks at every row. By workers
the versions of the answers are free within bounds, so it answers as on one thread; `by_workers` tells whether an output
is one that they may give.
"""
import re
import sys
from collections import Counter
from functools import reduce
from math import gcd
from typing import NamedTuple

INPUT_MAX, LINES_MAX, LINE_MAX = 67_108_864, 1_048_576, 255
ROWS_MAX, PATHS_MAX, LIVE_MAX = 262_144, 64, 4_095
BLANKS = b' \t\r'
MODULES = ('scan', 'range', 'radix', 'dxr')
WIDTHS = {'inet': 32, 'inet6': 128}

# The options of each command, those that take a number with its range, and how many bare words there must and may be.
ROUTE = {'-inet': None, '-inet6': None, '-net': None, '-host': None}
TARGET = {'-if': (1, 65_535), '-mtu': (1, 4_294_967_295), '-weight': (1, 16_777_215), '-blackhole': None, '-reject': None}
EITHER = {'-inet': None, '-inet6': None}
COMMANDS = {
    'add': ({**ROUTE, **TARGET}, 1, 2),
    'change': ({**ROUTE, **TARGET}, 1, 2),
    'delete': (ROUTE, 1, 2),
    'get': ({**EITHER, 'flow': (0, 4_294_967_295)}, 1, 1),
    'flush': (EITHER, 0, 0),
    'tick': ({}, 1, 1),
    'sync': ({}, 0, 0),
    'algo': (EITHER, 1, 1),
}
OTHER = {'-inet': '-inet6', '-inet6': '-inet', '-net': '-host', '-host': '-net', '-blackhole': '-reject',
         '-reject': '-blackhole'}


class Fault(Exception):
    """The first faulty line of a script, and its reason."""

    def __init__(self, reason, line=0):
        super().__init__(reason)
        self.reason, self.line = reason, line


# Numbers and addresses.


def number_in(word, least, most):
    """The number that a word is, if it is one of the range."""
    if re.fullmatch('0|[1-9][0-9]*', word) is None or len(word) > 12 or not least <= int(word) <= most:
        return None
    return int(word)


def read_inet(word):
    """The four numbers between dots, as one."""
    parts = [number_in(part, 0, 255) for part in word.split('.')]
    if len(parts) != 4 or None in parts:
        return None
    return int.from_bytes(bytes(parts), 'big')


def groups_of(word, may_be_dotted):
    """The groups of 16 bits between colons; the last two may be an IPv4 address."""
    if not word:
        return []
    groups, parts = [], word.split(':')
    for place, part in enumerate(parts):
        if may_be_dotted and place == len(parts) - 1 and '.' in part:
            tail = read_inet(part)
            if tail is None:
                return None
            groups += [tail >> 16, tail & 0xffff]
        elif re.fullmatch('[0-9a-fA-F]{1,4}', part):
            groups.append(int(part, 16))
        else:
            return None
    return groups


def read_inet6(word):
    """Eight groups, or fewer about a double colon."""
    head, colons, tail = word.partition('::')
    front, back = groups_of(head, not colons), groups_of(tail, True)
    if front is None or back is None:
        return None
    if colons:
        missing = 8 - len(front) - len(back)
        if missing < 1:
            return None
        front += [0] * missing
    groups = front + back
    if len(groups) != 8:
        return None
    return sum(group << 16 * (7 - place) for place, group in enumerate(groups))


def read_address(word, family):
    return read_inet(word) if family == 'inet' else read_inet6(word)


def longest_zeros(groups):
    """Where the first of the longest runs of two zero groups or more begins and ends."""
    best = (0, 0)
    for begin in range(8):
        end = begin
        while end < 8 and groups[end] == 0:
            end += 1
        if end - begin >= 2 and end - begin > best[1] - best[0]:
            best = (begin, end)
    return best


def address_text(address, family):
    if family == 'inet':
        return '.'.join(str(byte) for byte in address.to_bytes(4, 'big'))
    groups = [address >> 16 * (7 - place) & 0xffff for place in range(8)]
    begin, end = longest_zeros(groups)
    texts = [f'{group:x}' for group in groups]
    if begin == end:
        return ':'.join(texts)
    return ':'.join(texts[:begin]) + '::' + ':'.join(texts[end:])


# Scripts.


class Hop(NamedTuple):
    """A nexthop. The kinds are numbered by their order: via, direct, blackhole, reject."""
    kind: int
    gateway: int = 0
    iface: int = 0
    mtu: int = 0


class Command(NamedTuple):
    """A command. What it names is None where the command has no such thing; a prefix is an address and a length."""
    name: str
    line: int
    families: tuple
    prefix: tuple = None
    hop: Hop = None
    weight: int = 1
    gateway: int = None
    address: int = None
    number: int = 0
    module: str = None


def lines_of(text):
    lines = text.split(b'\n')
    return lines[:-1] if lines[-1] == b'' else lines


def words_of(line, number):
    """The words of a line behind `route`, `-n` and `-q`; None where it is blank or a comment."""
    if number > LINES_MAX:
        raise Fault('too many lines')
    if len(line) > LINE_MAX:
        raise Fault('line too long')
    begin = line.lstrip(BLANKS)
    if begin == b'' or begin.startswith(b'#'):
        return None
    if any(byte not in BLANKS and not 0x21 <= byte <= 0x7e for byte in line):
        raise Fault('bad byte')
    words = re.sub(r'[ \t\r]+', ' ', line.decode('ascii')).strip(' ').split(' ')
    if words[0] == 'route':
        words = words[1:]
        while words and words[0] in ('-n', '-q'):
            words = words[1:]
    if not words:
        raise Fault('missing word')
    return words


def walk(words):
    """The bare words behind the command word, and the options with their values."""
    options, _, most = COMMANDS[words[0]]
    bare, given, place = [], {}, 1
    while place < len(words):
        word = words[place]
        place += 1
        if not word.startswith('-') and not (words[0] == 'get' and word == 'flow'):
            if len(bare) == most:
                raise Fault('extra word')
            bare.append(word)
            continue
        if word not in options:
            raise Fault('unknown option')
        if word in given or OTHER.get(word) in given:
            raise Fault('repeated option')
        given[word] = True
        if options[word] is not None:
            if place == len(words):
                raise Fault('missing word')
            given[word] = number_in(words[place], *options[word])
            if given[word] is None:
                raise Fault('bad number')
            place += 1
    return bare, given


def read_prefix(word, given, family):
    """The prefix of a destination, with its host bits cleared."""
    width = WIDTHS[family]
    text, slash, length = word.partition('/')
    address = 0 if word == 'default' else read_address(text, family)
    bits = number_in(length, 0, width) if slash else 0 if word == 'default' else width
    if address is None or bits is None:
        raise Fault('bad address')
    is_bare = not slash and word != 'default'
    if '-net' in given and is_bare or '-host' in given and bits != width:
        raise Fault('bad length')
    return address >> (width - bits) << (width - bits), bits


def read_gateway(bare, family):
    if len(bare) < 2:
        return None
    gateway = read_address(bare[1], family)
    if gateway is None:
        raise Fault('bad address')
    return gateway


def read_target(gateway, given):
    """The nexthop and the weight of a path."""
    if '-blackhole' in given:
        return Hop(2), 1
    if '-reject' in given:
        return Hop(3), 1
    iface, mtu = given.get('-if', 0), given.get('-mtu', 0)
    if gateway is not None:
        return Hop(0, gateway, iface, mtu), given.get('-weight', 1)
    if iface == 0:
        raise Fault('no target')
    return Hop(1, 0, iface, mtu), given.get('-weight', 1)


def read_line(words, line):
    """The command of a line."""
    name = words[0]
    if name not in COMMANDS:
        raise Fault('unknown command')
    bare, given = walk(words)
    if len(bare) < COMMANDS[name][1]:
        raise Fault('missing word')
    family = 'inet6' if '-inet6' in given else 'inet'
    both = name in ('tick', 'sync') or name == 'flush' and '-inet' not in given and '-inet6' not in given
    families = ('inet', 'inet6') if both else (family,)
    command = Command(name, line, families)
    if name in ('add', 'change', 'delete'):
        prefix = read_prefix(bare[0], given, family)
        gateway = read_gateway(bare, family)
        command = command._replace(prefix=prefix, gateway=gateway)
        if name == 'delete':
            return command
        hop, weight = read_target(gateway, given)
        return command._replace(hop=hop, weight=weight)
    if name == 'get':
        address = read_address(bare[0], family)
        if address is None:
            raise Fault('bad address')
        return command._replace(address=address, number=given.get('flow', 0))
    if name == 'tick':
        number = number_in(bare[0], 0, 4_294_967_295)
        if number is None:
            raise Fault('bad number')
        return command._replace(number=number)
    if name == 'algo':
        if bare[0] not in ('auto', *MODULES) or (bare[0] == 'dxr' and family == 'inet6'):
            raise Fault('no such module')
        return command._replace(module=bare[0])
    return command


def read_script(text):
    """The commands of a script, or the fault of its first faulty line."""
    if len(text) > INPUT_MAX:
        raise Fault('input too large')
    commands = []
    for number, line in enumerate(lines_of(text), 1):
        try:
            words = words_of(line, number)
            if words is not None:
                commands.append(read_line(words, number))
        except Fault as fault:
            fault.line = number
            raise
    return commands


# Tables.


class Table:
    """The rows of one family: a map from a prefix to its paths, each a nexthop and a weight, in nexthop order."""

    def __init__(self):
        self.rows = {}
        # No more live targets than this, which is counted anew once it could be too many.
        self.most_live = 0

    def live(self, rows):
        """How many distinct nexthops there are, and distinct lists of two paths or more."""
        hops = {hop for paths in rows.values() for hop, _ in paths}
        return len(hops) + len({paths for paths in rows.values() if len(paths) > 1})

    def put(self, prefix, paths, reply):
        """Puts a row in, or in the place of another one, or takes it out where there are no paths."""
        rows = dict(self.rows)
        rows[prefix] = paths
        if not paths:
            del rows[prefix]
        if len(rows) > ROWS_MAX:
            return 'refused table full'
        self.most_live += 2
        if self.most_live > LIVE_MAX:
            self.most_live = self.live(rows)
            if self.most_live > LIVE_MAX:
                self.most_live = LIVE_MAX
                return 'refused targets full'
        self.rows = rows
        return reply

    def apply(self, command):
        """Does one command: the reply, and a number where that is of a flush."""
        return getattr(self, command.name)(command)

    def add(self, command):
        paths = self.rows.get(command.prefix)
        path = (command.hop, command.weight)
        if paths is None:
            return self.put(command.prefix, (path,), 'added')
        if any(hop == command.hop for hop, _ in paths) or any(hop.kind > 1 for hop, _ in (*paths, path)):
            return 'refused exists'
        if len(paths) == PATHS_MAX:
            return 'refused paths full'
        return self.put(command.prefix, tuple(sorted((*paths, path))), 'joined')

    def change(self, command):
        if command.prefix not in self.rows:
            return 'refused not found'
        return self.put(command.prefix, ((command.hop, command.weight),), 'changed')

    def delete(self, command):
        paths = self.rows.get(command.prefix, ())
        left = ()
        if command.gateway is not None:
            left = tuple(path for path in paths if path[0].kind != 0 or path[0].gateway != command.gateway)
        if left == paths:
            return 'refused not found'
        return self.put(command.prefix, left, 'deleted')

    def flush(self, _command):
        stays = {prefix: paths for prefix, paths in self.rows.items() if all(hop.kind != 0 for hop, _ in paths)}
        gone, self.rows = len(self.rows) - len(stays), stays
        return gone


def slots_of(paths):
    """The place of the path in each slot."""
    weights = [weight for _, weight in paths]
    left_of_sum = sum(weights)
    left = size = min(left_of_sum // reduce(gcd, weights), 64)
    slots = []
    for place, weight in enumerate(weights):
        share = weight * left // left_of_sum
        slots += [place] * share
        left, left_of_sum = left - share, left_of_sum - weight
    assert len(slots) == size
    return slots


def answer(rows, width, address, flow):
    """The nexthop of the longest row of all that contain the address, by the slot of the flow."""
    longest, found = -1, None
    for (first, length), paths in rows.items():
        if length > longest and address >> (width - length) == first >> (width - length):
            longest, found = length, paths
    if found is None:
        return None
    if len(found) == 1:
        return found[0][0]
    slots = slots_of(found)
    return found[slots[flow % len(slots)]][0]


def choose(current, setting, width, routes):
    """The module of a version with so many routes."""
    if setting != 'auto':
        return setting
    marks = {'scan': 50, 'range': max(1, 253 - routes // 4), 'radix': 200 if routes < 100_000 else 100,
             'dxr': 0 if width != 32 else 150 if routes < 1_000 else 240}
    best = max(marks.values())
    if best < marks[current] + 10:
        return current
    return next(name for name in MODULES if marks[name] == best)


# Runs.


class Run:
    """One family while its commands are done: its table, its versions, and the numbers that cut them."""

    def __init__(self, family):
        self.family, self.width = family, WIDTHS[family]
        self.table, self.versions = Table(), [({}, 'range')]
        self.setting = 'auto'
        self.moment = self.start = self.count = self.pending = 0
        # The last version that the last sync line had before it or made.
        self.synced = 0

    def version(self):
        return len(self.versions) - 1

    def chosen(self):
        return choose(self.versions[-1][1], self.setting, self.width, len(self.table.rows))

    def cut(self):
        """Makes a version of the table as it stands."""
        self.versions.append((self.table.rows, self.chosen()))
        self.pending = 0

    def do(self, command):
        """Does a command: the reply, None where it has none."""
        if command.name == 'tick':
            self.moment += command.number
            if self.pending and self.moment - self.start >= 50:
                self.cut()
            return None
        if command.name == 'sync':
            if self.pending:
                self.cut()
            self.synced = self.version()
            return None
        if command.name == 'algo':
            self.setting = command.module
            if self.pending or self.chosen() != self.versions[-1][1]:
                self.cut()
            return None
        reply = self.table.apply(command)
        if reply in ('added', 'joined', 'changed', 'deleted') or (isinstance(reply, int) and reply > 0):
            self.changed()
        return reply

    def changed(self):
        if self.moment - self.start >= 50:
            self.start, self.count = self.moment, 0
        self.count += 1
        self.pending += 1
        if self.count <= 25 or self.pending == 256:
            self.cut()

    def end(self):
        if self.pending:
            self.cut()


class Get(NamedTuple):
    """A get of the script: its command, the version it has on one thread, and the least that workers may give."""
    command: Command
    version: int
    least: int


def run_all(commands):
    """Does all commands: the families, and for each line its reply or its get."""
    runs = {family: Run(family) for family in WIDTHS}
    told = []
    for command in commands:
        if command.name == 'get':
            run = runs[command.families[0]]
            told.append(Get(command, run.version(), run.synced))
            continue
        replies = [runs[family].do(command) for family in command.families]
        reply = f'flushed {sum(replies)}' if command.name == 'flush' else replies[0]
        if reply is not None:
            told.append(f'{command.line} {reply}')
    for run in runs.values():
        run.end()
    return runs, told


def hop_text(hop, family):
    if hop is None:
        return 'none'
    if hop.kind == 0:
        return f'via {address_text(hop.gateway, family)} if {hop.iface} mtu {hop.mtu}'
    if hop.kind == 1:
        return f'direct if {hop.iface} mtu {hop.mtu}'
    return ('blackhole', 'reject')[hop.kind - 2]


def output(runs, told, versions):
    """The text of a replay whose gets have these versions."""
    lines, packets, versions = [], {family: Counter() for family in runs}, iter(versions)
    for it in told:
        if isinstance(it, str):
            lines.append(it)
            continue
        command, version, family = it.command, next(versions), it.command.families[0]
        run = runs[family]
        hop = answer(run.versions[version][0], run.width, command.address, command.number)
        if hop is not None:
            packets[family][hop] += 1
        lines.append(f'{command.line} {address_text(command.address, family)} version {version} {hop_text(hop, family)}')
    for family, counts in packets.items():
        lines += [f'packets {family} {counts[hop]} {hop_text(hop, family)}' for hop in sorted(counts)]
    for family, run in runs.items():
        rows, module = run.versions[-1]
        lines.append(f'fib {family} version {run.version()} routes {len(rows)} algo {module}')
    return ''.join(line + '\n' for line in lines)


def spelled(command):
    """The one spelling of a command."""
    family = command.families[0]
    if command.name == 'tick':
        return f'tick {command.number}'
    if command.name == 'sync' or len(command.families) == 2:
        return command.name
    words = [command.name, f'-{family}']
    if command.prefix is not None:
        words.append(f'{address_text(command.prefix[0], family)}/{command.prefix[1]}')
    if command.hop is not None:
        words += target_words(command.hop, command.weight, family)
    elif command.gateway is not None:
        words.append(address_text(command.gateway, family))
    if command.name == 'get':
        words.append(address_text(command.address, family))
        words += [f'flow {command.number}'] if command.number else []
    if command.name == 'algo':
        words.append(command.module)
    return ' '.join(words)


def target_words(hop, weight, family):
    if hop.kind > 1:
        return [('-blackhole', '-reject')[hop.kind - 2]]
    words = [address_text(hop.gateway, family)] if hop.kind == 0 else []
    words += [f'-if {hop.iface}'] if hop.iface else []
    words += [f'-mtu {hop.mtu}'] if hop.mtu else []
    return words + ([f'-weight {weight}'] if weight != 1 else [])


def result(mode, text):
    """The status, the output and the line of fault of a script in a mode: replay, check or show."""
    try:
        commands = read_script(text)
    except Fault as fault:
        return 1, b'', f'fibrun: line {fault.line}: {fault.reason}\n'.encode()
    if mode == 'check':
        told = f'ok {len(lines_of(text))} lines {len(commands)} commands\n'
    elif mode == 'show':
        told = ''.join(spelled(command) + '\n' for command in commands)
    else:
        runs, told = run_all(commands)
        told = output(runs, told, [it.version for it in told if isinstance(it, Get)])
    return 0, told.encode(), b''


def by_workers(text, workers, got):
    """Whether a replay of a script that isn't faulty may write these bytes by so many workers."""
    runs, told = run_all(read_script(text))
    gets = [it for it in told if isinstance(it, Get)]
    lines = {line.split()[0]: line.split() for line in got.decode().splitlines()[:len(told)]}
    versions, seen = [], {}
    for number, get in enumerate(gets):
        family = get.command.families[0]
        words = lines.get(str(get.command.line), [])
        if len(words) < 4 or not words[3].isdigit():
            return False
        version = int(words[3])
        least = max(get.least, seen.get((number % workers, family), 0))
        if not least <= version <= runs[family].version():
            return False
        seen[number % workers, family] = version
        versions.append(version)
    return output(runs, told, versions).encode() == got


def main():
    if sys.argv[1:2] not in (['replay'], ['check'], ['show']):
        sys.exit(__doc__)
    status, told, fault = result(sys.argv[1], sys.stdin.buffer.read())
    sys.stdout.buffer.write(told)
    sys.stderr.buffer.write(fault)
    sys.exit(status)


if __name__ == '__main__':
    main()
