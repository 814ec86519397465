"""What the tools beside this one share: routes that were read from a listing, and the script that adds them."""
import argparse
import ipaddress
import sys

most_paths = 64
most_interfaces = 65_535
most_weight = 16_777_215
most_mtu = 4_294_967_295


class NotTurned(Exception):
    """Why a line of a listing has no place in a script."""


class Listing:
    """The routes of a listing in their order, and the lines that can't be turned, with the reasons."""

    def __init__(self):
        self.routes = []
        self.refused = []

    def refuse(self, number, reason):
        self.refused.append((number, str(reason)))


class Route:
    """A route: its family, its destination, and its paths or what becomes of its packets.

    `drop` is None, 'blackhole' or 'reject'. A path is the line that it stands in, its gateway and
    interface, None where there is none, its MTU, 0 where it isn't given, and its weight.
    """

    def __init__(self, number, destination, drop=None):
        self.number = number
        self.destination = destination
        self.drop = drop
        self.paths = []

    def key(self):
        return self.destination.version, self.destination

    def add_path(self, number, gateway, interface, mtu=0, weight=1):
        if gateway is None and interface is None:
            raise NotTurned('it has no gateway and no interface')
        if mtu > most_mtu:
            raise NotTurned(f'the MTU {mtu} is too large')
        self.paths.append((number, gateway, interface, mtu, weight))


def read_destination(text, inet6):
    """The prefix that a text names: default, an address for a host, or an address with a length."""
    kind = ipaddress.IPv6Network if inet6 else ipaddress.IPv4Network
    address, slash, length = text.partition('/')
    if '%' in text:
        raise NotTurned('its destination has a zone')
    if slash and not (length.isascii() and length.isdigit()):
        raise NotTurned(f'{text} is no destination')
    try:
        return kind(0).supernet(new_prefix=0) if text == 'default' else kind(text, strict=False)
    except ValueError:
        raise NotTurned(f'{text} is no destination') from None


def read_gateway(text, inet6):
    try:
        return (ipaddress.IPv6Address if inet6 else ipaddress.IPv4Address)(text)
    except ValueError:
        raise NotTurned(f'{text} is no gateway') from None


def read_number(text, name):
    if not (text.isascii() and text.isdigit()):
        raise NotTurned(f'{text} is no {name}')
    return int(text)


def address_text(address):
    """The canonical text of an address: of IPv6 as RFC 5952, section 4, has it, with no dotted tail."""
    if address.version == 4:
        return str(address)
    groups = [int(address) >> shift & 0xffff for shift in range(112, -16, -16)]
    best, begin = 0, 0
    for at in range(8):
        length = next((n for n, group in enumerate(groups[at:]) if group), 8 - at)
        if length > max(best, 1):
            best, begin = length, at
    if not best:
        return ':'.join(f'{group:x}' for group in groups)
    head, tail = groups[:begin], groups[begin + best:]
    return ':'.join(f'{group:x}' for group in head) + '::' + ':'.join(f'{group:x}' for group in tail)


class Script:
    """The script of a listing: a table of the interfaces in comments, and a command for each path."""

    def __init__(self, listing):
        self.listing = listing
        self.interfaces = {}
        self.commands = []
        for route in listing.routes:
            self.add_route(route)

    def text(self):
        names = [f'# interface {number}: {name}' for name, number in self.interfaces.items()]
        return ''.join(line + '\n' for line in names + self.commands)

    def add_route(self, route):
        destination = f'{address_text(route.destination.network_address)}/{route.destination.prefixlen}'
        start = f'add {"-inet6" if route.destination.version == 6 else "-inet"} {destination}'
        if route.drop:
            self.commands.append(f'{start} -{route.drop}')
        for words in self.nexthops(route):
            self.commands.append(f'{start} {words}')

    def nexthops(self, route):
        """The words of each nexthop of a route. Paths that lead to the same one are one path."""
        weights = {}
        for number, gateway, interface, mtu, weight in route.paths:
            try:
                words = self.nexthop(gateway, interface, mtu)
                if words not in weights and len(weights) == most_paths:
                    raise NotTurned(f'its route has {most_paths} other paths')
                weights[words] = min(weights.get(words, 0) + weight, most_weight)
            except NotTurned as reason:
                self.listing.refuse(number, reason)
        return [words + (f' -weight {weight}' if weight > 1 else '') for words, weight in weights.items()]

    def nexthop(self, gateway, interface, mtu):
        words = [] if gateway is None else [address_text(gateway)]
        if interface is not None:
            words.append(f'-if {self.interface(interface)}')
        if mtu:
            words.append(f'-mtu {mtu}')
        return ' '.join(words)

    def interface(self, name):
        if name not in self.interfaces and len(self.interfaces) == most_interfaces:
            raise NotTurned(f'there are {most_interfaces} other interfaces')
        return self.interfaces.setdefault(name, len(self.interfaces) + 1)


def run(tool, description, add_options, read):
    """The command of a tool: reads a listing, and writes its script and what has no place in it."""
    parser = argparse.ArgumentParser(prog=tool, description=description, allow_abbrev=False)
    parser.add_argument('--strict', action='store_true',
                        help='where a line has no place in the script, write no script and end with status 1')
    add_options(parser)
    parser.add_argument('file', nargs='?', help='the listing; standard input where it is left out')
    options = parser.parse_args()
    try:
        with open(options.file or 0, 'rb') as source:
            lines = source.read().decode(errors='replace').splitlines()
    except OSError as error:
        parser.exit(2, f'{tool}: {options.file}: {error.strerror}\n')
    listing = read(lines, options)
    text = Script(listing).text()
    for number, reason in sorted(listing.refused):
        print(f'{tool}: line {number}: {reason}', file=sys.stderr)
    if options.strict and listing.refused:
        sys.exit(1)
    sys.stdout.write(text)
