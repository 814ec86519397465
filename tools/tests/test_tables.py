"""from_ip_route and from_netstat: what listings become, and which of their lines are told."""
import os
import pathlib
import subprocess
import unittest

tools = pathlib.Path(__file__).resolve().parent.parent


def run(tool, text, *words):
    """The status of a tool, the lines of its script, and what it told without its name."""
    done = subprocess.run([tools / tool, *words], input=text, stdout=subprocess.PIPE, stderr=subprocess.PIPE, text=True)
    told = [line.partition(': ')[2] for line in done.stderr.splitlines()]
    return done.returncode, done.stdout.splitlines(), told


usual_inet = '''\
default via 192.0.2.254 dev eth0 proto dhcp src 192.0.2.7 metric 100
10.0.0.0/8 via 192.0.2.1 dev eth0 mtu 1400
blackhole 10.1.0.0/16
unreachable 10.2.0.0/16
prohibit 10.3.0.0/16
10.4.5.6 dev wg0 scope link
192.0.2.0/24 dev eth0 proto kernel scope link src 192.0.2.7 metric 100
198.51.100.0/24 proto static metric 20
\tnexthop via 192.0.2.1 dev eth0 weight 1
\tnexthop via 192.0.2.2 dev wg0 weight 3 onlink
\tnexthop dev wg0 weight 256
203.0.113.0/24 nhid 12 via 192.0.2.1 dev eth0 proto bgp mtu lock 1280 linkdown
'''
usual_inet6 = '''\
::1 dev lo proto kernel metric 256 pref medium
2001:db8::/32 via 2001:db8:0:1::1 dev eth0 metric 1024 pref medium
2001:db8:1::/48 metric 1024 pref medium
\tnexthop via fe80::1 dev eth0 weight 1
\tnexthop via fe80::2 dev wg0 weight 2
blackhole 2001:db8:2::/48 dev lo metric 1024 pref medium
unreachable 2001:db8:3::/48 dev lo metric 1024 error -113 pref medium
default via fe80::1 dev eth0 proto ra metric 1024 expires 1799sec hoplimit 64 pref high
'''
usual_inet_script = '''\
add -inet 0.0.0.0/0 192.0.2.254 -if 1
add -inet 10.0.0.0/8 192.0.2.1 -if 1 -mtu 1400
add -inet 10.1.0.0/16 -blackhole
add -inet 10.2.0.0/16 -reject
add -inet 10.3.0.0/16 -reject
add -inet 10.4.5.6/32 -if 2
add -inet 192.0.2.0/24 -if 1
add -inet 198.51.100.0/24 192.0.2.1 -if 1
add -inet 198.51.100.0/24 192.0.2.2 -if 2 -weight 3
add -inet 198.51.100.0/24 -if 2 -weight 256
add -inet 203.0.113.0/24 192.0.2.1 -if 1 -mtu 1280
'''
usual_inet6_script = '''\
add -inet6 ::1/128 -if 3
add -inet6 2001:db8::/32 2001:db8:0:1::1 -if 1
add -inet6 2001:db8:1::/48 fe80::1 -if 1
add -inet6 2001:db8:1::/48 fe80::2 -if 2 -weight 2
add -inet6 2001:db8:2::/48 -blackhole
add -inet6 2001:db8:3::/48 -reject
add -inet6 ::/0 fe80::1 -if 1
'''
names = '# interface 1: eth0\n# interface 2: wg0\n# interface 3: lo\n'
netstat = '''\
Routing tables

Internet:
Destination        Gateway            Flags   Nhop#    Mtu      Netif Expire
default            192.0.2.254        UGS         5   1500       em0
127.0.0.1          link#2             UH          2  16384       lo0
192.0.2.0/24       link#1             U           1   1500       em0
192.0.2.7          link#2             UHS         3  16384       lo0
10.0.0.0/8         192.0.2.1          UG1         9   1500       em0   86000
10.0.0.0/8         192.0.2.2          UG1        10   1500       em1
10.1.0.0/16        127.0.0.1          UGSB        6  16384       lo0
10.2.0.0/16        127.0.0.1          UGSR        7  16384       lo0

Internet6:
Destination                       Gateway                       Flags   Nhop#    Mtu    Netif Expire
::/96                             link#2                        URS         6  16384      lo0
default                           fe80::1%em0                   UGS         8   1500      em0
2001:db8::/64                     link#1                        U           9              em0
2001:db8::7                       link#2                        UHS         4  16384      lo0
'''
netstat_script = '''\
# interface 1: em0
# interface 2: lo0
# interface 3: em1
add -inet 0.0.0.0/0 192.0.2.254 -if 1 -mtu 1500
add -inet 127.0.0.1/32 -if 2 -mtu 16384
add -inet 192.0.2.0/24 -if 1 -mtu 1500
add -inet 192.0.2.7/32 -if 2 -mtu 16384
add -inet 10.0.0.0/8 192.0.2.1 -if 1 -mtu 1500
add -inet 10.0.0.0/8 192.0.2.2 -if 3 -mtu 1500
add -inet 10.1.0.0/16 -blackhole
add -inet 10.2.0.0/16 -reject
add -inet6 ::/96 -reject
add -inet6 ::/0 fe80::1 -if 1 -mtu 1500
add -inet6 2001:db8::/64 -if 1
add -inet6 2001:db8::7/128 -if 2 -mtu 16384
'''


class FromIpRoute(unittest.TestCase):
    def test_usual_tables(self):
        found = run('from_ip_route', usual_inet + usual_inet6)
        self.assertEqual(found, (0, (names + usual_inet_script + usual_inet6_script).splitlines(), []))

    def test_lines_of_ip_with_oneline(self):
        text = usual_inet.replace('\n\t', '\\\t') + usual_inet6.replace('\n\t', '\\\t')
        found = run('from_ip_route', text, '--strict')
        self.assertEqual(found, (0, (names + usual_inet_script + usual_inet6_script).splitlines(), []))

    def test_lines_that_have_no_place(self):
        for line, told in [
            ('local 192.0.2.7 dev eth0 table local proto kernel scope host', 'it is of type local'),
            ('throw 10.3.0.0/16', 'it is of type throw'),
            ('10.4.0.0/16 via inet6 fe80::1 dev eth0', 'its gateway is of the other family'),
            ('10.9.0.0/16 tos 0x10 via 192.0.2.77 dev eth0', 'it is for one type of service alone'),
            ('10.9.0.0/16 via 192.0.2.77 dev eth0 table 100', 'it is of the table 100'),
            ('10.9.0.0/16 via 192.0.2.77 dev eth0 dead linkdown', 'its nexthop is dead'),
            ('10.9.0.0/16 nhid 7 proto static', 'it has no gateway and no interface'),
            ('10.9.0.0/16 encap ip id 0 dst 192.0.2.2 dev tun0', 'it puts packets into others'),
            ('2001:db8:9::/48 from 2001:db8::/32 dev eth0 metric 1024 pref medium', 'it is for some sources alone'),
            ('10.9.0.0/16 via', 'behind via stands nothing'),
            ('10.9.0.0/16 via here dev eth0', 'here is no gateway'),
            ('10.9.0.0/16 dev eth0 shiny', 'the word shiny is not known'),
            ('10.9.0.0/16 dev eth0 mtu 4294967296', 'the MTU 4294967296 is too large'),
            ('10.9.0.0/33 dev eth0', '10.9.0.0/33 is no destination'),
            ('10.9.0.0/255.255.0.0 dev eth0', '10.9.0.0/255.255.0.0 is no destination'),
            ('blackhole', 'it has no destination'),
            ('    cache expires 7sec', 'it is no route'),
            ('\tnexthop via 192.0.2.1 dev eth0 weight 1', 'it is no route'),
        ]:
            text = f'\n{line}\n' if line[0].isspace() else f'\n{line}\n10.0.0.0/8 dev eth0\n'
            script = [] if line[0].isspace() else ['# interface 1: eth0', 'add -inet 10.0.0.0/8 -if 1']
            self.assertEqual(run('from_ip_route', text), (0, script, [f'line 2: {told}']), line)
            self.assertEqual(run('from_ip_route', text, '--strict'), (1, [], [f'line 2: {told}']), line)

    def test_the_smallest_metric_is_taken(self):
        text = '''\
default via 192.0.2.1 dev eth0 metric 200
default via 192.0.2.2 dev eth1 metric 100
default via 192.0.2.3 dev eth0 metric 100
default via fe80::1 dev eth0 metric 512 pref medium
default via fe80::2 dev eth1 metric 512 pref medium
default dev eth0 metric 512 pref medium
'''
        self.assertEqual(run('from_ip_route', text), (0, [
            '# interface 1: eth1', '# interface 2: eth0', 'add -inet 0.0.0.0/0 192.0.2.2 -if 1',
            'add -inet6 ::/0 fe80::1 -if 2', 'add -inet6 ::/0 fe80::2 -if 1',
        ], ['line 1: the route of line 2 is taken before it', 'line 3: the route of line 2 is taken before it',
            'line 6: the route of line 4 is taken before it']))

    def test_paths_that_have_no_place_leave_the_others(self):
        text = '10.0.0.0/8 proto static\n\tnexthop via inet6 fe80::1 dev eth0 weight 1\n' \
               '\tnexthop via 192.0.2.1 dev eth0 weight 2\n\tnexthop via 192.0.2.1 dev eth0 weight 3\n'
        self.assertEqual(run('from_ip_route', text), (0, [
            '# interface 1: eth0', 'add -inet 10.0.0.0/8 192.0.2.1 -if 1 -weight 5',
        ], ['line 2: its gateway is of the other family']))

    def test_more_paths_than_a_route_may_have(self):
        text = '10.0.0.0/8\n' + ''.join(f'\tnexthop via 192.0.2.{k} dev eth0 weight 1\n' for k in range(66))
        status, script, told = run('from_ip_route', text)
        self.assertEqual((status, len(script), told),
                         (0, 65, ['line 66: its route has 64 other paths', 'line 67: its route has 64 other paths']))

    def test_the_family_of_a_route_that_shows_none(self):
        self.assertEqual(run('from_ip_route', 'default dev tun0 scope link\n')[1][1], 'add -inet 0.0.0.0/0 -if 1')
        self.assertEqual(run('from_ip_route', 'blackhole default\n', '-6')[1], ['add -inet6 ::/0 -blackhole'])
        self.assertEqual(run('from_ip_route', '2001:db8::/32 dev tun0\n', '-4')[2], ['line 1: 2001:db8::/32 is no destination'])

    def test_addresses_are_written_in_the_canonical_way(self):
        for text, canonical in [
            ('2001:DB8:0:0:1:0:0:1', '2001:db8::1:0:0:1'), ('2001:db8:0:1:1:1:1:1', '2001:db8:0:1:1:1:1:1'),
            ('0:0:0:0:0:0:0:0', '::'), ('::ffff:192.0.2.1', '::ffff:c000:201'), ('1:0:0:2::', '1:0:0:2::'),
            ('1::2:0:0:3:4', '1::2:0:0:3:4'), ('fe80:0:0:0:0:0:0:0', 'fe80::'),
        ]:
            self.assertEqual(run('from_ip_route', f'blackhole {text} pref medium\n')[1], [f'add -inet6 {canonical}/128 -blackhole'])

    def test_words_and_files_that_it_does_not_take(self):
        for words in (['--stric'], ['-4', '-6'], ['one', 'two'], ['/no/such/file']):
            self.assertEqual(run('from_ip_route', '', *words)[:2], (2, []), words)


class FromNetstat(unittest.TestCase):
    def test_a_usual_table(self):
        self.assertEqual(run('from_netstat', netstat, '--strict'), (0, netstat_script.splitlines(), []))

    def test_a_table_without_the_columns_of_w(self):
        text = 'Routing tables\n\nInternet:\nDestination        Gateway            Flags     Netif Expire\n' \
               'default            192.0.2.254        UGS         em0\n192.0.2.0/24       link#1             U           em0\n'
        self.assertEqual(run('from_netstat', text)[1:], (
            ['# interface 1: em0', 'add -inet 0.0.0.0/0 192.0.2.254 -if 1', 'add -inet 192.0.2.0/24 -if 1'], []))

    def test_lines_that_have_no_place(self):
        for line, told in [
            ('Internet6:\nfe80::%lo0/64 link#2 U 3 16384 lo0', 'its destination has a zone'),
            ('Internet:\n10.0.0.0/8 192.0.2.1 GS 3 1500 em0', 'it is not up'),
            ('Internet:\n192.0.2.255 link#1 UHb 3 1500 em0', 'it is a broadcast address'),
            ('Internet:\n10 192.0.2.1 UG 3 1500 em0', '10 has no length'),
            ('Internet:\n10.0.0.0&0xff00ff00 192.0.2.1 UGH 3 1500 em0', '10.0.0.0&0xff00ff00 is no destination'),
            ('Internet:\n10.0.0.0/8 link#1 UG 3 1500 em0', 'link#1 is no gateway'),
            ('Internet:\n10.0.0.0/8 link#1 U 3 1500', 'it has no gateway and no interface'),
            ('Internet:\n10.0.0.0/8 link#1 U 3 1500 4 em0', 'it has other columns than netstat -rnW prints'),
            ('Internet:\n10.0.0.0/8 link#1', 'it is no route'),
            ('Netgraph:\n', 'it is of neither family'),
        ]:
            number = 1 if line.startswith('Netgraph') else 2
            self.assertEqual(run('from_netstat', line + '\n'), (0, [], [f'line {number}: {told}']), line)
            self.assertEqual(run('from_netstat', line + '\n', '--strict')[0], 1, line)

    def test_lines_of_one_destination_that_exclude_one_another(self):
        text = 'Internet:\n10.0.0.0/8 192.0.2.1 UG 3 1500 em0\n10.0.0.0/8 127.0.0.1 UGB 3 1500 lo0\n'
        self.assertEqual(run('from_netstat', text)[1:], (
            ['# interface 1: em0', 'add -inet 10.0.0.0/8 192.0.2.1 -if 1 -mtu 1500'],
            ['line 3: the route of line 2 is taken before it']))

    def test_a_further_table_is_left_out(self):
        text = netstat + netstat.replace('Routing tables', 'Routing tables (fib: 1)')
        status, script, told = run('from_netstat', text)
        self.assertEqual((status, script), (0, netstat_script.splitlines()))
        self.assertEqual((len(told), told[0]), (12, 'line 24: it is of a further table'))


@unittest.skipUnless('FIBRUN' in os.environ, 'no program was given')
class Replayed(unittest.TestCase):
    def fibrun(self, mode, text):
        done = subprocess.run([os.environ['FIBRUN'], mode], input=text, stdout=subprocess.PIPE, text=True, check=True)
        return done.stdout

    def test_scripts_stand_in_their_canonical_spelling(self):
        for script in (usual_inet_script + usual_inet6_script, netstat_script):
            commands = ''.join(line for line in script.splitlines(True) if not line.startswith('#'))
            self.assertEqual(self.fibrun('show', script), commands)

    def test_no_command_of_a_script_is_refused(self):
        for script in (usual_inet_script + usual_inet6_script, netstat_script):
            replies = self.fibrun('replay', script)
            self.assertNotIn('refused', replies)


if __name__ == '__main__':
    unittest.main()
