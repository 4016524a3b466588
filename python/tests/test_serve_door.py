"""Connections that ask nothing, and those for which there is no room: none of them locks out others."""
import json
import resource
import socket
import time
import unittest
from http.client import HTTPConnection
from unittest import mock

from serving import ServeCase
from support import as_soon_as

from misteluk import StoreError, connect
from misteluk.serve.door import REFUSED, AtDoor, Door, room_for
from misteluk.serve.limits import ServerLimits

TOKEN = "secret-token"
HALF, WHOLE = b"GET /v1/stat HTTP/1.1\r\nHost: local", b"GET /v1/stat HTTP/1.1\r\nHost: localhost\r\n%s\r\n"
RIGHT = WHOLE % f"Authorization: Bearer {TOKEN}\r\n".encode()
# What somebody sends who has no token: nothing, half a head, a post whose body doesn't come to its end, and what anybody may ask.
POST = b"POST /v1/rows HTTP/1.1\r\nHost: localhost\r\nContent-Type: text/csv\r\nContent-Length: 8000000\r\n\r\n"
PAGE = b"GET /live.js HTTP/1.1\r\nHost: localhost\r\n\r\n"
STRANGE = (b"", HALF, POST + b"add,k,a,b,1,1\n" * 1_000, PAGE)
MANY = 1_100


class Many(ServeCase):
    """A server as a process, of which somebody without a token has 1,100 connections."""

    def locked_out(self, sent, limit=None):
        soft, hard = resource.getrlimit(resource.RLIMIT_NOFILE)
        if hard < MANY + 300:
            self.skipTest(f"{hard} descriptors are too few here (ulimit -Hn)")
        resource.setrlimit(resource.RLIMIT_NOFILE, (max(soft, MANY + 300), hard))
        self.addCleanup(resource.setrlimit, resource.RLIMIT_NOFILE, (soft, hard))
        (self.room / "token").write_text(TOKEN)
        (self.room / "token").chmod(0o600)
        way = {} if limit is None else {"preexec_fn": lambda: resource.setrlimit(resource.RLIMIT_NOFILE, (limit, limit))}
        server = self.command("--listen", "127.0.0.1:0", "--token-file", str(self.room / "token"), **way)
        port = int(server.stdout.readline().partition(" serves")[0].rpartition(":")[2])
        links, seconds = [], []
        self.addCleanup(lambda: [it.close() for it in links])
        for at in range(MANY):
            links.append(socket.create_connection(("127.0.0.1", port), timeout=60))
            links[-1].sendall(sent[at % len(sent)])
            if sent[at % len(sent)] == PAGE:
                links[-1].recv(1)
            if not at % 100:
                seconds.append(self.asked(port))
        seconds += [self.asked(port) for _ in range(10)]
        self.assertLess(sorted(seconds)[-3], 1.0, seconds)  # (a busy machine may be late twice)
        self.assertIsNone(server.poll())

    def asked(self, port):
        begun, link = time.monotonic(), HTTPConnection("127.0.0.1", port, timeout=60)
        link.request("GET", "/v1/stat", headers={"Authorization": f"Bearer {TOKEN}"})
        told = link.getresponse()
        self.assertEqual((told.status, json.loads(told.read())["version"]), (200, 0))
        link.close()
        return time.monotonic() - begun

    def test_silent_connections(self):
        self.locked_out(STRANGE)

    def test_where_there_are_few_descriptors(self):
        """Then there are fewer connections, and the server goes on, also where each of them asks for what anybody may see."""
        self.locked_out([PAGE], 1_024)


class Doors(ServeCase):
    def setUp(self):
        super().setUp()
        self.links = []
        self.addCleanup(lambda: [it.close() for it in self.links])

    def link(self, data=b""):
        self.links.append(socket.create_connection(("127.0.0.1", self.server.address.port), timeout=60))
        self.links[-1].sendall(data)
        return self.links[-1]

    def told(self, link, data=b""):
        """The status of what is answered next, and its body; 0 where the connection ends without a word."""
        link.sendall(data)
        found = b""
        while b"\r\n\r\n" not in found:
            more = self.received(link)
            if not more:
                return 0, b""
            found += more
        head, _, body = found.partition(b"\r\n\r\n")
        size = next(int(it.partition(b":")[2]) for it in head.split(b"\r\n") if it.lower().startswith(b"content-length"))
        while len(body) < size:
            body += self.received(link)
        return int(head.split()[1]), body

    @staticmethod
    def received(link):
        try:
            return link.recv(1 << 16)
        except ConnectionResetError:
            return b""

    def begin(self, first=60.0, token=TOKEN, **limits):
        self.serve(token=token, limits=ServerLimits(**limits))
        self.server.door.first = first

    def test_how_many_connections_there_may_be(self):
        """Those that are wanted, but for what the process may open, of which 256 are for files and pipes."""
        for most, room in ((resource.RLIM_INFINITY, 100), (10_000, 100), (356, 100), (355, 99), (272, 16), (100, 16)):
            with mock.patch.object(resource, "getrlimit", return_value=(most, most)):
                self.assertEqual(room_for(100), room, most)

    def test_time_for_a_first_head(self):
        """Neither silence, nor half a head, nor one that comes sign by sign, nor one that isn't let in, keeps a connection."""
        self.begin(first=0.5)
        for data in (b"", HALF, WHOLE % b"", WHOLE % b"Authorization: Bearer wrong-token\r\n" + HALF):
            link, begun = self.link(data), time.monotonic()
            if data.startswith(WHOLE[:-8]):
                self.assertEqual(self.told(link)[0], 401)
            self.assertEqual((self.received(link), time.monotonic() - begun > 0.4), (b"", True), data)
        link, begun = self.link(), time.monotonic()
        with self.assertRaises(OSError):
            for it in RIGHT * 100:
                link.sendall(bytes([it]))
                time.sleep(0.05)
        self.assertLess(time.monotonic() - begun, 30)

    def test_time_for_a_later_head(self):
        """One that was let in may be silent; half a head is no silence, however it comes."""
        self.begin(first=0.5)
        silent, half, drip = self.link(), self.link(), self.link()
        for it in (silent, half, drip):
            self.assertEqual(self.told(it, RIGHT)[0], 200)
        half.sendall(HALF)
        self.assertEqual(self.received(half), b"")
        with self.assertRaises(OSError):
            for it in RIGHT * 100:
                drip.sendall(b"G" if it == RIGHT[0] else bytes([it]) if it != 13 else b"x")
                time.sleep(0.05)
        self.assertEqual(self.told(silent, RIGHT)[0], 200)

    def test_where_there_is_no_room(self):
        """Those who were let in stay, and who comes is told when to come again."""
        self.begin()
        self.server.door.most = 3
        inside = [self.link() for _ in range(3)]
        for it in inside:
            self.assertEqual(self.told(it, RIGHT)[0], 200)
        status, body = self.told(self.link(), RIGHT)
        self.assertEqual((status, json.loads(body)["error"], json.loads(body)["retry_after"]), (503, "Full", 1))
        self.assertRaisesRegex(StoreError, "no room for one more connection; ask again in 1 s", connect, self.server.url,
                               token=TOKEN)
        for it in inside:
            self.assertEqual(self.told(it, RIGHT)[0], 200)
        inside[0].close()
        as_soon_as(lambda: len(self.server.door._there) == 2)
        self.assertEqual(self.told(self.link(), RIGHT)[0], 200)

    def test_a_stranger_makes_room(self):
        """The oldest one of those that nobody let in; it is told why."""
        self.begin()
        self.server.door.most = 3
        inside, first, second = self.link(), self.link(), self.link(HALF)
        self.assertEqual(self.told(inside, RIGHT)[0], 200)
        as_soon_as(lambda: len(self.server.door._strangers) == 2)
        third = self.link()
        self.assertEqual((self.told(third, RIGHT)[0], json.loads(self.told(first)[1])["error"]), (200, "Full"))
        self.assertEqual(self.told(self.link(), RIGHT)[0], 200)
        self.assertEqual(json.loads(self.told(second)[1])["error"], "Full")
        self.assertEqual((self.told(third, RIGHT)[0], self.told(inside, RIGHT)[0]), (200, 200))

    def test_a_peer_s_strangers(self):
        """One address has so many at most; by a Unix socket there is no address."""
        self.begin()
        self.server.door.strangers = 5
        links = [self.link() for _ in range(20)]
        self.assertEqual([self.told(it)[0] for it in links[:15]], [503] * 15)
        self.assertEqual([self.told(it, RIGHT)[0] for it in links[15:]], [200] * 5)
        self.server.stop()
        server = self.serve(f"unix:{self.room / 'socket'}")
        server.door.strangers = 5
        for _ in range(20):
            self.links.append(socket.socket(socket.AF_UNIX, socket.SOCK_STREAM))
            self.links[-1].connect(str(self.room / "socket"))
        as_soon_as(lambda: len(server.door._strangers) == 20)

    def test_nothing_is_left(self):
        self.begin()
        for data in (b"", HALF, RIGHT, WHOLE % b""):
            self.link(data)
        as_soon_as(lambda: len(self.server.door._there) == 4)
        for it in self.links:
            it.close()
        door = self.server.door
        as_soon_as(lambda: not door._there)
        self.assertEqual((door._there, door._strangers, +door._of_peer), ({}, {}, {}))


class Loop:
    """A loop whose timers a test looks at: when each is due, what it calls, and whether it was cancelled."""

    def __init__(self):
        self.now, self.timers = 0.0, []

    def time(self):
        return self.now

    def call_later(self, seconds, call, *given):
        self.timers.append(mock.Mock(due=self.now + seconds, call=lambda: call(*given)))
        return self.timers[-1]


class BySteps(unittest.TestCase):
    """The same without a server."""

    def setUp(self):
        self.loop, self.door = Loop(), Door(3)

    def transport(self, peer="10.0.0.1"):
        found = mock.Mock()
        found.get_extra_info.return_value = (peer, 7) if peer else ""
        return found

    def enter(self, *peers):
        found = [self.transport(it) for it in peers]
        self.assertEqual([self.door.enter(it, self.loop) for it in found], [True] * len(found))
        return found

    def told(self, transport):
        """What was written, and whether the connection was closed, or ended at once."""
        written = b"".join(it.args[0] for it in transport.write.call_args_list)
        return written == REFUSED, transport.close.call_count, transport.abort.call_count

    def test_the_oldest_stranger_makes_room(self):
        self.assertEqual((self.door.first, self.door.strangers, self.door.count, self.door.refused), (10.0, 256, 0, 0))
        first, second, third = self.enter("a", "b", "c")
        self.door.let_in(first)
        fourth, = self.enter("a")
        self.assertEqual([self.told(it) for it in (first, second, third, fourth)],
                         [(False, 0, 0), (True, 1, 0), (False, 0, 0), (False, 0, 0)])
        self.assertEqual((self.door.count, self.door.refused), (3, 1))
        for it in (third, fourth):
            self.door.let_in(it)
        self.assertFalse(self.door.enter(self.transport(), self.loop))
        self.assertEqual((self.door.count, self.door.refused), (3, 2))
        for it in (first, second, third, fourth):
            self.door.leave(it)
        self.assertEqual((self.door.count, self.door._strangers, dict(self.door._of_peer)), (0, {}, {}))
        self.assertEqual([it.cancel.call_count for it in self.loop.timers], [1] * 4)

    def test_strangers_of_a_peer(self):
        self.door.most, self.door.strangers = 9, 2
        first, second, other = self.enter("a", "a", "b")
        third, = self.enter("a")
        self.assertEqual([self.told(it)[0] for it in (first, second, other, third)], [True, False, False, False])
        self.door.let_in(second)
        self.door.let_in(second)
        fourth, = self.enter("a")
        self.assertEqual(([self.told(it)[0] for it in (second, third, fourth)], self.door.refused), ([False] * 3, 1))
        local = self.enter(None, None, None)
        self.assertEqual([self.told(it)[0] for it in local], [False] * 3)

    def test_one_that_is_late(self):
        it, = self.enter("a")
        self.assertEqual([timer.due for timer in self.loop.timers], [10.0])
        self.loop.timers[0].call()
        self.assertEqual((self.told(it), self.door.count, self.door.refused), ((False, 0, 1), 0, 0))

    def protocol(self, **state):
        """uvicorn's protocol by this door, and what it is told."""
        class Protocol:
            loop, cycle = self.loop, None

            def connection_made(self, transport):
                self.transport, self.heard = transport, []

            def connection_lost(self, fault):
                self.heard.append(fault)

            def data_received(self, data):
                self.heard.append(data)
        return type("Both", (AtDoor, Protocol), {"door": self.door, **state})()

    def test_a_connection_without_room(self):
        self.door.most = 0
        protocol, it = self.protocol(), self.transport()
        protocol.connection_made(it)
        protocol.data_received(RIGHT)
        self.assertEqual((self.told(it), it.write_eof.call_count, protocol.heard), ((True, 0, 0), 1, []))
        self.assertEqual([timer.due for timer in self.loop.timers], [1.0])
        self.loop.timers[0].call()
        self.assertEqual(self.told(it), (True, 0, 1))

    def test_time_for_a_head(self):
        """From its first byte on, also where it comes in parts; none for a request that is being answered."""
        protocol, it = self.protocol(), self.transport()
        protocol.connection_made(it)
        self.loop.timers.clear()
        for now in (100.0, 104.0, 111.0):
            self.loop.now, protocol.timeout_keep_alive_task = now, None
            protocol.data_received(b"x")
        self.assertEqual([timer.due for timer in self.loop.timers], [110.0, 110.0, 111.0])
        self.loop.timers[0].call()
        self.assertEqual((self.told(it), protocol.heard), ((False, 0, 1), [b"x"] * 3))
        for cycle, is_timed in ((mock.Mock(response_complete=False), False), (mock.Mock(response_complete=True), True),
                                (None, True)):
            protocol.cycle, protocol.timeout_keep_alive_task, self.loop.now = cycle, None, 200.0
            self.loop.timers.clear()
            protocol.data_received(b"x")
            self.assertEqual([timer.due for timer in self.loop.timers], [210.0] * is_timed)
        protocol.timeout_keep_alive_task = "a timer"
        protocol.data_received(b"x")
        self.assertEqual((len(self.loop.timers), protocol.begun), (1, 0.0))
        protocol.connection_lost(None)
        self.assertEqual((self.door.count, protocol.heard[-1]), (0, None))


if __name__ == "__main__":
    unittest.main()
