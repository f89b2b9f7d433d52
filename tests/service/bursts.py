"""More clients than there are places (docs/clients.md): each of 64 waits for the others' answers; many come
at once and keep their connections; and more than there are places call every second. Nobody waits for an idle
one for longer than a few seconds."""
import threading
import time
import unittest

from lib.responses import responses
from lib.server import request, serving

PLACES = 64
LIST = request('ListStreams', b'{}')
ANSWER = [(200, b'{"HasMoreStreams":false,"StreamNames":[]}')]
# How many clients call every second, for how many seconds, and for how many seconds one of them may wait.
POLLING, SECONDS, PATIENCE = 70, 20, 15


def side_by_side(work, count):
    """Runs a call in threads, each with its number, and returns what they gave once all have ended."""
    found = [None] * count

    def run(number):
        found[number] = work(number)

    threads = [threading.Thread(target=run, args=(number,)) for number in range(count)]
    for thread in threads:
        thread.start()
    for thread in threads:
        thread.join()
    return found


def called(connection):
    """Whether a call on a connection got its answer. A server that closed the connection before
    it read the call sends nothing."""
    try:
        connection.sendall(LIST)
        return responses(connection, 1) == ANSWER
    except OSError:
        return False


class Poller:
    """A client that calls every second, and opens its connection anew where the server has closed
    it, as the pool of an SDK does."""

    def __init__(self, server):
        self.server, self.connection = server, None
        self.answers, self.longest = 0, 0.0

    def call(self):
        begin = time.monotonic()
        while self.connection is None or not called(self.connection):
            self.close()
            self.connection = self.server.connect()
        self.longest = max(self.longest, time.monotonic() - begin)
        self.answers += 1

    def close(self):
        if self.connection is not None:
            self.connection.close()

    def poll(self, until):
        while time.monotonic() < until:
            self.call()
            time.sleep(1)
        self.close()


class Bursts(unittest.TestCase):
    def test_each_waits_for_the_last(self):
        """64 connections are open before the first call, and the calls come in the opposite order: none waits for a
        place."""
        with serving(PLACES) as server:
            held = [server.connect() for _ in range(PLACES)]
            begin = time.monotonic()
            for connection in reversed(held):
                self.assertTrue(called(connection))
            self.assertLess(time.monotonic() - begin, 2)
            for connection in held:
                connection.close()

    def check_burst(self, count, limit):
        """All clients of a burst are answered within `limit` seconds, though each keeps its
        connection until the last one is."""
        with serving(PLACES) as server:
            begin = time.monotonic()

            def burst(_):
                connection = server.connect()
                return connection, called(connection), time.monotonic() - begin

            found = side_by_side(burst, count)
            for connection, _, _ in found:
                connection.close()
            self.assertEqual(sum(was for _, was, _ in found), count)
            self.assertLess(max(took for _, _, took in found), limit)

    def test_burst_of_100(self):
        self.check_burst(100, 4)

    def test_burst_of_200(self):
        self.check_burst(200, 8)

    def test_burst_of_300(self):
        self.check_burst(300, 12)

    def test_polling(self):
        """70 clients that call every second take turns: each is served again and again."""
        with serving(PLACES) as server:
            pollers = [Poller(server) for _ in range(POLLING)]
            until = time.monotonic() + SECONDS
            side_by_side(lambda number: pollers[number].poll(until), POLLING)
        self.assertLess(max(poller.longest for poller in pollers), PATIENCE)
        self.assertGreater(min(poller.answers for poller in pollers), 1)
