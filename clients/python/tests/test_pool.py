"""The pool: bounded, shared by threads, and sound after what broke."""

import threading
import time
from typing import List

from bpfmap import ConnectionBroken, NoConnectionInTime, NotSent, Pool

from .server import HOST, Mapd, MapdTest
from .telling import answer_of
from .test_never_mixed import TellingTest, wait_for

_GET = 0x10


class PoolTest(TellingTest):
    """A pool, and a server that answers at once."""

    def _pool(self, size: int) -> Pool:
        pool = Pool(HOST, self.server.port, size=size, timeout=2)
        self.addCleanup(pool.close)
        return pool

    def test_size(self) -> None:
        """Calls one after the other use one connection, threads at most as many as the pool may have."""
        pool = self._pool(3)
        for _ in range(20):
            pool.get(b"a")
        self.assertEqual(self.server.connections, 1)
        errors: List[BaseException] = []

        def work() -> None:
            try:
                for number in range(50):
                    key = b"%d %d" % (threading.get_ident(), number)
                    self.assertEqual(pool.get(key), answer_of(_GET, key))
            except BaseException as error:  # pylint: disable=broad-except
                errors.append(error)

        threads = [threading.Thread(target=work) for _ in range(10)]
        for thread in threads:
            thread.start()
        for thread in threads:
            thread.join()
        self.assertEqual(errors, [])
        self.assertLessEqual(self.server.connections, 3)
        self.assertRaises(ValueError, Pool, HOST, self.server.port, size=0)

    def test_waiting(self) -> None:
        """A call waits for a connection that is given back, or says in time that there was none."""
        pool = Pool(HOST, self.server.port, size=1, timeout=1)
        self.addCleanup(pool.close)
        walk = pool.for_each(0, b"200000 x")
        next(walk)
        with self.assertRaisesRegex(NoConnectionInTime, "all 1 connections of the pool were in use"):
            pool.get(b"a")
        calls = pool.pipeline()
        call = calls.get(b"a")
        self.assertRaises(NotSent, calls.execute)
        self.assertIsInstance(call.error, NotSent)
        timer = threading.Timer(0.1, walk.close)
        timer.start()
        self.assertEqual(pool.get(b"b"), answer_of(_GET, b"b"))
        timer.join()
        self.assertEqual(self.server.keys, {b"b"})

    def test_close(self) -> None:
        """It ends the calls of other threads too, and those that wait."""
        pool = self._pool(1)
        walk = pool.for_each(0, b"200000 x")
        next(walk)
        caught: List[BaseException] = []

        def work() -> None:
            try:
                pool.get(b"a")
            except ConnectionBroken as error:
                caught.append(error)

        thread = threading.Thread(target=work)
        thread.start()
        time.sleep(0.1)
        pool.close()
        thread.join()
        self.assertIsInstance(caught[0], NotSent)
        self.assertRaises(ConnectionBroken, list, walk)
        self.assertRaisesRegex(NotSent, "the pool was closed", pool.get, b"a")
        wait_for(lambda: self.server.open_connections == 0)


class RestartTest(MapdTest):
    """A server that is begun anew while the pool's connections are idle."""

    def test_idle_connections_that_ended(self) -> None:
        """They are replaced before a call: it is made, and not lost."""
        with Pool(HOST, self.port, size=2) as pool:
            pool.put(b"a", b"x")
            self.mapd.kill()
            wait_for(lambda: not pool._idle[-1].is_quiet)
            self.assertRaises(NotSent, pool.get, b"a")
            self.mapd.stop()
            again = Mapd(self.port)
            self.addCleanup(again.stop)
            self.assertIsNone(pool.get(b"a"))
