"""The Map: a dict of the server's entries."""

import threading
import unittest
from collections.abc import MutableMapping
from typing import Any, List

from bpfmap import BYTES, INT, JSON, ORDERED_INT, TEXT, Client, Codec, Map, Pool

from .server import HOST, MapdTest

_NUMBERS = (0, 1, -1, 255, -256, (1 << 63) - 1, -(1 << 63))


class CodecTest(unittest.TestCase):
    """Codecs, without a server."""

    def _goes_round(self, codec: "Codec[Any]", values: "List[Any]") -> None:
        for value in values:
            with self.subTest(codec.name, value=value):
                self.assertEqual(codec.decode(codec.encode(value)), value)

    def test_round(self) -> None:
        self._goes_round(BYTES, [b"", b"\xff\0"])
        self._goes_round(TEXT, ["", "\u00e4\U0001f600"])
        self._goes_round(INT, list(_NUMBERS))
        self._goes_round(ORDERED_INT, list(_NUMBERS))
        self._goes_round(JSON, [None, 1.5, "x", [1, {"a": None}], True])

    def test_order(self) -> None:
        self.assertEqual(sorted(_NUMBERS, key=ORDERED_INT.encode), sorted(_NUMBERS))

    def test_equal_values_have_equal_bytes(self) -> None:
        self.assertEqual(JSON.encode({"a": 1, "b": 2}), JSON.encode({"b": 2, "a": 1}))

    def test_other_types(self) -> None:
        for codec, value in ((TEXT, b"x"), (BYTES, "x"), (INT, "1"), (INT, True), (INT, 1.5), (TEXT, None)):
            self.assertRaisesRegex(TypeError, "choose another codec, or convert it", codec.encode, value)
        self.assertRaises(OverflowError, INT.encode, 1 << 63)


class MapTest(MapdTest):
    """A Map over a Client."""

    def setUp(self) -> None:
        super().setUp()
        self.client = Client(HOST, self.port)
        self.addCleanup(self.client.close)
        self.map: "Map[str, Any]" = Map(self.client, TEXT, JSON)

    def test_dict(self) -> None:
        """What a dict does, with entries that a dict would have."""
        self.assertIsInstance(self.map, MutableMapping)
        own: "dict[str, Any]" = {}
        for each in (self.map, own):
            each["b"] = [1, 2]
            each["a"] = None
            each.update({"c": 1}, d="x")
            each.update([("e", 2.5)])
            del each["c"]
        self.assertEqual(dict(self.map), own)
        self.assertEqual((len(self.map), bool(self.map), self.map == own), (4, True, True))
        self.assertEqual((list(self.map), list(self.map.keys())), (sorted(own), sorted(own)))
        self.assertEqual(list(self.map.items()), sorted(own.items()))
        self.assertEqual(list(self.map.values()), [own[key] for key in sorted(own)])
        self.assertTrue("a" in self.map and "c" not in self.map and 2.5 in self.map.values() and ("e", 2.5) in self.map.items())
        self.map.clear()
        self.assertEqual((dict(self.map), len(self.map)), ({}, 0))

    def test_missing_keys(self) -> None:
        for call in (lambda: self.map["a"], lambda: self.map.pop("a"), lambda: self.map.__delitem__("a"), self.map.popitem):
            self.assertRaises(KeyError, call)
        self.assertEqual((self.map.get("a"), self.map.get("a", 7), self.map.pop("a", 8)), (None, 7, 8))

    def test_null_is_a_value(self) -> None:
        self.map["a"] = None
        self.assertEqual((self.map.get("a", 7), "a" in self.map, self.map.pop("a", 7)), (None, True, None))
        self.assertNotIn("a", self.map)

    def test_atomic_calls(self) -> None:
        self.assertEqual((self.map.setdefault("a", 1), self.map.setdefault("a", 2)), (1, 1))
        self.assertEqual((self.map.replace("a", 3), self.map.replace("b", 3)), (1, None))
        self.assertEqual((self.map.replace_if("a", 1, 4), self.map.replace_if("a", 3, 4)), (False, True))
        self.assertEqual((self.map.remove_if("a", 3), self.map.remove_if("a", 4)), (False, True))
        self.assertEqual(len(self.map), 0)

    def test_popitem(self) -> None:
        self.map.update({"b": 1, "a": 2})
        self.assertEqual([self.map.popitem(), self.map.popitem()], [("a", 2), ("b", 1)])

    def test_increment(self) -> None:
        hits = Map(self.client, TEXT, INT)
        self.assertEqual([hits.increment("a"), hits.increment("a", 41), hits.increment("a", -43)], [1, 42, -1])
        self.assertEqual(hits["a"], -1)
        self.assertRaisesRegex(TypeError, "make a Map with value=INT", self.map.increment, "a")

    def test_keys_in_order(self) -> None:
        numbers = Map(self.client, ORDERED_INT, BYTES)
        numbers.update((number, b"") for number in _NUMBERS)
        self.assertEqual(list(numbers), sorted(_NUMBERS))

    def test_calls_amid_a_walk(self) -> None:
        """A loop may change what it goes through: it sees the entries as they were at its beginning."""
        self.map.update((str(number), number) for number in range(60))
        for key, value in self.map.items():
            self.map[key] = value + 1
            self.map.pop(str(59 - value))
        self.assertEqual(len(self.map), 30)

    def test_loop_that_is_left(self) -> None:
        """More loops are left than the server has workers."""
        self.map.update((str(number), number) for number in range(60))
        for _ in range(20):
            for key in self.map:
                self.assertEqual((key, self.map[key]), ("0", 0))
                break

    def test_repr(self) -> None:
        self.assertEqual(repr(self.map), "Map(key=<codec text>, value=<codec json>)")

    def test_threads_over_a_pool(self) -> None:
        with Pool(HOST, self.port, size=3) as pool:
            hits = Map(pool, TEXT, INT)
            seen: List[int] = []
            threads = [threading.Thread(target=lambda: seen.extend(hits.increment("a") for _ in range(50))) for _ in range(6)]
            for thread in threads:
                thread.start()
            for thread in threads:
                thread.join()
            self.assertEqual((sorted(seen), dict(hits)), (list(range(1, 301)), {"a": 300}))
