"""Random commands with deadlines for redis.py, where both servers' clocks are held: right words, nearly right ones and wrong ones. The time
is always a multiple of STEP, and no deadline is one. So nothing is asked in the very millisecond of a deadline, in which Redis still has
the key and mapd doesn't."""
from __future__ import annotations

import random
from collections.abc import Callable

import redis_streams as streams
from redis_streams import Maker, Words
from redis_wire import Word

STEP = 7
# Redis' greatest number, and the greatest number of seconds that it takes.
MOST = 2**63 - 1
EDGES = [0, -1, -100, MOST, -MOST - 1, MOST // 1000, MOST // 1000 + 1, -(MOST // 1000), -(MOST // 1000) - 2, 2**62, 10**15]
# How long it is to a deadline, in milliseconds: some are over after a short wait, others after a long one.
NEAR, FAR = 20_000, 10**9
# The texts by which redis-py's Lock is released and gets more time.
RELEASE = """
        local token = redis.call('get', KEYS[1])
        if not token or token ~= ARGV[1] then
            return 0
        end
        redis.call('del', KEYS[1])
        return 1
    """
EXTEND = """
        local token = redis.call('get', KEYS[1])
        if not token or token ~= ARGV[1] then
            return 0
        end
        local expiration = redis.call('pttl', KEYS[1])
        if not expiration then
            expiration = 0
        end
        if expiration < 0 then
            return 0
        end

        local newttl = ARGV[2]
        if ARGV[3] == "0" then
            newttl = ARGV[2] + expiration
        end
        redis.call('pexpire', KEYS[1], newttl)
        return 1
    """
REACQUIRE = """
        local token = redis.call('get', KEYS[1])
        if not token or token ~= ARGV[1] then
            return 0
        end
        redis.call('pexpire', KEYS[1], ARGV[2])
        return 1
    """
EXTEND_NAME, REACQUIRE_NAME = "a4e8783852e6b949f9ef3a97212805108459a890", "1cac51482acf5858da00f6d685d68f886cd6b6b2"


def unlike(number: int) -> int:
    """This number, or the next one that is no multiple of STEP."""
    return number + (number % STEP == 0)


def span(dice: random.Random) -> int:
    """Some milliseconds, not a multiple of STEP."""
    return unlike(dice.randrange(1, NEAR if dice.random() < 0.7 else FAR))


def wait(dice: random.Random) -> int:
    """How long nothing is asked between two streams, in milliseconds."""
    return STEP * dice.choice((0, 0, 1, 10, 143, 715, 1430, 7150, 500_000))


def number_or(dice: random.Random, number: int) -> Word:
    """This number, now and then a number at the edge or a word that is none."""
    at = dice.random()
    return number if at < 0.85 else dice.choice(EDGES) if at < 0.93 else dice.choice(streams.NO_NUMBERS)


class Times:
    """Words that name times, by the clock that this function reads."""

    def __init__(self, now: Callable[[], int]) -> None:
        self.now = now

    def milliseconds(self, dice: random.Random) -> Word:
        """How long it is to a deadline, in milliseconds."""
        return number_or(dice, span(dice) if dice.random() < 0.95 else -span(dice))

    def seconds(self, dice: random.Random) -> Word:
        """How long it is to a deadline, in seconds."""
        return number_or(dice, unlike(span(dice) // 1000) if dice.random() < 0.95 else -unlike(span(dice) // 1000))

    def milliseconds_at(self, dice: random.Random) -> Word:
        """A deadline in milliseconds since the epoch, seldom one in the past."""
        return number_or(dice, unlike(self.now() + (span(dice) if dice.random() < 0.9 else -span(dice))))

    def seconds_at(self, dice: random.Random) -> Word:
        """A deadline in seconds since the epoch, seldom one in the past."""
        return number_or(dice, unlike((self.now() + (span(dice) if dice.random() < 0.9 else -span(dice))) // 1000))

    def option(self, dice: random.Random) -> list[Word]:
        """The words of SET that name a deadline."""
        name, make = dice.choice((("EX", self.seconds), ("PX", self.milliseconds), ("EXAT", self.seconds_at), ("PXAT", self.milliseconds_at)))
        return [dice.choice((name, name, name.lower(), name.title())), *([make(dice)] if dice.random() < 0.97 else [])]

    def right_option(self, dice: random.Random) -> list[Word]:
        """The words of GETEX that name a deadline. (If the time is wrong and there is no such key, Redis doesn't look at the time.)"""
        name, number = dice.choice((("EX", unlike(span(dice) // 1000)), ("PX", span(dice)), ("EXAT", unlike((self.now() + span(dice)) // 1000)),
                                    ("PXAT", unlike(self.now() + dice.choice((-1, 1, 1, 1)) * span(dice)))))
        return [dice.choice((name, name, name.lower())), number]

    def set_with_deadline(self, dice: random.Random) -> Words:
        """A SET with a deadline, and options that may not stand beside one."""
        options = [self.option(dice)]
        for chance, word in ((0.15, "NX"), (0.15, "xx"), (0.15, "GET"), (0.04, "KEEPTTL"), (0.02, "PERSIST"), (0.02, "FOO")):
            options += [[word]] if dice.random() < chance else []
        options += [self.option(dice)] if dice.random() < 0.05 else []
        dice.shuffle(options)
        return [*streams.with_value("SET")(dice), *(word for words in options for word in words)]

    def set_and_expire(self, dice: random.Random) -> Words:
        """A SETEX or PSETEX."""
        name, make = dice.choice((("SETEX", self.seconds), ("PSETEX", self.milliseconds)))
        taken = streams.key(dice)
        return [name, taken, make(dice), streams.value(dice, taken)]

    def get_and_expire(self, dice: random.Random) -> Words:
        """A GETEX."""
        at = dice.random()
        options = self.right_option(dice) if at < 0.5 else ["PERSIST"] if at < 0.65 else []
        options += dice.choice((["PERSIST"], ["KEEPTTL"], ["NX"], ["FOO"], [""], ["EX"], self.right_option(dice))) if dice.random() < 0.1 else []
        return ["GETEX", streams.key(dice), *options]

    def expire(self, dice: random.Random) -> Words:
        """An EXPIRE or its like, with rules that may not stand together."""
        name, make = dice.choice((("EXPIRE", self.seconds), ("PEXPIRE", self.milliseconds), ("EXPIREAT", self.seconds_at),
                                  ("PEXPIREAT", self.milliseconds_at)))
        count = dice.choice((0, 0, 1, 1, 1, 2, 3))
        rules = [dice.choice(("NX", "XX", "GT", "LT", "nx", "Xx", "gT", "lt")) for _ in range(count)]
        rules += [dice.choice(("FOO", "", "\r\n", "N", "a b", "x" * 100))] if dice.random() < 0.03 else []
        return [name, streams.key(dice), make(dice), *rules]

    def locked(self, dice: random.Random) -> Words:
        """A lock that is taken for some time."""
        return ["SET", streams.key(dice), dice.choice(("token", "other")), "NX", "PX", span(dice)]

    def extend(self, dice: random.Random) -> Words:
        """The script by which redis-py's Lock gets more time: so much more than it has, or so much from now on."""
        is_more = dice.random() < 0.5
        more = STEP * dice.randrange(1, NEAR // STEP) if is_more else span(dice)
        return ["EVALSHA", EXTEND_NAME, 1, streams.key(dice), dice.choice(("token", "other")), more, "0" if is_more else "1"]

    def reacquire(self, dice: random.Random) -> Words:
        """The script by which redis-py's Lock gets its time anew."""
        return ["EVALSHA", REACQUIRE_NAME, 1, streams.key(dice), dice.choice(("token", "other")), span(dice)]

    def commands(self) -> list[tuple[int, Maker]]:
        """How often, and which command."""
        return [(12, self.set_with_deadline), (6, self.set_and_expire), (8, self.get_and_expire), (20, self.expire),
                (4, streams.on_key("PERSIST")), (5, streams.on_key("TTL")), (5, streams.on_key("PTTL")), (5, streams.on_key("EXPIRETIME")),
                (5, streams.on_key("PEXPIRETIME")), (4, self.locked), (3, self.extend), (3, self.reacquire), (4, wrong_count)]


def wrong_count(dice: random.Random) -> Words:
    """A command with words too few or too many."""
    name, least, most = dice.choice((
        ("SETEX", 3, 3), ("PSETEX", 3, 3), ("GETEX", 1, 99), ("EXPIRE", 2, 99), ("PEXPIRE", 2, 99), ("EXPIREAT", 2, 99),
        ("PEXPIREAT", 2, 99), ("PERSIST", 1, 1), ("EXPIRETIME", 1, 1), ("PEXPIRETIME", 1, 1)))
    return streams.with_wrong_count(dice, name, least, most)
