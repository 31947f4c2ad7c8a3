"""Seven models that do not end within 1,000,000 segments, to measure the plain run on: MODELS, by name the bytes of each file.

32 threads, but for pair; no two threads that run in one cycle conflict, so that the order within a cycle does not show.
"""
import pathlib
import random
import sys

sys.path.insert(0, str(pathlib.Path(__file__).resolve().parent))
from make import ADD, ADD_VARIABLE, COPY, SET, SUB_VARIABLE, end, hear, model, notify, wait

H, V, T = 1000000000, 64, 32
drawn = random.Random(7)


def three(k):
    """Three statements on the two variables of thread k."""
    return [(ADD, k, 1), (ADD_VARIABLE, 32 + k, k), (COPY, k, 32 + k)]


def own(segments, events=0):
    """Thread k starts at segment k."""
    return model(H, V, events, segments, list(range(T)))


def pair():
    """Model M without an end."""
    return model(H, 3, 1, [wait(10, 0, (ADD, 0, 1), notify(0), b=1, test=0, limit=2**32 - 1), end(), hear(0, 3),
                           hear(0, 3, (COPY, 1, 0), (ADD, 2, 1))], [0, 2])


def timed():
    """Each thread waits 1 to 37 units."""
    return own([wait(1 + k * 7 % 37, k, *three(k)) for k in range(T)])


def zero():
    """16 waits of 0 units, then one of 1."""
    return own([wait(0, k, (ADD, k, 1), (ADD_VARIABLE, 32 + k, k), b=32 + k, test=k, limit=16) for k in range(T)] + [wait(1, k, (SET, k, 0)) for k in range(T)])


def broadcast():
    """One thread notifies, all others wait for it."""
    return own([wait(1, 0, notify(0), *three(0))] + [hear(0, k, *three(k)) for k in range(1, T)], 1)


def chain():
    """Each thread wakes the next."""
    return own([wait(1, 0, notify(0), *three(0))] + [hear(k - 1, k, notify(k), *three(k)) for k in range(1, T)], 32)


def mixed():
    """Two segments for each thread: times, zero waits, and eight events."""
    segments = []
    for k in range(T):
        body = [notify(drawn.randrange(8)) for _ in range(drawn.randrange(2))] + three(k)[:drawn.randrange(1, 4)]
        segments.append(wait(drawn.randrange(1, 9), 2 * k + 1, *body) if k % 4 else wait(1 + k % 3, 2 * k + 1, notify(k // 4), *body))
        ways = [wait(0, 2 * k, *three(k)), hear(drawn.randrange(8), 2 * k, *three(k)), wait(drawn.randrange(1, 9), 2 * k, *three(k))]
        segments.append(ways[drawn.randrange(3)])
    return model(H, V, 8, segments, [2 * k for k in range(T)])


def heavy():
    """32 statements in each segment."""
    draw = lambda k: (drawn.choice([ADD, COPY, ADD_VARIABLE, SUB_VARIABLE]), drawn.randrange(2) * 32 + k, drawn.randrange(2) * 32 + k)
    return own([wait(1 + k * 7 % 37, k, *[draw(k) for _ in range(32)]) for k in range(T)])


MODELS = {make.__name__: make() for make in [pair, timed, zero, broadcast, chain, mixed, heavy]}
