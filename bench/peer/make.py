"""Model files from a short description, in the format of docs/MODEL-FILE.md. The shipped models have their texts."""
import struct

SET, ADD, COPY, ADD_VARIABLE, SUB_VARIABLE, NOTIFY = 1, 2, 3, 4, 5, 6
PORT, UNUSED = 128, 255


def end(*statements):
    return (0, 0, 0, 0, 0, 0, 0, statements)


def wait(delay, a, *statements, b=None, test=255, limit=0):
    return (1, 0, delay, a, a if b is None else b, test, limit, statements)


def hear(event, a, *statements):
    return (2, event, 0, a, a, 255, 0, statements)


def notify(event):
    return (NOTIFY, event, 0)


def model(horizon, variables, events, segments, threads):
    """A thread is its first segment, or that and the variables of its ports from port 0 on."""
    out = struct.pack("<HHIBB", 10, 1, horizon, variables, events)
    for *closer, statements in segments:
        out += struct.pack("<HHBBIBBBI", 17 + 6 * len(statements), 2, *closer)
        for statement in statements:
            out += struct.pack("<BBI", *statement)
    for thread in threads:
        first, *ports = thread if isinstance(thread, tuple) else (thread,)
        out += struct.pack("<HHB", 5, 3, first)
        if ports:
            out += struct.pack("<HH8B", 12, 5, *ports, *[UNUSED] * (8 - len(ports)))
    return out + struct.pack("<HH", 4, 4)
