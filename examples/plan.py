#!/usr/bin/env python3
"""plan.py - the library from Python, by ctypes: looks for a shortest plan of a small task, breadth first, and lists it.

    plan.py TASK [PLAN]        the plan's bytes go to PLAN where that is named

Which steps there are, where they lead and whether the goal is met is the library's to say: nothing of a task is read here.
The shared library is looked for as every program's is (LD_LIBRARY_PATH, or ldconfig's folders)."""
import ctypes
import struct
import sys
from collections import deque

library = ctypes.CDLL('libruphenqo.so.1')
OK, NO_SPACE, NOT_APPLICABLE, GOAL_NOT_MET = 0, 8, 12, 13
Values, Modes = ctypes.c_int64 * 8, ctypes.c_uint16 * 4
MOST_STATES = 100000


class Refused(Exception):
    pass


def ask(name, *words):
    """A call's number and place. Bytes go with their length, and a number as 64 bits."""
    place = ctypes.c_uint64()
    passed = []
    for word in words:
        passed += [word, ctypes.c_size_t(len(word))] if isinstance(word, bytes) else [ctypes.c_uint64(word)] if isinstance(word, int) else [word]
    return getattr(library, 'ruphenqo_' + name)(*passed, ctypes.byref(place)), place.value


def text_of(number):
    out, length, place = ctypes.create_string_buffer(80), ctypes.c_uint64(), ctypes.c_uint64()
    library.ruphenqo_refusal_text(ctypes.c_uint32(number), out, ctypes.c_size_t(len(out)), ctypes.byref(length), ctypes.byref(place))
    return out.raw[:length.value].decode()


def taken(name, *words, but=()):
    """The number of a call that may answer 0 or one of `but`."""
    number, place = ask(name, *words)
    if number != OK and number not in but:
        raise Refused(f'{text_of(number)} ({number} at {place})')
    return number


def first_state(task):
    values, modes, lower, upper, sizes = Values(), Modes(), Values(), Values(), Modes()
    taken('source_start', task, values, modes, lower, upper, sizes)
    return tuple(values), tuple(modes)


def after(task, state, action):
    """The state that a step leads to, or None where the action does not apply."""
    values, modes = Values(*state[0]), Modes(*state[1])
    number = taken('step_source', task, values, modes, action, but=[NOT_APPLICABLE])
    return None if number else (tuple(values), tuple(modes))


def bytes_of(steps):
    return struct.pack(f'<{len(steps)}H', *steps)


def reaches_goal(task, steps):
    return taken('judge_source', task, bytes_of(steps), ctypes.byref(ctypes.c_uint64()), Values(), Modes(), but=[GOAL_NOT_MET]) == OK


def search(task):
    """A shortest plan, or None where there is none among the states looked at."""
    counts = (ctypes.c_uint64 * 3)()
    taken('read_source', task, counts)
    state = first_state(task)
    seen, waiting = {state}, deque([(state, ())])
    while waiting and len(seen) < MOST_STATES:
        state, steps = waiting.popleft()
        if reaches_goal(task, steps):
            return steps
        for action in range(counts[2]):
            there = after(task, state, action)
            if there and there not in seen:
                seen.add(there)
                waiting.append((there, (*steps, action)))
    return None


def listing(task, plan):
    """Asked twice: with no room, for the bytes that it needs, and then with as many."""
    out, length = ctypes.create_string_buffer(0), ctypes.c_uint64()
    while True:
        number, place = ask('list', task, plan, out, len(out), ctypes.byref(length))
        if number != NO_SPACE:
            return out.raw[:length.value].decode()
        out = ctypes.create_string_buffer(place)


def main():
    if len(sys.argv) not in (2, 3):
        sys.exit(__doc__)
    with open(sys.argv[1], 'rb') as file:
        task = file.read()
    try:
        steps = search(task)
    except Refused as why:
        sys.exit(f'task refused: {why}')
    if steps is None:
        sys.exit('no plan found')
    if len(sys.argv) == 3:
        with open(sys.argv[2], 'wb') as file:
            file.write(bytes_of(steps))
    print(listing(task, bytes_of(steps)), end='')


main()
