"""The library for C, called from Python: each function takes texts as bytes, and gives a status and a text.

The library is ./libfuturebus.so, or the one that FUTUREBUS_LIBRARY names."""

import ctypes
import os


class Answer(ctypes.Structure):
    _fields_ = [("status", ctypes.c_uint64), ("count", ctypes.c_uint64)]


library = ctypes.CDLL(os.environ.get("FUTUREBUS_LIBRARY", "./libfuturebus.so"))


def call(name, *given, room=1 << 16):
    """The status and the text of a function on texts and numbers. A buffer that is too short is made anew."""
    words, kinds = [], []
    for one in given:
        is_text = isinstance(one, bytes)
        words += [one, len(one)] if is_text else [one]
        kinds += [ctypes.c_char_p, ctypes.c_size_t] if is_text else [ctypes.c_uint64]
    function = getattr(library, name)
    function.restype = None
    function.argtypes = [*kinds, ctypes.c_char_p, ctypes.c_size_t, ctypes.POINTER(Answer)]
    while True:
        buffer, answer = ctypes.create_string_buffer(room), Answer()
        function(*words, buffer, room, ctypes.byref(answer))
        if answer.status != 5:
            return answer.status, buffer.raw[: answer.count]
        room = answer.count


def check(text):
    return call("fb_check", text)


def show(setup):
    return call("fb_show", setup)


def narrow(table):
    return call("fb_narrow", table)


def run(setup, schedule):
    """The run by a schedule, which is a text, or by that of a number."""
    return call("fb_run" if isinstance(schedule, bytes) else "fb_run_seeded", setup, schedule)


def replay(setup, trace):
    return call("fb_replay", setup, trace)


def traffic(setup, schedule):
    """The traffic of a run by a schedule, which is a text, or by that of a number."""
    return call("fb_traffic" if isinstance(schedule, bytes) else "fb_traffic_seeded", setup, schedule)


def make(seed):
    return call("fb_make", seed, room=1 << 22)


def tally(seed):
    return call("fb_tally", seed)
