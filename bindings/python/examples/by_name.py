"""Sends a message and takes it, by the shared object alone: neither header nor compiler is needed. So any language can that opens a shared
object by name, as dlopen does.

    python3 by_name.py [libscq.so.3]

The calls and what a caller has to uphold stand in scq(3).
"""

import ctypes
import sys

VERSION = 3
OK = 0
MAX_LIMIT = 1 << 60
ORDER, SIZE = 6, 64


class Memory(ctypes.Structure):
    """Where the bytes of the buffers lie: those of a number begin at base + number * stride."""

    _fields_ = [("base", ctypes.c_void_p), ("stride", ctypes.c_size_t), ("len", ctypes.c_size_t), ("block", ctypes.c_void_p)]


class Port(ctypes.Structure):
    """What a thread makes its calls with; null where it is closed. An open one is never copied."""

    _fields_ = [("at", ctypes.c_void_p), ("memory", Memory)]


class Held(ctypes.Structure):
    """A buffer that a port holds."""

    _fields_ = [("at", ctypes.c_void_p), ("len", ctypes.c_size_t), ("place", ctypes.c_uint64), ("index", ctypes.c_uint32)]


class Counts(ctypes.Structure):
    """What a port did."""

    _fields_ = [("sent", ctypes.c_uint64), ("taken", ctypes.c_uint64), ("full", ctypes.c_uint64)]


CALLS = {
    "scq_open_over": [ctypes.c_uint32] * 3 + [ctypes.c_uint64, ctypes.POINTER(Memory), ctypes.POINTER(Port), ctypes.c_size_t],
    "scq_lend_index": [ctypes.POINTER(Port), ctypes.POINTER(Held)],
    "scq_take_index": [ctypes.POINTER(Port), ctypes.c_uint32, ctypes.POINTER(Held)],
    "scq_send": [ctypes.POINTER(Port), ctypes.c_uint32, ctypes.c_uint32, ctypes.POINTER(ctypes.c_uint64)],
    "scq_give_back": [ctypes.POINTER(Port), ctypes.c_uint32],
    "scq_end": [ctypes.POINTER(Port), ctypes.POINTER(ctypes.c_uint32), ctypes.POINTER(Counts), ctypes.c_size_t],
}


def opened(name):
    """The shared object, with the type of each call. Its version is asked first: another one may have other calls."""
    library = ctypes.CDLL(name)
    library.scq_version.restype = ctypes.c_uint32
    if library.scq_version() != VERSION:
        sys.exit(f"{name} is of version {library.scq_version()}, and this program of {VERSION}")
    for call, arguments in CALLS.items():
        function = getattr(library, call)
        function.argtypes = arguments
        function.restype = ctypes.c_uint32
    return library


def done(answer):
    """Ends the program where a call was refused."""
    if answer != OK:
        sys.exit(f"answer {answer}")


def main():
    scq = opened(sys.argv[1] if len(sys.argv) > 1 else f"libscq.so.{VERSION}")
    ports, held, place, last = (Port * 2)(), Held(), ctypes.c_uint64(), ctypes.c_uint32()
    block = ctypes.create_string_buffer(SIZE << ORDER)
    memory = Memory(ctypes.addressof(block), SIZE, SIZE, None)
    done(scq.scq_open_over(ORDER, 1, 1, MAX_LIMIT, ctypes.byref(memory), ports, len(ports)))
    sender, taker = ctypes.byref(ports[0]), ctypes.byref(ports[1])
    done(scq.scq_lend_index(sender, ctypes.byref(held)))
    ctypes.memmove(memory.base + held.index * SIZE, b"hello from Python\0", 18)
    done(scq.scq_send(sender, held.index, 0, ctypes.byref(place)))
    done(scq.scq_take_index(taker, 0, ctypes.byref(held)))
    print(ctypes.string_at(memory.base + held.index * SIZE).decode())
    done(scq.scq_give_back(taker, held.index))
    counts = (Counts * 2)()
    done(scq.scq_end(sender, ctypes.byref(last), counts, len(counts)))
    done(scq.scq_end(taker, ctypes.byref(last), counts, len(counts)))
    print(f"{counts[0].sent} sent, {counts[1].taken} taken")


if __name__ == "__main__":
    main()
