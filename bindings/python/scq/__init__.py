"""A bounded first-in-first-out queue of objects between threads, with the calls of queue.Queue, over the proved queue scq, in C.

    queue = scq.Queue(64)
    queue.put(item)             # waits for room; with block, timeout as of queue.Queue, and queue.Full
    item = queue.get()          # waits for an item; queue.Empty
    queue.shutdown()            # as from Python 3.13 on; scq.ShutDown
    await queue.aput(item)      # from tasks of asyncio, also beside threads
    item = await queue.aget()

An item stands in C's queue once put returns, and the order is that queue's. A thread that waits sleeps by a bell (scq_bell.h), without the interpreter's
lock. All else is done with that lock held, so that the calls of one queue follow one another: so qsize, full and empty are right when they answer.
A build of Python without that lock takes it from this module's import on; where PYTHON_GIL=0 forbids that, the import is refused. A queue is of one
interpreter and one process: after a fork the child's calls answer RuntimeError.
"""

import asyncio
import os
import sys
from queue import Empty, Full

from . import _scq
from ._scq import ShutDown

if not getattr(sys, "_is_gil_enabled", lambda: True)():
    raise ImportError("scq takes the interpreter's lock, which PYTHON_GIL or -X gil has switched off")

__all__ = ["Empty", "Full", "MAX_SIZE", "Queue", "ShutDown"]

MAX_SIZE = _scq.MAX_SIZE


class Queue(_scq.Queue):
    """A queue with room for maxsize items, from 1 to MAX_SIZE."""

    __slots__ = ("__weakref__",)

    async def aput(self, item):
        """Puts an item, and waits for room without holding up the loop."""
        return await self._asked(_scq.ROOM, Full, self.put_nowait, item)

    async def aget(self):
        """Gets the item that has stood in the queue longest, and waits for one without holding up the loop."""
        return await self._asked(_scq.ITEMS, Empty, self.get_nowait)

    async def _asked(self, line, refused, call, *words):
        try:
            return call(*words)
        except refused:
            pass
        loop = asyncio.get_running_loop()
        fd = self._watch()
        try:
            while True:
                # Who rings behind this writes to the eventfd.
                self._arm(fd, line)
                try:
                    return call(*words)
                except refused:
                    pass
                rung = loop.create_future()
                loop.add_reader(fd, _ring, rung)
                try:
                    await rung
                finally:
                    loop.remove_reader(fd)
                os.read(fd, 8)
        finally:
            self._unwatch(fd)


def _ring(rung):
    if not rung.done():
        rung.set_result(None)
