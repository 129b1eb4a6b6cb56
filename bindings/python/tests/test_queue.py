"""The package's tests: python3 -X dev test_queue.py. COUNT of the environment is how many items threads send through each room. Where JUDGE names the
program scq, it judges what threads do, as recorders/recorder.py, on PYTHONPATH, records it.
"""

import asyncio
import gc
import logging
import os
import queue
import signal
import subprocess
import sys
import tempfile
import threading
import time
import unittest
import weakref

import scq

logging.getLogger("asyncio").setLevel(logging.ERROR)  # on a busy machine -X dev tells of each slow step
COUNT = int(os.environ.get("COUNT", "100000"))
JUDGE = os.environ.get("JUDGE")
if JUDGE:
    import recorder


class Thing:
    """Something that can be watched."""


def run(*works):
    """Runs these in threads, and hands on what they raised."""
    raised = []

    def guarded(work):
        try:
            work()
        except BaseException as error:  # noqa: B902
            raised.append(error)

    threads = [threading.Thread(target=guarded, args=(work,)) for work in works]
    for thread in threads:
        thread.start()
    for thread in threads:
        thread.join()
    if raised:
        raise raised[0]


def files():
    return len(os.listdir("/proc/self/fd"))


class AsQueue(unittest.TestCase):
    """What queue.Queue does too, of which the same is asked."""

    made = scq.Queue

    def test_calls(self):
        q = self.made(2)
        self.assertEqual((q.maxsize, q.qsize(), q.empty(), q.full()), (2, 0, True, False))
        q.put("one")
        q.put(item="two", block=True, timeout=1)
        self.assertEqual((q.qsize(), q.empty(), q.full()), (2, False, True))
        for refused in (
            lambda: q.put_nowait(3),
            lambda: q.put(3, False),
            lambda: q.put(3, block=False),
            lambda: q.put(3, timeout=0.01),
            lambda: q.put(3, True, 0),
        ):
            self.assertRaises(queue.Full, refused)
        self.assertEqual((q.get(), q.get(block=False)), ("one", "two"))
        for refused in (q.get_nowait, lambda: q.get(False), lambda: q.get(timeout=0.01), lambda: q.get(True, 0)):
            self.assertRaises(queue.Empty, refused)
        self.assertRaises(ValueError, q.get, True, -1)
        self.assertRaises(ValueError, q.put, 1, True, -0.5)
        for wrong in (lambda: q.put(), lambda: q.put(1, True, 1, 1), lambda: q.put(1, item=1), lambda: q.get(other=1)):
            self.assertRaises(TypeError, wrong)
        self.assertRaises(TypeError, q.get, True, "soon")
        self.made[int](1)

    def test_tasks(self):
        q = self.made(4)
        q.join()
        self.assertRaises(ValueError, q.task_done)
        for k in range(3):
            q.put(k)
        self.assertEqual(q.unfinished_tasks, 3)
        joined = []
        joins = [threading.Thread(target=lambda: (q.join(), joined.append(1))) for _ in range(3)]
        for thread in joins:
            thread.start()
        for _ in range(3):
            q.get()
            self.assertEqual(joined, [])
            q.task_done()
        for thread in joins:
            thread.join()
        self.assertEqual(joined, [1, 1, 1])
        self.assertRaises(ValueError, q.task_done)

    def each(self, room, putters, getters, count):
        q = self.made(room)
        got = [[] for _ in range(getters)]

        def put(first):
            for k in range(first, count, putters):
                q.put(k)

        def get(to):
            for k in iter(q.get, None):
                to.append(k)

        def ended():
            run(*(lambda first=first: put(first) for first in range(putters)))
            for _ in range(getters):
                q.put(None)

        run(ended, *(lambda to=to: get(to) for to in got))
        self.assertEqual(sorted(k for to in got for k in to), list(range(count)))
        for to in got:
            for first in range(putters):
                mine = [k for k in to if k % putters == first]
                self.assertEqual(mine, sorted(mine))

    def test_each_once(self):
        for room, putters, getters in ((64, 4, 4), (1, 2, 3), (3, 3, 2)):
            with self.subTest(room=room):
                self.each(room, putters, getters, COUNT)

    def test_interrupted(self):
        def handler(number, frame):
            raise KeyboardInterrupt

        before = signal.signal(signal.SIGALRM, handler)
        try:
            q = self.made(1)
            signal.setitimer(signal.ITIMER_REAL, 0.05)
            self.assertRaises(KeyboardInterrupt, q.get)
            q.put(1)
            signal.setitimer(signal.ITIMER_REAL, 0.05)
            self.assertRaises(KeyboardInterrupt, q.put, 2)
            self.assertEqual(q.get(), 1)
        finally:
            signal.signal(signal.SIGALRM, before)


class AsStandard(AsQueue):
    """The tests hold of queue.Queue itself."""

    made = queue.Queue

    def test_each_once(self):
        self.each(64, 4, 4, COUNT // 100)

    def test_interrupted(self):
        """Not asked: where a handler raises while its Python code runs, its lock may stay taken."""


class OfPackage(unittest.TestCase):
    def test_room(self):
        for wrong in (0, -1, scq.MAX_SIZE + 1):
            self.assertRaises(ValueError, scq.Queue, wrong)
        for room in (1, 5, scq.MAX_SIZE):
            q = scq.Queue(maxsize=room)
            for k in range(room):
                q.put_nowait(k)
            self.assertRaises(queue.Full, q.put_nowait, 0)
            self.assertEqual([q.get() for _ in range(room)], list(range(room)))

    def test_shutdown(self):
        q = scq.Queue(2)
        q.put(1)
        q.shutdown()
        self.assertRaises(scq.ShutDown, q.put, 2)
        self.assertEqual(q.get(), 1)
        self.assertRaises(scq.ShutDown, q.get)
        self.assertRaises(scq.ShutDown, q.get_nowait)
        q = scq.Queue(2)
        q.put(1)
        q.put(1)
        waits = [lambda: self.assertRaises(scq.ShutDown, q.put, 3), q.join]
        run(*waits, lambda: (time.sleep(0.05), q.shutdown(immediate=True)))
        self.assertTrue(q.empty())
        self.assertRaises(scq.ShutDown, q.get)

    def test_shutdown_in_the_middle(self):
        for room in (1, 2, 5, 64):
            q, put, got = scq.Queue(room), [], []

            def putter(to=put, q=q):
                try:
                    while True:
                        q.put(1)
                        to.append(1)
                except scq.ShutDown:
                    pass

            def getter(to=got, q=q):
                try:
                    while True:
                        to.append(q.get())
                except scq.ShutDown:
                    pass

            run(*[putter, getter] * 3, lambda q=q: (time.sleep(0.02), q.shutdown()))
            self.assertEqual(len(put), len(got))

    def test_counts_of_references(self):
        thing = Thing()
        count = sys.getrefcount(thing)
        q = scq.Queue(2)
        q.put(thing)
        q.put(thing)
        self.assertEqual(sys.getrefcount(thing), count + 2)
        self.assertRaises(queue.Full, q.put_nowait, thing)
        self.assertRaises(queue.Full, q.put, thing, True, 0.01)
        self.assertIs(q.get(), thing)
        self.assertEqual(sys.getrefcount(thing), count + 1)
        q.shutdown(immediate=True)
        self.assertEqual(sys.getrefcount(thing), count)
        self.assertRaises(scq.ShutDown, q.put, thing)
        q = scq.Queue(2)
        q.put(thing)
        del q
        self.assertEqual(sys.getrefcount(thing), count)

    def test_cycles(self):
        q = scq.Queue(3)
        q.put(q)
        q.put([q])
        watched = weakref.ref(q)
        del q
        gc.collect()
        self.assertIsNone(watched())

    def test_nothing_is_left(self):
        def once():
            q = scq.Queue(7)
            for k in range(5):
                q.put([k])
            q.get()
            self.assertRaises(queue.Empty, scq.Queue(1).get_nowait)

        def many():
            for _ in range(50):
                once()
            gc.collect()
            return sys.getallocatedblocks()

        many()
        before = many()
        self.assertLess(many() - before, 50)

    def test_nothing_is_left_of_tasks(self):
        watched = []

        async def asks():
            q = scq.Queue(1)
            watched.append(weakref.ref(q))
            await q.aput(Thing())
            watched.append(weakref.ref(await q.aget()))
            try:
                await asyncio.wait_for(q.aget(), 0.001)
            except asyncio.TimeoutError:
                pass

        async def many():
            for _ in range(50):
                await asks()

        opened = files()
        asyncio.run(many())
        gc.collect()
        self.assertEqual([it for it in watched if it() is not None], [])
        self.assertEqual(files(), opened)

    def test_fork(self):
        q = scq.Queue(2)
        q.put(1)
        child = os.fork()
        if child == 0:
            try:
                q.get()
            except RuntimeError:
                own = scq.Queue(1)
                own.put(3)
                del q
                os._exit(own.get())
            os._exit(1)
        self.assertEqual(os.waitstatus_to_exitcode(os.waitpid(child, 0)[1]), 3)
        self.assertEqual(q.get(), 1)


class OfTasks(unittest.TestCase):
    def test_tasks_and_threads(self):
        count = COUNT // 20
        q, back = scq.Queue(8), scq.Queue(8)

        async def put(first):
            for k in range(first, count, 4):
                await q.aput(k)

        async def get(to):
            while True:
                try:
                    to.append(await back.aget())
                except scq.ShutDown:
                    return

        def on():
            for _ in range(count):
                back.put(q.get())
            back.shutdown()

        async def all_of_them():
            got = [[], [], []]
            await asyncio.gather(*(put(first) for first in range(4)), *(get(to) for to in got))
            return sorted(k for to in got for k in to)

        thread = threading.Thread(target=on)
        thread.start()
        self.assertEqual(asyncio.run(all_of_them()), list(range(count)))
        thread.join()

    def test_cancelled(self):
        async def main():
            q = scq.Queue(1)
            tasks = [asyncio.create_task(q.aget()) for _ in range(5)]
            await asyncio.sleep(0.01)
            for task in tasks[:4]:
                task.cancel()
            await asyncio.gather(*tasks[:4], return_exceptions=True)
            q.put("for the last one")
            self.assertEqual(await asyncio.wait_for(tasks[4], 10), "for the last one")
            await q.aput(1)
            full = asyncio.create_task(q.aput(2))
            await asyncio.sleep(0.01)
            q.shutdown()
            with self.assertRaises(scq.ShutDown):
                await full

        asyncio.run(main())


class OfHistories(unittest.TestCase):
    def recorded(self, room, folder):
        """Records six threads, of which three put; the queue is shut down behind their puts."""
        q, made, seats = scq.Queue(room), recorder.Recorder(), []

        def put(seat):
            for k in range(2000):
                value = seat.put_start(0)
                try:
                    q.put(value, block=k % 3 != 0)
                except queue.Full:
                    seat.put_refused()
                else:
                    seat.put_done()

        def get(seat):
            for k in range(1000000):
                seat.get_start(0)
                try:
                    seat.get_got(q.get(block=k % 3 != 0))
                except (queue.Empty, scq.ShutDown) as error:
                    seat.get_nothing()
                    if isinstance(error, scq.ShutDown):
                        return

        for number in range(6):
            seats.append(made.open(number, f"{folder}/{number}.log"))

        def ended():
            run(*(lambda seat=seat: put(seat) for seat in seats[:3]))
            q.shutdown()

        run(ended, *(lambda seat=seat: get(seat) for seat in seats[3:]))
        for seat in seats:
            seat.close()

    @unittest.skipUnless(JUDGE, "there is no judge")
    def test_histories_are_judged(self):
        for room in (1, 3, 64):
            with tempfile.TemporaryDirectory() as folder:
                self.recorded(room, folder)
                files = [f"{folder}/{name}" for name in sorted(os.listdir(folder))]
                judged = subprocess.run([JUDGE, "judge", "--room", str(room), *files], capture_output=True, text=True)
            for line in ("fresh", "once", "in order", "empty", "refused never got", "full"):
                self.assertIn(f"{line} holds\n", judged.stdout, judged)


if __name__ == "__main__":
    unittest.main()
