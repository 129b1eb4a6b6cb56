"""Python's queue.Queue with room for 1,024 values, recorded: each of four threads puts and gets so many times, without waiting. With the word
`wrong` a list takes its place, of which a get now and then takes the second value.

    rm -rf logs && mkdir logs && PYTHONPATH=recorders python3 recorders/examples/bounded.py logs 10000
    ./scq judge --room 1024 logs/*.log
"""

import queue
import sys
import threading

from recorder import Recorder

THREADS = 4


class Wrong:
    """A list, of which each 1,000th get takes the second value where there is one."""

    def __init__(self):
        self.values, self.gets, self.lock = [], 0, threading.Lock()

    def put_nowait(self, value):
        with self.lock:
            self.values.append(value)

    def get_nowait(self):
        with self.lock:
            self.gets += 1
            if not self.values:
                raise queue.Empty
            return self.values.pop(1 if self.gets % 1000 == 0 and len(self.values) > 1 else 0)


def run(seat, values, calls):
    with seat:
        for k in range(calls):
            # Two puts for one get and the other way round in turn, so that values wait.
            if k // 64 % 2 == 0 or k % 2:
                value = seat.put_start(0)
                try:
                    values.put_nowait(value)
                    seat.put_done()
                except queue.Full:
                    seat.put_refused()
            if k // 64 % 2 or k % 2:
                seat.get_start(0)
                try:
                    seat.get_got(values.get_nowait())
                except queue.Empty:
                    seat.get_nothing()


def main(folder, calls, wrong=None):
    values = Wrong() if wrong else queue.Queue(1024)
    recorder = Recorder()
    sys.setswitchinterval(1e-5)
    threads = []
    for i in range(THREADS):
        seat = recorder.open(i, f"{folder}/{i + 1}.log")
        threads.append(threading.Thread(target=run, args=(seat, values, int(calls))))
    for thread in threads:
        thread.start()
    for thread in threads:
        thread.join()


if __name__ == "__main__":
    main(*sys.argv[1:])
