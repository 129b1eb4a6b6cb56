"""How fast the queue is beside queue.Queue: python3 speed.py [ITEMS]. Ends with 1 where it hasn't 0.8 of that."""

import queue
import sys
import threading
import time

import scq


def speed(made, putters, getters, count):
    q = made(64)

    def put():
        for k in range(count // putters):
            q.put(k)

    def get():
        for _ in range(count // getters):
            q.get()

    threads = [threading.Thread(target=work) for work in [put] * putters + [get] * getters]
    begin, spent = time.perf_counter(), time.process_time()
    for thread in threads:
        thread.start()
    for thread in threads:
        thread.join()
    return count / (time.perf_counter() - begin) / 1e3, (time.process_time() - spent) / count * 1e6


def main():
    count = int(sys.argv[1]) if len(sys.argv) > 1 else 100000
    least = None
    for putters, getters in ((1, 1), (4, 4)):
        ours, standard = (speed(made, putters, getters, count) for made in (scq.Queue, queue.Queue))
        print(f"{putters} to {getters}: {ours[0]:.0f} thousand a second ({ours[1]:.2f} us of a processor), queue.Queue {standard[0]:.0f} ({standard[1]:.2f})")
        least = min(least or ours[0] / standard[0], ours[0] / standard[0])
    print(f"{least:.2f} times as fast at least")
    sys.exit(least < 0.8)


if __name__ == "__main__":
    main()
