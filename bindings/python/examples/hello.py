"""Sends a message from one thread and gets it in another: pip install bindings/python, then python3 hello.py."""

import threading

import scq


def send(queue):
    queue.put("hello from Python")
    queue.shutdown()


def main():
    queue = scq.Queue(64)
    threading.Thread(target=send, args=(queue,)).start()
    try:
        while True:
            print(queue.get())
    except scq.ShutDown:
        pass


if __name__ == "__main__":
    main()
