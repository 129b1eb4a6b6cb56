"""late.py RUNS WANTED PROGRAM WORDS..

Makes so many runs of a program, compares what each writes with a file, and looks at each that isn't through within a
second: it waits a minute for it, or MINUTE seconds, and says of each thread its state; if it waits at a futex the
word's address, what the thread took it for, and what stands there; and how long it has run and has waited for a
processor. A run that doesn't end by then is hung, as where a wake was swallowed, and is killed. One that ends is slow
if its threads waited for a processor, or the hypervisor kept one, for half of the time that it was late; else it is
late. The last line says how many there were of each, and how many wrote something else or ended with another status
than 0.
"""

import os
import select
import subprocess
import sys
import time

FUTEX = {'x86_64': 202, 'aarch64': 98}.get(os.uname().machine)
MINUTE = float(os.environ.get('MINUTE', 60))


def read(path):
    """What stands in a file of /proc, or nothing where its thread has ended."""
    try:
        with open(path) as file:
            return file.read()
    except OSError:
        return ''


def stolen():
    """Seconds that the hypervisor kept processors that were wanted."""
    return int(read('/proc/stat').split()[8]) / os.sysconf('SC_CLK_TCK')


def word_at(pid, address):
    try:
        with open(f'/proc/{pid}/mem', 'rb', buffering=0) as memory:
            return int.from_bytes(os.pread(memory.fileno(), 4, address), sys.byteorder)
    except OSError:
        return None


def threads_of(pid):
    """Of each thread that is there: its state, how long it ran and waited for a processor, and its system call."""
    try:
        numbers = sorted(os.listdir(f'/proc/{pid}/task'), key=int)
    except OSError:
        numbers = []
    for number in numbers:
        task = f'/proc/{pid}/task/{number}/'
        state, times = read(task + 'stat').rpartition(')')[2].split(), read(task + 'schedstat').split()
        call = read(task + 'syscall').split()
        if state and times:
            yield number, state[0], int(times[0]) / 1e9, int(times[1]) / 1e9, call


def tell(pid):
    for number, state, ran, waited, call in threads_of(pid):
        where = f'in system call {call[0]}' if call and call[0].isdigit() else 'in no system call'
        if call and call[0] == str(FUTEX):
            address, wanted = int(call[1], 16), int(call[3], 16) & 0xFFFFFFFF
            where = f'at the futex {address:#x} while it is {wanted}; it is {word_at(pid, address)}'
        print(f'    thread {number}: state {state}, ran {ran:.3f} s, waited {waited:.3f} s for a processor, {where}')


def look_at(run, ended, begun, stolen_before):
    """Waits for a run that is late, and tells whether it is hung, slow or late."""
    print(f'  not through after a second, load {read("/proc/loadavg").split()[0]}:')
    tell(run.pid)
    waits = {}
    while time.monotonic() - begun < MINUTE:
        waits.update((number, waited) for number, _, _, waited, _ in threads_of(run.pid))
        if select.select([ended], [], [], 0.02)[0]:
            break
    took, waited, kept = time.monotonic() - begun, sum(waits.values()), stolen() - stolen_before
    if run.poll() is None and not select.select([ended], [], [], 0)[0]:
        kind = 'hung'
        tell(run.pid)
        run.kill()
    else:
        kind = 'slow' if waited + kept > (took - 1) / 2 else 'late'
    print(f'  {kind}: {took:.3f} s; its threads waited {waited:.3f} s for a processor, {kept:.2f} s were stolen')
    return kind


def main():
    runs, wanted, words = int(sys.argv[1]), open(sys.argv[2], 'rb').read(), sys.argv[3:]
    kinds = dict.fromkeys(('hung', 'late', 'slow', 'wrong'), 0)
    for _ in range(runs):
        with open('got', 'w+b') as got:
            begun, stolen_before = time.monotonic(), stolen()
            run = subprocess.Popen(words, stdout=got)
            ended, kind = os.pidfd_open(run.pid), None
            if not select.select([ended], [], [], 1)[0]:
                kind = look_at(run, ended, begun, stolen_before)
                kinds[kind] += 1
            status = run.wait()
            os.close(ended)
            got.seek(0)
            if kind != 'hung' and (status != 0 or got.read() != wanted):
                kinds['wrong'] += 1
                print(f'  wrong: ends with {status}')
    print(' '.join(f'{count} {kind}' for kind, count in kinds.items()))


main()
