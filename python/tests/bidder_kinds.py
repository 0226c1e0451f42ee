"""Bidders of every bad kind, for test_course: this file is run with the kind as its word."""
import os
import random
import signal
import subprocess
import sys
import time


def rounds():
    """Number and worths of each round."""
    for line in sys.stdin:
        words = line.split()
        if words[0] == 'round':
            yield int(words[1]), [int(word) for word in words[words.index('worths') + 1:]]


def say(number, bids):
    print('bids', number, *bids, flush=True)


def honest():
    for number, worths in rounds():
        say(number, worths)


def chance():
    rng = random.Random(5)
    for number, worths in rounds():
        say(number, [int(rng.random() * 600) for _ in worths])


def late():
    """Its second answer comes too late, and with the third question."""
    for number, worths in rounds():
        if number == 2:
            time.sleep(float(sys.argv[2]))
        say(number, worths)


def mute():
    for _ in rounds():
        pass


def unflushed():
    out = open(1, 'w', encoding='ascii', closefd=False)
    for number, worths in rounds():
        out.write(f'bids {number} {" ".join(map(str, worths))}\n')


def wrong():
    said = ('bids {r} 1 2', 'hello', 'bids {r} -1 0 0 0 0 0', 'bids {r} 1.5 0 0 0 0 0', 'bids 99 0 0 0 0 0 0',
            'bids {r} 1000001 0 0 0 0 0', '', '\x1b[31mbids\x00', 'bids {r} 0 0 0 0 0 0 0',
            'bids {r} 1 1 1 1 1 ' + '1' * 5000)
    for number, _ in rounds():
        print(said[number % len(said)].format(r=number), flush=True)


def crash():
    for number, worths in rounds():
        if number == 4:
            number // 0
        say(number, worths)


def killed():
    for number, worths in rounds():
        if number == 2:
            os.kill(os.getpid(), signal.SIGSEGV)
        say(number, worths)


def gone():
    """Ends at once, before it reads anything."""


def closed():
    """Closes its output and lives on."""
    os.close(1)
    time.sleep(1000)


def deaf():
    """Reads nothing."""
    time.sleep(1000)


def fork():
    """Leaves a process behind."""
    tell(subprocess.Popen(['sleep', '1000']).pid)
    honest()


def tell(process):
    """A line with the number of a process that is to end with us."""
    with open(sys.argv[2], 'a', encoding='ascii') as file:
        file.write(f'{process}\n')


def leave():
    """A process that leaves group, session and parent."""
    if not os.fork():
        os.setsid()
        if not os.fork():
            tell(os.getpid())
            time.sleep(1000)
        os._exit(0)
    os.wait()


def daemon():
    leave()
    honest()


def heir():
    """Ends, and leaves its output to a process that says nothing."""
    leave()


def swarm():
    """Five processes of which each has five, all in sessions of their own; bids once so many are told of."""
    for _ in range(5):
        if not os.fork():
            os.setsid()
            for _ in range(5):
                leave()
            tell(os.getpid())
            time.sleep(1000)
    while True:
        # it may be that none has told yet, and no file is there
        with open(sys.argv[2], 'a+', encoding='ascii') as file:
            file.seek(0)
            if file.read().count('\n') >= int(sys.argv[3]):
                break
        time.sleep(0.01)
    honest()


def mutiny():
    """Kills its keeper."""
    for number, worths in rounds():
        if number == 2:
            os.kill(os.getppid(), signal.SIGKILL)
            time.sleep(1000)
        say(number, worths)


def flood():
    """A line without an end."""
    while True:
        sys.stdout.write('x' * 65536)


def old():
    """Answers to round 0, without an end."""
    while True:
        sys.stdout.write('bids 0 1 2 3 4 5 6\n' * 1000)


def errors():
    """Standard error without an end."""
    while True:
        sys.stderr.write('x' * 65536)


def hog():
    hoard = []
    for number, worths in rounds():
        hoard.append(bytearray(30_000_000))
        say(number, worths)


def twice():
    """Answers every question twice."""
    for number, worths in rounds():
        say(number, worths)
        say(number, [0] * len(worths))


if __name__ == '__main__':
    globals()[sys.argv[1]]()
