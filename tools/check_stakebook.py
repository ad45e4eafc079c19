#!/usr/bin/env python3
"""Runs the proved program target/bin/stakebook, which `tools/build.sh stakebook` puts there: on frames of both versions, beside the judge's listing of them, and where
its input can't be read or its output can't be written. That is said on standard error in one line, and nothing is where nothing went wrong. The losses of each
listing are added up by tools/add_losses.py, which must find a listing that was changed. Run in the repository's root."""
import math
import os
import socket
import struct
import subprocess
import sys
import time
from pathlib import Path

PROGRAM = Path('target/bin/stakebook').absolute()
FRAME = Path('crates/stakebook/stdin').read_bytes()
LISTING = Path('crates/stakebook/stdout').read_bytes()
UNREAD = b'stakebook: the input could not be read\n'
UNWRITTEN = b'stakebook: the output could not be written\n'
ADD_LOSSES = Path('tools/add_losses.py').absolute()
JUDGE = ['cargo', 'run', '--release', '--quiet', '-p', 'judge', '--bin', 'listing']
wrong = []
runs = 0


def expect(what, run, out, err):
    global runs
    runs += 1
    got = subprocess.run(stderr=subprocess.PIPE, check=False, timeout=60, **run)
    printed = got.stdout or b''
    if (printed, got.stderr) != (out, err):
        wrong.append(f'{what}: printed {len(printed)} bytes, {printed[-300:]}, and on standard error {got.stderr}')


def program(**streams):
    return {'args': [PROGRAM], 'stdout': subprocess.PIPE, **streams}


# A frame of numbers: a length that counts what follows, the version byte, the bits.
def frame_of(version, numbers):
    return struct.pack(f'>HB{len(numbers)}d', 1 + 8 * len(numbers), version, *numbers)


def bits(number):
    return struct.pack('>d', number).hex().upper()


# Version 1 means weight 1, and version 2 has the weights. The listing with other weights is worked out here: two samples at one x have no line, and their
# mean by weights is (0 * 1 + 4 * 3) / 4 = 3. Their residuals, -3 and 1, see no weight: the variance is 10 / 1, its share of the mean 10 / 4. Nor do their
# losses: the median size is 2 and both are 1 away from it, so that 3 is above 1.345 times 1, and 1 is not.
def expect_versions():
    plain = struct.unpack('>10d', FRAME[3:])
    pairs = [plain[i : i + 2] for i in range(0, 10, 2)]
    ones = [number for pair in pairs for number in (*pair, 1.0)]
    losses = [1.345 * (3.0 - 0.5 * 1.345), 0.5 * 1.0 * 1.0]
    mean = f'n 2\ndegree 0\nc 0 {bits(3.0)} {bits(math.sqrt(2.5))}\noutliers 0\npruned 1\n'
    mean += f'loss 0 {bits(losses[0])}\nloss 1 {bits(losses[1])}\ntotal {bits(losses[0] + losses[1])}\n'
    mean = mean.encode()
    frames = [
        ('version 1, packed here', frame_of(1, plain), LISTING),
        ('version 2 with weights of 1', frame_of(2, ones), LISTING),
        ('version 2 with weights of 1 and 3', frame_of(2, [2.0, 0.0, 1.0, 2.0, 4.0, 3.0]), mean),
        ('version 2 without samples', frame_of(2, []), b'refused 7\n'),
        ('version 2 by 16 bytes', frame_of(2, [1.0, 2.0]), b'refused 2\n'),
        ('version 1 by 24 bytes', frame_of(1, [1.0, 2.0, 3.0]), b'refused 2\n'),
        ('version 3 by 24 bytes', frame_of(3, [1.0, 2.0, 3.0]), b'refused 2\n'),
        ('version 3 by 48 bytes', frame_of(3, [1.0] * 6), b'refused 3\n'),
        ('a weight that is a NaN behind one of 0', frame_of(2, [1.0, 2.0, 0.0, 3.0, 4.0, math.nan]), b'refused 4\n'),
        ('a weight of 0', frame_of(2, [1.0, 2.0, 3.0, 3.0, 4.0, 0.0]), b'refused 15\n'),
        ('a weight below 0', frame_of(2, [1.0, 2.0, -3.0]), b'refused 15\n'),
    ]
    for what, frame, listing in frames:
        expect(what, program(input=frame), listing, b'')


# What add_losses says of a listing: nothing if its losses add up to its total.
def added(listing):
    got = subprocess.run([sys.executable, ADD_LOSSES], input=listing, capture_output=True, check=False, timeout=60)
    return got.returncode, got.stdout + got.stderr


# The listing with another first digit behind the exponent in its greatest loss, another last one in its total, and without one of its losses.
def changed(listing):
    lines = listing.splitlines(keepends=True)
    losses = [i for i, line in enumerate(lines) if line.startswith(b'loss ')]
    greatest = max(losses, key=lambda i: lines[i].split()[2])
    word, index, digits = lines[greatest].split()
    other = b'%s %s %s\n' % (word, index, digits[:3] + (b'%X' % (int(digits[3:4], 16) ^ 8)) + digits[4:])
    yield b''.join(lines[:greatest] + [other] + lines[greatest + 1 :])
    yield listing[:-2] + (b'%X' % (int(listing[-2:-1], 16) ^ 1)) + b'\n'
    if int(digits, 16) > 0:
        yield b''.join(lines[:greatest] + lines[greatest + 1 :])


# Real listings beside the judge's, up to the longest one, with a line for each of 4,095 samples. A student adds up the losses of each, and would
# find one that was changed.
def expect_losses():
    global runs
    pit = [number for i in range(40) for number in (0.05 * i, 200.0 + 3.5 * i + (i * 7 % 11))]
    most = [float(number) for i in range(4095) for number in (i % 90, 100 * (i % 90) + i * 7919 % 101)]
    weighted = [float(number) for i in range(2730) for number in (i % 50, i * 31 % 47, 1 + i % 3)]
    frames = [
        ("document 01's", FRAME, 5),
        ('one sample', frame_of(1, [1.0, 2.0]), 1),
        ('a pit', frame_of(1, pit), 40),
        ('2,730 weighted samples', frame_of(2, weighted), 2730),
        ('4,095 samples', frame_of(1, most), 4095),
    ]
    for what, frame, count in frames:
        listing = subprocess.run(JUDGE, input=frame, stdout=subprocess.PIPE, check=True).stdout
        printed = [line.split()[1] for line in listing.splitlines() if line.startswith(b'loss ')]
        if printed != [b'%d' % i for i in range(count)]:
            wrong.append(f'{what}: the judge prints losses {printed}')
        expect(f'{what}, as the judge', program(input=frame), listing, b'')
        got = subprocess.run([PROGRAM], input=frame, stdout=subprocess.PIPE, check=False, timeout=60).stdout
        if added(got) != (0, b''):
            wrong.append(f'{what}: {added(got)[1].decode().strip()}')
        elif not all(added(other)[0] == 1 for other in changed(got)):
            wrong.append(f'{what}: a listing that was changed is not found')
        runs += 1
    if added(b'refused 7\n') != (1, b'the losses add up to 0000000000000000, and the total is None\n'):
        wrong.append('a refusal is added up')


# The frame in two writes: the first read answers fewer bytes than there are, and that is no end.
def expect_pieces():
    global runs
    runs += 1
    with subprocess.Popen([PROGRAM], stdin=subprocess.PIPE, stdout=subprocess.PIPE, stderr=subprocess.PIPE) as run:
        run.stdin.write(FRAME[:40])
        run.stdin.flush()
        time.sleep(0.2)
        out, err = run.communicate(FRAME[40:], timeout=60)
    if (out, err) != (LISTING, b''):
        wrong.append(f'a frame in two writes: printed {out}, and on standard error {err}')


# The whole frame, and then one read that fails: the peer closed with a byte of ours unread. The read after that one would find the end.
def expect_reset():
    ours, theirs = socket.socketpair()
    theirs.sendall(FRAME)
    ours.sendall(b'.')
    theirs.close()
    expect('a read that fails behind a frame', program(stdin=ours), b'', UNREAD)
    ours.close()


def main():
    with open('crates/stakebook/stdin', 'rb') as frame:
        expect('a frame', program(stdin=frame), LISTING, b'')
    expect('no input', program(stdin=subprocess.DEVNULL), b'refused 2\n', b'')
    expect_pieces()
    expect_versions()
    expect_losses()

    root = os.open('/', os.O_RDONLY)
    expect('a directory as input', program(stdin=root), b'', UNREAD)
    os.close(root)
    expect('no standard input', program(args=['sh', '-c', '"$0" <&-', PROGRAM]), b'', UNREAD)
    expect_reset()

    with open('/dev/full', 'wb') as full:
        expect('a full disk', program(input=FRAME, stdout=full), b'', UNWRITTEN)
    expect('no standard output', program(args=['sh', '-c', '"$0" >&-', PROGRAM], input=FRAME), b'', UNWRITTEN)

    for line in wrong:
        print('stakebook:', line)
    if wrong:
        return 1
    print(f'stakebook: {runs} runs: frames of both versions, as the judge; losses add up to their totals; what could not be read or written is said on standard error')
    return 0


sys.exit(main())
