"""Scripts that are measured: large ones, ones that are hard to check, and the script of --generate."""
# How many queues the script of --generate has.
QUEUES = 4


def comments_and_blanks():
    """4 MB of comments and lines without words."""
    line = '# nothing is said here, and the line after it is blank\n\n  \t \n'
    return (line * (4 * 1024 * 1024 // len(line))).encode()


def many_batches():
    """4,096 batches with two fills each."""
    parts = ['buffer X 1024\nqueue Q immediate\n']
    for batch in range(4096):
        parts.append(f'submit Q\nfill X {batch % 128 * 4} 8 {batch}\nfill X 512 512 0x{batch:08x}\nend\n')
    return ''.join(parts).encode()


def largest_text():
    """64 buffers of 16 KiB, each filled and printed."""
    names = [f'B{number:02}' for number in range(64)]
    parts = [f'buffer {name} 16384\n' for name in names] + ['queue Q immediate\n']
    for number, name in enumerate(names):
        parts.append(f'submit Q\nfill {name} 0 16384 0x{0x01020304 * (number + 1) % 2 ** 32:08x}\nend\n')
    return ''.join(parts).encode()


def scattered_names():
    """64 buffers of long names, and 8,192 fills that name them in turn."""
    names = [f'buffer_number_{number:02}' for number in range(64)]
    parts = [f'buffer {name} 64\n' for name in names] + ['queue Q immediate\n']
    for batch in range(128):
        parts.append('submit Q\n')
        parts.extend(f'fill {name} 0 64 {batch}\n' for name in names)
        parts.append('end\n')
    return ''.join(parts).encode()


def largest_updates():
    """31 updates of 65,536 bytes, which make 4 MB of digits."""
    parts = ['buffer X 1048576\nqueue Q immediate\nsubmit Q\n']
    for number in range(31):
        parts.append(f'update X {number % 16 * 65536} {bytes([number, 255 - number, 7, 0xab]).hex() * 16384}\n')
    return ''.join(parts + ['end\n']).encode()


def small_copies():
    """8,192 copies of 4 bytes inside a buffer and between two."""
    parts = ['buffer X 65536\nbuffer Y 65536\nqueue Q immediate\n']
    for batch in range(128):
        parts.append('submit Q\n')
        parts.extend(f'copy X {number * 7} {"XY"[number % 2]} {batch * 64 + 4096 + number * 7} 4\n' for number in range(64))
        parts.append('end\n')
    return ''.join(parts).encode()


def many_marks():
    """256 timelines, and 4,096 batches with 16 waits and 16 signals each, as far as 4 MB reach."""
    names = [f'T{number:03}' for number in range(256)]
    parts = [f'timeline {name} 0\n' for name in names] + [f'queue Q{queue} threaded\n' for queue in range(8)]
    size, values = sum(map(len, parts)), [0] * 256
    for batch in range(4096):
        lines = [f'submit Q{batch % 8}\n']
        lines += [f'wait {names[number]} {values[number]}\n' for number in ((batch * 7 + place * 11) % 256 for place in range(16))]
        for number in ((batch * 16 + place) % 256 for place in range(16)):
            values[number] += 10_000_000_000_000_000
            lines.append(f'signal {names[number]} {values[number]}\n')
        lines.append('end\n')
        size += sum(map(len, lines))
        if size > 4_194_304:
            break
        parts += lines
    return ''.join(parts).encode()


def backward_chain():
    """4,096 jobs on 8 queues: each waits for the job that is written after it, as far as lanes allow.

    The queues stand one after another, 512 jobs each; the k-th job of a queue waits for the k-th job of the next
    queue, so the run takes a job of the last queue, then one of the queue before, and so on.
    """
    parts = [f'timeline T{queue} 0\n' for queue in range(8)] + [f'queue Q{queue} threaded\n' for queue in range(8)]
    for queue in range(8):
        for number in range(512):
            parts.append(f'submit Q{queue}\n')
            if queue < 7:
                parts.append(f'wait T{queue + 1} {number + 1}\n')
            parts.append(f'signal T{queue} {number + 1}\nend\n')
    return ''.join(parts).encode()


def batches_of(commands):
    """The commands in lists of 64, which is as many as a batch may have."""
    return [commands[first:first + 64] for first in range(0, len(commands), 64)]


def row_of(declarations, commands):
    """A script of commands on 4 queues, in batches that one timeline puts in a row."""
    parts = declarations + ['timeline T 0\n'] + [f'queue Q{queue} threaded\n' for queue in range(4)]
    for batch, lines in enumerate(batches_of(commands)):
        parts.append(f'submit Q{batch % 4}\n')
        if batch > 0:
            parts.append(f'wait T {batch}\n')
        parts += [*lines, f'signal T {batch + 1}\nend\n']
    return ''.join(parts)


def in_a_row(count):
    """So many fills of the same bytes, in a row."""
    return row_of(['buffer X 64\n'], [f'fill X 0 64 {number}\n' for number in range(count)])


def last_two(command):
    """Two batches that wait for all before them, and race."""
    return ''.join(f'submit Q{queue}\nwait T 128\n{command} {queue}\nend\n' for queue in range(2))


def unordered(declarations, commands):
    """A script of commands in batches on 8 queues in turn; nothing orders the batches but their queues."""
    parts = declarations + [f'queue Q{queue} threaded\n' for queue in range(8)]
    for number, batch in enumerate(batches_of(commands)):
        parts += [f'submit Q{number % 8}\n', *batch, 'end\n']
    return ''.join(parts)


def ordered_commands():
    """8,192 fills of the same bytes on 4 queues, in 128 batches, each of which waits for the one before it."""
    return in_a_row(8192).encode()


def disjoint_commands():
    """8,192 fills in 64 buffers on 8 queues, unordered, no two of which share a byte."""
    buffers = [f'buffer B{number:02} 16384\n' for number in range(64)]
    fills = [f'fill B{number % 64:02} {number // 64 * 128} 128 {number}\n' for number in range(8192)]
    return unordered(buffers, fills).encode()


def common_reads():
    """8,192 copies of the same bytes on 8 queues, unordered, each to bytes of its own."""
    copies = [f'copy X 0 Y {number * 64} 64\n' for number in range(8192)]
    return unordered(['buffer X 64\nbuffer Y 524288\n'], copies).encode()


def last_race():
    """8,192 fills of the same bytes, all in a row but for the last two, which both wait for the rest and race."""
    return (in_a_row(8190) + last_two('fill X 0 64')).encode()


def overlapping(count):
    """So many fills of 256 KiB that overlap everywhere."""
    return [f'fill X {number * 16 % 262144} 262144 {number}\n' for number in range(count)]


def overlapping_fills():
    """8,192 fills of 256 KiB that overlap everywhere, in a row."""
    return row_of(['buffer X 524288\n'], overlapping(8192)).encode()


def overlapping_copies():
    """8,192 copies of 256 KiB that overlap everywhere, in a row."""
    copies = [f'copy X {number * 16 % 262144} Y {(number * 16 + 8) % 262144} 262144\n' for number in range(8192)]
    return row_of(['buffer X 524288\nbuffer Y 524288\n'], copies).encode()


def overlapping_race():
    """The same fills, but for the last two, which race."""
    return (row_of(['buffer X 524288\n'], overlapping(8190)) + last_two('fill X 100 400')).encode()


def rounds_of_batches(batches, declared):
    """Batches on 4 queues in turn, each of which waits for the batches before it of all other queues."""
    parts = declared + [f'timeline T{queue} 0\n' for queue in range(4)] + [f'queue Q{queue} threaded\n' for queue in range(4)]
    for batch in range(batches):
        queue, number = batch % 4, batch // 4
        parts.append(f'submit Q{queue}\n')
        parts += [f'wait T{other} {number}\n' for other in range(4) if other != queue]
        parts.append(f'fill X {queue * 4} 4 {number}\nsignal T{queue} {number + 1}\nend\n')
    return parts


def held_waits(batches, commands):
    """Batches of version 2 on 16 queues in turn, with so many fills each; each waits for the batch before it of every
    queue, its own too, by waits that hold back a part of it: the k-th one from the k-th command on, or behind them."""
    parts = ['version 2\nbuffer X 65536\n']
    parts += [f'timeline T{queue} 0\n' for queue in range(16)] + [f'queue Q{queue} threaded\n' for queue in range(16)]
    for batch in range(batches):
        queue, number = batch % 16, batch // 16
        parts.append(f'submit Q{queue}\n')
        parts += [f'wait T{other} {number} from {min(place, commands) + 1}\n' for place, other in enumerate(range(16))]
        parts += [f'fill X {queue * 4096 + place * 4} 4 {number}\n' for place in range(commands)]
        parts.append(f'signal T{queue} {number + 1}\nend\n')
    return ''.join(parts).encode()


def most_held_waits():
    """The 8,192 batches of the largest script of version 2, with 16 such waits and a fill each."""
    return held_waits(8192, 1)


def most_held_places():
    """512 batches with 16 fills each, and for each of these a wait that holds back it and the later ones."""
    return held_waits(512, 16)


def ring_of_queues():
    """7,961 batches of version 2 on 15 queues in a ring, 16 timelines each: each waits for the last value of each
    timeline of the queue before it, and signals its own."""
    parts = ['version 2\n', *(f'timeline t{queue:x}{place:x} 0\n' for queue in range(15) for place in range(16))]
    parts += [f'queue q{queue:x} threaded\n' for queue in range(15)]
    values = [0] * 15
    for batch in range(7961):
        queue, before = batch % 15, (batch - 1) % 15
        parts.append(f'submit q{queue:x}\n')
        parts += [f'wait t{before:x}{place:x} {values[before]}\n' for place in range(16)]
        values[queue] += 1
        parts += [f'signal t{queue:x}{place:x} {values[queue]}\n' for place in range(16)]
        parts.append('end\n')
    return ''.join(parts).encode()


def on_16_queues(parts, batches):
    """A script of version 2 with these declarations, and these bodies of batches on 16 queues in turn."""
    parts = ['version 2\n', *parts, *(f'queue Q{queue} threaded\n' for queue in range(16))]
    for number, body in enumerate(batches):
        parts.append(f'submit Q{number % 16}\n{body}')
    return ''.join(parts).encode()


def crossing_timelines():
    """4,096 batches over 16 queues: each waits for the batches before it of two other queues, and signals its own."""
    bodies = []
    for batch in range(4096):
        queue, number = batch % 16, batch // 16
        waits = ''.join(f'wait T{(queue + step) % 16} {number}\n' for step in (5, 11))
        bodies.append(f'{waits}fill X {queue * 4} 4 {number}\nsignal T{queue} {number + 1}\nend\n')
    return on_16_queues(['buffer X 64\n', *(f'timeline T{queue} 0\n' for queue in range(16))], bodies)


def queues_in_a_row():
    """8,192 fills of the same bytes in 4,096 batches on 16 queues, each of which waits for the one before it."""
    fills = 'fill X 0 64 1\nfill X 0 64 2\n'
    bodies = [f'wait T {batch}\n{fills}signal T {batch + 1}\nend\n' for batch in range(4096)]
    return on_16_queues(['buffer X 64\n', 'timeline T 0\n'], bodies)


def fences_in_turn():
    """2,729 batches on 16 queues, each with a fence, for which the host waits before it resets it and goes on."""
    bodies = []
    for batch in range(2729):
        fence = f'F{batch % 16}'
        bodies.append(f'fence {fence}\nend\nhost fence wait {fence}\nhost fence reset {fence}\n')
    return on_16_queues([f'fence F{queue}\n' for queue in range(16)], bodies)


def host_and_queue():
    """1,000 times the host signals what a batch waits for, and waits for what that batch signals."""
    parts = ['timeline A 0\ntimeline B 0\nqueue Q threaded\n']
    for number in range(1, 1001):
        parts.append(f'submit Q\nwait A {number}\nsignal B {number}\nend\n')
        parts.append(f'host signal A {number}\nhost wait all B {number}\n')
    return ''.join(parts).encode()


def deferred_queues():
    """1,000 batches on each of two deferred queues, each of which waits for the other's one before, and as many on a
    threaded one, which copies what each made."""
    parts = ['buffer X 64\ntimeline A 0\ntimeline B 0\nqueue P deferred\nqueue Q deferred\nqueue R threaded\n']
    for number in range(1, 1001):
        parts.append(f'submit P\nwait B {number - 1}\nfill X 0 4 {number}\nsignal A {number}\nend\n')
        parts.append(f'submit Q\nwait A {number}\nfill X 4 4 {number}\nsignal B {number}\nend\n')
        parts.append(f'submit R\nwait B {number}\nfill X {number % 8 * 4 + 16} 4 {number}\nend\n')
    return ''.join(parts).encode()


def scheduled(parts, turns):
    """A script with these turns, one to a line."""
    return ''.join(parts + ['schedule\n'] + [f'{actor}\n' for actor in turns]).encode()


def turns_in_turn():
    """65,536 turns over 4,096 batches of four queues: the host, then each submit actor and each ring in turn."""
    actors = ['host'] + [f'{kind}:Q{queue}' for queue in range(4) for kind in 'SR']
    return scheduled(rounds_of_batches(4096, ['buffer X 16\n']), [actors[turn % 9] for turn in range(65536)])


def turns_of_one_queue():
    """65,536 turns over 4,096 batches of one queue with a command and a signal each, which they finish."""
    parts = ['buffer X 16\ntimeline T 0\nqueue Q threaded\n']
    parts += [f'submit Q\nfill X 0 16 {batch}\nsignal T {batch + 1}\nend\n' for batch in range(4096)]
    return scheduled(parts, (['host'] + ['S:Q'] * 5 + ['R:Q'] * 5) * 4096 + ['R:Q'] * (65536 - 11 * 4096))


def blocked_turns():
    """65,536 turns of a ring before anything is released, over 4,096 batches."""
    return scheduled(rounds_of_batches(4096, ['buffer X 16\n']), ['R:Q0'] * 65536)


def batch_of_round(r, q, with_copy=True):
    """The batch of a queue in a round."""
    source = f'B{(q + 1) % QUEUES}{(r - 1) % 2}'
    target = f'B{q}{r % 2}'
    lines = [f'submit Q{q}']
    lines += [f'wait T{other} {r - 1}' for other in range(QUEUES) if other != q]
    lines += [f'copy {source} 0 {target} 0 64'] * with_copy
    return lines + [f'fill {target} {r % 16 * 4} 4 0x{QUEUES * r + q:08x}', f'signal T{q} {r}', 'end']


def generated(rounds, with_copies=True):
    """The script of --generate, of so many rounds: 1,024 at most, which have as many commands as a script may have.

    Without their copies the batches have one command each. Then 2,048 rounds are the most, of version 2 from 1,025 on.
    """
    lines = ['version 2'] if QUEUES * rounds > 4096 else []
    lines += [f'buffer B{q}{half} 64' for q in range(QUEUES) for half in range(2)]
    lines += [f'timeline T{q} 0' for q in range(QUEUES)]
    lines += [f'queue Q{q} threaded' for q in range(QUEUES)]
    for r in range(1, rounds + 1):
        for q in range(QUEUES):
            lines += batch_of_round(r, q, with_copies)
    return ('\n'.join(lines) + '\n').encode()
