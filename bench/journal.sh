#!/usr/bin/env bash
# What the journal costs on a disk. Exchanges over a journal on the disk, over one in memory, and beside both a loop in C that writes
# bytes of the same sizes in two pieces, with a sync behind each (wanted: the first at most 1.5 times the other two together). Then
# the opening of a journal as large as one may be: seconds, bytes a second (wanted: 20 MB), and the peak of memory by the file's size
# (wanted: at most 3). DISK names a folder on the disk to measure; without it this folder's file system is measured.
. "$(dirname "$0")/setup.sh"
disk=$(mktemp -d -p "${DISK:-$top}")
trap 'rm -rf "$work" "$disk"' EXIT
cat > "$work/loop.c" <<'END'
#define _XOPEN_SOURCE 700
#include <fcntl.h>
#include <stdlib.h>
#include <unistd.h>

int main(int count, char **words) {
    int file = open(words[1], O_RDWR | O_CREAT | O_TRUNC, 0600), times = atoi(words[2]), size = atoi(words[3]);
    char *bytes = calloc(1, size);
    off_t at = 9;
    if (count != 4 || file < 0 || !bytes || pwrite(file, "WIFJ0001", 9, 0) != 9) return 1;
    for (int i = 0; i < times; i++, at += size) {
        if (pwrite(file, bytes, size, at) != size || fdatasync(file)) return 1;
        if (pwrite(file, "\1", 1, at - 1) != 1 || fdatasync(file)) return 1;
    }
    return 0;
}
END
cc -O2 -o "$work/loop" "$work/loop.c"
python3 - "$top" "$work" "$disk" <<'END'
import os, subprocess, sys, time
top, work, disk = sys.argv[1:]
sys.path[:0] = [top + '/tools', top + '/bench']
import journals
from counting import fresh
config = top + '/examples/first/config.json'

with open(top + '/examples/first/script', 'rb') as f:
    head, rest = f.read().split(b'\n', 1)
exchange = head + b'\n' + rest[:int(head.split()[-1]) + 1]

def timed(words, data=b''):
    start = time.monotonic()
    done = subprocess.run(words, input=data, stdout=subprocess.PIPE)
    if done.returncode != 0:
        sys.exit(f'status {done.returncode}')
    return time.monotonic() - start

def script(journal, data=b''):
    return timed([work + '/sts', 'script', config, journal], data)

def best(run):
    return min(run() for _ in range(3))

asked = 1000
before = best(lambda: script(fresh(disk)))
on_disk = best(lambda: script(fresh(disk), exchange * asked)) - before
in_memory = best(lambda: script(fresh(work), exchange * asked)) - best(lambda: script(fresh(work)))
with open(disk + '/journal', 'rb') as f:
    size = (len(f.read()) - 9) // asked
loop = best(lambda: timed([work + '/loop', disk + '/loop', str(asked), str(size)]))
print(f'{asked} exchanges of {size} bytes: {on_disk * 1e6 / asked:.0f} us each on the disk, {in_memory * 1e6 / asked:.0f} in memory; '
      f'the loop {loop * 1e6 / asked:.0f}; {on_disk / (loop + in_memory):.2f} times both (wanted: 1.5)', flush=True)

def opened(name, data):
    """Opens a journal that the requests made, in memory."""
    journal = fresh(work)
    script(journal, data)
    with open(journal, 'rb') as f:
        file = f.read()
    texts, bad = journals.read(file)
    texts = (texts * (journals.LONGEST_JOURNAL // len(file) + 1))
    total, kept = 9, []
    for text in texts:
        total += 5 + len(text)
        if total > journals.LONGEST_JOURNAL:
            break
        kept.append(text)
    with open(journal, 'wb') as f:
        f.write(journals.file_of(kept))
    bytes_there = os.path.getsize(journal)
    start = time.monotonic()
    process = subprocess.Popen([work + '/sts', 'script', config, journal], stdin=subprocess.DEVNULL, stdout=subprocess.DEVNULL)
    _, status, used = os.wait4(process.pid, 0)
    seconds = time.monotonic() - start
    if status != 0:
        sys.exit(f'{name}: status {status}')
    print(f'{name}: {bytes_there} bytes in {len(kept)} entries opened in {seconds:.2f} s, {bytes_there / seconds / 1e6:.0f} MB a second (wanted: 20), '
          f'memory {used.ru_maxrss * 1024 / bytes_there:.2f} times the file (wanted: 3)', flush=True)

opened('links', exchange * 20)
END
