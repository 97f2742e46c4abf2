#!/usr/bin/env bash
# Frames a second and the peak of memory of `sts script`, over scripts of 10,000, 100,000 and 1,000,000 frames
# without a route, and of as many introspections.
. "$(dirname "$0")/setup.sh"
cp "$top/examples/first/config.json" "$work/config.json"
printf '%-14s %10s %10s %12s %10s\n' kind frames seconds frames/s peak-KiB
for kind in no-route introspection; do
    for frames in 10000 100000 1000000; do
        python3 - "$kind" "$frames" "$work" <<'END'
import resource, subprocess, sys, time
kind, frames, work = sys.argv[1], int(sys.argv[2]), sys.argv[3]
frame = b'/v1/none - 1700000000 0\n\n' if kind == 'no-route' else \
    b'/v1/introspect gate-secret-0000001 1700000000 19\ntoken=abc.def.ghijk\n\n'[:-1]
with open(work + '/input', 'wb') as f:
    for _ in range(frames // 1000):
        f.write(frame * 1000)
with open(work + '/input', 'rb') as source, open(work + '/output', 'wb') as sink:
    start = time.monotonic()
    status = subprocess.run([work + '/sts', 'script', work + '/config.json', work + '/journal'], stdin=source, stdout=sink).returncode
    seconds = time.monotonic() - start
peak = resource.getrusage(resource.RUSAGE_CHILDREN).ru_maxrss
if status != 0:
    sys.exit(f'status {status}')
print(f'{kind:14} {frames:10} {seconds:10.3f} {frames / seconds:12.0f} {peak:10}')
END
    done
done
