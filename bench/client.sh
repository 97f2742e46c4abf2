#!/usr/bin/env bash
# What a lease costs that the newest token covers: 100,000 lines of one moment by 1, 2 and 4 workers of `wif_client`, beside a Rust program
# that does the same lines over a token under a mutex (wanted: at most 5 times its time at one worker), and 64 workers that ask at one
# moment (wanted: one renewal). The token service is a plain one in Python, on loopback.
set -eu
top=$(cd "$(dirname "$0")/.." && pwd)
work=$(mktemp -d)
trap 'rm -rf "$work"' EXIT
"$top/wif_client" run "$top/crates/wif_client/data/client.json" 1 0 </dev/null
rustc -O -o "$work/mutex" "$top/bench/mutex_client.rs"
python3 - "$top" "$work" <<'END'
import http.server, json, statistics, subprocess, sys, threading, time
top, work = sys.argv[1:]
program = top + '/crates/wif_client/out/wif_client'
asked = []

class Tokens(http.server.BaseHTTPRequestHandler):
    def do_POST(self):
        asked.append(self.rfile.read(int(self.headers['content-length'])))
        body = json.dumps({'access_token': 't' * 800, 'token_type': 'Bearer', 'expires_in': 900}).encode()
        self.send_response(200)
        self.send_header('content-length', str(len(body)))
        self.end_headers()
        self.wfile.write(body)

    def log_message(self, *said):
        pass

server = http.server.HTTPServer(('127.0.0.1', 0), Tokens)
threading.Thread(target=server.serve_forever, daemon=True).start()
with open(top + '/crates/wif_client/data/client.json') as f:
    client = json.load(f)
client['token_url'] = f'http://127.0.0.1:{server.server_port}/v1/token'
client['credential_source']['file'] = work + '/subject'
with open(work + '/client.json', 'w') as f:
    json.dump(client, f)
with open(work + '/subject', 'w') as f:
    f.write('a.b.c')

def timed(words, data):
    start = time.monotonic()
    done = subprocess.run(words, input=data, stdout=subprocess.PIPE)
    if done.returncode != 0:
        sys.exit(f'status {done.returncode}')
    return time.monotonic() - start, done.stdout

def median(words, data):
    return statistics.median(timed(words, data)[0] for _ in range(5))

for workers in (1, 2, 4):
    lines = b''.join(b'%d 1700000000\n' % (number % workers) for number in range(100_000))
    run = [program, 'run', work + '/client.json', str(workers), '60']
    told, other = timed(run, lines)[1], timed([work + '/mutex', str(workers)], lines)[1]
    leases = [line for line in told.splitlines(True) if not line.startswith(b'renewal')]
    if b''.join(leases) != other or told.count(b'renewal') != 1:
        sys.exit('the lines differ, or there are several renewals')
    ours, mutex = median(run, lines), median([work + '/mutex', str(workers)], lines)
    print(f'{workers} workers: {100 / ours:,.0f} thousand lines a second, the mutex {100 / mutex:,.0f}; {ours / mutex:.2f} times its time', flush=True)

del asked[:]
told = timed([program, 'run', work + '/client.json', '64', '60'], b''.join(b'%d 1700000000\n' % worker for worker in range(64)))[1]
print(f'64 workers at one moment: {told.count(b"renewal")} renewal, {len(asked)} request')
END
