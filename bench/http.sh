#!/usr/bin/env bash
# Requests a second of `sts listen` over loopback: introspections of a live token, checks that are granted and exchanges, each over one connection
# that is kept and over a connection a request, by one client that waits for each reply. Beside it a plain server in C that reads a head and a
# body and writes a reply of the same bytes, and for checks, where `go` is there, one in Go's net/http that verifies the token too, asked by the
# same client. Medians of 5 runs; the journal is in memory (bench/journal.sh measures it on a disk).
# SCALE divides the numbers of requests, for a slower program; STS names one that is built already.
if [ -n "${STS-}" ]; then
    set -eu
    top=$(cd "$(dirname "$0")/.." && pwd)
    work=$(mktemp -d -p /dev/shm 2>/dev/null || mktemp -d)
    trap 'rm -rf "$work"' EXIT
    cp "$STS" "$work/sts"
else
    . "$(dirname "$0")/setup.sh"
fi
cat > "$work/http.c" <<'END_OF_C'
#define _GNU_SOURCE
#include <arpa/inet.h>
#include <netinet/tcp.h>
#include <stdio.h>
#include <stdlib.h>
#include <string.h>
#include <sys/socket.h>
#include <time.h>
#include <unistd.h>

static char bytes[1 << 17];

/* The place behind a message with a Content-Length: what of it is there, and more until it is whole, 0 at the end. */
static size_t whole(int at) {
    size_t have = 0, want = 0;
    while (!want || have < want) {
        ssize_t got = read(at, bytes + have, sizeof bytes - 1 - have);
        if (got <= 0) return 0;
        bytes[have += got] = 0;
        char *end = want ? NULL : strstr(bytes, "\r\n\r\n");
        if (end) {
            char *length = strcasestr(bytes, "content-length:");
            want = end + 4 - bytes + (length && length < end ? atol(length + 15) : 0);
        }
    }
    return want;
}

static void put(int at, const char *data, size_t size) {
    while (size) {
        ssize_t done = write(at, data, size);
        if (done <= 0) exit(1);
        data += done, size -= done;
    }
}

static struct sockaddr_in loopback(const char *port) {
    struct sockaddr_in at = {.sin_family = AF_INET, .sin_port = htons(atoi(port)), .sin_addr.s_addr = htonl(INADDR_LOOPBACK)};
    return at;
}

static int joined(const char *port) {
    struct sockaddr_in there = loopback(port);
    for (int tries = 0; tries < 200000; tries++) {
        int at = socket(AF_INET, SOCK_STREAM, 0), one = 1;
        if (connect(at, (struct sockaddr *)&there, sizeof there) == 0) {
            setsockopt(at, IPPROTO_TCP, TCP_NODELAY, &one, sizeof one);
            return at;
        }
        close(at);
        usleep(5000);
    }
    exit(1);
}

/* COUNT requests behind one that isn't counted; the seconds they take. */
static void load(const char *port, long count, int closes, const char *data, size_t size) {
    struct timespec from, to;
    int at = joined(port);
    for (long i = 0; i <= count; i++) {
        if (closes && i) at = joined(port);
        put(at, data, size);
        if (!whole(at) || strncmp(bytes, "HTTP/1.1 200 ", 13)) exit(1);
        if (closes) {
            if (read(at, bytes, 1) != 0) exit(1);
            close(at);
        }
        if (i == 0) clock_gettime(CLOCK_MONOTONIC, &from);
    }
    clock_gettime(CLOCK_MONOTONIC, &to);
    printf("%.6f\n", to.tv_sec - from.tv_sec + (to.tv_nsec - from.tv_nsec) / 1e9);
}

/* COUNT connections one after another, each with one request or with any number. */
static void serve(const char *port, long count, const char *data, size_t size) {
    struct sockaddr_in here = loopback(port);
    int door = socket(AF_INET, SOCK_STREAM, 0), one = 1;
    setsockopt(door, SOL_SOCKET, SO_REUSEADDR, &one, sizeof one);
    if (bind(door, (struct sockaddr *)&here, sizeof here) || listen(door, 128)) exit(1);
    while (count--) {
        int at = accept(door, NULL, NULL), closes = 0;
        setsockopt(at, IPPROTO_TCP, TCP_NODELAY, &one, sizeof one);
        while (!closes && whole(at)) {
            closes = strcasestr(bytes, "\r\nconnection: close\r\n") != NULL;
            put(at, data, size);
        }
        close(at);
    }
}

int main(int count, char **words) {
    static char data[1 << 17];
    FILE *file = count == 6 ? fopen(words[5], "rb") : NULL;
    if (!file) return 2;
    size_t size = fread(data, 1, sizeof data, file);
    if (!strcmp(words[1], "load")) load(words[2], atol(words[3]), atoi(words[4]), data, size);
    else serve(words[2], atol(words[3]), data, size);
    return 0;
}
END_OF_C
cc -O2 -o "$work/http" "$work/http.c"
if command -v go >/dev/null; then
    GOCACHE="$work/cache" go build -o "$work/http_check" "$top/bench/http_check.go"
fi
python3 - "$top" "$work" "${SCALE:-1}" <<'END'
import json, os, shutil, socket, statistics, subprocess, sys, time
top, work, scale = sys.argv[1], sys.argv[2], int(sys.argv[3])
sys.path[:0] = [top + '/tools', top + '/bench']
from counting import fresh
from http_mutations import framed
from signing import compact, frame, presented

config = top + '/examples/ci/config.json'
with open(config) as source:
    secrets = json.load(source)
with open(top + '/examples/ci/commands') as source:
    commands = source.read().splitlines()
RUNS, KEPT, CLOSED = 5, 20000 // scale, 5000 // scale

def free_port():
    with socket.socket() as one:
        one.bind(('127.0.0.1', 0))
        return str(one.getsockname()[1])

def asked(made, closes):
    """The bytes of the request that a frame is."""
    one = framed(made)
    one.fields += [['Connection', 'close']] * closes
    return one.bytes()

def rate(server, count, closes, request):
    """Requests a second of a server that ends behind so many connections, and its reply's bytes."""
    with open(work + '/request', 'wb') as f:
        f.write(request)
    port = free_port()
    started = subprocess.Popen([port if word == 'PORT' else word for word in server], stdout=subprocess.DEVNULL)
    seconds = float(subprocess.run([work + '/http', 'load', port, str(count), str(closes), work + '/request'], stdout=subprocess.PIPE, check=True).stdout)
    if started.wait(60) != 0:
        sys.exit('the server ends with status', started.returncode)
    return count / seconds

def reply(made):
    """The reply's bytes, over `stdio`."""
    return subprocess.run([work + '/sts', 'stdio', config, begun()], input=asked(made, 1), stdout=subprocess.PIPE, check=True).stdout

def begun():
    """A journal with the commands and one token."""
    shutil.copy(work + '/base', work + '/journal')
    return work + '/journal'

now = int(time.time())
claims = {'sub': 'repo:octo/app', 'repository': 'octo/app', 'teams': ['builders'], 'ref': 'refs/heads/main', 'exp': now + 100_000}
exchange = presented(json.loads(commands[1]), claims, now)
world = b''.join(frame('/v1/admin', secrets['admin'], now, one) for one in commands) + exchange
told = subprocess.run([work + '/sts', 'script', config, fresh(work)], input=world, stdout=subprocess.PIPE, check=True).stdout
shutil.copy(work + '/journal', work + '/base')
token = told.rsplit(b'"access_token":"', 1)[1].split(b'"', 1)[0].decode()
resource = '//storage.googleapis.com/projects/_/buckets/artifacts/objects/app.tar'
requests = {'introspection': frame('/v1/introspect', secrets['gate'], now, 'token=' + token), 'exchange': exchange, 'check': frame(
    '/v1/check', secrets['gate'], now, compact({'token': token, 'permission': 'storage.objects.get', 'resource': resource}))}

print(f"{'request':14} {'connections':12} {'sts a second':>13} {'in C':>9} {'in Go':>9} {'sts, us':>9} {'in C, us':>9} {'in Go, us':>10}")
for name, made in requests.items():
    answer = reply(made)
    if b'"active":true' not in answer and b'"allowed":true' not in answer and b'"access_token"' not in answer:
        sys.exit(name + ' is refused')
    for closes in (0, 1):
        with open(work + '/reply', 'wb') as f:
            f.write(answer if closes else answer.replace(b'Connection: close\r\n', b''))
        count, connections = (CLOSED, CLOSED + 1) if closes else (KEPT, 1)
        servers = [[work + '/sts', 'listen', config, None, 'PORT', str(connections)], [work + '/http', 'serve', 'PORT', str(connections), '0', work + '/reply']]
        if name == 'check' and os.path.exists(work + '/http_check'):
            servers.append([work + '/http_check', config, 'PORT', str(connections)])
        found = [statistics.median(rate([begun() if word is None else word for word in server], count, closes, asked(made, closes)) for _ in range(RUNS))
                 for server in servers]
        rates = ''.join(f' {one:9.0f}' for one in found[1:]) + ' ' * (3 - len(found)) * 10
        print(f"{name:14} {'one each' if closes else 'one':12} {found[0]:13.0f}{rates}" + ''.join(f' {1e6 / one:9.1f}' for one in found), flush=True)
END
