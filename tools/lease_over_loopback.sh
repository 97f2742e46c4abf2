#!/usr/bin/env bash
# The client against the service, both as built programs, over loopback: two workers lease an access token by one renewal, and the service
# tells of that token that it is active.
#
# usage: tools/lease_over_loopback.sh STS WIF_CLIENT
set -eu
if [ $# != 2 ]; then
    sed -n '2,5s/^# \{0,1\}//p' "$0" >&2
    exit 2
fi
top=$(cd "$(dirname "$0")/.." && pwd)
sts=$(realpath "$1")
client=$(realpath "$2")
work=$(mktemp -d)
server=
trap 'if [ -n "$server" ]; then kill "$server" 2>/dev/null || true; fi; rm -rf "$work"' EXIT
config=$top/examples/first/config.json
now=$(date +%s)

wrong() {
    echo "wrong: $*" >&2
    exit 1
}

# A port that is free now.
port=$(python3 -c 'import socket; s = socket.socket(); s.bind(("127.0.0.1", 0)); print(s.getsockname()[1])')

# The subject token is that of the form that `signing.py exchange` makes.
"$sts" init "$work/journal"
form=$(python3 "$top/tools/signing.py" "$config" exchange repo:octo/app "$now" | sed -n 2p)
printf '%s' "$form" | grep -o 'subject_token=[^&]*' | cut -d = -f 2 | tr -d '\n' > "$work/subject.jwt"
cat > "$work/client.json" <<END_OF_CLIENT
{"type":"external_account","audience":"//iam.googleapis.com/projects/1234/locations/global/workloadIdentityPools/ci-pool/providers/github",
"subject_token_type":"urn:ietf:params:oauth:token-type:jwt","token_url":"http://127.0.0.1:$port/v1/token","credential_source":{"file":"$work/subject.jwt"}}
END_OF_CLIENT

# One connection for the renewal, one for the introspection.
"$sts" listen "$config" "$work/journal" "$port" 2 &
server=$!
for _ in $(seq 6000); do
    kill -0 "$server" 2>/dev/null || wrong "the service is not up"
    if grep -q " 0100007F:$(printf '%04X' "$port") 00000000:0000 0A " /proc/net/tcp; then break; fi
    sleep 0.1
done

now=$(date +%s)
printf '0 %s\n1 %s\n' "$now" "$now" | "$client" run "$work/client.json" 2 60 > "$work/told" || wrong "the client ends with status $?"
cat "$work/told"
index='[0-9][0-9]*'
[ "$(wc -l < "$work/told")" = 3 ] || wrong "the client writes other than three lines"
sed -n 1p "$work/told" | grep -qx "0 $now lease 0 $index" || wrong "the first line is no lease of worker 0"
sed -n 2p "$work/told" | grep -qx "1 $now lease 0 $index" || wrong "the second line is no lease of worker 1"
sed -n 3p "$work/told" | grep -qx "renewal 0 asked $now exp $index token [A-Za-z0-9_.-]*" || wrong "the third line is no renewal"
[ "$(sed -n '1,2s/.* //p' "$work/told" | sort -u)" = "$(sed -n '3s/.* exp \([0-9]*\) .*/\1/p' "$work/told")" ] || wrong "the leases end at another moment than the renewal"

token=$(sed -n '3s/.* token //p' "$work/told")
active=$(curl -s -H 'Authorization: Bearer gate-secret-0000001' -d "token=$token" "http://127.0.0.1:$port/v1/introspect")
echo "$active"
case $active in
'{"active":true,'*'"sub":"principal://iam.googleapis.com/projects/1234/locations/global/workloadIdentityPools/ci-pool/subject/repo:octo/app"'*) ;;
*) wrong "the service doesn't tell of the token that it is active" ;;
esac
wait "$server" || wrong "the service ends with status $?"
server=
echo "two leases by one renewal, and its token is active"
