# Read by each bench: builds the program, and copies it to the folder $work, which goes at the end.
set -eu
top=$(cd "$(dirname "$0")/.." && pwd)
# In memory where that can be, so that the disk counts where it is meant to alone.
work=$(mktemp -d -p /dev/shm 2>/dev/null || mktemp -d)
trap 'rm -rf "$work"' EXIT
printf 'WIFJ0001\0' > "$work/journal"
"$top/sts" script "$top/examples/first/config.json" "$work/journal" </dev/null
cp "$top/crates/wif_tool/out/wif_tool" "$work/sts"
