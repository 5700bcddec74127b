#!/bin/sh
# night.sh [FOLDER]: tests nfs-ganesha over two crashes. It is killed and started again while clients call.
#
# It needs root, nfs-ganesha, nfs-ganesha-vfs and rpcbind, nfsbench in the PATH, and ports 12049 and 12050.
# It DELETES all that is in /srv/tried. This is the folder that ganesha.conf exports; it has to be on ext4 or xfs.
# FOLDER, or night-DATE, is made for the history and the reports. The status and the last line are those of nfsbench test;
# the status is 2 too if the night can't begin. The lines before say how many calls were open at each crash: sent, and not answered.
conf=$(dirname "$0")/ganesha.conf export=/srv/tried nfs=12049 mount=12050
night=${1:-night-$(date +%Y%m%d-%H%M%S)} bench='' server='' rpcbind=''

refuse() { echo "refused: $*" >&2; exit 2; }
is_used() { grep -qs ":$(printf %04X "$1") [0-9A-F:]* 0A" /proc/net/tcp /proc/net/tcp6; }
serve() { ganesha.nfsd -F -f "$conf" -L "$work/log" -p "$work/pid" & server=$!; }
has_changed() { find "$export" -newer "$work/orders" 2> /dev/null | grep -q .; }

# Ends and removes what this script began, and nothing else. A night that is interrupted leaves an empty folder.
# shellcheck disable=SC2317
clean() {
  trap '' HUP INT TERM
  for process in $bench $server $rpcbind; do kill -9 "$process" 2> /dev/null; done
  wait 2> /dev/null
  [ -z "$rpcbind" ] || rm -f /run/rpcbind.sock /run/rpcbind.lock
  rm -rf "$work"; rmdir "$night" 2> /dev/null
}

[ "$(id -u)" = 0 ] || refuse "the server needs root"
for program in nfsbench ganesha.nfsd rpcbind rpcinfo; do command -v $program > /dev/null || refuse "no $program in the PATH"; done
for port in $nfs $mount; do ! is_used "$port" || refuse "port $port is in use"; done
[ ! -e "$night" ] || refuse "$night is there already"
[ "$(grep -o 'Path = "[^"]*"' "$conf")" = "Path = \"$export\"" ] || refuse "$conf doesn't export $export alone"
[ ! -L "$export" ] || refuse "$export is a link"
mkdir -p "$export" || refuse "$export can't be made"
find "$export" -xdev -mindepth 1 -delete || refuse "$export can't be emptied"

work=$(mktemp -d) || refuse "no temporary folder"
trap clean EXIT; trap 'exit 129' HUP; trap 'exit 130' INT; trap 'exit 143' TERM
rpcinfo > /dev/null 2>&1 || { setsid rpcbind -f & rpcbind=$!; }
until rpcinfo > /dev/null 2>&1; do kill -0 "$rpcbind" 2> /dev/null || { rpcbind=''; refuse "rpcbind doesn't start"; }; sleep 0.1; done
: > "$work/orders"; serve
nfsbench test --port $nfs --mount $mount --export "$export" --empty --seed 7 --least-page 4096 --seconds 5 --rounds 2 \
  --orders "$work/orders" --out "$night" > "$work/verdict" & bench=$!

# An era's clients call for 5 seconds, and the kill comes 2 seconds after the first change that they make.
for _ in 1 2; do
  until has_changed; do kill -0 "$bench" 2> /dev/null || break 2; sleep 0.1; done
  sleep 2
  kill -9 "$server"; wait "$server" 2> /dev/null; echo crash >> "$work/orders"
  serve; echo up >> "$work/orders"
done
wait "$bench"; status=$?; bench=''
[ ! -f "$night/history" ] || nfsbench show "$night/history" | awk '
  $2 == "call" { open++ }
  $2 == "reply" { open-- }
  $2 == "crash" { print "crash " ++crashes ": " open + 0 " calls were open"; open = 0 }'
cat "$work/verdict"
exit "$status"
