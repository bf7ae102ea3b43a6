#!/bin/sh
# Measures a server of a store in a file, and redis beside it if that is installed. Prints the table of
# docs/performance.md.
#
#     sh bench/measure_server.sh [PROGRAM [SECONDS]]
#
# PROGRAM is silt, built (else ./silt at the top), SECONDS how long each run lasts at most (else 3). It needs cc, and
# 500 MB in the folder that TMPDIR names (else /tmp): all files are made there, so that folder's disk is what is
# measured. Redis needs redis-server, redis-benchmark and redis-cli on the path. Leave the machine alone while it runs.
set -eu

top=$(cd "$(dirname "$0")/.." && pwd)
silt=${1:-$top/silt}
seconds=${2:-3}
value_len=100
# The rows of a log. A run ends when so many puts are made, so that nothing is done in the background.
rows=131072
# How many lines a pipelined client sends in one write.
burst=500
dir=$(mktemp -d)
server=
beside=
trap 'kill $server $beside 2>/dev/null || true; rm -rf "$dir"' EXIT

cc -O2 -pthread -o "$dir/clients" "$top/bench/clients.c"

# A number with separators.
commas() {
    echo "$1" | sed -e :a -e 's/^\([0-9]*[0-9]\)\([0-9]\{3\}\)/\1,\2/;ta'
}

# Waits until a command succeeds, for at most ten seconds.
wait_until() {
    tries=0
    while [ $tries -lt 100 ]; do
        if "$@" >/dev/null 2>&1; then return 0; fi
        tries=$((tries + 1))
        sleep 0.1
    done
    echo "waited ten seconds for: $*" >&2
    exit 1
}

# A new store, a server of it with these options, and so many writers and readers at once. Writers send so many lines
# in one write. Nothing is done in the background, so the calls that the server counts are the puts and the flushes.
# Gets are no calls. Sets puts, flushes and gets, in numbers a second.
run() {
    writers=$1 readers=$2 lines=$3
    shift 3
    rm -f "$dir/store"
    "$silt" format "$dir/store" $value_len 32768 $rows 2 1 $rows >"$dir/formatted"
    : >"$dir/printed"
    "$silt" serve "$dir/store" 0 --sessions $((writers + readers)) "$@" >"$dir/printed" &
    server=$!
    wait_until grep '^listening ' "$dir/printed"
    port=$(sed -n 's/^listening //p' "$dir/printed")
    "$dir/clients" "$port" "$writers" "$readers" "$seconds" $value_len "$lines" $rows >"$dir/counted"
    wait "$server"
    server=
    read -r _ puts _ gets _ refused _ took <"$dir/counted"
    if [ "$refused" -ne 0 ]; then
        echo "$refused puts were refused" >&2
        exit 1
    fi
    calls=$(sed -n 's/^calls //p' "$dir/printed")
    flushes=$(commas $(((calls - puts) * 1000 / took)))
    puts=$(commas $((puts * 1000 / took)))
    gets=$(commas $((gets * 1000 / took)))
}

# The line of so many sessions that send one line at a time: all of them put; all of them get beside one that puts (a
# server has 64 sessions at most); then half of them put and half get (one of each for one session).
line() {
    half=$((($1 + 1) / 2))
    run "$1" 0 1
    all="$puts | $flushes"
    run 1 $(($1 < 64 ? $1 : 63)) 1
    all="$all | $gets"
    run $half $half 1
    echo "| $1 | $all | $puts | $flushes | $gets |"
}

# The line of so many pipelined sessions, and these options of the server.
pipelined_line() {
    sessions=$1
    shift
    run "$sessions" 0 $burst "$@"
    echo "| $sessions, $burst lines a write${1:+, \`$1\`} | $puts | $flushes | | | | |"
}

# How often redis does one of its commands in a second, with so many connections that send so many at a time. A first
# short run says how many commands fill the time.
redis_rate() {
    redis_run "$1" "$2" "$3" 10000
    count=$((rate * seconds))
    [ "$count" -le $rows ] || count=$rows
    redis_run "$1" "$2" "$3" "$count"
    commas "$rate"
}

# The threads of redis-benchmark for so many connections: two, as clients.c has, but one for one connection.
redis_threads() {
    if [ "$1" -gt 1 ]; then echo "--threads 2"; fi
}

# Sets the rate of so many commands.
redis_run() {
    redis-benchmark -p "$redis_port" --csv -d $value_len -r 256 -t "$1" -c "$2" -P "$3" -n "$4" $(redis_threads "$2") \
        >"$dir/counted" 2>&1
    rate=$(sed -n 's/^"[SG]ET","\([0-9]*\).*/\1/p' "$dir/counted")
}

# Runs a command of redis with so many connections until the next one is done.
redis_rate_beside() {
    redis-benchmark -p "$redis_port" -q -l -d $value_len -r 256 -t "$1" -c "$2" $(redis_threads "$2") \
        >"$dir/beside" 2>&1 &
    beside=$!
    shift 2
    sleep 0.2
    redis_rate "$@"
    kill "$beside"
    wait "$beside" 2>/dev/null || true
    beside=
}

redis_line() {
    half=$((($1 + 1) / 2))
    puts=$(redis_rate set "$1" 1)
    gets=$(redis_rate_beside set 1 get "$1" 1)
    puts_beside=$(redis_rate_beside get $half set $half 1)
    gets_beside=$(redis_rate_beside set $half get $half 1)
    echo "| redis, $1 | $puts | | $gets | $puts_beside | | $gets_beside |"
}

# The lines of redis, which writes and syncs its log before it replies.
measure_redis() {
    redis_port=$((20000 + $$ % 10000))
    redis-server --port "$redis_port" --bind 127.0.0.1 --dir "$dir" --save '' --appendonly yes --appendfsync always \
        --auto-aof-rewrite-percentage 0 >"$dir/redis.log" 2>&1 &
    server=$!
    wait_until redis-cli -p "$redis_port" ping
    redis_line 1
    redis_line 8
    redis_line 64
    puts=$(redis_rate set 1 $burst)
    echo "| redis, 1, $burst commands a write | $puts | | | | | |"
    kill "$server"
    wait "$server" || true
    server=
}

echo "| Sessions | puts | flushes | gets | puts beside gets | flushes beside gets | gets beside puts |"
echo "|---|---|---|---|---|---|---|"
line 1
line 8
line 64
pipelined_line 1
pipelined_line 1 --pipeline
pipelined_line 8 --pipeline
if command -v redis-server >/dev/null && command -v redis-benchmark >/dev/null; then
    measure_redis
else
    echo "redis is not installed, so it is not measured" >&2
fi
