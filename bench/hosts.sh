# shellcheck shell=bash disable=SC2154
# The rows `host`, for bench/run.sh, which reads this file: one request answered by a gitwire_host, beside a gitwire_server over a repository with
# the same contents. Both are called from C (hosts.c).

# hosts_row NAME BYTES references|pack COUNT
hosts_row() {
    local name=$1 bytes=$2 of_server=0 of_host=0 time i
    shift 2
    for ((i = 0; i < runs; i++)); do
        time=$("$out/hosts" server "$@" 2>&1 > /dev/null)
        keep_least of_server "$time"
        time=$("$out/hosts" host "$@" 2>&1 > /dev/null)
        keep_least of_host "$time"
    done
    row "$name" "$bytes" "$of_server" "$of_host"
}

same_hosts() {
    local what
    for what in 'references 100000' 'pack 10000000'; do
        # shellcheck disable=SC2086
        cmp <("$out/hosts" server $what 2> /dev/null) <("$out/hosts" host $what 2> /dev/null) ||
            stop "a gitwire_server and a gitwire_host answer differently: $what"
    done
}

measure_hosts() {
    same_hosts
    hosts_row 'host, 1,000,000 references' 65000004 references 1000000
    hosts_row 'host, a pack of 1 GB' 1000000000 pack 1000000000
}
