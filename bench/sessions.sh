# shellcheck shell=bash disable=SC2154
# How much memory examples/daemon.c takes for a hundred open sessions, for bench/run.sh, which reads this file: each has asked for the pack,
# and does not read it, so that everything that the daemon and the library keep for a client is in use. The pack is mapped: what of it was read is
# the kernel's to keep, and is counted apart.

sessions=100

# Prints a number of kB that the system reports for a process: resident KIND.
resident() {
    sed -n "s/^$2:[^0-9]*\([0-9]*\) kB/\1/p" "/proc/$1/status"
}

tell_sessions() {
    local daemon port i connection whole before after mapped connections=()
    local one=1111111111111111111111111111111111111111
    printf 'format sha1\nref %s HEAD\nobject %s 1\n' "$one" "$one" > "$streams/one_text"
    head -c 20000000 "$streams/large" > "$streams/some_pack"
    "$out/daemon" 127.0.0.1 0 600 here "$streams/one_text" "$streams/some_pack" > "$streams/listening" &
    daemon=$!
    for ((i = 0; i < 100; i++)); do
        [ ! -s "$streams/listening" ] || break
        sleep 0.1
    done
    port=$(sed 's/.*:\([0-9]*\)\/.*/\1/' "$streams/listening")
    whole=$(resident "$daemon" VmRSS)
    before=$(resident "$daemon" RssAnon)
    for ((i = 0; i < sessions; i++)); do
        exec {connection}<> "/dev/tcp/127.0.0.1/$port"
        printf '0034git-upload-pack /here\0host=127.0.0.1\0\0version=2\0' >&"$connection"
        cat "$streams/asked_pack" >&"$connection"
        connections+=("$connection")
    done
    sleep 2
    after=$(resident "$daemon" RssAnon)
    mapped=$(resident "$daemon" RssFile)
    for connection in "${connections[@]}"; do exec {connection}>&-; done
    kill -INT "$daemon"
    wait "$daemon"
    echo "Resident set of examples/daemon.c: $whole KiB with a pack of 20 MB and nobody, $((after - before)) KiB more with $sessions sessions amid the pack,"
    echo "beside $mapped KiB of files, which are the program and what was read of the pack."
}
