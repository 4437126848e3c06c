# A thousand sessions with malicious clients (soak.py): early leavers, garbage, silence, a byte a second, half closed, reset, not reading.
# And a clone of as many references as the daemon can serve.

# write_lie: what such a client sends: `lie`, a greeting, and `asks`, a fetch that the heavy pack answers.
write_lie() {
    printf "$(greeting here version=2)" > lie
    fetch "$(git -C heavy rev-parse main)" > asks
}

# descriptors_are COUNT: that the daemon reaches so many, within half a minute.
descriptors_are() {
    local i
    for ((i = 0; i < 300; i++)); do
        [ "$(ls "/proc/$daemon/fd" | wc -l)" != "$1" ] || return 0
        sleep 0.1
    done
    differs "$(ls "/proc/$daemon/fd" | wc -l) descriptors instead of $1"
}

# A first round has used each place of the daemon. A thread's heap grows once more when a heavier session than any before comes to its
# place, so one round may grow; memory that is never given back grows in each of them. The pack is mapped, and is not counted: the
# kernel takes it in as it is read, and out as it likes.
case_a_daemon_in_c_is_the_same_after_a_thousand_lies() {
    local descriptors memory grown=512 rounds
    patience=3
    write_lie
    start_daemon heavy daemon
    descriptors=$(ls "/proc/$daemon/fd" | wc -l)
    timeout 300 "$top/tests/soak.py" daemon "$port" 512 lie asks deaf garbage
    for ((rounds = 0; rounds < 5 && grown >= 512; rounds++)); do
        memory=$(memory_of RssAnon)
        timeout 300 "$top/tests/soak.py" daemon "$port" 1000 lie asks
        descriptors_are "$descriptors"
        grown=$(($(memory_of RssAnon) - memory))
    done
    [ $grown -lt 512 ] || differs "$grown KiB more in each of $rounds rounds of a thousand sessions"
    ls_remote "$address" refs/heads/main
    expect 0 <(git ls-remote ./heavy refs/heads/main) /dev/null
    end_daemon
}

# No session takes more memory than one that asks and reads.
case_serve_takes_a_fixed_memory_of_a_thousand_lies() {
    local honest most
    write_lie
    honest=$("$top/tests/soak.py" serve 4 asks git2show serve --repo heavy.repo --pack heavy.pack) # one of each kind
    most=$(timeout 300 "$top/tests/soak.py" serve 1000 asks git2show serve --repo heavy.repo --pack heavy.pack)
    [ "$most" -lt $((honest + 1024)) ] || differs "$most KiB instead of $honest"
}

# The lines of the request, `want-ref` and a name, have almost as many bytes as the limit allows.
case_a_daemon_in_c_serves_300000_references() {
    local before after
    write_many 300000 74
    start_daemon many daemon
    before=$(memory_of VmRSS)
    forget_peak
    timeout 120 git -c protocol.version=2 clone -q --mirror "$address" ours || differs 'a clone that failed'
    after=$(memory_of $peak)
    [ $((after - before)) -lt 32768 ] || differs "$((after - before)) KiB for a client"
    has_many
    end_daemon
    expect_same 'what the daemon reported' /dev/null daemon.err
    rm -rf ours many.repo
}
