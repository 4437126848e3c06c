# Cases in which the real Git, and malicious clients, connect to the daemon of examples/, which library.sh builds.

# How long it waits for a client, in seconds: longer than a well-behaved one takes for a step, also under load.
patience=30

# start_daemon NAME [COMMAND..]: serves a repository by this daemon or the watched one, on a free port. Sets `daemon`, the process, `port`
# and `address`.
start_daemon() {
    local name=$1 command=("${@:2}")
    [ $# -gt 1 ] || command=(daemon-watched)
    rm -f listening
    "${command[@]}" 127.0.0.1 0 "$patience" here "$name.repo" "$name.pack" > listening 2> daemon.err &
    daemon=$!
    trap 'kill -KILL $daemon 2> /dev/null || true' EXIT # where the case ends early
    wait_for listening
    address=$(cat listening)
    port=${address#git://127.0.0.1:}
    port=${port%/here}
}

# end_daemon: interrupts it, and expects that it ends well: it touched no memory that it may not, and freed all.
end_daemon() {
    local i ended=0
    kill -INT $daemon
    for ((i = 0; i < 300; i++)); do
        kill -0 $daemon 2> /dev/null || break
        sleep 0.1
    done
    ! kill -KILL $daemon 2> /dev/null || differs 'a daemon that did not end'
    wait $daemon || ended=$?
    [ $ended = 0 ] || differs "status $ended of the daemon" daemon.err
}

# daemon_told LINE [COUNT]: that the daemon reports this, once or at least so many times, within half a minute.
daemon_told() {
    local i
    for ((i = 0; i < 300; i++)); do
        [ "$(grep -c -x -F -e "$1" daemon.err)" -lt "${2:-1}" ] || return 0
        sleep 0.1
    done
    differs "a daemon that did not report '$1'${2:+ $2 times}" daemon.err
}

# says BYTES..: opens a connection to the daemon, descriptor 5, and sends this over it, each word as printf's format.
says() {
    local bytes
    exec 5<> "/dev/tcp/127.0.0.1/$port"
    for bytes; do
        printf "$bytes" >&5
    done
}

# hears_to_the_end FILE: what the daemon sends over that connection, until it closes it.
hears_to_the_end() {
    limited cat <&5 > "$1" || [ $? = 1 ] || differs 'a connection that did not end' # 1 is of one that is broken off
    exec 5>&-
}

# first_packet FORMAT: the packet with what this format gives, as a format.
first_packet() {
    printf '%04x%s' $((4 + $(printf "$1" | wc -c))) "$1"
}

# greeting NAME PARAMETER: the first packet of a client, as a format.
greeting() {
    first_packet "git-upload-pack /$1\\0host=127.0.0.1\\0\\0$2\\0"
}

case_a_daemon_in_c_serves_git() {
    start_daemon history-sha1
    ls_remote --symref "$address"
    expect_same 'the list' <(git ls-remote --symref ./history-sha1) out
    clone "$address" ours
    clone_from_git history-sha1
    same_clones
    has_references 12
    clone "$address" ours --mirror
    has_all history-sha1
    end_daemon
    expect_same 'what the daemon reported' /dev/null daemon.err
}

# A clone with a filter gets the pack for these, and has the same contents as from Git's own server; one without gets everything.
case_a_daemon_in_c_serves_a_filtered_pack() {
    write_filtered
    start_daemon history-sha1 bash -c 'exec daemon-watched "$@" history-sha1.filtered' daemon
    clone "$address" ours --bare --filter=blob:none
    clone_partly_from_git history-sha1 --bare --filter=blob:none
    same_clones
    misses_blobs history-sha1
    sent_filter 1
    clone "$address" ours --mirror
    has_all history-sha1
    end_daemon
    expect_same 'what the daemon reported' /dev/null daemon.err
}

# A pipe is read, and of no bytes there is nothing to map.
case_a_daemon_in_c_takes_packs_that_cannot_be_mapped() {
    : > nothing
    start_daemon history-sha1 bash -c 'exec daemon-watched "${@:1:5}" <(cat "$6") nothing' daemon
    clone "$address" ours --mirror
    expect 0 /dev/null /dev/null
    git -C ours fsck --full --strict --no-dangling
    end_daemon
    expect_same 'what the daemon reported' /dev/null daemon.err
    rm nothing
}

case_a_daemon_in_c_serves_git_sha256() {
    start_daemon history-sha256
    clone "$address" ours
    clone_from_git history-sha256
    same_clones
    sent object-format=sha256
    end_daemon
}

# serves_an_empty_repository FORMAT: that a clone from the daemon has the branch of the repository as its own.
serves_an_empty_repository() {
    start_daemon "empty-$1"
    clone "$address" ours
    ends_on_its_branch
    end_daemon
    expect_same 'what the daemon reported' /dev/null daemon.err
}

case_a_daemon_in_c_serves_an_empty_repository() {
    serves_an_empty_repository sha1
    serves_an_empty_repository sha256
}

case_a_daemon_in_c_serves_fetches() {
    grow further history-sha1
    with_lines further.git prompt 'ready 2'
    start_daemon prompt
    both history-sha1 --no-tags
    git -C theirs fetch -q --no-tags "file://$room/further.git" '+refs/heads/*:refs/remotes/origin/*'
    fetch_from "$address" ours --no-tags
    same_after_fetch
    expect_line 'what Git got' ready <(sed -n 's/^[^<]*< //p' "$trace")
    fetch_from "$address" ours --no-tags
    same_after_fetch
    cut_off further.git brief --depth 1
    end_daemon
    start_daemon brief
    rm -rf ours theirs
    git -c protocol.version=2 clone -q --no-tags --depth 1 "file://$room/further.git" theirs
    clone "$address" ours --no-tags --depth 1
    had theirs > wanted
    had ours > written
    expect_same 'what a shallow clone has' wanted written
    end_daemon
}

# A connection to the daemon that stops in the middle of the pack, until a file `resumed` exists. The first bytes are passed on one by one,
# so that Git receives exactly as many, at once. The sender is in the background, where the shell gives it no input unless it is redirected.
write_halting_way() {
    cat > bin/halting-way << EOF
#!/bin/bash
cd "$room"
exec 5<> "/dev/tcp/127.0.0.1/\$2"
cat <&0 >&5 &
sender=\$!
{
    dd bs=1 count=100000 2> halted
    for i in {1..3000}; do [ ! -e resumed ] || break; sleep 0.1; done
    cat || true
} <&5
kill \$sender
EOF
    chmod +x bin/halting-way
}

# visit NUMBER: depending on the number, lists what the daemon serves, fetches it into an existing repository, or clones it, and writes
# `main` as it got it.
visit() {
    local git=(timeout 200 git -c protocol.version=2)
    case $(($1 % 5)) in
    0)
        "${git[@]}" ls-remote "$address" refs/heads/main | cut -f 1
        ;;
    1)
        git init -q --bare "many/$1"
        "${git[@]}" -C "many/$1" fetch -q "$address" main:main
        git -C "many/$1" rev-parse main
        ;;
    *)
        "${git[@]}" clone -q --bare "$address" "many/$1"
        git -C "many/$1" rev-parse main
        ;;
    esac
}

# Twenty at once, and beside them one that stops in the middle of its clone, one that sends garbage, and one that sends nothing.
case_a_daemon_in_c_serves_twenty_at_once() {
    local i clients=() halting status
    patience=10
    rm -rf halted resumed many
    mkdir many
    git -C heavy rev-parse main > many/wanted
    write_halting_way
    start_daemon heavy
    says
    exec 6<&5
    git -c protocol.version=2 -c core.gitProxy="$room/bin/halting-way" clone -q "$address" many/halting > /dev/null 2>&1 &
    halting=$!
    wait_for halted
    [ "$(head -n 1 halted)" = '100000+0 records in' ] || differs 'a clone that did not reach its middle' halted
    for i in {1..20}; do
        visit $i > "many/$i.main" 2> "many/$i.err" &
        clients+=($!)
    done
    says zzzz
    hears_to_the_end garbage
    expect_same 'what is reported of garbage' <(packet 'ERR BadDigit at 0') garbage
    for i in {1..20}; do
        wait "${clients[i - 1]}" || differs "visit $i, which failed" "many/$i.err"
        expect_same "what visit $i got" many/wanted "many/$i.main"
    done
    git -C many/6 fsck --full --strict --no-dangling
    git -C many/7 fsck --full --strict --no-dangling
    daemon_told 'daemon: a client was too slow' 2
    : > resumed
    status=0
    wait $halting || status=$?
    [ $status = 128 ] || differs "status $status of a clone that was too slow"
    exec 6<&-
    end_daemon
    rm -rf many
}

# memory_of KEY: how much memory the daemon has, from this line of its status, in KiB.
memory_of() {
    sed -n "s/^$1:[^0-9]*\([0-9]*\) kB/\1/p" "/proc/$daemon/status"
}

# forget_peak: sets `peak`, the key for memory_of that gives the daemon's peak from now on, or its present memory if the peak cannot be reset.
forget_peak() {
    peak=VmHWM
    { echo 5 > "/proc/$daemon/clear_refs"; } 2> /dev/null || peak=VmRSS
}

# The pack is mapped: none of it is in memory before a client comes, and it is never there twice. A client takes its struct and the library's
# buffer: at most half a megabyte.
case_a_daemon_in_c_takes_a_fixed_memory() {
    local before after mapped i clients=()
    start_daemon heavy daemon
    before=$(memory_of VmRSS)
    [ "$before" -lt 8192 ] || differs "$before KiB before a client comes"
    mapped=$(($(stat -c %s heavy.pack) / 1024))
    [ $mapped -gt 8192 ] || differs "a pack of $mapped KiB, which shows nothing"
    forget_peak
    for i in {1..8}; do
        timeout 200 git -c protocol.version=2 clone -q --bare "$address" "fixed-$i" > /dev/null 2>&1 &
        clients+=($!)
    done
    for i in {1..8}; do
        wait "${clients[i - 1]}" || differs 'a clone that failed'
    done
    rm -rf fixed-*
    after=$(memory_of $peak)
    [ $((after - before - mapped)) -lt 4096 ] || differs "$((after - before)) KiB for eight clients and a pack of $mapped KiB"
    end_daemon
}

# refuses TEXT BYTES..: that the daemon answers this with an error packet of the text, and ends the connection.
refuses() {
    local text=$1 begin=$SECONDS
    shift
    says "$@"
    hears_to_the_end answer
    [ $((SECONDS - begin)) -lt 15 ] || differs "a connection that was kept after '$*'"
    expect_same "the answer to '$*'" <(packet "ERR $text") answer
    daemon_told "daemon: refused: $text"
}

case_a_daemon_in_c_refuses_what_it_does_not_serve() {
    local payload
    start_daemon history-sha1
    refuses 'nothing but the fetch side of one repository is served here' "$(greeting there version=2)"
    refuses 'nothing but the fetch side of one repository is served here' '001bgit-receive-pack /here\0'
    refuses 'nothing but version 2 of the protocol is served here' "$(greeting here version=1)"
    for payload in '/here\0' '/here\0host=a\0' '/here\0\0version=20\0'; do
        refuses 'nothing but version 2 of the protocol is served here' "$(first_packet "git-upload-pack $payload")"
    done
    refuses 'the first packet is no greeting as in gitprotocol-pack(5)' 0000
    refuses 'the first packet is no greeting as in gitprotocol-pack(5)' '0019git-upload-pack /here'
    for payload in '/here\0\0' '/here\0host=a\0\0' '/here\0\0version=2' '/here\0\0version=2\0rest' '/here\0junk\0\0version=2\0' \
        '/here\0a\0b\0\0version=2\0' '/here\0host=a\0b\0\0version=2\0' '/here\0\0a\0\0version=2\0' '/here\0version=2\0'; do
        refuses 'the first packet is no greeting as in gitprotocol-pack(5)' "$(first_packet "git-upload-pack $payload")"
    done
    for payload in '/here\0\0version=2\0' '/here\0\0a\0version=2\0b=c\0' '/here\0host=\0\0version=2\0'; do
        says "$(first_packet "git-upload-pack $payload")" 0000
        hears_to_the_end answer
        expect_same "the answer to '$payload'" <(advertisement sha1) answer
    done
    refuses 'TooLong at 0' fff1
    run git -c protocol.version=0 ls-remote "$address"
    expect 128 /dev/null <(echo 'fatal: remote error: nothing but version 2 of the protocol is served here')
    run git ls-remote "${address}s"
    expect_status 128
    expect_line 'what Git reported' 'fatal: remote error: nothing but the fetch side of one repository is served here' err
    ls_remote "$address"
    expect_status 0
    end_daemon
}

# write_many COUNT LENGTH: `many`, the history with so many more branches, whose names have this length, to be served.
write_many() {
    awk -v count="$1" -v digits=$(($2 - 16)) '{ print } $3 == "refs/heads/main" {
        for (i = 1; i <= count; i++) printf "ref %s refs/heads/many/%0*d\n", $2, digits, i
    }' history-sha1.repo > many.repo
    cp history-sha1.pack many.pack
}

# has_many: that the clone has each reference that is served.
has_many() {
    sed -n 's/^ref \([^ ]*\) \(refs[^ ]*\).*/\1 \2/p' many.repo > wanted
    git -C ours for-each-ref --format='%(objectname) %(refname)' > written
    expect_same 'the references' wanted written
    git -C ours fsck --full --strict --no-dangling
}

# Git asks for each reference by a line of its own.
case_a_daemon_in_c_serves_many_references() {
    write_many 30000 40
    start_daemon many
    clone "$address" ours --mirror
    expect 0 /dev/null /dev/null
    has_many
    [ "$(grep -c -F 'clone> want-ref ' "$trace")" -gt 30000 ] || differs 'fewer lines than references'
    end_daemon
    expect_same 'what the daemon reported' /dev/null daemon.err
}

# A client above a limit receives which one it is, and Git shows that to its user.
case_a_daemon_in_c_tells_git_its_limit() {
    start_daemon history-sha1 frugal_daemon-watched
    clone "$address" ours --mirror
    expect_status 128
    grep -q -x 'fatal: remote error: TooMuchKept at [0-9]*: this server takes no more than 200 bytes of arguments in a request' err ||
        differs 'what Git reported' err
    end_daemon
}

# haves COUNT: so many `have` lines.
haves() {
    awk -v count="$1" -v one="$one" 'BEGIN { for (i = 0; i < count; i++) print "0032have " one }'
}

case_a_daemon_in_c_ends_a_session_at_its_fault() {
    start_daemon history-sha1
    says "$(greeting here version=2)"
    { packet command=fetch && printf 0001 && packet "want $one"; } >&5
    hears_to_the_end answer
    expect_same 'the answer' <(advertisement sha1 && packet 'ERR NotOurs at 22') answer
    daemon_told 'daemon: a session ended with NotOurs at 22'
    says "$(greeting here version=2)"
    { packet command=fetch && printf 0001 && haves 559241; } >&5
    hears_to_the_end answer
    expect_same 'the answer to one that asks for much' <(
        advertisement sha1
        packet 'ERR TooMuchKept at 27962022: this server takes no more than 25165824 bytes of arguments in a request'
    ) answer
    says "$(greeting here version=2)" 0000
    hears_to_the_end answer
    expect_same 'the answer to one that leaves' <(advertisement sha1) answer
    says "$(greeting here version=2)"
    packet 'ERR I leave' >&5
    hears_to_the_end answer
    expect_same 'the answer to one that refuses' <(advertisement sha1) answer
    daemon_told 'daemon: a session ended with RemoteError at 0'
    says '0019git-up'
    exec 5>&-
    daemon_told 'daemon: refused: Truncated at 0'
    says "$(greeting here version=2)"
    exec 5>&-
    ls_remote "$address"
    expect_status 0
    end_daemon
}

# One client sends nothing, one not everything, and one does not read what it asked for.
case_a_daemon_in_c_closes_who_is_too_slow() {
    local begin id waits='this server waits for a client no longer than 2 seconds'
    patience=2
    start_daemon heavy
    begin=$SECONDS
    says
    hears_to_the_end answer
    expect_same 'what is sent to one that sends nothing' <(packet "ERR $waits") answer
    [ $((SECONDS - begin)) -ge $patience ] || differs 'a daemon that did not wait'
    says "$(greeting here version=2)" 0014comm
    hears_to_the_end answer
    expect_same 'what is sent to one that does not go on' <(advertisement sha1 && packet "ERR $waits") answer
    id=$(git -C heavy rev-parse main)
    says "$(greeting here version=2)"
    fetch "$id" >&5
    daemon_told 'daemon: a client was too slow' 3
    hears_to_the_end answer
    expect_same 'what the daemon reported' <(printf 'daemon: a client was too slow\n%.0s' 1 2 3) daemon.err
    [ "$(wc -c < answer)" -lt 21000000 ] || differs 'a whole pack for one that does not read'
    end_daemon
}

# A client that sends its request byte by byte has no more time for it than one that sends nothing.
case_a_daemon_in_c_closes_who_takes_long_to_begin() {
    local i
    patience=2
    start_daemon history-sha1
    says 0400git-upload-pack
    for i in {1..300}; do
        printf x
        sleep 0.2
    done >&5 2> /dev/null &
    daemon_told 'daemon: a client was too slow'
    kill $! 2> /dev/null || true
    exec 5>&-
    end_daemon
}

# A client that was refused and keeps sending is not read longer than its time.
case_a_daemon_in_c_closes_who_talks_on() {
    local begin i
    patience=2
    start_daemon history-sha1
    says zzzz
    begin=$SECONDS
    for i in {1..150}; do
        printf z
        sleep 0.2
    done >&5 2> /dev/null &
    daemon_told 'daemon: a client was too slow'
    [ $((SECONDS - begin)) -lt 20 ] || differs 'a daemon that went on reading'
    kill $! 2> /dev/null || true
    exec 5>&-
    end_daemon
}

# If no descriptor is left for one more client, it waits until one is free, and does not poll over and over.
case_a_daemon_in_c_waits_for_descriptors() {
    local i connection before after
    patience=10
    start_daemon history-sha1 bash -c 'ulimit -n 130 && exec daemon "$@"' daemon
    for i in {1..128}; do
        exec {connection}<> "/dev/tcp/127.0.0.1/$port"
    done
    before=$(ticks)
    sleep 2
    after=$(ticks)
    [ "$(ls "/proc/$daemon/fd" | awk '$1 < 130' | wc -l)" = 130 ] || differs 'a daemon with descriptors left'
    [ $((after - before)) -lt 50 ] || differs "$((after - before)) hundredths of a second of two for nothing"
    ls_remote "$address"
    expect_same 'the list' <(git ls-remote ./history-sha1) out
    end_daemon
}

# ticks: the processor time of the daemon so far, in hundredths of a second.
ticks() {
    awk '{ print $14 + $15 }' "/proc/$daemon/stat"
}

case_a_daemon_in_c_outlives_who_read_its_errors() {
    start_daemon history-sha1 bash -c 'exec daemon-watched "$@" 2> >(:)' daemon
    says zzzz
    hears_to_the_end answer
    expect_same 'the answer' <(packet 'ERR BadDigit at 0') answer
    ls_remote "$address"
    expect_same 'the list' <(git ls-remote ./history-sha1) out
    end_daemon
}

# It is not held up by a full pipe that nobody reads.
case_a_daemon_in_c_serves_where_nobody_reads_its_errors() {
    start_daemon history-sha1 bash -c '
        exec 2> >(exec sleep 60)
        timeout 2 head -c 1000000 /dev/zero >&2 || true
        exec daemon-watched "$@"' daemon
    says zzzz
    hears_to_the_end answer
    expect_same 'the answer' <(packet 'ERR BadDigit at 0') answer
    ls_remote "$address"
    expect_same 'the list' <(git ls-remote ./history-sha1) out
    end_daemon
}

# Many small requests of one client, each answered by a flush, and another client's request that is answered beside them.
case_a_daemon_in_c_answers_many_small_requests() {
    local i
    start_daemon history-sha1
    {
        packet command=ls-refs
        printf 0001
        packet 'ref-prefix no'
        printf 0000
    } > request
    says "$(greeting here version=2)"
    for i in {1..500}; do
        cat request
    done >&5
    printf 0000 >&5
    ls_remote "$address"
    expect_same 'the list' <(git ls-remote ./history-sha1) out
    hears_to_the_end answer
    expect_same 'the answers' <(advertisement sha1 && printf '0000%.0s' {1..500}) answer
    end_daemon
}

# While one client's 80,000 prefixes are looked up among 100,000 references, another client's list comes, each time: in less than a second
# on a quiet machine, whereas comparing each with each would take minutes. The limit is between both.
case_a_daemon_in_c_lists_beside_many_prefixes() {
    local hearing begin took lists=0
    awk 'BEGIN {
        print "format sha1"
        for (i = 1; i <= 100000; i++) printf "ref %040x refs/heads/%06d\n", i, i
    }' > crowded.repo
    : > crowded.pack
    {
        packet command=ls-refs
        printf 0001
        awk 'BEGIN {
            letters = "0123456789ABCDEFGHIJKLMNOPQRSTUVWXYZ"
            for (i = 0; i < 80000; i++)
                printf "0011ref-prefix %s%s", substr(letters, i * 7 % 36 + 1, 1), substr(letters, int(i / 36) % 36 + 1, 1)
        }'
        packet 'ref-prefix refs/heads/050000'
        printf 00000000
    } > request
    {
        advertisement sha1
        packet "$(printf '%040x refs/heads/050000' 50000)"
        printf 0000
    } > wanted
    start_daemon crowded daemon
    says "$(greeting here version=2)"
    cat request >&5 &
    limited cat <&5 > answer &
    hearing=$!
    while kill -0 $hearing 2> /dev/null || [ $lists -lt 3 ]; do
        begin=${EPOCHREALTIME/./}
        ls_remote "$address" refs/heads/099999
        took=$((${EPOCHREALTIME/./} - begin))
        expect 0 <(printf '%040x\trefs/heads/099999\n' 99999) /dev/null
        [ $took -lt 20000000 ] || differs "a list after $took microseconds"
        lists=$((lists + 1))
    done
    wait $hearing || differs 'a connection that did not end'
    exec 5>&-
    expect_same 'the answer' wanted answer
    end_daemon
}

# A hundred and twenty-eight clients that send nothing have all its slots, until another one comes.
case_a_daemon_in_c_makes_room() {
    local i connection first=
    start_daemon history-sha1
    for i in {1..128}; do
        exec {connection}<> "/dev/tcp/127.0.0.1/$port"
        first=${first:-$connection}
    done
    ls_remote "$address"
    expect_same 'the list' <(git ls-remote ./history-sha1) out
    expect_same 'what the daemon reported' <(echo 'daemon: a client was closed for another') daemon.err
    limited cat <&$first > answer || differs 'a connection that did not end'
    expect_same 'what is sent to the first' <(packet 'ERR this server takes no more than 128 clients at a time, and another one came') answer
    end_daemon
}

# A hundred and twenty-eight clients that were greeted, and begin a request with a byte a second, keep nobody out: one of them is closed,
# and the others stay.
case_a_daemon_in_c_serves_beside_those_who_drip() {
    local dripping
    printf "$(greeting here version=2)" > drop
    start_daemon history-sha1
    rm -f dripping
    "$top/tests/dripping.py" "$port" 128 drop dripping 2> dripping.err &
    dripping=$!
    wait_for dripping
    ls_remote "$address"
    expect_same 'the list' <(git ls-remote ./history-sha1) out
    clone "$address" ours
    clone_from_git history-sha1
    same_clones
    ls_remote "$address"
    expect_same 'the list' <(git ls-remote ./history-sha1) out
    expect_same 'what the daemon reported' <(echo 'daemon: a client was closed for another') daemon.err
    kill $dripping || differs 'clients that did not go on' dripping.err
    end_daemon
}

# A client that has an answer to take keeps its place, whoever comes, and the daemon does not search over and over for one to close.
case_a_daemon_in_c_keeps_who_takes_an_answer() {
    local i connection before after
    start_daemon heavy
    fetch "$(git -C heavy rev-parse main)" > asked
    for i in {1..128}; do
        exec {connection}<> "/dev/tcp/127.0.0.1/$port"
        { printf "$(greeting here version=2)" && cat asked; } >&$connection
    done
    sleep 3
    before=$(ticks)
    run timeout 3 git -c protocol.version=2 ls-remote "$address"
    after=$(ticks)
    expect_status 124
    [ $((after - before)) -lt 100 ] || differs "$((after - before)) hundredths of a second of three for nothing"
    expect_same 'what the daemon reported' /dev/null daemon.err
    end_daemon
}

case_a_daemon_in_c_under_valgrind() {
    local i clients=()
    command -v valgrind > /dev/null || return 0
    patience=20
    start_daemon history-sha1 valgrind -q --error-exitcode=99 --leak-check=full daemon
    for i in {1..4}; do
        timeout 60 git -c protocol.version=2 clone -q --bare "$address" "checked-$i" > "checked-$i.out" 2>&1 &
        clients+=($!)
    done
    refuses 'BadDigit at 0' zzzz
    for i in {1..4}; do
        wait "${clients[i - 1]}" || differs 'a clone that failed' "checked-$i.out"
    done
    end_daemon
}

case_a_daemon_in_c_refuses_wrong_words() {
    run daemon-watched
    expect_status 2
    run daemon-watched 0.0.0.0 0 1 here history-sha1.repo history-sha1.pack
    expect 1 /dev/null <(echo 'daemon: the address is not of the loopback network')
    run daemon-watched 127.0.0.1 65536 1 here history-sha1.repo history-sha1.pack
    expect 1 /dev/null <(echo 'daemon: a number is none, or out of its range')
    run daemon-watched 127.0.0.1 0 1 here nowhere
    expect 1 /dev/null <(echo 'daemon: the folder cannot be read')
    run daemon-watched 127.0.0.1 0 1 here nowhere history-sha1.pack
    expect 1 /dev/null <(echo 'daemon: a file cannot be opened')
    run daemon-watched 127.0.0.1 0 1 here history-sha1.repo history-sha1.pack nowhere
    expect 1 /dev/null <(echo 'daemon: a file cannot be opened')
    sed 3p history-sha1.repo > wrong.repo
    run daemon-watched 127.0.0.1 0 1 here wrong.repo history-sha1.pack
    expect 1 /dev/null <(echo 'daemon: BadRepo at 4')
}
