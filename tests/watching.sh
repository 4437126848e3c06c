# Cases in which examples/watch.c runs between the real Git's client and its server: what both send goes on unchanged, the transcript is
# that of `git2show check`, and what is malformed is refused before it goes on.

# write_watched: a server of Git behind the watcher, with its address for Git: `watched FOLDER [OPTION..]`. The bytes between the watcher
# and the server are copied to `requests` and `responses`, and those between the client and the watcher to `said` and `heard`.
write_watched() {
    write_recorder
    cat > bin/watched << 'EOF'
#!/bin/bash
cd "${0%/*}/.."
options=(--transcript watched.transcript)
[[ $1 != *sha256* ]] || options+=(--sha256)
tee said | ${watcher:-watch-watched} "${options[@]}" record "$@" 2> watched.err | tee heard
EOF
    chmod +x bin/watched
}

# over_watched GIT-WORD..: runs a command of Git over the watcher.
over_watched() {
    write_watched
    rm -f said heard requests responses watched.transcript watched.err
    run git -c protocol.version=2 -c protocol.ext.allow=always "$@"
}

# went_on [OPTION..]: that each side received what the other sent, the watcher reported nothing, and the transcript is that of `check`.
went_on() {
    expect_same 'what the server got' said requests
    expect_same 'what the client got' responses heard
    expect_same 'what the watcher reported' /dev/null watched.err
    run git2show check "$@" requests responses
    expect 0 watched.transcript /dev/null
}

# clones_over_the_watcher NAME [OPTION..]: that Git gets the same clone over the watcher as from itself.
clones_over_the_watcher() {
    rm -rf ours
    over_watched clone -q "${@:2}" "ext::watched $1" ours
    clone_from_git "$@"
    same_clones
    went_on --format "$(git -C "$1" rev-parse --show-object-format)"
}

case_a_watcher_passes_on_a_list() {
    over_watched ls-remote --symref 'ext::watched history-sha1'
    expect 0 <(git ls-remote --symref ./history-sha1) /dev/null
    went_on
    expect_line 'the transcript' 'request ls-refs' watched.transcript
    over_watched ls-remote 'ext::watched history-sha256' 'refs/tags/*'
    expect 0 <(git ls-remote ./history-sha256 'refs/tags/*') /dev/null
    went_on --format sha256
}

case_a_watcher_passes_on_a_clone() {
    clones_over_the_watcher history-sha1
    has_references 12
}

case_a_watcher_passes_on_a_clone_of_sha256() {
    clones_over_the_watcher history-sha256
    has_references 12
}

case_a_watcher_passes_on_an_empty_repository() {
    clones_over_the_watcher empty-sha1
}

case_a_watcher_passes_on_20_megabytes() {
    clones_over_the_watcher heavy --mirror
    tail -n 1 watched.transcript | grep -q -E '^end 21[0-9]{6} [0-9]+$' || differs 'another end' watched.transcript
}

case_a_watcher_passes_on_a_shallow_clone() {
    clones_over_the_watcher history-sha1 --no-single-branch --depth 1
    expect_line 'the transcript' "shallow $(git -C history-sha1 rev-parse main)" watched.transcript
}

case_a_watcher_passes_on_a_fetch_in_rounds() {
    grow seen history-sha1
    both history-sha1 --no-tags
    git -C theirs fetch -q --no-tags "file://$room/seen.git" '+refs/heads/*:refs/remotes/origin/*'
    over_watched -C ours fetch -q --no-tags 'ext::watched seen.git' '+refs/heads/*:refs/remotes/origin/*'
    same_after_fetch
    went_on
    expect_line 'the transcript' "ack $(git -C history-sha1 rev-parse main)" watched.transcript
}

case_a_watcher_passes_on_the_rest_of_a_history() {
    both history-sha256 --depth 1 --no-single-branch
    git -C theirs -c protocol.version=2 fetch -q --unshallow origin
    git -C ours remote set-url origin 'ext::watched history-sha256'
    over_watched -C ours fetch -q --unshallow origin
    same_after_fetch
    went_on --format sha256
    grep -q '^unshallow ' watched.transcript || differs 'no boundary that went' watched.transcript
}

case_a_watcher_passes_on_wanted_references() {
    both history-sha1 --single-branch --branch topic --no-tags
    git -C theirs -c protocol.version=2 fetch -q --no-tags "file://$room/history-sha1" alone:refs/heads/alone
    over_watched -C ours fetch -q --no-tags 'ext::watched history-sha1 -c uploadpack.allowRefInWant=true' alone:refs/heads/alone
    same_after_fetch
    went_on
    expect_line 'the transcript' "wanted-ref $(git -C history-sha1 rev-parse alone) refs/heads/alone" watched.transcript
}

case_a_watcher_passes_on_a_partial_clone() {
    rm -rf ours
    over_watched clone -q --bare --filter=blob:none 'ext::watched history-sha1 -c uploadpack.allowFilter=true' ours
    clone_partly_from_git history-sha1 --bare --filter=blob:none
    same_clones
    misses_blobs history-sha1
    went_on
}

# What a server advertises and this project does not know goes on too: a key that the client then sends.
case_a_watcher_passes_on_a_session_id() {
    rm -rf ours
    over_watched -c transfer.advertiseSID=true clone -q 'ext::watched history-sha1 -c transfer.advertiseSID=true' ours
    clone_from_git history-sha1
    same_clones
    went_on
    sed '1,/^request /d' watched.transcript | grep -q '^capability session-id=' || differs 'no session-id' watched.transcript
}

# An argument that puts each line of the response on a side band.
case_a_watcher_passes_on_lines_on_bands() {
    grow banded history-sha1
    both history-sha1 --no-tags
    git -C theirs fetch -q --no-tags "file://$room/banded.git" '+refs/heads/*:refs/remotes/origin/*'
    GIT_TEST_SIDEBAND_ALL=1 over_watched -C ours fetch -q --no-tags 'ext::watched banded.git -c uploadpack.advertiseSidebandAll=true' \
        '+refs/heads/*:refs/remotes/origin/*'
    same_after_fetch
    went_on
    grep -q '^argument sideband-all$' watched.transcript || differs 'no such argument' watched.transcript
    expect_line 'the transcript' "ack $(git -C history-sha1 rev-parse main)" watched.transcript
}

# An argument that adds a section to the response, which Git's server sends on bands. Nobody has the pack at its address, so the client
# reports that.
case_a_watcher_passes_on_addresses_of_packs() {
    local id hash
    id=$(git -C history-sha1 ls-tree -r main | awk '$2 == "blob" { print $3; exit }')
    hash=$(printf 'e%.0s' {1..40})
    rm -rf ours
    GIT_TEST_SIDEBAND_ALL=1 over_watched -c fetch.uriProtocols=https clone -q "ext::watched history-sha1 \
-c uploadpack.advertiseSidebandAll=true -c uploadpack.blobPackfileUri=$id% $hash% https://127.0.0.1:1/pack" ours
    expect_status 128
    went_on
    grep -q '^argument packfile-uris https$' watched.transcript || differs 'no such argument' watched.transcript
    grep -a -q "$hash https://127.0.0.1:1/pack\$" heard || differs 'no such section' heard
}

# The sizes of objects, which Git's client does not ask for. Two requests come at once, and then the end of the input.
case_a_watcher_passes_on_sizes() {
    local id
    id=$(git -C history-sha1 rev-parse main)
    write_recorder
    { object_info size "oid $id" && object_info size; } > asked
    run watch-watched --transcript watched.transcript record history-sha1 < asked
    expect 0 responses /dev/null
    expect_same 'what the server got' asked requests
    expect_line 'the transcript' "info $id $(git -C history-sha1 cat-file -s "$id")" watched.transcript
}

# An error of a server reaches the client.
case_a_watcher_passes_on_an_error_of_the_server() {
    local id
    id=$(printf 'f%.0s' {1..40})
    rm -rf ours
    git init -q ours
    over_watched -C ours fetch -q 'ext::watched history-sha1' "$id"
    expect_status 128
    expect_line 'what Git was told' "fatal: remote error: upload-pack: not our ref $id" err
    expect_same 'what the client got' responses heard
    grep -q -x 'watch: responses: RemoteError at [0-9]*' watched.err || differs 'another fault' watched.err
}

# This server refuses a request before it is whole, and the client sends nothing more before it has received that.
case_a_watcher_passes_on_an_early_error() {
    mkfifo early
    {
        packet command=ls-refs
        printf 0001
        packet 'ref-prefix refs/heads/main'
        exec sleep 20
    } > early &
    run watch-watched --transcript watched.transcript git2show serve --repo sha1.repo --pack empty.pack --limit 3 < early
    kill $!
    expect_status 1
    expect_same 'what the client got' <(advertisement sha1 && packet 'ERR TooMuchKept at 24') out
    grep -q -x 'watch: responses: RemoteError at [0-9]*' err || differs 'another fault' err
}

case_a_watcher_is_taken_for_upload_pack() {
    rm -rf ours
    run git -c protocol.version=2 clone -q "file://$room/history-sha1" ours \
        --upload-pack "watch-watched --transcript $room/watched.transcript git upload-pack"
    clone_from_git history-sha1
    same_clones
    expect_line 'the transcript' offered watched.transcript
}

# replayed FILE COPY: a server that sends the contents of the file, and copies what it receives.
write_replayed() {
    printf '%s\n' '#!/bin/sh' 'cat "$1"' 'exec cat > "$2"' > bin/replayed
    chmod +x bin/replayed
}

# is_judged_as_by_check WHAT: that the watcher reports of two streams what `check` reports of them, and that nothing that was refused goes on.
is_judged_as_by_check() {
    local fault stream at
    run git2show check requests.tried responses.tried
    sed 's/^git2show:/watch:/' err > wanted_err
    cp out wanted
    : > got
    run watch-watched --transcript watched.transcript replayed responses.tried got < requests.tried
    # If a request is not allowed, `check` reports it where its response would begin, and the watcher where the request begins.
    if grep -q '^watch: responses: NotAdvertised at ' wanted_err; then
        grep -q -x 'watch: requests: NotAdvertised at [0-9]*' err || differs "what is reported after $1" err
    else
        expect_same "what is reported after $1" wanted_err err
    fi
    expect_same "the transcript after $1" wanted watched.transcript
    read -r _ stream fault _ at < err || return 0
    case $stream$fault in
    *:Remote*) ;;
    requests:*) is_front "$1" "$(wc -c < got)" "$at" requests.tried got ;;
    responses:*) is_front "$1" "$(limited git2show show < out | tail -n 1 | cut -d ' ' -f 1)" "$at" responses.tried out ;;
    esac
}

# is_front WHAT SIZE MOST STREAM COPY: that the bytes that went on have this size, at most this one, that they are a prefix of the stream,
# and that they are whole packets.
is_front() {
    [ "$2" -le "$3" ] || differs "$2 bytes of the $4 that went on after $1"
    [ "$2" = 0 ] || cmp -s -n "$2" "$4" "$5" || differs "other bytes of the $4 after $1"
    [ "$2" = 0 ] || limited git2show show < "$5" > /dev/null || differs "a part of a packet that went on after $1"
}

# Both streams of a clone, each damaged at fifty places.
case_a_watcher_refuses_what_check_refuses() {
    local stream number place refused=0
    rm -rf ours
    write_replayed
    recorded clone -q 'ext::record history-sha1' ours
    for stream in requests responses; do
        for number in {0..49}; do
            place=$(($(wc -c < $stream) * number / 50))
            cp requests requests.tried
            cp responses responses.tried
            damaged $stream $place > $stream.tried
            is_judged_as_by_check "a damage at byte $place of the $stream"
            [ $status = 0 ] || refused=$((refused + 1))
        done
    done
    [ $refused -gt 20 ] || differs "only $refused that were refused"
}

# The last bytes of each side are missing.
case_a_watcher_tells_where_a_stream_ends() {
    local stream size less
    rm -rf ours
    write_replayed
    recorded clone -q 'ext::record history-sha1' ours
    for stream in requests responses; do
        size=$(wc -c < $stream)
        for less in 1 5 11; do
            cp requests requests.tried
            cp responses responses.tried
            head -c $((size - less * size / 13)) $stream > $stream.tried
            is_judged_as_by_check "$less thirteenths less of the $stream"
        done
    done
    cp requests requests.tried
    { cat responses && printf x; } > responses.tried
    is_judged_as_by_check 'a byte left over'
}

# refuses_the_client FAULT BYTES FRONT: that bytes of a client, as printf's format, are refused after the advertisement, and that only those
# before the refused packet go on.
refuses_the_client() {
    rm -f requests
    run watch-watched --transcript watched.transcript record history-sha1 < <(printf "$2")
    expect_status 1
    expect_same "what is reported of '$2'" <(echo "watch: requests: $1") err
    expect_same "the answer to '$2'" <(cat advertised && packet "ERR $1") out
    printf "$3" > front
    touch requests # the server may have received nothing of it
    is_front "'$2'" "$(wc -c < requests)" "$(wc -c < front)" front requests
}

case_a_watcher_refuses_a_client() {
    write_recorder
    GIT_PROTOCOL=version=2 git upload-pack --http-backend-info-refs history-sha1 > advertised
    refuses_the_client 'BadDigit at 0' zzzz ''
    refuses_the_client 'UnknownCommand at 0' '0011command=push\n0000' ''
    refuses_the_client 'NoWants at 22' '0012command=fetch\n00010000' '0012command=fetch\n0001'
    refuses_the_client 'UnknownArgument at 24' '0014command=ls-refs\n0001000bpeel x\n0000' '0014command=ls-refs\n0001'
    refuses_the_client 'Truncated at 20' '0014command=ls-refs\n000' '0014command=ls-refs\n'
}

# The second request of this client is for a command that the server does not advertise. It is refused where it begins, before its last packet goes on.
case_a_watcher_refuses_a_request_that_may_not_be_asked() {
    write_replayed
    { packet command=ls-refs && printf 0000; } > unasked.first
    { packet command=fetch && printf 0001 && packet "want $one" && packet done; } > unasked.second
    { packet 'version 2' && packet ls-refs && printf 0000 && packet "$one refs/heads/main" && printf 0000; } > unasked.responses
    run watch-watched --transcript watched.transcript replayed unasked.responses unasked.got < <(cat unasked.first unasked.second && printf 0000)
    expect_status 1
    expect_same 'what is reported' <(echo 'watch: requests: NotAdvertised at 24') err
    expect_same 'what the client got' <(cat unasked.responses && packet 'ERR NotAdvertised at 24') out
    cat unasked.first unasked.second > unasked.most
    touch unasked.got # the server may be ended before it has received any
    is_front 'a request that may not be asked' "$(wc -c < unasked.got)" "$(wc -c < unasked.most)" unasked.most unasked.got
}

# A server behind the watcher that sends the contents of the file `bad`, with its address for Git.
bad_server='ext::watch-watched --transcript watched.transcript replayed bad got'

case_a_watcher_refuses_a_server() {
    write_replayed
    { packet 'version 2' && printf 00zz; } > bad
    ls_remote "$bad_server"
    expect_status 128
    expect_line 'what Git was told' 'fatal: remote error: BadDigit at 16' err
    expect_line 'what Git was told' 'watch: responses: BadDigit at 16' err
    { advertisement sha1 && packet "$one refs/heads/../main" && printf 0000; } > bad
    ls_remote "$bad_server"
    expect_status 128
    grep -q '^fatal: remote error: BadRefName at [0-9]*$' err || differs 'what Git received' err
    expect_same 'what Git printed' /dev/null out
}

# Inside a pack the refusal reaches the client on a side band.
case_a_watcher_refuses_a_pack_that_breaks() {
    local at
    rm -rf ours
    write_replayed
    recorded clone -q 'ext::record history-sha1' ours
    at=$(git2show show < responses | awk '$2 == "flush" { flush = $1 } END { print flush }')
    { head -c "$at" responses && printf '0005\4'; } > bad
    clone "$bad_server" ours
    expect_status 128
    expect_line 'what Git was told' "watch: responses: BadBand at $at" err
    grep -q "^remote: BadBand at $at" err || differs 'what Git received' err
}

case_a_watcher_ends_with_its_client() {
    rm -rf ours
    write_replayed
    recorded clone -q --mirror 'ext::record heavy' ours
    cp requests asked
    status=0
    limited watch-watched --transcript watched.transcript record heavy < asked 2> err > >(head -c 100000 > /dev/null) || status=$?
    expect_status 1
    expect_same 'what is reported' <(echo 'watch: the client is gone') err
}

case_a_watcher_under_valgrind() {
    write_replayed
    { packet 'version 2' && printf 00zz; } > bad
    under_valgrind bin/watch --transcript watched.transcript replayed bad got
    expect 1 <(packet 'version 2' && packet 'ERR BadDigit at 16') <(echo 'watch: responses: BadDigit at 16')
    command -v valgrind > /dev/null || return 0
    export watcher='valgrind -q --error-exitcode=99 --leak-check=full --errors-for-leak-kinds=definite,indirect,possible watch'
    clones_over_the_watcher history-sha1
}

case_a_watcher_tells_what_is_wrong() {
    local words
    run watch-watched nowhere
    expect 1 <(packet 'ERR Truncated at 0') <(echo 'watch: responses: Truncated at 0')
    run watch-watched --transcript nowhere/transcript true
    expect 1 /dev/null <(echo 'watch: the transcript cannot be opened')
    write_recorder
    run watch-watched --transcript /dev/full record history-sha1
    expect 1 responses <(echo 'watch: the transcript cannot be written')
    run watch-watched record history-sha256
    expect_status 1
    grep -q '^watch: responses: WrongFormat at [0-9]*$' err || differs 'no WrongFormat' err
    grep -q '^capability object-format=sha256$' err || differs 'no transcript' err
    for words in '' --sha256 '--transcript x' --no-such-word '-x true'; do
        run watch-watched $words
        expect 2 /dev/null <(echo 'usage: watch [--sha256] [--transcript FILE] COMMAND [WORD..]')
    done
}
