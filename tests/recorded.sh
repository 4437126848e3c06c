# Cases in which everything that the real Git's client and its server send to each other is recorded, and `git2show check` judges it: whole,
# and damaged in many places; and in which examples/check.c does, and prints the same.

# record FOLDER [OPTION..]: a server of Git, each of whose streams is copied to a file.
write_recorder() {
    cat > bin/record << 'EOF'
#!/bin/bash
cd "${0%/*}/.."
tee requests | GIT_PROTOCOL=version=2 git "${@:2}" upload-pack "$1" | tee responses
EOF
    chmod +x bin/record
}

# The same with a server for each request.
write_stateless_recorder() {
    write_stateless
    cat > bin/stateless-server << 'EOF'
serve() {
    GIT_PROTOCOL=version=2 git upload-pack "$@" "$name"
}

advertise() {
    : > "$name.requests"
    serve --http-backend-info-refs < /dev/null | tee "$name.responses"
}

answer() {
    tee -a "$name.requests" | serve --stateless-rpc | tee -a "$name.responses"
    printf 0002 >> "$name.responses"
}
EOF
}

# recorded GIT-WORD..: runs a command of Git over the recorder. Leaves `requests`, `responses`, and the `packs` that Git read.
recorded() {
    write_recorder
    rm -f packs
    GIT_TRACE_PACKFILE=$room/packs run git -c protocol.version=2 -c protocol.ext.allow=always -c protocol.stateless.allow=always "$@"
    touch packs
}

# checks [OPTION..]: that `check` accepts the recording, and counts the bytes of the packs as Git does.
checks() {
    local bytes
    run git2show check "$@" requests responses
    expect_status 0
    expect_same 'standard error' /dev/null err
    bytes=$(awk '$1 == "end" { bytes += $2 } END { print bytes + 0 }' out)
    [ "$bytes" = "$(wc -c < packs)" ] || differs "$bytes bytes of packs instead of $(wc -c < packs)" out
    cp out transcript
    shows_both "$@"
    withstands_damage "$@"
}

# shows_both [OPTION..]: that `check --pretty` shows each packet of both streams as `show --pretty` does, behind its mark, and counts them.
shows_both() {
    local stream
    run git2show check "$@" --pretty requests responses
    expect_status 0
    expect_same 'standard error' /dev/null err
    : > counts
    for stream in requests responses; do
        limited git2show show --pretty --width 78 < $stream > $stream.columns
        tail -n 1 $stream.columns >> counts
    done
    expect_same 'the requests' <(head -n -1 requests.columns) <(sed -n 's/^> //p' out)
    expect_same 'the responses' <(head -n -1 responses.columns) <(sed -n 's/^< //p' out)
    expect_same 'the counts' \
        <(awk '{ $1 += bytes; $3 += packets; $5 += requests; $7 += packs; bytes = $1; packets = $3; requests = $5; packs = $7 } END { print }' counts) \
        <(grep -v '^[<>] ' out)
    # A request comes after the response to the one before it.
    [ "$(sed '/^[<>]/!d; s/^\(.\).*/\1/' out | uniq | wc -l)" -gt 2 ] || differs 'one stream after the other' out
}

# start_of_packet FILE PLACE: the offset of the packet of a stream that has the byte at this place.
start_of_packet() {
    awk -v place="$2" '$1 <= place { start = $1 } END { print start + 0 }' "$1.packets"
}

# damaged FILE PLACE: a stream with another byte at this place.
damaged() {
    local byte
    byte=$(od -A n -t u1 -j "$2" -N 1 "$1")
    head -c "$2" "$1"
    printf "\\$(printf %03o $((byte ^ 1)))"
    tail -c "+$(($2 + 2))" "$1"
}

# is_refused_well: that the last run of `check` reported an error in one of the streams, in one line.
is_refused_well() {
    grep -a -q -x -E 'git2show: (requests|responses): [A-Za-z0-9]+ at [0-9]+' err && [ "$(wc -l < err)" = 1 ]
}

# withstands_damage [OPTION..]: each stream is damaged at fifty places. Then it is accepted or refused, and its transcript is the same up to
# the damaged packet.
withstands_damage() {
    local stream size number place start
    for stream in requests responses; do
        limited git2show show < $stream > $stream.packets
        size=$(wc -c < $stream)
        for number in {0..49}; do
            place=$((size * number / 50))
            start=$(start_of_packet $stream $place)
            cp requests requests.tried
            cp responses responses.tried
            head -c "$start" $stream > $stream.tried
            limited git2show check "$@" requests.tried responses.tried > before 2> /dev/null || [ $? = 1 ] ||
                differs "a check that did not end well before byte $place of the $stream"
            damaged $stream $place > $stream.tried
            run git2show check "$@" requests.tried responses.tried
            cmp -s -n "$(wc -c < before)" before out || differs "another transcript before byte $place of the $stream" out
            [ "$status" = 0 ] || is_refused_well || differs "status $status after a damage at byte $place of the $stream" err
        done
    done
}

case_check_takes_a_clone() {
    rm -rf ours
    recorded clone -q 'ext::record history-sha1' ours
    checks
    expect_line 'the transcript' 'request fetch' transcript
}

case_check_takes_a_clone_of_sha256() {
    rm -rf ours
    recorded clone -q 'ext::record history-sha256' ours
    checks --format sha256
}

case_check_takes_a_fetch_in_rounds() {
    grow recorded history-sha1
    both history-sha1 --no-tags
    recorded -C ours fetch -q --no-tags 'ext::record recorded.git' '+refs/heads/*:refs/remotes/origin/*'
    checks
    expect_line 'the transcript' "ack $(git -C history-sha1 rev-parse main)" transcript
}

case_check_takes_a_shallow_clone() {
    rm -rf ours
    recorded clone -q --depth 1 'ext::record history-sha1' ours
    checks
    expect_line 'the transcript' "shallow $(git -C history-sha1 rev-parse main)" transcript
}

case_check_takes_wanted_references() {
    both history-sha1 --single-branch --branch topic --no-tags
    recorded -C ours fetch -q --no-tags 'ext::record history-sha1 -c uploadpack.allowRefInWant=true' \
        alone:refs/heads/alone
    checks
    expect_line 'the transcript' "wanted-ref $(git -C history-sha1 rev-parse alone) refs/heads/alone" transcript
}

case_check_takes_a_partial_clone() {
    rm -rf ours
    recorded clone -q --bare --filter=blob:none 'ext::record history-sha1 -c uploadpack.allowFilter=true' ours
    checks
    misses_blobs history-sha1
    grep -a -q '0014filter blob:none' requests || differs 'a fetch without its filter' requests
}

case_check_takes_sessions_without_a_state() {
    write_stateless_recorder
    rm -rf ours
    recorded clone -q "stateless::$room/history-sha1" ours
    mv history-sha1.requests requests
    mv history-sha1.responses responses
    checks --stateless
}

# What precedes the protocol is cut off as in git2show(1): the greeting of the client.
case_check_takes_what_comes_after_a_greeting() {
    cat > bin/recorded-daemon << END
#!/bin/sh
tee '$room/greeted' | git daemon --inetd --export-all --base-path='$room' | tee '$room/responses'
END
    chmod +x bin/recorded-daemon
    rm -rf ours packs
    GIT_TRACE_PACKFILE=$room/packs GIT_PROXY_COMMAND=$room/bin/recorded-daemon run git -c protocol.version=2 clone -q git://nowhere/history-sha1 ours
    expect_status 0
    run git2show check greeted responses
    expect_status 1
    tail -c +$((0x$(head -c 4 greeted) + 1)) greeted > requests
    checks
    expect_line 'the transcript' 'request fetch' transcript
}

# And the answer of a web server before its advertisement. The bodies of the answers end with a flush.
case_check_takes_the_bodies_of_http() {
    start_web
    cat > bin/watched-backend << END
#!/bin/sh
cd '$room'
tee -a requests | '$top/examples/http-backend.sh' > answer
sed '1,/^\r\$/d' answer >> announced
cat answer
END
    rm -rf ours packs requests
    printf '001e# service=git-upload-pack\n0000' > announced
    GIT_TRACE_PACKFILE=$room/packs run git -c protocol.version=2 clone -q "$web/history-sha1" ours
    expect_status 0
    run git2show check requests announced
    expect_status 1
    tail -c +$((0x$(head -c 4 announced) + 5)) announced > responses
    checks
    expect_line 'the transcript' 'request fetch' transcript
    run git2show check --stateless requests responses
    expect_status 1
}

# A request may have what a server advertised and this project does not know: a key that the client then sends.
case_check_takes_a_session_id() {
    rm -rf ours
    recorded -c transfer.advertiseSID=true clone -q 'ext::record history-sha1 -c transfer.advertiseSID=true' ours
    checks
    grep -a -q 'session-id=' requests || differs 'no session-id' requests
    expect_line 'the transcript' \
        "capability $(limited git2show show < requests | sed -n 's/^[0-9]* data [0-9]* \(session-id=[^\\]*\).*/\1/p' | head -n 1)" transcript
    sed 's/session-id=/session-ix=/' requests > requests.tried
    run git2show check requests.tried responses
    expect_status 1
    grep -a -q -x 'git2show: requests: NotAdvertised at [0-9]*' err || differs 'another fault' err
}

# An argument that asks for a section, which this response does not have.
case_check_takes_an_argument_for_addresses_of_packs() {
    local id hash
    id=$(printf 'f%.0s' {1..40})
    hash=$(printf 'e%.0s' {1..40})
    rm -rf ours
    recorded -c fetch.uriProtocols=https clone -q \
        "ext::record history-sha1 -c uploadpack.blobPackfileUri=$id% $hash% https://127.0.0.1:1/pack" ours
    checks
    grep -a -q '0017packfile-uris https' requests || differs 'no such argument' requests
    expect_line 'the transcript' 'argument packfile-uris https' transcript
}

# An argument that puts each line of the response on a side band.
case_check_takes_lines_on_bands() {
    rm -rf ours
    GIT_TEST_SIDEBAND_ALL=1 recorded clone -q 'ext::record history-sha1 -c uploadpack.advertiseSidebandAll=true' ours
    grep -a -q '0010sideband-all' requests || differs 'no such argument' requests
    checks
    expect_line 'the transcript' 'argument sideband-all' transcript
}

# write_addresses_of_packs: a conversation whose response has the section that its request asks for, which Git's server sends on side bands alone.
write_addresses_of_packs() {
    local blob hash
    blob=$(git -C history-sha1 ls-tree -r HEAD | awk '$2 == "blob" { print $3; exit }')
    hash=$(printf 'e%.0s' {1..40})
    {
        packet command=fetch
        printf 0001
        packet "want $(git -C history-sha1 rev-parse HEAD)"
        packet ofs-delta
        packet sideband-all
        packet 'packfile-uris https'
        packet done
        printf 0000
    } > requests
    GIT_TEST_SIDEBAND_ALL=1 GIT_PROTOCOL=version=2 git -c "uploadpack.blobPackfileUri=$blob $hash https://127.0.0.1:1/pack" \
        upload-pack history-sha1 < requests > responses
    grep -a -q "0013.packfile-uris" responses || differs 'no such section' responses
}

# The addresses pass, and what comes after them is the pack.
case_check_takes_addresses_of_packs() {
    local bytes
    write_addresses_of_packs
    run git2show check requests responses
    expect_status 0
    cp out transcript
    expect_line 'the transcript' 'argument packfile-uris https' transcript
    bytes=$(sed -n 's/^end \([0-9]*\) [0-9]*$/\1/p' transcript)
    [ "$bytes" -gt 32 ] || differs 'no pack' transcript
    withstands_damage
    sed 's/packfile-uris https/packfile-urix https/' requests > requests.tried
    run git2show check requests.tried responses
    expect_status 1
    grep -a -q -x 'git2show: requests: UnknownArgument at [0-9]*' err || differs 'another fault' err
}

# write_another_command [END]: a conversation whose second request is for a command that this project does not know; this packet ends each response too.
write_another_command() {
    {
        request
        packet command=bundle-uri
        packet agent=git/2.40
        printf 0001
        packet any
        printf 0000
        request peel
        printf 0000
    } > requests
    {
        packet 'version 2'
        packet ls-refs
        packet bundle-uri
        printf 0000
        printf 0000%s "${1-}"
        packet bundle.version=1
        packet bundle.mode=all
        printf 0000%s "${1-}"
        printf 0000%s "${1-}"
    } > responses
    printf '%s\n' 'capability ls-refs' 'capability bundle-uri' offered 'request ls-refs' 'end 0 0' 'request bundle-uri' \
        'request ls-refs' 'end 0 0' > wanted
    : > empty
}

# A command with an answer that passes. The offsets after it count its bytes.
case_check_takes_another_command() {
    local place
    write_another_command
    run git2show check requests responses
    expect 0 wanted empty
    withstands_damage
    place=$(($(wc -c < responses) - 4))
    head -c "$place" responses > responses.tried
    packet nothing >> responses.tried
    run git2show check requests responses.tried
    expect_status 1
    expect_line 'standard error' "git2show: responses: BadLine at $place" err
    head -c "$((place - 4))" responses > responses.tried
    run git2show check requests responses.tried
    expect_line 'standard error' "git2show: responses: Truncated at $((place - 4))" err
    head -c "$((place - 2))" responses > responses.tried
    run git2show check requests responses.tried
    expect_line 'standard error' "git2show: responses: Truncated at $((place - 4))" err
    printf '%s' "$(cat responses)00x" > responses.tried
    run git2show check requests responses.tried
    expect_line 'standard error' "git2show: responses: UnexpectedPacket at $((place + 4))" err
}

case_check_takes_another_command_without_a_state() {
    write_another_command 0002
    run git2show check --stateless requests responses
    expect 0 wanted empty
    withstands_damage --stateless
}

# As Git sends it: other lines come before the command. Those that are not known have their lines before that of the request.
case_check_takes_another_command_behind_other_lines() {
    write_another_command
    {
        packet agent=git/2.48
        packet session-id=a
        packet object-format=sha1
        packet command=bundle-uri
        printf 00010000
        request peel
        printf 0000
    } > requests
    {
        packet 'version 2'
        packet ls-refs
        packet session-id=b
        packet bundle-uri
        printf 0000
        packet bundle.version=1
        printf 00000000
    } > responses
    printf '%s\n' 'capability ls-refs' 'capability session-id=b' 'capability bundle-uri' offered 'capability session-id=a' 'request bundle-uri' \
        'request ls-refs' 'end 0 0' > wanted
    run git2show check requests responses
    expect 0 wanted empty
    withstands_damage
}

# A command that was not advertised is refused, and so is one behind another command.
case_check_refuses_another_command() {
    write_another_command
    sed 's/bundle-uri/bundle-urj/' responses > responses.tried
    run git2show check requests responses.tried
    expect_status 1
    grep -a -q -x 'git2show: requests: UnknownCommand at [0-9]*' err || differs 'another fault' err
    {
        packet command=ls-refs
        packet command=bundle-uri
        printf 00000000
    } > requests
    run git2show check requests responses
    expect_status 1
    expect_line 'standard error' 'git2show: requests: TwoCommands at 20' err
    {
        packet command=bundle-uri
        printf 0001
    } > requests
    run git2show check requests responses
    expect_status 1
    expect_line 'standard error' "git2show: requests: Truncated at $(wc -c < requests)" err
}

# The texts of known and unknown arguments count together: these have a few bytes less than the limit, and then more.
case_check_counts_what_is_not_known() {
    local line number
    line=$(printf 'fff0x-word %s' "$(head -c 65508 /dev/zero | tr '\0' a)")
    {
        packet 'version 2'
        packet fetch=x-word
        printf 0000
    } > responses
    {
        packet command=fetch
        printf 0001
        for number in {1..256}; do
            printf '%s\n' "$line"
        done
    } > filled
    {
        cat filled
        printf '%s\n' "$line"
    } > requests
    run git2show check requests responses
    expect_status 1
    expect_line 'standard error' "git2show: requests: TooMuchKept at $(wc -c < filled)" err
    {
        cat filled
        for number in {1..120}; do
            packet "have $(printf 'a%.0s' {1..40})"
        done
    } > requests
    run git2show check requests responses
    expect_status 1
    expect_line 'standard error' "git2show: requests: TooMuchKept at $(($(wc -c < filled) + 119 * 50))" err
}

case_check_tells_an_error_of_the_server() {
    git init -q ours
    recorded -C ours fetch -q 'ext::record history-sha1' "$(printf 'f%.0s' {1..40})"
    run git2show check requests responses
    expect_status 1
    grep -a -q -x 'git2show: responses: RemoteError at [0-9]*' err || differs 'another fault' err
    expect_line 'the transcript' 'request fetch' out
    withstands_damage
}

# takes_sample WORDS..: that the program accepts a recording of `sample/`, without any message.
takes_sample() {
    run git2show "$@"
    expect_status 0
    expect_same "standard error of '$*'" /dev/null err
}

case_the_samples_are_taken() {
    local file name
    for file in "$top"/sample/*.pkt "$top"/sample/*/*.pkt; do
        takes_sample show < "$file"
    done
    for name in clone fetch shallow-clone; do
        takes_sample check "$top/sample/git-client/$name-requests.pkt" "$top/sample/git-client/$name-responses.pkt"
        expect_line "the transcript of $name" 'request fetch' out
    done
    for file in "$top"/sample/advertisement.pkt "$top"/sample/advertisements/*.pkt; do
        case $file in
        */sha256.pkt) name=sha256 ;;
        *) name=sha1 ;;
        esac
        takes_sample check --format $name /dev/null "$file"
    done
}

# prints_the_same CHUNKS [OPTION..] REQUESTS RESPONSES: that the checker in C prints of a conversation what `check` does, reports the same error and has the
# same status, in chunks of each of these lengths. `where` is what has become of the conversation.
prints_the_same() {
    local chunks=$1 chunk wanted_status
    shift
    run git2show check "${@/--sha256/--format=sha256}"
    cp out wanted
    sed 's/^git2show: /check: /' err > wanted_err
    wanted_status=$status
    for chunk in $chunks; do
        run "$checker" --chunk "$chunk" "$@"
        expect "$wanted_status" wanted wanted_err
        [ $well = yes ] || { echo "$where, in chunks of $chunk bytes" && exit 1; }
    done
}

# checks_alike NAME REQUESTS RESPONSES [OPTION..]: that the checker in C judges a conversation as `check` does: whole, with either stream cut off at eight
# places, and with another byte at each of them.
checks_alike() {
    local name=$1 checker=check-watched where="$1, whole" stream size number place
    cp "$2" requests.whole
    cp "$3" responses.whole
    shift 3
    prints_the_same '1 3 1000 65536' "$@" requests.whole responses.whole
    checker=check
    for stream in requests responses; do
        size=$(wc -c < $stream.whole)
        for number in {0..7}; do
            place=$((size * number / 8 + number))
            [ $place -lt "$size" ] || continue
            cp requests.whole requests.tried
            cp responses.whole responses.tried
            where="$name, $stream cut off at $place"
            head -c $place $stream.whole > $stream.tried
            prints_the_same '3 1000 65536' "$@" requests.tried responses.tried
            where="$name, $stream damaged at $place"
            damaged $stream.whole $place > $stream.tried
            prints_the_same '3 1000 65536' "$@" requests.tried responses.tried
        done
    done
}

case_a_checker_in_c_prints_what_check_prints() {
    local sessions=$top/crates/worked_conversations/data/sessions name file
    for name in clone fetch shallow-clone; do
        checks_alike "the $name" "$top/sample/git-client/$name-requests.pkt" "$top/sample/git-client/$name-responses.pkt"
    done
    checks_alike 'the sample' "$top/sample/requests.pkt" "$top/sample/conversation.pkt"
    for name in negotiation deepening wanted-references refused; do
        checks_alike "the session $name" "$sessions/$name-requests.pkt" "$sessions/$name-responses.pkt"
    done
    checks_alike 'the session stateless' "$sessions/stateless-requests.pkt" "$sessions/stateless-responses.pkt" --stateless
    for file in "$top"/sample/advertisements/*.pkt; do
        name=
        [[ $file != */sha256.pkt ]] || name=--sha256
        checks_alike "${file##*/}" /dev/null "$file" $name
    done
    write_another_command
    checks_alike 'another command' requests responses
    write_another_command 0002
    checks_alike 'another command without a state' requests responses --stateless
}

case_a_checker_in_c_prints_what_check_prints_of_recordings() {
    rm -rf checked-clone
    recorded clone -q 'ext::record history-sha1' checked-clone
    checks_alike 'a clone' requests responses
    rm -rf checked-clone
    recorded clone -q 'ext::record history-sha256' checked-clone
    checks_alike 'a clone of SHA-256' requests responses --sha256
    grow judged history-sha1
    both history-sha1 --no-tags
    recorded -C ours fetch -q --no-tags 'ext::record judged.git' '+refs/heads/*:refs/remotes/origin/*'
    checks_alike 'a fetch in rounds' requests responses
    rm -rf ours theirs checked-clone
    recorded clone -q --depth 1 'ext::record history-sha1' checked-clone
    checks_alike 'a shallow clone' requests responses
    rm -rf checked-clone
    recorded -c transfer.advertiseSID=true clone -q 'ext::record history-sha1 -c transfer.advertiseSID=true' checked-clone
    checks_alike 'a session-id' requests responses
    rm -rf checked-clone
    GIT_TEST_SIDEBAND_ALL=1 recorded clone -q 'ext::record history-sha1 -c uploadpack.advertiseSidebandAll=true' checked-clone
    grep -a -q '0010sideband-all' requests || differs 'no such argument' requests
    checks_alike 'lines on bands' requests responses
    write_addresses_of_packs
    checks_alike 'addresses of packs' requests responses
    write_stateless_recorder
    rm -rf checked-clone
    recorded clone -q "stateless::$room/history-sha1" checked-clone
    checks_alike 'sessions without a state' history-sha1.requests history-sha1.responses --stateless
}

# Megabytes of lines and of a pack.
case_a_checker_in_c_takes_a_large_conversation() {
    local checker=check where='a large conversation'
    rm -rf checked-clone
    recorded clone -q --mirror 'ext::record heavy' checked-clone
    prints_the_same '100 65536' requests responses
    grep -q '^end 2[0-9]\{7\} ' wanted || differs 'another end' wanted
    {
        packet 'version 2'
        awk 'BEGIN { for (i = 0; i < 40000; i++) printf "0020key-%020d=12\n", i }'
        printf 0000
    } > responses
    : > requests
    where='an advertisement of many lines'
    prints_the_same '1000 65536' requests responses
    [ "$(wc -l < wanted)" = 40001 ] || differs 'another transcript' wanted
}

case_a_checker_in_c_tells_what_is_wrong() {
    local words
    cp "$top/sample/requests.pkt" "$top/sample/conversation.pkt" .
    for words in '' requests.pkt 'requests.pkt conversation.pkt more' '--chunk 0 requests.pkt conversation.pkt' \
        '--chunk 65537 requests.pkt conversation.pkt' '--chunk x requests.pkt conversation.pkt' '--chunk' '--format requests.pkt conversation.pkt'; do
        run check-watched $words
        expect 2 /dev/null <(echo 'usage: check [--sha256] [--stateless] [--chunk N] REQUESTS RESPONSES')
    done
    run check-watched requests.pkt nothing.here
    expect 1 /dev/null <(echo 'check: a file cannot be opened')
    run check-watched requests.pkt .
    expect 1 /dev/null <(echo 'check: the responses cannot be read')
    run check-watched --sha256 requests.pkt conversation.pkt
    expect_status 1
    grep -q -x 'check: responses: WrongFormat at [0-9]*' err || differs 'another error' err
    tells_a_full_device check requests.pkt conversation.pkt
    under_valgrind bin/check --chunk 7 requests.pkt conversation.pkt
    expect 0 <(git2show check requests.pkt conversation.pkt) /dev/null
}
