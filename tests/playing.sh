# Cases of `git2show play`: both sides in memory, with chunks of any length, and with one server for all requests or one for each.

a=$(printf 'a%.0s' {1..40})
d=$(printf 'd%.0s' {1..40})

# A repository of one commit, with its text, its pack of five bytes and its filtered pack of four.
write_played() {
    printf '%s\n' 'format sha1' "ref $a HEAD symref-target:refs/heads/main" "ref $a refs/heads/main" "object $a 12" > played.repo
    printf 'PACK!' > played.pack
    printf TINY > played.filtered
}

# play [OPTION..] < SCRIPT
play() {
    cat > script
    run git2show play --repo played.repo --pack played.pack --script script "$@"
}

# each_way FUNCTION SCRIPT: calls the function after each way to play a script: in single bytes, in long chunks, and with a server for each
# request.
each_way() {
    local words
    write_played
    for words in '' '--cut 1' '--cut 7' '--cut 65536' --stateless '--cut 1 --stateless' '--cut 65536 --stateless'; do
        # The words are split here.
        play $words < <(printf "$2")
        "$1"
    done
}

offer_told() {
    capabilities sha1
    echo offered
}

expect_references_and_pack() {
    expect 0 <(offer_told; printf '%s\n' 'request ls-refs' "ref $a HEAD symref-target:refs/heads/main" 'end 0 0' 'request fetch' 'end 5 0') /dev/null
}

case_play_tells_what_the_client_hears() {
    each_way expect_references_and_pack "ls-refs\nsymrefs\nref-prefix HEAD\n\nfetch\nwant $a\ndone\n"
}

expect_nothing_asked() {
    expect 0 <(offer_told) /dev/null
}

case_play_of_no_request() {
    each_way expect_nothing_asked ''
}

# If the server refuses a request, the client receives an error packet in the place of its answer.
expect_refused_want() {
    expect 1 <(offer_told; echo 'request fetch') <(fault 'RemoteError at 162')
}

case_play_tells_what_the_server_refuses() {
    each_way expect_refused_want "fetch\nwant $d\ndone\n"
}

# A request that the client can't ask has no line.
expect_unasked() {
    expect 1 <(offer_told) <(fault 'NoWants at 162')
}

case_play_tells_what_the_client_refuses() {
    each_way expect_unasked 'fetch\ndone\n'
}

expect_all_commands() {
    expect 0 <(offer_told; printf '%s\n' 'request object-info' "info $d -" "info $a 12" 'end 0 0' \
        'request fetch' "ack $a" 'end 0 0' 'request fetch' nak 'end 0 0' 'request ls-refs' "ref $a HEAD" "ref $a refs/heads/main" 'end 0 0') /dev/null
}

case_play_of_each_command() {
    each_way expect_all_commands \
        "object-info\nsize\noid $d\noid $a\n\nfetch\nwant $a\nhave $a\nhave $d\n\nfetch\nwant $a\nhave $d\n\n\nls-refs"
}

# play_filtered [OPTION..]: plays a request with a filter, and one without.
play_filtered() {
    play "$@" < <(printf 'fetch\nfilter tree:0\nwant %s\ndone\n\nfetch\nwant %s\ndone\n' "$a" "$a")
}

# The end of a response counts the bytes of its own pack.
case_play_of_a_filtered_pack() {
    local words
    write_played
    for words in '' '--cut 1' --stateless; do
        # The words are split here.
        play_filtered --filtered played.filtered $words
        expect 0 <(offer_told; printf '%s\n' 'request fetch' 'end 4 0' 'request fetch' 'end 5 0') /dev/null
        # shellcheck disable=SC2086
        play_filtered $words
        expect 0 <(offer_told; printf '%s\n' 'request fetch' 'end 5 0' 'request fetch' 'end 5 0') /dev/null
    done
}

case_play_tells_a_wrong_script() {
    write_played
    play < <(printf 'fetch\nsymrefs\n')
    expect 1 /dev/null <(fault 'BadScript at 2')
    play < <(printf 'want %s\n' "$a")
    expect 1 /dev/null <(fault 'BadScript at 1')
}

case_play_tells_a_missing_file() {
    write_played
    run git2show play --repo played.repo --pack played.pack --script nowhere
    expect 1 /dev/null <(fault File)
    run git2show play --repo played.repo --pack nowhere --script /dev/null
    expect 1 /dev/null <(fault File)
    run git2show play --repo nowhere --pack played.pack --script /dev/null
    expect 1 /dev/null <(fault File)
    play --filtered nowhere < /dev/null
    expect 1 /dev/null <(fault File)
    printf 'no line of a repository\n' > bad.repo
    run git2show play --repo bad.repo --pack played.pack --script nowhere
    expect 1 /dev/null <(fault File)
    run git2show play --repo bad.repo --pack played.pack --filtered nowhere --script /dev/null
    expect 1 /dev/null <(fault File)
    run git2show play --repo bad.repo --pack played.pack --script /dev/null
    expect 1 /dev/null <(fault 'BadRepo at 1')
}

case_play_refuses_wrong_words() {
    expect_refused play
    expect_refused play --repo played.repo --pack played.pack
    expect_refused play --repo played.repo --pack played.pack --script /dev/null --cut 0
    expect_refused play --repo played.repo --pack played.pack --script /dev/null --cut 65537
    expect_help 'Usage: git2show play [OPTIONS] --repo <FILE> --pack <FILE> --script <FILE>' play --help
}

# A pack of many packets, counted whole.
case_play_of_a_large_pack() {
    local words
    write_played
    head -c 1000001 /dev/zero > played.pack
    for words in '' '--cut 100 --stateless'; do
        # The words are split here.
        play $words < <(printf 'fetch\nwant %s\ndone\n' "$a")
        expect 0 <(offer_told; printf '%s\n' 'request fetch' 'end 1000001 0') /dev/null
    done
}

# A repository of a thousand references, each listed as in its text.
case_play_of_a_thousand_references() {
    local i words
    write_played
    {
        echo 'format sha1'
        for ((i = 1000; i < 2000; i++)); do
            printf 'ref %040d refs/heads/branch-%d\n' $i $i
        done
    } > played.repo
    for words in '' '--cut 1' --stateless; do
        # The words are split here.
        play $words < <(printf 'ls-refs\nsymrefs\npeel\n')
        expect 0 <(offer_told; echo 'request ls-refs'; tail -n +2 played.repo; echo 'end 0 0') /dev/null
    done
}

# The references of a large text, in either object format.
case_play_of_each_object_format() {
    local format
    write_played
    for format in sha1 sha256; do
        grep -a -v '[^ -~]' $format.repo > played.repo # others are escaped in a transcript
        play < <(printf 'ls-refs\nsymrefs\npeel\n')
        expect 0 <(capabilities $format; printf '%s\n' offered 'request ls-refs'; grep '^ref ' played.repo; echo 'end 0 0') /dev/null
    done
}
