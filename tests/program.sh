# Cases in which the program is called by hand: its statuses, its error lines, and when it answers.

# packet TEXT: a data packet of the text and a LF.
packet() {
    printf '%04x%s\n' $((${#1} + 5)) "$1"
}

# advertisement FORMAT: what a server sends first.
advertisement() {
    packet 'version 2'
    packet agent=git2/1
    packet ls-refs=unborn
    packet 'fetch=shallow ref-in-want wait-for-done filter'
    packet server-option
    packet "object-format=$1"
    packet object-info
    printf 0000
}

# request [ARGUMENT..]: asks for references.
request() {
    local argument
    packet command=ls-refs
    printf 0001
    for argument; do
        packet "$argument"
    done
    printf 0000
}

# fetch OBJECT..: asks for a pack of these objects.
fetch() {
    local object
    packet command=fetch
    printf 0001
    for object; do
        packet "want $object"
    done
    packet 'done'
    printf 0000
}

# fetch_filtered FILTER OBJECT..: asks for a pack of these objects, without what the filter leaves out.
fetch_filtered() {
    local object filter=$1
    shift
    packet command=fetch
    printf 0001
    packet "filter $filter"
    for object; do
        packet "want $object"
    done
    packet 'done'
    printf 0000
}

# object_info ARGUMENT..: asks for facts about objects.
object_info() {
    local argument
    packet command=object-info
    printf 0001
    for argument; do
        packet "$argument"
    done
    printf 0000
}

# The answers of small.repo to a request with `peel` and `symrefs`, to one without arguments, and to one with
# `ref-prefix refs/tags/` alone.
whole_answer() {
    packet '1111111111111111111111111111111111111111 HEAD symref-target:refs/heads/main'
    packet '1111111111111111111111111111111111111111 refs/heads/main'
    packet '2222222222222222222222222222222222222222 refs/tags/v1 peeled:3333333333333333333333333333333333333333'
    printf 0000
}
plain_answer() {
    packet '1111111111111111111111111111111111111111 HEAD'
    packet '1111111111111111111111111111111111111111 refs/heads/main'
    packet '2222222222222222222222222222222222222222 refs/tags/v1'
    printf 0000
}
tags_answer() {
    packet '2222222222222222222222222222222222222222 refs/tags/v1'
    printf 0000
}

# serve [OPTION..] < REQUESTS
serve() {
    run git2show serve --repo small.repo --pack empty.pack "$@"
}

# serve_pack [OPTION..] < REQUESTS: the same repository, with its objects and a pack.
serve_pack() {
    run git2show serve --repo wanted.repo --pack wanted.pack "$@"
}

# The answer of wanted.repo to any fetch of its objects.
pack_answer() {
    packet packfile
    printf '000a\001PACK!0000'
}

# And to a fetch with a filter, if the repository has a filtered pack too.
filtered_answer() {
    packet packfile
    printf '0009\001TINY0000'
}

# Names of objects of wanted.repo, and one that it does not have.
one=1111111111111111111111111111111111111111
two=2222222222222222222222222222222222222222
other=4444444444444444444444444444444444444444

# fault NAME: the line that reports an error.
fault() {
    echo "git2show: $1"
}

# expect_refused WORD..: that the program does not accept these words, and reports that on standard error alone.
expect_refused() {
    run git2show "$@"
    expect_status 2
    expect_same "standard output of '$*'" /dev/null out
    [ -s err ] || differs "nothing on standard error for '$*'"
}

# expect_help USAGE WORD..: that these words are answered by a help text with that line, on standard output alone.
expect_help() {
    local usage=$1
    shift
    run git2show "$@"
    expect_status 0
    expect_same "standard error of '$*'" /dev/null err
    expect_line "the text of '$*'" "$usage" out
}

case_help_goes_to_standard_output() {
    expect_help 'Usage: git2show <COMMAND>' --help
    expect_help 'Usage: git2show show [OPTIONS]' show --help
    expect_help 'Usage: git2show check [OPTIONS] <REQUESTS> <RESPONSES>' check --help
    expect_help 'Usage: git2show serve [OPTIONS] --repo <FILE> --pack <FILE> [DIR]' serve --help
}

case_version_goes_to_standard_output() {
    run git2show --version
    expect 0 <(echo 'git2show 0.3.0') /dev/null
}

case_words_that_are_no_command_are_refused() {
    expect_refused
    expect_refused push
    expect_refused show more
    expect_refused check one
    expect_refused check --format md5 /dev/null /dev/null
    expect_refused serve --repo small.repo
    expect_refused serve --pack empty.pack
    expect_refused serve --repo small.repo --pack empty.pack --limit x
    expect_refused serve --repo small.repo --pack empty.pack --filtered
    expect_refused serve --repo small.repo --filtered empty.pack
}

case_a_word_that_is_no_utf8_is_refused() {
    run git2show $'\xff'
    expect 2 /dev/null <(echo 'error: an argument is not UTF-8')
}

case_a_limit_past_the_most_is_refused() {
    expect_refused serve --repo small.repo --pack empty.pack --limit 1073741825
    serve --limit 1073741824
    expect 0 <(advertisement sha1) /dev/null
}

case_serve_answers_each_request() {
    serve < <(request peel symrefs; request 'ref-prefix refs/tags/'; printf 0000)
    expect 0 <(advertisement sha1; whole_answer; tags_answer) /dev/null
}

case_serve_sends_its_pack() {
    serve_pack < <(fetch $one; request 'ref-prefix refs/tags/'; fetch $two $one $two; printf 0000)
    expect 0 <(advertisement sha1; pack_answer; tags_answer; pack_answer) /dev/null
}

# With any filter; a request without one gets the other pack.
case_serve_sends_its_filtered_pack() {
    serve_pack --filtered filtered.pack < <(fetch_filtered blob:none $one; fetch $one; fetch_filtered 'no filter' $two; printf 0000)
    expect 0 <(advertisement sha1; filtered_answer; pack_answer; filtered_answer) /dev/null
    serve_pack --filtered filtered.pack --stateless-rpc < <(fetch_filtered blob:none $one)
    expect 0 <(filtered_answer) /dev/null
    serve_pack --filtered empty.pack < <(fetch_filtered blob:none $one)
    expect 0 <(advertisement sha1; packet packfile; printf 0000) /dev/null
}

# And a request with one too, if no pack is filtered.
case_serve_sends_its_pack_where_none_is_filtered() {
    serve_pack < <(fetch_filtered blob:none $one)
    expect 0 <(advertisement sha1; pack_answer) /dev/null
}

# A filter has seven bytes more than its text, a want 45, and `done` four.
case_serve_keeps_to_its_limit_of_filters() {
    serve_pack --filtered filtered.pack --limit 65 < <(fetch_filtered blob:none $one)
    expect 0 <(advertisement sha1; filtered_answer) /dev/null
    serve_pack --filtered filtered.pack --limit 64 < <(fetch_filtered blob:none $one)
    expect 1 <(advertisement sha1; packet 'ERR TooMuchKept at 93') <(fault 'TooMuchKept at 93')
}

# The pack is cut into packets, each with some bytes of it; together they have all of them.
case_serve_cuts_a_large_pack() {
    local packets
    head -c 1000001 /dev/urandom > large.pack
    run git2show serve --repo wanted.repo --pack large.pack < <(fetch $one)
    expect_status 0
    expect_same 'standard error' /dev/null err
    git2show show < out > shown
    packets=$(grep -c ' data [0-9]* \\x01' shown)
    [ "$packets" -ge 16 ] || differs "$packets packets of a pack" shown
    # A band's byte before each part, the header's packet, and the flush.
    [ "$(awk '/ data [0-9]+ \\x01/ { sum += $3 - 1; if ($3 < 2) exit 1 } END { print sum }' shown)" = 1000001 ] || differs 'not all bytes' shown
    expect_same 'the last packet' <(echo flush) <(tail -n 1 shown | cut -d ' ' -f 2)
}

case_serve_tells_an_object_that_is_not_there() {
    serve_pack < <(fetch $one $other)
    expect 1 <(advertisement sha1; packet 'ERR NotOurs at 72') <(fault 'NotOurs at 72')
    serve < <(fetch $one)
    expect 1 <(advertisement sha1; packet 'ERR NotOurs at 22') <(fault 'NotOurs at 22')
}

# The sizes are those in the lines of the text; an object without a line has none.
case_serve_tells_sizes() {
    serve_pack < <(object_info size "oid $two" "oid $other" "oid $one"; request 'ref-prefix refs/tags/'; printf 0000)
    expect 0 <(advertisement sha1; packet size; packet "$two 140"; packet "$other "; packet "$one 230"; printf 0000; tags_answer) /dev/null
    serve < <(object_info size "oid $one")
    expect 0 <(advertisement sha1; packet size; packet "$one "; printf 0000) /dev/null
}

# An object-info request can ask for nothing but sizes.
case_serve_tells_an_object_info_without_sizes() {
    serve_pack < <(object_info "oid $one")
    expect 1 <(advertisement sha1; packet 'ERR NoSize at 77') <(fault 'NoSize at 77')
}

case_serve_tells_a_fetch_of_nothing() {
    serve_pack < <(fetch)
    expect 1 <(advertisement sha1; packet 'ERR NoWants at 31') <(fault 'NoWants at 31')
}

# A want has 45 bytes, and `done` four.
case_serve_keeps_to_its_limit_of_wants() {
    serve_pack --limit 94 < <(fetch $one $two)
    expect 0 <(advertisement sha1; pack_answer) /dev/null
    serve_pack --limit 93 < <(fetch $one $two)
    expect 1 <(advertisement sha1; packet 'ERR TooMuchKept at 122') <(fault 'TooMuchKept at 122')
}

# The default limit allows 372,827 wants of 45 bytes. An object name is kept of each, in 33 bytes, and while they move to a larger block
# they are there twice.
case_serve_keeps_no_more_of_a_million_wants() {
    local at=$((22 + 372827 * 50))
    {
        packet command=fetch
        printf 0001
        awk -v want="0032want $one" 'BEGIN { for (i = 0; i < 1000000; i++) print want }'
        packet 'done'
        printf 0000
    } > large
    status=0
    (ulimit -v 65536 && limited git2show serve --repo wanted.repo --pack wanted.pack < large) > out 2> err || status=$?
    expect 1 <(advertisement sha1; packet "ERR TooMuchKept at $at") <(fault "TooMuchKept at $at")
}

# If a client leaves in the middle of its request, the only answer is the error packet.
case_serve_tells_a_fetch_that_is_cut_off() {
    serve_pack < <(fetch $one | head -c 80)
    expect 1 <(advertisement sha1; packet 'ERR Truncated at 72') <(fault 'Truncated at 72')
}

# The advertisement alone; the input is not read.
case_serve_gives_its_advertisement_alone() {
    local option
    for option in --http-backend-info-refs --advertise-refs '--stateless-rpc --http-backend-info-refs'; do
        serve $option < <(request peel symrefs)
        expect 0 <(advertisement sha1) /dev/null
        serve $option < /dev/null
        expect 0 <(advertisement sha1) /dev/null
    done
}

case_serve_answers_one_request_alone() {
    serve --stateless-rpc < <(request peel symrefs; request 'ref-prefix refs/tags/'; printf zzzz)
    expect 0 <(whole_answer) /dev/null
    serve_pack --stateless-rpc < <(fetch $one; fetch $two)
    expect 0 <(pack_answer) /dev/null
    serve --stateless-rpc < /dev/null
    expect 0 /dev/null /dev/null
    serve --stateless-rpc < <(printf 0000; request peel)
    expect 0 /dev/null /dev/null
}

# The answer to a request whose bytes come one by one, while the input stays open.
case_serve_ends_after_one_request() {
    mkfifo one-by-one
    { request peel symrefs | dd bs=1 status=none; exec sleep 60; } > one-by-one &
    serve --stateless-rpc < one-by-one
    kill $!
    rm one-by-one
    expect 0 <(whole_answer) /dev/null
}

case_serve_tells_what_is_wrong_with_one_request() {
    serve --stateless-rpc < <(printf 00g0)
    expect 1 <(packet 'ERR BadDigit at 2') <(fault 'BadDigit at 2')
    serve_pack --stateless-rpc < <(fetch $one | head -c 80)
    expect 1 <(packet 'ERR Truncated at 72') <(fault 'Truncated at 72')
    serve_pack --stateless-rpc --limit 93 < <(fetch $one $two)
    expect 1 <(packet 'ERR TooMuchKept at 122') <(fault 'TooMuchKept at 122')
    serve --stateless-rpc < .
    expect 1 /dev/null <(fault ReadFault)
}

# Git puts the name of a repository after its words; nothing is read from there.
case_serve_takes_a_folder_at_its_end() {
    serve --http-backend-info-refs /nowhere
    expect 0 <(advertisement sha1) /dev/null
    serve 'nowhere at all' < <(request peel symrefs)
    expect 0 <(advertisement sha1; whole_answer) /dev/null
    expect_refused serve --repo small.repo --pack empty.pack one two
}

case_serve_ends_where_its_input_ends() {
    serve < <(request peel symrefs)
    expect 0 <(advertisement sha1; whole_answer) /dev/null
}

case_serve_tells_a_malformed_packet() {
    serve < <(printf 00g0)
    expect 1 <(advertisement sha1; packet 'ERR BadDigit at 2') <(fault 'BadDigit at 2')
}

case_serve_tells_an_input_that_is_cut_off() {
    serve < <(printf 0000 | head -c 3)
    expect 1 <(advertisement sha1; packet 'ERR Truncated at 0') <(fault 'Truncated at 0')
}

# Offsets continue after the requests that were answered.
case_serve_tells_a_second_request_that_is_none() {
    local at
    request peel symrefs > first
    at=$(wc -c < first)
    serve < <(cat first; packet command=push; printf 0000)
    expect 1 <(advertisement sha1; whole_answer; packet "ERR UnknownCommand at $at") <(fault "UnknownCommand at $at")
}

# The argument has 21 bytes, and comes after 20 bytes of command and the delimiter's four.
case_serve_keeps_to_its_limit() {
    request 'ref-prefix refs/tags/' > first
    serve --limit 21 < first
    expect 0 <(advertisement sha1; tags_answer) /dev/null
    serve --limit 20 < first
    expect 1 <(advertisement sha1; packet 'ERR TooMuchKept at 24') <(fault 'TooMuchKept at 24')
}

# With a limit of 0 a request without arguments is answered.
case_serve_keeps_nothing_where_it_may_not() {
    serve --limit 0 < <(packet command=ls-refs; printf 0000)
    expect 0 <(advertisement sha1; plain_answer) /dev/null
    serve --limit 0 < <(request peel)
    expect 1 <(advertisement sha1; packet 'ERR TooMuchKept at 24') <(fault 'TooMuchKept at 24')
}

# An error packet of the client is reported, and is not answered.
case_serve_tells_an_error_of_its_client() {
    serve < <(packet 'ERR nope')
    expect 1 <(advertisement sha1) <(fault 'RemoteError at 0')
}

case_serve_tells_a_wrong_text() {
    sed '$p' small.repo > wrong.repo # the last line twice
    run git2show serve --repo wrong.repo --pack empty.pack
    expect 1 /dev/null <(fault 'BadRepo at 5')
}

case_serve_tells_a_missing_file() {
    run git2show serve --repo nowhere.repo --pack empty.pack
    expect 1 /dev/null <(fault File)
    run git2show serve --repo small.repo --pack nowhere.pack
    expect 1 /dev/null <(fault File)
    run git2show serve --repo / --pack empty.pack
    expect 1 /dev/null <(fault File)
    serve --filtered nowhere.pack
    expect 1 /dev/null <(fault File)
}

# A text without a line end is refused at once, however long it is.
case_serve_refuses_a_line_that_is_too_long() {
    run git2show serve --repo /dev/zero --pack empty.pack
    expect 1 /dev/null <(fault 'BadRepo at 1')
    run git2show serve --repo <(cat small.repo /dev/zero) --pack empty.pack
    expect 1 /dev/null <(fault 'BadRepo at 5')
    run git2show serve --repo /dev/zero --pack nowhere.pack
    expect 1 /dev/null <(fault File)
}

case_play_and_fetch_refuse_a_line_that_is_too_long() {
    run git2show play --repo small.repo --pack empty.pack --script /dev/zero
    expect 1 /dev/null <(fault 'BadScript at 1')
    run git2show play --repo small.repo --pack empty.pack --script <(printf 'ls-refs\n\n'; cat /dev/zero)
    expect 1 /dev/null <(fault 'BadScript at 3')
    run git2show fetch --script /dev/zero --pack pack
    expect 1 /dev/null <(fault 'BadScript at 1')
}

# huge [OPTION..] < REQUESTS: a repository with a pack of 2 GB, served in 64 MB of memory.
huge() {
    truncate -s 2G huge.pack
    status=0
    (ulimit -v 65536 && limited git2show serve --repo wanted.repo --pack huge.pack "$@") > out 2> err || status=$?
    rm huge.pack
}

# fetch_with ARGUMENT..: asks for a pack with these arguments.
fetch_with() {
    local argument
    packet command=fetch
    printf 0001
    for argument; do
        packet "$argument"
    done
    printf 0000
}

# An advertisement, references, sizes, acknowledgments alone and a refusal need no pack.
case_serve_reads_no_pack_before_it_is_needed() {
    huge --advertise-refs
    expect 0 <(advertisement sha1) /dev/null
    huge --stateless-rpc < <(request 'ref-prefix refs/tags/')
    expect 0 <(tags_answer) /dev/null
    huge --stateless-rpc < <(fetch_with "want $one" "have $two")
    expect 0 <(packet acknowledgments; packet "ACK $two"; printf 0000) /dev/null
    huge < <(object_info size "oid $two"; fetch_with "want $one" "have $other"; request 'ref-prefix refs/tags/'; fetch $other)
    expect 1 <(
        advertisement sha1
        packet size; packet "$two 140"; printf 0000
        packet acknowledgments; packet NAK; printf 0000
        tags_answer
        packet 'ERR NotOurs at 292'
    ) <(fault 'NotOurs at 292')
}

# If a pack cannot be read, or does not fit into memory, this is reported in its place in the answer, at the flush of its request.
case_serve_tells_a_pack_that_cannot_be_read() {
    local pack
    fetch $one > asked
    for pack in / /proc/self/mem; do
        run git2show serve --repo wanted.repo --pack $pack < <(request 'ref-prefix refs/tags/'; printf 0000)
        expect 0 <(advertisement sha1; tags_answer) /dev/null
        run git2show serve --repo wanted.repo --pack $pack --stateless-rpc < asked
        expect 1 <(lost_answer) <(fault "PackSource at $(flush_of asked)")
    done
    run git2show serve --repo wanted.repo --pack wanted.pack --filtered / < asked
    expect 1 <(advertisement sha1; lost_answer) <(fault "PackSource at $(flush_of asked)")
    huge < asked
    expect 1 <(advertisement sha1; lost_answer) <(fault "PackSource at $(flush_of asked)")
}

# The answer to a fetch whose pack is not available, and the offset of the flush at the end of a file.
lost_answer() {
    packet packfile
    printf '000f\003PackSource'
}
flush_of() {
    echo $(($(wc -c < "$1") - 4))
}

case_serve_reads_its_files_before_it_judges_the_text() {
    echo 'format md5' > wrong.repo
    run git2show serve --repo wrong.repo --pack nowhere.pack
    expect 1 /dev/null <(fault File)
    run git2show serve --repo wrong.repo --pack empty.pack --filtered nowhere.pack
    expect 1 /dev/null <(fault File)
    run git2show serve --repo wrong.repo --pack empty.pack --filtered filtered.pack
    expect 1 /dev/null <(fault 'BadRepo at 1')
}

# expect_next WHAT WANTED: that a server whose input stays open has written exactly this so far.
expect_next() {
    cat "$2" > wanted
    limited head -c "$(wc -c < wanted)" <&"$from" > out || differs "$1 did not come"
    expect_same "$1" wanted out
}

# A client that waits for its answer before it asks again gets it, and a flush ends the session although the input stays open.
case_serve_answers_before_its_input_ends() {
    local server from to
    coproc limited git2show serve --repo small.repo --pack empty.pack 2> err
    server=$COPROC_PID
    exec {from}<&"${COPROC[0]}" {to}>&"${COPROC[1]}"
    expect_next 'the advertisement' <(advertisement sha1)
    request peel symrefs >&"$to"
    expect_next 'the first answer' <(whole_answer)
    request 'ref-prefix refs/tags/' > second
    head -c 30 second >&"$to"
    sleep 0.2
    tail -c +31 second >&"$to"
    expect_next 'the second answer' <(tags_answer)
    printf 0000 >&"$to"
    status=0
    wait "$server" || status=$?
    cat <&"$from" > out
    expect 0 /dev/null /dev/null
}

case_show_ends_well() {
    run git2show show < <(printf '0006a\n0000')
    expect 0 <(printf '%s\n' '0 data 2 a\n' '6 flush') /dev/null
}

case_show_tells_a_stream_that_is_cut_off() {
    run git2show show < <(printf '0006a\n000')
    expect 1 <(printf '%s\n' '0 data 2 a\n') <(fault 'Truncated at 6')
}

case_show_tells_an_input_that_cannot_be_read() {
    run git2show show < /
    expect 1 /dev/null <(fault ReadFault)
}

# capabilities FORMAT: what `check` shows of an advertisement before its end.
capabilities() {
    printf 'capability %s\n' agent=git2/1 ls-refs=unborn "fetch=shallow ref-in-want wait-for-done filter" server-option "object-format=$1" object-info
}

case_check_ends_well() {
    advertisement sha256 > responses
    run git2show check --format sha256 /dev/null responses
    expect 0 <(capabilities sha256; echo offered) /dev/null
}

case_check_tells_a_fault_of_the_responses() {
    local flush
    advertisement sha256 > responses
    flush=$(($(wc -c < responses) - 4))
    run git2show check /dev/null responses
    expect 1 <(capabilities sha256) <(fault "responses: WrongFormat at $flush")
}

case_check_tells_a_fault_of_the_requests() {
    printf 00g0 > requests
    advertisement sha1 > responses
    run git2show check requests responses
    expect 1 <(capabilities sha1; echo offered) <(fault 'requests: BadDigit at 2')
}

case_check_tells_a_missing_file() {
    run git2show check /dev/null nowhere
    expect 1 /dev/null <(fault File)
    run git2show check nowhere /dev/null
    expect 1 /dev/null <(fault File)
}

case_check_tells_what_is_left_over() {
    local end
    advertisement sha1 > responses
    end=$(wc -c < responses)
    printf 000 >> responses
    run git2show check /dev/null responses
    expect 1 <(capabilities sha1; echo offered) <(fault "responses: UnexpectedPacket at $end")
}

case_check_takes_an_advertisement_of_stateless_sessions() {
    advertisement sha1 > responses
    run git2show check --stateless /dev/null responses
    expect 0 <(capabilities sha1; echo offered) /dev/null
}

# run_cut_off COMMAND..: runs a program that writes into a pipe whose reader takes one byte and leaves. The signal of such a pipe is not
# ignored, as in a terminal, whatever started this test.
run_cut_off() {
    status=0
    limited env --default-signal=PIPE "$@" > >(head -c 1 > out) 2> err || status=$?
}

# repeat COUNT TEXT
repeat() {
    local i
    for ((i = 0; i < $1; i++)); do
        printf '%s' "$2"
    done
}

# The inputs are large enough for their outputs to fill a pipe, and every buffer before it.
case_a_closed_output_is_a_write_fault() {
    repeat 100000 0005a > large
    run_cut_off git2show show < large
    expect 1 <(printf 0) <(fault WriteFault)
    repeat 10000 "$(request)" > large
    run_cut_off git2show serve --repo small.repo --pack empty.pack < large
    expect 1 <(printf 0) <(fault WriteFault)
    head -c 1000000 /dev/zero > large
    run_cut_off git2show serve --repo wanted.repo --pack large < <(fetch $one)
    expect 1 <(printf 0) <(fault WriteFault)
}

# expect_device_full WORD..: that the program reports a full output device.
expect_device_full() {
    status=0
    limited git2show "$@" < <(printf 0000) > /dev/full 2> err || status=$?
    expect_status 1
    expect_same "standard error of '$1'" <(fault WriteFault) err
}

case_a_full_device_is_a_write_fault() {
    advertisement sha1 > responses
    expect_device_full --help
    expect_device_full show
    expect_device_full check /dev/null responses
    expect_device_full check --pretty /dev/null responses
    expect_device_full serve --repo small.repo --pack empty.pack
    expect_device_full serve --repo small.repo --pack empty.pack --http-backend-info-refs
    expect_device_full play --repo small.repo --pack empty.pack --script /dev/null
}

# on_terminal COMMAND: runs a command of the shell whose standard error is a terminal, and leaves its `status`, and the output there in the
# file `terminal`.
on_terminal() {
    status=0
    limited script -q -e -c "$1" /dev/null < /dev/null > terminal || status=$?
    sed -i 's/\r$//' terminal
}

# explained FAULT LINE: that the last command on a terminal reported an error and this line after it.
explained() {
    expect_status 1
    expect_same 'what is explained' <(fault "$1"; echo "$2") terminal
}

case_a_terminal_gets_what_the_system_reported() {
    command -v script > /dev/null || return 0
    echo ls-refs > script
    on_terminal 'git2show serve --repo nowhere.repo --pack empty.pack'
    explained File '`nowhere.repo`: No such file or directory (os error 2)'
    on_terminal 'git2show play --repo small.repo --pack / --script script'
    explained File '`/`: Is a directory (os error 21)'
    fetch $one > asked
    on_terminal 'git2show serve --repo wanted.repo --pack / < asked > out'
    explained "PackSource at $(flush_of asked)" '`/`: Is a directory (os error 21)'
    on_terminal 'git2show serve --repo wanted.repo --pack wanted.pack --filtered / --stateless-rpc < asked > out'
    explained "PackSource at $(flush_of asked)" '`/`: Is a directory (os error 21)'
    on_terminal $'git2show check /dev/null no\033where'
    explained File '`no\x1bwhere`: No such file or directory (os error 2)'
    on_terminal 'git2show fetch --script script --pack nowhere/it'
    explained File '`nowhere/it`: No such file or directory (os error 2)'
    on_terminal 'git2show fetch --script script --pack pack --transcript nowhere/it'
    explained File '`nowhere/it`: No such file or directory (os error 2)'
    on_terminal 'git2show show < .'
    explained ReadFault 'standard input: Is a directory (os error 21)'
    advertisement sha1 > responses
    on_terminal 'git2show check / responses > out'
    explained ReadFault '`/`: Is a directory (os error 21)'
}

# No more is known of a malformed stream.
case_a_terminal_gets_one_line_of_a_stream() {
    command -v script > /dev/null || return 0
    on_terminal 'printf 00g0 | git2show show'
    expect_status 1
    expect_same 'standard error' <(fault 'BadDigit at 2') terminal
}

case_a_terminal_gets_why_a_write_failed() {
    local words
    command -v script > /dev/null || return 0
    advertisement sha1 > responses
    for words in --help 'check /dev/null responses' 'serve --repo small.repo --pack empty.pack' \
        'play --repo small.repo --pack empty.pack --script /dev/null'; do
        on_terminal "git2show $words > /dev/full"
        explained WriteFault 'standard output: no space left'
    done
    echo ls-refs > script
    on_terminal 'git2show fetch --script script --pack pack --transcript /dev/full < responses > out'
    explained WriteFault '`/dev/full`: no space left'
    repeat 100000 0005a > large
    on_terminal 'git2show show < large | head -c 1 > out'
    expect_same 'what is explained' <(fault WriteFault; echo 'standard output: closed by the reader') terminal
}

# refused_text REASON LINE..: that the last of these lines after the first of a repository text is refused, and why.
refused_text() {
    local reason=$1
    shift
    printf '%s\n' 'format sha1' "$@" > wrong.repo
    on_terminal 'git2show serve --repo wrong.repo --pack empty.pack'
    explained "BadRepo at $(($# + 1))" "line $(($# + 1)) of \`wrong.repo\`: $reason"
}

case_a_terminal_gets_why_a_line_of_a_text_is_refused() {
    local no_name='is no object name of sha1, 40 hexadecimal digits'
    command -v script > /dev/null || return 0
    echo 'format md5' > wrong.repo
    on_terminal 'git2show serve --repo wrong.repo --pack empty.pack'
    explained 'BadRepo at 1' 'line 1 of `wrong.repo`: `format md5` is not `format sha1` or `format sha256`'
    refused_text 'it is empty' "ref $one HEAD" ''
    refused_text 'it is longer than 65536 bytes' "ref $one HEAD" "object $(repeat 65530 1)"
    repeat 65537 f > wrong.repo
    on_terminal 'git2show serve --repo wrong.repo --pack empty.pack'
    explained 'BadRepo at 1' 'line 1 of `wrong.repo`: it is longer than 65536 bytes'
    refused_text '`tag` is not `ref`, `object`, `ready`, `shallow` or `unshallow`' "tag $one"
    refused_text 'it ends after `ref`' ref
    refused_text "it ends after \`$one\`" "object $one"
    refused_text "\`1111\` $no_name" 'ref 1111 HEAD'
    refused_text "\`${one//1/x}\` $no_name" "shallow ${one//1/x}"
    refused_text "\`$(repeat 64 1)...\` $no_name" "object $(repeat 65 1) 3"
    refused_text "\`\\x1b[31m\` $no_name" $'ref \033[31m HEAD'
    refused_text "\`x\` $no_name" "ref $one refs/tags/v1 peeled:x"
    refused_text '`refs/heads/a..b` is no reference name, `HEAD` or one below `refs/`' "ref $one refs/heads/a..b"
    refused_text '`main` is no reference name, `HEAD` or one below `refs/`' "ref $one HEAD symref-target:main"
    refused_text '`many` is no number that is allowed there' "object $one many"
    refused_text '`0` is no number that is allowed there' 'ready 0'
    refused_text 'there is a line `ready` before it' 'ready 1' 'ready 2'
    refused_text '`refs/heads/a` is unborn, which only `HEAD` with a `symref-target:` may be' 'ref unborn refs/heads/a'
    refused_text 'names rise, and `refs/heads/a` does not come after `refs/heads/b`' \
        "ref $one refs/heads/b" "object $one 3" "ref $one refs/heads/a"
    refused_text "names rise, and \`$one\` does not come after \`$two\`" "object $two 3" "object $one 3"
}

# The lines of a pipe can be read only once.
case_a_terminal_gets_which_line_of_a_pipe_is_refused() {
    command -v script > /dev/null || return 0
    on_terminal 'echo none | git2show serve --repo /dev/stdin --pack empty.pack'
    explained 'BadRepo at 1' 'line 1 of `/dev/stdin`, which cannot be read again'
}

# refused_script REASON LINE..: that the last of these lines of a script is refused, and why.
refused_script() {
    local reason=$1
    shift
    printf '%s\n' "$@" > script
    on_terminal 'git2show fetch --script script --pack pack'
    explained "BadScript at $#" "line $# of \`script\`: $reason"
}

case_a_terminal_gets_why_a_line_of_a_script_is_refused() {
    local no_name='is no object name of sha1, 40 hexadecimal digits'
    command -v script > /dev/null || return 0
    refused_script '`push` is no command, `ls-refs`, `fetch` or `object-info`' push
    refused_script '`done` is no command, `ls-refs`, `fetch` or `object-info`' fetch 'done' '' 'done'
    refused_script '`peel` is no argument of `fetch`' ls-refs peel '' '' fetch 'done' peel
    refused_script "\`v1\` $no_name" fetch 'want v1'
    refused_script '`v1` is no reference name, `HEAD` or one below `refs/`' fetch 'want-ref v1'
    refused_script '`0` is no number that is allowed there' fetch 'deepen 0'
    refused_script 'the value of `filter` is empty or too long' fetch 'filter '
    refused_script 'it is longer than 65536 bytes' ls-refs "ref-prefix $(repeat 65526 x)"
    printf '%s\n' object-info "oid $one" > script
    echo 'format sha256' > none.repo
    on_terminal 'git2show play --repo none.repo --pack empty.pack --script script'
    explained 'BadScript at 2' "line 2 of \`script\`: \`$one\` is no object name of sha256, 64 hexadecimal digits"
}
