# Cases in which examples/http-backend.sh runs alone, as a web server runs it. What it writes is compared byte by byte.

# ask_backend METHOD PATH [VARIABLE=VALUE..]: runs the script alone, as a web server does, with the body on standard input.
ask_backend() {
    run env -i PATH="$PATH" GIT_PROJECT_ROOT="$room" REQUEST_METHOD="$1" PATH_INFO="$2" "${@:3}" "$top/examples/http-backend.sh"
}

# ask_for_advertisement NAME [VARIABLE=VALUE..], ask_for_references NAME [VARIABLE=VALUE..]: two requests of a fetch.
ask_for_advertisement() {
    ask_backend GET "/$1/info/refs" QUERY_STRING=service=git-upload-pack HTTP_GIT_PROTOCOL=version=2 "${@:2}"
}
ask_for_references() {
    ask_backend POST "/$1/git-upload-pack" HTTP_GIT_PROTOCOL=version=2 "${@:2}" < <(request peel symrefs)
}

# answer_head KIND, refusal STATUS TEXT: what the script writes.
answer_head() {
    printf 'Status: 200 OK\r\nContent-Type: application/x-git-upload-pack-%s\r\nCache-Control: no-cache\r\n\r\n' "$1"
}
refusal() {
    printf 'Status: %s\r\nContent-Type: text/plain; charset=utf-8\r\n\r\n%s\n' "$1" "$2"
}

# The body of a probe is a flush packet, and it comes without a version.
case_a_probe_is_answered_over_http_as_git_answers_it() {
    local length
    GIT_PROJECT_ROOT=$room GIT_HTTP_EXPORT_ALL=yes REQUEST_METHOD=POST PATH_INFO=/history-sha1/git-upload-pack CONTENT_LENGTH=4 \
        CONTENT_TYPE=application/x-git-upload-pack-request git http-backend < <(printf 0000) > out
    sed -e '/^Expires:/d' -e '/^Pragma:/d' -e '/^Cache-Control:/d' out > wanted
    for length in CONTENT_LENGTH=4 CONTENT_LENGTH=; do
        ask_backend POST /history-sha1/git-upload-pack $length < <(printf 0000)
        expect 0 <(answer_head result) /dev/null
        sed -e '/^Status: 200 OK/d' -e '/^Cache-Control:/d' out > written
        expect_same 'the answer to a probe' wanted written
    done
}

case_no_other_request_is_served_over_http_without_a_version() {
    local body
    for body in '' 000 0001 "$(request)"; do
        ask_backend POST /wanted/git-upload-pack < <(printf %s "$body")
        expect 0 <(refusal '400 Bad Request' "version 2 of Git's protocol alone is served here: git -c protocol.version=2") /dev/null
    done
}

# A body whose length is not stated ends with the input. One whose length is stated ends there, even if the input stays open.
case_a_body_is_read_over_http_whole_and_no_further() {
    local ask=(ask_backend POST /wanted/git-upload-pack HTTP_GIT_PROTOCOL=version=2)
    request peel symrefs > body
    gzip -n < body > packed-body
    mkfifo open-input
    exec 5<> open-input
    "${ask[@]}" < body
    expect 0 <(answer_head result; whole_answer) /dev/null
    "${ask[@]}" HTTP_CONTENT_ENCODING=gzip < packed-body
    expect 0 <(answer_head result; whole_answer) /dev/null
    cat body >&5
    "${ask[@]}" CONTENT_LENGTH="$(wc -c < body)" <&5
    expect 0 <(answer_head result; whole_answer) /dev/null
    cat packed-body >&5
    "${ask[@]}" CONTENT_LENGTH="$(wc -c < packed-body)" HTTP_CONTENT_ENCODING=x-gzip <&5
    expect 0 <(answer_head result; whole_answer) /dev/null
    "${ask[@]}" < /dev/null
    expect 0 <(answer_head result) /dev/null
    rm open-input
}

# A web server may read no answer before it has passed the body on, and treat a body that is not read as an error of the script.
case_a_body_is_read_over_http_before_it_is_answered() {
    ask_backend POST /wanted/git-upload-pack HTTP_GIT_PROTOCOL=version=2 \
        < <(printf 00g0; head -c 1000000 /dev/zero && echo yes > was-read)
    expect 0 <(answer_head result; packet 'ERR BadDigit at 2') <(fault 'BadDigit at 2')
    wait_for was-read
    rm was-read
    fetch "$(git -C heavy rev-parse main)" > body
    ask_backend POST /heavy/git-upload-pack HTTP_GIT_PROTOCOL=version=2 < body
    expect_status 0
    limited env -i PATH="$PATH" GIT_PROJECT_ROOT="$room" REQUEST_METHOD=POST PATH_INFO=/heavy/git-upload-pack HTTP_GIT_PROTOCOL=version=2 \
        "$top/examples/http-backend.sh" < <(cat body; head -c 1000000 /dev/zero && echo yes > was-read) |
        { wait_for was-read; cat; } > written
    cmp out written
}

case_a_body_that_is_not_compressed_as_it_states_is_refused_over_http() {
    ask_for_references wanted HTTP_CONTENT_ENCODING=gzip
    expect_status 0
    expect_same 'the answer' <(refusal '400 Bad Request' 'the body of the request is not compressed as its head states') out
    grep -q 'not in gzip format' err || differs 'what was reported' err
}

# A compressed body may become any number of bytes: no more is read than a request can have.
case_a_body_that_grows_without_end_is_cut_over_http() {
    {
        packet command=ls-refs
        packet "agent=$(printf '%065000d' 0)" > line
        for _ in {1..1200}; do cat line; done
        printf 0000
    } | gzip -n > body
    [ "$(wc -c < body)" -lt 1000000 ] || differs 'a body that is not small'
    ask_backend POST /wanted/git-upload-pack HTTP_GIT_PROTOCOL=version=2 HTTP_CONTENT_ENCODING=gzip < body
    expect 0 <(answer_head result; packet 'ERR Truncated at 67091372') <(fault 'Truncated at 67091372')
}

# An answer is passed on as git2show writes it. Here git2show writes the rest only after the first part has arrived.
case_an_answer_over_http_is_passed_on_as_it_comes() {
    local asking
    mkdir halting
    mkfifo halting/fifo
    exec 5<> halting/fifo
    printf '%s\n' '#!/bin/sh' 'printf 0009first' "read -r line < '$room/halting/fifo'" 'printf 000asecond' > halting/git2show
    chmod +x halting/git2show
    { answer_head advertisement; printf 0009first; } > wanted
    ask_for_advertisement wanted PATH="$room/halting:$PATH" &
    asking=$!
    limited sh -c 'until cmp -s wanted out; do sleep 0.1; done' || differs 'an answer that was held back' out
    echo >&5
    wait $asking
    printf 000asecond >> wanted
    expect_same 'the answer' wanted out
}

# offer_broken FOLDER: repositories that cannot be served: one whose text is none, one without its pack, and one whose filtered pack is a folder.
offer_broken() {
    local name
    mkdir -p "$1/filtered.filtered"
    for name in text packless filtered; do
        cp wanted.repo "$1/$name.repo"
        cp wanted.pack "$1/$name.pack"
    done
    echo 'no text' > "$1/text.repo"
    rm "$1/packless.pack"
}

# not_served NAME LINE [VARIABLE=VALUE..]: that each request for a repository is answered with status 500, and this line is reported at the
# end.
not_served() {
    local ask
    for ask in ask_for_advertisement ask_for_references; do
        $ask "$1" "${@:3}"
        expect_status 0
        expect_same 'the answer' <(refusal '500 Internal Server Error' "the repository cannot be served: the web server's log has the reason") out
        expect_same 'what was reported' <(echo "http-backend.sh: $2") <(tail -n 1 err)
    done
}

case_what_cannot_be_served_over_http_is_reported() {
    local tool
    offer_broken broken
    not_served broken/text "cannot serve $room/broken/text.repo: git2show ended with status 1, nothing was written"
    grep -q '^git2show: BadRepo at 1' err || differs 'what our program reported' err
    not_served broken/packless "cannot read $room/broken/packless.pack"
    not_served broken/filtered "cannot read $room/broken/filtered.filtered"
    not_served wanted 'GIT_PROJECT_ROOT is not set' GIT_PROJECT_ROOT=
    mkdir tools
    for tool in cat dd head gzip; do
        ln -s "$(command -v $tool)" tools
    done
    not_served wanted "git2show is not on the path, $room/tools" PATH="$room/tools"
    printf '%s\n' '#!/bin/sh' 'exit 3' > tools/git2show
    chmod +x tools/git2show
    not_served wanted "cannot serve $room/wanted.repo: git2show ended with status 3, nothing was written" PATH="$room/tools"
    rm tools/gzip
    not_served wanted "gzip is not on the path, $room/tools" PATH="$room/tools"
}

# No part of a name is empty or begins with a dot, and no other bytes than these are in it.
case_no_other_name_is_served_over_http() {
    local name
    mkdir -p named/.in
    for name in named/one named/.one named/.in/one; do
        cp wanted.repo $name.repo
        cp wanted.pack $name.pack
    done
    ask_for_advertisement named/one
    expect 0 <(answer_head advertisement; advertisement sha1) /dev/null
    for name in '' . .. /named/one named named/ named/one/ named//one named/./one named/../wanted named/.one named/.in/one \
        named/.git named%2fone 'named\one' 'named/one ' $'named/one\n' "../${room##*/}/wanted"; do
        ask_for_advertisement "$name"
        expect 0 <(refusal '404 Not Found' 'no such repository') /dev/null
    done
}
