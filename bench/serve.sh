# shellcheck shell=bash disable=SC2154
# The row `serve`, for bench/run.sh, which reads this file: references that `git2show serve` sends, beside the real `git upload-pack`, which
# sends the same ones from its packed refs. Both write to a pipe that ask.c reads: the measurement begins with the request, when the
# repository text was read and the advertisement was received.

references=1000000
answer_bytes=$((references * 65 + 4)) # a packet of 65 bytes for each, and a flush
bytes_a_reference=250                 # the memory that one may take, besides its text

their_serve=(git upload-pack "$streams/repository")
our_serve=("$our_show" serve --repo "$streams/text" --pack /dev/null)
serve_start=0 # the best time of ours until its advertisement has come
serve_peak=0  # its greatest resident set in KiB

# Asks git upload-pack for version 2. No configuration of a user takes part, nor a repository around the folder.
unset "${!GIT_@}"
export GIT_PROTOCOL=version=2 GIT_CONFIG_NOSYSTEM=1 GIT_CONFIG_GLOBAL=/dev/null

# Writes the same references as a repository text and as packed refs, and the request. The objects are not there: git
# upload-pack does not look for them.
make_references() {
    git init --quiet --bare --object-format=sha1 "$streams/repository"
    awk -v count="$references" -v text="$streams/text" -v packed="$streams/repository/packed-refs" 'BEGIN {
        print "format sha1" > text
        print "# pack-refs with: peeled fully-peeled sorted " > packed
        for (i = 1; i <= count; i++) {
            reference = sprintf("%08x%032d refs/heads/%08d", i * 2654435761 % 4294967296, i, i)
            print "ref " reference > text
            print reference > packed
        }
    }'
    printf '0014command=ls-refs\n0017object-format=sha1\n00000000' > "$streams/request"
    printf '0000' > "$streams/flush"
}

# Asks a server, and sets `start`, `answer` and `peak` to what ask.c prints.
ask() {
    local told packets
    told=$("$out/ask" "$@" < "$streams/request")
    read -r start answer packets peak <<< "$told"
    [ "$packets" = "$references" ] || stop "$1 answers $packets references, not $references"
}

measure_serve() {
    local their_answer=0 our_answer=0 start answer peak i
    make_references
    for ((i = 0; i < runs; i++)); do
        ask "${their_serve[@]}"
        keep_least their_answer "$answer"
        [ -z "$c_only" ] || continue
        ask "${our_serve[@]}"
        keep_least our_answer "$answer"
        keep_least serve_start "$start"
        if [ "$peak" -gt "$serve_peak" ]; then serve_peak=$peak; fi
    done
    row 'serve, 1,000,000 references' "$answer_bytes" "$their_answer" "$our_answer"
}

# Prints what a server answers to the request, without its advertisement, which is its whole answer to a flush.
answer_of() {
    local advertised
    advertised=$("$@" < "$streams/flush" | wc -c)
    "$@" < "$streams/request" | tail -c "+$((advertised + 1))"
}

# Prints what the row does not.
tell_serve() {
    local text_bytes most
    answer_of "${their_serve[@]}" > "$streams/answer"
    answer_of "${our_serve[@]}" | cmp - "$streams/answer" ||
        stop "git2show serve and git upload-pack answer differently"
    echo "Output of git2show serve: the same as git upload-pack's, byte for byte."
    text_bytes=$(wc -c < "$streams/text")
    most=$(((text_bytes + references * bytes_a_reference) / 1024))
    awk -v bytes="$text_bytes" -v time="$serve_start" 'BEGIN {
        printf "Before git2show serve answers, it reads the text, %.0f MB in %.3f s.\n", bytes / 1e6, time / 1e6
    }'
    echo "Peak resident set of git2show serve: $serve_peak KiB; the text and $bytes_a_reference bytes a reference are $most KiB."
}
