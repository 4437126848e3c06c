# shellcheck shell=bash disable=SC2154
# The rows `prefixes`, for bench/run.sh, which reads this file: a request for references with many prefixes, to `git2show serve` and to the
# real `git upload-pack`, over the same 100,000 references. ask.c sends it, and receives the answer: the time is from the request's first
# byte on. One prefix shows 999 references, and so does each request: the other prefixes lie between the references, in no order. Above
# 65,536 prefixes Git answers with all references, so only ours is measured there.

listed=100000
shown=999
most_texts=67108864 # what the texts of a request may have: a million prefixes need more than the default

their_listing=(git upload-pack "$streams/listed")
our_listing=("$our_show" serve --repo "$streams/listed.repo" --pack /dev/null --limit "$most_texts")

make_listed() {
    git init --quiet --bare --object-format=sha1 "$streams/listed"
    awk -v count="$listed" -v text="$streams/listed.repo" -v packed="$streams/listed/packed-refs" 'BEGIN {
        print "format sha1" > text
        print "# pack-refs with: peeled fully-peeled sorted " > packed
        for (i = 1; i <= count; i++) {
            reference = sprintf("%040x refs/heads/%08d", i, i * 100)
            print "ref " reference > text
            print reference > packed
        }
    }'
}

# prefix_request COUNT: a request with so many prefixes, no two of them alike.
prefix_request() {
    printf '0014command=ls-refs\n0017object-format=sha1\n0001001eref-prefix refs/heads/000\n'
    awk -v count="$1" 'BEGIN {
        for (i = 1; i < count; i++) printf "0023ref-prefix refs/heads/%08d\n", i * 2654435761 % 1000003 * 10 + 5
    }'
    printf 00000000
}

# Asks a server, and sets `answer` to the time that ask.c prints.
ask_prefixes() {
    local packets
    read -r _ answer packets _ <<< "$("$out/ask" "$@" < "$streams/prefixes")"
    [ "$packets" = "$shown" ] || stop "$1 shows $packets references, not $shown"
}

measure_prefixes() {
    local count their_answer our_answer answer i
    make_listed
    for count in 1 5000 20000 1000000; do
        [ "$count" -le 65536 ] || [ -z "$c_only" ] || continue
        prefix_request "$count" > "$streams/prefixes"
        their_answer=0 our_answer=0
        for ((i = 0; i < runs; i++)); do
            if [ "$count" -le 65536 ]; then
                ask_prefixes "${their_listing[@]}"
                keep_least their_answer "$answer"
            fi
            [ -z "$c_only" ] || continue
            ask_prefixes "${our_listing[@]}"
            keep_least our_answer "$answer"
        done
        row "prefixes, $count of them" "$(wc -c < "$streams/prefixes")" "$their_answer" "$our_answer"
    done
}

# Prints what the rows do not.
tell_prefixes() {
    prefix_request 20000 > "$streams/request"
    answer_of "${their_listing[@]}" > "$streams/answer"
    answer_of "${our_listing[@]}" | cmp - "$streams/answer" ||
        stop "git2show serve and git upload-pack answer 20,000 prefixes differently"
    echo "Output of git2show serve with 20,000 prefixes: the same as git upload-pack's, byte for byte."
}
