# shellcheck shell=bash disable=SC2154
# The rows `check`, for bench/run.sh, which reads this file: recorded conversations that `git2show check` judges, beside check.c, which
# prints the same transcript: a clone of 1 GB, and the references that the row `serve` asks for, as `git upload-pack` answers them.

# Writes what was asked and answered. The responses of the clone are those that the row `client` reads.
make_conversations() {
    local want=1111111111111111111111111111111111111111
    printf '0012command=fetch\n0017object-format=sha1\n00010032want %s\n0009done\n00000000' "$want" > "$streams/asked_pack"
    cp "$streams/request" "$streams/asked_listing"
    "${their_serve[@]}" < "$streams/request" > "$streams/listing"
}

# check_row NAME REQUESTS RESPONSES: the time for the requests and responses of a conversation.
check_row() {
    local name=$1 asked=$streams/asked_$2 heard=$streams/$3 best_c=0 best_ours=0 time i
    for ((i = 0; i < runs; i++)); do
        time=$(microseconds "$heard" "$out/check" "$asked")
        keep_least best_c "$time"
        [ -z "$c_only" ] || continue
        time=$(microseconds "$heard" "$our_show" check "$asked" "$heard")
        keep_least best_ours "$time"
    done
    row "$name" "$(wc -c < "$heard")" "$best_c" "$best_ours"
}

measure_check() {
    make_conversations
    check_row 'check, a clone of 1 GB' pack large_pack
    check_row 'check, 1,000,000 references' listing listing
}

# Prints what the rows do not.
tell_check() {
    local asked heard
    for asked in pack listing; do
        heard=$streams/${asked/pack/large_pack}
        cmp <("$our_show" check "$streams/asked_$asked" "$heard") <("$out/check" "$streams/asked_$asked" < "$heard") ||
            stop "git2show check and check.c print another transcript of the $asked"
    done
    echo "Output of git2show check: the same as check.c's, byte for byte."
    echo "Peak resident set of git2show check: $(peak_memory "$our_show" check "$streams/asked_pack" "$streams/large_pack") KiB for the clone," \
        "$(peak_memory "$our_show" check "$streams/asked_listing" "$streams/listing") KiB for the references."
}
