# shellcheck shell=bash disable=SC2154
# The row `fetch`, for bench/run.sh, which reads this file: a pack that `git2show serve` sends, beside bands.c, which frames the same pack
# by hand, beside the real `git upload-pack`, which sends the output of `git pack-objects`, and beside `cat` of the same bytes. All write to
# a pipe; ask.c reads it, and `cat` for `cat`.

objects=1000          # blobs of 1,000,000 random bytes each, which no pack makes smaller
most_beside_pack=8192 # the KiB that a server of one pack may take beside it

# Makes the repository, its text and its one pack, of 1 GB, and the request for all of it.
make_pack() {
    local folder=$streams/fetched head part
    git init --quiet --bare --object-format=sha1 "$folder"
    for ((part = 1; part <= objects; part++)); do
        printf 'blob\nmark :%d\ndata 1000000\n' "$part"
        head -c 1000000 /dev/urandom
        echo
    done > "$streams/import"
    {
        printf 'commit refs/heads/main\ncommitter A <a@example.org> 0 +0000\ndata 0\n'
        for ((part = 1; part <= objects; part++)); do
            echo "M 100644 :$part $part"
        done
    } >> "$streams/import"
    git -C "$folder" -c core.compression=0 fast-import --quiet < "$streams/import"
    rm "$streams/import"
    git -C "$folder" symbolic-ref HEAD refs/heads/main
    (cd "$folder" && "$top/sample/repository-text.sh") > "$streams/fetched.repo"
    pack=$(echo "$folder"/objects/pack/*.pack)
    head=$(git -C "$folder" rev-parse main)
    printf '0012command=fetch\n0017object-format=sha1\n00010010no-progress\n0032want %s\n0009done\n0000' "$head" > "$streams/fetch"
    their_fetch=(git upload-pack "$folder")
    our_fetch=("$our_show" serve --repo "$streams/fetched.repo" --pack "$pack")
}

# Asks a server for the pack, and sets `start`, `answer`, `packets` and `peak` to what ask.c prints.
fetch() {
    read -r start answer packets peak <<< "$("$out/ask" "$@" < "$streams/fetch")"
    [ "$packets" -gt 1 ] || stop "$1 sends no pack"
}

measure_fetch() {
    local start answer packets peak i time
    c_fetch_whole=0 our_fetch_whole=0 their_fetch_whole=0 cat_time=0 fetch_peak=0
    make_pack
    for ((i = 0; i < runs; i++)); do
        fetch "$out/bands" "$pack"
        keep_least c_fetch_whole $((start + answer))
        fetch "${their_fetch[@]}"
        keep_least their_fetch_whole $((start + answer))
        time=$(microseconds "$pack" bash -c 'cat | cat')
        keep_least cat_time "$time"
        [ -z "$c_only" ] || continue
        fetch "${our_fetch[@]}"
        keep_least our_fetch_whole $((start + answer))
        if [ "$peak" -gt "$fetch_peak" ]; then fetch_peak=$peak; fi
    done
    row 'fetch, a pack of 1 GB' "$(wc -c < "$pack")" "$c_fetch_whole" "$our_fetch_whole"
}

# Prints what the row does not.
tell_fetch() {
    awk -v c="$c_fetch_whole" -v ours="$our_fetch_whole" -v theirs="$their_fetch_whole" -v cat="$cat_time" 'BEGIN {
        printf "From the start to the last byte of that pack: git2show serve %.3f s, bands.c %.3f s, ", ours / 1e6, c / 1e6
        printf "git upload-pack %.3f s (ratio %.2f), cat %.3f s (ratio %.2f).\n", theirs / 1e6, theirs / ours, cat / 1e6, cat / ours
    }'
    echo "Peak resident set of git2show serve with that pack: $fetch_peak KiB; the pack and $most_beside_pack KiB are" \
        "$(($(wc -c < "$pack") / 1024 + most_beside_pack)) KiB."
}
