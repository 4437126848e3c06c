# shellcheck shell=bash disable=SC2154
# The rows `clone`, for bench/run.sh, which reads this file: what examples/upload-pack.c answers to a clone, beside the real `git
# upload-pack`. A repository of 100,000 objects and 10,000 branches is served over one connection: the list of references, and a pack of
# everything that they lead to. It is one pack, as it was imported, and then with the index of its objects and commits that `git gc` makes;
# with it Git makes the pack six times as fast. The whole run is measured, from its start to its last byte.

clone_objects=100000
clone_references=10000
clone_served=$streams/cloned.git
their_clone=(git upload-pack "$clone_served")
our_clone=("$out/upload-pack" "$clone_served")
clone_runs=15 # of less than a second each

# Writes the repository and what a client sends. A commit is four objects: itself, a file and two folders.
make_cloned() {
    git init --quiet --bare "$clone_served"
    awk -v count=$((clone_objects / 4)) -v references="$clone_references" 'BEGIN {
        for (i = 1; i <= count; i++) {
            printf "commit refs/heads/main\nmark :%d\ncommitter n <n@e> %d +0000\ndata 8\nc%06d\n\n", i, 1600000000 + i * 60, i
            if (i > 1) printf "from :%d\n", i - 1
            printf "M 100644 inline d%d/f%d\ndata 24\nfile %010d text %02d\n\n", i % 50, i % 500, i, i % 100
        }
        for (i = 1; i < references; i++) printf "reset refs/heads/b%05d\nfrom :%d\n\n", i, int(i * count / references) + 1
    }' | git -C "$clone_served" fast-import --quiet
    git -C "$clone_served" pack-refs --all
    [ "$(git -C "$clone_served" count-objects -v | sed -n 's/^in-pack: //p')" = "$clone_objects" ] || stop 'another number of objects'
    {
        printf '0014command=ls-refs\n0017object-format=sha1\n00010009peel\n000csymrefs\n000bunborn\n0014ref-prefix HEAD\n'
        printf '001bref-prefix refs/heads/\n001aref-prefix refs/tags/\n0000'
        printf '0012command=fetch\n0017object-format=sha1\n0001000ethin-pack\n0010no-progress\n0010include-tag\n000eofs-delta\n'
        git -C "$clone_served" for-each-ref --format='0032want %(objectname)' | sort -u
        printf '0009done\n00000000'
    } > "$streams/clone"
}

# clone_row NAME: measures both servers.
clone_row() {
    local their_time=0 our_time=0 time i
    for ((i = 0; i < clone_runs; i++)); do
        time=$(microseconds "$streams/clone" "${their_clone[@]}")
        keep_least their_time "$time"
        [ -z "$c_only" ] || continue
        time=$(microseconds "$streams/clone" "${our_clone[@]}")
        keep_least our_time "$time"
    done
    row "$1" "$("${their_clone[@]}" < "$streams/clone" | wc -c)" "$their_time" "$our_time"
}

measure_clone() {
    make_cloned
    clone_row 'clone, 100,000 objects, imported'
    git -C "$clone_served" gc --quiet
    clone_row 'clone, the same after git gc'
}

# Prints what the rows do not: how many bytes each writes, and that Git clones the same from both.
tell_clone() {
    local theirs ours it
    theirs=$("${their_clone[@]}" < "$streams/clone" | wc -c)
    ours=$("${our_clone[@]}" < "$streams/clone" | wc -c)
    git clone --quiet --mirror "file://$clone_served" "$streams/clone-of-git"
    git clone --quiet --mirror --upload-pack="${our_clone[0]}" "file://$clone_served" "$streams/clone-of-ours"
    for it in for-each-ref 'cat-file --batch-all-objects --batch-check'; do
        # shellcheck disable=SC2086
        cmp <(git -C "$streams/clone-of-git" $it) <(git -C "$streams/clone-of-ours" $it) || stop 'a clone from upload-pack.c differs'
    done
    echo "A clone from upload-pack.c has the references and the objects of one from git upload-pack; $ours bytes came, and $theirs from that."
}
