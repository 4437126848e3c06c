# Cases in which the real Git makes partial clones from our program. `--filtered` serves a pack without the blobs, the same for each request
# with a filter, whatever that filter is. So a clone without a checkout accepts it, and has no blobs. Git fetches a blob that it needs later
# with the same filter, and gets it only from a server without a filtered pack.

# filter_pack NAME FILTER: writes the filtered pack of a repository that is already served.
filter_pack() {
    git -C "$1" pack-objects -q --all --revs --stdout --filter="$2" --missing=allow-any < /dev/null > "$1.filtered"
}

write_filtered() {
    filter_pack history-sha1 blob:none
    filter_pack history-sha256 blob:none
}

# partly_offered NAME: the same repository as `offered` gives it, with its filtered pack too.
partly_offered() {
    offered "$1" --filtered "$room/$1.filtered"
}

# blobs NAME: its blobs, except for those that a reference names: no filter leaves these out.
blobs() {
    git -C "$1" cat-file --batch-all-objects --batch-check='%(objecttype) %(objectname)' | sed -n 's/^blob //p' > all-blobs
    git -C "$1" for-each-ref --format='%(objectname)' | grep -v -x -F -f - all-blobs
}

# missing: the objects that the clone knows of and does not have.
missing() {
    git -C ours rev-list --objects --all --missing=print | sed -n 's/^?//p' | sort
}

# misses_blobs NAME: that exactly these blobs are missing, and how many they are.
misses_blobs() {
    blobs "$1" > wanted
    missing > written
    expect_same 'the objects that are missing' wanted written
    [ "$(wc -l < written)" = 3 ] || differs 'another number of blobs' written
}

misses_nothing() {
    missing > written
    expect_same 'the objects that are missing' /dev/null written
}

# sent_filter COUNT: that Git sent so many requests for packs, each with the filter of its command line.
sent_filter() {
    sent command=fetch
    expect_same 'the filters' <(for ((i = 0; i < $1; i++)); do echo 'filter blob:none'; done) <(grep '^filter' requests)
    [ "$(grep -c '^command=fetch$' requests)" = "$1" ] || differs "not $1 requests for packs" requests
}

# clone_partly_from_git NAME [OPTION..]: the clone that Git gets from itself.
clone_partly_from_git() {
    clone_from_git "$@" --upload-pack 'git -c uploadpack.allowFilter=true upload-pack'
}

# clones_partly NAME OPTION..: that Git clones the repository without its blobs, and gets what it gets from Git itself.
clones_partly() {
    write_filtered
    clone "$(partly_offered "$1")" ours --filter=blob:none "${@:2}"
    clone_partly_from_git "$1" --filter=blob:none "${@:2}"
    same_clones
    misses_blobs "$1"
    sent_filter 1
}

case_git_clones_partly_bare() {
    clones_partly history-sha1 --bare
}

case_git_clones_partly_without_a_checkout() {
    clones_partly history-sha1 --no-checkout
}

case_git_clones_partly_of_sha256() {
    clones_partly history-sha256 --bare
}

# A clone without a filter from the same server has all objects.
case_git_clones_whole_beside_a_filtered_pack() {
    write_filtered
    clone "$(partly_offered history-sha1)" ours
    clone_from_git history-sha1
    same_clones
    misses_nothing
    sent command=fetch
    expect_same 'the filters' /dev/null <(grep '^filter' requests)
}

# The blobs of the checkout are fetched with the filter too, and are not in the filtered pack.
case_git_clones_partly_with_a_checkout_and_fails() {
    write_filtered
    clone "$(partly_offered history-sha1)" ours --filter=blob:none
    expect_status 128
    expect_line 'what Git reported' 'warning: Clone succeeded, but checkout failed.' err
    grep -q 'did not send all necessary objects' err || differs 'what Git reported' err
    grep -q '^fatal: could not fetch [0-9a-f]* from promisor remote$' err || differs 'what Git reported' err
    misses_blobs history-sha1
    sent_filter 2
}

# Without a filtered pack a clone with a filter has the whole pack.
case_git_clones_partly_where_no_pack_is_filtered() {
    clone "$(offered history-sha1)" ours --filter=blob:none
    clone_from_git history-sha1
    expect 0 /dev/null /dev/null
    misses_nothing
    state theirs > wanted
    state ours > written
    expect_same 'what a clone has' wanted written
    sent_filter 1
}

# From now on the remote is a server without a filtered pack: missing objects come from there, with the rest of the pack.
case_git_fills_in_what_is_missing_from_a_second_server() {
    clones_partly history-sha1 --no-checkout
    git -C history-sha1 ls-tree -r --format='%(objectname)' main | grep -x -F -f written | sort > needed
    git -C ours config remote.origin.url "$(offered history-sha1)"
    rm -f "$trace"
    GIT_TRACE_PACKET=$trace run git -C ours -c protocol.version=2 -c protocol.ext.allow=always checkout -q
    expect 0 /dev/null /dev/null
    misses_nothing
    expect_same 'what is not checked out' /dev/null <(git -C ours status --porcelain)
    sent_filter 1
    # Each blob that the checkout needs is named, and no reference is asked for.
    expect_same 'the commands' <(echo command=fetch) <(grep '^command=' requests)
    expect_same 'the objects' <(sed 's/^/want /' needed) <(grep '^want ' requests | sort)
}

# offer_web NAME: offers history-sha1 by another name, with its filtered pack.
offer_web() {
    write_filtered
    cp history-sha1.repo "$1.repo"
    cp history-sha1.pack "$1.pack"
    cp history-sha1.filtered "$1.filtered"
}

# The same over HTTP; after it the folder of the web server has no filtered pack any more.
case_git_clones_partly_over_http_and_fills_in() {
    offer_web partial-web
    start_web
    clone "$web/partial-web" ours --no-checkout --filter=blob:none
    clone_partly_from_git history-sha1 --no-checkout --filter=blob:none
    same_clones
    misses_blobs history-sha1
    sent 'filter blob:none'
    rm partial-web.filtered
    run git -C ours -c protocol.version=2 checkout -q
    expect 0 /dev/null /dev/null
    misses_nothing
    expect_same 'what is not checked out' /dev/null <(git -C ours status --porcelain)
    asked 'POST /partial-web/git-upload-pack plain'
}

# The contents of a filter are not looked at.
case_git_sends_a_filter_of_several() {
    write_filtered
    clone "$(partly_offered history-sha1)" ours --bare --filter=blob:limit=1k --filter=tree:3
    expect 0 /dev/null /dev/null
    sent 'filter combine:blob:limit=1k+tree:3'
    misses_blobs history-sha1
}

# If a filtered pack is named, it has to exist.
case_git_is_told_of_a_missing_filtered_pack() {
    clone "$(offered history-sha1 --filtered "$room/nowhere")" ours --bare --filter=blob:none
    fails 'git2show: File'
    [ ! -e ours ] || differs 'a clone of nothing'
}
