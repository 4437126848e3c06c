# Cases in which the real Git clones from our program. The clone is compared with a clone of the same repository from Git itself.

# write_history FOLDER FORMAT: a repository of Git's own, with branches that part and meet, tags of every kind, and a symbolic branch.
write_history() {
    git init -q -b main --object-format="$2" "$1"
    (
        cd "$1"
        git config user.name nobody
        git config user.email nobody@example.org
        git config advice.nestedTag false
        git commit -q --allow-empty -m nothing
        commit_file first one
        git tag light
        git tag -a -m tag annotated
        git tag -a -m 'tag of a tag' nested annotated
        git tag of-a-file HEAD:first
        git checkout -q -b topic
        mkdir folder
        commit_file folder/second two
        git tag -a -m 'on a branch' topical
        git checkout -q main
        commit_file third three
        git merge -q -m 'meet again' topic
        git checkout -q -b alone light
        commit_file fourth four
        git tag lonely
        git checkout -q main
        git symbolic-ref refs/heads/alias refs/heads/topic
    )
}

# commit_file NAME TEXT
commit_file() {
    echo "$2" > "$1"
    git add "$1"
    git commit -q -m "$2"
}

# offer FOLDER: writes what our program needs to serve a repository, its text and its pack.
offer() {
    (cd "$1" && "$top/sample/repository-text.sh") > "$1.repo"
    git -C "$1" pack-objects -q --all --stdout < /dev/null > "$1.pack"
}

# The branch of an empty repository: one without a commit, of a name that is not all ASCII.
unborn=$'k\xc3\xbcnftig'

write_histories() {
    local format
    for format in sha1 sha256; do
        write_history "history-$format" "$format"
        offer "history-$format"
        git init -q -b "$unborn" --object-format="$format" "empty-$format"
        offer "empty-$format"
    done
    write_heavy
    offer heavy
}

# A repository with a file that cannot be compressed.
write_heavy() {
    git init -q -b main heavy
    git -C heavy config core.compression 0
    head -c 21000000 /dev/urandom > heavy/random
    git -C heavy add random
    git -C heavy -c user.name=nobody -c user.email=nobody@example.org commit -q -m heavy
}

# offered NAME [OPTION..]: the address of a repository that our program serves, for Git.
offered() {
    local name=$1
    shift
    echo "ext::git2show serve --repo $room/$name.repo --pack $room/$name.pack $*"
}

# clone ADDRESS FOLDER [OPTION..]
clone() {
    local address=$1 folder=$2
    shift 2
    rm -rf "$trace" "$folder"
    GIT_TRACE_PACKET=$trace run git -c protocol.version=2 -c protocol.ext.allow=always clone -q "$@" "$address" "$folder"
}

# state FOLDER: the contents of a clone: each reference, where HEAD points, and what is wrong with its objects.
state() {
    git -C "$1" for-each-ref --format='%(objectname) %(objecttype) %(refname) %(symref)'
    git -C "$1" symbolic-ref -q HEAD || git -C "$1" rev-parse HEAD
    git -C "$1" rev-parse --show-object-format
    git -C "$1" fsck --full --strict --no-dangling 2>&1
}

# clone_from_git NAME [OPTION..]: the clone that Git gets from itself.
clone_from_git() {
    local name=$1
    shift
    rm -rf theirs
    git -c protocol.version=2 clone -q "$@" "file://$room/$name" theirs 2> their_err
}

# same_clones: that the two clones have the same contents, and were made without a message or with the same messages.
same_clones() {
    expect_status 0
    expect_same 'standard output' /dev/null out
    expect_same 'standard error' their_err err
    state theirs > wanted
    state ours > written
    expect_same 'what a clone has' wanted written
}

# clones NAME [OPTION..]: that Git clones the repository from our program, and gets what it gets from Git itself.
clones() {
    clone "$(offered "$1")" ours "${@:2}"
    clone_from_git "$@"
    same_clones
}

# has_references COUNT: that the clone has so many, so that none is lost in both ways.
has_references() {
    local count
    count=$(git -C ours for-each-ref | wc -l)
    [ "$count" = "$1" ] || differs "$count references instead of $1"
}

# has_all NAME: that the clone has each reference and each object of the repository.
has_all() {
    git -C "$1" for-each-ref > wanted
    git -C ours for-each-ref > written
    expect_same 'the references' wanted written
    sed -n 's/^object //p' "$1.repo" > wanted
    git -C ours cat-file --batch-all-objects --batch-check='%(objectname) %(objectsize)' > written
    expect_same 'the objects' wanted written
}

case_git_clones() {
    clones history-sha1
    has_references 12
    sent command=fetch object-format=sha1 ofs-delta 'done'
}

case_git_clones_sha256() {
    clones history-sha256
    has_references 12
    sent command=fetch object-format=sha256 ofs-delta 'done'
}

case_git_clones_bare() {
    clones history-sha1 --bare
    has_references 10
}

case_git_clones_a_mirror() {
    clones history-sha1 --mirror
    has_all history-sha1
}

case_git_clones_a_mirror_of_sha256() {
    clones history-sha256 --mirror
    has_all history-sha256
}

case_git_clones_without_tags() {
    clones history-sha1 --no-tags
    has_references 6
    expect_line 'the branches' 'refs/remotes/origin/alone' <(git -C ours for-each-ref --format='%(refname)')
}

# The pack has all objects, so Git asks for the branch alone and takes each tag along with it. The same pack from Git itself would have
# fewer tags, so this is compared with a clone of that branch whose tags are fetched as well.
case_git_clones_a_branch_alone() {
    clone "$(offered history-sha1)" ours --single-branch --branch alone
    clone_from_git history-sha1 --single-branch --branch alone
    git -C theirs fetch -q --tags origin alone
    same_clones
    has_references 8
    sent include-tag
    [ "$(grep -c '^want-ref ' requests)" = 1 ] || differs 'more than one want' requests
}

# A pack of that branch and its tags alone, as Git itself packs them for it.
case_git_clones_a_branch_alone_from_its_own_pack() {
    cp history-sha1.repo branch.repo
    git -C history-sha1 pack-objects -q --revs --include-tag --stdout <<< refs/heads/alone > branch.pack
    clone "$(offered branch)" ours --single-branch --branch alone
    clone_from_git history-sha1 --single-branch --branch alone
    same_clones
    sent include-tag
}

case_git_clones_a_branch_alone_without_tags() {
    clones history-sha1 --single-branch --branch topic --no-tags
    has_references 2
}

case_git_clones_a_tag() {
    clones history-sha256 --branch topical
    has_references 11
}

# ends_on_its_branch: that the clone of an empty repository ends on that repository's own branch.
ends_on_its_branch() {
    has_references 0
    expect_line 'what Git reported' 'warning: You appear to have cloned an empty repository.' err
    expect_same 'the branch' <(echo "refs/heads/$unborn") <(git -C ours symbolic-ref HEAD)
}

case_git_clones_an_empty_repository() {
    clones empty-sha1
    ends_on_its_branch
    sent unborn
}

case_git_clones_an_empty_repository_of_sha256() {
    clones empty-sha256
    ends_on_its_branch
}

# Git asks for the unborn reference, and shows no line for it.
case_git_lists_an_empty_repository_with_its_branch() {
    rm -f "$trace"
    GIT_TRACE_PACKET=$trace run git -c protocol.version=2 -c protocol.ext.allow=always ls-remote --symref "$(offered empty-sha1)"
    expect 0 /dev/null /dev/null
    sent unborn symrefs
    # Git's trace has the other bytes of the name in a form of its own.
    grep -q 'unborn HEAD symref-target:refs/heads/k' "$trace" || differs 'what our program sent of HEAD' "$trace"
}

# negotiate ADDRESS: asks a server which of the commits it has too that can be reached from the main branch of `ours`.
negotiate() {
    rm -f "$trace"
    GIT_TRACE_PACKET=$trace run git -C ours -c protocol.version=2 -c protocol.ext.allow=always fetch --negotiate-only \
        --negotiation-tip=origin/main "$1"
}

# Our program sends what Git's own server sends.
case_git_negotiates_alone() {
    clones history-sha1
    negotiate "file://$room/history-sha1"
    mv out common
    negotiate "$(offered history-sha1)"
    expect 0 common /dev/null
    expect_line 'what is common' "$(git -C ours rev-parse origin/main)" common
    sent wait-for-done
    expect_same 'the packs that came' /dev/null <(grep 'packfile' "$trace")
}

# Nothing is common, so Git asks once more without listing the commits that it has.
case_git_negotiates_alone_with_nothing_in_common() {
    clones history-sha1
    negotiate "$(offered empty-sha1)"
    expect 0 /dev/null /dev/null
    sent wait-for-done
    expect_line 'what our program sent' NAK <(sed -n 's/^[^<]*< //p' "$trace")
}

case_git_clones_where_no_branch_is_checked_out() {
    git clone -q history-sha1 detached
    git -C detached checkout -q --detach origin/alone
    git -C detached -c user.name=nobody -c user.email=nobody@example.org commit -q --allow-empty -m 'on no branch'
    offer detached
    clones detached
    [ "$(git -C ours rev-parse HEAD)" = "$(git -C detached rev-parse HEAD)" ] || differs 'another HEAD'
}

case_git_clones_a_pack_of_20_megabytes() {
    [ "$(wc -c < heavy.pack)" -ge 21000000 ] || differs 'a pack that is too small'
    clones heavy
    cmp heavy/random ours/random || differs 'another file'
    clones heavy --mirror
    has_all heavy
}

# A repository without a commit fetches from another one.
case_git_fetches_into_an_empty_repository() {
    git init -q --bare taking
    run git -C taking -c protocol.version=2 -c protocol.ext.allow=always fetch -q "$(offered history-sha1)" '+refs/*:refs/*'
    expect 0 /dev/null /dev/null
    git -C history-sha1 for-each-ref > wanted
    git -C taking for-each-ref > written
    expect_same 'the references' wanted written
    git -C taking fsck --full --strict --no-dangling
}

# refused: that Git received the error of our program, and that its clone failed.
refused() {
    local refusal
    expect_status 128
    refusal=$(sed -n 's/^fatal: remote error: //p' err)
    [[ $refusal =~ ^$1\ at\ [0-9]+$ ]] || differs 'what Git received' err
    expect_same 'what our program reported' <(echo "git2show: $refusal") <(grep -a '^git2show: ' err)
    [ ! -e ours ] || differs 'a clone that was refused'
}

# Git asks for references by their names, and for an object only if the user names it.
case_git_is_told_that_an_object_is_not_there() {
    write_patient
    grep -v '^object ' history-sha1.repo > objectless.repo
    git init -q --bare lacking
    rm -rf ours
    run git -C lacking -c protocol.version=2 -c protocol.ext.allow=always fetch -q \
        "ext::patient serve --repo $room/objectless.repo --pack $room/history-sha1.pack" "$(git -C history-sha1 rev-parse main):refs/heads/main"
    refused NotOurs
}

case_git_is_told_that_it_wants_too_much() {
    write_patient
    clone "ext::patient serve --repo $room/history-sha1.repo --pack $room/history-sha1.pack --limit 100" ours
    refused TooMuchKept
}

# Git looks into a pack itself, and accepts none that is cut off.
case_git_takes_no_pack_that_is_cut_off() {
    cp history-sha1.repo cut.repo
    head -c 400 history-sha1.pack > cut.pack
    clone "$(offered cut)" ours
    expect_status 128
    [ ! -e ours ] || differs 'a clone of half a pack'
}

# halting: our program, whose output stops in the middle of the pack until a file `killed` exists. It leaves its status and its error line
# in files.
write_halting() {
    cat > bin/halting << EOF
#!/bin/bash
cd "$room"
{
    git2show "\$@" 2> served.err && status=0 || status=\$?
    echo \$status > served.status
} | {
    dd bs=65536 count=20 status=none # 20 writes at the most, passed on as they come
    echo yes > halfway
    for i in {1..3000}; do [ ! -e killed ] || break; sleep 0.1; done
    cat
}
EOF
    chmod +x bin/halting
}

# wait_for FILE: until the file exists and is not empty, for at most half a minute.
wait_for() {
    local i
    for ((i = 0; i < 300; i++)); do
        [ ! -s "$1" ] || return 0
        sleep 0.1
    done
    differs "$1 did not come"
}

case_a_killed_client_is_a_write_fault() {
    local client
    write_halting
    rm -rf ours
    git -c protocol.version=2 -c protocol.ext.allow=always clone -q "ext::halting serve --repo $room/heavy.repo --pack $room/heavy.pack" \
        ours > /dev/null 2>&1 &
    client=$!
    wait_for halfway
    [ ! -e served.status ] || differs 'a server that did not wait for its client' served.err
    kill -KILL $client
    wait $client || true
    : > killed
    wait_for served.status
    expect_same 'the status' <(echo 1) served.status
    expect_same 'the fault' <(echo 'git2show: WriteFault') served.err
}
