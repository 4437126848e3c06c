# Cases in which the real Git, which has a part of a repository, fetches the rest of it from our program: new commits, and a history that is
# cut off. The result is compared with what it gets from Git itself.

# grow FOLDER FROM: a copy of the repository, with further commits and tags.
grow() {
    git clone -q --mirror "$2" "$1.git"
    git clone -q "$1.git" "$1.work"
    (
        cd "$1.work"
        git config user.name nobody
        git config user.email nobody@example.org
        commit_file fifth five
        git tag -a -m later later
        commit_file first again
        git push -q origin main later
        git checkout -q -b fresh origin/topic
        commit_file sixth six
        git push -q origin fresh
    )
    offer "$1.git"
}

# fetch_from ADDRESS FOLDER [OPTION..]: a fetch into an existing repository.
fetch_from() {
    local address=$1 folder=$2
    shift 2
    rm -f "$trace"
    GIT_TRACE_PACKET=$trace run git -C "$folder" -c protocol.version=2 -c protocol.ext.allow=always \
        -c protocol.stateless.allow=always fetch -q "$@" "$address" '+refs/heads/*:refs/remotes/origin/*'
}

# had FOLDER: the contents of a repository: its state, its history, and where that is cut off.
had() {
    state "$1"
    git -C "$1" rev-list --all --objects
    sort "$(git -C "$1" rev-parse --git-dir | sed "s,^\.git,$1/.git,")/shallow" 2> /dev/null || true
}

# same_after_fetch: that both repositories have the same contents after a fetch without a message.
same_after_fetch() {
    expect 0 /dev/null /dev/null
    had theirs > wanted
    had ours > written
    expect_same 'what a repository has' wanted written
}

# with_lines NAME LINE..: the repository's text and pack under another name, with further lines.
with_lines() {
    local name=$1 other=$2
    shift 2
    { cat "$name.repo"; printf '%s\n' "$@"; } > "$other.repo"
    cp "$name.pack" "$other.pack"
}

# both NAME [OPTION..]: two clones from Git itself.
both() {
    local name=$1
    shift
    rm -rf ours theirs
    git -c protocol.version=2 clone -q "$@" "file://$room/$name" ours
    git -c protocol.version=2 clone -q "$@" "file://$room/$name" theirs
}

# fetches NAME FROM [OPTION..]: that Git, which has the one repository, fetches the other from our program as from Git itself.
fetches() {
    local name=$1 from=$2
    shift 2
    both "$name" --no-tags
    git -C theirs -c protocol.version=2 fetch -q "$@" "file://$room/$from" '+refs/heads/*:refs/remotes/origin/*'
    fetch_from "$(offered "$from")" ours "$@"
    same_after_fetch
}

case_git_fetches_new_commits() {
    grow grown history-sha1
    fetches history-sha1 grown.git --no-tags
    sent "have $(git -C history-sha1 rev-parse main)" 'done'
    expect_line 'the branches' refs/remotes/origin/fresh <(git -C ours for-each-ref --format='%(refname)')
}

case_git_fetches_new_commits_of_sha256() {
    grow grown-sha256 history-sha256
    fetches history-sha256 grown-sha256.git --no-tags
    sent object-format=sha256 "have $(git -C history-sha256 rev-parse main)"
}

# Once two of the commits are known to both sides, the pack comes in the same answer.
case_git_fetches_from_a_repository_that_is_ready() {
    grow ready history-sha1
    with_lines ready.git prompt 'ready 2'
    both history-sha1 --no-tags
    git -C theirs -c protocol.version=2 fetch -q --no-tags "file://$room/ready.git" '+refs/heads/*:refs/remotes/origin/*'
    fetch_from "$(offered prompt)" ours --no-tags
    same_after_fetch
    expect_line 'what Git got' ready <(sed -n 's/^[^<]*< //p' "$trace")
    sed -n 's/^[^>]*> //p' "$trace" > requests
    ! grep -q '^done$' requests || differs 'a fetch that was done at once' requests
}

case_git_fetches_nothing_when_it_is_up_to_date() {
    fetches history-sha1 history-sha1 --no-tags
    sed -n 's/^[^>]*> //p' "$trace" > requests
    ! grep -q '^command=fetch$' requests || differs 'a fetch of nothing' requests
}

case_git_fetches_new_tags() {
    grow tagged history-sha1
    fetches history-sha1 tagged.git --tags
    git -C ours rev-parse --verify -q refs/tags/later > /dev/null || differs 'no new tag'
}

# cut_off NAME OTHER [OPTION..]: what our program serves to clients with these options, which cut the history off: the text with the
# boundary of Git's own clone, and the pack of that clone.
cut_off() {
    local name=$1 other=$2
    shift 2
    rm -rf "$other.clone"
    git -c protocol.version=2 clone -q --mirror "$@" "file://$room/$name" "$other.clone"
    cut_off_as "$name" "$other" "$other.clone"
}

# cut_off_as NAME OTHER CLONE [OLD]: the same for an existing clone. Commits of its old boundary that are not in the new one are listed too.
cut_off_as() {
    local folder
    folder=$(cd "$3" && realpath "$(git rev-parse --git-dir)")
    {
        cat "$1.repo"
        sed 's/^/shallow /' "$folder/shallow" 2> /dev/null || true
        [ $# = 3 ] || comm -23 <(sort "$4") <(sort "$folder/shallow" 2> /dev/null || true) | sed 's/^/unshallow /'
    } > "$2.repo"
    git -C "$3" pack-objects -q --all --stdout < /dev/null > "$2.pack"
}

# shallow_clones NAME OPTION..: that Git clones a history that these options cut off, with all branches.
shallow_clones() {
    local name=$1
    shift
    cut_off "$name" shallow --no-single-branch "$@"
    clone "$(offered shallow)" ours --no-single-branch "$@"
    rm -rf theirs
    git -c protocol.version=2 clone -q --no-single-branch "$@" "file://$room/$name" theirs
    same_after_fetch
    [ -s ours/.git/shallow ] || differs 'a history that is not cut off'
}

case_git_clones_one_commit() {
    shallow_clones history-sha1 --depth 1
    sent 'deepen 1'
}

case_git_clones_two_commits_of_sha256() {
    shallow_clones history-sha256 --depth 2
    sent 'deepen 2'
}

case_git_clones_a_history_since_a_time() {
    write_old_history
    shallow_clones old --shallow-since=2021-06-01
    sent command=fetch
    grep -q '^deepen-since [0-9]*$' requests || differs 'no time was sent' requests
}

case_git_clones_a_history_without_that_of_a_tag() {
    write_old_history
    shallow_clones old --shallow-exclude=early
    sent 'deepen-not early'
}

# A history of five years.
write_old_history() {
    local year
    [ ! -e old ] || return 0
    git init -q -b main old
    (
        cd old
        git config user.name nobody
        git config user.email nobody@example.org
        for year in 2019 2020 2021 2022 2023; do
            export GIT_AUTHOR_DATE="$year-07-01T00:00:00Z" GIT_COMMITTER_DATE="$year-07-01T00:00:00Z"
            commit_file "file-$year" "$year"
            [ $year != 2020 ] || git tag early
        done
    )
    offer old
}

# deepens NAME OPTION..: that Git, whose clone has one commit, fetches more of the history, or all of it.
deepens() {
    local name=$1
    shift
    both "$name" --depth 1 --no-single-branch
    sort ours/.git/shallow > before
    git -C theirs -c protocol.version=2 fetch -q "$@" origin
    cut_off_as "$name" deeper theirs before
    git -C ours remote set-url origin "$(offered deeper)"
    rm -f "$trace"
    GIT_TRACE_PACKET=$trace run git -C ours -c protocol.version=2 -c protocol.ext.allow=always fetch -q "$@" origin
    same_after_fetch
}

case_git_deepens_a_history() {
    deepens history-sha1 --deepen 1
    sent 'deepen 1' deepen-relative "shallow $(head -n 1 before)"
}

case_git_deepens_a_history_to_a_depth() {
    write_old_history
    deepens old --depth 3
    sent 'deepen 3' "shallow $(head -n 1 before)"
}

case_git_fetches_the_rest_of_a_history() {
    deepens history-sha256 --unshallow
    sent 'deepen 2147483647'
    [ ! -e ours/.git/shallow ] || differs 'a history that is cut off still' ours/.git/shallow
}

# stateless: a helper of Git that gives each request to a server of its own, as a web server does. Git calls it for addresses
# `stateless::NAME`. The definitions of `advertise` and `answer` are in the file `stateless-server`.
write_stateless() {
    cat > bin/stateless-server << 'EOF'
serve() {
    git2show serve --repo "$name.repo" --pack "$name.pack"
}

advertise() {
    serve < /dev/null
}

# Our server sends its advertisement first, whatever it is asked.
answer() {
    serve | tail -c +$((skip + 1))
}
EOF
    cat > bin/git-remote-stateless << 'EOF'
#!/bin/bash
# Speaks the part of gitremote-helpers(7) that connects without a state.
set -eu
name=$2
here=$(mktemp -d)
trap 'rm -rf "$here"' EXIT
. "${0%/*}/stateless-server"

# take: copies a request to a file, up to its flush. Fails if none comes.
take() {
    local digits
    : > "$here/request"
    while true; do
        digits=$(head -c 4)
        [ -n "$digits" ] || return 1
        printf %s "$digits" >> "$here/request"
        case $digits in
        0000) return 0 ;;
        0001) ;;
        *) head -c $((16#$digits - 4)) >> "$here/request" ;;
        esac
    done
}

while read -r line; do
    case $line in
    capabilities) printf 'stateless-connect\n\n' ;;
    'stateless-connect git-upload-pack') break ;;
    *) exit 1 ;;
    esac
done
echo
advertise > "$here/advertisement"
cat "$here/advertisement"
skip=$(wc -c < "$here/advertisement")
while take; do
    answer < "$here/request"
    printf 0002
done
EOF
    chmod +x bin/git-remote-stateless
}

case_git_clones_without_a_state() {
    write_stateless
    rm -rf "$trace" ours
    GIT_TRACE_PACKET=$trace run git -c protocol.version=2 -c protocol.stateless.allow=always clone -q "stateless::$room/history-sha1" ours
    clone_from_git history-sha1
    same_clones
}

case_git_fetches_new_commits_without_a_state() {
    write_stateless
    grow rounds history-sha1
    both history-sha1 --no-tags
    git -C theirs -c protocol.version=2 fetch -q --no-tags "file://$room/rounds.git" '+refs/heads/*:refs/remotes/origin/*'
    fetch_from "stateless::$room/rounds.git" ours --no-tags
    same_after_fetch
    sent "have $(git -C history-sha1 rev-parse main)" 'done'
}

case_git_fetches_the_rest_of_a_history_without_a_state() {
    write_stateless
    both history-sha1 --depth 1 --no-single-branch
    sort ours/.git/shallow > before
    git -C theirs -c protocol.version=2 fetch -q --unshallow origin
    cut_off_as history-sha1 whole theirs before
    git -C ours remote set-url origin "stateless::$room/whole"
    rm -f "$trace"
    GIT_TRACE_PACKET=$trace run git -C ours -c protocol.version=2 -c protocol.stateless.allow=always fetch -q --unshallow origin
    same_after_fetch
}

# A reference that Git asks for by name is answered with its object.
case_git_fetches_a_reference_by_its_name() {
    both history-sha1 --single-branch --branch topic --no-tags
    git -C theirs -c protocol.version=2 fetch -q --no-tags "file://$room/history-sha1" alone:refs/heads/alone
    rm -f "$trace"
    GIT_TRACE_PACKET=$trace run git -C ours -c protocol.version=2 -c protocol.ext.allow=always fetch -q --no-tags \
        "$(offered history-sha1)" alone:refs/heads/alone
    same_after_fetch
    sent 'want-ref refs/heads/alone'
    expect_line 'what Git got' "$(git -C history-sha1 rev-parse alone) refs/heads/alone" <(sed -n 's/^[^<]*< //p' "$trace")
}

# Git's client follows the first line of a server, whatever version it is configured for, over ssh as over a pipe.
case_git_of_another_version_is_served_over_ssh() {
    local version words="git2show serve --repo $room/history-sha1.repo --pack $room/history-sha1.pack"
    clone_from_git history-sha1
    printf '%s\n' '#!/bin/sh' 'while [ $# -gt 1 ]; do shift; done' 'exec sh -c "$1"' > bin/no-ssh
    chmod +x bin/no-ssh
    export GIT_SSH=$room/bin/no-ssh GIT_SSH_VARIANT=simple
    for version in 0 1; do
        rm -rf ours
        run git -c protocol.version=$version clone -q --upload-pack "$words" nobody@nowhere:it ours
        same_clones
        rm -rf ours
        run git -c protocol.version=$version -c protocol.ext.allow=always clone -q "$(offered history-sha1)" ours
        same_clones
    done
}
