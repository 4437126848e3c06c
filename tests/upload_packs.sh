# Cases in which the real Git lists, clones and fetches from examples/upload-pack.c, which serves a folder of Git's own. The result is
# compared with what it gets from `git upload-pack`: for each kind of clone and fetch that `git2show serve` is tested with, and more.

# The program with sanitizers, with the name under which Git starts it.
uploading=$room/bin/upload-pack-watched

# configured NAME [OPTION VALUE]..: a copy of the repository, with these options of Git's configuration.
configured() {
    rm -rf served
    cp -r "$1" served
    shift
    while [ $# -gt 0 ]; do
        git -C served config "$1" "$2"
        shift 2
    done
}

# packed FOLDER: its objects, and how many bytes its packs have.
packed() {
    git -C "$1" cat-file --batch-all-objects --batch-check
    git -C "$1" count-objects -v | sed -n 's/^size-pack: /kilobytes /p'
}

# same_objects: that both clones have the same objects and no others, in packs of the same size.
same_objects() {
    packed theirs > wanted
    packed ours > written
    expect_same 'the objects' wanted written
}

# uploads FOLDER [OPTION..]: that Git gets the same clone of the folder from both programs.
uploads() {
    clone "file://$room/$1" ours --upload-pack="$uploading" "${@:2}"
    clone_from_git "$@"
    same_clones
    same_objects
}

# uploads_to FOLDER [OPTION..]: that Git fetches the same of the folder from both programs, into the existing clones.
uploads_to() {
    git -C theirs -c protocol.version=2 fetch -q "${@:2}" "file://$room/$1" '+refs/heads/*:refs/remotes/origin/*'
    fetch_from "file://$room/$1" ours --upload-pack="$uploading" "${@:2}"
    same_after_fetch
    same_objects
}

case_upload_pack_clones() {
    local name option
    for name in history-sha1 history-sha256 empty-sha1 empty-sha256; do
        uploads "$name"
        uploads "$name" --mirror
    done
    for option in --bare --no-tags --single-branch --branch=topic --branch=nested; do
        uploads history-sha1 $option
    done
    uploads history-sha1 --single-branch --branch topic --no-tags
    uploads history-sha256 --branch topical
    uploads heavy
}

case_upload_pack_clones_where_no_branch_is_checked_out() {
    rm -rf served
    git clone -q history-sha1 served
    git -C served checkout -q --detach origin/alone
    git -C served -c user.name=nobody -c user.email=nobody@example.org commit -q --allow-empty -m 'on no branch'
    uploads served
    [ "$(git -C ours rev-parse HEAD)" = "$(git -C served rev-parse HEAD)" ] || differs 'another HEAD'
    lists_alike served
    git -C served rev-parse nested > tag # no commit, as Git itself would not have it
    cp tag served/.git/HEAD
    answers_alike served "$(request peel symrefs)"
    answers_alike served "$(request peel symrefs 'ref-prefix HEAD')"
}

# answers_alike FOLDER REQUEST: that this request alone is answered with the same bytes by both programs. Git sends `HEAD` of a namespace twice.
answers_alike() {
    local asked=${2//$'\n'/ }
    GIT_PROTOCOL=version=2 git upload-pack --stateless-rpc "$1" < <(printf %s "$2") 2> /dev/null | awk '!seen[$0]++ { print }' > wanted
    run "$uploading" --stateless-rpc "$1" < <(printf %s "$2")
    expect 0 out /dev/null
    echo >> out # after the flush, as awk has it
    expect_same "the answer of $1 to '${asked:0:100}'" wanted out
}

# lists_alike FOLDER: that Git lists the same from both programs.
lists_alike() {
    git ls-remote --symref "file://$room/$1" > wanted
    run git -c protocol.version=2 ls-remote --symref --upload-pack="$uploading" "file://$room/$1"
    expect 0 wanted /dev/null
}

# prefixes PREFIX..: a request for the references with these prefixes.
prefixes() {
    request peel symrefs unborn "${@/#/ref-prefix }"
}

# many_prefixes COUNT: a request with so many prefixes and that of a folder: only a few prefixes are turned into patterns.
many_prefixes() {
    local i
    prefixes refs/heads/alone/ refs/tags/of $(for ((i = 1; i < $1; i++)); do echo "refs/tags/t$i"; done)
}

case_upload_pack_answers_each_prefix_as_git() {
    local name prefix count
    for name in history-sha1 history-sha256 empty-sha1; do
        [ $name = history-sha256 ] || lists_alike $name
        for prefix in '' r refs/ refs/heads/ refs/tags/ HEAD H refs/heads/al refs/heads/alone refs/heads/alone/ refs/tags/nested refs/he \
            refs/notes/ nothing 'refs/heads/*' 'refs/heads/[a-z]' 'refs/heads/a?one' 'refs/heads/\alone' 'refs/tags/of ' --all; do
            answers_alike $name "$(of_format "$name" "$(prefixes "$prefix")")"
        done
        answers_alike $name "$(of_format "$name" "$(request)")"
        answers_alike $name "$(of_format "$name" "$(request symrefs)")"
        answers_alike $name "$(of_format "$name" "$(request peel 'ref-prefix refs/tags/')")"
        answers_alike $name "$(of_format "$name" "$(prefixes HEAD refs/heads/ refs/tags/)")"
        answers_alike $name "$(of_format "$name" "$(prefixes HEAD topic refs/topic refs/tags/topic refs/heads/topic refs/tags/)")"
        for count in 14 15 16 40; do
            answers_alike $name "$(of_format "$name" "$(many_prefixes $count)")"
        done
    done
}

# of_format NAME REQUEST: the request with the object format of the repository of this name.
of_format() {
    case $1 in
        *sha256) echo "${2/0001/$(packet object-format=sha256)
0001}" ;;
        *) echo "$2" ;;
    esac
}

# A file of packed references that has another order than it states, as Git's own tests write one: it is served all the same.
case_upload_pack_lists_packed_references_in_any_order() {
    local i id symbolic
    for symbolic in alias ''; do
        configured history-sha1
        [ -n "$symbolic" ] || git -C served symbolic-ref -d refs/heads/alias
        id=$(git -C served rev-parse nested)
        git -C served pack-refs --all
        for i in {1..30}; do
            printf '%s refs/tags/v-%s\n^%s\n' "$id" $i "$(git -C served rev-parse "$id^{}")"
        done >> served/.git/packed-refs
        run "$uploading" --stateless-rpc served < <(prefixes)
        expect_status 0
        git -C served for-each-ref --format='%(refname)' > wanted
        sed -n 's/^....[0-9a-f]* \(refs[^ ]*\).*/\1/p' out > written
        expect_same 'the references' wanted written
        [ "$(grep -c "refs/tags/v-.* peeled:$(git -C served rev-parse "$id^{}")" out)" = 30 ] || differs 'a tag without what it is of' out
    done
}

# lists_as_git FOLDER: that the answers to the requests of a clone and of a mirror are those of Git, with and without tags' objects.
lists_as_git() {
    answers_alike "$1" "$(prefixes)"
    answers_alike "$1" "$(request symrefs)"
    answers_alike "$1" "$(prefixes HEAD refs/heads/ refs/tags/)"
    answers_alike "$1" "$(prefixes refs/heads/)"
    answers_alike "$1" "$(request 'ref-prefix refs/tags/')"
}

# written_references COUNT NAME: so many references for `git update-ref --stdin`.
written_references() {
    awk -v count="$1" -v name="$2" -v id="$(git -C served rev-parse main)" 'BEGIN { for (i = 1; i <= count; i++) printf "create %s-%d %s\n", name, i, id }'
}

# Where no reference is symbolic, one command lists them all; it does not show where symbolic ones lead. That there is none is known by the files
# of references, if those are few.
case_upload_pack_lists_symbolic_references_wherever_they_are() {
    local long
    configured history-sha1
    git -C served symbolic-ref -d refs/heads/alias
    lists_as_git served
    git -C served pack-refs --all
    lists_as_git served
    GIT_TRACE=$room/commands "$uploading" --stateless-rpc served < <(prefixes HEAD refs/heads/ refs/tags/) > /dev/null
    grep -q show-ref commands && ! grep for-each-ref commands || differs 'other commands' commands
    rm -r served/.git/refs/tags
    lists_as_git served
    git -C served symbolic-ref refs/tags/led refs/heads/topic
    lists_as_git served
    git -C served symbolic-ref refs/deep/in/a/folder refs/heads/alone
    git -C served symbolic-ref -d refs/tags/led
    lists_as_git served
    git -C served symbolic-ref -d refs/deep/in/a/folder
    git -C served -c core.preferSymlinkRefs=true symbolic-ref refs/heads/linked refs/heads/topic
    lists_as_git served
    rm served/.git/refs/heads/linked
    written_references 300 refs/heads/many | git -C served update-ref --stdin
    git -C served symbolic-ref refs/heads/among refs/heads/many-7
    lists_as_git served
    grep -q 'refs/heads/among symref-target:refs/heads/many-7' <("$uploading" --stateless-rpc served < <(prefixes)) || differs 'no target'
    git -C served symbolic-ref -d refs/heads/among
    long=$(printf '%0200d' 0)
    written_references 10000 "refs/tags/$long" | git -C served update-ref --stdin
    git -C served pack-refs --all
    lists_as_git served
    git -C served checkout -q --detach
    git -C served worktree add -q "$room/other-tree" alone
    git -C served symbolic-ref refs/heads/led refs/heads/topic
    git -C "$room/other-tree" update-ref refs/bisect/bad main
    lists_as_git other-tree
    lists_as_git served
    rm -rf other-tree
}

# Where HEAD is unborn, no other reference is taken for it, though Git would find one of these by that name.
case_upload_pack_takes_no_reference_for_head() {
    local name body
    configured history-sha1 uploadpack.allowRefInWant true
    git -C served symbolic-ref HEAD refs/heads/unborn
    for name in refs/HEAD refs/tags/HEAD refs/heads/HEAD; do
        git -C served update-ref $name main
        answers_alike served "$(prefixes HEAD)"
        answers_alike served "$(prefixes)"
    done
    body=$(packet command=fetch; printf 0001; packet 'want-ref HEAD'; packet 'done'; printf 0000)
    run "$uploading" --stateless-rpc served < <(printf %s "$body")
    expect_status 128
    expect_same 'the answer' <(packet 'ERR unknown ref HEAD') out
}

# The parents of a commit are those right after its tree, whatever comes in later lines.
case_upload_pack_reads_parents_as_git() {
    local id
    configured history-sha1
    id=$(git -C served cat-file commit main | sed '/^committer /a parent 1111111111111111111111111111111111111111' |
        git -C served hash-object -t commit -w --literally --stdin)
    git -C served update-ref refs/heads/main "$id"
    uploads served --depth=1
    uploads served --depth=2
    uploads served
}

# The references of each namespace are served as those of a repository of its own.
case_upload_pack_serves_a_namespace() {
    local name
    rm -rf served
    git init -q --bare served
    for name in one two/three; do
        GIT_NAMESPACE=$name git -C history-sha1 push -q --mirror "$room/served" || true
        git -C history-sha1 push -q "$room/served" "refs/heads/*:refs/namespaces/${name/\//\/refs/namespaces/}/refs/heads/*" \
            "refs/tags/*:refs/namespaces/${name/\//\/refs/namespaces/}/refs/tags/*"
    done
    git -C served symbolic-ref refs/namespaces/one/HEAD refs/namespaces/one/refs/heads/topic
    for name in one two/three two none; do
        export GIT_NAMESPACE=$name
        answers_alike served "$(prefixes)"
        answers_alike served "$(prefixes HEAD refs/heads/ refs/tags/)"
        answers_alike served "$(prefixes refs/heads/to HEAD)"
    done
    GIT_NAMESPACE=one uploads served --mirror
    for name in .. 'a b' 'a*' 'a@{1}' .lock; do
        GIT_NAMESPACE=$name run "$uploading" --http-backend-info-refs served
        expect_status 128
        expect_same 'standard output' /dev/null out
    done
}

case_upload_pack_cuts_history_off() {
    uploads history-sha1 --depth=1
    uploads history-sha1 --depth=2 --no-single-branch
    uploads history-sha256 --depth=2
    uploads history-sha256 --shallow-exclude=topical --no-single-branch
    uploads history-sha1 --shallow-since=2000-01-01
    both history-sha1 --depth=1 --no-tags
    uploads_to history-sha1 --no-tags --deepen=1
    uploads_to history-sha1 --no-tags --unshallow
    ! git -C ours rev-parse --is-shallow-repository | grep true || differs 'a history that is cut off still'
    write_old_history
    uploads old --shallow-since=2021-06-01
    uploads old --shallow-exclude=early
    uploads old --shallow-exclude=refs/tags/early
    both old --depth 1 --no-single-branch
    uploads_to old --depth 3
    uploads_to old --shallow-since=2020-06-01
    both history-sha256 --depth 1 --no-single-branch
    uploads_to history-sha256 --unshallow
}

# A repository whose own history is cut off.
case_upload_pack_serves_a_shallow_repository() {
    write_old_history
    rm -rf served
    git clone -q --depth 3 "file://$room/old" served
    uploads served
    [ "$(git -C ours rev-list --count HEAD)" = 3 ] || differs 'another history'
    uploads served --depth 2
    uploads_to served --depth 4
}

# A client that names something other than a reference is refused: no revision is searched for.
case_upload_pack_excludes_references_alone() {
    local name
    write_old_history
    for name in ':/file' 'HEAD^{/file}' 'HEAD~1' 'main@{0}' '@{-1}' '@' "$(git -C old rev-parse HEAD~2)" 'early^{}' --all nothing; do
        run "$uploading" --stateless-rpc old < <(
            packet command=fetch
            printf 0001
            packet "want $(git -C old rev-parse HEAD)"
            packet "deepen-not $name"
            packet 'done'
            printf 0000
        )
        expect_status 128
        expect_same "the answer to '$name'" <(packet "ERR git upload-pack: ambiguous deepen-not: $name") out
    done
}

case_upload_pack_sends_what_is_missing() {
    grow uploaded history-sha1
    both history-sha1 --no-tags
    uploads_to uploaded.git --no-tags
    uploads_to uploaded.git --tags
    git -C ours rev-parse --verify -q refs/tags/later > /dev/null || differs 'no new tag'
    both history-sha256
    uploads_to history-sha256
}

case_upload_pack_fills_an_empty_repository() {
    rm -rf taking
    git init -q --bare taking
    run git -C taking -c protocol.version=2 fetch -q --upload-pack="$uploading" "file://$room/history-sha1" '+refs/*:refs/*'
    expect 0 /dev/null /dev/null
    git -C history-sha1 for-each-ref > wanted
    git -C taking for-each-ref > written
    expect_same 'the references' wanted written
    git -C taking fsck --full --strict --no-dangling
}

# negotiates_alike NAME: that both servers have the same commits in common with the main branch of `ours`.
negotiates_alike() {
    local ask=(git -C ours -c protocol.version=2 fetch --negotiate-only --negotiation-tip=origin/main "file://$room/$1")
    "${ask[@]}" > wanted 2> /dev/null || true
    run "${ask[@]}" --upload-pack="$uploading"
    expect 0 wanted /dev/null
}

case_upload_pack_negotiates_alone() {
    grow bargaining history-sha1
    both bargaining.git
    negotiates_alike history-sha1
    expect_line 'what is common' "$(git -C history-sha1 rev-parse main)" out
    negotiates_alike empty-sha1
}

# The agent is that of the environment, as Git names it: without blanks at its ends, and with a dot for a byte that is not printable.
case_upload_pack_names_the_agent_of_the_environment() {
    local name
    for name in mirror/3.2 ' two words ' $'caf\303\251\t!\n' "$(printf 'a%.0s' {1..63})"; do
        GIT_USER_AGENT=$name run "$uploading" --http-backend-info-refs history-sha1
        tr '\0' '\n' < out | sed -n 's/^....agent=//p' > written
        GIT_USER_AGENT=$name GIT_PROTOCOL=version=2 run git upload-pack --http-backend-info-refs history-sha1
        tr '\0' '\n' < out | sed -n 's/^....agent=//p' > wanted
        expect_same "the agent $name" wanted written
    done
    GIT_USER_AGENT=$(printf 'a%.0s' {1..64}) run "$uploading" --http-backend-info-refs history-sha1
    expect_line 'a long agent' "004aagent=$(printf 'a%.0s' {1..63})" out
}

# A server for each request, as over HTTP.
case_upload_pack_serves_without_a_state() {
    write_stateless
    cat > bin/stateless-server << EOF
advertise() { '$uploading' --http-backend-info-refs "\$name"; }
answer() { '$uploading' --stateless-rpc "\$name"; }
EOF
    sed -i 's/^skip=.*/skip=0/' bin/git-remote-stateless
    rm -rf "$trace" ours
    run git -c protocol.version=2 -c protocol.stateless.allow=always clone -q "stateless::$room/history-sha1" ours
    clone_from_git history-sha1
    same_clones
    grow stateless history-sha1
    both history-sha1 --no-tags
    git -C theirs -c protocol.version=2 fetch -q --no-tags "file://$room/stateless.git" '+refs/heads/*:refs/remotes/origin/*'
    fetch_from "stateless::$room/stateless.git" ours --no-tags
    same_after_fetch
    both history-sha1 --depth 1 --no-single-branch
    git -C theirs -c protocol.version=2 fetch -q --unshallow origin
    git -C ours remote set-url origin "stateless::$room/history-sha1"
    run git -C ours -c protocol.version=2 -c protocol.stateless.allow=always fetch -q --unshallow origin
    same_after_fetch
    same_objects
}

# Git's client follows the first line of a server, whatever version it is configured for.
case_upload_pack_serves_over_ssh() {
    local version
    clone_from_git history-sha1
    printf '%s\n' '#!/bin/sh' 'while [ $# -gt 1 ]; do shift; done' 'exec sh -c "$1"' > bin/no-ssh
    chmod +x bin/no-ssh
    export GIT_SSH=$room/bin/no-ssh GIT_SSH_VARIANT=simple
    for version in 0 2; do
        rm -rf ours
        run git -c protocol.version=$version clone -q --upload-pack="$uploading" "nobody@nowhere:$room/history-sha1" ours
        same_clones
    done
}

# The script of docs/HOSTING.md, which the key of an account starts whatever its client asks for, serves the repositories of its folder, and nothing else.
case_upload_pack_is_a_forced_command() {
    local asked
    mkdir -p srv/git
    cp -r "$(git -C history-sha1 rev-parse --absolute-git-dir)" srv/git/team.git
    awk '$0 == "    #!/bin/sh" { inside = 1 } inside && !/^    / { exit } inside { print substr($0, 5) }' "$top/docs/HOSTING.md" |
        sed "s,/srv/git,$room/srv/git," > bin/serve-git
    printf '%s\n' '#!/bin/sh' 'while [ $# -gt 1 ]; do shift; done' 'SSH_ORIGINAL_COMMAND=$1 exec serve-git' > bin/forced-ssh
    chmod +x bin/serve-git bin/forced-ssh
    export GIT_SSH=$room/bin/forced-ssh GIT_SSH_VARIANT=simple
    clone_from_git history-sha1
    for asked in nobody@nowhere:team.git ssh://nobody@nowhere/team.git; do
        rm -rf ours
        run git -c protocol.version=2 clone -q "$asked" ours
        same_clones
    done
    for asked in "git-receive-pack 'team.git'" "git-upload-pack 'team.git'; id '" "git-upload-pack '../git/team.git'" "git-upload-pack '.git'" \
        "git-upload-pack team.git" ''; do
        SSH_ORIGINAL_COMMAND=$asked run serve-git
        expect 1 /dev/null <(echo 'only fetches are served here')
    done
}

case_upload_pack_filters() {
    configured history-sha1 uploadpack.allowFilter true
    uploads served --filter=blob:none
    uploads served --filter=blob:none --bare
    uploads served --filter=tree:0 --bare
    misses_nothing_more
    uploads served --filter=blob:limit=3 --filter=tree:2 --bare
    misses_nothing_more
    uploads served --filter="sparse:oid=$(git -C served hash-object -w --stdin <<< folder/)" --bare
    misses_nothing_more
    configured history-sha256 uploadpack.allowFilter true
    uploads served --filter=blob:none --no-checkout
    misses_nothing_more
    configured history-sha1
    rm -rf ours
    run git -c protocol.version=2 clone -q --filter=blob:none "file://$room/served" ours --upload-pack="$uploading" --bare
    expect_line 'what Git reports' 'warning: filtering not recognized by server, ignoring' err
}

# fills_in NAME OPTION..: that a partial clone with a checkout, which fetches what it needs, and then one of another branch get the same from both programs.
fills_in() {
    local name=$1
    shift
    clone "file://$room/$name" ours "$@" --config remote.origin.uploadpack="$uploading"
    clone_from_git "$name" "$@"
    same_clones
    same_objects
    [ "$(grep -c '> command=fetch' "$trace")" -gt 1 ] || differs 'a clone that fetched nothing more' "$trace"
    git -C theirs checkout -q alone
    run git -C ours checkout -q alone
    expect 0 /dev/null /dev/null
    same_clones
    same_objects
    expect_same 'what is not checked out' /dev/null <(git -C ours status --porcelain)
}

case_upload_pack_serves_a_checkout_after_a_partial_clone() {
    configured history-sha1 uploadpack.allowFilter true
    fills_in served --filter=blob:none
    fills_in served --filter=tree:0
    configured history-sha256 uploadpack.allowFilter true
    fills_in served --filter=blob:none
}

# A filter that the owner does not allow, also because of its depth as Git would read it.
case_upload_pack_limits_filters() {
    local filter
    configured history-sha1 uploadpack.allowFilter true uploadpackfilter.tree.maxDepth 3 uploadpackfilter.blob:none.allow false
    uploads served --filter=tree:3 --bare
    for filter in tree:4 tree:0x10 tree:1k tree: tree:-1 combine:tree:1+tree:0x10 combine:tree%3A4 combine:combine:tree:9; do
        run "$uploading" --stateless-rpc served < <(fetch_filtered "$filter" "$(git -C served rev-parse main)")
        expect_status 128
        grep -a -q '^....ERR tree filter allows max depth 3, but got ' out || differs "the answer to $filter" out
    done
    for filter in blob:none combine:blob:none+tree:1; do
        run "$uploading" --stateless-rpc served < <(fetch_filtered "$filter" "$(git -C served rev-parse main)")
        expect_status 128
        expect_same "the answer to $filter" <(packet "ERR filter 'blob:none' not supported") out
    done
    # `%00` hides nothing that comes after it: Git reads this as `combine:sparse:oid=HEAD^{/!-q%00}:README+tree:9`.
    filter='combine:combine:sparse:oid=HEAD%255E%257B/%2521-q%00%257D:README%2Btree:9'
    run "$uploading" --stateless-rpc served < <(fetch_filtered "$filter" "$(git -C served rev-parse main)")
    expect_status 128
    grep -a -q '^....ERR tree filter allows max depth 3, but got 9' out || differs "the answer to $filter" out
}

# misses_nothing_more: that the clone without trees or blobs lacks exactly what Git's own lacks.
misses_nothing_more() {
    git -C theirs rev-list --objects --all --missing=print | sort > wanted
    git -C ours rev-list --objects --all --missing=print | sort > written
    expect_same 'what is missing' wanted written
}

case_upload_pack_fetches_wanted_references() {
    configured history-sha1 uploadpack.allowRefInWant true
    both history-sha1 --single-branch --no-tags
    git -C theirs -c protocol.version=2 fetch -q "file://$room/served" refs/heads/alone:refs/remotes/origin/wanted
    rm -f "$trace"
    GIT_TRACE_PACKET=$trace run git -C ours -c protocol.version=2 fetch -q "file://$room/served" --upload-pack="$uploading" \
        refs/heads/alone:refs/remotes/origin/wanted
    same_after_fetch
    sent 'want-ref refs/heads/alone'
}

case_upload_pack_hides_references() {
    configured history-sha1 uploadpack.hideRefs refs/heads/topic
    uploads served --mirror
    ! grep -q refs/heads/topic written || differs 'a hidden reference'
    run git -C ours -c protocol.version=2 fetch -q "file://$room/served" --upload-pack="$uploading" "$(printf '%040d' 1)"
    expect_status 128
}
