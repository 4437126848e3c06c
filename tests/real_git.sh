# Cases in which the real Git asks our program for the references of a repository.

# What Git sends and gets, packet by packet. It shows whether a case tests what it should.
trace=$room/trace

# ls_remote [OPTION..] REPOSITORY [PATTERN..]
ls_remote() {
    rm -f "$trace"
    GIT_TRACE_PACKET=$trace run git -c protocol.version=2 -c protocol.ext.allow=always ls-remote "$@"
}

# served TEXT: the address of the repository that our program serves, for Git.
served() {
    echo "ext::git2show serve --repo $1 --pack empty.pack"
}

# sent LINE..: that Git sent these lines.
sent() {
    local line
    sed -n 's/^[^>]*> //p' "$trace" > requests
    for line; do
        expect_line 'what Git sent' "$line" requests
    done
}

# lists COUNT WANTED: that Git printed exactly these lines, this number of them, without any message.
lists() {
    cat "$2" > wanted
    [ "$(wc -l < wanted)" = "$1" ] || differs "the case's own list, of $(wc -l < wanted) lines instead of $1"
    expect 0 wanted /dev/null
}

# fails LINE: that Git failed and listed nothing, and that our program reported this error and no other.
fails() {
    expect_status 128
    expect_same 'standard output' /dev/null out
    expect_same 'what our program reported' <(echo "$1") <(grep -a '^git2show: ' err)
}

case_git_lists_sha1() {
    ls_remote "$(served sha1.repo)"
    lists 311 <(listed < sha1.table)
    sent command=ls-refs object-format=sha1 peel
}

case_git_lists_sha256() {
    ls_remote "$(served sha256.repo)"
    lists 311 <(listed < sha256.table)
    sent command=ls-refs object-format=sha256 peel
}

case_git_lists_symbolic_references_of_sha1() {
    ls_remote --symref "$(served sha1.repo)"
    lists 315 <(listed --symref < sha1.table)
    expect_line 'the list' $'ref: refs/heads/main\tHEAD' out
    sent symrefs
}

case_git_lists_symbolic_references_of_sha256() {
    ls_remote --symref "$(served sha256.repo)"
    lists 315 <(listed --symref < sha256.table)
    expect_line 'the list' $'ref: refs/heads/main\tHEAD' out
    sent symrefs
}

case_git_lists_tags() {
    ls_remote --tags "$(served sha1.repo)"
    lists 252 <(listed < sha1.table | grep -a $'\trefs/tags/')
    sent 'ref-prefix refs/tags/'
}

case_git_lists_heads_of_sha256() {
    ls_remote --heads "$(served sha256.repo)"
    lists 55 <(listed < sha256.table | grep -a $'\trefs/heads/')
    sent 'ref-prefix refs/heads/'
}

case_git_lists_heads_and_tags() {
    ls_remote --heads --tags "$(served sha1.repo)"
    lists 307 <(listed < sha1.table | grep -a -E $'\trefs/(heads|tags)/')
    sent 'ref-prefix refs/heads/' 'ref-prefix refs/tags/'
}

case_git_lists_without_peeled_tags() {
    ls_remote --refs "$(served sha1.repo)"
    lists 208 <(listed < sha1.table | grep -a $'\trefs/' | grep -a -v -F '^{}')
}

# Git itself selects what matches its patterns, from all that it received.
case_git_lists_what_patterns_match() {
    ls_remote "$(served sha1.repo)" main 'v1*'
    lists 46 <(listed < sha1.table | grep -a -E '/(main|v1[^/]*)$')
}

case_git_lists_tags_that_a_pattern_matches() {
    ls_remote --tags "$(served sha256.repo)" 'refs/tags/light-*'
    lists 50 <(listed < sha256.table | grep -a $'\trefs/tags/light-')
    sent 'ref-prefix refs/tags/'
}

case_git_sends_a_server_option() {
    ls_remote --server-option=lang=en "$(served sha1.repo)"
    lists 311 <(listed < sha1.table)
    sent server-option=lang=en
}

# Git lists the same of a repository of its own and of our server, with the text that is written for that repository.
lists_as_its_own() {
    git init -q -b main --object-format="$1" "own-$1"
    (
        cd "own-$1"
        git config user.name nobody
        git config user.email nobody@example.org
        git commit -q --allow-empty -m one
        git tag light
        git tag -a -m tag annotated
        git tag -a -m 'tag of a tag' nested annotated
        git branch topic
        git symbolic-ref refs/heads/alias refs/heads/topic
        "$top/sample/repository-text.sh" > ../own.repo
    )
    git ls-remote --symref "./own-$1" > own.list
    ls_remote --symref "$(served own.repo)"
    lists 11 own.list
}

case_git_lists_a_repository_of_its_own() {
    lists_as_its_own sha1
}

case_git_lists_a_repository_of_its_own_of_sha256() {
    lists_as_its_own sha256
}

case_git_lists_nothing_of_an_empty_repository() {
    ls_remote "$(served empty.repo)"
    lists 0 /dev/null
    sent command=ls-refs
}

case_git_fails_at_a_wrong_text() {
    sed 40p sha1.repo > wrong.repo # line 40 twice, so that the names do not rise
    ls_remote "$(served wrong.repo)"
    fails 'git2show: BadRepo at 41'
}

case_git_fails_at_a_format_that_is_none() {
    echo 'format md5' > wrong.repo
    ls_remote "$(served wrong.repo)"
    fails 'git2show: BadRepo at 1'
}

case_git_fails_at_a_missing_text() {
    ls_remote "$(served nowhere.repo)"
    fails 'git2show: File'
}

# patient: our program, and a reader that stays. A server that refuses a request ends at once, even while Git is writing the rest of it, and
# then Git ends before it reads the answer. So here that rest is read.
write_patient() {
    printf '%s\n' '#!/bin/sh' 'git2show "$@"' 'cat > /dev/null' > bin/patient
    chmod +x bin/patient
}

# The offset depends on what Git sends before its arguments, and is taken from Git's own message.
case_git_is_told_why_its_request_is_refused() {
    local refusal
    write_patient
    ls_remote 'ext::patient serve --pack empty.pack --repo sha1.repo --limit 3'
    refusal=$(sed -n 's/^fatal: remote error: //p' err)
    [[ $refusal =~ ^TooMuchKept\ at\ [0-9]+$ ]] || differs 'what Git received' err
    fails "git2show: $refusal"
}
