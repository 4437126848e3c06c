#!/usr/bin/env bash
# Records the files of this folder from the Git of this machine, and the sessions that the worked cases receive:
#
#     sample/record.sh [FOLDER]
#
# FOLDER gets the files, the sessions in a folder `sessions` of it; without an argument they go where they are. The
# repositories lie in a new folder of /tmp, which is removed at the end. Dates, authors and contents are fixed, so every object
# name is the same on each run.
set -eu -o pipefail
shopt -s inherit_errexit
export LC_ALL=C TZ=UTC

here=$(dirname "$0")
folder=${1:-$here}
sessions=${1:-$here/../crates/worked_conversations/data}/sessions
mkdir -p "$folder/advertisements" "$folder/git-client" "$sessions"
folder=$(cd "$folder" && pwd)
sessions=$(cd "$sessions" && pwd)
work=$(mktemp -d /tmp/git2show-sample.XXXXXX)
trap 'rm -rf "$work"' EXIT
cd "$work"

# Nobody's own configuration takes part.
export GIT_CONFIG_NOSYSTEM=1 GIT_CONFIG_GLOBAL=/dev/null HOME="$work"
export GIT_AUTHOR_NAME='Ada Sample' GIT_AUTHOR_EMAIL=ada@example.org
export GIT_COMMITTER_NAME='Ada Sample' GIT_COMMITTER_EMAIL=ada@example.org
unset GIT_DIR GIT_WORK_TREE GIT_PROTOCOL

clock=1700000000
commit() {
    clock=$((clock + 60))
    export GIT_AUTHOR_DATE="$clock +0000" GIT_COMMITTER_DATE="$clock +0000"
    git -C "$1" add -A
    git -C "$1" commit -q -m "$2"
}

# fill REPOSITORY FORMAT: two branches, and an annotated tag on the first commit.
fill() {
    clock=1700000000
    git init -q -b main --object-format="$2" "$1"
    printf 'One line.\n' > "$1/README"
    commit "$1" 'Begin'
    git -C "$1" tag -a -m 'The first version' v1
    printf 'One line.\nAnd a second.\n' > "$1/README"
    commit "$1" 'Say more'
    git -C "$1" checkout -q -b topic v1
    mkdir "$1/src"
    printf 'fn main() {}\n' > "$1/src/main.rs"
    commit "$1" 'Add a program'
    git -C "$1" checkout -q main
}

line() {
    printf '%04x%s\n' $((${#1} + 5)) "$1"
}

# ask FORMAT COMMAND [ARGUMENT..]: a request as our client writes it, which has its arguments in this order.
ask() {
    local argument
    line "command=$2"
    line agent=git2/1
    line "object-format=$1"
    printf 0001
    for argument in "${@:3}"; do
        line "$argument"
    done
    printf 0000
}

server() {
    GIT_PROTOCOL=version=2 git upload-pack "$1"
}

# What the second file has after the first.
rest_after() {
    tail -c "+$(($(wc -c < "$1") + 1))" "$2"
}

fill repository sha1
oid() {
    git -C repository rev-parse "$1"
}

ask sha1 ls-refs peel symrefs 'ref-prefix HEAD' 'ref-prefix refs/heads/' 'ref-prefix refs/tags/' \
    > "$folder/ls-refs-request.pkt"
ask sha1 fetch thin-pack include-tag ofs-delta "want $(oid main)" "want $(oid topic)" 'done' > "$folder/fetch-request.pkt"
{
    cat "$folder/ls-refs-request.pkt" "$folder/fetch-request.pkt"
    printf 0000
} > "$folder/requests.pkt"

# Each part of the server's side is what a longer session has after a shorter one.
server repository < /dev/null > "$folder/advertisement.pkt"
server repository < "$folder/ls-refs-request.pkt" > shorter
server repository < "$folder/requests.pkt" > "$folder/conversation.pkt"
rest_after "$folder/advertisement.pkt" shorter > "$folder/ls-refs-response.pkt"
rest_after shorter "$folder/conversation.pkt" > "$folder/fetch-response.pkt"
cat "$folder/advertisement.pkt" "$folder/ls-refs-response.pkt" "$folder/fetch-response.pkt" |
    cmp - "$folder/conversation.pkt"

# Sessions, each a requests file, a responses file, and the bytes of its packs, one after the other. Their repository has three
# commits on `main`, and a branch `pages` that shares none of them.

# lengthen REPOSITORY: to what it was filled with, one more commit, and a history of its own.
lengthen() {
    printf 'One line.\nAnd a second.\nAnd a third.\n' > "$1/README"
    commit "$1" 'Say still more'
    git -C "$1" checkout -q --orphan pages
    git -C "$1" rm -q -f -r .
    printf 'A page.\n' > "$1/page"
    commit "$1" 'Begin the pages'
    git -C "$1" checkout -q main
}

# pack_in FILE: what its packets have on the first side band.
pack_in() {
    local digits
    while digits=$(head -c 4) && [ -n "$digits" ]; do
        case $digits in
        000[012]) ;;
        *)
            head -c $((16#$digits - 4)) > packet
            if [ "$(head -c 1 packet)" = $'\001' ]; then
                tail -c +2 packet
            fi
            ;;
        esac
    done < "$1"
}

# session NAME REPOSITORY < REQUESTS
session() {
    local session=$sessions/$1
    cat > "$session-requests.pkt"
    server "$2" < "$session-requests.pkt" > "$session-responses.pkt"
    pack_in "$session-responses.pkt" > "$session.pack"
}

# alone NAME REPOSITORY COMMAND [ARGUMENT..]: adds a request that has a connection and a server of its own to a session. As Git's own
# helper for such connections does, it ends the response with a response-end packet.
alone() {
    local session=$sessions/$1
    ask sha1 "${@:3}" > request
    cat request >> "$session-requests.pkt"
    {
        GIT_PROTOCOL=version=2 git upload-pack --stateless-rpc "$2" < request
        printf 0002
    } >> "$session-responses.pkt"
}

fill talks sha1
lengthen talks
fill talks-sha256 sha256
talk() {
    git -C talks rev-parse "$1"
}
# Objects that no repository here has.
absent=1111111111111111111111111111111111111111
other=2222222222222222222222222222222222222222

{
    ask sha1 ls-refs peel symrefs 'ref-prefix HEAD' 'ref-prefix refs/heads/' 'ref-prefix refs/tags/'
    ask sha1 fetch thin-pack include-tag ofs-delta "want $(talk main)" "want $(talk pages)" 'done'
    printf 0000
} | session clone talks

{
    ask sha256 ls-refs peel symrefs
    ask sha256 fetch no-progress "want $(git -C talks-sha256 rev-parse v1)" 'done'
    printf 0000
} | session clone-of-sha256 talks-sha256

# No object is common, then one that does not help, then one that makes the server ready.
{
    ask sha1 fetch no-progress "want $(talk main)" "have $absent"
    ask sha1 fetch no-progress "want $(talk main)" "have $other" "have $(talk pages)"
    ask sha1 fetch no-progress "want $(talk main)" "have $(talk pages)" "have $(talk main~2)"
    printf 0000
} | session negotiation talks

# One commit alone, and one more of its history by one who has that.
{
    ask sha1 fetch no-progress 'deepen 1' "want $(talk main)" 'done'
    printf 0000
} | session shallow talks
{
    ask sha1 fetch no-progress "shallow $(talk main)" 'deepen 2' "want $(talk main)" "have $(talk main)"
    printf 0000
} | session deepening talks

# References by their names: alone, and with a history that is cut off.
git -C talks config uploadpack.allowRefInWant true
{
    ask sha1 fetch no-progress 'want-ref refs/heads/pages' 'done'
    ask sha1 fetch no-progress 'deepen 1' 'want-ref refs/heads/main' 'want-ref refs/heads/pages' "have $(talk pages)" \
        "have $(talk main~1)"
    printf 0000
} | session wanted-references talks
git -C talks config --unset uploadpack.allowRefInWant

# An object that the server does not have: the server reports it in an error packet, and is gone.
ask sha1 fetch "want $absent" 'done' | session refused talks 2> /dev/null || true

: > "$sessions/stateless-requests.pkt"
server talks < /dev/null > "$sessions/stateless-responses.pkt"
alone stateless talks ls-refs symrefs 'ref-prefix HEAD'
alone stateless talks fetch no-progress "want $(talk main)" "have $absent"
alone stateless talks fetch no-progress "want $(talk main)" "have $(talk main~1)"
pack_in "$sessions/stateless-responses.pkt" > "$sessions/stateless.pack"

# advertisement NAME FORMAT [KEY VALUE]..: that of a repository with these settings.
advertisement() {
    local name=$1 format=$2
    shift 2
    git init -q -b main --object-format="$format" "$name"
    while [ $# -gt 0 ]; do
        git -C "$name" config "$1" "$2"
        shift 2
    done
    server "$name" < /dev/null > "$folder/advertisements/$name.pkt"
}

advertisement default sha1
advertisement sha256 sha256
advertisement unborn-ignored sha1 lsrefs.unborn ignore
advertisement filter-and-ref-in-want sha1 uploadpack.allowFilter true uploadpack.allowRefInWant true
advertisement all-features sha1 uploadpack.allowFilter true uploadpack.allowRefInWant true \
    uploadpack.allowSidebandAll true uploadpack.advertiseBundleURIs true \
    uploadpack.blobPackfileUri "$(printf '%040d %040d' 0 0) https://example.org/pack"
advertisement session-id sha1 transfer.advertiseSID true

# Both sides of what Git's own client does with a server that leaves `unborn` out. The client starts this program in
# place of its own server, and it keeps a copy of what goes each way.
cat > upload-pack-with-copies << 'END'
#!/bin/sh
tee "$COPIES-requests.pkt" | git upload-pack "$@" | tee "$COPIES-responses.pkt"
END
chmod +x upload-pack-with-copies
git -C repository config lsrefs.unborn ignore
with_git() {
    COPIES=$folder/git-client/$1 git -c protocol.version=2 "${@:2}" --upload-pack "$work/upload-pack-with-copies"
}

with_git clone clone -q "file://$work/repository" clone
with_git shallow-clone clone -q --depth 1 "file://$work/repository" shallow
printf 'One line.\nAnd a second.\nAnd a third.\n' > repository/README
commit repository 'Say still more'
with_git fetch -C clone fetch -q origin
