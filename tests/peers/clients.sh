# The peers as clients: each case over each way, from Git's own server and from ours, and what arrived.

# The cases: a name, the repository, what the client is asked to do, and the case whose clone it begins with.
cases=(
    'list history list -'
    'clone history clone -'
    'bare history bare -'
    'one-branch history branch -'
    'depth-1 cut depth -'
    'deepen deeper deepen depth-1'
    'unshallow rest unshallow depth-1'
    'filter-bare partial filter-bare -'
    'filter-checkout history filter-checkout -'
    'empty empty clone -'
    'sha256 sha256 clone -'
    '4500-listed many list -'
    '4500-cloned many clone -'
    'new-commits grown fetch clone'
    'up-to-date history fetch clone'
    'depth-1-of-whole history depth -'
    'named-bases named clone -'
)

# client_git VERB ADDRESS FOLDER: what Git's client does.
client_git() {
    local clone=(git -c protocol.version=2 clone -q)
    case $1 in
    list) git -c protocol.version=2 ls-remote "$2" ;;
    clone) "${clone[@]}" "$2" "$3" ;;
    bare) "${clone[@]}" --bare "$2" "$3" ;;
    branch) "${clone[@]}" --single-branch --branch topic "$2" "$3" ;;
    depth) "${clone[@]}" --depth 1 --no-single-branch "$2" "$3" ;;
    filter-bare) "${clone[@]}" --bare --filter=blob:none "$2" "$3" ;;
    filter-checkout) "${clone[@]}" --filter=blob:none "$2" "$3" ;;
    deepen) git -C "$3" -c protocol.version=2 fetch -q --deepen 1 ;;
    unshallow) git -C "$3" -c protocol.version=2 fetch -q --unshallow ;;
    fetch) git -C "$3" -c protocol.version=2 fetch -q ;;
    esac
}

# client PEER VERB ADDRESS FOLDER: the same of any peer, for at most half a minute.
client() {
    local suite=${1#*-}
    case $1 in
    git-bookworm) limited bash -c 'client_git "$@"' git "${@:2}" ;;
    git-*) PATH=$cache/$suite.bin:$PATH limited bash -c 'client_git "$@"' git "${@:2}" ;;
    dulwich-*) limited "$cache/$suite.bin/python3" "$top/tests/peers/dulwich_client.py" "${@:2}" ;;
    gitoxide-*) limited "$cache/$suite.bin/gix_peer" "${@:2}" ;;
    jgit-*) limited java -Duser.home="$HOME" -cp "$cache/jgit:$jgit_path" JGitPeer "${@:2}" ;;
    esac
}
export -f client_git

# limited COMMAND..: a command that is ended after half a minute, or as many seconds as LIMIT states, with status 124.
limited() {
    timeout -k 5 "${LIMIT:-30}" "$@"
}

# state_of FOLDER: writes what a clone has, in files beside it: its references, its boundary, what `git fsck` finds, what its references reach, and
# which objects there are.
state_of() {
    local git=(git -C "$1") at
    at=$(git -C "$1" rev-parse --absolute-git-dir) || return 0
    {
        "${git[@]}" for-each-ref --format='%(objectname) %(refname) %(symref)'
        "${git[@]}" symbolic-ref -q HEAD || "${git[@]}" rev-parse HEAD
        "${git[@]}" rev-parse --show-object-format
    } > "$1.refs" 2>&1
    sort -u "$at/shallow" > "$1.shallow" 2> /dev/null || true
    "${git[@]}" fsck --full --no-dangling 2>&1 | grep -v -E '^(notice: |broken links? |Checking )' > "$1.fsck" || true
    "${git[@]}" rev-list --objects --all --missing=print 2>&1 | sed 's/^?//; s/ .*//' | sort > "$1.reached" || true
    "${git[@]}" cat-file --batch-all-objects --batch-check='%(objectname)' 2>&1 | sort > "$1.objects" || true
}

# try_case PEER WAY KIND CASE: runs a case. What came of it is in OUT/PEER/WAY-KIND-CASE and the files beside that.
try_case() {
    local peer=$1 way=$2 kind=$3 name repository verb begun at address
    read -r name repository verb begun <<< "$4"
    at=$room/out/$peer/$way-$kind-$name
    address=$(address "$way" "$kind" "$repository")
    rm -rf "$at" "$at".*
    if [ "$begun" != - ]; then
        [ -d "$room/out/$peer/pipe-theirs-$begun" ] || { echo 125 > "$at.status"; return; }
        cp -a "$room/out/$peer/pipe-theirs-$begun" "$at"
        git -C "$at" config remote.origin.url "$address"
    fi
    local status=0
    client "$peer" "$verb" "$address" "$at" > "$at.out" 2> "$at.err" < /dev/null || status=$?
    echo "$status" > "$at.status"
    if [ -d "$at" ]; then state_of "$at"; fi
    sort -o "$at.out" "$at.out"
}

# is_part A B: that each line of a file is in another.
is_part() {
    [ -z "$(comm -23 <(sort "$1") <(sort "$2"))" ]
}

# has_further_tags A B: that the references of a clone are those of another and tags, which Git adds where it has what they point to.
has_further_tags() {
    is_part "$1" "$2" && [ -z "$(comm -13 <(sort "$1") <(sort "$2") | grep -v ' refs/tags/')" ]
}

# verdict PEER WAY KIND CASE: what came of a case beside what came of it with Git's own server, a word that docs/PEERS.md explains.
verdict() {
    local ours=$room/out/$1/$2-$3-$4 theirs=$room/out/$1/$2-theirs-$4 what status their_status
    [ -e "$ours.status" ] && [ -e "$theirs.status" ] || { echo 'not tried'; return; }
    status=$(cat "$ours.status")
    their_status=$(cat "$theirs.status")
    case $status:$their_status in
    125:* | *:125) echo '–'; return ;;
    0:0) ;;
    0:*) echo 'only ours'; return ;;
    124:0 | 137:0) echo hangs; return ;;
    *:0) echo fails; return ;;
    *) echo neither; return ;;
    esac
    cmp -s "$theirs.out" "$ours.out" || { echo 'differs (output)'; return; }
    [ -e "$theirs.refs" ] || { echo same; return; }
    for what in refs shallow fsck reached objects; do
        cmp -s "$theirs.$what" "$ours.$what" || { unlike "$theirs" "$ours"; return; }
    done
    echo same
}

# unlike THEIRS OURS: the verdict on two clones that are not the same.
unlike() {
    if ! has_further_tags "$1.refs" "$2.refs"; then
        echo 'differs (references)'
    elif ! is_part "$2.fsck" "$1.fsck"; then
        echo 'differs (fsck)'
    elif [ -s "$2.shallow" ] && ! cmp -s "$1.shallow" "$2.shallow"; then
        echo 'differs (boundary)'
    elif is_part "$1.reached" "$2.reached" && is_part "$1.objects" "$2.objects"; then
        echo all
    else
        echo 'differs (objects)'
    fi
}

ways=(pipe git http)

# is_tried WAY KIND: whether there is such a server: without the library there is none but `serve`.
is_tried() {
    [ -n "$library" ] || case $1-$2 in
    pipe-text | http-text | pipe-theirs | http-theirs) ;;
    *) return 1 ;;
    esac
}

# try_peer PEER: all cases of a peer, Git's own server first, from whose clones the texts of a history that is cut off are made.
try_peer() {
    local peer=$1 way kind it name repository begun
    mkdir -p "out/$peer"
    for kind in theirs text folder; do
        [ $kind != text ] || cuts_of "$peer"
        for way in "${ways[@]}"; do
            is_tried "$way" $kind || continue
            for it in "${cases[@]}"; do
                try_case "$peer" "$way" $kind "$it"
            done
        done
    done
    table_of "$peer"
}

# cuts_of PEER: the texts that cut a history off as this peer has it from Git's own server, and their daemons.
cuts_of() {
    local at=out/$1/pipe-theirs- it name case
    [ -e "$at"depth-1/.git ] || return 0
    for it in 'cut depth-1' 'deeper deepen' 'rest unshallow'; do
        read -r name case <<< "$it"
        [ -e "$at$case/.git" ] || continue
        if [ "$name" = cut ]; then cut_as cut "$at$case"; else cut_as "$name" "$at$case" "${at}depth-1"; fi
        ! is_tried git text || start_daemon text "$name"
    done
}

# table_of PEER: its verdicts, a row for each case; and why what failed did.
table_of() {
    local it name cells way kind word
    echo
    echo "$(title_of "$1")"
    echo
    echo '| | `serve`, pipe | `daemon.c`, text | `serve`, HTTP | `upload-pack.c`, pipe | `daemon.c`, folder | `upload-pack.c`, HTTP |'
    echo '| --- | --- | --- | --- | --- | --- | --- |'
    : > "out/$1.reasons"
    for it in "${cases[@]}"; do
        name=${it%% *}
        cells=
        for kind in text folder; do
            for way in "${ways[@]}"; do
                word='not tried'
                ! is_tried "$way" $kind || word=$(verdict "$1" "$way" $kind "$name")
                cells+=" $word |"
                case $word in
                same | all | – | 'not tried') ;;
                *) reason "$1" "$way" $kind "$name" "$word" ;;
                esac
            done
        done
        echo "| $name |$cells"
    done
    echo
    cat "out/$1.reasons"
}

# why FILE: the line of what a client wrote that has the reason.
why() {
    grep -E -i 'error|fatal|exception' "$1" | tail -n 1 | cut -c 1-300
}

# reason PEER WAY KIND CASE WORD: notes why a client failed, with our server and with Git's, and counts what is not as it may be.
reason() {
    local at=out/$1/$2
    {
        echo "$4, $2 $3: $5"
        [ "$5" = 'only ours' ] || echo "    with ours: status $(cat "$at-$3-$4.status"), $(why "$at-$3-$4.err")"
        echo "    with Git's: status $(cat "$at-theirs-$4.status"), $(why "$at-theirs-$4.err")"
    } >> "out/$1.reasons"
    case $5 in
    neither | 'only ours') ;;
    *) bad=$((bad + 1)) ;;
    esac
}
