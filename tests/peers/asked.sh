# The peers as servers of `git2show fetch`: each conversation is a script, and what arrives is compared with the repository.

# upload_pack PEER FOLDER: a peer's server on standard input and output, with every setting turned on that adds a line or a section.
upload_pack() {
    local suite=${1#*-}
    case $1 in
    git-bookworm) upload_pack_of_git "$2" ;;
    git-*) PATH=$cache/$suite.bin:$PATH upload_pack_of_git "$2" ;;
    jgit-*) java -Duser.home="$HOME" -cp "$cache/jgit:$jgit_path" JGitPeer upload-pack "$2" ;;
    dulwich-*) "$cache/$suite.bin/python3" -m dulwich upload-pack "$room/$2" ;;
    esac
}

# upload_pack_of_git FOLDER: Git's.
upload_pack_of_git() {
    local digits=40
    [[ $1 != *sha256* ]] || digits=64
    GIT_PROTOCOL=version=2 git -c uploadpack.allowFilter=true -c uploadpack.allowRefInWant=true -c uploadpack.allowAnySHA1InWant=true \
        -c uploadpack.advertiseSidebandAll=true -c uploadpack.advertiseBundleURIs=true -c bundle.version=1 -c bundle.mode=all \
        -c bundle.one.uri=https://127.0.0.1:1/bundle -c transfer.advertiseSID=true -c transfer.advertiseObjectInfo=true \
        -c promisor.advertise=true -c remote.large.promisor=true -c remote.large.url=https://127.0.0.1:1/large \
        -c remote.large.partialCloneFilter=blob:limit=1m -c promisor.sendFields=partialCloneFilter \
        -c uploadpack.blobPackfileUri="$(printf "%0${digits}d %0${digits}d" 1 2) https://127.0.0.1:1/pack" \
        upload-pack "$1"
}

# ask PEER FOLDER SCRIPT-LINE..: our client sends these requests to a peer's server. Leaves `asked.status`, `transcript`, `pack` and `reported`.
ask() {
    local peer=$1 folder=$2 status=0 format=sha1
    shift 2
    printf '%s\n' "$@" > script
    [[ $folder != *sha256* ]] || format=sha256
    rm -f to from transcript pack
    mkfifo to from
    (upload_pack "$peer" "$folder" < to > from 2> served.err) &
    limited git2show fetch --script script --pack pack --transcript transcript --format $format > to < from 2> reported || status=$?
    kill $! 2> /dev/null || true
    wait $! 2> /dev/null || true
    touch transcript pack
    echo $status > asked.status
}

# pack_has FOLDER WORD..: that the pack has what `git rev-list --objects` with these words prints of the folder.
pack_has() {
    local format
    format=$(git -C "$1" rev-parse --show-object-format)
    rm -rf fetched.git
    git init -q --bare --object-format="$format" fetched.git
    [ ! -e had.pack ] || git -C fetched.git unpack-objects -q < had.pack
    git -C fetched.git index-pack --stdin --fix-thin < pack > /dev/null 2> indexed.err || { tail -n 1 indexed.err; return; }
    git -C fetched.git cat-file --batch-all-objects --batch-check='%(objectname)' | sort > got
    git -C "$1" rev-list --objects --no-object-names "${@:2}" | sort > wanted
    if cmp -s got wanted; then echo same; else echo "$(comm -23 wanted got | wc -l) missing, $(comm -13 wanted got | wc -l) more"; fi
}

# has_line PATTERN: that the transcript has a line like this.
has_line() {
    if grep -q -x -e "$1" transcript; then echo same; else echo "no line '$1'"; fi
}

# answered PEER NAME FOLDER CHECK SCRIPT-LINE..: a row of the table: what the check prints after that conversation.
answered() {
    local word
    ask "$1" "$3" "${@:5}"
    if [ "$(cat asked.status)" = 0 ]; then
        word=$($4)
    elif grep -q 'NotAdvertised' reported; then
        word='not offered'
    else
        word=$(tail -n 1 reported | sed 's/^git2show: //')
        case $2:$word in
        sha256:WrongFormat* | 'sha256:Truncated at 0') word='no SHA-256' ;;
        esac
    fi
    case $word in
    same | 'not offered' | 'no SHA-256' | NotVersion2*) ;;
    *) bad=$((bad + 1)) ;;
    esac
    answers+=("$2|$word")
}

# What a check prints of the last conversation, of the folder `served`.
listed_all() {
    git -C "folders/$served.git" for-each-ref --format='%(objectname) %(refname)' > wanted
    sed -n 's/^ref \([0-9a-f]* refs[^ ]*\).*/\1/p' transcript | sort -k 2 > got
    sort -k 2 -o wanted wanted
    if cmp -s wanted got; then echo same; else echo "$(wc -l < got) references of $(wc -l < wanted)"; fi
}
whole() { pack_has "folders/$served.git" --all; }
no_blobs() { pack_has "folders/$served.git" --all --filter=blob:none; }

# ask_peer PEER: all conversations with a peer's server.
ask_peer() {
    local peer=$1 tip wants served
    answers=()
    tip=$(git -C history rev-parse main)
    served=history
    wants=$(git -C folders/history.git for-each-ref --format='want %(objectname)' | sort -u)
    mapfile -t wants <<< "$wants"
    answered "$peer" list folders/history.git listed_all ls-refs symrefs peel
    sed -n 's/^capability //p' transcript > "out/$peer.offered"
    answered "$peer" clone folders/history.git whole fetch "${wants[@]}" ofs-delta include-tag 'done'
    answered "$peer" depth-1 folders/history.git "has_line shallow.$tip" fetch "want $tip" 'deepen 1' 'done'
    answered "$peer" filter folders/history.git no_blobs fetch "${wants[@]}" 'filter blob:none' 'done'
    answered "$peer" wanted-reference folders/history.git "has_line wanted-ref.$tip.refs/heads/main" fetch 'want-ref refs/heads/main' 'done'
    answered "$peer" wait-for-done folders/history.git "has_line ack.$tip" fetch "want $tip" "have $tip" wait-for-done
    answered "$peer" sizes folders/history.git "has_line info.$tip.$(git -C history cat-file -s main)" object-info size "oid $tip"
    served=empty
    answered "$peer" empty folders/empty.git listed_all ls-refs symrefs peel $(grep -q unborn "out/$peer.offered" && echo unborn)
    served=many
    answered "$peer" 4500-references folders/many.git listed_all ls-refs symrefs peel
    served=sha256
    mapfile -t wants < <(git -C folders/sha256.git for-each-ref --format='want %(objectname)' | sort -u)
    answered "$peer" sha256 folders/sha256.git whole fetch "${wants[@]}" 'done'
    served=grown
    cp texts/history.pack had.pack
    mapfile -t wants < <(git -C folders/grown.git for-each-ref --format='want %(objectname)' | sort -u)
    answered "$peer" new-commits folders/grown.git whole fetch "${wants[@]}" "have $tip" thin-pack ofs-delta 'done'
    rm -f had.pack
    printf '%s\n' "${answers[@]}" > "out/$peer.asked"
}

# table_of_servers PEER..: what was asked of all of them, a column each.
table_of_servers() {
    local peer names=() line
    echo
    echo 'As servers of `git2show fetch`'
    echo
    line='| |'
    for peer; do line+=" $(title_of "$peer") |"; done
    echo "$line"
    echo "| --- |$(printf ' --- |%.0s' "$@")"
    mapfile -t names < <(cut -d '|' -f 1 "out/$1.asked")
    for name in "${names[@]}"; do
        line="| $name |"
        for peer; do line+=" $(sed -n "s/^$name|//p" "out/$peer.asked") |"; done
        echo "$line"
    done
    echo
    for peer; do
        echo "$(title_of "$peer") advertised: $(tr '\n' ' ' < "out/$peer.offered")"
    done
}
