# `check` and examples/watch.c over conversations of a Git with its own server, which sends more than this project knows.

# write_watcher: a command in the place of ssh, whose server is that of the client's Git, behind `watch` and a recorder of each stream. The file
# `settings` has its settings, one to a line.
write_watcher() {
    cat > bin/ssh-watched << END
#!/bin/bash
while [ \$# -gt 2 ]; do shift; done
name=\${2#*/}
name=\${name%\'}
exec ${library:+watch --transcript "$room/watched.transcript"} "$room/bin/recorded" "$room/folders/\$name" 2> "$room/watched.err"
END
    cat > bin/recorded << END
#!/bin/bash
settings=()
while read -r line; do
    settings+=(-c "\$line")
done < "$room/settings"
tee "$room/requests" | git "\${settings[@]}" upload-pack "\$1" | tee "$room/responses"
END
    chmod 755 bin/ssh-watched bin/recorded
}

# watched PEER LINE GIT-WORD..: a command of a Git over the watcher. Prints `same` if all ends well, `check` and the watcher print the same lines,
# and one is a line like LINE; `not spoken` if it has none; or else what is wrong.
watched() {
    local line=$2 status=0 path=$PATH
    [ "$1" = git-bookworm ] || path=$cache/${1#*-}.bin:$PATH
    rm -rf watched.clone requests responses watched.transcript watched.err
    PATH=$path GIT_SSH_COMMAND=$room/bin/ssh-watched limited git -c protocol.version=2 "${@:3}" > watched.out 2>&1 || status=$?
    [ $status = 0 ] || { echo "status $status: $(tail -n 1 watched.out) $(cat watched.err)"; return; }
    [ ! -s watched.err ] || { head -n 1 watched.err; return; }
    limited git2show check requests responses > checked 2> checked.err || { echo "check: $(head -n 1 checked.err)"; return; }
    [ -z "$library" ] || cmp -s watched.transcript checked || { echo 'another transcript of watch'; return; }
    if grep -q -e "$line" checked; then echo same; else echo 'not spoken'; fi
}

# row NAME LINE SETTINGS GIT-WORD..: a conversation of the peer, a row of its table.
row() {
    local word
    echo "$3" > settings
    word=$(watched "$peer" "$2" "${@:4}")
    rows+=("$1|$word")
    case $word in
    same | 'not spoken') ;;
    *) bad=$((bad + 1)) ;;
    esac
    mkdir -p "out/$peer/watched-$1"
    cp requests responses watched.transcript watched.out "out/$peer/watched-$1" 2> /dev/null || true
}

# watch_peer PEER: all conversations of a Git.
watch_peer() {
    local peer=$1 url=ssh://watched/history.git blob pack rows=()
    blob=$(git -C history rev-parse main:third)
    pack=$(basename folders/blobs.git/objects/pack/*.pack .pack)
    row session-id '^capability session-id=' 'transfer.advertiseSID=true' -c transfer.advertiseSID=true clone -q $url watched.clone
    GIT_TEST_SIDEBAND_ALL=1 row sideband-all '^argument sideband-all$' 'uploadpack.advertiseSidebandAll=true' clone -q $url watched.clone
    row packfile-uris '^argument packfile-uris http$' \
        "uploadpack.blobPackfileUri=$blob ${pack#pack-} $(cat addresses/web-theirs)/blobs.git/objects/pack/$pack.pack" \
        -c fetch.uriProtocols=http clone -q $url watched.clone
    row bundle-uri '^request bundle-uri$' \
        "uploadpack.advertiseBundleURIs=true
bundle.version=1
bundle.mode=all
bundle.one.uri=file://$room/history.bundle" -c transfer.bundleURI=true clone -q $url watched.clone
    row promisor-remote '^capability promisor-remote=' "uploadpack.allowFilter=true
promisor.advertise=true
remote.large.promisor=true
remote.large.url=file:///large" -c promisor.acceptFromServer=all clone -q -c remote.large.promisor=true -c remote.large.url=file:///large \
        -c 'remote.large.fetch=+refs/heads/*:refs/remotes/large/*' --filter=blob:none --no-checkout $url watched.clone
    row all-at-once '^capability session-id=' "transfer.advertiseSID=true
transfer.advertiseObjectInfo=true
uploadpack.allowRefInWant=true
uploadpack.allowFilter=true
uploadpack.advertiseSidebandAll=true
uploadpack.advertiseBundleURIs=true
bundle.version=1
bundle.mode=all
bundle.one.uri=file://$room/history.bundle
promisor.advertise=true
remote.large.promisor=true
remote.large.url=file:///large" -c transfer.advertiseSID=true -c transfer.bundleURI=true clone -q $url watched.clone
    printf '%s\n' "${rows[@]}" > "out/$peer.watched"
}

# write_extras: a bundle, and a pack of one blob that the web server of Git's own folders has.
write_extras() {
    git -C history bundle create -q "$room/history.bundle" --all
    git init -q --bare folders/blobs.git
    git -C history rev-parse main:third | git -C history pack-objects -q "$room/folders/blobs.git/objects/pack/pack" > /dev/null
}

# table_of_watched PEER..: a column for each.
table_of_watched() {
    local peer name line
    echo
    echo 'Conversations of a Git with its own server, behind `watch` and judged by `check`'
    echo
    line='| |'
    for peer; do line+=" $(title_of "$peer") |"; done
    echo "$line"
    echo "| --- |$(printf ' --- |%.0s' "$@")"
    cut -d '|' -f 1 "out/$1.watched" | while read -r name; do
        line="| $name |"
        for peer; do line+=" $(sed -n "s/^$name|//p" "out/$peer.watched") |"; done
        echo "$line"
    done
}
