# Cases in which something fails below examples/upload-pack.c, or its client is malicious: a command of Git that is killed, a damaged
# repository, a full device, a client that is gone or slow. There is an error, and no clone that looks whole.

# write_failing COMMAND COUNT: `failing/git`, which kills this command after so many bytes of its output, or after so many lines of its
# input if that stays open; and `uploading-badly`, the program over it.
write_failing() {
    local git passing
    git=$(command -v git)
    passing="'$git' \"\$@\" | head -c $2"
    [ "$1" != cat-file ] || passing="head -n $2 | '$git' \"\$@\""
    mkdir -p failing
    printf '%s\n' '#!/bin/sh' "case \" \$* \" in *' $1 '*) exec 2> /dev/null; $passing; kill -9 \$\$ ;; esac" "exec '$git' \"\$@\"" > failing/new
    printf '%s\n' '#!/bin/sh' "PATH='$room/failing':\$PATH exec '$uploading' \"\$@\"" > uploading-badly
    chmod +x failing/new uploading-badly
    mv failing/new failing/git # not written in place: what was killed may have left a process that is about to run it
}

# fails_to_clone WHAT NAME PROGRAM [OPTION..]: that there is no clone.
fails_to_clone() {
    rm -rf ours
    run git -c protocol.version=2 clone -q "file://$room/$2" ours --upload-pack="$3" "${@:4}"
    [ "$status" != 0 ] || differs "a clone though $1"
    [ "$status" -lt 124 ] || [ "$status" = 128 ] || differs "a clone that hangs, though $1"
    [ ! -e ours ] || differs "a folder though $1"
    ! grep -a -q -e Sanitizer -e 'runtime error' err || differs "what is touched though $1" err
}

case_upload_pack_reports_a_command_that_is_killed() {
    local command bytes
    for command in rev-parse config symbolic-ref show-ref for-each-ref pack-objects; do
        for bytes in 0 30 300; do
            write_failing $command $bytes
            fails_to_clone "git $command was killed after $bytes bytes" history-sha1 "$room/uploading-badly"
        done
    done
    for bytes in 0 1; do
        write_failing cat-file $bytes
        fails_to_clone "git cat-file was killed after $bytes lines" history-sha1 "$room/uploading-badly" --depth 1
    done
    write_failing rev-list 30
    fails_to_clone 'git rev-list was killed' history-sha1 "$room/uploading-badly" --shallow-since=2000-01-01
    for bytes in 30 60 70; do # before a name, amid one, and amid a target
        write_failing for-each-ref $bytes
        fails_to_clone "git for-each-ref was killed after $bytes bytes" history-sha1 "$room/uploading-badly" --single-branch --branch alias --no-tags
    done
}

# descendant NAME: prints the process of this name, `git NAME`, that the program has started, as soon as there is one.
descendant() {
    local i file
    for ((i = 0; i < 600; i++)); do
        for file in /proc/[0-9]*/cmdline; do
            if [ "$(tr '\0' ' ' 2> /dev/null < "$file" | cut -d ' ' -f 2)" = "$1" ] && [ "${file%/cmdline}/cwd" -ef "$2" ]; then
                file=${file%/cmdline}
                echo "${file#/proc/}"
                return
            fi
        done
        sleep 0.05
    done
    return 1
}

# A child that is killed while the client reads slowly, and the program that is killed itself: its child goes with it.
case_upload_pack_and_its_children_are_killed() {
    local child client
    rm -rf ours slow
    mkfifo slow
    fetch "$(git -C heavy rev-parse main)" > body
    "$uploading" --stateless-rpc heavy < body > slow 2> err &
    client=$!
    exec 5< slow
    head -c 100000 <&5 > /dev/null
    child=$(descendant pack-objects heavy/.git) || differs 'no git pack-objects'
    kill -KILL "$child"
    cat <&5 > out
    status=0
    wait $client || status=$?
    [ $status = 1 ] || differs "status $status"
    expect_same 'what is reported' <(echo 'upload-pack: git pack-objects failed') err
    tail -c 100 out | grep -a -q -F $'\003' || differs 'no error for the client' out
    "$uploading" --stateless-rpc heavy < body > slow 2> err &
    client=$!
    exec 5< slow
    head -c 100000 <&5 > /dev/null
    child=$(descendant pack-objects heavy/.git) || differs 'no git pack-objects'
    kill -KILL $client
    wait $client 2> /dev/null || true
    exec 5<&-
    limited sh -c "while kill -0 $child 2> /dev/null; do sleep 0.1; done" || differs 'a git pack-objects that goes on'
}

# If its client is gone, or reads nothing, it ends, and so does what it started.
case_upload_pack_ends_with_its_client() {
    local begin=$SECONDS waiting
    fetch "$(git -C heavy rev-parse main)" > body
    "$uploading" --stateless-rpc heavy < body 2> err | head -c 100000 > out || true
    grep -q -x -e 'upload-pack: the answer cannot be written' -e 'upload-pack: the client is gone' err || differs 'what is reported' err
    rm -f slow
    mkfifo slow
    exec 5<> slow
    status=0
    limited "$uploading" --timeout=1 --stateless-rpc heavy < body > slow 2> err || status=$?
    [ $status = 142 ] || differs "status $status of a client that takes nothing" # 128 and SIGALRM
    run "$uploading" --timeout=1 history-sha1 < <(sleep 20)
    [ "$status" = 142 ] || differs "status $status of a client that sends nothing"
    [ $((SECONDS - begin)) -lt 20 ] || differs 'a client that is waited for'
    exec 5<&-
}

case_upload_pack_reports_a_device_that_is_full() {
    [ -c /dev/full ] || return 0
    fetch "$(git -C heavy rev-parse main)" > body
    status=0
    limited "$uploading" --stateless-rpc heavy < body > /dev/full 2> err || status=$?
    [ $status = 1 ] || differs "status $status"
    expect_same 'what is reported' <(echo 'upload-pack: the answer cannot be written') err
    status=0
    limited "$uploading" history-sha1 < /dev/null > /dev/full 2> err || status=$?
    [ $status = 1 ] || differs "status $status"
}

# loose FOLDER REVISION: the file of a loose object.
loose() {
    local id
    id=$(git -C "$1" rev-parse "$2")
    echo "$1/objects/${id:0:2}/${id:2}"
}

# damage KIND: damages the repository `served`, which has loose objects unless it is packed first.
damage() {
    local pack
    case $1 in
        packed*) git -C served gc -q && pack=$(echo served/objects/pack/*.pack) && chmod u+w "${pack%.pack}".* ;;
    esac
    case $1 in
        branch) echo nothing > served/refs/heads/topic ;;
        empty-branch) : > served/refs/heads/topic ;;
        lost-branch) printf '%040d\n' 1 > served/refs/heads/topic ;;
        tag) rm "$(loose served nested)" ;;
        peeled) rm "$(loose served 'annotated^{}')" ;;
        commit) rm "$(loose served main)" ;;
        parent) rm "$(loose served main~1)" ;;
        tree) rm "$(loose served 'main^{tree}')" ;;
        file) rm "$(loose served main:first)" ;;
        empty-file) : > "$(loose served main:third)" ;;
        garbled-file) printf x | dd of="$(loose served main:third)" bs=1 seek=12 conv=notrunc 2> /dev/null ;;
        head) echo nothing > served/HEAD ;;
        no-head) rm served/HEAD ;;
        lost-head) printf '%040d\n' 1 > served/HEAD ;;
        configuration) echo '[core' > served/config ;;
        objects) rm -r served/objects ;;
        packed-references) sed -i '3s/^..../none/' served/packed-refs ;;
        packed-cut) head -c 500 "$pack" > cut && cat cut > "$pack" ;;
        packed-garbled) printf xxxx | dd of="$pack" bs=1 seek=200 conv=notrunc 2> /dev/null ;;
        packed-without-index) rm "${pack%.pack}.idx" ;;
        packed-index-cut) head -c 1100 "${pack%.pack}.idx" > cut && cat cut > "${pack%.pack}.idx" ;;
    esac
}

case_upload_pack_clones_nothing_damaged() {
    local kind
    for kind in branch empty-branch lost-branch tag peeled commit parent tree file empty-file garbled-file head no-head lost-head configuration \
        objects packed-references packed-cut packed-garbled packed-without-index packed-index-cut; do
        rm -rf served
        git clone -q --bare --no-local -c fetch.unpackLimit=100000 -c transfer.unpackLimit=100000 history-sha1 served 2> /dev/null
        git -C served unpack-objects -q < history-sha1.pack 2> /dev/null || true
        loosen served
        git clone -q --mirror "file://$room/served" whole && rm -rf whole
        damage $kind
        fails_to_clone "damaged: $kind" served "$uploading"
        fails_to_clone "damaged: $kind" served "$uploading" --mirror
    done
}

# loosen FOLDER: makes all its objects loose.
loosen() {
    local pack
    for pack in "$1"/objects/pack/*.pack; do
        mv "$pack" loosened.pack
        rm -f "${pack%.pack}".*
        git -C "$1" unpack-objects -q < loosened.pack
    done
}

# A damaged branch is noticed also if a pattern asks for it.
case_upload_pack_lists_nothing_damaged() {
    local kind
    for kind in branch empty-branch lost-branch; do
        configured history-sha1
        rm -rf served.git
        git clone -q --mirror history-sha1 served.git
        rm -rf served
        mv served.git served
        damage $kind
        run "$uploading" --stateless-rpc served < <(prefixes refs/heads/to refs/notes/)
        expect_status 1
        ! grep -a -q '0000$' out || differs 'an answer that looks whole' out
        run "$uploading" --stateless-rpc served < <(prefixes refs/heads/al)
        expect_status 0
    done
}

# memory_of_process PROCESS: the most memory that it had, in KiB, once it has ended.
memory_of_process() {
    local most=0 now
    while now=$(sed -n 's/^VmHWM:[^0-9]*\([0-9]*\) kB/\1/p' "/proc/$1/status" 2> /dev/null) && [ -n "$now" ]; do
        most=$now
        sleep 0.02
    done
    echo "$most"
}

# A command that prints a gigabyte is in the place of `git pack-objects`: the bytes that pass through are not looked into.
case_upload_pack_takes_a_fixed_memory() {
    local process most
    mkdir -p failing
    printf '%s\n' '#!/bin/sh' "case \" \$* \" in *' pack-objects '*) exec head -c 1000000000 /dev/zero ;; esac" "exec '$(command -v git)' \"\$@\"" \
        > failing/git
    chmod +x failing/git
    fetch "$(git -C history-sha1 rev-parse main)" > body
    PATH=$room/failing:$PATH "$room/bin/upload-pack" --stateless-rpc history-sha1 < body > >(wc -c > size) &
    process=$!
    most=$(memory_of_process $process)
    wait $process
    wait_for size
    [ "$(cat size)" -gt 1000000000 ] || differs "a pack of $(cat size) bytes"
    [ "$most" -gt 0 ] && [ "$most" -lt 4096 ] || differs "$most KiB"
}

# Wanted references are looked up together, and so are those that a history has to exclude.
case_upload_pack_is_not_kept_busy() {
    local begin=$SECONDS
    configured history-sha1 uploadpack.allowRefInWant true
    {
        packet command=fetch
        printf 0001
        packet 'want-ref refs/heads/main' > line
        awk '{ for (i = 0; i < 200000; i++) print }' line
        packet 'want-ref refs/heads/nothing'
        packet 'done'
        printf 0000
    } > body
    run "$uploading" --stateless-rpc served < body
    expect_status 128
    expect_same 'the answer' <(packet 'ERR unknown ref refs/heads/nothing') out
    {
        packet command=fetch
        printf 0001
        packet "want $(git -C served rev-parse main)"
        packet 'deepen-not light' > line
        awk '{ for (i = 0; i < 200000; i++) print }' line
        packet 'done'
        printf 0000
    } > body
    run "$uploading" --stateless-rpc served < body
    expect_status 0
    [ $((SECONDS - begin)) -lt 30 ] || differs "$((SECONDS - begin)) seconds"
}

case_upload_pack_takes_no_more_than_its_limit() {
    fetch "$(git -C history-sha1 rev-parse main)" > body
    {
        head -c -13 body # without `done` and the flush
        awk 'BEGIN { for (i = 0; i < 400000; i++) printf "0032have %040d\n", i }'
        tail -c 13 body
    } > long-body
    run "$uploading" --stateless-rpc history-sha1 < long-body
    expect_status 128
    grep -a -q -x '....ERR TooMuchKept at [0-9]*' out || differs 'the answer' out
}

# No memory is read before it was written, and none is lost.
case_upload_pack_under_valgrind() {
    local id request requests
    configured history-sha1 uploadpack.allowFilter true uploadpack.allowRefInWant true uploadpack.hideRefs refs/heads/alias
    id=$(git -C served rev-parse main)
    requests=("$(prefixes)" "$(prefixes HEAD refs/heads/to)" "$(fetch "$id")" "$(fetch_filtered tree:1 "$id")")
    request=${requests[2]%0009done*}
    requests+=("$request$(packet 'deepen 2'; packet "shallow $(git -C served rev-parse main~1)"; packet 'done')"$'\n'0000)
    requests+=("$request$(packet 'deepen-not light'; packet 'want-ref refs/heads/alone'; packet "have $(git -C served rev-parse light)")"$'\n'0000)
    for request in "${requests[@]}"; do
        under_valgrind bin/upload-pack --stateless-rpc served < <(printf %s "$request")
        expect_status 0
        expect_same 'standard error' /dev/null err
    done
}

# What a client sends gets to the log escaped, also in the messages of Git's programs: no line of it is the client's.
case_upload_pack_escapes_messages() {
    configured history-sha1 uploadpack.allowFilter true
    {
        packet command=fetch
        printf 0001
        packet no-progress
        packet $'filter blob:limit=1\nJan 01 sshd: FORGED \x9b31m'
        packet "want $(git -C served rev-parse main)"
        packet 'done'
        printf 0000
    } > body
    run "$uploading" --stateless-rpc served < body
    [ "$status" != 0 ] || differs 'a filter that means nothing'
    grep -q FORGED err || differs 'no message' err
    ! grep -q -v '^upload-pack: ' err || differs 'a line of the client' err
    ! LC_ALL=C grep -q $'[\x80-\xff\x1b]' err || differs 'a control byte' err
}

case_upload_pack_is_no_shell() {
    local folder='a;touch run-by-a-shell $(touch run-by-a-shell)'
    mkdir -p "$folder"
    git init -q --bare "$folder/it.git"
    run "$uploading" --http-backend-info-refs "$folder/it.git"
    expect_status 0
    [ ! -e run-by-a-shell ] || differs 'a name that was run as a command'
    for folder in --upload-pack=touch -x ''; do
        run "$uploading" "$folder"
        [ "$status" != 0 ] || differs "a folder '$folder'"
        expect_same 'standard output' /dev/null out
    done
    run "$uploading" $'no\x1bwhere'
    expect 128 /dev/null <(printf '%s\n' "fatal: 'no\\x1bwhere' does not appear to be a git repository")
    run "$uploading" 'no\where'
    expect 128 /dev/null <(printf '%s\n' "fatal: 'no\where' does not appear to be a git repository")
}

# A repository's own settings and files are not trusted: no program is started for them, and they lead to no other user's repository.
case_upload_pack_trusts_no_repository() {
    configured history-sha1 uploadpack.packObjectsHook "$room/bin/hooked" core.fsmonitor "$room/bin/hooked" core.pager "$room/bin/hooked" \
        pager.show-ref "$room/bin/hooked" pager.for-each-ref "$room/bin/hooked" alias.cat-file "!$room/bin/hooked"
    printf '%s\n' '#!/bin/sh' "touch '$room/was-hooked'" 'exec "$@"' > bin/hooked
    chmod +x bin/hooked
    uploads served
    uploads served --depth 1
    [ ! -e was-hooked ] || differs 'a program that a repository names'
    git config --global uploadpack.packObjectsHook "$room/bin/hooked"
    uploads served
    git config --global --unset uploadpack.packObjectsHook
    [ -e was-hooked ] || differs 'a program of the owner of this machine that was not started'
    rm -f was-hooked
    [ "$(id -u)" = 0 ] || return 0
    rm -rf other other-file
    cp -r history-sha1 other
    chown -R 65534 other
    fails_to_clone 'it is of another user' other "$uploading"
    git config --global safe.directory "$room/other/.git"
    uploads other
    git config --global --unset safe.directory
    mkdir other-file
    echo "gitdir: $room/history-sha1/.git" > other-file/.git
    uploads other-file
    chown 65534 other-file/.git
    fails_to_clone 'the file that leads to it is of another user' other-file "$uploading"
}
