# Cases in which the real Git clones and fetches folders of Git's own over HTTP and from the daemon, which serve them with
# examples/upload-pack.c. The result is compared with what Git gets from itself.

# write_folders: a folder `folders` for a web server, with repositories that may be served and one that may not.
write_folders() {
    local name
    rm -rf folders
    mkdir -p folders/team
    for name in sha1 sha256; do
        git clone -q --mirror "history-$name" "folders/team/$name.git"
        git -C "folders/team/$name.git" config uploadpack.allowFilter true
        : > "folders/team/$name.git/git-daemon-export-ok"
    done
    git clone -q history-sha1 folders/work
    : > folders/work/.git/git-daemon-export-ok
    git clone -q --mirror history-sha1 folders/private.git
}

# from_web NAME [OPTION..]: that Git clones the folder alike from the web server and from itself.
from_web() {
    clone "$web/folders/$1" ours "${@:2}"
    clone_from_git "folders/$1" "${@:2}"
    same_clones
    same_objects
}

case_folders_are_cloned_over_http() {
    write_folders
    start_web
    from_web team/sha1.git
    from_web team/sha256.git --mirror
    from_web work
    from_web team/sha1.git --depth 1
    from_web team/sha1.git --branch topic --single-branch
    clone "$web/folders/team/sha1" ours # without the end of its name
    clone_from_git folders/team/sha1.git
    same_clones
    asked 'POST /folders/team/sha1/git-upload-pack plain'
    ls_remote --symref "$web/folders/team/sha1"
    expect 0 <(git ls-remote --symref folders/team/sha1.git) /dev/null
}

case_folders_are_fetched_from_over_http() {
    write_folders
    grow expanded history-sha1
    mv expanded.git folders/expanded.git
    : > folders/expanded.git/git-daemon-export-ok
    start_web
    both history-sha1 --no-tags
    git -C theirs -c protocol.version=2 fetch -q --no-tags "file://$room/folders/expanded.git" '+refs/heads/*:refs/remotes/origin/*'
    fetch_from "$web/folders/expanded" ours --no-tags
    same_after_fetch
    same_objects
    both history-sha1 --depth 1 --no-single-branch
    git -C theirs -c protocol.version=2 fetch -q --unshallow origin
    git -C ours remote set-url origin "$web/folders/team/sha1"
    run git -C ours -c protocol.version=2 fetch -q --unshallow origin
    same_after_fetch
    asked
}

case_folders_are_cloned_partly_over_http() {
    local name
    write_folders
    start_web
    for name in sha1 sha256; do
        from_web "team/$name.git" --filter=blob:none
        from_web "team/$name.git" --filter=tree:0 --bare
        misses_nothing_more
    done
    from_web team/sha1.git --filter=blob:none
    git -C theirs checkout -q alone
    run git -C ours -c protocol.version=2 checkout -q alone
    expect 0 /dev/null /dev/null
    same_clones
}

# A request of more than 1 MiB, in chunks and compressed.
case_a_folder_with_thousands_of_branches_is_cloned_over_http() {
    write_folders
    offer_thousands
    cp -r thousands folders/thousands
    : > folders/thousands/.git/git-daemon-export-ok
    git -C folders/thousands/ config uploadpack.allowRefInWant true
    start_web
    from_web thousands --mirror
    has_references 5001
    from_web thousands --mirror --config http.postBuffer=8388608
    asked 'POST /folders/thousands/git-upload-pack plain chunked' 'POST /folders/thousands/git-upload-pack gzip'
}

# answered_by LINE NAME [VARIABLE=VALUE..]: that a request for the references of this name is answered by this status.
answered_by() {
    ask_for_advertisement "$2" "${@:3}"
    expect_status 0
    [ "$(head -n 1 out)" = "Status: $1"$'\r' ] || differs "the answer of $2" out
}

case_no_folder_is_served_over_http_that_may_not_be() {
    write_folders
    git -C folders/team/sha256.git config http.uploadpack false
    mkdir folders/broken.git
    : > folders/broken.git/HEAD
    : > folders/broken.git/git-daemon-export-ok
    answered_by '200 OK' folders/team/sha1
    answered_by '200 OK' folders/team/sha1.git
    answered_by '200 OK' folders/work
    answered_by '404 Not Found' folders/private
    answered_by '404 Not Found' folders/work/.git
    answered_by '404 Not Found' folders/team
    answered_by '404 Not Found' folders/team/sha1.git/refs
    answered_by '403 Forbidden' folders/team/sha256
    answered_by '200 OK' folders/private GIT_HTTP_EXPORT_ALL=
    answered_by '500 Internal Server Error' folders/broken
    tail -n 1 err | grep -q -x -F \
        "http-backend.sh: cannot serve $room/folders/broken.git: upload-pack ended with status 128, nothing was written" ||
        differs 'what is reported' err
    [ "$(id -u)" = 0 ] || return 0
    chown -R 65534 folders/work
    answered_by '500 Internal Server Error' folders/work
}

# start_folder_daemon FOLDER: the daemon over a folder of Git's own.
start_folder_daemon() {
    mkdir -p uploading
    ln -sf ../bin/upload-pack-watched uploading/upload-pack
    folder=$1 start_daemon none bash -c 'PATH=$PWD/uploading:$PATH exec daemon-watched "$1" "$2" "$3" "$4" "$PWD/$folder"' daemon
}

# from_daemon NAME [OPTION..]: that Git clones the folder alike from the daemon and from itself.
from_daemon() {
    clone "$address" ours "${@:2}"
    clone_from_git "$@"
    same_clones
    same_objects
}

case_a_daemon_in_c_serves_a_folder() {
    write_folders
    start_folder_daemon folders/team/sha1.git
    from_daemon folders/team/sha1.git
    from_daemon folders/team/sha1.git --mirror
    from_daemon folders/team/sha1.git --depth 1
    from_daemon folders/team/sha1.git --filter=blob:none
    both history-sha1 --depth 1 --no-single-branch
    git -C theirs -c protocol.version=2 fetch -q --unshallow origin
    git -C ours remote set-url origin "$address"
    run git -C ours -c protocol.version=2 fetch -q --unshallow origin
    same_after_fetch
    refuses 'nothing but the fetch side of one repository is served here' "$(greeting there version=2)"
    refuses 'nothing but version 2 of the protocol is served here' "$(greeting here version=1)"
    refuses 'BadDigit at 0' zzzz
    end_daemon
}

# Its parent may ignore the signal that reports the end of a process: the place of each client gets free all the same.
case_a_daemon_in_c_frees_places_whatever_it_inherits() {
    local count
    write_folders
    mkdir -p uploading
    ln -sf ../bin/upload-pack uploading/upload-pack
    start_daemon none bash -c 'trap "" CHLD; PATH=$PWD/uploading:$PATH exec daemon "$1" "$2" "$3" "$4" "$PWD/folders/team/sha1.git"' daemon
    for ((count = 0; count < 140; count++)); do
        git -c protocol.version=2 ls-remote "$address" refs/heads/main > out 2> err || break
    done
    [ $count = 140 ] || differs "no answer after $count clients" err
    end_daemon
}

case_a_daemon_in_c_serves_a_folder_of_sha256() {
    write_folders
    start_folder_daemon folders/team/sha256.git
    from_daemon folders/team/sha256.git
    end_daemon
    expect_same 'what the daemon reported' /dev/null daemon.err
}

# What a client sends with its greeting reaches the process that answers, and that process closes a client that takes too long.
case_a_daemon_in_c_hands_all_over_that_a_client_sends() {
    local line
    patience=2
    write_folders
    start_folder_daemon folders/team/sha1.git
    { printf "$(greeting here version=2)" && request 'ref-prefix refs/heads/topic' && printf 0000; } > asked
    says
    cat asked >&5
    hears_to_the_end answer
    git -C folders/team/sha1.git for-each-ref --format='%(objectname) %(refname)' refs/heads/topic | while read -r line; do packet "$line"; done > wanted
    printf 0000 >> wanted
    expect_same 'the answer' wanted <(tail -c "$(wc -c < wanted)" answer)
    says "$(greeting here version=2)"
    limited cat <&5 > answer || true
    exec 5>&-
    daemon_told 'daemon: upload-pack ended with status 142'
    end_daemon
}

# Twenty at once; and when the daemon ends, its processes end.
case_a_daemon_in_c_serves_a_folder_to_twenty_at_once() {
    local i clients=() child
    rm -rf many
    mkdir many
    git -C heavy rev-parse main > many/wanted
    start_folder_daemon heavy/.git
    for i in {1..20}; do
        visit $i > "many/$i.main" 2> "many/$i.err" &
        clients+=($!)
    done
    for i in {1..20}; do
        wait "${clients[i - 1]}" || differs "visit $i, which failed" "many/$i.err"
        expect_same "what visit $i got" many/wanted "many/$i.main"
    done
    says "$(greeting here version=2)"
    fetch "$(git -C heavy rev-parse main)" >&5
    child=$(descendant pack-objects heavy/.git) || differs 'no git pack-objects'
    end_daemon
    limited sh -c "while kill -0 $child 2> /dev/null; do sleep 0.1; done" || differs 'a git pack-objects that goes on'
    exec 5>&-
    rm -rf many
}
