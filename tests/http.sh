# Cases in which the real Git fetches over HTTP: a web server runs examples/http-backend.sh, which runs our program once for each request.
# The result is compared with what Git gets from itself.

# start_web: a web server for repositories, on a free port. Sets `web`, its address, and leaves a line for each request in the file
# `web.log`: how its body is encoded, and whether it comes in chunks.
start_web() {
    cat > bin/watched-backend << END
#!/bin/sh
echo "\$REQUEST_METHOD \$PATH_INFO \${HTTP_CONTENT_ENCODING:-plain}\${HTTP_TRANSFER_ENCODING:+ chunked}" >> "$room/web.log"
exec "$top/examples/http-backend.sh"
END
    chmod +x bin/watched-backend
    rm -f web.port
    : > web.log
    export no_proxy=127.0.0.1
    GIT_PROJECT_ROOT=$room "$top/tests/cgi_server.py" "$room/bin/watched-backend" web.port > /dev/null 2> web.err &
    server=$!
    trap 'kill -KILL $server 2> /dev/null || true' EXIT
    wait_for web.port
    web=http://127.0.0.1:$(cat web.port)
}

# asked LINE..: that the web server had these requests, and that our program reported no error.
asked() {
    local line
    for line; do
        expect_line 'what the web server was asked' "$line" web.log
    done
    expect_same 'what our program reported' /dev/null web.err
}

# offer_thousands: a repository of 5,001 branches, most of them with names so long that a request for all has more than a mebibyte, the most
# that Git posts at once.
offer_thousands() {
    local id
    [ ! -e thousands.pack ] || return 0
    git init -q -b main thousands
    git -C thousands -c user.name=nobody -c user.email=nobody@example.org commit -q --allow-empty -m nothing
    id=$(git -C thousands rev-parse main)
    {
        echo '# pack-refs with: peeled fully-peeled sorted'
        printf "$id refs/heads/%0200d\n" {1..5000}
    } > thousands/.git/packed-refs
    offer thousands
}

# clones_over_http NAME [OPTION..]: that Git clones the repository, and gets what it gets from Git itself.
clones_over_http() {
    start_web
    clone "$web/$1" ours "${@:2}"
    clone_from_git "$@"
    same_clones
    asked "GET /$1/info/refs plain"
}

case_git_clones_over_http() {
    clones_over_http history-sha1
    has_references 12
    asked 'POST /history-sha1/git-upload-pack plain'
}

case_git_clones_over_http_sha256() {
    clones_over_http history-sha256
    has_references 12
}

case_git_clones_over_http_an_empty_repository() {
    clones_over_http empty-sha1
    expect_line 'what Git reported' 'warning: You appear to have cloned an empty repository.' err
}

case_git_clones_over_http_20_megabytes() {
    clones_over_http heavy --mirror
    has_all heavy
}

case_git_clones_over_http_one_commit() {
    cut_off history-sha1 shallow-web --no-single-branch --depth 1
    start_web
    clone "$web/shallow-web.git" ours --no-single-branch --depth 1
    rm -rf theirs
    git -c protocol.version=2 clone -q --no-single-branch --depth 1 "file://$room/history-sha1" theirs
    same_after_fetch
    sent 'deepen 1'
    [ -s ours/.git/shallow ] || differs 'a history that is not cut off'
    asked 'POST /shallow-web.git/git-upload-pack plain'
}

# Common commits are sent again in each request of a negotiation, since each request has a server of its own.
case_git_fetches_over_http() {
    grow grown-web history-sha1
    start_web
    both history-sha1 --no-tags
    git -C theirs -c protocol.version=2 fetch -q --no-tags "file://$room/grown-web.git" '+refs/heads/*:refs/remotes/origin/*'
    fetch_from "$web/grown-web.git.git" ours --no-tags
    same_after_fetch
    sent "have $(git -C history-sha1 rev-parse main)" 'done'
    asked
}

case_git_lists_over_http() {
    start_web
    cp empty.pack sha1.pack
    ls_remote --symref "$web/sha1"
    lists 315 <(listed --symref < sha1.table)
    asked 'POST /sha1/git-upload-pack plain'
}

# Git compresses a request of more than 1,024 bytes, as this one of many prefixes.
case_git_sends_a_packed_request_over_http() {
    local name wanted=()
    for name in heads/{main,topic,alone,alias} tags/{light,annotated,nested,of-a-file,topical,lonely}; do
        wanted+=("refs/$name:refs/copies/$name")
    done
    start_web
    git init -q --bare packing
    git init -q --bare packing-theirs
    run git -C packing -c protocol.version=2 fetch -q --no-tags "$web/history-sha1" "${wanted[@]}"
    expect 0 /dev/null /dev/null
    git -C packing-theirs fetch -q --no-tags "file://$room/history-sha1" "${wanted[@]}"
    state packing-theirs > wanted
    state packing > written
    expect_same 'what a repository has' wanted written
    asked 'POST /history-sha1/git-upload-pack gzip'
}

# A longer request comes in chunks, after a probe.
case_git_sends_a_request_of_more_than_a_mebibyte_over_http() {
    offer_thousands
    clones_over_http thousands --mirror
    has_references 5001
    asked 'POST /thousands/git-upload-pack plain chunked'
}

case_git_sends_a_packed_request_of_more_than_a_mebibyte_over_http() {
    offer_thousands
    start_web
    clone "$web/thousands" ours --mirror --config http.postBuffer=8388608
    clone_from_git thousands --mirror
    same_clones
    asked 'POST /thousands/git-upload-pack gzip'
}

case_git_reports_over_http_that_a_repository_cannot_be_served() {
    local name
    offer_broken broken
    start_web
    for name in text packless filtered; do
        ls_remote "$web/broken/$name"
        expect_status 128
        expect_line 'what Git reported' "remote: the repository cannot be served: the web server's log has the reason" err
    done
}

case_git_clones_over_http_a_repository_in_a_folder() {
    mkdir -p folder/of
    cp history-sha1.repo folder/of/history.repo
    cp history-sha1.pack folder/of/history.pack
    start_web
    clone "$web/folder/of/history.git" ours
    clone_from_git history-sha1
    same_clones
    asked 'GET /folder/of/history.git/info/refs plain'
}

# Git reports the refusals of our program to its user. Git asks for an object by its name if that is what a fetch names.
case_git_is_told_over_http_why_it_is_refused() {
    local id
    id=$(git -C history-sha1 rev-parse main)
    grep -v '^object ' history-sha1.repo > objectless-web.repo
    cp history-sha1.pack objectless-web.pack
    git init -q --bare lacking-web
    start_web
    run git -C lacking-web -c protocol.version=2 fetch -q "$web/objectless-web" "$id:refs/heads/main"
    expect_status 128
    grep -a -q '^fatal: remote error: NotOurs at [0-9]*$' err || differs 'what Git received' err
    grep -a -q '^git2show: NotOurs at [0-9]*$' web.err || differs 'what our program reported' web.err
    [ -z "$(git -C lacking-web for-each-ref)" ] || differs 'a reference that was refused'
}

case_git_is_told_over_http_that_a_repository_is_not_there() {
    local name
    start_web
    for name in nowhere ..%2fnowhere .hidden folder/nowhere; do
        ls_remote "$web/$name"
        expect_status 128
        expect_line 'what Git reported' 'remote: no such repository' err
    done
}

case_git_of_another_version_is_told_over_http() {
    local version
    start_web
    for version in 0 1; do
        run git -c protocol.version=$version ls-remote "$web/history-sha1"
        expect_status 128
        expect_line 'what Git reported' "remote: version 2 of Git's protocol alone is served here: git -c protocol.version=2" err
    done
}

case_git_cannot_push_over_http() {
    start_web
    run git -C history-sha1 push -q "$web/history-sha1" main
    expect_status 128
    expect_line 'what Git reported' 'remote: fetches alone are served here, by smart HTTP' err
}

# visit_web NUMBER: depending on the number, lists what is served, fetches it into an existing repository, or clones it.
visit_web() {
    address=$web/heavy visit "$1"
}

case_twenty_at_once_over_http() {
    local i clients=()
    rm -rf many
    mkdir many
    git -C heavy rev-parse main > many/wanted
    start_web
    for i in {1..20}; do
        visit_web $i > "many/$i.main" 2> "many/$i.err" &
        clients+=($!)
    done
    for i in {1..20}; do
        wait "${clients[i - 1]}" || differs "visit $i, which failed" "many/$i.err"
        expect_same "what visit $i got" many/wanted "many/$i.main"
    done
    git -C many/6 fsck --full --strict --no-dangling
    git -C many/7 fsck --full --strict --no-dangling
    asked
    rm -rf many
}

# After the words of `--upload-pack` comes the name of the repository, and so it does after those that ssh gets.
case_git_takes_our_program_for_its_own() {
    local words="git2show serve --repo $room/history-sha1.repo --pack $room/history-sha1.pack"
    clone "file://$room/history-sha1" ours --upload-pack "$words"
    clone_from_git history-sha1
    same_clones
    printf '%s\n' '#!/bin/sh' 'while [ $# -gt 1 ]; do shift; done' 'exec sh -c "$1"' > bin/no-ssh
    chmod +x bin/no-ssh
    export GIT_SSH=$room/bin/no-ssh GIT_SSH_VARIANT=simple
    clone nobody@nowhere:what/it-is-called ours --upload-pack "$words"
    same_clones
}
