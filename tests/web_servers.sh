# Cases in which the real Git fetches over HTTP from nginx, Apache and lighttpd, if they are installed. Each runs with its block of
# docs/HOSTING.md. The result is compared with what Git gets from itself.

# The paths of the blocks below `/usr/local/`, `/srv/`, `/run/` and `/var/log/` are below this folder here.
site=$room/site

# build_site: a folder for one web server, with the program, the script and the repositories. If root runs the tests, the server has rights
# to this folder only, since Apache does not serve as root.
build_site() {
    local backend=$site/share/doc/gitwire/examples/http-backend.sh name
    offer_thousands
    grep -v '^object ' history-sha1.repo > objectless.repo
    cp history-sha1.pack objectless.pack
    rm -rf "$site"
    mkdir -p "$site"/{bin,git/folder,lighttpd,temporary} "${backend%/*}"
    cp "$(realpath bin/git2show)" "$site/bin/git2show"
    cp bin/upload-pack "$site/bin"
    git clone -q --mirror history-sha1 "$site/git/folder/own.git"
    git -C "$site/git/folder/own.git" config uploadpack.allowFilter true
    : > "$site/git/folder/own.git/git-daemon-export-ok"
    cp "$top/examples/http-backend.sh" "$site/bin"
    # lighttpd does not pass PATH on.
    printf '%s\n' '#!/bin/sh' "export PATH='$site/bin':\$PATH" 'exec http-backend.sh' > "$backend"
    chmod +x "$backend"
    for name in history-sha1 heavy thousands objectless; do
        cp -l "$name.repo" "$name.pack" "$site/git/folder"
    done
    offer_broken "$site/git/broken"
    chmod -R a+rX "$site"
    unprivileged=()
    [ "$(id -u)" != 0 ] || {
        chmod a+x "$room"
        chown 65534:65534 "$site" "$site"/{lighttpd,temporary}
        chown -R 65534:65534 "$site/git/folder/own.git"
        unprivileged=(setpriv --reuid=65534 --regid=65534 --clear-groups)
    }
}

# page_block LINE: the block of docs/HOSTING.md that begins with this line, with the folders of this site.
page_block() {
    awk -v first="    $1" '$0 == first { inside = 1 } inside && !/^    / { exit } inside' "$top/docs/HOSTING.md" > page-block
    [ -s page-block ] || differs "no block of docs/HOSTING.md begins with '$1'" >&2
    sed -E "s,/(usr/local|srv|run|var/log)/,$site/,g" page-block
}

# start_server PROGRAM [WORD..]: starts a program that runs until the case ends, and for at most two minutes.
servers=()
start_server() {
    timeout -k 5 120 "${unprivileged[@]}" "$@" > "$site/$1.out" 2>&1 &
    servers+=($!)
    trap 'kill "${servers[@]}" 2> /dev/null; wait "${servers[@]}" || true' EXIT
}

# choose_port: sets `port` to a free one, and `web` to the address below which the blocks serve.
choose_port() {
    port=$(python3 -c 'import socket; s = socket.socket(); s.bind(("127.0.0.1", 0)); print(s.getsockname()[1])')
    web=http://127.0.0.1:$port/git
    export no_proxy=127.0.0.1
}

# wait_for_port: until a server listens on the port, for at most half a minute.
wait_for_port() {
    local i
    for ((i = 0; i < 300; i++)); do
        ! (: > "/dev/tcp/127.0.0.1/$port") 2> /dev/null || return 0
        sleep 0.1
    done
    tail -n 20 "$site"/*.out "$site/log" > not-started || true
    differs 'a web server that did not start' not-started
}

start_nginx() {
    local kind
    build_site
    choose_port
    cp /etc/nginx/fastcgi_params "$site"
    {
        printf '%s\n' 'daemon off;' "pid $site/nginx.pid;" 'events {}' 'http {' 'access_log off;'
        for kind in client_body proxy fastcgi uwsgi scgi; do
            echo "${kind}_temp_path $site/temporary/$kind;"
        done
        printf '%s\n' 'server {' "listen 127.0.0.1:$port;"
        page_block 'location ~ ^/git(/.*)$ {'
        printf '%s\n' '}' '}'
    } > "$site/nginx.conf"
    # Debian starts it with this option too, so that the script's errors reach nginx.
    start_server fcgiwrap -f -s "unix:$site/fcgiwrap.socket"
    start_server nginx -e "$site/log" -c "$site/nginx.conf"
    wait_for_port
}

start_apache() {
    local module
    build_site
    choose_port
    {
        for module in mpm_event authz_core alias env cgid; do
            echo "LoadModule ${module}_module /usr/lib/apache2/modules/mod_$module.so"
        done
        printf '%s\n' "ServerRoot $site" "DefaultRuntimeDir $site" "PidFile $site/apache.pid" "ScriptSock $site/cgid.socket" \
            "ErrorLog $site/log" 'ServerName localhost' "Listen 127.0.0.1:$port"
        page_block 'SetEnv GIT_PROJECT_ROOT /srv/git'
    } > "$site/apache.conf"
    start_server apache2 -D FOREGROUND -f "$site/apache.conf"
    wait_for_port
}

start_lighttpd() {
    build_site
    choose_port
    {
        printf '%s\n' "server.document-root = \"$site/temporary\"" "server.upload-dirs = ( \"$site/temporary\" )" \
            "server.errorlog = \"$site/log\"" 'server.bind = "127.0.0.1"' "server.port = $port"
        page_block 'server.modules += ( "mod_alias", "mod_cgi", "mod_setenv" )'
    } > "$site/lighttpd.conf"
    start_server lighttpd -D -f "$site/lighttpd.conf"
    wait_for_port
}

# serves_git LOG: that Git fetches from the web server as from itself, whatever the lengths, and that an error is reported to it and in the
# server's log.
serves_git() {
    serves_packs
    serves_long_requests
    serves_compressed_chunks
    reports_refusals "$1"
}

# serves_packs: a clone, one with a pack of 20 megabytes, and two of a folder of Git's own.
serves_packs() {
    clone "$web/folder/history-sha1" ours
    clone_from_git history-sha1
    same_clones
    clone "$web/folder/heavy.git" ours --mirror
    expect 0 /dev/null /dev/null
    has_all heavy
    clone "$web/folder/own" ours --mirror
    expect 0 /dev/null /dev/null
    has_all history-sha1
    configured history-sha1 uploadpack.allowFilter true
    clone "$web/folder/own.git" ours --filter=blob:none
    clone_from_git served --filter=blob:none
    same_clones
    same_objects
}

# serves_long_requests: clones whose requests have more than a mebibyte, in chunks and compressed.
serves_long_requests() {
    clone_from_git thousands --mirror
    export GIT_TRACE_CURL=$room/headers GIT_TRACE_CURL_NO_DATA=1
    rm -f headers
    clone "$web/folder/thousands" ours --mirror
    same_clones
    grep -q -x -i '.*=> Send header: Transfer-Encoding: chunked' headers || differs 'no request in chunks' headers
    rm -f headers
    clone "$web/folder/thousands" ours --mirror --config http.postBuffer=8388608
    same_clones
    grep -q -x -i '.*=> Send header: Content-Encoding: gzip' headers || differs 'no compressed request' headers
    unset GIT_TRACE_CURL GIT_TRACE_CURL_NO_DATA
}

# serves_compressed_chunks: that a compressed request of more than a mebibyte is answered that comes in chunks, once the server lets it
# continue. Only the last of its prefixes is that of a reference.
serves_compressed_chunks() {
    local chunk line=
    {
        packet command=ls-refs
        printf 0001
        od -A n -t x1 -v -w100 -N 1200000 /dev/urandom | tr -d ' ' | sed 's,^,00e3ref-prefix refs/heads/,'
        packet 'ref-prefix refs/heads/main'
        printf 0000
    } | gzip > long-request
    [ "$(wc -c < long-request)" -gt 1048576 ] || differs "the case's own request, of $(wc -c < long-request) bytes"
    exec 5<> "/dev/tcp/127.0.0.1/$port"
    printf '%s\r\n' 'POST /git/folder/history-sha1/git-upload-pack HTTP/1.1' 'Host: localhost' 'Connection: close' \
        'Content-Type: application/x-git-upload-pack-request' 'Git-Protocol: version=2' 'Content-Encoding: gzip' \
        'Transfer-Encoding: chunked' 'Expect: 100-continue' '' >&5
    read -r -t 30 line <&5 || true
    [ "$line" = $'HTTP/1.1 100 Continue\r' ] || differs "a request that may not go on: $line"
    rm -f chunk-*
    split -b 300000 long-request chunk-
    for chunk in chunk-*; do
        printf '%x\r\n' "$(wc -c < "$chunk")"
        cat "$chunk"
        printf '\r\n'
    done >&5
    printf '0\r\n\r\n' >&5
    limited cat <&5 > out
    exec 5>&-
    expect_line 'the answer' $'HTTP/1.1 200 OK\r' out
    grep -a -q -F "$(git -C history-sha1 rev-parse main) refs/heads/main" out || differs 'the answer' out
}

# refuses_long STATUS PATH: that a body of 3 MB posted there is answered with this status.
refuses_long() {
    exec 5<> "/dev/tcp/127.0.0.1/$port"
    {
        printf '%s\r\n' "POST /git/$2 HTTP/1.1" 'Host: localhost' 'Connection: close' 'Git-Protocol: version=2' \
            'Content-Type: application/x-git-upload-pack-request' 'Content-Length: 3000000' ''
        head -c 3000000 /dev/zero
    } >&5
    limited cat <&5 > out
    exec 5>&-
    expect_line "the answer to a long body at $2" "HTTP/1.1 $1"$'\r' out
}

# reports_refusals LOG: a name that does not exist, one that cannot be served, another version, and the end of a long request that is
# refused at its beginning.
reports_refusals() {
    refuses_long '404 Not Found' nowhere/git-upload-pack
    refuses_long '403 Forbidden' folder/history-sha1/git-receive-pack
    ls_remote "$web/folder/nowhere"
    expect_line 'what Git reported' 'remote: no such repository' err
    ls_remote "$web/broken/text"
    expect_line 'what Git reported' "remote: the repository cannot be served: the web server's log has the reason" err
    grep -q -F "http-backend.sh: cannot serve $site/git/broken/text.repo: " "$1" || differs "the server's log" "$1"
    run git -c protocol.version=0 ls-remote "$web/folder/history-sha1"
    expect_line 'what Git reported' "remote: version 2 of Git's protocol alone is served here: git -c protocol.version=2" err
    git init -q --bare refused-web
    printf '%040d\n' {1..5000} > unknown
    run xargs -a unknown git -C refused-web -c protocol.version=2 -c http.postBuffer=65536 fetch -q "$web/folder/objectless"
    grep -a -q '^fatal: remote error: NotOurs at [0-9]*' err || differs 'what Git received' err
}

case_git_fetches_from_nginx() {
    command -v nginx > /dev/null && command -v fcgiwrap > /dev/null || return 0
    start_nginx
    serves_git "$site/log"
}

case_git_fetches_from_apache() {
    command -v apache2 > /dev/null || return 0
    start_apache
    serves_git "$site/log"
}

case_git_fetches_from_lighttpd() {
    command -v lighttpd > /dev/null || return 0
    start_lighttpd
    serves_git "$site/lighttpd/breakage.log"
}
