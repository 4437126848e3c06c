# The repositories that the peers fetch, and the servers of them: Git's own and ours, over a command like ssh, git:// and HTTP.

# write_served: folders of Git's own in `folders`, NAME.git, and the same as texts and packs in `texts`.
write_served() {
    local name i id
    mkdir -p folders texts
    for name in history:sha1 sha256:sha256; do
        write_history ${name%:*} ${name#*:}
        (cd ${name%:*} && for i in {1..6}; do commit_file third "another $i"; done)
    done
    git init -q -b main empty
    git init -q -b main many
    git -C many commit -q --allow-empty -m nothing
    id=$(git -C many rev-parse main)
    for ((i = 0; i < 4500; i++)); do
        echo "create refs/heads/topic/$i $id"
    done | git -C many update-ref --stdin
    for name in history sha256 empty many; do
        git clone -q --mirror "$name" "folders/$name.git" 2> /dev/null
    done
    write_grown
    for name in folders/*.git; do
        git -C "$name" config uploadpack.allowFilter true
        offer "$name" texts
    done
    # The same with a pack whose deltas name their bases by object names, as `git pack-objects` writes it by itself.
    ln -s history.git folders/named.git
    cp texts/history.repo texts/named.repo
    git -C history pack-objects -q --all --stdout < /dev/null > texts/named.pack
    # What a client fetches that has a part of the history, or wants a part alone: a folder serves that as it is, a text only if it has those lines.
    for name in partial cut deeper rest; do
        ln -s history.git "folders/$name.git"
    done
    cp texts/history.repo texts/partial.repo
    cp texts/history.pack texts/partial.pack
    git -C history pack-objects -q --delta-base-offset --all --revs --stdout --filter=blob:none --missing=allow-any < /dev/null > texts/partial.filtered
}

# write_grown: the history with further commits and tags.
write_grown() {
    git clone -q --mirror history folders/grown.git
    git clone -q folders/grown.git grown
    (
        cd grown
        commit_file fifth five
        git tag -a -m later later
        commit_file first again
        git push -q origin main later
        git checkout -q -b fresh origin/topic
        commit_file sixth six
        git push -q origin fresh
    )
}

# offer FOLDER TEXTS: the text and the pack of a folder, by its name.
offer() {
    local name=${1##*/}
    name=$2/${name%.git}
    (cd "$1" && "$top/sample/repository-text.sh") > "$name.repo"
    git -C "$1" pack-objects -q --delta-base-offset --all --stdout < /dev/null > "$name.pack"
}

# cut_as NAME CLONE [OLD]: the text and the pack of a clone whose history is cut off, so that it is served to a client that asks for that. OLD is the
# clone that the client has.
cut_as() {
    local id
    {
        cat texts/history.repo
        sort -u "$2/.git/shallow" 2> /dev/null | sed 's/^/shallow /' || true
        if [ $# = 3 ]; then
            comm -23 <(sort -u "$3/.git/shallow" 2> /dev/null) <(sort -u "$2/.git/shallow" 2> /dev/null) | sed 's/^/unshallow /'
        fi
    } > "texts/$1.repo"
    git -C "$2" pack-objects -q --delta-base-offset --all --stdout < /dev/null > "texts/$1.pack"
}

# write_ssh: a command in the place of ssh, which runs a server here. The host in the address names which one: `theirs` is Git's own, `text` and `folder`
# are ours.
write_ssh() {
    cat > bin/ssh-here << END
#!/bin/bash
while [[ \$1 = -* ]]; do
    case \${2:-} in
    'SetEnv GIT_PROTOCOL='*) export GIT_PROTOCOL=\${2#SetEnv GIT_PROTOCOL=} ;;
    esac
    case \$1 in
    -o | -p | -i) shift ;;
    esac
    shift
done
host=\$1
shift
# gitoxide gives the command and the repository as two words.
name=\$*
name=\${name#*/}
name=\${name%\'}
name=\${name%.git}
# These are of the client's Git.
unset GIT_EXEC_PATH GIT_TEMPLATE_DIR
PATH=$room/bin:$system_path
case \${host#*@} in
theirs) exec git upload-pack "$room/folders/\$name.git" ;;
folder) exec upload-pack --strict "$room/folders/\$name.git" ;;
text)
    filtered=()
    [ ! -e "$room/texts/\$name.filtered" ] || filtered=(--filtered "$room/texts/\$name.filtered")
    exec git2show serve --repo "$room/texts/\$name.repo" --pack "$room/texts/\$name.pack" "\${filtered[@]}"
    ;;
esac
END
    chmod 755 bin/ssh-here
    export GIT_SSH=$room/bin/ssh-here GIT_SSH_COMMAND=$room/bin/ssh-here GIT_SSH_VARIANT=ssh
}

# started: the processes that have to be ended, all of them started here.
started=()

end_started() {
    [ ${#started[@]} = 0 ] || kill "${started[@]}" 2> /dev/null || true
    started=()
}

# wait_for FILE: until it is there and not empty, for a quarter of a minute.
wait_for() {
    local i
    for ((i = 0; i < 150; i++)); do
        [ ! -s "$1" ] || return 0
        sleep 0.1
    done
    stop "no $1 after 15 seconds"
}

# start_daemon KIND NAME: our daemon of one repository. A file of `addresses` has its address.
start_daemon() {
    local served=("folders/$2.git")
    if [ "$1" = text ]; then
        served=("texts/$2.repo" "texts/$2.pack")
        [ ! -e "texts/$2.filtered" ] || served+=("texts/$2.filtered")
    fi
    rm -f "addresses/$1-$2"
    daemon 127.0.0.1 0 60 "$2" "${served[@]}" > "addresses/$1-$2" 2>> daemon.err &
    started+=($!)
    wait_for "addresses/$1-$2"
}

# start_git_daemon: Git's own, for all folders.
start_git_daemon() {
    local port i
    for ((i = 0; i < 20; i++)); do
        port=$((20000 + RANDOM % 20000))
        git daemon --listen=127.0.0.1 --port=$port --export-all --base-path="$room/folders" "$room/folders" 2>> git-daemon.err &
        sleep 0.5
        if kill -0 $! 2> /dev/null; then
            started+=($!)
            echo "git://127.0.0.1:$port" > addresses/theirs
            return
        fi
    done
    stop "git daemon found no port"
}

# start_web KIND FOLDER SCRIPT: a web server of a folder.
start_web() {
    GIT_PROJECT_ROOT=$room/$2 GIT_HTTP_EXPORT_ALL=1 "$top/tests/cgi_server.py" "$3" "addresses/web-$1.port" > /dev/null 2>> "web-$1.err" &
    started+=($!)
    wait_for "addresses/web-$1.port"
    echo "http://127.0.0.1:$(cat "addresses/web-$1.port")" > "addresses/web-$1"
}

start_servers() {
    local name
    mkdir -p addresses
    start_git_daemon
    printf '#!/bin/sh\nexec git http-backend\n' > bin/their-backend
    chmod 755 bin/their-backend
    start_web theirs folders "$room/bin/their-backend"
    start_web text texts "$top/examples/http-backend.sh"
    [ -n "$library" ] || return 0
    start_web folder folders "$top/examples/http-backend.sh"
    for name in folders/*.git; do
        name=${name##*/}
        name=${name%.git}
        start_daemon folder "$name"
        [ ! -e "texts/$name.repo" ] || start_daemon text "$name"
    done
}

# address WAY KIND NAME: where a client finds a repository.
address() {
    case $1-$2 in
    pipe-*) echo "ssh://$2/$3" ;;
    git-theirs) echo "$(cat addresses/theirs)/$3.git" ;;
    git-*) cat "addresses/$2-$3" ;;
    http-theirs | http-folder) echo "$(cat "addresses/web-$2")/$3.git" ;;
    http-text) echo "$(cat addresses/web-text)/$3" ;;
    esac
}
