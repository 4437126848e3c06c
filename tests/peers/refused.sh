# Peers that speak no version 2: what their users read where a server of ours answers.

# write_got SUITE: Got finds its own programs at a place that was built into it, so it runs below its suite's folder as its root. That takes root.
write_got() {
    local root=$cache/$1
    [ "$(id -u)" = 0 ] || return 0
    mkdir -p "$root/dev" "$root/tmp" "$root/proc"
    chmod 1777 "$root/tmp"
    ln -sfn usr/lib "$root/lib"
    ln -sfn usr/lib64 "$root/lib64"
    ln -sfn usr/bin "$root/bin"
    echo 'root:x:0:0:root:/tmp:/bin/sh' > "$root/etc/passwd"
    [ -e "$root/dev/null" ] || mknod -m 666 "$root/dev/null" c 1 3
    [ -e "$root/dev/urandom" ] || mknod -m 666 "$root/dev/urandom" c 1 9
}

# unspoken PEER ADDRESS: a clone by a peer that speaks no version 2. Prints what its user reads.
unspoken() {
    local suite=${1#*-} status=0
    rm -rf unspoken.clone "$cache/$suite/tmp/clone.git"
    case $1 in
    libgit2-*)
        limited "$cache/$suite.bin/python3" -c 'import sys, pygit2; pygit2.clone_repository(sys.argv[1], sys.argv[2])' "$2" unspoken.clone
        ;;
    gogit-*) limited "$cache/$suite.bin/gogit_clone" "$2" unspoken.clone ;;
    got-*) limited env -i HOME=/tmp PATH=/usr/bin:/usr/sbin chroot "$cache/$suite" /usr/bin/got clone -q "$2" /tmp/clone.git ;;
    esac > unspoken.out 2>&1 || status=$?
    if [ $status = 0 ]; then echo 'clones'; else grep -v '^ *$' unspoken.out | tail -n 1; fi
}

# table_of_unspoken PEER..: what each reads, a row for each peer and way.
table_of_unspoken() {
    local peer way
    echo
    echo 'Peers that speak no version 2: what a clone reads'
    echo
    echo '| | From | Git'"'"'s own server | Ours |'
    echo '| --- | --- | --- | --- |'
    for peer; do
        for way in git http; do
            is_tried $way text || continue
            echo "| $(title_of "$peer") | $way | $(unspoken "$peer" "$(address $way theirs history)") | $(unspoken "$peer" "$(address $way text history)") |"
        done
    done
}
