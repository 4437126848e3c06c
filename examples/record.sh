#!/bin/sh
# Records what the real Git's client and server send each other: what the client sends in the file REQUESTS, and what the server sends in
# RESPONSES. The other words are those of a command of git: clone, fetch or ls-remote.
#
#     examples/record.sh REQUESTS RESPONSES clone REPOSITORY COPY
#     git2show check REQUESTS RESPONSES
#     git2show show --pretty < RESPONSES
#
# REPOSITORY is a folder, or an address of ssh, git:// or HTTP, or the name of a remote. Of HTTP it records what Git's helper gives to Git, where
# each response ends with a response-end packet: `git2show check --stateless`. It leaves out the greeting of git://. Where Git connects more
# than once, the last conversation is left. It takes bash for git://, and GNU's sed for HTTP.
set -eu

# pass COMMAND [WORD..]: runs it between two recorders. Where it ends first, the client's connection ends too.
pass() {
    rm -f "$requests.pipe"
    mkfifo "$requests.pipe"
    exec 4<&0
    tee "$requests" <&4 > "$requests.pipe" &
    "$@" < "$requests.pipe" | tee "$responses"
    rm "$requests.pipe"
    for _ in 1 2 3 4 5 6 7 8 9 10; do
        kill -0 $! 2> /dev/null || exit 0
        sleep 0.1
    done
    kill $!
}

# connected HOST PORT: passes on what comes, until both sides have ended, or a second after one has.
# shellcheck disable=SC2016
connected='exec 3<> "/dev/tcp/$1/$2" || exit 1
exec 4<&0
cat <&3 &
cat <&4 >&3 &
wait -n
for _ in {1..10}; do
    [ -n "$(jobs -r)" ] || exit 0
    sleep 0.1
done
kill $(jobs -p)'

# Git runs this file again, with a command, or as its proxy for git:// with a host and a port.
case ${recorder:+$1} in
'') ;;
pass) shift; pass "$@"; exit ;;
*) pass bash -c "$connected" proxy "$1" "$2"; exit ;;
esac

[ $# -ge 3 ] || {
    echo "usage: $0 REQUESTS RESPONSES COMMAND [WORD..]" >&2
    exit 2
}
# Git runs the server in its own folder.
case $1 in /*) requests=$1 ;; *) requests=$PWD/$1 ;; esac
case $2 in /*) responses=$2 ;; *) responses=$PWD/$2 ;; esac
case $0 in /*) recorder=$0 ;; *) recorder=$PWD/$0 ;; esac
command=$3
shift 3
rm -f "$requests" "$responses"

# is_remote [NAME]: whether this is an address of another machine, or the name of a remote there. Without a name, it is that of the branch.
is_remote() {
    case $(git ls-remote --get-url "$@") in
    file://*) return 1 ;;
    *://*) return 0 ;;
    */*:*) return 1 ;;
    *:*) return 0 ;;
    *) return 1 ;;
    esac
}

remote=unnamed
for word; do
    case $word in
    -*) ;;
    *) if is_remote "$word"; then remote=yes; elif [ $remote = unnamed ]; then remote=no; fi ;;
    esac
done
if [ $remote = unnamed ] && is_remote; then remote=yes; fi
# Here, Git runs the server by these words, and copies a repository that it finds by its path, unless it may not.
# shellcheck disable=SC2016
if [ $remote != yes ]; then
    set -- --upload-pack='"$recorder" pass git-upload-pack' "$@"
    [ "$command" != clone ] || set -- --no-local "$@"
fi
# Over ssh, it runs what it would run, between the recorders. Over HTTP, the rewritten address names a helper
# `record`, which is its own between them.
ssh=${GIT_SSH_COMMAND:-$(git config core.sshCommand || echo "'${GIT_SSH:-ssh}'")}
export requests responses recorder GIT_SSH_COMMAND="\"\$recorder\" pass $ssh" GIT_SSH_VARIANT="${GIT_SSH_VARIANT:-ssh}"
status=0
# shellcheck disable=SC2016
git -c protocol.version=2 -c core.gitProxy="$recorder" -c protocol.record.allow=always -c url.record::http.insteadOf=http \
    -c alias.remote-record='!"$recorder" pass git remote-http' "$command" "$@" || status=$?

# What comes before the protocol: a greeting of one packet, or lines of Git for its helper, and of that up to the second empty one.
case $(head -c 20 "$requests" 2> /dev/null | tr -d '\0') in
????git-upload-pack*) tail -c +$((0x$(head -c 4 "$requests") + 1)) "$requests" > "$requests.rest" ;;
capabilities*)
    LC_ALL=C sed '0,/^stateless-connect /d' "$requests" > "$requests.rest"
    LC_ALL=C sed '0,/^$/d' "$responses" | LC_ALL=C sed '0,/^$/d' > "$responses.rest"
    mv "$responses.rest" "$responses"
    ;;
esac
[ ! -e "$requests.rest" ] || mv "$requests.rest" "$requests"
exit $status
