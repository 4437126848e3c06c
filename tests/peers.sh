#!/usr/bin/env bash
# Other implementations of Git's protocol, of Debian's registry, as clients and servers of ours; no part of what a merge waits for:
#
#     tests/peers.sh PROGRAM LIBRARY [PEER..]
#
# PROGRAM is the built `git2show`, and LIBRARY the static library, with which c/gitwire.c is linked; if LIBRARY is empty, `serve`, `fetch` and `check`
# alone are tried. The peers are unpacked into the folder of PEERS, once, and installed nowhere. A PEER is one of those of `all` below; without one all
# are tried. Prints tables, whose words docs/PEERS.md explains; the status is 1 if a cell is not as it may be. If KEEP is set, the working folder
# stays. It is made in TMPDIR: in memory all goes faster.
# CASES, if set, is an extended regular expression of the clients' cases to be run, and LIMIT how many seconds each has, 30 without it.
set -eu -o pipefail
shopt -s inherit_errexit
export LC_ALL=C.UTF-8 TZ=UTC

top=$(cd "$(dirname "$0")/.." && pwd)
cache=${PEERS:-/var/tmp/gitwire-peers}
all=(git-bookworm git-trixie git-sid dulwich-trixie dulwich-sid jgit-trixie gitoxide-trixie gitoxide-sid gogit-trixie gogit-sid libgit2-trixie
    libgit2-sid got-trixie got-sid)

stop() {
    echo "tests/peers.sh: $*" >&2
    exit 1
}

program=$(realpath "$1")
library=${2:+$(realpath "$2")}
shift 2
peers=("$@")
[ $# -gt 0 ] || peers=("${all[@]}")
mkdir -p "$cache"

. "$top/tests/clones.sh" # for write_history
for part in get built serving clients asked watched refused; do
    . "$top/tests/peers/$part.sh"
done

get trixie git python3-dulwich libjgit-java jgit-cli got python3-pygit2
get sid git python3-dulwich got python3-pygit2
for suite in trixie sid; do
    if [ ! "$cache/$suite.wrapped" -nt "$top/tests/peers/get.sh" ] || [ "$cache/$suite.done" -nt "$cache/$suite.wrapped" ]; then
        wrap_git $suite
        wrap_python $suite
        touch "$cache/$suite.wrapped"
    fi
done
build_jgit
for peer in "${peers[@]}"; do
    case $peer in
    gitoxide-*) build_gitoxide "${peer#*-}" ;;
    gogit-*) build_gogit "${peer#*-}" ;;
    esac
done

room=$(mktemp -d "${TMPDIR:-/tmp}/gitwire-peers.XXXXXX")
trap 'end_started; [ -n "${KEEP:-}" ] || rm -rf "$room"' EXIT
cd "$room"
mkdir bin home out
system_path=$PATH
unset "${!GIT_@}" "${!MAKE@}" MFLAGS XDG_CONFIG_HOME
export HOME=$room/home GIT_CONFIG_NOSYSTEM=1 GIT_CEILING_DIRECTORIES=${room%/*} no_proxy=127.0.0.1 PATH=$room/bin:$PATH
git config --global user.name nobody
git config --global user.email nobody@example.org
git config --global init.defaultBranch main
git config --global maintenance.auto false
git config --global gc.auto 0
ln -s "$program" bin/git2show
for name in ${library:+daemon upload-pack watch}; do
    gcc -std=gnu11 -O2 -I "$top/include" -o bin/$name "$top/examples/$name.c" "$top/c/gitwire.c" "$library"
done

# title_of PEER: its name and version.
title_of() {
    case $1 in
    git-bookworm) git --version | sed 's/git version/Git/' ;;
    git-*) echo "Git $(version_of "${1#*-}" git)" ;;
    dulwich-*) echo "dulwich $(version_of "${1#*-}" python3-dulwich)" ;;
    jgit-*) echo "JGit $(version_of "${1#*-}" libjgit-java)" ;;
    gitoxide-*) echo "gitoxide $(version_of "${1#*-}-crates" librust-gix-dev)" ;;
    gogit-*) echo "go-git $(version_of "${1#*-}-go" golang-github-go-git-go-git-dev)" ;;
    got-*) echo "Got $(version_of "${1#*-}" got)" ;;
    libgit2-*) echo "libgit2 $("$cache/${1#*-}.bin/python3" -c 'import pygit2; print(pygit2.LIBGIT2_VERSION)')" ;;
    esac
}

# chosen PATTERN: those of the peers to be tried whose names begin so.
chosen() {
    printf '%s\n' "${peers[@]}" | grep -E "^($1)-" || true
}

mapfile -t cases < <(printf '%s\n' "${cases[@]}" | grep -E "^(${CASES:-.*}) ")
bad=0
write_served
write_extras
write_ssh
write_watcher
start_servers
for peer in $(chosen 'git|dulwich|jgit|gitoxide'); do
    echo "trying $peer as a client" >&2
    try_peer "$peer"
done
for peer in $(chosen 'git|dulwich|jgit'); do
    echo "trying $peer as a server" >&2
    ask_peer "$peer"
done
mapfile -t asked < <(chosen 'git|dulwich|jgit')
[ ${#asked[@]} = 0 ] || table_of_servers "${asked[@]}"
mapfile -t gits < <(chosen git)
for peer in "${gits[@]}"; do
    echo "watching $peer" >&2
    watch_peer "$peer"
done
[ ${#gits[@]} = 0 ] || table_of_watched "${gits[@]}"
mapfile -t unable < <(chosen 'gogit|libgit2|got')
for suite in trixie sid; do
    write_got $suite
done
[ ${#unable[@]} = 0 ] || table_of_unspoken "${unable[@]}"
echo
echo "$bad cells are not as they may be"
[ $bad = 0 ]
