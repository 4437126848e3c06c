#!/usr/bin/env bash
# Tests the built program `git2show` from outside: as the real Git calls it (real_git.sh, clones.sh, partial_clones.sh and fetches.sh), over
# HTTP (http_backend.sh, http.sh and web_servers.sh), and by hand (program.sh, and showing.sh for `show`); our client with the real Git
# (asking.sh); what both sides of the real Git send, as `check` and a program in C judge it (recorded.sh); both of our sides against each other (playing.sh);
# the library for programs in C, as the examples use it (library.sh), one of them in the place of `git upload-pack` (upload_packs.sh,
# upload_pack_faults.sh, and folders.sh behind the others), one as a daemon (daemon.sh), and one between both sides of the real Git
# (watching.sh); a daemon and `serve` after a thousand malicious clients (soak.sh); and the pages of this repository, compared with what they
# describe (pages.sh).
#
#     tests/run.sh [PROGRAM [LIBRARY]]
#
# PROGRAM is the program to test, and LIBRARY the static library; without them, those that the gate, `make program` and `make library` left
# in this repository, which are built first if they are missing or older than a source. CASES, if set, is an extended regular expression:
# only the cases whose names it matches are run, as `CASES=over_http tests/run.sh`. If there is no git, no C compiler or no valgrind,
# Debian's package is installed; if another tool is missing, it is reported, and the cases that need it are skipped. Each failed case is
# reported as it fails; the last line is 'N passed, N failed', and the status is 1 if one failed.
set -eu -o pipefail
shopt -s inherit_errexit
export LC_ALL=C TZ=UTC

top=$(cd "$(dirname "$0")/.." && pwd)

stop() {
    echo "tests/run.sh: $*" >&2
    echo '0 passed, 1 failed'
    exit 1
}

# install_packages NAME..: Debian's packages of these names.
install_packages() {
    export DEBIAN_FRONTEND=noninteractive
    timeout 600 apt-get update >&2 && timeout 600 apt-get install -y "$@" < /dev/null >&2
}

is_current() {
    [ -f "$1" ] && [ -z "$(find "$top"/crates/*/src -name '*.rt' -newer "$1" -print -quit)" ]
}

# built_program: prints the path of the program, which `make program` builds if it is missing or not of these sources.
built_program() {
    local it=$top/crates/git2show/out/git2show
    is_current "$it" || env -u MAKEFLAGS timeout 3600 make -s -C "$top" program RT="${RT:-rt}" < /dev/null >&2 || true
    is_current "$it" || stop 'the program could not be built'
    echo "$it"
}

# built_library CRATE: prints the path of the crate's static library. The gate proves it and builds none, so it is built here, over the
# libraries that the gate built.
built_library() {
    local it=$top/crates/$1/out/lib$1.a
    is_current "$it" || {
        RT=${RT:-rt} "$top/tests/built_libraries.py" >&2 || true
        (cd "$top/crates/$1" && timeout 3600 "${RT:-rt}" lib < /dev/null >&2) || true
    }
    is_current "$it" || stop "the library $1 could not be built"
    echo "$it"
}

if [ $# -gt 0 ]; then
    program=$(realpath -m "$1")
else
    program=$(built_program)
fi
if [ $# -gt 1 ]; then
    library=$(realpath -m "$2")
else
    library=$(built_library gitwire)
fi
[ -x "$program" ] || stop "no program $program"
[ -f "$library" ] || stop "no library $library"
command -v git > /dev/null || install_packages git || stop "no git, and it could not be installed"
command -v gcc > /dev/null || install_packages gcc libc6-dev || stop "no C compiler, and it could not be installed"
command -v valgrind > /dev/null || install_packages valgrind || echo 'no valgrind, and it could not be installed: nothing is run under it' >&2
# Debian has its web servers in this folder.
export PATH=$PATH:/usr/sbin
for tool in g++ clang man pkg-config rustc go script nginx fcgiwrap apache2 lighttpd; do
    command -v $tool > /dev/null || echo "no $tool: what needs it is passed over" >&2
done

room=$(mktemp -d "${TMPDIR:-/tmp}/git2show-tests.XXXXXX")
trap 'rm -rf "$room"' EXIT
cd "$room"

# No configuration of a user takes part, nor a repository around the folder, nor the `make` that runs this.
unset "${!GIT_@}" "${!MAKE@}" MFLAGS XDG_CONFIG_HOME
own_home=$HOME
export HOME=$room/home GIT_CONFIG_NOSYSTEM=1 GIT_CEILING_DIRECTORIES=${room%/*}
mkdir "$HOME"

# With this link the commands are those of the README, wherever the program is.
mkdir bin
ln -s "$program" bin/git2show
export PATH=$room/bin:$PATH

. "$top/tests/cases.sh"
. "$top/tests/repositories.sh"
. "$top/tests/real_git.sh"
. "$top/tests/clones.sh"
. "$top/tests/partial_clones.sh"
. "$top/tests/fetches.sh"
. "$top/tests/upload_packs.sh"
. "$top/tests/upload_pack_faults.sh"
. "$top/tests/folders.sh"
. "$top/tests/http_backend.sh"
. "$top/tests/http.sh"
. "$top/tests/web_servers.sh"
. "$top/tests/asking.sh"
. "$top/tests/recorded.sh"
. "$top/tests/program.sh"
. "$top/tests/showing.sh"
. "$top/tests/playing.sh"
. "$top/tests/library.sh"
. "$top/tests/daemon.sh"
. "$top/tests/watching.sh"
. "$top/tests/soak.sh"
. "$top/tests/pages.sh"

git --version
write_repositories
write_histories
write_examples
run_cases
