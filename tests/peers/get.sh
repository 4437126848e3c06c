# Gets packages of other suites of Debian, with all that they depend on, and unpacks them into the cache folder; nothing is installed on the system.

# apt_of NAME COMMAND WORD..: apt-get or apt-cache with sources and a state of its own, in which no package is installed: so what a package depends
# on is got as well.
apt_of() {
    local at=$cache/apt/$1
    timeout 1800 "$2" -qq -o Dir::Etc::sourcelist="$at/sources.list" -o Dir::Etc::sourceparts=/dev/null -o Dir::Etc::preferences=/dev/null \
        -o Dir::Etc::preferencesparts=/dev/null -o Dir::State="$at" -o Dir::State::lists="$at/lists" -o Dir::State::status="$at/status" \
        -o Dir::Cache="$at" -o APT::Sandbox::User=root -o Acquire::Languages=none "${@:3}"
}

# get NAME PACKAGE..: unpacks packages, once, into CACHE/NAME, a suite or a suite and more after a hyphen. To get later versions, remove the cache
# folder.
get() {
    local name=$1 suite=${1%%-*} at=$cache/apt/$1 package
    [ -f "$cache/$name.done" ] && [ "$(cat "$cache/$name.done")" = "${*:2}" ] && return 0
    echo "getting of $suite: ${*:2}" >&2
    rm -rf "${cache:?}/$name" "$at"
    mkdir -p "$cache/$name" "$at/lists/partial" "$at/archives/partial"
    : > "$at/status"
    echo "deb [signed-by=/usr/share/keyrings/debian-archive-keyring.gpg] http://deb.debian.org/debian $suite main" > "$at/sources.list"
    apt_of "$name" apt-get update
    apt_of "$name" apt-get -y --no-install-recommends --download-only install "${@:2}" > /dev/null
    for package in "$at"/archives/*.deb; do
        dpkg -x "$package" "$cache/$name"
        dpkg-deb -f "$package" Package Version | sed 's/^[A-Za-z]*: //' | paste -d ' ' - -
    done > "$cache/$name.versions"
    rm -r "$at/archives"
    echo "${*:2}" > "$cache/$name.done"
}

# version_of SUITE PACKAGE: the version of a package that was got, without Debian's own parts.
version_of() {
    sed -n -E "s/^$2 ([0-9]+:)?([^-+]*).*/\2/p" "$cache/$1.versions" 2> /dev/null
}

# wrap SUITE NAME PROGRAM [WORD..]: a command NAME in CACHE/SUITE.bin that runs a program of that suite with its own loader and libraries, since those
# of the system may be older than what it was built with.
wrap() {
    local root=$cache/$1
    mkdir -p "$cache/$1.bin"
    rm -f "$cache/$1.bin/$2"
    cat > "$cache/$1.bin/$2" << END
#!/bin/sh
exec "$root/usr/lib64/ld-linux-x86-64.so.2" --library-path "$root/usr/lib/x86_64-linux-gnu" --argv0 "$2" "$root$3"${4:+ "${@:4}"} "\$@"
END
    chmod 755 "$cache/$1.bin/$2"
}

# wrap_git SUITE: the commands of that suite's Git, its scripts among them. `git` itself begins with where the others are.
wrap_git() {
    local core=$cache/$1/usr/lib/git-core name
    rm -rf "$cache/$1.bin/git"*
    for name in git-remote-http git-remote-https git-daemon git-http-backend git-http-fetch; do
        wrap "$1" $name "/usr/lib/git-core/$name"
    done
    wrap "$1" git /usr/bin/git
    sed -i "2i export GIT_EXEC_PATH='$cache/$1.bin' GIT_TEMPLATE_DIR='$cache/$1/usr/share/git-core/templates'" "$cache/$1.bin/git"
    for name in upload-pack upload-archive receive-pack; do
        printf '#!/bin/sh\nexec "%s/git" %s "$@"\n' "$cache/$1.bin" $name > "$cache/$1.bin/git-$name"
        chmod 755 "$cache/$1.bin/git-$name"
    done
    for name in "$core"/git-*; do
        [ -e "$cache/$1.bin/${name##*/}" ] || [ "$(head -c 2 "$name" | tr -d '\0')" != '#!' ] || ln -s "$name" "$cache/$1.bin/"
    done
}

# wrap_python SUITE: that suite's Python, with its packages.
wrap_python() {
    wrap "$1" python3 /usr/bin/python3
    sed -i "2i export PYTHONHOME='$cache/$1/usr' PYTHONDONTWRITEBYTECODE=1" "$cache/$1.bin/python3"
}
