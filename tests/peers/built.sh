# Peers that are libraries, built with a client of a page of ours: JGit by the system's Java, gitoxide by the system's cargo, and go-git by Debian's Go.

# build_jgit: our client and server over JGit, by the system's Java, if there is one. Sets `jgit_path`, where its classes are.
build_jgit() {
    local jars=$cache/trixie/usr/share/java
    jgit_path=$jars/org.eclipse.jgit.jar:$jars/javaewah.jar:$jars/slf4j-api.jar:$jars/slf4j-nop.jar:$jars/commons-codec.jar
    command -v javac > /dev/null || return 0
    mkdir -p "$cache/jgit"
    [ "$cache/jgit/JGitPeer.class" -nt "$top/tests/peers/JGitPeer.java" ] ||
        javac -nowarn -cp "$jgit_path" -d "$cache/jgit" "$top/tests/peers/JGitPeer.java"
}

# get_crates SUITE: the sources of gitoxide and of the crates that it depends on, once. The suite's list of packages is that of `get`.
get_crates() {
    local at=$cache/apt/$1/crates package names
    [ ! -f "$cache/$1-crates.done" ] || return 0
    echo "getting of $1: librust-gix-dev and the crates that it depends on" >&2
    rm -rf "$cache/$1-crates" "$at"
    mkdir -p "$cache/$1-crates" "$at" "$cache/apt/$1/archives/partial"
    apt_of "$1" apt-get update
    mapfile -t names < <(apt_of "$1" apt-cache dumpavail | "$top/tests/peers/crates.py" librust-gix-dev)
    (cd "$at" && apt_of "$1" apt-get download "${names[@]}")
    for package in "$at"/*.deb; do
        dpkg -x "$package" "$cache/$1-crates"
        package=${package##*/}
        package=${package%_*}
        echo "${package%%_*} ${package#*_}"
    done > "$cache/$1-crates.versions"
    # Some package comes without its list of sums, and Cargo then reads none of them.
    for package in "$cache/$1-crates"/usr/share/cargo/registry/*/; do
        [ -f "$package/.cargo-checksum.json" ] || echo '{"files":{}}' > "$package/.cargo-checksum.json"
    done
    rm -r "$at"
    touch "$cache/$1-crates.done"
}

# build_gitoxide SUITE: our client over gitoxide. Its features are named, since a default one may need what is no crate; later versions have one
# for each object format. Of HTTP it has no TLS.
build_gitoxide() {
    local at=$cache/$1-gitoxide crates=$cache/$1-crates/usr/share/cargo/registry features='"blocking-network-client", "worktree-mutation"'
    get_crates "$1"
    [ ! "$cache/$1.bin/gix_peer" -nt "$top/tests/peers/gix_peer.rs" ] || return 0
    command -v cargo > /dev/null || stop 'no cargo, which builds gitoxide'
    ! grep -q '^sha256 = ' "$crates"/gix-[0-9]*/Cargo.toml || features+=', "sha1", "sha256"'
    mkdir -p "$at/src" "$at/.cargo"
    cp "$top/tests/peers/gix_peer.rs" "$at/src/main.rs"
    printf '%s\n' '[package]' 'name = "gix_peer"' 'version = "0.0.0"' 'edition = "2021"' '[profile.dev]' 'debug = false' '[dependencies]' \
        "gix = { version = \"*\", default-features = false, features = [$features] }" \
        'gix-transport = { version = "*", features = ["http-client-reqwest"] }' > "$at/Cargo.toml"
    printf '%s\n' '[source.crates-io]' 'replace-with = "debian"' '[source.debian]' "directory = \"$crates\"" > "$at/.cargo/config.toml"
    echo "building gitoxide of $1" >&2
    (cd "$at" && CARGO_TARGET_DIR=$at/target cargo build -q --offline)
    cp "$at/target/debug/gix_peer" "$cache/$1.bin/"
    rm -r "$at/target"
}

# build_gogit SUITE: our client over go-git, by that suite's Go. A package that is found by no version in its path is found by the link.
build_gogit() {
    local root=$cache/$1-go/usr own=$cache/$1-gogit source
    get "$1-go" golang-go golang-github-go-git-go-git-dev
    [ ! "$cache/$1.bin/gogit_clone" -nt "$top/tests/peers/gogit_clone.go" ] || return 0
    source=$root/share/gocode/src/github.com/go-git/go-git
    mkdir -p "$own/src/github.com/go-git/go-git"
    [ -d "$source/v5" ] || ln -sfn "$source" "$own/src/github.com/go-git/go-git/v5"
    echo "building go-git of $1" >&2
    GOROOT=$(echo "$root"/lib/go-1.*) GOPATH=$own:$root/share/gocode GOCACHE=$own/cache GO111MODULE=off GOTOOLCHAIN=local GOFLAGS='' CGO_ENABLED=0 \
        "$root"/lib/go-1.*/bin/go build -o "$cache/$1.bin/gogit_clone" "$top/tests/peers/gogit_clone.go"
    rm -rf "$own/cache"
}
