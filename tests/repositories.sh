# The repositories that the cases serve. A table of references has a line `OBJECT NAME TARGET PEELED` for each, with `-` if there is none;
# its lines are sorted by name, byte by byte. The text of a repository and the lines that Git has to print are both written from it.

write_repositories() {
    local format
    for format in sha1 sha256; do
        table "$format" > "$format.table"
        text "$format" > "$format.repo"
    done
    cp "$top/sample/small.repo" .
    # The same repository, with its objects: those that may be wanted. Nobody here looks into its packs.
    cat small.repo - > wanted.repo << 'EOF'
object 1111111111111111111111111111111111111111 230
object 2222222222222222222222222222222222222222 140
object 3333333333333333333333333333333333333333 230
EOF
    printf 'PACK!' > wanted.pack
    printf TINY > filtered.pack
    echo 'format sha1' > empty.repo
    : > empty.pack
}

# object FORMAT WORD: the object name that is the digest of a word.
object() {
    local digest
    digest=$(printf '%s' "$2" | "${1}sum")
    echo "${digest%% *}"
}

# The references of the large tables, unsorted: a name, its target, and `tag` for an annotated tag. Among them are names that others begin
# with, a symbolic reference to a tag, bytes that are not ASCII, and the longest line that is possible.
references() {
    local i longest
    echo 'HEAD refs/heads/main -'
    echo 'refs/heads/main - -'
    echo 'refs/heads/release refs/tags/v1 tag'
    for i in {1..50}; do
        echo "refs/heads/topic/$i - -"
        echo "refs/tags/light-$i - -"
        echo "refs/tags/v$i - tag"
        echo "refs/tags/v$i-rc1 - tag"
    done
    echo 'refs/pull/1/head - -'
    echo 'refs/remotes/origin/HEAD refs/remotes/origin/main -'
    echo 'refs/remotes/origin/main - -'
    printf 'refs/heads/\xc3\xa4rger - -\nrefs/heads/\xff - -\n'
    longest=refs/tags/$(printf '%031990d' 0) # a name has at most 32,000 bytes
    echo "$longest ${longest/tags/tabs} tag"
}

# table FORMAT: the large table. A symbolic reference has the objects of its target.
table() {
    local name target kind named peeled
    references | sort -t ' ' -k 1,1 | while read -r name target kind; do
        named=$name
        [ "$target" = - ] || named=$target
        peeled=-
        [ "$kind" = - ] || peeled=$(object "$1" "what $named stands for")
        echo "$(object "$1" "$named") $name $target $peeled"
    done
}

# text FORMAT: the repository text of a large table. Around its references are lines of other kinds, which no list shows.
text() {
    echo "format $1"
    echo 'ready 3'
    reference_lines < "$1.table"
    echo "object $(object "$1" refs/heads/main) 230"
    echo "shallow $(object "$1" refs/heads/topic/1)"
}

# reference_lines < TABLE: its lines in a repository text.
reference_lines() {
    local oid name target peeled
    while read -r oid name target peeled; do
        [ "$target" = - ] && target= || target=" symref-target:$target"
        [ "$peeled" = - ] && peeled= || peeled=" peeled:$peeled"
        echo "ref $oid $name$target$peeled"
    done
}

# listed [--symref] < TABLE: what `git ls-remote` prints, with that option or without it.
listed() {
    local oid name target peeled
    while read -r oid name target peeled; do
        if [ "${1:-}" = --symref ] && [ "$target" != - ]; then
            printf 'ref: %s\t%s\n' "$target" "$name"
        fi
        printf '%s\t%s\n' "$oid" "$name"
        [ "$peeled" = - ] || printf '%s\t%s^{}\n' "$peeled" "$name"
    done
}
