#!/usr/bin/env bash
# Writes the references of the Git repository here and the objects that they reach as a repository text, which
# `git2show serve --repo` reads. What a tag peels to is the object at the end of its chain of tags, as Git shows it. These
# objects are also what `git pack-objects --all --stdout < /dev/null` packs, for `--pack`.
set -eu -o pipefail
export LC_ALL=C
# What replaces an object is not looked at: each object is served as it is.
export GIT_NO_REPLACE_OBJECTS=1

if [ "$(git rev-parse --is-shallow-repository)" = true ]; then
    echo "repository-text.sh: a shallow repository cannot be served whole" >&2
    exit 1
fi
echo "format $(git rev-parse --show-object-format)"
target=$(git symbolic-ref --quiet HEAD || true)
if head=$(git rev-parse --quiet --verify HEAD); then
    echo "ref $head HEAD${target:+ symref-target:$target}"
elif [ -n "$target" ]; then
    # The branch has no commit yet.
    echo "ref unborn HEAD symref-target:$target"
fi
# The object, name and target of each reference, and beside them what it peels to.
paste -d ' ' \
    <(git for-each-ref --format='%(objectname) %(refname) %(if)%(symref)%(then)%(symref)%(else)-%(end)') \
    <(git for-each-ref --format='%(refname)^{}' | git cat-file --batch-check='%(objectname)') |
    while read -r object name target peeled; do
        line="ref $object $name"
        [ "$target" = - ] || line+=" symref-target:$target"
        [ "$peeled" = "$object" ] || line+=" peeled:$peeled"
        echo "$line"
    done
# All objects are asked for in one go, in the order of their names.
git rev-list --objects --no-object-names --all | sort -u |
    git cat-file --batch-check='object %(objectname) %(objectsize)'
