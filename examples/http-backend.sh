#!/bin/sh
# Git's smart HTTP for fetches, as a CGI script: a web server runs it for each request below an address, and Git fetches from
# that address. GIT_PROJECT_ROOT is a folder that has the repositories; the path of one is /NAME or /NAME.git, and a name may have slashes. A
# repository is one of these:
#
#   - a folder of Git's own, NAME/.git, NAME, NAME.git/.git or NAME.git, that has a file `git-daemon-export-ok`, or any where GIT_HTTP_EXPORT_ALL is
#     set: `upload-pack` (upload-pack.c) serves it, with `git`;
#   - NAME.repo, a repository text, and NAME.pack: `git2show` serves these. If NAME.filtered is there too, it is the pack of requests with a
#     filter.
#
# These programs and `gzip` have to be on the path: Git's client compresses the body of a longer request.
#
# Status 200 is answered once the program has written its first bytes, or has ended well without any. If it cannot serve a repository, the
# status is 500, and a line on standard error, which web servers keep in a log, names it.
set -eu

# refuse STATUS TEXT: answers with a line for the user, which Git prints. A body that was not read is read first: if a script ends before
# that, fcgiwrap reports status 502 in the place of this one.
refuse() {
    [ "$unread" != yes ] || body > /dev/null
    printf 'Status: %s\r\nContent-Type: text/plain; charset=utf-8\r\n\r\n%s\n' "$1" "$2"
    exit
}

# fail TEXT: reports to the web server's log why nothing is served. The user does not receive the name of a file.
fail() {
    echo "http-backend.sh: $1" >&2
    refuse '500 Internal Server Error' "the repository cannot be served: the web server's log has the reason"
}

# begin_answer: begins an answer that must not be cached.
begin_answer() {
    printf 'Status: 200 OK\r\nContent-Type: application/x-git-upload-pack-%s\r\nCache-Control: no-cache\r\n\r\n' "$kind"
}

# first_four: the first four bytes of the input; no more of it is read.
first_four() {
    dd bs=1 count=4 2> /dev/null
}

# body: the request's body, as many bytes as the web server states. It states no number for one in chunks, which ends with the input.
body() {
    if [ -n "${CONTENT_LENGTH:-}" ]; then head -c "$CONTENT_LENGTH"; else cat; fi
}

# whole_body: the same, written only after it has been read to its end: fcgiwrap, for one, reads no answer before it has passed a body
# on. What is beyond 32 MiB, twice what is kept of a request, is dropped.
whole_body() {
    body | {
        head -c 33554432
        cat > /dev/null
    } | dd ibs=65536 obs=33554432 2> /dev/null
}

# request: the body as Git wrote it.
request() {
    case ${HTTP_CONTENT_ENCODING:-} in
        gzip | x-gzip)
            # 64 MiB are more than a request within the limit has; a small body can become any number of them.
            { whole_body | gzip -dc || printf 'gzip ended with status %s, ' $? >&3; } | head -c 67108864
            ;;
        *) whole_body ;;
    esac
}

# pass_on: answers with what the program writes, as it comes. Its first four bytes are the digits of a packet's length, so a variable
# can hold them.
pass_on() {
    first=$(first_four)
    if [ -z "$first" ]; then
        printf 'nothing was written' >&3
        return
    fi
    begin_answer
    printf %s "$first"
    cat
}

# folder_of REPOSITORY: the folder of Git's own that this name leads to, if any.
folder_of() {
    for folder in "$1/.git" "$1" "$1.git/.git" "$1.git"; do
        if [ -e "$folder/HEAD" ] || [ -h "$folder/HEAD" ]; then
            printf %s "$folder"
            return
        fi
    done
}

# may_serve FOLDER: whether its owner lets it be served over HTTP, as Git's own script has it.
may_serve() {
    [ -n "${GIT_HTTP_EXPORT_ALL+set}" ] || [ -e "$1/git-daemon-export-ok" ] || refuse '404 Not Found' 'no such repository'
    [ "$(git --git-dir="$1" config --bool http.uploadpack)" != false ] || refuse '403 Forbidden' 'this repository is not served by HTTP'
}

# Whether there is a body that was not read.
if [ "${REQUEST_METHOD:-}" = POST ]; then unread=yes; else unread=no; fi

case ${REQUEST_METHOD:-}:${PATH_INFO:-}:${QUERY_STRING:-} in
    GET:*/info/refs:service=git-upload-pack)
        name=${PATH_INFO%/info/refs}
        kind=advertisement
        set -- --http-backend-info-refs
        exec < /dev/null
        ;;
    POST:*/git-upload-pack:*)
        name=${PATH_INFO%/git-upload-pack}
        kind=result
        set -- --stateless-rpc
        ;;
    *) refuse '403 Forbidden' 'fetches alone are served here, by smart HTTP' ;;
esac
name=${name#/}
name=${name%.git}
case /$name in
    */ | *//* | */.* | *[!A-Za-z0-9._/-]*) refuse '404 Not Found' 'no such repository' ;;
esac
[ -n "${GIT_PROJECT_ROOT:-}" ] || fail 'GIT_PROJECT_ROOT is not set'
repository=$GIT_PROJECT_ROOT/$name
if [ -e "$repository.repo" ]; then
    program=git2show
    served=$repository.repo
    set -- serve "$@"
    for part in repo pack filtered; do
        file=$repository.$part
        if [ $part = filtered ] && [ ! -e "$file" ]; then continue; fi
        if [ ! -r "$file" ] || [ -d "$file" ]; then fail "cannot read $file"; fi
        set -- "$@" --$part "$file"
    done
else
    program=upload-pack
    served=$(folder_of "$repository")
    [ -n "$served" ] || refuse '404 Not Found' 'no such repository'
    may_serve "$served"
    set -- "$@" --strict -- "$served"
fi
for tool in $program gzip; do
    command -v $tool > /dev/null || fail "$tool is not on the path, $PATH"
done

unread=no
case :${HTTP_GIT_PROTOCOL:-}: in
    *:version=2:*) ;;
    *)
        # Before a body of more than its http.postBuffer Git sends a flush packet alone, without a version, to see whether it may
        # post here. Its own server answers that with an empty body.
        if [ "$REQUEST_METHOD" = POST ] && [ "$(whole_body | first_four)" = 0000 ]; then
            begin_answer
            exit
        fi
        refuse '400 Bad Request' "version 2 of Git's protocol alone is served here: git -c protocol.version=2"
        ;;
esac

# Descriptor 3 collects what went wrong. That counts only where nothing was written: else the answer itself ends with the fault.
exec 4>&1
outcome=$({ { request | $program "$@" || printf '%s ended with status %s, ' $program $? >&3; } | pass_on >&4; } 3>&1)
case $outcome in
    *$program*nothing*) fail "cannot serve $served: $outcome" ;;
    *gzip*nothing*) refuse '400 Bad Request' 'the body of the request is not compressed as its head states' ;;
    *nothing*) begin_answer ;;
esac
