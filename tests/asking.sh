# Cases in which our client asks the real Git's server: `git2show fetch`, over two pipes.

# ask FOLDER [OPTION..]: sends `git upload-pack` of a repository the requests of the file `script`.
ask() {
    local folder=$1
    shift
    ask_of over_one_connection "$folder" "$@"
}

# ask_of SERVER FOLDER [OPTION..]: the same with this server. Leaves the `transcript` and everything else that is reported, the `pack`, the
# `status`, and that of the server, `served`.
ask_of() {
    local server=$1 folder=$2
    shift 2
    rm -f to from
    mkfifo to from
    GIT_PROTOCOL=version=2 "$server" "$folder" < to > from 2> err &
    status=0 served=0
    limited git2show fetch --script script --pack pack "$@" > to < from 2> transcript || status=$?
    wait $! || served=$?
}

# over_one_connection FOLDER: the server of all requests.
over_one_connection() {
    limited git upload-pack "$1"
}

# over_many_connections FOLDER: a server for the advertisement, and one for each of two requests. The answers end as a remote helper of Git
# ends them.
over_many_connections() {
    local i
    limited git upload-pack --http-backend-info-refs "$1"
    for i in 1 2; do
        limited git upload-pack --stateless-rpc "$1"
        printf 0002
    done
}

# heard LINE..: that our client and the server ended well, and that the transcript has these lines.
heard() {
    local line
    expect_status 0
    [ "$served" = 0 ] || differs "status $served of the server"
    for line; do
        expect_line 'the transcript' "$line" transcript
    done
}

# told_references FOLDER: the lines of a transcript for all references of a repository.
told_references() {
    git ls-remote "$1" | sed -e '/\^{}$/d' -e 's/^\([0-9a-f]*\)\t/ref \1 /'
}

# is_whole FORMAT FOLDER ID: that the pack is whole, and has what can be reached from the commit of the repository.
is_whole() {
    rm -rf fetched
    git init -q -b main --object-format="$1" fetched
    git -C fetched index-pack --stdin --strict < pack > /dev/null
    git -C fetched fsck --strict "$3" > out 2>&1 || differs 'a pack that git fsck refuses' out
    expect_same 'the history' <(git -C "$2" rev-list --objects "$3") <(git -C fetched rev-list --objects "$3")
}

case_our_client_lists_what_git_serves() {
    echo ls-refs > script
    ask history-sha1
    heard 'request ls-refs' 'end 0 0'
    expect_same 'the references' <(told_references history-sha1) <(grep -a '^ref ' transcript)
    [ ! -s pack ] || differs 'a pack that nobody asked for'
}

# Git's own index of the pack finds what Git sends, and nothing is missing.
case_our_client_fetches_a_pack() {
    local id bytes
    id=$(git -C history-sha1 rev-parse HEAD)
    printf '%s\n' ls-refs symrefs peel 'ref-prefix HEAD' '' fetch "want $id" 'done' > script
    ask history-sha1
    bytes=$(wc -c < pack)
    heard "ref $id HEAD symref-target:refs/heads/main" 'request fetch'
    grep -a -q -x "end $bytes [0-9]*" transcript || differs "no end after $bytes bytes of the pack" transcript
    is_whole sha1 history-sha1 "$id"
}

case_our_client_fetches_a_pack_of_sha256() {
    local id
    id=$(git -C history-sha256 rev-parse HEAD)
    printf '%s\n' fetch "want $id" 'done' > script
    ask history-sha256 --format sha256
    heard 'request fetch'
    is_whole sha256 history-sha256 "$id"
}

case_our_client_writes_its_transcript_to_a_file() {
    local id
    id=$(git -C history-sha1 rev-parse HEAD)
    printf '%s\n' fetch "want $id" 'done' > script
    ask history-sha1
    cp transcript wanted
    ask history-sha1 --transcript written
    expect_status 0
    expect_same 'standard error' /dev/null transcript
    expect_same 'the transcript' <(sed 's/^\(end [0-9]*\) .*/\1/' wanted) <(sed 's/^\(end [0-9]*\) .*/\1/' written)
    is_whole sha1 history-sha1 "$id"
}

# is_progress FILE: that each line of the file is one of the server's progress, and that they are all of it: as many bytes as the transcript
# `written` counts.
is_progress() {
    local bytes
    tr '\r' '\n' < "$1" > lines
    expect_same 'lines of progress alone' /dev/null <(grep -a -v '^remote: ' lines)
    grep -a -q '^remote: Enumerating objects: [0-9]*, done\.$' lines || differs 'no object is counted' lines
    bytes=$(sed -n 's/^end [0-9]* //p' written)
    [ "$(sed 's/^remote: //' lines | wc -c)" = "$bytes" ] || differs "not the $bytes bytes of the progress" lines
}

case_our_client_shows_the_progress() {
    local id
    id=$(git -C history-sha1 rev-parse HEAD)
    printf '%s\n' fetch "want $id" 'done' > script
    ask history-sha1 --progress --transcript written
    expect_status 0
    is_progress transcript
    expect_line 'the transcript' 'request fetch' written
    is_whole sha1 history-sha1 "$id"
    printf '%s\n' fetch "want $id" no-progress 'done' > script
    ask history-sha1 --progress --transcript written
    expect_status 0
    expect_same 'standard error' /dev/null transcript
    is_whole sha1 history-sha1 "$id"
}

# Only standard error is a terminal, and nothing else is printed.
case_our_client_shows_the_progress_on_a_terminal() {
    local id
    command -v script > /dev/null || return 0
    id=$(git -C history-sha1 rev-parse HEAD)
    printf '%s\n' fetch "want $id" 'done' > script
    rm -f to from
    mkfifo to from
    GIT_PROTOCOL=version=2 limited git upload-pack history-sha1 < to > from 2> err &
    on_terminal 'git2show fetch --script script --pack pack --transcript written > to < from'
    wait $!
    expect_status 0
    is_progress terminal
    is_whole sha1 history-sha1 "$id"
}

# shown PROGRESS.. WANTED: that this is shown if a server sends this progress, one packet each, and a pack.
shown() {
    local wanted=${*: -1} part
    {
        advertisement sha1
        packet packfile
        for part in "${@:1:$#-1}"; do
            printf '%04x\002%b' $(($(printf '%b' "$part" | wc -c) + 5)) "$part"
        done
        printf '000a\001PACK!0000'
    } > said
    printf '%s\n' fetch "want $one" 'done' > script
    run git2show fetch --script script --pack pack --transcript written --progress < said
    expect_status 0
    expect_same "what is shown of $1" <(printf '%b' "$wanted") err
}

# No byte of the progress reaches a terminal, except letters and ends of lines.
case_our_client_shows_no_control_byte_of_the_progress() {
    shown 'half\rdone\n' 'remote: half\rremote: done\n'
    shown '\033[2J\a\b\t\x7f\n' 'remote: ?[2J????\n'
    shown '\xc3\xa9t\xc3\xa9 \xc2\x9b31m \xe2\x80\x9c\n' 'remote: \xc3\xa9t\xc3\xa9 \xc2?31m \xe2\x80\x9c\n'
    shown '\n\n' 'remote: \nremote: \n'
    shown 'open' 'remote: open\n'
    shown 'ha' 'lf\r' 'done\n' 'remote: half\rremote: done\n'
    shown '\xc2' '\x9b31m\n' 'remote: \xc2?31m\n'
}

# Git reports each packet that it receives.
case_our_client_sends_server_options() {
    printf '%s\n' ls-refs 'ref-prefix HEAD' '' ls-refs > script
    rm -f asked.trace
    GIT_TRACE_PACKET=$PWD/asked.trace ask history-sha1 --server-option lang=en --server-option=
    heard 'request ls-refs' 'end 0 0'
    expect_same 'the server options' <(printf '%s\n' server-option={lang=en,} server-option={lang=en,}) \
        <(grep -a -o 'upload-pack< server-option=.*' asked.trace | sed 's/.*< //')
}

# Nothing is sent if a server option is none, or the server does not advertise that it takes one.
case_our_client_refuses_a_server_option() {
    echo ls-refs > script
    run git2show fetch --script script --pack pack --server-option $'a\nb' < /dev/null
    expect 1 /dev/null <(echo 'git2show: BadLine at 0')
    on_terminal "git2show fetch --script script --pack pack --server-option \$'a\\nb'"
    { packet 'version 2'; packet ls-refs; printf 0000; } > said
    run git2show fetch --script script --pack pack --transcript written --server-option a < said
    expect 1 /dev/null <(echo 'git2show: NotAdvertised at 30')
}

case_our_client_fetches_over_a_connection_for_each_request() {
    local id
    id=$(git -C history-sha1 rev-parse HEAD)
    printf '%s\n' ls-refs 'ref-prefix HEAD' '' fetch "want $id" 'done' > script
    ask_of over_many_connections history-sha1 --stateless
    heard "ref $id HEAD" 'request fetch'
    is_whole sha1 history-sha1 "$id"
}

# A heavy pack comes in many chunks.
case_our_client_fetches_a_heavy_pack() {
    local id
    id=$(git -C heavy rev-parse main)
    printf '%s\n' fetch "want $id" 'done' > script
    ask heavy
    heard 'request fetch'
    [ "$(wc -c < pack)" -gt 21000000 ] || differs 'a pack that is too short'
    is_whole sha1 heavy "$id"
}

# The client has a commit already, and Git finds that it is common. Both packs go to the file, one after another.
case_our_client_fetches_what_is_new() {
    local new old
    git init -q -b main grown
    git -C grown fetch -q ../heavy main
    old=$(git -C grown rev-parse FETCH_HEAD)
    new=$(git -C grown -c user.name=nobody -c user.email=nobody@example.org commit-tree -m more -p "$old" "$old^{tree}")
    git -C grown update-ref refs/heads/main "$new"
    printf '%s\n' fetch "want $new" 'done' '' fetch "want $new" "have $old" 'done' > script
    ask grown
    heard 'request fetch'
    [ "$(grep -a -c '^end ' transcript)" = 2 ] || differs 'two responses' transcript
    [ "$(wc -c < pack)" -gt 21000000 ] || differs 'a pack that is too short'
}

# Git's message about an object that it does not have, and after it the error and its offset.
case_our_client_is_told_an_error() {
    local other
    other=$(printf 'f%.0s' {1..40})
    printf '%s\n' fetch "want $other" 'done' > script
    ask history-sha1
    expect_status 1
    expect_line 'what is reported' "remote error: upload-pack: not our ref $other" transcript
    grep -a -q '^git2show: RemoteError at [0-9]*$' transcript || differs 'no RemoteError' transcript
}

# write_pack_answer: what a server sends to answer `script` with a pack of five bytes.
write_pack_answer() {
    printf '%s\n' fetch "want $one" 'done' > script
    { advertisement sha1; pack_answer; } > said
}

# fetch_said [OPTION..]: our client receives that.
fetch_said() {
    run git2show fetch --script script --transcript written "$@" < said
}

# has_pack BYTES FILE: that the file has these bytes, and that nothing was left beside it.
has_pack() {
    expect_same "the file $2" <(printf %s "$1") "$2"
    expect_same 'what lies beside it' /dev/null <(compgen -G '*.part*')
}

# A server that refuses, a stream that breaks off, and a transcript that cannot be made.
case_our_client_keeps_the_pack_that_was_there() {
    write_pack_answer
    printf old > pack
    cp said whole
    { advertisement sha1; packet 'ERR no'; } > said
    fetch_said --pack pack
    expect_status 1
    has_pack old pack
    head -c -6 whole > said
    fetch_said --pack pack
    expect_status 1
    has_pack old pack
    rm pack
    fetch_said --pack pack
    expect_status 1
    [ ! -e pack ] || differs 'a pack that is not whole' pack
    cp whole said
    printf old > pack
    run git2show fetch --script script --pack pack --transcript nowhere/written < said
    expect 1 /dev/null <(fault File)
    has_pack old pack
}

# An existing file is replaced by one with its permissions; the target of a link is replaced, and the link stays. Other files keep their names.
case_our_client_replaces_a_pack() {
    write_pack_answer
    rm -f pack
    fetch_said --pack pack
    expect_status 0
    has_pack PACK! pack
    printf 'an old and longer one' > pack
    chmod 600 pack
    ln -s pack link
    fetch_said --pack link
    expect_status 0
    has_pack PACK! pack
    [ "$(stat -c %a pack)" = 600 ] || differs 'other permissions'
    [ -L link ] || differs 'a link that is none any more'
    rm link
    printf other > pack.part1
    fetch_said --pack pack
    expect_status 0
    expect_same 'another file' <(printf other) pack.part1
    rm pack.part1
    has_pack PACK! pack
}

# A conversation without a pack leaves an empty file.
case_our_client_writes_a_pack_of_no_bytes() {
    echo ls-refs > script
    printf old > pack
    { advertisement sha1; printf 0000; } > said
    fetch_said --pack pack
    expect_status 0
    has_pack '' pack
}

# A device, a pipe and a link that leads nowhere are written directly.
case_our_client_writes_what_is_no_file() {
    local name
    write_pack_answer
    mkfifo pipe
    cat pipe > piped &
    fetch_said --pack pipe
    expect_status 0
    wait $!
    [ -p pipe ] || differs 'a pipe that is none any more'
    has_pack PACK! piped
    rm -f pipe made
    ln -s made link
    fetch_said --pack link
    expect_status 0
    [ -L link ] || differs 'a link that is none any more'
    has_pack PACK! made
    rm link
    fetch_said --pack /dev/null
    expect_status 0
    for name in . nowhere/ ''; do
        fetch_said --pack "$name"
        expect 1 /dev/null <(fault File)
    done
    [ ! -e .part1 ] || differs 'a file that was left'
}

# A folder takes the name while the pack comes.
case_our_client_tells_a_pack_that_cannot_be_put_in_its_place() {
    rm -f pack
    mkfifo slow
    {
        advertisement sha1
        packet packfile
        printf '000a\001PACK!'
        wait_for pack.part1
        mkdir pack
        printf 0000
    } > slow &
    printf '%s\n' fetch "want $one" 'done' > script
    run git2show fetch --script script --pack pack --transcript written < slow
    wait $!
    expect_status 1
    expect_same 'standard error' <(fault File) err
    rmdir pack
    rm slow
    [ ! -e pack.part1 ] || differs 'a file that was left'
}

# answered TEXT..: what our client reports if a server sends this, whatever it is asked.
answered() {
    echo ls-refs > script
    run git2show fetch --script script --pack pack --transcript written < <(printf "$@")
}

# No byte that a server sends reaches a terminal, except letters.
case_our_client_shows_an_error_on_one_line() {
    answered '0017ERR no \033[31m\n\xff way\n'
    expect_status 1
    expect_same 'what is reported' <(printf '%s\n' 'remote error: no \x1b[31m\n\xff way' 'git2show: RemoteError at 0') err
    answered '0008ERR '
    expect_same 'what is reported' <(printf '%s\n' 'remote error: ' 'git2show: RemoteError at 0') err
}

case_our_client_tells_what_is_wrong() {
    answered 000
    expect 1 /dev/null <(fault 'Truncated at 0')
    answered 00g0
    expect 1 /dev/null <(fault 'BadDigit at 2')
    echo push > script
    run git2show fetch --script script --pack pack < /dev/null
    expect 1 /dev/null <(fault 'BadScript at 1')
    run git2show fetch --script nowhere --pack pack < /dev/null
    expect 1 /dev/null <(fault File)
    echo ls-refs > script
    run git2show fetch --script script --pack nowhere/pack < /dev/null
    expect 1 /dev/null <(fault File)
    run git2show fetch --script script --pack pack --transcript nowhere/written < /dev/null
    expect 1 /dev/null <(fault File)
    run git2show fetch --script script --pack pack < .
    expect 1 /dev/null <(fault ReadFault)
}

# A full device: in the place of the server, of the transcript, of the pack, and of the progress.
case_our_client_tells_a_full_device() {
    local id
    advertisement sha1 > said
    echo ls-refs > script
    status=0
    limited git2show fetch --script script --pack pack --transcript written < said > /dev/full 2> err || status=$?
    expect_status 1
    expect_same 'standard error' <(fault WriteFault) err
    run git2show fetch --script script --pack pack --transcript /dev/full < said
    expect_status 1
    expect_same 'standard error' <(fault WriteFault) err
    printf '%s\n' fetch "want $one" 'done' > script
    { advertisement sha1; pack_answer; } > said
    run git2show fetch --script script --pack /dev/full --transcript written < said
    expect_status 1
    expect_same 'standard error' <(fault WriteFault) err
    { advertisement sha1; packet packfile; printf '0008\002hi\n'; printf 0000; } > said
    status=0
    limited git2show fetch --script script --pack pack --transcript written --progress < said > out 2> /dev/full || status=$?
    expect_status 1
}

case_our_client_refuses_other_words() {
    echo ls-refs > script
    expect_refused fetch
    expect_refused fetch --script script
    expect_refused fetch --pack pack
    expect_refused fetch --script script --pack pack more
    expect_refused fetch --script script --pack pack --format md5
    expect_help 'Usage: git2show fetch [OPTIONS] --script <FILE> --pack <FILE>' fetch --help
}
