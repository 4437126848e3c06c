# Cases in which packets are shown with options: in columns, as JSON, and some of them alone.

sessions=$top/crates/worked_conversations/data/sessions

# A conversation with each kind of packet: a request, and an answer with each section, each band and an error packet.
case_packets_are_shown_in_columns() {
    {
        packet command=fetch
        printf 0001
        packet "want $one"
        printf 0000
        packet acknowledgments
        packet "ACK $one"
        printf 0001
        packet packfile
        printf '0009\001PACK'
        printf '000b\002half\r\n'
        printf '0009\003oh!\n'
        printf 00000002
        packet 'ERR no\tway'
        printf 0005a
    } > shown
    run git2show show --pretty < shown
    expect 0 <(cat << 'END'
       0    14  command   command=fetch
      18        delim
      22    46  data      want 111111111111
      72        flush
      76    16  section   acknowledgments
      96    45  data      ACK 111111111111
     145        delim
     149     9  section   packfile
     162     5  pack      PACK
     171     7  progress  half\x0d
     182     5  error     oh!
     191        flush
     195        end
     199    12  error     ERR no\\tway
     215     1  data      a
220 bytes, 15 packets, 1 requests, 4 bytes of packs
END
    ) /dev/null
    run git2show show --pretty --width 40 --from 22 --no-pack < shown
    expect 0 <(cat << 'END'
      22    46  data      want 1111111..
      72        flush
      76    16  section   acknowledgme..
      96    45  data      ACK 11111111..
     145        delim
     149     9  section   packfile
     171     7  progress  half\x0d
     182     5  error     oh!
     191        flush
     195        end
     199    12  error     ERR no\\tway
     215     1  data      a
220 bytes, 15 packets, 1 requests, 4 bytes of packs
END
    ) /dev/null
}

# No line of a recorded conversation is wider than a screen, and each packet has one.
case_recorded_conversations_fit_a_screen() {
    local stream lines
    for stream in "$sessions"/*.pkt; do
        lines=$(git2show show < "$stream" | wc -l)
        run git2show show --pretty < "$stream"
        expect_status 0
        [ "$(wc -l < out)" = $((lines + 1)) ] || differs "$stream: not a line for each packet" out
        ! grep -a -q -E '^.{81}|[^ -~]' out || differs "$stream: a line that fits no screen" out
    done
}

# The packets of a stream of JSON lines.
packets_again() {
    python3 -c '
import json, sys
for line in sys.stdin:
    it = json.loads(line)
    kind = it["kind"]
    if kind == "data":
        payload = bytes.fromhex(it["hex"]) if "hex" in it else it["payload"].encode()
        assert it["length"] == len(payload)
        sys.stdout.buffer.write(b"%04x" % (len(payload) + 4) + payload)
    else:
        sys.stdout.buffer.write({"flush": b"0000", "delim": b"0001", "end": b"0002"}[kind])
'
}

case_packets_are_shown_as_json() {
    local stream
    {
        packet command=fetch
        printf 000100020000
        printf '000f"\\\b\f\n\r\t\001\037\177 '
        printf '0006\303\251'
        printf '0007\377\000z'
        printf 0004
    } > shown
    run git2show show --json < shown
    expect 0 <(cat << 'END'
{"offset":0,"kind":"data","length":14,"payload":"command=fetch\n"}
{"offset":18,"kind":"delim"}
{"offset":22,"kind":"end"}
{"offset":26,"kind":"flush"}
END
        printf '%s\177 "}\n' '{"offset":30,"kind":"data","length":11,"payload":"\"\\\b\f\n\r\t\u0001\u001f'
        cat << 'END'
{"offset":45,"kind":"data","length":2,"payload":"é"}
{"offset":51,"kind":"data","length":3,"hex":"ff007a"}
{"offset":58,"kind":"data","length":0,"payload":""}
END
    ) /dev/null
    for stream in shown "$sessions"/*.pkt; do
        run git2show show --json < "$stream"
        expect_status 0
        packets_again < out > again
        expect_same "the packets of $stream" "$stream" again
        while read -r line; do
            printf '%s' "$line" | python3 -m json.tool > /dev/null || differs "no JSON: $line"
        done < <(head -n 3 out)
    done
}

# What is left out leaves the other lines as they are, and a malformed packet is refused wherever it is.
case_packets_are_left_out() {
    local stream=$sessions/clone-responses.pkt at
    git2show show < "$stream" > whole
    grep -a -q 'data [0-9]* \\x01' whole
    run git2show show --no-pack < "$stream"
    expect 0 <(grep -a -v 'data [0-9]* \\x01' whole) /dev/null
    at=$(sed -n '5s/ .*//p' whole)
    run git2show show --from "$at" < "$stream"
    expect 0 <(tail -n +5 whole) /dev/null
    run git2show show --from $((at + 1)) < "$stream"
    expect 0 <(tail -n +6 whole) /dev/null
    run git2show show --from 18446744073709551615 < "$stream"
    expect 0 /dev/null /dev/null
    for option in --pretty --json --no-pack '--from 100'; do
        run git2show show $option < <(printf '0005a0000000g')
        expect_status 1
        expect_same "what is reported with $option" <(fault 'BadDigit at 12') err
    done
    expect_refused show --pretty --json
    expect_refused show --plain --pretty
    expect_refused show --plain --json
    expect_refused show --width 39
    expect_refused show --width 201
    expect_refused show --from x
}

# Of what a client sent, the requests with one command alone are shown: all of each, and its flush.
case_requests_with_one_command_are_shown() {
    local stream=$sessions/clone-requests.pkt word
    {
        packet command=ls-refs
        printf 0001
        packet peel
        printf 0000
        packet command=fetch
        packet agent=a
        printf 0001
        packet "want $one"
        printf 0000
        printf '0011command=fetch'
        printf 00000000
    } > asked
    run git2show show --only fetch < asked
    expect 0 <(cat << END
37 data 14 command=fetch\\n
55 data 8 agent=a\\n
67 delim
71 data 46 want $one\\n
121 flush
125 data 13 command=fetch
142 flush
END
    ) /dev/null
    run git2show show --only ls-refs --json < asked
    expect 0 <(cat << 'END'
{"offset":0,"kind":"data","length":16,"payload":"command=ls-refs\n"}
{"offset":20,"kind":"delim"}
{"offset":24,"kind":"data","length":5,"payload":"peel\n"}
{"offset":33,"kind":"flush"}
END
    ) /dev/null
    run git2show show --only fetch --from 121 --pretty < asked
    expect 0 <(cat << 'END'
     121        flush
     125    13  command   command=fetch
     142        flush
150 bytes, 12 packets, 3 requests, 0 bytes of packs
END
    ) /dev/null
    run git2show show --only fet < asked
    expect 0 /dev/null /dev/null
    # A request that is cut off.
    run git2show show --only fetch < <(packet command=fetch; printf 000)
    expect 1 <(echo '0 data 14 command=fetch\n') <(fault 'Truncated at 18')
    # The requests of a clone, which ends with a flush alone.
    git2show show < "$stream" > whole
    for word in ls-refs fetch; do
        git2show show --only $word < "$stream"
    done > both
    expect_same 'both requests' <(head -n -1 whole) both
}

# What is not a client's has no requests, and is refused at the first packet that begins none.
case_what_a_server_sent_has_no_requests() {
    run git2show show --only fetch < "$sessions/clone-responses.pkt"
    expect 1 /dev/null <(fault 'NoCommand at 0')
    run git2show show --only fetch --pretty < <(packet command=fetch; printf 0000; packet 'version 2'; printf 0000; packet command=fetch)
    expect 1 <(cat << 'END'
       0    14  command   command=fetch
      18        flush
      40    14  command   command=fetch
END
    ) <(fault 'NoCommand at 22')
    run git2show show --only fetch < <(packet agent=a; packet command=fetch; printf 0000)
    expect 1 /dev/null <(fault 'NoCommand at 0')
    run git2show show --only fetch < <(printf 00000001)
    expect 1 /dev/null <(fault 'NoCommand at 4')
    run git2show show --only fetch < <(packet 'version 2'; printf 00g0)
    expect 1 /dev/null <(fault 'BadDigit at 16')
    command -v script > /dev/null || return 0
    packet 'version 2' > shown
    on_terminal 'git2show show --only fetch < shown > out'
    explained 'NoCommand at 0' 'not what a client sent: no request begins there'
}

# A terminal gets columns with colours, where NO_COLOR does not forbid these, unless another form is chosen.
case_columns_have_colours_on_a_terminal() {
    local words coloured=$'       0    14  \e[1;36mcommand\e[0m   command=fetch'
    command -v script > /dev/null || return 0
    packet command=fetch > shown
    for words in --pretty '' '--width 80' '--from 0 --no-pack'; do
        on_terminal "git2show show $words < shown"
        expect_status 0
        expect_line "the terminal with '$words'" "$coloured" terminal
        expect_line "the terminal with '$words'" '18 bytes, 1 packets, 1 requests, 0 bytes of packs' terminal
    done
    on_terminal 'NO_COLOR=1 git2show show < shown'
    expect_line 'the terminal' '       0    14  command   command=fetch' terminal
    on_terminal 'NO_COLOR= git2show show < shown'
    expect_line 'the terminal' "$coloured" terminal
    on_terminal 'git2show show --plain < shown'
    expect_same 'the plain lines' <(echo '0 data 14 command=fetch\n') terminal
    on_terminal 'git2show show --json < shown'
    expect_same 'the JSON lines' <(echo '{"offset":0,"kind":"data","length":14,"payload":"command=fetch\n"}') terminal
}

# Without a terminal --plain changes nothing.
case_plain_lines_are_the_default_elsewhere() {
    local stream
    for stream in "$sessions"/*.pkt; do
        git2show show < "$stream" > whole
        run git2show show --plain < "$stream"
        expect 0 whole /dev/null
    done
    run git2show show --plain --from 1 < <(packet a; packet b)
    expect 0 <(echo '6 data 2 b\n') /dev/null
}

# A conversation of the real Git that is recorded is one that `check` accepts, and that can be looked at.
case_a_conversation_is_recorded() {
    git init -q served
    git -C served -c user.name=a -c user.email=b commit -q --allow-empty -m first
    run "$top/examples/record.sh" requests responses clone -q served copy
    expect_status 0
    run git2show check requests responses
    expect_status 0
    expect_line 'the transcript' 'request fetch' out
    run git2show show --pretty --no-pack < responses
    expect_status 0
    expect_line 'the columns' 'section   packfile' <(cut -c 17-36 out)
    run "$top/examples/record.sh" requests responses ls-remote served
    expect_status 0
    grep -q 'refs/heads/' out || differs 'what Git lists' out
    run "$top/examples/record.sh" requests
    expect_status 2
}

# traced PROCESS.. TEXT: the line of a trace, as Git writes it, for each text.
traced() {
    printf '12:34:56.789012 pkt-line.c:80           packet: %12s%s %s\n' "$@"
}

# A trace with a line of each kind, beside lines of other keys.
write_trace() {
    {
        echo '12:34:56.789012 git.c:460               trace: built-in: git clone served'
        traced upload-pack '>' 'version 2' clone '<' 'version 2' clone '<' 0000
        traced clone '>' 'command=ls-refs' clone '>' 0001 clone '>' 'server-option=k\37777777703\37777777674\11\0' git '>' '\303\274\177\377'
        echo '   [0001]  0.001'
        traced clone '<' '' clone '<' 0002 clone '<' shallow-info receive-pack '>' 'a<b> packet: c< d' upload-archive '>' 'a\b'
        traced sideband '<' '\212 files' sideband '<' '\2half\15' sideband '<' 'PACK ...' sideband '<' '\3oh!' fetch '<' 'ERR no'
        printf '%s\r\n' 'packet:          git< from an older Git'
        printf 'no line feed: packet: git> done'
    } > trace
}

# Each packet that a trace names has a line, with the process, the direction, the kind and the bytes.
case_a_trace_is_shown() {
    write_trace
    run git2show show --trace < trace
    expect 0 <(cat << 'END'
upload-pack > data version 2
clone < data version 2
clone < flush
clone > data command=ls-refs
clone > delim
clone > data server-option=k\xc3\xbc\x09\x00
git > data \xc3\xbc\x7f\xff
clone < data
clone < end
clone < data shallow-info
receive-pack > data a<b> packet: c< d
upload-archive > data a\\b
sideband < data \x0212 files
sideband < data \x02half\x0d
sideband < pack
sideband < data \x03oh!
fetch < data ERR no
git < data from an older Git
git > data done
END
    ) /dev/null
    cp out plain
    run git2show show --trace --pretty --width 44 < trace
    expect 0 <(cat << 'END'
   upload-pack >  data      version 2
         clone <  data      version 2
         clone <  flush
         clone >  command   command=ls-refs
         clone >  delim
         clone >  data      server-option=..
           git >  data      \xc3\xbc\x7f\xff
         clone <  data
         clone <  end
         clone <  section   shallow-info
  receive-pack >  data      a<b> packet: c..
upload-archive >  data      a\\b
      sideband <  progress  12 files
      sideband <  progress  half\x0d
      sideband <  pack
      sideband <  error     oh!
         fetch <  error     ERR no
           git <  data      from an older ..
           git >  data      done
END
    ) /dev/null
    # A reader that gives few bytes at a time.
    run git2show show --trace --plain < <(tr '\n' '\v' < trace | while IFS= read -r -n 7 part || [ -n "$part" ]; do printf '%s' "$part"; done | tr '\v' '\n')
    expect 0 plain /dev/null
}

# A text without a packet, a line that is too long, and options that do not fit.
case_a_text_that_is_no_trace_is_refused() {
    run git2show show --trace < /dev/null
    expect 1 /dev/null <(fault 'BadTrace at 1')
    run git2show show --trace < "$sessions/clone-responses.pkt"
    expect_status 1
    expect_same 'what is shown of packets' /dev/null out
    run git2show show --trace < <(printf 'a\nb packet: \nc')
    expect 1 /dev/null <(fault 'BadTrace at 4')
    run git2show show --trace < <(traced clone '>' done; printf '%1048577s' x; echo; traced clone '>' 0000)
    expect 1 <(echo 'clone > data done') <(fault 'BadTrace at 2')
    run git2show show --trace < <(traced clone '>' done; printf '%1048576s\n' x; traced clone '>' 0000)
    expect 0 <(printf '%s\n' 'clone > data done' 'clone > flush') /dev/null
    expect_refused show --trace --json
    expect_refused show --trace --no-pack
    expect_refused show --trace --from 1
    expect_refused show --trace --only fetch
    command -v script > /dev/null || return 0
    echo nothing > shown
    on_terminal 'git2show show --trace < shown'
    explained 'BadTrace at 2' 'the text ends before line 2, and none of its lines is one of GIT_TRACE_PACKET'
    printf '%1048577s' x > shown
    on_terminal 'git2show show --trace < shown'
    explained 'BadTrace at 1' 'line 1 is longer than 1048576 bytes'
    traced clone '>' command=fetch > shown
    on_terminal 'git2show show --trace < shown'
    expect_line 'the terminal' $'         clone >  \e[1;36mcommand\e[0m   command=fetch' terminal
}

# without_places: the lines of `show` without what a trace hides: offsets, lengths and LFs, and the packets of a pack after the first.
without_places() {
    sed -E 's/^[0-9]+ //; s/^data [0-9]+/data/; s/\\n//g' | awk '/^data \\x01/ { if (!packs++) print "pack"; next } { print }'
}

# of_process NAME DIRECTION: the packets of one process in the last output, in one direction.
of_process() {
    sed -n "s/^$1 $2 //p" out
}

# The packets that Git's trace of a clone names are those that were recorded, apart from what it hides: from Git's own server, whose packets
# it names as well, and from ours.
case_a_trace_has_the_recorded_packets() {
    rm -f trace
    git init -q traced
    git -C traced -c user.name=a -c user.email=b commit -q --allow-empty -m first
    GIT_TRACE_PACKET=$room/trace run "$top/examples/record.sh" requests responses clone --progress traced traced-copy
    expect_status 0
    run git2show show --trace < trace
    expect_status 0
    git2show show < requests | without_places > wanted
    expect_same 'what the client sent' wanted <(of_process clone '>')
    expect_same 'what the server received' wanted <(of_process upload-pack '<')
    git2show show < responses | without_places > wanted
    expect_same 'what the client received' wanted <(of_process '\(clone\|sideband\)' '<')
    # Git's server does not name what it sends on bands.
    expect_same 'what the server sent' <(grep -v '^pack$\|^data .x02' wanted) <(of_process upload-pack '>')
    offer traced
    printf '#!/bin/sh\ncd "%s"\ntee requests | git2show serve --repo traced.repo --pack traced.pack | tee responses\n' "$room" > bin/recorded-serve
    chmod +x bin/recorded-serve
    rm trace
    GIT_TRACE_PACKET=$room/trace run git -c protocol.version=2 -c protocol.ext.allow=always clone -q ext::recorded-serve traced-ours
    expect_status 0
    run git2show show --trace < trace
    expect_status 0
    expect_same 'what was sent to our server' <(git2show show < requests | without_places) <(of_process clone '>')
    expect_same 'what our server sent' <(git2show show < responses | without_places) <(of_process '\(clone\|sideband\)' '<')
}

# A fetch that failed is explained on one screen, by the trace of the client alone.
case_a_failed_fetch_is_explained_by_its_trace() {
    rm -f trace
    git init -q lacking
    git -C lacking -c user.name=a -c user.email=b commit -q --allow-empty -m first
    git init -q failing
    GIT_TRACE_PACKET=$room/trace run git -C failing -c protocol.version=2 fetch -q --upload-pack 'env -u GIT_TRACE_PACKET git-upload-pack' \
        "$room/lacking" refs/heads/missing
    [ $status != 0 ] || differs 'a reference is fetched that is not there'
    run git2show show --trace --pretty < trace
    expect_status 0
    [ "$(wc -l < out)" -le 25 ] || differs 'more than a screen' out
    expect_line 'what was asked' '         fetch >  data      ref-prefix refs/heads/missing' out
    expect_same 'what came' <(echo '         fetch <  flush') <(tail -n 1 out)
    rm trace
    GIT_TRACE_PACKET=$room/trace run git -C failing -c protocol.version=2 fetch -q --upload-pack 'env -u GIT_TRACE_PACKET git-upload-pack' \
        "$room/lacking" "$one"
    [ $status != 0 ] || differs 'an object is fetched that is not there'
    run git2show show --trace --pretty --width 200 < trace
    expect_status 0
    expect_line 'what came' "         fetch <  error     ERR upload-pack: not our ref $one" out
}

# recorded_from ADDRESS [OPTION..]: that a clone of the real Git from there is recorded, that its address stays what it was, and that `check` accepts
# what was recorded, with these options.
recorded_from() {
    rm -rf recording
    mkdir recording
    run "$top/examples/record.sh" recording/requests recording/responses clone -q "$1" recording/copy
    expect 0 /dev/null /dev/null
    expect_same 'the address' <(echo "$1") <(git -C recording/copy config remote.origin.url)
    expect_same 'the files' <(printf '%s\n' copy requests responses) <(ls recording)
    run git2show check "${@:2}" recording/requests recording/responses
    expect_status 0
    expect_line 'the transcript' 'request ls-refs' out
    expect_line 'the transcript' 'request fetch' out
}

# over_ssh: a command in the place of ssh.
over_ssh() {
    printf '%s\n' '#!/bin/sh' 'while [ $# -gt 1 ]; do shift; done' 'exec sh -c "$1"' > bin/no-ssh
    chmod +x bin/no-ssh
    export GIT_SSH=$room/bin/no-ssh
}

case_a_conversation_over_ssh_is_recorded() {
    over_ssh
    recorded_from "ssh://here$room/history-sha1"
    git -C recording/copy config core.sshCommand "$room/bin/no-ssh"
    unset GIT_SSH
    cd recording/copy
    run "$top/examples/record.sh" ../requests ../responses fetch origin
    expect 0 /dev/null /dev/null
    run git2show check ../requests ../responses
    expect_status 0
    expect_line 'the transcript' 'request ls-refs' out
}

case_a_conversation_over_git_is_recorded() {
    start_daemon history-sha1 daemon
    recorded_from "$address"
    end_daemon
}

case_a_conversation_over_http_is_recorded() {
    start_web
    recorded_from "$web/history-sha1" --stateless
}

# Where the server ends, the connection of a client that waits for more ends too.
case_a_server_that_ends_at_once_is_recorded() {
    local address
    over_ssh
    start_web
    rm -rf recording
    mkdir recording
    for address in ssh://here/nothing "$web/nothing" git://127.0.0.1:1/nothing; do
        run "$top/examples/record.sh" recording/requests recording/responses ls-remote "$address"
        expect_status 128
        expect_same 'what was recorded' /dev/null recording/responses
    done
}

# completed WORD..: what bash's completion proposes after these words. The last word is not complete yet.
completed() {
    bash -c '
        . "$1"
        shift
        COMP_WORDS=("$@")
        COMP_CWORD=$(($# - 1))
        _git2show
        printf "%s\n" "${COMPREPLY[@]}"
    ' completion "$top/completions/git2show.bash" "$@" | sort
}

# The completions know the commands and the options of `--help`, and no others.
case_completions_are_those_of_the_help() {
    local command
    for command in show check serve fetch play; do
        git2show "$command" --help > help
        grep -o -E -- '--[a-z-]+' help | grep -v -x -e '--' | sort -u > options
        expect_same "what bash completes after $command" options <(completed git2show "$command" --)
        while read -r option; do
            grep -q -e "$option\b" "$top/completions/_git2show" || differs "zsh does not complete $option"
            [ "$option" = --help ] || grep -q -e " $command .*-l ${option#--} \|for command in.*$command" "$top/completions/git2show.fish" ||
                differs "fish does not complete $option"
        done < options
    done
    git2show --help | sed -n 's/^  \([a-z][a-z]*\) .*/\1/p' | sort > commands
    expect_same 'the commands' commands <(completed git2show '' | grep -v -e '^--')
    expect_same 'the formats' <(printf '%s\n' sha1 sha256) <(completed git2show check --format '')
    command -v zsh > /dev/null && { zsh -n "$top/completions/_git2show" || differs 'zsh does not read its completion'; }
    command -v fish > /dev/null && { fish -n "$top/completions/git2show.fish" || differs 'fish does not read its completion'; }
    true
}

# explained_check LINE..: that `check` of the files `requests` and `responses`, which reports an error in its first line, shows these below it.
explained_check() {
    run git2show check --explain requests responses
    expect_status 1
    expect_same 'what is explained' <(printf '%s\n' "$@") err
}

# The packets of the stream that is refused: at most four before the refused one, and none after it.
case_check_shows_the_packets_up_to_the_refused_one() {
    cp "$sessions/clone-requests.pkt" requests
    head -c 600 "$sessions/clone-responses.pkt" > responses
    explained_check 'git2show: responses: Truncated at 571' 'the packets of `responses` up to 571:' \
        '     350    58  data      9977b80e005f refs/heads/topic' \
        '     412   102  data      256d6ade9677 refs/tags/v1 peeled:1bc6dddeff81' '     518        flush' \
        '     522     9  section   packfile' '     535    32  progress  Enumerating objects: 13, done.'
    cp "$sessions/clone-responses.pkt" responses
    { packet command=fetch; packet agent=x; printf 0001; packet nothing; printf 0000; packet command=ls-refs; printf 0000; } > requests
    explained_check "git2show: requests: UnknownArgument at 34" 'the packets of `requests` up to 34:' \
        '       0    14  command   command=fetch' '      18     8  data      agent=x' '      30        delim' \
        '      34     8  data      nothing'
    mkfifo once
    cat requests > once &
    run git2show check --explain once responses
    rm once
    expect_same 'what is explained of a pipe' <(echo 'git2show: requests: UnknownArgument at 34') err
    printf 00g0 > requests
    explained_check 'git2show: requests: BadDigit at 2'
}

# A terminal gets the same without being asked, and a file only the error.
case_check_is_explained_on_a_terminal() {
    command -v script > /dev/null || return 0
    cp "$sessions/clone-responses.pkt" responses
    { packet command=fetch; printf zzzz; } > requests
    on_terminal 'NO_COLOR=1 git2show check requests responses > out'
    expect_same 'what is explained' <(printf '%s\n' 'git2show: requests: BadDigit at 18' 'the packets of `requests` up to 18:' \
        '       0    14  command   command=fetch') terminal
    run git2show check requests responses
    expect_same 'the error' <(echo 'git2show: requests: BadDigit at 18') err
}

# write_conversation: one with two requests, sections and bands, and a packet after the flush that ends the requests.
write_conversation() {
    {
        request peel
        fetch $one
        printf 0000
        packet left
    } > requests
    {
        packet 'version 2'
        packet ls-refs
        packet fetch
        printf 0000
        packet "$one refs/heads/main"
        printf 0000
        packet packfile
        printf '0009\001PACK'
        printf '000b\002half\r\n0000'
    } > responses
}

# Both streams in one, in the order of what was sent. What belongs to no request comes last.
case_a_conversation_is_shown_in_columns() {
    write_conversation
    run git2show check requests responses
    expect_status 0
    run git2show check --pretty requests responses
    cat > wanted << 'END'
<        0    10  data      version 2
<       14     8  data      ls-refs
<       26     6  data      fetch
<       36        flush
>        0    16  command   command=ls-refs
>       20        delim
>       24     5  data      peel
>       33        flush
<       40    57  data      111111111111 refs/heads/main
<      101        flush
>       37    14  command   command=fetch
>       55        delim
>       59    46  data      want 111111111111
>      109     5  data      done
>      118        flush
<      105     9  section   packfile
<      118     5  pack      PACK
<      127     7  progress  half\x0d
<      138        flush
>      122        flush
>      126     5  data      left
277 bytes, 21 packets, 2 requests, 4 bytes of packs
END
    expect 0 wanted /dev/null
    run git2show check --pretty --explain /dev/stdin responses < requests
    expect 0 wanted /dev/null
    run git2show check --pretty --no-pack requests responses
    expect 0 <(grep -v 'pack  ' wanted) /dev/null
    run git2show check --pretty --width 40 requests responses
    expect 0 <(sed -E '$!s/^(.{38}).{3,}/\1../' wanted) /dev/null
    # What the server sent after the last response: its first packet is refused.
    { packet more; packet again; } >> responses
    run git2show check --pretty requests responses
    expect 1 <(sed '$d' wanted; printf '%s\n' '<      142     5  data      more' '286 bytes, 22 packets, 2 requests, 4 bytes of packs') \
        <(fault 'responses: UnexpectedPacket at 142')
    run git2show check --pretty /dev/null <(:)
    expect 1 /dev/null <(fault File)
    run git2show check --pretty /dev/null /dev/null
    expect 1 <(echo '0 bytes, 0 packets, 0 requests, 0 bytes of packs') <(fault 'responses: Truncated at 0')
}

# Each response goes on to its response-end packet.
case_a_conversation_without_a_state_is_shown_in_columns() {
    { request; request; } > requests
    { packet 'version 2'; packet ls-refs; printf '0000'; printf '00000002'; packet "$one HEAD"; printf '00000002'; } > responses
    run git2show check --stateless --pretty requests responses
    expect 0 <(cat << 'END'
<        0    10  data      version 2
<       14     8  data      ls-refs
<       26        flush
>        0    16  command   command=ls-refs
>       20        delim
>       24        flush
<       30        flush
<       34        end
>       28    16  command   command=ls-refs
>       48        delim
>       52        flush
<       38    46  data      111111111111 HEAD
<       88        flush
<       92        end
152 bytes, 14 packets, 2 requests, 0 bytes of packs
END
    ) /dev/null
}

# refused_in_columns FAULT LINE: that the files `requests` and `responses` are refused by this fault, as without columns, that the packet with this
# line is the last one shown, and that all of it fits a screen.
refused_in_columns() {
    run git2show check requests responses
    expect_status 1
    expect_same 'what is reported without columns' <(fault "$1") err
    run git2show check --pretty --explain requests responses
    expect_status 1
    expect_same 'what is reported' <(fault "$1") err
    expect_same 'the last packet' <(echo "$2") <(tail -n 2 out | head -n 1)
    [ "$(wc -l < out)" -lt 24 ] || differs 'more than a screen' out
    ! grep -a -q -E '^.{81}|[^ -~]' out || differs 'a line that fits no screen' out
}

# Requests that are refused at the packet that shows it, and cut off.
case_a_conversation_with_a_refused_request_is_shown_up_to_it() {
    write_conversation
    { request peel; packet command=fetch; packet agent=x; printf 0001; packet nothing; printf 0000; request; } > requests
    refused_in_columns 'requests: UnknownArgument at 71' '>       71     8  data      nothing'
    { request peel; packet command=ls-refs; packet session-id=a; printf 0000; } > requests
    refused_in_columns 'requests: NotAdvertised at 57' '>       57    13  data      session-id=a'
    { request peel; packet command=bundle-uri; printf 0000; } > requests
    refused_in_columns 'requests: UnknownCommand at 37' '>       37    19  command   command=bundle-uri'
    { packet command=ls-refs; packet command=fetch; printf 0000; } > requests
    refused_in_columns 'requests: TwoCommands at 20' '>       20    14  command   command=fetch'
    { request peel; packet command=fetch; printf 0001; } > requests
    refused_in_columns 'requests: Truncated at 59' '>       55        delim'
    { request peel; printf 00; } > requests
    refused_in_columns 'requests: Truncated at 37' '<      101        flush'
    { request peel; packet command=fetch; printf 00g0; } > requests
    refused_in_columns 'requests: BadDigit at 57' '>       37    14  command   command=fetch'
    printf 00g0 > requests
    refused_in_columns 'requests: BadDigit at 2' '<       36        flush'
}

# Responses that are refused at the packet that shows it, and cut off.
case_a_conversation_with_a_refused_response_is_shown_up_to_it() {
    local offered
    write_conversation
    head -c 40 responses > advertisement
    { cat advertisement; packet 'ERR not today'; } > responses
    refused_in_columns 'responses: RemoteError at 40' '<       40    14  error     ERR not today'
    { cat advertisement; packet "$one refs/heads/main"; packet nothing; printf 0000; } > responses
    refused_in_columns 'responses: BadLine at 101' '<      101     8  data      nothing'
    { cat advertisement; packet "$one refs/heads/main"; printf 0000; packet packfile; printf '0009\001PA'; } > responses
    refused_in_columns 'responses: Truncated at 118' '<      105     9  section   packfile'
    { cat advertisement; packet "$one refs/heads/main"; printf 0000; } > responses
    refused_in_columns 'responses: Truncated at 105' '>      118        flush'
    head -c 26 advertisement > responses
    refused_in_columns 'responses: Truncated at 26' '<       14     8  data      ls-refs'
    { packet 'version 1'; packet ls-refs; printf 0000; } > responses
    refused_in_columns 'responses: NotVersion2 at 0' '<        0    10  data      version 1'
    { cat advertisement; printf 'HTTP'; } > responses
    refused_in_columns 'responses: BadDigit at 40' '>       33        flush'
    : > requests
    { cat advertisement; packet nothing; packet nothing; } > responses
    refused_in_columns 'responses: UnexpectedPacket at 40' '<       40     8  data      nothing'
}

# A recorded conversation that is damaged is judged as without columns, and up to the damaged packet it is shown as the whole one.
case_a_damaged_conversation_is_shown_up_to_the_damage() {
    local stream size number place judged before mark
    cp "$sessions/clone-requests.pkt" whole-requests
    cp "$sessions/clone-responses.pkt" whole-responses
    git2show check --pretty whole-requests whole-responses > whole
    for stream in requests responses; do
        git2show show < whole-$stream > whole-$stream.packets
        size=$(wc -c < whole-$stream)
        mark='<'
        [ $stream = responses ] || mark='>'
        for number in {0..24}; do
            place=$((size * number / 25))
            cp whole-requests requests
            cp whole-responses responses
            damaged whole-$stream $place > $stream
            run git2show check requests responses
            judged=$status
            cp err reported
            run git2show check --pretty requests responses
            expect_status $judged
            expect_same "what is reported after a damage at $place of the $stream" reported err
            before=$(sed -n "/^$mark *$(start_of_packet whole-$stream $place) /=" whole)
            expect_same "what is shown before byte $place of the $stream" <(head -n $((before - 1)) whole) <(head -n $((before - 1)) out)
        done
    done
}

# The files are read twice, so a pipe is refused before it is read. With --explain the reason is printed.
case_a_conversation_from_a_pipe_is_not_shown_in_columns() {
    write_conversation
    mkfifo once
    cat requests > once &
    run git2show check --pretty --explain once responses
    rm once
    expect 1 /dev/null <(fault File; echo '`once`: Illegal seek (os error 29)')
    run git2show check --pretty /dev/stdin responses < <(cat requests)
    expect 1 /dev/null <(fault File)
    expect_refused check --width 60 requests responses
    expect_refused check --no-pack requests responses
    expect_refused check --pretty --width 39 requests responses
}

# A terminal gets colours, if NO_COLOR does not forbid these, and no packet twice. Without the option it gets the transcript.
case_a_conversation_in_columns_has_colours_on_a_terminal() {
    command -v script > /dev/null || return 0
    write_conversation
    on_terminal 'git2show check --pretty requests responses'
    expect_status 0
    expect_line 'the terminal' $'>        0    16  \e[1;36mcommand\e[0m   command=ls-refs' terminal
    expect_line 'the terminal' $'<      118     5  \e[34mpack\e[0m      PACK' terminal
    expect_line 'the terminal' '277 bytes, 21 packets, 2 requests, 4 bytes of packs' terminal
    on_terminal 'NO_COLOR=1 git2show check --pretty --width 60 requests responses'
    expect_line 'the terminal' '>        0    16  command   command=ls-refs' terminal
    run git2show check requests responses
    on_terminal 'git2show check requests responses'
    expect_same 'the transcript' out terminal
    packet command=nothing > requests
    on_terminal 'git2show check --pretty requests responses > out'
    expect_status 1
    expect_same 'what is explained' <(fault 'requests: UnknownCommand at 0') terminal
    expect_same 'the last packet' <(echo '>        0    16  command   command=nothing') <(tail -n 2 out | head -n 1)
}
