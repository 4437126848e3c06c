# Cases in which programs use the library that `make install` installs: those of examples/ in C, Rust and Go, with the real Git and with
# streams of packets, and the C programs of this folder, which call each function. `NAME-watched` is a program that was built with
# sanitizers: its status shows memory that was touched but may not be, and memory that was not freed.

# What `make install` installs goes here.
installed=$room/installed

# write_examples: installs the program and the library, and builds the programs that use it. A case judges what a compiler prints.
write_examples() {
    local name
    make -s -C "$top" install PREFIX="$installed" PROGRAM="$program" LIBRARY="$library" RT="${RT:-rt}" >&2 ||
        stop 'what was built could not be installed'
    for name in check daemon fetch list packets upload-pack watch; do
        compile "$name" "$top/examples/$name.c"
    done
    compile frugal_daemon "$top/examples/daemon.c" -DMOST_KEPT=200
    compile library_calls "$top/tests/library_calls.c"
    compile library_requests "$top/tests/library_requests.c"
    compile library_arrays "$top/tests/library_arrays.c"
    compile library_writers "$top/tests/library_writers.c"
    compile library_host "$top/tests/library_host.c"
    compile library_checker "$top/tests/library_checker.c"
    compile library_threads "$top/tests/library_threads.c"
    compile library_memory "$top/tests/library_memory.c" -Wl,--wrap=malloc,--wrap=realloc,--wrap=free
    compile refused_memory "$top/tests/refused_memory.c" -Wl,--wrap=malloc,--wrap=calloc,--wrap=realloc,--wrap=free
}

# of_library OPTION..: what pkg-config prints for the installed library, or would print if there were a pkg-config.
of_library() {
    if command -v pkg-config > /dev/null; then
        PKG_CONFIG_PATH=$installed/lib/pkgconfig pkg-config "$@" gitwire
        return
    fi
    case $* in
    --cflags) echo "-I$installed/include" ;;
    --variable=archive) echo "$installed/lib/libgitwire.a" ;;
    *) echo "-I$installed/include -L$installed/lib -lgitwire" ;;
    esac
}

# compile NAME SOURCE [OPTION..]: builds a C program over the static library, and a watched one.
compile() {
    local name=$1 source=$2 flags
    shift 2
    read -r -a flags <<< "$(of_library --cflags) $(of_library --variable=archive)"
    {
        gcc -O2 -g -Wall -Wextra -Werror -o "bin/$name" "$source" "$@" "${flags[@]}" &&
            gcc -O1 -g -Wall -Wextra -Werror -fsanitize=address,undefined -fno-sanitize-recover=undefined -o "bin/$name-watched" \
                "$source" "$@" "${flags[@]}"
    } > "$name.said" 2>&1 || true
}

# under_valgrind COMMAND..: runs a program, under valgrind if there is one; it fails if it touches memory that it may not, or does not free
# all.
under_valgrind() {
    command -v valgrind > /dev/null || { run "$@"; return; }
    status=0
    timeout -k 5 120 valgrind -q --error-exitcode=99 --leak-check=full --errors-for-leak-kinds=definite,indirect,possible "$@" \
        > out 2> err || status=$?
}

case_library_is_installed_whole() {
    local file line
    for file in bin/git2show lib/libgitwire.a lib/libgitwire.so lib/pkgconfig/gitwire.pc share/man/man1/git2show.1 \
        share/man/man5/git2show.5 $(cd "$top/man" && printf 'share/man/man3/%s ' *.3) \
        share/bash-completion/completions/git2show share/zsh/site-functions/_git2show \
        share/fish/vendor_completions.d/git2show.fish share/doc/gitwire/{PROTOCOL,PROMISES,STEPS}.md share/doc/gitwire/repository-text.sh \
        $(cd "$top" && printf 'share/doc/gitwire/%s ' examples/* && find include -name '*.h'); do
        [ -s "$installed/$file" ] || differs "no $file"
    done
    for file in bin/git2show share/doc/gitwire/{repository-text.sh,examples/http-backend.sh,examples/packets.py}; do
        [ -x "$installed/$file" ] || differs "no program $file"
    done
    run "$installed/bin/git2show" --version
    expect 0 <(echo 'git2show 0.3.0') /dev/null
    expect_same 'the library of pkg-config' <(echo "-I$installed/include -L$installed/lib -lgitwire") \
        <(of_library --cflags --libs | sed 's/ *$//')
    expect_same 'the archive of pkg-config' <(echo "$installed/lib/libgitwire.a") <(of_library --variable=archive)
    for line in "prefix=$installed" 'libdir=${prefix}/lib' 'includedir=${prefix}/include' 'archive=${libdir}/libgitwire.a' 'Version: 0.3.0' \
        'Libs: -L${libdir} -lgitwire' 'Cflags: -I${includedir}'; do
        expect_line 'what pkg-config tells' "$line" "$installed/lib/pkgconfig/gitwire.pc"
    done
    printf '#include <gitwire.h>\nGITWIRE_VERSION %s\n' 'GITWIRE_VERSION_MAJOR GITWIRE_VERSION_MINOR GITWIRE_VERSION_PATCH' |
        gcc -E -P -I"$installed/include" - > preprocessed
    expect_same 'the version of the header' <(echo '"0.3.0" 0 3 0') <(tail -n 1 preprocessed)
}

# DESTDIR comes before each path, and in no file.
case_library_is_installed_below_another_folder() {
    run make -s -C "$top" install DESTDIR="$room/staged" PREFIX=/usr PROGRAM="$program" LIBRARY="$library" RT="${RT:-rt}"
    expect_status 0
    expect_same 'standard error' /dev/null err
    expect_same 'what is reported' <(printf 'make install: takes %s as it was built\n' "$program" "$library") \
        <(sed 's/, though .* is newer$//' out)
    expect_line 'what pkg-config tells' prefix=/usr staged/usr/lib/pkgconfig/gitwire.pc
    expect_same 'what is installed' <(cd "$installed" && find . ! -type d | sort) <(cd staged/usr && find . ! -type d | sort)
}

# What is missing is built, after a report, with a line for each crate on the way. This `rt` copies what was built already: the library for
# `rt lib`, the program for `rt run`.
case_library_that_is_not_built_is_told() {
    local told='is not there: it is proved with all that it stands on, and built, which can take half an hour and more'
    mkdir -p unbuilt/crates/{git_names,git_pkt,git2show,gitwire}/src
    cp -r "$top"/{Makefile,crates.txt,gitwire.map,gitwire.pc.in,c,completions,docs,include,man,sample,examples} unbuilt
    printf '%s\n' '#!/bin/sh' 'case $1 in' "doc) exec ${RT:-rt} doc ;;" "lib) it=libgitwire.a from=$library ;;" \
        "run) it=git2show from=$program ;;" esac 'mkdir -p out && cp "$from" "out/$it"' > bin/no-rt
    chmod +x bin/no-rt
    run make -s -C unbuilt install PREFIX="$room/built" RT="$room/bin/no-rt"
    expect_status 0
    expect_same 'what is reported' <(
        printf "make install: %s $told\n" crates/git2show/out/git2show
        echo 'make program: proves and builds the program, which takes half an hour and more the first time'
        printf 'crate %s\n' '1 of 3: git_names' '2 of 3: git_pkt' '3 of 3: git2show'
        printf "make install: %s $told\n" crates/gitwire/out/libgitwire.a
        printf 'crate %s\n' '1 of 3: git_names' '2 of 3: git_pkt' '3 of 3: gitwire'
        printf 'make install: takes %s as it was built\n' crates/git2show/out/git2show crates/gitwire/out/libgitwire.a
    ) out
    expect_same 'what is installed' <(cd "$installed" && find . ! -type d | sort) <(cd built && find . ! -type d | sort)
}

# calls_of_the_header: their names.
calls_of_the_header() {
    sed -n 's/^[a-z_0-9 ]* \**\(gitwire_[a-z_]*\)(.*/\1/p' "$installed"/include/gitwire/*.h | sort
}

# calls_for_c: the names of the calls that only c/gitwire.c makes: `_clear` of each kind of handle, and what it declares itself.
calls_for_c() {
    sed -n -e 's/^FREES(\(gitwire_[a-z_]*\))$/\1_clear/p' \
        -e 's/^[a-z_]* \(gitwire_[a-z_]*_\(init\|init_filtered\|init_lent\|init_lent_filtered\|clear\|lend\|words\|text\)\)(.*/\1/p' "$top/c/gitwire.c"
}

case_library_has_the_calls_of_its_header() {
    calls_of_the_header > calls
    [ -s calls ] || differs 'no call in the header'
    calls_for_c > calls_inside
    [ "$(wc -l < calls_inside)" -ge 20 ] || differs 'too few calls that are not in the header' calls_inside
    nm -g --defined-only "$installed/lib/libgitwire.a" | awk '$2 == "T" && $3 ~ /^gitwire_/ { print $3 }' | sort > written
    expect_same 'the calls of the library' <(sort calls calls_inside) written
}

# The shared library has the name that programs look for, shows the calls of the header with their version and nothing else, and depends only on
# the C library. None of its code is written to when it is loaded.
case_shared_library_shows_the_calls_of_its_header_alone() {
    local it=$installed/lib/libgitwire.so
    readelf -W --dyn-syms "$it" | awk '$5 == "GLOBAL" && $7 != "UND" && $7 != "ABS" { print $8 }' | sort > written
    expect_same 'what the shared library shows' <(calls_of_the_header | sed 's/$/@@GITWIRE_0.3/' | sort) written
    objdump -p "$it" > parts
    expect_same 'what it is called' <(echo libgitwire.so.1) <(awk '$1 == "SONAME" { print $2 }' parts)
    expect_same 'what it needs' <(echo libc.so.6) <(awk '$1 == "NEEDED" { print $2 }' parts)
    ! grep -q TEXTREL parts || differs 'code that is written to' parts
    expect_same 'the links to it' <(printf '%s\n' libgitwire.so.1 libgitwire.so.0.3.0) \
        <(readlink "$it" "$installed/lib/libgitwire.so.1")
}

# shared COMMAND..: runs a program over the shared library.
shared() {
    LD_LIBRARY_PATH=$installed/lib run "$@"
}

# Each call is made over the shared library too. A program names the version of the calls that it was linked with.
case_programs_take_the_shared_library() {
    local flags name
    read -r -a flags <<< "$(of_library --cflags --libs)"
    gcc -O2 -o bin/list-shared "$top/examples/list.c" "${flags[@]}"
    shared ldd bin/list-shared
    grep -q -F "libgitwire.so.1 => $installed/lib/libgitwire.so.1 " out || differs 'a program without the shared library' out
    readelf -W -V bin/list-shared > parts
    grep -q 'Name: GITWIRE_0\.3 ' parts || differs 'a program without the version of its calls' parts
    for name in library_calls library_requests library_writers library_host library_checker; do
        gcc -O2 -o "bin/$name-shared" "$top/tests/$name.c" "${flags[@]}"
        shared "$name-shared"
        expect 0 /dev/null /dev/null
    done
    shared list-shared history-sha1
    expect 0 <(git ls-remote --symref ./history-sha1) /dev/null
}

# Each part of the header compiles alone, and all of them do together.
case_library_header_stands_alone() {
    local language part
    for language in c:c11 c:c17 c++:c++11 c++:c++17; do
        [ "${language%%:*}" = c ] || command -v g++ > /dev/null || continue
        for part in $(cd "$installed/include" && printf '%s ' gitwire.h gitwire/*.h); do
            run gcc -x "${language%%:*}" -std="${language##*:}" -pedantic -Wall -Wextra -Wconversion -Werror -fsyntax-only - \
                -I"$installed/include" <<< "#include <$part>
                extern gitwire_answer answer;"
            expect 0 /dev/null /dev/null
        done
    done
}

# The calls, numbers and structs of 0.3.0 are as they were: the page with them compiles with the header, and the shared library has its calls, each with
# its version; no call is missing in it.
case_library_keeps_the_interface_of_0_3() {
    run gcc -x c -std=c11 -Wall -Wextra -Werror -fsyntax-only -I"$installed/include" "$top/tests/abi-0.3"
    expect 0 /dev/null /dev/null
    sed -n -e '/^\/\* GITWIRE_/h' -e '/^[a-z_0-9 ]* \**gitwire_[a-z_]*(/{s/^[a-z_0-9 ]* \**\(gitwire_[a-z_]*\)(.*/\1/;G;s/\n\/\* \([A-Z_0-9.]*\).*/@@\1/;p}' \
        "$top/tests/abi-0.3" | sort > wanted
    [ "$(wc -l < wanted)" -ge 88 ] || differs 'too few calls in tests/abi-0.3' wanted
    readelf -W --dyn-syms "$installed/lib/libgitwire.so" | awk '$8 ~ /^gitwire_/ { print $8 }' | sort > written
    expect_same 'the calls of the shared library' wanted written
}

# compiles COMPILER LANGUAGE:STANDARD STATEMENTS: runs a compiler on a function with these statements.
compiles() {
    local language=$2
    run "$1" -x "${language%%:*}" -std="${language##*:}" -pedantic -Wall -Wextra -Wconversion -Werror -fsyntax-only - -I"$installed/include" <<< "
        #include <gitwire.h>
        extern gitwire_client *client;
        extern gitwire_checker *checker;
        extern gitwire_request *request;
        extern gitwire_host *host;
        extern gitwire_writer *writer;
        extern gitwire_event event;
        extern gitwire_format format;
        extern gitwire_ending ending;
        extern uint8_t buffer[GITWIRE_PACKET_SIZE];
        extern char text[GITWIRE_REFERENCE_NAME_SIZE];
        bool is_well(void);
        bool is_well(void) { $3 }"
}

# Statements with numbers in their places, and after each one with a number of another kind.
statements_with_numbers() {
    cat << 'end'
{ return gitwire_client_new(&client, format, ending) == GITWIRE_DONE; }
{ return gitwire_client_new(&client, ending, format) == GITWIRE_DONE; }
{ return gitwire_client_new(&client, GITWIRE_SHA1, GITWIRE_ENDS_BY_FLUSH) == GITWIRE_DONE; }
{ return gitwire_client_new(&client, GITWIRE_ENDS_BY_FLUSH, GITWIRE_SHA1) == GITWIRE_DONE; }
{ return gitwire_checker_new(&checker, format, ending, 0) == GITWIRE_DONE; }
{ return gitwire_checker_new(&checker, ending, format, 0) == GITWIRE_DONE; }
{ return gitwire_checker_close(checker, GITWIRE_STREAM_RESPONSES) == GITWIRE_DONE; }
{ return gitwire_checker_close(checker, GITWIRE_RESPONSE_END) == GITWIRE_DONE; }
{ return gitwire_request_new(&request, GITWIRE_FETCH, GITWIRE_SHA1, 0) == GITWIRE_DONE; }
{ return gitwire_request_new(&request, GITWIRE_SHA1, GITWIRE_FETCH, 0) == GITWIRE_DONE; }
{ return gitwire_host_new(&host, GITWIRE_SHA1, GITWIRE_FEATURE_SHALLOW, 0, true) == GITWIRE_DONE; }
{ return gitwire_host_new(&host, GITWIRE_FEATURE_SHALLOW, GITWIRE_SHA1, 0, true) == GITWIRE_DONE; }
{ gitwire_command command = gitwire_request_command(request); return command == GITWIRE_FETCH; }
{ gitwire_result command = gitwire_request_command(request); return command == GITWIRE_DONE; }
{ gitwire_format its_format = gitwire_request_format(request); return its_format == format; }
{ gitwire_command its_format = gitwire_request_format(request); return its_format == GITWIRE_FETCH; }
{ gitwire_command command = gitwire_host_command(host); return command == GITWIRE_LS_REFS; }
{ gitwire_ending command = gitwire_host_command(host); return command == ending; }
{ return gitwire_request_flag(request, GITWIRE_FLAG_PEEL); }
{ return gitwire_request_flag(request, GITWIRE_LIST_WANTS); }
{ return gitwire_request_number(request, GITWIRE_NUMBER_DEEPEN).kind == GITWIRE_DONE; }
{ return gitwire_request_number(request, GITWIRE_FLAG_DEEPEN_RELATIVE).kind == GITWIRE_DONE; }
{ return gitwire_host_item(host, GITWIRE_LIST_WANTS, 0, text, sizeof text).kind == GITWIRE_DONE; }
{ return gitwire_host_item(host, GITWIRE_FLAG_PEEL, 0, text, sizeof text).kind == GITWIRE_DONE; }
{ return gitwire_client_advertises(client, GITWIRE_KEY_AGENT); }
{ return gitwire_client_advertises(client, GITWIRE_FEATURE_UNBORN); }
{ return gitwire_event_part(&event, GITWIRE_PART_NAME, buffer, buffer).length > 0; }
{ return gitwire_event_part(&event, GITWIRE_KEY_AGENT, buffer, buffer).length > 0; }
{ return gitwire_put_band(writer, GITWIRE_BAND_PACK, buffer, 1, buffer, 0).kind == GITWIRE_DONE; }
{ return gitwire_put_band(writer, GITWIRE_PACK, buffer, 1, buffer, 0).kind == GITWIRE_DONE; }
{ gitwire_fault fault = gitwire_host_pull(host, buffer, sizeof buffer).fault; return fault == GITWIRE_FAULT_NOT_OURS; }
{ gitwire_fault fault = gitwire_host_pull(host, buffer, sizeof buffer).kind; return fault == GITWIRE_FAULT_NOT_OURS; }
{ return *gitwire_fault_name(GITWIRE_FAULT_TRUNCATED) != 0; }
{ return *gitwire_fault_name(GITWIRE_FAILED) != 0; }
end
}

# A number of one kind in the place of another is refused: in C by a warning that -Wextra has, in C++ by an error.
case_library_header_has_a_type_for_each_kind_of_number() {
    local compiler language wrong
    for compiler in gcc clang; do
        command -v $compiler > /dev/null || continue
        for language in c:c11 c++:c++17; do
            [ "${language%%:*}" = c ] || command -v g++ > /dev/null || continue
            compiles $compiler $language "$(statements_with_numbers | sed -n 1~2p)"
            expect 0 /dev/null /dev/null
            while read -r wrong; do
                compiles $compiler $language "$wrong"
                expect_status 1
                grep -q -E 'enum-conversion|cannot (convert|initialize)|no matching function' err || differs "what $compiler reports of $wrong" err
            done < <(statements_with_numbers | sed -n 2~2p)
        done
    done
}

case_library_programs_compile_without_a_word() {
    local name
    for name in check daemon fetch list packets upload-pack watch library_{calls,requests,arrays,writers,host,checker,threads,memory} refused_memory; do
        expect_same "what the compiler prints for $name" /dev/null "$name.said"
    done
}

# The programs are C11 and C++17 alike: their parts can be copied into a program in either language.
case_examples_compile_as_c_and_as_cpp() {
    local compiler options source
    for compiler in gcc clang g++ clang++; do
        command -v $compiler > /dev/null || continue
        case $compiler in
        *++) options=(-x c++ -std=c++17) ;;
        *) options=(-x c -std=c11) ;;
        esac
        for source in "$top"/examples/*.c; do
            run $compiler "${options[@]}" -Wall -Wextra -Wconversion -Wpedantic -Werror -fsyntax-only -I"$installed/include" "$source"
            expect 0 /dev/null /dev/null
        done
    done
}

# The options in a command's help are in the manual page, in the part on that command.
case_manual_page_has_each_option() {
    local command option
    for command in show check serve fetch play; do
        sed -n "/^\.SS git2show $command/,/^\.S/p" "$installed/share/man/man1/git2show.1" | sed 's/\\-/-/g' > part
        grep -o -E -e '--[a-z]+(-[a-z]+)*' part | sort -u > described
        git2show "$command" --help | grep -o -E -e '--[a-z]+(-[a-z]+)*' | grep -v -x -e --help | sort -u > options
        [ -s options ] || differs "no option of $command"
        while read -r option; do
            differs "a part on $command without $option" part
        done < <(comm -23 options described)
    done
    is_well_written man1/git2show.1
}

# is_well_written PAGE: that `man` reports nothing on a manual page.
is_well_written() {
    command -v man > /dev/null || return 0
    run env MANWIDTH=80 man --warnings -l "$installed/share/man/$1"
    expect_status 0
    expect_same "what man reports on $1" /dev/null err
}

# Each call is in one page of section 3, with the prototype of the installed header, and `man` finds that page by the call's name.
case_manual_pages_have_each_call() {
    local page call
    run "$top/tests/manual_pages.py" "$installed/include/gitwire" "$installed/share/man/man3"
    expect 0 /dev/null /dev/null
    for page in "$top"/man/gitwire*.3; do
        is_well_written "man3/${page##*/}"
    done
    while read -r call; do
        grep -q "^\.BR $call ()" "$installed/share/man/man3/$call.3" || differs "no page named $call"
    done < <(sed -n 's/^\t\t\(gitwire_[a-z_0-9]*\);$/\1/p' "$top/gitwire.map")
}

# The examples of these pages compile; those that are whole programs run, and print what the library has them print.
case_examples_of_the_manual_pages_compile() {
    local name flags
    read -r -a flags <<< "$(of_library --cflags) $(of_library --variable=archive)"
    mkdir -p of_pages
    "$top/tests/manual_pages.py" --examples "$installed/share/man/man3" of_pages
    for name in $(cd of_pages && printf '%s\n' *.c | sed 's/\.c$//'); do
        run gcc -std=c11 -pedantic -Wall -Wextra -Werror -c -o "of_pages/$name.o" "of_pages/$name.c" "-I$installed/include"
        expect 0 /dev/null /dev/null
        ! grep -q '^int main' "of_pages/$name.c" || gcc -fsanitize=address,undefined -o "bin/of-$name" "of_pages/$name.c" "${flags[@]}"
    done
    run of-gitwire
    expect 0 <(echo refs/heads/main) /dev/null
    run of-gitwire_checker
    expect 0 <(printf '%s\n' 'capability ls-refs' offered 'request ls-refs' 'end 0 0') /dev/null
    run of-gitwire_greeting
    expect 0 <(echo '/project.git by version 2') /dev/null
    run of-gitwire_packets
    expect 0 <(echo hello) /dev/null
    run of-gitwire_repository
    expect 0 <(echo 'line 2 of the text is refused') /dev/null
    run of-gitwire_writer
    expect 0 <(packet 'ERR this server is closed until Monday') /dev/null
}

case_library_calls_tell_what_the_header_says() {
    local name
    for name in library_calls library_requests library_writers library_host library_checker; do
        run "$name-watched"
        expect 0 /dev/null /dev/null
        under_valgrind "bin/$name"
        expect 0 /dev/null /dev/null
    done
}

# reads_alike PROGRAM FORMAT ENDING NAME: that single calls and those that fill an array read a recorded conversation alike.
reads_alike() {
    run "$1" "$2" "$3" "$4-requests.pkt" "$4-responses.pkt"
    expect 0 /dev/null /dev/null
}

case_library_arrays_have_what_single_calls_give() {
    local sessions=$top/crates/worked_conversations/data/sessions name
    for name in "$sessions"/{clone,negotiation,shallow,deepening,wanted-references,refused} "$top"/sample/git-client/{clone,shallow-clone,fetch}; do
        reads_alike library_arrays sha1 flush "$name"
    done
    reads_alike library_arrays sha256 flush "$sessions/clone-of-sha256"
    reads_alike library_arrays sha1 response-end "$sessions/stateless"
    reads_alike library_arrays-watched sha1 flush "$sessions/shallow"
    run library_arrays sha1 flush
    expect_status 2
}

# The thread sanitizer sees what a program and c/gitwire.c touch, and the order of locks and of memory's calls; of the library's own code it sees nothing.
case_library_serves_in_several_threads() {
    local flags
    run library_threads-watched
    expect 0 /dev/null /dev/null
    under_valgrind bin/library_threads
    expect 0 /dev/null /dev/null
    read -r -a flags <<< "$(of_library --cflags) $(of_library --variable=archive)"
    gcc -O1 -g -fsanitize=thread -o bin/library_threads-tsan "$top/tests/library_threads.c" "$top/c/gitwire.c" "${flags[@]}"
    run library_threads-tsan
    expect 0 /dev/null /dev/null
}

case_library_takes_the_memory_of_its_program() {
    run library_memory
    expect 0 /dev/null /dev/null
    under_valgrind bin/library_memory
    expect 0 /dev/null /dev/null
}

# The program prints how often each kind of handle asks for memory, and each that breaks off: once at the least.
case_library_frees_all_where_memory_is_refused() {
    run refused_memory-watched
    expect_status 0
    expect_same 'standard error' /dev/null err
    grep -q -x -E '[1-9][0-9]*( [1-9][0-9]*){15}' out || differs 'what was printed' out
    under_valgrind bin/refused_memory
    expect_status 0
}

# Packets of each kind, and one of each byte.
every_packet() {
    printf '00000001000200040005a'
    printf '0104'
    printf "$(printf '\\x%02x' {0..255})"
    printf '0006%s\n0000' 'a'
}

# lists_as_show COMMAND..: that a program lists the packets of streams, good ones and bad ones, as `git2show show` does, and reports the
# same error; and that it accepts no other word than a number of bytes.
lists_as_show() {
    local stream piece wanted_status faults=0
    every_packet > every.pkt
    : > nothing.pkt
    for stream in 0006a\\n000 0006a\\n00g0 0003 0006a\\nfff1 0008a; do
        printf "$stream" > "fault-$((++faults)).pkt"
    done
    for stream in every.pkt nothing.pkt fault-*.pkt "$top/sample/conversation.pkt" "$top/sample/requests.pkt"; do
        run git2show show < "$stream"
        cp out wanted
        sed 's/^git2show:/packets:/' err > wanted_err
        wanted_status=$status
        for piece in 1 5 65536; do
            run "$@" "$piece" < "$stream"
            expect "$wanted_status" wanted wanted_err
        done
    done
    for piece in 0 65537 5x x ''; do
        run "$@" "$piece" < /dev/null
        expect 2 /dev/null <(echo 'usage: packets [BYTES]')
    done
}

# tells_a_full_device NAME WORD..: that a program reports a full output device.
tells_a_full_device() {
    status=0
    limited "$1-watched" "${@:2}" > /dev/full 2> err || status=$?
    expect_status 1
    expect_line "standard error of $1" "$1: the output cannot be written" err
}

case_packets_are_listed_by_a_program_in_c() {
    lists_as_show packets-watched
    run packets-watched < .
    expect 1 /dev/null <(echo 'packets: the input cannot be read')
    tells_a_full_device packets < every.pkt
    tells_a_full_device packets < fault-2.pkt
    expect_line 'standard error' 'packets: BadDigit at 8' err
}

case_packets_are_listed_under_valgrind() {
    every_packet > every.pkt
    under_valgrind bin/packets 3 < every.pkt
    expect 0 <(git2show show < every.pkt) /dev/null
    under_valgrind bin/packets < <(printf '0008a')
    expect 1 /dev/null <(echo 'packets: Truncated at 0')
}

# If there is a compiler of Rust. One that rustup keeps needs its owner's home.
case_packets_are_listed_by_a_program_in_rust() {
    HOME=$own_home rustc --version || return 0
    HOME=$own_home rustc -O --edition 2021 -D warnings "$top/examples/packets.rs" -o bin/packets-rust \
        -L "native=$installed/lib" -l static=gitwire
    lists_as_show packets-rust
    under_valgrind bin/packets-rust < every.pkt
    expect 0 <(git2show show < every.pkt) /dev/null
}

case_packets_are_listed_by_a_program_in_go() {
    go version && command -v pkg-config || return 0
    PKG_CONFIG_PATH=$installed/lib/pkgconfig GOPATH=$room/go GOCACHE=$room/go/cache GOFLAGS=-mod=mod \
        go build -o bin/packets-go "$top/examples/packets.go"
    lists_as_show env LD_LIBRARY_PATH="$installed/lib" packets-go
    chmod -R u+w go
}

case_packets_are_listed_by_a_program_in_python() {
    lists_as_show env LD_LIBRARY_PATH="$installed/lib" "$installed/share/doc/gitwire/examples/packets.py"
}

# checked_in_python STREAMS OPTION..: runs the bindings for Python on a recorded conversation.
checked_in_python() {
    run env LD_LIBRARY_PATH="$installed/lib" "$installed/share/doc/gitwire/examples/gitwire.py" "${@:2}" "$1-requests.pkt" "$1-responses.pkt"
}

# judges_as_check STREAMS OPTION..: that the bindings for Python judge a recorded conversation as `check` does, by the client and by the checker.
judges_as_check() {
    local streams=$1 wanted_status
    shift
    run git2show check "${@/--sha256/--format=sha256}" "$streams-requests.pkt" "$streams-responses.pkt"
    cp out wanted
    cp err wanted_fault
    wanted_status=$status
    checked_in_python "$streams" "$@"
    expect "$wanted_status" wanted <(sed 's/^git2show: responses: /gitwire.py: /' wanted_fault)
    checked_in_python "$streams" --checker "$@"
    expect "$wanted_status" wanted <(sed 's/^git2show: /gitwire.py: /' wanted_fault)
}

# Where there is a Python.
case_conversations_are_judged_by_a_program_in_python() {
    local sessions=$top/crates/worked_conversations/data/sessions name
    command -v python3 > /dev/null || return 0
    for name in clone negotiation shallow deepening wanted-references refused; do
        judges_as_check "$sessions/$name"
    done
    judges_as_check "$sessions/clone-of-sha256" --sha256
    judges_as_check "$sessions/stateless" --stateless
    head -c 1000 "$sessions/clone-responses.pkt" > short-responses.pkt
    cp "$sessions/clone-requests.pkt" short-requests.pkt
    judges_as_check short
    # What the client does not know, and the end of requests, are the checker's alone.
    write_another_command
    mv requests other-requests.pkt
    mv responses other-responses.pkt
    checked_in_python other --checker
    expect 0 wanted empty
    truncate -s 26 other-requests.pkt
    checked_in_python other --checker
    expect 1 <(head -n 3 wanted) <(echo 'gitwire.py: requests: Truncated at 24')
}

# lists_from_git FOLDER WORD..: that our client lists what Git does of a repository, and ends well.
lists_from_git() {
    local folder=$1
    shift
    git ls-remote --symref "./$folder" > list
    run list-watched "$@" "$folder"
    expect 0 list /dev/null
}

case_a_client_in_c_lists_what_git_serves() {
    lists_from_git history-sha1
    [ "$(wc -l < list)" -gt 12 ] || differs 'a list that is too short' list
    lists_from_git history-sha256 --sha256
    cp -r history-sha1 ./-folder
    lists_from_git -folder
    run list-watched history-sha1 refs/tags/ refs/heads/to
    expect 0 <(git ls-remote ./history-sha1 'refs/tags/*' refs/heads/topic) /dev/null
    git init -q void
    run list-watched void
    expect 0 /dev/null /dev/null
    under_valgrind bin/list history-sha1
    expect 0 <(git ls-remote --symref ./history-sha1) /dev/null
}

case_a_client_in_c_tells_what_is_wrong() {
    run list-watched nowhere
    expect_status 1
    expect_line 'standard error' 'list: Truncated at 0' err
    grep -q '^the input ended inside a packet' err || differs 'no sentence on Truncated' err
    run list-watched history-sha256
    expect_status 1
    grep -q '^list: WrongFormat at [0-9]*$' err || differs 'no WrongFormat' err
    run list-watched history-sha1 "$(printf '%032001d' 0)"
    expect 1 /dev/null <(echo 'list: a prefix is too long')
    tells_a_full_device list history-sha1
    run list-watched
    expect_status 2
}

# fetches_from_git FORMAT FOLDER: that the client in C fetches what can be reached from a branch of a repository, and prints its object.
fetches_from_git() {
    local id
    id=$(git -C "$2" rev-parse refs/heads/main)
    run fetch-watched "$2" refs/heads/main pack
    expect 0 <(echo "$id") /dev/null
    is_whole "$1" "$2" "$id"
}

case_a_client_in_c_fetches_a_pack() {
    fetches_from_git sha1 history-sha1
    fetches_from_git sha256 history-sha256
    fetches_from_git sha1 heavy
    under_valgrind bin/fetch history-sha1 HEAD pack
    expect 0 <(git -C history-sha1 rev-parse HEAD) /dev/null
}

case_a_client_in_c_tells_why_it_fetches_nothing() {
    run fetch-watched history-sha1 refs/heads/nowhere pack
    expect 1 /dev/null <(echo 'fetch: no such reference')
    run fetch-watched nowhere HEAD pack
    expect_status 1
    expect_line 'standard error' 'fetch: Truncated at 0' err
    run fetch-watched heavy HEAD /dev/full
    expect 1 /dev/null <(echo 'fetch: the pack cannot be written')
    run fetch-watched history-sha1 HEAD nowhere/pack
    expect 1 /dev/null <(echo 'fetch: the pack cannot be opened')
    run fetch-watched history-sha1 HEAD
    expect_status 2
}

# lied_to COMMAND..: runs a client in C with a server that sends the contents of `said`, whatever it is asked.
lied_to() {
    mkdir -p lying
    printf '%s\n' '#!/bin/sh' "cat $room/said" 'exec cat > /dev/null' > lying/git
    chmod +x lying/git
    PATH=$room/lying:$PATH run "$@"
}

# No byte that a server sends reaches a terminal, except letters.
case_a_client_in_c_lists_no_control_byte() {
    {
        advertisement sha1
        packet "$one "$'refs/heads/\xc2\x9b31m symref-target:refs/heads/\xc3\xa4rger'
        packet "$two refs/tags/v1 peeled:$one"
        printf 0000
    } > said
    lied_to list-watched anywhere
    expect 0 <(printf '%s\t%s\n' 'ref: refs/heads/\xc3\xa4rger' 'refs/heads/\xc2\x9b31m' "$one" 'refs/heads/\xc2\x9b31m' \
        "$two" refs/tags/v1 "$one" 'refs/tags/v1^{}') /dev/null
}

case_a_client_in_c_shows_an_error_on_one_line() {
    printf '0018ERR no \033]0;x\a\n\xff way\n' > said
    lied_to list-watched anywhere
    expect 1 /dev/null <(echo 'list: RemoteError at 0: no \x1b]0;x\x07\n\xff way')
    lied_to fetch-watched anywhere HEAD pack
    expect 1 /dev/null <(echo 'fetch: RemoteError at 0: no \x1b]0;x\x07\n\xff way')
    printf '0008ERR ' > said
    lied_to list-watched anywhere
    expect 1 /dev/null <(echo 'list: RemoteError at 0: ')
}

# Its lines end as they were sent, also if a new one takes the place of the last.
case_a_client_in_c_shows_no_control_byte_of_the_progress() {
    command -v script > /dev/null || return 0
    {
        advertisement sha1
        packet "$one HEAD"
        printf 0000
        packet packfile
        printf '%b' '0016\002half \033]0;x\a\rdone\n' '000a\002\xc2\x9b31m' '000a\001PACK!0000'
    } > said
    lied_to script -q -e -c 'fetch-watched anywhere HEAD pack' /dev/null
    expect_status 0
    expect_same 'what the terminal gets' <(printf '%s\r' 'half \x1b]0;x\x07' && printf '%s\n' 'done' '\xc2\x9b31m'"$one") \
        <(sed 's/\r$//' out)
    expect_same 'the pack' <(printf 'PACK!') pack
}
