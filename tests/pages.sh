# The pages of this repository, compared with what they describe.

# pages: prints the pages of this repository.
pages() {
    find "$top" \( -name .git -o -name out \) -prune -o -name '*.md' -print
}

# links_of PAGE: prints the files that a page links to, as it names them.
links_of() {
    grep -o -E '\]\([^)#]+[)#]' "$1" | sed -E 's/^\]\(//; s/[)#]$//' | grep -v -E '^[a-z]+:' || true
}

case_the_list_of_wrong_bodies_is_that_of_the_edits() {
    run "$top/wrong-bodies/table.py" --check
    expect_status 0
    expect_same 'standard error' /dev/null err
}

# The page names an edit by three words or more with `-` between them, and a test by four or more with `_`.
case_each_wrong_body_and_test_that_a_page_names_is_there() {
    local name
    for name in $(grep -o -E '`[a-zA-Z0-9_]+(-[a-zA-Z0-9_]+){2,}`' "$top/docs/WRONG_BODIES.md" | tr -d '`'); do
        compgen -G "$top/crates/*/must-fail/$name.edit" > page_matches || compgen -G "$top/wrong-bodies/*/$name.edit" > page_matches || differs "no edit $name"
    done
    cat "$top"/crates/*/src/*.rt "$top"/crates/*/specs/Machine/*.antt "$top"/tests/*.sh > page_sources
    for name in $(grep -o -E '`[a-z0-9]+(_[a-z0-9]+){3,}`' "$top/docs/WRONG_BODIES.md" | tr -d '`'); do
        grep -q -w -F -e "$name" page_sources || differs "no test $name"
    done
}

# A name is a word in backticks, as of a function, a clause, a law, a definition or a file of specs/.
case_each_name_that_the_promises_and_decisions_cite_is_in_the_sources() {
    (cd "$top" && find crates -name '*.rt' -o -path '*/specs/*.antt') | sed "s|^|$top/|" | tr '\n' '\0' | xargs -0 cat > page_sources
    cat "$top/include/gitwire.h" "$top"/include/gitwire/*.h "$top/c/gitwire.c" "$top/crates.txt" "$top/Makefile" "$top/man/git2show.1" >> page_sources
    ls "$top" >> page_sources
    grep -o -E '[A-Za-z_][A-Za-z0-9_]*' page_sources | sort -u > page_words
    grep -o -h -E '`[A-Za-z_][A-Za-z0-9_:]*`' "$top/docs/PROMISES.md" "$top/docs/DECISIONS.md" | tr -d '`' | sed 's/.*:://' | sort -u > page_names
    comm -23 page_names page_words > page_matches
    expect_same 'the names that no source has' /dev/null page_matches
}

# part_of_the_page SECTION: a section of git2show(5), as it is read.
part_of_the_page() {
    sed -n "/^\.SH $1/,/^\.SH/p" "$top/man/git2show.5" | sed 's/\\-/-/g'
}

# words_of_the_page SECTION: the first words of the lines that a section of git2show(5) describes.
words_of_the_page() {
    part_of_the_page "$1" | grep -A 1 -x -F .TP | grep -o -E '\\fB[a-z-]+\\fR( |$|,|\[)|, \\fB[a-z-]+\\fR' | sed -E 's/.*\\fB([a-z-]+)\\fR.*/\1/' | sort -u
}

# rows_of_the_table HEADING COLUMN: a column of the table of PROTOCOL.md with this heading.
rows_of_the_table() {
    sed -n "/^| $1 |/,/^\$/p" "$top/docs/PROTOCOL.md" | tail -n +3 | cut -d '|' -f "$2"
}

# The first word of each text in backticks.
quoted_words() {
    grep -o -E '`[a-z][a-z-]*' | tr -d '`' | sort -u
}

# The page on texts, scripts and transcripts has the lines that the sources and PROTOCOL.md have, and no others.
case_the_page_on_texts_has_their_lines() {
    expect_same 'the lines of a repository text' \
        <(grep -o -E 'after\(line, b"[a-z]+ "' "$top/crates/git_repository/src/repository_lines.rt" | sed 's/.*b"//; s/ "//' | sort -u) \
        <(words_of_the_page 'REPOSITORY TEXTS')
    expect_same 'the commands of a script' <(rows_of_the_table 'Command | Arguments' 2 | sed 's/,.*//' | quoted_words) <(words_of_the_page SCRIPTS)
    expect_same 'the arguments of a script' \
        <(rows_of_the_table 'Command | Arguments' 3 | quoted_words) \
        <(part_of_the_page SCRIPTS | sed -n -E 's/^\.BI? ([a-z-]+).*/\1/p; s/^\.BR ([a-z-]+) [,.]$/\1/p' | grep -v -x -e gitprotocol-v2 | sort -u)
    expect_same 'the lines of a transcript' <(rows_of_the_table 'Line | Of' 2 | quoted_words) <(words_of_the_page TRANSCRIPTS)
    is_well_written man5/git2show.5
}

# Its examples go together.
case_the_examples_of_the_page_on_texts_play() {
    part_of_the_page EXAMPLES > examples
    awk '/^\.EX$/ { at++; inside = 1; next } /^\.EE$/ { inside = 0 } inside { print > ("example" at) }' examples
    run git2show play --repo example1 --pack /dev/null --script example2
    expect 0 example3 /dev/null
}

case_each_link_of_a_page_leads_to_a_file() {
    local page link
    while read -r page; do
        for link in $(links_of "$page"); do
            [ -e "$(dirname "$page")/$link" ] || differs "${page#"$top/"} links to $link, which is not there"
        done
    done < <(pages)
}

# headings_of PAGE: prints the headings of a page as links name them.
headings_of() {
    grep -E '^#+ ' "$1" | sed -E 's/^#+ //' | tr 'A-Z ' 'a-z-' | sed 's/[^a-z0-9_-]//g'
}

case_each_link_to_a_heading_of_a_page_leads_there() {
    local page link file
    while read -r page; do
        for link in $(grep -o -E '\]\([^):]*#[^)]+\)' "$page" | sed -E 's/^\]\(//; s/\)$//' || true); do
            file=${link%%#*}
            file=${file:+$(dirname "$page")/$file}
            headings_of "${file:-$page}" | grep -x -F -e "${link#*#}" > page_matches || differs "${page#"$top/"} links to $link, which has no such heading"
        done
    done < <(pages)
}

# No merge was committed with a conflict in it.
case_no_file_has_the_mark_of_a_conflict() {
    grep -r -l -E -I --exclude-dir=out --exclude-dir=.git '^(<<<<<<<|>>>>>>>) ' "$top" > conflicts || true
    [ ! -s conflicts ] || differs 'files with a conflict' conflicts
}

case_each_source_states_what_it_is_about_and_imports_what_it_may() {
    run "$top/tests/sources.py" --check
    expect_status 0
    expect_same 'standard error' /dev/null err
}

case_no_comment_has_a_word_that_is_retired() {
    run "$top/tests/words.py"
    expect_status 0
    expect_same 'standard error' /dev/null err
}

# In a crate with machines, the definitions of its protocol do not cite them. The laws on both ends, the program and C state only calls.
case_no_definition_of_the_protocol_cites_a_machine() {
    local crate definitions
    for crate in "$top"/crates/*/specs/Machine; do
        for definitions in "$(dirname "$crate")"/*.antt; do
            ! grep -q -F 'specs.Machine.' "$definitions" ||
                differs "${definitions#"$top/"} cites a definition of specs/Machine"
        done
    done
}
