#!/bin/sh
# Git's own tests of version 2 with our server in the place of Git's:
#
#     tests/git-suite.sh UPLOAD_PACK [TEST..]
#
# UPLOAD_PACK is examples/upload-pack.c as it was built; a TEST is what the names of some of Git's test files begin with, as t5702. The source
# package of the installed Git is fetched and built once, in the folder of GIT_SUITE. There `git upload-pack` is our server wherever the client asks
# for version 2, and so is `test-tool serve-v2`; for other versions, which it does not speak, it is Git's own. What fails has to be in
# tests/git-suite.failing, with the reason, and nothing else. LANES is how many tests run at a time.
set -eu

here=$(cd "$(dirname "$0")" && pwd)
suite=${GIT_SUITE:-/var/tmp/gitwire-git-suite}
lanes=${LANES:-2}
tests='t0410 t1090 t5306 t55 t56 t57 t7406'   # those with conversations of version 2, and what stands beside them

fetch() {
	version=$(dpkg-query -W -f '${Version}' git)
	lists=$suite/apt
	mkdir -p "$lists/lists/partial" "$suite/git"
	sed 's/^Types: deb$/Types: deb-src/' /etc/apt/sources.list.d/debian.sources > "$lists/source.sources"
	set -- -o Dir::Etc::sourcelist="$lists/source.sources" -o Dir::Etc::sourceparts=- -o Dir::State::lists="$lists/lists" -o Dir::Cache="$lists" \
		-o APT::Sandbox::User=root
	apt-get -qq "$@" update
	(cd "$suite" && apt-get -qq "$@" --download-only source git="$version" && rm -rf git && dpkg-source -q -x git_*.dsc git)
}

# Git's server gets another name, under which our wrapper finds it: a command that is built into Git cannot be replaced.
build() {
	apt-get -qq update
	apt-get -qq install --no-install-recommends apache2-bin dpkg-dev gcc libcurl4-openssl-dev libexpat1-dev libssl-dev make zlib1g-dev > /dev/null
	sed -i 's/{ "upload-pack", cmd_upload_pack }/{ "upload-pack-of-git", cmd_upload_pack }/' "$suite/git/git.c"
	nice make -C "$suite/git" -j2 NO_GETTEXT=1 NO_TCLTK=1 > "$suite/build.log" 2>&1
}

put_in_place() {
	git=$suite/git
	agent=git/$("$git/git" version | cut -d ' ' -f 3)
	rm -f "$git/git-upload-pack"
	cat > "$git/git-upload-pack" <<-END
	#!/bin/sh
	case ":\${GIT_PROTOCOL-}:" in
	*:version=2:*) GIT_USER_AGENT="\${GIT_USER_AGENT-$agent}" exec "$suite/upload-pack" "\$@" ;;
	esac
	exec "$git/git" upload-pack-of-git "\$@"
	END
	[ -f "$git/bin-wrappers/test-tool-of-git" ] || mv "$git/bin-wrappers/test-tool" "$git/bin-wrappers/test-tool-of-git"
	cat > "$git/bin-wrappers/test-tool" <<-END
	#!/bin/sh
	folder=.
	[ "\${1-}" != -C ] || [ "\${3-}" != serve-v2 ] || { folder=\$2; shift 2; }
	[ "\${1-}" = serve-v2 ] || exec "$git/bin-wrappers/test-tool-of-git" "\$@"
	shift
	case "\${1-}" in
	--advertise-capabilities) set -- --http-backend-info-refs ;;
	esac
	PATH="$git:\$PATH" GIT_USER_AGENT="\${GIT_USER_AGENT-$agent}" exec "$suite/upload-pack" "\$@" "\$folder"
	END
	chmod 755 "$git/git-upload-pack" "$git/bin-wrappers/test-tool"
}

# Runs one test file as nobody, since some of Git's tests skip what root may do, and writes a line for each of its tests: `ok NUMBER`, `failed NUMBER`.
run_one() {
	mkdir -p "$suite/out/$1"
	chown nobody "$suite/out/$1"
	cd "$suite/git/t"
	setpriv --reuid=nobody --regid=nogroup --clear-groups env -i PATH="$PATH" HOME=/nonexistent TERM=dumb LANG=C.UTF-8 \
		TEST_OUTPUT_DIRECTORY="$suite/out/$1" GIT_TEST_PROTOCOL_VERSION=2 ${TRACE:+TRACE="$TRACE"} nice sh "./$1.sh" ${OPTIONS:-} \
		> "$suite/out/$1.log" 2>&1 < /dev/null || true
	sed -n -e '/^not ok .*# TODO/d' -e 's/^ok \([0-9]*\) .*# skip.*/skipped \1/p' -e t -e 's/^ok \([0-9]*\) .*/ok \1/p' \
		-e 's/^not ok \([0-9]*\) .*/failed \1/p' "$suite/out/$1.log" > "$suite/out/$1.result"
	grep -q '^1\.\.' "$suite/out/$1.log" || echo 'failed end' >> "$suite/out/$1.result"
}

if [ "$1" = --run ]; then
	run_one "$2"
	exit
fi
[ -d "$suite/git/t" ] || fetch
[ -x "$suite/git/bin-wrappers/git" ] || build
rm -f "$suite/upload-pack"
cp "$1" "$suite/upload-pack"
shift
put_in_place
[ $# = 0 ] || tests=$*
tests=$(for it in $tests; do ls "$suite/git/t" | sed -n "s/^\($it.*\)\.sh\$/\1/p"; done)
mkdir -p "$suite/out"
echo $tests | tr ' ' '\n' | xargs -P "$lanes" -n 1 "$0" --run
status=0
for it in $tests; do
	sed -n "s/^$it \([0-9a-z]*\) .*/failed \1/p" "$here/git-suite.failing" | sort > "$suite/out/$it.listed"
	grep '^failed' "$suite/out/$it.result" | sort > "$suite/out/$it.failed" || true
	echo "$it: $(grep -c '^ok' "$suite/out/$it.result") passed, $(grep -c . "$suite/out/$it.failed") failed, $(grep -c '^skipped' "$suite/out/$it.result") skipped"
	diff "$suite/out/$it.listed" "$suite/out/$it.failed" || { status=1; echo "$it: other tests failed than those that tests/git-suite.failing lists" >&2; }
done
cat $(for it in $tests; do echo "$suite/out/$it.result"; done) |
	awk '{ n[$1]++ } END { print n["ok"] + 0 " passed, " n["failed"] + 0 " failed, " n["skipped"] + 0 " skipped" }'
exit $status
