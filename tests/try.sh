# For the scripts that try commands: a room of their own that they work in, the repository as here,
# and checks that are counted. Sourced from the repository's root.
set -u
export LC_ALL=C
here=$PWD room=$(mktemp -d) || exit 2
chmod 755 "$room"
trap 'rm -rf "$room"' EXIT
checks=0 failed=0 skipped=0 wanted=/dev/null

bad() { # WORDS..
    failed=$((failed + 1))
    printf 'FAIL  %s\n' "$*"
}
skip() { # WORDS..
    skipped=$((skipped + 1))
    printf 'skipped: %s\n' "$*"
}
# Something must be so.
is() { # COMMAND..
    checks=$((checks + 1))
    "$@" >/dev/null 2>&1 || bad "not so: $*"
}
# A command must end with STATUS, say SAID on standard error ('..': something, and no matter what),
# and write what the file wanted has.
try() { # STATUS SAID COMMAND..
    status=$1 said=$2
    shift 2
    checks=$((checks + 1))
    "$@" >out 2>err
    ended=$? heard=$(cat err)
    [ "$ended" -eq "$status" ] || bad "$*: status $ended and not $status; it said '$heard'"
    [ "$heard" = "$said" ] || { [ "$said" = .. ] && [ -n "$heard" ]; } ||
        bad "$*: it said '$heard' and not '$said'"
    cmp -s out "$wanted" || bad "$*: it wrote something else: $(head -n 3 out | cut -c 1-80)"
    wanted=/dev/null
}
lines() { printf '%s\n' "$@"; }
# The last line, and the status: 77 where a check could not be made.
finish() { # WHAT
    [ "$failed" -eq 0 ] || { echo "$failed of $checks checks failed" && exit 1; }
    [ "$skipped" -eq 0 ] || { echo "$checks checks of $1 agree, $skipped skipped" && exit 77; }
    echo "$checks checks of $1 agree"
    exit 0
}
