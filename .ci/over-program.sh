# shellcheck shell=bash disable=SC2034
# What the scripts have in common that run a built program: `source .ci/over-program.sh WHAT PROGRAM`. It goes to an empty folder,
# which goes with the script; $top is the repository, $program the program.
what=$1
top=$(CDPATH='' cd "$(dirname "${BASH_SOURCE[0]}")/.." && pwd) || exit 2
if [ $# != 2 ] || [ ! -x "$2" ]; then
    echo "usage: .ci/$what PROGRAM" >&2
    exit 2
fi
program=$(realpath "$2") || exit 2
# In memory where there is such a place: a disk would be waited for thousands of times.
room=$(mktemp -d -p /dev/shm 2>/dev/null || mktemp -d) || exit 2
trap 'rm -rf "$room"' EXIT
cd "$room" || exit 2
failed=0 count=0

fault() {
    echo "$what: $*" >&2
    failed=1
}

# Moments of calls and entries are as the clock gives them.
without_moments() { sed -E 's/^([0-9]+ [^ ]+) [0-9]+ /\1 - /; s/ AT\([0-9]+\)/ AT(-)/g' listing; }

# Ends the script: 1 where something was at fault.
end() {
    [ "$failed" != 0 ] || [ "$count" = 0 ] || echo "$what: $count runs as they have to be"
    exit "$failed"
}
