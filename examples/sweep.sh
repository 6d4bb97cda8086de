#!/bin/sh
# Runs a world once, with another seed and another loss on all its links: one run of a sweep.
#     examples/sweep.sh BASE SEED LOSS
# BASE is a world file. SEED is a number. LOSS is how many of 1,000 frames each link loses, from 0 to 1000.
# It replaces the seed of BASE, and the loss in its lines "rates". It keeps the other two numbers of such a line.
# Prints a line: LOSS SEED STATUS WORD TIME READ. WORD and TIME say how the run ended and when, and READ how many messages were read.
# NETSH names the program, if it is neither the one of this repository nor on the path.
# Status 0: it printed a line. Status 1: it did not, and standard error says why.
fail() {
    echo "sweep.sh: $1" >&2
    exit 1
}

is_number() {
    case $1 in '' | *[!0-9]*) return 1 ;; esac
}

case ${1-} in
-h | --help) echo "usage: sweep.sh BASE SEED LOSS; it prints LOSS SEED STATUS WORD TIME READ" && exit 0 ;;
esac
[ $# -eq 3 ] || fail "usage: sweep.sh BASE SEED LOSS"
base=$1 seed=$2 loss=$3
if [ ! -r "$base" ] || [ -d "$base" ]; then fail "$base: cannot read the world file BASE"; fi
is_number "$seed" || fail "SEED $seed is not a number"
if ! is_number "$loss" || [ ${#loss} -gt 4 ] || [ "$loss" -gt 1000 ]; then fail "LOSS $loss is not a number from 0 to 1000"; fi

here=$(cd "$(dirname "$0")/.." && pwd) || exit 1
netsh=${NETSH:-$here/netsh}
[ -x "$netsh" ] || netsh=netsh
command -v "$netsh" >/dev/null || fail "netsh is not on the path; install it, or set NETSH"

# The world with this seed and loss. The rates of a link come after its line, so each is printed when all its lines are read.
world() {
    awk -v seed="$seed" -v loss="$loss" '
        function rates() { if (link != "") print "rates", link, loss, twice + 0, later + 0; link = "" }
        $1 == "ndb" { inside = 1 }
        inside { print; next }
        $1 == "medium" || $1 == "host" { rates() }
        $1 == "medium" { link = $2; twice = later = 0 }
        $1 == "seed" { print "seed", seed; next }
        $1 == "rates" && $2 == link { twice = $4; later = $5; next }
        { print }' "$base"
}

told=$(mktemp) || exit 1
trap 'rm -f "$told"' EXIT
# The four lines of the summary, and the status.
ends=$({ world | "$netsh" run 1 2>"$told"; echo "status $?"; } | tail -n 5)
case $ends in
*"status 0" | *"status 3" | *"status 4") ;;
*) fail "$base, with seed $seed and a line \"rates\" for each link with loss $loss: $(cat "$told")" ;;
esac
echo "$ends" | awk -v seed="$seed" -v loss="$loss" '
    $1 == "messages" { read = $3 }
    $1 == "end" { word = $2; time = $3 }
    $1 == "status" { print loss, seed, $2, word, time, read }'
