# What streams.sh and streams_by_kind.sh share: they source this file with their own arguments, the second program first.
# It goes to the top of the repository. The caller sets `orders`, the count of orders in a stream, before the first one.
second=$(cd "$(dirname "$1")" && pwd)/$(basename "$1")
script=$(basename "$0")
cd "$(dirname "$0")/.." || exit 2
program=crates/wimbleyam/out/wimbleyam
for needed in "$second" "$program"; do
    if [ ! -x "$needed" ]; then echo "$script: $needed is missing" >&2; exit 2; fi
done
work=$(mktemp -d) || exit 2
trap 'rm -rf "$work"' EXIT
declare -A kinds=()

# Writes standard input in pieces of 1 to MOST bytes, with a short pause after each.
pieces() { # MOST SEED
    perl -e '
        my ($most, $seed) = @ARGV;
        srand($seed);
        binmode(STDIN);
        binmode(STDOUT);
        local $/;
        my $all = <STDIN>;
        my $at = 0;
        while ($at < length($all)) {
            my $take = 1 + int(rand($most));
            my $done = syswrite(STDOUT, substr($all, $at, $take));
            exit 0 unless defined $done;
            $at += $done;
            select(undef, undef, undef, 0.00002);
        }
    ' "$1" "$2"
}

differ() { # SEED, how it was fed
    local kept
    kept=$(mktemp) && cp "$work/stream" "$kept"
    echo "seed $1: the two programs differ ($2); the stream is kept in $kept"
    exit 1
}

# Feeds a file in pieces of 1 to MOST bytes, and compares the answers with those of the second program.
fed() { # FILE MOST SEED, how it is fed
    "$second" records <"$1" >"$work/expected" || exit 2
    pieces "$2" "$3" <"$1" | "$program" >"$work/answers"
    cmp -s "$work/expected" "$work/answers" || differ "$3" "$4"
}

# Makes the stream of a seed, and compares it as one file and in random pieces.
stream() { # SEED
    "$second" gen "$1" "$orders" >"$work/stream" || exit 2
    "$second" records <"$work/stream" >"$work/expected" || exit 2
    "$program" <"$work/stream" >"$work/answers" || differ "$1" "its exit status is not 0"
    cmp -s "$work/expected" "$work/answers" || differ "$1" "fed as a file"
    fed "$work/stream" 300 "$1" "fed in random pieces"
    local kind=$(($(od -An -j2 -N1 -tu1 "$work/stream")))
    kinds[$kind]=$((${kinds[$kind]:-0} + 1))
}

# Says how many streams each kind has had.
report() {
    local kind n
    for kind in 1 2 3 4 17 18 19 20; do
        n=${kinds[$kind]:-0}
        echo "kind $kind: $n streams, $((n * orders)) orders agreed"
    done
}
