#!/bin/sh
# Measures the proved kinds of permutation against the C versions beside this file, and prints the ratio of ours to C.
# Both are compiled at -O3 by the clang of the kit that rt belongs to, where that is found. Three rounds of both are run,
# one after the other, and the shortest time of each counts. First build the crate bench, by rt run in its folder.
# CC and BENCH may name another compiler and another program.
set -eu

here=$(cd "$(dirname "$0")" && pwd)
bench=${BENCH:-$here/../../crates/bench/out/bench}
[ -x "$bench" ] || { echo "compare: there is no $bench; run rt run in crates/bench" >&2; exit 2; }
kit=$(readlink -f "$(command -v rt || echo rt)")
kit=${kit%/bin/rt}/toolchain/bin/clang
[ -x "$kit" ] || kit=clang
cc=${CC:-$kit}

work=$(mktemp -d)
trap 'rm -rf "$work"' EXIT
for name in matrices rows; do
    "$cc" -std=gnu11 -O3 -Wall -Wextra -c -o "$work/$name.o" "$here/$name.c"
done
# The kit's clang has no headers for the driver, whose own speed does not count.
cc -std=gnu11 -O3 -Wall -Wextra -o "$work/driver" "$here/driver.c" "$work/matrices.o" "$work/rows.o"
echo "C by $("$cc" --version | head -n 1)"

for _ in 1 2 3; do
    "$work/driver" | sed 's/^/c /' >>"$work/times"
    "$bench" 2>&1 >"$work/said" | sed 's/^/ours /' >>"$work/times"
done

# Lines are: WHOSE KIND NAME: NUMBER ns a call.
awk '
    $5 == "ns" && ($3 == "forward:" || $3 == "backward:") {
        item = $2 " " substr($3, 1, length($3) - 1)
        if (!(($1, item) in best) || $4 < best[$1, item]) best[$1, item] = $4
        if (!(item in seen)) { seen[item] = 1; order[++n] = item }
    }
    END {
        for (k = 1; k <= n; k++) {
            item = order[k]
            if (!(("ours", item) in best)) { printf "%s: C %.1f ns, not measured by bench\n", item, best["c", item]; continue }
            printf "%s: ours %.1f ns, C %.1f ns, ratio %.2f\n", item, best["ours", item], best["c", item], best["ours", item] / best["c", item]
        }
    }' "$work/times"
