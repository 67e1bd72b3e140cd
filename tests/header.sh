#!/bin/sh
# Holds include/placer.h to the sources and to the library: header.sh [INCLUDE_FOLDER]. Needs rt and a C compiler.
# Every number and every parameter of the header, by type, name and order, is compared with the source's, and so are the parameters that
# the Rust wrapper declares. Then tests/header.c calls every export, with every refusal, and names each argument as the header names the
# parameter. No number of the sources is written here again.
set -eu
root=$(cd "$(dirname "$0")/.." && pwd)
include=$(cd "${1:-$root/include}" && pwd)
cc=${CC:-cc}
cd "$root"
command -v "$cc" >/dev/null || { echo "no C compiler on this machine" >&2; exit 2; }
sh tests/library.sh placer
work=$root/target/header
rm -rf "$work"
mkdir -p "$work"
same() { diff "$work/source-$1" "$work/header-$1" >"$work/differ" || { echo "header: the $1 of the sources (<) and of $2 (>) differ:" >&2; cat "$work/differ" >&2; exit 1; }; }

# ---- numbers: each refusal's, each reply's, and each limit's

# The number of a constant, those that it is made of worked out first; where there is none, or there are two, the numbers below differ.
constant() {
    worth=$(sed -n "s/^\(pub \)\{0,1\}const $1: usize = \(.*\);.*/\2/p" crates/limits/src/*.rt crates/averaging/src/*.rt crates/command/src/*.rt crates/telemetry/src/*.rt crates/shared_counts/src/*.rt crates/session_record/src/*.rt crates/record_words/src/*.rt crates/session/src/*.rt crates/placer/src/*.rt)
    while part=$(echo "$worth" | grep -oE '[A-Z][A-Z_]+' | head -n 1) && [ -n "$part" ]; do
        number=$(constant "$part")
        worth=$(echo "$worth" | sed "s/$part/${number:-none}/g")
    done
    case $worth in *[!0-9+*\ \(\)]* | '') echo "$worth" ;; *) echo "$(($worth))" ;; esac
}
# From `Refusal::TooMany => 2` to `PLACER_TOO_MANY 2`.
cases() { sed -n "s/.*$1::\([A-Za-z]*\)[^=]*=> \([0-9][0-9]*\),.*/\1 \2/p" | sed 's/\([A-Z]\)/_\1/g' | tr '[:lower:]' '[:upper:]' | sed 's/^/PLACER/'; }
defined() { sed -n 's/^#define \(PLACER_[A-Z_]*\) \([0-9][0-9]*\).*/\1 \2/p' "$include/placer.h"; }

sed -n '/fn number(/,/fn detail(/p' crates/refusal/src/lib.rt | cases Refusal >"$work/refusals"
sed -n '/fn reply_code(/,$p' crates/placer/src/code.rt | cases Done >"$work/replies"
# The bytes of a command are its width in the sources.
defined | cut -d' ' -f1 | grep -vxF "$(cut -d' ' -f1 "$work/replies")" | while read -r name; do
    case $name in PLACER_POSE_BYTES) source=POSE_WIDTH ;; *) source=${name#PLACER_} ;; esac
    echo "$name $(constant "$source")"
done >"$work/limits"
cat "$work/refusals" "$work/replies" "$work/limits" | sort >"$work/source-numbers"
{ defined; sed -n 's/^ *\(PLACER_[A-Z_]*\) = \([0-9][0-9]*\).*/\1 \2/p' "$include/placer.h"; } | sort >"$work/header-numbers"
same numbers "placer.h"

# ---- parameters

floats=$(constant POSE_FLOATS)
# `record` is a word of the logic, which no parameter of the sources can have for a name.
declared() { cat "$@" | tr -s ' \n' ' ' | grep -o 'pub extern "C" fn [a-z_]*([^)]*) -> [a-z0-9]*' | sed -E 's/pub extern "C" fn ([a-z_]*)\( ?([^)]*[^ ,]),? ?\)/\1(\2)/; s/^placer_shared\(session/placer_shared(record/' | sort; }
declared crates/placer_c/src/lib.rt | sed -E \
    -e 's/f64/double/g; s/u64/uint64_t/g; s/u32/uint32_t/g; s/u8/uint8_t/g; s/usize/size_t/g; s/Pose\]/struct rig_pose]/g' \
    -e 's/(.*) -> (.*)/\2 \1;/' \
    -e "s/([a-z_]+): &mut \[([a-z0-9_ ]+); POSE_FLOATS\]/\2 \1[$floats]/g" \
    -e 's/([a-z_]+): &mut \[([a-z0-9_ ]+)\]/\2 *\1, size_t \1_length/g' \
    -e 's/([a-z_]+): &\[([a-z0-9_ ]+)\]/const \2 *\1, size_t \1_length/g' \
    -e 's/([a-z_]+): &mut ([a-z0-9_]+)/\2 *\1/g' \
    -e 's/([a-z_]+): ([a-z0-9_]+)/\2 \1/g' | sort >"$work/source-parameters"
echo '#include "placer.h"' | "$cc" -std=c11 -E -P -I "$include" -x c - | tr -s ' \n' ' ' >"$work/expanded"
grep -oE '[a-z0-9_]+ (placer|rig)_[a-z_]+\([^)]*\);' "$work/expanded" | sort >"$work/header-parameters"
same parameters "placer.h"

declared crates/placer_c/src/lib.rt | sed -E \
    -e 's/([a-z_]+): &mut \[([a-z0-9]+)\]/\1: *mut \2, \1_len: usize/g' \
    -e 's/([a-z_]+): &\[([A-Za-z0-9]+)\]/\1: *const \2, \1_len: usize/g' \
    -e 's/: &mut /: *mut /g' >"$work/source-declarations"
tr -s ' \n' ' ' <bindings/rust/src/lib.rs | grep -oE 'pub fn (placer|rig)_[a-z_]*\([^)]*\) -> [a-z0-9]*;' | sed -E 's/pub fn ([a-z_]*)\( ?([^)]*[^ ,]),? ?\)(.*);/\1(\2)\3/' | sort >"$work/header-declarations"
same declarations "bindings/rust"

# The numbers of a record, in order.
awk '/^pub struct / { name = $3 } name && /^    pub / { sub(":", "", $2); sub(",", "", $3); fields[name] = fields[name] " " $2; types[name, $2] = $3 } /^}/ { name = "" }
    END { n = split(fields["Pose"], parts, " "); for (p = 1; p <= n; p++) { m = split(fields[types["Pose", parts[p]]], last, " "); for (f = 1; f <= m; f++) print last[f] } }' \
    crates/arithmetic/src/pose.rt >"$work/source-fields"
sed -n 's/.*struct rig_pose {\([^}]*\)}.*/\1/p' "$work/expanded" | sed 's/double//g' | tr -s ' ,;' '\n' | grep . >"$work/header-fields"
same fields "placer.h"

# ---- the exports, called by the header's names

# For each export a record of its parameters and a call that takes it: so an argument is given by name.
{
    awk '{
        open = index($0, "("); split(substr($0, 1, open - 1), head, " "); parameters = substr($0, open + 1, length($0) - open - 2)
        n = split(parameters, each, ", "); fields = ""; handed = ""
        for (p = 1; p <= n; p++) {
            field = each[p]; if (sub(/\[[0-9]*\]$/, "", field)) sub(/[a-z_]+$/, "*&", field)
            match(field, /[a-z_0-9]+$/); fields = fields field "; "; handed = handed (p > 1 ? ", " : "") "a." substr(field, RSTART)
        }
        printf "struct %s_named { %s};\nstatic inline %s %s_named(struct %s_named a) { return %s(%s); }\n", head[2], fields, head[1], head[2], head[2], head[2], handed
    }' "$work/header-parameters"
    echo '#define CALL(export, ...) export##_named((struct export##_named){__VA_ARGS__})'
    echo "static const uint32_t every_refusal[] = {$(cut -d' ' -f1 "$work/refusals" | paste -sd, -)};"
} >"$work/named.h"
"$cc" -std=c11 -Wall -Wextra -Werror -O2 -I "$include" -I "$work" tests/header.c target/staticlib/libplacer.a -o "$work/calls"
calls=$("$work/calls") || { echo "$calls" >&2; exit 1; }

# "It calls nothing but memcpy and memset"; and the header is taken by C++ too, where there is a compiler of it.
if command -v nm >/dev/null 2>&1; then
    called=$(nm -u target/staticlib/libplacer.a | awk '$1 == "U" { print $2 }' | sort -u | paste -sd' ' -)
    [ "$called" = "memcpy memset" ] || { echo "libplacer.a calls $called" >&2; exit 1; }
fi
if command -v "${CXX:-c++}" >/dev/null 2>&1; then
    printf '#include "placer.h"\n' | "${CXX:-c++}" -Wall -Wextra -Werror -fsyntax-only -x c++ -I "$include" -
fi
echo "placer.h: $(wc -l <"$work/source-numbers") numbers, $(wc -l <"$work/source-parameters") exports and $(wc -l <"$work/source-fields") fields as in the sources; $calls"
