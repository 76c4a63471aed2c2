#!/usr/bin/env bash
# Seconds to read documents of 1, 4, 16 and 50 MiB in several shapes, beside `xmllint --huge --noout` and Python's expat,
# with the ratio to the former and the most memory of both. SHAPES and SIZES choose some.
# It makes a small crate in a temporary folder, proves it and runs it as LLVM builds it; it is no part of the gate.
set -euo pipefail
here=$(cd "$(dirname "$0")" && pwd)
top=$(cd "$here/../.." && pwd)
work=$(mktemp -d)
trap 'rm -rf "$work"' EXIT
mkdir -p "$work/crates/reading/src"
for name in markup_nodes markup_parts markup_tags markup_tree; do
    mkdir -p "$work/crates/$name"
    for part in src specs proofs; do
        cp -r "$top/crates/$name/$part" "$work/crates/$name/$part"
    done
done
cp "$here/main.txt" "$work/crates/reading/src/main.rt"
cat >"$work/crates.txt" <<'LIST'
markup_parts: thiserror
markup_nodes:
markup_tags: markup_nodes markup_parts thiserror
markup_tree: markup_nodes markup_parts markup_tags thiserror
reading: markup_tree anyhow
LIST
cd "$work/crates/reading"
echo "<a/>" >document.xml
rt run >build.log 2>&1 || { cat build.log; exit 1; }
printf '%-12s %5s %10s %10s %6s %10s %12s %12s\n' shape MiB read_tree xmllint ratio expat peak_KiB xmllint_KiB
for shape in ${SHAPES:-text one_text attributes small elements short references long_value comments cdata}; do
    for mib in ${SIZES:-1 4 16 50}; do
        python3 "$here/shapes.py" "$shape" $((mib * 1048576)) >document.xml
        ours=$(/usr/bin/time -f %M -o peak ./out/reading | awk 'NF == 3 && $3 == "true" { print $2 / 1000 }')
        xml=-
        if command -v xmllint >/dev/null; then
            xml=$( { /usr/bin/time -f '%e %M' xmllint --huge --noout document.xml; } 2>&1 )
        fi
        ratio=$(awk -v ours="$ours" -v xml="${xml% *}" 'BEGIN { if (xml > 0) printf "%.2f", ours / xml; else print "-" }')
        expat=$(python3 -c '
import time, xml.parsers.expat
data = open("document.xml", "rb").read()
start = time.time()
xml.parsers.expat.ParserCreate().Parse(data, True)
print("%.3f" % (time.time() - start))')
        printf '%-12s %5s %10s %10s %6s %10s %12s %12s\n' "$shape" "$mib" "$ours" "${xml% *}" "$ratio" "$expat" "$(cat peak)" "${xml#* }"
    done
done
