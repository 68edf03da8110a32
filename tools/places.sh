#!/bin/sh
# The lines of src/ at which each point of docs/DESIGN-PASS.md may have a place: `tools/places.sh N` prints those of point N,
# `tools/places.sh` counts those of all points. Each line is then read: the page says which of them are places.
cd "$(dirname "$0")/.." || exit 1
rt_files() { ls crates/*/src/*.rt; }
point() {
    case $1 in
        1)
            grep -nE '^ *(pub(\(crate\))? )?enum ' $(rt_files)
            grep -nE '#\[must_use\]|\(u8\),|kind: u(8|16),|-> Option<u64>|number of the refusal, or 0' $(rt_files)
            grep -nE '^ *0$' $(rt_files)
            ;;
        2)
            grep -ohE '\b(fn|struct|enum|trait|const) [A-Za-z_0-9]+' $(rt_files) | sort | uniq -d
            ;;
        3) grep -nE 'for [a-z_, ()]+ in [^{]*\.\.|\b(while|loop)\b.*\{$|\+= 1;|i == 0' $(rt_files) ;;
        4)
            grep -nE '[/%*] 256|= (Vertex|Edge) \{$|Err\(_\) => (None|return)|Err\((e|fault)\) => ' $(rt_files)
            grep -nE 'fn (comes_before|is_before|is_same|alike|is_earlier|least|unseen)\b|-> &.static str \{|heap: Global\) -> Result<String' $(rt_files)
            ;;
        5) grep -nE 'lists\.entry\.rows|ghost_name ≡|12288 ≤ length tables|n ≤ 1024\) × \(r ≤ 1024|heap: Global,|out: &mut String,|sizes: Sizes,$' $(rt_files) ;;
        6) grep -nE '\[[^],]*; [0-9]+\]|\blen: (u8|usize),|levels: usize,|: Vec<|BTreeMap' $(rt_files) ;;
        7) grep -nE '\bdyn\b|\bfn\(|: Fn(Once|Mut)?\(|match \(|report_on::<' $(rt_files) ;;
        8)
            find crates -name '*.antt' -path '*/proofs/*' -not -path '*/out/*' | xargs cat | grep -vE '^ *$|^ *--' | sed 's/^/proof line: /'
            ;;
    esac
}
if [ -n "$1" ]; then
    point "$1"
else
    for p in 1 2 3 4 5 6 7 8; do
        echo "point $p: $(point $p | wc -l) lines"
    done
fi
