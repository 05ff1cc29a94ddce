#!/bin/sh
# Compares docs/API.md with the library: its calls with the public functions of the crates that are exported, the export of each call with crates/press, the
# exports with include/mudcanvas.h and the Rust package, each signature with its function, each bound with its function in C and Rust and its law, the
# refusals with those of the header, README.md, the Rust package and crate fields, and each definition and law with the file that it names.
set -eu
cd "$(dirname "$0")/.."
work=$(mktemp -d)
trap 'rm -rf "$work"' EXIT
api=docs/API.md
passed=0
failed=0

# says where two sorted lists differ
compare() {
    if diff "$work/$1" "$work/$2" >"$work/diff"; then
        passed=$((passed + $(wc -l <"$work/$1")))
    else
        echo "api: $3"
        sed -n "s/^</  only in $4:/p; s/^>/  only in $5:/p" "$work/diff"
        failed=$((failed + $(grep -c '^[<>]' "$work/diff")))
    fi
}

# the signatures of a file's public functions, each on one line, as `name(arguments) -> answer`
signatures() {
    awk '/^pub fn / { on = 1; text = "" }
         on { line = $0; sub(/^ +/, "", line); text = text (text == "" || text ~ /\($/ || line ~ /^\)/ ? "" : " ") line
              if (line ~ /^(ensures|requires)/ || line ~ /\{$/) {
                  sub(/ (ensures|requires).*/, "", text); sub(/ *\{$/, "", text); sub(/^pub fn /, "", text); sub(/,\)/, ")", text); print text; on = 0 } }' "$1"
}

# the names that a file passes on, of a module beside it or of an inner crate, each as `module name`
names_passed() {
    awk '/^pub use / { on = 1; text = "" }
         on { text = text $0
              if (/;$/) {
                  sub(/^pub use /, "", text); sub(/::/, " ", text); gsub(/[{},;]/, " ", text); n = split(text, each, " ")
                  for (k = 2; k <= n; k++) if (each[k] ~ /^[a-z]/) print each[1], each[k]
                  on = 0 } }' "$1"
}

# the signatures of the calls among them
passed() {
    names_passed "$1" | while read -r from name; do
        beside=$(dirname "$1")/$from.rt
        if [ -f "$beside" ]; then signatures "$beside"; else for file in crates/"$from"/src/*.rt; do signatures "$file"; done; fi |
            sed -n "/^$name[(<]/p"
    done
}

# ---- the public functions of the crates that callers name: `pub fn` of lib.rt and of its public modules, and what these pass on
inner="run_list boundary merge packed_build index index_write index_merge bit_rank byte_select bit_select run_rank"
for crate in $(sed -n 's/^press staticlib: //p' crates.txt); do
    case " $inner " in *" $crate "*) continue ;; esac
    src=crates/$crate/src
    { signatures "$src/lib.rt"; passed "$src/lib.rt"; } | sed "s/^/$crate::/"
    sed -n 's/^pub mod \(.*\);/\1/p' "$src/lib.rt" | while read -r module; do
        { signatures "$src/$module.rt"; passed "$src/$module.rt"; } | sed "s/^/$crate::$module::/"
    done
done | sort >"$work/open"

# ---- the public functions of the inner crates, but for those passed on, are in the page's last table
for file in crates/bitmap/src/lib.rt crates/bitmap_index/src/lib.rt crates/bitmap_build/src/lib.rt crates/rank_select/src/*.rt; do names_passed "$file"; done >"$work/passed-on"
for crate in $inner; do
    [ -d "crates/$crate" ] || continue
    for file in crates/"$crate"/src/*.rt; do signatures "$file" | sed "s/[(<].*//"; done | while read -r name; do
        if ! grep -qx "$crate $name" "$work/passed-on"; then echo "$crate::$name"; fi
    done
done | sort >"$work/inner"
sed -n 's/^| `\([a-z_]*::[a-z_0-9]*\)` |.*/\1/p' $api | sort >"$work/page-inner"
compare page-inner inner "the last table of $api and the public functions of the inner crates differ" "the page" "the library"

# ---- the calls of the page: heading, then signature
awk '/^### `/ { call = $2; gsub(/`/, "", call) }
     /^    fn / && call != "" { sub(/^    fn /, ""); name = $0; sub(/[(<].*/, "", name); last = call; sub(/.*::/, "", last)
         if (name == last) print substr(call, 1, length(call) - length(name)) $0; else print call " has the signature of " name
         call = "" }' $api | sort >"$work/page"
compare page open "the calls of $api and the public functions differ" "the page" "the library"
grep -c '^### `' $api >"$work/headings"
wc -l <"$work/page" | tr -d ' ' >"$work/signed"
compare headings signed "a heading has no signature" "headings" "signatures"

# ---- exports: the name, and the call that it makes
cat crates/press/src/*.rt | awk '/^pub extern "C" fn / { name = $5; sub(/\(.*/, "", name) }
     /^    [a-z0-9_:]+\(/ && name != "" { call = $1; sub(/\(.*/, "", call); print call, name; name = "" }' | sort >"$work/exported"
awk '/^### `/ { call = $2; gsub(/`/, "", call) }
     /^- C: `/ { name = $3; gsub(/[`.]/, "", name); sub(/mudcanvas_/, "mudcanvas_raw_", name); print call, name }' $api | sort >"$work/page-exports"
compare page-exports exported "the exports of $api and those of crates/press differ" "the page" "press"
cut -d' ' -f2 "$work/exported" | sort >"$work/exports"
header=include/mudcanvas.h
grep -o 'mudcanvas_raw_[a-z0-9_]*(' $header | tr -d '(' | sort -u >"$work/header-raw"
compare header-raw exports "the declarations of $header and crates/press differ" "the header" "press"
sed 's/raw_//' "$work/exports" | sort >"$work/functions"
sed -n 's/^MUDCANVAS_CHECK static inline [a-z0-9_]* \(mudcanvas_[a-z0-9_]*\)(.*/\1/p' $header | sort >"$work/header"
compare header functions "the functions of $header and crates/press differ" "the header" "press"
sed -n 's/.*pub fn \(mudcanvas_[a-z0-9_]*\)(.*/\1/p' rust/src/raw.rs | sort >"$work/raw"
compare raw exports "rust/src/raw.rs and crates/press differ" "the Rust package" "press"

# ---- the Rust package: each call, and each bound, is a function of the module that the page names
for file in rust/src/*.rs; do sed -n "s/^pub \(const \)\{0,1\}fn \([a-z0-9_]*\).*/$(basename "$file" .rs)::\2/p" "$file"; done | sort >"$work/rust"
sed -n 's/^- \(C\|Room\): .*Rust: `\([a-z0-9_:]*\)`.*/\2/p' $api | sort >"$work/page-rust"
grep -v '^lib::' "$work/rust" >"$work/rust-calls"
compare page-rust rust-calls "the Rust functions of $api and those of rust/src differ" "the page" "the Rust package"

# ---- room: each exported call with an output has a bound, in C, in Rust and with a law
awk '/^### `/ { call = $2; gsub(/`/, "", call); writes = 0 }
     /^    fn / { writes = /&mut/ }
     /^- C: `/ && writes { name = $3; gsub(/[`.]/, "", name); print name "_bound" }' $api | sort >"$work/writing"
sed -n 's/^- Room: .* C: `\([a-z0-9_]*\)`.*/\1/p' $api | sort >"$work/bounded"
compare writing bounded "the calls of $api that write and those with a bound differ" "calls" "bounds"
sed -n 's/^static inline size_t \(mudcanvas_[a-z0-9_]*_bound\)(.*/\1/p' $header | sort >"$work/header-bounds"
compare bounded header-bounds "the bounds of $api and those of $header differ" "the page" "the header"
for law in $(sed -n 's/^- Room: .* Law: `\(.*\)`\.$/\1/p' $api | sort -u); do
    if grep -q "^ *pub $law :" crates/demands/proofs/BoundLaws.antt; then
        passed=$((passed + 1))
    else
        echo "api: $law is not in crates/demands/proofs/BoundLaws.antt"
        failed=$((failed + 1))
    fi
done

# ---- refusals: number, meaning and names, as the page, the header (its enum and its two functions), README and the Rust package have them
sed -n 's/^| \([0-9]*\) | \(.*\) | `\(MUDCANVAS_[A-Z_]*\)` | `\([A-Za-z]*\)` |$/\1|\2|\3|\4/p' $api | sort >"$work/refusals"
awk '/^enum mudcanvas_refusal/ { on = 1 } /^}/ { on = 0 }
     on && /^    \/\*/ { text = $0; sub(/^ *\/\* /, "", text); sub(/ \*\/$/, "", text) }
     on && /= [1-9]/ { gsub(/,/, ""); print $3 "|" text "|" $1 }' $header | sort >"$work/header-refusals"
cut -d'|' -f1-3 "$work/refusals" >"$work/page-refusals"
compare page-refusals header-refusals "the refusals of $api and the enum of $header differ" "the page" "the header"
tr '\n' ' ' <$header | sed 's/" *"//g; s/case /\n/g' | sed -n 's/^\(MUDCANVAS_[A-Z_]*\): *return "\([^"]*\)";.*/\1|\2/p' | grep -v '^MUDCANVAS_OK|' | sort >"$work/header-texts"
awk -F'|' '{ print $3 "|" $2; print $3 "|" $3 }' "$work/refusals" | sort >"$work/page-texts"
compare page-texts header-texts "the names and meanings of $api and those of $header differ" "the page" "the header"
sed -n '/^| refusal | meaning |$/,/^$/s/^| \([0-9]*\) | \(.*\) |$/\1|\2/p' README.md | sort >"$work/readme-refusals"
cut -d'|' -f1,2 "$work/refusals" >"$work/short-refusals"
compare short-refusals readme-refusals "the refusals of $api and of README.md differ" "the page" "README.md"
sed -n 's/^    \([0-9]*\) => \([A-Za-z]*\), "\(.*\)";$/\1|\3|\2/p' rust/src/lib.rs | sort >"$work/rust-refusals"
cut -d'|' -f1,2,4 "$work/refusals" >"$work/page-variants"
compare page-variants rust-refusals "the refusals of $api and those of rust/src/lib.rs differ" "the page" "the Rust package"
outcome=crates/fields/src/outcome.rt
tr '\n' ' ' <$outcome | sed 's/Refusal::/\n/g' | sed -n 's/^\([A-Za-z]*\) => *"\([^"]*\)".*/\1|\2/p' | sort >"$work/rattle-texts"
sed -n 's/^    \([A-Z][A-Za-z]*\) = \([0-9]*\),$/\1|\2/p' $outcome | sort >"$work/rattle-numbers"
join -t'|' "$work/rattle-numbers" "$work/rattle-texts" | awk -F'|' '{ print $2 "|" $3 "|" $1 }' | sort >"$work/rattle-refusals"
compare page-variants rattle-refusals "the refusals of $api and those of $outcome differ" "the page" "crate fields"

# ---- one version
sed -n 's/^#define MUDCANVAS_VERSION "\(.*\)"$/\1/p' $header >"$work/version"
sed -n 's/^version = "\(.*\)"$/\1/p' rust/Cargo.toml >"$work/rust-version"
compare version rust-version "the versions of $header and rust/Cargo.toml differ" "the header" "the Rust package"

# ---- definitions and laws: names in quotes, then `in` and the file that has them
grep -E '^- (Definition|Laws): ' $api | sed 's/^- [A-Za-z]*: //; s/\.$//' | awk '{
    names = ""
    for (i = 1; i <= NF; i++) {
        if ($i ~ /^`/) { name = $i; gsub(/[`,;]/, "", name); names = names " " name }
        else if ($i ~ /^crates\//) { file = $i; gsub(/[,;]/, "", file); n = split(names, each, " "); for (k = 1; k <= n; k++) print file, each[k]; names = "" }
    }
    if (names != "") print "none" names
}' | sort -u >"$work/named"
while read -r file name; do
    if grep -Eq "^ *((abbrev|unfoldable) )?pub (record )?$name[ :]" "$file" 2>/dev/null; then
        passed=$((passed + 1))
    else
        echo "api: $name is not in $file"
        failed=$((failed + 1))
    fi
done <"$work/named"

echo "api: $(wc -l <"$work/page" | tr -d ' ') calls, $(wc -l <"$work/exports" | tr -d ' ') exported, $(wc -l <"$work/named" | tr -d ' ') definitions and laws"
echo "api: $passed passed, $failed failed"
[ "$failed" = 0 ]
