#!/bin/sh
# Looks up in the sources what the tables of README.md and docs/ name.
#
# In a table a cell of the shape `crate::call` `label`, `label` names a public call or a public law, and labels of clauses of
# its contract; `crate::Type::method` names a method of a type, or of a trait, that the crate hands out. The crate's root file
# has to hand the name out, it has to be public where it stands, and each label has to stand in its contract. Functions of
# tests don't count. A file that is named as `name.edit` has to stand in the must-fail/ of a crate, and each of those has its
# row in PROOFS; one that is named as `crates/..` has to be there.
top=$(CDPATH='' cd "$(dirname "$0")/.." && pwd) || exit 1
failed=0
tried=0

say() {
    echo "check_claims: $1"
    failed=1
}

for tool in awk sed grep mktemp; do
    command -v "$tool" >/dev/null 2>&1 || { echo "check_claims: $tool isn't there"; exit 1; }
done
found=$(mktemp) || exit 1
known=$(mktemp) || exit 1
trap 'rm -f "$found" "$known"' EXIT

# The files of a crate beside its root, without those of tests.
files_of() {
    awk '/^#\[cfg\(test\)\]/ { test = 1; next } /^(pub )?mod [a-z_]+;/ { if (!test) { sub(/;/, "", $NF); print $NF } } { test = 0 }' \
        "$top/crates/$1/src/lib.rt" | sed "s|.*|$top/crates/$1/src/&.rt|"
}

# What a crate hands out, one line a name: `crate name labels..` for a call, `crate Type::method labels..` for a method.
# Public names are those of `pub use` and `pub mod` in the root file; `laws` and other public modules keep their name in front.
handed_out() {
    crate=$1
    awk -v crate="$crate" '
        # The text without its generics: what stands between brackets of depth 1 and more is left out.
        function bare(text,    i, c, depth, left) {
            gsub(/->/, "", text)
            for (i = 1; i <= length(text); i++) {
                c = substr(text, i, 1)
                if (c == "<") depth++
                else if (c == ">") depth--
                else if (!depth) left = left c
            }
            return left
        }
        function flush_call() {
            if (call == "") return
            name = owner != "" ? owner "::" call : call
            if (module != "") name = module "::" name
            print crate, name labels
            call = ""
        }
        FNR == 1 { flush_call(); owner = ""; test = 0; file = FILENAME; sub(/.*\//, "", file); sub(/\.rt$/, "", file); module = "" }
        file == "lib" && /^pub mod / { name = $3; sub(/;/, "", name); open_module[name] = 1; next }
        file == "lib" && /^pub use / { using = 1 }
        using {
            line = $0
            gsub(/[{},;]/, " ", line)
            count = split(line, words, " ")
            for (i = 1; i <= count; i++) { word = words[i]; sub(/.*::/, "", word); handed[word] = 1 }
            if (/;/) using = 0
            next
        }
        FNR == 1 || !checked[file]++ { if (file in open_module) module = file }
        /^#\[cfg\(test\)\]/ { test = 1; next }
        test { if (/^}/ || /;$/) test = 0; next }
        /^(pub )?trait / { owner = $0; sub(/^(pub )?trait /, "", owner); sub(/[ :<{].*/, "", owner); is_trait = 1; next }
        /^impl/ {
            owner = bare($0); sub(/ *(\{|where).*$/, "", owner)
            is_trait = owner ~ / for /
            sub(/.* for /, "", owner); sub(/^impl */, "", owner); sub(/ .*/, "", owner); next
        }
        /^}/ { flush_call(); owner = ""; is_trait = 0; next }
        /^ *(pub )?fn / {
            flush_call()
            public = /^ *pub fn / || (owner != "" && is_trait)
            if (public && (owner == "" ? /^pub fn/ : 1)) { call = $0; sub(/^ *(pub )?fn /, "", call); sub(/[(<].*/, "", call); labels = "" }
        }
        call != "" && /^ *ensures [a-z_]+ \{/ { labels = labels " " $2 }
        call != "" && /^ *\{ *$/ { flush_call() }
        END { flush_call(); for (word in handed) print crate, "handed", word; for (word in open_module) print crate, "module", word }
    ' "$top/crates/$crate/src/lib.rt" $(files_of "$crate")
}

for root in "$top"/crates/*/src/lib.rt; do
    handed_out "$(basename "$(dirname "$(dirname "$root")")")"
done >"$known"

# One line a cell of a table: crate, name, labels.
awk -F'|' '/^\|/ {
    for (i = 2; i < NF; i++) {
        cell = $i
        if (cell !~ /`[a-z_]+::[A-Za-z_:]+`/) continue
        split(cell, parts, "`")
        for (k = 2; k in parts; k += 2) {
            if (parts[k] ~ /::/) {
                if (line != "") print line
                line = parts[k]
                sub(/::/, " ", line)
            } else if (line != "" && parts[k] ~ /^[a-z_]+$/) line = line " " parts[k]
        }
        if (line != "") print line
        line = ""
    }
}' "$top/README.md" "$top"/docs/*.md >"$found"

while read -r crate name labels; do
    tried=$((tried + 1))
    first=${name%%::*}
    if ! grep -qx "$crate handed $first" "$known" && ! grep -qx "$crate module $first" "$known"; then
        say "$crate doesn't hand out $first"
        continue
    fi
    there=$(grep -E "^$crate $name( |$)" "$known" | head -n 1)
    if [ -z "$there" ]; then
        [ "$first" = "$name" ] && grep -qE "(struct|enum|trait) $name\b" "$top/crates/$crate/src"/*.rt && continue
        say "$crate has no public call $name"
        continue
    fi
    for label in $labels; do
        case " $there " in *" $label "*) ;; *) say "$crate::$name has no clause $label" ;; esac
    done
done <"$found"

for edit in $(grep -oh '`[a-z_0-9]*\.edit`' "$top/README.md" "$top"/docs/*.md | tr -d '\140' | sort -u); do
    tried=$((tried + 1))
    set -- "$top"/crates/*/must-fail/"$edit"
    [ -e "$1" ] || say "no crate has must-fail/$edit"
done
for edit in "$top"/crates/*/must-fail/*.edit; do
    tried=$((tried + 1))
    crate=$(basename "$(dirname "$(dirname "$edit")")")
    grep -q "^| $crate | \`$(basename "$edit")\` |" "$top/docs/PROOFS.md" || say "PROOFS has no row for $crate $(basename "$edit")"
done
for file in $(grep -oh '`crates/[A-Za-z_0-9/.]*`' "$top/README.md" "$top"/docs/*.md | tr -d '\140' | sort -u); do
    tried=$((tried + 1))
    case $file in */out/*) continue ;; esac
    [ -e "$top/$file" ] || say "$file isn't there"
done
echo "check_claims: $tried names looked up"
exit $failed
