#!/usr/bin/env bash
# docs/CONTRACTS.md speaks of what is there: every must-fail edit that it names stands in its crate, every edit that stands is
# named, and every exported function has a section with all its parts; every export has the contract of the function that it
# calls; and docs/ARCHITECTURE.md's map has every crate. The current folder is the repository root.
set -u
script=contracts
. tests/count.sh
page=docs/CONTRACTS.md

# The edits stand in the lists of wrong programs, as `crate/label`.
named_edits() {
    grep -E '^- ' "$page" | grep -oE '`[a-z_]+/[a-z0-9_]+`' | tr -d '`' | sort
}

standing_edits() {
    ls crates/*/must-fail/*.edit | sed 's|crates/\(.*\)/must-fail/\(.*\)\.edit|\1/\2|' | sort
}

exported_functions() {
    sed -n 's/^pub extern "C" fn \(vtil_[a-z_]*\).*/\1/p' crates/vtil_c/src/lib.rt | sort
}

# The functions named vtil_.. of a file, one a line: signature and contract, without what makes one an export.
contracts_in() {
    awk '/^pub (extern "C" )?fn vtil_/ { inside = 1 }
        /^{$/ { if (inside) print ""; inside = 0 }
        inside { printf "%s ", $0 }' "$1" | tr -s ' ' | sed 's/^pub extern "C" fn/pub fn/; s/( /(/g; s/, )/)/g'
}

described_functions() {
    sed -nE 's/^### `(vtil_[a-z_]+)`$/\1/p' "$page" | sort
}

# The sections of calls that lack a part, each with the part that is due.
lacking_parts() {
    awk 'function close_section(part) {
            for (part in due) if (!(part in seen)) print title ": " part
            delete seen; title = "" }
        BEGIN { due["Promises:"]; due["Definition:"]; due["Refusals:"]; due["Ruled out"]; due["an edit"] }
        /^##/ { if (title != "") close_section() }
        /^### / { title = substr($0, 5) }
        title == "" { next }
        /^Ruled out/ { seen["Ruled out"] }
        /^- .*`[a-z_]+\/[a-z0-9_]+`/ { seen["an edit"] }
        { seen[$1] }
        END { if (title != "") close_section() }' "$page"
}

listed_crates() {
    sed -n 's/^\([a-z_]*\)\( staticlib\)\{0,1\}:.*/\1/p' crates.txt | sort
}

mapped_crates() {
    awk -F'|' '/^## / { inside = /^## The crates/ } inside && /^\| `/ { print $2 }' docs/ARCHITECTURE.md | grep -oE '[a-z_]+' | sort
}

# none NAME LINES: passed where there are none.
none() {
    if [ -z "$2" ]; then pass "$1"; else fail "$1: $(tr '\n' ' ' <<<"$2")"; fi
}

none "every edit that is named stands" "$(comm -23 <(named_edits) <(standing_edits))"
none "every edit that stands is named" "$(comm -13 <(named_edits) <(standing_edits))"
none "every exported function has a section, and no other" "$(comm -3 <(exported_functions) <(described_functions))"
none "every export has the contract of the function of vtil" "$(diff <(contracts_in crates/vtil/src/lib.rt) <(contracts_in crates/vtil_c/src/lib.rt))"
none "every section has its parts" "$(lacking_parts)"
none "every crate is on the map once, and no other" "$(comm -3 <(listed_crates) <(mapped_crates))"
finish
