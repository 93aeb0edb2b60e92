#!/bin/sh
# Tells, for mutations of the protocol's definitions, which proof of `protocol_laws` refuses each first. They are edits of
# crates/protocol/must-fail, where a computed run refuses them; here those runs are left out. It works on a copy, one
# check at a time, about a minute each. It fails where one is refused by none. Given names of edits, it tries those.
# Run it at the top of the repository.
set -eu
top=$(cd "$(dirname "$0")/.." && pwd)
[ $# -gt 0 ] || set -- own_epoch_reached_again probe_leaves_the_promise low_member_chosen stored_configuration_replaced \
    service_forgets_what_it_stores known_transaction_appended_again vote_over_fewer_rows case_complete_without_a_shard \
    acknowledgements_kept_in_new_view take_over_goes_unnoted decision_told_reversed pieces_of_two_epochs_gathered
room=$(mktemp -d)
trap 'rm -rf "$room"' EXIT

# a copy of the crates that `protocol_laws` stands on, with the start of the invariant as all that `protocol` shows
crates=$(sed -n 's/^protocol_laws: //p' "$top/crates.txt")
mkdir -p "$room/kept/crates"
git init -q "$room/kept"
cp "$top/HANDLES" "$room/kept/"
grep -E "^($(echo "$crates protocol_laws" | tr ' ' '|')):" "$top/crates.txt" >"$room/kept/crates.txt"
for crate in $crates protocol_laws; do
    cp -a "$top/crates/$crate" "$room/kept/crates/"
done
cd "$room/kept/crates/protocol"
find src -name '*.rt' ! -name lib.rt ! -name invariant.rt -delete
sed -i '/^pub mod /{/ invariant;/!d}' src/lib.rt
rm -rf must-fail specs/Worked specs/Worked.antt specs/Steps specs/Steps.antt
sed -i '/^pub mod Worked$/d; /^pub mod Steps$/d' specs/Lib.antt

# applies an edit to the crate in the current folder
apply() {
    python3 - "$1" <<'PY'
import sys
path = old = None
for line in open(sys.argv[1], encoding="utf-8").read().split("\n"):
    if line.startswith("file: "):
        path = line[6:].strip()
    elif line.startswith("old: "):
        old = line[5:]
    elif line.startswith("new:"):
        text = open(path, encoding="utf-8").read()
        assert text.count(old) == 1, f"{sys.argv[1]}: not once in {path}: {old}"
        open(path, "w", encoding="utf-8").write(text.replace(old, line[4:].removeprefix(" ")))
PY
}

# checks a crate of the copy, and prints where it is refused first, or `proved`
verdict() {
    cd "$room/kept/crates/$1"
    if rt check >"$room/log" 2>&1; then
        echo proved
    else
        sed -n "s|^\(\./\)\{0,1\}\([^ :]*\):[0-9]*:[0-9]*: error: \(\`[^\`]*\`\).*|$1/\2 \3|p" "$room/log" | sed q
    fi
}

[ "$(verdict protocol_laws)" = proved ] || { echo "not proved as it stands" >&2; exit 1; }
missed=0
for name; do
    cd "$room/kept/crates/protocol"
    cp -a specs "$room/specs"
    apply "$top/crates/protocol/must-fail/$name.edit"
    first=$(verdict protocol)
    [ "$first" != proved ] || first=$(verdict protocol_laws)
    case $first in proved | '') missed=1 ;; esac
    echo "$name: ${first:-no verdict}"
    rm -rf "$room/kept/crates/protocol/specs"
    mv "$room/specs" "$room/kept/crates/protocol/specs"
done
exit "$missed"
