#!/usr/bin/env bash
# Each snippet here is refused by the compiler, for the cause that its first line names.
# Run at the top of the repository, once the crates of the roles are built (`rt ci`): tests/must-not-compile/run.sh
set -u
top=$(git rev-parse --show-toplevel)
crates="tcs_terms tcs_laws cert_serial cert_snapshot cert_commute wire_frame protocol cert_log leader_part follower_part"
work=$(mktemp -d "$top/.must-not-compile.XXXXXX")
trap 'rm -rf "$work"' EXIT

mkdir -p "$work/crates/snippet/src"
cp "$top/HANDLES" "$work"
for name in $crates; do
  cp -al "$top/crates/$name" "$work/crates/$name" # links: the built libraries are large
  grep "^$name:" "$top/crates.txt" >> "$work/crates.txt"
done
echo "snippet: cert_log follower_part leader_part tcs_laws tcs_terms" >> "$work/crates.txt"

failed=0
for snippet in "$top"/tests/must-not-compile/*.snippet; do
  cause=$(sed -n '1s|^//! refused: ||p' "$snippet")
  cp "$snippet" "$work/crates/snippet/src/lib.rt"
  said=$(cd "$work/crates/snippet" && rt check --only= 2>&1 | grep '^src/lib.rt:.*error\[')
  if [ -n "$cause" ] && [ "$(wc -l <<< "$said")" -eq 1 ] && grep -qF "$cause" <<< "$said"; then
    echo "refused: $(basename "$snippet" .snippet)"
  else
    echo "FAILED: $(basename "$snippet" .snippet): not refused for '$cause' alone: $said"
    failed=$((failed + 1))
  fi
done
exit $((failed > 0))
