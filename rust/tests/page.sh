#!/bin/sh
# The tests of the page and of the editors' grammar in a headless browser: the one that REFAL5_BROWSER names, or Chromium, which is got from Debian where it
# is absent. The last line is 'N passed, M failed', or '0 passed, 0 failed, N skipped' where no browser can be had.
cd "$(dirname "$0")/../.." || exit 1

browser() {
  for name in "$REFAL5_BROWSER" chromium chromium-browser google-chrome; do
    [ -n "$name" ] && command -v "$name" && return
  done
  return 1
}

if ! browser >/dev/null; then
  (apt-get update && apt-get install -y chromium) >/dev/null 2>&1
fi
if ! REFAL5_BROWSER=$(browser); then
  echo "skipped: there is no Chromium, and apt-get could not install it"
  echo "0 passed, 0 failed, $(cat rust/tests/page.rs rust/tests/grammar.rs | grep -c '^#\[ignore = "needs a browser') skipped"
  exit 0
fi
export REFAL5_BROWSER

log=$(mktemp) || exit 1
trap 'rm -f "$log"' EXIT
cargo test --offline --release -p refal5 --test page --test grammar -- --ignored --nocapture --test-threads=1 --skip picture >"$log" 2>&1
status=$?
cat "$log"
# cargo stops at the first of the two that fails
sed -n 's/^test result: [A-Za-z]*\. \([0-9]*\) passed; \([0-9]*\) failed;.*/\1 \2/p' "$log" | {
  passed=0 failed=0
  while read -r p f; do
    passed=$((passed + p)) failed=$((failed + f))
  done
  [ "$passed" -gt 0 ] || failed=$((failed + 1))
  echo "$passed passed, $failed failed"
}
exit $status
