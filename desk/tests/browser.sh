#!/usr/bin/env bash
# Opens the reports of all examples in headless Chromium (Debian: apt-get install chromium), and leaves screenshots to look
# at in target/desk/browser: light, dark and narrow, and the page on paper as a PDF. Not part of the gate.
#
#   desk/tests/browser.sh              all examples
#   desk/tests/browser.sh PLAN..       these plans
set -euo pipefail
root=$(cd "$(dirname "${BASH_SOURCE[0]}")/../.." && pwd)
browser=${CHROMIUM:-$(command -v chromium || command -v chromium-browser || true)}
[ -n "$browser" ] || { echo "browser.sh: Chromium is not there (apt-get install chromium)" >&2; exit 2; }
shots=$root/target/desk/browser
mkdir -p "$shots"
profile=$(mktemp -d)
trap 'rm -rf "$profile"' EXIT

# chromium ARGUMENT..: quiet, unless it fails or gives no file
chromium() {
    local said
    if ! said=$(timeout 120 "$browser" --headless=new --no-sandbox --disable-gpu --hide-scrollbars \
        --user-data-dir="$profile" "$@" 2>&1); then
        printf '%s\n' "$said" | tail -n 3 >&2
        return 1
    fi
}

[ $# -gt 0 ] || set -- "$root"/examples/*.plan
count=0
for plan in "$@"; do
    name=$(basename "$plan" .plan)
    page=$shots/$name.html
    status=0
    "$root/pirkvezo" report "$plan" -o "$page" >"$shots/$name.said" 2>&1 || status=$?
    # 1 is a refused plan, which has a page too
    [ "$status" -le 1 ] || { cat "$shots/$name.said" >&2; exit 1; }
    rm -f "$shots/$name".light.png "$shots/$name".dark.png "$shots/$name".narrow.png "$shots/$name".pdf
    chromium --window-size=1200,2400 --screenshot="$shots/$name.light.png" "file://$page"
    chromium --window-size=1200,2400 --force-dark-mode --screenshot="$shots/$name.dark.png" "file://$page"
    chromium --window-size=500,1200 --screenshot="$shots/$name.narrow.png" "file://$page"
    chromium --print-to-pdf="$shots/$name.pdf" --no-pdf-header-footer "file://$page"
    for made in light.png dark.png narrow.png pdf; do
        [ -s "$shots/$name.$made" ] || { echo "browser.sh: $name: no $made" >&2; exit 1; }
    done
    count=$((count + 1))
done
echo "browser: $count reports opened, now look at $shots"
