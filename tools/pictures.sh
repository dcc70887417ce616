#!/bin/sh
# pictures.sh: the pages of the example day and of the incident in a real browser, headless Chromium as Debian has it
# (chromium-headless-shell or chromium): their pictures go to docs/pictures/, and what the browser made of each page is read: its lanes,
# bars, breaks, the axes that its script drew, a zoomed page, local times on both days on which a zone changes its clock, a time gone to,
# what was found, the page in the dark and on a phone. Installs Debian's where there is none (as root). No part of the gate. The last line
# is 'N passed, M failed'.
set -eu
. "$(dirname "$0")/words.sh"
no_words "$@"
needs_rust 1.81
cd "$(dirname "$0")/.."
work=$PWD/target/pictures
mkdir -p "$work" docs/pictures
passed=0
failed=0

# find_browser: sets browser
find_browser() {
    for browser in chromium-headless-shell chromium; do
        command -v "$browser" >/dev/null 2>&1 && return 0
    done
    return 1
}

# shown PAGE FLAG..: the browser over a page; as root it has no sandbox of its own
shown() {
    page=$1
    shift
    [ "$(id -u)" -ne 0 ] || set -- --no-sandbox "$@"
    timeout 120 "$browser" --headless --disable-gpu --hide-scrollbars --window-size="$width,$height" "$@" "file://$page" \
        2>"$work/browser.log"
}

# has NAME COUNT PATTERN: how often the page that the browser made has it
has() {
    found=$(grep -oE "$3" "$work/$1.dom" | wc -l)
    if [ "$found" -eq "$2" ]; then
        passed=$((passed + 1))
    else
        echo "pictures: $1: $3: $found, not $2"
        failed=$((failed + 1))
    fi
}

# pictured NAME HEIGHT: page, picture and DOM of a recording
pictured() {
    echo "pictures: $1"
    width=1400 height=$2
    "$desk" timeline --html "$work/$1.html" --zone Europe/Berlin "desk/recordings/$1.rec" || [ $? -eq 1 ]
    shown "$work/$1.html" --screenshot="$work/$1.png"
    cp "$work/$1.png" docs/pictures/
    shown "$work/$1.html" --dump-dom >"$work/$1.dom"
    asked "$1" zoomed zoom=8
    has "$1" 1 '<span id="zoom">1.0x</span>'
    has "$1-zoomed" 1 '<span id="zoom">8.0x</span>'
    has "$1-zoomed" 1 'id="day"[^>]*width: 800%'
}

# asked PAGE NAME WORDS: what the browser makes of a page that is opened with these words behind its name
asked() {
    shown "$work/$1.html#$3" --dump-dom >"$work/$1-$2.dom"
}

# hours NAME SECOND: a page of four hours from a second on, in which nothing happens
hours() {
    printf '> tick %s\n> open 0\n> tick %s\n' "$2" "$(($2 + 14400))" | "$desk" join --text - >"$work/$1.rec"
    "$desk" timeline --html "$work/$1.html" --zone Europe/Berlin "$work/$1.rec" >"$work/desk.log"
    shown "$work/$1.html" --dump-dom >"$work/$1.dom"
}

if ! find_browser; then
    echo 'pictures: installing chromium-headless-shell'
    {
        apt-get update || :
        apt-get install -y --no-install-recommends --no-remove chromium-headless-shell fonts-dejavu-core || :
    } >"$work/setup.log" 2>&1
    find_browser || { echo 'pictures.sh: no chromium-headless-shell or chromium here' >&2; exit 2; }
fi
sh tools/desk.sh install "$work" >/dev/null
desk=$work/bin/desk
pictured example-day 1000
has example-day 3 '<section class="lane"'
has example-day 38 'class="label[ "]'
has example-day 12 'class="tick"'
has example-day 1 'class="bar covered k0" style="left'
pictured incident 860
has incident 4 '<section class="lane"'
has incident 5 'class="break" style'
has incident 2 'class="bar ruled" style="left'
has incident 14 'class="tick"'
# 1970-01-12: Berlin is an hour ahead of UTC
has example-day 1 '14:00:00 UTC'
has example-day 1 '>15:00:00<'
has example-day 3 'data-session="501"[^>]*><td>'
asked example-day found find=501
has example-day-found 1 '<span id="found">3 found</span>'
has example-day-found 3 '<tr data-session="501"[^>]*class="hit"'
has example-day-found 35 'class="miss"'
asked incident found find=4002
has incident-found 1 '<span id="found">2 found</span>'
# the clock goes from 02:00 to 03:00, and from 03:00 to 02:00, at 01:00 UTC
echo 'pictures: days of 23 and 25 hours'
hours spring 1774742400
has spring 1 '>01:00:00 GMT\+1<'
has spring 1 '>01:30:00<'
has spring 1 '>03:00:00 GMT\+2<'
has spring 0 '>02:[0-9:]*<'
asked spring at at=03:15
has spring-at 1 'id="cursor"[^>]*data-at="1774746900.000000"'
asked spring at 'at=01:15Z'
has spring-at 1 'id="cursor"[^>]*data-at="1774746900.000000"'
hours autumn 1792886400
has autumn 1 '>02:00:00 GMT\+2<'
has autumn 2 '>02:30:00<'
has autumn 1 '>02:00:00 GMT\+1<'
asked autumn at at=03:15
has autumn-at 1 'id="cursor"[^>]*data-at="1792894500.000000"'
echo 'pictures: in the dark, on a phone, printed'
width=1400 height=1000
shown "$work/example-day.html" --blink-settings=preferredColorScheme=0 --screenshot="$work/example-day-dark.png"
width=412 height=900
shown "$work/example-day.html" --screenshot="$work/example-day-phone.png"
cp "$work/example-day-dark.png" "$work/example-day-phone.png" docs/pictures/
shown "$work/example-day.html" --print-to-pdf="$work/example-day.pdf"
if [ "$(head -c 5 "$work/example-day.pdf")" = '%PDF-' ]; then passed=$((passed + 1)); else failed=$((failed + 1)); fi
echo "$passed passed, $failed failed"
[ "$failed" -eq 0 ]
