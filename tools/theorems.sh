#!/bin/sh
# theorems.sh: the customer's demands are one list of theorems. Each name that proofs/Demands of demands (of the definitions),
# demands_engine (of the engine's calls), demands_door (of the door's) or demands_rolling (of the rolling card's) has, the three others
# have too, or the table below says why one cannot, or in which file it has it. The three that speak of calls have them in the same order,
# and their statements are the same once the words for what C hands in and sees are put into the engine's. The last line is
# 'N passed, M failed'.
set -eu
. "$(dirname "$0")/words.sh"
no_words "$@"
cd "$(dirname "$0")/.."
work=target/theorems
rm -rf "$work"
mkdir -p "$work"

# LIST..: NAME..: why these lists cannot have these theorems, or `in FILE`, another of their proofs/ that has them by these names
cat >"$work/lacking" <<'END'
demands_engine demands_door demands_rolling: more-calls: trace-goes-on says it of calls
demands: trace-goes-on: more-calls says it of a history
demands: every-point same-calls-same-results: a definition gives each history one splicer at each point
demands: every-call-may-be-made every-call-is-answered: a definition requires nothing, and answers everything
demands: answers-as-ruled trace-as-ruled: the rules themselves are spoken of there
demands: reserved-places-hold: full-exactly-when with a count below 10
demands: the-incident: closed-stays-ended and ends-are-owed, put together where the calls that follow are made
demands: stored-as-told read-as-told primary-read section-read: what the words of the memory hold and what a read gives
demands: places-stay fresh-unmoved: the lent places, and the words of fresh's reply
demands: no-two-alike waiting-in-order first-starts-next first-is-next waiting-played-none: of every splicer, by rules/proofs/Sound
demands: unmoved-else at-most-63 moved-is-later: in Moved
demands: every-moment primary-kept air-kept lists-as-counted no_gap prints-alike: in Owners
demands: played-as-counted: in Said
demands: kept-told config-told section-told nothing-else-changes close-forgets opened-denied: in Kept
demands demands_engine: page-read: the page is a call of the door's alone
demands demands_engine: calls-of-the-engine: these are the definitions, and the engine's calls themselves
demands_rolling: calls-of-the-engine: rolls-as-ruled says it, and calls-as-ruled which calls they are
demands demands_engine demands_door: rolls-as-ruled calls-as-ruled state-as-ruled: how the rolling card's calls amount to 01's
demands demands_engine demands_door: true-step true-time true-time-shown true-time-good instant-shows: 02, CR 9: no other card has a counter
demands: air-told alive-as-read due-told first-tick quiet-before due-stays: what a read gives; laws in its Due
demands: quiet-always wakes-from good-from: what a read gives; laws in its Due
demands: sessions-told sessions-in-order sessions-at-most ticks-between later-stays-good moves-between: laws in its Sessions and Between
demands demands_door demands_rolling: move-quiet-before move-wakes-from: bring_to is a call of the engine's alone
demands_door demands_rolling: moves-between: bring_to is a call of the engine's alone
demands_rolling: first-tick due-stays quiet-always later-stays-good: of a counter: first_step, left_after, quiet-before
demands demands_engine demands_door: first_step left_after counter-step: of a counter: no other card has one
END

lists='demands demands_engine demands_door demands_rolling'
for list in $lists; do
    # the reads of drivers stand in files of their own; of the definitions these are laws below
    files=Demands
    [ "$list" = demands ] || files='Demands Due Sessions'
    for file in $files; do sed -nE 's/^ *pub ([^ ]+) :.*/\1/p' "crates/$list/proofs/$file.antt"; done >"$work/$list"
done

# each name of any list, in each list: it is there once, or the table says why not, and not both; each name of the table is in some list
awk -v lists="$lists" -v work="$work" '
function wrong(words) { print "theorems: " words ": FAILED"; bad = 1 }
function stands(list, file, name,    path, line, found) {
    path = "crates/" list "/proofs/" file ".antt"
    while ((getline line < path) > 0) if (line ~ "^ *pub " name " :") found = 1
    close(path)
    return found
}
BEGIN {
    FS = ": *"
    n = split(lists, list, " ")
    for (i = 1; i <= n; i++) {
        while ((getline line < (work "/" list[i])) > 0) {
            if (!(line in known)) { known[line] = 1; order[++all] = line }
            has[list[i], line]++
        }
    }
}
{
    k = split($1, in_list, " ")
    m = split($2, name, " ")
    for (i = 1; i <= k; i++) for (j = 1; j <= m; j++) {
        if ($3 == "") wrong("the table gives no reason for " name[j])
        else if (!(name[j] in known)) wrong("the table has " name[j] ", which no list has")
        else if ((in_list[i], name[j]) in excused) wrong("the table has " name[j] " of " in_list[i] " twice")
        else if ($3 ~ /^in [A-Z][a-z]*$/ && !stands(in_list[i], substr($3, 4), name[j])) wrong(in_list[i] " has no " name[j] " " $3)
        excused[in_list[i], name[j]] = 1
        if (bad) { failed++; bad = 0 }
    }
}
END {
    for (j = 1; j <= all; j++) {
        for (i = 1; i <= n; i++) {
            times = has[list[i], order[j]] + 0
            told = (list[i], order[j]) in excused
            if (times > 1) wrong(list[i] " has " order[j] " " times " times")
            else if (times == 0 && !told) wrong(list[i] " lacks " order[j] ", and the table says no reason")
            else if (times == 1 && told) wrong(list[i] " has " order[j] ", and the table says why it cannot")
        }
        if (bad) failed++
        else passed++
        bad = 0
    }
    print passed + 0, failed + 0 >(work "/count")
}' "$work/lacking"
read -r passed failed <"$work/count"

# in_order ONE OTHER: the names that both have come in the same order
in_order() {
    grep -xFf "$work/$2" "$work/$1" >"$work/one"
    grep -xFf "$work/$1" "$work/$2" >"$work/other"
    if diff "$work/one" "$work/other"; then
        passed=$((passed + 1))
    else
        echo "theorems: $1 and $2 have them in another order: FAILED"
        failed=$((failed + 1))
    fi
}
in_order demands_engine demands_door
in_order demands_engine demands_rolling
in_order demands_door demands_rolling

# of a call for C its words, and what stands for it in the engine's call
cat >"$work/demands_door.sed" <<'END'
s/Seen/Result/g
s/(left r)/r.memory/g
s/left r/r.memory/g
s/\([ (]\)r\.words/\1r.memory.words/g
s/\([ (]\)r\.bytes/\1r.memory.bytes/g
s/\([ (]\)r\.reply/\1r.answer/g
s/Allowed r\.memory\.words r\.memory\.bytes/Allowed r.memory/g
s/Allowed one\.words one\.bytes/Allowed one.memory/g
s/(left \(two\|alone\))/\1.memory/g
s/left \(two\|alone\)/\1.memory/g
s/(l g e : List ℕ)/(l : List ℕ) (pts seconds micros : ℕ) (e : List ℕ)/g
s/a_cue l g e/a_cue l pts seconds micros e/g
s/(pts_of g) (get_or g 2 0) (get_or g 3 0)/pts seconds micros/g
END

# of the rolling card: the engine's memory is one part of its own, a known call is the door's, another one grants nothing and changes
# nothing that is kept
cat >"$work/demands_rolling.sed" <<'END'
s/a_known (\([^()]*\))/\1/g
s/RollSeen/Seen/g
s/RollInput/Input/g
s/RollTyped/Typed/g
s/roll_call_of/call_of/g
s/roll_buffer_of/buffer_of/g
s/roll_checks/checks/g
s/LentAt m/Lent m.words m.bytes/g
s/AllowedAt (left r)/Allowed r.words r.bytes/g
s/((shown m)\.splicer ≡/(shown m ≡/g
s/(shown m)\.splicer/(shown m)/g
s/(shown (left r))\.splicer/(shown (left r))/g
s/m\.core/m/g
s/others_by i/others_of (call_of i)/g
s/grants i/granted_by (call_of i)/g
s/changes d i/changed d (call_of i)/g
s/engine\.calls (within h)/calls h/g
s/places\.next/next/g
END
: >"$work/demands_engine.sed"
cat "$work/demands_door.sed" >>"$work/demands_rolling.sed"

# statements LIST FILE: each theorem's name and its statement in one line, with what is given in the modules around it
statements() {
    awk -v list="$1" '
    function put(at, words) { deep++; indent[deep] = at; given[deep] = words }
    /^ *--/ { next }
    { here = match($0, /[^ ]/) - 1; line = $0; gsub(/^ +| +$/, "", line) }
    name != "" && (index(line " ", name " ") == 1 || line ~ /^unfolding /) {
        printf "%s\t%s\t", list, name
        for (i = 1; i <= deep; i++) printf "%s ", given[i]
        print ": " text
        name = ""
        next
    }
    name != "" { text = text " " line; next }
    open != "" { open = open " " line }
    open == "" && here >= 0 { while (deep && here <= indent[deep]) deep-- }
    open == "" && line ~ /^(module _|abbrev) / { open = line; from = line ~ /^module/ ? here : here - 1 }
    open ~ /^module .* where$/ || (open != "" && here < 0) { put(from, open); open = "" }
    open == "" && line ~ /^pub [^ ]+ :/ { split(line, part, " "); name = part[2]; text = substr(line, length(name) + 8) }
    ' "crates/$1/proofs/$2.antt" | sed -f "$work/$1.sed"
}

# each name that several lists of calls have is the same statement
{
    for list in demands_engine demands_door demands_rolling; do statements "$list" Demands; done
    # the rolling card's are of readings
    for file in Due Sessions; do for list in demands_engine demands_door; do statements "$list" "$file"; done; done
} >"$work/said"
awk -F '\t' -v work="$work" '
{
    if (!($2 in first)) { first[$2] = $3; by[$2] = $1; next }
    if ($3 == first[$2]) { passed++; next }
    failed++
    print "theorems: " $2 " says another thing in " $1 " than in " by[$2] ": FAILED"
    print "  " by[$2] ": " first[$2]
    print "  " $1 ": " $3
}
END { print passed + 0, failed + 0 >(work "/count") }' "$work/said"
read -r same other <"$work/count"
passed=$((passed + same))
failed=$((failed + other))
for list in $lists; do echo "theorems: $(($(wc -l <"$work/$list"))) of $list"; done
echo "$passed passed, $failed failed"
[ "$failed" -eq 0 ]
