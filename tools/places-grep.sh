#!/bin/sh
# The seven points of tools/places.py once more and roughly, by plain greps over lines: a check that the tool overlooks no crate and no kind.
#
# usage: sh tools/places-grep.sh [--table] [ROOT]
#
# A line is a place, whether or not a closer look would keep it; --table prints only the counts. Whole-line comments are left out.
# 1: own enums, numbers of refusals, kinds as numbers and bools. 2: functions and constants whose name stands twice or more.
# 3: loops, and ranges counted by `for`. 4: names of conversions, orders, copies and printing, and tests of floats.
# 5: facts in brackets that stand word for word in three lines or more. 6: lengths among parameters and fields, slices of usize, and two
# slices with one index in a line. 7: calls right below an `if` or an `else`; arms of a match are not looked at.
export LC_ALL=C.UTF-8
table=no
[ "$1" = --table ] && table=yes && shift
cd "${1:-.}" || exit 1

# Prints the lines that come in, and how many there are.
point() {
    lines=$(cat)
    [ $table = no ] && printf '%s\n' "$lines"
    echo "point $1 | lines | $(printf '%s' "$lines" | grep -c '')"
}

code() {
    grep -rn --include='*.rt' "$@" crates/*/src | grep -vE '^[^:]*:[0-9]+: *//' | sed 's/^crates.//'
}

code -E '^ *(pub )?enum |\bnumber: u32\b|-> u32\b|\bnumber [!=]= 0|\b(level|stage|kind|mode|entry|minus|good): (u8|u32|usize)\b|: bool\b' | point 1
code -oE '\b(fn|const) \w+\b' | grep -vE 'const [a-z]' | sort -k 2 | uniq -D -f 1 | point 2
code -E '^ *(while|loop|for)\b' | point 3
code -E '\bfn (\w+_of|\w*number|(from|to|is|put|write|print)_\w+|same|least|less\w*|smaller|copy\w*)\b|(\w+) - \3 == 0|(\w) [!=]= \4\b' | point 4
code -E '^ *(requires|×)' | grep -oE '\([^()]*[≤<≡][^()]*\)' | sort | uniq -c |
    awk '$1 > 2 { n = $1; sub(/^ *[0-9]+ /, ""); while (n--) print }' | point 5
code -E '\b(count|length|n|cells|at|end|points|rows|columns): usize|\[usize|\b\w+\[.*\b(\w)\] .*\w\[.*\b\2\]' | point 6
code -A 1 -E '^ *(\} else )?(if .*|else )\{$' | sed -nE 's/^([^ ]*)-([0-9]+)-( +(return )?([a-z_0-9]+::)*[a-z_0-9]+\(.*\);?)$/\1:\2:\3/p' | point 7
