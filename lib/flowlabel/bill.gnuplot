# Draws the bytes of a table as bars. The second command draws a table of sums by minute, over the time:
#
#     gnuplot -e "bill = 'FILE'; picture = 'FILE.svg'" lib/flowlabel/bill.gnuplot
#     gnuplot -e "minutes = 'FILE'; picture = 'FILE.svg'" lib/flowlabel/bill.gnuplot
#
# The bill is a table of `flowlabel uniq` or `flowlabel-report` with one label first, such as dst-label, and a column
# `bytes`. Its bars are in the order of its lines. The table of sums by minute is what `flowlabel-many sum --by minute`
# prints. A table without lines gives an empty picture.

table = exists("minutes") ? minutes : bill
quoted(text) = strstrt(text, "'") \
    ? text[1:strstrt(text, "'") - 1] . "'\\''" . quoted(text[strstrt(text, "'") + 1:strlen(text)]) : text
file = "'" . quoted(table) . "'"
if (system("cat -- " . file . " 2>/dev/null | head -n 1 | tr '|' '\\n' | grep -cx ' *bytes'") != 1) \
    exit error table . ": no table with a column 'bytes'"
# Sums of an unknown time, whose minute is 0, have no bar.
kept = exists("minutes") ? "^[^|]*T" : "^"
count = int(system("sed 1d <" . file . " | grep -c '" . kept . "'"))
# gnuplot takes bars, quotes and backslashes of a label for something else, so they become escapes. If the header has
# blanks, its columns are padded.
literally = '< awk -F "|" ''NR == 1 { all = NF; padded = / / } NR > 1 && $0 !~ /' . kept . '/ { next }' \
    . ' padded { gsub(/^ +/, ""); gsub(/\| +/, "|") } { gsub(/\\/, "\\134"); gsub(/"/, "\\042")' . "\n" \
    . ' while (NF > all && sub(/\|/, "\\174")) { } print }'' <' . file

form = "%Y-%m-%dT%H:%MZ"
minute(end) = strptime(form, system("grep '" . kept . "' <" . file . " | " . end . " -n 1 | cut -d '|' -f 1"))

set terminal svg noenhanced size 640,360 font "sans,12" background "white"
set output picture
set datafile separator "|"
set datafile columnheaders
set style fill solid 0.8 noborder
set ytics format "%.0s %cB"
set grid ytics
set tics nomirror
set border 3
unset key
set yrange [0:*]
if (exists("minutes")) {
    set title "Bytes by minute"
    set xdata time
    set timefmt form
    set boxwidth 50
    span = minute("tail") - minute("head")
    set format x (span < 86400 ? "%H:%M" : "%m-%d\n%H:%M")
    if (span < 600) { set xtics 60 }
} else {
    set title "Bytes by customer"
    set boxwidth 0.6
    set xrange [-0.6:(count ? count : 1) - 0.4]
}
if (count == 0) {
    set xrange [0:1]
    set yrange [0:1]
    set xtics format ""
    plot -1
    exit
}
if (exists("minutes")) {
    plot literally using 1:"bytes" with boxes linecolor rgb "#3465a4"
} else {
    plot literally using 0:"bytes":xticlabels(1) with boxes linecolor rgb "#3465a4"
}
