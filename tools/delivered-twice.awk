# Of a journal: which records were delivered that had been delivered before, by shard, from which tenure to which, and
# at last how many times. A table of names (tools/schedule --to) may stand before the journal:
#
#     awk -f tools/delivered-twice.awk names.txt incident.journal
#
# Sequence numbers count in each stream from 1, so a record is its stream's number and its own.
function two(n) { return n < 10 ? "0" n : n }
# Milliseconds since 1970 as a date; small ones, as in most examples, stay as they are.
function date(ms,   days, rest, era, day, year, month) {
    if (ms < 100000000000) return ms
    days = int(ms / 86400000); rest = ms - days * 86400000
    era = int((days + 719468) / 146097); day = days + 719468 - era * 146097
    year = int((day - int(day / 1460) + int(day / 36524) - int(day / 146096)) / 365)
    day -= 365 * year + int(year / 4) - int(year / 100); month = int((5 * day + 2) / 153)
    day -= int((153 * month + 2) / 5) - 1
    year += era * 400; month += month < 10 ? 3 : -9; if (month < 3) year++
    return year "-" two(month) "-" two(day) "T" two(int(rest / 3600000)) ":" two(int(rest / 60000) % 60) ":" \
        two(int(rest / 1000) % 60) "." substr(1000 + rest % 1000, 2) "Z"
}
function named(word) { return word in name ? name[word] : word }
function record(of, n) { return (of, n) in number ? n " (" number[of, n] ")" : n }
function tenure(t) { return "tenure " t " (" named(who[t]) ")" }
# A run of records that one delivery had given before.
function tell(   many) {
    if (!run) return
    many = run == 1 ? "record " record(of, first) : run " records, " record(of, first) " to " record(of, last)
    told[++lines] = date(at) " " named(key[now]) ": " many ": " tenure(before) " at " date(when) ", again " tenure(now)
    run = 0
}
# What a terminal would take for a command is no word of a file.
/[^ -~]/ { gsub(/[^ -~]/, "?") }
# Another file has no answer: what isn't a journal, names that come too late, or names of another journal, which their
# second line tells.
$1 == "names" && read_any { late = 1 }
$1 == "journal" && NF == 3 { named_entries = $2; named_end = $3 }
function is_entry() {
    return $3 ~ /^(made|gone|put|split|merged|kept|enforced)$/ || \
        $3 ~ /^(lease|taken|renewed|freed|opened|read|given|marked|cut)$/
}
$1 ~ /^[0-9]+$/ && $2 ~ /^[0-9]+$/ && is_entry() { entries++; read_any = 1 }
$1 == "end" && NF == 2 { clock = $2; read_any = 1 }
$1 == "worker" || $1 == "shard" { name[$2] = $3 }
$1 == "record" { split($2, part, "/"); number[part[1], part[2]] = $3 }
$3 == "taken"  { split($4, part, "/"); stream[$5] = part[1]; key[$5] = $4; who[$5] = $7 }
$3 == "read"   { reads[$4, ++read[$4]] = $0 }
$3 == "given"  {
    now = $4; at = $1; of = stream[now]; count = split(reads[now, ++given[now]], field)
    for (i = 7; i <= count; i++) {
        n = field[i]
        if ((of, n) in seen) {
            twice++
            if (run && (by[of, n] != before || moment[of, n] != when)) tell()
            if (!run++) { first = n; before = by[of, n]; when = moment[of, n] }
            last = n
        } else tell()
        seen[of, n]; by[of, n] = now; moment[of, n] = at
    }
    tell()
}
END {
    if (late) why = "names.txt stands before the journal"
    else if (!read_any) why = "no journal was read: give incident.journal, or what ./kds replay --journal writes"
    else if (named_end != "" && (named_entries != entries + 0 || named_end != clock))
        why = "the names are of another journal, of " named_entries " entries, and this one has " entries + 0
    if (why) {
        print "delivered-twice.awk: " why > "/dev/stderr"
        exit 2
    }
    for (i = 1; i <= lines; i++) print told[i]
    print twice + 0
}
