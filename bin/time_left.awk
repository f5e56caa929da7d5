# The minutes that the rest of a proof takes, or nothing where nothing is left. Reads three files: `lines` has the crates, each after
# those that it uses, with their lines of code; then crates.txt; then `ended`, with each crate that has ended, and `kept` behind it
# where an earlier run had proved it. `seconds` have passed, on so many processors: `lanes`.
#
# A crate counts its lines, and 200 for what each proof loads; the last one, the program, a twenty-fifth of all for its builds too. Those
# that no earlier run had proved are planned as rt takes them: each once those that it uses have ended, one a processor, and first those
# with the longest chain of others behind them. What is left is what lies in this plan behind the moment at which as much has ended as has
# ended now. It goes on at the pace so far, which is mixed with two minutes at a pace that was measured on four processors.
BEGIN { pace = 10 }

FILENAME ~ /lines$/ { name[++count] = $1; sum += weight[$1] = $2 + 200; next }
FILENAME ~ /ended$/ { if ($2 == "kept") kept[$1] = 1; else ended[$1] = 1; next }
{
    sub(/#.*/, "")
    at = index($0, ":")
    if (at && split(substr($0, 1, at - 1), words, " ")) uses[words[1]] = substr($0, at + 1)
}

# Whether all that a crate uses is there at this moment of the plan.
function is_ready(crate, moment, parts, i) {
    for (i = split(uses[crate], parts, /[ ,\t]+/); i; i--) {
        if ((parts[i] in weight) && !(parts[i] in kept) && (!(parts[i] in end) || end[parts[i]] > moment)) return 0
    }
    return 1
}

# The crate to begin at this moment, or nothing.
function next_one(moment, found, crate) {
    for (crate in weight) {
        if (!(crate in end) && !(crate in kept) && (found == "" || behind[crate] > behind[found]) && is_ready(crate, moment)) found = crate
    }
    return found
}

END {
    weight[name[count]] += sum / 25
    for (i = count; i; i--) {
        if (!(name[i] in kept)) behind[name[i]] += weight[name[i]]
        for (j = split(uses[name[i]], parts, /[ ,\t]+/); j; j--) {
            if (behind[parts[j]] < behind[name[i]]) behind[parts[j]] = behind[name[i]]
        }
    }
    for (crate in ended) proved += weight[crate]
    for (;;) {
        while (running < lanes && (crate = next_one(whole)) != "") {
            end[crate] = whole + weight[crate]
            running++
        }
        if (!running) break
        first = 0
        for (crate in end) {
            if (end[crate] > whole && (!first || end[crate] < first)) first = end[crate]
        }
        whole = first
        for (crate in end) {
            if (end[crate] == whole) {
                running--
                done += weight[crate]
            }
        }
        if (done <= proved) passed = whole
    }
    if (whole > passed) print int((whole - passed) * (seconds + 120) / (passed + 120 * pace) / 60 + 1)
}
