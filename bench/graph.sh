#!/bin/sh
# Prints the figures of the graph of crates in crates.txt (or in the file that is named), and ends
# with 1 if the graph passes one of four limits. At its start rt walks every path that leads from a
# crate down to another, so a library that is listed without need slows every command down: it may
# double the paths of all crates above. The limits: there are at most 100 crates; a crate lists at
# most six libraries, and none that another library of its list reaches; and all crates together
# have at most 100,000 paths.
list=${1:-$(dirname "$0")/../crates.txt}
awk -F: -v most_crates=100 -v most_listed=6 -v most_paths=100000 '
    # the libraries of this repository that a crate lists, as an array; and how many they are
    function libraries_of(crate, found, words, count, i, own) {
        count = split(listed[crate], words, " ")
        own = 0
        for (i = 1; i <= count; i++) if (words[i] in listed) found[++own] = words[i]
        return own
    }
    # the paths that lead down from a crate, with the path that is the crate alone
    function paths(crate, libraries, count, i, sum) {
        if (crate in known_paths) return known_paths[crate]
        count = libraries_of(crate, libraries)
        sum = 1
        for (i = 1; i <= count; i++) sum += paths(libraries[i])
        return known_paths[crate] = sum
    }
    function depth(crate, libraries, count, i, most) {
        if (crate in known_depth) return known_depth[crate]
        count = libraries_of(crate, libraries)
        most = 0
        for (i = 1; i <= count; i++) if (depth(libraries[i]) > most) most = depth(libraries[i])
        return known_depth[crate] = most + 1
    }
    # whether a crate stands on another one, through any number of crates
    function reaches(crate, low, libraries, count, i, found) {
        if ((crate, low) in answers) return answers[crate, low]
        count = libraries_of(crate, libraries)
        found = 0
        for (i = 1; i <= count && !found; i++)
            found = libraries[i] == low || reaches(libraries[i], low)
        return answers[crate, low] = found
    }
    function fail(text) {
        print "graph: " text
        failed = 1
    }
    # the first library of the list that reaches another one of it, or nothing
    function reached_by(low, libraries, count, i) {
        for (i = 1; i <= count; i++)
            if (libraries[i] != low && reaches(libraries[i], low)) return libraries[i]
        return ""
    }
    function look_at(crate, libraries, count, words, all, i, by) {
        all = split(listed[crate], words, " ")
        if (all > longest) longest = all
        if (all > most_listed) fail(crate " lists " all " libraries, more than " most_listed)
        count = libraries_of(crate, libraries)
        for (i = 1; i <= count; i++) {
            by = reached_by(libraries[i], libraries, count)
            if (by != "") fail(crate " lists " libraries[i] ", which " by " reaches")
        }
    }
    { sub(/#.*/, "") }
    NF == 2 { split($1, head, " "); listed[head[1]] = $2; names[++crates] = head[1] }
    END {
        for (n = 1; n <= crates; n++) {
            look_at(names[n])
            sum += paths(names[n])
            if (paths(names[n]) > most) { most = paths(names[n]); heaviest = names[n] }
            if (depth(names[n]) > deepest) deepest = depth(names[n])
        }
        if (crates > most_crates) fail(crates " crates, more than " most_crates)
        if (sum > most_paths) fail(sum " paths, more than " most_paths)
        printf "graph: %d crates, %d deep, ", crates, deepest
        printf "none with more than %d libraries\n", longest
        printf "graph: %d paths, most of them %d from %s\n", sum, most, heaviest
        exit failed
    }
' "$list"
