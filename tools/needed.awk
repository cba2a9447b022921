# The crates that the program needs, lowest first: for each a line with its level and its name. A crate stands on
# crates of lower levels alone. Run as: awk -f tools/needed.awk crates.txt
{ sub(/#.*/, ""); split($0, half, ":"); split(half[1], word, " "); if (word[1] != "") below[word[1]] = half[2] }

function level_of(name,    names, count, i, most, this) {
    if (name in level) return level[name]
    count = split(below[name], names, " ")
    for (i = 1; i <= count; i++) if (names[i] in below) { this = level_of(names[i]); if (this > most) most = this }
    return level[name] = most + 1
}

END {
    top = level_of("mtune")
    for (i = 1; i <= top; i++) for (name in level) if (level[name] == i) print i, name | "LC_ALL=C sort -n"
}
