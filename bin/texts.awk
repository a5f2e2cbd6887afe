# Takes in a rule text, a recording text, and what the program `why` prints of them, all accepted: nothing is checked or
# judged here. bin/readings.awk and bin/timeline.awk show what it took.

BEGIN {
    FS = "\t"
    text = masks = gauges = taken = readings = 0
}

{ sub(/\r$/, "") }                 # either line ending

FNR == 1 { text++ }

text == 1 && FNR == 1 { owner = $2 + 0 }
text == 1 && $1 == "atom" { named[$2 + 0] = 1 }

text == 2 && FNR == 1 { controllers = $2 + 0; states = $3 + 0 }
text == 2 && $1 == "owns" { mask[masks++] = $2 }
text == 2 && $1 == "gauge" { gaugeAtom[gauges++] = $2 + 0; threshold[$2 + 0] = $3 }
text == 2 && $1 == "at" {
    marks[taken] = $2
    word[taken] = $3
    for (g = 0; g < gauges; g++) value[taken, gaugeAtom[g]] = $(4 + g)
    taken++
}

text == 3 && FNR == 1 { reading = $1; verdict = $2 }
text == 3 && $1 == "state" {
    shownLine[readings] = $0
    shownState[readings] = $2
    shownStep[readings] = $4
    shownAtom[readings] = $6
    shownBit[readings] = $8
    shownNode[readings++] = $10
}
