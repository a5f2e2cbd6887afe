# Draws a recording as a timeline, in SVG: a lane for each controller with its run marks, one for the steps of the rule's
# controller, one for each atom of the rule, and under that of a gauge's atom one with its values and its threshold; and a
# ring around each reading that decides the verdict.
# After bin/texts.awk, which took the texts. RULE and RECORDING in the environment are the names that the picture shows.
# One element to a line, so that a test reads it line by line.

BEGIN {
    column = 30                    # the width of a state
    lane = 38                      # the height of a lane
    tall = 64                      # the height of a gauge's lane
    left = 190                     # where state 0 begins
    top = 92                       # where the first lane begins
    steps = after = 0
}

# bit b of hexadecimal digits
function bit(digits, b,    value) {
    value = index("0123456789abcdef", substr(digits, length(digits) - int(b / 4), 1)) - 1
    return int(value / 2 ^ (b % 4)) % 2
}

# an atom's bit in a state: "1 exactly when the value is at least the threshold" where it has a gauge
function finished(k, a) {
    if (a in threshold) return value[k, a] + 0 >= threshold[a] + 0
    return bit(word[k], a)
}

# "a mark in the last state is read as no run"
function runs(k, c) { return k + 1 < states && bit(marks[k], c) }

function middle(k) { return left + k * column + column / 2 }

function escaped(name) {
    gsub(/[^ -~]/, "?", name)
    gsub(/&/, "\\&amp;", name)
    gsub(/</, "\\&lt;", name)
    gsub(/>/, "\\&gt;", name)
    gsub(/"/, "\\&quot;", name)
    return name
}

function label(words, y) { printf "<text class=\"label\" x=\"12\" y=\"%d\">%s</text>\n", y + 5, words }

# the states, and a band for each step
function draw_states(height,    k) {
    for (k = 0; k < states; k++) {
        if (k in stepOf)
            printf "<rect class=\"%s\" x=\"%d\" y=\"%d\" width=\"%d\" height=\"%d\"/>\n", stepOf[k] < steps ? "step" : "last", \
                left + k * column, top - 22, column, height - top + 12
        printf "<text class=\"state\" data-state=\"%d\" x=\"%d\" y=\"%d\">%d</text>\n", k, middle(k), top - 28, k
    }
    label("state", top - 33)
}

# a controller's run marks; one in the last state is a step whose result isn't there
function draw_controller(c, y,    k, words) {
    words = "controller " c
    if (c == owner) words = words ", the rule's"
    label(words, y)
    for (k = 0; k < states; k++)
        if (bit(marks[k], c))
            printf "<circle class=\"%s\" data-controller=\"%d\" data-state=\"%d\" cx=\"%d\" cy=\"%d\" r=\"6\"/>\n", \
                runs(k, c) ? "run" : "unfinished", c, k, middle(k), y
}

# the local places: the steps of the rule's controller, and the place after the last one
function draw_steps(y,    k) {
    label("step of controller " owner, y)
    for (k = 0; k < states; k++)
        if (k in stepOf)
            printf "<text class=\"place\" data-step=\"%d\" data-state=\"%d\" x=\"%d\" y=\"%d\">%d</text>\n", stepOf[k], k, middle(k), y + 5, stepOf[k]
}

# an atom's bits, as a line that is high where it is 1
function draw_atom(a, y,    k, points, level) {
    label("atom " a (bit(mask[owner], a) ? ", own" : ", foreign"), y)
    for (k = 0; k < states; k++) {
        level = y + (finished(k, a) ? -9 : 9)
        points = points (k ? " " : "") left + k * column "," level " " left + (k + 1) * column "," level
    }
    printf "<polyline class=\"bits\" data-atom=\"%d\" points=\"%s\"/>\n", a, points
}

# a gauge: its values as a line over the states, higher where they are larger, and its threshold as a dashed one
function draw_gauge(a, y,    k, least, most, scale, points, level) {
    least = most = threshold[a] + 0
    for (k = 0; k < states; k++) {
        if (value[k, a] + 0 < least) least = value[k, a] + 0
        if (value[k, a] + 0 > most) most = value[k, a] + 0
    }
    scale = most > least ? (tall - 24) / (most - least) : 0
    level = y + (most - threshold[a]) * scale
    label("its gauge; dashed: " threshold[a], level)
    printf "<polyline class=\"threshold\" data-atom=\"%d\" data-threshold=\"%s\" points=\"%d,%.1f %d,%.1f\"/>\n", \
        a, threshold[a], left, level, left + states * column, level
    for (k = 0; k < states; k++) points = points (k ? " " : "") middle(k) "," sprintf("%.1f", y + (most - value[k, a]) * scale)
    printf "<polyline class=\"gauge\" data-atom=\"%d\" points=\"%s\"/>\n", a, points
    for (k = 0; k < states; k++) {
        printf "<circle class=\"value\" data-atom=\"%d\" data-state=\"%d\" data-value=\"%s\" cx=\"%d\" cy=\"%.1f\" r=\"3\">\n", \
            a, k, value[k, a], middle(k), y + (most - value[k, a]) * scale
        printf "<title>state %d: %s, %s %s</title>\n", k, value[k, a], finished(k, a) ? "at least" : "below", threshold[a]
        print "</circle>"
    }
}

# a reading: a ring where the atom's line is, wider for each further node that reads it there
function draw_reading(i,    k, a, y, made, data) {
    k = shownState[i]
    a = shownAtom[i]
    y = laneOf[a] + (shownBit[i] ? -9 : 9)
    if (a in threshold) {
        made = ": the value " value[k, a] " is " (shownBit[i] ? "at least" : "below") " the threshold " threshold[a]
        data = " data-value=\"" value[k, a] "\" data-threshold=\"" threshold[a] "\""
    }
    printf "<circle class=\"evidence\" data-state=\"%d\" data-step=\"%d\" data-atom=\"%d\" data-bit=\"%d\" data-node=\"%d\"%s cx=\"%d\" cy=\"%d\" r=\"%d\">\n", \
        k, shownStep[i], a, shownBit[i], shownNode[i], data, middle(k), y, 7 + 3 * rings[k, a]++
    printf "<title>state %d, step %d: atom %d is %d (node %d)%s</title>\n", k, shownStep[i], a, shownBit[i], shownNode[i], made
    print "</circle>"
}

function draw_style() {
    print "<style>"
    print "text { font: 13px sans-serif; fill: #1f2937; }"
    print ".title { font-size: 16px; font-weight: bold; }"
    print ".state, .place { text-anchor: middle; font-size: 12px; }"
    print ".place { font-weight: bold; }"
    print ".step { fill: #dbeafe; }"
    print ".last { fill: #eff6ff; stroke: #93c5fd; stroke-dasharray: 3 3; }"
    print ".run { fill: #1d4ed8; }"
    print ".unfinished { fill: none; stroke: #1d4ed8; stroke-width: 2; stroke-dasharray: 2 2; }"
    print ".bits { fill: none; stroke: #374151; stroke-width: 2; }"
    if (drawn) {
        print ".gauge { fill: none; stroke: #15803d; stroke-width: 2; }"
        print ".value { fill: #15803d; }"
        print ".threshold { stroke: #b91c1c; stroke-width: 1.5; stroke-dasharray: 5 3; }"
    }
    print ".evidence { fill: #fb923c; fill-opacity: 0.25; stroke: #c2410c; stroke-width: 2.5; }"
    print "</style>"
}

END {
    for (k = 0; k < states; k++)
        if (runs(k, owner)) {
            stepOf[k] = steps++
            after = k + 1
        }
    stepOf[after] = steps          # place m: state r(m-1)+1, or state 0
    y = top
    for (c = 0; c < controllers; c++) {
        controllerLane[c] = y
        y += lane
    }
    stepLane = y
    y += lane
    for (a = 0; a < 32; a++)
        if (a in named) {
            laneOf[a] = y
            y += lane
            if (a in threshold) {
                gaugeLane[a] = y - 8
                y += tall
                drawn = 1
            }
        }
    width = left + states * column + 20
    if (width < 640) width = 640
    height = y + (drawn ? 76 : 56)
    printf "<svg xmlns=\"http://www.w3.org/2000/svg\" width=\"%d\" height=\"%d\" viewBox=\"0 0 %d %d\">\n", width, height, width, height
    draw_style()
    printf "<rect width=\"%d\" height=\"%d\" fill=\"#ffffff\"/>\n", width, height
    printf "<text class=\"title\" x=\"12\" y=\"24\">%s verdict of controller %d: %s</text>\n", reading, owner, verdict
    printf "<text x=\"12\" y=\"44\">%s over %s</text>\n", escaped(ENVIRON["RULE"]), escaped(ENVIRON["RECORDING"])
    draw_states(y + 4)
    for (c = 0; c < controllers; c++) draw_controller(c, controllerLane[c])
    draw_steps(stepLane)
    for (a = 0; a < 32; a++) if (a in named) draw_atom(a, laneOf[a])
    for (a = 0; a < 32; a++) if (a in gaugeLane) draw_gauge(a, gaugeLane[a])
    for (i = 0; i < readings; i++) draw_reading(i)
    printf "<text x=\"12\" y=\"%d\">disc: the controller runs; shaded: a step of controller %d; dashed: the place after its last step</text>\n", y + 24, owner
    printf "<text x=\"12\" y=\"%d\">line: the atom, up where it is 1; ring: a reading that decides the verdict</text>\n", y + 44
    if (drawn) printf "<text x=\"12\" y=\"%d\">green: what the gauge measured, up where it is more; dashed red: its threshold</text>\n", y + 64
    print "</svg>"
}
