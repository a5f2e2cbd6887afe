# Prints what the program `why` printed, and after a reading of a gauge's atom its value there and its threshold.
# After bin/texts.awk, which took the texts.

END {
    print reading "\t" verdict
    for (i = 0; i < readings; i++) {
        a = shownAtom[i]
        if (a in threshold)
            print shownLine[i] "\tvalue\t" value[shownState[i], a] "\tthreshold\t" threshold[a]
        else
            print shownLine[i]
    }
}
