# premises.awk: tools/premises/table.txt as a list
/^#/ { next }
/^premise: / { flush(); sub(/^premise: /, ""); premise = $0; key = "premise"; next }
/^theorems: / { sub(/^theorems: /, ""); theorems = $0; key = "theorems"; next }
/^says: / { sub(/^says: /, ""); says = $0; key = "says"; next }
/^witness: / { sub(/^witness: /, ""); witness = $0; key = "witness"; next }
/^  / {
    sub(/^ +/, " ")
    if (key == "premise") premise = premise $0
    if (key == "theorems") theorems = theorems $0
    if (key == "says") says = says $0
    if (key == "witness") witness = witness $0
}
END { flush() }

function flush() {
    if (premise == "") return
    wrap("- ", "  ", premise ": " says ". Asked by " theorems ". Witness: " witness)
    premise = ""
}
