# wrap.awk: for the scripts that make pages, before a program of their own: lines of at most 140 characters

# width S: its characters, of bytes of UTF-8
function width(s) { gsub(/[\200-\277]/, "", s); return length(s) }

# wrap FIRST REST S: S behind FIRST, each further line behind REST; what stands in backticks is cut only if it is long
function wrap(first, rest, s,    n, i, w, out, bare, one, open) {
    n = split(s, w, " ")
    out = first
    bare = 1
    one = ""
    for (i = 1; i <= n; i++) {
        one = one == "" ? w[i] : one " " w[i]
        open = gsub(/`/, "`", one) % 2
        if (open && i < n && length(one) < 100) continue
        if (!bare && width(out) + 1 + width(one) > 140) { print out; out = rest one }
        else out = out (bare ? "" : " ") one
        bare = 0
        one = ""
    }
    print out
}
