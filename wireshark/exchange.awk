# exchange.awk: reads wireshark/exchange.txt and writes frames of IPv4 and TCP as text2pcap takes them, each connection from its own port:
#   -v what=pairs   every two requests in one segment, then every two answers, another message between them
#   -v what=cuts    all requests in one stream, cut at every byte; then all answers so
#   -v what=ports   the exchange message by message, on port 7168
#   -v what=odd     what expert information is for, and segments that are sent again
# and into the file `due` what must be shown of each frame in which a message ends: its number, Info, and the frames of the responses and
# requests that its messages are tied to. Nothing of it comes from the dissector.

{ sub(/\r$/, "") }
/^[<>] / {
    side = substr($0, 1, 1)
    if (side == ">" || last != ">") rows++
    last = side
    info[side, rows] = substr($0, 3)
    next
}
/^  / {
    text = toupper($0)
    gsub(/NAME/, "434831" zeros(29), text)
    gsub(/ /, "", text)
    bytes[side, rows] = bytes[side, rows] text
    next
}
/^$/ { last = "" }

END {
    if (what == "pairs") pairs()
    if (what == "cuts") { cuts(">"); cuts("<") }
    if (what == "ports") { splicer = 7168; each() }
    if (what == "odd") odd()
}

function zeros(n,    text) {
    while (n-- > 0) text = text "00"
    return text
}

# opens a connection: nothing was said in it
function begin(    side) {
    port = port ? port + 1 : 20001
    if (!splicer) splicer = 5168
    split("", queue); split("", said); split("", sent)
    count = 0
    first = frame + 1
}

# say(SIDE, ROW): the message is to be sent
function say(side, row) {
    count++
    queue[side] = queue[side] bytes[side, row]
    said[side] += length(bytes[side, row]) / 2
    side_of[count] = side
    row_of[count] = row
    end_of[count] = said[side]
    frame_of[count] = 0
    return count
}

# send(SIDE, N): so many bytes of what is to be sent, or all of it, in a segment
function send(side, n,    m) {
    if (!n) n = length(queue[side]) / 2
    segment(side, substr(queue[side], 1, 2 * n), sent[side])
    queue[side] = substr(queue[side], 2 * n + 1)
    sent[side] += n
    for (m = 1; m <= count; m++)
        if (side_of[m] == side && !frame_of[m] && end_of[m] <= sent[side]) frame_of[m] = frame
}

function segment(side, data, sequence,    from, to, text, at) {
    frame++
    from = side == ">" ? sprintf("%04X%04X", port, splicer) : sprintf("%04X%04X", splicer, port)
    to = side == ">" ? "0A000002" "0A000001" : "0A000001" "0A000002"
    text = sprintf("4500%04X0000400040060000", 40 + length(data) / 2) to
    text = text from sprintf("%08X", 1000 + sequence) sprintf("%08X", 1000 + sent[side == ">" ? "<" : ">"]) "5018FFFF00000000" data
    printf "0000"
    for (at = 1; at < length(text); at += 2) printf " %s", substr(text, at, 2)
    print ""
}

# finish(): what is due of each frame; a row's request is tied to its answer
function finish(    f, m, other, words, responses, requests) {
    for (f = first; f <= frame; f++) {
        words = responses = requests = ""
        for (m = 1; m <= count; m++) {
            if (frame_of[m] != f) continue
            words = words (words == "" ? "" : ", ") info[side_of[m], row_of[m]]
            other = partner(m)
            if (!other) continue
            if (side_of[m] == ">") responses = responses (responses == "" ? "" : ",") frame_of[other]
            else requests = requests (requests == "" ? "" : ",") frame_of[other]
        }
        if (words != "") print f "\t" words "\t" responses "\t" requests >due
    }
}

function partner(m,    other) {
    for (other = 1; other <= count; other++)
        if (row_of[other] == row_of[m] && side_of[other] != side_of[m] && turn(other) == turn(m)) return other
    return 0
}

# turn(M): how many messages of its row and side stand before it
function turn(m,    other, before) {
    for (other = 1; other < m; other++)
        if (row_of[other] == row_of[m] && side_of[other] == side_of[m]) before++
    return before + 0
}

function pairs(    a, b) {
    for (a = 1; a <= rows; a++) {
        for (b = 1; b <= rows; b++) {
            if (bytes[">", a] == "" || bytes[">", b] == "") continue
            begin()
            say(">", a); say(">", b); send(">")
            answer(a, 1); answer(between(b), 1); answer(b, 1)
            finish()
            begin()
            say(">", a); send(">"); say(">", b); send(">")
            answer(a, 0); answer(between(a), 0); answer(b, 0)
            if (queue["<"] != "") send("<")
            finish()
        }
    }
}

# between(N): one of the messages that answer nothing
function between(n) {
    while (bytes[">", rows - n % 4] != "") n++
    return rows - n % 4
}

function answer(row, now) {
    if (bytes["<", row] == "") return
    say("<", row)
    if (now) send("<")
}

function cuts(side,    other, at, all, row) {
    other = side == ">" ? "<" : ">"
    for (row = 1; row <= rows; row++) all += length(bytes[side, row]) / 2
    for (at = 1; at < all; at++) {
        begin()
        if (side == "<") each_of(other)
        for (row = 1; row <= rows; row++) if (bytes[side, row] != "") say(side, row)
        send(side, at)
        send(side)
        if (side == ">") each_of(other)
        finish()
    }
}

function each_of(side,    row) {
    for (row = 1; row <= rows; row++) if (bytes[side, row] != "") { say(side, row); send(side) }
}

function each(    row) {
    begin()
    for (row = 1; row <= rows; row++) {
        if (bytes[">", row] != "") { say(">", row); send(">") }
        answer(row, 1)
    }
    finish()
}

# frames 1 and 2: an oversize header with bytes behind it, and more; 3 to 6: Alive and its answer, each sent twice; 7: an answer that nobody
# asked for; 8 to 12: a session is accepted, asked for again, ends, and the second request is answered
function odd(    first_end) {
    begin()
    segment(">", "00070FF9FFFFFFFF00000007", 0)
    segment(">", bytes[">", 2], 12)
    begin()
    say(">", 2); send(">")
    segment(">", bytes[">", 2], 0)
    say("<", 2); send("<")
    segment("<", bytes["<", 2], 0)
    begin()
    say("<", 2); send("<")
    begin()
    segment(">", bytes[">", 3], 0)
    segment("<", bytes["<", 3], 0)
    segment(">", bytes[">", 3], length(bytes[">", 3]) / 2)
    segment("<", "00080004006DFFFF00000007", 12)
    segment("<", bytes["<", 3], 24)
}
