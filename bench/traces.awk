# Long traces for the replayers: awk -v kind=KIND -v lines=N -f traces.awk
#   journal     32 loads agreed at five boxes, then asked after again and again
#   elections   elections on an empty book, each with all its mails, the leaders in turn
#   links       the same on a full book, each mail filling its link: every Last holds 32 records

function say(line) { print line; said++ }

function round_trip(c, k) {
    for (k = 1; k <= 5; k++) if (k != c) { say("mail " c " " k); say("mail " k " " c) }
}

function hand_out(c, k) {
    for (k = 1; k <= 5; k++) if (k != c) say("mail " c " " k)
}

# The lease that is out is answered and heard.
function lease(c) { round_trip(c); say("heard " c) }

# An election of c, from an odd epoch until all have heard the lease.
function election(c) {
    say("elect " c); say("recover " c); say("collect " c)
    round_trip(c)
    say("ready " c)
    lease(c)
}

function load(c, k) {
    say("offer " c " " k " " k + 1); say("propose " c)
    round_trip(c)
    say("agree " c)
    hand_out(c)
    say("finish " c)
    lease(c)
}

BEGIN {
    said = 0
    say("site 5 32 " (kind == "links" ? 1 : 8))
    election(1)
    if (kind != "elections") for (k = 1; k <= 32; k++) load(1, k)
    for (turn = 0; said < lines; turn++) {
        if (kind == "journal") {
            k = turn % 32 + 1
            say("holds " turn % 5 + 1 " " k " " k " " k + 1)
        } else {
            say("timeout " turn % 5 + 1)
            election(kind == "elections" ? turn % 5 + 1 : 1)
        }
    }
}
