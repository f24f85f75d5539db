#!/bin/sh
# Writes a script of so many lines, of one of these kinds:
# covered  eight processes of one node take turns to set and to unlock ranges of their own, which the
#          node's token covers from the first lock on
# readers  a process on each of 64 nodes takes turns to set and to unlock read locks of one file, which
#          the shared tokens of all nodes cover from their first locks on
# lossy    one process locks ten more bytes, again and again: the request is lost, and tried again; the
#          grant is lost, and sent again; what is left settles
# fight    a process on each of two nodes wants to write one byte: the one that has it is asked for it and
#          tells of its lock, the other is denied; then it frees the byte, and the other gets it
# storm    a process on each of 8 nodes sets and unlocks small ranges anywhere in the first thousand bytes of
#          16 files, each by a number that looks random and is the same each time
# crowd    256 processes of one node set locks of 1,000 to 4,000 bytes anywhere in 64 MB of one file, and unlock up to a
#          million bytes, so that each comes to hold hundreds of regions; the node's token covers all of it
# walk     a process on each of 64 nodes reads ten bytes of one file, all at one place, then all at the next: so their tokens
#          come to have thousands of runs, since each asks for just those bytes
# scattered a process on each of 64 nodes sets and unlocks one byte, from a high one down, the next node the next byte but one: so
#          their tokens come to have thousands of runs, each written at the low end
# regions  a process of one node has CALLS (1,000, up to 16,000) regions of ten bytes in one file, all of which the token of its node covers,
#          and unlocks or sets again one of them, anywhere, at each line
# churn    a process of one node forks children, 64 at once: each opens one of four files, locks bytes of it for itself and
#          for the description, closes one of its two descriptors of that, locks again and exits; the node's token
#          covers all of it
# failures 16 nodes lock the same bytes by turns: the one that has them is declared failed, the next one gets them once the
#          server knows, and the failed node begins again
# turns    a process on each of 64 nodes waits for one byte: the one that has it unlocks it, the next one gets it, and it
#          waits for it again, behind all others
# queue    256 processes on each of 64 nodes wait for one byte: the one that has it unlocks it, the next one gets it, on another
#          node, and all processes of its own node ask for it again, behind all others: so 16,128 requests stay at the
#          server, and 255 calls wait at the node that has the byte. CALLS is how many want it, a multiple of 64 up to 16384
# rivals   16 processes on each of 63 nodes want to write ten bytes, each others, of a file whose token one more node has, without
#          a lock: so 1,008 requests are served at once. Whoever gets its bytes unlocks them and asks for the ten behind all
#          others. CALLS is how many are served at once, up to 1008
# opens    CALLS processes of one node (255, up to 255) have 64 descriptors each; one of them closes one and opens a file again
# wide     CALLS processes of one node (250, up to 255) have 200 read locks each in one file; one more asks for a lock that would
#          read all of these bytes
# rebuilt  64 nodes have tokens of CALLS runs each (4,000, up to 4,000); then the server fails and is rebuilt from what they report, again
#          and again
# revokes  two nodes of which the first has a token of CALLS runs of a byte (10,000): the second locks one of these bytes, anywhere, and
#          gives it back, again and again
# usage: script.sh KIND LINES [CALLS]
kind=${1:?usage: script.sh KIND LINES [CALLS]}
lines=${2:?usage: script.sh KIND LINES [CALLS]}
calls=$3
exec awk -v kind="$kind" -v lines="$lines" -v calls="$calls" '
function put(line) {
    print line
    written++
}

function begin(node, pid) {
    put("call " node " " pid " spawn")
    put("call " node " " pid " open 1 rw")
}

# Sets and unlocks ranges of a hundred bytes by turns of so many.
function turn(number, many, caller, first, modes) {
    round = int(number / many)
    start = first + int(round / 2) * 7 % 1000
    if (round % 2 == 0)
        put("call " caller " set 0 proc " (modes == "read" || round % 4 > 0 ? "read" : "write") " " start " 100")
    else
        put("call " caller " unlock 0 proc " start " 100")
}

function covered() {
    put("cluster nodes 1 files 1 policy wide")
    for (pid = 1; pid <= 8; pid++)
        begin(1, pid)
    put("call 1 1 set 0 proc write 0 1")
    put("settle")
    for (number = 0; written < lines; number++) {
        pid = number % 8 + 1
        turn(number, 8, "1 " pid, pid * 1000000, "both")
    }
}

function readers() {
    put("cluster nodes 64 files 1 policy wide")
    for (node = 1; node <= 64; node++) {
        begin(node, 1)
        put("call " node " 1 set 0 proc read 0 1")
        put("settle")
    }
    for (number = 0; written < lines; number++) {
        node = number % 64 + 1
        turn(number, 64, node " 1", 1000000, "read")
    }
}

function lossy() {
    put("cluster nodes 1 files 1 policy exact")
    begin(1, 1)
    for (message = 1; written < lines; message += 5) {
        put("call 1 1 set 0 proc write " (message - 1) * 2 " 10")
        put("lose " message)
        put("retry 1 1")
        put("deliver " message + 1)
        put("lose " message + 2)
        put("resend 1")
        put("settle")
    }
}

function fight() {
    put("cluster nodes 2 files 1 policy exact")
    begin(1, 1)
    begin(2, 1)
    for (holder = 1; written < lines; holder = 3 - holder) {
        put("call " holder " 1 set 0 proc write 0 1")
        put("settle")
        put("call " 3 - holder " 1 set 0 proc write 0 1")
        put("settle")
        put("call " holder " 1 unlock 0 proc 0 1")
    }
}

# A number from 0 to below the limit, which looks random and is the same each time (Park and Miller).
function draw(limit) {
    seed = seed * 16807 % 2147483647
    return seed % limit
}

function storm() {
    seed = 1
    put("cluster nodes 8 files 16 policy wide")
    for (node = 1; node <= 8; node++) {
        put("call " node " 1 spawn")
        for (file = 1; file <= 16; file++)
            put("call " node " 1 open " file " rw")
    }
    while (written < lines) {
        node = 1 + draw(8)
        about = draw(16) " proc "
        range = draw(1000) " " 1 + draw(10)
        act = draw(10)
        if (act < 5)
            put("call " node " 1 unlock " about range)
        else
            put("call " node " 1 set " about (act < 8 ? "read " : "write ") range)
        put("settle")
    }
}

function scattered() {
    put("cluster nodes 64 files 1 policy exact")
    for (node = 1; node <= 64; node++)
        begin(node, 1)
    for (number = 0; written < lines; number++) {
        node = number % 64 + 1
        byte = 1000000000 - 2 * number
        put("call " node " 1 set 0 proc write " byte " 1")
        put("settle")
        put("call " node " 1 unlock 0 proc " byte " 1")
    }
}

function regions() {
    seed = 1
    put("cluster nodes 1 files 1 policy wide")
    begin(1, 1)
    many = calls == "" ? 1000 : calls
    for (place = 0; place < many; place++) {
        put("call 1 1 set 0 proc write " 20 * place " 10")
        if (place == 0)
            put("settle")
    }
    while (written < lines) {
        place = draw(many)
        put("call 1 1 " (gone[place] ? "set 0 proc write " : "unlock 0 proc ") 20 * place " 10")
        gone[place] = !gone[place]
    }
}

function crowd() {
    seed = 1
    put("cluster nodes 1 files 1 policy wide")
    for (pid = 1; pid <= 256; pid++)
        begin(1, pid)
    put("call 1 1 set 0 proc write 0 1")
    put("settle")
    while (written < lines) {
        caller = "call 1 " 1 + draw(256)
        act = draw(5)
        start = draw(67108864)
        if (act == 0)
            put(caller " unlock 0 proc " start " " 1 + draw(1000000))
        else
            put(caller " set 0 proc " (act < 3 ? "read " : "write ") start " " 1000 + draw(3001))
    }
}

function walk() {
    put("cluster nodes 64 files 1 policy exact")
    for (node = 1; node <= 64; node++)
        begin(node, 1)
    for (round = 1; written < lines; round++) {
        for (node = 1; node <= 64; node++)
            put("call " node " 1 set 0 proc read " 20 * round " 10")
        put("settle")
    }
}

# The parent has descriptors 0 to 3; a child gets 4 and 5 beside them, and exits once 63 more were forked.
function churn() {
    put("cluster nodes 1 files 4 policy wide")
    put("call 1 1 spawn")
    for (file = 1; file <= 4; file++) {
        put("call 1 1 open " file " rw")
        put("call 1 1 set " file - 1 " proc write 0 1")
        put("settle")
    }
    for (number = 0; written < lines; number++) {
        if (number >= 64)
            put("call 1 " 2 + (number - 64) % 128 " exit")
        child = 2 + number % 128
        first = 1 + number % 64 * 200
        put("call 1 1 fork " child)
        put("call 1 " child " open " 1 + number % 4 " rw")
        put("call 1 " child " dup 4")
        put("call 1 " child " set 4 proc write " first " 100")
        put("call 1 " child " set 5 desc write " first + 100 " 100")
        put("call 1 " child " close 4")
        put("call 1 " child " set 5 proc read " first " 100")
    }
}

# Each node fails while the next one asks for the bytes that it has locked; the next one gets them once the server knows.
function failures() {
    put("cluster nodes 16 files 1 policy wide")
    for (round = 0; written < lines; round++) {
        node = round % 16 + 1
        begin(node, 1)
        put("call " node " 1 set 0 proc write 0 100")
        if (round > 0) {
            holder = (round - 1) % 16 + 1
            put("declare " holder)
            put("settle")
            put("learn 1 " holder " " 1 + int((round - 1) / 16))
            put("restart " holder)
        }
        put("settle")
    }
}

function turns() {
    put("cluster nodes 64 files 1 policy exact")
    for (node = 1; node <= 64; node++) {
        begin(node, 1)
        put("call " node " 1 wait 0 proc write 0 1")
    }
    put("settle")
    for (number = 0; written < lines; number++) {
        caller = "call " number % 64 + 1 " 1 "
        put(caller "unlock 0 proc 0 1")
        put("settle")
        put(caller "wait 0 proc write 0 1")
        put("settle")
    }
}

# A process that waits for a byte of its own node is not tried when that is unlocked: so all of that node ask anew.
function queue() {
    each = calls == "" ? 256 : int(calls / 64)
    put("cluster nodes 64 files 1 policy exact")
    for (node = 1; node <= 64; node++)
        for (pid = 1; pid <= each; pid++)
            begin(node, pid)
    for (node = 1; node <= 64; node++) {
        for (pid = 1; pid <= each; pid++) {
            put("call " node " " pid " wait 0 proc write 0 1")
            if (node == 1 && pid == 1)
                put("settle")
        }
    }
    put("settle")
    for (number = 0; written < lines; number++) {
        node = number % 64 + 1
        pid = int(number / 64) % each + 1
        put("call " node " " pid " unlock 0 proc 0 1")
        put("settle")
        for (step = 0; step < each - 1; step++)
            put("retry " node " " (pid + step) % each + 1)
        put("call " node " " pid " wait 0 proc write 0 1")
        put("settle")
    }
    # (the last entry is a reply)
    put("call " number % 64 + 1 " " int(number / 64) % each + 1 " unlock 0 proc 0 1")
}

# A rival sets or unlocks the ten bytes of a place.
function rival(number, act, place) {
    put("call " int(number / 16) + 1 " " number % 16 + 1 " " act " " 10 * place " 10")
}

# Node 64 says that it has the whole file (message 3) only once all have asked: so it is asked for no more than the first one
# needs. From then on a round sends five messages: what is given up, a grant, what node 64 is asked for next, the answer to
# the grant, and a request.
function rivals() {
    many = calls == "" ? 1008 : calls
    put("cluster nodes 64 files 1 policy wide")
    begin(64, 1)
    put("call 64 1 set 0 proc write 0 0")
    put("deliver 1")
    put("deliver 2")
    put("call 64 1 unlock 0 proc 0 0")
    for (number = 0; number < many; number++)
        begin(int(number / 16) + 1, number % 16 + 1)
    for (number = 0; number < many; number++)
        rival(number, "set 0 proc write", number)
    for (number = 0; number < many; number++)
        put("deliver " 4 + number)
    put("deliver 3")
    sent = 4 + many
    put("deliver " sent)
    for (number = 0; written < lines; number++) {
        put("deliver " sent + 1)
        put("deliver " sent + 2)
        put("deliver " sent + 4)
        rival(number % many, "unlock 0 proc", number)
        rival(number % many, "set 0 proc write", number + many)
        put("deliver " sent + 5)
        put("deliver " sent + 3)
        sent += 5
    }
}

function opens() {
    many = calls == "" ? 255 : calls
    put("cluster nodes 1 files 4 policy wide")
    for (pid = 1; pid <= many; pid++) {
        put("call 1 " pid " spawn")
        for (number = 0; number < 64; number++)
            put("call 1 " pid " open " number % 4 + 1 " rw")
    }
    for (number = 0; written < lines; number++) {
        put("call 1 1 close " number % 64)
        put("call 1 1 open " number % 4 + 1 " rw")
    }
}

# No lock is in the way: what is asked for is a read lock.
function wide() {
    many = calls == "" ? 250 : calls
    put("cluster nodes 1 files 1 policy wide")
    for (pid = 1; pid <= many; pid++) {
        begin(1, pid)
        for (number = 0; number < 200; number++) {
            put("call 1 " pid " set 0 proc read " 20 * number + pid % 7 " 10")
            if (pid == 1 && number == 0)
                put("settle")
        }
    }
    begin(1, 256)
    while (written < lines)
        put("call 1 256 query 0 proc read 0 4100")
}

# Sets and unlocks a byte.
function touch(node, byte) {
    put("call " node " 1 set 0 proc write " byte " 1")
    put("settle")
    put("call " node " 1 unlock 0 proc " byte " 1")
}

function revokes() {
    seed = 1
    put("cluster nodes 2 files 1 policy exact")
    begin(1, 1)
    begin(2, 1)
    many = calls == "" ? 10000 : calls
    for (place = 0; place < many; place++)
        touch(1, 2 * place)
    while (written < lines) {
        byte = 2 * draw(many)
        touch(2, byte)
        touch(1, byte)
    }
}

# Each node reads one byte in two: two lines for each run of each node come before the first failure.
function rebuilt() {
    many = calls == "" ? 4000 : calls
    put("cluster nodes 64 files 1 policy exact")
    for (node = 1; node <= 64; node++)
        begin(node, 1)
    for (number = 0; number < many; number++) {
        for (node = 1; node <= 64; node++) {
            put("call " node " 1 set 0 proc read " 2 * number " 1")
            put("settle")
        }
    }
    while (written < lines) {
        put("fail-server 1")
        put("start-server 1")
        put("settle")
    }
    # (the last entry is a reply)
    put("call 1 1 query 0 proc read 0 1")
}

BEGIN {
    if (kind == "covered")
        covered()
    else if (kind == "readers")
        readers()
    else if (kind == "lossy")
        lossy()
    else if (kind == "fight")
        fight()
    else if (kind == "storm")
        storm()
    else if (kind == "crowd")
        crowd()
    else if (kind == "walk")
        walk()
    else if (kind == "scattered")
        scattered()
    else if (kind == "regions")
        regions()
    else if (kind == "churn")
        churn()
    else if (kind == "failures")
        failures()
    else if (kind == "turns")
        turns()
    else if (kind == "queue")
        queue()
    else if (kind == "rivals")
        rivals()
    else if (kind == "opens")
        opens()
    else if (kind == "wide")
        wide()
    else if (kind == "rebuilt")
        rebuilt()
    else if (kind == "revokes")
        revokes()
    else
        exit 2
}'
