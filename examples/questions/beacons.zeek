# Which hosts call another one as if by a clock: at least so many connections to one port, whose distances differ by no
# more than a tenth of the shortest.
# zeekoff run -b -r FILE beacons.zeek
const least = 5 &redef;
const part = 10 &redef;

type Rhythm: record { last: time; calls: count &default=1; shortest: interval &default=0 sec; longest: interval &default=0 sec; };
global rhythms: table[addr, addr, port] of Rhythm;

event new_connection(c: connection) {
    local id = c$id;
    if ([id$orig_h, id$resp_h, id$resp_p] !in rhythms) {
        rhythms[id$orig_h, id$resp_h, id$resp_p] = Rhythm($last=c$start_time);
        return;
    }
    local r = rhythms[id$orig_h, id$resp_h, id$resp_p];
    local distance = c$start_time - r$last;
    if (r$calls == 1 || distance < r$shortest) r$shortest = distance;
    if (r$calls == 1 || distance > r$longest) r$longest = distance;
    r$last = c$start_time;
    ++r$calls;
}

event zeek_done() {
    for ([host, peer, p], r in rhythms)
        if (r$calls >= least && (r$longest - r$shortest) * part <= r$shortest)
            print fmt("%s calls %s %s: %d times, each %s to %s seconds", host, peer, p, r$calls, r$shortest, r$longest);
}
