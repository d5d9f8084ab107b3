# A log of its own, as the Zeek manual's Factor module has it: what a row holds, a stream, and rows.
module Factor;

export {
    redef enum Log::ID += { LOG };

    type Info: record {
        num: count &log;
        factorial: count &log;
        divisors: set[count] &log;
        note: string &log &optional;
    };

    const greatest = 6 &redef;
}

function factorial(n: count): count {
    return n == 0 ? 1 : n * factorial(n - 1);
}

function divisors(n: count): set[count] {
    local found: set[count];
    local d = 1;
    while (d <= n) {
        if (n % d == 0) add found[d];
        ++d;
    }
    return found;
}

event zeek_init() {
    Log::create_stream(LOG, [$columns=Info, $path="factor"]);
    local n = 0;
    while (n <= greatest) {
        local row = Info($num=n, $factorial=factorial(n), $divisors=divisors(n));
        if (|row$divisors| == 2) row$note = "prime";
        Log::write(LOG, row);
        ++n;
    }
}
