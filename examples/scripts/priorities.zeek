# Handlers run by falling priority; an event that is queued waits for what is under way, and a scheduled one for its time.
global told: event(what: string);

event told(what: string) &priority=-10 {
    print "last", what;
}

event told(what: string) &priority=10 {
    print "first", what;
}

event told(what: string) {
    print "between", what;
}

event zeek_init() {
    schedule 5 sec { told("scheduled") };
    event told("queued");
    print "zeek_init is done";
}

event zeek_done() {
    print "zeek_done";
}
