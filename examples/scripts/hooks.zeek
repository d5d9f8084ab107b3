# A hook's bodies run by falling priority; `break` ends them all and makes the hook F, `return` ends one body.
global is_wanted: hook(name: string);

hook is_wanted(name: string) &priority=10 {
    print "first", name;
    name = "changed here alone";
}

hook is_wanted(name: string) {
    if (name == "bad") break;
    if (name == "short") return;
    print "second", name;
}

hook is_wanted(name: string) &priority=-5 {
    print "last", name;
}

event zeek_init() {
    print hook is_wanted("good");
    print hook is_wanted("short");
    print hook is_wanted("bad");
}
