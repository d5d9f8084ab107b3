# How many connections began in each quarter of a second. The first tick is scheduled by the first connection and not by
# zeek_init, since network time is 0 until the first packet.
global began = 0;
global is_ticking = F;

event tick() {
    print network_time(), began;
    began = 0;
    schedule 250 msec { tick() };
}

event new_connection(c: connection) {
    ++began;
    if (!is_ticking) {
        is_ticking = T;
        schedule 250 msec { tick() };
    }
}
