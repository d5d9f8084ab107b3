# Says each packet of a capture, and the last network time.

event zeek_init() {
	print "each packet: its time, its captured and its original length";
}

event packet_seen(t: time, caplen: count, len: count) {
	print t, caplen, len;
}

event zeek_done() {
	print "last", network_time();
}
