# Tells each event of a capture that a packet analyzer can tell too, a line each: the connection, the name, and the arguments.

function line(c: connection, name: string): string
	{
	return cat(c$uid, " ", name);
	}

event packet_seen(t: time, caplen: count, len: count)
	{
	print "packets", "packet_seen", t, caplen, len;
	}

event new_connection(c: connection)
	{
	print line(c, "new_connection"), c$proto, c$id$orig_h, c$id$orig_p, c$id$resp_h, c$id$resp_p, c$start_time;
	}

event connection_established(c: connection)
	{
	print line(c, "connection_established");
	}

event connection_reset(c: connection)
	{
	print line(c, "connection_reset");
	}

event connection_EOF(c: connection, is_orig: bool)
	{
	print line(c, "connection_EOF"), is_orig;
	}

event connection_state_remove(c: connection)
	{
	print line(c, "connection_state_remove"), c$duration, c$orig$num_pkts, c$orig$num_bytes_ip, c$resp$num_pkts, c$resp$num_bytes_ip;
	}

event content_gap(c: connection, is_orig: bool, seq: count, length: count)
	{
	print line(c, "content_gap"), is_orig, seq, length;
	}

event stream_gave_up(c: connection, is_orig: bool)
	{
	print line(c, "stream_gave_up"), is_orig;
	}

event http_request(c: connection, method: string, original_URI: string, unescaped_URI: string, version: string)
	{
	print line(c, "http_request"), method, original_URI, unescaped_URI, version;
	}

event http_reply(c: connection, version: string, code: count, reason: string)
	{
	print line(c, "http_reply"), version, code, reason;
	}

event http_header(c: connection, is_orig: bool, original_name: string, name: string, value: string)
	{
	print line(c, "http_header"), is_orig, original_name, name, value;
	}

event http_message_done(c: connection, is_orig: bool, stat: http_message_stat)
	{
	print line(c, "http_message_done"), is_orig, stat$body_length;
	}

event http_tunnel(c: connection)
	{
	print line(c, "http_tunnel");
	}

event http_violation(c: connection, is_orig: bool, reason: count)
	{
	print line(c, "http_violation"), is_orig, reason;
	}

function flags(m: dns_msg): string
	{
	return cat(m$id, " ", m$opcode, " ", m$rcode, " ", m$QR, m$AA, m$TC, m$RD, m$RA, " ", m$num_queries, " ", m$num_answers,
	    " ", m$num_auth, " ", m$num_addl);
	}

function shown(a: dns_answer): string
	{
	return cat(a$query, " ", a$qtype, " ", a$qclass, " ", a$TTL);
	}

event dns_message(c: connection, is_orig: bool, msg: dns_msg, len: count)
	{
	print line(c, "dns_message"), is_orig, flags(msg), len;
	}

event dns_request(c: connection, msg: dns_msg, query: string, qtype: count, qclass: count)
	{
	print line(c, "dns_request"), msg$id, query, qtype, qclass;
	}

event dns_A_reply(c: connection, msg: dns_msg, ans: dns_answer, a: addr)
	{
	print line(c, "dns_A_reply"), msg$id, shown(ans), a;
	}

event dns_AAAA_reply(c: connection, msg: dns_msg, ans: dns_answer, a: addr)
	{
	print line(c, "dns_AAAA_reply"), msg$id, shown(ans), a;
	}

event dns_NS_reply(c: connection, msg: dns_msg, ans: dns_answer, name: string)
	{
	print line(c, "dns_NS_reply"), msg$id, shown(ans), name;
	}

event dns_CNAME_reply(c: connection, msg: dns_msg, ans: dns_answer, name: string)
	{
	print line(c, "dns_CNAME_reply"), msg$id, shown(ans), name;
	}

event dns_PTR_reply(c: connection, msg: dns_msg, ans: dns_answer, name: string)
	{
	print line(c, "dns_PTR_reply"), msg$id, shown(ans), name;
	}

event dns_MX_reply(c: connection, msg: dns_msg, ans: dns_answer, name: string, preference: count)
	{
	print line(c, "dns_MX_reply"), msg$id, shown(ans), name, preference;
	}

event dns_TXT_reply(c: connection, msg: dns_msg, ans: dns_answer, strs: string_vec)
	{
	print line(c, "dns_TXT_reply"), msg$id, shown(ans), join_string_vec(strs, "|");
	}

event dns_SOA_reply(c: connection, msg: dns_msg, ans: dns_answer, soa: dns_soa)
	{
	print line(c, "dns_SOA_reply"), msg$id, shown(ans), soa$mname, soa$rname, soa$serial, soa$refresh, soa$retry, soa$expire, soa$minimum;
	}

event dns_unknown_reply(c: connection, msg: dns_msg, ans: dns_answer)
	{
	print line(c, "dns_unknown_reply"), msg$id, shown(ans);
	}

event dns_end(c: connection, msg: dns_msg)
	{
	print line(c, "dns_end"), msg$id;
	}

event dns_violation(c: connection, is_orig: bool, fault: count)
	{
	print line(c, "dns_violation"), is_orig, fault;
	}
