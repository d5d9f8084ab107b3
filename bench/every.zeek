# Handles every event of a capture, and counts them.
global seen = 0;

event packet_seen(t: time, caplen: count, len: count) { ++seen; }
event new_connection(c: connection) { ++seen; }
event connection_established(c: connection) { ++seen; }
event connection_reset(c: connection) { ++seen; }
event connection_state_remove(c: connection) { ++seen; }
event content_gap(c: connection, is_orig: bool, seq: count, length: count) { ++seen; }
event connection_EOF(c: connection, is_orig: bool) { ++seen; }
event stream_gave_up(c: connection, is_orig: bool) { ++seen; }
event http_request(c: connection, method: string, original_URI: string, unescaped_URI: string, version: string) { ++seen; }
event http_reply(c: connection, version: string, code: count, reason: string) { ++seen; }
event http_header(c: connection, is_orig: bool, original_name: string, name: string, value: string) { ++seen; }
event http_message_done(c: connection, is_orig: bool, stat: http_message_stat) { ++seen; }
event http_tunnel(c: connection) { ++seen; }
event http_violation(c: connection, is_orig: bool, reason: count) { ++seen; }
event dns_message(c: connection, is_orig: bool, msg: dns_msg, len: count) { ++seen; }
event dns_request(c: connection, msg: dns_msg, query: string, qtype: count, qclass: count) { ++seen; }
event dns_end(c: connection, msg: dns_msg) { ++seen; }
event dns_A_reply(c: connection, msg: dns_msg, ans: dns_answer, a: addr) { ++seen; }
event dns_AAAA_reply(c: connection, msg: dns_msg, ans: dns_answer, a: addr) { ++seen; }
event dns_NS_reply(c: connection, msg: dns_msg, ans: dns_answer, name: string) { ++seen; }
event dns_CNAME_reply(c: connection, msg: dns_msg, ans: dns_answer, name: string) { ++seen; }
event dns_PTR_reply(c: connection, msg: dns_msg, ans: dns_answer, name: string) { ++seen; }
event dns_MX_reply(c: connection, msg: dns_msg, ans: dns_answer, name: string, preference: count) { ++seen; }
event dns_TXT_reply(c: connection, msg: dns_msg, ans: dns_answer, strs: string_vec) { ++seen; }
event dns_SOA_reply(c: connection, msg: dns_msg, ans: dns_answer, soa: dns_soa) { ++seen; }
event dns_unknown_reply(c: connection, msg: dns_msg, ans: dns_answer) { ++seen; }
event dns_violation(c: connection, is_orig: bool, fault: count) { ++seen; }

event zeek_done() { print seen; }
