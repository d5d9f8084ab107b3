# All that one host did and was asked, over the logs, by moments behind `sort`.
# awk -v host=10.1.0.1 -f timeline.awk conn.log dns.log http.log | sort -n
BEGIN { FS = OFS = "\t" }
$1 == "#path" { path = $2 }
$1 == "#fields" { split("", at); for (i = 2; i <= NF; i++) at[$i] = i - 1 }
/^#/ || $at["id.orig_h"] != host && $at["id.resp_h"] != host { next }
path == "conn" { what = $at["conn_state"] " " $at["orig_bytes"] " " $at["resp_bytes"] }
path == "dns" { what = $at["query"] " " $at["rcode"] " " $at["answers"] }
path == "http" { what = $at["method"] " " $at["host"] $at["uri"] " " $at["status_code"] }
{ print $at["ts"], path, $at["uid"], $at["id.orig_h"], $at["id.resp_h"] ":" $at["id.resp_p"], what }
