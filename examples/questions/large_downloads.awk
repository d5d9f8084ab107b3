# Which bodies of at least so many bytes servers sent, to whom, the greatest first behind `sort -nr`.
# awk -v least=1000000 -f large_downloads.awk http.log | sort -nr
BEGIN { FS = OFS = "\t" }
$1 == "#fields" { for (i = 2; i <= NF; i++) at[$i] = i - 1 }
/^#/ { next }
$at["response_body_len"] + 0 >= least {
    print $at["response_body_len"], $at["uid"], $at["id.orig_h"], $at["host"] $at["uri"], $at["status_code"]
}
