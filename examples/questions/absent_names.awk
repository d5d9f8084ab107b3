# How many names that don't exist each host asked for, the most first behind `sort -nr`: software that makes names up, as
# malware does, or a wrong search list.
# awk -f absent_names.awk dns.log | sort -nr
BEGIN { FS = OFS = "\t" }
$1 == "#fields" { for (i = 2; i <= NF; i++) at[$i] = i - 1 }
/^#/ { next }
$at["rcode"] == 3 && !(($at["id.orig_h"], $at["query"]) in seen) {
    seen[$at["id.orig_h"], $at["query"]]
    names[$at["id.orig_h"]]++
}
END { for (host in names) print names[host], host }
