# awk -f bindings/lines.awk -v answers=ANSWERS -v kept=KEPT -v wanted=WANTED LINES
# Picks from recorded lines and their answers those that the archive's functions can answer, and writes them to the files
# KEPT and WANTED, line by line. Left out are
# - lines of no known form, which the programs answer `? 0 -` themselves;
# - the UTF-8 check alone (T), which isn't exported;
# - constructors and builders, which aren't exported either. But where one gave a record, that record, as the answer shows
#   it, is asked for in the plain form, and the answer stays.
# Prints how many lines were kept and left out.

function bit(name, value) { return has[name] == "1" ? value : 0 }
function given(key, name) { return has[name] == "-" ? "" : " " key "=" has[name] }
function text(value) { gsub(/"/, "", value); return value == "" ? "-" : value }
function one_text(key) { return has[key] == "-" ? "" : " " key "=" text(has[key]) }
function list(key, i, n, entry, value) {
    value = substr(has[key], 2, length(has[key]) - 2)
    if (value == "") return ""
    n = split(value, entry, ",")
    value = text(entry[1])
    for (i = 2; i <= n; i++) value = value "," text(entry[i])
    return " " key "=" value
}
function hex(x) { return sprintf("%02X", x) }

# the plain record line of the fields that an answer shows
function plain(fields, i, n, word, sign) {
    n = split(fields, word, " ")
    split("", has)
    for (i = 1; i <= n; i++) {
        sign = index(word[i], "=")
        has[substr(word[i], 1, sign - 1)] = substr(word[i], sign + 1)
    }
    if (has["rec"] == "U")
        return "U flags=" hex(bit("v6", 1) + bit("v4", 2) + bit("sd", 4) + bit("ip6d", 8) + bit("chv4", 16) \
            + bit("chv6", 32) + bit("ip6pl", 64)) given("v4", "ipv4") given("v6", "ipv6") given("db", "db") given("pl", "pl")
    if (has["rec"] == "F")
        return "F flags=" hex(bit("v4", 1) + bit("v6", 2) + bit("ch", 4) + bit("chid", 8)) given("teid", "teid") \
            given("v4", "ipv4") given("v6", "ipv6") given("cid", "cid")
    if (has["rec"] == "S")
        return "S flags=" hex(bit("v6", 1) + bit("v4", 2)) given("seid", "seid") given("v4", "ipv4") given("v6", "ipv6")
    if (has["rec"] == "N" && has["type"] == "2") return "N" one_text("name")
    if (has["rec"] == "N" && has["type"] == "1") return "N" given("v6", "ipv6")
    if (has["rec"] == "N") return "N" given("v4", "ipv4")
    if (has["rec"] == "O")
        return "O flags=" has["flags"] given("teid", "teid") given("v4", "ipv4") given("v6", "ipv6") given("port", "port") \
            given("ctag", "ctag") given("stag", "stag")
    return "P flags=" has["flags"] one_text("fd") one_text("url") one_text("dn") one_text("cp") one_text("dnp") \
        list("afd") list("aurl") list("adnp")
}

BEGIN { printf "" >kept; printf "" >wanted }
{
    line = $0
    if ((getline answer <answers) <= 0) { print "bindings/lines.awk: " answers " ends early"; failed = 1; exit 1 }
    is_call = $1 ~ /\./ && $1 !~ /^[NP]\.(raw|read)$/
    bar = index(answer, " | rec=")
    if (answer == "? 0 -" || $1 == "T" || (is_call && bar == 0)) { left++; next }
    if (is_call) { line = plain(substr(answer, bar + 3)); made++ }
    print line >kept
    print answer >wanted
    count++
}
END {
    if (!failed) print count + 0 " lines, " made + 0 " of them of constructors and builders; " left + 0 " left out"
}
