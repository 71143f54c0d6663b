# The sales report. usage: awk -v date=MMDDYY -f sales.awk INPUT
function commas(n,  s) {
    s = sprintf("%.0f", n)
    while (match(s, /^[0-9][0-9][0-9][0-9]+/)) s = substr(s, 1, RLENGTH - 3) "," substr(s, RLENGTH - 2)
    return s
}
function money(n,  size, whole) {
    size = n < 0 ? -n : n
    whole = int(size / 100)
    return (whole ? commas(whole) : "") "." sprintf("%02d", size % 100)
}
function signed(n) { return money(n) (n < 0 ? "-" : " ") }
function zoned(s,  last, digit) {
    last = substr(s, length(s))
    gsub(/ /, "0", s)
    digit = index("}JKLMNOPQR", last)
    if (digit) return -(substr(s, 1, length(s) - 1) (digit - 1))
    return s + 0
}
function space(n) {
    here += n
    if (here >= 60) full = 1
    if (here > 66) { here -= 66; pages++ }
}
function put(text) {
    while (pages) { printf "\f"; pages--; at = 1 }
    while (at < here) { printf "\n"; at++ }
    sub(/ +$/, "", text)
    printf "%s", text
}
function heading() {
    if (here > 3) pages++
    here = 3
    page++
    put(sprintf("%24s%16s%12s%5d", "SALES BY REGION", (substr(date, 1, 2) + 0) "/" substr(date, 3, 2) "/" substr(date, 5, 2), "PAGE", page))
    full = 0
    space(2)
}
function total(text, n) { put(sprintf("%30s%38s", text, signed(n))); space(2) }
BEGIN { at = here = 1; heading() }
{
    region = substr($0, 1, 2)
    man = substr($0, 3, 3)
    if (NR > 1 && (region != last_region || man != last_man)) {
        of_region += of_man
        total("SALESMAN TOTAL", of_man)
        of_man = 0
        if (region != last_region) { of_all += of_region; total("REGION TOTAL", of_region); of_region = 0 }
    }
    if (full) heading()
    last_region = region
    last_man = man
    quantity = zoned(substr($0, 6, 4))
    price = zoned(substr($0, 10, 7))
    amount = quantity * price
    of_man += amount
    count++
    put(sprintf("%s  %s   %s%7d%13s%18s %s", region, man, substr($0, 17, 20), quantity < 0 ? -quantity : quantity, money(price), signed(amount), amount > 100000 ? "*" : " "))
    space(1)
}
END {
    if (NR) { of_region += of_man; total("SALESMAN TOTAL", of_man); of_all += of_region; total("REGION TOTAL", of_region) }
    put(sprintf("%30s%38s%22s", "GRAND TOTAL", signed(of_all), commas(count)))
    printf "\n"
}
