# Shows a script with the answer under each command, and under the answer its records in words: awk -v answers=FILE -f show.awk SCRIPT

# A number of up to 16 hexadecimal digits in decimal: awk's own numbers end at 53 bits. limb holds seven digits each, the lowest first.
function decimal(hex, limb, i, k, carry, text) {
    limb[0] = limb[1] = limb[2] = 0
    for (i = 1; i <= length(hex); i++) {
        carry = digit(hex, i)
        for (k = 0; k < 3; k++) {
            carry += limb[k] * 16
            limb[k] = carry % 10000000
            carry = int(carry / 10000000)
        }
    }
    text = sprintf("%d%07d%07d", limb[2], limb[1], limb[0])
    sub(/^0+/, "", text)
    return text == "" ? "0" : text
}

function digit(hex, at) { return index("0123456789abcdef", substr(hex, at, 1)) - 1 }

function byte(hex, at) { return digit(hex, at) * 16 + digit(hex, at + 1) }

function bit(n, mask) { return int(n / mask) % 2 }

# A list in words: the part of names whose bits of n are set, the highest first.
function listed(n, names, masks, found, k) {
    found = ""
    for (k = 1; k <= 5; k++) if (masks[k] && bit(n, masks[k])) found = found (found == "" ? "" : ", ") names[k]
    return found
}

# The sources of a timer's flags, by their TIFR bits: overflow, A, B, capture, C. A preset has its sheet's; keys that follow count instead.
function configured(    k, pair, unit) {
    timer = substr($2, length($2))
    split($2 == "m16.timer1" ? "4 16 8 32 0" : "1 2 4 32 8", mask, " ")
    for (k = 2; k <= NF; k++) {
        if (split(tolower($k), pair, "=") != 2) continue
        if (pair[1] == "id") timer = pair[2]
        if (pair[1] == "tov") mask[1] = flag(pair[2])
        if (pair[1] == "ocfa") mask[2] = flag(pair[2])
        if (pair[1] == "ocfb") mask[3] = flag(pair[2])
        if (pair[1] == "icf") mask[4] = flag(pair[2])
        if (pair[1] == "c") mask[5] = split(pair[2], unit, ":") == 4 ? flag(unit[2]) : 0
    }
}

function flag(hex) { return byte(length(hex) < 2 ? "0" hex : hex, 1) }

function named(    k) {
    split("TOV OCF_A OCF_B ICF OCF_C", flags, " ")
    for (k = 1; k <= 5; k++) if (!sub(/_/, timer, flags[k])) flags[k] = flags[k] timer
}

function plural(list, one, several) { return index(list, ",") ? several " " list : one " " list }

# A record of twenty digits in words.
function words(record, kind, what, high, low, up) {
    kind = int(digit(record, 1) / 4)
    high = byte(record, 17)
    low = byte(record, 19)
    if (kind == 0) what = "pin " high (bit(low, 128) ? " driven " (bit(low, 64) ? "high" : "low") : " let go")
    if (kind == 1) {
        up = listed(low, line, lined)
        what = plural(listed(high, flags, mask), "flag", "flags") " raised, " (up == "" ? "no line up" : plural(up, "line", "lines") " up")
    }
    if (kind == 2) what = "trigger " trigger[int(high / 16)] " of timer " (high % 16 * 16 + int(low / 16))
    if (kind == 3) what = low == 2 ? "the watchdog resets" : "the watchdog interrupts"
    return "cycle " decimal(digit(record, 1) % 4 substr(record, 2, 15)) ": " what
}

BEGIN {
    split("overflow A B capture C", line, " ")
    split("128 64 32 16 8", lined, " ")
    split("compare A,compare B,overflow,capture", trigger, ",")
}

{
    print
    sub(/#.*/, "")
    if ($0 ~ /[^ ]/) {
        answer = "(no answer)"
        getline answer < answers
        print "    " answer
        if (answer == "ok config") { configured(); named() }
        if (match(answer, / records=[0-9a-f]+$/))
            for (at = RSTART + 9; at < length(answer); at += 20) print "        " words(substr(answer, at, 20))
    }
}
