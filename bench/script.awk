# Writes the script of bench/margin.sh: a full house of 8 products, 24 series and 32 accounts with lots in several series,
# some orders and margin calls open, and then -v count=N prints and figures by turns. It writes the same script each time.
# -v rule=gross or larger takes another margin rule.

function draw(least, most) {
    seed = seed * 16807 % 2147483647
    return least + seed % (most - least + 1)
}

# order ACCOUNT SERIES LOTS SECOND PRICE SECOND-PRICE: checked, sent and, where there is a price, filled.
function order(account, series, lots, second, price, second_price) {
    number++
    print "check", account, series, lots, second
    print "send", number
    if (price) {
        print "fill", number, price, second_price
    }
}

BEGIN {
    seed = 20240607
    if (!rule) {
        rule = "pairs"
    }
    if (!count) {
        count = 200000
    }
    print "house 1", rule
    for (p = 0; p < 8; p++) {
        outright = draw(200000, 900000)
        print "product", outright, int(outright / 4)
    }
    for (s = 0; s < 24; s++) {
        mark[s] = draw(60000, 95000)
        print "series", s % 8, 200, mark[s]
    }
    for (a = 0; a < 32; a++) {
        print "account"
    }
    print "opening"
    for (a = 0; a < 32; a++) {
        print "deposit", a, draw(55000000, 90000000)
        # A lot or more in twelve series of all products, and two calendar spreads.
        for (i = 0; i < 12; i++) {
            s = (a + i * 2 + int(i / 4)) % 24
            order(a, s, (i % 3 ? 1 : -1) * draw(1, 9), "-", mark[s] + draw(-50, 50), "-")
        }
        for (i = 0; i < 2; i++) {
            s = (a * 5 + i * 7) % 16
            order(a, s, draw(1, 9), s + 8, mark[s] + draw(-50, 50), mark[s + 8] + draw(-50, 50))
        }
    }
    # A close that moves far enough for some margin calls.
    line = "closing"
    for (s = 0; s < 24; s++) {
        mark[s] += draw(-15000, 15000)
        line = line " " mark[s]
    }
    print line
    for (a = 0; a < 32; a++) {
        print "figures", a
    }
    print "opening"
    number = 0
    for (a = 0; a < 32; a++) {
        print "deposit", a, draw(1, 1000000)
    }
    # One order stays open for every account that has no call; an account under a call may refuse it.
    for (a = 0; a < 32; a++) {
        print "check", a, a % 24, draw(1, 3), "-"
    }
    for (i = 0; i < count; i += 2) {
        s = draw(0, 23)
        mark[s] += draw(-20, 20)
        print "print", s, mark[s]
        print "figures", draw(0, 31)
    }
}
