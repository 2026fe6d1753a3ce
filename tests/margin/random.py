#!/usr/bin/env python3
"""Random scripts for the program `margin`.

    random.py SEED LINES          prints a random script of about LINES lines
    random.py --special NAME      prints a script that is made for one purpose
    random.py --specials          prints the names of these
    random.py --answers ...       prints the answers that the model below gives to the script, not the script
    random.py --difference SCRIPT ONE OTHER
                                  prints the first place where two files of answers to a script differ
    random.py --stats [--engine PROGRAM] [COUNT [LINES]]
                                  runs COUNT (30) scripts of LINES (3000) lines and the special ones through
                                  PROGRAM (bench/engine.rs, built for it) and counts the answers of each call

The scripts are made with a model of the house beside them, slow and plain. It tells which orders are open, what is free
and what a margin call lacks, so that a good share of the calls is granted and the amounts fall on the bounds: the last
satang that is free and one more, equity equal to a level and one satang less, and the like.
"""

import os
import sys

# This file must not stand in for the library's `random`, which other modules load too.
HERE = os.path.dirname(os.path.abspath(__file__))
sys.path = [folder for folder in sys.path if os.path.abspath(folder or ".") != HERE]

import random
import re
import subprocess
import tempfile

U64 = 2**64 - 1
PRICE = 10_000_000
AMOUNT = 10**12
CASH = 10**17
CLOSED = {"product": 2, "rates": 3, "series": 3, "account": 0, "opening": 0}
TRADING = {"clock": 1, "print": 2, "deposit": 2, "withdraw": 2, "check": 4, "send": 1, "drop": 1, "fill": 3, "cancel": 1}
CALLS = list(CLOSED) + list(TRADING) + ["closing", "figures"]


# The model.

class Refused(Exception):
    pass


class Unreadable(Exception):
    pass


def must(condition, number):
    if not condition:
        raise Refused(number)


def unsigned(word, most=U64):
    if not re.fullmatch(rb"[0-9]+", word):
        raise Unreadable
    digits = word.lstrip(b"0") or b"0"
    if len(digits) > 20 or int(digits) > most:
        raise Unreadable
    return int(digits)


def signed(word):
    if word.startswith(b"-"):
        return -unsigned(word[1:], 2**63)
    return unsigned(word, 2**63 - 1)


def optional(word):
    return None if word == b"-" else unsigned(word)


def per_lot(risk):
    return [-(-risk * percent // 100) for percent in (190, 133, 57)]


class Account:
    def __init__(self):
        self.cash = 0
        self.net = [0] * 24
        self.carry = [0] * 24
        self.call = None


class Model:
    def __init__(self):
        self.rule = None
        self.trading = False
        self.products = []
        self.series = []
        self.accounts = []
        self.settled = []
        self.prints = {}
        self.minute = 0
        self.used = 0
        self.orders = {}

    def line(self, raw):
        """The answer to a line of the script, or None if it has no word."""
        words = [word for word in re.split(rb"[ \t\r\x0c]+", raw.split(b"#")[0]) if word]
        if not words:
            return None
        try:
            return self.run(words[0].decode("latin-1"), words[1:])
        except Unreadable:
            return "unreadable"
        except Refused as refusal:
            return "refused %d" % refusal.args

    def run(self, name, words):
        if self.rule is None:
            if name != "house" or len(words) != 2 or words[1] not in (b"gross", b"larger", b"pairs"):
                raise Unreadable
            unsigned(words[0], 2**32 - 1)
            self.rule = words[1]
            return "ok"
        if name not in CALLS:
            raise Unreadable
        if name != "closing" and len(words) != (1 if name == "figures" else {**CLOSED, **TRADING}[name]):
            raise Unreadable
        if name == "check":
            numbers = [unsigned(words[0]), unsigned(words[1]), signed(words[2]), optional(words[3])]
        elif name == "fill":
            numbers = [unsigned(words[0]), unsigned(words[1]), optional(words[2])]
        else:
            numbers = [unsigned(word) for word in words]
        if name != "figures" and self.trading != (name not in CLOSED):
            return "not now"
        if name == "closing":
            return self.closing(numbers)
        return getattr(self, name + "_")(*numbers)

    # Figures.

    def marks(self):
        return [self.prints.get(s, price) for s, price in enumerate(self.settled)]

    def equity(self, a, marks=None):
        account = self.accounts[a]
        marks = marks or self.marks()
        return account.cash + sum(
            self.series[s][1] * (account.net[s] * mark - account.carry[s]) for s, mark in enumerate(marks))

    def levels(self, net):
        total = [0, 0, 0]
        for p, risks in enumerate(self.products):
            of_product = [net[s] for s in range(len(self.series)) if self.series[s][0] == p]
            longs = sum(lots for lots in of_product if lots > 0)
            shorts = -sum(lots for lots in of_product if lots < 0)
            for kind, (outright, spread) in enumerate(zip(per_lot(risks[0]), per_lot(risks[1]))):
                if self.rule == b"gross":
                    total[kind] += (longs + shorts) * outright
                elif self.rule == b"larger":
                    total[kind] += max(longs, shorts) * outright
                else:
                    total[kind] += abs(longs - shorts) * outright + min(longs, shorts) * spread
        return total

    def rise(self, a, series, lots, second):
        net = self.accounts[a].net[:]
        before = self.levels(net)[0]
        net[series] += lots
        if second is not None:
            net[second] -= lots
        return self.levels(net)[0] - before

    def free(self, a):
        needs = sum(max(0, self.rise(*order["what"])) for order in self.orders.values() if order["what"][0] == a)
        return self.equity(a) - self.levels(self.accounts[a].net)[0] - needs

    # The calls.

    def product_(self, outright, spread):
        must(1 <= outright <= 500_000_000 and 1 <= spread <= outright, 2)
        must(len(self.products) < 8, 3)
        self.products.append((outright, spread))
        return "ok %d" % (len(self.products) - 1)

    def rates_(self, product, outright, spread):
        must(product < len(self.products), 1)
        must(1 <= outright <= 500_000_000 and 1 <= spread <= outright, 2)
        self.products[product] = (outright, spread)
        return "ok"

    def series_(self, product, multiplier, price):
        must(product < len(self.products), 1)
        must(1 <= multiplier <= 10_000 and 1 <= price <= PRICE, 2)
        must(len(self.series) < 24, 3)
        self.series.append((product, multiplier))
        self.settled.append(price)
        return "ok %d" % (len(self.series) - 1)

    def account_(self):
        must(len(self.accounts) < 32, 3)
        self.accounts.append(Account())
        return "ok %d" % (len(self.accounts) - 1)

    def opening_(self):
        self.trading = True
        self.minute = 0
        self.used = 0
        for account in self.accounts:
            if account.call:
                account.call["age"] = min(2, account.call["age"] + 1)
        return "ok"

    def clock_(self, minute):
        must(minute <= 1439, 2)
        must(minute >= self.minute, 4)
        self.minute = minute
        return "ok"

    def print_(self, series, price):
        must(series < len(self.series), 1)
        must(1 <= price <= PRICE, 2)
        self.prints[series] = price
        return "ok"

    def credit(self, account, amount):
        if account.call:
            account.call["credit"] += amount
            if account.call["credit"] >= account.call["amount"]:
                account.call = None

    def deposit_(self, a, amount):
        must(a < len(self.accounts), 1)
        must(1 <= amount <= AMOUNT, 2)
        must(self.accounts[a].cash + amount <= CASH, 11)
        self.accounts[a].cash += amount
        self.credit(self.accounts[a], amount)
        return "ok"

    def withdraw_(self, a, amount):
        must(a < len(self.accounts), 1)
        must(1 <= amount <= AMOUNT, 2)
        must(not self.accounts[a].call, 9)
        must(amount <= self.free(a), 10)
        must(self.accounts[a].cash - amount >= -CASH, 11)
        self.accounts[a].cash -= amount
        return "ok"

    def check_(self, a, series, lots, second):
        must(a < len(self.accounts) and series < len(self.series), 1)
        must(second is None or second < len(self.series), 1)
        must(lots != 0 and abs(lots) <= 1000, 2)
        product = self.series[series][0]
        must(second is None or second != series and self.series[second][0] == product, 5)
        account = self.accounts[a]
        must(abs(account.net[series] + lots) <= 1000, 6)
        must(second is None or abs(account.net[second] - lots) <= 1000, 6)
        must(not self.order_in(a, product), 7)
        must(self.used < 9999, 8)
        rise = self.rise(a, series, lots, second)
        must(not account.call or rise < 0, 9)
        must(rise <= 0 or rise <= self.free(a), 10)
        self.used += 1
        self.orders[self.used] = {"what": (a, series, lots, second), "sent": False}
        return "ok %d" % self.used

    def order_in(self, a, product):
        return any(order["what"][0] == a and self.series[order["what"][1]][0] == product
                   for order in self.orders.values())

    def find(self, number, sent):
        must(number in self.orders and self.orders[number]["sent"] == sent, 12)
        return self.orders[number]

    def send_(self, number):
        self.find(number, False)["sent"] = True
        return "ok"

    def drop_(self, number):
        self.find(number, False)
        del self.orders[number]
        return "ok"

    def cancel_(self, number):
        self.find(number, True)
        del self.orders[number]
        return "ok"

    def fill_(self, number, price, second_price):
        a, series, lots, second = self.find(number, True)["what"]
        must((second is None) == (second_price is None), 13)
        must(1 <= price <= PRICE and (second_price is None or 1 <= second_price <= PRICE), 2)
        account = self.accounts[a]
        released = max(0, -self.rise(a, series, lots, second))
        for leg, leg_lots, leg_price in ((series, lots, price), (second, -lots, second_price)):
            if leg is not None:
                account.net[leg] += leg_lots
                account.carry[leg] += leg_lots * leg_price
        del self.orders[number]
        self.credit(account, released)
        return "ok"

    def closing(self, prices):
        must(not self.orders, 7)
        must(len(prices) == len(self.series), 13)
        must(all(1 <= price <= PRICE for price in prices), 2)
        equities = [self.equity(a, prices) if prices else self.accounts[a].cash for a in range(len(self.accounts))]
        must(all(abs(equity) <= CASH for equity in equities), 11)
        for account, equity in zip(self.accounts, equities):
            initial, maintenance, force = self.levels(account.net)
            account.cash = equity
            account.carry = [account.net[s] * price for s, price in enumerate(prices)] + [0] * (24 - len(prices))
            if account.call:
                account.call["low"] = account.call["low"] or equity < force
            elif equity < maintenance:
                account.call = {"amount": initial - equity, "credit": 0, "age": 0, "low": equity < force}
        self.settled = prices
        self.prints = {}
        self.trading = False
        return "ok"

    def figures_(self, a):
        must(a < len(self.accounts), 1)
        call = self.accounts[a].call
        text = "ok %d %d %d %d %d " % (self.equity(a), *self.levels(self.accounts[a].net), self.free(a))
        if not call:
            return text + "-"
        return text + "%d %d %d %s" % (call["amount"], call["credit"], call["age"], "low" if call["low"] else "high")


# The random scripts.

NASTY = [
    b"-", b"--1", b"-1", b"+1", b"+", b"0x10", b"1e3", b"1.0", b"1,000", b"1_000", b"-0", b"-00", b"00", b"a", b"1a",
    b"a1", b"1-", b"none", b"gross", b"\x00", b"\xff", b"1\x0b", b"1\x0c2", b"\xd9\xa1", b"\xe2\x88\x921",
    b"\xef\xbc\x91", b"1\xc2\xa0", b"\xc2\xa0", b"\xed\xa0\x80", b"/", b":", b"1:", b"/1",
] + [str(n).encode() for n in (
    2**32 - 1, 2**32, 2**63 - 1, 2**63, 2**64 - 1, 2**64, 2**64 + 1, 2**65, 10**19, 10**20 - 1, 10**20, 10**21, 2**128,
    2**128 + 1, -2**63, -2**63 - 1, -2**64, -2**64 + 1, -2**31, 1, 0)]
EDGES = [0, 1, 7, 8, 23, 24, 31, 32, 255, 256, 1000, 1001, 1439, 1440, 9999, 10_000, 10_001, PRICE, PRICE + 1,
         500_000_000, 500_000_001, AMOUNT, AMOUNT + 1, CASH, CASH + 1, 2**31, 2**32, 2**32 + 1, 2**63 - 1, 2**63, U64]


class Script:
    def __init__(self, seed, lines):
        self.rng = random.Random(seed)
        self.most = lines
        self.model = Model()
        self.text = []
        self.answers = []
        self.long_lines = 2
        r = self.rng
        self.rule = r.choice(["gross", "larger", "pairs", "pairs"])
        self.full = r.random() < 0.3
        self.scale = r.choice(["balanced", "balanced", "balanced", "wild", "tiny", "huge"])
        self.tidy = r.random() < 0.2
        self.size = r.choice([3, 10, 100, 1000])
        self.move = r.choice([0.01, 0.05, 0.2, 0.8])
        self.day = r.choice([60, 60, 120, 120, 250, 250, 600, 3000])

    def chance(self, share):
        return self.rng.random() < share

    # Lines.

    def raw(self, line):
        """Puts a line and answers what the model answers to it."""
        answer = self.model.line(line)
        self.text.append(line)
        if answer is not None:
            self.answers.append(answer)
        return answer

    def call(self, *words):
        """Puts a call, written in one of the ways that mean the same."""
        r = self.rng
        parts = ["-" if word is None else str(word) for word in words]
        if self.tidy or self.chance(0.8):
            return self.raw(" ".join(parts).encode())
        blank = lambda least: "".join(r.choice(" \t") for _ in range(r.randint(least, 3)))
        for i in range(1, len(parts)):
            if parts[i][-1].isdigit() and self.chance(0.2):
                sign, digits = ("-", parts[i][1:]) if parts[i][0] == "-" else ("", parts[i])
                parts[i] = sign + "0" * r.choice([1, 2, 19, 20, 40]) + digits
        line = blank(0) + parts[0] + "".join(blank(1) + part for part in parts[1:]) + blank(0)
        line += r.choice(["", "", "#", "# a remark", "#1 2 3", "## # \x01 \xff"]) + r.choice(["", "", "\r", "\r\r"])
        return self.raw(line.encode("latin-1"))

    def granted(self, *words):
        return self.call(*words).startswith("ok")

    def empty_line(self):
        self.raw(self.rng.choice([
            b"", b" ", b"\t", b" \t \r", b"\r", b"#", b"# a remark", b"   # print 0 1", b"#\r", b"\t#\xff\xfe\x00", b"##",
            b"\r\r", b"\f"]))

    def hostile_line(self):
        """A call with something wrong about it, mostly."""
        r = self.rng
        words = [str("-" if word is None else word).encode() for word in self.some_call()]
        kind = r.randint(0, 11)
        at = r.randrange(len(words))
        if kind <= 3 and len(words) > 1:
            words[r.randrange(1, len(words))] = r.choice(NASTY)
        elif kind == 4:
            del words[at]
        elif kind == 5:
            words.insert(r.randint(1, len(words)), r.choice(NASTY + words))
        elif kind == 6:
            words[0] = r.choice([words[0].upper(), words[0].capitalize(), words[0] + b"s", words[0][:-1], b"forced",
                                 b"list", words[0] + b"\x00", b"\xff" + words[0], b"'" + words[0], b"house", b"-", b"0"])
        elif kind == 7 and len(words) > 1:
            at = r.randrange(1, len(words))
            if words[at].isdigit():
                words[at] = str(int(words[at]) + r.choice([2**32, 2**63, 2**64, 2**65, 2**128])).encode()
        elif kind == 8 and len(words) > 1:
            at = r.randrange(1, len(words))
            words[at] = r.choice([b"-", b"+", b"", b"0x", b"--"]) + words[at]
        elif kind == 9 and len(words) > 1:
            words[r.randrange(1, len(words))] += r.choice([b"a", b".", b"-", b"\x00", b"\xc3\xa9", b"\x7f", b"'", b"#"])
        elif kind == 10:
            words = [b"house", r.choice([b"1", b"4294967295", b"0"]), r.choice([b"gross", b"larger", b"pairs"])]
        elif kind == 11 and len(words) > 1:
            self.raw(words[0] + r.choice([b"\r", b"\x0b", b"\x0c", b"\x00", b"\xc2\xa0", b","]) + b" ".join(words[1:]))
            return
        self.raw(b" ".join(words))

    def long_line(self):
        r = self.rng
        n = r.choice([4_096, 65_536, 70_000, 140_000])
        self.long_lines -= 1
        kind = r.randint(0, 6)
        words = [str("-" if word is None else word) for word in self.some_call()]
        if kind == 0:
            self.raw(b"#" + b"x" * n)
        elif kind == 1:
            self.raw(b"z" * n)
        elif kind == 2:
            self.raw(b" " * n + " ".join(words).encode() + b"\t" * n)
        elif kind == 3:
            self.raw(b"closing" + b" 5000" * (n // 5))
        elif kind == 4:
            self.raw(b"print 0 " + b"0" * n + b"5000")
        elif kind == 5:
            self.raw(b"print 0 " + b"9" * n)
        else:
            self.raw((" " * (n // 8)).join(words).encode() + b" # " + b"print 0 1 " * (n // 10))

    # Values.

    def number(self, count):
        """A number of something of which there are count: mostly one that is there."""
        if count and not self.chance(0.03):
            return self.rng.randrange(count)
        return self.rng.choice([count, count, count + 1, 8, 24, 32, 255, 256, 2**32, 2**63, U64])

    def account(self):
        count = len(self.model.accounts)
        if count and self.chance(0.85):
            return self.rng.randrange(min(count, self.active))
        return self.number(count)

    def price(self, near=None):
        r = self.rng
        if self.chance(0.02):
            return r.choice([0, PRICE + 1, 1, PRICE, U64])
        if near is None or self.scale == "wild" and self.chance(0.3):
            if self.scale == "huge":
                return r.randint(PRICE - 1000, PRICE)
            return int(10 ** r.uniform(0, 7)) if self.scale != "balanced" else r.randint(5_000, 200_000)
        return min(PRICE, max(1, int(near * (1 + r.uniform(-self.move, self.move))) + r.randint(-1, 1)))

    def risks(self, series_price=None):
        r = self.rng
        if self.chance(0.05):
            return r.choice([(0, 0), (0, 1), (1, 0), (1, 1), (1, 2), (500_000_000, 500_000_000), (500_000_001, 1),
                             (500_000_000, 500_000_001), (500_000_000, 0), (U64, U64), (2**32 + 1, 1), (1, 2**32 + 1),
                             (2**63, 2**63)])
        if self.scale == "tiny":
            outright = r.randint(1, 30)
        elif self.scale == "huge":
            outright = r.randint(400_000_000, 500_000_000)
        elif self.scale == "wild":
            outright = int(10 ** r.uniform(0, 8.69))
        else:
            outright = r.randint(50_000, 5_000_000)
        return outright, r.choice([1, outright, r.randint(1, outright), max(1, outright // 4)])

    def multiplier(self):
        if self.chance(0.04):
            return self.rng.choice([0, 10_001, 1, 10_000, U64])
        if self.scale == "balanced":
            return self.rng.choice([10, 100, 200, 300, 1000])
        return self.rng.choice([1, 10_000, self.rng.randint(1, 10_000)])

    def lots(self, net=0):
        r = self.rng
        if self.chance(0.02):
            return r.choice([0, 1001, -1001, 1000, -1000, 2**63 - 1, -2**63, 2**32, -2**32, 65536, -65536, 2**16 + 1])
        if self.chance(0.06):
            return r.choice([1000 - net, 1001 - net, -1000 - net, -1001 - net, -2 * net or 1])
        return (r.randint(1, self.size) if self.chance(0.95) else r.randint(1, 1000)) * r.choice([1, -1])

    def amount(self, a):
        r = self.rng
        if self.chance(0.04):
            return r.choice([0, 1, AMOUNT - 1, AMOUNT, AMOUNT + 1, 2**63, U64, 2**64 - 10**12])
        if a < len(self.model.accounts) and self.model.accounts[a].call and self.chance(0.7):
            call = self.model.accounts[a].call
            lacks = call["amount"] - call["credit"]
            return max(1, r.choice([1, lacks // 2, lacks // 3, lacks - 1, lacks - 1, lacks, lacks, lacks + 1, 2 * lacks]))
        if self.model.products and self.chance(0.8):
            level = per_lot(r.choice(self.model.products)[0])[0]
            return min(AMOUNT, max(1, int(level * r.randint(1, 3 * self.size) * r.random())))
        return min(AMOUNT, int(10 ** r.uniform(0, 12)))

    def order_number(self):
        return self.rng.choice([0, 1, self.model.used, self.model.used + 1, 9_999, 10_000, 2**16 + 1, 2**32 + 1, 2**64 - 1,
                                self.rng.randint(0, self.model.used + 1)])

    def some_call(self):
        """A readable call of any state, wrong or right."""
        m, r = self.model, self.rng
        name = r.choice(CALLS)
        if self.chance(0.1):
            numbers = [r.choice(EDGES) for _ in range({**CLOSED, **TRADING, "figures": 1}.get(name, r.randint(0, 30)))]
            return name, *numbers
        second = lambda value: value if self.chance(0.5) else None
        return name, *{
            "product": lambda: self.risks(),
            "rates": lambda: (self.number(len(m.products)), *self.risks()),
            "series": lambda: (self.number(len(m.products)), self.multiplier(), self.price()),
            "account": lambda: (),
            "opening": lambda: (),
            "clock": lambda: (min(1439, m.minute + r.randint(0, 30)),),
            "print": lambda: (self.number(len(m.series)), self.price()),
            "deposit": lambda: (self.account(), r.randint(1, 100_000)),
            "withdraw": lambda: (self.account(), r.randint(1, 100_000)),
            "check": lambda: (self.account(), self.number(len(m.series)), self.lots(), second(self.number(len(m.series)))),
            "send": lambda: (self.order_number(),),
            "drop": lambda: (self.order_number(),),
            "fill": lambda: (self.order_number(), self.price(), second(self.price())),
            "cancel": lambda: (self.order_number(),),
            "closing": lambda: [self.price(mark) for mark in m.marks()],
            "figures": lambda: (self.account(),),
        }[name]()

    # What is done.

    def write(self):
        r = self.rng
        if not self.tidy:
            for _ in range(r.randint(0, 6)):
                r.choice([self.empty_line, self.hostile_line, lambda: self.call(*self.some_call()), lambda: self.raw(r.choice([
                    b"house 4294967296 " + self.rule.encode(), b"house -1 gross", b"house 1 Gross", b"house 1", b"house",
                    b"house 1 gross pairs", b"house gross 1", b"House 1 gross", b"house 1 gros", b"house +1 pairs",
                    b"house 18446744073709551617 pairs", b"house 1 larger 2"]))])()
        if self.model.rule is None:
            self.call("house", r.choice([0, 1, 7, 2**32 - 1, r.randint(0, 2**32 - 1)]), self.rule)
        self.set_up()
        while len(self.text) < self.most:
            self.closed_time()
            self.trading_day()
        del self.text[self.most:]
        return b"\n".join(self.text) + (b"" if self.chance(0.5) else r.choice([b"\n", b"\r\n", b"\n\n", b"\n \t"]))

    def set_up(self):
        r = self.rng
        products = 8 if self.full else r.randint(1, 3)
        series = 24 if self.full else r.randint(products, 9)
        accounts = 32 if self.full else r.randint(1, 6)
        self.active = min(accounts, r.randint(1, 5))
        if self.chance(0.1):
            self.call("opening")
            self.call("figures", 0)
            self.call("closing", *r.choice([[], [], [1]]))
            self.call("closing")
        while len(self.model.products) < products:
            self.call("product", *self.risks())
        while len(self.model.series) < series:
            self.call("series", self.number(products), self.multiplier(), self.price())
        while len(self.model.accounts) < accounts:
            self.call("account")
        if self.full or self.chance(0.1):
            for _ in range(3):
                self.call("product", *self.risks())
                self.call("series", self.number(products), self.multiplier(), self.price())
                self.call("account")

    def closed_time(self):
        r, m = self.rng, self.model
        while not m.trading and len(self.text) < self.most:
            kind = r.random()
            if kind < 0.30:
                self.call("figures", self.account())
            elif kind < 0.42:
                self.call("rates", self.number(len(m.products)), *self.risks())
            elif kind < 0.44:
                self.call("product", *self.risks())
            elif kind < 0.47:
                self.call("series", self.number(len(m.products)), self.multiplier(), self.price())
            elif kind < 0.49:
                self.call("account")
            elif kind < 0.55 and not self.tidy:
                self.hostile_line()
            elif kind < 0.60:
                self.call(*self.some_call())
            elif kind < 0.62:
                self.empty_line()
            elif kind < 0.75:
                self.call("opening")

    def trading_day(self):
        r, m = self.rng, self.model
        end = len(self.text) + r.randint(10, self.day)
        while m.trading and len(self.text) < self.most:
            if len(self.text) >= end:
                self.end_of_day()
                end = len(self.text) + 5
                continue
            kind = r.random()
            if kind < 0.12:
                s = self.number(len(m.series))
                self.call("print", s, self.price(m.marks()[s] if s < len(m.series) else 1))
            elif kind < 0.25:
                self.call("figures", self.account())
            elif kind < 0.31:
                a = self.account()
                self.call("deposit", a, self.amount(a))
            elif kind < 0.36:
                self.withdrawal()
            elif kind < 0.56:
                self.check()
            elif kind < 0.78:
                if m.orders:
                    self.advance(r.choice(sorted(m.orders)), 0.85)
                else:
                    self.check()
            elif kind < 0.81:
                name = r.choice(["send", "drop", "cancel", "fill"])
                number = r.choice([self.order_number(), *m.orders])
                self.call(name, number, *((self.price(), None if self.chance(0.7) else self.price()) if name == "fill" else ()))
            elif kind < 0.84:
                self.call("clock", r.choice([m.minute, max(0, m.minute - 1), min(1439, m.minute + r.randint(0, 200)),
                                             r.choice([0, 644, 645, 689, 690, 954, 955, 1439, 1440, U64])]))
            elif kind < 0.855:
                self.call("closing", *self.closing_prices(True))
            elif kind < 0.88:
                self.call(*self.some_call())
            elif kind < 0.93 and not self.tidy:
                self.hostile_line()
            elif kind < 0.94:
                self.empty_line()
            elif kind < 0.942 and self.long_lines and not self.tidy:
                self.long_line()

    def withdrawal(self):
        r, m = self.rng, self.model
        a = self.account()
        amount = self.amount(a)
        if a < len(m.accounts) and self.chance(0.6):
            free = m.free(a)
            amount = max(0, r.choice([free, free, free + 1, free - 1, free // 2, free // 3, 1]))
            if amount > AMOUNT and self.chance(0.8):
                amount = AMOUNT
        self.call("withdraw", a, amount)

    def same_product(self, series):
        """Another series of the same product, if there is one."""
        m = self.model
        others = [s for s in range(len(m.series)) if m.series[s][0] == m.series[series][0] and s != series]
        return self.rng.choice(others) if others else None

    def check(self):
        r, m = self.rng, self.model
        a = self.account()
        s = self.number(len(m.series))
        if a >= len(m.accounts) or s >= len(m.series):
            self.call("check", a, s, self.lots(), None if self.chance(0.5) else self.number(len(m.series)))
            return
        account = m.accounts[a]
        held = [s for s in range(len(m.series)) if account.net[s]]
        second = self.same_product(s) if self.chance(0.35) else None
        lots = self.lots(account.net[s])
        if held and self.chance(0.6 if account.call else 0.25):
            # Towards nothing held, on one side or on both.
            s = r.choice(held)
            net = account.net[s]
            lots = -r.randint(1, abs(net)) * (1 if net > 0 else -1)
            second = None
            across = [t for t in held if m.series[t][0] == m.series[s][0] and (account.net[t] > 0) != (net > 0)]
            if across and self.chance(0.6):
                second = r.choice(across)
                most = min(abs(net), abs(account.net[second]))
                lots = -r.choice([1, most, r.randint(1, most)]) * (1 if net > 0 else -1)
        if self.chance(0.04):
            second = r.choice([s, self.number(len(m.series)), len(m.series), U64])
        if self.chance(0.02):
            lots = self.lots() * 1001
        if self.chance(0.25):
            self.exact_free(a, s, lots, second)
        answer = self.call("check", a, s, lots, second)
        if answer.startswith("ok") and self.chance(0.5):
            self.advance(int(answer.split()[1]), 0.9)
            if self.chance(0.5):
                self.advance(int(answer.split()[1]), 0.9)

    def exact_free(self, a, s, lots, second):
        """Brings free to the need of an order, or one satang below it."""
        m = self.model
        if abs(lots) > 1000 or second is not None and second >= len(m.series):
            return
        gap = m.rise(a, s, lots, second) - m.free(a) - self.rng.choice([0, 0, 1])
        if 0 < gap <= AMOUNT:
            self.call("deposit", a, gap)
        elif 0 < -gap <= AMOUNT:
            self.call("withdraw", a, -gap)

    def advance(self, number, share):
        """Sends or drops a held order, fills or cancels a sent one."""
        m, r = self.model, self.rng
        order = m.orders.get(number)
        if not order:
            return
        if not order["sent"]:
            self.call("send" if self.chance(share) else "drop", number)
            return
        if not self.chance(share):
            self.call("cancel", number)
            return
        _, series, _, second = order["what"]
        marks = m.marks()
        prices = [self.price(marks[series]), None if second is None else self.price(marks[second])]
        if self.chance(0.03):
            prices[1] = None if prices[1] is not None else self.price()
        if self.scale in ("wild", "tiny") and self.chance(0.1):
            prices = [price and r.choice([1, PRICE]) for price in prices]
        self.call("fill", number, *prices)

    def closing_prices(self, faults):
        """Settlement prices, half of them against the lots of an account, some with a fault."""
        m, r = self.model, self.rng
        prices = [self.price(mark) for mark in m.marks()]
        if m.accounts and self.chance(0.5):
            net = m.accounts[r.randrange(min(self.active, len(m.accounts)))].net
            worse = self.move * r.random()
            prices = [min(PRICE, max(1, int(mark * (1 - worse * ((net[s] > 0) - (net[s] < 0))))))
                      for s, mark in enumerate(m.marks())]
        if faults and self.chance(0.7):
            kind = r.randint(0, 3)
            if kind == 0:
                prices = prices[:-1]
            elif kind == 1:
                prices.append(r.choice([0, 5, U64]))
            elif kind == 2:
                prices = prices * r.choice([0, 2, 10])
            elif prices:
                prices[r.randrange(len(prices))] = r.choice([0, PRICE + 1, 2**63, U64])
        return prices

    def end_of_day(self):
        m, r = self.model, self.rng
        if self.chance(0.2):
            self.call("closing", *self.closing_prices(True))
        for number in sorted(m.orders):
            while number in m.orders and len(self.text) < self.most:
                self.advance(number, 0.9)
        prices = [min(PRICE, max(1, price)) for price in self.closing_prices(False)]
        for a in range(min(self.active, len(m.accounts))):
            if self.chance(0.4):
                # Equity on a level, or one satang to either side of it, at these prices.
                initial, maintenance, force = m.levels(m.accounts[a].net)
                level = r.choice([initial, maintenance, maintenance, force, force, 0]) + r.choice([0, 0, -1, -1, 1])
                gap = level - (m.equity(a, prices) if prices else m.accounts[a].cash)
                if 0 < gap <= AMOUNT:
                    self.call("deposit", a, gap)
                elif 0 < -gap <= AMOUNT:
                    self.call("withdraw", a, -gap)
        self.call("closing", *prices)
        for a in range(min(self.active, len(m.accounts))):
            self.call("figures", a)


# The special scripts.

def worked():
    """The worked cases of the rulebook, under each rule in turn the house that they need."""
    return """
        house 1 pairs
        product 450000 112500
        product 1 1
        series 0 200 83000
        series 0 200 83000
        series 1 1 1
        account
        account
        account
        account
        account
        account
        account
        opening
        deposit 0 2000000
        check 0 0 2 -
        send 1
        fill 1 83000 -
        deposit 1 2077000
        check 1 0 2 -
        send 2
        fill 2 83000 -
        deposit 2 2076999
        check 2 0 2 -
        send 3
        fill 3 83000 -
        deposit 3 213750
        check 3 0 1 1
        send 4
        fill 4 83000 83000
        deposit 4 10000000
        check 4 0 3 -
        send 5
        fill 5 83000 -
        check 4 1 -1 -
        send 6
        fill 6 83000 -
        figures 4
        deposit 5 20
        check 5 2 11 -
        check 5 2 10 -
        figures 5
        check 5 0 0 0
        check 5 0 1 0
        check 5 0 1 2
        check 5 2 991 -
        check 5 2 990 -
        check 5 2 -10 -
        closing 80800 80800 1
        send 7
        figures 5
        fill 7 0 1
        fill 7 0 -
        fill 7 1 -
        figures 5
        check 6 0 1 1
        closing 80800 80800 1
        figures 0
        figures 1
        figures 2
        figures 3
        figures 4
        figures 5
        figures 6
        opening
        figures 0
        print 0 85000
        figures 0
        withdraw 0 1
        check 0 0 1 -
        check 0 1 1 0
        deposit 0 589999
        figures 0
        deposit 0 1
        figures 0
        clock 954
        clock 954
        clock 953
        closing 79200 82500 2
        figures 0
        figures 1
        figures 2
        figures 3
        rates 0 400000 100000
        figures 0
        figures 1
        figures 2
        opening
        check 3 0 -1 -
        check 3 0 -1 1
        send 1
        fill 1 79200 82500
        figures 3
        closing 79200 82500 2
        opening
        figures 2
        closing 79200 82500 2
        opening
        figures 2
        check 2 0 -1 -
        send 1
        fill 1 79200 -
        figures 2
    """.split("\n")


def round_trips(lines, count, first, account, low, high):
    """Buys 1,000 of series 0 at low and sells them at high, count times, from order number first on."""
    for number in range(first, first + 2 * count, 2):
        lines += [f"check {account} 0 1000 -", f"send {number}", f"fill {number} {low} -",
                  f"check {account} 0 -1000 -", f"send {number + 1}", f"fill {number + 1} {high} -"]
    return first + 2 * count


def rich():
    """Cash at its upper bound: a round trip earns 99,999,990,000,000, a thousand of them 10^17 less 10^10."""
    lines = ["house 2 gross", "product 1 1", "series 0 10000 5000000", "account", "account", "opening", "deposit 0 2000"]
    number = round_trips(lines, 1000, 1, 0, 1, PRICE)
    lines += ["figures 0", "withdraw 0 2000", f"deposit 0 {10**10 + 1}", "figures 0", "closing 7", "withdraw 0 1",
              "closing 7", "figures 0", "opening", "deposit 0 1", "deposit 0 1000000000000", "deposit 1 1", "withdraw 0 5",
              "deposit 0 6", "deposit 0 5", "figures 0", "deposit 0 1", "deposit 0 0", "deposit 2 1"]
    # A gain at the settlement prices alone, then none.
    lines += ["check 0 0 1 -", "send 1", "fill 1 100 -", "closing 101", "closing 99", "figures 0", "opening",
              f"deposit 0 {10**4}", "deposit 0 1", "figures 0", "closing 100", "closing 99", "opening", "figures 0",
              "closing 98", "figures 0"]
    return lines


def poor():
    """Cash at its lower bound, through turns from 500 long to 500 short, which need no margin."""
    lines = ["house 3 larger", "product 500000000 1", "series 0 10000 5000000", "account", "account", "opening",
             "deposit 0 475000000000", "check 0 0 500 -", "send 1", "fill 1 5000000 -"]
    number = 2
    for _ in range(1000):
        lines += [f"check 0 0 -1000 -", f"send {number}", f"fill {number} 1 -",
                  f"check 0 0 1000 -", f"send {number + 1}", f"fill {number + 1} 10000000 -"]
        number += 2
    # Equity is now 485,000,000,000 - 10^17 at the mark 5,000,000, and 5,000,000 less for each hundredth below it.
    lines += ["figures 0", "check 0 0 1 -", "check 0 0 -1000 -", f"cancel {number}", f"drop {number}", "withdraw 0 1",
              "closing 1", "closing 9903000", "figures 0", "opening", "figures 0", "deposit 0 1000000000000",
              "withdraw 0 1", "check 0 0 -1000 -", "check 0 0 -999 -", "check 0 0 -1 -", "drop 1", "check 0 0 -1 -",
              "send 2", "fill 2 1 -", "figures 0", "closing 5000000", "closing 9900000", "figures 0", "opening",
              "figures 0", "check 0 0 -998 -", "check 0 0 -499 -", "send 1", "fill 1 10000000 -", "figures 0", "closing 1",
              "opening", "figures 0", "check 0 0 1 -", "deposit 0 1", "figures 0"]
    return lines


def floor():
    """The bound itself: one satang below it is refused, the bound is granted."""
    model = Model()
    lines = []

    def put(line):
        lines.append(line)
        return model.line(line.encode())

    for line in ["house 5 gross", "product 1 1", "series 0 10000 5000000", "series 0 1 5000000", "account", "opening",
                 "deposit 0 100000", "check 0 1 10 -", "send 1", "fill 1 5000000 -", "check 0 0 500 -", "send 2",
                 "fill 2 10000000 -", "figures 0"]:
        put(line)
    number = 3
    for _ in range(1000):
        for lots, price in ((-1000, 1), (1000, 10_000_000)):
            put(f"check 0 0 {lots} -"), put(f"send {number}"), put(f"fill {number} {price} -")
            number += 1
    # What is left above the bound at 10,000,000 goes by the first series in steps of 5,000,000, and by the second in tens.
    prices = [10_000_000, 5_000_000]
    prices[0] -= (model.equity(0, prices) + CASH) // 5_000_000
    prices[1] -= (model.equity(0, prices) + CASH) // 10
    left = model.equity(0, prices) + CASH
    assert 0 <= left < 10 and min(prices) >= 20, (left, prices)
    below = [prices[0], prices[1] - 1]
    put("figures 0")
    put("closing %d %d" % tuple(below))
    # The last satang: a lot of the second series sold for less than its mark.
    put("check 0 1 -1 -"), put(f"send {number}"), put(f"fill {number} {prices[1] - left} -")
    assert model.equity(0, prices) == -CASH
    number += 1
    put("check 0 1 -1 -"), put(f"send {number}"), put(f"fill {number} {prices[1] - 1} -")
    assert model.equity(0, prices) == -CASH - 1
    put("closing %d %d" % tuple(prices))
    put("deposit 0 1")
    put("closing %d %d" % tuple(prices))
    put("figures 0")
    put("opening")
    put("figures 0")
    put("withdraw 0 1")
    put("check 0 0 -500 -"), put("send 1"), put("fill 1 1 -")
    for price in (prices[0], 1, PRICE):
        put(f"closing {price} {prices[1]}")
        put("figures 0")
    put("deposit 0 1000000000000")
    put("figures 0")
    return lines


def numbers():
    """All order numbers of a day used, each for two legs at prices far apart: the largest equity, and a day that cannot
    close."""
    lines = ["house 6 pairs", "product 1 1", "series 0 10000 1", "series 0 10000 10000000", "series 0 1 1", "account",
             "account", "opening", "deposit 0 1000000", "deposit 1 1000000"]
    for number in range(1, 10_000):
        lots, prices = (1000, "1 10000000") if number % 2 else (-1000, "10000000 1")
        lines += [f"check 0 0 {lots} 1", f"send {number}", f"fill {number} {prices}"]
        if number % 500 == 0:
            lines += ["figures 0"]
    lines += ["figures 0", "check 0 0 -1 1", "check 0 0 1 -", "check 0 0 0 -", "check 0 0 1 0", "check 1 2 1 -",
              "check 2 0 1 -", "check 1 2 5000 -", "send 9999", "fill 9999 1 1", "fill 10000 1 1", "cancel 9999",
              "withdraw 0 1000000000000", "closing 1 1 1", "closing 10000000 1 1", "closing 1 10000000 1",
              "print 0 10000000", "print 1 1", "figures 0", "figures 1"]
    return lines


def dropped():
    """All order numbers of a day used, by orders that are dropped or cancelled; the next day counts afresh."""
    lines = ["house 7 gross", "product 5 5", "series 0 1 100", "account", "account", "opening", "deposit 0 1000000"]
    for number in range(1, 10_000):
        lines += [f"check 0 0 {number % 7 + 1} -"]
        if number % 3:
            lines += [f"drop {number}"]
        elif number < 9999:
            lines += [f"send {number}", f"cancel {number}"]
    lines += ["check 1 0 1 -", "check 0 0 1 -", "check 0 0 1001 -", "closing 100", "send 9999", "check 0 0 1 -",
              "fill 9999 100 -", "check 0 0 1 -", "check 1 0 1 -", "check 0 0 1000 -", "figures 0", "closing 100",
              "opening", "check 0 0 1 -", "drop 9999", "drop 1", "check 0 0 -1 -", "send 2", "fill 2 100 -", "figures 0",
              "closing 100"]
    return lines


def drained():
    """Cash at its lower bound by withdrawals of what is free: more than 10^17 is earned, and 100,000 of them go out."""
    lines = ["house 8 larger", "product 1 1", "series 0 10000 5000000", "account", "opening", "deposit 0 2000"]
    number = round_trips(lines, 1100, 1, 0, 1, PRICE)
    lines += ["withdraw 0 1000000000000"] * 100_000
    lines += ["figures 0", "withdraw 0 2001", "withdraw 0 1999", "withdraw 0 2", "withdraw 0 1", "withdraw 0 1",
              "withdraw 0 1000000000001", "figures 0", "deposit 0 1", "withdraw 0 2", "withdraw 0 1", "closing 1", "figures 0"]
    return lines


def opposite():
    """The most negative equity, with order numbers to the last: turns that need no margin, at the worst prices."""
    lines = ["house 9 gross", "product 1 1", "series 0 10000 5000000", "series 0 10000 5000000", "account", "opening",
             "deposit 0 10000", "check 0 0 500 1", "send 1", "fill 1 5000000 5000000"]
    for number in range(2, 10_000):
        lots, prices = (1000, "10000000 1") if number % 2 else (-1000, "1 10000000")
        lines += [f"check 0 0 {lots} 1", f"send {number}", f"fill {number} {prices}"]
        if number % 1000 == 0:
            lines += ["figures 0"]
    lines += ["figures 0", "check 0 0 -500 1", "withdraw 0 1", "closing 1 1", "closing 10000000 1", "closing 1 10000000",
              "deposit 0 1000000000000", "figures 0"]
    return lines


SPECIAL = {f.__name__: f for f in (worked, rich, poor, floor, numbers, dropped, drained, opposite)}


def special(name):
    return "\n".join(line.strip() for line in SPECIAL[name]()).strip().encode()


# Statistics.

def statistics(arguments):
    engine = None
    if arguments[:1] == ["--engine"]:
        engine, arguments = arguments[1], arguments[2:]
    count = int(arguments[0]) if arguments else 30
    lines = int(arguments[1]) if arguments[1:] else 3000
    with tempfile.TemporaryDirectory() as folder:
        if engine is None:
            engine = os.path.join(folder, "engine")
            source = os.path.join(HERE, "../../bench/engine.rs")
            subprocess.run(["rustc", "-O", "-o", engine, source], check=True)
        random_scripts = [Script(seed, lines).write() for seed in range(1, count + 1)]
        table(engine, f"{count} random scripts of {lines} lines", random_scripts)
        table(engine, "the special scripts", [special(name) for name in SPECIAL])


def table(engine, title, scripts):
    seen, calls, states = {}, {}, {}
    total = 0
    for script in scripts:
        answers = subprocess.run([engine], input=script, stdout=subprocess.PIPE, check=True).stdout.split(b"\n")[:-1]
        asked = [line for line in script.split(b"\n") if not BLANK.match(line)]
        assert len(asked) == len(answers), (len(asked), len(answers))
        total += len(answers)
        most = 0
        for line, answer in zip(asked, answers):
            name = re.match(rb"[ \t\r\x0c]*([^ \t\r\x0c#]*)", line)[1].decode("latin-1")
            words = answer.decode().split()
            kind = answer.decode() if words[0] != "ok" else "ok"
            name = name if name in CALLS + ["house"] else "other"
            seen[name, kind] = seen.get((name, kind), 0) + 1
            if name == "check" and kind == "ok":
                most = max(most, int(words[1]))
            if name == "figures" and kind == "ok":
                state = "no call"
                if len(words) > 7:
                    state = "age %s, %s, %s" % (words[8], words[9], "credit" if words[7] != "0" else "no credit")
                states[state] = states.get(state, 0) + 1
        calls[most] = calls.get(most, 0) + 1
    print(f"{title}: {total} answers")
    names = ["house"] + CALLS + ["other"]
    kinds = ["ok"] + [f"refused {n}" for n in range(1, 14)] + ["not now", "unreadable"]
    heads = [kind.replace("refused ", "").replace("unreadable", "unread") for kind in kinds]
    print("          " + "".join("%8s" % head for head in heads))
    for name in names:
        print("%-10s" % name + "".join("%8s" % (seen.get((name, kind)) or ".") for kind in kinds))
    print("figures:  " + "; ".join(f"{state}: {n}" for state, n in sorted(states.items())))
    print("highest order number: %d" % max(calls))
    print()


# Comparison.

BLANK = re.compile(rb"[ \t\r\x0c]*(#.*)?\Z", re.S)


def difference(script, one, other):
    """Prints the first difference of two files of answers, and the line of the script that they answer."""
    lines = [(n, line) for n, line in enumerate(open(script, "rb").read().split(b"\n"), 1) if not BLANK.match(line)]
    texts = [open(name, "rb").read().split(b"\n") for name in (one, other)]
    for i in range(max(map(len, texts))):
        answers = [text[i] if i < len(text) else b"(no line)" for text in texts]
        if answers[0] != answers[1]:
            number, line = lines[i] if i < len(lines) else (0, b"(beyond the script's end)")
            short = lambda text: repr(text if len(text) <= 200 else text[:200] + b"...")[1:]
            print("line %d: %s" % (number, short(line)))
            for name, answer in zip((one, other), answers):
                print("%s: %s" % (os.path.basename(name), short(answer)))
            return


def main(arguments):
    answers = arguments[:1] == ["--answers"]
    if answers:
        arguments = arguments[1:]
    if arguments[:1] == ["--specials"]:
        print("\n".join(SPECIAL))
        return
    if arguments[:1] == ["--stats"]:
        statistics(arguments[1:])
        return
    if arguments[:1] == ["--difference"]:
        difference(*arguments[1:])
        return
    if arguments[:1] == ["--special"]:
        text = special(arguments[1])
    elif len(arguments) == 2:
        text = Script(int(arguments[0]), int(arguments[1])).write()
    else:
        sys.exit(__doc__)
    if answers:
        model = Model()
        given = (model.line(line) for line in text.split(b"\n"))
        text = "".join(answer + "\n" for answer in given if answer is not None).encode()
    sys.stdout.buffer.write(text)


if __name__ == "__main__":
    main(sys.argv[1:])
