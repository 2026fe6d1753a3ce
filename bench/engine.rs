// The margin engine in plain Rust, after docs/RULEBOOK.md: it reads a script of calls from standard input, or from the
// file named as its argument, and prints an answer a line. It is the yardstick of bench/margin.sh and the second opinion
// of tests/margin/compare.sh.
//
//     rustc -O bench/engine.rs                                  the yardstick
//     rustc -O -C debug-assertions=on bench/engine.rs           stops at an overflow

use std::convert::TryFrom;
use std::fs::File;
use std::io::{self, BufRead, BufReader, BufWriter, Write};
use std::process::ExitCode;

const PRODUCTS: usize = 8;
const SERIES: usize = 24;
const ACCOUNTS: usize = 32;
const RISK_MOST: u64 = 500_000_000;
const MULTIPLIER_MOST: u64 = 10_000;
const PRICE_MOST: u64 = 10_000_000;
const LOTS_MOST: i64 = 1_000;
const AMOUNT_MOST: u64 = 1_000_000_000_000;
const CASH_MOST: i64 = 100_000_000_000_000_000;
const MINUTE_MOST: u64 = 1_439;
const NUMBER_MOST: usize = 9_999;

#[derive(Clone, Copy)]
enum Rule {
    Gross,
    Larger,
    Pairs,
}

/// Initial, maintenance and force level, in satang.
#[derive(Clone, Copy, Default)]
struct Levels {
    initial: i64,
    maintenance: i64,
    force: i64,
}

/// The per-lot levels of a product.
#[derive(Clone, Copy, Default)]
struct Product {
    outright: Levels,
    spread: Levels,
}

/// L and S of an account in a product.
#[derive(Clone, Copy, Default, PartialEq, Debug)]
struct Sides {
    long: i64,
    short: i64,
}

/// The open order of an account in a product; number 0 stands for none.
#[derive(Clone, Copy, Default)]
struct Order {
    number: u16,
    sent: bool,
    series: u8,
    second: Option<u8>,
    lots: i16,
}

#[derive(Clone, Copy)]
struct MarginCall {
    amount: i64,
    credit: i64,
    age: u8,
    low: bool,
}

#[derive(Clone, Copy)]
struct Account {
    cash: i64,
    net: [i64; SERIES],
    carry: [i64; SERIES],
    orders: [Order; PRODUCTS],
    call: Option<MarginCall>,
}

const NEW_ACCOUNT: Account = Account {
    cash: 0,
    net: [0; SERIES],
    carry: [0; SERIES],
    orders: [Order { number: 0, sent: false, series: 0, second: None, lots: 0 }; PRODUCTS],
    call: None,
};

struct Figures {
    eb: i128,
    required: Levels,
    free: i128,
    call: Option<MarginCall>,
}

struct House {
    rule: Rule,
    trading: bool,
    minute: u64,
    products: usize,
    product: [Product; PRODUCTS],
    series: usize,
    product_of: [u8; SERIES],
    multiplier: [i64; SERIES],
    /// The settlement prices, and over them the prints of the day.
    settled: [i64; SERIES],
    mark: [i64; SERIES],
    accounts: usize,
    account: [Account; ACCOUNTS],
    /// Order numbers used today, open orders, and where each number was put (account, product).
    used: usize,
    open: usize,
    place: [(u8, u8); NUMBER_MOST + 1],
}

type Refusal = u8;

enum Answer {
    Done,
    Number(usize),
    Figures(Figures),
    Refused(Refusal),
    NotNow,
}

fn per_lot(risk: u64) -> Levels {
    let part = |percent: u64| ((risk * percent + 99) / 100) as i64;
    Levels { initial: part(190), maintenance: part(133), force: part(57) }
}

fn price_in_range(price: u64) -> bool {
    (1..=PRICE_MOST).contains(&price)
}

fn risks_in_range(outright: u64, spread: u64) -> bool {
    (1..=RISK_MOST).contains(&outright) && (1..=outright).contains(&spread)
}

impl Rule {
    fn level(self, outright: i64, spread: i64, sides: Sides) -> i64 {
        let Sides { long, short } = sides;
        match self {
            Rule::Gross => (long + short) * outright,
            Rule::Larger => long.max(short) * outright,
            Rule::Pairs => (long - short).abs() * outright + long.min(short) * spread,
        }
    }
}

impl Account {
    /// The net lots after an order.
    fn net_after(&self, order: &Order) -> [i64; SERIES] {
        let mut net = self.net;
        net[order.series as usize] += order.lots as i64;
        if let Some(second) = order.second {
            net[second as usize] -= order.lots as i64;
        }
        net
    }

    fn credit(&mut self, amount: i64) {
        if let Some(call) = &mut self.call {
            call.credit += amount;
            if call.credit >= call.amount {
                self.call = None;
            }
        }
    }
}

impl House {
    fn new(rule: Rule) -> House {
        House {
            rule,
            trading: false,
            minute: 0,
            products: 0,
            product: [Product::default(); PRODUCTS],
            series: 0,
            product_of: [0; SERIES],
            multiplier: [0; SERIES],
            settled: [0; SERIES],
            mark: [0; SERIES],
            accounts: 0,
            account: [NEW_ACCOUNT; ACCOUNTS],
            used: 0,
            open: 0,
            place: [(0, 0); NUMBER_MOST + 1],
        }
    }

    /// The long and the short lots of each product.
    fn sides(&self, net: &[i64; SERIES]) -> [Sides; PRODUCTS] {
        let mut sides = [Sides::default(); PRODUCTS];
        for s in 0..self.series {
            let side = &mut sides[self.product_of[s] as usize];
            side.long += net[s].max(0);
            side.short += (-net[s]).max(0);
        }
        sides
    }

    /// How IMR would change if the order filled now.
    fn rise(&self, account: &Account, order: &Order) -> i64 {
        self.required(&account.net_after(order)).initial - self.required(&account.net).initial
    }

    fn equity(&self, account: &Account, marks: &[i64; SERIES]) -> i128 {
        let mut sum = account.cash as i128;
        for s in 0..self.series {
            sum += (self.multiplier[s] * (account.net[s] * marks[s] - account.carry[s])) as i128;
        }
        sum
    }

    fn required(&self, net: &[i64; SERIES]) -> Levels {
        let sides = self.sides(net);
        let mut sum = Levels::default();
        for p in 0..self.products {
            let Product { outright, spread } = &self.product[p];
            sum.initial += self.rule.level(outright.initial, spread.initial, sides[p]);
            sum.maintenance += self.rule.level(outright.maintenance, spread.maintenance, sides[p]);
            sum.force += self.rule.level(outright.force, spread.force, sides[p]);
        }
        sum
    }

    fn needs(&self, account: &Account) -> i64 {
        let mut sum = 0;
        if self.open > 0 {
            for p in 0..self.products {
                let order = &account.orders[p];
                if order.number != 0 {
                    sum += self.rise(account, order).max(0);
                }
            }
        }
        sum
    }

    fn free(&self, account: &Account) -> i128 {
        self.equity(account, &self.mark) - (self.required(&account.net).initial + self.needs(account)) as i128
    }

    fn known_account(&self, account: u64) -> Result<usize, Refusal> {
        if account < self.accounts as u64 { Ok(account as usize) } else { Err(1) }
    }

    fn known_series(&self, series: u64) -> Result<usize, Refusal> {
        if series < self.series as u64 { Ok(series as usize) } else { Err(1) }
    }

    fn known_product(&self, product: u64) -> Result<usize, Refusal> {
        if product < self.products as u64 { Ok(product as usize) } else { Err(1) }
    }

    // On a closed house.

    fn enter_product(&mut self, outright: u64, spread: u64) -> Result<usize, Refusal> {
        if !risks_in_range(outright, spread) {
            return Err(2);
        }
        if self.products == PRODUCTS {
            return Err(3);
        }
        self.product[self.products] = Product { outright: per_lot(outright), spread: per_lot(spread) };
        self.products += 1;
        Ok(self.products - 1)
    }

    fn rates(&mut self, product: u64, outright: u64, spread: u64) -> Result<(), Refusal> {
        let product = self.known_product(product)?;
        if !risks_in_range(outright, spread) {
            return Err(2);
        }
        self.product[product] = Product { outright: per_lot(outright), spread: per_lot(spread) };
        Ok(())
    }

    fn enter_series(&mut self, product: u64, multiplier: u64, price: u64) -> Result<usize, Refusal> {
        let product = self.known_product(product)?;
        if !(1..=MULTIPLIER_MOST).contains(&multiplier) || !price_in_range(price) {
            return Err(2);
        }
        if self.series == SERIES {
            return Err(3);
        }
        let s = self.series;
        self.product_of[s] = product as u8;
        self.multiplier[s] = multiplier as i64;
        self.settled[s] = price as i64;
        self.mark[s] = price as i64;
        self.series += 1;
        Ok(s)
    }

    fn enter_account(&mut self) -> Result<usize, Refusal> {
        if self.accounts == ACCOUNTS {
            return Err(3);
        }
        self.accounts += 1;
        Ok(self.accounts - 1)
    }

    fn opening(&mut self) {
        self.trading = true;
        self.minute = 0;
        self.mark = self.settled;
        self.used = 0;
        debug_assert!(self.open == 0);
        for account in &mut self.account[..self.accounts] {
            if let Some(call) = &mut account.call {
                call.age = (call.age + 1).min(2);
            }
        }
    }

    // On a trading house.

    fn clock(&mut self, minute: u64) -> Result<(), Refusal> {
        if minute > MINUTE_MOST {
            return Err(2);
        }
        if minute < self.minute {
            return Err(4);
        }
        self.minute = minute;
        Ok(())
    }

    fn print(&mut self, series: u64, price: u64) -> Result<(), Refusal> {
        let series = self.known_series(series)?;
        if !price_in_range(price) {
            return Err(2);
        }
        self.mark[series] = price as i64;
        Ok(())
    }

    fn deposit(&mut self, account: u64, amount: u64) -> Result<(), Refusal> {
        let account = self.known_account(account)?;
        if !(1..=AMOUNT_MOST).contains(&amount) {
            return Err(2);
        }
        let account = &mut self.account[account];
        let cash = account.cash + amount as i64;
        if cash > CASH_MOST {
            return Err(11);
        }
        account.cash = cash;
        account.credit(amount as i64);
        Ok(())
    }

    fn withdraw(&mut self, account: u64, amount: u64) -> Result<(), Refusal> {
        let account = self.known_account(account)?;
        if !(1..=AMOUNT_MOST).contains(&amount) {
            return Err(2);
        }
        if self.account[account].call.is_some() {
            return Err(9);
        }
        if amount as i128 > self.free(&self.account[account]) {
            return Err(10);
        }
        let cash = self.account[account].cash - amount as i64;
        if cash < -CASH_MOST {
            return Err(11);
        }
        self.account[account].cash = cash;
        Ok(())
    }

    fn check(&mut self, account: u64, series: u64, lots: i64, second: Option<u64>) -> Result<usize, Refusal> {
        let a = self.known_account(account)?;
        let series = self.known_series(series)?;
        let second = match second {
            None => None,
            Some(second) => Some(self.known_series(second)?),
        };
        if lots == 0 || !(-LOTS_MOST..=LOTS_MOST).contains(&lots) {
            return Err(2);
        }
        let product = self.product_of[series] as usize;
        if let Some(second) = second {
            if second == series || self.product_of[second] as usize != product {
                return Err(5);
            }
        }
        let account = &self.account[a];
        if (account.net[series] + lots).abs() > LOTS_MOST {
            return Err(6);
        }
        if let Some(second) = second {
            if (account.net[second] - lots).abs() > LOTS_MOST {
                return Err(6);
            }
        }
        if account.orders[product].number != 0 {
            return Err(7);
        }
        if self.used == NUMBER_MOST {
            return Err(8);
        }
        let order = Order {
            number: self.used as u16 + 1,
            sent: false,
            series: series as u8,
            second: second.map(|second| second as u8),
            lots: lots as i16,
        };
        let rise = self.rise(account, &order);
        if account.call.is_some() && rise >= 0 {
            return Err(9);
        }
        if rise > 0 && rise as i128 > self.free(account) {
            return Err(10);
        }
        self.account[a].orders[product] = order;
        self.used += 1;
        self.open += 1;
        self.place[self.used] = (a as u8, product as u8);
        Ok(self.used)
    }

    /// The account and product of the open order of this number, if it is sent or held as asked.
    fn find(&self, number: u64, sent: bool) -> Result<(usize, usize), Refusal> {
        if number == 0 || number > self.used as u64 {
            return Err(12);
        }
        let (account, product) = self.place[number as usize];
        let (account, product) = (account as usize, product as usize);
        let order = &self.account[account].orders[product];
        if order.number as u64 == number && order.sent == sent { Ok((account, product)) } else { Err(12) }
    }

    fn send(&mut self, number: u64) -> Result<(), Refusal> {
        let (account, product) = self.find(number, false)?;
        self.account[account].orders[product].sent = true;
        Ok(())
    }

    /// Drop ends a held order, Cancel a sent one.
    fn end(&mut self, number: u64, sent: bool) -> Result<(), Refusal> {
        let (account, product) = self.find(number, sent)?;
        self.account[account].orders[product].number = 0;
        self.open -= 1;
        Ok(())
    }

    fn fill(&mut self, number: u64, price: u64, second_price: Option<u64>) -> Result<(), Refusal> {
        let (a, product) = self.find(number, true)?;
        let order = self.account[a].orders[product];
        if order.second.is_some() != second_price.is_some() {
            return Err(13);
        }
        if !price_in_range(price) || !second_price.map_or(true, price_in_range) {
            return Err(2);
        }
        let released = -self.rise(&self.account[a], &order);
        let account = &mut self.account[a];
        let lots = order.lots as i64;
        let s = order.series as usize;
        account.net[s] += lots;
        account.carry[s] += lots * price as i64;
        if let (Some(second), Some(price)) = (order.second, second_price) {
            let s = second as usize;
            account.net[s] -= lots;
            account.carry[s] -= lots * price as i64;
        }
        account.credit(released.max(0));
        account.orders[product].number = 0;
        self.open -= 1;
        Ok(())
    }

    /// `count` prices were given; the first ones are in `prices`.
    fn closing(&mut self, prices: &[u64; SERIES], count: usize) -> Result<(), Refusal> {
        if self.open > 0 {
            return Err(7);
        }
        if count != self.series {
            return Err(13);
        }
        let mut settled = [0; SERIES];
        for s in 0..count {
            if !price_in_range(prices[s]) {
                return Err(2);
            }
            settled[s] = prices[s] as i64;
        }
        let mut equity = [0; ACCOUNTS];
        for a in 0..self.accounts {
            let eb = self.equity(&self.account[a], &settled);
            if eb.abs() > CASH_MOST as i128 {
                return Err(11);
            }
            equity[a] = eb as i64;
        }
        for a in 0..self.accounts {
            let eb = equity[a];
            let required = self.required(&self.account[a].net);
            let account = &mut self.account[a];
            account.cash = eb;
            for s in 0..count {
                account.carry[s] = account.net[s] * settled[s];
            }
            match &mut account.call {
                None => {
                    if eb < required.maintenance {
                        account.call = Some(MarginCall {
                            amount: required.initial - eb,
                            credit: 0,
                            age: 0,
                            low: eb < required.force,
                        });
                    }
                }
                Some(call) => call.low |= eb < required.force,
            }
        }
        self.settled = settled;
        self.mark = settled;
        self.trading = false;
        Ok(())
    }

    fn figures(&self, account: u64) -> Result<Figures, Refusal> {
        let account = &self.account[self.known_account(account)?];
        let eb = self.equity(account, &self.mark);
        let required = self.required(&account.net);
        let free = eb - (required.initial + self.needs(account)) as i128;
        Ok(Figures { eb, required, free, call: account.call })
    }
}

// Reading.

/// The words of a line, up to a `#`.
struct Words<'a> {
    rest: &'a [u8],
}

impl<'a> Words<'a> {
    fn new(line: &'a [u8]) -> Words<'a> {
        Words { rest: line }
    }

    fn next(&mut self) -> Option<&'a [u8]> {
        let line = self.rest;
        let mut start = 0;
        while start < line.len() && line[start].is_ascii_whitespace() {
            start += 1;
        }
        let mut end = start;
        while end < line.len() && !line[end].is_ascii_whitespace() && line[end] != b'#' {
            end += 1;
        }
        self.rest = &line[end..];
        if end > start { Some(&line[start..end]) } else { None }
    }

    fn number(&mut self) -> Option<u64> {
        unsigned(self.next()?)
    }

    fn lots(&mut self) -> Option<i64> {
        signed(self.next()?)
    }

    /// A number, or `-` for none.
    fn optional(&mut self) -> Option<Option<u64>> {
        match self.next()? {
            b"-" => Some(None),
            word => Some(Some(unsigned(word)?)),
        }
    }

    fn end(&mut self) -> Option<()> {
        if self.next().is_none() { Some(()) } else { None }
    }
}

fn unsigned(word: &[u8]) -> Option<u64> {
    let mut value = 0u64;
    if word.is_empty() {
        return None;
    }
    for byte in word {
        let digit = byte.wrapping_sub(b'0');
        if digit > 9 {
            return None;
        }
        value = value.checked_mul(10)?.checked_add(digit as u64)?;
    }
    Some(value)
}

fn signed(word: &[u8]) -> Option<i64> {
    match word.strip_prefix(b"-") {
        None => i64::try_from(unsigned(word)?).ok(),
        Some(digits) => 0i64.checked_sub_unsigned(unsigned(digits)?),
    }
}

fn done(result: Result<(), Refusal>) -> Answer {
    match result {
        Ok(()) => Answer::Done,
        Err(number) => Answer::Refused(number),
    }
}

fn numbered(result: Result<usize, Refusal>) -> Answer {
    match result {
        Ok(number) => Answer::Number(number),
        Err(number) => Answer::Refused(number),
    }
}

/// Runs a call: `name` is its first word and `words` are the others. None if the line is unreadable.
fn run(house: &mut Option<Box<House>>, name: &[u8], words: &mut Words) -> Option<Answer> {
    let Some(house) = house else {
        if name != b"house" {
            return None;
        }
        u32::try_from(words.number()?).ok()?;
        let rule = match words.next()? {
            b"gross" => Rule::Gross,
            b"larger" => Rule::Larger,
            b"pairs" => Rule::Pairs,
            _ => return None,
        };
        words.end()?;
        *house = Some(Box::new(House::new(rule)));
        return Some(Answer::Done);
    };
    // Once the words are read: is the call there in this state?
    macro_rules! only {
        (trading) => {
            words.end()?;
            if !house.trading {
                return Some(Answer::NotNow);
            }
        };
        (closed) => {
            words.end()?;
            if house.trading {
                return Some(Answer::NotNow);
            }
        };
    }
    Some(match name {
        b"print" => {
            let (series, price) = (words.number()?, words.number()?);
            only!(trading);
            done(house.print(series, price))
        }
        b"figures" => {
            let account = words.number()?;
            words.end()?;
            match house.figures(account) {
                Ok(figures) => Answer::Figures(figures),
                Err(number) => Answer::Refused(number),
            }
        }
        b"check" => {
            let (account, series) = (words.number()?, words.number()?);
            let (lots, second) = (words.lots()?, words.optional()?);
            only!(trading);
            numbered(house.check(account, series, lots, second))
        }
        b"send" => {
            let order = words.number()?;
            only!(trading);
            done(house.send(order))
        }
        b"fill" => {
            let (order, price, second) = (words.number()?, words.number()?, words.optional()?);
            only!(trading);
            done(house.fill(order, price, second))
        }
        b"drop" => {
            let order = words.number()?;
            only!(trading);
            done(house.end(order, false))
        }
        b"cancel" => {
            let order = words.number()?;
            only!(trading);
            done(house.end(order, true))
        }
        b"deposit" => {
            let (account, amount) = (words.number()?, words.number()?);
            only!(trading);
            done(house.deposit(account, amount))
        }
        b"withdraw" => {
            let (account, amount) = (words.number()?, words.number()?);
            only!(trading);
            done(house.withdraw(account, amount))
        }
        b"clock" => {
            let minute = words.number()?;
            only!(trading);
            done(house.clock(minute))
        }
        b"closing" => {
            let mut prices = [0; SERIES];
            let mut count = 0;
            while let Some(word) = words.next() {
                let price = unsigned(word)?;
                if count < SERIES {
                    prices[count] = price;
                }
                count += 1;
            }
            only!(trading);
            done(house.closing(&prices, count))
        }
        b"product" => {
            let (outright, spread) = (words.number()?, words.number()?);
            only!(closed);
            numbered(house.enter_product(outright, spread))
        }
        b"rates" => {
            let (product, outright, spread) = (words.number()?, words.number()?, words.number()?);
            only!(closed);
            done(house.rates(product, outright, spread))
        }
        b"series" => {
            let (product, multiplier, price) = (words.number()?, words.number()?, words.number()?);
            only!(closed);
            numbered(house.enter_series(product, multiplier, price))
        }
        b"account" => {
            only!(closed);
            numbered(house.enter_account())
        }
        b"opening" => {
            only!(closed);
            house.opening();
            Answer::Done
        }
        _ => return None,
    })
}

// Writing.

fn put(out: &mut impl Write, answer: &Option<Answer>) -> io::Result<()> {
    match answer {
        None => writeln!(out, "unreadable"),
        Some(Answer::NotNow) => writeln!(out, "not now"),
        Some(Answer::Done) => writeln!(out, "ok"),
        Some(Answer::Number(number)) => writeln!(out, "ok {number}"),
        Some(Answer::Refused(number)) => writeln!(out, "refused {number}"),
        Some(Answer::Figures(Figures { eb, required, free, call })) => {
            let Levels { initial, maintenance, force } = required;
            write!(out, "ok {eb} {initial} {maintenance} {force} {free} ")?;
            match call {
                None => writeln!(out, "-"),
                Some(MarginCall { amount, credit, age, low }) => {
                    writeln!(out, "{amount} {credit} {age} {}", if *low { "low" } else { "high" })
                }
            }
        }
    }
}

fn run_script(input: &mut impl BufRead, out: &mut impl Write) -> io::Result<()> {
    let mut house = None;
    let mut line = Vec::new();
    while input.read_until(b'\n', &mut line)? > 0 {
        let mut words = Words::new(&line);
        if let Some(name) = words.next() {
            put(out, &run(&mut house, name, &mut words))?;
        }
        line.clear();
    }
    out.flush()
}

fn main() -> ExitCode {
    let mut output = BufWriter::new(io::stdout().lock());
    let result = match std::env::args_os().nth(1) {
        None => run_script(&mut BufReader::new(io::stdin().lock()), &mut output),
        Some(name) => File::open(name).and_then(|file| run_script(&mut BufReader::new(file), &mut output)),
    };
    match result {
        Ok(()) => ExitCode::SUCCESS,
        Err(error) => {
            eprintln!("engine: {error}");
            ExitCode::FAILURE
        }
    }
}
