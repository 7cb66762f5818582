//! Makers of game files for comparison and benchmark. The same seed always makes the same file.

use crate::plain::{Game, Record, LONGEST_FILE};

/// A small generator of pseudo-random numbers (splitmix64).
#[derive(Clone)]
pub struct Dice(u64);

impl Dice {
    pub fn new(seed: u64) -> Dice {
        Dice(seed ^ 0x5bd1_e995_1234_5678)
    }

    fn next(&mut self) -> u64 {
        self.0 = self.0.wrapping_add(0x9e37_79b9_7f4a_7c15);
        let mut mixed = self.0;
        mixed = (mixed ^ (mixed >> 30)).wrapping_mul(0xbf58_476d_1ce4_e5b9);
        mixed = (mixed ^ (mixed >> 27)).wrapping_mul(0x94d0_49bb_1331_11eb);
        mixed ^ (mixed >> 31)
    }

    /// A number from 0 to one below the limit, which is above 0.
    fn below(&mut self, limit: usize) -> usize {
        (self.next() % limit as u64) as usize
    }

    fn byte(&mut self) -> u8 {
        self.next() as u8
    }

    fn byte_below(&mut self, limit: u8) -> u8 {
        (self.next() % u64::from(limit)) as u8
    }

    fn chance(&mut self, percent: usize) -> bool {
        self.below(100) < percent
    }

    fn pick<T: Copy>(&mut self, choices: &[T]) -> T {
        choices[self.below(choices.len())]
    }
}

/// The writing of one record.
#[derive(Clone, Copy)]
struct Writing {
    bytes: [u8; 5],
    length: usize,
}

impl Writing {
    fn bytes(&self) -> &[u8] {
        &self.bytes[..self.length]
    }

    fn record(&self) -> Record {
        Record::read(self.bytes()).expect("a whole record").0
    }
}

fn written(record: &[u8]) -> Writing {
    let mut bytes = [0; 5];
    bytes[..record.len()].copy_from_slice(record);
    Writing { bytes, length: record.len() }
}

fn written_sum(front: &[u8], sum: u16) -> Writing {
    let mut bytes = [0; 5];
    let length = front.len() + 2;
    bytes[..front.len()].copy_from_slice(front);
    bytes[front.len()..length].copy_from_slice(&sum.to_be_bytes());
    Writing { bytes, length }
}

/// How the players of a made game behave.
#[derive(Clone, Copy)]
struct Manners {
    /// Trading turns in a stock round are at most so many times the players.
    trading: usize,
    /// In percent: a try to sell, to buy, to bill, to pay all, to buy a further train.
    sell: usize,
    buy: usize,
    bill: usize,
    pay_all: usize,
    train: usize,
    /// In percent: a try of any record at all, between the others.
    wild: usize,
    /// Companies that are traded, from 1 on.
    companies: u8,
    /// Revenue in tens, at most.
    revenue: usize,
    /// Whether dividends are kept small where the bank has to last.
    thrifty: bool,
}

impl Manners {
    /// Games that last: small payouts, many bills.
    const LASTING: Manners = Manners {
        trading: 4,
        sell: 40,
        buy: 80,
        bill: 70,
        pay_all: 45,
        train: 25,
        wild: 0,
        companies: 8,
        revenue: 30,
        thrifty: true,
    };

    fn random(dice: &mut Dice) -> Manners {
        Manners {
            trading: dice.pick(&[0, 1, 2, 4, 8]),
            sell: dice.below(90),
            buy: 30 + dice.below(70),
            bill: dice.below(80),
            pay_all: dice.below(101),
            train: dice.below(80),
            wild: dice.pick(&[0, 0, 5, 40]),
            companies: 1 + dice.byte_below(8),
            revenue: dice.pick(&[0, 10, 60, 200, 999]),
            thrifty: dice.chance(50),
        }
    }

    /// The same manners, but likelier to lead to this refusal.
    fn towards(self, number: u8) -> Manners {
        let eager = Manners { trading: 8, sell: 5, buy: 100, ..self };
        match number {
            32 => Manners { pay_all: 90, train: 80, companies: 8, revenue: 60, thrifty: false, ..eager },
            33 => Manners { sell: 45, companies: 2, ..eager },
            34 => Manners { pay_all: 90, companies: self.companies.max(4), revenue: 999, thrifty: false, ..self },
            _ => self,
        }
    }
}

/// A game that is being played, and the file of its granted records.
#[derive(Clone)]
struct Maker {
    dice: Dice,
    manners: Manners,
    game: Game,
    file: Vec<u8>,
    limit: usize,
    trading_turns: usize,
}

impl Maker {
    fn open(dice: Dice, manners: Manners, book: u8, players: u8, limit: usize) -> Maker {
        let game = Game::open(book, players).expect("a lawful opening");
        let file = vec![1, book, players];
        Maker { dice, manners, game, file, limit, trading_turns: usize::from(players) * 3 }
    }

    /// Plays the record and keeps it if it fits and is granted.
    fn attempt(&mut self, writing: Writing) -> bool {
        let fits = self.file.len() + writing.length <= self.limit;
        let granted = fits && self.game.play(writing.record()).is_ok();
        if granted {
            self.file.extend_from_slice(writing.bytes());
        }
        granted
    }

    /// Plays on by a turn or a part of one. False if nothing more fits or can be played.
    fn step(&mut self) -> bool {
        let before = self.file.len();
        if self.dice.chance(self.manners.wild) {
            let writing = wild_record(&mut self.dice, &self.game);
            self.attempt(writing);
        }
        if !self.game.in_stock_round() {
            self.operate();
        } else if !self.game.stock_round_is_over() {
            self.take_turn();
        } else if self.attempt(written(&[5])) {
            self.trading_turns = 0;
        }
        self.file.len() > before
    }

    fn take_turn(&mut self) {
        let seat = self.game.seat_on_turn();
        if self.trading_turns > 0 {
            self.trading_turns -= 1;
            while self.dice.chance(self.manners.sell) {
                let company = 1 + self.dice.byte_below(self.manners.companies);
                let tenths = self.dice.pick(&[1, 1, 1, 2, 2, 3, 4]);
                self.attempt(written(&[2, seat, company, tenths]));
            }
            if self.dice.chance(self.manners.buy) {
                self.try_purchases(seat);
            }
        }
        self.attempt(written(&[4, seat]));
    }

    fn try_purchases(&mut self, seat: u8) {
        for _ in 0..4 {
            let company = 1 + self.dice.byte_below(self.manners.companies);
            let (source, space) = (self.dice.byte_below(2), 3 + self.dice.byte_below(6));
            if self.attempt(written(&[3, seat, company, source, space])) {
                return;
            }
        }
    }

    fn operate(&mut self) {
        match self.game.company_on_turn() {
            None => self.reopen(),
            Some(company) if self.game.has_paid_out() => self.finish(company),
            Some(company) => self.run(company),
        }
    }

    fn reopen(&mut self) {
        if self.attempt(written(&[10])) {
            let most = self.manners.trading * usize::from(self.game.players());
            self.trading_turns = self.dice.below(most + 1);
        }
    }

    fn run(&mut self, company: u8) {
        if self.dice.chance(self.manners.bill) {
            self.bill(company);
        }
        let mode = u8::from(self.dice.chance(self.manners.pay_all));
        let most = if mode == 1 && self.must_spare() { 1 } else { self.manners.revenue };
        let mut tens = if most == 1 { 1 } else { self.dice.below(most + 1) };
        while !self.attempt(written_sum(&[7, company, mode], 10 * tens as u16)) && tens > 0 {
            tens /= 4;
        }
    }

    /// Any bill that can be paid, or one that leaves just enough for a train.
    fn bill(&mut self, company: u8) {
        let cash = self.game.cash_on_turn().unwrap_or(0).clamp(1, 1_000);
        let amount = match self.game.spare_on_turn() {
            Some(spare) if spare > 0 && spare <= cash && self.dice.chance(30) => spare,
            _ => 1 + self.dice.below(cash as usize) as i32,
        };
        self.attempt(written_sum(&[6, company], amount as u16));
    }

    /// Whether dividends have to be small, for the bank to last as long as the file.
    fn must_spare(&self) -> bool {
        let spent = 18_000 * self.file.len() / self.limit;
        self.manners.thrifty && self.game.bank() < 2_000 - spent as i32
    }

    fn finish(&mut self, company: u8) {
        let kind = self.game.lowest_train().unwrap_or(0) as u8;
        if self.dice.chance(self.manners.train) {
            self.attempt(written(&[8, company, kind]));
        }
        if !self.attempt(written(&[9, company])) {
            self.attempt(written(&[8, company, kind]));
        }
    }

    /// Plays on until some record is refused with this number, and adds that record.
    fn hunt(&mut self, number: u8) {
        for _ in 0..300 {
            for _ in 0..12 {
                let writing = wild_record(&mut self.dice, &self.game);
                let answer = self.game.clone().play(writing.record());
                if answer.err().is_some_and(|refusal| refusal.number() == number) {
                    self.file.extend_from_slice(writing.bytes());
                    return;
                }
            }
            if !self.step() {
                return;
            }
        }
    }

    /// Adds any records until one is refused.
    fn blunder(&mut self) {
        loop {
            let writing = wild_record(&mut self.dice, &self.game);
            self.file.extend_from_slice(writing.bytes());
            if self.game.play(writing.record()).is_err() {
                return;
            }
        }
    }
}

/// Any record, often near what the game would grant.
fn wild_record(dice: &mut Dice, game: &Game) -> Writing {
    let stock = if dice.chance(96) { game.in_stock_round() } else { dice.chance(50) };
    let seat = if dice.chance(90) { game.seat_on_turn() } else { dice.byte_below(9) };
    let turn = game.company_on_turn().unwrap_or(1);
    let company = if dice.chance(90) && !stock { turn } else { dice.byte_below(10) };
    let small = dice.byte_below(8);
    match (stock, dice.below(12)) {
        (_, 0) if dice.chance(10) => written(&[1, dice.byte_below(4), dice.byte_below(9)]),
        (true, 0..=3) => written(&[2, seat, company, small]),
        (true, 4..=8) => {
            let space = if dice.chance(80) { 2 + small } else { dice.byte() };
            let source = if dice.chance(96) { dice.byte_below(2) } else { dice.byte() };
            written(&[3, seat, company, source, space])
        }
        (true, 9..=10) => written(&[4, seat]),
        (true, _) => written(&[5]),
        (false, 0..=2) => written_sum(&[6, company], wild_sum(dice)),
        (false, 3..=5) => written_sum(&[7, company, small / 3], wild_sum(dice)),
        (false, 6..=7) => {
            let kind = if dice.chance(80) { game.lowest_train().unwrap_or(0) as u8 } else { small };
            written(&[8, company, kind])
        }
        (false, 8..=10) => written(&[9, company]),
        (false, _) => written(&[10]),
    }
}

fn wild_sum(dice: &mut Dice) -> u16 {
    match dice.below(8) {
        0 => dice.pick(&[0, 1, 9, 10, 999, 1_000, 1_001, 9_980, 9_990, 9_991, 10_000, 65_530, 65_535]),
        1 => dice.next() as u16,
        2 => dice.below(1_100) as u16,
        _ => 10 * dice.below(1_000) as u16,
    }
}

/// A game of this many bytes, or as near below as its records fit, all of them granted.
pub fn long_game(len: usize, book: u8) -> Vec<u8> {
    let dice = Dice::new(len as u64 + u64::from(book));
    let mut maker = Maker::open(dice, Manners::LASTING, book, 4, len);
    while maker.file.len() + 300 < len && maker.step() {}
    let mut best = maker.file.clone();
    for seed in 0..1_000 {
        let mut ending = maker.clone();
        ending.dice = Dice::new(seed);
        while ending.step() {}
        if ending.file.len() > best.len() {
            best = ending.file;
        }
        if best.len() == len {
            break;
        }
    }
    best
}

/// Refusals that need a position of their own; a made game may be led to one of them.
const SOUGHT: [u8; 29] =
    [3, 3, 22, 24, 25, 26, 27, 28, 29, 30, 31, 32, 32, 33, 34, 34, 34, 35, 36, 40, 41, 42, 43, 44, 45, 46, 47, 48, 49];

/// A game of granted records, in most cases with refused ones at its end.
pub fn random_game(seed: u64) -> Vec<u8> {
    let mut dice = Dice::new(seed);
    let book = 1 + dice.byte_below(2);
    let players = book + 1 + dice.byte_below(6 - book);
    let length = match dice.below(10) {
        0..=3 => dice.below(200),
        4..=8 => dice.below(2_500),
        _ => dice.below(12_000),
    };
    let sought = dice.pick(&SOUGHT);
    let manners = Manners::random(&mut dice).towards(sought);
    let mut maker = Maker::open(dice, manners, book, players, LONGEST_FILE - 2_000);
    while maker.file.len() < length && maker.step() {}
    match maker.dice.below(5) {
        0 => {}
        1 => maker.blunder(),
        _ => maker.hunt(sought),
    }
    for _ in 0..maker.dice.pick(&[0, 0, 1, 3]) {
        let writing = wild_record(&mut maker.dice, &maker.game);
        maker.file.extend_from_slice(writing.bytes());
    }
    maker.file
}

/// The file with some bytes changed, cut, put in or doubled.
pub fn damaged(seed: u64, file: &[u8]) -> Vec<u8> {
    let mut dice = Dice::new(seed);
    let mut bytes = file.to_vec();
    for _ in 0..1 + dice.below(3) {
        let place = dice.below(bytes.len() + 1);
        let end = (place + 1 + dice.below(6)).min(bytes.len());
        match dice.below(7) {
            0 if place < bytes.len() => bytes[place] ^= 1 << dice.below(8),
            1 if place < bytes.len() => bytes[place] = dice.byte(),
            2 if place < bytes.len() => bytes[place] = dice.byte_below(12),
            3 => bytes.truncate(place),
            4 => bytes.insert(place, dice.byte_below(12)),
            5 => drop(bytes.drain(place..end)),
            _ => {
                let doubled = bytes[place..end].to_vec();
                drop(bytes.splice(place..place, doubled));
            }
        }
    }
    bytes
}

/// Bytes without any plan, half of the time after a lawful open.
pub fn random_bytes(seed: u64) -> Vec<u8> {
    let mut dice = Dice::new(seed);
    let length = dice.pick(&[1, 3, 10, 40, 400]);
    let limit = dice.pick(&[5, 11, 12, 255]);
    let mut bytes = if dice.chance(50) { vec![1, 1 + dice.byte_below(2), 3] } else { Vec::new() };
    bytes.extend((0..length).map(|_| dice.byte_below(limit)));
    bytes
}

/// A file for the comparison: most are games, the others damaged games or mere bytes.
pub fn test_file(seed: u64) -> Vec<u8> {
    match seed % 16 {
        0..=10 => random_game(seed),
        11..=14 => damaged(seed, &random_game(seed)),
        _ => random_bytes(seed),
    }
}

/// A game that only passes, up to the close that round 9,999 refuses.
fn passed_to_the_end(book: u8, players: u8) -> Vec<u8> {
    let mut file = vec![1, book, players];
    let mut game = Game::open(book, players).expect("a lawful opening");
    loop {
        let writing = match (game.in_stock_round(), game.stock_round_is_over()) {
            (false, _) => written(&[10]),
            (true, false) => written(&[4, game.seat_on_turn()]),
            (true, true) => written(&[5]),
        };
        file.extend_from_slice(writing.bytes());
        if game.play(writing.record()).is_err() {
            return file;
        }
    }
}

/// Files at the edges of what a file can be.
pub fn edge_files() -> Vec<Vec<u8>> {
    let mut files = vec![Vec::new(), vec![1], vec![1, 1, 3], vec![1, 2, 2], vec![1, 3, 7]];
    for kind in 0..=255 {
        files.push(vec![kind]);
        files.push(vec![1, 1, 3, kind]);
    }
    for length in [LONGEST_FILE - 1, LONGEST_FILE, LONGEST_FILE + 1] {
        files.push(vec![5; length]);
        for book in [1, 2] {
            let mut file = long_game(length.min(LONGEST_FILE), book);
            file.resize(length, 5);
            files.push(file);
        }
    }
    for (book, players) in [(1, 2), (1, 3), (2, 3)] {
        let mut file = passed_to_the_end(book, players);
        files.push(file.clone());
        file.pop();
        files.push(file);
    }
    files
}
