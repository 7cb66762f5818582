//! A plain bank console for 18xx games: it replays a game file and prints the statement.
//! Written from the rules in docs/ alone, as the other side of comparison and benchmark.

use std::io::Write;
use std::ops::RangeInclusive;

pub const LONGEST_FILE: usize = 65_536;

const MOST_PLAYERS: usize = 6;
const COMPANIES: usize = 8;
const SPACES: usize = 16;
const TRAIN_KINDS: usize = 5;
const LAST_ROUND: u16 = 9_999;
const BANK_FLOOR: i32 = -20_000;

const FLOAT_TENTHS: i32 = 5;
const SHARE_LIMIT: i32 = 6;
const POOL_LIMIT: i32 = 5;
const PRICES: [i32; SPACES] = [40, 50, 60, 67, 71, 76, 82, 90, 100, 112, 126, 142, 160, 180, 200, 225];
const PAR_SPACES: RangeInclusive<u8> = 3..=8;
const TRAIN_PRICES: [i32; TRAIN_KINDS] = [80, 180, 300, 450, 630];
const TRAIN_COUNTS: [u8; TRAIN_KINDS] = [7, 4, 3, 3, 2];

/// Why a record is not granted.
#[derive(Clone, Copy, Debug, PartialEq, Eq)]
#[repr(u8)]
pub enum Refusal {
    CannotGive = 3,
    NoOpeningCash = 10,
    NoSuchSeat = 21,
    NotOnTurn = 22,
    NoSuchCompany = 23,
    AlreadyBought = 24,
    TenthsNotHeld = 25,
    PoolLimit = 26,
    DirectorNeeded = 27,
    SoldThisRound = 28,
    NoSuchSource = 29,
    SourceEmpty = 30,
    NoParSpace = 31,
    CertificateLimit = 32,
    ShareLimit = 33,
    BankFloor = 34,
    RoundOver = 35,
    RoundNotOver = 36,
    LastRound = 37,
    CompanyNotOnTurn = 40,
    AlreadyPaidOut = 41,
    AmountOutOfRange = 42,
    RevenueOutOfRange = 43,
    NoSuchMode = 44,
    NoTrain = 45,
    NotLowestKind = 46,
    NotPaidOut = 47,
    TrainOwed = 48,
    CompanyOnTurn = 49,
    UnknownKind = 50,
    CutBody = 51,
    OpenMisplaced = 52,
    OtherRound = 53,
    FileTooLong = 54,
    UnknownBook = 55,
}

impl Refusal {
    pub fn number(self) -> u8 {
        self as u8
    }
}

/// A refusal and the place of the record that met it.
#[derive(Clone, Copy, Debug, PartialEq, Eq)]
pub struct Fault {
    pub refusal: Refusal,
    pub place: usize,
}

fn refuse_if(condition: bool, refusal: Refusal) -> Result<(), Refusal> {
    if condition {
        Err(refusal)
    } else {
        Ok(())
    }
}

// ---------------------------------------------------------------- records

/// One record of a game file, as it stands there.
#[derive(Clone, Copy, Debug, PartialEq, Eq)]
pub enum Record {
    Open { book: u8, players: u8 },
    Sell { seat: u8, company: u8, tenths: u8 },
    Buy { seat: u8, company: u8, source: u8, par_space: u8 },
    End { seat: u8 },
    Close,
    Bill { company: u8, amount: u16 },
    Payout { company: u8, mode: u8, revenue: u16 },
    Train { company: u8, kind: u8 },
    Done { company: u8 },
    Reopen,
}

impl Record {
    /// The record at the front of the bytes, and the bytes after it.
    #[inline(always)]
    pub fn read(bytes: &[u8]) -> Result<(Record, &[u8]), Refusal> {
        Ok(match *bytes {
            [1, book, players, ref rest @ ..] => (Record::Open { book, players }, rest),
            [2, seat, company, tenths, ref rest @ ..] => (Record::Sell { seat, company, tenths }, rest),
            [3, seat, company, source, par_space, ref rest @ ..] => {
                (Record::Buy { seat, company, source, par_space }, rest)
            }
            [4, seat, ref rest @ ..] => (Record::End { seat }, rest),
            [5, ref rest @ ..] => (Record::Close, rest),
            [6, company, high, low, ref rest @ ..] => {
                (Record::Bill { company, amount: u16::from_be_bytes([high, low]) }, rest)
            }
            [7, company, mode, high, low, ref rest @ ..] => {
                (Record::Payout { company, mode, revenue: u16::from_be_bytes([high, low]) }, rest)
            }
            [8, company, kind, ref rest @ ..] => (Record::Train { company, kind }, rest),
            [9, company, ref rest @ ..] => (Record::Done { company }, rest),
            [10, ref rest @ ..] => (Record::Reopen, rest),
            [] | [1..=10, ..] => return Err(Refusal::CutBody),
            _ => return Err(Refusal::UnknownKind),
        })
    }

    fn is_of_stock_round(self) -> bool {
        matches!(self, Record::Sell { .. } | Record::Buy { .. } | Record::End { .. } | Record::Close)
    }
}

// ------------------------------------------------------------- rule books

#[derive(Clone, Copy, Debug, PartialEq, Eq)]
enum Funding {
    Full,
    Sold,
}

#[derive(Clone, Copy, Debug, PartialEq, Eq)]
enum SaleStep {
    EachTenth,
    Once,
}

/// The figures in which the printed books differ. Lists by players start at two.
#[derive(Debug)]
struct Book {
    bank_total: i32,
    opening_cash: [Option<i32>; MOST_PLAYERS - 1],
    funding: Funding,
    sale_step: SaleStep,
}

const CERTIFICATE_LIMITS: [u32; MOST_PLAYERS - 1] = [28, 20, 16, 13, 11];

static NORTH: Book = Book {
    bank_total: 9_000,
    opening_cash: [Some(1_200), Some(800), Some(600), Some(480), Some(400)],
    funding: Funding::Full,
    sale_step: SaleStep::EachTenth,
};

static BERG: Book = Book {
    bank_total: 10_000,
    opening_cash: [None, Some(600), Some(450), Some(360), Some(300)],
    funding: Funding::Sold,
    sale_step: SaleStep::Once,
};

impl Book {
    fn numbered(number: u8) -> Result<&'static Book, Refusal> {
        match number {
            1 => Ok(&NORTH),
            2 => Ok(&BERG),
            _ => Err(Refusal::UnknownBook),
        }
    }

    fn opening_cash(&self, players: u8) -> Result<i32, Refusal> {
        usize::from(players)
            .checked_sub(2)
            .and_then(|index| self.opening_cash.get(index).copied().flatten())
            .ok_or(Refusal::NoOpeningCash)
    }

    fn space_after_sale(&self, space: usize, tenths: u8) -> usize {
        match self.sale_step {
            SaleStep::EachTenth => space.saturating_sub(usize::from(tenths)),
            SaleStep::Once => space.saturating_sub(1),
        }
    }
}

fn space_after_payout(space: usize, mode: u8, revenue: u16) -> usize {
    if mode == 1 && revenue > 0 {
        (space + 1).min(SPACES - 1)
    } else {
        space.saturating_sub(1)
    }
}

/// Marks for each tenth, and marks that the company keeps.
fn split(mode: u8, revenue: u16) -> Result<(i32, i32), Refusal> {
    match mode {
        0 => Ok((0, i32::from(revenue))),
        1 => Ok((i32::from(revenue / 10), 0)),
        _ => Err(Refusal::NoSuchMode),
    }
}

// ---------------------------------------------------------- certificates

/// A set of certificates of one company; bit 0 is the director's.
#[derive(Clone, Copy, Debug, PartialEq, Eq)]
struct Papers(u16);

impl Papers {
    const NONE: Papers = Papers(0);
    const DIRECTOR: Papers = Papers(1);
    const ALL: Papers = Papers(0x1ff);

    fn count(self) -> u32 {
        self.0.count_ones()
    }

    fn tenths(self) -> i32 {
        (self.count() + u32::from(self.0 & 1)) as i32
    }

    fn has_director(self) -> bool {
        self.0 & 1 == 1
    }

    fn without_director(self) -> Papers {
        Papers(self.0 & !1)
    }

    /// The lowest so many certificates, or all if there are fewer.
    fn lowest(self, how_many: u8) -> Papers {
        let mut rest = self.0;
        for _ in 0..how_many {
            rest &= rest.wrapping_sub(1);
        }
        Papers(self.0 & !rest)
    }
}

const OFFERING: usize = 0;
const POOL: usize = 1;

/// The place of a seat (from 0) in a company's papers.
fn paper_place(seat: usize) -> usize {
    seat + 2
}

#[derive(Clone, Debug)]
struct Company {
    papers: [Papers; MOST_PLAYERS + 2],
    space: usize,
    par: i32,
    floated: bool,
    had_turn: bool,
    sold_by: [bool; MOST_PLAYERS],
    trains: [u8; TRAIN_KINDS],
}

impl Company {
    const UNSOLD: [Papers; MOST_PLAYERS + 2] = {
        let mut papers = [Papers::NONE; MOST_PLAYERS + 2];
        papers[OFFERING] = Papers::ALL;
        papers
    };

    const UNOPENED: Company = Company {
        papers: Company::UNSOLD,
        space: 0,
        par: 0,
        floated: false,
        had_turn: false,
        sold_by: [false; MOST_PLAYERS],
        trains: [0; TRAIN_KINDS],
    };

    fn price(&self) -> i32 {
        PRICES[self.space]
    }

    fn tenths(&self, place: usize) -> i32 {
        self.papers[place].tenths()
    }

    fn tenths_gone(&self) -> i32 {
        10 - self.tenths(OFFERING)
    }

    fn director(&self) -> Option<usize> {
        self.papers[paper_place(0)..].iter().position(|hand| hand.has_director())
    }

    fn has_train(&self) -> bool {
        self.trains.iter().any(|&count| count > 0)
    }

    /// The seat after this one that has the most tenths, the nearest among equals.
    fn strongest_other(&self, seat: usize, players: usize) -> (usize, i32) {
        let mut best = (seat, -1);
        for other in (seat + 1..players).chain(0..seat) {
            let tenths = self.tenths(paper_place(other));
            if tenths > best.1 {
                best = (other, tenths);
            }
        }
        best
    }

    fn carry(&mut self, giver: usize, receiver: usize, load: Papers) {
        self.papers[giver].0 &= !load.0;
        self.papers[receiver].0 |= load.0;
    }

    /// Two certificates of the new director for the old one's certificate 0.
    fn exchange(&mut self, old: usize, new: usize) {
        let (old, new) = (paper_place(old), paper_place(new));
        self.carry(new, old, self.papers[new].lowest(2));
        self.carry(old, new, Papers::DIRECTOR);
    }
}

// ------------------------------------------------------------------ game

const BANK: usize = 0;

/// The place of a seat (from 0) among the purses.
fn seat_purse(seat: usize) -> usize {
    1 + seat
}

/// The place of a company (from 0) among the purses.
fn company_purse(company: usize) -> usize {
    1 + MOST_PLAYERS + company
}

/// The stock round; seats count from 0 here.
#[derive(Clone, Debug, Default)]
struct Stock {
    first: usize,
    on_turn: usize,
    passes: usize,
    bought: bool,
    acted: bool,
    last_actor: Option<usize>,
}

#[derive(Clone, Debug, Default)]
struct Operating {
    on_turn: Option<usize>,
    paid_out: bool,
}

/// The books of one game. Seats and companies count from 0 inside.
#[derive(Clone, Debug)]
pub struct Game {
    book: &'static Book,
    players: usize,
    purses: [i32; 1 + MOST_PLAYERS + COMPANIES],
    companies: [Company; COMPANIES],
    stack: [u8; TRAIN_KINDS],
    round: u16,
    stock: Stock,
    operating: Operating,
}

/// A purchase that is granted: all that has to move.
struct Purchase {
    seat: usize,
    company: usize,
    source: usize,
    certificate: Papers,
    opened_at: Option<usize>,
    cost: i32,
    payee: usize,
    float_money: Option<i32>,
}

impl Game {
    pub fn open(book: u8, players: u8) -> Result<Game, Refusal> {
        let book = Book::numbered(book)?;
        let cash = book.opening_cash(players)?;
        let players = usize::from(players);
        let mut purses = [0; 1 + MOST_PLAYERS + COMPANIES];
        purses[BANK] = book.bank_total - players as i32 * cash;
        purses[seat_purse(0)..seat_purse(players)].fill(cash);
        Ok(Game {
            book,
            players,
            purses,
            companies: [Company::UNOPENED; COMPANIES],
            stack: TRAIN_COUNTS,
            round: 1,
            stock: Stock::default(),
            operating: Operating::default(),
        })
    }

    /// Plays one record after the open. A refusal changes nothing.
    #[inline]
    pub fn play(&mut self, record: Record) -> Result<(), Refusal> {
        refuse_if(matches!(record, Record::Open { .. }), Refusal::OpenMisplaced)?;
        refuse_if(record.is_of_stock_round() != self.in_stock_round(), Refusal::OtherRound)?;
        match record {
            Record::Open { .. } => Err(Refusal::OpenMisplaced),
            Record::Sell { seat, company, tenths } => self.sell(seat, company, tenths),
            Record::Buy { seat, company, source, par_space } => self.buy(seat, company, source, par_space),
            Record::End { seat } => self.end(seat),
            Record::Close => self.close(),
            Record::Bill { company, amount } => self.bill(company, amount),
            Record::Payout { company, mode, revenue } => self.payout(company, mode, revenue),
            Record::Train { company, kind } => self.train(company, kind),
            Record::Done { company } => self.done(company),
            Record::Reopen => self.reopen(),
        }
    }

    fn pay(&mut self, giver: usize, receiver: usize, marks: i32) {
        self.purses[giver] -= marks;
        self.purses[receiver] += marks;
    }

    /// Certificates of a seat over all companies.
    fn certificates(&self, seat: usize) -> u32 {
        self.companies.iter().map(|company| company.papers[paper_place(seat)].count()).sum()
    }

    // --- the stock round

    fn judge_seat(&self, seat: u8) -> Result<usize, Refusal> {
        refuse_if(self.stock_round_is_over(), Refusal::RoundOver)?;
        let seat = usize::from(seat);
        refuse_if(seat == 0 || seat > self.players, Refusal::NoSuchSeat)?;
        refuse_if(seat - 1 != self.stock.on_turn, Refusal::NotOnTurn)?;
        Ok(seat - 1)
    }

    fn judge_trade(&self, seat: u8, company: u8) -> Result<(usize, usize), Refusal> {
        let seat = self.judge_seat(seat)?;
        let company = usize::from(company);
        refuse_if(company == 0 || company > COMPANIES, Refusal::NoSuchCompany)?;
        refuse_if(self.stock.bought, Refusal::AlreadyBought)?;
        Ok((seat, company - 1))
    }

    fn note_trade(&mut self, seat: usize) {
        self.stock.acted = true;
        self.stock.last_actor = Some(seat);
    }

    fn sell(&mut self, seat: u8, company: u8, tenths: u8) -> Result<(), Refusal> {
        let (seat, company) = self.judge_trade(seat, company)?;
        let place = paper_place(seat);
        let holding = &mut self.companies[company];
        let kept = holding.tenths(place) - i32::from(tenths);
        refuse_if(tenths == 0 || kept < 0, Refusal::TenthsNotHeld)?;
        refuse_if(holding.tenths(POOL) + i32::from(tenths) > POOL_LIMIT, Refusal::PoolLimit)?;
        let mut successor = None;
        if holding.papers[place].has_director() {
            let (other, most) = holding.strongest_other(seat, self.players);
            refuse_if(kept < 2 && most < 2, Refusal::DirectorNeeded)?;
            successor = Some(other).filter(|_| most > kept);
        }
        let proceeds = i32::from(tenths) * holding.price();
        refuse_if(self.purses[BANK] - proceeds < BANK_FLOOR, Refusal::BankFloor)?;

        if let Some(other) = successor {
            holding.exchange(seat, other);
        }
        holding.carry(place, POOL, holding.papers[place].without_director().lowest(tenths));
        holding.space = self.book.space_after_sale(holding.space, tenths);
        holding.sold_by[seat] = true;
        self.pay(BANK, seat_purse(seat), proceeds);
        self.note_trade(seat);
        Ok(())
    }

    fn buy(&mut self, seat: u8, company: u8, source: u8, par_space: u8) -> Result<(), Refusal> {
        let purchase = self.judge_purchase(seat, company, source, par_space)?;
        self.make_purchase(purchase);
        Ok(())
    }

    fn judge_purchase(&self, seat: u8, company: u8, source: u8, par_space: u8) -> Result<Purchase, Refusal> {
        let (seat, company) = self.judge_trade(seat, company)?;
        let wanted = &self.companies[company];
        refuse_if(wanted.sold_by[seat], Refusal::SoldThisRound)?;
        let source = usize::from(source);
        refuse_if(source != OFFERING && source != POOL, Refusal::NoSuchSource)?;
        let certificate = wanted.papers[source].lowest(1);
        refuse_if(certificate == Papers::NONE, Refusal::SourceEmpty)?;
        let opens = certificate.has_director();
        refuse_if(opens && !PAR_SPACES.contains(&par_space), Refusal::NoParSpace)?;
        let limit = CERTIFICATE_LIMITS[self.players - 2];
        refuse_if(self.certificates(seat) + 1 > limit, Refusal::CertificateLimit)?;
        let size = certificate.tenths();
        refuse_if(wanted.tenths(paper_place(seat)) + size > SHARE_LIMIT, Refusal::ShareLimit)?;

        let opened_at = Some(usize::from(par_space)).filter(|_| opens);
        let par = opened_at.map_or(wanted.par, |space| PRICES[space]);
        let cost = if source == OFFERING { par * size } else { wanted.price() };
        refuse_if(self.purses[seat_purse(seat)] < cost, Refusal::CannotGive)?;
        let to_company = source == OFFERING && self.book.funding == Funding::Sold && wanted.floated;
        let payee = if to_company { company_purse(company) } else { BANK };
        let gone = wanted.tenths_gone() + if source == OFFERING { size } else { 0 };
        let float_money = self.float_money(wanted, gone, par);
        let bank_after = self.purses[BANK] + cost - float_money.unwrap_or(0);
        refuse_if(float_money.is_some() && bank_after < BANK_FLOOR, Refusal::BankFloor)?;
        Ok(Purchase { seat, company, source, certificate, opened_at, cost, payee, float_money })
    }

    /// What the bank gives if the company floats once so many tenths are gone.
    fn float_money(&self, company: &Company, gone: i32, par: i32) -> Option<i32> {
        if company.floated || gone < FLOAT_TENTHS {
            return None;
        }
        Some(match self.book.funding {
            Funding::Full => 10 * par,
            Funding::Sold => gone * par,
        })
    }

    fn make_purchase(&mut self, purchase: Purchase) {
        let seat = purchase.seat;
        self.pay(seat_purse(seat), purchase.payee, purchase.cost);
        let bought = &mut self.companies[purchase.company];
        if let Some(space) = purchase.opened_at {
            bought.space = space;
            bought.par = PRICES[space];
        }
        bought.carry(purchase.source, paper_place(seat), purchase.certificate);
        if let Some(director) = bought.director() {
            if bought.tenths(paper_place(seat)) > bought.tenths(paper_place(director)) {
                bought.exchange(director, seat);
            }
        }
        if let Some(money) = purchase.float_money {
            bought.floated = true;
            self.pay(BANK, company_purse(purchase.company), money);
        }
        self.stock.bought = true;
        self.note_trade(seat);
    }

    fn end(&mut self, seat: u8) -> Result<(), Refusal> {
        let seat = self.judge_seat(seat)?;
        let stock = &mut self.stock;
        stock.passes = if stock.acted { 0 } else { stock.passes + 1 };
        stock.on_turn = (seat + 1) % self.players;
        stock.bought = false;
        stock.acted = false;
        Ok(())
    }

    fn close(&mut self) -> Result<(), Refusal> {
        refuse_if(!self.stock_round_is_over(), Refusal::RoundNotOver)?;
        refuse_if(self.round == LAST_ROUND, Refusal::LastRound)?;
        if let Some(seat) = self.stock.last_actor {
            self.stock.first = (seat + 1) % self.players;
        }
        self.round += 1;
        for company in &mut self.companies {
            company.had_turn = false;
        }
        self.choose_company();
        Ok(())
    }

    // --- the operating round

    /// The next company on turn: highest price, then lowest number. Every price is above 0.
    fn choose_company(&mut self) {
        let mut on_turn = None;
        let mut highest = 0;
        for (index, company) in self.companies.iter().enumerate() {
            if company.floated && !company.had_turn && company.price() > highest {
                on_turn = Some(index);
                highest = company.price();
            }
        }
        self.operating = Operating { on_turn, paid_out: false };
    }

    fn judge_company(&self, company: u8) -> Result<usize, Refusal> {
        self.operating.on_turn.filter(|&on_turn| on_turn + 1 == usize::from(company)).ok_or(Refusal::CompanyNotOnTurn)
    }

    fn bill(&mut self, company: u8, amount: u16) -> Result<(), Refusal> {
        let company = self.judge_company(company)?;
        refuse_if(self.operating.paid_out, Refusal::AlreadyPaidOut)?;
        refuse_if(amount == 0 || amount > 1_000, Refusal::AmountOutOfRange)?;
        let purse = company_purse(company);
        refuse_if(self.purses[purse] < i32::from(amount), Refusal::CannotGive)?;
        self.pay(purse, BANK, i32::from(amount));
        Ok(())
    }

    fn payout(&mut self, company: u8, mode: u8, revenue: u16) -> Result<(), Refusal> {
        let index = self.judge_company(company)?;
        refuse_if(self.operating.paid_out, Refusal::AlreadyPaidOut)?;
        refuse_if(revenue > 9_990 || !revenue.is_multiple_of(10), Refusal::RevenueOutOfRange)?;
        let (dividend, withheld) = split(mode, revenue)?;
        let company = &mut self.companies[index];
        refuse_if(revenue > 0 && !company.has_train(), Refusal::NoTrain)?;
        let paid = dividend * company.tenths_gone() + withheld;
        refuse_if(self.purses[BANK] - paid < BANK_FLOOR, Refusal::BankFloor)?;

        for seat in 0..self.players {
            self.purses[seat_purse(seat)] += dividend * company.tenths(paper_place(seat));
        }
        self.purses[company_purse(index)] += withheld + dividend * company.tenths(POOL);
        self.purses[BANK] -= paid;
        company.space = space_after_payout(company.space, mode, revenue);
        self.operating.paid_out = true;
        Ok(())
    }

    fn director_purse(&self, company: usize) -> usize {
        let director = self.companies[company].director();
        seat_purse(director.expect("a floated company has a director"))
    }

    /// The cash of a company and its director together.
    fn means(&self, company: usize) -> i32 {
        self.purses[company_purse(company)] + self.purses[self.director_purse(company)]
    }

    fn train(&mut self, company: u8, kind: u8) -> Result<(), Refusal> {
        let index = self.judge_company(company)?;
        refuse_if(!self.operating.paid_out, Refusal::NotPaidOut)?;
        let kind = usize::from(kind);
        refuse_if(self.lowest_train() != Some(kind), Refusal::NotLowestKind)?;
        let purse = company_purse(index);
        let missing = TRAIN_PRICES[kind] - self.purses[purse];
        if missing > 0 {
            refuse_if(self.companies[index].has_train(), Refusal::CannotGive)?;
            let helper = self.director_purse(index);
            refuse_if(self.purses[helper] < missing, Refusal::CannotGive)?;
            self.pay(helper, purse, missing);
        }
        self.pay(purse, BANK, TRAIN_PRICES[kind]);
        self.stack[kind] -= 1;
        self.companies[index].trains[kind] += 1;
        Ok(())
    }

    fn done(&mut self, company: u8) -> Result<(), Refusal> {
        let index = self.judge_company(company)?;
        refuse_if(!self.operating.paid_out, Refusal::NotPaidOut)?;
        if !self.companies[index].has_train() {
            if let Some(kind) = self.lowest_train() {
                refuse_if(TRAIN_PRICES[kind] <= self.means(index), Refusal::TrainOwed)?;
            }
        }
        self.companies[index].had_turn = true;
        self.choose_company();
        Ok(())
    }

    fn reopen(&mut self) -> Result<(), Refusal> {
        refuse_if(self.operating.on_turn.is_some(), Refusal::CompanyOnTurn)?;
        self.round += 1;
        let first = self.stock.first;
        self.stock = Stock { first, on_turn: first, ..Stock::default() };
        for company in &mut self.companies {
            company.sold_by = [false; MOST_PLAYERS];
        }
        Ok(())
    }

    // --- what a maker of games wants to know

    pub fn in_stock_round(&self) -> bool {
        self.round % 2 == 1
    }

    pub fn stock_round_is_over(&self) -> bool {
        self.stock.passes >= self.players
    }

    pub fn lowest_train(&self) -> Option<usize> {
        self.stack.iter().position(|&count| count > 0)
    }

    /// The number of the seat on turn, from 1.
    pub fn seat_on_turn(&self) -> u8 {
        self.stock.on_turn as u8 + 1
    }

    /// The number of the company on turn, from 1.
    pub fn company_on_turn(&self) -> Option<u8> {
        self.operating.on_turn.map(|index| index as u8 + 1)
    }

    pub fn has_paid_out(&self) -> bool {
        self.operating.paid_out
    }

    pub fn players(&self) -> u8 {
        self.players as u8
    }

    pub fn bank(&self) -> i32 {
        self.purses[BANK]
    }

    /// The cash of the company on turn, if any.
    pub fn cash_on_turn(&self) -> Option<i32> {
        self.operating.on_turn.map(|index| self.purses[company_purse(index)])
    }

    /// What company on turn and director have together beyond the price of the lowest train.
    pub fn spare_on_turn(&self) -> Option<i32> {
        let (index, kind) = (self.operating.on_turn?, self.lowest_train()?);
        Some(self.means(index) - TRAIN_PRICES[kind])
    }
}

// ------------------------------------------------------ replay and text

/// The books after the whole file, or its first fault.
pub fn replay(file: &[u8]) -> Result<Game, Fault> {
    let at = |place| move |refusal| Fault { refusal, place };
    refuse_if(file.len() > LONGEST_FILE, Refusal::FileTooLong).map_err(at(0))?;
    refuse_if(file.is_empty(), Refusal::OpenMisplaced).map_err(at(0))?;
    let (first, mut rest) = Record::read(file).map_err(at(0))?;
    let mut game = match first {
        Record::Open { book, players } => Game::open(book, players).map_err(at(0))?,
        _ => return Err(at(0)(Refusal::OpenMisplaced)),
    };
    while !rest.is_empty() {
        let place = file.len() - rest.len();
        let (record, after) = Record::read(rest).map_err(at(place))?;
        game.play(record).map_err(at(place))?;
        rest = after;
    }
    Ok(game)
}

fn write_statement(game: &Game, text: &mut Vec<u8>) -> std::io::Result<()> {
    writeln!(text, "bank {}", game.purses[BANK])?;
    for seat in 0..game.players {
        writeln!(text, "seat {} {} {}", seat + 1, game.purses[seat_purse(seat)], game.certificates(seat))?;
    }
    for (index, company) in game.companies.iter().enumerate() {
        if let Some(director) = company.director() {
            let (cash, price) = (game.purses[company_purse(index)], company.price());
            let (offering, pool) = (company.tenths(OFFERING), company.tenths(POOL));
            writeln!(text, "company {} {cash} {price} {} {offering} {pool}", index + 1, director + 1)?;
        }
    }
    Ok(())
}

/// What the program `statement` prints for the file.
pub fn statement(file: &[u8]) -> Vec<u8> {
    let mut text = Vec::with_capacity(512);
    let written = match replay(file) {
        Ok(game) => write_statement(&game, &mut text),
        Err(fault) => writeln!(text, "refused {} at {}", fault.refusal.number(), fault.place),
    };
    written.expect("writing to memory does not fail");
    text
}
