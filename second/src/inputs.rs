//! Inputs of many kinds, from a seed: orders, days, tables, plan files, and
//! the fixed cases with the listing each must give. The fixed listings are
//! written down or counted out by hand here; no program of ours made them.

use super::order::{DEEPEST_LEVEL, MOST_BOARDS, MOST_BYTES, MOST_JOBS, MOST_MINUTES};
use super::plan::{plan, Row};
use super::rng::Rng;

// ---------------------------------------------------------------- orders

/// A piece of an order file before blanks are put in. `Odd` holds what may be
/// no token of ours at all.
#[derive(Clone, Copy, PartialEq, Eq)]
enum Piece {
    Open,
    Close,
    Word(&'static str),
    Number(u32),
    Odd(&'static str),
}

use Piece::{Close, Number, Odd, Open, Word};

/// Atoms and bytes that are wrong somewhere, or everywhere.
const ODD: [&str; 32] = [
    "0", "00", "01", "007", "0000001", "64", "65", "999999", "1000000", "1000001", "9999999",
    "10000000", "12345678", "99999999999999999999", "4294967297", "1a", "a1", "x", "job5", "jobs",
    "jo", "orde", "order1", "groups", "Job", "-1", "+1", "1.5", "\t", "\r\n", "\0", "\u{e4}",
];

const ORDER_BYTES: &[u8] = b"()  \n0123456789ordergroupjobaz";

/// An order that the reader accepts; a plan may or may not exist.
pub fn good_order(rng: &mut Rng) -> Vec<u8> {
    let pieces = order_pieces(rng);
    render(rng, &pieces)
}

/// An order spoiled in one to three ways, or no order at all. Now and then
/// the damage does no harm and the file is still accepted.
pub fn damaged_order(rng: &mut Rng) -> Vec<u8> {
    match rng.below(400) {
        0 => too_many(rng),
        1..=20 => token_soup(rng),
        21..=40 => byte_soup(rng),
        41..=60 => too_deep(rng),
        61..=80 => two_orders(rng),
        81..=100 => jobless_order(rng),
        101..=140 => cut_order(rng),
        141..=200 => wrong_number(rng),
        201..=290 => damaged_pieces(rng),
        _ => damaged_bytes(rng),
    }
}

/// A well-formed order without a job, mostly with empty groups.
pub fn jobless_order(rng: &mut Rng) -> Vec<u8> {
    let mut pieces = vec![Open, Word("order"), Number(some_boards(rng))];
    let mut depth = 0;
    for _ in 0..rng.below(40) {
        if depth > 0 && rng.chance(50) {
            pieces.push(Close);
            depth -= 1;
        } else if depth < DEEPEST_LEVEL {
            pieces.extend([Open, Word("group"), Number(some_minutes(rng))]);
            depth += 1;
        }
    }
    pieces.extend((0..=depth).map(|_| Close));
    render(rng, &pieces)
}

/// A file of the greatest length full of one kind of bracket, or of both.
pub fn bracket_flood(rng: &mut Rng) -> Vec<u8> {
    match rng.below(4) {
        0 => vec![b'('; MOST_BYTES],
        1 => vec![b')'; MOST_BYTES],
        2 => b"()".repeat(MOST_BYTES / 2),
        _ => (0..MOST_BYTES).map(|_| rng.pick(b"()")).collect(),
    }
}

/// The flat order file of a day, with the numbers as they stand.
pub fn order_of_day(boards: u32, work: &[u32], due: &[u32]) -> Vec<u8> {
    let mut text = format!("(order {boards}");
    for (t, d) in work.iter().zip(due) {
        text += &format!(" (job {t} {d})");
    }
    (text + ")").into_bytes()
}

fn some_boards(rng: &mut Rng) -> u32 {
    match rng.below(4) {
        0 => rng.within(1, MOST_BOARDS),
        1 => rng.pick(&[1, MOST_BOARDS]),
        _ => rng.within(1, 4),
    }
}

fn some_minutes(rng: &mut Rng) -> u32 {
    match rng.below(6) {
        0 => rng.within(1, MOST_MINUTES),
        1 => rng.pick(&[1, 9, 10, 99_999, 100_000, 999_999, MOST_MINUTES]),
        2 => rng.within(1, 5_000),
        _ => rng.within(1, 20),
    }
}

/// How an order grows: jobs asked for, and the chance of a new group and of
/// a group's end before each.
struct Shape {
    jobs: usize,
    opening: usize,
    closing: usize,
}

fn some_shape(rng: &mut Rng) -> Shape {
    let jobs = match rng.below(200) {
        0 => MOST_JOBS,
        1..=4 => 1 + rng.below(MOST_JOBS),
        5..=40 => 1 + rng.below(40),
        _ => 1 + rng.below(6),
    };
    let (opening, closing) = rng.pick(&[(0, 0), (20, 30), (40, 40), (80, 5), (90, 1)]);
    Shape { jobs, opening, closing }
}

fn order_pieces(rng: &mut Rng) -> Vec<Piece> {
    let shape = some_shape(rng);
    let mut pieces = vec![Open, Word("order"), Number(some_boards(rng))];
    let mut depth = 0;
    let mut groups = 0;
    for _ in 0..shape.jobs {
        // 400 groups at most: the file stays below its greatest length.
        while depth < DEEPEST_LEVEL && groups < 400 && rng.chance(shape.opening) {
            pieces.extend([Open, Word("group"), Number(some_minutes(rng))]);
            depth += 1;
            groups += 1;
        }
        push_job(rng, &mut pieces);
        while depth > 0 && rng.chance(shape.closing) {
            pieces.push(Close);
            depth -= 1;
        }
    }
    pieces.extend((0..=depth).map(|_| Close));
    pieces
}

/// One job in ten has any work; the others are light, so that many orders
/// have a plan.
fn push_job(rng: &mut Rng, pieces: &mut Vec<Piece>) {
    let due = some_minutes(rng);
    let work = if rng.chance(10) { some_minutes(rng) } else { rng.within(1, 1 + due / 16) };
    pieces.extend([Open, Word("job"), Number(work), Number(due), Close]);
}

/// The pieces as bytes, the blanks of one of four manners between them.
fn render(rng: &mut Rng, pieces: &[Piece]) -> Vec<u8> {
    let manner = rng.below(4);
    let mut file = Vec::with_capacity(8 * pieces.len());
    for (i, &piece) in pieces.iter().enumerate() {
        let parted = i > 0 && is_atom(piece) && is_atom(pieces[i - 1]);
        push_blanks(rng, &mut file, manner, parted);
        push_piece(&mut file, piece);
    }
    push_blanks(rng, &mut file, manner, false);
    file
}

fn is_atom(piece: Piece) -> bool {
    !matches!(piece, Open | Close)
}

/// `parted`: without a blank here two atoms would become one.
fn push_blanks(rng: &mut Rng, file: &mut Vec<u8>, manner: usize, parted: bool) {
    let count = match manner {
        0 => usize::from(parted),
        1 => 1,
        _ => usize::from(parted) + rng.below(3),
    };
    for _ in 0..count {
        let feed = manner == 2 || (manner == 3 && rng.chance(30));
        file.push(if feed { b'\n' } else { b' ' });
    }
}

fn push_piece(file: &mut Vec<u8>, piece: Piece) {
    match piece {
        Open => file.push(b'('),
        Close => file.push(b')'),
        Word(text) | Odd(text) => file.extend(text.as_bytes()),
        Number(value) => push_number(file, value),
    }
}

/// Digit by digit: making orders has to be fast.
fn push_number(file: &mut Vec<u8>, value: u32) {
    if value >= 10 {
        push_number(file, value / 10);
    }
    file.push(b'0' + (value % 10) as u8);
}

fn any_piece(rng: &mut Rng) -> Piece {
    match rng.below(8) {
        0 => Open,
        1 => Close,
        2 => Word("order"),
        3 => Word("group"),
        4 => Word("job"),
        5 => Number(some_minutes(rng)),
        _ => Odd(rng.pick(&ODD)),
    }
}

/// Pieces replaced, removed, added, doubled or swapped; the places are good
/// orders', so the fault is met at any depth.
fn damaged_pieces(rng: &mut Rng) -> Vec<u8> {
    let mut pieces = order_pieces(rng);
    for _ in 0..1 + rng.below(2) {
        let at = rng.below(pieces.len());
        let other = rng.below(pieces.len());
        match rng.below(6) {
            0 => pieces[at] = any_piece(rng),
            1 => pieces[at] = Odd(rng.pick(&ODD)),
            2 => drop(pieces.remove(at)),
            3 => pieces.insert(at, any_piece(rng)),
            4 => pieces.insert(at, pieces[other]),
            _ => pieces.swap(at, other),
        }
    }
    render(rng, &pieces)
}

fn damaged_bytes(rng: &mut Rng) -> Vec<u8> {
    let mut file = good_order(rng);
    for _ in 0..1 + rng.below(3) {
        damage(rng, &mut file, ORDER_BYTES);
    }
    file
}

/// One change to a file: bytes changed, put in, taken out, or cut off.
fn damage(rng: &mut Rng, file: &mut Vec<u8>, likely: &[u8]) {
    if file.is_empty() {
        return;
    }
    let at = rng.below(file.len());
    let end = (at + rng.below(12)).min(file.len());
    match rng.below(9) {
        0 => file[at] ^= 1 << rng.below(8),
        1 => file[at] = rng.byte(),
        2 => file[at] = rng.pick(likely),
        3 => drop(file.remove(at)),
        4 => file.insert(at, rng.byte()),
        5 => file.insert(at, rng.pick(likely)),
        6 => drop(file.drain(at..end)),
        7 => file.extend_from_within(at..end),
        _ => file.truncate(at),
    }
}

fn cut_order(rng: &mut Rng) -> Vec<u8> {
    let mut file = good_order(rng);
    file.truncate(rng.below(file.len()));
    file
}

/// One number of a good order becomes another, round the limits, or none.
fn wrong_number(rng: &mut Rng) -> Vec<u8> {
    let mut pieces = order_pieces(rng);
    let numbers: Vec<usize> =
        (0..pieces.len()).filter(|&i| matches!(pieces[i], Number(_))).collect();
    // The first number is the boards'; it has a limit of its own.
    let at = if rng.chance(20) { numbers[0] } else { rng.pick(&numbers) };
    pieces[at] = match rng.below(3) {
        0 => Number(rng.pick(&[64, 65, 66, 100, MOST_MINUTES, MOST_MINUTES + 1])),
        1 => Number(rng.within(MOST_MINUTES - 1, 20_000_000)),
        _ => Odd(rng.pick(&ODD)),
    };
    render(rng, &pieces)
}

fn token_soup(rng: &mut Rng) -> Vec<u8> {
    let count = rng.below(30);
    let pieces: Vec<Piece> = (0..count).map(|_| any_piece(rng)).collect();
    render(rng, &pieces)
}

fn byte_soup(rng: &mut Rng) -> Vec<u8> {
    let count = rng.below(60);
    let front: &[u8] = rng.pick(&[b"".as_slice(), b"(order 1", b"(order 2 (job 1 2)"]);
    let soup: Vec<u8> = (0..count).map(|_| rng.pick(ORDER_BYTES)).collect();
    [front, &soup].concat()
}

/// Nested groups round the greatest level, some below it, most above.
fn too_deep(rng: &mut Rng) -> Vec<u8> {
    let depth = 30 + rng.below(8);
    let mut pieces = vec![Open, Word("order"), Number(1)];
    for _ in 0..depth {
        if rng.chance(20) {
            push_job(rng, &mut pieces);
        }
        pieces.extend([Open, Word("group"), Number(some_minutes(rng))]);
    }
    push_job(rng, &mut pieces);
    pieces.extend((0..=depth).map(|_| Close));
    render(rng, &pieces)
}

/// Some jobs more or fewer than the greatest number.
fn too_many(rng: &mut Rng) -> Vec<u8> {
    let mut pieces = vec![Open, Word("order"), Number(some_boards(rng))];
    let jobs = MOST_JOBS - 3 + rng.below(8);
    (0..jobs).for_each(|_| push_job(rng, &mut pieces));
    pieces.push(Close);
    render(rng, &pieces)
}

fn two_orders(rng: &mut Rng) -> Vec<u8> {
    let mut file = good_order(rng);
    file.extend(good_order(rng));
    file
}

// ----------------------------------------------------------------- cases

/// A file and the listing it must give.
pub struct Case {
    pub name: &'static str,
    pub file: Vec<u8>,
    pub expected: Vec<u8>,
}

fn case(name: &'static str, file: impl Into<Vec<u8>>, expected: impl Into<Vec<u8>>) -> Case {
    Case { name, file: file.into(), expected: expected.into() }
}

/// All fixed cases: the day sheets, one for each refusal, the limits.
pub fn cases() -> Vec<Case> {
    let mut all = sheets();
    all.extend(refusals());
    all.extend(limits());
    all
}

/// P1 to P14, the planner's days written as orders, and the page's example.
pub fn sheets() -> Vec<Case> {
    let p9 = "(order 1 (job 3 5) (group 4 (group 6 (job 1 9))))";
    let p3 = "(order 2 (job 2 3) (job 2 3) (job 2 3))";
    let p3_plan = "plan 2 3 4 1\n1 1 0 2\n1 2 2 3\n2 2 0 1\n2 3 1 3\n";
    let p5 = "(order 3 (job 2 2) (job 2 2) (job 1 4) (job 2 4) (job 4 4))";
    let p5_plan = "plan 3 5 5 0\n1 1 0 2\n2 2 0 2\n1 3 2 3\n2 4 2 4\n3 5 0 4\n";
    let p6 = "(order 2 (job 2 3) (job 3 3) (job 1 3))";
    let p6_plan = "plan 2 3 3 0\n1 1 0 2\n2 2 0 3\n1 3 2 3\n";
    let p7_plan = "plan 2 2 2 0\n1 1 0 2\n2 2 0 2\n";
    let p8_plan = "plan 1 2 2 0\n1 2 0 1\n1 1 1 3\n";
    let p9_plan = "plan 1 2 2 0\n1 2 0 1\n1 1 1 4\n";
    vec![
        case("p01", "(order 1 (job 5 5))", "plan 1 1 1 0\n1 1 0 5\n"),
        case("p02", "(order 1 (job 6 5))", "refused 9 1\n"),
        case("p03", p3, p3_plan),
        case("p04", "(order 2 (job 2 3) (job 2 3) (job 3 3))", "refused 9 3\n"),
        case("p05", p5, p5_plan),
        case("p06", p6, p6_plan),
        case("p07", "(order 2 (job 2 3) (job 2 3))", p7_plan),
        case("p08", "(order 1 (job 2 5) (job 1 1))", p8_plan),
        case("p09", p9, p9_plan),
        case("p10", "(order 1 (job 3 0))", "refused 4 16\n"),
        case("p11", "(order 65)", "refused 5 7\n"),
        case("p12", "(order 2)", "refused 8 9\n"),
        case("p13", "(order 1 (job 2 2) (job 1 2) (job 1 5))", "refused 9 2\n"),
        case("p14", "", "refused 3 0\n"),
    ]
}

/// Every refusal an order file can bring about, at places that are easy to
/// get wrong. 10, 12, 13, 14 and 15 cannot come from an order file.
pub fn refusals() -> Vec<Case> {
    vec![
        case("refusal-01-byte", "(order 1 (job 1 1)%)", "refused 1 18\n"),
        case("refusal-01-tab", "(order\t1 (job 1 1))", "refused 1 6\n"),
        case("refusal-01-large-letter", "(Order 1 (job 1 1))", "refused 1 1\n"),
        case("refusal-01-high", b"(order 1 (job 1 1))\xff".as_slice(), "refused 1 19\n"),
        case("refusal-01-carriage-return", "(order 1 (job 1 1))\r\n", "refused 1 19\n"),
        case("refusal-01-after-good-atom", "(order 1% (job 1 1))", "refused 1 8\n"),
        case("refusal-02-atom-before-byte", "(orders% 1 (job 1 1))", "refused 2 1\n"),
        case("refusal-02-no-bracket", "order 1", "refused 2 0\n"),
        case("refusal-02-glued-word", "(order 1 (job5 5))", "refused 2 10\n"),
        case("refusal-02-bracket-for-number", "(order (job 1 1))", "refused 2 7\n"),
        case("refusal-02-close-for-number", "(order 1 (job 1 ))", "refused 2 16\n"),
        case("refusal-02-bracket-for-word", "(order 1 ((job 1 1)))", "refused 2 10\n"),
        case("refusal-02-number-for-item", "(order 1 1 (job 1 1))", "refused 2 9\n"),
        case("refusal-02-third-number", "(order 1 (job 1 1 1))", "refused 2 18\n"),
        case("refusal-02-order-inside", "(order 1 (order 1))", "refused 2 10\n"),
        case("refusal-02-after-end", "(order 1 (job 1 1)) )", "refused 2 20\n"),
        case("refusal-02-second-order", "(order 1)(order 1)", "refused 2 9\n"),
        case("refusal-03-open", "(order 1 (job 1 1)\n", "refused 3 19\n"),
        case("refusal-03-for-number", "(order ", "refused 3 7\n"),
        case("refusal-03-for-word", "(order 1 (", "refused 3 10\n"),
        case("refusal-03-blanks", " \n ", "refused 3 3\n"),
        case("refusal-04-word", "(order job (job 1 1))", "refused 4 7\n"),
        case("refusal-04-zero-first", "(order 01 (job 1 1))", "refused 4 7\n"),
        case("refusal-04-eight-digits", "(order 1 (job 1 10000000))", "refused 4 16\n"),
        case("refusal-04-letters-in-it", "(order 1 (group 1o (job 1 1)))", "refused 4 16\n"),
        case("refusal-05-boards", "(order 65 (job 1 1))", "refused 5 7\n"),
        case("refusal-05-work", "(order 1 (job 1000001 1))", "refused 5 14\n"),
        case("refusal-05-due", "(order 1 (job 1 1000001))", "refused 5 16\n"),
        case("refusal-05-group", "(order 1 (group 9999999))", "refused 5 16\n"),
        case("refusal-06-level-33", nested(33, "(job 1 9)"), "refused 6 298\n"),
        case("refusal-07-job-1001", many_jobs(1_001), "refused 7 13010\n"),
        case("refusal-08-no-job", "(order 1 (group 5) )\n", "refused 8 21\n"),
        case("refusal-09-no-plan", "(order 1 (job 2 2) (job 1 1))", "refused 9 1\n"),
        case("refusal-11-too-long", padded(MOST_BYTES + 1), "refused 11 0\n"),
    ]
}

/// Files at the limits, just below and just above.
pub fn limits() -> Vec<Case> {
    let one_row = "plan 1 1 1 0\n1 1 0 1\n";
    let full = "(order 64 (job 1000000 1000000))";
    let full_row = "plan 64 1 1 0\n1 1 0 1000000\n";
    let thousand = many_jobs_listing();
    vec![
        case("limit-bytes-65536", padded(MOST_BYTES), one_row),
        case("limit-bytes-65537", padded(MOST_BYTES + 1), "refused 11 0\n"),
        case("limit-bytes-front-blanks", blanks_in_front(MOST_BYTES), one_row),
        case("limit-bytes-far-above", vec![b'('; 1_000_000], "refused 11 0\n"),
        case("limit-level-32", nested(32, "(job 1 9)"), one_row),
        case("limit-level-33", nested(33, "(job 1 9)"), "refused 6 298\n"),
        case("limit-level-32-empty", nested(32, ""), "refused 8 330\n"),
        case("limit-level-33-bracket", nested(32, "()"), "refused 2 298\n"),
        case("limit-level-flood", repeated("(order 1", " (group 5", ""), "refused 6 298\n"),
        case("limit-jobs-1000", many_jobs(1_000), thousand.clone()),
        case("limit-jobs-1001", many_jobs(1_001), "refused 7 13010\n"),
        case("limit-jobs-1000-deep", deep_jobs(1_000), thousand),
        case("limit-jobs-1001-deep", deep_jobs(1_001), "refused 7 13394\n"),
        case("limit-jobs-flood", repeated("(order 1", "(job 1 1)", ")"), "refused 7 9009\n"),
        case("limit-groups-flood", groups_then_job(), one_row),
        case("limit-numbers", full, full_row),
        case("limit-boards-65", "(order 65 (job 1 1))", "refused 5 7\n"),
        case("limit-work-1000001", "(order 1 (job 1000001 1))", "refused 5 14\n"),
        case("limit-seven-digits", "(order 1 (job 9999999 1))", "refused 5 14\n"),
        case("limit-eight-digits", "(order 1 (job 10000000 1))", "refused 4 14\n"),
        case("limit-digits-flood", repeated("(order ", "1", ""), "refused 4 7\n"),
        case("limit-letters-flood", vec![b'a'; MOST_BYTES], "refused 2 0\n"),
        case("limit-blanks-flood", vec![b' '; MOST_BYTES], "refused 3 65536\n"),
        case("limit-open-flood", vec![b'('; MOST_BYTES], "refused 2 1\n"),
        case("limit-close-flood", vec![b')'; MOST_BYTES], "refused 2 0\n"),
        case("limit-foreign-flood", vec![0; MOST_BYTES], "refused 1 0\n"),
        case("limit-full-day", full_day(64), full_day_listing()),
        case("limit-over-full-day", full_day(65), "refused 9 65\n"),
    ]
}

/// A small order with blanks behind it up to the length.
fn padded(length: usize) -> Vec<u8> {
    let mut file = b"(order 1 (job 1 1))".to_vec();
    file.resize(length, b'\n');
    file
}

fn blanks_in_front(length: usize) -> Vec<u8> {
    let order = b"(order 1 (job 1 1))";
    let mut file = vec![b' '; length - order.len()];
    file.extend(order);
    file
}

/// Groups with due minute 5 one in the other round an item.
fn nested(depth: usize, item: &str) -> String {
    let close = ")".repeat(depth);
    format!("(order 1 {}{item}{close})", "(group 5 ".repeat(depth))
}

fn many_jobs(count: usize) -> String {
    format!("(order 1{})", " (job 1 1000)".repeat(count))
}

/// The same jobs at the deepest level; here the groups make them due.
fn deep_jobs(count: usize) -> String {
    let (groups, jobs) = (" (group 1000".repeat(32), " (job 1 2000)".repeat(count));
    format!("(order 1{groups}{jobs}{})", ")".repeat(32))
}

/// A thousand jobs of one minute, all due at minute 1,000, on one board.
fn many_jobs_listing() -> String {
    let rows: String = (1..=1_000).map(|job| format!("1 {job} {} {job}\n", job - 1)).collect();
    format!("plan 1 1000 1000 0\n{rows}")
}

/// As many copies as the greatest file length allows.
fn repeated(front: &str, copy: &str, back: &str) -> String {
    let copies = (MOST_BYTES - front.len() - back.len()) / copy.len();
    format!("{front}{}{back}", copy.repeat(copies))
}

fn groups_then_job() -> String {
    repeated("(order 1", "(group 1)", "(job 1 1))")
}

/// Jobs of 1,000,000 minutes for 64 boards; those beyond take one minute.
fn full_day(jobs: usize) -> String {
    let fit = " (job 1000000 1000000)".repeat(jobs.min(64));
    let beyond = " (job 1 1000000)".repeat(jobs.saturating_sub(64));
    format!("(order 64{fit}{beyond})")
}

fn full_day_listing() -> String {
    let rows: String = (1..=64).map(|job| format!("{job} {job} 0 1000000\n")).collect();
    format!("plan 64 64 64 0\n{rows}")
}

// ------------------------------------------------------------------ days

/// Boards, works, due minutes.
pub type Day = (u32, Vec<u32>, Vec<u32>);

/// A day of any kind, also days the planner has to refuse at once.
pub fn day(rng: &mut Rng) -> Day {
    match rng.below(100) {
        0..=39 => small_day(rng),
        40..=64 => small_tight_day(rng),
        65..=79 => small_spoiled_day(rng),
        80..=82 => middle_day(rng),
        83..=92 => out_of_range_day(rng),
        _ => unequal_day(rng),
    }
}

/// Boards 1 to 4, 1 to 8 jobs, due minutes 1 to 12. Works are often lighter
/// than they might be, so that many such days have a plan.
pub fn small_day(rng: &mut Rng) -> Day {
    let jobs = 1 + rng.below(8);
    let latest = rng.within(1, 12);
    let lightness = rng.within(1, 3);
    let due: Vec<u32> = (0..jobs).map(|_| rng.within(1, latest)).collect();
    let work = due.iter().map(|&d| rng.within(1, (d / lightness).max(1))).collect();
    (rng.within(1, 4), work, due)
}

/// A day of the same size that has a plan with little or no time to spare.
pub fn small_tight_day(rng: &mut Rng) -> Day {
    let boards = rng.within(1, 4);
    let jobs = (1 + rng.below(8)).max(1 + rng.below(8));
    let (stretches, longest) = rng.pick(&[(1, 12), (2, 6), (3, 4), (4, 3), (6, 2)]);
    tight_day(rng, boards, jobs, stretches, longest)
}

/// Such a day with a number or a few changed: it is near to having a plan.
pub fn small_spoiled_day(rng: &mut Rng) -> Day {
    spoiled(rng, small_tight_day)
}

/// Up to 64 boards and 1,000 jobs: tight, tight and spoiled, or just drawn.
pub fn middle_day(rng: &mut Rng) -> Day {
    match rng.below(5) {
        0 | 1 => middle_tight_day(rng),
        2 | 3 => spoiled(rng, middle_tight_day),
        _ => drawn_day(rng),
    }
}

fn middle_size(rng: &mut Rng) -> (u32, usize) {
    let jobs = match rng.below(100) {
        0..=69 => 2 + rng.below(60),
        70..=94 => 60 + rng.below(200),
        _ => MOST_JOBS - rng.below(750),
    };
    (rng.within(1, MOST_BOARDS.min(jobs as u32)), jobs)
}

fn middle_tight_day(rng: &mut Rng) -> Day {
    let (boards, jobs) = middle_size(rng);
    let most = if jobs <= 100 { jobs } else { 20 };
    let stretches = 1 + rng.below(most);
    let longest = rng.pick(&[2, 30, 1_000, MOST_MINUTES / 100]);
    tight_day(rng, boards, jobs, stretches, longest)
}

/// A day that has a plan: each stretch of time is dealt out among jobs, none
/// of which gets more than its length, until its boards are full. The caller
/// keeps stretches x longest within 1,000,000 and asks for a job and more.
pub fn tight_day(rng: &mut Rng, boards: u32, jobs: usize, stretches: usize, longest: u32) -> Day {
    // The later of two draws: late stretches need jobs as well.
    let mut draw = || rng.below(stretches).max(rng.below(stretches));
    let last: Vec<usize> = (0..jobs).map(|_| draw()).collect();
    let mut work = vec![0; jobs];
    let mut ends = Vec::with_capacity(stretches);
    let mut end = 0;
    for stretch in 0..stretches {
        let length = rng.within(1, longest);
        end += length;
        ends.push(end);
        let mut left = boards * length;
        let first = rng.below(jobs);
        for job in (first..jobs).chain(0..first).filter(|&job| last[job] >= stretch) {
            let most = length.min(left);
            let piece = if rng.chance(70) { most } else { rng.within(0, most) };
            work[job] += piece;
            left -= piece;
        }
    }
    let due: Vec<u32> = last.iter().map(|&stretch| ends[stretch]).collect();
    without_idle_jobs(boards, work, due)
}

/// Jobs that got nothing are left out; a day keeps at least one job.
fn without_idle_jobs(boards: u32, work: Vec<u32>, due: Vec<u32>) -> Day {
    let busy = |&(t, _): &(u32, u32)| t > 0;
    let (work, due): (Vec<u32>, Vec<u32>) = work.into_iter().zip(due).filter(busy).unzip();
    if work.is_empty() {
        return (boards, vec![1], vec![1]);
    }
    (boards, work, due)
}

/// Another day with a number or a few changed, so that it often has no plan.
fn spoiled(rng: &mut Rng, kind: fn(&mut Rng) -> Day) -> Day {
    let (boards, mut work, mut due) = kind(rng);
    let add = |number: &mut u32, more: u32| *number = (*number + more).min(MOST_MINUTES);
    for _ in 0..1 + rng.below(3) {
        let job = rng.below(work.len());
        match rng.below(5) {
            0 => due[job] = (due[job] - 1).max(1),
            1 => add(&mut work[job], rng.within(1, 9)),
            2 => work[job] = due[job],
            3 if boards > 1 => return (boards - 1, work, due),
            _ => add(&mut work[job], 1),
        }
    }
    (boards, work, due)
}

/// As many jobs as minutes, one board and one minute fewer: each job but the
/// first and the last has to move. `size` is 2 to 65.
pub fn moving_day(size: u32) -> Day {
    let jobs = size as usize;
    (size - 1, vec![size - 1; jobs], vec![size; jobs])
}

fn drawn_day(rng: &mut Rng) -> Day {
    let (boards, jobs) = middle_size(rng);
    let dues: Vec<u32> = (0..1 + rng.below(12)).map(|_| rng.within(1, MOST_MINUTES)).collect();
    let due: Vec<u32> = (0..jobs).map(|_| rng.pick(&dues)).collect();
    let share = 1 + jobs as u32 / boards;
    let work = due.iter().map(|&d| rng.within(1, (d / share).max(1))).collect();
    (boards, work, due)
}

const BAD_MINUTES: [u32; 5] = [0, MOST_MINUTES + 1, 4_000_000, 1 << 31, u32::MAX];

/// Boards, works or due minutes out of range: refusals 12 and 14.
pub fn out_of_range_day(rng: &mut Rng) -> Day {
    let (mut boards, mut work, mut due) = small_day(rng);
    if rng.chance(25) {
        boards = rng.pick(&[0, MOST_BOARDS + 1, 1 << 16, u32::MAX]);
    }
    for _ in 0..rng.below(3) {
        let job = rng.below(work.len());
        let list = if rng.chance(50) { &mut work } else { &mut due };
        list[job] = rng.pick(&BAD_MINUTES);
    }
    (boards, work, due)
}

/// Lists of unequal, no or too great length: refusal 13, and behind it the
/// others, so that their order shows.
pub fn unequal_day(rng: &mut Rng) -> Day {
    let (boards, mut work, mut due) = out_of_range_day(rng);
    match rng.below(5) {
        0 => work.truncate(rng.below(work.len())),
        1 => due.truncate(rng.below(due.len())),
        2 => due.push(rng.within(0, 12)),
        3 => return (boards, Vec::new(), Vec::new()),
        _ => {
            work.resize(MOST_JOBS + 1, 1);
            due.resize(MOST_JOBS + 1, 9);
        }
    }
    (boards, work, due)
}

/// Lengths of a table for so many jobs, round the least that is taken.
pub fn table_length(rng: &mut Rng, jobs: usize) -> usize {
    let least = 8 * jobs;
    match rng.below(6) {
        0 => least + rng.below(20),
        1 => least.saturating_sub(1 + rng.below(9)),
        _ => least,
    }
}

// ---------------------------------------------------------------- tables

/// A table for the checker: the planner's as it is, changed so that it is
/// still a plan, or changed so that it is most often none. The second part
/// is the row count, which may not fit. A day without a plan gets any rows.
pub fn table(rng: &mut Rng, boards: u32, work: &[u32], due: &[u32]) -> (Vec<u32>, usize) {
    let mut rows = planned_rows(boards, work, due);
    if rows.is_empty() || rng.chance(3) {
        rows = any_rows(rng, boards, work.len());
    }
    change(rng, boards, &mut rows);
    if rng.chance(15) {
        change(rng, boards, &mut rows);
    }
    let count = rows.len();
    let mut flat = rows.concat();
    match rng.below(20) {
        0 => flat.extend((0..rng.below(12)).map(|i| i as u32)),
        1 => return (flat, count.saturating_sub(1)),
        2 => return misfit(rng, flat, count),
        _ => {}
    }
    (flat, count)
}

/// The planner's rows; none where it refuses.
pub fn planned_rows(boards: u32, work: &[u32], due: &[u32]) -> Vec<Row> {
    let mut table = vec![0; 8 * work.len()];
    let planned = plan(boards, work, due, &mut table);
    let rows = table.chunks_exact(4).take(planned.rows as usize);
    rows.map(|row| [row[0], row[1], row[2], row[3]]).collect()
}

fn any_rows(rng: &mut Rng, boards: u32, jobs: usize) -> Vec<Row> {
    let count = rng.below(2 * jobs + 2);
    let mut row = || {
        let from = rng.within(0, 12);
        let board = rng.within(0, boards.min(MOST_BOARDS) + 1);
        [board, rng.within(0, jobs as u32 + 1), from, from + rng.within(0, 6)]
    };
    (0..count).map(|_| row()).collect()
}

/// One change to a table.
fn change(rng: &mut Rng, boards: u32, rows: &mut Vec<Row>) {
    if rows.is_empty() {
        return;
    }
    let at = rng.below(rows.len());
    let other = rng.below(rows.len());
    let column = rng.below(4);
    match rng.below(16) {
        0 => rng.shuffle(rows),
        1 => rows[at][column] = other_number(rng, rows[at][column]),
        2 => rows.insert(other, rows[at]),
        3 => drop(rows.remove(at)),
        4 => split(rng, rows, at, boards),
        5 => swap_numbers(rows, at, other, column),
        6 => rows.swap(at, other),
        7 => move_row(rng, &mut rows[at]),
        8 => rename_boards(rng, rows, boards),
        9 => into_minutes(rows),
        10 => rows[at][3] = rows[at][2],
        11 => rows[at].swap(2, 3),
        12 => rows.truncate(at),
        13 => split_alike(rng, rows, at),
        _ => {} // as it is
    }
}

fn other_number(rng: &mut Rng, number: u32) -> u32 {
    match rng.below(8) {
        0 => 0,
        1 => u32::MAX,
        2 => rng.within(0, 12),
        3 => number ^ (1 << rng.below(32)),
        4 | 5 => number.wrapping_add(1),
        _ => number.wrapping_sub(1),
    }
}

/// Cuts a row in two; the second half may change its board.
fn split(rng: &mut Rng, rows: &mut Vec<Row>, at: usize, boards: u32) {
    let [board, job, from, to] = rows[at];
    let cut = rng.within(from, to.max(from));
    rows[at][3] = cut;
    let board = if rng.chance(50) { board } else { rng.within(1, boards) };
    rows.push([board, job, cut, to]);
}

/// Cuts a row in two that touch: still a plan, with one preemption more.
fn split_alike(rng: &mut Rng, rows: &mut Vec<Row>, at: usize) {
    let [board, job, from, to] = rows[at];
    if to > from && to - from > 1 {
        let cut = from + rng.within(1, to - from - 1);
        rows[at][3] = cut;
        rows.insert(at, [board, job, cut, to]);
    }
}

/// Two rows change one number; with the same column both may stay good.
fn swap_numbers(rows: &mut [Row], at: usize, other: usize, column: usize) {
    let number = rows[at][column];
    rows[at][column] = rows[other][column];
    rows[other][column] = number;
}

fn move_row(rng: &mut Rng, row: &mut Row) {
    let by = rng.within(1, 3);
    let later = rng.chance(50) || row[2] < by;
    for minute in &mut row[2..] {
        *minute = if later { minute.wrapping_add(by) } else { minute.wrapping_sub(by) };
    }
}

/// Boards are alike: renamed all together, a plan stays a plan.
fn rename_boards(rng: &mut Rng, rows: &mut [Row], boards: u32) {
    let by = rng.within(0, boards);
    for row in rows.iter_mut().filter(|row| row[0] >= 1 && boards > 0) {
        row[0] = ((u64::from(row[0]) - 1 + u64::from(by)) % u64::from(boards)) as u32 + 1;
    }
}

/// Every row becomes rows of one minute, unless that makes too many.
fn into_minutes(rows: &mut Vec<Row>) {
    let lengths = rows.iter().map(|row| u64::from(row[3].saturating_sub(row[2])));
    if lengths.sum::<u64>() > 3_000 {
        return;
    }
    let cut = |&[board, job, from, to]: &Row| (from..to).map(move |m| [board, job, m, m + 1]);
    *rows = rows.iter().flat_map(cut).collect();
}

/// A row count that does not fit the table, or goes beyond 2,000.
fn misfit(rng: &mut Rng, mut flat: Vec<u32>, count: usize) -> (Vec<u32>, usize) {
    match rng.below(5) {
        0 => (flat, count + 1),
        1 => (flat, rng.pick(&[2_000, 2_001, 1 << 30, 1 << 32, 1 << 62, usize::MAX / 4 + 1])),
        2 => (flat, usize::MAX - rng.below(3)),
        3 => {
            flat.pop();
            (flat, count)
        }
        _ => {
            flat.resize(8_004, 1);
            (flat, 2_000 + rng.below(2))
        }
    }
}

// ------------------------------------------------------------ plan files

/// A plan file whose trailer fits: a note, rows of any bytes, a trailer.
pub fn plan_file(rng: &mut Rng) -> Vec<u8> {
    let note = rng.below(30);
    let rows = rng.below(8);
    let mut file: Vec<u8> = (0..note + 12 * rows).map(|_| rng.byte()).collect();
    push_trailer(&mut file, note as u32, rows as u32);
    file
}

/// A plan file with bytes changed, cut or added, or a wrong trailer. Some of
/// the trailers fit only where a sum is counted modulo 2^32.
pub fn damaged_plan_file(rng: &mut Rng) -> Vec<u8> {
    let mut file = plan_file(rng);
    if rng.chance(40) {
        damage(rng, &mut file, &[0, 1, 12, 255]);
        return file;
    }
    let body = file.len() - 8;
    file.truncate(body);
    let (offset, count) = wrong_trailer(rng, body as u32);
    push_trailer(&mut file, offset, count);
    file
}

/// Offset and count for a file with so many bytes before its trailer.
fn wrong_trailer(rng: &mut Rng, body: u32) -> (u32, u32) {
    let count = rng.within(0, body / 12 + 1);
    let offset = body.wrapping_sub(12 * count);
    match rng.below(8) {
        0 => (offset, count), // wraps if the count is one too great
        1 => (offset.wrapping_add(1), count),
        2 => (offset.wrapping_sub(1), count),
        3 => (offset, count + 1),
        4 => (count, offset),
        5 => (offset, count + (1 << 30)), // 12 * 2^30 is 0 modulo 2^32
        6 => (body.wrapping_sub(12 * 2_000), 2_000),
        _ => (rng.draw() as u32, rng.draw() as u32),
    }
}

fn push_trailer(file: &mut Vec<u8>, offset: u32, count: u32) {
    file.extend(offset.to_le_bytes());
    file.extend(count.to_le_bytes());
}

/// Every length from 0 to 40, with bytes of some kinds and with every
/// trailer that fits.
pub fn short_plan_files() -> Vec<Vec<u8>> {
    let mut files = Vec::new();
    for length in 0..=40usize {
        files.extend([0, 1, 12, 255].map(|byte| vec![byte; length]));
        files.push((0..length as u8).collect());
        let body = length.saturating_sub(8);
        for count in 0..=body / 12 {
            let mut file = vec![7; body];
            push_trailer(&mut file, (body - 12 * count) as u32, count as u32);
            file.truncate(length);
            files.push(file);
        }
    }
    files
}

/// Plan files round the greatest row count and the greatest length.
pub fn long_plan_files() -> Vec<Vec<u8>> {
    let greatest = MOST_BYTES - 8;
    let sizes = [
        (0, 2_000),
        (0, 2_001),
        (greatest - 24_000, 2_000),
        (greatest - 24_000 + 1, 2_000),
        (greatest, 0),
        (greatest + 1, 0),
        (greatest - 12 * 2_001, 2_001),
        (200_000, 5),
    ];
    let file = |(note, rows): (usize, usize)| {
        let mut file: Vec<u8> = (0..note + 12 * rows).map(|i| i as u8).collect();
        push_trailer(&mut file, note as u32, rows as u32);
        file
    };
    sizes.into_iter().map(file).collect()
}

/// What the plan file writer is called with.
pub struct WriterCall {
    pub table: Vec<u32>,
    pub count: usize,
    pub buffer: Vec<u8>,
    pub note: usize,
}

/// A call of the writer: most succeed, the others meet one refusal or more.
pub fn writer_call(rng: &mut Rng) -> WriterCall {
    let rows = rng.below(8);
    let mut table: Vec<u32> = (0..4 * rows).map(|_| rng.within(0, 70)).collect();
    if rows > 0 && rng.chance(50) {
        let at = rng.below(table.len());
        table[at] = rng.pick(&[65_534, 65_535, 65_536, 1 << 31, u32::MAX]);
    }
    table.extend((0..rng.below(5)).map(|i| i as u32 * 65_536));
    let mut count = rng.below(rows + 1);
    let mut note = rng.below(30);
    match rng.below(12) {
        0 => count = rng.pick(&[rows + 1, 2_001, 1 << 30, 1 << 62, usize::MAX]),
        1 => note = rng.pick(&[65_535, 65_536, 1 << 32, usize::MAX - 7, usize::MAX]),
        2 => note = MOST_BYTES - 8 - 12 * rows + rng.below(13),
        _ => {}
    }
    let mut call = WriterCall { table, count, buffer: Vec::new(), note };
    let needed = (12 * rows + 8).saturating_add(note).min(70_000);
    let length = if rng.chance(80) { needed + rng.below(9) } else { rng.below(needed) };
    let first = rng.byte();
    call.buffer = (0..length).map(|i| first.wrapping_add(i as u8)).collect();
    call
}

/// Calls at the greatest sizes, slower than the others to make and to check.
pub fn long_writer_calls() -> Vec<WriterCall> {
    let table = |rows: usize| (0..4 * rows as u32).collect::<Vec<u32>>();
    let call = |rows: usize, count: usize, length: usize, note: usize| WriterCall {
        table: table(rows),
        count,
        buffer: vec![170; length],
        note,
    };
    vec![
        call(2_000, 2_000, 24_008, 0),
        call(2_000, 2_000, 24_007, 0),
        call(2_001, 2_001, 70_000, 0),
        call(2_000, 2_001, 70_000, 0),
        call(2_000, 2_000, 70_000, 65_536 - 24_008),
        call(2_000, 2_000, 70_000, 65_536 - 24_007),
        call(0, 0, 65_536, 65_528),
        call(0, 0, 65_537, 65_529),
        call(0, 0, 8, 0),
        call(0, 0, 7, 0),
    ]
}
