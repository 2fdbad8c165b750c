//! The order file reader: recursive descent, one small function per rule of
//! the grammar. Groups call items and items call groups; refusal 6 bounds the
//! depth at 33 whatever the file.

pub const MOST_BYTES: usize = 65_536;
pub const MOST_JOBS: usize = 1_000;
pub const MOST_BOARDS: u32 = 64;
pub const MOST_MINUTES: u32 = 1_000_000;
pub const DEEPEST_LEVEL: u32 = 32;
const MOST_DIGITS: usize = 7;

#[derive(Clone, Copy, Debug, PartialEq, Eq)]
pub struct OrderRead {
    pub refusal: u32,
    pub place: u32,
    pub boards: u32,
    pub jobs: u32,
}

/// Reads an order; both buffers are filled or left as the scope page says.
pub fn read_order(file: &[u8], work: &mut [u32], due: &mut [u32]) -> OrderRead {
    if work.len() < MOST_JOBS || due.len() < MOST_JOBS {
        return refused(10, 0);
    }
    if file.len() > MOST_BYTES {
        return refused(11, 0);
    }
    work.fill(0);
    due.fill(0);
    match parse(file) {
        Err(fault) => refused(fault.refusal, fault.place),
        Ok(order) => {
            for (i, job) in order.jobs.iter().enumerate() {
                work[i] = job.work;
                due[i] = job.due;
            }
            let jobs = order.jobs.len() as u32;
            OrderRead { refusal: 0, place: 0, boards: order.boards, jobs }
        }
    }
}

fn refused(refusal: u32, place: usize) -> OrderRead {
    // A place is at most the length of a file that passed refusal 11.
    OrderRead { refusal, place: place as u32, boards: 0, jobs: 0 }
}

struct Job {
    work: u32,
    due: u32,
}

struct Order {
    boards: u32,
    jobs: Vec<Job>,
}

struct Fault {
    refusal: u32,
    place: usize,
}

type Read<T> = Result<T, Fault>;

fn fault<T>(refusal: u32, place: usize) -> Read<T> {
    Err(Fault { refusal, place })
}

fn parse(file: &[u8]) -> Read<Order> {
    let mut reader = Reader { file, at: 0, jobs: Vec::new() };
    let boards = reader.order()?;
    if reader.jobs.is_empty() {
        return fault(8, file.len());
    }
    Ok(Order { boards, jobs: reader.jobs })
}

/// The scope page does not say what a byte of no allowed kind does to an atom
/// before it. Here it is a token of its own, so that the first fault from the
/// left decides: `x%` is the atom `x`, judged first, then `%`.
#[derive(Clone, Copy, PartialEq, Eq)]
enum Token<'a> {
    Open,
    Close,
    Atom(&'a [u8]),
    Foreign,
    End,
}

/// The fault of a token that may not stand here, where no number is wanted.
fn misplaced<T>(token: Token, place: usize) -> Read<T> {
    match token {
        Token::Foreign => fault(1, place),
        Token::End => fault(3, place),
        _ => fault(2, place),
    }
}

/// The value of a number atom: 1 to 7 digits, the first not 0.
fn number_value(atom: &[u8]) -> Option<u32> {
    let digits_only = atom.iter().all(u8::is_ascii_digit);
    if !digits_only || atom.len() > MOST_DIGITS || atom.first() == Some(&b'0') {
        return None;
    }
    std::str::from_utf8(atom).ok()?.parse().ok()
}

fn is_blank(byte: u8) -> bool {
    byte == b' ' || byte == b'\n'
}

fn is_atom_byte(byte: u8) -> bool {
    byte.is_ascii_lowercase() || byte.is_ascii_digit()
}

/// How many bytes at the front of `bytes` are of the asked kind.
fn run_length(bytes: &[u8], kind: fn(u8) -> bool) -> usize {
    bytes.iter().take_while(|&&byte| kind(byte)).count()
}

struct Reader<'a> {
    file: &'a [u8],
    at: usize,
    jobs: Vec<Job>,
}

impl<'a> Reader<'a> {
    /// The next token and the place of its first byte; the end's place is the
    /// file length.
    fn next(&mut self) -> (Token<'a>, usize) {
        self.at += run_length(&self.file[self.at..], is_blank);
        let place = self.at;
        let rest = &self.file[place..];
        let (token, length) = match rest.first() {
            None => (Token::End, 0),
            Some(b'(') => (Token::Open, 1),
            Some(b')') => (Token::Close, 1),
            Some(&byte) if is_atom_byte(byte) => {
                let length = run_length(rest, is_atom_byte);
                (Token::Atom(&rest[..length]), length)
            }
            Some(_) => (Token::Foreign, 1),
        };
        self.at += length;
        (token, place)
    }

    /// This very token, or the fault of the one that stands in its place.
    fn want(&mut self, wanted: Token) -> Read<()> {
        let (token, place) = self.next();
        if token == wanted {
            Ok(())
        } else {
            misplaced(token, place)
        }
    }

    fn number(&mut self, limit: u32) -> Read<u32> {
        let (token, place) = self.next();
        let Token::Atom(atom) = token else {
            return misplaced(token, place);
        };
        match number_value(atom) {
            None => fault(4, place),
            Some(value) if value > limit => fault(5, place),
            Some(value) => Ok(value),
        }
    }

    /// `(`, `order`, boards, items, `)`, then the end. Gives the boards.
    fn order(&mut self) -> Read<u32> {
        self.want(Token::Open)?;
        self.want(Token::Atom(b"order"))?;
        let boards = self.number(MOST_BOARDS)?;
        self.items(0, MOST_MINUTES)?;
        self.want(Token::End)?;
        Ok(boards)
    }

    /// Any count of items, and the bracket that closes them. `due` is the
    /// least due minute of the groups round them.
    fn items(&mut self, level: u32, due: u32) -> Read<()> {
        loop {
            let (token, place) = self.next();
            match token {
                Token::Open => self.item(level, due)?,
                Token::Close => return Ok(()),
                other => return misplaced(other, place),
            }
        }
    }

    /// What follows an item's bracket. 6 and 7 stand at the word, so they are
    /// judged there, before the numbers behind it are read.
    fn item(&mut self, level: u32, due: u32) -> Read<()> {
        let (token, place) = self.next();
        match token {
            Token::Atom(b"group") if level == DEEPEST_LEVEL => fault(6, place),
            Token::Atom(b"group") => self.group(level + 1, due),
            Token::Atom(b"job") if self.jobs.len() == MOST_JOBS => fault(7, place),
            Token::Atom(b"job") => self.job(due),
            other => misplaced(other, place),
        }
    }

    /// What follows the word `group`.
    fn group(&mut self, level: u32, due: u32) -> Read<()> {
        let own = self.number(MOST_MINUTES)?;
        self.items(level, due.min(own))
    }

    /// What follows the word `job`.
    fn job(&mut self, due: u32) -> Read<()> {
        let work = self.number(MOST_MINUTES)?;
        let own = self.number(MOST_MINUTES)?;
        self.want(Token::Close)?;
        self.jobs.push(Job { work, due: due.min(own) });
        Ok(())
    }
}
