//! A ledger: accounts with balances, and transfers between them, each of which is one step of undo. It is written to be
//! copied.
//!
//! ```sh
//! cargo run --example ledger [ledger.document]
//! ```
//!
//! The accounts are a name array, in which the part of a name is its balance in cents, eight bytes with the low one
//! first. The transfers are a chunk array of texts. Both lie in one heap, as its first two chunks, and the heap is the
//! map block, by which it is found again.
use geosvm::{BlockHandle, ChunkHandle, Existing, Fault, NameArray, OpenOptions, Session};
use std::process::ExitCode;
use std::{env, error, fmt};

/// Why nothing was booked.
#[derive(Debug)]
enum Refusal {
    /// A balance is never below zero, and has its bounds.
    Bounds {
        account: String,
        had: i64,
        change: i64,
    },
    /// The balance isn't one of this program.
    NoBalance {
        account: String,
    },
    Document(geosvm::Error),
}

impl From<geosvm::Error> for Refusal {
    fn from(error: geosvm::Error) -> Refusal {
        Refusal::Document(error)
    }
}

impl fmt::Display for Refusal {
    fn fmt(&self, out: &mut fmt::Formatter<'_>) -> fmt::Result {
        match self {
            Refusal::Bounds { account, had, change } => {
                write!(out, "{account} has {}, so {} can't be booked", Money(*had), Money(*change))
            }
            Refusal::NoBalance { account } => write!(out, "{account} has no balance"),
            Refusal::Document(error) => write!(out, "{error:#}"),
        }
    }
}

impl error::Error for Refusal {}

type Result<T> = std::result::Result<T, Refusal>;

/// Cents, written as 12.50.
struct Money(i64);

impl fmt::Display for Money {
    fn fmt(&self, out: &mut fmt::Formatter<'_>) -> fmt::Result {
        let sign = if self.0 < 0 { "-" } else { "" };
        write!(out, "{sign}{}.{:02}", self.0.unsigned_abs() / 100, self.0.unsigned_abs() % 100)
    }
}

struct Ledger {
    document: Session,
    heap: BlockHandle,
    accounts: ChunkHandle,
    transfers: ChunkHandle,
}

impl Ledger {
    /// Opens a ledger, or makes one where there is none.
    fn open(path: &str) -> Result<Ledger> {
        let mut document = OpenOptions::new().create(true).open(path)?;
        let heap = match document.map_block()? {
            Some(heap) => heap,
            None => Ledger::make(&mut document)?,
        };
        match document.chunks(heap)?[..] {
            [accounts, transfers, ..] => Ok(Ledger { document, heap, accounts, transfers }),
            _ => Err(geosvm::Error::from(Fault::NoChunk).into()),
        }
    }

    fn make(document: &mut Session) -> Result<BlockHandle> {
        let heap = document.grouped("Make a ledger", |document| {
            let heap = document.new_heap(7)?;
            document.new_name_array(heap, 8)?;
            document.new_array(heap, 0, 0)?;
            document.set_map_block(Some(heap))?;
            Ok::<_, geosvm::Error>(heap)
        })?;
        document.save()?;
        document.forget(0)?;
        Ok(heap)
    }

    /// The balance of an account; one that isn't there has none yet.
    fn balance(&mut self, account: &str) -> Result<i64> {
        balance(&mut self.document.name_array(self.heap, self.accounts), account)
    }

    /// Pays money in, or takes money from one account to another. Nothing is booked where any of it is refused.
    fn transfer(&mut self, from: Option<&str>, to: &str, cents: u32) -> Result<()> {
        let (heap, accounts, transfers) = (self.heap, self.accounts, self.transfers);
        let text = text_of(from, to, cents);
        self.document.grouped(&text, |document| {
            let count = document.array(heap, transfers).count()?;
            document.array(heap, transfers).insert(count, &text)?;
            book(&mut document.name_array(heap, accounts), to, cents.into())?;
            // Where this is refused what was booked above is taken back.
            from.map_or(Ok(()), |from| book(&mut document.name_array(heap, accounts), from, -i64::from(cents)))
        })
    }

    fn undo(&mut self) -> Result<()> {
        println!("undo {}", String::from_utf8_lossy(&self.document.undo_name()?));
        Ok(self.document.undo()?)
    }

    fn print(&mut self, title: &str) -> Result<()> {
        let star = if self.document.standing()?.as_saved { "" } else { " (not saved)" };
        println!("{title}{star}");
        for (_, name) in self.document.name_array(self.heap, self.accounts).names()? {
            let name = String::from_utf8_lossy(&name).into_owned();
            println!("  {name:<8}{:>9}", Money(self.balance(&name)?).to_string());
        }
        let mut transfers = self.document.array(self.heap, self.transfers);
        for transfer in transfers.iter()? {
            println!("  - {}", String::from_utf8_lossy(&transfer?));
        }
        Ok(())
    }
}

fn balance(accounts: &mut NameArray<'_>, account: &str) -> Result<i64> {
    let part = match accounts.find(account) {
        Err(error) if error == Fault::NoName => return Ok(0),
        token => accounts.part(token?)?,
    };
    let cents = part.try_into().map_err(|_| Refusal::NoBalance { account: account.into() })?;
    Ok(i64::from_le_bytes(cents))
}

/// Adds to the balance of an account, or takes from it.
fn book(accounts: &mut NameArray<'_>, account: &str, change: i64) -> Result<()> {
    let had = balance(accounts, account)?;
    let has = had.checked_add(change).filter(|&has| has >= 0);
    let part = has.ok_or(Refusal::Bounds { account: account.into(), had, change })?.to_le_bytes();
    match accounts.find(account) {
        Err(error) if error == Fault::NoName => accounts.add(account, part, Existing::Set).map(|_| ())?,
        token => accounts.set_part(token?, part)?,
    }
    Ok(())
}

/// A transfer as text, which names its step too.
fn text_of(from: Option<&str>, to: &str, cents: u32) -> String {
    let money = Money(cents.into());
    match from {
        Some(from) => format!("{money} from {from} to {to}"),
        None => format!("{money} paid in to {to}"),
    }
}

fn run(path: &str) -> Result<()> {
    let mut ledger = Ledger::open(path)?;
    ledger.transfer(None, "Ann", 10_000)?;
    ledger.transfer(Some("Ann"), "Bob", 2_550)?;
    ledger.document.save()?;
    ledger.print("Booked")?;
    if let Err(refusal) = ledger.transfer(Some("Bob"), "Cid", 9_900) {
        println!("refused: {refusal}");
    }
    ledger.transfer(Some("Bob"), "Cid", 550)?;
    ledger.print("Booked once more")?;
    ledger.undo()?;
    ledger.print("Taken back")?;
    drop(ledger);
    Ledger::open(path)?.print("Opened again")
}

fn main() -> ExitCode {
    let path = env::args().nth(1).unwrap_or_else(|| "ledger.document".into());
    match run(&path) {
        Ok(()) => ExitCode::SUCCESS,
        Err(refusal) => {
            eprintln!("ledger: {path}: {refusal}");
            ExitCode::FAILURE
        }
    }
}
