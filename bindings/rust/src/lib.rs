//! Lumpitseha, the contract engine for Clarity, by its C library.
//!
//! ```
//! let (status, bytes) = lumpitseha::answer(&["wire", "u7"], &[]);
//! assert_eq!(status, lumpitseha::Status::Done);
//! assert_eq!(bytes, b"0x0100000000000000000000000000000007\n");
//! ```
#![deny(missing_docs)]

mod sys;

use std::fmt;
use std::fs::File;
use std::io::{self, Read};
use std::marker::PhantomData;
use std::ops::Range;

/// The version of this crate, and of the library that it is made for.
pub const VERSION: &str = env!("CARGO_PKG_VERSION");

/// The status of a whole answer, as the program has it.
#[derive(Clone, Copy, Debug, PartialEq, Eq)]
pub enum Status {
    /// The command was done.
    Done,
    /// The words are no command.
    Usage,
    /// A file that the words name isn't among those that were given.
    Read,
    /// A file is too long, or not in its format.
    File,
    /// A contract of `check` or the deployment of `call` is refused, or `audit` or `verify` says no.
    Refused,
    /// The deployment of `call` aborts, or its call is an err, aborted or refused.
    Failed,
    /// A word is no value, or names a row that isn't there.
    Value,
    /// Memory ran out.
    Memory,
}

/// Why a call wasn't done.
#[derive(Clone, Debug, PartialEq, Eq)]
pub enum Error {
    /// A file is too long, no cost file or no transaction file. This is the line that says why; of an opening there is none.
    File(String),
    /// Memory ran out. This is a first part of the lines, and how many entries were done.
    Memory(String, u32),
    /// The text stands for no value, or the bytes are the wire form of none.
    Value,
    /// The parts are no call or check: a principal or an argument isn't a value in wire form, or is of another kind.
    Parts,
    /// A block's height is below the node's. Nothing was done.
    Falls,
    /// The file has holders or epochs, which a node has from its opening. Nothing was done.
    Holders,
    /// The system gave no random bytes.
    Random(String),
}

impl fmt::Display for Error {
    fn fmt(&self, f: &mut fmt::Formatter<'_>) -> fmt::Result {
        match self {
            Error::File(line) => write!(f, "a bad file: {}", line.trim_end()),
            Error::Memory(_, done) => write!(f, "no memory after {done} entries"),
            Error::Value => f.write_str("no value"),
            Error::Parts => f.write_str("the parts are no call"),
            Error::Falls => f.write_str("a block's height falls"),
            Error::Holders => f.write_str("the file has holders or epochs"),
            Error::Random(why) => write!(f, "no random bytes: {why}"),
        }
    }
}

impl std::error::Error for Error {}

/// A run of bytes, and where its pieces end.
#[derive(Default)]
struct Pieces {
    bytes: Vec<u8>,
    ends: Vec<usize>,
}

impl Pieces {
    fn add(&mut self, piece: &[u8]) {
        self.bytes.extend_from_slice(piece);
        self.ends.push(self.bytes.len());
    }
}

/// What the program answers to these words over these files, given as names with contents.
pub fn answer(words: &[&str], files: &[(&str, &[u8])]) -> (Status, Vec<u8>) {
    let mut request = Pieces::default();
    words.iter().for_each(|word| request.add(word.as_bytes()));
    for (name, content) in files {
        request.add(name.as_bytes());
        request.add(content);
    }
    let (number, out) = sys::answer(&request.bytes, &request.ends, words.len());
    (status(number), out)
}

fn value((number, out): (u32, Vec<u8>)) -> Result<Vec<u8>, Error> {
    match number {
        0 => Ok(out),
        8 => Err(Error::Value),
        _ => Err(Error::Memory(String::new(), 0)),
    }
}

/// The wire form (SIP-005) of the value that a text stands for.
pub fn wire(text: &str) -> Result<Vec<u8>, Error> {
    value(sys::value_wire(text.as_bytes()))
}

/// The text of the value with this wire form.
pub fn text(wire: &[u8]) -> Result<String, Error> {
    let bytes = value(sys::value_text(wire))?;
    Ok(String::from_utf8_lossy(&bytes).into_owned())
}

/// Random bytes of the system.
fn random_key() -> io::Result<[u8; 16]> {
    let mut key = [0; 16];
    File::open("/dev/urandom")?.read_exact(&mut key)?;
    Ok(key)
}

/// What was opened, by the number of the call; of a bad file there is no line.
fn opened<T>(number: u32, it: T) -> Result<T, Error> {
    match number {
        0 => Ok(it),
        9 => Err(Error::Memory(String::new(), 0)),
        _ => Err(Error::File(String::new())),
    }
}

fn status(number: u32) -> Status {
    match number {
        0 => Status::Done,
        2 => Status::Usage,
        3 => Status::Read,
        5 => Status::File,
        6 => Status::Refused,
        7 => Status::Failed,
        8 => Status::Value,
        9 => Status::Memory,
        // Words and names are texts here, each name has its content, and there is room for the answer.
        _ => unreachable!("the request is one"),
    }
}

/// A call in parts. Principals and arguments are values in their wire form (SIP-005).
pub struct Call<'a> {
    /// A standard principal.
    pub sender: &'a [u8],
    /// The principal of a contract.
    pub contract: &'a [u8],
    /// The name of the function.
    pub function: &'a str,
    /// The arguments.
    pub args: &'a [&'a [u8]],
    /// The most that may be spent in each dimension. Without limits a call may take practically for ever.
    pub limits: Option<[u64; 5]>,
}

impl Call<'_> {
    fn pieces(&self) -> Pieces {
        let mut pieces = Pieces::default();
        [self.sender, self.contract, self.function.as_bytes()].iter().for_each(|piece| pieces.add(piece));
        self.args.iter().for_each(|piece| pieces.add(piece));
        pieces
    }

    fn limits(&self) -> &[u64] {
        self.limits.as_ref().map_or(&[], |limits| limits.as_slice())
    }
}

/// The version of the language that a source is written in.
#[derive(Clone, Copy, Debug, PartialEq, Eq)]
pub enum Version {
    /// Clarity 1
    One = 1,
    /// Clarity 2
    Two = 2,
}

/// What comes of a source as a contract, before it is deployed.
#[derive(Clone, Debug, PartialEq, Eq)]
pub enum Verdict {
    /// It is accepted: what its deployment and each function, by name, is charged at most, as limits.
    Accepted(Vec<u64>, Vec<(String, Vec<u64>)>),
    /// The rule that it breaks first, with the names of a cycle or the dimension of a bound, and the bytes that do.
    Refused(Vec<String>, Range<usize>),
}

/// A table of costs, read once for any number of nodes. It is freed when it is dropped, and stays on its thread.
pub struct Costs {
    handle: sys::Handle,
    stays: PhantomData<*mut u8>,
}

impl Costs {
    /// Reads the table of a cost file, or the unit table where `file` is empty.
    pub fn read(file: &[u8]) -> Result<Costs, Error> {
        let (number, handle) = sys::read_costs(file);
        opened(number, Costs { handle, stays: PhantomData })
    }
}

impl Drop for Costs {
    fn drop(&mut self) {
        sys::close_costs(&mut self.handle);
    }
}

/// A node between calls. It is freed when it is dropped, and stays on its thread.
pub struct Node {
    handle: sys::Handle,
    stays: PhantomData<*mut u8>,
}

impl Node {
    /// Opens a node with the holders and epochs of a transaction file, whose entries aren't done; without them where `file` is empty. Its
    /// tables hash by a random key.
    pub fn open(costs: &mut Costs, file: &[u8]) -> Result<Node, Error> {
        let key = random_key().map_err(|why| Error::Random(why.to_string()))?;
        let (number, handle) = sys::open(&mut costs.handle, file, &key);
        opened(number, Node { handle, stays: PhantomData })
    }

    /// Does the entries of a transaction file, and gives their lines.
    pub fn run(&mut self, file: &[u8]) -> Result<String, Error> {
        let number = sys::run(&mut self.handle, file);
        self.text_of(number)
    }

    /// Does a call, and gives its lines.
    pub fn call(&mut self, call: &Call) -> Result<String, Error> {
        let pieces = call.pieces();
        let number = sys::call(&mut self.handle, &pieces.bytes, &pieces.ends, call.limits());
        self.text_of(number)
    }

    /// Gives the lines that a call would have. The node stays as it is.
    pub fn peek(&mut self, call: &Call) -> Result<String, Error> {
        let pieces = call.pieces();
        let number = sys::peek(&mut self.handle, &pieces.bytes, &pieces.ends, call.limits());
        self.text_of(number)
    }

    /// Checks a source as a contract, a principal in its wire form, that would be deployed on the node. The node stays as it is.
    pub fn check(&mut self, contract: &[u8], version: Version, source: &[u8]) -> Result<Verdict, Error> {
        let number = sys::check(&mut self.handle, contract, version as u32, source);
        let numbers = sys::numbers(&mut self.handle);
        if number == 6 {
            return Ok(Verdict::Refused(self.lines(), numbers[0] as usize..numbers[1] as usize));
        }
        self.text_of(number)?;
        let mut costs = numbers.chunks(5).map(<[u64]>::to_vec);
        let deploy = costs.next().unwrap_or_default();
        Ok(Verdict::Accepted(deploy, self.lines().into_iter().zip(costs).collect()))
    }

    /// Gives the lines of the state.
    pub fn state(&mut self) -> Result<String, Error> {
        let number = sys::state(&mut self.handle);
        self.text_of(number)
    }

    /// The height of the block.
    pub fn height(&mut self) -> u64 {
        sys::height(&mut self.handle)
    }

    fn text(&mut self) -> String {
        String::from_utf8_lossy(&sys::text(&mut self.handle)).into_owned()
    }

    fn lines(&mut self) -> Vec<String> {
        self.text().lines().map(String::from).collect()
    }

    fn text_of(&mut self, number: u32) -> Result<String, Error> {
        let text = self.text();
        match number {
            0 => Ok(text),
            5 => Err(Error::File(text)),
            9 => Err(Error::Memory(text, sys::done(&mut self.handle))),
            10 => Err(Error::Parts),
            12 => Err(Error::Falls),
            13 => Err(Error::Holders),
            // A `Node` always has its node.
            _ => unreachable!("the handle is open"),
        }
    }
}

impl Drop for Node {
    fn drop(&mut self) {
        sys::close(&mut self.handle);
    }
}
