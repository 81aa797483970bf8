//! Reply lines in their parts. The page `docs/FORMATS.md` of gate has the lines ("Events and replies").

use std::fmt;
use std::str::FromStr;

/// The greatest number of a line.
const GREATEST_NUMBER: u64 = 9_007_199_254_740_991;

/// The text is no reply line, or tells of no change.
#[derive(Clone, Debug, PartialEq, Eq)]
pub struct NotAReply(pub String);

impl fmt::Display for NotAReply {
    fn fmt(&self, f: &mut fmt::Formatter<'_>) -> fmt::Result {
        write!(f, "no reply line: {}", self.0)
    }
}

impl std::error::Error for NotAReply {}

/// A transaction's id.
#[derive(Clone, Copy, PartialEq, Eq, Hash, PartialOrd, Ord)]
pub struct Txid(
    /// The bytes of the hash. They are printed in reversed order, as everywhere in Bitcoin.
    pub [u8; 32],
);

impl fmt::Display for Txid {
    fn fmt(&self, f: &mut fmt::Formatter<'_>) -> fmt::Result {
        self.0.iter().rev().try_for_each(|byte| write!(f, "{:02x}", byte))
    }
}

impl fmt::Debug for Txid {
    fn fmt(&self, f: &mut fmt::Formatter<'_>) -> fmt::Result {
        write!(f, "Txid({})", self)
    }
}

impl FromStr for Txid {
    type Err = NotAReply;

    /// Reads 64 hexadecimal digits in lower case, as replies have them.
    fn from_str(text: &str) -> Result<Txid, NotAReply> {
        txid_of(text).ok_or_else(|| NotAReply(text.to_string()))
    }
}

fn txid_of(text: &str) -> Option<Txid> {
    let digits = text.as_bytes();
    if digits.len() != 64 {
        return None;
    }
    let mut bytes = [0; 32];
    for (byte, pair) in bytes.iter_mut().rev().zip(digits.chunks(2)) {
        *byte = digit_of(pair[0])? << 4 | digit_of(pair[1])?;
    }
    Some(Txid(bytes))
}

fn digit_of(byte: u8) -> Option<u8> {
    match byte {
        b'0'..=b'9' => Some(byte - b'0'),
        b'a'..=b'f' => Some(byte - b'a' + 10),
        _ => None,
    }
}

/// A rule of the policy: its letter and its number, as `A35`.
#[derive(Clone, Copy, Debug, PartialEq, Eq, Hash, PartialOrd, Ord)]
pub struct Rule {
    /// `A` of admission, `J` of packages, `P` of peers, `U` of users, `C` of the chain, `L` of lines.
    pub letter: char,
    /// From 1.
    pub number: u8,
}

impl fmt::Display for Rule {
    fn fmt(&self, f: &mut fmt::Formatter<'_>) -> fmt::Result {
        write!(f, "{}{}", self.letter, self.number)
    }
}

/// What follows a denial for the session of the peer.
#[derive(Clone, Copy, Debug, PartialEq, Eq, Hash)]
pub enum Then {
    /// The session stays.
    Keep,
    /// The session is closed.
    Close,
    /// The session stays, and the transaction is to be relayed once more.
    Relay,
}

impl fmt::Display for Then {
    fn fmt(&self, f: &mut fmt::Formatter<'_>) -> fmt::Result {
        f.write_str(match self {
            Then::Keep => "keep",
            Then::Close => "close",
            Then::Relay => "relay",
        })
    }
}

/// What became of a member of a package.
///
/// It is printed (`Display`) as it stands in its reply.
#[derive(Clone, Debug, PartialEq, Eq)]
#[allow(missing_docs)] // each variant is its text
pub enum Member {
    /// `admitted TXID fee F vsize V replaced N`
    Admitted { txid: Txid, fee: u64, vsize: u64, replaced: u64 },
    /// `known TXID`: it was in the pool before, also with another witness.
    Known { txid: Txid },
    /// `denied RULE TOKEN`
    Denied { rule: Rule, token: String },
}

impl fmt::Display for Member {
    fn fmt(&self, f: &mut fmt::Formatter<'_>) -> fmt::Result {
        match self {
            Member::Admitted { txid, fee, vsize, replaced } => {
                write!(f, "admitted {} fee {} vsize {} replaced {}", txid, fee, vsize, replaced)
            }
            Member::Known { txid } => write!(f, "known {}", txid),
            Member::Denied { rule, token } => write!(f, "denied {} {}", rule, token),
        }
    }
}

/// A reply. Amounts are in satoshi, sizes in virtual bytes, feerates in satoshi per 1,000 virtual bytes.
///
/// It is read from its line (`FromStr`) and printed as that line (`Display`).
#[derive(Clone, Debug, PartialEq, Eq)]
#[non_exhaustive]
#[allow(missing_docs)] // each variant is its line
pub enum Reply {
    /// `entered FLAGS`: what the peer is permitted.
    Entered { flags: Vec<String> },
    /// `left`
    Left,
    /// `admitted TXID fee F vsize V replaced N`, with the number of entries that the transaction replaced.
    Admitted { txid: Txid, fee: u64, vsize: u64, replaced: u64 },
    /// `packaged THEN WHAT | MEMBER | MEMBER`: WHAT is `success`, `transaction failed`, or a rule on packages with its token;
    /// the members are the parent and the child.
    Packaged { then: Then, rule: Option<Rule>, token: String, members: Vec<Member> },
    /// `listing N TXID ..`
    Listing { txids: Vec<Txid> },
    /// `block H TIME`
    Block { height: u64, time: u64 },
    /// `headers H COUNT`, with the height of the first.
    Headers { height: u64, count: u64 },
    /// `filter RATE`: the fee filter that is then in force.
    Filter { rate: u64 },
    /// `rpc STATUS JSON`: the HTTP status, and the answer.
    Rpc { status: u64, body: String },
    /// `rpc STATUS denied RULE TOKEN`: the user may not call the method.
    RpcDenied { status: u64, rule: Rule, token: String },
    /// `chain TIP removed R entered E`: the height after the event, and how many txids left the pool and came into it.
    Chain { tip: u64, removed: u64, entered: u64 },
    /// `set`
    Set,
    /// `forgotten N C R`: how many blocks became part of the opening, and how many coins and verdicts are no longer known.
    Forgotten { blocks: u64, coins: u64, rows: u64 },
    /// `denied RULE THEN TOKEN`
    Denied { rule: Rule, then: Then, token: String },
    /// `refused RULE TOKEN`
    Refused { rule: Rule, token: String },
    /// `fault TOKEN`
    Fault { token: String },
}

impl Reply {
    /// The rule that decided, of a reply that names one.
    pub fn rule(&self) -> Option<Rule> {
        match self {
            Reply::Denied { rule, .. } | Reply::Refused { rule, .. } | Reply::RpcDenied { rule, .. } => Some(*rule),
            Reply::Packaged { rule, .. } => *rule,
            _ => None,
        }
    }

    /// The reason, of a reply that names one, as `min relay fee not met`; of a package also `success` or `transaction failed`.
    pub fn token(&self) -> Option<&str> {
        match self {
            Reply::Denied { token, .. }
            | Reply::Refused { token, .. }
            | Reply::RpcDenied { token, .. }
            | Reply::Packaged { token, .. }
            | Reply::Fault { token } => Some(token),
            _ => None,
        }
    }

    /// What follows for the session of the peer: but for a denial and a package it stays as the event left it.
    pub fn then(&self) -> Then {
        match self {
            Reply::Denied { then, .. } | Reply::Packaged { then, .. } => *then,
            _ => Then::Keep,
        }
    }

    /// The id of a transaction that was admitted.
    pub fn txid(&self) -> Option<Txid> {
        match self {
            Reply::Admitted { txid, .. } => Some(*txid),
            _ => None,
        }
    }

    /// What it pays, in satoshi.
    pub fn fee(&self) -> Option<u64> {
        match self {
            Reply::Admitted { fee, .. } => Some(*fee),
            _ => None,
        }
    }

    /// Its virtual size.
    pub fn vsize(&self) -> Option<u64> {
        match self {
            Reply::Admitted { vsize, .. } => Some(*vsize),
            _ => None,
        }
    }
}

impl FromStr for Reply {
    type Err = NotAReply;

    /// Reads a reply line, with its newline or without it.
    fn from_str(line: &str) -> Result<Reply, NotAReply> {
        let text = line.strip_suffix('\n').unwrap_or(line);
        reply_of(text).ok_or_else(|| NotAReply(text.chars().take(80).collect()))
    }
}

fn reply_of(text: &str) -> Option<Reply> {
    if text.contains('\n') {
        return None;
    }
    let mut words = Words(Some(text));
    let reply = match words.word()? {
        "entered" => Reply::Entered { flags: words.flags()? },
        "left" => Reply::Left,
        "admitted" => Reply::Admitted {
            txid: txid_of(words.word()?)?,
            fee: words.number_behind("fee")?,
            vsize: words.number_behind("vsize")?,
            replaced: words.number_behind("replaced")?,
        },
        "packaged" => words.packaged()?,
        "listing" => Reply::Listing { txids: words.txids()? },
        "block" => Reply::Block { height: words.number()?, time: words.number()? },
        "headers" => Reply::Headers { height: words.number()?, count: words.number()? },
        "filter" => Reply::Filter { rate: words.number()? },
        "rpc" => words.rpc()?,
        "chain" => Reply::Chain {
            tip: words.number()?,
            removed: words.number_behind("removed")?,
            entered: words.number_behind("entered")?,
        },
        "set" => Reply::Set,
        "forgotten" => Reply::Forgotten { blocks: words.number()?, coins: words.number()?, rows: words.number()? },
        "denied" => Reply::Denied { rule: words.rule()?, then: words.then()?, token: words.token()? },
        "refused" => Reply::Refused { rule: words.rule()?, token: words.token()? },
        "fault" => Reply::Fault { token: words.token()? },
        _ => return None,
    };
    words.0.is_none().then_some(reply)
}

/// What is left of a line, whose words are separated by single spaces; nothing behind the last.
struct Words<'a>(Option<&'a str>);

impl<'a> Words<'a> {
    fn word(&mut self) -> Option<&'a str> {
        let left = self.0.take()?;
        let (word, rest) = left.split_once(' ').map_or((left, None), |(word, rest)| (word, Some(rest)));
        self.0 = rest;
        Some(word)
    }

    fn number(&mut self) -> Option<u64> {
        let word = self.word()?;
        let is_plain = word.bytes().all(|byte| byte.is_ascii_digit()) && (word == "0" || !word.starts_with('0'));
        let number = word.parse().ok()?;
        (is_plain && number <= GREATEST_NUMBER).then_some(number)
    }

    fn number_behind(&mut self, name: &str) -> Option<u64> {
        if self.word()? == name {
            self.number()
        } else {
            None
        }
    }

    fn flags(&mut self) -> Option<Vec<String>> {
        let flags: Vec<String> = self.word()?.split(',').map(String::from).collect();
        if !flags.iter().all(|flag| !flag.is_empty() && flag.bytes().all(|byte| byte.is_ascii_lowercase())) {
            return None;
        }
        Some(if flags == ["none"] { Vec::new() } else { flags })
    }

    fn txids(&mut self) -> Option<Vec<Txid>> {
        let count = self.number()?;
        let txids: Vec<Txid> = self.0.take().map_or(Some(Vec::new()), |rest| rest.split(' ').map(txid_of).collect())?;
        (txids.len() as u64 == count).then_some(txids)
    }

    fn rule(&mut self) -> Option<Rule> {
        let mut word = self.word()?.chars();
        let letter = word.next().filter(char::is_ascii_uppercase)?;
        let number = Words(Some(word.as_str())).number()?;
        (1..=99).contains(&number).then_some(Rule { letter, number: number as u8 })
    }

    fn then(&mut self) -> Option<Then> {
        match self.word()? {
            "keep" => Some(Then::Keep),
            "close" => Some(Then::Close),
            "relay" => Some(Then::Relay),
            _ => None,
        }
    }

    fn token(&mut self) -> Option<String> {
        let token = self.0.take()?;
        token.split(' ').all(|word| !word.is_empty()).then(|| token.to_string())
    }

    /// What stands before the next bar, or all that is left.
    fn piece(&mut self) -> Option<Words<'a>> {
        let left = self.0.take()?;
        let (piece, rest) = left.split_once(" | ").map_or((left, None), |(piece, rest)| (piece, Some(rest)));
        self.0 = rest;
        (!piece.contains('|')).then_some(Words(Some(piece)))
    }

    fn member(&mut self) -> Option<Member> {
        let mut words = self.piece()?;
        let member = match words.word()? {
            "admitted" => Member::Admitted {
                txid: txid_of(words.word()?)?,
                fee: words.number_behind("fee")?,
                vsize: words.number_behind("vsize")?,
                replaced: words.number_behind("replaced")?,
            },
            "known" => Member::Known { txid: txid_of(words.word()?)? },
            "denied" => Member::Denied { rule: words.rule()?, token: words.token()? },
            _ => return None,
        };
        words.0.is_none().then_some(member)
    }

    fn packaged(&mut self) -> Option<Reply> {
        let then = self.then()?;
        let mut what = self.piece()?;
        let (rule, token) = match what.0? {
            text @ ("success" | "transaction failed") => (None, text.to_string()),
            _ => (Some(what.rule()?), what.token()?),
        };
        Some(Reply::Packaged { then, rule, token, members: vec![self.member()?, self.member()?] })
    }

    fn rpc(&mut self) -> Option<Reply> {
        let status = self.number()?;
        if self.0?.starts_with('{') {
            let body = self.0.take()?.to_string();
            return Some(Reply::Rpc { status, body });
        }
        if self.word()? != "denied" {
            return None;
        }
        Some(Reply::RpcDenied { status, rule: self.rule()?, token: self.token()? })
    }
}

impl fmt::Display for Reply {
    fn fmt(&self, f: &mut fmt::Formatter<'_>) -> fmt::Result {
        match self {
            Reply::Entered { flags } if flags.is_empty() => f.write_str("entered none"),
            Reply::Entered { flags } => write!(f, "entered {}", flags.join(",")),
            Reply::Left => f.write_str("left"),
            Reply::Admitted { txid, fee, vsize, replaced } => {
                write!(f, "admitted {} fee {} vsize {} replaced {}", txid, fee, vsize, replaced)
            }
            Reply::Packaged { then, rule, token, members } => {
                write!(f, "packaged {} ", then)?;
                rule.iter().try_for_each(|rule| write!(f, "{} ", rule))?;
                f.write_str(token)?;
                members.iter().try_for_each(|member| write!(f, " | {}", member))
            }
            Reply::Listing { txids } => {
                write!(f, "listing {}", txids.len())?;
                txids.iter().try_for_each(|txid| write!(f, " {}", txid))
            }
            Reply::Block { height, time } => write!(f, "block {} {}", height, time),
            Reply::Headers { height, count } => write!(f, "headers {} {}", height, count),
            Reply::Filter { rate } => write!(f, "filter {}", rate),
            Reply::Rpc { status, body } => write!(f, "rpc {} {}", status, body),
            Reply::RpcDenied { status, rule, token } => write!(f, "rpc {} denied {} {}", status, rule, token),
            Reply::Chain { tip, removed, entered } => write!(f, "chain {} removed {} entered {}", tip, removed, entered),
            Reply::Set => f.write_str("set"),
            Reply::Forgotten { blocks, coins, rows } => write!(f, "forgotten {} {} {}", blocks, coins, rows),
            Reply::Denied { rule, then, token } => write!(f, "denied {} {} {}", rule, then, token),
            Reply::Refused { rule, token } => write!(f, "refused {} {}", rule, token),
            Reply::Fault { token } => write!(f, "fault {}", token),
        }
    }
}
