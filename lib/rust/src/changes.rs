//! What a line moved in the pool. The page `docs/LIBRARY.md` of gate has the lines ("What an event moved").

use crate::reply::{NotAReply, Txid};
use std::fmt;
use std::str::FromStr;

/// What a line moved in the pool: the ids of the entries that left and of those that came, both in order of admission.
///
/// It is read from its lines (`FromStr`) and printed as these lines (`Display`).
#[derive(Clone, Debug, Default, PartialEq, Eq)]
pub struct Changes {
    /// What left.
    pub departed: Vec<Txid>,
    /// What came.
    pub arrived: Vec<Txid>,
}

impl Changes {
    /// Adds what a line tells, if it is one: `- TXID`, or `+ TXID`, behind which no other `-` stands.
    fn add(&mut self, line: &str) -> Option<()> {
        let (sign, txid) = line.strip_suffix('\n')?.split_once(' ')?;
        let txid = txid.parse().ok()?;
        match sign {
            "+" => self.arrived.push(txid),
            "-" if self.arrived.is_empty() => self.departed.push(txid),
            _ => return None,
        }
        Some(())
    }
}

impl FromStr for Changes {
    type Err = NotAReply;

    /// Reads the lines that `gate_changes` gives.
    fn from_str(lines: &str) -> Result<Changes, NotAReply> {
        let mut changes = Changes::default();
        for line in lines.split_inclusive('\n') {
            changes.add(line).ok_or_else(|| NotAReply(line.chars().take(80).collect()))?;
        }
        Ok(changes)
    }
}

impl fmt::Display for Changes {
    fn fmt(&self, f: &mut fmt::Formatter<'_>) -> fmt::Result {
        self.departed.iter().try_for_each(|txid| writeln!(f, "- {}", txid))?;
        self.arrived.iter().try_for_each(|txid| writeln!(f, "+ {}", txid))
    }
}
