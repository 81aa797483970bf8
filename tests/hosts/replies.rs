//! Prints the parts of each line of standard input that are not empty, by the crate for Rust: see tests/replies.py.

#[path = "../../lib/rust/src/reply.rs"]
#[allow(dead_code)]
mod reply;

use reply::Reply;
use std::collections::BTreeMap;
use std::io::{stdin, stdout, Read, Write};

fn joined<T: ToString>(values: &[T]) -> String {
    values.iter().map(T::to_string).collect::<Vec<_>>().join(",")
}

/// The name of the reply's kind, and its numbers and lists. What its methods give is printed for each kind.
fn own_parts(reply: &Reply) -> (&'static str, Vec<(&'static str, String)>) {
    match reply {
        Reply::Entered { flags } => ("entered", vec![("flags", joined(flags))]),
        Reply::Left => ("left", vec![]),
        Reply::Admitted { replaced, .. } => ("admitted", vec![("replaced", replaced.to_string())]),
        Reply::Packaged { members, .. } => ("packaged", vec![("members", joined(members))]),
        Reply::Listing { txids } => ("listing", vec![("count", txids.len().to_string()), ("txids", joined(txids))]),
        Reply::Block { height, time } => ("block", vec![("height", height.to_string()), ("time", time.to_string())]),
        Reply::Headers { height, count } => ("headers", vec![("height", height.to_string()), ("count", count.to_string())]),
        Reply::Filter { rate } => ("filter", vec![("rate", rate.to_string())]),
        Reply::Rpc { status, body } => ("rpc", vec![("status", status.to_string()), ("body", body.to_string())]),
        Reply::RpcDenied { status, .. } => ("rpc", vec![("status", status.to_string())]),
        Reply::Chain { tip, removed, entered } => {
            ("chain", vec![("tip", tip.to_string()), ("removed", removed.to_string()), ("entered", entered.to_string())])
        }
        Reply::Set => ("set", vec![]),
        Reply::Forgotten { blocks, coins, rows } => {
            ("forgotten", vec![("blocks", blocks.to_string()), ("coins", coins.to_string()), ("rows", rows.to_string())])
        }
        Reply::Denied { .. } => ("denied", vec![]),
        Reply::Refused { .. } => ("refused", vec![]),
        Reply::Fault { .. } => ("fault", vec![]),
    }
}

fn parts_of(line: &str) -> String {
    let reply: Reply = match line.parse() {
        Ok(reply) => reply,
        Err(_) => return "none".to_string(),
    };
    assert_eq!(reply.to_string() + "\n", line);
    let (kind, own) = own_parts(&reply);
    let mut parts: BTreeMap<&str, String> = own.into_iter().collect();
    parts.insert("kind", kind.to_string());
    parts.insert("then", reply.then().to_string());
    parts.insert("rule", reply.rule().map_or(String::new(), |rule| rule.to_string()));
    parts.insert("token", reply.token().map_or(String::new(), str::to_string));
    parts.insert("fee", reply.fee().map_or(String::new(), |fee| fee.to_string()));
    parts.insert("vsize", reply.vsize().map_or(String::new(), |vsize| vsize.to_string()));
    parts.insert("txid", reply.txid().map_or(String::new(), |txid| txid.to_string()));
    parts.retain(|_, value| !matches!(value.as_str(), "" | "0" | "keep"));
    parts.iter().map(|(name, value)| format!("{}={}", name, value)).collect::<Vec<_>>().join("\t")
}

fn main() {
    let mut text = String::new();
    stdin().read_to_string(&mut text).expect("UTF-8");
    for line in text.split_inclusive('\n') {
        writeln!(stdout(), "{}", parts_of(line)).expect("an output");
    }
}
