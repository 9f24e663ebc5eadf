//! Deals a small jury among three trustees, tallies, and prints what each of them holds and what all of them publish.
//! Run: cargo run --offline --manifest-path rust/Cargo.toml --example trustees
mod small_jury;

use jugyvaros::GateList;
use small_jury::{BALLOTS, SHAPE};
use std::error::Error;

const TRUSTEES: usize = 3;

/// The first bits, and how many there are.
fn bits(table: &[u8]) -> String {
    let text: String = table.iter().take(24).map(|bit| char::from(b'0' + bit)).collect();
    if table.len() > 24 {
        format!("{text}.. ({} bits)", table.len())
    } else {
        text
    }
}

fn main() -> Result<(), Box<dyn Error>> {
    let list = GateList::own(SHAPE)?;
    let dealing = list.deal(&BALLOTS, TRUSTEES)?;
    let tally = list.tally(&BALLOTS, &dealing)?;
    for trustee in 0..TRUSTEES {
        let own = |table: &[u8]| bits(table.chunks(table.len() / TRUSTEES).nth(trustee).unwrap_or(&[]));
        println!("trustee {} holds shares of the ballots {}", trustee + 1, own(&dealing.ballot_shares));
        println!("trustee {} holds shares of the triples {}", trustee + 1, own(&dealing.triples));
        println!("trustee {} publishes {}", trustee + 1, bits(tally.published(trustee)));
    }
    for (blend, byte) in tally.closing().iter().enumerate() {
        println!("blend {blend}: the closing bits add up to {byte}");
    }
    Ok(())
}
