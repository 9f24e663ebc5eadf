//! Writes the list of a jury of two blends, three grades and three ballots, runs it and prints who wins.
//! Run: cargo run --offline --manifest-path rust/Cargo.toml --example jury
mod small_jury;

use jugyvaros::GateList;
use small_jury::{BALLOTS, SHAPE};
use std::error::Error;

fn main() -> Result<(), Box<dyn Error>> {
    let list = GateList::own(SHAPE)?;
    let board = list.run(&BALLOTS, &list.fresh_tape()?)?;
    println!("jury {SHAPE}: {} gates, {} conditional", list.gates(), list.conditional());
    for blend in board.winners() {
        println!("blend {blend} wins");
    }
    Ok(())
}
