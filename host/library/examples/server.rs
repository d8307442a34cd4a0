//! A little server: a sandbox is opened and filled, its snapshot taken, and after each of
//! three requests it is rewound, so that no request meets anything of the one before.
//!
//! `cargo run --release --offline --example server`, in `host/`.

use gazhuppin::{Address, Backing, Machine, Place, Refusal, Rights};

const SANDBOX: u16 = 0;
const TALLY: Address = Address(5);
const OTHER_PAGE: Address = Address(256);

fn main() -> Result<(), Refusal> {
    let mut machine = Machine::start([], 16)?;
    machine.open(SANDBOX, 8)?;
    let page = machine.map(SANDBOX, Place::LowestGap, 2, Backing::Anonymous, Rights::ReadWrite)?;
    println!("sandbox 0 is open, 2 pages are mapped from page {page} on");
    machine.write(SANDBOX, TALLY, 100)?;
    println!("the tally is 100; the snapshot has {} pages", machine.snapshot(SANDBOX)?);
    for request in 1..=3 {
        serve(&mut machine, request)?;
        let pages = machine.rewind(SANDBOX)?;
        let (tally, other) = (machine.read(SANDBOX, TALLY)?, machine.read(SANDBOX, OTHER_PAGE)?);
        let frames = machine.report(SANDBOX)?;
        println!("{pages} pages put back: tally {tally}, other page {other}, {frames} frames held");
    }
    Ok(())
}

/// A request adds its number to the tally, and writes it on the other page.
fn serve(machine: &mut Machine, request: u8) -> Result<(), Refusal> {
    let tally = machine.read(SANDBOX, TALLY)?;
    machine.write(SANDBOX, TALLY, tally + request)?;
    machine.write(SANDBOX, OTHER_PAGE, request)?;
    println!("request {request}: the tally was {tally} and is {}", machine.read(SANDBOX, TALLY)?);
    Ok(())
}
