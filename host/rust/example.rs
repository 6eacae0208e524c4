//! The two-contact sheet as a host in Rust uses it, through the scans P12:
//! what ../example.c does, line for line of its output.

mod chmurzeta;
use chmurzeta::{cold_run, cold_scan, run, scan, translate, Refusal, CODE_MAX};

const SHEET: &[u8] = include_bytes!("../../examples/two-contact.sheet");

// Activate, A and B have weights 1, 2 and 4.
const P12: [(u16, u32); 8] =
    [(1, 10), (3, 10), (3, 99), (3, 1), (7, 10), (1, 10), (7, 10), (6, 5)];

fn turns(room: &mut [u8]) -> Result<(), Refusal> {
    let length = translate(SHEET, room)?;
    let mut record = cold_run(SHEET)?;
    let mut reference = cold_scan(SHEET)?;
    for (inputs, ms) in P12 {
        run(&room[..length], &mut record, inputs, ms)?;
        scan(SHEET, &mut reference, inputs, ms)?;
        assert_eq!(record.flags, 1 << reference.state);
        assert_eq!((record.outputs, record.clock), (reference.outputs, reference.clock));
        println!(
            "inputs {}, {} ms: state {}, outputs {}, clock {}",
            inputs, ms, reference.state, record.outputs, record.clock
        );
    }
    // Memory that fails: the record is left as it was.
    room[4 * 5] ^= 0x10;
    if let Err(r) = run(&room[..length], &mut record, 1, 10) {
        println!("chz_run refused with number {} at {}: relays 0", r.number, r.place);
    }
    println!(
        "the record is as it was: flags {}, outputs {}, clock {}",
        record.flags, record.outputs, record.clock
    );
    Ok(())
}

fn main() {
    let mut room = vec![0; CODE_MAX];
    if let Err(refusal) = turns(&mut room) {
        println!("{}", refusal);
        std::process::exit(1);
    }
}
