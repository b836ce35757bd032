//! Loads a street, places a detector, has three vehicles enter, drives a minute, and reads the detector.
use streetsim::{Fault, Session};

fn main() -> Result<(), Fault> {
    let mut session = Session::open()?;
    print!(
        "{}",
        session.line(
            r#"{"cmd":"load","nodes":[[1,1,4],[2,1,4],[3,1,4]],"links":[[10,1,2,1,40,3],[20,2,3,1,40,3]],"turns":[[10,0,20,0]],"zone":0,"dawdle":0,"change":0,"seed":0,"start":0}"#
        )?
    );
    print!("{}", session.line(r#"{"cmd":"meter","link":20,"lane":0,"cell":5,"period":60}"#)?);
    for second in 0..3 {
        session.enter(&[10, 20], 0, 4 * second, 1)?;
    }
    let clock = session.advance(60)?;
    let census = session.count()?;
    println!("clock {clock}: {} of {} arrived", census.arrived, census.admitted);
    let (_running, rows) = session.read(0)?;
    for row in rows {
        println!("from {}: {} passed, on the cell in {} steps", row.start, row.passes, row.occupied);
    }
    Ok(())
}
