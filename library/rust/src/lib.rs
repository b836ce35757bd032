//! The engine of streetsim in the process of a program: [`Session`] opens one, serves lines and calls, and closes it when it is dropped.
//! A session may go to another thread, and is used by one at a time. Nothing compares the declarations here with the library's.
//!
//! The longest line takes 128 KiB of the stack of the thread that calls.
//!
//! A step is a second and a cell 7.5 m; speeds are cells a step. `examples/drive.rs` loads a street, drives, and reads a detector;
//! `docs/LINES.md` of the repository has all commands, which [`Session::line`] takes.
use std::fmt;
use std::marker::PhantomData;
use std::ptr;

/// `struct streetsim_session`.
#[repr(C)]
struct Handle {
    at: *mut u8,
    is_open: bool,
}

/// How many vehicles stand where or have ended how, at `clock`; all that ever entered are `admitted`.
#[repr(C)]
#[derive(Debug, Default, Clone, Copy, PartialEq, Eq)]
pub struct Census {
    pub admitted: u64,
    pub arrived: u64,
    /// In the buffers behind stop lines.
    pub buffers: u64,
    /// On cells of lanes.
    pub cells: u64,
    pub clock: u64,
    /// Taken out.
    pub taken: u64,
    /// To enter.
    pub waiting: u64,
}

#[repr(C)]
#[derive(Default)]
struct Row {
    state: u64,
    link: u64,
    lane: u64,
    cell: u64,
    speed: u64,
    size: u64,
    step: u64,
}

/// Where a vehicle is. Speeds are in cells a step, sizes in cells.
#[derive(Debug, Clone, Copy, PartialEq, Eq)]
pub enum Place {
    /// In a cell.
    Cell { link: u64, lane: u64, cell: u64, speed: u64, size: u64 },
    /// In the buffer at the end of a lane, till step `ready` at least.
    Buffer { link: u64, lane: u64, ready: u64, speed: u64, size: u64 },
    /// Not yet departed; from step `depart` on it may.
    Waiting { link: u64, lane: u64, depart: u64, size: u64 },
    /// It arrived in this step.
    Arrived { step: u64 },
    /// It was taken out when the clock showed this.
    Taken { clock: u64 },
}

/// What a detector summed over a full period.
#[repr(C)]
#[derive(Debug, Default, Clone, Copy, PartialEq, Eq)]
pub struct Period {
    /// Its first step.
    pub start: u64,
    /// Vehicles that passed.
    pub passes: u64,
    /// The sum of their speeds, in cells a step.
    pub speeds: u64,
    /// Steps with a vehicle on the cell.
    pub occupied: u64,
}

/// The running period of a detector.
#[repr(C)]
#[derive(Debug, Default, Clone, Copy, PartialEq, Eq)]
pub struct Running {
    /// Its first step.
    pub start: u64,
    /// Steps that it has so far.
    pub steps: u64,
    /// Vehicles that passed.
    pub passes: u64,
    /// The sum of their speeds, in cells a step.
    pub speeds: u64,
    /// Steps with a vehicle on the cell.
    pub occupied: u64,
}

/// Why a call gave nothing.
#[derive(Debug, Clone, PartialEq, Eq)]
pub enum Fault {
    /// Memory was refused; nothing was done.
    Starved,
    /// The command was done, and memory for its reply was refused: [`Session::reply`] gives it.
    Untold,
    /// The reply is this line: a refusal, or `{"clock":T,"short":K}` where memory ran out after K steps.
    Other(String),
}

impl fmt::Display for Fault {
    fn fmt(&self, to: &mut fmt::Formatter<'_>) -> fmt::Result {
        match self {
            Fault::Starved => to.write_str("memory was refused; nothing was done"),
            Fault::Untold => to.write_str("done, and memory for the reply was refused"),
            Fault::Other(reply) => to.write_str(reply.trim_end()),
        }
    }
}

impl std::error::Error for Fault {}

unsafe extern "C" {
    fn streetsim_open(session: *mut Handle) -> u32;
    fn streetsim_close(session: *mut Handle);
    fn streetsim_line(session: *mut Handle, line: *const u8, line_bytes: usize, room: *mut u8, room_bytes: usize, bytes: *mut usize) -> u32;
    fn streetsim_reply(session: *mut Handle, room: *mut u8, room_bytes: usize, bytes: *mut usize) -> u32;
    fn streetsim_advance(session: *mut Handle, steps: u64, clock: *mut u64) -> u32;
    fn streetsim_count(session: *mut Handle, census: *mut Census) -> u32;
    fn streetsim_vehicle(session: *mut Handle, car: u64, row: *mut Row, plan: *mut u64, plan_links: usize, links: *mut usize) -> u32;
    fn streetsim_enter(session: *mut Handle, plan: *const u64, plan_links: usize, lane: u64, depart: u64, size: u64, car: *mut u64) -> u32;
    fn streetsim_read(session: *mut Handle, meter: u64, running: *mut Running, rows: *mut Period, room: usize, count: *mut usize) -> u32;
}

const SHORT: u32 = 3;
const UNTOLD: u32 = 4;
const MOST_LINKS: usize = 1024;
const MOST_PERIODS: usize = 32;
/// The reply where memory was refused and nothing was done.
const STARVED: &str = "{\"starved\":true}\n";

/// An open session. It may move: the library keeps no address of the handle.
pub struct Session {
    handle: Handle,
    room: Vec<u8>,
    plan: Vec<u64>,
    one_at_a_time: PhantomData<*mut ()>, // so it is not `Sync`
}

// SAFETY: the library keeps nothing of a thread; `&mut self` gives the handle to one call at a time.
unsafe impl Send for Session {}

impl Session {
    /// A session with nothing loaded.
    ///
    /// # Errors
    /// Memory was refused.
    pub fn open() -> Result<Self, Fault> {
        let mut handle = Handle { at: ptr::null_mut(), is_open: false };
        // SAFETY: all zeros is a closed handle, which is borrowed for the call.
        match unsafe { streetsim_open(&raw mut handle) } {
            0 => Ok(Session { handle, room: vec![0; 1 << 16], plan: vec![0; MOST_LINKS], one_at_a_time: PhantomData }),
            _ => Err(Fault::Starved),
        }
    }

    /// The reply's line, with its line feed, to a line of the program's; empty to a blank one. A refusal, a fault of the line and
    /// `{"starved":true}` are replies too, and so `Ok`: look for `"error"` and `"starved"`.
    ///
    /// # Errors
    /// `Starved` where nothing was done, `Untold` where it was.
    pub fn line(&mut self, line: &str) -> Result<String, Fault> {
        let mut bytes = 0;
        // SAFETY: the handle was opened and is never copied; the buffers are initialised, apart, and live for the call.
        let status = unsafe {
            streetsim_line(&raw mut self.handle, line.as_ptr(), line.len(), self.room.as_mut_ptr(), self.room.len(), &raw mut bytes)
        };
        self.told(status, bytes)
    }

    /// The line of the last reply again; empty after a typed call that was done.
    ///
    /// # Errors
    /// `Untold` where memory for it was refused again.
    pub fn reply(&mut self) -> Result<String, Fault> {
        let mut bytes = 0;
        // SAFETY: as in `line`.
        let status = unsafe { streetsim_reply(&raw mut self.handle, self.room.as_mut_ptr(), self.room.len(), &raw mut bytes) };
        self.told(status, bytes)
    }

    /// Makes steps, up to 10,000, and gives the clock after them.
    ///
    /// # Errors
    /// `Other` where the reply is another.
    pub fn advance(&mut self, steps: u64) -> Result<u64, Fault> {
        let mut clock = 0;
        // SAFETY: as in `line`.
        let status = unsafe { streetsim_advance(&raw mut self.handle, steps, &raw mut clock) };
        self.done(status).map(|()| clock)
    }

    /// How many vehicles are where.
    ///
    /// # Errors
    /// `Other` where nothing is loaded.
    pub fn count(&mut self) -> Result<Census, Fault> {
        let mut census = Census::default();
        // SAFETY: as in `line`.
        let status = unsafe { streetsim_count(&raw mut self.handle, &raw mut census) };
        self.done(status).map(|()| census)
    }

    /// Has a vehicle enter; gives its number. `plan`: its links in order; `lane`: of the first; `depart`: the step from which it may
    /// enter; `size`: its cells, 1 to 4.
    ///
    /// # Errors
    /// `Starved` where nothing was done, `Other` where it was refused.
    pub fn enter(&mut self, plan: &[u64], lane: u64, depart: u64, size: u64) -> Result<u64, Fault> {
        let mut car = 0;
        // SAFETY: as in `line`.
        let status = unsafe { streetsim_enter(&raw mut self.handle, plan.as_ptr(), plan.len(), lane, depart, size, &raw mut car) };
        self.done(status).map(|()| car)
    }

    /// Where a vehicle is, and the links that remain of its plan.
    ///
    /// # Errors
    /// `Other` where no vehicle has the number.
    pub fn vehicle(&mut self, car: u64) -> Result<(Place, Vec<u64>), Fault> {
        let (mut row, mut links) = (Row::default(), 0);
        // SAFETY: as in `line`.
        let status = unsafe {
            streetsim_vehicle(&raw mut self.handle, car, &raw mut row, self.plan.as_mut_ptr(), self.plan.len(), &raw mut links)
        };
        self.done(status)?;
        Ok((place_of(&row), self.plan[..links].to_vec()))
    }

    /// What a detector has noted: the running period, and the last full ones, 32 at most, the oldest first.
    ///
    /// # Errors
    /// `Other` where no detector has the number; `Untold` where the rows are kept, and memory was refused for telling them.
    pub fn read(&mut self, meter: u64) -> Result<(Running, Vec<Period>), Fault> {
        let (mut running, mut count) = (Running::default(), 0);
        let mut rows = vec![Period::default(); MOST_PERIODS];
        // SAFETY: as in `line`.
        let status = unsafe { streetsim_read(&raw mut self.handle, meter, &raw mut running, rows.as_mut_ptr(), rows.len(), &raw mut count) };
        self.done(status)?;
        rows.truncate(count);
        Ok((running, rows))
    }

    fn told(&mut self, status: u32, bytes: usize) -> Result<String, Fault> {
        match status {
            0 => Ok(String::from_utf8_lossy(&self.room[..bytes]).into_owned()),
            SHORT => {
                self.room.resize(bytes, 0);
                self.reply()
            }
            UNTOLD => Err(Fault::Untold),
            _ => Err(Fault::Starved),
        }
    }

    fn done(&mut self, status: u32) -> Result<(), Fault> {
        match status {
            0 => Ok(()),
            SHORT | 5 => Err(match self.reply()? {
                line if line == STARVED => Fault::Starved,
                line => Fault::Other(line),
            }),
            UNTOLD => Err(Fault::Untold),
            _ => Err(Fault::Starved),
        }
    }
}

fn place_of(row: &Row) -> Place {
    let &Row { state, link, lane, cell, speed, size, step } = row;
    match state {
        0 => Place::Cell { link, lane, cell, speed, size },
        1 => Place::Buffer { link, lane, ready: step, speed, size },
        2 => Place::Waiting { link, lane, depart: step, size },
        3 => Place::Arrived { step },
        _ => Place::Taken { clock: step },
    }
}

impl Drop for Session {
    fn drop(&mut self) {
        // SAFETY: as in `line`. The handle is closed then, and a second close does nothing.
        unsafe { streetsim_close(&raw mut self.handle) }
    }
}

#[cfg(test)]
mod tests {
    use super::*;

    const STREET: &str = r#"{"cmd":"load","nodes":[[1,1,4],[2,1,4],[3,1,4]],"links":[[10,1,2,1,40,3],[20,2,3,1,40,3]],"turns":[[10,0,20,0]],"zone":0,"dawdle":0,"change":0,"seed":0,"start":0}"#;

    #[test]
    fn drives_and_reads_a_detector() {
        let mut session = Session::open().unwrap();
        assert_eq!(session.line(STREET).unwrap(), "{\"links\":2,\"nodes\":3,\"turns\":1}\n");
        session.line(r#"{"cmd":"meter","link":20,"lane":0,"cell":5,"period":60}"#).unwrap();
        for number in 0..3 {
            assert_eq!(session.enter(&[10, 20], 0, 4 * number, 1).unwrap(), number);
        }
        assert_eq!(session.advance(60).unwrap(), 60);
        assert_eq!(session.count().unwrap().arrived, 3);
        assert!(matches!(session.vehicle(0).unwrap().0, Place::Arrived { .. }));
        let (running, rows) = session.read(0).unwrap();
        assert_eq!((running.start, running.steps, rows.len(), rows[0].passes, rows[0].speeds), (60, 0, 1, 3, 9));
        assert!(matches!(session.read(1), Err(Fault::Other(reply)) if reply.contains("NoMeter")));
    }

    #[test]
    fn tells_what_was_refused_and_goes_on() {
        let mut session = Session::open().unwrap();
        assert_eq!(session.count(), Err(Fault::Other("{\"error\":1,\"name\":\"NotLoaded\"}\n".into())));
        session.room = vec![0; 1];
        assert_eq!(session.line(STREET).unwrap(), "{\"links\":2,\"nodes\":3,\"turns\":1}\n");
        assert_eq!(session.line("  ").unwrap(), "");
        let mut moved = session;
        assert_eq!(std::thread::spawn(move || moved.advance(5)).join().unwrap(), Ok(5));
    }
}
