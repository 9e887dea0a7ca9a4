//! The numbers that document 01 fixes: results, refusals and the sizes of things.

pub const TASKS: usize = 31;
pub const LEVELS: usize = 15;
pub const ENTRIES: u8 = 8;
/// Room for one item of four bytes for each task.
pub const ROOM: usize = 124;
/// The longest a wait with a time may be, in ticks.
pub const LONGEST: u32 = 2147483647;

pub mod result {
    pub const WAITS: u8 = 0;
    pub const ELAPSED: u8 = 1;
    pub const SERVED: u8 = 2;
    pub const CALL_EXPIRED: u8 = 3;
    pub const TASKING_ERROR: u8 = 4;
    pub const ACCEPTED: u8 = 5;
    pub const DELAY_TAKEN: u8 = 6;
    pub const ELSE_TAKEN: u8 = 7;
    pub const NOT_NOW: u8 = 8;
    pub const PROGRAM_ERROR: u8 = 9;
    pub const DONE: u8 = 10;
}

pub mod refusal {
    pub const NONE: u8 = 0;
    pub const SHORT_ROOM: u8 = 1;
    pub const BAD_STATE: u8 = 2;
    pub const BAD_FIELD: u8 = 3;
    pub const NO_TASK: u8 = 4;
    pub const NO_TARGET: u8 = 5;
    pub const NO_ENTRY: u8 = 6;
    pub const NOT_SERVING: u8 = 7;
    pub const STILL_SERVING: u8 = 8;
    pub const FULL: u8 = 9;
    pub const BAD_RECORD: u8 = 11;
    pub const BAD_SETTING: u8 = 17;
}
