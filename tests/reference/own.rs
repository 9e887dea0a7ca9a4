//! The supervisor's functions on its own struct, no bytes in between, and the library's `card_step`, as tests/own_form.py
//! compiles them.
//!
//! A state is made of bytes by the library's own `state_in` and read back by its `store`. So little is assumed of the
//! form: a struct goes by a pointer, as a result too; a slice goes as a pointer and a number of bytes; the call
//! of a record that was read lies behind eight bytes, the answer of a step behind the 632 of the state. Where one of these
//! is wrong, `agree` of bench.rs fails.

use crate::flat::STATE;

const CALL_AT: usize = 8;
const ANSWER_AT: usize = 632;
/// The bytes of a debouncer's card: those of its supervisor, and five for each contact.
pub const CARD: usize = STATE + 8 * 5;

/// A struct of the supervisor, with room for the largest: a state and an answer.
#[repr(C, align(16))]
#[derive(Clone)]
pub struct Form([u8; 640]);

extern "C" {
    #[link_name = "codec::state_in"]
    fn state_in(state: *mut Form, bytes: *const u8, length: usize);
    #[link_name = "codec::store"]
    fn store(state: *const Form, bytes: *mut u8, length: usize);
    #[link_name = "card::card_step"]
    fn card_step(
        state: *mut u8,
        state_length: usize,
        record: *const u8,
        record_length: usize,
        room: *mut u8,
        room_length: usize,
        answer: *mut u8,
        answer_length: usize,
    ) -> u8;
    #[link_name = "card::contacts::debounce_fresh"]
    fn debounce_fresh(card: *mut u8, card_length: usize, settings: *const u8, settings_length: usize) -> u8;
    #[link_name = "card::contacts::debounce_tick"]
    fn debounce_tick(card: *mut u8, card_length: usize, bits: u8, report: *mut u8, report_length: usize) -> u8;
    #[link_name = "calls::reader::read_record"]
    fn read_record(read: *mut Form, record: *const u8, length: usize);
    #[link_name = "supervisor::step"]
    fn supervisor_step(stepped: *mut Form, state: *const Form, call: *const u8, room: *mut u8, room_length: usize);
    #[link_name = "soundness::is_sound"]
    fn is_sound(state: *const Form) -> u8;
    #[link_name = "table::dispatch::running"]
    fn dispatched(state: *const Form) -> u8;
}

pub fn none() -> Form {
    Form([0; 640])
}

pub fn state(bytes: &[u8; STATE]) -> Form {
    let mut state = none();
    // SAFETY: the function reads the bytes that are lent to it and writes a state, for which there is room.
    unsafe { state_in(&mut state, bytes.as_ptr(), bytes.len()) };
    state
}

pub fn bytes(state: &Form) -> [u8; STATE] {
    let mut bytes = [0; STATE];
    // SAFETY: the function reads a state and writes the bytes that are lent to it.
    unsafe { store(state, bytes.as_mut_ptr(), bytes.len()) };
    bytes
}

/// What the reader makes of a record.
pub fn read(record: &[u8]) -> Form {
    let mut read = none();
    // SAFETY: the function reads the bytes that are lent to it and writes what was read, for which there is room.
    unsafe { read_record(&mut read, record.as_ptr(), record.len()) };
    read
}

pub fn step(state: &Form, read: &Form, room: &mut [u8], stepped: &mut Form) {
    let call = read.0[CALL_AT..].as_ptr();
    // SAFETY: the function reads a state and a call, and writes the bytes that are lent to it and a state with an answer.
    unsafe { supervisor_step(stepped, state, call, room.as_mut_ptr(), room.len()) };
}

/// The seven numbers of the answer.
pub fn answer(stepped: &Form) -> [u8; 7] {
    std::array::from_fn(|i| stepped.0[ANSWER_AT + i])
}

pub fn sound(state: &Form) -> bool {
    // SAFETY: the function reads a state. Of its answer one bit is set or not.
    unsafe { is_sound(state) & 1 == 1 }
}

pub fn running(state: &Form) -> u8 {
    // SAFETY: the function reads a state.
    unsafe { dispatched(state) }
}

/// A step from bytes to bytes, as a program in C or Ada has it made: the seven numbers of the answer.
pub fn byte_step(state: &mut [u8; STATE], record: &[u8], room: &mut [u8]) -> [u8; 7] {
    let mut answer = [0; 7];
    let (lent, length) = (answer.as_mut_ptr(), answer.len());
    // SAFETY: the function reads and writes the bytes that are lent to it, and no others; the four do not overlap.
    unsafe {
        card_step(
            state.as_mut_ptr(),
            state.len(),
            record.as_ptr(),
            record.len(),
            room.as_mut_ptr(),
            room.len(),
            lent,
            length,
        )
    };
    answer
}

/// A debouncer's card with these settings, n and p of each contact; none where they are refused.
pub fn card(settings: &[(u8, u16); 8]) -> Option<[u8; CARD]> {
    let mut card = [0; CARD];
    let fields: Vec<u8> = (1..).zip(settings).flat_map(|(k, &(n, p))| [k, 0, 3, n, (p >> 8) as u8, p as u8]).collect();
    // SAFETY: the function reads and writes the bytes that are lent to it, and no others; the two do not overlap.
    let refusal = unsafe { debounce_fresh(card.as_mut_ptr(), CARD, fields.as_ptr(), fields.len()) };
    (refusal == 0).then_some(card)
}

/// One tick of a card: the report, none where the card is damaged.
pub fn tick(card: &mut [u8; CARD], bits: u8) -> Option<u8> {
    let mut report = 0;
    // SAFETY: the function reads and writes the bytes that are lent to it, and no others; the two do not overlap.
    let refusal = unsafe { debounce_tick(card.as_mut_ptr(), CARD, bits, &raw mut report, 1) };
    (refusal == 0).then_some(report)
}
