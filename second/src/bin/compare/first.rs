//! The first program, through its C interface; lent lists lie between guards.

pub type Answer = [u64; 4];

/// What Closing answers where it does not refuse.
pub const FOUND: Answer = [0, 0, 0, 0];
pub const NONE: Answer = [0, 1, 0, 0];
pub const UNFINISHED: Answer = [0, 2, 0, 0];

extern "C" {
    fn basmuthar_size(record: *const u8, record_len: usize, answer: *mut u64);
    fn basmuthar_compile(
        record: *const u8,
        record_len: usize,
        list: *mut i32,
        list_len: usize,
        answer: *mut u64,
    );
    fn basmuthar_decode(
        record: *const u8,
        record_len: usize,
        model: *const u8,
        model_len: usize,
        values: *mut i32,
        values_len: usize,
        booleans: *mut u8,
        booleans_len: usize,
        answer: *mut u64,
    );
    fn basmuthar_judge(
        record: *const u8,
        record_len: usize,
        values: *const i32,
        values_len: usize,
        booleans: *const u8,
        booleans_len: usize,
        answer: *mut u64,
    );
    fn basmuthar_image(
        record: *const u8,
        record_len: usize,
        values: *const i32,
        values_len: usize,
        booleans: *const u8,
        booleans_len: usize,
        model: *mut u8,
        model_len: usize,
        answer: *mut u64,
    );
    fn basmuthar_closing(
        record: *const u8,
        record_len: usize,
        variable: usize,
        replies: *const u8,
        replies_len: usize,
        hours: *mut i32,
        answer: *mut u64,
    );
}

/// How many places on each side of a lent list are watched.
const GUARD: usize = 8;

/// A list to lend, with watched places before and behind it.
pub struct Lent<T> {
    places: Vec<T>,
    guard: T,
}

impl<T: Copy + PartialEq> Lent<T> {
    pub fn new(list: &[T], guard: T) -> Lent<T> {
        let mut places = vec![guard; GUARD];
        places.extend(list);
        places.extend([guard; GUARD]);
        Lent { places, guard }
    }

    pub fn start(&mut self) -> *mut T {
        self.places[GUARD..].as_mut_ptr()
    }

    /// Hands the contents back; whether the guards are as they were.
    pub fn give_back(&self, list: &mut [T]) -> bool {
        let end = GUARD + list.len();
        list.copy_from_slice(&self.places[GUARD..end]);
        let mut guards = self.places[..GUARD].iter().chain(&self.places[end..]);
        guards.all(|place| *place == self.guard)
    }
}

/// What the answer holds before a call, and where a guard was written over.
pub const UNANSWERED: Answer = [u64::MAX; 4];

pub fn size(record: &[u8]) -> Answer {
    let mut answer = UNANSWERED;
    unsafe { basmuthar_size(record.as_ptr(), record.len(), answer.as_mut_ptr()) };
    answer
}

pub fn compile(record: &[u8], list: &mut [i32]) -> Answer {
    let mut answer = UNANSWERED;
    let mut lent = Lent::new(list, -77);
    unsafe {
        basmuthar_compile(
            record.as_ptr(),
            record.len(),
            lent.start(),
            list.len(),
            answer.as_mut_ptr(),
        );
    }
    unless_broken(answer, lent.give_back(list))
}

pub fn decode(record: &[u8], model: &[u8], values: &mut [i32], booleans: &mut [u8]) -> Answer {
    let mut answer = UNANSWERED;
    let mut lent_values = Lent::new(values, -77);
    let mut lent_booleans = Lent::new(booleans, 77);
    unsafe {
        basmuthar_decode(
            record.as_ptr(),
            record.len(),
            model.as_ptr(),
            model.len(),
            lent_values.start(),
            values.len(),
            lent_booleans.start(),
            booleans.len(),
            answer.as_mut_ptr(),
        );
    }
    let values_whole = lent_values.give_back(values);
    let booleans_whole = lent_booleans.give_back(booleans);
    unless_broken(answer, values_whole && booleans_whole)
}

pub fn judge(record: &[u8], values: &[i32], booleans: &[u8]) -> Answer {
    let mut answer = UNANSWERED;
    unsafe {
        basmuthar_judge(
            record.as_ptr(),
            record.len(),
            values.as_ptr(),
            values.len(),
            booleans.as_ptr(),
            booleans.len(),
            answer.as_mut_ptr(),
        );
    }
    answer
}

pub fn image(record: &[u8], values: &[i32], booleans: &[u8], model: &mut [u8]) -> Answer {
    let mut answer = UNANSWERED;
    let mut lent = Lent::new(model, 77);
    unsafe {
        basmuthar_image(
            record.as_ptr(),
            record.len(),
            values.as_ptr(),
            values.len(),
            booleans.as_ptr(),
            booleans.len(),
            lent.start(),
            model.len(),
            answer.as_mut_ptr(),
        );
    }
    unless_broken(answer, lent.give_back(model))
}

/// The hours are three: a value three times, or low, high and the next question.
pub fn closing(record: &[u8], variable: usize, replies: &[u8], hours: &mut [i32]) -> Answer {
    let mut answer = UNANSWERED;
    let mut lent = Lent::new(hours, -77);
    unsafe {
        basmuthar_closing(
            record.as_ptr(),
            record.len(),
            variable,
            replies.as_ptr(),
            replies.len(),
            lent.start(),
            answer.as_mut_ptr(),
        );
    }
    unless_broken(answer, lent.give_back(hours))
}

pub fn unless_broken(answer: Answer, whole: bool) -> Answer {
    if whole {
        answer
    } else {
        UNANSWERED
    }
}
