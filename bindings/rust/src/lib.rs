//! The proved verifier of conditional plans, called from Rust.
//!
//! A request has a domain table, a plan and goals in its bytes (docs/FORMAT.md). [`judge`] walks the plan over partial states and
//! answers; that its answer, the state in it included, is that of the definition is proved, for every request and budget
//! (docs/STATEMENTS.md). [`judge_guarded`] walks the plan of a guarded request, whose guards are to be known true all the way, [`judge_by_cases`] walks a
//! plan with each action tried in every filling of what is unknown, [`judge_indexed`] walks one by an index, which [`index`] writes and which says where the
//! lines of each action stand, [`judge_values`] walks the plan of a values request, whose fluents have 2 to 16 values each, [`check`] checks a derivation, lines
//! by which the plan reaches its goals, [`check_whether`] one that also says of fluents that they are known in the end, [`derive`](fn@derive) walks a plan and
//! gives a derivation that [`check`] accepts, [`release`] walks every plan of a release file, which has many plans over one table, and [`show`] gives the part of
//! an input that an answer is about; of these the same is proved. This crate adds names to the numbers and proves nothing. `examples/rust` of the repository is a
//! small program that uses it.
//!
//! ```
//! use glintstring::{judge, Answer, Input};
//!
//! # fn main() -> Result<(), Box<dyn std::error::Error>> {
//! // File A of the format: look at a bit, and convert the volume only where that is safe.
//! let file_a = [
//!     4, 3, 3, 3, 5, 7, 3, 1, 2, 0, 1, 6, 1, 0, 2, 4, 0, 3, 0, 0, 1, 1, 3, 2, 1, 2, 1, 0, 0, 0, 2, 0, 255, 2, 1, 1, 0, 2,
//!     1, 2, 1, 0, 0, 0, 1, 7, 1, 2,
//! ];
//! judge(&file_a, 100_000)?.verified()?;
//!
//! assert_eq!(judge(&file_a, 100_000)?, Answer::Verified { count: 5 });
//! assert_eq!(judge(&file_a, 4)?, Answer::BudgetSpent { budget: 4 });
//! assert_eq!(judge(&file_a[..47], 100_000)?, Answer::InputEnds { input: Input::Request, place: 47 });
//!
//! let refused = judge(&file_a[..47], 100_000)?.verified().unwrap_err();
//! assert_eq!(refused.to_string(), "not verified: the input ends where a byte is due (answer 11, place 47 of the request)");
//! # Ok(())
//! # }
//! ```
//!
//! # Stack
//!
//! A walk may need as much as [`STACK_NEEDED`] bytes of stack, more than the 2 MiB that a thread in Rust gets, and more than the 8 MiB that the
//! first thread of a process has as a rule; the request decides how much. [`judge`], [`judge_line`], [`judge_guarded`], [`judge_by_cases`], [`judge_indexed`],
//! [`judge_values`], [`derive`](fn@derive) and [`release`] see to that: they walk on a thread of their own. A [`Judge`] keeps such a thread for many calls. Those
//! of these with `_here` or `_packed` in their names walk on the caller's stack, and a walk that has too little of it is ended by the system, and the process with
//! it. [`index`], [`check`], [`check_whether`], [`plans`] and [`show`] need far less, whatever their inputs, and a thread's 2 MiB will do.
//!
//! # The library
//!
//! What is linked needs `libglintstring.a`; `cargo check` and `cargo doc` do without it. It is looked for in the folder that the variable
//! `GLINTSTRING_LIB_DIR` names, or else in `target/staticlib` of the repository, where `packaging/library` writes it for x86-64 Linux.
//! With the feature `prove` the build script runs that command.

#![deny(missing_docs)]

mod answer;
mod derived;
mod released;
mod serving;
mod values;

pub use answer::{Answer, Input, Judged, Mark, NotIndexed, NotVerified, Packed, State};
pub use derived::NotDerived;
pub use released::{NotReleased, PlanAnswer, Released};
pub use serving::Judge;
pub use values::Values;

use std::{io, thread};

/// The length of the lent state that [`judge_packed`], [`judge_guarded_packed`], [`judge_by_cases_packed`], [`judge_indexed_packed`] and
/// [`judge_values_packed`] take, which is the number of marks in a [`State`].
pub const STATE_LENGTH: usize = 128;

/// Guards that a guarded request may have.
pub const MOST_GUARDS: usize = 64;

/// Open fluents that an action may have where the call by cases meets it (FORMAT 22.8).
pub const MOST_OPEN: usize = 12;

/// Unknown fluents that a sensing action may have where the derive call meets it (FORMAT 24.4).
pub const MOST_FORKED: usize = 6;

/// Values that a fluent of a values request may have; it has two at the least (FORMAT 26.1).
pub const MOST_VALUES: usize = 16;

/// Bytes that the index of a request may have (FORMAT 23.5): a room of so many is never too short. Of a file that has an index one byte more need be read, and
/// what stands behind that changes no answer.
pub const INDEX_MOST: usize = 1_276;

/// Plans that a release file may have.
pub const MOST_PLANS: usize = 64;

/// Numbers that the lent row of [`release_packed`] has for each plan: number, place, count and input.
pub const ROW_NUMBERS: usize = 4;

/// Bytes that a request, a guarded request, a values request or a release file may have. One byte more is answered as any longer one, so that no more of a file
/// need be read.
pub const REQUEST_LIMIT: usize = 16_384;

/// Bytes that a derivation may have, in the same way. [`derive_packed`] writes none that is longer: a room of so many bytes is as good as any.
pub const DERIVATION_LIMIT: usize = 32_768;

/// Bytes of free stack that a walk may need (docs/MEASURED.md): 16 MiB.
pub const STACK_NEEDED: usize = 16 << 20;

/// The stack of a thread that walks: what is needed, and 1 MiB for the thread itself.
const STACK: usize = STACK_NEEDED + (1 << 20);

extern "C" {
    // As include/glintstring.h has them.
    fn glintstring_judge(request: *const u8, request_length: usize, state: *mut u8, state_length: usize, budget: u32) -> u64;
    fn glintstring_judge_guarded(request: *const u8, request_length: usize, state: *mut u8, state_length: usize, budget: u32) -> u64;
    fn glintstring_judge_by_cases(request: *const u8, request_length: usize, state: *mut u8, state_length: usize, budget: u32) -> u64;
    fn glintstring_judge_indexed(
        request: *const u8,
        request_length: usize,
        index: *const u8,
        index_length: usize,
        state: *mut u8,
        state_length: usize,
        budget: u32,
    ) -> u64;
    fn glintstring_judge_values(request: *const u8, request_length: usize, state: *mut u8, state_length: usize, budget: u32) -> u64;
    fn glintstring_index(request: *const u8, request_length: usize, room: *mut u8, room_length: usize) -> u64;
    fn glintstring_judge_line(request: *const u8, request_length: usize, state: *mut u8, state_length: usize, budget: u32, line: *mut u32) -> u64;
    fn glintstring_check(request: *const u8, request_length: usize, derivation: *const u8, derivation_length: usize) -> u64;
    fn glintstring_check_whether(request: *const u8, request_length: usize, derivation: *const u8, derivation_length: usize) -> u64;
    fn glintstring_derive(request: *const u8, request_length: usize, out: *mut u8, out_length: usize, budget: u32) -> u64;
    fn glintstring_release(file: *const u8, file_length: usize, row: *mut u32, row_length: usize, budget: u32) -> u64;
    fn glintstring_plans(file: *const u8, file_length: usize) -> u32;
    fn glintstring_show(answer: u64, request: *const u8, request_length: usize, derivation: *const u8, derivation_length: usize) -> u64;
}

/// The three names of a call that walks the plan of a request: on a thread that has the stack, on the caller's stack, and as the call is exported. What a
/// call takes beside the request are bytes as well, and `$unpack` takes its answer apart.
macro_rules! walking_call {
    (
        $exported:ident(request $(, $beside:ident)*), $unpack:path;
        $(#[$doc:meta])* $name:ident;
        $(#[$here_doc:meta])* $here:ident;
        $(#[$packed_doc:meta])* $packed:ident;
    ) => {
        $(#[$doc])*
        ///
        /// # Errors
        ///
        /// Where the system gives no such thread. Then nothing is judged.
        ///
        /// # Panics
        ///
        /// Where the library linked gives an answer that the format does not have, which the proved one does not.
        pub fn $name(request: &[u8], $($beside: &[u8],)* budget: u32) -> io::Result<Answer> {
            with_stack(|| $here(request, $($beside,)* budget))
        }

        $(#[$here_doc])*
        ///
        /// # Panics
        ///
        /// Where the library linked gives an answer that the format does not have, which the proved one does not.
        pub fn $here(request: &[u8], $($beside: &[u8],)* budget: u32) -> Answer {
            let mut state = [0; STATE_LENGTH];
            let packed = $packed(request, $($beside,)* &mut state, budget);
            $unpack(packed, &state)
        }

        $(#[$packed_doc])*
        pub fn $packed(request: &[u8], $($beside: &[u8],)* state: &mut [u8], budget: u32) -> Packed {
            // Each pointer is valid for its length, the state's for writing too and for nobody else, and the call keeps none.
            Packed(unsafe { $exported(request.as_ptr(), request.len(), $($beside.as_ptr(), $beside.len(),)* state.as_mut_ptr(), state.len(), budget) })
        }
    };
}

/// Walks on a thread that has the stack, and waits for it.
fn with_stack<T: Send>(walk: impl FnOnce() -> T + Send) -> io::Result<T> {
    thread::scope(|scope| {
        let judging = thread::Builder::new().stack_size(STACK).spawn_scoped(scope, walk)?;
        Ok(judging.join().unwrap_or_else(|panic| std::panic::resume_unwind(panic)))
    })
}

walking_call! {
    glintstring_judge(request), Answer::unpack;

    /// The walk call: judges a request by walking its plan, with a count of at most `budget`.
    ///
    /// Any bytes may be given, of any length. The walk runs on a thread of its own that has enough stack, and the caller waits for it; for many
    /// calls a [`Judge`] keeps one. [`Answer::GoalMissed`] and [`Answer::NotExecutable`] have the state concerned in them.
    ///
    /// ```
    /// use glintstring::{judge, Answer};
    ///
    /// # fn main() -> std::io::Result<()> {
    /// // One fluent, nothing known of it, one action without lines; the plan is that action.
    /// let request = [1, 1, 0, 0, 0, 0, 0, 1, 0, 0, 0];
    /// let answer = judge(&request, 10)?;
    /// assert!(!answer.is_verified());
    /// let Answer::NotExecutable { place, count, state } = answer else { panic!("{answer}") };
    /// assert_eq!((place, count), (8, 0));
    /// assert_eq!(state.line(1), "?");
    /// # Ok(())
    /// # }
    /// ```
    judge;

    /// [`judge`] on the caller's own stack, which is to have [`STACK_NEEDED`] free bytes: for a caller that has them, and wants no thread.
    ///
    /// A call that has too little stack is ended by the system, and the process with it.
    ///
    /// ```
    /// use glintstring::{judge_here, Answer};
    ///
    /// # std::thread::Builder::new().stack_size(glintstring::STACK_NEEDED + (1 << 20)).spawn(|| {
    /// // One fluent, known true, which is the goal; one action, and an empty plan.
    /// let request = [1, 1, 1, 0, 0, 0, 0, 0, 0, 1, 0, 0];
    /// assert_eq!(judge_here(&request, 1), Answer::Verified { count: 1 });
    /// # }).unwrap().join().unwrap();
    /// ```
    judge_here;

    /// The walk call as it is exported: the same as [`judge_here`], with a lent state, and with the answer packed into one number.
    ///
    /// After answers 1 and 2 the lent bytes are the state concerned, which [`State::from_bytes`] reads; after every other answer they are what
    /// they were. Where there are not [`STATE_LENGTH`] of them, the answer is 9.
    ///
    /// ```
    /// let packed = glintstring::judge_packed(&[], &mut [0; 128], 0);
    /// assert_eq!((packed.number(), packed.input(), packed.place(), packed.count()), (11, 1, 0, 0));
    /// ```
    judge_packed;
}

/// [`judge`] with the line: in [`Answer::NotExecutable`] at an action, which of its executability lines was missing (FORMAT 18.9 to 18.14).
///
/// ```
/// use glintstring::{judge, judge_line, show, Answer};
///
/// # fn main() -> std::io::Result<()> {
/// // Two fluents, the first known true; action 0 may be run where both are false, or where both are true, and is the plan.
/// let request = [2, 1, 1, 0, 0, 2, 0, 2, 1, 3, 0, 2, 0, 2, 0, 0, 1, 0, 0, 0];
/// let judged = judge_line(&request, 10)?;
/// assert_eq!(judged.answer, judge(&request, 10)?);
/// assert_eq!((judged.answer.number(), judged.answer.place()), (2, 17));
/// // The second line lacks one literal, and the first lacks two.
/// assert_eq!(judged.line, Some(10));
/// assert_eq!(request[10..14], [0, 2, 0, 2]);
/// # Ok(())
/// # }
/// ```
///
/// # Errors
///
/// Where the system gives no such thread. Then nothing is judged.
///
/// # Panics
///
/// Where the library linked gives what the format does not have, which the proved one does not.
pub fn judge_line(request: &[u8], budget: u32) -> io::Result<Judged> {
    with_stack(|| judge_line_here(request, budget))
}

/// [`judge_line`] on the caller's own stack, as [`judge_here`] is [`judge`].
///
/// # Panics
///
/// Where the library linked gives what the format does not have, which the proved one does not.
pub fn judge_line_here(request: &[u8], budget: u32) -> Judged {
    let mut state = [0; STATE_LENGTH];
    let mut line = 0;
    let packed = judge_line_packed(request, &mut state, budget, &mut line);
    Judged::unpack(packed, &state, line)
}

/// The walk call with the line as it is exported: the same as [`judge_packed`], with the line's place written to a lent number, which is 0 where
/// the answer carries none.
///
/// ```
/// let mut line = 7;
/// let packed = glintstring::judge_line_packed(&[], &mut [0; glintstring::STATE_LENGTH], 0, &mut line);
/// assert_eq!((packed.number(), line), (11, 0));
/// ```
pub fn judge_line_packed(request: &[u8], state: &mut [u8], budget: u32, line: &mut u32) -> Packed {
    // Each pointer is valid for its length, the state's and the line's for writing too and for nobody else, and the call keeps none.
    Packed(unsafe { glintstring_judge_line(request.as_ptr(), request.len(), state.as_mut_ptr(), state.len(), budget, line) })
}

walking_call! {
    glintstring_judge_guarded(request), Answer::unpack_guarded;

    /// The guarded call: judges a guarded request by walking its plan, with a count of at most `budget`.
    ///
    /// A guarded request has a ninth section behind the eight of a request, a list of at most [`MOST_GUARDS`] literals (FORMAT 21.2). Each of them is to be
    /// known true in every state that the walk meets: the first, and every one to which an action leads. The first state that lacks one ends the walk with
    /// [`Answer::GuardBroken`]; all else is answered as [`judge`] answers. Any bytes may be given, of any length. The walk runs on a thread of its own that has
    /// enough stack, and the caller waits for it; for many calls a [`Judge`] keeps one.
    ///
    /// ```
    /// use glintstring::{judge, judge_guarded, show, Answer, Input};
    ///
    /// # fn main() -> std::io::Result<()> {
    /// // Two fluents: open for writing, which is false, and new map. Action 0 opens, action 1 makes the map, action 2 closes; the plan is all three.
    /// let table = [2, 3, 2, 1, 3, 3, 0, 0, 0, 1, 2, 0, 2, 1, 0, 3, 0, 0, 1, 0, 2, 0, 0];
    /// let request = [&table[..], &[0, 3, 0, 1, 2, 2, 1, 2, 0]].concat();
    /// assert_eq!(judge(&request, 100)?, Answer::Verified { count: 4 });
    ///
    /// // The same, guarded by this: not open for writing. And with no guards.
    /// let guarded = [&request[..], &[1, 1]].concat();
    /// let answer = judge_guarded(&guarded, 100)?;
    /// let Answer::GuardBroken { place, count, state } = answer else { panic!("{answer}") };
    /// assert_eq!((place, count), (33, 1));
    /// assert_eq!(state.line(2), "+-");
    /// assert_eq!(show(answer, &guarded, &[]), [1]);
    /// assert_eq!(judge_guarded(&[&request[..], &[0]].concat(), 100)?, Answer::Verified { count: 4 });
    ///
    /// // Nothing in the bytes says whether guards follow.
    /// assert_eq!(judge_guarded(&request, 100)?, Answer::InputEnds { input: Input::Request, place: 32 });
    /// assert_eq!(judge(&guarded, 100)?, Answer::BytesLeftOver { input: Input::Request, place: 32 });
    /// # Ok(())
    /// # }
    /// ```
    judge_guarded;

    /// [`judge_guarded`] on the caller's own stack, as [`judge_here`] is [`judge`].
    judge_guarded_here;

    /// The guarded call as it is exported: the same as [`judge_guarded_here`], with a lent state, and with the answer packed into one number.
    ///
    /// After answers 1, 2 and 43 the lent bytes are the state concerned, which [`State::from_bytes`] reads; after every other answer they are what
    /// they were. Where there are not [`STATE_LENGTH`] of them, the answer is 9.
    ///
    /// ```
    /// // One fluent, nothing known of it, one action and an empty plan; the guard is that the fluent is true.
    /// let request = [1, 1, 0, 0, 0, 0, 0, 0, 0, 0, 1, 0];
    /// let packed = glintstring::judge_guarded_packed(&request, &mut [0; 128], 0);
    /// assert_eq!((packed.number(), packed.input(), packed.place(), packed.count()), (43, 1, 11, 0));
    /// ```
    judge_guarded_packed;
}

walking_call! {
    glintstring_judge_by_cases(request), Answer::unpack_by_cases;

    /// The call by cases: judges a request by walking its plan, with a count of at most `budget` and with each action tried in every complete filling of the
    /// state.
    ///
    /// A filling gives each unknown fluent one of true and false. An action can be run where it can be run in each filling, and what is known afterwards is
    /// what all the results share; branchings, goals and whether entries go by what is known, as with [`judge`] (FORMAT 22.1 to 22.6). So more plans are
    /// verified. An action that has more than [`MOST_OPEN`] unknown fluents in its bodies ends the walk with [`Answer::TooManyCases`], also where [`judge`]
    /// would go on; all else is answered as [`judge`] answers. Any bytes may be given, of any length. The walk runs on a thread of its own that has enough
    /// stack, and the caller waits for it; for many calls a [`Judge`] keeps one. An action may take as long as 4,096 fillings do, and is counted once.
    ///
    /// ```
    /// use glintstring::{judge, judge_by_cases, show, Answer};
    ///
    /// # fn main() -> std::io::Result<()> {
    /// // Case 10 of the format: two fluents, nothing known of them. Action 0 makes the first true where the second is true, and where it is false.
    /// let request = [2, 1, 0, 2, 0, 0, 1, 2, 0, 0, 1, 3, 1, 0, 0, 0, 0, 1, 0, 1, 0, 0];
    /// assert_eq!(judge(&request, 100)?.number(), 1);
    /// assert_eq!(judge_by_cases(&request, 100)?, Answer::Verified { count: 2 });
    ///
    /// // The action makes fluent 0 true where 13 fluents are, of which nothing is known.
    /// let table = [13, 1, 0, 1, 0, 0, 13, 0, 2, 4, 6, 8, 10, 12, 14, 16, 18, 20, 22, 24, 1, 0, 0, 0];
    /// let wide = [&table[..], &[0, 1, 0, 0, 0]].concat();
    /// let answer = judge_by_cases(&wide, 100)?;
    /// assert_eq!(answer, Answer::TooManyCases { place: 26 });
    /// assert_eq!(show(answer, &wide, &[]), [0, 0, 0]);
    /// assert_eq!(judge(&wide, 100)?, Answer::Verified { count: 2 });
    /// # Ok(())
    /// # }
    /// ```
    judge_by_cases;

    /// [`judge_by_cases`] on the caller's own stack, as [`judge_here`] is [`judge`].
    judge_by_cases_here;

    /// The call by cases as it is exported: the same as [`judge_by_cases_here`], with a lent state, and with the answer packed into one number.
    ///
    /// After answers 1 and 2 the lent bytes are the state concerned, which [`State::from_bytes`] reads; after every other answer, 44 too, they are what
    /// they were. Where there are not [`STATE_LENGTH`] of them, the answer is 9.
    ///
    /// ```
    /// // One fluent, nothing known of it; action 0 makes it true where it is false, and is the plan.
    /// let request = [1, 1, 0, 1, 0, 0, 1, 1, 1, 0, 0, 0, 0, 1, 0, 1, 0, 0];
    /// let packed = glintstring::judge_by_cases_packed(&request, &mut [0; 128], 2);
    /// assert_eq!((packed.number(), packed.input(), packed.place(), packed.count()), (0, 0, 0, 2));
    /// ```
    judge_by_cases_packed;
}

walking_call! {
    glintstring_judge_indexed(request, index), Answer::unpack_indexed;

    /// The indexed call: judges a request by walking its plan, with a count of at most `budget`, and finds the lines of an action by an index of the request.
    ///
    /// An index is what [`index`] gives for the request, or for another that differs from it only in its plan and its goals (FORMAT 23.1 to 23.5). It does not
    /// replace the table: the request is read and tested as by every call, and the index is compared with the one that it should be before anything is walked.
    /// With that one every answer is what [`judge`] answers. With another it is [`Answer::IndexDiffers`], unless the request is refused. Any bytes may be
    /// given, of any length. The walk runs on a thread of its own that has enough stack, and the caller waits for it; for many calls a [`Judge`] keeps one.
    ///
    /// ```
    /// use glintstring::{index, judge, judge_indexed, Answer};
    ///
    /// # fn main() -> Result<(), Box<dyn std::error::Error>> {
    /// // One fluent, nothing known of it; action 0 makes it true, and action 1 has no lines.
    /// let table = [1, 2, 0, 1, 0, 0, 0, 1, 0, 0, 0];
    /// // Each plan is one action, and wants the fluent to be true.
    /// let (good, bad) = ([&table[..], &[0, 1, 0, 1, 0, 0]].concat(), [&table[..], &[0, 1, 1, 1, 0, 0]].concat());
    /// let by = index(&good)?;
    /// assert_eq!(judge_indexed(&good, &by, 100)?, Answer::Verified { count: 2 });
    /// assert_eq!(judge_indexed(&bad, &by, 100)?, judge(&bad, 100)?);
    ///
    /// // The index ends too soon.
    /// let answer = judge_indexed(&good, &by[..5], 100)?;
    /// assert_eq!(answer, Answer::IndexDiffers { place: 5 });
    /// let error = answer.verified().unwrap_err();
    /// assert_eq!(error.to_string(), "not verified: index differs (answer 45, place 5 of the index)");
    /// # Ok(())
    /// # }
    /// ```
    judge_indexed;

    /// [`judge_indexed`] on the caller's own stack, as [`judge_here`] is [`judge`].
    judge_indexed_here;

    /// The indexed call as it is exported: the same as [`judge_indexed_here`], with a lent state, and with the answer packed into one number.
    ///
    /// After answers 1 and 2 the lent bytes are the state concerned, which [`State::from_bytes`] reads; after every other answer, 45 too, they are what
    /// they were. Where there are not [`STATE_LENGTH`] of them, the answer is 9.
    ///
    /// ```
    /// // One fluent, one action and an empty plan: the index has two counts.
    /// let request = [1, 1, 0, 0, 0, 0, 0, 0, 0, 0];
    /// let packed = glintstring::judge_indexed_packed(&request, &[0, 0, 0], &mut [0; 128], 0);
    /// assert_eq!((packed.number(), packed.input(), packed.place(), packed.count()), (45, 3, 2, 0));
    /// ```
    judge_indexed_packed;
}

walking_call! {
    glintstring_judge_values(request), Answer::unpack_values;

    /// The values call: judges a values request by walking its plan, with a count of at most `budget`.
    ///
    /// In a values request each fluent has 2 to [`MOST_VALUES`] values, known by the numbers from 0 up: the fluent count is followed by a byte for each fluent,
    /// the number of its values. A literal has two bytes, a fluent f and then 2v for "f is v" or 2v+1 for "f is not v" (FORMAT 26.2 and 26.5). A state knows one
    /// value of a fluent or none, and a sensing action leads to a state for each value of each unknown fluent that it senses. An effect that says "is not" is
    /// refused by [`Answer::SaysIsNot`]; all else is answered as [`judge`] answers, but [`Answer::GoalMissedWithValues`] and
    /// [`Answer::NotExecutableWithValues`] have [`Values`] in them. Any bytes may be given, of any length. The walk runs on a thread of its own that has enough
    /// stack, and the caller waits for it; for many calls a [`Judge`] keeps one.
    ///
    /// ```
    /// use glintstring::{judge_values, show, Answer};
    ///
    /// # fn main() -> std::io::Result<()> {
    /// // A traffic light with three colours, of which nothing is known, and an action that looks at it. The plan is that action.
    /// let look = [1, 3, 1, 0, 0, 1, 0, 0, 1, 0, 0, 0, 1, 0];
    /// // Afterwards its colour is known, whichever it is. But it need not be the first one.
    /// let (whether, first) = ([&look[..], &[0, 1, 0]].concat(), [&look[..], &[1, 0, 0, 0]].concat());
    /// assert_eq!(judge_values(&whether, 100)?, Answer::Verified { count: 4 });
    /// let answer = judge_values(&first, 100)?;
    /// let Answer::GoalMissedWithValues { place, count, values } = answer else { panic!("{answer}") };
    /// assert_eq!((place, count, values.value(0)), (15, 4, Some(1)));
    /// assert_eq!(show(answer, &first, &[]), [0, 0, 0]);
    ///
    /// // An effect that says that fluent 0 is not 1.
    /// assert_eq!(judge_values(&[1, 3, 1, 0, 1, 0, 0, 3], 100)?, Answer::SaysIsNot { place: 6 });
    /// # Ok(())
    /// # }
    /// ```
    judge_values;

    /// [`judge_values`] on the caller's own stack, as [`judge_here`] is [`judge`].
    judge_values_here;

    /// The values call as it is exported: the same as [`judge_values_here`], with a lent state, and with the answer packed into one number.
    ///
    /// After answers 1 and 2 the lent bytes are the state concerned, which [`Values::from_bytes`] reads; after every other answer, 46 too, they are what
    /// they were. Where there are not [`STATE_LENGTH`] of them, the answer is 9.
    ///
    /// ```
    /// // One fluent with three values, known to be 2, one action and an empty plan; the goal is that the fluent is 1.
    /// let request = [1, 3, 1, 1, 0, 4, 0, 0, 0, 0, 0, 1, 0, 2, 0];
    /// let mut lent = [9; 128];
    /// let packed = glintstring::judge_values_packed(&request, &mut lent, 1);
    /// assert_eq!((packed.number(), packed.input(), packed.place(), packed.count()), (1, 1, 12, 1));
    /// assert_eq!(lent[..2], [3, 0]);
    /// ```
    judge_values_packed;
}

/// The index call: the index of a request, which says where the lines of each action stand in it.
///
/// For each action, from 0 up, an index has a count byte and as many two-byte places with the high byte first, those of the action's effects in the request,
/// and then the same of its executability lines (FORMAT 23.2). It depends on sections 1 to 4 of the request alone, so requests that differ only in plans and
/// goals have one index. [`judge_indexed`] walks by it. Any bytes may be given, of any length.
///
/// ```
/// use glintstring::{index, Answer};
///
/// # fn main() -> Result<(), Box<dyn std::error::Error>> {
/// // One fluent; action 0 makes it true, and can always be run, and action 1 has no lines.
/// let request = [1, 2, 0, 1, 0, 0, 0, 1, 0, 0, 0, 0, 0, 0, 0];
/// assert_eq!(index(&request)?, [1, 0, 4, 1, 0, 8, 0, 0]);
///
/// // A request that can't be read has none.
/// let error = index(&request[..14]).unwrap_err();
/// assert_eq!(error.answer().number(), 11);
/// assert_eq!(error.to_string(), "not indexed: the input ends where a byte is due (answer 11, place 14 of the request)");
/// # Ok(())
/// # }
/// ```
///
/// # Errors
///
/// Where the request is refused. The error has the answer, which is what [`judge`] answers then.
///
/// # Panics
///
/// Where the library linked gives what the format does not have, which the proved one does not.
pub fn index(request: &[u8]) -> Result<Vec<u8>, NotIndexed> {
    let mut room = [0; INDEX_MOST];
    let packed = index_packed(request, &mut room);
    Answer::unpack_index(packed, &room).map(<[u8]>::to_vec)
}

/// The index call as it is exported: the same as [`index`], with a lent room, and with the answer packed into one number.
///
/// After answer 0 the room starts with the index, whose length is the answer's count, and the bytes behind it are what they were; [`Answer::unpack_index`]
/// takes both apart. After every other answer all bytes are what they were. Where the request is not refused and the room has fewer bytes than the index, the
/// answer is 39; [`INDEX_MOST`] bytes are enough for every request.
///
/// ```
/// // One fluent, one action and an empty plan: the index has two counts.
/// let request = [1, 1, 0, 0, 0, 0, 0, 0, 0, 0];
/// let mut room = [9; 3];
/// assert_eq!(glintstring::index_packed(&request, &mut room[..1]).number(), 39);
/// assert_eq!(room, [9, 9, 9]);
/// let packed = glintstring::index_packed(&request, &mut room);
/// assert_eq!((packed.number(), packed.input(), packed.place(), packed.count()), (0, 0, 0, 2));
/// assert_eq!(room, [0, 0, 9]);
/// ```
pub fn index_packed(request: &[u8], room: &mut [u8]) -> Packed {
    // Each pointer is valid for its length, the room's for writing too and for nobody else, and the call keeps neither.
    Packed(unsafe { glintstring_index(request.as_ptr(), request.len(), room.as_mut_ptr(), room.len()) })
}

/// The derivation call: checks a derivation of what a request asks.
///
/// Any bytes may be given, of any length. The answer is [`Answer::Accepted`] exactly where both can be read and settled, the request has no
/// whether entry, each line follows by its rule from lines before it, and the last line is the question. Then the walk of the plan, without a
/// budget, is verified. For a request with whether entries there is [`check_whether`].
///
/// ```
/// use glintstring::{check, show, Answer, Input};
///
/// // Case 14 of the format: File A with an empty whether list, and nine lines that derive its question.
/// let request = [
///     4, 3, 3, 3, 5, 7, 3, 1, 2, 0, 1, 6, 1, 0, 2, 4, 0, 3, 0, 0, 1, 1, 3, 2, 1, 2, 1, 0, 0, 0, 2, 0, 255, 2, 1, 1, 0, 2, 1, 2,
///     1, 0, 0, 0, 1, 7, 0,
/// ];
/// let mut derivation = [
///     0, 9, // nine lines, each with X, its plan, Y, its rule and its citations
///     4, 0, 3, 5, 7, 0, 0, 4, 0, 3, 5, 7, 1, 0,
///     4, 0, 3, 5, 7, 0, 0, 1, 7, 6, 1, 0, 0,
///     4, 0, 3, 5, 7, 0, 1, 255, 2, 1, 1, 0, 2, 1, 2, 1, 0, 0, 0, 1, 7, 4, 1, 0, 1,
///     4, 1, 3, 5, 7, 0, 1, 1, 4, 1, 2, 5, 7, 2, 0,
///     4, 1, 2, 5, 7, 0, 1, 2, 4, 1, 2, 4, 7, 2, 0,
///     4, 1, 3, 5, 7, 0, 2, 1, 2, 4, 1, 2, 4, 7, 5, 2, 0, 3, 0, 4,
///     4, 1, 3, 5, 7, 0, 2, 1, 2, 1, 7, 6, 1, 0, 5,
///     4, 1, 3, 5, 7, 0, 1, 255, 2, 1, 1, 0, 2, 1, 2, 1, 0, 0, 0, 1, 7, 4, 1, 0, 6,
///     3, 3, 5, 7, 0, 2, 0, 255, 2, 1, 1, 0, 2, 1, 2, 1, 0, 0, 0, 1, 7, 3, 2, 0, 2, 0, 7,
/// ];
/// assert_eq!(check(&request, &derivation), Answer::Accepted);
/// assert_eq!(check(&request, &derivation[..170]), Answer::InputEnds { input: Input::Derivation, place: 170 });
///
/// // The last line cites its two readings in the other order.
/// derivation[168] = 7;
/// derivation[170] = 2;
/// let answer = check(&request, &derivation);
/// assert_eq!(answer, Answer::DoesNotFollow { place: 144 });
/// assert_eq!(show(answer, &request, &derivation)[..4], [3, 3, 5, 7]);
/// ```
///
/// # Panics
///
/// Where the library linked gives an answer that the format does not have, which the proved one does not.
pub fn check(request: &[u8], derivation: &[u8]) -> Answer {
    Answer::unpack_checked(check_packed(request, derivation))
}

/// The derivation call as it is exported: the same as [`check`], with the answer packed into one number.
///
/// ```
/// // One fluent, one action and an empty plan, whether the fluent is true or false.
/// let packed = glintstring::check_packed(&[1, 1, 0, 0, 0, 0, 0, 0, 0, 1, 0], &[]);
/// assert_eq!((packed.number(), packed.input(), packed.place(), packed.count()), (30, 1, 9, 0));
/// ```
pub fn check_packed(request: &[u8], derivation: &[u8]) -> Packed {
    // Each pointer is valid for its length, and the call writes nothing and keeps neither.
    Packed(unsafe { glintstring_check(request.as_ptr(), request.len(), derivation.as_ptr(), derivation.len()) })
}

/// The whether call: checks a derivation of what a request asks, its whether entries included.
///
/// Its derivations have the closing layout (FORMAT 17.3 to 17.8): the rule byte stands before the conclusion, the conclusion of some rules
/// is a fluent that is known, be it true or false, and after the lines a closing list names a line for the goals and one for each whether
/// entry. Any bytes may be given, of any length. The answer is [`Answer::Accepted`] exactly where both can be read and settled, each line
/// follows by its rule from lines before it, and the closing list is what the request asks. Then the walk of the plan, without a budget, is
/// verified. The answer is never [`Answer::WhetherAsked`] or [`Answer::NotTheQuestion`].
///
/// ```
/// use glintstring::{check, check_whether, Answer, Input};
///
/// // One fluent, one action, which can always be run and looks at the fluent, and it is the plan: no goal, and whether the fluent is true.
/// let request = [1, 1, 0, 0, 1, 0, 0, 1, 0, 0, 0, 1, 0, 0, 1, 0];
/// let mut derivation = [
///     0, 6, // six lines, each with X, its plan, its rule, its conclusion and its citations
///     1, 0, 0, 0, 1, 1, 0, 0, // true, and stays so, by rule 1
///     1, 0, 0, 0, 6, 0, 1, 0, 0, // so the empty plan can be run, by rule 6
///     1, 1, 0, 0, 1, 1, 1, 0, // false, and stays so
///     1, 1, 0, 0, 6, 0, 1, 0, 2, // the same of it
///     0, 0, 1, 0, 3, 0, 2, 0, 1, 0, 3, // whatever is seen, the plan can be run, by rule 3
///     0, 0, 1, 0, 7, 0, 0, // the look tells fluent 0, by rule 7
///     2, 0, 4, 0, 5, // the goals by line 4, the whether entry by line 5
/// ];
/// assert_eq!(check_whether(&request, &derivation), Answer::Accepted);
/// assert_eq!(check(&request, &derivation), Answer::WhetherAsked { place: 14 });
///
/// // The closing list names no line for the whether entry.
/// derivation[58] = 6;
/// assert_eq!(check_whether(&request, &derivation), Answer::ClosingNotRight { place: 57 });
/// assert_eq!(check_whether(&request, &derivation[..58]), Answer::InputEnds { input: Input::Derivation, place: 58 });
/// ```
///
/// # Panics
///
/// Where the library linked gives an answer that the format does not have, which the proved one does not.
pub fn check_whether(request: &[u8], derivation: &[u8]) -> Answer {
    Answer::unpack_whether(check_whether_packed(request, derivation))
}

/// The whether call as it is exported: the same as [`check_whether`], with the answer packed into one number.
///
/// ```
/// // One fluent, one action and an empty plan, whether the fluent is true or false.
/// let packed = glintstring::check_whether_packed(&[1, 1, 0, 0, 0, 0, 0, 0, 0, 1, 0], &[]);
/// assert_eq!((packed.number(), packed.input(), packed.place(), packed.count()), (11, 2, 0, 0));
/// ```
pub fn check_whether_packed(request: &[u8], derivation: &[u8]) -> Packed {
    // Each pointer is valid for its length, and the call writes nothing and keeps neither.
    Packed(unsafe { glintstring_check_whether(request.as_ptr(), request.len(), derivation.as_ptr(), derivation.len()) })
}

/// The derive call: walks the plan of a request, with a count of at most `budget`, and gives a derivation of what the request asks.
///
/// The derivation has the plain layout and its exact length. Its lines follow the walk, by rules 1 to 6 (FORMAT 24.1 to 24.10), and [`check`] accepts it for the
/// request: whoever has both need not walk. There is one exactly where the request is not refused and has no whether entry, [`judge`] verifies it within the
/// budget, no sensing action that the walk meets has more than [`MOST_FORKED`] unknown fluents there, and the derivation has at most 1,024 lines and
/// [`DERIVATION_LIMIT`] bytes. Any bytes may be given, of any length. The walk runs on a thread of its own that has enough stack, and the caller waits for it;
/// for many calls a [`Judge`] keeps one.
///
/// ```
/// use glintstring::{check, derive, show, Answer, NotDerived};
///
/// # fn main() -> Result<(), Box<dyn std::error::Error>> {
/// // One fluent, nothing known of it. Action 0 makes it true, and can always be run; it is the plan, and the goal is that the fluent is true.
/// let request = [1, 1, 0, 1, 0, 0, 0, 1, 0, 0, 0, 0, 1, 0, 1, 0, 0];
/// let derivation = derive(&request, 100_000)??;
/// let expected = [
///     0, 4, // four lines, each with X, its plan, Y, its rule and its citations
///     0, 0, 1, 0, 1, 0, 2, 0, // the action makes the fluent true, by rule 2
///     1, 0, 0, 0, 1, 0, 1, 0, // where it is true it stays so, by rule 1
///     1, 0, 0, 0, 1, 0, 6, 1, 0, 1, // so the goal is reached there, by rule 6
///     0, 0, 1, 0, 1, 0, 5, 2, 0, 0, 0, 2, // and by the whole plan, by rule 5
/// ];
/// assert_eq!(derivation, expected);
/// assert_eq!(check(&request, &derivation), Answer::Accepted);
///
/// // With too small a budget, and for a goal that is missed.
/// assert_eq!(derive(&request, 1)?, Err(NotDerived::BudgetSpent { budget: 1 }));
/// let missed = [&request[..15], &[1, 0]].concat();
/// let error = derive(&missed, 100_000)?.unwrap_err();
/// assert_eq!(error, NotDerived::GoalMissed { place: 15, count: 2 });
/// assert_eq!(error.to_string(), "not derived: goal missed (answer 1, place 15 of the request)");
/// assert_eq!(show(error, &missed, &[]), [1, 0]);
///
/// // Seven fluents are looked at, of which nothing is known.
/// let wide = [7, 1, 0, 0, 1, 0, 0, 7, 0, 0, 0, 1, 0, 2, 0, 3, 0, 4, 0, 5, 0, 6, 0, 1, 0, 0, 0];
/// assert_eq!(derive(&wide, 100_000)?, Err(NotDerived::Refused(Answer::SensingTooWide { place: 24 })));
/// # Ok(())
/// # }
/// ```
///
/// # Errors
///
/// Where the system gives no such thread. Then nothing is walked. The result within says by its error which answer other than 0 there is.
///
/// # Panics
///
/// Where the library linked gives what the format does not have, which the proved one does not.
pub fn derive(request: &[u8], budget: u32) -> io::Result<Result<Vec<u8>, NotDerived>> {
    with_stack(|| derive_here(request, budget))
}

/// [`derive`](fn@derive) on the caller's own stack, as [`judge_here`] is [`judge`].
///
/// # Errors
///
/// Every answer other than 0.
///
/// # Panics
///
/// Where the library linked gives what the format does not have, which the proved one does not.
pub fn derive_here(request: &[u8], budget: u32) -> Result<Vec<u8>, NotDerived> {
    let (packed, room) = derive_room(request, budget);
    Answer::unpack_derive(packed, &room).map(<[u8]>::to_vec)
}

/// The derive call with room for every derivation, and that room afterwards.
fn derive_room(request: &[u8], budget: u32) -> (Packed, Vec<u8>) {
    let mut room = vec![0; DERIVATION_LIMIT];
    let packed = derive_packed(request, &mut room, budget);
    (packed, room)
}

/// The derive call as it is exported: the same as [`derive_here`], with a lent room, and with the answer packed into one number.
///
/// After answer 0 the room starts with the derivation, whose length is the answer's count, and the bytes behind it are what they were;
/// [`Answer::unpack_derive`] takes both apart. After every other answer all bytes are what they were. Where there is a derivation and the room has fewer bytes, or
/// the derivation more than [`DERIVATION_LIMIT`], the answer is 39.
///
/// ```
/// // One fluent, one action, an empty plan and no goals: two lines.
/// let request = [1, 1, 0, 0, 0, 0, 0, 0, 0, 0];
/// let mut room = [9; 17];
/// assert_eq!(glintstring::derive_packed(&request, &mut room[..15], 1).number(), 39);
/// assert_eq!(room, [9; 17]);
/// let packed = glintstring::derive_packed(&request, &mut room, 1);
/// assert_eq!((packed.number(), packed.input(), packed.place(), packed.count()), (0, 0, 0, 16));
/// assert_eq!(room, [0, 2, 0, 0, 0, 0, 1, 0, 0, 0, 0, 0, 6, 1, 0, 0, 9]);
/// ```
pub fn derive_packed(request: &[u8], room: &mut [u8], budget: u32) -> Packed {
    // Each pointer is valid for its length, the room's for writing too and for nobody else, and the call keeps neither.
    Packed(unsafe { glintstring_derive(request.as_ptr(), request.len(), room.as_mut_ptr(), room.len(), budget) })
}

/// The release call: answers every plan of a release file, each with a count of at most `budget`.
///
/// A release file has sections 1 to 5 of a request once, a byte that counts its plans, from 1 to [`MOST_PLANS`], and then sections 6 to 8 for each plan
/// (FORMAT 19.2). Any bytes may be given, of any length. Each plan gets what [`judge`] answers to sections 1 to 5 followed by that plan alone, without a
/// state, and with its place counted in the file. One that can't be read has its fault, and those behind it are [`PlanAnswer::NotReached`]. The walks
/// run on a thread of their own that has enough stack, and the caller waits for it; for many calls a [`Judge`] keeps one.
///
/// ```
/// use glintstring::{judge, release, Answer, Input, PlanAnswer, Released};
///
/// # fn main() -> Result<(), Box<dyn std::error::Error>> {
/// // One fluent, nothing known of it; action 0 makes it true, and action 1 has no lines.
/// let table = [1, 2, 0, 1, 0, 0, 0, 1, 0, 0, 0];
/// // Each plan is one action, and wants the fluent to be true.
/// let (good, bad) = ([0, 1, 0, 1, 0, 0], [0, 1, 1, 1, 0, 0]);
/// let file = [&table[..], &[2], &good, &bad].concat();
/// let released = release(&file, 100_000)?;
/// assert_eq!(released.plans(), [PlanAnswer::Verified { count: 2 }, PlanAnswer::NotExecutable { place: 20, count: 0 }]);
/// assert_eq!(judge(&[&table[..], &bad].concat(), 100_000)?.place(), 13);
///
/// release(&[&table[..], &[1], &good].concat(), 100_000)?.verified()?;
/// let error = released.verified().unwrap_err();
/// assert_eq!(error.to_string(), "not released: plan 1: not executable (answer 2, place 20 of the release file)");
///
/// // The file ends in its first plan; and it has no plan.
/// let cut = release(&file[..15], 100_000)?;
/// assert_eq!(cut.plans(), [PlanAnswer::Refused(Answer::InputEnds { input: Input::Request, place: 15 }), PlanAnswer::NotReached]);
/// let none = release(&[&table[..], &[0]].concat(), 100_000)?;
/// assert_eq!(none, Released::Refused(Answer::CountNotWithinLimits { input: Input::Request, place: 11 }));
/// # Ok(())
/// # }
/// ```
///
/// # Errors
///
/// Where the system gives no such thread. Then nothing is answered.
///
/// # Panics
///
/// Where the library linked gives what the format does not have, which the proved one does not.
pub fn release(file: &[u8], budget: u32) -> io::Result<Released> {
    with_stack(|| release_here(file, budget))
}

/// [`release`] on the caller's own stack, as [`judge_here`] is [`judge`].
///
/// # Panics
///
/// Where the library linked gives what the format does not have, which the proved one does not.
pub fn release_here(file: &[u8], budget: u32) -> Released {
    let (packed, row) = release_row(file, budget);
    Released::unpack(packed, &row)
}

/// The release call with a row of the length that the file asks for, and that row afterwards.
fn release_row(file: &[u8], budget: u32) -> (Packed, Vec<u32>) {
    let mut row = vec![0; ROW_NUMBERS * plans(file)];
    let packed = release_packed(file, &mut row, budget);
    (packed, row)
}

/// The release call as it is exported: the same as [`release_here`], with a lent row, and with the call's own answer packed into one number.
///
/// After an own answer of 0 the row has number, place, count and input of each plan, which [`Released::unpack`] takes apart; after every other answer its
/// numbers are what they were. Where there are not [`ROW_NUMBERS`] times as many of them as there are [`plans`], the answer is 9.
///
/// ```
/// // One fluent, one action, and two empty plans.
/// let file = [1, 1, 0, 0, 0, 0, 2, 0, 0, 0, 0, 0, 0, 0, 0];
/// let mut row = [9; 8];
/// assert_eq!(glintstring::release_packed(&file, &mut row[..4], 10).number(), 9);
/// assert_eq!(glintstring::release_packed(&file, &mut row, 10).0, 0);
/// assert_eq!(row, [0, 0, 1, 0, 0, 0, 1, 0]);
/// ```
pub fn release_packed(file: &[u8], row: &mut [u32], budget: u32) -> Packed {
    // Each pointer is valid for its length, the row's for writing too and for nobody else, and the call keeps neither.
    Packed(unsafe { glintstring_release(file.as_ptr(), file.len(), row.as_mut_ptr(), row.len(), budget) })
}

/// The plans call: how many plans a release file has, and 0 where the release call refuses it before they are counted.
///
/// ```
/// // One fluent, one action, and seven plans, of which not one is there.
/// assert_eq!(glintstring::plans(&[1, 1, 0, 0, 0, 0, 7]), 7);
/// assert_eq!(glintstring::plans(&[1, 1, 0, 0, 0, 0]), 0);
/// ```
#[must_use]
pub fn plans(file: &[u8]) -> usize {
    // The pointer is valid for its length, and the call writes nothing and does not keep it.
    let count = unsafe { glintstring_plans(file.as_ptr(), file.len()) };
    count as usize
}

/// The showing call: the part of an input that an answer is about, from its place to that input's end.
///
/// Any answer may be given, of any call or made by hand, with any two inputs. For one that names neither, it is the empty part at the
/// request's start; for a place beyond an input's end, the empty part at that end.
///
/// ```
/// use glintstring::{judge, show, Answer, Packed};
///
/// # fn main() -> std::io::Result<()> {
/// // One fluent, nothing known of it, one action without lines; the plan is that action, and the goal that the fluent is true.
/// let request = [1, 1, 0, 0, 0, 0, 0, 1, 0, 1, 0, 0];
/// assert_eq!(show(judge(&request, 10)?, &request, &[]), [0, 1, 0, 0]);
/// assert_eq!(show(Answer::Accepted, &request, &[]), []);
/// assert_eq!(show(Packed((2 << 8) + (1 << 16)), &request, &[7, 8, 9]), [8, 9]);
/// # Ok(())
/// # }
/// ```
///
/// # Panics
///
/// Where the library linked gives a start beyond the input's end, which the proved one does not.
#[must_use]
pub fn show<'a>(answer: impl Into<Packed>, request: &'a [u8], derivation: &'a [u8]) -> &'a [u8] {
    let answer = answer.into();
    let start = usize::try_from(show_start(answer, request, derivation)).expect("a place of an input");
    match answer.input() {
        1 => &request[start..],
        2 => &derivation[start..],
        _ => &request[start..start],
    }
}

/// The showing call as it is exported: where the part starts in the input that the answer names, and 0 where it names neither.
///
/// ```
/// use glintstring::{show_start, Packed};
///
/// let in_derivation = |place: u64| Packed((2 << 8) + (place << 16));
/// assert_eq!(show_start(in_derivation(2), &[], &[7, 8, 9]), 2);
/// assert_eq!(show_start(in_derivation(65_535), &[], &[7, 8, 9]), 3);
/// ```
#[must_use]
pub fn show_start(answer: Packed, request: &[u8], derivation: &[u8]) -> u64 {
    // Each pointer is valid for its length, and the call writes nothing and keeps neither.
    unsafe { glintstring_show(answer.0, request.as_ptr(), request.len(), derivation.as_ptr(), derivation.len()) }
}
