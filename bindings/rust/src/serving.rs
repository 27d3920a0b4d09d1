//! A judge that keeps its thread.

use std::sync::mpsc::{channel, Sender};
use std::{fmt, io, thread};

use crate::{derive_room, judge_by_cases_packed, judge_guarded_packed, judge_indexed_packed, judge_line_packed, judge_packed};
use crate::{judge_values_packed, release_row};
use crate::{Answer, Judged, NotDerived, Packed, Released, INDEX_MOST, REQUEST_LIMIT, STACK, STATE_LENGTH};

/// A thread with enough stack for a walk, which is started once and serves many calls, one after the other.
///
/// [`judge`](crate::judge) starts a thread for each call; this is for a caller who has many. A judge may be handed from thread to thread. To
/// walk several plans at one time take several judges. The thread ends with its judge: dropping it waits for the thread's end, which comes at
/// once, since no call is under way then. The stack of a walk that went deep stays with the thread until then.
///
/// ```
/// use glintstring::{Answer, Judge};
///
/// # fn main() -> std::io::Result<()> {
/// let mut judge = Judge::new()?;
/// // One fluent, known true, which is the goal; one action, and an empty plan.
/// let request = [1, 1, 1, 0, 0, 0, 0, 0, 0, 1, 0, 0];
/// assert_eq!(judge.judge(&request, 1), Answer::Verified { count: 1 });
/// assert_eq!(judge.judge(&request, 0), Answer::BudgetSpent { budget: 0 });
/// # Ok(())
/// # }
/// ```
///
/// After its end nothing can be asked of it:
///
/// ```compile_fail,E0382
/// let mut judge = glintstring::Judge::new().unwrap();
/// drop(judge);
/// let answer = judge.judge(&[], 0);
/// ```
pub struct Judge {
    /// Both are there until the judge is dropped.
    calls: Option<Sender<Call>>,
    thread: Option<thread::JoinHandle<()>>,
}

/// A call that the thread is to make, which hands what it gives to the caller, who waits for it.
type Call = Box<dyn FnOnce() + Send>;

/// The thread answers one call after the other, each as it was asked.
const SERVES: &str = "the thread serves as long as there is a judge";

impl Judge {
    /// A judge whose thread waits for calls.
    ///
    /// # Errors
    ///
    /// Where the system gives no such thread.
    pub fn new() -> io::Result<Judge> {
        let (calls, to_thread) = channel::<Call>();
        let serving = thread::Builder::new().name("glintstring".to_string()).stack_size(STACK);
        let thread = serving.spawn(move || to_thread.into_iter().for_each(|call| call()))?;
        Ok(Judge { calls: Some(calls), thread: Some(thread) })
    }

    /// The walk call, as [`judge`](crate::judge) makes it: judges a request by walking its plan, with a count of at most `budget`. The caller
    /// waits for the answer.
    ///
    /// # Panics
    ///
    /// Where the library linked gives an answer that the format does not have, which the proved one does not. The judge can be used after it.
    pub fn judge(&mut self, request: &[u8], budget: u32) -> Answer {
        self.walk(request, budget, judge_packed, Answer::unpack)
    }

    /// The walk call with the line that its answer carries, as [`judge_line`](crate::judge_line) makes it.
    ///
    /// # Panics
    ///
    /// As [`Judge::judge`] does.
    pub fn judge_line(&mut self, request: &[u8], budget: u32) -> Judged {
        let request = copied(request, REQUEST_LIMIT);
        let (packed, state, line) = self.served(move || {
            let mut state = [0; STATE_LENGTH];
            let mut line = 0;
            let packed = judge_line_packed(&request, &mut state, budget, &mut line);
            (packed, state, line)
        });
        Judged::unpack(packed, &state, line)
    }

    /// The guarded call, as [`judge_guarded`](crate::judge_guarded) makes it: judges a guarded request.
    ///
    /// # Panics
    ///
    /// As [`Judge::judge`] does.
    pub fn judge_guarded(&mut self, request: &[u8], budget: u32) -> Answer {
        self.walk(request, budget, judge_guarded_packed, Answer::unpack_guarded)
    }

    /// The call by cases, as [`judge_by_cases`](crate::judge_by_cases) makes it.
    ///
    /// # Panics
    ///
    /// As [`Judge::judge`] does.
    pub fn judge_by_cases(&mut self, request: &[u8], budget: u32) -> Answer {
        self.walk(request, budget, judge_by_cases_packed, Answer::unpack_by_cases)
    }

    /// The indexed call, as [`judge_indexed`](crate::judge_indexed) makes it: judges a request by an index of it.
    ///
    /// # Panics
    ///
    /// As [`Judge::judge`] does.
    pub fn judge_indexed(&mut self, request: &[u8], index: &[u8], budget: u32) -> Answer {
        let index = copied(index, INDEX_MOST);
        let call = move |request: &[u8], state: &mut [u8], budget| judge_indexed_packed(request, &index, state, budget);
        self.walk(request, budget, call, Answer::unpack_indexed)
    }

    /// The values call, as [`judge_values`](crate::judge_values) makes it: judges a values request.
    ///
    /// # Panics
    ///
    /// As [`Judge::judge`] does.
    pub fn judge_values(&mut self, request: &[u8], budget: u32) -> Answer {
        self.walk(request, budget, judge_values_packed, Answer::unpack_values)
    }

    /// The derive call, as [`derive`](crate::derive) makes it: gives a derivation of what a request asks.
    ///
    /// # Errors
    ///
    /// Every answer other than 0.
    ///
    /// # Panics
    ///
    /// As [`Judge::judge`] does.
    pub fn derive(&mut self, request: &[u8], budget: u32) -> Result<Vec<u8>, NotDerived> {
        let request = copied(request, REQUEST_LIMIT);
        let (packed, room) = self.served(move || derive_room(&request, budget));
        Answer::unpack_derive(packed, &room).map(<[u8]>::to_vec)
    }

    /// The release call, as [`release`](crate::release) makes it: answers every plan of a release file, each with a count of at most `budget`.
    ///
    /// # Panics
    ///
    /// As [`Judge::judge`] does.
    pub fn release(&mut self, file: &[u8], budget: u32) -> Released {
        let file = copied(file, REQUEST_LIMIT);
        let (packed, row) = self.served(move || release_row(&file, budget));
        Released::unpack(packed, &row)
    }

    /// A call that is lent a state, and its answer taken apart.
    fn walk<Walk>(&mut self, request: &[u8], budget: u32, call: Walk, unpack: fn(Packed, &[u8]) -> Answer) -> Answer
    where
        Walk: FnOnce(&[u8], &mut [u8], u32) -> Packed + Send + 'static,
    {
        let request = copied(request, REQUEST_LIMIT);
        let (packed, state) = self.served(move || {
            let mut state = [0; STATE_LENGTH];
            let packed = call(&request, &mut state, budget);
            (packed, state)
        });
        unpack(packed, &state)
    }

    /// What a call gives that the thread makes.
    fn served<T: Send + 'static>(&mut self, call: impl FnOnce() -> T + Send + 'static) -> T {
        let (to_caller, given) = channel();
        let call: Call = Box::new(move || to_caller.send(call()).expect("the caller waits"));
        let sent = self.calls.as_ref().and_then(|calls| calls.send(call).ok());
        sent.and_then(|()| given.recv().ok()).expect(SERVES)
    }
}

/// The thread has a copy, since it outlives the borrow. Of an input of more than so many bytes one byte more is enough: longer ones are answered alike.
fn copied(input: &[u8], limit: usize) -> Vec<u8> {
    input[..input.len().min(limit + 1)].to_vec()
}

impl Drop for Judge {
    fn drop(&mut self) {
        // Without a sender the thread's loop ends.
        drop(self.calls.take());
        if let Some(thread) = self.thread.take() {
            // It does not panic: a strange answer is taken apart by the caller.
            let _ = thread.join();
        }
    }
}

impl fmt::Debug for Judge {
    fn fmt(&self, out: &mut fmt::Formatter<'_>) -> fmt::Result {
        out.debug_struct("Judge").finish_non_exhaustive()
    }
}
