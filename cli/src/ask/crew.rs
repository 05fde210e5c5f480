//! A crew of threads that does jobs side by side and hands over what they give in order.

use std::collections::BTreeMap;
use std::panic::{AssertUnwindSafe, catch_unwind};
use std::sync::mpsc::{Receiver, RecvTimeoutError, Sender, TryRecvError, channel};
use std::sync::{Arc, Condvar, Mutex, MutexGuard, PoisonError};
use std::thread::{Builder, available_parallelism};
use std::time::Duration;

use crate::failure::Failure;

/// How many jobs may be begun that are not taken yet.
const AHEAD: usize = 64;

/// A thread's stack: more than any entry takes (include/puvainy.h).
const STACK: usize = 1 << 20;

/// How long a job is waited for before the waiting is told again.
const TICK: Duration = Duration::from_millis(200);

/// What the taker hears.
pub enum News<'a, J, T> {
    /// The next job is not done yet.
    Waiting,
    /// The job, and what it gave; nothing if doing it broke down.
    Done(&'a J, Option<T>),
}

/// The jobs, and how far they are begun and taken.
struct Crew<J> {
    jobs: Vec<J>,
    turn: Mutex<Turn>,
    moved: Condvar,
}

#[derive(Default)]
struct Turn {
    begun: usize,
    taken: usize,
}

/// Does the jobs on a thread for each core, each with a doer of its own. The taker hears of them in their order, and ends all by a
/// failure, without waiting for what is being done.
pub fn in_order<J, T, D>(
    jobs: Vec<J>,
    doer: impl Fn() -> D + Send + Sync + 'static,
    mut take: impl FnMut(News<J, T>) -> Result<(), Failure>,
) -> Result<(), Failure>
where
    J: Send + Sync + 'static,
    T: Send + 'static,
    D: FnMut(&J) -> T,
{
    let crew = Arc::new(Crew {
        jobs,
        turn: Mutex::default(),
        moved: Condvar::new(),
    });
    let mut given = start(&crew, doer)?;
    let taken = crew.jobs.iter().enumerate().try_for_each(|(place, job)| {
        let told = given.next(place, || take(News::Waiting))?;
        take(News::Done(job, told))?;
        crew.turn().taken += 1;
        crew.moved.notify_all();
        Ok(())
    });
    crew.turn().begun = crew.jobs.len();
    crew.moved.notify_all();
    taken
}

/// Starts the threads, as many as can be had.
fn start<J, T, D>(
    crew: &Arc<Crew<J>>,
    doer: impl Fn() -> D + Send + Sync + 'static,
) -> Result<Given<T>, Failure>
where
    J: Send + Sync + 'static,
    T: Send + 'static,
    D: FnMut(&J) -> T,
{
    let (give, given) = channel();
    let doer = Arc::new(doer);
    let cores = available_parallelism().map_or(1, usize::from);
    for started in 0..cores.min(crew.jobs.len()) {
        let (crew, doer, give) = (crew.clone(), doer.clone(), give.clone());
        let builder = Builder::new().stack_size(STACK);
        match builder.spawn(move || crew.work(doer(), &give)) {
            Ok(_) => {}
            Err(error) if started == 0 => {
                return Err(Failure(format!("cannot start a thread: {error}")));
            }
            Err(_) => break,
        }
    }
    Ok(Given {
        given,
        early: BTreeMap::new(),
    })
}

impl<J> Crew<J> {
    /// How far it is. What the lock guards is whole at every moment, even if a thread should break down.
    fn turn(&self) -> MutexGuard<'_, Turn> {
        self.turn.lock().unwrap_or_else(PoisonError::into_inner)
    }

    /// Does jobs, until there are no more or nobody takes what they give.
    fn work<T>(&self, mut doer: impl FnMut(&J) -> T, give: &Sender<(usize, Option<T>)>) {
        while let Some(place) = self.begin() {
            let told = catch_unwind(AssertUnwindSafe(|| doer(&self.jobs[place]))).ok();
            if give.send((place, told)).is_err() {
                return;
            }
        }
    }

    /// The place of the next job, once it is not too far ahead of what is taken.
    fn begin(&self) -> Option<usize> {
        let is_ahead = |turn: &mut Turn| {
            turn.begun < self.jobs.len() && turn.begun >= turn.taken.saturating_add(AHEAD)
        };
        let waited = self.moved.wait_while(self.turn(), is_ahead);
        let mut turn = waited.unwrap_or_else(PoisonError::into_inner);
        let place = turn.begun;
        (place < self.jobs.len()).then(|| {
            turn.begun += 1;
            place
        })
    }
}

/// What the threads give, and what came before its turn.
struct Given<T> {
    given: Receiver<(usize, Option<T>)>,
    early: BTreeMap<usize, Option<T>>,
}

impl<T> Given<T> {
    /// What the job at the place gave; that it is not there yet is told again and again.
    fn next(
        &mut self,
        place: usize,
        mut wait: impl FnMut() -> Result<(), Failure>,
    ) -> Result<Option<T>, Failure> {
        loop {
            if let Some(told) = self.early.remove(&place) {
                return Ok(told);
            }
            let came = match self.given.try_recv() {
                Err(TryRecvError::Empty) => {
                    wait()?;
                    self.given.recv_timeout(TICK)
                }
                Err(TryRecvError::Disconnected) => Err(RecvTimeoutError::Disconnected),
                Ok(came) => Ok(came),
            };
            match came {
                Ok((place, told)) => drop(self.early.insert(place, told)),
                Err(RecvTimeoutError::Timeout) => {}
                Err(RecvTimeoutError::Disconnected) => return Ok(None),
            }
        }
    }
}

#[cfg(test)]
mod tests {
    use std::sync::mpsc::sync_channel;

    use super::*;

    type Heard = Vec<(u32, Option<u32>)>;

    /// What the taker hears of the jobs 0 to 999, of which 500 breaks down, up to the job where it fails.
    fn heard(fails: u32) -> (Heard, Result<(), Failure>) {
        let mut heard = Vec::new();
        let double = |&job: &u32| match job {
            500 => panic!("a job that breaks down"),
            _ => 2 * job,
        };
        let outcome = in_order(
            (0..1000).collect(),
            move || double,
            |news| match news {
                News::Waiting => Ok(()),
                News::Done(&job, _) if job == fails => Err(Failure("enough".to_owned())),
                News::Done(&job, told) => {
                    heard.push((job, told));
                    Ok(())
                }
            },
        );
        (heard, outcome)
    }

    #[test]
    fn all_jobs_are_heard_of_in_order_and_one_that_breaks_down_loses_no_other() {
        let (heard, outcome) = heard(1000);
        let due = (0..1000).map(|job| (job, (job != 500).then_some(2 * job)));
        assert_eq!((heard, outcome), (due.collect(), Ok(())));
    }

    #[test]
    fn a_failure_of_the_taker_ends_all() {
        let (heard, outcome) = heard(7);
        assert_eq!(heard.len(), 7);
        assert_eq!(outcome, Err(Failure("enough".to_owned())));
    }

    #[test]
    fn a_failure_does_not_wait_for_what_is_being_done() {
        let doer = || |_: &u32| std::thread::sleep(Duration::from_secs(3600));
        let fails = |_: News<u32, ()>| Err(Failure("enough".to_owned()));
        assert!(in_order(vec![0, 1], doer, fails).is_err());
    }

    #[test]
    fn two_cores_do_two_jobs_at_a_time() {
        if available_parallelism().map_or(1, usize::from) < 2 {
            return;
        }
        // Job 0 waits for what job 1 sends; one thread alone would wait in vain.
        let (send, receive) = sync_channel(1);
        let receive = Mutex::new(receive);
        let ends = Arc::new((send, receive));
        let doer = move || {
            let ends = ends.clone();
            move |&job: &u32| match job {
                0 => ends
                    .1
                    .lock()
                    .unwrap()
                    .recv_timeout(Duration::from_secs(60))
                    .is_ok(),
                _ => ends.0.send(()).is_ok(),
            }
        };
        in_order(vec![0, 1], doer, |news| match news {
            News::Done(_, told) if told != Some(true) => Err(Failure("in vain".to_owned())),
            _ => Ok(()),
        })
        .unwrap();
    }
}
