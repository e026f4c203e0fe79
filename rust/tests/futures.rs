//! A validator that a future holds moves between threads.

use std::future::Future;
use std::pin::Pin;
use std::slice::Chunks;
use std::sync::Arc;
use std::task::{Context, Poll, Wake, Waker};
use std::thread;
use wmod::{validate, Error, Summary, Validator, Why};

const ADD: &[u8] =
    b"\0asm\x01\0\0\0\x01\x07\x01\x60\x02\x7f\x7f\x01\x7f\x03\x02\x01\0\x0a\x09\x01\x07\0\x20\0\x20\x01\x6a\x0b";

/// An upload. Each piece is pending once before it is there.
struct Upload {
    pieces: Chunks<'static, u8>,
    is_ready: bool,
}

impl Upload {
    fn of(bytes: &'static [u8], length: usize) -> Upload {
        Upload {
            pieces: bytes.chunks(length),
            is_ready: false,
        }
    }

    fn next(&mut self) -> Next<'_> {
        Next(self)
    }
}

/// The next piece of an upload; `None` at its end.
struct Next<'a>(&'a mut Upload);

impl Future for Next<'_> {
    type Output = Option<&'static [u8]>;

    fn poll(mut self: Pin<&mut Self>, context: &mut Context<'_>) -> Poll<Self::Output> {
        let upload = &mut *self.0;
        upload.is_ready = !upload.is_ready;
        if upload.is_ready {
            context.waker().wake_by_ref();
            return Poll::Pending;
        }
        Poll::Ready(upload.pieces.next())
    }
}

async fn judged(mut upload: Upload) -> Result<Summary, Error> {
    let mut validator = Validator::new()?;
    while let Some(piece) = upload.next().await {
        validator.feed(piece)?;
    }
    validator.finish()
}

/// Takes any wake-up: the executor below polls without one.
struct Ignored;

impl Wake for Ignored {
    fn wake(self: Arc<Self>) {}
}

/// Polls a future to its end, on a new thread each time. Returns its output and the number of threads.
fn run_on_threads<F>(future: F) -> (F::Output, usize)
where
    F: Future + Send,
    F::Output: Send,
{
    let mut future = Box::pin(future);
    let waker = Waker::from(Arc::new(Ignored));
    let mut threads = 0;
    loop {
        threads += 1;
        let mut poll = || future.as_mut().poll(&mut Context::from_waker(&waker));
        let polled = thread::scope(|scope| scope.spawn(&mut poll).join());
        if let Poll::Ready(output) = polled.unwrap() {
            return (output, threads);
        }
    }
}

#[test]
fn each_piece_on_a_thread_of_its_own() {
    for length in 1..=ADD.len() {
        let (answer, threads) = run_on_threads(judged(Upload::of(ADD, length)));
        assert_eq!(answer, validate(ADD), "{length}");
        // one for each piece, one for the end, and the one that finds it
        let pieces = (ADD.len() + length - 1) / length;
        assert_eq!(threads, pieces + 2, "{length}");
    }
}

#[test]
fn a_refusal_on_another_thread() {
    let (answer, threads) = run_on_threads(judged(Upload::of(b"\0asn, and much more", 2)));
    let error = answer.unwrap_err();
    assert_eq!((error.why(), error.place()), (Why::Magic, Some(4)));
    // the rest is never read
    assert_eq!(threads, 3);
}

#[test]
fn a_future_that_is_dropped_on_another_thread() {
    let mut future = Box::pin(judged(Upload::of(ADD, 7)));
    let waker = Waker::from(Arc::new(Ignored));
    assert!(future
        .as_mut()
        .poll(&mut Context::from_waker(&waker))
        .is_pending());
    thread::spawn(|| drop(future)).join().unwrap();
}
