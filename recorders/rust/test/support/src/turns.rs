//! An event loop that is stepped by hand, and streams of bytes within it: so a run is the same each time.

use futures::channel::oneshot;
use futures::{AsyncRead, AsyncWrite, Future};
use std::cell::RefCell;
use std::collections::VecDeque;
use std::io;
use std::pin::Pin;
use std::rc::Rc;
use std::sync::{Arc, Mutex};
use std::task::{Context, Poll, Wake, Waker};

type Task = Pin<Box<dyn Future<Output = ()>>>;

/// Which tasks are to be polled next, the first woken first.
#[derive(Default)]
struct Ready(Mutex<VecDeque<usize>>);

struct Awaken {
    task: usize,
    ready: Arc<Ready>,
}

impl Wake for Awaken {
    fn wake(self: Arc<Self>) {
        let mut ready = self.ready.0.lock().expect("the loop has one thread");
        if !ready.contains(&self.task) {
            ready.push_back(self.task);
        }
    }
}

/// An event loop. A turn polls one task.
#[derive(Clone, Default)]
pub struct Loop {
    tasks: Rc<RefCell<Vec<Option<Task>>>>,
    ready: Arc<Ready>,
}

impl Loop {
    /// Has the loop poll a task from now on. Answers its number.
    pub fn spawn(&self, task: impl Future<Output = ()> + 'static) -> usize {
        let mut tasks = self.tasks.borrow_mut();
        tasks.push(Some(Box::pin(task)));
        let number = tasks.len() - 1;
        self.ready
            .0
            .lock()
            .expect("the loop has one thread")
            .push_back(number);
        number
    }

    /// Drops a task.
    pub fn cancel(&self, number: usize) {
        let task = self.tasks.borrow_mut()[number].take();
        drop(task);
    }

    /// Polls the next task. Whether there was one.
    pub fn turn(&self) -> bool {
        let next = self
            .ready
            .0
            .lock()
            .expect("the loop has one thread")
            .pop_front();
        let number = match next {
            Some(number) => number,
            None => return false,
        };
        let task = self.tasks.borrow_mut()[number].take();
        if let Some(mut task) = task {
            let waker = Waker::from(Arc::new(Awaken {
                task: number,
                ready: self.ready.clone(),
            }));
            let poll = task.as_mut().poll(&mut Context::from_waker(&waker));
            if poll.is_pending() {
                self.tasks.borrow_mut()[number] = Some(task);
            }
        }
        true
    }

    /// Turns until nothing is to be polled, or so many turns were taken. Whether it came to rest.
    pub fn settle(&self, most: usize) -> bool {
        (0..most).any(|_| !self.turn())
    }

    /// Turns until the future has ended, and answers what it ended with; none if the loop comes to rest before.
    pub fn wait<T: 'static>(&self, future: impl Future<Output = T> + 'static) -> Option<T> {
        let (sender, mut receiver) = oneshot::channel();
        self.spawn(async move {
            let _ = sender.send(future.await);
        });
        loop {
            if let Ok(Some(value)) = receiver.try_recv() {
                return Some(value);
            }
            if !self.turn() {
                return receiver.try_recv().ok().flatten();
            }
        }
    }
}

#[derive(Default)]
struct Pipe {
    bytes: VecDeque<u8>,
    is_ended: bool,
    reader: Option<Waker>,
}

impl Pipe {
    fn wake(&mut self) {
        if let Some(reader) = self.reader.take() {
            reader.wake();
        }
    }
}

/// The end of a pipe that is read.
pub struct PipeReader(Rc<RefCell<Pipe>>);

/// The end of a pipe that is written. Dropping it ends the stream.
pub struct PipeWriter(Rc<RefCell<Pipe>>);

/// A stream of bytes within a loop.
pub fn pipe() -> (PipeReader, PipeWriter) {
    let pipe = Rc::new(RefCell::new(Pipe::default()));
    (PipeReader(pipe.clone()), PipeWriter(pipe))
}

impl AsyncRead for PipeReader {
    fn poll_read(
        self: Pin<&mut Self>,
        context: &mut Context<'_>,
        buffer: &mut [u8],
    ) -> Poll<io::Result<usize>> {
        let mut pipe = self.0.borrow_mut();
        if pipe.bytes.is_empty() && !pipe.is_ended {
            pipe.reader = Some(context.waker().clone());
            return Poll::Pending;
        }
        let count = buffer.len().min(pipe.bytes.len());
        for (to, from) in buffer.iter_mut().zip(pipe.bytes.drain(..count)) {
            *to = from;
        }
        Poll::Ready(Ok(count))
    }
}

impl PipeWriter {
    /// Adds bytes at once.
    pub fn push(&self, bytes: &[u8]) {
        let mut pipe = self.0.borrow_mut();
        pipe.bytes.extend(bytes);
        pipe.wake();
    }

    /// Ends the stream.
    pub fn end(&self) {
        let mut pipe = self.0.borrow_mut();
        pipe.is_ended = true;
        pipe.wake();
    }
}

impl AsyncWrite for PipeWriter {
    fn poll_write(
        self: Pin<&mut Self>,
        _context: &mut Context<'_>,
        buffer: &[u8],
    ) -> Poll<io::Result<usize>> {
        self.push(buffer);
        Poll::Ready(Ok(buffer.len()))
    }

    fn poll_flush(self: Pin<&mut Self>, _context: &mut Context<'_>) -> Poll<io::Result<()>> {
        Poll::Ready(Ok(()))
    }

    fn poll_close(self: Pin<&mut Self>, _context: &mut Context<'_>) -> Poll<io::Result<()>> {
        self.end();
        Poll::Ready(Ok(()))
    }
}

impl Drop for PipeWriter {
    fn drop(&mut self) {
        self.end();
    }
}
