//! What lies below the two-party network: a tap that keeps the bytes that a vat writes, and a socket that is read when
//! storm says so.

use futures::AsyncWrite;
use std::fs::File;
use std::io::{self, ErrorKind, Read, Write};
use std::os::unix::net::UnixStream;
use std::path::Path;
use std::pin::Pin;
use std::task::{Context, Poll};
use support::turns::{pipe, PipeReader, PipeWriter};

/// Keeps what is written to a stream.
pub struct Tap<W> {
    inner: W,
    file: File,
}

impl<W> Tap<W> {
    pub fn new(inner: W, path: &Path) -> Tap<W> {
        let file = File::create(path).expect("the file of a link can be made");
        Tap { inner, file }
    }
}

impl<W: AsyncWrite + Unpin> AsyncWrite for Tap<W> {
    fn poll_write(
        mut self: Pin<&mut Self>,
        context: &mut Context<'_>,
        buffer: &[u8],
    ) -> Poll<io::Result<usize>> {
        let outcome = Pin::new(&mut self.inner).poll_write(context, buffer);
        if let Poll::Ready(Ok(count)) = outcome {
            self.file.write_all(&buffer[..count])?;
        }
        outcome
    }

    fn poll_flush(mut self: Pin<&mut Self>, context: &mut Context<'_>) -> Poll<io::Result<()>> {
        Pin::new(&mut self.inner).poll_flush(context)
    }

    fn poll_close(mut self: Pin<&mut Self>, context: &mut Context<'_>) -> Poll<io::Result<()>> {
        Pin::new(&mut self.inner).poll_close(context)
    }
}

/// A socket of a vat that is a process of its own. What is written goes out at once; what came in is looked at by `pump`
/// alone, so that a vat does nothing between the lines that it is told.
pub struct Socket {
    stream: UnixStream,
    came: PipeWriter,
    is_ended: bool,
}

impl Socket {
    pub fn connect(path: &str) -> io::Result<(Socket, (PipeReader, SocketWriter))> {
        let stream = UnixStream::connect(path)?;
        stream.set_nonblocking(true)?;
        let writer = SocketWriter(stream.try_clone()?);
        let (reader, came) = pipe();
        let socket = Socket {
            stream,
            came,
            is_ended: false,
        };
        Ok((socket, (reader, writer)))
    }

    /// Takes what came in, and answers whether anything did.
    pub fn pump(&mut self) -> bool {
        let mut is_any = false;
        let mut piece = [0; 65536];
        while !self.is_ended {
            match self.stream.read(&mut piece) {
                Ok(count) if count > 0 => {
                    self.came.push(&piece[..count]);
                    is_any = true;
                }
                Err(error) if error.kind() == ErrorKind::WouldBlock => break,
                _ => {
                    self.is_ended = true;
                    self.came.end();
                }
            }
        }
        is_any
    }
}

/// The way out of a socket.
pub struct SocketWriter(UnixStream);

impl AsyncWrite for SocketWriter {
    fn poll_write(
        mut self: Pin<&mut Self>,
        _context: &mut Context<'_>,
        buffer: &[u8],
    ) -> Poll<io::Result<usize>> {
        Poll::Ready(self.0.write(buffer))
    }

    fn poll_flush(self: Pin<&mut Self>, _context: &mut Context<'_>) -> Poll<io::Result<()>> {
        Poll::Ready(Ok(()))
    }

    fn poll_close(self: Pin<&mut Self>, _context: &mut Context<'_>) -> Poll<io::Result<()>> {
        Poll::Ready(self.0.shutdown(std::net::Shutdown::Write))
    }
}
