//! The connection's bytes, over a socket of either kind.

use crate::record::{LENGTH_BYTES, MAX_RECORD};
use crate::Error;
use std::io::{self, ErrorKind, Read, Write};
use std::net::{Ipv4Addr, SocketAddr, TcpStream};
use std::os::unix::net::UnixStream;
use std::path::{Path, PathBuf};
use std::sync::mpsc;
use std::thread;
use std::time::{Duration, Instant};

const PIECE_BYTES: usize = 16_384;
const A_WHILE: Duration = Duration::from_millis(1);

/// Where a port listens.
#[derive(Debug)]
pub(crate) enum Place {
    Socket(PathBuf),
    Port(u16),
}

/// When a call has waited enough, if ever.
#[derive(Clone, Copy, Debug)]
pub(crate) struct Deadline(Option<Instant>);

impl Deadline {
    /// That of a call which begins now, and may wait so long; no time at all is for ever.
    pub fn after(limit: Option<Duration>) -> Deadline {
        Deadline(limit.filter(|limit| !limit.is_zero()).map(|limit| Instant::now() + limit))
    }

    /// How long the call may still wait.
    fn left(self) -> io::Result<Option<Duration>> {
        let left = self.0.map(|ends| ends.saturating_duration_since(Instant::now()));
        match left {
            Some(left) if left.is_zero() => Err(ErrorKind::TimedOut.into()),
            left => Ok(left),
        }
    }
}

#[derive(Debug)]
enum Socket {
    Unix(UnixStream),
    Tcp(TcpStream),
}

#[derive(Debug)]
pub(crate) struct Stream {
    socket: Socket,
    /// After how long the socket's own reads end, if ever.
    limit: Option<Duration>,
    /// What came, of which so many bytes were read.
    came: Vec<u8>,
    read: usize,
}

impl Stream {
    pub fn connect(place: &Place, ends: Deadline) -> io::Result<Stream> {
        let socket = match place {
            Place::Socket(path) => Socket::Unix(connect_socket(path, ends.left()?)?),
            Place::Port(port) => Socket::Tcp(connect_port(*port, ends.left()?)?),
        };
        Ok(Stream { socket, limit: None, came: Vec::new(), read: 0 })
    }

    /// Has the next read of the socket end after a time.
    fn limit_read(&mut self, limit: Option<Duration>) -> io::Result<()> {
        if limit == self.limit && limit.is_none() {
            return Ok(());
        }
        self.limit = limit;
        match &self.socket {
            Socket::Unix(s) => s.set_read_timeout(limit),
            Socket::Tcp(s) => s.set_read_timeout(limit),
        }
    }

    /// Whether the port has neither ended the connection nor sent what nobody asked for.
    pub fn is_quiet(&self) -> bool {
        let would_block = self.set_nonblocking(true).is_ok()
            && matches!(self.read_some(&mut [0]), Err(e) if e.kind() == io::ErrorKind::WouldBlock);
        self.set_nonblocking(false).is_ok() && would_block && self.unread().is_empty()
    }

    /// Sends bytes. While the socket takes none, those that have come are received: a port that
    /// cannot be rid of its answers takes no further request.
    pub fn send(&mut self, bytes: &[u8], ends: Deadline) -> io::Result<()> {
        let mut sent = 0;
        while sent < bytes.len() {
            match self.send_some(&bytes[sent..]) {
                Ok(0) => return Err(ErrorKind::WriteZero.into()),
                Ok(more) => sent += more,
                Err(error) if error.kind() == ErrorKind::Interrupted => {}
                Err(error) if error.kind() == ErrorKind::WouldBlock => {
                    self.receive_a_while(ends)?
                }
                Err(error) => {
                    self.receive_last(ends);
                    return Err(error);
                }
            }
        }
        Ok(())
    }

    /// Sends what the socket takes at once.
    fn send_some(&mut self, bytes: &[u8]) -> io::Result<usize> {
        self.set_nonblocking(true)?;
        let sent = self.write_some(bytes);
        self.set_nonblocking(false)?;
        sent
    }

    /// Receives for a short while. The standard library cannot wait until a socket takes bytes or
    /// has some, so the socket is asked again after that. Nothing is received beyond the longest
    /// record.
    fn receive_a_while(&mut self, ends: Deadline) -> io::Result<()> {
        let left = ends.left()?;
        if self.unread().len() > MAX_RECORD {
            thread::sleep(A_WHILE);
            return Ok(());
        }
        self.limit_read(Some(left.map_or(A_WHILE, |left| left.min(A_WHILE))))?;
        match self.receive_more() {
            Err(error) if error.kind() == ErrorKind::TimedOut => Ok(()),
            received => received,
        }
    }

    /// Receives what came before the end of a connection that takes no more bytes.
    fn receive_last(&mut self, ends: Deadline) {
        while self.unread().len() <= MAX_RECORD
            && ends.left().and_then(|left| self.limit_read(left)).is_ok()
            && self.receive_more().is_ok()
        {}
    }

    fn unread(&self) -> &[u8] {
        &self.came[self.read..]
    }

    fn receive_more(&mut self) -> io::Result<()> {
        self.came.drain(..self.read);
        self.read = 0;
        let mut piece = [0; PIECE_BYTES];
        let more = moved(self.read_some(&mut piece), ErrorKind::UnexpectedEof)?;
        self.came.extend_from_slice(&piece[..more]);
        Ok(())
    }

    /// One record, without its length, once it is there whole.
    pub fn received(&mut self) -> Result<Option<Vec<u8>>, Error> {
        let Some(length) = self.unread().get(..LENGTH_BYTES) else { return Ok(None) };
        let length = length.iter().fold(0, |length, byte| length << 8 | usize::from(*byte));
        if length > MAX_RECORD {
            return Err(Error::Protocol("an answer is too long"));
        }
        let record = self.unread().get(LENGTH_BYTES..LENGTH_BYTES + length).map(<[u8]>::to_vec);
        if record.is_some() {
            self.read += LENGTH_BYTES + length;
        }
        Ok(record)
    }

    /// One record, without its length.
    pub fn receive(&mut self, ends: Deadline) -> Result<Vec<u8>, Error> {
        loop {
            if let Some(record) = self.received()? {
                return Ok(record);
            }
            let left = ends.left().map_err(Error::Lost)?;
            self.limit_read(left).and_then(|()| self.receive_more()).map_err(Error::Lost)?;
        }
    }

    fn read_some(&self, into: &mut [u8]) -> io::Result<usize> {
        match &self.socket {
            Socket::Unix(s) => (&*s).read(into),
            Socket::Tcp(s) => (&*s).read(into),
        }
    }

    fn write_some(&self, bytes: &[u8]) -> io::Result<usize> {
        match &self.socket {
            Socket::Unix(s) => (&*s).write(bytes),
            Socket::Tcp(s) => (&*s).write(bytes),
        }
    }

    fn set_nonblocking(&self, on: bool) -> io::Result<()> {
        match &self.socket {
            Socket::Unix(s) => s.set_nonblocking(on),
            Socket::Tcp(s) => s.set_nonblocking(on),
        }
    }
}

/// How many bytes a call has moved: none after a signal, and `at_end` where there are no more.
fn moved(found: io::Result<usize>, at_end: ErrorKind) -> io::Result<usize> {
    match found {
        Ok(0) => Err(at_end.into()),
        Err(error) if error.kind() == ErrorKind::Interrupted => Ok(0),
        Err(error) if error.kind() == ErrorKind::WouldBlock => Err(ErrorKind::TimedOut.into()),
        found => found,
    }
}

/// Connects to a socket. The standard library has no limit for that, so a thread waits for it where
/// one is wanted. It ends as soon as the socket has room, or is gone.
fn connect_socket(path: &Path, limit: Option<Duration>) -> io::Result<UnixStream> {
    let Some(limit) = limit else { return UnixStream::connect(path) };
    let (sender, receiver) = mpsc::channel();
    let path = path.to_owned();
    thread::Builder::new().spawn(move || drop(sender.send(UnixStream::connect(path))))?;
    receiver.recv_timeout(limit).unwrap_or_else(|_| Err(ErrorKind::TimedOut.into()))
}

fn connect_port(port: u16, limit: Option<Duration>) -> io::Result<TcpStream> {
    let address = SocketAddr::from((Ipv4Addr::LOCALHOST, port));
    let stream = match limit {
        Some(limit) => TcpStream::connect_timeout(&address, limit)?,
        None => TcpStream::connect(address)?,
    };
    stream.set_nodelay(true)?;
    Ok(stream)
}
