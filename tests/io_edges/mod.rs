use io_edges::{Failed, Sink, Source, StdSink, StdSource, WriteRefusal};
use nav_types::Bytes;
use std::io::{self, ErrorKind, Read, Write};

/// Gives its bytes in pieces of three and fails at its second call.
#[derive(Drop)]
struct BrokenReader {
    bytes: &'static [u8],
    calls: u8,
}

impl Read for BrokenReader {
    fn read(&mut self, buf: &mut [u8]) -> io::Result<usize> {
        self.calls = self.calls.saturating_add(1);
        if self.calls == 2 {
            return Err(io::Error::from(ErrorKind::BrokenPipe));
        }
        let room = buf.len().min(3);
        self.bytes.read(&mut buf[..room])
    }
}

/// Takes at most two bytes of a piece, none at its second call, fails at its third, and its fourth flush fails.
#[derive(Drop)]
struct BrokenWriter {
    bytes: Bytes,
    writes: u8,
    flushes: u8,
}

impl Write for BrokenWriter {
    fn write(&mut self, buf: &[u8]) -> io::Result<usize> {
        self.writes = self.writes.saturating_add(1);
        if self.writes == 3 {
            return Err(io::Error::from(ErrorKind::BrokenPipe));
        }
        let taken = if self.writes == 2 {
            0
        } else {
            buf.len().min(2)
        };
        if self.bytes.extend(&buf[..taken]).is_err() {
            return Err(io::Error::from(ErrorKind::OutOfMemory));
        }
        Ok(taken)
    }

    fn flush(&mut self) -> io::Result<()> {
        self.flushes = self.flushes.saturating_add(1);
        if self.flushes == 4 {
            return Err(io::Error::from(ErrorKind::BrokenPipe));
        }
        Ok(())
    }
}

#[test]
fn an_error_of_a_reader_is_a_fault(rt: HostRuntime) {
    let mut source = StdSource::new(BrokenReader {
        bytes: b"navcell",
        calls: 0,
    });
    for (answer, bytes) in [
        (Ok(3), b"nav".as_slice()),
        (Err(Failed), b"".as_slice()),
        (Ok(3), b"cel".as_slice()),
        (Ok(1), b"l".as_slice()),
        (Ok(0), b"".as_slice()),
    ] {
        let mut buf = [0u8; 4];
        assert!(rt; source.read(&mut buf) == answer);
        assert!(rt; buf.as_slice().starts_with(bytes));
    }
}

#[test]
fn an_error_of_a_writer_is_a_fault(rt: HostRuntime) {
    let mut writer = BrokenWriter {
        bytes: Bytes::new(rt.alloc()),
        writes: 0,
        flushes: 0,
    };
    let mut sink = StdSink::new(&mut writer);
    let failed = Err(WriteRefusal::Failed);
    for answer in [Ok(2), Ok(0), failed, Ok(2), failed, failed] {
        assert!(rt; sink.write(b"grid") == answer);
    }
    assert!(rt; writer.bytes.as_slice() == b"grgrgr".as_slice());
    assert!(rt; writer.writes == 5);
}
