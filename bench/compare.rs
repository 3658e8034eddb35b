//! Answers the lines of bench/compare by the Rust crate. compare.rt.txt does the same by this library.
use qoi::{Channels, ColorSpace, Decoder, Encoder, Error, Header};
use std::io::{self, BufRead, ErrorKind, Read, Write};
use std::panic::{catch_unwind, set_hook, AssertUnwindSafe};

/// A reader and a writer in memory: so many bytes a call at most, and a call that ends badly.
struct Fake {
    /// The bytes that are left, or that were taken.
    bytes: Vec<u8>,
    most: usize,
    /// Which call ends badly, counted from 1, and how.
    bad: usize,
    end: String,
    calls: usize,
}

impl Fake {
    fn new(bytes: Vec<u8>, words: &[&str]) -> Fake {
        Fake { bytes, most: number(words[0]), bad: number(words[1]), end: words[2].to_string(), calls: 0 }
    }

    /// How many bytes a call moves.
    fn moves(&mut self, most: usize) -> io::Result<usize> {
        self.calls += 1;
        match self.end.as_str() {
            _ if self.calls != self.bad => Ok(most.min(self.most)),
            "no_byte" => Ok(0),
            "interruption" => Err(ErrorKind::Interrupted.into()),
            _ => Err(ErrorKind::BrokenPipe.into()),
        }
    }
}

impl Read for Fake {
    fn read(&mut self, buf: &mut [u8]) -> io::Result<usize> {
        let n = self.moves(buf.len().min(self.bytes.len()))?;
        buf[..n].copy_from_slice(&self.bytes[..n]);
        self.bytes.drain(..n);
        Ok(n)
    }
}

impl Write for Fake {
    fn write(&mut self, buf: &[u8]) -> io::Result<usize> {
        let n = self.moves(buf.len())?;
        self.bytes.extend_from_slice(&buf[..n]);
        Ok(n)
    }

    fn flush(&mut self) -> io::Result<()> {
        Ok(())
    }
}

fn number<T: std::str::FromStr>(word: &str) -> T {
    word.parse().unwrap_or_else(|_| panic!("no number: {word}"))
}

fn hex(bytes: &[u8]) -> String {
    bytes.iter().map(|it| format!("{it:02x}")).collect()
}

fn unhex(word: &str) -> Vec<u8> {
    (0..word.len() / 2).map(|i| u8::from_str_radix(&word[2 * i..2 * i + 2], 16).unwrap()).collect()
}

// An answer's text: the value, or the error's kind and words.
fn shown(made: qoi::Result<String>) -> String {
    match made {
        Ok(text) => text,
        Err(Error::IoError(e)) => format!("{:?}: i/o error: {e}", e.kind()),
        Err(e) => e.to_string(),
    }
}

fn channels_of(word: &str) -> Channels {
    if word == "4" { Channels::Rgba } else { Channels::Rgb }
}

fn buffer(size: usize, file: &[u8]) -> qoi::Result<String> {
    let mut buf = vec![0xaa; size];
    let n = Decoder::new(file)?.decode_to_buf(&mut buf)?;
    Ok(format!("{n}, buffer {}", hex(&buf)))
}

fn tail(file: &[u8]) -> qoi::Result<String> {
    let mut decoder = Decoder::new(file)?;
    decoder.decode_to_vec()?;
    Ok(hex(decoder.data()))
}

fn send(mut fake: Fake, width: u32, height: u32, raw: &[u8]) -> String {
    let made = Encoder::new(raw, width, height).and_then(|it| it.encode_to_stream(&mut fake));
    format!("{} after {} calls: {}", shown(made.map(|n| n.to_string())), fake.calls, hex(&fake.bytes))
}

fn receive(mut fake: Fake) -> String {
    let had = fake.bytes.len();
    let made = Decoder::from_stream(&mut fake).and_then(|mut it| it.decode_to_vec());
    format!("{} after {} bytes", shown(made.map(|it| hex(&it))), had - fake.bytes.len())
}

fn answer(words: &[&str]) -> String {
    match *words {
        ["buffer", size, file] => shown(buffer(number(size), &unhex(file))),
        ["vector", file] => shown(qoi::decode_to_vec(unhex(file)).map(|(_, it)| hex(&it))),
        ["tail", file] => shown(tail(&unhex(file))),
        ["channels", n, file] => {
            let file = unhex(file);
            let made = Decoder::new(&file).and_then(|it| it.with_channels(channels_of(n)).decode_to_vec());
            shown(made.map(|it| hex(&it)))
        }
        ["max_len", width, height, n] => {
            qoi::encode_max_len(number(width), number(height), number::<u8>(n)).to_string()
        }
        ["n_bytes", width, height, n] => {
            let (channels, colorspace) = (channels_of(n), ColorSpace::Srgb);
            let header = Header { width: number(width), height: number(height), channels, colorspace };
            header.n_bytes().to_string()
        }
        ["chunks", _, width, height, raw] => {
            let made = qoi::encode_to_vec(unhex(raw), number(width), number(height));
            shown(made.map(|it| hex(&it[14..it.len() - 8])))
        }
        ["send", most, bad, end, width, height, raw] => {
            send(Fake::new(Vec::new(), &[most, bad, end]), number(width), number(height), &unhex(raw))
        }
        ["receive", most, bad, end, file] => receive(Fake::new(unhex(file), &[most, bad, end])),
        _ => panic!("not a case"),
    }
}

fn main() {
    set_hook(Box::new(|_| ()));
    for line in io::stdin().lock().lines().map_while(Result::ok) {
        let words: Vec<&str> = line.split_whitespace().collect();
        let made = catch_unwind(AssertUnwindSafe(|| answer(&words)));
        println!("{}", made.unwrap_or_else(|_| "panics".to_string()));
    }
}
