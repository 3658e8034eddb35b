//! The calls of the Rust crate that bench.c times. Each writes to `out` and returns how many bytes, or 0 if it refuses.
use qoi::{Channels, Decoder, Encoder, Result};
use std::io::{BufReader, Read};
use std::slice::{from_raw_parts, from_raw_parts_mut};

// Copies what fits of a vector, nothing if the call is timed, and returns the vector's length.
fn keep(out: &mut [u8], bytes: &[u8]) -> usize {
    let n = out.len().min(bytes.len());
    out[..n].copy_from_slice(&bytes[..n]);
    bytes.len()
}

fn to_slice(mut out: &mut [u8], raw: &[u8], width: u32, height: u32) -> Result<usize> {
    Encoder::new(raw, width, height)?.encode_to_stream(&mut out)
}

fn to_growing(out: &mut [u8], raw: &[u8], width: u32, height: u32) -> Result<usize> {
    let mut writer = Vec::new();
    Encoder::new(raw, width, height)?.encode_to_stream(&mut writer)?;
    Ok(keep(out, &writer))
}

// Decodes in three or four channels, or for any other number in the file's own.
fn from_slice(out: &mut [u8], file: &[u8], channels: u32) -> Result<usize> {
    let decoder = Decoder::new(file)?;
    let mut decoder = match channels {
        3 => decoder.with_channels(Channels::Rgb),
        4 => decoder.with_channels(Channels::Rgba),
        _ => decoder,
    };
    let size = decoder.required_buf_len();
    decoder.decode_to_buf(&mut out[..size])
}

fn from_reader(out: &mut [u8], reader: impl Read) -> Result<usize> {
    let mut decoder = Decoder::from_stream(reader)?;
    let size = decoder.required_buf_len();
    decoder.decode_to_buf(&mut out[..size])
}

// C entries: each parameter that is a slice is a pointer and a length.
macro_rules! encoding {
    ($($name:ident = |$out:ident, $raw:ident, $width:ident, $height:ident| $call:expr;)*) => {$(
        #[no_mangle]
        pub unsafe extern "C" fn $name(
            out: *mut u8, room: usize, raw: *const u8, len: usize, $width: u32, $height: u32,
        ) -> usize {
            let ($out, $raw) = (from_raw_parts_mut(out, room), from_raw_parts(raw, len));
            $call.unwrap_or(0)
        }
    )*};
}

macro_rules! decoding {
    ($($name:ident = |$out:ident, $file:ident, $channels:ident| $call:expr;)*) => {$(
        #[no_mangle]
        pub unsafe extern "C" fn $name(
            out: *mut u8, room: usize, file: *const u8, len: usize, $channels: u32,
        ) -> usize {
            let ($out, $file) = (from_raw_parts_mut(out, room), from_raw_parts(file, len));
            $call.unwrap_or(0)
        }
    )*};
}

encoding! {
    crate_encode_buffer = |out, raw, width, height| qoi::encode_to_buf(out, raw, width, height);
    crate_encode_vector = |out, raw, width, height| qoi::encode_to_vec(raw, width, height).map(|v| keep(out, &v));
    crate_encode_slice = |out, raw, width, height| to_slice(out, raw, width, height);
    crate_encode_growing = |out, raw, width, height| to_growing(out, raw, width, height);
}

decoding! {
    crate_decode_buffer = |out, file, channels| from_slice(out, file, channels);
    crate_decode_vector = |out, file, _channels| qoi::decode_to_vec(file).map(|(_, v)| keep(out, &v));
    crate_decode_stream = |out, file, _channels| from_reader(out, file);
    crate_decode_stream_buffered = |out, file, _channels| from_reader(out, BufReader::new(file));
}

/// Encodes an image so many times, and keeps all of the files until the return.
#[no_mangle]
pub unsafe extern "C" fn crate_keep(raw: *const u8, len: usize, width: u32, height: u32, count: usize) -> usize {
    let raw = from_raw_parts(raw, len);
    let files: Vec<_> = (0..count).map_while(|_| qoi::encode_to_vec(raw, width, height).ok()).collect();
    files.len()
}
