//! Reads, builds and writes an image by the heap's own crates, for `bench/images`.
//!
//! `time FILE` prints the processor seconds of each step and the most memory in KiB after it. `read FILE` prints the seconds of reading it and
//! the answer. `judge FILE` takes pieces, each after 8 bytes that give its length, and prints the answer for each: `image BYTES OBJECTS` or
//! `fault AT CAUSE`.
use bc_image::{ReadImage, scan};
use bc_picture::{Picture, build, write};
use shim::Global;

/// What `write` asks of a device, without contracts, and a device that keeps what it gets.
mod bc_io {
    pub struct Failed;

    #[derive(Debug)]
    pub struct WriteFault;

    pub trait Sink {
        fn write(&mut self, bytes: &[u8]) -> Result<usize, Failed>;
    }

    impl Sink for std::vec::Vec<u8> {
        fn write(&mut self, bytes: &[u8]) -> Result<usize, Failed> {
            self.extend_from_slice(bytes);
            Ok(bytes.len())
        }
    }

    pub fn write_all<K: Sink>(sink: &mut K, bytes: &[u8]) -> Result<(), WriteFault> {
        let mut done = 0;
        while done < bytes.len() {
            match sink.write(&bytes[done..]) {
                Ok(count) => done += count,
                Err(Failed) => return Err(WriteFault),
            }
        }
        Ok(())
    }
}

extern "C" {
    fn clock() -> std::ffi::c_long;
}

/// The processor time that this program took so far, in seconds.
fn processor_seconds() -> f64 {
    (unsafe { clock() }) as f64 / 1e6
}

/// The most memory so far, in KiB.
fn most() -> u64 {
    let status = std::fs::read_to_string("/proc/self/status").unwrap();
    let line = status.lines().find(|line| line.starts_with("VmHWM:")).unwrap();
    line.split_whitespace().nth(1).unwrap().parse().unwrap()
}

fn time(bytes: &[u8]) {
    let begun = processor_seconds();
    let (listing, used) = match scan(Global, bytes) {
        Ok(found) => found,
        Err(_) => panic!("no image"),
    };
    println!("scan {} {}", processor_seconds() - begun, most());
    let begun = processor_seconds();
    let Picture { roots, mut space } = build(Global, &listing).unwrap();
    println!("build {} {}", processor_seconds() - begun, most());
    let mut out = std::vec::Vec::with_capacity(used);
    let begun = processor_seconds();
    let (version, phases) = (listing.version, listing.phases);
    let written = write(&mut out, version, &listing.setup, phases, &listing.holders, &listing.births, &roots, &mut space);
    println!("write {} {}", processor_seconds() - begun, most());
    assert!(written.is_ok() && out == bytes[..used]);
}

fn answer(bytes: &[u8]) -> String {
    match scan(Global, bytes) {
        Ok((listing, used)) => format!("image {} {}", used, listing.cells.len()),
        Err(ReadImage::Fault(fault)) => format!("fault {} {:?}", fault.at, fault.cause),
        Err(ReadImage::NoMemory) => panic!("no memory"),
    }
}

fn judge(bytes: &[u8]) {
    let mut at = 0;
    while at < bytes.len() {
        let length = u64::from_be_bytes(bytes[at..at + 8].try_into().unwrap()) as usize;
        println!("{}", answer(&bytes[at + 8..at + 8 + length]));
        at += 8 + length;
    }
}

fn main() {
    let words: std::vec::Vec<String> = std::env::args().collect();
    let bytes = std::fs::read(&words[2]).unwrap();
    match words[1].as_str() {
        "time" => time(&bytes),
        "read" => {
            let begun = processor_seconds();
            let answer = answer(&bytes);
            println!("{} {answer}", processor_seconds() - begun);
        }
        _ => judge(&bytes),
    }
}
