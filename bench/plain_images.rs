//! A plain Rust program that reads, builds and writes an image and checks the same as the heap's crates, for `bench/images`.
//!
//! `make FIELDS FILE BIRTHS` writes an image of 64 MiB of cells, all of which hold objects of so many fields; each refers to objects all over
//! the heap. Births are `apart`, in no order; or `wide`, 950 from one another; or `equal`, all one; or `pairs`, each of two neighbours; or
//! `last`, so that only the last object has the first one's. `time FILE` prints the processor seconds of each step and the most memory in KiB
//! after it.
mod plain_reader;

use plain_reader::{Image, MAGIC, SUPERPAGES, class_of, processor_seconds, scan};
use std::fs;

const PAGE: usize = 512;

/// A superpage: what its objects are, and which cells hold one.
#[derive(Clone)]
struct Header {
    pair: u64,
    cells: [u64; 16],
}

struct Heap {
    headers: Vec<Header>,
    pages: Vec<Option<Box<[u64; PAGE]>>>,
}

fn build(image: &Image) -> Heap {
    let count = image.superpages() as usize;
    let mut heap = Heap { headers: vec![Header { pair: 0, cells: [0; 16] }; count], pages: (0..4 * count).map(|_| None).collect() };
    for cell in &image.cells {
        let at = cell.address as usize;
        let class = class_of(cell.head & 127);
        let header = &mut heap.headers[at / 2048];
        header.pair = class + 256 * cell.domain();
        let number = at % 2048 / class as usize;
        header.cells[number / 64] |= 1 << (number % 64);
        let page = heap.pages[at / PAGE].get_or_insert_with(|| Box::new([0; PAGE]));
        page[at % PAGE] = cell.head;
        page[at % PAGE + 1..][..cell.fields.len()].copy_from_slice(&cell.fields);
    }
    heap
}

fn write(image: &Image, heap: &Heap, out: &mut Vec<u8>) {
    let mut put = |item: u64| out.extend_from_slice(&item.to_be_bytes());
    image.numbers.iter().chain(&image.roots).for_each(|item| put(*item));
    for (superpage, header) in heap.headers.iter().enumerate() {
        put(header.pair);
        if header.pair == 0 {
            continue;
        }
        let class = (header.pair % 256) as usize;
        put(header.cells.iter().map(|word| u64::from(word.count_ones())).sum());
        for number in (0..2048 / class).filter(|number| header.cells[number / 64] >> (number % 64) & 1 == 1) {
            let at = 2048 * superpage + class * number;
            let page = heap.pages[at / PAGE].as_ref().unwrap();
            put(at as u64);
            let head = page[at % PAGE];
            put(head);
            page[at % PAGE + 1..][..(head & 127) as usize].iter().for_each(|field| put(*field));
        }
    }
}

/// The serial of an object, of so many, by how births are asked for.
fn serial(births: &str, object: u64, objects: u64) -> u64 {
    let apart = object * 1_640_531 % objects + 1;
    match births {
        "wide" => 950 * apart,
        "equal" => 1,
        "pairs" => object / 2 + 1,
        "last" if object == objects - 1 => 1,
        _ => apart,
    }
}

fn make(fields: u64, births: &str) -> Vec<u8> {
    let class = class_of(fields);
    let objects = 2048 / class * SUPERPAGES;
    let mut items = vec![MAGIC, 1, 1, 1, 2, SUPERPAGES, 1, 4, 1 + 4 * SUPERPAGES, 1, 0, 950 * objects, 2, 15];
    for superpage in 0..SUPERPAGES {
        items.extend([class, 2048 / class]);
        for number in 0..2048 / class {
            let object = superpage * (2048 / class) + number;
            items.extend([class * object, fields + (serial(births, object, objects) << 17)]);
            items.extend((0..fields).map(|field| 2 * (class * ((object * 7919 + field * 104_729) % objects) + 1)));
        }
    }
    items.iter().flat_map(|item| item.to_be_bytes()).collect()
}

/// The most memory so far, in KiB.
fn most() -> u64 {
    let status = fs::read_to_string("/proc/self/status").unwrap();
    let line = status.lines().find(|line| line.starts_with("VmHWM:")).unwrap();
    line.split_whitespace().nth(1).unwrap().parse().unwrap()
}

fn main() {
    let words: Vec<String> = std::env::args().collect();
    if words[1] == "make" {
        return fs::write(&words[3], make(words[2].parse().unwrap(), &words[4])).unwrap();
    }
    let bytes = fs::read(&words[2]).unwrap();
    let begun = processor_seconds();
    let image = scan(&bytes).unwrap();
    println!("scan {} {}", processor_seconds() - begun, most());
    let begun = processor_seconds();
    let heap = build(&image);
    println!("build {} {}", processor_seconds() - begun, most());
    let mut out = Vec::with_capacity(image.used);
    let begun = processor_seconds();
    write(&image, &heap, &mut out);
    println!("write {} {}", processor_seconds() - begun, most());
    assert!(out == bytes[..image.used]);
}
