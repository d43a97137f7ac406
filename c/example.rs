// Encodes a raster of one octet a pixel and decodes its packets again: example WIDTH ROWS < raster > packets. The status is 0 if
// the picture is the raster.
use std::io::{Read, Write};

#[repr(C)]
struct Setting {
    size: u32,
    width: u32,
    rows: u32,
    segment: u32,
    limit: u32,
    packet: u32,
    total: u64,
    apid: u16,
    image: u16,
    depth: u8,
    is_signed: u8,
    fill: u8,
    word: u8,
    stop_dc: u8,
    stop_plane: u8,
    stop_stage: u8,
    optimal: u8,
    weights: [u8; 10],
    has_book: u8,
    book: [u8; 138],
}

#[repr(C)]
#[derive(Default)]
struct Encoded {
    size: u32,
    field: u32,
    octets: u64,
    all: u64,
    packets: u64,
    segments: u32,
    rows: u32,
    column: u32,
    value: i32,
}

#[repr(C)]
struct Wish {
    size: u32,
    apid: u16,
    has_book: u8,
    book: [u8; 138],
    pixels: u64,
    octets: u64,
}

#[repr(C)]
#[derive(Default)]
struct Decoded {
    size: u32,
    width: u32,
    octets: u64,
    ranges: u64,
    fault_octets: u64,
    pixels: u64,
    rows: u32,
    written: u32,
    segment: u32,
    image: u16,
    depth: u8,
    is_signed: u8,
    word: u8,
    fault: u8,
    weights: [u8; 10],
}

#[repr(C)]
#[derive(Clone, Default)]
struct Range {
    first: u32,
    last: u32,
}

unsafe extern "C" {
    fn strip122_encode(
        setting: &Setting,
        raster: *const u8,
        octets: usize,
        room: *mut u8,
        size: usize,
        encoded: &mut Encoded,
    ) -> u32;
    fn strip122_decode(
        wish: &Wish,
        packets: *const u8,
        octets: usize,
        room: *mut u8,
        size: usize,
        ranges: *mut Range,
        places: usize,
        decoded: &mut Decoded,
    ) -> u32;
}

// The answer, the packets and the report.
fn encode(setting: &Setting, raster: &[u8], size: usize) -> (u32, Vec<u8>, Encoded) {
    let mut room = vec![0; size];
    let mut report = Encoded { size: size_of::<Encoded>() as u32, ..Encoded::default() };
    let answer = unsafe {
        strip122_encode(setting, raster.as_ptr(), raster.len(), room.as_mut_ptr(), size, &mut report)
    };
    if answer == 0 {
        room.truncate(report.octets as usize);
    }
    (answer, room, report)
}

// The answer and the picture. The first call has no room, and reports how many octets are needed.
fn decode(apid: u16, packets: &[u8]) -> (u32, Vec<u8>) {
    let wish = Wish {
        size: size_of::<Wish>() as u32,
        apid,
        has_book: 0,
        book: [0; 138],
        pixels: 1 << 32,
        octets: 1 << 40,
    };
    let mut room = Vec::new();
    let mut ranges = vec![Range::default(); 16];
    let mut report = Decoded { size: size_of::<Decoded>() as u32, ..Decoded::default() };
    loop {
        let answer = unsafe {
            strip122_decode(
                &wish,
                packets.as_ptr(),
                packets.len(),
                room.as_mut_ptr(),
                room.len(),
                ranges.as_mut_ptr(),
                ranges.len(),
                &mut report,
            )
        };
        if answer != 7 {
            return (answer, room);
        }
        room = vec![0; report.octets as usize];
    }
}

fn main() {
    let sizes: Vec<u32> = std::env::args().skip(1).map(|word| word.parse().expect("a number")).collect();
    let setting = Setting {
        size: size_of::<Setting>() as u32,
        width: sizes[0],
        rows: sizes[1],
        segment: 64,
        limit: 0,
        packet: 1024,
        total: 0,
        apid: 100,
        image: 0,
        depth: 8,
        is_signed: 0,
        fill: 0,
        word: 1,
        stop_dc: 0,
        stop_plane: 0,
        stop_stage: 3,
        optimal: 1,
        weights: [0, 1, 1, 1, 2, 2, 2, 3, 3, 3],
        has_book: 0,
        book: [0; 138],
    };
    let mut raster = Vec::new();
    std::io::stdin().read_to_end(&mut raster).expect("a raster");
    let (answer, packets, _) = encode(&setting, &raster, 2 * raster.len() + 4096);
    assert_eq!(answer, 0);
    std::io::stdout().write_all(&packets).expect("room");
    assert_eq!(decode(setting.apid, &packets), (0, raster));
}
