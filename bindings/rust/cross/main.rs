//! The crate on a core without an operating system's help but for printing: no_std, no main of Rust's, the sample voice in the program itself.
//! Every model is loaded into one lent array, every tree is walked with every answer, and all that the calls told is mixed into one number, which is printed; it must be the same on every core.
#![no_std]
#![no_main]

type Int = i32; // C's int on all three
use larsavim::{Job, Model, Refusal, Voice, Which};

static VOICE: &[u8] = include_bytes!("../../../host/sample/shichi.htsvoice");
const LABELS: [&[u8]; 3] = [b"sil^sh-i+ch=i", b"", b"xx^sil-pau+a=b"];

extern "C" {
    fn printf(format: *const u8, ...) -> Int;
}

#[panic_handler]
fn panicked(_: &core::panic::PanicInfo) -> ! {
    loop {}
}

/// Rust's own library for x86-64 names it; with panic=abort nothing calls it.
#[no_mangle]
pub extern "C" fn rust_eh_personality() {}

/// Many numbers as one.
struct Mixed(u64, u64);

impl Mixed {
    fn put(&mut self, n: u64) {
        self.0 = (self.0 ^ n).wrapping_mul(0x100000001b3);
        self.1 += 1;
    }
}

fn model(mixed: &mut Mixed, voice: &Voice, which: Which, memory: &mut [u64], work: &mut [i64]) -> Result<(), Refusal> {
    let needs = voice.needs(which)?;
    for n in needs.lengths() {
        mixed.put(n);
    }
    let tables = needs.tables(memory).ok_or(Refusal::Room)?;
    let model = Model::load(&needs, tables, work)?;
    mixed.put(model.leaves() as u64);
    for q in model.questions() {
        q.name().iter().for_each(|&b| mixed.put(b.into()));
        q.patterns().flatten().for_each(|&b| mixed.put(b.into()));
    }
    for (t, tree) in model.trees().enumerate() {
        (1..=tree.entries()).filter_map(|n| tree.entry(n)).flat_map(|e| e.bits()).for_each(|&v| mixed.put(v));
        mixed.put(model.depth(t as u64, work)?.unwrap_or(u64::MAX));
        for k in 0..128u8 {
            let answers: [u8; 7] = core::array::from_fn(|i| k >> i & 1);
            let walk = model.walk(t as u64, &answers, 9)?;
            let mut job = [Job { tree: t as u64, limit: 9, start: 0, number: 7, pdf: 7, asked: 7 }];
            model.walk_jobs(&answers, &mut job);
            for n in [walk.pdf, walk.asked, job[0].number, job[0].pdf, job[0].asked] {
                mixed.put(n);
            }
        }
    }
    for label in LABELS {
        let mut room = [0; 16];
        model.answers(label, &mut room)?.iter().for_each(|&a| mixed.put(a.into()));
    }
    let mut buffer = [0; 4096];
    model.write(&mut buffer)?.iter().for_each(|&b| mixed.put(b.into()));
    Ok(())
}

fn all(mixed: &mut Mixed) -> Result<(), Refusal> {
    let (mut memory, mut work) = ([0; 2048], [0; 256]);
    let voice = Voice::open(VOICE)?;
    voice.stream_type().flat_map(str::bytes).for_each(|b| mixed.put(b.into()));
    for which in voice.models() {
        if let Err(r) = model(mixed, &voice, which, &mut memory, &mut work) {
            mixed.put(r.number());
        }
    }
    // every byte of the header, changed: what the opening says
    for at in 0..voice.data_start() as usize {
        let mut changed = [0; 8192];
        changed[..VOICE.len()].copy_from_slice(VOICE);
        changed[at] ^= 0x11;
        if let Err(r) = Voice::open(&changed[..VOICE.len()]) {
            mixed.put(r.number());
            mixed.put(r.place());
        }
    }
    Ok(())
}

#[no_mangle]
pub extern "C" fn main() -> Int {
    let mut mixed = Mixed(0xcbf29ce484222325, 0);
    let number = all(&mut mixed).map_or_else(|r| r.number(), |_| 0);
    // SAFETY: the format ends with a byte of 0, and has as many numbers as stand behind it
    unsafe { printf(b"%llu %llu %016llx\n\0".as_ptr(), number, mixed.1, mixed.0) };
    number as Int
}
