//! The stored headers, voices and walks (judge/stored, whose numbers the Rust and the second reading agreed on) through the binding: every field, every row, every walk.
use larsavim::{Model, Range, Refusal, Voice, Which};

/// Stored numbers, taken one after the other.
struct Numbers<'a>(std::str::Split<'a, char>);

impl Numbers<'_> {
    /// A number; values are stored as the 64 bits that they are.
    fn one(&mut self) -> u64 {
        self.0.next().expect("another number").parse().expect("a number")
    }

    fn some(&mut self, n: u64) -> Vec<u64> {
        (0..n).map(|_| self.one()).collect()
    }

    fn range(&mut self) -> Range {
        Range { first: self.one(), last: self.one() }
    }

    fn perhaps(&mut self) -> Option<Range> {
        let (there, range) = (self.one(), self.range());
        (there == 1).then_some(range)
    }

    fn string<'f>(&mut self, file: &'f [u8]) -> &'f str {
        let (start, len) = (self.one() as usize, self.one() as usize);
        std::str::from_utf8(&file[start..start + len]).unwrap()
    }

    fn strings<'f>(&mut self, file: &'f [u8]) -> Vec<&'f str> {
        (0..self.one()).map(|_| self.string(file)).collect()
    }
}

/// Each case of a list: its input, and its numbers. How many there were is returned.
fn cases(kind: &str, mut each: impl FnMut(&[u8], &mut Numbers)) -> usize {
    let mut count = 0;
    for part in 1.. {
        let Ok(text) = std::fs::read_to_string(format!("{}/../../judge/stored/{kind}-{part}.txt", env!("CARGO_MANIFEST_DIR"))) else { break };
        for line in text.lines() {
            let (hex, numbers) = line.split_once(' ').unwrap();
            let file: Vec<u8> = (0..hex.len() / 2).map(|i| u8::from_str_radix(&hex[2 * i..2 * i + 2], 16).unwrap()).collect();
            let mut numbers = Numbers(numbers.split(' '));
            each(&file, &mut numbers);
            assert_eq!(numbers.0.next(), None, "every number is used");
            count += 1;
        }
    }
    count
}

fn told<T>(r: &Result<T, Refusal>) -> [u64; 3] {
    r.as_ref().err().map_or([0; 3], |r| [r.number(), r.place(), r.line()])
}

#[test]
fn headers() {
    let count = cases("headers", |file, n| {
        let opened = Voice::open(file);
        assert_eq!(told(&opened)[..2], n.some(2)[..]);
        let Ok(v) = opened else { return };
        assert_eq!(v.hts_voice_version(), n.string(file));
        assert_eq!([v.sampling_frequency(), v.frame_period(), v.num_states(), v.num_streams()], n.some(4)[..]);
        assert_eq!(v.stream_type().collect::<Vec<_>>(), n.strings(file));
        assert_eq!((v.fullcontext_format(), v.fullcontext_version()), (n.string(file), n.string(file)));
        assert_eq!(v.gv_off_context().collect::<Vec<_>>(), n.strings(file));
        let (there, comment) = (n.one(), n.string(file));
        assert_eq!((v.comment(), v.comment_or("none")), if there == 1 { (Some(comment), comment) } else { (None, "none") });
        assert_eq!((v.duration_pdf(), v.duration_tree()), (n.range(), n.range()));
        assert_eq!(v.streams().count() as u64, n.one());
        for s in v.streams() {
            assert_eq!(s.name(), n.string(file));
            assert_eq!([s.vector_length(), s.num_windows(), s.is_msd() as u64, s.use_gv() as u64], n.some(4)[..]);
            assert_eq!(s.options().collect::<Vec<_>>(), n.strings(file));
        }
        assert_eq!(v.positions().count() as u64, n.one());
        for p in v.positions() {
            assert_eq!(p.name(), n.string(file));
            let windows: Vec<Range> = (0..n.one()).map(|_| n.range()).collect();
            assert_eq!(p.windows().collect::<Vec<_>>(), windows);
            assert_eq!((p.pdf(), p.tree(), p.gv_pdf(), p.gv_tree()), (n.range(), n.range(), n.perhaps(), n.perhaps()));
        }
        assert_eq!([v.data_start(), v.data().len() as u64], n.some(2)[..]);
    });
    assert!(count > 3000, "{count} headers");
}

#[test]
fn voices() {
    let mut models = 0;
    let count = cases("voices", |file, n| {
        let opened = Voice::open(file);
        assert_eq!(told(&opened)[..2], n.some(2)[..]);
        let Ok(v) = opened else { return };
        assert_eq!(v.models().count() as u64, n.one());
        for which in v.models() {
            let (outcome, rows) = (n.some(3), n.some(5));
            let needs = v.needs(which);
            let Ok(needs) = needs else {
                assert_eq!(told(&needs)[..], outcome[..]);
                continue;
            };
            let (mut memory, mut work) = (vec![7; needs.length() as usize], vec![7; needs.work() as usize]);
            let model = Model::load(&needs, needs.tables(&mut memory).unwrap(), &mut work);
            assert_eq!(told(&model)[..], outcome[..]);
            let Ok(model) = model else {
                assert!(memory.iter().all(|&x| x == 0) && work.iter().all(|&x| x == 0), "21 to 23 leave zero");
                continue;
            };
            models += 1;
            assert_eq!(rows, [needs.questions(), needs.patterns(), needs.trees(), needs.records(), needs.values()]);
            let fits = model.leaves();
            let views = (model.questions().len(), model.trees().len(), model.records().len());
            for (q, name) in model.questions().map(|q| (q.patterns().len(), q.name().len())) {
                assert!(q > 0 && name > 0);
            }
            assert_eq!(views, (rows[0] as usize, rows[2] as usize, rows[3] as usize));
            assert_eq!(memory, n.some(needs.length()), "every number of every row");
            assert_eq!([needs.work(), needs.width(), fits as u64], n.some(3)[..]);
        }
    });
    assert!(count > 800 && models > 1000, "{count} voices, {models} models");
}

#[test]
fn walks() {
    let mut walked = 0;
    cases("walks", |file, n| {
        let v = Voice::open(file).unwrap();
        let which = match n.one() {
            0 => Which::Duration,
            k if k % 2 == 1 => Which::Stream((k / 2) as u32),
            k => Which::Gv((k / 2 - 1) as u32),
        };
        let needs = v.needs(which).unwrap();
        let (mut memory, mut work) = (vec![0; needs.length() as usize], vec![0; needs.work() as usize]);
        let model = Model::load(&needs, needs.tables(&mut memory).unwrap(), &mut work).unwrap();
        for _ in 0..n.one() {
            let (tree, limit) = (n.one(), n.one());
            let count = n.one();
            let answers: Vec<u8> = n.some(count).iter().map(|&a| a as u8).collect();
            let (number, pdf, asked) = (n.one(), n.one(), n.one());
            let got = model.walk(tree, &answers, limit);
            assert_eq!((told(&got)[0], got.map_or((0, 0), |w| (w.pdf, w.asked))), (number, (pdf, asked)));
            walked += 1;
        }
    });
    assert!(walked > 3000, "{walked} walks");
}
