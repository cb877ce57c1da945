//! The sample voice through every call of the binding: what is read, what is refused, and that refusals change nothing.
use larsavim::{Job, Model, Needs, Range, Record, Refusal, Tables, Voice, Walk, Which};

fn sample() -> Vec<u8> {
    std::fs::read(concat!(env!("CARGO_MANIFEST_DIR"), "/../../host/sample/shichi.htsvoice")).unwrap()
}

/// The sample with its first `old` replaced.
fn damaged(old: &[u8], new: &[u8]) -> Vec<u8> {
    let b = sample();
    let at = b.windows(old.len()).position(|w| w == old).expect("it stands in the sample");
    [&b[..at], new, &b[at + old.len()..]].concat()
}

/// Tables and work of just the size needed, for as long as `f` runs.
fn loaded<T>(file: &[u8], which: Which, f: impl FnOnce(&Model) -> T) -> Result<T, Refusal> {
    let voice = Voice::open(file)?;
    let needs = voice.needs(which)?;
    let (mut memory, mut work) = (vec![7; needs.length() as usize], vec![7; needs.work() as usize]);
    let model = Model::load(&needs, needs.tables(&mut memory).unwrap(), &mut work)?;
    assert!(work.iter().all(|&w| w == 0), "the work is zero after a load");
    Ok(f(&model))
}

#[test]
fn header() {
    let file = sample();
    let voice = Voice::open(&file).unwrap();
    assert_eq!((voice.sampling_frequency(), voice.num_states(), voice.num_streams()), (48000, 5, 3));
    assert_eq!(voice.stream_type().collect::<Vec<_>>(), ["MCP", "LF0", "LPF"]);
    let streams: Vec<_> = voice.streams().map(|s| (s.name(), s.vector_length(), s.num_windows(), s.is_msd(), s.use_gv(), s.options().collect::<Vec<_>>())).collect();
    assert_eq!(streams, [("MCP", 5, 3, false, true, vec!["ALPHA=0.55"]), ("LF0", 1, 3, true, true, vec![]), ("LPF", 3, 1, false, false, vec![])]);
    assert!(voice.comment().unwrap().starts_with("sample voice"));
    assert!(voice.comment_or("none").starts_with("sample voice"));
    assert_eq!(voice.positions().map(|p| (p.name(), p.windows().count(), p.gv_tree().is_some())).collect::<Vec<_>>(), [("MCP", 3, true), ("LF0", 3, true), ("LPF", 1, false)]);
    let window = voice.positions().next().unwrap().windows().next().unwrap();
    assert_eq!(window.of(voice.data()), Some(&b"1 1.0\n"[..]));
    assert_eq!(Range { first: 5, last: 4 }.of(voice.data()), Some(&[][..]));
    assert_eq!(Range { first: 0, last: u64::MAX }.of(voice.data()), None);
    assert_eq!(voice.file().len() as u64, voice.data_start() + voice.data().len() as u64);
    assert_eq!(voice.models().count(), 7);
    let silent = damaged(b"COMMENT:", b"COMMENX:");
    let voice = Voice::open(&silent).unwrap();
    assert_eq!((voice.comment(), voice.comment_or("none")), (None, "none"));
}

#[test]
fn the_accident() {
    // two lines bear the id -2: the last of them counts
    let file = sample();
    loaded(&file, Which::Stream(0), |m| {
        assert!(m.leaves());
        assert_eq!(m.walk(0, &[0, 0, 1, 0, 0, 1, 1], 3), Ok(Walk { pdf: 5, asked: 3 }));
        assert_eq!(m.walk(0, &[0, 0, 1, 0, 0, 0, 1], 3), Ok(Walk { pdf: 4, asked: 3 }));
        assert_eq!(m.walk(0, &[0, 0, 1, 0, 0, 1, 1], 2), Err(Refusal::Steps));
        assert_eq!(m.walk(5, &[0; 7], 9), Err(Refusal::WalkTable));
        assert_eq!(m.walk(0, &[0; 2], 9), Err(Refusal::WalkTable));
        assert_eq!(m.walk(u64::MAX, &[], u64::MAX), Err(Refusal::WalkTable));
    })
    .unwrap();
}

#[test]
fn rows() {
    let file = sample();
    loaded(&file, Which::Stream(0), |m| {
        let names: Vec<_> = m.questions().map(|q| q.name()).collect();
        assert_eq!(names, [&b"C-Silence"[..], b"C-Vowel", b"C-Phone_i", b"C-Phone_sh", b"C-Phone_ch", b"L-Phone_sh", b"R-Phone_ch"]);
        assert_eq!(m.questions().next().unwrap().patterns().collect::<Vec<_>>(), [&b"*-sil+*"[..], b"*-pau+*"]);
        let tree = m.trees().next().unwrap();
        assert_eq!((tree.state(), tree.lines(), tree.entries(), m.trees().len(), m.width()), (2, 5, 7, 5, 30));
        assert_eq!(tree.records().get(1), Some(Record::Line { question: 2, yes: 4, no: 3 }));
        assert_eq!(tree.records().get(5), Some(Record::Leaf { pdf: 1 }));
        assert_eq!(tree.records().get(99), None);
        assert!(tree.entry(0).is_none() && tree.entry(8).is_none());
        let entry = tree.entry(7).unwrap();
        assert_eq!((entry.parameters().len(), entry.msd(), entry.bits().len()), (15, None, 30));
        assert!(entry.parameters().all(|(mean, variance)| mean.abs() <= 2.0 && variance > 0.0));
        assert_eq!((m.tree_of_state(6), m.tree_of_state(7)), (Some(4), None));
    })
    .unwrap();
    loaded(&file, Which::Stream(1), |m| assert!(m.trees().all(|t| (1..=t.entries()).all(|n| t.entry(n).unwrap().msd().is_some())))).unwrap();
}

#[test]
fn answers_and_sentences() {
    let file = sample();
    loaded(&file, Which::Stream(0), |m| {
        let mut room = [9; 8];
        assert_eq!(m.answers(b"sil^sh-i+ch=i", &mut room), Ok(&[0, 1, 1, 0, 0, 1, 1][..]));
        assert_eq!(room[7], 9, "what is behind the answers is unchanged");
        assert_eq!(m.answers(b"sil^sh-i+ch=i", &mut [0; 6]), Err(Refusal::Room));
        let job = |tree, limit, start| Job { tree, limit, start, number: 77, pdf: 77, asked: 77 };
        let mut jobs = [job(0, 9, 0), job(0, 2, 0), job(0, 9, 99)];
        m.walk_jobs(&[0, 1, 1, 0, 0, 1, 1], &mut jobs);
        assert_eq!(jobs.map(|j| (j.number, j.pdf, j.asked)), [(0, 5, 3), (25, 0, 0), (24, 0, 0)]);
        let mut work = vec![3; m.depth_work(0) as usize];
        assert_eq!(m.depth(0, &mut work), Ok(Some(3)));
        assert_eq!((m.depth(0, &mut [0; 3]), m.depth(9, &mut work)), (Err(Refusal::Room), Err(Refusal::WalkTable)));
        let mut text = vec![0; m.text_len().unwrap() as usize];
        assert!(m.write(&mut text).unwrap().starts_with(b"QS C-Silence"));
        assert_eq!(m.write(&mut [0; 9]), Err(Refusal::Room));
    })
    .unwrap();
}

#[test]
fn refusals() {
    let open = |b: &[u8]| Voice::open(b).err();
    assert_eq!(open(b""), Some(Refusal::Split));
    assert!(matches!(open(&damaged(b"COMMENT:sample", b"COMMENT:\xffample")), Some(Refusal::Utf8 { place }) if place > 0));
    let b = damaged(b"IS_MSD[LF0]:1", b"IS_MSD[LF0]:x");
    let refusal = open(&b).unwrap();
    assert_eq!((refusal.number(), b[refusal.place() as usize], refusal.line()), (4, b'x', 0));
    assert!(refusal.to_string().starts_with("refused (4): expected bool"));
    assert_eq!(open(&damaged(b"NUM_STATES:5\n", b"")), Some(Refusal::Field));
    assert_eq!(loaded(&damaged(b"C-Silence    -1           \"mcp_s3_1\"", b"C-Silence    -9           \"mcp_s3_1\""), Which::Stream(0), |_| ()), Err(Refusal::NodeRef { tree: 1, line: 0 }));
    assert_eq!(loaded(&damaged(b"-1 C-Vowel      \"mcp_s4_2\"", b"-1 C-Vowex      \"mcp_s4_2\""), Which::Stream(0), |_| ()), Err(Refusal::QuestionRef { tree: 2, line: 1 }));
    assert_eq!(loaded(&sample(), Which::Gv(2), |_| ()), Err(Refusal::UseGv));
    assert_eq!(loaded(&sample(), Which::Stream(u32::MAX), |_| ()), Err(Refusal::NoPosition));
    assert!(matches!(loaded(&damaged(b"{*}[2]", b"{+}[2]"), Which::Duration, |_| ()), Err(Refusal::Text { place }) if place > 0));
    assert_eq!(loaded(&damaged(b"\"mcp_s2_7\"", b"\"mcp_s2_9\""), Which::Stream(0), |m| m.leaves()), Ok(false));
}

/// What a load that is refused for room leaves: everything as it was.
#[test]
fn short_tables() {
    let file = sample();
    let voice = Voice::open(&file).unwrap();
    let needs: Needs = voice.needs(Which::Stream(0)).unwrap();
    for short in 0..6 {
        let mut lengths: Vec<usize> = needs.lengths().iter().map(|&n| n as usize).collect();
        let mut work = vec![7; needs.work() as usize - (short == 5) as usize];
        if short < 5 {
            lengths[short] -= 1;
        }
        let mut t: Vec<Vec<u64>> = lengths.iter().map(|&n| vec![7; n]).collect();
        let [questions, patterns, trees, records, values] = t.get_mut(..).unwrap() else { unreachable!() };
        let tables = Tables { questions, patterns, trees, records, values };
        assert_eq!(Model::load(&needs, tables, &mut work).err(), Some(Refusal::Room));
        assert!(t.iter().flatten().all(|&x| x == 7) && work.iter().all(|&x| x == 7));
    }
    assert!(needs.tables(&mut vec![0; needs.length() as usize - 1]).is_none());
}

#[test]
fn rows_of_another() {
    // our own rows are accepted, with another's leaf they aren't; two leaves that change places are, where the references follow
    let text = b"QS A { a }\n{*}[2]{ 0 A p_2 p_3 }";
    assert_eq!(larsavim::accepts(text, 0, &[0, 0, 2, 1, 1, 2, 0, 0, 1, 3, 0, 0]), Ok(()));
    assert_eq!(larsavim::accepts(text, 0, &[0, 0, 1, 2, 1, 3, 0, 0, 1, 2, 0, 0]), Ok(()));
    assert_eq!(larsavim::accepts(text, 0, &[0, 0, 2, 1, 1, 2, 0, 0, 1, 4, 0, 0]), Err(Refusal::OtherRows));
    assert_eq!(larsavim::accepts(text, 1, &[]), Err(Refusal::WalkTable));
    assert_eq!(larsavim::accepts(b"QS A { a }\n{*}[2]{ 0 B p_2 p_3 }", 0, &[]), Err(Refusal::QuestionRef { tree: 0, line: 0 }));
    assert_eq!(larsavim::accepts(b"{*}[2]p_1 x", 0, &[1, 1, 0, 0]), Err(Refusal::Text { place: 10 }));
}

#[test]
fn trailers() {
    let file = sample();
    let len = larsavim::trailer_len(&file).unwrap();
    let mut buffer = vec![0x5a; len + 1];
    assert_eq!(larsavim::write_trailer(&file, &mut buffer[..len - 1]), Err(Refusal::NoTrailer));
    assert!(buffer.iter().all(|&b| b == 0x5a));
    assert_eq!(larsavim::write_trailer(&file, &mut buffer), Ok(len));
    assert_eq!(buffer[len], 0x5a);
    assert_eq!(larsavim::Trailer::of(&file), Err(Refusal::TrailerSum));
    let mut trailed = file.clone();
    trailed.extend_from_slice(&buffer[..len]);
    let trailer = larsavim::Trailer::of(&trailed).unwrap();
    assert_eq!((trailer.begin, trailer.rows().count()), (file.len(), (len - 12) / 12));
    let first = trailer.rows().next().unwrap();
    let data = Voice::open(&file).unwrap().data();
    assert_eq!((first.model, &data[first.offset as usize..][..3]), (0, &b"{*}"[..]));
    trailed[200] ^= 1;
    assert!(larsavim::Trailer::of(&trailed).is_err());
}

/// 02, Wish 12: a walk straight over the text.
#[test]
fn walks_straight_over_a_text() {
    let text = b"QS A { a }\nQS B { b }\n{*}[2]{ 0 A -1 p_3\n-1 B p_1 p_3 }\n{*}[3]p_7\n{*}[4]{ 0 A 0 9 }";
    assert_eq!(larsavim::bare_walk(text, 0, &[1, 1], 9), Ok(larsavim::BareWalk { pdf: 3, asked: 1, read: 1 }));
    assert_eq!(larsavim::bare_walk(text, 0, &[0, 0], 9), Ok(larsavim::BareWalk { pdf: 1, asked: 2, read: 3 }));
    assert_eq!(larsavim::bare_walk(text, 0, &[0, 0], 1), Err(Refusal::Steps));
    assert_eq!(larsavim::bare_walk(text, 0, &[0], 9), Err(Refusal::WalkTable));
    assert_eq!(larsavim::bare_walk(text, 1, &[], 0), Ok(larsavim::BareWalk { pdf: 7, asked: 0, read: 0 }));
    assert_eq!(larsavim::bare_walk(text, 2, &[1, 1], 9), Err(Refusal::NodeRef { tree: 2, line: 0 }));
}
