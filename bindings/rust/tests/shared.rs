//! Two tasks in the same tables, on the sample voice: each model walks as it does alone; what is refused changes nothing; unloading frees the rows.
use larsavim::{Model, NotHouse, Refusal, Shared, Side, Tables, Voice, Walk, Which};

/// Every walk of every tree, with every answer; and the rows' own words.
fn told(m: &Model) -> (Vec<Walk>, Vec<Vec<u8>>, bool) {
    let walks = (0..m.trees().len() as u64).flat_map(|t| (0..128u8).map(move |k| (t, core::array::from_fn::<u8, 7, _>(|i| k >> i & 1))));
    (walks.map(|(t, answers)| m.walk(t, &answers, 9).unwrap()).collect(), m.questions().map(|q| q.name().to_vec()).collect(), m.leaves())
}

fn alone(voice: &Voice, which: Which) -> (Vec<Walk>, Vec<Vec<u8>>, bool) {
    let needs = voice.needs(which).unwrap();
    let (mut memory, mut work) = (vec![0; needs.length() as usize], vec![0; needs.work() as usize]);
    told(&Model::load(&needs, needs.tables(&mut memory).unwrap(), &mut work).unwrap())
}

#[test]
fn two_tasks() {
    let file = std::fs::read(concat!(env!("CARGO_MANIFEST_DIR"), "/../../host/sample/shichi.htsvoice")).unwrap();
    let voice = Voice::open(&file).unwrap();
    let (day, night) = (voice.needs(Which::Stream(0)).unwrap(), voice.needs(Which::Stream(1)).unwrap());
    // room for both, and a rest behind the last whole row
    let mut t: Vec<Vec<u64>> = day.lengths().iter().zip(night.lengths()).map(|(a, b)| vec![7; (a + b) as usize + 1]).collect();
    let mut work = vec![0; day.work().max(night.work()) as usize];
    let [questions, patterns, trees, records, values] = t.get_mut(..).unwrap() else { unreachable!() };
    let mut shared = Shared::new(Tables { questions, patterns, trees, records, values });
    assert!(shared.model(Side::Bottom).is_none() && shared.model(Side::Top).is_none());
    shared.load(Side::Top, &night, &mut work).unwrap();
    assert_eq!(told(&shared.model(Side::Top).unwrap()), alone(&voice, Which::Stream(1)));
    assert_eq!(shared.load(Side::Top, &day, &mut work), Err(Refusal::Held));
    shared.load(Side::Bottom, &day, &mut work).unwrap();
    for _ in 0..2 {
        assert_eq!(told(&shared.model(Side::Bottom).unwrap()), alone(&voice, Which::Stream(0)));
        assert_eq!(told(&shared.model(Side::Top).unwrap()), alone(&voice, Which::Stream(1)));
        shared.unload(Side::Top).unwrap();
        assert!(shared.model(Side::Top).is_none());
        assert_eq!(shared.load(Side::Top, &day, &mut work), Err(Refusal::Room), "the day's rows leave room for the night alone");
        shared.load(Side::Top, &night, &mut work).unwrap();
    }
    for side in [Side::Top, Side::Bottom, Side::Bottom] {
        shared.unload(side).unwrap();
    }
    // rows of 4, 2, 6 and 4 numbers leave the one number too many alone; a value is a row of its own
    assert!(t[..4].iter().all(|table| table.last() == Some(&7)), "what is left over is nobody's");
    assert!(t.iter().flatten().all(|&x| x == 0 || x == 7), "the tasks' rows are zero");
}

/// Tables of so many numbers and a work of 600, every number 7, for as long as `f` runs; whether all is 0 or 7 afterwards.
fn in_tables<'f, T>(numbers: usize, f: impl FnOnce(&mut Shared<'f, '_>, &mut [i64]) -> T) -> (T, bool) {
    let mut t = vec![vec![7; numbers]; 5];
    let mut work = vec![7; 600];
    let [questions, patterns, trees, records, values] = t.get_mut(..).unwrap() else { unreachable!() };
    let told = f(&mut Shared::new(Tables { questions, patterns, trees, records, values }), &mut work);
    (told, t.iter().flatten().all(|&x| x == 0 || x == 7))
}

/// Every stored file of house voices that fits, by itself: the rule, or what is refused, and the model, as the second reading has them.
#[test]
fn house_voices() {
    let stored = std::fs::read_to_string(concat!(env!("CARGO_MANIFEST_DIR"), "/../../judge/stored/house-1.txt")).unwrap();
    let (mut ours, mut broken, mut refused) = (0, 0, 0);
    for line in stored.lines() {
        let mut words = line.split(' ');
        let hex = words.next().unwrap();
        let file: Vec<u8> = (0..hex.len() / 2).map(|i| u8::from_str_radix(&hex[2 * i..2 * i + 2], 16).unwrap()).collect();
        let n: Vec<u64> = words.map(|w| w.parse().unwrap()).collect();
        let [number, place, line, model] = n[17..21] else { unreachable!() };
        if [20, 24, 29].contains(&number) {
            continue; // of tables and bounds that aren't these
        }
        let (told, clean) = in_tables(4096, |shared, work| {
            let side = if n[0] == 0 { Side::Bottom } else { Side::Top };
            let told = shared.house(side, &file, work);
            assert!(shared.model(side).is_none());
            assert_eq!(shared.house(side, &file, work), told, "nothing is held");
            told
        });
        match told {
            Ok(()) => assert_eq!((number, place, line, model), (0, 0, 0, 0)),
            Err(not) => assert_eq!((not.refusal.number(), not.refusal.place(), not.refusal.line(), not.model), (number, place, line, model)),
        }
        assert!(clean, "the task's rows are zero again");
        ours += (number == 0) as u32;
        broken += (30..=36).contains(&number) as u32;
        refused += (1..30).contains(&number) as u32;
    }
    assert!(ours > 100 && broken > 200 && refused > 60, "{ours} {broken} {refused}");
}

#[test]
fn house_beside_another() {
    let file = std::fs::read(concat!(env!("CARGO_MANIFEST_DIR"), "/../../host/sample/shichi.htsvoice")).unwrap();
    let voice = Voice::open(&file).unwrap();
    let night = voice.needs(Which::Stream(1)).unwrap();
    in_tables(4096, |shared, work| {
        shared.load(Side::Top, &night, work).unwrap();
        let not = NotHouse { refusal: Refusal::Ids, model: 1 };
        assert_eq!(shared.house(Side::Bottom, &file, work), Err(not));
        assert!(not.to_string().starts_with("refused (32): a tree's ids"), "{not}");
        assert_eq!(shared.house(Side::Top, &file, work).unwrap_err().refusal, Refusal::Held);
        assert_eq!(told(&shared.model(Side::Top).unwrap()), alone(&voice, Which::Stream(1)));
        assert_eq!(shared.house(Side::Bottom, b"no voice", work), Err(NotHouse { refusal: Refusal::Split, model: 0 }));
    });
    let (told, clean) = in_tables(300, |shared, work| shared.house(Side::Bottom, &file, work));
    assert_eq!((told.unwrap_err().refusal, clean), (Refusal::Room, true));
}
