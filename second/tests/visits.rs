//! Visit records: round trips over trees, each refusal at its place, and the longest records.

use second::generate::files;
use second::generate::trees::{crowded, record, sized, slot, tree};
use second::numbers::Number::{self, *};
use second::random::Random;
use second::visits::cases::{DRY, SKIPPED};
use second::visits::reader::{fill, read};
use second::visits::trees::{group, old_fields, Tree};
use second::visits::writer::{fields, record as made, write};
use second::visits::{Refusal, Slot, Step, LONGEST_RECORD};

/// Gives the refusal of a record.
/// It must be refused.
fn refusal(bytes: &[u8]) -> (Number, Option<usize>) {
    let refused = read(bytes).expect_err("the record is refused");
    (refused.number, refused.at)
}

/// Gives the field of a tag and a body.
/// The body is short.
fn field(tag: u8, body: &[u8]) -> Vec<u8> {
    [&[tag, 0, body.len() as u8][..], body].concat()
}

/// Written then read is the same visit, and a tree's bytes and steps are what the writer and the reader say.
/// Read then written are the same bytes; tag 5 becomes tag 4.
#[test]
fn round_trips() {
    let mut random = Random::new(1);
    for count in 0..4_000 {
        let (levels, widest) = (1 + count % 4, 1 + random.below(4));
        let tree = tree(&mut random, levels, widest);
        assert_eq!(tree.levels(), levels);
        let (steps, bytes) = (tree.steps(), tree.record());
        assert_eq!(made(&steps), Ok(bytes.clone()));
        assert_eq!(read(&bytes), Ok(steps.clone()));
        let old = record(&mut random, &tree, true);
        assert_eq!(old.len(), bytes.len());
        assert_eq!(read(&old), Ok(steps.clone()));
        assert_eq!(made(&read(&old).expect("a record")), Ok(bytes));
    }
}

/// What the reader takes the writer gives back, for damaged records too.
/// Whatever it refuses has a place within the record or at its end.
#[test]
fn damaged_records() {
    let mut taken = 0;
    for place in 0..20_000 {
        let bytes = files::record(16 * (place / 6) + 10 + place % 6, 3);
        match read(&bytes) {
            Ok(steps) => {
                taken += 1;
                let again = made(&steps).expect("steps of a record");
                assert_eq!(again.len(), bytes.len());
                assert_eq!(read(&again), Ok(steps));
            }
            Err(refused) => assert!(refused.at.expect("an offset") <= bytes.len()),
        }
    }
    assert!((4_000..16_000).contains(&taken), "{taken}");
}

/// The paper's two examples within a record: humidity 0, and humidity skipped.
/// The first is a value, the second is none.
#[test]
fn the_papers_examples() {
    let front = field(2, &[0, 0, 0, 7]);
    let front = [front, field(3, &[0; 4]), field(4, &[0; 4])].concat();
    let cases: [(&[u8], Result<u32, u32>); 2] = [
        (&[0x06, 0x00, 0x04, 0, 0, 0, 0], Ok(0)),
        (&[0x07, 0x00, 0x02, 0x06, 0x0A], Err(10)),
    ];
    for (bytes, humidity) in cases {
        let record = group(&[&front, bytes].concat());
        let slot = Slot {
            time: 7,
            temperature: Ok(0),
            pressure: Ok(0),
            humidity,
        };
        let steps = vec![Step::Open, Step::Slot(slot), Step::Close];
        assert_eq!(read(&record), Ok(steps.clone()));
        assert_eq!(made(&steps), Ok(record));
    }
}

/// Records of 65,535 and 65,536 bytes, of one slot to a group and of the most steps.
/// Over the limit is 2 before anything else, in reading and after the steps in writing.
#[test]
fn the_longest() {
    let mut random = Random::new(8);
    let two = Err(Refusal::whole(WrongLength));
    for seed in 0..20 {
        let tree = sized(&mut Random::new(seed), LONGEST_RECORD);
        let (bytes, steps) = (tree.record(), tree.steps());
        assert_eq!(bytes.len(), LONGEST_RECORD);
        assert!((2..=4).contains(&tree.levels()));
        assert_eq!(read(&bytes), Ok(steps.clone()));
        assert_eq!(read(&record(&mut random, &tree, true)), Ok(steps.clone()));
        assert_eq!(made(&steps), Ok(bytes.clone()));
        let longer = sized(&mut Random::new(seed), LONGEST_RECORD + 1);
        assert_eq!(longer.record().len(), LONGEST_RECORD + 1);
        assert_eq!(read(&longer.record()), two.map(|_: ()| Vec::new()));
        assert_eq!(made(&longer.steps()).map(|_| ()), two);
        assert_eq!(write(&longer.steps(), &mut []).map(|_| ()), two);
        let mut steps = longer.steps();
        steps.pop();
        let place = Some(steps.len());
        assert_eq!(made(&steps).expect_err("it ends too soon").at, place);
    }
    assert_eq!(refusal(&[0; LONGEST_RECORD + 1]), (WrongLength, None));
    assert_eq!(refusal(&[0; LONGEST_RECORD]), (TagOutOfPlace, Some(0)));
    let tree = crowded(LONGEST_RECORD);
    assert_eq!(read(&tree.record()), Ok(tree.steps()));
    assert_eq!((tree.record().len(), tree.steps().len()), (65_534, 14_798));
}

/// A lent list or buffer that is exact, longer, and too short by one.
/// Too short is 9, last, and leaves it as it was; past the end nothing is touched.
#[test]
fn lent_places() {
    let mut random = Random::new(2);
    let short = Refusal::whole(BufferTooShort);
    for _ in 0..500 {
        let tree = tree(&mut random, 3, 3);
        let (bytes, steps) = (tree.record(), tree.steps());
        let mark = Step::Slot(slot(&mut random));
        for more in 0..3 {
            let mut list = vec![mark; steps.len() + more];
            assert_eq!(fill(&bytes, &mut list), Ok(steps.len()));
            assert_eq!(list, [&steps[..], &vec![mark; more]].concat());
            let mut buffer = vec![0xAA; bytes.len() + more];
            assert_eq!(write(&steps, &mut buffer), Ok(bytes.len()));
            assert_eq!(buffer, [&bytes[..], &vec![0xAA; more]].concat());
            let mut list = vec![mark; more];
            assert_eq!(fill(&bytes, &mut list), Err(short));
            assert_eq!(list, vec![mark; more]);
        }
        let mut buffer = vec![0xAA; bytes.len() - 1];
        assert_eq!(write(&steps, &mut buffer), Err(short));
        assert!(buffer.iter().all(|byte| *byte == 0xAA));
        let mut spoilt = bytes.clone();
        spoilt.push(0);
        assert_eq!(refusal(&spoilt), (TagOutOfPlace, Some(bytes.len())));
        assert_ne!(fill(&spoilt, &mut []), Err(short));
    }
    assert_eq!(old_fields(&DRY)[14..21], [5, 0, 4, 0, 1, 0x89, 0x2D]);
    assert_eq!(old_fields(&SKIPPED), fields(&SKIPPED));
    assert_eq!(Tree::Slot(DRY).record(), group(&fields(&DRY)));
}
