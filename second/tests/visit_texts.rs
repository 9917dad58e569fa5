//! Visits as texts for people: what show prints, what pack takes, and which line it refuses.

use second::generate::files;
use second::generate::trees::{crowded, slot, tree};
use second::random::Random;
use second::visits::pack::{pack, LONGEST_TEXT};
use second::visits::reader::read;
use second::visits::show::{show, text};
use second::visits::trees::{group, old_fields, Tree};
use second::visits::writer::record;
use second::visits::{cases, LONGEST_RECORD};

const EXAMPLE: &str = "\
house 1
  floor 1
    room 1
      reading 1
        time 1700000000 (2023-11-14 22:13:20 UTC)
        temperature 25.08 °C
        pressure 100653.25390625 Pa
        humidity missing 10 (channel skipped)
      reading 2
        time 1700003600 (2023-11-14 23:13:20 UTC)
        temperature -0.05 °C
        pressure missing 14 (pressure negative or above 4,294,967,295)
        humidity 36.8857421875 %RH
";

/// Gives the text of a record that is taken.
/// It is UTF-8.
fn shown(record: &[u8]) -> String {
    let bytes = show(record).expect("a record");
    String::from_utf8(bytes).expect("a text")
}

/// Holds a text to the line and the reason that refuse it.
/// Both stand in one line of standard error.
fn refused(text: &str, line: usize, reason: &str) {
    let said = pack(text.as_bytes()).expect_err("the text is refused");
    assert_eq!(said, format!("visit pack: line {line}: {reason}"), "{text}");
}

/// The example goes both ways.
/// Its record is of four levels.
#[test]
fn the_example() {
    let bytes = pack(EXAMPLE.as_bytes()).expect("a text");
    assert_eq!(shown(&bytes), EXAMPLE);
    let steps = read(&bytes).expect("a record");
    let words = second::visits::words::spell_all(&steps);
    let expected = "( ( ( ( 1700000000:2508:25767233:!10 ) ( 1700003600:-5:!14:37771 ) ) ) )";
    assert_eq!(words, expected);
}

/// Figures at their edges.
/// Each is exact, and as short as it can be.
#[test]
fn figures() {
    let with = |word: &str| {
        let steps = second::visits::words::steps([&b"("[..], word.as_bytes(), b")"]);
        let text = text(&steps.expect("steps"));
        let lines: Vec<&str> = text.lines().map(str::trim).collect();
        lines[1..].join(";")
    };
    assert_eq!(
        with("0:0:0:0"),
        "time 0 (1970-01-01 00:00:00 UTC);temperature 0.00 °C;pressure 0 Pa;humidity 0 %RH"
    );
    assert_eq!(
        with("4294967295:-2147483648:4294967295:102400"),
        "time 4294967295 (2106-02-07 06:28:15 UTC);temperature -21474836.48 °C;pressure 16777215.99609375 Pa;humidity 100 %RH"
    );
    assert_eq!(
        with("951782400:2147483647:1:1"),
        "time 951782400 (2000-02-29 00:00:00 UTC);temperature 21474836.47 °C;pressure 0.00390625 Pa;humidity 0.0009765625 %RH"
    );
    assert_eq!(
        with("4107542399:-100:128:512"),
        "time 4107542399 (2100-02-28 23:59:59 UTC);temperature -1.00 °C;pressure 0.5 Pa;humidity 0.5 %RH"
    );
    assert_eq!(
        with("4107542400:!11:!12:!13"),
        "time 4107542400 (2100-03-01 00:00:00 UTC);temperature missing 11 (no temperature to compensate with);\
         pressure missing 12 (a step left its type);humidity missing 13 (divisor zero)"
    );
}

/// What show prints, pack takes, and gives the same record; tag 5 becomes tag 4.
/// The text of the longest record with the most steps is within the limit.
#[test]
fn there_and_back() {
    let mut random = Random::new(6);
    for count in 0..2_000 {
        let tree = tree(&mut random, 1 + count % 4, 3);
        assert_eq!(pack(shown(&tree.record()).as_bytes()), Ok(tree.record()));
    }
    let old = group(&old_fields(&cases::DRY));
    let now = Tree::Slot(cases::DRY).record();
    assert_eq!(pack(shown(&old).as_bytes()), Ok(now));
    let text = text(&crowded(LONGEST_RECORD).steps());
    assert!(text.len() < LONGEST_TEXT, "{}", text.len());
    assert_eq!(pack(text.as_bytes()), Ok(crowded(LONGEST_RECORD).record()));
}

/// A refused record has one line, with the byte, the reason and the number.
/// Over the limit there is no byte.
#[test]
fn refused_records() {
    let said = |record: &[u8]| show(record).expect_err("a refused record");
    let cut =
        "visit show: byte 3: the field's header or body runs past its group or the record (18)";
    assert_eq!(said(&[1, 0, 0]), cut);
    assert_eq!(
        said(&[2, 0, 0]),
        "visit show: byte 0: tag out of place (19)"
    );
    assert_eq!(
        said(&group(&[2, 0, 1, 0])),
        "visit show: byte 3: wrong length (20)"
    );
    let deep = "visit show: byte 12: groups more than four levels deep (21)";
    assert_eq!(said(&cases::nested(5, &[])), deep);
    let mut slot = slot(&mut Random::new(1));
    slot.humidity = Ok(102_401);
    let record = Tree::Slot(slot).record();
    let limits = format!(
        "visit show: byte {}: value outside its limits (22)",
        record.len() - 7
    );
    assert_eq!(said(&record), limits);
    assert_eq!(said(&[0; 65_536]), "visit show: more than 65,535 bytes (2)");
}

/// Each reason of a bad line, and which comes first where there are several.
/// Lines that are passed over are counted.
#[test]
fn bad_lines() {
    let depth = "this line stands at the wrong depth";
    let order = "time, temperature, pressure and humidity stand in this order";
    let spaces = "indentation is not 0, 2, 4, 6 or 8 spaces";
    let word =
        "this word is none of house, floor, room, reading, time, temperature, pressure, humidity";
    let place = "the number is not this group's place";
    let slot = "  time 5\n  temperature 1 C\n  pressure 1 Pa\n  humidity 1 %RH\n";
    refused(" house 1\n", 1, spaces);
    refused("# x\n\n   \nhouse 1\n   nothing\n", 5, spaces);
    refused("          time 5\n", 1, spaces);
    refused("hous 1\n", 1, word);
    refused("\thouse 1\n", 1, word);
    refused("house\r\n", 1, word);
    refused("(remark)\n", 1, word);
    refused("  house 1\n", 1, depth);
    refused("  floor 1\n", 1, depth);
    refused("floor 1\n", 1, depth);
    refused("time 5\n", 1, depth);
    refused("house\n    room 1\n", 2, depth);
    refused("house\ntime 5\n", 2, depth);
    refused("house\n    time 5\n", 2, depth);
    refused("house\n        reading 1\n", 2, depth);
    refused(&format!("house\n{slot}  floor 1\n"), 6, depth);
    refused("house\n  time 5\n  floor 1\n", 3, depth);
    refused(&format!("house\n{slot}house 2\n"), 6, depth);
    refused("house\nhouse 2\n", 2, depth);
    refused("house\n  temperature 1 C\n", 2, order);
    refused(
        "house\n  time x\n  time 5\n",
        2,
        "a time is written as: time 1700000000",
    );
    refused("house\n  time 5\n  time 5\n", 3, order);
    refused(&format!("house\n{slot}  time 5\n"), 6, order);
    refused("house\n  floor\n    time 5\n  floor 7\n", 4, order);
    refused(
        "house\n  floor\n  floor 7\n",
        3,
        "the group before this line is empty",
    );
    refused(
        "house\n  floor\n    room\n  floor 7\n",
        4,
        "the group before this line is empty",
    );
    for number in ["2", "0", "x", "-1", "1 1", "1x", "00000000001", "", "1 "] {
        refused(&format!("house {number}\n"), 1, place);
    }
    let floor = format!("  floor\n{}", slot.replace("  ", "    "));
    refused(&format!("house\n{floor}{floor}  floor 2\n"), 12, place);
    refused("", 1, "the text ends too soon");
    refused("\n\n# none", 4, "the text ends too soon");
    refused("house", 2, "the text ends too soon");
    refused("house\n  time 5\n", 3, "the text ends too soon");
    refused(
        &format!("house\n{floor}  floor\n"),
        8,
        "the text ends too soon",
    );
    assert!(pack(
        format!(
            "house 01 (x)\n{floor}  floor 2 (\n{}",
            slot.replace("  ", "    ")
        )
        .as_bytes()
    )
    .is_ok());
}

/// Each figure that a field's line may have, and each that it may not.
/// How it is written comes first, then the limits, then the multiple.
#[test]
fn bad_figures() {
    let limits = "this value is outside its limits";
    let number = "a missing value has a number from 10 to 14";
    let temperature = "a temperature is written as: temperature 25.08 °C";
    let pressure = "a pressure is written as: pressure 100653.25 Pa";
    let humidity = "a humidity is written as: humidity 36.5 %RH";
    let time = "a time is written as: time 1700000000";
    let cases = [
        ("", "time 4294967295|time 0000000005 (x)"),
        (time, "time|time |time -1|time 5 s|time 00000000005|time missing 10|time 5 |time  5|time 5\t"),
        (limits, "time 4294967296|time 9999999999"),
        ("", "temperature -0 C|temperature -0.0 °C|temperature 0000000025.1 C|temperature -21474836.48 °C|temperature missing 0000000014"),
        (temperature, "temperature|temperature 5|temperature 5 F|temperature 5. C|temperature .5 C|temperature 5.123 C|temperature +5 C"),
        (temperature, "temperature - C|temperature 00000000005 C|temperature 5 C x|temperature 5 °C |temperature missing|temperature missing x"),
        (temperature, "temperature missing 00000000010|temperature missing -1|temperature missing 10 C|temperature missing 10 |temperature 5(x)"),
        (limits, "temperature 21474836.48 °C|temperature -21474836.49 C|temperature 9999999999 C"),
        (number, "temperature missing 9|pressure missing 15|humidity missing 0|humidity missing 9999999999|pressure missing 4294967306"),
        ("", "pressure 16777215.99609375 Pa|pressure 0.50 Pa|pressure 0.00390625 Pa|pressure 0000000001 Pa"),
        (pressure, "pressure -1 Pa|pressure 1 pa|pressure 0.003906250 Pa|pressure 1|pressure 1 %RH"),
        (limits, "pressure 16777216 Pa|pressure 16777215.99609376 Pa|pressure 9999999999.00000001 Pa"),
        ("a pressure is a multiple of 1/256 Pa", "pressure 0.001 Pa|pressure 16777215.9 Pa|pressure 0.00000001 Pa"),
        ("", "humidity 100.0000000000 %RH|humidity 0.0009765625 %RH|humidity 99.9990234375 %RH"),
        (humidity, "humidity 1 %|humidity -0 %RH|humidity 0.00097656250 %RH|humidity 1%RH"),
        (limits, "humidity 100.0000000001 %RH|humidity 101 %RH|humidity 9999999999 %RH"),
        ("a humidity is a multiple of 1/1024 %RH", "humidity 99.9999999999 %RH|humidity 0.1 %RH"),
    ];
    let right = [
        "time 5",
        "temperature 1 C",
        "pressure 1 Pa",
        "humidity 1 %RH",
    ];
    for (reason, lines) in cases {
        for line in lines.split('|') {
            let name = line.split(' ').next().unwrap_or_default();
            let place = right
                .iter()
                .position(|known| known.starts_with(name))
                .expect("a field");
            let mut fields = right;
            fields[place] = line;
            let text = format!("house\n  {}\n", fields.join("\n  "));
            match reason {
                "" => assert!(pack(text.as_bytes()).is_ok(), "{line}"),
                _ => refused(&text, place + 2, reason),
            }
        }
    }
}

/// The longest text and one byte more, and the text of a record of one byte too many.
/// Generated texts are taken and refused, and what is taken is a record.
#[test]
fn generated_texts() {
    let long = "visit pack: the text has more than 1,048,576 bytes";
    let over = "visit pack: the record would have more than 65,535 bytes (2)";
    let (mut taken, mut lines) = (0, 0);
    for place in 0..1_600 {
        let text = files::text(place, 2);
        let packed = pack(&text);
        match (place % 64, &packed) {
            (0, Ok(record)) => assert_eq!(record.len(), LONGEST_RECORD),
            (1, said) => assert_eq!(said, &Err(over.to_string())),
            (3, said) => assert_eq!(said, &Err(long.to_string())),
            (2, _) => assert!(packed.is_ok() && text.len() == LONGEST_TEXT),
            (5..=20, _) => assert!(packed.is_ok(), "{}", String::from_utf8_lossy(&text)),
            _ => {}
        }
        match packed {
            Ok(bytes) => {
                taken += 1;
                assert_eq!(record(&read(&bytes).expect("a record")), Ok(bytes));
            }
            Err(said) => lines += u32::from(said.starts_with("visit pack: line ")),
        }
    }
    assert!(taken > 500 && lines > 600, "{taken} {lines}");
}
