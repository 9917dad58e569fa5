//! A logger's file as a table and with commas: every expected text is written by hand.

use second::calibration::{blocks, Words};
use second::day::cases::{chip, flat, Place, AIR};
use second::day::file::File;
use second::day::texts::{csv, line, table};
use second::edges::{self, Edge};
use second::maps;
use second::sheet::{k2_words, k5_words, K2_COUNTS};
use std::io::{self, Write};

/// How a file is written: as a table or with commas.
type Form = fn(&File, &mut dyn Write) -> io::Result<()>;

/// Makes the file of a chip and its places.
/// It is whole.
fn file(words: &Words, places: &[Place]) -> Vec<u8> {
    let (one, two) = blocks(words);
    [one, two, flat(places)].concat()
}

/// Gives what is written of a file.
/// It must be whole.
fn written(form: Form, file: &[u8]) -> String {
    let mut text = Vec::new();
    let file = File::read(file).expect("a whole file");
    form(&file, &mut text).expect("a list can be written to");
    String::from_utf8(text).expect("a text")
}

/// K2's chip with its channels there, skipped, without temperature, and with a code above 7.
/// K1 and K2 are 25.08 degrees and 25767233 / 256 Pa, which is 100653 and 65 of 256.
const K2_TABLE: &str = "\
place    °C       Pa               %RH
1        25.08    100653.25390625  missing 10 (channel skipped)
2        25.08    missing 10 (channel skipped)  missing 10 (channel skipped)
3        missing 10 (channel skipped)  missing 11 (no temperature to compensate with)  missing 10 (channel skipped)
4        missing 7 (a code above 7)
5        25.08    100653.25390625  0

5 readings
temperature: 3 there, 2 missing
  7 (a code above 7): 1
  10 (channel skipped): 1
pressure: 2 there, 3 missing
  7 (a code above 7): 1
  10 (channel skipped): 1
  11 (no temperature to compensate with): 1
humidity: 1 there, 4 missing
  7 (a code above 7): 1
  10 (channel skipped): 3
";

const K2_CSV: &str = "\
place,celsius,celsius_number,pascal,pascal_number,humidity,humidity_number
1,25.08,0,100653.25390625,0,,10
2,25.08,0,,10,,10
3,,10,,11,,10
4,,7,,7,,7
5,25.08,0,100653.25390625,0,0,0
";

/// K2's file in both forms.
/// Its humidity words are all 0, so that an enabled humidity is a true 0.
#[test]
fn k2() {
    let codes = [[1, 1, 0], [1, 0, 0], [0, 1, 0], [1, 1, 8], [7, 3, 5]];
    let file = file(&k2_words(), &codes.map(|codes| (K2_COUNTS, codes)));
    assert_eq!(file.len(), 33 + 5 * 11);
    assert_eq!(written(table, &file), K2_TABLE);
    assert_eq!(written(csv, &file), K2_CSV);
}

/// K5 and K6 with pressure's divisor zero, and K3's chip on both sides of its limit.
/// 46036 / 1024 is 44 and 980 of 1024; 102400 / 1024 is 100.
#[test]
fn k3_and_k5() {
    let humid = |count| ([614_400, 0, count], [1, 1, 1]);
    let damp = file(&k5_words(), &[humid(8_192), humid(32_768)]);
    let hot = Words {
        t: [0, 1, 0],
        ..Words::default()
    };
    let hot = file(
        &hot,
        &[741_456, 741_455].map(|count| ([count, 0, 0], [1, 1, 0])),
    );
    assert_eq!(
        written(table, &damp),
        "place    °C       Pa               %RH\n\
         1        15.00    missing 13 (divisor zero)  44.95703125\n\
         2        15.00    missing 13 (divisor zero)  100\n\
         \n\
         2 readings\n\
         temperature: 2 there, 0 missing\n\
         pressure: 0 there, 2 missing\n\
         \u{20} 13 (divisor zero): 2\n\
         humidity: 2 there, 0 missing\n"
    );
    assert_eq!(
        written(table, &hot),
        "place    °C       Pa               %RH\n\
         1        missing 12 (a step left its type)  missing 11 (no temperature to compensate with)  missing 10 (channel skipped)\n\
         2        0.01     missing 13 (divisor zero)  missing 10 (channel skipped)\n\
         \n\
         2 readings\n\
         temperature: 1 there, 1 missing\n\
         \u{20} 12 (a step left its type): 1\n\
         pressure: 0 there, 2 missing\n\
         \u{20} 11 (no temperature to compensate with): 1\n\
         \u{20} 13 (divisor zero): 1\n\
         humidity: 0 there, 2 missing\n\
         \u{20} 10 (channel skipped): 2\n"
    );
    let header = K2_CSV.lines().next().expect("a header");
    assert_eq!(
        written(csv, &damp),
        format!("{header}\n1,15.00,0,,13,44.95703125,0\n2,15.00,0,,13,100,0\n")
    );
    assert_eq!(
        written(csv, &hot),
        format!("{header}\n1,,12,,11,,10\n2,0.01,0,,13,,10\n")
    );
}

/// A file of no reading has a header and a summary.
/// With commas it has the header alone.
#[test]
fn no_reading() {
    let file = file(&chip(), &[]);
    assert_eq!(file.len(), 33);
    assert_eq!(
        written(table, &file),
        "place    °C       Pa               %RH\n\n0 readings\ntemperature: 0 there, 0 missing\n\
         pressure: 0 there, 0 missing\nhumidity: 0 there, 0 missing\n"
    );
    assert_eq!(written(csv, &file).lines().count(), 1);
}

/// Gives the one line of a reading that stands on an edge, with temperature and pressure enabled.
/// The header comes before it.
fn single(edge: &Edge, codes: [u8; 3]) -> String {
    let text = written(table, &file(&edge.words, &[(edge.counts, codes)]));
    text.lines().nth(1).expect("a line").to_string()
}

/// Pressures of one to seventeen characters, from 0 to 4,294,967,295 of 256.
/// One that leaves no room for a space is followed by two.
#[test]
fn pressures() {
    let skipped = "missing 10 (channel skipped)";
    let [_, empty, full, above] = edges::pressures();
    assert_eq!(
        single(&empty, [1, 1, 0]),
        format!("1        25.08    0                {skipped}")
    );
    assert_eq!(
        single(&full, [1, 1, 0]),
        format!("1        25.08    16777215.99609375  {skipped}")
    );
    let outside = "missing 14 (pressure negative or above 4,294,967,295)";
    assert_eq!(
        single(&above, [1, 1, 0]),
        format!("1        25.08    {outside}  {skipped}")
    );
    let figures = [
        "0.00390625       ",
        "0.99609375       ",
        "1                ",
        "1.00390625       ",
        "65535.99609375   ",
        "65536            ",
        "8388607.99609375 ",
        "8388608          ",
        "16777215.9921875 ",
    ];
    for (edge, figure) in maps::pressures().iter().zip(figures) {
        assert_eq!(
            single(edge, [1, 1, 0]),
            format!("1        25.08    {figure}{skipped}")
        );
    }
}

/// Temperatures from the coldest to the hottest, and humidities at powers of two.
/// A minus stands before a temperature above -1 degree too.
#[test]
fn temperatures_and_humidities() {
    let skipped = "missing 10 (channel skipped)";
    let figures = [
        "-230.40  ",
        "-0.01    ",
        "0.00     ",
        "0.00     ",
        "0.01     ",
        "230.40   ",
    ];
    for (edge, figure) in maps::temperatures().iter().zip(figures) {
        assert_eq!(
            single(edge, [1, 0, 0]),
            format!("1        {figure}{skipped}  {skipped}")
        );
    }
    let figures = [
        "0.0009765625",
        "0.9990234375",
        "1",
        "1.0009765625",
        "99.9990234375",
        "100",
    ];
    for (edge, figure) in maps::humidities().iter().zip(figures) {
        assert_eq!(
            single(edge, [1, 0, 1]),
            format!("1        15.00    {skipped}  {figure}")
        );
    }
}

/// Cells are filled up to 9, 9 and 17 characters, and the degree sign is one.
/// Nothing follows the last cell.
#[test]
fn layout() {
    assert_eq!(
        line(&["°C", "°C", "°C", "°C"]),
        "°C       °C       °C               °C\n"
    );
    assert_eq!(line(&["1234567", "x"]), "1234567  x\n");
    assert_eq!(line(&["12345678", "x"]), "12345678 x\n");
    assert_eq!(line(&["123456789", "x"]), "123456789  x\n");
    assert_eq!(line(&["1234567890", "x"]), "1234567890  x\n");
    assert_eq!(
        line(&["1", "12345678", "1234567890123456", ""]),
        "1        12345678 1234567890123456 \n"
    );
    assert_eq!(
        line(&["1", "123456789", "12345678901234567", "x"]),
        "1        123456789  12345678901234567  x\n"
    );
}

/// Places go on past nine and past a thousand; each line has its own reading.
/// The summary counts them all.
#[test]
fn many_places() {
    let places: Vec<Place> = (0..1_440)
        .map(|place| (AIR[place % 3], [1, 1, u8::from(place % 2 == 0)]))
        .collect();
    let text = written(table, &file(&chip(), &places));
    let lines: Vec<&str> = text.lines().collect();
    assert_eq!(lines.len(), 1 + 1_440 + 6);
    assert_eq!(lines[1], "1        25.08    100653.25390625  36.8857421875");
    assert_eq!(
        lines[10],
        "10       25.08    100653.25390625  missing 10 (channel skipped)"
    );
    assert_eq!(
        lines[1_000],
        "1000     25.08    100653.25390625  missing 10 (channel skipped)"
    );
    assert!(lines[1_001].starts_with("1001     18.85    102283.953125"));
    let summary =
        "\n1440 readings\ntemperature: 1440 there, 0 missing\npressure: 1440 there, 0 missing\n\
                   humidity: 720 there, 720 missing\n  10 (channel skipped): 720\n";
    assert!(text.ends_with(summary));
}
