//! Texts of visits: right ones in every spelling, and ones with one bad line.

use super::trees::tree;
use crate::random::Random;
use crate::visits::show;

const WRONG: [&str; 12] = [
    "hous 1",
    "House",
    "field 1",
    "\ttime 5",
    "time\t5",
    "house\r",
    "(remark)",
    "1",
    "-",
    "°C",
    "pressure5 Pa",
    "readings 1",
];
const FIGURES: [&str; 46] = [
    "time",
    "time ",
    "time x",
    "time -1",
    "time 1.5",
    "time 4294967295",
    "time 4294967296",
    "time 00000000005",
    "time missing 10",
    "temperature 25.08",
    "temperature 25.08 F",
    "temperature 25.08 °C ",
    "temperature 25.08  C",
    "temperature 25.080 °C",
    "temperature 25. °C",
    "temperature .5 °C",
    "temperature -.5 °C",
    "temperature --5 °C",
    "temperature +5 °C",
    "temperature 21474836.47 °C",
    "temperature 21474836.48 °C",
    "temperature -21474836.48 C",
    "temperature -21474836.49 °C",
    "temperature 99999999999 °C",
    "temperature missing 9",
    "temperature missing 010 (zeros)",
    "pressure 100653.25",
    "pressure -1 Pa",
    "pressure 16777215.99609375 Pa",
    "pressure 16777215.99609376 Pa",
    "pressure 16777216 Pa",
    "pressure 0.001 Pa",
    "pressure 0.003906250 Pa",
    "pressure missing",
    "pressure missing x",
    "pressure missing 15",
    "pressure missing 14 15",
    "humidity 100 %RH",
    "humidity 100.0000000000 %RH",
    "humidity 100.0009765625 %RH",
    "humidity 0.0001 %RH",
    "humidity 0.00097656250 %RH",
    "humidity -0 %RH",
    "humidity 36.5 %",
    "humidity missing 99999999999",
    "humidity missing 4294967306",
];

/// Gives the text of a small tree.
/// It is of any depth.
fn plain(random: &mut Random) -> String {
    let levels = random.between(1, 4) as usize;
    let widest = 1 + random.below(3);
    show::text(&tree(random, levels, widest).steps())
}

/// Puts a zero in front of a line's number, or two in front of its pressure.
/// A number may have ten digits, so that one of ten stays.
fn with_zeros(line: &str) -> String {
    match line.rsplit_once(' ') {
        Some((start, number)) if number.bytes().all(|byte| byte.is_ascii_digit()) => {
            match number.len() < 10 {
                true => format!("{start} 0{number}"),
                false => line.to_string(),
            }
        }
        _ => {
            let longer = line.replacen("pressure ", "pressure 00", 1);
            longer.replace("00missing", "missing")
        }
    }
}

/// Spells a line in another way that means the same.
/// Remarks come and go, groups lose their numbers, figures gain zeros, and degrees lose their sign.
fn restyled(random: &mut Random, line: &str) -> String {
    let bare = line.split(" (").next().unwrap_or(line);
    let name = bare.trim_start().split(' ').next().unwrap_or(bare);
    let is_group = show::NAMES.contains(&name);
    match random.below(8) {
        0 => bare.to_string(),
        1 => format!("{bare} (see the plan (2nd sheet)) "),
        2 => bare.replace("°C", "C"),
        3 if is_group => bare
            .trim_end_matches(|last: char| last.is_ascii_digit())
            .trim_end()
            .to_string(),
        4 => with_zeros(bare),
        _ => line.to_string(),
    }
}

/// Joins lines, with others among them that are passed over.
/// The last newline may be left out.
fn joined(random: &mut Random, lines: &[String]) -> Vec<u8> {
    let mut text = String::new();
    for line in lines {
        if random.percent(3) {
            text += random.pick(&[
                "\n",
                "   \n",
                "# a remark\n",
                "   # three spaces\n",
                "          #\n",
            ]);
        }
        text += line;
        text += "\n";
    }
    if random.percent(20) {
        text.pop();
    }
    text.into_bytes()
}

/// Makes a text that is taken.
/// Some of its lines are spelled in other ways.
pub fn good(random: &mut Random) -> Vec<u8> {
    let text = plain(random);
    let styled = random.percent(70);
    let lines: Vec<String> = text
        .lines()
        .map(|line| match styled {
            true => restyled(random, line),
            false => line.to_string(),
        })
        .collect();
    joined(random, &lines)
}

/// Changes one line of a text, or loses, doubles or moves it.
/// Most of what comes of it is refused.
fn damage(random: &mut Random, lines: &mut Vec<String>) {
    let place = random.below(lines.len() as u64) as usize;
    let line = lines[place].clone();
    let content = line.trim_start().to_string();
    let spaces = line.len() - content.len();
    let other = random.below(lines.len() as u64) as usize;
    match random.below(20) {
        0 => lines[place] = format!(" {line}"),
        1 => lines[place] = format!("  {line}"),
        2 => lines[place] = format!("{}{content}", " ".repeat(random.below(12) as usize)),
        3 => lines[place] = format!("{}{}", " ".repeat(spaces), random.pick(&WRONG)),
        4 => {
            lines.remove(place);
        }
        5 => lines.insert(place, line),
        6 => lines.swap(place, other),
        7 => lines.insert(place, lines[other].clone()),
        8 => lines.truncate(place),
        9 => {
            lines[place] = format!(
                "{line}{}",
                random.pick(&[" ", "\r", "\t", " x", "0", "(", " 1"])
            )
        }
        10 => lines[place] = line.replacen(' ', "  ", 1),
        11 => {
            let bare = line.trim_end_matches(|last: char| last.is_ascii_digit());
            lines[place] = format!(
                "{bare}{}",
                random.pick(&["0", "1", "2", "3", "x", "-1", "1 1"])
            );
        }
        12 => lines.push(
            random
                .pick(&[
                    "house 1",
                    "house 2",
                    "  floor 9",
                    "time 5",
                    "        time 5",
                ])
                .into(),
        ),
        _ => figure(random, lines),
    }
}

/// Puts another figure into a field's line, of the same field.
/// Its indentation stays.
fn figure(random: &mut Random, lines: &mut [String]) {
    let figure = random.pick(&FIGURES);
    let name = figure.split(' ').next().unwrap_or(figure);
    let fitting: Vec<usize> = (0..lines.len())
        .filter(|place| lines[*place].trim_start().starts_with(name))
        .collect();
    if !fitting.is_empty() {
        let place = random.pick(&fitting);
        let spaces = lines[place].len() - lines[place].trim_start().len();
        lines[place] = format!("{}{figure}", " ".repeat(spaces));
    }
}

/// Spoils one line of a text.
/// In a few, one byte of the whole is changed instead, or the text is cut anywhere.
pub fn spoilt(random: &mut Random, text: &str) -> Vec<u8> {
    let mut lines: Vec<String> = text.lines().map(String::from).collect();
    if random.percent(85) {
        damage(random, &mut lines);
        return joined(random, &lines);
    }
    let mut bytes = text.as_bytes().to_vec();
    let place = random.below(bytes.len() as u64) as usize;
    match random.below(3) {
        0 => bytes[place] = random.byte(),
        1 => bytes[place] = random.pick(b" \n#(.-0159\t\r\0"),
        _ => bytes.truncate(place),
    }
    bytes
}

/// Makes a text that has, for the most part, one bad line.
/// A second may come with it, so that the first is seen to decide.
pub fn bad(random: &mut Random) -> Vec<u8> {
    let text = plain(random);
    if random.percent(80) {
        return spoilt(random, &text);
    }
    let mut lines: Vec<String> = text.lines().map(String::from).collect();
    damage(random, &mut lines);
    if !lines.is_empty() {
        damage(random, &mut lines);
    }
    joined(random, &lines)
}
