//! Damaged day files and scripts: good ones with faults put in, and texts that
//! never were good.

use crate::random::Random;
use crate::reader::TEXT_LIMIT;
use crate::write::line;

type Lines = Vec<Vec<u8>>;

const NUMBERS: [&str; 18] = [
    "0",
    "00",
    "01",
    "1",
    "8",
    "9",
    "16",
    "17",
    "+1",
    "-1",
    "1e3",
    "",
    "65537",
    "75536",
    "9999999999999999",
    "10000000000000000",
    "00000000000000001",
    "18446744073709551616",
];

const LINES: [&str; 34] = [
    "",
    ",",
    "C",
    "Z",
    "C,",
    "Z,0",
    "c",
    "H,1,1,1",
    "S,0,10,5",
    "M,B,0,100,1",
    "M,L,0,100,1",
    "M,X,0,100,1",
    "G,0,0",
    "G,0,1",
    "G,0,2",
    "G,0,8",
    "G,0,9",
    "G,0,9999999999999999",
    "G,0",
    "G,0,2,",
    "G,99,3",
    "B,0,0,100,1",
    "B,0,0,100,1,X",
    "B,0,0,100,65537,K",
    "L,0,0,100,65537,I",
    "G,0,2\nM,B,0,100,1\nM,L,0,100,65537",
    "L,0,0,100,1,KK",
    "P,0,B,0,1",
    "P,0,b,0,1",
    "P,0,B,0,65537",
    "X,0",
    "Y,0,0,1",
    "R,0,0,1,",
    "AB,0,0,1",
];

/// Words of scripts, in good form and in bad, of this level and of later ones.
const SCRIPT_LINES: [&str; 79] = [
    "SHOW",
    "SHOW",
    "SHOW",
    "SHOW,",
    "SHOW,0",
    "SHOWS",
    "SHO",
    "show",
    "LENT,0",
    "LENT,2",
    "LENT,1087",
    "LENT,1088",
    "LENT,1088",
    "LENT,4096",
    "LENT,4097",
    "LENT,01088",
    "LENT,1088,",
    "LENT,1088,1088",
    "LENT,B",
    "LENT, 0",
    "LENT",
    "LENT,",
    "lent,0",
    "COLLECT",
    "COLLECT",
    "COLLECT",
    "COLLECT,",
    "COLLECT,0",
    "COLLECTS",
    "COLLEC",
    "collect",
    "AUCTION",
    "AUCTION",
    "AUCTION,",
    "AUCTION,1",
    "AUCTIO",
    "OFFER,0,B,0,100,1,500,7",
    "OFFER,1,L,0,100,1,500,7",
    "OFFER,0,L,0,100,1,500,7",
    "OFFER,0,B,0,100,1,5001,7",
    "OFFER,0,B,0,100,65537,500,7",
    "OFFER,0,B,0,100,1,500,366",
    "OFFER,0,B,0,100,1,500,0",
    "OFFER,0,B,0,100,1,500",
    "OFFER,0,B,0,100,1,500,7,",
    "OFFER,0,B,0,100,1,500,7,K",
    "OFFER,0,b,0,100,1,500,7",
    "OFFER,B,0,0,100,1,500,7",
    "OFFER,0,B,0,100,1,0500,7",
    "OFFERS,0,B,0,100,1,500,7",
    "OFFER",
    "offer,0,B,0,100,1,500,7",
    "SECOND,1",
    "SECOND,1",
    "SECOND,0",
    "SECOND,01",
    "SECOND,",
    "SECOND",
    "SECOND,1,1",
    "SECONDS,1",
    "DAY,60",
    "DAY,146096",
    "DAY,146097",
    "DAY,",
    "DAY",
    "DAY,060",
    "DAY,60,0",
    "BACK,1",
    "QUEUE,B,0,0,100,1,K",
    "QUEUE,P,0,B,0,1",
    "QUEUE,G,0,2",
    "SERVE",
    "NET,0,0",
    "NETP,0,0",
    "BANK,0,0",
    "BANKP,0,0",
    "H,1,1,1,0",
    "S,0,10,5,0",
    "PHASE,open",
];

/// Kept orders that the reserves of the short day allow, and which cross.
const KEPT_LINES: [&str; 6] = [
    "B,0,0,100,1,K",
    "B,0,0,105,2,K",
    "B,0,0,110,1,K",
    "L,1,0,95,1,K",
    "L,1,0,100,2,K",
    "L,1,0,105,1,K",
];

/// Offers that the reserves of the short day allow, some of which meet, and what
/// becomes of their deals.
const DEAL_LINES: [&str; 9] = [
    "OFFER,0,B,0,100,1,500,7",
    "OFFER,1,L,0,100,1,500,7",
    "OFFER,0,B,0,105,2,500,7",
    "OFFER,1,L,0,105,2,500,7",
    "OFFER,1,L,0,100,1,500,8",
    "SECOND,1",
    "SECOND,2",
    "C\nZ\nDAY,7",
    "C\nZ\nDAY,8",
];

/// A heading's date in range and out of it, in good form and in bad, and with
/// more fields than there are.
const DATES: [&str; 22] = [
    "0",
    "1",
    "59",
    "10957",
    "146095",
    "146096",
    "146096",
    "146097",
    "146097",
    "146461",
    "9999999999999999",
    "10000000000000000",
    "00000000000000059",
    "",
    "00",
    "059",
    "+1",
    "-1",
    "1e3",
    "K",
    " 1",
    "59,",
];

/// A heading's rate in range and out of it, in good form and in bad, and with
/// more fields than there are.
const RATES: [&str; 22] = [
    "0",
    "1",
    "999",
    "1000",
    "1000",
    "1001",
    "1001",
    "1002",
    "9999999999999999",
    "10000000000000000",
    "00000000000000001",
    "",
    "00",
    "01000",
    "+1",
    "-1",
    "1e3",
    "K",
    " 1",
    "1000\r",
    "1000,",
    "1000,0",
];

/// A security's nominal in range and out of it, in good form and in bad, and
/// with more fields than there are.
const NOMINALS: [&str; 26] = [
    "0",
    "1",
    "9999",
    "9999",
    "10000",
    "10000",
    "12345",
    "100000",
    "500000",
    "500000",
    "500001",
    "500001",
    "1000000",
    "9999999999999999",
    "10000000000000000",
    "00000000000010000",
    "",
    "00",
    "010000",
    "+10000",
    "-1",
    "1e5",
    "K",
    " 10000",
    "10000,",
    "10000,0",
];

/// Of good form, but out of range.
const WRONG_NOMINALS: [&str; 5] = ["1", "9999", "500001", "1000000", "9999999999999999"];

/// Headings in the longer forms of this level and of later ones.
const LONGER_HEADINGS: [&str; 12] = [
    "H,1,1,1,0\nS,0,10,5",
    "H,1,1,1,1000\nS,0,10,5",
    "H,1,1,1,1000,59\nS,0,10,5",
    "H,1,1,1,0,0\nS,0,10,5",
    "H,1,1,1,0,146096\nS,0,10,5",
    "H,1,1,1,0,146097\nS,0,10,5",
    "H,1,1,1,1001,146097\nS,0,10,5",
    "H,1,1,1,1000,59,0\nS,0,10,5",
    "H,1,1,1\nS,0,10,5,0",
    "H,1,1,2\nS,0,10,5\nS,0,10,5,10000",
    "H,1,1,2,1000\nS,0,10,5,500000\nS,0,10,5",
    "H,1,1,1\nS,0,10,5,10000,10000",
];

/// Of good form, but out of range in every heading.
const WRONG_SECURITIES: [&str; 6] = [
    "S,4,1,1",
    "S,0,0,1",
    "S,0,1001,1",
    "S,0,1,0",
    "S,0,1,1000001",
    "S,9999999999999999,9999999999999999,9999999999999999",
];

const SHORT_DAY: &[u8] = b"H,2,1,1\nS,0,10,5\nR,0,0,100000\nD,1,0,1000\n";

const DAMAGES: [fn(&mut Random, &mut Lines); 19] = [
    flip_byte,
    flip_byte,
    put_typical_byte,
    put_typical_byte,
    delete_byte,
    delete_line,
    double_line,
    swap_lines,
    insert_line,
    insert_line,
    change_number,
    change_number,
    add_field,
    drop_field,
    add_carriage_return,
    change_heading_count,
    surplus_security,
    wrong_security,
    unfinished_group,
];

/// One to four faults somewhere in the text, and at times one at its end.
pub fn damaged(random: &mut Random, text: Vec<u8>) -> Vec<u8> {
    let mut lines = lines_of(&text);
    // The text's last byte 10 leaves an empty piece that is no line.
    lines.pop();
    for _ in 0..random.within(1, 4) {
        let damage = random.pick(&DAMAGES);
        damage(random, &mut lines);
    }
    let mut text = lines.join(&b'\n');
    text.push(b'\n');
    damage_end(random, &mut text);
    text
}

/// Words of scripts anywhere, half of them before a group's member where one
/// follows.
pub fn with_script_lines(random: &mut Random, text: Vec<u8>) -> Vec<u8> {
    let mut lines = lines_of(&text);
    for _ in 0..random.within(1, 6) {
        let place = script_line_place(random, &lines);
        let inserted = random.pick(&SCRIPT_LINES);
        lines.insert(place, inserted.into());
    }
    lines.join(&b'\n')
}

/// Another rate in the heading, or none; at times a wrong count or line too.
pub fn with_rate(random: &mut Random, text: Vec<u8>) -> Vec<u8> {
    let mut lines = lines_of(&text);
    lines[0] = if random.chance(90) {
        with_last_field(&lines[0], random.pick(&RATES))
    } else {
        fields_of_a_day(&lines[0]).join(&b',')
    };
    match random.below(4) {
        0..=1 => wrong_security(random, &mut lines),
        2 => change_heading_count(random, &mut lines),
        _ => {}
    }
    lines.join(&b'\n')
}

/// Another date in the heading, or none; at times a wrong rate, count or line
/// too, which shows what is asked first.
pub fn with_date(random: &mut Random, text: Vec<u8>) -> Vec<u8> {
    let mut lines = lines_of(&text);
    let rate = random.pick(&["0", "0", "1000", "1001"]);
    let good = random.pick(&["0", "365", "146096"]);
    let out_of_range = random.pick(&["146097", "9999999999999999"]);
    let any = random.pick(&DATES);
    let date = random.pick(&[good, out_of_range, out_of_range, any]);
    lines[0] = with_last_field(&lines[0], &format!("{rate},{date}"));
    match random.below(6) {
        0 => wrong_security(random, &mut lines),
        1 => change_heading_count(random, &mut lines),
        _ => {}
    }
    lines.join(&b'\n')
}

/// Other nominals in the heading, or none; at times a wrong line, rate or count
/// too, which shows what is asked first.
pub fn with_nominals(random: &mut Random, text: Vec<u8>) -> Vec<u8> {
    let mut lines = lines_of(&text);
    let nominals_percent = random.pick(&[30, 100]);
    let wrong_percent = random.pick(&[0, 0, 40]);
    let heading = lines.iter_mut().skip(1);
    for line in heading.take_while(|line| line.starts_with(b"S,")) {
        if random.chance(wrong_percent) {
            *line = random.pick(&WRONG_SECURITIES).into();
        }
        if random.chance(nominals_percent) {
            change_nominal(random, line);
        }
    }
    match random.below(8) {
        0..=2 => lines[0] = with_last_field(&lines[0], "1001"),
        3 => change_heading_count(random, &mut lines),
        _ => {}
    }
    lines.join(&b'\n')
}

/// Another nominal, mostly in good form and often out of range, or none.
fn change_nominal(random: &mut Random, line: &mut Vec<u8>) {
    *line = match random.below(10) {
        0..=1 => fields_of_a_day(line).join(&b','),
        2 => with_last_field(line, random.pick(&NOMINALS)),
        3..=5 => with_last_field(line, random.pick(&WRONG_NOMINALS)),
        _ => with_last_field(line, random.pick(&["0", "10000", "54321", "500000"])),
    };
}

/// The fields that a line of the heading has in a day file.
fn fields_of_a_day(line: &[u8]) -> Vec<&[u8]> {
    line.split(|&byte| byte == b',').take(4).collect()
}

/// These and one more: a rate, with or without a date, or a nominal.
fn with_last_field(line: &[u8], field: &str) -> Vec<u8> {
    let mut fields = fields_of_a_day(line);
    fields.push(field.as_bytes());
    fields.join(&b',')
}

fn script_line_place(random: &mut Random, lines: &Lines) -> usize {
    let from = random.index(lines.len() + 1);
    let is_member = |line: &Vec<u8>| line.first() == Some(&b'M');
    let next_member = lines[from..].iter().position(is_member);
    match next_member {
        Some(distance) if random.chance(50) => from + distance,
        _ => from,
    }
}

fn lines_of(text: &[u8]) -> Lines {
    text.split(|&byte| byte == b'\n')
        .map(|line| line.to_vec())
        .collect()
}

fn damage_end(random: &mut Random, text: &mut Vec<u8>) {
    match random.below(100) {
        0..=19 => {
            text.pop();
        }
        20..=29 => text.push(b'\n'),
        30..=39 => {
            let length = random.index(text.len());
            text.truncate(length);
        }
        40 => pad(random, text, TEXT_LIMIT),
        41..=43 => {
            let length = TEXT_LIMIT + 1 + random.pick(&[0, 0, 1, 4_000]);
            pad(random, text, length);
        }
        _ => {}
    }
}

/// Fills up to the length with empty lines, short calls or one long line.
fn pad(random: &mut Random, text: &mut Vec<u8>, length: usize) {
    let filling: &[u8] = random.pick(&[&b"\n"[..], b"Z\n", b"X,0,1\n", b"1", b"C\n\n"]);
    let missing = length.saturating_sub(text.len());
    text.extend(filling.iter().cycle().take(missing));
}

/// A line, rarely one of the heading, since a fault there ends the output.
fn any_line(random: &mut Random, lines: &Lines) -> usize {
    if random.chance(90) && lines.len() > 6 {
        6 + random.index(lines.len() - 6)
    } else {
        random.index(lines.len())
    }
}

fn flip_byte(random: &mut Random, lines: &mut Lines) {
    put_byte(random, lines, |random, byte| byte ^ (1 << random.below(8)));
}

fn put_typical_byte(random: &mut Random, lines: &mut Lines) {
    put_byte(random, lines, |random, _| {
        random.pick(b",,0123456789HSRWDEBLXGMCPZKIA\r\n +-\0\xFF")
    });
}

fn put_byte(random: &mut Random, lines: &mut Lines, new: fn(&mut Random, u8) -> u8) {
    if lines.is_empty() {
        return;
    }
    let line = any_line(random, lines);
    let line = &mut lines[line];
    if !line.is_empty() {
        let place = random.index(line.len());
        line[place] = new(random, line[place]);
    }
}

fn delete_byte(random: &mut Random, lines: &mut Lines) {
    if lines.is_empty() {
        return;
    }
    let line = any_line(random, lines);
    let line = &mut lines[line];
    if !line.is_empty() {
        let place = random.index(line.len());
        line.remove(place);
    }
}

fn delete_line(random: &mut Random, lines: &mut Lines) {
    if !lines.is_empty() {
        let line = any_line(random, lines);
        lines.remove(line);
    }
}

fn double_line(random: &mut Random, lines: &mut Lines) {
    if !lines.is_empty() {
        let line = any_line(random, lines);
        lines.insert(line, lines[line].clone());
    }
}

fn swap_lines(random: &mut Random, lines: &mut Lines) {
    if !lines.is_empty() {
        let first = any_line(random, lines);
        let second = any_line(random, lines);
        lines.swap(first, second);
    }
}

fn insert_line(random: &mut Random, lines: &mut Lines) {
    if !lines.is_empty() {
        let line = any_line(random, lines);
        let inserted = random.pick(&LINES);
        lines.insert(line, inserted.into());
    }
}

/// Applies a change to the fields of some line.
fn change_fields(
    random: &mut Random,
    lines: &mut Lines,
    change: fn(&mut Random, &mut Vec<Vec<u8>>),
) {
    if lines.is_empty() {
        return;
    }
    let line = any_line(random, lines);
    let line = &mut lines[line];
    let mut fields: Vec<Vec<u8>> = line
        .split(|&byte| byte == b',')
        .map(|field| field.to_vec())
        .collect();
    change(random, &mut fields);
    *line = fields.join(&b',');
}

fn change_number(random: &mut Random, lines: &mut Lines) {
    change_fields(random, lines, |random, fields| {
        let last = fields.len() - 1;
        let field = (1 + random.index(last.max(1))).min(last);
        fields[field] = random.pick(&NUMBERS).into();
    });
}

fn add_field(random: &mut Random, lines: &mut Lines) {
    change_fields(random, lines, |random, fields| {
        let place = random.index(fields.len() + 1);
        fields.insert(place, random.pick(&["", "0", "1", "K", " "]).into());
    });
}

fn drop_field(random: &mut Random, lines: &mut Lines) {
    change_fields(random, lines, |random, fields| {
        let place = random.index(fields.len());
        fields.remove(place);
    });
}

fn add_carriage_return(random: &mut Random, lines: &mut Lines) {
    if !lines.is_empty() {
        let line = any_line(random, lines);
        lines[line].push(b'\r');
    }
}

/// A count too small or too great for the lines that follow, or out of range.
fn change_heading_count(random: &mut Random, lines: &mut Lines) {
    if random.chance(50) || lines.is_empty() {
        return;
    }
    let mut fields: Vec<Vec<u8>> = lines[0]
        .split(|&byte| byte == b',')
        .map(|field| field.to_vec())
        .collect();
    let field = random.index(fields.len());
    fields[field] = random.pick(&NUMBERS).into();
    lines[0] = fields.join(&b',');
}

fn surplus_security(random: &mut Random, lines: &mut Lines) {
    if let Some(last) = lines.iter().rposition(|line| line.first() == Some(&b'S')) {
        let copies = random.within(1, 2);
        for _ in 0..copies {
            lines.insert(last, lines[last].clone());
        }
    }
}

fn wrong_security(random: &mut Random, lines: &mut Lines) {
    let is_security = |line: &Vec<u8>| line.first() == Some(&b'S');
    if random.chance(50) {
        return;
    }
    if let Some(line) = lines.iter_mut().rfind(|line| is_security(line)) {
        *line = random.pick(&WRONG_SECURITIES).into();
    }
}

/// The last line is a group whose members are missing.
fn unfinished_group(random: &mut Random, lines: &mut Lines) {
    lines.push(format!("G,0,{}", random.within(2, 8)).into());
    for _ in 0..random.below(3) {
        lines.push(b"M,B,0,100,1".to_vec());
    }
}

/// A text that never was a good day.
pub fn oddity(random: &mut Random) -> Vec<u8> {
    match random.below(40) {
        0 => Vec::new(),
        1..=3 => random_bytes(random),
        4 => headed(random, b"\n"),
        5 => headed(random, b"C\n"),
        6 => headed(random, b"1"),
        7..=16 => random_lines(random),
        17..=26 => odd_heading(random),
        _ => many_securities(random),
    }
}

/// A script that never was good.
pub fn script_oddity(random: &mut Random) -> Vec<u8> {
    match random.below(12) {
        0 => headed(random, b"SHOW\n"),
        1 => headed(random, b"LENT,0\n"),
        2..=3 => longer_heading(random),
        4 => odd_heading(random),
        5..=6 => many_securities(random),
        _ => random_script_lines(random),
    }
}

fn longer_heading(random: &mut Random) -> Vec<u8> {
    let mut text = Vec::new();
    line(&mut text, random.pick(&LONGER_HEADINGS));
    line(&mut text, "SHOW");
    text
}

/// Count, rate, date, lines and nominals are each at times wrong, which shows
/// what is asked first.
pub fn asked_heading(random: &mut Random) -> Vec<u8> {
    let participants = random.pick(&["1", "2", "16", "16", "17"]);
    let any_rate = random.pick(&RATES);
    let rate = random.pick(&["1001", "1001", "1000", "0", any_rate]);
    let count = random.within(1, 3);
    let mut text = Vec::new();
    let any_date = random.pick(&DATES);
    let date = random.pick(&["", "", ",0", ",146096", ",146097", ",146097"]);
    let date = if random.chance(10) {
        format!(",{any_date}")
    } else {
        date.into()
    };
    line(
        &mut text,
        &format!("H,{participants},1,{count},{rate}{date}"),
    );
    for _ in 0..count {
        let wrong = random.pick(&WRONG_SECURITIES);
        let security = random.pick(&["S,0,10,5", "S,0,10,5", "S,0,10,5", wrong]);
        let mut security = security.as_bytes().to_vec();
        change_nominal(random, &mut security);
        text.extend(security);
        text.push(b'\n');
    }
    line(&mut text, "SHOW");
    text
}

/// A good heading, and then lines of day files and scripts without sense, at
/// times orders and offers among them.
fn random_script_lines(random: &mut Random) -> Vec<u8> {
    let mut text = SHORT_DAY.to_vec();
    let orders_percent = random.pick(&[0, 2, 10, 30]);
    for _ in 0..random.within(1, 200) {
        let of_script = random.pick(&SCRIPT_LINES);
        let of_day = random.pick(&LINES);
        let without_sense = random.pick(&[of_script, of_day]);
        let kept = random.pick(&KEPT_LINES);
        let of_deals = random.pick(&DEAL_LINES);
        let order = random.pick(&[kept, of_deals]);
        let is_order = random.chance(orders_percent);
        line(&mut text, if is_order { order } else { without_sense });
    }
    text
}

fn random_bytes(random: &mut Random) -> Vec<u8> {
    let length = random.pick(&[1, 10, 100, 1_000, TEXT_LIMIT, TEXT_LIMIT + 1]);
    (0..length).map(|_| random.number() as u8).collect()
}

/// A good heading and then lines without sense.
fn random_lines(random: &mut Random) -> Vec<u8> {
    let mut text = SHORT_DAY.to_vec();
    for _ in 0..random.within(1, 200) {
        line(&mut text, random.pick(&LINES));
    }
    text
}

fn odd_heading(random: &mut Random) -> Vec<u8> {
    let mut text = Vec::new();
    let [first, second, third] = [0; 3].map(|_| random.pick(&NUMBERS));
    line(&mut text, &format!("H,{first},{second},{third}"));
    for _ in 0..random.below(20) {
        let [first, second, third] = [0; 3].map(|_| random.pick(&NUMBERS));
        line(&mut text, &format!("S,{first},{second},{third}"));
    }
    text
}

/// A good heading, filled up around the greatest length.
fn headed(random: &mut Random, filling: &[u8]) -> Vec<u8> {
    let mut text = b"H,2,1,1\nS,0,10,5\n".to_vec();
    let length = random.pick(&[1_000, TEXT_LIMIT - 1, TEXT_LIMIT, TEXT_LIMIT + 1]);
    text.extend(filling.iter().cycle().take(length - text.len()));
    text
}

/// As many S lines as said, or one off, at and over the limit of 16; at times
/// one of them is out of range.
fn many_securities(random: &mut Random) -> Vec<u8> {
    let said = random.pick(&[15, 16, 17, 18, 1_000]);
    let given = random.pick(&[said - 1, said, said, said + 1]);
    let faulty = random.below(given * 2);
    let mut text = Vec::new();
    let participants = random.pick(&[0, 1, 16, 17]);
    line(&mut text, &format!("H,{participants},4,{said}"));
    for place in 0..given {
        let wrong = random.pick(&WRONG_SECURITIES);
        line(
            &mut text,
            if place == faulty {
                wrong
            } else {
                "S,3,1000,1000000"
            },
        );
    }
    line(&mut text, "R,0,3,1000000000000000");
    text
}
