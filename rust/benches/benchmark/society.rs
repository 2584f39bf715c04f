//! Sheets as societies write them: a wide one for the lines of a register, where a question decides few cells of the table, a smaller one that loops
//! behind a remark, and a narrow one of class rules, where a question decides most of them.
use crate::plain::class;
use crate::sheets::{MONTHS, Question, Rules, UNITS, sheet};

const EVENTS: [&str; 3] = ["baptised ", "buried ", "married "];
const RELATIONS: [&str; 3] = ["son", "daughter", "wife"];
const STANDINGS: [&str; 5] = ["labourer", "weaver", "farmer", "smith", "widow"];

/// `12 March 1843` or `12/3/1843`.
fn date(rules: &mut Rules) -> u32 {
    let (digit, blank, slash) = (rules.class(1), rules.class(4), rules.word("/"));
    let number = number(rules);
    let year = rules.sequence(&[digit; 4]);
    let month = rules.words(&MONTHS);
    let written = rules.sequence(&[number, blank, month, blank, year]);
    let short = rules.sequence(&[number, slash, number, slash, year]);
    rules.choice(&[short, written])
}

/// One digit or two.
fn number(rules: &mut Rules) -> u32 {
    let digit = rules.class(1);
    let more = rules.option(digit);
    rules.sequence(&[digit, more])
}

/// `aged 3 months`, `aged 2 years 6 months` or `infant`.
fn age(rules: &mut Rules) -> u32 {
    let (blank, letter) = (rules.class(4), rules.word("s"));
    let number = number(rules);
    let unit = rules.words(&UNITS);
    let plural = rules.option(letter);
    let term = rules.sequence(&[number, blank, unit, plural]);
    let further = rules.sequence(&[blank, term]);
    let further = rules.option(further);
    let aged = rules.word("aged ");
    let aged = rules.sequence(&[aged, term, further]);
    let infant = rules.word("infant");
    rules.choice(&[infant, aged])
}

/// Words with a capital, as `Mary Ann Hobbs`, `Jane O'Neil` or `Stoke-By-Nayland`; their other letters small or of class 6.
fn names(rules: &mut Rules) -> u32 {
    let (capital, small, other, blank) = (
        rules.class(2),
        rules.class(3),
        rules.class(6),
        rules.class(4),
    );
    let letter = rules.choice(&[small, other]);
    let letters = rules.many(letter);
    let part = rules.sequence(&[capital, letters]);
    let joint = rules.words(&["'", "-"]);
    let joined = rules.sequence(&[joint, part]);
    let joined = rules.many(joined);
    let name = rules.sequence(&[part, joined]);
    let further = rules.sequence(&[blank, name]);
    let further = rules.many(further);
    rules.sequence(&[name, further])
}

/// What stands behind a comma: an age, parents or husband, a trade or standing, a position.
fn addition(rules: &mut Rules, names: u32) -> u32 {
    let age = age(rules);
    let relation = rules.words(&RELATIONS);
    let of = rules.word(" of ");
    let relation = rules.sequence(&[relation, of, names]);
    let standing = rules.words(&STANDINGS);
    let parish = rules.word("this parish");
    let position = rules.choice(&[parish, names]);
    let of = rules.word("of ");
    let position = rules.sequence(&[of, position]);
    rules.choice(&[age, relation, standing, position])
}

/// The lines of a register, with a semicolon between them and a full stop at the end.
fn register_sheet() -> Vec<u8> {
    let mut rules = Rules::new();
    let (comma, semicolon) = (rules.word(", "), rules.word("; "));
    let date = date(&mut rules);
    let names = names(&mut rules);
    let addition = addition(&mut rules, names);
    let addition = rules.sequence(&[comma, addition]);
    let and = rules.word(" and ");
    let partner = rules.sequence(&[and, names]);
    let addition = rules.choice(&[addition, partner]);
    let additions = rules.many(addition);
    let event = rules.words(&EVENTS);
    let line = rules.sequence(&[event, date, comma, names, additions]);
    let further = rules.sequence(&[semicolon, line]);
    let further = rules.many(further);
    let stop = rules.word(".");
    let page = rules.sequence(&[line, further, stop]);
    rules.sheet(page)
}

const MEN: [&str; 5] = ["John", "William", "Thomas", "Henry", "Robert"];
const WOMEN: [&str; 5] = ["Mary Ann", "Elizabeth", "Sarah", "Zoë", "Jane"];
const SURNAMES: [&str; 8] = [
    "Carter",
    "Hobbs",
    "Webb",
    "O'Neil",
    "Müller",
    "Whitfield",
    "Gage",
    "Partridge",
];
const PLACES: [&str; 7] = [
    "Long Melford",
    "this parish",
    "Sudbury",
    "Stoke-By-Nayland",
    "Bures",
    "Acton",
    "Great Waldingfield",
];

/// One of a list, by a number.
fn one<'a>(list: &[&'a str], number: usize) -> &'a str {
    list[number % list.len()]
}

/// The date of a line.
fn day(i: usize) -> String {
    let (day, month, year) = (1 + i * 11 % 28, i * 5 % 12, 1650 + i * 37 % 250);
    if i % 4 == 1 {
        format!("{day}/{}/{year}", month + 1)
    } else {
        format!("{day} {} {year}", MONTHS[month])
    }
}

/// A line of the register.
fn line(i: usize) -> String {
    let (man, woman, position) = (one(&MEN, i), one(&WOMEN, i * 3), one(&PLACES, i));
    let (surname, standing) = (one(&SURNAMES, i * 3), one(&STANDINGS[..4], i));
    let date = day(i);
    match i % 6 {
        0 => format!(
            "baptised {date}, {}, son of {man} {surname} and {woman}, of {position}",
            one(&MEN, i * 2)
        ),
        1 | 4 => format!(
            "buried {date}, {man} {surname}, {standing}, aged {} years {} months",
            2 + i * 13 % 80,
            2 + i % 10
        ),
        3 => format!(
            "baptised {date}, {}, daughter of {man} {surname} and {woman}, of {position}",
            one(&WOMEN, i * 2)
        ),
        _ => format!(
            "married {date}, {man} {surname}, {standing}, of {position} and {woman} {}, widow, of Acton",
            one(&SURNAMES, i + 1)
        ),
    }
}

/// A text as bytes, one for each letter (Latin-1).
fn bytes(text: &str) -> Vec<u8> {
    text.chars().map(|letter| letter as u8).collect()
}

fn lines(name: &'static str, text: &str) -> Question {
    Question {
        name,
        sheet: register_sheet(),
        entry: bytes(text),
    }
}

/// A short line of the register.
pub fn short_lines() -> Question {
    let text = "buried 3 December 1790, Ann Hobbs, aged 3 months.";
    lines("register lines, V = 251", text)
}

/// One line of the page: 80 bytes for number 0, 65 for number 1.
pub fn one_line(number: usize) -> Question {
    lines("register lines, V = 251", &(line(number) + "."))
}

/// Lines of a page with a semicolon between them, as many as have fewer letters than this, and one at least.
fn page(line: fn(usize) -> String, most: usize) -> String {
    let mut text = line(0);
    for i in 1.. {
        let longer = format!("{text}; {}", line(i));
        if longer.chars().count() >= most {
            break;
        }
        text = longer;
    }
    text
}

/// A page of lines as one entry, of at most so many bytes.
pub fn long_lines(most: usize) -> Question {
    lines("register lines, V = 251", &(page(line, most) + "."))
}

/// Shorter lines, `baptised 1843, Mary Ann Hobbs`, with a remark in brackets or none. A word of a remark may have no letters, and words come as often as
/// they come: where the letters end, they come back to themselves. The entry's end is such a place, so that the bracket that opens a remark is enough.
fn remarks_sheet() -> Vec<u8> {
    let mut rules = Rules::new();
    let [digit, capital, small, blank] = [1, 2, 3, 4].map(|class| rules.class(class));
    let [comma, semicolon] = [",", ";"].map(|mark| {
        let mark = rules.word(mark);
        rules.sequence(&[mark, blank])
    });
    let event = rules.words(&["baptised", "buried"]);
    let year = rules.sequence(&[digit; 4]);
    let letters = rules.many(small);
    let name = rules.sequence(&[capital, letters]);
    let further = rules.sequence(&[blank, name]);
    let further = rules.many(further);
    let blanks = rules.option(blank);
    let word = rules.sequence(&[letters, blanks]);
    let words = rules.many(word);
    let [opened, closed] = ["(", ")"].map(|mark| rules.word(mark));
    let remark = rules.sequence(&[blank, opened, words, closed]);
    let remark = rules.option(remark);
    let line = rules.sequence(&[event, blank, year, comma, name, further, remark]);
    let lines = rules.sequence(&[semicolon, line]);
    let lines = rules.many(lines);
    let stop = rules.word(".");
    let page = rules.sequence(&[line, lines, stop]);
    rules.sheet(page)
}

/// A page of such lines as one entry of so many bytes, 60 or more, of which one in the middle has a remark.
pub fn remark(n: usize) -> Question {
    let line = |i: usize| {
        let event = one(&["baptised", "buried"], i);
        let (year, surname) = (1650 + i * 37 % 250, one(&SURNAMES[..3], i));
        format!("{event} {year}, {} {surname}", one(&MEN, i))
    };
    let mut text = format!("{} (twin of john); {}", page(line, n / 2), page(line, n));
    text.truncate(n - 1);
    Question {
        name: "a remark in the middle",
        sheet: remarks_sheet(),
        entry: bytes(&(text + ".")),
    }
}

/// The same lines without their marks: every byte is sorted by its class, small letters last, up to a mark. A pair that calls others calls two, so that
/// no question reaches more leaves than other pairs, but one: six rules of kind 4 stand beside the six classes.
pub fn classes(n: usize) -> Question {
    let mut rules = vec![
        [4, 12, 13, 2],
        [4, 7, 1, 3],
        [4, 8, 1, 4],
        [4, 9, 1, 5],
        [4, 10, 1, 6],
        [4, 11, 1, 12],
    ];
    rules.extend([1, 2, 6, 4, 3, 5].map(|class| [3, class, 0, 0]));
    rules.push([0; 4]);
    let mut entry: Vec<u8> = (0..)
        .flat_map(|i| bytes(&(line(i) + " ")))
        .filter(|byte| class(*byte) != 5)
        .take(n - 1)
        .collect();
    entry.push(b'.');
    Question {
        name: "classes, V = 13",
        sheet: sheet(&rules),
        entry,
    }
}
