// The documents held to the repository: every link leads somewhere, and every path that a page names is there; docs/CALLS.md says of each call's buffers,
// reasons and answer what include/guppyspoon.h says; and its examples are the blocks of crates/cases/data/page.in, with what is stored for them.
use crate::header::{root, text_of, HEADER};
use std::path::Path;

const CALLS: &str = "docs/CALLS.md";
const BLOCKS: &str = "crates/cases/data/page.in";
const STORED: &str = "crates/cases/stdout";

// What is said of a call, in this order.
const SAID: [&str; 3] = ["Buffers: ", "Reasons: ", "Answer: "];

// The folders whose files pages name. The notes of docs/changes/ but its README.md tell of files that were there, and are not looked at for paths.
const FOLDERS: [&str; 6] = ["crates/", "docs/", "examples/", "bench/", "include/", ".ci/"];

// The pages, as paths from the repository's folder.
fn pages() -> Vec<String> {
    let mut found = vec!["README.md".to_string()];
    for folder in ["docs", "docs/changes"] {
        let files = std::fs::read_dir(root().join(folder)).unwrap_or_else(|e| panic!("{folder}: {e}"));
        let names = files.map(|file| file.unwrap().file_name().into_string().unwrap());
        found.extend(names.filter(|name| name.ends_with(".md")).map(|name| format!("{folder}/{name}")));
    }
    found.sort();
    found
}

// The parts of a text between two marks.
fn between<'a>(text: &'a str, open: &str, close: &str) -> Vec<&'a str> {
    text.split(open).skip(1).filter_map(|rest| rest.split_once(close)).map(|(part, _)| part).collect()
}

// The name by which a link leads to a heading.
fn anchor(heading: &str) -> String {
    let kept = heading.trim_matches(['#', ' ']).to_lowercase();
    kept.chars().filter(|c| c.is_alphanumeric() || "_- ".contains(*c)).map(|c| if c == ' ' { '-' } else { c }).collect()
}

// Whether a link on a page leads to a file that is there, and to a heading of it if it names one.
fn leads(page: &str, link: &str) -> bool {
    let (file, heading) = link.split_once('#').unwrap_or((link, ""));
    let folder = Path::new(page).parent().expect("a page is a file");
    let target = if file.is_empty() { root().join(page) } else { root().join(folder).join(file) };
    let Ok(text) = std::fs::read_to_string(&target) else {
        return heading.is_empty() && target.exists();
    };
    heading.is_empty() || text.lines().filter(|line| line.starts_with('#')).any(|line| anchor(line) == heading)
}

// Whether a word between backquotes is a path from the repository's folder, and nothing is there.
fn is_missing(word: &str) -> bool {
    let plain = word.chars().all(|c| c.is_ascii_alphanumeric() || "_-./".contains(c));
    plain && FOLDERS.iter().any(|folder| word.starts_with(folder)) && !root().join(word).exists()
}

// How many links and paths of all pages lead nowhere.
fn compare_links() -> usize {
    let mut off = 0;
    let mut tell = |page: &str, word: &str| {
        println!("DIFFERENCE {page} names {word}, which is not there");
        off += 1;
    };
    for page in pages() {
        let text = text_of(&page);
        for link in between(&text, "](", ")").into_iter().filter(|link| !link.contains("://") && !leads(&page, link)) {
            tell(&page, link);
        }
        let is_note = page.starts_with("docs/changes/") && !page.ends_with("README.md");
        for word in text.lines().flat_map(|line| line.split('`').skip(1).step_by(2)).filter(|word| !is_note && is_missing(word)) {
            tell(&page, word);
        }
    }
    println!("{} pages: {off} links and paths that lead nowhere", pages().len());
    off
}

// A sentence of the header or of the page, as both are compared: without line ends, prefixes and signs that one of them alone has.
fn plain(text: &str) -> String {
    let joined = text.replace("\n *", " ").replace("guppyspoon_", "").replace('`', "").replace('−', "-");
    joined.split_whitespace().collect::<Vec<_>>().join(" ").trim_end_matches('.').to_string()
}

// The same without what stands in brackets: the header names constants there, and the page numbers.
fn outside(text: &str) -> String {
    let mut depth = 0;
    let mut keep = |c: char| {
        depth += (c == '(') as i32;
        let kept = depth == 0;
        depth -= (c == ')') as i32;
        kept
    };
    text.chars().filter(|c| keep(*c)).collect()
}

// The calls of the header, each with what its comment says.
fn of_header(text: &str) -> Vec<(String, [String; 3])> {
    let call = |(before, after): (&str, &str)| {
        let comment = before.rsplit("/*").next()?.split("*/").next()?;
        let mut starts = SAID.map(|word| comment.find(word)).into_iter().collect::<Option<Vec<_>>>()?;
        starts.push(comment.len());
        let said = [0, 1, 2].map(|k| plain(&comment[starts[k] + SAID[k].len()..starts[k + 1]]));
        Some((after.split('(').next()?.to_string(), said))
    };
    text.match_indices("void guppyspoon_").filter_map(|(at, mark)| call((&text[..at], &text[at + mark.len()..]))).collect()
}

// What the page says of a call under its heading.
fn of_page(text: &str, name: &str) -> Option<[String; 3]> {
    let section = text.split_once(&format!("\n### `{name}`\n"))?.1.split("\n#").next()?;
    let line = |word: &str| section.lines().find_map(|line| line.strip_prefix("- ")?.strip_prefix(word)).map(plain);
    let [a, b, c] = SAID.map(line);
    Some([a?, b?, c?])
}

// How many calls the page has otherwise than the header, or not.
fn compare_calls() -> usize {
    let page = text_of(CALLS);
    let calls = of_header(&text_of(HEADER));
    let mut off = usize::from(calls.is_empty());
    for (name, [buffers, reasons, answer]) in &calls {
        let due = [buffers, reasons, &outside(answer)].map(String::clone);
        let said = of_page(&page, name).map(|[a, b, c]| [a, b, outside(&c)]);
        if said.as_ref() != Some(&due) {
            println!("DIFFERENCE {CALLS} says of {name} {said:?} where {HEADER} says {due:?}");
            off += 1;
        }
    }
    println!("{CALLS}, {} calls: {off} differences from {HEADER}", calls.len());
    off
}

// The two sides of a line of an example: what is lent, and what comes.
fn sides(line: &str) -> (&str, &str) {
    let line = line.strip_prefix("    ").unwrap_or(line);
    line.split_once("   ").map_or((line, ""), |(left, right)| (left.trim(), right.trim()))
}

// The examples of the page, end to end: all that is lent, and all that comes. An example is a run of lines of code, of which the first has a call on its
// left side, and its answer on its right.
fn examples(text: &str) -> (Vec<&str>, Vec<&str>) {
    let (mut lent, mut comes) = (vec![], vec![]);
    let mut within = false;
    for line in text.lines() {
        let (left, right) = sides(line);
        let begins = !left.is_empty() && right.strip_prefix(left).is_some_and(|rest| rest.starts_with(','));
        within = line.starts_with("    ") && (within || begins);
        if within {
            lent.extend(Some(left).filter(|side| !side.is_empty()));
            comes.extend(Some(right).filter(|side| !side.is_empty()));
        }
    }
    (lent, comes)
}

// The lines of a file of cases, but for those that say what a case is for.
fn cases_of(text: &str) -> Vec<&str> {
    text.lines().filter(|line| !line.starts_with('#')).collect()
}

// 1 unless the examples of the page are the blocks of the file, and what comes of them is stored.
fn compare_examples() -> usize {
    let (page, blocks, stored) = (text_of(CALLS), text_of(BLOCKS), text_of(STORED));
    let (lent, comes) = examples(&page);
    let count = lent.iter().filter(|line| **line == ".").count();
    let known = count > 0 && lent == cases_of(&blocks) && cases_of(&stored).windows(comes.len()).any(|lines| lines == comes);
    if !known {
        println!("DIFFERENCE the examples of {CALLS} are not those of {BLOCKS}, or what comes of them is not in {STORED}");
    }
    println!("{CALLS}, {count} examples: {} differences from {BLOCKS} and {STORED}", usize::from(!known));
    usize::from(!known)
}

// How much is off.
pub fn run() -> usize {
    println!("\nthe pages");
    compare_links() + compare_calls() + compare_examples()
}
