// The calls as C declares them, read from three texts: the library's own source, the header, and the declarations for Rust. They must be the same.

// A call's name without the prefix, and its parameters in order, each as C writes it.
#[derive(PartialEq, Debug)]
pub struct Declaration {
    pub name: String,
    pub parameters: Vec<String>,
}

// Every function of a text that begins with the opening words: its name and what stands between its brackets, parted at commas; `c_of` turns
// each parameter into C's. A function that returns a value is given one parameter more, so that it is like no other.
fn all(text: &str, opening: &str, c_of: fn(&str) -> Vec<String>) -> Vec<Declaration> {
    let mut found = Vec::new();
    for part in text.split(&format!("{opening} guppyspoon_")).skip(1) {
        let (name, rest) = part.split_once('(').expect("a bracket opens behind a function's name");
        let (inside, behind) = rest.split_once(')').expect("a bracket closes behind a function's parameters");
        let given = inside.split(',').map(|p| p.split_whitespace().collect::<Vec<_>>().join(" ")).filter(|p| !p.is_empty());
        let mut parameters: Vec<String> = given.flat_map(|p| c_of(&p)).collect();
        if behind.trim_start().starts_with("->") {
            parameters.push("and a value that is returned".to_string());
        }
        found.push(Declaration { name: name.to_string(), parameters });
    }
    found
}

// A slice is a pointer and a length.
fn c_of_rattle(parameter: &str) -> Vec<String> {
    let (name, kind) = parameter.split_once(": ").unwrap_or((parameter, ""));
    let pointer = match kind {
        "u32" => return vec![format!("uint32_t {name}")],
        "&[u32]" => "const uint32_t *",
        "&[u8]" => "const uint8_t *",
        "&mut [u32]" => "uint32_t *",
        "&mut [u8]" => "uint8_t *",
        _ => return vec![format!("{parameter}, of a type that C is not given")],
    };
    vec![format!("{pointer}{name}"), format!("size_t {name}_length")]
}

fn c_of_rust(parameter: &str) -> Vec<String> {
    let (name, kind) = parameter.split_once(": ").unwrap_or((parameter, ""));
    let front = match kind {
        "u32" => "uint32_t ",
        "usize" => "size_t ",
        "*const u32" => "const uint32_t *",
        "*const u8" => "const uint8_t *",
        "*mut u32" => "uint32_t *",
        "*mut u8" => "uint8_t *",
        _ => return vec![format!("{parameter}, of a type that C is not given")],
    };
    vec![format!("{front}{name}")]
}

// Of crates/exports_c/src/lib.rt. C has no lifetimes.
pub fn of_rattle(text: &str) -> Vec<Declaration> {
    all(&text.replace("<'a>", "").replace("&'a ", "&"), "fn", c_of_rattle)
}

// Of bench/src/calls.rs.
pub fn of_rust(text: &str) -> Vec<Declaration> {
    all(text, "fn", c_of_rust)
}

// Of include/guppyspoon.h.
pub fn of_c(text: &str) -> Vec<Declaration> {
    all(text, "void", |parameter| vec![parameter.to_string()])
}
