//! No promise can name a C function, so that `flowspec6_lookup` could be proved as IPv4's. Here each
//! function of `crates/c_api` is held to its name: its number tells its family, in its promise and
//! in the call that it makes, and the rest of its name both of them. Each buffer in a promise is
//! the parameter of its name, and the header declares exactly these functions. One more is lent
//! nothing and has no family: it answers the number of the interface, which is the header's.

mod tree;

use flowspec::ffi;
use tree::page;

/// The function that answers the number of the interface, and the definition of that number.
const INTERFACE: &str = "flowspec_interface";
const INTERFACE_NUMBER: &str = "interface_number";

/// The one call that is told no family, since communities have no addresses.
const WITHOUT_FAMILY: &str = "actions";

/// The parameters that are numbers, and the definition by which a promise takes each.
const NUMBERS: [(&str, &str); 2] = [
    ("allow_no_destination", "settings_in"),
    ("originator", "origin_of"),
];

/// A parameter's name and type.
type Parameter = (String, String);

/// A function of `crates/c_api`, as it is written there.
struct Function {
    family: char,
    call: String,
    parameters: Vec<Parameter>,
    contract: String,
    body: String,
}

/// The code of a file without its comments.
fn code(name: &str) -> String {
    let page = page(name);
    let lines = page.lines().filter(|line| !line.trim().starts_with("//"));
    lines.flat_map(|line| [line, "\n"]).collect()
}

/// What stands before and behind a mark, which is there.
fn parted<'a>(text: &'a str, mark: &str) -> (&'a str, &'a str) {
    text.split_once(mark)
        .unwrap_or_else(|| panic!("no {mark:?} in {text}"))
}

/// The parameters of a list of them.
fn parameters(list: &str) -> Vec<Parameter> {
    let items = list.split(',').map(str::trim);
    items
        .filter(|item| !item.is_empty())
        .map(|item| parted(item, ": "))
        .map(|(name, kind)| (name.to_string(), kind.to_string()))
        .collect()
}

/// A function from its text behind `#[unsafe(no_mangle)]`.
fn function(text: &str) -> Function {
    assert_eq!(text.matches("fn ").count(), 1, "two functions in {text}");
    let (marks, text) = parted(text, "fn ");
    assert_eq!(marks.trim(), "pub extern \"C\"");
    let (name, text) = parted(text, "(");
    let (list, text) = parted(text, ") -> u64\n");
    let (contract, body) = parted(text, "\n{\n");
    let (family, call) = match name.split_at(name.find('_').unwrap()) {
        ("flowspec4", call) => ('4', call),
        ("flowspec6", call) => ('6', call),
        _ => panic!("{name} tells no family"),
    };
    Function {
        family,
        call: call.trim_start_matches('_').to_string(),
        parameters: parameters(list),
        contract: contract.to_string(),
        body: body.trim_end().trim_end_matches('}').to_string(),
    }
}

/// The texts of the functions of `crates/c_api`, every one of which C can call: those of the calls,
/// and that which answers the number of the interface.
fn texts() -> (Vec<String>, Vec<String>) {
    let code = code("crates/c_api/src/lib.rt");
    let mut parts = code.split("#[unsafe(no_mangle)]").map(str::to_string);
    let head = parts.next().unwrap();
    assert!(!head.contains("fn "), "a function that C cannot call");
    assert!(!head.contains(" as "), "a name that stands for another");
    parts.partition(|text| !text.contains(INTERFACE))
}

/// The functions of the calls.
fn functions() -> Vec<Function> {
    let (calls, _) = texts();
    calls.iter().map(|text| function(text)).collect()
}

impl Function {
    fn name(&self) -> String {
        format!("flowspec{}_{}", self.family, self.call)
    }

    fn has_family(&self) -> bool {
        self.call != WITHOUT_FAMILY
    }

    /// The call's promise, as `FirstMatchCall` is that of `first_match`.
    fn promise(&self) -> String {
        let words = self.call.split('_').map(|word| {
            let (first, rest) = word.split_at(1);
            first.to_uppercase() + rest
        });
        words.collect::<String>() + "Call"
    }

    /// The buffers as a promise has them at entry or at exit, each by its own name: what is lent to be
    /// read is one value at both.
    fn buffers_at(&self, changed: &str) -> String {
        let fields = self.parameters.iter().filter(|(_, kind)| kind != "u32");
        let fields = fields.map(|(name, kind)| {
            let moment = if kind.starts_with("&mut ") {
                changed
            } else {
                "now"
            };
            format!("{name} = {name}.{moment}")
        });
        format!(
            "(record {{ {} }})",
            fields.collect::<Vec<String>>().join("; ")
        )
    }

    /// The numbers as a promise has them, each by its definition.
    fn numbers(&self) -> impl Iterator<Item = String> + '_ {
        let numbers = self.parameters.iter().filter(|(_, kind)| kind == "u32");
        numbers.map(|(name, _)| {
            let number = NUMBERS.iter().find(|(number, _)| number == name);
            let (_, definition) = number.unwrap_or_else(|| panic!("what is {name}?"));
            format!("({definition} {name})")
        })
    }

    /// The contract that this function is to have, but for its layout and marks.
    fn promised(&self) -> String {
        let family = self.has_family().then(|| format!("ipv{}", self.family));
        let mut terms = vec![self.promise()];
        terms.extend(family);
        terms.extend(self.numbers());
        terms.extend([
            self.buffers_at("old"),
            "result".to_string(),
            self.buffers_at("new"),
        ]);
        format!("ensures {{ {} }}", terms.join(" "))
    }

    /// The call that this function is to make.
    fn calling(&self) -> String {
        let family = self
            .has_family()
            .then(|| format!("AddressFamily::Ipv{}", self.family));
        let handed = self.parameters.iter().map(|(name, _)| name.clone());
        let handed: Vec<String> = family.into_iter().chain(handed).collect();
        format!("calls::{}({})", self.call, handed.join(","))
    }

    /// The declaration that the header is to have.
    fn declaration(&self) -> String {
        let declared: Vec<String> = self.parameters.iter().map(declared).collect();
        format!("uint64_t {}({})", self.name(), declared.join(", "))
    }
}

/// A parameter as C declares it: of a slice a pointer and a length, which in the header has the
/// buffer's name or one of its own.
fn declared((name, kind): &Parameter) -> String {
    let length = match name.as_str() {
        "routes" => "words".to_string(),
        "communities" => "len".to_string(),
        _ => format!("{name}_len"),
    };
    match kind.as_str() {
        "u32" => format!("uint32_t {name}"),
        "&[u8]" => format!("const uint8_t *{name}, size_t {length}"),
        "&[u32]" => format!("const uint32_t *{name}, size_t {length}"),
        "&mut [u8]" => format!("uint8_t *{name}, size_t {length}"),
        "&mut [u32]" => format!("uint32_t *{name}, size_t {length}"),
        _ => {
            let words = kind
                .strip_prefix("&mut [u64; ")
                .unwrap_or_else(|| panic!("{kind} in C?"));
            format!("uint64_t {name}[{words}")
        }
    }
}

/// The words of a text.
fn words(text: &str) -> Vec<String> {
    let words = text.split(|c: char| !c.is_alphanumeric() && c != '_');
    words
        .filter(|word| !word.is_empty())
        .map(str::to_string)
        .collect()
}

#[test]
fn each_function_promises_what_its_name_says() {
    for function in functions() {
        let (made, expected) = (&function.contract, function.promised());
        assert_eq!(words(made), words(&expected), "{}", function.name());
    }
}

#[test]
fn each_function_makes_the_call_of_its_name() {
    for function in functions() {
        let made: String = function.body.split_whitespace().collect();
        let made = made.replace(",)", ")");
        assert_eq!(made, function.calling(), "{}", function.name());
    }
}

/// The calls that a family has functions for, sorted.
fn calls_of(family: char) -> Vec<String> {
    let functions = functions().into_iter();
    let mut calls: Vec<String> = functions
        .filter(|function| function.family == family)
        .map(|function| function.call)
        .collect();
    calls.sort();
    calls
}

#[test]
fn each_call_is_there_for_both_families() {
    let code = code("crates/calls/src/lib.rt");
    let mut calls: Vec<String> = code
        .lines()
        .filter_map(|line| line.strip_prefix("pub fn "))
        .map(|line| parted(line, "(").0.to_string())
        .collect();
    calls.sort();
    assert_eq!(calls_of('4'), calls);
    calls.retain(|call| call != WITHOUT_FAMILY);
    assert_eq!(calls_of('6'), calls);
}

/// The functions that the header declares, sorted; those that it defines itself are left out.
fn declarations() -> Vec<String> {
    let mut header = page("include/flowspec.h");
    while let Some(start) = header.find("/*") {
        let end = start + header[start..].find("*/").unwrap() + 2;
        header.replace_range(start..end, "");
    }
    let lines = header.lines().filter(|line| !line.starts_with('#'));
    let text = lines.collect::<Vec<&str>>().join(" ");
    let mut declared: Vec<String> = text
        .split(';')
        .filter(|piece| !piece.contains("static inline"))
        .map(|piece| piece.split_whitespace().collect::<Vec<&str>>().join(" "))
        .map(|piece| piece.trim_start_matches("extern \"C\" {").to_string())
        .map(|piece| piece.trim_start_matches('}').trim_start().to_string())
        .filter(|piece| !piece.is_empty())
        .collect();
    declared.sort();
    declared
}

#[test]
fn the_header_declares_these_functions() {
    let functions = functions();
    let mut expected: Vec<String> = functions.iter().map(Function::declaration).collect();
    expected.push(format!("uint64_t {INTERFACE}(void)"));
    expected.sort();
    assert_eq!(declarations(), expected);
}

/// What stands behind a mark in a file, up to the line's end.
fn behind(name: &str, mark: &str) -> String {
    let page = page(name);
    let (_, text) = parted(&page, mark);
    parted(text, "\n").0.to_string()
}

#[test]
fn the_interface_has_the_number_of_the_header() {
    let number = behind("include/flowspec.h", "#define FLOWSPEC_INTERFACE ");
    let definition = format!("\n{INTERFACE_NUMBER} = ");
    assert_eq!(behind("crates/calls/specs/Word.antt", &definition), number);
    let (_, made) = texts();
    let [made] = &made[..] else {
        panic!("one function answers the number of the interface")
    };
    let promised = format!("ensures {{ result ≡ {INTERFACE_NUMBER} }}");
    let expected = format!("pub extern \"C\" fn {INTERFACE}() -> u64 {promised} {{ {number} }}");
    assert_eq!(words(made), words(&expected));
    assert_eq!(number.parse(), Ok(ffi::INTERFACE));
}
