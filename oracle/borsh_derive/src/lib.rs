//! The derives of the `borsh` stand-in. They read the tokens of a type by hand,
//! since no crate is fetched: plain structs, tuple structs and enums without
//! data, none of them generic, which is all that the original derives for.
use proc_macro::{Delimiter, Group, TokenStream, TokenTree};

/// A field: how it is reached (`name` or `0`) and its type.
struct Field {
    name: String,
    kind: String,
}

enum Shape {
    /// Fields with names, written with braces.
    Named(Vec<Field>),
    /// Fields by number. One field is the value itself and adds no name.
    Tuple(Vec<Field>),
    /// Names of the cases, each one byte.
    Cases(Vec<String>),
}

struct Type {
    name: String,
    shape: Shape,
}

/// Without attributes and visibility, which say nothing about the image.
fn plain(stream: TokenStream) -> Vec<TokenTree> {
    let mut out: Vec<TokenTree> = Vec::new();
    let mut tokens = stream.into_iter().peekable();
    while let Some(token) = tokens.next() {
        match &token {
            TokenTree::Punct(mark) if mark.as_char() == '#' => {
                tokens.next();
            }
            TokenTree::Ident(word) if word.to_string() == "pub" => {
                let scope = |token: &TokenTree| {
                    matches!(token, TokenTree::Group(group)
                    if group.delimiter() == Delimiter::Parenthesis
                        && ["(crate)", "(super)"].contains(&group.to_string().as_str()))
                };
                tokens.next_if(scope);
            }
            _ => out.push(token),
        }
    }
    out
}

/// The pieces between the commas that stand in no angle brackets.
fn pieces(group: &Group) -> Vec<Vec<TokenTree>> {
    let mut out = vec![Vec::new()];
    let mut depth = 0;
    for token in plain(group.stream()) {
        if let TokenTree::Punct(mark) = &token {
            match mark.as_char() {
                '<' => depth += 1,
                '>' => depth -= 1,
                ',' if depth == 0 => {
                    out.push(Vec::new());
                    continue;
                }
                _ => {}
            }
        }
        out.last_mut().expect("never empty").push(token);
    }
    out.retain(|piece| !piece.is_empty());
    out
}

fn text(tokens: &[TokenTree]) -> String {
    tokens.iter().cloned().collect::<TokenStream>().to_string()
}

fn named(group: &Group) -> Vec<Field> {
    let field = |piece: Vec<TokenTree>| Field {
        name: piece[0].to_string(),
        kind: text(&piece[2..]),
    };
    pieces(group).into_iter().map(field).collect()
}

fn tuple(group: &Group) -> Vec<Field> {
    let field = |(index, piece): (usize, Vec<TokenTree>)| Field {
        name: index.to_string(),
        kind: text(&piece),
    };
    pieces(group).into_iter().enumerate().map(field).collect()
}

fn parse(input: TokenStream) -> Type {
    let tokens = plain(input);
    let name = tokens[1].to_string();
    let TokenTree::Group(body) = &tokens[2] else {
        panic!("{name} is generic, which this derive does not read");
    };
    let shape = match (tokens[0].to_string().as_str(), body.delimiter()) {
        ("struct", Delimiter::Brace) => Shape::Named(named(body)),
        ("struct", _) => Shape::Tuple(tuple(body)),
        _ => Shape::Cases(
            pieces(body)
                .iter()
                .map(|piece| piece[0].to_string())
                .collect(),
        ),
    };
    Type { name, shape }
}

/// A line of code for each field, with its number.
fn each(fields: &[Field], line: impl Fn(usize, &Field) -> String) -> String {
    fields
        .iter()
        .enumerate()
        .map(|(index, field)| line(index, field))
        .collect()
}

#[proc_macro_derive(BorshSerialize, attributes(borsh))]
pub fn serialize(input: TokenStream) -> TokenStream {
    let Type { name, shape } = parse(input);
    let body = match &shape {
        Shape::Cases(_) => {
            "fn write(&self, out: &mut ::std::vec::Vec<u8>) { out.push(*self as u8); }".to_string()
        }
        Shape::Named(fields) | Shape::Tuple(fields) => serialize_fields(fields, is_one(&shape)),
    };
    format!("impl ::borsh::BorshSerialize for {name} {{ {body} }}")
        .parse()
        .expect("code")
}

/// Whether the value is its only field, as in `Time(u128)`.
fn is_one(shape: &Shape) -> bool {
    matches!(shape, Shape::Tuple(fields) if fields.len() == 1)
}

fn serialize_fields(fields: &[Field], one: bool) -> String {
    let write = each(fields, |_, field| {
        format!("::borsh::BorshSerialize::write(&self.{}, out);", field.name)
    });
    let get = each(fields, |index, field| {
        format!(
            "Some(({index}, rest)) => ::borsh::BorshSerialize::get(&self.{}, rest, out),",
            field.name
        )
    });
    let write = format!("fn write(&self, out: &mut ::std::vec::Vec<u8>) {{ {write} }}");
    if one {
        return write;
    }
    format!(
        "{write}
        fn get(&self, path: &[u8], out: &mut ::std::vec::Vec<u8>) -> ::std::result::Result<(), ::borsh::Malformed> {{
            match path.split_first() {{
                None => {{ ::borsh::BorshSerialize::write(self, out); Ok(()) }}
                {get}
                Some(_) => Err(::borsh::PART),
            }}
        }}"
    )
}

#[proc_macro_derive(BorshDeserialize, attributes(borsh))]
pub fn deserialize(input: TokenStream) -> TokenStream {
    let Type { name, shape } = parse(input);
    let body = match &shape {
        Shape::Cases(cases) => read_cases(cases),
        Shape::Named(fields) | Shape::Tuple(fields) => {
            let parts = if is_one(&shape) {
                String::new()
            } else {
                parts(fields)
            };
            read_fields(fields) + &parts
        }
    };
    format!("impl ::borsh::BorshDeserialize for {name} {{ {body} }}")
        .parse()
        .expect("code")
}

const READ: &str = "fn read(image: &mut &[u8]) -> ::std::result::Result<Self, ::borsh::Malformed>";

fn read_cases(cases: &[String]) -> String {
    let arms: String = cases
        .iter()
        .map(|case| format!("if byte == Self::{case} as u8 {{ return Ok(Self::{case}); }}"))
        .collect();
    format!("{READ} {{ let byte: u8 = ::borsh::BorshDeserialize::read(image)?; {arms} Err(::borsh::MARK) }}")
}

fn read_fields(fields: &[Field]) -> String {
    let read = each(fields, |_, field| {
        format!("{}: ::borsh::BorshDeserialize::read(image)?,", field.name)
    });
    format!("{READ} {{ Ok(Self {{ {read} }}) }}")
}

/// `set`, `path` and `names`, which reach the fields one by one.
fn parts(fields: &[Field]) -> String {
    let set = each(fields, |index, field| {
        format!(
            "Some(({index}, rest)) => ::borsh::BorshDeserialize::set(&mut self.{}, rest, image),",
            field.name
        )
    });
    let path = each(fields, |index, Field { name, kind }| {
        format!("(\"{name}\", rest) => ::borsh::under({index}, <{kind} as ::borsh::BorshDeserialize>::path(rest)),")
    });
    let names = each(fields, |_, Field { name, kind }| {
        format!("<{kind} as ::borsh::BorshDeserialize>::names(&::borsh::join(prefix, \"{name}\"), out);")
    });
    format!(
        "fn set(&mut self, path: &[u8], image: &mut &[u8]) -> ::std::result::Result<(), ::borsh::Malformed> {{
            match path.split_first() {{
                None => {{ *self = ::borsh::BorshDeserialize::read(image)?; Ok(()) }}
                {set}
                Some(_) => Err(::borsh::PART),
            }}
        }}
        fn path(name: &str) -> ::std::option::Option<::std::vec::Vec<u8>> {{
            match ::borsh::split(name) {{
                (\"\", _) => Some(::std::vec::Vec::new()),
                {path}
                _ => None,
            }}
        }}
        fn names(prefix: &str, out: &mut ::std::vec::Vec<::std::string::String>) {{ {names} }}"
    )
}
