//! A plain hand-written scanner of M's tokens, which the bench compares the proved one with.

use std::time::Instant;

#[derive(Clone, Copy)]
pub enum Key {
    Regle, Verif, Application, Enchaineur, Si, Alors, Sinon, Finsi, Erreur, Saisie, Calculee, Const,
    Tableau, Alias, TypeKey, Pour, Un, Dans, Et, Ou, Non, Somme, Present, Positif, PositifOuNul, Null,
    Arr, Inf, Abs, Max, Min, Anomalie, Discordance, Informative, X,
}

#[derive(Clone, Copy)]
pub enum Sign {
    Plus, Minus, Star, Slash, Equal, NotEqual, Less, LessEqual, Greater, GreaterEqual, OpenParen,
    CloseParen, OpenBracket, CloseBracket, Comma, Semicolon, Colon, Range,
}

#[derive(Clone, Copy)]
pub struct Place {
    pub file: u32,
    pub byte: u32,
    pub line: u32,
}

pub enum Kind {
    Word(Vec<u8>),
    Number(i128, Vec<u8>),
    Text(Vec<u8>),
    Key(Key),
    Sign(Sign),
}

pub struct Token {
    pub kind: Kind,
    pub place: Place,
}

fn key_of(word: &[u8]) -> Option<Key> {
    Some(match word {
        b"regle" => Key::Regle,
        b"verif" => Key::Verif,
        b"application" => Key::Application,
        b"enchaineur" => Key::Enchaineur,
        b"si" => Key::Si,
        b"alors" => Key::Alors,
        b"sinon" => Key::Sinon,
        b"finsi" => Key::Finsi,
        b"erreur" => Key::Erreur,
        b"saisie" => Key::Saisie,
        b"calculee" => Key::Calculee,
        b"const" => Key::Const,
        b"tableau" => Key::Tableau,
        b"alias" => Key::Alias,
        b"type" => Key::TypeKey,
        b"pour" => Key::Pour,
        b"un" => Key::Un,
        b"dans" => Key::Dans,
        b"et" => Key::Et,
        b"ou" => Key::Ou,
        b"non" => Key::Non,
        b"somme" => Key::Somme,
        b"present" => Key::Present,
        b"positif" => Key::Positif,
        b"positif_ou_nul" => Key::PositifOuNul,
        b"null" => Key::Null,
        b"arr" => Key::Arr,
        b"inf" => Key::Inf,
        b"abs" => Key::Abs,
        b"max" => Key::Max,
        b"min" => Key::Min,
        b"anomalie" => Key::Anomalie,
        b"discordance" => Key::Discordance,
        b"informative" => Key::Informative,
        b"X" => Key::X,
        _ => return None,
    })
}

const MOST: i128 = 10_000_000_000_000_000_000;

// Millionths, rounded at the sixth decimal.
fn amount_of(whole: &[u8], decimals: &[u8]) -> Option<i128> {
    let mut amount: i128 = 0;
    for b in whole {
        amount = (amount * 10 + i128::from(b - b'0')).min(MOST);
    }
    for k in 0..6 {
        amount = amount * 10 + decimals.get(k).map_or(0, |b| i128::from(b - b'0'));
    }
    if decimals.get(6).is_some_and(|b| *b >= b'5') {
        amount += 1;
    }
    (amount <= MOST).then_some(amount)
}

fn is_word_byte(b: u8) -> bool {
    b.is_ascii_alphanumeric() || b == b'_'
}

pub fn lex(bytes: &[u8], file: u32) -> Result<Vec<Token>, Place> {
    let mut tokens = Vec::new();
    let mut at = 0;
    let mut line = 1;
    while at < bytes.len() {
        let place = Place { file, byte: at as u32, line };
        let b = bytes[at];
        let next = bytes.get(at + 1).copied().unwrap_or(0);
        let start = at;
        let kind = match b {
            b'\n' => {
                at += 1;
                line += 1;
                continue;
            }
            b' ' | b'\t' | b'\r' => {
                at += 1;
                continue;
            }
            b'#' => {
                while at < bytes.len() && bytes[at] != b'\n' {
                    at += 1;
                }
                continue;
            }
            b'"' => {
                at += 1;
                while at < bytes.len() && bytes[at] != b'"' {
                    line += u32::from(bytes[at] == b'\n');
                    at += 1;
                }
                if at == bytes.len() {
                    return Err(place);
                }
                at += 1;
                Kind::Text(bytes[start + 1..at - 1].to_vec())
            }
            _ if is_word_byte(b) => {
                let mut digits = true;
                while at < bytes.len() && is_word_byte(bytes[at]) {
                    digits &= bytes[at].is_ascii_digit();
                    at += 1;
                }
                if digits {
                    let whole = at;
                    let mut from = at;
                    if at + 1 < bytes.len() && bytes[at] == b'.' && bytes[at + 1].is_ascii_digit() {
                        at += 1;
                        from = at;
                        while at < bytes.len() && bytes[at].is_ascii_digit() {
                            at += 1;
                        }
                    }
                    let amount = amount_of(&bytes[start..whole], &bytes[from..at]).ok_or(place)?;
                    Kind::Number(amount, bytes[start..at].to_vec())
                } else {
                    let word = &bytes[start..at];
                    match key_of(word) {
                        Some(key) => Kind::Key(key),
                        None => Kind::Word(word.to_vec()),
                    }
                }
            }
            _ => {
                let (sign, length) = match (b, next) {
                    (b'!', b'=') => (Sign::NotEqual, 2),
                    (b'<', b'=') => (Sign::LessEqual, 2),
                    (b'>', b'=') => (Sign::GreaterEqual, 2),
                    (b'.', b'.') => (Sign::Range, 2),
                    (b'+', _) => (Sign::Plus, 1),
                    (b'-', _) => (Sign::Minus, 1),
                    (b'*', _) => (Sign::Star, 1),
                    (b'/', _) => (Sign::Slash, 1),
                    (b'=', _) => (Sign::Equal, 1),
                    (b'<', _) => (Sign::Less, 1),
                    (b'>', _) => (Sign::Greater, 1),
                    (b'(', _) => (Sign::OpenParen, 1),
                    (b')', _) => (Sign::CloseParen, 1),
                    (b'[', _) => (Sign::OpenBracket, 1),
                    (b']', _) => (Sign::CloseBracket, 1),
                    (b',', _) => (Sign::Comma, 1),
                    (b';', _) => (Sign::Semicolon, 1),
                    (b':', _) => (Sign::Colon, 1),
                    _ => return Err(place),
                };
                at += length;
                Kind::Sign(sign)
            }
        };
        tokens.push(Token { kind, place });
    }
    Ok(tokens)
}

fn main() {
    let path = std::env::args().nth(1).expect("a file");
    let bytes = std::fs::read(path).expect("the file's bytes");
    for _ in 0..5 {
        let start = Instant::now();
        let tokens = lex(&bytes, 0).ok().expect("tokens");
        let took = start.elapsed();
        println!("{} {}", tokens.len(), took.as_micros());
    }
}
