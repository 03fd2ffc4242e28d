// The yardstick of bench/chess_text.sh: the same work by a plain Rust program, unverified, with the data of the crates
// chess_rules and chess_text and their method: rivals are sought among the pieces of one kind, a text is read by looking at
// its kind and target and writing the few moves that are left.
mod chess;

use chess::*;
use std::env;

fn has_move(p: &Position) -> bool {
    (0..64).filter(|from| p.board[*from].is_some_and(|(side, _)| side == p.side)).any(|from| {
        (0..64).any(|to| {
            is_legal(p, &Move { from, to, promotion: None })
                || is_legal(p, &Move { from, to, promotion: Some(Kind::Queen) })
        })
    })
}

fn letter(kind: Kind) -> char {
    match kind {
        Kind::King => 'K',
        Kind::Queen => 'Q',
        Kind::Rook => 'R',
        Kind::Bishop => 'B',
        Kind::Knight => 'N',
        Kind::Pawn => 'P',
    }
}

fn push_square(text: &mut String, square: usize) {
    text.push((b'a' + (square % 8) as u8) as char);
    text.push((b'8' - (square / 8) as u8) as char);
}

fn write_san(p: &Position, m: &Move) -> String {
    let mut text = String::with_capacity(8);
    let kind = p.board[m.from].map_or(Kind::Pawn, |(_, kind)| kind);
    let capture = p.board[m.to].is_some() || (kind == Kind::Pawn && m.from % 8 != m.to % 8);
    if kind == Kind::King && m.from.abs_diff(m.to) == 2 {
        text.push_str(if m.to > m.from { "O-O" } else { "O-O-O" });
    } else {
        if kind == Kind::Pawn {
            if capture {
                text.push((b'a' + (m.from % 8) as u8) as char);
            }
        } else {
            text.push(letter(kind));
            let (mut any, mut file, mut rank) = (false, false, false);
            for from in 0..64 {
                let rival = Move { from, to: m.to, promotion: None };
                if from != m.from && p.board[from] == Some((p.side, kind)) && is_legal(p, &rival) {
                    any = true;
                    file |= from % 8 == m.from % 8;
                    rank |= from / 8 == m.from / 8;
                }
            }
            if any && (!file || rank) {
                text.push((b'a' + (m.from % 8) as u8) as char);
            }
            if file {
                text.push((b'8' - (m.from / 8) as u8) as char);
            }
        }
        if capture {
            text.push('x');
        }
        push_square(&mut text, m.to);
        if let Some(kind) = m.promotion {
            text.push('=');
            text.push(letter(kind));
        }
    }
    let next = after(p, m);
    if in_check(&next.board, next.side) {
        text.push(if has_move(&next) { '+' } else { '#' });
    }
    text
}

fn read_san(p: &Position, text: &str) -> Option<Move> {
    let bytes = text.as_bytes();
    let (kind, to, promotion) = if bytes.first() == Some(&b'O') {
        let wing = if text.len() < 5 { 0 } else { 1 } + if p.side == Side::White { 0 } else { 2 };
        (Kind::King, CASTLING[wing].2, None)
    } else {
        let kind = kind_of(*bytes.first()?);
        let file = bytes.iter().rev().find(|b| (b'a'..=b'h').contains(b))?;
        let rank = bytes.iter().rev().find(|b| (b'1'..=b'8').contains(b))?;
        let named = bytes.iter().position(|b| *b == b'=').and_then(|i| bytes.get(i + 1));
        (kind, 8 * (b'8' - rank) as usize + (file - b'a') as usize, named.map(|b| kind_of(*b)))
    };
    (0..64)
        .filter(|from| p.board[*from] == Some((p.side, kind)))
        .map(|from| Move { from, to, promotion })
        .find(|m| is_legal(p, m) && write_san(p, m) == text)
}

fn main() {
    let words: Vec<String> = env::args().collect();
    let rounds: u32 = words[2].parse().unwrap();
    let game = std::io::read_to_string(std::io::stdin()).unwrap();
    let mut plies = Vec::new();
    let mut p = initial();
    for text in game.split_whitespace() {
        let m = read_san(&p, text).unwrap();
        plies.push((p, m, text));
        p = after(&p, &m);
    }
    let mut count = 0usize;
    for _ in 0..rounds {
        for (p, m, text) in &plies {
            count += match words[1].as_str() {
                "write" if is_legal(p, m) => write_san(p, m).len(),
                "read" if read_san(p, text).is_some() => 1,
                _ => 0,
            };
        }
    }
    println!("{} plies, {rounds} rounds, {} {count}", plies.len(), words[1]);
}
