// The rules of chess for the yardsticks of bench/chess_rules.sh and bench/chess_text.sh, in plain Rust, unverified, with the
// data of the crate chess_rules and its method: each square that a piece may reach is asked for, and a copy of the board is
// played for each move.
#![allow(dead_code)] // each yardstick uses a part

#[derive(Clone, Copy, PartialEq)]
pub enum Kind {
    Pawn,
    Rook,
    Knight,
    Bishop,
    King,
    Queen,
}

#[derive(Clone, Copy, PartialEq)]
pub enum Side {
    White,
    Black,
}

pub type Piece = Option<(Side, Kind)>;

#[derive(Clone, Copy)]
pub struct Position {
    pub board: [Piece; 64],
    pub side: Side,
    pub rights: [bool; 4],
    pub target: Option<usize>,
}

#[derive(Clone, Copy)]
pub struct Move {
    pub from: usize,
    pub to: usize,
    pub promotion: Option<Kind>,
}

// White's king side and queen side, then Black's: king's home, rook's home, king's target, crossed square
pub const CASTLING: [(usize, usize, usize, usize); 4] =
    [(60, 63, 62, 61), (60, 56, 58, 59), (4, 7, 6, 5), (4, 0, 2, 3)];
const LINES: [(i32, i32); 8] = [(0, -1), (0, 1), (1, 0), (-1, 0), (1, -1), (-1, -1), (1, 1), (-1, 1)];
const JUMPS: [(i32, i32); 8] = [(1, 2), (2, 1), (-1, 2), (-2, 1), (1, -2), (2, -1), (-1, -2), (-2, -1)];

pub fn other(side: Side) -> Side {
    if side == Side::White { Side::Black } else { Side::White }
}

fn forward(side: Side) -> i32 {
    if side == Side::White { -1 } else { 1 }
}

fn at(square: usize, step: (i32, i32), n: i32) -> Option<usize> {
    let file = square as i32 % 8 + n * step.0;
    let row = square as i32 / 8 + n * step.1;
    if (0..8).contains(&file) && (0..8).contains(&row) { Some((8 * row + file) as usize) } else { None }
}

fn is_attacked(board: &[Piece; 64], by: Side, square: usize) -> bool {
    for step in JUMPS {
        if let Some(from) = at(square, step, 1) {
            if board[from] == Some((by, Kind::Knight)) {
                return true;
            }
        }
    }
    for step in LINES {
        let mut n = 1;
        while let Some(from) = at(square, step, n) {
            if let Some((side, kind)) = board[from] {
                let straight = step.0 == 0 || step.1 == 0;
                let hits = match kind {
                    Kind::Queen => true,
                    Kind::Rook => straight,
                    Kind::Bishop => !straight,
                    Kind::King => n == 1,
                    Kind::Pawn => !straight && n == 1 && step.1 == -forward(by),
                    Kind::Knight => false,
                };
                if side == by && hits {
                    return true;
                }
                break;
            }
            n += 1;
        }
    }
    false
}

pub fn in_check(board: &[Piece; 64], side: Side) -> bool {
    match board.iter().position(|piece| *piece == Some((side, Kind::King))) {
        Some(king) => is_attacked(board, other(side), king),
        None => false,
    }
}

fn is_clear(board: &[Piece; 64], from: usize, to: usize) -> bool {
    let files = to as i32 % 8 - from as i32 % 8;
    let rows = to as i32 / 8 - from as i32 / 8;
    let step = (files.signum(), rows.signum());
    (1..files.abs().max(rows.abs())).all(|n| at(from, step, n).is_some_and(|s| board[s].is_none()))
}

fn goes(p: &Position, m: &Move) -> bool {
    let Some((side, kind)) = p.board[m.from] else { return false };
    if side != p.side || p.board[m.to].is_some_and(|(s, _)| s == side) {
        return false;
    }
    let files = m.to as i32 % 8 - m.from as i32 % 8;
    let rows = m.to as i32 / 8 - m.from as i32 / 8;
    let last = if side == Side::White { 0 } else { 7 };
    if (kind == Kind::Pawn && m.to / 8 == last) != m.promotion.is_some() {
        return false;
    }
    match kind {
        Kind::Pawn => {
            let ahead = rows * forward(side);
            let second = if side == Side::White { 6 } else { 1 };
            match (files.abs(), ahead) {
                (0, 1) => p.board[m.to].is_none(),
                (0, 2) => m.from / 8 == second && p.board[m.to].is_none() && is_clear(&p.board, m.from, m.to),
                (1, 1) => p.board[m.to].is_some() || p.target == Some(m.to),
                _ => false,
            }
        }
        Kind::Knight => files.abs() * rows.abs() == 2,
        Kind::Rook => (files == 0 || rows == 0) && is_clear(&p.board, m.from, m.to),
        Kind::Bishop => files.abs() == rows.abs() && is_clear(&p.board, m.from, m.to),
        Kind::Queen => (files == 0 || rows == 0 || files.abs() == rows.abs()) && is_clear(&p.board, m.from, m.to),
        Kind::King => {
            if files.abs() <= 1 && rows.abs() <= 1 {
                return true;
            }
            let first = if side == Side::White { 0 } else { 2 };
            (first..first + 2).any(|wing| {
                let (king, rook, target, crossed) = CASTLING[wing];
                p.rights[wing]
                    && m.from == king
                    && m.to == target
                    && is_clear(&p.board, king, rook)
                    && ![king, crossed, target].iter().any(|s| is_attacked(&p.board, other(side), *s))
            })
        }
    }
}

pub fn after(p: &Position, m: &Move) -> Position {
    let mut next = *p;
    let piece = p.board[m.from];
    let kind = piece.map(|(_, kind)| kind);
    next.board[m.from] = None;
    next.board[m.to] = piece.map(|(side, kind)| (side, m.promotion.unwrap_or(kind)));
    if kind == Some(Kind::Pawn) && m.from % 8 != m.to % 8 && p.board[m.to].is_none() {
        next.board[m.from / 8 * 8 + m.to % 8] = None;
    }
    if kind == Some(Kind::King) && m.from.abs_diff(m.to) == 2 {
        for (_, rook, target, crossed) in CASTLING {
            if target == m.to {
                next.board[rook] = None;
                next.board[crossed] = Some((p.side, Kind::Rook));
            }
        }
    }
    for (wing, (king, rook, _, _)) in CASTLING.iter().enumerate() {
        if [m.from, m.to].iter().any(|s| s == king || s == rook) {
            next.rights[wing] = false;
        }
    }
    let double = kind == Some(Kind::Pawn) && m.from.abs_diff(m.to) == 16;
    next.target = if double { Some((m.from + m.to) / 2) } else { None };
    next.side = other(p.side);
    next
}

pub fn is_legal(p: &Position, m: &Move) -> bool {
    goes(p, m) && !in_check(&after(p, m).board, p.side)
}

pub fn legal_moves(p: &Position) -> Vec<Move> {
    let mut moves = Vec::new();
    let last = if p.side == Side::White { 0 } else { 7 };
    for from in 0..64 {
        let Some((side, kind)) = p.board[from] else { continue };
        if side != p.side {
            continue;
        }
        for to in 0..64 {
            let promotes = kind == Kind::Pawn && to / 8 == last;
            let m = Move { from, to, promotion: if promotes { Some(Kind::Queen) } else { None } };
            if !is_legal(p, &m) {
                continue;
            }
            moves.push(m);
            if promotes {
                moves.extend([Kind::Rook, Kind::Bishop, Kind::Knight].map(|kind| Move { promotion: Some(kind), ..m }));
            }
        }
    }
    moves
}

// The position of these pieces, from a8 to h1, White to move with every castling right.
pub fn position_of(pieces: &[u8; 64]) -> Position {
    let board = pieces.map(|letter| {
        let side = if letter.is_ascii_uppercase() { Side::White } else { Side::Black };
        if letter == b'.' { None } else { Some((side, kind_of(letter.to_ascii_uppercase()))) }
    });
    Position { board, side: Side::White, rights: [true; 4], target: None }
}

pub fn initial() -> Position {
    position_of(b"rnbqkbnrpppppppp................................PPPPPPPPRNBQKBNR")
}

pub fn kind_of(letter: u8) -> Kind {
    match letter {
        b'K' => Kind::King,
        b'Q' => Kind::Queen,
        b'R' => Kind::Rook,
        b'B' => Kind::Bishop,
        b'N' => Kind::Knight,
        _ => Kind::Pawn,
    }
}
