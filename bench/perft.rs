// The yardstick of bench/chess_rules.sh: the same counts by a plain Rust program, unverified.
mod chess;

use chess::*;

fn lines(p: &Position, depth: u32) -> u64 {
    let moves = legal_moves(p);
    if depth <= 1 {
        return moves.len() as u64;
    }
    moves.iter().map(|m| lines(&after(p, m), depth - 1)).sum()
}

fn main() {
    let middle = position_of(b"r...k..rp.ppqpb.bn..pnp....PN....p..P.....N..Q.pPPPBBPPPR...K..R");
    for depth in 1..5 {
        println!("initial {depth} {}", lines(&initial(), depth));
    }
    for depth in 1..4 {
        println!("middle {depth} {}", lines(&middle, depth));
    }
}
