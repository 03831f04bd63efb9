//! Long texts with repeated parts.
use std::alloc::{AllocError, Global};

/// A piece of a repeated text: words, or a number.
#[derive(Clone, Copy)]
pub enum Piece {
    Words(&'static str),
    /// The number of the repetition.
    Here,
    /// The number of the next repetition.
    Next,
}

/// Pieces that are repeated with each number from the first up to the second.
pub type Part = (usize, usize, &'static [Piece]);

fn push(text: &mut String, piece: Piece, number: usize) -> Result<(), AllocError> {
    match piece {
        Piece::Words(words) => text.push_str(words),
        Piece::Here => write!(text, "{number}"),
        Piece::Next => {
            let next = number.saturating_add(1);
            write!(text, "{next}")
        }
    }
}

fn push_all(text: &mut String, pieces: &[Piece], number: usize) -> Result<(), AllocError> {
    for piece in pieces {
        push(text, *piece, number)?;
    }
    Ok(())
}

/// Returns the text of these parts.
pub fn text(alloc: Global, parts: &[Part]) -> Result<String, AllocError> {
    let mut text = String::new(alloc);
    for (first, end, pieces) in parts {
        for number in *first..*end {
            push_all(&mut text, pieces, number)?;
        }
    }
    Ok(text)
}
