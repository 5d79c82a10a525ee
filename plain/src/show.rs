//! The canonical text of a model, by way of its tree.

use crate::lex::{max_bytes, Fault, FaultName};
use crate::model::Builder;
use crate::parse::Parser;
use crate::text::Text;
use crate::tree::{tell, Tree, TreeSink};

/// Reads the tree in `src` up to `end`, looks its names up and writes its text.
pub fn canonical(src: &[u8], end: usize) -> Result<Vec<u8>, Fault> {
    if end > max_bytes() {
        return Err(Fault {
            name: FaultName::TooLong,
            start: 0,
            end: 0,
        });
    }
    let tree = tree_of(src, end)?;
    look_up(&tree, src, end)?;
    Ok(text_of(&tree, src))
}

fn tree_of(src: &[u8], end: usize) -> Result<Tree, Fault> {
    let mut p = Parser::new(src, end, TreeSink::default());
    p.run()?;
    Ok(p.sink.tree)
}

/// Makes the model of a tree, for the faults of its names alone.
fn look_up(tree: &Tree, src: &[u8], end: usize) -> Result<(), Fault> {
    let mut b = Builder::new(src, end);
    tell(tree, &mut b);
    match b.fault {
        None => Ok(()),
        Some(f) => Err(f),
    }
}

fn text_of(tree: &Tree, src: &[u8]) -> Vec<u8> {
    let mut text = Text {
        src,
        out: Vec::new(),
    };
    tell(tree, &mut text);
    text.out
}
