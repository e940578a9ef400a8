//! 02, card 5: a walk over each sentence with a list of what is bound. Every list of children is
//! made anew, every bound variable is compared.

use super::names::indices_equal;
use crate::terms::{NodeRow, node};

/// The first Variable, in row order, that is used where no equal one is bound.
pub fn first_unbound(rows: &[NodeRow], src: &[u8]) -> Option<usize> {
    let walk = Walk { rows, src };
    let functions = walk.from(0, rows.len());
    let mut functions = functions
        .into_iter()
        .filter(|&at| walk.kind(at) == node::FUNCTION);
    functions.find_map(|at| walk.sentences(&walk.children(at), &[]).err())
}

struct Walk<'a> {
    rows: &'a [NodeRow],
    src: &'a [u8],
}

/// A variable's letter and index.
type Variable<'a> = (u32, &'a [u8]);

impl<'a> Walk<'a> {
    fn kind(&self, at: usize) -> u32 {
        self.rows[at][0]
    }

    fn next(&self, at: usize) -> usize {
        self.rows[at][6] as usize
    }

    fn from(&self, mut at: usize, end: usize) -> Vec<usize> {
        let mut all = Vec::new();
        while at < end {
            all.push(at);
            at = self.next(at);
        }
        all
    }

    fn children(&self, at: usize) -> Vec<usize> {
        self.from(at + 1, self.next(at))
    }

    /// The variables at all levels below a row, those inside calls too.
    fn variables(&self, at: usize) -> impl Iterator<Item = (usize, Variable<'a>)> + '_ {
        let variables = (at..self.next(at)).filter(|&at| self.kind(at) == node::VARIABLE);
        variables.map(|at| {
            let word = |column: usize| self.rows[at][column] as usize;
            let index = &self.src[word(2)..word(2) + word(3)];
            (at, (self.rows[at][1], index))
        })
    }

    fn bind(&self, terms: usize, bound: &mut Vec<Variable<'a>>) {
        bound.extend(self.variables(terms).map(|(_, variable)| variable));
    }

    /// Terms that may hold only what is bound: the row of the first variable that is not.
    fn check(&self, terms: usize, bound: &[Variable<'_>]) -> Result<(), usize> {
        let equal = |a: &Variable, b: &Variable| a.0 == b.0 && indices_equal(a.1, b.1);
        let is_bound = |variable: &Variable| bound.iter().any(|other| equal(variable, other));
        let unbound = self
            .variables(terms)
            .find(|(_, variable)| !is_bound(variable));
        unbound.map_or(Ok(()), |(at, _)| Err(at))
    }

    /// Each sentence begins with what is bound before all of them.
    fn sentences(&self, sentences: &[usize], bound: &[Variable<'a>]) -> Result<(), usize> {
        let mut sentences = sentences.iter();
        sentences.try_for_each(|&at| self.sentence(at, bound.to_vec()))
    }

    fn sentence(&self, at: usize, mut bound: Vec<Variable<'a>>) -> Result<(), usize> {
        let parts = self.children(at);
        self.bind(parts[0], &mut bound);
        for &part in &parts[1..] {
            let inner = self.children(part);
            match self.kind(part) {
                node::CONDITION => {
                    self.check(inner[0], &bound)?;
                    if self.kind(inner[1]) == node::TERMS {
                        self.bind(inner[1], &mut bound);
                    } else {
                        self.sentences(&self.children(inner[1]), &bound)?;
                    }
                }
                node::ENDING_BLOCK => {
                    self.check(inner[0], &bound)?;
                    self.sentences(&inner[1..], &bound)?;
                }
                _ => self.check(part, &bound)?,
            }
        }
        Ok(())
    }
}
