//! Linking: a rule file with the file that declares the tool's own functions, or any two.

mod bound;
mod names;
mod nearest;
mod words;

use std::error::Error;
use std::fmt;

use crate::diagnosis::Place;
use crate::rows::Tree;
use crate::{Refusal, raw};
use bound::{Relation, Unbound};
use names::{Names, Row};
use words::What;

/// The most problems that [`link_problems`] looks for.
pub const MOST_LINK_PROBLEMS: usize = 200;

/// Links two files: no two functions of both may have equal names, every call must name a function or a declared name of
/// either, and every variable must be bound where it is used. Gives the number of calls. Refusals 60, 61 and 62.
///
/// ```
/// use refal5::rows::{NodeRows, TokenRows};
///
/// let (mut token_rows, mut node_rows) = (TokenRows::new(), NodeRows::new());
/// let rules = node_rows.parse(token_rows.read(b"F { e1 = <Prnit <F e1>>; }")?)?;
/// let (mut token_rows, mut node_rows) = (TokenRows::new(), NodeRows::new());
/// let declarations = node_rows.parse(token_rows.read(b"$EXTRN Print;")?)?;
///
/// let error = refal5::link(rules, declarations).unwrap_err();
/// assert_eq!((error.refusal.number, error.shown.file, error.shown.name.as_str()), (61, 1, "Prnit"));
/// let nearest = error.other.unwrap();
/// assert_eq!((nearest.file, nearest.name.as_str(), nearest.place.column), (2, "Print", 8));
/// # Ok::<(), refal5::Refusal>(())
/// ```
pub fn link(one: Tree<'_>, two: Tree<'_>) -> Result<usize, Box<LinkError>> {
    let mut work = vec![0; raw::link_words(one.len() + two.len())];
    let texts = [one, two].map(|tree| tree.source().as_bytes());
    raw::link(one.words(), texts[0], two.words(), texts[1], &mut work).map_err(|refusal| {
        let first = link_problems(one, two).into_iter().next();
        let first = first.filter(|first| first.refusal == refusal);
        Box::new(first.expect("trees that parsing gave are refused at the first problem of theirs"))
    })
}

/// All that keeps two files from being linked, in the order of [`link`]'s checks: each function that has an earlier equal
/// one, then each name that is called and that nothing has, once, at its first call, then each variable that is used unbound,
/// once in a sentence. At most [`MOST_LINK_PROBLEMS`] are looked for.
pub fn link_problems(one: Tree<'_>, two: Tree<'_>) -> Vec<LinkError> {
    let names = Names::of(one, two);
    let repeated = names.repeated().map(|row| LinkError::repeated(&names, row));
    let missing = names.missing().map(|row| LinkError::missing(&names, row));
    let files = [(1, one), (2, two)].into_iter();
    let unbound = files.flat_map(|(file, tree)| bound::unbound(file, tree));
    repeated
        .chain(missing)
        .chain(unbound.map(LinkError::unbound))
        .take(MOST_LINK_PROBLEMS)
        .collect()
}

/// A name or a variable in one of the two files.
#[derive(Debug, Clone, PartialEq, Eq)]
pub struct Named {
    /// 1 or 2.
    pub file: u32,
    /// As it is spelled there.
    pub name: String,
    /// The name's own place.
    pub place: Place,
}

impl Named {
    /// A variable, as it is written.
    fn variable(row: Row<'_>) -> Self {
        let span = row.node.span();
        Self {
            file: row.file,
            name: row.source[span.start..span.end].into(),
            place: Place::of(row.source.as_bytes(), span),
        }
    }

    fn of(row: Row<'_>) -> Self {
        Self {
            file: row.file,
            name: row.node.text().into(),
            place: Place::of(row.source.as_bytes(), row.name_span()),
        }
    }
}

/// Why two files cannot be linked.
#[derive(Debug, Clone, PartialEq, Eq)]
pub struct LinkError {
    /// Its `found` is the file, its `span` that of the function (60), call (61) or variable (62).
    pub refusal: Refusal,
    /// The name of that function or call, or that variable as it is written.
    pub shown: Named,
    /// For 60 the first function of an equal name; for 61 the function's or declared name that is spelled most alike, if one
    /// is alike; for 62 the same variable where it is bound without being in force at the use, or else the one in force that
    /// is spelled most alike, if there is one.
    pub other: Option<Named>,
    /// Whether `other` is only spelled alike.
    pub is_nearest: bool,
    /// How many calls have the name that is missing; 0 for 60 and 62.
    pub calls: usize,
    /// What is wrong, without the places.
    pub message: String,
    /// What to do, in one sentence.
    pub advice: String,
}

/// The refusal by a number at a row.
fn refused(number: u32, row: Row<'_>) -> Refusal {
    Refusal {
        number,
        expected: 0,
        found: row.file,
        span: row.node.span(),
        need: 0,
    }
}

impl LinkError {
    fn of(refusal: Refusal, what: What, shown: Named, other: Option<Named>) -> Self {
        Self {
            message: words::message(what, &shown, other.as_ref()),
            advice: words::advice(what, &shown, other.as_ref()),
            is_nearest: matches!(what, What::Missing | What::Unbound(Some(Relation::Alike))),
            calls: 0,
            refusal,
            shown,
            other,
        }
    }

    fn repeated(names: &Names<'_>, row: Row<'_>) -> Self {
        let other = names.first_function(row).map(Named::of);
        Self::of(refused(60, row), What::Repeated, Named::of(row), other)
    }

    fn missing(names: &Names<'_>, row: Row<'_>) -> Self {
        let other = names.nearest(row).map(Named::of);
        Self {
            calls: names.calls(row),
            ..Self::of(refused(61, row), What::Missing, Named::of(row), other)
        }
    }

    fn unbound(unbound: Unbound<'_>) -> Self {
        let Unbound { row, other } = unbound;
        let what = What::Unbound(other.map(|(_, relation)| relation));
        let other = other.map(|(row, _)| Named::variable(row));
        Self::of(refused(62, row), what, Named::variable(row), other)
    }
}

impl fmt::Display for LinkError {
    /// What is wrong and both places, on one line.
    fn fmt(&self, out: &mut fmt::Formatter<'_>) -> fmt::Result {
        let Named { file, place, .. } = &self.shown;
        write!(out, "file {file}, {place}: {}", self.message)?;
        let Some(Named { file, name, place }) = &self.other else {
            return Ok(());
        };
        match self.refusal.number {
            60 => write!(out, "; the first, file {file}, {place}"),
            61 => write!(out, "; the nearest name is `{name}`, file {file}, {place}"),
            _ if self.is_nearest => write!(out, "; the nearest is `{name}`, file {file}, {place}"),
            _ => write!(out, "; matched in file {file}, {place}"),
        }
    }
}

impl Error for LinkError {}
