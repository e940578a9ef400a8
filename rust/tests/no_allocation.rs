//! Reading, parsing, viewing and writing over lent words allocate nothing.

use std::alloc::{GlobalAlloc, Layout, System};
use std::sync::atomic::{AtomicUsize, Ordering};

use refal5::raw::{NODE_WORDS, TOKEN_WORDS, node_bound, token_bound};
use refal5::rows::{NodeKind, Tokens, Tree};

struct Counting;

static ALLOCATIONS: AtomicUsize = AtomicUsize::new(0);

// Sound: each call is handed on to the system's allocator as it came.
unsafe impl GlobalAlloc for Counting {
    unsafe fn alloc(&self, layout: Layout) -> *mut u8 {
        ALLOCATIONS.fetch_add(1, Ordering::Relaxed);
        unsafe { System.alloc(layout) }
    }

    unsafe fn dealloc(&self, pointer: *mut u8, layout: Layout) {
        unsafe { System.dealloc(pointer, layout) }
    }
}

#[global_allocator]
static COUNTING: Counting = Counting;

const SOURCE: &str = "$ENTRY Go { e.Text 'a''b' = <Prout (e.Text) 12>; }";

/// The bytes of all texts below a node.
fn texts(tree: Tree<'_>) -> usize {
    tree.items()
        .flat_map(|item| item.children())
        .flat_map(|sentence| sentence.children())
        .flat_map(|terms| terms.children())
        .map(|term| term.text().len())
        .sum()
}

#[test]
fn nothing_is_allocated() {
    let mut token_words = vec![0; token_bound(SOURCE.len()) * TOKEN_WORDS];
    let mut node_words = vec![0; node_bound(token_bound(SOURCE.len())) * NODE_WORDS];
    let mut text = vec![0; 200];

    let before = ALLOCATIONS.load(Ordering::Relaxed);
    let tokens = Tokens::read(SOURCE.as_bytes(), &mut token_words).unwrap();
    let spelled: usize = tokens.iter().map(|token| token.spelling().len()).sum();
    let tree = Tree::parse(tokens, &mut node_words).unwrap();
    let calls = tree
        .nodes()
        .filter(|node| node.kind() == NodeKind::Call && node.text() == "Prout")
        .count();
    let length = texts(tree);
    let written = tree.write_into(&mut text).unwrap().len();
    let same = refal5::identifiers_equal("Prout", "PROUT");
    let digits = refal5::raw::real(b"-0.150", &mut [0; 6], &mut [0; 3]).unwrap();
    let after = ALLOCATIONS.load(Ordering::Relaxed);

    assert!(same && spelled > 0 && written > 0);
    assert_eq!((calls, digits), (1, 2));
    assert_eq!(length, "Text".len() + "Prout".len());
    assert_eq!(after - before, 0);
}
