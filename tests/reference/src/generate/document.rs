//! The paper's own certificates: its example file, K1 to K12, and the list to
//! be run; and the closed, unsafe one of `examples/`.

use super::model::{Model, Side, Tree};

/// The paper's example file, letter by letter.
pub const EXAMPLE: &str = "budget=1000
arities=0,1,1
states=4
final=1
trans=5
t=0,0
t=2,0,1
t=1,0,2
t=1,2,3
t=2,3,1
badstates=3
badfinal=2
badtrans=3
u=0,0
u=1,0,1
u=2,1,2
rules=1
l=2,x0
r=2,1,1,x0
merge=0,1,2,0
";

/// An unsafe system whose merging is closed all the same: A accepts the tree 0
/// alone, one step leads to 1(0), and B accepts that.
pub const CLOSED_UNSAFE: &str = "budget=1
arities=0,1
states=2
final=0
trans=2
t=0,0
t=1,0,1
badstates=2
badfinal=1
badtrans=2
u=0,0
u=1,0,1
rules=1
l=0
r=1,0
merge=0,0
";

/// The example with pieces of text replaced.
fn changed(changes: &[(&str, &str)]) -> Vec<u8> {
    let mut text = EXAMPLE.to_string();
    for (old, new) in changes {
        assert_eq!(text.matches(old).count(), 1, "{old:?} must stand once");
        text = text.replace(old, new);
    }
    text.into_bytes()
}

const RULE: &str = "rules=1\nl=2,x0\nr=2,1,1,x0\n";
const MERGE: &str = "merge=0,1,2,0\n";
const BUDGET: &str = "budget=1000\n";

/// K1 to K12; K8 has two parts.
pub fn proved() -> Vec<(&'static str, Vec<u8>)> {
    vec![
        ("K1", changed(&[])),
        ("K2", changed(&[(MERGE, "merge=0,1,2,3\n")])),
        ("K3", changed(&[(MERGE, "merge=0,0,0,0\n")])),
        ("K4", changed(&[(MERGE, "merge=0,1,1,2\n")])),
        ("K5", changed(&[(MERGE, "merge=0,1,2,2\n")])),
        ("K6", changed(&[(BUDGET, "budget=3\n")])),
        ("K7", changed(&[(BUDGET, "budget=2\n")])),
        (
            "K8 with 3",
            changed(&[(MERGE, "merge=0,1,2,3\n"), (BUDGET, "budget=3\n")]),
        ),
        (
            "K8 with 4",
            changed(&[(MERGE, "merge=0,1,2,3\n"), (BUDGET, "budget=4\n")]),
        ),
        (
            "K9",
            changed(&[(RULE, "rules=0\n"), (BUDGET, "budget=0\n")]),
        ),
        ("K10", changed(&[(RULE, "rules=1\nl=1,x0\nr=x0\n")])),
        ("K11", changed(&[(RULE, "rules=1\nl=0\nr=2,0\n")])),
        (
            "K12",
            changed(&[(RULE, "rules=2\nl=2,x0\nr=2,1,1,x0\nl=1,x0\nr=x0\n")]),
        ),
    ]
}

/// The list marked "Run".
pub fn run() -> Vec<(&'static str, Vec<u8>)> {
    vec![
        ("merge=0,2,1,0", changed(&[(MERGE, "merge=0,2,1,0\n")])),
        ("merge=0,1,2", changed(&[(MERGE, "merge=0,1,2\n")])),
        ("l=2,x1", changed(&[("l=2,x0\n", "l=2,x1\n")])),
        ("r=2,1", changed(&[("r=2,1,1,x0\n", "r=2,1\n")])),
        ("r=2,x1", changed(&[("r=2,1,1,x0\n", "r=2,x1\n")])),
        ("final=1,1", changed(&[("\nfinal=1\n", "\nfinal=1,1\n")])),
        ("final=4", changed(&[("\nfinal=1\n", "\nfinal=4\n")])),
    ]
}

fn on(symbol: u32, under: &[Tree]) -> Tree {
    Tree::Symbol(symbol, under.to_vec())
}

fn x(variable: u32) -> Tree {
    Tree::Variable(variable)
}

/// The example as a model.
pub fn example() -> Model {
    let row = |numbers: &[u32]| numbers.to_vec();
    Model {
        budget: 1000,
        arities: vec![0, 1, 1],
        a: Side {
            states: 4,
            finals: vec![1],
            rows: vec![
                row(&[0, 0]),
                row(&[2, 0, 1]),
                row(&[1, 0, 2]),
                row(&[1, 2, 3]),
                row(&[2, 3, 1]),
            ],
        },
        b: Side {
            states: 3,
            finals: vec![2],
            rows: vec![row(&[0, 0]), row(&[1, 0, 1]), row(&[2, 1, 2])],
        },
        rules: vec![(on(2, &[x(0)]), on(2, &[on(1, &[on(1, &[x(0)])])]))],
        merge: vec![0, 1, 2, 0],
    }
}

/// A second sound file with longer lines: symbols of every arity, several
/// final states, two rules of several variables.
pub fn wider() -> Model {
    let row = |numbers: &[u32]| numbers.to_vec();
    let pair = |first: Tree, second: Tree| on(2, &[first, second]);
    Model {
        budget: 5000,
        arities: vec![0, 1, 2, 3, 0],
        a: Side {
            states: 5,
            finals: vec![1, 3, 4],
            rows: vec![
                row(&[0, 0]),
                row(&[4, 1]),
                row(&[1, 0, 2]),
                row(&[2, 0, 1, 3]),
                row(&[3, 2, 1, 0, 4]),
                row(&[2, 1, 0, 3]),
            ],
        },
        b: Side {
            states: 4,
            finals: vec![2, 3],
            rows: vec![
                row(&[0, 0]),
                row(&[2, 1, 1, 2]),
                row(&[3, 0, 0, 1, 3]),
                row(&[1, 3, 1]),
            ],
        },
        rules: vec![
            (pair(x(0), x(1)), pair(x(1), x(0))),
            (
                on(3, &[x(0), pair(x(1), on(0, &[])), x(2)]),
                on(3, &[x(2), pair(x(0), x(0)), on(1, &[x(1)])]),
            ),
        ],
        merge: vec![0, 1, 2, 1, 3],
    }
}
