//! The calls that are timed.

fn form(constant: i16, index: [i8; 3]) -> Vec<u8> {
    let mut bytes = constant.to_le_bytes().to_vec();
    bytes.extend(index.map(|f| f as u8));
    bytes.extend([0; 4]);
    bytes
}

fn a_loop(lower: Vec<u8>, upper: Vec<u8>) -> Vec<u8> {
    a_loop_by(1, lower, upper)
}

fn a_loop_by(stride: i16, lower: Vec<u8>, upper: Vec<u8>) -> Vec<u8> {
    [vec![2, 2, 0, 1, 0], stride.to_le_bytes().to_vec(), lower, upper].concat()
}

/// Four loops of so many trips, each starting where the one around it stands.
fn slanted(trips: i16) -> Vec<u8> {
    let factors = [[0, 0, 0], [1, 0, 0], [0, 1, 0], [0, 0, 1]];
    factors.iter().flat_map(|f| a_loop(form(0, *f), form(trips - 1, *f))).collect()
}

/// A sheet, and the parameters that it is called with.
pub type Given = (Vec<u8>, [i16; 4]);

pub struct Timed {
    pub name: &'static str,
    /// The calls, one after another.
    pub given: Vec<Given>,
    /// Whether the trips can be gone through one by one.
    pub few_trips: bool,
}

/// One call at parameters 0.
fn one(name: &'static str, sheet: Vec<u8>) -> Timed {
    Timed { name, given: vec![(sheet, [0; 4])], few_trips: true }
}

fn bytes(hexadecimal: &str) -> Vec<u8> {
    (0..hexadecimal.len()).step_by(2).map(|i| u8::from_str_radix(&hexadecimal[i..i + 2], 16).expect("two digits")).collect()
}

/// The sheets with known figures, with parameter 1.
const KNOWN: [(&str, i16); 11] = [
    ("", 0),
    ("02020001000100000000000000000000090000000000000000010300050003", 0),
    ("0200000000010000000000000000000009000000000000000002000000000100000000000000000000ffff0100000000000001010001000303", 0),
    ("020000000001000100000000000000000700000000000000000200000000010000000100000000000002000000000000000001010001000303", 0),
    ("020000000001000000000000000000000900000000000000000200000000020000000000000000000000000100000000000001010001000303", 0),
    ("020000000002000000000000000000001200000000000000000200000000020000000000000000000000000100000000000001010001000303", 0),
    ("02000000000100000000000000000000090000000000000000020000000001000000010000000000000a000000000000000002000000000100fdff010000000000000700000100000000000101000100030303", 0),
    ("020000000001000100000000000000000000000000010000000200000000010000000100000000000000000000000100000001010001000303", 100),
    ("020000000001000100000000000000000000000000010000000200000000010000000100000000000000000000000100000001010001000303", 0),
    ("020000000001000000000000000000000900000000000000000402000000000100000000000000000000ffff010000000000000101000100030501040004000303", 0),
    ("02000000000300000000000000000000ffff00000000000000010100010003", 0),
];

/// i 0..99 over a choice of j 0..i over k 0..j, of j 0..i, and of straight work; the first arm as it is given.
fn three_ways(first_arm: impl Fn(Vec<u8>) -> Vec<u8>, straight: u8) -> Vec<u8> {
    let work = vec![1, 3, 0, 5, 0];
    let outer = a_loop(form(0, [0; 3]), form(99, [0; 3]));
    let growing = a_loop(form(0, [0; 3]), form(0, [1, 0, 0]));
    let deepest = a_loop(form(0, [0; 3]), form(0, [0, 1, 0]));
    let deep_arm = [growing.clone(), deepest, work.clone(), vec![3, 3]].concat();
    let arm = [growing, work, vec![3]].concat();
    [outer, vec![4], first_arm(deep_arm), vec![5], arm, vec![5, 1, straight, 0, straight, 0, 3, 3]].concat()
}

pub fn timed() -> Vec<Timed> {
    let work = vec![1, 3, 0, 5, 0];
    let triangle = [a_loop(form(0, [0; 3]), form(9, [0; 3])), a_loop(form(0, [0; 3]), form(-1, [1, 0, 0]))].concat();
    let walked = |trips: i16| [a_loop(form(0, [0; 3]), form(trips - 1, [0; 3])), vec![4]].concat();
    let inner = [a_loop(form(0, [0; 3]), form(0, [0; 3])), work.clone(), vec![3]].concat();
    let arm = [a_loop(form(0, [0; 3]), form(-1, [1, 0, 0])), work.clone(), vec![3, 5]].concat();
    let falling = [a_loop_by(-1, form(9, [0; 3]), form(0, [0; 3])), a_loop_by(-1, form(-1, [1, 0, 0]), form(0, [0; 3]))].concat();
    let halves = [a_loop(form(0, [0; 3]), form(9, [0; 3])), a_loop_by(2, form(0, [0; 3]), form(0, [1, 0, 0]))].concat();
    vec![
        one("empty sheet", vec![]),
        one("one loop of ten trips", [a_loop(form(0, [0; 3]), form(9, [0; 3])), work.clone(), vec![3]].concat()),
        one("triangle", [triangle, work.clone(), vec![3, 3]].concat()),
        one("triangle, counting down", [falling, work.clone(), vec![3, 3]].concat()),
        one("small walked nest", [halves, work.clone(), vec![3, 3]].concat()),
        Timed {
            name: "the 11 known calls, together",
            given: KNOWN.iter().map(|(sheet, p1)| (bytes(sheet), [*p1, 0, 0, 0])).collect(),
            few_trips: true,
        },
        one("64 works", work.repeat(64)),
        one("64 records, plan only", [slanted(0), vec![3; 4]].concat().repeat(8)),
        one("128 records, plan only", [slanted(0), vec![3; 4]].concat().repeat(16)),
        Timed {
            few_trips: false,
            ..one("64 records, four deep, 2^44 trips", [slanted(2048), work.repeat(56), vec![3; 4]].concat())
        },
        // two choices one in the other, so that no loop is ranked
        one("walked, 600,300 visits", [walked(300), walked(1000), vec![4], inner, vec![3; 5]].concat()),
        one("choices that hold loops", [walked(100), arm, work, vec![3; 2]].concat()),
        one("ranked nest, settled", three_ways(|arm| arm, 1)),
        // a choice in an arm that holds a loop bars ranking; its one arm takes what it took
        one("the same nest, walked", three_ways(|arm| [vec![4], arm, vec![3]].concat(), 1)),
        one("ranked nest, not settled", three_ways(|arm| arm, 100)),
    ]
}
