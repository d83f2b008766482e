//! Comparing: two terms in two areas, a work area and a fuel.

pub struct Row {
    pub name: String,
    pub terms: [&'static str; 2],
    pub areas: [usize; 2],
    pub work: usize,
    pub fuel: u64,
    /// `number@place`, `same`, `different` or `undecided`.
    pub reply: &'static str,
    /// The terms afterwards; not looked at after a refusal.
    pub after: [&'static str; 2],
}

type Terms = [&'static str; 2];

fn row(terms: Terms, areas: [usize; 2], work: usize, fuel: u64, reply: &'static str, after: Terms) -> Row {
    let [first, second] = terms;
    let name = format!("{first} and {second} in {areas:?} work {work} fuel {fuel} is {reply}");
    Row { name, terms, areas, work, fuel, reply, after }
}

fn ample(terms: Terms, fuel: u64, reply: &'static str, after: Terms) -> Row {
    row(terms, [50, 60], 70, fuel, reply, after)
}

fn refused(terms: Terms, areas: [usize; 2], work: usize, fuel: u64, reply: &'static str) -> Row {
    row(terms, areas, work, fuel, reply, ["", ""])
}

pub fn rows() -> Vec<Row> {
    [answers(), bells(), refusals()].into_iter().flatten().collect()
}

fn answers() -> Vec<Row> {
    vec![
        ample([".BII.JRJ", ".II"], 1, "undecided", [".BIIHJRJ", "I"]),
        ample([".II", ".BII.JRJ"], 1, "undecided", ["I", ".BIIHJRJ"]),
        ample([".BII.JRJ", ".IJ"], 6, "same", ["J", "J"]),
        ample([".BII.JRJ", ".IJ"], 5, "undecided", [".IJ", "J"]),
        ample([".BII.JRJ", ".II"], 6, "different", ["J", "I"]),
        ample(["J", "J"], 0, "same", ["J", "J"]),
        ample(["J", "RJ"], 0, "different", ["J", "RJ"]),
        ample(["RJ", "J"], 0, "different", ["RJ", "J"]),
        ample(["HJI", "HJJ"], 0, "different", ["HJI", "HJJ"]),
        ample(["J", ".IJ"], 0, "undecided", ["J", ".IJ"]),
        ample([".IJ", ".IJ"], 0, "undecided", [".IJ", ".IJ"]),
        row([".BII.JRJ", "J"], [11, 1], 11, 1_000_000, "undecided", [".BIIHJRJ", "J"]),
        row(["J", ".BII.JRJ"], [1, 11], 11, 1_000_000, "undecided", ["J", ".BIIHJRJ"]),
        row(["J", ".BII.JRJ"], [1, 12], 12, 1_000_000, "same", ["J", "J"]),
        row([".BIIABJIRJ", "ABIIRJ"], [30, 6], 100, 10, "same", ["ABIIRJ", "ABIIRJ"]),
    ]
}

/// Results with bells in them.
fn bells() -> Vec<Row> {
    vec![
        ample(["1", "1"], 0, "same", ["1", "1"]),
        ample(["1", "2"], 0, "different", ["1", "2"]),
        ample(["E", "T"], 0, "different", ["E", "T"]),
        ample(["0", "J"], 0, "different", ["0", "J"]),
        ample(["I", "1"], 0, "different", ["I", "1"]),
        ample(["1", ".BJI1"], 1, "same", ["1", "1"]),
        ample(["1", ".BJI1"], 0, "undecided", ["1", ".BJI1"]),
        ample([".AI1J", ".I1"], 2, "same", ["1", "1"]),
        ample([".AI1J", ".I1"], 1, "undecided", [".BJI1", "1"]),
        ample([".1J", "H1J"], 1, "same", ["H1J", "H1J"]),
        ample([".1J", ".2J"], 1, "different", ["H1J", "H2J"]),
        ample([".1T", ".T1"], 1, "different", ["H1T", "HT1"]),
        ample([".BJI.1T", ".1T"], 5, "same", ["H1T", "H1T"]),
        ample(["BEB0I", "BEB9I"], 0, "different", ["BEB0I", "BEB9I"]),
        row([".BJI.1T", "T"], [10, 1], 10, 100, "undecided", [".BJIH1T", "T"]),
        refused(["1K", "1"], [3, 5], 5, 5, "7@1"),
        refused(["1", "HK"], [3, 5], 5, 5, "5@1"),
        refused(["1", "H1"], [3, 5], 5, 5, "6@2"),
        refused(["K", "12"], [3, 5], 5, 5, "5@0"),
    ]
}

fn refusals() -> Vec<Row> {
    vec![
        refused(["xJ", "J"], [2, 16_385], 16_385, 5, "5@0"),
        refused(["J", "J"], [1, 16_385], 16_385, 1_000_001, "4@0"),
        refused(["J", "J"], [1, 16_385], 16_385, 5, "1@0"),
        refused(["J", "J"], [16_385, 1], 16_385, 5, "1@0"),
        refused(["J", "J"], [5, 3], 4, 5, "2@0"),
        refused(["J", "J"], [3, 5], 4, 5, "2@0"),
        refused(["RJJ", "J"], [3, 5], 4, 5, "7@2"),
        refused(["RR", "J"], [3, 5], 4, 5, "6@2"),
        refused(["JJJJ", "J"], [3, 5], 5, 5, "3@0"),
        refused(["J", "JJJJJJ"], [3, 5], 5, 5, "3@0"),
        refused(["J", "JJJJJJ"], [3, 5], 4, 5, "2@0"),
        refused(["J", "JJJJJJ"], [3, 5], 5, 1_000_001, "4@0"),
        refused(["JJJJ", "xJ"], [3, 5], 5, 1_000_001, "3@0"),
        refused(["J", "Rx"], [3, 5], 5, 5, "5@1"),
        refused(["J", "HJ"], [3, 5], 5, 5, "6@2"),
        refused(["J", "JJ"], [3, 5], 5, 5, "7@1"),
        refused(["J", ""], [3, 5], 5, 5, "6@0"),
        refused(["", "xJ"], [3, 5], 5, 5, "6@0"),
        refused(["", ""], [0, 0], 0, 5, "6@0"),
        refused(["xJ", "JJ"], [3, 5], 5, 5, "5@0"),
        refused([".BII.JRJ", "JJ"], [30, 5], 50, 5, "7@1"),
    ]
}
