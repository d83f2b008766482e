//! Stepping: an area, a length, a work area; the reply and the term that stands in the area afterwards.

pub struct Row {
    pub name: String,
    pub area: Vec<u8>,
    pub term: usize,
    pub work: Vec<u8>,
    /// `number@place`, `normal`, `no room` or `rule n`.
    pub reply: String,
    /// The term afterwards, zeros behind it; not looked at after a refusal, which changes nothing.
    pub after: Vec<u8>,
}

fn lent(name: &str, area: &[u8], term: usize, work: &[u8], reply: &str, after: &str) -> Row {
    let (area, work) = (area.to_vec(), work.to_vec());
    Row { name: name.to_string(), area, term, work, reply: reply.to_string(), after: after.into() }
}

/// A term in an area of the given size, other bytes behind it, and a work area of the same size.
fn stepped(term: &str, size: usize, reply: &str, after: &str) -> Row {
    let mut area = term.as_bytes().to_vec();
    area.resize(size, b'#');
    lent(&format!("{term} in area {size} is {reply}"), &area, term.len(), &vec![b'%'; size], reply, after)
}

pub fn rows() -> Vec<Row> {
    let groups =
        [refusals(), order_of_refusals(), rules(), order(), rooms(), rules_of_bells(), bells(), rooms_of_bells()];
    groups.into_iter().flatten().collect()
}

fn refusals() -> Vec<Row> {
    let (area, over) = (vec![b'J'; 16_384], vec![b'J'; 16_385]);
    vec![
        lent("area of 16,385 bytes", &over, 1, &over, "1@0", ""),
        lent("area of 16,384 bytes", &area, 1, &area, "normal", "J"),
        lent("work one byte shorter than the area", &area, 1, &area[1..], "2@0", ""),
        lent("work empty", b"J", 1, b"", "2@0", ""),
        lent("length one over the area", b"JJJ", 4, b"yyy", "3@0", ""),
        lent("length at the top of its type", b"JJJ", usize::MAX, b"yyy", "3@0", ""),
        lent("length one below the top of its type", b"JJJ", usize::MAX - 1, b"yyy", "3@0", ""),
        lent("length 2^63", b"JJJ", 1 << 63, b"yyy", "3@0", ""),
        lent("length 2^32 and 1", b"JJJ", (1 << 32) + 1, b"yyy", "3@0", ""),
        lent("length 2^16 and 1", b"JJJ", (1 << 16) + 1, b"yyy", "3@0", ""),
        lent("length 257 in an area of 3", b"JJJ", 257, b"yyy", "3@0", ""),
        lent("area 0, length 0, work 0", b"", 0, b"", "6@0", ""),
        lent("area 0, length 0, work 3", b"", 0, b"yyy", "6@0", ""),
        lent("area 0, length 1", b"", 1, b"", "3@0", ""),
        lent("area 3, length 0", b"JJJ", 0, b"yyy", "6@0", ""),
        lent("a second term in the length", b"JJX", 2, b"yyy", "7@1", ""),
        lent("a byte that is no letter", b"RxX", 2, b"yyy", "5@1", ""),
        lent("a term cut by its length", b".IJ", 2, b"yyy", "6@2", ""),
    ]
}

fn order_of_refusals() -> Vec<Row> {
    let over = vec![b'x'; 16_385];
    vec![
        lent("1 before 2", &over, 1, b"", "1@0", ""),
        lent("1 before 3", &over, 16_386, &over, "1@0", ""),
        lent("1 before 5", &over, 1, &over, "1@0", ""),
        lent("2 before 3", b"JJJ", 4, b"yy", "2@0", ""),
        lent("2 before 5", b"xJJ", 1, b"yy", "2@0", ""),
        lent("3 before 5", b"xJJ", 4, b"yyy", "3@0", ""),
    ]
}

/// Rules 1 to 11 at the term itself.
fn rules() -> Vec<Row> {
    vec![
        stepped(".JI", 3, "rule 1", "HJI"),
        stepped(".RJI", 4, "rule 2", "HRJI"),
        stepped(".HJII", 5, "rule 3", "HHJII"),
        stepped(".AIJRJ", 6, "rule 4", ".BRJIJ"),
        stepped(".ABJIHJRJI", 10, "rule 4", ".BIBJIHJRJ"),
        stepped(".IRJ", 4, "rule 5", "RJ"),
        stepped(".BRJIJ", 6, "rule 6", "RJ"),
        stepped(".BJBRJIRRJ", 10, "rule 7", ".BRJIRJ"),
        stepped(".BJIHRJI", 12, "rule 8", "..BJIRJ.BJII"),
        stepped(".BJIARJHJJ", 10, "rule 9", "A.BJIRJHJJ"),
        stepped(".BJII", 5, "rule 10", "I"),
        stepped(".BJIBRJI", 12, "rule 11", "B.BJIRJ.BJII"),
    ]
}

/// Where the step is, if not at the term itself.
fn order() -> Vec<Row> {
    vec![
        stepped("R.II", 4, "rule 5", "RI"),
        stepped("H.IJ.II", 7, "rule 5", "HJ.II"),
        stepped("HJ.II", 5, "rule 5", "HJI"),
        stepped("A.II.IJ", 7, "rule 5", "AI.IJ"),
        stepped("AI.IJ", 5, "rule 5", "AIJ"),
        stepped("B.JI.II", 7, "rule 1", "BHJI.II"),
        stepped("..IJ.II", 7, "rule 5", ".J.II"),
        stepped(".J.II", 5, "rule 1", "HJ.II"),
        stepped(".R.II.IJ", 8, "rule 2", "HR.II.IJ"),
        stepped(".HJ.IJ.II", 9, "rule 3", "HHJ.IJ.II"),
        stepped(".A.IIJ.IJ", 9, "rule 4", ".B.IJ.IIJ"),
        stepped(".I.IJ", 5, "rule 5", ".IJ"),
        stepped(".BII.IJ", 7, "rule 5", ".BIIJ"),
        stepped(".B.IJIJ", 7, "rule 6", ".IJ"),
        stepped(".B.IJ.IIR.IJ", 12, "rule 7", "..II.IJ"),
        stepped(".B.AIHJJAIHJJI.II", 17, "rule 5", ".B.AIHJJAIHJJII"),
        stepped(".B.AIHJJAIHJJII", 15, "rule 10", "I"),
        stepped(".BJIA.IJ.IJ", 11, "rule 9", "A.BJI.IJ.IJ"),
        stepped("...IIIJ", 7, "rule 5", "..IIJ"),
        stepped("HRHJI.B.III.II", 14, "rule 5", "HRHJI.B.IIII"),
    ]
}

/// Normal and no room are answers: the term stays, zeros behind it and in the whole work area.
fn rooms() -> Vec<Row> {
    vec![
        lent("JXX, length 1, work yyy", b"JXX", 1, b"yyy", "normal", "J"),
        lent("work longer than the area", b"JX", 1, &[b'y'; 100], "normal", "J"),
        lent("work of 100,000 bytes", b".IJX", 3, &vec![b'y'; 100_000], "rule 5", "J"),
        stepped("AIRJ", 9, "normal", "AIRJ"),
        stepped(".BIIHJJ", 7, "no room", ".BIIHJJ"),
        stepped(".BIIHJJ", 10, "no room", ".BIIHJJ"),
        stepped(".BIIHJJ", 11, "rule 8", "..BIIJ.BIIJ"),
        stepped(".BIIBJJ", 10, "no room", ".BIIBJJ"),
        stepped(".BIIBJJ", 11, "rule 11", "B.BIIJ.BIIJ"),
        stepped(".BRJBJIHJJ", 16, "no room", ".BRJBJIHJJ"),
        stepped(".BRJBJIHJJ", 17, "rule 8", "..BRJBJIJ.BRJBJIJ"),
        stepped("R.BIIHJJ", 11, "no room", "R.BIIHJJ"),
        stepped("R.BIIHJJ", 12, "rule 8", "R..BIIJ.BIIJ"),
    ]
}

/// Rules 12 and 13 at the term itself, for each of the twelve bells.
fn rules_of_bells() -> Vec<Row> {
    let mut rows = vec![];
    for k in "1234567890ET".chars() {
        rows.push(stepped(&format!(".{k}J"), 3, "rule 12", &format!("H{k}J")));
        rows.push(stepped(&format!(".{k}{k}"), 4, "rule 12", &format!("H{k}{k}")));
        rows.push(stepped(&format!(".BJI{k}"), 5, "rule 13", &k.to_string()));
        rows.push(stepped(&format!(".B{k}{k}{k}"), 6, "rule 13", &k.to_string()));
    }
    rows
}

/// Bells in each place of each rule, and where the step is.
fn bells() -> Vec<Row> {
    vec![
        stepped("1", 1, "normal", "1"),
        stepped("H1T", 5, "normal", "H1T"),
        stepped("BEB0I", 5, "normal", "BEB0I"),
        stepped("A1R2", 4, "normal", "A1R2"),
        stepped(".1.II", 5, "rule 12", "H1.II"),
        stepped("H1.II", 5, "rule 5", "H1I"),
        stepped("B1.II", 5, "rule 5", "B1I"),
        stepped("A1.II", 5, "rule 5", "A1I"),
        stepped("AI.1J", 5, "rule 12", "AIH1J"),
        stepped("AI.BJI1", 7, "rule 13", "AI1"),
        stepped("R.1J", 4, "rule 12", "RH1J"),
        stepped("H.1J.2J", 7, "rule 12", "HH1J.2J"),
        stepped(".BJI.1J", 7, "rule 12", ".BJIH1J"),
        stepped(".BJI.I1", 7, "rule 5", ".BJI1"),
        stepped("..1JI", 5, "rule 12", ".H1JI"),
        stepped(".H1JI", 5, "rule 3", "HH1JI"),
        stepped("..BJI1J", 7, "rule 13", ".1J"),
        stepped("..I1.II", 7, "rule 5", ".1.II"),
        stepped(".1.BII.II", 9, "rule 12", "H1.BII.II"),
        stepped(".TB.II.II", 9, "rule 12", "HTB.II.II"),
        stepped(".B.II.III", 9, "rule 10", "I"),
        stepped(".B.II.IIT", 9, "rule 13", "T"),
        stepped(".B1I1", 5, "rule 13", "1"),
        stepped(".B1I2", 5, "rule 13", "2"),
        stepped(".B12T", 5, "rule 13", "T"),
        stepped(".B11J", 5, "rule 6", "1"),
        stepped(".B12J", 5, "rule 6", "1"),
        stepped(".B12RE", 6, "rule 7", ".2E"),
        stepped(".B12I", 5, "rule 10", "I"),
        stepped(".B12A34", 7, "rule 9", "A.B1234"),
        stepped(".J1", 3, "rule 1", "HJ1"),
        stepped(".R1T", 4, "rule 2", "HR1T"),
        stepped(".H1J0", 5, "rule 3", "HH1J0"),
        stepped(".A123", 5, "rule 4", ".B312"),
        stepped(".I1", 3, "rule 5", "1"),
        stepped(".AI1J", 5, "rule 4", ".BJI1"),
        stepped(".1AIJ", 5, "rule 12", "H1AIJ"),
        stepped(".0BJI", 5, "rule 12", "H0BJI"),
        stepped("J1", 2, "7@1", ""),
        stepped(".1K", 3, "5@2", ""),
        stepped(".1", 2, "6@2", ""),
    ]
}

/// Rules 12 and 13 need no room; 8 and 11 on bells need as much as on other terms.
fn rooms_of_bells() -> Vec<Row> {
    let bytes = |start: &str, letters: usize, end: &str| [start, &"R".repeat(letters), end].concat();
    let largest = |start: &str, end: &str, reply: &str, after: &str| {
        let letters = 16_384 - start.len() - end.len();
        let area = bytes(start, letters, end).into_bytes();
        let name = format!("{start} and {letters} R and {end} is {reply}");
        let after = after.replace('+', &"R".repeat(letters));
        lent(&name, &area, 16_384, &vec![b'y'; 16_384], reply, &after)
    };
    vec![
        stepped(".BJIH1T", 10, "no room", ".BJIH1T"),
        stepped(".BJIH1T", 11, "rule 8", "..BJI1.BJIT"),
        stepped(".BJIB1T", 10, "no room", ".BJIB1T"),
        stepped(".BJIB1T", 11, "rule 11", "B.BJI1.BJIT"),
        stepped(".B12H34", 10, "no room", ".B12H34"),
        stepped(".B12H34", 11, "rule 8", "..B123.B124"),
        lent("a bell, work of 100 bytes", b"TX", 1, &[b'y'; 100], "normal", "T"),
        lent("rule 12, work of 100 bytes", b".1JX", 3, &[b'y'; 100], "rule 12", "H1J"),
        lent("rule 13, work of 100 bytes", b".BJI1X", 5, &[b'y'; 100], "rule 13", "1"),
        largest(".1", "T", "rule 12", "H1+T"),
        largest(".B", "1IT", "rule 13", "T"),
        largest(".B1", "ET", "rule 13", "T"),
        largest("H1", ".TJ", "rule 12", "H1+HTJ"),
        largest(".BIIH1", "T", "no room", ".BIIH1+T"),
        largest("", "0", "normal", "+0"),
    ]
}
