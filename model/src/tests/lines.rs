//! The fillsheet's lines.

fn printed(input: &str) -> String {
    String::from_utf8(crate::fillsheet(input.as_bytes())).expect("text")
}

const CASE_C: &str = "A 3\nS 1 D 100100 1000 0\nS 2 D 100000 1000 0\nS 3 D 100000 3000 0\n\
                      S 4 D 100000 1000 0\nT B 100000 1000";
const CASE_C_FILLS: &str = "order price shares\n2 100000 400\n3 100000 500\n4 100000 100\nleft 0\n";

#[test]
fn case_c_with_and_without_a_last_line_end() {
    assert_eq!(printed(CASE_C), CASE_C_FILLS);
    assert_eq!(printed(&format!("{CASE_C}\n")), CASE_C_FILLS);
}

/// The two algorithms fill these orders from other paragraphs.
#[test]
fn a_listing_does_not_name_paragraphs() {
    let orders = "S 1 D 100000 300 0\nS 2 D 100000 40 0\nS 3 H 100000 200 0\n\
                  S 4 M 100000 100 50\nS 5 H 100000 30 0\nT B 100000 670\n";
    let fills = "order price shares\n1 100000 300\n2 100000 40\n3 100000 200\n\
                 4 100000 100\n5 100000 30\nleft 0\n";
    for algorithm in 1..=3 {
        assert_eq!(printed(&format!("A {algorithm}\n{orders}")), fills);
    }
}

#[test]
fn empty_input_has_no_line() {
    assert_eq!(printed(""), "");
    assert_eq!(printed("\n"), "refused 1\n");
    assert_eq!(printed("\n\n"), "refused 1\nrefused 1\n");
}

#[test]
fn lines_of_no_known_form_are_refused() {
    for line in [
        " A 1",
        "A 1 ",
        "A  1",
        "A\t1",
        "A 1\r",
        "a 1",
        "A",
        "A 0",
        "A 4",
        "A 01",
        "A +1",
        "A 1 1",
        "B 1 d 5 100 0",
        "B 1 Q 5 100 0",
        "B 1 R 5 100 0",
        "B 1 R 5 100 0 250 100",
        "B 1 D 5 100",
        "B 1 D 5 100 0 0",
        "b 1 D 5 100 0",
        "B 01 D 5 100 0",
        "B 1 D 5 100 00",
        "B 1 D 5 100 -0",
        "X 1",
        "X 1 0",
        "T B 5",
        "T D 5 5",
        "T B 5 1000000",
        "T B 2000000001 5",
        "B 1 D 5 100 1",
        "B 0 D 5 100 0",
        " ",
        "\0",
        "X 4294967297 1",
        "X 1 0000000000000000000000000000000000000001",
        "X 1000000000000000000000000000000000000001 1",
        "X 18446744073709551617 1",
    ] {
        assert_eq!(printed(line), "refused 1\n", "{line:?}");
    }
}

#[test]
fn a_refused_line_prints_its_number_and_changes_nothing() {
    let text = "S 2 D 100 100 0\nS 2 D 100 100 0\nB 3 D 100 5 0\nX 9 1\nX 2 101\nA 9\nT B 100 30\n";
    let fills = "refused 4\nrefused 5\nrefused 3\nrefused 7\nrefused 1\n\
                 order price shares\n2 100 30\nleft 0\n";
    assert_eq!(printed(text), fills);
    assert_eq!(printed("T B 100 30\n"), "order price shares\nleft 30\n");
}

#[test]
fn the_book_has_256_records() {
    let adds: String = (1..=257)
        .map(|number| format!("B {number} H 5 1 0\n"))
        .collect();
    assert_eq!(printed(&adds), "refused 6\n");
}

#[test]
fn the_longest_input_is_65536_bytes() {
    let longest = "A 1\n".repeat(16_384);
    assert_eq!(longest.len(), 65_536);
    assert_eq!(printed(&longest), "");
    assert_eq!(printed(&format!("{longest}x")), "refused 1\n");
}
