//! The readings of document 01 that are settled, one test for each.

use second::boards::writing::state_length;
use second::{compile, decode, image, judge, printed, size, Refusal};

/// A record of these body bytes, with a sound head.
fn record(body: &[u8]) -> Vec<u8> {
    let mut record = vec![1, 0, 0, 0, 0];
    record.extend(body);
    state_length(&mut record);
    record
}

/// One variable in 0..3, one Boolean, and these clause bytes.
fn small(clauses: u8, bytes: &[u8]) -> Vec<u8> {
    let mut body = vec![0, 1, 0, 1, 0, clauses, 0, 0, 0, 3];
    body.extend(bytes);
    record(&body)
}

fn refused<T>(number: u8, detail: u64) -> Result<T, Refusal> {
    Err(Refusal { number, detail })
}

#[test]
fn order_of_the_head() {
    assert_eq!(size(&[]), refused(2, 0));
    assert_eq!(size(&[9, 0, 0, 0]), refused(2, 0));
    assert_eq!(size(&[9, 0, 0, 0, 7]), refused(3, 0));
    assert_eq!(size(&[1, 0, 0, 0, 7]), refused(2, 0));
    assert_eq!(size(&vec![9; 65_537]), refused(1, 0));
    assert_eq!(size(&vec![9; 65_536]), refused(3, 0));
}

#[test]
fn missing_bytes_come_before_the_value() {
    assert_eq!(size(&record(&[])), refused(8, 5));
    assert_eq!(size(&record(&[0xFF])), refused(8, 5));
    assert_eq!(size(&record(&[0xFF, 0xFF])), refused(4, 5));
    assert_eq!(size(&record(&[0, 0, 0])), refused(8, 7));
    assert_eq!(size(&record(&[0, 1, 0, 0, 0, 0, 0xFF])), refused(8, 11));
    assert_eq!(size(&record(&[0, 1, 0, 0, 0, 0, 0, 0])), refused(8, 13));
}

#[test]
fn a_value_is_judged_before_the_next_field() {
    let lower_out = [0, 1, 0, 0, 0, 0, 0x10, 0x00];
    assert_eq!(size(&record(&lower_out)), refused(5, 11));
    let crossed = [0, 1, 0, 0, 0, 0, 0, 3, 0, 2];
    assert_eq!(size(&record(&crossed)), refused(5, 13));
    assert_eq!(size(&small(1, &[1, 2, 1, 0])), refused(7, 18));
    assert_eq!(size(&small(1, &[1, 2, 1, 65])), refused(7, 18));
    assert_eq!(size(&small(1, &[1, 2, 1, 1, 0, 1])), refused(15, 19));
    assert_eq!(size(&small(1, &[1, 0, 0, 0])), refused(6, 17));
    assert_eq!(size(&small(1, &[1, 1, 0, 2])), refused(6, 17));
    assert_eq!(size(&small(1, &[1, 3])), refused(6, 16));
}

#[test]
fn literal_and_term_counts_give_4() {
    assert_eq!(size(&small(1, &[65])), refused(4, 15));
    assert_eq!(size(&small(1, &[1, 2, 0])), refused(4, 17));
    assert_eq!(size(&small(1, &[1, 2, 4])), refused(4, 17));
}

#[test]
fn a_repeated_variable_comes_before_the_next_term() {
    let repeated = [1, 2, 3, 1, 0, 0, 1, 0, 0, 0];
    assert_eq!(size(&small(1, &repeated)), refused(16, 22));
}

#[test]
fn constants_out_of_range() {
    let with = |constant: i32| {
        let mut bytes = vec![1, 2, 1, 1, 0, 0];
        bytes.extend(constant.to_be_bytes());
        size(&small(1, &bytes))
    };
    assert!(with(1_000_000).is_ok());
    assert!(with(-1_000_000).is_ok());
    assert_eq!(with(1_000_001), refused(17, 21));
    assert_eq!(with(-1_000_001), refused(17, 21));
}

#[test]
fn bytes_left_over() {
    assert_eq!(size(&small(1, &[1, 0, 0, 1, 0])), refused(8, 19));
}

#[test]
fn lengths_are_exact_and_come_in_order() {
    let board = small(0, &[]);
    let (mut values, mut booleans, mut model) = ([7; 2], [9; 2], [9; 7]);
    let wrong = decode(&board, &[2; 5], &mut values, &mut booleans);
    assert_eq!(wrong, refused(11, 6));
    let wrong = decode(&board, &[2; 6], &mut values, &mut booleans);
    assert_eq!(wrong, refused(11, 1));
    let wrong = decode(&board, &[2; 6], &mut values[..1], &mut []);
    assert_eq!(wrong, refused(11, 1));
    assert_eq!(judge(&board, &[], &[]), refused(11, 1));
    assert_eq!(judge(&board, &[9], &[2, 2]), refused(11, 1));
    assert_eq!(image(&board, &[9], &[2], &mut model), refused(11, 6));
    assert_eq!((values, booleans, model), ([7; 2], [9; 2], [9; 7]));
}

#[test]
fn bytes_are_looked_at_in_the_lists_that_are_read() {
    let never = small(1, &[0]);
    assert_eq!(judge(&never, &[9], &[2]), refused(12, 0));
    assert_eq!(judge(&never, &[4], &[1]), refused(14, 0));
    assert_eq!(judge(&never, &[-1], &[1]), refused(14, 0));
    assert_eq!(judge(&never, &[3], &[1]), refused(13, 0));
    let model = [1, 1, 0, 0, 0, 2];
    assert_eq!(decode(&never, &model, &mut [7], &mut [9]), refused(12, 5));
    let board = small(0, &[]);
    let mut given = [9];
    let model = [1, 0, 0, 0, 1, 1];
    assert_eq!(decode(&board, &model, &mut [7], &mut given), Ok(()));
    assert_eq!(given, [1]);
    assert_eq!(image(&board, &[2], &[1], &mut [9; 6]), Ok(()));
}

#[test]
fn values_far_out_of_bounds() {
    let board = small(0, &[]);
    for value in [i32::MIN, -65_534, 65_538, i32::MAX] {
        assert_eq!(judge(&board, &[value], &[0]), refused(14, 0));
    }
}

#[test]
fn decode_counts_emitted_clauses_and_judge_record_clauses() {
    let board = small(2, &[1, 0, 0, 1, 1, 1, 0, 1]);
    let model = [1, 0, 0, 0, 1, 1];
    assert_eq!(decode(&board, &model, &mut [7], &mut [9]), refused(13, 7));
    assert_eq!(judge(&board, &[2], &[1]), refused(13, 1));
    let model = [1, 1, 1, 1, 1, 1];
    assert_eq!(decode(&board, &model, &mut [7], &mut [9]), refused(13, 0));
}

#[test]
fn nothing_is_merged() {
    let twice = small(1, &[2, 0, 0, 1, 0, 0, 1]);
    assert!(printed(&twice).ends_with("\n1 1 0\n"));
    let both = small(1, &[2, 0, 0, 1, 1, 0, 1]);
    assert!(printed(&both).ends_with("\n1 -1 0\n"));
}

/// Two variables in 0..1 and x + y at most k.
fn sum_of_two(k: i32) -> Vec<u8> {
    let mut body = vec![0, 2, 0, 0, 0, 1, 0, 0, 0, 1, 0, 0, 0, 1];
    body.extend([1, 2, 2, 1, 0, 0, 1, 0, 1]);
    body.extend(k.to_be_bytes());
    record(&body)
}

#[test]
fn tuples_go_on_to_the_greatest_sum_and_n_less_1() {
    let axioms = "p cnf 6 8\n-1 0\n3 0\n-1 2 0\n-2 3 0\n-4 0\n6 0\n-4 5 0\n-5 6 0\n";
    let behind =
        |clauses: usize, text: &str| axioms.replace(" 8\n", &format!(" {}\n", 8 + clauses)) + text;
    assert_eq!(printed(&sum_of_two(-1)), behind(1, "0\n"));
    assert_eq!(printed(&sum_of_two(0)), behind(2, "1 5 0\n2 4 0\n"));
    assert_eq!(printed(&sum_of_two(1)), behind(3, "1 6 0\n2 5 0\n3 4 0\n"));
    assert_eq!(printed(&sum_of_two(2)), behind(2, "2 6 0\n3 5 0\n"));
    assert_eq!(printed(&sum_of_two(3)), behind(1, "3 6 0\n"));
    assert_eq!(printed(&sum_of_two(4)), behind(0, ""));
}

#[test]
fn an_impossible_comparison_leaves_its_selector() {
    let mut bytes = vec![2, 0, 0, 1, 2, 1, 1, 0, 0];
    bytes.extend((-1_i32).to_be_bytes());
    assert!(printed(&small(1, &bytes)).ends_with("\n1 7 0\n-7 0\n"));
}

#[test]
fn what_the_program_prints_on_refusal() {
    assert_eq!(printed(&[]), "refused 2 0\n");
    assert_eq!(printed(&vec![1; 65_537]), "refused 1 0\n");
    assert_eq!(printed(&small(1, &[65])), "refused 4 15\n");
    assert!(printed(&small(1, &[0])).ends_with("\n0\n"));
}

/// Variables of one value: 7 numbers each; Boolean clauses fill up the rest.
fn of_length(fill: &[u8], variables: u16) -> Vec<u8> {
    let mut body = variables.to_be_bytes().to_vec();
    body.extend([0, 1, 0, fill.len() as u8]);
    body.extend(vec![0; 4 * variables as usize]);
    for &literals in fill {
        body.push(literals);
        body.extend([0, 0, 1].repeat(literals as usize));
    }
    record(&body)
}

#[test]
fn the_program_has_a_list_of_16384_numbers() {
    let long: Vec<u8> = vec![63; 144];
    let exact = of_length(&long, 1_024);
    assert_eq!(size(&exact).unwrap().numbers, 16_384);
    assert!(printed(&exact).starts_with("p cnf "));
    let mut more = long.clone();
    more.push(0);
    assert_eq!(printed(&of_length(&more, 1_024)), "refused 10 16385\n");
}

#[test]
fn a_refused_compile_changes_nothing() {
    let mut list = [5; 30];
    assert_eq!(compile(&small(1, &[65]), &mut list), refused(4, 15));
    assert_eq!(list, [5; 30]);
}
