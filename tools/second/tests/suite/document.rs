//! The worked listing and the marked cases of the document.

use super::build::*;
use second::report;
use second::token::Value::{Const, Dec, Enc};
use second::types::{of_template, Type};

pub const LISTING: &str = "\
01050000000002000002
0200020200000100000000
0200020200001900000000
02020401000001010100100402030000040000
020203010100080500020000030000
03000000
03000100
0300020200000001
0300030200020001
";

pub const LISTING_OUTPUT: &str = "\
8112000302
820000000000000100
820001000002000200
820002000004000200
820003000001000201
83000003
";

#[test]
fn the_listing_gives_its_output() {
    let output = report(LISTING.as_bytes());
    assert_eq!(String::from_utf8(output).unwrap(), LISTING_OUTPUT);
}

#[test]
fn a_refused_file_gives_one_frame() {
    assert_eq!(report(b""), b"80030000\n");
    assert_eq!(report(b"01000000000000000000\n0"), b"80020001\n");
}

#[test]
fn an_ending_and_a_missing_breach_are_reported() {
    let frames = [policy(0, &[]), command(0, &[[2, 0, 0, 0], [0, 0, 0, 0]])];
    let mut frames = frames.to_vec();
    frames.extend(vec![call(0, &[]); 257]);
    let output = String::from_utf8(report(&text(&frames))).unwrap();
    assert!(output.starts_with("8110000100\n"));
    assert!(output.ends_with("8200ff0001fe010000\n8321ffff\n"));
}

#[test]
fn a_stopped_line_is_reported_without_a_row() {
    let getting = command(1, &[[1, 0, 0, 0], [0, 0, 0, 0]]);
    let frames = [policy(0, &[0]), getting, call(0, &[constant(1)])];
    let output = report(&text(&frames));
    assert_eq!(output, b"8100000000\n82000001ffff000000\n8300ffff\n");
}

#[test]
fn marked_templates_have_their_types() {
    let marked = [
        (0, Some(Type::Un)),
        (2, None),
        (3, Some(Type::Seed)),
        (13, Some(Type::Data)),
        (15, Some(Type::TData)),
        (25, Some(Type::Any)),
        (51, Some(Type::Wrap)),
    ];
    for (template, expected) in marked {
        assert_eq!(of_template(template), expected, "template {template}");
    }
}

#[test]
fn sixteen_templates_have_no_type() {
    let untyped: Vec<u8> = (0..64).filter(|&t| of_template(t).is_none()).collect();
    assert_eq!(untyped.len(), 16);
    assert!(untyped.iter().all(|t| t & 3 == 2));
}

/// Each row of the document's table, for all 64 templates.
#[test]
fn the_table_of_types_follows_its_rule() {
    for template in 0u8..64 {
        let has = |attribute| template & attribute != 0;
        let (data, wrap) = (has(4) || has(8), has(16) || has(32));
        let expected = if has(2) && !has(1) {
            None
        } else if !has(1) {
            Some(Type::Un)
        } else if !has(2) {
            Some(if data && !wrap { Type::Data } else { Type::Any })
        } else if data == wrap {
            Some(Type::Seed)
        } else {
            Some(if data { Type::TData } else { Type::Wrap })
        };
        assert_eq!(of_template(template), expected, "template {template}");
    }
}

#[test]
fn marked_joins() {
    assert_eq!(Type::Un.join(Type::TData), Type::Data);
    assert_eq!(Type::Data.join(Type::Wrap), Type::Any);
}

/// The order as the document lists it, and the join as the lowest type above
/// both, found by search.
#[test]
fn order_and_join_are_those_of_the_document() {
    let types: Vec<Type> = (0..6).filter_map(Type::from_code).collect();
    let listed = [(0, 2), (1, 2), (2, 5), (3, 5), (4, 5), (0, 5), (1, 5)];
    for &low in &types {
        for &high in &types {
            let pair = (low as u8, high as u8);
            let expected = low == high || listed.contains(&pair);
            assert_eq!(low.is_below(high), expected, "{low:?} {high:?}");
            let above: Vec<Type> = types
                .iter()
                .copied()
                .filter(|&t| low.is_below(t) && high.is_below(t))
                .collect();
            let lowest = above.iter().find(|t| above.iter().all(|u| t.is_below(*u)));
            assert_eq!(Some(&low.join(high)), lowest, "{low:?} {high:?}");
        }
    }
    assert_eq!(Type::from_code(6), None);
}

#[test]
fn decrypting_under_the_right_and_the_wrong_key() {
    let run = run_of(&[
        policy(0, &[]),
        line(1, 0, &[constant(5), constant(7)]),
        line(2, 0, &[0, constant(7)]),
        line(2, 0, &[0, constant(8)]),
    ]);
    assert_eq!(rows_of_lines(&run), [Some(2), Some(0), Some(4)]);
    let expected = [Const(5), Const(7), Enc(0, 1), Const(8), Dec(2, 3)];
    assert_eq!(run.rows, expected);
}

#[test]
fn the_marked_wrapping_command() {
    let wrapping = |attributes| {
        let steps = [
            [1, 0, 0, attributes],
            [1, 1, 0, 16],
            [4, 2, 3, 0],
            [0, 4, 0, 0],
        ];
        verdict_of(&[policy(2, &[13, 51]), command(2, &steps)])
    };
    assert_eq!(wrapping(4), (0, 0, 0));
    assert_eq!(wrapping(1), (18, 1, 2));
}
