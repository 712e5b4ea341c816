//! The command line, run as a program.

mod common;
use common::{asm, frame, l_with, L};
use std::fs::File;
use std::io::Write;
use std::process::{Command, Output, Stdio};

fn separate(arguments: &[&str], input: &[u8]) -> Output {
    let mut child = Command::new(env!("CARGO_BIN_EXE_separate"))
        .args(arguments)
        .stdin(Stdio::piped())
        .stdout(Stdio::piped())
        .stderr(Stdio::piped())
        .spawn()
        .unwrap();
    // A program that does not read all of its input closes the pipe.
    let _ = child.stdin.take().unwrap().write_all(input);
    child.wait_with_output().unwrap()
}

fn text(bytes: &[u8]) -> &str {
    std::str::from_utf8(bytes).unwrap()
}

#[test]
fn pair_prints_one_line() {
    for (input, line) in [
        (frame(&L, &L), "equal 2\n"),
        (frame(&L, &l_with(&[(18, 0)])), "differs 1 1\n"),
        (frame(&L, &L[..33]), "refused right 3 33\n"),
        (Vec::new(), "refused input 1 0\n"),
        (frame(&L, &[0; 100_000]), "refused right 2 0\n"),
    ] {
        let output = separate(&["pair"], &input);
        assert_eq!(text(&output.stdout), line);
        assert!(output.stderr.is_empty());
        assert_eq!(output.status.code(), Some(0));
    }
}

#[test]
fn explain_prints_one_line_or_three() {
    let changed = l_with(&[(29, 1), (31, 0xFF)]);
    for (input, lines) in [
        (frame(&L, &L), "equal 2\n"),
        (frame(&L, &changed), "differs 1 0\nwritten 1 0 22 32 0\nwritten 1 0 22 32 0\n"),
        (frame(&L, &l_with(&[(18, 0)])), "differs 1 1\nwritten 1 1 22 32 1\nstarting 1 1\n"),
        (frame(&L, &L[..33]), "refused right 3 33\n"),
        (Vec::new(), "refused input 1 0\n"),
    ] {
        let output = separate(&["explain"], &input);
        assert_eq!(text(&output.stdout), lines);
        assert!(output.stderr.is_empty());
        assert_eq!(output.status.code(), Some(0));
    }
}

/// The program's output for an input of `masked`.
fn masked(input: &[u8]) -> String {
    let output = separate(&["masked"], input);
    assert!(output.stderr.is_empty());
    assert_eq!(output.status.code(), Some(0));
    text(&output.stdout).to_string()
}

#[test]
fn masked_prints_one_line_or_three() {
    let head = "array A inout [2] array B out [1] B[0] = 1";
    let [left, right] = ["", "A[1] = 5"].map(|items| asm(&format!("{head} {items}")));
    let pair = frame(&left, &right);
    let three = "differs 0 1\nstarting 0 1\nwritten 0 1 22 29\n";
    for (mask, lines) in [
        (0xFFFFu16, three),
        (1, three),
        (0xFF01, three),
        (2, "equal 1\n"),
        (0, "equal 0\n"),
        (0x0100, "equal 0\n"),
    ] {
        assert_eq!(masked(&[&mask.to_le_bytes(), &pair[..]].concat()), lines, "{mask:#x}");
    }
    assert_eq!(text(&separate(&["pair"], &pair).stdout), "equal 1\n");
    assert_eq!(text(&separate(&["explain"], &pair).stdout), "equal 1\n");
    let other = frame(&left, &asm("array A inout [2] array B out [1] B[0] = 2 A[1] = 5"));
    let plain = "differs 1 0\nwritten 1 0 15 22\nwritten 1 0 15 22\n";
    assert_eq!(text(&separate(&["explain"], &other).stdout), plain);
    assert_eq!(masked(&[&[2, 0], &other[..]].concat()), plain);
}

#[test]
fn masked_needs_a_mask_and_a_frame() {
    let refused = "refused input 1 0\n";
    let whole = [&[0xFF, 0xFF][..], &frame(&L, &L)].concat();
    for length in [0, 1, 2, 3, 4, 37] {
        assert_eq!(masked(&whole[..length]), refused, "{length}");
    }
    assert_eq!(masked(&whole[..38]), "refused right 3 0\n");
    assert_eq!(masked(&whole[..71]), "refused right 3 33\n");
    assert_eq!(masked(&whole), "equal 2\n");
    assert_eq!(masked(&[&whole[..], &[7]].concat()), "refused right 14 34\n");
    assert_eq!(masked(&[0, 0, 1, 64]), "refused left 2 0\n");
}

/// 32,773 bytes are looked at: a right side of the greatest length, or one more.
#[test]
fn masked_reads_so_much_and_no_more() {
    // Guards of four bytes each between the tables and the closing 00.
    let mut longest = b"ALP\x01\x00\x00\x01\x02\x01\x01\x00".to_vec();
    longest.extend([3, 0, 0, 0].repeat(4_093));
    longest.push(0);
    assert_eq!(longest.len(), 16_384);
    let whole = [&[1, 0][..], &frame(&longest, &longest)].concat();
    assert_eq!(whole.len(), 32_772);
    assert_eq!(masked(&whole), "equal 1\n");
    for more in [1, 2, 100_000] {
        let longer = [&whole[..], &vec![0; more]].concat();
        assert_eq!(masked(&longer), "refused right 2 0\n", "{more}");
    }
}

#[test]
fn batch_prints_a_line_for_each_pair_and_the_totals() {
    let pair = [&[34, 0, 34, 0][..], &L, &L].concat();
    let short = [&[34, 0, 34, 0][..], &L, &l_with(&[(18, 0)])].concat();
    let cut = "refused input 1 0\n";
    let all = [&pair[..], &short, &pair].concat();
    let both = "equal 2\ndiffers 1 1\n";
    for (input, out) in [
        (Vec::new(), "pairs 0 equal 0 differs 0 refused 0 elements 0\n".to_string()),
        (all[..144].to_vec(), format!("{both}pairs 2 equal 1 differs 1 refused 0 elements 2\n")),
        (
            all[..147].to_vec(),
            format!("{both}{cut}pairs 3 equal 1 differs 1 refused 1 elements 2\n"),
        ),
        (all, format!("{both}equal 2\npairs 3 equal 2 differs 1 refused 0 elements 4\n")),
    ] {
        let output = separate(&["batch"], &input);
        assert_eq!(text(&output.stdout), out);
        assert!(output.stderr.is_empty());
        assert_eq!(output.status.code(), Some(0));
    }
}

/// A file, or nothing but a refusal's line on standard error.
#[test]
fn straight_writes_a_file_without_loops() {
    let file = asm("array A in [2] array B out [2] B[0] = A[0] B[1] = A[1]");
    for input in [&L[..], &l_with(&[(3, 2)]), &file] {
        let output = separate(&["straight"], input);
        assert_eq!(output.stdout, file);
        assert!(output.stderr.is_empty());
        assert_eq!(output.status.code(), Some(0));
    }
    let wide = asm("array A out [2] for i = 0 to 1 { A[i] = 32767 + i }");
    let long = asm("array A out [2] for i = 0 to 2047 { A[0] = const 1 }");
    let longest = [&[3, 0, 0, 0].repeat(4_093)[..], &[0]].concat();
    let longest = [b"ALP\x01\x00\x00\x01\x02\x01\x01\x00", &longest[..]].concat();
    assert_eq!(separate(&["straight"], &longest).stdout, asm("array A inout [1]"));
    for (input, line) in [
        (Vec::new(), "refused left 3 0\n"),
        (L[..33].to_vec(), "refused left 3 33\n"),
        (l_with(&[(18, 2)]), "refused left 16 22\n"),
        (wide, "refused left 28 1\n"),
        (long, "refused left 29 0\n"),
        ([&longest[..], &[0]].concat(), "refused left 2 0\n"),
        (vec![0; 100_000], "refused left 2 0\n"),
    ] {
        let output = separate(&["straight"], &input);
        assert_eq!(text(&output.stderr), line);
        assert!(output.stdout.is_empty());
        assert_eq!(output.status.code(), Some(2));
    }
}

/// Standard input that is a directory, or is open for writing alone.
#[test]
fn batch_says_where_a_read_failed() {
    let directory = File::open("/").unwrap();
    let written = File::options().write(true).open("/dev/null").unwrap();
    for input in [directory, written] {
        let mut command = Command::new(env!("CARGO_BIN_EXE_separate"));
        let output = command.arg("batch").stdin(input).output().unwrap();
        assert!(output.stdout.is_empty() && !output.stderr.is_empty());
        assert_eq!(output.status.code(), Some(2));
    }
}

#[test]
fn wrong_usage() {
    let wrong: [&[&str]; 23] = [
        &[],
        &["pears"],
        &["pair", "x"],
        &["explain", "x"],
        &["masked", "x"],
        &["masked", "FFFF", "x"],
        &["batch", "x"],
        &["straight", "x"],
        &["batch-lines", "x"],
        &["random-batches", "3"],
        &["random-explanations", "3"],
        &["random-writes", "3"],
        &["random"],
        &["random", "3"],
        &["random", "3", "4", "5"],
        &["random", "three", "4"],
        &["random", "3", "-4"],
        &["random-lists", "", "4"],
        &["lines", "x"],
        &["asm", "--name"],
        &["dis", "--names"],
        &["dis", "A", "B"],
        &["dis", "--places", "--named", "A", "B"],
    ];
    for arguments in wrong {
        let output = separate(arguments, b"");
        assert_eq!(output.status.code(), Some(2), "{arguments:?}");
        assert!(output.stdout.is_empty());
        assert!(text(&output.stderr).contains("usage"), "{arguments:?}");
    }
}

#[test]
fn random_then_lines_then_pair() {
    let stream = separate(&["random", "120", "5"], b"").stdout;
    assert_eq!(stream, separate(&["random", "120", "5"], b"").stdout);
    let output = separate(&["lines"], &stream);
    let lines: Vec<_> = text(&output.stdout).lines().collect();
    assert_eq!(lines.len(), 120);
    for (input, line) in separate::stream::inputs(&stream).zip(&lines).take(30) {
        let one = separate(&["pair"], input.unwrap());
        assert_eq!(text(&one.stdout).trim_end(), *line);
    }
}

#[test]
fn histogram_counts_every_pair() {
    let stream = separate(&["random", "150", "6"], b"").stdout;
    let output = separate(&["histogram"], &stream);
    let lines: Vec<_> = text(&output.stdout).lines().collect();
    let counts =
        lines.iter().map(|line| line.split_whitespace().next().unwrap().parse::<usize>().unwrap());
    let counts: Vec<_> = counts.collect();
    let (last, others) = counts.split_last().unwrap();
    assert_eq!((*last, others.iter().sum::<usize>()), (150, 150));
    assert!(lines.iter().any(|line| line.ends_with(" equal")));
    assert!(lines.iter().any(|line| line.ends_with(" differs")));
}

#[test]
fn list_pairs() {
    let stream = separate(&["random-lists", "60", "5"], b"").stdout;
    assert_eq!(stream, separate(&["random-lists", "60", "5"], b"").stdout);
    let output = separate(&["list-lines"], &stream);
    assert_eq!(text(&output.stdout).lines().count(), 60);
    assert_eq!(output.status.code(), Some(0));
}

#[test]
fn entry_records() {
    for made in ["random-entries", "random-explanations", "random-writes"] {
        let stream = separate(&[made, "200", "5"], b"").stdout;
        assert_eq!(stream, separate(&[made, "200", "5"], b"").stdout);
        let output = separate(&["entry-lines"], &stream);
        assert_eq!(text(&output.stdout).lines().count(), 200);
        assert_eq!(output.status.code(), Some(0));
    }
}

#[test]
fn random_batches_then_their_lines() {
    let stream = separate(&["random-batches", "40", "5"], b"").stdout;
    assert_eq!(stream, separate(&["random-batches", "40", "5"], b"").stdout);
    let batches = separate::stream::inputs(&stream);
    let single = batches.map(|batch| separate(&["batch"], batch.unwrap()).stdout);
    let single: Vec<_> = single.collect();
    assert_eq!(single.len(), 40);
    let output = separate(&["batch-lines"], &stream);
    assert_eq!(output.stdout, single.concat());
    assert_eq!(output.status.code(), Some(0));
}

#[test]
fn cut_streams() {
    for command in ["lines", "histogram", "list-lines", "entry-lines", "batch-lines"] {
        let output = separate(&[command], &[9, 0, 0, 0, 1]);
        assert_eq!(output.status.code(), Some(2), "{command}");
        assert!(text(&output.stderr).contains("cut"));
        assert_eq!(separate(&[command], b"").status.code(), Some(0), "{command}");
    }
}

#[test]
fn asm_and_dis() {
    let dis = separate(&["dis"], &L);
    assert!(text(&dis.stdout).starts_with("array A in [2]\n"));
    assert_eq!(separate(&["asm"], &dis.stdout).stdout, L);
    let wrong = separate(&["asm"], b"array A in [1]\n\nA[0] = x\n");
    assert_eq!(wrong.status.code(), Some(2));
    assert!(text(&wrong.stderr).starts_with("line 3, column 8: "), "{}", text(&wrong.stderr));
    assert!(wrong.stdout.is_empty());
    let wrong = separate(&["asm"], b"array A in [1]\n# \xFF\n");
    assert_eq!(wrong.status.code(), Some(2));
    let message = "line 2, column 3: not UTF-8: byte FF, as Latin-1 has\n";
    assert_eq!(text(&wrong.stderr), message);
    let wrong = separate(&["asm"], b"# gr\xC3\xBC\xDFe\n");
    assert!(text(&wrong.stderr).starts_with("line 1, column 6: not UTF-8: byte DF, "));
    let wrong = separate(&["dis"], &L[..33]);
    assert_eq!(wrong.status.code(), Some(2));
    assert_eq!(text(&wrong.stderr), "refused 3 33\n");
}

#[test]
fn asm_and_dis_with_places() {
    let dis = separate(&["dis", "--places"], &L);
    assert!(text(&dis.stdout).contains("  B[i] = A[i]  # at 22\n"));
    assert_eq!(separate(&["asm"], &dis.stdout).stdout, L);
    let places = separate(&["asm", "--places"], &dis.stdout);
    assert!(
        text(&places.stdout).starts_with("5\t3\t1\toperator count\n"),
        "{}",
        text(&places.stdout)
    );
    assert!(text(&places.stdout).contains("\n22\t4\t3\tstatement\n"));
    let wrong = separate(&["asm", "--places"], b"array A in [1]\n\nA[0] = x\n");
    assert_eq!(wrong.status.code(), Some(2));
    assert!(text(&wrong.stderr).starts_with("line 3, column 8: "));
    let wrong = separate(&["dis", "--places"], &L[..33]);
    assert_eq!((wrong.status.code(), text(&wrong.stderr)), (Some(2), "refused 3 33\n"));
}

#[test]
fn dis_with_given_names() {
    let dis = separate(&["dis", "--named", "i", "j"], &L);
    assert_eq!(dis.status.code(), Some(0));
    assert!(text(&dis.stdout).contains("for k = 0 to 1 step 1 {\n  j[k] = i[k]\n}"));
    assert_eq!(separate(&["asm"], &dis.stdout).stdout, L);
    for (input, arguments, message) in [
        (&L[..], &["A"][..], "1 name given for 0 operators and 2 arrays\n"),
        (&L, &["A", "A"], "'A' is given twice\n"),
        (&L, &["A", "--places"], "\"--places\" is no name: "),
        (&L[..33], &["A", "B"], "refused 3 33\n"),
    ] {
        let wrong = separate(&[&["dis", "--named"], arguments].concat(), input);
        assert_eq!(wrong.status.code(), Some(2));
        assert!(wrong.stdout.is_empty());
        assert!(text(&wrong.stderr).starts_with(message), "{}", text(&wrong.stderr));
    }
}

#[test]
fn asm_with_names_and_statements() {
    let input = b"op f/2*\narray B in [2]\narray A out [2]\nfor j = 0 to 1 { A[j] = B[j] }\n";
    for (option, out) in [
        ("--names", "op\t0\tf\t/2*\t1\t4\narray\t0\tB\tin\t2\t7\narray\t1\tA\tout\t3\t7\n"),
        ("--statements", "23\t33\tj\tA[j] = B[j]\n"),
    ] {
        let output = separate(&["asm", option], input);
        assert_eq!((output.status.code(), text(&output.stdout)), (Some(0), out));
        let wrong = separate(&["asm", option], b"array A in [1]\n\nA[0] = x\n");
        assert_eq!(wrong.status.code(), Some(2));
        assert!(wrong.stdout.is_empty() && text(&wrong.stderr).starts_with("line 3, column 8: "));
    }
    let output = separate(&["asm", "--statements"], b"array A out [1] A[0] = 1");
    assert_eq!(text(&output.stdout), "11\t18\t\tA[0] = 1\n");
}
