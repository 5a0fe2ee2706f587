//! Runs the least-width program on sheets and compares what it prints with the
//! model's lines.
//!
//! `program PATH` names the program. `--wrong` changes one expected line, so
//! that the run must fail.

mod marks;
mod rim;
mod rows;

use sheets::{damage, extremes, paper, random, Rng};
use std::io::Write;
use std::path::Path;
use std::process::{Command, ExitCode, Stdio};

fn main() -> ExitCode {
    let words: Vec<String> = std::env::args().skip(1).collect();
    let (path, wrong) = match words.as_slice() {
        [path] => (path, false),
        [path, flag] if flag == "--wrong" => (path, true),
        _ => {
            eprintln!("program: PATH [--wrong]");
            return ExitCode::from(2);
        }
    };
    let mut sheets: Vec<(String, Vec<u8>, String)> = rim::inputs();
    sheets.extend(rows::inputs());
    sheets.extend(marks::inputs());
    sheets.extend(inputs().into_iter().map(|(name, sheet)| {
        let lines = model::lines::least_lines(&sheet);
        (name, sheet, lines)
    }));
    for (name, sheet, lines) in &sheets {
        let expected = match wrong {
            true => lines.replace("trials", "trial"),
            false => lines.clone(),
        };
        let printed = run(Path::new(path), sheet);
        if printed != expected {
            let hex: String = sheet.iter().map(|b| format!("{b:02X} ")).collect();
            println!("{name}: {hex}\nexpected\n{expected}printed\n{printed}");
            return ExitCode::FAILURE;
        }
    }
    println!("program: {} sheets right", sheets.len());
    ExitCode::SUCCESS
}

/// What the program prints for the sheet on its standard input.
fn run(path: &Path, sheet: &[u8]) -> String {
    let mut child = Command::new(path)
        .stdin(Stdio::piped())
        .stdout(Stdio::piped())
        .spawn()
        .unwrap_or_else(|e| panic!("{}: {e}", path.display()));
    // The program may stop reading at the longest sheet: what is left is lost.
    let _ = child.stdin.take().expect("a pipe").write_all(sheet);
    let output = child.wait_with_output().expect("the program ends");
    assert!(output.status.success(), "the program ends with 0");
    String::from_utf8(output.stdout).expect("the program prints text")
}

/// Extremes, good and damaged sheets by chance, and inputs that are no sheets.
fn inputs() -> Vec<(String, Vec<u8>)> {
    let mut list: Vec<(String, Vec<u8>)> = vec![
        ("no input".into(), Vec::new()),
        ("longer than any sheet".into(), vec![0x57; 20_000]),
        ("no nets".into(), paper::same_channel(0, 0, 2).bytes()),
        (
            "33 nets of a channel".into(),
            paper::same_channel(33, 0, 2).bytes(),
        ),
    ];
    // Those of one shape stand 8 apart: each shape has both marks in turn.
    for (place, pair) in extremes::both().into_iter().enumerate() {
        let [short, long] = pair.map(|(name, design)| (name, design.list().bytes()));
        list.push(if (place + place / 8) % 2 == 0 {
            short
        } else {
            long
        });
    }
    let mut rng = Rng::new(5);
    for n in 0..60 {
        list.push((format!("chance {n}"), random::any(&mut rng).list().bytes()));
        let aims = damage::aims(&mut rng);
        let raw = random::small(&mut rng).list();
        list.push((
            format!("damaged {n}"),
            damage::damaged(raw, &aims, &mut rng),
        ));
    }
    list
}
