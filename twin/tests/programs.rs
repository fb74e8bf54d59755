//! The programs as they are run: study, check, cases answered and answered anew, and a fuzzer that can fail.

use std::io::Write;
use std::process::{Command, Output, Stdio};

const FEEDER: &str = "\
source,va_re,va_im,vb_re,vb_im,vc_re,vc_im,tol,sweeps
S,720000,0,-360000,-623538,-360000,623538,1,20

from,to,phases,kind,p1,p2,p3,p4,p5,p6,p7,p8,p9,p10,p11,p12
S,N1,A,L,1000000,0,0,0,0,0,0,0,0,0,0,0

node,phase,kind,vn,p,q
N1,A,P,720000,72000,0
";

fn study(feeder: &str) -> String {
    let mut child = Command::new(env!("CARGO_BIN_EXE_study"))
        .stdin(Stdio::piped())
        .stdout(Stdio::piped())
        .spawn()
        .expect("the program starts");
    child.stdin.take().expect("its input").write_all(feeder.as_bytes()).expect("the feeder is taken");
    text(child.wait_with_output().expect("the program ends"))
}

fn text(output: Output) -> String {
    String::from_utf8(output.stdout).expect("plain text")
}

#[test]
fn study_and_check() {
    let report = study(FEEDER);
    assert!(
        report.starts_with("node,")
            && report.ends_with("\n2,7210080000,0,7200066000,0,10024014,0\n\nto,tap_a,tap_b,tap_c\n")
    );
    assert_eq!(study("x"), "refused 10 1\n");
    assert_eq!(study(&"x".repeat(65_537)), "refused 9 0\n");

    let folder = std::env::temp_dir().join(format!("twin-programs-{}", std::process::id()));
    std::fs::create_dir_all(&folder).expect("a folder");
    let (feeder, good, bad) = (folder.join("feeder"), folder.join("good"), folder.join("bad"));
    std::fs::write(&feeder, FEEDER).expect("a file");
    std::fs::write(&good, &report).expect("a file");
    std::fs::write(&bad, report.replace("10014", "10015")).expect("a file");
    let check = |report| {
        text(Command::new(env!("CARGO_BIN_EXE_check")).arg(&feeder).arg(report).output().expect("the program runs"))
    };
    assert_eq!(check(&good), "pass\n");
    assert_eq!(check(&bad), "refused 53 6\n");
    std::fs::remove_dir_all(&folder).expect("the folder goes");
}

#[test]
fn cases_are_answered_anew() {
    let folder = std::env::temp_dir().join(format!("twin-cases-{}", std::process::id()));
    let (given, anew) = (folder.join("given"), folder.join("anew"));
    std::fs::create_dir_all(given.join("f")).expect("a folder");
    // A report from before there was a table of taps.
    let report = study(FEEDER);
    let old = report.strip_suffix("\nto,tap_a,tap_b,tap_c\n").expect("a table of taps");
    std::fs::write(given.join("f/1.feeder"), FEEDER).expect("a file");
    std::fs::write(given.join("f/1.report"), old).expect("a file");
    let case = |name: &str, call: &str, rest: &str| {
        format!("{{\"name\": \"{name}\", \"call\": \"{call}\", \"feeder\": \"f/1.feeder\", {rest}, \"more\": [1]}}\n")
    };
    let expected = |answer: &str| format!("\"expected\": {{\"answer\": {answer}}}");
    let refusal = expected(&format!("\"refuse\", \"number\": 40, \"values\": [{}]", old.len()));
    let list = [
        case("a", "study", &format!("\"buffer\": null, {}", expected("\"report\", \"file\": \"f/1.report\""))),
        case("b", "study", &format!("\"buffer\": 7, {refusal}")),
        case("c", "check", &format!("\"report\": \"f/1.report\", {}", expected("\"pass\""))),
    ];
    std::fs::write(given.join("index.jsonl"), list.concat()).expect("a file");
    let vectors = |folder: &std::path::Path| {
        text(Command::new(env!("CARGO_BIN_EXE_vectors")).arg(folder).output().expect("the program runs"))
    };
    assert!(vectors(&given).ends_with("\n3 cases, 2 differences\n"));
    let run = Command::new(env!("CARGO_BIN_EXE_answers")).arg(given.join("index.jsonl")).arg(&anew).output();
    let told = "1 40 with another length\n1 as before\n1 the report with its table of taps\n3 cases, 2 answered anew\n";
    assert_eq!(text(run.expect("the program runs")), told);
    assert_eq!(vectors(&anew), "3 cases, 0 differences\n");
    let lines = std::fs::read_to_string(anew.join("index.jsonl")).expect("the new list");
    let lines: Vec<&str> = lines.split_inclusive('\n').collect();
    assert_eq!(lines[0], list[0].replace("f/1.report", "f/a.report"));
    assert_eq!(lines[1], list[1].replace(&old.len().to_string(), &report.len().to_string()));
    assert_eq!(lines[2], list[2]);
    std::fs::remove_dir_all(&folder).expect("the folder goes");
}

#[test]
fn the_fuzzer_notices() {
    let folder = std::env::temp_dir().join(format!("twin-fuzz-{}", std::process::id()));
    std::fs::create_dir_all(&folder).expect("a folder");
    let fuzz = |wrong: &str| {
        let mut command = Command::new(env!("CARGO_BIN_EXE_fuzz"));
        command.args(["--self", "60", "3"]).env("FUZZ_OUT", &folder).env("TWIN_WRONG", wrong);
        command.output().expect("the program runs").status.code()
    };
    for wrong in ["answer:50", "sweeps:50", "byte:50", "behind:50", "before:50", "feeder:50", "check:10"] {
        assert_eq!(fuzz(wrong), Some(1), "{wrong}");
    }
    assert_eq!(fuzz(""), Some(0));
    assert!(std::fs::read_dir(&folder).expect("the folder").count() > 0, "the case is written to a file");
    std::fs::remove_dir_all(&folder).expect("the folder goes");
}
