//! Feeders and studies for the tests of the requests of document 02.

use twin::{study, Answer};

/// A feeder with this source (voltages, tol, sweeps), these branch rows and these load rows.
pub fn feeder(source: &str, branches: &[&str], loads: &[&str]) -> Vec<u8> {
    let rows = |rows: &[&str]| rows.iter().map(|row| format!("{row}\n")).collect::<String>();
    format!(
        "source,va_re,va_im,vb_re,vb_im,vc_re,vc_im,tol,sweeps\nS,{source}\n\n\
         from,to,phases,kind,p1,p2,p3,p4,p5,p6,p7,p8,p9,p10,p11,p12\n{}\n\
         node,phase,kind,vn,p,q\n{}",
        rows(branches),
        rows(loads)
    )
    .into_bytes()
}

/// The study's report, or its refusal.
pub fn studied(feeder: &[u8]) -> Result<String, (u32, u64)> {
    let mut out = vec![0; 65_536];
    match study(feeder, &mut out) {
        Answer::Report { length, .. } => Ok(String::from_utf8(out[..length].to_vec()).expect("plain text")),
        Answer::Refused { number, value } => Err((number, value)),
        Answer::Pass => unreachable!("a study does not pass"),
    }
}

/// The rows of one branch and of the totals, of a study with one line without impedance from S to N on all phases.
// The tests of S-4 and S-5 have no use for it.
#[allow(dead_code)]
pub fn flow(voltages: &str, loads: &[&str]) -> Result<(String, String), (u32, u64)> {
    let line = "S,N,ABC,L,0,0,0,0,0,0,0,0,0,0,0,0";
    let report = studied(&feeder(&format!("{voltages},1,20"), &[line], loads))?;
    let lines: Vec<&str> = report.lines().collect();
    Ok((lines[5].to_string(), lines[8].to_string()))
}
