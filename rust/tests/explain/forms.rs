//! The two forms: rows of at most 100 columns, and JSON that others can read.

use crate::support::{run, traces, File, Trace};
use second::packets::{data, have, REFUSED};
use std::ffi::OsStr;
use std::path::PathBuf;
use std::process::Command;

/// The inputs and outputs of all named traces.
fn named() -> Vec<[PathBuf; 2]> {
    let entries = std::fs::read_dir(traces()).expect("the directory is there");
    let paths = entries.map(|entry| entry.expect("it can be read").path());
    let outputs = paths.filter(|path| path.extension().is_some_and(|ending| ending == "out"));
    outputs
        .map(|output| [output.with_extension("hex"), output])
        .collect()
}

/// Runs a Python program over files, and gives what it prints.
fn python(program: &str, files: &[File]) -> String {
    let mut command = Command::new("python3");
    let output = command.args(["-c", program]).args(files).output();
    let output = output.expect("python3 is there");
    let errors = String::from_utf8_lossy(&output.stderr);
    assert!(output.status.success(), "{errors}");
    String::from_utf8(output.stdout).expect("it prints UTF-8")
}

/// The JSON form of a run.
fn json<A: AsRef<OsStr>>(files: &[A]) -> File {
    let mut arguments: Vec<&OsStr> = files.iter().map(A::as_ref).collect();
    arguments.push("--json".as_ref());
    File::new(run(&arguments).text)
}

#[test]
fn no_row_is_wider_than_a_terminal() {
    for files in named() {
        let text = run(&files).text;
        let wide = text.lines().find(|row| row.len() > 100);
        assert_eq!(wide, None, "{files:?}");
        assert!(text.is_ascii());
    }
}

#[test]
fn json_of_all_named_traces_is_valid() {
    let files = named();
    assert_eq!(files.len(), 104);
    let written: Vec<File> = files.iter().map(|files| json(files)).collect();
    let program = "import json, sys
for name in sys.argv[1:]:
    whole = json.load(open(name))
    assert whole['agrees'] is True
    assert whole['line_count'] == len(whole['lines']) or whole['order'] is None
    for line in whole['lines']:
        assert line['difference'] is None
        assert (line['answer']['number'] == 0) == (line['answer']['reason'] is None)
        assert (line['answer']['number'] in [9, 10]) == (line['answer']['node'] is not None)
print('valid')";
    assert_eq!(python(program, &written), "valid\n");
}

#[test]
fn fields_of_the_json_form() {
    let trace = Trace::abc().take(&[&have(0, 0), &REFUSED]);
    let trace = trace.take(&[&data(0, 0, 0, b"abc")]).line("\"\\");
    let name = File::new(trace.input());
    let program = "import json, sys
whole = json.load(open(sys.argv[1]))
print(whole['answers'], whole['order']['length'], whole['agrees'], whole['held'], whole['missing'], whole['whole'])
for line in whole['lines']:
    messages = [message['type'] for message in line['messages'] or []]
    print(line['line'], line['clock'], line['destination'], line['channel'], messages, line['answer']['code'])
    print(line['answer']['reason'], line['effects'])
    print(line['acknowledged'], line['reply'] and line['reply']['text'])
print([(r['code'], r['times']) for r in whole['refusals']])";
    let open = "{'id': 1, 'row': 0, 'peer': 17}";
    let one = "{'first': 0, 'last': 0, 'chunks': 1}";
    let wanted = format!(
        "library 3 None [[0, 0]] [] True
2 0 0 None ['HANDSHAKE'] 00
None [\"opened channel 1 in row 0 for the peer's channel 17\"]
None HANDSHAKE from channel 1 with the profile's options, root ba7816bf..
3 0 1 {open} ['HAVE', None] 02
message 2 at byte 13 (digit 43): type 7 is unknown []
None None
4 0 1 {open} ['DATA'] 00
None ['stored chunk 0', \"acknowledges chunk 0 to the peer's channel 17\", 'the pack is whole']
{one} ACK of chunk 0, delay 0
5 None None None [] 0f
character 1 is '\"', no hexadecimal digit []
None None
[('02', 1), ('0f', 1)]
"
    );
    assert_eq!(python(program, &[json(&[name])]), wanted);
}

#[test]
fn json_of_a_bad_line_one() {
    let name = File::new(b"\\\n00\n");
    let program = "import json, sys
whole = json.load(open(sys.argv[1]))
print(whole['order'], whole['order_answer']['code'], whole['order_answer']['reason'])
print(whole['lines'], whole['held'], whole['whole'], whole['line_count'])";
    let reason = "it has 1 character, a root and a length have 72; character 1 is '\\', no hexadecimal digit";
    let wanted = format!("None 0c {reason}\n[] None None 1\n");
    assert_eq!(python(program, &[json(&[name])]), wanted);
}
