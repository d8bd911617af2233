//! What is said of each wrong line.

use cli::notation::Exercise;

/// What is said of a text that is wrong.
fn mistake(text: &str) -> String {
    Exercise::read(text.as_bytes()).unwrap_err().to_string()
}

/// The second line of a text is wrong, and this is said of it.
fn assert_wrong(line: &str, message: &str) {
    let said = mistake(&format!("# a comment\n{line}\nstep 0\n"));
    assert_eq!(said, format!("2: {message}"));
}

#[test]
fn unknown_words() {
    let words = "put, take, step, raw, processes, operations, answers or table";
    assert_wrong("begin 1", &format!("expected {words}, found `begin 1`"));
    assert_wrong(
        "Put 7 by 0",
        &format!("expected {words}, found `Put 7 by 0`"),
    );
}

#[test]
fn puts() {
    let form = "expected `put VALUE by PROCESS`";
    assert_wrong("put", &format!("{form}, found `put`"));
    assert_wrong("put 7", &format!("{form}, found `put 7`"));
    assert_wrong("put 7 at 0", &format!("{form}, found `put 7 at 0`"));
    assert_wrong("put 7 by 0 1", &format!("{form}, found `put 7 by 0 1`"));
    let value = "expected a value from 0 to 4294967295";
    assert_wrong("put x by 0", &format!("{value}, found `x`"));
    assert_wrong("put +7 by 0", &format!("{value}, found `+7`"));
    assert_wrong("put -1 by 0", &format!("{value}, found `-1`"));
    assert_wrong(
        "put 4294967296 by 0",
        &format!("{value}, found `4294967296`"),
    );
    let process = "expected a process from 0 to 255";
    assert_wrong("put 7 by a", &format!("{process}, found `a`"));
    assert_wrong("put 7 by 256", &format!("{process}, found `256`"));
}

#[test]
fn takes() {
    let form = "expected `take by PROCESS`";
    assert_wrong("take", &format!("{form}, found `take`"));
    assert_wrong("take 1", &format!("{form}, found `take 1`"));
    assert_wrong(
        "take by 256",
        "expected a process from 0 to 255, found `256`",
    );
}

#[test]
fn steps() {
    let form = "expected `step PROCESS` or `step PROCESS xCOUNT`";
    assert_wrong("step", &format!("{form}, found `step`"));
    assert_wrong("step 0 x 2", &format!("{form}, found `step 0 x 2`"));
    assert_wrong("step 300", "expected a process from 0 to 255, found `300`");
    for count in ["27", "x", "x0", "x-1", "x+1", "xx2", "x1000001"] {
        let message = format!("expected a count from x1 to x1000000, found `{count}`");
        assert_wrong(&format!("step 0 {count}"), &message);
    }
}

#[test]
fn raw_records() {
    let form = "expected `raw` and 8 bytes, each as two hexadecimal digits";
    assert_wrong("raw 00 03", &format!("{form}, found `raw 00 03`"));
    for byte in ["3", "003", "0g", "+3", "0x"] {
        let message = format!("expected a byte from 00 to ff, found `{byte}`");
        assert_wrong(&format!("raw 00 {byte} 00 00 00 00 00 00"), &message);
    }
}

/// Lines may end with LF or CR LF. A text with CR alone would be one line, and with a comment at its beginning
/// an empty list.
#[test]
fn line_ends() {
    let text = "# a comment\nprocesses 2\nput 7 by 1\n";
    let read = |end: &str| Exercise::read(text.replace('\n', end).as_bytes());
    let expected = read("\n").unwrap();
    assert_eq!(read("\r\n").unwrap(), expected);
    assert_eq!(read("\r\r\n").unwrap(), expected);
    assert_eq!(
        Exercise::read(text.trim_end().as_bytes()).unwrap(),
        expected
    );
    let message = "expected lines that end with LF or CR LF, found CR alone";
    assert_eq!(read("\r").unwrap_err().to_string(), format!("1: {message}"));
    assert_wrong("put 7 by 1\rstep 1", message);
    let long = format!("# a comment\r{}", "x".repeat(10_000));
    assert_wrong(&long, message);
}

#[test]
fn headings() {
    for name in ["processes", "operations", "answers", "table"] {
        let form = format!("expected `{name} NUMBER`");
        assert_wrong(name, &format!("{form}, found `{name}`"));
        let two = format!("{name} 2 3");
        assert_wrong(&two, &format!("{form}, found `{two}`"));
        let twice = mistake(&format!("{name} 1\n{name} 1\n"));
        assert_eq!(twice, format!("2: expected `{name}` once, found it again"));
        let late = mistake(&format!("step 0\n\n{name} 1\n"));
        assert_eq!(
            late,
            format!("3: expected `{name}` before the first record")
        );
    }
    assert_wrong(
        "processes two",
        "expected a number from 0 to 4294967295, found `two`",
    );
    assert_wrong(
        "table 1000001",
        "expected a number from 0 to 1000000, found `1000001`",
    );
}
