//! What files are read as, and what is found in them.
use ioc_site::{Reading, Statement, Word};
use ioc_site_reader::{Request, Sources, parse_definitions, read_files};
use std::alloc::{AllocError, Global};
use std::process::Abort;
use std::test::Fail;

/// Files by their paths.
#[derive(Drop)]
struct Texts<'a> {
    alloc: Global,
    list: &'a [(&'a [u8], &'a [u8])],
}

impl Sources for Texts<'_> {
    fn read(&mut self, path: &[u8]) -> Result<Option<Vec<u8>>, AllocError> {
        for (known, text) in self.list {
            if *known == path {
                return Ok(Some(text.to_vec(self.alloc)?));
            }
        }
        Ok(None)
    }
}

/// Reads the first of these files, with macros.
fn read(alloc: Global, macros: &[u8], list: &[(&[u8], &[u8])]) -> Result<Reading, AllocError> {
    let mut texts = Texts { alloc, list };
    let macros = parse_definitions(alloc, macros)?.list;
    let path = match list.first() {
        Some((path, _)) => *path,
        None => b"",
    };
    let request = Request {
        paths: &[path],
        macros: macros.as_slice(),
        folders: &[b"shared"],
        is_alone: false,
    };
    read_files(alloc, &mut texts, request)
}

/// Returns the findings, one on each line.
fn findings(alloc: Global, reading: &Reading) -> Result<Vec<u8>, AllocError> {
    let mut text = Vec::new(alloc);
    for finding in &reading.findings {
        let place = finding.place;
        if let Some(file) = reading
            .files
            .get(usize::try_from(place.file).unwrap_or(usize::MAX))
        {
            text.extend_from_slice(file.as_slice())?;
        }
        let place = format!(in alloc; ":{}:{}: ", place.line, place.column)?;
        text.extend_from_slice(place.as_bytes())?;
        text.extend_from_slice(finding.text.as_slice())?;
        text.push(b'\n')?;
    }
    Ok(text)
}

/// Appends a word, between quotes if it has them.
fn show(text: &mut Vec<u8>, word: &Word) -> Result<(), AllocError> {
    let quote: &[u8] = if word.quoted { b"\"" } else { b"" };
    text.extend_from_slice(quote)?;
    text.extend_from_slice(word.text.as_slice())?;
    text.extend_from_slice(quote)
}

/// Returns the statements, one on each line.
fn statements(alloc: Global, reading: &Reading) -> Result<Vec<u8>, AllocError> {
    let mut text = Vec::new(alloc);
    for statement in &reading.statements {
        match statement {
            Statement::Record(record) => {
                show(&mut text, &record.record_type)?;
                text.push(b' ')?;
                show(&mut text, &record.name)?;
                for entry in &record.entries {
                    text.push(b' ')?;
                    show(&mut text, &entry.name)?;
                    text.push(b'=')?;
                    show(&mut text, &entry.value)?;
                }
                for alias in &record.aliases {
                    text.extend_from_slice(b" alias ")?;
                    show(&mut text, alias)?;
                }
            }
            Statement::Alias { record, alias } => {
                show(&mut text, record)?;
                text.extend_from_slice(b" alias ")?;
                show(&mut text, alias)?;
            }
            Statement::Skipped(word) => {
                text.extend_from_slice(b"skipped ")?;
                show(&mut text, word)?;
            }
        }
        text.push(b'\n')?;
    }
    Ok(text)
}

/// Returns what is found in a file `a.db`, with macros.
fn found(alloc: Global, macros: &[u8], text: &[u8]) -> Result<Vec<u8>, AllocError> {
    let reading = read(alloc, macros, &[(b"a.db", text)])?;
    findings(alloc, &reading)
}

/// Returns what a file `a.db` has in it, with macros.
fn said(alloc: Global, macros: &[u8], text: &[u8]) -> Result<Vec<u8>, AllocError> {
    let reading = read(alloc, macros, &[(b"a.db", text)])?;
    let mut said = statements(alloc, &reading)?;
    said.extend_from_slice(findings(alloc, &reading)?.as_slice())?;
    Ok(said)
}

#[test]
fn reads_statements(rt: HostRuntime) -> Result<(), Fail> {
    let cases = [
        (b"".as_slice(), b"".as_slice()),
        (b"record(ai, \"a\")", b"ai \"a\"\n"),
        (b"grecord(ai, a:b.c) {}", b"ai a:b.c\n"),
        (
            b"record(ai, \"a\") {\n  field(VAL, 1.5) # one\n  field(DESC, \"# \\\"x\\\"\")\n}\n",
            b"ai \"a\" VAL=1.5 DESC=\"# \"x\"\"\n",
        ),
        (
            b"record(*, \"a\") { info(b, \"c\") alias(d) }\nalias(\"a\", \"e\")",
            b"* \"a\" b=\"c\" alias d\n\"a\" alias \"e\"\n",
        ),
        (
            b"record(ai, a) { field(INP, {pva:{pv:\"x\", b:[1,2]}}) info(q, [1,\n 2]) }",
            b"ai a INP={pva:{pv:\"x\", b:[1,2]}} q=[1,\n 2]\n",
        ),
        (
            b"\xef\xbb\xbfmenu(x) { choice(a, \"}\") }\r\nvariable(v, int)\r\nrecord(ai, a)\r\n",
            b"skipped menu\nskipped variable\nai a\n",
        ),
        (
            b"recordtype(x) { include \"d.dbd\" field(VAL, DBF_LONG) { prompt(\"p\") }\n\
              %  int a;\n}",
            b"skipped recordtype\n",
        ),
    ];
    for (text, expected) in cases {
        assert_eq!(rt; said(rt.alloc(), b"", text)?.as_slice(), expected);
    }
    Ok(())
}

/// Checks a text, and shows both as text if they differ.
fn assert_same(
    rt: &impl Abort,
    alloc: Global,
    text: &[u8],
    expected: &[u8],
) -> Result<(), AllocError> {
    let text = String::from_utf8_lossy(alloc, text)?;
    let expected = String::from_utf8_lossy(alloc, expected)?;
    assert_eq!(rt; text.as_str(), expected.as_str());
    Ok(())
}

/// Checks what is found in texts.
fn check(rt: &impl Abort, alloc: Global, cases: &[(&[u8], &[u8])]) -> Result<(), AllocError> {
    for (text, expected) in cases {
        let found = found(alloc, b"P=ioc:", text)?;
        assert_same(rt, alloc, found.as_slice(), expected)?;
    }
    Ok(())
}

#[test]
fn finds_mistakes_of_bytes(rt: HostRuntime) -> Result<(), Fail> {
    let cases = [
        (
            b"record(ai, a)\rrecord(ai, b)".as_slice(),
            b"a.db:1:14: a carriage return without a line feed; \
              put a line feed behind it\n"
                .as_slice(),
        ),
        (
            b"\xff\xfer\0",
            b"a.db:1:1: the file is UTF-16; save it as UTF-8\n",
        ),
        (
            b"record(ai, a)\n\0",
            b"a.db:2:1: a byte that is 0; drop it\n",
        ),
        (b"# $(Q) \"\n", b""),
    ];
    check(&rt, rt.alloc(), cases.as_slice())?;
    Ok(())
}

#[test]
fn finds_mistakes_of_macros(rt: HostRuntime) -> Result<(), Fail> {
    let cases = [
        (
            b"record(ai, \"$(P)$(Q)\") {\n  field(DESC, \"$(P)\" 1)\n}".as_slice(),
            b"a.db:1:17: macro Q has no value: give Q=..\n\
              a.db:2:22: ')' is missing behind field(DESC, \"ioc:\"; put ')' there\n"
                .as_slice(),
        ),
        (
            b"record(ai, $(Q=$(R)))",
            b"a.db:1:16: macro R has no value: give R=..\n",
        ),
        (
            b"substitute \"Q=$(R),R=$(Q)\"\nrecord(ai, \"$(Q)\")",
            b"a.db:2:13: macro Q has itself in its value; give it another value\n",
        ),
        (
            b"record(ai, a) # $(Q\nalias(a, \"$(Q)",
            b"a.db:2:11: macro Q has no value: give Q=..\n",
        ),
        (
            b"record(ai, $(Q",
            b"a.db:1:12: the macro isn't closed; put ')' behind its name\n",
        ),
        (
            b"substitute Q=1\nsubstitute \"Q\"",
            b"a.db:1:1: substitute has no text in quotes; write substitute \"A=x,B=y\"\n\
              a.db:2:1: 'Q' defines no macro; write NAME=VALUE\n",
        ),
    ];
    check(&rt, rt.alloc(), cases.as_slice())?;
    Ok(())
}

#[test]
fn finds_mistakes_of_statements(rt: HostRuntime) -> Result<(), Fail> {
    let cases = [
        (
            b"recrod(ai, a) { field(VAL 1) }".as_slice(),
            b"a.db:1:1: 'recrod' is no statement; did you mean record?\n\
              a.db:1:27: ',' is missing behind field(VAL; put ',' there\n"
                .as_slice(),
        ),
        (
            b"fild(VAL, 1) field(B, 1)\nrecord(ai \"a\") { field(VAL, 1 }",
            b"a.db:1:1: 'fild' is no statement; begin one with record, alias or include\n\
              a.db:2:11: ',' is missing behind record(ai; put ',' there\n\
              a.db:2:31: ')' is missing behind field(VAL, 1; put ')' there\n",
        ),
        (
            b"field(VAL, 1)\n}\nalias(a, b)\nrecord(ai)",
            b"a.db:1:1: field outside the body of a record; put it inside of one\n\
              a.db:4:10: ',' is missing behind record(ai; put ',' there\n",
        ),
        (
            b"record(ai, a) { } }\n(record(ai, b)\nalias(a)",
            b"a.db:1:19: '}' closes nothing; drop it\n\
              a.db:2:1: '(' begins no statement; begin one with record, alias or include\n\
              a.db:3:8: ',' is missing behind alias(a; put ',' there\n",
        ),
        (
            b"record(ai, \"a\") {\n field(VAL, 1)\n\nrecord(ai, b) {",
            b"a.db:4:1: record inside the body of \"a\", which opens on line 1; close it with '}'\n\
              a.db:4:15: the body of \"b\", which opens on line 4, isn't closed; \
              put '}' at its end\n",
        ),
        (
            b"menu(a) { choice(\nrecord(ai, b)",
            b"a.db:1:9: '{' isn't closed; put '}' at its end\n",
        ),
    ];
    check(&rt, rt.alloc(), cases.as_slice())?;
    Ok(())
}

#[test]
fn finds_mistakes_of_entries(rt: HostRuntime) -> Result<(), Fail> {
    let cases = [
        (
            b"record(ai, a) {\n feild(A, 1)\n field(, 1)\n field(B,\n field(C, 1)\n}".as_slice(),
            b"a.db:2:2: 'feild' is no entry of a record; did you mean field?\n\
              a.db:3:8: the field's name is missing behind field(; put it there\n\
              a.db:4:9: the value is missing behind field(B, ; put it there\n"
                .as_slice(),
        ),
        (
            b"record(ai, a) {\n field(INP, @asyn(P,0)X)\n field(B, \"x)\n info(y)\n x\n}\n\
              alias(a, b)",
            b"a.db:2:13: '@asyn' can't stand outside quotes; put the text in double quotes\n\
              a.db:3:11: the text that begins here isn't closed; \
              put '\"' at its end, on this line\n\
              a.db:4:8: ',' is missing behind info(y; put ',' there\n\
              a.db:5:2: 'x' is no entry of a record; write field, info or alias\n",
        ),
        (
            b"record(ai, a) { field(INP, {a:[1}) }\nrecord(ai, b)",
            b"a.db:1:28: the value that begins here isn't closed; put ']' behind it\n",
        ),
        (
            b"record(ai, a) { field(INP, {a:\n\nrecord(ai, b)",
            b"a.db:1:28: the value that begins here isn't closed; put '}' behind it\n\
              a.db:3:1: record inside the body of \"a\", which opens on line 1; \
              close it with '}'\n",
        ),
        (
            b"record(ai, a) { field(INP, ['x) }\n",
            b"a.db:1:28: a text in the value that begins here isn't closed; \
              put its quote behind it\n\
              a.db:1:15: the body of \"a\", which opens on line 1, isn't closed; \
              put '}' at its end\n",
        ),
    ];
    check(&rt, rt.alloc(), cases.as_slice())?;
    Ok(())
}

/// Returns what is read of the first of these files, and what is found.
fn all(alloc: Global, list: &[(&[u8], &[u8])]) -> Result<Vec<u8>, AllocError> {
    let reading = read(alloc, b"P=ioc:", list)?;
    let mut said = statements(alloc, &reading)?;
    said.extend_from_slice(findings(alloc, &reading)?.as_slice())?;
    Ok(said)
}

#[test]
fn reads_includes(rt: HostRuntime) -> Result<(), Fail> {
    let list = [
        (
            b"db/a.db".as_slice(),
            b"include \"b.db\"\npath \"x:lib\"\n\
              record(ai, a) {\n include \"c.db\"\n field(B, 2)\n}\n\
              include \"d.db\"\ninclude \"lib/e.db\"\n"
                .as_slice(),
        ),
        (b"db/b.db", b"record(ai, \"$(P)b\")\ninclude \"a.db\""),
        (b"lib/c.db", b"field(A, 1)"),
        (b"shared/e.db", b"record(ai, lost)"),
        (b"lib/e.db", b"record(ai, e"),
    ];
    let expected = b"ai \"ioc:b\"\nai a A=1 B=2\n\
        db/b.db:2:9: the file is among those that include it; drop this include\n\
        db/a.db:7:9: cannot read 'd.db'\n\
        db/a.db:8:9: cannot read 'lib/e.db'\n";
    assert_eq!(rt;
        all(rt.alloc(), list.as_slice())?.as_slice(),
        expected.as_slice()
    );
    let list = [
        (b"b.db".as_slice(), b"include \"e.db\"".as_slice()),
        (b"shared/e.db", b"record(ai, e"),
    ];
    let expected = b"ai e\nshared/e.db:1:12: ')' is missing behind record(ai, e; put ')' there\n";
    assert_eq!(rt;
        all(rt.alloc(), list.as_slice())?.as_slice(),
        expected.as_slice()
    );
    Ok(())
}

#[test]
fn reads_substitutions(rt: HostRuntime) -> Result<(), Fail> {
    let cases = [
        (
            b"file a.template { {Q=x, R=1} {Q=\"y\",R=\"2\" D=\"a b\"} }".as_slice(),
            b"ai \"x1\" DESC=\"none\"\nai \"y2\" DESC=\"a b\"\n".as_slice(),
        ),
        (
            b"global { Q=$(P) }\n\
              file \"$(T=a).template\" {\n pattern {R, D}\n {1, \"b,c\"}\n {2 d} # x\n}\n",
            b"ai \"ioc:1\" DESC=\"b,c\"\nai \"ioc:2\" DESC=\"d\"\n",
        ),
        (
            b"fil a.template { {Q=1,R} }\nfile b.template {{}}\n\
              file a.template { pattern {Q,R} {1} {1,2}",
            b"ai \"12\" DESC=\"none\"\n\
              a.subs:1:1: 'fil' is no statement; did you mean file?\n\
              a.subs:1:23: 'R' defines no macro; write NAME=VALUE\n\
              a.subs:3:33: the pattern has 2 macros and this set 1 value; give one for each\n\
              a.subs:3:41: '}' is missing; put '}' there\n\
              a.subs:2:6: cannot read 'b.template'\n",
        ),
        (
            b"x { }\nfile a.template\nfile a.template { Q=1 }",
            b"a.subs:1:1: 'x' is no statement of a substitution file; write file or global\n\
              a.subs:2:6: '{' is missing behind file a.template; put '{' there\n\
              a.subs:3:19: '{' is missing; put '{' there\n",
        ),
    ];
    let template = b"record(ai, \"$(Q)$(R)\") { field(DESC, \"$(D=none)\") }\n";
    for (text, expected) in cases {
        let list = [
            (b"a.subs".as_slice(), text),
            (b"a.template", template.as_slice()),
        ];
        assert_same(
            &rt,
            rt.alloc(),
            all(rt.alloc(), list.as_slice())?.as_slice(),
            expected,
        )?;
    }
    Ok(())
}
