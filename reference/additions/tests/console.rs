//! The console, no part of the paper, over section "Account and its calls": every call, every refusal that a script can
//! reach, lines that are no calls, what may stand around words and lines, and long scripts.

use additions::console::console;

fn run(script: &str) -> Vec<String> {
    console(script.as_bytes()).text.lines().map(str::to_string).collect()
}

#[test]
fn every_call() {
    let script = "\
# document 002
statement
cut 0
weights 9870 21478
reading 0 0
reading 2 25424000
cut 1
statement
withdraw 2

statement
reading 2 2000000001
reading 2 5
reading 1 6
reading 1 4
reading 1 4
uncut 1
uncut 1
withdraw 0
withdraw 0
reading 3 0
cut 2
cut 2
statement
weights 0
days 0 0 1000 1000 1000 1000 1000 1000
statement";
    let expected = "\
refused 3 0
refused 3 0
done
done
done
done
parts 2
0 1 8004813
1 2 17419187
sum 25424000
done
refused 11 0
refused 9 0
done
refused 8 0
done
refused 7 0
done
refused 10 0
done
refused 10 0
refused 6 0
done
refused 7 0
parts 1
1 2 1
sum 1
refused 5 0
done
refused 11 0";
    assert_eq!(run(script).join("\n"), expected);
}

#[test]
fn the_example_file_as_a_script() {
    let script = "days 0 0 1000 1000 1000 1000 1000 1000\nreading 0 500\nreading 3 600\ncut 1\ncut 2\nstatement\n";
    assert_eq!(run(script)[5..], ["parts 3", "0 1 33", "1 2 34", "2 3 33", "sum 100"]);
}

/// Change request K1: the working day and the holiday of a bakery, and days that name their own weekday.
#[test]
fn days_of_a_calendar() {
    for (calendar, parts) in [
        ("", ["0 1 411", "1 2 413", "2 3 176"]),
        ("as 7 7 7", ["0 1 411", "1 2 413", "2 3 176"]),
        (" as  3 04\t5", ["0 1 411", "1 2 413", "2 3 176"]),
        ("as 6 7 7", ["0 1 370", "1 2 442", "2 3 188"]),
    ] {
        let days = format!("days 7 3 1000 1000 1000 1000 1000 1000 {calendar}");
        let script = days + "\nreading 0 0\nreading 3 1000\ncut 1\ncut 2\nstatement\n";
        assert_eq!(run(&script)[6..9], parts, "{calendar:?}");
    }
}

#[test]
fn refused_calendars() {
    for (line, answer) in [
        ("days 7 3 1000 1000 1000 1000 1000 1000 as 7 8 9", "refused 14 1"),
        ("days 7 3 1000 1000 1000 1000 1000 1000 as 255 7 7", "refused 14 0"),
        ("days 7 3 1000 1000 1000 1000 1000 4000 as 8 7 7", "refused 4 5"),
        ("days 7 7 1000 1000 1000 1000 1000 1000 as 0 1 2", "refused 2 0"),
        ("days 7 3 1000 1000 1000 1000 1000 1000 as 7 7", "refused 3 0"),
        ("days 7 3 1000 1000 1000 1000 1000 1000 as 7 7 7 7", "refused 3 0"),
        ("days 7 3 1000 1000 1000 1000 1000 1000 as", "refused 3 0"),
        ("days 7 3 as", "refused 3 0"),
        ("days 7 3 as 7", "refused 3 0"),
    ] {
        assert_eq!(run(line), [answer], "{line:?}");
    }
}

#[test]
fn refused_openings_leave_the_account() {
    let script = "weights 7 7\nreading 0 0\nreading 2 1\nweights 7000000\ndays 10 9 1\ndays 10 9 1 2 3 4\n\
                  days 9 9 1 2 3 4\ndays 9 6 1 2 -5001 4\nstatement";
    let expected =
        ["refused 5 0", "refused 3 0", "refused 1 0", "refused 2 0", "refused 4 2", "parts 1", "0 2 1", "sum 1"];
    assert_eq!(run(script)[3..], expected);
}

#[test]
fn too_many_days() {
    let weights = |n| format!("weights{}", " 1".repeat(n));
    assert_eq!(run(&weights(1_096)), ["done"]);
    assert_eq!(run(&weights(1_097)), ["refused 3 0"]);
    assert_eq!(run(&weights(0)), ["refused 3 0"]);
    let days = |n| format!("days 0 0{}", " -1".repeat(n));
    assert_eq!(run(&days(1_099)), ["done"]);
    assert_eq!(run(&days(1_100)), ["refused 3 0"]);
    assert_eq!(run(&days(0)), ["refused 3 0"]);
    let bytes = |n| days(1_099) + " as" + &" 7".repeat(n);
    assert_eq!(run(&bytes(1_096)), ["done"]);
    assert_eq!(run(&bytes(1_097)), ["refused 3 0"]);
    assert_eq!(run(&bytes(99_999)), ["refused 3 0"]);
}

#[test]
fn lines_that_are_no_calls() {
    for line in [
        "Statement",
        "statement 1",
        "cut",
        "cut ",
        "cut 1 2",
        "cut -1",
        "cut +1",
        "cut 1x",
        "reading 1",
        "reading 1 18446744073709551616",
        "cut 18446744073709551616",
        "weights 4294967296",
        "weights -1",
        "days",
        "days 0",
        "days 0 ",
        "days 256 0",
        "days 0 256",
        "days 0 0 32768",
        "days 0 0 -32769",
        "days 0 0 -",
        "days 0 0 - 1",
        "days 0 0 --1",
        "days -0 0",
        "days as 0 0 0 0 0",
        "days 0 as 0 0 0 0",
        "days 0 0 0 0 0 0 as x",
        "days 0 0 0 0 0 0 as 256",
        "days 0 0 0 0 0 0 as -1",
        "days 0 0 0 0 0 0 as -0",
        "days 0 0 0 0 0 0 as 7 as",
        "days 0 0 0 0 0 0 as as 7",
        "days 0 0 0 0 0 0 As 7",
        "days 0 0 0 0 0 0 as7",
        "weights 1 as 7",
        "help 1",
        "help #",
        "statement # now",
        "open",
        "cut\r1",
        "cut 1\r\r",
        "\r\r",
        "\rcut 1",
        "cut 1\r ",
        "cut 1\x0b",
        "cut\x0c1",
        "cut\u{a0}1",
        "\0",
        "cut 1\0",
        "cut\0 1",
        "statement\0",
        "\0#",
        "é",
    ] {
        for end in ["", "\n", "\r\n"] {
            assert_eq!(run(&format!("\n#\n{line}{end}")), ["unknown 3"], "{line:?} {end:?}");
        }
    }
    assert_eq!(console(b"\xff\ncut 0\n#\xff\n").text, "unknown 1\nrefused 3 0\n");
}

#[test]
fn the_exit_status() {
    for script in ["", "\n", "#", "cut 0\n", "help", "weights 1\nreading 5 5\n \t\r\n"] {
        assert_eq!(console(script.as_bytes()).status, 0, "{script:?}");
    }
    for script in ["x", "x\ncut 0\n", "cut 0\nx", "weights 1\nreading 5\nstatement\n"] {
        assert_eq!(console(script.as_bytes()).status, 1, "{script:?}");
    }
}

#[test]
fn blanks_and_tabs_around_words() {
    let script =
        "  weights \t 1   1 \nreading 0\t\t0\n\treading 2 7\t\n cut\t1\n\tstatement  \n weights \n days 0 0 \n";
    let expected = "done,done,done,done,parts 2,0 1 4,1 2 3,sum 7,refused 3 0,refused 3 0";
    assert_eq!(run(script).join(","), expected);
}

#[test]
fn lines_without_an_answer() {
    for line in ["", " ", "\t", " \t  ", "#", "# cut 1", "#cut 1", "  # cut 1", "\t#", "#\0", " #\r"] {
        for end in ["", "\n", "\r\n"] {
            assert_eq!(run(&format!("{line}{end}")), NOTHING, "{line:?} {end:?}");
        }
    }
}

#[test]
fn the_ends_of_lines() {
    let lines = ["weights 1", "reading 0 0", "", "# x", "reading 1 12", "statement"];
    for end in ["\n", "\r\n", " \r\n"] {
        let script = lines.join(end);
        assert_eq!(run(&script)[2..], STATEMENT, "{end:?}");
        assert_eq!(run(&(script + end))[2..], STATEMENT, "{end:?}");
    }
    assert_eq!(run("weights 1\r"), ["done"]);
}

#[test]
fn help_names_every_call() {
    let help = run("help");
    let names = ["weights", "days", "days", "reading", "withdraw", "cut", "uncut", "statement", "help"];
    for (line, name) in help.iter().zip(names) {
        assert_eq!(line.split(' ').next(), Some(name));
    }
    assert_eq!(run(" help \r\nhelp"), [&help[..], &help[..]].concat());
}

#[test]
fn numbers_that_just_fit() {
    let script = "weights 4294967295\nweights 01\nreading 18446744073709551615 0\nreading 000 18446744073709551615\n\
                  days 255 0 32767 32767 32767 32767\ndays 0 255 0 0 0 0\ndays 0 0 -32768 0 0 0\ndays 0 0 -0 0 0 0";
    let expected = "refused 5 0,done,refused 6 0,done,refused 1 0,refused 2 0,refused 4 0,done";
    assert_eq!(run(script).join(","), expected);
}

const STATEMENT: [&str; 4] = ["done", "parts 1", "0 1 12", "sum 12"];
const NOTHING: [&str; 0] = [];

#[test]
fn long_scripts_and_lines() {
    let first = "weights 1\nreading 0 0\n";
    for between in ["#", "\n", " ", "\t", " \n"] {
        let script = format!("{first}{}\nreading 1 12\nstatement", between.repeat(300_000));
        assert_eq!(run(&script)[2..], STATEMENT, "{between:?}");
    }
    assert_eq!(run(&("\n".repeat(300_000) + "x")), ["unknown 300001"]);
    assert_eq!(run(&format!("weights {}1", "0".repeat(300_000))), ["done"]);
    assert_eq!(run(&format!("weights 1{}", "0".repeat(300_000))), ["unknown 1"]);
    assert_eq!(run(&"statement\n".repeat(20_000)), vec!["refused 3 0"; 20_000]);
    assert_eq!(run(""), NOTHING);
}

/// The whole line is judged first.
#[test]
fn a_bad_word_past_the_longest_span() {
    let line = |head: &str, words: usize, last: &str| format!("{head}{} {last}\n", " 1".repeat(words));
    let calendar = "days 0 0 1 1 1 1 as";
    for (head, words) in [
        ("weights", 1_096),
        ("weights", 99_999),
        ("days 0 0", 1_099),
        ("days 0 0", 99_999),
        (calendar, 1),
        (calendar, 1_096),
        (calendar, 99_999),
    ] {
        assert_eq!(console(line(head, words, "1").as_bytes()).text, "refused 3 0\n");
        assert_eq!(console(line(head, words, "x").as_bytes()).text, "unknown 1\n");
        assert_eq!(console(line(head, words, "1 x").as_bytes()).text, "unknown 1\n");
    }
}
