//! What `generate` and `compare` promise.

use crate::calls::{lines, run_script};
use crate::compare::{compare, Plan};
use crate::coverage::Coverage;
use crate::generate::{all_verbs, script, Profile};
use crate::odd::converse;

#[test]
fn generate_is_deterministic() {
    for profile in Profile::ALL {
        let verbs = all_verbs();
        let one = script(7, 200, profile, &verbs);
        assert_eq!(one, script(7, 200, profile, &verbs));
        assert_ne!(one, script(8, 200, profile, &verbs));
        assert!(one.starts_with(b"digest 1\nnew"));
    }
}

#[test]
fn generate_keeps_to_its_verbs() {
    let verbs = ["create_window", "close_window", "counts"];
    let text = script(3, 100, Profile::Normal, &verbs);
    let used = lines(&text)
        .filter(|line| line[0] != b'#')
        .map(|line| String::from_utf8_lossy(line).split(' ').next().unwrap().to_string());
    assert!(used.into_iter().all(|verb| verbs.contains(&verb.as_str())));
}

/// In normal scripts each accepted close is followed at once by its release, and nothing is at its end.
#[test]
fn normal_scripts_keep_the_premises() {
    for seed in 0..200 {
        let text = script(seed, 300, Profile::Normal, &all_verbs());
        let out = run_script(&text);
        let calls = lines(&text).filter(|line| line[0] != b'#').collect::<Vec<_>>();
        for (place, answer) in out.lines().enumerate() {
            let number = answer.split(' ').nth(1).unwrap();
            assert!(!matches!(number, "21" | "22" | "?"));
            let call = String::from_utf8_lossy(calls[place]).into_owned();
            assert_ne!(call, "shutdown");
            if let (Some(panel), "0") = (call.strip_prefix("close_surface "), number) {
                let next = String::from_utf8_lossy(calls[place + 1]).into_owned();
                assert!(next == "release_all" || next == format!("release_surface {panel}"));
            }
        }
    }
}

/// Every profile has every verb, payload and event accepted; only the premises leave out the shutdown.
#[test]
fn every_profile_has_every_verb() {
    for profile in Profile::ALL {
        let mut coverage = Coverage::default();
        for seed in 0..300 {
            coverage.add(&script(seed, 200, profile, &all_verbs()));
        }
        let mut missing = coverage.missing_pairs();
        missing.retain(|(_, number)| *number == 0);
        let without = if profile == Profile::Normal { vec!["shutdown"] } else { vec![] };
        let missing = missing.iter().map(|(verb, _)| verb.as_str()).collect::<Vec<_>>();
        assert_eq!(missing, without, "{}", profile.name());
    }
}

#[test]
fn compare_finds_and_shrinks_a_fault() {
    let plan = Plan {
        count: 20,
        calls: 200,
        seed: 1,
        profiles: Profile::ALL.to_vec(),
        verbs: all_verbs(),
    };
    assert!(compare(&plan, &mut |script| run_script(script).into_bytes()).is_ok());
    // A program that refuses the second window of any script.
    let mut faulty = |script: &[u8]| {
        let out = run_script(script);
        out.lines().map(|line| fault(line) + "\n").collect::<String>().into_bytes()
    };
    let report = compare(&plan, &mut faulty).err().expect("the fault is found");
    assert!(report.contains("shortest script found (2 lines"), "{report}");
    assert!(report.contains("create_window\ncreate_window\n"), "{report}");
    // A program that stops early differs too.
    let mut short = |script: &[u8]| {
        run_script(script)
            .lines()
            .take(3)
            .map(|line| format!("{line}\n"))
            .collect::<String>()
            .into_bytes()
    };
    let report = compare(&plan, &mut short).err().expect("the missing lines are found");
    assert!(report.contains("(no line)"), "{report}");
}

/// Dropped lines shift handles and revisions; the lines that remain still name what they named.
#[test]
fn shrinking_keeps_handles_and_revisions() {
    let identity = "0 0 0 0 0 0 0 0 0 0 65536 0 0 65536 0 0 65535 1";
    let panel = format!("attach_surface 2 1 0 0 2 0 {identity}\n");
    let script = [
        "create_window\n",
        "create_window\n",
        "create_view 1 1\n",
        "create_view 0 1\n",
        "create_view 1 1\n",
        &panel,
        &panel,
        "capture_pointer_for 5 1 7 1 1 7\n",
        "view_pointer_captures 2 1\n",
        "counts\n",
    ];
    // A program that cannot show the capture of contact 7.
    let mut faulty = |script: &[u8]| run_script(script).replace("1,5,1,7,", "0,").into_bytes();
    let report = crate::shrink::shrink(script.concat().as_bytes(), &mut faulty);
    let shortest = [
        "create_window\n",
        "create_view 0 1\n",
        &panel.replace("2 1 0", "0 1 0"),
        "capture_pointer_for 5 1 7 0 1 3\n",
        "view_pointer_captures 0 1\n",
        "answer\n",
    ];
    assert!(report.contains(&shortest.concat()), "{report}");
    assert!(report.contains("column 8, number 1: driver 1, port 0"), "{report}");
}

/// Turns an accepted handle 1.1 without more into a refusal.
fn fault(line: &str) -> String {
    let columns = line.split(' ').collect::<Vec<_>>();
    match columns[1..8] {
        ["0", "2", "-", "-", "-", "1.1", "-"] => line.replacen(" 0 2 ", " 3 2 ", 1),
        _ => line.to_string(),
    }
}

/// A conversation hears what the program says, and notices one that says nothing.
#[test]
fn a_conversation_awaits_each_answer() {
    assert_eq!(
        converse("cat", b"counts\n\n# no answer\n"),
        Err("an answer to no line".to_string())
    );
    assert_eq!(converse("cat", b"counts\nstate"), Ok(b"counts\nstate\n".to_vec()));
    assert!(converse("true", b"counts\ncounts\n").is_err());
}
