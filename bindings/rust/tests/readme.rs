//! The README's examples are run as they are read: none of their lines is hidden.

const README: &str = include_str!("../README.md");

/// The lines of the Rust blocks that rustdoc runs and does not show: `# ..`, and `#` alone.
fn hidden(text: &str) -> Vec<&str> {
    let (mut in_block, mut in_rust) = (false, false);
    let mut found = Vec::new();
    for line in text.lines() {
        let line = line.trim();
        if let Some(language) = line.strip_prefix("```") {
            in_block = !in_block;
            in_rust = in_block && (language.is_empty() || language.starts_with("rust"));
        } else if in_rust && (line == "#" || line.starts_with("# ")) {
            found.push(line);
        }
    }
    found
}

#[test]
fn no_line_is_hidden() {
    assert_eq!(hidden(README), Vec::<&str>::new());
}

/// The examples that it shows are those that stand in examples/.
#[test]
fn the_examples_are_shown_as_they_are() {
    let examples = [
        include_str!("../examples/twelve_feeders.rs"),
        include_str!("../examples/settings_card.rs"),
        include_str!("../examples/card_back.rs"),
    ];
    for example in examples {
        assert!(README.contains(&format!("\n```rust\n{example}```\n")));
    }
}

#[test]
fn a_hidden_line_would_be_found() {
    let text = "# Title\n```text\n# shown\n```\n```rust\n#[test]\n# let r = 1.0;\n  # Ok(())\n#\n```\n# Next\n```\n# a\n```\n";
    assert_eq!(hidden(text), ["# let r = 1.0;", "# Ok(())", "#", "# a"]);
    assert!(README.contains("```rust\n"));
}
