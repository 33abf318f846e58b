//! What a C program prints of the header: a line for each value of each name.

use reference::{LONGEST, ROOM};
use std::collections::BTreeMap;
use std::fs::{self, File};
use std::path::Path;
use std::process::Command;

const HEADER: &str = include_str!("../../../../include/yarvelow.h");

/// What stands under each name: one value of a number, of a macro those of 0 to the room, of an inline function those
/// of every answer or image that is tried.
pub type Printed = BTreeMap<String, Vec<u64>>;

/// The header without its comments.
pub fn code() -> String {
    let mut parts = HEADER.split("/*");
    let first = parts.next().unwrap().to_string();
    parts.fold(first, |code, part| {
        code + part.split_once("*/").expect("a comment ends").1
    })
}

/// The name that a text begins with.
pub fn name(text: &str) -> &str {
    let end = text.find(|c: char| c != '_' && !c.is_ascii_alphanumeric());
    &text[..end.unwrap_or(text.len())]
}

/// The C statement that prints what a line of the header defines, if it defines anything. Numbers and macros stand
/// inside an expression, so that a missing bracket is seen.
fn statement(line: &str) -> Option<String> {
    let (defines, each, value) = if let Some(defines) = line.strip_prefix("#define ") {
        let each = format!("for (unsigned k = 0; k <= {ROOM}; k++) ");
        match &defines[name(defines).len()..] {
            "" => return None,
            rest if rest.starts_with('(') => (defines, each, "2 * NAME(0 | k) / 2"),
            _ => (defines, String::new(), "2 * NAME / 2"),
        }
    } else if let Some(inline) = line.strip_prefix("static inline ") {
        let defines = &inline[inline.find("yarvelow_")?..];
        let (each, value) = match &defines[name(defines).len()..defines.find(')')? + 1] {
            "(uint64_t answer)" => ("for (size_t i = 0; i < tried; i++) ", "NAME(answers[i])"),
            "(const uint8_t *image)" => (
                "for (rewind(images); fread(image, sizeof image, 1, images) == 1;) ",
                "NAME(image)",
            ),
            _ => return None,
        };
        (defines, each.to_string(), value)
    } else {
        let defines = line.trim_start();
        (defines.starts_with("YARVELOW_") && defines.contains(" = ")).then_some((
            defines,
            String::new(),
            "2 * NAME / 2",
        ))?
    };
    let statement = format!("{each}printf(\"NAME %llu\\n\", (unsigned long long)({value}));\n");
    Some(statement.replace("NAME", name(defines)))
}

/// The program that prints everything.
fn program(answers: &[u64]) -> String {
    let answers: String = answers.iter().map(|a| format!("{a}u, ")).collect();
    let statements: String = code().lines().filter_map(statement).collect();
    format!(
        "#include <stdio.h>
#include <yarvelow.h>
static const uint64_t answers[] = {{{answers}}};
static const size_t tried = sizeof answers / sizeof *answers;
static uint8_t image[{LONGEST}];
int main(void) {{
FILE *images = fopen(\"images\", \"rb\");
if (!images) return 1;
{statements}return 0;
}}
"
    )
}

/// Compiles that program and runs it, with these answers and images for the inline functions. `work` is a directory for
/// it.
pub fn printed(work: &str, answers: &[u64], images: &[Vec<u8>]) -> Printed {
    let work = Path::new(env!("CARGO_TARGET_TMPDIR")).join(work);
    let mut padded = images.to_vec();
    padded.iter_mut().for_each(|image| image.resize(LONGEST, 0));
    fs::create_dir_all(&work).unwrap();
    fs::write(work.join("images"), padded.concat()).unwrap();
    fs::write(work.join("yarvelow.h"), HEADER).unwrap();
    fs::write(work.join("print.c"), program(answers)).unwrap();
    let run = |program: &Path, arguments: &str| {
        let told = File::create(work.join("told")).unwrap();
        let status = Command::new(program)
            .args(arguments.split_whitespace())
            .current_dir(&work)
            .stdout(told)
            .status();
        assert!(status.unwrap().success(), "{program:?} {arguments}");
    };
    run(
        Path::new("cc"),
        "-std=c11 -Wall -Wextra -Werror -I. print.c -o print",
    );
    run(&work.join("print"), "");
    let mut all = Printed::new();
    for line in fs::read_to_string(work.join("told")).unwrap().lines() {
        let (name, value) = line.split_once(' ').unwrap();
        let values = all.entry(name.to_string()).or_default();
        values.push(value.parse().unwrap());
    }
    all
}
