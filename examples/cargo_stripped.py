"""Definitions that are kept in a file and compiled without a macro.

usage: cargo_stripped.py PROGRAM EXPAND FOLDER

EXPAND is the path of expand.sh, which uses strip.py beside it. What they print for the texts below is compared, and the
first is compiled with the impls and run.
"""
import os
import subprocess
import sys

from strip import stripped

SOURCE = r'''//! A file with definitions: #[educe(Debug)] is no attribute here.
use educe::Educe;
use std::rc::Rc;

/* Nor /* here: #[educe(Debug)] */ */
/// A handle.
#[derive(Educe)]
#[educe(PartialEq)] #[must_use]
#[educe(
    Debug(name = "Shown"),
    Clone(bound = "[u8; 1]: Copy"), // a comment with ]
)]
pub struct Handle<T> where T: Fn() -> u8 {
    id: u64, #[educe(PartialEq(ignore), Debug = "text")] note: &'static str,
    #[educe(PartialEq(ignore), Debug(ignore))] /* what is shared */
    #[educe(Clone(method = Rc::clone))]
    data: Rc<T>,
}

mod levels {
    #[educe(PartialEq, PartialOrd, Default)]
    #[derive(Clone, educe::Educe)]
    pub(crate) enum Level { Low, #[educe(Default)] High(#[educe(PartialEq(ignore))]u8) }
}

const TEXTS: [&str; 3] = ["#[educe(Debug)]", r#"" #[educe(Debug)]"#, "\"#[educe(Debug)]"];
#[allow(dead_code)] struct Plain<'a>(&'a str, [u8; 1]);
'''

STRIPPED = r'''//! A file with definitions: #[educe(Debug)] is no attribute here.
use std::rc::Rc;

/* Nor /* here: #[educe(Debug)] */ */
/// A handle.
#[must_use]
pub struct Handle<T> where T: Fn() -> u8 {
    id: u64, note: &'static str,
    /* what is shared */
    data: Rc<T>,
}

mod levels {
    #[derive(Clone)]
    pub(crate) enum Level { Low, High(u8) }
}

const TEXTS: [&str; 3] = ["#[educe(Debug)]", r#"" #[educe(Debug)]"#, "\"#[educe(Debug)]"];
#[allow(dead_code)] struct Plain<'a>(&'a str, [u8; 1]);
'''

MAIN = r'''
fn main() {
    let handle = |id| Handle { id, note: "a", data: Rc::new(|| 1) };
    assert!(handle(1).clone().id == 1 && format!("{:?}", handle(2)) == r#"Shown { id: 2, text: "a" }"#);
    assert!(levels::Level::High(1).clone() == levels::Level::High(2) && levels::Level::Low < levels::Level::High(0));
    assert!(levels::Level::default() == levels::Level::High(9));
    assert_eq!(TEXTS.map(str::len), [15, 17, 16]);
    let plain = Plain("a", [1]);
    assert_eq!((plain.0, plain.1), ("a", [1]));
}
'''

FAULTY = '''struct Plain;

mod inner {
    /// A job.
    #[educe(Ord)] struct Job {
        #[educe(Ord(rank = 1))]
        name: u8,
        #[educe(Ord(rank = 1))]
        priority: u8,
    }
    #[educe(Default)] union Bits { word: u32 }
}
'''

def run(expand, program, path):
    """What expand.sh prints for a file."""
    return subprocess.run([expand, program, path], capture_output=True, text=True)

def write(folder, name, text):
    """A file of the folder."""
    path = os.path.join(folder, name)
    with open(path, "w", encoding="utf-8") as file:
        file.write(text)
    return path

def check(name, right, shown):
    """Prints what came of a test."""
    print(f"{name}: {'as it should be' if right else 'OTHERWISE: ' + shown}")
    return right

def check_run(program, expand, folder):
    """Compiles a file with its impls, and runs it."""
    expanded = run(expand, program, write(folder, "handle.educe.rs", SOURCE + MAIN))
    path = write(folder, "handle.rs", expanded.stdout)
    binary = os.path.join(folder, "handle")
    compiled = subprocess.run(["rustc", "--edition", "2021", "-A", "warnings", "-o", binary, path], capture_output=True, text=True)
    if compiled.returncode:
        return check("compiled", False, expanded.stderr + compiled.stderr)
    return check("compiled and run", subprocess.run([binary]).returncode == 0, "")

def check_faulty(program, expand, folder):
    """The places of messages are those in the file."""
    path = write(folder, "faulty.rs", FAULTY)
    answer = run(expand, program, path)
    wanted = f"{path}:8:21: the rank `1` is repeatedly used\n{path}:11:23: `union` is not supported\n"
    right = answer.returncode == 1 and answer.stdout == "" and answer.stderr == wanted
    return check("rejected", right, answer.stdout + answer.stderr)

def main():
    program, expand, folder = sys.argv[1:]
    os.mkdir(folder)
    good = check("stripped", stripped(SOURCE) == STRIPPED, stripped(SOURCE))
    good &= check("stripped again", stripped(STRIPPED) == STRIPPED, stripped(STRIPPED))
    good &= check_run(program, expand, folder)
    good &= check_faulty(program, expand, folder)
    sys.exit(not good)

if __name__ == "__main__":
    main()
