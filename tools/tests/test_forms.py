"""tools/forms counts what stands in src/, and nothing else."""

import shutil
import subprocess
import tempfile
import unittest
from pathlib import Path

from stored import ROOT

SOURCE = """// A solution.
pub struct Solution {
    pub found: bool,
    pub valuation: i64,
}

// while nobody looks: kind: usize
fn first(flat: &[i32], n: usize) -> usize
    requires { n < 9 }
{
    let mut i = 0;
    while i < n {
        i += 1;
    }
    numbers::less(i, n)
}

fn last(flat: &[i32], n: usize) -> usize
    requires { n < 9 }
{
    for i in 0..n {
        if flat[i] == 0 {
            return i;
        }
    }
    n
}

fn told(kind: usize, n: usize) -> bool
    requires { n < 9 }
{
    if kind == 1 {
        return true;
    }
    false
}
"""


class Forms(unittest.TestCase):
    def test_counts(self):
        with tempfile.TemporaryDirectory() as folder:
            top = Path(folder)
            (top / "tools").mkdir()
            shutil.copy(ROOT / "tools/forms", top / "tools/forms")
            (top / "crates/a/src").mkdir(parents=True)
            (top / "crates/a/src/lib.rt").write_text(SOURCE, encoding="utf-8")
            (top / "crates/a/proofs/first").mkdir(parents=True)
            (top / "crates/a/proofs/first/Answers.antt").write_text("a\nb\n", encoding="utf-8")
            ran = subprocess.run([top / "tools/forms", "--count"], capture_output=True, text=True, check=True)
        wanted = "point 1: 2|point 2: 0|point 3: 1|point 4: 1|point 5: 1|point 6: 2|point 7: 1|point 8: 1 answers, 2 lines of proofs/"
        self.assertEqual(ran.stdout.strip().split("\n"), wanted.split("|"))
