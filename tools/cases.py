"""What the program crates/cases is run on, and what it has to print.

    python3 tools/cases.py

writes crates/cases/stdin, the cases of every subject after a line `#SUBJECT`, and crates/cases/stdout, their answers; and what
the two programs are run on. All of it is made here, from the oracle's reading of the documents: nothing that a program prints
goes into it.
"""
from pathlib import Path

import change_cases
import change_list_cases
import clause_cases
import index_cases
import join_cases
import program_cases
import report_cases
import sheet_cases

CRATE = Path(__file__).resolve().parent.parent / "crates" / "cases"
# The program's room for its cases.
MOST_CASES = 14 * 2**15
SUBJECTS = {"sheets": sheet_cases, "reports": report_cases, "clauses": clause_cases, "joins": join_cases,
            "differences": change_cases, "lists": change_list_cases, "indexes": index_cases,
            "texts": program_cases}

if __name__ == "__main__":
    stdin, stdout = "", ""
    for subject, module in SUBJECTS.items():
        cases, answers = module.texts()
        stdin += f"#{subject}\n" + "".join(cases)
        stdout += "".join(answers)
        print(f"{subject}: {len(cases)} cases")
    assert len(stdin) <= MOST_CASES, len(stdin)
    (CRATE / "stdin").write_text(stdin)
    (CRATE / "stdout").write_text(stdout)
    print(f"cases: {len(stdin)} bytes in, {len(stdout)} out")
