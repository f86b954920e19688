"""Prints the words that the Python module has for every refusal and violation, a line each, and its
version, as tests/words.c does for the C header: the gate compares both with those of the Rust crate.

    UPLOAD_PLANNER_LIB=FILE PYTHONPATH=bindings/python python3 tests/words.py
"""
import upload_planner

for number in range(1, 23):
    print(number, upload_planner.Refused(number).words)
for number, words in sorted(upload_planner._VIOLATIONS.items()):
    if number > 0:
        print("violation", number, words)
print("version", upload_planner.__version__)
