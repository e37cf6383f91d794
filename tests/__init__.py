"""Black-box tests of the program: ./test runs them. README.md says how to add one."""
