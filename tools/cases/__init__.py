"""What the built program and the library are run on, and the expected results, by hand or by the plain forms of `tools.oracle`."""
