"""The tests of the package. They run the real program, `SNAP` or `snap` on the path, in temporary folders."""
