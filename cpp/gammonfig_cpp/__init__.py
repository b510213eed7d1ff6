"""Reads the C++ of a Qt application by libclang, and writes a program of the class language."""
